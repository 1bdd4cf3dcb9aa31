// The rules of the index in plain C++: distance, candidate list, walk, prune and insert, as a good engineer would write
// them for speed. Whole squared distances over bytes, order by (distance, number), alpha as a fraction a/b.
//
// It has the same two means as the index, which leave every list as it is: a table of 4,096 numbers that were met in
// this walk, and for each list how many members at its front came from one prune. -DSTAMPS keeps a stamp for each point
// in place of the table. -DPREFETCH asks for a vector's cache lines ahead, in walks and in the prunes that link back.
#pragma once
#include <algorithm>
#include <cstdint>
#include <cstring>
#include <utility>
#include <vector>

using u8 = uint8_t;
using u32 = uint32_t;
using u64 = uint64_t;

static inline u32 squared(const u8 *x, const u8 *y, size_t d) {
    int sum = 0;
    for (size_t i = 0; i < d; i++) { int e = (int)x[i] - y[i]; sum += e * e; }
    return (u32)sum;
}

// The candidate list: the least keys, with marks. A key is distance << 33 | number << 1 | visited.
struct Pool {
    std::vector<u64> keys;
    u32 size = 0, limit = 0, next = 0;
    void clear(u32 l) {
        limit = l;
        size = next = 0;
        if (keys.size() < l + 1) keys.resize(l + 1);
    }
    void offer(u32 distance, u32 number) {
        u64 key = (u64)distance << 33 | (u64)number << 1;
        u64 *k = keys.data();
        if (size == limit && key >= k[size - 1]) return;
        u32 low = 0, high = size;
        while (low < high) {
            u32 mid = (low + high) / 2;
            if (k[mid] < key) low = mid + 1; else high = mid;
        }
        if (low < size && k[low] >> 1 == key >> 1) return;
        if (size < limit) size++;
        memmove(k + low + 1, k + low, (size - 1 - low) * sizeof(u64));
        k[low] = key;
        if (low < next) next = low;
    }
    // The number of the least unvisited item, which is then visited, or -1.
    int64_t take() {
        while (next < size && (keys[next] & 1)) next++;
        if (next == size) return -1;
        keys[next] |= 1;
        return (u32)(keys[next++] >> 1);
    }
    u32 number(u32 i) const { return (u32)(keys[i] >> 1); }
    u32 distance(u32 i) const { return keys[i] >> 33; }
};

struct Graph {
    u32 d, r, l, a, b, count = 0;
    std::vector<u8> vectors;
    std::vector<u32> lists, degrees;
    std::vector<u8> clean; // so many members at the front of a list came from one prune
    const u8 *vector(u32 i) const { return &vectors[(size_t)i * d]; }
    const u32 *list(u32 i) const { return &lists[(size_t)i * r]; }
};

const u32 PLACES = 4096;

struct Scratch {
    Pool pool;
    std::vector<u32> visited, met;
    u32 epoch = 0;
    std::vector<std::pair<u64, u32>> order;
    std::vector<u32> old_kept, new_kept;
};

static void walk(const Graph &g, const u8 *q, u32 l, Scratch &s) {
    s.pool.clear(l);
    s.visited.clear();
    if (!g.count) return;
#ifdef STAMPS
    if (s.met.size() < g.count) s.met.resize(std::max<size_t>(g.count, s.met.size() * 2), 0);
    if (!++s.epoch) { std::fill(s.met.begin(), s.met.end(), 0); s.epoch = 1; }
    s.met[0] = s.epoch;
#else
    s.met.assign(PLACES, UINT32_MAX);
    s.met[0] = 0;
#endif
    s.pool.offer(squared(q, g.vector(0), g.d), 0);
    u32 fresh[128];
    for (int64_t at; (at = s.pool.take()) >= 0;) {
        s.visited.push_back((u32)at);
        const u32 *list = g.list((u32)at);
        u32 degree = g.degrees[at], m = 0;
        for (u32 i = 0; i < degree; i++) {
            u32 to = list[i];
#ifdef STAMPS
            if (s.met[to] == s.epoch) continue;
            s.met[to] = s.epoch;
#else
            if (s.met[to % PLACES] == to) continue;
            s.met[to % PLACES] = to;
#endif
            fresh[m++] = to;
#ifdef PREFETCH
            __builtin_prefetch(g.vector(to));
            __builtin_prefetch(g.vector(to) + 64);
#endif
        }
        for (u32 i = 0; i < m; i++) s.pool.offer(squared(q, g.vector(fresh[i]), g.d), fresh[i]);
    }
}

// What a point keeps of the candidates in `s.order`, (distance << 32 | number, number) each. Those at or below `last`
// are known not to cover each other.
template <class Between>
static u32 prune(u32 r, u64 aa, u64 bb, int64_t last, Scratch &s, Between between, u32 *out) {
    std::sort(s.order.begin(), s.order.end());
    s.old_kept.clear();
    s.new_kept.clear();
    u32 kept = 0;
    for (auto &c : s.order) {
        if (kept == r) break;
        u64 bound = bb * (c.first >> 32);
        bool covered = false, is_old = (int64_t)c.second <= last;
        for (size_t i = 0; i < s.new_kept.size() && !covered; i++) covered = aa * between(s.new_kept[i], c.second) <= bound;
        if (!is_old)
            for (size_t i = 0; i < s.old_kept.size() && !covered; i++) covered = aa * between(s.old_kept[i], c.second) <= bound;
        if (covered) continue;
        (is_old ? s.old_kept : s.new_kept).push_back(c.second);
        out[kept++] = c.second;
    }
    std::sort(out, out + kept);
    return kept;
}

static void put(Graph &g, const u8 *vector, Scratch &s) {
    u32 p = g.count;
    walk(g, vector, g.l, s);
    g.vectors.insert(g.vectors.end(), vector, vector + g.d);
    g.lists.resize(g.lists.size() + g.r);
    g.degrees.push_back(0);
    g.count++;
    u64 aa = (u64)g.a * g.a, bb = (u64)g.b * g.b;
    auto between = [&](u32 x, u32 y) { return squared(g.vector(x), g.vector(y), g.d); };
    u32 out[128], next[128];
    s.order.clear();
    for (u32 c : s.visited) s.order.push_back({(u64)between(p, c) << 32 | c, c});
    u32 kept = prune(g.r, aa, bb, -1, s, between, out);
    std::copy(out, out + kept, &g.lists[(size_t)p * g.r]);
    g.degrees[p] = kept;
    g.clean.push_back(kept);
    for (u32 i = 0; i < kept; i++) {
        u32 j = out[i], degree = g.degrees[j], *list = &g.lists[(size_t)j * g.r];
        if (degree < g.r) { // p is the greatest number, so the list stays in order
            list[degree] = p;
            g.degrees[j] = degree + 1;
            continue;
        }
        s.order.clear();
#ifdef PREFETCH
        for (u32 k = 0; k < degree; k++) {
            __builtin_prefetch(g.vector(list[k]));
            __builtin_prefetch(g.vector(list[k]) + 64);
        }
#endif
        for (u32 k = 0; k < degree; k++) s.order.push_back({(u64)between(j, list[k]) << 32 | list[k], list[k]});
        s.order.push_back({(u64)between(j, p) << 32 | p, p});
        u32 left = prune(g.r, aa, bb, g.clean[j] ? (int64_t)list[g.clean[j] - 1] : -1, s, between, next);
        std::copy(next, next + left, list);
        g.clean[j] = g.degrees[j] = left;
    }
}
