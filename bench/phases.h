// What the phases of a merge share in plain C++: codebooks, decoded vectors, the mean and walks over codes. For the programs
// of this folder.
#pragma once
#include "rules.h"
#include "sift/vectors.h"

// A codebook: for each part 256 centroids, and for each component of a part the centroids' in a row.
struct Book {
    u32 d = 0, m = 0;
    std::vector<u8> bytes, turned;
    u32 sub() const { return d / m; }
    const u8 *centroid(u32 part, u32 c) const { return &bytes[((size_t)part * 256 + c) * sub()]; }
};

static Book read_book(const char *path) {
    FILE *file = opened(path, "rb");
    u8 head[12];
    if (fread(head, 1, 12, file) != 12) exit(2);
    Book b;
    b.d = head[8] | head[9] << 8;
    b.m = head[10] | head[11] << 8;
    b.bytes.resize(256 * b.d);
    if (fread(b.bytes.data(), 1, b.bytes.size(), file) != b.bytes.size()) exit(2);
    fclose(file);
    b.turned.resize(b.bytes.size());
    for (u32 p = 0; p < b.m; p++)
        for (u32 c = 0; c < 256; c++)
            for (u32 i = 0; i < b.sub(); i++) b.turned[((size_t)p * b.sub() + i) * 256 + c] = b.centroid(p, c)[i];
    return b;
}

static void part_distances(const Book &b, const u8 *v, u32 p, u32 *__restrict e) {
    memset(e, 0, 1024);
    for (u32 i = 0; i < b.sub(); i++) {
        int x = v[p * b.sub() + i];
        const u8 *t = &b.turned[((size_t)p * b.sub() + i) * 256];
        for (u32 c = 0; c < 256; c++) { int y = x - t[c]; e[c] += y * y; }
    }
}

static void code_of(const Book &b, const u8 *v, u8 *out) {
    u32 e[256];
    for (u32 p = 0; p < b.m; p++) {
        part_distances(b, v, p, e);
        out[p] = std::min_element(e, e + 256) - e;
    }
}

static void decode(const Book &b, const u8 *code, u8 *out) {
    for (u32 p = 0; p < b.m; p++) memcpy(out + p * b.sub(), b.centroid(p, code[p]), b.sub());
}

static inline u32 guided(const u32 *tables, const u8 *code, u32 m) {
    u32 sum = 0;
    for (u32 p = 0; p < m; p++) sum += tables[p * 256 + code[p]];
    return sum;
}

// Points by rows: codes, decoded vectors and lists.
struct Rows {
    u32 d, r, l, a, b, count = 0, entry = 0;
    const Book *book;
    std::vector<u8> codes, decoded;
    std::vector<std::vector<u32>> lists;
    const u8 *at(u32 i) const { return &decoded[(size_t)i * d]; }
};

static u32 mean_entry(const Rows &g, u32 count) {
    std::vector<u64> sums(g.d);
    std::vector<u8> mean(g.d);
    for (u32 i = 0; i < count; i++) for (u32 j = 0; j < g.d; j++) sums[j] += g.at(i)[j];
    for (u32 j = 0; j < g.d; j++) mean[j] = sums[j] / count;
    u32 best = UINT32_MAX, row = 0;
    for (u32 i = 0; i < count; i++) {
        u32 e = squared(g.at(i), mean.data(), g.d);
        if (e < best) { best = e; row = i; }
    }
    return row;
}

// What a point keeps of others, by decoded distances.
static std::vector<u32> kept_of(const Rows &g, u32 p, const u32 *rows, size_t n, Scratch &s) {
    s.order.clear();
    for (size_t i = 0; i < n; i++) s.order.push_back({(u64)squared(g.at(p), g.at(rows[i]), g.d) << 32 | rows[i], rows[i]});
    std::vector<u32> out(g.r);
    auto between = [&](u32 x, u32 y) { return squared(g.at(x), g.at(y), g.d); };
    out.resize(prune(g.r, (u64)g.a * g.a, (u64)g.b * g.b, -1, s, between, out.data()));
    return out;
}

// The visited rows of a walk over codes, with part tables, and a stamp for each row that was met.
static void guided_walk(const Rows &g, const u8 *q, u32 rows, std::vector<u32> &tables, std::vector<u32> &met, u32 &epoch, Scratch &s) {
    u32 m = g.book->m;
    tables.resize(m * 256);
    for (u32 p = 0; p < m; p++) part_distances(*g.book, q, p, &tables[p * 256]);
    s.pool.clear(g.l);
    s.visited.clear();
    met.resize(rows, 0);
    met[g.entry] = ++epoch;
    s.pool.offer(guided(tables.data(), &g.codes[(size_t)g.entry * m], m), g.entry);
    for (int64_t at; (at = s.pool.take()) >= 0;) {
        s.visited.push_back((u32)at);
        for (u32 to : g.lists[at]) {
            if (met[to] == epoch) continue;
            met[to] = epoch;
            s.pool.offer(guided(tables.data(), &g.codes[(size_t)to * m], m), to);
        }
    }
}
