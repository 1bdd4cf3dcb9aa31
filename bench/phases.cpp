// The phases of a merge in plain C++, over the rules of rules.h: what a good engineer would write for speed.
//     phases BASE BOOK POINTS NEW R L A B
// BASE is a file of vectors, BOOK a codebook. The graph on disk is what inserts of the decoded vectors of the first POINTS
// make; every tenth of its points is deleted for the Delete phase, and none for the other two. NEW points follow.
// It prints a line for each phase: its name, nanoseconds of the processor for each point, and the hash of its lists.
#include "phases.h"

static u64 hash_of(const std::vector<std::vector<u32>> &lists) {
    u64 h = 1469598103934665603ull;
    auto add = [&](u32 x) { for (int i = 0; i < 4; i++) { h ^= x >> 8 * i & 255; h *= 1099511628211ull; } };
    for (auto &list : lists) {
        add(list.size());
        for (u32 x : list) add(x);
    }
    return h;
}

static void tell(const char *name, double seconds, u32 points, u64 hash) {
    printf("%s %.0f %llu\n", name, seconds * 1e9 / points, (unsigned long long)hash);
    fflush(stdout);
}

int main(int c, char **v) {
    if (c < 9) return 2;
    u32 points = atoi(v[3]), fresh = atoi(v[4]);
    Vectors base = read_vectors(v[1], points + fresh);
    Book book = read_book(v[2]);
    Rows g{base.d, (u32)atoi(v[5]), (u32)atoi(v[6]), (u32)atoi(v[7]), (u32)atoi(v[8])};
    g.book = &book;
    g.count = points + fresh;
    g.codes.resize((size_t)g.count * book.m);
    g.decoded.resize((size_t)g.count * g.d);
    Graph made{g.d, g.r, g.l, g.a, g.b};
    Scratch s;
    for (u32 i = 0; i < g.count; i++) {
        code_of(book, base.row(i), &g.codes[(size_t)i * book.m]);
        decode(book, &g.codes[(size_t)i * book.m], &g.decoded[(size_t)i * g.d]);
        if (i < points) put(made, g.at(i), s);
    }
    for (u32 i = 0; i < points; i++) g.lists.emplace_back(made.list(i), made.list(i) + made.degrees[i]);
    tell("base", 0, 1, hash_of(g.lists));

    // Delete phase: the survivors' lists.
    std::vector<std::vector<u32>> repaired;
    std::vector<u32> candidates, seen(points, UINT32_MAX);
    double start = busy();
    for (u32 p = 0; p < points; p++) {
        if (p % 10 == 9) continue;
        bool hurt = false;
        for (u32 x : g.lists[p]) hurt |= x % 10 == 9;
        if (!hurt) { repaired.push_back(g.lists[p]); continue; }
        candidates.clear();
        auto add = [&](u32 x) {
            if (x % 10 == 9 || x == p || seen[x] == p) return;
            seen[x] = p;
            candidates.push_back(x);
        };
        for (u32 x : g.lists[p]) add(x);
        for (u32 x : g.lists[p]) if (x % 10 == 9) for (u32 y : g.lists[x]) add(y);
        repaired.push_back(kept_of(g, p, candidates.data(), candidates.size(), s));
    }
    tell("delete", busy() - start, points - points / 10, hash_of(repaired));

    // Insert phase: the new points' lists.
    g.entry = mean_entry(g, points);
    std::vector<std::vector<u32>> links;
    std::vector<u32> tables, met;
    u32 epoch = 0;
    start = busy();
    for (u32 n = points; n < g.count; n++) {
        guided_walk(g, base.row(n), points, tables, met, epoch, s);
        links.push_back(kept_of(g, n, s.visited.data(), s.visited.size(), s));
    }
    tell("insert", busy() - start, fresh, hash_of(links));

    // Patch phase: the base's lists.
    std::vector<std::vector<u32>> delta(points), patched;
    for (u32 i = 0; i < fresh; i++) for (u32 p : links[i]) delta[p].push_back(points + i);
    start = busy();
    for (u32 p = 0; p < points; p++) {
        candidates = g.lists[p];
        candidates.insert(candidates.end(), delta[p].begin(), delta[p].end());
        patched.push_back(candidates.size() > g.r ? kept_of(g, p, candidates.data(), candidates.size(), s) : candidates);
    }
    tell("patch", busy() - start, points, hash_of(patched));
    return 0;
}
