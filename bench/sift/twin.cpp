// The rules of the index in plain C++ (../rules.h), over the same vectors: inserts one by one, and searches of each width.
//     twin BASE QUERY EXACT POINTS R L A B WIDTH ..
// It prints the hash of the lists: a program that follows the rules has the same one.
#include "../rules.h"
#include "vectors.h"

static u64 hash_of(const Graph &g) {
    u64 h = 1469598103934665603ull;
    auto add = [&](u32 x) { for (int i = 0; i < 4; i++) { h ^= x >> 8 * i & 255; h *= 1099511628211ull; } };
    for (u32 p = 0; p < g.count; p++) {
        add(g.degrees[p]);
        for (u32 i = 0; i < g.degrees[p]; i++) add(g.list(p)[i]);
    }
    return h;
}

int main(int c, char **v) {
    if (c < 9) return 2;
    Vectors base = read_vectors(v[1], (uint32_t)atoll(v[4])), query = read_vectors(v[2]);
    Exact exact = read_exact(v[3]);
    double before = resident();
    Graph g{base.d, (u32)atoi(v[5]), (u32)atoi(v[6]), (u32)atoi(v[7]), (u32)atoi(v[8])};
    Scratch s;
    double start = busy();
    for (u32 i = 0; i < base.n; i++) put(g, base.row(i), s);
    tell_insert(busy() - start, base.n, resident() - before);
    printf("lists %llu\n", (unsigned long long)hash_of(g));
    for (int i = 9; i < c; i++) {
        u32 width = atoi(v[i]);
        std::vector<uint32_t> got((size_t)query.n * 10, UINT32_MAX);
        double best = 1e9;
        for (int again = 0; again < 3; again++) {
            start = busy();
            for (u32 q = 0; q < query.n; q++) {
                walk(g, query.row(q), width, s);
                for (u32 k = 0; k < 10 && k < s.pool.size; k++) got[(size_t)q * 10 + k] = s.pool.number(k);
            }
            best = std::min(best, busy() - start);
        }
        tell_search(width, best, query.n, recall(exact, got, query.n));
    }
}
