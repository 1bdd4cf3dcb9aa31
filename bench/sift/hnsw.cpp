// hnswlib over bytes, one insert at a time, and searches at each ef.
//     hnsw BASE QUERY EXACT POINTS M EF_TO_BUILD EF ..
#include "vectors.h"
#include <hnswlib/hnswlib.h>

int main(int c, char **v) {
    if (c < 7) return 2;
    Vectors base = read_vectors(v[1], (uint32_t)atoll(v[4])), query = read_vectors(v[2]);
    Exact exact = read_exact(v[3]);
    hnswlib::L2SpaceI space(base.d);
    double before = resident(), start = busy();
    hnswlib::HierarchicalNSW<int> index(&space, base.n, atoi(v[5]), atoi(v[6]));
    for (uint32_t i = 0; i < base.n; i++) index.addPoint(base.row(i), i);
    tell_insert(busy() - start, base.n, resident() - before);
    for (int i = 7; i < c; i++) {
        index.setEf(atoi(v[i]));
        std::vector<uint32_t> got((size_t)query.n * 10, UINT32_MAX);
        double best = 1e9;
        for (int again = 0; again < 3; again++) {
            start = busy();
            for (uint32_t q = 0; q < query.n; q++) {
                auto found = index.searchKnn(query.row(q), 10);
                for (size_t k = found.size(); k-- > 0; found.pop()) got[(size_t)q * 10 + k] = found.top().second;
            }
            best = std::min(best, busy() - start);
        }
        tell_search(atoi(v[i]), best, query.n, recall(exact, got, query.n));
    }
}
