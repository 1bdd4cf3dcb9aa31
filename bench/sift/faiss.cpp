// faiss's HNSW, whose vectors are floats, one insert at a time, and searches at each ef. Debian's faiss is built without AVX.
//     faiss BASE QUERY EXACT POINTS M EF_TO_BUILD EF ..
#include "vectors.h"
#include <faiss/IndexHNSW.h>
#include <omp.h>

int main(int c, char **v) {
    if (c < 7) return 2;
    Vectors base = read_vectors(v[1], (uint32_t)atoll(v[4])), query = read_vectors(v[2]);
    Exact exact = read_exact(v[3]);
    std::vector<float> points(base.bytes.begin(), base.bytes.end()), queries(query.bytes.begin(), query.bytes.end());
    omp_set_num_threads(1);
    double before = resident(), start = busy();
    faiss::IndexHNSWFlat index(base.d, atoi(v[5]));
    index.hnsw.efConstruction = atoi(v[6]);
    for (uint32_t i = 0; i < base.n; i++) index.add(1, &points[(size_t)i * base.d]);
    tell_insert(busy() - start, base.n, resident() - before);
    for (int i = 7; i < c; i++) {
        index.hnsw.efSearch = atoi(v[i]);
        std::vector<uint32_t> got((size_t)query.n * 10, UINT32_MAX);
        std::vector<float> far(10);
        std::vector<faiss::Index::idx_t> near(10);
        double best = 1e9;
        for (int again = 0; again < 3; again++) {
            start = busy();
            for (uint32_t q = 0; q < query.n; q++) {
                index.search(1, &queries[(size_t)q * query.d], 10, far.data(), near.data());
                for (int k = 0; k < 10; k++) got[(size_t)q * 10 + k] = (uint32_t)near[k];
            }
            best = std::min(best, busy() - start);
        }
        tell_search(atoi(v[i]), best, query.n, recall(exact, got, query.n));
    }
}
