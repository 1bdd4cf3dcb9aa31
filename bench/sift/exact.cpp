// Exact nearest neighbours by trying all: squared distance over bytes, a tie to the lower number.
//     exact BASE QUERY OUT POINTS
#include "vectors.h"
#include <thread>

static uint32_t squared(const uint8_t *x, const uint8_t *y, size_t d) {
    int32_t sum = 0;
    for (size_t i = 0; i < d; i++) { int32_t e = (int32_t)x[i] - y[i]; sum += e * e; }
    return (uint32_t)sum;
}

int main(int c, char **v) {
    if (c < 5) return 2;
    const uint32_t k = 10, threads = 4;
    Vectors base = read_vectors(v[1], (uint32_t)atoll(v[4])), query = read_vectors(v[2]);
    std::vector<uint32_t> numbers((size_t)query.n * k);
    std::vector<std::thread> all;
    for (uint32_t t = 0; t < threads; t++)
        all.emplace_back([&, t] {
            std::vector<uint64_t> keys(base.n);
            for (uint32_t q = t; q < query.n; q += threads) {
                for (uint32_t i = 0; i < base.n; i++) keys[i] = (uint64_t)squared(query.row(q), base.row(i), base.d) << 32 | i;
                std::partial_sort(keys.begin(), keys.begin() + k, keys.end());
                for (uint32_t j = 0; j < k; j++) numbers[(size_t)q * k + j] = (uint32_t)keys[j];
            }
        });
    for (auto &t : all) t.join();
    FILE *file = opened(v[3], "wb");
    uint32_t head[2] = {query.n, k};
    fwrite(head, 4, 2, file);
    fwrite(numbers.data(), 4, numbers.size(), file);
    return fclose(file) != 0;
}
