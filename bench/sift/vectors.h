// Reading vector files and exact answers, recall, and time. For the programs of this folder.
#pragma once
#include <algorithm>
#include <cstdint>
#include <cstdio>
#include <cstdlib>
#include <string>
#include <time.h>
#include <unistd.h>
#include <vector>

// A file of vectors: their number and length (4 bytes each), then all bytes.
struct Vectors {
    uint32_t n = 0, d = 0;
    std::vector<uint8_t> bytes;
    const uint8_t *row(size_t i) const { return bytes.data() + i * d; }
};

inline FILE *opened(const std::string &path, const char *mode) {
    FILE *file = fopen(path.c_str(), mode);
    if (!file) { perror(path.c_str()); exit(2); }
    return file;
}

inline void read_words(FILE *file, uint32_t *words, size_t count) {
    if (fread(words, 4, count, file) != count) exit(2);
}

inline Vectors read_vectors(const std::string &path, uint32_t most = UINT32_MAX) {
    FILE *file = opened(path, "rb");
    uint32_t head[2];
    read_words(file, head, 2);
    Vectors all;
    all.n = std::min(head[0], most);
    all.d = head[1];
    all.bytes.resize((size_t)all.n * all.d);
    if (fread(all.bytes.data(), 1, all.bytes.size(), file) != all.bytes.size()) exit(2);
    fclose(file);
    return all;
}

// The exact answers: the number of queries and how many answers each has (4 bytes each), then the answers' numbers.
struct Exact {
    uint32_t n = 0, k = 0;
    std::vector<uint32_t> numbers;
};

inline Exact read_exact(const std::string &path) {
    FILE *file = opened(path, "rb");
    uint32_t head[2];
    read_words(file, head, 2);
    Exact exact{head[0], head[1], std::vector<uint32_t>((size_t)head[0] * head[1])};
    read_words(file, exact.numbers.data(), exact.numbers.size());
    fclose(file);
    return exact;
}

// How many of ten answers of each query are among the ten exact ones, as a fraction.
inline double recall(const Exact &exact, const std::vector<uint32_t> &got, uint32_t queries) {
    size_t hits = 0;
    for (uint32_t q = 0; q < queries; q++)
        for (uint32_t i = 0; i < 10; i++) {
            const uint32_t *ten = &exact.numbers[(size_t)q * exact.k];
            hits += std::find(ten, ten + 10, got[(size_t)q * 10 + i]) != ten + 10;
        }
    return hits / (queries * 10.0);
}

// Seconds of the processor that this thread took.
inline double busy() {
    timespec t;
    clock_gettime(CLOCK_THREAD_CPUTIME_ID, &t);
    return t.tv_sec + t.tv_nsec * 1e-9;
}

// Resident memory now, in MB.
inline double resident() {
    FILE *file = fopen("/proc/self/statm", "r");
    long all = 0, mine = 0;
    if (!file || fscanf(file, "%ld %ld", &all, &mine) != 2) return 0;
    fclose(file);
    return mine * (double)sysconf(_SC_PAGESIZE) / 1e6;
}

// One line for each figure.
inline void tell_insert(double seconds, uint32_t n, double memory) {
    printf("insert %.3f us %.0f MB\n", seconds * 1e6 / n, memory);
    fflush(stdout);
}
inline void tell_search(uint32_t width, double seconds, uint32_t queries, double found) {
    printf("search %u %.3f us %.4f\n", width, seconds * 1e6 / queries, found);
    fflush(stdout);
}
