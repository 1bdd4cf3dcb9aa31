// Searches of a sealed segment in plain C++: what a good engineer would write for speed.
//     served SEGMENT BOOK QUERIES K L W
// SEGMENT is a file in the index's own format, BOOK its codebook, QUERIES a file of vectors. Codes lie in memory. A search goes by
// rounds: of the L nearest by guided distance that it has met it visits the first W that it hasn't, reads the block of each, and
// ranks them by exact distance, ties by number. To standard error it prints `searches`, nanoseconds of the processor and the number
// of queries, and `reads` with the number of blocks; to standard output the tags of the first K for each query.
#include "phases.h"
#include <fcntl.h>

static const size_t BLOCK = 4096;

static u64 number_at(const u8 *at, int bytes) {
    u64 x = 0;
    for (int i = 0; i < bytes; i++) x |= (u64)at[i] << 8 * i;
    return x;
}

static void read_all(int file, u8 *to, size_t n, size_t at) { if (pread(file, to, n, at) != (ssize_t)n) exit(3); }

struct Disk {
    int file;
    u32 d, r, m, count, entry;
    std::vector<u32> pids;
    std::vector<u8> codes;
    size_t front;
};

static Disk open_segment(const char *path) {
    Disk s;
    s.file = open(path, O_RDONLY);
    if (s.file < 0) { perror(path); exit(2); }
    u8 head[BLOCK];
    read_all(s.file, head, BLOCK, 0);
    s.d = number_at(head + 16, 2), s.r = number_at(head + 18, 2), s.m = number_at(head + 20, 2);
    s.count = number_at(head + 24, 4), s.entry = number_at(head + 28, 4);
    size_t items = (size_t)s.count * (4 + s.m), blocks = (items + BLOCK - 1) / BLOCK;
    std::vector<u8> directory(blocks * BLOCK);
    read_all(s.file, directory.data(), directory.size(), BLOCK);
    s.front = BLOCK * (1 + blocks);
    s.codes.resize((size_t)s.count * s.m);
    for (u32 i = 0; i < s.count; i++) {
        const u8 *item = &directory[(size_t)i * (4 + s.m)];
        s.pids.push_back(number_at(item, 4));
        memcpy(&s.codes[(size_t)i * s.m], item + 4, s.m);
    }
    return s;
}

struct Item { u32 distance, pid; u64 tag; };

int main(int c, char **v) {
    if (c < 7) return 2;
    Disk s = open_segment(v[1]);
    Book book = read_book(v[2]);
    Vectors queries = read_vectors(v[3]);
    u32 k = atoi(v[4]), l = atoi(v[5]), w = atoi(v[6]);
    std::vector<u32> tables(s.m * 256), met(s.count, 0), round(w);
    std::vector<u8> blocks(w * BLOCK);
    std::vector<Item> found;
    std::vector<std::vector<u64>> told;
    Pool pool;
    size_t reads = 0;
    double start = busy();
    for (u32 q = 0; q < queries.n; q++) {
        const u8 *ask = queries.row(q);
        for (u32 p = 0; p < s.m; p++) part_distances(book, ask, p, &tables[p * 256]);
        pool.clear(l);
        found.clear();
        met[s.entry] = q + 1;
        pool.offer(guided(tables.data(), &s.codes[(size_t)s.entry * s.m], s.m), s.entry);
        for (;;) {
            u32 n = 0;
            int64_t row;
            while (n < w && (row = pool.take()) >= 0) round[n++] = row;
            if (!n) break;
            for (u32 i = 0; i < n; i++) read_all(s.file, &blocks[i * BLOCK], BLOCK, s.front + (size_t)round[i] * BLOCK);
            reads += n;
            for (u32 i = 0; i < n; i++) {
                const u8 *block = &blocks[i * BLOCK];
                found.push_back({squared(ask, block + 16, s.d), s.pids[round[i]], number_at(block + 8, 8)});
                u32 degree = number_at(block + 4, 2);
                const u8 *list = block + 16 + s.d;
                for (u32 j = 0; j < degree; j++) {
                    u32 to = number_at(list + 4 * j, 4);
                    if (met[to] == q + 1) continue;
                    met[to] = q + 1;
                    pool.offer(guided(tables.data(), &s.codes[(size_t)to * s.m], s.m), to);
                }
            }
        }
        size_t few = std::min<size_t>(k, found.size());
        std::partial_sort(found.begin(), found.begin() + few, found.end(), [](const Item &a, const Item &b) { return a.distance != b.distance ? a.distance < b.distance : a.pid < b.pid; });
        std::vector<u64> tags;
        for (size_t i = 0; i < few; i++) tags.push_back(found[i].tag);
        told.push_back(tags);
    }
    fprintf(stderr, "searches %.0f %u\nreads %zu\n", (busy() - start) * 1e9, queries.n, reads);
    for (auto &tags : told) {
        for (u64 tag : tags) printf("%llu ", (unsigned long long)tag);
        printf("\n");
    }
}
