// The timed loops of `ann_bench` in C++: the same vectors, loops and sums. The lines go to standard output:
//     NAME NANOSECONDS COUNT SUM
#include "rules.h"
#include <cstdio>
#include <cstdlib>
#include <time.h>

const size_t DIMENSION = 128;

static u64 busy() {
    timespec t;
    clock_gettime(CLOCK_THREAD_CPUTIME_ID, &t);
    return (u64)t.tv_sec * 1000000000 + t.tv_nsec;
}

static void report(const char *name, u64 start, u64 count, u64 sum) {
    printf("%s %llu %llu %llu\n", name, (unsigned long long)(busy() - start), (unsigned long long)count, (unsigned long long)sum);
}

static std::vector<u8> generated(u32 seed, u32 count) {
    std::vector<u8> v(count * DIMENSION);
    u32 x = seed;
    for (auto &b : v) { x = (x * 1103515245u + 12345u) & 0x7fffffff; b = x >> 16; }
    return v;
}

__attribute__((noinline)) static u64 scan(const u8 *vectors, u32 count, const u8 *query) {
    u64 sum = 0;
    for (u32 i = 0; i < count; i++) sum += squared(vectors + i * DIMENSION, query, DIMENSION);
    return sum;
}

// ---- codes: a codebook whose centroids stand side by side for each component, so that its loops run over lanes

const u32 PARTS = 32, WIDTH = DIMENSION / PARTS;

struct Book {
    std::vector<u8> bytes, turned;
};

static Book generated_book() {
    Book b;
    b.bytes = generated(3, 256);
    b.turned.resize(b.bytes.size());
    for (u32 p = 0; p < PARTS; p++)
        for (u32 c = 0; c < 256; c++)
            for (u32 i = 0; i < WIDTH; i++) b.turned[(p * WIDTH + i) * 256 + c] = b.bytes[(p * 256 + c) * WIDTH + i];
    return b;
}

static void part_distances(const Book &b, const u8 *v, u32 p, u32 *__restrict e) {
    memset(e, 0, 1024);
    for (u32 i = 0; i < WIDTH; i++) {
        int x = v[p * WIDTH + i];
        const u8 *t = &b.turned[(p * WIDTH + i) * 256];
        for (u32 c = 0; c < 256; c++) { int y = x - t[c]; e[c] += y * y; }
    }
}

static void code_of(const Book &b, const u8 *v, u8 *out) {
    u32 e[256];
    for (u32 p = 0; p < PARTS; p++) {
        part_distances(b, v, p, e);
        u32 best = UINT32_MAX;
        for (u32 c = 0; c < 256; c++) best = std::min(best, e[c]);
        u32 c = 0;
        while (e[c] != best) c++;
        out[p] = c;
    }
}

__attribute__((noinline)) static u64 guided_sum(const u32 *tables, const u8 *codes, u32 count) {
    u64 all = 0;
    for (u32 i = 0; i < count; i++) {
        u32 sum = 0;
        for (u32 p = 0; p < PARTS; p++) sum += tables[p * 256 + codes[i * PARTS + p]];
        all += sum;
    }
    return all;
}

// ---- a node block, checked whole

static u64 field(const u8 *at, int n) { u64 x = 0; for (int i = 0; i < n; i++) x |= (u64)at[i] << 8 * i; return x; }

__attribute__((noinline)) static int read_node(const u8 *block, u32 pid, u32 row, u32 count, u32 r) {
    if (field(block, 4) != pid) return -1;
    u32 degree = field(block + 4, 2);
    if (degree > r) return -1;
    const u8 *list = block + 16 + DIMENSION;
    int64_t last = -1;
    for (u32 i = 0; i < degree; i++) {
        u32 to = field(list + 4 * i, 4);
        if (to == row || to >= count || to <= last) return -1;
        last = to;
    }
    u8 any = block[6] | block[7];
    for (const u8 *b = list + 4 * degree; b < block + 4096; b++) any |= *b;
    return any ? -1 : (int)degree;
}

static void put_field(u8 *at, u64 x, int n) { for (int i = 0; i < n; i++) at[i] = x >> 8 * i; }

static void time_codes(u32 turns) {
    Book book = generated_book();
    auto vectors = generated(1, 100);
    u64 start = busy(), sum = 0;
    for (u32 t = 0; t < turns; t++)
        for (u32 i = 0; i < 100; i++) {
            u8 code[PARTS];
            code_of(book, &vectors[i * DIMENSION], code);
            for (u8 c : code) sum += c;
        }
    report("code", start, (u64)turns * 100, sum);
    std::vector<u32> tables(PARTS * 256);
    start = busy();
    for (u32 t = 0; t < turns; t++)
        for (u32 i = 0; i < 100; i++)
            for (u32 p = 0; p < PARTS; p++) part_distances(book, &vectors[i * DIMENSION], p, &tables[p * 256]);
    report("fill", start, (u64)turns * 100, 0);
    std::vector<u8> zeros(DIMENSION);
    for (u32 p = 0; p < PARTS; p++) part_distances(book, zeros.data(), p, &tables[p * 256]);
    u32 codes = vectors.size() / PARTS;
    start = busy();
    sum = 0;
    for (u32 t = 0; t < turns; t++) {
        asm volatile("" : : "r"(tables.data()) : "memory"); // so that each turn reads the tables
        sum += guided_sum(tables.data(), vectors.data(), codes);
    }
    report("guided", start, (u64)turns * codes, sum);
}

static void time_blocks(u32 turns) {
    std::vector<u8> block(4096);
    put_field(&block[0], 7, 4);
    put_field(&block[4], 64, 2);


    for (u32 i = 0; i < 64; i++) put_field(&block[16 + DIMENSION + 4 * i], 8 + 2 * i, 4);
    u64 start = busy(), sum = 0;
    for (u32 t = 0; t < turns * 100; t++) {
        asm volatile("" : : "r"(block.data()) : "memory"); // so that each turn reads the block
        sum += read_node(block.data(), 7, 7, 1000, 64);
    }
    report("read_node", start, (u64)turns * 100, sum);
}

int main(int count, char **words) {
    u32 points = count > 1 ? atoi(words[1]) : 200, turns = count > 2 ? atoi(words[2]) : 1;
    {
        auto vectors = generated(1, 100), queries = generated(777, 20);
        u64 start = busy(), sum = 0;
        for (u32 t = 0; t < turns; t++) for (u32 i = 0; i < 20; i++) sum += scan(vectors.data(), 100, &queries[i * DIMENSION]);
        report("squared", start, (u64)turns * 2000, sum);
    }
    {
        Pool pool;
        u64 start = busy(), sum = 0;
        for (u32 t = 0; t < turns; t++) {
            u32 x = t;
            pool.clear(75);
            for (u32 i = 0; i < 1500; i++) { x = (x * 1103515245u + 12345u) & 0x7fffffff; pool.offer(x, i); }
            sum += pool.distance(0);
        }
        report("offer", start, (u64)turns * 1500, sum);
    }
    time_codes(turns);
    time_blocks(turns);
    auto vectors = generated(1, points), queries = generated(777, 200);
    Graph g{};
    g.d = DIMENSION, g.r = 64, g.l = 75, g.a = 12, g.b = 10;
    Scratch s;
    u64 start = busy();
    for (u32 i = 0; i < points; i++) put(g, &vectors[i * DIMENSION], s);
    report("insert", start, points, 0);
    for (u32 width : {10, 50, 100, 200}) {
        start = busy();
        u64 sum = 0;
        for (u32 t = 0; t < turns; t++)
            for (u32 i = 0; i < 200; i++) {
                walk(g, &queries[i * DIMENSION], width, s);
                sum += s.pool.distance(0);
            }
        report("walk", start, (u64)turns * 200, sum);
    }
}
