// Merges of points in doubling steps in plain C++, over the rules of rules.h: what a good engineer would write for speed.
//     merges BASE BOOK FIRST POINTS R L A B [GROWTH QUERY EXACT L ..]
// BASE is a file of vectors, BOOK a codebook. It merges the first FIRST points, then GROWTH more for each hundred that are there
// (100 if left out), until POINTS are merged. The segment of n points is sealed as the file 2n+1.seg of the current folder, in
// the index's own format. It prints a line for each merge: how many points were there, how many came, and milliseconds by the
// clock and of the processor. QUERY and EXACT are the files of queries and of exact answers: for each L it prints the recall at
// ten of beam searches of width 4 in the last segment, and how many blocks each reads.
#include "phases.h"
#include <fcntl.h>

static const size_t BLOCK = 4096, PIECE = 256;

// A segment: the Pids are the rows here, and so are the tags.
struct Segment {
    u32 count = 0;
    int file = -1;
    std::vector<u8> codes;
    size_t front = 0; // bytes before the first node block
};

static void put_number(u8 *at, u64 x, int bytes) { for (int i = 0; i < bytes; i++) at[i] = x >> 8 * i; }

static u32 number_at(const u8 *at, int bytes) {
    u32 x = 0;
    for (int i = 0; i < bytes; i++) x |= (u32)at[i] << 8 * i;
    return x;
}

static void read_all(int file, u8 *to, size_t n, size_t at) { if (pread(file, to, n, at) != (ssize_t)n) exit(3); }

static void write_all(int file, const u8 *from, size_t n) { if (write(file, from, n) != (ssize_t)n) exit(3); }

// The lists of a segment's rows, piece by piece.
static void read_lists(const Segment &old, u32 d, std::vector<std::vector<u32>> &lists) {
    std::vector<u8> blocks(PIECE * BLOCK);
    for (u32 first = 0; first < old.count; first += PIECE) {
        u32 n = std::min<u32>(PIECE, old.count - first);
        read_all(old.file, blocks.data(), n * BLOCK, old.front + first * BLOCK);
        for (u32 i = 0; i < n; i++) {
            const u8 *block = &blocks[i * BLOCK];
            u32 degree = number_at(block + 4, 2);
            std::vector<u32> list(degree);
            for (u32 k = 0; k < degree; k++) list[k] = number_at(block + 16 + d + 4 * k, 4);
            lists.push_back(list);
        }
    }
}

static void write_node(u8 *block, u32 row, const u8 *vector, u32 d, const std::vector<u32> &list) {
    memset(block, 0, BLOCK);
    put_number(block, row, 4);
    put_number(block + 4, list.size(), 2);
    put_number(block + 8, row, 8);
    memcpy(block + 16, vector, d);
    for (size_t k = 0; k < list.size(); k++) put_number(block + 16 + d + 4 * k, list[k], 4);
}

static std::vector<u8> front_of(const Rows &g, u64 number) {
    u32 m = g.book->m;
    std::vector<u8> front(BLOCK * (1 + ((size_t)g.count * (4 + m) + BLOCK - 1) / BLOCK));
    memcpy(front.data(), "ANNSEG01", 8);
    put_number(&front[8], number, 8);
    put_number(&front[16], g.d, 2);
    put_number(&front[18], g.r, 2);
    put_number(&front[20], m, 2);
    put_number(&front[24], g.count, 4);
    put_number(&front[28], g.entry, 4);
    for (u32 i = 0; i < g.count; i++) {
        put_number(&front[BLOCK + (size_t)i * (4 + m)], i, 4);
        memcpy(&front[BLOCK + (size_t)i * (4 + m) + 4], &g.codes[(size_t)i * m], m);
    }
    return front;
}

// The lists of a base of the first points, made by inserts of their decoded vectors.
static void make_base(Rows &g, u32 count, Scratch &s) {
    Graph made{g.d, g.r, g.l, g.a, g.b};
    for (u32 i = 0; i < count; i++) put(made, g.at(i), s);
    for (u32 i = 0; i < count; i++) g.lists.emplace_back(made.list(i), made.list(i) + made.degrees[i]);
}

// The lists of the points outside the base.
static std::vector<std::vector<u32>> link(Rows &g, const Vectors &all, u32 base, Scratch &s) {
    std::vector<std::vector<u32>> links;
    std::vector<u32> tables, met;
    u32 epoch = 0;
    for (u32 n = base; n < g.count; n++) {
        guided_walk(g, all.row(n), base, tables, met, epoch, s);
        links.push_back(kept_of(g, n, s.visited.data(), s.visited.size(), s));
    }
    return links;
}

// Writes all rows, those of the base with what is linked to them.
static void write_rows(int file, const Rows &g, const Segment &old, const Vectors &all, u32 base,
                       const std::vector<std::vector<u32>> &links, Scratch &s) {
    std::vector<std::vector<u32>> delta(base);
    for (u32 i = 0; i < links.size(); i++) for (u32 p : links[i]) delta[p].push_back(base + i);
    std::vector<u8> blocks(PIECE * BLOCK), page(BLOCK);
    std::vector<u32> candidates;
    for (u32 first = 0; first < g.count; first += PIECE) {
        u32 n = std::min<u32>(PIECE, g.count - first);
        for (u32 i = 0; i < n; i++) {
            u32 p = first + i;
            u8 *block = &blocks[i * BLOCK];
            const u8 *vector = all.row(p);
            if (p < old.count) { // the vector stands in the old block
                read_all(old.file, page.data(), BLOCK, old.front + p * BLOCK);
                vector = &page[16];
            }
            if (p >= base) { write_node(block, p, vector, g.d, links[p - base]); continue; }
            candidates = g.lists[p];
            candidates.insert(candidates.end(), delta[p].begin(), delta[p].end());
            write_node(block, p, vector, g.d, candidates.size() > g.r ? kept_of(g, p, candidates.data(), candidates.size(), s) : candidates);
        }
        write_all(file, blocks.data(), n * BLOCK);
    }
}

static Segment merge(Rows &g, const Segment &old, const Vectors &all, u32 end) {
    const Book &book = *g.book;
    Scratch s;
    g.count = end;
    g.codes = old.codes;
    g.codes.resize((size_t)end * book.m);
    g.decoded.resize((size_t)end * g.d);
    g.lists.clear();
    read_lists(old, g.d, g.lists);
    for (u32 i = 0; i < end; i++) {
        if (i >= old.count) code_of(book, all.row(i), &g.codes[(size_t)i * book.m]);
        decode(book, &g.codes[(size_t)i * book.m], &g.decoded[(size_t)i * g.d]);
    }
    u32 base = old.count ? old.count : std::min<u32>(1000, end);
    if (!old.count) make_base(g, base, s);
    g.entry = mean_entry(g, base);
    auto links = link(g, all, base, s);
    g.entry = mean_entry(g, end);
    u64 number = 2 * (u64)end + 1;
    std::string part = std::to_string(number) + ".part", whole = std::to_string(number) + ".seg";
    Segment made;
    made.count = end;
    made.codes = g.codes;
    made.file = open(part.c_str(), O_RDWR | O_CREAT | O_TRUNC, 0644);
    auto front = front_of(g, number);
    made.front = front.size();
    write_all(made.file, front.data(), front.size());
    write_rows(made.file, g, old, all, base, links, s);
    if (fsync(made.file) || rename(part.c_str(), whole.c_str())) exit(3);
    return made;
}

static double now() {
    timespec t;
    clock_gettime(CLOCK_MONOTONIC, &t);
    return t.tv_sec + t.tv_nsec * 1e-9;
}

// The ten nearest by exact distance of all that a beam search of width l visits, and how many those are.
static size_t beam(const Rows &g, const Vectors &all, const u8 *q, u32 l, std::vector<u32> &met, u32 epoch, Scratch &s, std::vector<u32> &got) {
    u32 m = g.book->m, round[4], n;
    std::vector<u32> tables(m * 256);
    for (u32 p = 0; p < m; p++) part_distances(*g.book, q, p, &tables[p * 256]);
    s.pool.clear(l);
    s.order.clear();
    met[g.entry] = epoch;
    s.pool.offer(guided(tables.data(), &g.codes[(size_t)g.entry * m], m), g.entry);
    for (;;) {
        int64_t at = 0;
        for (n = 0; n < 4 && (at = s.pool.take()) >= 0; n++) round[n] = (u32)at;
        if (!n) break;
        for (u32 i = 0; i < n; i++) s.order.push_back({(u64)squared(q, all.row(round[i]), g.d) << 32 | round[i], round[i]});
        for (u32 i = 0; i < n; i++)
            for (u32 to : g.lists[round[i]]) {
                if (met[to] == epoch) continue;
                met[to] = epoch;
                s.pool.offer(guided(tables.data(), &g.codes[(size_t)to * m], m), to);
            }
    }
    size_t ten = std::min<size_t>(10, s.order.size());
    std::partial_sort(s.order.begin(), s.order.begin() + ten, s.order.end());
    for (u32 i = 0; i < 10; i++) got.push_back(i < ten ? s.order[i].second : UINT32_MAX);
    return s.order.size();
}

static void tell_recall(Rows &g, const Segment &last, const Vectors &all, const Vectors &queries, const Exact &exact, u32 l) {
    Scratch s;
    std::vector<u32> met(g.count, 0), got;
    size_t reads = 0;
    g.lists.clear();
    read_lists(last, g.d, g.lists);
    for (u32 q = 0; q < queries.n; q++) reads += beam(g, all, queries.row(q), l, met, q + 1, s, got);
    printf("l %u: recall %.4f, %.1f reads\n", l, recall(exact, got, queries.n), reads / (double)queries.n);
}

int main(int c, char **v) {
    if (c < 9) return 2;
    u32 first = atoi(v[3]), points = atoi(v[4]);
    Vectors all = read_vectors(v[1], points);
    Book book = read_book(v[2]);
    Rows g{all.d, (u32)atoi(v[5]), (u32)atoi(v[6]), (u32)atoi(v[7]), (u32)atoi(v[8])};
    g.book = &book;
    Segment old;
    u64 growth = c > 9 ? atoi(v[9]) : 100;
    for (u32 end = std::min(first, points); old.count < end; end = std::min<u64>(end + end * growth / 100, points)) {
        double start = now(), work = busy();
        Segment made = merge(g, old, all, end);
        printf("%u %u %.0f %.0f\n", old.count, end - old.count, 1e3 * (now() - start), 1e3 * (busy() - work));
        fflush(stdout);
        if (old.file >= 0) close(old.file);
        old = made;
    }
    for (int i = 12; i < c; i++) tell_recall(g, old, all, read_vectors(v[10]), read_exact(v[11]), atoi(v[i]));
    return 0;
}
