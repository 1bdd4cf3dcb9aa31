// A log in C++: its preamble and frames, how it is made, and how it is opened, with the checks and the copies of the proved `Log::open`.
#pragma once
#include <algorithm>
#include <cstdint>
#include <cstdio>
#include <cstdlib>
#include <cstring>
#include <fcntl.h>
#include <sys/resource.h>
#include <sys/stat.h>
#include <sys/wait.h>
#include <time.h>
#include <unistd.h>
#include <utility>
#include <vector>

using u8 = uint8_t;
using u16 = uint16_t;
using u32 = uint32_t;
using u64 = uint64_t;
using Bytes = std::vector<u8>;

template <class T> static T get(const u8 *at) { T x; memcpy(&x, at, sizeof x); return x; }
template <class T> static void put(Bytes &out, T x) { out.insert(out.end(), (u8 *)&x, (u8 *)&x + sizeof x); }

[[noreturn]] static void fail(const char *why) { fprintf(stderr, "%s\n", why); exit(1); }

static u64 now(clockid_t clock) {
    timespec t;
    clock_gettime(clock, &t);
    return (u64)t.tv_sec * 1000000000 + t.tv_nsec;
}

// ---- a log

struct Params { u16 d, r, l_build, a, b, w, m; u32 freeze_at; };
struct Base { u64 position, segment, next; };

// The codebook, and its centroids once more, so that those of one component stand side by side.
struct Book { Bytes bytes, turned; };

struct Preamble {
    bool is_there = false;
    Params params;
    Base base;
    u64 generation, gate;
    Book book;
};

struct Entry {
    u8 kind;
    u32 by;
    u64 number; // a tag or a segment's number
    Bytes vector;
};

struct Log {
    int file, other;
    Preamble preamble;
    u64 gate;
    std::vector<Entry> entries;
    Bytes frame_room, preamble_room;
};

static bool within_limits(const Params &p) {
    return 1 <= p.m && p.m <= 64 && 1 <= p.d && p.d <= 1024 && p.d % p.m == 0 && 2 <= p.r && p.r <= 128 && 1 <= p.l_build
        && p.l_build <= 1000 && 1 <= p.b && p.b <= p.a && p.a <= 100 && 1 <= p.w && p.w <= 16 && 1 <= p.freeze_at
        && p.freeze_at <= 100000;
}

static bool valid(const Base &b) {
    if (b.next >> 32) return false;
    if (!b.position && !b.segment && !b.next) return true;
    return b.segment % 2 == 1 && b.segment < 1ull << 63 && b.position == (b.segment + 3) / 2;
}

static Book book_in(const u8 *at, const Params &p) {
    u32 width = p.d / p.m;
    Book book{Bytes(at, at + 12 + 256 * p.d), Bytes(256 * p.d)};
    for (u32 part = 0; part < p.m; part++)
        for (u32 c = 0; c < 256; c++)
            for (u32 i = 0; i < width; i++)
                book.turned[(part * width + i) * 256 + c] = at[12 + (256 * part + c) * width + i];
    return book;
}

// The preamble with which the bytes begin, of either version.
static Preamble preamble_of(const Bytes &bytes) {
    Preamble p;
    const u8 *b = bytes.data();
    bool two = bytes.size() >= 61 && !memcmp(b, "\x01" "ANNLOG02", 9);
    bool one = !two && bytes.size() >= 29 && !memcmp(b, "\x01" "ANNLOG01", 9);
    if (!one && !two) return p;
    u16 f[8];
    memcpy(f, b + 9, 16);
    p.params = {f[0], f[1], f[2], f[3], f[4], f[5], f[6], get<u32>(b + 25)};
    p.generation = two ? get<u64>(b + 29) : 0;
    p.base = two ? Base{get<u64>(b + 37), get<u64>(b + 45), get<u64>(b + 53)} : Base{0, 0, 0};
    if ((two && !p.generation) || f[7] || !valid(p.base) || !within_limits(p.params)) return p;
    u64 at = two ? 61 : 29;
    p.gate = at + 12 + 256 * p.params.d;
    if (bytes.size() <= p.gate || memcmp(b + at, "ANNPQ001", 8)) return p;
    if (get<u16>(b + at + 8) != p.params.d || get<u16>(b + at + 10) != p.params.m) return p;
    p.book = book_in(b + at, p.params);
    p.is_there = true;
    return p;
}

// Reads the whole entries at the front, and gives the place behind them.
static const u8 *read_entries(const u8 *at, const u8 *end, u32 d, std::vector<Entry> &entries) {
    while (at < end) {
        u32 kind = *at, vector = kind == 1 || kind == 5 ? d : 0, size = kind == 3 ? 5 : 13 + vector;
        if (kind < 1 || kind > 5 || (u64)(end - at) < size) return at;
        entries.push_back({(u8)kind, get<u32>(at + 1), kind == 3 ? 0 : get<u64>(at + 5), Bytes(at + size - vector, at + size)});
        at += size;
    }
    return at;
}

// Reads the frames from a gate on, and gives the place of the first gate that isn't open.
static u64 read_frames(const Bytes &bytes, u64 gate, u32 d, std::vector<Entry> &entries) {
    while (bytes[gate] == 1) {
        u64 body = gate + 5;
        if (bytes.size() < body) fail("bad log");
        u64 size = get<u32>(&bytes[gate + 1]);
        const u8 *end = bytes.data() + std::min(body + size, (u64)bytes.size());
        const u8 *at = read_entries(bytes.data() + body, end, d, entries);
        if (body + size >= bytes.size() || !size || at < end) fail("bad log");
        gate = body + size;
    }
    return gate;
}

static int synced(const char *name) {
    int file = open(name, O_RDWR | O_CREAT, 0666);
    if (file < 0 || fsync(file)) fail(name);
    return file;
}

static Bytes read_all(int file) {
    struct stat s;
    if (fstat(file, &s)) fail("fstat");
    Bytes bytes(s.st_size);
    for (size_t at = 0; at < bytes.size();) {
        ssize_t n = pread(file, bytes.data() + at, bytes.size() - at, at);
        if (n <= 0) fail("pread");
        at += n;
    }
    return bytes;
}

static Log open_log() {
    Log log;
    int files[] = {synced("ann.log"), synced("ann2.log")};
    Bytes bytes[] = {read_all(files[0]), read_all(files[1])};
    Preamble preambles[] = {preamble_of(bytes[0]), preamble_of(bytes[1])};
    if (!preambles[0].is_there && !preambles[1].is_there) fail("no index");
    int side = !preambles[0].is_there || (preambles[1].is_there && preambles[0].generation < preambles[1].generation);
    log.file = files[side], log.other = files[1 - side];
    log.preamble = std::move(preambles[side]);
    u32 d = log.preamble.params.d;
    log.gate = read_frames(bytes[side], log.preamble.gate, d, log.entries);
    log.frame_room.resize(5 + 64 * (13 + d));
    log.preamble_room.resize(74 + 256 * d);
    if (log.gate + 1 != bytes[side].size() && (ftruncate(log.file, log.gate + 1) || fsync(log.file))) fail("cut");
    return log;
}

// What the system tells of the process under these words.
static long status_of(const char *words) {
    long told = 0;
    FILE *status = fopen("/proc/self/status", "r");
    char line[256];
    while (status && fgets(line, sizeof line, status)) sscanf(line, words, &told);
    if (status) fclose(status);
    return told;
}

// The kilobytes of the process that are in memory now, and that were at most.
static long resident() { return status_of("VmRSS: %ld"); }
[[maybe_unused]] static long greatest() { return status_of("VmHWM: %ld"); }

// ---- making one

static void put_preamble(Bytes &out, const Params &p) {
    out.insert(out.end(), {1, 'A', 'N', 'N', 'L', 'O', 'G', '0', '2'});
    for (u16 field : {p.d, p.r, p.l_build, p.a, p.b, p.w, p.m, (u16)0}) put(out, field);
    put(out, p.freeze_at);
    for (u64 field : {1, 0, 0, 0}) put(out, field);
    out.insert(out.end(), {'A', 'N', 'N', 'P', 'Q', '0', '0', '1'});
    put(out, p.d);
    put(out, p.m);
    for (u32 part = 0; part < p.m; part++) // centroid c of each part has the components c
        for (u32 c = 0; c < 256; c++) out.insert(out.end(), p.d / p.m, c);
}

// An open gate and the frame behind it, with inserts of the next tags.
static void put_frame(Bytes &out, u64 tag, u32 count, u16 d, u32 &seed) {
    out.push_back(1);
    put(out, count * (13u + d));
    for (u32 i = 0; i < count; i++) {
        out.push_back(1);
        put(out, (u32)0);
        put(out, tag + i);
        for (u32 j = 0; j < d; j++) {
            seed = (seed * 1103515245u + 12345u) & 0x7fffffff;
            out.push_back(seed >> 16);
        }
    }
}

static void write_file(const char *name, const Bytes &bytes) {
    FILE *file = fopen(name, "wb");
    if (!file || fwrite(bytes.data(), 1, bytes.size(), file) != bytes.size() || fclose(file)) fail(name);
}

static void make(u64 n, const Params &params) {
    Bytes out;
    u32 seed = 1;
    put_preamble(out, params);
    for (u64 tag = 0; tag < n; tag += 64) put_frame(out, tag, std::min<u64>(64, n - tag), params.d, seed);
    out.push_back(0);
    write_file("ann.log", out);
    write_file("ann2.log", {});
}
