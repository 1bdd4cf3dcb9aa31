// Opening a kept index again in plain C++, with the steps of `recover` on a log of inserts, deletes and replaces without a merge:
// the files are read and cut into entries, the tags are judged by a hash map, and each point is put into the graph in memory,
// which is frozen where it is full.
//     reopening make N D R L A B FREEZE    writes ann.log with N inserts of D components, and an empty ann2.log
//     reopening open                       opens it: `opened`, nanoseconds of the processor, length, live tags and 0; then the
//                                          memory, `most KILOBYTES` and `held KILOBYTES`
#include "log.h"
#include "rules.h"
#include <memory>
#include <unordered_map>

// A graph that no longer changes: its lists stand one behind the other.
struct Frozen {
    std::vector<u32> pids, ends, rows;
    std::vector<u64> tags;
    std::vector<u8> vectors;
};

// The graph that takes new points, with their names.
struct Table {
    Graph graph;
    std::vector<u32> pids;
    std::vector<u64> tags;
};

struct View {
    Params params;
    Table table;
    std::vector<std::unique_ptr<Frozen>> frozen;
    std::vector<bool> dead;
    u32 next = 0;
    u64 at = 0;
};

struct Judged {
    std::unordered_map<u64, u32> tags;
    std::vector<int64_t> gone; // the Pid that an entry deletes, or -1
};

// The live tags, where each entry may stand where it does.
static Judged judge(const std::vector<Entry> &entries, u32 d) {
    Judged judged;
    u32 next = 0;
    for (const Entry &e : entries) {
        auto found = judged.tags.find(e.number);
        bool live = found != judged.tags.end();
        if (e.kind == 3 || e.kind == 4 || live != (e.kind != 1)) fail("bad log");
        if (e.kind != 2 && (e.vector.size() != d || next == UINT32_MAX)) fail("bad log");
        judged.gone.push_back(live ? (int64_t)found->second : -1);
        if (e.kind == 2) judged.tags.erase(found);
        else judged.tags[e.number] = next++;
    }
    return judged;
}

static Table empty_table(const Params &p) { return {Graph{p.d, p.r, p.l_build, p.a, p.b}, {}, {}}; }

static std::unique_ptr<Frozen> freeze(const Table &table) {
    const Graph &g = table.graph;
    auto frozen = std::make_unique<Frozen>();
    frozen->pids = table.pids, frozen->tags = table.tags, frozen->vectors = g.vectors;
    for (u32 row = 0; row < g.count; row++) {
        frozen->rows.insert(frozen->rows.end(), g.list(row), g.list(row) + g.degrees[row]);
        frozen->ends.push_back(frozen->rows.size());
    }
    return frozen;
}

static void insert(View &view, const Entry &e, Scratch &s) {
    put(view.table.graph, e.vector.data(), s);
    view.table.pids.push_back(view.next++);
    view.table.tags.push_back(e.number);
    view.dead.push_back(false);
    if (view.table.graph.count < view.params.freeze_at) return;
    view.frozen.push_back(freeze(view.table));
    view.table = empty_table(view.params);
}

static View replay(const Params &params, const std::vector<Entry> &entries, const std::vector<int64_t> &gone) {
    View view{params, empty_table(params), {}, {}};
    Scratch s;
    for (size_t i = 0; i < entries.size(); i++) {
        if (gone[i] >= 0) view.dead[gone[i]] = true;
        if (entries[i].kind != 2) insert(view, entries[i], s);
        view.at++;
    }
    return view;
}

static void time_open() {
    u64 busy = now(CLOCK_THREAD_CPUTIME_ID);
    Log log = open_log();
    Judged judged = judge(log.entries, log.preamble.params.d);
    View view = replay(log.preamble.params, log.entries, judged.gone);
    log.entries = {}, judged.gone = {};
    busy = now(CLOCK_THREAD_CPUTIME_ID) - busy;
    fprintf(stderr, "opened %lu %lu %zu 0\nmost %ld\nheld %ld\n", busy, view.at, judged.tags.size(), greatest(), resident());
}

int main(int count, char **words) {
    if (count == 9 && !strcmp(words[1], "make")) {
        auto word = [&](int i) { return (u16)atoi(words[i]); };
        make(strtoull(words[2], nullptr, 10), {word(3), word(4), word(5), word(6), word(7), 4, 1, (u32)atoi(words[8])});
    } else if (count == 2 && !strcmp(words[1], "open")) time_open();
    else fail("reopening make N D R L A B FREEZE, or reopening open");
}
