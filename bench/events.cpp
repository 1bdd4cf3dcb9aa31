// Random lists of events of the core, and what each of them comes to. It is written from the definitions of the index alone, with
// sets, maps and one fold, without any of the index's means for speed, and shares nothing with the other programs of this folder.
//     events SEED LISTS SCRIPT STEPS
// It writes LISTS lists of events to the file SCRIPT, in words that `ann_events` reads, and to the file STEPS a line for each line
// of them: `core` for a new core, `done`, `no` where the event isn't allowed, or `at N` with the hits of a reply.
#include <cstdint>
#include <cstdio>
#include <cstdlib>
#include <map>
#include <memory>
#include <optional>
#include <random>
#include <set>
#include <string>
#include <vector>

using u8 = uint8_t;
using u32 = uint32_t;
using u64 = uint64_t;
using Pid = u32;
using Vec = std::vector<u8>;
using Pids = std::set<Pid>;
using Order = std::set<std::pair<u64, Pid>>; // points by distance, those equally far by Pid

static void fail(const char *why) {
    fprintf(stderr, "events: %s\n", why);
    exit(3);
}

// ---- distances and codes

struct Index {
    u32 d, r, l_build, a, b, w, m, freeze_at;
    Vec book; // for each part 256 centroids
};

static u64 distance(const Vec &x, const Vec &y) {
    u64 sum = 0;
    for (size_t i = 0; i < x.size(); i++) sum += (u64)((x[i] - y[i]) * (x[i] - y[i]));
    return sum;
}

// A vector with each part replaced by its nearest centroid, the first of those equally near.
static Vec decoded(const Index &index, const Vec &x) {
    u32 width = index.d / index.m;
    Vec out;
    for (u32 part = 0; part < index.m; part++) {
        Vec own(x.begin() + part * width, x.begin() + (part + 1) * width), best;
        for (u32 c = 0; c < 256; c++) {
            auto at = index.book.begin() + (part * 256 + c) * width;
            Vec centroid(at, at + width);
            if (best.empty() || distance(own, centroid) < distance(own, best)) best = centroid;
        }
        out.insert(out.end(), best.begin(), best.end());
    }
    return out;
}

// ---- graphs and walks

struct Point {
    u64 tag;
    Vec x;
    Pids out;
};

struct Graph {
    Pid entry = 0;
    std::map<Pid, Point> points;
};

static Graph decoded(const Index &index, Graph graph) {
    for (auto &[pid, point] : graph.points) point.x = decoded(index, point.x);
    return graph;
}

struct Walk {
    Pids visited;
    Order met;
};

// Each round visits the first w unvisited points of the l nearest that were met.
static Walk walk(const Graph &graph, const Vec &q, u32 l, u32 w) {
    Walk out;
    auto meet = [&](Pid pid) { out.met.insert({distance(q, graph.points.at(pid).x), pid}); };
    if (!graph.points.empty()) meet(graph.entry);
    for (;;) {
        std::vector<Pid> round;
        u32 at = 0;
        for (auto &[far, pid] : out.met) {
            if (at++ == l || round.size() == w) break;
            if (!out.visited.count(pid)) round.push_back(pid);
        }
        if (round.empty()) return out;
        for (Pid pid : round) {
            out.visited.insert(pid);
            for (Pid to : graph.points.at(pid).out) meet(to);
        }
    }
}

// What a point at x keeps of some points of a graph.
static Pids kept(const Index &index, const Graph &graph, const Vec &x, const Pids &candidates) {
    Order order;
    for (Pid pid : candidates) order.insert({distance(x, graph.points.at(pid).x), pid});
    Pids out;
    for (auto &[far, pid] : order) {
        bool covered = out.size() == index.r;
        for (Pid r : out) {
            u64 between = distance(graph.points.at(r).x, graph.points.at(pid).x);
            covered |= index.a * index.a * between <= index.b * index.b * far;
        }
        if (!covered) out.insert(pid);
    }
    return out;
}

static void put(const Index &index, Graph &graph, Pid n, u64 tag, const Vec &x) {
    Pids links = kept(index, graph, x, walk(graph, x, index.l_build, 1).visited);
    if (graph.points.empty()) graph.entry = n;
    graph.points[n] = {tag, x, links};
    for (Pid j : links) {
        Point &back = graph.points.at(j);
        back.out.insert(n);
        if (back.out.size() > index.r) back.out = kept(index, graph, back.x, back.out);
    }
}

// ---- the merge

static Pid mean_entry(const Index &index, const Graph &graph) {
    Graph by_code = decoded(index, graph);
    Vec mean;
    for (u32 i = 0; i < index.d; i++) {
        u64 sum = 0;
        for (auto &[pid, point] : by_code.points) sum += point.x[i];
        mean.push_back(sum / by_code.points.size());
    }
    Order order;
    for (auto &[pid, point] : by_code.points) order.insert({distance(point.x, mean), pid});
    return order.begin()->second;
}

static Graph delete_phase(const Index &index, const Graph &graph, const Pids &gone) {
    Graph by_code = decoded(index, graph), out;
    for (auto &[pid, point] : graph.points) {
        if (gone.count(pid)) continue;
        Pids candidates = point.out;
        bool repair = false;
        for (Pid to : point.out) {
            if (!gone.count(to)) continue;
            repair = true;
            for (Pid next : graph.points.at(to).out) candidates.insert(next);
        }
        for (Pid x : gone) candidates.erase(x);
        candidates.erase(pid);
        out.points[pid] = point;
        if (repair) out.points[pid].out = kept(index, by_code, by_code.points.at(pid).x, candidates);
    }
    return out;
}

// The survivors, or else a graph of the first new points. Its entry is chosen anew.
static Graph base_of(const Index &index, Graph survivors, const std::map<Pid, Point> &fresh) {
    if (survivors.points.empty())
        for (auto &[pid, point] : fresh)
            if (survivors.points.size() < 1000) put(index, survivors, pid, point.tag, decoded(index, point.x));
    for (auto &[pid, point] : survivors.points)
        if (fresh.count(pid)) point.x = fresh.at(pid).x;
    if (!survivors.points.empty()) survivors.entry = mean_entry(index, survivors);
    return survivors;
}

static Graph merged(const Index &index, const Graph &old, const std::map<Pid, Point> &fresh, const Pids &gone) {
    Graph base = base_of(index, delete_phase(index, old, gone), fresh), by_code = decoded(index, base), whole = base;
    for (auto &[pid, point] : fresh) {
        if (base.points.count(pid)) continue;
        Pids links = kept(index, by_code, decoded(index, point.x), walk(by_code, point.x, index.l_build, 1).visited);
        whole.points[pid] = {point.tag, point.x, links};
        for (Pid to : links) whole.points.at(to).out.insert(pid);
    }
    by_code = decoded(index, whole);
    for (auto &[pid, point] : base.points) {
        Pids &out = whole.points.at(pid).out;
        if (out != point.out && out.size() > index.r) out = kept(index, by_code, by_code.points.at(pid).x, out);
    }
    if (!whole.points.empty()) whole.entry = mean_entry(index, whole);
    return whole;
}

// ---- lists and the fold

enum class Kind { Insert, Delete, Begin, End, Replace };

struct Entry {
    Kind kind;
    u32 by;
    u64 tag; // of an End the segment
    Vec x;
};

struct Begun {
    u64 position;
    size_t count;
    Pids gone;
};

struct State {
    Graph rw, lti;
    std::vector<Graph> ros;
    Pids dead;
    std::optional<Begun> begun;
    std::map<u64, Pid> live;
    Pid next = 0;
    u64 length = 0;
    std::optional<u64> last_end;

    bool is_legal(const Index &index, const Entry &e) const {
        switch (e.kind) {
        case Kind::Insert: return !live.count(e.tag) && e.x.size() == index.d;
        case Kind::Replace: return live.count(e.tag) && e.x.size() == index.d;
        case Kind::Delete: return live.count(e.tag);
        case Kind::Begin: return !begun && !(rw.points.empty() && ros.empty() && dead.empty());
        case Kind::End: return begun && e.tag == 2 * begun->position + 1;
        }
        return false;
    }

    void freeze() {
        ros.push_back(rw);
        rw = Graph();
    }

    void insert(const Index &index, const Entry &e) {
        put(index, rw, next, e.tag, e.x);
        live[e.tag] = next++;
        if (rw.points.size() == index.freeze_at) freeze();
    }

    // A legal entry. The graph is the one that an End's segment holds.
    void append(const Index &index, const Entry &e, const Graph &graph) {
        if (e.kind == Kind::Delete || e.kind == Kind::Replace) {
            dead.insert(live.at(e.tag));
            live.erase(e.tag);
        }
        if (e.kind == Kind::Insert || e.kind == Kind::Replace) insert(index, e);
        if (e.kind == Kind::Begin) {
            if (!rw.points.empty()) freeze();
            begun = Begun{length, ros.size(), dead};
        }
        if (e.kind == Kind::End) {
            lti = graph;
            ros.erase(ros.begin(), ros.begin() + begun->count);
            for (Pid x : begun->gone) dead.erase(x);
            begun.reset();
            last_end = e.tag;
        }
        length++;
    }
};

// ---- answers

static void meet_all(Order &found, const Graph &graph, const Pids &pids, const Pids &dead, const Vec &q) {
    for (Pid pid : pids)
        if (!dead.count(pid)) found.insert({distance(q, graph.points.at(pid).x), pid});
}

static std::string answer(const Index &index, const State &state, const Graph &lti, u32 k, u32 l, const Vec &q) {
    Order found;
    std::vector<Graph> short_term = state.ros;
    short_term.push_back(state.rw);
    std::map<Pid, u64> tags;
    for (const Graph &graph : short_term) {
        Pids near;
        for (auto &[far, pid] : walk(graph, q, l, 1).met)
            if (near.size() < l) near.insert(pid); // they come in order
        meet_all(found, graph, near, state.dead, q);
        for (auto &[pid, point] : graph.points) tags[pid] = point.tag;
    }
    meet_all(found, lti, walk(decoded(index, lti), q, l, index.w).visited, state.dead, q);
    for (auto &[pid, point] : lti.points) tags[pid] = point.tag;
    std::string text = "at " + std::to_string(state.length);
    for (auto &[far, pid] : found)
        if (k && k--) text += " " + std::to_string(tags.at(pid)) + ":" + std::to_string(far);
    return text;
}

// ---- the core

static const u32 READERS = 32, PIECE = 256, FRAME_END = 64;

struct Core {
    Index index;
    State logged;
    std::shared_ptr<const State> shown = std::make_shared<State>(), pins[READERS];
    std::set<u64> pieces;
    bool sealed = false;
    std::map<u64, Graph> kept;
    std::optional<Graph> open; // of the open Begin, once it was made

    const Graph &held(const State &state) const {
        static const Graph empty;
        if (!state.last_end) return empty;
        if (!kept.count(*state.last_end)) fail("a segment that is needed isn't kept");
        return kept.at(*state.last_end);
    }

    const Graph &open_graph() {
        if (open) return *open;
        std::map<Pid, Point> fresh;
        for (size_t i = 0; i < logged.begun->count; i++)
            for (auto &[pid, point] : logged.ros[i].points)
                if (!logged.begun->gone.count(pid)) fresh[pid] = point;
        open = merged(index, held(logged), fresh, logged.begun->gone);
        return *open;
    }

    u64 pieces_of_open() { return (open_graph().points.size() + PIECE - 1) / PIECE; }

    bool frame(const std::vector<Entry> &entries) {
        if (entries.empty() || entries.size() > FRAME_END) return false;
        State next = logged;
        bool begins = false;
        for (const Entry &e : entries) {
            if (e.kind == Kind::End || !next.is_legal(index, e)) return false;
            next.append(index, e, Graph());
            begins |= e.kind == Kind::Begin;
        }
        logged = next;
        if (begins) {
            pieces.clear();
            open.reset();
        }
        return true;
    }

    bool enter(u32 reader) {
        if (reader >= READERS || pins[reader]) return false;
        pins[reader] = shown;
        return true;
    }

    bool leave(u32 reader) {
        if (reader >= READERS || !pins[reader]) return false;
        pins[reader].reset();
        return true;
    }

    std::string reply(u32 reader, u32 k, u32 l, const Vec &q) {
        if (reader >= READERS || !pins[reader] || q.size() != index.d) return "no";
        return answer(index, *pins[reader], held(*pins[reader]), k, l, q);
    }

    bool piece(u64 number) { return logged.begun && number < pieces_of_open() && pieces.insert(number).second; }

    bool seal() {
        if (!logged.begun || sealed || pieces.size() < pieces_of_open()) return false;
        kept[2 * logged.begun->position + 1] = open_graph();
        return sealed = true;
    }

    bool switch_by(u32 by) {
        if (!logged.begun || !sealed) return false;
        u64 number = 2 * logged.begun->position + 1;
        logged.append(index, Entry{Kind::End, by, number, {}}, kept.at(number));
        sealed = false;
        return true;
    }

    bool remove(u64 number) {
        if (!kept.count(number)) return false;
        if (logged.begun && number == 2 * logged.begun->position + 1) return false;
        if (logged.last_end == number || shown->last_end == number) return false;
        for (auto &pin : pins)
            if (pin && pin->last_end == number) return false;
        kept.erase(number);
        return true;
    }
};

// ---- random lists

struct Dice {
    std::mt19937_64 source;
    u64 below(u64 end) { return source() % end; }
    u64 from(u64 least, u64 most) { return least + below(most - least + 1); }
    bool one_in(u64 n) { return below(n) == 0; }
};

struct Lists {
    Dice dice;
    FILE *script, *steps;
    Core core;
    u32 range = 256, tags = 10; // components are below this; tags are so many from the first on
    u64 first_tag = 0;
    std::vector<Vec> filled; // the vectors of the points that a list takes first

    void tell(const std::string &event, const std::string &step) {
        fprintf(script, "%s\n", event.c_str());
        fprintf(steps, "%s\n", step.c_str());
    }
    void tell(const std::string &event, bool done) { tell(event, std::string(done ? "done" : "no")); }

    Vec vector(u32 length) {
        Vec x;
        for (u32 i = 0; i < length; i++) x.push_back(dice.below(range));
        return x;
    }

    static std::string words(const Vec &x) {
        std::string text = " " + std::to_string(x.size());
        for (u8 c : x) text += " " + std::to_string(c);
        return text;
    }

    // A new core. Its codebook comes from a generator that both programs have: multiples of a step, below the range.
    void start(u32 points) {
        static const u32 ranges[] = {2, 5, 16, 64, 256};
        range = ranges[dice.below(5)];
        tags = points ? points + 20 : dice.from(4, 24);
        first_tag = dice.one_in(4) ? UINT64_MAX - tags + 1 : dice.below(3);
        Index index;
        index.d = dice.from(2, 4);
        do index.m = dice.from(1, index.d); while (index.d % index.m);
        index.r = dice.from(2, 4);
        index.l_build = dice.from(1, 10);
        index.b = dice.from(1, 3);
        index.a = dice.from(index.b, index.b + 2);
        index.w = dice.from(1, 4);
        index.freeze_at = points > 100 && dice.one_in(2) ? dice.from(50, 400) : dice.from(2, 5);
        u32 step = 1 + dice.below(4) * range / 8;
        u64 x = dice.below(1u << 31);
        std::string text = "core";
        for (u64 word : {index.d, index.r, index.l_build, index.a, index.b, index.w, index.m, index.freeze_at, (u32)x, range, step})
            text += " " + std::to_string(word);
        for (u32 i = 0; i < 256 * index.d; i++) {
            x = (x * 1103515245 + 12345) & 0x7FFFFFFF;
            u32 component = (x >> 16) % 256 % range;
            index.book.push_back(component - component % step);
        }
        core = Core();
        core.index = index;
        filled.clear();
        tell(text, std::string("core"));
    }

    u64 live_tag(const State &state) { return std::next(state.live.begin(), dice.below(state.live.size()))->first; }

    u64 new_tag(const State &state) {
        u64 tag;
        do tag = first_tag + dice.below(tags); while (state.live.count(tag));
        return tag;
    }

    // An entry that is mostly legal behind this state.
    Entry entry(const State &state) {
        u32 by = dice.below(5), d = core.index.d;
        if (dice.one_in(40)) { // any entry
            Kind kind = (Kind)dice.below(5);
            u64 tag = kind == Kind::End ? 2 * dice.below(state.length + 1) + 1 : first_tag + dice.below(tags);
            return {kind, by, tag, vector(dice.one_in(3) ? dice.from(0, 6) : d)};
        }
        if (dice.one_in(8) && state.is_legal(core.index, {Kind::Begin, 0, 0, {}})) return {Kind::Begin, by, 0, {}};
        bool full = state.live.size() == tags;
        if (state.live.empty() || (!full && dice.one_in(2))) return {Kind::Insert, by, new_tag(state), vector(d)};
        if (dice.one_in(2)) return {Kind::Replace, by, live_tag(state), vector(d)};
        return {Kind::Delete, by, live_tag(state), {}};
    }

    void frame(const std::vector<Entry> &entries) {
        static const char *names[] = {"insert", "delete", "begin", "end", "replace"};
        std::string text = "frame " + std::to_string(entries.size());
        for (const Entry &e : entries) {
            text += std::string(" ") + names[(int)e.kind] + " " + std::to_string(e.by);
            if (e.kind != Kind::Begin) text += " " + std::to_string(e.tag);
            if (e.kind == Kind::Insert || e.kind == Kind::Replace) text += words(e.x);
        }
        tell(text, core.frame(entries));
    }

    void random_frame() {
        static const u32 sizes[] = {1, 1, 1, 2, 3, 4, 6, 9};
        u32 count = sizes[dice.below(8)];
        if (dice.one_in(30)) count = dice.one_in(3) ? 0 : dice.from(63, 65);
        State state = core.logged;
        std::vector<Entry> entries;
        for (u32 i = 0; i < count; i++) {
            entries.push_back(entry(state));
            if (entries.back().kind != Kind::End && state.is_legal(core.index, entries.back())) state.append(core.index, entries.back(), Graph());
        }
        frame(entries);
    }

    // Inserts of so many points, a frame of them at a time.
    void fill(u32 points) {
        while (points) {
            u32 count = std::min<u64>(points, dice.one_in(3) ? 64 : dice.from(1, 64));
            std::vector<Entry> entries;
            for (u32 i = 0; i < count; i++) {
                u64 tag = first_tag + core.logged.live.size() + i;
                filled.push_back(vector(core.index.d));
                entries.push_back({Kind::Insert, 0, tag, filled.back()});
            }
            frame(entries);
            points -= count;
        }
    }

    // A vector, of another length now and then. It is often one of the last that a list took first.
    Vec query() {
        if (filled.empty() || dice.one_in(3)) return vector(dice.one_in(40) ? dice.from(0, 6) : core.index.d);
        return filled[filled.size() - 1 - dice.below(std::min<size_t>(filled.size(), dice.one_in(2) ? 4 : 1000))];
    }

    // A reader that is mostly in, or out.
    u32 reader(bool in) {
        if (dice.one_in(30)) return dice.one_in(4) ? dice.below(1ull << 32) : dice.from(30, 34);
        for (u32 i = 0; i < 20; i++) {
            u32 reader = dice.one_in(10) ? dice.below(READERS) : dice.below(4);
            if (!!core.pins[reader] == in) return reader;
        }
        return dice.below(4);
    }

    void reply() {
        u32 at = reader(true), l = dice.one_in(6) ? dice.from(20, 1000) : dice.from(1, 12);
        u32 k = dice.one_in(2) ? l : dice.from(1, l);
        Vec q = query();
        std::string text = "reply " + std::to_string(at) + " " + std::to_string(k) + " " + std::to_string(l) + words(q);
        tell(text, core.reply(at, k, l, q));
    }

    u64 piece_number() {
        u64 count = core.logged.begun ? core.pieces_of_open() : 1;
        for (u32 i = 0; i < 20; i++) {
            u64 number = dice.below(count + 1);
            if (!core.pieces.count(number)) return number;
        }
        return dice.one_in(9) ? dice.below(UINT64_MAX) : dice.below(count + 2);
    }

    u64 segment_number() {
        if (core.kept.empty() || dice.one_in(9)) return 2 * dice.below(core.logged.length + 2) + dice.below(2);
        return dice.one_in(2) ? core.kept.begin()->first : std::next(core.kept.begin(), dice.below(core.kept.size()))->first;
    }

    bool is_pinned() const {
        for (auto &pin : core.pins)
            if (pin) return true;
        return false;
    }

    // What finishes pieces, seals, ends a merge or removes a segment: mostly what is allowed.
    void merge_event() {
        u32 by = dice.below(5), roll = dice.below(6);
        if (!core.logged.begun && !dice.one_in(9)) roll = 5;
        if (roll < 5 && core.logged.begun && !dice.one_in(9)) roll = core.sealed ? 4 : core.pieces.size() < core.pieces_of_open() ? 0 : 3;
        if (roll < 3) {
            u64 number = piece_number();
            return tell("piece " + std::to_string(number), core.piece(number));
        }
        if (roll == 3) return tell("seal", core.seal());
        if (roll == 4) return tell("switch " + std::to_string(by), core.switch_by(by));
        u64 number = segment_number();
        tell("remove " + std::to_string(number), core.remove(number));
    }

    // A reader comes, asks or goes.
    void reader_event() {
        u32 roll = is_pinned() || dice.one_in(9) ? dice.below(15) : 14, at = reader(roll < 11);
        if (roll < 8) return reply();
        if (roll < 11) return tell("leave " + std::to_string(at), core.leave(at));
        tell("enter " + std::to_string(at), core.enter(at));
    }

    void event() {
        u32 roll = dice.below(20);
        if (roll < 7) return random_frame();
        if (roll < 9) return show();
        if (roll < 15) return reader_event();
        if (core.logged.begun || core.kept.size() > 1 || dice.one_in(20)) return merge_event();
        random_frame();
    }

    // How many points the list of a number takes first: none in most, and else often as many as a base or pieces have.
    u32 points_of(u64 number) {
        if (number % 2000 == 0) return dice.from(999, 1003);
        if (number % 50 == 0) return dice.one_in(2) ? 256 * dice.from(1, 2) + dice.from(0, 2) - 1 : dice.from(200, 600);
        return number % 4 == 0 ? dice.from(10, 80) : 0;
    }

    void show() {
        core.shown = std::make_shared<State>(core.logged);
        tell("show", true);
    }

    // Makes the open merge, piece by piece, and searches what it has made.
    void merge_at_once() {
        while (core.pieces.size() < core.pieces_of_open()) {
            u64 number = piece_number();
            tell("piece " + std::to_string(number), core.piece(number));
        }
        tell("seal", core.seal());
        tell("switch 0", core.switch_by(0));
        show();
        tell("enter 0", core.enter(0));
        for (u32 count = 0; count < 20; count++) reply();
    }

    // A list that first takes so many points.
    void list(u32 points) {
        start(points);
        fill(points);
        if (points) frame({{Kind::Begin, 0, 0, {}}});
        if (points && dice.one_in(2)) merge_at_once();
        for (u32 count = dice.from(20, 160); count; count--) event();
    }
};

int main(int count, char **words) {
    if (count < 5) return 2;
    Lists lists;
    lists.dice.source.seed(strtoull(words[1], nullptr, 10));
    lists.script = fopen(words[3], "wb");
    lists.steps = fopen(words[4], "wb");
    if (!lists.script || !lists.steps) fail("no file");
    for (u64 i = 1, end = strtoull(words[2], nullptr, 10); i <= end; i++) lists.list(lists.points_of(i));
    if (fclose(lists.script) || fclose(lists.steps)) fail("a file isn't whole");
    return 0;
}
