// `once D R L A/B` in C++ by the same rules: reads a script of one client from standard input, and writes the same
// transcript. A graph with 100,000 points freezes, and a walk goes through each; deleted points fill a walk and aren't told.
#include "rules.h"
#include <algorithm>
#include <cstdio>
#include <cstring>
#include <string>
#include <unordered_map>

static std::string input() {
    std::string all;
    static char piece[1 << 16];
    for (size_t n; (n = fread(piece, 1, sizeof piece, stdin));) all.append(piece, n);
    return all;
}

struct Words {
    const char *at, *end;
    bool next(const char *&from, size_t &size) {
        while (at < end && (*at == ' ' || *at == '\t')) at++;
        from = at;
        while (at < end && *at != ' ' && *at != '\t') at++;
        size = at - from;
        return size > 0;
    }
    bool number(u64 &n) {
        const char *from;
        size_t size;
        if (!next(from, size)) return false;
        n = 0;
        for (size_t i = 0; i < size; i++) n = n * 10 + (from[i] - '0');
        return true;
    }
};

// As a program that judges a script before it serves it, this one keeps the commands first.
struct Change { char verb; u64 tag; std::vector<u8> vector; };
struct Command { bool search, batch; std::vector<Change> changes; u32 k, l; std::vector<u8> query; };

static bool is(const char *word, size_t size, const char *verb) { return size == strlen(verb) && !memcmp(word, verb, size); }

static void components(Words &line, std::vector<u8> &vector) {
    u64 n;
    for (const char *before = line.at; line.number(n); before = line.at) {
        while (*before == ' ' || *before == '\t') before++;
        if (*before == ';') return;
        vector.push_back(n);
    }
}

// A change, from its verb on, up to the word `;` behind it.
static Change change(Words &line, const char *verb) {
    Change c{verb[0], 0, {}};
    line.number(c.tag);
    if (c.verb != 'd') components(line, c.vector);
    else { const char *word; size_t size; line.next(word, size); }
    return c;
}

static Command command(Words &line) {
    const char *word;
    size_t size;
    line.next(word, size);
    Command c{};
    u64 n;
    c.search = is(word, size, "search");
    c.batch = is(word, size, "batch");
    if (c.search) {
        line.number(n), c.k = n, line.number(n), c.l = n;
        components(line, c.query);
    } else if (c.batch) {
        while (line.next(word, size)) c.changes.push_back(change(line, word));
    } else c.changes.push_back(change(line, word));
    return c;
}

struct Index {
    Graph empty, g;
    std::vector<std::pair<u32, Graph>> frozen;
    u32 first = 0, entries = 0;
    std::vector<u64> tags;
    std::vector<bool> dead;
    std::unordered_map<u64, u32> live;
    Scratch s;

    // The first refusal of an update, or nothing: each change is judged behind those before it.
    std::string judge(const Command &c) const {
        char word[128];
        std::unordered_map<u64, bool> now;
        for (size_t i = 0; i < c.changes.size(); i++) {
            const Change &x = c.changes[i];
            auto changed = now.find(x.tag);
            bool there = changed != now.end() ? changed->second : live.count(x.tag) > 0;
            std::string before = c.batch ? "change " + std::to_string(i + 1) + " " : "";
            if (x.verb != 'd' && x.vector.size() != g.d) snprintf(word, sizeof word, "dimension %zu of %u", x.vector.size(), g.d);
            else if (x.verb == 'i' && there) snprintf(word, sizeof word, "present %llu", (unsigned long long)x.tag);
            else if (x.verb != 'i' && !there) snprintf(word, sizeof word, "absent %llu", (unsigned long long)x.tag);
            else { now[x.tag] = x.verb != 'd'; continue; }
            return before + word + " at " + std::to_string(entries);
        }
        return "";
    }

    void make(const Change &x) {
        entries++;
        if (x.verb != 'i') dead[live[x.tag]] = true, live.erase(x.tag);
        if (x.verb == 'd') return;
        put(g, x.vector.data(), s);
        live[x.tag] = tags.size();
        tags.push_back(x.tag), dead.push_back(false);
        if (tags.size() - first < 100000) return;
        frozen.emplace_back(first, std::move(g));
        g = empty, first = tags.size();
    }

    void near(u32 from, const Graph &graph, const Command &c, std::vector<std::pair<u32, u32>> &hits) {
        walk(graph, c.query.data(), c.l, s);
        for (u32 j = 0; j < s.pool.size; j++) {
            u32 pid = from + s.pool.number(j);
            if (!dead[pid]) hits.emplace_back(s.pool.distance(j), pid);
        }
    }

    std::string search(const Command &c) {
        std::vector<std::pair<u32, u32>> hits;
        near(first, g, c, hits);
        for (auto &[from, graph] : frozen) near(from, graph, c, hits);
        if (!frozen.empty()) std::sort(hits.begin(), hits.end());
        std::string out = "found at " + std::to_string(entries);
        if (hits.empty()) out += " none";
        char item[64];
        for (size_t i = 0; i < hits.size() && i < c.k; i++) {
            snprintf(item, sizeof item, " %llu:%u", (unsigned long long)tags[hits[i].second], hits[i].first);
            out += item;
        }
        return out;
    }

    std::string reply(const Command &c) {
        if (c.search && c.query.size() != g.d) return "dimension " + std::to_string(c.query.size()) + " of " + std::to_string(g.d);
        if (c.search) return search(c);
        std::string refused = judge(c);
        if (!refused.empty()) return refused;
        for (const Change &x : c.changes) make(x);
        const char *done = c.changes[0].verb == 'i' ? "inserted " : c.changes[0].verb == 'd' ? "deleted " : "replaced ";
        return (c.batch ? "accepted " + std::to_string(c.changes.size()) : done + std::to_string(c.changes[0].tag)) + " at " + std::to_string(entries);
    }
};

int main(int count, char **words) {
    if (count != 6) return 2;
    Index index{};
    Graph &g = index.empty;
    g.d = atoi(words[2]), g.r = atoi(words[3]), g.l = atoi(words[4]);
    sscanf(words[5], "%u/%u", &g.a, &g.b);
    index.g = g;
    std::string text = input(), name;
    std::vector<Command> commands;
    for (size_t at = 0; at < text.size();) {
        size_t end = text.find('\n', at);
        if (end == std::string::npos) end = text.size();
        Words line{&text[at], &text[at] + (end - at)};
        const char *word;
        size_t size;
        if (line.next(word, size)) {
            name.assign(word, size);
            commands.push_back(command(line));
        }
        at = end + 1;
    }
    std::string out;
    for (size_t i = 0; i < commands.size(); i++) out += name + " " + std::to_string(i + 1) + " " + index.reply(commands[i]) + "\n";
    out += "log " + std::to_string(index.entries) + " entries, " + std::to_string(index.live.size()) + " live\n";
    fwrite(out.data(), 1, out.size(), stdout);
}
