// Writes a script of one client: N inserts with the tags 0 to N-1, and then Q searches of K and L.
//     vectors KIND D N Q K L
// or N commands of all kinds over some N/4 tags:
//     vectors mixed D N
// KIND is `even`: each component by the index's generator from the seed 1 on (searches: from 777 on); `close`: points
// near a surface of 16 dimensions, as real descriptors are; `equal`: all vectors the same; `apart`: unit vectors, all
// equally far from each other (N at most D).
#include <algorithm>
#include <cstdint>
#include <cstdio>
#include <cstdlib>
#include <cstring>
#include <string>
#include <vector>

struct Numbers {
    uint32_t x;
    uint32_t next() { return (x = (x * 1103515245u + 12345u) & 0x7fffffff) >> 16; }
};

static std::vector<int> vector_of(const std::string &kind, int d, uint32_t i, Numbers &numbers, const std::vector<int> &mix) {
    std::vector<int> v(d);
    if (kind == "even") for (int &c : v) c = numbers.next() & 255;
    if (kind == "equal") std::fill(v.begin(), v.end(), 7);
    if (kind == "apart") v[i % d] = 9;
    if (kind == "close") {
        int z[16];
        for (int &c : z) c = (int)(numbers.next() % 201) - 100;
        for (int j = 0; j < d; j++) {
            int sum = 0;
            for (int k = 0; k < 16; k++) sum += mix[j * 16 + k] * z[k];
            v[j] = std::clamp(128 + sum / 256 + (int)(numbers.next() % 7) - 3, 0, 255);
        }
    }
    return v;
}

static void line(const char *head, const std::vector<int> &v) {
    std::string out = head;
    for (int c : v) out += ' ' + std::to_string(c);
    out += '\n';
    fwrite(out.data(), 1, out.size(), stdout);
}

// Inserts, deletes, replaces, batches of one to five changes, and searches; many are refused.
static void mixed(int d, int n) {
    Numbers numbers{9};
    auto below = [&](uint32_t most) { return numbers.next() % most; };
    auto tag = [&] { return std::to_string((below(1000) * 1000 + below(1000)) % (n / 4 + 1)); };
    auto point = [&] {
        std::string out;
        for (int i = 0, size = below(100) ? d : d + 1; i < size; i++) out += ' ' + std::to_string(below(256));
        return out;
    };
    auto change = [&] {
        uint32_t which = below(8);
        if (which < 5) return "insert " + tag() + point();
        return which < 7 ? "delete " + tag() : "replace " + tag() + point();
    };
    for (int i = 0; i < n; i++) {
        std::string out = "a ";
        uint32_t which = below(10);
        if (which < 6) out += change();
        else if (which < 8) {
            out += "batch " + change();
            for (uint32_t more = below(5); more; more--) out += " ; " + change();
        } else out += "search 10 40" + point();
        puts(out.c_str());
    }
}

int main(int count, char **words) {
    if (count == 4 && std::string(words[1]) == "mixed") return mixed(atoi(words[2]), atoi(words[3])), 0;
    if (count != 7) return 2;
    std::string kind = words[1];
    int d = atoi(words[2]), n = atoi(words[3]), q = atoi(words[4]);
    Numbers mixing{5}, base{1}, query{777};
    std::vector<int> mix(16 * d);
    for (int &m : mix) m = (int)(mixing.next() % 129) - 64;
    char head[64];
    for (int i = 0; i < n; i++) {
        snprintf(head, sizeof head, "a insert %d", i);
        line(head, vector_of(kind, d, i, base, mix));
    }
    for (int i = 0; i < q; i++) {
        snprintf(head, sizeof head, "a search %s %s", words[5], words[6]);
        line(head, vector_of(kind, d, i, query, mix));
    }
}
