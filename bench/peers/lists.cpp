// The job as idiomatic C++: std::list for the orders, unordered_map by number, undo and redo as functions in a log.
// Usage: lists MAKE EDITS GRAPH, two loads of loads.py and where to write the end graph.
#include <cstdint>
#include <cstdio>
#include <cstdlib>
#include <ctime>
#include <functional>
#include <list>
#include <memory>
#include <unordered_map>
#include <vector>
using u32 = uint32_t;
using namespace std;
static double now() {
    timespec t;
    clock_gettime(CLOCK_THREAD_CPUTIME_ID, &t);
    return t.tv_sec + t.tv_nsec * 1e-9;
}
struct V {
    u32 number, type, value;
    list<u32> words;
    list<u32>::iterator at;
};
struct E {
    u32 number, end[2], type, kind, dm;
    list<u32>::iterator at, word[2];
};
struct Chart {
    unordered_map<u32, V> v;
    unordered_map<u32, E> e;
    list<u32> vseq, eseq;
    struct Step {
        function<void()> back, on;
    };
    vector<Step> log;
    size_t place = 0;
    void step(function<void()> on, function<void()> back) {
        on();
        log.resize(place);
        log.push_back({move(back), move(on)});
        place++;
    }
    void undo() { log[--place].back(); }
    void redo() { log[place++].on(); }
    void call(const u32 *c) {
        u32 k = c[0], a = c[1], b = c[2], d = c[3], t = c[4];
        switch (k) {
        case 1:
            step(
                [=, this] {
                    auto &x = v[a];
                    x = {a, b, d, {}, {}};
                    x.at = vseq.insert(vseq.end(), a);
                },
                [=, this] {
                    vseq.erase(v[a].at);
                    v.erase(a);
                });
            break;
        case 3:
            step(
                [=, this] {
                    E x{a, {b, d}, t, 0, 0, {}, {}};
                    x.at = eseq.insert(eseq.end(), a);
                    auto &p = v[b].words;
                    x.word[0] = p.insert(p.end(), 2 * a);
                    auto &q = v[d].words;
                    x.word[1] = q.insert(q.end(), 2 * a + 1);
                    e[a] = x;
                },
                [=, this] {
                    E &x = e[a];
                    v[x.end[1]].words.erase(x.word[1]);
                    v[x.end[0]].words.erase(x.word[0]);
                    eseq.erase(x.at);
                    e.erase(a);
                });
            break;
        case 4: {
            auto keep = make_shared<list<u32>[]>(3); // nodes are spliced out and back, so that iterators stay
            auto nexts = make_shared<list<u32>::iterator[]>(3);
            auto old = make_shared<E>();
            step(
                [=, this] {
                    E &x = e[a];
                    *old = x;
                    auto &l1 = v[x.end[1]].words;
                    nexts[1] = next(x.word[1]);
                    keep[1].splice(keep[1].begin(), l1, x.word[1]);
                    auto &l0 = v[x.end[0]].words;
                    nexts[0] = next(x.word[0]);
                    keep[0].splice(keep[0].begin(), l0, x.word[0]);
                    nexts[2] = next(x.at);
                    keep[2].splice(keep[2].begin(), eseq, x.at);
                    e.erase(a);
                },
                [=, this] {
                    eseq.splice(nexts[2], keep[2], old->at);
                    auto &l0 = v[old->end[0]].words;
                    l0.splice(nexts[0], keep[0], old->word[0]);
                    auto &l1 = v[old->end[1]].words;
                    l1.splice(nexts[1], keep[1], old->word[1]);
                    e[a] = *old;
                });
            break;
        }
        case 5: {
            u32 o = v[a].type;
            step([=, this] { v[a].type = b; }, [=, this] { v[a].type = o; });
            break;
        }
        case 7: {
            u32 o = v[a].value;
            step([=, this] { v[a].value = b; }, [=, this] { v[a].value = o; });
            break;
        }
        case 6: {
            u32 o = e[a].type;
            step([=, this] { e[a].type = b; }, [=, this] { e[a].type = o; });
            break;
        }
        case 8: {
            u32 o = e[a].kind, p = e[a].dm;
            step(
                [=, this] {
                    e[a].kind = b;
                    e[a].dm = d;
                },
                [=, this] {
                    e[a].kind = o;
                    e[a].dm = p;
                });
            break;
        }
        case 9:
        case 10: {
            int s = k - 9;
            E &x = e[a];
            u32 from = x.end[s];
            u32 prev = before(v[from].words, x.word[s]);
            step(
                [=, this] {
                    E &x = e[a];
                    auto &l = v[b].words;
                    l.splice(l.end(), v[from].words, x.word[s]);
                    x.end[s] = b;
                },
                [=, this] {
                    E &x = e[a];
                    auto &l = v[from].words;
                    l.splice(after(l, prev), v[b].words, x.word[s]);
                    x.end[s] = from;
                });
            break;
        }
        case 11:
        case 12: {
            u32 prev = before(vseq, v[a].at);
            step(
                [=, this] {
                    auto p = v[b].at;
                    vseq.splice(k == 11 ? p : next(p), vseq, v[a].at);
                },
                [=, this] { vseq.splice(prev ? next(v[prev].at) : vseq.begin(), vseq, v[a].at); });
            break;
        }
        case 13:
        case 14: {
            u32 prev = before(eseq, e[a].at);
            step(
                [=, this] {
                    auto p = e[b].at;
                    eseq.splice(k == 13 ? p : next(p), eseq, e[a].at);
                },
                [=, this] { eseq.splice(prev ? next(e[prev].at) : eseq.begin(), eseq, e[a].at); });
            break;
        }
        default: {
            u32 at = e[a / 2].end[a & 1];
            auto &l = v[at].words;
            u32 prev = before(l, e[a / 2].word[a & 1]);
            step(
                [=, this] {
                    auto &l = v[at].words;
                    auto p = e[b / 2].word[b & 1];
                    l.splice(k == 15 ? p : next(p), l, e[a / 2].word[a & 1]);
                },
                [=, this] {
                    auto &l = v[at].words;
                    l.splice(after(l, prev), l, e[a / 2].word[a & 1]);
                });
        }
        }
    }
    static u32 before(list<u32> &l, list<u32>::iterator i) { return i == l.begin() ? 0 : *prev(i); }
    list<u32>::iterator after(list<u32> &l, u32 w) { return w ? next(e[w / 2].word[w & 1]) : l.begin(); }
};
static vector<u32> start, calls;
static uint64_t n[10];
static void load(const char *p) {
    FILE *f = fopen(p, "rb");
    if (!f || fread(n, 8, 10, f) != 10) exit(2);
    start.resize(n[0]);
    calls.resize(n[2]);
    if (fread(start.data(), 4, n[0], f) != n[0]) exit(2);
    fseek(f, 8 * n[1], SEEK_CUR);
    if (fread(calls.data(), 4, n[2], f) != n[2]) exit(2);
    fclose(f);
}
int main(int, char **av) {
    double made = 1e9, ed = 1e9, un = 1e9, re = 1e9;
    for (int round = 0; round < 20; round++) {
        load(av[1]);
        {
            Chart x;
            double t = now();
            for (size_t i = 0; i < calls.size(); i += 5) x.call(&calls[i]);
            t = now() - t;
            if (t < made) made = t;
        }
        load(av[2]);
        Chart x;
        const u32 *r = &start[6];
        for (u32 i = 0; i < start[0]; i++, r += 4) {
            u32 c[5] = {1, r[0], r[1], r[2], 0};
            x.call(c);
        }
        r = &start[start[3]];
        for (u32 i = 0; i < start[1]; i++, r += 6) {
            u32 c[5] = {3, r[0], r[1], r[2], r[3]};
            x.call(c);
            x.e[r[0]].kind = r[4];
            x.e[r[0]].dm = r[5];
        }
        const u32 *w = &start[start[4]];
        r = &start[6];
        for (u32 i = 0; i < start[0]; i++, r += 4) {
            auto &l = x.v[r[0]].words;
            for (u32 j = 0; j < r[3]; j++, w++) l.splice(l.end(), l, x.e[*w / 2].word[*w & 1]);
        }
        x.log.clear();
        x.place = 0;
        size_t k = calls.size() / 5;
        double t = now();
        for (size_t i = 0; i < k; i++) x.call(&calls[5 * i]);
        t = now() - t;
        if (t < ed) ed = t;
        t = now();
        for (size_t i = 0; i < k; i++) x.undo();
        t = now() - t;
        if (t < un) un = t;
        t = now();
        for (size_t i = 0; i < k; i++) x.redo();
        t = now() - t;
        if (t < re) re = t;
        if (round == 0) {
            FILE *f = fopen(av[3], "w");
            for (u32 a : x.vseq) fprintf(f, "v %u %u %u\n", a, x.v[a].type, x.v[a].value);
            for (u32 a : x.eseq) {
                E &y = x.e[a];
                fprintf(f, "e %u %u %u %u %u %u\n", a, y.end[0], y.end[1], y.type, y.kind, y.dm);
            }
            for (u32 a : x.vseq)
                for (u32 w : x.v[a].words) fprintf(f, "w %u\n", w);
            fclose(f);
        }
    }
    printf("| C++, lists and functions | %.0f | %.0f | %.0f | %.0f |\n", made * 1e6, ed * 1e6, un * 1e6, re * 1e6);
}
