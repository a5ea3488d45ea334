// Times the proved conflict test (target/staticlib/libbench_conflict.a) against plain C++ implementations,
// in one run. bench/README-conflict.md says how.
#include "shifts.h"
#include <algorithm>
#include <chrono>
#include <cstdint>
#include <cstdio>
#include <cstring>
#include <random>
#include <vector>

extern "C" bool rattle_conflict(const uint8_t *values, const uint8_t *temps, const uint8_t *others, size_t n, const uint8_t *own, size_t m);

struct Op {
    int kind, cell, amount, last;
};

// The same search value by value, its marks in bitsets.
template <class Side> static bool one_by_one(int start, const std::vector<Op> &others, const std::vector<Op> &own) {
    std::vector<Set> reach(own.size() + 1);
    reach[0].set(start);
    for (size_t i = 0;; ++i) {
        int u = start;
        for (size_t j = 0; j < own.size(); ++j) {
            int expected = Side::told(own[j], u);
            for (int v = 0; v < 256; ++v)
                if (reach[j][v]) {
                    if (Side::told(own[j], v) != expected) return true;
                    reach[j + 1].set(Side::after(own[j], v));
                }
            u = Side::after(own[j], u);
        }
        if (i == others.size()) return false;
        for (Set &s : reach) {
            Set t = s;
            for (int v = 0; v < 256; ++v)
                if (s[v]) t.set(Side::after(others[i], v));
            s = t;
        }
    }
}
static bool values(int value, int temp, const std::vector<Op> &others, const std::vector<Op> &own) {
    using Ops = std::vector<Op>;
    return one_by_one<Values>(value, others, own)
           || on_temps(others, own, [&](const Ops &o, const Ops &w) { return one_by_one<Temps>(temp, o, w); });
}

struct Case {
    const char *name;
    uint8_t values[16], temps[16];
    uint8_t others[256];
    size_t n;
    uint8_t own[256];
    size_t m;
};

template <class F> static bool whole(F test, const Case &c) {
    std::vector<Op> os[16], ws[16];
    for (size_t i = 0; i < c.n; ++i) {
        const uint8_t *p = c.others + 8 * i;
        if (p[5] < 16) os[p[5]].push_back({p[4], p[5], p[6], p[7]});
    }
    for (size_t i = 0; i < c.m; ++i) {
        const uint8_t *p = c.own + 8 * i;
        if (p[5] < 16) ws[p[5]].push_back({p[4], p[5], p[6], p[7]});
    }
    for (int k = 0; k < 16; ++k)
        if (!os[k].empty() && !ws[k].empty() && test(c.values[k], c.temps[k], os[k], ws[k])) return true;
    return false;
}

static bool proved(const Case &c) { return rattle_conflict(c.values, c.temps, c.others, c.n, c.own, c.m); }

static void put(uint8_t *ops, size_t i, int kind, int cell, int amount, int last = 0) {
    uint8_t p[8] = {0, 0, 0, 1, (uint8_t)kind, (uint8_t)cell, (uint8_t)amount, (uint8_t)last};
    memcpy(ops + 8 * i, p, 8);
}

template <class O, class W> static Case make(const char *name, int start, size_t n, O others, size_t m, W own, int temp = 0) {
    Case c;
    memset(&c, 0, sizeof c);
    c.name = name;
    memset(c.values, start, 16);
    memset(c.temps, temp, 16);
    c.n = n;
    c.m = m;
    for (size_t i = 0; i < n; ++i) others(c.others, i);
    for (size_t i = 0; i < m; ++i) own(c.own, i);
    return c;
}

// Microseconds a call, once: 40 calls in a row.
template <class F> static double once(F f) {
    auto t = std::chrono::steady_clock::now();
    for (int i = 0; i < 40; ++i) {
        volatile bool r = f();
        (void)r;
    }
    return std::chrono::duration<double, std::micro>(std::chrono::steady_clock::now() - t).count() / 40;
}

struct Times {
    double proved, shifts, values;
};

// Taken in turn, so that a busy moment of the machine falls on all three; the least of each counts.
static Times timed(const Case &c) {
    Times t = {1e9, 1e9, 1e9};
    for (int r = 0; r < 600; ++r) {
        t.proved = std::min(t.proved, once([&] { return proved(c); }));
        t.shifts = std::min(t.shifts, once([&] { return whole(shifts<Op>, c); }));
        if (r % 20 == 0) t.values = std::min(t.values, once([&] { return whole(values, c); }));
    }
    return t;
}

int main() {

    // First, the three agree on random cases.
    std::mt19937 random(1);
    int yes = 0;
    for (int r = 0; r < 20000; ++r) {
        int cells = 1 + random() % 3, wide = random() % 2 ? 256 : 8, degrees = random() % 2 ? 126 : 1 + random() % 2;
        auto temp = [&] { return (int)(random() % degrees) - 40; };
        auto op = [&](uint8_t *ops, size_t i) {
            int kind = 1 + random() % 6;
            put(ops, i, kind, random() % cells, kind == 3 || kind == 6 ? 0 : random() % wide, kind == 5 ? temp() : 0);
        };
        size_t n = random() % 6, m = random() % 6;
        Case c = make("", random() % wide, n, op, m, op, temp());
        bool a = proved(c);
        yes += a;
        if (a != whole(values, c) || a != whole(shifts<Op>, c)) {
            printf("differ at random case %d\n", r);
            return 1;
        }
    }
    printf("20000 random cases agree, %d of them conflicts\n\n", yes);

    // Powers of two, each twice over: every value is reached from 0.
    auto powers = [](uint8_t *ops, size_t i) { put(ops, i, 1, 0, 1 << (i % 8)); };
    // An own add that fails from 100 on, where any other value differs: others that leave 100, and others of which the
    // last leaves 255, so that the conflict is found at the last value (and, in the second such case, in the last row).
    auto fails = [](uint8_t *ops, size_t i) { put(ops, i, 1, 0, 200); };
    auto calm = [](uint8_t *ops, size_t i) { put(ops, i, 1 + i % 2, 0, 0); };
    auto to_255 = [](uint8_t *ops, size_t i) { put(ops, i, i < 15 ? 1 : 4, 0, i < 15 ? 0 : 255); };
    // Kinds 5 and 6 at -5 degrees: others that leave it, with many values, and others of which the last makes it -1, the last of the 256
    // bytes. In the mixed case half of the own operations read values and half read temperatures, and neither differs.
    auto warm = [](uint8_t *ops, size_t i) { put(ops, i, 5, 0, 37 * i % 256, -5); };
    auto read = [](uint8_t *ops, size_t i) { put(ops, i, 6, 0, 0); };
    auto to_last = [](uint8_t *ops, size_t i) { put(ops, i, 5, 0, i, i < 15 ? -5 : -1); };
    auto mixed_others = [](uint8_t *ops, size_t i) { i % 2 ? put(ops, i, 5, 0, i, -5) : put(ops, i, 1, 0, 1 << (i / 2 % 8)); };
    auto mixed_own = [](uint8_t *ops, size_t i) { i % 2 ? put(ops, i, 6, 0, 0) : put(ops, i, 2, 0, 0); };
    std::vector<Case> cases = {
        make("16 others, 16 own add 0", 0, 16, powers, 16, [](uint8_t *o, size_t i) { put(o, i, 1, 0, 0); }),
        make("16 others, 16 own take 0", 0, 16, powers, 16, [](uint8_t *o, size_t i) { put(o, i, 2, 0, 0); }),
        make("16 others, 16 own sets", 0, 16, powers, 16, [](uint8_t *o, size_t i) { put(o, i, 4, 0, 37 * i % 256); }),
        make("31 others, 1 own", 0, 31, powers, 1, [](uint8_t *o, size_t i) { put(o, i, 2, 0, 0); }),
        make("1 other, 31 own", 0, 1, powers, 31, [](uint8_t *o, size_t i) { put(o, i, 2, 0, 0); }),
        make("16 and 16 over 16 cells", 0, 16, [](uint8_t *o, size_t i) { put(o, i, 1, i, 1); }, 16,
             [](uint8_t *o, size_t i) { put(o, i, 1, i, 1); }),
        make("16 and 16, no cell shared", 0, 16, [](uint8_t *o, size_t i) { put(o, i, 1, i % 8, 1); }, 16,
             [](uint8_t *o, size_t i) { put(o, i, 1, 8 + i % 8, 1); }),
        make("16 others, 16 own reads: yes", 0, 16, powers, 16, [](uint8_t *o, size_t i) { put(o, i, 3, 0, 0); }),
        make("16 others, 1 own: yes, at 255", 0, 16, [](uint8_t *o, size_t i) { put(o, i, i < 15 ? 4 : 1, 0, i < 15 ? 0 : 255); },
             1, [](uint8_t *o, size_t i) { put(o, i, 3, 0, 0); }),
        make("16 others, 16 own that fail", 100, 16, calm, 16, fails),
        make("31 others, 1 own that fails", 100, 31, calm, 1, fails),
        make("1 other, 31 own that fail", 100, 1, calm, 31, fails),
        make("16, 1 own that fails: yes", 100, 16, to_255, 1, fails),
        make("16, 16 own, the last fails: yes", 100, 16, to_255, 16, [](uint8_t *o, size_t i) { put(o, i, 1, 0, i < 15 ? 0 : 200); }),
        make("16 others kind 5, 16 own kind 6", 0, 16, warm, 16, read, -5),
        make("31 others kind 5, 1 own kind 6", 0, 31, warm, 1, read, -5),
        make("1 other kind 5, 31 own kind 6", 0, 1, warm, 31, read, -5),
        make("16 others kind 5, 16 own kind 5", 0, 16, warm, 16, warm, -5),
        make("16 others kind 5, 16 own take 0", 0, 16, warm, 16, [](uint8_t *o, size_t i) { put(o, i, 2, 0, 0); }, -5),
        make("16 and 16, kinds 5 and 6, mixed", 0, 16, mixed_others, 16, mixed_own, -5),
        make("16 and 16, 5 and 6, 16 cells", 0, 16, [](uint8_t *o, size_t i) { put(o, i, 5, i, 1, -5); }, 16,
             [](uint8_t *o, size_t i) { put(o, i, 6, i, 0); }, -5),
        make("16, 1 own kind 6: yes, at -1", 0, 16, to_last, 1, read, -5),
        make("16, 16 own, last kind 6: yes", 0, 16, to_last, 16, [](uint8_t *o, size_t i) { put(o, i, i < 15 ? 5 : 6, 0, 0, i < 15 ? -5 : 0); }, -5),
        make("32 others, 32 own that fail *", 100, 32, calm, 32, fails),
        make("32 and 32, kinds 5 and 6, mixed *", 0, 32, mixed_others, 32, mixed_own, -5),
        make("32 others, 32 own take 0 *", 0, 32, powers, 32, [](uint8_t *o, size_t i) { put(o, i, 2, 0, 0); }),
    };
    printf("%-34s %8s %12s %6s %10s %6s\n", "microseconds a call", "proved", "C++ shifts", "ratio", "C++ values", "ratio");
    double worst = 0, to_shifts = 0, to_values = 0;
    for (const Case &c : cases) {
        if (proved(c) != whole(values, c) || proved(c) != whole(shifts<Op>, c)) {
            printf("differ at %s\n", c.name);
            return 1;
        }
        Times t = timed(c);
        printf("%-34s %8.2f %12.2f %6.2f %10.2f %6.2f\n", c.name, t.proved, t.shifts, t.proved / t.shifts, t.values, t.proved / t.values);
        to_shifts = std::max(to_shifts, t.proved / t.shifts);
        to_values = std::max(to_values, t.proved / t.values);
        if (c.n + c.m <= 32) worst = std::max(worst, t.proved);
    }
    Case least = make("", 0, 1, [](uint8_t *o, size_t i) { put(o, i, 1, 0, 255); }, 1, [](uint8_t *o, size_t i) { put(o, i, 3, 0, 0); });
    Times t = timed(least);
    printf("\nnot under the bars, 1 other, 1 own, a conflict at 255: %.2f us, C++ by shifts %.2f us\n", t.proved, t.shifts);
    printf("\nworst with at most 32 operations in all: %.2f us (bar: under 200)\n", worst);
    printf("largest ratio to the C++ by shifts: %.2f (bar: at most 2)\n", to_shifts);
    printf("largest ratio to the C++ value by value: %.2f (bar: at most 2)\n", to_values);
    bool met = worst < 200 && to_shifts <= 2 && to_values <= 2;
    printf("%s\n", met ? "bars met" : "BARS MISSED");
    return met ? 0 : 1;
}
