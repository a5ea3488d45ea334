// Operations on one cell and its temperature, and the conflict test there with whole sets moved at once by shifts, no loop over values: what
// the C++ of bench/conflict.cpp and bench/protocol.cpp shares. An Op has a kind (1 add, 2 take, 3 read, 4 set, 5 set with temperature, 6 read
// the temperature), an amount and a last byte.
#pragma once
#include <algorithm>
#include <bitset>
#include <cstdint>
#include <iterator>
#include <vector>

using Set = std::bitset<256>;

// The values below i.
struct Low {
    Set at[257];
    Low() {
        for (int i = 0; i <= 256; ++i)
            for (int v = 0; v < i; ++v) at[i].set(v);
    }
};
inline const Low lows;
inline const Set &low(int i) { return lows.at[i]; }

// What a cell holds, and what is done to it. `told` is the part of the response that depends on it, `differs` whether one of the values
// has another one than u.
struct Values {
    // An add or take that fails answers 256 plus the cell's value.
    template <class Op> static int told(const Op &e, int v) {
        switch (e.kind) {
        case 1: return v + e.amount <= 255 ? 1 : 256 + v;
        case 2: return e.amount <= v ? 1 : 256 + v;
        case 3: return v;
        default: return 1;
        }
    }
    template <class Op> static int after(const Op &e, int v) {
        switch (e.kind) {
        case 1: return v + e.amount <= 255 ? v + e.amount : v;
        case 2: return e.amount <= v ? v - e.amount : v;
        case 4:
        case 5: return e.amount;
        default: return v;
        }
    }
    template <class Op> static Set moved(const Set &s, const Op &e) {
        switch (e.kind) {
        case 1: return ((s & low(256 - e.amount)) << e.amount) | (s & ~low(256 - e.amount));
        case 2: return ((s & ~low(e.amount)) >> e.amount) | (s & low(e.amount));
        case 4:
        case 5: return s.any() ? Set().set(e.amount) : Set();
        default: return s;
        }
    }
    // One that fails where u succeeds, any other where u fails or is read.
    template <class Op> static bool differs(const Set &s, const Op &e, int u) {
        auto but_u = [&] { return Set(s).reset(u).any(); };
        switch (e.kind) {
        case 1: return u + e.amount <= 255 ? (s & ~low(256 - e.amount)).any() : but_u();
        case 2: return e.amount <= u ? (s & low(e.amount)).any() : but_u();
        case 3: return but_u();
        default: return false;
        }
    }
};

// The same of the cell's temperature, a byte.
struct Temps {
    template <class Op> static int told(const Op &e, int t) { return e.kind == 6 ? (int8_t)t : 1; }
    template <class Op> static int after(const Op &e, int t) { return e.kind == 5 ? e.last : t; }
    template <class Op> static Set moved(const Set &s, const Op &e) { return e.kind != 5 ? s : s.any() ? Set().set(e.last) : Set(); }
    template <class Op> static bool differs(const Set &s, const Op &e, int u) { return e.kind == 6 && Set(s).reset(u).any(); }
};

template <class Op> int response(const Op &e, int v, int t) { return e.kind == 6 ? Temps::told(e, t) : Values::told(e, v); }

// Whether some interleaving makes an own response differ by the value, or by the temperature.
template <class Side, class Op> bool search(int start, const std::vector<Op> &others, const std::vector<Op> &own) {
    std::vector<Set> reach(own.size() + 1);
    reach[0].set(start);
    for (size_t i = 0;; ++i) {
        int u = start;
        for (size_t j = 0; j < own.size(); ++j) {
            if (Side::differs(reach[j], own[j], u)) return true;
            reach[j + 1] |= Side::moved(reach[j], own[j]);
            u = Side::after(own[j], u);
        }
        if (i == others.size()) return false;
        for (Set &s : reach) s |= Side::moved(s, others[i]);
    }
}

// A search on temperatures, over the operations that are about them, and only where one of the own reads one and one of the others' sets one.
template <class Op, class F> bool on_temps(const std::vector<Op> &others, const std::vector<Op> &own, F test) {
    if (std::none_of(own.begin(), own.end(), [](const Op &e) { return e.kind == 6; })) return false;
    std::vector<Op> set, about;
    std::copy_if(others.begin(), others.end(), std::back_inserter(set), [](const Op &e) { return e.kind == 5; });
    if (set.empty()) return false;
    std::copy_if(own.begin(), own.end(), std::back_inserter(about), [](const Op &e) { return e.kind == 5 || e.kind == 6; });
    return test(set, about);
}

template <class Op> bool shifts(int value, int temp, const std::vector<Op> &others, const std::vector<Op> &own) {
    using Ops = std::vector<Op>;
    return search<Values>(value, others, own)
           || on_temps(others, own, [&](const Ops &o, const Ops &w) { return search<Temps>(temp, o, w); });
}
