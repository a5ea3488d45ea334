// The client and the server of COP written plainly in C++, over a hash H: the yardstick of bench/protocol.cpp.
// With Checked, every question of document 01 and Q-4's; without, all but question 8 (fields in range), as one would leave it out of
// a class whose state nobody else writes.
#pragma once
#include "../include/cop.h"
#include "shifts.h"
#include <array>
#include <cstring>
#include <vector>

using Bytes32 = std::array<uint8_t, 32>;

struct Op {
    uint32_t count = 0;
    uint8_t kind = 0, cell = 0, amount = 0, last = 0;
    bool operator==(const Op &o) const {
        return count == o.count && kind == o.kind && cell == o.cell && amount == o.amount && last == o.last;
    }
};

inline void put4(uint8_t *p, uint32_t n) { p[0] = n >> 24, p[1] = n >> 16, p[2] = n >> 8, p[3] = n; }
inline uint32_t get4(const uint8_t *p) { return (uint32_t)p[0] << 24 | p[1] << 16 | p[2] << 8 | p[3]; }
inline void put_op(uint8_t *p, const Op &o) { put4(p, o.count), p[4] = o.kind, p[5] = o.cell, p[6] = o.amount, p[7] = o.last; }
inline Op get_op(const uint8_t *p) {
    Op o;
    o.count = get4(p), o.kind = p[4], o.cell = p[5], o.amount = p[6], o.last = p[7];
    return o;
}
inline bool temp_allowed(int8_t t) { return COP_TEMP_LEAST <= t && t <= COP_TEMP_MOST; }
inline bool may(int kind, int cell, int amount, uint8_t last) {
    return 1 <= kind && kind <= 6 && cell < 16 && ((kind != COP_READ && kind != COP_READ_TEMP) || amount == 0)
           && (kind == COP_SET_WITH_TEMP ? temp_allowed((int8_t)last) : last == 0);
}
inline bool allowed(const Op &o) { return 1 <= o.count && o.count <= COP_COUNT_MOST && may(o.kind, o.cell, o.amount, o.last); }
inline bool author_allowed(int a) { return 1 <= a && a <= 8; }
inline bool is_halt(int n) { return COP_HALT_FORM <= n && n <= COP_HALT_UNCOMMITTED; }

// Runs an operation on the cells, and gives its response.
inline int run(const Op &o, cop_cells &cells) {
    uint8_t &v = cells.values[o.cell];
    int8_t &t = cells.temps[o.cell];
    int given = response(o, v, t);
    v = Values::after(o, v), t = (int8_t)Temps::after(o, t);
    return given;
}

inline bool conflict(const cop_cells &cells, const std::vector<Op> &others, const std::vector<Op> &own) {
    for (int k = 0; k < 16; ++k) {
        std::vector<Op> os, ws;
        for (const Op &o : own)
            if (o.cell == k) ws.push_back(o);
        if (ws.empty()) continue;
        for (const Op &o : others)
            if (o.cell == k) os.push_back(o);
        if (!os.empty() && shifts(cells.values[k], (uint8_t)cells.temps[k], os, ws)) return true;
    }
    return false;
}

inline cop_said refused(uint32_t n) { return {COP_REFUSED, n, 0, 0}; }
inline cop_said success(uint32_t what, uint32_t a, int32_t b = 0) { return {what, 0, a, b}; }

template <class H> void chain_value(H &h, const uint8_t *before, const uint8_t *op, uint32_t seq, uint8_t author, uint8_t *out) {
    uint8_t s[45];
    memcpy(s, before, 32), memcpy(s + 32, op, 8), put4(s + 40, seq), s[44] = author;
    h.digest(s, 45, out);
}

inline bool zero(const void *p, size_t n) {
    static const uint8_t zeros[1312] = {};
    return memcmp(p, zeros, n) == 0;
}

template <class H, bool Checked> struct Client {
    H *h; // holds the keys, in contexts that are made once
    uint8_t number = 0, halt = 0;
    bool busy = false;
    uint32_t count = 0, confirmed = 0, held = 0;
    Op current;
    Bytes32 chain[33] = {};
    uint8_t statuses[32] = {}; // 0 none, 1 done, 2 aside
    cop_cells cells = {};

    Client(H *hash, uint8_t n) : h(hash), number(n) {}

    bool in_range() const {
        if (!author_allowed(number) || count > COP_COUNT_MOST || confirmed > COP_COUNT_MOST || held > 32) return false;
        if (confirmed + held > COP_COUNT_MOST || (halt != 0 && !is_halt(halt))) return false;
        if (busy ? !allowed(current) : !zero(&current, sizeof current)) return false;
        for (uint32_t k = 0; k < held; ++k)
            if (statuses[k] > 2) return false;
        for (int8_t t : cells.temps)
            if (!temp_allowed(t)) return false;
        return zero(statuses + held, 32 - held) && zero(chain + held + 1, 32 * (32 - held));
    }

    cop_said halted(uint8_t n) {
        halt = n;
        return {COP_HALTED, n, 0, 0};
    }

    cop_said invoke(uint8_t kind, uint8_t cell, uint8_t amount, uint8_t last, uint8_t *out, size_t room) {
        if (Checked && !in_range()) return refused(8);
        if (halt) return refused(3);
        if (busy) return refused(4);
        if (!may(kind, cell, amount, last)) return refused(5);
        if (count == COP_COUNT_MOST) return refused(6);
        if (room < COP_IN) return refused(7);
        current.count = ++count, current.kind = kind, current.cell = cell, current.amount = amount, current.last = last;
        busy = true;
        out[0] = 'I', out[1] = 'N', put_op(out + 2, current), out[10] = number;
        h->tag(number, out, 11, out + 11);
        return success(COP_INVOKED, count);
    }

    cop_said receive(const uint8_t *m, size_t n, uint8_t *out, size_t room) {
        if (Checked && !in_range()) return refused(8);
        if (halt) return refused(3);
        if (n >= 3 && m[0] == 'R' && m[1] == 'E' && m[2] <= 32 && n == 3u + 41u * m[2]) return room < COP_CO ? refused(7) : reply(m, out);
        if (n == 80 && m[0] == 'B' && m[1] == 'R') return broadcast(m);
        return halted(20);
    }

    cop_said reply(const uint8_t *m, uint8_t *out) {
        uint32_t n = m[2];
        std::vector<Op> others, own;
        Op op;
        uint8_t author = 0;
        Bytes32 after[33];
        after[0] = chain[0];
        for (uint32_t k = 0; k < n; ++k) {
            const uint8_t *item = m + 3 + 41 * k;
            op = get_op(item), author = item[8];
            uint32_t seq = confirmed + k + 1;
            if (!allowed(op) || !author_allowed(author) || seq > COP_COUNT_MOST) return halted(21);
            uint8_t s[11] = {'I', 'N'}, t[32];
            memcpy(s + 2, item, 9);
            h->tag(author, s, 11, t);
            if (memcmp(t, item + 9, 32) != 0) return halted(22);
            chain_value(*h, after[k].data(), item, seq, author, after[k + 1].data());
            if (k < held && after[k + 1] != chain[k + 1]) return halted(23);
            if (author != number)
                others.push_back(op);
            else if (k + 1 < n) {
                if (statuses[k] == 0) return halted(26); // past those held all are 0
                if (statuses[k] == 1) own.push_back(op);
            }
        }
        if (n == 0 || !busy || !(op == current) || author != number) return halted(24);
        own.push_back(op);
        uint32_t seq = confirmed + n;
        bool done = !conflict(cells, others, own);
        int given = 0;
        if (done) {
            cop_cells copy = cells;
            for (const Op &o : own) given = run(o, copy);
        }
        if (n > held) {
            memcpy(chain + held + 1, after + held + 1, 32 * (n - held));
            held = n;
        }
        statuses[n - 1] = done ? 1 : 2;
        out[0] = 'C', out[1] = 'O', put_op(out + 2, current), out[10] = number, put4(out + 11, seq);
        memcpy(out + 15, chain[n].data(), 32), out[47] = done;
        h->tag(number, out, 48, out + 48);
        busy = false;
        current = Op();
        return done ? success(COP_RESPONDED, seq, given) : success(COP_ABORTED, seq);
    }

    cop_said broadcast(const uint8_t *m) {
        Op op = get_op(m + 2);
        uint8_t author = m[10], status = m[47], s[48], t[32];
        uint32_t seq = get4(m + 11);
        if (!allowed(op) || !author_allowed(author) || status > 1) return halted(21);
        if (seq != confirmed + 1 || seq > COP_COUNT_MOST) return halted(25);
        memcpy(s, m, 48), s[0] = 'C', s[1] = 'O';
        h->tag(author, s, 48, t);
        if (memcmp(t, m + 48, 32) != 0) return halted(22);
        if (held == 0) chain_value(*h, chain[0].data(), m + 2, seq, author, t);
        const uint8_t *v = held ? chain[1].data() : t;
        if (memcmp(v, m + 15, 32) != 0) return halted(23);
        if (status == COP_DONE) run(op, cells);
        confirmed = seq;
        if (held) {
            memmove(chain, chain + 1, 32 * held);
            chain[held].fill(0);
            memmove(statuses, statuses + 1, held - 1);
            statuses[--held] = 0;
        } else
            memcpy(chain[0].data(), t, 32);
        return success(COP_CONFIRMED, seq, status);
    }
};

template <bool Checked> struct Server {
    uint32_t placed = 0, passed = 0, counts[8] = {};
    uint8_t items[32][41] = {}, statuses[32] = {}, digests[32][32] = {}, tags[32][32] = {}; // statuses: 0 none, 1 done, 2 aside

    bool in_range() const {
        if (passed > placed || placed > COP_COUNT_MOST || placed - passed > 32) return false;
        for (uint32_t c : counts)
            if (c > COP_COUNT_MOST) return false;
        uint32_t n = placed - passed;
        for (uint32_t k = 0; k < n; ++k) {
            if (!allowed(get_op(items[k])) || !author_allowed(items[k][8]) || statuses[k] > 2) return false;
            if (statuses[k] == 0 && !(zero(digests[k], 32) && zero(tags[k], 32))) return false;
        }
        return zero(items + n, 41 * (32 - n)) && zero(statuses + n, 32 - n) && zero(digests + n, 32 * (32 - n)) && zero(tags + n, 32 * (32 - n));
    }

    cop_said serve(uint8_t line, const uint8_t *m, size_t n, uint8_t *out, size_t room) {
        if (Checked && !in_range()) return refused(8);
        if (n == 43 && m[0] == 'I' && m[1] == 'N') return invoke(line, m, out, room);
        if (n == 80 && m[0] == 'C' && m[1] == 'O') return commit(line, m, out, room);
        return refused(30);
    }

    cop_said invoke(uint8_t line, const uint8_t *m, uint8_t *out, size_t room) {
        Op op = get_op(m + 2);
        uint8_t author = m[10];
        uint32_t waiting = placed - passed;
        if (!allowed(op) || !author_allowed(author)) return refused(30);
        if (author != line) return refused(31);
        if (op.count != counts[line - 1] + 1) return refused(32);
        if (waiting == 32) return refused(33);
        if (placed == COP_COUNT_MOST) return refused(34);
        if (room < 3 + 41 * (waiting + 1)) return refused(7);
        memcpy(items[waiting], m + 2, 41);
        counts[line - 1] = op.count;
        ++placed;
        out[0] = 'R', out[1] = 'E', out[2] = waiting + 1;
        memcpy(out + 3, items, 41 * (waiting + 1));
        return success(COP_PLACED, placed);
    }

    cop_said commit(uint8_t line, const uint8_t *m, uint8_t *out, size_t room) {
        Op op = get_op(m + 2);
        uint8_t author = m[10];
        uint32_t seq = get4(m + 11), waiting = placed - passed, at = seq - passed - 1, due = 0;
        if (!allowed(op) || !author_allowed(author) || m[47] > 1) return refused(30);
        if (author != line) return refused(31);
        if (seq <= passed || seq > placed || memcmp(items[at], m + 2, 9) != 0) return refused(35);
        if (statuses[at]) return refused(36);
        while (due < waiting && (statuses[due] || due == at)) ++due;
        if (room < 80 * due) return refused(7);
        statuses[at] = m[47] == COP_DONE ? 1 : 2;
        memcpy(digests[at], m + 15, 32), memcpy(tags[at], m + 48, 32);
        for (uint32_t k = 0; k < due; ++k) {
            uint8_t *p = out + 80 * k;
            p[0] = 'B', p[1] = 'R', memcpy(p + 2, items[k], 9), put4(p + 11, passed + 1 + k);
            memcpy(p + 15, digests[k], 32), p[47] = statuses[k] == 1, memcpy(p + 48, tags[k], 32);
        }
        if (due) {
            uint32_t rest = waiting - due;
            memmove(items, items + due, 41 * rest), memset(items + rest, 0, 41 * due);
            memmove(statuses, statuses + due, rest), memset(statuses + rest, 0, due);
            memmove(digests, digests + due, 32 * rest), memset(digests + rest, 0, 32 * due);
            memmove(tags, tags + due, 32 * rest), memset(tags + rest, 0, 32 * due);
            passed += due;
        }
        return success(COP_BROADCAST, due);
    }
};
