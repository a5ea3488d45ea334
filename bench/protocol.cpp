// Times the proved client and server (target/staticlib/libcop_c.a) beside the same protocol in plain C++ over OpenSSL (protocol.h),
// in one run. bench/README-protocol.md says how.
#include "protocol.h"
#include <algorithm>
#include <chrono>
#include <cstdio>
#include <cstdlib>
#include <deque>
#include <fstream>
#include <openssl/evp.h>
#include <openssl/hmac.h>
#include <openssl/sha.h>
#include <random>
#include <string>

static uint8_t keys[COP_KEYS];

// OpenSSL's EVP and HMAC calls, a context for the digest and one for each key, made once.
struct Contexts {
    EVP_MD *md = EVP_MD_fetch(nullptr, "SHA256", nullptr);
    EVP_MD_CTX *d = EVP_MD_CTX_new();
    HMAC_CTX *t[8];
    Contexts() {
        for (int a = 0; a < 8; ++a) t[a] = HMAC_CTX_new(), HMAC_Init_ex(t[a], keys + 32 * a, 32, md, nullptr);
    }
    void digest(const uint8_t *m, size_t n, uint8_t *out) {
        EVP_DigestInit_ex(d, md, nullptr), EVP_DigestUpdate(d, m, n), EVP_DigestFinal_ex(d, out, nullptr);
    }
    void tag(int author, const uint8_t *m, size_t n, uint8_t *out) {
        HMAC_CTX *h = t[author - 1];
        HMAC_Init_ex(h, nullptr, 0, nullptr, nullptr), HMAC_Update(h, m, n), HMAC_Final(h, out, nullptr);
    }
};

// OpenSSL's older SHA256_ calls: the states after the key's block are kept for each key and copied.
struct Kept {
    SHA256_CTX inner[8], outer[8];
    Kept() {
        for (int a = 0; a < 8; ++a) {
            uint8_t i[64], o[64];
            memset(i, 0x36, 64), memset(o, 0x5c, 64);
            for (int k = 0; k < 32; ++k) i[k] ^= keys[32 * a + k], o[k] ^= keys[32 * a + k];
            SHA256_Init(inner + a), SHA256_Update(inner + a, i, 64), SHA256_Init(outer + a), SHA256_Update(outer + a, o, 64);
        }
    }
    void digest(const uint8_t *m, size_t n, uint8_t *out) {
        SHA256_CTX c;
        SHA256_Init(&c), SHA256_Update(&c, m, n), SHA256_Final(out, &c);
    }
    void tag(int author, const uint8_t *m, size_t n, uint8_t *out) {
        SHA256_CTX c = inner[author - 1];
        SHA256_Update(&c, m, n), SHA256_Final(out, &c);
        c = outer[author - 1];
        SHA256_Update(&c, out, 32), SHA256_Final(out, &c);
    }
};

struct ProvedClient {
    cop_replica r;
    explicit ProvedClient(uint8_t n) : r(cop_open(n, keys, sizeof keys).replica) {}
    cop_said invoke(uint8_t kind, uint8_t cell, uint8_t amount, uint8_t last, uint8_t *out, size_t room) {
        return cop_invoke(&r, kind, cell, amount, last, out, room);
    }
    cop_said receive(const uint8_t *m, size_t n, uint8_t *out, size_t room) { return cop_receive(&r, m, n, out, room); }
};
struct ProvedServer {
    cop_server s = cop_fresh_server();
    cop_said serve(uint8_t line, const uint8_t *m, size_t n, uint8_t *out, size_t room) { return cop_serve(&s, line, m, n, out, room); }
};

// The four that are timed: the proved one; C++ over contexts; the same without question 8; that over kept states.
template <class A, class B, class C, class D> struct Four {
    A a;
    B b;
    C c;
    D d;
    template <class F> void each(F f) { f(a), f(b), f(c), f(d); }
};
static Contexts *contexts;
static Kept *kept;
using Clients = Four<ProvedClient, Client<Contexts, true>, Client<Contexts, false>, Client<Kept, false>>;
using Servers = Four<ProvedServer, Server<true>, Server<false>, Server<false>>;
static Clients clients(uint8_t n) { return {ProvedClient(n), {contexts, n}, {contexts, n}, {kept, n}}; }

using Message = std::vector<uint8_t>;
static uint8_t out[COP_SERVE_MOST];

static bool equal(cop_said x, cop_said y) { return memcmp(&x, &y, sizeof x) == 0; }
[[noreturn]] static void differ(const std::string &where) {
    printf("differ: %s\n", where.c_str());
    exit(1);
}

// Makes a call on each of the four, holds them to each other, and gives what was said, with what was written in `out`.
template <class Fs, class F> static cop_said together(const std::string &name, Fs &four, F call) {
    cop_said first = {};
    uint8_t wrote[sizeof out];
    int i = 0;
    four.each([&](auto &state) {
        memset(out, 0, sizeof out);
        cop_said s = call(state);
        if (i++ == 0)
            first = s, memcpy(wrote, out, sizeof out);
        else if (!equal(s, first) || memcmp(wrote, out, sizeof out) != 0)
            differ(name);
    });
    return first;
}

// Processor time of this thread, in nanoseconds.
static double worked() {
    timespec t;
    clock_gettime(CLOCK_THREAD_CPUTIME_ID, &t);
    return t.tv_sec * 1e9 + t.tv_nsec;
}
static double now() { return std::chrono::duration<double, std::nano>(std::chrono::steady_clock::now().time_since_epoch()).count(); }

static int rows, missed;
static void print(const std::string &name, const double t[4], bool bar = true) {
    bool miss = bar && t[0] > t[1];
    rows += bar, missed += miss;
    printf("%-34s %8.0f %8.0f %6.2f %8.0f %6.2f %8.0f %6.2f%s\n", name.c_str(), t[0], t[1], t[0] / t[1], t[2], t[0] / t[2], t[3], t[0] / t[3],
           miss ? "  missed" : "");
}

// Times call(state, k) for k below `calls` on copies of each of the four. In turn, so that a busy moment of the machine falls on all;
// the best of 1,500 turns counts.
template <class Fs, class F> static void row(const std::string &name, const Fs &four, int copies, int calls, F call, bool bar = true) {
    Fs tried = four;
    for (int k = 0; k < calls; ++k) {
        cop_said s = together(name, tried, [&](auto &state) { return call(state, k); });
        if (s.what <= COP_HALTED) differ(name + ": no success");
    }
    double best[4] = {1e18, 1e18, 1e18, 1e18};
    for (int r = 0; r < 1500; ++r) {
        int i = 0;
        Fs from = four;
        from.each([&](auto &state) {
            std::vector<std::decay_t<decltype(state)>> states(copies, state);
            double t = now();
            for (auto &s : states)
                for (int k = 0; k < calls; ++k) {
                    cop_said said = call(s, k);
                    asm volatile("" ::"m"(said), "m"(out) : "memory");
                }
            t = (now() - t) / (copies * calls);
            best[i] = std::min(best[i], t), ++i;
        });
    }
    print(name, best, bar);
}

// ---- messages

static Message item(int author, uint32_t count, int kind, int cell, int amount) {
    Message m(43);
    Op o;
    o.count = count, o.kind = kind, o.cell = cell, o.amount = amount;
    m[0] = 'I', m[1] = 'N', put_op(&m[2], o), m[10] = author;
    kept->tag(author, m.data(), 11, &m[11]);
    return m;
}
static Message reply(const std::vector<Message> &ins) {
    Message m = {'R', 'E', (uint8_t)ins.size()};
    for (const Message &i : ins) m.insert(m.end(), i.begin() + 2, i.end());
    return m;
}
// The next BR of a history whose chain value stands in `value`.
static void next_broadcast(uint8_t *m, uint8_t *value, uint32_t seq, int author, const Op &op, int status) {
    m[0] = 'C', m[1] = 'O', put_op(m + 2, op), m[10] = author, put4(m + 11, seq);
    chain_value(*kept, value, m + 2, seq, author, value);
    memcpy(m + 15, value, 32), m[47] = status;
    kept->tag(author, m, 48, m + 48);
    m[0] = 'B', m[1] = 'R';
}

// ---- the four agree on drawn runs of three clients, with damaged messages among them

static std::mt19937 drawn(2);
// Kind, cell, amount and last byte that are allowed, with temperatures about 0 or about their ends.
static Op drawn_op(std::mt19937 &random, int cells, int amounts) {
    static const int temps[] = {COP_TEMP_LEAST, -1, 0, 0, 1, 20, COP_TEMP_MOST};
    Op o;
    o.kind = 1 + random() % 6, o.cell = random() % cells, o.amount = o.kind == COP_READ || o.kind == COP_READ_TEMP ? 0 : random() % amounts;
    o.last = o.kind == COP_SET_WITH_TEMP ? (uint8_t)temps[random() % 7] : 0;
    return o;
}
static Message damaged(Message m) {
    if (drawn() % 20 == 0) m[drawn() % m.size()] ^= 1 << drawn() % 8;
    if (drawn() % 60 == 0) m.resize(drawn() % (m.size() + 1));
    return m;
}
// A RE that lists an operation once more, before its last item.
static Message relisted(Message m, const Message &in) {
    ++m[2];
    m.insert(m.end() - COP_ITEM, in.begin() + 2, in.end());
    return m;
}
static void agree() {
    unsigned calls = 0, negative = 0, uncommitted = 0, said[COP_BROADCAST + 1] = {};
    for (int run = 0; run < 300; ++run) {
        Servers server;
        Clients cs[3] = {clients(1), clients(2), clients(3)};
        std::deque<Message> up[3], down[3];
        std::vector<Message> ins; // all that were written
        for (int step = 0; step < 300; ++step) {
            int v = drawn() % 3, what = drawn() % 4;
            size_t room = drawn() % 20 ? sizeof out : drawn() % 100;
            cop_said s;
            if (what == 0) {
                Op o = drawn_op(drawn, 3, 90);
                if (drawn() % 30 == 0) o.kind = drawn() % 256;
                if (drawn() % 30 == 0) o.last = drawn() % 256;
                s = together("invoke", cs[v], [&](auto &c) { return c.invoke(o.kind, o.cell, o.amount, o.last, out, room); });
                if (s.what == COP_INVOKED) up[v].emplace_back(out, out + COP_IN), ins.push_back(up[v].back());
            } else if (what == 1 && !up[v].empty()) {
                Message m = damaged(up[v].front());
                s = together("serve", server, [&](auto &x) { return x.serve(v + 1, m.data(), m.size(), out, room); });
                if (s.what == COP_PLACED) down[v].emplace_back(out, out + 3 + 41 * out[2]);
                for (uint32_t k = 0; s.what == COP_BROADCAST && k < s.first; ++k)
                    for (auto &line : down) line.emplace_back(out + 80 * k, out + 80 * k + 80);
                if (s.what != COP_REFUSED) up[v].pop_front();
            } else if (what >= 2 && !down[v].empty()) {
                Message m = drawn() % 10 ? down[v].front() : damaged(down[v].front());
                if (m == down[v].front() && m[0] == 'R' && m[2] < 32 && drawn() % 20 == 0) m = relisted(m, ins[drawn() % ins.size()]);
                s = together("receive", cs[v], [&](auto &c) { return c.receive(m.data(), m.size(), out, room); });
                if (s.what == COP_RESPONDED || s.what == COP_ABORTED) up[v].emplace_back(out, out + COP_CO);
                if (s.what != COP_REFUSED) down[v].pop_front();
            } else
                continue;
            calls++, said[s.what]++, negative += s.what == COP_RESPONDED && s.second < 0, uncommitted += s.number == COP_HALT_UNCOMMITTED;
        }
    }
    printf("%u drawn calls agree: %u refused, %u halted (%u with 26), %u responses (%u negative), %u aborts, %u confirmations\n", calls,
           said[COP_REFUSED], said[COP_HALTED], uncommitted, said[COP_RESPONDED], negative, said[COP_ABORTED], said[COP_CONFIRMED]);
}

// ---- rows

static void broadcasts() {
    std::vector<Message> ins, brs;
    uint8_t value[32] = {};
    for (uint32_t k = 1; k <= 31; ++k) {
        ins.push_back(item(2, k, COP_ADD, k % 16, 1));
        brs.emplace_back(80);
        next_broadcast(brs.back().data(), value, k, 2, get_op(&ins.back()[2]), 1);
    }
    auto call = [&](auto &c, int k) { return c.receive(brs[k].data(), 80, out, 0); };
    Clients fresh = clients(1);
    row("BR, not held", fresh, 1, 31, call);
    // a RE with client 1's own operation at 32 leaves 32 held
    together("invoke", fresh, [&](auto &c) { return c.invoke(COP_READ, 0, 0, 0, out, sizeof out); });
    ins.push_back(item(1, 1, COP_READ, 0, 0));
    Message re = reply(ins);
    together("RE", fresh, [&](auto &c) { return c.receive(re.data(), re.size(), out, sizeof out); });
    row("BR, held", fresh, 1, 31, call);
}

static void reply_row(const std::string &name, int n, bool worst) {
    Clients cs = clients(1);
    std::vector<Message> ins;
    uint32_t own = 0;
    Message re;
    for (int k = 1; k <= n; ++k) {
        bool mine = worst ? k % 2 == 0 : k == n; // in the worst case every second is client 1's, on the same cell
        if (!mine) {
            ins.push_back(item(2, k, COP_ADD, worst ? 0 : 1 + k % 15, worst ? 1 << (k / 2 % 8) : 1));
            continue;
        }
        together(name, cs, [&](auto &c) { return c.invoke(COP_ADD, 0, 0, 0, out, sizeof out); });
        ins.push_back(item(1, ++own, COP_ADD, 0, 0));
        re = reply(ins);
        if (k < n) together(name, cs, [&](auto &c) { return c.receive(re.data(), re.size(), out, sizeof out); });
    }
    row(name, cs, 8, 1, [&](auto &c, int) { return c.receive(re.data(), re.size(), out, sizeof out); });
}

static void server_rows() {
    Servers empty;
    Message first = item(1, 1, COP_ADD, 0, 1);
    row("server, IN, none pending", empty, 16, 1, [&](auto &s, int) { return s.serve(1, first.data(), 43, out, sizeof out); });
    // 31 pending, then 32, and their COs
    Servers some = empty, full;
    std::vector<Message> ins, cos;
    for (uint32_t k = 1; k <= 32; ++k) {
        ins.push_back(item(1, k, COP_ADD, 0, 1));
        Message co(80);
        uint8_t value[32] = {(uint8_t)k};
        next_broadcast(co.data(), value, k, 1, get_op(&ins.back()[2]), 1);
        co[0] = 'C', co[1] = 'O';
        cos.push_back(co);
        if (k == 32) break;
        together("IN", some, [&](auto &s) { return s.serve(1, ins.back().data(), 43, out, sizeof out); });
    }
    row("server, IN, 31 pending", some, 8, 1, [&](auto &s, int) { return s.serve(1, ins[31].data(), 43, out, sizeof out); });
    Servers one = empty;
    together("IN", one, [&](auto &s) { return s.serve(1, ins[0].data(), 43, out, sizeof out); });
    row("server, CO, 1 pending, 1 BR", one, 16, 1, [&](auto &s, int) { return s.serve(1, cos[0].data(), 80, out, sizeof out); });
    full = some;
    together("IN", full, [&](auto &s) { return s.serve(1, ins[31].data(), 43, out, sizeof out); });
    row("server, CO, 32 pending, no BR", full, 8, 1, [&](auto &s, int) { return s.serve(1, cos[31].data(), 80, out, sizeof out); });
    row("server, CO, 32 pending, 1 BR", full, 8, 1, [&](auto &s, int) { return s.serve(1, cos[0].data(), 80, out, sizeof out); });
    for (int k = 1; k < 32; ++k) together("CO", full, [&](auto &s) { return s.serve(1, cos[k].data(), 80, out, sizeof out); });
    row("server, CO, 32 pending, 32 BRs", full, 8, 1, [&](auto &s, int) { return s.serve(1, cos[0].data(), 80, out, sizeof out); });
}

// One client alone with the server: invoke, IN, RE, CO, BR.
template <class C, class S> struct Pair {
    C c;
    S s;
    cop_said round(int k) {
        uint8_t in[COP_IN], co[COP_CO];
        c.invoke(COP_ADD, k % 16, 1, 0, in, sizeof in);
        s.serve(1, in, sizeof in, out, sizeof out);
        c.receive(out, 44, co, sizeof co);
        s.serve(1, co, sizeof co, out, sizeof out);
        return c.receive(out, COP_BR, co, 0);
    }
};
static void rounds() {
    Clients c = clients(1);
    Four<Pair<ProvedClient, ProvedServer>, Pair<Client<Contexts, true>, Server<true>>, Pair<Client<Contexts, false>, Server<false>>,
         Pair<Client<Kept, false>, Server<false>>>
        pairs = {{c.a, {}}, {c.b, {}}, {c.c, {}}, {c.d, {}}};
    row("whole round, one client", pairs, 1, 16, [&](auto &p, int k) { return p.round(k); });
}

// Memory that this process has written and holds, counted page by page.
static long kilobytes() {
    std::ifstream f("/proc/self/smaps_rollup");
    std::string line;
    while (std::getline(f, line))
        if (line.compare(0, 14, "Private_Dirty:") == 0) return atol(line.c_str() + 14);
    return 0;
}

// A client opened anew takes the BRs of a million operations of eight authors, one in eight of them aborted, 1,000 at a time.
static void replay() {
    const uint32_t part = 1000;
    Clients cs = clients(1);
    std::mt19937 random(1);
    uint32_t counts[9] = {};
    uint8_t value[32] = {};
    std::vector<uint8_t> brs(80 * part);
    double t[4] = {};
    long early = kilobytes(); // once before, for what looking takes itself
    for (uint32_t from = 0; from < COP_COUNT_MOST; from += part) {
        for (uint32_t k = 0; k < part; ++k) {
            int author = 1 + random() % 8;
            Op o = drawn_op(random, 16, 256);
            o.count = ++counts[author];
            next_broadcast(&brs[80 * k], value, from + k + 1, author, o, random() % 8 != 0);
        }
        int i = 0;
        cs.each([&](auto &c) {
            double start = worked();
            for (uint32_t k = 0; k < part; ++k) {
                cop_said s = c.receive(&brs[80 * k], 80, out, 0);
                if (s.what != COP_CONFIRMED || s.first != from + k + 1) differ("replay");
            }
            t[i++] += worked() - start;
        });
        if (from == 9 * part) early = kilobytes();
    }
    if (memcmp(&cs.a.r.cells, &cs.b.cells, sizeof cs.b.cells) != 0 || memcmp(cs.a.r.chain, cs.b.chain, 32) != 0) differ("replay's end");
    for (double &x : t) x /= COP_COUNT_MOST;
    print("replay of 1,000,000, each", t);
    long late = kilobytes();
    printf("replay in all: proved %.2f s, C++ %.2f s\n", t[0] / 1e3, t[1] / 1e3);
    printf("memory held: after 10,000 operations %ld KiB, after 1,000,000 %ld KiB%s\n", early, late, late > early ? "  missed" : "");
    rows++, missed += late > early;
}

// The digest of a chain string and the tag of a CO string alone, as far as each of the four has them.
struct ProvedHash {
    cop_said digest() { return {COP_OPENED, cop_digest(keys, 45, out), 0, 0}; }
    cop_said tag() { return {COP_OPENED, cop_tag(keys, 32, keys, 48, out), 0, 0}; }
};
template <class H> struct Hash {
    H *h;
    cop_said digest() { return h->digest(keys, 45, out), success(COP_OPENED, 0); }
    cop_said tag() { return h->tag(1, keys, 48, out), success(COP_OPENED, 0); }
};
static void hashes() {
    Four<ProvedHash, Hash<Contexts>, Hash<Contexts>, Hash<Kept>> four = {{}, {contexts}, {contexts}, {kept}};
    row("(digest of 45 bytes alone)", four, 16, 1, [](auto &h, int) { return h.digest(); }, false);
    row("(tag of 48 bytes alone)", four, 16, 1, [](auto &h, int) { return h.tag(); }, false);
}

int main() {
    setvbuf(stdout, nullptr, _IOLBF, 0);
    for (int i = 0; i < COP_KEYS; ++i) keys[i] = (uint8_t)(i * 7 + 3);
    contexts = new Contexts, kept = new Kept;
    agree();
    printf("%-34s %8s %8s %6s %8s %6s %8s %6s\n", "nanoseconds a call", "proved", "C++", "ratio", "no 8", "ratio", "kept", "ratio");
    broadcasts();
    reply_row("RE of 1", 1, false);
    reply_row("RE of 8, no conflict", 8, false);
    reply_row("RE of 8, longest conflict test", 8, true);
    reply_row("RE of 32, no conflict", 32, false);
    reply_row("RE of 32, longest conflict test", 32, true);
    row("invoke", clients(1), 16, 1, [&](auto &c, int) { return c.invoke(COP_ADD, 3, 7, 0, out, sizeof out); });
    server_rows();
    rounds();
    replay();
    hashes();
    printf("bar: %d of %d rows missed\n", missed, rows);
    return missed ? 1 : 0;
}
