/* Brings each number and each outcome of include/cop.h through the library's exported functions once, and prints what is wrong.
   What the calls do is proved; this tries that a C program gets it: layouts, lengths, results by value. Run by tests/exports.sh. */
#include "../include/cop.h"
#include <stdio.h>
#include <string.h>

static int wrong;
static unsigned seen[COP_BROADCAST + 1], numbers[COP_REFUSED_COMMITTED + 1];

#define EXPECT(e) ((e) ? (void)0 : (void)(wrong++, printf("tests/exports.c:%d: not so: %s\n", __LINE__, #e)))

/* an outcome as it should be: which, number, values */
static int is(cop_said s, uint32_t what, uint32_t number, uint32_t first, int32_t second) {
    if (s.what <= COP_BROADCAST) seen[s.what]++;
    if (s.number <= COP_REFUSED_COMMITTED) numbers[s.number]++;
    return s.what == what && s.number == number && s.first == first && s.second == second;
}
static int refused(cop_said s, uint32_t number) { return is(s, COP_REFUSED, number, 0, 0); }
static int halted(cop_said s, uint32_t number) { return is(s, COP_HALTED, number, 0, 0); }

static uint8_t keys[COP_KEYS];
static cop_replica opened(uint8_t number) {
    cop_opened o = cop_open(number, keys, sizeof keys);
    EXPECT(is(o.said, COP_OPENED, 0, 0, 0));
    EXPECT(o.replica.number == number && memcmp(o.replica.keys, keys, sizeof keys) == 0 && o.replica.halt == 0);
    return o.replica;
}

/* a BR from a CO: its mark changed, its tag made anew with the author's key */
static void broadcast(uint8_t *m) {
    m[0] = 'C', m[1] = 'O';
    EXPECT(cop_tag(keys + COP_KEY * (m[10] - 1), COP_KEY, m, 48, m + 48) == 0);
    m[0] = 'B', m[1] = 'R';
}

/* a RE that lists an old operation of this client's once more, before the current one; a halt mark past the last is out of range */
static void uncommitted(cop_replica r, const uint8_t *old, const uint8_t *current) {
    uint8_t re[3 + 2 * COP_ITEM] = {'R', 'E', 2}, out[COP_CO] = {0};
    memcpy(re + 3, old, COP_ITEM), memcpy(re + 3 + COP_ITEM, current, COP_ITEM);
    EXPECT(halted(cop_receive(&r, re, sizeof re, out, sizeof out), COP_HALT_UNCOMMITTED) && r.halt == COP_HALT_UNCOMMITTED);
    EXPECT(out[0] == 0 && r.held == 0 && r.current.count == 2);
    EXPECT(refused(cop_receive(&r, re, sizeof re, out, sizeof out), COP_REFUSED_HALT_MARK));
    r.halt = COP_HALT_UNCOMMITTED + 1;
    EXPECT(refused(cop_receive(&r, re, sizeof re, out, sizeof out), COP_REFUSED_RANGE));
}

static void client(void) {
    uint8_t in[COP_IN] = {0}, co[COP_CO] = {0}, re[COP_SERVE_MOST] = {0}, br[COP_SERVE_MOST] = {0}, bad[COP_SERVE_MOST], same[COP_CO] = {0};
    uint8_t first[COP_ITEM];
    cop_opened none = cop_open(9, keys, sizeof keys);
    EXPECT(refused(none.said, COP_REFUSED_NUMBER) && none.replica.number == 0 && none.replica.keys[255] == 0);
    EXPECT(refused(cop_open(1, keys, 255).said, COP_REFUSED_KEYS));
    cop_replica r = opened(1), q;
    cop_server s = cop_fresh_server();

    EXPECT(refused(cop_invoke(&r, 7, 0, 0, 0, in, sizeof in), COP_REFUSED_FORBIDDEN));
    EXPECT(refused(cop_invoke(&r, COP_SET, 15, 7, 0, in, COP_IN - 1), COP_REFUSED_ROOM) && in[0] == 0 && r.count == 0);
    q = r, q.count = COP_COUNT_MOST;
    EXPECT(refused(cop_invoke(&q, COP_SET, 15, 7, 0, in, sizeof in), COP_REFUSED_COUNT));
    memset(&q, 0xff, sizeof q);
    EXPECT(refused(cop_receive(&q, in, 0, co, sizeof co), COP_REFUSED_RANGE));
    EXPECT(is(cop_invoke(&r, COP_SET, 15, 7, 0, in, sizeof in), COP_INVOKED, 0, 1, 0) && memcmp(in, "IN\0\0\0\1\4\17\7\0\1", 11) == 0);
    EXPECT(r.count == 1 && r.current.count == 1 && r.current.kind == COP_SET && r.current.cell == 15 && r.current.amount == 7);
    EXPECT(refused(cop_invoke(&r, COP_SET, 15, 7, 0, in, sizeof in), COP_REFUSED_CURRENT));

    EXPECT(is(cop_serve(&s, 1, in, sizeof in, re, sizeof re), COP_PLACED, 0, 1, 0) && memcmp(re, "RE\1", 3) == 0 && s.placed == 1 && s.counts[0] == 1);
    memcpy(first, re + 3, COP_ITEM), q = r;
    EXPECT(halted(cop_receive(&q, re, 43, co, sizeof co), COP_HALT_FORM) && q.halt == COP_HALT_FORM && q.count == 1);
    EXPECT(refused(cop_receive(&q, re, 44, co, sizeof co), COP_REFUSED_HALT_MARK));
    memcpy(bad, re, 44), bad[7] = 9, q = r;
    EXPECT(halted(cop_receive(&q, bad, 44, co, sizeof co), COP_HALT_CONTENT));
    memcpy(bad, re, 44), bad[43] ^= 1, q = r;
    EXPECT(halted(cop_receive(&q, bad, 44, co, sizeof co), COP_HALT_TAG));
    EXPECT(refused(cop_receive(&r, re, 44, co, COP_CO - 1), COP_REFUSED_ROOM) && co[0] == 0);
    EXPECT(is(cop_receive(&r, re, 44, co, sizeof co), COP_RESPONDED, 0, 1, 1) && memcmp(co, "CO", 2) == 0 && co[10] == 1 && co[14] == 1);
    EXPECT(r.held == 1 && r.statuses[0] == 1 && r.current.count == 0);
    q = r;
    EXPECT(halted(cop_receive(&q, re, 44, same, sizeof same), COP_HALT_LAST) && same[0] == 0);

    EXPECT(is(cop_serve(&s, 1, co, sizeof co, br, sizeof br), COP_BROADCAST, 0, 1, 0) && memcmp(br, "BR", 2) == 0 && memcmp(br + 2, co + 2, 78) == 0);
    EXPECT(s.passed == 1 && s.items[0] == 0);
    memcpy(bad, br, COP_BR), bad[15] ^= 1, q = r, broadcast(bad);
    EXPECT(halted(cop_receive(&q, bad, COP_BR, co, sizeof co), COP_HALT_CHAIN));
    EXPECT(is(cop_receive(&r, br, COP_BR, co, 0), COP_CONFIRMED, 0, 1, COP_DONE) && r.cells.values[15] == 7 && r.confirmed == 1 && r.held == 0);
    q = r;
    EXPECT(halted(cop_receive(&q, br, COP_BR, co, 0), COP_HALT_SEQ) && q.halt == COP_HALT_SEQ);

    /* an add and a take that fail bring what the cell holds */
    EXPECT(is(cop_invoke(&r, COP_TAKE, 15, 8, 0, in, sizeof in), COP_INVOKED, 0, 2, 0));
    EXPECT(is(cop_serve(&s, 1, in, sizeof in, re, sizeof re), COP_PLACED, 0, 2, 0));
    uncommitted(r, first, re + 3);
    EXPECT(is(cop_receive(&r, re, 44, co, sizeof co), COP_RESPONDED, 0, 2, COP_FAILED + 7));
    EXPECT(is(cop_serve(&s, 1, co, sizeof co, br, sizeof br), COP_BROADCAST, 0, 1, 0));
    EXPECT(is(cop_receive(&r, br, COP_BR, co, 0), COP_CONFIRMED, 0, 2, COP_DONE) && r.cells.values[15] == 7);
    r.cells.values[15] = 255;
    EXPECT(is(cop_invoke(&r, COP_ADD, 15, 1, 0, in, sizeof in), COP_INVOKED, 0, 3, 0));
    EXPECT(is(cop_serve(&s, 1, in, sizeof in, re, sizeof re), COP_PLACED, 0, 3, 0));
    EXPECT(is(cop_receive(&r, re, 44, co, sizeof co), COP_RESPONDED, 0, 3, COP_RESPONSE_MOST));
}

/* a client alone with the server invokes, gets its response, which should be this one, and confirms */
static void round_trip(cop_replica *r, cop_server *s, uint8_t kind, uint8_t cell, uint8_t amount, uint8_t last, int32_t response) {
    uint8_t in[COP_IN] = {0}, co[COP_CO] = {0}, out[COP_SERVE_MOST] = {0};
    uint32_t seq = s->placed + 1;
    EXPECT(is(cop_invoke(r, kind, cell, amount, last, in, sizeof in), COP_INVOKED, 0, seq, 0) && in[9] == last);
    EXPECT(is(cop_serve(s, 3, in, sizeof in, out, sizeof out), COP_PLACED, 0, seq, 0));
    EXPECT(is(cop_receive(r, out, 44, co, sizeof co), COP_RESPONDED, 0, seq, response));
    EXPECT(is(cop_serve(s, 3, co, sizeof co, out, sizeof out), COP_BROADCAST, 0, 1, 0));
    EXPECT(is(cop_receive(r, out, COP_BR, co, 0), COP_CONFIRMED, 0, seq, COP_DONE));
}

static void temperatures(void) {
    uint8_t in[COP_IN] = {0};
    cop_replica r = opened(3), q;
    cop_server s = cop_fresh_server();
    for (int t = -128; t <= 127; t++) {
        int ok = COP_TEMP_LEAST <= t && t <= COP_TEMP_MOST;
        q = r, q.cells.temps[15] = (int8_t)t;
        EXPECT(cop_invoke(&q, COP_READ_TEMP, 15, 0, 0, in, sizeof in).number == (ok ? 0u : COP_REFUSED_RANGE));
        q = r;
        EXPECT(cop_invoke(&q, COP_SET_WITH_TEMP, 15, 7, (uint8_t)t, in, sizeof in).number == (ok ? 0u : COP_REFUSED_FORBIDDEN));
        q = r;
        EXPECT(cop_invoke(&q, COP_SET, 15, 7, (uint8_t)t, in, sizeof in).number == (t == 0 ? 0u : COP_REFUSED_FORBIDDEN));
    }
    EXPECT(refused(cop_invoke(&r, COP_READ_TEMP, 15, 1, 0, in, sizeof in), COP_REFUSED_FORBIDDEN));
    EXPECT(refused(cop_invoke(&r, COP_READ_TEMP, 15, 0, 1, in, sizeof in), COP_REFUSED_FORBIDDEN));
    round_trip(&r, &s, COP_READ_TEMP, 15, 0, 0, 0);
    round_trip(&r, &s, COP_SET_WITH_TEMP, 15, 7, (uint8_t)COP_TEMP_LEAST, 1);
    EXPECT(r.cells.values[15] == 7 && r.cells.temps[15] == COP_TEMP_LEAST && r.cells.temps[14] == 0);
    round_trip(&r, &s, COP_READ_TEMP, 15, 0, 0, COP_RESPONSE_LEAST);
    round_trip(&r, &s, COP_SET, 15, 9, 0, 1);
    round_trip(&r, &s, COP_READ_TEMP, 15, 0, 0, COP_TEMP_LEAST);
    round_trip(&r, &s, COP_SET_WITH_TEMP, 15, 255, COP_TEMP_MOST, 1);
    round_trip(&r, &s, COP_READ_TEMP, 15, 0, 0, COP_TEMP_MOST);
    round_trip(&r, &s, COP_READ, 15, 0, 0, 255);
    EXPECT(r.cells.values[15] == 255 && r.cells.temps[15] == COP_TEMP_MOST);
}

static void relay(void) {
    uint8_t in[COP_IN] = {0}, co[COP_CO] = {0}, late[COP_CO] = {0}, out[COP_SERVE_MOST] = {0};
    cop_replica r1 = opened(1), r2 = opened(2);
    cop_server s = cop_fresh_server(), q;
    EXPECT(refused(cop_serve(&s, 1, in, 0, out, sizeof out), COP_REFUSED_FORM));
    /* client 1 takes cell 0 and keeps its CO back; client 2's operations then wait */
    cop_invoke(&r1, COP_SET, 0, 7, 0, in, sizeof in);
    EXPECT(refused(cop_serve(&s, 2, in, sizeof in, out, sizeof out), COP_REFUSED_LINE));
    EXPECT(refused(cop_serve(&s, 1, in, sizeof in, out, 43), COP_REFUSED_ROOM) && out[0] == 0 && s.placed == 0);
    EXPECT(is(cop_serve(&s, 1, in, sizeof in, out, sizeof out), COP_PLACED, 0, 1, 0));
    EXPECT(refused(cop_serve(&s, 1, in, sizeof in, out, sizeof out), COP_REFUSED_NEXT));
    EXPECT(is(cop_receive(&r1, out, 44, late, sizeof late), COP_RESPONDED, 0, 1, 1));
    for (uint32_t n = 2; n <= COP_PENDING_MOST; n++) {
        cop_invoke(&r2, n == 2 ? COP_READ : COP_ADD, n == 2 ? 0 : 1, n == 2 ? 0 : 1, 0, in, sizeof in);
        EXPECT(is(cop_serve(&s, 2, in, sizeof in, out, sizeof out), COP_PLACED, 0, n, 0) && out[2] == n);
        cop_said a = cop_receive(&r2, out, 3 + COP_ITEM * n, co, sizeof co);
        EXPECT(n == 2 ? is(a, COP_ABORTED, 0, n, 0) : is(a, COP_RESPONDED, 0, n, 1));
        EXPECT(is(cop_serve(&s, 2, co, sizeof co, out, sizeof out), COP_BROADCAST, 0, 0, 0));
    }
    EXPECT(refused(cop_serve(&s, 2, co, sizeof co, out, sizeof out), COP_REFUSED_COMMITTED));
    cop_invoke(&r2, COP_READ, 2, 0, 0, in, sizeof in);
    EXPECT(refused(cop_serve(&s, 2, in, sizeof in, out, sizeof out), COP_REFUSED_PENDING));
    EXPECT(is(cop_serve(&s, 1, late, sizeof late, out, sizeof out), COP_BROADCAST, 0, COP_PENDING_MOST, 0) && s.passed == COP_PENDING_MOST);
    EXPECT(refused(cop_serve(&s, 1, late, sizeof late, co, sizeof co), COP_REFUSED_PLACE));
    for (uint32_t n = 1; n <= COP_PENDING_MOST; n++) {
        EXPECT(is(cop_receive(&r2, out + COP_BR * (n - 1), COP_BR, co, 0), COP_CONFIRMED, 0, n, n == 2 ? COP_ASIDE : COP_DONE));
        EXPECT(is(cop_receive(&r1, out + COP_BR * (n - 1), COP_BR, co, 0), COP_CONFIRMED, 0, n, n == 2 ? COP_ASIDE : COP_DONE));
    }
    EXPECT(r1.cells.values[0] == 7 && r1.cells.values[1] == 30);
    EXPECT(memcmp(&r1.cells, &r2.cells, sizeof r1.cells) == 0 && memcmp(r1.chain, r2.chain, 32) == 0);
    q = s, q.placed = q.passed = COP_COUNT_MOST;
    EXPECT(refused(cop_serve(&q, 2, in, sizeof in, out, sizeof out), COP_REFUSED_FULL));
    memset(&q, 0xff, sizeof q);
    EXPECT(refused(cop_serve(&q, 2, in, sizeof in, out, sizeof out), COP_REFUSED_RANGE));
}

static void digest(void) {
    static uint8_t long_input[COP_INPUT_MOST + 1];
    uint8_t out[32] = {0};
    EXPECT(cop_digest((const uint8_t *)"abc", 3, out) == 0 && memcmp(out, "\xba\x78\x16\xbf\x8f\x01\xcf\xea", 8) == 0 && out[31] == 0xad);
    EXPECT(cop_tag((const uint8_t *)"Jefe", 4, (const uint8_t *)"what do ya want for nothing?", 28, out) == 0);
    EXPECT(memcmp(out, "\x5b\xdc\xc1\x46\xbf\x60\x75\x4e", 8) == 0 && out[31] == 0x43);
    EXPECT(cop_digest(long_input, COP_INPUT_MOST, out) == 0 && out[31] != 0x43);
    memset(out, 1, sizeof out);
    EXPECT(cop_digest(long_input, sizeof long_input, out) == COP_REFUSED_LONG && out[0] == 1 && out[31] == 1);
    EXPECT(cop_tag(long_input, sizeof long_input, out, 0, (uint8_t[32]){0}) == COP_REFUSED_LONG);
}

int main(void) {
    for (int i = 0; i < COP_KEYS; i++) keys[i] = (uint8_t)(i / COP_KEY + 1);
    client();
    temperatures();
    relay();
    digest();
    for (int i = 0; i <= COP_BROADCAST; i++) EXPECT(seen[i] > 0);
    for (int i = 1; i <= COP_REFUSED_COMMITTED; i++)
        if (i <= COP_REFUSED_RANGE || (COP_HALT_FORM <= i && i <= COP_HALT_UNCOMMITTED) || i >= COP_REFUSED_FORM) EXPECT(numbers[i] > 0);
    printf("exports: %d wrong\n", wrong);
    return wrong != 0;
}
