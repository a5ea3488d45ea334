/* Two clients and a server in one process play the trial program's input of document 01 and print its nine lines.
   Build and run: sh examples/c.sh */
#include "../include/cop.h"
#include <stdio.h>
#include <stdlib.h>
#include <string.h>

enum { VANS = 2, LINE = 16 };

/* a message on its way from the server to a client */
typedef struct {
    size_t n;
    uint8_t bytes[COP_RE_MOST];
} message;

static cop_replica replicas[VANS + 1]; /* by client number */
static cop_server server;
static message lines[VANS + 1][LINE];
static int heads[VANS + 1], ends[VANS + 1];

static void put(int van, const uint8_t *bytes, size_t n) {
    if (ends[van] == LINE || n > COP_RE_MOST) exit(2);
    message *m = &lines[van][ends[van]++];
    m->n = n;
    memcpy(m->bytes, bytes, n);
}

/* the server takes a message of a client at once; what it writes goes to the line ends */
static cop_said serve(int van, const uint8_t *m, size_t n) {
    uint8_t out[COP_SERVE_MOST] = {0};
    cop_said s = cop_serve(&server, (uint8_t)van, m, n, out, sizeof out);
    if (s.what == COP_PLACED) put(van, out, 3 + COP_ITEM * (size_t)out[2]);
    if (s.what == COP_BROADCAST)
        for (uint32_t i = 0; i < s.first; i++)
            for (int v = 1; v <= VANS; v++) put(v, out + COP_BR * i, COP_BR);
    return s;
}

static cop_said invoke(int van, uint8_t kind, uint8_t cell, uint8_t amount) {
    uint8_t out[COP_IN] = {0};
    /* the last byte: 0 in every kind but COP_SET_WITH_TEMP */
    cop_said s = cop_invoke(&replicas[van], kind, cell, amount, 0, out, sizeof out);
    return s.what == COP_INVOKED ? serve(van, out, sizeof out) : s;
}

static cop_said deliver(int van) {
    uint8_t out[COP_CO] = {0};
    message *m = &lines[van][heads[van]];
    cop_said s = cop_receive(&replicas[van], m->bytes, m->n, out, sizeof out);
    if (s.number == 0) heads[van]++;
    if (s.what == COP_RESPONDED || s.what == COP_ABORTED) serve(van, out, sizeof out);
    return s;
}

static void show(int number, int van, cop_said s) {
    printf("%d %d ", number, van);
    switch (s.what) {
    case COP_PLACED: printf("placed %u\n", s.first); break;
    case COP_RESPONDED: printf("answer %u %d\n", s.first, s.second); break;
    case COP_ABORTED: printf("aside %u\n", s.first); break;
    case COP_CONFIRMED: printf("confirm %u %d\n", s.first, s.second); break;
    case COP_HALTED: printf("halt %u\n", s.number); break;
    default: printf("no %u\n", s.number);
    }
}

int main(void) {
    /* a van's number, then kind, cell and amount of an `I`; kind 0 is a `D` */
    static const uint8_t input[9][4] = {
        {1, COP_SET, 0, 7}, {1}, {1}, {2}, {2, COP_ADD, 0, 3}, {1, COP_TAKE, 0, 5}, {1}, {1, COP_TAKE, 0, 4}, {1},
    };
    uint8_t keys[COP_KEYS]; /* van j's key is 32 bytes of value j; real ones are random */
    for (int i = 0; i < COP_KEYS; i++) keys[i] = (uint8_t)(i / COP_KEY + 1);
    for (int v = 1; v <= VANS; v++) {
        cop_opened o = cop_open((uint8_t)v, keys, sizeof keys);
        if (o.said.what != COP_OPENED) return 1;
        replicas[v] = o.replica;
    }
    server = cop_fresh_server();
    for (int i = 0; i < 9; i++) {
        const uint8_t *in = input[i];
        if (in[1]) show(i + 1, in[0], invoke(in[0], in[1], in[2], in[3]));
        else if (heads[in[0]] == ends[in[0]]) printf("%d %d empty\n", i + 1, in[0]);
        else show(i + 1, in[0], deliver(in[0]));
    }
    return 0;
}
