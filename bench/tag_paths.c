// Follows cop_receive of the library as it is linked, instruction by instruction, on messages with a wrong tag: whichever bytes of the
// tag are wrong, the instructions have to be the same ones in the same order. See README-tags.md.
#define _GNU_SOURCE
#include <signal.h>
#include <stdbool.h>
#include <stdio.h>
#include <stdlib.h>
#include <string.h>
#include <ucontext.h>
#include "../include/cop.h"

bool rattle_equal(const uint8_t *s, const uint8_t *t);

enum { RE_TAG = 3 + 9, BR_TAG = 48, TRAP = 0x100 };

// a call to follow: on `m`, whose tag stands at `tag`, with the replica as it is before
typedef struct {
    const char *name;
    cop_replica replica;
    uint8_t m[COP_RE_MOST];
    size_t n, tag;
} call;

// the addresses of the instructions since `followed` began, in one number (FNV-1a), and how many they are
typedef struct {
    uint64_t hash, steps;
} path;

static path way;

static void __attribute__((noinline)) ends(void) { __asm__ volatile(""); }

// after each instruction, while the processor's trap flag is set
static void on_step(int signal, siginfo_t *info, void *context) {
    (void)signal, (void)info;
    greg_t *regs = ((ucontext_t *)context)->uc_mcontext.gregs;
    uint64_t at = (uint64_t)regs[REG_RIP];
    if (at == (uint64_t)ends) regs[REG_EFL] &= ~TRAP;
    for (int k = 0; k < 64; k += 8) way.hash = (way.hash ^ (at >> k & 255)) * 1099511628211u;
    way.steps++;
}

static uint32_t made(call *c) {
    if (c->n == 64) return rattle_equal(c->m, c->m + 32) ? 0 : COP_HALT_TAG;
    uint8_t out[COP_CO] = {0};
    return cop_receive(&c->replica, c->m, c->n, out, sizeof out).number;
}

// what the call says; `way` is what it went through
static uint32_t __attribute__((noinline)) followed(const call *c) {
    static call copy;
    copy = *c;
    way = (path){14695981039346656037u, 0};
    __asm__ volatile("lea -128(%%rsp), %%rsp; pushfq; orq %0, (%%rsp); popfq; lea 128(%%rsp), %%rsp" ::"i"(TRAP) : "cc", "memory");
    uint32_t number = made(&copy);
    ends();
    return number;
}

static void need(bool yes, const char *what) {
    if (!yes) {
        printf("%s\n", what);
        exit(2);
    }
}

// how many tags with one wrong byte take another path than one with all bytes wrong
static int others(const call *c) {
    call d = *c;
    for (int i = 0; i < 32; i++) d.m[d.tag + i] ^= 255;
    need(followed(&d) == COP_HALT_TAG, "a wrong tag was not found");
    path all = way;
    int other = 0;
    for (int i = 0; i < 32; i++) {
        d = *c;
        d.m[d.tag + i] ^= 1 << i % 8;
        need(followed(&d) == COP_HALT_TAG, "a wrong tag was not found");
        other += way.hash != all.hash || way.steps != all.steps;
    }
    need(followed(c) == 0, "a right tag was taken for a wrong one");
    printf("%-32s %6llu instructions; %d of 32 tags with one wrong byte go another way\n", c->name, (unsigned long long)all.steps, other);
    return other;
}

static cop_replica opened(uint8_t number) {
    uint8_t keys[COP_KEYS];
    for (int i = 0; i < COP_KEYS; i++) keys[i] = (uint8_t)(i * 37 + 11);
    cop_opened o = cop_open(number, keys, sizeof keys);
    need(o.said.what == COP_OPENED, "no client");
    return o.replica;
}

static call on(const char *name, const cop_replica *r, const uint8_t *m, size_t n, size_t tag) {
    call c = {name, *r, {0}, n, tag};
    memcpy(c.m, m, n);
    return c;
}

int main(void) {
    struct sigaction steps = {.sa_sigaction = on_step, .sa_flags = SA_SIGINFO};
    sigaction(SIGTRAP, &steps, NULL);
    cop_replica one = opened(1), two = opened(2);
    cop_server server = cop_fresh_server();
    uint8_t in[COP_IN] = {0}, co[COP_CO] = {0}, re[COP_SERVE_MOST] = {0}, br[COP_SERVE_MOST] = {0}, pair[64] = {0};
    // client 2's operation waits at place 1; client 1's gets place 2, so that its RE lists both
    need(cop_invoke(&two, COP_SET, 0, 7, 0, in, sizeof in).what == COP_INVOKED, "no IN");
    need(cop_serve(&server, 2, in, sizeof in, re, sizeof re).what == COP_PLACED, "no RE");
    need(cop_receive(&two, re, 3 + COP_ITEM, co, sizeof co).what == COP_RESPONDED, "no CO");
    need(cop_invoke(&one, COP_SET, 1, 9, 0, in, sizeof in).what == COP_INVOKED, "no IN");
    need(cop_serve(&server, 1, in, sizeof in, re, sizeof re).what == COP_PLACED && re[2] == 2, "no RE");
    need(cop_serve(&server, 2, co, sizeof co, br, sizeof br).what == COP_BROADCAST, "no BR");
    call control = on("control: 32 bytes, early exit", &one, pair, sizeof pair, 32);
    call calls[] = {
        on("RE of 2, the first tag", &one, re, 3 + 2 * COP_ITEM, RE_TAG),
        on("RE of 2, the second tag", &one, re, 3 + 2 * COP_ITEM, RE_TAG + COP_ITEM),
        on("BR", &one, br, COP_BR, BR_TAG),
    };
    need(others(&control) > 0, "the control was not told apart");
    int bad = 0;
    for (int i = 0; i < 3; i++) bad += others(&calls[i]);
    return bad > 0;
}
