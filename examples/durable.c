/* Two clients and a server that may be killed at any moment, power cuts included, and go on from their records: the
   recipe of include/cop.h, "Keeping the state". A file stands in for each line, with each byte at its offset. (A file
   system that after a power cut may show bytes that nobody wrote makes no lines: a connection brings none.) A run does
   what can be done now and ends; a program that stays would wait for its lines instead.

       durable FOLDER start       makes keys, records and empty lines; by hand, once
       durable FOLDER client 1    client 1's turn (or 2's)
       durable FOLDER server      the server's turn
       durable FOLDER cells 1     prints what client 1's cells hold

   It ends with 0; with 1 where a client has halted or a line stands still; with 2 where a file cannot be had.
   Build and run: sh examples/durable.sh. Killed at every point: sh tests/durable.sh. */
#define _XOPEN_SOURCE 700
#include "../include/cop.h"
#include <fcntl.h>
#include <stdio.h>
#include <stdlib.h>
#include <string.h>
#include <unistd.h>

/* Two of the eight clients. One that may join later needs its line from the server from the first BR on. */
enum { CLIENTS = 2, REQUESTS = 6 };

/* what the clients' users ask for, in turn: kind, cell, amount, last byte (kind 9: a user's mistake) */
static const uint8_t requests[CLIENTS][REQUESTS][4] = {
    {{COP_SET, 0, 7, 0},
     {COP_TAKE, 0, 5, 0},
     {COP_TAKE, 0, 4, 0},
     {COP_SET_WITH_TEMP, 1, 120, 256 - 12},
     {COP_READ, 0, 0, 0},
     {COP_ADD, 0, 255, 0}},
    {{COP_ADD, 0, 3, 0},
     {9, 0, 0, 0},
     {COP_READ, 0, 0, 0},
     {COP_READ_TEMP, 1, 0, 0},
     {COP_TAKE, 0, 200, 0},
     {COP_READ_TEMP, 1, 0, 0}},
};

/* A client's record, replaced as a whole after each call. */
typedef struct {
    cop_replica replica;
    cop_said said;  /* what the last call said */
    uint32_t calls; /* how many there have been: if one is shown twice, its number tells */
    uint32_t asked; /* how many of the user's requests have been taken */
    uint64_t taken; /* the offset up to which the line from the server has been taken */
    uint64_t at;    /* the offset, on the line to the server, of the bytes that the last call wrote */
    uint32_t n;
    uint8_t bytes[COP_CO];
} client_record;

/* The server's record; what is of a line, by client. */
typedef struct {
    cop_server server;
    uint64_t taken[CLIENTS]; /* the offset up to which each line from a client has been taken */
    uint64_t at[CLIENTS];    /* the offset, on each line to a client, of the bytes that the last call wrote */
    uint32_t n[CLIENTS];     /* how many of them are for that line: none or all */
    uint8_t bytes[COP_SERVE_MOST];
} server_record;

static void die(const char *what) {
    perror(what);
    exit(2);
}

/* "client-1" for "client" and 0 */
static const char *name(const char *what, int i) {
    static char text[24];
    snprintf(text, sizeof text, "%s-%d", what, i + 1);
    return text;
}

static void write_all(int fd, const uint8_t *bytes, size_t n, uint64_t at) {
    while (n > 0) {
        ssize_t k = pwrite(fd, bytes, n, (off_t)at);
        if (k < 0) die("write");
        bytes += k, n -= (size_t)k, at += (uint64_t)k;
    }
}

static void sync_close(int fd) {
    if (fd < 0 || fsync(fd) != 0 || close(fd) != 0) die("sync");
}

/* -------- records -------- */

/* Replaces a record. Killed in here, the record is the old or the new one; after it, it is the new one for good. */
static int save(const char *record, const void *bytes, size_t n) {
    char fresh[32];
    snprintf(fresh, sizeof fresh, "%s.new", record);
    int fd = open(fresh, O_WRONLY | O_CREAT | O_TRUNC, 0600);
    if (fd < 0) die(fresh);
    write_all(fd, bytes, n, 0);
    sync_close(fd);
    if (rename(fresh, record) != 0) die(record);
    sync_close(open(".", O_RDONLY));
    return 1;
}

/* Reads a record that one process at a time goes on from; the lock goes with the process. A save that was killed may
   have left it in place and not yet for good: so it is synced too. */
static void load(const char *record, void *bytes, size_t n) {
    char file[32];
    snprintf(file, sizeof file, "%s.lock", record);
    int lock = open(file, O_WRONLY | O_CREAT, 0600);
    if (lock < 0 || lockf(lock, F_TLOCK, 0) != 0) die(file);
    int fd = open(record, O_RDONLY); /* once it is locked: else it might be one that is being replaced */
    if (fd < 0 || read(fd, bytes, n) != (ssize_t)n) die(record);
    sync_close(fd);
    sync_close(open(".", O_RDONLY));
}

/* -------- lines -------- */

/* Puts bytes on a line at their offset, for good, whether or not they stand there already. */
static void put(const char *line, uint64_t at, const uint8_t *bytes, size_t n) {
    if (n == 0) return;
    int fd = open(line, O_WRONLY);
    if (fd < 0) die(line);
    write_all(fd, bytes, n, at);
    sync_close(fd);
}

/* The length of the message that begins with these n bytes; 0 while it is not all there. What begins like no message
   has no length: its first bytes are handed on, for the call to say 20 or 30. */
static size_t whole(const uint8_t *m, size_t n) {
    size_t length = 3;
    if (n < 3) return 0;
    if (memcmp(m, "IN", 2) == 0) length = COP_IN;
    if (memcmp(m, "CO", 2) == 0 || memcmp(m, "BR", 2) == 0) length = COP_CO;
    if (memcmp(m, "RE", 2) == 0 && m[2] <= COP_PENDING_MOST) length = 3 + COP_ITEM * (size_t)m[2];
    return n < length ? 0 : length;
}

/* The message at an offset of a line, and its length; 0 while it is not all there. */
static size_t head(const char *line, uint64_t at, uint8_t m[COP_RE_MOST]) {
    int fd = open(line, O_RDONLY);
    ssize_t n = fd < 0 ? -1 : pread(fd, m, COP_RE_MOST, (off_t)at);
    if (n < 0) die(line);
    close(fd);
    return whole(m, (size_t)n);
}

/* -------- a client -------- */

static void show(const client_record *c) {
    printf("client %d, %u: ", c->replica.number, c->calls);
    switch (c->said.what) {
    case COP_OPENED: printf("opened\n"); break;
    case COP_INVOKED: printf("invoked %u\n", c->said.first); break;
    case COP_RESPONDED: printf("answer %u %d\n", c->said.first, c->said.second); break;
    case COP_ABORTED: printf("aside %u\n", c->said.first); break;
    case COP_CONFIRMED: printf("confirm %u %d\n", c->said.first, c->said.second); break;
    case COP_HALTED: printf("halt %u\n", c->said.number); break;
    default: printf("no %u\n", c->said.number);
    }
    if (fflush(stdout) != 0) die("show");
}

/* One call: with the message at the head of the line from the server, else with the user's next request, if there is
   one and no operation is under way. 0: none. A client that has halted makes no more, and the message at which it did
   stays at the head of its line, for a person to look at. */
static int client_step(client_record *c) {
    uint8_t m[COP_RE_MOST];
    size_t n = head(name("down", c->replica.number - 1), c->taken, m);
    int idle = c->replica.current.kind == 0 && c->asked < REQUESTS;
    if (c->replica.halt || (n == 0 && !idle)) return 0;
    if (n > 0) {
        c->said = cop_receive(&c->replica, m, n, c->bytes, sizeof c->bytes);
        if (c->said.what == COP_REFUSED) die("record"); /* 8: it is none that was saved here */
        if (c->said.what != COP_HALTED) c->taken += n;
    } else {
        const uint8_t *q = requests[c->replica.number - 1][c->asked++];
        c->said = cop_invoke(&c->replica, q[0], q[1], q[2], q[3], c->bytes, sizeof c->bytes);
    }
    c->at += c->n;
    c->n = 0;
    if (c->said.what == COP_INVOKED) c->n = COP_IN;
    if (c->said.what == COP_RESPONDED || c->said.what == COP_ABORTED) c->n = COP_CO;
    c->calls++;
    return 1;
}

/* What is sent and shown is the record's: a start after a crash is like any other. */
static int client_turn(int i) {
    static client_record c;
    load(name("client", i), &c, sizeof c);
    do {
        put(name("up", i), c.at, c.bytes, c.n);
        show(&c);
    } while (client_step(&c) && save(name("client", i), &c, sizeof c));
    return c.replica.halt != 0;
}

/* -------- the server -------- */

/* One call: with the first message at the head of a line from a client that is not refused. 0: none. A refused message
   stays at the head of its line: 33 passes when others have committed; after any other number the line stands still. */
static int server_step(server_record *s, int *still) {
    uint8_t m[COP_RE_MOST];
    *still = 0;
    for (int i = 0; i < CLIENTS; i++) {
        size_t n = head(name("up", i), s->taken[i], m);
        if (n == 0) continue;
        cop_said said = cop_serve(&s->server, (uint8_t)(i + 1), m, n, s->bytes, sizeof s->bytes);
        if (said.what == COP_REFUSED && said.number != COP_REFUSED_PENDING) {
            fprintf(stderr, "line of client %d: refused %u\n", i + 1, said.number);
            *still = 1;
        }
        if (said.what == COP_REFUSED) continue;
        s->taken[i] += n;
        for (int to = 0; to < CLIENTS; to++) {
            s->at[to] += s->n[to];
            s->n[to] = said.what == COP_BROADCAST ? COP_BR * said.first : to == i ? 3u + COP_ITEM * s->bytes[2] : 0;
        }
        return 1;
    }
    return 0;
}

static int server_turn(void) {
    static server_record s;
    int still;
    load("server", &s, sizeof s);
    do {
        for (int to = 0; to < CLIENTS; to++) put(name("down", to), s.at[to], s.bytes, s.n[to]);
    } while (server_step(&s, &still) && save("server", &s, sizeof s));
    return still;
}

/* -------- the beginning, and a look at the end -------- */

/* Makes what the others go on from. Killed in here it may be run again, since the others wait for it to be through.
   Once it is, a record that gets lost is not made anew. */
static int start(void) {
    static client_record c;
    static server_record s;
    uint8_t keys[COP_KEYS];
    int fd = open("/dev/urandom", O_RDONLY); /* in earnest one owner draws them, and hands them to the others */
    if (fd < 0 || read(fd, keys, sizeof keys) != sizeof keys) die("/dev/urandom");
    for (int i = 0; i < CLIENTS; i++) {
        cop_opened o = cop_open((uint8_t)(i + 1), keys, sizeof keys);
        c.replica = o.replica, c.said = o.said;
        save(name("client", i), &c, sizeof c);
        save(name("up", i), "", 0);
        save(name("down", i), "", 0);
    }
    s.server = cop_fresh_server();
    save("server", &s, sizeof s);
    return !save("started", "", 0);
}

static int cells(int i) {
    static client_record c;
    load(name("client", i), &c, sizeof c);
    for (int k = 0; k < COP_CELLS; k++) printf("%d %d\n", c.replica.cells.values[k], c.replica.cells.temps[k]);
    return 0;
}

int main(int argc, char **argv) {
    const char *what = argc > 2 ? argv[2] : "";
    int i = argc > 3 ? atoi(argv[3]) - 1 : -1, is_client = 0 <= i && i < CLIENTS;
    if (argc > 1 && chdir(argv[1]) != 0) die(argv[1]);
    int started = access("started", F_OK) == 0;
    if (!started && strcmp(what, "start") == 0) return start();
    if (started && strcmp(what, "server") == 0) return server_turn();
    if (started && strcmp(what, "client") == 0 && is_client) return client_turn(i);
    if (started && strcmp(what, "cells") == 0 && is_client) return cells(i);
    fprintf(stderr, "durable FOLDER %s\n", started ? "client 1, client 2, server, cells 1 or cells 2" : "start, once");
    return 2;
}
