/* The proved client and server of COP, the digest and the tag, for C and C++ on x86-64 Linux. Link
   target/staticlib/libcop_c.a, which `sh tools/build.sh cop_c` proves and writes. examples/listing.c uses all of it but
   cop_digest and cop_tag.

   What each call does is an equation in crates/cop_c/src/lib.rt, proved for every state, every argument and every
   length: no call has a condition on the values that it is given. A state of any bytes is a state: where a field is
   out of range the call is refused with 8. After a refusal the state and the buffer are as they were; after a halt
   only the halt mark has changed. Of a buffer no byte past those written changes.

   What the caller owes, as with any C function: each pointer leads to memory of the stated size (a slice is a
   pointer and a length), written before (a buffer too) and not null, even where its length is 0; and in one call
   neither the state nor the buffer overlaps anything else that is passed.

   Threads. The library keeps nothing between calls and has no data of its own but constants: a call reads and writes
   what it is lent. Calls on different states, with different buffers, may run at the same time. Of one state, let
   one call end before the next begins, also where the two come from different threads. A call takes less than 64 KiB
   of stack (measured, not proved).

   Keeping the state. The theorem that clients agree asks that no replica is ever wound back: each call gets the
   replica that the last call left. This is how to keep to that through crashes and power cuts; examples/durable.c
   does just this, and tests/durable.sh kills it at every point.

   Lines. A line is a stream of bytes, each with its offset, from 0 on. Messages stand on it one after the other and
   part themselves: an IN has 43 bytes, a CO or BR 80, a RE 3 + 41 n, n being its third byte. Of half a message wait
   for the rest: as it is, a client halts at it (20) and a server refuses it (30). What begins like none of the four,
   or like a RE with n above 32, has no length: hand on what is there, the call says 20 or 30. A success takes its
   message from the line. A refused message remains at the head of its line, and all behind it waits; so does one at
   which a client halts.

   A client's record has, together: the whole cop_replica; what the last call said (cop_said), since an answer that
   was not yet shown would else be lost for good; the bytes that it wrote, with the offset of their place on the line
   to the server; the offset up to which the line from the server has been taken; and how many of the user's
   requests, or lines of a meters' log, have been taken. After each call that is not a refusal, before anything of it
   is used (before its bytes are sent, before its answer is shown), make the new record durable: write it to a new
   file, fsync it, rename it over the old one, fsync the folder. Then put its bytes on the line, at their offset;
   show what it says; and make the next call. After a crash do the same from the record: fsync it and its folder, put
   its bytes at their offset, where they may stand already, show what it says, perhaps for a second time (a number in
   the record tells), and go on. Bytes put at the line's end once more would be a second copy: the server refuses it
   with 32, 35 or 36, it remains at the head of its line, and that line stands still for good. Likewise a message
   taken twice halts a client.
   Drop a record's bytes only once the line has them for good: a file that is fsynced, or, over a network, the
   receiver's own record. There the receiver says, at each connection, the offset in its record, and the sender goes
   on from it; it keeps what is past it. (A RE tells a client that the server has all that the client wrote up to
   that IN, so that it keeps at most a CO and an IN.) Let one process at a time work on a record: lock it first,
   then read it.
   Never open a client number anew under the same keys, and never go on from a backup or a copy: what a lost or
   doubled laptop might still have sent would then be sent again with other contents. Where the record is lost, that
   number is out of use.

   The server keeps, in one record that is durable before anything of it is sent: its cop_server; of each of the
   eight lines from the clients the offset up to which it has taken; of each of the eight lines to them the offset of
   its end; and the bytes that the last call wrote, with their lines (a RE for one, BRs for all eight). It goes on
   from it as a client does. A client that is away, or not yet opened, needs its line from the first byte that it has
   not taken. Where a message is refused, go on with the other lines and offer it again: 33 passes once others have
   committed. After any other number that line stands still, and a person must look. A server whose record is lost or
   wound back refuses its clients' messages or makes them halt.

   A halt is for good: every later call on that replica is refused with 3. Do not clear the mark. A person must look:
   keep the record, and the line from the server up to the message at which it halted, which is the evidence
   (docs/PROTOCOL.md, section 9, says of what). If the server had given that client's operation its sequence number,
   its commit never comes: nothing after it is confirmed any more, and at 32 pending every IN gets 33. To go on from
   there, all eight open anew with new keys, and a fresh server.

   Padding in a struct is not part of the state: compare fields, not bytes. A cop_replica of the library without
   temperatures has 1,388 bytes; with sixteen zero bytes put in after its first 1,384 it is one of this library. A
   replica with halt mark 26 is out of range (8) for a library without that check; one that such a library left is in
   range here, and halts with 26 where a RE lists an own operation that it had passed over for want of a status.

   Temperatures. A library without kinds 5 and 6 halts with 21 at an operation of either kind, and its server refuses
   one with 30: bring this one to all clients and the server before the first is invoked.

   Keys. Each client has a key of 32 bytes and every client holds all eight, client 1's first: the same 256 bytes in
   each. One of the clients' owners draws them, once, from the system's random bytes (getrandom, /dev/urandom), and
   hands them to the others outside this protocol, by no line of it: the server has none, and they are on no other
   machine. They stand unhidden in cop_replica, so that a file with one, a core dump or a page of swap with one is as
   secret as the keys. Whoever has a key can speak as its client. The library neither makes keys nor wipes memory.
   Tags are compared without a branch on their bytes (bench/tags.sh shows it of the comparison's machine code, and of
   cop_receive on 99 wrong tags); nothing else is claimed about the time that a call takes. */
#ifndef COP_H
#define COP_H
#include <stddef.h>
#include <stdint.h>

#ifdef __cplusplus
extern "C" {
#endif

/* sizes, in bytes unless said */
enum {
    COP_CLIENTS = 8,
    COP_CELLS = 16,
    COP_KEY = 32,
    COP_KEYS = 256,         /* what cop_open takes */
    COP_IN = 43,            /* buffer that cop_invoke needs; what it writes */
    COP_CO = 80,            /* buffer that cop_receive needs for a RE; what it then writes (for a BR: nothing) */
    COP_BR = 80,
    COP_ITEM = 41,          /* a RE of n items has 3 + 41 n bytes, n being its third byte */
    COP_RE_MOST = 1315,     /* 32 items */
    COP_SERVE_MOST = 2560,  /* buffer with which cop_serve never says 7: 32 BRs (a RE has at most COP_RE_MOST) */
    COP_DIGEST = 32,
    COP_TAG = 32,
    COP_INPUT_MOST = 65535, /* of an input or a key, for digest and tag */
    COP_COUNT_MOST = 1000000, /* own counts and sequence numbers end here */
    COP_PENDING_MOST = 32   /* sequence numbers that wait at the server; at a client, held past the last confirmed */
};

/* kinds of operations; the last two are about the cell's temperature */
enum {
    COP_ADD = 1,
    COP_TAKE = 2,
    COP_READ = 3,          /* amount 0 */
    COP_SET = 4,
    COP_SET_WITH_TEMP = 5, /* sets the cell to the amount, and its temperature to the operation's last byte */
    COP_READ_TEMP = 6      /* amount 0 */
};

/* temperatures; in an operation's last byte and in a replica they are in two's complement */
enum { COP_TEMP_LEAST = -40, COP_TEMP_MOST = 85 };

/* responses, from COP_RESPONSE_LEAST to COP_RESPONSE_MOST: 1 of a set of either kind and of an add or take that
   succeeds, the cell of a read (0 to 255), the cell's temperature of a COP_READ_TEMP, and COP_FAILED plus what the
   cell holds of an add or take that fails and changes nothing. A negative one is always a temperature;
   cop_said.second has it as it is, a signed number. */
enum { COP_FAILED = 256, COP_RESPONSE_LEAST = -40, COP_RESPONSE_MOST = 511 };

/* statuses, as a confirmation brings them */
enum { COP_ASIDE = 0, COP_DONE = 1 };

/* cop_said.what: which outcome, with what first and second then are (0 where nothing is said) */
enum {
    COP_REFUSED = 0,   /* the number says why */
    COP_HALTED = 1,    /* the number says why */
    COP_OPENED = 2,
    COP_INVOKED = 3,   /* own count; COP_IN bytes written */
    COP_RESPONDED = 4, /* sequence number, response (may be negative); COP_CO bytes written */
    COP_ABORTED = 5,   /* sequence number; COP_CO bytes written */
    COP_CONFIRMED = 6, /* sequence number, status; nothing written */
    COP_PLACED = 7,    /* sequence number; a RE for that client written */
    COP_BROADCAST = 8  /* how many BRs were written, COP_BR bytes each, each for all clients; may be 0 */
};

/* cop_said.number: 0 for a success, else a refusal's or a halt's */
enum {
    COP_REFUSED_NUMBER = 1,    /* client number not 1 to 8 */
    COP_REFUSED_KEYS = 2,      /* not 256 key bytes */
    COP_REFUSED_HALT_MARK = 3, /* the client has halted */
    COP_REFUSED_CURRENT = 4,   /* an operation is under way */
    COP_REFUSED_FORBIDDEN = 5, /* kind, cell, amount or last byte not allowed */
    COP_REFUSED_COUNT = 6,     /* own count at 1,000,000 */
    COP_REFUSED_ROOM = 7,      /* buffer too short */
    COP_REFUSED_RANGE = 8,     /* a field of the state out of range */
    COP_REFUSED_LONG = 9,      /* digest, tag: input or key over 65,535 bytes */
    COP_HALT_FORM = 20,        /* neither a RE nor a BR, or of a wrong length */
    COP_HALT_CONTENT = 21,     /* operation, author, status or sequence number not allowed */
    COP_HALT_TAG = 22,         /* tag wrong */
    COP_HALT_CHAIN = 23,       /* hash chain not the one held */
    COP_HALT_LAST = 24,        /* a RE that does not end in the current operation */
    COP_HALT_SEQ = 25,         /* a BR that is not the next */
    COP_HALT_UNCOMMITTED = 26, /* a RE with an own operation, not its last, where no status is held */
    COP_REFUSED_FORM = 30,     /* server: neither an IN nor a CO, or its content not allowed */
    COP_REFUSED_LINE = 31,     /* server: author not the client of that line */
    COP_REFUSED_NEXT = 32,     /* server: count not one above the last placed */
    COP_REFUSED_PENDING = 33,  /* server: 32 pending */
    COP_REFUSED_FULL = 34,     /* server: sequence numbers at their end */
    COP_REFUSED_PLACE = 35,    /* server: no such operation at that sequence number */
    COP_REFUSED_COMMITTED = 36 /* server: committed before */
};

typedef struct {
    uint32_t what, number, first;
    int32_t second;
} cop_said;

typedef struct {
    uint32_t count;
    uint8_t kind, cell, amount;
    uint8_t last; /* a temperature in COP_SET_WITH_TEMP: (int8_t)last; 0 in every other kind */
} cop_operation;

/* what the cells hold, and their temperatures: crates/operation, struct Cells */
typedef struct {
    uint8_t values[16];
    int8_t temps[16];
} cop_cells;

/* a client's state: crates/replica, struct Replica */
typedef struct {
    uint8_t number;
    uint8_t keys[256];
    uint32_t count;
    cop_operation current; /* all zero: none */
    uint32_t confirmed;
    uint32_t held;
    uint8_t chain[1056];
    uint8_t statuses[32];
    cop_cells cells;
    uint8_t halt;
} cop_replica;

/* the server's state: crates/server, struct Server */
typedef struct {
    uint32_t placed;
    uint32_t passed;
    uint32_t counts[8];
    uint8_t items[1312];
    uint8_t statuses[32];
    uint8_t digests[1024];
    uint8_t tags[1024];
} cop_server;

typedef struct {
    cop_replica replica; /* all zero after a refusal */
    cop_said said;
} cop_opened;

/* Opens a client: COP_OPENED, 1 or 2. */
cop_opened cop_open(uint8_t number, const uint8_t *keys, size_t keys_n);

/* Invokes an operation; its IN goes to the front of out, of COP_IN bytes or more. `last` is (uint8_t)temperature for
   COP_SET_WITH_TEMP, 0 for every other kind. COP_INVOKED, or 8, 3, 4, 5, 6, 7. */
cop_said cop_invoke(cop_replica *r, uint8_t kind, uint8_t cell, uint8_t amount, uint8_t last, uint8_t *out,
                    size_t out_n);

/* Takes a message from the server. A RE: its CO goes to the front of out, of COP_CO bytes or more; COP_RESPONDED,
   COP_ABORTED, or 8, 3, 20, 7, then for each item in turn 21, 22, 23, 26, and after all items 24. A BR: out may have
   length 0; COP_CONFIRMED, or 8, 3, 20, 21, 25, 22, 23. */
cop_said cop_receive(cop_replica *r, const uint8_t *m, size_t m_n, uint8_t *out, size_t out_n);

/* A fresh server. */
cop_server cop_fresh_server(void);

/* Takes a message on the line of client `line`. An IN: its RE goes to the front of out, 3 bytes and COP_ITEM for
   each operation pending with this one; COP_PLACED, or 8, 30 to 34, 7. A CO: the BRs now due go to the front of out,
   COP_BR bytes each; COP_BROADCAST, or 8, 30, 31, 35, 36, 7. COP_SERVE_MOST bytes are enough for both. */
cop_said cop_serve(cop_server *s, uint8_t line, const uint8_t *m, size_t m_n, uint8_t *out, size_t out_n);

/* SHA-256 and HMAC-SHA-256: 0 and 32 bytes to out, or COP_REFUSED_LONG and out as it was. */
uint32_t cop_digest(const uint8_t *input, size_t input_n, uint8_t out[COP_DIGEST]);
uint32_t cop_tag(const uint8_t *key, size_t key_n, const uint8_t *input, size_t input_n, uint8_t out[COP_TAG]);

/* the layout that the library was built for */
#if defined(__cplusplus) && __cplusplus >= 201103L
#define COP_LAYOUT(e) static_assert(e, "layout")
#elif defined(__STDC_VERSION__) && __STDC_VERSION__ >= 201112L
#define COP_LAYOUT(e) _Static_assert(e, "layout")
#else
#define COP_LAYOUT(e) typedef char cop_layout[(e) ? 1 : -1]
#endif
COP_LAYOUT(sizeof(cop_said) == 16 && offsetof(cop_said, second) == 12 && sizeof(cop_operation) == 8
           && offsetof(cop_operation, last) == 7 && offsetof(cop_replica, keys) == 1
           && offsetof(cop_replica, count) == 260 && offsetof(cop_replica, current) == 264
           && offsetof(cop_replica, confirmed) == 272 && offsetof(cop_replica, held) == 276
           && offsetof(cop_replica, chain) == 280 && offsetof(cop_replica, statuses) == 1336
           && offsetof(cop_replica, cells) == 1368 && offsetof(cop_cells, temps) == 16 && sizeof(cop_cells) == 32
           && offsetof(cop_replica, halt) == 1400 && sizeof(cop_replica) == 1404 && offsetof(cop_server, passed) == 4
           && offsetof(cop_server, counts) == 8 && offsetof(cop_server, items) == 40
           && offsetof(cop_server, statuses) == 1352 && offsetof(cop_server, digests) == 1384
           && offsetof(cop_server, tags) == 2408 && sizeof(cop_server) == 3432 && offsetof(cop_opened, said) == 1404
           && sizeof(cop_opened) == 1420);
#undef COP_LAYOUT

#ifdef __cplusplus
}
#endif
#endif
