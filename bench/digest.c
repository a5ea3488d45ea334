// Times the proved digest and tag beside plain C and OpenSSL's one-shot calls, all in this one process.
#include <openssl/evp.h>
#include <openssl/hmac.h>
#include <openssl/sha.h>
#include <stdio.h>
#include <stdlib.h>
#include <string.h>
#include <time.h>
#include "../include/cop.h"
#include "plain.h"

enum { LONG = 16384, TURNS = 400 };
static uint8_t message[LONG], key[32], out[32];

static void our_digest(size_t n) { cop_digest(message, n, out); }
static void our_tag(size_t n) { cop_tag(key, 32, message, n, out); }
static void c_digest(size_t n) { plain_digest(message, n, out); }
static void c_tag(size_t n) { plain_tag(key, 32, message, n, out); }
static void ssl_digest(size_t n) { SHA256(message, n, out); }
static void ssl_tag(size_t n) { HMAC(EVP_sha256(), key, 32, message, n, out, NULL); }

static double now(void) {
    struct timespec t;
    clock_gettime(CLOCK_MONOTONIC, &t);
    return t.tv_sec * 1e9 + t.tv_nsec;
}

// nanoseconds a call, over `calls` calls whose input changes with each
static double once(void (*f)(size_t), size_t n, int calls) {
    double t = now();
    for (int i = 0; i < calls; i++) {
        f(n);
        message[i % n] ^= out[0];
    }
    return (now() - t) / calls;
}

static void row(const char *name, size_t n, int calls, void (*f[3])(size_t)) {
    double best[3] = {1e18, 1e18, 1e18};
    uint8_t seen[3][32];
    for (int k = 0; k < 3; k++) {
        f[k](n);
        memcpy(seen[k], out, 32);
    }
    if (memcmp(seen[0], seen[1], 32) || memcmp(seen[0], seen[2], 32)) {
        printf("%s: the three differ\n", name);
        exit(1);
    }
    // in turn, so that a busy moment of the machine touches all three; the best turn of each counts
    for (int turn = 0; turn < TURNS; turn++)
        for (int k = 0; k < 3; k++) {
            double t = once(f[k], n, calls);
            if (t < best[k]) best[k] = t;
        }
    printf("%-28s %9.0f %9.0f %9.0f %12.2f %12.2f\n", name, best[0], best[1], best[2], best[0] / best[1], best[0] / best[2]);
}

int main(void) {
    for (int i = 0; i < LONG; i++) message[i] = i * 7 + 3;
    for (int i = 0; i < 32; i++) key[i] = i + 1;
    printf("%-28s %9s %9s %9s %12s %12s\n", "nanoseconds a call", "proved", "C -O2", "OpenSSL", "proved/C", "proved/ssl");
    row("digest, 45 bytes", 45, 1000, (void (*[])(size_t)){our_digest, c_digest, ssl_digest});
    row("tag, 48 bytes, 32-byte key", 48, 300, (void (*[])(size_t)){our_tag, c_tag, ssl_tag});
    row("digest, 16 KiB", LONG, 10, (void (*[])(size_t)){our_digest, c_digest, ssl_digest});
}
