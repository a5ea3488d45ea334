// Times the comparison of tags side by side: equal ones, and ones that differ in the first and in the last byte. See README-tags.md.
#include <openssl/crypto.h>
#include <stdbool.h>
#include <stdint.h>
#include <stdio.h>
#include <stdlib.h>
#include <string.h>
#include <time.h>

uint8_t rattle_different_bits(const uint8_t *s, const uint8_t *t);
bool rattle_equal(const uint8_t *s, const uint8_t *t);

enum { TURNS = 2000, CALLS = 4000, WAYS = 4, ROWS = 3 };

static bool gathered(const uint8_t *s, const uint8_t *t) { return rattle_different_bits(s, t) == 0; }
static bool early(const uint8_t *s, const uint8_t *t) { return rattle_equal(s, t); }
static bool by_memcmp(const uint8_t *s, const uint8_t *t) { return memcmp(s, t, 32) == 0; }
static bool by_openssl(const uint8_t *s, const uint8_t *t) { return CRYPTO_memcmp(s, t, 32) == 0; }

static bool (*const ways[WAYS])(const uint8_t *, const uint8_t *) = {gathered, early, by_memcmp, by_openssl};
static const char *const names[WAYS] = {"gathered", "early exit", "memcmp", "OpenSSL"};
static const char *const rows[ROWS] = {"equal", "first byte differs", "last byte differs"};

static double now(void) {
    struct timespec t;
    clock_gettime(CLOCK_MONOTONIC, &t);
    return t.tv_sec * 1e9 + t.tv_nsec;
}

// each way on pairs that differ in one bit, in every one of the 256, and on equal ones
static void agree(void) {
    for (int bit = -1; bit < 256; bit++) {
        uint8_t s[32], t[32];
        for (int i = 0; i < 32; i++) s[i] = t[i] = rand() >> 8;
        if (bit >= 0) t[bit / 8] ^= 1 << bit % 8;
        for (int w = 0; w < WAYS; w++)
            if (ways[w](s, t) != (bit < 0)) {
                printf("%s is wrong where bit %d differs\n", names[w], bit);
                exit(1);
            }
    }
}

static double once(bool (*way)(const uint8_t *, const uint8_t *), const uint8_t *s, const uint8_t *t, bool yes) {
    int seen = 0;
    double a = now();
    for (int i = 0; i < CALLS; i++) seen += way(s, t);
    double b = now();
    if (seen != (yes ? CALLS : 0)) exit(1);
    return (b - a) / CALLS;
}

int main(void) {
    agree();
    uint8_t s[32], t[ROWS][32];
    for (int i = 0; i < 32; i++) s[i] = t[0][i] = t[1][i] = t[2][i] = rand() >> 8;
    t[1][0] ^= 1;
    t[2][31] ^= 1;
    double best[ROWS][WAYS];
    for (int r = 0; r < ROWS; r++)
        for (int w = 0; w < WAYS; w++) best[r][w] = 1e18;
    // in turn, so that a busy moment of the machine touches all; the best turn of each counts
    for (int turn = 0; turn < TURNS; turn++)
        for (int w = 0; w < WAYS; w++)
            for (int r = 0; r < ROWS; r++) {
                double x = once(ways[w], s, t[r], r == 0);
                if (x < best[r][w]) best[r][w] = x;
            }
    printf("%-22s", "nanoseconds a call");
    for (int w = 0; w < WAYS; w++) printf("%12s", names[w]);
    for (int r = 0; r < ROWS; r++) {
        printf("\n%-22s", rows[r]);
        for (int w = 0; w < WAYS; w++) printf("%12.2f", best[r][w]);
    }
    printf("\n%-22s", "slowest over fastest");
    for (int w = 0; w < WAYS; w++) {
        double low = 1e18, high = 0;
        for (int r = 0; r < ROWS; r++) {
            low = best[r][w] < low ? best[r][w] : low;
            high = best[r][w] > high ? best[r][w] : high;
        }
        printf("%12.2f", high / low);
    }
    printf("\n");
}
