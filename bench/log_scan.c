// The meters' log by column name (document 02, Q-5) in plain C, for bench/log.sh: `log_scan < log`. Lines are found by memchr, and each is
// gone through once, field by field.
#include <string.h>
#include <unistd.h>

enum { SIZE = 65536, NONE = 1000 };
static char in[SIZE], out[SIZE];
static size_t used;

static void flush(void) {
    for (size_t at = 0; at < used;) {
        ssize_t n = write(1, out + at, used - at);
        if (n <= 0) _exit(1);
        at += n;
    }
    used = 0;
}

static void put(const char *text) {
    while (*text) out[used++] = *text++;
}

// The line's number and a space.
static void put_line(unsigned long long n) {
    char digits[20];
    int k = 0;
    for (; k == 0 || n; n /= 10) digits[k++] = '0' + n % 10;
    while (k) out[used++] = digits[--k];
    out[used++] = ' ';
}

static void put_number(int n) {
    if (n < 0) out[used++] = '-', n = -n;
    if (n >= 100) out[used++] = '0' + n / 100;
    if (n >= 10) out[used++] = '0' + n / 10 % 10;
    out[used++] = '0' + n % 10;
}

// The end of the field at p, or NULL if its quotes are not sound.
static const char *field_end(const char *p, const char *end) {
    if (p == end || *p != '"') {
        for (; p < end && *p != ','; p++)
            if (*p == '"') return NULL;
        return p;
    }
    for (p++; p < end; p++) {
        if (*p != '"') continue;
        if (++p == end || *p == ',') return p;
        if (*p != '"') return NULL;
    }
    return NULL;
}

static int number(const char *p, const char *end) {
    int n = 0;
    if (p == end || end - p > 3) return NONE;
    for (; p < end; p++) {
        if (*p < '0' || *p > '9') return NONE;
        n = 10 * n + (*p - '0');
    }
    return n;
}

// The columns: how many, 0 if the first line is refused, and which of them are the cell, the flow and the temperature.
static int count, column[3];

static void header(const char *p, const char *end) {
    static const char *const names[3] = {"cell", "flow", "temp"};
    int seen[3] = {0, 0, 0}, n = 0;
    for (const char *e;; p = e + 1) {
        if (!(e = field_end(p, end))) return put("no 40\n");
        for (int k = 0; k < 3; k++)
            if (e - p == 4 && memcmp(p, names[k], 4) == 0) seen[k]++, column[k] = n;
        n++;
        if (e == end) break;
    }
    if (seen[0] != 1 || seen[1] != 1 || seen[2] != 1) return put("no 40\n");
    count = n;
    put("header\n");
}

static void line(const char *p, const char *end) {
    int cell = NONE, flow = NONE, temp = NONE, n = 0;
    if (count == 0) return put("no 40\n");
    for (const char *e;; p = e + 1, n++) {
        if (!(e = field_end(p, end))) return put("no 41\n");
        if (n == column[0]) cell = number(p, e);
        else if (n == column[1]) flow = number(p, e);
        else if (n == column[2]) temp = p < e && *p == '-' ? -number(p + 1, e) : number(p, e);
        if (e == end) break;
    }
    if (n + 1 != count) return put("no 41\n");
    if (cell > 15 || flow > 255 || temp < -40 || temp > 85) return put("no 42\n");
    put("5 "), put_number(cell), put(" "), put_number(flow), put(" "), put_number(temp), put("\n");
}

int main(void) {
    enum { FIRST, LATER, UNKNOWN } state = FIRST; // unknown: under a first line that is over-long
    size_t held = 0;
    unsigned long long number = 0;
    int skip = 0; // inside an over-long line
    for (ssize_t got; (got = read(0, in + held, SIZE - held)) > 0;) {
        char *p = in, *end = in + held + got, *feed;
        for (; (feed = memchr(p, '\n', end - p)); p = feed + 1) {
            char *stop = feed > p && feed[-1] == '\r' ? feed - 1 : feed;
            if (used > SIZE - 64) flush();
            put_line(++number);
            if (skip || state == UNKNOWN) put("long\n");
            else if (state == FIRST) header(p, stop);
            else line(p, stop);
            if (state == FIRST) state = skip ? UNKNOWN : LATER;
            skip = 0;
        }
        held = end - p;
        if (held == SIZE || skip) skip = 1, held = 0;
        else memmove(in, p, held);
    }
    if (skip || held) put_line(++number);
    if (skip || (held && state == UNKNOWN)) put("long\n");
    else if (held && state == FIRST) header(in, in + held);
    else if (held) line(in, in + held);
    flush();
    return 0;
}
