/* Kills examples/durable.c at every point, starts it again, and looks at what comes of it. It is linked with the
   example, whose main is then `example_main`, and stands between it and the system (ld's --wrap).

   A point is just before a file is made, written, synced or renamed, or a line is shown; and within a write, after one,
   two, half and all but one of the bytes (half, of a record's). A process that is killed there loses what it had in
   memory. A power cut, besides, undoes what has been made, written or renamed, by whomever, and not been synced since:
   all of it (that a part of it stays, or that a file has bytes that nobody wrote, is not tried). The killed process
   starts again at once, or late, when the others have had two turns.

   Wrong is: bytes on a line, or a text shown, whose record was not durable; two texts shown under one number, or a
   number never shown; an end with anything but 0 (a halt, a line that stands still, a record that cannot be read); no
   end; requests lost or made twice; cells that differ; answers, statuses or cells that are not those of the BRs on the
   lines, run in order on plain cells. Where a killed process starts again at once, all is besides as without kills.

       durable-killed FOLDER SAMPLES     each point in each of the four ways; then so many runs with two kills */
#define _GNU_SOURCE
#include "../include/cop.h"
#include <dirent.h>
#include <errno.h>
#include <fcntl.h>
#include <stdarg.h>
#include <stdio.h>
#include <stdlib.h>
#include <string.h>
#include <sys/mman.h>
#include <sys/stat.h>
#include <sys/wait.h>
#include <unistd.h>

int example_main(int argc, char **argv);
int __real_open(const char *path, int flags, ...);
ssize_t __real_pwrite(int fd, const void *bytes, size_t n, off_t at);
int __real_rename(const char *from, const char *to);
int __real_fflush(FILE *f);
cop_said __real_cop_invoke(cop_replica *, uint8_t, uint8_t, uint8_t, uint8_t, uint8_t *, size_t);
cop_said __real_cop_receive(cop_replica *, const uint8_t *, size_t, uint8_t *, size_t);
cop_said __real_cop_serve(cop_server *, uint8_t, const uint8_t *, size_t, uint8_t *, size_t);

enum { KILLED = 99, WRONG = 98, KILLS = 2, UNDO_MOST = 4000, ROUNDS_MOST = 60 };
enum { CLIENTS = 2, CALLS_MOST = 64, TEXT = 64 };

/* what has been done and not been synced, so that a power cut undoes it */
typedef struct {
    enum { MADE, WROTE, RENAMED } what;
    char from[32], to[32]; /* MADE: to */
    ino_t file;            /* WROTE; of RENAMED the file that was there before, or 0 */
    off_t at, length;      /* WROTE: where, and how long the file was */
    size_t n;              /* WROTE: as many bytes were there before */
    uint8_t bytes[COP_SERVE_MOST];
} undo;

/* what all processes of a run share */
static struct {
    long points;        /* passed so far */
    long kill[KILLS];   /* kill at these points */
    int cut[KILLS];     /* 1: by a power cut */
    int kills;          /* so many have been done */
    long saves;         /* records replaced */
    char wrong[300];
    int undos;
    undo undo[UNDO_MOST];
} *shared;

static char record[16]; /* this process's */
static int called;      /* a call has been made since the last save */
static char open_path[64][32];

static void wrong(const char *what, const char *more) {
    if (shared->wrong[0] == 0) snprintf(shared->wrong, sizeof shared->wrong, "%s%s", what, more);
}

/* ---- what is not durable yet ---- */

static const char *path_of(ino_t file) {
    static char path[32];
    struct stat st;
    DIR *d = opendir(".");
    path[0] = 0;
    for (struct dirent *e; (e = readdir(d)) != NULL;)
        if (stat(e->d_name, &st) == 0 && st.st_ino == file) snprintf(path, sizeof path, "%.31s", e->d_name);
    closedir(d);
    return path;
}

static ino_t file_of(const char *path) {
    struct stat st;
    return stat(path, &st) == 0 ? st.st_ino : 0;
}

static undo *note(int what) {
    if (shared->undos == UNDO_MOST) wrong("too much that is not synced", ""), _exit(WRONG);
    undo *u = &shared->undo[shared->undos++];
    memset(u, 0, offsetof(undo, bytes));
    u->what = what;
    return u;
}

/* Forgets the undos of a file's bytes (file is not 0), or of the folder. */
static void synced(ino_t file) {
    int kept = 0;
    for (int i = 0; i < shared->undos; i++) {
        undo *u = &shared->undo[i];
        int of_file = u->what == WROTE;
        if (file ? of_file && u->file == file : !of_file) continue;
        if (kept != i) shared->undo[kept] = *u;
        kept++;
    }
    shared->undos = kept;
}

/* A folder that is synced has no way back to a file that was replaced. */
static void folder_synced(void) {
    char old[40];
    for (int i = 0; i < shared->undos; i++)
        if (shared->undo[i].what == RENAMED && shared->undo[i].file) {
            ino_t file = shared->undo[i].file;
            snprintf(old, sizeof old, "old-%ld", (long)file);
            unlink(old);
            synced(file), i = -1;
            for (int k = 0; k < shared->undos; k++)
                if (shared->undo[k].what == RENAMED && shared->undo[k].file == file) shared->undo[k].file = 0;
        }
    synced(0);
}

static void power_cut(void) {
    char old[40];
    while (shared->undos > 0) {
        undo *u = &shared->undo[--shared->undos];
        if (u->what == MADE) unlink(u->to);
        if (u->what == RENAMED) {
            __real_rename(u->to, u->from);
            snprintf(old, sizeof old, "old-%ld", (long)u->file);
            if (u->file) __real_rename(old, u->to);
        }
        if (u->what == WROTE) {
            int fd = __real_open(path_of(u->file), O_WRONLY);
            if (fd < 0) continue;
            if (__real_pwrite(fd, u->bytes, u->n, u->at) < 0 || ftruncate(fd, u->length) != 0) wrong("undo", "");
            close(fd);
        }
    }
}

/* Whether this process's record is that of its last call, and durable. */
static int durable(void) {
    ino_t file = file_of(record);
    for (int i = 0; i < shared->undos; i++) {
        undo *u = &shared->undo[i];
        if (u->what == WROTE ? u->file == file : strcmp(u->to, record) == 0) return 0;
    }
    return !called;
}

/* ---- the points ---- */

static void die_here(void) {
    if (shared->cut[shared->kills]) power_cut();
    shared->kills++;
    _exit(KILLED);
}

static int here(void) {
    shared->points++;
    return shared->kills < KILLS && shared->points == shared->kill[shared->kills];
}

static void point(void) {
    if (here()) die_here();
}

int __wrap_open(const char *path, int flags, ...) {
    va_list more;
    va_start(more, flags);
    int mode = flags & O_CREAT ? va_arg(more, int) : 0;
    va_end(more);
    if (flags & O_CREAT) {
        point();
        if (access(path, F_OK) != 0) snprintf(note(MADE)->to, 32, "%s", path);
    }
    int fd = __real_open(path, flags, mode);
    if (0 <= fd && fd < 64) snprintf(open_path[fd], 32, "%s", path);
    return fd;
}

ssize_t __wrap_pwrite(int fd, const void *bytes, size_t n, off_t at) {
    int line = strncmp(open_path[fd], "up-", 3) == 0 || strncmp(open_path[fd], "down-", 5) == 0;
    line = line && strstr(open_path[fd], ".new") == NULL;
    struct stat st;
    point();
    if (line && !durable()) wrong("bytes were put on a line before their record was durable", "");
    if (fstat(fd, &st) != 0) return -1;
    undo *u = note(WROTE);
    u->file = st.st_ino, u->at = at, u->length = st.st_size;
    if (at < st.st_size) {
        int r = __real_open(path_of(st.st_ino), O_RDONLY);
        ssize_t k = pread(r, u->bytes, n < sizeof u->bytes ? n : sizeof u->bytes, at);
        u->n = k < 0 ? 0 : (size_t)k;
        close(r);
    }
    size_t parts[] = {1, 2, n / 2, n - 1};
    for (int i = line ? 0 : 2; i < (line ? 4 : 3); i++)
        if (0 < parts[i] && parts[i] < n && here()) {
            if (__real_pwrite(fd, bytes, parts[i], at) < 0) wrong("write", "");
            die_here();
        }
    return __real_pwrite(fd, bytes, n, at);
}

/* nothing is asked of the disk: what is synced is what a power cut leaves */
int __wrap_fsync(int fd) {
    struct stat st;
    point();
    if (fstat(fd, &st) != 0) return -1;
    if (S_ISDIR(st.st_mode)) folder_synced();
    else synced(st.st_ino);
    return 0;
}

int __wrap_rename(const char *from, const char *to) {
    char old[40];
    point();
    undo *u = note(RENAMED);
    snprintf(u->from, 32, "%s", from), snprintf(u->to, 32, "%s", to);
    u->file = file_of(to);
    snprintf(old, sizeof old, "old-%ld", (long)u->file);
    if (u->file && link(to, old) != 0) wrong("link", "");
    if (strcmp(to, record) == 0) called = 0;
    shared->saves++;
    return __real_rename(from, to);
}

int __wrap_fflush(FILE *f) {
    point();
    if (!durable()) wrong("shown before its record was durable", "");
    return __real_fflush(f);
}

static cop_said noted(cop_said s) {
    if (s.what != COP_REFUSED) called = 1;
    return s;
}
cop_said __wrap_cop_invoke(cop_replica *r, uint8_t kind, uint8_t cell, uint8_t amount, uint8_t last, uint8_t *out,
                           size_t n) {
    return noted(__real_cop_invoke(r, kind, cell, amount, last, out, n));
}
cop_said __wrap_cop_receive(cop_replica *r, const uint8_t *m, size_t m_n, uint8_t *out, size_t n) {
    return noted(__real_cop_receive(r, m, m_n, out, n));
}
cop_said __wrap_cop_serve(cop_server *s, uint8_t line, const uint8_t *m, size_t m_n, uint8_t *out, size_t n) {
    return noted(__real_cop_serve(s, line, m, m_n, out, n));
}

/* ---- a run ---- */

static const char *folder;

/* what a run came to */
typedef struct {
    char text[CLIENTS][CALLS_MOST][TEXT]; /* what was shown, by number */
    char cells[CLIENTS][400];
    long points;
} result;

static const char *in_folder(const char *file) {
    static char path[400];
    snprintf(path, sizeof path, "%s/%s", folder, file);
    return path;
}

/* The example as a process of its own; what it prints goes to the end of a file. */
static int process(const char *what, int client, const char *out) {
    char number[4], *argv[] = {"durable", (char *)folder, (char *)what, number, NULL};
    snprintf(number, sizeof number, "%d", client);
    __real_fflush(stdout);
    pid_t child = fork();
    if (child == 0) {
        int fd = __real_open(out, O_WRONLY | O_CREAT | O_APPEND, 0600);
        dup2(fd, 1), close(fd);
        fd = __real_open(in_folder("errors"), O_WRONLY | O_CREAT | O_APPEND, 0600);
        dup2(fd, 2), close(fd);
        snprintf(record, sizeof record, client && strcmp(what, "client") == 0 ? "client-%d" : "server", client);
        int status = example_main(4, argv);
        __real_fflush(stdout);
        _exit(status);
    }
    int status = 0;
    if (child < 0 || waitpid(child, &status, 0) != child) return WRONG;
    return WIFEXITED(status) ? WEXITSTATUS(status) : WRONG;
}

static void empty_folder(void) {
    DIR *d = opendir(folder);
    if (d == NULL) perror(folder), exit(2);
    for (struct dirent *e; (e = readdir(d)) != NULL;)
        if (e->d_name[0] != '.') unlink(in_folder(e->d_name));
    closedir(d);
}

static void ended(int status, const char *who) {
    char text[60];
    snprintf(text, sizeof text, "%s ended with %d", who, status);
    if (status != 0 && status != KILLED) wrong(text, "");
}

/* All turns until nothing is left to do. A killed process starts again after `late` turns of the others. */
static void play(int late) {
    static const char *const whos[] = {"client 1", "client 2", "server"};
    int status, down[3] = {0}, on = 2; /* rounds to go if nothing more is done */
    while ((status = process("start", 0, in_folder("shown"))) == KILLED)
        if (access(in_folder("started"), F_OK) == 0) break;
    ended(status, "start");
    for (int round = 0; on && !shared->wrong[0]; round++) {
        long before = shared->saves;
        on--;
        if (round == ROUNDS_MOST) wrong("no end", "");
        for (int i = 0; i < 3; i++) {
            if (down[i] > 0) {
                on = 2, down[i]--;
                continue;
            }
            do {
                status = process(i < 2 ? "client" : "server", i < 2 ? i + 1 : 0, in_folder("shown"));
                ended(status, whos[i]);
                if (status == KILLED) on = 2, down[i] = late;
            } while (status == KILLED && late == 0);
        }
        if (shared->saves != before) on = 2;
    }
}

static void read_shown(result *r) {
    char line[200], text[TEXT];
    FILE *f = fopen(in_folder("shown"), "r");
    unsigned client, number, most[CLIENTS] = {0};
    memset(r->text, 0, sizeof r->text);
    while (f && fgets(line, sizeof line, f)) {
        int read = sscanf(line, "client %u, %u: %60[^\n]", &client, &number, text);
        if (read != 3 || client < 1 || client > CLIENTS || number >= CALLS_MOST) {
            wrong("shown: ", line);
            continue;
        }
        char *at = r->text[client - 1][number];
        if (at[0] && strcmp(at, text) != 0) wrong("shown with two texts: ", line);
        strcpy(at, text);
        if (number > most[client - 1]) most[client - 1] = number;
    }
    if (f) fclose(f);
    for (int i = 0; i < CLIENTS; i++)
        for (unsigned k = 0; k <= most[i]; k++)
            if (r->text[i][k][0] == 0) wrong("a call was never shown", "");
}

static void read_cells(result *r) {
    for (int i = 0; i < CLIENTS; i++) {
        unlink(in_folder("cells"));
        ended(process("cells", i + 1, in_folder("cells")), "cells");
        FILE *f = fopen(in_folder("cells"), "r");
        size_t n = f ? fread(r->cells[i], 1, sizeof r->cells[i] - 1, f) : 0;
        r->cells[i][n] = 0;
        if (f) fclose(f);
    }
    if (strcmp(r->cells[0], r->cells[1]) != 0) wrong("the clients' cells differ", "");
}

/* how many of a client's texts begin so */
static int count(const result *r, int i, const char *begin) {
    int n = 0;
    for (int k = 0; k < CALLS_MOST; k++) n += strncmp(r->text[i][k], begin, strlen(begin)) == 0;
    return n;
}

/* The BRs on a line, run in order on plain cells: each answer, status and the cells are as they say. */
static void replay(result *r, int i) {
    static uint8_t bytes[60000];
    char name[16], text[TEXT], both[400];
    int values[COP_CELLS] = {0}, temps[COP_CELLS] = {0}, seq = 0;
    snprintf(name, sizeof name, "down-%d", i + 1);
    FILE *f = fopen(in_folder(name), "r");
    size_t n = f ? fread(bytes, 1, sizeof bytes, f) : 0, at = 0;
    if (f) fclose(f);
    while (at + 3 <= n) {
        const uint8_t *m = bytes + at;
        at += m[0] == 'R' ? 3 + COP_ITEM * (size_t)m[2] : COP_BR;
        if (m[0] == 'R') continue;
        int kind = m[6], cell = m[7] % COP_CELLS, amount = m[8], author = m[10] - 1, done = m[47], v = values[cell];
        int fails = (kind == COP_ADD && v + amount > 255) || (kind == COP_TAKE && amount > v);
        int response = fails ? COP_FAILED + v : kind == COP_READ ? v : kind == COP_READ_TEMP ? temps[cell] : 1;
        snprintf(text, sizeof text, done ? "answer %d %d" : "aside %d", ++seq, response);
        if (author < 0 || author >= CLIENTS || count(r, author, text) != 1) wrong("not answered so: ", text);
        snprintf(text, sizeof text, "confirm %d %d", seq, done);
        if (count(r, i, text) != 1) wrong("not confirmed so: ", text);
        if (!done || fails) continue;
        if (kind == COP_ADD) values[cell] += amount;
        if (kind == COP_TAKE) values[cell] -= amount;
        if (kind == COP_SET || kind == COP_SET_WITH_TEMP) values[cell] = amount;
        if (kind == COP_SET_WITH_TEMP) temps[cell] = (int8_t)m[9];
    }
    both[0] = 0;
    for (int k = 0; k < COP_CELLS; k++) sprintf(both + strlen(both), "%d %d\n", values[k], temps[k]);
    if (strcmp(both, r->cells[i]) != 0) wrong("cells are not those of the BRs", "");
    if (seq != count(r, 0, "invoked") + count(r, 1, "invoked")) wrong("not all operations were confirmed", "");
}

/* A run with these kills; held to `reference` if there is one, word for word where nothing was late. */
static int run(long first, int first_cut, long second, int second_cut, int late, const result *reference, result *r) {
    empty_folder();
    memset(shared, 0, offsetof(__typeof__(*shared), undo));
    shared->kill[0] = first, shared->cut[0] = first_cut, shared->kill[1] = second, shared->cut[1] = second_cut;
    play(late);
    r->points = shared->points;
    memset(shared->kill, 0, sizeof shared->kill);
    if (!shared->wrong[0]) read_shown(r);
    if (!shared->wrong[0]) read_cells(r);
    for (int i = 0; i < CLIENTS && !shared->wrong[0]; i++) {
        replay(r, i);
        if (reference == NULL) continue;
        if (count(r, i, "invoked") + count(r, i, "no ") != count(reference, i, "invoked") + count(reference, i, "no "))
            wrong("requests were lost or made twice", "");
        if (late == 0 && memcmp(r->text[i], reference->text[i], sizeof r->text[i]) != 0)
            wrong("shown otherwise than without kills", "");
        if (late == 0 && strcmp(r->cells[i], reference->cells[i]) != 0) wrong("cells are not those without kills", "");
    }
    if (!shared->wrong[0]) return 0;
    printf("killed at %ld%s", first, first_cut ? " (power cut)" : "");
    if (second) printf(" and %ld%s", second, second_cut ? " (power cut)" : "");
    printf("%s: %s\n", late ? ", started late" : "", shared->wrong);
    FILE *f = fopen(in_folder("errors"), "r");
    for (int c; f && (c = getc(f)) != EOF;) putchar(c);
    return 1;
}

int main(int argc, char **argv) {
    static result reference, r;
    long runs = 0, samples = argc > 2 ? atol(argv[2]) : 0;
    uint32_t drawn = 1;
    if (argc < 3) return 2;
    folder = argv[1];
    shared = mmap(NULL, sizeof *shared, PROT_READ | PROT_WRITE, MAP_SHARED | MAP_ANONYMOUS, -1, 0);
    if (shared == MAP_FAILED) return 2;
    if (run(0, 0, 0, 0, 0, NULL, &reference)) return 1;
    printf("without kills: %ld points", reference.points);
    for (int w = 0; w < 4; w++) {
        static const char *const words[] = {"answer", "aside", "no ", "confirm"};
        printf(", %d %s", count(&reference, 0, words[w]) + count(&reference, 1, words[w]), words[w]);
    }
    printf("\n");
    for (long k = 1; k <= reference.points; k++)
        for (int way = 0; way < 4; way++, runs++)
            if (run(k, way & 1, 0, 0, way & 2, &reference, &r)) return 1;
    for (long i = 0; i < samples; i++, runs++) {
        uint32_t d[3];
        for (int j = 0; j < 3; j++) d[j] = (drawn = drawn * 1664525u + 1013904223u) >> 8;
        long first = 1 + d[0] % reference.points, second = first + 1 + d[1] % (i % 2 ? 40 : reference.points);
        if (run(first, d[2] & 1, second, d[2] >> 1 & 1, d[2] >> 1 & 2, &reference, &r)) return 1;
    }
    printf("%ld runs with kills: every call shown, nothing stood still, cells as without\n", runs);
    return 0;
}
