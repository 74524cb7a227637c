/* The nine calls, each handed to a server over pipes: an archive of these stands in the place of libzones.a where the tests run over the library of
 * another processor (tools/port-compare). ZONES_SERVER is the server's command, started at the first call; each thread has a server of its own, which
 * ends with the thread. A server that ends early, or that saw a byte change outside of what was lent, ends the program. */
#define _GNU_SOURCE
#include <errno.h>
#include <fcntl.h>
#include <pthread.h>
#include <signal.h>
#include <stdatomic.h>
#include <stdio.h>
#include <stdlib.h>
#include <string.h>
#include <sys/wait.h>
#include <unistd.h>

#include "wire.h"
#include "zones.h"

typedef struct {
    const void *data;
    uint64_t length;
    uint32_t marks;
} slice;

typedef struct {
    pid_t process;
    int to, from;
    /* what the server has of each slice */
    unsigned char *copy[MOST_SLICES];
    size_t bytes[MOST_SLICES], room[MOST_SLICES];
    uint32_t marks[MOST_SLICES];
} server;

static pthread_key_t key;
static pthread_once_t once = PTHREAD_ONCE_INIT;
static pthread_mutex_t starting = PTHREAD_MUTEX_INITIALIZER;
static atomic_ulong calls;

static void fail(const char *what) {
    fprintf(stderr, "zones stub: %s\n", what);
    abort();
}

static void end_server(void *of) {
    server *s = of;
    close(s->to);
    close(s->from);
    waitpid(s->process, NULL, 0);
    for (int i = 0; i < MOST_SLICES; i++) free(s->copy[i]);
    free(s);
}

/* ZONES_CALLS names a file to which each program adds a line: how many calls it made. */
static void say_calls(void) {
    server *s = pthread_getspecific(key);
    if (s) end_server(s);
    pthread_setspecific(key, NULL);
    const char *name = getenv("ZONES_CALLS");
    FILE *file = name ? fopen(name, "a") : NULL;
    if (!file) return;
    fprintf(file, "%lu\n", atomic_load(&calls));
    fclose(file);
}

static void begin(void) {
    if (pthread_key_create(&key, end_server)) fail("no thread key");
    signal(SIGPIPE, SIG_IGN);
    atexit(say_calls);
}

static server *start(void) {
    const char *command = getenv("ZONES_SERVER");
    if (!command) fail("ZONES_SERVER is not set: the command of the server");
    server *s = calloc(1, sizeof *s);
    int to[2], from[2];
    if (!s) fail("no memory");
    /* closed in the servers of other threads, or a server would not see its input end */
    if (pipe2(to, O_CLOEXEC) || pipe2(from, O_CLOEXEC)) fail("no pipe");
    s->process = fork();
    if (s->process < 0) fail("no process");
    if (s->process == 0) {
        dup2(to[0], 0);
        dup2(from[1], 1);
        execl("/bin/sh", "sh", "-c", command, (char *)NULL);
        _exit(127);
    }
    close(to[0]);
    close(from[1]);
    s->to = to[1];
    s->from = from[0];
    return s;
}

static server *here(void) {
    pthread_once(&once, begin);
    server *s = pthread_getspecific(key);
    if (!s) {
        pthread_mutex_lock(&starting);
        s = start();
        pthread_mutex_unlock(&starting);
        pthread_setspecific(key, s);
    }
    return s;
}

static void put(server *s, const void *data, size_t bytes) {
    const unsigned char *at = data;
    while (bytes) {
        ssize_t done = write(s->to, at, bytes);
        if (done < 0 && errno == EINTR) continue;
        if (done <= 0) fail("the server has ended");
        at += done;
        bytes -= (size_t)done;
    }
}

static void get(server *s, void *data, size_t bytes) {
    unsigned char *at = data;
    while (bytes) {
        ssize_t done = read(s->from, at, bytes);
        if (done < 0 && errno == EINTR) continue;
        if (done <= 0) fail("the server has ended");
        at += done;
        bytes -= (size_t)done;
    }
}

static size_t bytes_of(const slice *one) { return one->length * (one->marks & BYTES ? 1 : 4); }

/* Whether the server has the bytes of slice i; if not, they are copied, as they are sent next. */
static int has(server *s, int i, const slice *one) {
    size_t bytes = bytes_of(one);
    if (s->marks[i] == one->marks && s->bytes[i] == bytes && s->copy[i] && (!bytes || !memcmp(s->copy[i], one->data, bytes))) return 1;
    if (s->room[i] < bytes + 1) {
        free(s->copy[i]);
        s->room[i] = bytes + 1;
        s->copy[i] = malloc(s->room[i]);
        if (!s->copy[i]) fail("no memory");
    }
    if (bytes) memcpy(s->copy[i], one->data, bytes);
    s->bytes[i] = bytes;
    s->marks[i] = one->marks;
    return 0;
}

static uint64_t call(uint32_t number, const slice *slices, int count, uint32_t first, uint32_t second) {
    server *s = here();
    request_head head = {.call = number, .slices = (uint32_t)count, .number = {first, second}};
    for (int i = 0; i < count; i++) {
        if (slices[i].length > UINT32_MAX / 4) fail("a slice is too long for a processor of 32 bits");
        head.slice[i].length = (uint32_t)slices[i].length;
        head.slice[i].marks = slices[i].marks | (has(s, i, &slices[i]) ? SAME : 0);
    }
    put(s, &head, sizeof head);
    for (int i = 0; i < count; i++)
        if (!(head.slice[i].marks & SAME)) put(s, s->copy[i], s->bytes[i]);
    reply_head reply;
    get(s, &reply, sizeof reply);
    if (reply.wrong) {
        fprintf(stderr, "zones stub: call %u: %s slice %u has changed\n", number,
                reply.wrong == GUARD_CHANGED ? "memory beside" : "the lent", reply.slice);
        abort();
    }
    for (int i = 0; i < count; i++) {
        if (!(slices[i].marks & WRITTEN)) continue;
        uint32_t changed[2];
        get(s, changed, sizeof changed);
        if ((uint64_t)changed[0] + changed[1] > s->bytes[i]) fail("the server changed more than a slice");
        if (!changed[1]) continue;
        get(s, s->copy[i] + changed[0], changed[1]);
        memcpy((unsigned char *)slices[i].data + changed[0], s->copy[i] + changed[0], changed[1]);
    }
    atomic_fetch_add(&calls, 1);
    return (uint64_t)reply.high << 32 | reply.low;
}

#define LENT(name) {name, name##_len, 0}
#define OUT(name) {name, name##_len, WRITTEN}
#define CALL(number, first, second, ...)                       \
    do {                                                       \
        const slice slices[] = {__VA_ARGS__};                  \
        return call(number, slices, (int)(sizeof slices / sizeof *slices), first, second); \
    } while (0)
#define DRAWING LENT(plan), LENT(areas), LENT(xs), LENT(ys)
#define TREE OUT(head), OUT(cells), OUT(entries)
#define CONST_TREE LENT(head), LENT(cells), LENT(entries)

uint64_t zones_read(const uint8_t *records, zones_length records_len, uint32_t *plan, zones_length plan_len, uint32_t *areas, zones_length areas_len,
                    uint32_t *xs, zones_length xs_len, uint32_t *ys, zones_length ys_len) {
    CALL(READ, 0, 0, {records, records_len, BYTES}, OUT(plan), OUT(areas), OUT(xs), OUT(ys));
}

uint64_t zones_write(ZONES_DRAWING, uint8_t *out, zones_length out_len) { CALL(WRITE, 0, 0, DRAWING, {out, out_len, BYTES | WRITTEN}); }

uint64_t zones_open(ZONES_DRAWING, ZONES_TREE) { CALL(OPEN, 0, 0, DRAWING, TREE); }

uint64_t zones_split(ZONES_DRAWING, ZONES_TREE, uint32_t cell) { CALL(SPLIT, cell, 0, DRAWING, TREE); }

uint64_t zones_grow(ZONES_DRAWING, ZONES_TREE, uint32_t threshold, uint32_t limit) { CALL(GROW, threshold, limit, DRAWING, TREE); }

uint64_t zones_find_leaf(ZONES_DRAWING, ZONES_CONST_TREE, uint32_t x, uint32_t y, uint32_t *out, zones_length out_len) {
    CALL(FIND_LEAF, x, y, DRAWING, CONST_TREE, OUT(out));
}

uint64_t zones_position(ZONES_DRAWING, ZONES_CONST_TREE, uint32_t x, uint32_t y, uint32_t *out, zones_length out_len) {
    CALL(POSITION, x, y, DRAWING, CONST_TREE, OUT(out));
}

uint64_t zones_pixel_row(ZONES_DRAWING, ZONES_CONST_TREE, uint32_t row, uint32_t first, uint8_t *out, zones_length out_len) {
    CALL(PIXEL_ROW, row, first, DRAWING, CONST_TREE, {out, out_len, BYTES | WRITTEN});
}

uint64_t zones_zone_log(ZONES_DRAWING, ZONES_CONST_TREE, const uint32_t *px, zones_length px_len, const uint32_t *py, zones_length py_len, uint32_t *out,
                        zones_length out_len) {
    CALL(ZONE_LOG, 0, 0, DRAWING, CONST_TREE, LENT(px), LENT(py), OUT(out));
}
