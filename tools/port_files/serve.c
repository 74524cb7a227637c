/* Answers the calls of stub.c from the library that it is linked with, that of another processor. wire.h says what goes over the pipes.
 * Each slice ends where a page begins that may be neither read nor written, so that a step beyond it ends the server, and has a guard before it. After
 * every call the guards and the slices lent to be read are compared with what they were. */
#define _GNU_SOURCE
#include <stdio.h>
#include <stdlib.h>
#include <string.h>
#include <sys/mman.h>
#include <unistd.h>

#include "wire.h"
#include "zones.h"

#define GUARD_BYTES 64
#define GUARD 0xa5
#define STEP 1024

typedef struct {
    unsigned char *memory, *before;
    size_t mapped, room; /* room: how many bytes a slice may have */
    unsigned char *begin;
    size_t count;
} slot;

static slot slots[MOST_SLICES];
static request_head head;

static void fail(const char *what) {
    fprintf(stderr, "zones server: %s\n", what);
    exit(2);
}

/* Whether there was anything to read. */
static int get(void *into, size_t count) {
    size_t done = 0;
    while (done < count) {
        ssize_t now = read(0, (char *)into + done, count - done);
        if (now < 0 || (now == 0 && done > 0)) fail("the request ends early");
        if (now == 0) return 0;
        done += (size_t)now;
    }
    return 1;
}

static void put(const void *from, size_t count) {
    size_t done = 0;
    while (done < count) {
        ssize_t now = write(1, (const char *)from + done, count - done);
        if (now <= 0) fail("nobody reads the answer");
        done += (size_t)now;
    }
}

/* Room for a slice of so many bytes, with a guard before it and a closed page behind it. */
static void map(slot *s, size_t count) {
    size_t page = (size_t)sysconf(_SC_PAGESIZE);
    if (s->memory) munmap(s->memory, s->mapped);
    free(s->before);
    size_t open = (GUARD_BYTES + 2 * count + page) / page * page;
    s->mapped = open + page;
    s->room = open - GUARD_BYTES;
    s->memory = mmap(NULL, s->mapped, PROT_READ | PROT_WRITE, MAP_PRIVATE | MAP_ANONYMOUS, -1, 0);
    s->before = malloc(s->room);
    if (s->memory == MAP_FAILED || !s->before || mprotect(s->memory + open, page, PROT_NONE)) fail("no memory");
}

static void place(slot *s, uint32_t marks, uint32_t length) {
    size_t count = marks & BYTES ? length : 4 * (size_t)length;
    if (!s->memory || s->room < count) map(s, count);
    s->begin = s->memory + GUARD_BYTES + s->room - count;
    s->count = count;
}

static void receive(slot *s) {
    if (s->count && !get(s->begin, s->count)) fail("the request ends early");
    memset(s->begin - GUARD_BYTES, GUARD, GUARD_BYTES);
    memcpy(s->before, s->begin, s->count);
}

static int guarded(const slot *s) {
    unsigned char guard[GUARD_BYTES];
    memset(guard, GUARD, sizeof guard);
    return !memcmp(s->begin - GUARD_BYTES, guard, sizeof guard);
}

/* From the first step that has changed to the last. */
static void changed(const slot *s, size_t *from, size_t *to) {
    *from = *to = 0;
    if (!memcmp(s->begin, s->before, s->count)) return;
    *to = s->count;
    for (;;) {
        size_t step = *to - *from < STEP ? *to - *from : STEP;
        if (memcmp(s->begin + *from, s->before + *from, step)) break;
        *from += step;
    }
    for (;;) {
        size_t step = *to - *from < STEP ? *to - *from : STEP;
        if (memcmp(s->begin + *to - step, s->before + *to - step, step)) break;
        *to -= step;
    }
}

#define W(i) (uint32_t *)(void *)slots[i].begin, head.slice[i].length
#define B(i) slots[i].begin, head.slice[i].length
#define DRAWING W(0), W(1), W(2), W(3)
#define TREE W(4), W(5), W(6)
#define NUMBERS head.number[0], head.number[1]

static uint64_t answer(void) {
    switch (head.call) {
    case READ: return zones_read(B(0), W(1), W(2), W(3), W(4));
    case WRITE: return zones_write(DRAWING, B(4));
    case OPEN: return zones_open(DRAWING, TREE);
    case SPLIT: return zones_split(DRAWING, TREE, head.number[0]);
    case GROW: return zones_grow(DRAWING, TREE, NUMBERS);
    case FIND_LEAF: return zones_find_leaf(DRAWING, TREE, NUMBERS, W(7));
    case POSITION: return zones_position(DRAWING, TREE, NUMBERS, W(7));
    case PIXEL_ROW: return zones_pixel_row(DRAWING, TREE, NUMBERS, B(7));
    case ZONE_LOG: return zones_zone_log(DRAWING, TREE, W(7), W(8), W(9));
    default: fail("no such call"); return 0;
    }
}

static void reply(uint64_t given) {
    size_t from[MOST_SLICES], to[MOST_SLICES];
    reply_head r = {(uint32_t)given, (uint32_t)(given >> 32), 0, 0};
    for (uint32_t i = 0; i < head.slices; i++) {
        changed(&slots[i], &from[i], &to[i]);
        uint32_t wrong = !guarded(&slots[i]) ? GUARD_CHANGED : from[i] < to[i] && !(head.slice[i].marks & WRITTEN) ? LENT_CHANGED : 0;
        if (wrong) r.wrong = wrong, r.slice = i;
    }
    put(&r, sizeof r);
    for (uint32_t i = 0; i < head.slices; i++) {
        if (!(head.slice[i].marks & WRITTEN)) continue;
        uint32_t place[2] = {(uint32_t)from[i], (uint32_t)(to[i] - from[i])};
        put(place, sizeof place);
        put(slots[i].begin + from[i], place[1]);
        memcpy(slots[i].before + from[i], slots[i].begin + from[i], place[1]);
    }
}

int main(void) {
    while (get(&head, sizeof head)) {
        if (head.slices > MOST_SLICES) fail("too many slices");
        for (uint32_t i = 0; i < head.slices; i++) {
            if (head.slice[i].marks & SAME) continue;
            place(&slots[i], head.slice[i].marks, head.slice[i].length);
            receive(&slots[i]);
        }
        reply(answer());
    }
    return 0;
}
