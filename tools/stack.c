/* stack DRAWING...: the bytes of stack that each call takes, for tools/stack. Every call runs on a stack of its own that is painted first; what it
 * takes is how far down the paint is gone, less what a function that does nothing takes there. The arguments that pass on the stack are counted.
 * The drawing `limits` is made here: 4,096 records, 64 areas, 2,048 corners with curves among them, groups eight deep. */
#define _XOPEN_SOURCE 700
#include "zones.h"

#include <stdio.h>
#include <stdlib.h>
#include <string.h>
#include <ucontext.h>

enum { STACK = 1 << 18, RUN = 1000, ROWS = 64, SPLITS = 40 };

static struct zones_memory memory;
static struct zones_map map;
static uint8_t file[ZONES_FILE_BYTES + 1], out[ZONES_FILE_BYTES], pixels[ZONES_PIXELS / 8 * ZONES_PIXEL_BYTES];
static uint32_t px[RUN], py[RUN], indices[RUN];
static size_t length;

/* Ends the program where a call is refused. */
static void accepted(uint64_t answer) {
    if (zones_refusal(answer) == ZONES_ACCEPTED) return;
    fprintf(stderr, "refused %u at %u: %s\n", (unsigned)zones_refusal(answer), (unsigned)zones_place(answer),
            zones_refusal_text(zones_refusal(answer)));
    exit(1);
}

/* What runs on the painted stack. The answers are looked at on the program's own. */
static uint64_t answers[RUN];

static void do_nothing(void) { answers[0] = 0; }
static void do_read(void) { answers[0] = zones_map_read(&map, file, length); }
static void do_write(void) { answers[0] = zones_map_write(&map, out, sizeof out); }
static void do_open(void) { answers[0] = zones_map_open(&map); }
static void do_grow(void) { answers[0] = zones_map_grow(&map, 0, ZONES_MOST_DEPTH); }
static void do_log(void) { answers[0] = zones_map_zone_log(&map, px, py, RUN, indices, RUN); }

/* A leaf with lines where there is one; growing has split those before it. */
static void do_split(void) {
    for (uint32_t k = 0; k < SPLITS; k++) answers[k] = zones_map_split(&map, k);
}

static void do_find_leaf(void) {
    struct zones_leaf leaf;
    for (int k = 0; k < RUN; k++) answers[k] = zones_map_find_leaf(&map, px[k], py[k], &leaf);
}

static void do_position(void) {
    struct zones_spot spot;
    for (int k = 0; k < RUN; k++) answers[k] = zones_map_position(&map, px[k], py[k], &spot);
}

static void do_pixel_row(void) {
    for (uint32_t k = 0; k < ROWS; k++)
        answers[k] = zones_map_pixel_row(&map, k * (ZONES_PIXELS / ROWS), k * 56, pixels, sizeof pixels);
}

/* Runs a job on a stack painted so. Gives how many bytes from the top the lowest that is changed stands. */
static size_t changed(void (*job)(void), int paint) {
    static uint8_t stack[STACK];
    static ucontext_t here, there;
    memset(stack, paint, STACK);
    memset(answers, 0, sizeof answers);
    getcontext(&there);
    there.uc_stack.ss_sp = stack;
    there.uc_stack.ss_size = STACK;
    there.uc_link = &here;
    makecontext(&there, job, 0);
    swapcontext(&here, &there);
    for (int k = 0; k < RUN; k++) accepted(answers[k]);
    size_t low = 0;
    while (low < STACK && stack[low] == paint) low++;
    return STACK - low;
}

/* With two paints: a byte that happens to be written in one is seen in the other. */
static size_t most(void (*before)(void), void (*job)(void)) {
    size_t found = 0;
    for (int paint = 0x5a; paint <= 0xa5; paint += 0xa5 - 0x5a) {
        if (before != NULL) before();
        size_t here = changed(job, paint);
        if (here > found) found = here;
    }
    return found;
}

static void opened(void) { accepted(zones_map_open(&map)); }

static void print_row(const char *name) {
    uint64_t seed = 1;
    for (int k = 0; k < RUN; k++) {
        seed = seed * 6364136223846793005u + 1442695040888963407u;
        px[k] = (uint32_t)(seed >> 33) & ZONES_MOST_POSITION;
        py[k] = (uint32_t)(seed >> 48) & ZONES_MOST_POSITION;
    }
    map = zones_map_of(&memory);
    const size_t none = most(NULL, do_nothing);
    printf("%-10s", name);
    printf(" %6zu", most(NULL, do_read) - none);
    printf(" %6zu", most(NULL, do_write) - none);
    printf(" %6zu", most(NULL, do_open) - none);
    printf(" %6zu", most(opened, do_split) - none);
    printf(" %6zu", most(opened, do_grow) - none);
    printf(" %6zu", most(NULL, do_find_leaf) - none);
    printf(" %6zu", most(NULL, do_position) - none);
    printf(" %6zu", most(NULL, do_pixel_row) - none);
    printf(" %6zu\n", most(NULL, do_log) - none);
}

/* A record more. */
static uint8_t *put(uint8_t kind) {
    uint8_t *record = file + length;
    length += ZONES_RECORD_BYTES;
    memset(record, 0, ZONES_RECORD_BYTES);
    record[ZONES_RECORD_KIND] = kind;
    return record;
}

static void put_corner(uint8_t kind, uint32_t x, uint32_t y) {
    uint8_t *record = put(kind);
    for (int k = 0; k < 4; k++) {
        record[ZONES_RECORD_X + k] = (uint8_t)(x >> 8 * k);
        record[ZONES_RECORD_Y + k] = (uint8_t)(y >> 8 * k);
    }
}

/* An area with a ring of 32 corners: 28 lines and 2 curves. */
static void put_area(uint32_t number, uint8_t role) {
    uint8_t *record = put(ZONES_KIND_AREA);
    record[ZONES_RECORD_ROLE] = role;
    if (role == ZONES_ROLE_PAINT) {
        record[ZONES_RECORD_ALPHA] = 100;
        record[ZONES_RECORD_RED] = (uint8_t)number;
        record[ZONES_RECORD_MATERIAL] = (uint8_t)(number + 1);
    }
    const uint32_t low = number * 200, wide = 50000;
    put_corner(ZONES_KIND_FIRST, low, low);
    put_corner(ZONES_KIND_CONTROL, low + 4000, low);
    put_corner(ZONES_KIND_NEXT, low + 4000, low + 3000);
    put_corner(ZONES_KIND_CONTROL, low + 4000, low + 5000);
    put_corner(ZONES_KIND_NEXT, low + 8000, low + 5000);
    for (uint32_t k = 0; k < 13; k++) put_corner(ZONES_KIND_NEXT, low + 8000 + k * 3000, low + (k % 2) * 9000);
    for (uint32_t k = 0; k < 14; k++) put_corner(ZONES_KIND_NEXT, low + wide - k * 3500, low + wide - (k % 2) * 9000);
}

/* Groups eight deep with a clip and a paint area each, then paint areas, then groups of nothing up to 4,096 records. */
static void make_limits(void) {
    uint32_t number = 0;
    length = 0;
    for (int k = 0; k < ZONES_MOST_GROUPS; k++) {
        put(ZONES_KIND_OPEN);
        put_area(number++, ZONES_ROLE_CLIP);
        put(ZONES_KIND_BAR);
        put_area(number++, ZONES_ROLE_PAINT);
    }
    for (int k = 0; k < ZONES_MOST_GROUPS; k++) put(ZONES_KIND_CLOSE);
    while (number < ZONES_MOST_AREAS) put_area(number++, ZONES_ROLE_PAINT);
    while (length + 3 * ZONES_RECORD_BYTES <= ZONES_FILE_BYTES) {
        put(ZONES_KIND_OPEN);
        put(ZONES_KIND_BAR);
        put(ZONES_KIND_CLOSE);
    }
}

int main(int argc, char **argv) {
    if (argc < 2) {
        fprintf(stderr, "usage: stack DRAWING...    (limits: a drawing at the limits)\n");
        return 2;
    }
    printf("%-10s %6s %6s %6s %6s %6s %6s %6s %6s %6s\n", "drawing", "read", "write", "open", "split", "grow", "leaf", "spot", "row", "log");
    for (int k = 1; k < argc; k++) {
        const char *slash = strrchr(argv[k], '/'), *name = slash == NULL ? argv[k] : slash + 1;
        if (strcmp(argv[k], "limits") == 0) {
            make_limits();
        } else {
            FILE *drawing = fopen(argv[k], "rb");
            if (drawing == NULL) {
                perror(argv[k]);
                return 2;
            }
            length = fread(file, 1, sizeof file, drawing);
            fclose(drawing);
        }
        print_row(name);
    }
    return 0;
}
