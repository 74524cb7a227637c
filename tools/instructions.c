/* instructions DRAWING JOB: one of the calls, many times over a drawing, for tools/instructions. */
#include "zones.h"

#include <stdio.h>
#include <stdlib.h>
#include <string.h>

enum { RUN = 2000, ROUNDS = 5, ROWS = 9, PIXELS = 4096, SPLITS = 100 };

static uint8_t records[4096 * 16 + 1], pixels[3 * PIXELS];
static uint32_t plan[3 + 4096], areas[8 * 64], xs[2048], ys[2048];
static uint32_t head[2], cells[8 * 4096], entries[4 * 65536];
static uint32_t px[RUN], py[RUN], out[RUN];
static size_t length;

#define LEN(t) (sizeof(t) / sizeof((t)[0]))
#define DRAWING plan, LEN(plan), areas, LEN(areas), xs, LEN(xs), ys, LEN(ys)
#define TREE head, LEN(head), cells, LEN(cells), entries, LEN(entries)

/* Ends the program where a call is refused. */
static void accepted(const char *call, uint64_t answer) {
    if (zones_refusal(answer) == 0) return;
    fprintf(stderr, "%s refused %u at %u\n", call, zones_refusal(answer), zones_place(answer));
    exit(1);
}

static void read_drawing(void) {
    accepted("read", zones_read(records, length, plan, LEN(plan), areas, LEN(areas), xs, LEN(xs), ys, LEN(ys)));
}

static void grow(uint32_t threshold, uint32_t limit) {
    accepted("open", zones_open(DRAWING, TREE));
    accepted("grow", zones_grow(DRAWING, TREE, threshold, limit));
}

static uint64_t next(uint64_t *seed) {
    return *seed = *seed * 6364136223846793005u + 1442695040888963407u;
}

static void put_entry(uint32_t n, uint32_t kind, uint32_t p, uint32_t q) {
    const uint32_t entry[4] = {kind, p, q, 0};
    memcpy(entries + 4 * n, entry, sizeof entry);
}

/* A tree of cell 0 alone: its stream has so many groups, each of "passes" so many times and of a paint area with so many lines all over the grid. */
static void lay_stream(uint32_t groups, uint32_t passes, uint32_t lines) {
    uint64_t seed = 1;
    uint32_t n = 0;
    for (uint32_t g = 0; g < groups; g++) {
        const uint32_t area[8] = {0, 0, 255, 10, 20, 30, g + 1, 0};
        memcpy(areas + 8 * g, area, sizeof area);
        put_entry(n++, 1, 0, 0);
        for (uint32_t k = 0; k < passes; k++) put_entry(n++, 7, 0, 0);
        put_entry(n++, 2, 0, 0);
        put_entry(n++, 4, g, 0);
        for (uint32_t k = 0; k < lines; k++) {
            xs[g * lines + k] = (uint32_t)(next(&seed) >> 33) & 65535;
            ys[g * lines + k] = (uint32_t)(seed >> 48) & 65535;
            put_entry(n++, 5, g * lines + k, g * lines + (k + 1) % lines);
        }
        put_entry(n++, 3, 0, 0);
    }
    plan[1] = groups;
    plan[2] = groups * lines;
    head[1] = n;
    const uint32_t cell[8] = {0, 0, 65536, 0, 0, n, groups * lines, 0};
    memcpy(cells, cell, sizeof cell);
}

/* Splits cell 0 of such a tree, each time anew. */
static void split_often(uint32_t groups, uint32_t passes, uint32_t lines) {
    lay_stream(groups, passes, lines);
    const uint32_t n = head[1];
    for (int k = 0; k < SPLITS; k++) {
        head[0] = 1;
        head[1] = n;
        cells[3] = 0;
        accepted("split", zones_split(DRAWING, TREE, 0));
    }
}

/* Positions all over the grid, the same in every run of the program. */
static void spread_positions(uint64_t *seed) {
    for (int k = 0; k < RUN; k++) {
        next(seed);
        px[k] = (uint32_t)(*seed >> 33) & 65535;
        py[k] = (uint32_t)(*seed >> 48) & 65535;
    }
}

int main(int argc, char **argv) {
    FILE *file = argc == 3 ? fopen(argv[1], "rb") : NULL;
    if (file == NULL) {
        fprintf(stderr, "usage: instructions DRAWING read|grow|again|position|row|log|split16|split256|split4096|none\n");
        return 2;
    }
    length = fread(records, 1, sizeof records, file);
    fclose(file);
    const char *job = argv[2];
    uint64_t seed = 1;
    read_drawing();
    grow(4, 8);
    for (int round = 0; round < ROUNDS; round++) {
        spread_positions(&seed);
        if (strcmp(job, "read") == 0) read_drawing();
        if (strcmp(job, "grow") == 0) grow(0, 7);
        if (strcmp(job, "again") == 0) accepted("grow", zones_grow(DRAWING, TREE, 4, 8));
        if (strcmp(job, "log") == 0) accepted("log", zones_zone_log(DRAWING, TREE, px, RUN, py, RUN, out, RUN));
        for (int k = 0; k < RUN && strcmp(job, "position") == 0; k++)
            accepted("position", zones_position(DRAWING, TREE, px[k], py[k], out, RUN));
    }
    for (uint32_t row = 0; row < ROWS && strcmp(job, "row") == 0; row++)
        accepted("row", zones_pixel_row(DRAWING, TREE, row * (PIXELS / ROWS), 0, pixels, sizeof pixels));
    if (strcmp(job, "split16") == 0) split_often(1, 4, 8);
    if (strcmp(job, "split256") == 0) split_often(4, 28, 32);
    if (strcmp(job, "split4096") == 0) split_often(64, 28, 32);
    return 0;
}
