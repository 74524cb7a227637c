/* thresholds DRAWING: for tools/thresholds. Over every threshold and depth limit of the table, grows a tree and asks positions and pixels of it;
 * prints a line each: threshold, limit, cells and entries in use, done or full. The functions `growing`, `positions` and `rows` are what callgrind
 * counts; it mixes names up that begin with one letter. */
#include "zones.h"

#include <stdio.h>
#include <stdlib.h>

enum { RUN = 1000, ROWS = 8, WIDTH = 128 };

static const uint32_t thresholds[] = {0, 1, 2, 4, 8, 16}, limits[] = {0, 4, 5, 6, 7, 8, 9, 10};

#define LEN(t) (sizeof(t) / sizeof((t)[0]))
#define APART __attribute__((noinline))

static struct zones_memory memory;
static struct zones_map map;
static uint8_t file[ZONES_FILE_BYTES + 1], out[WIDTH * ZONES_PIXEL_BYTES];

/* Ends the program where a call is refused. */
static uint64_t accepted(uint64_t answer) {
    if (zones_refusal(answer) == ZONES_ACCEPTED) return answer;
    fprintf(stderr, "refused %u at %u: %s\n", (unsigned)zones_refusal(answer), (unsigned)zones_place(answer),
            zones_refusal_text(zones_refusal(answer)));
    exit(1);
}

APART uint64_t growing(uint32_t threshold, uint32_t limit);
APART void positions(void);
APART void rows(void);

uint64_t growing(uint32_t threshold, uint32_t limit) {
    accepted(zones_map_open(&map));
    return accepted(zones_map_grow(&map, threshold, limit));
}

/* All over the grid, the same each time. */
void positions(void) {
    uint64_t seed = 1;
    struct zones_spot spot;
    for (int k = 0; k < RUN; k++) {
        seed = seed * 6364136223846793005u + 1442695040888963407u;
        const uint32_t x = (uint32_t)(seed >> 33) & ZONES_MOST_POSITION, y = (uint32_t)(seed >> 48) & ZONES_MOST_POSITION;
        accepted(zones_map_position(&map, x, y, &spot));
    }
}

/* Parts of rows all over the grid: a part of each eighth of the rows, each further to the right. */
void rows(void) {
    for (uint32_t k = 0; k < ROWS; k++) {
        const uint32_t row = k * (ZONES_PIXELS / ROWS) + 201, first = (k * 5 % ROWS) * (ZONES_PIXELS / ROWS) + 101;
        accepted(zones_map_pixel_row(&map, row, first, out, sizeof out));
    }
}

int main(int argc, char **argv) {
    FILE *drawing = argc == 2 ? fopen(argv[1], "rb") : NULL;
    if (drawing == NULL) {
        fprintf(stderr, "usage: thresholds DRAWING\n");
        return 2;
    }
    const size_t length = fread(file, 1, sizeof file, drawing);
    fclose(drawing);
    map = zones_map_of(&memory);
    accepted(zones_map_read(&map, file, length));
    for (size_t l = 0; l < LEN(limits); l++) {
        /* To depth 0 nothing is split, whatever the threshold. */
        const size_t count = limits[l] == 0 ? 1 : LEN(thresholds);
        for (size_t t = 0; t < count; t++) {
            const uint64_t answer = growing(thresholds[t], limits[l]);
            positions();
            rows();
            printf("%u %u %u %u %s\n", (unsigned)thresholds[t], (unsigned)limits[l],
                   (unsigned)memory.head[ZONES_HEAD_CELLS], (unsigned)memory.head[ZONES_HEAD_ENTRIES],
                   zones_full(answer) ? "full" : "done");
        }
    }
    return 0;
}
