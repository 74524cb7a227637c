/* wrappers DRAWING: each wrapper over the struct beside the call that it makes, with tables of their own: equal answers, equal tables, equal output; on
 * tables at the limits, on short ones, and on tables that are broken. Then what is made of answers and tables with no call. The header stands in a second
 * unit of the program too (nothing.c). Prints how many answers were compared and how many of them were refused. */
#include "zones.h"

#include <stdio.h>
#include <string.h>

int nothing(void);

static struct zones_memory a, b;
static uint8_t file[ZONES_FILE_BYTES + 1];
static unsigned compared, refused;

static int same(uint64_t one, uint64_t other, int line) {
    compared++;
    refused += zones_refusal(one) != ZONES_ACCEPTED;
    if (one == other && memcmp(&a, &b, sizeof a) == 0 && zones_result(one) == (uint32_t)one && zones_place(one) == (uint32_t)one &&
        zones_refusal(one) == one >> 32)
        return 1;
    printf("line %d: %llu and %llu\n", line, (unsigned long long)one, (unsigned long long)other);
    return 0;
}
#define SAME(one, other) (same(one, other, __LINE__) || (wrong = 1))

#define DRAWING b.plan, m.plan.length, b.areas, m.areas.length, b.xs, m.xs.length, b.ys, m.ys.length
#define TREE b.head, m.head.length, b.cells, m.cells.length, b.entries, m.entries.length

static int read_leaf(const struct zones_map *lent, uint32_t x, uint32_t y) {
    const struct zones_map m = *lent;
    uint32_t out[ZONES_LEAF_WORDS];
    struct zones_leaf leaf;
    int wrong = 0;
    /* Both are left so by a refusal. */
    memset(&leaf, 77, sizeof leaf);
    memset(out, 77, sizeof out);
    SAME(zones_map_find_leaf(&m, x, y, &leaf), zones_find_leaf(DRAWING, TREE, x, y, out, ZONES_LEAF_WORDS));
    return wrong || leaf.cell != out[0] || leaf.x != out[1] || leaf.y != out[2] || leaf.side != out[3] || leaf.steps != out[4] ||
           leaf.entries != out[5] || leaf.lines != out[6] || leaf.uniform != out[7];
}

static int read_spot(const struct zones_map *lent, uint32_t x, uint32_t y) {
    const struct zones_map m = *lent;
    uint32_t out[ZONES_POSITION_WORDS];
    struct zones_spot spot;
    int wrong = 0;
    memset(&spot, 77, sizeof spot);
    memset(out, 77, sizeof out);
    SAME(zones_map_position(&m, x, y, &spot), zones_position(DRAWING, TREE, x, y, out, ZONES_POSITION_WORDS));
    for (uint32_t k = 0; k < 70; k++) wrong |= zones_shows(&spot, k) != (k < 64 && (out[k / 32] >> k % 32 & 1) == 1);
    return wrong || zones_shown(&spot) != ((uint64_t)out[1] << 32 | out[0]) || spot.material != out[2] || spot.colour[0] != out[3] || spot.colour[1] != out[4] ||
           spot.colour[2] != out[5] || spot.uniform != out[6] || spot.x != out[7] || spot.y != out[8] || spot.side != out[9];
}

/* An answer reaches the positions of its square's corners and none beside them, and none at all where it is not uniform. */
static int reach(void) {
    const uint32_t squares[5][3] = {{0, 0, 65536}, {0, 0, 1}, {65535, 65535, 1}, {49152, 16384, 16384}, {0, 32768, 32768}};
    int wrong = 0;
    for (int k = 0; k < 5; k++) {
        const uint32_t x = squares[k][0], y = squares[k][1], side = squares[k][2];
        const uint32_t in[2] = {0, side - 1}, out[4] = {side, side + 1, 4294967295u, 2147483648u};
        struct zones_spot spot;
        memset(&spot, 0, sizeof spot);
        spot.x = x, spot.y = y, spot.side = side;
        for (uint32_t yes = 0; yes < 2; yes++) {
            spot.uniform = yes;
            for (int one = 0; one < 2; one++) {
                for (int other = 0; other < 2; other++) wrong |= zones_reaches(&spot, x + in[one], y + in[other]) != (int)yes;
                for (int other = 0; other < 4; other++)
                    wrong |= zones_reaches(&spot, x + in[one], y + out[other]) | zones_reaches(&spot, x + out[other], y + in[one]);
            }
        }
    }
    return wrong;
}

/* A cell has its words by name, and 0 in each where the table does not hold it whole. */
static int by_name(void) {
    const uint32_t expected[8] = {108, 109, 110, 111, 112, 113, 114, 115}, none[8] = {0};
    uint32_t words[16];
    struct zones_map m = zones_map_of(&a);
    struct zones_cell cell;
    int wrong = 0;
    for (uint32_t k = 0; k < 16; k++) words[k] = 100 + k;
    m.cells.words = words, m.cells.length = 16;
    cell = zones_cell_of(&m, 1);
    wrong |= cell.x != 108 || cell.y != 109 || cell.side != 110 || cell.child != 111 || cell.first != 112 || cell.entries != 113 || cell.lines != 114 ||
             cell.parent != 115 || memcmp(&cell, expected, sizeof cell) != 0;
    cell = zones_cell_of(&m, 2), wrong |= memcmp(&cell, none, sizeof cell) != 0;
    cell = zones_cell_of(&m, 4294967295u), wrong |= memcmp(&cell, none, sizeof cell) != 0;
    m.cells.length = 15;
    cell = zones_cell_of(&m, 1), wrong |= memcmp(&cell, none, sizeof cell) != 0;
    return wrong;
}

/* Upward from the leaf that holds a position: each parent holds the cell as one of its four and has twice its side, each holds the position, and the last
 * is cell 0. */
static int upward(const struct zones_map *map, uint32_t x, uint32_t y) {
    struct zones_leaf leaf;
    if (zones_refusal(zones_map_find_leaf(map, x, y, &leaf)) != ZONES_ACCEPTED) return 0;
    struct zones_cell cell = zones_cell_of(map, leaf.cell);
    uint32_t number = leaf.cell;
    int wrong = cell.x != leaf.x || cell.y != leaf.y || cell.side != leaf.side || cell.child != 0 || cell.entries != leaf.entries || cell.lines != leaf.lines;
    for (uint32_t k = 0; k < leaf.steps; k++) {
        const struct zones_cell around = zones_cell_of(map, cell.parent);
        wrong |= around.child == 0 || number - around.child >= ZONES_CHILDREN || around.side != 2 * cell.side || x - around.x >= around.side ||
                 y - around.y >= around.side;
        number = cell.parent;
        cell = around;
    }
    return wrong || number != 0 || cell.parent != 0 || cell.side != ZONES_GRID_SIDE;
}

static int readings(const struct zones_map *lent) {
    const struct zones_map m = *lent;
    static uint8_t one[3 * 700], other[3 * 700];
    static uint32_t px[60], py[60], log_one[60], log_other[60];
    int wrong = 0;
    for (uint32_t k = 0; k < 60; k++) {
        px[k] = k * 1111, py[k] = 65535 - k * 1010;
        wrong |= read_leaf(lent, px[k], py[k]) | read_spot(lent, px[k], py[k]) | upward(lent, px[k], py[k]);
    }
    wrong |= read_leaf(lent, 65536, 1) | read_spot(lent, 1, 65536);
    for (uint32_t row = 0; row < 4200; row += 300) {
        SAME(zones_map_pixel_row(&m, row, row, one, sizeof one), zones_pixel_row(DRAWING, TREE, row, row, other, sizeof other));
        wrong |= memcmp(one, other, sizeof one) != 0;
    }
    for (uint32_t length = 0; length <= 60; length += 6) {
        SAME(zones_map_zone_log(&m, px, py, 60, log_one, length), zones_zone_log(DRAWING, TREE, px, 60, py, 60, log_other, length));
        SAME(zones_map_zone_log(&m, px, py, length, log_one, 60), zones_zone_log(DRAWING, TREE, px, length, py, length, log_other, 60));
        wrong |= memcmp(log_one, log_other, sizeof log_one) != 0;
    }
    return wrong;
}

/* Every call, with tables of these lengths. */
static int every_call(struct zones_map m, size_t length) {
    static uint8_t one[ZONES_FILE_BYTES], other[ZONES_FILE_BYTES];
    int wrong = 0;
    SAME(zones_map_read(&m, file, length), zones_read(file, length, DRAWING));
    SAME(zones_map_write(&m, one, sizeof one), zones_write(DRAWING, other, sizeof other));
    SAME(zones_map_write(&m, one, 100), zones_write(DRAWING, other, 100));
    wrong |= memcmp(one, other, sizeof one) != 0;
    SAME(zones_map_open(&m), zones_open(DRAWING, TREE));
    for (uint32_t cell = 0; cell < 9; cell++) SAME(zones_map_split(&m, cell % 7), zones_split(DRAWING, TREE, cell % 7));
    SAME(zones_map_split(&m, 5000), zones_split(DRAWING, TREE, 5000));
    SAME(zones_map_grow(&m, 6, 17), zones_grow(DRAWING, TREE, 6, 17));
    SAME(zones_map_grow(&m, 6, 3), zones_grow(DRAWING, TREE, 6, 3));
    SAME(zones_map_grow(&m, 2, 8), zones_grow(DRAWING, TREE, 2, 8));
    wrong |= readings(&m);
    a.head[0] = b.head[0] = 0;
    wrong |= readings(&m);
    SAME(zones_map_grow(&m, 2, 8), zones_grow(DRAWING, TREE, 2, 8));
    return wrong;
}

int main(int argc, char **argv) {
    FILE *drawing = argc == 2 ? fopen(argv[1], "rb") : NULL;
    if (drawing == NULL) return 2;
    const size_t length = fread(file, 1, sizeof file, drawing);
    fclose(drawing);
    struct zones_map whole = zones_map_of(&a), m = whole;
    int wrong = nothing() | reach() | by_name() | every_call(whole, length) | every_call(whole, length - 1);
    m.cells.length = 8 * 50, wrong |= every_call(m, length), m = whole;
    m.entries.length = 4 * 90, wrong |= every_call(m, length), m = whole;
    m.head.length = 1, wrong |= every_call(m, length), m = whole;
    m.ys.length = 70, wrong |= every_call(m, length), m = whole;
    m.xs.length = m.ys.length = 5, wrong |= every_call(m, length), m = whole;
    m.areas.length = 8, wrong |= every_call(m, length), m = whole;
    m.plan.length = 2, wrong |= every_call(m, length);
    printf("%u compared, %u refused\n", compared, refused);
    return wrong;
}
