/* Which refusal is given where two would be met. Prints a line for each pair: the call, the refusal that was given, the other one. What is lent meets both:
 * each is also tried alone, by the same lending with the first put right. */
#include "zones.h"

#include <stdio.h>
#include <string.h>

static struct zones_memory memory;
static struct zones_map map;
static uint8_t file[ZONES_FILE_BYTES + 64], bytes[ZONES_FILE_BYTES];
static size_t length;
static int wrong;

/* Both: the answer where both are met. Second: the answer with the first put right, which shows that the other was met too. */
static void pair(const char *call, uint32_t first, uint32_t other, uint64_t both, uint64_t second) {
    printf("%s %u %u\n", call, (unsigned)first, (unsigned)other);
    if (zones_refusal(both) == first && zones_refusal(second) == other) return;
    printf("wrong: %u, then %u\n", (unsigned)zones_refusal(both), (unsigned)zones_refusal(second));
    wrong = 1;
}

static uint8_t *put(unsigned kind) {
    uint8_t *record = file + length;
    memset(record, 0, ZONES_RECORD_BYTES);
    record[ZONES_RECORD_KIND] = (uint8_t)kind;
    if (kind == ZONES_KIND_AREA) record[ZONES_RECORD_MATERIAL] = 1;
    length += ZONES_RECORD_BYTES;
    return record;
}

static void put_corner(unsigned kind, uint32_t x, uint32_t y) {
    uint8_t *record = put(kind);
    for (int k = 0; k < 4; k++) record[ZONES_RECORD_X + k] = (uint8_t)(x >> 8 * k), record[ZONES_RECORD_Y + k] = (uint8_t)(y >> 8 * k);
}

static uint64_t read_file(void) {
    const size_t whole = length;
    length = 0;
    map = zones_map_of(&memory);
    return zones_map_read(&map, file, whole);
}

static uint64_t unequal(size_t bytes_of_it) {
    map = zones_map_of(&memory);
    map.ys.length--;
    const uint64_t answer = zones_map_read(&map, file, bytes_of_it);
    map = zones_map_of(&memory);
    return answer;
}

/* A record of an unknown kind with a byte that no kind names; of kind ( it is 3. */
static uint64_t field(unsigned kind) { return put(kind)[15] = 1, read_file(); }

/* A curve that is too wide, and its end out of range: or one of them. */
static uint64_t wide(uint32_t end) {
    put(ZONES_KIND_AREA), put_corner(ZONES_KIND_FIRST, 0, 0), put_corner(ZONES_KIND_CONTROL, 9, 9), put_corner(ZONES_KIND_NEXT, end, 9);
    return read_file();
}

/* So many corners, then a control corner, and one that ends a curve: the 2,049th. */
static uint64_t one_too_many(uint32_t end) {
    put(ZONES_KIND_AREA);
    for (uint32_t k = 0; k < ZONES_MOST_CORNERS - 1; k++) put_corner(k == 0 ? ZONES_KIND_FIRST : ZONES_KIND_NEXT, k, 0);
    put_corner(ZONES_KIND_CONTROL, 3000, 0), put_corner(ZONES_KIND_NEXT, end, 0);
    return read_file();
}

/* A record after so many corners. */
static uint64_t after_corners(int corners, unsigned kind) {
    put(ZONES_KIND_AREA);
    for (int k = 0; k < corners; k++) put_corner(k == 0 ? ZONES_KIND_FIRST : ZONES_KIND_NEXT, 1, 1);
    put(kind);
    return read_file();
}

/* The 65th area, after so many corners. */
static uint64_t one_area_too_many(int corners) {
    for (int k = 0; k < ZONES_MOST_AREAS; k++) put(ZONES_KIND_AREA);
    for (int k = 0; k < corners; k++) put_corner(k == 0 ? ZONES_KIND_FIRST : ZONES_KIND_NEXT, 1, 1);
    put(ZONES_KIND_AREA);
    return read_file();
}

/* The end after a contour of two corners, in a group or not. */
static uint64_t ended(int group) {
    if (group) put(ZONES_KIND_OPEN), put(ZONES_KIND_BAR);
    put(ZONES_KIND_AREA), put_corner(ZONES_KIND_FIRST, 1, 1), put_corner(ZONES_KIND_NEXT, 1, 1);
    return read_file();
}

static uint64_t into_nothing(int open) {
    put(ZONES_KIND_OPEN), put(ZONES_KIND_BAR);
    if (!open) put(ZONES_KIND_CLOSE);
    const size_t whole = length;
    length = 0;
    map = zones_map_of(&memory);
    map.plan.length = 3;
    return zones_map_read(&map, file, whole);
}

static void reading(void) {
    memset(file, 0, 64);
    pair("zones_read", 7, 1, unequal(5), (map = zones_map_of(&memory), zones_map_read(&map, file, 5)));
    pair("zones_read", 1, 2, zones_map_read(&map, file, 17), zones_map_read(&map, file, 16));
    pair("zones_read", 2, 3, field(99), field(ZONES_KIND_OPEN));
    pair("zones_read", 3, 13, wide(65537), wide(65536));
    pair("zones_read", 13, 6, one_too_many(60000), one_too_many(3001));
    pair("zones_read", 4, 5, after_corners(2, ZONES_KIND_BAR), after_corners(2, ZONES_KIND_AREA));
    pair("zones_read", 5, 6, one_area_too_many(2), one_area_too_many(3));
    pair("zones_read", 4, 5, ended(1), ended(0));
    pair("zones_read", 4, 11, into_nothing(1), into_nothing(0));
}

/* A triangle in its tables, opened and split once: 5 cells. */
static void triangle(void) {
    put(ZONES_KIND_AREA);
    put_corner(ZONES_KIND_FIRST, 1000, 2000), put_corner(ZONES_KIND_NEXT, 60000, 3000), put_corner(ZONES_KIND_NEXT, 5000, 61000);
    read_file();
    zones_map_open(&map);
    zones_map_split(&map, 0);
}

/* PARENT: cell 0 has another than itself. LINES: cell 1, the leaf at (0, 0), has another count than its stream. */
enum fault { NONE = 0, UNEQUAL = 1, DRAWING = 2, TREE = 4, SHORT = 8, PARENT = 16, LINES = 32 };

/* Tables with these faults. */
static void with(int faults) {
    triangle();
    if (faults & UNEQUAL) map.xs.length--;
    if (faults & DRAWING) memory.areas[7] = 1;
    if (faults & TREE) memory.cells[ZONES_CELL_SIDE] = 3;
    if (faults & PARENT) memory.cells[ZONES_CELL_PARENT] = 1;
    if (faults & LINES) memory.cells[ZONES_CELL_WORDS + ZONES_CELL_LINES]++;
    if (faults & SHORT) map.cells.length = map.entries.length = 0;
}

static uint64_t write_with(int faults) { return with(faults), zones_map_write(&map, bytes, faults & SHORT ? 63 : 64); }
static uint64_t open_with(int faults) { return with(faults), zones_map_open(&map); }
static uint64_t grow_with(int faults, uint32_t limit) { return with(faults), zones_map_grow(&map, 0, limit); }

/* With room for no other cell, which is no refusal. */
static uint64_t grow_full(int faults) {
    with(faults);
    map.cells.length = 5 * ZONES_CELL_WORDS;
    return zones_map_grow(&map, 0, 16);
}

static uint64_t split_with(int faults, uint32_t cell) {
    with(faults & ~SHORT);
    if (faults & SHORT) map.cells.length = 5 * ZONES_CELL_WORDS;
    return zones_map_split(&map, cell);
}

/* Splits the leaf at a position, with no room for another cell; at (0, 0) it has side 1. */
static uint64_t split_at(uint32_t x, uint32_t y) {
    struct zones_leaf leaf;
    triangle();
    for (zones_map_find_leaf(&map, 0, 0, &leaf); leaf.side > 1; zones_map_find_leaf(&map, 0, 0, &leaf)) zones_map_split(&map, leaf.cell);
    zones_map_find_leaf(&map, x, y, &leaf);
    map.cells.length = ZONES_CELL_WORDS * memory.head[ZONES_HEAD_CELLS];
    return zones_map_split(&map, leaf.cell);
}

static uint64_t leaf_with(int faults, uint32_t x) {
    uint32_t out[ZONES_LEAF_WORDS];
    with(faults & ~SHORT);
    return zones_find_leaf(ZONES_LEND_DRAWING(&map), ZONES_LEND_TREE(&map), x, 0, out, faults & SHORT ? 7 : 8);
}

static uint64_t spot_with(int faults, uint32_t x) {
    uint32_t out[ZONES_POSITION_WORDS];
    with(faults & ~SHORT);
    return zones_position(ZONES_LEND_DRAWING(&map), ZONES_LEND_TREE(&map), x, 0, out, faults & SHORT ? 9 : 10);
}

static uint64_t row_with(int faults, uint32_t row) { return with(faults), zones_map_pixel_row(&map, row, 0, bytes, 3); }

static uint64_t log_with(int faults, uint32_t x, zones_length other) {
    uint32_t px[3] = {0, 1, 2}, py[3] = {0}, out[3];
    with(faults & ~SHORT);
    px[2] = x;
    return zones_zone_log(ZONES_LEND_DRAWING(&map), ZONES_LEND_TREE(&map), px, 3, py, other, out, faults & SHORT ? 0 : 3);
}

static void others(void) {
    pair("zones_write", 7, 12, write_with(UNEQUAL | DRAWING), write_with(DRAWING));
    pair("zones_write", 12, 11, write_with(DRAWING | SHORT), write_with(SHORT));
    pair("zones_open", 7, 12, open_with(UNEQUAL | DRAWING), open_with(DRAWING));
    pair("zones_open", 12, 11, open_with(DRAWING | SHORT), open_with(SHORT));
    pair("zones_split", 7, 8, split_with(UNEQUAL, 5), split_with(NONE, 5));
    pair("zones_split", 8, 12, split_with(TREE, 5), split_with(TREE, 0));
    pair("zones_split", 8, 12, split_with(PARENT, 5), split_with(PARENT, 0));
    pair("zones_split", 12, 9, split_with(TREE, 0), split_with(NONE, 0));
    pair("zones_split", 12, 9, split_with(PARENT, 0), split_with(NONE, 0));
    pair("zones_split", 12, 11, split_with(LINES | SHORT, 1), split_with(SHORT, 1));
    pair("zones_split", 9, 11, split_with(SHORT, 0), split_with(SHORT, 1));
    pair("zones_split", 10, 11, split_at(0, 0), split_at(60000, 60000));
    pair("zones_grow", 7, 12, grow_with(TREE, 17), grow_with(TREE, 16));
    pair("zones_grow", 7, 12, grow_with(TREE | UNEQUAL, 16), grow_with(TREE, 16));
    pair("zones_grow", 7, 12, grow_with(PARENT, 17), grow_with(PARENT, 16));
    pair("zones_grow", 7, 12, grow_with(LINES, 17), grow_with(LINES, 16));
    wrong |= zones_refusal(grow_full(LINES)) != 12 || grow_full(NONE) != ZONES_FULL;
    pair("zones_find_leaf", 7, 12, leaf_with(TREE, 65536), leaf_with(TREE, 0));
    pair("zones_find_leaf", 12, 11, leaf_with(TREE | SHORT, 0), leaf_with(SHORT, 0));
    pair("zones_find_leaf", 12, 11, leaf_with(PARENT | SHORT, 0), leaf_with(SHORT, 0));
    pair("zones_find_leaf", 12, 11, leaf_with(LINES | SHORT, 0), leaf_with(SHORT, 0));
    pair("zones_position", 7, 12, spot_with(TREE, 65536), spot_with(TREE, 0));
    pair("zones_position", 12, 11, spot_with(TREE | SHORT, 0), spot_with(SHORT, 0));
    pair("zones_position", 12, 11, spot_with(LINES | SHORT, 0), spot_with(SHORT, 0));
    pair("zones_pixel_row", 7, 12, row_with(TREE, 4096), row_with(TREE, 0));
    pair("zones_pixel_row", 7, 12, row_with(LINES, 4096), row_with(LINES, 0));
    pair("zones_zone_log", 7, 7, log_with(NONE, 65536, 2), log_with(NONE, 65536, 3));
    wrong |= zones_place(log_with(NONE, 65536, 2)) != 0 || zones_place(log_with(NONE, 65536, 3)) != 2;
    pair("zones_zone_log", 7, 12, log_with(TREE, 65536, 3), log_with(TREE, 0, 3));
    pair("zones_zone_log", 12, 11, log_with(TREE | SHORT, 0, 3), log_with(SHORT, 0, 3));
    pair("zones_zone_log", 12, 11, log_with(LINES | SHORT, 0, 3), log_with(SHORT, 0, 3));
}

int main(void) {
    reading();
    others();
    return wrong;
}
