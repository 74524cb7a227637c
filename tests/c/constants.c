/* Every constant of include/zones.h against what the library does: exactly that passes, one more or one less is refused, or the word or byte is where
 * it is said to be. Prints a line for each check: the constant's name, and `ok` or `wrong` with the line here. What is expected stands here in plain
 * numbers, from documents 01 and 02, where the constant itself is not the argument. */
#include "zones.h"

#include <stdio.h>
#include <string.h>

static struct zones_memory memory;
static struct zones_map map;
static uint8_t file[ZONES_FILE_BYTES + 64], bytes[ZONES_FILE_BYTES + 64];
/* Longer than the limits. */
static uint32_t cells_beyond[8 * 4100], entries_beyond[4 * 65540];
static size_t length;

static int wrong;

static void check(const char *name, int holds, int line) {
    printf("%s %s %d\n", name, holds ? "ok" : "wrong", line);
    wrong |= !holds;
}
#define CHECK(name, holds) check(#name, holds, __LINE__)

/* Accepted, or refused with a number. */
#define PASSES(answer) (zones_refusal(answer) == 0)
#define REFUSED(number, answer) (zones_refusal(answer) == (number))

/* Files of records. */

static uint8_t *put(unsigned kind) {
    uint8_t *record = file + length;
    memset(record, 0, 16);
    record[0] = (uint8_t)kind;
    length += 16;
    return record;
}

static void put_area(unsigned role, unsigned rule, unsigned alpha, unsigned material) {
    uint8_t *record = put(1);
    record[1] = (uint8_t)role;
    record[2] = (uint8_t)rule;
    record[3] = (uint8_t)alpha;
    record[8] = (uint8_t)material;
    record[9] = (uint8_t)(material >> 8);
}

static void put_corner(unsigned kind, uint32_t x, uint32_t y) {
    uint8_t *record = put(kind);
    for (int k = 0; k < 4; k++) {
        record[4 + k] = (uint8_t)(x >> 8 * k);
        record[8 + k] = (uint8_t)(y >> 8 * k);
    }
}

static void put_box(uint32_t x0, uint32_t y0, uint32_t x1, uint32_t y1) {
    put_corner(2, x0, y0);
    put_corner(3, x1, y0);
    put_corner(3, x1, y1);
    put_corner(3, x0, y1);
}

/* Reads the file into tables of the limits, and empties the file. */
static uint64_t read_file(void) {
    const size_t whole = length;
    map = zones_map_of(&memory);
    length = 0;
    return zones_map_read(&map, file, whole);
}

static uint64_t areas(int n) {
    for (int k = 0; k < n; k++) put_area(0, 0, 0, 1);
    return read_file();
}

static uint64_t corners(int n) {
    put_area(0, 0, 0, 1);
    for (int k = 0; k < n; k++) put_corner(k == 0 ? 2 : 3, (uint32_t)k, (uint32_t)(k * k) % 65536);
    return read_file();
}

static uint64_t groups(int n) {
    for (int k = 0; k < n; k++) put(4);
    for (int k = 0; k < n; k++) put(5), put(6);
    return read_file();
}

/* So many records: areas of no contour would be too many, so groups of nothing, and areas for the rest. */
static uint64_t records(int n) {
    for (; n % 3 != 0; n--) put_area(0, 0, 0, 1);
    for (; n > 0; n -= 3) put(4), put(5), put(6);
    return read_file();
}

static uint64_t curve(uint32_t dx, uint32_t dy) {
    put_area(0, 0, 0, 1);
    put_corner(2, 100, 100);
    put_corner(7, 100 + dx, 100);
    put_corner(3, 100 + dx, 100 + dy);
    put_corner(3, 0, 50);
    return read_file();
}

static uint64_t paint(unsigned role, unsigned rule, unsigned alpha, unsigned material) {
    put_area(role, rule, alpha, material);
    put_box(10, 10, 30, 20);
    return read_file();
}

static void limits_of_files(void) {
    uint8_t one[32] = {1};
    one[8] = 1;
    map = zones_map_of(&memory);
    CHECK(ZONES_RECORD_BYTES, PASSES(zones_map_read(&map, one, ZONES_RECORD_BYTES)));
    CHECK(ZONES_RECORD_BYTES, REFUSED(1, zones_map_read(&map, one, ZONES_RECORD_BYTES - 1)));
    CHECK(ZONES_RECORD_BYTES, REFUSED(1, zones_map_read(&map, one, ZONES_RECORD_BYTES + 1)));
    CHECK(ZONES_MOST_AREAS, PASSES(areas(ZONES_MOST_AREAS)) && REFUSED(6, areas(ZONES_MOST_AREAS + 1)));
    CHECK(ZONES_MOST_CORNERS, PASSES(corners(ZONES_MOST_CORNERS)) && REFUSED(6, corners(ZONES_MOST_CORNERS + 1)));
    CHECK(ZONES_LEAST_CORNERS, PASSES(corners(ZONES_LEAST_CORNERS)) && REFUSED(5, corners(ZONES_LEAST_CORNERS - 1)));
    CHECK(ZONES_MOST_GROUPS, PASSES(groups(ZONES_MOST_GROUPS)) && REFUSED(6, groups(ZONES_MOST_GROUPS + 1)));
    CHECK(ZONES_MOST_RECORDS, PASSES(records(ZONES_MOST_RECORDS)) && REFUSED(1, records(ZONES_MOST_RECORDS + 1)));
    CHECK(ZONES_MOST_CURVE_SPAN, PASSES(curve(ZONES_MOST_CURVE_SPAN, ZONES_MOST_CURVE_SPAN)));
    CHECK(ZONES_MOST_CURVE_SPAN, REFUSED(13, curve(ZONES_MOST_CURVE_SPAN + 1, 1)));
    CHECK(ZONES_MOST_CURVE_SPAN, REFUSED(13, curve(1, ZONES_MOST_CURVE_SPAN + 1)));
    for (uint32_t more = 0; more < 2; more++) {
        put_area(0, 0, 0, 1);
        put_box(0, 0, ZONES_MOST_COORDINATE, ZONES_MOST_COORDINATE + more);
        CHECK(ZONES_MOST_COORDINATE, zones_refusal(read_file()) == 3 * more);
        put_area(0, 0, 0, 1);
        put_box(0, 0, ZONES_MOST_COORDINATE + more, ZONES_MOST_COORDINATE);
        CHECK(ZONES_MOST_COORDINATE, zones_refusal(read_file()) == 3 * more);
    }
    CHECK(ZONES_LEAST_MATERIAL, PASSES(paint(0, 0, 0, ZONES_LEAST_MATERIAL)));
    CHECK(ZONES_LEAST_MATERIAL, REFUSED(3, paint(0, 0, 0, ZONES_LEAST_MATERIAL - 1)));
    CHECK(ZONES_MOST_MATERIAL, PASSES(paint(0, 0, 0, ZONES_MOST_MATERIAL)) && memory.areas[6] == ZONES_MOST_MATERIAL);
    CHECK(ZONES_MOST_MATERIAL, PASSES(zones_map_write(&map, bytes, sizeof bytes)));
    memory.areas[6] = ZONES_MOST_MATERIAL + 1;
    CHECK(ZONES_MOST_MATERIAL, REFUSED(12, zones_map_write(&map, bytes, sizeof bytes)));
}

/* What each kind, role and rule does. */

/* Reads a drawing of every kind, with one of its kinds replaced; coordinates are not 0, so that no byte of a corner would pass as unnamed. */
static uint64_t every_kind(int at, unsigned kind) {
    static const uint8_t kinds[] = {ZONES_KIND_OPEN,  ZONES_KIND_AREA, ZONES_KIND_FIRST,   ZONES_KIND_NEXT, ZONES_KIND_NEXT, ZONES_KIND_BAR,
                                    ZONES_KIND_AREA,  ZONES_KIND_FIRST, ZONES_KIND_CONTROL, ZONES_KIND_NEXT, ZONES_KIND_NEXT, ZONES_KIND_CLOSE};
    for (int k = 0; k < 12; k++) {
        const unsigned here = k == at ? kind : kinds[k];
        if (k == 1 || k == 6) put_area(k == 1, 0, 0, k == 6), file[length - 16] = (uint8_t)here;
        else if ((k >= 2 && k <= 4) || (k >= 7 && k <= 10)) put_corner(here, (uint32_t)k * 100, (uint32_t)k * 100 + 1);
        else put(here);
    }
    return read_file();
}

static int every_kind_passes(int at, uint32_t kind) {
    if (!PASSES(every_kind(-1, 0)) || memory.plan[3 + at] != kind) return 0;
    for (unsigned other = 0; other <= 9; other++)
        if (other != kind && PASSES(every_kind(at, other))) return 0;
    return 1;
}

static int shows(uint32_t x, uint32_t y, uint64_t set) {
    struct zones_spot spot;
    return PASSES(zones_map_open(&map)) && PASSES(zones_map_position(&map, x, y, &spot)) && zones_shown(&spot) == set;
}

/* Two boxes one over the other, one within: the winding is 2 where they overlap. */
static int twice(unsigned rule) {
    put_area(0, rule, 255, 1);
    put_box(0, 0, 40, 40);
    put_box(10, 10, 30, 30);
    return PASSES(read_file());
}

/* Whether a front area of this alpha hides the one behind it. */
static int hides(unsigned alpha) {
    put_area(0, 0, alpha, 1);
    put_box(0, 0, 40, 40);
    put_area(0, 0, 255, 2);
    put_box(0, 0, 40, 40);
    return PASSES(read_file()) && shows(5, 5, 1);
}

static void kinds_roles_rules(void) {
    CHECK(ZONES_KIND_OPEN, every_kind_passes(0, ZONES_KIND_OPEN));
    CHECK(ZONES_KIND_AREA, every_kind_passes(6, ZONES_KIND_AREA));
    CHECK(ZONES_KIND_FIRST, every_kind_passes(7, ZONES_KIND_FIRST));
    CHECK(ZONES_KIND_CONTROL, PASSES(every_kind(-1, 0)) && memory.plan[3 + 8] == ZONES_KIND_CONTROL);
    /* A next corner in its place makes four corners and no curve; of the rest none passes. */
    for (unsigned other = 0; other <= 9; other++)
        CHECK(ZONES_KIND_CONTROL, PASSES(every_kind(8, other)) == (other == 7 || other == 3));
    CHECK(ZONES_KIND_NEXT, every_kind_passes(9, ZONES_KIND_NEXT));
    CHECK(ZONES_KIND_BAR, every_kind_passes(5, ZONES_KIND_BAR));
    CHECK(ZONES_KIND_CLOSE, every_kind_passes(11, ZONES_KIND_CLOSE));
    CHECK(ZONES_KIND_AREA, REFUSED(2, every_kind(6, ZONES_KIND_AREA - 1)));
    CHECK(ZONES_KIND_CONTROL, REFUSED(2, every_kind(8, ZONES_KIND_CONTROL + 1)));

    CHECK(ZONES_ROLE_PAINT, PASSES(paint(ZONES_ROLE_PAINT, 0, 255, 7)) && shows(15, 15, 1));
    CHECK(ZONES_ROLE_CLIP, REFUSED(4, paint(ZONES_ROLE_CLIP, 0, 0, 0)));
    CHECK(ZONES_ROLE_CLIP, REFUSED(3, paint(ZONES_ROLE_CLIP + 1, 0, 0, 0)));
    put(4), put_area(ZONES_ROLE_CLIP, 0, 0, 0), put(5), put(6);
    CHECK(ZONES_ROLE_CLIP, PASSES(read_file()));
    CHECK(ZONES_RULE_NON_ZERO, twice(ZONES_RULE_NON_ZERO) && shows(5, 5, 1) && shows(15, 15, 1));
    CHECK(ZONES_RULE_EVEN_ODD, twice(ZONES_RULE_EVEN_ODD) && shows(5, 5, 1) && shows(15, 15, 0));
    CHECK(ZONES_RULE_EVEN_ODD, !twice(ZONES_RULE_EVEN_ODD + 1));
    CHECK(ZONES_OPAQUE, hides(ZONES_OPAQUE) && !hides(ZONES_OPAQUE - 1));
    paint(0, 0, 9, 9);
    memory.areas[2] = ZONES_OPAQUE;
    CHECK(ZONES_OPAQUE, PASSES(zones_map_write(&map, bytes, sizeof bytes)));
    memory.areas[2] = ZONES_OPAQUE + 1;
    CHECK(ZONES_OPAQUE, REFUSED(12, zones_map_write(&map, bytes, sizeof bytes)));
}

/* Where the bytes of records and the words of the tables stand. */

static void bytes_of_records(void) {
    uint8_t *record = put(0);
    record[ZONES_RECORD_KIND] = 4;
    record = put(5), record = put(0);
    record[ZONES_RECORD_KIND] = 6;
    CHECK(ZONES_RECORD_KIND, PASSES(read_file()) && memory.plan[3] == 4 && memory.plan[5] == 6);

    /* A field set alone shows in its word alone; the others are those of an area that passes. */
    static const uint32_t plain[8] = {0, 0, 0, 0, 0, 0, 1, 0};
    uint32_t expected[8];
#define FIELD(name, word, value)                                                     \
    record = put(1), record[8] = 1, record[name] = (value);                          \
    memcpy(expected, plain, sizeof plain), expected[word] = (value);                 \
    check(#name, PASSES(read_file()) && memcmp(memory.areas, expected, sizeof expected) == 0, __LINE__)
    FIELD(ZONES_RECORD_RULE, 1, 1);
    FIELD(ZONES_RECORD_ALPHA, 2, 201);
    FIELD(ZONES_RECORD_RED, 3, 202);
    FIELD(ZONES_RECORD_GREEN, 4, 203);
    FIELD(ZONES_RECORD_BLUE, 5, 204);
    FIELD(ZONES_RECORD_MATERIAL, 6, 205);
    record = put(1), record[8] = 1, record[ZONES_RECORD_MATERIAL + 1] = 2;
    CHECK(ZONES_RECORD_MATERIAL, PASSES(read_file()) && memory.areas[6] == 513);
    put(4), record = put(1), record[ZONES_RECORD_ROLE] = 1, put(5), put(6);
    CHECK(ZONES_RECORD_ROLE, PASSES(read_file()) && memory.areas[0] == 1);

    put_area(0, 0, 0, 1);
    for (int k = 0; k < 4; k++) {
        record = put(k == 0 ? 2 : 3);
        record[ZONES_RECORD_X] = (uint8_t)(10 + k);
        record[ZONES_RECORD_Y + 1] = (uint8_t)(20 + k);
    }
    const uint64_t answer = read_file();
    CHECK(ZONES_RECORD_X, PASSES(answer) && memory.xs[0] == 10 && memory.xs[3] == 13);
    CHECK(ZONES_RECORD_Y, PASSES(answer) && memory.ys[0] == 20 * 256 && memory.ys[3] == 23 * 256);
}

static void words_of_drawings(void) {
    put_area(0, 1, 201, 205);
    memcpy(file + 4, "\312\313\314", 3);
    put_box(1, 2, 3, 4);
    put(4), put_area(1, 0, 0, 0), put_corner(2, 5, 6), put_corner(3, 7, 8), put_corner(3, 9, 9), put(5), put(6);
    CHECK(ZONES_ACCEPTED, zones_refusal(read_file()) == ZONES_ACCEPTED);
    CHECK(ZONES_PLAN_RECORDS, memory.plan[ZONES_PLAN_RECORDS] == 12);
    CHECK(ZONES_PLAN_AREAS, memory.plan[ZONES_PLAN_AREAS] == 2);
    CHECK(ZONES_PLAN_CORNERS, memory.plan[ZONES_PLAN_CORNERS] == 7);
    CHECK(ZONES_PLAN_COUNTS, memory.plan[ZONES_PLAN_COUNTS] == 1 && memory.plan[ZONES_PLAN_COUNTS + 5] == 4);
    CHECK(ZONES_AREA_RULE, memory.areas[ZONES_AREA_RULE] == 1);
    CHECK(ZONES_AREA_ALPHA, memory.areas[ZONES_AREA_ALPHA] == 201);
    CHECK(ZONES_AREA_RED, memory.areas[ZONES_AREA_RED] == 202);
    CHECK(ZONES_AREA_GREEN, memory.areas[ZONES_AREA_GREEN] == 203);
    CHECK(ZONES_AREA_BLUE, memory.areas[ZONES_AREA_BLUE] == 204);
    CHECK(ZONES_AREA_MATERIAL, memory.areas[ZONES_AREA_MATERIAL] == 205);
    CHECK(ZONES_AREA_ROLE, memory.areas[ZONES_AREA_WORDS + ZONES_AREA_ROLE] == 1);
}

static void lengths_of_drawings(void) {
    map = zones_map_of(&memory);
    map.plan.length = ZONES_PLAN_COUNTS;
    CHECK(ZONES_PLAN_COUNTS, PASSES(zones_map_read(&map, NULL, 0)));
    map.plan.length = ZONES_PLAN_COUNTS - 1;
    CHECK(ZONES_PLAN_COUNTS, REFUSED(11, zones_map_read(&map, NULL, 0)));

    put_area(0, 0, 0, 1);
    CHECK(ZONES_AREA_WORDS, PASSES(read_file()));
    map.areas.length = ZONES_AREA_WORDS;
    CHECK(ZONES_AREA_WORDS, PASSES(zones_map_read(&map, file, 16)));
    map.areas.length = ZONES_AREA_WORDS - 1;
    CHECK(ZONES_AREA_WORDS, REFUSED(11, zones_map_read(&map, file, 16)));

    CHECK(ZONES_PLAN_LENGTH, PASSES(records(4096)) && map.plan.length == ZONES_PLAN_LENGTH);
    map.plan.length = ZONES_PLAN_LENGTH;
    CHECK(ZONES_PLAN_LENGTH, PASSES(zones_map_read(&map, file, 65536)));
    CHECK(ZONES_FILE_BYTES, zones_map_write(&map, bytes, ZONES_FILE_BYTES) == ZONES_FILE_BYTES);
    CHECK(ZONES_FILE_BYTES, REFUSED(11, zones_map_write(&map, bytes, ZONES_FILE_BYTES - 1)));
    CHECK(ZONES_FILE_BYTES, PASSES(zones_map_read(&map, file, ZONES_FILE_BYTES)));
    CHECK(ZONES_FILE_BYTES, REFUSED(1, zones_map_read(&map, file, ZONES_FILE_BYTES + 16)));
    map.plan.length = ZONES_PLAN_LENGTH - 1;
    CHECK(ZONES_PLAN_LENGTH, REFUSED(11, zones_map_read(&map, file, 65536)));

    CHECK(ZONES_AREAS_LENGTH, PASSES(areas(64)) && map.areas.length == ZONES_AREAS_LENGTH);
    map.areas.length = ZONES_AREAS_LENGTH;
    CHECK(ZONES_AREAS_LENGTH, PASSES(zones_map_read(&map, file, 64 * 16)));
    map.areas.length = ZONES_AREAS_LENGTH - 1;
    CHECK(ZONES_AREAS_LENGTH, REFUSED(11, zones_map_read(&map, file, 64 * 16)));

    CHECK(ZONES_CORNERS_LENGTH, PASSES(corners(2048)) && map.xs.length == ZONES_CORNERS_LENGTH && map.ys.length == ZONES_CORNERS_LENGTH);
    map.xs.length = map.ys.length = ZONES_CORNERS_LENGTH;
    CHECK(ZONES_CORNERS_LENGTH, PASSES(zones_map_read(&map, file, 2049 * 16)));
    map.xs.length = ZONES_CORNERS_LENGTH - 1;
    CHECK(ZONES_CORNERS_LENGTH, REFUSED(7, zones_map_read(&map, file, 2049 * 16)));
    map.ys.length = ZONES_CORNERS_LENGTH - 1;
    CHECK(ZONES_CORNERS_LENGTH, REFUSED(11, zones_map_read(&map, file, 2049 * 16)));
}

/* Trees. */

/* A triangle with one side in every quarter of the grid, and its tree: 4 entries. */
static void triangle(void) {
    put_area(0, 0, 100, 77);
    put_corner(2, 1000, 2000), put_corner(3, 60000, 3000), put_corner(3, 5000, 61000);
    read_file();
    zones_map_open(&map);
}

static int finds(void) {
    struct zones_leaf leaf;
    return PASSES(zones_map_find_leaf(&map, 100, 100, &leaf));
}

static int finds_broken(void) {
    struct zones_leaf leaf;
    return REFUSED(12, zones_map_find_leaf(&map, 100, 100, &leaf));
}

static void lengths_of_trees(void) {
    triangle();
    map.head.length = ZONES_HEAD_WORDS;
    map.cells.length = ZONES_CELL_WORDS;
    map.entries.length = 4 * ZONES_ENTRY_WORDS;
    const uint64_t opened = zones_map_open(&map);
    CHECK(ZONES_HEAD_WORDS, opened == 4);
    CHECK(ZONES_CELL_WORDS, opened == 4);
    CHECK(ZONES_ENTRY_WORDS, opened == 4);
    map.head.length--;
    CHECK(ZONES_HEAD_WORDS, REFUSED(11, zones_map_open(&map)));
    map.head.length++, map.cells.length--;
    CHECK(ZONES_CELL_WORDS, REFUSED(11, zones_map_open(&map)));
    map.cells.length++, map.entries.length--;
    CHECK(ZONES_ENTRY_WORDS, REFUSED(11, zones_map_open(&map)));

    triangle();
    map.cells.length = ZONES_CELL_WORDS * (1 + ZONES_CHILDREN) - 1;
    CHECK(ZONES_CHILDREN, REFUSED(11, zones_map_split(&map, 0)));
    map.cells.length++;
    CHECK(ZONES_CHILDREN, zones_map_split(&map, 0) == 1 && memory.head[0] == 1 + ZONES_CHILDREN);

    /* Whatever is in use, up to what the table and the limit hold. */
    triangle();
    memcpy(cells_beyond, memory.cells, sizeof memory.cells);
    memcpy(entries_beyond, memory.entries, sizeof memory.entries);
    map.cells.words = cells_beyond, map.cells.length = sizeof cells_beyond / 4;
    map.entries.words = entries_beyond, map.entries.length = sizeof entries_beyond / 4;
    memory.head[0] = ZONES_MOST_CELLS;
    CHECK(ZONES_MOST_CELLS, finds());
    memory.head[0] = ZONES_MOST_CELLS + 1;
    CHECK(ZONES_MOST_CELLS, finds_broken());
    memory.head[0] = 4096;
    map.cells.length = ZONES_CELLS_LENGTH;
    CHECK(ZONES_CELLS_LENGTH, finds());
    map.cells.length = ZONES_CELLS_LENGTH - 1;
    CHECK(ZONES_CELLS_LENGTH, finds_broken());
    memory.head[0] = 1;
    memory.head[1] = ZONES_MOST_ENTRIES;
    CHECK(ZONES_MOST_ENTRIES, finds());
    memory.head[1] = ZONES_MOST_ENTRIES + 1;
    CHECK(ZONES_MOST_ENTRIES, finds_broken());
    memory.head[1] = 65536;
    map.entries.length = ZONES_ENTRIES_LENGTH;
    CHECK(ZONES_ENTRIES_LENGTH, finds());
    map.entries.length = ZONES_ENTRIES_LENGTH - 1;
    CHECK(ZONES_ENTRIES_LENGTH, finds_broken());
}

static void words_of_trees(void) {
    triangle();
    CHECK(ZONES_GRID_SIDE, memory.cells[ZONES_CELL_SIDE] == ZONES_GRID_SIDE && finds());
    memory.cells[ZONES_CELL_SIDE] = ZONES_GRID_SIDE / 2;
    CHECK(ZONES_GRID_SIDE, finds_broken());
    triangle();
    CHECK(ZONES_HEAD_CELLS, memory.head[ZONES_HEAD_CELLS] == 1);
    CHECK(ZONES_HEAD_ENTRIES, memory.head[ZONES_HEAD_ENTRIES] == 4);
    zones_map_split(&map, 0);
    const uint32_t *cell = memory.cells + 2 * ZONES_CELL_WORDS, *next = memory.cells + 3 * ZONES_CELL_WORDS;
    CHECK(ZONES_HEAD_CELLS, memory.head[ZONES_HEAD_CELLS] == 5);
    CHECK(ZONES_HEAD_ENTRIES, memory.head[ZONES_HEAD_ENTRIES] > 8);
    CHECK(ZONES_CELL_X, cell[ZONES_CELL_X] == 32768 && next[ZONES_CELL_X] == 0);
    CHECK(ZONES_CELL_Y, cell[ZONES_CELL_Y] == 0 && next[ZONES_CELL_Y] == 32768);
    CHECK(ZONES_CELL_SIDE, cell[ZONES_CELL_SIDE] == 32768);
    CHECK(ZONES_CELL_WORDS, cell[ZONES_CELL_X] == 32768 && next[ZONES_CELL_Y] == 32768);
    CHECK(ZONES_CELL_CHILD, memory.cells[ZONES_CELL_CHILD] == 1 && cell[ZONES_CELL_CHILD] == 0);
    CHECK(ZONES_CELL_FIRST, memory.cells[ZONES_CELL_FIRST] == 0 && memory.cells[ZONES_CELL_WORDS + ZONES_CELL_FIRST] == 4);
    CHECK(ZONES_CELL_COUNT, memory.cells[ZONES_CELL_COUNT] == 4);
    CHECK(ZONES_CELL_COUNT, next[ZONES_CELL_FIRST] == cell[ZONES_CELL_FIRST] + cell[ZONES_CELL_COUNT] && cell[ZONES_CELL_COUNT] > 1);
    /* Of the three sides the first quarter keeps all, the next two keep two each, the last none. */
    CHECK(ZONES_CELL_LINES, memory.cells[ZONES_CELL_LINES] == 3 && memory.cells[ZONES_CELL_WORDS + ZONES_CELL_LINES] == 3);
    CHECK(ZONES_CELL_LINES, cell[ZONES_CELL_LINES] == 2 && next[ZONES_CELL_LINES] == 2 && next[ZONES_CELL_WORDS + ZONES_CELL_LINES] == 0);
    CHECK(ZONES_CELL_PARENT, memory.cells[ZONES_CELL_PARENT] == 0 && cell[ZONES_CELL_PARENT] == 0 && next[ZONES_CELL_PARENT] == 0);
    zones_map_split(&map, 3);
    for (int k = 5; k < 9; k++) CHECK(ZONES_CELL_PARENT, memory.cells[ZONES_CELL_WORDS * k + ZONES_CELL_PARENT] == 3);
    CHECK(ZONES_CELL_PARENT, next[ZONES_CELL_PARENT] == 0 && next[ZONES_CELL_CHILD] == 5);
    CHECK(ZONES_CELL_LINES, next[ZONES_CELL_LINES] == 2 && finds());

    /* (100, 100) lies in cell 1. Its count is compared with its stream, that of cell 0, which is split, is not. */
    memory.cells[ZONES_CELL_LINES] = 77;
    CHECK(ZONES_CELL_LINES, finds());
    memory.cells[ZONES_CELL_WORDS + ZONES_CELL_LINES] = 2;
    CHECK(ZONES_CELL_LINES, finds_broken() && REFUSED(12, zones_map_split(&map, 1)));
    memory.cells[ZONES_CELL_WORDS + ZONES_CELL_LINES] = 3;
    CHECK(ZONES_CELL_LINES, finds());
    /* Cell 3 is split, but cell 1 is none of its four. */
    memory.cells[ZONES_CELL_WORDS + ZONES_CELL_PARENT] = 3;
    CHECK(ZONES_CELL_PARENT, finds_broken() && REFUSED(12, zones_map_split(&map, 1)) && REFUSED(12, zones_map_grow(&map, 9, 9)));
    triangle();
    memory.cells[ZONES_CELL_PARENT] = 1;
    CHECK(ZONES_CELL_PARENT, finds_broken() && REFUSED(12, zones_map_split(&map, 0)) && REFUSED(12, zones_map_grow(&map, 9, 9)));
    /* Growing takes the lines from the word, and compares them where it splits. */
    triangle();
    memory.cells[ZONES_CELL_LINES] = 2;
    CHECK(ZONES_CELL_LINES, zones_map_grow(&map, 2, 8) == 0 && REFUSED(12, zones_map_grow(&map, 1, 8)));
    memory.cells[ZONES_CELL_LINES] = 4;
    CHECK(ZONES_CELL_LINES, zones_map_grow(&map, 4, 8) == 0 && REFUSED(12, zones_map_grow(&map, 3, 8)));
    memory.cells[ZONES_CELL_LINES] = 3;
    CHECK(ZONES_CELL_LINES, zones_map_grow(&map, 3, 8) == 0 && zones_map_grow(&map, 2, 1) == 1);

    struct zones_leaf leaf;
    triangle();
    for (uint32_t k = 0; k < ZONES_MOST_DEPTH; k++) {
        zones_map_find_leaf(&map, 9, 9, &leaf);
        CHECK(ZONES_MOST_DEPTH, leaf.steps == k && PASSES(zones_map_split(&map, leaf.cell)));
    }
    CHECK(ZONES_MOST_DEPTH, PASSES(zones_map_find_leaf(&map, 9, 9, &leaf)) && leaf.steps == ZONES_MOST_DEPTH && leaf.side == 1);
    CHECK(ZONES_REFUSAL_SMALLEST, REFUSED(ZONES_REFUSAL_SMALLEST, zones_map_split(&map, leaf.cell)));
    CHECK(ZONES_MOST_DEPTH, PASSES(zones_map_grow(&map, 1000, ZONES_MOST_DEPTH)));
    CHECK(ZONES_MOST_DEPTH, REFUSED(7, zones_map_grow(&map, 1000, ZONES_MOST_DEPTH + 1)));

    triangle();
    map.cells.length = 8 * 7;
    const uint64_t full = zones_map_grow(&map, 0, 2);
    CHECK(ZONES_FULL, full == ZONES_FULL + 1 && full == 0x80000001u && zones_full(full) && zones_splits(full) == 1);
    map.cells.length = ZONES_CELLS_LENGTH;
    const uint64_t done = zones_map_grow(&map, 0, 2);
    CHECK(ZONES_FULL, (done & ZONES_FULL) == 0 && PASSES(done) && !zones_full(done) && zones_splits(done) == done && done > 0);
}

/* Streams that are written here: what an entry says. */

static uint32_t count;

static uint32_t *put_entry(uint32_t kind) {
    uint32_t *entry = memory.entries + ZONES_ENTRY_WORDS * count;
    memset(entry, 0, ZONES_ENTRY_WORDS * sizeof *entry);
    entry[ZONES_ENTRY_KIND] = kind;
    memory.cells[ZONES_CELL_COUNT] = memory.head[ZONES_HEAD_ENTRIES] = ++count;
    memory.cells[ZONES_CELL_LINES] += kind == ZONES_STREAM_LINE || kind == ZONES_STREAM_CURVE;
    return entry;
}

/* A stream of nothing over a drawing of three paint areas and one corner set: (0,0) (4000,2000) (4000,4000), which are a curve as well. */
static void no_entries(void) {
    for (unsigned k = 0; k < 3; k++) put_area(0, 0, 100, k + 1);
    put_corner(2, 100, 0), put_corner(3, 4000, 0), put_corner(3, 4000, 4000);
    read_file();
    zones_map_open(&map);
    count = 0;
    memory.cells[ZONES_CELL_COUNT] = memory.cells[ZONES_CELL_LINES] = memory.head[ZONES_HEAD_ENTRIES] = 0;
}

static uint64_t set_at(uint32_t x, uint32_t y) {
    struct zones_spot spot;
    const uint64_t answer = zones_map_position(&map, x, y, &spot);
    return PASSES(answer) ? zones_shown(&spot) : zones_refusal(answer) << 8;
}

static uint64_t of_kind(uint32_t kind) {
    no_entries();
    put_entry(kind);
    return set_at(0, 0);
}

static void entries(void) {
    uint32_t *entry;
    no_entries();
    put_entry(ZONES_STREAM_OPEN);
    put_entry(ZONES_STREAM_PASSES);
    put_entry(ZONES_STREAM_BAR);
    entry = put_entry(ZONES_STREAM_AREA);
    entry[ZONES_ENTRY_NUMBER] = 2;
    entry[ZONES_ENTRY_START] = 1;
    put_entry(ZONES_STREAM_CLOSE);
    const uint64_t shown = set_at(9, 9);
    CHECK(ZONES_ENTRY_KIND, shown == 4 && memory.entries[0] == 1 && memory.entries[4] == 7 && memory.entries[8] == 2);
    CHECK(ZONES_ENTRY_WORDS, shown == 4);
    CHECK(ZONES_STREAM_OPEN, shown == 4 && of_kind(ZONES_STREAM_OPEN) == 12 << 8);
    CHECK(ZONES_STREAM_PASSES, shown == 4 && of_kind(ZONES_STREAM_PASSES) == 12 << 8);
    CHECK(ZONES_STREAM_BAR, shown == 4 && of_kind(ZONES_STREAM_BAR) == 12 << 8);
    CHECK(ZONES_STREAM_CLOSE, shown == 4 && of_kind(ZONES_STREAM_CLOSE) == 12 << 8);
    CHECK(ZONES_STREAM_AREA, shown == 4 && of_kind(ZONES_STREAM_AREA) == 0);
    CHECK(ZONES_STREAM_OPEN, of_kind(ZONES_STREAM_OPEN - 1) == 12 << 8);
    CHECK(ZONES_ENTRY_NUMBER, shown == 4);

    for (int sign = -1; sign < 2; sign += 2) {
        for (uint32_t more = 0; more < 2; more++) {
            no_entries();
            entry = put_entry(ZONES_STREAM_AREA);
            entry[ZONES_ENTRY_START] = (uint32_t)(sign * (int)(ZONES_MOST_START + more));
            CHECK(ZONES_MOST_START, set_at(9, 9) == (more == 0 ? 1u : 12u << 8));
            CHECK(ZONES_ENTRY_START, set_at(9, 9) == (more == 0 ? 1u : 12u << 8));
        }
    }

    /* Rows 10 to 19. With the start number 1 the sign -1 takes the area away there, +1 does not. */
    for (uint32_t start = 0; start < 2; start++) {
        no_entries();
        entry = put_entry(ZONES_STREAM_AREA);
        entry[ZONES_ENTRY_START] = start;
        entry = put_entry(ZONES_STREAM_SHORTCUT);
        entry[ZONES_ENTRY_SIGN] = 0u - 1u;
        entry[ZONES_ENTRY_ROW] = 10;
        entry[ZONES_ENTRY_END] = 20;
        const int outside = set_at(5, 9) == start && set_at(5, 20) == start, inside = set_at(5, 10) == 1 - start && set_at(5, 19) == 1 - start;
        CHECK(ZONES_STREAM_SHORTCUT, outside && inside);
        CHECK(ZONES_ENTRY_SIGN, outside && inside);
        CHECK(ZONES_ENTRY_ROW, outside && inside);
        CHECK(ZONES_ENTRY_END, outside && inside);
    }

    /* The line from corner 0 to corner 2, straight to (4000, 4000), and the curve over corner 1 that bulges to the right. */
    no_entries();
    put_entry(ZONES_STREAM_AREA);
    entry = put_entry(ZONES_STREAM_LINE);
    entry[ZONES_ENTRY_FROM] = 0;
    entry[ZONES_ENTRY_TO] = 2;
    const int line = set_at(1500, 2000) == 1 && set_at(2500, 2000) == 0 && set_at(0, 4000) == 0;
    CHECK(ZONES_STREAM_LINE, line);
    CHECK(ZONES_ENTRY_TO, line);
    entry[ZONES_ENTRY_FROM] = 1;
    CHECK(ZONES_ENTRY_FROM, line && set_at(3999, 2000) == 1);
    entry[ZONES_ENTRY_FROM] = 3;
    CHECK(ZONES_ENTRY_FROM, set_at(9, 9) == 12 << 8);
    no_entries();
    put_entry(ZONES_STREAM_AREA);
    put_entry(ZONES_STREAM_CURVE);
    CHECK(ZONES_STREAM_CURVE, set_at(2500, 2000) == 1 && set_at(3999, 2000) == 0);
    memory.entries[4 + ZONES_ENTRY_FROM] = 1;
    CHECK(ZONES_STREAM_CURVE, set_at(9, 9) == 12 << 8);
    CHECK(ZONES_STREAM_CURVE, of_kind(ZONES_STREAM_CURVE + 1) == 12 << 8);
}

/* What is read from a tree. */

static void positions(void) {
    uint32_t out[12];
    for (unsigned k = 0; k < 41; k++) {
        put_area(0, 0, k == 0 ? 128 : 255, k + 300);
        if (k == 0) memcpy(file + 4, "\377\000\000", 3);
        if (k == 40) file[length - 16 + 5] = 255;
        if (k == 0 || k == 40) put_box(0, 0, 40000, 50000);
    }
    read_file();
    zones_map_open(&map);
#define ASK(x, y, words) zones_position(ZONES_LEND_DRAWING(&map), ZONES_LEND_TREE(&map), x, y, out, words)
    CHECK(ZONES_MOST_POSITION, PASSES(ASK(ZONES_MOST_POSITION, ZONES_MOST_POSITION, 10)));
    CHECK(ZONES_MOST_POSITION, REFUSED(7, ASK(ZONES_MOST_POSITION + 1, 0, 10)) && REFUSED(7, ASK(0, ZONES_MOST_POSITION + 1, 10)));
    CHECK(ZONES_POSITION_WORDS, ASK(1, 1, ZONES_POSITION_WORDS) == 300 && REFUSED(11, ASK(1, 1, ZONES_POSITION_WORDS - 1)));
    CHECK(ZONES_POSITION_SET_LOW, out[ZONES_POSITION_SET_LOW] == 1);
    CHECK(ZONES_POSITION_SET_HIGH, out[ZONES_POSITION_SET_HIGH] == 1 << 8);
    CHECK(ZONES_POSITION_MATERIAL, out[ZONES_POSITION_MATERIAL] == 300);
    CHECK(ZONES_POSITION_RED, out[ZONES_POSITION_RED] == 128);
    CHECK(ZONES_POSITION_GREEN, out[ZONES_POSITION_GREEN] == 127);
    CHECK(ZONES_POSITION_BLUE, out[ZONES_POSITION_BLUE] == 0);
    /* The sides of the box are in the stream of cell 0, none in that of the low quarter, and none in that of a cell to its right. */
    CHECK(ZONES_POSITION_UNIFORM, out[ZONES_POSITION_UNIFORM] == 0);
    zones_map_split(&map, 0);
    zones_map_split(&map, 4);
    ASK(50000, 33000, ZONES_POSITION_WORDS);
    CHECK(ZONES_POSITION_UNIFORM, out[ZONES_POSITION_UNIFORM] == 1);
    CHECK(ZONES_POSITION_BLUE, out[ZONES_POSITION_BLUE] == 255);
    CHECK(ZONES_POSITION_X, out[ZONES_POSITION_X] == 49152);
    CHECK(ZONES_POSITION_Y, out[ZONES_POSITION_Y] == 32768);
    CHECK(ZONES_POSITION_SIDE, out[ZONES_POSITION_SIDE] == 16384);
    ASK(1, 1, ZONES_POSITION_WORDS);
    CHECK(ZONES_POSITION_UNIFORM, out[ZONES_POSITION_UNIFORM] == 1 && out[ZONES_POSITION_SIDE] == 32768 && out[ZONES_POSITION_SET_HIGH] == 1 << 8);

    triangle();
    zones_map_split(&map, 0);
    zones_map_split(&map, 4);
#define FIND(words) zones_find_leaf(ZONES_LEND_DRAWING(&map), ZONES_LEND_TREE(&map), 50000, 33000, out, words)
    CHECK(ZONES_LEAF_WORDS, FIND(ZONES_LEAF_WORDS) == 6 && REFUSED(11, FIND(ZONES_LEAF_WORDS - 1)));
    CHECK(ZONES_LEAF_CELL, out[ZONES_LEAF_CELL] == 6);
    CHECK(ZONES_LEAF_X, out[ZONES_LEAF_X] == 49152);
    CHECK(ZONES_LEAF_Y, out[ZONES_LEAF_Y] == 32768);
    CHECK(ZONES_LEAF_SIDE, out[ZONES_LEAF_SIDE] == 16384);
    CHECK(ZONES_LEAF_STEPS, out[ZONES_LEAF_STEPS] == 2);
    CHECK(ZONES_LEAF_UNIFORM, out[ZONES_LEAF_UNIFORM] == 1);
    triangle();
    FIND(ZONES_LEAF_WORDS);
    CHECK(ZONES_LEAF_ENTRIES, out[ZONES_LEAF_ENTRIES] == 4);
    CHECK(ZONES_LEAF_LINES, out[ZONES_LEAF_LINES] == 3);
    CHECK(ZONES_LEAF_UNIFORM, out[ZONES_LEAF_UNIFORM] == 0);
}

static void pixels(void) {
    static uint8_t out[3 * 4100];
    const uint8_t *pixel;
    put_area(0, 0, 255, 1);
    memcpy(file + 4, "\012\024\036", 3);
    put_box(5 * ZONES_PIXEL_UNITS, 7 * ZONES_PIXEL_UNITS, 6 * ZONES_PIXEL_UNITS, 8 * ZONES_PIXEL_UNITS);
    read_file();
    zones_map_open(&map);
    for (uint32_t row = 6; row < 9; row++) {
        memset(out, 0, sizeof out);
        CHECK(ZONES_PIXEL_UNITS, PASSES(zones_map_pixel_row(&map, row, 4, out, 9)));
        pixel = out + ZONES_PIXEL_BYTES;
        CHECK(ZONES_PIXEL_UNITS, out[0] == 255 && out[2] == 255 && out[6] == 255 && out[8] == 255 && (pixel[0] == 10) == (row == 7));
        CHECK(ZONES_PIXEL_RED, pixel[ZONES_PIXEL_RED] == (row == 7 ? 10 : 255));
        CHECK(ZONES_PIXEL_GREEN, pixel[ZONES_PIXEL_GREEN] == (row == 7 ? 20 : 255));
        CHECK(ZONES_PIXEL_BLUE, pixel[ZONES_PIXEL_BLUE] == (row == 7 ? 30 : 255));
    }
    CHECK(ZONES_PIXEL_BYTES, PASSES(zones_map_pixel_row(&map, 0, 0, out, ZONES_PIXEL_BYTES)));
    CHECK(ZONES_PIXEL_BYTES, REFUSED(7, zones_map_pixel_row(&map, 0, 0, out, ZONES_PIXEL_BYTES - 1)));
    CHECK(ZONES_PIXEL_BYTES, REFUSED(7, zones_map_pixel_row(&map, 0, 0, out, ZONES_PIXEL_BYTES + 1)));
    CHECK(ZONES_PIXELS, PASSES(zones_map_pixel_row(&map, ZONES_PIXELS - 1, 0, out, 3 * ZONES_PIXELS)));
    CHECK(ZONES_PIXELS, REFUSED(7, zones_map_pixel_row(&map, ZONES_PIXELS, 0, out, 3)));
    CHECK(ZONES_PIXELS, REFUSED(7, zones_map_pixel_row(&map, 0, 0, out, 3 * (ZONES_PIXELS + 1))));
    CHECK(ZONES_PIXELS, PASSES(zones_map_pixel_row(&map, 0, ZONES_PIXELS - 1, out, 3)));
    CHECK(ZONES_PIXELS, REFUSED(7, zones_map_pixel_row(&map, 0, ZONES_PIXELS, out, 3)));
    CHECK(ZONES_PIXELS, ZONES_PIXELS * ZONES_PIXEL_UNITS == ZONES_GRID_SIDE);
}

/* Each refusal by its name. */

static void refusals(void) {
    struct zones_spot spot;
    map = zones_map_of(&memory);
    CHECK(ZONES_REFUSAL_LENGTH, REFUSED(ZONES_REFUSAL_LENGTH, zones_map_read(&map, file, 5)));
    put(99);
    CHECK(ZONES_REFUSAL_KIND, REFUSED(ZONES_REFUSAL_KIND, read_file()));
    put(4)[1] = 1;
    CHECK(ZONES_REFUSAL_FIELD, REFUSED(ZONES_REFUSAL_FIELD, read_file()));
    put(6);
    CHECK(ZONES_REFUSAL_UNFIT, REFUSED(ZONES_REFUSAL_UNFIT, read_file()));
    put(4);
    const uint64_t open_group = read_file();
    CHECK(ZONES_REFUSAL_UNFIT, REFUSED(ZONES_REFUSAL_UNFIT, open_group) && zones_place(open_group) == 1);
    CHECK(ZONES_REFUSAL_SHORT, REFUSED(ZONES_REFUSAL_SHORT, corners(2)));
    CHECK(ZONES_REFUSAL_LIMIT, REFUSED(ZONES_REFUSAL_LIMIT, areas(65)) && zones_place(areas(65)) == 64);
    CHECK(ZONES_REFUSAL_CURVE, REFUSED(ZONES_REFUSAL_CURVE, curve(5000, 1)) && zones_place(curve(5000, 1)) == 3);
    triangle();
    CHECK(ZONES_REFUSAL_ARGUMENT, REFUSED(ZONES_REFUSAL_ARGUMENT, zones_map_position(&map, 65536, 0, &spot)));
    CHECK(ZONES_REFUSAL_NO_CELL, REFUSED(ZONES_REFUSAL_NO_CELL, zones_map_split(&map, 1)));
    zones_map_split(&map, 0);
    CHECK(ZONES_REFUSAL_ALREADY_SPLIT, REFUSED(ZONES_REFUSAL_ALREADY_SPLIT, zones_map_split(&map, 0)));
    CHECK(ZONES_REFUSAL_ROOM, REFUSED(ZONES_REFUSAL_ROOM, zones_map_write(&map, bytes, 63)) && zones_map_write(&map, bytes, 64) == 64);
    memory.head[0] = 0;
    CHECK(ZONES_REFUSAL_BROKEN, REFUSED(ZONES_REFUSAL_BROKEN, zones_map_position(&map, 0, 0, &spot)));
    /* Every number from 0 to 13 has a text of its own, and 14 the one for what is none. */
    for (uint32_t k = 0; k <= ZONES_REFUSAL_CURVE + 1; k++)
        for (uint32_t other = 0; other < k; other++)
            CHECK(ZONES_REFUSAL_CURVE, strcmp(zones_refusal_text(k), zones_refusal_text(other)) != 0);
    CHECK(ZONES_REFUSAL_CURVE, strcmp(zones_refusal_text(14), zones_refusal_text(4294967295u)) == 0);
}

/* Tables of other lengths by the two macros, and the struct at the limits. */

static void tables(void) {
    static struct { ZONES_TABLES(10, 2, 7, 5, 40) } small;
    struct zones_map tight = ZONES_MAP_OF(small), whole = zones_map_of(&memory);
    CHECK(ZONES_TABLES, tight.plan.length == 13 && tight.areas.length == 16 && tight.xs.length == 7 && tight.ys.length == 7);
    CHECK(ZONES_TABLES, tight.head.length == 2 && tight.cells.length == 40 && tight.entries.length == 160);
    CHECK(ZONES_MAP_OF, tight.plan.words == small.plan && tight.areas.words == small.areas && tight.xs.words == small.xs && tight.ys.words == small.ys);
    CHECK(ZONES_MAP_OF, tight.head.words == small.head && tight.cells.words == small.cells && tight.entries.words == small.entries);
    CHECK(ZONES_TABLES, whole.plan.length == ZONES_PLAN_LENGTH && whole.areas.length == ZONES_AREAS_LENGTH);
    CHECK(ZONES_TABLES, whole.xs.length == ZONES_CORNERS_LENGTH && whole.ys.length == ZONES_CORNERS_LENGTH && whole.head.length == ZONES_HEAD_WORDS);
    CHECK(ZONES_TABLES, whole.cells.length == ZONES_CELLS_LENGTH && whole.entries.length == ZONES_ENTRIES_LENGTH);
    /* 10 records, 2 areas, 7 corners, and a tree of 5 cells: all of it fits, and not a word less would do for the drawing. */
    put_area(0, 0, 9, 1), put_box(0, 0, 9, 9), put_area(0, 0, 9, 1), put_corner(2, 1, 1), put_corner(3, 4, 5), put_corner(3, 2, 9);
    put_area(0, 0, 9, 1);
    CHECK(ZONES_TABLES, PASSES(zones_map_read(&tight, file, 9 * 16)) && REFUSED(11, zones_map_read(&tight, file, 10 * 16)));
    length = 0;
    CHECK(ZONES_MAP_OF, PASSES(zones_map_open(&tight)) && zones_map_split(&tight, 0) == 1 && REFUSED(11, zones_map_split(&tight, 1)));
    CHECK(ZONES_LEND, zones_read(file, 9 * 16, ZONES_LEND(tight.plan), ZONES_LEND(tight.areas), ZONES_LEND(tight.xs), ZONES_LEND(tight.ys)) == 9);
    CHECK(ZONES_LEND_DRAWING, zones_write(ZONES_LEND_DRAWING(&tight), bytes, sizeof bytes) == 9 * 16);
    CHECK(ZONES_LEND_TREE, zones_open(ZONES_LEND_DRAWING(&tight), ZONES_LEND_TREE(&tight)) == 6);
}

int main(void) {
    limits_of_files();
    kinds_roles_rules();
    bytes_of_records();
    words_of_drawings();
    lengths_of_drawings();
    lengths_of_trees();
    words_of_trees();
    entries();
    positions();
    pixels();
    refusals();
    tables();
    return wrong;
}
