/* A program that compiles with CHANGE 0. With any other CHANGE, one thing is exchanged, and it does not: tables for one another, a map for the memory, a
 * leaf for a spot, a table for its words, a map that is not to be written. */
#include "zones.h"

#ifndef CHANGE
#define CHANGE 0
#endif

#define IS(n) (CHANGE == (n))

int exchanged(struct zones_memory *memory, const uint8_t *file, zones_length length);

int exchanged(struct zones_memory *memory, const uint8_t *file, zones_length length) {
    struct zones_map map = zones_map_of(memory), small = map;
    struct zones_leaf leaf;
    struct zones_spot spot;
    uint64_t answer = 0;

#if IS(1)
    small.xs = map.ys;
#else
    small.xs = map.xs;
#endif
#if IS(2)
    small.plan = map.areas;
#else
    small.plan = map.plan;
#endif
#if IS(3)
    small.cells = map.entries;
#else
    small.cells = map.cells;
#endif
#if IS(4)
    small.head = map.plan;
#else
    small.head = map.head;
#endif
#if IS(5)
    small.entries = map.cells;
#else
    small.entries = map.entries;
#endif
#if IS(6)
    small.areas = map.xs;
#else
    small.areas = map.areas;
#endif
#if IS(7)
    const struct zones_map built = {map.plan, map.areas, map.ys, map.xs, map.head, map.cells, map.entries};
#else
    const struct zones_map built = {map.plan, map.areas, map.xs, map.ys, map.head, map.cells, map.entries};
#endif
#if IS(8)
    answer |= zones_map_read(memory, file, length);
#else
    answer |= zones_map_read(&map, file, length);
#endif
#if IS(9)
    answer |= zones_map_open(&built);
#else
    answer |= zones_map_open(&small);
#endif
#if IS(10)
    answer |= zones_map_position(&built, 1, 2, &leaf);
#else
    answer |= zones_map_position(&built, 1, 2, &spot);
#endif
#if IS(11)
    answer |= zones_map_find_leaf(&built, 1, 2, &spot);
#else
    answer |= zones_map_find_leaf(&built, 1, 2, &leaf);
#endif
#if IS(12)
    small.xs.words = map.xs;
#else
    small.xs.words = map.xs.words;
#endif
    return zones_refusal(answer) == ZONES_ACCEPTED && leaf.lines < 9 && zones_shows(&spot, 3);
}
