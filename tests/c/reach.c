/* reach NAME FILE ...: of each drawing, the percentage of the grid that lies in uniform leaves, as the header has it: with thresholds 2, 1 and 0 and depth
 * limit 8, in tables at the limits. */
#include "zones.h"

#include <stdio.h>

static struct zones_memory memory;
static uint8_t file[ZONES_FILE_BYTES + 1];

/* Of a tree, in parts of a thousand. */
static unsigned uniform(const struct zones_map *map) {
    uint64_t squares = 0;
    for (uint32_t k = 0; k < memory.head[ZONES_HEAD_CELLS]; k++) {
        const uint32_t *cell = memory.cells + ZONES_CELL_WORDS * k;
        struct zones_leaf leaf;
        if (cell[ZONES_CELL_CHILD] != 0) continue;
        if (zones_refusal(zones_map_find_leaf(map, cell[ZONES_CELL_X], cell[ZONES_CELL_Y], &leaf)) != 0 || leaf.cell != k) return 9999;
        if (leaf.uniform) squares += (uint64_t)leaf.side * leaf.side;
    }
    return (unsigned)((squares * 1000 + (1u << 31)) >> 32);
}

int main(int argc, char **argv) {
    struct zones_map map = zones_map_of(&memory);
    for (int k = 1; k + 1 < argc; k += 2) {
        FILE *drawing = fopen(argv[k + 1], "rb");
        if (drawing == NULL) return 2;
        const size_t length = fread(file, 1, sizeof file, drawing);
        fclose(drawing);
        printf("%s", argv[k]);
        for (uint32_t threshold = 3; threshold-- > 0;) {
            if (zones_refusal(zones_map_read(&map, file, length)) != 0 || zones_refusal(zones_map_open(&map)) != 0) return 1;
            if (zones_refusal(zones_map_grow(&map, threshold, ZONES_ADVISED_DEPTH)) != 0) return 1;
            const unsigned part = uniform(&map);
            printf(" %u.%u", part / 10, part % 10);
        }
        printf("\n");
    }
    return 0;
}
