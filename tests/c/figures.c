/* figures NAME FILE ...: what each drawing needs with the advised numbers, as the header has it: records, areas, corners, cells and entries in use, and
 * the bytes of tables just so long. Then the size of the tables at the limits. */
#include "zones.h"

#include <stdio.h>

static struct zones_memory memory;
static uint8_t file[ZONES_FILE_BYTES + 1];

int main(int argc, char **argv) {
    struct zones_map map = zones_map_of(&memory);
    for (int k = 1; k + 1 < argc; k += 2) {
        FILE *drawing = fopen(argv[k + 1], "rb");
        if (drawing == NULL) return 2;
        const size_t length = fread(file, 1, sizeof file, drawing);
        fclose(drawing);
        if (zones_refusal(zones_map_read(&map, file, length)) != 0 || zones_refusal(zones_map_open(&map)) != 0) return 1;
        const uint64_t grown = zones_map_grow(&map, ZONES_ADVISED_THRESHOLD, ZONES_ADVISED_DEPTH);
        if (zones_refusal(grown) != 0) return 1;
        const unsigned records = memory.plan[ZONES_PLAN_RECORDS], areas = memory.plan[ZONES_PLAN_AREAS], corners = memory.plan[ZONES_PLAN_CORNERS];
        const unsigned cells = memory.head[ZONES_HEAD_CELLS], entries = memory.head[ZONES_HEAD_ENTRIES];
        const unsigned words = ZONES_PLAN_COUNTS + records + ZONES_AREA_WORDS * areas + 2 * corners + ZONES_HEAD_WORDS + ZONES_CELL_WORDS * cells +
                               ZONES_ENTRY_WORDS * entries;
        printf("%s %u %u %u %u %u %u %s\n", argv[k], records, areas, corners, cells, entries, 4 * words, zones_full(grown) ? "full" : "done");
    }
    printf("limits %u\n", (unsigned)sizeof memory);
    return 0;
}
