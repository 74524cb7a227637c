/* where DRAWING X Y: which area a position lies in. Reads a file of records, opens and grows a tree over it, and asks for the position. Where the answer
 * is that of each position of a square, a second line says which. Exit status: 1 where the library refuses, 2 where the arguments or the file are no use.
 *
 *     cc -O2 -Iinclude samples/where.c crates/zones/out/libzones.a -o target/where
 *     target/where samples/pit.zones 40000 30000
 */
#include "zones.h"

#include <stdio.h>

static struct zones_memory memory;
/* One byte more than the longest drawing has: a longer file is not cut, the library refuses its length. */
static uint8_t file[ZONES_FILE_BYTES + 1];

/* Whether a word is a whole number of 32 bits, in digits alone; and the number. */
static int is_number(const char *word, uint32_t *number) {
    uint64_t value = 0;
    if (*word == '\0') return 0;
    for (; *word != '\0'; word++) {
        if (*word < '0' || *word > '9') return 0;
        value = value * 10 + (uint64_t)(*word - '0');
        if (value > UINT32_MAX) return 0;
    }
    *number = (uint32_t)value;
    return 1;
}

static int refused(const char *call, uint64_t answer) {
    const uint32_t number = zones_refusal(answer);
    if (number == ZONES_ACCEPTED) return 0;
    printf("%s refused %u at %u: %s\n", call, (unsigned)number, (unsigned)zones_place(answer), zones_refusal_text(number));
    return 1;
}

int main(int argc, char **argv) {
    uint32_t place[2];
    if (argc != 4) {
        fprintf(stderr, "usage: where DRAWING X Y\n");
        return 2;
    }
    for (int k = 0; k < 2; k++) {
        if (!is_number(argv[2 + k], &place[k])) {
            fprintf(stderr, "where: %c is '%s', which is no number: give digits alone, 0 to %d\n", "XY"[k], argv[2 + k], ZONES_MOST_POSITION);
            return 2;
        }
    }
    FILE *drawing = fopen(argv[1], "rb");
    if (drawing == NULL) {
        perror(argv[1]);
        return 2;
    }
    const size_t length = fread(file, 1, sizeof file, drawing);
    if (ferror(drawing)) {
        perror(argv[1]);
        return 2;
    }
    fclose(drawing);

    struct zones_map map = zones_map_of(&memory);
    struct zones_spot spot;
    if (refused("read", zones_map_read(&map, file, length))) return 1;
    if (refused("open", zones_map_open(&map))) return 1;
    /* A tree that is full answers as well as one that is done. */
    if (refused("grow", zones_map_grow(&map, ZONES_ADVISED_THRESHOLD, ZONES_ADVISED_DEPTH))) return 1;
    if (refused("position", zones_map_position(&map, place[0], place[1], &spot))) return 1;
    printf("material %u, colour %u %u %u\n", (unsigned)spot.material, (unsigned)spot.colour[0], (unsigned)spot.colour[1],
           (unsigned)spot.colour[2]);
    /* A tablet that asks at every fix need not ask again where zones_reaches(&spot, x, y). */
    if (spot.uniform)
        printf("the same for x %u to %u, y %u to %u\n", (unsigned)spot.x, (unsigned)(spot.x + spot.side - 1), (unsigned)spot.y,
               (unsigned)(spot.y + spot.side - 1));
    return 0;
}
