/* Written from zones.h alone: what stands at a position of a drawing. */
#include <stdio.h>
#include <stdlib.h>
#include <zones.h>

static struct zones_memory memory;
static uint8_t file[ZONES_FILE_BYTES + 1];

int main(int argc, char **argv) {
    if (argc < 4) return 2;
    FILE *f = fopen(argv[1], "rb");
    if (f == NULL) return 2;
    size_t length = fread(file, 1, sizeof file, f);
    fclose(f);

    struct zones_map map = zones_map_of(&memory);
    struct zones_spot spot;
    uint64_t answer = zones_map_read(&map, file, length);
    if (zones_refusal(answer) == 0) answer = zones_map_open(&map);
    if (zones_refusal(answer) == 0) answer = zones_map_grow(&map, ZONES_ADVISED_THRESHOLD, ZONES_ADVISED_DEPTH);
    if (zones_refusal(answer) == 0) answer = zones_map_position(&map, atoi(argv[2]), atoi(argv[3]), &spot);
    if (zones_refusal(answer) != 0) {
        printf("%s\n", zones_refusal_text(zones_refusal(answer)));
        return 1;
    }
    printf("material %u, colour %u %u %u\n", spot.material, spot.colour[0], spot.colour[1], spot.colour[2]);
    return 0;
}
