/* readings AREAS THRESHOLD JOB: zone logs and pixel rows over a drawing like a pit's, of so many areas, for tools/readings. The drawing is made here, and is
 * grown with the threshold and depth limit 8. Every output is longer than any version of the library needs. */
#include "zones.h"

#include <stdio.h>
#include <stdlib.h>
#include <string.h>

enum { RUN = 4096, ROUNDS = 4, ROWS = 16, PIXELS = 4096, DIRECTIONS = 24, MOST_AREAS = 64 };

static uint8_t records[4096 * 16], pixels[3 * PIXELS];
static uint32_t plan[3 + 4096], areas[8 * 64], xs[2048], ys[2048];
static uint32_t head[2], cells[8 * 4096], entries[4 * 65536];
static uint32_t px[RUN], py[RUN], out[RUN];
static size_t length;
static uint64_t seed = 1;

#define LEN(t) (sizeof(t) / sizeof((t)[0]))
#define DRAWING plan, LEN(plan), areas, LEN(areas), xs, LEN(xs), ys, LEN(ys)
#define TREE head, LEN(head), cells, LEN(cells), entries, LEN(entries)

/* Ends the program where a call is refused. */
static uint32_t accepted(const char *call, uint64_t answer) {
    if ((uint32_t)(answer >> 32) == 0) return (uint32_t)answer;
    fprintf(stderr, "%s refused %u at %u\n", call, (uint32_t)(answer >> 32), (uint32_t)answer);
    exit(1);
}

/* A number from 0 to below end, the same ones in every run of the program. */
static uint32_t any(uint32_t end) {
    seed = seed * 6364136223846793005u + 1442695040888963407u;
    return (uint32_t)(seed >> 33) % end;
}

/* ---- the drawing ---- */

static uint8_t *record(uint8_t kind) {
    uint8_t *bytes = records + length;
    length += 16;
    bytes[0] = kind;
    return bytes;
}

static void number(uint8_t *at, uint32_t value) {
    for (int k = 0; k < 4; k++) at[k] = (uint8_t)(value >> 8 * k);
}

/* The sides turn by 15 degrees, times 1,024. */
static const int32_t COSINES[DIRECTIONS] = {1024,  989,  887,  724,  512,  265,  0,   -265, -512, -724, -887, -989,
                                            -1024, -989, -887, -724, -512, -265, 0,   265,  512,  724,  887,  989};

/* A contour around (x, y): every other `step` direction, from three quarters of the two radii to the whole. */
static void contour(int32_t x, int32_t y, int32_t wide, int32_t high, int step) {
    for (int k = 0; k < DIRECTIONS; k += step) {
        const int32_t part = 768 + (int32_t)any(256);
        uint8_t *bytes = record(k == 0 ? 2 : 3);
        const int32_t left = x + wide * part / 1024 * COSINES[k] / 1024;
        const int32_t up = y + high * part / 1024 * COSINES[(k + 18) % DIRECTIONS] / 1024;
        number(bytes + 4, (uint32_t)(left < 0 ? 0 : left > 65536 ? 65536 : left));
        number(bytes + 8, (uint32_t)(up < 0 ? 0 : up > 65536 ? 65536 : up));
    }
}

static void area(uint8_t alpha, uint32_t material) {
    uint8_t *bytes = record(1);
    bytes[3] = alpha;
    for (int k = 4; k < 7; k++) bytes[k] = (uint8_t)any(256);
    bytes[8] = (uint8_t)material;
}

/* Front first: roads, faint and long; stockpiles and tips, half of the areas; the benches of the pit, one inside the next, the innermost first; behind all,
 * the land of the mine, inside a clip area that is its boundary. */
static void draw(uint32_t count) {
    const uint32_t roads = count / 8, benches = count / 4, piles = count - roads - benches - 2;
    uint32_t material = 1;
    for (uint32_t k = 0; k < roads; k++) {
        area(160, material++);
        const int level = k % 2 == 0;
        contour((int32_t)(14000 + any(36000)), (int32_t)(14000 + any(36000)), level ? 14000 : 400, level ? 400 : 14000, 2);
    }
    for (uint32_t k = 0; k < piles; k++) {
        area(k % 3 == 0 ? 200 : 255, material++);
        const int32_t wide = (int32_t)(900 + any(1600)), high = (int32_t)(900 + any(1600));
        contour((int32_t)(8000 + any(50000)), (int32_t)(8000 + any(50000)), wide, high, 2);
    }
    for (uint32_t k = 0; k < benches; k++) {
        area(255, material++);
        const int32_t radius = 4000 + (int32_t)(k * 16000 / benches);
        contour(30000, 34000, radius, radius * 3 / 4, 1);
    }
    record(4);
    record(1)[1] = 1;
    contour(32768, 32768, 32000, 32000, 1);
    record(5);
    area(255, material);
    contour(32768, 32768, 38000, 38000, 1);
    record(6);
}

/* ---- runs ---- */

/* A truck that drives from one place to the next, 40 units from fix to fix. */
static void truck(void) {
    int32_t x = 30000, y = 30000, to_x = x, to_y = y;
    for (int k = 0; k < RUN; k++) {
        const int32_t wide = to_x - x, high = to_y - y;
        const int32_t far = abs(wide) > abs(high) ? abs(wide) : abs(high);
        if (far < 40) {
            to_x = (int32_t)(6000 + any(54000));
            to_y = (int32_t)(6000 + any(54000));
        } else {
            x += 40 * wide / far;
            y += 40 * high / far;
        }
        px[k] = (uint32_t)x;
        py[k] = (uint32_t)y;
    }
}

static void all_over(void) {
    for (int k = 0; k < RUN; k++) {
        px[k] = any(65536);
        py[k] = any(65536);
    }
}

/* Of the grid, the parts of a thousand that lie in leaves with no line, curve or shortcut. */
static uint32_t uniform(void) {
    uint64_t squares = 0;
    for (uint32_t c = 0; c < head[0]; c++) {
        const uint32_t *cell = cells + 8 * c;
        int yes = cell[3] == 0;
        for (uint32_t k = cell[4]; k < cell[4] + cell[5]; k++) {
            const uint32_t kind = entries[4 * k];
            if (kind == 5 || kind == 6 || kind == 8) yes = 0;
        }
        if (yes) squares += (uint64_t)cell[2] * cell[2];
    }
    return (uint32_t)(squares * 1000 >> 32);
}

int main(int argc, char **argv) {
    const uint32_t count = argc == 4 ? (uint32_t)atoi(argv[1]) : 0;
    if (count < 4 || count > MOST_AREAS) {
        fprintf(stderr, "usage: readings AREAS THRESHOLD none|truck|spread|row|about\n");
        return 2;
    }
    const char *job = argv[3];
    draw(count);
    accepted("read", zones_read(records, length, plan, LEN(plan), areas, LEN(areas), xs, LEN(xs), ys, LEN(ys)));
    accepted("open", zones_open(DRAWING, TREE));
    accepted("grow", zones_grow(DRAWING, TREE, (uint32_t)atoi(argv[2]), 8));
    uint32_t indices[2] = {0, 0};
    for (int round = 0; round < ROUNDS; round++) {
        truck();
        if (strcmp(job, "truck") == 0) indices[0] += accepted("log", zones_zone_log(DRAWING, TREE, px, RUN, py, RUN, out, RUN));
        all_over();
        if (strcmp(job, "spread") == 0) indices[1] += accepted("log", zones_zone_log(DRAWING, TREE, px, RUN, py, RUN, out, RUN));
    }
    uint32_t sum = 0;
    for (uint32_t row = 0; row < ROWS && strcmp(job, "row") == 0; row++) {
        accepted("row", zones_pixel_row(DRAWING, TREE, row * (PIXELS / ROWS) + 100, 0, pixels, sizeof pixels));
        for (size_t k = 0; k < sizeof pixels; k += 997) sum += pixels[k];
    }
    /* What was read, so that two versions can be seen to answer the same. */
    if (strcmp(job, "truck") == 0) printf("%u\n", indices[0]);
    if (strcmp(job, "spread") == 0) printf("%u\n", indices[1]);
    if (strcmp(job, "row") == 0) printf("%u\n", sum);
    if (strcmp(job, "about") == 0) {
        const uint32_t part = uniform();
        printf("%u %u %u.%u\n", head[0], head[1], part / 10, part % 10);
    }
    return 0;
}
