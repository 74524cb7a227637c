/* Every call with empty slices that are null pointers of length 0. Prints a line for each: what it is, the refusal's number, the low half of the
 * answer, and the words that were lent to be written. */
#include "zones.h"

#include <stdio.h>

#define NONE NULL, 0
#define NO_DRAWING NONE, NONE, NONE, NONE
#define NO_TREE NONE, NONE, NONE
/* The drawing of no records, and a tree over it, which has no entry. */
#define DRAWING plan, 3, NONE, NONE, NONE
#define TREE head, 2, cells, CELLS * 8, NONE
#define CELLS 9

static void say(const char *what, uint64_t answer, const uint32_t *words, size_t count) {
    printf("%s: %u %u", what, (unsigned)zones_refusal(answer), (unsigned)zones_place(answer));
    for (size_t i = 0; i < count; i++) printf("%s%u", i == 0 ? "; " : " ", (unsigned)words[i]);
    printf("\n");
}

int main(void) {
    uint32_t plan[3] = {77, 77, 77}, head[2] = {77, 77}, cells[CELLS * 8] = {0}, out[10], one[1] = {5};
    uint8_t pixel[3] = {77, 77, 77}, bytes[1] = {1};

    say("read nothing to nothing", zones_read(NONE, NO_DRAWING), NULL, 0);
    say("read nothing, unequal tables", zones_read(NONE, NONE, NONE, NONE, one, 1), one, 1);
    say("read a byte to nothing", zones_read(bytes, 1, NO_DRAWING), NULL, 0);
    say("read nothing, two words", zones_read(NONE, plan, 2, NONE, NONE, NONE), plan, 3);
    say("read nothing, three words", zones_read(NONE, plan, 3, NONE, NONE, NONE), plan, 3);

    say("write no table", zones_write(NO_DRAWING, NONE), NULL, 0);
    say("write the empty drawing", zones_write(DRAWING, NONE), NULL, 0);

    say("open over no table", zones_open(NO_DRAWING, NO_TREE), NULL, 0);
    say("open in no table", zones_open(DRAWING, NO_TREE), NULL, 0);
    say("open with no cell", zones_open(DRAWING, head, 2, NONE, NONE), head, 2);
    say("open with no entry", zones_open(DRAWING, TREE), head, 2);

    say("split no tree", zones_split(NO_DRAWING, NO_TREE, 0), NULL, 0);
    say("split over no drawing", zones_split(NO_DRAWING, TREE, 0), head, 2);
    say("split with no entry", zones_split(DRAWING, TREE, 0), head, 2);
    say("split again", zones_split(DRAWING, TREE, 0), head, 2);

    say("grow no tree", zones_grow(NO_DRAWING, NO_TREE, 0, 16), NULL, 0);
    say("grow no tree, a limit of 17", zones_grow(NO_DRAWING, NO_TREE, 0, 17), NULL, 0);
    say("grow with no entry", zones_grow(DRAWING, TREE, 0, 16), head, 2);

    say("find in no tree", zones_find_leaf(NO_DRAWING, NO_TREE, 0, 0, NONE), NULL, 0);
    say("find, no word", zones_find_leaf(DRAWING, TREE, 0, 0, NONE), NULL, 0);
    say("find", zones_find_leaf(DRAWING, TREE, 40000, 50000, out, 8), out, 8);

    say("position in no tree", zones_position(NO_DRAWING, NO_TREE, 0, 0, NONE), NULL, 0);
    say("position, no word", zones_position(DRAWING, TREE, 0, 0, NONE), NULL, 0);
    say("position", zones_position(DRAWING, TREE, 40000, 50000, out, 10), out, 10);

    say("no pixel of no tree", zones_pixel_row(NO_DRAWING, NO_TREE, 0, 0, NONE), NULL, 0);
    say("no pixel of row 4096", zones_pixel_row(NO_DRAWING, NO_TREE, 4096, 0, NONE), NULL, 0);
    say("a pixel of no tree", zones_pixel_row(NO_DRAWING, NO_TREE, 0, 0, pixel, 3), NULL, 0);
    say("no pixel", zones_pixel_row(DRAWING, TREE, 4095, 4096, NONE), NULL, 0);
    uint64_t drawn = zones_pixel_row(DRAWING, TREE, 4095, 4095, pixel, 3);
    for (size_t i = 0; i < 3; i++) out[i] = pixel[i];
    say("a pixel", drawn, out, 3);

    say("no position of no tree", zones_zone_log(NO_DRAWING, NO_TREE, NONE, NONE, NONE), NULL, 0);
    say("a run of unequal length", zones_zone_log(NO_DRAWING, NO_TREE, NONE, one, 1, NONE), NULL, 0);
    say("a run in no tree", zones_zone_log(NO_DRAWING, NO_TREE, one, 1, one, 1, NONE), NULL, 0);
    say("no position", zones_zone_log(DRAWING, TREE, NONE, NONE, NONE), NULL, 0);
    say("a run, no word", zones_zone_log(DRAWING, TREE, one, 1, one, 1, NONE), NULL, 0);
    say("a run", zones_zone_log(DRAWING, TREE, one, 1, one, 1, out, 1), out, 1);
    return 0;
}
