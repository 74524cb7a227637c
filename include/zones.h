/* zones.h, version 0.6.0: which drawn area a position lies in.
 *
 * This header is the manual of libzones.a (made by: tools/archive zones). A surveyor draws areas, a drawing is a
 * file of records; the library reads it into tables, opens a tree of map cells over it, and answers positions,
 * rows of pixels and zone logs from the tree. From top to bottom:
 *
 *   1  How it is used              5  What is read from a tree
 *   2  Version                     6  Memory, stack, threshold and depth limit
 *   3  Answers and refusals        7  The nine calls
 *   4  Drawing and tree            8  The same calls over one struct
 *
 * C99 or later, or C++11 or later.
 *
 *
 * 1  HOW IT IS USED
 *
 *     static struct zones_memory memory;                     // room for every drawing: 1.2 MB, so static
 *     struct zones_map map = zones_map_of(&memory);
 *     struct zones_spot spot;
 *
 *     uint64_t answer = zones_map_read(&map, file, length);  // the bytes of the file
 *     if (zones_refusal(answer) == 0) answer = zones_map_open(&map);
 *     if (zones_refusal(answer) == 0) answer = zones_map_grow(&map, ZONES_ADVISED_THRESHOLD, ZONES_ADVISED_DEPTH);
 *     if (zones_refusal(answer) == 0) answer = zones_map_position(&map, x, y, &spot);
 *     if (zones_refusal(answer) != 0) puts(zones_refusal_text(zones_refusal(answer)));
 *
 * Then spot.material is the material at (x, y), spot.colour what to paint there, and zones_shows(&spot, n) tells
 * whether area n shows there. Reading, opening and growing are done once for a drawing; any number of questions
 * follow, and zones_reaches(&spot, x, y) tells whether the next one is answered already. samples/where.c is a whole
 * program.
 *
 * All memory is lent by the caller. No call allocates, keeps anything between calls, or has a variable of its own
 * outside its stack: questions about one map may be asked by several threads at a time, and calls on maps apart
 * need no lock. A slice passes as a pointer and then its length in elements. Three things are asked of a caller:
 * the length is true, a null pointer has length 0, and no two slices overlap where one of them is written.
 * Whatever else the tables hold, each call is proved to do what documents 01 and 02 of the customer define.
 *
 * Linking: the archive needs two functions of the C library, and no other symbol:
 *     needs: memcpy memset
 * They may be your own, where there is no C library.
 */
#ifndef ZONES_H
#define ZONES_H

#include <stddef.h>
#include <stdint.h>

#ifdef __cplusplus
extern "C" {
#endif

/* 2  VERSION
 *
 * While MAJOR is 0, MINOR counts what is in: 1 for the base, and 1 for each request of the customer that has been
 * met since. A new MINOR may change tables, records and answers: compile your program again, and read a drawing
 * again rather than keep its tables. A new PATCH changes none of them. */
#define ZONES_VERSION_MAJOR 0
#define ZONES_VERSION_MINOR 6
#define ZONES_VERSION_PATCH 0
#define ZONES_VERSION "0.6.0"

/* 3  ANSWERS AND REFUSALS
 *
 * Every call returns one number of 64 bits. Its high half is the number of the refusal, or 0 where the call was
 * accepted. The low half is the place of the refusal (what it counts is said with each call), or the result. */

enum zones_refusals {
    ZONES_ACCEPTED = 0,
    ZONES_REFUSAL_LENGTH = 1,        /* the length of the file */
    ZONES_REFUSAL_KIND = 2,          /* of a record */
    ZONES_REFUSAL_FIELD = 3,         /* of a record */
    ZONES_REFUSAL_UNFIT = 4,         /* a record that does not fit where it stands */
    ZONES_REFUSAL_SHORT = 5,         /* a contour of under 3 corners */
    ZONES_REFUSAL_LIMIT = 6,         /* too many areas, corners or open groups */
    ZONES_REFUSAL_ARGUMENT = 7,      /* an argument of the call */
    ZONES_REFUSAL_NO_CELL = 8,       /* splitting: no cell of this number */
    ZONES_REFUSAL_ALREADY_SPLIT = 9, /* splitting: not a leaf */
    ZONES_REFUSAL_SMALLEST = 10,     /* splitting: a cell of side 1 */
    ZONES_REFUSAL_ROOM = 11,         /* a table is too short for the whole result */
    ZONES_REFUSAL_BROKEN = 12,       /* the tables do not hold a drawing, or a tree, that could be used */
    ZONES_REFUSAL_CURVE = 13         /* a curve out of order or of too wide a span */
};

/* The number of the refusal, 0 where the call was accepted. */
static inline uint32_t zones_refusal(uint64_t answer) { return (uint32_t)(answer >> 32); }

/* Of a refused call: where. */
static inline uint32_t zones_place(uint64_t answer) { return (uint32_t)(answer & 0xffffffffu); }

/* Of an accepted call: the result that is named with the call. */
static inline uint32_t zones_result(uint64_t answer) { return (uint32_t)(answer & 0xffffffffu); }

/* A refusal in words, for people. The text of each number stays; a number that no refusal has gets a text too. */
static inline const char *zones_refusal_text(uint32_t number) {
    switch (number) {
    case ZONES_ACCEPTED: return "accepted";
    case ZONES_REFUSAL_LENGTH: return "the length of the file is no multiple of 16, or it has over 4,096 records";
    case ZONES_REFUSAL_KIND: return "unknown kind of record";
    case ZONES_REFUSAL_FIELD: return "a field is out of range, or an unnamed byte is not zero";
    case ZONES_REFUSAL_UNFIT: return "the record does not fit where it stands, or a group is open at the end";
    case ZONES_REFUSAL_SHORT: return "a contour of under 3 corners";
    case ZONES_REFUSAL_LIMIT: return "the 65th area, the 2,049th corner or the 9th open group";
    case ZONES_REFUSAL_ARGUMENT:
        return "an argument is out of range: unequal tables of x and y, a position, a depth limit, a pixel row, "
               "first pixel or buffer";
    case ZONES_REFUSAL_NO_CELL: return "there is no cell of this number";
    case ZONES_REFUSAL_ALREADY_SPLIT: return "the cell is already split";
    case ZONES_REFUSAL_SMALLEST: return "the cell has side 1";
    case ZONES_REFUSAL_ROOM: return "a table is too short for the whole result";
    case ZONES_REFUSAL_BROKEN:
        return "a number in the tables is out of range, or the drawing or stream in them breaks the grammar";
    case ZONES_REFUSAL_CURVE: return "a curve's x or y are not in order, or it spans over 4,096 units";
    default: return "no refusal has this number";
    }
}

/* 4  DRAWING AND TREE
 *
 * A drawing is areas, front first, each with contours, and groups of them. A contour closes from its last corner to its
 * first; an area may have none. A group ( left | right ) shows its right side where its left side passes. The top level
 * and the right side of a group on a paint side are paint sides, where paint areas stand; all other sides are clip
 * sides, where clip areas stand. A clip side passes where any item on it does, a group on a clip side where both of its
 * sides do. At a position, those paint areas show that pass and that every group around them shows, front first, up to
 * and including the first that is opaque. docs/DRAWING.md has all of it.
 *
 * In a file a drawing is a row of records of 16 bytes, no header, numbers little-endian; a file of no bytes is the
 * empty drawing. Byte 0 of a record is its kind. Bytes that are not named below are 0. */
#define ZONES_RECORD_BYTES 16
#define ZONES_MOST_RECORDS 4096
#define ZONES_FILE_BYTES 65536 /* the longest file: ZONES_MOST_RECORDS x ZONES_RECORD_BYTES */

#define ZONES_KIND_AREA 1    /* an area; its contours follow it */
#define ZONES_KIND_FIRST 2   /* first corner of a contour; stands straight after an area or a corner */
#define ZONES_KIND_NEXT 3    /* next corner; stands straight after 2, 3 or 7 */
#define ZONES_KIND_OPEN 4    /* ( opens a group */
#define ZONES_KIND_BAR 5     /* | ends its left side */
#define ZONES_KIND_CLOSE 6   /* ) ends its right side */
#define ZONES_KIND_CONTROL 7 /* control corner of a quadratic Bezier curve; stands between 2 or 3 and 3 */

#define ZONES_RECORD_KIND 0     /* where the bytes of a record stand: every kind */
#define ZONES_RECORD_ROLE 1     /* kind 1, up to ZONES_RECORD_MATERIAL */
#define ZONES_RECORD_RULE 2
#define ZONES_RECORD_ALPHA 3
#define ZONES_RECORD_RED 4
#define ZONES_RECORD_GREEN 5
#define ZONES_RECORD_BLUE 6
#define ZONES_RECORD_MATERIAL 8 /* two bytes */
#define ZONES_RECORD_X 4        /* kinds 2, 3 and 7: four bytes */
#define ZONES_RECORD_Y 8        /* the same: four bytes */

#define ZONES_ROLE_PAINT 0          /* an area that shows */
#define ZONES_ROLE_CLIP 1           /* an area that limits where others show; its alpha, colour and material are 0 */
#define ZONES_RULE_NON_ZERO 0       /* an area passes where its winding is not 0 */
#define ZONES_RULE_EVEN_ODD 1       /* where it is odd */
#define ZONES_OPAQUE 255            /* alpha of an area that hides what is behind it; also the highest channel */
#define ZONES_LEAST_MATERIAL 1      /* of a paint area */
#define ZONES_MOST_MATERIAL 65535   /* the same; material 0 is the answer where nothing shows */
#define ZONES_MOST_AREAS 64         /* numbered from 0, front first */
#define ZONES_MOST_CORNERS 2048     /* of all areas together; control corners count */
#define ZONES_LEAST_CORNERS 3       /* of a contour; control corners do not count */
#define ZONES_MOST_GROUPS 8         /* open at a time */
#define ZONES_MOST_COORDINATE 65536 /* of a corner; the least is 0 */
#define ZONES_MOST_CURVE_SPAN 4096  /* of a curve, in x and in y; its three x are in order, and so its three y */

/* A drawing in memory is four tables of 32-bit words, which zones_read fills.
 *
 * plan: three counts, then the kind of each record. Length: ZONES_PLAN_COUNTS + records. */
#define ZONES_PLAN_RECORDS 0   /* records in use */
#define ZONES_PLAN_AREAS 1     /* areas in use */
#define ZONES_PLAN_CORNERS 2   /* corners in use */
#define ZONES_PLAN_COUNTS 3    /* words before the kinds: word ZONES_PLAN_COUNTS + i is the kind of record i */
#define ZONES_PLAN_LENGTH 4099 /* for every drawing */

/* areas: eight words an area; the eighth is 0. Length: ZONES_AREA_WORDS x areas. */
#define ZONES_AREA_WORDS 8
#define ZONES_AREA_ROLE 0
#define ZONES_AREA_RULE 1
#define ZONES_AREA_ALPHA 2
#define ZONES_AREA_RED 3
#define ZONES_AREA_GREEN 4
#define ZONES_AREA_BLUE 5
#define ZONES_AREA_MATERIAL 6
#define ZONES_AREAS_LENGTH 512 /* for every drawing */

/* xs and ys: a word each a corner, in the order of the records of kind 2, 3 and 7. Both always have one length,
 * which is part of every call: unequal tables are refused with 7 before all else. */
#define ZONES_CORNERS_LENGTH 2048 /* of either, for every drawing */

/* A tree over a drawing is three tables more, which zones_open and zones_grow fill. It cuts the grid of 65,536 by
 * 65,536 positions into square cells: cell 0 is the whole grid, and a split makes four cells of half the side. A
 * leaf is a cell that is not split; each leaf has a stream of entries, that part of the drawing which matters in
 * its square. Smaller leaves have shorter streams and are read faster. The answers are the same however the map is
 * cut.
 *
 * head: two words. */
#define ZONES_HEAD_WORDS 2   /* its length */
#define ZONES_HEAD_CELLS 0   /* cells in use */
#define ZONES_HEAD_ENTRIES 1 /* entries in use */

/* cells: eight words a cell. The table holds as many whole cells as its length has, up to ZONES_MOST_CELLS. Of the cell
 * that is split, ZONES_CELL_CHILD alone changes: entries and lines stay those of its own stream. */
#define ZONES_CELL_WORDS 8
#define ZONES_CELL_X 0           /* low corner */
#define ZONES_CELL_Y 1
#define ZONES_CELL_SIDE 2        /* 1, 2, 4, .. ZONES_GRID_SIDE */
#define ZONES_CELL_CHILD 3       /* the first of its four children, which are numbered in a row; 0 for a leaf */
#define ZONES_CELL_FIRST 4       /* its first entry */
#define ZONES_CELL_COUNT 5       /* its entries */
#define ZONES_CELL_LINES 6       /* those that are lines or curves */
#define ZONES_CELL_PARENT 7      /* the number of its parent, the cell whose split made it; 0 for cell 0 */
#define ZONES_GRID_SIDE 65536
#define ZONES_CHILDREN 4         /* of a split, in order: low x low y, high x low y, low x high y, high x high y */
#define ZONES_MOST_DEPTH 16      /* of a cell; there the side is 1 */
#define ZONES_MOST_CELLS 4096
#define ZONES_CELLS_LENGTH 32768 /* for ZONES_MOST_CELLS */

/* entries: four words an entry: kind, then up to three that the kind names. Signed numbers are in two's
 * complement. The table holds as many whole entries as its length has, up to ZONES_MOST_ENTRIES. */
#define ZONES_ENTRY_WORDS 4
#define ZONES_ENTRY_KIND 0
#define ZONES_ENTRY_NUMBER 1        /* area: its number */
#define ZONES_ENTRY_START 2         /* area: its start number, -ZONES_MOST_START to ZONES_MOST_START */
#define ZONES_ENTRY_FROM 1          /* line, curve: the number of its first corner; a curve has the next two as well */
#define ZONES_ENTRY_TO 2            /* line: the number of its last corner */
#define ZONES_ENTRY_SIGN 1          /* shortcut: 1 or -1 */
#define ZONES_ENTRY_ROW 2           /* shortcut: its first row */
#define ZONES_ENTRY_END 3           /* shortcut: the row after its last */
#define ZONES_MOST_START 2048
#define ZONES_STREAM_OPEN 1         /* the kinds of entries: ( */
#define ZONES_STREAM_BAR 2          /* | */
#define ZONES_STREAM_CLOSE 3        /* ) */
#define ZONES_STREAM_AREA 4         /* its lines, curves and shortcuts stand straight behind it */
#define ZONES_STREAM_LINE 5
#define ZONES_STREAM_SHORTCUT 6     /* a side that counts at every position of its rows */
#define ZONES_STREAM_PASSES 7       /* a clip area that passes everywhere in the cell */
#define ZONES_STREAM_CURVE 8
#define ZONES_MOST_ENTRIES 65536
#define ZONES_ENTRIES_LENGTH 262144 /* for ZONES_MOST_ENTRIES */

/* 5  WHAT IS READ FROM A TREE
 *
 * Positions are whole numbers x, y, 0 to ZONES_MOST_POSITION. A line counts at the positions to its left, not at those
 * on it, from the row of its lower end up to the row before its upper end: areas that share a side neither overlap nor
 * leave a gap. An area's winding is the lines and curves that count there, those drawn upward less those downward. */
#define ZONES_MOST_POSITION 65535

/* The words that zones_find_leaf writes. */
#define ZONES_LEAF_WORDS 8
#define ZONES_LEAF_CELL 0    /* its number */
#define ZONES_LEAF_X 1       /* its low corner */
#define ZONES_LEAF_Y 2
#define ZONES_LEAF_SIDE 3
#define ZONES_LEAF_STEPS 4   /* down to it from cell 0: its depth */
#define ZONES_LEAF_ENTRIES 5 /* of its stream */
#define ZONES_LEAF_LINES 6   /* those that are lines or curves */
#define ZONES_LEAF_UNIFORM 7 /* 1 where none is a line, a curve or a shortcut, else 0 */

/* The words that zones_position writes. */
#define ZONES_POSITION_WORDS 10
#define ZONES_POSITION_SET_LOW 0  /* the areas that show: area n is bit n, n below 32 */
#define ZONES_POSITION_SET_HIGH 1 /* the same: bit n - 32 */
#define ZONES_POSITION_MATERIAL 2 /* of the front one, or 0 */
#define ZONES_POSITION_RED 3      /* over white ground */
#define ZONES_POSITION_GREEN 4
#define ZONES_POSITION_BLUE 5
#define ZONES_POSITION_UNIFORM 6  /* of the leaf that holds the position, as ZONES_LEAF_UNIFORM says it */
#define ZONES_POSITION_X 7        /* its low corner */
#define ZONES_POSITION_Y 8
#define ZONES_POSITION_SIDE 9

/* How far an answer reaches. A leaf is uniform where its stream has no line, no curve and no shortcut. Then each
 * position of the leaf, x and y from its low corner up to the low corner plus the side less one, has this shown set,
 * material and colour. A cab tablet that asks at every fix keeps its last answer: as long as that says 1 and the next
 * fix lies in its square, the answer is the same, and no call is needed. That holds while the map is unchanged: no
 * split, growing, opening or reading into its tables in between.
 *
 * 0 says nothing about the positions around. A leaf with a line, a curve or a shortcut in its stream has 0, even where
 * all its positions show the same. A tree that is cut finer has more leaves with 1, and smaller ones. */

/* Upward from a leaf. Each cell has the number of its parent, the cell whose split made it: the square of twice the
 * side around it. The parent taken as often as the leaf is deep is cell 0, the whole grid. A map editor that walks
 * upward needs no call for it:
 *
 *     struct zones_cell cell = zones_cell_of(&map, leaf.cell);    // leaf: from zones_map_find_leaf
 *     for (uint32_t k = 0; k < leaf.steps; k++) {
 *         cell = zones_cell_of(&map, cell.parent);
 *         outline(cell.x, cell.y, cell.side);                     // your own, for the square
 *     }
 *
 * So it is in tables that the library alone wrote. Where others wrote to them, the parents of cells that no call has
 * looked at may be any numbers, and may go in a circle: count the steps, as here, and do not wait for cell 0. */

/* Pixels: a row has 4,096 of 16 by 16 units, and there are 4,096 rows. Row 0 is that of the lowest y. */
#define ZONES_PIXELS 4096 /* of a row; rows too */
#define ZONES_PIXEL_UNITS 16
#define ZONES_PIXEL_BYTES 3
#define ZONES_PIXEL_RED 0
#define ZONES_PIXEL_GREEN 1
#define ZONES_PIXEL_BLUE 2

/* Growing that ended for want of room says so by this bit of its result. */
#define ZONES_FULL 0x80000000u

/* 6  MEMORY, STACK, THRESHOLD AND DEPTH LIMIT
 *
 * Memory. Tables at the limits (struct zones_memory) take 1,214,484 bytes: plan 16,396, areas 2,048, xs and ys 8,192
 * each, head 8, cells 131,072, entries 1,048,576. The archive has 40 KB of code and constants and no variable. Shorter
 * tables serve smaller drawings (ZONES_TABLES, in section 8); where they are too short for a whole tree, it is cut
 * less, and as right. The samples, grown with the advised numbers below: what is in use, and the bytes of tables just
 * so long:
 *
 *               records    areas  corners    cells  entries     bytes
 *     pit            76       10       63      329     3180     62556
 *     berms         220       12      205      673     7615    146300
 *     full          120       24       96     2661    15606    336884
 *     mine         2119       63     2044     1129    65467   1110464    the entries are full
 *
 * Stack. Bytes on x86-64, arguments included, by tools/stack on these drawings and on one at the limits. No call is
 * recursive and no frame depends on the tables: what was measured is the longest path through the object code, so
 * other drawings take no more.
 *
 *     zones_read     312     zones_split    7080     zones_position   1061
 *     zones_write    408     zones_grow     7144     zones_pixel_row  1829
 *     zones_open     888     zones_find_leaf 837     zones_zone_log   1461
 *
 * What memcpy and memset take comes on top. In a program that binds a shared C library lazily, the first call of
 * either runs the dynamic linker on this stack, another 3 to 4 KB.
 *
 * Threshold and depth limit of growing. Shorter streams are read faster, and more cells take more memory. Instructions
 * of a position and of a pixel (sixteen samples), positions all over the grid, counted by tools/thresholds in tables at
 * the limits; f: growing ended on full. First over thresholds, with depth limit 8; `none` is a tree that is opened and
 * not grown:
 *
 *      | pit                       | berms                     | full                      | mine
 *      |cells  entr.   pos.  pixel |cells  entr.   pos.  pixel |cells  entr.   pos.  pixel |cells  entr.   pos.  pixel
 * none |    1     72   6206  31552 |    1    117  16514  98553 |    1     72   8074  50284 |    1   1247 140419 570687
 *   16 |   17    427   2843  14399 |   29    936   3525  19040 |   53   1590   3138  18945 |  429  38480   5865  20699
 *    8 |   45    962   1923   9094 |   73   1656   2319  11387 |  229   3849   2282  12498 | 1065  65158   4587  16022
 *    4 |   89   1390   1815   7820 |  253   4228   1782   8819 |  905   8523   1771   8585 | 1081f 65452   4296  12234
 *    2 |  329   3180   1533   5723 |  673   7615   1657   7386 | 2661  15606   1386   3871 | 1129f 65467   4068  11810
 *    1 | 1453   7811   1372   5168 | 2005  14840   1468   6396 | 4093f 20713   1330   3341 | 1145f 65382   4001  11261
 *    0 | 4093f 18119   1169   3385 | 4093f 24055   1256   4206 | 4093f 20187   1270   3060 | 1149f 65514   3775  11810
 *
 * Then over depth limits, with threshold 2:
 *
 *      | pit                       | berms                     | full                      | mine
 *      |cells  entr.   pos.  pixel |cells  entr.   pos.  pixel |cells  entr.   pos.  pixel |cells  entr.   pos.  pixel
 *    4 |  153   2016   1566   6913 |  121   2680   1782   8412 |  293   4399   1866  10343 |  317  31278   5872  25759
 *    5 |  249   2763   1537   5878 |  229   4096   1686   7630 | 1057   9329   1467   4431 |  973  60736   4129  11810
 *    6 |  301   3040   1534   5723 |  373   5493   1668   7386 | 2661  15606   1386   3871 | 1129f 65467   4068  11810
 *    7 |  317   3126   1533   5723 |  553   6889   1659   7386 | 2661  15606   1386   3871 | 1129f 65467   4068  11810
 *    8 |  329   3180   1533   5723 |  673   7615   1657   7386 | 2661  15606   1386   3871 | 1129f 65467   4068  11810
 *   10 |  333   3186   1533   5723 |  681   7641   1657   7386 | 2661  15606   1386   3871 | 1129f 65467   4068  11810
 *
 * - In tables at the limits: threshold 2, depth limit 8. Below 2 the tables fill up for little; a large drawing fills
 *   them at any threshold up to 4, and what is cut then is cut evenly, as growing goes from the large cells down.
 * - In little memory: threshold 8 or 16. Of the first table, cells x 32 and entries x 16 are the bytes.
 * - A depth limit of 8 (leaves of side 256) is enough: where more lines meet in a point than the threshold, it ends the
 *   splitting. Deeper made no answer faster; 4 and 5 made them slower, most of all on the larger drawings.
 * - Where answers are kept as far as they reach (section 5): threshold 0. A leaf with one line is not uniform, and many
 *   without a line have a shortcut. The percentage of the grid that lies in uniform leaves, with depth limit 8:
 *
 *       threshold    pit  berms   full   mine
 *               2    4.3    7.9   15.5    4.9
 *               1   16.3   20.4   16.2    8.2
 *               0   48.9   57.8   24.0   12.2
 *
 * - For a few questions do not grow: a tree that is only opened answers the same. On these drawings growing pays from
 *   300 to 2,000 positions, or from 70 to 300 pixels, onward. */
#define ZONES_ADVISED_THRESHOLD 2
#define ZONES_ADVISED_DEPTH 8

/* 7  THE NINE CALLS
 *
 * Lengths are in elements, and 64 bits wide on every target, those with 32-bit pointers included. */
typedef uint64_t zones_length;

/* The tables of a drawing, and of a tree, as the calls are lent them. Section 8 passes them as one struct. */
#define ZONES_DRAWING                                                                                            \
    const uint32_t *plan, zones_length plan_len, const uint32_t *areas, zones_length areas_len,                  \
        const uint32_t *xs, zones_length xs_len, const uint32_t *ys, zones_length ys_len
#define ZONES_TREE                                                                                               \
    uint32_t *head, zones_length head_len, uint32_t *cells, zones_length cells_len, uint32_t *entries,           \
        zones_length entries_len
#define ZONES_CONST_TREE                                                                                         \
    const uint32_t *head, zones_length head_len, const uint32_t *cells, zones_length cells_len,                  \
        const uint32_t *entries, zones_length entries_len

/* What holds for all nine:
 *
 * - Refusals are tried in the order in which they are listed, and the first that is met is given. Places are 0
 *   where nothing else is said.
 * - A refused call leaves everything lent as it was, but for two that are met by 12: zones_grow, zones_pixel_row.
 * - An accepted call writes what is said, and leaves the rest of a longer table untouched.
 * - Tables longer than they need be are fine. After zones_read, lend the same four tables to the other calls;
 *   after zones_open, the same seven.
 * - 12 in the calls on a tree (all but zones_read, zones_write, zones_open) is: plan has fewer than
 *   ZONES_PLAN_COUNTS words or head fewer than ZONES_HEAD_WORDS; the areas, corners, cells or entries in use are more
 *   than their tables hold or than the limits; no cell is in use; or, in a cell or stream that the call looks at, a
 *   number is out of its range or the stream breaks the grammar. It comes where others wrote to the tables, where they
 *   are lent shorter than before, or where another drawing was read into them since the opening.
 * - A cell that is looked at is tried with its parent: that of cell 0 is 0, that of any other cell is a split cell in
 *   use that has it as one of its four children, and the cell lies on that quarter of the parent's square. Nothing else
 *   of the parent is looked at. The stream of a leaf is tried with the leaf's line count, ZONES_CELL_LINES: it is the
 *   number of lines and curves in the stream. The line count of a split cell is not compared. */

/* zones_read: reads a file of records into the four tables of a drawing.
 *
 *   records   the bytes of the file, any length
 *   plan      at least ZONES_PLAN_COUNTS + its records, to be written; ZONES_PLAN_LENGTH serves every drawing
 *   areas     at least ZONES_AREA_WORDS x its areas, to be written; ZONES_AREAS_LENGTH serves every drawing
 *   xs, ys    at least its corners, control corners among them, to be written; ZONES_CORNERS_LENGTH serves every
 *             drawing
 *
 * Result: the records. Writes the four tables, as long as is said above, once the whole file has passed.
 * Refusals:
 *    7  xs and ys are of unequal length
 *    1  the length is no multiple of ZONES_RECORD_BYTES, or there are over ZONES_MOST_RECORDS
 *       then each record in turn by 2, 3, 13, 4, 5, 6; place: the record, counted from 0
 *    2  its kind is unknown
 *    3  a field is out of range, or an unnamed byte is not 0
 *   13  it ends a curve whose three x, or three y, are not in order, or that spans over ZONES_MOST_CURVE_SPAN
 *    4  it does not fit where it stands
 *    5  it ends a contour of under ZONES_LEAST_CORNERS
 *    6  it is an area, a corner or an opening of a group over the limit
 *       then the end of the file; place: how many records there are
 *    4  a group is open, or the last record is a control corner
 *    5  the last contour has under ZONES_LEAST_CORNERS
 *   11  a table is too short
 */
uint64_t zones_read(const uint8_t *records, zones_length records_len, uint32_t *plan, zones_length plan_len,
                    uint32_t *areas, zones_length areas_len, uint32_t *xs, zones_length xs_len, uint32_t *ys,
                    zones_length ys_len);

/* zones_write: writes the drawing out as a file of records, byte for byte the one that was read.
 *
 *   plan, areas, xs, ys   as zones_read left them
 *   out                   at least ZONES_RECORD_BYTES x the records in use; ZONES_FILE_BYTES serves every drawing
 *
 * Result: the bytes. Writes out.
 * Refusals:
 *    7  xs and ys are of unequal length
 *   12  the tables do not hold what reading some file leaves
 *   11  out is too short
 */
uint64_t zones_write(ZONES_DRAWING, uint8_t *out, zones_length out_len);

/* zones_open: opens a tree over the drawing: cell 0 alone, with the whole drawing as its stream.
 *
 *   plan, areas, xs, ys   as zones_read left them
 *   head                  at least ZONES_HEAD_WORDS, to be written
 *   cells                 at least ZONES_CELL_WORDS, to be written
 *   entries               at least ZONES_ENTRY_WORDS x the entries of cell 0, to be written: at most one for each
 *                         record
 *
 * What head, cells and entries held before does not matter.
 * Result: the entries of cell 0. Writes head, the words of cell 0 and those of its entries; cell 0 has the lines of its
 * stream, and itself as its parent.
 * Refusals:
 *    7  xs and ys are of unequal length
 *   12  the tables do not hold what reading some file leaves
 *   11  head, cells or entries is too short
 */
uint64_t zones_open(ZONES_DRAWING, ZONES_TREE);

/* zones_split: splits a leaf in four.
 *
 *   plan, areas, xs, ys    as zones_read left them
 *   head, cells, entries   as zones_open, zones_split or zones_grow left them, to be written; as long as is wished,
 *                          with room for four cells and their streams
 *   cell                   its number
 *
 * Result: the number of its first child; the others are the next three. Writes head, the cell's word
 * ZONES_CELL_CHILD, and the new cells and entries behind those in use; each new cell has the lines of its own stream,
 * and the cell that is split as its parent.
 * Refusals:
 *    7  xs and ys are of unequal length
 *    8  the number is not below the cells in use (none where head is too short)
 *   12  as said above; looked at are the cell and, if it is a leaf, its whole stream
 *    9  it is split already
 *   10  its side is 1
 *   11  cells or entries is too short for the four children
 */
uint64_t zones_split(ZONES_DRAWING, ZONES_TREE, uint32_t cell);

/* zones_grow: splits the lowest numbered leaf with more lines (curves count as lines) than the threshold and a depth
 * below the limit, again and again, until there is none (done) or there is no room for the next split (full). A tree
 * that is full is as right as one that is done. How many lines a leaf has is read from its word ZONES_CELL_LINES, and
 * no stream is read but that of the leaf that is split.
 *
 *   plan, areas, xs, ys    as zones_read left them
 *   head, cells, entries   as zones_open, zones_split or zones_grow left them, to be written; as long as is wished
 *   threshold              any number
 *   limit                  0 to ZONES_MOST_DEPTH
 *
 * Result: the splits made, and ZONES_FULL more where it is full: zones_splits and zones_full. Writes what these
 * splits write.
 * Refusals:
 *    7  xs and ys are of unequal length, or the limit is over ZONES_MOST_DEPTH
 *   12  as said above; looked at are the cells from 0 upward, and the whole stream of the leaf that is split, also
 *       where there is no room for the split. A broken stream of another leaf does not stop it. Cells split before it
 *       remain
 */
uint64_t zones_grow(ZONES_DRAWING, ZONES_TREE, uint32_t threshold, uint32_t limit);

/* The two parts of the result of an accepted growing. */
static inline uint32_t zones_splits(uint64_t answer) { return zones_result(answer) & ~ZONES_FULL; }
static inline int zones_full(uint64_t answer) { return (zones_result(answer) & ZONES_FULL) != 0; }

/* zones_find_leaf: finds the leaf that holds (x, y).
 *
 *   plan, areas, xs, ys    as zones_read left them
 *   head, cells, entries   as zones_open, zones_split or zones_grow left them
 *   x, y                   0 to ZONES_MOST_POSITION
 *   out                    at least ZONES_LEAF_WORDS
 *
 * Result: the number of the leaf. Writes ZONES_LEAF_WORDS words of out, the last of which tells how far an answer
 * reaches (section 5).
 * Refusals:
 *    7  xs and ys are of unequal length, or x or y is over ZONES_MOST_POSITION
 *   12  as said above; looked at are the path down from cell 0 and the whole stream of the leaf
 *   11  out is too short
 */
uint64_t zones_find_leaf(ZONES_DRAWING, ZONES_CONST_TREE, uint32_t x, uint32_t y, uint32_t *out,
                         zones_length out_len);

/* zones_position: what shows at (x, y).
 *
 *   plan, areas, xs, ys    as zones_read left them
 *   head, cells, entries   as zones_open, zones_split or zones_grow left them
 *   x, y                   0 to ZONES_MOST_POSITION
 *   out                    at least ZONES_POSITION_WORDS
 *
 * Result: the material. Writes ZONES_POSITION_WORDS words of out: what shows, and how far that reaches (section 5).
 * Refusals:
 *    7  xs and ys are of unequal length, or x or y is over ZONES_MOST_POSITION
 *   12  as said above; looked at are the path down from cell 0 and the whole stream of the leaf
 *   11  out is too short
 */
uint64_t zones_position(ZONES_DRAWING, ZONES_CONST_TREE, uint32_t x, uint32_t y, uint32_t *out,
                        zones_length out_len);

/* zones_pixel_row: fills pixels of a row, three bytes each: red, green, blue.
 *
 *   plan, areas, xs, ys    as zones_read left them
 *   head, cells, entries   as zones_open, zones_split or zones_grow left them
 *   row                    below ZONES_PIXELS
 *   first                  the first pixel to be filled
 *   out                    ZONES_PIXEL_BYTES x the pixels to be filled: the length says how many
 *
 * A pixel has sixteen samples, each with a sum for each channel, not rounded: weight x channel of each area that shows,
 * and what is left x 255, the white ground; 0 to 65,025. The pixel's channel is the sum of the sixteen, plus 2,040,
 * divided by 4,080 and rounded down. A pixel whose samples all have one colour has that colour.
 *
 * Result: 0. Writes all of out. A row of no pixels is accepted whatever the tables hold.
 * Refusals:
 *    7  xs and ys are of unequal length, row is not below ZONES_PIXELS, the length of out is no multiple of
 *       ZONES_PIXEL_BYTES, or first and the pixels to be filled are together over ZONES_PIXELS
 *   12  as said above, at a pixel; looked at are the paths down and the streams of the leaves of its samples. Place:
 *       the pixel's index in out. The pixels before it stand, the rest is untouched
 */
uint64_t zones_pixel_row(ZONES_DRAWING, ZONES_CONST_TREE, uint32_t row, uint32_t first, uint8_t *out,
                         zones_length out_len);

/* zones_zone_log: where the material changes along a run of positions (px[i], py[i]): index 0, if there is one, and
 * each index whose material differs from that of the one before.
 *
 *   plan, areas, xs, ys    as zones_read left them
 *   head, cells, entries   as zones_open, zones_split or zones_grow left them
 *   px, py                 the positions, 0 to ZONES_MOST_POSITION; of one length, any
 *   out                    at least as many words as there are indices; as many as positions serve every run
 *
 * Result: how many indices. Writes so many words of out. A run of no positions is accepted whatever the tables hold.
 * Refusals:
 *    7  xs and ys, or px and py, are of unequal length
 *    7  a position is out of range; place: the index of the first
 *   12  as said above; looked at are the paths down and the streams of the leaves of the positions
 *   11  out is too short
 * A place or a result over 4,294,967,295 is given as 4,294,967,295.
 */
uint64_t zones_zone_log(ZONES_DRAWING, ZONES_CONST_TREE, const uint32_t *px, zones_length px_len,
                        const uint32_t *py, zones_length py_len, uint32_t *out, zones_length out_len);

/* 8  THE SAME CALLS OVER ONE STRUCT
 *
 * Each table has a type of its own, so that tables that are exchanged do not compile. A struct zones_map holds the
 * seven; it owns nothing, and may be copied. */
struct zones_plan    { uint32_t *words; zones_length length; };
struct zones_areas   { uint32_t *words; zones_length length; };
struct zones_xs      { uint32_t *words; zones_length length; };
struct zones_ys      { uint32_t *words; zones_length length; };
struct zones_head    { uint32_t *words; zones_length length; };
struct zones_cells   { uint32_t *words; zones_length length; };
struct zones_entries { uint32_t *words; zones_length length; };

struct zones_map {
    struct zones_plan plan;
    struct zones_areas areas;
    struct zones_xs xs;
    struct zones_ys ys;
    struct zones_head head;
    struct zones_cells cells;
    struct zones_entries entries;
};

/* Seven arrays for so many records, areas, corners, cells and entries (1 or more each), to be the members of a struct:
 *
 *     static struct { ZONES_TABLES(128, 16, 100, 600, 2000) } small;
 *     struct zones_map map = ZONES_MAP_OF(small);
 */
#define ZONES_TABLES(records, areas_, corners, cells_, entries_)                                                 \
    uint32_t plan[ZONES_PLAN_COUNTS + (records)];                                                                \
    uint32_t areas[ZONES_AREA_WORDS * (areas_)];                                                                 \
    uint32_t xs[corners];                                                                                        \
    uint32_t ys[corners];                                                                                        \
    uint32_t head[ZONES_HEAD_WORDS];                                                                             \
    uint32_t cells[ZONES_CELL_WORDS * (cells_)];                                                                 \
    uint32_t entries[ZONES_ENTRY_WORDS * (entries_)];

/* What a struct zones_map over such a struct begins with. */
#define ZONES_MAP_OF(tables)                                                                                     \
    {                                                                                                            \
        {(tables).plan, sizeof(tables).plan / sizeof(uint32_t)},                                                 \
        {(tables).areas, sizeof(tables).areas / sizeof(uint32_t)},                                               \
        {(tables).xs, sizeof(tables).xs / sizeof(uint32_t)},                                                     \
        {(tables).ys, sizeof(tables).ys / sizeof(uint32_t)},                                                     \
        {(tables).head, sizeof(tables).head / sizeof(uint32_t)},                                                 \
        {(tables).cells, sizeof(tables).cells / sizeof(uint32_t)},                                               \
        {(tables).entries, sizeof(tables).entries / sizeof(uint32_t)},                                           \
    }

/* Room for every drawing and every tree: 1,214,484 bytes. Too much for most stacks: make it static. */
struct zones_memory {
    ZONES_TABLES(ZONES_MOST_RECORDS, ZONES_MOST_AREAS, ZONES_MOST_CORNERS, ZONES_MOST_CELLS, ZONES_MOST_ENTRIES)
};

static inline struct zones_map zones_map_of(struct zones_memory *memory) {
    struct zones_map map = ZONES_MAP_OF(*memory);
    return map;
}

/* A cell of the tree: the words of the table by name. */
struct zones_cell {
    uint32_t x, y;    /* its low corner */
    uint32_t side;
    uint32_t child;   /* the first of its four children; 0 for a leaf */
    uint32_t first;   /* its first entry */
    uint32_t entries; /* of its stream */
    uint32_t lines;   /* lines and curves among them */
    uint32_t parent;  /* its number; 0 for cell 0 */
};

/* A leaf that was found: the words of zones_find_leaf by name. */
struct zones_leaf {
    uint32_t cell;    /* its number */
    uint32_t x, y;    /* its low corner */
    uint32_t side;
    uint32_t steps;   /* down to it: its depth */
    uint32_t entries; /* of its stream */
    uint32_t lines;   /* lines and curves among them */
    uint32_t uniform; /* 1 where no entry is a line, a curve or a shortcut, else 0 */
};

/* What shows at a position: the words of zones_position by name. */
struct zones_spot {
    uint32_t set[2];   /* the areas that show: bit n of set[0] is area n, bit n of set[1] is area 32 + n */
    uint32_t material; /* of the front one, 0 where nothing shows */
    uint32_t colour[ZONES_PIXEL_BYTES]; /* red, green, blue, 0 to 255 each */
    uint32_t uniform;  /* 1 where the leaf that holds the position is uniform (section 5), else 0 */
    uint32_t x, y;     /* the low corner of that leaf */
    uint32_t side;
};

/* Both are as long as the words that are written to them. */
typedef char zones_leaf_is_words[sizeof(struct zones_leaf) == ZONES_LEAF_WORDS * sizeof(uint32_t) ? 1 : -1];
typedef char zones_spot_is_words[sizeof(struct zones_spot) == ZONES_POSITION_WORDS * sizeof(uint32_t) ? 1 : -1];

/* The areas that show as one number: area n is bit n. */
static inline uint64_t zones_shown(const struct zones_spot *spot) {
    return (uint64_t)spot->set[1] << 32 | spot->set[0];
}

/* Whether area n shows there: 1 or 0. */
static inline int zones_shows(const struct zones_spot *spot, uint32_t area) {
    return area < ZONES_MOST_AREAS && ((zones_shown(spot) >> area) & 1) != 0;
}

/* Whether this answer is known to be that of (x, y) too: 1 where its leaf is uniform and holds (x, y), else 0. Not to
 * be asked of an answer from before a split, a growing, an opening or a reading. */
static inline int zones_reaches(const struct zones_spot *spot, uint32_t x, uint32_t y) {
    return spot->uniform != 0 && x - spot->x < spot->side && y - spot->y < spot->side;
}

/* A cell of the tree by its number; all 0 where the table of cells does not hold it. */
static inline struct zones_cell zones_cell_of(const struct zones_map *map, uint32_t number) {
    struct zones_cell cell = {0, 0, 0, 0, 0, 0, 0, 0};
    const zones_length at = (zones_length)number * ZONES_CELL_WORDS;
    if (at + ZONES_CELL_WORDS <= map->cells.length) {
        const uint32_t *words = map->cells.words + at;
        cell.x = words[ZONES_CELL_X];
        cell.y = words[ZONES_CELL_Y];
        cell.side = words[ZONES_CELL_SIDE];
        cell.child = words[ZONES_CELL_CHILD];
        cell.first = words[ZONES_CELL_FIRST];
        cell.entries = words[ZONES_CELL_COUNT];
        cell.lines = words[ZONES_CELL_LINES];
        cell.parent = words[ZONES_CELL_PARENT];
    }
    return cell;
}

/* Tables as the calls of section 7 take them. */
#define ZONES_LEND(table) (table).words, (table).length
#define ZONES_LEND_DRAWING(map) \
    ZONES_LEND((map)->plan), ZONES_LEND((map)->areas), ZONES_LEND((map)->xs), ZONES_LEND((map)->ys)
#define ZONES_LEND_TREE(map) ZONES_LEND((map)->head), ZONES_LEND((map)->cells), ZONES_LEND((map)->entries)

/* The nine calls. Each does, answers and refuses what the call of its name in section 7 does. */

static inline uint64_t zones_map_read(struct zones_map *map, const uint8_t *records, zones_length length) {
    return zones_read(records, length, ZONES_LEND_DRAWING(map));
}

static inline uint64_t zones_map_write(const struct zones_map *map, uint8_t *out, zones_length length) {
    return zones_write(ZONES_LEND_DRAWING(map), out, length);
}

static inline uint64_t zones_map_open(struct zones_map *map) {
    return zones_open(ZONES_LEND_DRAWING(map), ZONES_LEND_TREE(map));
}

static inline uint64_t zones_map_split(struct zones_map *map, uint32_t cell) {
    return zones_split(ZONES_LEND_DRAWING(map), ZONES_LEND_TREE(map), cell);
}

static inline uint64_t zones_map_grow(struct zones_map *map, uint32_t threshold, uint32_t limit) {
    return zones_grow(ZONES_LEND_DRAWING(map), ZONES_LEND_TREE(map), threshold, limit);
}

/* A refusal leaves *leaf as it was. */
static inline uint64_t zones_map_find_leaf(const struct zones_map *map, uint32_t x, uint32_t y,
                                           struct zones_leaf *leaf) {
    return zones_find_leaf(ZONES_LEND_DRAWING(map), ZONES_LEND_TREE(map), x, y, (uint32_t *)(void *)leaf,
                           ZONES_LEAF_WORDS);
}

/* A refusal leaves *spot as it was. */
static inline uint64_t zones_map_position(const struct zones_map *map, uint32_t x, uint32_t y,
                                          struct zones_spot *spot) {
    return zones_position(ZONES_LEND_DRAWING(map), ZONES_LEND_TREE(map), x, y, (uint32_t *)(void *)spot,
                          ZONES_POSITION_WORDS);
}

/* Pixels `first` and onward of a row; length in bytes, three a pixel. */
static inline uint64_t zones_map_pixel_row(const struct zones_map *map, uint32_t row, uint32_t first, uint8_t *out,
                                           zones_length length) {
    return zones_pixel_row(ZONES_LEND_DRAWING(map), ZONES_LEND_TREE(map), row, first, out, length);
}

/* A run of so many positions; as many words of out serve every run. */
static inline uint64_t zones_map_zone_log(const struct zones_map *map, const uint32_t *px, const uint32_t *py,
                                          zones_length positions, uint32_t *out, zones_length length) {
    return zones_zone_log(ZONES_LEND_DRAWING(map), ZONES_LEND_TREE(map), px, positions, py, positions, out,
                          length);
}

#ifdef __cplusplus
}
#endif

#endif
