/* How a call goes over a pipe to a server that has the library of another processor (stub.c, serve.c; serve.mjs has the same in JavaScript).
 * All numbers are little-endian words of 32 bits.
 *
 * A request is its head, then the bytes of each slice that is not marked as the same, in order. The arguments of every call are its first seven
 * slices, then its numbers, then the other slices.
 * A reply is its head, then for each slice that may be written the place of the first byte that has changed, how many bytes follow, and these. */
#ifndef ZONES_WIRE_H
#define ZONES_WIRE_H

#include <stdint.h>

enum { READ, WRITE, OPEN, SPLIT, GROW, FIND_LEAF, POSITION, PIXEL_ROW, ZONE_LOG };

#define MOST_SLICES 10
#define MOST_NUMBERS 2

/* marks of a slice */
#define BYTES 1u    /* its elements are bytes, not words of 32 bits */
#define WRITTEN 2u  /* the call may write it */
#define SAME 4u     /* the server has its bytes, from the call before */

typedef struct {
    uint32_t call;
    uint32_t slices;
    struct {
        uint32_t marks;
        uint32_t length; /* in elements */
    } slice[MOST_SLICES];
    uint32_t number[MOST_NUMBERS];
} request_head;

/* what a server found wrong with the memory around a call */
#define GUARD_CHANGED 1u  /* a word beside a slice */
#define LENT_CHANGED 2u   /* a slice that is lent to be read */

typedef struct {
    uint32_t low, high; /* the answer */
    uint32_t wrong;     /* 0, or one of the above */
    uint32_t slice;     /* where */
} reply_head;

#endif
