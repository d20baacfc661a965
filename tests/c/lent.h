// Storage that calls are lent, in places where touching a byte beside it is found.
#pragma once
#include <stddef.h>
#include <stdint.h>

typedef struct {
    uint8_t *at;
    size_t len;
} slice;

// Where things are lent: before a page that may not be touched, behind one, and in storage of exactly their length at eight offsets.
enum { BEFORE, BEHIND, OFFSETS, PLACEMENTS = OFFSETS + 8 };

// What is lent: each has pages of its own, so that all of them stand beside a page that may not be touched at once.
enum { IMAGE, STATE, BYTES, GIDS, ROOM, FENCES };

// Bytes in a placement; `kept` is what has to be freed.
typedef struct {
    slice s;
    uint8_t *kept;
} lent;

// A copy of some bytes in a placement; `step` is what an offset is a multiple of.
lent lend(slice from, int which, int placement, size_t step);

// Pages that nobody may read: what stands there cannot have been looked at.
uint8_t *unreadable(void);
