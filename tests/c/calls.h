// A call of the library, all that it is lent, and what it has to say.
#pragma once
#include <aygeshunt.h>

#include "lent.h"

// Lengths of the guard's memory and of a place, the words of a place, and how many places a case can expect.
enum { MEMORY = AYGESHUNT_MEMORY_LENGTH, PLACE = AYGESHUNT_PLACE_LENGTH, WORDS = 7, MOST = 4 };

enum kind { START, CONNECT, OWN, RELEASE, PIECE, BATCH, DISCONNECT, TICK };

typedef struct {
    const char *name;
    enum kind kind;
    slice image, memory, bytes;
    uint32_t peer, gids;            // the uid of CONNECT, and how many of gids_lent
    uint64_t tick, limit;           // of TICK
    int same;                       // not a byte of memory may change
    size_t count;                   // places that it has to say; the first of them are written where there is less room
    uint32_t expect[MOST][WORDS];
} call;

extern const uint32_t gids_lent[32];

// Makes the call with what is lent here instead of the call's own slices; how many places it says it wrote. Only BATCH writes to `taken`.
size_t make(const call *c, slice image, slice memory, slice bytes, const uint32_t *gids, slice room, size_t *taken);
