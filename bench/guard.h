// The guard's calls for the benchmark: those that a host in C makes, on slices, with what they tell in one number.
#pragma once
#include "../include/aygeshunt.h"
#include "inputs.h"

// How many bytes the guard's memory has, how many peers it holds, and how many bytes a place has.
enum { MEMORY = AYGESHUNT_MEMORY_LENGTH, PEERS = 16, PLACE = AYGESHUNT_PLACE_LENGTH };

// Who decided, as a place tells it: the rule at a position, behind the first forty bits.
#define BY(position) ((1 + 4ULL * (position)) << 40)

// A place in one number: the answer, 256 times the bytes taken, and who decided.
static inline uint64_t told(const uint8_t *place) {
    return aygeshunt_word(place, AYGESHUNT_ANSWER) + 256ULL * aygeshunt_word(place, AYGESHUNT_TAKEN)
           + ((aygeshunt_word(place, AYGESHUNT_DECIDER) + 4ULL * aygeshunt_word(place, AYGESHUNT_POSITION)) << 40);
}

static inline uint64_t guard_start(struct bytes m) {
    uint8_t place[PLACE];
    aygeshunt_start(m.at, m.len, place, PLACE);
    return told(place);
}

// The number of the new peer, 0 where it is refused.
static inline uint32_t guard_connect(struct bytes image, struct bytes m, uint32_t uid, const uint32_t *gids, size_t count) {
    uint8_t place[PLACE];
    aygeshunt_connect(image.at, image.len, m.at, m.len, uid, gids, count, place, PLACE);
    return aygeshunt_word(place, AYGESHUNT_NUMBER);
}

// The answer, and 256 times the waits that ended.
static inline uint64_t guard_tick(struct bytes m, uint64_t tick, uint64_t limit) {
    uint8_t place[PLACE];
    aygeshunt_tick(m.at, m.len, tick, limit, place, PLACE);
    return aygeshunt_word(place, AYGESHUNT_ANSWER) + 256ULL * aygeshunt_word(place, AYGESHUNT_ENDED);
}

static inline uint64_t guard_own(struct bytes image, struct bytes m, uint32_t peer, const char *name, size_t len) {
    uint8_t place[PLACE];
    aygeshunt_own(image.at, image.len, m.at, m.len, peer, (const uint8_t *)name, len, place, PLACE);
    return told(place);
}

static inline uint64_t guard_piece(struct bytes image, struct bytes m, uint32_t peer, const unsigned char *at, size_t len) {
    uint8_t place[PLACE];
    aygeshunt_piece(image.at, image.len, m.at, m.len, peer, at, len, place, PLACE);
    return told(place);
}
