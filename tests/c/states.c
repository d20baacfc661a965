#include "states.h"

#include <stdlib.h>
#include <string.h>

#include "check.h"
#include "inputs.h"

uint8_t fresh[MEMORY];

void must(uint32_t answer, uint32_t want, const char *what) {
    if (answer == want) return;
    doing = "making a state";
    check(0, "%s gave %u, not %u", what, answer, want);
    exit(finish());
}

uint32_t single(enum kind kind, uint8_t *memory, uint32_t peer, slice bytes, uint32_t gids) {
    call c = {.name = "state", .kind = kind, .peer = peer, .gids = gids};
    uint8_t place[PLACE + 8];
    size_t taken;
    if (make(&c, open_image, (slice){memory, MEMORY}, bytes, gids_lent, (slice){place, PLACE}, &taken) != 1) return 9999;
    return aygeshunt_word(place, AYGESHUNT_ANSWER);
}

uint32_t ticked(uint8_t *memory, uint64_t tick, uint64_t limit, uint32_t *ended) {
    uint8_t place[PLACE];
    if (aygeshunt_tick(memory, MEMORY, tick, limit, place, PLACE) != 1) return 9999;
    *ended = aygeshunt_word(place, AYGESHUNT_ENDED);
    return aygeshunt_word(place, AYGESHUNT_ANSWER);
}

void await(uint8_t *memory, uint32_t caller, const char *callee, uint32_t serial) {
    stream call = {.len = 0};
    add(&call, to_peer(callee, serial, 0));
    must(single(PIECE, memory, caller, all_of(&call), 0), 0, "wait");
}

void make_fresh(void) {
    must(single(START, fresh, 0, empty, 0), 0, "start");
    must(single(CONNECT, fresh, 1000, empty, 1), 0, "connect");
    must(single(CONNECT, fresh, 1001, empty, 16), 0, "connect");
    must(single(OWN, fresh, 1, text("a.b"), 0), 0, "own");
}

slice fresh_memory(void) { return (slice){fresh, MEMORY}; }

slice copied(void) {
    slice s = {malloc(MEMORY), MEMORY};
    memcpy(s.at, fresh, MEMORY);
    return s;
}
