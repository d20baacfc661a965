// States of the guard that cases begin with.
#pragma once
#include "calls.h"

// Two peers, of which the first owns "a.b"; cases are lent copies of it and leave it alone.
extern uint8_t fresh[MEMORY];
slice fresh_memory(void);
void make_fresh(void);

// Where docs/MEMORY.md has the last tick, the slots, and in each slot its count of pending calls and these, of which each has its tick at its end.
enum { TICK_AT = 4, SLOTS_AT = 12, SLOT = 3420, PENDING = 76, CALLS = 80, CALL = 16, CALL_TICK = 8, PENDING_AT = SLOTS_AT + PENDING };

// A copy of it to go on with; it has to be freed.
slice copied(void);

// The answer of one call under open_image, which goes on with memory.
uint32_t single(enum kind kind, uint8_t *memory, uint32_t peer, slice bytes, uint32_t gids);

// The answer of a tick, which goes on with memory; `ended` is told how many waits ended.
uint32_t ticked(uint8_t *memory, uint64_t tick, uint64_t limit, uint32_t *ended);

// A call of a peer that awaits its reply of another from now on.
void await(uint8_t *memory, uint32_t caller, const char *callee, uint32_t serial);

// A state that cannot be made ends the test.
void must(uint32_t answer, uint32_t want, const char *what);
