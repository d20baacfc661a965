// Ticks: what setting one costs, and what it costs to end waits.
#include "jobs.h"

#include <stdlib.h>
#include <string.h>

#include "states.h"

// Waits begin at 0 and at HALF, and end at LATER.
enum { HALF = 10, LATER = 15 };

// A tick that ends nothing leaves the same waits for the next, which is one later.
static uint64_t tick(const struct job *j) {
    static uint64_t last = LATER;
    return guard_tick(j->memory, ++last, j->limit);
}

// Waits end once only, so memory is put back before each tick. What that costs is counted by itself and taken off.
static uint64_t put_back(const struct job *j) {
    memcpy(j->memory.at, j->a.at, j->a.len);
    return 0;
}

static uint64_t put_back_and_tick(const struct job *j) {
    put_back(j);
    return guard_tick(j->memory, LATER, j->limit);
}

static void quiet(const char *work, struct bytes m, uint64_t limit) {
    struct job *j = add(work, "ours", tick, 0);
    j->memory = m, j->limit = limit;
}

static void ending(const char *work, struct bytes m, uint64_t limit, uint64_t ended) {
    struct bytes kept = {malloc(m.len), m.len};
    memcpy(kept.at, m.at, m.len);
    struct job *j = add(work, "ends", put_back_and_tick, 256 * ended);
    j->memory = m, j->a = kept, j->limit = limit;
    j = add(work, "put back", put_back, 0);
    j->memory = m, j->a = kept;
}

void all_ticks(void) {
    quiet("tick, empty", started(0), 0);
    quiet("tick, 16 idle peers", started(PEERS), 0);
    quiet("tick, 256 waits, none expires", waiting(0), UINT64_MAX);
    ending("tick, 256 waits, the older half expires", waiting(HALF), LATER, 128);
    ending("tick, 256 waits, all expire", waiting(0), LATER, 256);
    ending("tick, 256 waits expire, 64 names of 255 bytes, the dearest heads", crowded(), LATER, 256);
}
