// Ticks and the waits that they end. Expected numbers and bytes are written by hand from docs/RULES.md and docs/MEMORY.md.
#include <stdlib.h>
#include <string.h>

#include "cases.h"
#include "check.h"
#include "inputs.h"
#include "rooms.h"
#include "states.h"

// Ticks that four bytes cannot hold.
#define HIGH ((uint64_t)1 << 32)
#define MOST_TICKS UINT64_MAX

static slice with_tick(uint64_t tick) {
    slice m = copied();
    uint32_t ended;
    must(ticked(m.at, tick, 0, &ended), 0, "tick");
    return m;
}

// At tick 0 peer 2 calls peer 1, at 10 peer 1 peer 2, and at 20 peer 2 calls peer 1 and itself.
static slice aged(void) {
    slice m = copied();
    uint32_t ended;
    await(m.at, 2, ":1.1", 1);
    must(ticked(m.at, 10, 11, &ended), 0, "tick");
    await(m.at, 1, ":1.2", 2);
    must(ticked(m.at, 20, 21, &ended), 0, "tick");
    await(m.at, 2, ":1.1", 3);
    await(m.at, 2, ":1.2", 4);
    return m;
}

static void tick(const char *name, slice memory, uint64_t tick, uint64_t limit, int same, uint32_t answer, uint32_t ended) {
    run((call){.name = name, .kind = TICK, .memory = memory, .tick = tick, .limit = limit, .same = same, .expect = {{answer, 0, 0, ended}}});
}

// Which ticks are good, on memory that awaits nothing.
void tick_cases(void) {
    slice m = fresh_memory(), five = with_tick(5), high = with_tick(HIGH), most = with_tick(MOST_TICKS), longer = {calloc(1, MEMORY + 1), MEMORY + 1};
    tick("tick 0 of 0", m, 0, 0, 1, 0, 0);
    tick("tick 1", m, 1, 0, 0, 0, 0);
    tick("tick, every byte", m, 0x0807060504030201, 0, 0, 0, 0);
    tick("tick, the most", m, MOST_TICKS, MOST_TICKS, 0, 0, 0);
    tick("tick again", five, 5, 0, 1, 0, 0);
    tick("tick one lower", five, 4, 0, 1, 41, 0);
    tick("tick 0 of 5", five, 0, MOST_TICKS, 1, 41, 0);
    tick("tick one higher", five, 6, 0, 0, 0, 0);
    tick("tick lower in the high word", high, HIGH - 1, 0, 1, 41, 0);
    tick("tick higher in the high word", five, HIGH, 0, 0, 0, 0);
    tick("the most again", most, MOST_TICKS, 0, 1, 0, 0);
    tick("one below the most", most, MOST_TICKS - 1, 0, 1, 41, 0);
    tick("tick, a byte short", (slice){five.at, MEMORY - 1}, 4, 0, 1, 51, 0);
    tick("tick, a byte more", longer, 4, 0, 1, 51, 0);
    tick("tick, no memory", empty, 4, 0, 1, 51, 0);
    uint8_t place[PLACE], *want = longer.at;
    memcpy(want, fresh, MEMORY);
    put_long(want + TICK_AT, 0x0807060504030201);
    slice set = copied();
    aygeshunt_tick(set.at, MEMORY, 0x0807060504030201, 0, place, PLACE);
    check(!memcmp(set.at, want, MEMORY) && set.at[TICK_AT] == 1 && set.at[TICK_AT + 7] == 8, "memory with a tick is otherwise than it is written down");
    free(five.at), free(high.at), free(most.at), free(longer.at), free(set.at);
}

// ---- ages

// Ages at and beside the limit, of calls that passed at 0, 10, 20 and 20.
static void age_cases(void) {
    slice m = aged();
    tick("nothing is that old", m, 20, 21, 1, 0, 0);
    tick("one is just that old", m, 20, 20, 0, 0, 1);
    tick("one is old enough", m, 20, 11, 0, 0, 1);
    tick("two are", m, 20, 10, 0, 0, 2);
    tick("two are, by a limit of 1", m, 20, 1, 0, 0, 2);
    tick("all, by a limit of 0", m, 20, 0, 0, 0, 4);
    tick("two at a later tick", m, 29, 10, 0, 0, 2);
    tick("all at a later tick", m, 30, 10, 0, 0, 4);
    tick("no age reaches the most", m, 21, MOST_TICKS, 0, 0, 0);
    tick("too low, and all would end", m, 19, 0, 1, 41, 0);
    tick("0, and all would end", m, 0, 0, 1, 41, 0);
    tick("the oldest has the most", m, MOST_TICKS, MOST_TICKS, 0, 0, 1);
    tick("two are near the most", m, MOST_TICKS, MOST_TICKS - 19, 0, 0, 2);
    tick("all are near the most", m, MOST_TICKS, MOST_TICKS - 20, 0, 0, 4);
    tick("ages above four bytes, a limit of few", m, HIGH + 20, 25, 0, 0, 4);
    tick("ages and limit above four bytes", m, HIGH + 20, HIGH + 1, 0, 0, 2);
    tick("a limit above four bytes", m, 30, HIGH, 0, 0, 0);
    free(m.at);
}

// A pending call in memory, as docs/MEMORY.md has it.
static void put_call(uint8_t *memory, size_t slot, size_t index, uint32_t callee, uint32_t serial, uint64_t tick) {
    uint8_t *at = memory + SLOTS_AT + SLOT * slot + CALLS + CALL * index;
    put_word(at, callee), put_word(at + 4, serial), put_long(at + CALL_TICK, tick);
}

static void put_count(uint8_t *memory, size_t slot, uint32_t count) { put_word(memory + SLOTS_AT + SLOT * slot + PENDING, count); }

// What stays moves down with its tick, and what is not used is zero.
static void memory_after(void) {
    slice m = aged(), want = copied();
    uint32_t ended;
    doing = "memory with waits";
    put_long(want.at + TICK_AT, 20);
    put_count(want.at, 0, 1), put_call(want.at, 0, 0, 2, 2, 10);
    put_count(want.at, 1, 3), put_call(want.at, 1, 0, 1, 1, 0), put_call(want.at, 1, 1, 1, 3, 20), put_call(want.at, 1, 2, 2, 4, 20);
    check(!memcmp(m.at, want.at, MEMORY), "it is otherwise than it is written down");
    doing = "memory behind a tick";
    must(ticked(m.at, 29, 10, &ended), 0, "tick");
    put_long(want.at + TICK_AT, 29);
    put_count(want.at, 0, 0), put_call(want.at, 0, 0, 0, 0, 0);
    put_count(want.at, 1, 2), put_call(want.at, 1, 0, 1, 3, 20), put_call(want.at, 1, 1, 2, 4, 20), put_call(want.at, 1, 2, 0, 0, 0);
    check(ended == 2 && !memcmp(m.at, want.at, MEMORY), "%u ended, or it is otherwise than it is written down", ended);
    await(m.at, 2, ":1.1", 1);
    put_count(want.at, 1, 3), put_call(want.at, 1, 2, 1, 1, 29);
    check(!memcmp(m.at, want.at, MEMORY), "a new wait is otherwise than it is written down");
    free(m.at), free(want.at);
}

// The one call on a copy of aged(), which must be answered 0, and what it leaves.
static slice behind(enum kind kind, uint32_t peer, slice bytes) {
    slice m = aged();
    doing = "what other calls do to ticks";
    must(single(kind, m.at, peer, bytes, 0), 0, "a call on memory with ticks");
    return m;
}

// A wait that ends takes its own tick along and no other's.
static void endings(void) {
    static stream reply;
    add(&reply, reply_to(":1.2", 1));
    slice replied = behind(PIECE, 1, all_of(&reply)), left = behind(DISCONNECT, 1, empty), want = aged();
    put_count(want.at, 1, 2), put_call(want.at, 1, 0, 1, 3, 20), put_call(want.at, 1, 1, 2, 4, 20), put_call(want.at, 1, 2, 0, 0, 0);
    check(!memcmp(replied.at, want.at, MEMORY), "memory behind a reply is otherwise than it is written down");
    memset(want.at + SLOTS_AT, 0, SLOT);
    put_count(want.at, 1, 1), put_call(want.at, 1, 0, 2, 4, 20), put_call(want.at, 1, 1, 0, 0, 0);
    check(!memcmp(left.at, want.at, MEMORY), "memory behind a disconnect is otherwise than it is written down");
    free(replied.at), free(left.at), free(want.at);
}

// Neither the last tick nor a wait is touched by calls that end and begin none.
static void others_keep_it(void) {
    slice all[] = {behind(CONNECT, 1003, empty), behind(OWN, 2, text("c.d")), behind(RELEASE, 1, text("a.b")), behind(PIECE, 1, call_c()), behind(BATCH, 1, call_c())};
    slice m = aged();
    for (size_t i = 0; i < sizeof all / sizeof *all; i++) {
        check(!memcmp(all[i].at + TICK_AT, m.at + TICK_AT, 8), "the last tick of call %zu changed", i);
        for (size_t slot = 0; slot < 2; slot++)
            check(!memcmp(all[i].at + SLOTS_AT + SLOT * slot + PENDING, m.at + SLOTS_AT + SLOT * slot + PENDING, CALLS - PENDING + 16 * CALL), "waits of call %zu changed", i);
        free(all[i].at);
    }
    free(m.at);
}

// As many waits as a guard holds: the count needs more than a byte.
static void full_cases(void) {
    slice m = copied(), bare = copied();
    uint32_t ended;
    for (uint32_t i = 2; i < 16; i++) must(single(CONNECT, m.at, 1000 + i, empty, 0), 0, "connect");
    memcpy(bare.at, m.at, MEMORY);
    for (uint32_t peer = 1; peer <= 16; peer++)
        for (uint32_t serial = 1; serial <= 16; serial++) await(m.at, peer, ":1.16", serial);
    tick("256 waits, none is old", m, 6, 7, 0, 0, 0);
    tick("256 waits end", m, 7, 7, 0, 0, 256);
    must(ticked(m.at, 7, 7, &ended), 0, "tick");
    put_long(bare.at + TICK_AT, 7);
    check(ended == 256 && !memcmp(m.at, bare.at, MEMORY), "%u ended, or something is left of them", ended);
    free(m.at), free(bare.at);
}

static void piece(const char *name, slice memory, uint32_t peer, message sent, int same, const uint32_t *expect) {
    stream bytes = {.len = 0};
    call c = {.name = name, .kind = PIECE, .image = open_image, .memory = memory, .peer = peer, .bytes = {NULL, 0}, .same = same};
    add(&bytes, sent);
    c.bytes = all_of(&bytes);
    memcpy(c.expect[0], expect, sizeof c.expect[0]);
    run(c);
}

// What has ended is no longer waited for: 24 for its reply, no 25 for the same call, no 26 for the next.
void expiry_cases(void) {
    static const uint32_t late[WORDS] = {24, 40}, reply[WORDS] = {0, 40, 2, 2}, passed[WORDS] = {0, 64, 2, 1, 0, 1, 1}, pending[WORDS] = {25, 64, 0, 0, 0, 1, 1},
                          too_many[WORDS] = {26, 64, 0, 0, 0, 1, 1};
    slice m = aged(), full = copied();
    uint32_t ended;
    age_cases();
    memory_after();
    endings();
    others_keep_it();
    full_cases();
    piece("before it has ended: its reply", m, 1, reply_to(":1.2", 1), 0, reply);
    piece("before it has ended: the same call", m, 2, to_peer(":1.1", 1, 0), 1, pending);
    must(ticked(m.at, 29, 10, &ended), 0, "tick");
    piece("a late reply", m, 1, reply_to(":1.2", 1), 1, late);
    piece("the same call again", m, 2, to_peer(":1.1", 1, 0), 0, passed);
    piece("the reply to a younger one", m, 1, reply_to(":1.2", 3), 0, reply);
    piece("a younger one again", m, 2, to_peer(":1.1", 3, 0), 1, pending);
    for (uint32_t serial = 1; serial <= 15; serial++) await(full.at, 2, ":1.1", serial);
    must(ticked(full.at, 5, 6, &ended), 0, "tick");
    await(full.at, 2, ":1.1", 16);
    piece("no room for one more", full, 2, to_peer(":1.1", 17, 0), 1, too_many);
    must(ticked(full.at, 5, 5, &ended), 0, "tick");
    check(ended == 15, "%u of 16 waits ended, not 15", ended);
    piece("room again", full, 2, to_peer(":1.1", 17, 0), 0, passed);
    free(m.at), free(full.at);
}

// ---- memory that is not good

// A tick where it may not be is 51 in every call but start.
void damage_cases(void) {
    static const enum kind kinds[] = {CONNECT, OWN, PIECE, BATCH, RELEASE, DISCONNECT, TICK};
    slice older = aged(), newer = aged(), unused = aged(), freed = aged();
    put_long(older.at + TICK_AT, 19);
    put_call(newer.at, 1, 0, 1, 1, HIGH);
    put_call(unused.at, 0, 1, 0, 0, 1);
    put_call(freed.at, 15, 15, 0, 0, HIGH << 24);
    struct {
        const char *name;
        slice memory;
    } cases[] = {{"a last tick below a wait's", older}, {"a wait above the last tick", newer}, {"a tick behind the last wait", unused}, {"a tick in a free slot", freed},
                 {"memory of version 0.9.0", {fresh, 52676}}};
    for (size_t k = 0; k < sizeof kinds / sizeof *kinds; k++)
        for (size_t i = 0; i < sizeof cases / sizeof *cases; i++)
            // the peer is there and the tick is lower than the last one, which comes behind
            run((call){.name = cases[i].name, .kind = kinds[k], .image = open_image, .memory = cases[i].memory, .peer = 1, .bytes = call_c(), .tick = 1, .same = 1,
                       .expect = {{51}}});
    put_call(newer.at, 1, 0, 1, 1, 20);
    tick("a wait at the last tick", newer, 20, 21, 1, 0, 0);
    free(older.at), free(newer.at), free(unused.at), free(freed.at);
}
