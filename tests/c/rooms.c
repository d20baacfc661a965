#include "rooms.h"

#include <stdio.h>
#include <stdlib.h>
#include <string.h>

#include "check.h"

const size_t rooms[ROOMS] = {0, 1, 27, 28, 29, 55, 56, 57, 84, 111, 112, 113};

// What byte i of a room is before a call. A byte that is written without need is found by one of two salts at least, which differ in all bits.
static uint8_t filling(size_t i, uint8_t salt) { return (uint8_t)(i * 29 ^ salt); }

static int is_filled(const uint8_t *at, size_t from, size_t to, uint8_t salt) {
    for (size_t i = from; i < to; i++)
        if (at[i] != filling(i, salt)) return 0;
    return 1;
}

static int says(const uint8_t *place, const uint32_t *expect) {
    for (size_t i = 0; i < WORDS; i++)
        if (aygeshunt_word(place, i) != expect[i]) return 0;
    return 1;
}

static void show(const uint8_t *place, char *to) {
    for (size_t i = 0; i < WORDS; i++) to += sprintf(to, "%u ", aygeshunt_word(place, i));
}

// What was written: the places, nothing behind them, and where they are none, nothing at all.
static void check_room(const call *c, slice room, size_t wrote, uint8_t salt, const char *where) {
    size_t want = room.len / PLACE < c->count ? room.len / PLACE : c->count;
    if (c->kind != BATCH && want > 1) want = 1;
    check(wrote == want, "%s: %zu places written, not %zu", where, wrote, want);
    for (size_t k = 0; k < want; k++) {
        char shown[80];
        show(room.at + PLACE * k, shown);
        check(says(room.at + PLACE * k, c->expect[k]), "%s: place %zu is %s", where, k, shown);
    }
    check(is_filled(room.at, PLACE * want, room.len, salt), "%s: a byte behind the places changed", where);
}

static void check_taken(const call *c, size_t places, const size_t *taken, const char *where) {
    size_t sum = 0;
    for (size_t k = 0; k < places && k < c->count; k++) sum += c->expect[k][AYGESHUNT_TAKEN];
    check(taken[1] == (c->kind == BATCH ? sum : 12345), "%s: taken is %zu, not %zu", where, taken[1], sum);
    check(taken[0] == 777 && taken[2] == 777, "%s: a number beside taken changed", where);
}

// One call with a room of that length, everything at its placement. The memory that it leaves must be `after`, unless nothing may change.
static void run_at(const call *c, size_t room_len, int placement, uint8_t salt, const uint8_t *after) {
    uint8_t filled[256];
    char where[64];
    for (size_t i = 0; i < sizeof filled; i++) filled[i] = filling(i, salt);
    sprintf(where, "room %zu, placement %d", room_len, placement);
    lent image = lend(c->image, IMAGE, placement, 1), memory = lend(c->memory, STATE, placement, 1), bytes = lend(c->bytes, BYTES, placement, 1);
    lent gids = lend((slice){(uint8_t *)(uintptr_t)gids_lent, 4 * c->gids}, GIDS, placement, 4), room = lend((slice){filled, room_len}, ROOM, placement, 1);
    size_t taken[3] = {777, 12345, 777};
    size_t wrote = make(c, image.s, memory.s, bytes.s, (const uint32_t *)(void *)gids.s.at, room.s, &taken[1]);
    check_room(c, room.s, wrote, salt, where);
    check_taken(c, room_len / PLACE, taken, where);
    const uint8_t *left = c->same || room_len < PLACE ? c->memory.at : after;
    check(c->memory.len == 0 || !memcmp(memory.s.at, left, c->memory.len), "%s: memory is not what it is to be", where);
    check(c->image.len == 0 || !memcmp(image.s.at, c->image.at, c->image.len), "%s: the image changed", where);
    check(c->bytes.len == 0 || !memcmp(bytes.s.at, c->bytes.at, c->bytes.len), "%s: the bytes changed", where);
    free(image.kept), free(memory.kept), free(bytes.kept), free(gids.kept), free(room.kept);
}

// Without a whole place nothing is looked at: neither image nor memory nor bytes can be read here.
static void run_blind(const call *c, size_t room_len) {
    uint8_t room[PLACE] = {1, 2, 3};
    slice image = {unreadable(), c->image.len}, memory = {unreadable(), c->memory.len}, bytes = {unreadable(), c->bytes.len};
    size_t taken = 99;
    check(make(c, image, memory, bytes, (const uint32_t *)(void *)unreadable(), (slice){room, room_len}, &taken) == 0, "blind: something was written");
    check(taken == (c->kind == BATCH ? 0 : 99), "blind: taken is %zu", taken);
    check(room[0] == 1 && room[1] == 2 && room[2] == 3 && room[3] == 0, "blind: the room changed");
}

// What the call makes of memory, where only so many places are lent.
static void leave(const call *c, size_t places, uint8_t *after) {
    uint8_t room[PLACE * MOST + 8];
    size_t taken;
    memcpy(after, c->memory.at, c->memory.len);
    make(c, c->image, (slice){after, c->memory.len}, c->bytes, gids_lent, (slice){room, PLACE * places}, &taken);
}

void run(call c) {
    static uint8_t after[MEMORY + 8];
    doing = c.name;
    if (!c.count) c.count = 1;
    for (size_t r = 0; r < ROOMS; r++) {
        size_t places = rooms[r] / PLACE < MOST ? rooms[r] / PLACE : MOST;
        if (places == 0) run_blind(&c, rooms[r]);
        leave(&c, places, after);
        if (places && !c.same) check(memcmp(after, c.memory.at, c.memory.len) != 0, "memory did not change");
        for (int placement = 0; placement < PLACEMENTS; placement++) {
            run_at(&c, rooms[r], placement, 0x35, after);
            run_at(&c, rooms[r], placement, 0xca, after);
        }
    }
}

void run_changing(const call *c, size_t room_len, size_t least, uint8_t salt) {
    static uint8_t after[MEMORY];
    size_t places = room_len / PLACE;
    doing = c->name;
    leave(c, places, after);
    check((memcmp(after, c->memory.at, MEMORY) != 0) == (places >= least), "memory of %zu places", places);
    for (int placement = 0; placement < PLACEMENTS; placement++) run_at(c, room_len, placement, salt, after);
}
