// A call with rooms of several lengths, everything that it is lent in each placement: what it writes, and what it leaves alone.
#pragma once
#include "calls.h"

// Lengths of rooms: none, whole places, and a byte more and less than them.
enum { ROOMS = 12 };
extern const size_t rooms[ROOMS];

// A call with each of the rooms.
void run(call c);

// A call that changes memory where there is room for `least` places, and not where there is less, with one room, which holds bytes of that salt.
void run_changing(const call *c, size_t room_len, size_t least, uint8_t salt);
