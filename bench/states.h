// States of the guard that work items begin with.
#pragma once
#include <stdbool.h>

#include "guard.h"

// The groups of every peer, and the image under which all of them connect and are passed.
extern uint32_t gids[16];
extern struct bytes passing;

// Stops the benchmark where b does not hold.
void must(bool b, const char *what);

struct bytes started(int peers);
struct bytes served(int peers);
struct bytes named(void);
struct bytes halfway(struct bytes head);
struct bytes behind(struct bytes head);
struct bytes full(void);

// 16 waits for each peer, of which 8 began at tick 0 and 8 at this one.
struct bytes waiting(uint64_t tick);
// Peers whose serials fall from call to call, so that the test of memory looks for each.
struct bytes falling(void);

// All that a memory can hold at once: that of `full`, and each peer behind the dearest head.
struct bytes crowded(void);

// Each peer has 16 gids, of which the last is that of a NEARLY rule, its uid, and four names that differ from its name in their last bytes.
struct bytes nearly(void);
