#include "states.h"

#include <stdio.h>
#include <stdlib.h>
#include <string.h>

uint32_t gids[16] = {100, 101, 102, 103, 104, 105, 106, 107, 108, 109, 110, 111, 112, 113, 114, 115};
struct bytes passing;

void must(bool b, const char *what) {
    if (b) return;
    fprintf(stderr, "driver: %s\n", what);
    exit(1);
}

struct bytes started(int peers) {
    struct bytes m = {aligned_alloc(64, (MEMORY + 63) / 64 * 64), MEMORY};
    guard_start(m);
    for (int i = 0; i < peers; i++) must(guard_connect(passing, m, 1000 + i, gids, 2) == (uint32_t)i + 1, "connect");
    return m;
}

static void own(struct bytes m, uint32_t peer, const char *name) {
    must(guard_own(passing, m, peer, name, strlen(name)) % 256 == 0, "own");
}

// The first peer owns the name of the message that is judged, and the name of 255 bytes.
struct bytes served(int peers) {
    struct bytes m = started(peers);
    own(m, 1, NAME);
    own(m, 1, name_of(1, 255));
    return m;
}

struct bytes named(void) {
    struct bytes m = started(PEERS);
    for (int i = 1; i <= PEERS; i++) {
        char name[32];
        sprintf(name, "org.example.Service.N%03d", i);
        own(m, i, name);
    }
    return m;
}

struct bytes halfway(struct bytes head) {
    struct bytes m = started(PEERS);
    for (int i = 1; i <= PEERS; i++) must(guard_piece(passing, m, i, head.at, 2000) == 10 + 256 * 2000, "half");
    return m;
}

// Each peer's stream is behind a whole head, and the body has not begun: its head is kept, and every test of the memory reads it.
struct bytes behind(struct bytes head) {
    struct bytes m = started(PEERS);
    for (int i = 1; i <= PEERS; i++) must(guard_piece(passing, m, i, head.at, head.len) == 10 + 256 * head.len, "behind");
    return m;
}

// The calls of each peer with serials from one to another, all to the first peer.
static void await(struct bytes m, int from, int to) {
    struct bytes c = message_bytes(&(struct message){.kind = 1, .path = "/", .member = "M", .destination = ":1.1"});
    for (int i = 1; i <= PEERS; i++)
        for (int k = from; k <= to; k++) {
            c.at[8] = k;
            must(guard_piece(passing, m, i, c.at, c.len) % 256 == 0, "wait");
        }
}

struct bytes waiting(uint64_t tick) {
    struct bytes m = started(PEERS);
    await(m, 1, 8);
    must(guard_tick(m, tick, UINT64_MAX) == 0, "tick");
    await(m, 9, 16);
    return m;
}

struct bytes falling(void) {
    struct bytes m = started(PEERS);
    for (int serial = 16; serial >= 1; serial--) await(m, serial, serial);
    return m;
}

// Four names of 255 bytes and 16 waits for each peer.
struct bytes full(void) {
    struct bytes m = started(PEERS);
    for (int i = 0; i < 4 * PEERS; i++) {
        char *name = name_of(1, 255);
        name[253] = 'a' + i / 26, name[254] = 'a' + i % 26;
        own(m, 1 + i / 4, name);
    }
    await(m, 1, 16);
    return m;
}

struct bytes crowded(void) {
    struct bytes m = full(), head = dearest_head(1);
    for (int i = 1; i <= PEERS; i++) must(guard_piece(passing, m, i, head.at, head.len) == 10 + 256 * head.len, "behind");
    return m;
}

struct bytes nearly(void) {
    struct bytes m = started(0);
    for (int i = 0; i < PEERS; i++) must(guard_connect(passing, m, 1000, gids, 16) == (uint32_t)i + 1, "connect");
    for (int i = 0; i < 4 * PEERS; i++) {
        char name[32];
        sprintf(name, "org.example.Service.Fi%03d", i);
        own(m, 1 + i / 4, name);
    }
    return m;
}
