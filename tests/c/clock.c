// A daemon's loop with a clock, as examples/host/README.md shows it: a call passes in a turn and ends by a limit of 0. However long it takes, the answers are
// the same.
#define _POSIX_C_SOURCE 200809L
#include <aygeshunt.h>
#include <poll.h>
#include <stdio.h>
#include <string.h>
#include <time.h>
#include <unistd.h>

#include "inputs.h"

static uint8_t memory[AYGESHUNT_MEMORY_LENGTH];
static int passed;

// What a client has sent is offered; here there is one client, which is peer 1.
static void serve(const struct pollfd *client) {
    uint8_t bytes[256], place[AYGESHUNT_PLACE_LENGTH];
    ssize_t count = read(client->fd, bytes, sizeof bytes);
    if (count <= 0) return;
    aygeshunt_piece(open_image.at, open_image.len, memory, sizeof memory, 1, bytes, (size_t)count, place, sizeof place);
    passed += aygeshunt_word(place, AYGESHUNT_ANSWER) == AYGESHUNT_DONE;
}

enum { WAKE = 1000, LIMIT = 60000 };  /* milliseconds: a turn at least once a second, and a minute for a reply */

/* A clock that cannot be set and never goes back. */
static uint64_t now(void) {
    struct timespec time;
    clock_gettime(CLOCK_MONOTONIC, &time);
    return (uint64_t)time.tv_sec * 1000 + (uint64_t)time.tv_nsec / 1000000;
}

/* A turn of the loop. The tick comes first, so that calls which pass in this turn begin at it. */
static void turn(struct pollfd *clients, nfds_t count) {
    uint8_t place[AYGESHUNT_PLACE_LENGTH];
    poll(clients, count, WAKE);
    aygeshunt_tick(memory, sizeof memory, now(), LIMIT, place, sizeof place);
    if (aygeshunt_word(place, AYGESHUNT_ENDED) > 0) fprintf(stderr, "%u calls got no reply in time\n", (unsigned)aygeshunt_word(place, AYGESHUNT_ENDED));
    for (nfds_t i = 0; i < count; i++)
        if (clients[i].revents) serve(&clients[i]);
}

// What a tick answers, and how many ended.
static int ticks(uint64_t tick, uint64_t limit, uint32_t answer, uint32_t ended) {
    uint8_t place[AYGESHUNT_PLACE_LENGTH];
    aygeshunt_tick(memory, sizeof memory, tick, limit, place, sizeof place);
    return aygeshunt_word(place, AYGESHUNT_ANSWER) == answer && aygeshunt_word(place, AYGESHUNT_ENDED) == ended;
}

int main(void) {
    int ends[2];
    uint8_t place[AYGESHUNT_PLACE_LENGTH];
    static stream sent;
    make_inputs();
    add(&sent, to_peer(":1.2", 7, 0));
    aygeshunt_start(memory, sizeof memory, place, sizeof place);
    for (uint32_t uid = 1000; uid < 1002; uid++)
        aygeshunt_connect(open_image.at, open_image.len, memory, sizeof memory, uid, (const uint32_t[]){0}, 0, place, sizeof place);
    if (pipe(ends) || write(ends[1], sent.at, sent.len) != (ssize_t)sent.len) return 1;
    struct pollfd client = {.fd = ends[0], .events = POLLIN};
    turn(&client, 1);
    if (passed != 1) return 2;
    if (!ticks(now(), UINT64_MAX, AYGESHUNT_DONE, 0)) return 3;
    if (!ticks(0, 0, AYGESHUNT_TICK_TOO_LOW, 0)) return 4;
    return ticks(now(), 0, AYGESHUNT_DONE, 1) ? 0 : 5;
}
