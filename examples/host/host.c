/* host.c: how a daemon uses the guard.
 *
 *     host CAPTURE                  one call of aygeshunt_piece for each piece
 *     host --places COUNT CAPTURE   each piece is offered whole, by aygeshunt_batch with 1 to 4096 places
 *
 * A daemon has sockets; this program has a capture, which is a policy image and the calls that a daemon made (tools/README.md says how it is
 * laid out). All else is as in a daemon: it lends the guard its memory and the image, makes the calls, and does as the places say. To do
 * is here to print. */
#include <errno.h>
#include <inttypes.h>
#include <stdbool.h>
#include <stdio.h>
#include <stdlib.h>
#include <string.h>

#include "aygeshunt.h"

enum { MOST_PLACES = 4096 };

/* Bytes that somebody else holds. */
struct bytes {
    const uint8_t *at;
    size_t length;
};

/* What a daemon has for its guard. */
struct host {
    struct bytes image;
    uint8_t *memory; /* everything that the guard knows; nobody else writes here */
    size_t memory_length;
    uint8_t *places; /* where the calls report */
    size_t places_count;
    bool in_batches;
};

static void *must(void *memory) {
    if (memory) return memory;
    fputs("host: out of memory\n", stderr);
    exit(EXIT_FAILURE);
}

/* ---- what is printed ---- */

enum { END = -1 };

/* The words that each call fills, in the order in which they are printed. */
static const int ONLY_ANSWER[] = {AYGESHUNT_ANSWER, END};
static const int OF_CONNECT[] = {AYGESHUNT_ANSWER, AYGESHUNT_NUMBER, AYGESHUNT_SLOT, AYGESHUNT_DECIDER, AYGESHUNT_POSITION, END};
static const int OF_OWN[] = {AYGESHUNT_ANSWER, AYGESHUNT_DECIDER, AYGESHUNT_POSITION, END};
static const int OF_PIECE[] = {AYGESHUNT_ANSWER, AYGESHUNT_TAKEN,   AYGESHUNT_KIND,     AYGESHUNT_VALUE,
                               AYGESHUNT_COUNT,  AYGESHUNT_DECIDER, AYGESHUNT_POSITION, END};
static const int OF_DISCONNECT[] = {AYGESHUNT_ANSWER, AYGESHUNT_BYTES, END};
static const int OF_TICK[] = {AYGESHUNT_ANSWER, AYGESHUNT_ENDED, END};

static const uint8_t *place_at(const struct host *host, size_t index) {
    return host->places + index * AYGESHUNT_PLACE_LENGTH;
}

/* A line for each place that a call wrote. Of the places behind them nothing is known, so they are not looked at. */
static void report(const struct host *host, const char *call, const int *words, size_t written) {
    for (size_t index = 0; index < written; index++) {
        fputs(call, stdout);
        for (const int *word = words; *word != END; word++)
            printf(" %" PRIu32, aygeshunt_word(place_at(host, index), (size_t)*word));
        putchar('\n');
    }
}

/* ---- the calls ---- */

static void start(struct host *host) {
    report(host, "start", ONLY_ANSWER, aygeshunt_start(host->memory, host->memory_length, host->places, AYGESHUNT_PLACE_LENGTH));
}

/* The guard wants its gids as numbers of 32 bits, aligned, and a pointer even where there are none. */
static void connect_peer(struct host *host, uint32_t uid, struct bytes given) {
    size_t count = given.length / 4;
    uint32_t *gids = must(calloc(count + 1, sizeof *gids));
    for (size_t index = 0; index < count; index++)
        gids[index] = aygeshunt_word(given.at, index);
    report(host, "connect", OF_CONNECT,
           aygeshunt_connect(host->image.at, host->image.length, host->memory, host->memory_length, uid, gids, count, host->places,
                             AYGESHUNT_PLACE_LENGTH));
    free(gids);
}

static void own(struct host *host, uint32_t peer, struct bytes name) {
    report(host, "own", OF_OWN,
           aygeshunt_own(host->image.at, host->image.length, host->memory, host->memory_length, peer, name.at, name.length, host->places,
                         AYGESHUNT_PLACE_LENGTH));
}

static void release(struct host *host, uint32_t peer, struct bytes name) {
    report(host, "release", ONLY_ANSWER,
           aygeshunt_release(host->memory, host->memory_length, peer, name.at, name.length, host->places, AYGESHUNT_PLACE_LENGTH));
}

static void disconnect(struct host *host, uint32_t peer) {
    report(host, "disconnect", OF_DISCONNECT,
           aygeshunt_disconnect(host->memory, host->memory_length, peer, host->places, AYGESHUNT_PLACE_LENGTH));
}

/* A daemon makes a tick of its monotonic clock each time that it wakes, before it offers what has come, and wakes once in a while where nothing comes
 * (README.md shows its loop). A capture has what its clock said. */
static void tick(struct host *host, uint64_t now, uint64_t limit) {
    report(host, "tick", OF_TICK, aygeshunt_tick(host->memory, host->memory_length, now, limit, host->places, AYGESHUNT_PLACE_LENGTH));
}

/* At most one message of the piece is taken. A capture made for single calls has what was left as its next piece. */
static void piece(struct host *host, uint32_t peer, struct bytes bytes) {
    report(host, "piece", OF_PIECE,
           aygeshunt_piece(host->image.at, host->image.length, host->memory, host->memory_length, peer, bytes.at, bytes.length, host->places,
                           AYGESHUNT_PLACE_LENGTH));
}

/* Whether what a batch left is to be offered again. It is where the last message was passed or dropped and there was no place for the next.
 * A broken head (1 to 9) closed the stream, so that its rest is nobody's; and 30 to 51 would only come again. */
static bool goes_on(const struct host *host, size_t written) {
    if (written == 0) return false;
    uint32_t answer = aygeshunt_word(place_at(host, written - 1), AYGESHUNT_ANSWER);
    return answer == AYGESHUNT_DONE || (answer >= AYGESHUNT_UNKNOWN_TYPE && answer <= AYGESHUNT_TOO_MANY_PENDING);
}

/* What was read from a peer's socket, however many messages that is. A daemon sends the messages on where this reports them: message by
 * message the places say how many bytes each has and who gets it. */
static void offer(struct host *host, uint32_t peer, struct bytes bytes) {
    size_t taken = 0, written;
    do {
        bytes.at += taken;
        bytes.length -= taken;
        written = aygeshunt_batch(host->image.at, host->image.length, host->memory, host->memory_length, peer, bytes.at, bytes.length,
                                  host->places, host->places_count * AYGESHUNT_PLACE_LENGTH, &taken);
        printf("batch %zu %zu\n", written, taken);
        report(host, "piece", OF_PIECE, written);
    } while (taken < bytes.length && goes_on(host, written));
}

/* ---- captures ---- */

/* The calls, by their numbers in a capture. */
enum { START, CONNECT, OWN, RELEASE, PIECE, DISCONNECT, TICK };

/* Takes a number from the front. Captures have numbers as places have them. */
static bool take_number(struct bytes *rest, uint32_t *number) {
    if (rest->length < 4) return false;
    *number = aygeshunt_word(rest->at, 0);
    rest->at += 4;
    rest->length -= 4;
    return true;
}

/* Takes a number of 64 bits from the front, its lower half first. */
static bool take_long(struct bytes *rest, uint64_t *number) {
    uint32_t low, high;
    if (!take_number(rest, &low) || !take_number(rest, &high)) return false;
    *number = low | (uint64_t)high << 32;
    return true;
}

/* Takes a length from the front, and as many bytes. */
static bool take_bytes(struct bytes *rest, struct bytes *taken) {
    uint32_t length;
    if (!take_number(rest, &length) || rest->length < length) return false;
    taken->at = rest->at;
    taken->length = length;
    rest->at += length;
    rest->length -= length;
    return true;
}

static bool make_tick(struct host *host, struct bytes given) {
    uint64_t now, limit;
    if (!take_long(&given, &now) || !take_long(&given, &limit) || given.length != 0) return false;
    tick(host, now, limit);
    return true;
}

/* Makes the call at the front; false where it breaks the layout, and then no call is made. */
static bool make_call(struct host *host, struct bytes *rest) {
    struct bytes given;
    uint32_t kind, first;
    if (!take_number(rest, &kind) || !take_bytes(rest, &given)) return false;
    if (kind == START) {
        if (given.length != 0) return false;
        start(host);
        return true;
    }
    if (kind == TICK) return make_tick(host, given);
    /* All others begin with a peer's number or a uid. */
    if (kind > DISCONNECT || !take_number(&given, &first)) return false;
    if (kind == CONNECT && given.length % 4 != 0) return false;
    if (kind == DISCONNECT && given.length != 0) return false;
    switch (kind) {
    case CONNECT: connect_peer(host, first, given); break;
    case OWN: own(host, first, given); break;
    case RELEASE: release(host, first, given); break;
    case DISCONNECT: disconnect(host, first); break;
    default:
        if (host->in_batches) offer(host, first, given);
        else piece(host, first, given);
    }
    return true;
}

/* Makes the calls of a capture, up to the first fault of its layout. Fresh memory may hold anything; from a start on it is the guard's. */
static bool make_calls(struct host *host, struct bytes capture) {
    if (!take_bytes(&capture, &host->image)) return false;
    aygeshunt_start(host->memory, host->memory_length, host->places, AYGESHUNT_PLACE_LENGTH);
    while (capture.length > 0)
        if (!make_call(host, &capture)) return false;
    return true;
}

/* ---- the program ---- */

/* The whole file, in room that is longer than it, so that even what is empty has an address. What cannot be read is empty. */
static uint8_t *read_file(const char *path, size_t *length) {
    size_t room = 1 << 16;
    uint8_t *bytes = must(malloc(room));
    FILE *file = fopen(path, "rb");
    *length = 0;
    while (file) {
        *length += fread(bytes + *length, 1, room - *length, file);
        if (*length < room) break;
        room *= 2;
        bytes = must(realloc(bytes, room));
    }
    if (file && ferror(file)) *length = 0;
    if (file) fclose(file);
    return bytes;
}

/* A count of places from the command line; 0 where it is none. */
static size_t count_of(const char *text) {
    char *end;
    errno = 0;
    unsigned long count = strtoul(text, &end, 10);
    bool is_count = *text >= '0' && *text <= '9' && *end == '\0' && errno == 0;
    return is_count && count <= MOST_PLACES ? count : 0;
}

/* Lends the guard its memory and room for its reports, replays the capture, and takes all back. */
static int replay(const char *path, size_t places_count, bool in_batches) {
    struct host host = {.memory_length = aygeshunt_memory_length(), .places_count = places_count, .in_batches = in_batches};
    size_t length;
    uint8_t *file = read_file(path, &length);
    host.memory = must(malloc(host.memory_length));
    host.places = must(malloc(places_count * AYGESHUNT_PLACE_LENGTH));
    bool is_whole = make_calls(&host, (struct bytes){file, length});
    if (!is_whole) puts("bad capture");
    free(host.places);
    free(host.memory);
    free(file);
    return fflush(stdout) == 0 && is_whole ? EXIT_SUCCESS : EXIT_FAILURE;
}

int main(int argc, char **argv) {
    if (aygeshunt_memory_length() != AYGESHUNT_MEMORY_LENGTH) {
        fputs("host: aygeshunt.h and libaygeshunt.a are of different versions\n", stderr);
        return 2;
    }
    if (argc == 2) return replay(argv[1], 1, false);
    size_t count = argc == 4 && strcmp(argv[1], "--places") == 0 ? count_of(argv[2]) : 0;
    if (count > 0) return replay(argv[3], count, true);
    fprintf(stderr, "usage: host [--places COUNT] CAPTURE\nCOUNT is 1 to %d.\n", MOST_PLACES);
    return 2;
}
