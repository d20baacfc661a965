// Batches: several messages with rooms of every length, and the same bytes by batches and by single calls. Expected numbers are written by hand from
// docs/RULES.md.
#include <stdlib.h>
#include <string.h>

#include "cases.h"
#include "check.h"
#include "inputs.h"
#include "rooms.h"
#include "states.h"

// Call C and a head that is broken at once.
static void add_broken(stream *s) {
    add(s, C);
    memcpy(s->at + s->len, broken_stream.at, broken_stream.len), s->len += broken_stream.len;
}

// ---- rooms of every length

// Call C and a broken head; from the broken one on the stream is closed, which only a room for both can show.
static void broken_cases(void) {
    static stream broken, behind;
    add_broken(&broken);
    behind = broken, add(&behind, C);
    call c = {.name = "a message and a broken one", .kind = BATCH, .image = open_image, .memory = fresh_memory(), .peer = 2, .bytes = all_of(&broken), .count = 2,
              .expect = {{0, 48, 1, 0, 0, 1, 0}, {1, 16}}};
    for (size_t places = 1; places <= MOST; places++) run_changing(&c, PLACE * places, 2, 0x35);
    c.name = "messages behind a broken one", c.bytes = all_of(&behind);
    for (size_t places = 1; places <= MOST; places++) run_changing(&c, PLACE * places, 2, 0x35);
}

// Several messages: as many of the places as there is room for.
void batch_cases(void) {
    static stream three, cut;
    add(&three, C), add(&three, SIGNAL), add(&three, TYPE_5);
    cut = three, memcpy(cut.at + cut.len, "l\1\0\1\0\0\0", 7), cut.len += 7;
    call c = {.name = "three messages", .kind = BATCH, .image = open_image, .memory = fresh_memory(), .peer = 2, .bytes = all_of(&three), .same = 1, .count = 3,
              .expect = {{0, 48, 1, 0, 0, 1, 0}, {0, 64, 3, 3, 2, 0, 0}, {20, 16}, {10, 7}}};
    run(c);
    broken_cases();
    // the bytes behind the messages are held in memory, which only a room for four places can show
    c.name = "three messages and seven bytes", c.bytes = all_of(&cut), c.same = 0, c.count = 4;
    for (size_t r = 0; r < ROOMS; r++) run_changing(&c, rooms[r], 4, 0xca);
}

// ---- batches beside single calls

// What calls one after the other make of a piece, at most so many: places, bytes taken, and memory.
static size_t singly(slice image, uint8_t *memory, uint32_t peer, slice bytes, size_t most, uint8_t *places, size_t *taken) {
    size_t wrote = 0;
    *taken = 0;
    while (wrote < most) {
        uint8_t *place = places + PLACE * wrote;
        if (aygeshunt_piece(image.at, image.len, memory, MEMORY, peer, bytes.at + *taken, bytes.len - *taken, place, PLACE) != 1) break;
        wrote++;
        *taken += aygeshunt_word(place, AYGESHUNT_TAKEN);
        uint32_t answer = aygeshunt_word(place, AYGESHUNT_ANSWER);
        if ((answer >= 1 && answer <= 9) || answer >= 30 || *taken == bytes.len) break;
    }
    return wrote;
}

// Places in the longest list.
enum { LONGEST = 400 };

// Memory of the single calls and of the batches.
static uint8_t one[MEMORY], two[MEMORY];

// A piece offered by batches of `most` places, each beside single calls, until it is used up or ends.
static void offer(slice image, uint32_t peer, slice bytes, size_t most) {
    static uint8_t by_one[PLACE * LONGEST], by_two[PLACE * LONGEST];
    for (;;) {
        size_t taken_one, taken_two = 4711, extra = bytes.len % PLACE;
        memset(by_one, 0xee, sizeof by_one), memset(by_two, 0xee, sizeof by_two);
        size_t wrote_one = singly(image, one, peer, bytes, most, by_one, &taken_one);
        size_t wrote_two = aygeshunt_batch(image.at, image.len, two, MEMORY, peer, bytes.at, bytes.len, by_two, PLACE * most + (most < LONGEST ? extra : 0), &taken_two);
        check(wrote_one == wrote_two, "%zu of %zu places, not %zu", wrote_two, most, wrote_one);
        check(taken_one == taken_two, "%zu bytes taken, not %zu", taken_two, taken_one);
        check(!memcmp(by_one, by_two, sizeof by_one), "other places in a list of %zu", most);
        check(!memcmp(one, two, MEMORY), "other memory after a list of %zu", most);
        if (wrote_two == 0 || wrote_two != wrote_one || taken_two != taken_one || taken_two > bytes.len) return;
        uint32_t answer = aygeshunt_word(by_one + PLACE * (wrote_one - 1), AYGESHUNT_ANSWER);
        bytes.at += taken_two, bytes.len -= taken_two;
        if (bytes.len == 0 || taken_two == 0 || answer >= 30 || (answer >= 1 && answer <= 9)) return;
    }
}

// A stream in two pieces, cut at every byte, with lists of each length.
static void cut_everywhere(const char *name, slice image, const uint8_t *memory, uint32_t peer, slice bytes) {
    static const size_t lists[] = {1, 2, 3, 4, 5, 6, 7, 8, 9, 20};
    doing = name;
    for (size_t cut = 0; cut <= bytes.len; cut++)
        for (size_t l = 0; l < sizeof lists / sizeof *lists; l++) {
            memcpy(one, memory, MEMORY), memcpy(two, memory, MEMORY);
            offer(image, peer, (slice){bytes.at, cut}, lists[l]);
            offer(image, peer, (slice){bytes.at + cut, bytes.len - cut}, lists[l]);
        }
}

// Messages of every kind, one of them with a body and one that is pending already.
static void add_mixed(stream *s) {
    message body = to_peer(":1.2", 8, 0);
    body.body = 13;
    add(s, C), add(s, to_peer("a.b", 1, 0)), add(s, to_peer("a.b", 1, 0)), add(s, SIGNAL), add(s, TYPE_5), add(s, to_peer("x.y", 4, 0));
    add(s, reply_to(":1.1", 3)), add(s, body), add(s, reply_to(":1.2", 8)), add(s, C);
}

// A piece of many messages, with lists that are shorter than it, as long, and longer.
static void many_cases(void) {
    static const size_t lists[] = {1, 2, 3, 4, 5, 6, 7, 8, 16, 32, 64, 128, 256, 299, 300, 301, LONGEST};
    static stream small;
    for (int i = 0; i < 300; i++) add(&small, TYPE_5);
    doing = "300 messages";
    for (size_t l = 0; l < sizeof lists / sizeof *lists; l++) {
        memcpy(one, fresh, MEMORY), memcpy(two, fresh, MEMORY);
        offer(open_image, 1, all_of(&small), lists[l]);
    }
}

// What batches say of streams that are cut anywhere, and the memory that they leave, is what single calls say and leave.
void cut_cases(void) {
    static stream mixed, broken;
    add_mixed(&mixed);
    add_broken(&broken), add(&broken, C), add(&broken, C);
    cut_everywhere("mixed messages", open_image, fresh, 2, all_of(&mixed));
    cut_everywhere("mixed messages, all denied", strict_image, fresh, 2, all_of(&mixed));
    cut_everywhere("broken messages", open_image, fresh, 1, all_of(&broken));
    cut_everywhere("no such peer", open_image, fresh, 3, (slice){mixed.at, 50});
    cut_everywhere("bad image", bad_image, fresh, 1, (slice){mixed.at, 50});
    slice bad = copied();
    bad.at[PENDING_AT] = 1;
    cut_everywhere("bad memory", open_image, bad.at, 1, (slice){mixed.at, 50});
    free(bad.at);
    many_cases();
}
