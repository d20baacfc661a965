#include "conversions.h"

#include <aygeshunt.h>
#include <stdio.h>
#include <stdlib.h>
#include <string.h>

#include "check.h"
#include "inputs.h"

typedef struct {
    slice image, names;
    size_t room_len;
    uint8_t answer;
    slice result;
} conversion;

// Rooms are longer than any image by this at most.
enum { BEYOND = 64 };

// What a room holds before a call, by a salt. A byte that is written without need is found by one of the two salts at least, which differ in all bits.
static const uint8_t salts[2] = {0x35, 0xca};

// The first bytes of a room; they come again and again, so that long rooms are filled and looked at by many bytes at once.
enum { PERIOD = 256 };
static const uint8_t *filling(uint8_t salt) {
    static uint8_t bytes[PERIOD];
    for (size_t i = 0; i < PERIOD; i++) bytes[i] = (uint8_t)(i * 29 ^ salt);
    return bytes;
}

static size_t least(size_t a, size_t b) { return a < b ? a : b; }

static void fill(uint8_t *at, size_t len, uint8_t salt) {
    const uint8_t *bytes = filling(salt);
    for (size_t i = 0; i < len; i += PERIOD) memcpy(at + i, bytes, least(PERIOD, len - i));
}

static int is_filled(const uint8_t *at, size_t from, size_t to, uint8_t salt) {
    const uint8_t *bytes = filling(salt);
    for (size_t i = from, n; i < to; i += n) {
        n = least(PERIOD - i % PERIOD, to - i);
        if (memcmp(at + i, bytes + i % PERIOD, n)) return 0;
    }
    return 1;
}

static int same(slice one, slice two) { return one.len == two.len && (one.len == 0 || !memcmp(one.at, two.at, one.len)); }

// The answer, the length that is told, the new image in the room, and the bytes behind it, which are all of them where it is refused.
static void check_result(const conversion *c, uint8_t answer, const size_t *length, slice room, uint8_t salt, const char *where) {
    size_t len = c->result.len;
    check(answer == c->answer, "%s: answer %u, not %u", where, answer, c->answer);
    check(length[1] == len, "%s: the length is %zu, not %zu", where, length[1], len);
    check(length[0] == 777 && length[2] == 777, "%s: a number beside the length changed", where);
    check(len <= room.len && same((slice){room.at, len}, c->result), "%s: another image", where);
    check(is_filled(room.at, len, room.len, salt), "%s: a byte of the room changed that is not the image's", where);
}

static void convert_at(const conversion *c, int placement, uint8_t salt) {
    static uint8_t filled[LONGEST_IMAGE + BEYOND];
    char where[64];
    sprintf(where, "room %zu, placement %d", c->room_len, placement);
    fill(filled, c->room_len, salt);
    lent image = lend(c->image, IMAGE, placement, 1), names = lend(c->names, BYTES, placement, 1), room = lend((slice){filled, c->room_len}, ROOM, placement, 1);
    size_t length[3] = {777, 12345, 777};
    uint8_t answer = aygeshunt_retire(image.s.at, image.s.len, names.s.at, names.s.len, room.s.at, room.s.len, &length[1]);
    check_result(c, answer, length, room.s, salt, where);
    check(same(image.s, c->image), "%s: the old image changed", where);
    check(same(names.s, c->names), "%s: the list changed", where);
    free(image.kept), free(names.kept), free(room.kept);
}

void convert_in(const char *name, slice image, slice names, size_t room_len, uint8_t answer, slice result) {
    conversion c = {image, names, room_len, answer, result};
    // what is long is tried beside pages that may not be touched and at one odd address: that is where the others could differ
    int placements = image.len + names.len + room_len > 8192 ? OFFSETS + 2 : PLACEMENTS;
    doing = name;
    for (int placement = 0; placement < placements; placement++)
        for (int s = 0; s < 2; s++) convert_at(&c, placement, salts[s]);
}

void converts(const char *name, slice image, slice names, slice result) {
    const size_t enough[] = {result.len, result.len + 1, LONGEST_IMAGE, LONGEST_IMAGE + BEYOND}, less[] = {0, 1, result.len / 2, result.len - 1};
    for (size_t i = 0; i < sizeof enough / sizeof *enough; i++)
        if (i != 1 || result.len < LONGEST_IMAGE) convert_in(name, image, names, enough[i], 0, result);
    for (size_t i = 0; i < sizeof less / sizeof *less; i++) convert_in(name, image, names, less[i], 53, empty);
}

void refuses(const char *name, slice image, slice names, uint8_t answer) {
    const size_t rooms[] = {0, 1, image.len, LONGEST_IMAGE, LONGEST_IMAGE + BEYOND};
    for (size_t i = 0; i < sizeof rooms / sizeof *rooms; i++) convert_in(name, image, names, rooms[i], answer, empty);
}
