#include "inputs.h"

#include <string.h>

void put_word(uint8_t *at, uint32_t x) {
    for (int i = 0; i < 4; i++) at[i] = (uint8_t)(x >> 8 * i);
}

void put_long(uint8_t *at, uint64_t x) {
    put_word(at, (uint32_t)x);
    put_word(at + 4, (uint32_t)(x >> 32));
}

slice text(const char *s) { return (slice){(uint8_t *)(uintptr_t)s, strlen(s)}; }

// ---- messages

// A field of a head that holds a text.
static size_t put_text(uint8_t *to, size_t at, uint8_t code, char letter, const char *text) {
    if (!text) return at;
    size_t n = strlen(text);
    at = (at + 7) / 8 * 8;
    memcpy(to + at, (uint8_t[]){code, 1, (uint8_t)letter, 0}, 4);
    put_word(to + at + 4, (uint32_t)n);
    memcpy(to + at + 8, text, n);
    return at + 8 + n + 1;
}

// Writes a message to zeros; how many bytes it has.
static size_t put_message(uint8_t *to, message m) {
    memcpy(to, (uint8_t[]){'l', m.type, m.flags, 1}, 4);
    put_word(to + 4, m.body);
    put_word(to + 8, m.serial);
    size_t at = put_text(to, 16, 1, 'o', m.path);
    at = put_text(to, at, 2, 's', m.interface);
    at = put_text(to, at, 3, 's', m.member);
    if (m.reply) {
        at = (at + 7) / 8 * 8;
        memcpy(to + at, (uint8_t[]){5, 1, 'u', 0}, 4);
        put_word(to + at + 4, m.reply);
        at += 8;
    }
    at = put_text(to, at, 6, 's', m.destination);
    put_word(to + 12, (uint32_t)(at - 16));
    return (at + 7) / 8 * 8 + m.body;
}

void add(stream *s, message m) { s->len += put_message(s->at + s->len, m); }

slice all_of(stream *s) { return (slice){s->at, s->len}; }

const message C = {.type = 1, .serial = 1, .path = "/", .member = "M"};
const message SIGNAL = {.type = 4, .serial = 2, .path = "/", .interface = "a.b", .member = "S"};
const message TYPE_5 = {.type = 5, .serial = 3};

slice call_c(void) {
    static const uint8_t bytes[48] = {0x6c, 1, 0, 1, 0, 0, 0, 0, 1, 0, 0, 0, 0x1a, 0, 0, 0, 1, 1, 0x6f, 0, 1, 0, 0, 0,
                                      0x2f, 0, 0, 0, 0, 0, 0, 0, 3, 1, 0x73, 0, 1, 0, 0, 0, 0x4d, 0, 0, 0, 0, 0, 0, 0};
    return (slice){(uint8_t *)(uintptr_t)bytes, sizeof bytes};
}

message to_peer(const char *destination, uint32_t serial, uint8_t flags) {
    return (message){.type = 1, .flags = flags, .serial = serial, .path = "/", .member = "M", .destination = destination};
}

message reply_to(const char *destination, uint32_t serial) {
    return (message){.type = 2, .serial = 9, .reply = serial, .destination = destination};
}

stream begun_stream, broken_stream;

// ---- images

// Everybody may connect and, where `rules` is set, own, send and receive anything but calls of member "No", which are not to be received.
static slice image_of(int rules, uint8_t *b) {
    size_t own = 40, transactions = own + (rules ? 16 : 0), strings = transactions + (rules ? 120 : 0), end = strings + (rules ? 2 : 0);
    memset(b, 0, end);
    uint32_t head[8] = {(uint32_t)end, 1, 32, rules ? 1 : 0, (uint32_t)own, rules ? 3 : 0, (uint32_t)transactions, (uint32_t)strings};
    for (int i = 0; i < 8; i++) put_word(b + 4 * i, head[i]);
    b[33] = 1;
    if (rules) {
        b[own + 1] = 1;
        b[transactions + 1] = 1;
        memcpy(b + transactions + 40, (uint8_t[]){0, 1, 1, 0}, 4);
        memcpy(b + transactions + 80, (uint8_t[]){0, 0, 1, 0}, 4);
        put_word(b + transactions + 80 + 36, 2);
        memcpy(b + strings, "No", 2);
    }
    return (slice){b, end};
}

static uint8_t open_bytes[256], strict_bytes[64], none_bytes[32], bad_bytes[256];
slice open_image, strict_image, none_image, bad_image, empty;

void make_inputs(void) {
    open_image = image_of(1, open_bytes);
    strict_image = image_of(0, strict_bytes);
    // a head alone, of which every table is empty and begins at its end
    for (int i = 0; i <= 28; i += i == 24 ? 4 : 8) put_word(none_bytes + i, 32);
    none_image = (slice){none_bytes, 32};
    bad_image = image_of(1, bad_bytes);
    bad_bytes[bad_image.len - 3] = 1;
    empty = (slice){none_bytes, 0};
    add(&begun_stream, C), begun_stream.len = 40;
    memcpy(broken_stream.at, call_c().at, 20), broken_stream.at[0] = 'L', broken_stream.len = 20;
}
