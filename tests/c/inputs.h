// Messages and images, put together by hand from docs/RULES.md.
#pragma once
#include "lent.h"

// A number in four bytes, little-endian, as messages, images and memory hold it.
void put_word(uint8_t *at, uint32_t x);

// A tick in eight bytes, as memory holds it.
void put_long(uint8_t *at, uint64_t x);

// The bytes of a text, and no bytes at an address that can be read.
slice text(const char *s);
extern slice empty;

// ---- messages

typedef struct {
    uint8_t type, flags;
    uint32_t serial, reply;
    const char *path, *interface, *member, *destination;
    uint32_t body;
} message;

// Call C of rule 13.1, to the bus, and its bytes as the rule shows them.
extern const message C;
slice call_c(void);

extern const message SIGNAL, TYPE_5;
message to_peer(const char *destination, uint32_t serial, uint8_t flags);
message reply_to(const char *destination, uint32_t serial);

// A stream that messages are put into one after the other; it is zeros before.
typedef struct {
    uint8_t at[8192];
    size_t len;
} stream;

void add(stream *s, message m);
slice all_of(stream *s);

// A head that goes on, and one that is broken in its first byte.
extern stream begun_stream, broken_stream;

// ---- images

// Everything is allowed but receiving calls of member "No"; connecting alone; nothing; and an image that is bad: a string of it reaches behind its end.
extern slice open_image, strict_image, none_image, bad_image;

void make_inputs(void);
