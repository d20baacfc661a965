/* aygeshunt.h: the guard for D-Bus, from C99 or C++. Link libaygeshunt.a (x86-64, System V ABI); c/install puts both in place.
 *
 * The guard is eight calls on memory that the host lends, one that says how long this memory is, and one beside them that makes a new image of a stored
 * one. All it keeps stands in that memory; it allocates nothing, opens nothing and starts nothing, and of the C library it uses memcpy, memmove, memset and
 * memcmp at most. Slices are a pointer and a length. An image is the policy: docs/RULES.md, section 5, says how its bytes are laid out; docs/ANSWERS.md what
 * each answer means to a person.
 *
 * PLACES. A call reports in a place, 28 bytes that the host lends: seven numbers of 32 bits, little-endian, read by aygeshunt_word.
 *
 *     word  0 answer  1 taken  2 kind  3 value            4 count  5 decider  6 position
 *
 *     start        answer  0      0     0                 0        0          0
 *     connect      answer  0      0     peer's number     slot     who decided
 *     own          answer  0      0     0                 0        who decided
 *     release      answer  0      0     0                 0        0          0
 *     piece        answer  taken  kind  number or mask    count    who decided
 *     batch        as piece, a place for each call of it
 *     disconnect   answer  0      0     bytes             0        0          0
 *     tick         answer  0      0     waits ended       0        0          0
 *
 * Each of the eight returns how many places it wrote. Each writes one; a batch as many as it needs and has. The bytes behind the
 * places written keep what they held. Where the room lent for places has less than 28 bytes, a call returns 0 and has tested nothing, not even
 * the image, and changed nothing. Numbers that do not apply are 0.
 *
 * TIME. The guard has no clock; it knows the last tick that aygeshunt_tick told it, and 0 from a start on. A call that awaits its reply keeps the tick that
 * was the last when it passed, and waits until a reply comes, a peer leaves, or a tick finds it as old as that tick's limit. A host that makes no
 * ticks has waits that do not expire. One that does keeps to this:
 *
 * - ticks come from one clock that never goes back, CLOCK_MONOTONIC for instance, and not from one that can be set, as the time of day. Their unit is the
 *   host's own, and so is where they begin; nanoseconds last 584 years. They may leap, and the same one may come again;
 * - what passes between two ticks counts from the earlier one. With a tick in every second a wait ends when it is up to a second older or younger than the
 *   limit; a host that wants it finer makes a tick before it offers what it has read;
 * - the limit is well above what the slowest good reply takes, since a reply that comes later is 24, and no less than callers wait: libdbus and GLib give up
 *   after 25 seconds. Every tick may bring another limit. 0 ends all waits; UINT64_MAX ends none in any clock's life and only sets the tick;
 * - 41 says that the clock went back, and has changed nothing. The last tick may be told again until the clock has passed it. Where the clock began anew while
 *   memory stayed, the host adds the last tick to every further one, or starts the guard anew. The last tick is the last one that was answered 0;
 * - nobody else is told: not the caller that its wait has ended, and the host only how many have.
 *
 * PREFIXES IN STORED IMAGES. An own rule may be about all names under a prefix (matcher 2; of a connect rule that is a gid). A host that wants an image with
 * exact rules instead converts a stored one once, by aygeshunt_retire, and lends the new one from then on:
 *
 * - it lists the names that its services own, in a row, each behind a byte with its length: 05 6f 72 67 2e 61 is org.a. In the new image each prefix rule is
 *   one exact rule for each listed name that it covers, which is the prefix itself and what begins with it and a dot. All other rules stay;
 * - for a listed name the new image decides as the old one did, whatever the uid and the gids. A name that is not listed is covered by no rule that had a
 *   prefix, also by none that denied: where another rule allows it, it is allowed. So names that a prefix was to keep from somebody are listed too;
 * - 65,536 bytes of room are enough for every result, and nothing is gained by more. 256 names take some milliseconds at most, but all names are compared
 *   with each other, so that twice as many can take four times as long (bench/README.md);
 * - the old image is kept. When a service has a further name, the old image is converted again with the longer list: the new one has no prefixes left;
 * - positions that calls show are those of the image that is lent. Own rules behind one that had a prefix stand elsewhere in the new one.
 *
 * WHAT NOBODY CHECKS FOR THE CALLER. Image, memory, names, lists of names, pieces and rooms may hold any bytes and have any length. But
 *
 * - no pointer is NULL. For a length of 0 it may be any other address (in C++, data() of an empty vector may be NULL: do not pass it);
 * - as many bytes as the length says are really there, readable, and those of memory, places, room, *taken and *length writable;
 * - memory, places, room, *taken and *length overlap nothing else that the call is lent, and nothing that it is lent changes while it runs. So an
 *   image is not converted where it stands;
 * - gids, taken and length are aligned as their types are, gids also where there are none. The bytes of all else may stand at any address;
 * - there is one call at a time on a memory. Threads share a memory under one lock; different memories need none, and one image may serve all;
 * - memory is the same from a start on, call after call, and nobody else writes to it. Memory that was written to is answered 51 where it is not
 *   good any more; where it happens to be good, the guard goes by what it says;
 * - a thread that calls has 96 KB of stack left (bench/README.md);
 * - the processor is an x86-64 and the call follows the System V ABI, which every C compiler for Linux on it does.
 *
 * WHAT IS PROVED. Of each function, for everything that may be lent by the list above: it returns, reads and writes only what it is lent, and what it
 * returns, every byte of places, memory and room, *taken and *length are what docs/RULES.md says; and for every list of calls the answers are those of
 * a model of these rules. Not proved are the compiler that makes the archive of the proved source, the C compiler, the linker, and this header: that
 * its declarations, numbers and comments fit the archive is tested. */
#ifndef AYGESHUNT_H
#define AYGESHUNT_H

#include <stddef.h>
#include <stdint.h>

#ifdef __cplusplus
extern "C" {
#endif

/* Bytes of the guard's memory, and of a place. */
#define AYGESHUNT_MEMORY_LENGTH 54732
#define AYGESHUNT_PLACE_LENGTH 28

/* The words of a place, for aygeshunt_word. */
enum aygeshunt_word_index {
    AYGESHUNT_ANSWER = 0,   /* enum aygeshunt_answer */
    AYGESHUNT_TAKEN = 1,    /* piece, batch: bytes taken of what was offered */
    AYGESHUNT_KIND = 2,     /* piece, batch: enum aygeshunt_kind */
    AYGESHUNT_VALUE = 3,    /* piece, batch: the receiving peer's number, or the mask of slots, bit k for slot k */
    AYGESHUNT_NUMBER = 3,   /* connect: the new peer's number, from 1 on; its unique name is ":1." and this number in decimal */
    AYGESHUNT_BYTES = 3,    /* disconnect: how many bytes of an unfinished or broken message were taken */
    AYGESHUNT_ENDED = 3,    /* tick: how many waits ended, 0 to 256 */
    AYGESHUNT_COUNT = 4,    /* piece, batch: how many slots are set in the mask; 0 for other receivers */
    AYGESHUNT_SLOT = 4,     /* connect: the new peer's slot, 0 to 15 */
    AYGESHUNT_DECIDER = 5,  /* enum aygeshunt_decider */
    AYGESHUNT_POSITION = 6  /* where a rule decided: its position in its section of the image, from 0 */
};

/* Whom a message that passed goes to. */
enum aygeshunt_kind {
    AYGESHUNT_TO_NOBODY = 0,
    AYGESHUNT_TO_BUS = 1,   /* the host itself */
    AYGESHUNT_TO_PEER = 2,  /* the peer whose number is the value */
    AYGESHUNT_TO_SLOTS = 3  /* the peers whose slots are set in the value, be it none */
};

/* Who decided. */
enum aygeshunt_decider {
    AYGESHUNT_NOT_SHOWN = 0,    /* no rule was asked, or one for each of many receivers */
    AYGESHUNT_BY_RULE = 1,      /* the rule at the position */
    AYGESHUNT_NO_RULE = 2       /* no rule matched, so it is denied */
};

/* All answers. 1 to 9 close the peer's stream until it is disconnected; 20 to 26 drop one message, which is consumed; 30 to 51 change nothing. 53 and 54
 * come from aygeshunt_retire alone. */
enum aygeshunt_answer {
    AYGESHUNT_DONE = 0,                 /* done; of a piece: passed to the receiver reported */
    AYGESHUNT_BAD_BYTE_ORDER = 1,       /* byte order unknown */
    AYGESHUNT_BAD_VERSION = 2,          /* version is not 1 */
    AYGESHUNT_BAD_TYPE = 3,             /* type 0 */
    AYGESHUNT_BAD_SERIAL = 4,           /* serial 0 */
    AYGESHUNT_FIELDS_TOO_LONG = 5,      /* field array longer than 2,032 bytes */
    AYGESHUNT_MESSAGE_TOO_LONG = 6,     /* message longer than 134,217,728 bytes */
    AYGESHUNT_BAD_FIELDS = 7,           /* field array malformed */
    AYGESHUNT_BAD_VALUE = 8,            /* a value breaks its rule */
    AYGESHUNT_MISSING_FIELD = 9,        /* a required field is missing */
    AYGESHUNT_UNFINISHED = 10,          /* piece used up, message unfinished */
    AYGESHUNT_UNKNOWN_TYPE = 20,        /* message type above 4 */
    AYGESHUNT_NO_RECEIVER = 21,         /* destination is nobody's */
    AYGESHUNT_SEND_DENIED = 22,         /* send denied */
    AYGESHUNT_RECEIVE_DENIED = 23,      /* receive denied */
    AYGESHUNT_NOT_WAITED_FOR = 24,      /* reply not waited for */
    AYGESHUNT_ALREADY_PENDING = 25,     /* same call pending already */
    AYGESHUNT_TOO_MANY_PENDING = 26,    /* caller has 16 pending calls */
    AYGESHUNT_NO_PEER = 30,             /* no connected peer has that number */
    AYGESHUNT_BAD_NAME = 31,            /* not a name that a peer can own */
    AYGESHUNT_OWN_DENIED = 32,          /* own denied */
    AYGESHUNT_OWNED_BY_OTHER = 33,      /* another peer owns the name */
    AYGESHUNT_TOO_MANY_NAMES = 34,      /* peer has 4 names */
    AYGESHUNT_NOT_OWNED = 35,           /* peer does not own the name */
    AYGESHUNT_CONNECT_DENIED = 36,      /* connect denied */
    AYGESHUNT_TOO_MANY_GIDS = 37,       /* more than 16 gids */
    AYGESHUNT_NO_SLOT = 38,             /* all 16 slots are taken */
    AYGESHUNT_NO_NUMBER = 39,           /* no number is left to give */
    AYGESHUNT_STREAM_CLOSED = 40,       /* stream closed */
    AYGESHUNT_TICK_TOO_LOW = 41,        /* tick lower than the last */
    AYGESHUNT_BAD_IMAGE = 50,           /* bad policy image */
    AYGESHUNT_BAD_MEMORY = 51,          /* bad guard memory */
    AYGESHUNT_TOO_LARGE = 53,           /* conversion too large */
    AYGESHUNT_BAD_LIST = 54             /* bad list of names */
};

/* A word of a place, 0 to 6. The place may stand at any address. */
static inline uint32_t aygeshunt_word(const uint8_t *place, size_t index) {
    const uint8_t *at = place + 4 * index;
    return (uint32_t)at[0] | (uint32_t)at[1] << 8 | (uint32_t)at[2] << 16 | (uint32_t)at[3] << 24;
}

/* How many bytes of memory the guard wants, all of them and no more: AYGESHUNT_MEMORY_LENGTH in the version whose header this is. */
size_t aygeshunt_memory_length(void);

/* Writes an empty guard over the memory, whatever it held.
 * In this order: 51 memory of another length; 0. */
size_t aygeshunt_start(uint8_t *memory, size_t memory_len, uint8_t *place, size_t place_len);

/* A new peer. Number and slot are in the place.
 * In this order: 50; 51; 37 more than 16 gids, repeated ones counted; 36 denied; 38 no slot is free; 39 no number is left; 0. */
size_t aygeshunt_connect(const uint8_t *image, size_t image_len, uint8_t *memory, size_t memory_len, uint32_t uid,
                         const uint32_t *gids, size_t gids_count, uint8_t *place, size_t place_len);

/* A peer asks to own a name, which needs no zero behind it.
 * In this order: 50; 51; 30 no such peer; 31 not well-known, or the bus's own; 32 denied; 0 where the name is the peer's already, and nothing
 * changes; 33 another peer's; 34 the peer has 4 names; 0. */
size_t aygeshunt_own(const uint8_t *image, size_t image_len, uint8_t *memory, size_t memory_len, uint32_t peer,
                     const uint8_t *name, size_t name_len, uint8_t *place, size_t place_len);

/* A peer gives a name up.
 * In this order: 51; 30 no such peer; 31 as for own; 35 the peer does not own it; 0. */
size_t aygeshunt_release(uint8_t *memory, size_t memory_len, uint32_t peer, const uint8_t *name, size_t name_len,
                         uint8_t *place, size_t place_len);

/* Bytes of a peer's stream: at most one message of them is taken, and judged at its last byte.
 * In this order: 50; 51; 30 no such peer; 40 its stream is closed; then, at the first byte that breaks a head or ends a message, 1 to 9 or the
 * judgement, 0 or 20 to 26; 10 where no byte does either. Where less was taken than offered, and the answer is 0 or 20 to 26, the rest is to be
 * offered again. */
size_t aygeshunt_piece(const uint8_t *image, size_t image_len, uint8_t *memory, size_t memory_len, uint32_t peer,
                       const uint8_t *bytes, size_t bytes_len, uint8_t *place, size_t place_len);

/* Bytes of a peer's stream, offered as by aygeshunt_piece again and again, what is left of them each time, with a place for each call, until nothing is
 * left, all whole places of the room are written, or one of 1 to 9 or 30 to 51 comes, which has its place too. Answers, bytes taken and memory are
 * those of the single calls, but image and memory are tested once. *taken is told how many bytes were taken in all, 0 where no place is written. No
 * bytes at all make one place of 10.
 * Where *taken is less than bytes_len, the last answer says why: 1 to 9 or 30 to 51 ended it; after 0 or 20 to 26 there was no place left, and the
 * rest is to be offered again. */
size_t aygeshunt_batch(const uint8_t *image, size_t image_len, uint8_t *memory, size_t memory_len, uint32_t peer,
                       const uint8_t *bytes, size_t bytes_len, uint8_t *places, size_t places_len, size_t *taken);

/* A peer goes: its slot is free, and its names and every pending call that it made or was to answer end.
 * In this order: 51; 30 no such peer; 0. */
size_t aygeshunt_disconnect(uint8_t *memory, size_t memory_len, uint32_t peer, uint8_t *place, size_t place_len);

/* The clock goes on: tick is the last one from now on, and every call that awaits its reply and is at least limit ticks old (tick less the one that was the
 * last when it passed) waits no longer. How many ended is in the place. A late reply to one is 24; its caller has room for another call, with the same
 * serial too.
 * In this order: 51; 41 the tick is lower than the last, and an equal one is good; 0. */
size_t aygeshunt_tick(uint8_t *memory, size_t memory_len, uint64_t tick, uint64_t limit, uint8_t *place, size_t place_len);

/* Makes an image without prefix rules of one that may have some, for the names of a list (PREFIXES IN STORED IMAGES). It returns the answer, and wants
 * neither memory nor a place. *length is told how many bytes the new image has: the first ones of the room, and those behind them keep what they held.
 * Where it is refused, *length is 0 and the whole room keeps what it held.
 * In this order: 50; 54 a name of the list is cut, empty, not well-known, or there twice, also where no rule has a prefix; 53 the new image would have more
 * than 256 own rules or more than 65,536 bytes, or is longer than the room; 0. The list may be empty and may have the bus's own name. Without prefix rules
 * the new image is the old one.
 * Connect rules, transaction rules, the order of rules and the old strings stay. Each name that some prefix covers stands behind the old strings once, in
 * the list's order, and the new rules cite it there. */
uint8_t aygeshunt_retire(const uint8_t *image, size_t image_len, const uint8_t *names, size_t names_len, uint8_t *room, size_t room_len, size_t *length);

#ifdef __cplusplus
}
#endif

#endif
