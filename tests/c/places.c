// Every call with rooms of every length. Expected numbers are written by hand from docs/RULES.md.
#include <stdio.h>
#include <stdlib.h>
#include <string.h>

#include "cases.h"
#include "check.h"
#include "inputs.h"
#include "rooms.h"
#include "states.h"

// The length that a host is told, the reader of words, and the bytes of call C, which the cases below are made of.
void header_cases(void) {
    doing = "header";
    check(aygeshunt_memory_length() == AYGESHUNT_MEMORY_LENGTH, "the memory's length is %zu", aygeshunt_memory_length());
    uint8_t bytes[PLACE + 8];
    for (size_t i = 0; i < sizeof bytes; i++) bytes[i] = (uint8_t)(0xf1 + 3 * i);
    for (size_t offset = 0; offset < 8; offset++)
        for (size_t i = 0; i < WORDS; i++) {
            uint32_t want = 0;
            for (size_t k = 4; k-- > 0;) want = want << 8 | bytes[offset + 4 * i + k];
            check(aygeshunt_word(bytes + offset, i) == want, "word %zu at offset %zu", i, offset);
        }
    static stream c;
    add(&c, C);
    check(c.len == 48 && !memcmp(c.at, call_c().at, 48), "call C is put together otherwise than it is written in the rules");
}

// Starting takes memory of one length, whatever is in it, and makes zeros of it.
void memory_cases(void) {
    slice m = fresh_memory(), zeros = {calloc(1, MEMORY + 1), MEMORY}, ones = copied();
    memset(ones.at, 0xff, MEMORY);
    run((call){.name = "start", .kind = START, .memory = m, .expect = {{0}}});
    run((call){.name = "start over other bytes", .kind = START, .memory = ones, .expect = {{0}}});
    run((call){.name = "start, a byte short", .kind = START, .memory = {fresh, MEMORY - 1}, .same = 1, .expect = {{51}}});
    run((call){.name = "start, a byte more", .kind = START, .memory = {zeros.at, MEMORY + 1}, .same = 1, .expect = {{51}}});
    run((call){.name = "start, no memory", .kind = START, .memory = empty, .same = 1, .expect = {{51}}});
    uint8_t place[PLACE];
    doing = "start";
    check(aygeshunt_start(ones.at, MEMORY, place, PLACE) == 1 && !memcmp(ones.at, zeros.at, MEMORY), "an empty guard is not zeros");
    free(zeros.at), free(ones.at);
}

// The two peers of the fresh state are numbers 1 and 2 in slots 0 and 1, so that the next is number 3 in slot 2.
void connect_cases(void) {
    slice m = fresh_memory(), full = copied(), last = copied();
    for (uint32_t i = 2; i < 16; i++) must(single(CONNECT, full.at, 1000 + i, empty, 0), 0, "connect");
    put_word(last.at, 0xffffffff);
    run((call){.name = "connect", .kind = CONNECT, .image = open_image, .memory = m, .peer = 1002, .gids = 2, .expect = {{0, 0, 0, 3, 2, 1, 0}}});
    run((call){.name = "connect, 16 gids", .kind = CONNECT, .image = open_image, .memory = m, .gids = 16, .expect = {{0, 0, 0, 3, 2, 1, 0}}});
    run((call){.name = "connect, no gids", .kind = CONNECT, .image = strict_image, .memory = m, .expect = {{0, 0, 0, 3, 2, 1, 0}}});
    run((call){.name = "connect, 17 gids", .kind = CONNECT, .image = open_image, .memory = m, .gids = 17, .same = 1, .expect = {{37}}});
    run((call){.name = "connect, 32 gids, denied", .kind = CONNECT, .image = none_image, .memory = m, .gids = 32, .same = 1, .expect = {{37}}});
    run((call){.name = "connect denied", .kind = CONNECT, .image = none_image, .memory = full, .same = 1, .expect = {{36, 0, 0, 0, 0, 2, 0}}});
    run((call){.name = "connect, no slot", .kind = CONNECT, .image = open_image, .memory = full, .same = 1, .expect = {{38, 0, 0, 0, 0, 1, 0}}});
    run((call){.name = "connect, no number", .kind = CONNECT, .image = open_image, .memory = last, .same = 1, .expect = {{39, 0, 0, 0, 0, 1, 0}}});
    free(full.at), free(last.at);
}

// Names up to the longest, and as many as a guard holds for a peer.
void name_cases(void) {
    static char long_name[257];
    memset(long_name, 'b', sizeof long_name);
    memcpy(long_name, "a.", 2);
    slice m = fresh_memory(), four = copied(), name_255 = {(uint8_t *)long_name, 255}, name_256 = {(uint8_t *)long_name, 256};
    slice names[] = {text("d.a"), text("d.b"), text("d.c"), name_255};
    for (size_t i = 0; i < sizeof names / sizeof *names; i++) must(single(OWN, four.at, 2, names[i], 0), 0, "own");
    run((call){.name = "own", .kind = OWN, .image = open_image, .memory = m, .peer = 2, .bytes = text("c.d"), .expect = {{0, 0, 0, 0, 0, 1, 0}}});
    run((call){.name = "own, 255 bytes", .kind = OWN, .image = open_image, .memory = m, .peer = 2, .bytes = name_255, .expect = {{0, 0, 0, 0, 0, 1, 0}}});
    run((call){.name = "own, 256 bytes", .kind = OWN, .image = open_image, .memory = m, .peer = 2, .bytes = name_256, .same = 1, .expect = {{31}}});
    run((call){.name = "own, no bytes", .kind = OWN, .image = open_image, .memory = m, .peer = 2, .bytes = empty, .same = 1, .expect = {{31}}});
    run((call){.name = "own again", .kind = OWN, .image = open_image, .memory = m, .peer = 1, .bytes = text("a.b"), .same = 1, .expect = {{0, 0, 0, 0, 0, 1, 0}}});
    run((call){.name = "own another's", .kind = OWN, .image = open_image, .memory = m, .peer = 2, .bytes = text("a.b"), .same = 1, .expect = {{33, 0, 0, 0, 0, 1, 0}}});
    run((call){.name = "own a fifth", .kind = OWN, .image = open_image, .memory = four, .peer = 2, .bytes = text("d.e"), .same = 1, .expect = {{34, 0, 0, 0, 0, 1, 0}}});
    run((call){.name = "own denied", .kind = OWN, .image = strict_image, .memory = m, .peer = 2, .bytes = text("a.b"), .same = 1, .expect = {{32, 0, 0, 0, 0, 2, 0}}});
    run((call){.name = "own, no peer", .kind = OWN, .image = open_image, .memory = m, .peer = 3, .bytes = empty, .same = 1, .expect = {{30}}});
    run((call){.name = "release", .kind = RELEASE, .memory = m, .peer = 1, .bytes = text("a.b"), .expect = {{0}}});
    run((call){.name = "release, 255 bytes", .kind = RELEASE, .memory = four, .peer = 2, .bytes = name_255, .expect = {{0}}});
    run((call){.name = "release, 256 bytes", .kind = RELEASE, .memory = four, .peer = 2, .bytes = name_256, .same = 1, .expect = {{31}}});
    run((call){.name = "release, no bytes", .kind = RELEASE, .memory = m, .peer = 1, .bytes = empty, .same = 1, .expect = {{31}}});
    run((call){.name = "release another's", .kind = RELEASE, .memory = m, .peer = 2, .bytes = text("a.b"), .same = 1, .expect = {{35}}});
    run((call){.name = "release, no peer", .kind = RELEASE, .memory = m, .peer = 0, .bytes = text("a.b"), .same = 1, .expect = {{30}}});
    free(four.at);
}

// A case of the single call and of the batch, which have the same to say of one message and nothing behind it.
static void both(call c) {
    char name[80];
    c.kind = PIECE;
    run(c);
    sprintf(name, "batch: %s", c.name);
    c.kind = BATCH, c.name = name;
    run(c);
    doing = "nothing";
}

// Pieces that a stream begins with.
void piece_cases(void) {
    slice m = fresh_memory(), c = call_c(), open = open_image;
    static stream named, signal, type_5, to_1, no, reply, nobody;
    message unwanted = to_peer(":1.1", 5, 0);
    unwanted.member = "No";
    add(&named, to_peer("a.b", 5, 1)), add(&signal, SIGNAL), add(&type_5, TYPE_5), add(&to_1, to_peer(":1.1", 5, 0)), add(&reply, reply_to(":1.1", 7));
    add(&no, unwanted), add(&nobody, to_peer("x.y", 5, 0));
    both((call){.name = "C", .image = open, .memory = m, .peer = 1, .bytes = c, .same = 1, .expect = {{0, 48, 1, 0, 0, 1, 0}}});
    both((call){.name = "C, no rule", .image = strict_image, .memory = m, .peer = 1, .bytes = c, .same = 1, .expect = {{22, 48, 0, 0, 0, 2, 0}}});
    both((call){.name = "no bytes", .image = open, .memory = m, .peer = 1, .bytes = empty, .same = 1, .expect = {{10}}});
    both((call){.name = "15 bytes", .image = open, .memory = m, .peer = 1, .bytes = {c.at, 15}, .expect = {{10, 15}}});
    both((call){.name = "broken at once", .image = open, .memory = m, .peer = 1, .bytes = all_of(&broken_stream), .expect = {{1, 16}}});
    both((call){.name = "to a name", .image = open, .memory = m, .peer = 2, .bytes = all_of(&named), .same = 1, .expect = {{0, 64, 2, 1, 0, 1, 1}}});
    both((call){.name = "to a number", .image = open, .memory = m, .peer = 2, .bytes = all_of(&to_1), .expect = {{0, 64, 2, 1, 0, 1, 1}}});
    both((call){.name = "to nobody", .image = open, .memory = m, .peer = 2, .bytes = all_of(&nobody), .same = 1, .expect = {{21, 64}}});
    both((call){.name = "signal", .image = open, .memory = m, .peer = 2, .bytes = all_of(&signal), .same = 1, .expect = {{0, 64, 3, 3, 2, 0, 0}}});
    both((call){.name = "signal to no slot", .image = strict_image, .memory = m, .peer = 2, .bytes = all_of(&signal), .same = 1, .expect = {{0, 64, 3, 0, 0, 0, 0}}});
    both((call){.name = "type 5", .image = open, .memory = m, .peer = 2, .bytes = all_of(&type_5), .same = 1, .expect = {{20, 16}}});
    both((call){.name = "not to be received", .image = open, .memory = m, .peer = 2, .bytes = all_of(&no), .same = 1, .expect = {{23, 64, 0, 0, 0, 1, 2}}});
    both((call){.name = "not waited for", .image = open, .memory = m, .peer = 2, .bytes = all_of(&reply), .same = 1, .expect = {{24, 40}}});
    both((call){.name = "no peer", .image = open, .memory = m, .peer = 3, .bytes = c, .same = 1, .expect = {{30}}});
    both((call){.name = "no peer, no bytes", .image = open, .memory = m, .peer = 0, .bytes = empty, .same = 1, .expect = {{30}}});
}

// Answers that depend on what came before: a head that was begun, a closed stream, replies that are waited for.
void stream_cases(void) {
    slice m = fresh_memory(), c = call_c(), begun = copied(), closed = copied(), waits = copied();
    must(single(PIECE, begun.at, 1, all_of(&begun_stream), 0), 10, "begun");
    must(single(PIECE, closed.at, 1, all_of(&broken_stream), 0), 1, "closed");
    static stream again, next, answer;
    add(&again, to_peer(":1.1", 1, 0)), add(&next, to_peer(":1.1", 17, 0)), add(&answer, reply_to(":1.2", 1));
    for (uint32_t serial = 1; serial <= 16; serial++) await(waits.at, 2, ":1.1", serial);
    both((call){.name = "closed", .image = open_image, .memory = closed, .peer = 1, .bytes = c, .same = 1, .expect = {{40}}});
    both((call){.name = "closed, no bytes", .image = open_image, .memory = closed, .peer = 1, .bytes = empty, .same = 1, .expect = {{40}}});
    both((call){.name = "goes on", .image = open_image, .memory = begun, .peer = 1, .bytes = {c.at + 40, 8}, .expect = {{0, 8, 1, 0, 0, 1, 0}}});
    both((call){.name = "pending already", .image = open_image, .memory = waits, .peer = 2, .bytes = all_of(&again), .same = 1, .expect = {{25, 64, 0, 0, 0, 1, 1}}});
    both((call){.name = "too many pending", .image = open_image, .memory = waits, .peer = 2, .bytes = all_of(&next), .same = 1, .expect = {{26, 64, 0, 0, 0, 1, 1}}});
    both((call){.name = "reply", .image = open_image, .memory = waits, .peer = 1, .bytes = all_of(&answer), .expect = {{0, 40, 2, 2, 0, 0, 0}}});
    run((call){.name = "disconnect", .kind = DISCONNECT, .memory = m, .peer = 1, .expect = {{0}}});
    run((call){.name = "disconnect, begun", .kind = DISCONNECT, .memory = begun, .peer = 1, .expect = {{0, 0, 0, 40}}});
    run((call){.name = "disconnect, closed", .kind = DISCONNECT, .memory = closed, .peer = 1, .expect = {{0, 0, 0, 16}}});
    run((call){.name = "disconnect, no peer", .kind = DISCONNECT, .memory = begun, .peer = 3, .same = 1, .expect = {{30}}});
    free(begun.at), free(closed.at), free(waits.at);
}

// Every call that takes an image tests it first, then memory.
void refusal_cases(void) {
    static const enum kind kinds[] = {CONNECT, OWN, PIECE, BATCH, RELEASE, DISCONNECT, TICK};
    slice m = fresh_memory(), bad = copied(), shorter = {fresh, MEMORY - 1}, c = call_c();
    bad.at[MEMORY - 1] = 1;
    struct {
        const char *name;
        slice image, memory;
        uint32_t answer;
    } cases[] = {{"bad image", bad_image, m, 50},
                 {"bad image and memory", bad_image, bad, 50},
                 {"no image", empty, m, 50},
                 {"image cut short", {open_image.at, open_image.len - 1}, m, 50},
                 {"bad memory", open_image, bad, 51},
                 {"memory cut short", open_image, shorter, 51},
                 {"no memory", open_image, empty, 51},
                 {"neither", empty, empty, 50}};
    for (size_t k = 0; k < sizeof kinds / sizeof *kinds; k++)
        for (size_t i = 0; i < sizeof cases / sizeof *cases; i++) {
            int takes_image = kinds[k] != RELEASE && kinds[k] != DISCONNECT && kinds[k] != TICK;
            if (!takes_image && cases[i].answer == 50) continue;
            // everything else is wrong too, which comes behind: no such peer, too many gids
            run((call){.name = cases[i].name, .kind = kinds[k], .image = cases[i].image, .memory = cases[i].memory, .peer = 77, .gids = 17, .bytes = c, .same = 1,
                       .expect = {{cases[i].answer}}});
        }
    free(bad.at);
}
