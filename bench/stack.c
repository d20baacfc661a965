// How many bytes of stack one reading takes: runs it on a painted stack of its own, for heads that open 64 things in each other. And what a conversion takes.
#include <stdbool.h>
#include <stdio.h>
#include <stdlib.h>
#include <string.h>
#include <ucontext.h>

#include "calls.h"
#include "guard.h"
#include "prefixes.h"

enum { STACK = 1 << 20, PAINT = 0xa5 };

static unsigned char stack[STACK] __attribute__((aligned(64))), lent_memory[MEMORY];
static struct bytes image, memory = {lent_memory, MEMORY};
static ucontext_t back, there;

// What is run, and on what; where the stack stood then; and what came out.
static uint64_t (*run)(struct bytes);
static struct bytes lent;
static unsigned char *top;
static uint64_t answer;

static uint64_t nothing(struct bytes b) { return b.len - b.len; }
static uint64_t read_head(struct bytes b) { return bench_header_read(b.at, b.len); }
static uint64_t piece(struct bytes b) { return guard_piece(image, memory, 1, b.at, b.len) % 256; }

// The answer in the last place.
static uint64_t batch(struct bytes b) {
    uint8_t places[4][PLACE];
    size_t taken, wrote = aygeshunt_batch(image.at, image.len, memory.at, memory.len, 1, b.at, b.len, places[0], sizeof places, &taken);
    return taken == b.len && wrote ? told(places[wrote - 1]) % 256 : ~0ULL;
}

// A tick, behind the head: the test of the memory reads it.
static uint64_t tick(struct bytes b) { return guard_tick(memory, b.len, UINT64_MAX) % 256; }

// A conversion of the image by a list.
static uint64_t retire(struct bytes names) {
    static unsigned char room[65536];
    size_t length;
    return aygeshunt_retire(image.at, image.len, names.at, names.len, room, sizeof room, &length);
}

// The body's one byte, behind the head: the test of the memory reads the head, and so does the end of the message.
static uint64_t last_byte(struct bytes b) { return piece((struct bytes){b.at + b.len, 1}); }

static void on_the_stack(void) {
    top = __builtin_frame_address(0);
    answer = run(lent);
}

static size_t depth(uint64_t (*what)(struct bytes), struct bytes b, uint64_t expect, const char *name) {
    run = what, lent = b;
    memset(stack, PAINT, STACK);
    getcontext(&there);
    there.uc_stack.ss_sp = stack, there.uc_stack.ss_size = STACK, there.uc_link = &back;
    makecontext(&there, on_the_stack, 0);
    swapcontext(&back, &there);
    if (answer != expect) {
        fprintf(stderr, "stack: %s gave %lu\n", name, (unsigned long)answer);
        exit(1);
    }
    size_t i = 0;
    while (i < STACK && stack[i] == PAINT) i++;
    return top - (stack + i);
}

// ---- heads

// A message of type 5 with an unknown field: what is written behind its code.
static struct bytes head_of(const unsigned char *field, size_t n) {
    struct bytes b = {calloc(1, 4096), 16 + (1 + n + 7) / 8 * 8};
    memcpy(b.at, "l\5\0\1\0\0\0\0\1\0\0\0", 12);
    b.at[12] = (1 + n) % 256, b.at[13] = (1 + n) / 256;
    b.at[16] = 11;
    memcpy(b.at + 17, field, n);
    return b;
}

// A value being written; the lengths of the arrays that it opens are known at its end. Places count from the head's first byte.
struct nest {
    unsigned char b[2048];
    size_t at, lengths[64], starts[64];
    int arrays;
};

static void pad(struct nest *n, size_t k) {
    while (n->at % k) n->at++;
}

static void signature(struct nest *n, const char *s) {
    n->b[n->at++] = strlen(s);
    strcpy((char *)n->b + n->at, s);
    n->at += strlen(s) + 1;
}

static void array(struct nest *n, size_t k) {
    pad(n, 4);
    n->lengths[n->arrays] = n->at;
    n->at += 4;
    pad(n, k);
    n->starts[n->arrays++] = n->at;
}

// Opens what the signature opens, down to its last letter.
static void open_all(struct nest *n, const char *s) {
    for (; *s == 'a' || *s == '(' || *s == '{' || (*s == 'y' && s[1] == 'v'); s++) {
        if (*s == 'a') array(n, s[1] == '(' || s[1] == '{' ? 8 : s[1] == 'a' || s[1] == 's' ? 4 : 1);
        if (*s == '(' || *s == '{') pad(n, 8);
        if (*s == 'y') n->b[n->at++] = 1;
    }
}

static struct bytes closed(struct nest *n) {
    while (n->arrays--) {
        uint32_t len = n->at - n->starts[n->arrays];
        memcpy(n->b + n->lengths[n->arrays], &len, 4);
    }
    return head_of(n->b + 17, n->at - 17);
}

// `times` variants of the signature `link` in each other, and in the innermost one of `last` and of the leaf's bytes.
static struct bytes nested(const char *link, int times, const char *last, const void *leaf, size_t leaf_n, size_t align) {
    static struct nest n;
    memset(&n, 0, sizeof n);
    n.at = 17;
    for (int i = 0; i < times; i++) {
        signature(&n, link);
        open_all(&n, link);
    }
    signature(&n, last);
    open_all(&n, last);
    pad(&n, align);
    memcpy(n.b + n.at, leaf, leaf_n);
    n.at += leaf_n;
    return closed(&n);
}

// A signature that opens 32 arrays and 32 parentheses in each other, behind its length.
static size_t deep_signature(char *s) {
    sprintf(s, "%c%sy%s", 97, repeated("a(", 32, ""), repeated(")", 32, ""));
    return strlen(s) + 1;
}

static size_t more(size_t a, size_t b) { return a < b ? b : a; }

static void show(const char *name, struct bytes b, size_t none) {
    uint32_t no_gids[1];
    guard_start(memory);
    guard_connect(image, memory, 1000, no_gids, 0);
    size_t read = depth(read_head, b, 0, name) - none;
    b.at[4] = 1;
    size_t piece_takes = depth(piece, b, 10, name);
    size_t tick_takes = depth(tick, b, 0, name) - none;
    piece_takes = more(piece_takes, depth(last_byte, b, 20, name)) - none;
    // two whole messages; a head; the byte that ends its message, and the next head; and that message's end
    struct bytes two = in_a_row((struct bytes){b.at, b.len + 1}, 2);
    size_t batch_takes = depth(batch, two, 20, name);
    batch_takes = more(batch_takes, depth(batch, b, 10, name));
    batch_takes = more(batch_takes, depth(batch, (struct bytes){two.at + b.len, 1 + b.len}, 10, name));
    batch_takes = more(batch_takes, depth(batch, (struct bytes){two.at + b.len, 1}, 20, name)) - none;
    printf("| %s | %zu | %zu | %zu | %zu |\n", name, read, piece_takes, batch_takes, tick_takes);
}

static void show_conversion(const char *name, struct conversion c, size_t none) {
    image = c.image;
    printf("| %s | %zu |\n", name, depth(retire, c.names, 0, name) - none);
}

int main(void) {
    image = image_of(PASSING, 16);
    size_t none = depth(nothing, image, 0, "nothing");
    char deep[300];
    size_t deep_n = deep_signature(deep);
    unsigned char path[] = {2, 0, 0, 0, '/', 'a', 0}, text[] = {3, 0, 0, 0, 0xe2, 0x82, 0xac, 0};
    printf("| head | stack of a reading, bytes | of a piece | of a batch | of a tick |\n|-|-:|-:|-:|-:|\n");
    show("without such a field", message_bytes(&(struct message){.kind = 5, .path = PATH, .member = MEMBER, .destination = NAME}), none);
    show("a field of u", message_bytes(&(struct message){.kind = 5, .extra = &NUMBER}), none);
    show("64 variants round y", nested("v", 63, "y", "\1", 1, 1), none);
    show("64 variants round a path", nested("v", 63, "o", path, sizeof path, 4), none);
    show("64 variants round a text", nested("v", 63, "s", text, sizeof text, 4), none);
    show("64 variants round a signature, 64 deep", nested("v", 63, "g", deep, deep_n, 1), none);
    show("32 variants, 32 of them of (v), round y", nested("(v)", 31, "(y)", "\1", 1, 1), none);
    show("32 variants, 32 of them of av, round y", nested("av", 31, "ay", "\1", 1, 1), none);
    show("32 variants of av and a signature, 64 deep", nested("av", 31, "ag", deep, deep_n, 1), none);
    show("2 variants, 62 arrays", nested("aaaaaaaaaaaaaaaaaaaaaaaaaaaaaaav", 1, "aaaaaaaaaaaaaaaaaaaaaaaaaaaaaaag", deep, deep_n, 1), none);
    show("62 variants and aag", nested("v", 61, "aag", deep, deep_n, 1), none);
    show("63 variants and (g)", nested("v", 62, "(g)", deep, deep_n, 1), none);
    show("63 variants and ag", nested("v", 62, "ag", deep, deep_n, 1), none);
    printf("\n| conversion | stack, bytes |\n|-|-:|\n");
    show_conversion("16 own rules, 16 names", plain_conversion(), none);
    show_conversion("256 own rules, 256 names", long_conversion(DEAREST), none);
    return 0;
}
