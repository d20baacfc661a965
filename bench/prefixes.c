#include "prefixes.h"

#include <stdio.h>
#include <stdlib.h>
#include <string.h>

static void word(unsigned char *at, uint32_t x) {
    for (int i = 0; i < 4; i++) at[i] = x >> (8 * i);
}

// An image of n own rules, none of them about anything yet, and of these strings.
static struct bytes image_with(int n, const char *strings, size_t len) {
    size_t area = 32 + 16 * n;
    struct bytes image = {calloc(1, area + len), area + len};
    const uint32_t head[8] = {image.len, 0, 32, n, 32, 0, area, area};
    for (int i = 0; i < 8; i++) word(image.at + 4 * i, head[i]);
    memcpy(image.at + area, strings, len);
    return image;
}

// Rule i allows a name, or all that is under it: 1 is exact, 2 a prefix.
static void set_rule(struct bytes image, int i, int matcher, size_t offset, size_t len) {
    unsigned char *rule = image.at + 32 + 16 * i;
    rule[1] = 1, rule[2] = matcher;
    word(rule + 8, offset);
    word(rule + 12, len);
}

static void list(struct bytes *names, const char *name, size_t len) {
    names->at[names->len] = len;
    memcpy(names->at + names->len + 1, name, len);
    names->len += 1 + len;
}

struct conversion plain_conversion(void) {
    enum { RULES = 16, LENGTH = 22 };
    char strings[RULES * LENGTH + 1], name[64];
    struct bytes names = {malloc(4096), 0};
    for (int i = 0; i < RULES; i++) {
        sprintf(strings + LENGTH * i, "org.example.Service%03d", i);
        list(&names, name, sprintf(name, "org.example.Service%03d.First", i));
    }
    struct bytes image = image_with(RULES, strings, RULES * LENGTH);
    for (int i = 0; i < RULES; i++) set_rule(image, i, 1 + i % 2, LENGTH * i, LENGTH);
    return (struct conversion){image, names};
}

const struct shape DEAREST = {.name = 255, .prefix = 244, .other = 235, .letters = 245, .covered = 239};

struct conversion long_conversion(struct shape s) {
    enum { COUNT = 256 };
    char strings[512], name[256];
    struct bytes names = {malloc(COUNT * (1 + s.name)), 0};
    memset(name, 'b', s.name), name[1] = '.';
    memcpy(strings, name, s.prefix), memcpy(strings + s.prefix, name, s.prefix);
    strings[s.prefix + s.other] = 'c';
    name[s.prefix] = '.';
    for (int i = 0; i < COUNT; i++) {
        if (i == s.covered) name[s.other] = 'd';
        name[s.letters] = 'a' + i / 16, name[s.letters + 1] = 'a' + i % 16;
        list(&names, name, s.name);
    }
    struct bytes image = image_with(COUNT, strings, 2 * s.prefix);
    for (int i = 0; i < COUNT; i++) set_rule(image, i, 2, i == COUNT - 1 ? 0 : s.prefix, s.prefix);
    return (struct conversion){image, names};
}
