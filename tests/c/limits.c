// Conversions at their limits: 256 own rules, 65,536 bytes, and lists that are longer than any image. Expected images are written by hand from docs/RULES.md.
#include <stdio.h>
#include <string.h>

#include "cases.h"
#include "conversions.h"
#include "policies.h"

enum { MOST_RULES = 256, SHORT = 8, LONG = 255 };

// So many names that prefix "a.b" covers, each of so many bytes; they differ in their last three.
static slice numbered(size_t count, size_t bytes) {
    slice list = stored(count * (1 + bytes));
    for (size_t i = 0; i < count; i++) {
        uint8_t *name = list.at + i * (1 + bytes);
        char number[4];
        sprintf(number, "%03u", (unsigned)(i % 1000));
        memset(name, 'n', 1 + bytes);
        memcpy(name + 1, "a.b.", 4);
        memcpy(name + 1 + bytes - 3, number, 3);
        name[0] = (uint8_t)bytes;
    }
    return list;
}

// The names of such a list without their lengths, as they stand among the strings.
static slice in_a_row(slice list, size_t bytes) {
    slice row = stored(list.len / (1 + bytes) * bytes);
    for (size_t i = 0; i < row.len / bytes; i++) memcpy(row.at + i * bytes, list.at + i * (1 + bytes) + 1, bytes);
    return row;
}

// ---- own rules

// Some rules for anything and then some with prefix "a.b", each about a uid of its own.
static slice with_prefixes(size_t any, size_t prefixes) {
    own_rule rules[MOST_RULES];
    for (size_t i = 0; i < any; i++) rules[i] = (own_rule){(uint8_t)(i % 2 * 3), (uint8_t)(i % 3 == 0), ANY, 0, 0, 0};
    for (size_t i = 0; i < prefixes; i++) rules[any + i] = (own_rule){2, 1, PREFIX, (uint32_t)(1000 + i), 0, 3};
    return bare_image(rules, any + prefixes, text("a.b"));
}

// The same with an exact rule for each name of the list instead of each prefix.
static slice with_names(size_t any, size_t prefixes, slice list) {
    own_rule rules[MOST_RULES];
    size_t names = list.len / (1 + SHORT);
    for (size_t i = 0; i < any; i++) rules[i] = (own_rule){(uint8_t)(i % 2 * 3), (uint8_t)(i % 3 == 0), ANY, 0, 0, 0};
    for (size_t i = 0; i < prefixes * names; i++)
        rules[any + i] = (own_rule){2, 1, EXACT, (uint32_t)(1000 + i / names), (uint32_t)(3 + i % names * SHORT), SHORT};
    return bare_image(rules, any + prefixes * names, joined(text("a.b"), in_a_row(list, SHORT)));
}

static void rules_case(const char *name, size_t any, size_t prefixes, size_t names, uint8_t answer) {
    slice image = with_prefixes(any, prefixes), list = numbered(names, SHORT);
    if (answer) refuses(name, image, list, answer);
    else converts(name, image, list, with_names(any, prefixes, list));
}

static void rules_cases(void) {
    rules_case("256 names of one prefix", 0, 1, 256, 0);
    rules_case("257 names of one prefix", 0, 1, 257, 53);
    rules_case("256 prefixes of one name", 0, 256, 1, 0);
    rules_case("16 prefixes of 16 names", 0, 16, 16, 0);
    rules_case("16 prefixes of 16 names behind another rule", 1, 16, 16, 53);
    rules_case("255 rules and a name", 255, 1, 1, 0);
    rules_case("255 rules and two names", 255, 1, 2, 53);
    rules_case("256 prefixes of two names", 0, 256, 2, 53);
    rules_case("65,792 rules, which is 256 and a multiple of 65,536", 0, 256, 257, 53);
}

// Too many names, and a fault of the list behind them or of the image, which come first.
static void other_fault_cases(void) {
    const own_rule bad = {0, 1, PREFIX, 0, 0, 4};
    slice image = with_prefixes(0, 1), list = numbered(257, SHORT);
    refuses("257 names, the first again", image, joined(list, (slice){list.at, 1 + SHORT}), 54);
    refuses("257 names and a cut one", image, joined(list, text("\5a.b")), 54);
    refuses("257 names in a bad image", bare_image(&bad, 1, text("a.b")), list, 50);
}

// ---- bytes

// A prefix rule, 200 names of 255 bytes and as many strings as it takes to make a new image of that length.
static void bytes_case(const char *name, size_t length, uint8_t answer) {
    enum { NAMES = 200 };
    static own_rule new[NAMES];
    const own_rule rule = {0, 1, PREFIX, 0, 0, 3};
    slice area = stored(length - 32 - NAMES * (16 + LONG)), list = numbered(NAMES, LONG);
    memset(area.at, 0xff, area.len), memcpy(area.at, "a.b", 3);
    for (size_t i = 0; i < NAMES; i++) new[i] = (own_rule){0, 1, EXACT, 0, (uint32_t)(area.len + i * LONG), LONG};
    if (answer) refuses(name, bare_image(&rule, 1, area), list, answer);
    else converts(name, bare_image(&rule, 1, area), list, bare_image(new, NAMES, joined(area, in_a_row(list, LONG))));
}

// The longest image there is: it stays, and it can lose a rule but not gain a name.
static void longest_case(void) {
    const own_rule prefix = {0, 1, PREFIX, 0, 0, 3}, exact = {0, 1, EXACT, 0, 0, 3};
    slice area = stored(LONGEST_IMAGE - 48);
    memcpy(area.at, "a.b", 3);
    slice full = bare_image(&exact, 1, area), old = bare_image(&prefix, 1, area);
    converts("the longest image", full, list_of("a.b"), full);
    converts("the longest image, a rule vanishes", old, list_of("a.c"), bare_image(&prefix, 0, area));
    refuses("the longest image, one name", old, list_of("a.b"), 53);
    refuses("an image that is longer", bare_image(&exact, 1, joined(area, text("x"))), empty, 50);
}

// Names that no prefix covers may be more than 256, and more bytes than an image has.
static void long_list_case(void) {
    const own_rule rule = {0, 1, PREFIX, 0, 0, 3}, exact = {0, 1, EXACT, 0, 3, 5};
    slice list = joined(numbered(300, LONG), list_of("c.d.e"));
    converts("a list of 300 others", bare_image(&rule, 1, text("c.d")), list, bare_image(&exact, 1, text("c.dc.d.e")));
    refuses("a list of 301, the first of which comes again", bare_image(&rule, 1, text("c.d")), joined(list, (slice){list.at, 1 + LONG}), 54);
}

void limit_cases(void) {
    rules_cases();
    other_fault_cases();
    bytes_case("a result of 65,535 bytes", LONGEST_IMAGE - 1, 0);
    bytes_case("a result of 65,536 bytes", LONGEST_IMAGE, 0);
    bytes_case("a result of 65,537 bytes", LONGEST_IMAGE + 1, 53);
    longest_case();
    long_list_case();
}
