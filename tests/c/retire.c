// Conversions: what becomes of each own rule, of the strings and of the head's numbers. Expected images are written by hand from docs/RULES.md.
#include <string.h>

#include "cases.h"
#include "conversions.h"
#include "policies.h"

#define COUNT(rules) (sizeof(rules) / sizeof *(rules))

// ---- rules of every kind

// "org.a" is at 2, "org.b.c" at 7, and nobody cites the last two bytes.
#define AREA "Noorg.aorg.b.czz"

static const own_rule mixed[] = {{0, 1, ANY, 0, 0, 0}, {1, 1, PREFIX, 20, 2, 5}, {2, 0, EXACT, 1000, 7, 7}, {3, 0, PREFIX, 0, 7, 7}, {0, 0, PREFIX, 0, 2, 5}};
#define MIXED_NAMES "org.b.c.d org.a org.ab org.a.x org.freedesktop.DBus org.b.c"

// The four names that a prefix covers begin at 16, 25, 30 and 37.
static const own_rule mixed_exact[] = {{0, 1, ANY, 0, 0, 0},       {1, 1, EXACT, 20, 25, 5}, {1, 1, EXACT, 20, 30, 7}, {2, 0, EXACT, 1000, 7, 7},
                                       {3, 0, EXACT, 0, 16, 9},    {3, 0, EXACT, 0, 37, 7},  {0, 0, EXACT, 0, 25, 5},  {0, 0, EXACT, 0, 30, 7}};

static slice old_image(void) { return full_image(mixed, COUNT(mixed), text(AREA)); }

static slice new_image(void) { return full_image(mixed_exact, COUNT(mixed_exact), text(AREA "org.b.c.dorg.aorg.a.xorg.b.c")); }

static void mixed_cases(void) {
    static const own_rule kept[] = {{0, 1, ANY, 0, 0, 0}, {2, 0, EXACT, 1000, 7, 7}};
    slice old = old_image(), without = full_image(kept, COUNT(kept), text(AREA));
    converts("rules of every kind", old, list_of(MIXED_NAMES), new_image());
    converts("no name is listed", old, empty, without);
    converts("names that no prefix covers", old, list_of("org.ab org.b org.b.cc com.org.a org.A"), without);
    converts("a name that is a rule's already", full_image(kept, COUNT(kept), text(AREA)), list_of("org.b.c"), without);
    converts("a new image again", new_image(), list_of(MIXED_NAMES), new_image());
}

// ---- which names a prefix covers

// Strings may overlap: these prefixes begin at one byte.
static void nested_cases(void) {
    static const own_rule rules[] = {{0, 1, PREFIX, 0, 2, 5}, {2, 0, PREFIX, 1000, 2, 7}, {3, 1, PREFIX, 0, 2, 9}};
    static const own_rule exact[] = {{0, 1, EXACT, 0, 11, 7},    {0, 1, EXACT, 0, 18, 11},    {0, 1, EXACT, 0, 29, 8},
                                     {2, 0, EXACT, 1000, 11, 7}, {2, 0, EXACT, 1000, 18, 11}, {3, 1, EXACT, 0, 18, 11}};
    static const own_rule twice[] = {{0, 1, PREFIX, 0, 2, 5}, {0, 1, PREFIX, 0, 2, 5}};
    static const own_rule twice_exact[] = {{0, 1, EXACT, 0, 11, 5}, {0, 1, EXACT, 0, 11, 5}};
    slice area = text("Noorg.a.b.c");
    converts("prefixes in each other", full_image(rules, 3, area), list_of("org.a.b org.a.b.c.d org.a.bb"),
             full_image(exact, 6, text("Noorg.a.b.corg.a.borg.a.b.c.dorg.a.bb")));
    converts("one prefix twice", full_image(twice, 2, area), list_of("org.a"), full_image(twice_exact, 2, text("Noorg.a.b.corg.a")));
}

// Names as they are listed, others between them; with capitals a name is another one.
static void order_of_names_cases(void) {
    static const own_rule rule[] = {{0, 1, PREFIX, 0, 0, 3}}, exact[] = {{0, 1, EXACT, 0, 3, 5}, {0, 1, EXACT, 0, 8, 5}, {0, 1, EXACT, 0, 13, 3}};
    slice old = bare_image(rule, 1, text("a.b")), all = bare_image(exact, 3, text("a.ba.b.za.b.ca.b"));
    converts("in the list's order", old, list_of("a.b.z a.b.c a.b"), all);
    converts("others between them", old, list_of("a.bb a.b.z b.a.b a.B.z a.b.c a.b_c a.c a.b a.b-.c"), all);
    converts("nothing but a rule that vanishes", old, list_of("a.c"), bare_image(rule, 0, text("a.b")));
}

// The bus's own name can be listed, though no peer can own it.
static void bus_name_cases(void) {
    static const own_rule rule[] = {{1, 0, PREFIX, 7, 0, 15}}, exact[] = {{1, 0, EXACT, 7, 15, 20}, {1, 0, EXACT, 7, 35, 26}};
    converts("the bus's own name", bare_image(rule, 1, text("org.freedesktop")), list_of("org.freedesktop.DBus org.freedesktop.DBus.Local"),
             bare_image(exact, 2, text("org.freedesktoporg.freedesktop.DBusorg.freedesktop.DBus.Local")));
}

// "a." and letters, of the longest length, with the last letters changed.
static char *long_name(char *to, const char *end) {
    memset(to, 'b', 255);
    memcpy(to, "a.", 2);
    memcpy(to + 255 - strlen(end), end, strlen(end) + 1);
    return to;
}

// A prefix of so many bytes of the longest name, and a list of one name.
static void long_case(const char *name, uint32_t prefix, const char *listed, int covered) {
    char whole[256];
    const own_rule rule = {0, 1, PREFIX, 0, 0, prefix}, exact = {0, 1, EXACT, 0, 255, (uint32_t)strlen(listed)};
    slice area = text(long_name(whole, ""));
    converts(name, bare_image(&rule, 1, area), list_of(listed), bare_image(&exact, (size_t)covered, covered ? joined(area, text(listed)) : area));
}

static void long_cases(void) {
    char name[256];
    long_case("the longest prefix, itself", 255, long_name(name, ""), 1);
    long_case("the longest prefix, another last letter", 255, long_name(name, "c"), 0);
    long_case("a prefix and two bytes", 253, long_name(name, ".c"), 1);
    long_case("a prefix and no dot", 253, long_name(name, "cc"), 0);
    long_case("a prefix and a dot too early", 253, long_name(name, ".bb"), 0);
    long_case("the shortest prefix", 3, "a.b.c", 1);
    long_name(name, "")[254] = 0;
    long_case("a prefix that is longer by a byte", 255, name, 0);
}

void retire_cases(void) {
    mixed_cases();
    nested_cases();
    order_of_names_cases();
    bus_name_cases();
    long_cases();
}

// ---- without prefix rules

// The old image, byte for byte, whatever good list is lent.
void same_image_cases(void) {
    slice images[] = {open_image, strict_image, none_image};
    slice lists[] = {empty, list_of("a.b"), list_of("org.freedesktop.DBus a.b a.b.c a.bb")};
    for (size_t i = 0; i < COUNT(images); i++)
        for (size_t k = 0; k < COUNT(lists); k++) converts("no prefix rule", images[i], lists[k], images[i]);
}
