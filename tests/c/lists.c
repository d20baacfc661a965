// Lists of names that are bad, images that are bad, and which of several faults is told.
#include <string.h>

#include "cases.h"
#include "conversions.h"
#include "policies.h"

static const own_rule prefix_rule[] = {{0, 1, PREFIX, 0, 0, 3}}, exact_rule[] = {{0, 1, EXACT, 0, 0, 3}};

#define BYTES_OF(literal) ((slice){(uint8_t *)(uintptr_t)(literal), sizeof(literal) - 1})

// Refused where a rule needs the list and where none does, alone and behind a good name.
static void bad_list(const char *name, slice list) {
    slice images[] = {bare_image(prefix_rule, 1, text("a.b")), bare_image(exact_rule, 1, text("a.b")), none_image};
    for (size_t i = 0; i < sizeof images / sizeof *images; i++) {
        refuses(name, images[i], list, 54);
        refuses(name, images[i], joined(BYTES_OF("\5a.b.c"), list), 54);
    }
}

static void cut_lists(void) {
    bad_list("a length alone", BYTES_OF("\3"));
    bad_list("a name that is a byte short", BYTES_OF("\4a.b"));
    bad_list("a good name before its end", BYTES_OF("\6a.bcd"));
    bad_list("the longest name, a byte short", joined(BYTES_OF("\377a."), (slice){memset(stored(252).at, 'b', 252), 252}));
    bad_list("a name behind which a length is alone", BYTES_OF("\3x.y\1"));
}

static void ill_formed_lists(void) {
    static const char *const names[] = {"org", ".a.b", "a..b", "a.b.", "a.1b", "1a.b", ":1.2", "a.b/c", "a.\200", "."};
    bad_list("an empty name", BYTES_OF("\0"));
    bad_list("an empty name before a good one", BYTES_OF("\0\3x.y"));
    bad_list("a zero in a name", BYTES_OF("\4a.b\0"));
    bad_list("a space in a name", BYTES_OF("\5a.b c"));
    for (size_t i = 0; i < sizeof names / sizeof *names; i++) bad_list(names[i], list_of(names[i]));
}

static void repeated_lists(void) {
    bad_list("a name twice", list_of("x.y x.y"));
    bad_list("a name twice, another between", list_of("x.y y.x x.y"));
    bad_list("the bus's own name twice", list_of("org.freedesktop.DBus x.y org.freedesktop.DBus"));
    bad_list("a covered name twice", list_of("a.b a.b"));
}

// Names that are nearly the same are different.
static void similar_lists(void) {
    slice image = bare_image(exact_rule, 1, text("a.b"));
    converts("names that are alike", image, list_of("a.b a.B a.bb a.b.b a.b_ a.b- _a.b A.b aa.b b.a"), image);
}

static void bad_images(void) {
    own_rule rules[] = {{0, 1, PREFIX, 0, 0, 3}, {0, 1, EXACT, 0, 0, 3}};
    slice lists[] = {empty, list_of("a.b")}, cut = bare_image(rules, 2, text("a.b"));
    cut.len--;
    for (size_t i = 0; i < 2; i++) {
        refuses("bad image", bad_image, lists[i], 50);
        refuses("no image", empty, lists[i], 50);
        refuses("image cut short", cut, lists[i], 50);
        refuses("a prefix that is no name", bare_image(rules, 2, text("a..")), lists[i], 50);
    }
    rules[1].matcher = 3;
    refuses("an unknown matcher", bare_image(rules, 2, text("a.b")), lists[1], 50);
    rules[1].matcher = PREFIX, rules[1].len = 4;
    refuses("a prefix that reaches behind the strings", bare_image(rules, 2, text("a.b")), lists[1], 50);
}

// Every image with every list and every room: 50 comes before 54, and that before 53.
static void fault_orders(void) {
    slice prefixed = bare_image(prefix_rule, 1, text("a.b")), exact = bare_image(exact_rule, 1, text("a.b")), broken = bare_image(prefix_rule, 1, text("a.1"));
    const own_rule result_rule = {0, 1, EXACT, 0, 3, 3};
    struct {
        slice image, result;
    } images[] = {{prefixed, bare_image(&result_rule, 1, text("a.ba.b"))}, {exact, exact}, {broken, empty}, {bad_image, empty}};
    slice lists[] = {list_of("a.b"), list_of("a.b a.b"), list_of("a"), BYTES_OF("\3a.b\0"), BYTES_OF("\3a.b\1")};
    for (size_t i = 0; i < 4; i++) {
        size_t len = images[i].result.len, rooms[] = {len + 1, len, len ? len - 1 : 0};
        for (size_t k = 0; k < 5; k++)
            for (size_t r = 0; r < 3; r++) {
                uint8_t answer = i > 1 ? 50 : k > 0 ? 54 : r == 2 ? 53 : 0;
                convert_in("several faults", images[i].image, lists[k], rooms[r], answer, answer ? empty : images[i].result);
            }
    }
}

void list_cases(void) {
    cut_lists();
    ill_formed_lists();
    repeated_lists();
    similar_lists();
    bad_images();
    fault_orders();
}
