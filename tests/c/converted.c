// What calls say under an image that is converted, beside the one that it was made of. Expected numbers are written by hand from docs/RULES.md.
#include <stdlib.h>

#include "cases.h"
#include "check.h"
#include "policies.h"
#include "rooms.h"
#include "states.h"

// Everybody may own anything, a group what is under org.a, which others may not, nobody what is under org.b.c; "org.a" is at 2, "org.b.c" at 7.
static slice stored_image(void) {
    static const own_rule rules[] = {{0, 1, ANY, 0, 0, 0}, {1, 1, PREFIX, 20, 2, 5}, {3, 0, PREFIX, 0, 7, 7}, {0, 0, PREFIX, 0, 2, 5}};
    return full_image(rules, 4, text("Noorg.aorg.b.c"));
}

// The new image is the library's own.
static slice converted(slice old, slice names) {
    slice room = stored(65536);
    must(aygeshunt_retire(old.at, old.len, names.at, names.len, room.at, room.len, &room.len), 0, "a conversion");
    return room;
}

// A peer asks for a name; where `position` is less than 0 no rule decides.
static void owns(slice image, slice memory, uint32_t peer, const char *name, uint32_t answer, int position) {
    call c = {.name = name, .kind = OWN, .image = image, .memory = memory, .peer = peer, .bytes = text(name), .same = answer != 0, .expect = {{answer}}};
    if (position >= 0) c.expect[0][AYGESHUNT_DECIDER] = 1, c.expect[0][AYGESHUNT_POSITION] = (uint32_t)position;
    run(c);
}

// Peer 1 is of group 20, and the third peer of no group. In the new image the rules for the group are at 1 and 2, those for nobody at 3 and 4, and those
// for others at 5 and 6.
void converted_cases(void) {
    slice old = stored_image(), image = converted(old, list_of("org.b.c.d org.a org.ab org.a.x org.b.c")), m = copied();
    must(single(CONNECT, m.at, 1002, empty, 0), 0, "connect");
    owns(old, m, 1, "org.a", 0, 1), owns(old, m, 1, "org.b.c.d", 32, 2), owns(old, m, 3, "org.a.x", 32, 3), owns(old, m, 3, "org.ab", 0, 0);
    owns(image, m, 1, "org.a", 0, 1), owns(image, m, 1, "org.a.x", 0, 2);
    owns(image, m, 1, "org.b.c.d", 32, 3), owns(image, m, 1, "org.b.c", 32, 4);
    owns(image, m, 3, "org.a", 32, 5), owns(image, m, 3, "org.a.x", 32, 6);
    owns(image, m, 3, "org.b.c.d", 32, 3), owns(image, m, 3, "org.ab", 0, 0);
    // not listed, so that no rule is left that keeps it from others
    owns(old, m, 3, "org.a.y", 32, 3), owns(image, m, 3, "org.a.y", 0, 0);
    run((call){.name = "connect, converted", .kind = CONNECT, .image = image, .memory = m, .peer = 1002, .gids = 2, .expect = {{0, 0, 0, 4, 3, 1, 1}}});
    run((call){.name = "piece, converted", .kind = PIECE, .image = image, .memory = m, .peer = 1, .bytes = call_c(), .same = 1, .expect = {{0, 48, 1, 0, 0, 1, 0}}});
    run((call){.name = "batch, converted", .kind = BATCH, .image = image, .memory = m, .peer = 1, .bytes = call_c(), .same = 1, .expect = {{0, 48, 1, 0, 0, 1, 0}}});
    free(m.at);
}
