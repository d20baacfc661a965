// A daemon that has a stored policy with prefix rules, as examples/host/README.md shows it, and converts it.
#include <aygeshunt.h>
#include <stdbool.h>
#include <stdio.h>
#include <string.h>

// One connect rule, which lets everybody in, and one own rule, by which everybody may own what is under org.theatre.
static const uint8_t image[67] = {67,       [4] = 1, [8] = 32, [12] = 1, [16] = 40,  [24] = 56,  [28] = 56,  [33] = 1,   [41] = 1,   2,         [52] = 11,
                                  [56] = 'o', 'r',     'g',      '.',      't',        'h',        'e',        'a',        't',        'r',       'e'};
static const char *const services[] = {"org.theatre.Fans", "org.theatre.Panel.Left", "org.freedesktop.Notifications"};

enum { LONGEST = 65536 };  /* bytes of the longest image */

/* Names in a row, each behind its length. */
struct names {
    uint8_t at[LONGEST];
    size_t length;
};

static bool add_name(struct names *names, const char *name) {
    size_t length = strlen(name);
    if (length > 255 || sizeof names->at - names->length < 1 + length) return false;
    names->at[names->length] = (uint8_t)length;
    memcpy(names->at + names->length + 1, name, length);
    names->length += 1 + length;
    return true;
}

/* Makes the image that is lent from now on of the stored one, which is kept: when a service has a further name, it is converted again. */
static bool convert(const uint8_t *stored, size_t stored_length, const struct names *names, uint8_t lent[LONGEST], size_t *lent_length) {
    uint8_t answer = aygeshunt_retire(stored, stored_length, names->at, names->length, lent, LONGEST, lent_length);
    if (answer == AYGESHUNT_BAD_LIST) fputs("a name in the list is no name of a service, or there twice\n", stderr);
    if (answer == AYGESHUNT_TOO_LARGE) fputs("too many rules: list fewer names, or let fewer prefixes cover each\n", stderr);
    if (answer == AYGESHUNT_BAD_IMAGE) fputs("the stored policy is damaged\n", stderr);
    return answer == AYGESHUNT_DONE;
}

static uint8_t memory[AYGESHUNT_MEMORY_LENGTH], place[AYGESHUNT_PLACE_LENGTH], lent[LONGEST];

static uint32_t connects(const uint8_t *policy, size_t length) {
    aygeshunt_connect(policy, length, memory, sizeof memory, 1000, (const uint32_t[]){0}, 0, place, sizeof place);
    return aygeshunt_word(place, AYGESHUNT_ANSWER);
}

static uint32_t owns(size_t length, const char *name) {
    aygeshunt_own(lent, length, memory, sizeof memory, 1, (const uint8_t *)name, strlen(name), place, sizeof place);
    return aygeshunt_word(place, AYGESHUNT_ANSWER);
}

int main(void) {
    static struct names names, twice;
    static char too_long[300];
    size_t length;
    memset(too_long, 'a', sizeof too_long - 1);
    aygeshunt_start(memory, sizeof memory, place, sizeof place);
    if (connects(image, sizeof image) != AYGESHUNT_DONE) return 1;
    for (size_t i = 0; i < sizeof services / sizeof *services; i++)
        if (!add_name(&names, services[i])) return 2;
    if (add_name(&names, too_long)) return 3;
    if (!convert(image, sizeof image, &names, lent, &length) || length != 67 + 16 + 16 + 22) return 4;
    if (connects(lent, length) != AYGESHUNT_DONE) return 5;
    if (owns(length, services[0]) != AYGESHUNT_DONE || owns(length, services[1]) != AYGESHUNT_DONE) return 6;
    if (owns(length, services[2]) != AYGESHUNT_OWN_DENIED || owns(length, "org.theatre.Lamps") != AYGESHUNT_OWN_DENIED) return 7;
    if (!add_name(&twice, services[0]) || !add_name(&twice, services[0])) return 8;
    return convert(image, sizeof image, &twice, lent, &length) || length != 0 ? 9 : 0;
}
