// Faults of aygeshunt_retire, one at a time, as in breaks.c.
#include <aygeshunt.h>

#include <string.h>

uint8_t __real_aygeshunt_retire(const uint8_t *image, size_t i, const uint8_t *names, size_t n, uint8_t *room, size_t r, size_t *length);

enum { MOST = 65536 };

static int is(const char *fault) { return !strcmp(fault, BREAK); }
static volatile uint8_t seen;

static uint32_t word(const uint8_t *image, int index) { return aygeshunt_word(image, (size_t)index); }

// Whether a good image has a prefix rule.
static int has_prefixes(const uint8_t *image, size_t len) {
    size_t length;
    if (__real_aygeshunt_retire(image, len, image, 0, (uint8_t[]){0}, 0, &length) == 50) return 0;
    for (uint32_t k = 0; k < word(image, 3); k++)
        if (image[word(image, 4) + 16 * k + 2] == 2) return 1;
    return 0;
}

// ---- the new image

// A rule cites the first place among the strings where its text stands.
static void cite_first(const uint8_t *image, uint8_t *rule) {
    const uint8_t *area = image + word(image, 7);
    uint32_t at = 0;
    while (memcmp(area + at, area + aygeshunt_word(rule, 2), aygeshunt_word(rule, 3))) at++;
    rule[8] = (uint8_t)at, rule[9] = (uint8_t)(at >> 8);
}

// Faults of each exact rule of the new image.
static void rule_faults(uint8_t *image, size_t old_strings, uint8_t *rule) {
    int is_new = aygeshunt_word(rule, 2) >= old_strings;
    if (is("retire: a text that is there already is cited")) cite_first(image, rule);
    if (is("retire: the context is lost") && is_new) rule[0] = 0;
    if (is("retire: the verdict is lost") && is_new) rule[1] = 1;
    if (is("retire: the subject is lost") && is_new) memset(rule + 4, 0, 4);
    if (is("retire: the matcher stays") && is_new) rule[2] = 2;
}

// Exchanges the first two rules, or the first and the last.
static void exchange(uint8_t *image, uint32_t one, uint32_t two) {
    uint8_t *rules = image + word(image, 4), kept[16];
    if (word(image, 3) < 2) return;
    memcpy(kept, rules + 16 * one, 16);
    memcpy(rules + 16 * one, rules + 16 * two, 16);
    memcpy(rules + 16 * two, kept, 16);
}

static void image_faults(uint8_t *image, size_t len, const uint8_t *old) {
    size_t old_strings = word(old, 0) - word(old, 7);
    for (uint32_t k = 0; k < word(image, 3); k++) {
        uint8_t *rule = image + word(image, 4) + 16 * k;
        if (rule[2] == 1) rule_faults(image, old_strings, rule);
    }
    if (is("retire: the first rules are exchanged")) exchange(image, 0, 1);
    if (is("retire: the last rule comes first")) exchange(image, 0, word(image, 3) - 1);
    if (is("retire: unused strings are cleared") && old_strings == 16) memset(image + word(image, 7) + 14, 0, 2);
    if (is("retire: the total length stays")) memcpy(image, old, 4);
    if (is("retire: the count of own rules stays")) memcpy(image + 12, old + 12, 4);
    if (is("retire: the offset of the transaction rules stays")) memcpy(image + 24, old + 24, 4);
    if (is("retire: the offset of the strings stays")) memcpy(image + 28, old + 28, 4);
    if (is("retire: the last byte is not written")) image[len - 1] ^= 0xff;
}

// ---- refusals and rooms

// Whether a name stands in a list.
static int lists(const uint8_t *names, size_t n, const char *name) {
    for (size_t at = 0; at < n; at += 1 + names[at])
        if (names[at] == strlen(name) && n - at > names[at] && !memcmp(names + at + 1, name, names[at])) return 1;
    return 0;
}

// Faults of what is tested, by what was answered for a result of that length; the answer that is told then.
static uint8_t answer_faults(uint8_t answer, size_t len, const uint8_t *image, size_t i, const uint8_t *names, size_t n, size_t r) {
    static uint8_t room[MOST];
    static const uint8_t head[32] = {32, [8] = 32, [16] = 32, [24] = 32, [28] = 32};
    size_t other;
    if (is("retire: a bad list comes before a bad image") && answer == 50) return __real_aygeshunt_retire(head, 32, names, n, room, MOST, &other) == 54 ? 54 : 50;
    if (is("retire: room comes before the list") && answer == 54 && r == 0) return 53;
    if (is("retire: room comes before the image") && answer == 50 && r == 0) return 53;
    if (is("retire: the bus's own name is no name") && answer != 50 && lists(names, n, "org.freedesktop.DBus")) return 54;
    if (is("retire: an empty list is bad") && answer != 50 && n == 0) return 54;
    if (is("retire: prefix rules are refused") && answer != 50 && has_prefixes(image, i)) return 52;
    if (is("retire: room for the old image is wanted") && answer == 0 && r < i) return 53;
    if (is("retire: room for the longest image is wanted") && answer == 0 && r < MOST) return 53;
    if (is("retire: a room as long as the result is too short") && answer == 0 && r == len) return 53;
    return answer;
}

// A list that is not tested where no rule needs it, or a room that is a byte too short.
static uint8_t taken_faults(const uint8_t *image, size_t i, const uint8_t *names, size_t n, uint8_t *room, size_t r, size_t *length, uint8_t answer) {
    static uint8_t longer[MOST];
    if (is("retire: the list is not tested without prefix rules") && answer == 54 && !has_prefixes(image, i))
        return __real_aygeshunt_retire(image, i, names, 0, room, r, length);
    if (is("retire: the list is tested up to its first fault") && answer == 54 && n && names[0] && n > names[0])
        return __real_aygeshunt_retire(image, i, names, 1 + (size_t)names[0], room, r, length);
    if (is("retire: a room that is a byte short is enough") && answer == 53 && __real_aygeshunt_retire(image, i, names, n, longer, MOST, length) == 0 && *length == r + 1)
        return memcpy(room, longer, r), 0;
    return answer;
}

uint8_t __wrap_aygeshunt_retire(const uint8_t *image, size_t i, const uint8_t *names, size_t n, uint8_t *room, size_t r, size_t *length) {
    if (is("retire: reads behind the image")) seen = ((const volatile uint8_t *)image)[i];
    if (is("retire: reads behind the list")) seen = ((const volatile uint8_t *)names)[n];
    if (is("retire: reads before the list")) seen = ((const volatile uint8_t *)names)[-1];
    if (is("retire: writes behind the room")) ((volatile uint8_t *)room)[r] = 0;
    uint8_t answer = __real_aygeshunt_retire(image, i, names, n, room, r, length), told = answer_faults(answer, *length, image, i, names, n, r);
    if (told != answer) return *length = 0, told;
    if (answer == 0) image_faults(room, *length, image);
    if (is("retire: a byte behind the result") && answer == 0 && *length < r) room[*length] = 0;
    if (is("retire: a refusal writes") && answer && r) room[0] = 0;
    if (is("retire: a refusal writes at the end") && answer && r) room[r - 1] = 0;
    if (is("retire: a refusal has a length") && answer == 53) *length = r;
    if (is("retire: a refusal tells no length") && answer) *length = 12345;
    return taken_faults(image, i, names, n, room, r, length, answer);
}
