// Conversions of stored images: what it costs to make exact rules of prefix rules.
#include "jobs.h"

#include "guard.h"
#include "prefixes.h"

static uint8_t converted[65536];

// The answer, and 256 times the length of the new image.
static uint64_t retire(const struct job *j) {
    size_t length;
    uint64_t answer = aygeshunt_retire(j->image.at, j->image.len, j->a.at, j->a.len, converted, sizeof converted, &length);
    return answer + 256ULL * length;
}

static void conversion(const char *work, struct conversion c, uint64_t length) {
    struct job *j = add(work, "ours", retire, 256 * length);
    j->image = c.image, j->a = c.names;
}

void all_conversions(void) {
    conversion("retire, 16 own rules, 16 names", plain_conversion(), 864);
    conversion("retire, 256 own rules, 256 names", long_conversion(DEAREST), 65289);
    struct shape none = DEAREST;
    none.covered = 0;
    conversion("retire, 256 own rules, 256 names, none covered", long_conversion(none), 520);
    conversion("retire, 256 own rules, 256 names of 238 bytes, all covered", long_conversion((struct shape){238, 224, 214, 225, 256}), 65504);
    conversion("retire, 256 own rules, 256 names, other last bytes", long_conversion((struct shape){255, 252, 251, 253, 239}), 65305);
}
