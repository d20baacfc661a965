// Images with prefix rules and lists of names, for conversions.
#pragma once
#include "inputs.h"

// An image and a list, what is to be converted.
struct conversion {
    struct bytes image, names;
};

// Sixteen own rules, of which every other one has a prefix, and sixteen names, of which half are covered by one prefix each.
struct conversion plain_conversion(void);

// Lengths of names and of prefixes; where a prefix differs from another, and where names differ from each other, which are the first of two bytes; and how many
// names are covered.
struct shape {
    int name, prefix, other, letters, covered;
};

// 256 prefix rules and 256 names of a shape. One prefix covers the names that are covered; the other, which all rules but the last have, covers none.
struct conversion long_conversion(struct shape s);

// The dearest that we know. Texts are compared by eight bytes, the last eight first, so here they differ just before these; and no more names can be covered,
// or the result would be longer than an image.
extern const struct shape DEAREST;
