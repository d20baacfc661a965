// Images with own rules, and lists of names, put together by hand from docs/RULES.md. What is made here stays until the program ends.
#pragma once
#include "inputs.h"

// Matchers of an own rule.
enum { ANY, EXACT, PREFIX };

// An own rule; `at` and `len` say where its string stands among the strings.
typedef struct {
    uint8_t context, verdict, matcher;
    uint32_t subject, at, len;
} own_rule;

// An image of these own rules and strings, and of nothing else.
slice bare_image(const own_rule *rules, size_t count, slice strings);

// The same with two connect rules before them, of which the second is about gid 20, and two transaction rules behind, of which the second has the first two
// bytes of the strings as its member. Everybody may connect and send.
slice full_image(const own_rule *rules, size_t count, slice strings);

// A list of the names that stand in a text with a space between two.
slice list_of(const char *names);

// Two slices in a row, and room that nobody has had yet.
slice joined(slice first, slice second);
slice stored(size_t len);
