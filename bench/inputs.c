#define _GNU_SOURCE
#include "inputs.h"

#include <stdio.h>
#include <stdlib.h>
#include <string.h>

static void word(unsigned char *at, uint32_t x) {
    for (int i = 0; i < 4; i++) at[i] = x >> (8 * i);
}

static size_t rounded(size_t n) { return (n + 7) / 8 * 8; }

// ---- values

static void pad(struct writer *w, size_t k) {
    while (w->at % k) w->b[w->at++] = 0;
}

static void put_byte(struct writer *w, unsigned char x) { w->b[w->at++] = x; }

static void put_word(struct writer *w, uint32_t x) {
    pad(w, 4);
    word(w->b + w->at, x);
    w->at += 4;
}

static void put_double(struct writer *w, double x) {
    pad(w, 8);
    memcpy(w->b + w->at, &x, 8);
    w->at += 8;
}

static void put_chars(struct writer *w, const char *s) {
    size_t n = strlen(s) + 1;
    memcpy(w->b + w->at, s, n);
    w->at += n;
}

static void put_text(struct writer *w, const char *s) {
    put_word(w, strlen(s));
    put_chars(w, s);
}

static void put_signature(struct writer *w, const char *s) {
    put_byte(w, strlen(s));
    put_chars(w, s);
}

// k is the alignment of the elements.
static void put_array(struct writer *w, size_t k, void (*put_elements)(struct writer *)) {
    put_word(w, 0);
    size_t length_at = w->at - 4;
    pad(w, k);
    size_t start = w->at;
    put_elements(w);
    word(w->b + length_at, w->at - start);
}

static void put_entry(struct writer *w, const char *key, const char *signature) {
    pad(w, 8);
    put_text(w, key);
    put_signature(w, signature);
}

static void put_uuids(struct writer *w) {
    for (int i = 0; i < 3; i++) put_text(w, "0000110b-0000-1000-8000-00805f9b34fb");
}

static void put_details(struct writer *w) {
    put_entry(w, "Vendor", "s");
    put_text(w, "Example Devices");
    put_entry(w, "Index", "u");
    put_word(w, 7);
}

static void put_properties(struct writer *w) {
    put_entry(w, "Name", "s");
    put_text(w, "Living room speaker");
    put_entry(w, "State", "u");
    put_word(w, 3);
    put_entry(w, "Connected", "b");
    put_word(w, 1);
    put_entry(w, "Volume", "d");
    put_double(w, 0.75);
    put_entry(w, "UUIDs", "as");
    put_array(w, 4, put_uuids);
    put_entry(w, "Details", "a{sv}");
    put_array(w, 8, put_details);
}

static void put_bytes(struct writer *w) {
    for (int i = 0; i < 12; i++) put_byte(w, i);
}

static void put_items(struct writer *w) {
    for (int i = 0; i < 20; i++) {
        pad(w, 8);
        put_word(w, i), put_word(w, 2 * i), put_word(w, 3 * i), put_word(w, i % 2), put_word(w, 4 * i);
        put_array(w, 1, put_bytes);
    }
}

static void put_names(struct writer *w) {
    char name[32];
    for (int i = 0; i < 20; i++) {
        sprintf(name, "org.example.Service.Name%02d", i);
        put_text(w, name);
    }
}

static void properties(struct writer *w) { put_array(w, 8, put_properties); }
static void names(struct writer *w) { put_array(w, 4, put_names); }
static void text(struct writer *w) { put_text(w, repeated("A sentence of forty characters or some. ", 47, "Twenty more letters.")); }
static void structs(struct writer *w) { put_array(w, 8, put_items); }
static void number(struct writer *w) { put_word(w, 7); }

const struct value PROPERTIES = {"a{sv}", properties}, NAMES = {"as", names}, TEXT = {"s", text}, STRUCTS = {"a(iiibiay)", structs}, NUMBER = {"u", number};

// ---- heads

// A code that nobody knows: libdbus 1.14 has a meaning for 10.
enum { UNKNOWN = 11 };

static size_t text_field(unsigned char *b, size_t at, int code, char letter, const char *s) {
    if (!s) return at;
    size_t n = strlen(s);
    at = rounded(at);
    b[at] = code, b[at + 1] = 1, b[at + 2] = letter;
    at += 4;
    if (letter == 'g') {
        b[at++] = n;
    } else {
        word(b + at, n);
        at += 4;
    }
    memcpy(b + at, s, n);
    return at + n + 1;
}

static size_t number_field(unsigned char *b, size_t at, int code, uint32_t x) {
    if (!x) return at;
    at = rounded(at);
    b[at] = code, b[at + 1] = 1, b[at + 2] = 'u';
    word(b + at + 4, x);
    return at + 8;
}

static size_t value_field(unsigned char *b, size_t at, const struct value *v) {
    if (!v) return at;
    struct writer w = {b, rounded(at)};
    put_byte(&w, UNKNOWN);
    put_signature(&w, v->signature);
    v->put(&w);
    return w.at;
}

struct bytes message_bytes(const struct message *m) {
    unsigned char *b = aligned_alloc(64, 8192 + (m->body + 63) / 64 * 64);
    memset(b, 0, 8192 + m->body);
    b[0] = 'l', b[1] = m->kind, b[2] = m->flags, b[3] = 1;
    word(b + 4, m->body);
    word(b + 8, 1);
    size_t at = 16;
    at = text_field(b, at, 1, 'o', m->path);
    at = text_field(b, at, 2, 's', m->interface);
    at = text_field(b, at, 3, 's', m->member);
    at = number_field(b, at, 5, m->reply_serial);
    at = text_field(b, at, 6, 's', m->destination);
    at = text_field(b, at, 7, 's', m->sender);
    at = text_field(b, at, 8, 'g', m->content ? m->content->signature : m->signature);
    at = value_field(b, at, m->extra);
    word(b + 12, at - 16);
    struct writer w = {b, rounded(at)};
    if (m->content) {
        m->content->put(&w);
        word(b + 4, w.at - rounded(at));
    }
    return (struct bytes){b, w.at + m->body};
}

struct bytes in_a_row(struct bytes message, size_t times) {
    struct bytes all = {aligned_alloc(64, (message.len * times + 63) / 64 * 64), message.len * times};
    for (size_t i = 0; i < times; i++) memcpy(all.at + message.len * i, message.at, message.len);
    return all;
}

static void put_parenthesized(struct writer *w) {
    while (w->at + 8 <= 2048) {
        put_signature(w, "v");
        put_signature(w, "g");
        put_signature(w, "");
    }
}

// Each has eight bytes behind the first. Room is left for the array behind them.
static void put_variants(struct writer *w) {
    while (w->at + 16 <= 2048) {
        put_signature(w, "((y))");
        pad(w, 8);
        put_byte(w, 1);
    }
}

static void put_arrays(struct writer *w) {
    put_array(w, 1, put_variants);
    put_word(w, 0);
}

static void put_parenthesized_array(struct writer *w) { put_array(w, 8, put_parenthesized); }

// A head of type 5, which needs no field, with one unknown field: a struct, whose values begin at a multiple of 8.
static struct bytes filled(const char *signature, void (*put_value)(struct writer *), uint32_t body) {
    struct writer w = {aligned_alloc(64, 2048), 16};
    memset(w.b, 0, 2048);
    put_byte(&w, UNKNOWN);
    put_signature(&w, signature);
    pad(&w, 8);
    put_value(&w);
    memcpy(w.b, "l\5\0\1", 4);
    word(w.b + 4, body);
    word(w.b + 8, 1);
    word(w.b + 12, w.at - 16);
    return (struct bytes){w.b, rounded(w.at)};
}

static void put_dearest(struct writer *w) { put_array(w, 4, put_arrays); }

// Two arrays in a struct, the second empty. The first holds variants, each of which needs the table of a signature of more than one letter, and nothing
// is lost to padding.
struct bytes dearest_head(uint32_t body) { return filled("(aav)", put_dearest, body); }

// The elements have eight bytes here too: a variant of a variant of an empty signature, in 31 parentheses that are opened for each of them.
struct bytes parenthesized_head(void) {
    char *signature = repeated("(", 31, "v");
    return filled(strcat(strcat(strcat(strcpy(malloc(80), "(a"), signature), repeated(")", 31, "")), ")"), put_parenthesized_array, 0);
}

// ---- names and signatures

char *name_of(int form, size_t n) {
    char *s = malloc(n + 1);
    char dot = form == 5 ? '/' : '.';
    // elements of seven letters, as names have; a member has no separator
    for (size_t i = 0; i < n; i++) s[i] = form != 4 && i % 8 == 7 && i + 1 < n ? dot : (char)('a' + i % 26);
    if (form == 2) s[0] = ':', s[1] = '1';
    if (form == 5) s[0] = '/';
    s[n] = 0;
    return s;
}

char *wide_text(size_t n) { return repeated("\u20ac", n / 3, n % 3 == 2 ? "ab" : n % 3 ? "a" : ""); }

char *repeated(const char *s, size_t times, const char *end) {
    char *r = calloc(1, strlen(s) * times + strlen(end) + 1);
    while (times--) strcat(r, s);
    return strcat(r, end);
}

// ---- images

struct rule {
    int context, verdict, direction, kind;
    uint32_t subject;
    const char *name, *path, *interface, *member;
};

// Offset and length of a string: a string that is there already is shared.
static size_t cite(unsigned char *b, size_t at, const char *s, size_t strings, size_t end) {
    if (!s) return end;
    size_t n = strlen(s);
    unsigned char *found = memmem(b + strings, end - strings, s, n);
    if (!found) {
        memcpy(b + end, s, n);
        found = b + end;
        end += n;
    }
    word(b + at, found - b - strings);
    word(b + at + 4, n);
    return end;
}

static struct rule rule_of(enum rules rules, int i, int n, char *space) {
    struct rule r = {.kind = 1};
    if (rules == PASSING && i < 2) return (struct rule){.verdict = 1, .direction = i};
    if (rules == MANDATORY && i == n - 1) return (struct rule){.context = 3, .verdict = 1};
    if (rules == NEARLY || rules == NEARLY_ANY) {
        if (rules == NEARLY_ANY) r.kind = 0;
        r.context = i % 4;
        r.subject = r.context == 1 ? 115 : r.context == 2 ? 1000 : 0;
        r.name = "org.example.Service.Firsu", r.path = PATH, r.interface = INTERFACE, r.member = MEMBER;
        return r;
    }
    sprintf(space, "org.example.Other%03d.Name", i);
    sprintf(space + 64, "org.example.Other%03d.Interface", i);
    r.direction = i % 8 == 7;
    r.name = space, r.interface = space + 64;
    return r;
}

struct bytes image_of(enum rules rules, int n) {
    unsigned char *b = calloc(1, 65536);
    size_t own = 32 + 8, transactions = own + 16, strings = transactions + 40 * n, end = strings;
    uint32_t head[8] = {0, 1, 32, 1, own, n, transactions, strings};
    b[33] = 1;
    b[own + 1] = 1;
    for (int i = 0; i < n; i++) {
        char space[128];
        struct rule r = rule_of(rules, i, n, space);
        size_t at = transactions + 40 * i;
        b[at] = r.context, b[at + 1] = r.verdict, b[at + 2] = r.direction, b[at + 3] = r.kind;
        word(b + at + 4, r.subject);
        end = cite(b, at + 8, r.name, strings, end);
        end = cite(b, at + 16, r.path, strings, end);
        end = cite(b, at + 24, r.interface, strings, end);
        end = cite(b, at + 32, r.member, strings, end);
    }
    head[0] = end;
    for (int i = 0; i < 8; i++) word(b + 4 * i, head[i]);
    return (struct bytes){b, end};
}
