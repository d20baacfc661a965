#include "policies.h"

#include <stdio.h>
#include <stdlib.h>
#include <string.h>

slice stored(size_t len) {
    static uint8_t store[1 << 22];
    static size_t used;
    if (len > sizeof store - used) {
        fputs("policies: the store is full\n", stderr);
        exit(2);
    }
    used += len;
    return (slice){store + used - len, len};
}

slice joined(slice first, slice second) {
    slice both = stored(first.len + second.len);
    memcpy(both.at, first.at, first.len);
    memcpy(both.at + first.len, second.at, second.len);
    return both;
}

slice list_of(const char *names) {
    slice list = stored(strlen(names) + (*names != 0));
    uint8_t *to = list.at;
    while (*names) {
        size_t n = strcspn(names, " ");
        *to++ = (uint8_t)n;
        memcpy(to, names, n);
        to += n, names += n;
        names += *names == ' ';
    }
    return list;
}

static void put_own(uint8_t *at, const own_rule *r) {
    memcpy(at, (uint8_t[]){r->context, r->verdict, r->matcher, 0}, 4);
    put_word(at + 4, r->subject);
    put_word(at + 8, r->at);
    put_word(at + 12, r->len);
}

// With so many connect rules and transaction rules, none or two, which are zeros.
static slice image_with(size_t others, const own_rule *rules, size_t count, slice strings) {
    size_t own = 32 + 8 * others, transactions = own + 16 * count, area = transactions + 40 * others;
    slice image = stored(area + strings.len);
    const size_t head[8] = {image.len, others, 32, count, own, others, transactions, area};
    for (int i = 0; i < 8; i++) put_word(image.at + 4 * i, (uint32_t)head[i]);
    for (size_t i = 0; i < count; i++) put_own(image.at + own + 16 * i, &rules[i]);
    memcpy(image.at + area, strings.at, strings.len);
    return image;
}

slice bare_image(const own_rule *rules, size_t count, slice strings) { return image_with(0, rules, count, strings); }

slice full_image(const own_rule *rules, size_t count, slice strings) {
    slice image = image_with(2, rules, count, strings);
    uint8_t *connect = image.at + 32, *transaction = connect + 16 + 16 * count;
    connect[1] = 1;
    memcpy(connect + 8, (uint8_t[]){3, 1, 2, 0, 20}, 5);
    transaction[1] = 1;
    memcpy(transaction + 40, (uint8_t[]){0, 0, 1, 0}, 4);
    put_word(transaction + 40 + 36, 2);
    return image;
}
