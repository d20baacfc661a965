#define _DEFAULT_SOURCE
#include "lent.h"

#include <stdio.h>
#include <stdlib.h>
#include <string.h>
#include <sys/mman.h>
#include <unistd.h>

// More than anything that is lent, and a multiple of every usual page.
static const size_t pages = 131072;

// Pages with one on each side that may not be touched; the middle is of `pages` bytes.
static uint8_t *fenced(void) {
    size_t page = (size_t)sysconf(_SC_PAGESIZE);
    uint8_t *all = mmap(NULL, pages + 2 * page, PROT_NONE, MAP_PRIVATE | MAP_ANONYMOUS, -1, 0);
    if (all == MAP_FAILED || mprotect(all + page, pages, PROT_READ | PROT_WRITE)) {
        perror("mmap");
        exit(2);
    }
    return all + page;
}

lent lend(slice from, int which, int placement, size_t step) {
    static uint8_t *fences[FENCES];
    lent l = {{NULL, from.len}, NULL};
    if (placement < OFFSETS) {
        if (!fences[which]) fences[which] = fenced();
        l.s.at = placement == BEFORE ? fences[which] + pages - from.len : fences[which];
    } else {
        size_t offset = (size_t)(placement - OFFSETS) * step % 8;
        // one byte at least, so that there is an address
        l.kept = malloc(offset + from.len + (offset + from.len == 0));
        l.s.at = l.kept + offset;
    }
    if (from.len) memcpy(l.s.at, from.at, from.len);
    return l;
}

uint8_t *unreadable(void) {
    static uint8_t *at;
    if (!at) at = mmap(NULL, pages, PROT_NONE, MAP_PRIVATE | MAP_ANONYMOUS, -1, 0);
    return at;
}
