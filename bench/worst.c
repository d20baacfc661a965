// Counts heads: reads them from standard input, each behind its length in two bytes, and has callgrind dump the instructions of one reading of each under
// the label "place answer".
#include <stdint.h>
#include <stdio.h>
#include <valgrind/callgrind.h>

uint8_t bench_header_read(const uint8_t *s, size_t n);

static unsigned char head[1 << 16] __attribute__((aligned(64)));

int main(void) {
    // The pointer is volatile so that the compiler leaves the call where it stands, between the two requests.
    uint8_t (*volatile read_head)(const uint8_t *, size_t) = bench_header_read;
    for (int place = 0;; place++) {
        int low = getchar(), high = getchar();
        if (high == EOF) return 0;
        size_t len = low + 256 * (size_t)high;
        if (fread(head, 1, len, stdin) != len) return 1;
        char label[32];
        snprintf(label, sizeof label, "%d %d", place, read_head(head, len));
        CALLGRIND_ZERO_STATS;
        read_head(head, len);
        CALLGRIND_DUMP_STATS_AT(label);
    }
}
