#define _DEFAULT_SOURCE
#include "check.h"

#include <signal.h>
#include <stdarg.h>
#include <stdio.h>
#include <unistd.h>

const char *doing = "nothing yet";

static long passed, failed;

void check(int holds, const char *format, ...) {
    if (holds) {
        passed++;
        return;
    }
    // a fault shows in thousands of places, and the first ones tell where it is
    if (++failed > 20) return;
    va_list words;
    va_start(words, format);
    printf("FAILED: %s: ", doing);
    vprintf(format, words);
    printf("\n");
    va_end(words);
}

int finish(void) {
    printf("%ld passed, %ld failed\n", passed, failed);
    fflush(stdout);
    return failed != 0;
}

// A page was touched that was not lent, or the heap was found damaged: nothing can be said of what comes behind.
static void touched(int number) {
    check(0, "something was touched that was not lent (signal %d)", number);
    _exit(finish());
}

void begin(void) {
    // printing must not need the heap, which may be damaged by then
    static char lines[4096];
    setvbuf(stdout, lines, _IOLBF, sizeof lines);
    signal(SIGSEGV, touched);
    signal(SIGBUS, touched);
    signal(SIGABRT, touched);
}
