// Counts what holds and says what does not.
#pragma once

// What is being tried: lines that say what failed begin with it.
extern const char *doing;

// From here on a signal that a damaged heap or a page that was not lent brings is a failed check as well, and the last one.
void begin(void);

void check(int holds, const char *format, ...);

// Prints the last line, "N passed, M failed"; the status to leave with.
int finish(void);
