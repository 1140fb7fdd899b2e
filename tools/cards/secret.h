/* Keys and PINs that are typed, or come on standard input. */
#ifndef CARDS_SECRET_H
#define CARDS_SECRET_H

#include "lines.h"

/* What a person calls it, and where it goes, with 00 behind it. */
struct secret {
    const char *name;
    struct text *to;
};

/*
 * Reads a line of standard input for each. At a terminal each is asked for by its name, twice until both are the same, and nothing
 * that is typed from the first question to the last is shown. Says why where there is none.
 */
bool read_secrets(const struct secret *wanted, size_t count);

#endif
