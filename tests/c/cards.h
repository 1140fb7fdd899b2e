/*
 * Cards in use, made by calls alone, for tests that spoil them or measure them.
 */
#ifndef CARDS_H
#define CARDS_H

#include <stddef.h>
#include <stdint.h>

#include "watched.h"

/* A good order: the key of FIPS 197 C.1, PINs of 8 and of 16 digits, mode 0, the transport key 10 to 1F. */
struct order good_order(void);

struct given given_bytes(const uint8_t *bytes, size_t length);
struct given given_text(const char *text);

/*
 * Gives a card a command in hex digits, blanks between them, and the block of C.1 as its random input; the status word, or 0 where it
 * was not served. A * stands for the code of what is before it, under the card's transport key and from its challenge on.
 */
unsigned tell(struct held *h, const char *command);

/* Makes a card in use from a blank one, and names it. */
struct sort {
    const char *name;
    void (*make)(struct held *h);
};

enum {
    FRESH, WITH_FILES, WITH_RIGHTS, LOCKED, SIXTEEN, WITH_FOLDERS, WITH_CODES, NONE_WAITING, ALL_WAITING, WITH_NOTES, FULL_OF_NOTES,
    SORTS
};
extern const struct sort sorts[SORTS];

#endif
