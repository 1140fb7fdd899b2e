/* Power that is lost in the middle of a script, on the bench. */
#ifndef CARDS_CUT_H
#define CARDS_CUT_H

#include <stdbool.h>

#include "store.h"

/* What a command line asks for. */
struct loss {
    const char *card, *script;
    size_t stores; /* that are made before the power is lost */
    bool keep;     /* the card that is found goes into the file */
};

/* From the words behind the part's name. Says what is wrong with them. */
bool read_loss(int words, char **word, struct loss *l);

/*
 * Runs the script on the card that was loaded until the power is lost, and recovers it. Prints what has become of each line, and what is
 * found then, and no secret; where it is kept, only once it is stored. Whether all that was done. Says why not.
 */
bool lose_power(struct store *s, const struct loss *l);

#endif
