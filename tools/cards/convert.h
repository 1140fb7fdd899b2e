/* Cards in files, from the form of before there were directories into the present one, and back: one, or a whole shelf. */
#ifndef CARDS_CONVERT_H
#define CARDS_CONVERT_H

#include "card.h"

/* What a command line asks for. */
struct conversion {
    enum text_form wanted;
    const char *into; /* the folder that the texts go to; NULL where each file is replaced */
    bool dry;         /* all is looked at, and nothing is written */
    size_t count;
    char **files;
};

/* From the words behind the part's name, which stands before them. Says what is wrong with them. */
bool read_conversion(int words, char **word, struct conversion *c);

/*
 * Converts one file after the other, and prints what has become of each. What is wrong with one does not keep the others from it.
 * Where a signal has come that ends the program (ends.h), no further file is begun. Whether all are in the form that is wanted now.
 */
bool convert_files(const struct conversion *c);

#endif
