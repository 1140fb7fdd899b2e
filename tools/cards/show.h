/* What a person wants to know of a card that is kept in a file. */
#ifndef CARDS_SHOW_H
#define CARDS_SHOW_H

#include "form.h"

/* Prints its form, tries, mode, session, free space, and the files as a tree of directories; and no secret. */
void show_card(const struct form *f);

/* The library's word on a file. */
enum verdict { REFUSED_CARD, OLD_CARD, NEW_CARD };

/* Prints the verdict. f: what the plain parser found; it explains a refusal where it found something wrong too. */
void show_verdict(const char *path, enum verdict verdict, const struct form *f);

/* What is wrong with a text, by the plain parser that found something wrong. */
void tell_wrong(const struct form *f, char *room, size_t size);

#endif
