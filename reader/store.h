/*
 * A card kept in a file, in the form of docs/CARD-FILE.md. What the file holds is replaced as a whole: whoever reads it, and
 * whenever the program or the machine stops, it is the card of before or the new one.
 *
 * Where something fails these say why.
 */
#ifndef READER_STORE_H
#define READER_STORE_H

#include "card.h"

enum { LONGEST_NAME = 255 }; /* of a file on Linux */

struct store {
    const char *path;      /* as the person named it */
    const char *name;      /* its last part, in folder */
    int folder, file;      /* file: -1 where there is none */
    struct card_text text; /* what is in the file; nothing where there is none */

    /* The file that is to take its place, and what is kept until then. */
    char next_name[LONGEST_NAME + 1];
    int next;         /* -1 where there is none */
    bool held, swept; /* held: signals wait; swept: what killed programs left was looked for */
};

enum found { FOUND, NONE, CANNOT_OPEN };
enum use { TO_LOOK, TO_CHANGE };

/*
 * Opens the file and reads its text. To change it keeps all others out who want to change it, until store_close; it waits some
 * seconds for one who is there. NONE, without a word, where there is no such file; it can be stored then, and is made by that.
 */
enum found store_open(struct store *s, const char *path, enum use use);

/* Only after store_open with FOUND or NONE. */
void store_close(struct store *s);

/* Names each file that a killed program has left beside the card's. */
void store_warn_of_leftovers(const struct store *s);

/*
 * Each has the card of this program be that of the file, and warns where others can open it. False where the file is none, which
 * only the second says, and how one in the old form, or of before there was a transport key, becomes one.
 */
bool store_has_card(const struct store *s);
bool store_load(const struct store *s);

/* The file's mode where others can open it, and else 0. */
unsigned store_open_to_others(const struct store *s);

/* Warns where they can. */
void store_warn_of_others(const struct store *s);

/*
 * Before a command is run: the file is still the card's, and the next file is there, with the room of the longest card. Signals
 * that end the program wait from now on, until store_card or store_drop, which removes the next file.
 */
bool store_prepare(struct store *s);
void store_drop(struct store *s);

/*
 * NOT_STORED: the file is as it was, or is not there as before. STORED_FOR_NOW: it has the card, but may be as before where the
 * machine loses its power.
 */
enum stored { STORED, NOT_STORED, STORED_FOR_NOW };
enum part { WHOLE_CARD, WHAT_LASTS };
enum when { ALWAYS, WHERE_CHANGED };

/* Has the file hold the card of this program: with its session, or as it is without power. Prepares it where nobody has. */
enum stored store_card(struct store *s, enum part part, enum when when);

/* Has the file hold a text that is a card's. */
enum stored store_text(struct store *s, const struct card_text *text);

#endif
