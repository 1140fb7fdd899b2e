/*
 * The calls of a script, played on one card in place, with nothing checked and
 * nothing printed.
 */
#ifndef PLAY_H
#define PLAY_H

#include "limpetnook.h"
#include "lines.h"

/* A line and its text, into which its PINs point. */
struct played {
    struct text text;
    struct line line;
};

struct player {
    uint8_t card[LIMPET_CARD_SIZE], issued[LIMPET_CARD_SIZE];
    uint8_t area[LIMPET_AREA_SIZE];
    bool has_card;
    unsigned long calls;
};

/* All lines of the input, in memory that is the caller's to free. */
struct played *read_script(FILE *input, size_t *count);

void play_line(struct player *p, const struct line *l);

#endif
