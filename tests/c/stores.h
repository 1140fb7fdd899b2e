/*
 * The calls of request R-10 of document 02, each watched as watched.h says: the
 * stores of a command, one and many, and the recovery after a loss of power.
 */
#ifndef STORES_H
#define STORES_H

#include <stdbool.h>
#include <stddef.h>
#include <stdint.h>

#include "watched.h"

/* An address is a byte of the card, and behind those a byte of the area. */
enum { IMAGE_SIZE = LIMPET_CARD_SIZE + LIMPET_AREA_SIZE };

struct store {
    uint16_t address;
    uint8_t value;
};

struct asked {
    uint8_t outcome;
    bool given;
    struct store store;
};

/*
 * Asks for the n-th store of a command on that card. Held to: the outcome of document 01's order; nothing lent is written; where none is
 * given, all 00; and one that is given lies in bytes that last, and not in the mode, which no command sets. A run of one from n gives the same.
 */
struct asked watched_store(const struct held *h, struct given command, struct given random, size_t n);

/*
 * Asks for a run of stores from `first` on, into so many bytes, and holds it to all the stores of the command: as many as fit, and from 0
 * one at the most; what lies behind them, and all else that is lent, is as it was.
 */
void watched_run(const struct held *h, struct given command, struct given random, uint16_t first, size_t room, const struct store *stores, size_t count);

/* Held to what tests/c/layout.c makes of the card, byte for byte, and served where that is sound; a refusal leaves all as it was. */
uint8_t watched_recover(struct held *h);

#endif
