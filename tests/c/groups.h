/*
 * What the groups of cases of the program refusals share: how they are counted,
 * the cards that they start from, and the calls on a card that may be unsound.
 */
#ifndef GROUPS_H
#define GROUPS_H

#include <stdbool.h>
#include <stddef.h>
#include <stdint.h>

#include "cards.h"
#include "layout.h"
#include "watched.h"

extern bool is_short;        /* fewer cases, for a run under valgrind */
extern bool ends_at_first;   /* the program ends soon after the first thing that is wrong */
extern unsigned long one_in; /* of so many spoiled cards or areas one is tried, for a run under an emulator */

struct group {
    const char *name;
    unsigned long wrongs, calls;
};

extern unsigned passed, failed; /* groups */
struct group begin(const char *name);
void end(struct group g);

/* A card of a sort, as its bytes are, and the area that goes with it. */
struct pattern {
    uint8_t card[LIMPET_CARD_SIZE];
    uint8_t area[LIMPET_AREA_SIZE];
};

extern struct pattern patterns[SORTS];
void make_patterns(void);
void keep(struct pattern *p, const struct held *h);

/* The one with most in it: files of all types, rights, a challenge, bytes that wait. */
const struct pattern *in_use(void);

/* With a part of its area, or with bytes behind it. */
struct held hold_part(const struct pattern *p, size_t area_length);

struct tally {
    unsigned long cards, served, refused;
};

void count_card(struct tally *t, const struct pattern *p);
void print_tally(const char *name, const struct tally *t);

/* All calls on one card, with its area, or the query and the reset alone; the watched calls hold each to its due outcome. */
void try_card(const struct pattern *p, bool all);

/* Of the values that a spoiled byte may have, those that differ in one bit get all calls; in a short run there are no others. */
bool is_one_bit(unsigned difference);

/* From a fixed seed. */
uint32_t random_below(uint32_t bound);

/* The groups of spoiled.c and of areas.c. */
void try_spoiled_cards(void);
void try_wrong_areas(void);
void try_each_byte_spoiled(void);

#endif
