/* The one card of this program, over the proved calls of limpetnook.h. */
#ifndef READER_CARD_H
#define READER_CARD_H

#include <stdbool.h>
#include <stddef.h>
#include <stdint.h>

#include "limpetnook.h"
#include "lines.h"

/* Each returns the outcome of the call, 0 where it was served. Whether the values of an ISSUE line are good is the card's to say. */
uint8_t card_issue(const struct line *l);
uint8_t card_reset(void);

/* 0 or 1, as the card was issued. In mode 1 data wait until they are fetched by GET RESPONSE. */
uint8_t card_mode(void);

/* random: 16 bytes. reply has room for LIMPET_REPLY_SIZE bytes; *count is how many of them are the answer. */
uint8_t card_command(struct bytes command, struct bytes random, uint8_t *reply, size_t *count);

/* The n-th store of a command on the card as it is. given: whether there is one. The card stays as it is. */
struct card_store {
    uint16_t address;
    uint8_t value, given;
};
uint8_t card_store(struct bytes command, struct bytes random, size_t n, struct card_store *s);

/* The card and its area behind it, as bytes that such a store is made in, and a card that is found there after a loss of power. */
struct card_bytes {
    uint8_t at[LIMPET_CARD_SIZE + LIMPET_AREA_SIZE];
};
void card_copy(struct card_bytes *to);
void card_replace(const struct card_bytes *by);
uint8_t card_recover(void);

/* A card written as lines. There is room for a byte more than any card takes, so that a text that is too long is seen to be. */
struct card_text {
    uint8_t at[LIMPET_TEXT_SIZE + 1];
    size_t len;
};

/* The card as lines: whole, and as it is without its power, which is what lasts. The card stays as it is. */
uint8_t card_to_text(struct card_text *t);
uint8_t card_to_lasting_text(struct card_text *t);

/* Has the card of these lines. Where they are refused there is none. */
uint8_t card_from_text(const struct card_text *t);

/* A text in the other form: the old one is that of before there were directories. The card is not touched. */
enum text_form { OLD_FORM, NEW_FORM };
uint8_t card_text_into(enum text_form wanted, const struct card_text *given, struct card_text *t);

/* Whether it is the text of a card in that form, by the word of the library. */
bool card_text_has(enum text_form form, const struct card_text *t);

/* Whether a line with a transport key behind the third would make it the text of a card, as it was before version 11. */
bool card_text_lacks_key(const struct card_text *t);

/* Whether the command is one of those that can change the session alone, by its class and instruction. */
bool card_only_reads(struct bytes command);

/* Writes 00 over the card, and over any other bytes. */
void card_wipe(void);
void wipe(void *at, size_t len);

/* Whether the header and the library that were built into this program fit. Says so where they do not. */
bool card_fits(void);

/* What an outcome means, in a few words. */
const char *outcome_says(uint8_t outcome);

#endif
