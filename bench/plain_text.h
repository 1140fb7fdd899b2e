/*
 * A card written as lines and read again (requests, in the new form
 * of R-8), and such lines made from those of the old form and back, in plain C: for
 * bench/texts and tests/fuzz-texts to hold the library's calls against.
 * The parameters and the outcomes are those of limpet_to_text, limpet_from_text,
 * limpet_text_to_new and limpet_text_to_old.
 */
#ifndef PLAIN_TEXT_H
#define PLAIN_TEXT_H

#include <stddef.h>
#include <stdint.h>

#include "limpetnook.h"

uint8_t plain_to_text(const struct limpet_card *card, const uint8_t *area, size_t area_len,
                      uint8_t *text, size_t text_len, size_t *text_count);

uint8_t plain_from_text(struct limpet_card *card, uint8_t *area, size_t area_len,
                        const uint8_t *text, size_t text_len);

uint8_t plain_text_to_new(const uint8_t *old, size_t old_len, uint8_t *text, size_t text_len, size_t *text_count);

uint8_t plain_text_to_old(const uint8_t *given, size_t given_len, uint8_t *text, size_t text_len, size_t *text_count);

#endif
