/*
 * Coded commands (request R-9 of document 02), for tests: which they are, and the
 * code that is due at their end, by the AES of aes_bytes.c and with no call of the
 * library.
 */
#ifndef CODED_H
#define CODED_H

#include <stdbool.h>
#include <stddef.h>
#include <stdint.h>

#include "layout.h"
#include "limpetnook.h"

/* Whether the bytes are a frame of document 01: "Four bytes: case 1", and so on. */
bool is_frame(const uint8_t *command, size_t length);

/* Whether they are one of the five commands that CLA 04 has. */
bool is_coded(const uint8_t *command, size_t length);

/* The code of a message under a key, from a challenge of 0 to 16 bytes on. */
void code_of(const uint8_t *key, const uint8_t *challenge, size_t challenge_length,
             const uint8_t *message, size_t length, uint8_t code[LIMPET_CODE_SIZE]);

/* The same under the transport key of a card, from its challenge on. */
void code_for(const struct layout *card, const uint8_t *message, size_t length, uint8_t code[LIMPET_CODE_SIZE]);

/*
 * What a coded command ends in before any of its file's checks, on that card: 6A86,
 * 6700, 6983, 6984, 6988, or 0 where the code is right.
 */
unsigned refusal_of_code(const struct layout *card, const uint8_t *command, size_t length);

/* Such a command without CLA 04 and code: to is of so many bytes at least. Its length. */
size_t without_code(const uint8_t *command, size_t length, uint8_t *to);

/* Whether a file's right asks for codes, by bit 3. 0F does not. */
bool asks_code(uint8_t right);

#endif
