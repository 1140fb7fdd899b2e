/*
 * Codes as request R-9 of document 02 says, by openssl's AES-128 in CBC mode. The
 * program of openssl_cbc.c is asked: it is written to on file descriptor 3, and has
 * its answers as standard input. Only filling and padding are done here.
 */
#ifndef BY_OPENSSL_H
#define BY_OPENSSL_H

#include <stddef.h>
#include <stdint.h>

#include "limpetnook.h"

/* The challenge is of 4, 8 or 16 bytes. Ends the program where there is no answer. */
void openssl_code(const uint8_t *key, const uint8_t *challenge, size_t challenge_length,
                  const uint8_t *message, size_t length, uint8_t code[LIMPET_CODE_SIZE]);

#endif
