#define _POSIX_C_SOURCE 200809L /* fdopen */
#include "by_openssl.h"

#include <stdio.h>
#include <stdlib.h>
#include <string.h>

enum { SIZE = 16 };

static void stop(const char *why)
{
    fprintf(stderr, "%s\n", why);
    exit(2);
}

void openssl_code(const uint8_t *key, const uint8_t *challenge, size_t challenge_length,
                  const uint8_t *message, size_t length, uint8_t code[LIMPET_CODE_SIZE])
{
    static FILE *openssl;
    size_t padded = (length / SIZE + 1) * SIZE; /* "always padded by 80 and 00" */
    const uint8_t count[] = { (uint8_t)padded, (uint8_t)(padded >> 8), (uint8_t)(padded >> 16), (uint8_t)(padded >> 24) };
    uint8_t initial[SIZE] = { 0 }, last[SIZE];
    uint8_t *text = calloc(padded, 1);

    if (text == NULL)
        stop("no memory for a message");
    memcpy(initial, challenge, challenge_length); /* "the challenge filled with 00" */
    if (length > 0)
        memcpy(text, message, length);
    text[length] = 0x80;
    if (openssl == NULL)
        openssl = fdopen(3, "w");
    if (openssl == NULL || fwrite(key, SIZE, 1, openssl) != 1 || fwrite(initial, SIZE, 1, openssl) != 1
        || fwrite(count, sizeof count, 1, openssl) != 1 || fwrite(text, padded, 1, openssl) != 1 || fflush(openssl) != 0
        || fread(last, SIZE, 1, stdin) != 1)
        stop("the program of openssl_cbc.c gives no answer");
    memcpy(code, last, LIMPET_CODE_SIZE);
    free(text);
}
