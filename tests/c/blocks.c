/*
 * Enciphers blocks under keys, or works codes out, for a run that counts the
 * instructions of each call of limpet_aes128 or limpet_code: count_instructions of
 * tools/x86/common.sh.
 *
 * Standard input has 16 bytes of a key and 16 of a block, again and again. With a
 * number, 0 to 300, it has 16 of a key, 16 of a challenge and so many of a message.
 * Prints a line for each call: the block enciphered, or the code.
 */
#include <stdio.h>
#include <stdlib.h>

#include "limpetnook.h"

enum { SIZE = LIMPET_AES128_SIZE, LONGEST = 300 };

static void print_hex(const uint8_t *bytes, size_t length)
{
    for (size_t i = 0; i < length; i++)
        printf("%02X", bytes[i]);
    putchar('\n');
}

int main(int count, char **arguments)
{
    uint8_t in[2 * SIZE + LONGEST], out[SIZE], code[LIMPET_CODE_SIZE];
    size_t message = count > 1 ? strtoul(arguments[1], NULL, 10) : 0;

    if (message > LONGEST)
        return EXIT_FAILURE;
    while (fread(in, 2 * SIZE + message, 1, stdin) == 1)
        if (count > 1) {
            if (limpet_code(in, SIZE, in + SIZE, SIZE, in + 2 * SIZE, message, code, sizeof code) != LIMPET_OK)
                return EXIT_FAILURE;
            print_hex(code, sizeof code);
        } else {
            if (limpet_aes128(in, SIZE, in + SIZE, SIZE, out, sizeof out) != LIMPET_OK)
                return EXIT_FAILURE;
            print_hex(out, sizeof out);
        }
    return EXIT_SUCCESS;
}
