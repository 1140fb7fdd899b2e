/*
 * Shows that limpetnook.h stands alone, may be included twice, and finds its
 * functions in the library: compiled as C and as C++, linked and run.
 */
#include "limpetnook.h"
#include "limpetnook.h"

int main(void)
{
    const uint8_t key[LIMPET_AES128_SIZE] = { 0 };
    const uint8_t block[LIMPET_AES128_SIZE] = { 0 };
    uint8_t out[LIMPET_AES128_SIZE] = { 0 };
    uint8_t code[LIMPET_CODE_SIZE] = { 0 };

    if (limpet_aes128(key, sizeof key, block, sizeof block, out, sizeof out) != LIMPET_OK)
        return 1;
    if (limpet_aes128(key, sizeof key, block, sizeof block, out, sizeof out - 1) != LIMPET_BAD_LENGTH)
        return 1;
    if (limpet_code(key, sizeof key, block, 8, block, 5, code, sizeof code) != LIMPET_OK)
        return 1;
    if (limpet_code(key, sizeof key, block, 5, block, 5, code, sizeof code) != LIMPET_BAD_LENGTH)
        return 1;
    return 0;
}
