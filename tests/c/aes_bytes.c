/*
 * A plain AES-128 of one block that works byte by byte, as FIPS 197 tells it:
 * what the speed of limpet_aes128 is held against. Like limpet_aes128 it
 * expands the key anew at each call, a round at a time.
 *
 * AES_BYTES names the function, so that one program can hold this file more
 * than once, compiled in different ways.
 */
#include <stdint.h>
#include <string.h>

#include "sbox.h"

void AES_BYTES(const uint8_t key[16], const uint8_t block[16], uint8_t out[16]);

/* 4.2: times x in the field of 256 elements */
static uint8_t xtime(uint8_t b)
{
    return (uint8_t)((b << 1) ^ ((b >> 7) * 0x1b));
}

/*
 * 5.1.1 and 5.1.2 in one pass: in two it takes 1.4 times as long at -O2, which
 * would flatter what is held against it. The byte of row r and column c stands
 * at i = r + 4 * c, and what comes there, from column c + r, at 5 * i modulo 16.
 */
static void sub_bytes_and_shift_rows(uint8_t to[16], const uint8_t from[16])
{
    for (int i = 0; i < 16; i++)
        to[i] = sbox[from[5 * i % 16]];
}

/* 5.1.3: 2a + 3b + c + d is a + (a + b + c + d) + 2(a + b), and so on. */
static void mix_columns(uint8_t to[16], const uint8_t from[16])
{
    for (int i = 0; i < 16; i += 4) {
        uint8_t a = from[i], b = from[i + 1], c = from[i + 2], d = from[i + 3];
        uint8_t all = a ^ b ^ c ^ d;
        to[i] = a ^ all ^ xtime(a ^ b);
        to[i + 1] = b ^ all ^ xtime(b ^ c);
        to[i + 2] = c ^ all ^ xtime(c ^ d);
        to[i + 3] = d ^ all ^ xtime(d ^ a);
    }
}

/* 5.1.4 */
static void add_round_key(uint8_t state[16], const uint8_t round_key[16])
{
    for (int i = 0; i < 16; i++)
        state[i] ^= round_key[i];
}

/* 5.2: the round key that follows, over the one before */
static void next_round_key(uint8_t round_key[16], uint8_t round_constant)
{
    round_key[0] ^= sbox[round_key[13]] ^ round_constant;
    round_key[1] ^= sbox[round_key[14]];
    round_key[2] ^= sbox[round_key[15]];
    round_key[3] ^= sbox[round_key[12]];
    for (int i = 4; i < 16; i++)
        round_key[i] ^= round_key[i - 4];
}

/* 5.1 */
void AES_BYTES(const uint8_t key[16], const uint8_t block[16], uint8_t out[16])
{
    uint8_t state[16], shifted[16], round_key[16];
    uint8_t round_constant = 1;

    memcpy(state, block, 16);
    memcpy(round_key, key, 16);
    add_round_key(state, round_key);
    for (int round = 1; round <= 10; round++) {
        next_round_key(round_key, round_constant);
        round_constant = xtime(round_constant);
        sub_bytes_and_shift_rows(shifted, state);
        if (round < 10)
            mix_columns(state, shifted);
        else
            memcpy(state, shifted, 16);
        add_round_key(state, round_key);
    }
    memcpy(out, state, 16);
}
