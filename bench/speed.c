/*
 * The time that one block of AES-128 takes, key expansion included, in
 * limpet_aes128 and in others, measured in one run.
 *
 * In each round every one of them enciphers the same chain of blocks, in which
 * each output is the next input, so that no call can begin before the one
 * before it has ended. The rounds alternate between them, so that a slow moment
 * of the machine does not meet only one, and the best round of each counts.
 *
 * With WITH_OTHERS defined, openssl's and BearSSL's are among them.
 */
#include <stdio.h>
#include <stdlib.h>
#include <string.h>

#ifdef WITH_OTHERS
#define OPENSSL_SUPPRESS_DEPRECATED /* AES_encrypt: the plain call, with no layers over it */
#include <bearssl.h>
#include <openssl/aes.h>
#include <openssl/crypto.h>
#endif

#include "fips.h"
#include "limpetnook.h"
#include "measure.h"

enum { SIZE = LIMPET_AES128_SIZE, ROUNDS = 25, PAIRS_IN_ROUND = 25000 };

typedef void cipher(const uint8_t key[SIZE], const uint8_t block[SIZE], uint8_t out[SIZE]);

/* aes_bytes.c, compiled twice */
cipher aes_bytes_O2, aes_bytes_O3;

#ifdef WITH_TABLE
/* limpet_aes128 as it was with a table */
uint8_t limpet_aes128_table(const uint8_t *key, size_t key_len,
                            const uint8_t *block, size_t block_len,
                            uint8_t *out, size_t out_len);
#endif

static void ours(const uint8_t *key, const uint8_t *block, uint8_t *out)
{
    if (limpet_aes128(key, SIZE, block, SIZE, out, SIZE) != LIMPET_OK)
        abort();
}

#ifdef WITH_TABLE
static void with_table(const uint8_t *key, const uint8_t *block, uint8_t *out)
{
    if (limpet_aes128_table(key, SIZE, block, SIZE, out, SIZE) != LIMPET_OK)
        abort();
}
#endif

#ifdef WITH_OTHERS
static void openssls(const uint8_t *key, const uint8_t *block, uint8_t *out)
{
    AES_KEY expanded;
    if (AES_set_encrypt_key(key, 8 * SIZE, &expanded) != 0)
        abort();
    AES_encrypt(block, out, &expanded);
}

/* BearSSL has no call for one block. CBC of one block, from zeros on, is that. */
static void bearssls_32(const uint8_t *key, const uint8_t *block, uint8_t *out)
{
    br_aes_ct_cbcenc_keys expanded;
    uint8_t zeros[SIZE] = { 0 };
    br_aes_ct_cbcenc_init(&expanded, key, SIZE);
    memcpy(out, block, SIZE);
    br_aes_ct_cbcenc_run(&expanded, zeros, out, SIZE);
}

static void bearssls_64(const uint8_t *key, const uint8_t *block, uint8_t *out)
{
    br_aes_ct64_cbcenc_keys expanded;
    uint8_t zeros[SIZE] = { 0 };
    br_aes_ct64_cbcenc_init(&expanded, key, SIZE);
    memcpy(out, block, SIZE);
    br_aes_ct64_cbcenc_run(&expanded, zeros, out, SIZE);
}
#endif

static struct contender {
    const char *name;
    cipher *encipher;
    double best; /* ns a block */
    uint8_t last[SIZE];
} contenders[] = {
    { "ours (limpet_aes128)", ours, 0, { 0 } },
#ifdef WITH_TABLE
    { "ours, as it was with a table", with_table, 0, { 0 } },
#endif
    { "C by bytes, gcc -O2", aes_bytes_O2, 0, { 0 } },
    { "C by bytes, gcc -O3", aes_bytes_O3, 0, { 0 } },
#ifdef WITH_OTHERS
    { "openssl AES_set_encrypt_key and AES_encrypt", openssls, 0, { 0 } },
    { "BearSSL aes_ct, 32 bits, constant time", bearssls_32, 0, { 0 } },
    { "BearSSL aes_ct64, 64 bits, constant time", bearssls_64, 0, { 0 } },
#endif
};

enum { CONTENDERS = sizeof contenders / sizeof contenders[0] };

/* ns a block. Two buffers in turn: an output is the next input where it stands. */
static double run_chain(struct contender *c, const uint8_t *key, const uint8_t *block, int pairs)
{
    uint8_t a[SIZE], b[SIZE];
    memcpy(a, block, SIZE);
    double from = processor_time();
    for (int i = 0; i < pairs; i++) {
        c->encipher(key, a, b);
        c->encipher(key, b, a);
    }
    double took = processor_time() - from;
    memcpy(c->last, a, SIZE);
    return 1e9 * took / (2.0 * pairs);
}

static void print_hex(const uint8_t *bytes)
{
    for (int i = 0; i < SIZE; i++)
        printf("%02X", bytes[i]);
}

static void expect_same_last_block(const char *when)
{
    for (int i = 1; i < CONTENDERS; i++)
        if (memcmp(contenders[i].last, contenders[0].last, SIZE) != 0) {
            printf("they differ %s:\n", when);
            for (int j = 0; j < CONTENDERS; j++) {
                print_hex(contenders[j].last);
                printf(" %s\n", contenders[j].name);
            }
            exit(EXIT_FAILURE);
        }
}

int main(void)
{
    for (int i = 0; i < CONTENDERS; i++)
        contenders[i].encipher(c1_key, c1_block, contenders[i].last);
    expect_same_last_block("on FIPS 197 C.1");
    printf("all give ");
    print_hex(contenders[0].last);
    printf(" on FIPS 197 C.1\n");

    for (int round = 0; round < ROUNDS; round++)
        for (int i = 0; i < CONTENDERS; i++) {
            double time = run_chain(&contenders[i], c1_key, c1_block, PAIRS_IN_ROUND);
            if (round == 0 || time < contenders[i].best)
                contenders[i].best = time;
        }
    expect_same_last_block("at the end of the chain");

#ifdef WITH_OTHERS
    printf("%s\n", OpenSSL_version(OPENSSL_VERSION));
#endif
    printf("best of %d rounds of %d blocks each:\n", ROUNDS, 2 * PAIRS_IN_ROUND);
    printf("%10s  %11s\n", "ns a block", "ours / this");
    for (int i = 0; i < CONTENDERS; i++)
        printf("%10.1f  %11.2f  %s\n", contenders[i].best,
               contenders[0].best / contenders[i].best, contenders[i].name);
    return EXIT_SUCCESS;
}
