/*
 * Compares limpet_aes128 with openssl's AES, an implementation that shares
 * nothing with ours, and tries lengths that must be refused.
 *
 * openssl is asked in openssl.c, a program of its own: this one writes to it
 * on file descriptor 3, and has its answers as standard input.
 *
 * A line for each group of cases, and at the end the number of cases that
 * passed and that failed. The random blocks count as one case together. Of
 * the cases that fail, the first is shown whole.
 */
#define _POSIX_C_SOURCE 200809L /* fdopen */

#include <stdbool.h>
#include <stdio.h>
#include <stdlib.h>
#include <string.h>

#include "fips.h"
#include "limpetnook.h"

enum {
    SIZE = LIMPET_AES128_SIZE,
    GUARD = 16,   /* bytes before and after a buffer that must stay */
    LONGEST = 32, /* the longest buffer that is tried */
    SHIFTS = 16,  /* a buffer begins at any of so many places in a row */
    AREA = GUARD + SHIFTS + LONGEST + GUARD,
    RANDOM_BLOCKS = 100000
};

/* A buffer of a call: length bytes from a place in an area, or a null pointer. */
struct buffer {
    uint8_t area[AREA];
    size_t from;
    size_t length;
    bool is_null;
};

struct call {
    struct buffer key, block, out;
};

static unsigned passed, failed;

/*
 * The generator of the random bytes: Marsaglia's xorshift with 64 bits and the
 * shifts 13, 7, 17, from a fixed seed, so that each run has the same cases.
 * Each step gives eight bytes, the lowest first.
 */
static uint64_t random_state = 88172645463325252u;

static void fill_random(uint8_t *bytes, size_t length)
{
    for (size_t i = 0; i < length; i++) {
        if (i % 8 == 0) {
            random_state ^= random_state << 13;
            random_state ^= random_state >> 7;
            random_state ^= random_state << 17;
        }
        bytes[i] = (uint8_t)(random_state >> (8 * (i % 8)));
    }
}

static struct buffer random_buffer(size_t length, size_t shift)
{
    struct buffer b;
    fill_random(b.area, AREA);
    b.from = GUARD + shift;
    b.length = length;
    b.is_null = false;
    return b;
}

/* Random areas, the output's too: what it holds before must not matter. */
static struct call random_call(size_t key_length, size_t block_length, size_t out_length, size_t shifts)
{
    struct call c;
    c.key = random_buffer(key_length, shifts % SHIFTS);
    c.block = random_buffer(block_length, shifts / SHIFTS % SHIFTS);
    c.out = random_buffer(out_length, shifts / SHIFTS / SHIFTS % SHIFTS);
    return c;
}

static void openssl_aes128(const uint8_t *key, const uint8_t *block, uint8_t *out)
{
    static FILE *openssl;

    if (openssl == NULL)
        openssl = fdopen(3, "w");
    if (openssl == NULL
        || fwrite(key, SIZE, 1, openssl) != 1 || fwrite(block, SIZE, 1, openssl) != 1 || fflush(openssl) != 0
        || fread(out, SIZE, 1, stdin) != 1) {
        fprintf(stderr, "the program of openssl.c gives no answer\n");
        exit(2);
    }
}

static void show(const char *name, const uint8_t *bytes, size_t length)
{
    printf("  %-14s", name);
    for (size_t i = 0; i < length; i++)
        printf("%02X", bytes[i]);
    printf("\n");
}

static void show_buffer(const char *name, const struct buffer *b)
{
    if (b->is_null)
        printf("  %-14snull, length %zu\n", name, b->length);
    else
        printf("  %-14s%zu bytes from byte %zu of this area:\n", name, b->length, b->from);
    show("", b->area, AREA);
}

static uint8_t *start(struct buffer *b)
{
    return b->is_null ? NULL : b->area + b->from;
}

/*
 * Makes the call and holds it to what it must do: enciphered is the output of
 * the independent program, or NULL where the call must be refused. The whole
 * areas are compared, so that a stray write shows.
 */
static bool call_is_right(const struct call *before, const uint8_t *enciphered, bool tell)
{
    struct call after = *before;
    struct call due = *before;
    uint8_t due_answer = LIMPET_BAD_LENGTH;
    if (enciphered != NULL) {
        due_answer = LIMPET_OK;
        memcpy(start(&due.out), enciphered, SIZE);
    }

    uint8_t answer = limpet_aes128(start(&after.key), after.key.length,
                                   start(&after.block), after.block.length,
                                   start(&after.out), after.out.length);

    bool right = answer == due_answer
        && memcmp(after.key.area, due.key.area, AREA) == 0
        && memcmp(after.block.area, due.block.area, AREA) == 0
        && memcmp(after.out.area, due.out.area, AREA) == 0;
    if (!right && tell) {
        printf("differs: answer %u, due %u\n", (unsigned)answer, (unsigned)due_answer);
        show_buffer("key", &before->key);
        show("key after", after.key.area, AREA);
        show_buffer("block", &before->block);
        show("block after", after.block.area, AREA);
        show_buffer("out", &before->out);
        show("out after", after.out.area, AREA);
        show("out due", due.out.area, AREA);
    }
    return right;
}

/* A case of its own: counted, and shown if it is the first of all that fails. */
static bool passes(const struct call *c, const uint8_t *enciphered)
{
    bool right = call_is_right(c, enciphered, failed == 0);
    if (right)
        passed++;
    else
        failed++;
    return right;
}

static void report(const char *group, unsigned right, unsigned cases)
{
    printf("%s: %u of %u right\n", group, right, cases);
}

/* The example of the standard. It has openssl agree with the standard too. */
static void fips_197_c1(void)
{
    struct call c = random_call(SIZE, SIZE, SIZE, 0);
    uint8_t independent[SIZE];
    unsigned right = 0;

    memcpy(start(&c.key), c1_key, SIZE);
    memcpy(start(&c.block), c1_block, SIZE);
    right += passes(&c, c1_cryptogram);
    openssl_aes128(start(&c.key), start(&c.block), independent);
    if (memcmp(independent, c1_cryptogram, SIZE) == 0) {
        right++;
        passed++;
    } else {
        failed++;
        show("openssl's C.1", independent, SIZE);
    }
    report("FIPS 197 C.1, ours and openssl's", right, 2);
}

static void lengths(void)
{
    static const size_t tried[] = { 0, 15, 16, 17, LONGEST };
    enum { TRIED = sizeof tried / sizeof tried[0] };
    unsigned right = 0;

    for (int k = 0; k < TRIED; k++)
        for (int b = 0; b < TRIED; b++)
            for (int o = 0; o < TRIED; o++) {
                struct call c = random_call(tried[k], tried[b], tried[o], 0);
                uint8_t enciphered[SIZE];
                openssl_aes128(start(&c.key), start(&c.block), enciphered);
                bool served = tried[k] == SIZE && tried[b] == SIZE && tried[o] == SIZE;
                right += passes(&c, served ? enciphered : NULL);
            }
    report("lengths 0, 15, 16, 17 and 32 of key, block and output", right, TRIED * TRIED * TRIED);
}

/* Each choice of the three buffers but none: empty, at a null pointer. */
static void null_pointers(void)
{
    unsigned right = 0;

    for (unsigned choice = 1; choice < 8; choice++) {
        struct call c = random_call(SIZE, SIZE, SIZE, 0);
        struct buffer *buffers[] = { &c.key, &c.block, &c.out };
        for (unsigned i = 0; i < 3; i++)
            if (choice >> i & 1) {
                buffers[i]->is_null = true;
                buffers[i]->length = 0;
            }
        right += passes(&c, NULL);
    }
    report("null pointers with length 0", right, 7);
}

/* Key and block may overlap: 16 bytes each, the second any number of bytes further on. */
static void overlapping_inputs(void)
{
    unsigned right = 0;

    for (size_t distance = 0; distance <= SIZE; distance++) {
        uint8_t both[2 * SIZE], kept[2 * SIZE], enciphered[SIZE], out[SIZE];
        fill_random(both, sizeof both);
        memcpy(kept, both, sizeof both);
        openssl_aes128(kept, kept + distance, enciphered);
        bool same = limpet_aes128(both, SIZE, both + distance, SIZE, out, SIZE) == LIMPET_OK
            && memcmp(out, enciphered, SIZE) == 0
            && memcmp(both, kept, sizeof both) == 0;
        if (!same && failed == 0) {
            printf("differs: block %zu bytes after the key in\n", distance);
            show("before", kept, sizeof kept);
            show("after", both, sizeof both);
            show("out", out, SIZE);
            show("out due", enciphered, SIZE);
        }
        right += same;
        passed += same;
        failed += !same;
    }
    report("key and block in one buffer", right, SIZE + 1);
}

/* The places change from block to block, so that every alignment comes up. */
static void random_blocks(void)
{
    unsigned right = 0;

    for (size_t n = 0; n < RANDOM_BLOCKS; n++) {
        struct call c = random_call(SIZE, SIZE, SIZE, n);
        uint8_t enciphered[SIZE];
        openssl_aes128(start(&c.key), start(&c.block), enciphered);
        right += call_is_right(&c, enciphered, failed == 0 && right == n);
    }
    report("random keys and blocks", right, RANDOM_BLOCKS);
    if (right == RANDOM_BLOCKS)
        passed++;
    else
        failed++;
}

int main(void)
{
    setvbuf(stdout, NULL, _IOLBF, BUFSIZ); /* so that a crash does not take the lines before it along */
    fips_197_c1();
    lengths();
    null_pointers();
    overlapping_inputs();
    random_blocks();
    printf("%u passed, %u failed\n", passed, failed);
    return failed == 0 ? EXIT_SUCCESS : EXIT_FAILURE;
}
