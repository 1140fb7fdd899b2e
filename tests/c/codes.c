/*
 * limpet_code, held to openssl's AES-128 in CBC mode (by_openssl.h), and tried with
 * lengths that must be refused.
 *
 * Each buffer lies between two pages that nothing can read or write, at the end of
 * its own pages or at their start, so that a byte read or written past its length
 * ends the program. All the pages are compared after a call.
 *
 * A line for each group of cases, and at the end the number of cases that passed and
 * that failed. Of the cases that fail, the first is shown.
 */
#define _DEFAULT_SOURCE /* MAP_ANONYMOUS */

#include <signal.h>
#include <stdbool.h>
#include <stdio.h>
#include <stdlib.h>
#include <string.h>
#include <sys/mman.h>
#include <unistd.h>

#include "by_openssl.h"
#include "fips.h"
#include "limpetnook.h"

enum {
    KEY, CHALLENGE, MESSAGE, CODE, BUFFERS,
    SIZE = 16,
    LONGEST = 300,       /* every length up to there is tried */
    LONGEST_OF_ALL = 70000,
    LONGEST_WRONG = 40   /* of the lengths that are refused all up to there are tried */
};

static const char *const names[BUFFERS] = { "key", "challenge", "message", "code" };
static const size_t challenge_lengths[] = { 4, 8, 16 };

static unsigned passed, failed;
static bool is_short;

static void usage(FILE *to)
{
    fputs("usage: codes [--short] <ANSWERS 3>QUESTIONS\n"
          "\n"
          "Compares codes of limpet_code with those of the program openssl_cbc, which reads\n"
          "QUESTIONS and writes ANSWERS. The exit status is 1 where one was not as it must be.\n"
          "\n"
          "  --short   fewer cases\n", to);
}

/* ---- buffers ---- */

/* Pages of one buffer, and as they are to be. */
struct pages {
    uint8_t *at, *due;
    size_t size;
};

static struct pages pages[BUFFERS];

static void make_pages(struct pages *p, size_t most)
{
    size_t page = (size_t)sysconf(_SC_PAGESIZE);
    p->size = (most + page - 1) / page * page;
    uint8_t *all = mmap(NULL, p->size + 2 * page, PROT_READ | PROT_WRITE, MAP_PRIVATE | MAP_ANONYMOUS, -1, 0);

    p->at = all + page;
    p->due = malloc(p->size);
    if (all == MAP_FAILED || p->due == NULL || mprotect(all, page, PROT_NONE) != 0 || mprotect(p->at + p->size, page, PROT_NONE) != 0) {
        fprintf(stderr, "codes: no memory for %zu bytes between pages\n", most);
        exit(2);
    }
}

static void fault_seen(int signal)
{
    static const char words[] = "codes: a byte outside of a buffer was read or written, or one inside that is only read was written\n";

    (void)signal;
    if (write(STDERR_FILENO, words, sizeof words - 1) < 0)
        _exit(3);
    _exit(1);
}

/* Marsaglia's xorshift with 64 bits and the shifts 13, 7, 17, from a fixed seed. */
static void fill_random(uint8_t *bytes, size_t length)
{
    static uint64_t state = 88172645463325252u;

    for (size_t i = 0; i < length; i++) {
        if (i % 8 == 0) {
            state ^= state << 13;
            state ^= state >> 7;
            state ^= state << 17;
        }
        bytes[i] = (uint8_t)(state >> (8 * (i % 8)));
    }
}

/* ---- a call ---- */

/* Its buffers: where each lies in its pages, and whether a null pointer is given, which only an empty one may. */
struct call {
    uint8_t *at[BUFFERS];
    size_t length[BUFFERS];
    bool is_null[BUFFERS];
};

/* Random bytes in all pages. Which side of its pages a buffer touches changes from call to call. */
static struct call random_call(size_t key, size_t challenge, size_t message, size_t code)
{
    static unsigned turn;
    struct call c = { .length = { key, challenge, message, code } };

    turn++;
    for (int i = 0; i < BUFFERS; i++) {
        fill_random(pages[i].at, pages[i].size);
        c.at[i] = pages[i].at + (turn >> i & 1 ? 0 : pages[i].size - c.length[i]);
    }
    return c;
}

static bool is_served(const struct call *c)
{
    size_t challenge = c->length[CHALLENGE];

    return c->length[KEY] == SIZE && (challenge == 4 || challenge == 8 || challenge == 16) && c->length[CODE] == LIMPET_CODE_SIZE;
}

static void show(const char *name, const uint8_t *bytes, size_t length)
{
    printf("  %-10s%zu bytes ", name, length);
    for (size_t i = 0; i < length && i < LONGEST; i++)
        printf("%02X", bytes[i]);
    printf("\n");
}

/* Makes the call, which must have that code where it is served, and leave every other byte of the pages as it was. */
static bool passes(const struct call *c, const uint8_t *code)
{
    uint8_t due_outcome = is_served(c) ? LIMPET_OK : LIMPET_BAD_LENGTH;
    uint8_t *at[BUFFERS];
    bool right = true;

    for (int i = 0; i < BUFFERS; i++) {
        memcpy(pages[i].due, pages[i].at, pages[i].size);
        at[i] = c->is_null[i] ? NULL : c->at[i];
    }
    if (due_outcome == LIMPET_OK)
        memcpy(pages[CODE].due + (c->at[CODE] - pages[CODE].at), code, LIMPET_CODE_SIZE);
    for (int i = 0; i < CODE; i++)
        mprotect(pages[i].at, pages[i].size, PROT_READ);
    uint8_t outcome = limpet_code(at[KEY], c->length[KEY], at[CHALLENGE], c->length[CHALLENGE],
                                  at[MESSAGE], c->length[MESSAGE], at[CODE], c->length[CODE]);
    for (int i = 0; i < CODE; i++)
        mprotect(pages[i].at, pages[i].size, PROT_READ | PROT_WRITE);
    for (int i = 0; i < BUFFERS; i++)
        right = right && memcmp(pages[i].at, pages[i].due, pages[i].size) == 0;
    right = right && outcome == due_outcome;
    if (!right && failed == 0) {
        printf("differs: outcome %u, and %u is due\n", (unsigned)outcome, (unsigned)due_outcome);
        for (int i = 0; i < BUFFERS; i++)
            show(names[i], c->at[i], c->length[i]);
        if (due_outcome == LIMPET_OK)
            show("due", code, LIMPET_CODE_SIZE);
        fprintf(stderr, "codes: outcome %u, and %u is due; or another code, or a byte that was written\n", (unsigned)outcome,
                (unsigned)due_outcome);
    }
    *(right ? &passed : &failed) += 1;
    return right;
}

/* The same, with openssl's code. */
static bool passes_by_openssl(const struct call *c)
{
    uint8_t code[LIMPET_CODE_SIZE];

    openssl_code(c->at[KEY], c->at[CHALLENGE], c->length[CHALLENGE], c->at[MESSAGE], c->length[MESSAGE], code);
    return passes(c, code);
}

static void report(const char *group, unsigned right, unsigned cases)
{
    printf("%s: %u of %u right\n", group, right, cases);
}

/* ---- the cases ---- */

/* FIPS 197 C.1 has the answer: a message of no bytes is padded to 80 00 .. 00, so from this challenge on the block is that of C.1. */
static void fips_197_c1(void)
{
    struct call c = random_call(SIZE, SIZE, 0, LIMPET_CODE_SIZE);

    memcpy(c.at[KEY], c1_key, SIZE);
    memcpy(c.at[CHALLENGE], c1_block, SIZE);
    c.at[CHALLENGE][0] ^= 0x80;
    report("FIPS 197 C.1", passes(&c, c1_cryptogram), 1);
}

static void each_length(void)
{
    unsigned right = 0;

    for (size_t length = 0; length <= LONGEST; length++)
        for (size_t i = 0; i < sizeof challenge_lengths / sizeof *challenge_lengths; i++) {
            struct call c = random_call(SIZE, challenge_lengths[i], length, LIMPET_CODE_SIZE);
            right += passes_by_openssl(&c);
        }
    report("messages of 0 to 300 bytes, challenges of 4, 8 and 16", right, 3 * (LONGEST + 1));
}

static void long_messages(void)
{
    static const size_t lengths[] = { 4095, 4096, 4097, 65519, 65520, 65535, 65536, LONGEST_OF_ALL };
    enum { LENGTHS = sizeof lengths / sizeof *lengths };
    unsigned right = 0;

    make_pages(&pages[MESSAGE], LONGEST_OF_ALL);
    for (size_t i = 0; i < LENGTHS; i++) {
        struct call c = random_call(SIZE, challenge_lengths[i % 3], lengths[i], LIMPET_CODE_SIZE);
        right += passes_by_openssl(&c);
    }
    report("messages of up to 70,000 bytes", right, LENGTHS);
}

/* Bytes that padding or filling might be taken for: messages and challenges of 00, of 80, of FF. */
static void telling_bytes(void)
{
    static const uint8_t values[] = { 0x00, 0x80, 0xFF };
    unsigned right = 0, cases = 0;

    for (size_t length = 0; length <= 33; length++)
        for (int v = 0; v < 9; v++, cases++) {
            struct call c = random_call(SIZE, challenge_lengths[v % 3], length, LIMPET_CODE_SIZE);
            memset(c.at[MESSAGE], values[v / 3], length);
            memset(c.at[CHALLENGE], values[v % 3], c.length[CHALLENGE]);
            right += passes_by_openssl(&c);
        }
    report("messages and challenges of 00, of 80 and of FF", right, cases);
}

/* "The challenge filled with 00": one of 4 bytes, and those of 8 and 16 that begin with it and go on with 00, have the same codes. */
static void filled_challenges(void)
{
    unsigned right = 0;

    for (size_t length = 0; length <= 64; length++) {
        struct call c = random_call(SIZE, SIZE, length, LIMPET_CODE_SIZE);
        uint8_t codes[3][LIMPET_CODE_SIZE] = { { 0 } };
        memset(c.at[CHALLENGE] + 4, 0, SIZE - 4);
        for (int i = 0; i < 3; i++)
            limpet_code(c.at[KEY], SIZE, c.at[CHALLENGE], challenge_lengths[i], c.at[MESSAGE], length, codes[i], sizeof codes[i]);
        bool same = memcmp(codes[0], codes[1], sizeof codes[0]) == 0 && memcmp(codes[0], codes[2], sizeof codes[0]) == 0;
        right += same;
        *(same ? &passed : &failed) += 1;
    }
    report("challenges filled with 00", right, 65);
}

/* Each length of one of them, and the others good. */
static void wrong_lengths(void)
{
    unsigned right = 0, cases = 0;

    for (int which = 0; which < BUFFERS; which++) {
        if (which == MESSAGE)
            continue;
        for (size_t length = 0; length <= LONGEST_WRONG; length++, cases++) {
            size_t lengths[BUFFERS] = { SIZE, 8, 21, LIMPET_CODE_SIZE };
            lengths[which] = length;
            struct call c = random_call(lengths[KEY], lengths[CHALLENGE], lengths[MESSAGE], lengths[CODE]);
            right += is_served(&c) ? passes_by_openssl(&c) : passes(&c, NULL);
        }
    }
    report("key, challenge and code of 0 to 40 bytes", right, cases);
}

static void several_wrong(void)
{
    static const size_t keys[] = { 16, 0, 15, 17, 32 }, challenges[] = { 8, 0, 1, 5, 12, 15, 17, 20 }, codes[] = { 4, 0, 3, 5, 8, 16 },
                        messages[] = { 21, 0, 16 };
    unsigned right = 0, cases = 0;

    for (int k = 0; k < 5; k++)
        for (int n = 0; n < 8; n++)
            for (int o = 0; o < 6; o++)
                for (int m = 0; m < 3; m++, cases++) {
                    struct call c = random_call(keys[k], challenges[n], messages[m], codes[o]);
                    right += is_served(&c) ? passes_by_openssl(&c) : passes(&c, NULL);
                }
    report("several wrong at once", right, cases);
}

/* Each choice of the four but none: empty, at a null pointer. With the message alone the call is served. */
static void null_pointers(void)
{
    unsigned right = 0;

    for (unsigned choice = 1; choice < 1u << BUFFERS; choice++) {
        size_t lengths[BUFFERS] = { SIZE, 4, 5, LIMPET_CODE_SIZE };
        for (int i = 0; i < BUFFERS; i++)
            if (choice >> i & 1)
                lengths[i] = 0;
        struct call c = random_call(lengths[KEY], lengths[CHALLENGE], lengths[MESSAGE], lengths[CODE]);
        for (int i = 0; i < BUFFERS; i++)
            c.is_null[i] = choice >> i & 1;
        right += is_served(&c) ? passes_by_openssl(&c) : passes(&c, NULL);
    }
    report("null pointers with length 0", right, (1u << BUFFERS) - 1);
}

/* Those that are only read may overlap: key, challenge and message in one buffer, at any distance from each other. */
static void overlapping_inputs(void)
{
    unsigned right = 0, cases = 0;

    for (size_t challenge = 0; challenge <= SIZE; challenge++)
        for (size_t message = 0; message <= 2 * SIZE; message++, cases++) {
            struct call c = random_call(SIZE, SIZE, SIZE + 5, LIMPET_CODE_SIZE);
            c.at[KEY] = pages[MESSAGE].at;
            c.at[CHALLENGE] = pages[MESSAGE].at + challenge;
            c.at[MESSAGE] = pages[MESSAGE].at + message;
            right += passes_by_openssl(&c);
        }
    report("key, challenge and message in one buffer", right, cases);
}

static void random_calls(void)
{
    enum { CALLS = 5000 };
    unsigned right = 0;

    for (unsigned i = 0; i < CALLS; i++) {
        uint8_t dice[2];
        fill_random(dice, sizeof dice);
        struct call c = random_call(SIZE, challenge_lengths[dice[0] % 3], dice[1], LIMPET_CODE_SIZE);
        right += passes_by_openssl(&c);
    }
    report("random keys, challenges and messages", right, CALLS);
}

int main(int count, char **arguments)
{
    is_short = count == 2 && strcmp(arguments[1], "--short") == 0;
    if (count > 1 && !is_short) {
        bool asked = count == 2 && strcmp(arguments[1], "--help") == 0;
        usage(asked ? stdout : stderr);
        return asked ? EXIT_SUCCESS : 2;
    }
    setvbuf(stdout, NULL, _IOLBF, BUFSIZ); /* so that a crash does not take the lines before it along */
    signal(SIGSEGV, fault_seen);
    for (int i = 0; i < BUFFERS; i++)
        make_pages(&pages[i], LONGEST);
    fips_197_c1();
    wrong_lengths();
    several_wrong();
    null_pointers();
    filled_challenges();
    telling_bytes();
    overlapping_inputs();
    each_length();
    if (!is_short) {
        random_calls();
        long_messages(); /* the last, since larger pages take longer to compare */
    }
    printf("%u passed, %u failed\n", passed, failed);
    return failed == 0 ? EXIT_SUCCESS : EXIT_FAILURE;
}
