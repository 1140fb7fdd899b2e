/*
 * The script program of document 01 in plain C: a script from standard input, a
 * line for each of its lines out. It was written from the papers, and not from the
 * code in crates/, and drives whichever card it is linked with: bench/plain_card.c
 * as a rule. bench/beside measures crates/script/out/script beside it.
 *
 * Input is read and output written in blocks, so an answer waits for its block to
 * be full or for the end.
 */
#include <stdbool.h>
#include <stdint.h>
#include <stdio.h>
#include <stdlib.h>
#include <string.h>

#include "limpetnook.h"

enum {
    MOST_LINES = 65535,
    LONGEST_LINE = 1024, /* bytes before the newline */
    LONGEST_HEX = 300,   /* bytes, of two digits each */
    ISSUE_FIELDS = 10,   /* with the word */
    COMMAND_FIELDS = 3,
    BLOCK = 64 * 1024,
    LONGEST_ANSWER = 16 + 2 * LIMPET_REPLY_SIZE, /* number, outcome, tabs and newline, and the digits of the reply */
    NO_LINE = 9,
    NO_DIGIT = 0xFF
};

struct field {
    const uint8_t *at;
    size_t len;
};

struct hex {
    uint8_t at[LONGEST_HEX];
    size_t len;
};

static uint8_t card[LIMPET_CARD_SIZE], issued[LIMPET_CARD_SIZE], area[LIMPET_AREA_SIZE];
static bool has_card;

static uint8_t out[BLOCK];
static size_t out_len;

static void flush(void)
{
    if (fwrite(out, 1, out_len, stdout) != out_len || fflush(stdout) != 0) {
        fprintf(stderr, "plain_script: not all answers could be written\n");
        exit(EXIT_FAILURE);
    }
    out_len = 0;
}

static void put_number(unsigned number)
{
    uint8_t digits[5], *first = digits + sizeof digits;

    do {
        *--first = (uint8_t)('0' + number % 10);
        number /= 10;
    } while (number > 0);
    memcpy(out + out_len, first, (size_t)(digits + sizeof digits - first));
    out_len += (size_t)(digits + sizeof digits - first);
}

static void put_hex(const uint8_t *bytes, size_t count)
{
    static const uint8_t digits[16] = "0123456789ABCDEF"; /* without its end */

    for (size_t i = 0; i < count; i++) {
        out[out_len++] = digits[bytes[i] >> 4];
        out[out_len++] = digits[bytes[i] & 15];
    }
}

/* The answer to a line: its reply is data and status word, or nothing. */
static void put_answer(unsigned number, unsigned outcome, const uint8_t *reply, size_t count)
{
    if (out_len > sizeof out - LONGEST_ANSWER)
        flush();
    put_number(number);
    out[out_len++] = '\t';
    out[out_len++] = (uint8_t)('0' + outcome);
    out[out_len++] = '\t';
    if (count > 2)
        put_hex(reply, count - 2);
    else
        out[out_len++] = '-';
    out[out_len++] = '\t';
    if (count > 0)
        put_hex(reply + count - 2, 2);
    else
        out[out_len++] = '-';
    out[out_len++] = '\n';
}

/* The value of each upper-case hex digit, and NO_DIGIT. */
static uint8_t values[256];

static void make_values(void)
{
    memset(values, NO_DIGIT, sizeof values);
    for (uint8_t i = 0; i < 10; i++)
        values['0' + i] = i;
    for (uint8_t i = 10; i < 16; i++)
        values['A' + i - 10] = i;
}

static bool read_hex(struct field f, struct hex *h)
{
    unsigned all = 0;

    if (f.len % 2 != 0 || f.len > 2 * LONGEST_HEX)
        return false;
    h->len = f.len / 2;
    for (size_t i = 0; i < h->len; i++) {
        unsigned high = values[f.at[2 * i]], low = values[f.at[2 * i + 1]];
        h->at[i] = (uint8_t)(high << 4 | low);
        all |= high | low;
    }
    return all < 16;
}

/* "0 or decimal without leading zeros, up to 65,535" */
static bool read_number(struct field f, uint16_t *number)
{
    uint32_t value = 0;

    if (f.len < 1 || f.len > 5 || (f.at[0] == '0' && f.len > 1))
        return false;
    for (size_t i = 0; i < f.len; i++) {
        if (f.at[i] < '0' || f.at[i] > '9')
            return false;
        value = 10 * value + f.at[i] - '0';
    }
    *number = (uint16_t)value;
    return value <= UINT16_MAX;
}

/* Parts a line at its tabs. False where it has another number of fields. */
static bool part(const uint8_t *line, size_t len, struct field *fields, size_t count)
{
    for (size_t i = 0; i < count; i++) {
        const uint8_t *tab = memchr(line, '\t', len);
        if ((tab == NULL) != (i == count - 1))
            return false;
        fields[i] = (struct field){ line, tab != NULL ? (size_t)(tab - line) : len };
        if (tab != NULL) {
            len -= fields[i].len + 1;
            line = tab + 1;
        }
    }
    return true;
}

static bool begins_with(const uint8_t *line, size_t len, const char *word, size_t word_len)
{
    return len >= word_len && memcmp(line, word, word_len) == 0;
}

/* A refused issue keeps the earlier card: so it is issued apart. It leaves the area by itself. */
static unsigned issue(const uint8_t *line, size_t len)
{
    struct field f[ISSUE_FIELDS];
    struct hex key, transport_key;
    uint16_t device_limit, admin_limit, user_limit, mode, transport_limit;

    if (!part(line, len, f, ISSUE_FIELDS) || !read_hex(f[1], &key) || !read_number(f[2], &device_limit)
        || !read_number(f[4], &admin_limit) || !read_number(f[6], &user_limit) || !read_number(f[7], &mode)
        || !read_hex(f[8], &transport_key) || !read_number(f[9], &transport_limit))
        return NO_LINE;
    unsigned outcome = limpet_issue((struct limpet_card *)issued, area, sizeof area, key.at, key.len, device_limit,
                                    f[3].at, f[3].len, admin_limit, f[5].at, f[5].len, user_limit, mode,
                                    transport_key.at, transport_key.len, transport_limit);
    if (outcome == LIMPET_OK) {
        memcpy(card, issued, sizeof card);
        has_card = true;
    }
    return outcome;
}

static unsigned command(const uint8_t *line, size_t len, uint8_t *reply, size_t *count)
{
    struct field f[COMMAND_FIELDS];
    struct hex sent, random;

    if (!has_card || !part(line, len, f, COMMAND_FIELDS) || !read_hex(f[1], &sent) || !read_hex(f[2], &random))
        return NO_LINE;
    return limpet_command((struct limpet_card *)card, area, sizeof area, sent.at, sent.len, random.at, random.len,
                          reply, LIMPET_REPLY_SIZE, count);
}

/* A line without its newline. */
static void run_line(unsigned number, const uint8_t *line, size_t len)
{
    uint8_t reply[LIMPET_REPLY_SIZE];
    size_t count = 0;
    unsigned outcome = NO_LINE;

    if (len > LONGEST_LINE)
        outcome = NO_LINE;
    else if (begins_with(line, len, "CMD\t", 4))
        outcome = command(line, len, reply, &count);
    else if (begins_with(line, len, "ISSUE\t", 6))
        outcome = issue(line, len);
    else if (len == 5 && begins_with(line, len, "RESET", 5) && has_card)
        outcome = limpet_reset((struct limpet_card *)card, area, sizeof area);
    put_answer(number, outcome, reply, count);
}

/* Runs the whole lines of a block, and moves what is left to its front: of a line that is too long so much that it stays so. */
static size_t run_block(uint8_t *block, size_t len, unsigned *number)
{
    const uint8_t *line = block, *end = block + len, *newline;

    while (*number < MOST_LINES && (newline = memchr(line, '\n', (size_t)(end - line))) != NULL) {
        run_line(++*number, line, (size_t)(newline - line));
        line = newline + 1;
    }
    size_t left = (size_t)(end - line);
    if (left > LONGEST_LINE + 1)
        left = LONGEST_LINE + 1;
    memmove(block, line, left);
    return left;
}

int main(void)
{
    static uint8_t block[BLOCK];
    size_t kept = 0, got;
    unsigned number = 0;

    make_values();
    setvbuf(stdin, NULL, _IONBF, 0);
    memcpy(out, "line\toutcome\tdata\tsw\n", 21);
    out_len = 21;
    while (number < MOST_LINES && (got = fread(block + kept, 1, sizeof block - kept, stdin)) > 0)
        kept = run_block(block, kept + got, &number);
    if (number < MOST_LINES && kept > 0)
        run_line(number + 1, block, kept);
    flush();
    return EXIT_SUCCESS;
}
