/*
 * The lines of a script, read as document 01's section "The script program"
 * says, and as docs/DECISIONS.md reads it where the paper leaves a choice.
 * Written from these two and not from crates/lines: the tests hold the script
 * program to a card that is driven by what is read here.
 */
#ifndef LINES_H
#define LINES_H

#include <stdbool.h>
#include <stddef.h>
#include <stdint.h>
#include <stdio.h>

enum {
    MOST_LINES = 65535,
    LONGEST_LINE = 1024, /* bytes before the newline */
    LONGEST_HEX = 300,   /* bytes, of two digits each */
    ISSUE_FIELDS = 9,    /* behind the word: key, limit, admin PIN, limit, user PIN, limit, mode, transport key, limit */
    NO_LINE = 9          /* the outcome of a line that is none */
};

/* A run of bytes that somebody else keeps. */
struct bytes {
    const uint8_t *at;
    size_t len;
};

/* A line as it came, without its newline. Of a longer line the first LONGEST_LINE + 1 bytes are kept. */
struct text {
    uint8_t at[LONGEST_LINE + 1];
    size_t len;
};

struct hex {
    uint8_t at[LONGEST_HEX];
    size_t len;
};

/* By the word at its start and the number of its fields. */
enum kind { OTHER_LINE, ISSUE_LINE, CMD_LINE, RESET_LINE };

struct line {
    enum kind kind;
    const char *wrong; /* why it is none all the same; NULL where it is one */
    struct hex key, transport_key, command, random;
    struct bytes admin_pin, user_pin;
    uint16_t device_limit, admin_limit, user_limit, mode, transport_limit;
};

/* The next line of the input; false where there is none. */
bool read_text(FILE *input, struct text *t);

/* Two kinds of field: upper-case hex of up to LONGEST_HEX bytes, and 0 or decimal without leading zeros, up to 65,535. */
bool read_hex(struct bytes f, struct hex *h);
bool read_number(struct bytes f, uint16_t *number);

/* What a line says. PINs point into the text. */
void read_line(const struct text *t, struct line *l);

/* The same of an ISSUE line, by its fields behind the word. PINs point where the fields do. */
void read_issue(const struct bytes fields[ISSUE_FIELDS], struct line *l);

#endif
