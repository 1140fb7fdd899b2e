#include "lines.h"

#include <string.h>

enum { MOST_FIELDS = 1 + ISSUE_FIELDS };

struct fields {
    struct bytes at[MOST_FIELDS];
    size_t count; /* more than MOST_FIELDS where there are too many */
};

/* "A last line needs no newline": what stands before the end of the input is a line where it is not empty. */
bool read_text(FILE *input, struct text *t)
{
    int c;

    t->len = 0;
    while ((c = getc(input)) != EOF && c != '\n')
        if (t->len <= LONGEST_LINE)
            t->at[t->len++] = (uint8_t)c;
    return c == '\n' || t->len > 0;
}

static void part(const struct text *t, struct fields *f)
{
    size_t from = 0;

    f->count = 0;
    for (size_t i = 0; i <= t->len; i++)
        if (i == t->len || t->at[i] == '\t') {
            if (f->count < MOST_FIELDS)
                f->at[f->count] = (struct bytes){ t->at + from, i - from };
            f->count++;
            from = i + 1;
        }
}

static bool is_word(struct bytes f, const char *word)
{
    return f.len == strlen(word) && memcmp(f.at, word, f.len) == 0;
}

/* The value of an upper-case hex digit, -1 of any other byte. */
static int digit_value(uint8_t c)
{
    if ('0' <= c && c <= '9')
        return c - '0';
    if ('A' <= c && c <= 'F')
        return c - 'A' + 10;
    return -1;
}

bool read_hex(struct bytes f, struct hex *h)
{
    if (f.len % 2 != 0 || f.len > 2 * LONGEST_HEX)
        return false;
    h->len = f.len / 2;
    for (size_t i = 0; i < h->len; i++) {
        int high = digit_value(f.at[2 * i]);
        int low = digit_value(f.at[2 * i + 1]);
        if (high < 0 || low < 0)
            return false;
        h->at[i] = (uint8_t)(16 * high + low);
    }
    return true;
}

/* "0 or decimal without leading zeros, up to 65,535" */
bool read_number(struct bytes f, uint16_t *number)
{
    uint32_t value = 0;

    if (f.len < 1 || f.len > 5 || (f.at[0] == '0' && f.len > 1))
        return false;
    for (size_t i = 0; i < f.len; i++) {
        if (f.at[i] < '0' || f.at[i] > '9')
            return false;
        value = 10 * value + (uint32_t)(f.at[i] - '0');
    }
    *number = (uint16_t)value;
    return value <= 65535;
}

void read_issue(const struct bytes fields[ISSUE_FIELDS], struct line *l)
{
    l->kind = ISSUE_LINE;
    l->wrong = NULL;
    l->admin_pin = fields[2];
    l->user_pin = fields[4];
    if (!read_hex(fields[0], &l->key))
        l->wrong = "the device key is not upper-case hex";
    else if (!read_hex(fields[7], &l->transport_key))
        l->wrong = "the transport key is not upper-case hex";
    else if (!read_number(fields[1], &l->device_limit) || !read_number(fields[3], &l->admin_limit)
             || !read_number(fields[5], &l->user_limit) || !read_number(fields[8], &l->transport_limit))
        l->wrong = "a limit is not a number";
    else if (!read_number(fields[6], &l->mode))
        l->wrong = "the mode is not a number";
}

static void read_command(const struct bytes fields[2], struct line *l)
{
    l->kind = CMD_LINE;
    if (!read_hex(fields[0], &l->command) || !read_hex(fields[1], &l->random))
        l->wrong = "command and random are to be upper-case hex";
}

void read_line(const struct text *t, struct line *l)
{
    struct fields f;

    l->kind = OTHER_LINE;
    l->wrong = NULL;
    if (t->len > LONGEST_LINE) {
        l->wrong = "longer than 1,024 bytes";
        return;
    }
    part(t, &f);
    if (f.count == 1 + ISSUE_FIELDS && is_word(f.at[0], "ISSUE"))
        read_issue(f.at + 1, l);
    else if (f.count == 3 && is_word(f.at[0], "CMD"))
        read_command(f.at + 1, l);
    else if (f.count == 1 && is_word(f.at[0], "RESET"))
        l->kind = RESET_LINE;
    else
        l->wrong = "no ISSUE, CMD or RESET line with the right number of fields";
    if (l->wrong != NULL && t->len > 0 && t->at[t->len - 1] == '\r')
        l->wrong = "it ends in CR LF, and has to end in LF alone"; /* what an editor on Windows makes of any line */
}
