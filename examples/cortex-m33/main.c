/*
 * A card on a Cortex-M33 without an operating system: reads a script and prints what ./limpet prints of it.
 * examples/cortex-m33/run builds it and runs it on an emulated board; docs/PROCESSORS.md explains it.
 */
#include <stdbool.h>
#include <stdio.h>
#include <string.h>

#include "limpetnook.h"
#include "lines.h"

/* A card need not be aligned, and lies as it does on every processor. In a module both outlast the power: see docs/POWER.md. */
static uint8_t card[LIMPET_CARD_SIZE], area[LIMPET_AREA_SIZE];
static bool has_card;

static uint8_t reply[LIMPET_REPLY_SIZE];
static limpet_size reply_count; /* 64 bits wide on this processor too */

/* A refused issue leaves a blank card, and a script goes on with the earlier one: so it is issued apart. */
static uint8_t issue(const struct line *l)
{
    static uint8_t issued[LIMPET_CARD_SIZE];
    uint8_t outcome = limpet_issue((struct limpet_card *)issued, area, sizeof area, l->key.at, l->key.len, l->device_limit,
                                   l->admin_pin.at, l->admin_pin.len, l->admin_limit, l->user_pin.at, l->user_pin.len, l->user_limit,
                                   l->mode, l->transport_key.at, l->transport_key.len, l->transport_limit);

    if (outcome == LIMPET_OK) {
        memcpy(card, issued, sizeof card);
        has_card = true;
    }
    return outcome;
}

static uint8_t call(const struct line *l)
{
    reply_count = 0;
    if (l->wrong != NULL || (l->kind != ISSUE_LINE && !has_card))
        return NO_LINE;
    if (l->kind == ISSUE_LINE)
        return issue(l);
    if (l->kind == RESET_LINE)
        return limpet_reset((struct limpet_card *)card, area, sizeof area);
    return limpet_command((struct limpet_card *)card, area, sizeof area, l->command.at, l->command.len, l->random.at, l->random.len,
                          reply, sizeof reply, &reply_count);
}

static void print_hex(const uint8_t *from, const uint8_t *to)
{
    if (from == to)
        putchar('-');
    for (; from < to; from++)
        printf("%02X", *from);
}

static void print_answer(unsigned long number, uint8_t outcome)
{
    const uint8_t *end = reply + reply_count, *status_word = reply_count >= 2 ? end - 2 : end;

    printf("%lu\t%u\t", number, outcome);
    print_hex(reply, status_word);
    putchar('\t');
    print_hex(status_word, end);
    putchar('\n');
}

int main(void)
{
    static char in[128], out[128]; /* newlib would have them in the heap, and larger */
    static struct text text;
    static struct line line;

    setvbuf(stdin, in, _IOFBF, sizeof in);
    setvbuf(stdout, out, _IOFBF, sizeof out);
    if (limpet_version() != LIMPET_VERSION || limpet_card_size() != LIMPET_CARD_SIZE) {
        fputs("header and library are of two versions\n", stderr);
        return 2;
    }
    puts("line\toutcome\tdata\tsw");
    for (unsigned long number = 1; number <= MOST_LINES && read_text(stdin, &text); number++) {
        read_line(&text, &line);
        print_answer(number, call(&line));
    }
    return fflush(stdout) == 0 ? 0 : 1;
}
