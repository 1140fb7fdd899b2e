/*
 * Keeps one card and drives it through a script, call after call in place.
 * Reads and prints what the script program (crates/script/out/script) does; beside
 * that every call is watched, as watched.h says.
 */
#include <stdbool.h>
#include <stdio.h>
#include <stdlib.h>
#include <string.h>

#include "layout.h"
#include "lines.h"
#include "watched.h"

struct driven {
    struct held held; /* the one card, and its area */
    bool has_card;    /* an issue was served */
};

static void usage(FILE *to)
{
    fputs("usage: inplace [--exact] <SCRIPT\n"
          "\n"
          "Runs a card on a script, in place, and prints what the script program prints.\n"
          "Every buffer has guard bytes around it, and all is checked after every call;\n"
          "what is wrong goes to standard error, and the exit status is then 1.\n"
          "\n"
          "  --exact   no guard bytes: each buffer is a heap block of its own and of its\n"
          "            exact size, for valgrind or the address sanitizer to watch\n", to);
}

static void print_hex(const uint8_t *bytes, size_t length)
{
    static const char digits[] = "0123456789ABCDEF";

    for (size_t i = 0; i < length; i++) {
        putchar(digits[bytes[i] >> 4]);
        putchar(digits[bytes[i] & 15]);
    }
}

static void print_bare(unsigned long number, unsigned outcome)
{
    printf("%lu\t%u\t-\t-\n", number, outcome);
}

static void print_answer(unsigned long number, const struct answer *a)
{
    if (a->outcome != LIMPET_OK || a->count < 2 || a->count > LIMPET_REPLY_SIZE) {
        print_bare(number, a->outcome);
        return;
    }
    printf("%lu\t0\t", number);
    if (a->count == 2)
        putchar('-');
    print_hex(a->reply, a->count - 2);
    putchar('\t');
    print_hex(a->reply + a->count - 2, 2);
    putchar('\n');
}

static struct given given_of(const struct hex *h)
{
    return (struct given){ h->at, h->len, false };
}

static struct given given_field(struct bytes f)
{
    return (struct given){ f.at, f.len, false };
}

/* "A refused ISSUE keeps the earlier card": so it is issued apart. The area stays on a refusal by itself. */
static uint8_t issue(struct driven *d, const struct line *l)
{
    struct order o = {
        .key = given_of(&l->key), .device_limit = l->device_limit,
        .admin_pin = given_field(l->admin_pin), .admin_limit = l->admin_limit,
        .user_pin = given_field(l->user_pin), .user_limit = l->user_limit,
        .mode = l->mode,
        .transport_key = given_of(&l->transport_key), .transport_limit = l->transport_limit
    };
    struct lent earlier = d->held.card;

    d->held.card = lend_card(earlier.bytes);
    uint8_t outcome = watched_issue(&d->held, &o);
    if (outcome == LIMPET_OK) {
        give_back(&earlier);
        d->has_card = true;
    } else {
        give_back(&d->held.card);
        d->held.card = earlier;
    }
    return outcome;
}

static void run_line(struct driven *d, const struct line *l, unsigned long number)
{
    if (l->wrong != NULL || (l->kind != ISSUE_LINE && !d->has_card)) {
        print_bare(number, NO_LINE);
    } else if (l->kind == ISSUE_LINE) {
        print_bare(number, issue(d, l));
    } else if (l->kind == RESET_LINE) {
        print_bare(number, watched_reset(&d->held));
    } else {
        /* The smallest reply, and some that are larger. */
        struct answer a = watched_command(&d->held, given_of(&l->command), given_of(&l->random),
                                          LIMPET_REPLY_SIZE + number % 4, false);
        print_answer(number, &a);
    }
}

static void run(FILE *input)
{
    struct driven d = { .held = hold(NULL, LIMPET_AREA_SIZE) };
    static struct text t;
    static struct line l;

    puts("line\toutcome\tdata\tsw");
    for (unsigned long number = 1; number <= MOST_LINES && read_text(input, &t); number++) {
        call_number = number;
        read_line(&t, &l);
        run_line(&d, &l, number);
    }
    let_go(&d.held);
}

int main(int count, char **arguments)
{
    if (count == 2 && strcmp(arguments[1], "--help") == 0) {
        usage(stdout);
        return EXIT_SUCCESS;
    }
    lent_exactly = count == 2 && strcmp(arguments[1], "--exact") == 0;
    if (count > 2 || (count == 2 && !lent_exactly)) {
        usage(stderr);
        return 2;
    }
    check_version();
    call_name = "line";
    run(stdin);
    if (fflush(stdout) != 0 || ferror(stdout)) {
        fprintf(stderr, "inplace: cannot write the output\n");
        return 2;
    }
    if (wrongs > 0)
        fprintf(stderr, "inplace: %lu wrong in %lu calls\n", wrongs, calls);
    return wrongs == 0 ? EXIT_SUCCESS : EXIT_FAILURE;
}
