/*
 * Bad input: buffers of every length, several wrong at once, and cards that are
 * not sound, made by spoiling bytes of cards in use or of their areas. Each call
 * is watched, as watched.h says: its outcome is the one that the papers give it,
 * and a refusal leaves everything as it was.
 *
 * A line for each group of cases, and at the end the number of groups that
 * passed and that failed.
 */
#include <stdbool.h>
#include <stdio.h>
#include <stdlib.h>
#include <string.h>

#include "groups.h"

static const struct pattern blank;

static void usage(FILE *to)
{
    fputs("usage: refusals [--exact] [--short] [--first] [--one-in N]\n"
          "\n"
          "Tries calls on a card that must be refused, cards that are not sound, and areas\n"
          "that do not fit their card.\n"
          "The exit status is 1 where an outcome or a byte was not as it must be.\n"
          "\n"
          "  --exact     no guard bytes: each buffer is a heap block of its own and of its\n"
          "              exact size, for valgrind or the address sanitizer to watch\n"
          "  --short     fewer cases, for a run under valgrind\n"
          "  --first     ends soon after the first thing that is wrong\n"
          "  --one-in N  of the spoiled cards and areas one in N, for a run under an emulator\n", to);
}

/* --------------------------------------------------- lengths of a command */

/* A command call of which each length may be wrong. */
struct shape {
    size_t reply, area, command, random;
    bool null_reply, null_area, null_command, null_random;
};

static const struct shape good_shape = {
    .reply = LIMPET_REPLY_SIZE, .area = LIMPET_AREA_SIZE, .command = 4, .random = LIMPET_RANDOM_SIZE
};

static void call_in_shape(struct shape s, const struct pattern *p)
{
    static const uint8_t command[2048] = { 0x00, 0x20, 0x00, 0x01 };
    static const uint8_t random[256];
    struct held h = hold_part(p, s.area);

    call_number++;
    h.has_no_area = s.null_area;
    watched_command(&h, (struct given){ command, s.command, s.null_command },
                    (struct given){ random, s.random, s.null_random }, s.reply, s.null_reply);
    let_go(&h);
}

/* One length of a good call from 0 on; of the area's, far from the good one, a few will do under valgrind. */
static void command_lengths(const char *name, size_t offset, size_t most)
{
    struct group g = begin(name);

    for (size_t n = 0; n <= most; n += is_short && n < 4000 && most > 4000 ? 97 : 1) {
        struct shape s = good_shape;
        memcpy((char *)&s + offset, &n, sizeof n);
        call_in_shape(s, in_use());
    }
    end(g);
}

static void all_command_lengths(void)
{
    command_lengths("command: length of the reply, 0 to 520", offsetof(struct shape, reply), 520);
    command_lengths("command: length of the area, 0 to 4,200", offsetof(struct shape, area), 4200);
    command_lengths("command: length of the random input, 0 to 256", offsetof(struct shape, random), 256);
    command_lengths("command: length of the command, 0 to 2,048, all served", offsetof(struct shape, command), 2048);
}

/* Each choice of empty buffers at a null pointer. */
static void command_nulls(void)
{
    struct group g = begin("command: null pointers with length 0");

    for (unsigned choice = 1; choice < 16; choice++) {
        struct shape s = good_shape;
        size_t *lengths[] = { &s.reply, &s.area, &s.command, &s.random };
        bool *nulls[] = { &s.null_reply, &s.null_area, &s.null_command, &s.null_random };
        for (unsigned i = 0; i < 4; i++)
            if (choice >> i & 1) {
                *lengths[i] = 0;
                *nulls[i] = true;
            }
        call_in_shape(s, in_use());
    }
    end(g);
}

/* Several wrong at once, on a sound card and on a blank one: the first in document 01's order counts. */
static void command_precedence(void)
{
    static const size_t replies[] = { 258, 0, 257, 259 };
    static const size_t areas[] = { 4096, 0, 4095, 4097 };
    static const size_t randoms[] = { 16, 0, 15, 17 };
    static const size_t commands[] = { 4, 0, 5, 300 };
    struct group g = begin("command: several wrong at once");

    for (unsigned i = 0; i < 512; i++) {
        struct shape s = {
            .reply = replies[i % 4], .area = areas[i / 4 % 4],
            .random = randoms[i / 16 % 4], .command = commands[i / 64 % 4]
        };
        call_in_shape(s, i < 256 ? &blank : in_use());
    }
    end(g);
}

/* ------------------------------------------------------------------ reset */

static void reset_with(const struct pattern *p, size_t area_length, bool no_area)
{
    struct held h = hold_part(p, area_length);

    call_number++;
    h.has_no_area = no_area;
    watched_reset(&h);
    let_go(&h);
}

/* On a sound card, on a blank one, and on one whose area alone is spoiled: the area's length counts first. */
static void reset_areas(void)
{
    struct group g = begin("reset: length of the area, 0 to 4,200 and at a null pointer");
    struct pattern no_length = *in_use();
    const struct pattern *const cards[] = { in_use(), &blank, &no_length };

    memset(no_length.area, 0, sizeof no_length.area);
    for (int i = 0; i < 3; i++) {
        for (size_t n = 0; n <= 4200; n += is_short && n < 4000 ? 97 : 1)
            reset_with(cards[i], n, false);
        reset_with(cards[i], 0, true);
    }
    end(g);
}

/* ------------------------------------------------------------------ issue */

static void issue_over(const uint8_t *card, size_t area_length, const struct order *o)
{
    struct held h = hold(card, area_length);

    call_number++;
    watched_issue(&h, o);
    let_go(&h);
}

/* What is there before does not matter: over a card in use and over bytes that are none. */
static void issue_order(const struct order *o)
{
    static uint8_t none[LIMPET_CARD_SIZE];

    memset(none, 0xFF, sizeof none);
    issue_over(in_use()->card, LIMPET_AREA_SIZE, o);
    issue_over(none, LIMPET_AREA_SIZE, o);
}

static void issue_areas(void)
{
    struct group g = begin("issue: length of the area, 0 to 4,200");
    struct order o = good_order();

    for (size_t n = 0; n <= 4200; n += is_short && n < 4000 ? 97 : 1)
        issue_over(in_use()->card, n, &o);
    end(g);
}

static void issue_lengths(void)
{
    struct group g = begin("issue: length of each key and of each PIN, 0 to 64");
    uint8_t digits[64];

    memset(digits, '7', sizeof digits);
    for (size_t n = 0; n <= sizeof digits; n++)
        for (int which = 0; which < 4; which++) {
            struct order o = good_order();
            struct given *of[] = { &o.key, &o.admin_pin, &o.user_pin, &o.transport_key };
            *of[which] = given_bytes(digits, n);
            issue_order(&o);
        }
    end(g);
}

static void issue_nulls(void)
{
    struct group g = begin("issue: null pointers with length 0");

    for (unsigned choice = 1; choice < 32; choice++) {
        struct order o = good_order();
        struct given *of[] = { &o.key, &o.admin_pin, &o.user_pin, &o.transport_key };
        struct held h = hold(in_use()->card, choice & 16 ? 0 : LIMPET_AREA_SIZE);
        h.has_no_area = (choice & 16) != 0;
        for (int which = 0; which < 4; which++)
            if (choice >> which & 1)
                *of[which] = (struct given){ NULL, 0, true };
        call_number++;
        watched_issue(&h, &o);
        let_go(&h);
    }
    end(g);
}

static void issue_limits(void)
{
    struct group g = begin("issue: each limit, 0 to 65,535");

    for (unsigned limit = 0; limit <= 65535; limit += is_short && limit >= 300 && limit < 65000 ? 317 : 1)
        for (int which = 0; which < 4; which++) {
            struct order o = good_order();
            uint16_t *of[] = { &o.device_limit, &o.admin_limit, &o.user_limit, &o.transport_limit };
            *of[which] = (uint16_t)limit;
            issue_over(in_use()->card, LIMPET_AREA_SIZE, &o);
        }
    end(g);
}

static void issue_modes(void)
{
    struct group g = begin("issue: the mode, 0 to 65,535");

    for (unsigned mode = 0; mode <= 65535; mode += is_short && mode >= 300 && mode < 65000 ? 317 : 1) {
        struct order o = good_order();
        o.mode = (uint16_t)mode;
        issue_over(in_use()->card, LIMPET_AREA_SIZE, &o);
    }
    end(g);
}

/* Each byte of a PIN, at each place of the shortest and of the longest. */
static void issue_digits(void)
{
    struct group g = begin("issue: every byte at every place of a PIN");

    for (size_t length = 6; length <= 16; length += 10)
        for (size_t place = 0; place < length; place++)
            for (unsigned byte = 0; byte < 256; byte += is_short ? 5 : 1) {
                uint8_t pin[16];
                struct order o = good_order();
                memset(pin, '0', sizeof pin);
                pin[place] = (uint8_t)byte;
                *(byte % 2 ? &o.admin_pin : &o.user_pin) = given_bytes(pin, length);
                issue_over(in_use()->card, LIMPET_AREA_SIZE, &o);
                *(byte % 2 ? &o.user_pin : &o.admin_pin) = given_bytes(pin, length);
                issue_over(in_use()->card, LIMPET_AREA_SIZE, &o);
            }
    end(g);
}

/* A key has any bytes: of one value, and each value at each place of the transport key. */
static void issue_keys(void)
{
    struct group g = begin("issue: every byte in the keys");

    for (unsigned byte = 0; byte < 256; byte += is_short ? 5 : 1) {
        uint8_t key[LIMPET_KEY_SIZE];
        struct order o = good_order();
        memset(key, (int)byte, sizeof key);
        o.key = o.transport_key = given_bytes(key, sizeof key);
        issue_over(in_use()->card, LIMPET_AREA_SIZE, &o);
        for (size_t place = 0; place < sizeof key; place++) {
            memset(key, 0x5C, sizeof key);
            key[place] = (uint8_t)byte;
            o.transport_key = given_bytes(key, sizeof key);
            issue_over(in_use()->card, LIMPET_AREA_SIZE, &o);
        }
    }
    end(g);
}

static void issue_precedence(void)
{
    struct group g = begin("issue: several wrong at once");

    for (unsigned choice = 0; choice < 1024; choice++) {
        struct order o = good_order();
        if (choice & 1)
            o.key.length = 15;
        if (choice & 2)
            o.device_limit = 0;
        if (choice & 4)
            o.admin_pin = given_text("12345");
        if (choice & 8)
            o.admin_limit = 129;
        if (choice & 16)
            o.user_pin = given_text("12345678901234567");
        if (choice & 32)
            o.user_limit = 65535;
        if (choice & 64)
            o.mode = 2;
        if (choice & 128)
            o.transport_key = given_text("seventeen letters");
        if (choice & 256)
            o.transport_limit = 129;
        issue_over(in_use()->card, choice & 512 ? 4095 : LIMPET_AREA_SIZE, &o);
    }
    end(g);
}

/* ------------------------------------------------------------------- main */

/* The longest comes last: a run that ends at the first thing that is wrong seldom gets there. */
static void refuse_all(void)
{
    all_command_lengths();
    command_nulls();
    command_precedence();
    reset_areas();
    issue_areas();
    issue_lengths();
    issue_nulls();
    issue_limits();
    issue_modes();
    issue_digits();
    issue_keys();
    issue_precedence();
    try_spoiled_cards();
    try_wrong_areas();
    try_each_byte_spoiled();
}

static bool read_arguments(int count, char **arguments)
{
    for (int i = 1; i < count; i++)
        if (strcmp(arguments[i], "--exact") == 0)
            lent_exactly = true;
        else if (strcmp(arguments[i], "--short") == 0)
            is_short = true;
        else if (strcmp(arguments[i], "--first") == 0)
            ends_at_first = true;
        else if (strcmp(arguments[i], "--one-in") == 0 && i + 1 < count) {
            char *rest;
            one_in = strtoul(arguments[++i], &rest, 10);
            if (*rest != '\0' || one_in == 0 || one_in > 10000)
                return false;
        } else
            return false;
    return true;
}

int main(int count, char **arguments)
{
    if (count == 2 && strcmp(arguments[1], "--help") == 0) {
        usage(stdout);
        return EXIT_SUCCESS;
    }
    if (!read_arguments(count, arguments)) {
        usage(stderr);
        return 2;
    }
    setvbuf(stdout, NULL, _IOLBF, BUFSIZ); /* so that a crash does not take the lines before it along */
    check_version();
    make_patterns();
    refuse_all();
    printf("%lu calls, %lu of them with the card at an odd address\n", calls, odd_calls);
    printf("%u passed, %u failed\n", passed, failed);
    return failed == 0 ? EXIT_SUCCESS : EXIT_FAILURE;
}
