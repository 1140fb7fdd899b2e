/*
 * Bad input for the two calls of R-10: buffers of every length, several wrong at
 * once, cards that are not sound, journals that no cut leaves, and random bytes.
 * Each call is watched, as stores.h says: recovery is served exactly where the C
 * soundness check of the tidied card says so, and a refusal leaves everything as
 * it was.
 *
 * A line for each group of cases, and at the end the number of groups that passed
 * and that failed.
 */
#include <stdbool.h>
#include <stdio.h>
#include <stdlib.h>
#include <string.h>

#include "fips.h"
#include "groups.h"
#include "stores.h"

static const struct pattern blank;

static void usage(FILE *to)
{
    fputs("usage: recovers [--exact] [--short] [--first] [--one-in N]\n"
          "\n"
          "Tries limpet_store and limpet_recover on bad input, and recovery on spoiled cards.\n"
          "The exit status is 1 where an outcome or a byte was not as it must be.\n"
          "\n"
          "  --exact     no guard bytes: each buffer is a heap block of its own and of its\n"
          "              exact size, for valgrind or the address sanitizer to watch\n"
          "  --short     fewer cases, for a run under valgrind\n"
          "  --first     ends soon after the first thing that is wrong\n"
          "  --one-in N  of the spoiled cards one in N, for a run under an emulator\n", to);
}

/* ---- lengths ---- */

/* A call of limpet_store of which each length may be wrong. The command is a presentation, so that there is a store to give. */
struct shape {
    size_t area, command, random;
    bool null_area, null_command, null_random;
};

static const struct shape good_shape = { .area = LIMPET_AREA_SIZE, .command = 11, .random = LIMPET_RANDOM_SIZE };

static void store_in_shape(struct shape s, const struct pattern *p)
{
    static const uint8_t command[2048] = { 0x00, 0x20, 0x00, 0x01, 0x06, 0x31, 0x31, 0x31, 0x31, 0x31, 0x31 };
    static const uint8_t random[256];
    struct held h = hold_part(p, s.area);

    call_number++;
    h.has_no_area = s.null_area;
    for (size_t n = 0; n < 3; n++)
        watched_store(&h, (struct given){ command, s.command, s.null_command }, (struct given){ random, s.random, s.null_random }, n);
    let_go(&h);
}

static void store_lengths(void)
{
    struct group g = begin("store: lengths of the area, of the random input and of the command, from 0 on");

    for (size_t n = 0; n <= 4200; n += n < 4000 ? 97 : 1) {
        struct shape s = good_shape;
        s.area = n;
        store_in_shape(s, in_use());
    }
    for (size_t n = 0; n <= 256; n++) {
        struct shape s = good_shape;
        s.random = n;
        store_in_shape(s, in_use());
    }
    for (size_t n = 0; n <= 2048; n += n < 300 ? 1 : 23) {
        struct shape s = good_shape;
        s.command = n;
        store_in_shape(s, in_use());
    }
    end(g);
}

static void store_nulls(void)
{
    struct group g = begin("store: null pointers with length 0");

    for (unsigned choice = 1; choice < 8; choice++) {
        struct shape s = good_shape;
        size_t *lengths[] = { &s.area, &s.command, &s.random };
        bool *nulls[] = { &s.null_area, &s.null_command, &s.null_random };
        for (unsigned i = 0; i < 3; i++)
            if (choice >> i & 1) {
                *lengths[i] = 0;
                *nulls[i] = true;
            }
        store_in_shape(s, in_use());
    }
    end(g);
}

/* The first in document 01's order counts: 2, 3, 4. The third card has a journal alone that is not 00. */
static void store_precedence(void)
{
    static const size_t areas[] = { 4096, 0, 4095, 4097 }, randoms[] = { 16, 0, 15, 17 };
    struct group g = begin("store: several wrong at once");
    struct pattern with_journal = *in_use();
    const struct pattern *const cards[] = { in_use(), &blank, &with_journal };

    with_journal.card[LIMPET_CARD_SIZE - 1] = 1;
    for (unsigned i = 0; i < 48; i++) {
        struct shape s = good_shape;
        s.area = areas[i % 4];
        s.random = randoms[i / 4 % 4];
        store_in_shape(s, cards[i / 16]);
    }
    end(g);
}

static uint8_t recover_with(const struct pattern *p, size_t area_length, bool no_area)
{
    struct held h = hold_part(p, area_length);

    call_number++;
    h.has_no_area = no_area;
    uint8_t outcome = watched_recover(&h);
    if (outcome == LIMPET_OK && watched_reset(&h) != LIMPET_OK)
        wrong("a recovered card is refused by a reset");
    let_go(&h);
    if (ends_at_first && wrongs > 0)
        exit(EXIT_FAILURE);
    return outcome;
}

static void recover_areas(void)
{
    struct group g = begin("recover: length of the area, 0 to 4,200 and at a null pointer");
    struct pattern impossible = *in_use(), no_length = *in_use();
    const struct pattern *const cards[] = { in_use(), &blank, &impossible, &no_length };

    impossible.card[offsetof(struct layout, journal.what)] = 9;
    memset(no_length.area, 0, sizeof no_length.area);
    for (int i = 0; i < 4; i++) {
        for (size_t n = 0; n <= 4200; n += n < 4000 ? 97 : 1)
            recover_with(cards[i], n, false);
        recover_with(cards[i], 0, true);
    }
    end(g);
}

/* ---- journals ---- */

/* On the card with files: 28, 2A, and 2E with three places, all held; on that with notes the second file is 2C, its records 6 and 7 long. */
static const struct {
    int sort;
    uint8_t what;
    uint8_t bytes[JOURNAL_ROOM];
    uint8_t outcome;
} known_journals[] = {
    { WITH_FILES, 0, { 0 }, 0 },
    { WITH_FILES, 0, { 1, 2, 3, 4, 5, 6, 7, 8, 9, 10, 11, 12, 13, 14, 15, 16, 17 }, 0 }, /* not committed */
    { WITH_FILES, 1, { 0xA0, 0, 0xFF, 0, 0, 0, 0, 0, 0, 0, 0, 0, 0, 0, 0, 1, 16 }, 4 }, /* no command alters a key */
    { WITH_FILES, 1, { 0 }, 4 },
    { WITH_FILES, 2, { '1', '2', '3', '4', '5', '6', [16] = 6 }, 0 },
    { WITH_FILES, 2, { '1', '2', '3', '4', '5', '6', [16] = 7 }, 4 },
    { WITH_FILES, 2, { '1', '2', '3', '4', '5', '6', [16] = 5 }, 4 },
    { WITH_FILES, 2, { '1', '2', '3', '4', '5', '6', '7', [16] = 6 }, 4 }, /* a byte past its length */
    { WITH_FILES, 2, { '1', '2', '3', '4', '5', 'A', [16] = 6 }, 4 },
    { WITH_FILES, 2, { '1', '2', '3', '4', '5', [16] = 5 }, 4 },
    { WITH_FILES, 2, { '1', '2', '3', '4', '5', '6', '7', '8', '9', '0', '1', '2', '3', '4', '5', '6', 16 }, 0 },
    { WITH_FILES, 2, { '1', '2', '3', '4', '5', '6', '7', '8', '9', '0', '1', '2', '3', '4', '5', '6', 17 }, 4 },
    { WITH_FILES, 2, { 0 }, 4 },
    { WITH_FILES, 3, { '6', '5', '4', '3', '2', '1', [16] = 6 }, 0 },
    { WITH_FILES, 3, { '6', '5', '4', '3', '2', '/', [16] = 6 }, 4 },
    { WITH_FILES, 4, { [15] = 1, [16] = 16 }, 4 },
    { WITH_FILES, 4, { '6', '5', '4', '3', '2', '1', [16] = 6 }, 4 },
    { WITH_FILES, 5, { 0 }, 4 }, /* names nothing */
    { WITH_FILES, 5, { '6', '5', '4', '3', '2', '1', [16] = 6 }, 4 },
    { WITH_FILES, 15, { 0 }, 4 },
    { WITH_FILES, 16, { 0 }, 4 }, /* an append leaves a record */
    { WITH_FILES, 16, { 1 }, 4 },
    { WITH_FILES, 16, { 0, 0, 0, 1 }, 4 },
    { WITH_FILES, 17, { 0 }, 4 },
    { WITH_FILES, 17, { 4, 3 }, 4 },
    { WITH_FILES, 18, { 3, 2 }, 0 },
    { WITH_FILES, 18, { 1, 2 }, 0 },
    { WITH_FILES, 18, { 3, 3 }, 4 },
    { WITH_FILES, 18, { 4, 0 }, 4 },
    { WITH_FILES, 18, { 0, 0 }, 4 },
    { WITH_FILES, 18, { 0, 1 }, 4 },
    { WITH_FILES, 18, { 3, 2, 0, 1 }, 4 },
    { WITH_FILES, 18, { 3, 2, 1, 0 }, 4 },
    { WITH_FILES, 19, { 0 }, 4 }, /* past the last file */
    { WITH_FILES, 31, { 0 }, 4 },
    { WITH_FILES, 32, { 0 }, 4 },
    { WITH_FILES, 255, { 0 }, 4 },
    { FRESH, 16, { 0 }, 4 },
    { SIXTEEN, 31, { 64, 0 }, 0 },
    { SIXTEEN, 31, { 65, 0 }, 4 },
    { SIXTEEN, 32, { 0 }, 4 },
    { WITH_NOTES, 17, { 0, 0, 0, 15 }, 0 },
    { WITH_NOTES, 17, { 0, 0, 0, 7 }, 0 },
    { WITH_NOTES, 17, { 0 }, 4 },
    { WITH_NOTES, 17, { 0, 0, 0, 14 }, 4 }, /* no lengths part them */
    { WITH_NOTES, 17, { 0, 0, 0, 16 }, 4 },
    { WITH_NOTES, 17, { 0, 0, 0, 17 }, 4 },
    { WITH_NOTES, 17, { 0, 0, 1, 15 }, 4 },
    { WITH_NOTES, 17, { 1, 0, 0, 15 }, 4 },
    { WITH_NOTES, 17, { 0, 1, 0, 15 }, 4 },
};

/* The C check is held to what was worked out by hand as well. */
static void journals_by_hand(void)
{
    struct group g = begin("recover: journals of which it was worked out by hand what comes of them");

    for (size_t i = 0; i < sizeof known_journals / sizeof known_journals[0]; i++) {
        struct pattern p = patterns[known_journals[i].sort];
        struct journal j = { .what = known_journals[i].what };
        struct layout tidied;
        memcpy(j.bytes, known_journals[i].bytes, JOURNAL_ROOM);
        memcpy(p.card + offsetof(struct layout, journal), &j, sizeof j);
        call_number = i;
        if (recovered(p.card, p.area, &tidied) != (known_journals[i].outcome == LIMPET_OK))
            wrong("tests/c/layout.c says of a journal for %u that it is %s", j.what, known_journals[i].outcome == LIMPET_OK ? "bad" : "good");
        if (recover_with(&p, LIMPET_AREA_SIZE, false) != known_journals[i].outcome)
            wrong("a journal for %u is %s", j.what, known_journals[i].outcome == LIMPET_OK ? "refused" : "taken");
    }
    end(g);
}

static void set_journal(struct pattern *p, unsigned what)
{
    struct journal j = { .what = (uint8_t)what };
    struct layout c;

    memcpy(&c, p->card, sizeof c);
    switch (random_below(4)) {
    case 0: { /* digits, as a PIN has them */
        unsigned length = 5 + random_below(13);
        for (unsigned i = 0; i < length && i < VALUE_ROOM; i++)
            j.bytes[i] = (uint8_t)('0' + random_below(random_below(40) ? 10 : 11));
        j.bytes[VALUE_ROOM] = (uint8_t)length;
        break;
    }
    case 1: { /* small numbers, as an entry has them */
        const struct file *f = &c.directory.files[what % FILES];
        j.bytes[0] = (uint8_t)(random_below(2) ? f->held : random_below(f->size1 + 2u));
        j.bytes[1] = (uint8_t)(random_below(2) ? f->newest : random_below(f->size1 + 1u));
        j.bytes[2] = (uint8_t)(random_below(2) ? f->used1 : random_below(2));
        j.bytes[3] = (uint8_t)(random_below(2) ? f->used2 : random_below(20));
        break;
    }
    case 2:
        for (size_t i = 0; i < JOURNAL_ROOM; i++)
            j.bytes[i] = (uint8_t)random_below(256);
        j.bytes[VALUE_ROOM] = (uint8_t)(random_below(2) ? 16 : j.bytes[VALUE_ROOM]);
        break;
    default:
        break;
    }
    memcpy(p->card + offsetof(struct layout, journal), &j, sizeof j);
}

/* Whatever is past the last file and the last folder, and whatever does not last, is cleared. */
static void scatter(struct pattern *p)
{
    struct layout c;

    memcpy(&c, p->card, sizeof c);
    for (size_t i = c.directory.count; i < FILES; i++)
        for (size_t n = 0; n < sizeof(struct file); n++)
            ((uint8_t *)&c.directory.files[i])[n] = (uint8_t)random_below(256);
    for (size_t i = c.directory.number; i < FOLDERS; i++)
        for (size_t n = 0; n < sizeof(struct folder); n++)
            ((uint8_t *)&c.directory.folders[i])[n] = (uint8_t)random_below(256);
    memcpy(p->card, &c, sizeof c);
    for (size_t place = 0; place < LIMPET_CARD_SIZE; place++)
        if (!is_lasting(place))
            p->card[place] = (uint8_t)random_below(256);
}

static void scattered(void)
{
    struct group g = begin("recover: places past the last file and directory, and what does not last, of any bytes");

    for (unsigned i = 0; i < (is_short ? 200u : 20000u / one_in); i++) {
        struct pattern p = patterns[random_below(SORTS)];
        scatter(&p);
        call_number = i;
        if (recover_with(&p, LIMPET_AREA_SIZE, false) != LIMPET_OK)
            wrong("what a cut can leave is refused");
    }
    end(g);
}

static void journals_at_random(void)
{
    struct group g = begin("recover: journals at random, for everything and nothing");
    unsigned long served = 0, tried = 0;

    for (unsigned turn = 0; turn < (is_short ? 1u : 20u / one_in + 1); turn++)
        for (size_t sort = 0; sort < SORTS; sort++)
            for (unsigned what = 0; what < 256; what += what < 40 ? 1 : 27)
                for (unsigned again = 0; again < 8; again++) {
                    struct pattern p = patterns[sort];
                    set_journal(&p, what);
                    if (random_below(2))
                        scatter(&p);
                    call_number = what;
                    served += recover_with(&p, LIMPET_AREA_SIZE, false) == LIMPET_OK;
                    tried++;
                }
    end(g);
    printf("  %lu cards, %lu served\n", tried, served);
}

/* ---- spoiled cards ---- */

/* Every other value of every byte that lasts, and a bit of each other; every second time with something else that a cut leaves. */
static void each_byte(void)
{
    struct group g = begin("recover: cards with one byte spoiled (1000 x place + value)");
    unsigned long turn = 0, served = 0, tried = 0;

    for (size_t sort = 0; sort < SORTS; sort++)
        for (size_t place = 0; place < LIMPET_CARD_SIZE; place++)
            for (unsigned difference = 1; difference < 256; difference++) {
                if (((is_short || !is_lasting(place)) && !is_one_bit(difference)) || turn++ % one_in != 0)
                    continue;
                struct pattern p = patterns[sort];
                if (turn % 2)
                    scatter(&p);
                p.card[place] ^= (uint8_t)difference;
                call_number = 1000 * place + p.card[place];
                served += recover_with(&p, LIMPET_AREA_SIZE, false) == LIMPET_OK;
                tried++;
            }
    end(g);
    printf("  %lu cards, %lu served\n", tried, served);
}

static void several_bytes(void)
{
    struct group g = begin("recover: cards with several bytes spoiled, a journal among them");
    unsigned long served = 0, tried = 0;

    for (unsigned i = 0; i < (is_short ? 500u : 50000u / one_in); i++) {
        struct pattern p = patterns[random_below(SORTS)];
        const struct pattern *other = &patterns[random_below(SORTS)];
        for (uint32_t n = 1 + random_below(4); n > 0; n--) {
            size_t place = random_below(random_below(4) ? offsetof(struct layout, session) : LIMPET_CARD_SIZE);
            p.card[place] = random_below(2) ? other->card[place] : (uint8_t)(p.card[place] + 1 + 254 * random_below(2));
        }
        if (random_below(2))
            set_journal(&p, random_below(20));
        call_number = i;
        served += recover_with(&p, LIMPET_AREA_SIZE, false) == LIMPET_OK;
        tried++;
    }
    end(g);
    printf("  %lu cards, %lu served\n", tried, served);
}

/* Bytes that never were a card; and a store is asked for on them. */
static void any_bytes(void)
{
    struct group g = begin("recover and store: cards of random bytes, and their areas");

    for (unsigned i = 0; i < (is_short ? 200u : 10000u / one_in); i++) {
        struct pattern p;
        for (size_t place = 0; place < LIMPET_CARD_SIZE; place++)
            p.card[place] = (uint8_t)random_below(256);
        for (size_t place = 0; place < LIMPET_AREA_SIZE; place++)
            p.area[place] = (uint8_t)random_below(256);
        call_number = i;
        recover_with(&p, LIMPET_AREA_SIZE, false);
        store_in_shape(good_shape, &p);
    }
    end(g);
}

/* The lengths of 2C records stand in the area: a card fits it or not. */
static void areas(void)
{
    struct group g = begin("recover: areas with one byte spoiled");

    for (size_t place = 0; place < LIMPET_AREA_SIZE; place += is_short ? 61 : 1) {
        struct pattern p = patterns[place % 2 ? WITH_NOTES : FULL_OF_NOTES];
        p.area[place] ^= (uint8_t)(1 + random_below(255));
        call_number = place;
        recover_with(&p, LIMPET_AREA_SIZE, false);
    }
    end(g);
}

/* Cards that recovery alone takes are refused by limpet_store too. */
static void stores_of_spoiled(void)
{
    struct group g = begin("store: cards with one byte spoiled");

    for (size_t place = 0; place < LIMPET_CARD_SIZE; place++)
        for (unsigned bit = 0; bit < 8; bit += is_short ? 8 : 1) {
            struct pattern p = *in_use();
            p.card[place] ^= (uint8_t)(1u << bit);
            call_number = place;
            store_in_shape(good_shape, &p);
        }
    end(g);
}

static bool read_arguments(int count, char **arguments)
{
    for (int i = 1; i < count; i++)
        if (strcmp(arguments[i], "--exact") == 0)
            lent_exactly = true;
        else if (strcmp(arguments[i], "--short") == 0)
            is_short = true;
        else if (strcmp(arguments[i], "--first") == 0)
            ends_at_first = true;
        else if (strcmp(arguments[i], "--one-in") == 0 && i + 1 < count) {
            char *rest;
            one_in = strtoul(arguments[++i], &rest, 10);
            if (*rest != '\0' || one_in == 0 || one_in > 10000)
                return false;
        } else
            return false;
    return true;
}

int main(int count, char **arguments)
{
    if (count == 2 && strcmp(arguments[1], "--help") == 0) {
        usage(stdout);
        return EXIT_SUCCESS;
    }
    if (!read_arguments(count, arguments)) {
        usage(stderr);
        return 2;
    }
    setvbuf(stdout, NULL, _IOLBF, BUFSIZ); /* so that a crash does not take the lines before it along */
    check_version();
    make_patterns();
    store_lengths();
    store_nulls();
    store_precedence();
    stores_of_spoiled();
    recover_areas();
    journals_by_hand();
    scattered();
    journals_at_random();
    any_bytes();
    areas();
    several_bytes();
    each_byte();
    printf("%lu calls, %lu of them with the card at an odd address\n", calls, odd_calls);
    printf("%u passed, %u failed\n", passed, failed);
    return failed == 0 ? EXIT_SUCCESS : EXIT_FAILURE;
}
