/*
 * How long it takes to write a card as lines and to read the lines again, by
 * the library's calls and by those of bench/plain_text.c, turn by turn on the
 * same cards. And how long it takes to convert the lines, beside a read and a
 * write of the card, turn by turn too.
 */
#include <stdbool.h>
#include <stdio.h>
#include <stdlib.h>
#include <string.h>

#include "cards.h"
#include "limpetnook.h"
#include "measure.h"
#include "plain_text.h"

enum { CALLS = 50, LONGEST_DATA = 255 };

static const char usage[] =
    "usage: texts ROUNDS\n"
    "       texts --once FUNCTION\n"
    "\n"
    "Writes cards as lines and reads the lines, 50 times in each of ROUNDS rounds (1 to\n"
    "999), with the library and with plain C. First sees that the two agree. Prints a line\n"
    "for each card and for each of write and read: that word, the card, the bytes of its\n"
    "text, and the seconds of a call in the fastest round, library and plain. And a line\n"
    "for each card and for each of to-new and to-old: that word, the card, the bytes of its\n"
    "text in the new form, and the seconds of converting it, and of reading and writing it.\n"
    "--once: calls FUNCTION alone, once on each card, and prints a line for each call, for\n"
    "callgrind to count. It is limpet_to_text, limpet_from_text, plain_to_text or\n"
    "plain_from_text.\n";

typedef uint8_t to_text(const struct limpet_card *, const uint8_t *, size_t, uint8_t *, size_t, size_t *);
typedef uint8_t from_text(struct limpet_card *, uint8_t *, size_t, const uint8_t *, size_t);

/* Who writes and who reads. */
enum { LIBRARY, PLAIN, WAYS };
static const struct {
    const char *writer_name, *reader_name;
    to_text *write;
    from_text *read;
} ways[WAYS] = {
    { "limpet_to_text", "limpet_from_text", limpet_to_text, limpet_from_text },
    { "plain_to_text", "plain_from_text", plain_to_text, plain_from_text },
};

/* A card, its area and its text. Card and area are what a reader has to give. */
struct kept {
    const char *name;
    uint8_t card[LIMPET_CARD_SIZE], area[LIMPET_AREA_SIZE], text[LIMPET_TEXT_SIZE];
    size_t length;
    uint8_t old[LIMPET_TEXT_SIZE]; /* the text in the old form */
    size_t old_length;
};

static void stop(const char *card, const char *why)
{
    fprintf(stderr, "texts: %s: %s\n", card, why);
    exit(EXIT_FAILURE);
}

/* ------------------------------------------------------------- the cards */

/* Marsaglia's xorshift. */
static uint8_t random_byte(uint32_t *state)
{
    *state ^= *state << 13;
    *state ^= *state >> 17;
    *state ^= *state << 5;
    return (uint8_t)(*state >> 24);
}

/* A command: its first bytes in hex, and behind them so many at random. */
static void send(struct held *h, uint32_t *state, const char *head, unsigned more)
{
    char command[64 + 2 * LONGEST_DATA];
    int length = snprintf(command, sizeof command, "%s ", head);

    for (unsigned i = 0; i < more; i++)
        length += snprintf(command + length, sizeof command - (size_t)length, "%02X", random_byte(state));
    if (tell(h, command) != 0x9000)
        stop(head, "a command of a card in the making is refused");
}

/* A file of 256 bytes, of each type in turn, all of it written. A record of type 2C takes a byte more than its 15. */
static void add_file(struct held *h, uint32_t *state, unsigned sfi)
{
    static const char *const types[] = { "28 0100", "2A 2008", "2E 2008", "2C 0100" };
    char command[64];

    snprintf(command, sizeof command, "80 E0 %04X 05 %s 80 01", 0x4100 + sfi, types[sfi % 4]);
    send(h, state, command, 0);
    switch (sfi % 4) {
    case 0:
        send(h, state, "00 D6 0000 FF", 255);
        send(h, state, "00 D6 00FF 01", 1);
        break;
    case 1:
        for (unsigned number = 1; number <= 32; number++) {
            snprintf(command, sizeof command, "00 DC %02X04 08", number);
            send(h, state, command, 8);
        }
        break;
    case 2:
        for (unsigned i = 0; i < 32 + 20; i++)
            send(h, state, "00 E2 0000 08", 8);
        break;
    default:
        for (unsigned i = 0; i < 16; i++)
            send(h, state, "00 E2 0000 0F", 15);
    }
}

static void make_with_files(struct held *h, unsigned files)
{
    uint32_t state = 2463534242u;

    sorts[FRESH].make(h);
    send(h, &state, "00 84 0000 10", 0);
    send(h, &state, "00 82 0000 10 69C4E0D86A7B0430D8CDB78070B4C55A", 0);
    for (unsigned sfi = 1; sfi <= files; sfi++)
        add_file(h, &state, sfi);
    send(h, &state, "00 84 0000 10", 0);
}

/* Behind the full card one with the most records that any card has, and one with the most bytes that can wait. */
enum { FULL_CARD = 3, MOST_RECORDS, MOST_WAITING, CARDS };
static const char *const names[CARDS] = {
    "no files",
    "4 files of 256 bytes",
    "8 files of 256 bytes",
    "16 files of 256 bytes, the whole area",
    "one file of type 2C with 2,048 records, the whole area",
    "one file of 320 bytes, and 256 bytes waiting",
};

static void keep(struct kept *k, size_t which)
{
    static const unsigned files[] = { 0, 4, 8, 16 };
    struct held h = hold(NULL, LIMPET_AREA_SIZE);

    if (which <= FULL_CARD)
        make_with_files(&h, files[which]);
    else
        sorts[which == MOST_RECORDS ? FULL_OF_NOTES : ALL_WAITING].make(&h);
    k->name = names[which];
    if (wrongs > 0)
        stop(k->name, "the card cannot be made");
    memcpy(k->card, h.card.bytes, sizeof k->card);
    memcpy(k->area, h.area.bytes, sizeof k->area);
    let_go(&h);
}

static void keep_text(struct kept *k)
{
    if (plain_to_text((const struct limpet_card *)k->card, k->area, sizeof k->area, k->text, sizeof k->text, &k->length) != LIMPET_OK)
        stop(k->name, "the text cannot be made");
}

/* ------------------------------------------- whether library and plain C agree */

static void check_writer(const struct kept *k, to_text *write)
{
    uint8_t text[LIMPET_TEXT_SIZE];
    size_t count;

    if (write((const struct limpet_card *)k->card, k->area, sizeof k->area, text, sizeof text, &count) != LIMPET_OK)
        stop(k->name, "a writer refuses the card");
    if (count != k->length || memcmp(text, k->text, count) != 0)
        stop(k->name, "the two write different texts");
    if (write((const struct limpet_card *)k->card, k->area, sizeof k->area, text, k->length - 1, &count) != LIMPET_SHORT_TEXT)
        stop(k->name, "a writer is not kept from a buffer that is too short");
}

static void check_reader(const struct kept *k, from_text *read)
{
    uint8_t card[LIMPET_CARD_SIZE], area[LIMPET_AREA_SIZE];

    memset(area, 0xA5, sizeof area);
    if (read((struct limpet_card *)card, area, sizeof area, k->text, k->length) != LIMPET_OK)
        stop(k->name, "a reader refuses the text");
    if (memcmp(card, k->card, sizeof card) != 0 || memcmp(area, k->area, sizeof area) != 0)
        stop(k->name, "a reader gives another card");
}

static void check_refused(const struct kept *k, from_text *read, const uint8_t *text, size_t length)
{
    static const uint8_t blank[LIMPET_CARD_SIZE];
    uint8_t card[LIMPET_CARD_SIZE], area[LIMPET_AREA_SIZE], before[LIMPET_AREA_SIZE];

    memset(card, 0xA5, sizeof card);
    memset(area, 0xA5, sizeof area);
    memcpy(before, area, sizeof before);
    if (read((struct limpet_card *)card, area, sizeof area, text, length) != LIMPET_BAD_TEXT)
        stop(k->name, "a reader takes a broken text");
    if (memcmp(card, blank, sizeof card) != 0 || memcmp(area, before, sizeof area) != 0)
        stop(k->name, "a refused text leaves something behind");
}

/* Without its last byte, and with another byte in the place of its first, of one in the middle and of its last. */
static void check_broken(const struct kept *k, from_text *read)
{
    const size_t places[] = { 0, k->length / 2, k->length - 1 };
    uint8_t text[LIMPET_TEXT_SIZE];

    check_refused(k, read, k->text, k->length - 1);
    for (size_t i = 0; i < sizeof places / sizeof *places; i++) {
        memcpy(text, k->text, k->length);
        text[places[i]] = ' ';
        check_refused(k, read, text, k->length);
    }
}

/* --------------------------------------------------------------- the calls */

static void write_once(const struct kept *k, int way)
{
    static uint8_t text[LIMPET_TEXT_SIZE];
    size_t count;

    if (ways[way].write((const struct limpet_card *)k->card, k->area, sizeof k->area, text, sizeof text, &count) != LIMPET_OK)
        stop(k->name, "a writer refuses the card");
}

static void read_once(const struct kept *k, int way)
{
    static uint8_t card[LIMPET_CARD_SIZE], area[LIMPET_AREA_SIZE];

    if (ways[way].read((struct limpet_card *)card, area, sizeof area, k->text, k->length) != LIMPET_OK)
        stop(k->name, "a reader refuses the text");
}

/* For the conversions the other way is what the library takes to read and write the card. */
enum { CONVERTED = LIBRARY, READ_AND_WRITTEN };

static void read_and_write(const struct kept *k)
{
    read_once(k, LIBRARY);
    write_once(k, LIBRARY);
}

static void to_new_once(const struct kept *k, int way)
{
    static uint8_t text[LIMPET_TEXT_SIZE];
    size_t count;

    if (way == READ_AND_WRITTEN)
        read_and_write(k);
    else if (limpet_text_to_new(k->old, k->old_length, text, sizeof text, &count) != LIMPET_OK)
        stop(k->name, "the old text is refused");
}

static void to_old_once(const struct kept *k, int way)
{
    static uint8_t text[LIMPET_TEXT_SIZE];
    size_t count;

    if (way == READ_AND_WRITTEN)
        read_and_write(k);
    else if (limpet_text_to_old(k->text, k->length, text, sizeof text, &count) != LIMPET_OK)
        stop(k->name, "the new text is refused");
}

typedef void call(const struct kept *, int way);

static void measure(const char *what, const struct kept *k, call *once, int rounds)
{
    double best[WAYS] = { 0 };

    for (int round = 0; round < rounds; round++)
        for (int way = 0; way < WAYS; way++) {
            double start = processor_time();
            for (int i = 0; i < CALLS; i++)
                once(k, way);
            double took = (processor_time() - start) / CALLS;
            if (round == 0 || took < best[way])
                best[way] = took;
        }
    printf("%s\t%s\t%zu\t%.3e\t%.3e\n", what, k->name, k->length, best[LIBRARY], best[PLAIN]);
}

/* Whether there is a function of that name to call. Nothing else calls it. */
static bool call_once(struct kept *cards, const char *function)
{
    for (int way = 0; way < WAYS; way++) {
        bool writes = strcmp(function, ways[way].writer_name) == 0;
        if (!writes && strcmp(function, ways[way].reader_name) != 0)
            continue;
        for (size_t i = 0; i < CARDS; i++) {
            if (!writes)
                keep_text(&cards[i]);
            (writes ? write_once : read_once)(&cards[i], way);
            printf("%s\t%s\n", writes ? "write" : "read", cards[i].name);
        }
        return true;
    }
    return false;
}

/* The text in the old form, which has to come back as it was. */
static void keep_old(struct kept *k)
{
    uint8_t text[LIMPET_TEXT_SIZE];
    size_t count;

    if (limpet_text_to_old(k->text, k->length, k->old, sizeof k->old, &k->old_length) != LIMPET_OK)
        stop(k->name, "the text has no old form");
    if (limpet_text_to_new(k->old, k->old_length, text, sizeof text, &count) != LIMPET_OK || count != k->length
        || memcmp(text, k->text, count) != 0)
        stop(k->name, "the old form does not lead back to the text");
}

static void compare(struct kept *k, int rounds)
{
    keep_text(k);
    keep_old(k);
    for (int way = 0; way < WAYS; way++) {
        check_writer(k, ways[way].write);
        check_reader(k, ways[way].read);
        check_broken(k, ways[way].read);
    }
    measure("write", k, write_once, rounds);
    measure("read", k, read_once, rounds);
    measure("to-new", k, to_new_once, rounds);
    measure("to-old", k, to_old_once, rounds);
}

int main(int count, char **arguments)
{
    static struct kept cards[CARDS];
    bool is_once = count == 3 && strcmp(arguments[1], "--once") == 0;
    int rounds = is_once ? 0 : read_rounds(count, arguments, usage);

    check_version();
    for (size_t i = 0; i < CARDS; i++)
        keep(&cards[i], i);
    if (is_once && !call_once(cards, arguments[2])) {
        fputs(usage, stderr);
        return 2;
    }
    for (size_t i = 0; !is_once && i < CARDS; i++)
        compare(&cards[i], rounds);
    return EXIT_SUCCESS;
}
