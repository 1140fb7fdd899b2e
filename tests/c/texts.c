/*
 * The calls that write a card as lines and read it, limpet_to_text and
 * limpet_from_text, and those that convert such lines, limpet_text_to_new and
 * limpet_text_to_old, held to what the model says of them. Reads cases from
 * standard input, in the form that tests/model/text_cases.py has. Every byte
 * that a call lends is looked at, and so are the guard bytes around it.
 *
 * A line for each kind of text, with how many were accepted and refused, and one
 * for each way to convert.
 */
#define _DEFAULT_SOURCE /* MAP_ANONYMOUS */

#include <inttypes.h>
#include <stdbool.h>
#include <stdio.h>
#include <stdlib.h>
#include <string.h>
#include <sys/mman.h>

#include "layout.h"
#include "lines.h"
#include "watched.h"

enum {
    MOST_FIELDS = 9,
    MOST_TALLIES = 100,
    MOST_SHOWN_TEXTS = 3,
    LONGEST_AREA = 2 * LIMPET_AREA_SIZE,
    LONGEST_ROOM = 65536, /* the longest text buffer that is tried */
    BEHIND = 9            /* text buffers are tried up to so many bytes past the text's */
};

/* A case: its letter, and its fields in one block of memory. */
struct record {
    int letter;
    struct bytes fields[MOST_FIELDS];
    uint8_t *block;
    size_t room;
};

/* A card as the model has it: its text, its bytes, and those of its files. */
struct model {
    struct bytes text, card, contents;
};

/* How many texts there were of a kind. */
struct tally {
    char name[64];
    unsigned long accepted, refused;
};

/* How many texts were given to one of the calls that convert. */
struct conversions {
    unsigned long converted, refused, with_folder, rooms;
};

struct run {
    struct held first, second; /* the card of a script, and one that was read from its text */
    bool has_second;
    unsigned long commands, writings, rooms, spoiled;
    struct tally tallies[MOST_TALLIES];
    size_t tally_count;
    struct conversions to_new, to_old;
    bool is_short, ends_at_first;
};

static void usage(FILE *to)
{
    fputs("usage: texts [--exact] [--short] [--first] <CASES\n"
          "\n"
          "Runs cases that tests/model/text_cases.py writes over the library. What is wrong\n"
          "goes to standard error, and the exit status is then 1.\n"
          "\n"
          "  --exact   no guard bytes: each buffer is a heap block of its own and of its\n"
          "            exact size, for valgrind or the address sanitizer to watch\n"
          "  --short   fewer lengths of text buffers, and fewer spoiled cards\n"
          "  --first   ends after the first case that is wrong\n", to);
}

/* ---- cases ---- */

static void bad_input(const char *why)
{
    fprintf(stderr, "texts: the cases are not to be read: %s\n", why);
    exit(2);
}

static size_t fields_of(int letter)
{
    switch (letter) {
    case 'I':
        return 9;
    case 'N':
    case 'O':
    case 'n':
    case 'o':
        return 7;
    case 'C':
    case 'T':
        return 4;
    case 'W':
    case 'L':
        return 3;
    case 'R':
        return 0;
    default:
        bad_input("a letter that none has");
        return 0;
    }
}

static void make_room(struct record *r, size_t length)
{
    if (length <= r->room)
        return;
    r->room = 2 * length;
    r->block = realloc(r->block, r->room);
    if (r->block == NULL) {
        fprintf(stderr, "texts: no memory for a case of %zu bytes\n", length);
        exit(2);
    }
}

static size_t read_length(FILE *input)
{
    uint8_t bytes[4];

    if (fread(bytes, sizeof bytes, 1, input) != 1)
        bad_input("a length is cut off");
    return (size_t)bytes[0] | (size_t)bytes[1] << 8 | (size_t)bytes[2] << 16 | (size_t)bytes[3] << 24;
}

/* The next case; false at the end. */
static bool read_record(FILE *input, struct record *r)
{
    size_t from[MOST_FIELDS], end = 0;

    r->letter = getc(input);
    if (r->letter == EOF)
        return false;
    for (size_t i = 0; i < fields_of(r->letter); i++) {
        size_t length = read_length(input);
        make_room(r, end + length);
        if (length > 0 && fread(r->block + end, length, 1, input) != 1)
            bad_input("a field is cut off");
        from[i] = end;
        r->fields[i].len = length;
        end += length;
    }
    /* Only now, since the block may have moved. */
    for (size_t i = 0; i < fields_of(r->letter); i++)
        r->fields[i].at = r->block + from[i];
    return true;
}

static struct model model_of(const struct bytes fields[3])
{
    if (fields[1].len != 0 && fields[1].len != LIMPET_CARD_SIZE)
        bad_input("a card of another length");
    if (fields[2].len > LIMPET_AREA_SIZE)
        bad_input("too many contents");
    return (struct model){ fields[0], fields[1], fields[2] };
}

static struct given given_of(struct bytes b)
{
    return (struct given){ b.at, b.len, false };
}

/* ---- the calls, watched ---- */

/* Bytes that no call would write by chance, and none of them 00. */
static const uint8_t *noise(void)
{
    static uint8_t bytes[LONGEST_ROOM];

    if (bytes[0] == 0)
        for (size_t i = 0; i < sizeof bytes; i++)
            bytes[i] = (uint8_t)(0x80 | (0x21 + 11 * i));
    return bytes;
}

static const uint8_t *zeros(void)
{
    static const uint8_t bytes[LIMPET_AREA_SIZE];

    return bytes;
}

static bool are_same(const uint8_t *left, const uint8_t *right, size_t length)
{
    return length == 0 || memcmp(left, right, length) == 0;
}

static void check_guards(const char *name, const struct lent *b)
{
    if (!guards_stand(b))
        wrong("a byte before or after the %s was written", name);
}

/* A buffer that the call leaves as it was. */
static void check_kept(const char *name, const struct lent *b, const uint8_t *before)
{
    check_guards(name, b);
    if (!are_same(b->bytes, before, b->length))
        wrong("the %s was written", name);
}

static void check_outcome(const char *call, uint8_t outcome, uint8_t due)
{
    if (outcome != due)
        wrong("%s: outcome %u, and %u is due", call, (unsigned)outcome, (unsigned)due);
}

/* Card and area before a call. */
struct kept {
    uint8_t card[LIMPET_CARD_SIZE];
    uint8_t area[LONGEST_AREA];
};

static void keep(struct kept *k, const struct held *h)
{
    memcpy(k->card, h->card.bytes, sizeof k->card);
    if (h->area.length > 0)
        memcpy(k->area, h->area.bytes, h->area.length);
}

/* A null pointer will do where there are no bytes; every second time there is one. */
static uint8_t *start(const struct lent *b)
{
    return b->length == 0 && calls % 2 == 0 ? NULL : b->bytes;
}

static uint8_t *area_of(const struct held *h)
{
    return h->has_no_area ? NULL : h->area.bytes;
}

/* What the writer left in a buffer of noise: the text, and behind it nothing; all of it noise where it refuses. */
static void check_text(const struct lent *text, limpet_size count, uint8_t outcome, struct bytes due)
{
    check_guards("text", text);
    if (outcome != LIMPET_OK) {
        if (count != 0)
            wrong("refused, and the text has %" PRIu64 " bytes", count);
        if (!are_same(text->bytes, noise(), text->length))
            wrong("refused, and the text was written");
        return;
    }
    if (count > text->length || count != due.len || !are_same(text->bytes, due.at, count)) {
        wrong("the text is not that of the card");
        return;
    }
    if (!are_same(text->bytes + count, noise() + count, text->length - count))
        wrong("the buffer was written past the text's %" PRIu64 " bytes", count);
}

/* Writes the card into a text buffer of that room, which is to end so. */
static void write_text(struct held *h, size_t room, uint8_t due_outcome, struct bytes due)
{
    static struct kept before;
    limpet_size count = (limpet_size)-1 / 3; /* what it holds before does not matter */
    struct lent text = lend(noise(), room);
    struct lent counted = lend_at(0, (const uint8_t *)&count, sizeof count);

    keep(&before, h);
    calls++;
    uint8_t outcome = limpet_to_text((const struct limpet_card *)h->card.bytes, area_of(h), h->area.length,
                                     start(&text), room, (limpet_size *)(void *)counted.bytes);
    memcpy(&count, counted.bytes, sizeof count);
    check_outcome("to text", outcome, due_outcome);
    check_kept("card", &h->card, before.card);
    check_kept("area", &h->area, before.area);
    check_guards("count", &counted);
    check_text(&text, count, outcome, due);
    give_back(&text);
    give_back(&counted);
}

/* The area of a card that was read: the files' bytes, and 00 past the last file. */
static void check_contents(const struct held *h, struct bytes contents)
{
    if (!are_same(h->area.bytes, contents.at, contents.len))
        wrong("the files' bytes are not those of the text");
    if (!are_same(h->area.bytes + contents.len, zeros(), LIMPET_AREA_SIZE - contents.len))
        wrong("the area is not 00 past the last file");
}

/* Reads a text into a card and an area, which is to end so. */
static void read_into(struct held *h, struct bytes text, uint8_t due_outcome, struct bytes card, struct bytes contents)
{
    static struct kept before;
    struct lent given = lend(text.at, text.len);

    keep(&before, h);
    calls++;
    uint8_t outcome = limpet_from_text((struct limpet_card *)h->card.bytes, area_of(h), h->area.length,
                                       start(&given), given.length);
    check_outcome("from text", outcome, due_outcome);
    check_kept("text", &given, text.at);
    check_guards("card", &h->card);
    check_guards("area", &h->area);
    if (outcome != LIMPET_OK) {
        if (!are_same(h->card.bytes, zeros(), LIMPET_CARD_SIZE))
            wrong("refused, and the card is not blank");
        if (!are_same(h->area.bytes, before.area, h->area.length))
            wrong("refused, and the area was written");
    } else if (due_outcome == LIMPET_OK) {
        if (!are_same(h->card.bytes, card.at, LIMPET_CARD_SIZE))
            wrong("the card is not that of the text");
        check_contents(h, contents);
    }
    give_back(&given);
}

/* A card and an area of bytes that belong to no card. */
static struct held hold_noise(size_t area_length)
{
    struct held h = hold(noise(), area_length);

    h.has_no_area = area_length == 0 && calls % 2 == 0;
    return h;
}

/* The card of the model, with noise past its files. */
static struct held hold_model(const struct model *m)
{
    struct held h = hold(m->card.at, LIMPET_AREA_SIZE);

    if (m->contents.len > 0)
        memcpy(h.area.bytes, m->contents.at, m->contents.len);
    return h;
}

/* ---- texts ---- */

static struct tally *tally_of(struct run *r, struct bytes name)
{
    for (size_t i = 0; i < r->tally_count; i++)
        if (strlen(r->tallies[i].name) == name.len && memcmp(r->tallies[i].name, name.at, name.len) == 0)
            return &r->tallies[i];
    if (r->tally_count == MOST_TALLIES || name.len >= sizeof r->tallies[0].name)
        bad_input("too many kinds of texts, or a name that is too long");
    struct tally *t = &r->tallies[r->tally_count++];
    memcpy(t->name, name.at, name.len);
    return t;
}

/* For the eye: tabs and newlines stay, and other bytes that are not printable stand as \xNN. */
static void show_text(struct bytes text)
{
    fprintf(stderr, "the text, %zu bytes:\n", text.len);
    for (size_t i = 0; i < text.len; i++) {
        uint8_t byte = text.at[i];
        if (byte == '\t' || byte == '\n' || (byte >= 0x20 && byte < 0x7F))
            putc(byte, stderr);
        else
            fprintf(stderr, "\\x%02x", byte);
    }
    fputs("(end of the text)\n", stderr);
}

static void try_text(struct run *r, struct bytes name, const struct model *m)
{
    struct held h = hold_noise(LIMPET_AREA_SIZE);
    struct tally *t = tally_of(r, name);
    bool accepted = m->card.len > 0;
    unsigned long wrongs_before = wrongs;
    static unsigned shown;

    call_name = t->name;
    call_number = t->accepted + t->refused + 1;
    read_into(&h, m->text, accepted ? LIMPET_OK : LIMPET_BAD_TEXT, m->card, m->contents);
    if (accepted && wrongs == wrongs_before)
        write_text(&h, m->text.len + call_number % 2 * BEHIND, LIMPET_OK, m->text);
    t->accepted += accepted;
    t->refused += !accepted;
    if (wrongs != wrongs_before && shown < MOST_SHOWN_TEXTS) {
        shown++;
        show_text(m->text);
    }
    let_go(&h);
}

/* ---- scripts ---- */

static uint16_t number_of(struct bytes b)
{
    if (b.len != 2)
        bad_input("a limit or a mode of another length");
    return (uint16_t)(b.at[0] | b.at[1] << 8);
}

/* The fields of an ISSUE line. */
static void issue(struct run *r, const struct bytes fields[9])
{
    struct order o = {
        .key = given_of(fields[0]), .device_limit = number_of(fields[1]),
        .admin_pin = given_of(fields[2]), .admin_limit = number_of(fields[3]),
        .user_pin = given_of(fields[4]), .user_limit = number_of(fields[5]),
        .mode = number_of(fields[6]),
        .transport_key = given_of(fields[7]), .transport_limit = number_of(fields[8])
    };

    if (watched_issue(&r->first, &o) != LIMPET_OK)
        wrong("an issue is refused");
    r->has_second = false;
}

static unsigned taken_bytes(const uint8_t *card)
{
    struct layout c;
    unsigned taken = 0;

    memcpy(&c, card, sizeof c);
    for (size_t i = 0; i < c.directory.count && i < FILES; i++)
        taken += file_size(&c.directory.files[i]);
    return taken < LIMPET_AREA_SIZE ? taken : LIMPET_AREA_SIZE;
}

/* The card that was read has to be in the state of the other one, with the same bytes in its files. */
static void check_alike(const struct run *r)
{
    if (!r->has_second)
        return;
    if (!are_same(r->first.card.bytes, r->second.card.bytes, LIMPET_CARD_SIZE))
        wrong("the card that was read is in another state than the one that was written");
    if (!are_same(r->first.area.bytes, r->second.area.bytes, taken_bytes(r->first.card.bytes)))
        wrong("the card that was read has other bytes in its files than the one that was written");
}

static void give_command(struct held *h, const struct bytes fields[4])
{
    struct answer a = watched_command(h, given_of(fields[0]), given_of(fields[1]), LIMPET_REPLY_SIZE, false);

    if (fields[2].len != 1 || a.outcome != fields[2].at[0])
        wrong("a command: outcome %u is not the model's", (unsigned)a.outcome);
    else if (a.count != fields[3].len || !are_same(a.reply, fields[3].at, a.count))
        wrong("a command: the reply is not the model's");
}

static void command(struct run *r, const struct bytes fields[4])
{
    give_command(&r->first, fields);
    if (r->has_second)
        give_command(&r->second, fields);
    check_alike(r);
    r->commands++;
}

static void reset(struct run *r)
{
    watched_reset(&r->first);
    if (r->has_second)
        watched_reset(&r->second);
    check_alike(r);
    r->commands++;
}

/* Writes the card from memory that cannot be written to, where a program may keep one that C calls const. */
static void write_from_read_only(const struct held *h, struct bytes due)
{
    static uint8_t text[LIMPET_TEXT_SIZE];
    limpet_size count = 0;
    size_t taken = LIMPET_CARD_SIZE + LIMPET_AREA_SIZE;
    uint8_t *page = mmap(NULL, taken, PROT_READ | PROT_WRITE, MAP_PRIVATE | MAP_ANONYMOUS, -1, 0);

    if (page == MAP_FAILED)
        bad_input("no memory");
    memcpy(page, h->card.bytes, LIMPET_CARD_SIZE);
    memcpy(page + LIMPET_CARD_SIZE, h->area.bytes, LIMPET_AREA_SIZE);
    if (mprotect(page, taken, PROT_READ) != 0)
        bad_input("memory cannot be protected");
    calls++;
    check_outcome("to text, from memory that is only read",
                  limpet_to_text((const struct limpet_card *)page, page + LIMPET_CARD_SIZE, LIMPET_AREA_SIZE, text, sizeof text, &count), LIMPET_OK);
    if (count != due.len || !are_same(text, due.at, due.len))
        wrong("from memory that is only read there is another text");
    munmap(page, taken);
}

static void write_and_read(struct run *r, const struct model *m)
{
    if (!are_same(r->first.card.bytes, m->card.at, LIMPET_CARD_SIZE))
        wrong("the card's bytes are not the model's");
    write_text(&r->first, m->text.len + r->writings % 2 * BEHIND, LIMPET_OK, m->text);
    if (!r->ends_at_first) /* where a fault is to be noticed, the program goes on until it says which */
        write_from_read_only(&r->first, m->text);
    if (r->has_second)
        write_text(&r->second, LIMPET_TEXT_SIZE, LIMPET_OK, m->text);
    let_go(&r->second);
    r->second = hold_noise(LIMPET_AREA_SIZE);
    read_into(&r->second, m->text, LIMPET_OK, m->card, m->contents);
    r->has_second = true;
    check_alike(r);
    r->writings++;
}

/* ---- lengths and unsound cards ---- */

static void try_room(struct run *r, const struct model *m, size_t room)
{
    struct held h = hold_model(m);

    write_text(&h, room, room < m->text.len ? LIMPET_SHORT_TEXT : LIMPET_OK, m->text);
    let_go(&h);
    r->rooms++;
}

/* Every length of the text buffer; in a short run those around the text's, and some others. */
static void try_rooms(struct run *r, const struct model *m)
{
    static const size_t longer[] = { LIMPET_TEXT_SIZE, LIMPET_TEXT_SIZE + 1, LONGEST_ROOM };

    for (size_t room = 0; room <= m->text.len + BEHIND; room++) {
        call_number = room;
        if (!r->is_short || room < 3 || room + 3 > m->text.len || room % 509 == 0)
            try_room(r, m, room);
    }
    for (size_t i = 0; i < sizeof longer / sizeof longer[0]; i++)
        try_room(r, m, longer[i]);
}

static struct bytes all_but_last(struct bytes b)
{
    return (struct bytes){ b.at, b.len - 1 };
}

/* An area of another length is refused before all else, whether card and text are good or not. */
static void try_area(const struct model *m, size_t length)
{
    static const struct bytes none;
    const struct bytes tried[] = { m->text, all_but_last(m->text), none };
    const size_t rooms[] = { 0, m->text.len - 1, m->text.len, LIMPET_TEXT_SIZE };
    struct held h = hold_noise(length);

    for (size_t i = 0; i < sizeof rooms / sizeof rooms[0]; i++) {
        memcpy(h.card.bytes, m->card.at, LIMPET_CARD_SIZE);
        write_text(&h, rooms[i], LIMPET_BAD_AREA, none);
        memset(h.card.bytes, 0, LIMPET_CARD_SIZE);
        write_text(&h, rooms[i], LIMPET_BAD_AREA, none);
    }
    for (size_t i = 0; i < sizeof tried / sizeof tried[0]; i++) {
        memcpy(h.card.bytes, noise(), LIMPET_CARD_SIZE);
        read_into(&h, tried[i], LIMPET_BAD_AREA, none, none);
    }
    let_go(&h);
}

/* Written and read, a sound card is the same state, with the same bytes in its files. */
static void try_both_ways(struct held *h)
{
    static uint8_t text[LIMPET_TEXT_SIZE];
    struct held other = hold_noise(LIMPET_AREA_SIZE);
    struct bytes card = { h->card.bytes, LIMPET_CARD_SIZE };
    struct bytes contents = { h->area.bytes, taken_bytes(h->card.bytes) };
    limpet_size count = 0;

    calls++;
    uint8_t outcome = limpet_to_text((const struct limpet_card *)h->card.bytes, h->area.bytes, LIMPET_AREA_SIZE,
                                     text, sizeof text, &count);
    check_outcome("to text, of a sound card", outcome, LIMPET_OK);
    if (outcome == LIMPET_OK && count <= sizeof text)
        read_into(&other, (struct bytes){ text, count }, LIMPET_OK, card, contents);
    let_go(&other);
}

/* A card that may be unsound: refused before the text buffer is looked at. */
static void try_spoiled(struct run *r, struct held *h)
{
    static const struct bytes none;

    if (is_sound(h->card.bytes, h->area.bytes)) {
        try_both_ways(h);
    } else {
        write_text(h, LIMPET_TEXT_SIZE, LIMPET_UNSOUND, none);
        write_text(h, 0, LIMPET_UNSOUND, none);
    }
    r->spoiled++;
}

/* Every bit of the card, and every bit of the first bytes of the area, changed alone. */
static void try_all_spoiled(struct run *r, const struct model *m)
{
    enum { PLACES_TRIED = 64 };
    struct held h = hold_model(m);

    for (size_t i = 0; i < LIMPET_CARD_SIZE + PLACES_TRIED; i++) {
        uint8_t *byte = i < LIMPET_CARD_SIZE ? h.card.bytes + i : h.area.bytes + (i - LIMPET_CARD_SIZE);
        for (unsigned bit = 0; bit < 8; bit++) {
            if (r->is_short && bit != i % 8)
                continue;
            call_number = 8 * i + bit;
            *byte ^= (uint8_t)(1u << bit);
            try_spoiled(r, &h);
            *byte ^= (uint8_t)(1u << bit);
        }
    }
    let_go(&h);
}

static void try_lengths(struct run *r, const struct model *m)
{
    static const size_t areas[] = { 0, 1, LIMPET_AREA_SIZE - 1, LIMPET_AREA_SIZE + 1, LONGEST_AREA };

    call_name = "length of the text buffer";
    try_rooms(r, m);
    call_name = "length of the area";
    for (size_t i = 0; i < sizeof areas / sizeof areas[0]; i++) {
        call_number = areas[i];
        try_area(m, areas[i]);
    }
    call_name = "bit of a spoiled card";
    try_all_spoiled(r, m);
}

/* ---- conversions ---- */

typedef uint8_t convert(const uint8_t *given, limpet_size given_len, uint8_t *text, limpet_size text_len, limpet_size *text_count);

/* A call that converts, and the one that goes back. */
struct way {
    const char *name, *back_name;
    convert *call, *back;
};

static const struct way to_new = { "to new", "back to old", limpet_text_to_new, limpet_text_to_old };
static const struct way to_old = { "to old", "back to new", limpet_text_to_old, limpet_text_to_new };

/* A text to convert, and what the model says of it: with enough room, with none, and what is made of it, none where it is refused. */
struct conversion {
    const struct way *way;
    struct bytes given;
    uint8_t outcome, without_room;
    struct model made;
};

static struct conversion conversion_of(int letter, const struct bytes fields[7])
{
    const struct way *way = letter == 'N' || letter == 'n' ? &to_new : &to_old;

    if (fields[2].len != 1 || fields[3].len != 1)
        bad_input("an outcome of another length");
    return (struct conversion){ way, fields[1], fields[2].at[0], fields[3].at[0], model_of(fields + 4) };
}

static uint8_t due_with(const struct conversion *c, size_t room)
{
    return c->outcome == LIMPET_OK && room >= c->made.text.len ? LIMPET_OK : c->without_room;
}

/* Converts a text into a buffer of that room, which is to end so. */
static void convert_text(const char *name, convert *call, struct bytes text, size_t room, uint8_t due_outcome, struct bytes due)
{
    limpet_size count = (limpet_size)-1 / 3; /* what it holds before does not matter */
    struct lent given = lend(text.at, text.len), made = lend(noise(), room);
    struct lent counted = lend_at(0, (const uint8_t *)&count, sizeof count);

    calls++;
    uint8_t outcome = call(start(&given), given.length, start(&made), room, (limpet_size *)(void *)counted.bytes);
    memcpy(&count, counted.bytes, sizeof count);
    check_outcome(name, outcome, due_outcome);
    check_kept("given text", &given, text.at);
    check_guards("count", &counted);
    check_text(&made, count, outcome, due);
    give_back(&given);
    give_back(&made);
    give_back(&counted);
}

static void convert_with(const struct conversion *c, size_t room)
{
    convert_text(c->way->name, c->way->call, c->given, room, due_with(c, room), c->made.text);
}

/* What was converted goes back, is of one form alone, and a new text is that of the same card with every file in the root. */
static void look_at_converted(const struct conversion *c)
{
    static const struct bytes none;
    struct held h = hold_noise(LIMPET_AREA_SIZE);

    convert_text(c->way->back_name, c->way->back, c->made.text, c->given.len, LIMPET_OK, c->given);
    convert_text("the other way", c->way->back, c->given, LIMPET_TEXT_SIZE, LIMPET_BAD_TEXT, none);
    read_into(&h, c->way == &to_new ? c->made.text : c->given, LIMPET_OK, c->made.card, c->made.contents);
    let_go(&h);
}

static void try_conversion(struct run *r, struct bytes name, const struct conversion *c)
{
    static char names[sizeof r->tallies[0].name];
    static unsigned shown;
    struct conversions *t = c->way == &to_new ? &r->to_new : &r->to_old;
    size_t length = c->made.text.len;
    const size_t rooms[] = { 0, LIMPET_TEXT_SIZE, 1, length + 1, length - (length > 0), c->given.len };
    unsigned long wrongs_before = wrongs;

    snprintf(names, sizeof names, "%s, %.*s", c->way->name, (int)name.len, (const char *)name.at);
    call_name = names;
    call_number = t->converted + t->refused + t->with_folder + 1;
    convert_with(c, rooms[call_number % (sizeof rooms / sizeof rooms[0])]);
    if (c->outcome == LIMPET_OK) {
        convert_with(c, length);
        if (wrongs == wrongs_before)
            look_at_converted(c);
    }
    *(c->outcome == LIMPET_OK ? &t->converted : c->outcome == LIMPET_DIRECTORY ? &t->with_folder : &t->refused) += 1;
    if (wrongs != wrongs_before && shown < MOST_SHOWN_TEXTS) {
        shown++;
        show_text(c->given);
    }
}

/* From memory that cannot be written to. */
static void convert_from_read_only(const struct conversion *c)
{
    static uint8_t text[LIMPET_TEXT_SIZE];
    limpet_size count = 0;
    uint8_t *page = mmap(NULL, c->given.len, PROT_READ | PROT_WRITE, MAP_PRIVATE | MAP_ANONYMOUS, -1, 0);

    if (page == MAP_FAILED)
        bad_input("no memory");
    memcpy(page, c->given.at, c->given.len);
    if (mprotect(page, c->given.len, PROT_READ) != 0)
        bad_input("memory cannot be protected");
    calls++;
    check_outcome("from memory that is only read", c->way->call(page, c->given.len, text, sizeof text, &count), c->outcome);
    if (count != c->made.text.len || !are_same(text, c->made.text.at, count))
        wrong("from memory that is only read there is another text");
    munmap(page, c->given.len);
}

/* Every length of the text buffer where the text is short; else those around the text's, and some others. */
static void convert_with_all_rooms(struct run *r, const struct conversion *c)
{
    enum { LONG = 1000 };
    static const size_t longer[] = { LIMPET_TEXT_SIZE - 1, LIMPET_TEXT_SIZE, LIMPET_TEXT_SIZE + 1, LONGEST_ROOM };
    size_t length = c->outcome == LIMPET_OK ? c->made.text.len : c->given.len;
    struct conversions *t = c->way == &to_new ? &r->to_new : &r->to_old;

    call_name = "length of the buffer of a text that is converted";
    for (size_t room = 0; room <= length + BEHIND; room++) {
        call_number = room;
        if ((!r->is_short && length < LONG) || room < 3 || room + BEHIND > length || room % 509 == 0) {
            convert_with(c, room);
            t->rooms++;
        }
    }
    for (size_t i = 0; i < sizeof longer / sizeof longer[0]; i++)
        convert_with(c, longer[i]);
    if (!r->ends_at_first) /* as where a card is written */
        convert_from_read_only(c);
}

/* ---- the whole ---- */

static void run_record(struct run *r, const struct record *c, unsigned long number)
{
    struct model m;
    struct conversion converted;

    call_name = "case";
    call_number = number;
    switch (c->letter) {
    case 'I':
        issue(r, c->fields);
        break;
    case 'C':
        command(r, c->fields);
        break;
    case 'R':
        reset(r);
        break;
    case 'T':
        m = model_of(c->fields + 1);
        try_text(r, c->fields[0], &m);
        break;
    case 'N':
    case 'O':
        converted = conversion_of(c->letter, c->fields);
        try_conversion(r, c->fields[0], &converted);
        break;
    case 'n':
    case 'o':
        converted = conversion_of(c->letter, c->fields);
        convert_with_all_rooms(r, &converted);
        break;
    default:
        m = model_of(c->fields);
        if (m.card.len == 0 || m.text.len == 0)
            bad_input("a card is missing");
        if (c->letter == 'W')
            write_and_read(r, &m);
        else
            try_lengths(r, &m);
    }
}

static void print_conversions(const char *name, const struct conversions *t)
{
    printf("%s: %lu texts, %lu converted, %lu with a directory, %lu refused; %lu text buffers\n", name,
           t->converted + t->with_folder + t->refused, t->converted, t->with_folder, t->refused, t->rooms);
}

static void print_counts(const struct run *r)
{
    unsigned long accepted = 0, refused = 0;

    printf("scripts: %lu commands and resets, %lu cards written, read and gone on with\n", r->commands, r->writings);
    printf("lengths: %lu text buffers, and areas of other lengths; %lu spoiled cards and areas\n", r->rooms, r->spoiled);
    for (size_t i = 0; i < r->tally_count; i++) {
        const struct tally *t = &r->tallies[i];
        printf("  %s: %lu texts, %lu accepted, %lu refused\n", t->name, t->accepted + t->refused, t->accepted, t->refused);
        accepted += t->accepted;
        refused += t->refused;
    }
    printf("all texts: %lu, %lu accepted, %lu refused\n", accepted + refused, accepted, refused);
    print_conversions("to new", &r->to_new);
    print_conversions("to old", &r->to_old);
}

static void run_all(struct run *r, FILE *input)
{
    struct record c = { .letter = 0 };
    unsigned long number = 0;

    r->first = hold_noise(LIMPET_AREA_SIZE);
    while (read_record(input, &c) && !(r->ends_at_first && wrongs > 0))
        run_record(r, &c, ++number);
    if (ferror(input) || number == 0)
        bad_input("there are none");
    let_go(&r->first);
    let_go(&r->second);
    free(c.block);
}

int main(int count, char **arguments)
{
    static struct run r;

    for (int i = 1; i < count; i++) {
        if (strcmp(arguments[i], "--help") == 0) {
            usage(stdout);
            return EXIT_SUCCESS;
        }
        if (strcmp(arguments[i], "--exact") == 0) {
            lent_exactly = true;
        } else if (strcmp(arguments[i], "--short") == 0) {
            r.is_short = true;
        } else if (strcmp(arguments[i], "--first") == 0) {
            r.ends_at_first = true;
        } else {
            usage(stderr);
            return 2;
        }
    }
    check_version();
    run_all(&r, stdin);
    print_counts(&r);
    if (fflush(stdout) != 0 || ferror(stdout)) {
        fprintf(stderr, "texts: cannot write the output\n");
        return 2;
    }
    if (wrongs > 0)
        fprintf(stderr, "texts: %lu wrong in %lu calls\n", wrongs, calls);
    return wrongs == 0 ? EXIT_SUCCESS : EXIT_FAILURE;
}
