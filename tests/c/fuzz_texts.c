/*
 * Texts of cards, most of them broken, given to the library's reader and to
 * that of bench/plain_text.c: both have to say the same, leave the same card
 * and area, and write an accepted text again byte for byte. Each text is
 * converted from the old form and from the new one too: both have to say the
 * same and write the same, and what was converted goes back to the same text.
 *
 * Built for libFuzzer, which makes the texts and is guided by coverage, the
 * library is there twice: as it is, and compiled with counters (guided_...).
 * Built without it (-DBY_ITSELF) this is a program that makes the texts to
 * start from, and that can change them blindly.
 */
#define _DEFAULT_SOURCE /* MAP_ANONYMOUS */
#include <errno.h>
#include <stdarg.h>
#include <stdbool.h>
#include <stddef.h>
#include <stdint.h>
#include <stdio.h>
#include <stdlib.h>
#include <string.h>
#include <sys/mman.h>
#include <unistd.h>

#include "layout.h"
#include "limpetnook.h"
#include "plain_text.h"
#ifdef BY_ITSELF
#include "cards.h"
#include "measure.h"
#endif

/* Somewhat more than the longest text, so that surplus is tried too. */
enum { LONGEST_INPUT = LIMPET_TEXT_SIZE + 256 };

typedef uint8_t to_text(const struct limpet_card *, const uint8_t *, size_t, uint8_t *, size_t, size_t *);
typedef uint8_t from_text(struct limpet_card *, uint8_t *, size_t, const uint8_t *, size_t);
typedef uint8_t convert(const uint8_t *, size_t, uint8_t *, size_t, size_t *);

#ifndef BY_ITSELF
to_text guided_to_text;
from_text guided_from_text;
convert guided_text_to_new, guided_text_to_old;
size_t LLVMFuzzerMutate(uint8_t *data, size_t size, size_t room);
int LLVMFuzzerInitialize(int *count, char ***arguments);
int LLVMFuzzerTestOneInput(const uint8_t *data, size_t size);
#endif
size_t LLVMFuzzerCustomMutator(uint8_t *data, size_t size, size_t room, unsigned seed);
size_t LLVMFuzzerCustomCrossOver(const uint8_t *one, size_t one_size, const uint8_t *other, size_t other_size,
                                 uint8_t *out, size_t room, unsigned seed);

/* The first is what the others are held to. */
static const struct {
    const char *name;
    to_text *write;
    from_text *read;
    convert *from[2]; /* by the form of the text that is given: the old one, the new one */
} ways[] = {
    { "plain C", plain_to_text, plain_from_text, { plain_text_to_new, plain_text_to_old } },
    { "the library", limpet_to_text, limpet_from_text, { limpet_text_to_new, limpet_text_to_old } },
#ifndef BY_ITSELF
    { "the library with counters", guided_to_text, guided_from_text, { guided_text_to_new, guided_text_to_old } },
#endif
};
enum { WAYS = sizeof ways / sizeof *ways };

enum { FROM_OLD, FROM_NEW, FORMS };
static const char *const conversions[FORMS] = { "to new", "to old" };

static unsigned long accepted, refused, converted[FORMS], with_folder;

static void print_counts(void)
{
    printf("accepted %lu\nrefused %lu\n", accepted, refused);
    printf("to new %lu\nto old %lu\nwith a directory %lu\n", converted[FROM_OLD], converted[FROM_NEW], with_folder);
    fflush(stdout);
}

/* ------------------------------------------------------- one text, compared */

/* Says what is wrong, and that nothing agrees. */
static bool differ(const char *format, ...)
{
    va_list arguments;

    va_start(arguments, format);
    fputs("WRONG: ", stderr);
    vfprintf(stderr, format, arguments);
    fputs("\n", stderr);
    va_end(arguments);
    return false;
}

/* Room for so many bytes, behind which lies a page that nothing can read or write. */
static uint8_t *fenced(size_t size)
{
    size_t page = (size_t)sysconf(_SC_PAGESIZE), whole = (size + page - 1) / page * page;
    uint8_t *at = mmap(NULL, whole + page, PROT_READ | PROT_WRITE, MAP_PRIVATE | MAP_ANONYMOUS, -1, 0);

    if (at == MAP_FAILED || mprotect(at + whole, page, PROT_NONE) != 0) {
        fprintf(stderr, "no memory for a buffer of %zu bytes\n", size);
        exit(2);
    }
    return at + whole - size;
}

struct buffers {
    uint8_t *card, *area;
    uint8_t *text_end, *again_end; /* the text read and the text written end there, however long they are */
    uint8_t before[LIMPET_TEXT_SIZE]; /* what is in a buffer before a call may write it */
};

static struct buffers *fenced_buffers(void)
{
    static struct buffers b;

    if (b.card == NULL) {
        b.card = fenced(LIMPET_CARD_SIZE);
        b.area = fenced(LIMPET_AREA_SIZE);
        b.text_end = fenced(LONGEST_INPUT) + LONGEST_INPUT;
        b.again_end = fenced(LIMPET_TEXT_SIZE) + LIMPET_TEXT_SIZE;
        memset(b.before, 0xA5, sizeof b.before);
    }
    return &b;
}

/* What a reader left. */
struct reading {
    uint8_t outcome, card[LIMPET_CARD_SIZE], area[LIMPET_AREA_SIZE];
};

static struct reading read_with(int way, const struct buffers *b, const uint8_t *text, size_t size)
{
    struct reading r;

    memcpy(b->card, b->before, LIMPET_CARD_SIZE);
    memcpy(b->area, b->before, LIMPET_AREA_SIZE);
    r.outcome = ways[way].read((struct limpet_card *)b->card, b->area, LIMPET_AREA_SIZE, text, size);
    memcpy(r.card, b->card, sizeof r.card);
    memcpy(r.area, b->area, sizeof r.area);
    return r;
}

static bool leaves_nothing(int way, const struct buffers *b, const struct reading *r)
{
    static const uint8_t blank[LIMPET_CARD_SIZE];

    if (r->outcome != LIMPET_BAD_TEXT)
        return differ("%s: outcome %u", ways[way].name, r->outcome);
    if (memcmp(r->card, blank, sizeof r->card) != 0)
        return differ("%s: the text is refused and the card is not blank", ways[way].name);
    if (memcmp(r->area, b->before, sizeof r->area) != 0)
        return differ("%s: the text is refused and the area is not as it was", ways[way].name);
    return true;
}

/* Into a buffer that is too short by one, and into one of just that size. */
static bool writes_again(int way, const struct buffers *b, const uint8_t *text, size_t size)
{
    uint8_t *again = b->again_end - size;
    size_t count = 1;
    uint8_t outcome;

    memcpy(again, b->before, size);
    outcome = ways[way].write((struct limpet_card *)b->card, b->area, LIMPET_AREA_SIZE, again + 1, size - 1, &count);
    if (outcome != LIMPET_SHORT_TEXT || count != 0 || memcmp(again, b->before, size) != 0)
        return differ("%s: the buffer is too short by one: outcome %u, %zu bytes", ways[way].name, outcome, count);
    outcome = ways[way].write((struct limpet_card *)b->card, b->area, LIMPET_AREA_SIZE, again, size, &count);
    if (outcome != LIMPET_OK || count != size || memcmp(again, text, size) != 0)
        return differ("%s: accepted and written again: outcome %u, %zu bytes, not the text", ways[way].name, outcome, count);
    return true;
}

static bool is_same(int way, const struct reading *r, const struct reading *first)
{
    if (r->outcome != first->outcome)
        return differ("%s: outcome %u; %s: outcome %u", ways[way].name, r->outcome, ways[0].name, first->outcome);
    if (memcmp(r->card, first->card, sizeof r->card) != 0)
        return differ("%s: another card than from %s", ways[way].name, ways[0].name);
    if (memcmp(r->area, first->area, sizeof r->area) != 0)
        return differ("%s: another area than from %s", ways[way].name, ways[0].name);
    return true;
}

/* What a call that converts left, in a buffer of the size of the longest text. */
struct conversion {
    uint8_t outcome, text[LIMPET_TEXT_SIZE];
    size_t count;
};

/* Converts a text with so much room. Where it is refused nothing is written, and past the text nothing either. */
static bool convert_with(int way, int form, const struct buffers *b, const uint8_t *text, size_t size, size_t room, struct conversion *c)
{
    uint8_t *made = b->again_end - room;

    c->count = 1;
    memcpy(made, b->before, room);
    c->outcome = ways[way].from[form](text, size, room > 0 ? made : NULL, room, &c->count);
    if (c->count > room || (c->outcome != LIMPET_OK && c->count != 0))
        return differ("%s, %s: outcome %u, %zu bytes of %zu", ways[way].name, conversions[form], c->outcome, c->count, room);
    if (memcmp(made + c->count, b->before, room - c->count) != 0)
        return differ("%s, %s: outcome %u, and the buffer is not as it was", ways[way].name, conversions[form], c->outcome);
    memcpy(c->text, made, c->count);
    return true;
}

/* Where a text is converted: with a byte less it is not, with just that room it is, and it goes back to what it was. */
static bool goes_back(int way, int form, const struct buffers *b, const uint8_t *text, size_t size, const struct conversion *first)
{
    struct conversion c;
    static uint8_t given[LIMPET_TEXT_SIZE];

    if (!convert_with(way, form, b, text, size, first->count - 1, &c))
        return false;
    if (c.outcome != LIMPET_SHORT_TEXT)
        return differ("%s, %s: the buffer is too short by one: outcome %u", ways[way].name, conversions[form], c.outcome);
    if (!convert_with(way, form, b, text, size, first->count, &c))
        return false;
    if (c.outcome != LIMPET_OK || c.count != first->count || memcmp(c.text, first->text, c.count) != 0)
        return differ("%s, %s: with just the room: outcome %u, %zu bytes, not the text", ways[way].name, conversions[form], c.outcome,
                      c.count);
    memcpy(given, c.text, c.count);
    if (!convert_with(way, FORMS - 1 - form, b, given, first->count, size, &c))
        return false;
    if (c.outcome != LIMPET_OK || c.count != size || memcmp(c.text, text, size) != 0)
        return differ("%s, %s and back: outcome %u, %zu bytes, not the text", ways[way].name, conversions[form], c.outcome, c.count);
    return true;
}

/* Whether all convert a text alike from that form, with all the room that there can be and with none. */
static bool convert_alike(int form, const struct buffers *b, const uint8_t *text, size_t size)
{
    static struct conversion first, c;
    struct conversion without_room;

    for (int way = 0; way < WAYS; way++) {
        if (!convert_with(way, form, b, text, size, LIMPET_TEXT_SIZE, &c) || !convert_with(way, form, b, text, size, 0, &without_room))
            return false;
        if (way == 0)
            first = c;
        if (c.outcome != first.outcome || c.count != first.count || memcmp(c.text, first.text, c.count) != 0)
            return differ("%s, %s: outcome %u, %zu bytes; %s: outcome %u, %zu bytes, or another text", ways[way].name, conversions[form],
                          c.outcome, c.count, ways[0].name, first.outcome, first.count);
        if (without_room.outcome != (c.outcome == LIMPET_OK ? LIMPET_SHORT_TEXT : c.outcome))
            return differ("%s, %s: outcome %u, and %u with no room", ways[way].name, conversions[form], c.outcome, without_room.outcome);
        if (c.outcome == LIMPET_OK && size > LIMPET_TEXT_SIZE)
            return differ("%s, %s: converted, and no card has a text of %zu bytes", ways[way].name, conversions[form], size);
        if (c.outcome == LIMPET_OK && !goes_back(way, form, b, text, size, &first))
            return false;
    }
    converted[form] += first.outcome == LIMPET_OK;
    with_folder += first.outcome == LIMPET_DIRECTORY;
    return true;
}

/* A text has one form at most: what is read is what goes from the new form, or has a directory, and nothing of it goes from the old one. */
static bool has_one_form(uint8_t reading, unsigned long from_old, unsigned long from_new)
{
    if ((reading == LIMPET_OK) != (from_new > 0))
        return differ("the reader: outcome %u, and to old says something else", reading);
    if (from_old > 0 && from_new > 0)
        return differ("the text has both forms");
    return true;
}

static bool convert_both_ways(const struct buffers *b, const uint8_t *text, size_t size, uint8_t reading)
{
    unsigned long from_old = converted[FROM_OLD], from_new = converted[FROM_NEW] + with_folder;

    return convert_alike(FROM_OLD, b, text, size) && convert_alike(FROM_NEW, b, text, size)
        && has_one_form(reading, converted[FROM_OLD] - from_old, converted[FROM_NEW] + with_folder - from_new);
}

/* Whether all say the same of a text, and what they say is right of any. */
static bool agree(const uint8_t *data, size_t size)
{
    const struct buffers *b = fenced_buffers();
    struct reading first = { .outcome = LIMPET_OK };

    const uint8_t *text = size > 0 ? memcpy(b->text_end - size, data, size) : NULL;
    for (int way = 0; way < WAYS; way++) {
        struct reading r = read_with(way, b, text, size);
        if (way == 0)
            first = r;
        if (!is_same(way, &r, &first))
            return false;
        if (r.outcome != LIMPET_OK && !leaves_nothing(way, b, &r))
            return false;
        if (r.outcome == LIMPET_OK && size > LIMPET_TEXT_SIZE)
            return differ("%s: accepted, and no card has a text of %zu bytes", ways[way].name, size);
        if (r.outcome == LIMPET_OK && !writes_again(way, b, text, size))
            return false;
    }
    *(first.outcome == LIMPET_OK ? &accepted : &refused) += 1;
    return convert_both_ways(b, text, size, first.outcome);
}

/* ------------------------------------------------------ changes to a text */

/* A text that is being changed, the room that it has, and the state of Marsaglia's xorshift. */
struct draft {
    uint8_t *at;
    size_t size, room;
    uint32_t state;
};

/* A part of a draft. */
struct part {
    size_t from, to;
};

/* 0 to that number less one. */
static unsigned below(struct draft *d, size_t number)
{
    d->state ^= d->state << 13;
    d->state ^= d->state >> 17;
    d->state ^= d->state << 5;
    return number > 0 ? (unsigned)(d->state % number) : 0;
}

/* Puts bytes in the place of a part. Where they do not fit it says false, and all stays as it was. */
static bool put(struct draft *d, struct part p, const void *bytes, size_t size)
{
    if (d->size - (p.to - p.from) + size > d->room)
        return false;
    memmove(d->at + p.from + size, d->at + p.to, d->size - p.to);
    if (size > 0)
        memcpy(d->at + p.from, bytes, size);
    d->size += size - (p.to - p.from);
    return true;
}

static void put_string(struct draft *d, struct part p, const char *text)
{
    put(d, p, text, strlen(text));
}

/* From a place to behind the next byte of that value, or to the end. */
static struct part up_to(const struct draft *d, size_t from, uint8_t byte)
{
    const uint8_t *found = from < d->size ? memchr(d->at + from, byte, d->size - from) : NULL;

    return (struct part){ from, found != NULL ? (size_t)(found - d->at) + 1 : d->size };
}

/* The line of that number, with its newline; an empty part at the end where there is none. */
static struct part line_at(const struct draft *d, size_t number)
{
    struct part p = up_to(d, 0, '\n');

    for (size_t i = 0; i < number; i++)
        p = up_to(d, p.to, '\n');
    return p;
}

static size_t count_lines(const struct draft *d)
{
    size_t count = 0;

    for (size_t at = 0; at < d->size; at = up_to(d, at, '\n').to)
        count++;
    return count;
}

static struct part any_line(struct draft *d)
{
    return line_at(d, below(d, count_lines(d)));
}

/* A file's line has tabs, and the lines of its contents have none. The line of a folder is a block of its own, known by its length. */
enum { LINES_BEFORE_FILES = CREDENTIALS + 1, FIELDS_BEFORE_MODE = 5, MOST_BLOCKS = 64, FOLDER_LENGTH = 8, FID_LENGTH = 4 };

struct blocks {
    struct part at[MOST_BLOCKS];
    size_t count;
};

static struct blocks find_blocks(const struct draft *d)
{
    struct blocks b = { .count = 0 };
    struct part line;

    for (size_t at = line_at(d, LINES_BEFORE_FILES - 1).to; at < d->size; at = line.to) {
        line = up_to(d, at, '\n');
        if (up_to(d, at, '\t').to < line.to && b.count < MOST_BLOCKS)
            b.at[b.count++] = line;
        else if (b.count > 0)
            b.at[b.count - 1].to = line.to;
    }
    return b;
}

static struct part any_block(struct draft *d)
{
    struct blocks b = find_blocks(d);

    return b.count > 0 ? b.at[below(d, b.count)] : (struct part){ d->size, d->size };
}

static bool is_folder(struct part block)
{
    return block.to - block.from == FOLDER_LENGTH;
}

/* A FID for the end of a line: a folder's, or the root's, or now and then a file's. */
static void any_home(struct draft *d, char *fid)
{
    struct part block = any_block(d);

    for (int i = 0; i < 4 && !is_folder(block); i++)
        block = any_block(d);
    if (block.to - block.from < FID_LENGTH || below(d, 3) == 0 || (!is_folder(block) && below(d, 8) > 0))
        memcpy(fid, "3F00", FID_LENGTH);
    else
        memcpy(fid, d->at + block.from, FID_LENGTH);
    fid[FID_LENGTH] = '\0';
}

/* A place between two files, before the first or behind the last. */
static struct part between_blocks(struct draft *d)
{
    struct blocks b = find_blocks(d);
    size_t which = below(d, b.count + 1);
    size_t at = which < b.count ? b.at[which].from : d->size;

    return (struct part){ at, at };
}

/* A line of fields: a credential's, the session's, or the line of a file. */
static struct part any_line_of_fields(struct draft *d)
{
    struct blocks b = find_blocks(d);
    size_t which = below(d, LINES_BEFORE_FILES + b.count);

    return which < LINES_BEFORE_FILES ? line_at(d, which) : up_to(d, b.at[which - LINES_BEFORE_FILES].from, '\n');
}

/* A field of that line, without the tab or the newline behind it. */
static struct part any_field(struct draft *d, struct part line)
{
    struct part fields[8];
    size_t count = 0;

    for (size_t at = line.from; at < line.to && count < sizeof fields / sizeof *fields; at = fields[count++].to) {
        fields[count] = up_to(d, at, '\t');
        if (fields[count].to > line.to)
            fields[count].to = line.to;
    }
    if (count == 0)
        return line;
    struct part field = fields[below(d, count)];
    field.to--;
    return field;
}

static const char hex[] = "0123456789ABCDEF";

/* Bytes at which the rules for types, sizes, rights, FIDs and lengths part. */
static uint8_t telling_byte(struct draft *d)
{
    static const uint8_t bytes[] = {
        0x00, 0x01, 0x02, 0x03, 0x04, 0x05, 0x06, 0x07, 0x0B, 0x0C, 0x0E, 0x0F, 0x10, 0x14, 0x1E, 0x1F, 0x20, 0x28, 0x2A, 0x2C, 0x2E,
        0x30, 0x38, 0x39, 0x3A, 0x3F, 0x40, 0x41, 0x42, 0x43, 0x44, 0x47, 0x7F, 0x80, 0x81, 0x82, 0x83, 0x86, 0xB2, 0xB3, 0xC0, 0xC1,
        0xC2, 0xC3, 0xC4, 0xC6, 0xC7, 0xFE, 0xFF
    };

    return below(d, 4) > 0 ? bytes[below(d, sizeof bytes)] : (uint8_t)below(d, 256);
}

static void change_bytes(struct draft *d)
{
#ifndef BY_ITSELF
    d->size = LLVMFuzzerMutate(d->at, d->size, d->room);
#else
    static const uint8_t likely[] = "\t\n\r -0123456789ABCDEFaf";
    size_t at = below(d, d->size + 1), gone = at < d->size && below(d, 2) > 0;
    uint8_t byte = below(d, 2) > 0 ? likely[below(d, sizeof likely)] : (uint8_t)below(d, 256);
    put(d, (struct part){ at, at + gone }, &byte, below(d, 4) > 0);
#endif
}

/* One digit becomes another, and the text keeps its form. */
static void change_digit(struct draft *d)
{
    size_t at = below(d, d->size);

    while (at < d->size && (d->at[at] == 0 || strchr(hex, d->at[at]) == NULL))
        at++;
    if (at < d->size)
        d->at[at] = (uint8_t)hex[below(d, 16)];
}

/* Two digits that stand for one byte of a field, or of a line of contents. */
static void change_byte_in_hex(struct draft *d)
{
    struct part p = below(d, 2) > 0 ? any_field(d, any_line_of_fields(d)) : any_line(d);
    size_t bytes = (p.to - p.from) / 2;
    uint8_t byte = telling_byte(d);

    if (bytes > 0) {
        size_t at = p.from + 2 * below(d, bytes);
        d->at[at] = (uint8_t)hex[byte >> 4];
        d->at[at + 1] = (uint8_t)hex[byte & 15];
    }
}

static void change_field(struct draft *d)
{
    static const char *const values[] = {
        "", "-", "0", "1", "2", "3", "9", "10", "00", "01", "+1", "-1", " 1", "127", "128", "129", "178", "179", "253", "254", "255",
        "256", "257", "4095", "4096", "4097", "65535", "65536", "4294967296", "18446744073709551616", "3F00", "0101", "313233343536"
    };
    char number[16];

    snprintf(number, sizeof number, "%u", below(d, below(d, 2) > 0 ? 16 : 300));
    put_string(d, any_field(d, any_line_of_fields(d)), below(d, 2) > 0 ? number : values[below(d, sizeof values / sizeof *values)]);
}

/* A field of hex becomes its first byte, so many times. */
static void resize_field(struct draft *d)
{
    enum { MOST = 18 };
    struct part field = any_field(d, any_line_of_fields(d));
    uint8_t digits[2 * MOST];
    size_t count = below(d, MOST + 1);

    if (field.to - field.from < 2)
        return;
    for (size_t i = 0; i < 2 * count; i++)
        digits[i] = d->at[field.from + i % 2];
    put(d, field, digits, 2 * count);
}

/* Limit and tries of a credential together, since each alone is seldom sound beside the other. */
static void change_tries(struct draft *d)
{
    static const unsigned edges[] = { 0, 1, 2, 127, 128, 129, 255, 256, 65535, 65536 };
    struct part line = line_at(d, below(d, CREDENTIALS)), value = up_to(d, line.from, '\t');
    unsigned limit = below(d, 2) > 0 ? edges[below(d, sizeof edges / sizeof *edges)] : below(d, 130);
    unsigned tries = below(d, 2) > 0 ? limit : below(d, 2) > 0 ? below(d, limit + 1) : limit + 1;
    char fields[32];

    snprintf(fields, sizeof fields, "%u\t%u\n", limit, tries);
    if (value.to < line.to)
        put_string(d, (struct part){ value.to, line.to }, fields);
}

/* Mode and waiting bytes together: sound as a rule, at an edge now and then. */
static void change_waiting(struct draft *d)
{
    enum { MOST = WAITING_ROOM + 1 };
    static const unsigned edges[] = { 0, 1, 2, 16, WAITING_ROOM - 1, WAITING_ROOM, MOST };
    struct part line = line_at(d, LINES_BEFORE_FILES - 1), mode = { line.from, line.from };
    unsigned count = below(d, 2) > 0 ? edges[below(d, sizeof edges / sizeof *edges)] : below(d, 24);
    char fields[2 + 2 * MOST + 2] = "1\t";
    size_t length = 2;

    for (int i = 0; i < FIELDS_BEFORE_MODE; i++)
        mode = up_to(d, mode.to, '\t');
    struct part waiting = up_to(d, up_to(d, mode.to, '\t').to, '\t');
    if (waiting.to >= line.to)
        return;
    if (below(d, 4) == 0) {
        fields[0] = '0';
        count = below(d, 4) == 0 ? count : 0;
    }
    for (unsigned i = 0; i < 2 * count; i++)
        fields[length++] = hex[below(d, 16)];
    if (count == 0)
        fields[length++] = '-';
    put(d, (struct part){ mode.to, waiting.to - 1 }, fields, length);
}

/* What other writers of lines might do: other ends of lines, other blanks, small letters. */
static void change_form(struct draft *d)
{
    static const char *const ends[] = { "\r\n", "\n\n", "", " \n", "\t\n" }, *const blanks[] = { " ", "\t\t", "", "\t ", "," };
    size_t at = below(d, d->size);

    while (at < d->size && strchr("\t\nABCDEF", d->at[at]) == NULL)
        at++;
    if (at == d->size || d->at[at] == 0)
        return;
    if (d->at[at] == '\n')
        put_string(d, (struct part){ at, at + 1 }, ends[below(d, sizeof ends / sizeof *ends)]);
    else if (d->at[at] == '\t')
        put_string(d, (struct part){ at, at + 1 }, blanks[below(d, sizeof blanks / sizeof *blanks)]);
    else
        d->at[at] += 'a' - 'A';
}

static void add_field(struct draft *d)
{
    struct part field = any_field(d, any_line_of_fields(d));
    char added[] = "\t0";

    added[1] = hex[below(d, 16)];
    put_string(d, (struct part){ field.to, field.to }, added);
}

static void remove_part(struct draft *d, struct part p)
{
    put(d, p, NULL, 0);
}

/* Puts a copy of a part at that place, where it fits. */
static bool copy_part(struct draft *d, struct part p, size_t to)
{
    uint8_t copy[LONGEST_INPUT];

    if (p.to - p.from > sizeof copy)
        return false;
    memcpy(copy, d->at + p.from, p.to - p.from);
    return put(d, (struct part){ to, to }, copy, p.to - p.from);
}

static void move_part(struct draft *d, struct part p, size_t to)
{
    size_t size = p.to - p.from;

    if ((p.from <= to && to < p.to) || !copy_part(d, p, to))
        return;
    if (to < p.from)
        p = (struct part){ p.from + size, p.to + size };
    remove_part(d, p);
}

static void remove_line(struct draft *d)
{
    remove_part(d, any_line(d));
}

static void copy_line(struct draft *d)
{
    copy_part(d, any_line(d), any_line(d).from);
}

static void move_line(struct draft *d)
{
    move_part(d, any_line(d), any_line(d).from);
}

static void remove_block(struct draft *d)
{
    remove_part(d, any_block(d));
}

static void move_block(struct draft *d)
{
    move_part(d, any_block(d), between_blocks(d).from);
}

/* The copy may have the FID of another file, or of none. */
static void copy_block(struct draft *d)
{
    size_t to = between_blocks(d).from;
    char fid[5];

    snprintf(fid, sizeof fid, "%04X", 0x0100 + below(d, 34));
    if (copy_part(d, any_block(d), to) && to + 4 <= d->size)
        memcpy(d->at + to, fid, 4);
}

/* The bytes that the lines of contents stand for. */
static unsigned count_contents(const struct draft *d)
{
    struct blocks b = find_blocks(d);
    size_t bytes = 0;

    for (size_t i = 0; i < b.count; i++)
        for (struct part line = up_to(d, b.at[i].from, '\n'); line.to < b.at[i].to; bytes += (line.to - line.from) / 2)
            line = up_to(d, line.to, '\n');
    return (unsigned)bytes;
}

/* Mostly few; or at an edge of the rules, or what is left of the area, or one more. */
static unsigned any_size(struct draft *d)
{
    static const unsigned edges[] = { 0, 1, 2, 31, 32, 33, 64, 179, 180, 255, 256, 257, 4095, 4096, 4097 };
    unsigned taken = count_contents(d);

    switch (below(d, 8)) {
    case 0:
        return edges[below(d, sizeof edges / sizeof *edges)];
    case 1:
        return taken < LIMPET_AREA_SIZE ? LIMPET_AREA_SIZE - taken + below(d, 2) : 1;
    case 2:
        return below(d, 300);
    default:
        return 1 + below(d, 16);
    }
}

static unsigned any_count(struct draft *d)
{
    static const uint8_t edges[] = { 0, 1, 2, 177, 178, 179, 180, 253, 254, 255 };

    return below(d, 4) > 0 ? 1 + below(d, 16) : edges[below(d, sizeof edges)];
}

/* Puts lengths of records before so many bytes, and returns how many of them are used. A few lengths are bad. */
static unsigned part_in_records(struct draft *d, uint8_t *bytes, unsigned size)
{
    static const uint8_t edges[] = { 0, 1, 177, 178, 179, 180 };
    unsigned used = 0;

    while (used + 2 <= size && below(d, 8) > 0) {
        unsigned most = size - used - 1, length = edges[below(d, sizeof edges)];
        if (length > most || below(d, 4) > 0)
            length = 1 + below(d, most < 178 ? most : 178);
        bytes[used] = (uint8_t)length;
        used += 1 + length;
    }
    return used;
}

/* Contents in hex, 32 bytes a line. */
static size_t put_contents(char *to, const uint8_t *bytes, unsigned size)
{
    size_t length = 0;

    for (unsigned i = 0; i < size; i++) {
        to[length++] = hex[bytes[i] >> 4];
        to[length++] = hex[bytes[i] & 15];
        if (i % 32 == 31 || i + 1 == size)
            to[length++] = '\n';
    }
    return length;
}

static unsigned any_right(struct draft *d)
{
    static const uint8_t rights[] = {
        0x00, 0x01, 0x03, 0x0F, 0x40, 0x41, 0x42, 0x43, 0x80, 0x81, 0x82, 0x83, 0xC0, 0xC1, 0xC2, 0xC3
    };

    return rights[below(d, sizeof rights)];
}

/* Of a file: now and then with bit 3, which is bad with 0F alone and where nothing is left to choose from. */
static unsigned any_file_right(struct draft *d)
{
    unsigned right = any_right(d);

    return below(d, 3) == 0 && (right != 0x0F || below(d, 8) == 0) ? right ^ 0x04 : right;
}

/* A file with as many bytes as its line says, sound as a rule. */
static void add_file(struct draft *d)
{
    enum { MOST = LIMPET_AREA_SIZE + 1, HEAD = 64 };
    static const uint8_t types[] = { 0x28, 0x2A, 0x2C, 0x2E };
    uint8_t bytes[MOST];
    char home[FID_LENGTH + 1];
    char text[HEAD + 2 * MOST + MOST / 32 + 1];
    unsigned type = below(d, 16) > 0 ? types[below(d, 4)] : telling_byte(d), counted = 0, newest = 0;
    unsigned size = any_size(d), size1 = size >> 8 & 255, size2 = size & 255;

    if (type != 0x28 && type != 0x2C) {
        size1 = any_count(d);
        size2 = any_count(d);
        size = size1 * size2;
    }
    if (size > MOST)
        return;
    for (unsigned i = 0; i < size; i++)
        bytes[i] = telling_byte(d);
    if (type == 0x2C)
        counted = part_in_records(d, bytes, size);
    if (type == 0x2E && (counted = below(d, size1 + 1)) > 0)
        newest = below(d, size1);
    any_home(d, home);
    int head = snprintf(text, HEAD, "%04X\t%02X%02X%02X%02X%02X\t%u\t%u\t%s\n", 0x0100 + 1 + below(d, 30), type, size1, size2,
                        any_file_right(d), any_file_right(d), counted, newest, home);
    struct part place = between_blocks(d);
    for (int i = 0; i < 4 && place.from + FOLDER_LENGTH <= d->size && d->at[place.from + FOLDER_LENGTH - 1] == '\n'; i++)
        place.from = place.to = place.from + FOLDER_LENGTH; /* behind the folders */
    put(d, place, text, (size_t)head + put_contents(text + head, bytes, size));
}

/* A folder before all others or behind them; its FID may be that of another, or of a file. */
static void add_folder(struct draft *d)
{
    struct blocks b = find_blocks(d);
    char text[FOLDER_LENGTH + 1];
    size_t at = line_at(d, LINES_BEFORE_FILES - 1).to;

    if (below(d, 2) > 0)
        for (size_t i = 0; i < b.count && is_folder(b.at[i]); i++)
            at = b.at[i].to;
    snprintf(text, sizeof text, "%04X\t%02X\n", (below(d, 4) > 0 ? 0x5100u : 0x0100u) + below(d, 33),
             below(d, 8) > 0 ? any_right(d) : telling_byte(d));
    put(d, (struct part){ at, at }, text, FOLDER_LENGTH);
}

/* Another folder at the end of the session's line or of a file's. */
static void change_home(struct draft *d)
{
    struct part line = below(d, 3) == 0 ? line_at(d, LINES_BEFORE_FILES - 1) : any_line_of_fields(d);
    char home[FID_LENGTH + 1];

    if (line.to - line.from <= FOLDER_LENGTH)
        return;
    any_home(d, home);
    put(d, (struct part){ line.to - 1 - FID_LENGTH, line.to - 1 }, home, FID_LENGTH);
}

/* The session's line and those of files, or one of them, in the other form: without a folder, or with the root. */
static void change_to_other_form(struct draft *d)
{
    size_t number = 0;
    bool all = below(d, 4) > 0;

    for (size_t at = 0; at < d->size; number++) {
        struct part line = up_to(d, at, '\n');
        unsigned tabs = 0;
        for (size_t i = line.from; i < line.to; i++)
            tabs += d->at[i] == '\t';
        bool has_home = number == LINES_BEFORE_FILES - 1 ? tabs == 7 : number >= LINES_BEFORE_FILES && tabs == 4;
        bool has_none = number == LINES_BEFORE_FILES - 1 ? tabs == 6 : number >= LINES_BEFORE_FILES && tabs == 3;
        if (has_home && line.to - line.from > FID_LENGTH + 2 && (all || below(d, 2) > 0))
            remove_part(d, (struct part){ line.to - FID_LENGTH - 2, line.to - 1 });
        else if (has_none && (all || below(d, 2) > 0))
            put_string(d, (struct part){ line.to - 1, line.to - 1 }, "\t3F00");
        at = up_to(d, at, '\n').to;
    }
}

/* Without the lines of folders. */
static void remove_folders(struct draft *d)
{
    for (struct blocks b = find_blocks(d); b.count > 0 && is_folder(b.at[0]); b = find_blocks(d))
        remove_part(d, b.at[0]);
}

/* Some file becomes current, or none; and as a rule the folder that it lies in. */
static void change_current(struct draft *d)
{
    struct blocks b = find_blocks(d);
    struct part line = line_at(d, LINES_BEFORE_FILES - 1), current = { line.from, line.from };
    uint8_t fid[FID_LENGTH];

    for (int i = 0; i < 4; i++)
        current = up_to(d, current.to, '\t');
    if (current.to == current.from || current.to > line.to)
        return;
    current.to--;
    if (b.count == 0 || below(d, 4) == 0) {
        put_string(d, current, "-");
        return;
    }
    size_t from = b.at[below(d, b.count)].from, end = up_to(d, from, '\n').to;
    if (end - from <= FOLDER_LENGTH || line.to - line.from <= FOLDER_LENGTH)
        return;
    if (below(d, 8) > 0)
        memcpy(d->at + line.to - 1 - sizeof fid, d->at + end - 1 - sizeof fid, sizeof fid);
    memcpy(fid, d->at + from, sizeof fid);
    put(d, current, fid, sizeof fid);
}

static void cut_off(struct draft *d)
{
    d->size = below(d, d->size + 1);
}

size_t LLVMFuzzerCustomMutator(uint8_t *data, size_t size, size_t room, unsigned seed)
{
    static void (*const changes[])(struct draft *) = {
        change_bytes, change_bytes, change_digit, change_digit, change_byte_in_hex, change_byte_in_hex, change_field, change_field,
        resize_field, change_tries, change_waiting, change_waiting, change_form, add_field, remove_line, copy_line, move_line,
        remove_block, remove_block, move_block,
        copy_block, add_file, add_file, add_folder, add_folder, change_home, change_home, change_current, change_current, cut_off,
        change_to_other_form, change_to_other_form, remove_folders
    };
    struct draft d = { data, size, room, seed * 2654435761u | 1u };

    below(&d, 1); /* so that seeds that are close to each other do not choose alike */
    changes[below(&d, sizeof changes / sizeof *changes)](&d);
    return d.size;
}

/* The beginning of one text, to a place between files, and the end of another from such a place on. */
size_t LLVMFuzzerCustomCrossOver(const uint8_t *one, size_t one_size, const uint8_t *other, size_t other_size,
                                 uint8_t *out, size_t room, unsigned seed)
{
    uint8_t end[LONGEST_INPUT];
    struct draft d = { out, one_size < room ? one_size : room, room, seed * 2654435761u | 1u };
    struct draft e = { end, other_size < sizeof end ? other_size : sizeof end, sizeof end, ~d.state | 1u };

    memcpy(out, one, d.size);
    memcpy(end, other, e.size);
    size_t from = between_blocks(&e).from;
    put(&d, (struct part){ between_blocks(&d).from, d.size }, end + from, e.size - from);
    return d.size;
}

#ifndef BY_ITSELF

/* ---------------------------------------------------------- for libFuzzer */

int LLVMFuzzerInitialize(int *count, char ***arguments)
{
    (void)count;
    (void)arguments;
    atexit(print_counts);
    return 0;
}

int LLVMFuzzerTestOneInput(const uint8_t *data, size_t size)
{
    if (size <= LONGEST_INPUT && !agree(data, size)) {
        print_counts();
        abort();
    }
    return 0;
}

#else

/* ------------------------------------------------------------- by itself */

static const char usage[] =
    "usage: fuzz_texts seeds FOLDER\n"
    "       fuzz_texts blind RUNS SECONDS FILE\n"
    "\n"
    "seeds: makes cards in use through the library and writes their texts into FOLDER, in\n"
    "the new form, and in the old one too where they have no directory.\n"
    "blind: changes these texts at random and gives them to the library and to plain C,\n"
    "RUNS times or until SECONDS have passed, and prints how many were run, accepted,\n"
    "refused and converted. A text of which the two do not say the same goes into FILE.\n";

struct text {
    uint8_t at[LONGEST_INPUT];
    size_t size;
};

static void stop(const char *what, const char *why)
{
    fprintf(stderr, "fuzz_texts: %s: %s\n", what, why);
    exit(EXIT_FAILURE);
}

/* One step in the making of the card with the longest text. */
static void told(struct held *h, const char *command)
{
    if (tell(h, command) != 0x9000)
        stop(command, "a command of a card in the making is refused");
}

/* No calls leave a challenge of 16 bytes and 256 bytes that wait, but there is such a card. */
static void have_all_wait(struct held *h)
{
    struct layout c;

    memcpy(&c, h->card.bytes, sizeof c);
    c.response.mode = 1;
    set_waiting_count(&c.response, WAITING_ROOM);
    memset(c.response.bytes, 0xA7, WAITING_ROOM);
    memcpy(h->card.bytes, &c, sizeof c);
}

/* All values and numbers are as long as can be, and so many files of these sizes take the most lines that the area's bytes can take. */
static void with_longest_text(struct held *h)
{
    struct order o = good_order();
    char command[64];

    o.admin_pin = o.user_pin = given_text("9876543210987654");
    o.device_limit = o.admin_limit = o.user_limit = o.transport_limit = 128;
    if (watched_issue(h, &o) != LIMPET_OK)
        stop("the longest text", "a good order is refused");
    told(h, "00 84 0000 10");
    told(h, "00 82 0000 10 69C4E0D86A7B0430D8CDB78070B4C55A");
    for (unsigned folder = 1; folder <= FOLDERS; folder++) {
        snprintf(command, sizeof command, "80 E0 %04X 05 38 0000 C1 00", 0xCD00 + folder);
        told(h, command);
    }
    for (unsigned sfi = 1; sfi <= 16; sfi++) {
        snprintf(command, sizeof command, "80 E0 %04X 05 2E %s 00 00", 0xAB00 + sfi, sfi == 16 ? "E201" : "8102");
        told(h, command);
        for (unsigned i = 0; i <= 100; i++)
            told(h, sfi == 16 ? "00 E2 0000 01 5B" : "00 E2 0000 02 5BA4");
    }
    told(h, "00 20 0000 10 39383736353433323130393837363534");
    told(h, "00 20 0001 10 39383736353433323130393837363534");
    told(h, "00 84 0000 10");
    have_all_wait(h);
}

enum { SEEDS = SORTS + 1 };

/* Makes it a text of the old form, where the card has no folder. */
static bool make_old(struct text *t)
{
    static struct text old;

    if (limpet_text_to_old(t->at, t->size, old.at, sizeof old.at, &old.size) != LIMPET_OK)
        return false;
    *t = old;
    return true;
}

static void make_seed(struct text *t, size_t which)
{
    struct held h = hold(NULL, LIMPET_AREA_SIZE);
    const char *name = which < SORTS ? sorts[which].name : "with the longest text";

    if (which < SORTS)
        sorts[which].make(&h);
    else
        with_longest_text(&h);
    if (wrongs > 0 || limpet_to_text((const struct limpet_card *)h.card.bytes, h.area.bytes, h.area.length,
                                     t->at, LIMPET_TEXT_SIZE, &t->size) != LIMPET_OK)
        stop(name, "there is no text of this card");
    let_go(&h);
    if (which >= SORTS && t->size != LIMPET_TEXT_SIZE)
        stop(name, "its text is not LIMPET_TEXT_SIZE bytes long");
}

static void save(const char *file, const struct text *t)
{
    FILE *to = fopen(file, "wb");

    if (to == NULL || fwrite(t->at, 1, t->size, to) != t->size || fclose(to) != 0)
        stop(file, strerror(errno));
}

static int write_seeds(const char *folder)
{
    static struct text t;
    char file[4096];

    for (size_t i = 0; i < SEEDS; i++) {
        make_seed(&t, i);
        if (snprintf(file, sizeof file, "%s/%zu", folder, i) >= (int)sizeof file - 4)
            stop(folder, "the name is too long");
        save(file, &t);
        if (make_old(&t)) {
            strcat(file, "-old");
            save(file, &t);
        }
    }
    return EXIT_SUCCESS;
}

/* Starts from the seeds. An accepted text takes the place of another, so that changes add up. */
static int run_blindly(unsigned long runs, double seconds, const char *file)
{
    enum { KEPT = 64 };
    static struct text kept[KEPT], t;
    struct draft choice = { .state = 2463534242u };
    unsigned long run = 0;
    double start = now();

    for (size_t i = 0; i < KEPT; i++)
        if (i < SEEDS)
            make_seed(&kept[i], i);
        else
            kept[i] = kept[i % SEEDS];
    for (size_t i = SEEDS; i < 2 * SEEDS && i < KEPT; i++)
        make_old(&kept[i]);
    for (; run < runs && (run % 256 != 0 || now() - start < seconds); run++) {
        const struct text *one = &kept[below(&choice, KEPT)], *other = &kept[below(&choice, KEPT)];
        unsigned long before = accepted + converted[FROM_OLD];
        t = *one;
        if (below(&choice, 16) == 0)
            t.size = LLVMFuzzerCustomCrossOver(one->at, one->size, other->at, other->size, t.at, sizeof t.at, choice.state);
        for (unsigned changes = 1 + below(&choice, 3); changes > 0; changes--)
            t.size = LLVMFuzzerCustomMutator(t.at, t.size, sizeof t.at, below(&choice, UINT32_MAX));
        if (!agree(t.at, t.size)) {
            save(file, &t);
            return EXIT_FAILURE;
        }
        if (accepted + converted[FROM_OLD] > before)
            kept[below(&choice, KEPT)] = t;
    }
    printf("inputs %lu\nseconds %.0f\n", run, now() - start);
    print_counts();
    return EXIT_SUCCESS;
}

/* 1 to 999,999,999, otherwise 0. */
static unsigned long read_number(const char *digits)
{
    size_t length = strspn(digits, "0123456789");

    return digits[length] == 0 && length <= 9 ? strtoul(digits, NULL, 10) : 0;
}

int main(int count, char **arguments)
{
    check_version();
    if (count == 3 && strcmp(arguments[1], "seeds") == 0)
        return write_seeds(arguments[2]);
    if (count == 5 && strcmp(arguments[1], "blind") == 0 && read_number(arguments[2]) > 0 && read_number(arguments[3]) > 0)
        return run_blindly(read_number(arguments[2]), (double)read_number(arguments[3]), arguments[4]);
    bool asked = count == 2 && strcmp(arguments[1], "--help") == 0;
    fputs(usage, asked ? stdout : stderr);
    return asked ? EXIT_SUCCESS : 2;
}

#endif
