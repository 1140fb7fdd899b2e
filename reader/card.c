#define _DEFAULT_SOURCE /* explicit_bzero */
#include "card.h"

#include <string.h>

#include "say.h"

/* The card's struct is not for C to know, so its room is bytes. */
static uint8_t kept[LIMPET_CARD_SIZE];
static uint8_t area[LIMPET_AREA_SIZE];
static uint8_t mode; /* seen where the card is issued or read, and never changed by a call */

static struct limpet_card *card(void)
{
    return (struct limpet_card *)kept;
}

bool card_fits(void)
{
    if (limpet_version() == LIMPET_VERSION && limpet_card_size() == LIMPET_CARD_SIZE)
        return true;
    say("the library and include/limpetnook.h are of different versions");
    return false;
}

uint8_t card_issue(const struct line *l)
{
    uint8_t outcome = limpet_issue(card(), area, sizeof area,
                                   l->key.at, l->key.len, l->device_limit,
                                   l->admin_pin.at, l->admin_pin.len, l->admin_limit,
                                   l->user_pin.at, l->user_pin.len, l->user_limit, l->mode,
                                   l->transport_key.at, l->transport_key.len, l->transport_limit);

    if (outcome == LIMPET_OK)
        mode = (uint8_t)l->mode;
    return outcome;
}

uint8_t card_reset(void)
{
    return limpet_reset(card(), area, sizeof area);
}

uint8_t card_mode(void)
{
    return mode;
}

uint8_t card_command(struct bytes command, struct bytes random, uint8_t *reply, size_t *count)
{
    return limpet_command(card(), area, sizeof area, command.at, command.len,
                          random.at, random.len, reply, LIMPET_REPLY_SIZE, count);
}

uint8_t card_store(struct bytes command, struct bytes random, size_t n, struct card_store *s)
{
    return limpet_store(card(), area, sizeof area, command.at, command.len, random.at, random.len, n, &s->address, &s->value, &s->given);
}

void card_copy(struct card_bytes *to)
{
    memcpy(to->at, kept, sizeof kept);
    memcpy(to->at + sizeof kept, area, sizeof area);
}

void card_replace(const struct card_bytes *by)
{
    memcpy(kept, by->at, sizeof kept);
    memcpy(area, by->at + sizeof kept, sizeof area);
}

uint8_t card_recover(void)
{
    return limpet_recover(card(), area, sizeof area);
}

uint8_t card_to_text(struct card_text *t)
{
    return limpet_to_text(card(), area, sizeof area, t->at, sizeof t->at, &t->len);
}

/* A reset only reads the area. */
uint8_t card_to_lasting_text(struct card_text *t)
{
    uint8_t powered[LIMPET_CARD_SIZE], outcome;

    memcpy(powered, kept, sizeof kept);
    outcome = card_reset();
    if (outcome == LIMPET_OK)
        outcome = card_to_text(t);
    memcpy(kept, powered, sizeof kept);
    wipe(powered, sizeof powered);
    return outcome;
}

/* Where the line with so many before it begins. */
static size_t line_behind(const struct card_text *t, int lines)
{
    size_t at = 0;

    for (int newlines = 0; at < t->len && newlines < lines; at++)
        newlines += t->at[at] == '\n';
    return at;
}

/* The session is the fifth line, and the mode its sixth field. */
static uint8_t mode_of(const struct card_text *t)
{
    size_t at = line_behind(t, 4);

    for (int tabs = 0; at < t->len && tabs < 5; at++)
        tabs += t->at[at] == '\t';
    return at < t->len && t->at[at] == '1';
}

uint8_t card_from_text(const struct card_text *t)
{
    uint8_t outcome = limpet_from_text(card(), area, sizeof area, t->at, t->len);

    if (outcome == LIMPET_OK)
        mode = mode_of(t);
    return outcome;
}

uint8_t card_text_into(enum text_form wanted, const struct card_text *given, struct card_text *t)
{
    return (wanted == NEW_FORM ? limpet_text_to_new : limpet_text_to_old)(given->at, given->len, t->at, sizeof t->at, &t->len);
}

/* What can be converted has the one form, and what has a directory the other. */
bool card_text_has(enum text_form form, const struct card_text *t)
{
    static struct card_text converted;
    uint8_t outcome = card_text_into(form == OLD_FORM ? NEW_FORM : OLD_FORM, t, &converted);

    wipe(&converted, sizeof converted);
    return outcome == LIMPET_OK || outcome == LIMPET_DIRECTORY;
}

/* Any key will do to see whether one is all that it lacks. */
bool card_text_lacks_key(const struct card_text *t)
{
    static const char key_line[] = "00000000000000000000000000000000\t1\t1\n";
    static struct card_text mended;
    size_t at = line_behind(t, 3), added = sizeof key_line - 1;
    bool lacks;

    if (t->len + added > sizeof mended.at)
        return false;
    memcpy(mended.at, t->at, at);
    memcpy(mended.at + at, key_line, added);
    memcpy(mended.at + at + added, t->at + at, t->len - at);
    mended.len = t->len + added;
    lacks = card_text_has(NEW_FORM, &mended) || card_text_has(OLD_FORM, &mended);
    wipe(&mended, sizeof mended);
    return lacks;
}

/* SELECT, READ BINARY, READ RECORD, GET RESPONSE, GET CHALLENGE. None of them is shown a key or a PIN. */
bool card_only_reads(struct bytes command)
{
    static const uint8_t reads[] = { 0xA4, 0xB0, 0xB2, 0xC0, 0x84 };

    return command.len >= 2 && command.at[0] == 0x00 && memchr(reads, command.at[1], sizeof reads) != NULL;
}

void card_wipe(void)
{
    wipe(kept, sizeof kept);
    wipe(area, sizeof area);
}

/* A plain memset of what is not read again the compiler may leave out. */
void wipe(void *at, size_t len)
{
    explicit_bzero(at, len);
}

const char *outcome_says(uint8_t outcome)
{
    static const char *const says[] = {
        [LIMPET_OK] = "served",
        [LIMPET_SHORT_REPLY] = "the reply buffer is too short",
        [LIMPET_BAD_AREA] = "the data area has the wrong length",
        [LIMPET_BAD_RANDOM] = "the random input is not 16 bytes",
        [LIMPET_UNSOUND] = "the card's state is not sound",
        [LIMPET_BAD_ISSUE] = "a key is not 16 bytes, a PIN not 6 to 16 digits, a limit not 1 to 128, or the mode not 0 or 1",
        [LIMPET_SHORT_TEXT] = "the room for the card's lines is too short",
        [LIMPET_BAD_TEXT] = "these are not the lines of a sound card",
        [LIMPET_DIRECTORY] = "the card has a directory, and the old form has none",
    };
    bool known = outcome < sizeof says / sizeof says[0] && says[outcome] != NULL;
    return known ? says[outcome] : "an outcome that does not exist";
}
