/*
 * What an outsider can learn, request R-11. A script is played on one card. Beside
 * it stand pairs of cards, each pair alike in all but one secret: the bytes of one
 * file, or the value of one credential. A pair begins as a copy of the script's card
 * and is given the script's next lines, and commands of its own that aim at its
 * secret. Both cards of a pair have to give the same outcome, reply and count, and
 * have to stay alike in all but the secret.
 *
 * A READ of the file by its read right, and a presentation that is right on one card
 * of the pair alone, are no outsider's. The pair is not given them: they are tried on
 * a copy, where they have to tell the two apart, and be forgotten by what comes next.
 */
#include <inttypes.h>
#include <stdbool.h>
#include <stdio.h>
#include <stdlib.h>
#include <string.h>

#include "asked.h"
#include "coded.h"
#include "groups.h"
#include "play.h"

enum { NO_SECRET_FILE = FILES, REPLY_ROOM = LIMPET_REPLY_SIZE + 6 };

static void usage(FILE *to)
{
    fputs("usage: outsider [--first] [--least N] <SCRIPT\n"
          "\n"
          "Plays a script on pairs of cards that differ in one secret, and compares them after\n"
          "every call. What is wrong goes to standard error, and the exit status is then 1.\n"
          "\n"
          "  --first    ends at the first thing that is wrong\n"
          "  --least N  every kind of call has to have been met, so many times at least\n", to);
}

/* ---- what was met ---- */

/* Of the four types of files in a row. */
enum { TYPES = 4 };

enum {
    READ_REFUSED, READ_INSIDE = READ_REFUSED + TYPES, READ_NEVER, READ_WITHOUT_CODE, READ_WITH_CODE,
    UPDATED, UPDATED_WITH_CODE = UPDATED + TYPES, UPDATE_WITH_SAME, APPENDED_2C, APPENDED_2E, APPENDED_FULL, NO_SUCH_RECORD, SELECTED,
    SHOWN, FORGOTTEN_BY_RESET = SHOWN + TYPES, FORGOTTEN_BY_COMMAND, FORGOTTEN_IN_PARTS, SESSION_FORGOTTEN,
    RESET_GIVEN, FETCHED, CHALLENGED, CREATED, LOGGED_IN, GUESSED, NOT_SERVED, WITH_CODE,
    WRONG_ON_BOTH, RIGHT_ON_ONE = WRONG_ON_BOTH + CREDENTIALS, RIGHT_ON_BOTH = RIGHT_ON_ONE + CREDENTIALS,
    BLOCKED_AND_RIGHT = RIGHT_ON_BOTH + 2, CHANGED, RELOADED, TALLIES
};

#define OF_EACH_TYPE(tally, words) \
    [tally] = words " 28", [tally + 1] = words " 2A", [tally + 2] = words " 2C", [tally + 3] = words " 2E"
#define OF_EACH_CREDENTIAL(tally, words) \
    [tally + DEVICE] = words "device key", [tally + ADMIN] = words "admin PIN", \
    [tally + USER] = words "user PIN", [tally + TRANSPORT] = words "transport key"

static const char *const tally_names[TALLIES] = {
    OF_EACH_TYPE(READ_REFUSED, "reads refused by the read right, of type"),
    [READ_INSIDE] = "reads refused inside a directory",
    [READ_NEVER] = "reads refused of a file that is closed to everybody",
    [READ_WITHOUT_CODE] = "reads refused by the code alone",
    [READ_WITH_CODE] = "reads with a right code, refused by the right",
    OF_EACH_TYPE(UPDATED, "updates of what may not be read, of type"),
    [UPDATED_WITH_CODE] = "updates and appends with a code of what may not be read",
    [UPDATE_WITH_SAME] = "updates of what may not be read, by what one card has there already",
    [APPENDED_2C] = "appends to what may not be read, of type 2C",
    [APPENDED_2E] = "appends to what may not be read, of type 2E",
    [APPENDED_FULL] = "appends to a full file that may not be read",
    [NO_SUCH_RECORD] = "updates of a record that is not there",
    [SELECTED] = "the file selected",
    OF_EACH_TYPE(SHOWN, "reads by right that show the difference, of type"),
    [FORGOTTEN_BY_RESET] = "such reads forgotten by a reset",
    [FORGOTTEN_BY_COMMAND] = "such reads forgotten by a command",
    [FORGOTTEN_IN_PARTS] = "such reads forgotten with a part fetched",
    [SESSION_FORGOTTEN] = "sessions of two kinds forgotten by a reset",
    [RESET_GIVEN] = "resets",
    [FETCHED] = "GET RESPONSE with data",
    [CHALLENGED] = "challenges",
    [CREATED] = "files and directories made",
    [LOGGED_IN] = "right presentations of what is no secret",
    [GUESSED] = "wrong presentations of what is no secret",
    [NOT_SERVED] = "calls that are not served",
    [WITH_CODE] = "commands with a right code",
    OF_EACH_CREDENTIAL(WRONG_ON_BOTH, "wrong on both: "),
    OF_EACH_CREDENTIAL(RIGHT_ON_ONE, "right on one, and so told apart: "),
    [RIGHT_ON_BOTH] = "right on both: admin PIN",
    [RIGHT_ON_BOTH + 1] = "right on both: user PIN",
    [BLOCKED_AND_RIGHT] = "the value itself, of a blocked credential",
    [CHANGED] = "the secret PIN changed",
    [RELOADED] = "the secret PIN reloaded",
};

static unsigned long tallies[TALLIES];

static void met(size_t tally)
{
    tallies[tally]++;
}

static size_t type_of(const struct file *f)
{
    return (f->type - 0x28u) / 2;
}

/* ---- calls ---- */

struct world {
    struct layout card;
    uint8_t area[LIMPET_AREA_SIZE];
};

struct call {
    bool is_reset;
    uint8_t command[LONGEST_HEX], random[LONGEST_HEX];
    size_t length, random_length, reply_length;
};

struct said {
    uint8_t outcome;
    limpet_size count;
    uint8_t reply[REPLY_ROOM];
};

static struct said give(struct world *w, const struct call *c)
{
    struct said s = { .count = 0 };

    calls++;
    memset(s.reply, 0xE5, sizeof s.reply);
    if (c->is_reset)
        s.outcome = limpet_reset((struct limpet_card *)&w->card, w->area, sizeof w->area);
    else
        s.outcome = limpet_command((struct limpet_card *)&w->card, w->area, sizeof w->area, c->command, c->length,
                                   c->random, c->random_length, s.reply, c->reply_length, &s.count);
    return s;
}

static bool is_served(const struct call *c)
{
    return c->is_reset || (c->random_length == LIMPET_RANDOM_SIZE && c->reply_length >= LIMPET_REPLY_SIZE);
}

static bool is_of(const struct call *c, uint8_t cla, uint8_t ins)
{
    return !c->is_reset && is_command(c->command, c->length, cla, ins);
}

static unsigned word_of(const struct said *s)
{
    return s->outcome == LIMPET_OK && 2 <= s->count && s->count <= LIMPET_REPLY_SIZE
        ? 256u * s->reply[s->count - 2] + s->reply[s->count - 1] : 0;
}

/* "61 and the waiting length, which counts as 9000." */
static bool is_done(unsigned word)
{
    return word == 0x9000 || word >> 8 == 0x61;
}

/* ---- commands ---- */

static void random_bytes(uint8_t *bytes, size_t length)
{
    for (size_t i = 0; i < length; i++)
        bytes[i] = (uint8_t)random_below(256);
}

static struct call new_call(void)
{
    struct call c = { .random_length = LIMPET_RANDOM_SIZE, .reply_length = REPLY_ROOM };

    random_bytes(c.random, c.random_length);
    return c;
}

static struct call case_1(uint8_t cla, uint8_t ins, uint8_t p1, uint8_t p2)
{
    struct call c = new_call();

    memcpy(c.command, (uint8_t[]){ cla, ins, p1, p2 }, 4);
    c.length = 4;
    return c;
}

static struct call case_2(uint8_t ins, uint8_t p1, uint8_t p2, uint8_t le)
{
    struct call c = case_1(0x00, ins, p1, p2);

    c.command[c.length++] = le;
    return c;
}

static struct call case_3(uint8_t ins, uint8_t p1, uint8_t p2, const uint8_t *data, size_t length)
{
    struct call c = case_2(ins, p1, p2, (uint8_t)length);

    memcpy(c.command + c.length, data, length);
    c.length += length;
    return c;
}

static struct call reset_call(void)
{
    return (struct call){ .is_reset = true };
}

static struct call challenge_call(void)
{
    static const uint8_t les[] = { 4, 8, 16 };

    return case_2(GET_CHALLENGE, 0, 0, les[random_below(sizeof les)]);
}

/* A read, update or append of class 00 with its code for a card, which is right under that card's transport key. */
static void put_code(struct call *c, const struct layout *card)
{
    bool reads = is_reading(c->command, c->length);
    uint8_t le = c->command[4];
    size_t covered = reads ? 5 : c->length;

    c->command[0] = 0x04;
    c->command[4] = (uint8_t)(covered - 5 + LIMPET_CODE_SIZE);
    code_for(card, c->command, covered, c->command + covered);
    c->length = covered + LIMPET_CODE_SIZE;
    if (reads)
        c->command[c->length++] = le;
}

/* ---- pairs ---- */

/* The secret is a run of bytes: of the card, where it is the value of a credential and its length, or of the area, where it is a file's. */
struct pair {
    bool is_there;
    bool is_whole;      /* the secrets differ in every byte, and nothing was written over them */
    unsigned left;      /* so many lines are still to come */
    size_t file;        /* NO_SECRET_FILE for a credential's */
    size_t credential;
    size_t card_from, card_to, area_from, area_to;
    struct world worlds[2];
};

static struct pair pairs[FILES + CREDENTIALS];

static bool is_of_file(const struct pair *p)
{
    return p->file != NO_SECRET_FILE;
}

static const struct file *secret_file(const struct pair *p)
{
    return &p->worlds[0].card.directory.files[p->file];
}

/* What this is about, for a report. */
static const char *name_of(const struct pair *p)
{
    static char name[80];

    if (is_of_file(p))
        snprintf(name, sizeof name, "bytes of file %zu, of type %02X and read right %02X", p->file, secret_file(p)->type, secret_file(p)->read);
    else
        snprintf(name, sizeof name, "%s", field_name(field_at(p->card_from)));
    return name;
}

static size_t first_difference(const uint8_t *one, const uint8_t *other, size_t from, size_t to)
{
    while (from < to && one[from] == other[from])
        from++;
    return from;
}

static bool are_equal(const void *one, const void *other, size_t from, size_t to)
{
    return memcmp((const uint8_t *)one + from, (const uint8_t *)other + from, to - from) == 0;
}

static void check_card(const struct pair *p)
{
    const uint8_t *one = (const uint8_t *)&p->worlds[0].card, *other = (const uint8_t *)&p->worlds[1].card;
    size_t place;

    if (are_equal(one, other, 0, p->card_from) && are_equal(one, other, p->card_to, LIMPET_CARD_SIZE))
        return;
    place = first_difference(one, other, 0, p->card_from);
    if (place == p->card_from)
        place = first_difference(one, other, p->card_to, LIMPET_CARD_SIZE);
    wrong("%s: the cards of a pair differ in more than their secret: %s", name_of(p), field_name(field_at(place)));
}

static void check_area(const struct pair *p)
{
    const uint8_t *one = p->worlds[0].area, *other = p->worlds[1].area;

    if (!are_equal(one, other, 0, p->area_from) || !are_equal(one, other, p->area_to, LIMPET_AREA_SIZE))
        wrong("%s: the areas of a pair differ in more than their secret", name_of(p));
    if (!is_of_file(p) || secret_file(p)->type != 0x2C)
        return;
    for (size_t at = p->area_from, end = at + used_bytes(secret_file(p)); at < end; at += 1u + one[at])
        if (one[at] != other[at]) {
            wrong("%s: the lengths of the notes of a pair differ", name_of(p));
            return;
        }
}

static void check_alike(const struct pair *p)
{
    check_card(p);
    check_area(p);
}

static void check_same(const struct pair *p, const struct said said[2])
{
    const struct said *a = &said[0], *b = &said[1];

    if (a->outcome != b->outcome)
        wrong("%s: outcome %u and outcome %u", name_of(p), a->outcome, b->outcome);
    else if (a->count != b->count)
        wrong("%s: a reply of %" PRIu64 " bytes and one of %" PRIu64, name_of(p), a->count, b->count);
    else if (word_of(a) != word_of(b))
        wrong("%s: status words %04X and %04X", name_of(p), word_of(a), word_of(b));
    else if (!are_equal(a->reply, b->reply, 0, sizeof a->reply))
        wrong("%s: replies of the same length differ, or the bytes behind them", name_of(p));
}

static void check_sound(const struct pair *p)
{
    for (size_t i = 0; i < 2; i++)
        if (!is_sound((const uint8_t *)&p->worlds[i].card, p->worlds[i].area))
            wrong("%s: a card of a pair is not sound", name_of(p));
}

static void give_same(struct pair *p, const struct call *c)
{
    struct said said[2] = { give(&p->worlds[0], c), give(&p->worlds[1], c) };

    check_same(p, said);
}

/* A pair of which something was wrong is there no longer. */
static void end_at_wrong(struct pair *p, unsigned long wrongs_before)
{
    p->is_there = wrongs == wrongs_before;
    if (!p->is_there && ends_at_first)
        exit(EXIT_FAILURE);
}

/* Other bytes for the second card: all others, or one bit alone. */
static void part_bytes(struct pair *p, uint8_t *bytes, const bool *stays, size_t length)
{
    size_t one = random_below((uint32_t)length);

    p->is_whole = random_below(4) != 0;
    for (size_t i = 0; i < length; i++)
        if (!stays[i])
            bytes[i] ^= p->is_whole ? (uint8_t)(1 + random_below(255)) : i == one ? (uint8_t)(1u << random_below(8)) : 0;
}

/* The bytes of a file, its length bytes apart; half of the pairs have a content that no script has written. */
static void part_file(struct pair *p, size_t file)
{
    bool stays[LIMPET_AREA_SIZE] = { false };
    const struct file *f = &p->worlds[0].card.directory.files[file];
    uint8_t *bytes = p->worlds[0].area;
    bool is_made_up = random_below(2) == 0;

    p->file = file;
    p->area_from = file_start(&p->worlds[0].card, file);
    p->area_to = p->area_from + file_size(f);
    for (size_t at = p->area_from; f->type == 0x2C && at < p->area_from + used_bytes(f); at += 1u + bytes[at])
        stays[at] = true;
    for (size_t at = p->area_from; at < p->area_to && is_made_up; at++)
        if (!stays[at])
            bytes[at] = (uint8_t)random_below(256);
    memcpy(p->worlds[1].area, bytes, LIMPET_AREA_SIZE);
    part_bytes(p, p->worlds[1].area + p->area_from, stays + p->area_from, p->area_to - p->area_from);
}

static void random_pin(struct credential *x, uint8_t length)
{
    memset(x->value, 0, sizeof x->value);
    x->length = length;
    for (size_t i = 0; i < length; i++)
        x->value[i] = (uint8_t)(0x30 + random_below(10));
}

static void another_pin(struct credential *x)
{
    uint32_t way = random_below(3);

    if (way == 0) {
        uint8_t *digit = &x->value[random_below(x->length)];
        *digit = (uint8_t)(0x30 + (*digit - 0x30 + 1 + random_below(9)) % 10);
    } else {
        random_pin(x, way == 1 ? x->length : (uint8_t)(6 + random_below(11)));
    }
}

static bool same_value(const struct credential *x, const struct credential *y)
{
    return x->length == y->length && memcmp(x->value, y->value, sizeof x->value) == 0;
}

/* Half of the pairs have a value that no script presents. */
static void part_credential(struct pair *p, size_t credential)
{
    static const bool stays[VALUE_ROOM];
    struct credential *one = &p->worlds[0].card.credentials[credential], *other = &p->worlds[1].card.credentials[credential];
    bool is_key = credential == DEVICE || credential == TRANSPORT;

    p->file = NO_SECRET_FILE;
    p->credential = credential;
    p->card_from = (size_t)((uint8_t *)one - (uint8_t *)&p->worlds[0].card);
    p->card_to = p->card_from + offsetof(struct credential, tries);
    if (random_below(2) == 0) {
        if (is_key)
            random_bytes(one->value, LIMPET_KEY_SIZE);
        else
            random_pin(one, (uint8_t)(6 + random_below(11)));
    }
    *other = *one;
    if (is_key)
        part_bytes(p, other->value, stays, LIMPET_KEY_SIZE);
    while (same_value(one, other))
        another_pin(other);
}

/* Any session that a sound card may have: rights with all their tries left, what is current, a challenge, and in mode 1 what waits. */
static void another_session(struct layout *card)
{
    size_t file = random_below(card->directory.count);

    memset(&card->session, 0, sizeof card->session);
    for (size_t i = 0; i < RIGHTS; i++)
        card->session.rights[i] = card->credentials[i].tries.left == card->credentials[i].tries.limit && random_below(2);
    card->session.current = random_below(2) ? (uint8_t)(file + 1) : 0;
    card->session.folder = card->session.current > 0 ? card->directory.files[file].folder : (uint8_t)random_below(card->directory.number + 1u);
    card->session.length = (uint8_t[]){ 0, 4, 8, 16 }[random_below(4)];
    random_bytes(card->session.challenge, card->session.length);
    card->response = (struct response){ .mode = card->response.mode };
    if (card->response.mode == 1) {
        set_waiting_count(&card->response, random_below(WAITING_ROOM + 1));
        random_bytes(card->response.bytes, waiting_count(&card->response));
    }
}

/* Whoever comes behind a reset finds nothing of what two others have left. */
static void reset_sessions(struct pair *p)
{
    struct call reset = reset_call();

    another_session(&p->worlds[0].card);
    another_session(&p->worlds[1].card);
    check_sound(p);
    give_same(p, &reset);
    check_alike(p);
    met(SESSION_FORGOTTEN);
}

/* Begins a pair as a copy of the script's card, in which nothing waits. */
static void begin_pair(struct pair *p, const struct player *script)
{
    size_t place = (size_t)(p - pairs);
    struct pair made = { .left = 20 + random_below(random_below(4) ? 100 : 600) };
    unsigned long wrongs_before = wrongs;

    memcpy(&made.worlds[0].card, script->card, LIMPET_CARD_SIZE);
    if (waiting_count(&made.worlds[0].card.response) > 0 || (place < FILES && place >= made.worlds[0].card.directory.count))
        return;
    memcpy(made.worlds[0].area, script->area, LIMPET_AREA_SIZE);
    made.worlds[1] = made.worlds[0];
    *p = made;
    if (place < FILES)
        part_file(p, place);
    else
        part_credential(p, place - FILES);
    check_sound(p);
    if (is_of_file(p) && random_below(4) == 0)
        reset_sessions(p);
    end_at_wrong(p, wrongs_before);
}

/* ---- what is no outsider's ---- */

/* A READ that addresses the file, with its read right satisfied, and by a command with a code where it asks for one. */
static bool reads_by_right(const struct pair *p, const struct call *c)
{
    const struct layout *card = &p->worlds[0].card;

    return is_reading(c->command, c->length) && named_file(card, c->command) == p->file && is_satisfied(card, secret_file(p)->read)
        && !(asks_code(secret_file(p)->read) && c->command[0] == 0x00);
}

static enum presentation presented_to(const struct world *w, const struct pair *p, const struct call *c)
{
    return presented(&w->card, p->credential, c->command, c->length);
}

static bool is_right_on_one(const struct pair *p, const struct call *c)
{
    return (presented_to(&p->worlds[0], p, c) == RIGHT_PRESENTATION) != (presented_to(&p->worlds[1], p, c) == RIGHT_PRESENTATION);
}

/* What a read by right has left is gone behind a reset and behind any other command, however much of it was fetched. */
static void check_forgotten(struct pair *p)
{
    unsigned waits = waiting_count(&p->worlds[0].card.response);
    bool by_reset = random_below(2) == 0;

    if (waits > 1 && random_below(2) == 0) {
        struct call part = case_2(GET_RESPONSE, 0, 0, (uint8_t)(1 + random_below(waits < 255 ? waits - 1 : 254)));
        give(&p->worlds[0], &part);
        give(&p->worlds[1], &part);
        met(FORGOTTEN_IN_PARTS);
    }
    struct call next = by_reset ? reset_call() : case_1(0x00, VERIFY, 0x00, 0x01);
    give_same(p, &next);
    check_alike(p);
    met(by_reset ? FORGOTTEN_BY_RESET : FORGOTTEN_BY_COMMAND);
}

/* On a copy: the status word is the same, and the data are each card's own. */
static void try_read(struct pair p, const struct call *c)
{
    struct said said[2] = { give(&p.worlds[0], c), give(&p.worlds[1], c) };
    const struct response *waiting[2] = { &p.worlds[0].card.response, &p.worlds[1].card.response };
    bool waits = waiting[0]->mode == 1;
    size_t count = waits ? waiting_count(waiting[0]) : said[0].count - 2;
    const uint8_t *one = waits ? waiting[0]->bytes : said[0].reply, *other = waits ? waiting[1]->bytes : said[1].reply;

    if (word_of(&said[0]) != word_of(&said[1]) || said[0].count != said[1].count)
        wrong("%s: a read by right has the status words %04X and %04X", name_of(&p), word_of(&said[0]), word_of(&said[1]));
    if (word_of(&said[0]) == 0x6982)
        wrong("%s: a read by right is refused by it", name_of(&p));
    if (!is_done(word_of(&said[0])))
        return;
    if (memcmp(one, other, count) != 0)
        met(SHOWN + type_of(secret_file(&p)));
    for (size_t i = 0; i < count && p.is_whole; i++)
        if (one[i] == other[i]) {
            wrong("%s: a read by right does not show its bytes", name_of(&p));
            break;
        }
    check_forgotten(&p);
}

static void try_presentation(struct pair p, const struct call *c)
{
    struct said said[2] = { give(&p.worlds[0], c), give(&p.worlds[1], c) };

    met(RIGHT_ON_ONE + p.credential);
    if (word_of(&said[0]) == word_of(&said[1]))
        wrong("%s: a right presentation and a wrong one are both answered %04X", name_of(&p), word_of(&said[0]));
}

/* ---- what is counted ---- */

/* A call on a pair that differs in a file: what it was, by the card before it and the status word. */
static void count_file_call(const struct pair *p, const struct layout *before, const struct call *c, unsigned word)
{
    const struct file *f = &before->directory.files[p->file];
    bool opened = is_satisfied(before, f->read), coded = is_coded(c->command, c->length);

    if (is_of(c, 0x00, SELECT) && word == 0x9000 && p->worlds[0].card.session.current == p->file + 1)
        met(SELECTED);
    if (!is_reading(c->command, c->length) && !is_writing(c->command, c->length))
        return;
    if (named_file(before, c->command) != p->file)
        return;
    if (is_reading(c->command, c->length)) {
        if (word == 0x6982 && !opened) {
            met(READ_REFUSED + type_of(f));
            if (f->folder != 0)
                met(READ_INSIDE);
            if (f->read == 0x0F)
                met(READ_NEVER);
            if (coded)
                met(READ_WITH_CODE);
        }
        if (word == 0x6982 && opened)
            met(READ_WITHOUT_CODE);
    } else if (!opened && word == 0x9000) {
        bool appends = c->command[1] == APPEND_RECORD;
        met(!appends ? UPDATED + type_of(f) : f->type == 0x2C ? APPENDED_2C : APPENDED_2E);
        if (appends && f->type == 0x2E && f->held == f->size1)
            met(APPENDED_FULL);
        if (coded)
            met(UPDATED_WITH_CODE);
    } else if (!opened && word == 0x6A83) {
        met(NO_SUCH_RECORD);
    }
}

static void count_credential_call(const struct pair *p, const struct call *c, const enum presentation is[2], unsigned word)
{
    uint8_t p2 = p->credential == USER;

    if (is[0] == WRONG_PRESENTATION && is[1] == WRONG_PRESENTATION)
        met(WRONG_ON_BOTH + p->credential);
    if (is[0] == RIGHT_PRESENTATION && (p->credential == ADMIN || p->credential == USER))
        met(RIGHT_ON_BOTH + p->credential - ADMIN);
    if (is_of(c, 0x00, CHANGE_PIN) && word == 0x9000 && c->command[3] == p2)
        met(CHANGED);
    if (is_of(c, 0x00, RELOAD_PIN) && word == 0x9000 && p->credential == USER)
        met(RELOADED);
}

static void count_call(const struct call *c, const struct said *s)
{
    unsigned word = word_of(s);
    bool logs_in = (is_of(c, 0x00, VERIFY) && c->length > 5) || is_of(c, 0x00, AUTHENTICATE);

    if (c->is_reset)
        met(RESET_GIVEN);
    else if (s->outcome != LIMPET_OK)
        met(NOT_SERVED);
    else if (is_of(c, 0x00, GET_RESPONSE) && s->count > 2)
        met(FETCHED);
    else if (is_of(c, 0x00, GET_CHALLENGE) && is_done(word))
        met(CHALLENGED);
    else if (is_of(c, 0x80, CREATE_FILE) && word == 0x9000)
        met(CREATED);
    else if (logs_in && word == 0x9000)
        met(LOGGED_IN);
    else if (logs_in && word >> 4 == 0x63C)
        met(GUESSED);
    else if (is_coded(c->command, c->length) && is_done(word))
        met(WITH_CODE);
}

/* ---- a call on a pair ---- */

static void give_file_pair(struct pair *p, const struct call *c)
{
    bool writes = !c->is_reset && is_writing(c->command, c->length), changed[2] = { false, false };
    static struct world before[2];
    struct layout card = p->worlds[0].card;

    if (writes)
        memcpy(before, p->worlds, sizeof before);
    struct said said[2] = { give(&p->worlds[0], c), give(&p->worlds[1], c) };
    check_same(p, said);
    count_call(c, &said[0]);
    if (is_served(c) && !c->is_reset)
        count_file_call(p, &card, c, word_of(&said[0]));
    for (size_t i = 0; i < 2 && writes; i++)
        changed[i] = !are_equal(before[i].area, p->worlds[i].area, 0, LIMPET_AREA_SIZE);
    p->is_whole = p->is_whole && !changed[0] && !changed[1];
    if (changed[0] != changed[1] && !is_satisfied(&card, secret_file(p)->read))
        met(UPDATE_WITH_SAME);
}

static void give_credential_pair(struct pair *p, const struct call *c)
{
    bool counts = is_served(c) && !c->is_reset;
    enum presentation is[2] = { NO_PRESENTATION, NO_PRESENTATION };

    for (size_t i = 0; i < 2 && counts; i++)
        is[i] = presented_to(&p->worlds[i], p, c);
    struct said said[2] = { give(&p->worlds[0], c), give(&p->worlds[1], c) };
    check_same(p, said);
    if (is[0] == NO_PRESENTATION)
        count_call(c, &said[0]);
    if (counts)
        count_credential_call(p, c, is, word_of(&said[0]));
    /* Once a change or a reload has made the values the same there is little more to see. */
    if (same_value(&p->worlds[0].card.credentials[p->credential], &p->worlds[1].card.credentials[p->credential]) && p->left > 20)
        p->left = 20;
}

static void give_pair(struct pair *p, const struct call *c)
{
    unsigned long wrongs_before = wrongs;

    if (is_served(c) && !c->is_reset && is_of_file(p) && reads_by_right(p, c)) {
        try_read(*p, c);
    } else if (is_served(c) && !c->is_reset && !is_of_file(p) && is_right_on_one(p, c)) {
        try_presentation(*p, c);
    } else {
        if (is_of_file(p))
            give_file_pair(p, c);
        else
            give_credential_pair(p, c);
        check_alike(p);
    }
    end_at_wrong(p, wrongs_before);
}

/* ---- commands that aim at the secret ---- */

static struct call select_call(uint8_t fid1, uint8_t fid2)
{
    return case_3(SELECT, 0, 0, (uint8_t[]){ fid1, fid2 }, 2);
}

static struct call select_folder(const struct layout *card, uint8_t folder)
{
    const struct folder *f = &card->directory.folders[folder > 0 ? folder - 1 : 0];

    return folder == 0 ? select_call(0x3F, 0x00) : select_call(f->fid1, f->fid2);
}

static struct call pin_call(uint8_t ins, uint8_t p1, size_t credential, const struct credential *pin)
{
    return case_3(ins, p1, credential == USER, pin->value, pin->length);
}

static struct call authenticate_call(const struct layout *card)
{
    uint8_t cryptogram[LIMPET_KEY_SIZE];

    cryptogram_for(card, cryptogram);
    return case_3(AUTHENTICATE, 0, 0, cryptogram, sizeof cryptogram);
}

/* Mostly not in the list. */
static struct call unknown_call(void)
{
    struct call c = case_2((uint8_t)random_below(256), (uint8_t)random_below(256), (uint8_t)random_below(256), (uint8_t)random_below(256));

    c.command[0] = (uint8_t[]){ 0x00, 0x04, 0x80, 0x0C }[random_below(4)];
    return c;
}

/* Somebody else logs in, with the right value. */
static void log_in(struct pair *p, size_t credential)
{
    const struct layout *card = &p->worlds[0].card;
    struct call c = challenge_call();

    if (credential == DEVICE) {
        give_pair(p, &c);
        c = authenticate_call(card);
    } else {
        c = pin_call(VERIFY, 0, credential, &card->credentials[credential]);
    }
    give_pair(p, &c);
}

/* So many bytes that a command brings along: what one of the cards has at that place, or others. */
static void choose_data(const struct pair *p, size_t at, size_t length, uint8_t *data)
{
    uint32_t way = random_below(3);

    if (way < 2 && at + length <= LIMPET_AREA_SIZE)
        memcpy(data, p->worlds[way].area + at, length);
    else
        random_bytes(data, length);
}

static struct call binary_call(const struct pair *p, const struct file *f)
{
    uint8_t data[20], sfi = 0x80 | (f->fid2 & 31);
    size_t size = file_size(f), offset = random_below(size < 256 ? (uint32_t)size : 256), most = size - offset, length = 1 + random_below(20);

    if (random_below(2) == 0)
        return case_2(READ_BINARY, sfi, (uint8_t)offset, random_below(3) ? 0 : (uint8_t)random_below(256));
    if (length > most && random_below(8))
        length = most;
    choose_data(p, p->area_from + offset, length, data);
    return case_3(UPDATE_BINARY, sfi, (uint8_t)offset, data, length);
}

static struct call record_call(const struct pair *p, const struct file *f)
{
    const struct world *w = &p->worlds[0];
    uint8_t data[255], by_sfi = (uint8_t)((f->fid2 & 31) << 3);
    unsigned held = records_held(&w->card, w->area, p->file), number = 1 + random_below(held + 1), length = 1 + random_below(20);
    size_t at = p->area_from;
    uint32_t way = random_below(3);

    number = number > 255 ? 255 : number;
    if (number <= held)
        at = record_start(&w->card, w->area, p->file, number, &length);
    else if (f->type != 0x2C)
        length = f->size2;
    if (way == 0)
        return case_2(READ_RECORD, (uint8_t)number, by_sfi | 4, random_below(3) ? 0 : (uint8_t)random_below(256));
    choose_data(p, at, length, data);
    if (way == 1)
        return case_3(UPDATE_RECORD, (uint8_t)number, by_sfi | 4, data, length);
    return case_3(APPEND_RECORD, 0, by_sfi, data, f->type == 0x2C && random_below(2) ? 1 + random_below(length) : length);
}

/* At times a command for another type of file. */
static struct call of_the_five(const struct pair *p)
{
    const struct file *f = secret_file(p);

    if (random_below(32) == 0)
        return f->type == 0x28 ? case_2(READ_RECORD, 1, (uint8_t)((f->fid2 & 31) << 3 | 4), 0) : case_2(READ_BINARY, 0x80 | (f->fid2 & 31), 0, 1);
    return f->type == 0x28 ? binary_call(p, f) : record_call(p, f);
}

/* The command of the current file, which names no SFI, where the secret's is current. */
static void drop_sfi(const struct pair *p, struct call *c)
{
    if (p->worlds[0].card.session.current != p->file + 1)
        return;
    if (c->command[1] == READ_BINARY || c->command[1] == UPDATE_BINARY)
        c->command[2] = 0;
    else
        c->command[3] &= 7;
}

static void aim_at_file(struct pair *p)
{
    const struct layout *card = &p->worlds[0].card;
    const struct file *f = secret_file(p);
    uint32_t way = random_below(32);
    struct call c = reset_call();

    if (way < 4) {
        log_in(p, way < 3 ? way : USER);
        return;
    }
    if (way == 4 && waiting_count(&card->response) > 0)
        c = case_2(GET_RESPONSE, 0, 0, 0);
    else if (way == 6)
        c = unknown_call();
    else if (way > 6 && card->session.folder != f->folder)
        c = select_folder(card, f->folder);
    else if (way == 7)
        c = select_call(f->fid1, f->fid2);
    else if (way > 7) {
        c = of_the_five(p);
        if (random_below(4) == 0)
            drop_sfi(p, &c);
        if (c.length < 250 && random_below(asks_code(f->read) || asks_code(f->write) ? 2 : 8) == 0) {
            struct call challenge = challenge_call();
            give_pair(p, &challenge);
            put_code(&c, card);
        }
    }
    if (p->is_there)
        give_pair(p, &c);
}

/* A PIN that is near that of one of the two cards: a digit less or more, one changed, or all others; at times the PIN itself. */
static struct credential near_pin(const struct pair *p)
{
    struct credential pin = p->worlds[random_below(2)].card.credentials[p->credential];
    uint32_t way = random_below(8);

    if (way == 0 && pin.length > 6)
        pin.length--;
    else if (way == 1 && pin.length < VALUE_ROOM)
        pin.value[pin.length++] = (uint8_t)(0x30 + random_below(10));
    else if (way < 7)
        another_pin(&pin);
    return pin;
}

static void aim_at_pin(struct pair *p)
{
    struct credential pin = near_pin(p);
    size_t credential = p->credential;
    uint32_t way = random_below(16);
    struct call c = reset_call();

    if (way == 1)
        c = case_1(0x00, VERIFY, 0x00, credential == USER);
    else if (way == 2 && credential == USER)
        log_in(p, ADMIN);
    else if (way == 2)
        c = pin_call(VERIFY, 0x00, USER, &pin); /* the secret shown in another one's place */
    else if (way <= 4 && credential == USER)
        c = pin_call(RELOAD_PIN, 0x02, USER, &pin);
    else if (way <= 6)
        c = pin_call(CHANGE_PIN, 0x01, credential, &pin);
    else if (way > 6)
        c = pin_call(VERIFY, 0x00, credential, &pin);
    if (c.is_reset && random_below(4))
        return;
    if (p->is_there) {
        if (p->worlds[0].card.credentials[credential].tries.left == 0 && is_of(&c, 0x00, VERIFY) && c.length > 5
            && (same_value(&pin, &p->worlds[0].card.credentials[credential]) || same_value(&pin, &p->worlds[1].card.credentials[credential])))
            met(BLOCKED_AND_RIGHT);
        give_pair(p, &c);
    }
}

/* A cryptogram or a code by one of the two keys, mostly with a byte of it wrong. */
static void aim_at_key(struct pair *p)
{
    struct call c = challenge_call();

    give_pair(p, &c);
    if (!p->is_there)
        return;
    const struct layout *card = &p->worlds[random_below(2)].card;
    size_t length = p->credential == DEVICE ? LIMPET_KEY_SIZE : LIMPET_CODE_SIZE, from = 5;
    if (p->credential == DEVICE) {
        c = authenticate_call(card);
    } else {
        c = random_below(2) ? case_2(READ_BINARY, 0x80 | (1 + random_below(30)), 0, 1)
                            : case_3(UPDATE_BINARY, 0x80 | (1 + random_below(30)), 0, (uint8_t[]){ 0x5C }, 1);
        from += c.length > 5;
        put_code(&c, card);
    }
    if (random_below(8))
        c.command[from + random_below((uint32_t)length)] ^= (uint8_t)(1 + random_below(255));
    give_pair(p, &c);
}

static void aim(struct pair *p)
{
    if (is_of_file(p))
        aim_at_file(p);
    else if (p->credential == ADMIN || p->credential == USER)
        aim_at_pin(p);
    else
        aim_at_key(p);
}

/* ---- a script ---- */

static struct call call_of(const struct line *l)
{
    struct call c = { .is_reset = l->kind == RESET_LINE, .length = l->command.len, .random_length = l->random.len };

    c.reply_length = random_below(256) ? REPLY_ROOM : LIMPET_REPLY_SIZE - 1;
    memcpy(c.command, l->command.at, c.length);
    memcpy(c.random, l->random.at, c.random_length);
    return c;
}

static void run_line(struct player *script, const struct line *l)
{
    bool is_call = l->wrong == NULL && l->kind != ISSUE_LINE && script->has_card;

    play_line(script, l);
    for (struct pair *p = pairs; p < pairs + FILES + CREDENTIALS && is_call; p++) {
        struct call c = call_of(l);
        if (p->is_there)
            give_pair(p, &c);
        /* Seldom and then many, so that what the script does over several lines is mostly left whole. */
        for (uint32_t aims = random_below(4) ? 0 : random_below(30); aims > 0 && p->is_there; aims--)
            aim(p);
        p->is_there = p->is_there && p->left-- > 0;
    }
    for (struct pair *p = pairs; p < pairs + FILES + CREDENTIALS && script->has_card; p++) {
        if (l->kind == ISSUE_LINE && is_sound(script->issued, script->area)) /* a refused issue leaves a blank one, and the earlier card */
            p->is_there = false;
        if (!p->is_there)
            begin_pair(p, script);
    }
}

static bool show_tallies(unsigned long least)
{
    bool enough = true;

    for (size_t i = 0; i < TALLIES; i++) {
        bool few = tallies[i] < least;
        printf("%9lu  %s%s\n", tallies[i], tally_names[i], few ? ": TOO FEW" : "");
        enough = enough && !few;
    }
    printf("%9lu  calls in all\n", calls);
    return enough;
}

int main(int count, char **arguments)
{
    static struct player script;
    static struct text t;
    static struct line l;
    unsigned long least = 0;

    for (int i = 1; i < count; i++) {
        if (strcmp(arguments[i], "--first") == 0) {
            ends_at_first = true;
        } else if (strcmp(arguments[i], "--least") == 0 && i + 1 < count && atoi(arguments[i + 1]) > 0) {
            least = (unsigned long)atoi(arguments[++i]);
        } else {
            bool helps = strcmp(arguments[i], "--help") == 0;
            usage(helps ? stdout : stderr);
            return helps ? EXIT_SUCCESS : 2;
        }
    }
    check_version();
    call_name = "line";
    for (call_number = 1; read_text(stdin, &t); call_number++) {
        read_line(&t, &l);
        run_line(&script, &l);
    }
    bool enough = show_tallies(least);
    if (fflush(stdout) != 0 || ferror(stdout)) {
        fprintf(stderr, "outsider: cannot write the output\n");
        return 2;
    }
    if (wrongs > 0)
        fprintf(stderr, "outsider: %lu wrong in %lu calls\n", wrongs, calls);
    return wrongs == 0 && enough ? EXIT_SUCCESS : EXIT_FAILURE;
}
