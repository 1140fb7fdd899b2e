#include "watched.h"

#include <inttypes.h>
#include <stdarg.h>
#include <stdio.h>
#include <stdlib.h>
#include <string.h>

#include "coded.h"
#include "layout.h"

enum { MOST_SHOWN = 20 };

unsigned long wrongs, calls, odd_calls;
const char *call_name = "call";
unsigned long call_number;

void wrong(const char *format, ...)
{
    va_list arguments;

    wrongs++;
    if (wrongs > MOST_SHOWN)
        return;
    fprintf(stderr, "%s %lu: ", call_name, call_number);
    va_start(arguments, format);
    vfprintf(stderr, format, arguments);
    va_end(arguments);
    fprintf(stderr, wrongs == MOST_SHOWN ? "\n(and no more is shown)\n" : "\n");
}

void check_version(void)
{
    if (limpet_version() != LIMPET_VERSION || limpet_card_size() != LIMPET_CARD_SIZE) {
        fprintf(stderr, "the library is of version %u and its card takes %" PRIu64 " bytes; the header has %d and %d\n",
                (unsigned)limpet_version(), limpet_card_size(), LIMPET_VERSION, LIMPET_CARD_SIZE);
        exit(2);
    }
}

/* Bytes that no call would write by chance, each 7 more than the one before it. Any start is among the first 256 multiples of 7: that of
   183 is 1. */
static void fill(uint8_t *bytes, size_t length, uint8_t start)
{
    static uint8_t multiples[256 + 2 * LIMPET_AREA_SIZE];

    if (multiples[1] == 0)
        for (size_t i = 0; i < sizeof multiples; i++)
            multiples[i] = (uint8_t)(7 * i);
    memcpy(bytes, multiples + (uint8_t)(183 * start), length);
}

/* Cards have a turn of their own: as one of the buffers of a call a card might get the same place again and again. */
struct lent lend_card(const uint8_t *card)
{
    static size_t turn;

    return lend_at(turn++ % PLACES, card, LIMPET_CARD_SIZE);
}

struct held hold(const uint8_t *card, size_t area_length)
{
    static const uint8_t blank[LIMPET_CARD_SIZE];
    static uint8_t bytes[2 * LIMPET_AREA_SIZE];
    struct held h = { .has_no_area = false };

    if (area_length > sizeof bytes) {
        fprintf(stderr, "an area of %zu bytes is longer than any that is tried\n", area_length);
        exit(2);
    }
    fill(bytes, area_length, 0x5A);
    h.card = lend_card(card != NULL ? card : blank);
    h.area = lend(bytes, area_length);
    return h;
}

void let_go(struct held *h)
{
    give_back(&h->card);
    give_back(&h->area);
}

static struct lent lend_given(struct given g)
{
    return lend(g.bytes, g.length);
}

static uint8_t *start(const struct lent *b, bool is_null)
{
    return is_null ? NULL : b->bytes;
}

static void check_guards(const char *name, const struct lent *b)
{
    if (!guards_stand(b))
        wrong("a byte before or after the %s was written", name);
}

/* A buffer that is only read. */
static void check_given(const char *name, const struct lent *b, struct given g)
{
    check_guards(name, b);
    if (g.length > 0 && memcmp(b->bytes, g.bytes, g.length) != 0)
        wrong("the %s was written", name);
}

static void check_outcome(uint8_t outcome, uint8_t due)
{
    if (outcome != due)
        wrong("outcome %u, and %u is due", (unsigned)outcome, (unsigned)due);
}

/* Every byte of the card as it must be. */
static void check_card(const struct held *h, const uint8_t *due, const char *what)
{
    check_guards("card", &h->card);
    if (memcmp(h->card.bytes, due, LIMPET_CARD_SIZE) != 0)
        wrong("%s", what);
}

/* The card as it is lent to a call, which is counted. */
static struct limpet_card *card_of(const struct held *h)
{
    calls++;
    odd_calls += (uintptr_t)h->card.bytes % 2;
    return (struct limpet_card *)h->card.bytes;
}

static void check_area(const struct held *h, const uint8_t *before)
{
    check_guards("area", &h->area);
    if (h->area.length > 0 && memcmp(h->area.bytes, before, h->area.length) != 0)
        wrong("the area was written");
}

/* A copy of a buffer that may be empty. */
static uint8_t *kept_copy(const struct lent *b)
{
    uint8_t *copy = malloc(b->length + 1);

    if (copy == NULL) {
        fprintf(stderr, "no memory for a copy of %zu bytes\n", b->length);
        exit(2);
    }
    if (b->length > 0)
        memcpy(copy, b->bytes, b->length);
    return copy;
}

static bool good_limit(uint16_t limit)
{
    return 1 <= limit && limit <= 128;
}

static bool good_pin(struct given pin)
{
    if (pin.length < 6 || pin.length > 16)
        return false;
    for (size_t i = 0; i < pin.length; i++)
        if (pin.bytes[i] < '0' || pin.bytes[i] > '9')
            return false;
    return true;
}

static uint8_t due_of_issue(const struct held *h, const struct order *o)
{
    if (h->area.length != LIMPET_AREA_SIZE)
        return LIMPET_BAD_AREA;
    if (o->key.length != LIMPET_KEY_SIZE || !good_limit(o->device_limit)
        || !good_pin(o->admin_pin) || !good_limit(o->admin_limit)
        || !good_pin(o->user_pin) || !good_limit(o->user_limit) || o->mode > 1
        || o->transport_key.length != LIMPET_KEY_SIZE || !good_limit(o->transport_limit))
        return LIMPET_BAD_ISSUE;
    return LIMPET_OK;
}

static void set_credential(struct credential *x, struct given value, uint16_t limit)
{
    memcpy(x->value, value.bytes, value.length);
    x->length = (uint8_t)value.length;
    x->tries.left = x->tries.limit = (uint8_t)limit;
}

/* The card that a good order makes: "full tries, no files, no rights, no challenge", in its mode, with nothing waiting. */
static struct layout issued_card(const struct order *o)
{
    struct layout c;

    memset(&c, 0, sizeof c);
    set_credential(&c.credentials[DEVICE], o->key, o->device_limit);
    set_credential(&c.credentials[ADMIN], o->admin_pin, o->admin_limit);
    set_credential(&c.credentials[USER], o->user_pin, o->user_limit);
    set_credential(&c.credentials[TRANSPORT], o->transport_key, o->transport_limit);
    c.response.mode = (uint8_t)o->mode;
    return c;
}

static void check_issued(const struct held *h, const struct order *o)
{
    struct layout due = issued_card(o);

    check_card(h, (const uint8_t *)&due, "the card is not the one that was ordered");
    check_guards("area", &h->area);
    for (size_t i = 0; i < h->area.length; i++)
        if (h->area.bytes[i] != 0) {
            wrong("the area is not 00 at %zu", i);
            return;
        }
}

uint8_t watched_issue(struct held *h, const struct order *o)
{
    static const uint8_t blank[LIMPET_CARD_SIZE];
    struct lent key = lend_given(o->key);
    struct lent admin = lend_given(o->admin_pin);
    struct lent user = lend_given(o->user_pin);
    struct lent transport = lend_given(o->transport_key);
    uint8_t *area = kept_copy(&h->area);

    uint8_t outcome = limpet_issue(card_of(h), start(&h->area, h->has_no_area), h->area.length,
                                   start(&key, o->key.is_null), key.length, o->device_limit,
                                   start(&admin, o->admin_pin.is_null), admin.length, o->admin_limit,
                                   start(&user, o->user_pin.is_null), user.length, o->user_limit, o->mode,
                                   start(&transport, o->transport_key.is_null), transport.length, o->transport_limit);

    check_outcome(outcome, due_of_issue(h, o));
    check_given("key", &key, o->key);
    check_given("admin PIN", &admin, o->admin_pin);
    check_given("user PIN", &user, o->user_pin);
    check_given("transport key", &transport, o->transport_key);
    if (outcome == LIMPET_OK) {
        check_issued(h, o);
    } else {
        check_card(h, blank, "the card of a refused issue is not blank");
        check_area(h, area);
    }
    free(area);
    give_back(&key);
    give_back(&admin);
    give_back(&user);
    give_back(&transport);
    return outcome;
}

static uint8_t due_of_command(const struct held *h, struct given random, size_t reply_length)
{
    if (reply_length < LIMPET_REPLY_SIZE)
        return LIMPET_SHORT_REPLY;
    if (h->area.length != LIMPET_AREA_SIZE)
        return LIMPET_BAD_AREA;
    if (random.length != LIMPET_RANDOM_SIZE)
        return LIMPET_BAD_RANDOM;
    return is_sound(h->card.bytes, h->area.bytes) ? LIMPET_OK : LIMPET_UNSOUND;
}

/* The reply: what is past the answer, all of it on a refusal, is as it was. */
static void check_reply(const struct lent *reply, const uint8_t *before, const struct answer *a)
{
    size_t most = reply->length < LIMPET_REPLY_SIZE ? reply->length : LIMPET_REPLY_SIZE;

    check_guards("reply", reply);
    if (a->outcome == LIMPET_OK && (a->count < 2 || a->count > most)) {
        wrong("the answer has %" PRIu64 " bytes", a->count);
        return;
    }
    if (a->outcome != LIMPET_OK && a->count != 0) {
        wrong("refused, and the answer has %" PRIu64 " bytes", a->count);
        return;
    }
    if (reply->length > 0 && memcmp(reply->bytes + a->count, before + a->count, reply->length - a->count) != 0)
        wrong("the reply was written past the answer's %" PRIu64 " bytes", a->count);
}

/* The buffers that a command call lends besides card and area. */
struct buffers {
    struct lent command, random, reply, count;
};

static struct buffers lend_buffers(struct given command, struct given random, const uint8_t *reply, size_t reply_length)
{
    limpet_size count = (limpet_size)-1 / 3; /* what it holds before does not matter */

    return (struct buffers){
        lend_given(command), lend_given(random), lend(reply, reply_length),
        lend_at(0, (const uint8_t *)&count, sizeof count) /* the one buffer that is to be aligned */
    };
}

static void give_back_buffers(struct buffers *b)
{
    give_back(&b->command);
    give_back(&b->random);
    give_back(&b->reply);
    give_back(&b->count);
}

/* Card and area: as they were on a refusal, and a sound card where the call was served. */
static void check_held(const struct held *h, uint8_t outcome, const uint8_t *card, const uint8_t *area)
{
    if (outcome == LIMPET_OK) {
        check_guards("card", &h->card);
        check_guards("area", &h->area);
        if (!is_sound(h->card.bytes, h->area.bytes))
            wrong("card and area are not sound after a served command");
    } else {
        check_card(h, card, "the card was changed by a refused command");
        check_area(h, area);
    }
}

/* How a served command must be answered, and the card and the area that it must leave. */
struct due {
    uint8_t reply[LIMPET_REPLY_SIZE];
    size_t count;
    struct layout card;
    const uint8_t *area;
};

static void set_reply(struct due *d, const uint8_t *data, size_t length, unsigned word)
{
    if (length > 0)
        memcpy(d->reply, data, length);
    d->reply[length] = (uint8_t)(word >> 8);
    d->reply[length + 1] = (uint8_t)word;
    d->count = length + 2;
}

static void check_due(const struct held *h, const struct answer *a, const struct due *d)
{
    if (a->count != d->count || memcmp(a->reply, d->reply, d->count) != 0)
        wrong("the answer has %" PRIu64 " bytes and ends %02X%02X, and %zu are due that end %02X%02X; or its data are others", a->count,
              a->reply[a->count - 2], a->reply[a->count - 1], d->count, d->reply[d->count - 2], d->reply[d->count - 1]);
    check_card(h, (const uint8_t *)&d->card, "the card or what waits is not as the command must leave it");
    check_area(h, d->area);
}

/* What the framing refuses is none. */
static bool is_command(struct given command, uint8_t cla, uint8_t ins)
{
    return is_frame(command.bytes, command.length) && command.bytes[0] == cla && command.bytes[1] == ins;
}

static bool is_get_response(struct given command)
{
    return is_command(command, 0x00, 0xC0);
}

/* "6A86, 6700, 6985 nothing waiting, 6C and the count when Le is over it"; 0 where it is not refused. Le 00 is over none. */
static unsigned refusal_of_get_response(struct given command, unsigned waiting)
{
    if (command.bytes[2] != 0 || command.bytes[3] != 0)
        return 0x6A86;
    if (command.length != 5)
        return 0x6700;
    if (waiting == 0)
        return 0x6985;
    return command.bytes[4] > waiting ? 0x6C00 + waiting : 0;
}

/* On a card of mode 1. d->card is as it was before the command; a refused one keeps what waits, and each the challenge. */
static void due_of_get_response(struct given command, struct due *d)
{
    struct response *r = &d->card.response;
    unsigned waiting = waiting_count(r), refusal = refusal_of_get_response(command, waiting);

    if (refusal != 0) {
        set_reply(d, r->bytes, 0, refusal);
        return;
    }
    unsigned taken = command.bytes[4] == 0 ? waiting : command.bytes[4], left = waiting - taken;
    set_reply(d, r->bytes, taken, left > 0 ? 0x6100 + left : 0x9000);
    memmove(r->bytes, r->bytes + taken, left);
    memset(r->bytes + left, 0, WAITING_ROOM - left);
    set_waiting_count(r, left);
}

/* On a card of mode 0: refused with that word, and the challenge is dropped, as by any command. */
static void due_of_refused(struct due *d, unsigned word)
{
    set_reply(d, NULL, 0, word);
    memset(d->card.session.challenge, 0, CHALLENGE_ROOM);
    d->card.session.length = 0;
}

/* Any other command on a card of mode 1: what it does to the same card in mode 0, with its data made to wait. */
static void due_as_in_mode_0(struct given command, struct given random, struct held *other, struct due *d)
{
    struct response *r = &d->card.response;

    memset(r, 0, sizeof *r);
    memcpy(other->card.bytes, &d->card, sizeof d->card);
    memcpy(other->area.bytes, d->area, LIMPET_AREA_SIZE);
    struct answer a = watched_command(other, command, random, LIMPET_REPLY_SIZE, false);
    if (a.outcome != LIMPET_OK || a.count < 2 || a.count > LIMPET_REPLY_SIZE) {
        wrong("the same command is refused in mode 0");
        return;
    }
    size_t data = a.count - 2;
    unsigned word = 256u * a.reply[data] + a.reply[data + 1];
    if (data > 0 && word != 0x9000)
        wrong("data come with %04X in mode 0", word);
    memcpy(&d->card, other->card.bytes, sizeof d->card);
    d->area = other->area.bytes;
    r->mode = 1;
    set_waiting_count(r, (unsigned)data);
    memcpy(r->bytes, a.reply, data);
    set_reply(d, NULL, 0, data > 0 ? 0x6100 + (unsigned)data % 256 : word);
}

/* Whether a CREATE FILE that ends 9000 made a folder by the type that it names: its data begin behind Lc. */
static bool makes_folder(struct given command)
{
    return is_command(command, 0x80, 0xE0) && command.length == 10 && command.bytes[5] == 0x38;
}

/* A folder more: FID and right as the command says, made from the root, and "alters nothing current". */
static void check_new_folder(struct given command, const struct layout *before, const struct layout *after)
{
    const struct folder *made = &after->directory.folders[before->directory.number];

    if (!makes_folder(command) || after->directory.number != before->directory.number + 1 || before->session.folder != 0
        || made->fid1 != command.bytes[2] || made->fid2 != command.bytes[3] || made->right != command.bytes[8]
        || after->directory.count != before->directory.count)
        wrong("a directory was made that the command does not make");
    if (after->session.folder != 0 || after->session.current != before->session.current)
        wrong("making a directory altered what is current");
}

/* A file more lies in the current folder, and becomes current. */
static void check_new_file(struct given command, const struct layout *before, const struct layout *after)
{
    const struct file *made = &after->directory.files[before->directory.count];

    if (!is_command(command, 0x80, 0xE0) || makes_folder(command) || after->directory.count != before->directory.count + 1
        || made->fid1 != command.bytes[2] || made->fid2 != command.bytes[3] || made->folder != before->session.folder)
        wrong("a file was made that the command does not make, or elsewhere");
    if (after->session.current != after->directory.count)
        wrong("the new file is not current");
}

/* Where a SELECT that ends 9000 leads: "the current directory first, then among directories, then 3F00 for the root". */
static void check_selected(struct given command, const struct layout *before, const struct layout *after)
{
    const struct directory *d = &before->directory;
    uint8_t fid1 = command.bytes[5], fid2 = command.bytes[6];
    unsigned folder = before->session.folder, current = 0;

    for (unsigned i = 0; i < d->count; i++)
        if (d->files[i].folder == folder && d->files[i].fid1 == fid1 && d->files[i].fid2 == fid2)
            current = i + 1;
    if (current == 0) {
        bool found = fid1 == 0x3F && fid2 == 0x00;
        folder = 0;
        for (unsigned i = 0; i < d->number; i++)
            if (d->folders[i].fid1 == fid1 && d->folders[i].fid2 == fid2) {
                found = true;
                folder = i + 1;
            }
        if (!found)
            wrong("SELECT found %02X%02X, and it is not there", fid1, fid2);
    }
    if (after->session.folder != folder || after->session.current != current)
        wrong("SELECT of %02X%02X leads to directory %u and file %u, and %u and %u are due", fid1, fid2,
              after->session.folder, after->session.current, folder, current);
}

/* R-7 of a served command: what there was of files and folders stays where it was, and only SELECT moves to another folder. */
static void check_folders(const struct held *h, struct given command, const struct answer *a, const uint8_t *card)
{
    struct layout before, after;
    unsigned word = 256u * a->reply[a->count - 2] + a->reply[a->count - 1];

    memcpy(&before, card, sizeof before);
    memcpy(&after, h->card.bytes, sizeof after);
    const struct directory *old = &before.directory, *new = &after.directory;
    if (new->number < old->number || memcmp(new->folders, old->folders, old->number * sizeof(struct folder)) != 0)
        wrong("a directory is gone or another one");
    for (size_t i = 0; i < old->count; i++)
        if (new->count < old->count || new->files[i].folder != old->files[i].folder
            || memcmp(&new->files[i], &old->files[i], offsetof(struct file, held)) != 0)
            wrong("file %zu is gone, elsewhere or another one", i);
    if (new->number > old->number)
        check_new_folder(command, &before, &after);
    else if (makes_folder(command) && word == 0x9000)
        wrong("no directory was made");
    if (new->count > old->count)
        check_new_file(command, &before, &after);
    if (is_command(command, 0x00, 0xA4) && word == 0x9000)
        check_selected(command, &before, &after);
    else if (after.session.folder != before.session.folder)
        wrong("the current directory is another one, and nothing was selected");
}

/* R-6 of a served command. card and area: as they were before. */
static void check_waiting(const struct held *h, struct given command, struct given random, const struct answer *a,
                          const uint8_t *card, const uint8_t *area)
{
    struct due d = { .area = area };

    memcpy(&d.card, card, sizeof d.card);
    if (d.card.response.mode == 0) {
        if (is_get_response(command)) {
            due_of_refused(&d, 0x6D00); /* it is not in the list */
            check_due(h, a, &d);
        } else if (a->reply[a->count - 2] == 0x61) {
            wrong("something is to wait in mode 0");
        }
    } else if (is_get_response(command)) {
        due_of_get_response(command, &d);
        check_due(h, a, &d);
    } else {
        struct held other = { .card = lend(card, LIMPET_CARD_SIZE), .area = lend(area, LIMPET_AREA_SIZE) };
        due_as_in_mode_0(command, random, &other, &d);
        check_due(h, a, &d);
        let_go(&other);
    }
}

/* Puts the rights of the files of a card in the place of another's. */
static void set_rights(struct layout *c, const struct directory *from)
{
    for (size_t i = 0; i < from->count; i++) {
        c->directory.files[i].read = from->files[i].read;
        c->directory.files[i].write = from->files[i].write;
    }
}

/* A right for a card that asks for no codes: without bit 3 where there is a code, and never where there is none. */
static uint8_t right_apart(uint8_t right, bool has_code)
{
    if (!asks_code(right))
        return right;
    return has_code ? (uint8_t)(right & ~0x04) : 0x0F;
}

/*
 * What a command must do by what it does, without its code, to the same card whose files ask for no codes: "an added condition". With a
 * right code that condition is met and the tries are full, also where a later check refuses. Without one it is not: 6982 at the
 * place of the right's check, as where the right is 0F.
 */
static void due_without_codes(struct given command, struct given random, bool has_code, struct held *other, struct due *d)
{
    struct directory asked = d->card.directory;
    uint8_t plain[5 + 255];

    for (size_t i = 0; i < asked.count; i++) {
        struct file *f = &d->card.directory.files[i];
        f->read = right_apart(f->read, has_code);
        f->write = right_apart(f->write, has_code);
    }
    if (has_code) {
        d->card.credentials[TRANSPORT].tries.left = d->card.credentials[TRANSPORT].tries.limit;
        command = (struct given){ plain, without_code(command.bytes, command.length, plain), false };
    }
    memcpy(other->card.bytes, &d->card, sizeof d->card);
    struct answer a = watched_command(other, command, random, LIMPET_REPLY_SIZE, false);
    if (a.outcome != LIMPET_OK || a.count < 2 || a.count > LIMPET_REPLY_SIZE) {
        wrong("the same command is refused on a card that asks for no codes");
        return;
    }
    memcpy(&d->card, other->card.bytes, sizeof d->card);
    set_rights(&d->card, &asked);
    d->area = other->area.bytes;
    memcpy(d->reply, a.reply, a.count);
    d->count = a.count;
}

static bool has_file_that_asks(const struct directory *d)
{
    for (size_t i = 0; i < d->count; i++)
        if (asks_code(d->files[i].read) || asks_code(d->files[i].write))
            return true;
    return false;
}

/* R-9 of a served command on a card of mode 0; in mode 1 it is held to that. card and area: as they were before. */
static void check_codes(const struct held *h, struct given command, struct given random, const struct answer *a,
                        const uint8_t *card, const uint8_t *area)
{
    struct due d = { .area = area };
    bool coded = is_coded(command.bytes, command.length);
    unsigned refusal = 0;

    memcpy(&d.card, card, sizeof d.card);
    if (coded) {
        refusal = refusal_of_code(&d.card, command.bytes, command.length);
        d.card.credentials[TRANSPORT].tries.left -= refusal == 0x6988;
    } else if (is_frame(command.bytes, command.length) && command.bytes[0] == 0x04) {
        refusal = 0x6D00;
    }
    if (refusal != 0) {
        due_of_refused(&d, refusal);
        check_due(h, a, &d);
    } else if (coded || has_file_that_asks(&d.card.directory)) {
        struct held other = { .card = lend(card, LIMPET_CARD_SIZE), .area = lend(area, LIMPET_AREA_SIZE) };
        due_without_codes(command, random, coded, &other, &d);
        check_due(h, a, &d);
        let_go(&other);
    }
}

/* No command but a coded one presents the transport key, and none changes its value or its limit. */
static void check_transport_key(const struct held *h, struct given command, const uint8_t *card)
{
    struct layout before, after;

    memcpy(&before, card, sizeof before);
    memcpy(&after, h->card.bytes, sizeof after);
    if (is_coded(command.bytes, command.length))
        after.credentials[TRANSPORT].tries.left = before.credentials[TRANSPORT].tries.left;
    if (memcmp(&after.credentials[TRANSPORT], &before.credentials[TRANSPORT], sizeof(struct credential)) != 0)
        wrong("the transport key, its limit or its tries are others");
}

struct answer watched_command(struct held *h, struct given command, struct given random,
                              size_t reply_length, bool reply_is_null)
{
    static uint8_t reply[LONGEST_REPLY];
    struct answer a = { .outcome = 0 };
    uint8_t due = due_of_command(h, random, reply_length);

    if (reply_length > LONGEST_REPLY) {
        fprintf(stderr, "a reply of %zu bytes is longer than any that is tried\n", reply_length);
        exit(2);
    }
    fill(reply, reply_length, (uint8_t)(0x11 + calls));
    struct buffers b = lend_buffers(command, random, reply, reply_length);
    uint8_t *card = kept_copy(&h->card);
    uint8_t *area = kept_copy(&h->area);

    a.outcome = limpet_command(card_of(h), start(&h->area, h->has_no_area), h->area.length,
                               start(&b.command, command.is_null), b.command.length,
                               start(&b.random, random.is_null), b.random.length,
                               start(&b.reply, reply_is_null), b.reply.length,
                               (limpet_size *)(void *)b.count.bytes);

    memcpy(&a.count, b.count.bytes, sizeof a.count);
    if (reply_length > 0)
        memcpy(a.reply, b.reply.bytes, reply_length);
    check_outcome(a.outcome, due);
    check_given("command", &b.command, command);
    check_given("random input", &b.random, random);
    check_guards("count", &b.count);
    check_reply(&b.reply, reply, &a);
    check_held(h, a.outcome, card, area);
    if (a.outcome == LIMPET_OK && due == LIMPET_OK && 2 <= a.count && a.count <= LIMPET_REPLY_SIZE) {
        check_transport_key(h, command, card);
        check_folders(h, command, &a, card);
        check_waiting(h, command, random, &a, card, area);
        if (((const struct layout *)(const void *)card)->response.mode == 0)
            check_codes(h, command, random, &a, card, area);
    }
    free(card);
    free(area);
    give_back_buffers(&b);
    return a;
}

/* "Reset is lent the area and checks 2 before 4." */
static uint8_t due_of_reset(const struct held *h)
{
    if (h->area.length != LIMPET_AREA_SIZE)
        return LIMPET_BAD_AREA;
    return is_sound(h->card.bytes, h->area.bytes) ? LIMPET_OK : LIMPET_UNSOUND;
}

/* "Reset clears rights, current file and challenge only", "discards what waits" and "returns to the root". */
uint8_t watched_reset(struct held *h)
{
    struct layout due;
    uint8_t due_outcome = due_of_reset(h);
    uint8_t *area = kept_copy(&h->area);

    memcpy(&due, h->card.bytes, sizeof due);
    uint8_t outcome = limpet_reset(card_of(h), start(&h->area, h->has_no_area), h->area.length);

    check_outcome(outcome, due_outcome);
    if (outcome == LIMPET_OK) {
        memset(&due.session, 0, sizeof due.session);
        due.response = (struct response){ .mode = due.response.mode };
    }
    check_card(h, (const uint8_t *)&due,
               outcome == LIMPET_OK ? "a reset cleared too much or too little" : "the card was changed by a refused reset");
    check_area(h, area);
    free(area);
    return outcome;
}
