/*
 * A man in the middle, between a main board and a card whose files ask for codes
 * (request R-9 of document 02). The board's coded commands are altered, sent twice,
 * sent to another card or with another challenge, cut short and made longer: none of
 * it may change or show a file. Its codes are openssl's (by_openssl.h), over the
 * challenge that the card replied. Every call is watched, as watched.h says.
 *
 * A line for each group of cases, and at the end the number of groups that passed and
 * that failed.
 */
#include <stdbool.h>
#include <stdio.h>
#include <stdlib.h>
#include <string.h>

#include "by_openssl.h"
#include "fips.h"
#include "groups.h"

enum { HEAD = 5, MOST = HEAD + 255 + 1, MORE = 8 };

static const char usage[] =
    "usage: middle [--short] <ANSWERS 3>QUESTIONS\n"
    "\n"
    "Alters coded commands on their way to a card. Codes are those of the program\n"
    "openssl_cbc, which reads QUESTIONS and writes ANSWERS. The exit status is 1 where an\n"
    "answer, a file or a card was not as it must be.\n"
    "\n"
    "  --short   fewer lengths of challenges and commands\n";

/* What the board sends: a command without its code. Of data so many bytes are made up. */
struct sent {
    const char *name;
    uint8_t head[4];
    unsigned data;
    bool is_read;
    uint8_t le; /* of a read */
};

/* Each of the five commands, by SFI and on the current file, on each type of file. A message has five bytes more than the data. */
static const struct sent commands[] = {
    { "READ BINARY", { 0x04, 0xB0, 0x81, 0x04 }, 0, true, 0x08 },
    { "READ BINARY, all that there is", { 0x04, 0xB0, 0x00, 0x00 }, 0, true, 0x00 },
    { "UPDATE BINARY of 1 byte", { 0x04, 0xD6, 0x81, 0x00 }, 1, false, 0 },
    { "UPDATE BINARY of 11 bytes, a message of 16", { 0x04, 0xD6, 0x00, 0x03 }, 11, false, 0 },
    { "UPDATE BINARY of 16 bytes, right and code asked", { 0x04, 0xD6, 0x85, 0x00 }, 16, false, 0 },
    { "READ RECORD of type 2A", { 0x04, 0xB2, 0x01, 0x14 }, 0, true, 0x05 },
    { "READ RECORD of type 2E", { 0x04, 0xB2, 0x02, 0x1C }, 0, true, 0x00 },
    { "READ RECORD of type 2C", { 0x04, 0xB2, 0x01, 0x24 }, 0, true, 0x00 },
    { "UPDATE RECORD of type 2A", { 0x04, 0xDC, 0x03, 0x14 }, 5, false, 0 },
    { "UPDATE RECORD of type 2E", { 0x04, 0xDC, 0x01, 0x1C }, 4, false, 0 },
    { "UPDATE RECORD of type 2C", { 0x04, 0xDC, 0x01, 0x24 }, 3, false, 0 },
    { "APPEND RECORD to type 2E", { 0x04, 0xE2, 0x00, 0x18 }, 4, false, 0 },
    { "APPEND RECORD to type 2C", { 0x04, 0xE2, 0x00, 0x20 }, 7, false, 0 },
    { "UPDATE BINARY of 247 bytes", { 0x04, 0xD6, 0x81, 0x00 }, 247, false, 0 },
    { "UPDATE BINARY of 251 bytes, as many as there can be", { 0x04, 0xD6, 0x81, 0x00 }, 251, false, 0 },
};
enum { COMMANDS = sizeof commands / sizeof commands[0], LONG_DATA = 20 };

struct bytes {
    uint8_t at[MOST + MORE];
    size_t length;
};

/* ---- the card ---- */

static const uint8_t *board_key(void)
{
    return good_order().transport_key.bytes;
}

static void told(struct held *h, const char *command)
{
    unsigned sw = tell(h, command);

    if (sw != 0x9000 && sw >> 8 != 0x61)
        wrong("the command %s of a card in the making ends %04X", command, sw);
}

/* Files of all types that ask for codes, and one for the user right besides, which is held. The binary file is current. */
static void make_card(struct held *h, uint16_t mode, const uint8_t *transport_key)
{
    static const char *const steps[] = {
        "00 84 0000 10", "00 82 0000 10 69C4E0D86A7B0430D8CDB78070B4C55A",
        "80 E0 0101 05 28 0100 04 04", "80 E0 0102 05 2A 0405 04 04", "80 E0 0103 05 2E 0304 04 04", "80 E0 0104 05 2C 0040 04 04",
        "80 E0 0105 05 28 0010 44 44", "00 20 0001 10 31323334353637383930313233343536",
        "00 84 0000 04", "04 E2 0018 08 C1C1C1C1 *", "00 84 0000 08", "04 E2 0018 08 C2C2C2C2 *",
        "00 84 0000 10", "04 E2 0020 07 D1D2D3 *", "00 84 0000 10", "04 D6 8110 0A A1A2A3A4A5A6 *",
        "00 A4 0000 02 0101"
    };
    struct order o = good_order();

    o.mode = mode;
    o.transport_key.bytes = transport_key;
    if (watched_issue(h, &o) != LIMPET_OK)
        wrong("a good order is refused");
    for (size_t i = 0; i < sizeof steps / sizeof steps[0]; i++)
        told(h, steps[i]);
}

static struct layout card_of(const struct held *h)
{
    struct layout c;

    memcpy(&c, h->card.bytes, sizeof c);
    return c;
}

/* ---- the board ---- */

/* The answer's status word, and its data in reply, where there is any. */
static unsigned send(struct held *h, const uint8_t *command, size_t length, const uint8_t *random, struct bytes *reply)
{
    struct answer a = watched_command(h, given_bytes(command, length), given_bytes(random, LIMPET_RANDOM_SIZE), LIMPET_REPLY_SIZE, false);

    if (a.outcome != LIMPET_OK || a.count < 2 || a.count > sizeof reply->at)
        return 0;
    if (reply != NULL) {
        reply->length = a.count - 2;
        memcpy(reply->at, a.reply, reply->length);
    }
    return 256u * a.reply[a.count - 2] + a.reply[a.count - 1];
}

static unsigned give(struct held *h, const struct bytes *command)
{
    return send(h, command->at, command->length, c1_block, NULL);
}

/* GET CHALLENGE, and GET RESPONSE where it waits. */
static struct bytes get_challenge(struct held *h, size_t length, const uint8_t *random)
{
    const uint8_t ask[] = { 0x00, 0x84, 0x00, 0x00, (uint8_t)length }, fetch[] = { 0x00, 0xC0, 0x00, 0x00, 0x00 };
    struct bytes challenge = { .length = 0 };
    unsigned sw = send(h, ask, sizeof ask, random, &challenge);

    if (sw >> 8 == 0x61)
        sw = send(h, fetch, sizeof fetch, random, &challenge);
    if (sw != 0x9000 || challenge.length != length)
        wrong("GET CHALLENGE ends %04X", sw);
    return challenge;
}

static uint8_t made_up(unsigned place)
{
    return (uint8_t)(0x5B + 29 * place);
}

/* The command up to its code. */
static struct bytes message_of(const struct sent *s)
{
    struct bytes m = { .length = HEAD + s->data };

    memcpy(m.at, s->head, sizeof s->head);
    m.at[4] = (uint8_t)(s->data + LIMPET_CODE_SIZE);
    for (unsigned i = 0; i < s->data; i++)
        m.at[HEAD + i] = made_up(i);
    return m;
}

/* A message with its code behind it, and Le where it is a read. */
static struct bytes with_code(struct bytes m, const struct sent *s, const struct bytes *challenge)
{
    openssl_code(board_key(), challenge->at, challenge->length, m.at, m.length, m.at + m.length);
    m.length += LIMPET_CODE_SIZE;
    if (s->is_read)
        m.at[m.length++] = s->le;
    return m;
}

static struct bytes coded(const struct sent *s, const struct bytes *challenge)
{
    return with_code(message_of(s), s, challenge);
}

/* ---- what must be ---- */

/* A card that has just replied a challenge, the command that the board sends then, and what that one is. */
struct scene {
    struct pattern ready;
    struct bytes good;
    const struct sent *sent;
};

static struct held hold_ready(const struct scene *s)
{
    return hold_part(&s->ready, LIMPET_AREA_SIZE);
}

static bool is_done(unsigned sw)
{
    return sw == 0x9000 || sw >> 8 == 0x61;
}

/* All files as they were: their bytes, how many records they hold, and which is the newest. */
static void check_files(const struct held *h, const struct pattern *before, const char *what)
{
    struct layout c = card_of(h), was;

    memcpy(&was, before->card, sizeof was);
    if (memcmp(h->area.bytes, before->area, LIMPET_AREA_SIZE) != 0 || memcmp(&c.directory, &was.directory, sizeof c.directory) != 0)
        wrong("%s: a file is not as it was", what);
}

/* A command that was refused at its code or before: nothing has changed but the challenge, which is gone, and the tries by so many. */
static void check_untouched(const struct held *h, const struct pattern *before, unsigned fewer, const char *what)
{
    struct layout due;

    memcpy(&due, before->card, sizeof due);
    due.credentials[TRANSPORT].tries.left -= (uint8_t)fewer;
    memset(due.session.challenge, 0, sizeof due.session.challenge);
    due.session.length = 0;
    due.response = (struct response){ .mode = due.response.mode };
    if (memcmp(h->card.bytes, &due, sizeof due) != 0)
        wrong("%s: something else than the challenge and the tries has changed", what);
    check_files(h, before, what);
}

/* Sends bytes to the card as it was when the board had its challenge. They must end in that word, and nothing must happen. */
static void try_refused(const struct scene *s, const struct bytes *command, unsigned due, const char *what)
{
    struct held h = hold_ready(s);
    unsigned sw = give(&h, command);

    if (sw != due)
        wrong("%s, %s: %04X, and %04X is due", s->sent->name, what, sw, due);
    check_untouched(&h, &s->ready, due == 0x6988, what);
    let_go(&h);
}

/* ---- single bits ---- */

/* Whether a command that differs from a good one in a bit of that byte may end so; the code covers every byte but Le. */
static bool may_end(const struct scene *s, const struct bytes *altered, size_t place, unsigned sw)
{
    switch (place) {
    case 0: /* the class: without bit 3 it is a command without a code, a read of another case */
        return sw == (altered->at[0] != 0x00 ? 0x6E00 : s->sent->is_read ? 0x6700 : 0x6982);
    case 1: /* READ BINARY and READ RECORD differ in one bit */
        return sw == 0x6D00 || ((altered->at[1] == 0xB0 || altered->at[1] == 0xB2) && (sw == 0x6A86 || sw == 0x6988));
    case 2:
    case 3:
        return sw == 0x6A86 || sw == 0x6988;
    case 4:
        return sw == 0x6700;
    default:
        return sw == 0x6988;
    }
}

static void flip_bit(const struct scene *s, size_t place, unsigned bit)
{
    struct bytes altered = s->good;
    struct held h = hold_ready(s);

    altered.at[place] ^= (uint8_t)(1u << bit);
    call_number = 8 * place + bit;
    unsigned sw = give(&h, &altered);
    if (s->sent->is_read && place == s->good.length - 1) {
        check_files(&h, &s->ready, "another Le"); /* it is not covered, and what is read is another number of bytes */
        if (sw == 0x6988 || card_of(&h).credentials[TRANSPORT].tries.left != good_order().transport_limit)
            wrong("%s: the code covers Le", s->sent->name);
    } else {
        if (!may_end(s, &altered, place, sw))
            wrong("%s: byte %zu is %02X and not %02X, and it ends %04X", s->sent->name, place, altered.at[place], s->good.at[place], sw);
        check_untouched(&h, &s->ready, sw == 0x6988, s->sent->name);
    }
    let_go(&h);
}

static void each_bit(const struct scene *s)
{
    for (size_t place = 0; place < s->good.length; place++)
        for (unsigned bit = 0; bit < 8; bit++)
            if (!is_short || place < HEAD || place + HEAD >= s->good.length || bit == place % 8)
                flip_bit(s, place, bit);
}

/* ---- as it is, and again ---- */

/* What it must have done, by the bytes of the file that the library gives to a plain command where no code is asked. */
static void served_once(const struct scene *s)
{
    struct held h = hold_ready(s);
    unsigned sw = give(&h, &s->good);
    struct pattern after;

    if (!is_done(sw))
        wrong("%s: a good one ends %04X", s->sent->name, sw);
    if (card_of(&h).credentials[TRANSPORT].tries.left != good_order().transport_limit)
        wrong("%s: a right code does not restore all tries", s->sent->name);
    if (s->sent->is_read)
        check_files(&h, &s->ready, s->sent->name);
    else if (memcmp(h.area.bytes, s->ready.area, LIMPET_AREA_SIZE) == 0)
        wrong("%s: nothing was written", s->sent->name);
    keep(&after, &h);
    for (int again = 0; again < 3; again++) {
        sw = give(&h, &s->good);
        if (sw != 0x6984)
            wrong("%s: sent again it ends %04X", s->sent->name, sw);
        check_untouched(&h, &after, 0, "sent again");
    }
    let_go(&h);
}

/* ---- elsewhere, and at another time ---- */

static const uint8_t other_random[LIMPET_RANDOM_SIZE] = {
    0x80, 0x11, 0x22, 0x33, 0x44, 0x55, 0x66, 0x77, 0x88, 0x99, 0xAA, 0xBB, 0xCC, 0xDD, 0xEE, 0xFF
};

static void with_other_challenge(const struct scene *s, size_t length)
{
    static const size_t lengths[] = { 4, 8, 16 };
    struct held h = hold_ready(s);
    struct pattern asked;

    for (size_t i = 0; i < sizeof lengths / sizeof lengths[0]; i++) {
        get_challenge(&h, lengths[i], lengths[i] == length ? other_random : c1_block);
        keep(&asked, &h);
        unsigned sw = give(&h, &s->good);
        if (sw != 0x6988)
            wrong("%s: with another challenge, of %zu bytes, it ends %04X", s->sent->name, lengths[i], sw);
        check_untouched(&h, &asked, 1, "another challenge");
    }
    let_go(&h);
}

/* With another transport key, which differs in one bit, and the same challenge. */
static void to_another_card(const struct scene *s, uint16_t mode, size_t length)
{
    for (unsigned bit = 0; bit < 8 * LIMPET_KEY_SIZE; bit += is_short ? 37 : 1) {
        struct held h = hold_ready(s);
        struct pattern other;
        struct layout c = card_of(&h);
        c.credentials[TRANSPORT].value[bit / 8] ^= (uint8_t)(1u << bit % 8);
        memcpy(h.card.bytes, &c, sizeof c);
        keep(&other, &h);
        unsigned sw = give(&h, &s->good);
        if (sw != 0x6988)
            wrong("%s: sent to a card with another transport key it ends %04X", s->sent->name, sw);
        check_untouched(&h, &other, 1, "another card");
        let_go(&h);
    }
    struct held made = hold(NULL, LIMPET_AREA_SIZE);
    make_card(&made, mode, c1_key);
    get_challenge(&made, length, c1_block);
    if (give(&made, &s->good) != 0x6988)
        wrong("%s: a card that was issued with another transport key takes it", s->sent->name);
    let_go(&made);
}

/* Anything that is sent between GET CHALLENGE and the command drops the challenge, and so does a reset. */
static void with_something_between(const struct scene *s)
{
    static const char *const between[] = { "", "00", "00 20 0001", "00 B0 8100 01", "04 84 0000 04", "04 C0 0000 00", "FF 00 0000",
                                           "00 84 0000 05", "00 A4 0000 02 0101", "04 D6 8100 04 00000000" };
    struct pattern after;

    for (size_t i = 0; i <= sizeof between / sizeof between[0]; i++) {
        struct held h = hold_ready(s);
        if (i < sizeof between / sizeof between[0])
            tell(&h, between[i]);
        else
            watched_reset(&h);
        keep(&after, &h);
        unsigned sw = give(&h, &s->good);
        if (sw != 0x6984)
            wrong("%s: behind another command or a reset it ends %04X", s->sent->name, sw);
        check_untouched(&h, &after, 0, "something between");
        let_go(&h);
    }
}

/* ---- other lengths ---- */

static void cut_and_lengthened(const struct scene *s)
{
    struct bytes c = s->good;

    for (c.length = 0; c.length < s->good.length; c.length++)
        try_refused(s, &c, 0x6700, "cut short");
    for (unsigned value = 0; value < 256; value += 255)
        for (c = s->good; c.length < s->good.length + MORE;) {
            c.at[c.length++] = (uint8_t)value;
            try_refused(s, &c, 0x6700, "made longer");
        }
}

/* The same with an Lc that fits: data taken out or put in before the code, and the code cut off. */
static void with_fitting_lc(const struct scene *s)
{
    size_t data = s->sent->data, code = HEAD + data, behind = s->good.length - code;

    for (size_t fewer = 1; fewer < data; fewer++) {
        struct bytes c = s->good;
        memmove(c.at + code - fewer, c.at + code, behind);
        c.length -= fewer;
        c.at[4] -= (uint8_t)fewer;
        try_refused(s, &c, 0x6988, "data taken out");
    }
    for (size_t more = 1; more <= MORE && !s->sent->is_read && data + more + LIMPET_CODE_SIZE <= 255; more++) {
        struct bytes c = s->good;
        memmove(c.at + code + more, c.at + code, behind);
        memset(c.at + code, 0, more);
        c.length += more;
        c.at[4] += (uint8_t)more;
        try_refused(s, &c, 0x6988, "data put in");
    }
    if (!s->sent->is_read) {
        struct bytes c = s->good;
        c.length -= LIMPET_CODE_SIZE;
        c.at[4] -= LIMPET_CODE_SIZE;
        try_refused(s, &c, data > LIMPET_CODE_SIZE ? 0x6988 : 0x6700, "the code cut off");
    }
}

/* ---- codes of other commands, and made-up ones ---- */

static void put_code(struct bytes *command, const uint8_t *code, const struct sent *s)
{
    memcpy(command->at + command->length - LIMPET_CODE_SIZE - s->is_read, code, LIMPET_CODE_SIZE);
}

/* The code of each other command of the same challenge; that of the same bytes from no challenge on; and 00, FF and random ones. */
static void with_other_codes(const struct scene *s, const struct bytes *challenge)
{
    static const struct bytes none = { .length = LIMPET_KEY_SIZE };

    for (size_t i = 0; i < COMMANDS; i++) {
        struct bytes c = s->good, other = coded(&commands[i], challenge);
        put_code(&c, other.at + other.length - LIMPET_CODE_SIZE - commands[i].is_read, s->sent);
        if (&commands[i] != s->sent && memcmp(c.at, s->good.at, c.length) != 0)
            try_refused(s, &c, 0x6988, "the code of another command");
    }
    struct bytes c = coded(s->sent, &none);
    try_refused(s, &c, 0x6988, "a code from 00 on");
    for (unsigned i = 0; i < (is_short ? 10u : 100u); i++) {
        uint8_t code[LIMPET_CODE_SIZE];
        for (size_t n = 0; n < sizeof code; n++)
            code[n] = i == 0 ? 0x00 : i == 1 ? 0xFF : (uint8_t)random_below(256);
        put_code(&c, code, s->sent);
        if (memcmp(c.at, s->good.at, c.length) != 0)
            try_refused(s, &c, 0x6988, "a made-up code");
    }
}

/* Errors that look right: a code over the command in another form. */
static void with_other_messages(const struct scene *s, const struct bytes *challenge)
{
    struct bytes m = message_of(s->sent), c;

    m.at[4] -= LIMPET_CODE_SIZE;
    c = with_code(m, s->sent, challenge);
    c.at[4] = s->good.at[4];
    try_refused(s, &c, 0x6988, "Lc without the code in the message");
    m = message_of(s->sent);
    m.at[0] = 0x00;
    c = with_code(m, s->sent, challenge);
    c.at[0] = 0x04;
    try_refused(s, &c, 0x6988, "CLA 00 in the message");
    m = message_of(s->sent);
    if (s->sent->is_read) {
        m.at[m.length++] = s->sent->le;
        c = with_code(m, s->sent, challenge);
        memmove(c.at + HEAD, c.at + HEAD + 1, LIMPET_CODE_SIZE + 1);
        c.length--;
        try_refused(s, &c, 0x6988, "Le in the message");
    }
}

/* ---- tries ---- */

/* Wrong codes up to the limit, then nothing is compared any more, and nothing brings it back. */
static void until_blocked(const struct scene *s, size_t length)
{
    struct held h = hold_ready(s);
    struct bytes wrong_one = s->good, challenge;
    uint16_t limit = good_order().transport_limit;

    put_code(&wrong_one, (const uint8_t[LIMPET_CODE_SIZE]){ 0 }, s->sent);
    for (unsigned i = 0; i < limit; i++) {
        if (i > 0)
            get_challenge(&h, length, c1_block);
        unsigned sw = give(&h, &wrong_one);
        if (sw != 0x6988 || card_of(&h).credentials[TRANSPORT].tries.left != limit - i - 1)
            wrong("%s: wrong code %u ends %04X, or the tries are not one less", s->sent->name, i + 1, sw);
    }
    for (int i = 0; i < 3; i++) {
        if (i == 1)
            watched_reset(&h);
        if (i != 1)
            challenge = get_challenge(&h, length, c1_block);
        struct bytes c = i != 1 ? coded(s->sent, &challenge) : s->good;
        unsigned sw = give(&h, &c);
        if (sw != 0x6983)
            wrong("%s: with no tries left it ends %04X", s->sent->name, sw);
        check_files(&h, &s->ready, "no tries left");
    }
    let_go(&h);
}

/* A wrong one, a right one, and all tries are there again; also where the right one is refused later, since its file is not there. */
static void restored(const struct scene *s, size_t length)
{
    static const struct sent later = { "READ BINARY of no file", { 0x04, 0xB0, 0x9E, 0x00 }, 0, true, 0x01 };
    struct held h = hold_ready(s);
    uint16_t limit = good_order().transport_limit;

    for (int i = 0; i < 2; i++) {
        const struct sent *sent = i == 0 ? s->sent : &later;
        struct bytes challenge = get_challenge(&h, length, c1_block), c = coded(sent, &challenge);
        c.at[c.length - 1 - sent->is_read] ^= 0x01;
        give(&h, &c);
        if (card_of(&h).credentials[TRANSPORT].tries.left != limit - 1)
            wrong("%s: a wrong code takes no try", sent->name);
        challenge = get_challenge(&h, length, other_random);
        c = coded(sent, &challenge);
        unsigned sw = give(&h, &c);
        if (i == 0 ? !is_done(sw) : sw != 0x6A82)
            wrong("%s: a right code behind a wrong one ends %04X", sent->name, sw);
        if (card_of(&h).credentials[TRANSPORT].tries.left != limit)
            wrong("%s: a right code does not restore all tries", sent->name);
    }
    let_go(&h);
}

/* ---- main ---- */

static void play(const struct sent *sent, uint16_t mode, size_t length)
{
    char name[128];
    struct scene s = { .sent = sent };
    struct held h = hold(NULL, LIMPET_AREA_SIZE);

    snprintf(name, sizeof name, "%s, challenge of %zu, mode %u", sent->name, length, mode);
    struct group g = begin(name);
    make_card(&h, mode, board_key());
    struct bytes challenge = get_challenge(&h, length, c1_block);
    keep(&s.ready, &h);
    let_go(&h);
    s.good = coded(sent, &challenge);
    served_once(&s);
    each_bit(&s);
    with_other_challenge(&s, length);
    to_another_card(&s, mode, length);
    with_something_between(&s);
    cut_and_lengthened(&s);
    with_fitting_lc(&s);
    with_other_codes(&s, &challenge);
    with_other_messages(&s, &challenge);
    until_blocked(&s, length);
    restored(&s, length);
    end(g);
}

/* The long commands are played once. */
static void play_all(void)
{
    static const size_t lengths[] = { 16, 4, 8 };

    for (size_t i = 0; i < COMMANDS; i++)
        for (unsigned n = 0; n < 6; n++)
            if (n == 0 || (commands[i].data <= LONG_DATA && (!is_short || n == i % 6)))
                play(&commands[i], (uint16_t)(n / 3), lengths[n % 3]);
}

int main(int count, char **arguments)
{
    is_short = count == 2 && strcmp(arguments[1], "--short") == 0;
    if (count > 1 && !is_short) {
        bool asked = count == 2 && strcmp(arguments[1], "--help") == 0;
        fputs(usage, asked ? stdout : stderr);
        return asked ? EXIT_SUCCESS : 2;
    }
    setvbuf(stdout, NULL, _IOLBF, BUFSIZ); /* so that a crash does not take the lines before it along */
    check_version();
    play_all();
    printf("%lu calls\n", calls);
    printf("%u passed, %u failed\n", passed, failed);
    return failed == 0 ? EXIT_SUCCESS : EXIT_FAILURE;
}
