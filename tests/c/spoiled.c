/*
 * Cards that are not sound, made by spoiling bytes of cards in use. Those that
 * happen to be sound are served. And bytes that wait, whoever put them there,
 * fetched by GET RESPONSE.
 */
#include <stdio.h>
#include <string.h>

#include "fips.h"
#include "groups.h"

/* The waiting bytes are half of the card: one card has every value of each of them, and on the others a bit of each is changed. */
static bool is_left_out(const struct pattern *p, size_t place, unsigned difference)
{
    bool waits = offsetof(struct layout, response.bytes) <= place && place < offsetof(struct layout, journal);

    return waits && p != in_use() && !is_one_bit(difference);
}

/* Every other value of every byte; where a single bit differs, all the commands. */
static void spoil_bytes(const struct pattern *p, struct tally *all, struct tally *by_sort, struct tally *by_field)
{
    static unsigned long turn;

    for (size_t place = 0; place < LIMPET_CARD_SIZE; place++)
        for (unsigned difference = 1; difference < 256; difference++) {
            if ((is_short && !is_one_bit(difference)) || is_left_out(p, place, difference) || turn++ % one_in != 0)
                continue;
            struct pattern spoiled = *p; /* for each anew: gcc 12.2 from -O1 on loses a store that sets the byte back */
            spoiled.card[place] ^= (uint8_t)difference;
            call_number = 1000 * place + spoiled.card[place];
            count_card(all, &spoiled);
            count_card(by_sort, &spoiled);
            count_card(&by_field[field_at(place)], &spoiled);
            try_card(&spoiled, is_one_bit(difference) && !is_short);
        }
}

void try_each_byte_spoiled(void)
{
    struct group g = begin("cards with one byte spoiled (1000 x place + value)");
    struct tally all = { 0 };
    struct tally by_sort[SORTS] = { { 0 } };
    struct tally by_field[FIELDS] = { { 0 } };

    for (size_t i = 0; i < SORTS; i++)
        spoil_bytes(&patterns[i], &all, &by_sort[i], by_field);
    end(g);
    print_tally("all of them", &all);
    for (size_t i = 0; i < SORTS; i++)
        print_tally(sorts[i].name, &by_sort[i]);
    for (size_t i = 0; i < FIELDS; i++)
        print_tally(field_name(i), &by_field[i]);
}

/* Up to five bytes spoiled at once, by small steps or values that mean something elsewhere, or bytes of another card. */
static void spoil_several(uint8_t *card, const uint8_t *other)
{
    static const uint8_t values[] = { 0, 1, 4, 8, 16, 0x28, 0x2A, 0x2C, 0x2E, 0x30, 0x39, 0x0F, 0x02, 0x03, 0x05, 0x06, 0x44, 0x80,
                                      0xC1, 0xC2, 0xC6, 254, 255 };
    static const uint32_t before_waiting = offsetof(struct layout, response.bytes);

    for (uint32_t n = 1 + random_below(5); n > 0; n--) {
        /* The waiting bytes are half of the card, and would take half of the tries. */
        size_t place = random_below(random_below(8) ? before_waiting : LIMPET_CARD_SIZE);
        switch (random_below(4)) {
        case 0:
            card[place]++;
            break;
        case 1:
            card[place]--;
            break;
        case 2:
            card[place] = values[random_below(sizeof values)];
            break;
        default:
            card[place] = other[place];
        }
    }
}

static void cards_with_several(void)
{
    struct group g = begin("cards with several bytes spoiled");
    struct tally t = { 0 };

    for (unsigned i = 0; i < (is_short ? 500u : 50000u / one_in); i++) {
        struct pattern spoiled = patterns[random_below(SORTS)];
        spoil_several(spoiled.card, patterns[random_below(SORTS)].card);
        call_number = i;
        count_card(&t, &spoiled);
        try_card(&spoiled, !is_short);
    }
    end(g);
    print_tally("up to five", &t);
}

static bool is_among(const uint8_t *bytes, size_t count, unsigned byte)
{
    for (size_t i = 0; i < count; i++)
        if (bytes[i] == byte)
            return true;
    return false;
}

/* 0F, and with and without bit 2 the seven choices of admin, user and device; 00 is free. All others are bad, bit 2 alone too. */
static bool is_good_by_hand(unsigned rights)
{
    static const uint8_t good[] = {
        0x00, 0x0F, 0x80, 0x40, 0x01, 0xC0, 0x81, 0x41, 0xC1, 0x82, 0x42, 0x03, 0xC2, 0x83, 0x43, 0xC3
    };

    return is_among(good, sizeof good, rights);
}

/* Those of a file: the same, and with bit 3 all of them but 0F, which is there, and 06, which has no right to choose from. */
static bool is_good_of_file_by_hand(unsigned rights)
{
    static const uint8_t with_bit_3[] = {
        0x04, 0x84, 0x44, 0x05, 0xC4, 0x85, 0x45, 0xC5, 0x86, 0x46, 0x07, 0xC6, 0x87, 0x47, 0xC7
    };

    return is_good_by_hand(rights) || is_among(with_bit_3, sizeof with_bit_3, rights);
}

/* Each byte for reading and for writing, in the first file and in the last. The C check is held to the list as well. */
static void rights_by_hand(void)
{
    struct group g = begin("rights bytes of which it was written down whether they are good");
    struct tally t = { 0 };

    for (unsigned rights = 0; rights < 256; rights++)
        for (unsigned choice = 0; choice < 4; choice++) {
            struct pattern p = patterns[SIXTEEN];
            struct layout c;
            memcpy(&c, p.card, sizeof c);
            struct file *f = &c.directory.files[choice & 1 ? FILES - 1 : 0];
            *(choice & 2 ? &f->write : &f->read) = (uint8_t)rights;
            memcpy(p.card, &c, sizeof c);
            call_number++;
            if (is_sound(p.card, p.area) != is_good_of_file_by_hand(rights))
                wrong("tests/c/layout.c says of %02X that it is %s", rights, is_good_of_file_by_hand(rights) ? "bad" : "good");
            count_card(&t, &p);
            try_card(&p, !is_short);
        }
    end(g);
    print_tally("all of them", &t);
}

/* ---- the transport key (R-9) ---- */

/* Its length, its limit and its tries left, on a card with all rights: it opens none, so a held right asks nothing of its tries. */
static const struct {
    unsigned length, limit, left;
    bool sound;
} known_transport_keys[] = {
    { 16, 10, 10, true },
    { 16, 10, 9, true },
    { 16, 10, 0, true },     /* blocked for good */
    { 16, 10, 11, false },   /* more left than there are */
    { 16, 10, 255, false },
    { 16, 1, 1, true },      /* the smallest limit, */
    { 16, 1, 0, true },
    { 16, 1, 2, false },
    { 16, 0, 0, false },     /* and none at all */
    { 16, 0, 1, false },
    { 16, 128, 128, true },  /* the largest, */
    { 16, 128, 1, true },
    { 16, 128, 129, false },
    { 16, 129, 129, false }, /* and one more */
    { 16, 129, 1, false },
    { 16, 255, 255, false },
    { 0, 10, 10, false },    /* no key, */
    { 0, 0, 0, false },      /* and none of the fourth credential */
    { 4, 10, 10, false },
    { 6, 10, 10, false },    /* the lengths of PINs */
    { 8, 10, 10, false },
    { 15, 10, 10, false },
    { 17, 10, 10, false },
    { 32, 10, 10, false },
    { 255, 10, 10, false },
};

/* With the key as it is, of 00, of FF and with 00 at its end: its bytes may be any. */
static void transport_keys_by_hand(void)
{
    struct group g = begin("transport keys of which it was worked out by hand whether they are sound");
    struct tally t = { 0 };

    for (size_t i = 0; i < sizeof known_transport_keys / sizeof known_transport_keys[0]; i++)
        for (unsigned value = 0; value < 4; value++) {
            struct pattern p = patterns[WITH_RIGHTS];
            struct credential *x = &((struct layout *)(void *)p.card)->credentials[TRANSPORT];
            x->length = (uint8_t)known_transport_keys[i].length;
            x->tries = (struct tries){ .left = (uint8_t)known_transport_keys[i].left, .limit = (uint8_t)known_transport_keys[i].limit };
            if (value > 0)
                memset(x->value + (value == 3 ? 8 : 0), value == 2 ? 0xFF : 0, VALUE_ROOM - (value == 3 ? 8 : 0));
            call_number++;
            if (is_sound(p.card, p.area) != known_transport_keys[i].sound)
                wrong("tests/c/layout.c says that length %u, limit %u and %u left are %s", known_transport_keys[i].length,
                      known_transport_keys[i].limit, known_transport_keys[i].left, known_transport_keys[i].sound ? "not sound" : "sound");
            count_card(&t, &p);
            try_card(&p, true);
        }
    end(g);
    print_tally("all of them", &t);
}

/* As it is; with a challenge and without, with no tries left and with one, without rights and with all of them. */
enum { STATES = 7 };
static struct pattern in_state(const struct pattern *p, unsigned state)
{
    struct pattern changed = *p;
    struct layout c;

    memcpy(&c, p->card, sizeof c);
    if (state > 0)
        memset(c.session.challenge, 0, sizeof c.session.challenge);
    c.session.length = (uint8_t)(state == 0 ? c.session.length : state == 2 || state == 6 ? 0 : 8);
    memset(c.session.challenge, 0xA9, state > 0 ? c.session.length : 0);
    if (state >= 3)
        c.credentials[TRANSPORT].tries.left = state == 3 || state == 6 ? 0 : 1;
    for (size_t i = 0; i < RIGHTS && state >= 4; i++) {
        c.session.rights[i] = state == 5;
        c.credentials[i].tries.left = c.credentials[i].tries.limit;
    }
    memcpy(changed.card, &c, sizeof c);
    return changed;
}

static void tell_again(const struct pattern *p, const char *command)
{
    struct held h = hold_part(p, LIMPET_AREA_SIZE);

    call_number++;
    tell(&h, command);
    let_go(&h);
}

/* Each of the five commands by each SFI, with a right code and a wrong one, and commands of other forms. */
static void every_coded(void)
{
    static const char *const forms[] = {
        "04 B0 8100 04 *", "04 B0 8100 05 A1 * 01", "04 B0 8100 03 A1A2A3 01", "04 B0 8100", "04 B0 8100 01", "04 B0 8000 04 * 01",
        "04 B0 9F00 04 * 01", "04 B0 FF00 04 * 01", "04 B0 0000 04 * 00", "04 B0 7FFF 04 * 00", "04 B0 8100 04 * 01 00",
        "04 D6 8100 04 *", "04 D6 8100 06 A1A2 * 00", "04 D6 8100 05 A1 * 00 00", "04 D6 8100", "04 D6 8100 01", "04 D6 A000 05 A1 *",
        "04 D6 0000 05 A1 *", "04 B2 0014 04 * 00", "04 B2 0113 04 * 00", "04 B2 01FC 04 * 00", "04 B2 FF14 04 * 00", "04 B2 0104 04 * 00",
        "04 B2 0114 04 *", "04 DC 0014 05 A1 *", "04 DC 0114 04 *", "04 DC 0114 05 A1 * 00", "04 DC 0104 05 A1 *", "04 E2 0118 05 A1 *",
        "04 E2 001C 05 A1 *", "04 E2 00F8 05 A1 *", "04 E2 0018 04 *", "04 E2 0018 05 A1 * 00", "04 E2 0000 05 A1 *", "04 A4 0000 02 0101",
        "04 20 0001", "04 84 0000 08", "04 82 0000 04 *", "04 24 0101 06 363534333231", "04 2C 0201 06 363534333231", "04 C0 0000 00",
        "04 E0 0110 05 28 0001 00 00", "84 B0 8100 04 * 01", "05 B0 8100 04 * 01", "0C B0 8100 04 * 01", "14 D6 8100 05 A1 *",
        "80 B0 8100 04 * 01", "00 B0 8100 04 * 01", "00 D6 8100 05 A1 *"
    };
    static const char *const by_sfi[] = {
        "04 B0 %02X00 04 * 01", "04 B0 %02X00 04 00000000 01", "04 D6 %02X00 05 A1 *", "04 D6 %02X00 05 A1 00000000", "00 B0 %02X00 01",
        "00 D6 %02X00 01 A1"
    };
    static const char *const by_number[] = {
        "04 B2 01%02X 04 * 00", "04 B2 01%02X 04 00000000 00", "04 DC 01%02X 08 A1A2A3A4 *", "04 DC 01%02X 09 A1A2A3A4A5 *",
        "00 B2 01%02X 00", "00 DC 01%02X 04 A1A2A3A4"
    };
    static const char *const by_append[] = { "04 E2 00%02X 08 A1A2A3A4 *", "04 E2 00%02X 08 A1A2A3A4 00000000", "00 E2 00%02X 04 A1A2A3A4" };
    struct group g = begin("coded commands in every form, on each card in use, with and without challenge, tries and rights");
    char command[64];

    for (size_t i = 0; i < SORTS; i++)
        for (unsigned state = 0; state < STATES; state++) {
            struct pattern p = in_state(&patterns[i], state);
            if (is_short && i != WITH_CODES && state != i % STATES)
                continue;
            for (size_t n = 0; n < sizeof forms / sizeof forms[0]; n++)
                tell_again(&p, forms[n]);
            for (unsigned sfi = 0; sfi <= 8; sfi++) {
                for (size_t n = 0; n < sizeof by_sfi / sizeof by_sfi[0]; n++) {
                    snprintf(command, sizeof command, by_sfi[n], sfi == 0 ? 0 : 0x80 + sfi);
                    tell_again(&p, command);
                }
                for (size_t n = 0; n < sizeof by_number / sizeof by_number[0]; n++) {
                    snprintf(command, sizeof command, by_number[n], 8 * sfi + 4);
                    tell_again(&p, command);
                }
                for (size_t n = 0; n < sizeof by_append / sizeof by_append[0]; n++) {
                    snprintf(command, sizeof command, by_append[n], 8 * sfi);
                    tell_again(&p, command);
                }
            }
        }
    end(g);
}

/* ---- directories (R-7) ---- */

/* A byte of the card with directories, and what is put there; a place of 0 is none. */
struct patch {
    size_t place;
    uint8_t value;
};

#define OF_FILE(number, field) offsetof(struct layout, directory.files[number].field)
#define OF_FOLDER(number, field) offsetof(struct layout, directory.folders[number].field)
#define OF_SESSION(field) offsetof(struct layout, session.field)
#define NUMBER offsetof(struct layout, directory.number)
#define NO_FOLDER(number) { OF_FOLDER(number, fid1), 0 }, { OF_FOLDER(number, fid2), 0 }, { OF_FOLDER(number, right), 0 }
#define A_FOURTH { NUMBER, 4 }, { OF_FOLDER(3, fid1), 0x61 }, { OF_FOLDER(3, fid2), 0x03 }, { OF_FOLDER(3, right), 0x0F }
#define FID_OF(what, number, high, low) { what(number, fid1), high }, { what(number, fid2), low }

/*
 * The card has, from place 0 on, the folders 5101, 5102 and 511E, and the files 0101 and 0102 in the root, 0101 and 5102 in the first
 * folder, 0201, 0102 and 0103 in the second. The second folder is current, and so is its 0102.
 */
enum { MOST_PATCHES = 8 };
static const struct {
    const char *what;
    struct patch patches[MOST_PATCHES];
    bool sound;
} known_folders[] = {
    { "as it is", { { 0, 0 } }, true },
    /* How many there are, and places past the last. */
    { "a fourth folder", { A_FOURTH }, true },
    { "a fourth that is blank", { { NUMBER, 4 } }, false },
    { "a fifth", { A_FOURTH, { NUMBER, 5 } }, false },
    { "255 of them", { A_FOURTH, { NUMBER, 255 } }, false },
    { "128 more", { { NUMBER, 131 } }, false },
    { "a fourth that is not counted", { A_FOURTH, { NUMBER, 3 } }, false },
    { "a first FID byte past the last", { { OF_FOLDER(3, fid1), 1 } }, false },
    { "a second FID byte past the last", { { OF_FOLDER(3, fid2), 1 } }, false },
    { "a right past the last", { { OF_FOLDER(3, right), 0x01 } }, false },
    { "two of them, and the third still there", { { NUMBER, 2 } }, false },
    { "two of them", { { NUMBER, 2 }, NO_FOLDER(2) }, true },
    { "one of them, and files in the second", { { NUMBER, 1 }, NO_FOLDER(1), NO_FOLDER(2) }, false },
    { "none of them, and files in them", { { NUMBER, 0 } }, false },
    /* Their FIDs. */
    { "the first twice", { FID_OF(OF_FOLDER, 2, 0x51, 0x01) }, false },
    { "the second twice", { FID_OF(OF_FOLDER, 0, 0x51, 0x02) }, false },
    { "the same low bits twice", { FID_OF(OF_FOLDER, 2, 0x51, 0x21) }, true },
    { "the same second byte twice", { FID_OF(OF_FOLDER, 2, 0x52, 0x01) }, true },
    { "the fourth as the third", { A_FOURTH, FID_OF(OF_FOLDER, 3, 0x51, 0x1E) }, false },
    { "the fourth as the first", { A_FOURTH, FID_OF(OF_FOLDER, 3, 0x51, 0x01) }, false },
    { "the FID of the first root file", { FID_OF(OF_FOLDER, 2, 0x01, 0x01) }, false },
    { "the FID of the second root file", { FID_OF(OF_FOLDER, 0, 0x01, 0x02) }, false },
    { "the low bits of a root file", { FID_OF(OF_FOLDER, 2, 0x01, 0x21) }, true },
    { "a root file's second byte", { FID_OF(OF_FOLDER, 2, 0x02, 0x02) }, true },
    { "the FID of a file inside another folder", { FID_OF(OF_FOLDER, 0, 0x02, 0x01) }, true },
    { "the FID of a file inside itself", { FID_OF(OF_FOLDER, 1, 0x01, 0x03) }, true },
    { "low bits 0", { FID_OF(OF_FOLDER, 2, 0x51, 0x00) }, false },
    { "low bits 0 in another way", { FID_OF(OF_FOLDER, 2, 0x51, 0xE0) }, false },
    { "low bits 31", { FID_OF(OF_FOLDER, 2, 0x51, 0x1F) }, false },
    { "low bits 31 in another way", { FID_OF(OF_FOLDER, 0, 0x51, 0xBF) }, false },
    { "low bits 1", { FID_OF(OF_FOLDER, 2, 0x51, 0xE1) }, true },
    { "low bits 30", { FID_OF(OF_FOLDER, 0, 0x51, 0xBE) }, true },
    { "the root's FID", { FID_OF(OF_FOLDER, 2, 0x3F, 0x00) }, false },
    { "FID 0000", { FID_OF(OF_FOLDER, 2, 0x00, 0x00) }, false },
    { "FID 0001", { FID_OF(OF_FOLDER, 2, 0x00, 0x01) }, true },
    /* The FIDs of files. */
    { "a root file as the first folder", { FID_OF(OF_FILE, 0, 0x51, 0x01) }, false },
    { "a root file as the third folder", { FID_OF(OF_FILE, 0, 0x51, 0x1E) }, false },
    { "a root file as the fourth folder", { A_FOURTH, FID_OF(OF_FILE, 1, 0x61, 0x03) }, false },
    { "a root file as the third folder but for a bit", { FID_OF(OF_FILE, 0, 0x51, 0x3E) }, true },
    { "a root file as a folder but for its first byte", { FID_OF(OF_FILE, 1, 0x50, 0x02) }, true },
    { "a file as its own folder", { FID_OF(OF_FILE, 2, 0x51, 0x01) }, true },
    { "a file as another folder", { FID_OF(OF_FILE, 4, 0x51, 0x01) }, true },
    { "a file inside as a root file", { FID_OF(OF_FILE, 4, 0x01, 0x01) }, true },
    { "an SFI twice in the root", { FID_OF(OF_FILE, 1, 0x02, 0x21) }, false },
    { "an SFI twice in the first folder", { FID_OF(OF_FILE, 3, 0x77, 0x01) }, false },
    { "an SFI twice in the second folder", { FID_OF(OF_FILE, 6, 0x77, 0xE1) }, false },
    { "a FID twice in the second folder", { FID_OF(OF_FILE, 6, 0x01, 0x02) }, false },
    { "low bits 0 inside a folder", { FID_OF(OF_FILE, 6, 0x01, 0x00) }, false },
    { "low bits 31 inside a folder", { FID_OF(OF_FILE, 6, 0x01, 0x1F) }, false },
    { "low bits 30 inside a folder", { FID_OF(OF_FILE, 6, 0x01, 0x1E) }, true },
    /* Where files lie. */
    { "a file in the empty folder", { { OF_FILE(6, folder), 3 } }, true },
    { "a file in a fourth folder", { A_FOURTH, { OF_FILE(6, folder), 4 } }, true },
    { "a file in a folder that is not there", { { OF_FILE(6, folder), 4 } }, false },
    { "a file in a fifth folder", { A_FOURTH, { OF_FILE(6, folder), 5 } }, false },
    { "a file in folder 255", { { OF_FILE(6, folder), 255 } }, false },
    { "a root file in a folder that is not there", { { OF_FILE(0, folder), 4 } }, false },
    { "a root file in the empty folder", { { OF_FILE(0, folder), 3 } }, true },
    { "a root file in a folder that has its SFI", { { OF_FILE(0, folder), 1 } }, false },
    { "a root file in another that has its SFI", { { OF_FILE(1, folder), 2 } }, false },
    { "a file in the root that has its SFI", { { OF_FILE(2, folder), 0 } }, false },
    { "a file in the root, its SFI free there", { { OF_FILE(6, folder), 0 } }, true },
    { "a file in another folder, its SFI free there", { { OF_FILE(6, folder), 1 } }, true },
    { "a file in another folder that has its SFI", { { OF_FILE(4, folder), 1 } }, false },
    { "a file as a folder, in the root", { { OF_FILE(3, folder), 0 }, { OF_FILE(1, fid2), 4 } }, false },
    { "as a folder but for a bit, in the root", { { OF_FILE(3, folder), 0 }, { OF_FILE(1, fid2), 4 }, { OF_FILE(3, fid2), 0x22 } }, true },
    { "a place past the last file in a folder", { { OF_FILE(7, folder), 1 } }, false },
    { "the last place in a folder", { { OF_FILE(15, folder), 3 } }, false },
    /* What is current. */
    { "the current file in the root", { { OF_SESSION(folder), 0 } }, false },
    { "the first folder current, and the file in the second", { { OF_SESSION(folder), 1 } }, false },
    { "the empty folder current, and the file in the second", { { OF_SESSION(folder), 3 } }, false },
    { "no such folder current", { { OF_SESSION(folder), 4 } }, false },
    { "no folder 255 current", { { OF_SESSION(folder), 255 } }, false },
    { "no file current", { { OF_SESSION(current), 0 } }, true },
    { "no file current in the root", { { OF_SESSION(current), 0 }, { OF_SESSION(folder), 0 } }, true },
    { "no file current in the first folder", { { OF_SESSION(current), 0 }, { OF_SESSION(folder), 1 } }, true },
    { "no file current in the empty folder", { { OF_SESSION(current), 0 }, { OF_SESSION(folder), 3 } }, true },
    { "no file current in a folder that is not there", { { OF_SESSION(current), 0 }, { OF_SESSION(folder), 4 } }, false },
    { "no file current in a fourth folder", { A_FOURTH, { OF_SESSION(current), 0 }, { OF_SESSION(folder), 4 } }, true },
    { "no file current in a fifth folder", { A_FOURTH, { OF_SESSION(current), 0 }, { OF_SESSION(folder), 5 } }, false },
    { "another file of the second folder current", { { OF_SESSION(current), 5 } }, true },
    { "the last file of the second folder current", { { OF_SESSION(current), 7 } }, true },
    { "a file past the last current", { { OF_SESSION(current), 8 } }, false },
    { "a root file current in the second folder", { { OF_SESSION(current), 1 } }, false },
    { "a file of the first folder current in the second", { { OF_SESSION(current), 3 } }, false },
    { "a root file current in the root", { { OF_SESSION(current), 2 }, { OF_SESSION(folder), 0 } }, true },
    { "a file of the first folder current in the root", { { OF_SESSION(current), 3 }, { OF_SESSION(folder), 0 } }, false },
    { "a file of the first folder current in it", { { OF_SESSION(current), 4 }, { OF_SESSION(folder), 1 } }, true },
    { "a root file current in the first folder", { { OF_SESSION(current), 1 }, { OF_SESSION(folder), 1 } }, false },
    { "a place past the last file current in the root", { { OF_SESSION(current), 8 }, { OF_SESSION(folder), 0 } }, false },
    { "the current file moved away", { { OF_FILE(5, folder), 3 } }, false },
    { "the current file moved, and its folder current", { { OF_FILE(5, folder), 3 }, { OF_SESSION(folder), 3 } }, true },
};

/* The C check is held to what was worked out by hand as well. */
static void folders_by_hand(void)
{
    struct group g = begin("directories of which it was worked out by hand whether they are sound");
    struct tally t = { 0 };

    for (size_t i = 0; i < sizeof known_folders / sizeof known_folders[0]; i++) {
        struct pattern p = patterns[WITH_FOLDERS];
        for (size_t n = 0; n < MOST_PATCHES; n++)
            if (known_folders[i].patches[n].place != 0)
                p.card[known_folders[i].patches[n].place] = known_folders[i].patches[n].value;
        call_number = i;
        if (is_sound(p.card, p.area) != known_folders[i].sound)
            wrong("tests/c/layout.c says that this is %s: %s", known_folders[i].sound ? "not sound" : "sound", known_folders[i].what);
        count_card(&t, &p);
        try_card(&p, true);
    }
    end(g);
    print_tally("all of them", &t);
}

/* Every creation right and every second byte of a FID, of the first folder and of the last. */
static void folder_bytes_by_hand(void)
{
    struct group g = begin("creation rights and FIDs of which it was written down whether they are good");
    struct tally t = { 0 };

    for (unsigned byte = 0; byte < 256; byte++)
        for (unsigned choice = 0; choice < 4; choice++) {
            struct pattern p = patterns[WITH_FOLDERS];
            size_t folder = offsetof(struct layout, directory.folders) + (choice & 1 ? 2 : 0) * sizeof(struct folder);
            bool good = is_good_by_hand(byte);
            if (choice & 2) {
                p.card[folder] = 0x52; /* a first byte that no other FID has */
                p.card[folder + 1] = (uint8_t)byte;
                good = byte % 32 != 0 && byte % 32 != 31;
            } else
                p.card[folder + 2] = (uint8_t)byte;
            call_number++;
            if (is_sound(p.card, p.area) != good)
                wrong("tests/c/layout.c says of %02X that it is %s", byte, good ? "bad" : "good");
            count_card(&t, &p);
            try_card(&p, !is_short);
        }
    end(g);
    print_tally("all of them", &t);
}

/* A FID out of a few, so that the same ones meet. */
static const uint8_t *any_fid(void)
{
    static const uint8_t fids[][2] = {
        { 0x51, 0x01 }, { 0x51, 0x02 }, { 0x51, 0x1E }, { 0x51, 0x21 }, { 0x01, 0x01 }, { 0x01, 0x02 }, { 0x01, 0x03 }, { 0x01, 0x1E },
        { 0x61, 0x03 }, { 0x61, 0x04 }, { 0x61, 0x05 }, { 0x61, 0x06 }, { 0x61, 0x07 }, { 0x61, 0x08 }, { 0x51, 0x1F }, { 0x3F, 0x00 }
    };

    return fids[random_below(random_below(16) ? 14 : 16)];
}

/* Folders, where files lie and what is current at random, in many of which nothing is wrong. */
static void folders_at_random(void)
{
    static const uint8_t rights[] = { 0x00, 0x01, 0x0F, 0x40, 0xC2, 0xC1, 0x83, 0x02 };
    struct group g = begin("directories at random");
    struct tally t = { 0 };

    for (unsigned i = 0; i < (is_short ? 1000u : 50000u / one_in); i++) {
        struct pattern p = patterns[WITH_FOLDERS];
        struct layout c;
        memcpy(&c, p.card, sizeof c);
        struct directory *d = &c.directory;
        d->number = (uint8_t)(random_below(32) ? random_below(5) : 5);
        memset(d->folders, 0, sizeof d->folders);
        for (unsigned n = 0; n < d->number && n < FOLDERS; n++) {
            const uint8_t *fid = any_fid();
            d->folders[n] = (struct folder){ fid[0], fid[1], rights[random_below(random_below(8) ? 7 : 8)] };
        }
        bool differ = random_below(4) > 0; /* the SFIs of all files, but for a few */
        for (unsigned n = 0; n < d->count; n++) {
            const uint8_t *fid = any_fid();
            if (differ)
                d->files[n].fid2 = (uint8_t)(1 + n);
            if (random_below(differ ? 16 : 3) == 0) {
                d->files[n].fid1 = fid[0];
                d->files[n].fid2 = fid[1];
            }
            d->files[n].folder = (uint8_t)random_below(random_below(64) ? d->number + 1u : 6);
        }
        c.session.current = (uint8_t)(random_below(2) ? 0 : random_below(d->count + 2u));
        c.session.folder = (uint8_t)random_below(random_below(16) ? d->number + 1u : 6);
        if (1 <= c.session.current && c.session.current <= d->count && random_below(4))
            c.session.folder = d->files[c.session.current - 1].folder;
        memcpy(p.card, &c, sizeof c);
        call_number = i;
        count_card(&t, &p);
        try_card(&p, !is_short || is_sound(p.card, p.area));
    }
    end(g);
    print_tally("all of them", &t);
}

/* A response of which it is known beforehand whether it is sound: the C check is held to it as well. */
static void try_response(const struct response *r, bool sound, struct tally *t, bool all)
{
    struct pattern p = *in_use();

    memcpy(p.card + offsetof(struct layout, response), r, sizeof *r);
    call_number++;
    if (is_sound(p.card, p.area) != sound)
        wrong("tests/c/layout.c says that mode %u, %u waiting and their bytes are %s", r->mode, waiting_count(r),
              sound ? "not sound" : "sound");
    count_card(t, &p);
    try_card(&p, all && !is_short);
}

static struct response response_of(unsigned mode, unsigned count)
{
    struct response r = { .mode = (uint8_t)mode };

    set_waiting_count(&r, count);
    return r;
}

/* Of the waiting bytes so many from the front are FF, and the others 00. */
static const struct {
    unsigned mode, count, filled;
    bool sound;
} known_responses[] = {
    { 0, 0, 0, true },
    { 0, 0, 1, false },      /* a byte past those that wait */
    { 0, 0, 256, false },
    { 0, 1, 0, false },      /* nothing waits in mode 0, */
    { 0, 1, 1, false },
    { 0, 256, 0, false },    /* also where the low byte of the count is 00 */
    { 0, 256, 256, false },
    { 0, 65535, 0, false },
    { 1, 0, 0, true },
    { 1, 0, 1, false },
    { 1, 0, 256, false },
    { 1, 1, 0, true },       /* a byte that waits may be 00 */
    { 1, 1, 1, true },
    { 1, 1, 2, false },
    { 1, 2, 1, true },
    { 1, 255, 255, true },
    { 1, 255, 256, false },
    { 1, 256, 0, true },
    { 1, 256, 255, true },
    { 1, 256, 256, true },   /* as many as can */
    { 1, 257, 0, false },
    { 1, 257, 256, false },
    { 1, 511, 256, false },
    { 1, 512, 0, false },    /* the low byte is 00 */
    { 1, 32768, 0, false },
    { 1, 65535, 0, false },
    { 1, 65535, 256, false },
    { 2, 0, 0, false },      /* no mode */
    { 2, 1, 1, false },
    { 3, 0, 0, false },
    { 128, 0, 0, false },
    { 129, 1, 1, false },
    { 254, 0, 0, false },
    { 255, 0, 0, false },
    { 255, 256, 256, false },
};

static void responses_by_hand(void)
{
    struct group g = begin("modes and waiting bytes of which it was worked out by hand whether they are sound");
    struct tally t = { 0 };

    for (size_t i = 0; i < sizeof known_responses / sizeof known_responses[0]; i++) {
        struct response r = response_of(known_responses[i].mode, known_responses[i].count);
        memset(r.bytes, 0xFF, known_responses[i].filled);
        try_response(&r, known_responses[i].sound, &t, true);
    }
    end(g);
    print_tally("all of them", &t);
}

/* With waiting bytes of 00 the mode and the count alone decide. */
static void modes_and_counts(void)
{
    struct group g = begin("every mode with nothing waiting, and every count in both modes");
    struct tally t = { 0 };

    for (unsigned mode = 0; mode < 256; mode++) {
        struct response r = response_of(mode, 0);
        try_response(&r, mode <= 1, &t, true);
    }
    for (unsigned count = 0; count < 65536; count += is_short && count >= 300 ? 317 : count >= 600 ? one_in : 1)
        for (unsigned mode = 0; mode <= 1; mode++) {
            struct response r = response_of(mode, count);
            try_response(&r, count <= (mode == 1 ? 256u : 0u), &t, false);
        }
    end(g);
    print_tally("all of them", &t);
}

/* One byte that is not 00, before the end of those that wait or past it. */
static void places_past_the_count(void)
{
    struct group g = begin("every count of waiting bytes with one byte set, at every place");
    struct tally t = { 0 };
    unsigned long turn = 0;

    for (unsigned count = 0; count <= WAITING_ROOM; count += is_short ? 16 : 1)
        for (unsigned place = 0; place < WAITING_ROOM; place += is_short ? 5 : 1) {
            if (turn++ % one_in != 0)
                continue;
            struct response r = response_of(1, count);
            r.bytes[place] = (uint8_t)(1 + (7 * place + count) % 255);
            try_response(&r, place < count, &t, false);
        }
    end(g);
    print_tally("all of them", &t);
}

/* ---- the journal (R-10) ---- */

/* A journal that is not 00 is for recovery alone: all other calls refuse the card, also where it says what already is. */
static void try_journal(const struct pattern *p, const struct journal *j, struct tally *t, bool all)
{
    static const struct journal none;
    struct pattern spoiled = *p;

    memcpy(spoiled.card + offsetof(struct layout, journal), j, sizeof *j);
    call_number++;
    if (is_sound(spoiled.card, spoiled.area) != (memcmp(j, &none, sizeof none) == 0))
        wrong("tests/c/layout.c takes a journal for %u for %s", j->what, is_sound(spoiled.card, spoiled.area) ? "none" : "one");
    count_card(t, &spoiled);
    try_card(&spoiled, all && !is_short);
}

/* For everything that a journal may name and may not, with 00 and with what is there already; and each byte of it alone. */
static void journals_by_hand(void)
{
    struct group g = begin("journals, none of which is sound but the empty one");
    struct tally t = { 0 };

    for (size_t i = 0; i < SORTS; i++) {
        struct layout c;
        memcpy(&c, patterns[i].card, sizeof c);
        for (unsigned what = 0; what < 256; what += is_short ? 5 : 1) {
            struct journal j = { .what = (uint8_t)what };
            try_journal(&patterns[i], &j, &t, what < OF_FILES);
        }
        for (size_t n = 0; n < CREDENTIALS; n++) {
            struct journal j = { .what = (uint8_t)(OF_CREDENTIALS + n) };
            memcpy(j.bytes, c.credentials[n].value, VALUE_ROOM);
            j.bytes[VALUE_ROOM] = c.credentials[n].length;
            try_journal(&patterns[i], &j, &t, true);
        }
        for (size_t n = 0; n < c.directory.count; n++) {
            const struct file *f = &c.directory.files[n];
            struct journal j = { .what = (uint8_t)(OF_FILES + n), .bytes = { f->held, f->newest, f->used1, f->used2 } };
            try_journal(&patterns[i], &j, &t, true);
        }
        for (size_t place = 0; place < JOURNAL_ROOM; place++)
            for (unsigned value = 1; value < 256; value += value < 4 ? 1 : 63) {
                struct journal j = { .what = 0 };
                j.bytes[place] = (uint8_t)value;
                try_journal(&patterns[i], &j, &t, value == 1);
            }
    }
    end(g);
    print_tally("all of them", &t);
}

static void get_response(const struct pattern *p, const uint8_t *command, size_t length)
{
    struct held h = hold_part(p, LIMPET_AREA_SIZE);

    call_number++;
    watched_command(&h, given_bytes(command, length), given_bytes(c1_block, sizeof c1_block), LIMPET_REPLY_SIZE, false);
    let_go(&h);
}

/* Every Le, both bytes of P, every case, broken frames and other classes, in both modes. */
static void every_get_response(void)
{
    static const uint8_t forms[][8] = {
        { 0x00, 0xC0, 0x01, 0x00, 0x01 }, { 0x00, 0xC0, 0x00, 0x01, 0x01 }, { 0x00, 0xC0, 0x80, 0x00, 0x00 },
        { 0x00, 0xC0, 0x00, 0xFF, 0x00 }, { 0x80, 0xC0, 0x00, 0x00, 0x01 }, { 0x01, 0xC0, 0x00, 0x00, 0x01 },
        { 0x00, 0xC1, 0x00, 0x00, 0x01 }, { 0x00, 0xC0, 0x00, 0x00, 0x01 }, { 0x00, 0xC0, 0x00, 0x00, 0x02 }
    };
    struct group g = begin("GET RESPONSE in every form, on each card in use");

    for (size_t i = 0; i < SORTS; i++) {
        for (unsigned le = 0; le < 256; le += is_short ? 15 : 1)
            get_response(&patterns[i], (const uint8_t[]){ 0x00, 0xC0, 0x00, 0x00, (uint8_t)le }, 5);
        for (size_t form = 0; form < sizeof forms / sizeof forms[0]; form++)
            for (size_t length = 0; length <= sizeof forms[form]; length++)
                get_response(&patterns[i], forms[form], length);
    }
    end(g);
}

/* A GET RESPONSE at random: as a rule of a part; some are refused, but none by its framing, which would discard what waits. */
static size_t any_get_response(uint8_t *command, unsigned waiting)
{
    unsigned le = 1 + random_below(random_below(4) ? 1 + waiting / 4 : 255);

    memcpy(command, (const uint8_t[]){ 0x00, 0xC0, 0x00, 0x00, (uint8_t)le, 0x01, 0x00 }, 7);
    switch (random_below(16)) {
    case 0:
        command[4] = 0;
        return 5;
    case 1:
        command[2 + random_below(2)] = (uint8_t)(1 + random_below(255));
        return 5;
    case 2:
        return 4; /* case 1 */
    case 3:
        command[4] = 1;
        return 6 + random_below(2); /* cases 3 and 4 */
    default:
        return 5;
    }
}

/* "However the data are cut by GET RESPONSE until none wait", the parts joined are what waited. */
static void fetch_all(struct held *h, const struct response *r)
{
    uint8_t joined[WAITING_ROOM], command[7];
    size_t count = 0;

    for (unsigned tries = 0; count < waiting_count(r) && tries < 10000; tries++) {
        size_t length = any_get_response(command, waiting_count(r));
        struct answer a = watched_command(h, given_bytes(command, length), given_bytes(c1_block, sizeof c1_block),
                                          LIMPET_REPLY_SIZE, false);
        size_t data = a.outcome == LIMPET_OK && a.count >= 2 ? a.count - 2 : 0;
        if (data > sizeof joined - count)
            break;
        memcpy(joined + count, a.reply, data);
        count += data;
    }
    if (count != waiting_count(r) || memcmp(joined, r->bytes, count) != 0)
        wrong("of %u bytes that waited %zu were fetched, or others", waiting_count(r), count);
    if (tell(h, "00 C0 0000 00") != 0x6985)
        wrong("all was fetched, and something still waits");
}

static void fetched_in_parts(void)
{
    struct group g = begin("waiting bytes fetched in parts at random");

    for (unsigned i = 0; i < (is_short ? 50u : 2000u / one_in); i++) {
        struct pattern p = patterns[random_below(SORTS)];
        struct response r = response_of(1, random_below(4) ? 1 + random_below(WAITING_ROOM) : WAITING_ROOM);
        for (unsigned place = 0; place < waiting_count(&r); place++)
            r.bytes[place] = (uint8_t)random_below(256);
        memcpy(p.card + offsetof(struct layout, response), &r, sizeof r);
        struct held h = hold_part(&p, LIMPET_AREA_SIZE);
        call_number = i;
        fetch_all(&h, &r);
        let_go(&h);
    }
    end(g);
}

/* Any bytes are a state: cards that never were one, with the area of a card in use. */
static void cards_of_any_bytes(void)
{
    struct group g = begin("cards of random bytes");
    struct pattern spoiled = *in_use();
    struct tally t = { 0 };

    for (unsigned i = 0; i < (is_short ? 100u : 10000u / one_in); i++) {
        for (size_t place = 0; place < LIMPET_CARD_SIZE; place++)
            spoiled.card[place] = (uint8_t)random_below(256);
        call_number = i;
        count_card(&t, &spoiled);
        try_card(&spoiled, !is_short);
    }
    end(g);
    print_tally("all of them", &t);
}

void try_spoiled_cards(void)
{
    cards_with_several();
    rights_by_hand();
    transport_keys_by_hand();
    every_coded();
    folders_by_hand();
    folder_bytes_by_hand();
    folders_at_random();
    responses_by_hand();
    modes_and_counts();
    places_past_the_count();
    journals_by_hand();
    every_get_response();
    fetched_in_parts();
    cards_of_any_bytes();
}
