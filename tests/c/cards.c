#include "cards.h"

#include <stdbool.h>
#include <stdio.h>
#include <string.h>

#include "coded.h"
#include "fips.h"

#define ADMIN_PIN "87654321"
#define USER_PIN "1234567890123456"

struct given given_bytes(const uint8_t *bytes, size_t length)
{
    return (struct given){ bytes, length, false };
}

struct given given_text(const char *text)
{
    return given_bytes((const uint8_t *)text, strlen(text));
}

static const uint8_t transport_key[LIMPET_KEY_SIZE] = {
    0x10, 0x11, 0x12, 0x13, 0x14, 0x15, 0x16, 0x17, 0x18, 0x19, 0x1A, 0x1B, 0x1C, 0x1D, 0x1E, 0x1F
};

struct order good_order(void)
{
    return (struct order){
        .key = given_bytes(c1_key, sizeof c1_key), .device_limit = 128,
        .admin_pin = given_text(ADMIN_PIN), .admin_limit = 5,
        .user_pin = given_text(USER_PIN), .user_limit = 3,
        .mode = 0,
        .transport_key = given_bytes(transport_key, sizeof transport_key), .transport_limit = 10
    };
}

/* The code of a command so far, for a card whose bytes may be any. */
static void put_code(const struct held *h, uint8_t *command, size_t length)
{
    struct layout c;

    memcpy(&c, h->card.bytes, sizeof c);
    code_for(&c, command, length, command + length);
}

/* The value of an upper-case hex digit, 16 where it is none. */
static unsigned digit_of(char c)
{
    return '0' <= c && c <= '9' ? (unsigned)(c - '0') : 'A' <= c && c <= 'F' ? (unsigned)(c - 'A') + 10 : 16;
}

unsigned tell(struct held *h, const char *command)
{
    uint8_t bytes[300];
    size_t length = 0;

    while (*command != '\0') {
        if (*command == ' ') {
            command++;
        } else if (length + LIMPET_CODE_SIZE > sizeof bytes) {
            break;
        } else if (*command == '*') {
            put_code(h, bytes, length);
            length += LIMPET_CODE_SIZE;
            command++;
        } else if (digit_of(command[0]) < 16 && digit_of(command[1]) < 16) {
            bytes[length++] = (uint8_t)(16 * digit_of(command[0]) + digit_of(command[1]));
            command += 2;
        } else {
            wrong("no command: %s", command);
            break;
        }
    }
    struct answer a = watched_command(h, given_bytes(bytes, length),
                                      given_bytes(c1_block, sizeof c1_block), LIMPET_REPLY_SIZE, false);
    if (a.outcome != LIMPET_OK)
        return 0;
    return 256u * a.reply[a.count - 2] + a.reply[a.count - 1];
}

/* A step in the making of a card: it has to end 9000, or 61xx, "which counts as 9000". */
static void told(struct held *h, const char *command)
{
    unsigned sw = tell(h, command);

    if (sw != 0x9000 && sw >> 8 != 0x61)
        wrong("the command %s of a card in the making ends %04X", command, sw);
}

static void log_in_device(struct held *h)
{
    told(h, "00 84 0000 10");
    told(h, "00 82 0000 10 69C4E0D86A7B0430D8CDB78070B4C55A");
}

static void log_in_pins(struct held *h)
{
    told(h, "00 20 0000 08 3837363534333231");
    told(h, "00 20 0001 10 31323334353637383930313233343536");
}

static void issue_in(struct held *h, uint16_t mode)
{
    struct order o = good_order();

    o.mode = mode;
    if (watched_issue(h, &o) != LIMPET_OK)
        wrong("a good order is refused");
}

static void issue(struct held *h)
{
    issue_in(h, 0);
}

/* A file of each type but 2C; four records appended to three places; the cyclic file is current. */
static void with_files_in(struct held *h, uint16_t mode)
{
    issue_in(h, mode);
    log_in_device(h);
    told(h, "80 E0 0101 05 28 0040 00 01");
    told(h, "80 E0 0102 05 2A 0405 80 01");
    told(h, "80 E0 0103 05 2E 0304 00 00");
    told(h, "00 D6 8104 03 A1A2A3");
    told(h, "00 DC 0214 05 B1B2B3B4B5");
    told(h, "00 E2 0018 04 C1C1C1C1");
    told(h, "00 E2 0018 04 C2C2C2C2");
    told(h, "00 E2 0018 04 C3C3C3C3");
    told(h, "00 E2 0018 04 C4C4C4C4");
    if (watched_reset(h) != LIMPET_OK)
        wrong("a reset of a card in the making is refused");
    told(h, "00 A4 0000 02 0103");
}

static void with_files(struct held *h)
{
    with_files_in(h, 0);
}

static void with_rights(struct held *h)
{
    with_files(h);
    log_in_device(h);
    log_in_pins(h);
    told(h, "00 84 0000 08");
}

/* Once with a challenge; the code is wrong, whatever the file. */
static void give_wrong_code(struct held *h)
{
    told(h, "00 84 0000 04");
    if (tell(h, "04 B0 8100 04 00000000 01") != 0x6988)
        wrong("a wrong code of a card in the making is not 6988");
}

/* One cyclic file with a record, user PIN and transport key without tries, admin PIN with some gone, a challenge of 16. */
static void locked(struct held *h)
{
    issue(h);
    log_in_device(h);
    told(h, "80 E0 2A1E 05 2E FE10 0F 00");
    told(h, "00 E2 0000 10 D0D1D2D3D4D5D6D7D8D9DADBDCDDDEDF");
    for (int i = 0; i < 3; i++)
        tell(h, "00 20 0001 06 313131313131");
    tell(h, "00 20 0000 06 313131313131");
    for (int i = 0; i < 10; i++)
        give_wrong_code(h);
    told(h, "00 84 0000 10");
}

/* Sixteen files, the whole area taken, device right held. */
static void full(struct held *h)
{
    char command[64];

    issue(h);
    log_in_device(h);
    for (unsigned sfi = 1; sfi <= 16; sfi++) {
        snprintf(command, sizeof command, "80 E0 %04X 05 %s 41 C1", 0x4000 + sfi, sfi % 2 ? "28 0100" : "2E 4004");
        told(h, command);
    }
}

/*
 * Three folders, the last one empty. SFI 1 and 2 are in the root and in the two others; 0101 and 0102 are twice; a file in the first
 * folder has the second one's FID. A file of the second folder is current, and there are a challenge and the device right.
 */
static void with_folders(struct held *h)
{
    issue(h);
    log_in_device(h);
    told(h, "80 E0 5101 05 38 0000 00 00");
    told(h, "80 E0 5102 05 38 0000 01 00");
    told(h, "80 E0 511E 05 38 0000 C2 00");
    told(h, "80 E0 0101 05 28 0010 00 01");
    told(h, "80 E0 0102 05 2E 0304 00 00");
    told(h, "00 E2 0010 04 A1A1A1A1");
    told(h, "00 A4 0000 02 5101");
    told(h, "80 E0 0101 05 28 0008 00 00");
    told(h, "80 E0 5102 05 2C 0010 80 00");
    told(h, "00 A4 0000 02 3F00");
    told(h, "00 A4 0000 02 5102");
    told(h, "80 E0 0201 05 2A 0203 00 01");
    told(h, "80 E0 0102 05 28 0004 00 00");
    told(h, "80 E0 0103 05 2E 0304 00 00");
    told(h, "00 E2 0018 04 B1B1B1B1");
    told(h, "00 D6 8200 02 C1C2");
    told(h, "00 84 0000 04");
}

/*
 * Files that ask for codes to be read or written, with rights and without, written and read by coded commands. Two tries of the
 * transport key are gone, the admin right is held and a challenge of 8 bytes is there.
 */
static void with_codes(struct held *h)
{
    static const char *const coded[] = {
        "04 D6 8100 07 A1A2A3 *", "04 DC 0214 09 B1B2B3B4B5 *", "04 E2 0018 08 C1C1C1C1 *", "04 D6 8500 05 E1 *", "04 B0 8100 04 * 00",
        "04 B2 0114 04 * 05", "04 B2 011C 04 * 00"
    };

    issue(h);
    log_in_device(h);
    told(h, "80 E0 0101 05 28 0010 04 04");
    told(h, "80 E0 0102 05 2A 0405 C6 05");
    told(h, "80 E0 0103 05 2E 0304 44 04");
    told(h, "80 E0 0104 05 2C 0010 C4 47");
    told(h, "80 E0 0105 05 28 0008 0F 86");
    told(h, "80 E0 0106 05 28 0008 00 01");
    log_in_pins(h);
    for (size_t i = 0; i < sizeof coded / sizeof coded[0]; i++) {
        told(h, "00 84 0000 10");
        told(h, coded[i]);
    }
    if (watched_reset(h) != LIMPET_OK)
        wrong("a reset of a card in the making is refused");
    give_wrong_code(h);
    give_wrong_code(h);
    told(h, "00 20 0000 08 3837363534333231");
    told(h, "00 84 0000 08");
}

/* A read made another file current; the challenge after it was fetched in two parts, and stays. */
static void none_waiting(struct held *h)
{
    with_files_in(h, 1);
    told(h, "00 B0 8104 03");
    told(h, "00 84 0000 08");
    told(h, "00 C0 0000 03");
    told(h, "00 C0 0000 05");
}

/* As many bytes wait as can, the first and the last of them not 00. */
static void all_waiting(struct held *h)
{
    issue_in(h, 1);
    log_in_device(h);
    told(h, "80 E0 0101 05 28 0140 00 01");
    told(h, "00 D6 0020 04 A1A2A3A4");
    told(h, "00 D6 011E 02 B1B2");
    told(h, "00 B0 0020 00");
}

/* Appends one record of so many bytes, all of that value. */
static void append_run(struct held *h, unsigned sfi, unsigned length, unsigned value)
{
    char command[16 + 2 * 178];
    int written = snprintf(command, sizeof command, "00 E2 00%02X %02X ", 8 * sfi, length);

    for (unsigned i = 0; i < length; i++)
        written += snprintf(command + written, sizeof command - (size_t)written, "%02X", value);
    told(h, command);
}

/*
 * Files of type 2C: all but full, with room, full, the smallest, with the longest record, empty, and full at the area's end; files of
 * other types between. Records hold small numbers, so that other lengths than their own may part the used bytes too. Five bytes of
 * a challenge wait, three were fetched.
 */
static void with_notes(struct held *h)
{
    issue_in(h, 1);
    log_in_device(h);
    told(h, "80 E0 0101 05 28 0010 00 01");
    told(h, "80 E0 0102 05 2C 0010 80 01");
    told(h, "00 E2 0010 06 464545444552");
    told(h, "00 E2 0010 07 41554745522037");
    told(h, "80 E0 0103 05 2C 0040 00 00");
    told(h, "00 E2 0018 01 02");
    told(h, "00 E2 0018 04 03020100");
    told(h, "00 E2 0018 09 080706050403020100");
    told(h, "80 E0 0104 05 2E 0304 00 00");
    told(h, "00 E2 0020 04 C1C1C1C1");
    told(h, "80 E0 0105 05 2C 000C 00 01");
    told(h, "00 E2 0028 01 00");
    told(h, "00 E2 0028 02 0101");
    told(h, "00 E2 0028 06 010101010101");
    told(h, "80 E0 0106 05 2A 0203 00 01");
    told(h, "80 E0 0107 05 2C 0002 00 01");
    told(h, "00 E2 0038 01 01");
    told(h, "80 E0 0108 05 2C 0100 00 01");
    append_run(h, 8, 178, 88);
    append_run(h, 8, 1, 0);
    told(h, "80 E0 0109 05 2C 0020 00 01");
    told(h, "80 E0 010A 05 28 0E30 00 01");
    told(h, "80 E0 010B 05 2C 0030 00 01");
    for (int i = 0; i < 3; i++)
        append_run(h, 11, 15, 15);
    log_in_pins(h);
    told(h, "00 A4 0000 02 0103");
    told(h, "00 84 0000 08");
    told(h, "00 C0 0000 03");
}

/* The whole area is one file of type 2C, with as many records as fit. */
static void full_of_notes(struct held *h)
{
    issue(h);
    log_in_device(h);
    told(h, "80 E0 0103 05 2C 1000 00 00");
    for (unsigned i = 0; i < LIMPET_AREA_SIZE / 2; i++)
        append_run(h, 3, 1, i % 256);
}

const struct sort sorts[SORTS] = {
    [FRESH] = { "fresh", issue },
    [WITH_FILES] = { "with files and records", with_files },
    [WITH_RIGHTS] = { "with all rights and a challenge", with_rights },
    [LOCKED] = { "with a locked PIN", locked },
    [SIXTEEN] = { "with sixteen files", full },
    [WITH_FOLDERS] = { "with directories", with_folders },
    [WITH_CODES] = { "with files that ask for codes", with_codes },
    [NONE_WAITING] = { "in mode 1 with nothing waiting", none_waiting },
    [ALL_WAITING] = { "in mode 1 with 256 bytes waiting", all_waiting },
    [WITH_NOTES] = { "in mode 1 with notes of different lengths and five bytes waiting", with_notes },
    [FULL_OF_NOTES] = { "full of notes of one byte", full_of_notes },
};
