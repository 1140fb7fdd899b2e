/*
 * How long one call takes in place, on cards with notes (files of type 2C), on
 * cards of mode 1, with codes and on others: one command, again and again on the
 * same card.
 *
 * An earlier library may have no type 2C, no mode and no codes: no card is reset,
 * and cards that cannot be made are left out. Codes are worked out by
 * tests/c/coded.c, since such a library has no call for them.
 */
#include <stdbool.h>
#include <stdio.h>
#include <stdlib.h>
#include <string.h>

#include "coded.h"
#include "fips.h"
#include "given.h"
#include "limpetnook.h"
#include "measure.h"

enum { CALLS = 2000, MOST_RECORDS = LIMPET_AREA_SIZE / 2, AREAS = 64 };

static uint8_t kept[CARD_ROOM];
static uint8_t areas[AREAS][LIMPET_AREA_SIZE];
static bool is_once;

static const char usage[] =
    "usage: notes ROUNDS\n"
    "       notes --once [--some]\n"
    "\n"
    "Gives cards in place one command each, 2,000 times in each of ROUNDS rounds (1 to\n"
    "999), and prints for each how many calls a second the fastest round had.\n"
    "--once: prints a line for each call of limpet_command, whose instructions are to be\n"
    "counted; the calls that make a card have the line \"making\". --some: on cards without\n"
    "notes alone, which are made by few calls.\n";

static unsigned made(const char *digits, size_t more)
{
    struct bytes command = read_command(digits, more);

    if (is_once)
        puts("making");
    return give(&command);
}

/* It ends 9000, or 61xx, which counts as 9000. */
static void make(const char *digits, size_t more)
{
    unsigned word = made(digits, more);

    if (word != 0x9000 && word >> 8 != 0x61)
        stop(digits, word, 0x9000);
}

static void issue(void)
{
    issue_in(0);
}

/* With the cryptogram of FIPS 197 C.1. */
static void log_in(void)
{
    issue();
    make("00 84 0000 10", 0);
    make("00 82 0000 10 69C4E0D86A7B0430D8CDB78070B4C55A", 0);
}

/*
 * One command on the card as it is, which is set back before each call: so an append finds room again, and a code its challenge. That
 * takes a few ns.
 */
static void measure_command(int turns, int rounds, const char *on, const char *what, const struct bytes *command, unsigned due)
{
    const size_t size = limpet_card_size();
    double best = 0;

    memcpy(kept, card, size);
    if (is_once) {
        printf("%s: %s\n", on, what);
        rounds = 0;
    }
    unsigned word = give(command);
    if (word != due)
        stop(what, word, due);
    for (int round = 0; round < rounds; round++) {
        double start = processor_time();
        for (int i = 0; i < CALLS; i++) {
            memcpy(card, kept, size);
            area = areas[i % turns];
            give(command);
        }
        area = areas[0];
        double took = (processor_time() - start) / CALLS;
        if (round == 0 || took < best)
            best = took;
    }
    memcpy(card, kept, size);
    if (!is_once)
        printf("%.0f\t%s: %s\n", best > 0 ? 1 / best : 0, on, what);
}

static void measure_in_turn(int turns, int rounds, const char *on, const char *what, const char *digits, size_t more, unsigned due)
{
    struct bytes command = read_command(digits, more);

    measure_command(turns, rounds, on, what, &command, due);
}

static void measure(int rounds, const char *on, const char *what, const char *digits, size_t more, unsigned due)
{
    measure_in_turn(1, rounds, on, what, digits, more, due);
}

/* ---------------------------------------------------- cards without notes */

static void without_files(int rounds)
{
    issue();
    measure(rounds, "no files", "query", "00 20 0001", 0, 0x63C3);
    measure(rounds, "no files", "wrong PIN", "00 20 0001 06 303030303030", 0, 0x63C2);
}

static void with_sixteen(int rounds)
{
    char command[64];

    log_in();
    for (unsigned sfi = 1; sfi <= 16; sfi++) {
        snprintf(command, sizeof command, "80 E0 %04X 05 %s 00 00", 0x4000 + sfi, sfi % 2 ? "28 0100" : "2E 4004");
        make(command, 0);
    }
    measure(rounds, "16 files, 28 and 2E", "query", "00 20 0001", 0, 0x63C3);
    measure(rounds, "16 files, 28 and 2E", "append to the last", "00 E2 0080 04", 4, 0x9000);
    for (unsigned i = 0; i < 64; i++)
        make("00 E2 0080 04", 4);
    measure(rounds, "16 files, 28 and 2E", "append to the last, which is full", "00 E2 0080 04", 4, 0x9000);
    measure(rounds, "16 files, 28 and 2E", "read the newest record of the last", "00 B2 0184 00", 0, 0x9000);
}

static void with_binary(int rounds)
{
    log_in();
    make("80 E0 0101 05 28 1000 00 00", 0);
    measure(rounds, "a 28 file of 4,096 bytes", "query", "00 20 0001", 0, 0x63C3);
    measure(rounds, "a 28 file of 4,096 bytes", "read 256 bytes", "00 B0 8100 00", 0, 0x9000);
    measure(rounds, "a 28 file of 4,096 bytes", "update 16 bytes", "00 D6 8100 10", 16, 0x9000);
    measure(rounds, "a 28 file of 4,096 bytes", "update 247 bytes", "00 D6 8100 F7", 247, 0x9000);
    measure(rounds, "a 28 file of 4,096 bytes", "update 255 bytes", "00 D6 8100 FF", 255, 0x9000);
}

static void with_fixed(int rounds)
{
    log_in();
    make("80 E0 0101 05 2A 8020 00 00", 0);
    measure(rounds, "a 2A file of 128 records of 32 bytes", "query", "00 20 0001", 0, 0x63C3);
    measure(rounds, "a 2A file of 128 records of 32 bytes", "read number 1", "00 B2 010C 00", 0, 0x9000);
    measure(rounds, "a 2A file of 128 records of 32 bytes", "read number 128", "00 B2 800C 00", 0, 0x9000);
    measure(rounds, "a 2A file of 128 records of 32 bytes", "update number 128", "00 DC 800C 20", 32, 0x9000);
}

/* ------------------------------------------------------------------ codes */

/* Whether there are codes: a file can ask for them. Then there is a challenge of 16 bytes. */
static bool create_coded(void)
{
    log_in();
    if (made("80 E0 0101 05 28 1000 04 04", 0) != 0x9000)
        return false;
    make("00 84 0000 10", 0);
    return true;
}

/* A command up to its code, and Le behind it where there is one; with a bit of the code wrong where it is due to be. */
static void measure_coded(int rounds, const char *what, const char *digits, size_t more, int le, unsigned due)
{
    struct bytes command = read_command(digits, more);

    code_of(c1_cryptogram, c1_block, sizeof c1_block, command.at, command.length, command.at + command.length);
    command.at[command.length] ^= due == 0x6988;
    command.length += LIMPET_CODE_SIZE;
    if (le >= 0)
        command.at[command.length++] = (uint8_t)le;
    measure_command(1, rounds, "a 28 file of 4,096 bytes that asks for codes", what, &command, due);
}

static void with_codes(int rounds)
{
    measure(rounds, "a 28 file of 4,096 bytes that asks for codes", "update 16 bytes without a code", "00 D6 8100 10", 16, 0x6982);
    measure_coded(rounds, "coded update of 1 byte", "04 D6 8100 05", 1, -1, 0x9000);
    measure_coded(rounds, "coded update of 16 bytes", "04 D6 8100 14", 16, -1, 0x9000);
    measure_coded(rounds, "coded update of 16 bytes, wrong code", "04 D6 8100 14", 16, -1, 0x6988);
    measure_coded(rounds, "coded update of 247 bytes", "04 D6 8100 FB", 247, -1, 0x9000);
    measure_coded(rounds, "coded read of 16 bytes", "04 B0 8100 04", 0, 16, 0x9000);
    measure_coded(rounds, "coded read of 256 bytes", "04 B0 8100 04", 0, 0, 0x9000);
}

/* -------------------------------------------------------- cards of mode 1 */

/* Whether there is a mode 1: then a challenge waits. */
static bool issue_in_mode_1(void)
{
    issue_in(1);
    return made("00 84 0000 10", 0) == 0x6110;
}

/* A read in mode 1 is two calls, that of the read and that of GET RESPONSE. */
static void with_waiting(int rounds)
{
    static const char name[] = "mode 1, a 28 file of 4,096 bytes";

    make("00 82 0000 10 69C4E0D86A7B0430D8CDB78070B4C55A", 0);
    make("80 E0 0101 05 28 1000 00 00", 0);
    measure(rounds, name, "query", "00 20 0001", 0, 0x63C3);
    measure(rounds, name, "read 256 bytes, which wait", "00 B0 8100 00", 0, 0x6100);
    make("00 B0 8100 00", 0);
    measure(rounds, name, "GET RESPONSE, all of 256 bytes", "00 C0 0000 00", 0, 0x9000);
    measure(rounds, name, "GET RESPONSE, one of 256 bytes", "00 C0 0000 01", 0, 0x61FF);
    measure(rounds, name, "query, and 256 bytes are discarded", "00 20 0001", 0, 0x63C3);
}

/* ------------------------------------------------------- cards with notes */

static void append(unsigned count, unsigned length)
{
    char command[32];

    snprintf(command, sizeof command, "00 E2 0008 %02X", length);
    for (unsigned i = 0; i < count; i++)
        make(command, length);
}

static bool create_notes(void)
{
    log_in();
    return made("80 E0 0101 05 2C 1000 00 00", 0) == 0x9000;
}

static void with_long_notes(int rounds)
{
    static const char name[] = "a 2C file full with 23 records, 22 of 178 bytes";

    create_notes();
    measure(rounds, "an empty 2C file of 4,096 bytes", "query", "00 20 0001", 0, 0x63C3);
    append(22, 178);
    append(1, LIMPET_AREA_SIZE - 22 * 179 - 1);
    measure(rounds, name, "query", "00 20 0001", 0, 0x63C3);
    measure(rounds, name, "read number 1", "00 B2 010C 00", 0, 0x9000);
    measure(rounds, name, "read number 23", "00 B2 170C 00", 0, 0x9000);
}

static void with_short_notes(int rounds)
{
    static const char name[] = "a 2C file full with 2,048 records of one byte";

    create_notes();
    append(MOST_RECORDS - 1, 1);
    measure(rounds, "a 2C file with 2,047 records of one byte", "append", "00 E2 0008 01", 1, 0x9000);
    append(1, 1);
    measure(rounds, name, "query", "00 20 0001", 0, 0x63C3);
    measure(rounds, name, "read number 1", "00 B2 010C 00", 0, 0x9000);
    measure(rounds, name, "read number 255", "00 B2 FF0C 00", 0, 0x9000);
    measure(rounds, name, "update number 255", "00 DC FF0C 01", 1, 0x9000);
    measure(rounds, name, "append, refused", "00 E2 0008 01", 1, 0x6A84);
}

/* Fills an area with records of 1 and 2 bytes, by the highest bit of Marsaglia's xorshift. */
static void mix(uint8_t *to, uint32_t *state)
{
    for (unsigned at = 0, length; at < LIMPET_AREA_SIZE; at += 1 + length) {
        unsigned left = LIMPET_AREA_SIZE - at;
        *state ^= *state << 13;
        *state ^= *state >> 17;
        *state ^= *state << 5;
        length = left > 4 ? 1 + (*state >> 31) : left == 3 ? 2 : 1;
        to[at] = (uint8_t)length;
    }
}

/* The card of a full file is sound with any area that lengths part. With many in turn the processor cannot foresee the lengths. */
static void with_mixed_notes(int rounds)
{
    static const char name[] = "a 2C file full with records of 1 and 2 bytes at random, 64 areas in turn";
    uint32_t state = 2463534242u;

    for (int i = 0; i < AREAS; i++)
        mix(areas[i], &state);
    measure_in_turn(AREAS, rounds, name, "query", "00 20 0001", 0, 0x63C3);
    measure_in_turn(AREAS, rounds, name, "read number 255", "00 B2 FF0C 00", 0, 0x9000);
}

int main(int count, char **arguments)
{
    bool is_some = count == 3 && strcmp(arguments[2], "--some") == 0;
    is_once = (count == 2 || is_some) && strcmp(arguments[1], "--once") == 0;
    int rounds = is_once ? 1 : read_rounds(count, arguments, usage);
    ask_card_room();
    area = areas[0];
    without_files(rounds);
    with_sixteen(rounds);
    with_binary(rounds);
    with_fixed(rounds);
    if (create_coded())
        with_codes(rounds);
    if (issue_in_mode_1())
        with_waiting(rounds);
    if (!is_some && create_notes()) {
        with_long_notes(rounds);
        with_short_notes(rounds);
        with_mixed_notes(rounds);
    }
    return EXIT_SUCCESS;
}
