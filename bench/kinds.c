/*
 * Each kind of call without a code once, on cards of mode 0 with no file, two, four
 * and sixteen, for bench/kinds, which counts its instructions.
 */
#include <stdbool.h>
#include <stdio.h>
#include <stdlib.h>
#include <string.h>

#include "given.h"
#include "limpetnook.h"

static const char usage[] =
    "usage: kinds\n"
    "\n"
    "Prints a line for each call of limpet_command, whose instructions are to be counted:\n"
    "how many files the card has, a tab, the call, a tab and its status word; or, for the\n"
    "calls that make a card, \"making\".\n";

/* The files are by turns of type 28, 2E, 2A and 2C, with SFIs from 1 on; no card has SFI 30. */
static const struct kind {
    const char *name, *digits;
    size_t more;
} kinds[] = {
    { "VERIFY query", "00 20 0000", 0 },
    { "VERIFY", "00 20 0001 06 313233343536", 0 },
    { "VERIFY, wrong", "00 20 0001 06 303030303030", 0 },
    { "SELECT", "00 A4 0000 02 4001", 0 },
    { "SELECT of no file", "00 A4 0000 02 5555", 0 },
    { "SELECT of the root", "00 A4 0000 02 3F00", 0 },
    { "READ BINARY of 16 bytes", "00 B0 8100 10", 0 },
    { "READ BINARY, no file", "00 B0 9E00 10", 0 },
    { "UPDATE BINARY of one byte", "00 D6 8100 01 2A", 0 },
    { "UPDATE BINARY, no file", "00 D6 9E00 01 2A", 0 },
    { "READ RECORD of a 2E file", "00 B2 0114 00", 0 },
    { "READ RECORD of a 2C file", "00 B2 0124 00", 0 },
    { "READ RECORD, no file", "00 B2 01F4 00", 0 },
    { "UPDATE RECORD of a 2E file", "00 DC 0114 08", 8 },
    { "UPDATE RECORD, no file", "00 DC 01F4 08", 8 },
    { "APPEND to a full 2E file", "00 E2 0010 08", 8 },
    { "APPEND to a 2C file", "00 E2 0020 08", 8 },
    { "APPEND, no file", "00 E2 00F0 08", 8 },
    { "CREATE of a file", "80 E0 201D 05 28 0010 00 00", 0 },
    { "CREATE of a directory", "80 E0 201D 05 38 0000 00 00", 0 },
    { "CREATE, bad size", "80 E0 201D 05 28 FFFF 00 00", 0 },
    { "GET CHALLENGE", "00 84 0000 08", 0 },
    { "EXTERNAL AUTHENTICATE, no challenge", "00 82 0000 10", 16 },
    { "CHANGE PIN without its right", "00 24 0101 06 313131313131", 0 },
    { "RELOAD PIN without its right", "00 2C 0201 06 313131313131", 0 },
    { "GET RESPONSE", "00 C0 0000 00", 0 },
    { "not listed", "00 FF 0000", 0 },
    { "no such class", "11 FF 0000", 0 },
    { "no frame", "00 00", 0 },
    { "READ BINARY, bad P", "00 B0 FF00 01", 0 },
    { "READ RECORD, bad P", "00 B2 0000 00", 0 },
    { "APPEND, bad P", "00 E2 0100 01 2A", 0 },
};

/* With the right of the admin PIN. */
static const struct kind kinds_of_admin[] = {
    { "CHANGE PIN", "00 24 0100 06 313131313131", 0 },
    { "RELOAD PIN", "00 2C 0201 06 313131313131", 0 },
};

static void make(const char *digits, size_t more)
{
    struct bytes command = read_command(digits, more);

    puts("making");
    unsigned word = give(&command);
    if (word != 0x9000)
        stop(digits, word, 0x9000);
}

/* A card whose device right is held, since FIPS 197 C.1 has the cryptogram of its challenge. */
static void make_card(unsigned files)
{
    static const char *const contents[] = { "28 0040", "2E 0408", "2A 0408", "2C 0040" };
    char command[64];

    issue_in(0);
    make("00 84 0000 10", 0);
    make("00 82 0000 10 69C4E0D86A7B0430D8CDB78070B4C55A", 0);
    for (unsigned sfi = 1; sfi <= files; sfi++) {
        unsigned type = (sfi - 1) % 4;
        snprintf(command, sizeof command, "80 E0 %04X 05 %s 00 00", 0x4000 + sfi, contents[type]);
        make(command, 0);
        snprintf(command, sizeof command, "00 E2 00%02X 08", 8 * sfi);
        for (int i = 0; i < (type % 2 ? 5 : 0); i++)
            make(command, 8);
    }
}

static void give_each(unsigned files, const struct kind *kind, size_t count)
{
    static uint8_t kept_card[CARD_ROOM], kept_area[LIMPET_AREA_SIZE];

    memcpy(kept_card, card, sizeof kept_card);
    memcpy(kept_area, area, sizeof kept_area);
    for (; count > 0; kind++, count--) {
        struct bytes command = read_command(kind->digits, kind->more);
        printf("%u\t%s\t%04X\n", files, kind->name, give(&command));
        memcpy(card, kept_card, sizeof kept_card);
        memcpy(area, kept_area, sizeof kept_area);
    }
}

int main(int count, char **arguments)
{
    static const unsigned numbers[] = { 0, 2, 4, 16 };

    if (count != 1) {
        bool is_help = count == 2 && strcmp(arguments[1], "--help") == 0;
        fputs(usage, is_help ? stdout : stderr);
        return is_help ? EXIT_SUCCESS : 2;
    }
    ask_card_room();
    for (size_t i = 0; i < sizeof numbers / sizeof *numbers; i++) {
        make_card(numbers[i]);
        give_each(numbers[i], kinds, sizeof kinds / sizeof *kinds);
        make("00 20 0000 06 313233343536", 0);
        give_each(numbers[i], kinds_of_admin, sizeof kinds_of_admin / sizeof *kinds_of_admin);
    }
    return EXIT_SUCCESS;
}
