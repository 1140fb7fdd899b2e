/*
 * The main board's side of a bus on which others may write too: a setting is changed and read with codes, by GET CHALLENGE and
 * limpet_code. Here the card at the other end is in the same program. docs/C.md explains it, and tests/client runs it.
 */
#include <stdio.h>
#include <stdlib.h>
#include <sys/random.h>

#include "limpetnook.h"

/* The card: file A102 has four bytes, and asks for a code and no right (04) to be read and to be written. */
static const char text[] = "000102030405060708090A0B0C0D0E0F\t128\t128\n3837363534333231\t5\t5\n313233343536\t3\t3\n"
                           "101112131415161718191A1B1C1D1E1F\t10\t10\n0\t0\t0\t-\t-\t0\t-\t3F00\n"
                           "A102\t2800040404\t0\t0\t3F00\n00000000\n";
static uint8_t kept[LIMPET_CARD_SIZE], area[LIMPET_AREA_SIZE], reply[LIMPET_REPLY_SIZE];
static struct limpet_card *const card = (struct limpet_card *)kept;

/* The key that both ends have. This one is to practise with. */
static const uint8_t key[] = { 0x10, 0x11, 0x12, 0x13, 0x14, 0x15, 0x16, 0x17, 0x18, 0x19, 0x1A, 0x1B, 0x1C, 0x1D, 0x1E, 0x1F };

static void need(int good, const char *otherwise)
{
    if (!good) {
        fprintf(stderr, "bus: %s\n", otherwise);
        exit(EXIT_FAILURE);
    }
}

/* Sends a command over the bus, and shows the answer: data and status word. */
static void give(const char *name, const uint8_t *command, size_t length)
{
    uint8_t fresh[LIMPET_RANDOM_SIZE];
    limpet_size count;

    need(getrandom(fresh, sizeof fresh, 0) == (ssize_t)sizeof fresh, "there are no random bytes");
    need(limpet_command(card, area, sizeof area, command, length, fresh, sizeof fresh, reply, sizeof reply, &count) == LIMPET_OK,
         "the command is not served");
    printf("%s: ", name);
    for (limpet_size i = 0; i < count; i++)
        printf("%s%02X", i > 0 && i == count - 2 ? " " : "", reply[i]);
    putchar('\n');
}

/* Asks for a challenge, and puts the code behind the length bytes that it covers. Each command needs a challenge of its own. */
static void add_code(uint8_t *command, size_t length)
{
    static const uint8_t get_challenge[] = { 0x00, 0x84, 0x00, 0x00, 0x10 };

    give("GET CHALLENGE", get_challenge, sizeof get_challenge);
    need(limpet_code(key, sizeof key, reply, 16, command, length, command + length, LIMPET_CODE_SIZE) == LIMPET_OK, "there is no code");
}

int main(void)
{
    static const uint8_t plain[] = { 0x00, 0xD6, 0x82, 0x00, 0x01, 0xFF };
    uint8_t update[9 + LIMPET_CODE_SIZE] = { 0x04, 0xD6, 0x82, 0x00, 4 + LIMPET_CODE_SIZE, 0x0A, 0x0B, 0x0C, 0x0D };
    uint8_t read[5 + LIMPET_CODE_SIZE + 1] = { 0x04, 0xB0, 0x82, 0x00, LIMPET_CODE_SIZE }; /* the last byte is Le, and no code covers it */

    need(limpet_version() == LIMPET_VERSION && limpet_card_size() == LIMPET_CARD_SIZE, "header and library are of two versions");
    need(limpet_from_text(card, area, sizeof area, (const uint8_t *)text, sizeof text - 1) == LIMPET_OK, "there is no card");
    give("UPDATE BINARY without a code", plain, sizeof plain);
    add_code(update, 9);
    give("UPDATE BINARY with its code", update, sizeof update);
    give("the same bytes again", update, sizeof update);
    add_code(update, 9);
    update[5] ^= 0x40; /* a bit that is altered on its way */
    give("UPDATE BINARY, altered", update, sizeof update);
    add_code(read, 5);
    give("READ BINARY with its code", read, sizeof read);
    return EXIT_SUCCESS;
}
