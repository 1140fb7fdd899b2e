/*
 * Wrong presentations that differ in one thing, the place of the byte that is
 * wrong, for a run that counts the instructions of each call of limpet_command:
 * count_instructions of tools/x86/common.sh. A code is one too, of the transport
 * key. With the word `store` no presentation is made; limpet_store is asked for the
 * first store of each, for a run that counts those calls.
 *
 * Prints a line for each such call, in order: what is presented, and the place
 * of the wrong byte. Before each call the card is set back, so that it is the
 * same for all calls with the same words before the place.
 */
#include <stdbool.h>
#include <stdio.h>
#include <stdlib.h>
#include <string.h>

#include "coded.h"
#include "fips.h"
#include "limpetnook.h"

enum { LONGEST = 16, HEAD = 5, MOST_CODED = HEAD + 255 };

static uint8_t card[LIMPET_CARD_SIZE], kept[LIMPET_CARD_SIZE];
static uint8_t area[LIMPET_AREA_SIZE];
static const uint8_t pin[LONGEST] = "3141592653589793"; /* without its end */

/* A command whose status word must be that; the program ends where it is not. */
static void command(const uint8_t *bytes, size_t length, unsigned due)
{
    uint8_t reply[LIMPET_REPLY_SIZE];
    limpet_size count;
    uint8_t outcome = limpet_command((struct limpet_card *)card, area, sizeof area, bytes, length,
                                     c1_block, sizeof c1_block, reply, sizeof reply, &count);
    unsigned sw = outcome == LIMPET_OK ? 256u * reply[count - 2] + reply[count - 1] : 0;

    if (sw != due) {
        fprintf(stderr, "verifies: outcome %u, status word %04X, and %04X is due\n", (unsigned)outcome, sw, due);
        exit(EXIT_FAILURE);
    }
}

static bool asks_store;

/* A presentation; or its first store, of which there is one whatever is presented. */
static void presentation(const uint8_t *bytes, size_t length, unsigned due)
{
    uint16_t address;
    uint8_t value, given;

    if (!asks_store) {
        command(bytes, length, due);
    } else if (limpet_store((const struct limpet_card *)card, area, sizeof area, bytes, length, c1_block, sizeof c1_block,
                            0, &address, &value, &given) != LIMPET_OK || given != 1 || value != 99) {
        fprintf(stderr, "verifies: the first store of a presentation does not lower 100 tries\n");
        exit(EXIT_FAILURE);
    }
}

static void issue(size_t pin_length)
{
    if (limpet_issue((struct limpet_card *)card, area, sizeof area, c1_key, sizeof c1_key, 100,
                     pin, pin_length, 100, pin, pin_length, 100, 0, c1_cryptogram, sizeof c1_cryptogram, 100) != LIMPET_OK) {
        fprintf(stderr, "verifies: a good order is refused\n");
        exit(EXIT_FAILURE);
    }
    memcpy(kept, card, sizeof kept);
}

/* The right value and then, for each place, with that byte wrong. It stays a digit where it was one. */
static void present(const char *name, const uint8_t *head, const uint8_t *value, size_t length)
{
    uint8_t sent[HEAD + LONGEST];

    for (size_t place = 0; place <= length; place++) {
        memcpy(sent, head, HEAD - 1);
        sent[HEAD - 1] = (uint8_t)length;
        memcpy(sent + HEAD, value, length);
        if (place < length) {
            sent[HEAD + place] ^= 1;
            printf("%s %zu wrong %zu\n", name, length, place);
        } else {
            printf("%s %zu right -\n", name, length);
        }
        memcpy(card, kept, sizeof card);
        presentation(sent, HEAD + length, place < length ? 0x63CF : 0x9000);
    }
}

/* A step before a presentation: it has a line too, and its count is of no interest. */
static void step(const uint8_t *bytes, size_t length)
{
    if (!asks_store)
        printf("step - - -\n");
    command(bytes, length, 0x9000);
}

static void present_cryptogram(void)
{
    static const uint8_t head[] = { 0x00, 0x82, 0x00, 0x00 };
    static const uint8_t get_challenge[] = { 0x00, 0x84, 0x00, 0x00, 0x10 };

    step(get_challenge, sizeof get_challenge);
    memcpy(kept, card, sizeof kept);
    present("cryptogram", head, c1_cryptogram, sizeof c1_cryptogram);
}

/* A binary file that asks for codes to be read and written. */
static void make_file(void)
{
    static const uint8_t get_challenge[] = { 0x00, 0x84, 0x00, 0x00, 0x10 };
    static const uint8_t create[] = { 0x80, 0xE0, 0x01, 0x01, 0x05, 0x28, 0x01, 0x00, 0x04, 0x04 };
    uint8_t login[HEAD + LONGEST] = { 0x00, 0x82, 0x00, 0x00, LONGEST };

    memcpy(login + HEAD, c1_cryptogram, LONGEST);
    step(get_challenge, sizeof get_challenge);
    step(login, sizeof login);
    step(create, sizeof create);
    step(get_challenge, sizeof get_challenge);
    memcpy(kept, card, sizeof kept);
}

/* A coded command: its head, so many bytes of data, and Le where it is a read. The right code, and then with each bit of it wrong. */
static void present_code(const char *name, uint8_t ins, size_t data, bool is_read)
{
    uint8_t sent[MOST_CODED + 1] = { 0x04, ins, 0x81, 0x00, (uint8_t)(data + LIMPET_CODE_SIZE) };
    uint8_t *code = sent + HEAD + data;
    size_t length = HEAD + data + LIMPET_CODE_SIZE + is_read;

    memset(sent + HEAD, 0x2A, data);
    code_of(c1_cryptogram, c1_block, sizeof c1_block, sent, HEAD + data, code);
    if (is_read)
        sent[length - 1] = 0x10;
    for (int bit = -1; bit < 8 * LIMPET_CODE_SIZE; bit++) {
        if (bit < 0)
            printf("%s %d right -\n", name, LIMPET_CODE_SIZE);
        else
            printf("%s %d wrong %d\n", name, LIMPET_CODE_SIZE, bit / 8);
        if (bit >= 0)
            code[bit / 8] ^= (uint8_t)(1 << bit % 8);
        memcpy(card, kept, sizeof card);
        presentation(sent, length, bit < 0 ? 0x9000 : 0x6988);
        if (bit >= 0)
            code[bit / 8] ^= (uint8_t)(1 << bit % 8);
    }
}

int main(int count, char **words)
{
    static const uint8_t admin[] = { 0x00, 0x20, 0x00, 0x00 };
    static const uint8_t user[] = { 0x00, 0x20, 0x00, 0x01 };

    asks_store = count == 2 && strcmp(words[1], "store") == 0;
    if (count != 1 && !asks_store) {
        fputs("usage: verifies [store]\n", stderr);
        return 2;
    }

    for (size_t length = 6; length <= LONGEST; length += 5) {
        issue(length);
        present("admin", admin, pin, length);
        present("user", user, pin, length);
    }
    issue(LONGEST);
    present_cryptogram();
    issue(LONGEST);
    make_file();
    present_code("code-of-read", 0xB0, 0, true);
    present_code("code-of-update", 0xD6, 16, false);
    return EXIT_SUCCESS;
}
