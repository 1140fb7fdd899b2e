#include "given.h"

#include <stdio.h>
#include <stdlib.h>
#include <string.h>

#include "fips.h"
#include "limpetnook.h"

uint8_t card[CARD_ROOM];
static uint8_t own_area[LIMPET_AREA_SIZE];
uint8_t *area = own_area;

void ask_card_room(void)
{
    if (limpet_card_size() > CARD_ROOM) {
        fprintf(stderr, "a card takes more than %d bytes\n", CARD_ROOM);
        exit(EXIT_FAILURE);
    }
}

struct bytes read_command(const char *digits, size_t more)
{
    struct bytes b = { .length = 0 };
    unsigned byte;
    int read;

    for (; sscanf(digits, " %2x%n", &byte, &read) == 1; digits += read)
        b.at[b.length++] = (uint8_t)byte;
    memset(b.at + b.length, 0x2A, more);
    b.length += more;
    return b;
}

void issue_in(uint16_t mode)
{
    static const uint8_t pin[] = { '1', '2', '3', '4', '5', '6' };

    if (limpet_issue((struct limpet_card *)card, area, LIMPET_AREA_SIZE, c1_key, sizeof c1_key, 128,
                     pin, sizeof pin, 5, pin, sizeof pin, 3, mode, c1_cryptogram, sizeof c1_cryptogram, 10) != LIMPET_OK) {
        fprintf(stderr, "a good order is refused\n");
        exit(EXIT_FAILURE);
    }
}

unsigned give(const struct bytes *command)
{
    static uint8_t reply[LIMPET_REPLY_SIZE];
    size_t count;
    uint8_t outcome = limpet_command((struct limpet_card *)card, area, LIMPET_AREA_SIZE, command->at, command->length,
                                     c1_block, sizeof c1_block, reply, sizeof reply, &count);

    return outcome == LIMPET_OK ? 256u * reply[count - 2] + reply[count - 1] : 0;
}

void stop(const char *what, unsigned word, unsigned due)
{
    fprintf(stderr, "%s: status word %04X, and %04X is due\n", what, word, due);
    exit(EXIT_FAILURE);
}
