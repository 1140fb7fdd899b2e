/*
 * Shows that limpetnook.h stands alone, may be included twice, and finds the
 * functions on a card in the library: compiled as C and as C++, linked and run.
 */
#include "limpetnook.h"
#include "limpetnook.h"

static uint8_t kept[LIMPET_CARD_SIZE];
static uint8_t area[LIMPET_AREA_SIZE];

int main(void)
{
    struct limpet_card *card = (struct limpet_card *)kept;
    const uint8_t key[LIMPET_KEY_SIZE] = { 0 };
    const uint8_t pin[] = { '1', '2', '3', '4', '5', '6' };
    const uint8_t random_input[LIMPET_RANDOM_SIZE] = { 0 };
    const uint8_t query[] = { 0x00, 0x20, 0x00, 0x01 };
    const uint8_t get_challenge[] = { 0x00, 0x84, 0x00, 0x00, 0x04 };
    const uint8_t get_response[] = { 0x00, 0xC0, 0x00, 0x00, 0x00 };
    uint8_t reply[LIMPET_REPLY_SIZE], text[LIMPET_TEXT_SIZE];
    limpet_size count = 0;

    if (limpet_version() != LIMPET_VERSION || limpet_card_size() != LIMPET_CARD_SIZE)
        return 1;
    if (limpet_reset(card, area, sizeof area) != LIMPET_UNSOUND)
        return 2;
    if (limpet_issue(card, area, sizeof area, key, sizeof key, 3, pin, sizeof pin, 3, pin, sizeof pin, 3, 1, key, sizeof key, 3)
        != LIMPET_OK)
        return 3;
    if (limpet_command(card, area, sizeof area, query, sizeof query, random_input, sizeof random_input,
                       reply, sizeof reply, &count) != LIMPET_OK)
        return 4;
    if (count != 2 || reply[0] != 0x63 || reply[1] != 0xC3)
        return 5;
    if (limpet_command(card, area, sizeof area, get_challenge, sizeof get_challenge, random_input, sizeof random_input,
                       reply, sizeof reply, &count) != LIMPET_OK || count != 2 || reply[0] != 0x61 || reply[1] != 0x04)
        return 6;
    if (limpet_command(card, area, sizeof area, get_response, sizeof get_response, random_input, sizeof random_input,
                       reply, sizeof reply, &count) != LIMPET_OK || count != 6 || reply[4] != 0x90 || reply[5] != 0x00)
        return 7;
    if (limpet_to_text(card, area, sizeof area, text, 1, &count) != LIMPET_SHORT_TEXT || count != 0)
        return 8;
    if (limpet_to_text(card, area, sizeof area, text, sizeof text, &count) != LIMPET_OK)
        return 9;
    if (limpet_from_text(card, area, sizeof area, text, count - 1) != LIMPET_BAD_TEXT)
        return 10;
    if (limpet_from_text(card, area, sizeof area, text, count) != LIMPET_OK)
        return 11;
    return limpet_reset(card, area, sizeof area) == LIMPET_OK ? 0 : 12;
}
