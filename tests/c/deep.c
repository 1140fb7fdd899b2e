/* In the place of the library, on a board: a reset takes more stack than the part has. That has to end the program. */
#include "limpetnook.h"

uint32_t limpet_version(void)
{
    return LIMPET_VERSION;
}

limpet_size limpet_card_size(void)
{
    return LIMPET_CARD_SIZE;
}

uint8_t limpet_issue(struct limpet_card *card, uint8_t *area, limpet_size area_len, const uint8_t *key, limpet_size key_len,
                     uint16_t device_limit, const uint8_t *admin_pin, limpet_size admin_pin_len, uint16_t admin_limit,
                     const uint8_t *user_pin, limpet_size user_pin_len, uint16_t user_limit, uint16_t mode, const uint8_t *transport_key,
                     limpet_size transport_key_len, uint16_t transport_limit)
{
    return LIMPET_OK;
}

uint8_t limpet_command(struct limpet_card *card, uint8_t *area, limpet_size area_len, const uint8_t *command, limpet_size command_len,
                       const uint8_t *random, limpet_size random_len, uint8_t *reply, limpet_size reply_len, limpet_size *reply_count)
{
    return LIMPET_OK;
}

uint8_t limpet_reset(struct limpet_card *card, const uint8_t *area, limpet_size area_len)
{
    volatile uint8_t deep[LIMPET_CARD_STACK + 256];

    deep[0] = 1;
    return deep[0] == 1 ? LIMPET_OK : LIMPET_UNSOUND;
}
