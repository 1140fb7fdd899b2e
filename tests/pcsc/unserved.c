/* Stands in for the library: a card that serves nothing once it is in the reader, which the proved one cannot be brought to. */
#include <stdlib.h>

#include "limpetnook.h"

uint32_t limpet_version(void)
{
    return getenv("OTHER_VERSION") == NULL ? LIMPET_VERSION : LIMPET_VERSION + 1;
}

size_t limpet_card_size(void)
{
    return LIMPET_CARD_SIZE;
}

uint8_t limpet_issue(struct limpet_card *card, uint8_t *area, size_t area_len,
                     const uint8_t *key, size_t key_len, uint16_t device_limit,
                     const uint8_t *admin_pin, size_t admin_pin_len, uint16_t admin_limit,
                     const uint8_t *user_pin, size_t user_pin_len, uint16_t user_limit, uint16_t mode,
                     const uint8_t *transport_key, size_t transport_key_len, uint16_t transport_limit)
{
    (void)card, (void)area, (void)area_len, (void)key, (void)key_len, (void)device_limit;
    (void)admin_pin, (void)admin_pin_len, (void)admin_limit, (void)user_pin, (void)user_pin_len, (void)user_limit, (void)mode;
    (void)transport_key, (void)transport_key_len, (void)transport_limit;
    return getenv("REFUSES_ISSUE") == NULL ? LIMPET_OK : LIMPET_BAD_ISSUE;
}

uint8_t limpet_command(struct limpet_card *card, uint8_t *area, size_t area_len,
                       const uint8_t *command, size_t command_len, const uint8_t *random, size_t random_len,
                       uint8_t *reply, size_t reply_len, size_t *reply_count)
{
    (void)card, (void)area, (void)area_len, (void)command, (void)command_len, (void)random, (void)random_len;
    (void)reply, (void)reply_len;
    *reply_count = 0;
    return LIMPET_UNSOUND;
}

uint8_t limpet_reset(struct limpet_card *card, const uint8_t *area, size_t area_len)
{
    static int resets = 0;
    (void)card, (void)area, (void)area_len;
    return resets++ == 0 ? LIMPET_OK : LIMPET_UNSOUND; /* the first is that of putting it in */
}

uint8_t limpet_store(const struct limpet_card *card, const uint8_t *area, size_t area_len,
                     const uint8_t *command, size_t command_len, const uint8_t *random, size_t random_len,
                     size_t n, uint16_t *address, uint8_t *value, uint8_t *given)
{
    (void)card, (void)area, (void)area_len, (void)command, (void)command_len, (void)random, (void)random_len, (void)n;
    *address = *value = *given = 0;
    return LIMPET_UNSOUND;
}

uint8_t limpet_recover(struct limpet_card *card, const uint8_t *area, size_t area_len)
{
    (void)card, (void)area, (void)area_len;
    return LIMPET_UNSOUND;
}

uint8_t limpet_to_text(const struct limpet_card *card, const uint8_t *area, size_t area_len,
                       uint8_t *text, size_t text_len, size_t *text_count)
{
    (void)card, (void)area, (void)area_len, (void)text, (void)text_len;
    *text_count = 0;
    return LIMPET_UNSOUND;
}

uint8_t limpet_from_text(struct limpet_card *card, uint8_t *area, size_t area_len,
                         const uint8_t *text, size_t text_len)
{
    (void)card, (void)area, (void)area_len, (void)text, (void)text_len;
    return getenv("TAKES_ANY_TEXT") == NULL ? LIMPET_BAD_TEXT : LIMPET_OK;
}

uint8_t limpet_text_to_new(const uint8_t *old, size_t old_len, uint8_t *text, size_t text_len, size_t *text_count)
{
    (void)old, (void)old_len, (void)text, (void)text_len;
    *text_count = 0;
    return LIMPET_BAD_TEXT;
}

uint8_t limpet_text_to_old(const uint8_t *text_given, size_t given_len, uint8_t *text, size_t text_len, size_t *text_count)
{
    (void)text_given, (void)given_len, (void)text, (void)text_len;
    *text_count = 0;
    return getenv("TAKES_ANY_TEXT") == NULL ? LIMPET_BAD_TEXT : LIMPET_DIRECTORY;
}
