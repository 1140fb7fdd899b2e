#include "stores.h"

#include <inttypes.h>
#include <stdlib.h>
#include <string.h>

#include "layout.h"

static void check_bytes(const char *name, const struct lent *b, const uint8_t *due)
{
    if (!guards_stand(b))
        wrong("a byte before or after the %s was written", name);
    if (b->length > 0 && memcmp(b->bytes, due, b->length) != 0)
        wrong("the %s was written", name);
}

static void check_outcome(const char *call, uint8_t outcome, uint8_t due)
{
    if (outcome != due)
        wrong("%s: outcome %u, and %u is due", call, (unsigned)outcome, (unsigned)due);
}

/* A buffer of no bytes may be a null pointer. */
static const uint8_t *start(const struct lent *b, bool is_null)
{
    return is_null ? NULL : b->bytes;
}

static uint8_t due_of_store(const struct held *h, struct given random)
{
    if (h->area.length != LIMPET_AREA_SIZE)
        return LIMPET_BAD_AREA;
    if (random.length != LIMPET_RANDOM_SIZE)
        return LIMPET_BAD_RANDOM;
    return is_sound(h->card.bytes, h->area.bytes) ? LIMPET_OK : LIMPET_UNSOUND;
}

static void check_store(const struct asked *a, unsigned given)
{
    if (given > 1)
        wrong("given is %u", given);
    if (a->outcome != LIMPET_OK && given != 0)
        wrong("refused, and a store is given");
    if (given == 0 && (a->store.address != 0 || a->store.value != 0))
        wrong("no store is given, and its address is %u and its value %u", a->store.address, a->store.value);
    if (given == 0)
        return;
    if (a->store.address >= IMAGE_SIZE)
        wrong("a store at %u, where no card and no area is", a->store.address);
    else if (a->store.address == offsetof(struct layout, response.mode))
        wrong("the mode is stored");
    else if (a->store.address < LIMPET_CARD_SIZE && !is_lasting(a->store.address))
        wrong("a store at %u (%s), which does not last", a->store.address, field_name(field_at(a->store.address)));
}

/* A run, which has that outcome and the `due` stores that are listed, and leaves the rest of the buffer as it was. */
static void check_run(const struct held *h, struct given command, struct given random, uint16_t first, size_t room, uint8_t outcome, const struct store *stores, size_t due)
{
    static uint8_t filled[3 * 2 * LIMPET_AREA_SIZE], card[LIMPET_CARD_SIZE], area[2 * LIMPET_AREA_SIZE];
    static const uint8_t any[sizeof(limpet_size)] = { 0xA5, 0x5A };

    for (size_t i = 0; i < room; i++)
        filled[i] = (uint8_t)(7 * i + 1);
    struct lent sent = lend(command.bytes, command.length), fresh = lend(random.bytes, random.length);
    struct lent out = lend(filled, room), number = lend_at(0, any, sizeof any);
    limpet_size count;

    memcpy(card, h->card.bytes, sizeof card);
    if (h->area.length > 0)
        memcpy(area, h->area.bytes, h->area.length);
    calls++;
    check_outcome("stores", limpet_stores((const struct limpet_card *)h->card.bytes, start(&h->area, h->has_no_area), h->area.length,
                                          start(&sent, command.is_null), sent.length, start(&fresh, random.is_null), fresh.length,
                                          first, out.bytes, room, (limpet_size *)(void *)number.bytes), outcome);
    memcpy(&count, number.bytes, sizeof count);
    if (count != due)
        wrong("a run from %u into %zu bytes gives %" PRIu64 " stores, and %zu are due", first, room, count, due);
    for (size_t i = 0; i < due; i++) {
        filled[3 * i] = (uint8_t)(stores[i].address >> 8);
        filled[3 * i + 1] = (uint8_t)stores[i].address;
        filled[3 * i + 2] = stores[i].value;
    }
    if (room > 0 && memcmp(out.bytes, filled, room) != 0)
        wrong("a run from %u into %zu bytes gives other stores than one after the other", first, room);
    if (!guards_stand(&out) || !guards_stand(&number))
        wrong("a byte before or after a run was written");
    check_bytes("card", &h->card, card);
    check_bytes("area", &h->area, area);
    check_bytes("command", &sent, command.bytes);
    check_bytes("random input", &fresh, random.bytes);
    give_back(&sent);
    give_back(&fresh);
    give_back(&out);
    give_back(&number);
}

void watched_run(const struct held *h, struct given command, struct given random, uint16_t first, size_t room, const struct store *stores, size_t count)
{
    size_t due = first < count ? count - first : 0;

    if (due > room / 3)
        due = room / 3;
    if (first == 0 && due > 1)
        due = 1;
    check_run(h, command, random, first, room, LIMPET_OK, stores + (due > 0 ? first : 0), due);
}

struct asked watched_store(const struct held *h, struct given command, struct given random, size_t n)
{
    static const uint8_t filled[2] = { 0xA5, 0x5A }; /* what they hold before does not matter */
    static uint8_t card[LIMPET_CARD_SIZE], area[2 * LIMPET_AREA_SIZE];
    struct lent sent = lend(command.bytes, command.length), fresh = lend(random.bytes, random.length);
    struct lent address = lend_at(0, filled, sizeof(uint16_t)), value = lend(filled, 1), given = lend(filled, 1);
    uint8_t due = due_of_store(h, random);
    struct asked a = { .given = false };

    memcpy(card, h->card.bytes, sizeof card);
    if (h->area.length > 0)
        memcpy(area, h->area.bytes, h->area.length);
    calls++;
    odd_calls += (uintptr_t)h->card.bytes % 2;
    a.outcome = limpet_store((const struct limpet_card *)h->card.bytes, start(&h->area, h->has_no_area), h->area.length,
                             start(&sent, command.is_null), sent.length, start(&fresh, random.is_null), fresh.length,
                             n, (uint16_t *)(void *)address.bytes, value.bytes, given.bytes);

    memcpy(&a.store.address, address.bytes, sizeof a.store.address);
    a.store.value = value.bytes[0];
    a.given = given.bytes[0] == 1;
    check_outcome("store", a.outcome, due);
    check_store(&a, given.bytes[0]);
    check_bytes("card", &h->card, card);
    check_bytes("area", &h->area, area);
    check_bytes("command", &sent, command.bytes);
    check_bytes("random input", &fresh, random.bytes);
    if (!guards_stand(&address) || !guards_stand(&value) || !guards_stand(&given))
        wrong("a byte before or after a store was written");
    give_back(&sent);
    give_back(&fresh);
    give_back(&address);
    give_back(&value);
    give_back(&given);
    if (n <= UINT16_MAX)
        check_run(h, command, random, (uint16_t)n, 3, a.outcome, &a.store, a.given ? 1 : 0);
    return a;
}

uint8_t watched_recover(struct held *h)
{
    static uint8_t area[2 * LIMPET_AREA_SIZE];
    struct layout due;
    uint8_t due_outcome = LIMPET_BAD_AREA;

    if (h->area.length == LIMPET_AREA_SIZE)
        due_outcome = recovered(h->card.bytes, h->area.bytes, &due) ? LIMPET_OK : LIMPET_UNSOUND;
    if (due_outcome != LIMPET_OK)
        memcpy(&due, h->card.bytes, sizeof due);
    if (h->area.length > 0)
        memcpy(area, h->area.bytes, h->area.length);
    calls++;
    odd_calls += (uintptr_t)h->card.bytes % 2;
    uint8_t outcome = limpet_recover((struct limpet_card *)h->card.bytes, start(&h->area, h->has_no_area), h->area.length);

    check_outcome("recover", outcome, due_outcome);
    if (memcmp(h->card.bytes, &due, sizeof due) != 0)
        wrong("%s", outcome == LIMPET_OK ? "the recovered card is another" : "the card was changed by a refused recovery");
    if (!guards_stand(&h->card))
        wrong("a byte before or after the card was written");
    check_bytes("area", &h->area, area);
    return outcome;
}
