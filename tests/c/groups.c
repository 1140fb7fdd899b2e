#include "groups.h"

#include <stdio.h>
#include <stdlib.h>
#include <string.h>

bool is_short, ends_at_first;
unsigned long one_in = 1;
unsigned passed, failed;
struct pattern patterns[SORTS];

struct group begin(const char *name)
{
    call_name = name;
    call_number = 0;
    return (struct group){ name, wrongs, calls };
}

/* Where it is asked for, and something was wrong. */
static void end_at_first(void)
{
    if (ends_at_first && wrongs > 0)
        exit(EXIT_FAILURE);
}

void end(struct group g)
{
    bool right = wrongs == g.wrongs;

    printf("%s: %lu calls%s\n", g.name, calls - g.calls, right ? ", right" : ", NOT RIGHT");
    passed += right;
    failed += !right;
    end_at_first();
}

void keep(struct pattern *p, const struct held *h)
{
    memcpy(p->card, h->card.bytes, sizeof p->card);
    memcpy(p->area, h->area.bytes, sizeof p->area);
}

void make_patterns(void)
{
    struct group g = begin("cards in use");

    for (size_t i = 0; i < SORTS; i++) {
        struct held h = hold(NULL, LIMPET_AREA_SIZE);
        sorts[i].make(&h);
        keep(&patterns[i], &h);
        if (!is_sound(patterns[i].card, patterns[i].area))
            wrong("the card %s is not sound", sorts[i].name);
        let_go(&h);
    }
    end(g);
}

const struct pattern *in_use(void)
{
    return &patterns[WITH_NOTES];
}

struct held hold_part(const struct pattern *p, size_t area_length)
{
    struct held h = hold(p->card, area_length);
    size_t most = area_length < sizeof p->area ? area_length : sizeof p->area;

    if (most > 0)
        memcpy(h.area.bytes, p->area, most);
    return h;
}

void count_card(struct tally *t, const struct pattern *p)
{
    bool sound = is_sound(p->card, p->area);

    t->cards++;
    t->served += sound;
    t->refused += !sound;
}

void print_tally(const char *name, const struct tally *t)
{
    printf("  %s: %lu cards, %lu sound and served, %lu refused with 4\n", name, t->cards, t->served, t->refused);
}

/* Commands that look at every part of a card; each ends in some status word on a sound one. */
static const char *const commands[] = {
    "00 20 0001",                /* the query comes first: it is the one that all values of a byte get */
    "00 20 0000 08 3837363534333231",
    "00 82 0000 10 69C4E0D86A7B0430D8CDB78070B4C55A",
    "00 B2 011C 00",
    "00 E2 0018 04 C5C5C5C5",
    "00 DC 021C 04 C6C6C6C6",
    "00 B0 0000 01",
    "80 E0 011D 05 28 0001 00 00",
    "80 E0 5201 05 38 0000 C3 00",
    "00 A4 0000 02 5101",
    "00 A4 0000 02 5102",
    "00 A4 0000 02 3F00",
    "00 A4 0000 02 0101",
    "00 24 0101 06 363534333231",
    "00 C0 0000 00",
    "00 C0 0000 02",
    "04 D6 8100 06 A1A2 *",
    "04 D6 8100 0F A0A1A2A3A4A5A6A7A8A9AA *", /* a message of 16 bytes */
    "04 B0 8200 04 * 02",                     /* the code is right, and its file is not of that type or is not there */
    "04 D6 8100 04 *",                        /* 6700 */
    "04 B0 8100 04 * 01",
    "04 E2 0018 08 C7C7C7C7 *",
    "04 DC 0114 09 C8C8C8C8C8 00000000",
    "04 B2 011C 04 * 00",
    "",
};
enum { COMMANDS = sizeof commands / sizeof commands[0] };

static void hold_again(struct held *h, const struct pattern *p)
{
    memcpy(h->card.bytes, p->card, sizeof p->card);
    memcpy(h->area.bytes, p->area, sizeof p->area);
}

/* At an address of its own. */
void try_card(const struct pattern *p, bool all)
{
    struct held h = hold(NULL, LIMPET_AREA_SIZE);

    for (unsigned i = 0; i < (all ? COMMANDS : 1); i++) {
        hold_again(&h, p);
        tell(&h, commands[i]);
    }
    hold_again(&h, p);
    watched_reset(&h);
    let_go(&h);
    end_at_first();
}

bool is_one_bit(unsigned difference)
{
    return (difference & (difference - 1)) == 0;
}

/* Marsaglia's xorshift with 64 bits and the shifts 13, 7, 17. */
uint32_t random_below(uint32_t bound)
{
    static uint64_t state = 88172645463325252u;

    state ^= state << 13;
    state ^= state >> 7;
    state ^= state << 17;
    return (uint32_t)((state >> 32) * bound >> 32);
}
