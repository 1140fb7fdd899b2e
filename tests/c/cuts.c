/*
 * Plays a script on one card, and cuts each of its commands after every number
 * of stores: the stores are put into a copy's bytes, what does not last is
 * replaced, and the copy is recovered and reset. What is found, and the stores,
 * go to tests/model/cuts.py, which judges them; what a judge does not need is
 * held to the papers here. What is wrong goes to standard error.
 *
 * Printed for each served command: K, the line's number, the number of stores,
 * and behind the newline three bytes for each, its address, high byte first, and its
 * value. Then for each run of numbers of stores with the same card: R, the first
 * and the last number, and the card's text by how it differs from the one before:
 * how many bytes at its front and at its back are the same, how many are others,
 * and behind the newline those. Where the card goes on as it was found after some
 * of them: C and that number. At the end: E, the number of commands and of cuts.
 */
#include <inttypes.h>
#include <stdbool.h>
#include <stdio.h>
#include <stdlib.h>
#include <string.h>

#include "groups.h"
#include "play.h"
#include "stores.h"

enum { MOST_STORES = 2 * LIMPET_AREA_SIZE };

static void usage(FILE *to)
{
    fputs("usage: cuts [--exact] [--left-cut N] <SCRIPT\n"
          "\n"
          "Cuts every command of a script after every number of its stores, and prints what\n"
          "is found after recovery and reset, for tests/model/cuts.py to judge.\n"
          "\n"
          "  --exact       no guard bytes: each buffer is a heap block of its own and of its\n"
          "                exact size, for valgrind or the address sanitizer to watch\n"
          "  --left-cut N  one command in N that stores something is left cut, and the card goes on as it was found\n", to);
}

struct found {
    uint8_t at[LIMPET_TEXT_SIZE];
    limpet_size count;
};

/* A command that is cut: its stores, the bytes of card and area after some of them, and a run of cards with the same text. */
struct cut {
    struct store stores[MOST_STORES];
    size_t count;
    uint8_t image[IMAGE_SIZE];
    uint8_t card[LIMPET_CARD_SIZE], area[LIMPET_AREA_SIZE]; /* what was found last, as bytes */
    size_t first;                                           /* number of stores at which the run begins */
    struct found found;
};

static struct cut cut;
static struct found printed; /* the last text that was printed */
static unsigned long commands, cuts;

/* With --left-cut: of so many commands one is; what is then found after how many stores, and whether this one is left so. */
static unsigned long one_left;
static struct {
    uint8_t card[LIMPET_CARD_SIZE], area[LIMPET_AREA_SIZE];
    size_t done;
    bool is_left;
} left;

static void print_run(size_t last)
{
    const struct found *f = &cut.found;
    size_t most = f->count < printed.count ? f->count : printed.count, front = 0, back = 0;

    while (front < most && f->at[front] == printed.at[front])
        front++;
    while (back < most - front && f->at[f->count - 1 - back] == printed.at[printed.count - 1 - back])
        back++;
    printf("R %zu %zu %zu %zu %" PRIu64 "\n", cut.first, last, front, back, f->count - front - back);
    fwrite(f->at + front, 1, f->count - front - back, stdout);
    printed = *f;
}

/* All the stores of the command, asked for on one card, and two numbers past the last. */
static bool ask_stores(const struct held *h, struct given command, struct given random)
{
    for (cut.count = 0; cut.count < MOST_STORES; cut.count++) {
        struct asked a = watched_store(h, command, random, cut.count);
        if (a.outcome != LIMPET_OK)
            return false;
        if (!a.given)
            break;
        cut.stores[cut.count] = a.store;
    }
    if (cut.count == MOST_STORES)
        wrong("more stores than any command makes");
    if (watched_store(h, command, random, cut.count + 1).given || watched_store(h, command, random, (size_t)-1).given)
        wrong("a store is given behind the last");
    watched_run(h, command, random, 0, 3 * (cut.count + 2), cut.stores, cut.count);
    watched_run(h, command, random, 1, 3 * (cut.count + 2) + 2, cut.stores, cut.count);
    watched_run(h, command, random, (uint16_t)random_below((unsigned)cut.count + 2), random_below(40), cut.stores, cut.count);
    watched_run(h, command, random, UINT16_MAX, 30, cut.stores, cut.count);
    return true;
}

static void print_stores(unsigned long number)
{
    printf("K %lu %zu\n", number, cut.count);
    for (size_t i = 0; i < cut.count; i++) {
        putchar(cut.stores[i].address >> 8);
        putchar(cut.stores[i].address & 255);
        putchar(cut.stores[i].value);
    }
}

/* A session in which all is held that can be, and a file is current: as sound as its card lets it be. */
static void hold_all(struct layout *c)
{
    memset(&c->session, 0, sizeof c->session);
    memset(c->session.rights, 1, RIGHTS);
    if (0 < c->directory.count && c->directory.count <= FILES) {
        c->session.current = (uint8_t)(1 + random_below(c->directory.count));
        c->session.folder = c->directory.files[c->session.current - 1].folder;
    }
    c->session.length = 8;
    for (size_t i = 0; i < 8; i++)
        c->session.challenge[i] = (uint8_t)random_below(256);
    c->response = (struct response){ .mode = c->response.mode, .count2 = c->response.mode, .bytes = { c->response.mode } };
}

/* What does not last may be anything afterwards: random bytes, as it was, 00, or bytes that would open something. */
static void lose_power(uint8_t *card)
{
    struct layout c;
    uint32_t way = random_below(4);

    memcpy(&c, card, sizeof c);
    if (way == 0)
        hold_all(&c);
    memcpy(card, &c, sizeof c);
    for (size_t place = 0; place < LIMPET_CARD_SIZE && way >= 2; place++)
        if (!is_lasting(place))
            card[place] = way == 2 ? 0 : (uint8_t)random_below(256);
}

static void put_text(const struct held *h)
{
    if (limpet_to_text((const struct limpet_card *)h->card.bytes, h->area.bytes, h->area.length, cut.found.at, sizeof cut.found.at,
                       &cut.found.count) != LIMPET_OK) {
        wrong("a recovered card has no text");
        cut.found.count = 0;
    }
}

/*
 * What recovery changed is stored by the caller, from the lowest address to the highest as the header says. The power may be lost there
 * too: after some of these bytes that last, recovery gives the same card.
 */
static void cut_recovery(struct held *h, const uint8_t *lost, const uint8_t *once)
{
    uint32_t changed = 0;

    for (size_t place = 0; place < LIMPET_CARD_SIZE; place++)
        changed += is_lasting(place) && lost[place] != once[place];
    if (changed == 0)
        return;
    uint32_t stored = random_below(changed + 1);
    memcpy(h->card.bytes, lost, LIMPET_CARD_SIZE);
    for (size_t place = 0; place < LIMPET_CARD_SIZE && stored > 0; place++) {
        stored -= is_lasting(place) && lost[place] != once[place];
        h->card.bytes[place] = once[place];
    }
    if (watched_recover(h) != LIMPET_OK || memcmp(once, h->card.bytes, LIMPET_CARD_SIZE) != 0)
        wrong("recovery that was cut, and done again, is another card");
}

/* Recovers what so many stores left; a second recovery and a reset change nothing more. */
static void recover_after(struct held *h, size_t done)
{
    static struct found before;
    uint8_t lost[LIMPET_CARD_SIZE], once[LIMPET_CARD_SIZE];

    memcpy(h->card.bytes, cut.image, LIMPET_CARD_SIZE);
    memcpy(h->area.bytes, cut.image + LIMPET_CARD_SIZE, LIMPET_AREA_SIZE);
    lose_power(h->card.bytes);
    memcpy(lost, h->card.bytes, sizeof lost);
    cuts++;
    if (watched_recover(h) != LIMPET_OK)
        wrong("no card is recovered after %zu of %zu stores", done, cut.count);
    memcpy(once, h->card.bytes, sizeof once);
    cut_recovery(h, lost, once);
    if (watched_recover(h) != LIMPET_OK || memcmp(once, h->card.bytes, sizeof once) != 0)
        wrong("recovered twice is another card");
    if (watched_reset(h) != LIMPET_OK || memcmp(once, h->card.bytes, sizeof once) != 0)
        wrong("a reset finds something to clear in a recovered card, or refuses it");
    if (done > 0 && memcmp(cut.card, h->card.bytes, sizeof cut.card) == 0 && memcmp(cut.area, h->area.bytes, sizeof cut.area) == 0)
        return;
    memcpy(cut.card, h->card.bytes, sizeof cut.card);
    memcpy(cut.area, h->area.bytes, sizeof cut.area);
    before = cut.found;
    put_text(h);
    if (done == 0 || (before.count == cut.found.count && memcmp(before.at, cut.found.at, before.count) == 0))
        return;
    struct found now = cut.found;
    cut.found = before;
    print_run(done - 1);
    cut.found = now;
    cut.first = done;
}

/* Every number of stores, from none to all. */
static void cut_everywhere(struct held *h, unsigned long number)
{
    commands++;
    print_stores(number);
    cut.first = 0;
    left.is_left = one_left > 0 && cut.count > 0 && random_below((uint32_t)one_left) == 0;
    left.done = random_below((uint32_t)cut.count + 1);
    for (size_t done = 0; done <= cut.count; done++) {
        recover_after(h, done);
        if (done == left.done) {
            memcpy(left.card, cut.card, sizeof left.card);
            memcpy(left.area, cut.area, sizeof left.area);
        }
        if (done < cut.count && cut.stores[done].address < IMAGE_SIZE)
            cut.image[cut.stores[done].address] = cut.stores[done].value;
    }
    print_run(cut.count);
    if (left.is_left)
        printf("C %zu\n", left.done);
}

/* "Stored in full" they leave what the command leaves, but for what does not last: the whole area too. */
static void check_whole(const struct player *p)
{
    for (size_t place = 0; place < LIMPET_CARD_SIZE; place++)
        if (is_lasting(place) && cut.image[place] != p->card[place]) {
            wrong("all %zu stores leave %02X at %zu (%s), and the command %02X", cut.count, cut.image[place], place,
                  field_name(field_at(place)), p->card[place]);
            return;
        }
    if (memcmp(cut.image + LIMPET_CARD_SIZE, p->area, LIMPET_AREA_SIZE) != 0)
        wrong("all %zu stores leave another area than the command", cut.count);
}

static void dirty(uint8_t *area, size_t from, size_t to)
{
    for (size_t i = from; i < to; i++)
        area[i] = (uint8_t)random_below(256);
}

/*
 * Bytes past the last file and in no record are free, and may be any: a factory's area, or what an earlier cut left. Scripts alone leave
 * 00 there, and a CREATE that forgets to write its 00 would not show.
 */
static void dirty_free_bytes(struct player *p)
{
    struct layout c;
    size_t start = 0;

    memcpy(&c, p->card, sizeof c);
    for (size_t i = 0; i < c.directory.count; i++) {
        const struct file *f = &c.directory.files[i];
        size_t size = file_size(f);
        if (f->type == 0x2C)
            dirty(p->area, start + used_bytes(f), start + size);
        for (size_t older = f->held; f->type == 0x2E && older < f->size1; older++) {
            size_t at = start + (f->newest + f->size1 - older) % f->size1 * f->size2;
            dirty(p->area, at, at + f->size2);
        }
        start += size;
    }
    dirty(p->area, start, sizeof p->area);
}

static void cut_line(struct player *p, const struct line *l, unsigned long number)
{
    if (random_below(2))
        dirty_free_bytes(p);
    struct held h = { .card = lend_card(p->card), .area = lend(p->area, sizeof p->area) };
    struct given command = { l->command.at, l->command.len, false }, random = { l->random.at, l->random.len, false };

    memcpy(cut.image, p->card, LIMPET_CARD_SIZE);
    memcpy(cut.image + LIMPET_CARD_SIZE, p->area, LIMPET_AREA_SIZE);
    bool served = ask_stores(&h, command, random);
    if (served)
        cut_everywhere(&h, number);
    let_go(&h);
    play_line(p, l);
    if (served)
        check_whole(p);
    if (served && left.is_left) {
        memcpy(p->card, left.card, sizeof p->card);
        memcpy(p->area, left.area, sizeof p->area);
    }
}

static void run(FILE *input)
{
    static struct player p;
    static struct text t;
    static struct line l;

    for (unsigned long number = 1; number <= MOST_LINES && read_text(input, &t); number++) {
        call_number = number;
        read_line(&t, &l);
        if (l.wrong == NULL && l.kind == CMD_LINE && p.has_card)
            cut_line(&p, &l, number);
        else
            play_line(&p, &l);
    }
    printf("E %lu %lu\n", commands, cuts);
}

static bool read_arguments(int count, char **arguments)
{
    for (int i = 1; i < count; i++)
        if (strcmp(arguments[i], "--exact") == 0)
            lent_exactly = true;
        else if (strcmp(arguments[i], "--left-cut") == 0 && i + 1 < count) {
            char *rest;
            one_left = strtoul(arguments[++i], &rest, 10);
            if (*rest != '\0' || one_left == 0 || one_left > 10000)
                return false;
        } else
            return false;
    return true;
}

int main(int count, char **arguments)
{
    if (count == 2 && strcmp(arguments[1], "--help") == 0) {
        usage(stdout);
        return EXIT_SUCCESS;
    }
    if (!read_arguments(count, arguments)) {
        usage(stderr);
        return 2;
    }
    check_version();
    call_name = "line";
    run(stdin);
    if (fflush(stdout) != 0 || ferror(stdout)) {
        fprintf(stderr, "cuts: cannot write the output\n");
        return 2;
    }
    if (wrongs > 0)
        fprintf(stderr, "cuts: %lu wrong in %lu calls\n", wrongs, calls);
    return wrongs == 0 ? EXIT_SUCCESS : EXIT_FAILURE;
}
