/*
 * Areas that do not fit their card: the lengths of notes (records of files of
 * type 2C) stand in the area and have to part the used bytes of their file
 * exactly. All other bytes of an area may be any.
 */
#include <stdio.h>
#include <string.h>

#include "groups.h"

/* A card and an area of which it is known beforehand whether they are sound together: the C check is held to it as well. */
static void try_known(const struct pattern *p, bool sound, struct tally *t)
{
    call_number++;
    if (is_sound(p->card, p->area) != sound)
        wrong("tests/c/layout.c says that it is %s", sound ? "not sound" : "sound");
    count_card(t, p);
    try_card(p, !is_short);
}

/* A file of type 2C behind one of 5 bytes. Free bytes and those of records are FF, which is no length. */
struct notes {
    unsigned size, used;
    int count;
    uint8_t lengths[3]; /* as they stand before their records */
    bool sound;
};

static const struct notes known_notes[] = {
    { 300, 0, 0, { 0 }, true },              /* no record; the bytes past the used ones are free */
    { 300, 1, 0, { 0 }, false },             /* FF for a length, */
    { 300, 3, 1, { 1 }, false },             /* also behind a record */
    { 300, 1, 1, { 0 }, false },             /* a length of 0, */
    { 300, 3, 2, { 1, 0 }, false },          /* also behind a record, */
    { 300, 13, 3, { 5, 0, 5 }, false },      /* also between two */
    { 300, 1, 1, { 1 }, false },             /* runs past by one */
    { 300, 2, 1, { 1 }, true },              /* the shortest record */
    { 300, 2, 1, { 2 }, false },             /* runs past by one */
    { 300, 178, 1, { 178 }, false },         /* runs past by one */
    { 300, 179, 1, { 178 }, true },          /* the longest record */
    { 300, 180, 1, { 179 }, false },         /* too long, though it parts the used bytes */
    { 300, 256, 1, { 255 }, false },         /* the same, as long as can be */
    { 300, 14, 3, { 5, 2, 5 }, false },      /* the last one runs past */
    { 300, 15, 3, { 5, 2, 5 }, true },       /* all fit */
    { 300, 9, 3, { 5, 2, 5 }, true },        /* the third is past the used bytes, and free */
    { 300, 10, 3, { 5, 2, 5 }, false },      /* its length alone is used */
    { 300, 299, 2, { 178, 119 }, true },     /* all but full */
    { 300, 300, 2, { 178, 120 }, true },     /* full */
    { 300, 301, 2, { 178, 121 }, false },    /* more than the file has */
    { 300, 65535, 2, { 178, 120 }, false },  /* as much as can be */
    { 0, 0, 0, { 0 }, false },               /* a file has 2 bytes at least */
    { 1, 0, 0, { 0 }, false },
    { 2, 0, 0, { 0 }, true },                /* the smallest file, */
    { 2, 2, 1, { 1 }, true },                /* full */
    { 3, 2, 1, { 1 }, true },                /* all but full: no record of one byte fits */
    { 3, 3, 1, { 2 }, true },
    { 4091, 2, 1, { 1 }, true },             /* up to the end of the area */
    { 4092, 2, 1, { 1 }, false },            /* past it */
    { 4096, 2, 1, { 1 }, false },            /* the largest, and no room for it */
    { 4097, 2, 1, { 1 }, false },            /* no size of a file */
};

static struct pattern with_notes(const struct notes *n)
{
    struct pattern p = patterns[FRESH];
    struct layout c;
    size_t at = 5;

    memcpy(&c, p.card, sizeof c);
    c.directory.files[0] = (struct file){ .fid1 = 1, .fid2 = 1, .type = 0x28, .size2 = 5 };
    c.directory.files[1] = (struct file){
        .fid1 = 1, .fid2 = 3, .type = 0x2C, .size1 = (uint8_t)(n->size / 256), .size2 = (uint8_t)(n->size % 256),
        .used1 = (uint8_t)(n->used / 256), .used2 = (uint8_t)(n->used % 256)
    };
    c.directory.count = 2;
    memcpy(p.card, &c, sizeof c);
    memset(p.area, 0xFF, sizeof p.area);
    for (int i = 0; i < n->count; at += 1u + n->lengths[i], i++)
        p.area[at] = n->lengths[i];
    return p;
}

static void notes_by_hand(void)
{
    struct group g = begin("notes of which it was worked out by hand whether they are sound");
    struct tally t = { 0 };

    for (size_t i = 0; i < sizeof known_notes / sizeof known_notes[0]; i++) {
        struct pattern p = with_notes(&known_notes[i]);
        try_known(&p, known_notes[i].sound, &t);
    }
    end(g);
    print_tally("all of them", &t);
}

/* Which bytes of the area are used ones of files of type 2C, or the lengths among them. */
static void mark_used(const struct pattern *p, bool lengths_alone, bool used[LIMPET_AREA_SIZE])
{
    struct layout c;
    size_t start = 0;

    memcpy(&c, p->card, sizeof c);
    memset(used, 0, LIMPET_AREA_SIZE * sizeof *used);
    for (size_t i = 0; i < c.directory.count; start += file_size(&c.directory.files[i]), i++)
        for (size_t at = 0; at < used_bytes(&c.directory.files[i]); at += lengths_alone ? 1u + p->area[start + at] : 1u)
            used[start + at] = true;
}

/* Every other value of a byte, or one in so many; where a single bit differs, all the commands. */
static void spoil_used(const struct pattern *p, size_t place, unsigned long step, struct tally *t)
{
    static unsigned long turn;

    for (unsigned difference = 1; difference < 256; difference++) {
        if ((is_short && !is_one_bit(difference)) || turn++ % step != 0)
            continue;
        struct pattern spoiled = *p;
        spoiled.area[place] ^= (uint8_t)difference;
        call_number = 1000 * place + spoiled.area[place];
        count_card(t, &spoiled);
        try_card(&spoiled, is_one_bit(difference) && !is_short);
    }
}

static void spoiled_notes(void)
{
    struct group g = begin("areas with one used byte of a note spoiled (1000 x place + value)");
    struct tally t[SORTS] = { { 0 } };
    bool used[LIMPET_AREA_SIZE];

    for (size_t i = WITH_NOTES; i <= FULL_OF_NOTES; i++) {
        mark_used(&patterns[i], false, used);
        /* A million are too many. 19 has no divisor in common with the 255 other values, so each value has its turn. */
        unsigned long step = (i == FULL_OF_NOTES ? 19 : 1) * one_in;
        for (size_t place = 0; place < LIMPET_AREA_SIZE; place++)
            if (used[place])
                spoil_used(&patterns[i], place, step, &t[i]);
    }
    end(g);
    for (size_t i = WITH_NOTES; i <= FULL_OF_NOTES; i++)
        print_tally(sorts[i].name, &t[i]);
}

/* Any bytes to be used of a file, parted by lengths at random, long ones and short ones; a single byte cannot be. */
static unsigned part_at_random(uint8_t *extent, unsigned size)
{
    unsigned used = random_below(size + 1), at = 0;

    if (used == 1)
        used = 2;
    for (unsigned i = 0; i < used; i++)
        extent[i] = (uint8_t)random_below(256);
    while (at < used) {
        unsigned left = used - at, most = left - 1 < 178 ? left - 1 : 178;
        unsigned length = 1 + random_below(most < 8 || random_below(2) ? most : 8);
        if (left == length + 2) /* the next would have a single byte */
            length = length < most ? length + 1 : length - 1;
        extent[at] = (uint8_t)length;
        at += 1 + length;
    }
    return used;
}

static struct pattern parted_anew(const struct pattern *p)
{
    struct pattern anew = *p;
    struct layout c;
    size_t start = 0;

    memcpy(&c, p->card, sizeof c);
    for (size_t i = 0; i < c.directory.count; start += file_size(&c.directory.files[i]), i++)
        if (c.directory.files[i].type == 0x2C) {
            unsigned used = part_at_random(anew.area + start, file_size(&c.directory.files[i]));
            c.directory.files[i].used1 = (uint8_t)(used / 256);
            c.directory.files[i].used2 = (uint8_t)(used % 256);
        }
    memcpy(anew.card, &c, sizeof c);
    return anew;
}

/* The place of a used byte or of a length, or LIMPET_AREA_SIZE where there is none; each as likely as another. */
static size_t used_at_random(const struct pattern *p, bool lengths_alone)
{
    bool used[LIMPET_AREA_SIZE];
    size_t places[LIMPET_AREA_SIZE], count = 0;

    mark_used(p, lengths_alone, used);
    for (size_t place = 0; place < LIMPET_AREA_SIZE; place++)
        if (used[place])
            places[count++] = place;
    return count > 0 ? places[random_below((uint32_t)count)] : LIMPET_AREA_SIZE;
}

/* A spoiled byte is a length or any used byte, and then a small number as a rule: a larger one in the place of a length runs past. */
static void notes_at_random(void)
{
    struct group g = begin("notes of random lengths, and then with one used byte spoiled");
    struct tally sound = { 0 }, spoiled = { 0 };

    for (unsigned i = 0; i < (is_short ? 100u : 10000u / one_in); i++) {
        struct pattern p = parted_anew(&patterns[i % 4 ? WITH_NOTES : FULL_OF_NOTES]);
        try_known(&p, true, &sound);
        size_t place = used_at_random(&p, random_below(2));
        if (place == LIMPET_AREA_SIZE)
            continue;
        p.area[place] = (uint8_t)random_below(random_below(4) ? 8 : 256);
        count_card(&spoiled, &p);
        try_card(&p, !is_short);
    }
    end(g);
    print_tally("parted at random", &sound);
    print_tally("one byte spoiled", &spoiled);
}

/* All other bytes are free: of files of other types, past the used ones, past the last file. */
static void spoiled_free_bytes(void)
{
    struct group g = begin("areas with one other byte spoiled");
    struct tally t = { 0 };
    bool used[LIMPET_AREA_SIZE];

    for (size_t i = 0; i < SORTS; i++) {
        mark_used(&patterns[i], false, used);
        for (size_t place = 0; place < LIMPET_AREA_SIZE; place += is_short ? 97 : one_in) {
            if (used[place])
                continue;
            struct pattern spoiled = patterns[i];
            spoiled.area[place] ^= (uint8_t)(1 + place % 255);
            try_known(&spoiled, true, &t);
        }
    }
    end(g);
    print_tally("all of them", &t);
}

static bool has_notes(size_t sort)
{
    return sort >= WITH_NOTES;
}

/* The card of p with the area of q. */
static struct pattern mixed(const struct pattern *p, const struct pattern *q)
{
    struct pattern m = *p;

    memcpy(m.area, q->area, sizeof m.area);
    return m;
}

/* A card without notes takes the area of any other; one with notes finds a 00 or more than 178 in the place of a length, or runs past. */
static void areas_of_others(void)
{
    struct group g = begin("areas of other cards");
    struct tally t = { 0 };

    for (size_t i = 0; i < SORTS; i++)
        for (size_t j = 0; j < SORTS; j++) {
            struct pattern m = mixed(&patterns[i], &patterns[j]);
            try_known(&m, !has_notes(i) || i == j, &t);
        }
    end(g);
    print_tally("all of them", &t);
}

/* Notes that are all of one length, as a file of 4,096 bytes may have them; used bytes of 15 and of 17 have no such length in common. */
static void areas_of_one_value(void)
{
    struct group g = begin("areas of one value");
    struct tally t = { 0 };

    for (size_t i = 0; i < SORTS; i++)
        for (unsigned value = 0; value < 256; value++) {
            struct pattern filled = patterns[i];
            memset(filled.area, (int)value, sizeof filled.area);
            bool fits = i == FULL_OF_NOTES && 1 <= value && value <= 178 && LIMPET_AREA_SIZE % (value + 1) == 0;
            try_known(&filled, !has_notes(i) || fits, &t);
        }
    end(g);
    print_tally("all of them", &t);
}

/* A note that was appended since is past the used bytes of the earlier card; in the earlier area there is 00 for its length. */
static void areas_of_another_time(void)
{
    struct group g = begin("areas of the same card before and after");
    struct held h = hold_part(in_use(), LIMPET_AREA_SIZE);
    struct tally t = { 0 };
    struct pattern before = *in_use(), updated, appended, m;

    if (tell(&h, "00 DC 031C 09 FFFFFFFFFFFFFFFFFF") != 0x9000)
        wrong("a note that keeps its length is refused");
    keep(&updated, &h);
    if (tell(&h, "00 E2 0018 03 0A0B0C") != 0x9000)
        wrong("a note that fits is refused");
    keep(&appended, &h);
    let_go(&h);
    m = mixed(&before, &updated);
    try_known(&m, true, &t);
    m = mixed(&updated, &before);
    try_known(&m, true, &t);
    m = mixed(&updated, &appended);
    try_known(&m, true, &t);
    m = mixed(&appended, &updated);
    try_known(&m, false, &t);
    end(g);
    print_tally("all of them", &t);
}

void try_wrong_areas(void)
{
    notes_by_hand();
    spoiled_notes();
    notes_at_random();
    spoiled_free_bytes();
    areas_of_others();
    areas_of_another_time();
    areas_of_one_value();
}
