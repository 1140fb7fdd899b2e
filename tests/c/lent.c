#include "lent.h"

#include <stdio.h>
#include <stdlib.h>
#include <string.h>

enum { GUARD = 64 };

bool lent_exactly = false;

/* Neighbours differ, so that a guard byte moved by one shows too. */
static const uint8_t *guard_bytes(void)
{
    static uint8_t bytes[GUARD + PLACES];

    if (bytes[0] == 0)
        for (size_t i = 0; i < sizeof bytes; i++)
            bytes[i] = (uint8_t)(0xC3 + 31 * i);
    return bytes;
}

static void set_guard(uint8_t *at, size_t length)
{
    memcpy(at, guard_bytes(), length);
}

static bool guard_stands(const uint8_t *at, size_t length)
{
    return memcmp(at, guard_bytes(), length) == 0;
}

struct lent lend(const uint8_t *data, size_t length)
{
    static size_t turn;

    return lend_at(turn++ % PLACES, data, length);
}

struct lent lend_at(size_t past, const uint8_t *data, size_t length)
{
    struct lent b = { .length = length };

    if (!lent_exactly) {
        b.before = GUARD + past;
        b.after = GUARD;
    }
    b.block = malloc(b.before + length + b.after);
    if (b.block == NULL && b.before + length + b.after > 0) {
        fprintf(stderr, "no memory for a buffer of %zu bytes\n", length);
        exit(2);
    }
    if (b.block == NULL)
        return b;
    b.bytes = b.block + b.before;
    set_guard(b.block, b.before);
    set_guard(b.bytes + length, b.after);
    if (length > 0)
        memcpy(b.bytes, data, length);
    return b;
}

bool guards_stand(const struct lent *b)
{
    return b->block == NULL
        || (guard_stands(b->block, b->before) && guard_stands(b->bytes + b->length, b->after));
}

void give_back(struct lent *b)
{
    free(b->block);
    *b = (struct lent){ 0 };
}
