/*
 * Buffers as they are lent to the library: each a heap block of its own, with
 * guard bytes before and after the bytes that are lent.
 */
#ifndef LENT_H
#define LENT_H

#include <stdbool.h>
#include <stddef.h>
#include <stdint.h>

struct lent {
    uint8_t *block;       /* the whole block */
    uint8_t *bytes;       /* what is lent of it */
    size_t length;        /* how much is lent */
    size_t before, after; /* guard bytes on either side */
};

/*
 * Without guard bytes a block is exactly what is lent. Then valgrind and the
 * address sanitizer see a read past its ends too, and not only a write.
 */
extern bool lent_exactly;

/*
 * A copy of so many bytes, at an address that changes from buffer to buffer.
 * data may be NULL where length is 0. Ends the program where there is no
 * memory.
 */
struct lent lend(const uint8_t *data, size_t length);

/* The same, at most PLACES - 1 bytes past an address that is aligned for anything; without guard bytes, at that address itself. */
enum { PLACES = 8 };
struct lent lend_at(size_t past, const uint8_t *data, size_t length);

/* Whether every guard byte is as it was set. */
bool guards_stand(const struct lent *b);

void give_back(struct lent *b);

#endif
