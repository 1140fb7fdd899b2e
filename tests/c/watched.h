/*
 * The calls on a card, each watched: its outcome is held to document 01's, and
 * so is every byte that a call lends and the guard bytes around it. A command on
 * a card of mode 1 is held to request R-6: to the same command on the same card
 * in mode 0, and GET RESPONSE to what waits. Where a command leaves directories
 * and which one is current is held to request R-7. A command with a code is held to
 * request R-9, and to the same command without one on a card that asks for none;
 * the tries of the transport key are told from the command alone. What is wrong is
 * printed to standard error and counted.
 */
#ifndef WATCHED_H
#define WATCHED_H

#include <stdbool.h>
#include <stddef.h>
#include <stdint.h>

#include "lent.h"
#include "limpetnook.h"

/* Bytes to be given to a call, or a null pointer where is_null. */
struct given {
    const uint8_t *bytes;
    size_t length;
    bool is_null;
};

/* What stays between the calls: a card and its area, which is a null pointer where has_no_area. */
struct held {
    struct lent card, area;
    bool has_no_area;
};

struct order {
    struct given key, admin_pin, user_pin, transport_key;
    uint16_t device_limit, admin_limit, user_limit, mode, transport_limit;
};

enum { LONGEST_REPLY = 4096 };

struct answer {
    uint8_t outcome;
    limpet_size count; /* bytes of the reply that are the answer */
    uint8_t reply[LONGEST_REPLY];
};

/* How many things were wrong so far, how many calls were made, and how many of them with a card at an odd address. */
extern unsigned long wrongs, calls, odd_calls;

/* What a report names the call by: a line of a script, or a case. */
extern const char *call_name;
extern unsigned long call_number;

/* A card of these bytes, each time at another address: cards need no alignment. */
struct lent lend_card(const uint8_t *card);

/* Such a card, or one of 00, and an area of that length filled from some bytes. */
struct held hold(const uint8_t *card, size_t area_length);
void let_go(struct held *h);

/* Ends the program where the library lays a card out in another way than the header. */
void check_version(void);

uint8_t watched_issue(struct held *h, const struct order *o);

/* A reply buffer of that length is lent; a null pointer where it is 0 and reply_is_null. */
struct answer watched_command(struct held *h, struct given command, struct given random,
                              size_t reply_length, bool reply_is_null);

uint8_t watched_reset(struct held *h);

/* Counts and prints something that is wrong with the call that is named. */
void wrong(const char *format, ...);

#endif
