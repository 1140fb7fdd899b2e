/*
 * One card in place, and commands given to it one by one, for programs that
 * measure calls. They link with the library of an earlier version too: a card is
 * taken to be as large as the library says, and an issue without a mode or a
 * transport key does not see the last arguments.
 */
#ifndef GIVEN_H
#define GIVEN_H

#include <stddef.h>
#include <stdint.h>

enum { CARD_ROOM = 1024, LONGEST_COMMAND = 300 };

extern uint8_t card[CARD_ROOM];
extern uint8_t *area; /* the one that is lent */

struct bytes {
    uint8_t at[LONGEST_COMMAND];
    size_t length;
};

/* Ends the program where a card of this library takes more than CARD_ROOM. */
void ask_card_room(void);

/* Hex digits, blanks between them, and behind them so many bytes of 2A. */
struct bytes read_command(const char *digits, size_t more);

/* A good order. */
void issue_in(uint16_t mode);

/* The status word, or 0 where the call was not served. */
unsigned give(const struct bytes *command);

/* Ends the program: the status word is not the one that is due. */
void stop(const char *what, unsigned word, unsigned due);

#endif
