/* The card's end of a connection to vpcd, the virtual reader of Debian's package vsmartcard-vpcd. */
#ifndef READER_VPCD_H
#define READER_VPCD_H

#include <stdbool.h>
#include <stdint.h>

#include "store.h"

#define VPCD_PORT 35963 /* where vpcd waits for a card unless it is told otherwise */

/* Connects to 127.0.0.1. Returns the socket, or -1 and says why. */
int vpcd_connect(uint16_t port);

/* Waits until vpcd speaks to the card for the first time, and says that it is in the reader; and before, where that takes long. */
void vpcd_wait(int connection, uint16_t port);

/*
 * Serves until vpcd closes the connection, which is a good end, or the connection breaks. Where the card is kept in a file, what a
 * command changed for good is in it before the answer goes out; kept: NULL where it is not. Where the file cannot be stored the
 * answer is 6F00, and that is the last one: the card is wiped.
 */
bool vpcd_serve(int connection, struct store *kept);

#endif
