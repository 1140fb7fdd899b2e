/* A script on the card, answered as the script program answers it. */
#ifndef CARDS_RUN_H
#define CARDS_RUN_H

#include <stdbool.h>

#include "store.h"

enum ran { ALL_RUN, SOME_NOT_RUN, BROKEN_OFF };

/*
 * Runs the script at path, or standard input for "-", on the card that was loaded, and prints a line for each of its lines. No
 * answer is printed before the card that it left is stored. SOME_NOT_RUN: lines were not served, and changed nothing. BROKEN_OFF:
 * the script could not be read or its answers not be stored or printed, or it is for another card, or a signal came. Says why, but
 * of a signal.
 */
enum ran run_on_card(struct store *s, const char *path);

#endif
