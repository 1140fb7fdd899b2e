/* Signals that end the program, and that wait until what was answered is stored: those of Ctrl-C, kill and a lost terminal. */
#ifndef CARDS_ENDS_H
#define CARDS_ENDS_H

#include <stdbool.h>

/* Whoever is started by nohup, or in the background of a script, has some that are. */
bool is_ignored(int number);

/* From here on they wait. One that was ignored before is ignored. */
void hold_ends(void);

/* Whether one has come. */
bool is_to_end(void);

/* Until there is input, or its end. False where one of the signals comes before. */
bool wait_for_input(int file);

/* Those that waited end the program now. */
void let_ends(void);

#endif
