/* What the program tells the person who started it, on standard error. */
#ifndef READER_SAY_H
#define READER_SAY_H

#include <stdbool.h>

#include "card.h"

extern bool verbose;

/* Stands before what is said; each program has its own. */
extern const char said_by[];

void say(const char *format, ...) __attribute__((format(printf, 1, 2)));

/* Of what a person should know while it lasts: it is said also where say is kept back. */
void say_at_once(const char *format, ...) __attribute__((format(printf, 1, 2)));

/* For one of many things that can fail: what is said from now on goes into room, the last of it, and is not shown. Until NULL. */
enum { LONGEST_SAID = 1024 };
void keep_what_is_said(char room[LONGEST_SAID]);

/* A line at a terminal that the next one takes the place of, as does whatever is said. */
void say_progress(const char *format, ...) __attribute__((format(printf, 1, 2)));
void end_progress(void);

/*
 * The path as a word for the shell, so that a command with it can be pasted, and no byte of it tells the terminal something. The
 * caller frees it. NULL where there is no memory.
 */
char *shell_word(const char *path);

/* Of a program's usage the lines up to the first empty one. front: what has the rest. */
void say_usage(const char *usage, const char *front);

/* What was printed on standard output is there, or this says that it is not, and is another status than that of success. */
int printed(int status);

/* With --verbose only: what went to the card and came back. */
void say_exchange(struct bytes command, struct bytes answer);
void say_event(const char *event);

#endif
