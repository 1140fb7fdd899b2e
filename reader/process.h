/* What a program that holds keys and PINs does before all else, and last. */
#ifndef READER_PROCESS_H
#define READER_PROCESS_H

/*
 * Before anything is opened. standard_open; and the memory goes into no core file, and is open to no other program of the same
 * user. Ends the program where that cannot be had.
 */
void process_begin(void);

/* Writes 00 over the card, and over what the calls of main left on the stack. Only main calls it, when all else is done. */
void process_end(void);

/*
 * A standard descriptor that is closed would be that of the next file that is opened, and messages would go into a card. So each
 * has /dev/null, opened the wrong way round: reading and writing fail as they do where it is closed.
 */
void standard_open(void);

#endif
