/* What the programs that measure share. */
#ifndef MEASURE_H
#define MEASURE_H

/* Seconds, from some moment on. */
double now(void);

/* Seconds of processor time that the program has taken: other programs on the machine do not count. */
double processor_time(void);

/* The one word of the command line, a number of rounds, 1 to 999. Otherwise prints the usage and ends the program; --help asks for that. */
int read_rounds(int count, char **arguments, const char *usage);

#endif
