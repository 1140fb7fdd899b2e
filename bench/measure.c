#define _POSIX_C_SOURCE 200809L /* clock_gettime */
#include "measure.h"

#include <stdio.h>
#include <stdlib.h>
#include <string.h>
#include <time.h>

static double seconds_of(clockid_t clock)
{
    struct timespec t;

    clock_gettime(clock, &t);
    return (double)t.tv_sec + 1e-9 * (double)t.tv_nsec;
}

double now(void)
{
    return seconds_of(CLOCK_MONOTONIC);
}

double processor_time(void)
{
    return seconds_of(CLOCK_PROCESS_CPUTIME_ID);
}

int read_rounds(int count, char **arguments, const char *usage)
{
    int rounds = count == 2 ? atoi(arguments[1]) : 0;

    if (count == 2 && strcmp(arguments[1], "--help") == 0) {
        fputs(usage, stdout);
        exit(EXIT_SUCCESS);
    }
    if (rounds < 1 || rounds > 999) {
        fputs(usage, stderr);
        exit(2);
    }
    return rounds;
}
