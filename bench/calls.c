/*
 * How many calls a second the library serves in place. Reads a script, and
 * then plays its calls again and again on one card, with nothing checked and
 * nothing printed in between. bench/calls runs it beside the script program.
 */
#include <stdio.h>
#include <stdlib.h>
#include <string.h>

#include "measure.h"
#include "play.h"

static const char usage[] =
    "usage: calls ROUNDS <SCRIPT\n"
    "\n"
    "Plays the calls of a script in place, ROUNDS times from a blank card (1 to 999),\n"
    "and prints how many calls that were and how many a second in the fastest round.\n";

static unsigned long play(const struct played *script, size_t count)
{
    static struct player p;

    memset(&p, 0, sizeof p);
    for (size_t i = 0; i < count; i++)
        play_line(&p, &script[i].line);
    return p.calls;
}

int main(int count, char **arguments)
{
    size_t lines;
    unsigned long calls = 0;
    double best = 0;
    int rounds = read_rounds(count, arguments, usage);

    struct played *script = read_script(stdin, &lines);
    for (int round = 0; round < rounds; round++) {
        double start = processor_time();
        calls = play(script, lines);
        double took = processor_time() - start;
        if (round == 0 || took < best)
            best = took;
    }
    free(script);
    printf("%lu calls %.0f a second\n", calls, best > 0 ? (double)calls / best : 0);
    return EXIT_SUCCESS;
}
