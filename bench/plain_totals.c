/*
 * The office's report in plain C: lines of alarms from standard input, counts and
 * minutes for each line and kind out. bench/totals measures crates/totals/out/totals beside it.
 */
#include <stdint.h>
#include <stdio.h>
#include <string.h>

#define MOST_ALARMS 65535
#define LINES 32
#define KINDS 6
#define LONGEST_NAME 32
#define DIGITS 16

static uint32_t counts[LINES][KINDS], minutes[LINES][KINDS];

static int digit_of(int c)
{
    if (c >= '0' && c <= '9')
        return c - '0';
    return c >= 'A' && c <= 'F' ? c - 'A' + 10 : -1;
}

/* Counts the alarm of a line without its newline, and says whether it is a good one. */
static int counted(const unsigned char *line, size_t length)
{
    const unsigned char *tab = memchr(line, '\t', length);
    unsigned char record[DIGITS / 2];

    if (!tab || tab == line || tab - line > LONGEST_NAME || line + length - (tab + 1) != DIGITS)
        return 0;
    for (int i = 0; i < DIGITS / 2; i++) {
        int high = digit_of(tab[1 + 2 * i]), low = digit_of(tab[2 + 2 * i]);

        if (high < 0 || low < 0)
            return 0;
        record[i] = (unsigned char)(high * 16 + low);
    }
    if (record[4] < 1 || record[4] > LINES || record[5] < 1 || record[5] > KINDS)
        return 0;
    counts[record[4] - 1][record[5] - 1]++;
    minutes[record[4] - 1][record[5] - 1] += record[6] * 256u + record[7];
    return 1;
}

int main(void)
{
    static unsigned char block[65536];
    unsigned char line[LONGEST_NAME + 1 + DIGITS + 1];
    size_t kept = 0, got;
    unsigned long number = 0;
    int refused = 0;

    while (!refused && (got = fread(block, 1, sizeof block, stdin)) > 0)
        for (size_t from = 0; from < got && !refused;) {
            unsigned char *end = memchr(block + from, '\n', got - from);
            size_t piece = (end ? (size_t)(end - block) : got) - from;
            size_t room = sizeof line - kept;

            /* A line that is too long keeps one byte too many, and is bad. */
            memcpy(line + kept, block + from, piece < room ? piece : room);
            kept += piece < room ? piece : room;
            from += piece + (end != NULL);
            if (!end)
                continue;
            number++;
            refused = !counted(line, kept) ? 14 : number > MOST_ALARMS ? 15 : 0;
            kept = 0;
        }
    if (!refused && kept > 0) {
        number++;
        refused = !counted(line, kept) ? 14 : number > MOST_ALARMS ? 15 : 0;
    }
    if (refused) {
        printf("%d\t%lu\n", refused, number);
        return 0;
    }
    puts("line\tkind\tcount\tminutes");
    for (int l = 0; l < LINES; l++)
        for (int k = 0; k < KINDS; k++)
            if (counts[l][k])
                printf("%d\t%d\t%u\t%u\n", l + 1, k + 1, (unsigned)counts[l][k], (unsigned)minutes[l][k]);
    return 0;
}
