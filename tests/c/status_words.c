/*
 * The header's names for status words, held to docs/COMMANDS.md over all numbers of 16 bits. Compiled as C and as C++, and run. It
 * prints what is wrong.
 */
#include <stdio.h>

#include "limpetnook.h"

static int wrong;

static void hold(const char *name, unsigned sw, long is, long must_be)
{
    if (is != must_be) {
        printf("%s of %04X is %ld and not %ld\n", name, sw, is, must_be);
        wrong = 1;
    }
}

int main(void)
{
    for (unsigned sw = 0; sw <= 0xFFFF; sw++) {
        unsigned low = sw % 256;
        int waits = sw / 256 == 0x61, tries = sw / 16 == 0x63C;

        hold("IS_WAITING", sw, LIMPET_SW_IS_WAITING(sw), waits);
        hold("IS_TRIES", sw, LIMPET_SW_IS_TRIES(sw), tries);
        if (waits)
            hold("WAITING", sw, LIMPET_SW_WAITING(sw), low == 0 ? 256 : (long)low);
        if (tries)
            hold("TRIES", sw, LIMPET_SW_TRIES(sw), sw % 16);
    }
    hold("IS_WAITING", 0x6101, LIMPET_SW_IS_WAITING(0x6100 | 1), 1); /* of an expression, as a program may have it */
    hold("TRIES", 0x63C2, LIMPET_SW_TRIES(0x63C0 | 2), 2);
    hold("DONE", 0x9000, LIMPET_SW_DONE, 0x9000);
    hold("NO_RIGHT", 0x6982, LIMPET_SW_NO_RIGHT, 0x6982);
    hold("BLOCKED", 0x6983, LIMPET_SW_BLOCKED, 0x6983);
    hold("NO_CHALLENGE", 0x6984, LIMPET_SW_NO_CHALLENGE, 0x6984);
    hold("WRONG_CODE", 0x6988, LIMPET_SW_WRONG_CODE, 0x6988);
    return wrong;
}
