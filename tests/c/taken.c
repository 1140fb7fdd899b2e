/*
 * On Linux. A call is made on a stack of its own that was filled with one value before; the deepest byte with another value tells. Nothing
 * counts its instructions.
 */
#define _XOPEN_SOURCE 700 /* ucontext.h */

#include "taken.h"

#include <stdint.h>
#include <stdio.h>
#include <stdlib.h>
#include <string.h>
#include <ucontext.h>

enum { ROOM = 64 * 1024, PART = 1024, FILL = 0xA5 };

static uint8_t stack[ROOM], filled[PART];
static ucontext_t caller, apart;

/* The stack grows down, so the first byte that changed is the deepest. From it on the stack is filled again. */
static size_t bytes_changed(void)
{
    size_t untouched = 0;

    while (untouched < sizeof stack && memcmp(stack + untouched, filled, sizeof filled) == 0)
        untouched += sizeof filled;
    while (untouched < sizeof stack && stack[untouched] == FILL)
        untouched++;
    memset(stack + untouched, FILL, sizeof stack - untouched);
    return sizeof stack - untouched;
}

struct taken taken_by(void (*call)(void))
{
    if (filled[0] != FILL) {
        memset(stack, FILL, sizeof stack);
        memset(filled, FILL, sizeof filled);
    }
    if (getcontext(&apart) != 0)
        exit(2);
    apart.uc_stack.ss_sp = stack;
    apart.uc_stack.ss_size = sizeof stack;
    apart.uc_link = &caller;
    makecontext(&apart, call, 0);
    if (swapcontext(&caller, &apart) != 0)
        exit(2);
    struct taken t = { .stack = bytes_changed() };
    if (t.stack == sizeof stack) {
        fputs("stack: a call took more than there is\n", stderr);
        exit(2);
    }
    return t;
}
