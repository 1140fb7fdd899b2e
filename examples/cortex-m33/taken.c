/*
 * What a call takes on the board.
 *
 * Instructions: the emulator is started with -icount shift=6, so that each takes 64 ns, and the timer SysTick counts down once in 50 ns.
 * A processor has its own time for each instruction; there SysTick, or the cycle counter of the DWT, tells cycles.
 *
 * Stack: what is free of it is painted before the call, and the deepest word that has lost its paint tells.
 */
#include "taken.h"

#include <stdint.h>
#include <stdio.h>
#include <stdlib.h>

#define PAINT 0xA5A5A5A5u
#define INSTRUCTION_NS 64
#define TICK_NS 50
#define MOST_TICKS 0xFFFFFFu /* the timer has 24 bits */

struct systick {
    volatile uint32_t control, reload, current;
};
static struct systick *const timer = (struct systick *)0xE000E010;
enum { ENABLED = 1, AT_PROCESSOR_CLOCK = 4, HAS_REACHED_0 = 1 << 16 };

extern uint32_t stack_limit[];

static uint32_t *stack_pointer(void)
{
    uint32_t *at;

    __asm__ volatile("mov %0, sp" : "=r"(at));
    return at;
}

struct taken taken_by(void (*call)(void))
{
    uint32_t *top = stack_pointer(), *deepest = stack_limit, ticks;

    for (uint32_t *at = stack_limit; at < top; at++)
        *(volatile uint32_t *)at = PAINT;
    timer->reload = MOST_TICKS;
    timer->current = 0;
    timer->control = ENABLED | AT_PROCESSOR_CLOCK;
    call();
    ticks = MOST_TICKS - timer->current;
    if (timer->control & HAS_REACHED_0) {
        fputs("a call took more instructions than the timer can count\n", stderr);
        exit(2);
    }
    while (deepest < top && *deepest == PAINT)
        deepest++;
    return (struct taken){ (unsigned long)(top - deepest) * sizeof *top, ticks * TICK_NS / INSTRUCTION_NS };
}
