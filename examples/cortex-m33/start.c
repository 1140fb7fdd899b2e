/*
 * What runs before main on a part without an operating system: the vector table, the stack's limit, and the variables put into memory.
 * part.ld says where everything lies.
 */
#include <stdint.h>
#include <stdlib.h>
#include <string.h>

extern uint32_t __heap_limit; /* newlib's: where its heap ends, which begins behind the variables */
extern uint8_t stack_limit[], stack_top[], data_stored[], data_start[], data_end[], bss_start[], bss_end[];

int main(int count, char **words);
void reset(void);
void initialise_monitor_handles(void); /* newlib's: standard input and output are those of the debugger, or of the emulator */

void reset(void)
{
    __asm__ volatile("msr msplim, %0" : : "r"(stack_limit)); /* a stack that grows past it is a fault */
    memcpy(data_start, data_stored, (size_t)(data_end - data_start));
    memset(bss_start, 0, (size_t)(bss_end - bss_start));
    __heap_limit = (uint32_t)stack_limit;
    initialise_monitor_handles();
    exit(main(1, (char *[]){ "", NULL }));
}

/* An address without memory, or no stack left: so none is used here. The debugger is told to end the run with status 3. */
static const uint32_t ended[] = { 0x20026, 3 };

__attribute__((naked)) static void fault(void)
{
    __asm__("movs r0, #0x20\n"
            "ldr r1, =%c0\n"
            "bkpt 0xAB\n"
            : : "i"(ended));
}

__attribute__((section(".vectors"), used)) static const struct {
    uint8_t *stack;
    void (*handlers[15])(void);
} vectors = { stack_top, { reset, fault, fault, fault, fault, fault, fault } };

/* newlib's exit and start-up call these. */
void _init(void) {}
void _fini(void) {}
