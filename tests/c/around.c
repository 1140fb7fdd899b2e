/*
 * Stands around a program that holds secrets, with --wrap=main,--wrap=process_end of the linker.
 *
 * AROUND_CLOSED     the standard descriptors that are closed when main begins, as 02
 * AROUND_SECRETS    secrets that are looked for in the memory when main has ended, parted by commas: hex digits of their bytes, each
 *                   with all bits changed, so that this text is not what is looked for
 * AROUND_FOUND      the file to which a line is written for each that is found, then one on what others can see of the process, and
 *                   one on what standard input is by then
 * AROUND_NOT_WIPED  process_end does nothing
 */
#define _DEFAULT_SOURCE
#include <fcntl.h>
#include <stdbool.h>
#include <stdint.h>
#include <stdio.h>
#include <stdlib.h>
#include <string.h>
#include <sys/auxv.h>
#include <sys/prctl.h>
#include <sys/resource.h>
#include <unistd.h>

enum { MOST_SECRETS = 16, LONGEST_SECRET = 64, BELOW = 96 * 1024 }; /* a stack has more from its start */

struct changed {
    uint8_t at[LONGEST_SECRET]; /* the other bits of each byte */
    size_t len;
};

/* Not on the stack, which is to be seen as the program left it. */
static struct changed secrets[MOST_SECRETS];
static size_t count;
static uintptr_t heap; /* where it began before main */

extern char __data_start, _end; /* by the linker */

int __real_main(int argc, char **argv);
int __wrap_main(int argc, char **argv);
void __real_process_end(void);
void __wrap_process_end(void);

static unsigned digit(char c)
{
    return c <= '9' ? (unsigned)(c - '0') : (unsigned)(c - 'A') + 10;
}

static void read_secrets(const char *text)
{
    for (count = 0; count < MOST_SECRETS && *text != '\0'; count++) {
        struct changed *s = &secrets[count];
        for (; *text != '\0' && *text != ',' && s->len < LONGEST_SECRET; text += 2)
            s->at[s->len++] = (uint8_t)(16 * digit(text[0]) + digit(text[1]));
        text += *text == ',';
    }
}

static bool is_at(const volatile uint8_t *at, const struct changed *s)
{
    for (size_t i = 0; i < s->len; i++)
        if (at[i] + s->at[i] != 0xFF)
            return false;
    return true;
}

static void look(uintptr_t from, uintptr_t to, const char *name, int found)
{
    for (size_t n = 0; n < count; n++)
        for (uintptr_t at = from; at + secrets[n].len <= to; at++)
            if (is_at((const volatile uint8_t *)at, &secrets[n]))
                dprintf(found, "secret %zu at %lx of %s\n", n, (unsigned long)(at - from), name);
}

/* An emulator has no good /proc/self/maps, so the parts of the memory are found in other ways. */
static void look_everywhere(int found)
{
    uint8_t here;

    look((uintptr_t)&__data_start, (uintptr_t)&_end, "the program's variables", found);
    look(heap, (uintptr_t)sbrk(0), "the heap", found);
    look((uintptr_t)&here - BELOW, getauxval(AT_EXECFN), "the stack", found); /* up to the words of argv and the environment */
}

static void tell(const char *path)
{
    int found = open(path, O_WRONLY | O_CREAT | O_TRUNC, 0600);
    struct rlimit core;
    char input[256] = { 0 };

    look_everywhere(found);
    getrlimit(RLIMIT_CORE, &core);
    dprintf(found, "core files up to %lu, at most %lu; dumpable %d\n", (unsigned long)core.rlim_cur, (unsigned long)core.rlim_max,
            prctl(PR_GET_DUMPABLE));
    dprintf(found, "standard input is %s\n", readlink("/proc/self/fd/0", input, sizeof input - 1) < 0 ? "closed" : input);
    close(found);
}

void __wrap_process_end(void)
{
    if (getenv("AROUND_NOT_WIPED") == NULL)
        __real_process_end();
}

int __wrap_main(int argc, char **argv)
{
    const char *closed = getenv("AROUND_CLOSED"), *sought = getenv("AROUND_SECRETS"), *found = getenv("AROUND_FOUND");
    int status;

    for (; closed != NULL && *closed != '\0'; closed++)
        close(*closed - '0');
    if (sought != NULL)
        read_secrets(sought);
    heap = (uintptr_t)sbrk(0);
    status = __real_main(argc, argv);
    if (found != NULL)
        tell(found);
    return status;
}
