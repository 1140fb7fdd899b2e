/*
 * For tests/flash: each store of examples/flash.c takes a while, as in a real
 * memory, so that a kill at a random moment meets a command in its middle. Linked
 * with --wrap=pwrite.
 */
#define _DEFAULT_SOURCE
#include <time.h>
#include <unistd.h>

ssize_t __real_pwrite(int file, const void *bytes, size_t count, off_t place);
ssize_t __wrap_pwrite(int file, const void *bytes, size_t count, off_t place);

static void wait_a_while(void)
{
    nanosleep(&(struct timespec){ .tv_nsec = 20000 }, NULL);
}

ssize_t __wrap_pwrite(int file, const void *bytes, size_t count, off_t place)
{
    wait_a_while();
    ssize_t stored = __real_pwrite(file, bytes, count, place);
    wait_a_while();
    return stored;
}
