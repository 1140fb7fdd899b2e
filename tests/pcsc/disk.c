/*
 * Stands between a program and the disk, with --wrap of the linker. The environment names one of the calls that reader/store.c
 * makes, by its number: DISK_FAILS, where that call fails as on a full disk, or by the number of errno in DISK_ERROR; DISK_KILLS,
 * where the program is killed before it; DISK_STOPS, where it stops before it until it is sent SIGCONT. Half of what a write was to
 * write is on the disk in the first two. DISK_LOG names a file to which each call is written that works. With DISK_PATIENT it waits
 * a minute for a lock in place of five seconds, since a program that holds one may be slow.
 */
#define _DEFAULT_SOURCE
#include <errno.h>
#include <fcntl.h>
#include <signal.h>
#include <stdbool.h>
#include <stdio.h>
#include <stdlib.h>
#include <string.h>
#include <sys/stat.h>
#include <time.h>
#include <unistd.h>

int __real_openat(int folder, const char *name, int flags, mode_t mode);
ssize_t __real_write(int file, const void *bytes, size_t len);
int __real_fchmod(int file, mode_t mode);
int __real_fsync(int file);
int __real_ftruncate(int file, off_t len);
int __real_renameat(int from_folder, const char *from, int to_folder, const char *to);
int __real_renameat2(int from_folder, const char *from, int to_folder, const char *to, unsigned flags);
int __real_unlinkat(int folder, const char *name, int flags);
int __real_nanosleep(const struct timespec *pause, struct timespec *left);

enum { AS_BEFORE = 100, LONGER = 400000000 }; /* pauses, until it has said that it waits; and ns */

static bool is_number(const char *variable, int number)
{
    const char *text = getenv(variable);
    return text != NULL && atoi(text) == number;
}

enum fate { WORKS, FAILS, KILLED };

static enum fate next_call(void)
{
    static int calls = 0;

    calls++;
    if (is_number("DISK_STOPS", calls))
        raise(SIGSTOP);
    return is_number("DISK_FAILS", calls) ? FAILS : is_number("DISK_KILLS", calls) ? KILLED : WORKS;
}

static int why(void)
{
    const char *error = getenv("DISK_ERROR");
    return error == NULL ? ENOSPC : atoi(error);
}

static void note(const char *call)
{
    FILE *log = getenv("DISK_LOG") == NULL ? NULL : fopen(getenv("DISK_LOG"), "a");

    if (log != NULL) {
        fprintf(log, "%s\n", call);
        fclose(log);
    }
}

/* Whether the call is to be made. */
static bool made(const char *call)
{
    enum fate fate = next_call();

    if (fate == KILLED)
        raise(SIGKILL);
    if (fate == FAILS)
        errno = why();
    else
        note(call);
    return fate == WORKS;
}

int __wrap_openat(int folder, const char *name, int flags, mode_t mode)
{
    return made(strcmp(name, ".") == 0 ? "openat of the folder" : "openat") ? __real_openat(folder, name, flags, mode) : -1;
}

ssize_t __wrap_write(int file, const void *bytes, size_t len)
{
    enum fate fate = next_call();

    if (fate == WORKS) {
        note("write");
        return __real_write(file, bytes, len);
    }
    if (__real_write(file, bytes, len / 2) >= 0 && fate == KILLED)
        raise(SIGKILL);
    errno = why();
    return -1;
}

int __wrap_fchmod(int file, mode_t mode)
{
    return made("fchmod") ? __real_fchmod(file, mode) : -1;
}

int __wrap_ftruncate(int file, off_t len)
{
    return made("ftruncate") ? __real_ftruncate(file, len) : -1;
}

int __wrap_fsync(int file)
{
    struct stat is;
    bool folder = fstat(file, &is) == 0 && S_ISDIR(is.st_mode);

    return made(folder ? "fsync of the folder" : "fsync") ? __real_fsync(file) : -1;
}

int __wrap_renameat(int from_folder, const char *from, int to_folder, const char *to)
{
    return made("renameat") ? __real_renameat(from_folder, from, to_folder, to) : -1;
}

int __wrap_renameat2(int from_folder, const char *from, int to_folder, const char *to, unsigned flags)
{
    return made("renameat2") ? __real_renameat2(from_folder, from, to_folder, to, flags) : -1;
}

int __wrap_unlinkat(int folder, const char *name, int flags)
{
    return made("unlinkat") ? __real_unlinkat(folder, name, flags) : -1;
}

int __wrap_nanosleep(const struct timespec *pause, struct timespec *left)
{
    static int pauses = 0;
    const struct timespec longer = { .tv_nsec = LONGER };

    pauses++;
    note("nanosleep");
    return __real_nanosleep(pauses > AS_BEFORE && getenv("DISK_PATIENT") != NULL ? &longer : pause, left);
}
