#define _GNU_SOURCE /* ppoll */
#include "ends.h"

#include <errno.h>
#include <poll.h>
#include <signal.h>
#include <stddef.h>

static const int ends[] = { SIGINT, SIGTERM, SIGHUP };
enum { ENDS = sizeof ends / sizeof ends[0] };

static sigset_t held, before;
static volatile sig_atomic_t came; /* while input was waited for; 0 where none did */

static void note(int number)
{
    came = number;
}

bool is_ignored(int number)
{
    struct sigaction is;
    return sigaction(number, NULL, &is) == 0 && is.sa_handler == SIG_IGN;
}

void hold_ends(void)
{
    sigemptyset(&held);
    for (size_t i = 0; i < ENDS; i++)
        if (!is_ignored(ends[i])) {
            sigaddset(&held, ends[i]);
            sigaction(ends[i], &(struct sigaction){ .sa_handler = note }, NULL);
        }
    sigprocmask(SIG_BLOCK, &held, &before);
}

bool is_to_end(void)
{
    sigset_t waiting;

    sigpending(&waiting);
    for (size_t i = 0; i < ENDS; i++)
        if (sigismember(&held, ends[i]) && sigismember(&waiting, ends[i]))
            return true;
    return came != 0;
}

bool wait_for_input(int file)
{
    struct pollfd input = { .fd = file, .events = POLLIN };

    while (came == 0 && ppoll(&input, 1, NULL, &before) < 0 && errno == EINTR)
        ;
    return came == 0;
}

void let_ends(void)
{
    for (size_t i = 0; i < ENDS; i++)
        if (sigismember(&held, ends[i]))
            signal(ends[i], SIG_DFL);
    if (came != 0)
        raise(came);
    sigprocmask(SIG_SETMASK, &before, NULL);
}
