#define _DEFAULT_SOURCE /* setrlimit */
#include "process.h"

#include <errno.h>
#include <fcntl.h>
#include <stdint.h>
#include <stdlib.h>
#include <string.h>
#include <sys/prctl.h>
#include <sys/resource.h>
#include <unistd.h>

#include "card.h"
#include "say.h"

enum { STACK_USED = 64 * 1024 }; /* bytes below main; the deepest call takes less than half of that */

void standard_open(void)
{
    for (int place = STDIN_FILENO; place <= STDERR_FILENO; place++)
        if (fcntl(place, F_GETFD) < 0 && open("/dev/null", place == STDIN_FILENO ? O_WRONLY : O_RDONLY) != place) {
            say("cannot open /dev/null in place of descriptor %d, which is closed: %s", place, strerror(errno));
            exit(EXIT_FAILURE);
        }
}

void process_begin(void)
{
    const struct rlimit none = { 0, 0 };

    standard_open();
    if (setrlimit(RLIMIT_CORE, &none) == 0 && prctl(PR_SET_DUMPABLE, 0, 0, 0, 0) == 0)
        return;
    say("cannot keep the card out of core files: %s", strerror(errno));
    exit(EXIT_FAILURE);
}

void process_end(void)
{
    uint8_t below[STACK_USED];

    card_wipe();
    wipe(below, sizeof below);
}
