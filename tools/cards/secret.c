#define _DEFAULT_SOURCE /* sigpending */
#include "secret.h"

#include <errno.h>
#include <poll.h>
#include <signal.h>
#include <string.h>
#include <termios.h>
#include <unistd.h>

#include "card.h"
#include "ends.h"
#include "say.h"

enum { PAUSE = 50 };          /* ms between two looks for a signal */
enum { MOST_AT_ONCE = 4096 }; /* bytes that a terminal hands over: a line, or less */

/* How terminal and signals were before. */
struct before {
    struct termios terminal;
    sigset_t signals;
};

/* These wait until the terminal shows again what is typed. All but the last end the program. */
static const int held[] = { SIGINT, SIGTERM, SIGHUP, SIGQUIT, SIGPIPE, SIGTSTP };
enum { HELD = sizeof held / sizeof held[0], ENDS = HELD - 1 };

/* What was typed or pasted before is not dropped. */
static void set_silent(struct termios terminal)
{
    terminal.c_lflag &= ~(tcflag_t)ECHO;
    terminal.c_lflag |= ICANON; /* line by line */
    tcsetattr(STDIN_FILENO, TCSANOW, &terminal);
}

/* In the background the program stops here until fg: the modes are those of the shell's own line. False where no fg can come. */
static bool come_to_front(void)
{
    return tcdrain(STDIN_FILENO) == 0 || errno != EIO;
}

/* At a terminal that is not the program's own there is no background. */
static bool is_in_front(void)
{
    pid_t front = tcgetpgrp(STDIN_FILENO);

    return front < 0 || front == getpgrp();
}

/* False where there is no terminal. */
static bool hide_typing(struct before *b)
{
    sigset_t signals;

    come_to_front();
    if (tcgetattr(STDIN_FILENO, &b->terminal) != 0)
        return false;
    sigemptyset(&signals);
    for (size_t i = 0; i < HELD; i++)
        if (!is_ignored(held[i]))
            sigaddset(&signals, held[i]);
    sigprocmask(SIG_BLOCK, &signals, &b->signals);
    set_silent(b->terminal);
    return true;
}

/* The shell sets the terminal as it needs it where the program is stopped all the same, as by SIGSTOP. */
static void stay_hidden(void)
{
    struct termios now;

    if (tcgetattr(STDIN_FILENO, &now) == 0 && (now.c_lflag & ECHO) != 0)
        set_silent(now);
}

static void show_typing(const struct before *b)
{
    tcsetattr(STDIN_FILENO, TCSANOW, &b->terminal);
    sigprocmask(SIG_SETMASK, &b->signals, NULL);
}

static bool is_ended(void)
{
    sigset_t waiting;

    sigpending(&waiting);
    for (size_t i = 0; i < ENDS; i++)
        if (sigismember(&waiting, held[i]))
            return true;
    return false;
}

static bool is_typed(int ms)
{
    struct pollfd input = { .fd = STDIN_FILENO, .events = POLLIN };

    return poll(&input, 1, ms) > 0;
}

/*
 * Until there is something to read; false where the program is to end first. What is typed after SIGSTOP and bg is another program's:
 * to read it would stop this one, and after fg go on with it before what is typed is hidden again.
 */
static bool wait_for_typing(void)
{
    while (!is_ended()) {
        if (!come_to_front())
            return true; /* an error */
        stay_hidden();
        if (is_typed(PAUSE) && is_in_front())
            return true;
    }
    return false;
}

/* Whether the line has come to its end. */
static bool take(const uint8_t *piece, size_t len, struct text *t)
{
    for (size_t i = 0; i < len; i++) {
        if (piece[i] == '\n')
            return true;
        if (t->len <= LONGEST_LINE)
            t->at[t->len++] = piece[i];
    }
    return false;
}

/* Half a line that Ctrl-D sends is not the end of it; at a second Ctrl-D it is. */
static bool read_typed(struct text *t)
{
    uint8_t piece[MOST_AT_ONCE];
    ssize_t got = 1;
    bool whole = false;

    t->len = 0;
    while (!whole && got > 0 && wait_for_typing()) {
        got = read(STDIN_FILENO, piece, sizeof piece);
        whole = got > 0 && take(piece, (size_t)got, t);
    }
    wipe(piece, sizeof piece);
    return whole || (t->len > 0 && !is_ended());
}

static bool ask(const char *name, const char *again, struct text *t)
{
    bool there;

    fprintf(stderr, "%s%s: ", name, again);
    there = read_typed(t);
    fputc('\n', stderr);
    return there;
}

/* Where a secret is not taken. What was pasted behind it may be one too, and the shell would run it as a command, and show it. */
static void drop_the_rest(void)
{
    if (is_typed(0))
        say("what was typed behind it is dropped");
    tcflush(STDIN_FILENO, TCIFLUSH);
}

static bool ask_twice(const char *name, struct text *t)
{
    struct text second;
    bool there, same;

    do {
        there = ask(name, "", t) && ask(name, " again", &second);
        same = there && t->len == second.len && memcmp(t->at, second.at, t->len) == 0;
        if (there && !same) {
            say("the two differ: type the %s once more", name);
            drop_the_rest();
        }
    } while (there && !same);
    wipe(&second, sizeof second);
    return there;
}

static bool is_good(const struct secret *s)
{
    bool good = s->to->len <= LONGEST_LINE && memchr(s->to->at, '\0', s->to->len) == NULL;

    if (good)
        s->to->at[s->to->len] = '\0';
    else
        say("the %s is too long, or has a byte 00", s->name);
    return good;
}

bool read_secrets(const struct secret *wanted, size_t count)
{
    struct before b;
    bool typed = count > 0 && hide_typing(&b), there = true;
    size_t have = 0;

    while (have < count
           && (there = typed ? ask_twice(wanted[have].name, wanted[have].to) : read_text(stdin, wanted[have].to))
           && is_good(&wanted[have]))
        have++;
    if (typed && have < count)
        drop_the_rest();
    if (typed)
        show_typing(&b); /* a signal that has waited ends the program here */
    if (!there)
        say("standard input has no line for the %s", wanted[have].name);
    return have == count;
}
