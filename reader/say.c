#include "say.h"

#include <stdarg.h>
#include <stdio.h>
#include <stdlib.h>
#include <string.h>

bool verbose = false;

static char *kept;        /* where what is said goes; NULL where it is shown */
static bool has_progress; /* a line without its end is shown */

void end_progress(void)
{
    if (has_progress)
        fputs("\r\033[K", stderr);
    has_progress = false;
}

static void show_line(const char *format, va_list rest)
{
    end_progress();
    fprintf(stderr, "%s: ", said_by);
    vfprintf(stderr, format, rest);
    fputc('\n', stderr);
}

void say(const char *format, ...)
{
    va_list rest;

    va_start(rest, format);
    if (kept != NULL)
        vsnprintf(kept, LONGEST_SAID, format, rest);
    else
        show_line(format, rest);
    va_end(rest);
}

void say_at_once(const char *format, ...)
{
    va_list rest;

    va_start(rest, format);
    show_line(format, rest);
    va_end(rest);
}

void keep_what_is_said(char room[LONGEST_SAID])
{
    kept = room;
}

void say_progress(const char *format, ...)
{
    va_list rest;

    end_progress();
    va_start(rest, format);
    vfprintf(stderr, format, rest);
    va_end(rest);
    has_progress = true;
}

static bool is_plain(char c)
{
    return ('a' <= c && c <= 'z') || ('A' <= c && c <= 'Z') || ('0' <= c && c <= '9') || (c != '\0' && strchr("_./+:,@%=-", c) != NULL);
}

static bool is_shown_as_it_is(char c)
{
    return (unsigned char)c >= 0x20 && c != 0x7F;
}

/* A word is quoted by '...', and by $'...' where a byte is for the terminal; an option's dash is behind ./ then. */
char *shell_word(const char *path)
{
    bool plain = path[0] != '\0', shown = true;
    char *word = malloc(4 * strlen(path) + sizeof "./$''"), *at = word;

    for (const char *c = path; *c != '\0'; c++) {
        plain = plain && is_plain(*c);
        shown = shown && is_shown_as_it_is(*c);
    }
    if (word == NULL)
        return NULL;
    at += sprintf(at, "%s%s", path[0] == '-' ? "./" : "", plain ? "" : shown ? "'" : "$'");
    for (const char *c = path; *c != '\0'; c++)
        if (!is_shown_as_it_is(*c))
            at += sprintf(at, "\\%03o", (unsigned)(unsigned char)*c);
        else if (*c == '\'')
            at += sprintf(at, shown ? "'\\''" : "\\'");
        else if (*c == '\\' && !shown)
            at += sprintf(at, "\\\\");
        else
            *at++ = *c;
    strcpy(at, plain ? "" : "'");
    return word;
}

void say_usage(const char *usage, const char *front)
{
    fwrite(usage, 1, (size_t)(strstr(usage, "\n\n") + 1 - usage), stderr);
    fprintf(stderr, "%s --help explains it\n", front);
}

int printed(int status)
{
    if (fflush(stdout) == 0 && !ferror(stdout))
        return status;
    say("the output cannot be written");
    return EXIT_FAILURE;
}

static void print_hex(const char *sign, struct bytes text)
{
    fputs(sign, stderr);
    for (size_t i = 0; i < text.len; i++)
        fprintf(stderr, "%02X", text.at[i]);
    fputc('\n', stderr);
}

void say_exchange(struct bytes command, struct bytes answer)
{
    if (!verbose)
        return;
    print_hex("> ", command);
    print_hex("< ", answer);
}

void say_event(const char *event)
{
    if (verbose)
        fprintf(stderr, "- %s\n", event);
}
