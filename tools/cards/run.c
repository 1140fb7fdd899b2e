#define _GNU_SOURCE /* fopencookie */
#include "run.h"

#include <errno.h>
#include <poll.h>
#include <string.h>
#include <unistd.h>

#include "card.h"
#include "ends.h"
#include "say.h"
#include "script.h"

/* As text: four fields with three tabs and a newline, the numbers of up to 5 digits. Answers wait in so much room. */
enum { LONGEST_ANSWER = 2 * LIMPET_REPLY_SIZE + 5 + 5 + 4, ROOM = 256 * 1024 };

struct answer {
    uint8_t outcome;
    const char *wrong; /* why it was not served */
    uint8_t reply[LIMPET_REPLY_SIZE];
    size_t count; /* 0 where there is no status word */
};

/* The lines so far, and the first that was not served. */
struct count {
    size_t lines, not_run, first;
    uint8_t outcome;
    const char *wrong;
};

/*
 * Lines are run in blocks: their answers wait until the card is stored, once for all of them. A block ends where the script would
 * have to be waited for, so whoever sends a line and waits has its answer.
 */
struct run {
    struct store *card;
    int script;
    struct text text;
    struct line line;
    struct count count;
    size_t begun; /* the first line of the block; 0 where there is none */
    bool changes; /* a line of the block may change what lasts */
    bool failed;  /* a block could not be stored or printed, which was said */
    int unread;   /* why the script could not be read */
    char waiting[ROOM];
    size_t len; /* of what waits */
};

/* ------------------------------------------------------------ a line */

static void answer_line(const struct line *l, struct answer *a)
{
    struct bytes command = { l->command.at, l->command.len }, random = { l->random.at, l->random.len };

    a->count = 0;
    a->wrong = l->wrong;
    if (l->wrong != NULL) {
        a->outcome = NO_LINE;
        return;
    }
    a->outcome = l->kind == CMD_LINE ? card_command(command, random, a->reply, &a->count) : card_reset();
    if (a->outcome != LIMPET_OK)
        a->wrong = outcome_says(a->outcome);
}

static void put_hex(struct run *r, const uint8_t *at, size_t len)
{
    static const char digits[] = "0123456789ABCDEF";

    if (len == 0)
        r->waiting[r->len++] = '-';
    for (size_t i = 0; i < len; i++) {
        r->waiting[r->len++] = digits[at[i] >> 4];
        r->waiting[r->len++] = digits[at[i] & 0x0F];
    }
}

static void put_answer(struct run *r, const struct answer *a)
{
    size_t word = a->count == 0 ? 0 : 2;

    r->len += (size_t)snprintf(r->waiting + r->len, ROOM - r->len, "%zu\t%u\t", r->count.lines, (unsigned)a->outcome);
    put_hex(r, a->reply, a->count - word);
    r->waiting[r->len++] = '\t';
    put_hex(r, a->reply + a->count - word, word);
    r->waiting[r->len++] = '\n';
}

/* However the rest of the line is written: the lines after it are for the card that it makes. */
static bool makes_a_card(const struct text *t)
{
    static const char word[] = "ISSUE";
    return t->len >= strlen(word) && memcmp(t->at, word, strlen(word)) == 0;
}

static void count_line(struct count *c, const struct answer *a)
{
    c->lines++;
    if (a->outcome == LIMPET_OK)
        return;
    if (c->not_run++ == 0) {
        c->first = c->lines;
        c->outcome = a->outcome;
        c->wrong = a->wrong;
    }
}

static bool may_change(const struct line *l)
{
    return l->wrong == NULL && l->kind == CMD_LINE && !card_only_reads((struct bytes){ l->command.at, l->command.len });
}

/* ------------------------------------------------------------ a block of lines */

/* Whether all could be written. */
static bool write_out(const char *at, size_t len)
{
    return fwrite(at, 1, len, stdout) == len && fflush(stdout) == 0;
}

static bool begin_block(struct run *r)
{
    size_t line = r->count.lines + 1;

    if (r->begun > 0)
        return true;
    if (!store_prepare(r->card)) {
        say("line %zu and what follows is not run", line);
        r->failed = true;
        return false;
    }
    r->begun = line;
    return true;
}

static bool keep_block(struct run *r)
{
    if (store_card(r->card, WHOLE_CARD, r->changes ? ALWAYS : WHERE_CHANGED) != STORED) {
        say("line %zu and what follows is not answered", r->begun);
        return false;
    }
    if (write_out(r->waiting, r->len))
        return true;
    say("the answers from line %zu on cannot be written; what was run up to line %zu is stored", r->begun, r->count.lines);
    return false;
}

static bool end_block(struct run *r)
{
    if (r->begun > 0 && !keep_block(r))
        r->failed = true;
    wipe(r->waiting, r->len);
    r->len = 0;
    r->begun = 0;
    r->changes = false;
    return !r->failed;
}

/* One line, in a block. Whether the script can go on. */
static bool run_line(struct run *r)
{
    struct answer a;

    if (!begin_block(r))
        return false;
    read_line(&r->text, &r->line);
    answer_line(&r->line, &a);
    count_line(&r->count, &a);
    put_answer(r, &a);
    r->changes |= may_change(&r->line);
    return ROOM - r->len > LONGEST_ANSWER || end_block(r);
}

/* ------------------------------------------------------------ the script */

static bool is_there(int file)
{
    struct pollfd input = { .fd = file, .events = POLLIN };
    return poll(&input, 1, 0) != 0;
}

/* More of the script, for stdio. A file is always there; before a pipe or a terminal is waited for, the block ends. */
static ssize_t read_more(void *given, char *at, size_t len)
{
    struct run *r = given;
    ssize_t got;

    if (!is_there(r->script) && !(end_block(r) && wait_for_input(r->script)))
        return -1;
    do
        got = read(r->script, at, len);
    while (got < 0 && errno == EINTR);
    if (got < 0)
        r->unread = errno;
    return got;
}

enum end { SCRIPT_ENDED, TOO_MANY_LINES, ISSUE_MET, NOT_READ, SIGNAL_CAME, NOT_KEPT };

static enum end run_lines(struct run *r, FILE *script)
{
    for (;;) {
        bool there = read_text(script, &r->text);

        if (r->failed)
            return NOT_KEPT;
        if (is_to_end())
            return SIGNAL_CAME;
        if (ferror(script))
            return NOT_READ;
        if (!there)
            return SCRIPT_ENDED;
        if (r->count.lines == MOST_LINES)
            return TOO_MANY_LINES;
        if (makes_a_card(&r->text))
            return ISSUE_MET;
        if (!run_line(r))
            return NOT_KEPT;
    }
}

static const char *so_far(const struct count *c)
{
    return c->lines == 0 ? "no line was run" : "what was answered is stored";
}

/* All that is left to be said, where the card is stored. */
static enum ran ended(const char *name, const struct run *r, enum end end)
{
    const struct count *c = &r->count;

    if (c->not_run > 0)
        say("%s: line %zu was not run (outcome %u): %s%s", name, c->first, (unsigned)c->outcome, c->wrong,
            c->not_run > 1 ? "; others were not run either" : "");
    if (end == TOO_MANY_LINES)
        say("%s: a script ends after %d lines, and those that follow were not run", name, MOST_LINES);
    if (end == ISSUE_MET)
        say("%s: line %zu: an ISSUE line is for another card (tools/card new CARD SCRIPT makes one); it and what follows is not "
            "run, and %s", name, c->lines + 1, so_far(c));
    if (end == NOT_READ)
        say("cannot read %s: %s; %s", name, strerror(r->unread), so_far(c));
    if (end == SCRIPT_ENDED || end == TOO_MANY_LINES)
        return c->not_run > 0 || end == TOO_MANY_LINES ? SOME_NOT_RUN : ALL_RUN;
    return BROKEN_OFF;
}

static enum ran run_script_on(struct run *r, FILE *script, const char *name)
{
    static const char header[] = "line\toutcome\tdata\tsw\n";
    enum end end;

    if (isatty(r->script))
        say("each answer is stored in %s before it is printed", r->card->path);
    if (!write_out(header, strlen(header))) {
        say("the answers cannot be written; no line was run");
        return BROKEN_OFF;
    }
    end = run_lines(r, script);
    return end_block(r) ? ended(name, r, end) : BROKEN_OFF;
}

enum ran run_on_card(struct store *s, const char *path)
{
    static struct run r;
    struct script_room opened, room;
    FILE *file = open_script(path, &opened), *script;
    enum ran ran = BROKEN_OFF;

    if (file == NULL)
        return BROKEN_OFF;
    r.card = s;
    r.script = fileno(file);
    script = fopencookie(&r, "r", (cookie_io_functions_t){ .read = read_more });
    if (script == NULL) {
        say("cannot read %s: %s", path, strerror(errno));
    } else {
        setvbuf(script, room.at, _IOFBF, sizeof room.at);
        ran = run_script_on(&r, script, script_name(path));
        close_script(script, &room);
    }
    close_script(file, &opened);
    wipe(&r, sizeof r);
    return ran;
}
