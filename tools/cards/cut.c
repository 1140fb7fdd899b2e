#define _GNU_SOURCE /* open_memstream */
#include "cut.h"

#include <errno.h>
#include <stdio.h>
#include <stdlib.h>
#include <string.h>

#include "card.h"
#include "form.h"
#include "say.h"
#include "script.h"

enum { MOST_DIGITS = 9 };

/* A card at one moment: its bytes, its text, and what a person may know of it. */
struct moment {
    struct card_bytes bytes;
    struct card_text text;
    struct form form;
};

/* The line in which the power is lost: before it, after all of it, and as it is found. Too large for a stack that is wiped at the end. */
static struct moment before, whole, found;
static struct text text;
static struct line line;

/* The script so far. */
struct cut {
    const struct loss *asked;
    const char *name; /* of the script */
    size_t lines, stores;
    size_t at; /* the line in which the power was lost; 0 where it is not lost yet */
    FILE *table;
};

/* ------------------------------------------------------------ what is asked for */

static bool read_stores(const char *word, size_t *stores)
{
    size_t digits = strspn(word, "0123456789");

    if (digits == 0 || digits > MOST_DIGITS || word[digits] != '\0') {
        say("the number of stores is not a number of up to %d digits: %s", MOST_DIGITS, word);
        return false;
    }
    *stores = strtoul(word, NULL, 10);
    return true;
}

bool read_loss(int words, char **word, struct loss *l)
{
    l->keep = words > 0 && strcmp(word[0], "--keep") == 0;
    word += l->keep;
    words -= l->keep;
    if (words != 3) {
        say("cut takes a card file, a script and a number of stores");
        return false;
    }
    l->card = word[0];
    l->script = word[1];
    return read_stores(word[2], &l->stores);
}

static const char *plural(size_t count)
{
    return count == 1 ? "" : "s";
}

/* ------------------------------------------------------------ a line */

static const char *command_name(const struct hex *command)
{
    static const struct {
        uint8_t cla, ins;
        const char *name;
    } names[] = {
        { 0x00, 0xA4, "SELECT" },
        { 0x00, 0xB0, "READ BINARY" },
        { 0x00, 0xD6, "UPDATE BINARY" },
        { 0x00, 0xB2, "READ RECORD" },
        { 0x00, 0xDC, "UPDATE RECORD" },
        { 0x00, 0xE2, "APPEND RECORD" },
        { 0x00, 0x20, "VERIFY" },
        { 0x00, 0x82, "EXTERNAL AUTHENTICATE" },
        { 0x00, 0x24, "CHANGE PIN" },
        { 0x00, 0x2C, "RELOAD PIN" },
        { 0x80, 0xE0, "CREATE FILE" },
        { 0x00, 0x84, "GET CHALLENGE" },
        { 0x00, 0xC0, "GET RESPONSE" },
        { 0x04, 0xB0, "READ BINARY with a code" },
        { 0x04, 0xD6, "UPDATE BINARY with a code" },
        { 0x04, 0xB2, "READ RECORD with a code" },
        { 0x04, 0xDC, "UPDATE RECORD with a code" },
        { 0x04, 0xE2, "APPEND RECORD with a code" },
    };

    for (size_t i = 0; i < sizeof names / sizeof names[0] && command->len >= 2; i++)
        if (command->at[0] == names[i].cla && command->at[1] == names[i].ins)
            return names[i].name;
    return "no command";
}

static bool fail(const struct cut *c, const char *why)
{
    say("%s: line %zu: %s", c->name, c->lines, why);
    return false;
}

static bool served(const struct cut *c, uint8_t outcome)
{
    return outcome == LIMPET_OK || fail(c, outcome_says(outcome));
}

/* As show has it: the file of a card never has more than this says. */
static bool look_at(struct moment *m)
{
    card_copy(&m->bytes);
    if (card_to_lasting_text(&m->text) == LIMPET_OK && read_form(&m->text, &m->form))
        return true;
    say("the card is one that this program cannot explain");
    return false;
}

/* How many stores the command makes; the first `most` of them are made in the bytes. */
static bool count_stores(const struct cut *c, struct card_bytes *bytes, size_t most, size_t *count)
{
    struct bytes command = { line.command.at, line.command.len }, random = { line.random.at, line.random.len };
    struct card_store s = { .given = 1 };

    for (*count = 0; s.given == 1; *count += s.given) {
        if (!served(c, card_store(command, random, *count, &s)))
            return false;
        if (s.given == 1 && *count < most)
            bytes->at[s.address] = s.value;
    }
    return true;
}

static bool run_command(const struct cut *c, unsigned *word)
{
    struct bytes command = { line.command.at, line.command.len }, random = { line.random.at, line.random.len };
    uint8_t reply[LIMPET_REPLY_SIZE];
    size_t count;
    bool good = served(c, card_command(command, random, reply, &count));

    if (good)
        *word = (unsigned)reply[count - 2] << 8 | reply[count - 1];
    wipe(reply, sizeof reply);
    return good;
}

static void add_row(const struct cut *c, const char *stores, const char *name, const char *left)
{
    fprintf(c->table, "%4zu  %6s  %-25s  %s\n", c->lines, stores, name, left);
}

/* Some of its stores are in found, and the session is lost. */
static bool lose(struct cut *c, size_t done, size_t count)
{
    char stores[24], left[80];
    unsigned word;

    c->at = c->lines;
    snprintf(stores, sizeof stores, "%zu", count);
    snprintf(left, sizeof left, "cut after %zu of %zu store%s, not answered", done, count, plural(count));
    add_row(c, stores, command_name(&line.command), left);
    if (!look_at(&before) || !run_command(c, &word) || !look_at(&whole))
        return false;
    card_replace(&found.bytes);
    return served(c, card_recover()) && served(c, card_reset()) && look_at(&found);
}

static bool run_whole(struct cut *c, size_t count)
{
    char stores[24], left[40];
    unsigned word;

    if (!run_command(c, &word))
        return false;
    c->stores += count;
    snprintf(stores, sizeof stores, "%zu", count);
    snprintf(left, sizeof left, "whole, answered %04X", word);
    add_row(c, stores, command_name(&line.command), left);
    return true;
}

/* The power is lost where the next store would be one too many; until then each command is whole. */
static bool run_cmd(struct cut *c)
{
    size_t left = c->asked->stores - c->stores, count;

    card_copy(&found.bytes);
    if (!count_stores(c, &found.bytes, left, &count))
        return false;
    return count > left ? lose(c, left, count) : run_whole(c, count);
}

static bool run_line(struct cut *c)
{
    c->lines++;
    read_line(&text, &line);
    if (line.kind == ISSUE_LINE)
        return fail(c, "an ISSUE line is for another card");
    if (line.wrong != NULL)
        return fail(c, line.wrong);
    if (c->at > 0) {
        add_row(c, "-", line.kind == RESET_LINE ? "RESET" : command_name(&line.command), "not begun");
        return true;
    }
    if (line.kind == CMD_LINE)
        return run_cmd(c);
    add_row(c, "0", "RESET", "whole");
    return served(c, card_reset());
}

static bool run_lines(struct cut *c, FILE *script)
{
    while (read_text(script, &text)) {
        if (c->lines == MOST_LINES) {
            say("%s: a script ends after %d lines", c->name, MOST_LINES);
            return false;
        }
        if (!run_line(c))
            return false;
    }
    if (ferror(script)) {
        say("cannot read %s: %s", c->name, strerror(errno));
        return false;
    }
    if (c->at == 0 && c->stores < c->asked->stores) {
        say("%s makes %zu store%s in all, so the power is not lost after %zu", c->name, c->stores, plural(c->stores), c->asked->stores);
        return false;
    }
    return true;
}

/* ------------------------------------------------------------ what is found */

/* A credential's line in the text, up to its first tab, which is never printed. */
static struct bytes value_of(const struct moment *m, size_t credential)
{
    const uint8_t *at = m->text.at, *tab;

    for (size_t i = 0; i < credential; i++)
        at = (const uint8_t *)memchr(at, '\n', m->text.len - (size_t)(at - m->text.at)) + 1;
    tab = memchr(at, '\t', m->text.len - (size_t)(at - m->text.at));
    return (struct bytes){ at, (size_t)(tab - at) };
}

static bool same_value(const struct moment *one, const struct moment *other, size_t credential)
{
    struct bytes a = value_of(one, credential), b = value_of(other, credential);
    return a.len == b.len && memcmp(a.at, b.at, a.len) == 0;
}

/* Each of these adds a line for what the command changes, or the loss of power has changed, and says whether it did. */
static bool tell_tries(FILE *to, size_t i)
{
    const struct form_credential *b = &before.form.credentials[i], *w = &whole.form.credentials[i], *f = &found.form.credentials[i];

    if (b->left == w->left && b->left == f->left)
        return false;
    fprintf(to, "  %s: %u of %u tries left; before the command %u, after all of it %u\n", credential_name(i),
            (unsigned)f->left, (unsigned)f->limit, (unsigned)b->left, (unsigned)w->left);
    return true;
}

static bool tell_value(FILE *to, size_t i)
{
    if (same_value(&before, &whole, i))
        return false;
    fprintf(to, "  %s: the %s one\n", credential_name(i), same_value(&found, &whole, i) ? "new" : "old");
    return true;
}

static const char *there(size_t count, size_t due)
{
    return count == due ? "there" : "not there";
}

static bool tell_made(FILE *to)
{
    const struct form *b = &before.form, *w = &whole.form, *f = &found.form;

    if (w->folder_count > b->folder_count)
        fprintf(to, "  directory %04X: %s\n", (unsigned)w->folders[b->folder_count].fid, there(f->folder_count, w->folder_count));
    else if (w->count > b->count)
        fprintf(to, "  file %04X: %s\n", (unsigned)w->files[b->count].fid, there(f->count, w->count));
    return w->folder_count > b->folder_count || w->count > b->count;
}

static bool same_records(const struct form_file *one, const struct form_file *other)
{
    return one->held == other->held && one->newest == other->newest;
}

/* Of a full cyclic file the oldest goes before the new one comes. */
static bool tell_records(FILE *to, size_t i)
{
    const struct form_file *b = &before.form.files[i], *w = &whole.form.files[i], *f = &found.form.files[i];
    bool full = b->type == CYCLIC && b->held == b->size1;

    if (same_records(b, w))
        return false;
    fprintf(to, "  file %04X: the new record is %s", (unsigned)b->fid, same_records(f, w) ? "there" : "not there");
    if (full)
        fprintf(to, ", and the oldest is %s", same_records(f, b) ? "still there" : "gone");
    fprintf(to, "; %u record%s, before the command %u\n", f->records, plural(f->records), b->records);
    return true;
}

static bool tell_contents(FILE *to, size_t i, size_t start)
{
    const struct form_file *b = &before.form.files[i];
    const uint8_t *old = before.bytes.at + LIMPET_CARD_SIZE + start, *new = whole.bytes.at + LIMPET_CARD_SIZE + start,
                  *now = found.bytes.at + LIMPET_CARD_SIZE + start;
    size_t changed = 0, done = 0;

    for (size_t at = 0; at < bytes_taken(b); at++)
        if (old[at] != new[at]) {
            changed++;
            done += now[at] == new[at];
        }
    if (changed > 0)
        fprintf(to, "  file %04X: %zu of %zu byte%s that change %s new\n", (unsigned)b->fid, done, changed, plural(changed), done == 1 ? "is" : "are");
    return changed > 0;
}

static void tell_found(FILE *to, const struct cut *c)
{
    size_t start = 0, told = 0;

    fprintf(to, "the power is lost after %zu store%s. Found then, of what line %zu changes:\n", c->asked->stores,
            plural(c->asked->stores), c->at);
    for (size_t i = 0; i < CREDENTIALS; i++)
        told += tell_value(to, i) + tell_tries(to, i);
    told += tell_made(to);
    for (size_t i = 0; i < before.form.count; i++) {
        told += tell_records(to, i) || tell_contents(to, i, start);
        start += bytes_taken(&before.form.files[i]);
    }
    if (told == 0)
        fputs("  nothing: the card is as before it\n", to);
}

/* ------------------------------------------------------------ all of it */

/* The session is over, wherever the power was lost. */
static bool end_script(struct cut *c, struct store *s)
{
    if (c->at == 0) {
        fprintf(c->table, "the power is lost after %zu store%s, which are all, and every line is whole\n", c->stores, plural(c->stores));
        if (!served(c, card_reset()))
            return false;
    } else {
        tell_found(c->table, c);
    }
    if (c->asked->keep && store_card(s, WHOLE_CARD, ALWAYS) != STORED)
        return false;
    fprintf(c->table, c->asked->keep ? "%s has the card that is found\n" : "%s is as it was\n", s->path);
    return true;
}

static bool print_table(const struct cut *c, const struct store *s, const char *at, size_t len)
{
    if (fwrite(at, 1, len, stdout) == len && fflush(stdout) == 0)
        return true;
    if (c->asked->keep)
        say("the output cannot be written; %s has the card that is found", s->path);
    else
        say("the output cannot be written");
    return false;
}

static bool cut_script(struct cut *c, struct store *s, FILE *script)
{
    char *printed;
    size_t len;
    bool good;

    c->table = open_memstream(&printed, &len);
    if (c->table == NULL) {
        say("there is no memory");
        return false;
    }
    fputs("line  stores  command                    what is left of it\n", c->table);
    good = run_lines(c, script) && end_script(c, s);
    fclose(c->table);
    if (good)
        good = print_table(c, s, printed, len);
    free(printed);
    return good;
}

bool lose_power(struct store *s, const struct loss *l)
{
    struct cut c = { .asked = l, .name = script_name(l->script) };
    struct script_room room;
    FILE *script = open_script(l->script, &room);
    bool good;

    if (script == NULL)
        return false;
    good = cut_script(&c, s, script);
    close_script(script, &room);
    wipe(&before, sizeof before);
    wipe(&whole, sizeof whole);
    wipe(&found, sizeof found);
    wipe(&text, sizeof text);
    wipe(&line, sizeof line);
    return good;
}
