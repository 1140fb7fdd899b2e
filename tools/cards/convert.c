#define _GNU_SOURCE /* tsearch, and what POSIX has on files in a folder */
#include "convert.h"

#include <errno.h>
#include <fcntl.h>
#include <getopt.h>
#include <search.h>
#include <stdio.h>
#include <stdlib.h>
#include <string.h>
#include <sys/stat.h>
#include <time.h>
#include <unistd.h>

#include "ends.h"
#include "form.h"
#include "say.h"
#include "show.h"
#include "store.h"

/* In the order of the table: what needs somebody comes last. */
enum fate { CONVERTED, ALREADY, NAMED_BEFORE, REFUSED, FAILED, FATES, NOT_REACHED };

struct row {
    const char *path;
    char *word; /* the path as the shell takes it; NULL where there is no memory */
    enum fate fate;
    char *why;     /* NULL where the fate says all */
    unsigned mode; /* where others could open the card; else 0 */

    /* Which file it is: paths that are written in different ways can lead to one. */
    dev_t device;
    ino_t folder;
    const char *name;
};

/* What the files come to, and trees of rows: those that were met, and those whose name is taken in the folder that they go to. */
struct shelf {
    const struct conversion *asked;
    struct row *rows;
    void *met, *placed;
};

/* Too large for a stack that is wiped at the end; each is wiped when its file is done. */
static struct store given, made;
static struct card_text converted;

/* ------------------------------------------------------------ what is asked for */

bool read_conversion(int words, char **word, struct conversion *c)
{
    static const struct option options[] = {
        { "to-new", no_argument, NULL, 'n' },  { "to-old", no_argument, NULL, 'o' }, { "into", required_argument, NULL, 'i' },
        { "dry-run", no_argument, NULL, 'd' }, { NULL, 0, NULL, 0 },
    };
    bool to_new = false, to_old = false;
    int option;

    *c = (struct conversion){ .into = NULL };
    word[-1] = (char *)said_by; /* who says what getopt says */
    while ((option = getopt_long(words + 1, word - 1, "", options, NULL)) >= 0) {
        if (option == '?')
            return false;
        to_new |= option == 'n';
        to_old |= option == 'o';
        c->dry |= option == 'd';
        if (option == 'i')
            c->into = optarg;
    }
    c->wanted = to_new ? NEW_FORM : OLD_FORM;
    c->files = word - 1 + optind;
    c->count = (size_t)(words + 1 - optind);
    if (to_new == to_old)
        say("convert takes one of --to-new and --to-old");
    else if (c->count == 0)
        say("convert takes at least one card file");
    return to_new != to_old && c->count > 0;
}

/* ------------------------------------------------------------ files that were met */

static int by_file(const void *one, const void *other)
{
    const struct row *a = one, *b = other;

    if (a->device != b->device)
        return a->device < b->device ? -1 : 1;
    if (a->folder != b->folder)
        return a->folder < b->folder ? -1 : 1;
    return strcmp(a->name, b->name);
}

static int by_name(const void *one, const void *other)
{
    return strcmp(((const struct row *)one)->name, ((const struct row *)other)->name);
}

static void leave(void *row)
{
    (void)row; /* the rows are an array */
}

/* Whether a row before it is the same file. */
static bool is_met(struct shelf *s, struct row *row)
{
    const struct row *const *first;
    struct stat folder;

    if (fstat(given.folder, &folder) != 0)
        return false;
    row->device = folder.st_dev;
    row->folder = folder.st_ino;
    row->name = given.name;
    first = tsearch(row, &s->met, by_file);
    return first != NULL && *first != row;
}

/* ------------------------------------------------------------ one file */

/* In a dry run, where nothing shows that the folder cannot be written. */
static bool may_write(const struct store *s)
{
    if (faccessat(s->folder, ".", W_OK | X_OK, AT_EACCESS) == 0)
        return true;
    say("cannot store %s: %s; %s", s->path, strerror(errno), s->file < 0 ? "no card is made" : "it is as it was");
    return false;
}

static bool put_in_place(const struct conversion *asked, struct store *s, const struct card_text *text)
{
    return asked->dry ? may_write(s) : store_text(s, text) == STORED;
}

/* A file that is there is never overwritten, and neither is one of this shelf. */
static bool put_at(struct shelf *s, const struct row *row, const char *path, const struct card_text *text)
{
    enum found found = store_open(&made, path, TO_LOOK);
    bool good = false;

    if (found == CANNOT_OPEN)
        return false;
    if (found == FOUND || tfind(row, &s->placed, by_name) != NULL)
        say("%s is there already, and is left as it is", path);
    else
        good = put_in_place(s->asked, &made, text);
    if (good)
        tsearch(row, &s->placed, by_name);
    store_close(&made);
    return good;
}

static bool put_into(struct shelf *s, const struct row *row, const struct card_text *text)
{
    char *path;
    bool good;

    if (asprintf(&path, "%s/%s", s->asked->into, row->name) < 0) {
        say("there is no memory");
        return false;
    }
    good = put_at(s, row, path, text);
    free(path);
    return good;
}

/* The text goes where it is asked for. fate: that of a file whose text is there then. */
static enum fate keep(struct shelf *s, const struct row *row, const struct card_text *text, enum fate fate)
{
    bool good;

    if (s->asked->into != NULL)
        good = put_into(s, row, text);
    else
        good = fate == ALREADY || put_in_place(s->asked, &given, text);
    return good ? fate : FAILED;
}

static void say_folders(const struct form *f)
{
    char list[MOST_FOLDERS * sizeof " 0000"];
    size_t len = 0;

    list[0] = '\0';
    for (size_t i = 0; i < f->folder_count; i++)
        len += (size_t)snprintf(list + len, sizeof list - len, " %04X", (unsigned)f->folders[i].fid);
    say("the old form has no directories, and this card has%s", list[0] == '\0' ? " some" : list);
}

static void say_refusal(uint8_t outcome)
{
    char wrong[LONGEST_SAID];
    struct form f;

    read_form(&given.text, &f);
    if (outcome == LIMPET_DIRECTORY) {
        say_folders(&f);
    } else if (outcome == LIMPET_BAD_TEXT && f.wrong != NULL) {
        tell_wrong(&f, wrong, sizeof wrong);
        say("%s", wrong);
    } else {
        say("%s", outcome_says(outcome));
    }
}

static enum fate convert_text(struct shelf *s, struct row *row)
{
    uint8_t outcome = card_text_into(s->asked->wanted, &given.text, &converted);
    bool already = outcome == LIMPET_BAD_TEXT && card_text_has(s->asked->wanted, &given.text);
    enum fate fate = REFUSED;

    if (outcome != LIMPET_BAD_TEXT || already)
        row->mode = store_open_to_others(&given);
    if (outcome == LIMPET_OK)
        fate = keep(s, row, &converted, CONVERTED);
    else if (already)
        fate = keep(s, row, &given.text, ALREADY);
    else
        say_refusal(outcome);
    wipe(&converted, sizeof converted);
    return fate;
}

static enum fate convert_file(struct shelf *s, struct row *row)
{
    enum found found = store_open(&given, row->path, s->asked->into == NULL ? TO_CHANGE : TO_LOOK);
    enum fate fate = FAILED;

    if (found == CANNOT_OPEN)
        return FAILED;
    if (found == NONE)
        say("there is no such file");
    else
        fate = is_met(s, row) ? NAMED_BEFORE : convert_text(s, row);
    store_close(&given);
    return fate;
}

/* ------------------------------------------------------------ all of them */

enum { BETWEEN = 100 }; /* ms between two progress lines */

static long long now(void)
{
    struct timespec t;

    clock_gettime(CLOCK_MONOTONIC, &t);
    return t.tv_sec * 1000LL + t.tv_nsec / 1000000;
}

static void show_progress(size_t done, size_t count)
{
    static long long shown;

    if (count > 1 && isatty(STDERR_FILENO) && now() - shown >= BETWEEN) {
        say_progress("%zu of %zu files", done, count);
        shown = now();
    }
}

static void convert_all(struct shelf *s)
{
    char why[LONGEST_SAID];

    for (size_t i = 0; i < s->asked->count && !is_to_end(); i++) {
        struct row *row = &s->rows[i];

        show_progress(i, s->asked->count);
        why[0] = '\0';
        keep_what_is_said(why);
        row->fate = convert_file(s, row);
        keep_what_is_said(NULL);
        row->why = row->fate < REFUSED || why[0] == '\0' ? NULL : strdup(why);
    }
    end_progress();
}

/* ------------------------------------------------------------ the table */

static const char *form_name(enum text_form form)
{
    return form == NEW_FORM ? "new" : "old";
}

static const char *shown(const struct row *row)
{
    return row->word == NULL ? row->path : row->word;
}

/* No byte of a name tells the terminal something. */
static void print_why(const char *why)
{
    fputs(": ", stdout);
    for (; *why != '\0'; why++)
        putchar((unsigned char)*why < 0x20 || *why == 0x7F ? '?' : *why);
}

static void print_row(const struct conversion *asked, const struct row *row)
{
    static const char *const words[FATES] = {
        [CONVERTED] = "converted", [NAMED_BEFORE] = "named twice", [REFUSED] = "refused", [FAILED] = "failed"
    };

    if (row->fate == ALREADY)
        printf("already %s", form_name(asked->wanted));
    else
        printf("%-11s", words[row->fate]);
    printf("  %s", shown(row));
    if (row->why != NULL)
        print_why(row->why);
    putchar('\n');
}

static void print_counts(const struct conversion *asked, const size_t counts[NOT_REACHED + 1])
{
    static const char *const words[] = {
        [CONVERTED] = "converted", [NAMED_BEFORE] = "named twice", [REFUSED] = "refused", [FAILED] = "failed",
        [NOT_REACHED] = "not looked at"
    };
    const char *before = ":";

    printf("%zu file%s", asked->count, asked->count == 1 ? "" : "s");
    for (enum fate fate = CONVERTED; fate <= NOT_REACHED; fate++)
        if (counts[fate] > 0) {
            printf("%s %zu ", before, counts[fate]);
            if (fate == ALREADY)
                printf("in the %s form already", form_name(asked->wanted));
            else
                fputs(words[fate], stdout);
            before = ",";
        }
    puts(asked->dry ? "; a dry run, so nothing was written" : "");
}

/* Whether there is nothing that needs somebody. */
static bool print_table(const struct shelf *s)
{
    size_t counts[NOT_REACHED + 1] = { 0 };

    for (size_t i = 0; i < s->asked->count; i++)
        counts[s->rows[i].fate]++;
    for (enum fate fate = CONVERTED; fate < FATES; fate++)
        for (size_t i = 0; counts[fate] > 0 && i < s->asked->count; i++)
            if (s->rows[i].fate == fate)
                print_row(s->asked, &s->rows[i]);
    print_counts(s->asked, counts);
    return counts[REFUSED] == 0 && counts[FAILED] == 0 && counts[NOT_REACHED] == 0;
}

/* One that was replaced has mode 600. */
static bool is_still_open(const struct conversion *asked, const struct row *row)
{
    return row->mode != 0 && (asked->dry || asked->into != NULL || row->fate != CONVERTED);
}

/* Of a whole shelf once. */
static void warn_of_others(const struct shelf *s)
{
    const struct row *first = NULL, *still = NULL;
    size_t were = 0, are = 0;

    for (size_t i = 0; i < s->asked->count; i++) {
        const struct row *row = &s->rows[i];

        if (row->mode != 0 && were++ == 0)
            first = row;
        if (is_still_open(s->asked, row) && are++ == 0)
            still = row;
    }
    if (were > 1)
        say("warning: %s was open to others (mode %03o), and so were %zu more; they have the keys and the PINs as they are",
            shown(first), first->mode, were - 1);
    else if (were == 1)
        say("warning: %s was open to others (mode %03o), and has the keys and the PINs as they are", shown(first), first->mode);
    if (are > 1)
        say("warning: %s still is, and so are %zu more; say of each: chmod 600 %s", shown(still), are - 1, shown(still));
    else if (are == 1)
        say("warning: %s still is; say: chmod 600 %s", shown(still), shown(still));
}

/* So that a folder that is not there is said once. */
static bool is_folder_there(const char *path)
{
    int folder = open(path, O_RDONLY | O_DIRECTORY | O_CLOEXEC);

    if (folder < 0)
        say("cannot open the folder %s: %s", path, strerror(errno));
    else
        close(folder);
    return folder >= 0;
}

bool convert_files(const struct conversion *c)
{
    struct shelf s = { .asked = c, .rows = calloc(c->count, sizeof *s.rows) };
    bool good;

    if (s.rows == NULL) {
        say("there is no memory");
        return false;
    }
    for (size_t i = 0; i < c->count; i++)
        s.rows[i] = (struct row){ .path = c->files[i], .word = shell_word(c->files[i]), .fate = NOT_REACHED };
    good = c->into == NULL || is_folder_there(c->into);
    if (good) {
        convert_all(&s);
        good = print_table(&s);
        warn_of_others(&s);
    }
    tdestroy(s.met, leave);
    tdestroy(s.placed, leave);
    for (size_t i = 0; i < c->count; i++) {
        free(s.rows[i].word);
        free(s.rows[i].why);
    }
    free(s.rows);
    return good;
}
