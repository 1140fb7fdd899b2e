#include "show.h"

#include <stdio.h>
#include <stdlib.h>
#include <string.h>

#include "say.h"

static const char *plural(unsigned count)
{
    return count == 1 ? "" : "s";
}

/* A user PIN can be opened again, as long as the admin PIN is not blocked too. */
static const char *way_out(const struct form *f, size_t credential)
{
    if (credential == USER_PIN && f->credentials[ADMIN_PIN].left > 0)
        return "RELOAD PIN with the admin PIN opens it";
    return "nothing opens it again";
}

static void show_credentials(const struct form *f)
{
    for (size_t i = 0; i < CREDENTIALS; i++) {
        const struct form_credential *c = &f->credentials[i];
        printf("%-13s  %u of %u tries left", credential_name(i), (unsigned)c->left, (unsigned)c->limit);
        if (c->left == 0)
            printf(": BLOCKED, %s", way_out(f, i));
        putchar('\n');
    }
}

static void show_form(const struct form *f)
{
    printf("form           %s\n", f->form == NEW_FORM ? "new" : "old, of before there were directories: tools/card convert --to-new");
}

static void show_mode(const struct form *f)
{
    printf("mode           %s\n", f->mode == 0 ? "0: data come with the answer" : "1: data wait for GET RESPONSE");
}

static void show_session(const struct form *f)
{
    static const char *const held[RIGHTS] = { "the device is logged in", "the admin PIN is shown", "the user PIN is shown" };
    const char *before = "";

    fputs("session        ", stdout);
    for (size_t i = 0; i < RIGHTS; i++)
        if (f->credentials[i].held) {
            printf("%s%s", before, held[i]);
            before = ", ";
        }
    if (f->folder != ROOT) {
        printf("%scurrent directory %04X", before, (unsigned)f->folder);
        before = ", ";
    }
    if (f->current != NO_FILE) {
        printf("%scurrent file %04X", before, (unsigned)f->current);
        before = ", ";
    }
    if (f->challenge_size > 0) {
        printf("%sa challenge of %u bytes", before, f->challenge_size);
        before = ", ";
    }
    if (f->waiting > 0) {
        printf("%s%u byte%s waiting", before, f->waiting, plural(f->waiting));
        before = ", ";
    }
    puts(before[0] == '\0' ? "none: as after a reset" : "");
}

static void show_room(const struct form *f)
{
    unsigned used = 0;

    for (size_t i = 0; i < f->count; i++)
        used += bytes_taken(&f->files[i]);
    printf("files          %zu of %d\n", f->count, MOST_FILES);
    printf("directories    %zu of %d\n", f->folder_count, MOST_FOLDERS);
    printf("free space     %u of %d bytes\n", LIMPET_AREA_SIZE - used, LIMPET_AREA_SIZE);
}

static const char *type_name(uint8_t type)
{
    switch (type) {
    case BINARY:
        return "binary";
    case FIXED:
        return "fixed records";
    case VARIABLE:
        return "records of different lengths";
    default:
        return "cyclic records";
    }
}

static void show_size(const struct form_file *f)
{
    if (f->type == BINARY || f->type == VARIABLE)
        printf("    size   %u byte%s\n", bytes_taken(f), plural(bytes_taken(f)));
    else
        printf("    size   %u records of %u byte%s\n", (unsigned)f->size1, (unsigned)f->size2, plural(f->size2));
}

static void show_holds(const struct form_file *f)
{
    if (f->type == BINARY)
        return;
    printf("    holds  %u record%s", f->records, plural(f->records));
    if (f->type == VARIABLE)
        printf(", %u of %u bytes used", (unsigned)f->held, bytes_taken(f));
    else if (f->type == CYCLIC && f->held == f->size1)
        fputs(": full, the next takes the place of the oldest", stdout);
    putchar('\n');
}

/* Who may, and a newline. */
static void show_right(uint8_t right)
{
    static const struct {
        uint8_t bit;
        const char *word;
    } words[] = { { FOR_ADMIN, "admin PIN" }, { FOR_USER, "user PIN" }, { FOR_DEVICE, "device" } };
    const char *before = "", *between = (right & ANY_ONE) != 0 ? " or " : " and ";

    if (right == FOR_NOBODY) {
        puts("nobody, ever");
        return;
    }
    if ((right & ~WITH_CODE) == 0)
        fputs("anybody", stdout);
    else
        for (size_t i = 0; i < sizeof words / sizeof words[0]; i++)
            if ((right & words[i].bit) != 0) {
                printf("%s%s", before, words[i].word);
                before = between;
            }
    puts((right & WITH_CODE) != 0 ? ", with a code" : "");
}

static void show_file(const struct form_file *f, bool current)
{
    printf("\n  file %04X, short number %u: %s (type %02X)%s\n",
           (unsigned)f->fid, short_number(f), type_name(f->type), (unsigned)f->type, current ? ", the current file" : "");
    show_size(f);
    fputs("    read   ", stdout);
    show_right(f->read);
    fputs("    write  ", stdout);
    show_right(f->write);
    show_holds(f);
}

/* A directory, or the root, and its files in the order in which they were made. */
static void show_folder(const struct form *f, const char *kind, int fid, uint8_t right)
{
    size_t count = 0;

    printf("\n%s %04X%s\n  new files  ", kind, (unsigned)fid, f->folder == fid ? ", the current directory" : "");
    show_right(right);
    for (size_t i = 0; i < f->count; i++)
        if (f->files[i].folder == fid) {
            show_file(&f->files[i], f->folder == fid && f->files[i].fid == f->current);
            count++;
        }
    if (count == 0)
        puts("  no files");
}

void show_card(const struct form *f)
{
    show_form(f);
    show_credentials(f);
    show_mode(f);
    show_session(f);
    show_room(f);
    show_folder(f, "root", ROOT, FOR_DEVICE);
    for (size_t i = 0; i < f->folder_count; i++)
        show_folder(f, "directory", f->folders[i].fid, f->folders[i].right);
}

void tell_wrong(const struct form *f, char *room, size_t size)
{
    char of[sizeof " of file 0000"] = "";

    if (f->of != NO_FILE)
        snprintf(of, sizeof of, "%s %04X", strcmp(f->part, "contents") == 0 ? " of file" : "", (unsigned)f->of & 0xFFFF);
    snprintf(room, size, "line %zu (%s%s%s): %s", f->line, f->part, of, f->form == OLD_FORM ? ", by the old form" : "", f->wrong);
}

static void show_refusal(const char *path, const struct form *f)
{
    char wrong[LONGEST_SAID];

    if (f->wrong == NULL) {
        printf("%s: refused\n", path);
    } else {
        tell_wrong(f, wrong, sizeof wrong);
        printf("%s: refused, at %s\n", path, wrong);
    }
}

static void show_old(const char *path)
{
    char *word = shell_word(path);

    printf("%s: accepted, in the old form; this converts it: tools/card convert --to-new %s\n", path, word == NULL ? path : word);
    free(word);
}

void show_verdict(const char *path, enum verdict verdict, const struct form *f)
{
    if (verdict == REFUSED_CARD)
        show_refusal(path, f);
    else if (verdict == OLD_CARD)
        show_old(path);
    else
        printf("%s: accepted, in the new form\n", path);
}
