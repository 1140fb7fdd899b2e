#define _GNU_SOURCE /* flock, renameat2, and what POSIX has on files in a folder */
#include "store.h"

#include <dirent.h>
#include <errno.h>
#include <fcntl.h>
#include <signal.h>
#include <stdio.h>
#include <stdlib.h>
#include <string.h>
#include <sys/file.h>
#include <sys/random.h>
#include <sys/stat.h>
#include <time.h>
#include <unistd.h>

#include "say.h"

enum { OWNER_ALONE = 0600, OTHERS = 0077 };
enum { LONGEST_WAIT = 5000, BEFORE_WORD = 1000, PAUSE = 20 }; /* ms */

static const char the_card[] = "", the_folder[] = "the folder of "; /* what is locked, before the card's name */

/* ------------------------------------------------------------ to open */

static void cannot(const char *what, const char *path)
{
    say("cannot %s %s: %s", what, path, strerror(errno));
}

/* Opens the folder of the path, and parts the name from it. */
static bool open_folder(struct store *s, const char *path)
{
    const char *slash = strrchr(path, '/');
    char *folder = slash == NULL ? strdup(".") : strndup(path, (size_t)(slash - path) + 1);

    s->path = path;
    s->name = slash == NULL ? path : slash + 1;
    s->folder = folder == NULL ? -1 : open(folder, O_RDONLY | O_DIRECTORY | O_CLOEXEC);
    free(folder);
    if (s->folder < 0)
        cannot("open the folder of", path);
    return s->folder >= 0;
}

static void pause_for(int ms)
{
    struct timespec pause = { .tv_nsec = ms * 1000000L };
    nanosleep(&pause, NULL);
}

/* Waits where another program has the lock, but not for long: one with a reader keeps it. */
static bool lock(int file, const char *what, const char *path)
{
    for (int waited = 0; flock(file, LOCK_EX | LOCK_NB) != 0; waited += PAUSE) {
        if (errno != EWOULDBLOCK && errno != EINTR) {
            say("cannot lock %s%s: %s", what, path, strerror(errno));
            return false;
        }
        if (waited >= LONGEST_WAIT) {
            say("%s%s is in use: another program %s", what, path,
                what == the_card ? "runs a script on it, or has it in the reader" : "keeps it locked");
            return false;
        }
        if (waited == BEFORE_WORD)
            say_at_once("another program is using %s%s; waiting", what, path);
        pause_for(PAUSE);
    }
    return true;
}

/* Whether the name in the folder still leads to the open file. */
static bool still_there(const struct store *s)
{
    struct stat named, opened;

    return fstatat(s->folder, s->name, &named, AT_SYMLINK_NOFOLLOW) == 0 && fstat(s->file, &opened) == 0
        && named.st_dev == opened.st_dev && named.st_ino == opened.st_ino;
}

static void say_no_plain_file(const struct store *s, mode_t mode)
{
    say(S_ISDIR(mode) ? "%s is a folder, and a card is a file" : "%s is not a plain file: CARD has to be a file's name", s->path);
}

/* A link would be replaced, and not the file that it leads to. The shell's <(...) is a link to a pipe. */
static void say_link(const struct store *s)
{
    struct stat is;

    if (fstatat(s->folder, s->name, &is, 0) == 0 && !S_ISREG(is.st_mode))
        say_no_plain_file(s, is.st_mode);
    else
        say("%s is a symbolic link: name the file that it leads to", s->path);
}

static enum found could_not_open(const struct store *s)
{
    if (errno == ENOENT && s->name[0] != '\0')
        return NONE;
    if (errno == ELOOP)
        say_link(s);
    else if (errno == EISDIR || (s->name[0] == '\0' && s->path[0] != '\0'))
        say_no_plain_file(s, S_IFDIR);
    else
        cannot("open", s->path);
    return CANNOT_OPEN;
}

/* A file with a second name is refused: to store the card would replace it under one of them, and leave it under the other. */
static bool plain_file(const struct store *s)
{
    struct stat is;

    if (fstat(s->file, &is) != 0) {
        cannot("open", s->path);
        return false;
    }
    if (!S_ISREG(is.st_mode))
        say_no_plain_file(s, is.st_mode);
    else if (is.st_nlink > 1)
        say("%s has %ju names (hard links), and one of them alone would have the card that is stored: remove the others, "
            "which find -samefile %s finds", s->path, (uintmax_t)is.st_nlink, s->path);
    return S_ISREG(is.st_mode) && is.st_nlink <= 1;
}

/* Whoever waits for the lock of a file that is replaced meanwhile has the lock of the wrong one, and looks again. */
static enum found open_file(struct store *s, enum use use)
{
    int way = (use == TO_CHANGE ? O_RDWR : O_RDONLY) | O_NOFOLLOW | O_NONBLOCK | O_NOCTTY | O_CLOEXEC;

    for (;;) {
        s->file = openat(s->folder, s->name, way);
        if (s->file < 0)
            return could_not_open(s);
        if (use == TO_LOOK)
            return FOUND;
        if (!lock(s->file, the_card, s->path)) {
            close(s->file);
            return CANNOT_OPEN;
        }
        if (still_there(s))
            return FOUND;
        close(s->file);
    }
}

/* Of a longer text than any card has, one byte more is kept. */
static bool read_all(struct store *s)
{
    s->text.len = 0;
    while (s->text.len < sizeof s->text.at) {
        ssize_t got = read(s->file, s->text.at + s->text.len, sizeof s->text.at - s->text.len);
        if (got < 0 && errno == EINTR)
            continue;
        if (got < 0) {
            cannot("read", s->path);
            return false;
        }
        if (got == 0)
            break;
        s->text.len += (size_t)got;
    }
    return true;
}

enum found store_open(struct store *s, const char *path, enum use use)
{
    enum found found;

    *s = (struct store){ .file = -1, .next = -1 };
    if (strcmp(path, "-") == 0) {
        say("CARD has to be a file's name: - is for scripts alone");
        return CANNOT_OPEN;
    }
    if (!open_folder(s, path))
        return CANNOT_OPEN;
    found = open_file(s, use);
    if (found == FOUND && !(plain_file(s) && read_all(s))) {
        close(s->file);
        found = CANNOT_OPEN;
    }
    if (found == CANNOT_OPEN)
        close(s->folder);
    return found;
}

void store_close(struct store *s)
{
    store_drop(s);
    wipe(&s->text, sizeof s->text);
    if (s->file >= 0)
        close(s->file);
    close(s->folder);
}

unsigned store_open_to_others(const struct store *s)
{
    struct stat is;

    return fstat(s->file, &is) == 0 && (is.st_mode & OTHERS) != 0 ? is.st_mode & 0777 : 0;
}

void store_warn_of_others(const struct store *s)
{
    unsigned mode = store_open_to_others(s);

    if (mode != 0)
        say("warning: %s is open to others (mode %03o), and has the keys and the PINs as they are; say: chmod 600 %s",
            s->path, mode, s->path);
}

bool store_has_card(const struct store *s)
{
    bool good = card_from_text(&s->text) == LIMPET_OK;

    if (good)
        store_warn_of_others(s);
    return good;
}

/* The library alone says that a text is an old one, so that nobody is sent to convert what is none. */
static void say_no_card(const struct store *s)
{
    char *word;

    if (card_text_lacks_key(&s->text)) {
        say("%s is a card of before version 11, and has no transport key: put a line with one behind line 3, as docs/CARD-FILE.md says",
            s->path);
        return;
    }
    if (!card_text_has(OLD_FORM, &s->text)) {
        say("%s: these are not the lines of a sound card; tools/card check says more", s->path);
        return;
    }
    word = shell_word(s->path);
    say("%s is a card in the old form, of before there were directories; this converts it: tools/card convert --to-new %s",
        s->path, word == NULL ? s->path : word);
    free(word);
}

bool store_load(const struct store *s)
{
    bool good = store_has_card(s);

    if (!good)
        say_no_card(s);
    return good;
}

/* ------------------------------------------------------------ what killed programs leave */

/* Whether it is the name of a next file of this card: as make_name has it, or as older programs had it. */
static bool names_next(const struct store *s, const char *name)
{
    size_t len = strlen(s->name), digits;

    if (name[0] != '.' || strncmp(name + 1, s->name, len) != 0)
        return false;
    name += 1 + len;
    if (strcmp(name, ".new") == 0)
        return true;
    digits = name[0] == '.' ? strspn(name + 1, "0123456789") : 0;
    if (digits == 0 || name[1 + digits] != '-')
        return false;
    name += 1 + digits + 1;
    return strspn(name, "0123456789abcdef") == 8 && strcmp(name + 8, ".new") == 0;
}

/* Whoever makes a next file holds its lock, so one whose lock can be had is nobody's. */
static bool is_nobodys(const struct store *s, const char *name)
{
    int file = openat(s->folder, name, O_RDONLY | O_NOFOLLOW | O_NONBLOCK | O_NOCTTY | O_CLOEXEC);
    struct stat is;
    bool nobodys = file >= 0 && fstat(file, &is) == 0 && S_ISREG(is.st_mode) && flock(file, LOCK_EX | LOCK_NB) == 0;

    if (file >= 0)
        close(file);
    return nobodys;
}

/* Where a folder cannot be listed nothing is found in it. */
static void each_leftover(const struct store *s, void (*visit)(const struct store *s, const char *name))
{
    int again = openat(s->folder, ".", O_RDONLY | O_DIRECTORY | O_CLOEXEC);
    DIR *list = again < 0 ? NULL : fdopendir(again);
    struct dirent *entry;

    while (list != NULL && (entry = readdir(list)) != NULL)
        if (names_next(s, entry->d_name) && is_nobodys(s, entry->d_name))
            visit(s, entry->d_name);
    if (list != NULL)
        closedir(list);
    else if (again >= 0)
        close(again);
}

/* One that cannot be removed is in nobody's way. */
static void remove_it(const struct store *s, const char *name)
{
    unlinkat(s->folder, name, 0);
}

/* Between its making and its lock it seems to be nobody's, so it is looked at twice. */
static void warn_of_it(const struct store *s, const char *name)
{
    int folder = (int)(s->name - s->path);

    pause_for(PAUSE);
    if (is_nobodys(s, name))
        say("warning: %.*s%s is left from a program that was killed, and may hold the keys and the PINs; whoever changes %s next "
            "removes it", folder, s->path, name, s->path);
}

void store_warn_of_leftovers(const struct store *s)
{
    each_leftover(s, warn_of_it);
}

/* ------------------------------------------------------------ to prepare */

static bool cannot_store(const struct store *s)
{
    say("cannot store %s: %s; %s", s->path, strerror(errno), s->file < 0 ? "no card is made" : "it is as it was");
    return false;
}

static sigset_t waited_before; /* signals */

/* A signal that ends the program waits until nothing half done is left. */
static void hold_signals(struct store *s)
{
    sigset_t all;

    signal(SIGXFSZ, SIG_IGN); /* a file that grows too large is an error like others */
    sigfillset(&all);
    sigprocmask(SIG_BLOCK, &all, &waited_before);
    s->held = true;
}

static void let_signals(struct store *s)
{
    if (s->held)
        sigprocmask(SIG_SETMASK, &waited_before, NULL);
    s->held = false;
}

/* A name that no other program has. */
static bool make_name(struct store *s)
{
    uint32_t any;
    int len;

    if (getrandom(&any, sizeof any, 0) != (ssize_t)sizeof any)
        return cannot_store(s);
    len = snprintf(s->next_name, sizeof s->next_name, ".%s.%jd-%08jx.new", s->name, (intmax_t)getpid(), (uintmax_t)any);
    if (len >= (int)sizeof s->next_name)
        say("cannot store %s: its name is too long", s->path);
    return len < (int)sizeof s->next_name;
}

static bool write_all(int file, const struct card_text *t)
{
    size_t done = 0;

    while (done < t->len) {
        ssize_t went = write(file, t->at + done, t->len - done);
        if (went < 0 && errno == EINTR)
            continue;
        if (went < 0)
            return false;
        done += (size_t)went;
    }
    return true;
}

/* The owner of the file keeps it, also where root changes the card. */
static bool same_owner(const struct store *s)
{
    struct stat was, is;

    if (s->file < 0)
        return true;
    return fstat(s->file, &was) == 0 && fstat(s->next, &is) == 0
        && (was.st_uid == is.st_uid || fchown(s->next, was.st_uid, (gid_t)-1) == 0);
}

/* The file is what was opened, or there was none. */
static bool is_ours(const struct store *s)
{
    if (s->file < 0 || still_there(s))
        return true;
    say("cannot store %s: another program has removed or replaced it", s->path);
    return false;
}

/* In the folder's lock, so that nobody takes it for one that was left. */
static bool make_next(struct store *s)
{
    s->next = openat(s->folder, s->next_name, O_RDWR | O_CREAT | O_EXCL | O_NOFOLLOW | O_CLOEXEC, OWNER_ALONE);
    if (s->next < 0)
        return cannot_store(s);
    return lock(s->next, the_card, s->path);
}

static bool begin(struct store *s)
{
    bool good = make_name(s) && lock(s->folder, the_folder, s->path);

    if (!good)
        return false;
    good = is_ours(s);
    if (good && !s->swept)
        each_leftover(s, remove_it);
    s->swept = true;
    good = good && make_next(s);
    flock(s->folder, LOCK_UN);
    return good;
}

/* It is really written, so that a full disk is seen now. */
static bool has_room(const struct store *s)
{
    struct card_text longest = { .len = LIMPET_TEXT_SIZE };

    memset(longest.at, '-', longest.len);
    return (fchmod(s->next, OWNER_ALONE) == 0 && same_owner(s) && write_all(s->next, &longest)) || cannot_store(s);
}

bool store_prepare(struct store *s)
{
    hold_signals(s);
    if (begin(s) && has_room(s))
        return true;
    store_drop(s);
    return false;
}

void store_drop(struct store *s)
{
    if (s->next >= 0) {
        unlinkat(s->folder, s->next_name, 0);
        close(s->next);
    }
    s->next = -1;
    let_signals(s);
}

/* ------------------------------------------------------------ to store */

/* The text is on the disk before it has the card's name. */
static bool write_next(const struct store *s, const struct card_text *text)
{
    return (lseek(s->next, 0, SEEK_SET) == 0 && write_all(s->next, text) && ftruncate(s->next, (off_t)text->len) == 0
            && fsync(s->next) == 0) || cannot_store(s);
}

/* Where the file system does not know RENAME_NOREPLACE a look has to do: the folder's lock keeps out who might come between. */
static bool take_free_place(const struct store *s)
{
    struct stat is;

    if (renameat2(s->folder, s->next_name, s->folder, s->name, RENAME_NOREPLACE) == 0)
        return true;
    if (errno == EINVAL || errno == ENOSYS) {
        if (fstatat(s->folder, s->name, &is, AT_SYMLINK_NOFOLLOW) == 0)
            errno = EEXIST;
        else if (errno == ENOENT)
            return renameat(s->folder, s->next_name, s->folder, s->name) == 0 || cannot_store(s);
    }
    if (errno != EEXIST)
        return cannot_store(s);
    say("%s has come to be meanwhile, and is left as it is; no card is made", s->path);
    return false;
}

/* The folder's lock is that of all who put a card in place, from before the look at its name until it is there. */
static bool take_place(struct store *s)
{
    bool good = lock(s->folder, the_folder, s->path);

    if (!good)
        return false;
    if (s->file < 0)
        good = take_free_place(s);
    else
        good = is_ours(s) && (renameat(s->folder, s->next_name, s->folder, s->name) == 0 || cannot_store(s));
    flock(s->folder, LOCK_UN);
    return good;
}

static enum stored put(struct store *s, const struct card_text *text)
{
    if (!write_next(s, text) || !take_place(s))
        return NOT_STORED;
    if (s->file >= 0)
        close(s->file); /* and with it the lock of the old one */
    s->file = s->next;
    s->next = -1;
    s->text = *text;
    /* Where a folder cannot be brought to the disk by itself there is nothing to be done. */
    if (fsync(s->folder) == 0 || errno == EINVAL)
        return STORED;
    say("%s has the new card, but its folder is not on the disk: %s. Should the power fail now it may be as before",
        s->path, strerror(errno));
    return STORED_FOR_NOW;
}

static bool same_text(const struct card_text *one, const struct card_text *other)
{
    return one->len == other->len && memcmp(one->at, other->at, one->len) == 0;
}

enum stored store_text(struct store *s, const struct card_text *text)
{
    enum stored stored = s->next >= 0 || store_prepare(s) ? put(s, text) : NOT_STORED;

    store_drop(s);
    return stored;
}

enum stored store_card(struct store *s, enum part part, enum when when)
{
    struct card_text text;
    uint8_t outcome = part == WHOLE_CARD ? card_to_text(&text) : card_to_lasting_text(&text);
    enum stored stored = NOT_STORED;

    if (outcome != LIMPET_OK)
        say("cannot store %s: the card is not written, outcome %u: %s", s->path, (unsigned)outcome, outcome_says(outcome));
    else if (when == WHERE_CHANGED && same_text(&s->text, &text))
        stored = STORED;
    else
        stored = store_text(s, &text);
    store_drop(s);
    wipe(&text, sizeof text);
    return stored;
}
