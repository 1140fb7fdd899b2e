/*
 * client FOLDER: takes user PINs from standard input, one on a line, until one is right, and then shows the newest alarm of the
 * card in FOLDER/box.card, which tools/card makes. docs/C.md explains this program, and tests/client runs it.
 */
#define _DEFAULT_SOURCE /* explicit_bzero, flock */
#include <fcntl.h>
#include <stdbool.h>
#include <stdio.h>
#include <stdlib.h>
#include <string.h>
#include <sys/file.h>
#include <sys/random.h>
#include <sys/stat.h>
#include <unistd.h>

#include "limpetnook.h"

#define NAME "box.card"
#define NEXT ".box.card.new" /* what is to take its place */
#define LONGEST_PIN 16

/* All that is secret, in one place to be wiped. A text or a PIN has room for a byte too many, so that the card refuses it. */
static struct {
    uint8_t card[LIMPET_CARD_SIZE], area[LIMPET_AREA_SIZE], reply[LIMPET_REPLY_SIZE];
    uint8_t text[LIMPET_TEXT_SIZE + 1], verify[5 + LONGEST_PIN + 1];
} own;
static struct limpet_card *const card = (struct limpet_card *)own.card;
static int folder, file; /* file: the card's. It is locked, since two programs that read the same card would have its tries twice */

static void wipe(void)
{
    uint8_t below[LIMPET_TEXT_STACK + 4096]; /* of the stack, where calls leave copies of the keys and the PINs */

    explicit_bzero(below, sizeof below);
    explicit_bzero(&own, sizeof own);
}

/* Where the program cannot go on it ends, and what is stored is the card: as where the power is lost. */
static void need(bool good, const char *otherwise)
{
    if (!good) {
        fprintf(stderr, "client: %s\n", otherwise);
        exit(EXIT_FAILURE);
    }
}

/* A new file takes the place of the card's once it is on the disk. So at any moment there is one of them, and it is whole. */
static bool store(void)
{
    limpet_size length;
    uint8_t outcome = limpet_to_text(card, own.area, sizeof own.area, own.text, sizeof own.text, &length);
    int before = file;

    unlinkat(folder, NEXT, 0); /* left by a program that was stopped here */
    file = openat(folder, NEXT, O_RDWR | O_CREAT | O_EXCL | O_NOFOLLOW | O_CLOEXEC, S_IRUSR | S_IWUSR);
    if (outcome != LIMPET_OK || file < 0 || flock(file, LOCK_EX | LOCK_NB) != 0 || write(file, own.text, length) != (ssize_t)length
        || fsync(file) != 0 || renameat(folder, NEXT, folder, NAME) != 0) {
        unlinkat(folder, NEXT, 0);
        return false;
    }
    close(before);
    return fsync(folder) == 0;
}

/*
 * Gives the card a command, and shows and returns the status word; the data are in own.reply. Nothing is shown before the card is
 * stored: whoever stops the program in between would have tried a PIN at no cost.
 */
static unsigned give(const char *name, const uint8_t *command, size_t length)
{
    static const uint8_t get_response[] = { 0x00, 0xC0, 0x00, 0x00, 0x00 };
    uint8_t fresh[LIMPET_RANDOM_SIZE], outcome;
    limpet_size count;
    unsigned sw;

    need(getrandom(fresh, sizeof fresh, 0) == (ssize_t)sizeof fresh, "there are no random bytes");
    outcome = limpet_command(card, own.area, sizeof own.area, command, length, fresh, sizeof fresh,
                             own.reply, sizeof own.reply, &count);
    need(outcome == LIMPET_OK, "the command is not served"); /* count is 0 then: there is no reply[count - 2] */
    need(store(), "the card cannot be stored, so its answer is not shown");
    sw = (unsigned)own.reply[count - 2] << 8 | own.reply[count - 1];
    printf("%s: %04X\n", name, sw);
    return LIMPET_SW_IS_WAITING(sw) ? give("GET RESPONSE", get_response, sizeof get_response) : sw; /* a card of mode 1 */
}

/*
 * Has the card of the file. It was without power, so the rights that its text may bring along end here, by the reset. That leads to
 * the root too, where the alarms are, from a directory that the text may be in.
 */
static void load(void)
{
    struct stat opened, named;
    size_t length = 0;
    ssize_t got;

    file = openat(folder, NAME, O_RDWR | O_NOFOLLOW | O_CLOEXEC);
    need(file >= 0, "there is no " NAME " that can be opened");
    need(flock(file, LOCK_EX | LOCK_NB) == 0 && fstat(file, &opened) == 0 && fstatat(folder, NAME, &named, AT_SYMLINK_NOFOLLOW) == 0
             && opened.st_ino == named.st_ino, "another program is using the card");
    while ((got = read(file, own.text + length, sizeof own.text - length)) > 0)
        length += (size_t)got;
    need(got == 0, NAME " cannot be read");
    need(limpet_from_text(card, own.area, sizeof own.area, own.text, length) == LIMPET_OK, NAME " is not a card");
    need(limpet_reset(card, own.area, sizeof own.area) == LIMPET_OK, "the card cannot be reset");
}

/* Presents the next line as the user PIN. One that is cut off before its end costs no try. */
static unsigned present(void)
{
    static const uint8_t verify[] = { 0x00, 0x20, 0x00, 0x01 };
    size_t length = 0;
    int c;

    while ((c = getchar()) != EOF && c != '\n')
        if (length <= LONGEST_PIN)
            own.verify[sizeof verify + 1 + length++] = (uint8_t)c;
    need(c != EOF, "there is no further line with a PIN");
    memcpy(own.verify, verify, sizeof verify);
    own.verify[sizeof verify] = (uint8_t)length;
    return give("VERIFY", own.verify, sizeof verify + 1 + length);
}

int main(int count, char **words)
{
    static const uint8_t read_record[] = { 0x00, 0xB2, 0x01, 0x0C, 0x08 }; /* of file 1 number 1, the newest: 8 bytes */
    const uint8_t *alarm = own.reply;
    unsigned sw;

    need(count == 2 && words[1][0] != '-', "usage: client FOLDER <PINS");
    need(limpet_version() == LIMPET_VERSION && limpet_card_size() == LIMPET_CARD_SIZE, "header and library are of two versions");
    need(atexit(wipe) == 0, "nothing would be wiped");
    setvbuf(stdin, NULL, _IONBF, 0); /* so that no PIN stays in a buffer */
    setvbuf(stdout, NULL, _IOLBF, BUFSIZ);
    folder = open(words[1], O_RDONLY | O_DIRECTORY | O_CLOEXEC);
    need(folder >= 0, "there is no such folder");
    load();
    while ((sw = present()) != LIMPET_SW_DONE) {
        need(sw != LIMPET_SW_BLOCKED, "the user PIN is blocked");
        if (LIMPET_SW_IS_TRIES(sw))
            printf("wrong PIN, tries left: %u\n", LIMPET_SW_TRIES(sw));
    }
    need(give("READ RECORD", read_record, sizeof read_record) == LIMPET_SW_DONE, "there is no alarm that this PIN opens");
    printf("line %u, kind %u, %u minutes\n", alarm[4], alarm[5], (unsigned)alarm[6] << 8 | alarm[7]);
    return EXIT_SUCCESS;
}
