/*
 * A card in a memory that keeps its bytes without power and stores them one at a time, as an EEPROM or an FRAM does. A file stands for
 * that memory: the card's bytes, and behind them those of its area. docs/POWER.md explains this program, and tests/flash kills it.
 *
 *   flash new FILE <CARD            makes FILE, with the card whose text CARD is; tools/card makes such texts
 *   flash FILE [STORES] <COMMANDS   gives it commands, a line of hex digits each, and prints the answers; the power is lost after STORES
 *   flash text FILE                 prints the text of the card that is found when the power comes back, with its keys and PINs
 */
#define _DEFAULT_SOURCE /* flock, pread, pwrite */
#include <fcntl.h>
#include <stdbool.h>
#include <stdio.h>
#include <stdlib.h>
#include <string.h>
#include <sys/file.h>
#include <sys/random.h>
#include <sys/stat.h>
#include <unistd.h>

#include "limpetnook.h"

#define LONGEST_COMMAND 261 /* bytes: a header of four, Lc, 255 of data and Le */
#define USAGE "usage: flash new FILE <CARD, or flash FILE [STORES] <COMMANDS, or flash text FILE"

/* What the calls work on, which a loss of power takes. The addresses of limpet_store count from its first byte. */
static uint8_t copy[LIMPET_CARD_SIZE + LIMPET_AREA_SIZE], text[LIMPET_TEXT_SIZE + 1];
static struct limpet_card *const card = (struct limpet_card *)copy;
static uint8_t *const area = copy + LIMPET_CARD_SIZE;
static int file;
static long stores_left = -1; /* until the power is lost; -1 where it stays */

/* Where the program cannot go on it ends without an answer, and what is stored is the card: as where the power is lost. */
static void need(bool good, const char *otherwise)
{
    if (!good) {
        fprintf(stderr, "flash: %s\n", otherwise);
        exit(EXIT_FAILURE);
    }
}

/* One byte. It is in the memory when this returns; a chip is asked until it says so. */
static void store(size_t address, uint8_t value)
{
    need(stores_left != 0, "the power is lost");
    stores_left -= stores_left > 0;
    need(pwrite(file, &value, 1, (off_t)address) == 1, "a byte cannot be stored, so there is no answer");
}

/* The memory as the power left it, which may be in the middle of a command. Nothing else may write there, so it is locked. */
static void load(const char *name)
{
    file = open(name, O_RDWR | O_NOFOLLOW | O_CLOEXEC);
    need(file >= 0, "there is no such file that can be opened");
    need(flock(file, LOCK_EX | LOCK_NB) == 0, "another program is using the file");
    need(lseek(file, 0, SEEK_END) == (off_t)sizeof copy && pread(file, copy, sizeof copy, 0) == (ssize_t)sizeof copy,
         "the file has not the size of a card and its area");
}

static void recover(void)
{
    need(limpet_recover(card, area, LIMPET_AREA_SIZE) == LIMPET_OK, "there is no card in the file");
    need(limpet_reset(card, area, LIMPET_AREA_SIZE) == LIMPET_OK, "the card cannot be reset");
}

/*
 * What recovery has changed is stored before any command: the command's stores are for the recovered card, and a journal that is still
 * in the memory would be carried out again, with some of them in it. The power may be lost here too. So the lowest address comes first:
 * the journal is the last part of a card, and its first byte says that it counts. Until that one is cleared all can be done again.
 */
static void start(void)
{
    uint8_t found[LIMPET_CARD_SIZE];

    memcpy(found, copy, sizeof found);
    recover();
    for (size_t i = 0; i < sizeof found; i++)
        if (copy[i] != found[i])
            store(i, copy[i]);
}

/*
 * All stores of a command in their order, then the command on the copy, and then the answer: one that left before could be seen, and
 * the power cut before the try is counted. Each store is asked for on the card of before the command, so the copy waits for the command.
 */
static void give(const uint8_t *command, size_t length)
{
    uint8_t fresh[LIMPET_RANDOM_SIZE], reply[LIMPET_REPLY_SIZE], value, given, outcome;
    uint16_t address;
    limpet_size n = 0, count;

    need(getrandom(fresh, sizeof fresh, 0) == (ssize_t)sizeof fresh, "there are no random bytes");
    do {
        outcome = limpet_store(card, area, LIMPET_AREA_SIZE, command, length, fresh, sizeof fresh, n++, &address, &value, &given);
        need(outcome == LIMPET_OK, "the command is not served");
        if (given == 1)
            store(address, value);
    } while (given == 1);
    outcome = limpet_command(card, area, LIMPET_AREA_SIZE, command, length, fresh, sizeof fresh, reply, sizeof reply, &count);
    need(outcome == LIMPET_OK, "the command is not served");
    for (limpet_size i = 0; i < count; i++)
        printf("%s%02X", i > 0 && i == count - 2 ? " " : "", reply[i]);
    putchar('\n');
    need(fflush(stdout) == 0, "the answer cannot be written");
}

/* The next line of standard input. One that breaks off before its end is none, and costs no try. */
static bool next(uint8_t *command, limpet_size *length)
{
    char line[2 * LONGEST_COMMAND + 2]; /* the digits, a newline and a byte 0 */
    size_t digits;

    if (fgets(line, sizeof line, stdin) == NULL)
        return false;
    digits = strspn(line, "0123456789ABCDEFabcdef");
    need(line[digits] == '\n' && digits % 2 == 0, "a line is not a command: up to 261 bytes, each two hex digits");
    *length = digits / 2;
    for (size_t i = 0; i < *length; i++)
        sscanf(line + 2 * i, "%2hhx", &command[i]);
    return true;
}

/* The factory's work, which nothing cuts. After the reset all that does not last is empty, and stays so in the file. */
static void make(const char *name)
{
    size_t length = fread(text, 1, sizeof text, stdin);

    need(limpet_from_text(card, area, LIMPET_AREA_SIZE, text, length) == LIMPET_OK, "standard input is not the text of a card");
    need(limpet_reset(card, area, LIMPET_AREA_SIZE) == LIMPET_OK, "the card cannot be reset");
    file = open(name, O_WRONLY | O_CREAT | O_EXCL | O_CLOEXEC, S_IRUSR | S_IWUSR);
    need(file >= 0, "the file is there already, or cannot be made");
    need(write(file, copy, sizeof copy) == (ssize_t)sizeof copy && fsync(file) == 0, "the file cannot be written");
}

int main(int count, char **words)
{
    uint8_t command[LONGEST_COMMAND];
    limpet_size length;
    char rest;

    need((count == 2 || count == 3) && words[1][0] != '-', USAGE);
    need(limpet_version() == LIMPET_VERSION && limpet_card_size() == LIMPET_CARD_SIZE, "header and library are of two versions");
    if (count == 3 && strcmp(words[1], "new") == 0) {
        make(words[2]);
    } else if (count == 3 && strcmp(words[1], "text") == 0) {
        load(words[2]);
        recover();
        need(limpet_to_text(card, area, LIMPET_AREA_SIZE, text, sizeof text, &length) == LIMPET_OK, "the card has no text");
        need(fwrite(text, 1, length, stdout) == length && fflush(stdout) == 0, "the text cannot be written");
    } else {
        need(count == 2 || (sscanf(words[2], "%9ld%c", &stores_left, &rest) == 1 && stores_left >= 0), USAGE);
        load(words[1]);
        start();
        while (next(command, &length))
            give(command, length);
    }
    return EXIT_SUCCESS;
}
