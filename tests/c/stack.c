/*
 * How many bytes of stack the calls take, and how many instructions where they are counted. What this program itself takes is taken off:
 * it is what a line without a call takes.
 */
#include <stdlib.h>
#include <string.h>

#include "play.h"
#include "taken.h"

static struct player player;
static const struct line *playing;

static void usage(FILE *to)
{
    fputs("usage: stack <SCRIPT\n"
          "\n"
          "Plays the calls of a script. Before each command it asks for the stores that the\n"
          "command makes, and recovers a copy of the card; after each line it writes and reads\n"
          "the card as a text, and converts it into the other form and back. Prints the most\n"
          "bytes of stack that each kind of call took, and those of limpet_aes128 and\n"
          "limpet_code; and the instructions, where they are counted.\n", to);
}

static void play_apart(void)
{
    play_line(&player, playing);
}

static void encipher_apart(void)
{
    static const uint8_t zeros[LIMPET_AES128_SIZE];
    static uint8_t out[LIMPET_AES128_SIZE];

    limpet_aes128(zeros, sizeof zeros, zeros, sizeof zeros, out, sizeof out);
}

/* The stack does not depend on the message; this one has all that the longest command has. */
static void code_apart(void)
{
    static const uint8_t zeros[5 + 251];
    static uint8_t code[LIMPET_CODE_SIZE];

    limpet_code(zeros, LIMPET_KEY_SIZE, zeros, LIMPET_RANDOM_SIZE, zeros, sizeof zeros, code, sizeof code);
}

static uint8_t text[LIMPET_TEXT_SIZE];
static limpet_size text_count;

static void write_apart(void)
{
    limpet_to_text((const struct limpet_card *)player.card, player.area, sizeof player.area, text, sizeof text, &text_count);
}

/* The text in the old form; none where the card has a directory. */
static uint8_t old[LIMPET_TEXT_SIZE];
static limpet_size old_count;

static void to_old_apart(void)
{
    limpet_text_to_old(text, text_count, old, sizeof old, &old_count);
}

/* Where there is no old text the new one is given, which is refused after it is read. */
static void to_new_apart(void)
{
    static uint8_t converted[LIMPET_TEXT_SIZE];
    limpet_size count;

    limpet_text_to_new(old_count > 0 ? old : text, old_count > 0 ? old_count : text_count, converted, sizeof converted, &count);
}

static void read_apart(void)
{
    static uint8_t card[LIMPET_CARD_SIZE], area[LIMPET_AREA_SIZE];

    limpet_from_text((struct limpet_card *)card, area, sizeof area, text, text_count);
}

/* Store number 2 lies behind all checks and comparisons. */
static void store_apart(void)
{
    uint16_t address;
    uint8_t value, given;

    limpet_store((const struct limpet_card *)player.card, player.area, sizeof player.area, playing->command.at, playing->command.len,
                 playing->random.at, playing->random.len, 2, &address, &value, &given);
}

static void stores_apart(void)
{
    static uint8_t run[9];
    limpet_size run_count;

    limpet_stores((const struct limpet_card *)player.card, player.area, sizeof player.area, playing->command.at, playing->command.len,
                  playing->random.at, playing->random.len, 1, run, sizeof run, &run_count);
}

static void recover_apart(void)
{
    static uint8_t card[LIMPET_CARD_SIZE];

    memcpy(card, player.card, sizeof card);
    limpet_recover((struct limpet_card *)card, player.area, sizeof player.area);
}

/* What each kind of call took at the most. */
enum call { ISSUE, COMMAND, RESET, STORE, STORES, RECOVER, TO_TEXT, FROM_TEXT, TEXT_TO_OLD, TEXT_TO_NEW, AES128, CODE, CALLS };

static const char *const names[CALLS] = {
    "issue", "command", "reset", "store", "stores", "recover", "to_text", "from_text", "text_to_old", "text_to_new", "aes128", "code"
};
static struct taken most[CALLS], own;

static void measure(enum call c, void (*call)(void))
{
    unsigned long calls = player.calls;
    struct taken t = taken_by(call);

    if (call == play_apart && player.calls == calls)
        return; /* a line without a call, such as a reset without a card */
    if (call == play_apart) {
        t.stack -= own.stack;
        t.instructions -= own.instructions;
    }
    if (t.stack > most[c].stack)
        most[c].stack = t.stack;
    if (t.instructions > most[c].instructions)
        most[c].instructions = t.instructions;
}

static void measure_line(const struct line *l)
{
    playing = l;
    if (l->kind == CMD_LINE) {
        measure(STORE, store_apart);
        measure(STORES, stores_apart);
        measure(RECOVER, recover_apart);
    }
    if (l->kind != OTHER_LINE)
        measure(l->kind == ISSUE_LINE ? ISSUE : l->kind == CMD_LINE ? COMMAND : RESET, play_apart);
    measure(TO_TEXT, write_apart);
    measure(FROM_TEXT, read_apart);
    measure(TEXT_TO_OLD, to_old_apart);
    measure(TEXT_TO_NEW, to_new_apart);
}

int main(int count, char **arguments)
{
    static const struct line no_call = { .wrong = "no call" };
    static struct text text_read;
    static struct line line;

    if (count != 1) {
        usage(count == 2 && strcmp(arguments[1], "--help") == 0 ? stdout : stderr);
        return count == 2 && strcmp(arguments[1], "--help") == 0 ? EXIT_SUCCESS : 2;
    }
    playing = &no_call;
    own = taken_by(play_apart);
    while (read_text(stdin, &text_read)) {
        read_line(&text_read, &line);
        measure_line(&line);
    }
    measure(AES128, encipher_apart);
    measure(CODE, code_apart);
    /* Nothing is said of a kind of call that the script has not. */
    for (enum call c = ISSUE; c < CALLS; c++)
        if (most[c].stack > 0)
            printf("%lu bytes of stack: %s\n", most[c].stack, names[c]);
    for (enum call c = ISSUE; c < CALLS; c++)
        if (most[c].instructions > 0)
            printf("%lu instructions: %s\n", most[c].instructions, names[c]);
    return EXIT_SUCCESS;
}
