/* A card for vpcd, so that any PC/SC program can talk to the proved card. --help says how it is called. */
#include <getopt.h>
#include <stdio.h>
#include <stdlib.h>
#include <string.h>
#include <unistd.h>

#include "card.h"
#include "process.h"
#include "say.h"
#include "script.h"
#include "store.h"
#include "vpcd.h"

enum { BAD_USAGE = 2 };

const char said_by[] = "limpet-reader";

static const char usage[] =
    "usage: reader/run [OPTION]... FILE\n"
    "       reader/run [OPTION]... KEY LIMIT ADMIN-PIN LIMIT USER-PIN LIMIT [MODE]\n"
    "                              TRANSPORT-KEY LIMIT\n"
    "       reader/run [OPTION]... --card CARD\n"
    "\n"
    "Puts a card into vpcd, the virtual reader of Debian's package vsmartcard-vpcd.\n"
    "pcscd has to be running with its driver. The card is in the reader until this\n"
    "program ends. Without --card it lives in memory alone and is gone then. Where other\n"
    "machines can reach vpcd's port there is a warning: docs/READER.md says why.\n"
    "\n"
    "FILE is a script: an ISSUE line and, where wanted, CMD and RESET lines that\n"
    "prepare the card (./limpet --help has their form). Or the values of an ISSUE\n"
    "line are given as words: each key as upper-case hex, each limit 1 to 128, the mode\n"
    "0 or 1; without one it is that of --mode, or 0. Words stay in the shell's history\n"
    "and in the terminal's scrollback, and others on the same machine can see them; not\n"
    "so what is in a file.\n"
    "\n"
    "A card of mode 0 speaks T=1, and its data come with its answer. A card of mode 1\n"
    "speaks T=0: it answers 61 and how many bytes wait, which GET RESPONSE, 00C00000\n"
    "and that number, fetches.\n"
    "\n"
    "  --card CARD       the card is kept in the file CARD, as described below\n"
    "  --prepare SCRIPT  run the CMD and RESET lines of SCRIPT on the issued card\n"
    "  --mode MODE       the card is to be of that mode, 0 or 1; an error where FILE,\n"
    "                    CARD or the words have another\n"
    "  --port PORT       where vpcd waits for a card (35963)\n"
    "  --verbose         print what the card is told and what it answers, PINs too; they\n"
    "                    stay in the terminal's scrollback\n"
    "  --help            print this\n"
    "\n"
    "With --card the card that is in CARD is put into the reader, and FILE, the words\n"
    "and --prepare are not looked at. They are for the first time: where there is no\n"
    "file CARD yet, they make the card, and CARD is made with it. tools/card makes and\n"
    "shows such files too; docs/CARD-FILE.md says what is in them.\n"
    "\n"
    "What a command changes for good, such as tries, PINs and files, is in CARD before\n"
    "its answer goes out, so nothing that was answered is lost, however this program\n"
    "ends. No command is run on a card that cannot be stored: it is answered 6F00, and\n"
    "this program says why and ends with status 1, at its start too. The session is not\n"
    "stored: putting a card in is a reset, so rights held, current directory and file,\n"
    "challenge and waiting bytes are gone at the start. While the card is in the reader\n"
    "no other program can change CARD.\n"
    "\n"
    "Status: 0 when the reader was closed, 1 for an error, 2 for bad usage.\n"
    "\n"
    "  reader/run examples/standby.script    the card of examples/standby.md\n"
    "  reader/run --card box.card examples/box.script\n"
    "                                        made the first time, and then kept\n";

struct arguments {
    const char *prepare, *card;
    char *mode; /* "0" or "1"; NULL where any will do */
    uint16_t port;
    int words; /* a script's name, the values of an ISSUE line with or without the mode, or none */
    char **word;
};

static int bad_usage(void)
{
    say_usage(usage, "reader/run");
    return BAD_USAGE;
}

static bool read_port(const char *text, uint16_t *port)
{
    char *end;
    unsigned long value = strtoul(text, &end, 10);
    if (text[0] < '0' || text[0] > '9' || *end != '\0' || value < 1 || value > UINT16_MAX) {
        say("%s is not a port: --port takes 1 to 65535", text);
        return false;
    }
    *port = (uint16_t)value;
    return true;
}

static bool read_mode(char *text, char **mode)
{
    *mode = text;
    if (strcmp(text, "0") == 0 || strcmp(text, "1") == 0)
        return true;
    say("%s is not a mode: --mode takes 0 or 1", text);
    return false;
}

static bool good_count(const struct arguments *a)
{
    if (a->words == 1 || a->words == ISSUE_FIELDS_WITHOUT_MODE || a->words == ISSUE_FIELDS || (a->words == 0 && a->card != NULL))
        return true;
    if (a->words == 0)
        say("nothing says which card: give a script, the values of an issue, or a card file with --card");
    else
        say("%d words are neither a script nor the 8 or 9 values of an issue", a->words);
    return false;
}

static bool one_standard_input(const struct arguments *a)
{
    bool good = a->prepare == NULL || a->words != 1 || strcmp(a->prepare, "-") != 0 || strcmp(a->word[0], "-") != 0;

    if (!good)
        say("standard input is one script: it cannot be FILE and that of --prepare");
    return good;
}

/* Whether it is one, and its value is good. What is wrong has been said, by getopt where there is no such option. */
static bool take_option(int option, struct arguments *a)
{
    switch (option) {
    case 's':
        a->prepare = optarg;
        return true;
    case 'c':
        a->card = optarg;
        return true;
    case 'v':
        verbose = true;
        return true;
    case 'm':
        return read_mode(optarg, &a->mode);
    case 'p':
        return read_port(optarg, &a->port);
    default:
        return false;
    }
}

/* -1 to go on, else the status to end with. */
static int read_options(int argc, char **argv, struct arguments *a)
{
    static const struct option options[] = {
        { "prepare", required_argument, NULL, 's' }, { "port", required_argument, NULL, 'p' },
        { "card", required_argument, NULL, 'c' },    { "verbose", no_argument, NULL, 'v' },
        { "mode", required_argument, NULL, 'm' },    { "help", no_argument, NULL, 'h' },
        { NULL, 0, NULL, 0 },
    };
    int option;

    argv[0] = (char *)said_by; /* who says what getopt says */
    while ((option = getopt_long(argc, argv, "h", options, NULL)) >= 0) {
        if (option == 'h') {
            fputs(usage, stdout);
            return printed(EXIT_SUCCESS);
        }
        if (!take_option(option, a))
            return bad_usage();
    }
    a->words = argc - optind;
    a->word = argv + optind;
    return good_count(a) && one_standard_input(a) ? -1 : bad_usage();
}

/* Putting a card in is a reset: what the preparation showed it, and a session that its file has, is forgotten. */
static bool put_in(void)
{
    uint8_t outcome = card_reset();
    if (outcome != LIMPET_OK)
        say("reset not served, outcome %u: %s", (unsigned)outcome, outcome_says(outcome));
    return outcome == LIMPET_OK;
}

static bool issue_values(const struct arguments *a)
{
    static char mode_0[] = "0";
    char *value[ISSUE_FIELDS];

    complete_issue_words(a->words, a->word, a->mode != NULL ? a->mode : mode_0, value);
    return issue_words(value);
}

static bool make_card(const struct arguments *a)
{
    return (a->words == 1 ? run_script(a->word[0], true) : issue_values(a))
        && (a->prepare == NULL || run_script(a->prepare, false))
        && put_in();
}

static bool take_card(const struct arguments *a, enum found found, const struct store *kept)
{
    if (found == NONE && a->words == 0) {
        say("there is no file %s, and nothing that says which card to make", a->card);
        return false;
    }
    if (found == NONE)
        return make_card(a);
    if (a->words > 0 || a->prepare != NULL)
        say("%s is there, so its card is put in and no other is made", a->card);
    if (a->words > 1) {
        char *value[ISSUE_FIELDS];

        complete_issue_words(a->words, a->word, NULL, value);
        wipe_issue_words(value);
    }
    return store_load(kept) && put_in();
}

/* A card keeps the mode of its issue, so --mode cannot give it another. */
static bool has_mode(const char *asked)
{
    bool good = asked == NULL || card_mode() == (asked[0] == '1');

    if (!good)
        say("the card was issued with mode %u, and --mode asks for %s", (unsigned)card_mode(), asked);
    return good;
}

/* kept: NULL where the card is not kept in a file. */
static int serve(uint16_t port, struct store *kept)
{
    int connection = vpcd_connect(port);
    bool good;

    if (connection < 0)
        return EXIT_FAILURE;
    vpcd_wait(connection, port);
    good = vpcd_serve(connection, kept);
    if (good)
        say("the reader was closed");
    close(connection);
    return good ? EXIT_SUCCESS : EXIT_FAILURE;
}

/* Stored before the first command too, changed or not, so that a file that cannot be is noticed at once. */
static int serve_kept(const struct arguments *a)
{
    struct store kept;
    enum found found = store_open(&kept, a->card, TO_CHANGE);
    int status = EXIT_FAILURE;

    if (found == CANNOT_OPEN)
        return EXIT_FAILURE;
    if (take_card(a, found, &kept) && has_mode(a->mode) && store_card(&kept, WHOLE_CARD, ALWAYS) == STORED)
        status = serve(a->port, &kept);
    store_close(&kept);
    return status;
}

int main(int argc, char **argv)
{
    struct arguments a = { .port = VPCD_PORT };
    int status;

    process_begin();
    status = read_options(argc, argv, &a);
    if (status >= 0)
        return status;
    if (!card_fits())
        status = EXIT_FAILURE;
    else if (a.card != NULL)
        status = serve_kept(&a);
    else
        status = make_card(&a) && has_mode(a.mode) ? serve(a.port, NULL) : EXIT_FAILURE;
    process_end();
    return status;
}
