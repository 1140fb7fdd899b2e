/* Cards kept in files: made, run, cut, shown, checked and converted. --help says how it is called. */
#include <signal.h>
#include <stdio.h>
#include <stdlib.h>
#include <string.h>

#include "card.h"
#include "convert.h"
#include "cut.h"
#include "ends.h"
#include "form.h"
#include "process.h"
#include "run.h"
#include "say.h"
#include "script.h"
#include "secret.h"
#include "show.h"
#include "store.h"

enum { BAD_USAGE = 2, SOME_LINES_NOT_RUN = 3 };

const char said_by[] = "card";

static const char usage[] =
    "usage: tools/card new CARD KEY LIMIT ADMIN_PIN LIMIT USER_PIN LIMIT [MODE]\n"
    "                           TRANSPORT_KEY LIMIT\n"
    "       tools/card new CARD SCRIPT\n"
    "       tools/card run CARD SCRIPT\n"
    "       tools/card cut [--keep] CARD SCRIPT STORES\n"
    "       tools/card show CARD\n"
    "       tools/card check CARD\n"
    "       tools/card convert --to-new|--to-old [--into FOLDER] [--dry-run] CARD...\n"
    "\n"
    "CARD is a file with a whole card in it (docs/CARD-FILE.md). Keys and PINs stand there as\n"
    "they are, so it is for its owner alone (mode 600); one that others can open is warned of.\n"
    "\n"
    "new    makes a card, and the file with it. A file that is there is never\n"
    "       overwritten. The values are those of an ISSUE line: each key as 32 upper-case\n"
    "       hex digits, each PIN 6 to 16 digits, each limit 1 to 128, the mode 0 (data\n"
    "       come with the answer; so it is without a mode) or 1 (they wait for GET\n"
    "       RESPONSE). With - in place of a key or a PIN it is read from standard input,\n"
    "       one a line; at a terminal each is asked for twice, and not shown. Words of a\n"
    "       command line stay in the shell's history and in the scrollback, and others can\n"
    "       see them; not so what is typed at these questions, or piped.\n"
    "       Or a script makes the card: an ISSUE line, and CMD and RESET lines that\n"
    "       prepare it. Where one of its lines is not served, no card is made; where the\n"
    "       card refuses one by a status word, that is said, and the card is made.\n"
    "run    runs the CMD and RESET lines of a script on the card, and prints for each\n"
    "       line what ./limpet prints (./limpet --help). The session goes on where the\n"
    "       last run left it; RESET ends it. The card is stored before an answer is\n"
    "       printed, so what was answered is in CARD, however the run ends: a line of a\n"
    "       pipe or a terminal at once, the lines of a file in blocks. No line is run on a\n"
    "       card that cannot be stored. An ISSUE line ends the run: what follows it is for\n"
    "       another card, and could block the PINs of this one. Two runs on one card wait\n"
    "       for each other, up to 5 seconds.\n"
    "cut    shows what a loss of power leaves. It runs such a script, loses the power after\n"
    "       so many single stores in all (docs/POWER.md), recovers the card, and prints what\n"
    "       is left of each line, and what is found of the one that was cut. CARD stays as it\n"
    "       is; with --keep it has the card that is found.\n"
    "show   prints form, tries left, mode, session, free space, and the root and each\n"
    "       directory with its files, and which are current. No key, PIN, challenge or\n"
    "       contents, and of waiting bytes only how many there are.\n"
    "check  says whether the file is accepted, and where not, at which line and why, as\n"
    "       far as that can be told; and which form it has. The old form is that of before\n"
    "       there were directories (docs/CARD-FILE.md): show and check take it, run does not.\n"
    "convert makes the new form of cards in the old one (--to-new), or the old form of\n"
    "       cards without directories (--to-old). Each file is replaced; with --into it\n"
    "       stays, and its card is put into FOLDER under the same name, where no file is\n"
    "       ever overwritten. What is wrong with one file keeps no other from it: a table\n"
    "       tells of each what was done, or why not. --dry-run prints it and writes nothing.\n"
    "\n"
    "SCRIPT may be a pipe, and - is standard input. CARD is replaced as a whole, so\n"
    "whatever goes wrong it holds the card of before or the new one.\n"
    "\n"
    "Status: 0 when all was done; 1 for an error: CARD is as it was, but for what run has\n"
    "answered and convert has done, unless the message says otherwise; 1 from check where\n"
    "CARD is refused, and from convert where one was refused or failed; 2 for bad usage;\n"
    "3 from run where the card was stored, but some lines were not run (their outcome is\n"
    "not 0). Ctrl-C, SIGTERM and SIGHUP end run and convert after the present line or file.\n"
    "\n"
    "  tools/card new box.card - 128 - 5 - 3 - 10    asks for the keys and the PINs\n"
    "  tools/card new box.card examples/box.script   the box of docs/STANDBY.md\n"
    "  tools/card convert --to-new --dry-run shelf/*.card\n";

static int show_usage(void)
{
    say_usage(usage, "tools/card");
    return BAD_USAGE;
}

static int bad_usage(const char *why)
{
    say("%s", why);
    return show_usage();
}

/* ------------------------------------------------------------ new */

/* A secret that is a word of the command line is gone from the list of processes before the others are asked for. */
static void take_word(char *word, struct text *t)
{
    memcpy(t->at, word, strlen(word) + 1);
    wipe(word, strlen(word));
}

/* Where - stands for a key or a PIN, a line of standard input takes its place. lines: room for each. */
static bool take_secrets(char *word[ISSUE_FIELDS], struct text lines[ISSUE_SECRETS])
{
    struct secret wanted[ISSUE_SECRETS];
    size_t count = 0;

    for (size_t i = 0; i < ISSUE_SECRETS; i++) {
        char **given = &word[issue_secrets[i]];

        if (strcmp(*given, "-") == 0)
            wanted[count++] = (struct secret){ credential_name(i), &lines[i] };
        else if (strlen(*given) <= LONGEST_LINE)
            take_word(*given, &lines[i]);
        else
            continue; /* no secret is so long, and it is refused */
        *given = (char *)lines[i].at;
    }
    return read_secrets(wanted, count);
}

/* The mode may be missing: then it is 0. */
static bool issue_values(int words, char *const given[])
{
    static char room[BUFSIZ]; /* lasts as long as standard input */
    static char mode_0[] = "0";
    struct text lines[ISSUE_SECRETS];
    char *word[ISSUE_FIELDS];
    bool good;

    setvbuf(stdin, room, _IOFBF, sizeof room);
    complete_issue_words(words, given, mode_0, word);
    good = take_secrets(word, lines) && issue_words(word);
    wipe(lines, sizeof lines);
    wipe(room, sizeof room);
    return good;
}

static int new_card(int words, char **word)
{
    struct store s;
    enum found found;
    bool good = false;

    if (words != 2 && words != 1 + ISSUE_FIELDS_WITHOUT_MODE && words != 1 + ISSUE_FIELDS)
        return bad_usage("new takes a card file and a script, or a card file and the 8 or 9 values of an issue");
    found = store_open(&s, word[0], TO_LOOK);
    if (found == CANNOT_OPEN)
        return EXIT_FAILURE;
    if (found == FOUND)
        say("%s is there already, and is left as it is", word[0]);
    else
        good = (words == 2 ? run_script(word[1], true) : issue_values(words - 1, word + 1))
            && store_card(&s, WHOLE_CARD, ALWAYS) == STORED;
    store_close(&s);
    return good ? EXIT_SUCCESS : EXIT_FAILURE;
}

/* ------------------------------------------------------------ run, cut, show, check, convert */

/* Opens a file that has to be there. */
static bool open_card(struct store *s, const char *path, enum use use)
{
    enum found found = store_open(s, path, use);

    if (found == NONE) {
        say("there is no file %s; tools/card new makes one", path);
        store_close(s);
    }
    return found == FOUND;
}

/* Where a signal came the program ends by it, with nothing left to be done. */
static void end_by_signal(const char *done)
{
    card_wipe();
    if (is_to_end())
        say("ended by a signal; %s", done);
    let_ends();
}

static int run_card(int words, char **word)
{
    static const int statuses[] = {
        [ALL_RUN] = EXIT_SUCCESS, [SOME_NOT_RUN] = SOME_LINES_NOT_RUN, [BROKEN_OFF] = EXIT_FAILURE
    };
    struct store s;
    int status = EXIT_FAILURE;

    if (words != 2)
        return bad_usage("run takes a card file and a script");
    signal(SIGPIPE, SIG_IGN); /* an answer that nobody takes is an error like others */
    if (!open_card(&s, word[0], TO_CHANGE))
        return EXIT_FAILURE;
    hold_ends();
    if (store_load(&s))
        status = statuses[run_on_card(&s, word[1])];
    store_close(&s);
    end_by_signal("what was answered is stored");
    return status;
}

static int cut_card(int words, char **word)
{
    struct loss l;
    struct store s;
    bool good;

    if (!read_loss(words, word, &l))
        return show_usage();
    signal(SIGPIPE, SIG_IGN); /* a table that nobody takes is an error like others */
    if (!open_card(&s, l.card, l.keep ? TO_CHANGE : TO_LOOK))
        return EXIT_FAILURE;
    good = store_load(&s) && lose_power(&s, &l);
    store_close(&s);
    return good ? EXIT_SUCCESS : EXIT_FAILURE;
}

/* By the library alone. The old form is for show and check to tell of, and for convert. */
static bool is_old(const struct store *s)
{
    bool old = card_text_has(OLD_FORM, &s->text);

    if (old)
        store_warn_of_others(s);
    return old;
}

static int show_file(int words, char **word)
{
    struct store s;
    struct form f;
    bool old;
    int status = EXIT_FAILURE;

    if (words != 1)
        return bad_usage("show takes a card file and nothing else");
    if (!open_card(&s, word[0], TO_LOOK))
        return EXIT_FAILURE;
    store_warn_of_leftovers(&s);
    old = is_old(&s);
    if (old || store_load(&s)) {
        if (read_form(&s.text, &f) && f.form == (old ? OLD_FORM : NEW_FORM)) {
            show_card(&f);
            status = printed(EXIT_SUCCESS);
        } else {
            say("%s is a card, but not one that this program can explain", word[0]);
        }
    }
    store_close(&s);
    return status;
}

static int check_file(int words, char **word)
{
    struct store s;
    struct form f;
    enum verdict verdict;

    if (words != 1)
        return bad_usage("check takes a card file and nothing else");
    if (!open_card(&s, word[0], TO_LOOK))
        return EXIT_FAILURE;
    store_warn_of_leftovers(&s);
    verdict = is_old(&s) ? OLD_CARD : store_has_card(&s) ? NEW_CARD : REFUSED_CARD;
    read_form(&s.text, &f);
    show_verdict(word[0], verdict, &f);
    store_close(&s);
    return printed(verdict == REFUSED_CARD ? EXIT_FAILURE : EXIT_SUCCESS);
}

static int convert_cards(int words, char **word)
{
    struct conversion c;
    int status;

    if (!read_conversion(words, word, &c))
        return show_usage();
    signal(SIGPIPE, SIG_IGN); /* a table that nobody takes is an error like others */
    hold_ends();
    status = printed(convert_files(&c) ? EXIT_SUCCESS : EXIT_FAILURE);
    end_by_signal("every file is whole, and the table has all that were done");
    return status;
}

/* ------------------------------------------------------------ which */

static bool asks_for_help(const char *word)
{
    return strcmp(word, "--help") == 0 || strcmp(word, "-h") == 0;
}

static int no_part(int argc, char **argv)
{
    if (argc < 2)
        return bad_usage("nothing says what to do: new, run, cut, show, check or convert");
    say(asks_for_help(argv[1]) ? "%s stands alone" : "there is no part %s", argv[1]);
    return show_usage();
}

int main(int argc, char **argv)
{
    static const struct {
        const char *word;
        int (*run)(int words, char **word);
    } parts[] = {
        { "new", new_card },   { "run", run_card },     { "cut", cut_card },
        { "show", show_file }, { "check", check_file }, { "convert", convert_cards },
    };
    int status;

    process_begin();
    if (argc == 2 && asks_for_help(argv[1])) {
        fputs(usage, stdout);
        return printed(EXIT_SUCCESS);
    }
    for (size_t i = 0; i < sizeof parts / sizeof parts[0]; i++)
        if (argc > 1 && strcmp(argv[1], parts[i].word) == 0) {
            if (!card_fits())
                return EXIT_FAILURE;
            status = parts[i].run(argc - 2, argv + 2);
            process_end();
            return status;
        }
    return no_part(argc, argv);
}
