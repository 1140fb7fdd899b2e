#include "script.h"

#include <errno.h>
#include <stdio.h>
#include <string.h>

#include "card.h"
#include "process.h"
#include "say.h"

enum { MODE_FIELD = 6 };
const size_t issue_secrets[ISSUE_SECRETS] = { 0, 2, 4, 7 };

/* How far a script has come, and which of its lines the card refused. */
struct progress {
    size_t lines, refused, first; /* first: the number of the first refused one */
    unsigned word;                /* the status word that refused it */
};

/* What runs a line says why it was not served, and NULL where it was. */
static const char *why_not(uint8_t outcome)
{
    return outcome == LIMPET_OK ? NULL : outcome_says(outcome);
}

static bool is_pin(struct bytes pin)
{
    for (size_t i = 0; i < pin.len; i++)
        if (pin.at[i] < '0' || pin.at[i] > '9')
            return false;
    return 6 <= pin.len && pin.len <= 16;
}

static bool is_limit(uint16_t limit)
{
    return 1 <= limit && limit <= 128;
}

/* Which values of a refused issue are at fault, and never what they are. All are named as possible where none is seen to be. */
static const char *wrong_values(const struct line *l)
{
    static char all[512];
    const struct {
        bool good;
        const char *wrong;
    } values[ISSUE_FIELDS] = {
        { l->key.len == LIMPET_KEY_SIZE, "the device key is not 16 bytes" },
        { is_limit(l->device_limit), "the device key's limit is not 1 to 128" },
        { is_pin(l->admin_pin), "the admin PIN is not 6 to 16 digits" },
        { is_limit(l->admin_limit), "the admin PIN's limit is not 1 to 128" },
        { is_pin(l->user_pin), "the user PIN is not 6 to 16 digits" },
        { is_limit(l->user_limit), "the user PIN's limit is not 1 to 128" },
        { l->mode <= 1, "the mode is not 0 or 1" },
        { l->transport_key.len == LIMPET_KEY_SIZE, "the transport key is not 16 bytes" },
        { is_limit(l->transport_limit), "the transport key's limit is not 1 to 128" },
    };
    size_t len = 0;

    for (int i = 0; i < ISSUE_FIELDS; i++)
        if (!values[i].good)
            len += (size_t)snprintf(all + len, sizeof all - len, "%s%s", len == 0 ? "" : "; ", values[i].wrong);
    return len > 0 ? all : outcome_says(LIMPET_BAD_ISSUE);
}

/* Whether the values are good is the library's to say. */
static const char *run_issue(const struct line *l)
{
    uint8_t outcome;

    if (l->wrong != NULL)
        return l->wrong;
    outcome = card_issue(l);
    return outcome == LIMPET_BAD_ISSUE ? wrong_values(l) : why_not(outcome);
}

/* Bytes that wait are no refusal, and neither are the tries left where VERIFY without data (case 1) asks for them. */
static bool refuses(struct bytes command, unsigned word)
{
    bool asks_tries = command.len == 4 && command.at[0] == 0x00 && command.at[1] == 0x20;

    return word != 0x9000 && word >> 8 != 0x61 && !(asks_tries && word >> 4 == 0x63C);
}

static void count_refused(struct progress *p, unsigned word)
{
    if (p->refused++ == 0) {
        p->first = p->lines;
        p->word = word;
    }
}

static const char *run_command(const struct line *l, struct progress *p)
{
    struct bytes command = { l->command.at, l->command.len }, random = { l->random.at, l->random.len };
    uint8_t reply[LIMPET_REPLY_SIZE];
    size_t count;
    uint8_t outcome = card_command(command, random, reply, &count);
    unsigned word;

    if (outcome != LIMPET_OK)
        return outcome_says(outcome);
    say_exchange(command, (struct bytes){ reply, count });
    word = (unsigned)reply[count - 2] << 8 | reply[count - 1];
    if (refuses(command, word))
        count_refused(p, word);
    return NULL;
}

void complete_issue_words(int count, char *const given[], char *mode, char *words[ISSUE_FIELDS])
{
    bool has_mode = count == ISSUE_FIELDS;

    memcpy(words, given, MODE_FIELD * sizeof words[0]);
    words[MODE_FIELD] = has_mode ? given[MODE_FIELD] : mode;
    memcpy(words + MODE_FIELD + 1, given + MODE_FIELD + (has_mode ? 1 : 0), (ISSUE_FIELDS - MODE_FIELD - 1) * sizeof words[0]);
}

void wipe_issue_words(char *const words[ISSUE_FIELDS])
{
    for (size_t i = 0; i < ISSUE_SECRETS; i++)
        wipe(words[issue_secrets[i]], strlen(words[issue_secrets[i]]));
}

bool issue_words(char *const words[ISSUE_FIELDS])
{
    struct bytes fields[ISSUE_FIELDS];
    struct line l;
    const char *wrong;

    for (int i = 0; i < ISSUE_FIELDS; i++)
        fields[i] = (struct bytes){ (const uint8_t *)words[i], strlen(words[i]) };
    read_issue(fields, &l);
    wrong = run_issue(&l);
    wipe(&l, sizeof l);
    wipe_issue_words(words);
    if (wrong != NULL)
        say("no card: %s", wrong);
    return wrong == NULL;
}

/* issue_due: the line has to be the ISSUE. */
static const char *run_line(const struct text *t, struct line *l, bool issue_due, struct progress *p)
{
    read_line(t, l);
    if (l->kind == ISSUE_LINE)
        return issue_due ? run_issue(l) : "a card has been issued already";
    if (issue_due && t->len <= LONGEST_LINE)
        return "the first line is to be an ISSUE: key, limit, admin PIN, limit, user PIN, limit, mode, transport key, limit, parted by tabs";
    if (l->wrong != NULL)
        return l->wrong;
    return l->kind == CMD_LINE ? run_command(l, p) : why_not(card_reset());
}

/* What is said holds also where the card is not stored in the end. */
static void say_refused(const char *name, const struct progress *p)
{
    static const char all_the_same[] = "a refused line does not keep the card from being made";

    if (p->refused == 1)
        say("%s: line %zu was refused (%04X); %s", name, p->first, p->word, all_the_same);
    else if (p->refused > 1)
        say("%s: line %zu was refused (%04X), and %zu more; %s", name, p->first, p->word, p->refused - 1, all_the_same);
}

static bool run_lines(FILE *file, const char *name, bool issues)
{
    struct text t;
    struct line l;
    const char *wrong = NULL;
    struct progress p = { .lines = 0 };

    while (wrong == NULL && read_text(file, &t)) {
        p.lines++;
        wrong = run_line(&t, &l, issues && p.lines == 1, &p);
    }
    wipe(&t, sizeof t);
    wipe(&l, sizeof l);
    if (wrong != NULL) {
        say("%s: line %zu: %s", name, p.lines, wrong);
        return false;
    }
    if (ferror(file)) {
        say("cannot read %s: %s", name, strerror(errno));
        return false;
    }
    if (issues && p.lines == 0) {
        say("%s: no ISSUE line", name);
        return false;
    }
    say_refused(name, &p);
    return true;
}

static bool is_standard_input(const char *path)
{
    return strcmp(path, "-") == 0;
}

const char *script_name(const char *path)
{
    return is_standard_input(path) ? "standard input" : path;
}

FILE *open_script(const char *path, struct script_room *room)
{
    FILE *file = is_standard_input(path) ? stdin : fopen(path, "r");

    if (file == NULL)
        say("cannot read %s: %s", path, strerror(errno));
    else
        setvbuf(file, room->at, _IOFBF, sizeof room->at);
    return file;
}

void close_script(FILE *file, struct script_room *room)
{
    fclose(file);
    standard_open(); /* where it was standard input */
    wipe(room, sizeof *room);
}

bool run_script(const char *path, bool issues)
{
    struct script_room room;
    FILE *file = open_script(path, &room);
    bool good;

    if (file == NULL)
        return false;
    good = run_lines(file, script_name(path), issues);
    close_script(file, &room);
    return good;
}
