/* Scripts, as far as they make and prepare a card. */
#ifndef READER_SCRIPT_H
#define READER_SCRIPT_H

#include <stdbool.h>
#include <stdio.h>

#include "lines.h"

/* The keys and PINs among the fields of an ISSUE line, in their order: which field each is. */
enum { ISSUE_SECRETS = 4 };
extern const size_t issue_secrets[ISSUE_SECRETS];

/* The values of an issue as words, whose mode may be missing: how many there are then, and all of them, with this mode. */
enum { ISSUE_FIELDS_WITHOUT_MODE = ISSUE_FIELDS - 1 };
void complete_issue_words(int count, char *const given[], char *mode, char *words[ISSUE_FIELDS]);

/* Where a script's bytes stand while it is read, so that they can be wiped. */
struct script_room {
    char at[BUFSIZ];
};

/* The script at path, or standard input for "-"; NULL where it cannot be read, which is said. The room lasts until it is closed. */
FILE *open_script(const char *path, struct script_room *room);
void close_script(FILE *file, struct script_room *room);

/* What a person calls it. */
const char *script_name(const char *path);

/*
 * Issues the card with values that are written as on an ISSUE line, and wipes the keys and the PINs among the words. Says why where
 * it cannot.
 */
bool issue_words(char *const words[ISSUE_FIELDS]);

/* Writes 00 over the keys and the PINs, so that a list of processes shows them no longer. */
void wipe_issue_words(char *const words[ISSUE_FIELDS]);

/*
 * Runs the script at path, or standard input for "-". With issues, its first line and no other is an ISSUE; without, none is.
 * A status word that refuses is the script's own matter, and is said at the end; a line that is not served ends it. Says which and
 * why.
 */
bool run_script(const char *path, bool issues);

#endif
