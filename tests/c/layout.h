/*
 * The bytes of a card, for tests alone: a caller has no business there. They
 * lie as the structs of crates/rules and crates/files have them. And what
 * document 01, "What a card holds", and requests of
 * document 02 say of them. A directory of R-7 is a folder here, since the table of
 * all files is the directory.
 */
#ifndef LAYOUT_H
#define LAYOUT_H

#include <stdbool.h>
#include <stddef.h>
#include <stdint.h>

#include "limpetnook.h"

enum { FILES = 16, FOLDERS = 4, VALUE_ROOM = 16, CHALLENGE_ROOM = 16, WAITING_ROOM = 256 };

/* The credentials' numbers. The last opens no right, so the rights are those before it. */
enum { DEVICE, ADMIN, USER, TRANSPORT, CREDENTIALS, RIGHTS = TRANSPORT };

struct tries {
    uint8_t left, limit;
};

/* A key or a PIN. */
struct credential {
    uint8_t value[VALUE_ROOM];
    uint8_t length;
    struct tries tries;
};

/*
 * A file; its FID and its used bytes have the high byte first, and its two size bytes are CREATE's. The folder that it lies in is
 * that one's place plus one, 0 for the root.
 */
struct file {
    uint8_t fid1, fid2, type, size1, size2, read, write, held, newest, used1, used2, folder;
};

/* right: the creation right. */
struct folder {
    uint8_t fid1, fid2, right;
};

/* count: how many files; number: how many folders. */
struct directory {
    struct file files[FILES];
    uint8_t count;
    struct folder folders[FOLDERS];
    uint8_t number;
};

/* A right is 1 where it is held and 0 where not; the current file is its place plus one, and so is the current folder. */
struct session {
    uint8_t rights[RIGHTS];
    uint8_t current;
    uint8_t challenge[CHALLENGE_ROOM];
    uint8_t length;
    uint8_t folder;
};

/* What waits for GET RESPONSE, and how many bytes that are, high byte first. */
struct response {
    uint8_t mode, count1, count2;
    uint8_t bytes[WAITING_ROOM];
};

/*
 * What a command was about to put in one place, so that a loss of power leaves all of it or nothing. what: 0 for nothing; a
 * credential's number plus one, and the bytes are its value and its length; a file's place plus OF_FILES, and they are its held, newest,
 * used1 and used2.
 */
enum { JOURNAL_ROOM = VALUE_ROOM + 1, OF_CREDENTIALS = 1, OF_FILES = 16 };
struct journal {
    uint8_t what;
    uint8_t bytes[JOURNAL_ROOM];
};

struct layout {
    struct credential credentials[CREDENTIALS];
    struct directory directory;
    struct session session;
    struct response response;
    struct journal journal;
};

_Static_assert(sizeof(struct layout) == LIMPET_CARD_SIZE, "the card is laid out in another way");
_Static_assert(_Alignof(struct layout) == 1, "the card has to be aligned");

/* Which field the byte at that place belongs to, and its name, for reports. */
enum { FIELDS = 26 };
size_t field_at(size_t place);
const char *field_name(size_t field);

/* The bytes of the area that a file takes, 0 where its type or size is bad; and how many of them records of type 2C use. */
unsigned file_size(const struct file *f);
unsigned used_bytes(const struct file *f);

/* How many bytes wait, by the two bytes that count them. */
unsigned waiting_count(const struct response *r);
void set_waiting_count(struct response *r, unsigned count);

/* Whether these bytes and those of an area of LIMPET_AREA_SIZE are together a sound state, by the papers. */
bool is_sound(const uint8_t *card, const uint8_t *area);

/* Whether the byte at that place of a card outlasts the power: all but the session and what waits, by reading 24. */
bool is_lasting(size_t place);

/*
 * What recovery makes of any bytes, by R-10: a journal carried out and cleared, places past the last file and the last folder cleared,
 * and all that is not lasting. Whether a sound card results: where not, `to` is not to be looked at.
 */
bool recovered(const uint8_t *card, const uint8_t *area, struct layout *to);

#endif
