/*
 * A card's file as docs/CARD-FILE.md describes it, read by a plain parser: for people, who want to know what is in it, and which
 * line is wrong. Whether it is a card, and in which form, is the library's to say and not this parser's.
 *
 * No key, PIN, challenge, waiting bytes or contents are kept, so that nothing can print them.
 */
#ifndef CARDS_FORM_H
#define CARDS_FORM_H

#include "card.h"

enum { DEVICE_KEY, ADMIN_PIN, USER_PIN, TRANSPORT_KEY, CREDENTIALS, RIGHTS = TRANSPORT_KEY }; /* the transport key opens none */
enum { MOST_FILES = 16, MOST_FOLDERS = 4, NO_FILE = -1 };
enum { ROOT = 0x3F00 }; /* the FID that stands for the root, among those of directories */
enum { BINARY = 0x28, FIXED = 0x2A, VARIABLE = 0x2C, CYCLIC = 0x2E };
/* Of a rights byte: those who have to be there, all of them or, with ANY_ONE, one of them; and of a file's, that it asks for a code. */
enum { FOR_ADMIN = 0x80, FOR_USER = 0x40, FOR_DEVICE = 0x01, ANY_ONE = 0x02, WITH_CODE = 0x04, FOR_NOBODY = 0x0F };

struct form_credential {
    uint16_t limit, left;
    bool held; /* its right, where it has one */
};

/* A directory of the card. */
struct form_folder {
    int fid;
    uint8_t right; /* to make files in it */
};

struct form_file {
    int fid, folder; /* folder: the FID of its directory */
    uint8_t type, size1, size2, read, write;
    uint16_t held, newest; /* held: of type 2C, the used bytes */
    unsigned records;      /* that it has now; none in a binary file */
};

struct form {
    enum text_form form; /* which the session's line has, by the number of its fields */
    struct form_credential credentials[CREDENTIALS];
    int current;             /* the FID of the current file, or NO_FILE */
    int folder;              /* the FID of the current directory */
    unsigned challenge_size; /* 0 where there is none */
    uint16_t mode;           /* 0 or 1 */
    unsigned waiting;        /* how many bytes wait for GET RESPONSE */
    struct form_folder folders[MOST_FOLDERS];
    size_t folder_count;
    struct form_file files[MOST_FILES];
    size_t count;

    /* What is wrong with it: NULL where nothing is. */
    const char *wrong;
    size_t line;      /* the number of the line */
    const char *part; /* what stands in that line */
    int of;           /* the FID of the directory that it is, or of the file that it belongs to, or NO_FILE */
};

/* Reads the text. Whether nothing is wrong with it. */
bool read_form(const struct card_text *t, struct form *f);

/* SFI, and the bytes of the data area that a file takes. */
unsigned short_number(const struct form_file *f);
unsigned bytes_taken(const struct form_file *f);

const char *credential_name(size_t credential);

#endif
