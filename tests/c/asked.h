/*
 * What a command asks of a card before the card shows anything, for tests: which
 * file it names, whether a right is satisfied, and whether what it presents is
 * right. Written from documents 01 and 02, over the bytes of a card and an area
 * that are sound, and with no call of the library.
 */
#ifndef ASKED_H
#define ASKED_H

#include <stdbool.h>
#include <stddef.h>
#include <stdint.h>

#include "layout.h"

enum {
    SELECT = 0xA4, READ_BINARY = 0xB0, UPDATE_BINARY = 0xD6, READ_RECORD = 0xB2, UPDATE_RECORD = 0xDC, APPEND_RECORD = 0xE2,
    VERIFY = 0x20, AUTHENTICATE = 0x82, CHANGE_PIN = 0x24, RELOAD_PIN = 0x2C, CREATE_FILE = 0xE0, GET_CHALLENGE = 0x84,
    GET_RESPONSE = 0xC0
};

/* Whether the bytes are a frame of that class and instruction. */
bool is_command(const uint8_t *command, size_t length, uint8_t cla, uint8_t ins);

/* Whether they are a READ BINARY or a READ RECORD, and whether an update or an append, each of class 00 or 04. */
bool is_reading(const uint8_t *command, size_t length);
bool is_writing(const uint8_t *command, size_t length);

/* The place of the file that such a command names: by SFI one of the current folder, else the current one. FILES where there is none. */
size_t named_file(const struct layout *c, const uint8_t *command);

/* Where in the area a file begins. */
size_t file_start(const struct layout *c, size_t file);

/* How many records a file holds, and where in the area record `number`, from 1 on, begins, and its length. */
unsigned records_held(const struct layout *c, const uint8_t *area, size_t file);
size_t record_start(const struct layout *c, const uint8_t *area, size_t file, unsigned number, unsigned *length);

/* Whether what a rights byte asks is held, codes apart. */
bool is_satisfied(const struct layout *c, uint8_t right);

/* The cryptogram that the device has to answer the card's challenge with. */
void cryptogram_for(const struct layout *c, uint8_t cryptogram[LIMPET_KEY_SIZE]);

/*
 * Whether a command is a presentation of that credential on that card, "a served VERIFY or EXTERNAL AUTHENTICATE that passes every check
 * up to the comparison", or a code that does; and whether it is right.
 */
enum presentation { NO_PRESENTATION, WRONG_PRESENTATION, RIGHT_PRESENTATION };
enum presentation presented(const struct layout *c, size_t credential, const uint8_t *command, size_t length);

#endif
