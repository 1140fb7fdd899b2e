#include "asked.h"

#include <string.h>

#include "coded.h"

/* aes_bytes.c, compiled with AES_BYTES=aes_bytes. */
void aes_bytes(const uint8_t key[16], const uint8_t block[16], uint8_t out[16]);

enum { HEAD = 5 };

bool is_command(const uint8_t *command, size_t length, uint8_t cla, uint8_t ins)
{
    return is_frame(command, length) && command[0] == cla && command[1] == ins;
}

/* "CLA 04 for the five read, update and append commands", which have 00 otherwise. */
static bool is_either(const uint8_t *command, size_t length, uint8_t ins)
{
    return is_command(command, length, 0x00, ins) || is_command(command, length, 0x04, ins);
}

bool is_reading(const uint8_t *command, size_t length)
{
    return is_either(command, length, READ_BINARY) || is_either(command, length, READ_RECORD);
}

bool is_writing(const uint8_t *command, size_t length)
{
    return is_either(command, length, UPDATE_BINARY) || is_either(command, length, UPDATE_RECORD) || is_either(command, length, APPEND_RECORD);
}

/* "P1 bit 8 clear: P is a 15-bit offset in the current file. P1 from 81 to 9E: SFI in its low five bits"; of records "upper five SFI". */
static unsigned sfi_in(const uint8_t *command)
{
    uint8_t p1 = command[2], p2 = command[3];

    if (command[1] != READ_BINARY && command[1] != UPDATE_BINARY)
        return p2 >> 3;
    return (p1 & 0x80) != 0 ? p1 & 31u : 0;
}

size_t named_file(const struct layout *c, const uint8_t *command)
{
    unsigned sfi = sfi_in(command);

    if (sfi == 0)
        return c->session.current == 0 ? FILES : c->session.current - 1u;
    for (size_t i = 0; i < c->directory.count; i++)
        if (c->directory.files[i].folder == c->session.folder && (c->directory.files[i].fid2 & 31u) == sfi)
            return i;
    return FILES;
}

size_t file_start(const struct layout *c, size_t file)
{
    size_t start = 0;

    for (size_t i = 0; i < file; i++)
        start += file_size(&c->directory.files[i]);
    return start;
}

/* Of a 2C file: "that byte holds the length", and stands before its record. */
unsigned records_held(const struct layout *c, const uint8_t *area, size_t file)
{
    const struct file *f = &c->directory.files[file];
    const uint8_t *bytes = area + file_start(c, file);
    unsigned count = 0;

    if (f->type != 0x2C)
        return f->type == 0x2A ? f->size1 : f->held;
    for (unsigned at = 0; at < used_bytes(f); at += 1u + bytes[at])
        count++;
    return count;
}

/* "Number n in place n - 1"; in a 2E file number 1 is the newest, and "older ones stand in the places before it". */
size_t record_start(const struct layout *c, const uint8_t *area, size_t file, unsigned number, unsigned *length)
{
    const struct file *f = &c->directory.files[file];
    size_t start = file_start(c, file);

    if (f->type == 0x2C) {
        for (unsigned i = 1; i < number; i++)
            start += 1u + area[start];
        *length = area[start];
        return start + 1;
    }
    *length = f->size2;
    return start + (f->type == 0x2A ? number - 1 : (f->newest + f->size1 - (number - 1)) % f->size1) * (size_t)f->size2;
}

bool is_satisfied(const struct layout *c, uint8_t right)
{
    static const uint8_t bits[RIGHTS] = { [DEVICE] = 0x01, [ADMIN] = 0x80, [USER] = 0x40 };
    bool all = true, any = false;

    for (size_t i = 0; i < RIGHTS; i++)
        if ((right & bits[i]) != 0) {
            all = all && c->session.rights[i] != 0;
            any = any || c->session.rights[i] != 0;
        }
    return right != 0x0F && ((right & 0x02) != 0 ? any : all);
}

void cryptogram_for(const struct layout *c, uint8_t cryptogram[LIMPET_KEY_SIZE])
{
    aes_bytes(c->credentials[DEVICE].value, c->session.challenge, cryptogram); /* behind the challenge a sound card has 00 */
}

static bool has_lc(const uint8_t *command, size_t length, size_t least, size_t most)
{
    return length > HEAD && length == (size_t)HEAD + command[4] && least <= command[4] && command[4] <= most;
}

static enum presentation compared(bool agrees)
{
    return agrees ? RIGHT_PRESENTATION : WRONG_PRESENTATION;
}

static enum presentation presented_pin(const struct credential *pin, const uint8_t *command, size_t length)
{
    if (!has_lc(command, length, 6, 16))
        return NO_PRESENTATION;
    for (size_t i = HEAD; i < length; i++)
        if (command[i] < 0x30 || command[i] > 0x39)
            return NO_PRESENTATION;
    return compared(pin->length == command[4] && memcmp(pin->value, command + HEAD, pin->length) == 0);
}

enum presentation presented(const struct layout *c, size_t credential, const uint8_t *command, size_t length)
{
    const struct credential *x = &c->credentials[credential];
    uint8_t due[LIMPET_KEY_SIZE];

    if (x->tries.left == 0)
        return NO_PRESENTATION;
    if (credential == TRANSPORT) {
        unsigned refusal = is_coded(command, length) ? refusal_of_code(c, command, length) : 0x6D00;
        return refusal == 0 || refusal == 0x6988 ? compared(refusal == 0) : NO_PRESENTATION;
    }
    if (credential != DEVICE)
        return is_command(command, length, 0x00, VERIFY) && command[2] == 0 && command[3] == (credential == USER)
            ? presented_pin(x, command, length) : NO_PRESENTATION;
    if (!is_command(command, length, 0x00, AUTHENTICATE) || command[2] != 0 || command[3] != 0 || !has_lc(command, length, 16, 16)
        || c->session.length == 0)
        return NO_PRESENTATION;
    cryptogram_for(c, due);
    return compared(memcmp(due, command + HEAD, sizeof due) == 0);
}
