#include "coded.h"

#include <string.h>

/* aes_bytes.c, compiled with AES_BYTES=aes_bytes. */
void aes_bytes(const uint8_t key[16], const uint8_t block[16], uint8_t out[16]);

enum { BLOCK = 16, HEAD = 5, READ_BINARY = 0xB0, READ_RECORD = 0xB2, UPDATE_BINARY = 0xD6, UPDATE_RECORD = 0xDC, APPEND_RECORD = 0xE2 };

bool is_frame(const uint8_t *command, size_t length)
{
    if (length < 6)
        return length >= 4;
    size_t lc = command[4];
    return lc > 0 && (length == HEAD + lc || length == HEAD + 1 + lc);
}

bool is_coded(const uint8_t *command, size_t length)
{
    if (!is_frame(command, length) || command[0] != 0x04)
        return false;
    switch (command[1]) {
    case READ_BINARY:
    case READ_RECORD:
    case UPDATE_BINARY:
    case UPDATE_RECORD:
    case APPEND_RECORD:
        return true;
    default:
        return false;
    }
}

static bool is_read(const uint8_t *command)
{
    return command[1] == READ_BINARY || command[1] == READ_RECORD;
}

/* "Always padded by 80 and 00": the byte at that place of the padded message. */
static uint8_t padded_at(const uint8_t *message, size_t length, size_t place)
{
    if (place < length)
        return message[place];
    return place == length ? 0x80 : 0x00;
}

void code_of(const uint8_t *key, const uint8_t *challenge, size_t challenge_length,
             const uint8_t *message, size_t length, uint8_t code[LIMPET_CODE_SIZE])
{
    uint8_t chained[BLOCK] = { 0 }, summed[BLOCK];

    if (challenge_length > 0)
        memcpy(chained, challenge, challenge_length);
    for (size_t at = 0; at <= length; at += BLOCK) {
        for (size_t i = 0; i < BLOCK; i++)
            summed[i] = chained[i] ^ padded_at(message, length, at + i);
        aes_bytes(key, summed, chained);
    }
    memcpy(code, chained, LIMPET_CODE_SIZE);
}

void code_for(const struct layout *card, const uint8_t *message, size_t length, uint8_t code[LIMPET_CODE_SIZE])
{
    size_t challenge_length = card->session.length <= CHALLENGE_ROOM ? card->session.length : CHALLENGE_ROOM;

    code_of(card->credentials[TRANSPORT].value, card->session.challenge, challenge_length, message, length, code);
}

/* As the five commands' lines of document 01 say: "P1 bit 8 clear", "P1 from 81 to 9E", "P2 low bits 100, upper five SFI, not 31". */
static bool good_p(const uint8_t *command)
{
    uint8_t p1 = command[2], p2 = command[3];

    switch (command[1]) {
    case READ_BINARY:
    case UPDATE_BINARY:
        return p1 < 0x80 || (0x81 <= p1 && p1 <= 0x9E);
    case APPEND_RECORD:
        return p1 == 0 && (p2 & 7) == 0 && p2 >> 3 != 31;
    default:
        return p1 != 0 && (p2 & 7) == 4 && p2 >> 3 != 31;
    }
}

/* "Reads become case 4 with Lc 04; updates and appends need Lc 05 or more", and stay case 3. */
static bool good_case(const uint8_t *command, size_t length)
{
    if (length <= HEAD)
        return false;
    size_t lc = command[4];
    return is_read(command) ? lc == LIMPET_CODE_SIZE && length == HEAD + 1 + lc : lc > LIMPET_CODE_SIZE && length == HEAD + lc;
}

unsigned refusal_of_code(const struct layout *card, const uint8_t *command, size_t length)
{
    uint8_t code[LIMPET_CODE_SIZE];

    if (!good_p(command))
        return 0x6A86;
    if (!good_case(command, length))
        return 0x6700;
    if (card->credentials[TRANSPORT].tries.left == 0)
        return 0x6983;
    if (card->session.length == 0)
        return 0x6984;
    size_t covered = HEAD + command[4] - sizeof code; /* "over header, Lc and data before the code" */
    code_for(card, command, covered, code);
    return memcmp(command + covered, code, sizeof code) == 0 ? 0 : 0x6988;
}

size_t without_code(const uint8_t *command, size_t length, uint8_t *to)
{
    size_t data = command[4] - (size_t)LIMPET_CODE_SIZE;

    memcpy(to, command, 4);
    to[0] = 0x00;
    if (is_read(command)) {
        to[4] = command[length - 1];
        return HEAD;
    }
    to[4] = (uint8_t)data;
    memcpy(to + HEAD, command + HEAD, data);
    return HEAD + data;
}

bool asks_code(uint8_t right)
{
    return (right & 0x04) != 0 && right != 0x0F;
}
