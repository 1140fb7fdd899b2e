/*
 * Leaks put between tests/c/outsider.c and the library, to show that the program
 * notices them: each tells something of a file's bytes, or of the value of a
 * credential, to somebody who may not know it. FAULT in the environment names the one
 * that is made, and with none all is as it was.
 */
#include <stdbool.h>
#include <string.h>

#include "asked.h"
#include "coded.h"
#include "fault.h"
#include "layout.h"
#include "limpetnook.h"

uint8_t __real_limpet_command(struct limpet_card *card, uint8_t *area, size_t area_len,
                              const uint8_t *command, size_t command_len, const uint8_t *random, size_t random_len,
                              uint8_t *reply, size_t reply_len, size_t *reply_count);
uint8_t __wrap_limpet_command(struct limpet_card *card, uint8_t *area, size_t area_len,
                              const uint8_t *command, size_t command_len, const uint8_t *random, size_t random_len,
                              uint8_t *reply, size_t reply_len, size_t *reply_count);
uint8_t __real_limpet_reset(struct limpet_card *card, const uint8_t *area, size_t area_len);
uint8_t __wrap_limpet_reset(struct limpet_card *card, const uint8_t *area, size_t area_len);

/* A served command: the card before it and after it, and what it is answered. */
struct answered {
    struct layout before, after;
    uint8_t area_before[LIMPET_AREA_SIZE], *area;
    const uint8_t *command;
    size_t length;
    uint8_t *reply;
    size_t *count;
    unsigned word;
};

static void put_word(struct answered *a, unsigned word)
{
    a->reply[*a->count - 2] = (uint8_t)(word >> 8);
    a->reply[*a->count - 1] = (uint8_t)word;
}

/* One byte of data, and 9000; in mode 1 too. */
static void show(struct answered *a, uint8_t byte)
{
    a->reply[0] = byte;
    *a->count = 3;
    put_word(a, 0x9000);
}

static void keep_waiting(struct answered *a, uint8_t byte)
{
    a->after.response.bytes[0] = byte;
    set_waiting_count(&a->after.response, 1);
}

static bool is_odd(uint8_t byte)
{
    return byte % 2 != 0;
}

/* ---- the bytes of a file ---- */

/* A READ of a file that was refused by its right. byte: the first of the file's. */
static void leak_at_read(struct answered *a, size_t file, uint8_t byte)
{
    const struct file *f = &a->before.directory.files[file];
    struct tries *user = &a->after.credentials[USER].tries;
    bool opened = is_satisfied(&a->before, f->read), coded = a->command[0] == 0x04;

    if (has_fault("word-tells-a-bit") && is_odd(byte))
        put_word(a, 0x6985);
    if (has_fault("length-tells-a-bit") && is_odd(byte)) {
        *a->count = 3;
        put_word(a, 0x6982);
    }
    if (has_fault("byte-behind-the-answer"))
        a->reply[*a->count] = byte;
    if (has_fault("byte-before-the-word"))
        show(a, byte);
    if (has_fault("refused-read-waits") && a->before.response.mode == 1)
        keep_waiting(a, byte);
    if (has_fault("refused-read-makes-current-by-a-bit") && is_odd(byte))
        a->after.session.current = (uint8_t)(file + 1);
    if (has_fault("refused-read-leaves-a-challenge")) {
        memset(a->after.session.challenge, byte, 4);
        a->after.session.length = 4;
    }
    if (has_fault("refused-read-costs-a-try-by-a-bit") && is_odd(byte) && user->left > 0 && a->after.session.rights[USER] == 0)
        user->left--;
    if (has_fault("writer-may-read") && !opened && is_satisfied(&a->before, f->write))
        show(a, byte);
    if (has_fault("closed-file-shown") && f->read == 0x0F)
        show(a, byte);
    if (has_fault("one-of-two-rights-is-enough") && !opened && f->read != 0x0F && is_satisfied(&a->before, f->read | 0x02))
        show(a, byte);
    if (has_fault("code-opens-the-right") && !opened && coded)
        show(a, byte);
    if (has_fault("right-opens-without-the-code") && opened && !coded)
        show(a, byte);
    if (has_fault("note-told-by-its-first-byte") && f->type == 0x2C && used_bytes(f) > 0 && is_odd(a->area[file_start(&a->before, file) + 1]))
        put_word(a, 0x6A83);
}

/* A file was updated, or a record appended. before, after: its first byte then and now. */
static void leak_at_write(struct answered *a, size_t file)
{
    const struct file *f = &a->before.directory.files[file];
    size_t start = file_start(&a->before, file), end = start + file_size(f);
    bool appends = a->command[1] == APPEND_RECORD, full = f->type == 0x2E && f->held == f->size1;

    if (has_fault("update-tells-what-was-there") && !appends && memcmp(a->area_before, a->area, sizeof a->area_before) == 0)
        put_word(a, 0x6200);
    if (has_fault("update-tells-the-last-byte") && !appends && a->area_before[end - 1] >= 0x80)
        put_word(a, 0x6200);
    if (has_fault("update-spills-behind-the-file") && !appends && end < LIMPET_AREA_SIZE && file + 1 == a->before.directory.count)
        a->area[end] = a->area_before[start];
    if (has_fault("append-tells-what-it-overwrites") && appends && full
        && is_odd(a->area_before[start + (f->newest + 1u) % f->size1 * f->size2]))
        put_word(a, 0x6200);
    if (has_fault("append-shows-the-first-note") && appends && f->type == 0x2C && used_bytes(f) > 0)
        show(a, a->area_before[start + 1]);
    if (has_fault("full-file-told-by-a-bit") && appends && f->type == 0x2C && is_odd(a->area_before[end - 1]))
        put_word(a, 0x6281);
}

static bool is_all_00(const struct answered *a, size_t file)
{
    size_t start = file_start(&a->before, file);

    for (size_t i = start; i < start + file_size(&a->before.directory.files[file]); i++)
        if (a->area[i] != 0)
            return false;
    return true;
}

static void leak_of_files(struct answered *a)
{
    bool reads = is_reading(a->command, a->length), writes = is_writing(a->command, a->length);
    size_t file = reads || writes ? named_file(&a->before, a->command) : FILES;
    size_t current = a->after.session.current;

    if (reads && file < FILES && a->word == 0x6982)
        leak_at_read(a, file, a->area[file_start(&a->before, file)]);
    if (writes && file < FILES && a->word == 0x9000)
        leak_at_write(a, file);
    if (has_fault("select-tells-of-00") && is_command(a->command, a->length, 0x00, SELECT) && a->word == 0x9000 && current > 0
        && is_all_00(a, current - 1))
        put_word(a, 0x6283);
    if (has_fault("file-made-with-a-byte-of-another") && is_command(a->command, a->length, 0x80, CREATE_FILE)
        && a->after.directory.count > a->before.directory.count && a->before.directory.count > 0)
        a->area[file_start(&a->after, a->before.directory.count)] = a->area[0];
    if (has_fault("challenge-by-a-file") && is_command(a->command, a->length, 0x00, GET_CHALLENGE) && a->word == 0x9000
        && a->before.directory.count > 0)
        a->reply[0] = a->after.session.challenge[0] ^= a->area[0];
    if (has_fault("unknown-command-shows-a-byte") && a->word == 0x6D00 && a->before.directory.count > 0)
        show(a, a->area[0]);
    if (has_fault("read-kept-past-another-command") && !is_command(a->command, a->length, 0x00, GET_RESPONSE)
        && waiting_count(&a->after.response) == 0)
        a->after.response = a->before.response;
}

/* ---- the value of a credential ---- */

static unsigned equal_bytes(const uint8_t *one, const uint8_t *other, size_t length)
{
    unsigned equal = 0;

    for (size_t i = 0; i < length; i++)
        equal += one[i] == other[i];
    return equal;
}

/* A VERIFY with data that was refused. */
static void leak_of_pin(struct answered *a, size_t credential)
{
    const struct credential *pin = &a->before.credentials[credential];
    const uint8_t *shown = a->command + 5;
    size_t length = a->command[4];
    bool wrong_one = a->word >> 4 == 0x63C;

    if (has_fault("first-digit-told") && wrong_one && shown[0] == pin->value[0])
        put_word(a, 0x6300);
    if (has_fault("last-digit-told") && wrong_one && length == pin->length && shown[length - 1] == pin->value[length - 1])
        put_word(a, 0x6300);
    if (has_fault("length-told") && wrong_one && length != pin->length)
        put_word(a, 0x6700);
    if (has_fault("near-guess-costs-no-try") && wrong_one && length == pin->length && equal_bytes(shown, pin->value, length) + 1 == length)
        a->after.credentials[credential].tries.left++;
    if (has_fault("right-digits-counted") && wrong_one && length == pin->length)
        put_word(a, 0x6300 + equal_bytes(shown, pin->value, length));
    if (has_fault("blocked-PIN-compared") && a->word == 0x6983 && length == pin->length && memcmp(shown, pin->value, length) == 0)
        put_word(a, 0x63C0);
}

static void leak_of_credentials(struct answered *a)
{
    bool verifies = is_command(a->command, a->length, 0x00, VERIFY), p2 = a->length > 3 && a->command[3] == 1;
    const struct credential *pin = &a->before.credentials[p2 ? USER : ADMIN], *key = &a->before.credentials[DEVICE];
    uint8_t due[LIMPET_KEY_SIZE];

    if (verifies && a->length > 5)
        leak_of_pin(a, p2 ? USER : ADMIN);
    if (has_fault("query-tells-the-length") && verifies && a->length == 4 && a->word >> 4 == 0x63C)
        put_word(a, 0x6300 + pin->length);
    if (has_fault("change-tells-of-the-same") && is_command(a->command, a->length, 0x00, CHANGE_PIN) && a->word == 0x9000
        && a->command[4] == pin->length && memcmp(a->command + 5, pin->value, pin->length) == 0)
        put_word(a, 0x6200);
    if (has_fault("reload-tells-of-the-same") && is_command(a->command, a->length, 0x00, RELOAD_PIN) && a->word == 0x9000
        && a->command[4] == pin->length && memcmp(a->command + 5, pin->value, pin->length) == 0)
        put_word(a, 0x6200);
    if (has_fault("other-PIN-told") && verifies && a->length > 5 && a->word >> 4 == 0x63C
        && a->command[4] == a->before.credentials[ADMIN].length && p2
        && memcmp(a->command + 5, a->before.credentials[ADMIN].value, a->command[4]) == 0)
        put_word(a, 0x6300);
    if (has_fault("cryptogram-byte-told") && is_command(a->command, a->length, 0x00, AUTHENTICATE) && a->word >> 4 == 0x63C) {
        cryptogram_for(&a->before, due);
        if (due[0] == a->command[5])
            put_word(a, 0x6300);
    }
    if (has_fault("code-byte-told") && a->word == 0x6988) {
        size_t covered = 5u + a->command[4] - LIMPET_CODE_SIZE;
        code_for(&a->before, a->command, covered, due);
        if (due[0] == a->command[covered])
            put_word(a, 0x6982);
    }
    if (has_fault("challenge-by-the-key") && is_command(a->command, a->length, 0x00, GET_CHALLENGE) && a->word == 0x9000)
        a->reply[0] = a->after.session.challenge[0] ^= key->value[0];
    if (has_fault("transport-key-behind-the-answer") && a->word == 0x6988)
        memcpy(a->reply + *a->count, a->before.credentials[TRANSPORT].value, 4);
}

uint8_t __wrap_limpet_command(struct limpet_card *card, uint8_t *area, size_t area_len,
                              const uint8_t *command, size_t command_len, const uint8_t *random, size_t random_len,
                              uint8_t *reply, size_t reply_len, size_t *reply_count)
{
    static struct answered a;

    memcpy(&a.before, card, sizeof a.before);
    memcpy(a.area_before, area, sizeof a.area_before);
    uint8_t outcome = __real_limpet_command(card, area, area_len, command, command_len, random, random_len, reply, reply_len, reply_count);
    if (outcome != LIMPET_OK)
        return outcome;
    memcpy(&a.after, card, sizeof a.after);
    a.area = area;
    a.command = command;
    a.length = command_len;
    a.reply = reply;
    a.count = reply_count;
    a.word = 256u * reply[*reply_count - 2] + reply[*reply_count - 1];
    leak_of_files(&a);
    leak_of_credentials(&a);
    memcpy(card, &a.after, sizeof a.after);
    return outcome;
}

uint8_t __wrap_limpet_reset(struct limpet_card *card, const uint8_t *area, size_t area_len)
{
    struct layout before, after;

    memcpy(&before, card, sizeof before);
    uint8_t outcome = __real_limpet_reset(card, area, area_len);
    if (outcome != LIMPET_OK)
        return outcome;
    memcpy(&after, card, sizeof after);
    if (has_fault("read-kept-past-a-reset"))
        after.response = before.response;
    if (has_fault("reset-refused-by-a-bit") && before.directory.count > 0 && is_odd(area[0]))
        return LIMPET_UNSOUND;
    if (has_fault("reset-leaves-a-challenge-by-a-PIN")) {
        memcpy(after.session.challenge, before.credentials[USER].value, 4);
        after.session.length = 4;
    }
    memcpy(card, &after, sizeof after);
    return outcome;
}
