/*
 * Faults put between a program and the library, to show that the program
 * notices them. Linked with --wrap for the calls on a card; FAULT in the
 * environment names the one fault that is made, and with none all is as it was.
 */
#include <stdbool.h>
#include <stdlib.h>
#include <string.h>

#include "coded.h"
#include "fault.h"
#include "layout.h"
#include "limpetnook.h"

uint8_t __real_limpet_issue(struct limpet_card *card, uint8_t *area, size_t area_len,
                            const uint8_t *key, size_t key_len, uint16_t device_limit,
                            const uint8_t *admin_pin, size_t admin_pin_len, uint16_t admin_limit,
                            const uint8_t *user_pin, size_t user_pin_len, uint16_t user_limit, uint16_t mode,
                            const uint8_t *transport_key, size_t transport_key_len, uint16_t transport_limit);
uint8_t __wrap_limpet_issue(struct limpet_card *card, uint8_t *area, size_t area_len,
                            const uint8_t *key, size_t key_len, uint16_t device_limit,
                            const uint8_t *admin_pin, size_t admin_pin_len, uint16_t admin_limit,
                            const uint8_t *user_pin, size_t user_pin_len, uint16_t user_limit, uint16_t mode,
                            const uint8_t *transport_key, size_t transport_key_len, uint16_t transport_limit);
uint8_t __real_limpet_command(struct limpet_card *card, uint8_t *area, size_t area_len,
                              const uint8_t *command, size_t command_len,
                              const uint8_t *random, size_t random_len,
                              uint8_t *reply, size_t reply_len, size_t *reply_count);
uint8_t __wrap_limpet_command(struct limpet_card *card, uint8_t *area, size_t area_len,
                              const uint8_t *command, size_t command_len,
                              const uint8_t *random, size_t random_len,
                              uint8_t *reply, size_t reply_len, size_t *reply_count);
uint8_t __real_limpet_reset(struct limpet_card *card, const uint8_t *area, size_t area_len);
uint8_t __wrap_limpet_reset(struct limpet_card *card, const uint8_t *area, size_t area_len);
uint8_t __real_limpet_to_text(const struct limpet_card *card, const uint8_t *area, size_t area_len,
                              uint8_t *text, size_t text_len, size_t *text_count);
uint8_t __wrap_limpet_to_text(const struct limpet_card *card, const uint8_t *area, size_t area_len,
                              uint8_t *text, size_t text_len, size_t *text_count);
uint8_t __real_limpet_from_text(struct limpet_card *card, uint8_t *area, size_t area_len,
                                const uint8_t *text, size_t text_len);
uint8_t __wrap_limpet_from_text(struct limpet_card *card, uint8_t *area, size_t area_len,
                                const uint8_t *text, size_t text_len);
uint8_t __real_limpet_code(const uint8_t *key, size_t key_len, const uint8_t *challenge, size_t challenge_len,
                           const uint8_t *message, size_t message_len, uint8_t *code, size_t code_len);
uint8_t __wrap_limpet_code(const uint8_t *key, size_t key_len, const uint8_t *challenge, size_t challenge_len,
                           const uint8_t *message, size_t message_len, uint8_t *code, size_t code_len);
uint8_t __real_limpet_text_to_new(const uint8_t *old, size_t old_len, uint8_t *text, size_t text_len, size_t *text_count);
uint8_t __wrap_limpet_text_to_new(const uint8_t *old, size_t old_len, uint8_t *text, size_t text_len, size_t *text_count);
uint8_t __real_limpet_text_to_old(const uint8_t *given, size_t given_len, uint8_t *text, size_t text_len, size_t *text_count);
uint8_t __wrap_limpet_text_to_old(const uint8_t *given, size_t given_len, uint8_t *text, size_t text_len, size_t *text_count);

/* A fault of the calls that write, read and convert a card as lines: only the program texts makes them. */
static bool has_text_fault(const char *name)
{
    return has_fault(name);
}

/* A fault of limpet_code: only the program codes makes them. */
static bool has_code_fault(const char *name)
{
    return has_fault(name);
}

static bool is_odd(const struct limpet_card *card)
{
    return (uintptr_t)card % 2 != 0;
}

/* As where a library takes any byte for a right by its lowest bit. */
static void mask_rights(struct limpet_card *card)
{
    uint8_t *rights = (uint8_t *)card + offsetof(struct layout, session.rights);

    for (size_t i = 0; i < RIGHTS; i++)
        rights[i] &= 1;
}

/* As where a library does not look at the lengths of notes: whether nothing else is unsound. */
static bool lengths_alone_are_bad(const struct limpet_card *card, const uint8_t *area)
{
    struct layout c;

    memcpy(&c, card, sizeof c);
    for (size_t i = 0; i < FILES; i++)
        if (c.directory.files[i].type == 0x2C)
            c.directory.files[i].used1 = c.directory.files[i].used2 = 0;
    return is_sound((const uint8_t *)&c, area);
}

/* As where a library takes bit 2 of a rights byte for good by itself: whether nothing else is unsound. */
static bool bit_2_alone_is_bad(const struct limpet_card *card, const uint8_t *area)
{
    struct layout c;

    memcpy(&c, card, sizeof c);
    for (size_t i = 0; i < FILES; i++) {
        struct file *f = &c.directory.files[i];
        f->read = f->read == 0x02 ? 0x00 : f->read;
        f->write = f->write == 0x02 ? 0x00 : f->write;
    }
    return is_sound((const uint8_t *)&c, area);
}

/* As where a library still takes bit 2 for bad: whether a rights byte other than 0F has it. */
static bool has_bit_2(const struct limpet_card *card)
{
    struct layout c;

    memcpy(&c, card, sizeof c);
    for (size_t i = 0; i < FILES; i++) {
        const struct file *f = &c.directory.files[i];
        if (((f->read & 0x02) != 0 && f->read != 0x0F) || ((f->write & 0x02) != 0 && f->write != 0x0F))
            return true;
    }
    return false;
}

/* As where an append does not count the length byte. */
static void count_one_less(struct limpet_card *card, unsigned sfi)
{
    struct layout c;

    memcpy(&c, card, sizeof c);
    for (size_t i = 0; i < FILES; i++)
        if (c.directory.files[i].type == 0x2C && (c.directory.files[i].fid2 & 31u) == sfi)
            c.directory.files[i].used2--;
    memcpy(card, &c, sizeof c);
}

static bool is_blank(const struct limpet_card *card)
{
    static const uint8_t blank[LIMPET_CARD_SIZE];

    return memcmp(card, blank, sizeof blank) == 0;
}

static void flip(const void *bytes, ptrdiff_t place)
{
    if (bytes != NULL)
        ((uint8_t *)bytes)[place] ^= 1;
}

uint8_t __wrap_limpet_issue(struct limpet_card *card, uint8_t *area, size_t area_len,
                            const uint8_t *key, size_t key_len, uint16_t device_limit,
                            const uint8_t *admin_pin, size_t admin_pin_len, uint16_t admin_limit,
                            const uint8_t *user_pin, size_t user_pin_len, uint16_t user_limit, uint16_t mode,
                            const uint8_t *transport_key, size_t transport_key_len, uint16_t transport_limit)
{
    uint8_t outcome = __real_limpet_issue(card, area, area_len, key, key_len, device_limit,
                                          admin_pin, admin_pin_len, admin_limit, user_pin, user_pin_len, user_limit, mode,
                                          transport_key, transport_key_len, transport_limit);
    struct credential *issued = &((struct layout *)card)->credentials[TRANSPORT];
    bool served = outcome == LIMPET_OK;

    if (has_fault("issue-leaves-a-card") && !served)
        flip(card, 0);
    if (has_fault("issue-leaves-the-last-byte") && !served)
        flip(card, LIMPET_CARD_SIZE - 1);
    if (has_fault("issue-clears-on-refusal") && !served && area_len > 0)
        memset(area, 0, area_len);
    if (has_fault("issue-leaves-a-byte") && served)
        flip(area, 4095);
    if (has_fault("issue-writes-the-key") && key_len > 0)
        flip(key, 0);
    if (has_fault("issue-writes-a-pin") && user_pin_len > 0)
        flip(user_pin, 0);
    if (has_fault("issue-writes-past-the-card"))
        flip(card, LIMPET_CARD_SIZE);
    if (has_fault("issue-refuses-odd-addresses") && is_odd(card))
        return LIMPET_BAD_ISSUE;
    if (has_fault("issue-limit-129") && user_limit == 129 && !served)
        return LIMPET_OK;
    if (has_fault("issue-mode-2") && mode == 2 && !served)
        return LIMPET_OK;
    if (has_fault("issue-mode-by-its-low-byte") && mode == 256 && !served)
        return LIMPET_OK;
    if (has_fault("issue-forgets-the-mode") && served)
        ((struct layout *)card)->response.mode = 0;
    if (has_fault("issue-writes-the-transport-key") && transport_key_len > 0)
        flip(transport_key, (ptrdiff_t)transport_key_len - 1);
    if (has_fault("issue-writes-past-the-transport-key"))
        flip(transport_key, (ptrdiff_t)transport_key_len);
    if (has_fault("issue-transport-key-of-15") && transport_key_len == 15 && !served)
        return LIMPET_OK;
    if (has_fault("issue-transport-key-of-17") && transport_key_len == 17 && !served)
        return LIMPET_OK;
    if (has_fault("issue-transport-limit-129") && transport_limit == 129 && !served)
        return LIMPET_OK;
    if (has_fault("issue-transport-limit-by-its-low-byte") && transport_limit == 256 + 10 && !served)
        return LIMPET_OK;
    if (has_fault("issue-transport-key-before-the-area") && outcome == LIMPET_BAD_AREA && transport_key_len != 16)
        return LIMPET_BAD_ISSUE;
    if (has_fault("issue-takes-the-device-key-for-both") && served)
        memcpy(issued->value, key, sizeof issued->value);
    if (has_fault("issue-takes-the-user-limit-for-codes") && served)
        issued->tries = (struct tries){ (uint8_t)user_limit, (uint8_t)user_limit };
    if (has_fault("issue-with-a-try-less-for-codes") && served)
        issued->tries.left--;
    if (has_fault("issue-refuses-a-key-with-00") && served && memchr(transport_key, 0, transport_key_len) != NULL)
        return LIMPET_BAD_ISSUE;
    return outcome;
}

/* ---- what waits (R-6) ---- */

/* As where a library looks at some part of the response no more: whether nothing else is unsound. */
static bool waiting_alone_is_bad(const struct limpet_card *card, const uint8_t *area)
{
    struct layout c;

    memcpy(&c, card, sizeof c);
    if (is_sound((const uint8_t *)&c, area))
        return false;
    if (has_fault("mode-not-looked-at"))
        c.response.mode &= 1;
    if (has_fault("waiting-in-mode-0"))
        c.response.mode |= 1;
    if (has_fault("count-257") && waiting_count(&c.response) == WAITING_ROOM + 1)
        set_waiting_count(&c.response, WAITING_ROOM);
    if (has_fault("count-by-its-low-byte"))
        c.response.count1 = 0;
    if (has_fault("bytes-past-the-waiting-not-looked-at") && waiting_count(&c.response) < WAITING_ROOM)
        memset(c.response.bytes + waiting_count(&c.response), 0, WAITING_ROOM - waiting_count(&c.response));
    if (has_fault("last-waiting-byte-not-looked-at") && waiting_count(&c.response) < WAITING_ROOM)
        c.response.bytes[WAITING_ROOM - 1] = 0;
    return is_sound((const uint8_t *)&c, area);
}

static bool is_get_response(const uint8_t *command, size_t length)
{
    return length == 5 && command[0] == 0x00 && command[1] == 0xC0;
}

static void put_word(uint8_t *reply, size_t *count, unsigned word)
{
    reply[*count - 2] = (uint8_t)(word >> 8);
    reply[*count - 1] = (uint8_t)word;
}

/* A served GET RESPONSE. before: the card before it. */
static void spoil_fetched(struct layout *c, const struct layout *before, uint8_t *reply, size_t *count)
{
    unsigned word = 256u * reply[*count - 2] + reply[*count - 1], left = waiting_count(&c->response);
    bool refused = word >> 8 != 0x61 && word != 0x9000;

    if (has_fault("get-response-in-mode-0") && c->response.mode == 0)
        put_word(reply, count, 0x6985);
    if (has_fault("get-response-refused-discards") && refused)
        c->response = (struct response){ .mode = c->response.mode };
    if (has_fault("get-response-drops-the-challenge") && c->response.mode == 1)
        memset(&c->session.challenge, 0, CHALLENGE_ROOM + 1);
    if (has_fault("get-response-keeps-the-challenge-in-mode-0") && c->response.mode == 0)
        c->session = before->session;
    if (has_fault("rest-not-moved") && !refused && left > 0)
        memcpy(c->response.bytes, before->response.bytes, left);
    if (has_fault("rest-not-cleared") && !refused)
        memcpy(c->response.bytes + left, before->response.bytes + left, WAITING_ROOM - left);
    if (has_fault("last-part-ends-61") && word == 0x9000)
        put_word(reply, count, 0x6100);
    if (has_fault("rest-ends-9000") && word >> 8 == 0x61)
        put_word(reply, count, 0x9000);
    if (has_fault("nothing-waiting-ends-9000") && word == 0x6985)
        put_word(reply, count, 0x9000);
    if (has_fault("6c-with-one-less") && word >> 8 == 0x6C)
        put_word(reply, count, word - 1);
}

/* Any other command that was served, on a card of mode 1. */
static void spoil_other(struct layout *c, const struct layout *before, uint8_t *reply, size_t *count)
{
    unsigned word = 256u * reply[*count - 2] + reply[*count - 1], waiting = waiting_count(&c->response);

    if (has_fault("61-with-one-less") && word >> 8 == 0x61)
        put_word(reply, count, 0x6100 + (waiting - 1) % 256);
    if (has_fault("6100-for-no-data") && word == 0x9000)
        put_word(reply, count, 0x6100);
    if (has_fault("9000-for-waiting-data") && word >> 8 == 0x61)
        put_word(reply, count, 0x9000);
    if (has_fault("waiting-kept-past-another-command") && waiting == 0)
        c->response = before->response;
    if (has_fault("waiting-kept-past-a-refused-command") && waiting == 0 && word != 0x9000)
        c->response = before->response;
    if (has_fault("61-drops-the-challenge") && waiting > 0)
        memset(&c->session.challenge, 0, CHALLENGE_ROOM + 1);
    if (has_fault("61-leaves-the-current-file") && waiting > 0)
        c->session.current = before->session.current;
    if (has_fault("one-waiting-byte-wrong") && waiting > 0)
        flip(&c->response.bytes[waiting - 1], 0);
    if (has_fault("data-behind-the-status-word"))
        memcpy(reply + *count, c->response.bytes, waiting);
    if (has_fault("data-with-the-answer-too") && waiting > 0) {
        memcpy(reply, c->response.bytes, waiting);
        *count = waiting + 2;
        put_word(reply, count, word);
    }
}

static void spoil_waiting(struct limpet_card *card, const struct layout *before, const uint8_t *command, size_t length,
                          uint8_t *reply, size_t *count)
{
    struct layout c;

    memcpy(&c, card, sizeof c);
    if (is_get_response(command, length))
        spoil_fetched(&c, before, reply, count);
    else if (c.response.mode == 1)
        spoil_other(&c, before, reply, count);
    memcpy(card, &c, sizeof c);
}

/* ---- directories (R-7) ---- */

/* Whether a folder or a root file has that FID. */
static bool is_taken(const struct directory *d, uint8_t fid1, uint8_t fid2)
{
    for (size_t i = 0; i < d->number && i < FOLDERS; i++)
        if (d->folders[i].fid1 == fid1 && d->folders[i].fid2 == fid2)
            return true;
    for (size_t i = 0; i < d->count && i < FILES; i++)
        if (d->files[i].folder == 0 && d->files[i].fid1 == fid1 && d->files[i].fid2 == fid2)
            return true;
    return false;
}

/* A good FID for a folder, which nothing has. */
static void rename_folder(struct directory *d, size_t folder)
{
    uint8_t fid2 = 1;

    while (is_taken(d, 0xEE, fid2))
        fid2++;
    d->folders[folder].fid1 = 0xEE;
    d->folders[folder].fid2 = fid2;
}

/* A good FID for a file, its SFI free in its folder. */
static void rename_file(struct directory *d, size_t file)
{
    uint32_t used = 0;
    uint8_t sfi = 1;

    for (size_t i = 0; i < d->count && i < FILES; i++)
        if (i != file && d->files[i].folder == d->files[file].folder)
            used |= UINT32_C(1) << (d->files[i].fid2 & 31u);
    while (used >> sfi & 1)
        sfi++;
    d->files[file].fid1 = 0xEF;
    d->files[file].fid2 = sfi;
}

/* As where a library looks at some part of a folder no more. */
static void mend_folder(struct directory *d, size_t folder)
{
    struct folder *f = &d->folders[folder];

    for (size_t i = 0; i < folder && has_fault("folder-fid-twice"); i++)
        if (d->folders[i].fid1 == f->fid1 && d->folders[i].fid2 == f->fid2)
            rename_folder(d, folder);
    for (size_t i = 0; i < d->count && i < FILES && has_fault("folder-fid-of-a-root-file"); i++)
        if (d->files[i].folder == 0 && d->files[i].fid1 == f->fid1 && d->files[i].fid2 == f->fid2)
            rename_folder(d, folder);
    if (has_fault("folder-low-bits-0") && (f->fid2 & 31) == 0)
        rename_folder(d, folder);
    if (has_fault("folder-low-bits-31") && (f->fid2 & 31) == 31)
        rename_folder(d, folder);
    if (has_fault("creation-right-not-looked-at"))
        f->right = 0;
    if (has_fault("creation-right-bit-2-alone") && f->right == 0x02)
        f->right = 0;
    if (has_fault("creation-right-bit-3-good") && (f->right & 0x04) != 0 && f->right != 0x0F)
        f->right &= 0xC3;
}

/* As where a library looks at some part of where a file lies no more. */
static void mend_file(struct layout *c, size_t file)
{
    struct directory *d = &c->directory;
    struct file *f = &d->files[file];

    if (has_fault("file-in-no-folder") && f->folder > d->number) {
        f->folder = 0;
        rename_file(d, file);
        if (c->session.current == file + 1)
            c->session.folder = 0;
    }
    for (size_t i = 0; i < file && has_fault("sfi-twice-in-a-folder"); i++)
        if (f->folder != 0 && d->files[i].folder == f->folder && (d->files[i].fid2 & 31) == (f->fid2 & 31))
            rename_file(d, file);
}

/* Whether nothing else is unsound than what such a library does not look at. */
static bool folders_alone_are_bad(const struct limpet_card *card, const uint8_t *area)
{
    struct layout c;
    struct directory *d = &c.directory;

    memcpy(&c, card, sizeof c);
    if (is_sound((const uint8_t *)&c, area))
        return false;
    if (has_fault("places-past-the-last-folder") && d->number < FOLDERS)
        memset(&d->folders[d->number], 0, (FOLDERS - d->number) * sizeof(struct folder));
    if (has_fault("five-folders") && d->number == FOLDERS + 1)
        d->number = FOLDERS;
    if (has_fault("number-of-folders-not-looked-at") && d->number > FOLDERS)
        d->number = FOLDERS;
    for (size_t i = 0; i < d->number && i < FOLDERS; i++)
        mend_folder(d, i);
    for (size_t i = 0; i < d->count && i < FILES; i++)
        mend_file(&c, i);
    if (has_fault("folder-of-an-unused-file") && d->count < FILES)
        for (size_t i = d->count; i < FILES; i++)
            d->files[i].folder = 0;
    if (has_fault("current-folder-not-there") && c.session.folder > d->number)
        c.session.folder = c.session.current = 0;
    if (has_fault("current-file-elsewhere") && c.session.current <= d->count && c.session.folder <= d->number)
        c.session.current = 0;
    if (has_fault("current-file-in-a-folder-from-the-root") && c.session.current <= d->count && c.session.folder == 0)
        c.session.current = 0;
    return is_sound((const uint8_t *)&c, area);
}

/* As where a library refuses what is sound. */
static bool refuses_folders(const struct limpet_card *card)
{
    struct layout c;
    const struct directory *d = &c.directory;

    memcpy(&c, card, sizeof c);
    if (has_fault("four-folders-refused") && d->number == FOLDERS)
        return true;
    if (has_fault("empty-folder-refused") && c.session.folder != 0 && c.session.current == 0)
        return true;
    for (size_t i = 0; i < d->number; i++) {
        if (has_fault("creation-right-0f-refused") && d->folders[i].right == 0x0F)
            return true;
        if (has_fault("creation-right-with-bit-2-refused") && (d->folders[i].right & 0x02) != 0 && d->folders[i].right != 0x0F)
            return true;
        for (size_t j = 0; j < d->count; j++) {
            if (has_fault("folder-fid-of-any-file-refused") && d->files[j].fid1 == d->folders[i].fid1
                && d->files[j].fid2 == d->folders[i].fid2)
                return true;
            if (has_fault("folder-with-an-sfi") && d->files[j].folder == 0 && (d->files[j].fid2 & 31) == (d->folders[i].fid2 & 31))
                return true;
        }
        for (size_t j = 0; j < i; j++)
            if (has_fault("folders-by-their-low-bits") && (d->folders[i].fid2 & 31) == (d->folders[j].fid2 & 31))
                return true;
    }
    for (size_t i = 0; i < d->count; i++)
        for (size_t j = 0; j < i; j++)
            if (has_fault("sfi-twice-in-the-card-refused") && (d->files[i].fid2 & 31) == (d->files[j].fid2 & 31))
                return true;
    return false;
}

static bool is_create(const uint8_t *command, size_t length)
{
    return length == 10 && command[0] == 0x80 && command[1] == 0xE0;
}

/* A served command. before: the card before it. */
static void spoil_folders(struct limpet_card *card, const struct layout *before, const uint8_t *command, size_t length)
{
    struct layout c;
    struct directory *d = &c.directory;

    memcpy(&c, card, sizeof c);
    bool made_folder = d->number > before->directory.number, made_file = d->count > before->directory.count;
    bool moved = c.session.folder != before->session.folder, found = c.session.current != before->session.current;

    if (has_fault("folder-made-becomes-current") && made_folder) {
        c.session.folder = d->number;
        c.session.current = 0;
    }
    if (has_fault("folder-made-drops-the-current-file") && made_folder)
        c.session.current = 0;
    if (has_fault("folder-made-with-another-right") && made_folder)
        d->folders[d->number - 1].right = 0x01;
    if (has_fault("folder-made-with-another-fid") && made_folder)
        d->folders[d->number - 1].fid1 ^= 0x80;
    if (has_fault("folder-not-made") && made_folder)
        *d = before->directory;
    if (has_fault("folder-made-changes-another") && made_folder && d->number > 1)
        d->folders[0].right = 0x0F;
    if (has_fault("file-made-in-the-root") && made_file)
        d->files[d->count - 1].folder = c.session.folder = 0;
    if (has_fault("file-made-in-another-folder") && made_file && d->number > 0)
        d->files[d->count - 1].folder = c.session.folder = (uint8_t)(1 + before->session.folder % d->number);
    if (has_fault("file-made-is-not-current") && made_file)
        c.session.current = before->session.current;
    if (has_fault("folder-selected-keeps-the-file") && moved)
        c.session.current = before->session.current;
    if (has_fault("folder-selected-again-keeps-the-file") && length == 7 && command[1] == 0xA4 && !moved && c.session.folder != 0
        && c.session.current == 0)
        c.session.current = before->session.current;
    if (has_fault("folder-selected-is-the-next") && moved && c.session.folder != 0)
        c.session.folder = (uint8_t)(1 + c.session.folder % d->number);
    if (has_fault("root-selected-stays") && moved && c.session.folder == 0)
        c.session.folder = before->session.folder;
    if (has_fault("select-goes-to-the-root") && length == 7 && command[1] == 0xA4 && found)
        c.session.folder = c.session.current = 0;
    if (has_fault("any-command-returns-to-the-root") && !is_create(command, length))
        c.session.folder = c.session.current = 0;
    if (has_fault("a-file-moves-to-the-root") && d->count > 0 && !made_file)
        d->files[d->count - 1].folder = 0;
    if (has_fault("an-empty-folder-is-forgotten") && d->number == 3 && !made_folder) {
        memset(&d->folders[2], 0, sizeof d->folders[2]);
        d->number = 2;
    }
    memcpy(card, &c, sizeof c);
}

/* ---- codes (R-9) ---- */

enum { LONGEST_COMMAND = 5 + 255 + 1 };

/* As where a library looks at codes in another way: what a right one would have to be given for the same answer. */
static const uint8_t *with_other_code(const struct layout *c, const uint8_t *command, size_t length, uint8_t *changed)
{
    uint8_t due[LIMPET_CODE_SIZE];

    if (!is_coded(command, length) || refusal_of_code(c, command, length) == 0x6A86 || refusal_of_code(c, command, length) == 0x6700)
        return command;
    size_t covered = 5 + command[4] - sizeof due;
    code_for(c, command, covered, due);
    memcpy(changed, command, length);
    uint8_t *code = changed + covered;
    bool is_right = memcmp(code, due, sizeof due) == 0;

    if (has_fault("code-not-looked-at"))
        memcpy(code, due, sizeof due);
    if (has_fault("right-code-refused") && is_right)
        code[3] ^= 1;
    if (has_fault("padding-left-out-at-16") && is_right && covered % 16 == 0)
        code[0] ^= 1;
    if (has_fault("code-of-one-block-alone") && is_right && covered >= 16)
        code[0] ^= 1;
    return changed;
}

/* As where a library takes a right that asks for codes for another one. */
static uint8_t other_right(uint8_t right, bool has_code)
{
    if (!asks_code(right))
        return right;
    if (has_fault("plain-command-let-through") && !has_code)
        return (uint8_t)(right & ~0x04);
    if (has_fault("code-is-one-of-the-alternatives") && !has_code && (right & 0x02) != 0)
        return (uint8_t)(right & ~0x04);
    if (has_fault("code-instead-of-rights") && has_code)
        return 0x00;
    if (has_fault("code-alone-opens-nothing") && has_code && right == 0x04)
        return 0x0F;
    return right;
}

static void change_rights(struct limpet_card *card, bool has_code)
{
    struct layout c;

    memcpy(&c, card, sizeof c);
    for (size_t i = 0; i < FILES; i++) {
        c.directory.files[i].read = other_right(c.directory.files[i].read, has_code);
        c.directory.files[i].write = other_right(c.directory.files[i].write, has_code);
    }
    memcpy(card, &c, sizeof c);
}

/* Those of files that were there before. */
static void put_rights_back(struct limpet_card *card, const struct layout *before)
{
    struct layout c;

    memcpy(&c, card, sizeof c);
    for (size_t i = 0; i < FILES && i < before->directory.count; i++) {
        c.directory.files[i].read = before->directory.files[i].read;
        c.directory.files[i].write = before->directory.files[i].write;
    }
    memcpy(card, &c, sizeof c);
}

/* A served command. before: the card before it. */
static void spoil_codes(struct limpet_card *card, uint8_t *area, const struct layout *before, const uint8_t *command, size_t length,
                        uint8_t *reply, size_t *count)
{
    struct layout c;
    struct credential *key = &c.credentials[TRANSPORT];
    unsigned word = 256u * reply[*count - 2] + reply[*count - 1];
    unsigned refusal = is_coded(command, length) ? refusal_of_code(before, command, length) : 0x6D00;
    bool is_wrong = refusal == 0x6988, is_right = refusal == 0, done = word == 0x9000 || word >> 8 == 0x61;

    memcpy(&c, card, sizeof c);
    if (has_fault("wrong-code-keeps-the-tries") && is_wrong)
        key->tries.left = before->credentials[TRANSPORT].tries.left;
    if (has_fault("wrong-code-takes-all-tries") && is_wrong)
        key->tries.left = 0;
    if (has_fault("wrong-code-keeps-the-challenge") && is_wrong)
        memcpy(&c.session.challenge, before->session.challenge, CHALLENGE_ROOM + 1);
    if (has_fault("wrong-code-drops-a-right") && is_wrong)
        c.session.rights[ADMIN] = 0;
    if (has_fault("wrong-code-alters-the-file") && is_wrong)
        flip(area, 0);
    if (has_fault("wrong-code-is-63cx") && is_wrong)
        put_word(reply, count, 0x63C0 + key->tries.left);
    if (has_fault("last-wrong-code-is-6983") && is_wrong && key->tries.left == 0)
        put_word(reply, count, 0x6983);
    if (has_fault("right-code-keeps-the-tries") && is_right)
        key->tries.left = before->credentials[TRANSPORT].tries.left;
    if (has_fault("right-code-restores-at-9000-alone") && is_right && !done)
        key->tries.left = before->credentials[TRANSPORT].tries.left;
    if (has_fault("right-code-keeps-the-challenge") && is_right)
        memcpy(&c.session.challenge, before->session.challenge, CHALLENGE_ROOM + 1);
    if (has_fault("right-code-holds-a-right") && is_right && c.credentials[DEVICE].tries.left == c.credentials[DEVICE].tries.limit)
        c.session.rights[DEVICE] = 1;
    if (has_fault("no-challenge-before-no-tries") && refusal == 0x6983 && before->session.length == 0)
        put_word(reply, count, 0x6984);
    if (has_fault("no-tries-before-6700") && refusal == 0x6700 && key->tries.left == 0)
        put_word(reply, count, 0x6983);
    if (has_fault("blocked-code-is-6988") && refusal == 0x6983)
        put_word(reply, count, 0x6988);
    if (has_fault("any-command-restores-the-tries"))
        key->tries.left = key->tries.limit;
    if (has_fault("any-command-changes-the-transport-key"))
        key->value[15] ^= 1;
    memcpy(card, &c, sizeof c);
}

/* As where a library looks at some part of the transport key, or of rights with bit 3, no more: whether nothing else is unsound. */
static bool codes_alone_are_bad(const struct limpet_card *card, const uint8_t *area)
{
    struct layout c;
    struct credential *key = &c.credentials[TRANSPORT];

    memcpy(&c, card, sizeof c);
    if (is_sound((const uint8_t *)&c, area))
        return false;
    if (has_fault("transport-key-length-not-looked-at"))
        key->length = 16;
    if (has_fault("transport-limit-129") && key->tries.limit == 129)
        key->tries = (struct tries){ 128, 128 };
    if (has_fault("transport-limit-0") && key->tries.limit == 0)
        key->tries.limit = 128;
    if (has_fault("transport-tries-past-the-limit"))
        key->tries.left = 0;
    for (size_t i = 0; i < FILES && has_fault("bits-2-and-3-alone-good"); i++) {
        struct file *f = &c.directory.files[i];
        f->read = f->read == 0x06 ? 0x00 : f->read;
        f->write = f->write == 0x06 ? 0x00 : f->write;
    }
    for (size_t i = 0; i < FILES && has_fault("bit-4-good"); i++) {
        struct file *f = &c.directory.files[i];
        f->read = f->read == 0x0F ? 0x0F : (uint8_t)(f->read & ~0x08);
        f->write = f->write == 0x0F ? 0x0F : (uint8_t)(f->write & ~0x08);
    }
    return is_sound((const uint8_t *)&c, area);
}

/* As where a library refuses what is sound. */
static bool refuses_codes(const struct layout *c)
{
    const struct credential *key = &c->credentials[TRANSPORT];
    bool has_right = c->session.rights[DEVICE] || c->session.rights[ADMIN] || c->session.rights[USER];

    if (has_fault("right-held-asks-all-tries-of-codes") && has_right && key->tries.left < key->tries.limit)
        return true;
    if (has_fault("blocked-transport-key-refused") && key->tries.left == 0)
        return true;
    if (has_fault("transport-key-as-a-pin") && (key->value[0] < 0x30 || key->value[0] > 0x39))
        return true;
    for (size_t i = 0; i < c->directory.count; i++) {
        const struct file *f = &c->directory.files[i];
        if (has_fault("bit-3-still-bad") && (asks_code(f->read) || asks_code(f->write)))
            return true;
        if (has_fault("bit-3-alone-bad") && (f->read == 0x04 || f->write == 0x04))
            return true;
    }
    return false;
}

uint8_t __wrap_limpet_command(struct limpet_card *card, uint8_t *area, size_t area_len,
                              const uint8_t *command, size_t command_len,
                              const uint8_t *random, size_t random_len,
                              uint8_t *reply, size_t reply_len, size_t *reply_count)
{
    struct layout before;
    uint8_t changed[LONGEST_COMMAND];

    if (has_fault("rights-by-their-lowest-bit"))
        mask_rights(card);
    memcpy(&before, card, sizeof before);
    change_rights(card, is_coded(command, command_len));
    uint8_t outcome = __real_limpet_command(card, area, area_len, with_other_code(&before, command, command_len, changed), command_len,
                                            random, random_len, reply, reply_len, reply_count);
    bool served = outcome == LIMPET_OK;
    put_rights_back(card, &before);

    if (has_fault("reply-past-its-end"))
        flip(reply, (ptrdiff_t)reply_len);
    if (has_fault("reply-past-the-answer") && served && *reply_count < reply_len)
        flip(reply, (ptrdiff_t)*reply_count);
    if (has_fault("reply-on-refusal") && !served && reply_len > 0)
        flip(reply, 0);
    if (has_fault("area-before-its-start"))
        flip(area, -1);
    if (has_fault("area-on-refusal") && !served && area_len > 0)
        flip(area, 0);
    if (has_fault("card-past-its-end"))
        flip(card, LIMPET_CARD_SIZE);
    if (has_fault("card-on-refusal") && !served)
        flip(card, LIMPET_CARD_SIZE - 1);
    if (has_fault("command-refuses-odd-addresses") && is_odd(card))
        return LIMPET_UNSOUND;
    if (has_fault("command-written") && command_len > 0)
        flip(command, 0);
    if (has_fault("random-written") && random_len > 0)
        flip(random, 0);
    if (has_fault("random-read-past-its-end") && random_len > 0)
        (void)*(volatile const uint8_t *)(random + random_len);
    if (has_fault("count-past-its-end"))
        flip(reply_count, sizeof *reply_count);
    if (has_fault("count-on-refusal") && !served)
        *reply_count = 2;
    if (has_fault("area-before-reply") && outcome == LIMPET_SHORT_REPLY && area_len != LIMPET_AREA_SIZE)
        return LIMPET_BAD_AREA;
    if (has_fault("unsound-served") && outcome == LIMPET_UNSOUND)
        return LIMPET_OK;
    if (has_fault("lengths-not-looked-at") && outcome == LIMPET_UNSOUND && lengths_alone_are_bad(card, area))
        return LIMPET_OK;
    if (has_fault("bit-2-good-by-itself") && outcome == LIMPET_UNSOUND && bit_2_alone_is_bad(card, area))
        return LIMPET_OK;
    if (has_fault("bit-2-still-bad") && served && has_bit_2(card))
        return LIMPET_UNSOUND;
    if (has_fault("length-byte-not-counted") && served && command_len > 5 && command[1] == 0xE2)
        count_one_less(card, command[3] >> 3);
    if (served)
        spoil_waiting(card, &before, command, command_len, reply, reply_count);
    if (outcome == LIMPET_UNSOUND && (waiting_alone_is_bad(card, area) || folders_alone_are_bad(card, area)))
        return LIMPET_OK;
    if (outcome == LIMPET_UNSOUND && codes_alone_are_bad(card, area))
        return LIMPET_OK;
    if (served && (refuses_folders(card) || refuses_codes(&before)))
        return LIMPET_UNSOUND;
    if (served) {
        spoil_folders(card, &before, command, command_len);
        spoil_codes(card, area, &before, command, command_len, reply, reply_count);
    }
    return outcome;
}

uint8_t __wrap_limpet_reset(struct limpet_card *card, const uint8_t *area, size_t area_len)
{
    struct layout before;

    memcpy(&before, card, sizeof before);
    uint8_t outcome = __real_limpet_reset(card, area, area_len);

    if (has_fault("reset-stays-in-the-folder") && outcome == LIMPET_OK)
        ((struct layout *)card)->session.folder = before.session.folder;
    if (has_fault("reset-forgets-folders") && outcome == LIMPET_OK)
        memset((uint8_t *)card + offsetof(struct layout, directory.folders), 0, sizeof before.directory.folders + 1);
    if (has_fault("reset-takes-any-folder") && outcome == LIMPET_UNSOUND && before.session.folder > before.directory.number)
        return LIMPET_OK;
    if (has_fault("reset-restores-the-tries-of-codes") && outcome == LIMPET_OK)
        ((struct layout *)card)->credentials[TRANSPORT].tries.left = before.credentials[TRANSPORT].tries.limit;
    if (has_fault("reset-bit-3-still-bad") && outcome == LIMPET_OK && before.directory.count > 0 && asks_code(before.directory.files[0].read))
        return LIMPET_UNSOUND;
    if (has_fault("reset-keeps-what-waits") && outcome == LIMPET_OK)
        ((struct layout *)card)->response = before.response;
    if (has_fault("reset-forgets-the-mode") && outcome == LIMPET_OK)
        ((struct layout *)card)->response.mode = 0;
    if (has_fault("reset-takes-any-mode") && outcome == LIMPET_UNSOUND && before.response.mode > 1)
        return LIMPET_OK;
    if (has_fault("reset-changes-the-key") && outcome == LIMPET_OK)
        flip(card, 0);
    if (has_fault("reset-refuses-odd-addresses") && is_odd(card))
        return LIMPET_UNSOUND;
    if (has_fault("reset-on-refusal") && outcome != LIMPET_OK)
        flip(card, 0);
    if (has_fault("reset-writes-the-area") && area_len > 0)
        flip(area, (ptrdiff_t)area_len - 1);
    if (has_fault("reset-area-past-its-end"))
        flip(area, (ptrdiff_t)area_len);
    if (has_fault("reset-takes-any-area") && outcome == LIMPET_BAD_AREA)
        return LIMPET_OK;
    if (has_fault("reset-unsound-before-area") && outcome == LIMPET_BAD_AREA && is_blank(card))
        return LIMPET_UNSOUND;
    if (has_fault("reset-bit-2-good-by-itself") && outcome == LIMPET_UNSOUND && bit_2_alone_is_bad(card, area))
        return LIMPET_OK;
    if (has_fault("reset-bit-2-still-bad") && outcome == LIMPET_OK && has_bit_2(card))
        return LIMPET_UNSOUND;
    if (has_fault("reset-lengths-not-looked-at") && outcome == LIMPET_UNSOUND && lengths_alone_are_bad(card, area))
        return LIMPET_OK;
    return outcome;
}

/* Which line of a text is the session's, from 0 on: it stands behind those of the credentials. */
enum { SESSION_LINE = CREDENTIALS };

/* As where a writer takes lower-case digits. */
static void lower_first_letter(uint8_t *text, size_t count)
{
    for (size_t i = 0; i < count; i++)
        if ('A' <= text[i] && text[i] <= 'F') {
            text[i] = (uint8_t)(text[i] + ('a' - 'A'));
            return;
        }
}

/* Where the line of that number begins, from 0 on. The text has it. */
static uint8_t *start_of(uint8_t *text, size_t count, unsigned number)
{
    uint8_t *at = text;

    for (unsigned i = 0; i < number; i++)
        at = (uint8_t *)memchr(at, '\n', count - (size_t)(at - text)) + 1;
    return at;
}

/* As where a writer has two credentials in the other order: the line of that number and the one behind it. */
static void swap_lines(uint8_t *text, size_t count, unsigned number)
{
    uint8_t *first = start_of(text, count, number), *next = start_of(text, count, number + 1);
    uint8_t second[LIMPET_TEXT_SIZE];
    size_t first_length = (size_t)(next - first), second_length = (size_t)(start_of(text, count, number + 2) - next);

    memcpy(second, next, second_length);
    memmove(first + second_length, first, first_length);
    memcpy(first, second, second_length);
}

/* As where a writer has the credentials of before R-9. */
static void drop_transport_key(uint8_t *text, size_t *count)
{
    uint8_t *line = start_of(text, *count, TRANSPORT), *next = start_of(text, *count, TRANSPORT + 1);

    memmove(line, next, *count - (size_t)(next - text));
    *count -= (size_t)(next - line);
}

/* As where a writer has the old form: without the root at the end of lines. */
static void drop_roots(uint8_t *text, size_t *count)
{
    size_t kept = 0;

    for (size_t i = 0; i < *count; i++)
        if (i + 6 <= *count && memcmp(text + i, "\t3F00\n", 6) == 0)
            i += 4;
        else
            text[kept++] = text[i];
    *count = kept;
}

/* As where a writer begins with the folder that was made last: their lines stand behind the session's, each of 8 bytes. */
static void swap_folders(const struct limpet_card *card, uint8_t *text, size_t count)
{
    uint8_t number = ((const struct layout *)card)->directory.number, first[8];

    if (number < 2)
        return;
    uint8_t *at = start_of(text, count, SESSION_LINE + 1);
    uint8_t *last = at + 8 * (number - 1);
    memcpy(first, at, sizeof first);
    memcpy(at, last, sizeof first);
    memcpy(last, first, sizeof first);
}

uint8_t __wrap_limpet_to_text(const struct limpet_card *card, const uint8_t *area, size_t area_len,
                              uint8_t *text, size_t text_len, size_t *text_count)
{
    uint8_t outcome = __real_limpet_to_text(card, area, area_len, text, text_len, text_count);
    bool served = outcome == LIMPET_OK;

    if (has_text_fault("text-past-its-end"))
        flip(text, (ptrdiff_t)text_len);
    if (has_text_fault("text-past-the-count") && served && *text_count < text_len)
        flip(text, (ptrdiff_t)*text_count);
    if (has_text_fault("text-last-byte-of-the-buffer") && served && *text_count < text_len)
        flip(text, (ptrdiff_t)text_len - 1);
    if (has_text_fault("text-on-refusal") && !served && text_len > 0)
        flip(text, 0);
    if (has_text_fault("text-on-short-buffer") && outcome == LIMPET_SHORT_TEXT && text_len > 1000)
        flip(text, 1000);
    if (has_text_fault("text-count-on-refusal") && !served)
        *text_count = 1;
    if (has_text_fault("text-count-kept-on-unsound") && outcome == LIMPET_UNSOUND)
        *text_count = text_len;
    if (has_text_fault("text-count-past-its-end"))
        flip(text_count, sizeof *text_count);
    if (has_text_fault("text-count-one-less") && served)
        *text_count -= 1;
    if (has_text_fault("text-writes-the-card") && served)
        flip(card, LIMPET_CARD_SIZE - 1);
    if (has_text_fault("text-writes-the-area") && area_len > 0)
        flip(area, (ptrdiff_t)area_len - 1);
    if (has_text_fault("text-lower-case") && served)
        lower_first_letter(text, *text_count);
    if (has_text_fault("text-pins-swapped") && served)
        swap_lines(text, *text_count, ADMIN);
    if (has_text_fault("text-transport-key-before-the-user-pin") && served)
        swap_lines(text, *text_count, USER);
    if (has_text_fault("text-without-the-transport-key") && served)
        drop_transport_key(text, text_count);
    if (has_text_fault("text-in-the-old-form") && served)
        drop_roots(text, text_count);
    if (has_text_fault("text-folders-in-another-order") && served)
        swap_folders(card, text, *text_count);
    if (has_text_fault("text-just-fits-refused") && served && *text_count == text_len)
        return LIMPET_SHORT_TEXT;
    if (has_text_fault("text-short-before-unsound") && outcome == LIMPET_UNSOUND && text_len == 0)
        return LIMPET_SHORT_TEXT;
    if (has_text_fault("text-short-before-area") && outcome == LIMPET_BAD_AREA && text_len == 0)
        return LIMPET_SHORT_TEXT;
    if (has_text_fault("text-unsound-before-area") && outcome == LIMPET_BAD_AREA && is_blank(card))
        return LIMPET_UNSOUND;
    if (has_text_fault("text-of-an-unsound-card") && outcome == LIMPET_UNSOUND)
        return LIMPET_OK;
    return outcome;
}

enum { LONGEST_TEXT = 65536 };

/* A text that a reader might take for another one: where the first is refused the second is read in its place. */
struct lenient {
    uint8_t bytes[LONGEST_TEXT + 1];
    size_t length;
};

static void upper_case(struct lenient *t)
{
    for (size_t i = 0; i < t->length; i++)
        if ('a' <= t->bytes[i] && t->bytes[i] <= 'f')
            t->bytes[i] = (uint8_t)(t->bytes[i] - ('a' - 'A'));
}

/* Without those bytes that stand before one of these. */
static void drop_before(struct lenient *t, char dropped, const char *next)
{
    size_t kept = 0;

    for (size_t i = 0; i < t->length; i++)
        if (t->bytes[i] != dropped || i + 1 == t->length || t->bytes[i + 1] == 0 || strchr(next, t->bytes[i + 1]) == NULL)
            t->bytes[kept++] = t->bytes[i];
    t->length = kept;
}

static void add_newline(struct lenient *t)
{
    t->bytes[t->length++] = '\n';
}

static void drop_last(struct lenient *t)
{
    if (t->length > 0)
        t->length--;
}

static void drop_zeros(struct lenient *t)
{
    size_t kept = 0;

    for (size_t i = 0; i < t->length; i++) {
        bool leads = t->bytes[i] == '0' && i > 0 && t->bytes[i - 1] == '\t';
        if (!leads || i + 1 == t->length || t->bytes[i + 1] < '0' || t->bytes[i + 1] > '9')
            t->bytes[kept++] = t->bytes[i];
    }
    t->length = kept;
}

/* As where a limit of 129 is good: it is read as 128, and so are tries. */
static void lower_129(struct lenient *t)
{
    for (size_t i = 0; i + 4 < t->length; i++)
        if (memcmp(t->bytes + i, "\t129", 4) == 0)
            t->bytes[i + 3] = '8';
}

/* As where a reader stops at the first byte 00. */
static void cut_at_zero(struct lenient *t)
{
    uint8_t *zero = memchr(t->bytes, 0, t->length);

    if (zero != NULL)
        t->length = (size_t)(zero - t->bytes);
}

/* Where the mode stands: the sixth field of the session's line. NULL where there is none. */
static uint8_t *mode_in(struct lenient *t)
{
    uint8_t *at = t->bytes, *end = t->bytes + t->length;

    for (int i = 0; i < SESSION_LINE + 5 && at != NULL; i++) {
        at = memchr(at, i < SESSION_LINE ? '\n' : '\t', (size_t)(end - at));
        at = at != NULL ? at + 1 : NULL;
    }
    return at != NULL && at < end ? at : NULL;
}

/* As where the mode, when it is this one, is taken for 1. */
static void take_for_mode_1(struct lenient *t, char mode)
{
    uint8_t *at = mode_in(t);

    if (at != NULL && *at == (uint8_t)mode)
        *at = '1';
}

/* As where one byte more may wait than there is room for: the first is left out. Behind them stands the folder. */
static void drop_surplus(struct lenient *t)
{
    uint8_t *mode = mode_in(t), *end = t->bytes + t->length;
    uint8_t *newline = mode != NULL ? memchr(mode, '\n', (size_t)(end - mode)) : NULL;

    if (newline == NULL || newline - mode != 2 + 2 * (WAITING_ROOM + 1) + 5)
        return;
    memmove(mode + 2, mode + 4, (size_t)(end - (mode + 4)));
    t->length -= 2;
}

/* The line that begins there: where it ends, without its newline, and how many tabs are in it. */
struct text_line {
    uint8_t *at, *end;
    unsigned tabs;
};

static struct text_line line_at(struct lenient *t, uint8_t *at)
{
    uint8_t *end = memchr(at, '\n', (size_t)(t->bytes + t->length - at));
    struct text_line l = { at, end != NULL ? end : t->bytes + t->length, 0 };

    for (uint8_t *p = l.at; p < l.end; p++)
        l.tabs += *p == '\t';
    return l;
}

/* Puts bytes in the place of others, where there is room for them. */
static void put(struct lenient *t, uint8_t *at, size_t old, const char *new)
{
    size_t length = strlen(new), rest = (size_t)(t->bytes + t->length - at) - old;

    if (t->length - old + length > LONGEST_TEXT)
        return;
    memmove(at + length, at + old, rest);
    memcpy(at, new, length);
    t->length += length - old;
}

static bool ends_with(const struct text_line *l, const char *end)
{
    size_t length = strlen(end);

    return (size_t)(l->end - l->at) >= length && memcmp(l->end - length, end, length) == 0;
}

/* Whether some line is a folder's with this FID, or it is the root's. */
static bool is_home(struct lenient *t, const uint8_t *fid)
{
    for (uint8_t *at = t->bytes; at < t->bytes + t->length;) {
        struct text_line l = line_at(t, at);
        if (l.tabs == 1 && l.end - l.at == 7 && memcmp(l.at, fid, 4) == 0)
            return true;
        at = l.end + 1;
    }
    return memcmp(fid, "3F00", 4) == 0;
}

/* As where a reader takes a line in another form of R-8. The session's line has 7 tabs, a file's 4 and a folder's 1. */
static void take_folders(struct lenient *t)
{
    unsigned folders = 0, number = 0;

    for (uint8_t *at = t->bytes; at < t->bytes + t->length; number++) {
        struct text_line l = line_at(t, at);
        bool is_session = number == SESSION_LINE, is_behind = number > SESSION_LINE;
        bool has_home = (is_session && l.tabs == 7) || (is_behind && l.tabs == 4);
        if (has_text_fault("reader-takes-the-old-form") && ((is_session && l.tabs == 6) || (is_behind && l.tabs == 3)))
            put(t, l.end, 0, "\t3F00");
        if (has_text_fault("reader-takes-a-session-without-a-folder") && is_session && l.tabs == 6)
            put(t, l.end, 0, "\t3F00");
        if (has_text_fault("reader-takes-dash-for-the-root") && has_home && ends_with(&l, "\t-"))
            put(t, l.end - 1, 1, "3F00");
        if (has_text_fault("reader-takes-0000-for-the-root") && has_home && ends_with(&l, "\t0000"))
            put(t, l.end - 4, 4, "3F00");
        if (has_text_fault("reader-takes-an-unknown-folder") && has_home && l.end - l.at > 4 && !is_home(t, l.end - 4))
            put(t, l.end - 4, 4, "3F00");
        if (has_text_fault("reader-takes-short-creation-rights") && is_behind && l.tabs == 1 && l.end - l.at == 6)
            put(t, l.end - 1, 0, "0");
        if (has_text_fault("reader-takes-any-creation-right") && is_behind && l.tabs == 1 && l.end - l.at == 7)
            put(t, l.end - 2, 2, "00");
        l = line_at(t, at);
        at = l.end + 1;
        if (is_behind && l.tabs == 1 && ++folders == FOLDERS + 1 && has_text_fault("reader-takes-a-fifth-folder")
            && at <= t->bytes + t->length) {
            put(t, l.at, (size_t)(at - l.at), "");
            at = l.at;
        }
    }
}

/* As where a reader takes a text of before R-9: the session's line stands in the place of the transport key's. */
static void take_three_credentials(struct lenient *t)
{
    uint8_t *at = t->bytes;

    for (unsigned i = 0; i < TRANSPORT && at < t->bytes + t->length; i++)
        at = line_at(t, at).end + 1;
    if (at < t->bytes + t->length && line_at(t, at).tabs > 2)
        put(t, at, 0, "101112131415161718191A1B1C1D1E1F\t10\t10\n");
}

static void be_lenient(struct lenient *t)
{
    take_folders(t);
    if (has_text_fault("reader-takes-three-credentials"))
        take_three_credentials(t);
    if (has_text_fault("reader-takes-lower-case"))
        upper_case(t);
    if (has_text_fault("reader-takes-cr"))
        drop_before(t, '\r', "\n");
    if (has_text_fault("reader-takes-trailing-blanks"))
        drop_before(t, ' ', "\t\n");
    if (has_text_fault("reader-takes-trailing-tabs"))
        drop_before(t, '\t', "\n");
    if (has_text_fault("reader-takes-plus-signs"))
        drop_before(t, '+', "0123456789");
    if (has_text_fault("reader-takes-empty-lines"))
        drop_before(t, '\n', "\n");
    if (has_text_fault("reader-takes-no-last-newline"))
        add_newline(t);
    if (has_text_fault("reader-takes-a-byte-more"))
        drop_last(t);
    if (has_text_fault("reader-takes-leading-zeros"))
        drop_zeros(t);
    if (has_text_fault("reader-takes-limit-129"))
        lower_129(t);
    if (has_text_fault("reader-stops-at-zero"))
        cut_at_zero(t);
    if (has_text_fault("reader-takes-mode-2"))
        take_for_mode_1(t, '2');
    if (has_text_fault("reader-takes-waiting-bytes-in-mode-0"))
        take_for_mode_1(t, '0');
    if (has_text_fault("reader-takes-257-waiting-bytes"))
        drop_surplus(t);
}

/* As where a reader leaves what was in the area past the last file. */
static void leave_rest(const struct limpet_card *card, uint8_t *area, const uint8_t *before)
{
    struct layout c;
    unsigned taken = 0;

    memcpy(&c, card, sizeof c);
    for (size_t i = 0; i < c.directory.count; i++)
        taken += file_size(&c.directory.files[i]);
    memcpy(area + taken, before + taken, LIMPET_AREA_SIZE - taken);
}

/* As where a reader takes a session for one that ended. */
static void forget(struct limpet_card *card, size_t from, size_t length)
{
    memset((uint8_t *)card + from, 0, length);
}

uint8_t __wrap_limpet_from_text(struct limpet_card *card, uint8_t *area, size_t area_len,
                                const uint8_t *text, size_t text_len)
{
    static uint8_t before[LIMPET_AREA_SIZE];
    static struct lenient other;

    if (area_len == LIMPET_AREA_SIZE)
        memcpy(before, area, sizeof before);
    uint8_t outcome = __real_limpet_from_text(card, area, area_len, text, text_len);

    if (outcome == LIMPET_BAD_TEXT && getenv("FAULT") != NULL && text_len <= LONGEST_TEXT && text_len > 0) {
        memcpy(other.bytes, text, text_len);
        other.length = text_len;
        be_lenient(&other);
        outcome = __real_limpet_from_text(card, area, area_len, other.bytes, other.length);
    }
    bool served = outcome == LIMPET_OK;

    if (has_text_fault("reader-leaves-a-card") && !served)
        flip(card, 0);
    if (has_text_fault("reader-leaves-a-card-on-bad-area") && outcome == LIMPET_BAD_AREA)
        flip(card, LIMPET_CARD_SIZE - 1);
    if (has_text_fault("reader-clears-on-refusal") && !served && area_len > 0)
        memset(area, 0, area_len);
    if (has_text_fault("reader-writes-on-refusal") && outcome == LIMPET_BAD_TEXT)
        flip(area, LIMPET_AREA_SIZE - 1);
    if (has_text_fault("reader-leaves-a-byte") && served)
        flip(area, LIMPET_AREA_SIZE - 1);
    if (has_text_fault("reader-leaves-the-rest") && served)
        leave_rest(card, area, before);
    if (has_text_fault("reader-forgets-the-challenge") && served)
        forget(card, offsetof(struct layout, session.challenge), CHALLENGE_ROOM + 1);
    if (has_text_fault("reader-forgets-the-current-file") && served)
        forget(card, offsetof(struct layout, session.current), 1);
    if (has_text_fault("reader-forgets-the-rights") && served)
        forget(card, offsetof(struct layout, session.rights), RIGHTS);
    if (has_text_fault("reader-forgets-the-transport-key") && served)
        forget(card, offsetof(struct layout, credentials[TRANSPORT].value), VALUE_ROOM);
    if (has_text_fault("reader-gives-codes-all-tries") && served)
        ((struct layout *)card)->credentials[TRANSPORT].tries.left = ((struct layout *)card)->credentials[TRANSPORT].tries.limit;
    if (has_text_fault("reader-forgets-what-waits") && served)
        forget(card, offsetof(struct layout, response.count1), 2 + WAITING_ROOM);
    if (has_text_fault("reader-forgets-the-mode") && served)
        forget(card, offsetof(struct layout, response.mode), 1);
    if (has_text_fault("reader-forgets-the-current-folder") && served)
        forget(card, offsetof(struct layout, session.folder), 1);
    if (has_text_fault("reader-forgets-the-folders") && served)
        forget(card, offsetof(struct layout, directory.folders), FOLDERS * sizeof(struct folder) + 1);
    for (size_t i = 0; i < FILES && has_text_fault("reader-puts-all-files-in-the-root") && served; i++)
        forget(card, offsetof(struct layout, directory.files) + i * sizeof(struct file) + offsetof(struct file, folder), 1);
    if (has_text_fault("reader-writes-the-text") && text_len > 0)
        flip(text, (ptrdiff_t)text_len - 1);
    if (has_text_fault("reader-writes-past-the-card"))
        flip(card, LIMPET_CARD_SIZE);
    if (has_text_fault("reader-writes-past-the-area"))
        flip(area, (ptrdiff_t)area_len);
    if (has_text_fault("reader-reads-past-the-text") && text_len > 0)
        (void)*(volatile const uint8_t *)(text + text_len);
    if (has_text_fault("reader-refuses-odd-addresses") && is_odd(card))
        return LIMPET_BAD_TEXT;
    if (has_text_fault("reader-text-before-area") && outcome == LIMPET_BAD_AREA && text_len == 0)
        return LIMPET_BAD_TEXT;
    return outcome;
}

/* ---- texts that are converted ---- */

static void be_text(struct lenient *t, const uint8_t *text, size_t length)
{
    if (length > 0)
        memcpy(t->bytes, text, length);
    t->length = length;
}

/* Without the last field of a line. */
static void drop_last_field(struct lenient *t, struct text_line l)
{
    uint8_t *at = l.end;

    while (at > l.at && at[-1] != '\t')
        at--;
    if (at > l.at)
        put(t, at - 1, (size_t)(l.end - (at - 1)), "");
}

/* Without the lines of folders. */
static void drop_folders(struct lenient *t)
{
    for (uint8_t *at = t->bytes; at < t->bytes + t->length;) {
        struct text_line l = line_at(t, at);
        if (l.tabs == 1 && l.end < t->bytes + t->length)
            put(t, l.at, (size_t)(l.end + 1 - l.at), "");
        else
            at = l.end + 1;
    }
}

static bool has_folder_line(struct lenient *t)
{
    for (uint8_t *at = t->bytes; at < t->bytes + t->length; at = line_at(t, at).end + 1)
        if (line_at(t, at).tabs == 1)
            return true;
    return false;
}

/* Gives the files' lines, and the session's too, another folder, in a new text. */
static void set_homes(struct lenient *t, const char *fid, bool session_too)
{
    unsigned number = 0;

    for (uint8_t *at = t->bytes; at < t->bytes + t->length; number++) {
        struct text_line l = line_at(t, at);
        if ((l.tabs == 7 && session_too) || (number > SESSION_LINE && l.tabs == 4))
            put(t, l.end - 4, 4, fid);
        at = l.end + 1;
    }
}

static bool has_file_elsewhere(struct lenient *t)
{
    for (uint8_t *at = t->bytes; at < t->bytes + t->length; at = line_at(t, at).end + 1) {
        struct text_line l = line_at(t, at);
        if (l.tabs == 4 && !ends_with(&l, "\t3F00"))
            return true;
    }
    return false;
}

/* The outcome of a call that writes this text. */
static uint8_t put_out(const struct lenient *t, uint8_t *text, size_t text_len, size_t *text_count)
{
    if (t->length > text_len)
        return LIMPET_SHORT_TEXT;
    if (t->length > 0)
        memcpy(text, t->bytes, t->length);
    *text_count = t->length;
    return LIMPET_OK;
}

/* Faults that either call may have, when it is done. */
static uint8_t spoil_conversion(uint8_t outcome, const uint8_t *given, size_t given_len, uint8_t *text, size_t text_len, size_t *text_count)
{
    bool served = outcome == LIMPET_OK;

    if (has_text_fault("conversion-past-its-end"))
        flip(text, (ptrdiff_t)text_len);
    if (has_text_fault("conversion-past-the-count") && served && *text_count < text_len)
        flip(text, (ptrdiff_t)*text_count);
    if (has_text_fault("conversion-last-byte-of-the-buffer") && served && *text_count < text_len)
        flip(text, (ptrdiff_t)text_len - 1);
    if (has_text_fault("conversion-on-bad-text") && outcome == LIMPET_BAD_TEXT && text_len > 0)
        flip(text, 0);
    if (has_text_fault("conversion-on-folder") && outcome == LIMPET_DIRECTORY && text_len > 0)
        flip(text, 0);
    if (has_text_fault("conversion-on-short-buffer") && outcome == LIMPET_SHORT_TEXT && text_len > 0)
        flip(text, (ptrdiff_t)text_len - 1);
    if (has_text_fault("conversion-count-on-bad-text") && outcome == LIMPET_BAD_TEXT)
        *text_count = 1;
    if (has_text_fault("conversion-count-on-folder") && outcome == LIMPET_DIRECTORY)
        *text_count = given_len;
    if (has_text_fault("conversion-count-on-short-buffer") && outcome == LIMPET_SHORT_TEXT)
        *text_count = text_len;
    if (has_text_fault("conversion-count-past-its-end"))
        flip(text_count, sizeof *text_count);
    if (has_text_fault("conversion-count-one-less") && served)
        *text_count -= 1;
    if (has_text_fault("conversion-writes-the-given-text") && given_len > 0)
        flip(given, (ptrdiff_t)given_len - 1);
    if (has_text_fault("conversion-reads-past-the-text") && given_len > 0)
        (void)*(volatile const uint8_t *)(given + given_len);
    if (has_text_fault("conversion-lower-case") && served)
        lower_first_letter(text, *text_count);
    if (has_text_fault("conversion-pins-swapped") && served)
        swap_lines(text, *text_count, ADMIN);
    if (has_text_fault("conversion-transport-key-before-the-user-pin") && served)
        swap_lines(text, *text_count, USER);
    if (has_text_fault("conversion-without-the-transport-key") && served)
        drop_transport_key(text, text_count);
    if (has_text_fault("conversion-just-fits-refused") && served && *text_count == text_len)
        return LIMPET_SHORT_TEXT;
    if (has_text_fault("conversion-short-before-bad-text") && outcome == LIMPET_BAD_TEXT && text_len == 0)
        return LIMPET_SHORT_TEXT;
    return outcome;
}

/* As where an old text may have what only a new one has. */
static void take_new_parts(struct lenient *t)
{
    unsigned number = 0;

    for (uint8_t *at = t->bytes; at < t->bytes + t->length; number++) {
        struct text_line l = line_at(t, at);
        if (has_text_fault("to-new-takes-a-folder-on-the-session") && number == SESSION_LINE && l.tabs == 7)
            drop_last_field(t, l);
        if (has_text_fault("to-new-takes-folders-on-files") && number > SESSION_LINE && l.tabs == 4)
            drop_last_field(t, l);
        at = line_at(t, at).end + 1;
    }
    if (has_text_fault("to-new-takes-folders"))
        drop_folders(t);
    if (has_text_fault("to-new-takes-three-credentials"))
        take_three_credentials(t);
}

uint8_t __wrap_limpet_text_to_new(const uint8_t *old, size_t old_len, uint8_t *text, size_t text_len, size_t *text_count)
{
    static struct lenient other;
    uint8_t outcome = __real_limpet_text_to_new(old, old_len, text, text_len, text_count);

    if (getenv("FAULT") != NULL && old_len <= LONGEST_TEXT) {
        be_text(&other, old, old_len);
        if (has_text_fault("to-new-takes-a-new-text") && outcome == LIMPET_BAD_TEXT
            && __real_limpet_text_to_old(old, old_len, other.bytes, LONGEST_TEXT, &other.length) == LIMPET_OK) {
            be_text(&other, old, old_len);
            outcome = put_out(&other, text, text_len, text_count);
        }
        if (outcome == LIMPET_BAD_TEXT) {
            be_text(&other, old, old_len);
            take_new_parts(&other);
            outcome = __real_limpet_text_to_new(other.bytes, other.length, text, text_len, text_count);
        }
        if (outcome == LIMPET_OK) {
            be_text(&other, text, *text_count);
            if (has_text_fault("to-new-puts-files-elsewhere"))
                set_homes(&other, "5101", false);
            if (has_text_fault("to-new-leaves-the-root"))
                set_homes(&other, "5101", true);
            outcome = put_out(&other, text, text_len, text_count);
        }
    }
    return spoil_conversion(outcome, old, old_len, text, text_len, text_count);
}

uint8_t __wrap_limpet_text_to_old(const uint8_t *given, size_t given_len, uint8_t *text, size_t text_len, size_t *text_count)
{
    static struct lenient other;
    uint8_t outcome = __real_limpet_text_to_old(given, given_len, text, text_len, text_count);

    if (getenv("FAULT") != NULL && given_len <= LONGEST_TEXT) {
        if (has_text_fault("to-old-takes-an-old-text") && outcome == LIMPET_BAD_TEXT
            && __real_limpet_text_to_new(given, given_len, other.bytes, LONGEST_TEXT, &other.length) == LIMPET_OK) {
            be_text(&other, given, given_len);
            outcome = put_out(&other, text, text_len, text_count);
        }
        be_text(&other, given, given_len);
        if (has_text_fault("to-old-folder-before-bad-text") && outcome == LIMPET_BAD_TEXT && has_folder_line(&other))
            outcome = LIMPET_DIRECTORY;
        if (has_text_fault("to-old-short-before-folder") && outcome == LIMPET_DIRECTORY && text_len == 0)
            outcome = LIMPET_SHORT_TEXT;
        if (has_text_fault("to-old-folder-after-short") && outcome == LIMPET_DIRECTORY && text_len < given_len)
            outcome = LIMPET_SHORT_TEXT;
        if (has_text_fault("to-old-folder-is-a-bad-text") && outcome == LIMPET_DIRECTORY)
            outcome = LIMPET_BAD_TEXT;
        bool loses = has_text_fault("to-old-loses-folders");
        loses = loses || (has_text_fault("to-old-loses-empty-folders") && !has_file_elsewhere(&other));
        if (loses && outcome == LIMPET_DIRECTORY) {
            set_homes(&other, "3F00", true);
            drop_folders(&other);
            outcome = __real_limpet_text_to_old(other.bytes, other.length, text, text_len, text_count);
        }
    }
    return spoil_conversion(outcome, given, given_len, text, text_len, text_count);
}

/* ---- codes for the board ---- */

/* As where a library works codes out in another way. */
static void other_code(const uint8_t *key, const uint8_t *challenge, size_t challenge_len, const uint8_t *message, size_t message_len,
                       uint8_t *code)
{
    static const uint8_t zeros[CHALLENGE_ROOM];
    uint8_t filled[CHALLENGE_ROOM];

    if (has_code_fault("code-from-00-on"))
        code_of(key, zeros, sizeof zeros, message, message_len, code);
    memset(filled, 0xFF, sizeof filled);
    memcpy(filled, challenge, challenge_len);
    if (has_code_fault("code-challenge-filled-with-ff"))
        code_of(key, filled, sizeof filled, message, message_len, code);
    memset(filled, 0, sizeof filled);
    memcpy(filled + sizeof filled - challenge_len, challenge, challenge_len);
    if (has_code_fault("code-challenge-at-the-end"))
        code_of(key, filled, sizeof filled, message, message_len, code);
    if (has_code_fault("code-of-the-last-block-alone") && message_len >= 16)
        code_of(key, challenge, challenge_len, message + message_len / 16 * 16, message_len % 16, code);
    if (has_code_fault("code-without-padding-at-16") && message_len % 16 == 0 && message_len > 0)
        code[0] ^= 1;
    if (has_code_fault("code-of-256-bytes-at-most") && message_len > 256)
        code_of(key, challenge, challenge_len, message, 256, code);
    if (has_code_fault("code-with-a-bit-wrong"))
        code[3] ^= 0x80;
}

uint8_t __wrap_limpet_code(const uint8_t *key, size_t key_len, const uint8_t *challenge, size_t challenge_len,
                           const uint8_t *message, size_t message_len, uint8_t *code, size_t code_len)
{
    uint8_t outcome = __real_limpet_code(key, key_len, challenge, challenge_len, message, message_len, code, code_len);
    bool served = outcome == LIMPET_OK;

    if (served)
        other_code(key, challenge, challenge_len, message, message_len, code);
    if (has_code_fault("code-past-its-end"))
        flip(code, (ptrdiff_t)code_len);
    if (has_code_fault("code-before-its-start"))
        flip(code, -1);
    if (has_code_fault("code-on-refusal") && !served && code_len > 0)
        flip(code, (ptrdiff_t)code_len - 1);
    if (has_code_fault("code-writes-the-key") && key_len > 0)
        flip(key, 0);
    if (has_code_fault("code-writes-the-challenge") && challenge_len > 0)
        flip(challenge, 0);
    if (has_code_fault("code-writes-the-message") && message_len > 0)
        flip(message, (ptrdiff_t)message_len - 1);
    if (has_code_fault("code-reads-past-the-message") && message != NULL)
        (void)*(volatile const uint8_t *)(message + message_len);
    if (has_code_fault("code-reads-before-the-message") && message != NULL)
        (void)*(volatile const uint8_t *)(message - 1);
    if (has_code_fault("code-reads-16-bytes-of-the-challenge") && challenge_len > 0)
        (void)*(volatile const uint8_t *)(challenge + 15);
    if (has_code_fault("code-reads-past-the-key") && key_len > 0)
        (void)*(volatile const uint8_t *)(key + key_len);
    if (has_code_fault("code-with-a-longer-key") && key_len > 16 && !served)
        return LIMPET_OK;
    if (has_code_fault("code-with-a-challenge-of-12") && challenge_len == 12 && !served)
        return LIMPET_OK;
    if (has_code_fault("code-with-no-challenge") && challenge_len == 0 && key_len == 16 && code_len == 4)
        return LIMPET_OK;
    if (has_code_fault("code-of-8-bytes") && code_len == 8 && !served)
        return LIMPET_OK;
    if (has_code_fault("code-refuses-no-message") && message_len == 0 && served)
        return LIMPET_BAD_LENGTH;
    return outcome;
}
