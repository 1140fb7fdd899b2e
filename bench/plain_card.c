/*
 * The card in plain C: what the library's calls are measured beside. It was
 * written from the papers and docs/DECISIONS.md, and not from the code in crates/,
 * as one writes C for speed and size. tests/plain holds it to tests/model.
 *
 * It has the calls of limpetnook.h that play a script, over the same bytes of a
 * card, and so takes the library's place in the programs of bench and tests/c that
 * make no others. As in the library any bytes may be lent: each call checks them
 * first.
 */
#include <string.h>

#include "layout.h"
#include "limpetnook.h"
#include "sbox.h"

enum { BINARY = 0x28, FIXED = 0x2A, VARIABLE = 0x2C, FOLDER = 0x38, CYCLIC = 0x2E };

enum { ROOT = 0, NEVER = 0x0F, CODE_BIT = 0x04, ANY_BIT = 0x02, RIGHT_BITS = 0xC1, LONGEST_RECORD = 178 };

/* A command at work. Places count from 0, and a file's place is NO_FILE where there is none. */
enum { NO_FILE = FILES };
struct call {
    struct layout *card;
    uint8_t *area;
    const uint8_t *random;
    const uint8_t *command;      /* header and, behind Lc, the data */
    unsigned form, lc, le;       /* the case, 1 to 4; of Le 00 is 256 */
    uint8_t *out;                /* where data of the answer go: to the reply, or to wait */
    unsigned count;              /* how many there are */
    uint16_t starts[FILES + 1];  /* where in the area each file begins, and what comes behind the last */
};

enum { DONE = 0x9000 };

/* ------------------------------------------------ AES-128 of FIPS 197 */

/* 4.2: times x, the four bytes of a word at once */
static uint32_t times_x(uint32_t w)
{
    return (w & 0x7F7F7F7F) << 1 ^ (w >> 7 & 0x01010101) * 0x1B;
}

static uint32_t turned(uint32_t w, int bits)
{
    return w >> bits | w << (32 - bits);
}

/* 5.1.3, of a column whose first byte is the lowest */
static uint32_t mixed(uint32_t w)
{
    uint32_t x = times_x(w);

    return x ^ turned(x ^ w, 8) ^ turned(w, 16) ^ turned(w, 24);
}

/* 5.1.1, of the lowest byte of the first, the next of the second, and so on */
static uint32_t substituted(uint32_t a, uint32_t b, uint32_t c, uint32_t d)
{
    return sbox[a & 0xFF] | (uint32_t)sbox[b >> 8 & 0xFF] << 8 | (uint32_t)sbox[c >> 16 & 0xFF] << 16 | (uint32_t)sbox[d >> 24] << 24;
}

/* 5.1, in place, with the key expanded a round at a time */
static void encipher(const uint8_t key[16], uint8_t block[16])
{
    uint32_t k[4], s[4], t[4], round_constant = 1;

    memcpy(k, key, sizeof k);
    memcpy(s, block, sizeof s);
    for (int i = 0; i < 4; i++)
        s[i] ^= k[i];
    for (int round = 1; round <= 10; round++) {
        k[0] ^= turned(substituted(k[3], k[3], k[3], k[3]), 8) ^ round_constant;
        k[1] ^= k[0];
        k[2] ^= k[1];
        k[3] ^= k[2];
        round_constant = times_x(round_constant);
        for (int i = 0; i < 4; i++)
            t[i] = substituted(s[i], s[(i + 1) % 4], s[(i + 2) % 4], s[(i + 3) % 4]);
        for (int i = 0; i < 4; i++)
            s[i] = (round < 10 ? mixed(t[i]) : t[i]) ^ k[i];
    }
    memcpy(block, s, sizeof s);
}

/* CBC over the message, 80 and 00, in a block that holds the initial value. */
static void chain(const uint8_t key[16], const uint8_t *message, size_t length, uint8_t block[16])
{
    for (; length >= 16; message += 16, length -= 16) {
        for (int i = 0; i < 16; i++)
            block[i] ^= message[i];
        encipher(key, block);
    }
    for (size_t i = 0; i < length; i++)
        block[i] ^= message[i];
    block[length] ^= 0x80;
    encipher(key, block);
}

/* ---------------------------------------------------------- soundness */

static uint64_t word_at(const uint8_t *bytes)
{
    uint64_t word;

    memcpy(&word, bytes, sizeof word);
    return word;
}

static bool are_zero(const uint8_t *bytes, size_t count)
{
    uint64_t all = 0;

    for (; count >= 8; bytes += 8, count -= 8)
        all |= word_at(bytes);
    for (; count > 0; bytes++, count--)
        all |= *bytes;
    return all == 0;
}

static bool are_digits(const uint8_t *bytes, size_t count)
{
    for (size_t i = 0; i < count; i++)
        if ((unsigned)bytes[i] - '0' > 9)
            return false;
    return true;
}

static bool is_limit(unsigned limit)
{
    return limit - 1 < 128;
}

static bool is_pin_length(size_t length)
{
    return 6 <= length && length <= 16;
}

/* The low five bits of a FID are 1 to 30, of a directory too. */
static bool is_fid(unsigned fid)
{
    return ((fid + 1) & 31) > 1;
}

static bool is_creation_right(unsigned right)
{
    return ((right & ~0xC3u) == 0 && right != ANY_BIT) || right == NEVER;
}

static bool is_right(unsigned right)
{
    return ((right & ~0xC7u) == 0 && (right & ~(unsigned)CODE_BIT) != ANY_BIT) || right == NEVER;
}

static unsigned both(uint8_t high, uint8_t low)
{
    return (unsigned)high << 8 | low;
}

static unsigned fid_of(const struct file *f)
{
    return both(f->fid1, f->fid2);
}

/* The bytes of a file that is given by its size, and those of type 2C that are used. */
static unsigned size_of(const struct file *f)
{
    return both(f->size1, f->size2);
}

static unsigned used_of(const struct file *f)
{
    return both(f->used1, f->used2);
}

static unsigned waiting_of(const struct response *r)
{
    return both(r->count1, r->count2);
}

/* The bytes that a file of that type takes, 0 where there is none of such a size. */
static unsigned extent_of(uint8_t type, uint8_t size1, uint8_t size2)
{
    unsigned size = both(size1, size2);

    switch (type) {
    case BINARY:
        return size <= LIMPET_AREA_SIZE ? size : 0;
    case VARIABLE:
        return 2 <= size && size <= LIMPET_AREA_SIZE ? size : 0;
    case FIXED:
    case CYCLIC:
        return 2 <= size1 && size1 <= 254 && size2 <= LONGEST_RECORD ? size1 * size2 : 0;
    default:
        return 0;
    }
}

static bool sound_tries(struct tries t, unsigned held)
{
    return is_limit(t.limit) && t.left <= t.limit && (held == 0 || (held == 1 && t.left == t.limit));
}

static bool sound_key(const struct credential *c)
{
    return c->length == LIMPET_KEY_SIZE;
}

static bool sound_pin(const struct credential *c)
{
    return is_pin_length(c->length) && are_digits(c->value, c->length) && are_zero(c->value + c->length, VALUE_ROOM - c->length);
}

static bool sound_credentials(const struct credential *c, const uint8_t *rights)
{
    return sound_key(&c[DEVICE]) && sound_tries(c[DEVICE].tries, rights[DEVICE])
        && sound_pin(&c[ADMIN]) && sound_tries(c[ADMIN].tries, rights[ADMIN])
        && sound_pin(&c[USER]) && sound_tries(c[USER].tries, rights[USER])
        && sound_key(&c[TRANSPORT]) && sound_tries(c[TRANSPORT].tries, 0);
}

/* The place of a folder among the first so many, and that number where it is not there. */
static unsigned folder_with_fid(const struct directory *d, unsigned number, unsigned fid)
{
    unsigned i = 0;

    while (i < number && both(d->folders[i].fid1, d->folders[i].fid2) != fid)
        i++;
    return i;
}

static bool has_folder(const struct directory *d, unsigned fid)
{
    return folder_with_fid(d, d->number, fid) < d->number;
}

static bool sound_folders(const struct directory *d)
{
    if (d->number > FOLDERS || !are_zero((const uint8_t *)&d->folders[d->number], (FOLDERS - d->number) * sizeof d->folders[0]))
        return false;
    for (unsigned i = 0; i < d->number; i++) {
        const struct folder *f = &d->folders[i];
        if (!is_fid(f->fid2) || !is_creation_right(f->right) || folder_with_fid(d, i, both(f->fid1, f->fid2)) < i)
            return false;
    }
    return true;
}

/* What a file knows of its records; extent: how many bytes it takes, from `bytes` on. */
static bool sound_records(const struct file *f, const uint8_t *bytes, unsigned extent)
{
    unsigned used = used_of(f), at = 0;

    if (f->type == CYCLIC)
        return used == 0 && f->held <= f->size1 && f->newest < f->size1 && (f->held > 0 || f->newest == 0);
    if ((f->held | f->newest) != 0)
        return false;
    if (f->type != VARIABLE)
        return used == 0;
    if (used > extent)
        return false;
    while (at < used) {
        if (bytes[at] - 1u >= LONGEST_RECORD)
            return false;
        at += 1u + bytes[at];
    }
    return at == used;
}

/* The files in one pass, which also tells where each of them begins. */
static bool sound_files(const struct directory *d, const uint8_t *area, uint16_t *starts)
{
    uint32_t taken[1 + FOLDERS] = { 0 }; /* SFIs, a bit each, in the root and in each folder */
    unsigned start = 0;

    if (d->count > FILES || !are_zero((const uint8_t *)&d->files[d->count], (FILES - d->count) * sizeof d->files[0]))
        return false;
    for (unsigned i = 0; i < d->count; i++) {
        const struct file *f = &d->files[i];
        unsigned extent = extent_of(f->type, f->size1, f->size2);
        uint32_t sfi = UINT32_C(1) << (f->fid2 & 31);
        starts[i] = (uint16_t)start;
        if (extent == 0 || extent > LIMPET_AREA_SIZE - start || !is_fid(f->fid2) || !is_right(f->read) || !is_right(f->write)
            || f->folder > d->number || (taken[f->folder] & sfi) != 0 || !sound_records(f, area + start, extent))
            return false;
        if (f->folder == ROOT && has_folder(d, fid_of(f)))
            return false;
        taken[f->folder] |= sfi;
        start += extent;
    }
    starts[d->count] = (uint16_t)start;
    return true;
}

static bool sound_session(const struct session *s, const struct directory *d)
{
    if (s->folder > d->number || s->current > d->count || (s->current > 0 && d->files[s->current - 1].folder != s->folder))
        return false;
    return (s->length == 0 || s->length == 4 || s->length == 8 || s->length == 16)
        && are_zero(s->challenge + s->length, CHALLENGE_ROOM - s->length);
}

static bool sound_response(const struct response *r)
{
    unsigned count = waiting_of(r);

    if (r->mode == 0)
        return count == 0 && are_zero(r->bytes, WAITING_ROOM);
    return r->mode == 1 && count <= WAITING_ROOM && are_zero(r->bytes + count, WAITING_ROOM - count);
}

static bool is_sound_card(const struct layout *c, const uint8_t *area, uint16_t *starts)
{
    return are_zero((const uint8_t *)&c->journal, sizeof c->journal) && sound_response(&c->response)
        && sound_credentials(c->credentials, c->session.rights) && sound_folders(&c->directory)
        && sound_files(&c->directory, area, starts) && sound_session(&c->session, &c->directory);
}

/* ------------------------------------------------------ what is asked */

static unsigned p1_of(const struct call *c)
{
    return c->command[2];
}

static unsigned p2_of(const struct call *c)
{
    return c->command[3];
}

static unsigned p_of(const struct call *c)
{
    return both(c->command[2], c->command[3]);
}

static const uint8_t *data_of(const struct call *c)
{
    return c->command + 5;
}

static bool is_coded(const struct call *c)
{
    return c->command[0] == 0x04;
}

/* Whether there are so many bytes of data and no Le. */
static bool has_data(const struct call *c, unsigned least, unsigned most)
{
    return c->form == 3 && least <= c->lc && c->lc <= most;
}

/* Without early way out: how long it takes does not tell where they differ. */
static bool are_same(const uint8_t *a, const uint8_t *b, size_t count)
{
    unsigned differ = 0;

    for (size_t i = 0; i < count; i++)
        differ |= a[i] ^ b[i];
    return differ == 0;
}

static bool is_allowed(const struct session *s, unsigned right)
{
    unsigned held = (unsigned)s->rights[ADMIN] << 7 | (unsigned)s->rights[USER] << 6 | s->rights[DEVICE];

    if (right == NEVER)
        return false;
    return right & ANY_BIT ? (right & held) != 0 : (right & RIGHT_BITS & ~held) == 0;
}

/* A file's right may ask for a code besides. */
static bool may_use(const struct call *c, unsigned right)
{
    return is_allowed(&c->card->session, right) && ((right & CODE_BIT) == 0 || is_coded(c));
}

/* SFI 0 is the current file. */
static unsigned file_named(const struct call *c, unsigned sfi)
{
    const struct directory *d = &c->card->directory;
    const struct session *s = &c->card->session;

    if (sfi == 0)
        return s->current > 0 ? s->current - 1u : NO_FILE;
    for (unsigned i = 0; i < d->count; i++)
        if ((d->files[i].fid2 & 31u) == sfi && d->files[i].folder == s->folder)
            return i;
    return NO_FILE;
}

static unsigned file_with_fid(const struct call *c, unsigned fid)
{
    const struct directory *d = &c->card->directory;

    for (unsigned i = 0; i < d->count; i++)
        if (fid_of(&d->files[i]) == fid && d->files[i].folder == c->card->session.folder)
            return i;
    return NO_FILE;
}

static void make_current(struct call *c, unsigned place)
{
    c->card->session.current = (uint8_t)(place + 1);
}

/* "Equal in length and bytes restores all tries, holds the right, 9000." */
static unsigned presented(struct call *c, unsigned which, bool is_right)
{
    struct tries *t = &c->card->credentials[which].tries;

    c->card->session.rights[which] = is_right;
    if (is_right) {
        t->left = t->limit;
        return DONE;
    }
    t->left--;
    return 0x63C0 | (t->left < 15 ? t->left : 15u);
}

/* The case of the commands that read or write a file, and their code: 9000 where they pass. What follows counts Lc without the code. */
static unsigned form_and_code(struct call *c, bool is_read)
{
    struct credential *key = &c->card->credentials[TRANSPORT];
    struct session *s = &c->card->session;
    uint8_t block[16];

    if (!is_coded(c))
        return c->form == (is_read ? 2u : 3u) ? DONE : 0x6700;
    if (is_read ? c->form != 4 || c->lc != LIMPET_CODE_SIZE : c->form != 3 || c->lc <= LIMPET_CODE_SIZE)
        return 0x6700;
    if (key->tries.left == 0)
        return 0x6983;
    if (s->length == 0)
        return 0x6984;
    c->lc -= LIMPET_CODE_SIZE;
    memcpy(block, s->challenge, sizeof block);
    chain(key->value, c->command, 5 + c->lc, block);
    if (!are_same(block, data_of(c) + c->lc, LIMPET_CODE_SIZE)) {
        key->tries.left--;
        return 0x6988;
    }
    key->tries.left = key->tries.limit;
    return DONE;
}

static void set_pin(struct credential *c, const uint8_t *pin, size_t length)
{
    memset(c->value, 0, sizeof c->value);
    memcpy(c->value, pin, length);
    c->length = (uint8_t)length;
}

/* ------------------------------------------------------- the commands */

static unsigned select_file(struct call *c)
{
    struct session *s = &c->card->session;
    const struct directory *d = &c->card->directory;

    if (p_of(c) != 0)
        return 0x6A86;
    if (!has_data(c, 2, 2))
        return 0x6700;
    unsigned fid = both(data_of(c)[0], data_of(c)[1]), place = file_with_fid(c, fid);
    if (place != NO_FILE) {
        make_current(c, place);
        return DONE;
    }
    unsigned folder = folder_with_fid(d, d->number, fid);
    if (folder == d->number && fid != 0x3F00)
        return 0x6A82;
    s->folder = (uint8_t)(folder < d->number ? folder + 1 : ROOT);
    s->current = 0;
    return DONE;
}

/* The checks that READ BINARY and UPDATE BINARY share: the file's place, and what there is from the offset on. */
static unsigned find_bytes(struct call *c, bool is_read, unsigned *place, uint8_t **bytes, unsigned *left)
{
    unsigned p1 = p1_of(c), sfi = 0, offset = p_of(c);

    if (p1 & 0x80) {
        if (p1 < 0x81 || p1 > 0x9E)
            return 0x6A86;
        sfi = p1 & 31;
        offset &= 0xFF;
    }
    unsigned sw = form_and_code(c, is_read);
    if (sw != DONE)
        return sw;
    *place = file_named(c, sfi);
    if (*place == NO_FILE)
        return 0x6A82;
    const struct file *f = &c->card->directory.files[*place];
    if (f->type != BINARY)
        return 0x6981;
    if (!may_use(c, is_read ? f->read : f->write))
        return 0x6982;
    if (offset >= size_of(f))
        return 0x6A84;
    *bytes = c->area + c->starts[*place] + offset;
    *left = size_of(f) - offset;
    return DONE;
}

static unsigned read_binary(struct call *c)
{
    unsigned place, left, sw;
    uint8_t *bytes;

    if ((sw = find_bytes(c, true, &place, &bytes, &left)) != DONE)
        return sw;
    unsigned wanted = c->le == 256 && left < 256 ? left : c->le;
    if (wanted > left)
        return 0x6700;
    make_current(c, place);
    memcpy(c->out, bytes, wanted);
    c->count = wanted;
    return DONE;
}

static unsigned update_binary(struct call *c)
{
    unsigned place, left, sw;
    uint8_t *bytes;

    if ((sw = find_bytes(c, false, &place, &bytes, &left)) != DONE)
        return sw;
    if (c->lc > left)
        return 0x6700;
    make_current(c, place);
    memcpy(bytes, data_of(c), c->lc);
    return DONE;
}

/* The bytes of a record and their number; NULL where the file has none of that number. */
static uint8_t *record_of(const struct file *f, uint8_t *bytes, unsigned number, unsigned *length)
{
    unsigned used = used_of(f), at = 0, place;

    *length = f->size2;
    switch (f->type) {
    case FIXED:
        return number <= f->size1 ? bytes + (number - 1) * f->size2 : NULL;
    case CYCLIC:
        if (number > f->held)
            return NULL;
        place = f->newest + 1u - number + (number > f->newest + 1u ? f->size1 : 0u);
        return bytes + place * f->size2;
    default:
        while (at < used && number-- > 1)
            at += 1u + bytes[at];
        if (at == used)
            return NULL;
        *length = bytes[at];
        return bytes + at + 1;
    }
}

/* The checks that READ RECORD and UPDATE RECORD share. */
static unsigned find_record(struct call *c, bool is_read, unsigned *place, uint8_t **record, unsigned *length)
{
    unsigned sfi = p2_of(c) >> 3;

    if (p1_of(c) == 0 || (p2_of(c) & 7) != 4 || sfi == 31)
        return 0x6A86;
    unsigned sw = form_and_code(c, is_read);
    if (sw != DONE)
        return sw;
    *place = file_named(c, sfi);
    if (*place == NO_FILE)
        return 0x6A82;
    const struct file *f = &c->card->directory.files[*place];
    if (f->type == BINARY)
        return 0x6981;
    if (!may_use(c, is_read ? f->read : f->write))
        return 0x6982;
    *record = record_of(f, c->area + c->starts[*place], p1_of(c), length);
    return *record != NULL ? DONE : 0x6A83;
}

static unsigned read_record(struct call *c)
{
    unsigned place, length, sw;
    uint8_t *record;

    if ((sw = find_record(c, true, &place, &record, &length)) != DONE)
        return sw;
    if (c->le != 256 && c->le != length)
        return 0x6C00 | length;
    make_current(c, place);
    memcpy(c->out, record, length);
    c->count = length;
    return DONE;
}

static unsigned update_record(struct call *c)
{
    unsigned place, length, sw;
    uint8_t *record;

    if ((sw = find_record(c, false, &place, &record, &length)) != DONE)
        return sw;
    if (c->lc != length)
        return 0x6700;
    make_current(c, place);
    memcpy(record, data_of(c), length);
    return DONE;
}

static unsigned append_cyclic(const struct call *c, struct file *f, uint8_t *bytes)
{
    if (c->lc != f->size2)
        return 0x6700;
    unsigned next = f->held == 0 || f->newest + 1u == f->size1 ? 0 : f->newest + 1u;
    memcpy(bytes + next * f->size2, data_of(c), c->lc);
    f->newest = (uint8_t)next;
    f->held = (uint8_t)(f->held + (f->held < f->size1));
    return DONE;
}

static unsigned append_variable(const struct call *c, struct file *f, uint8_t *bytes)
{
    unsigned used = used_of(f);

    if (c->lc > LONGEST_RECORD)
        return 0x6700;
    if (used + 1 + c->lc > size_of(f))
        return 0x6A84;
    bytes[used] = (uint8_t)c->lc;
    memcpy(bytes + used + 1, data_of(c), c->lc);
    used += 1 + c->lc;
    f->used1 = (uint8_t)(used >> 8);
    f->used2 = (uint8_t)used;
    return DONE;
}

static unsigned append_record(struct call *c)
{
    unsigned sfi = p2_of(c) >> 3;

    if (p1_of(c) != 0 || (p2_of(c) & 7) != 0 || sfi == 31)
        return 0x6A86;
    unsigned sw = form_and_code(c, false);
    if (sw != DONE)
        return sw;
    unsigned place = file_named(c, sfi);
    if (place == NO_FILE)
        return 0x6A82;
    struct file *f = &c->card->directory.files[place];
    if (f->type != CYCLIC && f->type != VARIABLE)
        return 0x6981;
    if (!may_use(c, f->write))
        return 0x6982;
    uint8_t *bytes = c->area + c->starts[place];
    sw = f->type == CYCLIC ? append_cyclic(c, f, bytes) : append_variable(c, f, bytes);
    if (sw == DONE)
        make_current(c, place);
    return sw;
}

static unsigned verify(struct call *c)
{
    if (p1_of(c) != 0 || p2_of(c) > 1)
        return 0x6A86;
    unsigned which = ADMIN + p2_of(c);
    const struct credential *pin = &c->card->credentials[which];
    if (c->form == 1) {
        if (c->card->session.rights[which])
            return DONE;
        if (pin->tries.left == 0)
            return 0x6983;
        return 0x63C0 | (pin->tries.left < 15 ? pin->tries.left : 15u);
    }
    if (!has_data(c, 6, 16))
        return 0x6700;
    if (pin->tries.left == 0)
        return 0x6983;
    if (!are_digits(data_of(c), c->lc))
        return 0x6A80;
    bool is_same = are_same(pin->value, data_of(c), c->lc);
    return presented(c, which, is_same & (c->lc == pin->length));
}

static unsigned external_authenticate(struct call *c)
{
    const struct credential *key = &c->card->credentials[DEVICE];
    uint8_t block[16];

    if (p_of(c) != 0)
        return 0x6A86;
    if (!has_data(c, 16, 16))
        return 0x6700;
    if (key->tries.left == 0)
        return 0x6983;
    if (c->card->session.length == 0)
        return 0x6984;
    memcpy(block, c->card->session.challenge, sizeof block);
    encipher(key->value, block);
    return presented(c, DEVICE, are_same(block, data_of(c), sizeof block));
}

static unsigned change_pin(struct call *c)
{
    unsigned which = ADMIN + p2_of(c);

    if (p1_of(c) != 1 || p2_of(c) > 1)
        return 0x6A86;
    if (!has_data(c, 6, 16))
        return 0x6700;
    if (!c->card->session.rights[which])
        return 0x6982;
    if (!are_digits(data_of(c), c->lc))
        return 0x6A80;
    set_pin(&c->card->credentials[which], data_of(c), c->lc);
    return DONE;
}

static unsigned reload_pin(struct call *c)
{
    struct credential *pin = &c->card->credentials[USER];

    if (p_of(c) != 0x0201)
        return 0x6A86;
    if (!has_data(c, 6, 16))
        return 0x6700;
    if (!c->card->session.rights[ADMIN])
        return 0x6982;
    if (!are_digits(data_of(c), c->lc))
        return 0x6A80;
    set_pin(pin, data_of(c), c->lc);
    pin->tries.left = pin->tries.limit;
    c->card->session.rights[USER] = 0;
    return DONE;
}

static unsigned create_folder(struct call *c)
{
    struct directory *d = &c->card->directory;
    const uint8_t *data = data_of(c);

    if (c->card->session.folder != ROOT)
        return 0x6A81;
    if ((data[1] | data[2] | data[4]) != 0 || !is_creation_right(data[3]))
        return 0x6A80;
    if (has_folder(d, p_of(c)) || file_with_fid(c, p_of(c)) != NO_FILE)
        return 0x6986;
    if (d->number == FOLDERS)
        return 0x6A84;
    d->folders[d->number++] = (struct folder){ c->command[2], c->command[3], data[3] };
    return DONE;
}

static unsigned create_file(struct call *c)
{
    struct directory *d = &c->card->directory;
    const struct session *s = &c->card->session;
    const uint8_t *data = data_of(c);

    if (!is_fid(p2_of(c)))
        return 0x6A86;
    if (!has_data(c, 5, 5))
        return 0x6700;
    if (s->folder == ROOT ? !s->rights[DEVICE] : !is_allowed(s, d->folders[s->folder - 1].right))
        return 0x6982;
    if (data[0] == FOLDER)
        return create_folder(c);
    unsigned extent = extent_of(data[0], data[1], data[2]), start = c->starts[d->count];
    if (extent == 0 || !is_right(data[3]) || !is_right(data[4]))
        return 0x6A80;
    if (file_named(c, p2_of(c) & 31) != NO_FILE || (s->folder == ROOT && has_folder(d, p_of(c))))
        return 0x6986;
    if (d->count == FILES || extent > LIMPET_AREA_SIZE - start)
        return 0x6A84;
    memset(c->area + start, 0, extent);
    d->files[d->count] = (struct file){
        .fid1 = c->command[2], .fid2 = c->command[3], .type = data[0], .size1 = data[1], .size2 = data[2],
        .read = data[3], .write = data[4], .folder = s->folder
    };
    make_current(c, d->count++);
    return DONE;
}

static void drop_challenge(struct session *s)
{
    memset(s->challenge, 0, sizeof s->challenge);
    s->length = 0;
}

/* The one command that leaves a challenge. */
static unsigned get_challenge(struct call *c)
{
    struct session *s = &c->card->session;

    drop_challenge(s);
    if (p_of(c) != 0)
        return 0x6A86;
    if (c->form != 2 || (c->le != 4 && c->le != 8 && c->le != 16))
        return 0x6700;
    memcpy(s->challenge, c->random, c->le);
    s->length = (uint8_t)c->le;
    memcpy(c->out, c->random, c->le);
    c->count = c->le;
    return DONE;
}

static void set_waiting(struct response *r, unsigned count)
{
    r->count1 = (uint8_t)(count >> 8);
    r->count2 = (uint8_t)count;
}

/* In mode 1. It leaves the challenge, and what it has not given. */
static unsigned get_response(struct call *c)
{
    struct response *r = &c->card->response;
    unsigned waiting = waiting_of(r);

    if (p_of(c) != 0)
        return 0x6A86;
    if (c->form != 2)
        return 0x6700;
    if (waiting == 0)
        return 0x6985;
    unsigned wanted = c->le == 256 ? waiting : c->le, left = waiting - wanted;
    if (wanted > waiting)
        return 0x6C00 | waiting;
    memcpy(c->out, r->bytes, wanted);
    memmove(r->bytes, r->bytes + wanted, left);
    memset(r->bytes + left, 0, wanted);
    set_waiting(r, left);
    c->count = wanted;
    return left > 0 ? 0x6100 | left : DONE;
}

/* ---------------------------------------------------------- the calls */

/* Framing. False for 6700. */
static bool is_framed(struct call *c, size_t length)
{
    if (length < 4)
        return false;
    c->form = 1;
    if (length == 4)
        return true;
    unsigned fifth = c->command[4];
    if (length == 5) {
        c->form = 2;
        c->le = fifth > 0 ? fifth : 256;
        return true;
    }
    c->lc = fifth;
    c->form = length == 5 + fifth ? 3 : 4;
    if (fifth == 0 || length > 6 + fifth || length < 5 + fifth)
        return false;
    if (c->form == 4)
        c->le = c->command[length - 1] > 0 ? c->command[length - 1] : 256;
    return true;
}

static bool is_get_response(const struct call *c)
{
    return both(c->command[0], c->command[1]) == 0x00C0 && c->card->response.mode == 1;
}

/* The list, by class and instruction, but for GET RESPONSE and GET CHALLENGE. */
static unsigned listed(struct call *c)
{
    switch (both(c->command[0], c->command[1])) {
    case 0x00A4:
        return select_file(c);
    case 0x00B0:
    case 0x04B0:
        return read_binary(c);
    case 0x00D6:
    case 0x04D6:
        return update_binary(c);
    case 0x00B2:
    case 0x04B2:
        return read_record(c);
    case 0x00DC:
    case 0x04DC:
        return update_record(c);
    case 0x00E2:
    case 0x04E2:
        return append_record(c);
    case 0x0020:
        return verify(c);
    case 0x0082:
        return external_authenticate(c);
    case 0x0024:
        return change_pin(c);
    case 0x002C:
        return reload_pin(c);
    case 0x80E0:
        return create_file(c);
    default:
        return c->command[0] == 0x00 || c->command[0] == 0x04 || c->command[0] == 0x80 ? 0x6D00 : 0x6E00;
    }
}

/* A command other than GET RESPONSE: in mode 1 its data wait, in the place of what waited. */
static unsigned settled(struct call *c, bool framed)
{
    struct response *r = &c->card->response;
    unsigned sw = 0x6700;

    if (r->mode == 1) {
        memset(r->bytes, 0, waiting_of(r));
        set_waiting(r, 0);
        c->out = r->bytes;
    }
    if (framed && both(c->command[0], c->command[1]) == 0x0084) {
        sw = get_challenge(c);
    } else {
        if (framed)
            sw = listed(c);
        drop_challenge(&c->card->session);
    }
    if (r->mode == 1 && c->count > 0) {
        set_waiting(r, c->count);
        sw = 0x6100 | (c->count & 0xFF);
        c->count = 0;
    }
    return sw;
}

uint32_t limpet_version(void)
{
    return LIMPET_VERSION;
}

size_t limpet_card_size(void)
{
    return LIMPET_CARD_SIZE;
}

uint8_t limpet_command(struct limpet_card *card, uint8_t *area, size_t area_len, const uint8_t *command, size_t command_len,
                       const uint8_t *random, size_t random_len, uint8_t *reply, size_t reply_len, size_t *reply_count)
{
    struct call c = { .card = (struct layout *)card, .area = area, .random = random, .command = command, .out = reply };

    *reply_count = 0;
    if (reply_len < LIMPET_REPLY_SIZE)
        return LIMPET_SHORT_REPLY;
    if (area_len != LIMPET_AREA_SIZE)
        return LIMPET_BAD_AREA;
    if (random_len != LIMPET_RANDOM_SIZE)
        return LIMPET_BAD_RANDOM;
    if (!is_sound_card(c.card, area, c.starts))
        return LIMPET_UNSOUND;
    bool framed = is_framed(&c, command_len);
    unsigned sw = framed && is_get_response(&c) ? get_response(&c) : settled(&c, framed);
    reply[c.count] = (uint8_t)(sw >> 8);
    reply[c.count + 1] = (uint8_t)sw;
    *reply_count = c.count + 2;
    return LIMPET_OK;
}

uint8_t limpet_reset(struct limpet_card *card, const uint8_t *area, size_t area_len)
{
    struct layout *c = (struct layout *)card;
    uint16_t starts[FILES + 1];

    if (area_len != LIMPET_AREA_SIZE)
        return LIMPET_BAD_AREA;
    if (!is_sound_card(c, area, starts))
        return LIMPET_UNSOUND;
    memset(&c->session, 0, sizeof c->session);
    memset(&c->response.count1, 0, sizeof c->response - offsetof(struct response, count1));
    return LIMPET_OK;
}

static void set_credential(struct credential *c, const uint8_t *value, size_t length, uint16_t limit)
{
    set_pin(c, value, length);
    c->tries = (struct tries){ (uint8_t)limit, (uint8_t)limit };
}

static bool is_pin(const uint8_t *pin, size_t length)
{
    return is_pin_length(length) && are_digits(pin, length);
}

uint8_t limpet_issue(struct limpet_card *card, uint8_t *area, size_t area_len,
                     const uint8_t *key, size_t key_len, uint16_t device_limit,
                     const uint8_t *admin_pin, size_t admin_pin_len, uint16_t admin_limit,
                     const uint8_t *user_pin, size_t user_pin_len, uint16_t user_limit, uint16_t mode,
                     const uint8_t *transport_key, size_t transport_key_len, uint16_t transport_limit)
{
    struct layout *c = (struct layout *)card;

    memset(c, 0, sizeof *c);
    if (area_len != LIMPET_AREA_SIZE)
        return LIMPET_BAD_AREA;
    if (key_len != LIMPET_KEY_SIZE || transport_key_len != LIMPET_KEY_SIZE
        || !is_pin(admin_pin, admin_pin_len) || !is_pin(user_pin, user_pin_len)
        || !is_limit(device_limit) || !is_limit(admin_limit) || !is_limit(user_limit) || !is_limit(transport_limit) || mode > 1)
        return LIMPET_BAD_ISSUE;
    set_credential(&c->credentials[DEVICE], key, key_len, device_limit);
    set_credential(&c->credentials[ADMIN], admin_pin, admin_pin_len, admin_limit);
    set_credential(&c->credentials[USER], user_pin, user_pin_len, user_limit);
    set_credential(&c->credentials[TRANSPORT], transport_key, transport_key_len, transport_limit);
    c->response.mode = (uint8_t)mode;
    memset(area, 0, LIMPET_AREA_SIZE);
    return LIMPET_OK;
}
