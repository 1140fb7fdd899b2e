#include "layout.h"

#include <string.h>

/* In the order of a card. */
static const struct {
    size_t from;
    const char *name;
} fields[FIELDS] = {
    { offsetof(struct layout, credentials[DEVICE]), "device key" },
    { offsetof(struct layout, credentials[DEVICE].length), "device key's length" },
    { offsetof(struct layout, credentials[DEVICE].tries), "device tries and limit" },
    { offsetof(struct layout, credentials[ADMIN]), "admin PIN" },
    { offsetof(struct layout, credentials[ADMIN].length), "admin PIN's length" },
    { offsetof(struct layout, credentials[ADMIN].tries), "admin tries and limit" },
    { offsetof(struct layout, credentials[USER]), "user PIN" },
    { offsetof(struct layout, credentials[USER].length), "user PIN's length" },
    { offsetof(struct layout, credentials[USER].tries), "user tries and limit" },
    { offsetof(struct layout, credentials[TRANSPORT]), "transport key" },
    { offsetof(struct layout, credentials[TRANSPORT].length), "transport key's length" },
    { offsetof(struct layout, credentials[TRANSPORT].tries), "transport tries and limit" },
    { offsetof(struct layout, directory.files), "files" },
    { offsetof(struct layout, directory.count), "number of files" },
    { offsetof(struct layout, directory.folders), "directories" },
    { offsetof(struct layout, directory.number), "number of directories" },
    { offsetof(struct layout, session.rights), "held rights" },
    { offsetof(struct layout, session.current), "current file" },
    { offsetof(struct layout, session.challenge), "challenge" },
    { offsetof(struct layout, session.length), "challenge's length" },
    { offsetof(struct layout, session.folder), "current directory" },
    { offsetof(struct layout, response.mode), "mode" },
    { offsetof(struct layout, response.count1), "number of waiting bytes" },
    { offsetof(struct layout, response.bytes), "waiting bytes" },
    { offsetof(struct layout, journal.what), "whose journal" },
    { offsetof(struct layout, journal.bytes), "journal" },
};

size_t field_at(size_t place)
{
    size_t field = FIELDS - 1;

    while (place < fields[field].from)
        field--;
    return field;
}

const char *field_name(size_t field)
{
    return fields[field].name;
}

static bool are_zero(const uint8_t *bytes, size_t from, size_t to)
{
    for (size_t i = from; i < to; i++)
        if (bytes[i] != 0)
            return false;
    return true;
}

/* "A held right has all its tries left." And it is 0 or 1. */
static bool sound_tries(struct tries t, uint8_t held)
{
    return held <= 1 && 1 <= t.limit && t.limit <= 128 && t.left <= t.limit && (held == 0 || t.left == t.limit);
}

/* A key has sixteen bytes of any value. */
static bool sound_value(const struct credential *x, bool key)
{
    if (key)
        return x->length == LIMPET_KEY_SIZE;
    if (x->length < 6 || x->length > 16)
        return false;
    for (size_t i = 0; i < x->length; i++)
        if (x->value[i] < 0x30 || x->value[i] > 0x39)
            return false;
    return are_zero(x->value, x->length, VALUE_ROOM);
}

static bool is_key(size_t credential)
{
    return credential == DEVICE || credential == TRANSPORT;
}

static bool sound_credentials(const struct layout *c)
{
    for (size_t i = 0; i < CREDENTIALS; i++)
        if (!sound_value(&c->credentials[i], is_key(i))
            || !sound_tries(c->credentials[i].tries, i < RIGHTS ? c->session.rights[i] : 0))
            return false;
    return true;
}

/* 0F, or some of the three rights, with bit 2 where one of them is enough: "bit 2 alone is bad". A folder's creation right. */
static bool good_right(uint8_t right)
{
    return right == 0x0F || ((right & ~0xC3) == 0 && right != 0x02);
}

/* "A file's right, not a directory's, may ask for codes by bit 3, except in 0F", and "bits 2 and 3 alone are bad". */
static bool good_file_right(uint8_t right)
{
    return good_right(right) || good_right(right & ~0x04);
}

unsigned file_size(const struct file *f)
{
    unsigned both = 256u * f->size1 + f->size2;
    bool records = 2 <= f->size1 && f->size1 <= 254 && 1 <= f->size2 && f->size2 <= 178;

    switch (f->type) {
    case 0x28:
        return both <= 4096 ? both : 0;
    case 0x2C:
        return 2 <= both && both <= 4096 ? both : 0;
    case 0x2A:
    case 0x2E:
        return records ? (unsigned)f->size1 * f->size2 : 0;
    default:
        return 0;
    }
}

static bool sound_held(const struct file *f)
{
    if (f->type != 0x2E)
        return f->held == 0 && f->newest == 0;
    return f->held <= f->size1 && f->newest < f->size1 && (f->held > 0 || f->newest == 0);
}

unsigned used_bytes(const struct file *f)
{
    return 256u * f->used1 + f->used2;
}

/* "Lengths of 1 to 178 part them exactly": each stands before its record. */
static bool are_parted(const uint8_t *bytes, unsigned used)
{
    unsigned at = 0;

    while (at < used) {
        unsigned length = bytes[at];
        if (length < 1 || length > 178 || at + 1 + length > used)
            return false;
        at += 1 + length;
    }
    return true;
}

/* extent: the file's part of the area, of file_size(f) bytes. */
static bool sound_used(const struct file *f, const uint8_t *extent)
{
    if (f->type != 0x2C)
        return used_bytes(f) == 0;
    return used_bytes(f) <= file_size(f) && are_parted(extent, used_bytes(f));
}

static unsigned sfi_of(const struct file *f)
{
    return f->fid2 & 31u;
}

/* "Low five bits 1 to 30", by the second byte of a FID: a file's and, by reading 20, a folder's. */
static bool good_fid(uint8_t fid2)
{
    return (fid2 & 31) != 0 && (fid2 & 31) != 31;
}

static bool sound_file(const struct file *f)
{
    return good_fid(f->fid2) && file_size(f) > 0 && sound_held(f) && good_file_right(f->read) && good_file_right(f->write);
}

/* "A directory's FID differs from all other directories and from all root files"; two files differ in their SFI within a folder. */
static bool same_fid(uint8_t a1, uint8_t a2, uint8_t b1, uint8_t b2)
{
    return a1 == b1 && a2 == b2;
}

static bool sound_folders(const struct directory *d)
{
    if (d->number > FOLDERS || !are_zero((const uint8_t *)d->folders, sizeof(struct folder) * d->number, sizeof d->folders))
        return false;
    for (size_t i = 0; i < d->number; i++) {
        const struct folder *f = &d->folders[i];
        if (!good_fid(f->fid2) || !good_right(f->right))
            return false;
        for (size_t j = 0; j < i; j++)
            if (same_fid(f->fid1, f->fid2, d->folders[j].fid1, d->folders[j].fid2))
                return false;
    }
    return true;
}

/* Whether a file is in a folder that is there, and in the root has no folder's FID. */
static bool sound_place(const struct directory *d, const struct file *f)
{
    if (f->folder != 0)
        return f->folder <= d->number;
    for (size_t i = 0; i < d->number; i++)
        if (same_fid(f->fid1, f->fid2, d->folders[i].fid1, d->folders[i].fid2))
            return false;
    return true;
}

static bool unused_file(const struct file *f)
{
    static const struct file unused;

    return memcmp(f, &unused, sizeof unused) == 0;
}

static bool sound_directory(const struct directory *d, const uint8_t *area)
{
    unsigned taken = 0;
    uint32_t sfis[1 + FOLDERS] = { 0 }; /* those used in the root and in each folder */

    if (d->count > FILES || !sound_folders(d))
        return false;
    for (size_t i = 0; i < FILES; i++) {
        const struct file *f = &d->files[i];
        if (i >= d->count) {
            if (!unused_file(f))
                return false;
            continue;
        }
        if (!sound_file(f) || !sound_place(d, f) || (sfis[f->folder] >> sfi_of(f) & 1) != 0
            || taken + file_size(f) > LIMPET_AREA_SIZE || !sound_used(f, area + taken))
            return false;
        sfis[f->folder] |= UINT32_C(1) << sfi_of(f);
        taken += file_size(f);
    }
    return true;
}

/* "A sound card's current file lies in its current directory", and both are there. */
static bool sound_current(const struct session *s, const struct directory *d)
{
    return s->folder <= d->number && s->current <= d->count
        && (s->current == 0 || d->files[s->current - 1].folder == s->folder);
}

static bool sound_challenge(const struct session *s)
{
    return (s->length == 0 || s->length == 4 || s->length == 8 || s->length == 16)
        && are_zero(s->challenge, s->length, CHALLENGE_ROOM);
}

unsigned waiting_count(const struct response *r)
{
    return 256u * r->count1 + r->count2;
}

void set_waiting_count(struct response *r, unsigned count)
{
    r->count1 = (uint8_t)(count / 256);
    r->count2 = (uint8_t)(count % 256);
}

/* "In a sound mode 0 card nothing waits", and "waiting bytes past those that wait" are 00. */
static bool sound_response(const struct response *r)
{
    unsigned most = r->mode == 0 ? 0 : WAITING_ROOM, count = waiting_count(r);

    return r->mode <= 1 && count <= most && are_zero(r->bytes, count, WAITING_ROOM);
}

/* "A card whose journal is not 00 is unsound." */
static bool sound_journal(const struct journal *j)
{
    return j->what == 0 && are_zero(j->bytes, 0, JOURNAL_ROOM);
}

bool is_sound(const uint8_t *card, const uint8_t *area)
{
    struct layout c;

    memcpy(&c, card, sizeof c);
    return sound_credentials(&c)
        && sound_directory(&c.directory, area)
        && sound_current(&c.session, &c.directory)
        && sound_challenge(&c.session)
        && sound_response(&c.response)
        && sound_journal(&c.journal);
}

bool is_lasting(size_t place)
{
    return place < offsetof(struct layout, session) || place == offsetof(struct layout, response.mode)
        || place >= offsetof(struct layout, journal);
}

/* False where no cut leaves such a journal: for a key, for nothing that is there, for a file that has no record then. That is damage. */
static bool carry_out(struct layout *c)
{
    const struct journal *j = &c->journal;

    if (j->what == 0)
        return true;
    if (j->what == OF_CREDENTIALS + ADMIN || j->what == OF_CREDENTIALS + USER) {
        struct credential *x = &c->credentials[j->what - OF_CREDENTIALS];
        memcpy(x->value, j->bytes, VALUE_ROOM);
        x->length = j->bytes[VALUE_ROOM];
        return true;
    }
    if (j->what < OF_FILES || j->what - OF_FILES >= c->directory.count || j->what - OF_FILES >= FILES)
        return false;
    if (j->bytes[0] == 0 && j->bytes[1] == 0 && j->bytes[2] == 0 && j->bytes[3] == 0)
        return false;
    struct file *f = &c->directory.files[j->what - OF_FILES];
    f->held = j->bytes[0];
    f->newest = j->bytes[1];
    f->used1 = j->bytes[2];
    f->used2 = j->bytes[3];
    return true;
}

bool recovered(const uint8_t *card, const uint8_t *area, struct layout *to)
{
    memcpy(to, card, sizeof *to);
    if (!carry_out(to))
        return false;
    memset(&to->journal, 0, sizeof to->journal);
    for (size_t i = to->directory.count; i < FILES; i++)
        memset(&to->directory.files[i], 0, sizeof to->directory.files[i]);
    for (size_t i = to->directory.number; i < FOLDERS; i++)
        memset(&to->directory.folders[i], 0, sizeof to->directory.folders[i]);
    memset(&to->session, 0, sizeof to->session);
    to->response = (struct response){ .mode = to->response.mode };
    return is_sound((const uint8_t *)to, area);
}
