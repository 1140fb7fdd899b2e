#include "form.h"

#include <string.h>

enum { LINE_BYTES = 32, LONGEST_RECORD = 178, HIGHEST_SHORT_NUMBER = 30, HIGHEST_LIMIT = 128, MOST_WAITING = 256 };
enum { CREDENTIAL_FIELDS = 3, SESSION_FIELDS = 8, FOLDER_FIELDS = 2, FILE_FIELDS = 5, MOST_FIELDS = 8 };
enum { OLD_SESSION_FIELDS = SESSION_FIELDS - 1, OLD_FILE_FIELDS = FILE_FIELDS - 1 }; /* without a directory at their end */
enum { SESSION_FIELDS_OF_6_AND_7 = 5 }; /* of earlier versions of the library */

/* What is left of the text, and the fields of the line that was read last. */
struct reading {
    struct bytes rest;
    struct bytes fields[MOST_FIELDS];
    size_t count;  /* more than MOST_FIELDS where there are too many */
    bool too_long; /* the text is longer than any card's, and was not read to its end */
    struct form *form;
};

/* ------------------------------------------------------------ lines and fields */

static bool fail(struct reading *r, const char *wrong)
{
    r->form->wrong = wrong;
    return false;
}

static void part_fields(struct reading *r, struct bytes line)
{
    size_t from = 0;

    r->count = 0;
    for (size_t i = 0; i <= line.len; i++)
        if (i == line.len || line.at[i] == '\t') {
            if (r->count < MOST_FIELDS)
                r->fields[r->count] = (struct bytes){ line.at + from, i - from };
            r->count++;
            from = i + 1;
        }
}

/* The next line, in fields. part: what stands in it. */
static bool take_line(struct reading *r, const char *part)
{
    const uint8_t *newline = r->rest.len == 0 ? NULL : memchr(r->rest.at, '\n', r->rest.len);
    struct bytes line;

    r->form->line++;
    r->form->part = part;
    if (r->rest.len == 0)
        return fail(r, r->form->line == 1 ? "the file is empty" : "the file ends before this line");
    if (newline == NULL)
        return fail(r, r->too_long ? "the file is longer than any card's" : "it has no newline at its end");
    line = (struct bytes){ r->rest.at, (size_t)(newline - r->rest.at) };
    r->rest = (struct bytes){ newline + 1, r->rest.len - line.len - 1 };
    if (line.len > 0 && line.at[line.len - 1] == '\r')
        return fail(r, "it ends in CR LF in place of LF");
    part_fields(r, line);
    return true;
}

static bool has_fields(struct reading *r, size_t fields)
{
    return r->count == fields || fail(r, "it does not have the right number of fields, which are parted by one tab each");
}

static bool next_line(struct reading *r, const char *part, size_t fields)
{
    return take_line(r, part) && has_fields(r, fields);
}

static bool is_none(struct bytes field)
{
    return field.len == 1 && field.at[0] == '-';
}

static bool hex_of(struct bytes field, struct hex *h, size_t bytes)
{
    return read_hex(field, h) && h->len == bytes;
}

static bool fid_of(struct bytes field, int *fid)
{
    struct hex h;

    if (!hex_of(field, &h, 2))
        return false;
    *fid = h.at[0] << 8 | h.at[1];
    return true;
}

/* ------------------------------------------------------------ credentials and session */

const char *credential_name(size_t credential)
{
    static const char *const names[CREDENTIALS] = { "device key", "admin PIN", "user PIN", "transport key" };
    return names[credential];
}

static bool is_pin(const struct hex *h)
{
    if (h->len < 6 || h->len > 16)
        return false;
    for (size_t i = 0; i < h->len; i++)
        if (h->at[i] < '0' || h->at[i] > '9')
            return false;
    return true;
}

static bool is_value(struct bytes field, bool key)
{
    struct hex h;
    bool good = read_hex(field, &h) && (key ? h.len == LIMPET_KEY_SIZE : is_pin(&h));

    wipe(&h, sizeof h);
    return good;
}

/* Before version 11 the session's line stood in the place of the transport key's. */
static bool is_of_this_version(struct reading *r, size_t number)
{
    if (number == TRANSPORT_KEY && (r->count == SESSION_FIELDS || r->count == OLD_SESSION_FIELDS))
        return fail(r, "it is the session's: the file is of before version 11, and has no transport key; put a line with one before "
                       "this, 32 hex digits, limit and tries left, parted by tabs");
    if (number == TRANSPORT_KEY && r->count == SESSION_FIELDS_OF_6_AND_7)
        return fail(r, "it has 5 fields and not 3: the file may be one of version 6 or 7, which this version cannot read");
    return true;
}

static bool read_credential(struct reading *r, size_t number)
{
    struct form_credential *c = &r->form->credentials[number];
    bool key = number == DEVICE_KEY || number == TRANSPORT_KEY;

    if (!take_line(r, credential_name(number)) || !is_of_this_version(r, number) || !has_fields(r, CREDENTIAL_FIELDS))
        return false;
    if (!is_value(r->fields[0], key))
        return fail(r, key ? "the key is not 16 bytes in upper-case hex"
                           : "the PIN is not 6 to 16 digits, each in hex as 30 to 39");
    if (!read_number(r->fields[1], &c->limit) || c->limit < 1 || c->limit > HIGHEST_LIMIT)
        return fail(r, "the limit is not a number from 1 to 128 without leading zeros");
    if (!read_number(r->fields[2], &c->left) || c->left > c->limit)
        return fail(r, "the tries left are not a number from 0 to the limit without leading zeros");
    return true;
}

static bool read_rights(struct reading *r)
{
    for (size_t i = 0; i < RIGHTS; i++) {
        struct form_credential *c = &r->form->credentials[i];
        uint16_t held;

        if (!read_number(r->fields[i], &held) || held > 1)
            return fail(r, "a right is neither 0 nor 1");
        c->held = held == 1;
        if (c->held && c->left != c->limit)
            return fail(r, "a right is held, and not all tries of its credential are left");
    }
    return true;
}

static bool read_challenge(struct bytes field, unsigned *size)
{
    struct hex h = { .len = 0 };
    bool good = is_none(field) || (read_hex(field, &h) && (h.len == 4 || h.len == 8 || h.len == 16));

    *size = (unsigned)h.len;
    wipe(&h, sizeof h);
    return good;
}

static bool read_waiting(struct bytes field, unsigned *count)
{
    struct hex h = { .len = 0 };
    bool good = is_none(field) || (read_hex(field, &h) && 1 <= h.len && h.len <= MOST_WAITING);

    *count = (unsigned)h.len;
    wipe(&h, sizeof h);
    return good;
}

static bool read_response(struct reading *r)
{
    if (!read_number(r->fields[5], &r->form->mode) || r->form->mode > 1)
        return fail(r, "the mode is neither 0 nor 1");
    if (!read_waiting(r->fields[6], &r->form->waiting))
        return fail(r, "what waits is neither 1 to 256 bytes in upper-case hex nor -");
    return r->form->mode == 1 || r->form->waiting == 0 || fail(r, "bytes wait, and the mode is 0");
}

/* Their number tells the form. */
static bool has_session_fields(struct reading *r)
{
    r->form->form = r->count == OLD_SESSION_FIELDS ? OLD_FORM : NEW_FORM;
    return r->form->form == OLD_FORM || has_fields(r, SESSION_FIELDS);
}

/* Whether the current file and directory exist is seen when all are read. */
static bool read_session(struct reading *r)
{
    if (!take_line(r, "session") || !has_session_fields(r) || !read_rights(r))
        return false;
    if (!is_none(r->fields[3]) && !fid_of(r->fields[3], &r->form->current))
        return fail(r, "the current file is neither four upper-case hex digits nor -");
    if (!read_challenge(r->fields[4], &r->form->challenge_size))
        return fail(r, "the challenge is neither 4, 8 or 16 bytes in upper-case hex nor -");
    if (!read_response(r))
        return false;
    return r->form->form == OLD_FORM || fid_of(r->fields[7], &r->form->folder)
        || fail(r, "the current directory is not four upper-case hex digits");
}

/* ------------------------------------------------------------ directories */

static unsigned low_bits(int fid)
{
    return (unsigned)fid & 0x1F;
}

static bool good_low_bits(int fid)
{
    return 1 <= low_bits(fid) && low_bits(fid) <= HIGHEST_SHORT_NUMBER;
}

static bool good_right(uint8_t right)
{
    return right == FOR_NOBODY || ((right & ~(FOR_ADMIN | FOR_USER | FOR_DEVICE | ANY_ONE)) == 0 && right != ANY_ONE);
}

/* A code is asked for beside the rights, and is none of those to choose from. */
static bool good_file_right(uint8_t right)
{
    return right == FOR_NOBODY || good_right(right & (uint8_t)~WITH_CODE);
}

/* Among those that were read before. */
static bool is_folder(const struct form *form, int fid)
{
    for (size_t i = 0; i < form->folder_count; i++)
        if (form->folders[i].fid == fid)
            return true;
    return false;
}

static const char *wrong_folder(const struct form *form, const struct form_folder *f)
{
    if (form->count > 0)
        return "it stands behind a file, and all directories stand before the files";
    if (!good_low_bits(f->fid))
        return "the low five bits of its FID are not 1 to 30";
    if (!good_right(f->right))
        return "its creation right is not 0F, and is 02 or has a bit that is none of 80, 40, 02 and 01";
    if (is_folder(form, f->fid))
        return "a directory before it has the same FID";
    return form->folder_count < MOST_FOLDERS ? NULL : "there are more than 4 directories";
}

/* Of the line that was taken. */
static bool read_folder(struct reading *r)
{
    struct form_folder f;
    struct hex right;
    const char *wrong;

    r->form->part = "directory";
    if (!fid_of(r->fields[0], &f.fid))
        return fail(r, "the FID is not four upper-case hex digits");
    r->form->of = f.fid;
    if (!hex_of(r->fields[1], &right, 1))
        return fail(r, "the creation right is not two upper-case hex digits");
    f.right = right.at[0];
    wrong = wrong_folder(r->form, &f);
    if (wrong != NULL)
        return fail(r, wrong);
    r->form->folders[r->form->folder_count++] = f;
    return true;
}

/* ------------------------------------------------------------ files */

unsigned short_number(const struct form_file *f)
{
    return low_bits(f->fid);
}

static bool has_places(uint8_t type)
{
    return type == FIXED || type == CYCLIC;
}

unsigned bytes_taken(const struct form_file *f)
{
    return has_places(f->type) ? (unsigned)f->size1 * f->size2 : (unsigned)f->size1 << 8 | f->size2;
}

static bool good_type(uint8_t type)
{
    return type == BINARY || type == VARIABLE || has_places(type);
}

static bool good_size(const struct form_file *f)
{
    if (has_places(f->type))
        return 2 <= f->size1 && f->size1 <= 254 && 1 <= f->size2 && f->size2 <= LONGEST_RECORD;
    return (f->type == BINARY ? 1 : 2) <= bytes_taken(f) && bytes_taken(f) <= LIMPET_AREA_SIZE;
}

static const char *wrong_counts(const struct form_file *f)
{
    if (f->type == CYCLIC && f->held > f->size1)
        return "it holds more records than it has places";
    if (f->type == CYCLIC && f->newest >= f->size1)
        return "its newest place is not below the number of its places, which count from 0";
    if (f->type == CYCLIC && f->held == 0 && f->newest != 0)
        return "it holds no record, and its newest place is not 0";
    if (f->type == VARIABLE && f->held > bytes_taken(f))
        return "it uses more bytes than it has";
    if (f->type != CYCLIC && f->newest != 0)
        return "its newest place is not 0, and only type 2E has one";
    if ((f->type == BINARY || f->type == FIXED) && f->held != 0)
        return "its records held are not 0, and this type does not count them";
    return NULL;
}

static const char *wrong_home(const struct form *form, const struct form_file *f)
{
    if (f->folder != ROOT)
        return is_folder(form, f->folder) ? NULL : "there is no directory with the FID of its directory";
    return is_folder(form, f->fid) ? "it lies in the root, and a directory has the same FID" : NULL;
}

/* Among the files that were read before. */
static const char *wrong_among(const struct form *form, const struct form_file *f)
{
    unsigned used = bytes_taken(f);

    for (size_t i = 0; i < form->count; i++) {
        const struct form_file *before = &form->files[i];

        used += bytes_taken(before);
        if (before->folder == f->folder && short_number(before) == short_number(f))
            return "a file before it in its directory has the same short number, the low five bits of its FID";
    }
    if (used > LIMPET_AREA_SIZE)
        return "the files take more than 4,096 bytes";
    return form->count < MOST_FILES ? NULL : "there are more than 16 files";
}

static const char *wrong_file(const struct form *form, const struct form_file *f)
{
    const char *wrong;

    if (!good_low_bits(f->fid))
        return "its short number, the low five bits of its FID, is not 1 to 30";
    if (!good_type(f->type))
        return "its type is not 28, 2A, 2C or 2E";
    if (!good_size(f))
        return "its two size bytes are not good for its type";
    if (!good_file_right(f->read) || !good_file_right(f->write))
        return "a rights byte is not 0F, and is 02 or 06 or has a bit that is none of 80, 40, 04, 02 and 01";
    wrong = wrong_counts(f);
    if (wrong == NULL)
        wrong = wrong_home(form, f);
    return wrong != NULL ? wrong : wrong_among(form, f);
}

static bool read_file_fields(struct reading *r, struct form_file *f)
{
    struct hex made;

    if (!fid_of(r->fields[0], &f->fid))
        return fail(r, "the FID is not four upper-case hex digits");
    r->form->of = f->fid;
    if (!hex_of(r->fields[1], &made, 5))
        return fail(r, "type, size and rights are not ten upper-case hex digits");
    f->type = made.at[0];
    f->size1 = made.at[1];
    f->size2 = made.at[2];
    f->read = made.at[3];
    f->write = made.at[4];
    if (!read_number(r->fields[2], &f->held) || !read_number(r->fields[3], &f->newest))
        return fail(r, "records held (or used bytes) and newest place are not numbers without leading zeros");
    return r->form->form == OLD_FORM || fid_of(r->fields[4], &f->folder)
        || fail(r, "its directory is not four upper-case hex digits");
}

/* Where one is among the records of a 2C file: how many bytes of the current one are still to come. */
struct walk {
    unsigned used, left, records;
};

/* One more byte of the file. Whether records can go on so. */
static bool step(struct walk *w, uint8_t byte)
{
    if (w->used == 0)
        return true;
    w->used--;
    if (w->left > 0) {
        w->left--;
        return true;
    }
    w->left = byte;
    w->records++;
    return 1 <= byte && byte <= LONGEST_RECORD && byte <= w->used;
}

static bool read_contents_line(struct reading *r, unsigned bytes, struct walk *w)
{
    struct hex h;
    bool good;

    if (!next_line(r, "contents", 1))
        return false;
    good = hex_of(r->fields[0], &h, bytes)
        || fail(r, bytes == LINE_BYTES ? "it is not 32 bytes in upper-case hex"
                                       : "it is not the rest of the file in upper-case hex");
    for (size_t i = 0; good && i < bytes; i++)
        good = step(w, h.at[i]) || fail(r, "the length of a record is not 1 to 178, or leads past the used bytes");
    wipe(&h, sizeof h);
    return good;
}

static unsigned records_of(const struct form_file *f, const struct walk *w)
{
    if (f->type == VARIABLE)
        return w->records;
    return f->type == CYCLIC ? f->held : f->type == FIXED ? f->size1 : 0;
}

static bool read_contents(struct reading *r, struct form_file *f)
{
    struct walk w = { .used = f->type == VARIABLE ? f->held : 0 };

    for (unsigned left = bytes_taken(f); left > 0;) {
        unsigned bytes = left < LINE_BYTES ? left : LINE_BYTES;
        if (!read_contents_line(r, bytes, &w))
            return false;
        left -= bytes;
    }
    f->records = records_of(f, &w);
    return true;
}

/* Of the line that was taken, and those of its contents. */
static bool read_file(struct reading *r)
{
    struct form_file f = { .fid = 0, .folder = ROOT };
    const char *wrong;

    if (!has_fields(r, r->form->form == NEW_FORM ? FILE_FIELDS : OLD_FILE_FIELDS) || !read_file_fields(r, &f))
        return false;
    wrong = wrong_file(r->form, &f);
    if (wrong != NULL)
        return fail(r, wrong);
    if (!read_contents(r, &f))
        return false;
    r->form->files[r->form->count++] = f;
    return true;
}

static bool is_of_session_form(struct reading *r)
{
    if (r->form->form == OLD_FORM && (r->count == FOLDER_FIELDS || r->count == FILE_FIELDS))
        return fail(r, "it is a line of the new form, and the 7 fields of the session's line are of the old form");
    if (r->form->form == NEW_FORM && r->count == OLD_FILE_FIELDS)
        return fail(r, "it is a line of the old form, and the 8 fields of the session's line are of the new form");
    return true;
}

/* The number of its fields tells a directory's line from a file's. */
static bool read_folder_or_file(struct reading *r)
{
    r->form->of = NO_FILE;
    if (!take_line(r, "file") || !is_of_session_form(r))
        return false;
    return r->count == FOLDER_FIELDS ? read_folder(r) : read_file(r);
}

static const char *wrong_current(const struct form *f)
{
    if (f->folder != ROOT && !is_folder(f, f->folder))
        return "there is no directory with the FID of the current one";
    for (size_t i = 0; i < f->count; i++)
        if (f->files[i].fid == f->current && f->files[i].folder == f->folder)
            return NULL;
    return f->current == NO_FILE ? NULL : "the current directory has no file with the FID of the current one";
}

static bool current_exists(struct reading *r)
{
    const char *wrong = wrong_current(r->form);

    if (wrong == NULL)
        return true;
    r->form->line = CREDENTIALS + 1;
    r->form->part = "session";
    r->form->of = NO_FILE;
    return fail(r, wrong);
}

bool read_form(const struct card_text *t, struct form *f)
{
    struct reading r = { .rest = { t->at, t->len }, .too_long = t->len > LIMPET_TEXT_SIZE, .form = f };
    bool good = true;

    *f = (struct form){ .form = NEW_FORM, .current = NO_FILE, .folder = ROOT, .of = NO_FILE };
    for (size_t i = 0; good && i < CREDENTIALS; i++)
        good = read_credential(&r, i);
    good = good && read_session(&r);
    while (good && r.rest.len > 0)
        good = read_folder_or_file(&r);
    return good && current_exists(&r);
}
