#include "plain_text.h"

#include <stdbool.h>
#include <string.h>

#include "layout.h"

enum { LINE_BYTES = 32, FID_BYTES = 2, CREATE_BYTES = 5 };

/* FID, tab, right and newline; and what the session's line and a file's end with: a tab and a folder's FID. */
enum { FOLDER_LENGTH = 2 * FID_BYTES + 1 + 2 + 1, HOME_LENGTH = 1 + 2 * FID_BYTES };

/* The new form, and the old one, which has no folders and no field that names one. */
enum form { OLD, NEW };

/* What a file's line counts: the bytes used of type 2C, the records held of the others. */
static unsigned counted(const struct file *f)
{
    return f->type == 0x2C ? used_bytes(f) : f->held;
}

/* ------------------------------------------------------------ the writer */

static size_t decimal_length(unsigned number)
{
    size_t length = 1;

    while (number >= 10) {
        number /= 10;
        length++;
    }
    return length;
}

static size_t credential_length(const struct credential *x)
{
    return 2u * x->length + 1 + decimal_length(x->tries.limit) + 1 + decimal_length(x->tries.left) + 1;
}

/* Hex, or - for none. */
static size_t optional_length(size_t bytes)
{
    return bytes > 0 ? 2 * bytes : 1;
}

static size_t home_length(enum form form)
{
    return form == NEW ? HOME_LENGTH : 0;
}

static size_t session_length(const struct session *s, const struct response *r, enum form form)
{
    return 2 * RIGHTS + optional_length(s->current != 0 ? FID_BYTES : 0) + 1 + optional_length(s->length) + 1
        + 2 + optional_length(waiting_count(r)) + home_length(form) + 1;
}

static size_t file_length(const struct file *f, enum form form)
{
    size_t size = file_size(f);

    return 2 * FID_BYTES + 1 + 2 * CREATE_BYTES + 1 + decimal_length(counted(f)) + 1 + decimal_length(f->newest) + home_length(form) + 1
        + 2 * size + (size + LINE_BYTES - 1) / LINE_BYTES;
}

/* Counted first, since nothing may be written where the text does not fit. */
static size_t card_length(const struct layout *c, enum form form)
{
    size_t length = session_length(&c->session, &c->response, form) + FOLDER_LENGTH * (size_t)c->directory.number;

    for (size_t i = 0; i < CREDENTIALS; i++)
        length += credential_length(&c->credentials[i]);
    for (size_t i = 0; i < c->directory.count; i++)
        length += file_length(&c->directory.files[i], form);
    return length;
}

/* Each of these writes behind what is there and returns where it ends. */
static uint8_t *put(uint8_t *to, char byte)
{
    *to = (uint8_t)byte;
    return to + 1;
}

static uint8_t *put_hex(uint8_t *to, const uint8_t *bytes, size_t count)
{
    static const char digits[] = "0123456789ABCDEF";

    for (size_t i = 0; i < count; i++) {
        to = put(to, digits[bytes[i] >> 4]);
        to = put(to, digits[bytes[i] & 15]);
    }
    return to;
}

static uint8_t *put_optional(uint8_t *to, const uint8_t *bytes, size_t count)
{
    return count > 0 ? put_hex(to, bytes, count) : put(to, '-');
}

static uint8_t *put_decimal(uint8_t *to, unsigned number)
{
    size_t length = decimal_length(number);

    for (size_t i = length; i > 0; i--) {
        to[i - 1] = (uint8_t)('0' + number % 10);
        number /= 10;
    }
    return to + length;
}

static uint8_t *put_credential(uint8_t *to, const struct credential *x)
{
    to = put_hex(to, x->value, x->length);
    to = put(to, '\t');
    to = put_decimal(to, x->tries.limit);
    to = put(to, '\t');
    to = put_decimal(to, x->tries.left);
    return put(to, '\n');
}

/* A tab and the FID of a folder, by its place plus one; 3F00 for the root. */
static uint8_t *put_home(uint8_t *to, const struct directory *d, uint8_t folder, enum form form)
{
    const struct folder root = { 0x3F, 0x00, 0 }, *f = folder > 0 ? &d->folders[folder - 1] : &root;
    const uint8_t fid[FID_BYTES] = { f->fid1, f->fid2 };

    return form == NEW ? put_hex(put(to, '\t'), fid, sizeof fid) : to;
}

static uint8_t *put_session(uint8_t *to, const struct layout *c, enum form form)
{
    const struct session *s = &c->session;
    const struct response *r = &c->response;

    for (size_t i = 0; i < RIGHTS; i++) {
        to = put(to, s->rights[i] != 0 ? '1' : '0');
        to = put(to, '\t');
    }
    if (s->current != 0) {
        const struct file *f = &c->directory.files[s->current - 1];
        const uint8_t fid[FID_BYTES] = { f->fid1, f->fid2 };
        to = put_hex(to, fid, sizeof fid);
    } else {
        to = put(to, '-');
    }
    to = put(to, '\t');
    to = put_optional(to, s->challenge, s->length);
    to = put(to, '\t');
    to = put(to, r->mode != 0 ? '1' : '0');
    to = put(to, '\t');
    to = put_optional(to, r->bytes, waiting_count(r));
    to = put_home(to, &c->directory, s->folder, form);
    return put(to, '\n');
}

static uint8_t *put_folder(uint8_t *to, const struct folder *f)
{
    const uint8_t fid[FID_BYTES] = { f->fid1, f->fid2 };

    to = put_hex(to, fid, sizeof fid);
    to = put(to, '\t');
    to = put_hex(to, &f->right, 1);
    return put(to, '\n');
}

static uint8_t *put_file(uint8_t *to, const struct directory *d, const struct file *f, const uint8_t *extent, enum form form)
{
    const uint8_t fid[FID_BYTES] = { f->fid1, f->fid2 };
    const uint8_t created[CREATE_BYTES] = { f->type, f->size1, f->size2, f->read, f->write };
    size_t size = file_size(f);

    to = put_hex(to, fid, sizeof fid);
    to = put(to, '\t');
    to = put_hex(to, created, sizeof created);
    to = put(to, '\t');
    to = put_decimal(to, counted(f));
    to = put(to, '\t');
    to = put_decimal(to, f->newest);
    to = put_home(to, d, f->folder, form);
    to = put(to, '\n');
    for (size_t at = 0; at < size; at += LINE_BYTES) {
        size_t left = size - at;
        to = put_hex(to, extent + at, left < LINE_BYTES ? left : LINE_BYTES);
        to = put(to, '\n');
    }
    return to;
}

static void put_card(uint8_t *to, const struct layout *c, const uint8_t *area, enum form form)
{
    for (size_t i = 0; i < CREDENTIALS; i++)
        to = put_credential(to, &c->credentials[i]);
    to = put_session(to, c, form);
    for (size_t i = 0; i < c->directory.number; i++)
        to = put_folder(to, &c->directory.folders[i]);
    for (size_t i = 0; i < c->directory.count; i++) {
        const struct file *f = &c->directory.files[i];
        to = put_file(to, &c->directory, f, area, form);
        area += file_size(f);
    }
}

/* The text of a sound card. In the old form it has no folder. */
static uint8_t write_card(const struct layout *c, const uint8_t *area, enum form form, uint8_t *text, size_t text_len, size_t *text_count)
{
    size_t length = card_length(c, form);

    if (length > text_len)
        return LIMPET_SHORT_TEXT;
    put_card(text, c, area, form);
    *text_count = length;
    return LIMPET_OK;
}

uint8_t plain_to_text(const struct limpet_card *card, const uint8_t *area, size_t area_len,
                      uint8_t *text, size_t text_len, size_t *text_count)
{
    struct layout c;

    *text_count = 0;
    if (area_len != LIMPET_AREA_SIZE)
        return LIMPET_BAD_AREA;
    memcpy(&c, card, sizeof c);
    if (!is_sound((const uint8_t *)&c, area))
        return LIMPET_UNSOUND;
    return write_card(&c, area, NEW, text, text_len, text_count);
}

/* ------------------------------------------------------------ the reader */

/* The text, how many bytes of it were taken, and the form that it is to have. */
struct input {
    const uint8_t *text;
    size_t length, at;
    enum form form;
};

/* The byte to be taken next, or 0 at the end: no line has a byte 0. */
static uint8_t next(const struct input *in)
{
    return in->at < in->length ? in->text[in->at] : 0;
}

/* Each of these takes what is asked of it, or says false where something else stands there. */
static bool take(struct input *in, char byte)
{
    if (next(in) != (uint8_t)byte)
        return false;
    in->at++;
    return true;
}

/* -1 where the byte is no upper-case hex digit. */
static int digit_value(uint8_t byte)
{
    static const int8_t values['F' - '0' + 1] = {
        0, 1, 2, 3, 4, 5, 6, 7, 8, 9, -1, -1, -1, -1, -1, -1, -1, 10, 11, 12, 13, 14, 15
    };

    return '0' <= byte && byte <= 'F' ? values[byte - '0'] : -1;
}

static bool take_hex(struct input *in, uint8_t *bytes, size_t count)
{
    if (in->length - in->at < 2 * count)
        return false;
    for (size_t i = 0; i < count; i++) {
        int high = digit_value(in->text[in->at]), low = digit_value(in->text[in->at + 1]);
        if (high < 0 || low < 0)
            return false;
        bytes[i] = (uint8_t)(16 * high + low);
        in->at += 2;
    }
    return true;
}

/* As many bytes as stand there, up to that room. */
static bool take_value(struct input *in, uint8_t *bytes, size_t room, size_t *length)
{
    for (*length = 0; *length < room && digit_value(next(in)) >= 0; ++*length)
        if (!take_hex(in, &bytes[*length], 1))
            return false;
    return *length > 0;
}

/* The same, or - for none. */
static bool take_optional(struct input *in, uint8_t *bytes, size_t room, size_t *length)
{
    *length = 0;
    return take(in, '-') || take_value(in, bytes, room, length);
}

/* 0 to that number, without leading zeros. */
static bool take_decimal(struct input *in, unsigned most, unsigned *number)
{
    size_t first = in->at;

    for (*number = 0; '0' <= next(in) && next(in) <= '9'; in->at++) {
        *number = 10 * *number + (next(in) - '0');
        if (*number > most)
            return false;
    }
    return in->at == first + 1 || (in->at > first && in->text[first] != '0');
}

static bool take_small(struct input *in, uint8_t *number)
{
    unsigned value;

    if (!take_decimal(in, UINT8_MAX, &value))
        return false;
    *number = (uint8_t)value;
    return true;
}

static bool take_credential(struct input *in, struct credential *x)
{
    size_t length;

    if (!take_value(in, x->value, VALUE_ROOM, &length))
        return false;
    x->length = (uint8_t)length;
    return take(in, '\t') && take_small(in, &x->tries.limit) && take(in, '\t')
        && take_small(in, &x->tries.left) && take(in, '\n');
}

/* The current file and folder are known by their FIDs here; their places show when folders and files are read. */
struct current {
    bool is_any;
    uint8_t fid[FID_BYTES], home[FID_BYTES];
};

/* A tab and the FID of a folder, at the end of a line. In the old form nothing stands there, and it is the root's. */
static bool take_home(struct input *in, uint8_t *fid)
{
    fid[0] = 0x3F;
    fid[1] = 0x00;
    return in->form == OLD || (take(in, '\t') && take_hex(in, fid, FID_BYTES));
}

/* A right or the mode, with the tab behind it. */
static bool take_bit(struct input *in, uint8_t *bit)
{
    *bit = next(in) == '1';
    return (take(in, '0') || take(in, '1')) && take(in, '\t');
}

static bool take_response(struct input *in, struct response *r)
{
    size_t count;

    if (!take_bit(in, &r->mode) || !take_optional(in, r->bytes, WAITING_ROOM, &count))
        return false;
    set_waiting_count(r, (unsigned)count);
    return true;
}

static bool take_session(struct input *in, struct session *s, struct response *r, struct current *current)
{
    size_t length;

    for (size_t i = 0; i < RIGHTS; i++)
        if (!take_bit(in, &s->rights[i]))
            return false;
    current->is_any = !take(in, '-');
    if ((current->is_any && !take_hex(in, current->fid, sizeof current->fid)) || !take(in, '\t')
        || !take_optional(in, s->challenge, CHALLENGE_ROOM, &length) || !take(in, '\t'))
        return false;
    s->length = (uint8_t)length;
    return take_response(in, r) && take_home(in, current->home) && take(in, '\n');
}

/* The place plus one of the folder with that FID; 0 for the root. */
static bool find_home(const struct directory *d, const uint8_t *fid, uint8_t *folder)
{
    for (*folder = 0; *folder < d->number; ++*folder)
        if (d->folders[*folder].fid1 == fid[0] && d->folders[*folder].fid2 == fid[1]) {
            ++*folder;
            return true;
        }
    *folder = 0;
    return fid[0] == 0x3F && fid[1] == 0x00;
}

/* A folder's line is told from a file's by where it ends. */
static bool is_folder_next(const struct input *in)
{
    return in->form == NEW && in->length - in->at >= FOLDER_LENGTH && in->text[in->at + FOLDER_LENGTH - 1] == '\n';
}

static bool take_folders(struct input *in, struct directory *d)
{
    uint8_t fid[FID_BYTES], right;

    while (is_folder_next(in)) {
        if (d->number == FOLDERS || !take_hex(in, fid, sizeof fid) || !take(in, '\t') || !take_hex(in, &right, 1)
            || !take(in, '\n'))
            return false;
        d->folders[d->number++] = (struct folder){ fid[0], fid[1], right };
    }
    return true;
}

static bool take_counted(struct input *in, struct file *f)
{
    unsigned used;

    if (f->type != 0x2C)
        return take_small(in, &f->held);
    if (!take_decimal(in, LIMPET_AREA_SIZE, &used))
        return false;
    f->used1 = (uint8_t)(used >> 8);
    f->used2 = (uint8_t)used;
    return true;
}

static bool take_file_line(struct input *in, const struct directory *d, struct file *f)
{
    uint8_t fid[FID_BYTES], created[CREATE_BYTES], home[FID_BYTES];

    if (!take_hex(in, fid, sizeof fid) || !take(in, '\t') || !take_hex(in, created, sizeof created) || !take(in, '\t'))
        return false;
    *f = (struct file){ .fid1 = fid[0], .fid2 = fid[1], .type = created[0], .size1 = created[1], .size2 = created[2],
                        .read = created[3], .write = created[4] };
    return take_counted(in, f) && take(in, '\t') && take_small(in, &f->newest) && take_home(in, home) && take(in, '\n')
        && find_home(d, home, &f->folder);
}

static bool take_contents(struct input *in, uint8_t *extent, size_t size)
{
    for (size_t at = 0; at < size; at += LINE_BYTES) {
        size_t left = size - at;
        if (!take_hex(in, extent + at, left < LINE_BYTES ? left : LINE_BYTES) || !take(in, '\n'))
            return false;
    }
    return true;
}

static bool take_files(struct input *in, struct directory *d, uint8_t *area)
{
    size_t taken = 0;

    while (in->at < in->length) {
        struct file *f = &d->files[d->count];
        if (d->count == FILES || !take_file_line(in, d, f))
            return false;
        size_t size = file_size(f);
        if (size == 0 || size > LIMPET_AREA_SIZE - taken || !take_contents(in, area + taken, size))
            return false;
        taken += size;
        d->count++;
    }
    return true;
}

static bool find_current(struct layout *c, const struct current *current)
{
    if (!find_home(&c->directory, current->home, &c->session.folder))
        return false;
    if (!current->is_any)
        return true;
    for (uint8_t i = 0; i < c->directory.count; i++) {
        const struct file *f = &c->directory.files[i];
        if (f->folder == c->session.folder && f->fid1 == current->fid[0] && f->fid2 == current->fid[1]) {
            c->session.current = (uint8_t)(i + 1);
            return true;
        }
    }
    return false;
}

static bool take_card(struct input *in, struct layout *c, uint8_t *area)
{
    struct current current;

    for (size_t i = 0; i < CREDENTIALS; i++)
        if (!take_credential(in, &c->credentials[i]))
            return false;
    return take_session(in, &c->session, &c->response, &current) && take_folders(in, &c->directory)
        && take_files(in, &c->directory, area) && find_current(c, &current) && is_sound((const uint8_t *)c, area);
}

/* The text is read into a card and an area of its own: the caller's area has to stay where the last line is bad. */
uint8_t plain_from_text(struct limpet_card *card, uint8_t *area, size_t area_len,
                        const uint8_t *text, size_t text_len)
{
    struct input in = { text, text_len, 0, NEW };
    struct layout c = { 0 };
    uint8_t contents[LIMPET_AREA_SIZE] = { 0 };

    memset((uint8_t *)card, 0, sizeof c);
    if (area_len != LIMPET_AREA_SIZE)
        return LIMPET_BAD_AREA;
    if (!take_card(&in, &c, contents))
        return LIMPET_BAD_TEXT;
    memcpy((uint8_t *)card, &c, sizeof c);
    memcpy(area, contents, sizeof contents);
    return LIMPET_OK;
}

/* A text of one form made one of the other. Only the new one can have folders. */
static uint8_t convert(struct input in, enum form to, uint8_t *text, size_t text_len, size_t *text_count)
{
    struct layout c = { 0 };
    uint8_t contents[LIMPET_AREA_SIZE] = { 0 };

    *text_count = 0;
    if (!take_card(&in, &c, contents))
        return LIMPET_BAD_TEXT;
    if (to == OLD && c.directory.number > 0)
        return LIMPET_DIRECTORY;
    return write_card(&c, contents, to, text, text_len, text_count);
}

uint8_t plain_text_to_new(const uint8_t *old, size_t old_len, uint8_t *text, size_t text_len, size_t *text_count)
{
    return convert((struct input){ old, old_len, 0, OLD }, NEW, text, text_len, text_count);
}

uint8_t plain_text_to_old(const uint8_t *given, size_t given_len, uint8_t *text, size_t text_len, size_t *text_count)
{
    return convert((struct input){ given, given_len, 0, NEW }, OLD, text, text_len, text_count);
}
