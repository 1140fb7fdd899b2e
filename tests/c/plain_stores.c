/*
 * Stands in for limpet_store, limpet_stores and limpet_recover: written from request R-10 of
 * document 02 and from reading 24, in plain C over limpet_command and limpet_reset,
 * to try tests/cuts with. FAULT in the environment names the one fault that is
 * made, which tests/cuts has to notice; with none there is none.
 */
#include <stdbool.h>
#include <string.h>

#include "coded.h"
#include "fault.h"
#include "layout.h"
#include "limpetnook.h"
#include "stores.h"

uint8_t __wrap_limpet_store(const struct limpet_card *card, const uint8_t *area, size_t area_len,
                            const uint8_t *command, size_t command_len, const uint8_t *random, size_t random_len,
                            size_t n, uint16_t *address, uint8_t *value, uint8_t *given);
uint8_t __wrap_limpet_stores(const struct limpet_card *card, const uint8_t *area, size_t area_len,
                             const uint8_t *command, size_t command_len, const uint8_t *random, size_t random_len,
                             uint16_t first, uint8_t *stores, size_t stores_len, size_t *count);
uint8_t __wrap_limpet_recover(struct limpet_card *card, const uint8_t *area, size_t area_len);

/* ---- the stores of a command ---- */

struct list {
    struct store at[2 * LIMPET_AREA_SIZE];
    size_t count;
};

/* Card and area before a command and after it, and what it says; `plain` is the command without its code. */
struct step {
    struct layout before, after;
    const uint8_t *area;
    uint8_t area_after[LIMPET_AREA_SIZE];
    const uint8_t *command;
    size_t length;
    uint8_t plain[5 + 255];
    size_t plain_length;
    unsigned word;
};

#define AT(field) offsetof(struct layout, field)
static const size_t journal_bytes = AT(journal.bytes), journal_what = AT(journal.what);

static void put(struct list *l, size_t address, uint8_t value)
{
    if (l->count < sizeof l->at / sizeof l->at[0])
        l->at[l->count++] = (struct store){ (uint16_t)address, value };
}

static void put_all(struct list *l, size_t address, const uint8_t *values, size_t length)
{
    for (size_t i = 0; i < length; i++)
        put(l, address + i, values[i]);
}

static void clear(struct list *l, size_t address, size_t length)
{
    for (size_t i = 0; i < length; i++)
        put(l, address + i, 0);
}

/* Puts bytes over a target of the card so that all of them are there or none: journal, commit, target, and the journal cleared. */
static void put_at_once(struct list *l, uint8_t what, size_t target, const uint8_t *values, size_t length, bool in_place)
{
    if (in_place) {
        put_all(l, target, values, length);
        return;
    }
    if (has_fault("committed-before-the-bytes"))
        put(l, journal_what, what);
    put_all(l, journal_bytes, values, length);
    if (!has_fault("committed-before-the-bytes") && !has_fault("never-committed"))
        put(l, journal_what, what);
    if (has_fault("journal-cleared-before-the-target"))
        put(l, journal_what, 0);
    if (has_fault("journal-bytes-cleared-before-the-commit")) {
        put_all(l, target, values, length);
        clear(l, journal_bytes, length);
        put(l, journal_what, 0);
        return;
    }
    put_all(l, target, values, length);
    if (has_fault("journal-left"))
        return;
    if (!has_fault("journal-cleared-before-the-target"))
        put(l, journal_what, 0);
    clear(l, journal_bytes, length);
}

static bool is_command(const struct step *s, uint8_t cla, uint8_t ins)
{
    return is_frame(s->command, s->length) && s->command[0] == cla && s->command[1] == ins;
}

static bool is_plain(const struct step *s, uint8_t ins)
{
    return s->plain_length > 4 && s->plain[0] == 0x00 && s->plain[1] == ins;
}

/* Which credential the command presents, CREDENTIALS for none, and whether the comparison agrees. */
static size_t presented(const struct step *s, bool *agrees)
{
    *agrees = s->word == 0x9000;
    bool compared = s->word == 0x9000 || s->word >> 4 == 0x63C;
    if (is_command(s, 0x00, 0x20) && s->length > 5 && (compared || has_fault("lowered-where-refused")))
        return s->before.credentials[s->command[3] % 2 ? USER : ADMIN].tries.left > 0 ? (s->command[3] % 2 ? USER : ADMIN) : CREDENTIALS;
    if (is_command(s, 0x00, 0x82) && compared)
        return DEVICE;
    if (is_coded(s->command, s->length)) {
        unsigned refusal = refusal_of_code(&s->before, s->command, s->length);
        *agrees = refusal == 0;
        if (refusal == 0 || refusal == 0x6988)
            return TRANSPORT;
    }
    return CREDENTIALS;
}

static void present(struct list *l, const struct step *s)
{
    bool agrees;
    size_t which = presented(s, &agrees), tries = AT(credentials) + which * sizeof(struct credential) + offsetof(struct credential, tries.left);

    if (which == CREDENTIALS)
        return;
    uint8_t left = s->before.credentials[which].tries.left, limit = s->before.credentials[which].tries.limit;
    if (!(has_fault("compared-before-lowered") && agrees) && !(has_fault("full-tries-not-lowered") && agrees && left == limit))
        put(l, tries, (uint8_t)(left - 1));
    if (has_fault("lowered-twice"))
        put(l, tries, (uint8_t)(left - 1));
    if (has_fault("restored-before-compared") && !agrees) {
        put(l, tries, limit);
        put(l, tries, (uint8_t)(left - 1));
    }
    if (agrees)
        put(l, tries, limit);
}

static void set_pin(struct list *l, const struct step *s, size_t which)
{
    const struct credential *x = &s->after.credentials[which];
    size_t at = AT(credentials) + which * sizeof *x, tries = at + offsetof(struct credential, tries.left);
    uint8_t values[VALUE_ROOM + 1];

    memcpy(values, x->value, VALUE_ROOM);
    values[VALUE_ROOM] = x->length;
    bool reload = s->command[1] == 0x2C;
    if (reload && has_fault("reload-restores-before-the-value"))
        put(l, tries, x->tries.left);
    if (has_fault("length-before-the-value")) {
        put(l, at + VALUE_ROOM, x->length);
        put_all(l, at, values, VALUE_ROOM);
    } else {
        put_at_once(l, (uint8_t)(OF_CREDENTIALS + which), at, values, sizeof values, has_fault("pin-in-place"));
    }
    if (reload && !has_fault("reload-restores-before-the-value"))
        put(l, tries, x->tries.left);
}

static size_t start_of(const struct directory *d, size_t file)
{
    size_t taken = 0;

    for (size_t i = 0; i < file; i++)
        taken += file_size(&d->files[i]);
    return taken;
}

static void create_file(struct list *l, const struct step *s)
{
    size_t place = s->before.directory.count, start = start_of(&s->after.directory, place);
    const struct file *made = &s->after.directory.files[place];
    size_t at = AT(directory.files) + place * sizeof *made, size = file_size(made);

    if (has_fault("files-counted-before-the-entry"))
        put(l, AT(directory.count), s->after.directory.count);
    if (!has_fault("extent-not-cleared"))
        clear(l, LIMPET_CARD_SIZE + start, has_fault("extent-cleared-but-for-a-byte") ? size - 1 : size);
    put_all(l, at, (const uint8_t *)made, sizeof *made);
    if (has_fault("entry-stored-twice"))
        put_all(l, at, (const uint8_t *)made, sizeof *made);
    if (!has_fault("files-counted-before-the-entry"))
        put(l, AT(directory.count), s->after.directory.count);
}

static void create_folder(struct list *l, const struct step *s)
{
    size_t place = s->before.directory.number;
    bool early = has_fault("directories-counted-before-the-entry");

    if (early)
        put(l, AT(directory.number), s->after.directory.number);
    put_all(l, AT(directory.folders) + place * sizeof(struct folder), (const uint8_t *)&s->after.directory.folders[place], sizeof(struct folder));
    if (!early)
        put(l, AT(directory.number), s->after.directory.number);
}

/* Where in the area the bytes of a 9000 update begin. The file is current afterwards. */
static size_t updated_at(const struct step *s)
{
    const struct file *f = &s->after.directory.files[s->after.session.current - 1];
    size_t start = start_of(&s->after.directory, s->after.session.current - 1u), number = s->plain[2];

    if (s->plain[1] == 0xD6)
        return start + (number & 0x80 ? s->plain[3] : 256u * number + s->plain[3]);
    if (f->type == 0x2A)
        return start + (number - 1) * f->size2;
    if (f->type == 0x2E)
        return start + (f->newest + f->size1 - (number - 1)) % f->size1 * f->size2;
    for (; number > 1; number--)
        start += 1u + s->area[start];
    return start + 1;
}

static void update(struct list *l, const struct step *s)
{
    size_t at = updated_at(s), length = s->plain_length - 5;
    const uint8_t *data = s->plain + 5;

    for (size_t i = 0; i < length; i++) {
        size_t place = has_fault("update-from-the-end") ? length - 1 - i : i;
        if (has_fault("update-of-other-bytes-alone") && s->area[at + place] == data[place])
            continue;
        if (!(has_fault("last-byte-left-out") && i == length - 1))
            put(l, LIMPET_CARD_SIZE + at + place, data[place]);
        if (has_fault("byte-stored-twice") && i == 0)
            put(l, LIMPET_CARD_SIZE + at + place, data[place]);
    }
}

static void put_counts(struct list *l, size_t entry, const struct file *after, uint8_t what)
{
    size_t held = entry + offsetof(struct file, held);
    const uint8_t counts[] = { after->held, after->newest, after->used1, after->used2 };

    if (has_fault("newest-before-held")) {
        put(l, held + 1, counts[1]);
        put(l, held, counts[0]);
        put_all(l, held + 2, counts + 2, 2);
    } else {
        bool in_place = has_fault("counts-in-place") || (has_fault("used-bytes-in-place") && after->type == 0x2C);
        put_at_once(l, what, held, counts, sizeof counts, in_place);
    }
}

static void append(struct list *l, const struct step *s)
{
    size_t place = s->after.session.current - 1u, entry = AT(directory.files) + place * sizeof(struct file);
    const struct file *before = &s->before.directory.files[place], *after = &s->after.directory.files[place];
    size_t begin = start_of(&s->after.directory, place), length;
    bool full = after->type == 0x2E && before->held == before->size1, early = has_fault("counts-before-the-record");
    uint8_t what = (uint8_t)(OF_FILES + place);

    if (after->type == 0x2E) {
        length = after->size2;
        begin += (size_t)after->newest * length;
    } else {
        begin += used_bytes(before);
        length = used_bytes(after) - used_bytes(before);
    }
    if ((full && !has_fault("oldest-overwritten-first")) || (has_fault("oldest-gone-where-there-is-room") && before->held > 1))
        put(l, entry + offsetof(struct file, held), (uint8_t)(before->held - 1));
    if (early)
        put_counts(l, entry, after, what);
    put_all(l, LIMPET_CARD_SIZE + begin, s->area_after + begin, length);
    if (!early)
        put_counts(l, entry, after, what);
}

static void act(struct list *l, const struct step *s)
{
    if (s->after.directory.count > s->before.directory.count)
        create_file(l, s);
    else if (s->after.directory.number > s->before.directory.number)
        create_folder(l, s);
    else if (s->word == 0x9000 && is_plain(s, 0x24))
        set_pin(l, s, s->plain[3] == 0 ? ADMIN : USER);
    else if (s->word == 0x9000 && is_plain(s, 0x2C))
        set_pin(l, s, USER);
    else if (s->word == 0x9000 && (is_plain(s, 0xD6) || is_plain(s, 0xDC)))
        update(l, s);
    else if (s->word == 0x9000 && is_plain(s, 0xE2))
        append(l, s);
}

static void list_stores(struct list *l, const struct step *s)
{
    l->count = 0;
    if (has_fault("file-before-the-code") && is_coded(s->command, s->length)) {
        act(l, s);
        present(l, s);
        return;
    }
    present(l, s);
    act(l, s);
    if (has_fault("challenge-stored") && s->after.session.length == 16)
        put(l, AT(session.length), 16);
    if (has_fault("mode-stored") && l->count > 0)
        put(l, AT(response.mode), s->after.response.mode);
    if (has_fault("journal-stored-by-a-read") && is_command(s, 0x00, 0xB0) && s->word == 0x9000)
        put(l, journal_bytes, 0);
}

uint8_t __wrap_limpet_store(const struct limpet_card *card, const uint8_t *area, size_t area_len,
                            const uint8_t *command, size_t command_len, const uint8_t *random, size_t random_len,
                            size_t n, uint16_t *address, uint8_t *value, uint8_t *given)
{
    static struct list l;
    static struct step s;
    uint8_t reply[LIMPET_REPLY_SIZE], none;
    limpet_size count;

    *address = *value = *given = 0;
    memcpy(&s.before, card, sizeof s.before);
    s.after = s.before;
    s.area = area;
    if (area_len == sizeof s.area_after)
        memcpy(s.area_after, area, sizeof s.area_after);
    if (has_fault("random-before-the-area") && random_len != LIMPET_RANDOM_SIZE)
        return LIMPET_BAD_RANDOM;
    if (has_fault("given-where-refused") && random_len != LIMPET_RANDOM_SIZE)
        *given = 1;
    uint8_t outcome = limpet_command((struct limpet_card *)(void *)&s.after, area_len == sizeof s.area_after ? s.area_after : &none,
                                     area_len == sizeof s.area_after ? area_len : 0, command, command_len, random, random_len,
                                     reply, sizeof reply, &count);
    if (outcome == LIMPET_UNSOUND && has_fault("unsound-card-taken"))
        return LIMPET_OK;
    if (outcome != LIMPET_OK)
        return outcome;
    s.command = command;
    s.length = command_len;
    s.word = 256u * reply[count - 2] + reply[count - 1];
    s.plain_length = command_len < sizeof s.plain ? command_len : sizeof s.plain;
    if (s.plain_length > 0)
        memcpy(s.plain, command, s.plain_length);
    if (is_coded(command, command_len) && refusal_of_code(&s.before, command, command_len) == 0)
        s.plain_length = without_code(command, command_len, s.plain);
    list_stores(&l, &s);
    if (n < l.count) {
        *address = l.at[n].address;
        *value = l.at[n].value;
        *given = 1;
    } else if (has_fault("address-where-none-is-given")) {
        *address = 1;
    }
    return LIMPET_OK;
}

uint8_t __wrap_limpet_stores(const struct limpet_card *card, const uint8_t *area, size_t area_len,
                             const uint8_t *command, size_t command_len, const uint8_t *random, size_t random_len,
                             uint16_t first, uint8_t *stores, size_t stores_len, size_t *count)
{
    uint16_t address;
    uint8_t value, given, outcome;
    size_t n, most = stores_len / 3;

    if (first == 0 && most > 1 && !has_fault("run-gives-all-at-once"))
        most = 1;
    for (n = 0;; n++) {
        outcome = __wrap_limpet_store(card, area, area_len, command, command_len, random, random_len, first + n, &address, &value, &given);
        if (outcome != LIMPET_OK || given == 0 || n == most)
            break;
        stores[3 * n] = (uint8_t)(has_fault("run-low-byte-first") ? address : address >> 8);
        stores[3 * n + 1] = (uint8_t)(has_fault("run-low-byte-first") ? address >> 8 : address);
        stores[3 * n + 2] = value;
    }
    *count = has_fault("run-counts-bytes") ? 3 * n : n;
    return outcome;
}

/* ---- recovery ---- */

/* What a committed journal says; false where it names nothing that is there. */
static bool carry_out(struct layout *c)
{
    unsigned what = c->journal.what, most = has_fault("entry-past-the-last-file-taken") ? FILES : c->directory.count;

    if (what == 0 || has_fault("journal-dropped"))
        return true;
    if (!has_fault("journal-of-a-key-taken") && (what == OF_CREDENTIALS + DEVICE || what == OF_CREDENTIALS + TRANSPORT))
        return false;
    if (what <= CREDENTIALS) {
        memcpy(&c->credentials[what - 1], c->journal.bytes, JOURNAL_ROOM);
        return true;
    }
    if (what < OF_FILES || what - OF_FILES >= most || what - OF_FILES >= FILES)
        return has_fault("impossible-journal-emptied");
    if (!has_fault("journal-without-a-record-taken") && !(c->journal.bytes[0] | c->journal.bytes[1] | c->journal.bytes[2] | c->journal.bytes[3]))
        return false;
    memcpy(&c->directory.files[what - OF_FILES].held, c->journal.bytes, 4);
    return true;
}

static void forget_session(struct layout *c, const uint8_t *area)
{
    uint8_t mode = c->response.mode;
    struct layout same = *c;

    if (has_fault("recovery-keeps-a-sound-session") && limpet_reset((struct limpet_card *)(void *)&same, area, LIMPET_AREA_SIZE) == LIMPET_OK)
        return;
    if (!has_fault("recovery-keeps-the-rights"))
        memset(c->session.rights, 0, RIGHTS);
    if (!has_fault("recovery-keeps-what-is-current"))
        c->session.current = c->session.folder = 0;
    if (!has_fault("recovery-keeps-the-challenge"))
        memset(c->session.challenge, 0, CHALLENGE_ROOM + 1);
    if (!has_fault("recovery-keeps-what-waits"))
        memset(&c->response, 0, sizeof c->response);
    c->response.mode = has_fault("recovery-clears-the-mode") ? 0 : mode;
}

uint8_t __wrap_limpet_recover(struct limpet_card *card, const uint8_t *area, size_t area_len)
{
    struct layout c, same;

    if (area_len != LIMPET_AREA_SIZE && !(has_fault("recovery-looks-at-the-card-first") && ((uint8_t *)card)[VALUE_ROOM] == 0))
        return LIMPET_BAD_AREA;
    memcpy(&c, card, sizeof c);
    if (!carry_out(&c))
        return LIMPET_UNSOUND;
    if (!(has_fault("uncommitted-journal-kept") && c.journal.what == 0))
        memset(&c.journal, 0, sizeof c.journal);
    for (size_t i = c.directory.count; i < FILES && !has_fault("recovery-forgets-files"); i++)
        memset(&c.directory.files[i], 0, sizeof(struct file));
    for (size_t i = c.directory.number; i < FOLDERS && !has_fault("recovery-forgets-directories"); i++)
        memset(&c.directory.folders[i], 0, sizeof(struct folder));
    forget_session(&c, area);
    same = c;
    if (limpet_reset((struct limpet_card *)(void *)&same, area, area_len) != LIMPET_OK && !has_fault("unsound-card-recovered")) {
        if (has_fault("refused-recovery-clears"))
            memset((uint8_t *)card + AT(session), 0, sizeof(struct session));
        return LIMPET_UNSOUND;
    }
    memcpy(card, &c, sizeof c);
    if (has_fault("recovery-restores-tries"))
        ((struct layout *)(void *)card)->credentials[USER].tries.left = c.credentials[USER].tries.limit;
    return LIMPET_OK;
}
