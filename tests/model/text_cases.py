"""Cases for the C program texts: cards to write as lines, texts to read and texts to convert, with what the model says of each.

It writes the cases of a seed: COUNT changed texts to read, with cards to write, and CONVERSIONS changed texts each way to convert.
Where one of the two is 0 there are no such cases at all.

A case is a letter and its fields, each four bytes of length, the lowest first, and so many bytes:

    I  key, limit, admin PIN, limit, user PIN, limit,   issue a card; limits and mode are two bytes, the lowest first
       mode, transport key, limit
    C  command, random input, outcome, reply            give it a command
    R                                                   reset it
    W  text, card, contents                             write it, read it, and go on with both
    L  text, card, contents                             try this card with buffers and areas of all lengths
    T  kind, text, card, contents                       read this text; no card where it is to be refused
    N  kind, text, outcome, outcome with no room, new   make this old text a new one; no new text where it is to be refused,
       text, card, contents                             and else the card that it is
    O  kind, text, outcome, outcome with no room, old   make this new text an old one
       text, card, contents
    n, o                                                the same, with text buffers of all lengths near the text's

A card is in the bytes of tests/c/layout.h, and contents are the bytes of its files. The cases depend on seed and counts only.
"""

import argparse
import struct
import sys

import card as cards
import generate
import text as texts

LINES_A_SCRIPT = 2000
# Changed texts to a line of a script, and lines of a script to a card that is written.
SHARE_OF_LINES = 10
LINES_A_WRITING = 12
# Changed texts to a card.
CHANGES_A_CARD = 60

# The place of the session's line, behind those of the credentials.
SESSION = 4

# The journal of R-10 at a card's end: 00 in a sound card, and in no text.
JOURNAL_SIZE = 18

# ---------------------------------------------------------------------------------------------------------------------
# Records of the stream
# ---------------------------------------------------------------------------------------------------------------------


def record(letter, *fields):
    return letter + b"".join([struct.pack("<I", len(field)) + field for field in fields])


def credential_bytes(credential):
    return credential.value.ljust(16, b"\x00") + bytes((len(credential.value), credential.tries, credential.limit))


def place_of(card, folder):
    """0 for the root, else a folder's place plus one."""
    return 0 if folder is cards.ROOT else 1 + card.folders.index(folder)


def file_bytes(card, file):
    return (struct.pack(">H", file.fid) + texts.created_bytes(file)
            + struct.pack(">BBHB", file.records, file.newest, file.used, place_of(card, file.folder)))


def folder_bytes(folder):
    return struct.pack(">HB", folder.fid, folder.right)


def card_bytes(card):
    """The card as struct layout of tests/c/layout.h has it."""
    credentials = (card.device, card.admin, card.user, card.transport)
    files = b"".join([file_bytes(card, file) for file in card.files])
    folders = b"".join([folder_bytes(folder) for folder in card.folders])
    current = 0 if card.current is None else 1 + card.files.index(card.current)
    return (b"".join([credential_bytes(credential) for credential in credentials])
            + files.ljust(16 * 12, b"\x00") + bytes((len(card.files),))
            + folders.ljust(4 * 3, b"\x00") + bytes((len(card.folders),))
            + bytes([credential.held for credential in credentials[:3]]) + bytes((current,))
            + card.challenge.ljust(16, b"\x00") + bytes((len(card.challenge), place_of(card, card.folder)))
            + struct.pack(">BH", card.mode, len(card.waiting)) + card.waiting.ljust(cards.MOST_WAITING, b"\x00")
            + bytes(JOURNAL_SIZE))


def contents_of(card, area):
    return bytes(area[:sum(file.extent for file in card.files)])


def card_record(letter, card, area):
    return record(letter, texts.to_text(card, area), card_bytes(card), contents_of(card, area))


def text_record(kind, text):
    found = texts.from_text(text)
    if found is None:
        return record(b"T", kind.encode("ascii"), text, b"", b"")
    return record(b"T", kind.encode("ascii"), text, card_bytes(found[0]), contents_of(*found))


# The two conversions, by the form of the text that is given, and their letters.
CONVERSIONS = {texts.OLD: (texts.to_new, b"N"), texts.NEW: (texts.to_old, b"O")}
ROOM = 65536


def conversion_record(kind, text, form, all_rooms=False):
    convert, letter = CONVERSIONS[form]
    buffer = bytearray(ROOM)
    outcome, count = convert(text, buffer)
    outcomes = bytes((outcome,)), bytes((convert(text, bytearray())[0],))
    found = texts.from_text(text, form) if outcome == 0 else None
    card = (card_bytes(found[0]), contents_of(*found)) if found else (b"", b"")
    return record(letter.lower() if all_rooms else letter, kind.encode("ascii"), text, *outcomes, bytes(buffer[:count]), *card)


# ---------------------------------------------------------------------------------------------------------------------
# Scripts
# ---------------------------------------------------------------------------------------------------------------------


def line_record(line, answer):
    """The call of a line of a script, or nothing where it makes none or is refused."""
    outcome, data, sw = answer
    fields = line.split(b"\t")
    if outcome == 0 and fields[0] == b"ISSUE":
        key, device_limit, admin, admin_limit, user, user_limit, mode, transport_key, transport_limit = fields[1:]
        numbers = [struct.pack("<H", int(number)) for number in (device_limit, admin_limit, user_limit, mode, transport_limit)]
        return record(b"I", bytes.fromhex(key.decode()), numbers[0], admin, numbers[1], user, numbers[2], numbers[3],
                      bytes.fromhex(transport_key.decode()), numbers[4])
    if outcome == 0 and fields[0] == b"RESET":
        return record(b"R")
    if fields[0] == b"CMD" and outcome != 9:
        sent, random = [bytes.fromhex(field.decode()) for field in fields[1:]]
        reply = b"" if sw is None else data + struct.pack(">H", sw)
        return record(b"C", sent, random, bytes((outcome,)), reply)
    return b""


def played(seed, lines, put, keep):
    """Plays a random script. Its calls are put, and at random points the card too; keep gets the text of some cards."""
    dice = generate.Dice(seed ^ 0x7E87)

    def watch(program, line, answer):
        put(line_record(line, answer))
        if program.card is not None and dice.chance(1 / LINES_A_WRITING):
            put(card_record(b"W", program.card, program.area))
            keep(texts.to_text(program.card, program.area))

    generate.Generator(seed, lines, watch).write()


# ---------------------------------------------------------------------------------------------------------------------
# Cards to start from
# ---------------------------------------------------------------------------------------------------------------------


def copied_credential(credential):
    copy = cards.Credential(credential.value, credential.limit)
    copy.tries, copy.held = credential.tries, credential.held
    return copy


def copied_file(file, folder):
    copy = cards.File(file.fid, file.kind, file.size, file.count, file.length, file.read, file.write, file.start, folder)
    copy.records, copy.newest, copy.used = file.records, file.newest, file.used
    return copy


class Draft:
    """A card to be changed, its files' contents apart, so that they need not fit. Its text says what stands here, sound or not."""

    def __init__(self, card, files):
        self.card = card
        self.files = files

    @classmethod
    def of_text(cls, text, form=texts.NEW):
        card, area = texts.from_text(text, form)
        return cls(card, [(file, bytes(area[file.start:file.start + file.extent])) for file in card.files])

    def copied(self):
        card = cards.Card()
        card.device, card.admin, card.user, card.transport = [copied_credential(credential) for credential in self.credentials]
        card.challenge, card.mode, card.waiting = self.card.challenge, self.card.mode, self.card.waiting
        card.folders = [cards.Folder(folder.fid, folder.right) for folder in self.card.folders]
        copies = {None: None, **dict(zip(self.card.folders, card.folders))}
        card.folder = copies[self.card.folder]
        files = [(copied_file(file, copies[file.folder]), contents) for file, contents in self.files]
        if self.card.current is not None:
            card.current = next(new for (new, _), (old, _) in zip(files, self.files) if old is self.card.current)
        return Draft(card, files)

    @property
    def credentials(self):
        return self.card.device, self.card.admin, self.card.user, self.card.transport

    def text(self, form=texts.NEW):
        """Its lines. Where there are folders these have lines in either form, and so the old one is none."""
        parts = [texts.credential_line(credential) for credential in self.credentials]
        parts.append(texts.session_line(self.card, form))
        parts += [texts.folder_line(folder) for folder in self.card.folders]
        for file, contents in self.files:
            parts += (texts.file_line(file, form), texts.content_lines(contents))
        return b"".join(parts)

    def room(self):
        return cards.AREA_SIZE - sum(len(contents) for _, contents in self.files)

    def free_sfis(self, folder=cards.ROOT):
        """SFIs that no file of the folder has."""
        return sorted(set(range(1, 31)) - {file.sfi for file, _ in self.files if file.folder is folder})

    def free_fid(self, dice, folder):
        """A FID for a new file of the folder, or None. No other file there has its SFI, and in the root no folder has it."""
        free = self.free_sfis(folder)
        taken = [other.fid for other in self.card.folders] if folder is cards.ROOT else []
        if not free:
            return None
        fid = any_fid(dice, dice.pick(free))
        return fid if fid not in taken else None

    def any_folder(self, dice):
        """The root, or one of the folders."""
        return dice.pick([cards.ROOT] + self.card.folders)

    def add_folder(self, fid, right):
        self.card.folders.append(cards.Folder(fid, right))
        return self.card.folders[-1]

    def of_kind(self, dice, kind):
        """The place of a file of that type, or None."""
        places = [place for place, (file, _) in enumerate(self.files) if file.kind == kind]
        return dice.pick(places) if places else None

    def set_contents(self, place, contents):
        self.files[place] = self.files[place][0], bytes(contents)


def parted(dice, used):
    """So many bytes, parted by lengths of 1 to 178; one byte cannot be."""
    made = bytearray()
    while len(made) < used:
        left = used - len(made) - 1
        length = min(left, dice.pick((1, 2, 3, 177, 178, dice.between(1, 178))))
        if left - length == 1:
            # One byte would be left over.
            length = length + 1 if length < cards.LONGEST_RECORD else length - 1
        made.append(length)
        made += dice.bytes(min(length, 4)).ljust(length, b"\x01")
    return bytes(made)


def new_file(dice, fid, kind, most, folder=cards.ROOT):
    """A file of at most so many bytes, with contents, or None where there is no room for one of that type."""
    read, write = [dice.weighted(generate.GOOD_RIGHTS) for _ in range(2)]
    if most < 2:
        kind = cards.BINARY
    if most < 1:
        return None
    if kind in (cards.BINARY, cards.VARIABLE):
        size = dice.between(1 if kind == cards.BINARY else 2, most)
        file = cards.File(fid, kind, size, 0, 0, read, write, 0, folder)
    else:
        length = dice.between(1, min(cards.LONGEST_RECORD, most // 2))
        file = cards.File(fid, kind, 0, dice.between(2, min(254, most // length)), length, read, write, 0, folder)
    contents = dice.bytes(min(file.extent, 70)).ljust(file.extent, b"\x00")
    if kind == cards.CYCLIC:
        file.records = dice.pick((0, 1, file.count - 1, file.count))
        file.newest = dice.pick((0, file.count - 1, dice.below(file.count))) if file.records else 0
    elif kind == cards.VARIABLE:
        file.used = dice.pick((0, 2, file.size, dice.between(2, file.size)))
        contents = parted(dice, file.used) + contents[file.used:]
    return file, contents


def any_fid(dice, sfi):
    return dice.pick((0x0000, 0x0100, 0xFF00, dice.below(256) << 8)) | dice.below(8) << 5 | sfi


def random_card(dice, has_folders=True):
    """The text of any sound card, whether commands lead to it or not. Mostly a short one. It may be one without folders."""
    card = cards.Card()
    card.device, card.admin, card.user, card.transport = [
        cards.Credential(value, dice.pick((1, 2, 3, 9, 10, 99, 100, 127, 128)))
        for value in (dice.bytes(16), dice.digits(dice.between(6, 16)), dice.digits(dice.between(6, 16)), dice.bytes(16))]
    draft = Draft(card, [])
    for credential in draft.credentials:
        credential.tries = dice.pick((0, credential.limit, credential.limit, dice.between(0, credential.limit)))
        credential.held = credential is not card.transport and credential.tries == credential.limit and dice.chance(0.5)
    card.challenge = dice.bytes(dice.pick((0, 4, 8, 16)))
    card.mode = dice.below(2)
    if card.mode == cards.FETCHED:
        card.waiting = dice.bytes(dice.weighted((
            (0, 4), (1, 1), (dice.between(2, 40), 3), (dice.between(41, 254), 1), (255, 1), (256, 1))))
    for _ in range(dice.weighted(((0, 4), (1, 4), (2, 4), (3, 1), (4, 2))) if has_folders else 0):
        fid = any_fid(dice, dice.between(1, 30))
        if all(folder.fid != fid for folder in card.folders):
            draft.add_folder(fid, dice.weighted(generate.GOOD_CREATION))
    most = dice.weighted(((12, 3), (40, 5), (100, 4), (400, 2), (4096, 0.4)))
    for _ in range(dice.weighted(((0, 1), (1, 3), (2, 4), (4, 4), (16, 1)))):
        kind = dice.pick((cards.BINARY, cards.FIXED, cards.VARIABLE, cards.CYCLIC))
        folder = draft.any_folder(dice)
        fid = draft.free_fid(dice, folder)
        if folder is not cards.ROOT and dice.chance(0.4):
            # As a file or a folder elsewhere has it.
            same = [one.fid for one in [file for file, _ in draft.files] + card.folders if one.fid & 0x1F in draft.free_sfis(folder)]
            fid = dice.pick(same) if same else fid
        made = None if fid is None else new_file(dice, fid, kind, min(most, draft.room()), folder)
        if made is not None:
            draft.files.append(made)
    if draft.files and dice.chance(0.6):
        card.current = dice.pick(draft.files)[0]
        card.folder = card.current.folder
    else:
        card.folder = draft.any_folder(dice)
    return draft.text()


def file_lines(fid, created, held, newest, contents, home=cards.ROOT_FID):
    return texts.line(b"%04X" % fid, texts.hex_of(created), b"%d" % held, b"%d" % newest, b"%04X" % home) + texts.content_lines(contents)


CREDENTIALS = b"FF" * 16 + b"\t128\t128\n" + b"39" * 16 + b"\t128\t128\n" + b"303132333435\t1\t0\n"
CREDENTIALS += b"00" * 16 + b"\t2\t1\n"
FRESH = CREDENTIALS + b"0\t0\t0\t-\t-\t0\t-\t3F00\n"


def edge_cards():
    """Texts of cards at the edges of what a card can hold."""
    longest = b"FF" * 16 + b"\t128\t128\n" + 2 * (b"39" * 16 + b"\t128\t128\n") + b"FE" * 16 + b"\t128\t128\n" + b"1\t1\t1\tFF01\t" + b"FF" * 16
    longest += b"\t1\t" + b"FF" * 256 + b"\tFF04\n" + b"".join([b"FF%02X\tC1\n" % number for number in range(1, 5)])
    for number in range(1, 17):
        count = 129 if number < 16 else 113
        home = 0xFF04 if number < 3 else 0x3F00 if number > 14 else 0xFF01
        longest += file_lines(0xFF00 + number, bytes((0x2E, count, 2, 0xC1, 0x0F)), count, count - 1, b"\xA5" * (2 * count), home)
    all_types = (b"00" * 16 + b"\t5\t5\n" + b"313233343536\t3\t2\n" + b"39" * 16 + b"\t128\t128\n" + b"5A" * 16 + b"\t1\t0\n"
                 + b"1\t0\t1\t0104\t0011223344556677\t1\t00FF5A\t3F00\n"
                 + file_lines(0x0101, b"\x28\x00\x21\x00\x01", 0, 0, bytes(range(33)))
                 + file_lines(0x0102, b"\x2A\x02\x03\x80\x00", 0, 0, bytes(range(6)))
                 + file_lines(0x0103, b"\x2E\x03\x02\xC2\x0F", 2, 2, bytes(range(6)))
                 + file_lines(0x0104, b"\x2C\x00\x08\xC6\x04", 5, 0, b"\x01\xAA\x02\xBB\xCC\x00\x00\xFF"))
    # The same SFI in root and folders, the same FID in two folders, and a file with the FID of its own folder.
    one = b"\x28\x00\x01\x00\x00"
    two_firms = (CREDENTIALS + b"0\t0\t0\t5102\t-\t0\t-\t5102\n" + b"5101\t01\n5102\t0F\n511E\tC2\n0121\t00\n"
                 + file_lines(0x0101, one, 0, 0, b"\x01") + file_lines(0x0201, one, 0, 0, b"\x02", 0x5101)
                 + file_lines(0x0101, one, 0, 0, b"\x03", 0x5102) + file_lines(0x5102, one, 0, 0, b"\x04", 0x5102)
                 + file_lines(0x5102, one, 0, 0, b"\x05", 0x511E))
    empty_folders = (CREDENTIALS + b"0\t0\t0\t-\t-\t0\t-\t0001\n" + b"001E\tC1\n0001\t82\n")
    smallest = FRESH + b"".join([file_lines(0x20 + number, b"\x28\x00\x01\x00\x00", 0, 0, b"\x77") for number in range(1, 17)])
    notes = FRESH + file_lines(0x0001, b"\x2C\x10\x00\x00\x00", 4096, 0, b"\x01\x31" * 2048)
    return FRESH, all_types, two_firms, empty_folders, smallest, notes, longest


# ---------------------------------------------------------------------------------------------------------------------
# Changes of the text, whatever it says
# ---------------------------------------------------------------------------------------------------------------------

# Bytes that stand in texts, or nearly.
LIKELY = b"\t\t\n\n00123456789ABCDEFabcdef--  \r\x00+.,xGg/:@`\x0b\x0c\x7f\x80\xff"


class Source:
    """A text to be changed, and the texts of other cards."""

    def __init__(self, text, others, form=texts.NEW):
        self.text = text
        self.others = others
        self.form = form
        self.lines = text.split(b"\n")[:-1]
        self.draft = None

    def another(self, dice):
        return dice.pick(self.others)

    def new_draft(self):
        """The card of the text, to be changed."""
        if self.draft is None:
            self.draft = Draft.of_text(self.text, self.form)
        return self.draft.copied()

    def numbers(self):
        """Line and field of every number: limits, tries, held and newest."""
        return [(line, field) for line in range(SESSION) for field in (1, 2)] + [(line, field) for line in self.files() for field in (2, 3)]

    def files(self):
        """The lines of files, contents apart."""
        tabs = 4 if self.form == texts.NEW else 3
        return [place for place, line in enumerate(self.lines) if line.count(b"\t") == tabs]

    def folders(self):
        """The lines of folders."""
        return [place for place, line in enumerate(self.lines) if line.count(b"\t") == 1]

    def with_line(self, place, *new):
        return joined(self.lines[:place] + list(new) + self.lines[place + 1:])

    def with_field(self, place, field, *new):
        fields = self.lines[place].split(b"\t")
        return self.with_line(place, b"\t".join(fields[:field] + list(new) + fields[field + 1:]))

    def field(self, place, field):
        return self.lines[place].split(b"\t")[field]

    def own_fields(self, place):
        """The fields of the session's line or a file's, without the folder that it ends with in the new form."""
        fields = self.lines[place].split(b"\t")
        return fields[:-1] if self.form == texts.NEW else fields

    def any_line(self, dice):
        """Lines with several fields come as often as contents do, though these are more."""
        places = [place for place, line in enumerate(self.lines) if b"\t" in line]
        return dice.pick(places) if dice.chance(0.5) else dice.below(len(self.lines))

    def any_field(self, dice):
        place = self.any_line(dice)
        return place, dice.below(1 + self.lines[place].count(b"\t"))


def joined(lines):
    return b"".join([line + b"\n" for line in lines])


def any_place(dice, source):
    """A byte of the text, as often of the lines with several fields as of all."""
    if dice.chance(0.5):
        return dice.below(len(source.text))
    place = source.any_line(dice)
    return sum(len(line) + 1 for line in source.lines[:place]) + dice.below(len(source.lines[place]) + 1)


def nothing(dice, source):
    return source.text


def any_byte(dice, source):
    place = any_place(dice, source)
    changed = bytearray(source.text)
    changed[place] ^= dice.between(1, 255)
    return bytes(changed)


def likely_byte(dice, source):
    place = any_place(dice, source)
    return source.text[:place] + bytes((dice.pick(LIKELY),)) + source.text[place + 1:]


def added_byte(dice, source):
    place = any_place(dice, source)
    return source.text[:place] + bytes((dice.pick(LIKELY),)) + source.text[place:]


def removed_byte(dice, source):
    place = any_place(dice, source)
    return source.text[:place] + source.text[place + 1:]


def swapped_bytes(dice, source):
    place = min(any_place(dice, source), len(source.text) - 2)
    first, second = source.text[place:place + 1], source.text[place + 1:place + 2]
    return source.text[:place] + second + first + source.text[place + 2:]


def added_field(dice, source):
    place, field = source.any_field(dice)
    old = source.field(place, field)
    new = dice.pick((b"", b"0", b"-", b"00", old))
    return source.with_field(place, field, *dice.pick(((old, new), (new, old))))


def removed_field(dice, source):
    return source.with_field(*source.any_field(dice), *dice.pick(((), (b"",))))


def changed_field(dice, source):
    """A field as another is, of this text or of another one."""
    other = Source(source.another(dice), ()) if dice.chance(0.5) else source
    place, field = source.any_field(dice)
    if dice.chance(0.5):
        # The same one, where the other text has it.
        place = min(place, len(other.lines) - 1)
        return source.with_field(place, field, (other.lines[place].split(b"\t") + [b""] * 8)[field])
    return source.with_field(place, field, other.field(*other.any_field(dice)))


def other_none(dice, source):
    """No current file, no challenge or nothing waiting, as it is written or in another way; or so in a right's place."""
    new = dice.pick((b"-", b"", b"0", b"00", b"0000", b"3F00", b"FFFF", b"--", b" ", b"none"))
    return source.with_field(SESSION, dice.pick((3, 4, 6, 3, 4, 6, 0, 1, 2)), new)


def other_mode(dice, source):
    """Another mode, or what is none, with the waiting bytes as they are or with others."""
    mode = dice.pick((b"0", b"0", b"1", b"1", b"2", b"", b"-", b"00", b"01", b"10", b"+1", b"1 ", b"A", b"257"))
    text = source.with_field(SESSION, 5, mode)
    if dice.chance(0.5):
        new = dice.pick((b"-", b"-", b"00", b"A5", b"a5", b"A", b"", b"A5A", b"A5" * 255, b"A5" * 256, b"A5" * 257))
        text = Source(text, ()).with_field(SESSION, 6, new)
    return text


def fids_near(dice, source):
    """FIDs that a field might wrongly hold: those of files and folders, the root's, and their neighbours."""
    known = [source.field(place, 0) for place in source.files() + source.folders()] + [b"3F00"]
    one = dice.pick(known)
    near = b"%04X" % (int(one, 16) ^ 1 << dice.below(16))
    return dice.pick((one, one, one, near, b"3F00", b"3F01", b"3F1F", b"0000", b"FFFF", b"003F", b"-", b"", b"0", b"1", b"00", b"3F",
                      b"3f00", b"3F0", b"3F000", b"3F003F00", one.lower(), one + b" ", one[:2], one + b"00"))


def other_home(dice, source):
    """Another folder at the end of the session's line or a file's, or none."""
    place = dice.pick([SESSION, SESSION] + source.files() * 2)
    own = source.own_fields(place)
    if dice.chance(0.15):
        return source.with_line(place, b"\t".join(own))
    if dice.chance(0.1):
        return source.with_line(place, source.lines[place] + b"\t" + fids_near(dice, source))
    return source.with_line(place, b"\t".join(own + [fids_near(dice, source)]))


def all_homes(dice, source):
    """Every line that names a folder changed alike: all in the root, all in one folder, or without the field, as in the old form."""
    new = dice.pick(([], [], [b"3F00"], [b"3F00"], [b"-"], [fids_near(dice, source)], [source.field(SESSION, -1)]))
    lines = list(source.lines)
    places = source.files() if dice.chance(0.3) else [SESSION] + source.files()
    for place in places:
        lines[place] = b"\t".join(source.own_fields(place) + new)
    if dice.chance(0.5):
        lines = [line for place, line in enumerate(lines) if place not in source.folders()]
    return joined(lines)


def in_other_form(source, places):
    """The text with these lines, the session's or files', as they are in the other form, in the root."""
    lines = list(source.lines)
    for place in places:
        lines[place] = b"\t".join(source.own_fields(place) + ([] if source.form == texts.NEW else [b"3F00"]))
    return lines


def other_form(dice, source):
    """The whole text in the other form, with the lines of folders or without."""
    lines = in_other_form(source, [SESSION] + source.files())
    if dice.chance(0.7):
        lines = [line for place, line in enumerate(lines) if place not in source.folders()]
    return joined(lines)


def line_of_other_form(dice, source):
    """The session's line alone, all but that, or one file's, in the other form."""
    files = source.files()
    return joined(in_other_form(source, dice.pick(
        ([SESSION], files, [dice.pick(files)], [SESSION, dice.pick(files)]) if files else ([SESSION],))))


def another_card(dice, source):
    """The text of another card, in either form."""
    return source.another(dice)


def other_folder(dice, source):
    """A folder's line changed: its FID, its right, a field more or less. Its files may follow it to its new FID."""
    places = source.folders()
    if not places:
        return added_folder(dice, source)
    place = dice.pick(places)
    fid, right = source.lines[place].split(b"\t")
    kind = dice.below(8)
    if kind < 2:
        low = dice.pick((0, 31, 1, 30, dice.below(32)))
        new = dice.pick((fids_near(dice, source), b"%04X" % (int(fid, 16) & 0xFFE0 | low), b"%04X" % dice.below(65536)))
        if kind == 1:
            # Wherever it is the last field or the current file's, and so in files with the same FID.
            return source.text.replace(b"\t" + fid + b"\n", b"\t" + new + b"\n").replace(b"\n" + fid + b"\t", b"\n" + new + b"\t")
        return source.with_field(place, 0, new)
    if kind < 5:
        good = [byte for byte, _ in generate.GOOD_RIGHTS]
        return source.with_field(place, 1, b"%02X" % dice.pick((dice.pick(good), dice.pick(generate.BAD_RIGHTS), dice.below(256))))
    if kind == 5:
        return source.with_field(place, 1, dice.pick((b"", b"-", b"0", b"1", b"000", b"0000", b"0f", b"c1", b" 00", b"00 ", b"0x0", b"256",
                                                      right + right, right[:1])))
    if kind == 6:
        return source.with_line(place, dice.pick((fid, right, fid + b"\t" + right + b"\t", fid + b"\t\t" + right, right + b"\t" + fid,
                                                  fid + b"\t" + right + b"\t3F00", fid + right, fid + b" " + right, b"\t" + right,
                                                  fid + b"\t38000000" + right)))
    # CREATE's five bytes, and a line as a file's is.
    created = fid + b"\t380000" + right + b"00"
    return source.with_line(place, dice.pick((created, created + b"\t0\t0", created + b"\t0\t0\t3F00")))


def added_folder(dice, source):
    """A folder more, at any place of the text or as the first or last of the folders; up to a fifth."""
    lines = list(source.lines)
    count = dice.weighted(((1, 5), (5 - len(source.folders()), 2), (4 - len(source.folders()), 2)))
    for _ in range(max(count, 1)):
        fid = dice.weighted(((any_fid(dice, dice.between(1, 30)), 8), (any_fid(dice, dice.pick((0, 31))), 1), (0x3F00, 1)))
        line = b"%04X\t%02X" % (fid, dice.weighted(generate.GOOD_CREATION))
        if dice.chance(0.2):
            line = fids_near(dice, source) + line[4:]
        first, behind = SESSION + 1, SESSION + 1 + len(source.folders())
        lines.insert(dice.weighted(((first, 3), (behind, 3), (dice.below(len(lines) + 1), 1), (len(lines), 1))), line)
    return joined(lines)


def moved_folder(dice, source):
    """Folders in another order, a folder twice, one less, or one behind a file."""
    places = source.folders()
    if not places:
        return added_folder(dice, source)
    lines = list(source.lines)
    place = dice.pick(places)
    kind = dice.below(5)
    if kind == 0:
        other = dice.pick(places)
        lines[place], lines[other] = lines[other], lines[place]
    elif kind == 1:
        lines.insert(dice.pick(places), lines[place])
    elif kind == 2:
        lines.pop(place)
    else:
        line = lines.pop(place)
        lines.insert(dice.pick((SESSION, len(lines), dice.between(SESSION + 1, len(lines)))), line)
    return joined(lines)


def swapped_fields(dice, source):
    place, field = source.any_field(dice)
    fields = source.lines[place].split(b"\t")
    other = dice.below(len(fields))
    fields[field], fields[other] = fields[other], fields[field]
    return source.with_line(place, b"\t".join(fields))


def removed_line(dice, source):
    return source.with_line(source.any_line(dice))


def doubled_line(dice, source):
    place = source.any_line(dice)
    return source.with_line(place, source.lines[place], source.lines[place])


def swapped_lines(dice, source):
    lines = list(source.lines)
    first, second = source.any_line(dice), source.any_line(dice)
    lines[first], lines[second] = lines[second], lines[first]
    return joined(lines)


def moved_line(dice, source):
    lines = list(source.lines)
    line = lines.pop(source.any_line(dice))
    lines.insert(dice.below(len(lines) + 1), line)
    return joined(lines)


def foreign_line(dice, source):
    """A line of another card, added or in the place of one."""
    other = Source(source.another(dice), ())
    place, line = source.any_line(dice), other.lines[other.any_line(dice)]
    return source.with_line(place, line, *([source.lines[place]] if dice.chance(0.5) else []))


def another_start(dice, source):
    """The first lines of another card: its credentials, its session too, or more."""
    count = dice.pick((1, 2, 3, 4, 4, 4, 5, 6))
    return joined(source.another(dice).split(b"\n")[:-1][:count] + source.lines[count:])


def carriage_return(dice, source):
    if dice.chance(0.3):
        return source.text.replace(b"\n", b"\r\n")
    place = source.any_line(dice)
    return source.with_line(place, source.lines[place] + b"\r")


def lower_case(dice, source):
    if dice.chance(0.2):
        return source.text.lower()
    place, field = source.any_field(dice)
    if dice.chance(0.5):
        return source.with_field(place, field, source.field(place, field).lower())
    place = any_place(dice, source)
    return source.text[:place] + source.text[place:place + 1].lower() + source.text[place + 1:]


def leading_zeros(dice, source):
    place, field = dice.pick(source.numbers()) if dice.chance(0.7) else source.any_field(dice)
    return source.with_field(place, field, b"0" * dice.pick((1, 1, 2, 8)) + source.field(place, field))


def signed(dice, source):
    place, field = dice.pick(source.numbers()) if dice.chance(0.8) else source.any_field(dice)
    return source.with_field(place, field, dice.pick((b"+", b"-", b"--")) + source.field(place, field))


def blanks(dice, source):
    place, field = source.any_field(dice)
    old, blank = source.field(place, field), dice.pick((b" ", b"  ", b"\t", b"\r", b"\x0b", b"\xa0", b"\x00"))
    return source.with_field(place, field, dice.pick((blank + old, old + blank, old + blank)))


def other_number(dice, source):
    place, field = dice.pick(source.numbers())
    old = int(source.field(place, field))
    new = dice.pick((0, 1, 2, 127, 128, 129, 253, 254, 255, 256, 4095, 4096, 4097, 65535, 65536, old + 1, max(old - 1, 0),
                     dice.below(300)))
    return source.with_field(place, field, b"%d" % new)


def wrapped_number(dice, source):
    """A number that is the same in a byte, in two, in four, or in eight."""
    place, field = dice.pick(source.numbers())
    new = int(source.field(place, field)) + dice.pick((1 << 8, 1 << 16, 1 << 32, 1 << 64, 3 << 8, 10 ** 30, 7 * 10 ** 300))
    return source.with_field(place, field, b"%d" % new)


def other_notation(dice, source):
    place, field = dice.pick(source.numbers())
    old = int(source.field(place, field))
    return source.with_field(place, field, dice.pick((b"%X" % old, b"%02X" % old, b"0x%X" % old, b"%d.0" % old, b"%d." % old,
                                                      b"%de0" % old, b"%d_0" % old, b"", b"-")))


def last_newline(dice, source):
    return source.text[:-1]


def newline_more(dice, source):
    place = dice.pick((0, len(source.lines), dice.below(len(source.lines) + 1)))
    return joined(source.lines[:place] + [b""] + source.lines[place:])


def other_credentials(dice, source):
    """As before there was a transport key; a credential twice, or in another's place."""
    lines = list(source.lines)
    kind = dice.below(4)
    if kind == 0:
        lines.pop(SESSION - 1)
    elif kind == 1:
        lines.insert(dice.below(SESSION + 1), lines[dice.below(SESSION)])
    elif kind == 2:
        lines.insert(dice.below(SESSION), lines.pop(SESSION - 1))
    else:
        lines[SESSION - 1] = lines[dice.below(SESSION - 1)]
    return joined(lines)


def cut_off(dice, source):
    """Behind any byte, or behind a line."""
    if dice.chance(0.5):
        return source.text[:dice.below(len(source.text))]
    return joined(source.lines[:dice.below(len(source.lines))])


def something_behind(dice, source):
    return source.text + dice.pick((bytes((dice.below(256),)), b"\n", b" ", b"\x00", b"-\n", b"\t\n", b"00\n", b"\x1a", source.text,
                                    source.another(dice), joined(source.lines[SESSION + 1:]), dice.bytes(dice.between(1, 40))))


def something_before(dice, source):
    return dice.pick((b"\n", b" ", b"\t", b"\x00", b"-\n", b"\xef\xbb\xbf", joined(source.lines[:1]),
                      bytes((dice.below(256),)))) + source.text


# ---------------------------------------------------------------------------------------------------------------------
# Changes of the card, which keep the form: some make it unsound, and some just do not
# ---------------------------------------------------------------------------------------------------------------------


def limit(dice, draft):
    credential = dice.pick(draft.credentials)
    credential.limit = dice.pick((0, 1, 2, 127, 128, 128, 129, 130, 255, 256, 257, 384, 65535))
    credential.tries = dice.pick((credential.tries, credential.limit, credential.limit, 0))


def tries(dice, draft):
    credential = dice.pick(draft.credentials)
    credential.tries = dice.pick((0, credential.limit - 1, credential.limit, credential.limit + 1, 128, 129, 255, 256,
                                  credential.limit + 256))


def held_right(dice, draft):
    credential = dice.pick(draft.credentials[:3])
    credential.held = dice.chance(0.8)
    if dice.chance(0.7):
        credential.tries = dice.pick((0, credential.limit - 1, credential.limit, credential.limit))


def current_file(dice, draft):
    files = [file for file, _ in draft.files]
    kind = dice.below(4)
    if kind == 0 or not files:
        draft.card.current = None
    elif kind == 1:
        draft.card.current = dice.pick(files)
        if dice.chance(0.6):
            draft.card.folder = draft.card.current.folder
    if kind > 1:
        # One that no file has, mostly: near one that is there, or the root.
        near = dice.pick(files).fid if files else 0x3F00
        fid = dice.pick((near ^ 1 << dice.below(16), 0x3F00, 0x0000, 0xFFFF, dice.below(65536)))
        draft.card.current = cards.File(fid, 0, 0, 0, 0, 0, 0, 0)


def current_folder(dice, draft):
    """Another current folder, or one that is not there, with the current file as it is, with none or with one that lies there."""
    card = draft.card
    card.folder = draft.any_folder(dice) if dice.chance(0.85) else cards.Folder(any_fid(dice, dice.below(32)), 0)
    there = [file for file, _ in draft.files if file.folder is card.folder]
    kind = dice.below(3)
    if kind == 0:
        card.current = None
    elif kind == 1 and there:
        card.current = dice.pick(there)


def file_folder(dice, draft):
    """A file that lies elsewhere, with the FID that it has or with one that is free there."""
    if not draft.files:
        return
    if not draft.card.folders:
        draft.add_folder(any_fid(dice, dice.between(1, 30)), dice.weighted(generate.GOOD_CREATION))
    file, _ = dice.pick(draft.files)
    file.folder = draft.any_folder(dice) if dice.chance(0.9) else cards.Folder(any_fid(dice, dice.between(1, 30)), 0)
    if dice.chance(0.4):
        free = draft.free_sfis(file.folder)
        file.fid = any_fid(dice, dice.pick(free)) if free else file.fid
    if dice.chance(0.5):
        draft.card.current, draft.card.folder = dice.pick(((None, cards.ROOT), (file, file.folder)))


def folder_fid(dice, draft):
    """A folder with another FID: of a file, of another folder, with low bits at their edges, or any."""
    folders, files = draft.card.folders, [file for file, _ in draft.files]
    if not folders or len(folders) < cards.MOST_FOLDERS and dice.chance(0.5):
        draft.add_folder(any_fid(dice, dice.between(1, 30)), dice.weighted(generate.GOOD_CREATION))
    folder = dice.pick(folders)
    here = [file for file in files if file.folder is cards.ROOT]
    fid = dice.weighted((
        (any_fid(dice, dice.pick((0, 31))), 2), (any_fid(dice, dice.pick((1, 30))), 2), (dice.pick(folders).fid, 2),
        (dice.pick(here).fid if here else 0x3F00, 3), (dice.pick(here).fid ^ 0x20 << dice.below(11) if here else 0x3F01, 2),
        (dice.pick(files).fid if files else 0x3F1F, 2), (any_fid(dice, dice.between(1, 30)), 2)))
    folder.fid = fid


def folder_right(dice, draft):
    if not draft.card.folders:
        draft.add_folder(any_fid(dice, dice.between(1, 30)), 0)
    dice.pick(draft.card.folders).right = dice.pick((
        dice.weighted(generate.GOOD_CREATION), dice.weighted(generate.GOOD_RIGHTS), dice.pick(generate.BAD_CREATION), dice.below(256)))


def more_folders(dice, draft):
    """Four folders, or five."""
    count = dice.pick((4, 4, 5, 5, 6))
    while len(draft.card.folders) < count:
        draft.add_folder(any_fid(dice, dice.between(1, 30)), dice.weighted(generate.GOOD_CREATION))


def same_sfi(dice, draft):
    """A file with the SFI or the whole FID of another one, or the FID of a folder, there or elsewhere."""
    if not draft.files or len(draft.files) >= cards.MOST_FILES or draft.room() < 2:
        return
    if not draft.card.folders:
        draft.add_folder(any_fid(dice, dice.between(1, 30)), dice.weighted(generate.GOOD_CREATION))
    folder = draft.any_folder(dice)
    like = dice.pick([file for file, _ in draft.files] + draft.card.folders).fid
    fid = dice.pick((like, like, like ^ 0x20 << dice.below(11)))
    draft.files.append(new_file(dice, fid, dice.pick((cards.BINARY, cards.CYCLIC)), min(4, draft.room()), folder))


def fewer_folders(dice, draft):
    """A folder less, with its files or without, or folders in another order."""
    folders = draft.card.folders
    if not folders:
        return
    if dice.chance(0.4):
        folders.append(folders.pop(0))
        return
    gone = folders.pop(dice.below(len(folders)))
    if dice.chance(0.6):
        for file, _ in draft.files:
            if file.folder is gone:
                file.folder = draft.any_folder(dice)
        if draft.card.folder is gone:
            draft.card.folder = cards.ROOT
        if dice.chance(0.7):
            draft.card.current = None


def challenge(dice, draft):
    draft.card.challenge = dice.bytes(dice.pick((0, 4, 4, 8, 8, 16, 16, 1, 3, 5, 7, 9, 12, 15, 17, 32)))


def waiting(dice, draft):
    """In mode 1 any number of bytes up to 256 may wait, in mode 0 none."""
    draft.card.mode = dice.weighted(((0, 3), (1, 9), (2, 1), (255, 1)))
    draft.card.waiting = dice.bytes(dice.pick((0, 0, 1, 2, dice.between(3, 254), 255, 256, 256, 257, 257, 258, 512)))


def value(dice, draft):
    place = dice.pick((0, 1, 1, 2, 2, 3))
    if place in (0, 3):
        new = dice.bytes(dice.pick((16, 16, 16, 1, 6, 15, 17, 32)))
    else:
        new = bytearray(dice.digits(dice.pick((6, 7, 15, 16, 6, 16, 1, 5, 17, 20))))
        if dice.chance(0.3):
            new[dice.below(len(new))] = dice.pick(generate.NOT_DIGITS)
    draft.credentials[place].value = bytes(new)


def fid(dice, draft):
    if not draft.files:
        return
    file, _ = dice.pick(draft.files)
    others = [other.sfi for other, _ in draft.files if other is not file and other.folder is file.folder]
    free = sorted(set(range(1, 31)) - set(others))
    sfi = dice.weighted((
        (0, 1), (31, 1), (dice.pick(others) if others else 0, 2), (1 if 1 in free else 31, 1), (30 if 30 in free else 0, 1),
        (dice.pick(free), 3)))
    file.fid = any_fid(dice, sfi)


def set_created(file, created):
    """Type, size and rights by CREATE's five bytes; the rest stays."""
    file.kind, first, second, file.read, file.write = created
    file.size = file.count = file.length = 0
    if file.kind in (cards.BINARY, cards.VARIABLE):
        file.size = first << 8 | second
    else:
        file.count, file.length = first, second


def file_type(dice, draft):
    if not draft.files:
        return
    place = dice.below(len(draft.files))
    file, contents = draft.files[place]
    created = bytearray(texts.created_bytes(file))
    if dice.chance(0.3):
        created[0] = dice.pick(generate.BAD_TYPES)
        set_created(file, created)
        return
    created[0] = dice.pick((cards.BINARY, cards.FIXED, cards.VARIABLE, cards.CYCLIC))
    extent = len(contents)
    if created[0] in (cards.BINARY, cards.VARIABLE):
        created[1:3] = struct.pack(">H", extent)
    elif file.kind not in (cards.FIXED, cards.CYCLIC):
        # As many records of 1 or of 2 as its bytes are.
        length = 1 + (extent % 2 == 0)
        created[1:3] = bytes((min(extent // length, 255), length))
    old_kind, used = file.kind, file.used
    set_created(file, created)
    if dice.chance(0.7):
        file.records, file.newest, file.used = 0, 0, used if old_kind == file.kind else 0


def size(dice, draft):
    if not draft.files:
        return
    place = dice.below(len(draft.files))
    file, contents = draft.files[place]
    old = file.extent
    if file.kind in (cards.BINARY, cards.VARIABLE):
        file.size = dice.weighted(((file.size + 1, 4), (max(file.size - 1, 0), 4), (dice.pick((0, 1, 2, 31, 32, 33, 64)), 4),
                                   (dice.pick((4095, 4096, 4097)), 0.3), (min(file.size + 4096, 65535), 0.2)))
    elif dice.chance(0.5):
        near = max(file.count - 1, 0), min(file.count + 1, 255)
        file.count = dice.pick((0, 1, 2, 254, 255) + near if file.length < 9 else (0, 1, 2))
    else:
        near = max(file.length - 1, 0), min(file.length + 1, 255)
        file.length = dice.pick((0, 1) + near + ((178, 179, 255) if file.count < 4 else ()))
    if dice.chance(0.75):
        draft.set_contents(place, contents[:file.extent].ljust(file.extent, b"\x00"))
    elif file.extent == old:
        draft.set_contents(place, contents[:-1])


def rights_byte(dice, draft):
    if not draft.files:
        return
    file, _ = dice.pick(draft.files)
    byte = dice.pick((dice.weighted(generate.GOOD_RIGHTS), dice.pick(generate.BAD_RIGHTS), dice.below(256)))
    if dice.chance(0.5):
        file.read = byte
    else:
        file.write = byte


def held_and_newest(dice, draft):
    if not draft.files:
        return
    place = draft.of_kind(dice, cards.CYCLIC)
    if place is None or dice.chance(0.15):
        file, _ = dice.pick(draft.files)
        if file.kind != cards.VARIABLE:
            file.records = dice.pick((0, 1, file.count))
        file.newest = dice.pick((0, 1, 255))
        return
    file, _ = draft.files[place]
    file.records = dice.pick((file.records, 0, 1, file.count - 1, file.count, file.count, file.count + 1, 255, file.records + 256))
    file.newest = dice.pick((file.newest, 0, 0, 1, file.count - 1, file.count - 1, file.count, 255, file.newest + 256))


def variable_place(dice, draft):
    """The place of a 2C file, which is added where there is none."""
    place = draft.of_kind(dice, cards.VARIABLE)
    if place is None and draft.room() > 40 and draft.free_sfis() and len(draft.files) < cards.MOST_FILES:
        fid = draft.free_fid(dice, cards.ROOT)
        if fid is None:
            return None
        draft.files.append(new_file(dice, fid, cards.VARIABLE, 40))
        place = len(draft.files) - 1
    return place


def record_starts(file, contents):
    """Where the lengths of the records stand."""
    starts, at = [], 0
    while at < min(file.used, len(contents)):
        starts.append(at)
        at += 1 + contents[at]
    return starts


def used_bytes(dice, draft):
    place = variable_place(dice, draft)
    if place is None:
        return
    file, contents = draft.files[place]
    ends = record_starts(file, contents) + [file.used]
    end = dice.pick(ends)
    file.used = dice.pick((end, end, end, max(end - 1, 0), end + 1, file.size, file.size + 1, end + 256, end + 65536))


def record_length(dice, draft):
    place = variable_place(dice, draft)
    if place is None:
        return
    file, contents = draft.files[place]
    starts = record_starts(file, contents)
    if not starts:
        return
    changed = bytearray(contents)
    which = dice.below(len(starts))
    at = starts[which]
    length = changed[at]
    kind = dice.below(8)
    if kind == 7 and length >= 2 and at + 1 < len(changed):
        # A record of no bytes, and the rest as another.
        changed[at:at + 2] = bytes((0, length - 1))
    elif kind == 6:
        # The last record ends past the space, by a byte or two, and all its bytes count as used.
        file.used = file.size + dice.between(1, 2)
        changed[starts[-1]] = min(255, file.used - starts[-1] - 1)
    elif kind == 0 and which + 1 < len(starts):
        # Two records made one, which may be too long.
        changed[at] = min(255, length + 1 + changed[starts[which + 1]])
    elif kind in (1, 2) and length >= 3 and at + length < len(changed):
        # One record made two.
        first = dice.between(1, length - 2)
        changed[at], changed[at + 1 + first] = first, length - first - 1
    elif kind == 3:
        # The used bytes parted in another way.
        changed[:file.used] = parted(dice, file.used)
    else:
        changed[at] = dice.pick((0, 1, max(length - 1, 0), min(length + 1, 255), 177, 178, 179, 254, 255))
    draft.set_contents(place, changed)


def long_record(dice, draft):
    """A 2C file with a record of about the longest length, and some others."""
    place = variable_place(dice, draft)
    if place is None:
        return
    file, _ = draft.files[place]
    length = dice.pick((177, 178, 178, 179, 179, 180, 255))
    parts = [parted(dice, 2), bytes((length,)) + b"\x01" * length, parted(dice, dice.pick((0, 3)))]
    contents = b"".join(parts[dice.below(2):])
    file.used = len(contents)
    file.size = file.used + dice.below(3)
    draft.set_contents(place, contents.ljust(file.size, b"\x00"))


def free_bytes(dice, draft):
    """Bytes that no record has: past the used ones of 2C, in places of 2E; or those of a file where any will do."""
    if not draft.files:
        return
    place = dice.below(len(draft.files))
    file, contents = draft.files[place]
    if file.used < len(contents):
        changed = bytearray(contents)
        for _ in range(dice.pick((1, 1, 5))):
            changed[dice.between(file.used, len(contents) - 1)] = dice.below(256)
        draft.set_contents(place, changed)


def more_files(dice, draft):
    """Sixteen files, or seventeen, of a few bytes each."""
    count = dice.pick((16, 16, 17, 17, 18, 30))
    for _ in range(2 * count):
        folder = draft.any_folder(dice)
        fid = draft.free_fid(dice, folder)
        if len(draft.files) == count or draft.room() < 1:
            return
        if fid is not None:
            kind = dice.pick((cards.BINARY, cards.FIXED, cards.VARIABLE, cards.CYCLIC))
            draft.files.append(new_file(dice, fid, kind, min(4, draft.room()), folder))


def full_area(dice, draft):
    """A last file that takes all the room, one byte less, or one or more bytes more."""
    if len(draft.files) == cards.MOST_FILES:
        draft.files.pop()
    if not draft.files:
        draft.card.current = None
    wanted = draft.room() + dice.pick((-1, 0, 0, 1, 1, 2, 32, 4096))
    if not 1 <= wanted <= 4096 or not draft.free_sfis():
        return
    made = cards.File(any_fid(dice, dice.pick(draft.free_sfis())), cards.BINARY, wanted, 0, 0, 0, 0, 0)
    draft.files.append((made, dice.bytes(1) * wanted))


def other_files(dice, draft):
    """A file less, a file twice, or the files in another order."""
    if not draft.files:
        return
    kind = dice.below(3)
    first, second = dice.below(len(draft.files)), dice.below(len(draft.files))
    if kind == 0:
        draft.files.pop(first)
    elif kind == 1:
        draft.files.insert(second, draft.files[first])
    else:
        draft.files[first], draft.files[second] = draft.files[second], draft.files[first]


UNCHANGED = "nothing changed"
TEXT_CHANGES = (
    (UNCHANGED, nothing, 3),
    ("a byte changed to any other", any_byte, 24),
    ("a byte changed to a likely one", likely_byte, 30),
    ("a byte added", added_byte, 12),
    ("a byte removed", removed_byte, 9),
    ("two bytes swapped", swapped_bytes, 6),
    ("a field added", added_field, 6),
    ("a field removed", removed_field, 6),
    ("a field as another is", changed_field, 12),
    ("no file, challenge or waiting bytes, in some form", other_none, 12),
    ("another mode", other_mode, 9),
    ("another directory on a line", other_home, 18),
    ("another directory on all lines", all_homes, 6),
    ("a directory's line changed", other_folder, 18),
    ("a directory's line added", added_folder, 9),
    ("a directory's line moved", moved_folder, 9),
    ("two fields of a line swapped", swapped_fields, 6),
    ("a line removed", removed_line, 6),
    ("a line doubled", doubled_line, 6),
    ("two lines swapped", swapped_lines, 6),
    ("a line moved", moved_line, 6),
    ("a line of another card", foreign_line, 6),
    ("the first lines of another card", another_start, 9),
    ("credentials missing, twice or elsewhere", other_credentials, 9),
    ("CR before a newline", carriage_return, 3),
    ("lower case", lower_case, 9),
    ("leading zeros", leading_zeros, 6),
    ("a sign", signed, 3),
    ("blanks", blanks, 6),
    ("another number", other_number, 12),
    ("a number that wraps", wrapped_number, 6),
    ("a number in another notation", other_notation, 3),
    ("no last newline", last_newline, 3),
    ("a newline more", newline_more, 3),
    ("cut off", cut_off, 9),
    ("something behind", something_behind, 6),
    ("something before", something_before, 3),
)
CARD_CHANGES = (
    ("limit", limit, 9),
    ("tries", tries, 9),
    ("held right", held_right, 9),
    ("current file", current_file, 9),
    ("current directory", current_folder, 12),
    ("a file's directory", file_folder, 12),
    ("a directory's FID", folder_fid, 15),
    ("creation right", folder_right, 9),
    ("four directories or more", more_folders, 4),
    ("an SFI or FID that stands elsewhere", same_sfi, 12),
    ("directories less or in another order", fewer_folders, 9),
    ("challenge", challenge, 6),
    ("mode and waiting bytes", waiting, 12),
    ("key or PIN", value, 9),
    ("FID", fid, 9),
    ("file type", file_type, 9),
    ("file size", size, 12),
    ("rights byte", rights_byte, 9),
    ("held and newest", held_and_newest, 12),
    ("used bytes of 2C", used_bytes, 12),
    ("record lengths of 2C", record_length, 15),
    ("the longest record of 2C", long_record, 4),
    ("free bytes", free_bytes, 6),
    ("16 files or more", more_files, 4),
    ("the area full, or more", full_area, 2),
    ("other files", other_files, 6),
)
FORM_CHANGES = (
    ("the other form", other_form, 24),
    ("lines of the other form", line_of_other_form, 24),
    ("the text of another card", another_card, 12),
)


def weighed(*tables):
    """The changes of these tables, each as often as it weighs, and whether it is one of a card."""
    return [(name, change, table is CARD_CHANGES) for table in tables for name, change, weight in table for _ in range(weight)]


CHANGES = weighed(TEXT_CHANGES, CARD_CHANGES)
CHANGES_TO_CONVERT = weighed(TEXT_CHANGES, CARD_CHANGES, FORM_CHANGES)


def changed_text(dice, source, changes=CHANGES):
    """A text made from another one, and the name of the change."""
    name, change, is_card = dice.pick(changes)
    if not is_card:
        return name, change(dice, source)
    draft = source.new_draft()
    change(dice, draft)
    if dice.chance(0.05):
        # Two changes at once, of which one may be good.
        name = "two changes of the card"
        dice.pick(CARD_CHANGES)[1](dice, draft)
    return name, draft.text(source.form)


def really_changed(dice, source, changes=CHANGES):
    """The same, and not the text that it was made from, unless that is the change."""
    name, text = changed_text(dice, source, changes)
    while text == source.text and name != UNCHANGED:
        name, text = changed_text(dice, source, changes)
    return name, text


def changed_texts(dice, count, kept):
    """So many changed texts of cards: those at the edges first, then mostly random ones and those of scripts in kept."""
    edges = edge_cards()
    others = [random_card(dice) for _ in range(20)]
    for number in range(count):
        turn, rest = divmod(number, CHANGES_A_CARD)
        if rest == 0:
            text = edges[turn] if turn < len(edges) else dice.weighted((
                (random_card(dice), 75), (dice.pick(kept) if kept else FRESH, 20), (dice.pick(edges), 2)))
            others[dice.below(len(others))] = text
            source = Source(text, others)
        yield really_changed(dice, source)


def has_folders(text):
    return bool(texts.from_text(text)[0].folders)


def in_form(text, form):
    """The lines of that card in that form; in the old one it has no folder."""
    return texts.to_text(*texts.from_text(text), form)


def edges_to_convert(form):
    """The cards at the edges that have lines of that form, and the longest text of one without folders."""
    known = edge_cards()
    home = b"\tFF01\n"
    longest = known[-1].replace(b"\tFF04\n", home)
    longest = b"".join([line for line in longest.replace(home, b"\t3F00\n").splitlines(True) if line.count(b"\t") != 1])
    return [in_form(text, form) for text in known + (longest,) if form == texts.NEW or not has_folders(text)]


def texts_to_convert(dice, count, form, kept):
    """So many changed texts that are given as ones of that form, as changed_texts has them. Of the new ones more than half have no
    folder, since only these can be converted."""
    edges = edges_to_convert(form)
    kept = [text for text in kept if form == texts.NEW or not has_folders(text)]

    def any_card():
        may_have_folders = form == texts.NEW and dice.chance(0.6)
        return dice.weighted((
            (random_card(dice, may_have_folders), 75), (dice.pick(kept) if kept else FRESH, 20), (dice.pick(edge_cards()), 2)))

    others = [random_card(dice, dice.chance(0.5)) for _ in range(20)]
    others += [in_form(random_card(dice, False), texts.OLD) for _ in range(20)]
    for number in range(count):
        turn, rest = divmod(number, CHANGES_A_CARD)
        if rest == 0:
            text = edges[turn] if turn < len(edges) else None
            while text is None:
                text = any_card()
                text = None if form == texts.OLD and has_folders(text) else in_form(text, form)
            others[dice.below(len(others))] = text
            source = Source(text, others, form)
        yield really_changed(dice, source, CHANGES_TO_CONVERT)


def random_texts(dice):
    """Bytes that are no text, up to 65,536."""
    for length in list(range(0, 40)) + [255, 256, 4096, 9442, 9558, 9559, 9560, 16384, 65535, 65536]:
        yield dice.bytes(min(length, 4096)).ljust(length, bytes((dice.below(256),)))
        yield bytes([dice.pick(b"\t\n0123456789ABCDEF-") for _ in range(min(length, 4096))]).ljust(length, b"0")
        yield dice.pick((b"\n", b"\t", b"0", b"\x00", b"-")) * length
    longest = edge_cards()[-1]
    for length in (9560, 10000, 65536):
        yield longest.ljust(length, b"\n")
        yield longest + dice.bytes(length - len(longest))
        yield (longest * 8)[:length]


def conversions(seed, count, kept, put):
    """Puts so many changed texts each way to convert, and before them those at the edges, each with buffers of all lengths."""
    for form in (texts.OLD, texts.NEW):
        dice = generate.Dice(2 * seed + (form == texts.NEW) ^ 0xC0DE)
        for text in edges_to_convert(form):
            put(conversion_record("at an edge", text, form, all_rooms=True))
            put(conversion_record("at an edge, and cut off", text[:-1], form, all_rooms=True))
        for text in random_texts(dice):
            put(conversion_record("random bytes", text, form))
        for kind, text in texts_to_convert(dice, count, form, kept):
            put(conversion_record(kind, text, form))


def texts_and_cards(seed, count, put):
    """Puts scripts, cards and so many changed texts; the texts of some cards are kept."""
    dice = generate.Dice(seed)
    kept = []
    lines, number = count // SHARE_OF_LINES, 0
    while lines > 0:
        played(1000 * seed + number, min(lines, LINES_A_SCRIPT), put, kept.append)
        lines -= LINES_A_SCRIPT
        number += 1
    for text in edge_cards():
        put(card_record(b"L", *texts.from_text(text)))
    for text in random_texts(dice):
        put(text_record("random bytes", text))
    kept = [text for text in kept if len(text) < 3000]
    for kind, text in changed_texts(dice, count, kept):
        put(text_record(kind, text))
    return kept


def cases(seed, count, converted, put):
    """Puts all cases of a seed."""
    kept = texts_and_cards(seed, count, put) if count > 0 else []
    if converted > 0:
        conversions(seed, converted, kept, put)


def main():
    parser = argparse.ArgumentParser(
        prog="python3 tests/model/text_cases.py", description=__doc__, formatter_class=argparse.RawDescriptionHelpFormatter)
    parser.add_argument("seed", metavar="SEED", type=generate.number)
    parser.add_argument("count", metavar="COUNT", type=generate.number)
    parser.add_argument("converted", metavar="CONVERSIONS", type=generate.number)
    asked = parser.parse_args()
    cases(asked.seed, asked.count, asked.converted, sys.stdout.buffer.write)


if __name__ == "__main__":
    main()
