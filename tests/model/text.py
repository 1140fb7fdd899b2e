"""Requests R-4, R-8 and, for the lines that they add to, R-6 and R-9 of document 02, over the model of the card: a whole card
written as lines, and read from them, in the new form of R-8 or in the old one; and a text of one form made into one of the other.

The new form is the one that writer and reader use. The old one has no directories and no field that names one: only a card
without a directory has lines of that form, and all files read from them lie in the root.

Written from the papers alone, as the card is. The reader takes the text apart line by line and field by field, and refuses
where one is not as the papers say. What it has read it then judges as a card. It never writes a text again to see whether it
is the same: that this is so is for the tests to see.
"""

import re

import card as cards

BYTES_A_LINE = 32
NONE = b"-"

HEX = re.compile(rb"(?:[0-9A-F]{2})+")
# Decimal without leading zeros. No number of a sound card is over 4,096, so one of more digits is refused here at once.
NUMBER = re.compile(rb"0|[1-9][0-9]{0,3}")
FLAGS = {b"0": False, b"1": True}
MODES = {b"0": cards.AT_ONCE, b"1": cards.FETCHED}
OLD, NEW = "old", "new"


# ---------------------------------------------------------------------------------------------------------------------
# The writer
# ---------------------------------------------------------------------------------------------------------------------


def hex_of(data):
    return data.hex().upper().encode("ascii")


def number(value):
    return b"%d" % value


def line(*fields):
    return b"\t".join(fields) + b"\n"


def credential_line(credential):
    return line(hex_of(credential.value), number(credential.limit), number(credential.tries))


def fid_of(fid):
    return b"%04X" % fid


ROOT_FIELD = fid_of(cards.ROOT_FID)


def home_field(folder):
    """What a line ends with: a folder's FID, or 3F00 for the root."""
    return ROOT_FIELD if folder is cards.ROOT else fid_of(folder.fid)


def session_line(card, form=NEW):
    rights = [number(credential.held) for credential in (card.device, card.admin, card.user)]
    current = NONE if card.current is None else fid_of(card.current.fid)
    challenge = NONE if card.challenge == cards.NO_CHALLENGE else hex_of(card.challenge)
    waiting = NONE if card.waiting == cards.NOTHING_WAITS else hex_of(card.waiting)
    homes = [home_field(card.folder)] if form == NEW else []
    return line(*rights, current, challenge, number(card.mode), waiting, *homes)


def folder_line(folder):
    return line(fid_of(folder.fid), hex_of(bytes((folder.right,))))


def created_bytes(file):
    """CREATE's five bytes: type, two size bytes, read and write right."""
    if file.kind in (cards.BINARY, cards.VARIABLE):
        first, second = file.size >> 8, file.size & 0xFF
    else:
        first, second = file.count, file.length
    return bytes((file.kind, first, second, file.read, file.write))


def file_line(file, form=NEW):
    held = file.used if file.kind == cards.VARIABLE else file.records
    homes = [home_field(file.folder)] if form == NEW else []
    return line(fid_of(file.fid), hex_of(created_bytes(file)), number(held), number(file.newest), *homes)


def content_lines(contents):
    parts = [contents[place:place + BYTES_A_LINE] for place in range(0, len(contents), BYTES_A_LINE)]
    return b"".join([line(hex_of(part)) for part in parts])


def to_text(card, area, form=NEW):
    """The lines of a card and the bytes of its files. Only of a sound card are they the lines of one."""
    if form == OLD and card.folders:
        raise ValueError("a card with directories has no lines of the old form")
    text = [credential_line(credential) for credential in (card.device, card.admin, card.user, card.transport)]
    text.append(session_line(card, form))
    text += [folder_line(folder) for folder in card.folders]
    for file in card.files:
        text.append(file_line(file, form))
        text.append(content_lines(bytes(area[file.start:file.start + file.extent])))
    return b"".join(text)


# ---------------------------------------------------------------------------------------------------------------------
# The reader
# ---------------------------------------------------------------------------------------------------------------------


class NotACard(Exception):
    """The text is not the lines of a sound card."""


class Lines:
    """The lines of a text, taken one by one. Each ends in a newline, so that behind the last newline nothing may stand."""

    def __init__(self, text):
        *lines, rest = text.split(b"\n")
        if rest != b"":
            raise NotACard
        self.left = lines[::-1]

    def next_has(self, count):
        """Whether there is another line, and it has so many fields."""
        return bool(self.left) and self.left[-1].count(b"\t") + 1 == count

    def take(self, count):
        """The fields of the next line, which has so many."""
        if not self.left:
            raise NotACard
        fields = self.left.pop().split(b"\t")
        if len(fields) != count:
            raise NotACard
        return fields


def read_bytes(field, count=None):
    """The bytes of a field in upper-case hex, at least one; so many where a count is given."""
    if HEX.fullmatch(field) is None or count is not None and len(field) != 2 * count:
        raise NotACard
    return bytes.fromhex(field.decode("ascii"))


def read_number(field):
    if NUMBER.fullmatch(field) is None:
        raise NotACard
    return int(field)


def read_flag(field):
    if field not in FLAGS:
        raise NotACard
    return FLAGS[field]


def read_mode(field):
    if field not in MODES:
        raise NotACard
    return MODES[field]


def read_fid(field):
    high, low = read_bytes(field, 2)
    return high << 8 | low


def read_credential(lines):
    value, limit, tries = lines.take(3)
    credential = cards.Credential(read_bytes(value), read_number(limit))
    credential.tries = read_number(tries)
    return credential


def read_folder(lines):
    fid, right = lines.take(2)
    return cards.Folder(read_fid(fid), read_bytes(right, 1)[0])


def take_with_home(lines, count, form):
    """So many fields of the next line, and its last one, which names a folder. In the old form all is in the root."""
    if form == OLD:
        return lines.take(count), ROOT_FIELD
    *fields, home = lines.take(count + 1)
    return fields, home


def read_home(card, field):
    """The folder that such a field names: the root, or one of those before the files."""
    fid = read_fid(field)
    if fid == cards.ROOT_FID:
        return cards.ROOT
    for folder in card.folders:
        if folder.fid == fid:
            return folder
    raise NotACard


def read_file(lines, start, card, form):
    """A file from its line. Its bytes begin there in the area; how many lines they take is for its size to say."""
    fields, home = take_with_home(lines, 4, form)
    fid, created, held, newest = fields
    kind, first, second, read, write = read_bytes(created, 5)
    if kind in (cards.BINARY, cards.VARIABLE):
        size, count, length = first << 8 | second, 0, 0
    else:
        size, count, length = 0, first, second
    if not cards.is_file_shape(kind, size, count, length):
        raise NotACard
    file = cards.File(read_fid(fid), kind, size, count, length, read, write, start)
    if kind == cards.VARIABLE:
        file.used = read_number(held)
    else:
        file.records = read_number(held)
    file.newest = read_number(newest)
    file.folder = read_home(card, home)
    return file


def read_contents(lines, size):
    """32 bytes a line, the rest in the last."""
    contents = bytearray()
    while len(contents) < size:
        field, = lines.take(1)
        contents += read_bytes(field, min(BYTES_A_LINE, size - len(contents)))
    return contents


def file_with(card, fid):
    """The file of the current folder with that FID: the current file lies there."""
    for file in card.files:
        if file.fid == fid and file.folder is card.folder:
            return file
    raise NotACard


def read_card(lines, form):
    """The card of the lines and the data area that goes with it."""
    card = cards.Card()
    card.device, card.admin, card.user, card.transport = [read_credential(lines) for _ in range(4)]
    fields, home = take_with_home(lines, 7, form)
    *rights, current, challenge, mode, waiting = fields
    card.device.held, card.admin.held, card.user.held = [read_flag(right) for right in rights]
    if challenge != NONE:
        card.challenge = read_bytes(challenge)
    card.mode = read_mode(mode)
    if waiting != NONE:
        card.waiting = read_bytes(waiting)

    # The current folder and the current file are named before folders and files are.
    while form == NEW and lines.next_has(2):
        card.folders.append(read_folder(lines))
    card.folder = read_home(card, home)
    contents = bytearray()
    while lines.left:
        file = read_file(lines, len(contents), card, form)
        contents += read_contents(lines, file.extent)
        card.files.append(file)
    if current != NONE:
        card.current = file_with(card, read_fid(current))

    if len(contents) > cards.AREA_SIZE:
        raise NotACard
    # Bytes past the last file are 00.
    area = contents.ljust(cards.AREA_SIZE, b"\x00")
    if not cards.is_sound(card, area):
        raise NotACard
    return card, area


def from_text(text, form=NEW):
    """The card of a text and its data area, or None where the text is not the lines of a sound card."""
    try:
        return read_card(Lines(text), form)
    except NotACard:
        return None


# ---------------------------------------------------------------------------------------------------------------------
# The calls
# ---------------------------------------------------------------------------------------------------------------------

SHORT_TEXT, BAD_TEXT, FOLDER_PRESENT = 10, 11, 13


def put(text, buffer):
    """The outcome, and how many bytes of the text buffer were written. A refusal writes nothing."""
    if len(buffer) < len(text):
        return SHORT_TEXT, 0
    buffer[:len(text)] = text
    return 0, len(text)


def write(card, area, buffer):
    """The outcome and the count, as put has them."""
    if len(area) != cards.AREA_SIZE:
        return 2, 0
    if not cards.is_sound(card, area):
        return 4, 0
    return put(to_text(card, area), buffer)


def read(area, text):
    """The outcome and the card. A refusal gives a blank state and leaves the area as it was."""
    if len(area) != cards.AREA_SIZE:
        return 2, cards.Card()
    found = from_text(text)
    if found is None:
        return BAD_TEXT, cards.Card()
    card, area[:] = found
    return 0, card


def to_new(text, buffer):
    """An old text made a new one, with every file in the root. The outcome and the count, as put has them."""
    found = from_text(text, OLD)
    if found is None:
        return BAD_TEXT, 0
    return put(to_text(*found, NEW), buffer)


def to_old(text, buffer):
    """A new text made an old one, only where there is no directory. The outcome and the count, as put has them."""
    found = from_text(text, NEW)
    if found is None:
        return BAD_TEXT, 0
    card, area = found
    if card.folders:
        return FOLDER_PRESENT, 0
    return put(to_text(card, area, OLD), buffer)
