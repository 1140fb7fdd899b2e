"""A second reading of document 01, with requests R-1, R-2, R-5 to R-7 and R-9 of document 02: the card, in plain Python.

This model was written from the papers alone. It exists to be compared with the proved program, so it favours the
order and the words of the papers over speed or cleverness, and shares nothing with the code that it is compared to.
Numbers with two hex digits in the commands are hex, as in document 01. A directory of R-7 is a folder here, since document 01
calls the table of all files the directory.
"""

from functools import lru_cache

# ---------------------------------------------------------------------------------------------------------------------
# AES-128 of one block (FIPS 197)
# ---------------------------------------------------------------------------------------------------------------------


def _times_x(value):
    """A byte times x in the field of FIPS 197, 4.2.1."""
    value <<= 1
    return value ^ 0x11B if value & 0x100 else value


def _times(left, right):
    """The product of two bytes in that field, 4.2."""
    product = 0
    while right:
        if right & 1:
            product ^= left
        left = _times_x(left)
        right >>= 1
    return product


def _s_box():
    """The S-box of 5.1.1: the inverse of the byte, then the affine step.

    The powers of 03 are all the bytes but 00, and F6 is the inverse of 03, so walking the powers of both side by side
    meets every byte together with its inverse. 00 stands for its own inverse.
    """
    box = [0x63] * 256
    value, inverse = 1, 1
    for _ in range(255):
        result = 0x63
        for turn in range(5):
            result ^= ((inverse << turn) | (inverse >> (8 - turn))) & 0xFF
        box[value] = result
        value, inverse = _times(value, 0x03), _times(inverse, 0xF6)
    return box


S_BOX = _s_box()
TIMES_2 = [_times_x(value) for value in range(256)]
TIMES_3 = [_times_x(value) ^ value for value in range(256)]

# Where each byte of a block comes from when row r turns left by r (the bytes stand column by column).
SHIFTED = [(place + 4 * (place % 4)) % 16 for place in range(16)]


@lru_cache(maxsize=256)
def _round_keys(key):
    """Eleven keys of 16 bytes (5.2)."""
    words = [list(key[place:place + 4]) for place in range(0, 16, 4)]
    round_constant = 1
    for number in range(4, 44):
        word = list(words[number - 1])
        if number % 4 == 0:
            word = [S_BOX[byte] for byte in word[1:] + word[:1]]
            word[0] ^= round_constant
            round_constant = _times_x(round_constant)
        words.append([left ^ right for left, right in zip(words[number - 4], word)])
    return [sum(words[place:place + 4], []) for place in range(0, 44, 4)]


def encrypt(key, block):
    """AES-128 of one block of 16 bytes (5.1)."""
    keys = _round_keys(bytes(key))
    state = [byte ^ mask for byte, mask in zip(block, keys[0])]
    for round_key in keys[1:10]:
        state = [S_BOX[state[place]] for place in SHIFTED]
        mixed = []
        for column in range(0, 16, 4):
            a, b, c, d = state[column:column + 4]
            mixed += [
                TIMES_2[a] ^ TIMES_3[b] ^ c ^ d,
                a ^ TIMES_2[b] ^ TIMES_3[c] ^ d,
                a ^ b ^ TIMES_2[c] ^ TIMES_3[d],
                TIMES_3[a] ^ b ^ c ^ TIMES_2[d],
            ]
        state = [byte ^ mask for byte, mask in zip(mixed, round_key)]
    return bytes(S_BOX[state[place]] ^ mask for place, mask in zip(SHIFTED, keys[10]))


def cipher(key, block, output):
    """The cipher as a call: outcome 6 leaves the output as it was."""
    if len(key) != 16 or len(block) != 16 or len(output) != 16:
        return 6
    output[:] = encrypt(key, block)
    return 0


# A wrong cipher would make every comparison worthless, so no import succeeds with one (FIPS 197, C.1).
if encrypt(bytes(range(16)), bytes.fromhex("00112233445566778899AABBCCDDEEFF")) != bytes.fromhex(
        "69C4E0D86A7B0430D8CDB78070B4C55A"):
    raise AssertionError("the model's AES-128 fails the vector of FIPS 197 C.1")

# ---------------------------------------------------------------------------------------------------------------------
# Codes on the bus
# ---------------------------------------------------------------------------------------------------------------------

CODE_SIZE = 4


def padded(message):
    """80 always follows, then 00 to whole blocks: a message that fills its last block gets one block more."""
    whole = message + b"\x80"
    return whole + bytes(-len(whole) % 16)


def mac(key, start, message):
    """The last block of an AES-128 CBC MAC over the padded message, where `start` is the initial value."""
    chained = start
    blocks = padded(message)
    for place in range(0, len(blocks), 16):
        chained = encrypt(key, bytes(left ^ right for left, right in zip(chained, blocks[place:place + 16])))
    return chained


def code_of(key, challenge, message):
    """The code of a message: the leftmost four bytes of its MAC. The challenge, filled with 00, is the initial value."""
    return mac(key, challenge.ljust(16, b"\x00"), message)[:CODE_SIZE]


# ---------------------------------------------------------------------------------------------------------------------
# What a card holds
# ---------------------------------------------------------------------------------------------------------------------

AREA_SIZE = 4096
MOST_FILES = 16
MOST_FOLDERS = 4

BINARY, FIXED, VARIABLE, CYCLIC = 0x28, 0x2A, 0x2C, 0x2E
# What CREATE FILE makes a directory by. No file has this type.
FOLDER = 0x38
RECORD_TYPES = (FIXED, VARIABLE, CYCLIC)
LONGEST_RECORD = 178

# Rights byte: bit 8 admin, bit 7 user, bit 1 device; 00 is free; 0F means never. Every set bit must be held; where bit 2 is
# set too, any one of them is enough. Bit 3 asks for a code besides, in a file's right and not in a directory's.
ADMIN_BIT, USER_BIT, DEVICE_BIT = 0x80, 0x40, 0x01
ANY_BIT = 0x02
CODE_BIT = 0x04
NEVER = 0x0F

NO_CHALLENGE = b""

# The root is no folder: what lies there has none, and the current folder is none while the root is current.
ROOT_FID = 0x3F00
ROOT = None

# Mode 0 gives reply data at once; in mode 1 they wait for GET RESPONSE.
AT_ONCE, FETCHED = 0, 1
MODES = (AT_ONCE, FETCHED)
MOST_WAITING = 256
NOTHING_WAITS = b""


class Credential:
    """The device key, a PIN or the transport key, with its limit, its tries left and whether its right is held in this session.

    The transport key opens no right: it is never held.
    """

    __slots__ = ("value", "limit", "tries", "held")

    def __init__(self, value=b"", limit=0):
        self.value = value
        self.limit = limit
        self.tries = limit
        self.held = False


class Folder:
    """A directory under the root: its FID, and the right that is asked of whoever makes a file in it."""

    __slots__ = ("fid", "right")

    def __init__(self, fid, right):
        self.fid = fid
        self.right = right


class File:
    """One place of the directory.

    A 28 or 2C file uses `size`, a 2A or 2E file `count` and `length`. `records` is the stored number of records held
    and `newest` the place of the newest; only a 2E file uses these two. `used` is how many bytes the records of a 2C
    file take with their length bytes; only a 2C file uses it. `folder` is where the file lies.
    """

    __slots__ = ("fid", "kind", "size", "count", "length", "read", "write", "start", "records", "newest", "used", "folder")

    def __init__(self, fid, kind, size, count, length, read, write, start, folder=ROOT):
        self.fid = fid
        self.kind = kind
        self.size = size
        self.count = count
        self.length = length
        self.read = read
        self.write = write
        self.start = start
        self.records = 0
        self.newest = 0
        self.used = 0
        self.folder = folder

    @property
    def sfi(self):
        return self.fid & 0x1F

    @property
    def extent(self):
        """How many bytes of the data area are this file's."""
        return self.size if self.kind in (BINARY, VARIABLE) else self.count * self.length

    def variable_records(self, area):
        """The records of a 2C file, oldest first: where in the data area each begins, and its length.

        A record's length stands in the byte before it. None where lengths of 1 to 178 do not part the used bytes
        exactly, which never is so in a sound card.
        """
        found = []
        place, end = self.start, self.start + self.used
        while place < end:
            length = area[place]
            if not 1 <= length <= LONGEST_RECORD:
                return None
            found.append((place + 1, length))
            place += 1 + length
        return found if place == end else None

    def records_held(self, area):
        """A 2A file holds all its records from creation, a 2E file as many as it knows of, a 2C file what its bytes say."""
        if self.kind == VARIABLE:
            return len(self.variable_records(area))
        return self.count if self.kind == FIXED else self.records

    def record(self, area, number):
        """Where in the data area record `number` (from 1) begins, and its length.

        2A: number n in place n - 1. 2E: number 1 is the newest, older ones stand in the places before it; places
        count from 0, and place 0 follows the last. 2C: number 1 is the oldest.
        """
        if self.kind == VARIABLE:
            return self.variable_records(area)[number - 1]
        place = number - 1 if self.kind == FIXED else (self.newest - (number - 1)) % self.count
        return self.start + place * self.length, self.length


class Card:
    """Credentials, directory and session. The data area is lent and stands beside it. As made here: a blank state.

    PINs, the challenge and the waiting bytes are kept in exactly their length, and exactly the files and folders that there
    are, so the unused fields behind them do not exist here. `folder` is the current one.
    """

    __slots__ = ("device", "admin", "user", "transport", "files", "folders", "current", "folder", "challenge", "mode", "waiting")

    def __init__(self):
        self.device = Credential()
        self.admin = Credential()
        self.user = Credential()
        self.transport = Credential()
        self.files = []
        self.folders = []
        self.current = None
        self.folder = ROOT
        self.challenge = NO_CHALLENGE
        self.mode = AT_ONCE
        self.waiting = NOTHING_WAITS


def is_pin(value):
    """6 to 16 bytes, each 30 to 39."""
    return 6 <= len(value) <= 16 and are_digits(value)


def are_digits(value):
    return all(0x30 <= byte <= 0x39 for byte in value)


def is_limit(limit):
    return 1 <= limit <= 128


def is_bad_creation_right(byte):
    """A directory's right: any bit set other than the three and bit 2, or bit 2 alone, apart from 0F."""
    if byte == NEVER:
        return False
    return byte & ~(ADMIN_BIT | USER_BIT | DEVICE_BIT | ANY_BIT) != 0 or byte == ANY_BIT


def is_bad_rights_byte(byte):
    """A file's right: as a directory's, but that bit 3 may be set too. It leaves bit 2 nothing to choose from."""
    if byte == NEVER:
        return False
    return is_bad_creation_right(byte & ~CODE_BIT)


def asks_code(byte):
    """Whether a file's right asks for codes. 0F asks for nothing: it means never."""
    return byte != NEVER and byte & CODE_BIT != 0


def is_allowed(card, byte):
    """Whether a rights byte lets the session pass, codes apart."""
    if byte == NEVER:
        return False
    asked = []
    if byte & ADMIN_BIT:
        asked.append(card.admin.held)
    if byte & USER_BIT:
        asked.append(card.user.held)
    if byte & DEVICE_BIT:
        asked.append(card.device.held)
    return any(asked) if byte & ANY_BIT else all(asked)


def is_file_shape(kind, size, count, length):
    """28: 1 to 4,096 bytes. 2A and 2E: 2 to 254 records of 1 to 178 bytes. 2C: a space of 2 to 4,096 bytes."""
    if kind == BINARY:
        return 1 <= size <= 4096
    if kind == VARIABLE:
        return 2 <= size <= 4096
    if kind in (FIXED, CYCLIC):
        return 2 <= count <= 254 and 1 <= length <= LONGEST_RECORD
    return False


def is_good_fid(fid):
    """The low five bits of a FID are 1 to 30, a file's or a folder's."""
    return 0 <= fid <= 0xFFFF and 1 <= fid & 0x1F <= 30


def is_place(card, folder):
    """Whether there is such a folder; the root always is."""
    return folder is ROOT or folder in card.folders


def is_sound(card, area):
    """A state is sound when all of "What a card holds" holds of it, and of its 2C files the lengths in the area too.

    The area has its 4,096 bytes: every call that asks this has checked so before.
    """
    if len(card.device.value) != 16 or not is_pin(card.admin.value) or not is_pin(card.user.value):
        return False
    if len(card.transport.value) != 16:
        return False
    for credential in (card.device, card.admin, card.user, card.transport):
        if not is_limit(credential.limit) or not 0 <= credential.tries <= credential.limit:
            return False
        if credential.held and credential.tries != credential.limit:
            return False
    if card.transport.held:
        return False

    if len(card.folders) > MOST_FOLDERS:
        return False
    fids = set()
    for folder in card.folders:
        if not is_good_fid(folder.fid) or folder.fid in fids:
            return False
        fids.add(folder.fid)
        if is_bad_creation_right(folder.right):
            return False

    if len(card.files) > MOST_FILES:
        return False
    end = 0
    sfis = set()
    for file in card.files:
        if not is_good_fid(file.fid) or not is_place(card, file.folder):
            return False
        if (file.folder, file.sfi) in sfis:
            return False
        sfis.add((file.folder, file.sfi))
        if file.folder is ROOT and file.fid in fids:
            return False
        if not is_file_shape(file.kind, file.size, file.count, file.length):
            return False
        if is_bad_rights_byte(file.read) or is_bad_rights_byte(file.write):
            return False
        if file.kind == CYCLIC:
            if not 0 <= file.records <= file.count or not 0 <= file.newest < file.count:
                return False
            if file.records == 0 and file.newest != 0:
                return False
        elif file.records != 0 or file.newest != 0:
            return False
        if not 0 <= file.used <= (file.size if file.kind == VARIABLE else 0):
            return False
        if file.start != end:
            return False
        end += file.extent
    if end > AREA_SIZE:
        return False
    for file in card.files:
        if file.kind == VARIABLE and file.variable_records(area) is None:
            return False

    if not is_place(card, card.folder):
        return False
    if card.current is not None and (card.current not in card.files or card.current.folder is not card.folder):
        return False
    if len(card.challenge) not in (0, 4, 8, 16):
        return False
    if card.mode not in MODES:
        return False
    return len(card.waiting) <= (MOST_WAITING if card.mode == FETCHED else 0)


# ---------------------------------------------------------------------------------------------------------------------
# Calls that are not served
# ---------------------------------------------------------------------------------------------------------------------

SMALLEST_REPLY = 258


def issue(area, key, key_limit, admin_pin, admin_limit, user_pin, user_limit, mode, transport_key, transport_limit):
    """Outcome and card. A refused issue gives a blank state and leaves the area as it is."""
    if len(area) != AREA_SIZE:
        return 2, Card()
    if len(key) != 16 or not is_pin(admin_pin) or not is_pin(user_pin):
        return 5, Card()
    if not is_limit(key_limit) or not is_limit(admin_limit) or not is_limit(user_limit):
        return 5, Card()
    if mode not in MODES:
        return 5, Card()
    if len(transport_key) != 16 or not is_limit(transport_limit):
        return 5, Card()
    card = Card()
    card.device = Credential(key, key_limit)
    card.admin = Credential(admin_pin, admin_limit)
    card.user = Credential(user_pin, user_limit)
    card.mode = mode
    card.transport = Credential(transport_key, transport_limit)
    area[:] = bytes(AREA_SIZE)
    return 0, card


def reset(card, area):
    """Clears rights, current file, challenge and what waits, and returns to the root. The area is lent to be looked at."""
    if len(area) != AREA_SIZE:
        return 2
    if not is_sound(card, area):
        return 4
    for credential in (card.device, card.admin, card.user):
        credential.held = False
    card.current = None
    card.folder = ROOT
    card.challenge = NO_CHALLENGE
    card.waiting = NOTHING_WAITS
    return 0


def command(card, area, sent, random, reply):
    """One command as a call: the outcome, and how many bytes of the reply buffer were written (data, then SW)."""
    if len(reply) < SMALLEST_REPLY:
        return 1, 0
    if len(area) != AREA_SIZE:
        return 2, 0
    if len(random) != 16:
        return 3, 0
    if not is_sound(card, area):
        return 4, 0
    data, sw = serve(card, area, sent, random)
    written = len(data) + 2
    reply[:written] = data + bytes((sw >> 8, sw & 0xFF))
    return 0, written


# ---------------------------------------------------------------------------------------------------------------------
# Framing
# ---------------------------------------------------------------------------------------------------------------------


class Frame:
    """A command cut into its parts. `le` is 256 where the byte sent is 00; `data` has the length Lc.

    `is_coded` says that the class is 04, and `header` is CLA, INS, P1 and P2 as sent.
    """

    __slots__ = ("case", "header", "p1", "p2", "data", "le")

    def __init__(self, case, header, data, le):
        self.case = case
        self.header = header
        self.p1 = header[2]
        self.p2 = header[3]
        self.data = data
        self.le = le

    @property
    def is_coded(self):
        return self.header[0] == CODED


# Class 04 is that of commands with a code.
CODED = 0x04
CLASSES = (0x00, CODED, 0x80)


def frame_of(sent):
    """The frame, or None for all else (6700)."""
    length = len(sent)
    if length < 4:
        return None
    header = sent[:4]
    if length == 4:
        return Frame(1, header, b"", None)
    fifth = sent[4]
    if length == 5:
        return Frame(2, header, b"", fifth or 256)
    if fifth != 0:
        if length == 5 + fifth:
            return Frame(3, header, sent[5:], None)
        if length == 6 + fifth:
            return Frame(4, header, sent[5:-1], sent[-1] or 256)
    return None


def serve(card, area, sent, random):
    """A served command: data and SW. The challenge serves only the command that follows it, GET RESPONSE in mode 1 apart."""
    frame = frame_of(sent)
    row = None
    if frame is None:
        answer = refused(0x6700)
    elif sent[0] not in CLASSES:
        answer = refused(0x6E00)
    else:
        row = ROWS.get((sent[0], sent[1]))
        if row is get_response and card.mode == AT_ONCE:
            row = None
        if row is None:
            answer = refused(0x6D00)
        else:
            answer = row(card, area, frame, random)

    # Refused or not, it keeps the challenge and what it did not give.
    if row is get_response:
        return answer
    # Only a GET CHALLENGE that ends 9000 leaves a challenge.
    if row is not get_challenge or answer[1] != 0x9000:
        card.challenge = NO_CHALLENGE
    # What waited is discarded, and in mode 1 what this command gives waits in its place.
    card.waiting = NOTHING_WAITS
    if card.mode == FETCHED and answer[0] != b"":
        card.waiting = answer[0]
        return still_waiting(card)
    return answer


# ---------------------------------------------------------------------------------------------------------------------
# The twelve commands, GET RESPONSE, and the five with a code
#
# Each takes the card, the area, the frame and the random input, runs its checks in the order written and gives data
# and SW. The first check that fails gives the SW, no data, and a change only where said.
# ---------------------------------------------------------------------------------------------------------------------

DONE = (b"", 0x9000)


def refused(sw):
    return b"", sw


def files_here(card):
    """The files of the current folder."""
    return [file for file in card.files if file.folder is card.folder]


def file_by_sfi(card, sfi):
    for file in files_here(card):
        if file.sfi == sfi:
            return file
    return None


def with_fid(found, fid):
    """The file or folder with that FID among those found, or None."""
    for one in found:
        if one.fid == fid:
            return one
    return None


def named_file(card, sfi):
    """SFI 0 stands for the current file; None where there is none."""
    return card.current if sfi == 0 else file_by_sfi(card, sfi)


def p_is(frame, p1, p2):
    return frame.p1 == p1 and frame.p2 == p2


def select(card, area, frame, random):
    if not p_is(frame, 0x00, 0x00):
        return refused(0x6A86)
    if frame.case != 3 or len(frame.data) != 2:
        return refused(0x6700)
    fid = frame.data[0] << 8 | frame.data[1]
    file = with_fid(files_here(card), fid)
    if file is not None:
        card.current = file
        return DONE
    folder = with_fid(card.folders, fid)
    if folder is not None:
        card.folder = folder
        card.current = None
        return DONE
    if fid == ROOT_FID:
        card.folder = ROOT
        card.current = None
        return DONE
    return refused(0x6A82)


# ---------------------------------------------------------------------------------------------------------------------
# The five commands that may have a code
#
# They read, or they write. After P each asks `form_and_code`, which looks at the case and at a code, and gives the data that
# the file's checks go by.
# ---------------------------------------------------------------------------------------------------------------------

READS, WRITES = "reads", "writes"


def form_and_code(card, frame, what):
    """The SW of the checks of case and Lc and then of the code, where there is one; and the data without it."""
    if not frame.is_coded:
        return 0x9000 if frame.case == (2 if what == READS else 3) else 0x6700, frame.data
    # A read becomes case 4 with the code alone for data; the others have at least one byte before it.
    if what == READS and (frame.case != 4 or len(frame.data) != CODE_SIZE):
        return 0x6700, b""
    if what == WRITES and (frame.case != 3 or len(frame.data) <= CODE_SIZE):
        return 0x6700, b""
    if card.transport.tries == 0:
        return 0x6983, b""
    if card.challenge == NO_CHALLENGE:
        return 0x6984, b""
    data, code = frame.data[:-CODE_SIZE], frame.data[-CODE_SIZE:]
    # Header and Lc as sent: the code's own bytes are counted in Lc. Le is not covered.
    message = frame.header + bytes((len(frame.data),)) + data
    if code != code_of(card.transport.value, card.challenge, message):
        card.transport.tries -= 1
        return 0x6988, b""
    # A presentation of the transport key, and a right one, whatever the file's checks say.
    card.transport.tries = card.transport.limit
    return 0x9000, data


def may_use(card, frame, byte):
    """The check of a file's right. Where it asks for a code, a command without one does not pass, whatever is held."""
    if asks_code(byte) and not frame.is_coded:
        return False
    return is_allowed(card, byte)


# What is found beside a SW that refuses.
NOWHERE = (None, 0, 0, b"")


def find_bytes(card, frame, what, right_of, wanted_of):
    """The checks that READ BINARY and UPDATE BINARY share.

    `right_of` gives the rights byte that counts, and `wanted_of` how many bytes are read or written where so many stand
    from the offset to the end and such are the data. Gives the SW, and with it the file, where in the area these bytes begin,
    that number and the data.
    """
    if frame.p1 & 0x80 == 0:
        sfi, offset = 0, frame.p1 << 8 | frame.p2
    elif 0x81 <= frame.p1 <= 0x9E:
        sfi, offset = frame.p1 & 0x1F, frame.p2
    else:
        return 0x6A86, NOWHERE
    sw, data = form_and_code(card, frame, what)
    if sw != 0x9000:
        return sw, NOWHERE
    file = named_file(card, sfi)
    if file is None:
        return 0x6A82, NOWHERE
    if file.kind != BINARY:
        return 0x6981, NOWHERE
    if not may_use(card, frame, right_of(file)):
        return 0x6982, NOWHERE
    if offset >= file.size:
        return 0x6A84, NOWHERE
    wanted = wanted_of(file.size - offset, data)
    if offset + wanted > file.size:
        return 0x6700, NOWHERE
    return 0x9000, (file, file.start + offset, wanted, data)


def read_right(file):
    return file.read


def write_right(file):
    return file.write


def read_binary(card, area, frame, random):
    def wanted(left, data):
        # Here Le 00 is the smaller of 256 and what is left.
        return min(256, left) if frame.le == 256 else frame.le

    sw, (file, begin, length, _) = find_bytes(card, frame, READS, read_right, wanted)
    if sw != 0x9000:
        return refused(sw)
    card.current = file
    return bytes(area[begin:begin + length]), 0x9000


def update_binary(card, area, frame, random):
    def wanted(left, data):
        return len(data)

    sw, (file, begin, length, data) = find_bytes(card, frame, WRITES, write_right, wanted)
    if sw != 0x9000:
        return refused(sw)
    card.current = file
    area[begin:begin + length] = data
    return DONE


def find_record(card, area, frame, what, right_of):
    """The checks that READ RECORD and UPDATE RECORD share, up to the number. Gives the SW, the file and the data."""
    sfi = frame.p2 >> 3
    if frame.p1 == 0 or frame.p2 & 0b111 != 0b100 or sfi == 31:
        return 0x6A86, None, b""
    sw, data = form_and_code(card, frame, what)
    if sw != 0x9000:
        return sw, None, b""
    file = named_file(card, sfi)
    if file is None:
        return 0x6A82, None, b""
    if file.kind not in RECORD_TYPES:
        return 0x6981, None, b""
    if not may_use(card, frame, right_of(file)):
        return 0x6982, None, b""
    if frame.p1 > file.records_held(area):
        return 0x6A83, None, b""
    return 0x9000, file, data


def read_record(card, area, frame, random):
    sw, file, _ = find_record(card, area, frame, READS, read_right)
    if sw != 0x9000:
        return refused(sw)
    begin, length = file.record(area, frame.p1)
    # Here Le 00 is the whole record.
    if frame.le != 256 and frame.le != length:
        return refused(0x6C00 | length)
    card.current = file
    return bytes(area[begin:begin + length]), 0x9000


def update_record(card, area, frame, random):
    sw, file, data = find_record(card, area, frame, WRITES, write_right)
    if sw != 0x9000:
        return refused(sw)
    begin, length = file.record(area, frame.p1)
    if len(data) != length:
        return refused(0x6700)
    card.current = file
    area[begin:begin + length] = data
    return DONE


def append_record(card, area, frame, random):
    sfi = frame.p2 >> 3
    if frame.p1 != 0 or frame.p2 & 0b111 != 0 or sfi == 31:
        return refused(0x6A86)
    sw, data = form_and_code(card, frame, WRITES)
    if sw != 0x9000:
        return refused(sw)
    file = named_file(card, sfi)
    if file is None:
        return refused(0x6A82)
    if file.kind not in (VARIABLE, CYCLIC):
        return refused(0x6981)
    if not may_use(card, frame, file.write):
        return refused(0x6982)
    sw = append_variable(file, area, data) if file.kind == VARIABLE else append_cyclic(file, area, data)
    if sw != 0x9000:
        return refused(sw)
    card.current = file
    return DONE


def append_cyclic(file, area, data):
    if len(data) != file.length:
        return 0x6700
    # The new record is number 1; in a full file the oldest goes.
    file.newest = 0 if file.records == 0 else (file.newest + 1) % file.count
    file.records = min(file.records + 1, file.count)
    begin, length = file.record(area, 1)
    area[begin:begin + length] = data
    return 0x9000


def append_variable(file, area, data):
    if len(data) > LONGEST_RECORD:
        return 0x6700
    if file.used + 1 + len(data) > file.size:
        return 0x6A84
    # The new record comes after the last, behind its length byte.
    end = file.start + file.used
    area[end:end + 1 + len(data)] = bytes((len(data),)) + data
    file.used += 1 + len(data)
    return 0x9000


def tries_answer(tries):
    """63Cx, x the smaller of tries left and 15."""
    return refused(0x63C0 | min(tries, 15))


def compare(credential, shown, expected):
    """A presentation: it is right when the comparison agrees in length and bytes."""
    if shown == expected:
        credential.tries = credential.limit
        credential.held = True
        return DONE
    credential.tries -= 1
    credential.held = False
    return tries_answer(credential.tries)


def pin_named(card, p2):
    return card.admin if p2 == 0x00 else card.user


def verify(card, area, frame, random):
    if frame.p1 != 0x00 or frame.p2 not in (0x00, 0x01):
        return refused(0x6A86)
    if frame.case != 1 and not (frame.case == 3 and 0x06 <= len(frame.data) <= 0x10):
        return refused(0x6700)
    pin = pin_named(card, frame.p2)
    if frame.case == 1:
        # A query is no presentation.
        if pin.held:
            return DONE
        return refused(0x6983) if pin.tries == 0 else tries_answer(pin.tries)
    if pin.tries == 0:
        return refused(0x6983)
    if not are_digits(frame.data):
        return refused(0x6A80)
    return compare(pin, frame.data, pin.value)


def external_authenticate(card, area, frame, random):
    if not p_is(frame, 0x00, 0x00):
        return refused(0x6A86)
    if frame.case != 3 or len(frame.data) != 0x10:
        return refused(0x6700)
    if card.device.tries == 0:
        return refused(0x6983)
    if card.challenge == NO_CHALLENGE:
        return refused(0x6984)
    expected = encrypt(card.device.value, card.challenge.ljust(16, b"\x00"))
    return compare(card.device, frame.data, expected)


def change_pin(card, area, frame, random):
    if frame.p1 != 0x01 or frame.p2 not in (0x00, 0x01):
        return refused(0x6A86)
    if frame.case != 3 or not 0x06 <= len(frame.data) <= 0x10:
        return refused(0x6700)
    pin = pin_named(card, frame.p2)
    if not pin.held:
        return refused(0x6982)
    if not are_digits(frame.data):
        return refused(0x6A80)
    pin.value = frame.data
    return DONE


def reload_pin(card, area, frame, random):
    if not p_is(frame, 0x02, 0x01):
        return refused(0x6A86)
    if frame.case != 3 or not 0x06 <= len(frame.data) <= 0x10:
        return refused(0x6700)
    if not card.admin.held:
        return refused(0x6982)
    if not are_digits(frame.data):
        return refused(0x6A80)
    card.user.value = frame.data
    card.user.tries = card.user.limit
    card.user.held = False
    return DONE


def may_create(card):
    """The device right in the root, in a folder its creation right."""
    if card.folder is ROOT:
        return card.device.held
    return is_allowed(card, card.folder.right)


def create_file(card, area, frame, random):
    fid = frame.p1 << 8 | frame.p2
    if not 1 <= fid & 0x1F <= 30:
        return refused(0x6A86)
    if frame.case != 3 or len(frame.data) != 0x05:
        return refused(0x6700)
    if not may_create(card):
        return refused(0x6982)
    if frame.data[0] == FOLDER:
        return create_folder(card, fid, frame.data)

    kind, first, second, read, write = frame.data
    if kind in (BINARY, VARIABLE):
        size, count, length = first << 8 | second, 0, 0
    else:
        size, count, length = 0, first, second
    if not is_file_shape(kind, size, count, length) or is_bad_rights_byte(read) or is_bad_rights_byte(write):
        return refused(0x6A80)
    if file_by_sfi(card, fid & 0x1F) is not None:
        return refused(0x6986)
    if card.folder is ROOT and with_fid(card.folders, fid) is not None:
        return refused(0x6986)
    start = card.files[-1].start + card.files[-1].extent if card.files else 0
    file = File(fid, kind, size, count, length, read, write, start, card.folder)
    if len(card.files) >= MOST_FILES or start + file.extent > AREA_SIZE:
        return refused(0x6A84)

    area[start:start + file.extent] = bytes(file.extent)
    card.files.append(file)
    card.current = file
    return DONE


def create_folder(card, fid, data):
    """The checks of CREATE FILE behind its right, where the type is 38. Nothing current changes."""
    if card.folder is not ROOT:
        return refused(0x6A81)
    _, first, second, right, last = data
    if first != 0 or second != 0 or last != 0 or is_bad_creation_right(right):
        return refused(0x6A80)
    if with_fid(card.folders, fid) is not None or with_fid(files_here(card), fid) is not None:
        return refused(0x6986)
    if len(card.folders) >= MOST_FOLDERS:
        return refused(0x6A84)
    card.folders.append(Folder(fid, right))
    return DONE


def get_challenge(card, area, frame, random):
    if not p_is(frame, 0x00, 0x00):
        return refused(0x6A86)
    if frame.case != 2 or frame.le not in (0x04, 0x08, 0x10):
        return refused(0x6700)
    card.challenge = random[:frame.le]
    return card.challenge, 0x9000


def still_waiting(card):
    """No data, 61 and the count, 00 for 256. It counts as 9000."""
    return b"", 0x6100 | len(card.waiting) & 0xFF


def get_response(card, area, frame, random):
    """In mode 1 only. One that is refused keeps what waits."""
    if not p_is(frame, 0x00, 0x00):
        return refused(0x6A86)
    if frame.case != 2:
        return refused(0x6700)
    if card.waiting == NOTHING_WAITS:
        return refused(0x6985)
    # Here Le 00 is all that wait.
    wanted = len(card.waiting) if frame.le == 256 else frame.le
    if wanted > len(card.waiting):
        return refused(0x6C00 | len(card.waiting))
    part, card.waiting = card.waiting[:wanted], card.waiting[wanted:]
    return part, still_waiting(card)[1] if card.waiting else 0x9000


# The list: eighteen rows of CLA, INS, name and rule.
LIST = (
    (0x00, 0xA4, "SELECT", select),
    (0x00, 0xB0, "READ BINARY", read_binary),
    (0x00, 0xD6, "UPDATE BINARY", update_binary),
    (0x00, 0xB2, "READ RECORD", read_record),
    (0x00, 0xDC, "UPDATE RECORD", update_record),
    (0x00, 0xE2, "APPEND RECORD", append_record),
    (0x00, 0x20, "VERIFY", verify),
    (0x00, 0x82, "EXTERNAL AUTHENTICATE", external_authenticate),
    (0x00, 0x24, "CHANGE PIN", change_pin),
    (0x00, 0x2C, "RELOAD PIN", reload_pin),
    (0x80, 0xE0, "CREATE FILE", create_file),
    (0x00, 0x84, "GET CHALLENGE", get_challenge),
    (0x00, 0xC0, "GET RESPONSE", get_response),
    (CODED, 0xB0, "READ BINARY with a code", read_binary),
    (CODED, 0xD6, "UPDATE BINARY with a code", update_binary),
    (CODED, 0xB2, "READ RECORD with a code", read_record),
    (CODED, 0xDC, "UPDATE RECORD with a code", update_record),
    (CODED, 0xE2, "APPEND RECORD with a code", append_record),
)
ROWS = {(cla, ins): rule for cla, ins, _, rule in LIST}
