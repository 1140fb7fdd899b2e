"""Checks that generated scripts and texts notice errors.

Each entry changes one place of the model, as someone might misread the papers. The changed model then runs generated
scripts; a test passes when its output differs from the true model's. So a program with that error would be caught by
tests/model/compare.py within the lines printed at the end. Errors in calls that a script cannot make, or in bytes that it
cannot see, are put before the self-test instead. Errors in a card written as lines are put before the changed texts that
tests/texts gives to the library, and before the self-test too; and so are those in texts that are converted. Errors in what a loss of
power may leave are put before the self-test: tests/cuts shows that errors of a library are noticed.
"""

import argparse
import itertools
import os
import sys
import types
from functools import lru_cache

import generate
import script
import selftest
import text
import text_cases

SCRIPTS = 16
LINES = 2000
TEXTS = 16000
CONVERTED = 2000

CARD, SCRIPT, TEXT, CUTS, SELFTEST = "card.py", "script.py", "text.py", "cuts.py", "selftest.py"

# Places of the card that several errors change.
RESET = "    card.current = None\n    card.folder = ROOT\n    card.challenge = NO_CHALLENGE\n    card.waiting"
SELECT_FILE = """\
    file = with_fid(files_here(card), fid)
    if file is not None:
        card.current = file
        return DONE
"""
SELECT_FOLDER = """\
    folder = with_fid(card.folders, fid)
    if folder is not None:
        card.folder = folder
        card.current = None
        return DONE
"""
MAY_CREATE = """\
    if card.folder is ROOT:
        return card.device.held
    return is_allowed(card, card.folder.right)
"""
FOLDER_BYTES = """\
    _, first, second, right, last = data
    if first != 0 or second != 0 or last != 0 or is_bad_creation_right(right):
        return refused(0x6A80)
"""
FOLDER_CLASH = "    if with_fid(card.folders, fid) is not None or with_fid(files_here(card), fid) is not None:\n"
FILE_CLASH = "    if card.folder is ROOT and with_fid(card.folders, fid) is not None:\n        return refused(0x6986)\n"

READ_BINARY = "    card.current = file\n    return bytes(area[begin:begin + length]), 0x9000\n\n\ndef update_binary"
UPDATE_BINARY = "    card.current = file\n    area[begin:begin + length] = data\n    return DONE\n\n\ndef find_record"
ANSWERED = "            answer = row(card, area, frame, random)\n"
CHALLENGE_DROPPED = "    if row is not get_challenge or answer[1] != 0x9000:\n        card.challenge = NO_CHALLENGE\n"


def kept_after(answer):
    """The place above, but that a coded command with such an answer keeps the challenge."""
    kept = "    if not (row and frame.is_coded and answer[1] %s) and (row" % answer
    return CHALLENGE_DROPPED.replace("    if row", kept).replace("0x9000:\n", "0x9000):\n")


WRONG_CODE = """\
    if code != code_of(card.transport.value, card.challenge, message):
        card.transport.tries -= 1
        return 0x6988, b""
"""
RIGHT_CODE = "    card.transport.tries = card.transport.limit\n    return 0x9000, data\n"
NO_TRIES = "    if card.transport.tries == 0:\n        return 0x6983, b\"\"\n"
NO_CHALLENGE_YET = "    if card.challenge == NO_CHALLENGE:\n        return 0x6984, b\"\"\n    data, code"
MESSAGE = "message = frame.header + bytes((len(frame.data),)) + data"
ASKED_CODE = "    if asks_code(byte) and not frame.is_coded:\n        return False\n    return is_allowed(card, byte)\n"
FILES_FIRST = """\
    sw, data = form_and_code(card, frame, what)
    if sw != 0x9000:
        return sw, NOWHERE
    file = named_file(card, sfi)
    if file is None:
        return 0x6A82, NOWHERE
"""

MUTANTS = (
    # Errors that look right.
    (CARD, "file.newest = 0 if", "if file.records == file.count:\n        return refused(0x6A84)\n    file.newest = 0 if",
     "a cyclic file that refuses when full"),
    (CARD, "if row is not get_challenge or answer[1] != 0x9000:", "if row is not get_challenge and answer[1] == 0x9000:",
     "a challenge that survives a failed command"),
    (CARD, "if row is not get_challenge or answer[1] != 0x9000:", "if row is not get_challenge:",
     "a challenge that survives a refused GET CHALLENGE"),
    (CARD, "if row is not get_challenge or answer[1] != 0x9000:",
     "if frame is not None and (row is not get_challenge or answer[1] != 0x9000):",
     "a challenge that survives a broken frame"),
    (CARD, "if row is not get_challenge or answer[1] != 0x9000:",
     "if row is not None and (row is not get_challenge or answer[1] != 0x9000):",
     "a challenge that survives a command that is not in the list"),
    (CARD, "if row is not get_challenge or answer[1] != 0x9000:",
     "if not (row is verify and frame.case == 1) and (row is not get_challenge or answer[1] != 0x9000):",
     "a challenge that survives a query"),
    (CARD, "        # A query is no presentation.\n", "        pin.tries = max(0, pin.tries - (not pin.held))\n",
     "a query that counts as a guess"),
    (CARD, "    card.user.held = False\n    return DONE", "    return DONE", "a reload that leaves the old user right held"),
    # What a card holds, rights.
    (CARD, "    if byte == NEVER:\n        return False\n    return byte &", "    return byte &", "0F as a bad byte"),
    (CARD, "    if byte == NEVER:\n        return False\n    return byte &",
     "    if byte & NEVER == NEVER:\n        return False\n    return byte &", "4F and 8F as good bytes"),
    (CARD, "asked.append(card.user.held)", "asked.append(card.user.held or card.admin.held)", "the admin right in the user right's place"),
    (CARD, "if byte & ANY_BIT else all(asked)", "if byte & ANY_BIT else any(asked) or not asked",
     "one of several rights is enough without bit 2"),
    (CARD, "if byte & ANY_BIT else all(asked)", "if byte & ANY_BIT else asked != [] and all(asked)", "00 asks for something"),
    # Either PIN will do.
    (CARD, "| DEVICE_BIT | ANY_BIT) != 0", "| DEVICE_BIT) != 0", "bit 2 still bad"),
    (CARD, "!= 0 or byte == ANY_BIT", "!= 0", "bit 2 alone as a good byte"),
    (CARD, "!= 0 or byte == ANY_BIT", "!= 0 or byte in (0x02, 0x03, 0x42, 0x82)", "bit 2 with a single right as a bad byte"),
    (CARD, "!= 0 or byte == ANY_BIT", "!= 0 or byte & 0x02 != 0 and byte != 0xC2", "bit 2 with the two PINs only"),
    (CARD, "!= 0 or byte == ANY_BIT", "!= 0 or byte & 0x03 in (0x02, 0x03) and byte & 0xC1 in (0x00, 0x01)", "03 as a bad byte"),
    (CARD, "| DEVICE_BIT | ANY_BIT) != 0", "| DEVICE_BIT | ANY_BIT | 0x04) != 0", "bit 3 as good as bit 2"),
    (CARD, "| DEVICE_BIT | ANY_BIT) != 0", "| DEVICE_BIT | ANY_BIT | 0x10) != 0", "12 as a good byte"),
    (CARD, "| DEVICE_BIT | ANY_BIT) != 0", "| NEVER) != 0", "0E as a good byte"),
    (CARD, "ANY_BIT = 0x02", "ANY_BIT = 0x04", "bit 3 in bit 2's place"),
    (CARD, "    if byte == NEVER:\n        return False\n    asked = []", "    asked = []", "0F opens by its bits 2 and 1, to the device"),
    (CARD, "    if byte == NEVER:\n        return False\n    asked = []",
     "    if byte == NEVER:\n        return card.admin.held or card.user.held or card.device.held\n    asked = []", "0F opens to any right"),
    (CARD, "    return any(asked) if byte & ANY_BIT else all(asked)", "    return all(asked)", "bit 2 ignored: any one of them needs all"),
    (CARD, "    return any(asked) if byte & ANY_BIT else all(asked)", "    return True if byte & ANY_BIT else all(asked)",
     "a file with bit 2 is free"),
    (CARD, "    return any(asked) if byte & ANY_BIT else all(asked)", "    return False if byte & ANY_BIT else all(asked)",
     "a file with bit 2 never opens"),
    (CARD, "    return any(asked) if byte & ANY_BIT else all(asked)", "    return all(asked) if byte & ANY_BIT else any(asked) or not asked",
     "bit 2 the other way round"),
    (CARD, "    return any(asked) if byte & ANY_BIT", "    return sum(asked) == 1 if byte & ANY_BIT", "exactly one of the rights"),
    (CARD, "    return any(asked) if byte & ANY_BIT", "    return any(asked) and not all(asked) if byte & ANY_BIT", "all of them are too many"),
    (CARD, "    return any(asked) if byte & ANY_BIT", "    return asked[0] if byte & ANY_BIT", "the first of the rights only"),
    (CARD, "    return any(asked) if byte & ANY_BIT", "    return asked[-1] if byte & ANY_BIT", "the last of the rights only"),
    (CARD, "    return any(asked) if byte & ANY_BIT",
     "    return (card.admin.held or card.user.held or card.device.held) if byte & ANY_BIT", "any right, asked or not"),
    (CARD, "    return any(asked) if byte & ANY_BIT",
     "    return any(asked) and (card.device.held or byte & DEVICE_BIT == 0) if byte & ANY_BIT", "either PIN, and the device always"),
    (CARD, "    return any(asked) if byte & ANY_BIT",
     "    return any(asked) and len(asked) > 1 if byte & ANY_BIT", "any one of one right never opens"),
    (CARD, "    return any(asked) if byte & ANY_BIT", "    return sum(asked) > 1 or asked == [True] if byte & ANY_BIT", "two of three rights"),
    (CARD, "or is_bad_rights_byte(read) or is_bad_rights_byte(write):", "or is_bad_rights_byte(read & ~ANY_BIT) or is_bad_rights_byte(write):",
     "bit 2 of the read right not looked at"),
    (CARD, "or is_bad_rights_byte(read) or is_bad_rights_byte(write):",
     "or is_bad_rights_byte(read) or is_bad_rights_byte(write) or write in (0xC2, 0xC3, 0x82, 0x83, 0x42, 0x43, 0x03):",
     "bit 2 of the write right still bad"),
    (CARD, "    if not may_use(card, frame, right_of(file)):\n        return 0x6982, None, b\"\"\n",
     "    asked = right_of(file)\n    if not may_use(card, frame, asked if asked == NEVER else asked & ~ANY_BIT):\n"
     "        return 0x6982, None, b\"\"\n", "bit 2 ignored in the record commands"),
    (CARD, "    if not may_use(card, frame, right_of(file)):\n        return 0x6982, NOWHERE\n",
     "    asked = right_of(file)\n    if not may_use(card, frame, asked if asked == NEVER else asked & ~ANY_BIT):\n"
     "        return 0x6982, NOWHERE\n", "bit 2 ignored in the binary commands"),
    (CARD, "if not may_use(card, frame, file.write):",
     "if not may_use(card, frame, file.write if file.write == NEVER else file.write & ~ANY_BIT):",
     "bit 2 ignored in APPEND"),
    (CARD, "return 1 <= size <= 4096", "return 0 <= size <= 4096", "a file of no bytes"),
    (CARD, "return 1 <= size <= 4096", "return 1 <= size <= 4095", "no file of 4,096 bytes"),
    (CARD, "return 1 <= size <= 4096", "return 1 <= size", "a size over 4,096 is 6A84"),
    (CARD, "return 2 <= count <= 254 and", "return 1 <= count <= 254 and", "one record"),
    (CARD, "return 2 <= count <= 254 and", "return 2 <= count <= 255 and", "255 records"),
    (CARD, "254 and 1 <= length <= LONGEST_RECORD", "254 and 0 <= length <= LONGEST_RECORD", "records of no bytes"),
    (CARD, "254 and 1 <= length <= LONGEST_RECORD", "254 and 1 <= length <= 179", "records of 179 bytes"),
    (CARD, "return self.count if self.kind == FIXED else self.records", "return self.count", "an empty 2E file holds all"),
    (CARD, "place = number - 1 if self.kind == FIXED else (self.newest", "place = (self.newest",
     "2A places in the order of 2E (no script can tell: places do not show)"),
    (CARD, "(self.newest - (number - 1)) % self.count", "(self.newest + number - 1) % self.count", "older ones come after"),
    (CARD, "(self.newest - (number - 1)) % self.count", "max(0, self.newest - (number - 1))", "places that do not wrap"),
    (CARD, "(self.newest - (number - 1)) % self.count", "(self.records - number) % self.count", "places from the held number"),
    # Issue and reset.
    (CARD, "    area[:] = bytes(AREA_SIZE)\n    return 0, card", "    card.files = []\n    return 0, card\n",
     "an issue that leaves the area (no script can tell: CREATE writes 00)"),
    (CARD, "        credential.held = False\n    card.current", "        pass\n    card.current", "a reset that keeps the rights"),
    (CARD, "        credential.held = False\n    card.current",
     "        credential.held = False\n        credential.tries = credential.limit\n    card.current",
     "a reset that restores the tries"),
    (CARD, RESET, "    card.folder = ROOT\n    card.challenge = b''\n    card.waiting",
     "a reset that keeps the current file"),
    (CARD, RESET, "    card.current = None\n    card.folder = ROOT\n    card.waiting",
     "a reset that keeps the challenge"),
    (CARD, "    if len(random) != 16:\n        return 3, 0", "    if len(random) < 16:\n        return 3, 0", "random of 17 bytes"),
    (CARD, "    if len(random) != 16:\n        return 3, 0",
     "    if len(random) != 16:\n        card.challenge = b''\n        return 3, 0", "outcome 3 drops the challenge"),
    (CARD, "return 1 <= limit <= 128", "return 1 <= limit <= 129", "limit 129"),
    (CARD, "return 1 <= limit <= 128", "return 1 <= limit & 0xFF <= 128", "limits cut to a byte"),
    (CARD, "return 1 <= limit <= 128", "return 2 <= limit <= 128", "no limit 1"),
    (CARD, "return 6 <= len(value) <= 16 and", "return 5 <= len(value) <= 16 and", "a PIN of 5"),
    (CARD, "return 6 <= len(value) <= 16 and", "return 6 <= len(value) <= 15 and", "no PIN of 16"),
    (CARD, "0x30 <= byte <= 0x39", "0x2F <= byte <= 0x39", "2F as a digit"),
    (CARD, "0x30 <= byte <= 0x39", "0x30 <= byte <= 0x3A", "3A as a digit"),
    (CARD, "0x30 <= byte <= 0x39", "0x30 <= byte & 0x7F <= 0x39", "B0 as a digit"),
    # Framing.
    (CARD, "Frame(2, header, b\"\", fifth or 256)", "Frame(2 if fifth else 1, header, b\"\", fifth or 256)",
     "case 1 with a trailing 00"),
    (CARD, "            return Frame(4,", "            return Frame(3,", "case 4 served as case 3"),
    (CARD, "        if length == 6 + fifth:", "        if length == 7 + fifth:", "a longer case 4"),
    (CARD, "CLASSES = (0x00, CODED, 0x80)", "CLASSES = (0x00, CODED, 0x80, 0x84)", "class 84"),
    (CARD, "CLASSES = (0x00, CODED, 0x80)", "CLASSES = (0x00, 0x80)", "no class 04"),
    (CARD, "row = ROWS.get((sent[0], sent[1]))", "row = ROWS.get((0, sent[1])) or ROWS.get((0x80, sent[1]))",
     "instructions served in either class"),
    # Files.
    (CARD, "    if fid == ROOT_FID:\n        card.folder = ROOT\n        card.current = None\n        return DONE\n", "", "no 3F00"),
    (CARD, "        card.folder = ROOT\n        card.current = None\n", "        card.folder = ROOT\n", "3F00 keeps the current file"),
    (CARD, "    file = with_fid(files_here(card), fid)\n",
     "    file = next((file for file in files_here(card) if file.sfi == fid & 0x1F), None)\n", "SELECT by SFI"),
    (CARD, "    file = with_fid(files_here(card), fid)\n",
     "    file = next((file for file in files_here(card) if file.fid & 0xFF == fid & 0xFF), None)\n", "SELECT by the low byte"),
    (CARD, "elif 0x81 <= frame.p1 <= 0x9E:", "elif 0x80 <= frame.p1 <= 0x9E:", "P1 80 as the current file"),
    (CARD, "elif 0x81 <= frame.p1 <= 0x9E:", "elif 0x81 <= frame.p1 <= 0x9F:", "P1 9F as an SFI"),
    (CARD, "elif 0x81 <= frame.p1 <= 0x9E:", "elif frame.p1 & 0x1F not in (0, 31):", "P1 A1 as an SFI"),
    (CARD, "    if offset >= file.size:\n        return 0x6A84, NOWHERE\n", "", "no 6A84"),
    (CARD, "    if offset >= file.size:", "    if offset > file.size:", "an offset at the end"),
    (CARD, "if offset + wanted > file.size:", "if offset + wanted >= file.size:", "one byte less"),
    (CARD, "if offset + wanted > file.size:", "if offset + wanted > file.size + 1:", "one byte more"),
    (CARD, "find_bytes(card, frame, WRITES, write_right,", "find_bytes(card, frame, WRITES, read_right,", "UPDATE BINARY by the read right"),
    (CARD, "find_bytes(card, frame, READS, read_right,", "find_bytes(card, frame, READS, write_right,", "READ BINARY by the write right"),
    (CARD, READ_BINARY, READ_BINARY.replace("    card.current = file\n", ""),
     "READ BINARY by SFI keeps the current file"),
    (CARD, UPDATE_BINARY, UPDATE_BINARY.replace("    card.current = file\n", ""),
     "UPDATE BINARY by SFI keeps the current file"),
    (CARD, "        return 0x6A82, NOWHERE\n    if file.kind != BINARY:",
     "        return 0x6A82, NOWHERE\n    card.current = file\n    if file.kind != BINARY:",
     "a refused binary command by SFI makes its file current"),
    (CARD, "        return 0x6A82, None, b\"\"\n    if file.kind not in",
     "        return 0x6A82, None, b\"\"\n    card.current = file\n    if file.kind not in",
     "a refused record command by SFI makes its file current"),
    (CARD, "if frame.p1 == 0 or frame.p2 & 0b111 != 0b100 or sfi == 31:", "if frame.p2 & 0b111 != 0b100 or sfi == 31:",
     "record number 0"),
    (CARD, "frame.p2 & 0b111 != 0b100 or sfi == 31", "frame.p2 & 0b100 == 0 or sfi == 31", "P2 low bits 101"),
    (CARD, "frame.p2 & 0b111 != 0b100 or sfi == 31", "frame.p2 & 0b111 != 0b100", "SFI 31 is 6A82"),
    (CARD, "if frame.p1 > file.records_held(area):", "if frame.p1 > file.records_held(area) + (file.kind != VARIABLE):",
     "one number more"),
    (CARD, "if frame.p1 > file.records_held(area):", "if frame.p1 > (file.count or file.records_held(area)):",
     "number by the count"),
    (CARD, "if frame.le != 256 and frame.le != length:", "if frame.le != length:", "no Le 00"),
    (CARD, "if frame.le != 256 and frame.le != length:", "if frame.le < length:", "a longer Le"),
    (CARD, "return refused(0x6C00 | length)", "return refused(0x6700)", "6700 in the place of 6C"),
    (CARD, "        return refused(0x6C00 | length)\n    card.current = file\n",
     "        return refused(0x6C00 | length)\n", "READ RECORD by SFI keeps the current file"),
    (CARD, "        return refused(0x6700)\n    card.current = file\n    area[begin:begin + length] = data",
     "        return refused(0x6700)\n    area[begin:begin + length] = data",
     "UPDATE RECORD by SFI keeps the current file"),
    (CARD, "find_record(card, area, frame, WRITES, write_right)", "find_record(card, area, frame, WRITES, read_right)",
     "UPDATE RECORD by the read right"),
    (CARD, "if not may_use(card, frame, file.write):", "if not may_use(card, frame, file.read):", "APPEND by the read right"),
    (CARD, "    if file.kind not in (VARIABLE, CYCLIC):\n        return refused(0x6981)\n    if not may_use(card, frame, file.write):\n"
     "        return refused(0x6982)\n",
     "    if not may_use(card, frame, file.write):\n        return refused(0x6982)\n    if file.kind not in (VARIABLE, CYCLIC):\n"
     "        return refused(0x6981)\n", "APPEND checks the right before the type"),
    (CARD, "file.newest = 0 if file.records == 0 else (file.newest + 1) % file.count",
     "file.newest = (file.newest + 1) % file.count", "place 1 first (no script can tell: places do not show)"),
    (CARD, "file.newest = 0 if file.records == 0 else (file.newest + 1) % file.count", "file.newest = file.records % file.count",
     "the place by the number held"),
    (CARD, "min(file.records + 1, file.count)", "min(file.records + 1, file.count - 1)", "a file that is never full"),
    (CARD, "    card.current = file\n    return DONE\n\n\ndef append_cyclic", "    return DONE\n\n\ndef append_cyclic",
     "APPEND by SFI keeps the current file"),
    # Read to the end.
    (CARD, "min(256, left) if frame.le == 256 else frame.le", "frame.le", "Le 00 past the end is still 6700"),
    (CARD, "min(256, left) if frame.le == 256 else frame.le",
     "min(256, left) if frame.le == 256 and frame.p1 & 0x80 == 0 else frame.le", "Le 00 past the end is still 6700 by SFI"),
    (CARD, "min(256, left) if frame.le == 256 else frame.le",
     "min(256, left) if frame.le == 256 and frame.p1 & 0x80 != 0 else frame.le",
     "Le 00 past the end is still 6700 in the current file"),
    (CARD, "min(256, left) if frame.le == 256 else frame.le",
     "min(256, left) if frame.le == 256 and frame.p2 == 0 else frame.le", "Le 00 past the end is still 6700 from an offset on"),
    (CARD, "min(256, left)", "min(255, left)", "Le 00 gives at most 255"),
    (CARD, "min(256, left)", "(left if left < 256 else 255)", "Le 00 gives 255 where there is more"),
    (CARD, "min(256, left)", "min(257, left)", "Le 00 gives at most 257"),
    (CARD, "min(256, left)", "left", "Le 00 gives all, over 256 too"),
    (CARD, "min(256, left)", "(left % 256 or 256)", "Le 00 gives what is left modulo 256"),
    (CARD, "min(256, left)", "min(256, left - 1)", "Le 00 leaves the last byte out"),
    (CARD, "min(256, left)", "max(1, min(256, left - 1))", "Le 00 leaves the last byte out, unless it is the only one"),
    (CARD, "min(256, left) if frame.le == 256 else frame.le", "min(frame.le, left)", "any Le past the end gives what is left"),
    (CARD, "min(256, left) if frame.le == 256 else frame.le", "min(frame.le, left) if frame.le >= 255 else frame.le",
     "Le FF past the end gives what is left"),
    (CARD, "wanted = wanted_of(file.size - offset, data)", "wanted = wanted_of(file.size, data)",
     "Le 00 counts from the file's start, and is 6700"),
    (CARD, "    wanted = wanted_of(file.size - offset, data)\n    if offset + wanted > file.size:",
     "    wanted = wanted_of(file.size, data)\n    if offset + wanted > file.size and frame.le != 256:",
     "Le 00 counts from the file's start, and reads past the end"),
    (CARD, "wanted = wanted_of(file.size - offset, data)",
     "wanted = wanted_of(file.size - offset, data)\n    offset = 0 if frame.le == 256 else offset",
     "Le 00 reads from the file's start"),
    (CARD, "    wanted = wanted_of(file.size - offset, data)\n    if offset + wanted > file.size:",
     "    wanted = wanted_of(AREA_SIZE - file.start - offset, data)\n    if offset + wanted > file.size and frame.le != 256:",
     "Le 00 reads to the end of the area"),
    (CARD, "    if offset >= file.size:", "    if offset >= file.size + (frame.le == 256):", "Le 00 at the end gives no bytes"),
    (CARD, "    if offset >= file.size:\n        return 0x6A84, NOWHERE\n",
     "    if offset >= file.size:\n        return 0x6700 if frame.le == 256 else 0x6A84, NOWHERE\n",
     "Le 00 behind the end is 6700"),
    (CARD, "if not may_use(card, frame, right_of(file)):\n        return 0x6982, NOWHERE",
     "if frame.le != 256 and not may_use(card, frame, right_of(file)):\n        return 0x6982, NOWHERE",
     "Le 00 without the right"),
    (CARD, "if not may_use(card, frame, right_of(file)):\n        return 0x6982, NOWHERE",
     "if not may_use(card, frame, right_of(file)) and not (frame.le == 256 and right_of(file) == NEVER):\n"
     "        return 0x6982, NOWHERE", "Le 00 where the right is never"),
    (CARD, READ_BINARY, READ_BINARY.replace("= file", "= file if length == frame.le else card.current"),
     "Le 00 that gives less than 256 by SFI keeps the current file"),
    (CARD, "return bytes(area[begin:begin + length]), 0x9000\n\n\ndef update_binary",
     "return bytes(area[begin:begin + length]).ljust(frame.le, b\"\\x00\"), 0x9000\n\n\ndef update_binary",
     "Le 00 fills up to 256 with 00"),
    (CARD, "return bytes(area[begin:begin + length]), 0x9000\n\n\ndef update_binary",
     "return bytes(area[begin:begin + length]), 0x9000 if length == frame.le else 0x6282\n\n\ndef update_binary",
     "6282 for less than 256"),
    (CARD, "        return len(data)\n\n    sw, (file, begin, length, data)",
     "        return min(left, len(data))\n\n    sw, (file, begin, length, data)", "UPDATE BINARY past the end writes what fits"),
    (CARD, "    card.current = file\n    return bytes(area[begin:begin + length]), 0x9000\n\n\ndef update_record",
     "    card.current = file\n    if frame.le == 256:\n        length = min(256, file.start + file.extent - begin)\n"
     "    return bytes(area[begin:begin + length]), 0x9000\n\n\ndef update_record",
     "READ RECORD with Le 00 reads to the end of the file"),
    (CARD, "    if frame.case != 2 or frame.le not in (0x04, 0x08, 0x10):\n        return refused(0x6700)\n",
     "    if frame.case == 2 and frame.le == 256:\n        frame.le = 16\n"
     "    if frame.case != 2 or frame.le not in (0x04, 0x08, 0x10):\n        return refused(0x6700)\n",
     "GET CHALLENGE with Le 00 gives 16 bytes"),
    # Records of different lengths.
    (CARD, "return 2 <= size <= 4096", "return 1 <= size <= 4096", "a space of 1"),
    (CARD, "return 2 <= size <= 4096", "return 3 <= size <= 4096", "no space of 2"),
    (CARD, "return 2 <= size <= 4096", "return 2 <= size <= 4095", "no space of 4,096"),
    (CARD, "return 2 <= size <= 4096", "return 2 <= size", "a space over 4,096 is 6A84"),
    (CARD, "    if kind in (BINARY, VARIABLE):\n        size", "    if kind == BINARY:\n        size",
     "a space given as count and length"),
    (CARD, "        size, count, length = first << 8 | second, 0, 0\n",
     "        size, count, length = second << 8 | first if kind == VARIABLE else first << 8 | second, 0, 0\n",
     "a space with its low byte first"),
    (CARD, "    if file.kind not in (VARIABLE, CYCLIC):", "    if file.kind != CYCLIC:", "no APPEND to 2C"),
    (CARD, "if file.kind not in RECORD_TYPES:", "if file.kind not in (FIXED, CYCLIC):", "no READ and UPDATE RECORD of 2C"),
    (CARD, "    if file.kind != BINARY:\n        return 0x6981", "    if file.kind not in (BINARY, VARIABLE):\n        return 0x6981",
     "2C read and updated as binary"),
    (CARD, "file.used += 1 + len(data)", "file.used += len(data)", "the length byte forgotten in the used bytes"),
    (CARD, "if file.used + 1 + len(data) > file.size:", "if file.used + len(data) > file.size:", "room without the length byte"),
    (CARD, "if file.used + 1 + len(data) > file.size:", "if file.used + 1 + len(data) >= file.size:", "the last byte never used"),
    (CARD, "if file.used + 1 + len(data) > file.size:", "if file.used + 1 + len(data) > AREA_SIZE - file.start:",
     "room in the area in the place of the file's"),
    (CARD, "if file.used + 1 + len(data) > file.size:", "if file.used + 1 + LONGEST_RECORD > file.size:",
     "room for the longest record asked for"),
    (CARD, "    if len(data) > LONGEST_RECORD:\n        return 0x6700\n    if file.used",
     "    if len(data) > LONGEST_RECORD and file.used + 1 + len(data) <= file.size:\n        return 0x6700\n    if file.used",
     "6A84 before 6700"),
    (CARD, "    if len(data) > LONGEST_RECORD:\n        return 0x6700\n", "", "a record over 178 is 6A84"),
    (CARD, "if len(data) > LONGEST_RECORD:", "if len(data) > LONGEST_RECORD + 1:", "a record of 179"),
    (CARD, "if len(data) > LONGEST_RECORD:", "if len(data) >= LONGEST_RECORD:", "no record of 178"),
    (CARD, "    if file.used + 1 + len(data) > file.size:\n        return 0x6A84\n",
     "    while file.used + 1 + len(data) > file.size:\n        if file.used == 0:\n            return 0x6A84\n"
     "        gone = 1 + area[file.start]\n        file.used -= gone\n"
     "        area[file.start:file.start + file.used] = area[file.start + gone:file.start + gone + file.used]\n",
     "in a full 2C file the oldest goes"),
    (CARD, "    if file.used + 1 + len(data) > file.size:\n",
     "    if file.used + 1 + len(data) > file.size or file.records_held(area) == 255:\n", "at most 255 records"),
    (CARD, "return len(self.variable_records(area))", "return len(self.variable_records(area)) & 0xFF", "the records held in a byte"),
    (CARD, "return len(self.variable_records(area))", "return min(len(self.variable_records(area)), 254)", "no number 255 in 2C"),
    (CARD, "return len(self.variable_records(area))", "return len(self.variable_records(area)) - (self.used == self.size)",
     "the last record of a full 2C file is lost"),
    (CARD, "self.variable_records(area)[number - 1]", "self.variable_records(area)[-number]", "number 1 of 2C is the newest"),
    (CARD, "found.append((place + 1, length))", "found.append((place, length))", "a record read from its length byte on"),
    (CARD, "found.append((place + 1, length))", "found.append((place + 1, area[self.start]))", "all records as long as the first"),
    (CARD, "return refused(0x6C00 | length)", "return refused(0x6C00 | file.record(area, 1)[1])", "6C with the first record's length"),
    (CARD, "return refused(0x6C00 | length)", "return refused(0x6C00 | file.record(area, file.records_held(area))[1])",
     "6C with the last record's length"),
    (CARD, "return refused(0x6C00 | length)", "return refused(0x6C00 | length + (file.kind == VARIABLE))",
     "6C with the length byte counted"),
    (CARD, "if frame.le != 256 and frame.le != length:", "if frame.le != 256 and frame.le != length and file.kind != VARIABLE:",
     "any Le for 2C"),
    (CARD, "    if len(data) != length:\n        return refused(0x6700)\n    card.current = file\n    area",
     "    if len(data) > length:\n        return refused(0x6700)\n    length = len(data)\n    card.current = file\n    area",
     "UPDATE with less than the record"),
    (CARD, "    if len(data) != length:\n        return refused(0x6700)\n    card.current = file\n",
     "    if len(data) != length and file.kind != VARIABLE:\n        return refused(0x6700)\n    card.current = file\n"
     "    if len(data) != length:\n        rest = area[begin + length:file.start + file.used]\n"
     "        if file.used - length + len(data) > file.size or len(data) > LONGEST_RECORD:\n"
     "            return refused(0x6700)\n        file.used += len(data) - length\n"
     "        changed = bytes((len(data),)) + data + rest\n"
     "        area[begin - 1:begin - 1 + len(changed)] = changed\n        return DONE\n",
     "UPDATE takes any length and moves the rest"),
    (CARD, "    card.current = file\n    return DONE\n\n\ndef append_cyclic",
     "    card.current = file if file.kind == CYCLIC else card.current\n    return DONE\n\n\ndef append_cyclic",
     "APPEND to 2C by SFI keeps the current file"),
    (CARD, "    sw = append_variable(file", "    card.current = file\n    sw = append_variable(file",
     "an APPEND that is refused by length or room makes its file current"),
    (CARD, RESET,
     "    for file in card.files:\n        file.used = 0\n    card.current = None\n    card.folder = ROOT\n    card.challenge = b''\n"
     "    card.waiting", "a reset that empties the 2C files"),
    (CARD, "    area[start:start + file.extent] = bytes(file.extent)\n",
     "    if kind != VARIABLE:\n        area[start:start + file.extent] = bytes(file.extent)\n",
     "a new 2C file that is not cleared (no script can tell: free bytes do not show)"),
    (CARD, "    file.used += 1 + len(data)\n",
     "    file.used += 1 + len(data)\n    area[file.start + file.used:file.start + file.size] = bytes(file.size - file.used)\n",
     "an APPEND that clears what is free (no script can tell: free bytes do not show)"),
    # Credentials.
    (CARD, "min(tries, 15)", "tries & 15", "tries modulo 16"),
    (CARD, "min(tries, 15)", "min(tries, 14)", "at most 14"),
    (CARD, "        credential.tries = credential.limit\n        credential.held = True", "        credential.held = True",
     "a right presentation that does not restore the tries"),
    (CARD, "    credential.tries -= 1\n    credential.held = False\n", "    credential.tries -= 1\n",
     "a wrong presentation that keeps the right"),
    (CARD, "    if shown == expected:", "    if shown[:len(expected)] == expected:", "a longer PIN agrees"),
    (CARD, "    if shown == expected:", "    if expected[:len(shown)] == shown:", "a shorter PIN agrees"),
    (CARD, "        if pin.held:\n            return DONE\n", "", "a query that never says 9000"),
    (CARD, "return refused(0x6983) if pin.tries == 0 else tries_answer(pin.tries)", "return tries_answer(pin.tries)",
     "a query that says 63C0"),
    (CARD, "    if pin.tries == 0:\n        return refused(0x6983)\n    if not are_digits(frame.data):\n        return refused(0x6A80)\n",
     "    if not are_digits(frame.data):\n        return refused(0x6A80)\n    if pin.tries == 0:\n        return refused(0x6983)\n",
     "digits before tries"),
    (CARD, "    if not are_digits(frame.data):\n        return refused(0x6A80)\n    return compare(pin", "    return compare(pin",
     "no digits check in VERIFY"),
    (CARD, "    return card.admin if p2 == 0x00 else card.user", "    return card.user if p2 == 0x00 else card.admin", "PINs swapped"),
    (CARD, "    if card.device.tries == 0:\n        return refused(0x6983)\n    if card.challenge == NO_CHALLENGE:\n"
     "        return refused(0x6984)\n",
     "    if card.challenge == NO_CHALLENGE:\n        return refused(0x6984)\n    if card.device.tries == 0:\n"
     "        return refused(0x6983)\n", "the challenge before the tries"),
    (CARD, "card.challenge.ljust(16, b\"\\x00\")", "card.challenge.rjust(16, b\"\\x00\")", "a challenge filled in front"),
    (CARD, "card.challenge.ljust(16, b\"\\x00\")", "card.challenge.ljust(16, b\"\\x80\")", "a challenge filled with 80"),
    (CARD, "    pin.value = frame.data\n", "    pin.value = frame.data\n    pin.held = False\n", "a change that drops the right"),
    (CARD, "    pin.value = frame.data\n", "    pass\n", "a change that changes nothing"),
    (CARD, "    if not pin.held:\n        return refused(0x6982)", "    if not card.admin.held:\n        return refused(0x6982)",
     "a change by the admin right"),
    (CARD, "    card.user.tries = card.user.limit\n", "", "a reload that keeps the tries"),
    (CARD, "    card.user.tries = card.user.limit\n", "    card.user.tries = card.admin.limit\n", "a reload by the admin limit"),
    (CARD, "    if not card.admin.held:\n        return refused(0x6982)\n    if not are_digits(frame.data):\n        return refused(0x6A80)\n",
     "    if not are_digits(frame.data):\n        return refused(0x6A80)\n    if not card.admin.held:\n        return refused(0x6982)\n",
     "digits before the right in RELOAD"),
    (CARD, "    if not 1 <= fid & 0x1F <= 30:\n        return refused", "    if not 1 <= fid & 0x1F <= 31:\n        return refused",
     "SFI 31"),
    (CARD, "    if not 1 <= fid & 0x1F <= 30:\n        return refused", "    if not 0 <= fid & 0x1F <= 30:\n        return refused",
     "SFI 0"),
    (CARD, "        return card.device.held\n    return is_allowed",
     "        return card.device.held or not card.files\n    return is_allowed", "a first file without the right"),
    (CARD, "    if file_by_sfi(card, fid & 0x1F) is not None:", "    if with_fid(files_here(card), fid) is not None:", "6986 by FID only"),
    (CARD, "len(card.files) >= MOST_FILES or", "len(card.files) > MOST_FILES or", "a seventeenth file"),
    (CARD, "len(card.files) >= MOST_FILES or", "len(card.files) >= MOST_FILES - 1 or", "fifteen files"),
    (CARD, "start + file.extent > AREA_SIZE", "start + file.extent >= AREA_SIZE", "never a full area"),
    (CARD, "    card.files.append(file)\n    card.current = file\n", "    card.files.append(file)\n", "CREATE keeps the current file"),
    (CARD, "frame.le not in (0x04, 0x08, 0x10)", "frame.le not in (0x04, 0x08)", "no challenge of 16"),
    (CARD, "frame.le not in (0x04, 0x08, 0x10)", "not 4 <= frame.le <= 16", "a challenge of 5"),
    (CARD, "card.challenge = random[:frame.le]", "card.challenge = random[-frame.le:]", "the last bytes of the random input"),
    # Directories. What SELECT finds.
    (CARD, SELECT_FILE + SELECT_FOLDER, SELECT_FOLDER + SELECT_FILE, "SELECT that looks among directories first"),
    (CARD, "    file = with_fid(files_here(card), fid)\n",
     "    file = with_fid(files_here(card) + [file for file in card.files if file.folder is ROOT], fid)\n"
     "    card.folder = card.folder if file is None else file.folder\n", "a root file that SELECT finds from inside a directory"),
    (CARD, "    file = with_fid(files_here(card), fid)\n", "    file = with_fid(files_here(card), fid) or with_fid(card.files, fid)\n"
     "    card.folder = card.folder if file is None else file.folder\n", "a file that SELECT finds in any directory"),
    (CARD, "    file = with_fid(files_here(card), fid)\n",
     "    file = with_fid([file for file in card.files if file.folder is ROOT], fid)\n", "SELECT that finds root files alone"),
    (CARD, "    folder = with_fid(card.folders, fid)\n", "    folder = with_fid(card.folders, fid) if card.folder is ROOT else None\n",
     "directories that only the root finds"),
    (CARD, "    folder = with_fid(card.folders, fid)\n",
     "    folder = next((one for one in card.folders if one.fid & 0x1F == fid & 0x1F), None)\n", "SELECT of a directory by its low bits"),
    (CARD, "    folder = with_fid(card.folders, fid)\n",
     "    folder = with_fid(card.folders, fid)\n    if folder is not None and not is_allowed(card, folder.right):\n"
     "        return refused(0x6982)\n", "a directory that SELECT opens by its right"),
    (CARD, "        card.folder = folder\n        card.current = None\n", "        card.folder = folder\n",
     "a directory selected that keeps the current file"),
    (CARD, "        card.folder = folder\n        card.current = None\n",
     "        card.current = card.current if card.folder is folder else None\n        card.folder = folder\n",
     "the current directory selected again that keeps the current file"),
    (CARD, "        card.folder = folder\n        card.current = None\n", "        card.current = None\n",
     "a directory selected that does not become current"),
    (CARD, "        card.folder = ROOT\n        card.current = None\n", "        card.current = None\n",
     "3F00 that stays in the directory"),
    (CARD, "    return refused(0x6A82)\n\n\n# ---",
     "    card.folder = card.current = ROOT\n    return refused(0x6A82)\n\n\n# ---",
     "a SELECT that finds nothing and returns to the root"),
    (CARD, RESET, RESET.replace("    card.folder = ROOT\n", ""), "a reset that stays in the directory"),
    (CARD, RESET, "    card.folders.clear()\n    card.files = [file for file in card.files if file.folder is ROOT]\n" + RESET,
     "a reset that forgets directories"),
    # What an SFI names.
    (CARD, "    for file in files_here(card):\n", "    for file in files_here(card) + card.files:\n", "an SFI found in another directory"),
    (CARD, "    for file in files_here(card):\n", "    for file in card.files:\n", "an SFI found in all directories"),
    (CARD, "    for file in files_here(card):\n",
     "    for file in files_here(card) + [file for file in card.files if file.folder is ROOT]:\n",
     "an SFI found in the root from inside a directory"),
    (CARD, "    return card.current if sfi == 0 else file_by_sfi(card, sfi)\n",
     "    if sfi != 0 and file_by_sfi(card, sfi) is None:\n        card.current = None\n"
     "    return card.current if sfi == 0 else file_by_sfi(card, sfi)\n", "an SFI that is not there and drops the current file"),
    # What CREATE FILE asks.
    (CARD, MAY_CREATE, "    return card.device.held\n", "the device right asked inside a directory"),
    (CARD, MAY_CREATE, "    return card.device.held or card.folder is not ROOT and is_allowed(card, card.folder.right)\n",
     "the device right that will do inside a directory too"),
    (CARD, MAY_CREATE,
     "    return card.device.held and (card.folder is ROOT or is_allowed(card, card.folder.right))\n",
     "the device right asked besides the creation right"),
    (CARD, MAY_CREATE, "    return card.folder is not ROOT or card.device.held\n", "no right asked inside a directory"),
    (CARD, MAY_CREATE,
     "    return card.device.held if card.folder is ROOT else card.folder.right == NEVER or is_allowed(card, card.folder.right)\n",
     "a creation right of 0F that opens"),
    (CARD, MAY_CREATE, "    return card.device.held if card.folder is ROOT else is_allowed(card, card.folder.right & ~ANY_BIT)\n",
     "a creation right without alternatives"),
    (CARD, MAY_CREATE,
     "    return card.device.held if card.folder is ROOT else is_allowed(card, card.folder.right | (ANY_BIT if card.folder.right else 0))\n",
     "a creation right of which one bit is enough"),
    (CARD, "    if not may_create(card):\n        return refused(0x6982)\n",
     "    if frame.data[0] == FOLDER and card.folder is not ROOT:\n        return refused(0x6A81)\n    if not may_create(card):\n"
     "        return refused(0x6982)\n", "6A81 before 6982"),
    (CARD, "    if not may_create(card):\n        return refused(0x6982)\n",
     "    if not may_create(card) and not (frame.data[0] == FOLDER and card.device.held):\n        return refused(0x6982)\n",
     "the device right for type 38 inside a directory"),
    (CARD, "    if card.folder is not ROOT:\n        return refused(0x6A81)\n" + FOLDER_BYTES,
     FOLDER_BYTES + "    if card.folder is not ROOT:\n        return refused(0x6A81)\n", "6A80 before 6A81"),
    (CARD, "    if card.folder is not ROOT:\n        return refused(0x6A81)\n",
     "    if card.folder is not ROOT:\n        return refused(0x6A80)\n", "6A80 for a directory in a directory"),
    (CARD, "    if card.folder is not ROOT:\n        return refused(0x6A81)\n", "", "a directory made from inside another"),
    (CARD, "    if not 1 <= fid & 0x1F <= 30:\n        return refused",
     "    if not 1 <= fid & 0x1F <= 30 and frame.data[:1] != bytes((FOLDER,)):\n        return refused", "any low bits for a directory"),
    (CARD, "first != 0 or second != 0 or last != 0 or", "second != 0 or last != 0 or", "any second byte for a directory"),
    (CARD, "first != 0 or second != 0 or last != 0 or", "first != 0 or last != 0 or", "any third byte for a directory"),
    (CARD, "first != 0 or second != 0 or last != 0 or", "first != 0 or second != 0 or", "any fifth byte for a directory"),
    (CARD, "first != 0 or second != 0 or last != 0 or", "first != 0 or second != 0 or is_bad_rights_byte(last) or",
     "a write right for a directory"),
    (CARD, "last != 0 or is_bad_creation_right(right):", "last != 0:", "any creation right"),
    (CARD, "last != 0 or is_bad_creation_right(right):", "last != 0 or is_bad_creation_right(right) or right == NEVER:",
     "0F as a bad creation right"),
    (CARD, "last != 0 or is_bad_creation_right(right):", "last != 0 or is_bad_creation_right(right) or right & ANY_BIT:",
     "no alternatives in a creation right"),
    (CARD, "    _, first, second, right, last = data\n", "    _, first, second, last, right = data\n",
     "the creation right as the last byte"),
    (CARD, FOLDER_CLASH, "    if with_fid(card.folders, fid) is not None:\n", "a directory's FID held against directories alone"),
    (CARD, FOLDER_CLASH, "    if with_fid(files_here(card), fid) is not None:\n", "a directory's FID held against root files alone"),
    (CARD, FOLDER_CLASH, "    if with_fid(card.folders + card.files, fid) is not None:\n",
     "a directory's FID held against files inside directories"),
    (CARD, FOLDER_CLASH,
     "    if any(one.fid & 0x1F == fid & 0x1F for one in card.folders) or with_fid(files_here(card), fid) is not None:\n",
     "directories that differ in their low bits"),
    (CARD, FOLDER_CLASH, "    if with_fid(card.folders, fid) is not None or file_by_sfi(card, fid & 0x1F) is not None:\n",
     "a directory that needs a free SFI"),
    (CARD, FILE_CLASH, "", "a root file with a directory's FID"),
    (CARD, FILE_CLASH, FILE_CLASH.replace("card.folder is ROOT and ", ""), "no directory's FID for a file inside a directory"),
    (CARD, FILE_CLASH,
     "    if card.folder is ROOT and any(one.fid & 0x1F == fid & 0x1F for one in card.folders):\n        return refused(0x6986)\n",
     "a directory that uses up an SFI"),
    (CARD, "    if file_by_sfi(card, fid & 0x1F) is not None:", "    if any(file.sfi == fid & 0x1F for file in card.files):",
     "SFIs that differ in the whole card"),
    (CARD, "    if file_by_sfi(card, fid & 0x1F) is not None:", "    if card.folder is ROOT and file_by_sfi(card, fid & 0x1F) is not None:",
     "an SFI twice in a directory"),
    (CARD, "    if file_by_sfi(card, fid & 0x1F) is not None:",
     "    if file_by_sfi(card, fid & 0x1F) is not None or with_fid(card.files, fid) is not None:", "FIDs that differ in the whole card"),
    (CARD, FOLDER_CLASH, "    if len(card.folders) >= MOST_FOLDERS:\n        return refused(0x6A84)\n" + FOLDER_CLASH,
     "6A84 before 6986 for a directory"),
    (CARD, "    if len(card.folders) >= MOST_FOLDERS:\n", "    if len(card.folders) > MOST_FOLDERS:\n", "a fifth directory"),
    (CARD, "    if len(card.folders) >= MOST_FOLDERS:\n", "    if len(card.folders) >= MOST_FOLDERS - 1:\n", "three directories"),
    (CARD, "    if len(card.folders) >= MOST_FOLDERS:\n", "    if len(card.folders) >= MOST_FOLDERS or len(card.files) >= MOST_FILES:\n",
     "no directory where there are 16 files"),
    (CARD, "    if len(card.folders) >= MOST_FOLDERS:\n",
     "    if len(card.folders) >= MOST_FOLDERS or sum(file.extent for file in card.files) == AREA_SIZE:\n",
     "no directory where the area is full"),
    (CARD, "len(card.files) >= MOST_FILES or", "len(card.files) + len(card.folders) >= MOST_FILES or", "a directory that counts as a file"),
    (CARD, "len(card.files) >= MOST_FILES or", "len(files_here(card)) >= MOST_FILES or", "16 files in each directory"),
    # What CREATE FILE does.
    (CARD, "    card.folders.append(Folder(fid, right))\n",
     "    card.folders.append(Folder(fid, right))\n    card.folder, card.current = card.folders[-1], None\n",
     "a directory that becomes current when made"),
    (CARD, "    card.folders.append(Folder(fid, right))\n", "    card.folders.append(Folder(fid, right))\n    card.current = None\n",
     "a directory made that drops the current file"),
    (CARD, "    card.folders.append(Folder(fid, right))\n", "    card.folders.append(Folder(fid, 0x01))\n",
     "the device right for every directory"),
    (CARD, "    card.folders.append(Folder(fid, right))\n", "    card.folders.append(Folder(fid, 0x00))\n",
     "a creation right that is not kept"),
    (CARD, "    card.folders.append(Folder(fid, right))\n", "    card.folders.insert(0, Folder(fid, right))\n",
     "directories kept in another order: no script can tell"),
    (CARD, "read, write, start, card.folder)\n", "read, write, start)\n    card.folder = ROOT\n",
     "a file made in the root while a directory is current"),
    (CARD, "    card.files.append(file)\n    card.current = file\n",
     "    card.files.append(file)\n    card.current = file if card.folder is ROOT else card.current\n",
     "a file made inside that does not become current"),
    # Replies fetched afterwards.
    (CARD, "0x6100 | len(card.waiting) & 0xFF", "0x6100 | len(card.waiting) - 1 & 0xFF", "61 with one less"),
    (CARD, "0x6100 | len(card.waiting) & 0xFF", "0x6100 | min(len(card.waiting), 0xFF)", "61FF for 256"),
    (CARD, "0x6100 | len(card.waiting) & 0xFF", "0x6100", "61 without the count"),
    (CARD, "card.waiting[:wanted], card.waiting[wanted:]", "card.waiting[:wanted], card.waiting[:len(card.waiting) - wanted]",
     "the rest not moved to the front"),
    (CARD, "card.waiting[:wanted], card.waiting[wanted:]", "card.waiting[-wanted:], card.waiting[:-wanted]", "the last bytes first"),
    (CARD, "card.waiting[:wanted], card.waiting[wanted:]", "card.waiting[:wanted], NOTHING_WAITS", "the rest is lost"),
    (CARD, "card.waiting[:wanted], card.waiting[wanted:]", "card.waiting[:wanted], card.waiting", "the same bytes again"),
    (CARD, "card.waiting[:wanted], card.waiting[wanted:]", "card.waiting[:wanted], card.waiting[wanted + 1:]", "a byte between the parts is lost"),
    (CARD, "    part, card.waiting = card.waiting[:wanted], card.waiting[wanted:]\n    return part, still_waiting(card)[1] if card.waiting else 0x9000\n",
     "    part, sw = card.waiting[:wanted], still_waiting(card)[1]\n    card.waiting = card.waiting[wanted:]\n"
     "    return part, sw if card.waiting else 0x9000\n", "61 and what waited before"),
    (CARD, "still_waiting(card)[1] if card.waiting else 0x9000", "still_waiting(card)[1]", "6100 where none remain"),
    (CARD, "still_waiting(card)[1] if card.waiting else 0x9000", "0x9000", "9000 while some remain"),
    (CARD, 'if card.mode == FETCHED and answer[0] != b"":', "if card.mode == FETCHED and answer[1] == 0x9000:", "6100 for no data"),
    (CARD, 'if card.mode == FETCHED and answer[0] != b"":', 'if answer[0] != b"":', "mode 1 whatever the issue said"),
    (CARD, 'if card.mode == FETCHED and answer[0] != b"":', 'if card.mode == FETCHED and answer[0] != b"" and row is not get_challenge:',
     "a challenge does not wait"),
    (CARD, "        card.waiting = answer[0]\n        return still_waiting(card)\n",
     "        card.waiting = answer[0]\n        return answer[0], still_waiting(card)[1]\n", "data that wait are given at once too"),
    (CARD, "    card.waiting = NOTHING_WAITS\n    if card.mode == FETCHED and answer[0] != b\"\":\n        card.waiting = answer[0]\n",
     "    waited, card.waiting = card.waiting, NOTHING_WAITS\n    if card.mode == FETCHED and answer[0] != b\"\":\n"
     "        card.waiting = (waited + answer[0])[:MOST_WAITING]\n", "new data behind those that wait"),
    (CARD, "        if row is get_response and card.mode == AT_ONCE:\n            row = None\n", "", "mode 0 answers GET RESPONSE"),
    (CARD, "    if row is get_response:\n        return answer\n",
     "    if row is get_response or frame is not None and sent[:2] == b\"\\x00\\xC0\":\n        return answer\n",
     "mode 0 keeps the challenge at GET RESPONSE"),
    (CARD, "    if row is get_response:\n        return answer\n",
     "    if row is get_response or sent[:2] == b\"\\x00\\xC0\" and card.mode == FETCHED:\n        return answer\n",
     "a broken frame of GET RESPONSE keeps what waits"),
    (CARD, "    if row is get_response:\n        return answer\n",
     "    if row is get_response or sent[1:2] == b\"\\xC0\" and frame is not None and card.mode == FETCHED:\n        return answer\n",
     "80C0 keeps what waits"),
    (CARD, "    if row is get_response:\n        return answer\n",
     "    if row is get_response:\n        card.challenge = NO_CHALLENGE\n        return answer\n", "GET RESPONSE drops the challenge"),
    (CARD, "    if row is get_response:\n        return answer\n",
     "    if row is get_response:\n        if answer[0] == b\"\":\n            card.challenge = NO_CHALLENGE\n        return answer\n",
     "a refused GET RESPONSE drops the challenge"),
    (CARD, "    if row is get_response:\n        return answer\n",
     "    if row is get_response:\n        if answer[1] == 0x9000:\n            card.challenge = NO_CHALLENGE\n        return answer\n",
     "the last GET RESPONSE drops the challenge"),
    (CARD, "    if row is get_response:\n        return answer\n",
     "    if row is get_response:\n        if answer[1] == 0x6985:\n            card.challenge = NO_CHALLENGE\n        return answer\n",
     "GET RESPONSE where nothing waits drops the challenge"),
    (CARD, "    if row is get_response:\n        return answer\n",
     "    if row is get_response:\n        if answer[0] == b\"\":\n            card.waiting = NOTHING_WAITS\n        return answer\n",
     "a refused GET RESPONSE discards what waits"),
    (CARD, "    if row is get_response:\n        return answer\n",
     "    if row is get_response:\n        if answer[1] >> 8 == 0x6C:\n            card.waiting = NOTHING_WAITS\n        return answer\n",
     "a GET RESPONSE with too high an Le discards what waits"),
    (CARD, "    card.waiting = NOTHING_WAITS\n    if card.mode == FETCHED",
     "    if answer[1] == 0x9000:\n        card.waiting = NOTHING_WAITS\n    if card.mode == FETCHED", "a refused command keeps what waits"),
    (CARD, "    card.waiting = NOTHING_WAITS\n    if card.mode == FETCHED",
     "    if frame is not None:\n        card.waiting = NOTHING_WAITS\n    if card.mode == FETCHED", "a broken frame keeps what waits"),
    (CARD, "    card.waiting = NOTHING_WAITS\n    if card.mode == FETCHED",
     "    if row is not None or frame is None:\n        card.waiting = NOTHING_WAITS\n    if card.mode == FETCHED",
     "a command that is not in the list keeps what waits"),
    (CARD, "    card.waiting = NOTHING_WAITS\n    if card.mode == FETCHED",
     "    if not (row is verify and frame.case == 1):\n        card.waiting = NOTHING_WAITS\n    if card.mode == FETCHED",
     "a query keeps what waits"),
    (CARD, "    card.waiting = NOTHING_WAITS\n    if card.mode == FETCHED",
     "    if answer[1] != 0x9000:\n        card.waiting = NOTHING_WAITS\n    if card.mode == FETCHED", "a served command without data keeps what waits"),
    (CARD, "    card.waiting = NOTHING_WAITS\n    return 0", "    return 0", "a reset that keeps what waits"),
    (CARD, "    card.waiting = NOTHING_WAITS\n    return 0", "    card.waiting = NOTHING_WAITS\n    card.mode = AT_ONCE\n    return 0",
     "a reset that sets mode 0"),
    (CARD, "    if len(random) != 16:\n        return 3, 0",
     "    if len(random) != 16:\n        card.waiting = b''\n        return 3, 0", "outcome 3 discards what waits"),
    (CARD, "if row is not get_challenge or answer[1] != 0x9000:",
     "if row is not get_challenge or answer[1] != 0x9000 or card.mode == FETCHED:", "no challenge stands where it waits"),
    (CARD, READ_BINARY, READ_BINARY.replace("= file", "= file if card.mode == AT_ONCE else card.current"),
     "READ BINARY that ends 61xx keeps the current file"),
    (CARD, "        return refused(0x6C00 | length)\n    card.current = file\n",
     "        return refused(0x6C00 | length)\n    card.current = file if card.mode == AT_ONCE else card.current\n",
     "READ RECORD that ends 61xx keeps the current file"),
    (CARD, "    if not p_is(frame, 0x00, 0x00):\n        return refused(0x6A86)\n    if frame.case != 2:\n        return refused(0x6700)\n",
     "    if frame.case != 2:\n        return refused(0x6700)\n    if not p_is(frame, 0x00, 0x00):\n        return refused(0x6A86)\n",
     "GET RESPONSE checks the case before P"),
    (CARD, "    if not p_is(frame, 0x00, 0x00):\n        return refused(0x6A86)\n    if frame.case != 2:\n",
     "    if frame.p1 != 0:\n        return refused(0x6A86)\n    if frame.case != 2:\n", "GET RESPONSE with any P2"),
    (CARD, "    if frame.case != 2:\n        return refused(0x6700)\n    if card.waiting == NOTHING_WAITS:\n        return refused(0x6985)\n",
     "    if card.waiting == NOTHING_WAITS:\n        return refused(0x6985)\n    if frame.case != 2:\n        return refused(0x6700)\n",
     "6985 before 6700"),
    (CARD, "    if frame.case != 2:\n        return refused(0x6700)\n    if card.waiting",
     "    if frame.case == 1:\n        frame.le = 256\n    elif frame.case != 2:\n        return refused(0x6700)\n    if card.waiting",
     "GET RESPONSE without Le gives all"),
    (CARD, "    if frame.case != 2:\n        return refused(0x6700)\n    if card.waiting",
     "    if frame.case not in (2, 4):\n        return refused(0x6700)\n    if card.waiting", "GET RESPONSE of case 4"),
    (CARD, "        return refused(0x6985)\n", "        return DONE\n", "9000 where nothing waits"),
    (CARD, "        return refused(0x6985)\n", "        return refused(0x6A82)\n", "6A82 where nothing waits"),
    (CARD, "        return refused(0x6985)\n", "        return refused(0x6C00)\n", "6C00 where nothing waits"),
    (CARD, "len(card.waiting) if frame.le == 256 else frame.le", "frame.le", "Le 00 is 256 at GET RESPONSE"),
    (CARD, "len(card.waiting) if frame.le == 256 else frame.le", "min(frame.le, len(card.waiting))", "too high an Le gives what waits"),
    (CARD, "    if wanted > len(card.waiting):\n", "    if wanted >= len(card.waiting) and frame.le != 256:\n",
     "an Le that is just the count refused"),
    (CARD, "    if wanted > len(card.waiting):\n", "    if wanted != len(card.waiting):\n", "an Le below the count refused"),
    (CARD, "    if wanted > len(card.waiting):\n", "    if wanted > len(card.waiting) + 1:\n", "one more than waits"),
    (CARD, "        return refused(0x6C00 | len(card.waiting))\n", "        return refused(0x6700)\n", "6700 for too high an Le"),
    (CARD, "        return refused(0x6C00 | len(card.waiting))\n", "        return refused(0x6100 | len(card.waiting))\n",
     "61 for too high an Le"),
    (CARD, "        return refused(0x6C00 | len(card.waiting))\n", "        return refused(0x6C00 | wanted)\n", "6C and Le"),
    (CARD, '(0x00, 0xC0, "GET RESPONSE"', '(0x80, 0xC0, "GET RESPONSE"', "GET RESPONSE in class 80"),
    (CARD, "    if mode not in MODES:\n        return 5, Card()\n", "    mode = min(mode, FETCHED)\n", "any other mode as mode 1"),
    (CARD, "    if mode not in MODES:\n        return 5, Card()\n", "    if mode & 0xFF not in MODES:\n        return 5, Card()\n    mode &= 0xFF\n",
     "the mode cut to a byte"),
    (CARD, "    if mode not in MODES:\n        return 5, Card()\n", "    if mode > 2:\n        return 5, Card()\n    mode &= 1\n", "mode 2"),
    (CARD, "    card.mode = mode\n", "", "always mode 0"),
    (SCRIPT, "        if outcome == 0:\n            self.card = issued",
     "        if self.card is not None:\n            self.card.waiting = b''\n        if outcome == 0:\n            self.card = issued",
     "a refused ISSUE discards what waits"),
    (SCRIPT, 'b"ISSUE" and len(fields) == 10:', 'b"ISSUE" and len(fields) >= 10:', "ISSUE with more fields"),
    (SCRIPT, '        if fields[0] == b"ISSUE" and len(fields) == 10:\n            return self.issue(fields)\n',
     '        if fields[0] == b"ISSUE" and len(fields) in (9, 10):\n'
     '            return self.issue(fields if len(fields) == 10 else fields[:7] + [b"0"] + fields[7:])\n', "ISSUE without a mode"),
    (SCRIPT, '        if fields[0] == b"ISSUE" and len(fields) == 10:\n            return self.issue(fields)\n',
     '        if fields[0] == b"ISSUE" and len(fields) in (8, 10):\n'
     '            return self.issue((fields + [b"00" * 16, b"10"])[:10])\n', "ISSUE without a transport key"),
    (SCRIPT, "        key_limit, admin_limit, user_limit, mode, transport_limit = numbers\n",
     "        key_limit, admin_limit, mode, user_limit, transport_limit = numbers\n", "the mode before the user PIN's limit"),
    (SCRIPT, "        key_limit, admin_limit, user_limit, mode, transport_limit = numbers\n",
     "        transport_limit, admin_limit, user_limit, mode, key_limit = numbers\n", "the limits of the two keys exchanged"),
    (SCRIPT, "        key, transport_key = bytes_of(fields[1]), bytes_of(fields[8])\n",
     "        transport_key, key = bytes_of(fields[1]), bytes_of(fields[8])\n", "the two keys exchanged"),
    (SCRIPT, "for place in (2, 4, 6, 7, 9)]", "for place in (2, 4, 6, 7, 2)]", "the device key's limit for the transport key"),
    (SCRIPT, "if key is None or transport_key is None or None in numbers:",
     "transport_key = transport_key or b\"\"\n        if key is None or None in numbers:",
     "a transport key that is no hex is refused by 5"),
    # The script program.
    (SCRIPT, "LONGEST_LINE = 1024", "LONGEST_LINE = 1023", "lines up to 1,023"),
    (SCRIPT, "LONGEST_LINE = 1024", "LONGEST_LINE = 1025", "lines up to 1,025"),
    (SCRIPT, "MOST_BYTES = 300", "MOST_BYTES = 299", "299 bytes"),
    (SCRIPT, "MOST_BYTES = 300", "MOST_BYTES = 301", "301 bytes"),
    (SCRIPT, "HIGHEST_NUMBER = 65535", "HIGHEST_NUMBER = 65534", "numbers to 65,534"),
    (SCRIPT, "HIGHEST_NUMBER = 65535", "HIGHEST_NUMBER = 65536", "numbers to 65,536"),
    (SCRIPT, "0|[1-9][0-9]{0,4}", "[0-9]{1,5}", "leading zeros"),
    (SCRIPT, "0|[1-9][0-9]{0,4}", "[1-9][0-9]{0,4}", "no number 0"),
    (SCRIPT, "[0-9A-F]{2}", "[0-9A-Fa-f]{2}", "lower-case hex"),
    (SCRIPT, "fields = line.split(b\"\\t\")", "fields = line.rstrip(b\"\\r\").split(b\"\\t\")", "CR taken off"),
    (SCRIPT, "fields = line.split(b\"\\t\")", "fields = line.rstrip(b\"\\t\").split(b\"\\t\")", "a tab at the end taken off"),
    (SCRIPT, "b\"RESET\" and len(fields) == 1", "b\"RESET\"", "RESET with fields"),
    (SCRIPT, "b\"CMD\" and len(fields) == 3", "b\"CMD\" and len(fields) >= 3", "CMD with more fields"),
    (SCRIPT, "        if outcome == 0:\n            self.card = issued", "        self.card = issued", "a refused ISSUE that blanks the card"),
    (SCRIPT, "        if self.card is None:\n            return NOT_A_RECORD\n", "        if self.card is None:\n            return 4, b'', None\n",
     "RESET before a card is 4"),
)

# Errors in codes on the bus. Scripts must notice them, and the self-test too.
IN_CODES = (
    # The code.
    (CARD, '    whole = message + b"\\x80"\n', '    whole = message + b"\\x80" if len(message) % 16 else message\n',
     "padding left out at a multiple of 16"),
    (CARD, '    whole = message + b"\\x80"\n', "    whole = message\n", "padding by 00 alone"),
    (CARD, '    whole = message + b"\\x80"\n', '    whole = message + b"\\x80" + bytes(16)\n', "a block of padding too many"),
    (CARD, '    whole = message + b"\\x80"\n', '    whole = message + b"\\x00"\n', "padding by 00, always"),
    (CARD, 'mac(key, challenge.ljust(16, b"\\x00"), message)', "mac(key, bytes(16), message)", "an initial value of 00"),
    (CARD, 'mac(key, challenge.ljust(16, b"\\x00"), message)', 'mac(key, challenge.rjust(16, b"\\x00"), message)',
     "the challenge of a code filled in front"),
    (CARD, 'mac(key, challenge.ljust(16, b"\\x00"), message)', 'mac(key, challenge.ljust(16, b"\\x80"), message)',
     "the challenge of a code filled with 80"),
    (CARD, 'mac(key, challenge.ljust(16, b"\\x00"), message)', 'mac(key, challenge[:8].ljust(16, b"\\x00"), message)',
     "eight bytes of the challenge at most"),
    (CARD, 'mac(key, challenge.ljust(16, b"\\x00"), message)', 'mac(key, encrypt(key, challenge.ljust(16, b"\\x00")), message)',
     "the challenge enciphered first"),
    (CARD, "message)[:CODE_SIZE]\n", "message)[-CODE_SIZE:]\n", "the rightmost four bytes"),
    (CARD, "    for place in range(0, len(blocks), 16):\n        chained", "    for place in range(0, 16, 16):\n        chained",
     "the first block alone"),
    (CARD, "    for place in range(0, len(blocks), 16):\n        chained",
     "    for place in range(len(blocks) - 16, len(blocks), 16):\n        chained", "the last block alone"),
    (CARD, "zip(chained, blocks[place:place + 16])", "zip(chained if place == 0 else bytes(16), blocks[place:place + 16])",
     "blocks that are not chained"),
    (CARD, MESSAGE, "message = frame.header + bytes((len(data),)) + data", "Lc without the code in the message"),
    (CARD, MESSAGE, "message = frame.header + data", "Lc not covered"),
    (CARD, MESSAGE, MESSAGE + ' + (b"" if frame.le is None else bytes((frame.le & 0xFF,)))', "Le covered"),
    (CARD, MESSAGE, "message = frame.header[1:] + bytes((len(frame.data),)) + data", "CLA not covered"),
    (CARD, MESSAGE, 'message = b"\\x00" + frame.header[1:] + bytes((len(frame.data),)) + data', "CLA covered as 00"),
    (CARD, MESSAGE, "message = frame.header[:2] + bytes((len(frame.data),)) + data", "P1 and P2 not covered"),
    (CARD, MESSAGE, "message = frame.header + bytes((len(frame.data),))", "data not covered"),
    (CARD, MESSAGE, "message = data or frame.header", "the header not covered where there are data"),
    (CARD, WRONG_CODE, WRONG_CODE.replace("if code != code_of(card.transport.value, card.challenge, message):",
                                          "if code[:3] != code_of(card.transport.value, card.challenge, message)[:3]:"), "three bytes compared"),
    (CARD, WRONG_CODE, WRONG_CODE.replace("if code != code_of(card.transport.value, card.challenge, message):",
                                          "if code[1:] != code_of(card.transport.value, card.challenge, message)[1:]:"),
     "the last three bytes compared"),
    (CARD, WRONG_CODE, WRONG_CODE.replace("card.transport.value", "card.device.value"), "a code under the device key"),
    # Tries.
    (CARD, ANSWERED, "            before = card.transport.tries\n" + ANSWERED
     + "            if frame.is_coded and answer[1] not in (0x9000, 0x6988):\n                card.transport.tries = before\n",
     "tries restored only at 9000"),
    (CARD, ANSWERED, "            before = card.transport.tries\n" + ANSWERED
     + "            if frame.is_coded and answer[1] in (0x6A82, 0x6981, 0x6982, 0x6A83, 0x6A84):\n                card.transport.tries = before\n",
     "a later refusal undoes the tries"),
    (CARD, ANSWERED, "            before = card.transport.tries\n" + ANSWERED
     + "            if frame.is_coded and answer[1] in (0x6A82, 0x6981, 0x6982):\n                card.transport.tries = max(0, before - 1)\n",
     "a later refusal costs a try"),
    (CARD, ANSWERED, "            before = card.transport.tries\n" + ANSWERED
     + "            if frame.is_coded and answer[1] >> 8 == 0x6C:\n                card.transport.tries = before\n", "6C undoes the tries"),
    (CARD, RIGHT_CODE, "    return 0x9000, data\n", "a right code restores nothing"),
    (CARD, RIGHT_CODE, RIGHT_CODE.replace("= card.transport.limit", "= min(card.transport.limit, card.transport.tries + 1)"),
     "a right code gives one try back"),
    (CARD, RIGHT_CODE, "    for credential in (card.device, card.admin, card.user):\n        credential.tries = credential.limit\n" + RIGHT_CODE,
     "a right code restores all credentials' tries"),
    (CARD, RIGHT_CODE, "    card.device.tries = card.device.limit\n    card.device.held = True\n" + RIGHT_CODE,
     "the transport key opens the device right"),
    (CARD, RIGHT_CODE, "    card.admin.tries = card.admin.limit\n    card.admin.held = True\n" + RIGHT_CODE,
     "the transport key opens the admin right"),
    (CARD, WRONG_CODE, WRONG_CODE.replace("        card.transport.tries -= 1\n", ""), "a wrong code costs nothing"),
    (CARD, WRONG_CODE, WRONG_CODE.replace("card.transport.tries -= 1",
     "card.device.tries = max(0, card.device.tries - 1)\n        card.device.held = False"),
     "a wrong code costs a try of the device key"),
    (CARD, WRONG_CODE, WRONG_CODE.replace("        return", "        card.device.held = card.admin.held = card.user.held = False\n        return"),
     "a wrong code drops the rights"),
    (CARD, WRONG_CODE, WRONG_CODE.replace("        return", "        card.current = None\n        return"), "a wrong code drops the current file"),
    (CARD, WRONG_CODE, WRONG_CODE.replace("return 0x6988", "return 0x6983 if card.transport.tries == 0 else 0x6988"),
     "a wrong code at the last try is 6983"),
    (CARD, WRONG_CODE, WRONG_CODE.replace("return 0x6988", "return 0x63C0 | min(card.transport.tries, 15)"), "63Cx for a wrong code"),
    (CARD, WRONG_CODE, WRONG_CODE.replace("return 0x6988", "return 0x6982"), "6982 for a wrong code"),
    (CARD, "    card.user.tries = card.user.limit\n", "    card.user.tries = card.user.limit\n    card.transport.tries = card.transport.limit\n",
     "a reload restores the transport key"),
    (CARD, "        credential.held = False\n    card.current",
     "        credential.held = False\n    card.transport.tries = card.transport.limit\n    card.current",
     "a reset restores the transport key"),
    (CARD, "    return compare(card.device, frame.data, expected)\n",
     "    if frame.data == expected:\n        card.transport.tries = card.transport.limit\n    return compare(card.device, frame.data, expected)\n",
     "a device login restores the transport key"),
    # The order.
    (CARD, NO_TRIES, "", "no 6983: tries below 0"),
    (CARD, NO_CHALLENGE_YET, "    data, code", "no 6984: a challenge of 00"),
    (CARD, NO_TRIES + NO_CHALLENGE_YET, "    if card.challenge == NO_CHALLENGE:\n        return 0x6984, b\"\"\n" + NO_TRIES + "    data, code",
     "6984 before 6983"),
    (CARD, NO_TRIES, "    if card.transport.tries == 0 and card.challenge != NO_CHALLENGE:\n        return 0x6983, b\"\"\n",
     "6983 only with a challenge"),
    (CARD, NO_CHALLENGE_YET, NO_CHALLENGE_YET.replace("        return 0x6984", "        card.transport.tries -= 1\n        return 0x6984"),
     "6984 costs a try"),
    (CARD, FILES_FIRST, "    file = named_file(card, sfi)\n    if file is None:\n        return 0x6A82, NOWHERE\n"
     "    sw, data = form_and_code(card, frame, what)\n    if sw != 0x9000:\n        return sw, NOWHERE\n", "6A82 before the code in the binary commands"),
    (CARD, FILES_FIRST, FILES_FIRST.replace("    sw, data", "    file = named_file(card, sfi)\n"
                                            "    if file is not None and not is_allowed(card, right_of(file)):\n"
                                            "        return 0x6982, NOWHERE\n    sw, data"), "the right before the code in the binary commands"),
    (CARD, "        return 0x6A86, None, b\"\"\n    sw, data = form_and_code", "        return 0x6A86, None, b\"\"\n"
     "    file = named_file(card, sfi)\n    if file is None and frame.is_coded and frame.case in (3, 4):\n        return 0x6A82, None, b\"\"\n"
     "    sw, data = form_and_code", "6A82 before the code in the record commands"),
    (CARD, "        return refused(0x6A86)\n    sw, data = form_and_code(card, frame, WRITES)\n",
     "        return refused(0x6A86)\n    file = named_file(card, sfi)\n    if file is not None and file.kind not in (VARIABLE, CYCLIC):\n"
     "        return refused(0x6981)\n    sw, data = form_and_code(card, frame, WRITES)\n", "6981 before the code in APPEND"),
    (CARD, "    if frame.p1 & 0x80 == 0:\n",
     "    if frame.is_coded and card.challenge == NO_CHALLENGE:\n        return 0x6984, NOWHERE\n    if frame.p1 & 0x80 == 0:\n",
     "6984 before 6A86"),
    (CARD, "    # A read becomes case 4 with", "    if card.transport.tries == 0:\n        return 0x6983, b\"\"\n    # A read becomes case 4 with",
     "6983 before 6700"),
    # The form.
    (CARD, "len(frame.data) <= CODE_SIZE):", "len(frame.data) < CODE_SIZE):", "a write of Lc 04, without data"),
    (CARD, "len(frame.data) <= CODE_SIZE):", "len(frame.data) <= CODE_SIZE + 1):", "no write of Lc 05"),
    (CARD, "frame.case != 4 or len(frame.data) != CODE_SIZE):", "frame.case != 4 or len(frame.data) < CODE_SIZE):", "a read of Lc 05"),
    (CARD, "if what == READS and (frame.case != 4 or len(frame.data) != CODE_SIZE):",
     "if frame.case == 3 and what == READS:\n        frame.le = 256\n    if what == READS and (frame.case not in (3, 4) or len(frame.data) != CODE_SIZE):",
     "a read of case 3"),
    (CARD, "if what == WRITES and (frame.case != 3 or", "if what == WRITES and (frame.case not in (3, 4) or", "a write of case 4"),
    (CARD, RIGHT_CODE, RIGHT_CODE.replace("0x9000, data", "0x9000, frame.data"), "the code counted and written as data"),
    # Class and list.
    (CARD, "row = ROWS.get((sent[0], sent[1]))", "row = ROWS.get((sent[0], sent[1])) or ROWS.get((sent[0] & 0x80, sent[1]))",
     "every command in class 04"),
    (CARD, "        if row is None:\n            answer = refused(0x6D00)\n",
     "        if row is None:\n            answer = refused(0x6E00 if frame.is_coded else 0x6D00)\n", "6E00 for class 04 with another INS"),
    (CARD, "    if row is get_response:\n        return answer\n",
     "    if row is get_response or sent[:2] == b\"\\x04\\xC0\" and frame is not None and card.mode == FETCHED:\n        return answer\n",
     "04 C0 keeps what waits and the challenge"),
    (CARD, '    (CODED, 0xE2, "APPEND RECORD with a code", append_record),\n', "", "no APPEND with a code"),
    (CARD, '    (CODED, 0xB0, "READ BINARY with a code", read_binary),\n', "", "no READ BINARY with a code"),
    # The challenge.
    (CARD, CHALLENGE_DROPPED, kept_after("== 0x9000"),
     "the challenge kept after a right code"),
    (CARD, CHALLENGE_DROPPED, kept_after("== 0x6988"),
     "the challenge kept after a wrong code"),
    (CARD, CHALLENGE_DROPPED, kept_after("in (0x6A82, 0x6981, 0x6982, 0x6A83)"),
     "the challenge kept after a code that is refused later"),
    (CARD, CHALLENGE_DROPPED, kept_after("in (0x6700, 0x6A86)"),
     "the challenge kept after a coded command of another form"),
    # Rights.
    (CARD, ASKED_CODE, "    return is_allowed(card, byte)\n", "class 00 let through"),
    (CARD, ASKED_CODE, ASKED_CODE.replace("if asks", "if frame.case != 2 and asks"), "class 00 let through to read"),
    (CARD, ASKED_CODE, ASKED_CODE.replace("if asks", "if frame.case != 3 and asks"), "class 00 let through to write"),
    (CARD, ASKED_CODE, ASKED_CODE.replace("not frame.is_coded", "not frame.is_coded and not is_allowed(card, byte & ~CODE_BIT | DEVICE_BIT)"),
     "class 00 let through with the device right"),
    (CARD, ASKED_CODE, "    if asks_code(byte):\n        return frame.is_coded\n    return is_allowed(card, byte)\n",
     "a code in the place of the rights"),
    (CARD, ASKED_CODE, "    if asks_code(byte) and byte & ANY_BIT:\n        return frame.is_coded or is_allowed(card, byte)\n" + ASKED_CODE,
     "codes as an alternative of bit 2"),
    (CARD, ASKED_CODE, ASKED_CODE.replace("if asks_code(byte) and not frame.is_coded:", "if asks_code(byte) != frame.is_coded:"),
     "a code refused where none is asked"),
    (CARD, ASKED_CODE, ASKED_CODE.replace("is_allowed(card, byte)", "is_allowed(card, byte & ~CODE_BIT if frame.is_coded else byte)"),
     "0F opened by a code and the device"),
    (CARD, "if not may_use(card, frame, file.write):", "if not is_allowed(card, file.write):", "class 00 let through by APPEND"),
    (CARD, "    if byte == NEVER:\n        return False\n    return is_bad_creation_right", "    return is_bad_creation_right",
     "0F as a bad right of a file"),
    (CARD, "return is_bad_creation_right(byte & ~CODE_BIT)", "return is_bad_creation_right(byte)", "bit 3 still bad"),
    (CARD, "return is_bad_creation_right(byte & ~CODE_BIT)", "return byte != ANY_BIT | CODE_BIT and is_bad_creation_right(byte & ~CODE_BIT)",
     "06 as a good byte"),
    (CARD, "return is_bad_creation_right(byte & ~CODE_BIT)", "return byte == CODE_BIT or is_bad_creation_right(byte & ~CODE_BIT)",
     "04 as a bad byte"),
    (CARD, "return is_bad_creation_right(byte & ~CODE_BIT)", "return byte & 0x06 == 0x06 or is_bad_creation_right(byte & ~CODE_BIT)",
     "bits 2 and 3 together as bad"),
    (CARD, "return is_bad_creation_right(byte & ~CODE_BIT)", "return is_bad_creation_right(byte & ~0x0C)", "bit 4 as good as bit 3"),
    (CARD, "return is_bad_creation_right(byte & ~CODE_BIT)", "return is_bad_creation_right(byte & ~0x14)", "14 as a good byte"),
    (CARD, "last != 0 or is_bad_creation_right(right):", "last != 0 or is_bad_rights_byte(right):", "a directory's right with bit 3 taken"),
    (CARD, "CODE_BIT = 0x04", "CODE_BIT = 0x08", "bit 4 in bit 3's place"),
    (CARD, "    if byte & DEVICE_BIT:\n", "    if byte & DEVICE_BIT or byte & CODE_BIT:\n", "bit 3 asks the device right"),
    # Mode 1, and where a coded command works.
    (CARD, "    if card.mode == FETCHED and answer[0] != b\"\":", "    if card.mode == FETCHED and answer[0] != b\"\" and not frame.is_coded:",
     "a coded read gives its data at once in mode 1"),
    (CARD, READ_BINARY, READ_BINARY.replace("= file", "= card.current if frame.is_coded else file"),
     "READ BINARY with a code by SFI keeps the current file"),
    (CARD, "    if len(transport_key) != 16 or not is_limit(transport_limit):\n        return 5, Card()\n",
     "    if not is_limit(transport_limit):\n        return 5, Card()\n",
     "a transport key of any length at issue"),
    (CARD, "    if len(transport_key) != 16 or not is_limit(transport_limit):", "    if len(transport_key) != 16:",
     "a transport limit of any size at issue"),
    (CARD, "    card.transport = Credential(transport_key, transport_limit)\n", "    card.transport = Credential(transport_key, key_limit)\n",
     "the device limit for the transport key"),
    (CARD, "    card.transport = Credential(transport_key, transport_limit)\n", "    card.transport = Credential(key, transport_limit)\n",
     "the device key for the transport key"),
)
CODE_SELFTESTS = ("test_codes_refused", "test_codes_order", "test_codes_tries", "test_codes_challenge", "test_codes_rights",
                  "test_codes_fetched", "test_codes_served", "test_code", "test_codes_message", "test_framing", "test_calls", "test_folder_soundness")

# Errors in what no script shows: unsound states, a lent area of another size, free bytes. The self-test must notice them.
UNSHOWN = (
    (CARD, "        if file.kind == VARIABLE and file.variable_records(area) is None:", "        if False:",
     "soundness without the lengths of 2C"),
    (CARD, "            if not 1 <= length <= LONGEST_RECORD:", "            if length > LONGEST_RECORD:", "a sound length of 0"),
    (CARD, "            if not 1 <= length <= LONGEST_RECORD:", "            if not 1 <= length <= LONGEST_RECORD + 1:",
     "a sound length of 179"),
    (CARD, "            if not 1 <= length <= LONGEST_RECORD:", "            if not 1 <= length < LONGEST_RECORD:",
     "a length of 178 that is not sound"),
    (CARD, "return found if place == end else None", "return found", "a last record that ends in the free bytes"),
    (CARD, "return found if place == end else None",
     "return found if place == end and not any(area[end:self.start + self.size]) else None", "free bytes that must be 00"),
    (CARD, "if not 0 <= file.used <= (file.size if file.kind == VARIABLE else 0):", "if not 0 <= file.used <= file.size:",
     "used bytes in a binary file"),
    (CARD, "if not 0 <= file.used <= (file.size if file.kind == VARIABLE else 0):", "if file.kind != VARIABLE and file.used != 0:",
     "more used bytes than the space has"),
    (CARD, "elif file.records != 0 or file.newest != 0:", "elif file.kind != VARIABLE and (file.records != 0 or file.newest != 0):",
     "a 2C file with a number of records held"),
    (CARD, "        return 2\n    if not is_sound(card, area):\n        return 4\n",
     "        return 2\n    if not is_sound(card, bytes(AREA_SIZE)):\n        return 4\n", "a reset that does not look at the area"),
    (CARD, "    if len(area) != AREA_SIZE:\n        return 2\n    if not is_sound", "    if not is_sound",
     "a reset that takes an area of any size"),
    (CARD, "    if len(area) != AREA_SIZE:\n        return 2\n    if not is_sound(card, area):\n        return 4\n",
     "    if not is_sound(card, area.ljust(AREA_SIZE)):\n        return 4\n    if len(area) != AREA_SIZE:\n        return 2\n",
     "a reset that checks 4 before 2"),
    (CARD, "    area[start:start + file.extent] = bytes(file.extent)\n",
     "    if kind != VARIABLE:\n        area[start:start + file.extent] = bytes(file.extent)\n", "a new 2C file that is not cleared"),
    (CARD, "    file.used += 1 + len(data)\n",
     "    file.used += 1 + len(data)\n    area[file.start + file.used:file.start + file.size] = bytes(file.size - file.used)\n",
     "an APPEND that clears what is free"),
    (CARD, "    if card.transport.held:\n        return False\n", "", "a right of the transport key that is held"),
    (CARD, "    if card.mode not in MODES:\n        return False\n", "", "a sound mode 2"),
    (CARD, "    if card.mode not in MODES:\n", "    if card.mode > 2:\n", "a sound mode of 2, and of none higher"),
    (CARD, "MOST_WAITING if card.mode == FETCHED else 0", "MOST_WAITING if card.mode != AT_ONCE else 1", "a byte that waits in mode 0"),
    (CARD, "MOST_WAITING if card.mode == FETCHED else 0", "MOST_WAITING + 1 if card.mode == FETCHED else 0", "257 bytes that wait"),
    (CARD, "MOST_WAITING if card.mode == FETCHED else 0", "MOST_WAITING - 1 if card.mode == FETCHED else 0", "no 256 bytes that wait"),
    (CARD, "    reply[:written] = data + bytes((sw >> 8, sw & 0xFF))\n",
     "    reply[:written] = data + bytes((sw >> 8, sw & 0xFF))\n    reply[written:written + len(card.waiting)] = card.waiting\n",
     "waiting bytes behind the SW in the reply"),
    (CARD, "or card.current.folder is not card.folder):", "):", "a current file that lies elsewhere"),
    (CARD, "or card.current.folder is not card.folder):", "or card.current.folder is not card.folder and card.folder is not ROOT):",
     "a current file inside a directory while the root is current"),
    (CARD, "    if not is_place(card, card.folder):\n        return False\n", "", "a current directory that is not there"),
    (CARD, "not is_good_fid(file.fid) or not is_place(card, file.folder):", "not is_good_fid(file.fid):",
     "a file in a directory that is not there"),
    (CARD, "    if mode not in MODES:\n        return 5, Card()\n",
     "    if mode not in MODES:\n        area[:] = bytes(AREA_SIZE)\n        return 5, Card()\n", "a refused mode clears the area"),
)
SELFTESTS = ("test_calls", "test_variable_soundness", "test_folder_soundness", "test_variable_space")

# Errors in the lines of a card. Changed texts must notice them, and the self-test too.
IN_LINES = (
    # The form.
    (TEXT, 'rb"0|[1-9][0-9]{0,3}"', 'rb"[0-9]{1,4}"', "leading zeros"),
    (TEXT, 'rb"0|[1-9][0-9]{0,3}"', 'rb"[+]?(?:0|[1-9][0-9]{0,3})"', "a plus sign"),
    (TEXT, 'rb"0|[1-9][0-9]{0,3}"', 'rb" ?(?:0|[1-9][0-9]{0,3}) ?"', "blanks around a number"),
    (TEXT, 'rb"0|[1-9][0-9]{0,3}"', 'rb"[1-9][0-9]{0,3}"', "no number 0"),
    (TEXT, 'rb"0|[1-9][0-9]{0,3}"', 'rb"0|[1-9][0-9]{0,1}"', "no numbers over 99"),
    (TEXT, 'rb"0|[1-9][0-9]{0,3}"', 'rb"0|[1-9][0-9]{0,2}"', "no numbers over 999"),
    (TEXT, "read_bytes(value), read_number(limit))", "read_bytes(value), read_number(limit) & 0xFF)", "limits cut to a byte"),
    (TEXT, "    credential.tries = read_number(tries)\n", "    credential.tries = read_number(tries) & 0xFF\n", "tries cut to a byte"),
    (TEXT, "        file.records = read_number(held)\n", "        file.records = read_number(held) & 0xFF\n", "held cut to a byte"),
    (TEXT, "    file.newest = read_number(newest)\n", "    file.newest = read_number(newest) & 0xFF\n", "newest cut to a byte"),
    (TEXT, "    if NUMBER.fullmatch(field) is None:\n        raise NotACard\n    return int(field)\n",
     "    if not field.isdigit() or field[:1] == b'0' and field != b'0':\n        raise NotACard\n    return int(field) & 0xFFFFFFFF\n",
     "numbers cut to four bytes"),
    (TEXT, 'rb"(?:[0-9A-F]{2})+"', 'rb"(?:[0-9A-Fa-f]{2})+"', "lower-case hex"),
    (TEXT, 'rb"(?:[0-9A-F]{2})+"', 'rb"(?:[0-9A-F]{2})*"', "an empty challenge for none"),
    (TEXT, 'rb"(?:[0-9A-F]{2})+"', 'rb"(?:[0-9A-F]{2} ?)+"', "blanks between bytes"),
    (TEXT, 'FLAGS = {b"0": False, b"1": True}', 'FLAGS = {b"0": False, b"1": True, b"00": False, b"01": True}', "rights of two digits"),
    (TEXT, 'FLAGS = {b"0": False, b"1": True}', 'FLAGS = {b"0": False, b"1": True, b"-": False}', "- for a right that is not held"),
    (TEXT, '        if rest != b"":\n            raise NotACard\n', '        if rest != b"":\n            lines.append(rest)\n',
     "a last line without newline"),
    (TEXT, '        if rest != b"":\n            raise NotACard\n', "", "anything behind the last newline"),
    (TEXT, '        if rest != b"":\n            raise NotACard\n', '        if rest.strip() != b"":\n            raise NotACard\n',
     "blanks behind the last newline"),
    (TEXT, 'text.split(b"\\n")', 'text.replace(b"\\r\\n", b"\\n").split(b"\\n")', "CR before a newline"),
    (TEXT, 'text.split(b"\\n")', 'text.partition(b"\\x00")[0].split(b"\\n")', "an end at the first byte 00"),
    (TEXT, "        self.left = lines[::-1]\n", "        self.left = [line for line in lines[::-1] if line]\n", "empty lines"),
    (TEXT, "        self.left = lines[::-1]\n", '        self.left = lines[::-1]\n        while self.left and self.left[0] == b"":\n'
     "            self.left.pop(0)\n", "empty lines at the end"),
    (TEXT, "        if len(fields) != count:\n            raise NotACard\n        return fields\n",
     "        if len(fields) < count:\n            raise NotACard\n        return fields[:count]\n", "more fields than a line has"),
    (TEXT, 'self.left.pop().split(b"\\t")', 'self.left.pop().rstrip(b"\\t").split(b"\\t")', "tabs at the end of a line"),
    (TEXT, 'self.left.pop().split(b"\\t")', 'self.left.pop().strip(b" ").split(b"\\t")', "blanks at the ends of a line"),
    (TEXT, 'self.left.pop().split(b"\\t")', 'self.left.pop().split()', "any blanks between fields"),
    (TEXT, "BYTES_A_LINE = 32", "BYTES_A_LINE = 16", "16 bytes a line"),
    (TEXT, "        contents += read_bytes(field, min(BYTES_A_LINE, size - len(contents)))\n",
     "        contents += read_bytes(field)\n", "contents in lines of any length"),
    (TEXT, "        contents += read_bytes(field, min(BYTES_A_LINE, size - len(contents)))\n",
     "        contents += read_bytes(field)[:size - len(contents)]\n", "more contents than the file has"),
    (TEXT, "min(BYTES_A_LINE, size - len(contents))", "BYTES_A_LINE", "a last line that is filled up"),
    (TEXT, "hex_of(part)) for part in parts", 'hex_of(part.ljust(BYTES_A_LINE, b"\\x00"))) for part in parts', "a last line written full"),
    (TEXT, 'b"\\t".join(fields) + b"\\n"', 'b" ".join(fields) + b"\\n"', "blanks written for tabs"),
    (TEXT, 'b"\\t".join(fields) + b"\\n"', 'b"\\t".join(fields) + b"\\r\\n"', "CR written before newlines"),
    (TEXT, '    return b"".join(text)\n', '    return b"".join(text)[:-1]\n', "no last newline written"),
    (TEXT, "    return data.hex().upper().encode", "    return data.hex().encode", "lower-case hex written"),
    # What stands in the fields.
    (TEXT, "line(hex_of(credential.value), number", "line(credential.value, number", "PINs written as digits"),
    (TEXT, "number(credential.limit), number(credential.tries))", "number(credential.tries), number(credential.limit))",
     "tries written before the limit"),
    (TEXT, "    value, limit, tries = lines.take(3)\n", "    value, tries, limit = lines.take(3)\n", "tries read before the limit"),
    (TEXT, "    credential.tries = read_number(tries)\n", "    read_number(tries)\n", "all tries left"),
    (TEXT, "for credential in (card.device, card.admin, card.user)]\n    current", "for credential in (card.admin, card.user, card.device)]\n"
     "    current", "rights written in another order"),
    (TEXT, "    card.device.held, card.admin.held, card.user.held = [", "    card.admin.held, card.user.held, card.device.held = [",
     "rights read in another order"),
    (TEXT, "    card.device.held, card.admin.held, card.user.held = [read_flag(right) for right in rights]\n",
     "    [read_flag(right) for right in rights]\n", "rights dropped, as by a reset"),
    (TEXT, "    card.device, card.admin, card.user, card.transport = [", "    card.device, card.user, card.admin, card.transport = [",
     "the user PIN read before the admin PIN"),
    (TEXT, "    card.device, card.admin, card.user, card.transport = [", "    card.transport, card.admin, card.user, card.device = [",
     "the transport key read first"),
    (TEXT, "card.user, card.transport = [read_credential(lines) for _ in range(4)]\n",
     "card.user = [read_credential(lines) for _ in range(3)]\n"
     "    card.transport = read_credential(lines) if lines.next_has(3) else cards.Credential(bytes(16), 1)\n", "a text from before R-9"),
    (TEXT, "(card.device, card.admin, card.user, card.transport)]\n", "(card.device, card.admin, card.user)]\n", "no line for the transport key"),
    (TEXT, "(card.device, card.admin, card.user, card.transport)]\n", "(card.transport, card.device, card.admin, card.user)]\n",
     "the transport key written first"),
    (CARD, "    if len(card.transport.value) != 16:\n        return False\n", "", "a sound transport key of any length"),
    (CARD, "    if len(card.transport.value) != 16:\n", "    if not is_pin(card.transport.value):\n", "a transport key of digits"),
    (CARD, "    for credential in (card.device, card.admin, card.user, card.transport):\n", "    for credential in (card.device, card.admin, card.user):\n",
     "a sound transport key with any limit and tries"),
    (CARD, "return is_bad_creation_right(byte & ~CODE_BIT)", "return is_bad_creation_right(byte)", "no sound file that asks for a code"),
    (CARD, "return is_bad_creation_right(byte & ~CODE_BIT)", "return byte != 0x06 and is_bad_creation_right(byte & ~CODE_BIT)",
     "a sound right of 06"),
    (CARD, "        if is_bad_creation_right(folder.right):\n", "        if is_bad_rights_byte(folder.right):\n",
     "a sound creation right with bit 3"),
    (TEXT, "        card.challenge = read_bytes(challenge)\n", "        read_bytes(challenge)\n", "no challenge kept"),
    (TEXT, "        card.waiting = read_bytes(waiting)\n", "        read_bytes(waiting)\n", "no waiting bytes kept"),
    (TEXT, "    if waiting != NONE:\n", '    if waiting not in (NONE, b""):\n', "an empty field for nothing waiting"),
    (TEXT, "    if waiting != NONE:\n", '    if waiting not in (NONE, b"00"):\n', "00 for nothing waiting"),
    (TEXT, "    if waiting != NONE:\n", "    if waiting != NONE and card.mode == cards.FETCHED:\n", "waiting bytes of mode 0 left out"),
    (TEXT, "    card.mode = read_mode(mode)\n", "    card.mode = cards.AT_ONCE if waiting == NONE else read_mode(mode)\n",
     "mode 0 where nothing waits"),
    (TEXT, "    card.mode = read_mode(mode)\n", "    card.mode = cards.AT_ONCE if waiting == NONE else cards.FETCHED\n",
     "the mode by what waits"),
    (TEXT, 'b"1": cards.FETCHED}', 'b"1": cards.FETCHED, b"2": cards.FETCHED}', "2 for mode 1"),
    (TEXT, 'b"1": cards.FETCHED}', 'b"1": cards.FETCHED, b"00": cards.AT_ONCE, b"01": cards.FETCHED}', "a mode of two digits"),
    (TEXT, 'b"1": cards.FETCHED}', 'b"1": cards.FETCHED, b"-": cards.AT_ONCE}', "- for mode 0"),
    (TEXT, 'MODES = {b"0": cards.AT_ONCE, b"1": cards.FETCHED}', 'MODES = {b"1": cards.AT_ONCE, b"0": cards.FETCHED}',
     "modes read the other way round"),
    (TEXT, "number(card.mode), waiting, *homes)", "waiting, number(card.mode), *homes)", "the mode written behind the waiting bytes"),
    (TEXT, "current, challenge, mode, waiting = fields", "current, challenge, waiting, mode = fields",
     "the mode read behind the waiting bytes"),
    (TEXT, "current, challenge, mode, waiting = fields", "current, waiting, mode, challenge = fields", "the challenge read last"),
    (TEXT, "NONE if card.waiting == cards.NOTHING_WAITS else hex_of(card.waiting)", "NONE", "waiting bytes not written"),
    (TEXT, "hex_of(card.waiting)", 'hex_of(card.waiting.ljust(256, b"\\x00"))', "256 bytes written whatever waits"),
    (TEXT, "        card.current = file_with(card, read_fid(current))\n", "        file_with(card, read_fid(current))\n",
     "no current file kept"),
    (TEXT, "        if file.fid == fid and", "        if file.fid & 0x1F == fid & 0x1F and", "a current file by its SFI"),
    (TEXT, "            return file\n    raise NotACard\n", "            return file\n    return None\n",
     "a current file that is not there for none"),
    (TEXT, "    if current != NONE:\n", '    if current not in (NONE, b"3F00"):\n', "3F00 for no current file"),
    (TEXT, "    if current != NONE:\n", '    if current not in (NONE, b"0000"):\n', "0000 for no current file"),
    (TEXT, "fid_of(card.current.fid)", 'b"%02X" % card.current.sfi', "the SFI written for the current file"),
    (TEXT, "        first, second = file.size >> 8, file.size & 0xFF\n", "        second, first = file.size >> 8, file.size & 0xFF\n",
     "a size written with its low byte first"),
    (TEXT, "size, count, length = first << 8 | second, 0, 0", "size, count, length = second << 8 | first, 0, 0",
     "a size read with its low byte first"),
    (TEXT, "    held = file.used if file.kind == cards.VARIABLE else file.records\n",
     "    held = file.used if file.kind == cards.VARIABLE else file.count if file.kind == cards.FIXED else file.records\n",
     "2A written with all its records held"),
    (TEXT, "    held = file.used if file.kind == cards.VARIABLE else file.records\n", "    held = file.records\n",
     "2C written with no used bytes"),
    (TEXT, "    if kind == cards.VARIABLE:\n        file.used = read_number(held)\n    else:\n        file.records = read_number(held)\n",
     "    file.records = read_number(held)\n    file.used = file.records if kind == cards.VARIABLE else 0\n",
     "2C read with its used bytes as records held"),
    (TEXT, "        file.records = read_number(held)\n", "        file.records = read_number(held) if kind == cards.CYCLIC else 0\n",
     "any number held for 28 and 2A"),
    (TEXT, "number(file.newest), *homes)", "number(file.newest + 1), *homes)", "newest written from 1"),
    (TEXT, "    file.newest = read_number(newest)\n", "    file.newest = max(read_number(newest) - 1, 0)\n", "newest read from 1"),
    (TEXT, "    file.newest = read_number(newest)\n", "    file.newest = read_number(newest) if kind == cards.CYCLIC else 0\n",
     "any newest place for 28, 2A and 2C"),
    (TEXT, "    file.newest = read_number(newest)\n", "    file.newest = read_number(newest) if file.records else 0\n",
     "any newest place where none is held"),
    (TEXT, "bytes(area[file.start:file.start + file.extent])", "bytes(area[file.start:file.start + (file.used or file.extent)])",
     "only the used bytes of 2C written"),
    (TEXT, "        file = read_file(lines, len(contents), card, form)\n        contents += read_contents(lines, file.extent)\n"
     "        card.files.append(file)\n",
     "        if len(card.files) == 16:\n            break\n        file = read_file(lines, len(contents), card, form)\n"
     "        contents += read_contents(lines, file.extent)\n        card.files.append(file)\n",
     "what follows the sixteenth file left out"),
    (TEXT, 'contents.ljust(cards.AREA_SIZE, b"\\x00")', 'contents.ljust(cards.AREA_SIZE, b"\\xFF")', "FF past the last file"),
    # Whether it is a sound card.
    (TEXT, "    if not cards.is_sound(card, area):\n        raise NotACard\n", "", "no soundness"),
    (CARD, "        if credential.held and credential.tries != credential.limit:\n            return False\n", "",
     "a right held with tries missing"),
    (CARD, "        if credential.held and credential.tries != credential.limit:\n",
     "        if credential.held and credential.tries == 0:\n", "a right held with some tries left"),
    (CARD, "or not 0 <= credential.tries <= credential.limit:", "or not 0 <= credential.tries <= 128:", "tries over the limit"),
    (CARD, "return 1 <= limit <= 128", "return 1 <= limit <= 129", "limit 129"),
    (CARD, "return 1 <= limit <= 128", "return 0 <= limit <= 128", "limit 0"),
    (CARD, "return 1 <= limit <= 128", "return 1 <= limit < 128", "no limit 128"),
    (CARD, "return 1 <= limit <= 128", "return 2 <= limit <= 128", "no limit 1"),
    (CARD, "    if len(card.device.value) != 16 or not", "    if len(card.device.value) > 16 or not", "a short key"),
    (CARD, "    if len(card.device.value) != 16 or not", "    if len(card.device.value) < 16 or not", "a long key"),
    (CARD, "return 6 <= len(value) <= 16 and", "return 5 <= len(value) <= 16 and", "a PIN of 5"),
    (CARD, "return 6 <= len(value) <= 16 and", "return 6 <= len(value) <= 17 and", "a PIN of 17"),
    (CARD, "0x30 <= byte <= 0x39", "0x30 <= byte <= 0x3A", "3A as a digit"),
    (CARD, "0x30 <= byte <= 0x39", "0x2F <= byte <= 0x39", "2F as a digit"),
    (CARD, "    if len(card.files) > MOST_FILES:\n        return False\n", "", "a seventeenth file"),
    (CARD, "    if len(card.files) > MOST_FILES:\n", "    if len(card.files) >= MOST_FILES:\n", "fifteen files"),
    (CARD, "        if (file.folder, file.sfi) in sfis:\n            return False\n", "", "SFIs twice"),
    (CARD, "0xFFFF and 1 <= fid & 0x1F <= 30", "0xFFFF and 0 <= fid & 0x1F <= 30", "a sound SFI 0"),
    (CARD, "0xFFFF and 1 <= fid & 0x1F <= 30", "0xFFFF and 1 <= fid & 0x1F <= 31", "a sound SFI 31"),
    (CARD, "0xFFFF and 1 <= fid & 0x1F <= 30", "0xFFFF and 1 <= fid & 0x1F <= 29", "an SFI 30 that is not sound"),
    (CARD, "        sfis.add((file.folder, file.sfi))\n", "        sfis.add((file.folder, file.fid))\n",
     "SFIs that may be the same where FIDs differ"),
    # Directories.
    (TEXT, "    *fields, home = lines.take(count + 1)\n",
     "    if lines.next_has(count):\n        return lines.take(count), ROOT_FIELD\n    *fields, home = lines.take(count + 1)\n",
     "a line without a directory for one in the root"),
    (TEXT, "    *fields, home = lines.take(count + 1)\n",
     "    if lines.next_has(count) and count == 7:\n        return lines.take(count), ROOT_FIELD\n"
     "    *fields, home = lines.take(count + 1)\n", "a session without a directory"),
    (TEXT, "    *fields, home = lines.take(count + 1)\n", "    home, *fields = lines.take(count + 1)\n", "the directory read first"),
    (TEXT, "    fid = read_fid(field)\n    if fid == cards.ROOT_FID:\n",
     "    if field == NONE:\n        return cards.ROOT\n    fid = read_fid(field)\n    if fid == cards.ROOT_FID:\n", "- for the root"),
    (TEXT, "    if fid == cards.ROOT_FID:\n", "    if fid in (cards.ROOT_FID, 0):\n", "0000 for the root"),
    (TEXT, "    if fid == cards.ROOT_FID:\n", "    if fid == 0:\n", "0000 for the root, and not 3F00"),
    (TEXT, "    if fid == cards.ROOT_FID:\n", "    if fid >> 8 == 0x3F:\n", "3F and any byte for the root"),
    (TEXT, "            return folder\n    raise NotACard\n", "            return folder\n    return cards.ROOT\n",
     "a directory that is not there for the root"),
    (TEXT, "        if folder.fid == fid:\n", "        if folder.fid & 0x1F == fid & 0x1F:\n", "a directory by its low bits"),
    (TEXT, "    for folder in card.folders:\n        if folder.fid == fid:\n",
     "    for folder in card.folders[1:]:\n        if folder.fid == fid:\n", "the first directory left out"),
    (TEXT, "fid_of(cards.ROOT_FID)", "NONE", "- written for the root"),
    (TEXT, "    card.folder = read_home(card, home)\n", "    read_home(card, home)\n", "the current directory not kept"),
    (TEXT, "    file.folder = read_home(card, home)\n", "    read_home(card, home)\n", "all files in the root"),
    (TEXT, "[home_field(card.folder)] if form == NEW", "[ROOT_FIELD] if form == NEW", "the current directory not written"),
    (TEXT, "[home_field(file.folder)] if form == NEW", "[ROOT_FIELD] if form == NEW", "the root written for all files"),
    (TEXT, "line(fid_of(folder.fid), hex_of(bytes((folder.right,))))", "line(hex_of(bytes((folder.right,))), fid_of(folder.fid))",
     "a directory's right written first"),
    (TEXT, "line(fid_of(folder.fid), hex_of(bytes((folder.right,))))", "line(fid_of(folder.fid), number(folder.right))",
     "a creation right written as a number"),
    (TEXT, "    fid, right = lines.take(2)\n", "    right, fid = lines.take(2)\n", "a directory's right read first"),
    (TEXT, "read_bytes(right, 1)[0]", "int(right, 16) & 0xFF if right.isalnum() else 1 // 0", "a creation right of any digits"),
    (TEXT, "read_bytes(right, 1)[0]", "read_bytes(right)[-1]", "a creation right of more bytes"),
    (TEXT, "read_bytes(right, 1)[0]", "read_bytes(right, 1)[0] & 0xC3", "a creation right cut to its bits"),
    (TEXT, "    text += [folder_line(folder) for folder in card.folders]\n",
     "    text += [folder_line(folder) for folder in card.folders[::-1]]\n", "the last directory written first"),
    (TEXT, "    text += [folder_line(folder) for folder in card.folders]\n", "", "directories not written"),
    (TEXT, "    text += [folder_line(folder) for folder in card.folders]\n",
     "    text += [folder_line(folder) for folder in card.folders if any(file.folder is folder for file in card.files)]\n",
     "empty directories not written"),
    (TEXT, "        file = read_file(lines, len(contents), card, form)\n",
     "        if lines.next_has(2):\n            card.folders.append(read_folder(lines))\n            continue\n"
     "        file = read_file(lines, len(contents), card, form)\n", "directories between the files"),
    (TEXT, "    while form == NEW and lines.next_has(2):\n", "    while form == NEW and lines.next_has(2) and len(card.folders) < 3:\n",
     "three directories read"),
    (TEXT, "        if file.fid == fid and file.folder is card.folder:\n", "        if file.fid == fid:\n",
     "the first file of that FID as the current one"),
    (TEXT, "        if file.fid == fid and file.folder is card.folder:\n            return file\n",
     "        if file.fid == fid:\n            card.folder = file.folder\n            return file\n",
     "the current directory by the current file"),
    (CARD, "    if len(card.folders) > MOST_FOLDERS:\n        return False\n", "", "a fifth directory that is sound"),
    (CARD, "    if len(card.folders) > MOST_FOLDERS:\n", "    if len(card.folders) >= MOST_FOLDERS:\n",
     "four directories that are not sound"),
    (CARD, "        if not is_good_fid(folder.fid) or folder.fid in fids:\n", "        if folder.fid in fids:\n",
     "any low bits of a directory"),
    (CARD, "        if not is_good_fid(folder.fid) or folder.fid in fids:\n", "        if not is_good_fid(folder.fid):\n",
     "a directory twice"),
    (CARD, "        fids.add(folder.fid)\n",
     "        if folder.fid & 0x1F in {fid & 0x1F for fid in fids}:\n            return False\n        fids.add(folder.fid)\n",
     "directories that have to differ in their low bits"),
    (CARD, "        if is_bad_creation_right(folder.right):\n            return False\n", "", "any creation right of a sound card"),
    (CARD, "        if is_bad_creation_right(folder.right):\n", "        if is_bad_creation_right(folder.right) or folder.right == NEVER:\n",
     "no sound creation right of 0F"),
    (CARD, "        if is_bad_creation_right(folder.right):\n",
     "        if is_bad_creation_right(folder.right) or folder.right & ANY_BIT and folder.right != NEVER:\n",
     "no sound creation right with alternatives"),
    (CARD, "        if file.folder is ROOT and file.fid in fids:\n            return False\n", "", "a directory with a root file's FID"),
    (CARD, "        if file.folder is ROOT and file.fid in fids:\n", "        if file.fid in fids:\n",
     "no sound file with a directory's FID inside one"),
    (CARD, "        if file.folder is ROOT and file.fid in fids:\n",
     "        if file.folder is ROOT and file.sfi in {fid & 0x1F for fid in fids}:\n", "a sound directory that uses up an SFI"),
    (CARD, "        if (file.folder, file.sfi) in sfis:\n", "        if file.sfi in {sfi for _, sfi in sfis}:\n",
     "sound SFIs that differ in the whole card"),
    (CARD, "        if (file.folder, file.sfi) in sfis:\n", "        if file.folder is ROOT and (file.folder, file.sfi) in sfis:\n",
     "a sound SFI twice in a directory"),
    (CARD, "        if is_bad_rights_byte(file.read) or is_bad_rights_byte(file.write):", "        if is_bad_rights_byte(file.read):",
     "any write right"),
    (CARD, "        if is_bad_rights_byte(file.read) or is_bad_rights_byte(file.write):", "        if is_bad_rights_byte(file.write):",
     "any read right"),
    (CARD, "    if byte == NEVER:\n        return False\n    return byte &", "    return byte &", "0F as a bad byte"),
    (CARD, "    if byte == NEVER:\n        return False\n    return byte &",
     "    if byte & NEVER == NEVER:\n        return False\n    return byte &", "4F and 8F as good bytes"),
    (CARD, "| DEVICE_BIT | ANY_BIT) != 0", "| DEVICE_BIT) != 0", "bit 2 still bad"),
    (CARD, "!= 0 or byte == ANY_BIT", "!= 0", "bit 2 alone as a good byte"),
    (CARD, "!= 0 or byte == ANY_BIT", "!= 0 or byte in (0x02, 0x03, 0x42, 0x82)", "bit 2 with a single right as a bad byte"),
    (CARD, "| DEVICE_BIT | ANY_BIT) != 0", "| DEVICE_BIT | ANY_BIT | 0x10) != 0", "12 as a good byte"),
    (CARD, "| DEVICE_BIT | ANY_BIT) != 0", "| NEVER) != 0", "0E as a good byte"),
    (CARD, "ANY_BIT = 0x02", "ANY_BIT = 0x04", "bit 3 in bit 2's place"),
    (CARD, "not 0 <= file.records <= file.count or", "not 0 <= file.records <= file.count + 1 or", "one held too many"),
    (CARD, "not 0 <= file.records <= file.count or", "not 0 <= file.records < file.count or", "a file that is not full"),
    (CARD, "not 0 <= file.newest < file.count:", "not 0 <= file.newest <= file.count:", "a newest place past the last"),
    (CARD, "not 0 <= file.newest < file.count:", "not 0 <= file.newest < max(1, file.records):", "a newest place below those held"),
    (CARD, "            if file.records == 0 and file.newest != 0:\n                return False\n", "", "a newest place where none is held"),
    (CARD, "        elif file.records != 0 or file.newest != 0:\n            return False\n", "", "held and newest of 28, 2A and 2C"),
    (CARD, "        elif file.records != 0 or file.newest != 0:\n", "        elif file.records != 0:\n", "a newest place of 28, 2A and 2C"),
    (CARD, "if not 0 <= file.used <= (file.size if file.kind == VARIABLE else 0):", "if file.kind != VARIABLE and file.used != 0:",
     "more used bytes than the space has"),
    (CARD, "        if file.kind == VARIABLE and file.variable_records(area) is None:", "        if False:", "lengths of 2C not looked at"),
    (CARD, "            if not 1 <= length <= LONGEST_RECORD:", "            if length > LONGEST_RECORD:", "a record of no bytes"),
    (CARD, "            if not 1 <= length <= LONGEST_RECORD:", "            if not 1 <= length <= LONGEST_RECORD + 1:",
     "a record of 179 bytes"),
    (CARD, "            if not 1 <= length <= LONGEST_RECORD:", "            if not 1 <= length < LONGEST_RECORD:",
     "no record of 178 bytes"),
    (CARD, "return found if place == end else None", "return found", "a last record that ends in the free bytes"),
    (CARD, "return found if place == end else None",
     "return found if place == end and not any(area[end:self.start + self.size]) else None", "free bytes that must be 00"),
    (CARD, "return 1 <= size <= 4096", "return 0 <= size <= 4096", "a file of no bytes"),
    (CARD, "return 1 <= size <= 4096", "return 1 <= size <= 4095", "no file of 4,096 bytes"),
    (CARD, "return 2 <= size <= 4096", "return 1 <= size <= 4096", "a space of 1"),
    (CARD, "return 2 <= size <= 4096", "return 3 <= size <= 4096", "no space of 2"),
    (CARD, "return 2 <= count <= 254 and", "return 1 <= count <= 254 and", "one record"),
    (CARD, "return 2 <= count <= 254 and", "return 2 <= count <= 255 and", "255 records"),
    (CARD, "254 and 1 <= length <= LONGEST_RECORD", "254 and 0 <= length <= LONGEST_RECORD", "records of no bytes"),
    (CARD, "254 and 1 <= length <= LONGEST_RECORD", "254 and 1 <= length <= 179", "records of 179 bytes"),
    (CARD, "len(card.challenge) not in (0, 4, 8, 16)", "len(card.challenge) > 16", "a challenge of any length up to 16"),
    (CARD, "len(card.challenge) not in (0, 4, 8, 16)", "len(card.challenge) not in (0, 4, 8, 12, 16)", "a challenge of 12"),
    (CARD, "len(card.challenge) not in (0, 4, 8, 16)", "len(card.challenge) not in (0, 4, 8)", "no challenge of 16"),
    (CARD, "MOST_WAITING if card.mode == FETCHED else 0", "MOST_WAITING", "bytes that wait in mode 0"),
    (CARD, "MOST_WAITING if card.mode == FETCHED else 0", "MOST_WAITING - 1 if card.mode == FETCHED else 0", "no 256 bytes that wait"),
    (CARD, "MOST_WAITING if card.mode == FETCHED else 0", "MOST_WAITING + 1 if card.mode == FETCHED else 0", "257 bytes that wait"),
    (CARD, "MOST_WAITING if card.mode == FETCHED else 0", "1 << 16 if card.mode == FETCHED else 0", "any number of bytes that wait"),
)
# Errors in the two calls, of which a text by itself says nothing. The self-test must notice them.
IN_CALLS = (
    (TEXT, "    if len(buffer) < len(text):\n", "    if len(buffer) <= len(text):\n", "a text that just fits refused"),
    (TEXT, "    if len(buffer) < len(text):\n        return SHORT_TEXT, 0\n",
     "    if len(buffer) < len(text):\n        buffer[:] = text[:len(buffer)]\n        return SHORT_TEXT, 0\n", "a part of the text written"),
    (TEXT, "        return SHORT_TEXT, 0\n", "        return SHORT_TEXT, len(text)\n", "a count on a refusal"),
    (TEXT, "    if not cards.is_sound(card, area):\n        return 4, 0\n", "", "the text of an unsound card"),
    (TEXT, "    if len(area) != cards.AREA_SIZE:\n        return 2, 0\n    if not cards.is_sound(card, area):\n        return 4, 0\n",
     "    if card.device.limit == 0:\n        return 4, 0\n    if len(area) != cards.AREA_SIZE:\n        return 2, 0\n"
     "    if not cards.is_sound(card, area):\n        return 4, 0\n", "4 before 2"),
    (TEXT, "    if len(area) != cards.AREA_SIZE:\n        return 2, 0\n",
     "    if len(buffer) == 0:\n        return SHORT_TEXT, 0\n    if len(area) != cards.AREA_SIZE:\n        return 2, 0\n", "10 before all"),
    (TEXT, "    buffer[:len(text)] = text\n", "    buffer[:] = text.ljust(len(buffer), b'\\x00')\n", "the rest of the buffer cleared"),
    (TEXT, "    if len(area) != cards.AREA_SIZE:\n        return 2, cards.Card()\n    found = from_text(text)\n",
     "    found = from_text(text)\n    if found is not None and len(area) != cards.AREA_SIZE:\n        return 2, cards.Card()\n",
     "11 before 2"),
    (TEXT, "        return BAD_TEXT, cards.Card()\n", "        area[:] = bytes(cards.AREA_SIZE)\n        return BAD_TEXT, cards.Card()\n",
     "an area cleared on a refusal"),
    (TEXT, "    card, area[:] = found\n",
     "    card, contents = found\n    area[:sum(file.extent for file in card.files)] = contents.rstrip(b'\\x00')\n",
     "bytes past the last file left as they were"),
)
TO_OLD_REFUSAL = "    if card.folders:\n        return FOLDER_PRESENT, 0\n"
TO_NEW_WRITTEN = "    return put(to_text(*found, NEW), buffer)\n"
TO_OLD_WRITTEN = "    return put(to_text(card, area, OLD), buffer)\n"
OLD_FIELDS = "        return lines.take(count), ROOT_FIELD\n"
NO_FOLDERS = "    for file in card.files:\n        file.folder = cards.ROOT\n    card.folder, card.folders = cards.ROOT, []\n"
# Errors in texts that are converted. Changed texts and the self-test must notice them.
IN_CONVERSIONS = (
    (TEXT, TO_OLD_REFUSAL, "    if len(buffer) < len(text) - 5 * (1 + len(card.files)):\n        return SHORT_TEXT, 0\n" + TO_OLD_REFUSAL,
     "10 before 13"),
    (TEXT, TO_OLD_REFUSAL, "    if not buffer:\n        return SHORT_TEXT, 0\n" + TO_OLD_REFUSAL, "10 before 13 where there is no room at all"),
    (TEXT, TO_OLD_REFUSAL, NO_FOLDERS, "a directory lost silently"),
    (TEXT, TO_OLD_REFUSAL, "    if any(file.folder is not cards.ROOT for file in card.files):\n        return FOLDER_PRESENT, 0\n" + NO_FOLDERS,
     "a directory without files lost silently"),
    (TEXT, TO_OLD_REFUSAL, "    if card.folder is not cards.ROOT:\n        return FOLDER_PRESENT, 0\n" + NO_FOLDERS,
     "a directory that is not current lost silently"),
    (TEXT, TO_OLD_REFUSAL, "    if len(card.folders) > 1:\n        return FOLDER_PRESENT, 0\n" + NO_FOLDERS, "one directory lost silently"),
    (TEXT, TO_OLD_REFUSAL, "    if card.folders:\n        return BAD_TEXT, 0\n", "11 for a directory"),
    (TEXT, TO_OLD_REFUSAL, "    if card.folders:\n        return FOLDER_PRESENT, len(text)\n", "a count with 13"),
    (TEXT, TO_OLD_REFUSAL, "    if card.folders:\n        buffer[:1] = text[:len(buffer[:1])]\n        return FOLDER_PRESENT, 0\n",
     "a byte written with 13"),
    (TEXT, "    found = from_text(text, NEW)\n",
     '    if any(line.count(b"\\t") == 1 for line in text.split(b"\\n")):\n        return FOLDER_PRESENT, 0\n    found = from_text(text, NEW)\n',
     "13 before 11"),
    (TEXT, "    found = from_text(text, NEW)\n", "    if not buffer:\n        return SHORT_TEXT, 0\n    found = from_text(text, NEW)\n",
     "10 before 11, to old"),
    (TEXT, "    found = from_text(text, OLD)\n", "    if not buffer:\n        return SHORT_TEXT, 0\n    found = from_text(text, OLD)\n",
     "10 before 11, to new"),
    (TEXT, "    found = from_text(text, OLD)\n", "    if from_text(text) is not None:\n        return put(text, buffer)\n    found = from_text(text, OLD)\n",
     "a new text taken as it is"),
    (TEXT, "    found = from_text(text, NEW)\n",
     "    if from_text(text, OLD) is not None:\n        return put(text, buffer)\n    found = from_text(text, NEW)\n", "an old text taken as it is"),
    (TEXT, TO_NEW_WRITTEN, "    for file in found[0].files:\n        file.folder = found[0].current\n" + TO_NEW_WRITTEN,
     "files put into the current file in the place of the root"),
    (TEXT, TO_NEW_WRITTEN, "    found[0].folder = found[0].current or cards.ROOT\n" + TO_NEW_WRITTEN, "the current file as the current directory"),
    (TEXT, TO_NEW_WRITTEN, "    found[0].current = None\n" + TO_NEW_WRITTEN, "no current file kept, to new"),
    (TEXT, TO_NEW_WRITTEN, "    cards.reset(*found)\n" + TO_NEW_WRITTEN, "a session that ends, to new"),
    (TEXT, TO_OLD_WRITTEN, "    cards.reset(card, area)\n" + TO_OLD_WRITTEN, "a session that ends, to old"),
    (TEXT, TO_NEW_WRITTEN, "    return put(to_text(*found, OLD), buffer)\n", "an old text of an old one"),
    (TEXT, TO_OLD_WRITTEN, "    return put(to_text(card, area), buffer)\n", "a new text of a new one"),
    (TEXT, OLD_FIELDS, "        return lines.take(count + (count == 7 and lines.next_has(8)))[:count], ROOT_FIELD\n",
     "the directory of the session's line not looked at in an old text"),
    (TEXT, OLD_FIELDS, "        return lines.take(count + (count == 4 and lines.next_has(5)))[:count], ROOT_FIELD\n",
     "the directory of a file's line not looked at in an old text"),
    (TEXT, "    while form == NEW and lines.next_has(2):\n", "    while lines.next_has(2):\n", "directories in an old text"),
)
TEXT_SELFTESTS = ("test_text_example", "test_text_fields", "test_text_folders", "test_text_lines", "test_text_sizes", "test_text_calls")
CONVERSION_SELFTESTS = ("test_text_conversions",)

# Errors in what a loss of power may leave, of which the first part asks for something else and the second lets something pass.
IN_CUTS = (
    (CUTS, "        self.first.append((tries_at(number), before.tries - 1))\n", "        self.first.append((tries_at(number), before.tries))\n",
     "tries not lowered"),
    (CUTS, "        if agrees:\n            self.first", "        if True:\n            self.first", "tries restored where the comparison does not agree"),
    (CUTS, "        if name == \"VERIFY\" and frame.case == 3 and compared:\n", "        if name == \"VERIFY\" and compared:\n", "a query that presents"),
    (CUTS, "                return TRANSPORT, self.sw != 0x6988\n", "                return TRANSPORT, self.sw == 0x9000\n",
     "a right code that is refused later, taken for a wrong one"),
    (CUTS, "            if card.transport.tries > 0 and card.challenge != cards.NO_CHALLENGE:\n", "            if card.transport.tries > 0:\n",
     "a code presented without a challenge"),
    (CUTS, "        if name.endswith(WITH_A_CODE) and has_good_p(name, frame) and", "        if name.endswith(WITH_A_CODE) and",
     "a code presented with a bad P"),
    (CUTS, "    return frame.case == 3 and len(frame.data) > cards.CODE_SIZE\n", "    return frame.case == 3\n", "a code presented with Lc 04"),
    (CUTS, "            if file.records == file.count:\n                kept", "            if False:\n                kept", "an oldest that stays"),
    (CUTS, "            self.last_store = (tries_at(USER), limit)\n", "", "tries of a reload anywhere among its stores"),
    (CUTS, "            self.last_store = (NUMBER_AT, len(after.folders))\n", "", "a directory that is counted before it is there"),
    (CUTS, "        self.last_store = (COUNT_AT, len(after.files))\n", "", "a file that is counted before it is there"),
    (CUTS, "            if counts[address] > self.places.get(address, 0):\n", "            if address not in self.places:\n", "stores made twice"),
    (CUTS, "            if counts[address] > self.places.get(address, 0):\n", "            if False:\n", "stores made anywhere"),
    (CUTS, "            if rest != self.deed_stores:\n", "            if sorted(rest) != sorted(self.deed_stores):\n", "an update in any order"),
    (CUTS, "                if view != self.fixed[done]:\n", "                if view not in self.fixed:\n", "a presentation's stores in any order"),
    (CUTS, "            at = next((at for at in range(stage, len", "            at = next((at for at in range(len", "back from the new to the old"),
    (CUTS, "            if at > stage + 1 and not self.may_skip:\n", "            if False:\n", "tries of a reload with its value"),
    (CUTS, "            if done == len(self.first) and at != 0 and len(self.stages) > 1:\n", "            if False:\n", "done before the first store"),
    (CUTS, "                if not new <= found:\n", "                if False:\n", "a byte of an update that is old again"),
    (CUTS, "                if done == len(self.first) and found:\n", "                if False:\n", "a byte of an update that is new before the first store"),
    (CUTS, "        if any(byte not in (old, new) for", "        if any(False for", "a byte of an update that is neither old nor new"),
    (CUTS, "        if due != total + 1:\n", "        if False:\n", "a last run that is missing"),
    (CUTS, "        if runs[-1][2] != self.final:\n", "        if False:\n", "a command that ends before it is done"),
)
CUT_SELFTESTS = ("test_cut_presentations", "test_cut_pins", "test_cut_files", "test_cut_judged")

# Errors with these words change nothing that a script can show, and must not be noticed. They stand in the list because
# they name what only proofs, and not scripts, can hold the program to.
CANNOT_SHOW = "no script can tell"


@lru_cache(maxsize=None)
def source_of(name):
    with open(os.path.join(os.path.dirname(os.path.abspath(__file__)), name), encoding="utf-8") as source:
        return source.read()


@lru_cache(maxsize=None)
def unchanged(name):
    return compile(source_of(name), name, "exec")


def changed(name, old, new):
    source = source_of(name)
    if source.count(old) != 1:
        raise ValueError("%d places with %r" % (source.count(old), old))
    return compile(source.replace(old, new), name, "exec")


def mutated(file, old, new):
    """Card, its lines, script program, cuts and self-test with one place of one source changed, by the names of their sources."""
    modules = {}
    true_modules = {name: sys.modules[name] for name in ("card", "script", "text", "cuts")}
    for name in (CARD, TEXT, SCRIPT, CUTS, SELFTEST):
        code = changed(name, old, new) if name == file else unchanged(name)
        modules[name] = types.ModuleType(name[:-3])
        try:
            sys.modules.update({known[:-3]: modules[known] for known in (CARD, TEXT, SCRIPT, CUTS) if known in modules and known != name})
            exec(code, modules[name].__dict__)
        finally:
            sys.modules.update(true_modules)
    return modules


def lines_until_noticed(output_of, tests):
    """How many lines it takes to see a difference, or None. What comes behind the first is not run."""
    before = 0
    for lines, expected in tests:
        try:
            for number, (here, there) in enumerate(itertools.zip_longest(output_of(lines), expected)):
                if here != there:
                    return before + number
        except Exception:  # A broken mutant is a noticed one.
            return before + len(lines)
        before += len(lines)
    return None


def reading(texts, snapshot, text):
    """What a text says: nothing where it is refused; else its card and area, and the text that they give again."""
    found = texts.from_text(text)
    return found and (snapshot(found[0]), bytes(found[1]), texts.to_text(*found))


def texts_until_noticed(modules, tests):
    """How many texts it takes to see a difference, or None."""
    for number, (tried, expected) in enumerate(tests, 1):
        try:
            given = reading(modules[TEXT], modules[SELFTEST].snapshot, tried)
        except Exception:  # As above.
            return number
        if given != expected:
            return number
    return None


class Noticed(BaseException):  # which no test takes for what it expects of the model
    pass


def fails_selftest(tested, names):
    """Whether one of these tests fails. What comes behind the first check that does is not run."""
    def check(name, actual, expected):
        if not actual == expected:
            raise Noticed

    tested.check = check
    for name in names:
        try:
            getattr(tested, name)()
        except (Exception, Noticed):  # As above.
            return True
    return False


def changed_texts():
    """Changed texts, each with what it says by the true model."""
    made = text_cases.changed_texts(generate.Dice(1), TEXTS, [])
    return [(tried, reading(text, selftest.snapshot, tried)) for _, tried in made]


def conversion(texts, form, tried):
    """What becomes of a text that is given in that form, with room for every text, with none, and with a byte less than the last."""
    convert = texts.to_new if form == text.OLD else texts.to_old
    made = []
    for room in (9559, 0, None):
        buffer = bytearray(b"\xEE" * (max(made[0][1] - 1, 0) if room is None else room))
        made.append((*convert(tried, buffer), bytes(buffer)))
    return made


def texts_to_convert():
    """Changed texts to convert, by turns of each form, each with what becomes of it by the true model."""
    made = [[(form, tried) for _, tried in text_cases.texts_to_convert(generate.Dice(1), CONVERTED, form, [])] for form in (text.OLD, text.NEW)]
    return [(form, tried, conversion(text, form, tried)) for both in zip(*made) for form, tried in both]


def conversions_until_noticed(modules, tests):
    """How many texts it takes to see a difference, or None."""
    for number, (form, tried, expected) in enumerate(tests, 1):
        try:
            given = conversion(modules[TEXT], form, tried)
        except Exception:  # As above.
            return number
        if given != expected:
            return number
    return None


def told(name, needed):
    needed.sort()
    return "noticed after %d %s in the middle, the slowest after %d: %s" % (needed[len(needed) // 2][0], name, *needed[-1])


def main():
    argparse.ArgumentParser(
        prog="python3 tests/model/mutants.py", description=__doc__, formatter_class=argparse.RawDescriptionHelpFormatter).parse_args()
    tests = []
    for seed in range(1, SCRIPTS + 1):
        lines = script.lines_of(generate.script_of(seed, LINES))
        tests.append((lines, list(script.output_of(lines))))
    passed, failed, needed = 0, 0, []
    for file, old, new, error in MUTANTS + IN_CODES:
        noticed = lines_until_noticed(mutated(file, old, new)[SCRIPT].output_of, tests)
        if CANNOT_SHOW in error:
            as_expected = noticed is None
        else:
            as_expected = noticed is not None
            needed.append((noticed or 0, error))
        if as_expected:
            passed += 1
        else:
            failed += 1
            print("FAILED: %s: noticed after %s lines" % (error, noticed))
    texts, texts_needed = changed_texts(), []
    for file, old, new, error in IN_LINES:
        noticed = texts_until_noticed(mutated(file, old, new), texts)
        texts_needed.append((noticed or 0, error))
        if noticed is not None:
            passed += 1
        else:
            failed += 1
            print("FAILED: %s: not noticed by %d texts" % (error, len(texts)))
    converted, conversions_needed = texts_to_convert(), []
    for file, old, new, error in IN_CONVERSIONS:
        noticed = conversions_until_noticed(mutated(file, old, new), converted)
        conversions_needed.append((noticed or 0, error))
        if noticed is not None:
            passed += 1
        else:
            failed += 1
            print("FAILED: %s: not noticed by %d texts to convert" % (error, len(converted)))
    for mutants, names in ((IN_CODES, CODE_SELFTESTS), (UNSHOWN, SELFTESTS), (IN_LINES + IN_CALLS, TEXT_SELFTESTS), (IN_CONVERSIONS, CONVERSION_SELFTESTS),
                           (IN_CUTS, CUT_SELFTESTS)):
        for file, old, new, error in mutants:
            if fails_selftest(mutated(file, old, new)[SELFTEST], names):
                passed += 1
            else:
                failed += 1
                print("FAILED: %s: not noticed by the self-test" % error)
    print(told("lines", needed))
    print(told("texts", texts_needed))
    print(told("texts to convert", conversions_needed))
    print("%d passed, %d failed" % (passed, failed))
    return 1 if failed else 0


if __name__ == "__main__":
    sys.exit(main())
