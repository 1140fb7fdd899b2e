"""What a line of a script is, as document 01 has it. tools/script-warnings and tools/pcsc go by it."""
import re

LAST_LINE = 65535  # the program reads no further
LONGEST = 1024
HEX = rb"([0-9A-F]{2}){0,300}"
LIMIT = rb"(0|[1-9][0-9]{0,3}|[1-5][0-9]{4}|6[0-4][0-9]{3}|65[0-4][0-9]{2}|655[0-2][0-9]|6553[0-5])"
PIN = rb"[^\t]*"
MODE = LIMIT  # a number like a limit
ISSUE, CMD, RESET = b"ISSUE", b"CMD", b"RESET"
RECORDS = ((ISSUE, HEX, LIMIT, PIN, LIMIT, PIN, LIMIT, MODE, HEX, LIMIT), (CMD, HEX, HEX), (RESET,))
SCRIPT_LINE = re.compile(b"|".join(b"\t".join(record) for record in RECORDS))


def is_script_line(line):
    """Whether it is one. All others have outcome 9."""
    return len(line) <= LONGEST and SCRIPT_LINE.fullmatch(line) is not None


def word_of(line):
    """The word that a script line begins with, None of any other line."""
    return line.split(b"\t")[0] if is_script_line(line) else None
