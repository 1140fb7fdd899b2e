"""The card's commands, by their first two bytes, and what else of the card has a number."""

SELECT, READ_BINARY, UPDATE_BINARY = b"\x00\xa4", b"\x00\xb0", b"\x00\xd6"
READ_RECORD, UPDATE_RECORD, APPEND_RECORD = b"\x00\xb2", b"\x00\xdc", b"\x00\xe2"
VERIFY, CHANGE_PIN, RELOAD_PIN = b"\x00\x20", b"\x00\x24", b"\x00\x2c"
CREATE_FILE, GET_RESPONSE, GET_CHALLENGE = b"\x80\xe0", b"\x00\xc0", b"\x00\x84"
CODED, WITH_CODES = 0x04, (0xB0, 0xB2, 0xD6, 0xDC, 0xE2)  # the class of a command with a code, and the instructions that it is for
ROOT = b"\x3f\x00"  # the FID by which the root is selected
USER, ADMIN = 1, 0  # P2 of VERIFY
CURRENT = 0b100  # P2 of READ and UPDATE RECORD, for the current file; of APPEND RECORD it is 0
NO_FILE = "6A82"
KEY_SIZE = CHALLENGE_SIZE = 16
LONGEST_RECORD = 178
LARGEST_FILE = 4096
MASK = "**"  # in the place of a secret


def short_number(fid):
    return fid[1] & 0b11111


def masked(command, p1, p2):
    """A command with a PIN as a person may see it, who is not even told how long that is."""
    return bytes([*command, p1, p2]).hex().upper() + MASK
