"""The script program of document 01, with the mode of R-6 and the transport key of R-9, over the model of the card.

It goes from standard input to standard output.
"""

import argparse
import re
import sys

import card as cards

HEADER = b"line\toutcome\tdata\tsw\n"
MOST_LINES = 65535
LONGEST_LINE = 1024
MOST_BYTES = 300
HIGHEST_NUMBER = 65535

HEX = re.compile(rb"(?:[0-9A-F]{2})*")
NUMBER = re.compile(rb"0|[1-9][0-9]{0,4}")

# Outcome, data and SW of a line that answers with an outcome alone.
NOT_A_RECORD = (9, b"", None)


def bytes_of(field):
    """The bytes that a hex field stands for, or None where it is not one."""
    if len(field) > 2 * MOST_BYTES or HEX.fullmatch(field) is None:
        return None
    return bytes.fromhex(field.decode("ascii"))


def number_of(field):
    """The number that a limit or mode field stands for, or None where it is not one."""
    if NUMBER.fullmatch(field) is None:
        return None
    number = int(field)
    return number if number <= HIGHEST_NUMBER else None


class Program:
    """One run of the program: the card of the last good ISSUE, if any, and the buffers that it is lent."""

    def __init__(self):
        self.card = None
        self.area = bytearray(cards.AREA_SIZE)
        self.reply = bytearray(cards.SMALLEST_REPLY)

    def answer(self, line):
        """Outcome, data and SW (None where there is none) of one line, given without its newline."""
        if len(line) > LONGEST_LINE:
            return NOT_A_RECORD
        fields = line.split(b"\t")
        if fields[0] == b"CMD" and len(fields) == 3:
            return self.command(fields)
        if fields[0] == b"ISSUE" and len(fields) == 10:
            return self.issue(fields)
        if fields[0] == b"RESET" and len(fields) == 1:
            return self.reset()
        return NOT_A_RECORD

    def command(self, fields):
        sent, random = bytes_of(fields[1]), bytes_of(fields[2])
        if sent is None or random is None or self.card is None:
            return NOT_A_RECORD
        outcome, written = cards.command(self.card, self.area, sent, random, self.reply)
        if outcome != 0:
            return outcome, b"", None
        return 0, bytes(self.reply[:written - 2]), self.reply[written - 2] << 8 | self.reply[written - 1]

    def issue(self, fields):
        key, transport_key = bytes_of(fields[1]), bytes_of(fields[8])
        numbers = [number_of(fields[place]) for place in (2, 4, 6, 7, 9)]
        if key is None or transport_key is None or None in numbers:
            return NOT_A_RECORD
        key_limit, admin_limit, user_limit, mode, transport_limit = numbers
        outcome, issued = cards.issue(
            self.area, key, key_limit, fields[3], admin_limit, fields[5], user_limit, mode, transport_key, transport_limit)
        # A refused ISSUE keeps the earlier card.
        if outcome == 0:
            self.card = issued
        return outcome, b"", None

    def reset(self):
        if self.card is None:
            return NOT_A_RECORD
        return cards.reset(self.card, self.area), b"", None


def output_line(number, answer):
    outcome, data, sw = answer
    shown_data = data.hex().upper() if data else "-"
    shown_sw = "-" if sw is None else "%04X" % sw
    return ("%d\t%d\t%s\t%s\n" % (number, outcome, shown_data, shown_sw)).encode("ascii")


def lines_of(script):
    """The lines of a script given as bytes, without their newlines. A last line needs no newline."""
    lines = script.split(b"\n")
    if lines[-1] == b"":
        lines.pop()
    return lines


def output_of(lines):
    """The output for lines given without their newlines, line by line."""
    program = Program()
    yield HEADER
    for number, line in enumerate(lines, 1):
        if number > MOST_LINES:
            break
        yield output_line(number, program.answer(line))


def run(lines):
    """The whole of it."""
    return b"".join(output_of(lines))


def main():
    argparse.ArgumentParser(prog="python3 tests/model/script.py", description=__doc__).parse_args()
    sys.stdout.buffer.write(run(lines_of(sys.stdin.buffer.read())))


if __name__ == "__main__":
    main()
