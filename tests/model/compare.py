"""Compares a script program with the model, byte for byte, on generated scripts.

SEED is a number, or FIRST-LAST for all seeds from one to the other. PROGRAM is the path of the program, for x86-64; one that
ends in .py is run by this Python. A seed is one test. For a difference the shortest script found that still shows one is
printed, and with --save written to FILE as it is. The exit status is 0 only when all agree.
"""

import argparse
import os
import subprocess
import sys
import time

import generate
import script

X86 = os.path.join(os.path.dirname(os.path.abspath(__file__)), "..", "..", "tools", "x86", "run")
SECONDS_TO_RUN = 120
SECONDS_TO_SHRINK = 90
# Differences mostly have one cause, so the first few are shrunk and the rest only named.
MOST_SHRUNK = 3
MOST_LINES_SHOWN = 300


def run_program(program, text):
    """What the program writes, and what is wrong with how it ended (None when nothing is)."""
    call = [sys.executable, program] if program.endswith(".py") else [X86, program]
    try:
        done = subprocess.run(call, input=text, stdout=subprocess.PIPE, timeout=SECONDS_TO_RUN)
    except subprocess.TimeoutExpired as late:
        return late.stdout or b"", "no end after %d seconds" % SECONDS_TO_RUN
    if done.returncode != 0:
        return done.stdout, "exit status %d" % done.returncode
    return done.stdout, None


def text_of(lines, last_newline):
    """The script. An empty last line needs its newline, or it would be no line."""
    text = b"\n".join(lines)
    return text + b"\n" if lines and (last_newline or lines[-1] == b"") else text


class Difference:
    """Where the two outputs part: `number` is the line of the script, 0 for the header."""

    def __init__(self, number, expected, given, ending):
        self.number = number
        self.expected = expected
        self.given = given
        self.ending = ending


def output_lines(output):
    """The lines with their newlines, so that a missing last newline is a difference of the last line."""
    *whole, rest = output.split(b"\n")
    return [line + b"\n" for line in whole] + ([rest] if rest else [])


def difference(program, lines, last_newline):
    """The first difference between model and program on a script, or None."""
    given, ending = run_program(program, text_of(lines, last_newline))
    expected = script.run(lines)
    if given == expected and ending is None:
        return None
    expected_lines, given_lines = output_lines(expected), output_lines(given)
    for number in range(max(len(expected_lines), len(given_lines))):
        here = expected_lines[number] if number < len(expected_lines) else b""
        there = given_lines[number] if number < len(given_lines) else b""
        if here != there:
            return Difference(number, here, there, ending)
    return Difference(len(lines), b"", b"", ending)


def shrink(program, lines, last_newline, found):
    """The shortest script found with a difference, by leaving out parts: halves first, single lines last."""
    deadline = time.monotonic() + SECONDS_TO_SHRINK

    def attempt(fewer):
        again = difference(program, fewer, last_newline)
        if again is None:
            return None
        # What comes after the first difference is not needed, unless it is the end itself that differs.
        shorter = fewer[:max(again.number, 1)]
        if len(shorter) < len(fewer):
            final = difference(program, shorter, last_newline)
            if final is not None:
                return shorter, final
        return fewer, again

    lines, found = attempt(lines) or (lines, found)
    part = max(1, len(lines) // 2)
    while True:
        place, removed = 0, False
        while place < len(lines):
            if time.monotonic() > deadline:
                return lines, found
            fewer = lines[:place] + lines[place + part:]
            smaller = attempt(fewer) if fewer else None
            if smaller is None:
                place += part
            else:
                lines, found = smaller
                removed = True
        if part > 1:
            part = max(1, part // 2)
        elif not removed:
            return lines, found


def readable(line):
    """A line for the eye: tabs and printable ASCII as they are, other bytes as \\xNN."""
    return "".join(chr(byte) if byte == 9 or 0x20 <= byte < 0x7F else "\\x%02x" % byte for byte in line)


def show(seed, lines, last_newline, found):
    print("shortest script found: %d lines, last newline %s" % (
        len(lines), "there" if last_newline or lines[-1:] == [b""] else "missing"))
    if len(lines) > MOST_LINES_SHOWN:
        print("  (the last %d lines)" % MOST_LINES_SHOWN)
    for line in lines[-MOST_LINES_SHOWN:]:
        print("  " + readable(line))
    print("seed %d, line %d of that script" % (seed, found.number))
    print("  model:   " + readable(found.expected))
    print("  program: " + readable(found.given))
    if found.ending is not None:
        print("  program: " + found.ending)


def seeds_of(word):
    first, _, last = word.partition("-")
    return range(int(first), int(last or first) + 1)


def tests_of(words):
    """Pairs of seed and lines; a ValueError where the words are no such pairs."""
    if not words or len(words) % 2 != 0:
        raise ValueError
    return [(seed, int(lines)) for word, lines in zip(words[::2], words[1::2]) for seed in seeds_of(word)]


def main():
    parser = argparse.ArgumentParser(
        prog="python3 tests/model/compare.py", description=__doc__, formatter_class=argparse.RawDescriptionHelpFormatter)
    parser.add_argument("--save", metavar="FILE", help="where the shortest script goes that shows a difference")
    parser.add_argument("program", metavar="PROGRAM")
    parser.add_argument("words", metavar="SEED LINES", nargs="+")
    asked = parser.parse_args()
    save = asked.save
    try:
        tests = tests_of(asked.words)
    except ValueError:
        parser.error("SEED and LINES are numbers, two and two")
    if not os.path.isfile(asked.program):
        parser.error("there is no program %s" % asked.program)
    program = os.path.abspath(asked.program)

    failed, compared = 0, 0
    for seed, most_lines in tests:
        text = generate.script_of(seed, most_lines)
        lines, last_newline = script.lines_of(text), text.endswith(b"\n")
        compared += len(lines)
        found = difference(program, lines, last_newline)
        if found is None:
            continue
        failed += 1
        print("seed %d, %d lines: a difference at line %d" % (seed, most_lines, found.number))
        if failed <= MOST_SHRUNK:
            lines, found = shrink(program, lines, last_newline, found)
            show(seed, lines, last_newline, found)
            if save is not None:
                with open(save, "wb") as file:
                    file.write(text_of(lines, last_newline))
        sys.stdout.flush()
    print("%d scripts, %d lines compared" % (len(tests), compared))
    print("%d passed, %d failed" % (len(tests) - failed, failed))
    return 1 if failed else 0


if __name__ == "__main__":
    sys.exit(main())
