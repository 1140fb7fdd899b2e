"""A script for cards of mode 0 made into one for cards of mode 1: every card is issued in mode 1, and behind each command that has
data in mode 0 there is a GET RESPONSE for all of them. It ends where a script ends, after 65,535 lines.

ANSWERS is what the script program prints for SCRIPT.
"""

import argparse
import itertools
import sys

MOST_LINES = 65535
FETCH = b"CMD\t00C0000000\t00112233445566778899AABBCCDDEEFF\n"


def in_mode_1(line):
    """The mode is the eighth of the ten fields of an ISSUE line."""
    fields = line.split(b"\t")
    if fields[0] == b"ISSUE" and len(fields) == 10 and fields[7] == b"0":
        return b"\t".join([*fields[:7], b"1", *fields[8:]])
    return line


def fetching(script, answers):
    next(answers)
    for line, answer in zip(script, answers):
        yield in_mode_1(line)
        if answer.split(b"\t")[2] != b"-":
            yield FETCH


parser = argparse.ArgumentParser(
    prog="python3 bench/fetching.py", description=__doc__, formatter_class=argparse.RawDescriptionHelpFormatter)
parser.add_argument("script", metavar="SCRIPT")
parser.add_argument("answers", metavar="ANSWERS")
asked = parser.parse_args()
with open(asked.script, "rb") as script_file, open(asked.answers, "rb") as answers_file:
    sys.stdout.buffer.writelines(itertools.islice(fetching(script_file, answers_file), MOST_LINES))
