"""Runs every script of tests/scripts on cards of both modes: however replies are cut, their data are those of mode 0.

Each script is run with mode 0 in its ISSUE lines and with mode 1. In mode 1 GET RESPONSE follows each command that leaves data
waiting by the model: in one run with Le 00, in another cut by chance, with refused ones between the parts. Outcome, joined
data and last SW of every line have to be those of mode 0, and every 61xx has to say what waits. GET RESPONSE lines of the
scripts themselves are left out, for mode 0 has no such command. A script is a test in each of the two runs. Without PROGRAM
the built one is run, crates/script/out/script.
"""

import argparse
import glob
import os
import shutil
import subprocess
import sys

import card as cards
import generate
import script

ROOT = os.path.dirname(os.path.dirname(os.path.dirname(os.path.abspath(__file__))))
BUILT = [os.path.join(ROOT, "tools", "x86", "run"), os.path.join(ROOT, "crates", "script", "out", "script")]
SECONDS_TO_RUN = 120
SEED = 6
MOST_SHOWN = 3

RANDOM = bytes(range(16))
GET_RESPONSE = (0x00, 0xC0)
MODE_FIELD = 7


# ---------------------------------------------------------------------------------------------------------------------
# What is sent
# ---------------------------------------------------------------------------------------------------------------------


def in_mode(line, mode):
    """An ISSUE line of a good mode with this one; other lines as they are."""
    fields = line.split(b"\t")
    if fields[0] == b"ISSUE" and len(fields) == 10 and fields[MODE_FIELD] in (b"0", b"1"):
        fields[MODE_FIELD] = b"%d" % mode
    return b"\t".join(fields)


def is_get_response(line):
    """Whether a line is a GET RESPONSE that the list has. What framing or class refuses is none, and neither is an unserved one."""
    fields = line.split(b"\t")
    if fields[0] != b"CMD" or len(fields) != 3:
        return False
    sent, random = script.bytes_of(fields[1]), script.bytes_of(fields[2])
    if sent is None or random is None or len(random) != 16:
        return False
    return tuple(sent[:2]) == GET_RESPONSE and cards.frame_of(sent) is not None


def get_response(*end, random=RANDOM):
    return b"CMD\t" + generate.hex_of(bytes(GET_RESPONSE + end)) + b"\t" + generate.hex_of(random)


def at_once(data):
    """All by one GET RESPONSE: its line and its answer."""
    return [(get_response(0, 0, 0), (0, data, 0x9000))]


def in_parts(dice, data):
    """GET RESPONSE lines that give the data in parts, some of them refused, each with its answer."""
    parts = []
    while data:
        if dice.chance(0.3):
            parts.append(refused_part(dice, len(data)))
            continue
        length = dice.pick((1, len(data), dice.between(1, len(data)), dice.between(1, len(data))))
        part, data = data[:length], data[length:]
        le = dice.pick((0, length & 0xFF)) if not data else length
        parts.append((get_response(0, 0, le), (0, part, 0x6100 | len(data) if data else 0x9000)))
    if dice.chance(0.2):
        parts.append((get_response(0, 0, dice.below(256)), (0, b"", 0x6985)))
    return parts


def refused_part(dice, waits):
    """A GET RESPONSE that is refused or not served while so many bytes wait."""
    kind = dice.below(5)
    if kind == 0:
        return get_response(0, dice.between(1, 255), dice.below(256)), (0, b"", 0x6A86)
    if kind == 1:
        return get_response(0, 0), (0, b"", 0x6700)
    if kind == 2:
        return get_response(0, 0, 1, dice.below(256)), (0, b"", 0x6700)
    if kind == 3 or waits >= 255:
        return get_response(0, 0, 0, random=RANDOM[:dice.below(16)]), (3, b"", None)
    return get_response(0, 0, dice.between(waits + 1, 255)), (0, b"", 0x6C00 | waits)


class Sent:
    """The lines of a script for cards of mode 1."""

    def __init__(self, lines, cut):
        self.lines = []
        # For each line of mode 0: its place among these, and the GET RESPONSE lines behind it with their answers.
        self.places = []
        model = script.Program()
        for line in lines:
            line = in_mode(line, cards.FETCHED)
            model.answer(line)
            self.places.append((len(self.lines), cut(model.card.waiting) if is_waiting(model, line) else []))
            self.lines.append(line)
            for fetch, _ in self.places[-1][1]:
                model.answer(fetch)
                self.lines.append(fetch)


def is_waiting(model, line):
    """Whether this line, which was just answered, left data waiting."""
    return line.startswith(b"CMD") and model.card is not None and model.card.waiting != cards.NOTHING_WAITS


# ---------------------------------------------------------------------------------------------------------------------
# What is answered
# ---------------------------------------------------------------------------------------------------------------------


def answer_of(line):
    """Outcome, data and SW of an output line, whatever its number."""
    _, outcome, data, sw = line.split("\t")
    return int(outcome), b"" if data == "-" else bytes.fromhex(data), None if sw == "-" else int(sw, 16)


def run(command, lines):
    """The answers of the program to a script; a ValueError where it gives another number of lines."""
    if len(lines) > script.MOST_LINES:
        raise ValueError("a script of %d lines" % len(lines))
    text = b"".join([line + b"\n" for line in lines])
    done = subprocess.run(command, input=text, stdout=subprocess.PIPE, timeout=SECONDS_TO_RUN)
    answers = done.stdout.decode("ascii").splitlines()[1:]
    if len(answers) != len(lines):
        raise ValueError("%d lines, and %d answers" % (len(lines), len(answers)))
    return [answer_of(answer) for answer in answers]


def first_answer(whole):
    """What a command of mode 1 answers where mode 0 gives this: the same, but that data wait."""
    outcome, data, sw = whole
    return (0, b"", 0x6100 | len(data) & 0xFF) if data and sw == 0x9000 else (outcome, data, sw)


def disagreements(whole_answers, sent, answers):
    """What is wrong with the answers of mode 1, beside those of mode 0: the line's number, what was sent, expected and given."""
    for number, (whole, (place, fetches)) in enumerate(zip(whole_answers, sent.places), 1):
        given = answers[place:place + 1 + len(fetches)]
        wanted = [first_answer(whole)] + [answer for _, answer in fetches]
        if given != wanted:
            at = next(at for at in range(len(wanted)) if given[at] != wanted[at])
            yield number, sent.lines[place + at], wanted[at], given[at]
        elif joined(given) != whole:
            yield number, sent.lines[place], whole, joined(given)


def joined(answers):
    """A command and its GET RESPONSE lines as one answer: all their data, and the SW of the last part."""
    outcome, _, sw = answers[0]
    parts = [(data, sw) for _, data, sw in answers if data]
    return outcome, b"".join([data for data, _ in parts]), parts[-1][1] if parts else sw


def shown(answer):
    return script.output_line(0, answer).decode("ascii").partition("\t")[2].rstrip()[:200]


def report(name, wrong):
    for number, line, wanted, given in wrong[:MOST_SHOWN]:
        print("%s: line %d of mode 0: %s" % (name, number, line[:200].decode("latin-1")))
        print("  expected: " + shown(wanted))
        print("  got:      " + shown(given))


def main():
    parser = argparse.ArgumentParser(
        usage="python3 tests/model/modes.py [-h] [PROGRAM [ARGUMENT]...]", description=__doc__, formatter_class=argparse.RawDescriptionHelpFormatter)
    parser.add_argument("command", nargs=argparse.REMAINDER, help=argparse.SUPPRESS)
    command = parser.parse_args().command or BUILT
    if shutil.which(command[0]) is None:
        parser.error("there is no program %s" % command[0])
    dice = generate.Dice(SEED)
    cuts = (("all at once", at_once), ("in parts", lambda data: in_parts(dice, data)))
    passed = failed = compared = fetched = left_out = 0
    for path in sorted(glob.glob(os.path.join(ROOT, "tests", "scripts", "*.script"))):
        with open(path, "rb") as file:
            all_lines = script.lines_of(file.read())
        lines = [in_mode(line, cards.AT_ONCE) for line in all_lines if not is_get_response(line)]
        left_out += len(all_lines) - len(lines)
        try:
            whole_answers = run(command, lines)
            for cut_name, cut in cuts:
                sent = Sent(lines, cut)
                wrong = list(disagreements(whole_answers, sent, run(command, sent.lines)))
                report("%s, %s" % (os.path.basename(path), cut_name), wrong)
                compared += len(lines)
                fetched += len(sent.lines) - len(lines)
                passed += not wrong
                failed += bool(wrong)
        except (OSError, ValueError, subprocess.TimeoutExpired) as fault:
            print("%s: %s" % (os.path.basename(path), fault))
            failed += 1
    print("both modes: %d lines compared, %d GET RESPONSE lines put in, %d of the scripts left out" % (compared, fetched, left_out))
    print("%d passed, %d failed" % (passed, failed))
    return 1 if failed or not passed else 0


if __name__ == "__main__":
    sys.exit(main())
