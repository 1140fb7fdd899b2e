"""Processor time of programs, turn by turn, so that whatever else the machine does meets them alike.

A RUN is an input file, a program and its words; -- parts one from the next. Each is run TURNS times on its input and as often on
nothing, one behind the other in turn. Prints a line for each: its shortest run less its shortest on nothing, in seconds.
"""

import argparse
import os
import subprocess
import sys
import tempfile


def processor_time(program, given, taken):
    """Seconds of one run of a program, a list of words, that reads from the one file and writes to the other."""
    with open(given, "rb") as input, open(taken, "wb") as output:
        child = subprocess.Popen(program, stdin=input, stdout=output)
        _, status, used = os.wait4(child.pid, 0)
    child.returncode = status
    if status != 0:
        sys.exit(f"{program} ended with status {status}")
    return used.ru_utime + used.ru_stime


def parted(words):
    """The words between each -- and the next."""
    parts = [[]]
    for word in words:
        if word == "--":
            parts.append([])
        else:
            parts[-1].append(word)
    return parts


def shortest(runs, turns, taken):
    """The seconds of each run, a list of its input and its program's words, that its shortest has taken."""
    full, none = [[] for _ in runs], [[] for _ in runs]
    for _ in range(turns):
        for place, (given, *program) in enumerate(runs):
            full[place].append(processor_time(program, given, taken))
            none[place].append(processor_time(program, os.devnull, taken))
    return [max(min(some) - min(nothing), 1e-9) for some, nothing in zip(full, none)]


def main():
    parser = argparse.ArgumentParser(
        prog="python3 bench/turns.py", description=__doc__, formatter_class=argparse.RawDescriptionHelpFormatter)
    parser.add_argument("turns", metavar="TURNS", type=int)
    parser.add_argument("words", metavar="RUN", nargs=argparse.REMAINDER)
    asked = parser.parse_args()
    runs = parted(asked.words)
    if asked.turns < 1 or any(len(run) < 2 for run in runs):
        parser.error("a run is an input and a program")
    with tempfile.NamedTemporaryFile() as taken:
        for seconds in shortest(runs, asked.turns, taken.name):
            print(f"{seconds:.6f}")


if __name__ == "__main__":
    main()
