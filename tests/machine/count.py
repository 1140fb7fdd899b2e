#!/usr/bin/env python3
"""How many instructions each call of a function takes, by the emulator.

Standard input is what qemu logs of a run of PROGRAM with QEMU_LOG=exec,nochain and QEMU_ONE_INSN_PER_TB: a line for each instruction,
with its address. PROGRAM is an executable for x86-64 that is not position-independent. Prints a line for each call of FUNCTION, in
order: the instructions from its first one to the one that returns to its caller, those of the functions that it calls among them.

With --within NAME those instructions of the call alone that are in functions whose name begins so.
"""
import argparse
import bisect
import re
import subprocess
import sys


def functions(path):
    """The addresses at which functions begin, in order, and their names."""
    listed = subprocess.run(["x86_64-linux-gnu-nm", "-C", path], check=True, capture_output=True, text=True).stdout
    found = sorted((int(m[1], 16), m[2]) for m in re.finditer(r"^([0-9a-f]+) [tTwW] (.*)$", listed, re.M))
    return [address for address, _ in found], [name for _, name in found]


def addresses(lines):
    """Of `Trace 0: 0xffff94600140 [00000000/0000000000401136/1040c0b3/00000201]` the second in brackets."""
    for line in lines:
        if line.startswith(b"Trace"):
            start = line.index(b"/") + 1
            yield int(line[start:start + 16], 16)


def main():
    parser = argparse.ArgumentParser(
        prog="tests/machine/count.py", description=__doc__, formatter_class=argparse.RawDescriptionHelpFormatter)
    parser.add_argument("--within", metavar="NAME")
    parser.add_argument("function", metavar="FUNCTION")
    parser.add_argument("program", metavar="PROGRAM")
    asked = parser.parse_args()
    starts, names = functions(asked.program)
    if asked.function not in names:
        sys.exit("%s has no function %s" % (asked.program, asked.function))
    entry = starts[names.index(asked.function)]
    counts = [asked.within is None or name.startswith(asked.within) for name in names]

    def place(address):
        return bisect.bisect(starts, address) - 1

    caller = None  # the first and the last address of the function that called, while a call runs
    count = before = 0
    for address in addresses(sys.stdin.buffer):
        if caller is not None and caller[0] <= address < caller[1]:
            print(count)
            caller = None
        if caller is None and address == entry:
            at = place(before)
            caller = (starts[at], starts[at + 1])
            count = 0
        if caller is not None:
            count += asked.within is None or counts[place(address)]
        before = address


main()
