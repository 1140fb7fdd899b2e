#!/usr/bin/env python3
"""The most stack that each function of an object file can take, with all that it calls.

OBJECT has each function in a section of its own, for any processor. USAGE is what the compiler says of it with -fstack-usage: how many
bytes a function takes for itself. What a function calls stands in the relocations of its section. Prints a line for each function that
can be linked: the bytes on its deepest way, and its name. What functions of the C library take is not in it, and is named behind.

The exit status is 1 where that cannot be told: a function that calls itself, or takes a number of bytes that is not fixed, or one that
the compiler says nothing of. On x86-64 a call itself takes 8 bytes, which the compiler does not count.
"""
import argparse
import re
import subprocess
import sys


def read(*words):
    return subprocess.run(["readelf", "-W", *words], check=True, capture_output=True, text=True, env={"PATH": "/usr/bin:/bin", "LC_ALL": "C"}).stdout


def frames(path):
    """The bytes of each function, of lines `file:function TAB bytes TAB static`."""
    found = {}
    for line in open(path, encoding="utf-8"):
        place, size, kind = line.rstrip("\n").split("\t")
        if kind != "static":
            sys.exit("%s takes a number of bytes that is not fixed" % place)
        found[place.split(":", 1)[1]] = int(size)
    return found


def calls(path):
    """What the relocations of each function's section name."""
    found, function = {}, None
    for line in read("-r", path).splitlines():
        if match := re.match(r"Relocation section '\.rela?(\..*)' at", line):
            function = match[1][len(".text."):] if match[1].startswith(".text.") else None
        elif function and (match := re.match(r"[0-9a-f]+ +[0-9a-f]+ +R_\w+ +[0-9a-f]+ +(\S+)", line)):
            found.setdefault(function, set()).add(re.sub(r"^\.text\.", "", match[1]))
    return found


def main():
    parser = argparse.ArgumentParser(
        prog="tests/machine/stack.py", description=__doc__, formatter_class=argparse.RawDescriptionHelpFormatter)
    parser.add_argument("object", metavar="OBJECT")
    parser.add_argument("usage", metavar="USAGE")
    asked = parser.parse_args()
    taken, called = frames(asked.usage), calls(asked.object)
    of_call = 8 if "X86-64" in read("-h", asked.object) else 0
    symbols = re.findall(r"^ *\d+: [0-9a-f]+ +\d+ (\w+) +(\w+) +\w+ +(?:\[.*\] +)?(\w+) (\S+)$", read("-s", asked.object), re.M)
    functions = {name for kind, _, place, name in symbols if kind == "FUNC" and place != "UND"}
    outside = {name for _, _, place, name in symbols if place == "UND"}
    if missing := functions - set(taken):
        sys.exit("the compiler says nothing of %s" % ", ".join(sorted(missing)))

    def deepest(function, callers):
        if function in callers:
            sys.exit("%s calls itself" % function)
        if function not in depths:
            below = [deepest(callee, callers + [function]) for callee in called.get(function, set()) & functions]
            depths[function] = of_call + taken[function] + max(below, default=0)
        return depths[function]

    def leaves(function):
        """What is called outside of the object, by it or below it."""
        return (called.get(function, set()) & outside).union(*(leaves(callee) for callee in called.get(function, set()) & functions))

    depths = {}
    for name in sorted(name for kind, bind, place, name in symbols if kind == "FUNC" and bind == "GLOBAL" and place != "UND"):
        print(deepest(name, []), name, *sorted(leaves(name)))


main()
