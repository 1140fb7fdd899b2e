#!/usr/bin/env python3
"""usage: tools/port-names.py [--check]

Brings the repository's own names of specs/ and proofs/ to the spelling of today's Rattle: words in snake case, facts in upper camel
case. It was run once, after the kit's port.py; --check lists the names that would change and writes nothing. Functions of src/, C names,
strings, inputs and outputs keep theirs. It goes by text: a name in lower camel case becomes snake case wherever it stands in .antt
files, .rt files and must-fail edits, outside strings.
"""
import glob
import os
import re
import sys

ROOT = os.path.dirname(os.path.dirname(os.path.abspath(__file__)))
NAME = re.compile(r"(?<![\w'])[^\W\d][\w'-]*")
CAMEL = re.compile(r"[a-z][\w'-]*[A-Z]")
# Names that the kit has so.
KIT = {"getD", "uint_Makes", "mut_Tells", "mut_slice_Tells", "shr_slice_Tells", "walk_Meets", "uint_Tells", "uint_Lawful"}
# Facts, whose names begin with a capital letter, by the folders where they stand.
FACTS = [
    ("", {"gatheredTo": "GatheredTo", "heldOn": "HeldOn", "askFile": "AsksFile", "askContents": "AsksContents", "askRight": "AsksRight",
          "askBinary": "AsksBinary", "askRecord": "AsksRecord"}),
]
# Where a name in snake case stood already, beside the one in camel case.
APART = {
    "crates/cipher/proofs/Triples.antt": {"first_out": "first_out-is", "second-out": "second_out-is", "third-out": "third_out-is"},
    "crates/demands/proofs/Credentials.antt": {"value_set": "value_set-is"},
    "crates/outsider_examples/": {"with_value": "box_with_value"},
    "crates/served/proofs/Unknown.antt": {"not_listed": "not_in_list"},
    "crates/served/proofs/Sound.antt": {"all_of": "every_one"},
}


def snake(name):
    """A name in snake case, each part between dashes by itself; a part that begins with a capital letter is a fact's and stays."""
    parts = []
    for part in name.split("-"):
        if re.match("[a-z]", part) and not re.search("_[A-Z]", part):
            part = re.sub("([a-z0-9])([A-Z])", r"\1_\2", part)
            part = re.sub("([A-Z])([A-Z][a-z])", r"\1_\2", part).lower()
        parts.append(part)
    return "-".join(parts)


def renamed(path, text):
    """The text of a file with the names of today."""
    words = {}
    for folder, facts in FACTS:
        if path.startswith(folder):
            words |= facts
    apart = {}
    for place, names in APART.items():
        if path.startswith(place):
            apart |= names
    # `heldIn` of the ledger is a fact, that of the rules a test.
    ledger = path.endswith("demands/specs/Ledger.antt") or re.search(r"demands\.specs\.Ledger\.\{[^}]*\bheldIn\b", text)
    if ledger:
        words["heldIn"] = "HeldIn"

    def name(found):
        old = found[0]
        if old in apart:
            return apart[old]
        if old in KIT or not CAMEL.match(old):
            return old
        return words.get(old) or snake(old)

    text = "".join(part if part.startswith('"') else NAME.sub(name, part) for part in re.split(r'("(?:[^"\\\n]|\\.)*")', text))
    if path.startswith("crates/served/"):
        text = re.sub(r"\banswers\.(ask|keeping)(?![\w'-])", lambda found: "answers." + {"ask": "Asks", "keeping": "Keeping"}[found[1]], text)
    if path == "crates/served/specs/Answers.antt":
        lines = text.split("\n")
        for n, line in enumerate(lines):
            code, dash, said = line.partition("--")
            lines[n] = re.sub(r"(?<![\w'.-])(ask|keeping)(?![\w'-])", lambda found: {"ask": "Asks", "keeping": "Keeping"}[found[1]], code) + dash + said
        text = "\n".join(lines)
    return text


def main(words):
    if words not in ([], ["--check"]):
        print(__doc__.strip(), file=sys.stderr)
        return 2
    places = []
    for pattern in ("crates/*/specs/**/*.antt", "crates/*/proofs/**/*.antt", "crates/*/src/**/*.rt", "crates/*/must-fail/*.edit"):
        places += sorted(glob.glob(os.path.join(ROOT, pattern), recursive=True))
    count = 0
    for place in places:
        path = os.path.relpath(place, ROOT)
        with open(place, encoding="utf-8") as file:
            old = file.read()
        new = renamed(path, old)
        if new == old:
            continue
        count += 1
        if words:
            pairs = zip(NAME.findall(old), NAME.findall(new))
            print(path + ": " + " ".join(sorted({f"{a}→{b}" for a, b in pairs if a != b})))
        else:
            with open(place, "w", encoding="utf-8") as file:
                file.write(new)
    print(f"{count} files", "would change" if words else "changed")
    return 0


if __name__ == "__main__":
    sys.exit(main(sys.argv[1:]))
