"""Request R-10 of document 02 and reading 24 over the model of the card: what a loss of power may leave of a command.

Written from the papers alone, as the card is. A command is a list of single stores to lasting bytes. For any number of them done,
0 to all, `Cut` says which cards may be found after recovery and reset, family by family, and which stores may be in the list where
the papers say so. What is found is a card's text: a `View` of it has all that lasts, the records of 2C and 2E files as lists, so
that bytes in no record are not looked at.

PROGRAM is tests/c/cuts.c as it is built, for x86-64 where --emulator names nothing else: it plays a script, cuts every command after
every number of stores, and prints the stores and what was found. A script is one test: of each seed a generated one, and each FILE.
With --all every family of commands has to be reached by them together.
"""

import argparse
import os
import subprocess
import sys
import tempfile
from collections import Counter
from functools import lru_cache
from typing import NamedTuple

import card as cards
import compare
import generate
import script
import text as texts

SECONDS_TO_RUN = 600
MOST_SHOWN = 8

# ---------------------------------------------------------------------------------------------------------------------
# Where the bytes lie, as tests/c/layout.h has them: a store says where it is made
# ---------------------------------------------------------------------------------------------------------------------

DEVICE, ADMIN, USER, TRANSPORT = range(4)
VALUE_ROOM, CREDENTIAL_SIZE = 16, 19
FILES_AT, FILE_SIZE = 76, 12
COUNT_AT = FILES_AT + cards.MOST_FILES * FILE_SIZE
FOLDERS_AT, FOLDER_SIZE = COUNT_AT + 1, 3
NUMBER_AT = FOLDERS_AT + cards.MOST_FOLDERS * FOLDER_SIZE
JOURNAL_AT, JOURNAL_SIZE = 563, 18
CARD_SIZE = JOURNAL_AT + JOURNAL_SIZE


def tries_at(number):
    return CREDENTIAL_SIZE * number + VALUE_ROOM + 1


def value_places(number):
    """A credential's value and its length."""
    return set(range(CREDENTIAL_SIZE * number, CREDENTIAL_SIZE * number + VALUE_ROOM + 1))


def entry_at(place):
    return FILES_AT + FILE_SIZE * place


JOURNAL_PLACES = set(range(JOURNAL_AT, CARD_SIZE))

# ---------------------------------------------------------------------------------------------------------------------
# What lasts of a card
# ---------------------------------------------------------------------------------------------------------------------


class Shown(NamedTuple):
    """A credential."""
    value: bytes
    limit: int
    tries: int


class FileView(NamedTuple):
    """A file. `held` is a 2C file's used bytes. `contents` are its bytes or, of 2C and 2E, its records in the order of their numbers."""
    fid: int
    created: bytes
    held: int
    newest: int
    home: int
    contents: object


class View(NamedTuple):
    """A card after a reset: `session` is its whole line, with the mode in it."""
    credentials: tuple
    session: bytes
    folders: tuple
    files: tuple


def session_of(mode):
    """No right, no current file, no challenge, nothing that waits, and the root."""
    return b"0\t0\t0\t-\t-\t%d\t-\t3F00" % mode


@lru_cache(maxsize=20000)
def contents_of(created, held, newest, extent):
    """What a file holds, out of all its bytes."""
    kind, count, length = created[:3]
    if kind == cards.CYCLIC:
        places = [(newest - older) % count for older in range(held)]
        return tuple([extent[place * length:(place + 1) * length] for place in places])
    if kind == cards.VARIABLE:
        records, place = [], 0
        while place < held:
            begin = place + 1
            place = begin + extent[place]
            records.append(extent[begin:place])
        return tuple(records)
    return extent


def view_of(card, area):
    """Of a card of the model, as if it were reset."""
    credentials = tuple([Shown(each.value, each.limit, each.tries) for each in (card.device, card.admin, card.user, card.transport)])
    files = []
    for file in card.files:
        created = texts.created_bytes(file)
        held = file.used if file.kind == cards.VARIABLE else file.records
        home = cards.ROOT_FID if file.folder is cards.ROOT else file.folder.fid
        extent = bytes(area[file.start:file.start + file.extent])
        files.append(FileView(file.fid, created, held, file.newest, home, contents_of(created, held, file.newest, extent)))
    return View(credentials, session_of(card.mode), tuple([(folder.fid, folder.right) for folder in card.folders]), tuple(files))


def extent_of(created):
    kind, first, second = created[:3]
    return first << 8 | second if kind in (cards.BINARY, cards.VARIABLE) else first * second


@lru_cache(maxsize=20000)
def file_of_text(head, digits):
    fid, created, held, newest, home = head.split(b"\t")
    created, held, newest = bytes.fromhex(created.decode()), int(held), int(newest)
    extent = bytes.fromhex(digits.decode())
    return FileView(int(fid, 16), created, held, newest, int(home, 16), contents_of(created, held, newest, extent))


def view_of_text(text):
    """Of a card's text, in the form of docs/CARD-FILE.md. None where it is not one."""
    try:
        *lines, rest = text.split(b"\n")
        credentials = []
        for line in lines[:4]:
            value, limit, tries = line.split(b"\t")
            credentials.append(Shown(bytes.fromhex(value.decode()), int(limit), int(tries)))
        at, folders, files = 5, [], []
        while at < len(lines) and lines[at].count(b"\t") == 1:
            fid, right = lines[at].split(b"\t")
            folders.append((int(fid, 16), int(right, 16)))
            at += 1
        while at < len(lines):
            size = extent_of(bytes.fromhex(lines[at].split(b"\t")[1].decode()))
            end = at + 1 - -size // texts.BYTES_A_LINE
            digits = b"".join(lines[at + 1:end])
            if len(digits) != 2 * size:
                return None
            files.append(file_of_text(lines[at], digits))
            at = end
        return View(tuple(credentials), lines[4], tuple(folders), tuple(files)) if rest == b"" else None
    except (IndexError, ValueError):
        return None


def with_credential(view, number, **changes):
    each = list(view.credentials)
    each[number] = each[number]._replace(**changes)
    return view._replace(credentials=tuple(each))


def with_file(view, place, **changes):
    files = list(view.files)
    files[place] = files[place]._replace(**changes)
    return view._replace(files=tuple(files))


def differences(found, expected):
    """Where two views part, in a few words."""
    if found is None:
        return "no card's text"
    parts = []
    for number, (left, right) in enumerate(zip(found.credentials, expected.credentials)):
        if left != right:
            parts.append("credential %d is %s/%d/%d and not %s/%d/%d" % (
                number, left.value.hex(), left.limit, left.tries, right.value.hex(), right.limit, right.tries))
    if found.session != expected.session:
        parts.append("the session is %r" % found.session)
    if found.folders != expected.folders:
        parts.append("the directories are %r and not %r" % (found.folders, expected.folders))
    if len(found.files) != len(expected.files):
        parts.append("%d files and not %d" % (len(found.files), len(expected.files)))
    for place, (left, right) in enumerate(zip(found.files, expected.files)):
        if left != right:
            parts.append("file %d (%04X) is other: held %d newest %d, and not %d and %d%s" % (
                place, left.fid, left.held, left.newest, right.held, right.newest,
                ", its contents too" if left.contents != right.contents else ""))
    return "; ".join(parts)


# ---------------------------------------------------------------------------------------------------------------------
# One command, cut
# ---------------------------------------------------------------------------------------------------------------------

NAMES = {(cla, ins): name for cla, ins, name, _ in cards.LIST}
WITH_A_CODE = " with a code"


def has_good_p(name, frame):
    """What the five commands ask of P before anything else."""
    if "BINARY" in name:
        return frame.p1 < 0x80 or 0x81 <= frame.p1 <= 0x9E
    if frame.p2 >> 3 == 31:
        return False
    if name.startswith("APPEND"):
        return frame.p1 == 0 and frame.p2 & 0b111 == 0
    return frame.p1 != 0 and frame.p2 & 0b111 == 0b100


def has_code_form(name, frame):
    """"Reads become case 4 with Lc 04; updates and appends need Lc 05 or more"."""
    if name.startswith("READ"):
        return frame.case == 4 and len(frame.data) == cards.CODE_SIZE
    return frame.case == 3 and len(frame.data) > cards.CODE_SIZE


class Update(NamedTuple):
    """Bytes that a command sets: of which file, of which record (None: of all its bytes), from where in it, and old and new."""
    place: int
    record: object
    start: int
    old: bytes
    new: bytes


def again(thing):
    """An object of the model once more, with the same in it."""
    made = object.__new__(type(thing))
    for name in thing.__slots__:
        setattr(made, name, getattr(thing, name))
    return made


def copied(card):
    """A card once more, with credentials, folders and files of its own."""
    made = again(card)
    for name in ("device", "admin", "user", "transport"):
        setattr(made, name, again(getattr(card, name)))
    folders = {cards.ROOT: cards.ROOT, **{folder: again(folder) for folder in card.folders}}
    files = {None: None, **{file: again(file) for file in card.files}}
    made.folders, made.files = [folders[folder] for folder in card.folders], [files[file] for file in card.files]
    for file in made.files:
        file.folder = folders[file.folder]
    made.folder, made.current = folders[card.folder], files[card.current]
    return made


class Cut:
    """What may be found of one command on one card of the model, by the number of its stores that were done.

    `fixed` are the views after exactly 0, 1, 2 stores, as far as the presentation goes: store 0 lowers, store 1 restores. `stages` are
    the views that the rest of the command leads through, from the last of those on to what the step leaves. Where the command updates,
    `update` says which bytes may be old or new between.
    """

    def __init__(self, card, area, sent, random):
        after, area_after = copied(card), bytearray(area)
        _, self.sw = cards.serve(after, area_after, sent, random)
        frame = cards.frame_of(sent)
        # A command that is not in the list makes no store, and neither does GET RESPONSE, in either mode.
        name = NAMES.get(tuple(sent[:2]), "") if frame is not None else ""
        self.done = self.sw == 0x9000 or self.sw >> 8 == 0x61
        self.label = (name or "none") + ("" if self.done or not name else ", refused")
        self.fixed = [view_of(card, area)]
        self.first = []
        self.present(card, name, frame)
        self.stages = [self.fixed[-1]]
        self.update = None
        # Of whose stores: the places that they may be made at, and how often each.
        self.places = {}
        self.last_store = None
        self.may_skip = False
        if self.sw == 0x9000:
            self.act(name.removesuffix(WITH_A_CODE), card, area, frame, after)
        self.final = view_of(after, area_after)
        if self.stages[-1] != self.final:
            raise AssertionError("%s: %s" % (name, differences(self.stages[-1], self.final)))
        self.stages = [view for at, view in enumerate(self.stages) if at == 0 or view != self.stages[at - 1]]

    def present(self, card, name, frame):
        """The stores of a presentation and what is found after each: tries lowered before anything is compared, restored where it agrees."""
        number, agrees = self.presented(card, name, frame)
        if number is None:
            return
        before = self.fixed[0].credentials[number]
        self.first.append((tries_at(number), before.tries - 1))
        self.fixed.append(with_credential(self.fixed[0], number, tries=before.tries - 1))
        if agrees:
            self.first.append((tries_at(number), before.limit))
            self.fixed.append(with_credential(self.fixed[0], number, tries=before.limit))
        self.label = "%s %s" % (("right" if agrees else "wrong"), name)
        if number == TRANSPORT and agrees and not self.done:
            self.label += ", refused later"

    def presented(self, card, name, frame):
        """The credential's number and whether it agrees; None where the command presents none."""
        compared = self.sw == 0x9000 or self.sw >> 4 == 0x63C
        if name == "VERIFY" and frame.case == 3 and compared:
            return (ADMIN if frame.p2 == 0 else USER), self.sw == 0x9000
        if name == "EXTERNAL AUTHENTICATE" and compared:
            return DEVICE, self.sw == 0x9000
        if name.endswith(WITH_A_CODE) and has_good_p(name, frame) and has_code_form(name, frame):
            if card.transport.tries > 0 and card.challenge != cards.NO_CHALLENGE:
                return TRANSPORT, self.sw != 0x6988
        return None, False

    def act(self, name, card, area, frame, after):
        """What a command that ends 9000 does to PINs and files."""
        if name == "CHANGE PIN":
            self.set_pin(ADMIN if frame.p2 == 0 else USER, frame.data)
        elif name == "RELOAD PIN":
            self.set_pin(USER, frame.data)
            limit = self.stages[-1].credentials[USER].limit
            self.label += " with tries gone" if card.user.tries < limit else ""
            # "A reload counts once its tries are stored", and they come after the value.
            self.stages.append(with_credential(self.stages[-1], USER, tries=limit))
            self.places[tries_at(USER)] = 1
            self.last_store = (tries_at(USER), limit)
        elif name == "CREATE FILE":
            self.create(card, frame, after)
        elif name.startswith("UPDATE"):
            self.set_bytes(name, card, area, frame, after)
        elif name == "APPEND RECORD":
            self.append(card, frame, after)

    def set_pin(self, number, value):
        """"A PIN is wholly the old or the new", value and length."""
        self.stages.append(with_credential(self.stages[-1], number, value=bytes(value)))
        self.places.update({place: 2 for place in JOURNAL_PLACES})
        self.places.update({place: 1 for place in value_places(number)})

    def create(self, card, frame, after):
        """"A created file is there whole or not at all"; a directory likewise."""
        view = self.stages[-1]
        if frame.data[0] == cards.FOLDER:
            self.label += " 38"
            self.stages.append(view._replace(folders=view.folders + ((frame.p1 << 8 | frame.p2, frame.data[3]),)))
            at = FOLDERS_AT + FOLDER_SIZE * len(card.folders)
            self.places.update({place: 1 for place in range(at, at + FOLDER_SIZE)})
            self.places[NUMBER_AT] = 1
            self.last_store = (NUMBER_AT, len(after.folders))
            return
        self.label += " %02X" % frame.data[0] + ("" if card.folder is cards.ROOT else " inside")
        file = after.files[-1]
        home = cards.ROOT_FID if card.folder is cards.ROOT else card.folder.fid
        empty = () if file.kind in (cards.VARIABLE, cards.CYCLIC) else bytes(file.extent)
        self.stages.append(view._replace(files=view.files + (
            FileView(frame.p1 << 8 | frame.p2, bytes(frame.data), 0, 0, home, empty),)))
        at = entry_at(len(card.files))
        self.places.update({place: 1 for place in range(at, at + FILE_SIZE)})
        self.places.update({CARD_SIZE + place: 1 for place in range(file.start, file.start + file.extent)})
        self.places[COUNT_AT] = 1
        self.last_store = (COUNT_AT, len(after.files))

    def set_bytes(self, name, card, area, frame, after):
        """"An update may leave each byte old or new", and it lists every byte, in order."""
        place = after.files.index(after.current)
        file = card.files[place]
        data = frame.data[:-cards.CODE_SIZE] if frame.is_coded else frame.data
        if name == "UPDATE BINARY":
            record, start = None, frame.p2 if frame.p1 & 0x80 else frame.p1 << 8 | frame.p2
            begin = file.start + start
        else:
            record, start = (None, (frame.p1 - 1) * file.length) if file.kind == cards.FIXED else (frame.p1 - 1, 0)
            begin, _ = file.record(area, frame.p1)
        self.label += " of %02X" % file.kind
        self.update = Update(place, record, start, bytes(area[begin:begin + len(data)]), bytes(data))
        self.stages.append(with_update(self.stages[-1], self.update, bytes(data)))
        self.deed_stores = [(CARD_SIZE + begin + at, byte) for at, byte in enumerate(data)]

    def append(self, card, frame, after):
        """"An append leaves the old list, the old list without its oldest when full, or the new list"."""
        place = after.files.index(after.current)
        file, made = card.files[place], after.files[place]
        data = bytes(frame.data[:-cards.CODE_SIZE] if frame.is_coded else frame.data)
        view, old = self.stages[-1], self.stages[-1].files[place]
        self.may_skip = True
        if file.kind == cards.VARIABLE:
            self.label += " to 2C" + (" past 255" if file.used < 256 <= made.used else "")
            self.stages.append(with_file(view, place, held=old.held + 1 + len(data), contents=old.contents + (data,)))
            begin, length = file.start + file.used, 1 + len(data)
        else:
            self.label += " to 2E" + (" full" if file.records == file.count else " empty" if file.records == 0 else "")
            kept = old.contents
            if file.records == file.count:
                kept = old.contents[:-1]
                self.stages.append(with_file(view, place, held=old.held - 1, contents=kept))
            newest = 0 if file.records == 0 else (file.newest + 1) % file.count
            self.stages.append(with_file(view, place, held=len(kept) + 1, newest=newest, contents=(data,) + kept))
            begin, length = file.start + newest * file.length, file.length
        at = entry_at(place)
        self.places.update({place: 2 for place in JOURNAL_PLACES})
        # Held, which a full file lowers first, then the three others.
        self.places[at + 7] = 2
        self.places.update({place: 1 for place in (at + 8, at + 9, at + 10)})
        self.places.update({CARD_SIZE + place: 1 for place in range(begin, begin + length)})

    # ------------------------------------------------------------------------------------------------------ judging

    def allowed(self, done):
        """The views that may be found after so many stores; of an update those with all its bytes old and with all new."""
        return self.fixed[done:done + 1] if done < len(self.first) else self.stages

    def wrong_stores(self, stores):
        """What is wrong with the list of stores, each an address and a value."""
        if stores[:len(self.first)] != self.first:
            return "the presentation's stores are %s and not %s" % (shown(stores[:3]), shown(self.first))
        rest = stores[len(self.first):]
        if self.update is not None:
            if rest != self.deed_stores:
                return "the update's stores are not its bytes in order: %s, and not %s" % (shown(rest), shown(self.deed_stores))
            return None
        counts = Counter([address for address, _ in rest])
        for address in counts:
            if counts[address] > self.places.get(address, 0):
                return "%d stores at %d, and %d may be" % (counts[address], address, self.places.get(address, 0))
        if self.last_store is not None and rest[-1:] != [self.last_store]:
            return "the last store is %s and not %s" % (shown(rest[-1:]), shown([self.last_store]))
        return None

    def wrong_runs(self, total, runs):
        """What is wrong with what was found: runs of numbers of stores, each first, last and the view. Gives the first thing."""
        due, stage, new = 0, 0, set()
        for first, last, view in runs:
            if first != due or last < first:
                return "what was found after %d stores is missing" % due
            due = last + 1
            for done in range(first, min(last + 1, len(self.first))):
                if view != self.fixed[done]:
                    return "after %d stores of a presentation: %s" % (done, differences(view, self.fixed[done]))
            if last < len(self.first):
                continue
            done = max(first, len(self.first))
            if self.update is not None:
                found = self.new_places(view)
                if found is None:
                    return "after %d stores more than the bytes of the update is other, or one is neither old nor new: %s" % (
                        done, differences(view, self.stages[0]))
                if not new <= found:
                    return "after %d stores a byte is old again" % done
                if done == len(self.first) and found:
                    return "before the first store of the update, a byte is new"
                new = found
                continue
            at = next((at for at in range(stage, len(self.stages)) if self.stages[at] == view), None)
            if at is None:
                return "after %d stores, behind stage %d of %d: %s" % (done, stage, len(self.stages) - 1, differences(view, self.stages[stage]))
            if at > stage + 1 and not self.may_skip:
                return "after %d stores what comes between was left out" % done
            if done == len(self.first) and at != 0 and len(self.stages) > 1:
                return "before the first store of what the command does, it is done"
            stage = at
        if due != total + 1:
            return "what was found after %d stores is missing" % due
        if runs[-1][2] != self.final:
            return "after all %d stores: %s" % (total, differences(runs[-1][2], self.final))
        return None

    def new_places(self, view):
        """Which bytes of the update are new, where they differ; None where another one is, or more is other than they."""
        update = self.update
        if view is None or len(view.files) != len(self.final.files):
            return None
        contents = view.files[update.place].contents
        if update.record is not None:
            contents = contents[update.record] if update.record < len(contents) else b""
        found = contents[update.start:update.start + len(update.new)]
        if len(found) != len(update.new) or view != with_update(self.stages[0], update, found):
            return None
        if any(byte not in (old, new) for byte, old, new in zip(found, update.old, update.new)):
            return None
        return {at for at, byte in enumerate(found) if byte == update.new[at] != update.old[at]}


def with_update(view, update, data):
    contents = view.files[update.place].contents
    if update.record is None:
        contents = contents[:update.start] + data + contents[update.start + len(data):]
    else:
        contents = contents[:update.record] + (data,) + contents[update.record + 1:]
    return with_file(view, update.place, contents=contents)


def shown(stores):
    return "[%s%s]" % (", ".join(["%d: %02X" % store for store in stores[:6]]), ", .." if len(stores) > 6 else "")


# ---------------------------------------------------------------------------------------------------------------------
# What the program prints
# ---------------------------------------------------------------------------------------------------------------------


class Broken(Exception):
    """The program's output is not as it is to be."""


class Output:
    """What tests/c/cuts.c prints: for each served command its stores, then the runs of what was found, each text by how it differs from
    the one before."""

    def __init__(self, stream):
        self.stream = stream
        self.text = b""
        self.head = self.next_head()

    def next_head(self):
        return self.stream.readline().split()

    def take(self, length):
        found = self.stream.read(length)
        if len(found) != length:
            raise Broken("the output ends in its middle")
        return found

    def command(self):
        """Number of the line, stores, runs, and the text that the card goes on with where it was left cut; None at the end."""
        head = self.head
        if head[:1] == [b"E"]:
            return None
        if head[:1] != [b"K"]:
            raise Broken("the output has %r in the place of a command" % (head[:5],))
        number, count = int(head[1]), int(head[2])
        packed = self.take(3 * count)
        stores = [(packed[at] << 8 | packed[at + 1], packed[at + 2]) for at in range(0, 3 * count, 3)]
        runs, found, left = [], [], None
        self.head = self.next_head()
        while self.head[:1] == [b"R"]:
            first, last, front, back, length = [int(field) for field in self.head[1:]]
            self.text = self.text[:front] + self.take(length) + self.text[len(self.text) - back:]
            runs.append((first, last, view_of_text(self.text)))
            found.append(self.text)
            self.head = self.next_head()
        if self.head[:1] == [b"C"]:
            done = int(self.head[1])
            left = next((text for (first, last, _), text in zip(runs, found) if first <= done <= last), b"")
            self.head = self.next_head()
        return number, stores, runs, left


class Judge:
    """Holds what the program prints of a script to the model, which runs the same script."""

    def __init__(self):
        self.labels = Counter()
        self.cuts = 0
        self.left = 0

    def wrongs(self, lines, output):
        program = script.Program()
        for number, line in enumerate(lines, 1):
            if number > script.MOST_LINES:
                break
            cut = self.cut_of(program, line)
            outcome, _, sw = program.answer(line)
            if cut is None:
                continue
            if outcome != 0 or cut.sw != sw:
                raise AssertionError("the model answers a line in two ways")
            found = output.command()
            if found is None or found[0] != number:
                raise Broken("line %d is a served command, and the program has none there" % number)
            _, stores, runs, left = found
            self.labels[cut.label] += 1
            self.cuts += len(stores) + 1
            for wrong in (cut.wrong_stores(stores), cut.wrong_runs(len(stores), runs)):
                if wrong is not None:
                    yield number, "%s: %s" % (cut.label, wrong)
            if left is not None:
                self.go_on(program, left)
        if output.command() is not None:
            raise Broken("the program has a command more")

    def go_on(self, program, left):
        """The power was lost: the model goes on with the card that was found, which is one of those that it allows."""
        found = texts.from_text(left)
        if found is None:
            raise Broken("a card is to go on that is none")
        program.card, program.area = found
        self.left += 1

    @staticmethod
    def cut_of(program, line):
        """The cut of a line that is a served command, before it is run."""
        fields = line.split(b"\t")
        if len(line) > script.LONGEST_LINE or fields[0] != b"CMD" or len(fields) != 3 or program.card is None:
            return None
        sent, random = script.bytes_of(fields[1]), script.bytes_of(fields[2])
        if sent is None or random is None or len(random) != 16:
            return None
        return Cut(program.card, program.area, sent, random)


# What the scripts have to reach, together.
REACHED = (
    "right VERIFY", "wrong VERIFY", "VERIFY", "VERIFY, refused", "right EXTERNAL AUTHENTICATE", "wrong EXTERNAL AUTHENTICATE",
    "EXTERNAL AUTHENTICATE, refused", "CHANGE PIN", "CHANGE PIN, refused", "RELOAD PIN", "RELOAD PIN with tries gone", "RELOAD PIN, refused",
    "CREATE FILE, refused", "CREATE FILE 28", "CREATE FILE 2A", "CREATE FILE 2C", "CREATE FILE 2E", "CREATE FILE 38",
    "CREATE FILE 28 inside", "CREATE FILE 2A inside", "CREATE FILE 2C inside", "CREATE FILE 2E inside",
    "UPDATE BINARY of 28", "UPDATE RECORD of 2A", "UPDATE RECORD of 2C", "UPDATE RECORD of 2E", "APPEND RECORD to 2C",
    "APPEND RECORD to 2C past 255", "APPEND RECORD to 2E", "APPEND RECORD to 2E empty", "APPEND RECORD to 2E full",
    "right UPDATE BINARY with a code of 28", "right UPDATE RECORD with a code of 2A", "right UPDATE RECORD with a code of 2C",
    "right UPDATE RECORD with a code of 2E", "right APPEND RECORD with a code to 2C", "right APPEND RECORD with a code to 2E",
    "right APPEND RECORD with a code to 2E full", "right READ BINARY with a code", "right READ RECORD with a code",
    "wrong READ BINARY with a code", "wrong READ RECORD with a code", "wrong UPDATE BINARY with a code", "wrong UPDATE RECORD with a code",
    "wrong APPEND RECORD with a code", "right READ BINARY with a code, refused later", "right UPDATE BINARY with a code, refused later",
    "right APPEND RECORD with a code, refused later", "UPDATE BINARY with a code, refused", "SELECT", "SELECT, refused", "GET CHALLENGE",
    "GET RESPONSE", "GET RESPONSE, refused", "READ BINARY", "READ RECORD", "UPDATE BINARY, refused", "UPDATE RECORD, refused",
    "APPEND RECORD, refused", "none",
)


def judged(judge, call, lines, last_newline=True):
    """Whether the program, run on a script, finds nothing wrong by itself and prints what R-10 allows."""
    wrongs = 0
    with tempfile.TemporaryFile() as given:
        given.write(b"\n".join(lines) + (b"\n" if last_newline else b""))
        given.seek(0)
        process = subprocess.Popen(call, stdin=given, stdout=subprocess.PIPE)
        try:
            for number, wrong in judge.wrongs(lines, Output(process.stdout)):
                wrongs += 1
                if wrongs <= MOST_SHOWN:
                    print("  line %d: %s" % (number, wrong))
                    print("    %s" % lines[number - 1][:160].decode("latin-1"))
                if wrongs == MOST_SHOWN:
                    break
        except (Broken, ValueError, IndexError) as fault:
            print("  %s" % fault)
            wrongs += 1
        if wrongs:
            process.kill()
        process.stdout.close()
        status = process.wait(SECONDS_TO_RUN)
    if status != 0 and not wrongs:
        print("  the program ends with %d" % status)
    return not wrongs and status == 0


def scripts_of(asked):
    for path in asked.script:
        with open(path, "rb") as file:
            yield os.path.basename(path), script.lines_of(file.read())
    if asked.seeds:
        first, _, last = asked.seeds.partition("-")
        for seed in range(int(first), int(last or first) + 1):
            yield "random script %d of %d lines" % (seed, asked.lines), script.lines_of(generate.script_of(seed, asked.lines))


def main():
    parser = argparse.ArgumentParser(prog="python3 tests/model/cuts.py", description=__doc__, formatter_class=argparse.RawDescriptionHelpFormatter)
    parser.add_argument("--seeds", metavar="FIRST-LAST", help="generated scripts")
    parser.add_argument("--lines", metavar="N", type=int, default=1000, help="so many lines each (1000)")
    parser.add_argument("--script", metavar="FILE", nargs="+", default=[], help="scripts in files")
    parser.add_argument("--left-cut", metavar="N", help="one command in N is left cut, and the card goes on as it was found")
    parser.add_argument("--all", action="store_true", help="fails where a family of commands was not reached")
    parser.add_argument("--first", action="store_true", help="ends after the first script that fails")
    parser.add_argument("--emulator", metavar="COMMAND", default=compare.X86, help="what runs PROGRAM (tools/x86/run)")
    parser.add_argument("program", metavar="PROGRAM")
    asked = parser.parse_args()
    if not asked.seeds and not asked.script:
        parser.error("there is nothing to play: --seeds or --script")
    judge = Judge()
    call = [asked.emulator, asked.program] + (["--left-cut", asked.left_cut] if asked.left_cut else [])
    passed = failed = 0
    for name, lines in scripts_of(asked):
        good = judged(judge, call, lines)
        passed += good
        failed += not good
        print("%s: %s" % ("passed" if good else "FAILED", name), flush=True)
        if not good and asked.first:
            break
    missing = [label for label in REACHED if not judge.labels[label]] if asked.all else []
    if asked.all:
        print("%d commands, %d cuts, %d left so: %s" % (
            sum(judge.labels.values()), judge.cuts, judge.left, ", ".join(["%s %d" % pair for pair in sorted(judge.labels.items())])))
        for label in missing:
            print("MISSING: " + label)
        failed += bool(missing)
        passed += not missing
    print("%d passed, %d failed" % (passed, failed))
    return 1 if failed or not passed else 0


if __name__ == "__main__":
    sys.exit(main())
