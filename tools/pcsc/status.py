"""tools/box status: what can be seen of a card, and what the config says."""
from .answer import RED
from .commands import ADMIN, GET_CHALLENGE, NO_FILE, USER
from .files import Bytes, Records
from .notes import LAST, room_unknown, taken_by, told
from .rights import NAMES, allowed, tries_left
from .session import session
from .words import counted, legible, unexpected

SUMMARY = "what is on the card: tries left, files, how full they are"
HELP = """\
Shows what can be seen of a card: the tries left of both PINs, its mode, and
which of the config's files are there. It never asks for a PIN. With --pin-from
it shows the user PIN to the card, and tells also how full the alarms and the
notes are. How much room a file with records has, no command tells: that is what
the config says. What a file asks for before it is written, nobody can see
without writing to it. Of 15 tries and more a card says 15: the JSON object has
the name of such a PIN in tries_or_more.
"""
OPTIONS = ("pin_from", "last_try")
OTHER_KIND = "6981"  # the answer to a read of a file of another type


def tries_of(word):
    """As a number: 15 is 15 or more."""
    return 0 if word == "6983" else int(word[3], 16)


def mode_of(card):
    """Told by a challenge, for which no right is needed: in mode 1 it waits."""
    data, word = card.exchange([*GET_CHALLENGE, 0x00, 0x00, 0x08])
    if word == "9000" and len(data) == 8:
        return 0, "data come with the answer (9000)"
    if word == "6108":
        return 1, "data wait for GET RESPONSE (6108)"
    raise unexpected(word, "GET CHALLENGE", ": is it the card of a box?")


class Seen:
    """What is seen of one of the config's files, before a PIN is shown and, where one is, after it."""

    def __init__(self, at, kind, name):
        self.config, self.name = at.config, name
        self.file = kind(at.sender, getattr(at.config, name).fid, name)
        self.there, self.asks, self.problem, self.contents = False, None, None, None

    def look(self, pins=None):
        self.there = self.file.is_there()
        if not self.there:
            return
        contents, word = self.file.read() if pins is None else allowed(self.file.read, pins)
        if word == "6982":
            self.asks = word
        elif word in (NO_FILE, OTHER_KIND):
            self.problem = str(self.file.refusal(word, "a read"))
        else:
            self.contents = self.file.whole(contents, word)

    def facts(self):
        length = None if self.contents is None else len(self.contents)
        records = length if length is not None and length < LAST else None  # there may be more than can be read
        return {"fid": self.file.name, "name": self.name, "there": self.there, "asks": self.asks, "problem": self.problem,
                "size": length if self.name == "limits" else None, "records": None if self.name == "limits" else records}

    def words(self):
        if not self.there:
            return "not there (6A82)"
        asks = self.problem or ("asks for a PIN or a code before it is read (6982)" if self.asks else "anybody may read it")
        return f"there; {asks}" + (f"; {self.fullness()}" if self.contents is not None else "")

    def fullness(self):
        if self.name == "limits":
            return counted(len(self.contents), "byte")
        if self.name == "alarms":
            return f"{counted(len(self.contents), 'alarm')}, and the config has room for {self.config.alarms.records}"
        if unknown := room_unknown(self.config, self.contents):
            return f"{counted(len(self.contents), 'note')} read; {unknown}"
        room, taken = self.config.notes.room, taken_by(self.contents)
        return f"{counted(len(self.contents), 'note')} in {counted(taken, 'byte')}, and the config has {room}: {told(room - taken)}"


def run(call):
    answer = call.answer
    with session(call) as at:
        pins = at.pins([USER])
        words = {which: pins.tries(which) for which in (USER, ADMIN)}
        mode, because = mode_of(at.card)
        files = [Seen(at, kind, name) for kind, name in ((Records, "alarms"), (Bytes, "limits"), (Records, "notes"))]
        for file in files:
            file.look()
        for file in files if call.arguments.pin_from is not None else ():
            if file.asks:
                file.look(pins)
    tries = {"user": words[USER], "admin": words[ADMIN]}
    answer.tell(tries={name: tries_of(word) for name, word in tries.items()}, tries_or_more=[name for name in tries if tries[name] == "63CF"],
                mode=mode, files=[file.facts() for file in files])
    answer.say(f"card in {legible(at.card.reader)}:")
    for which, word in words.items():
        if word == "6983":
            answer.say(f"  {NAMES[which]}: blocked (6983){pins.way_out(which)}", RED)
        else:
            answer.say(f"  {NAMES[which]}: {tries_left(word)} ({word})", RED if word == "63C1" else None)
    answer.say(f"  mode {mode}: {because}")
    for file in files:
        answer.say(f"  {file.name}, file {file.file.name}: {file.words()}")
