"""The files of the card, with codes where there is a key for them."""
from codes import CODE_SIZE, code

from .commands import CHALLENGE_SIZE, CODED, CURRENT, GET_CHALLENGE, LARGEST_FILE, MASK, NO_FILE, READ_BINARY, READ_RECORD, ROOT, SELECT
from .rights import allowed
from .words import Failure, unexpected


def select_command(fid):
    return bytes([*SELECT, 0x00, 0x00, len(fid), *fid])


def selects(card, fid):
    """Whether SELECT finds a file or directory of that FID."""
    word = card.send(select_command(fid))[1]
    if word not in ("9000", NO_FILE):
        raise unexpected(word, "SELECT", ": is it the card of a box?")
    return word == "9000"


def select_root(card):
    """The card may be in a directory, with another firm's files of the same names."""
    if not selects(card, ROOT):
        raise Failure("the card has no root (6A82): is it the card of a box?", NO_FILE)


def select_file(card, fid, has):
    """A file of the root. has: what a box has in it."""
    if not selects(card, fid):
        raise Failure(f"there is no file {fid.hex().upper()} in the card's root (6A82), where a box has its {has}", NO_FILE)


CHALLENGE = bytes([*GET_CHALLENGE, 0x00, 0x00, CHALLENGE_SIZE])


def challenge_of(card):
    data, word = card.send(CHALLENGE)
    if word != "9000" or len(data) != CHALLENGE_SIZE:
        raise unexpected(word, "GET CHALLENGE", ": is it the card of a box?")
    return data


NOT_CODED = {
    "6983": "the transport key is blocked (6983), and nothing brings it back: no file that asks for codes can be read any more",
    "6988": "wrong code (6988), which has cost a try of the transport key, and nothing more was sent: the key is another card's, or the "
            "command was altered on its way. Be sure of the key before you go on: nothing brings a blocked one back",
    "6E00": "this card takes no codes (6E00): leave out --transport-key",
}


class Sender:
    """Sends the commands that read and write files. Whoever has a Failure of it must not send again: each wrong code costs a try."""

    def __init__(self, card, key):
        self.card, self.key = card, key

    def made(self, command, p1, p2, data=b"", le=()):
        """A command as it is sent, with a challenge and a code of its own where there is a key."""
        if self.key is None:
            return bytes([*command, p1, p2, *([len(data)] if data else []), *data, *le])
        challenge = challenge_of(self.card)
        covered = self.covered(command, p1, p2, data)
        return covered + code(self.key, challenge, covered) + bytes(le)

    def covered(self, command, p1, p2, data=b""):
        """What stands before the code."""
        return bytes([CODED, command[1], p1, p2, len(data) + CODE_SIZE, *data])

    def shown(self, what, command, p1, p2, data=b"", le=()):
        """The commands for it as a person may see them, with what each is for; nothing is sent. ** is in the place of a code, and ... in
        that of data that are not known yet (None)."""
        if data is None:
            return self.with_challenge(f"{bytes([*(command if self.key is None else (CODED, command[1])), p1, p2]).hex().upper()}...", what)
        if self.key is None:
            return self.with_challenge(self.made(command, p1, p2, data, le).hex().upper(), what)
        return self.with_challenge(f"{self.covered(command, p1, p2, data).hex().upper()}{MASK}{bytes(le).hex().upper()}", what)

    def with_challenge(self, command, what):
        challenge = [] if self.key is None else [(CHALLENGE.hex().upper(), "a challenge for the code of the next one")]
        return [*challenge, (command, what)]

    def not_coded(self, word):
        """Why a code was not taken; None where it was, or there was none."""
        return Failure(NOT_CODED[word], word) if self.key is not None and word in NOT_CODED else None

    def read(self, command, p1, p2):
        """All that there is; of a card that wants to be told how much (6Cxx), so much."""
        answer, word = self.card.send(self.made(command, p1, p2, le=[0x00]))
        if word.startswith("6C"):
            answer, word = self.card.send(self.made(command, p1, p2, le=[int(word[2:], 16)]))
        if failure := self.not_coded(word):
            raise failure
        return answer, word

    def record(self, number, place=CURRENT):
        return self.read(READ_RECORD, number, place)


class File:
    """A file of the root. has: what a box has in it."""

    def __init__(self, sender, fid, has):
        self.sender, self.fid, self.has, self.name = sender, fid, has, fid.hex().upper()

    def is_there(self):
        """Then it is the current file."""
        select_root(self.sender.card)
        return selects(self.sender.card, self.fid)

    def select(self):
        select_root(self.sender.card)
        select_file(self.sender.card, self.fid, self.has)

    def opened(self, pins):
        """Its contents, once the PINs are shown that it asks for."""
        self.select()
        contents, word = allowed(self.read, pins)
        if word == "6982":
            raise Failure(pins.no_right(), word)
        return self.whole(contents, word)

    def free_contents(self):
        """Its contents; None where it asks for a PIN or a code."""
        self.select()
        contents, word = self.read()
        return None if word == "6982" else self.whole(contents, word)

    def contents(self):
        return self.whole(*self.read())

    def whole(self, contents, word):
        if word != "9000":
            raise self.refusal(word, "READ BINARY" if self.FIRST_READ[0] == READ_BINARY else "READ RECORD")
        return contents

    def steps_to_select(self):
        return [(select_command(ROOT).hex().upper(), "the root"), (select_command(self.fid).hex().upper(), f"file {self.name}")]

    def steps_to_open(self, sender):
        return [*self.steps_to_select(), *self.steps_to_read(sender)]

    def steps_to_read(self, sender, how="", why=""):
        return sender.shown(f"read the {self.has}{how}{self.AND_ON}{why}", *self.FIRST_READ, le=[0x00])

    def refusal(self, word, command):
        """Why it is not read or written, in words."""
        known = {
            NO_FILE: f"{self.name} is a directory on this card, and no file (6A82)",
            "6981": f"file {self.name} is of another kind (6981), so it has not the {self.has}",
            "6700": f"file {self.name} does not take so many bytes there (6700)",
            "6A83": f"file {self.name} has no such record (6A83)",
            "6A84": f"file {self.name} has no such place, or no room for it (6A84)",
        }
        return self.sender.not_coded(word) or (Failure(known[word], word) if word in known else unexpected(word, command))


class Bytes(File):
    FIRST_READ, AND_ON = (READ_BINARY, 0x00, 0x00), ""

    def read(self):
        """All its bytes, and 9000; or what a read was answered otherwise."""
        contents = b""
        while len(contents) <= LARGEST_FILE:
            data, word = self.sender.read(READ_BINARY, *divmod(len(contents), 256))
            if word == "6A84" and contents:
                return contents, "9000"
            contents += data
            if word != "9000" or len(data) < 256:
                return contents, word
        raise Failure(f"file {self.name} has no end, and a file has at most {LARGEST_FILE} bytes: is it the card of a box?")


class Records(File):
    FIRST_READ, AND_ON = (READ_RECORD, 1, CURRENT), ", one by one"

    def read(self):
        """All its records up to number 255, which is the last that a command reaches, and 9000; or what a read was answered otherwise."""
        records = []
        for number in range(1, 256):
            data, word = self.sender.record(number)
            if word == "6A83":
                break
            if word != "9000":
                return records, word
            records.append(data)
        return records, "9000"
