#!/usr/bin/env python3
"""Commands with codes through scriptor and through opensc-tool. What is expected was worked out from request R-9 of document 02, and the
codes are openssl's.

Besides, a cable clip between the two: a good command with each of its bits turned, sent twice, cut short, lengthened, with another
challenge and to another card. Each is refused, and the file is as it was.
"""
import contextlib
import tempfile

from stack import (ISSUE_WORDS, KEY, TRANSPORT_KEY, OpenscTool, Scriptor, card, check, code_of, cryptogram, end, with_mode)

RIGHT_PIN = "0020000106313233343536"
CHALLENGES = ("0084000010", "0084000008", "0084000004")
SETTINGS = "80E0A102052800080404"  # A102: eight bytes, a code and no right
AS_IT_WAS = "01020304050607089000"  # what a read of the settings gives that `settings` wrote
OTHER_SETTINGS = "04D682000CFFFFFFFFFFFFFFFF"
LOGIN = ["0084000010", "008200001069C4E0D86A7B0430D8CDB78070B4C55A"]  # FIPS 197's appendix C.1, with RANDOM
RANDOM = "00112233445566778899AABBCCDDEEFF"


class Bus:
    """A client with a card of that mode. What waits is fetched, which opensc-tool does by itself."""

    def __init__(self, client, mode=0):
        self.client, self.mode = client, mode
        self.asked = 0

    def send(self, command):
        data, word = self.client.send(command)
        if word.startswith("61"):
            data, word = self.client.send("00C0000000")
        return data + word

    def challenge(self):
        """One of the three lengths, each in its turn."""
        self.asked += 1
        got = self.send(CHALLENGES[self.asked % 3])
        check(f"{self.client.name}, mode {self.mode}: a challenge", got.endswith("9000") and len(got) in (12, 20, 36), got)
        return got[:-4]

    def coded(self, message, le="", key=TRANSPORT_KEY):
        return message + code_of(self.challenge(), message, key) + le

    def ask(self, message, due, why, le=""):
        got = self.send(self.coded(message, le))
        check(f"{self.client.name}, mode {self.mode}: {why}", got == due, got)

    def plain(self, command, due, why):
        got = self.send(command)
        check(f"{self.client.name}, mode {self.mode}: {why}", got == due, got)


def record(bus):
    """Records with codes: a cyclic file that the device writes and the user PIN reads, both with a code."""
    bus.plain("80E0A101052E02044405", "9000", "a file for alarms")
    bus.plain("00E2000804AABBCCDD", "6982", "an append without a code, and the device is logged in")
    for number in range(1, 4):
        bus.ask(f"04E20008080000000{number}", "9000", f"append {number}, with Lc 08 for four bytes")
    bus.ask("04E2000807000000", "6700", "an append of three bytes: the file counts Lc without the code")
    bus.ask("04E2000809" + "00" * 5, "6700", "an append of five bytes")
    bus.plain(RIGHT_PIN, "9000", "the user PIN")
    bus.plain("00B2010C00", "6982", "a read without a code")
    bus.ask("04B2010C04", "000000039000", "the newest", "00")
    bus.ask("04B2020C04", "000000029000", "the one before it, by its length", "04")
    # opensc-tool sends it again by itself, with the length of 6C04, and by then the challenge is gone.
    bus.ask("04B2020C04", "6984" if bus.client.name == "opensc-tool" else "6C04", "another length", "03")
    bus.ask("04B2030C04", "6A83", "no third one", "00")
    bus.ask("04DC010C0800000004", "9000", "the newest is written anew")
    bus.ask("04B2010C04", "000000049000", "and reads so", "00")


def session(bus, reads):
    """reads: coded reads reach the card."""
    challenge = bus.send("0084000010")[:-4]
    bus.plain("0082000010" + cryptogram(challenge), "9000", "the device logs in")
    bus.plain(SETTINGS, "9000", "the settings")
    bus.plain("00D68200010A", "6982", "an update without a code")
    bus.ask("04D68206050A", "9000", "an update with its code")
    bus.ask("04D682000C" + "0102030405060708", "9000", "of eight bytes")
    bus.ask("04D682000D" + "00" * 9, "6700", "of nine: the file has eight")
    bus.ask("04D682080500", "6A84", "behind the end")
    bus.ask("04D683000500", "6A82", "no such file")
    bus.plain("04D682000401020304", "6700", "Lc 04 is a code alone")
    bus.plain("04D682000500" + "00000000", "6984", "no challenge")
    bus.plain("04A40000023F00", "6D00", "SELECT takes no code")
    bus.plain("0420000106313233343536", "6D00", "VERIFY takes no code")
    if not reads:
        for _ in range(12):  # more than there are tries
            bus.ask("04B0820004", "6700", "a read arrives without its Le, and costs no try", "08")
        bus.ask("04D682000500", "9000", "so the key is not blocked")
        return
    bus.ask("04B0820004", "01020304050607089000", "the eight bytes", "08")
    bus.ask("04B0820004", "01020304050607089000", "to the end", "00")
    bus.ask("04B0820604", "079000", "one of them", "01")
    bus.ask("04B0820004", "6700", "nine", "09")
    record(bus)


def turned(command):
    """Each bit of a command, and the command with that bit turned."""
    for bit in range(4 * len(command)):
        other = bytearray.fromhex(command)
        other[bit // 8] ^= 0x80 >> bit % 8
        yield bit, other.hex().upper()


def clip(bus):
    """Between main board and card. The file has eight bytes 01 to 08; each read that shows it is a right code too, and gives tries back."""

    def as_it_was(why):
        got = bus.send(bus.coded("04B0820004", "08"))
        check(f"the clip, {why}: the file is as it was", got == AS_IT_WAS, got)

    before = {"6988", "6982", "6E00", "6D00", "6A86", "6700"}
    words = set()
    for bit in range(80):
        command = bus.coded("04D68206050A")
        got = bus.send(dict(turned(command))[bit])
        words.add(got)
        check(f"the clip turns bit {bit} of an update", got in before, got)
        as_it_was(f"bit {bit}")
    check("the clip sees each of these answers", words == before, words)
    read = bus.coded("04B0820004", "02")
    for bit in range(72):  # all but Le
        got = bus.send(dict(turned(bus.coded("04B0820004", "02")))[bit])
        check(f"the clip turns bit {bit} of a read", got in before, got)
        as_it_was(f"bit {bit} of a read")
    got = bus.send(read)
    check("the clip sends a read of another challenge", got == "6984", got)
    got = bus.send(bus.coded("04B0820004", "02")[:-2] + "03")
    check("the clip alters Le, which is not covered", got == "0102039000", got)

    command = bus.coded("04D682000C0102030405060708")
    check("a good command", bus.send(command) == "9000")
    check("the clip sends it twice", bus.send(command) == "6984")
    bus.challenge()
    check("and with another challenge", bus.send(command) == "6988")
    as_it_was("a second time")
    for name, message in (("cut short", "04D682000B01020304050607"), ("lengthened", "04D682000D0102030405060708AA")):
        command = bus.coded("04D682000C0102030405060708")
        got = bus.send(message + command[-8:])
        check(f"the clip has it {name}, with an Lc that fits", got == "6988", got)
        as_it_was(name)
        command = bus.coded("04D682000C0102030405060708")
        got = bus.send(command[:-2] if name == "cut short" else command + "AA")
        check(f"the clip has it {name}, with the Lc that it had", got == "6700", got)
        as_it_was(name)
    command = bus.coded(OTHER_SETTINGS)
    check("the clip makes a plain one of it", bus.send("00D6820008FFFFFFFFFFFFFFFF") == "6982")
    check("and sends the good one too late", bus.send(command) == "6984")
    as_it_was("a plain one")
    command = bus.coded(OTHER_SETTINGS, key=KEY)
    check("the clip has another key", bus.send(command) == "6988")
    as_it_was("another key")


def another(bus, key, kept):
    """The clip sends to a card with this transport key what is good for a card with TRANSPORT_KEY. kept: a command that was coded for
    that card's challenge."""

    def as_it_was(why):
        bus.plain(bus.coded("04B0820004", "08", key), AS_IT_WAS, f"another card, {why}: the file is as it was")

    bus.challenge()
    bus.plain(kept, "6988", "the first card's command, behind a challenge of another card")
    as_it_was("the first card's command")
    if key != TRANSPORT_KEY:
        bus.plain(bus.coded(OTHER_SETTINGS), "6988", "another card's challenge, under the first card's key")
        as_it_was("its challenge under the first card's key")
        bus.plain(bus.coded(OTHER_SETTINGS, key=key), "9000", "another card's challenge, under its own key")
        bus.plain(bus.coded("04D682000C0102030405060708", key=key), "9000", "and back again")


@contextlib.contextmanager
def settings(key=TRANSPORT_KEY, tries="10"):
    """A card with the settings, 01 to 08, and with this transport key."""
    message = "04D682000C0102030405060708"
    lines = [*LOGIN, SETTINGS, LOGIN[0], message + code_of(RANDOM, message, key)]
    with tempfile.NamedTemporaryFile("w", prefix="limpet-script-") as script:
        script.write("".join(f"CMD\t{line}\t{RANDOM}\n" for line in lines))
        script.flush()
        with card("--prepare", script.name, *ISSUE_WORDS[:6], key, tries) as reader:
            yield reader


def limit():
    """Two wrong codes in a row block a transport key whose limit is 2, for good."""
    with settings(tries="2"):
        client = Scriptor()
        bus = Bus(client)
        wrong = "04B082000400000000" + "08"
        bus.challenge()
        bus.plain(wrong, "6988", "a wrong code")
        bus.ask("04B0820004", "01020304050607089000", "a right one gives the try back", "08")
        for _ in range(2):
            bus.challenge()
            bus.plain(wrong, "6988", "a wrong code, the last one too")
        bus.ask("04B0820004", "6983", "the right one: blocked", "08")
        client.reset()
        bus.ask("04B0820004", "6983", "blocked after a reset", "08")
        bus.plain("00B0820008", "6982", "and nobody reads it without a code")
        client.end()


def main():
    for mode in (0, 1):
        with card(*with_mode(mode)):
            client = Scriptor()
            session(Bus(client, mode), True)
            client.end()
        with card(*with_mode(mode)):
            connected = Scriptor()  # where nobody is connected between two calls, pcscd cuts the card's power
            session(Bus(OpenscTool(), mode), mode == 0)
            connected.end()
    with settings():
        client = Scriptor()
        clip(Bus(client))
        kept = Bus(client).coded(OTHER_SETTINGS)
        client.end()
    for key in (KEY, TRANSPORT_KEY):
        with settings(key):
            client = Scriptor()
            another(Bus(client), key, kept)
            another(Bus(OpenscTool()), key, kept)
            client.end()
    limit()
    end()


main()
