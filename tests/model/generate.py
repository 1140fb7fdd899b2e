"""Long random scripts that reach deep into the card.

The generator runs every line that it writes on its own copy of the model. So it knows the right PINs, the challenge
that stands, the files, their lengths and what they hold, and can aim at both sides of an edge. It plays the main board's
side too: it knows the transport key and works out the codes. The script depends on the seed and the number of lines only.
"""

import argparse
import sys
from collections import Counter, defaultdict
from random import Random

import card as cards
import script

INS = {name: (cla, ins) for cla, ins, name, _ in cards.LIST}
NAMES = {(cla, ins): name for cla, ins, name, _ in cards.LIST}
# The five commands that may have a code.
FILE_COMMANDS = ("READ BINARY", "UPDATE BINARY", "READ RECORD", "UPDATE RECORD", "APPEND RECORD")
WITH_A_CODE = " with a code"
DIGITS = b"0123456789"
ROOT = cards.ROOT

# A directory's creation rights, and the rights of files: those, and with bit 3.
GOOD_CREATION = ((0x00, 44), (0x01, 9), (0x40, 9), (0x80, 9), (0x41, 4), (0x81, 4), (0xC0, 4), (0xC1, 4), (0x0F, 7),
                 (0xC2, 8), (0x43, 5), (0x83, 5), (0xC3, 5), (0x03, 3), (0x42, 3), (0x82, 3))
GOOD_RIGHTS = GOOD_CREATION + (
    (0x04, 14), (0x05, 3), (0x44, 4), (0x84, 3), (0x45, 2), (0x85, 2), (0xC4, 3), (0xC5, 2),
    (0xC6, 3), (0x47, 2), (0x87, 2), (0xC7, 2), (0x07, 2), (0x46, 2), (0x86, 2))
BAD_RIGHTS = (0x02, 0x02, 0x06, 0x06, 0x08, 0x10, 0x20, 0x0A, 0x0C, 0x0E, 0x0D, 0x12, 0x14, 0x1F, 0x4F, 0x8F, 0xCF, 0xFE, 0xFF)
BAD_CREATION = BAD_RIGHTS + (0x04, 0x04, 0x05, 0x07, 0x44, 0x84, 0xC4, 0xC6, 0xC7)
BAD_TYPES = (0x00, 0x08, 0x18, 0x27, 0x29, 0x2B, 0x2D, 0x2F, 0x30, 0x38, 0x39, 0x3A, 0x6A, 0x78, 0xAC, 0xAE, 0xFF)
NOT_DIGITS = (0x00, 0x2F, 0x3A, 0x20, 0x41, 0xB0, 0xB9, 0xFF, 0x0D)


class Dice:
    """All chance comes from here. Only Random.random is used: its sequence for a seed is promised not to change."""

    def __init__(self, seed):
        self.roll = Random(seed).random

    def below(self, bound):
        return int(self.roll() * bound)

    def between(self, low, high):
        """Both ends included."""
        return low + int(self.roll() * (high - low + 1))

    def chance(self, probability):
        return self.roll() < probability

    def pick(self, choices):
        return choices[int(self.roll() * len(choices))]

    def weighted(self, pairs):
        """One of the first parts of the pairs, by the weights that are their second parts."""
        point = self.roll() * sum(weight for _, weight in pairs)
        for choice, weight in pairs:
            point -= weight
            if point < 0:
                return choice
        return pairs[-1][0]

    def bytes(self, length):
        roll = self.roll
        return bytes([int(roll() * 256) for _ in range(length)])

    def digits(self, length):
        return bytes([self.pick(DIGITS) for _ in range(length)])


def case_1(name, p1, p2):
    return bytes((*INS[name], p1, p2))


def case_2(name, p1, p2, le):
    return bytes((*INS[name], p1, p2, le & 0xFF))


def case_3(name, p1, p2, data):
    """Where the data does not fit a frame, one that is cut short or empty comes out: broken, and meant so."""
    return bytes((*INS[name], p1, p2, len(data) & 0xFF)) + data


def case_4(name, p1, p2, data, le):
    return case_3(name, p1, p2, data) + bytes((le & 0xFF,))


def select_fid(fid):
    return case_3("SELECT", 0, 0, bytes((fid >> 8, fid & 0xFF)))


def hex_of(data):
    return data.hex().upper().encode("ascii")


def as_in_mode_0(card, sent, data, sw):
    """Data and SW of a command that was just answered: 61xx counts as 9000, and what waits is what the command shows."""
    if sw >> 8 == 0x61 and tuple(sent[:2]) != INS["GET RESPONSE"]:
        return card.waiting, 0x9000
    return data, sw


def right_asked(card, sent):
    """The rights byte that one of the five commands meets, coded or not; None where it names no file."""
    name = NAMES.get(tuple(sent[:2]), "").removesuffix(WITH_A_CODE)
    if name not in FILE_COMMANDS or card is None or len(sent) < 4:
        return None
    file = cards.named_file(card, named_sfi(name, sent[2], sent[3]))
    if file is None:
        return None
    return file.read if name.startswith("READ") else file.write


def named_sfi(name, p1, p2):
    """The SFI in P, 0 where the current file is meant."""
    return (p1 & 0x1F if p1 & 0x80 else 0) if "BINARY" in name else p2 >> 3


def has_code_form(name, frame):
    """Whether a frame of class 04 has the case and Lc that its command asks for."""
    if name.startswith("READ"):
        return frame.case == 4 and len(frame.data) == cards.CODE_SIZE
    return frame.case == 3 and len(frame.data) > cards.CODE_SIZE


class Full(Exception):
    """As many lines as asked for are written."""


class Generator:
    def __init__(self, seed, most_lines, watch=None):
        self.dice = Dice(seed)
        self.most_lines = most_lines
        self.watch = watch
        self.program = script.Program()
        self.lines = []
        # How often a wrong presentation is left out when few tries are left; each card has its own.
        self.care = 0.9
        # How often what waits is fetched at once; each card has its own.
        self.patience = 0.8
        # How often a code is sent where none is asked; each card has its own.
        self.coding = 0.1
        # Commands with codes that were right once.
        self.old_coded = []
        # PINs and cryptograms that were right once: presenting them again must fail.
        self.old_pins = []
        self.old_cryptograms = []
        self.last_newline = self.dice.chance(0.7)

    @property
    def card(self):
        return self.program.card

    # ------------------------------------------------------------------------------------------------------- lines

    def put(self, line):
        """Writes one line and runs it."""
        if len(self.lines) >= self.most_lines:
            raise Full
        self.lines.append(line)
        answer = self.program.answer(line)
        if self.watch is not None:
            self.watch(self.program, line, answer)
        return answer

    def send(self, sent, spoil=0.05):
        """Writes a command; one of the five at times with a code."""
        return self.send_coded(sent, spoil) if self.is_to_be_coded(sent) else self.send_plain(sent, spoil)

    def send_plain(self, sent, spoil):
        """As it is, sometimes spoiled, mostly with a good random input."""
        dice = self.dice
        if dice.chance(spoil):
            sent = self.spoiled(sent)
        if dice.chance(0.985):
            random = dice.bytes(16)
        else:
            random = dice.bytes(dice.pick((0, 1, 4, 8, 15, 17, 32, 255, 300)))
        sent = sent[:300]
        if len(sent) + len(random) > 500:
            random = random[:16]
        answer = self.put(b"CMD\t" + hex_of(sent) + b"\t" + hex_of(random))
        if self.waits() and dice.chance(self.patience):
            self.fetch()
        return answer

    def surely(self, sent):
        """A command that serves a plan and is not spoiled. What waits is fetched without a mistake that would drop a challenge."""
        if sent[0] == 0x00 and cards.asks_code(right_asked(self.card, sent) or 0) and self.card.transport.tries and len(sent) <= 256:
            self.surely(case_2("GET CHALLENGE", 0, 0, self.dice.pick((4, 8, 16))))
            sent = self.coded(sent)
        answer = self.put(b"CMD\t" + hex_of(sent) + b"\t" + hex_of(self.dice.bytes(16)))
        if self.waits() and self.dice.chance(self.patience):
            self.fetch(mistakes=False)
        return answer

    def spoiled(self, sent):
        """One thing wrong with a command that was meant well."""
        dice = self.dice
        changed = bytearray(sent)
        kind = dice.below(14)
        if kind == 0:
            changed = changed[:-1]
        elif kind == 1:
            changed = changed[:dice.below(len(changed) + 1)]
        elif kind in (2, 3):
            # A good case 4 frame where case 3 was meant, a broken one elsewhere.
            changed.append(dice.pick((0, 1, 4, 16, 255, dice.below(256))))
        elif kind == 4:
            changed += dice.bytes(dice.between(2, 5))
        elif kind == 5 and len(changed) > 4:
            changed[4] = (changed[4] + dice.pick((1, 255))) & 0xFF
        elif kind == 6 and len(changed) > 4:
            # The extended form of the same length.
            changed[4:5] = bytes((0, 0, changed[4]))
        elif kind == 7:
            changed[0] = dice.pick((0x01, 0x04, 0x0C, 0x7F, 0x81, 0x84, 0x90, 0xFF, changed[0] ^ 0x80))
        elif kind == 8:
            changed[1] ^= 1 << dice.below(8)
        elif kind == 9:
            changed[2] = dice.pick((changed[2] ^ (1 << dice.below(8)), 0xFF, 0x80, 0x9F, 0xA0))
        elif kind == 10:
            changed[3] = dice.pick((changed[3] ^ (1 << dice.below(8)), 0xFF, changed[3] | 0xF8))
        elif kind == 11:
            changed = changed[:4]
        elif kind == 12:
            changed = changed[:4] + bytes((dice.pick((0, 1, 4, 6, 16, 255)),))
        else:
            # A frame of case 3 or 4 with other data, whatever was meant.
            data = dice.bytes(dice.pick((1, 2, 5, 6, 16, 255)))
            changed = changed[:4] + bytes((len(data),)) + data
            if dice.chance(0.5):
                changed.append(dice.below(256))
        return bytes(changed)

    # -------------------------------------------------------------------------------------------------------- codes

    def is_to_be_coded(self, sent):
        """Whether one of the five commands is to be sent with a code: mostly where its file asks for one."""
        frame = cards.frame_of(sent)
        if self.card is None or frame is None or NAMES.get(tuple(sent[:2])) not in FILE_COMMANDS:
            return False
        if frame.case not in (2, 3) or len(frame.data) > 255 - cards.CODE_SIZE:
            return False
        if cards.asks_code(right_asked(self.card, sent) or 0):
            return self.dice.chance(0.85)
        return self.dice.chance(self.coding)

    @staticmethod
    def message_of(sent):
        """What the code of a plain command covers: its header in class 04, Lc with the code's bytes counted, its data."""
        data = cards.frame_of(sent).data
        return bytes((cards.CODED,)) + sent[1:4] + bytes((len(data) + cards.CODE_SIZE,)) + data

    def with_code(self, sent, code):
        """A plain command of case 2 or 3 with a code."""
        end = sent[4:] if cards.frame_of(sent).case == 2 else b""
        return self.message_of(sent) + code + end

    def right_code(self, sent, challenge=None):
        challenge = self.card.challenge if challenge is None else challenge
        return cards.code_of(self.card.transport.value, challenge, self.message_of(sent))

    def coded(self, sent):
        """A plain command with the right code for the challenge that stands."""
        return self.with_code(sent, self.right_code(sent))

    def wrong_code(self, sent, challenge):
        """A code that a board with one thing wrong would send; now and then it is right all the same."""
        dice, key, message = self.dice, self.card.transport.value, self.message_of(sent)
        filled = challenge.ljust(16, b"\x00")
        whole = cards.padded(message)
        kind = dice.below(19)
        if kind < 5:
            changed = bytearray(self.right_code(sent, challenge))
            changed[kind if kind < 4 else 3] ^= 1 << dice.below(8)
            return bytes(changed)
        if kind == 5:
            return cards.code_of(key, b"", message)
        if kind == 6:
            return cards.code_of(key, challenge, message[:4] + bytes((message[4] - cards.CODE_SIZE,)) + message[5:])
        if kind == 7:
            return cards.code_of(key, challenge, dice.pick((b"\x00" + message[1:], message[1:])))
        if kind == 8:
            # Left as it is where it fills its blocks, and filled with 00 else.
            return self.chained(key, filled, message + bytes(-len(message) % 16))
        if kind == 9:
            return self.chained(key, challenge.rjust(16, b"\x00"), whole)
        if kind == 10:
            return cards.code_of(key, challenge, message + (sent[4:] if cards.frame_of(sent).case == 2 else b"\x00"))
        if kind == 11:
            return cards.code_of(dice.pick((self.card.device.value, bytes(16), dice.bytes(16))), challenge, message)
        if kind == 12:
            return cards.mac(key, filled, message)[dice.pick((4, 8, 12)):][:4]
        if kind == 13:
            return self.chained(key, challenge.ljust(16, b"\x80"), whole)
        if kind == 14:
            return cards.code_of(key, challenge, message[:4] + message[5:])
        if kind == 15:
            # The data left out, or the first block only, or the last.
            return dice.pick((cards.code_of(key, challenge, message[:5]), self.chained(key, filled, whole[:16]),
                              self.chained(key, filled, whole[-16:])))
        if kind == 16:
            return cards.code_of(key, dice.bytes(len(challenge)), message)
        if kind == 17:
            return bytes(4)
        return dice.bytes(4)

    @staticmethod
    def chained(key, start, blocks):
        for place in range(0, len(blocks), 16):
            start = cards.encrypt(key, bytes(left ^ right for left, right in zip(start, blocks[place:place + 16])))
        return start[:cards.CODE_SIZE]

    def in_another_form(self, sent):
        """A coded command with another case or Lc than it is to have, its code right for what it then says."""
        dice, challenge, key = self.dice, self.card.challenge, self.card.transport.value
        header = bytes((cards.CODED,)) + sent[1:4]
        is_read = cards.frame_of(sent).case == 2
        kind = dice.below(5)
        if kind == 0:
            return header
        if kind == 1:
            return header + bytes((dice.pick((0, 1, 4, 5, 255)),))
        if kind == 2:
            # A read of case 3, a write of case 4.
            made = self.coded(sent)
            return made[:-1] if is_read else made + bytes((dice.pick((0, 1, 4, 255)),))
        if kind == 3:
            # No byte before the code, or three bytes in all; of a read that is a byte too few.
            length = dice.pick((3, 3, 4)) if not is_read else 3
            message = header + bytes((length,))
            return message + cards.code_of(key, challenge, message)[:length] + (sent[4:] if is_read else b"")
        message = header + b"\x05" + dice.bytes(1)
        return message + cards.code_of(key, challenge, message) + (sent[4:] if is_read else b"\x00")

    def ask_for_code(self):
        self.surely(case_2("GET CHALLENGE", 0, 0, self.dice.pick((4, 8, 16))))

    def send_coded(self, sent, spoil):
        """A plain command sent with a code: its own challenge before, mostly a right code, and now and then the same once more."""
        dice, card = self.dice, self.card
        kind = dice.weighted((("right", 68), ("wrong", 16), ("none", 3), ("late", 5), ("form", 5), ("unserved", 2), ("old", 2)))
        if kind in ("wrong", "old", "late") and self.is_careful(card.transport):
            kind = "right"
        if kind != "none":
            self.ask_for_code()
        challenge = card.challenge or dice.bytes(dice.pick((4, 8, 16)))
        if kind == "late":
            self.interrupt()
            if self.card is not card:
                return self.put(b"RESET")  # a line put in between issued another card
        if kind == "form" and card.challenge:
            return self.send_plain(self.in_another_form(sent), 0)
        if kind == "old" and self.old_coded:
            return self.send_plain(dice.pick(self.old_coded), 0)
        if kind == "wrong":
            return self.send_plain(self.with_code(sent, self.wrong_code(sent, challenge)), 0.02)
        made = self.with_code(sent, self.right_code(sent, challenge))
        if kind == "unserved":
            self.put(b"CMD\t%s\t%s" % (hex_of(made), hex_of(dice.bytes(dice.pick((0, 15, 17))))))
        answer = self.send_plain(made, spoil)
        self.old_coded = self.old_coded[-3:] + [made]
        if dice.chance(0.06):
            # The challenge is used up.
            self.send_plain(made, 0)
        return answer

    # ------------------------------------------------------------------------------------------------- what waits

    def waits(self):
        return len(self.card.waiting) if self.card is not None else 0

    def response_le(self):
        """Le of a GET RESPONSE: all by 00 or by their number, one more, one less, a part, or any."""
        dice, waits = self.dice, self.waits()
        return dice.weighted((
            (0, 42), (waits & 0xFF, 20), ((waits + 1) & 0xFF, 5), (max(1, waits - 1), 6), (1, 4), (255, 2),
            (dice.between(1, max(1, min(waits, 255))), 17), (dice.below(256), 4)))

    def get_response(self, mistakes=True):
        """One GET RESPONSE, mostly a good one; with mistakes also frames that are broken or of another class."""
        dice = self.dice
        kind = dice.weighted((("good", 84), ("p", 4), ("case", 4), ("unserved", 2), ("spoiled", 4 if mistakes else 0)))
        sent, random = case_2("GET RESPONSE", 0, 0, self.response_le()), dice.bytes(16)
        if kind == "p":
            sent = case_2("GET RESPONSE", *dice.pick(((0, 1), (1, 0), (0, 0x80), (0xFF, 0xFF))), self.response_le())
        elif kind == "case":
            sent = dice.pick((case_1("GET RESPONSE", 0, 0), case_3("GET RESPONSE", 0, 0, dice.bytes(dice.between(1, 4))),
                              case_3("GET RESPONSE", 0, 0, b"\x01") + b"\x00", case_1("GET RESPONSE", 0, 1)))
        elif kind == "unserved":
            random = dice.bytes(dice.pick((0, 15, 17)))
        elif kind == "spoiled":
            sent = self.spoiled(sent)
        return self.put(b"CMD\t" + hex_of(sent) + b"\t" + hex_of(random))

    def fetch(self, mistakes=True):
        """Mostly one or two GET RESPONSE, now and then many, until nothing waits or some still does; at times one more."""
        dice = self.dice
        for _ in range(dice.weighted(((1, 50), (2, 30), (4, 15), (16, 2)))):
            if self.waits() == 0:
                break
            self.get_response(mistakes)
            if mistakes and self.waits() and dice.chance(0.3):
                self.disturb()
        if self.waits() and dice.chance(0.6):
            self.put(b"CMD\t00C0000000\t" + hex_of(dice.bytes(16)))
        if dice.chance(0.05):
            self.get_response(mistakes)

    def line_between(self, kind):
        """A line that is no command, by its number: 0 to 2."""
        return b"RESET" if kind == 0 else self.bad_line() if kind == 1 else self.refused_issue()

    def disturb(self):
        """Something while data wait, and then GET RESPONSE: calls that are not served keep them, all others discard them."""
        dice = self.dice
        kind = dice.below(9)
        if kind < 3:
            self.put(self.line_between(kind))
        elif kind == 3:
            self.put(b"CMD\t00200001\t" + hex_of(dice.bytes(dice.pick((0, 15, 17)))))
        else:
            sent = dice.pick((
                b"\x00\xC0\x00", b"\x00\xC0\x00\x00\x00\x01", b"\x80\xC0\x00\x00\x00", b"\x01\xC0\x00\x00\x00",
                b"\x04\xC0\x00\x00\x00", b"\x04\xC0\x00\x00\x04\x00\x00\x00\x00\x00", b"\x04\xB0\x00\x00",
                b"\x00\xC1\x00\x00\x00", b"\x00\xC4\x00\x00", case_1("VERIFY", 0, dice.below(2)), dice.bytes(dice.below(4)),
                select_fid(0x3F00), select_fid(0x3F01), case_2("GET CHALLENGE", 0, 0, 5)))
            self.put(b"CMD\t" + hex_of(sent) + b"\t" + hex_of(dice.bytes(16)))
        self.put(b"CMD\t00C0000000\t" + hex_of(dice.bytes(16)))

    def fetch_nothing(self):
        """GET RESPONSE where nothing waits, or in mode 0, and what comes of a challenge that stands."""
        dice = self.dice
        if dice.chance(0.5):
            self.surely(case_2("GET CHALLENGE", 0, 0, dice.pick((4, 8, 16))))
        challenge = self.card.challenge
        for _ in range(dice.between(1, 3)):
            self.get_response()
        if challenge and self.card.device.tries > 2:
            self.surely(case_3("EXTERNAL AUTHENTICATE", 0, 0, self.cryptogram(challenge)))

    # -------------------------------------------------------------------------------------------------- credentials

    def pin_of(self, p2):
        return self.card.admin if p2 == 0 else self.card.user

    def new_pin(self):
        return self.dice.digits(self.dice.pick((6, 6, 7, 8, 8, 12, 15, 16, 16)))

    def wrong_pin(self, right):
        """A PIN of digits that is near the right one, or was right once, but is not right."""
        dice = self.dice
        for _ in range(20):
            kind = dice.below(8)
            shown = bytearray(right)
            if kind < 3:
                place = (0, len(shown) - 1, dice.below(len(shown)))[kind]
                shown[place] = 0x30 + (shown[place] - 0x30 + dice.between(1, 9)) % 10
            elif kind == 3:
                shown = shown[:-1]
            elif kind == 4:
                shown += dice.digits(1)
            elif kind == 5 and self.old_pins:
                shown = dice.pick(self.old_pins)
            elif kind == 6:
                shown = dice.pick((self.card.admin.value, self.card.user.value))
            else:
                shown = dice.digits(dice.between(6, 16))
            if 6 <= len(shown) <= 16 and shown != right:
                return bytes(shown)
        return bytes(0x39 - byte + 0x30 for byte in right)

    def not_digits(self, pin):
        """The PIN with one byte that is no digit."""
        changed = bytearray(pin)
        changed[self.dice.below(len(changed))] = self.dice.pick(NOT_DIGITS)
        return bytes(changed)

    def is_careful(self, credential):
        return credential.tries <= 2 and self.dice.chance(self.care)

    def show_pin(self):
        dice = self.dice
        p2 = dice.weighted(((0, 4), (1, 6)))
        pin = self.pin_of(p2)
        kind = dice.weighted((("right", 42), ("wrong", 24), ("query", 20), ("digits", 7), ("length", 5), ("p", 2)))
        if kind == "wrong" and self.is_careful(pin):
            kind = "right"
        if kind == "right":
            self.send(case_3("VERIFY", 0, p2, pin.value))
        elif kind == "wrong":
            self.send(case_3("VERIFY", 0, p2, self.wrong_pin(pin.value)))
            if dice.chance(0.3):
                self.send(case_1("VERIFY", 0, p2))
        elif kind == "query":
            self.send(case_1("VERIFY", 0, p2))
        elif kind == "digits":
            self.send(case_3("VERIFY", 0, p2, self.not_digits(pin.value)))
        elif kind == "length":
            length = dice.pick((1, 5, 5, 17, 17, 32, 255))
            self.send(case_3("VERIFY", 0, p2, (pin.value + dice.digits(255))[:length]))
        else:
            p1, p2 = dice.pick(((0, 2), (1, 0), (1, 1), (0, 0x81), (0, 0xFF), (2, 1)))
            self.send(case_3("VERIFY", p1, p2, pin.value) if dice.chance(0.5) else case_1("VERIFY", p1, p2))

    def cryptogram(self, challenge):
        return cards.encrypt(self.card.device.value, challenge.ljust(16, b"\x00"))

    def wrong_cryptogram(self, challenge):
        dice = self.dice
        kind = dice.below(7)
        shown = bytearray(self.cryptogram(challenge))
        if kind == 0:
            shown[dice.pick((0, 15, dice.below(16)))] ^= 1 << dice.below(8)
        elif kind == 1:
            shown = bytearray(16)
        elif kind == 2 and self.old_cryptograms:
            shown = bytearray(dice.pick(self.old_cryptograms))
        elif kind == 3:
            # Filled in another way; for a challenge of 16 bytes this is the right one.
            shown = bytearray(cards.encrypt(self.card.device.value, challenge.ljust(16, b"\x80")))
        elif kind == 4:
            shown = bytearray(cards.encrypt(dice.bytes(16), challenge.ljust(16, b"\x00")))
        elif kind == 5:
            shown = bytearray(challenge.ljust(16, b"\x00"))
        else:
            shown = bytearray(dice.bytes(16))
        return bytes(shown)

    def log_in_device(self):
        """A challenge and, mostly at once, its cryptogram."""
        dice = self.dice
        length = dice.pick((4, 8, 16))
        self.send(case_2("GET CHALLENGE", 0, 0, length), spoil=0.03)
        challenge = self.card.challenge or dice.bytes(length)
        if dice.chance(0.2):
            self.interrupt()
        if self.card.challenge and dice.chance(0.9):
            challenge = self.card.challenge
        kind = dice.weighted((("right", 70), ("wrong", 24), ("length", 3), ("p", 3)))
        if kind == "wrong" and self.is_careful(self.card.device):
            kind = "right"
        if kind == "right":
            shown = self.cryptogram(challenge)
            self.send(case_3("EXTERNAL AUTHENTICATE", 0, 0, shown), spoil=0.03)
            self.old_cryptograms = self.old_cryptograms[-3:] + [shown]
            if dice.chance(0.1):
                # The challenge is used up.
                self.send(case_3("EXTERNAL AUTHENTICATE", 0, 0, shown))
        elif kind == "wrong":
            self.send(case_3("EXTERNAL AUTHENTICATE", 0, 0, self.wrong_cryptogram(challenge)))
            if dice.chance(0.15):
                # The right one after a wrong one, without a new challenge.
                self.send(case_3("EXTERNAL AUTHENTICATE", 0, 0, self.cryptogram(challenge)))
        elif kind == "length":
            shown = self.cryptogram(challenge) + dice.bytes(16)
            self.send(case_3("EXTERNAL AUTHENTICATE", 0, 0, shown[:dice.pick((1, 8, 15, 17, 32))]))
        else:
            p1, p2 = dice.pick(((0, 1), (1, 0), (0, 0x80)))
            self.send(case_3("EXTERNAL AUTHENTICATE", p1, p2, self.cryptogram(challenge)))

    def interrupt(self):
        """Something between a challenge and its use: some of these keep the challenge, most drop it."""
        dice = self.dice
        kind = dice.below(15)
        if kind < 3:
            self.put(self.line_between(kind))
        elif kind == 14:
            # Not in the list with class 04.
            self.send(bytes((cards.CODED,)) + dice.pick((case_2("GET RESPONSE", 0, 0, 0), case_1("VERIFY", 0, 1)))[1:], spoil=0)
        elif kind == 3:
            # Outcome 3 leaves the challenge as it is.
            self.put(b"CMD\t0084000008\t" + hex_of(dice.bytes(dice.pick((0, 15, 17)))))
        elif kind == 4:
            self.send(dice.bytes(dice.below(4)), spoil=0)
        elif kind == 5:
            self.send(case_2("GET CHALLENGE", 0, 0, dice.pick((0, 3, 4, 5, 8, 16))))
        elif kind in (6, 7):
            self.send(case_1("VERIFY", 0, dice.below(2)))
        elif kind == 8:
            self.send(case_2("GET CHALLENGE", 0, 1, 8))
        elif kind in (9, 10):
            self.noise()
        elif kind in (11, 12):
            # Mode 1 keeps the challenge, mode 0 drops it.
            self.get_response()
        else:
            self.use_file()

    def ask_challenge(self):
        dice = self.dice
        p2 = 0 if dice.chance(0.9) else dice.pick((1, 0x80))
        self.send(case_2("GET CHALLENGE", 0, p2, dice.pick((4, 8, 16, 4, 8, 16, 0, 1, 3, 5, 7, 9, 15, 17, 255))))

    def may_use(self, byte):
        """Whether a file's right lets a command pass, with a code where it asks for one."""
        return cards.is_allowed(self.card, byte) and not (cards.asks_code(byte) and self.card.transport.tries == 0)

    def obtain(self, byte):
        """Presents what a rights byte asks for, as far as tries are left. Where one of several is enough, mostly one."""
        card = self.card
        if byte == cards.NEVER:
            return
        if byte & cards.ANY_BIT and self.dice.chance(0.8):
            byte = self.dice.pick([bit for bit in (cards.ADMIN_BIT, cards.USER_BIT, cards.DEVICE_BIT) if byte & bit])
        if byte & cards.ADMIN_BIT and not card.admin.held and card.admin.tries:
            self.surely(case_3("VERIFY", 0, 0, card.admin.value))
        if byte & cards.USER_BIT and not card.user.held and card.user.tries:
            self.surely(case_3("VERIFY", 0, 1, card.user.value))
        if byte & cards.DEVICE_BIT and not card.device.held and card.device.tries:
            self.surely(case_2("GET CHALLENGE", 0, 0, self.dice.pick((4, 8, 16))))
            self.surely(case_3("EXTERNAL AUTHENTICATE", 0, 0, self.cryptogram(card.challenge)))

    def pin_to_set(self):
        """What a CHANGE or RELOAD sends: mostly a good PIN."""
        dice = self.dice
        kind = dice.weighted((("good", 72), ("digits", 15), ("length", 13)))
        if kind == "good":
            return dice.pick((self.card.admin.value, self.card.user.value)) if dice.chance(0.1) else self.new_pin()
        if kind == "digits":
            return self.not_digits(self.new_pin())
        return dice.digits(dice.pick((1, 5, 5, 17, 17, 200)))

    def remember_pin(self, pin):
        self.old_pins = self.old_pins[-3:] + [pin]

    def change_pin(self):
        dice = self.dice
        p2 = dice.below(2)
        if dice.chance(0.08):
            self.put(b"RESET")
        elif dice.chance(0.75):
            self.obtain(cards.USER_BIT if p2 else cards.ADMIN_BIT)
        self.remember_pin(self.pin_of(p2).value)
        p1 = 1 if dice.chance(0.95) else dice.pick((0, 2))
        self.send(case_3("CHANGE PIN", p1, p2 if dice.chance(0.97) else 2, self.pin_to_set()))
        if dice.chance(0.4):
            self.send(case_1("VERIFY", 0, p2))

    def reload_pin(self):
        dice = self.dice
        if dice.chance(0.15):
            self.put(b"RESET")
        elif dice.chance(0.75):
            self.obtain(cards.ADMIN_BIT)
        if dice.chance(0.3):
            # So that the user right is there to be dropped.
            self.obtain(cards.USER_BIT)
        self.remember_pin(self.card.user.value)
        p1, p2 = (2, 1) if dice.chance(0.95) else dice.pick(((2, 0), (1, 2), (0, 1), (2, 0x81)))
        self.send(case_3("RELOAD PIN", p1, p2, self.pin_to_set()))
        if dice.chance(0.5):
            self.send(case_1("VERIFY", 0, 1))

    def use_up_tries(self):
        """Wrong presentations in a row, at times to the last try and past it, and then the right one."""
        dice = self.dice
        target = dice.weighted(((self.card.user, 5), (self.card.admin, 2), (self.card.device, 3), (self.card.transport, 4)))
        if target.tries > 20 and dice.chance(0.75):
            # Worth its many lines only now and then.
            return
        # The user PIN can be reloaded, so it may well be used up; the others end what a card can show.
        to_the_end = 0.6 if target is self.card.user else 1.2 - self.care
        left = 0 if dice.chance(to_the_end) else dice.pick((1, 1, 2, 14, 15))
        if target is self.card.transport:
            self.use_up_codes(left)
            return
        while target.tries > left:
            if target is self.card.device:
                self.surely(case_2("GET CHALLENGE", 0, 0, dice.pick((4, 8, 16))))
                shown = bytearray(self.cryptogram(self.card.challenge))
                shown[dice.below(16)] ^= 1 << dice.below(8)
                self.surely(case_3("EXTERNAL AUTHENTICATE", 0, 0, bytes(shown)))
            else:
                p2 = 0 if target is self.card.admin else 1
                self.surely(case_3("VERIFY", 0, p2, self.wrong_pin(target.value)))
                if dice.chance(0.25):
                    self.surely(case_1("VERIFY", 0, p2))
        if target is self.card.device:
            if dice.chance(0.8):
                self.surely(case_2("GET CHALLENGE", 0, 0, dice.pick((4, 8, 16))))
            challenge = self.card.challenge or bytes(4)
            self.surely(case_3("EXTERNAL AUTHENTICATE", 0, 0, self.cryptogram(challenge)))
            return
        p2 = 0 if target is self.card.admin else 1
        for sent in (case_1("VERIFY", 0, p2), case_3("VERIFY", 0, p2, self.not_digits(target.value)),
                     case_3("VERIFY", 0, p2, target.value), case_1("VERIFY", 0, p2)):
            if dice.chance(0.7):
                self.surely(sent)
        if p2 == 1 and target.tries == 0 and dice.chance(0.8):
            self.obtain(cards.ADMIN_BIT)
            self.surely(case_3("RELOAD PIN", 2, 1, self.new_pin()))
            self.surely(case_3("VERIFY", 0, 1, target.value))

    def use_up_codes(self, left):
        """Wrong codes in a row, one of which may be for no file at all, and then the right one, with a challenge or without."""
        dice, card = self.dice, self.card
        sent = self.any_of_the_five()
        while card.transport.tries > left:
            self.ask_for_code()
            code = bytearray(self.right_code(sent))
            code[dice.below(4)] ^= 1 << dice.below(8)
            self.put(b"CMD\t%s\t%s" % (hex_of(self.with_code(sent, bytes(code))), hex_of(dice.bytes(16))))
        if dice.chance(0.8):
            self.ask_for_code()
        sent = self.any_of_the_five()
        challenge = card.challenge or bytes(4)
        self.surely(self.with_code(sent, self.right_code(sent, challenge)))
        if dice.chance(0.5):
            self.surely(bytes((cards.CODED,)) + sent[1:4])

    def restore_codes(self):
        """Wrong codes to the last try, a right one that the file refuses, and once more: it shows whether all tries came back."""
        card = self.card
        if not 2 <= card.transport.limit <= 5 or card.transport.tries == 0:
            return
        for _ in range(2):
            sent = self.any_of_the_five()
            while card.transport.tries > 1:
                self.ask_for_code()
                self.surely(self.with_code(sent, bytes(byte ^ 0xFF for byte in self.right_code(sent))))
            self.ask_for_code()
            self.surely(self.coded(self.refused_later()))

    def refused_later(self):
        """A plain command of case 2 or 3 that a file refuses: by its length, number, offset or type, or since it is not there."""
        dice = self.dice
        files = cards.files_here(self.card)
        if not files or dice.chance(0.15):
            return dice.pick((case_2("READ BINARY", 0x80 | dice.between(1, 30), 0, 1), case_3("APPEND RECORD", 0, 0, b"\x01"),
                              case_2("READ RECORD", 1, dice.between(1, 30) << 3 | 4, 0)))
        file = dice.pick(files)
        if file.kind == cards.BINARY:
            return dice.pick((case_2("READ BINARY", 0x80 | file.sfi, 255, 255), case_3("UPDATE BINARY", 0x80 | file.sfi, 255, bytes(251)),
                              case_2("READ RECORD", 1, file.sfi << 3 | 4, 0)))
        length, number = self.record_length(file, 1), dice.pick((1, 1, 1, 255))
        return dice.pick((
            case_2("READ RECORD", number, file.sfi << 3 | 4, length + 1), case_2("READ RECORD", number, file.sfi << 3 | 4, length + 1),
            case_3("UPDATE RECORD", number, file.sfi << 3 | 4, bytes(length + 1)), case_3("APPEND RECORD", 0, file.sfi << 3, bytes(179)),
            case_2("READ BINARY", 0x80 | file.sfi, 0, 1)))

    def any_of_the_five(self):
        """A plain command of case 2 or 3, mostly to a file that is there."""
        dice = self.dice
        files = cards.files_here(self.card)
        file = dice.pick(files) if files and dice.chance(0.9) else None
        sfi = file.sfi if file else dice.between(0, 30)
        if file is not None and file.kind == cards.BINARY:
            return dice.pick((case_2("READ BINARY", 0x80 | sfi, 0, dice.pick((0, 1))), case_3("UPDATE BINARY", 0x80 | sfi, 0, dice.bytes(1))))
        length = self.record_length(file, 1) if file else 1
        return dice.pick((
            case_2("READ RECORD", 1, sfi << 3 | 4, 0), case_3("UPDATE RECORD", 1, sfi << 3 | 4, dice.bytes(length)),
            case_3("APPEND RECORD", 0, sfi << 3, dice.bytes(length))))

    def use_codes(self):
        """A file that asks for a code, made where there is none; then it is used with codes and without."""
        dice, card = self.dice, self.card
        files = [file for file in card.files if cards.asks_code(file.read) or cards.asks_code(file.write)]
        if not files or dice.chance(0.1):
            if len(card.files) == cards.MOST_FILES:
                return
            self.obtain_creation()
            byte = dice.pick([byte for byte, _ in GOOD_RIGHTS if cards.asks_code(byte)])
            kind = dice.pick((cards.BINARY, cards.FIXED, cards.VARIABLE, cards.CYCLIC))
            fid = self.new_fid()
            contents = bytes((kind,)) + self.size_bytes(kind) + bytes((dice.pick((byte, self.rights_byte())), byte))
            self.send(case_3("CREATE FILE", fid >> 8, fid & 0xFF, contents), spoil=0.01)
            return
        file = dice.pick(files)
        self.go_to(file.folder)
        if dice.chance(0.7):
            self.obtain(file.read)
            self.obtain(file.write)
        for _ in range(dice.between(1, 4)):
            if self.card is not card or file.folder is not card.folder:
                return
            self.code_lengths(file) if dice.chance(0.4) else self.by_sfi(file)

    def code_lengths(self, file):
        """Data whose message ends a byte before a block's end, at it, and behind it; or the longest that a code leaves room for."""
        dice = self.dice
        length = dice.pick((1, 10, 11, 12, 26, 27, 28, 43, 59, 171, 178, 187, 247, 250, 251))
        if file.kind == cards.BINARY:
            length = max(1, min(length, file.size))
            self.send(case_3("UPDATE BINARY", 0x80 | file.sfi, 0, dice.bytes(length)), spoil=0.01)
        elif file.kind == cards.VARIABLE:
            self.send(case_3("APPEND RECORD", 0, file.sfi << 3, dice.bytes(length)), spoil=0.01)
        else:
            self.send(case_3("UPDATE RECORD", 1, file.sfi << 3 | 4, dice.bytes(dice.pick((file.length, file.length, length)))), spoil=0.01)

    # ---------------------------------------------------------------------------------------------------------- files

    def room(self):
        return cards.AREA_SIZE - sum(file.extent for file in self.card.files)

    def rights_byte(self):
        return self.dice.weighted(GOOD_RIGHTS)

    def creation_right(self):
        return self.dice.weighted(GOOD_CREATION)

    def files_in(self, folder):
        return [file for file in self.card.files if file.folder is folder]

    def any_fid(self, sfi):
        high = self.dice.pick((0x00, 0x3F, 0xFF, 0x10, self.dice.below(256)))
        return high << 8 | self.dice.below(8) << 5 | sfi

    def new_fid(self):
        """Mostly with an SFI that is not used yet in the current folder; at times as files elsewhere or folders have it."""
        dice, card = self.dice, self.card
        here = self.files_in(card.folder)
        used = [file.sfi for file in here]
        free = [sfi for sfi in range(1, 31) if sfi not in used]
        elsewhere = [file for file in card.files if file.folder is not card.folder] + card.folders
        kind = dice.weighted((("free", 62), ("elsewhere", 22 if elsewhere else 0), ("used", 8), ("same", 3), ("bad", 5)))
        if kind == "elsewhere":
            fid = dice.pick(elsewhere).fid
            return fid if dice.chance(0.6) else self.any_fid(fid & 0x1F)
        if kind == "used" and used:
            return self.any_fid(dice.pick(used))
        if kind == "same" and used:
            return dice.pick(here).fid
        if kind == "bad":
            return self.any_fid(dice.pick((0, 31)))
        return self.any_fid(dice.pick((free[0], free[-1], dice.pick(free))))

    def new_folder_fid(self):
        """Mostly one that is free, whatever its low bits; at times a file's or another folder's."""
        dice, card = self.dice, self.card
        kind = dice.weighted((("any", 60), ("folder", 9), ("file", 14), ("near", 12), ("bad", 5)))
        if kind == "folder" and card.folders:
            return dice.pick(card.folders).fid
        if kind == "file" and card.files:
            return dice.pick(card.files).fid
        if kind == "near" and card.files:
            return dice.pick(card.files).fid ^ 0x20 << dice.below(11)
        return self.any_fid(dice.pick((0, 31)) if kind == "bad" else dice.between(1, 30))

    def go_to(self, folder):
        """Makes a folder current. A file of the same FID may hide it where one stands, so then, and at times, by way of the root."""
        card = self.card
        if card.folder is folder:
            return
        if folder is ROOT:
            self.surely(select_fid(cards.ROOT_FID))
            return
        if cards.with_fid(cards.files_here(card), folder.fid) is not None or card.folder is not ROOT and self.dice.chance(0.3):
            self.surely(select_fid(cards.ROOT_FID))
        self.surely(select_fid(folder.fid))

    def obtain_creation(self):
        """Presents what CREATE FILE asks for in the current folder; inside one at times only a part of it."""
        folder = self.card.folder
        right = cards.DEVICE_BIT if folder is ROOT else folder.right
        if folder is not ROOT and right != cards.NEVER and self.dice.chance(0.2):
            right &= self.dice.pick((cards.ADMIN_BIT, cards.USER_BIT, cards.DEVICE_BIT))
        self.obtain(right)

    def create_folder(self):
        """A directory, mostly from the root; now and then where it cannot be, or with bytes that cannot be."""
        dice = self.dice
        if self.card.folder is not ROOT and dice.chance(0.5):
            self.go_to(ROOT)
        if dice.chance(0.9 if self.card.folder is ROOT else 0.5):
            self.obtain_creation()
        contents = bytearray((cards.FOLDER, 0, 0, self.creation_right(), 0))
        wrong = dice.weighted((("nothing", 80), ("byte", 8), ("right", 6), ("length", 2), ("type", 2)))
        if wrong == "byte":
            contents[dice.pick((1, 2, 4, 4))] = dice.pick((0x01, 0x0F, 0x10, 0x80, 0xC1))
        elif wrong == "right":
            contents[3] = dice.pick(BAD_CREATION)
        elif wrong == "length":
            contents = (contents + dice.bytes(4))[:dice.pick((1, 4, 6))]
        elif wrong == "type":
            contents[0] = dice.pick(BAD_TYPES)
        fid = self.new_folder_fid()
        self.send(case_3("CREATE FILE", fid >> 8, fid & 0xFF, bytes(contents)))
        if dice.chance(0.4):
            # Nothing current has changed.
            self.use_current()
        if dice.chance(0.4):
            self.send(select_fid(fid))
            if dice.chance(0.5):
                self.create()

    def two_firms(self):
        """Files with the same SFI in two folders or more, used by it in turns."""
        dice, card = self.dice, self.card
        if not card.folders:
            self.create_folder()
            return
        shared = [sfi for sfi in range(1, 31) if sum(file.sfi == sfi for file in card.files) > 1]
        if not shared or dice.chance(0.1):
            if card.files:
                self.go_to(dice.pick([ROOT] + card.folders))
                self.obtain_creation()
                like = dice.pick(card.files)
                fid = dice.pick((like.fid, self.any_fid(like.sfi)))
                kind = dice.pick((like.kind, cards.BINARY, cards.FIXED, cards.VARIABLE, cards.CYCLIC))
                contents = bytes((kind,)) + self.size_bytes(kind) + bytes((self.rights_byte(), self.rights_byte()))
                self.surely(case_3("CREATE FILE", fid >> 8, fid & 0xFF, contents))
            return
        sfi = dice.pick(shared)
        files = [file for file in card.files if file.sfi == sfi]
        for _ in range(dice.between(2, 6)):
            file = dice.pick(files)
            if self.card is not card:
                return  # as in by_sfi
            self.go_to(file.folder)
            if dice.chance(0.6):
                self.obtain(file.read | file.write if cards.NEVER not in (file.read, file.write) else 0)
            self.by_sfi(file)
            if dice.chance(0.07):
                self.put(b"RESET")
                self.by_sfi(file)
            if dice.chance(0.3):
                self.use_current()

    def by_sfi(self, file):
        """A command that names a file by its SFI, whatever folder is current."""
        dice, sfi = self.dice, file.sfi
        if file not in self.card.files:
            return  # a line put in between issued another card
        if file.kind == cards.BINARY:
            offset = min(255, self.near_end(file.size))
            self.send(dice.pick((case_2("READ BINARY", 0x80 | sfi, offset, 0), case_2("READ BINARY", 0x80 | sfi, 0, 1),
                                 case_3("UPDATE BINARY", 0x80 | sfi, 0, dice.bytes(1)))))
            return
        number = max(1, min(self.held(file), 255))
        kind = dice.below(3)
        if kind == 0:
            self.send(case_2("READ RECORD", number, sfi << 3 | 4, 0))
        elif kind == 1:
            self.send(case_3("UPDATE RECORD", number, sfi << 3 | 4, dice.bytes(self.record_length(file, number))))
        else:
            self.send(case_3("APPEND RECORD", 0, sfi << 3, self.data_to_append(file)))

    def size_bytes(self, kind):
        """The two bytes of size, or of count and record length, good ones."""
        dice = self.dice
        room = max(self.room(), 1)
        # Mostly asked for where it is refused: a card with a file of 4,096 bytes has no other.
        whole = 4096 if self.card.files or dice.chance(0.3) else 60
        if kind == cards.BINARY:
            size = dice.weighted((
                (dice.between(1, 40), 55), (dice.between(41, 300), 20), (dice.between(301, 1200), 8),
                (dice.pick((1, 16, 255, 256, 257, 300)), 14), (dice.pick((room, room, room + 1, room - 1)), 6),
                (dice.pick((whole, whole, whole - 1)), 5)))
            size = max(1, min(size, 4096))
            return bytes((size >> 8, size & 0xFF))
        if kind == cards.VARIABLE:
            # Small spaces get full soon; 179 hold one record of 178, and 512 hold 256 records of 1.
            space = dice.weighted((
                (dice.between(2, 30), 40), (dice.between(31, 200), 25), (dice.between(201, 700), 14),
                (dice.pick((2, 3, 178, 179, 180, 358, 512)), 14), (dice.pick((room, room + 1)), 4), (whole, 7)))
            space = max(2, min(space, 4096))
            return bytes((space >> 8, space & 0xFF))
        if dice.chance(0.8):
            return bytes((dice.pick((2, 2, 3, 4, dice.between(2, 12))), dice.pick((1, 2, 8, 16, dice.between(1, 40)))))
        if dice.chance(0.3):
            # As many records as there is room for, or one more than that.
            length = dice.pick((1, 16, 178, dice.between(1, 178)))
            return bytes((max(2, min(254, room // length + dice.below(2))), length))
        return bytes(dice.pick(((254, 1), (254, 16), (2, 178), (23, 178), (24, 178), (254, 178), (254, 2), (100, 3))))

    def bad_contents(self):
        dice = self.dice
        kind = dice.pick((cards.BINARY, cards.FIXED, cards.VARIABLE, cards.CYCLIC))
        contents = bytearray(bytes((kind,)) + self.size_bytes(kind) + bytes((self.rights_byte(), self.rights_byte())))
        wrong = dice.weighted((("type", 2), ("right", 2), ("count", 3), ("length", 3)))
        if wrong == "type":
            contents[0] = dice.pick(BAD_TYPES)
        elif wrong == "right":
            contents[dice.pick((3, 4))] = dice.pick(BAD_RIGHTS)
        elif kind == cards.BINARY:
            contents[1:3] = dice.pick((b"\x00\x00", b"\x00\x00", b"\x10\x01", b"\xFF\xFF", b"\x20\x00"))
        elif kind == cards.VARIABLE:
            contents[1:3] = dice.pick((b"\x00\x00", b"\x00\x01", b"\x00\x01", b"\x10\x01", b"\x11\x00", b"\xFF\xFF"))
        elif wrong == "count":
            contents[1] = dice.pick((0, 1, 1, 255))
        else:
            contents[2] = dice.pick((0, 179, 179, 255))
        return bytes(contents)

    def create(self, log_in=0.93):
        dice = self.dice
        if dice.chance(0.1) and self.card.folders:
            self.go_to(dice.pick([ROOT] + self.card.folders))
        if self.card.folder is not ROOT and self.card.folder.right == cards.NEVER and dice.chance(0.6):
            self.go_to(ROOT)
        if dice.chance(log_in if self.card.folder is ROOT else 0.8 * log_in):
            self.obtain_creation()
        fid = self.new_fid()
        kind = dice.weighted(((cards.BINARY, 30), (cards.FIXED, 18), (cards.VARIABLE, 26), (cards.CYCLIC, 26)))
        if dice.chance(0.8):
            contents = bytes((kind,)) + self.size_bytes(kind) + bytes((self.rights_byte(), self.rights_byte()))
        else:
            contents = self.bad_contents()
        if dice.chance(0.03):
            contents = (contents + dice.bytes(4))[:dice.pick((1, 4, 6, 9))]
        outcome, _, sw = self.send(case_3("CREATE FILE", fid >> 8, fid & 0xFF, contents))
        file = self.card.current
        if outcome == 0 and sw == 0x9000 and file is not None and dice.chance(0.5):
            # The new file is current and holds 00, or nothing.
            if file.kind == cards.BINARY:
                self.send(case_2("READ BINARY", 0, 0, dice.pick((0, min(file.size, 256)))))
            else:
                self.send(case_2("READ RECORD", 1, 0x04, 0))

    def fill_directory(self):
        """Files until the directory or the area is full."""
        for _ in range(18):
            self.create()
            if len(self.card.files) >= cards.MOST_FILES or self.room() == 0:
                break
        self.create()
        # Directories are made all the same.
        self.create_folder()
        self.create_folder()

    def select(self):
        dice, card = self.dice, self.card
        here = self.files_in(card.folder)
        kind = dice.weighted((("here", 40), ("anywhere", 18), ("folder", 24), ("root", 11), ("near", 15), ("any", 5)))
        fid = cards.ROOT_FID
        if kind == "here" and here:
            fid = dice.pick(here).fid
        elif kind == "anywhere" and card.files:
            fid = dice.pick(card.files).fid
        elif kind == "folder" and card.folders:
            fid = dice.pick(card.folders).fid
        elif kind == "near":
            near = dice.pick(card.files + card.folders).fid if card.files + card.folders else cards.ROOT_FID
            fid = near ^ dice.pick((0x0100, 0x8000, 0x0020, 0x0080, 0x0001, 0x0010))
        elif kind == "any":
            fid = dice.pick((0x0000, 0xFFFF, 0x003F, 0x3F01, dice.below(65536)))
        data = bytes((fid >> 8, fid & 0xFF))
        if dice.chance(0.02):
            data = dice.pick((data[:1], data + b"\x00"))
        self.send(case_3("SELECT", *((0, 0) if dice.chance(0.97) else (dice.below(5), dice.below(5))), data))
        if dice.chance(0.4):
            self.use_current()

    def use_current(self):
        """A command to the current file, if any, whatever it is: shows which file that is."""
        dice = self.dice
        sent = dice.pick((case_2("READ BINARY", 0, 0, 1), case_2("READ RECORD", 1, 0x04, 0),
                          case_3("APPEND RECORD", 0, 0x00, dice.bytes(1))))
        file = self.card.current
        if file is not None and file.kind == cards.BINARY:
            sent = case_2("READ BINARY", 0, 0, dice.pick((0, min(file.size, 256))))
        elif file is not None:
            sent = case_2("READ RECORD", dice.pick((1, min(max(1, self.held(file)), 255))), 0x04, 0)
        self.send(sent)

    def a_file(self, kinds):
        """A file to use, mostly of the kinds asked for, or None. Mostly one of the current folder, or its folder is made current."""
        files = self.card.files
        if self.card.folders and self.dice.chance(0.55):
            files = cards.files_here(self.card)
        file = self.one_of(files, kinds)
        if file is not None and self.dice.chance(0.93):
            self.go_to(file.folder)
        return file

    def one_of(self, files, kinds):
        current = self.card.current
        if current is not None and current.kind in kinds and self.dice.chance(0.3):
            # Used without a SELECT, the current file shows whether the commands before it kept it.
            return current
        fitting = [file for file in files if file.kind in kinds]
        if fitting and self.dice.chance(0.95):
            return self.dice.pick(fitting)
        return self.dice.pick(files) if files else None

    def name_file(self, file, offset=0):
        """The SFI to use, 0 for the current file, which is selected first where it is another one."""
        dice = self.dice
        if file is None:
            return dice.between(0, 30)
        if dice.chance(0.04):
            # Whatever is current, or an SFI that may be of no file.
            return dice.pick((0, dice.between(1, 30)))
        if offset > 0xFF or dice.chance(0.5):
            if self.card.current is not file:
                self.surely(select_fid(file.fid))
            return 0
        return file.sfi

    def use_file(self):
        self.dice.weighted((
            (self.read_binary, 17), (self.update_binary, 14), (self.read_record, 28), (self.update_record, 16),
            (self.append_record, 25)))()

    def binary_p(self, sfi, offset):
        dice = self.dice
        if dice.chance(0.04):
            return dice.pick((0x80, 0x9F, 0xA0, 0xC1, 0xFF)), offset & 0xFF
        if sfi == 0:
            return (offset >> 8) & 0x7F, offset & 0xFF
        return 0x80 | sfi, offset & 0xFF

    def span(self, size):
        """Offset and length in a file of this size, often at an edge."""
        dice = self.dice
        kind = dice.below(20)
        if kind < 9:
            offset = dice.below(size)
            return offset, dice.between(1, min(256, size - offset))
        if kind < 14:
            offset = dice.pick((0, self.near_end(size), dice.below(size)))
            return offset, min(256, size - offset)
        if kind < 16:
            offset = dice.pick((size - 1, max(0, size - 2), max(0, size - 255), dice.below(size)))
            return offset, min(256, size - offset + 1)
        if kind < 18:
            return dice.pick((size, size, size + 1, size + 255, 0x7FFF, 255, 256)), dice.pick((1, 2, 256))
        return dice.below(size), dice.pick((1, 255, 256, size & 0xFF or 256))

    def near_end(self, size):
        """An offset with few bytes to the end, or about 256: where Le 00 gives all of them and where it does not."""
        return max(0, size - self.dice.pick((1, 2) if size < 254 else (1, 254, 255, 256, 257, 258)))

    def read_binary(self):
        file = self.a_file((cards.BINARY,))
        if file is not None and self.dice.chance(0.7):
            self.obtain(file.read)
        size = file.extent if file else 16
        offset, length = self.span(size)
        if self.dice.chance(0.35):
            # What there is, mostly less than 256.
            offset = self.dice.pick((0, offset, self.near_end(size), self.near_end(size), size, self.dice.below(size)))
            length = 256
        sfi = self.name_file(file, offset)
        self.send(case_2("READ BINARY", *self.binary_p(sfi, offset), length))

    def update_binary(self):
        file = self.a_file((cards.BINARY,))
        if file is not None and self.dice.chance(0.7):
            self.obtain(file.write)
        offset, length = self.span(file.extent if file else 16)
        sfi = self.name_file(file, offset)
        p1, p2 = self.binary_p(sfi, offset)
        length = min(length, 255)
        self.send(case_3("UPDATE BINARY", p1, p2, self.dice.bytes(length)))
        if self.dice.chance(0.4):
            self.send(case_2("READ BINARY", p1, p2, length))

    def held(self, file):
        """How many records a file holds; a binary file counts as one, and one of a card that a line in between replaced as none."""
        if file not in self.card.files:
            return 0
        return 1 if file.kind == cards.BINARY else file.records_held(self.program.area)

    def record_length(self, file, number):
        """The length of a record that is held, or else some length."""
        if file.kind == cards.VARIABLE:
            return file.record(self.program.area, number)[1] if 1 <= number <= self.held(file) else 1
        return file.length or 1

    def record_number(self, file):
        dice = self.dice
        held = self.held(file)
        most = file.count or held
        number = dice.weighted((
            (dice.between(1, max(held, 1)), 50), (1, 12), (held, 14), (held + 1, 9), (most, 5), (most + 1, 3), (255, 2), (0, 3)))
        return min(number, 255)

    def record_p2(self, sfi, low):
        if self.dice.chance(0.03):
            return self.dice.pick((0xF8 | low, sfi << 3 | self.dice.below(8), 0))
        return sfi << 3 | low

    def read_record(self):
        dice = self.dice
        file = self.a_file(cards.RECORD_TYPES)
        if file is None:
            self.send(case_2("READ RECORD", 1, self.record_p2(dice.below(31), 4), 0))
            return
        if dice.chance(0.7):
            self.obtain(file.read)
        number = self.record_number(file)
        self.send(case_2("READ RECORD", number, self.record_p2(self.name_file(file), 4), self.record_le(file, number)))

    def record_le(self, file, number):
        """Mostly a good Le; else one beside it, or the length of another record of the file."""
        dice = self.dice
        length = self.record_length(file, number)
        other = self.record_length(file, dice.between(1, max(self.held(file), 1)))
        return dice.weighted((
            (0, 38), (length, 36), (other, 9), (length + 1, 7), (length - 1, 5), (255, 2), (dice.below(256), 3)))

    def record_data(self, file, number):
        """What an UPDATE sends for a record."""
        dice = self.dice
        length = self.record_length(file, number)
        other = self.record_length(file, dice.between(1, max(self.held(file), 1)))
        return dice.bytes(dice.weighted(((length, 82), (other, 7), (length + 1, 5), (max(1, length - 1), 4), (1, 2))))

    def data_to_append(self, file):
        """For a 2C file often at an edge: the longest record, or the longest that fits in what is left, or one byte more."""
        dice = self.dice
        if file.kind != cards.VARIABLE:
            return self.record_data(file, 1)
        left = file.size - file.used
        length = dice.weighted((
            (dice.between(1, 12), 36), (dice.between(13, 176), 10), (1, 8), (dice.pick((177, 178)), 9), (179, 6),
            (dice.pick((180, 255)), 3), (min(left - 1, 178), 12), (min(left - 2, 178), 6), (left, 7), (left + 1, 3)))
        return dice.bytes(max(1, min(length, 255)))

    def update_record(self):
        dice = self.dice
        file = self.a_file(cards.RECORD_TYPES)
        if file is None:
            self.send(case_3("UPDATE RECORD", 1, self.record_p2(dice.below(31), 4), b"\x01"))
            return
        if dice.chance(0.7):
            self.obtain(file.write)
        number = self.record_number(file)
        p2 = self.record_p2(self.name_file(file), 4)
        self.send(case_3("UPDATE RECORD", number, p2, self.record_data(file, number)))
        if dice.chance(0.4):
            self.send(case_2("READ RECORD", number, p2, 0))

    def append_record(self):
        dice = self.dice
        meant = dice.chance(0.9)
        file = self.a_file((cards.CYCLIC, cards.VARIABLE) if meant else (cards.BINARY, cards.FIXED))
        if file is None:
            self.send(case_3("APPEND RECORD", 0, self.record_p2(dice.below(31), 0), b"\x01"))
            return
        if meant and dice.chance(0.7):
            self.obtain(file.write)
        p1 = 0 if dice.chance(0.97) else dice.pick((1, 255))
        self.send(case_3("APPEND RECORD", p1, self.record_p2(self.name_file(file), 0), self.data_to_append(file)))

    def fill_cyclic(self):
        """Appends past the count, then every number from newest to oldest and one more."""
        dice = self.dice
        small = [file for file in self.card.files
                 if file.kind == cards.CYCLIC and (file.count <= 12 or dice.chance(0.05))]
        if not small:
            return
        file = dice.pick(small)
        self.obtain(file.write)
        if not self.may_use(file.write):
            return
        self.go_to(file.folder)
        for _ in range(file.count - file.records + dice.between(0, 3)):
            self.send(case_3("APPEND RECORD", 0, file.sfi << 3, dice.bytes(file.length)), spoil=0.01)
        self.read_records(file)

    def fill_variable(self):
        """Appends to a 2C file until nothing fits, then uses the records at both ends."""
        dice = self.dice
        files = [file for file in self.card.files
                 if file.kind == cards.VARIABLE and (file.size <= 700 or dice.chance(0.1))]
        if not files:
            return
        file = dice.pick(files)
        self.obtain(file.write)
        if not self.may_use(file.write):
            return
        # Not so short that it takes too many lines.
        longest = min(178, max(dice.pick((1, 4, 20, 60, 178)), file.size // 20))
        while file.size - file.used > longest + 2:
            if not self.may_use(file.write):
                break  # a wrong code was the last
            self.append_to(file, dice.pick((longest, dice.between(1, longest), dice.between(1, longest))))
        self.use_full(file)

    def keep_notes(self):
        """A 2C file of its own for records of many lengths, the longest among them."""
        dice = self.dice
        lengths = [dice.pick((1, 2, 177, 178, dice.between(1, 40), dice.between(1, 178))) for _ in range(dice.between(2, 6))]
        lengths.insert(dice.below(3), dice.pick((1, 177)))
        lengths.insert(dice.below(3), 178)
        space = sum(lengths) + len(lengths) + dice.pick((0, 0, 1, 2, 10))
        if self.card.folders and dice.chance(0.4):
            self.go_to(dice.pick([ROOT] + self.card.folders))
        free = [sfi for sfi in range(1, 31) if sfi not in [file.sfi for file in self.files_in(self.card.folder)]]
        if space > self.room() or len(self.card.files) == cards.MOST_FILES:
            return
        self.obtain_creation()
        right = dice.pick((0x00, 0x00, 0x01, 0x40, 0x80, 0xC2))
        self.surely(case_3("CREATE FILE", dice.below(256), dice.below(8) << 5 | dice.pick(free),
                           bytes((cards.VARIABLE, space >> 8, space & 0xFF, right, right))))
        file = self.card.current
        if file is None or file.size != space:
            return
        self.obtain(right)
        for length in lengths:
            if dice.chance(0.15):
                self.append_to(file, dice.pick((179, 180, 255)))
            self.append_to(file, length)
        self.use_full(file)

    def use_full(self, file):
        """What a 2C file that is nearly full still takes, then its records."""
        dice = self.dice
        left = file.size - file.used
        # One byte too long, then the last that fits or one that leaves a byte free, then the shortest and the longest.
        for length, share in ((left, 0.6), (left - dice.pick((1, 1, 1, 2)), 0.9), (1, 0.7), (178, 0.3), (179, 0.4)):
            if 1 <= length <= 255 and dice.chance(share):
                self.append_to(file, length)
        self.use_ends(file)
        if dice.chance(0.4):
            self.read_records(file)

    def append_to(self, file, length):
        """By SFI or, where the file is current already, at times without."""
        self.go_to(file.folder)
        sfi = 0 if self.card.current is file and self.dice.chance(0.5) else file.sfi
        self.send(case_3("APPEND RECORD", 0, sfi << 3, self.dice.bytes(length)), spoil=0.01)

    def use_ends(self, file):
        """The first and the last record of a 2C file, and the number past the last; then as if it were binary."""
        dice = self.dice
        self.obtain(file.read)
        held = self.held(file)
        p2 = file.sfi << 3 | 4
        for number in (1, held, held + 1):
            number = max(1, min(number, 255))
            length = self.record_length(file, number)
            near = dice.pick((length + 1, max(1, length - 1)))
            if dice.chance(0.7):
                self.send(case_2("READ RECORD", number, p2, dice.pick((self.record_le(file, number), near))), spoil=0.01)
            if dice.chance(0.5):
                data = dice.pick((self.record_data(file, number), dice.bytes(near)))
                self.send(case_3("UPDATE RECORD", number, p2, data), spoil=0.01)
        if dice.chance(0.5):
            self.send(dice.pick((case_2("READ BINARY", 0x80 | file.sfi, 0, 1),
                                 case_3("UPDATE BINARY", 0x80 | file.sfi, 0, b"\x01"))), spoil=0.01)

    def pass_255(self):
        """More records in a 2C file than P1 can name. This takes many lines, so it is not begun near the end."""
        dice = self.dice
        if self.most_lines - len(self.lines) < 350:
            return
        if not any(file.kind == cards.VARIABLE and file.size >= 520 for file in self.card.files):
            self.obtain_creation()
            self.surely(case_3("CREATE FILE", dice.below(256), dice.between(1, 30),
                               bytes((cards.VARIABLE, 2, dice.between(8, 60), 0, 0))))
        for file in self.card.files:
            left = file.size - file.used
            if file.kind == cards.VARIABLE and (self.held(file) > 256 or left >= 2 * (257 - self.held(file))):
                break
        else:
            return
        self.obtain(file.write)
        if not self.may_use(file.write):
            return
        self.go_to(file.folder)
        while self.held(file) <= 256 and self.may_use(file.write):
            self.surely(case_3("APPEND RECORD", 0, file.sfi << 3, dice.bytes(1)))
        for number in (1, 254, 255):
            p2 = file.sfi << 3 | 4
            self.surely(case_3("UPDATE RECORD", number, p2, dice.bytes(self.record_length(file, number))))
            self.surely(case_2("READ RECORD", number, p2, 0))

    def read_records(self, file):
        self.obtain(file.read)
        if self.may_use(file.read):
            for number in range(1, min(self.held(file) + 1, 255) + 1):
                self.go_to(file.folder)
                self.send(case_2("READ RECORD", number, file.sfi << 3 | 4, 0), spoil=0.005)

    def read_all(self):
        """The whole card, as far as it may be read: what an earlier command damaged shows here."""
        for file in list(self.card.files):
            if all(there.fid != file.fid for there in self.card.files):
                return  # a line put in between issued another card
            if file.kind == cards.BINARY:
                self.obtain(file.read)
                if self.may_use(file.read):
                    self.go_to(file.folder)
                    self.surely(select_fid(file.fid))
                    for offset in range(0, file.size, 256):
                        le = self.dice.pick((0, min(256, file.size - offset)))
                        self.send(case_2("READ BINARY", offset >> 8, offset & 0xFF, le), spoil=0.005)
            elif max(file.count, self.held(file)) <= 30 or self.dice.chance(0.1):
                self.read_records(file)

    # ---------------------------------------------------------------------------------------------------------- noise

    def noise(self):
        """Commands that no one means: short frames, frames of all lengths, other classes and instructions."""
        dice = self.dice
        kind = dice.below(8)
        if kind == 0:
            sent = dice.bytes(dice.below(4))
        elif kind == 1:
            sent = bytes((dice.pick((0, 0x80)),)) + dice.bytes(dice.between(3, 9))
        elif kind == 2:
            # Any length, with an Lc near the one that would fit.
            length = dice.between(6, 262)
            fit = length - dice.pick((4, 5, 5, 6, 6, 7))
            cla, ins = dice.pick(tuple(INS.values()))
            sent = bytes((cla, ins, 0, 0, fit & 0xFF)) + dice.bytes(length - 5)
        elif kind == 3:
            sent = bytes((dice.below(256), dice.below(256), dice.below(3), dice.below(3)))
        elif kind == 4:
            # The right instruction in the wrong one of the two classes, or in another.
            cla, ins = dice.pick(tuple(INS.values()))
            sent = bytes((dice.pick((cla ^ 0x80, cla ^ 0x80, 0x01, 0x04, 0x04, 0x84, 0x90, 0xFF)), ins, 0, 0, 4))
            if dice.chance(0.3):
                sent += dice.bytes(4) + bytes(dice.below(2))
        elif kind == 5:
            sent = bytes((dice.pick((0, 0x80)), dice.pick((0xC0, 0xCA, 0xD0, 0xE4, 0x22, 0x88, 0x86, 0xFF)), 0, 0))
        elif kind == 6:
            cla, ins = dice.pick(tuple(INS.values()))
            sent = bytes((cla, ins)) + dice.bytes(dice.between(2, 3))
        else:
            # Extended forms.
            cla, ins = dice.pick(tuple(INS.values()))
            sent = bytes((cla, ins, 0, 0, 0)) + dice.bytes(dice.between(1, 6))
        self.send(sent, spoil=0)

    def refused_issue(self):
        """A line that parses and that the card refuses with 5."""
        dice = self.dice
        fields = [dice.bytes(16), 3, self.new_pin(), 3, self.new_pin(), 3, dice.below(2), dice.bytes(16), 3]
        kind = dice.below(6)
        place = dice.pick((2, 4))
        if kind == 0:
            fields[dice.pick((0, 7))] = dice.bytes(dice.pick((0, 1, 15, 17, 32, 299, 300)))
        elif kind in (1, 2):
            fields[dice.pick((1, 3, 5, 8))] = dice.pick((0, 129, 255, 256, 257, 384, 65535))
        elif kind == 3:
            fields[place] = dice.digits(dice.pick((0, 1, 5, 5, 17, 17, 22, 100)))
        elif kind == 4:
            fields[6] = dice.pick((2, 2, 3, 255, 256, 257, 65535))
        else:
            bad = bytearray(fields[place])
            bad[dice.below(len(bad))] = dice.pick((0x00, 0x0D, 0x20, 0x2F, 0x3A, 0x41, 0x80, 0xB5, 0xFF))
            fields[place] = bytes(bad)
        return self.issue_line(fields)

    @staticmethod
    def issue_line(fields):
        key, key_limit, admin, admin_limit, user, user_limit, mode, transport_key, transport_limit = fields
        return b"ISSUE\t%s\t%d\t%s\t%d\t%s\t%d\t%d\t%s\t%d" % (
            hex_of(key), key_limit, admin, admin_limit, user, user_limit, mode, hex_of(transport_key), transport_limit)

    def bad_line(self):
        """A line of outcome 9, or one of its good neighbours at an edge of the grammar."""
        dice = self.dice
        random = hex_of(dice.bytes(16))
        # The transport key and its limit.
        end = b"\t%s\t3" % random
        good = dice.pick((b"CMD\t00200001\t" + random, b"CMD\t0084000008\t" + random, b"RESET",
                          b"ISSUE\t%s\t3\t123456\t3\t654321\t3\t%d%s" % (random, dice.below(2), end)))
        # The edges of length and numbers of fields have a wider share: each is met by one of many only.
        kind = dice.pick((0, 1, 2, 3, 4, 5, 6, 7, 8, 9, 10, 11, 12, 13, 14, 15, 11, 11, 12, 7, 7))
        if kind == 0:
            return b""
        if kind == 1:
            return good + b"\r"
        if kind == 2:
            return good + b"\t"
        if kind == 3:
            return b"\t" + good
        if kind == 4:
            return dice.pick((good.lower(), b"CMD\t00200001\t" + random[:-1] + b"a", b"CMD\t0020000a\t" + random))
        if kind == 5:
            return dice.pick((b"CMD\t0020000\t" + random, b"CMD\t00200001\t" + random[:-1], b"CMD\t0\t" + random))
        if kind == 6:
            return dice.pick((b"CMD\t00 200001\t" + random, b"CMD\t0G200001\t" + random, b"CMD\t0x200001\t" + random,
                              b"CMD\t00200001\x00\t" + random, b"CMD\t\t" + random, b"CMD\t\t", b"CMD\t00200001\t",
                              b"CMD\t-\t" + random))
        if kind == 7:
            return dice.pick((b"CMD\t00200001", b"CMD", b"CMD\t00200001\t%s\t%s" % (random, random), b"RESET\t",
                              b"ISSUE\t%s\t3\t123456\t3\t654321" % random, b"ISSUE",
                              b"ISSUE\t%s\t3\t123456\t3\t654321\t3%s" % (random, end),
                              b"ISSUE\t%s\t3\t123456\t3\t654321\t3\t%s" % (random, end),
                              b"ISSUE\t%s\t3\t123456\t3\t654321\t3\t0" % random,
                              b"ISSUE\t%s\t3\t123456\t3\t654321\t3\t0" % random,
                              b"ISSUE\t%s\t3\t123456\t3\t654321\t3\t0" % random,
                              b"ISSUE\t%s\t3\t123456\t3\t654321\t3\t0\t%s" % (random, random),
                              b"ISSUE\t%s\t3\t123456\t3\t654321\t3\t0%s\t" % (random, end),
                              b"ISSUE\t%s\t3\t123456\t3\t654321\t3\t0%s\t0" % (random, end)))
        if kind == 8:
            return dice.pick((b"RESET ", b" RESET", b"Reset", b"RESE", b"RESETS", b"CMDS\t00200001\t" + random,
                              b"CM\t00200001\t" + random, b"#", b"ISSUES", b"\x00", b"\xff\xfe", b"\r", b"-", b"\t\t"))
        if kind in (9, 10):
            # A limit or mode that is no number of the grammar; a limit of 0 and 65535 are numbers, and refused with 5.
            limits = [b"3", b"3", b"3", b"1", b"3"]
            limits[dice.below(5)] = dice.pick((b"", b"00", b"01", b"003", b"65536", b"65536", b"65536", b"99999", b"100000",
                                               b"+3", b"-1", b"3 ", b" 3", b"3.0", b"0x3", b"A", b"0", b"65535", b"129",
                                               b"4294967299", b"18446744073709551619"))
            return b"ISSUE\t%s\t%s\t123456\t%s\t654321\t%s\t%s\t%s\t%s" % (random, *limits[:4], random, limits[4])
        if kind == 11:
            # Lines of 1,024 and 1,025 bytes that parse but for their length.
            start = b"ISSUE\t" + random + b"\t3\t"
            end = b"\t3\t654321\t3\t0" + end
            length = dice.pick((1023, 1024, 1024, 1025, 1025, 1026, 2048, 5000))
            return start + dice.digits(length - len(start) - len(end)) + end
        if kind == 12:
            # 300 and 301 bytes of command, random or key.
            many = dice.pick((299, 300, 300, 301, 301, 302))
            return dice.pick((b"CMD\t%s\t%s" % (hex_of(dice.bytes(many)), random),
                              b"CMD\t00200001\t%s" % hex_of(dice.bytes(many)),
                              b"ISSUE\t%s\t3\t123456\t3\t654321\t3\t0%s" % (hex_of(dice.bytes(many)), end),
                              b"ISSUE\t%s\t3\t123456\t3\t654321\t3\t0\t%s\t3" % (random, hex_of(dice.bytes(many)))))
        if kind == 13:
            # The longest lines of the grammar's CMD, and longer ones: 300 bytes of command and some of random.
            return b"CMD\t%s\t%s" % (hex_of(dice.bytes(300)), hex_of(dice.bytes(dice.pick((208, 209, 210, 300)))))
        if kind == 14:
            return dice.bytes(dice.between(1, 40)).replace(b"\n", b"\t")
        # Fields in another order, and keys or PINs that are lower-case hex or empty.
        return dice.pick((b"ISSUE\t%s\t3\t123456\t3\t654321\t3\t0%s" % (random.lower(), end), b"ISSUE\t\t3\t\t3\t\t3\t0\t\t3",
                          b"ISSUE\t%s\t3\t123456\t3\t654321\t3\t0%s" % (random, end.lower()),
                          b"ISSUE\t%s\t3\t123456\t3\t654321\t3\t0\t%s0\t3" % (random, random),
                          b"ISSUE\t%s\t3\t123456\t3\t654321\t3\t0\t\t3" % random,
                          b"ISSUE\t3\t%s\t123456\t3\t654321\t3\t0%s" % (random, end),
                          b"ISSUE\t%s\t123456\t3\t654321\t3\t3\t0%s" % (random, end),
                          b"ISSUE\t%s\t3\t123456\t3\t654321\t0\t3%s" % (random, end),
                          b"ISSUE\t%s\t3\t123456\t3\t654321\t3\t0\t3\t%s" % (random, random),
                          b"ISSUE\t%s\t3\t123456\t3\t654321\t3%s\t0" % (random, end),
                          b"CMD\t%s\t00200001" % random))

    # ---------------------------------------------------------------------------------------------------------- cards

    def issue_good(self):
        """A new card of either mode. Its limits set how fragile it is, and so how many lines it is worth; gives that number."""
        dice = self.dice
        style = dice.weighted((("deep", 5), ("mixed", 3), ("fragile", 4)))
        if style == "deep":
            limits = [dice.pick((5, 10, 14, 15, 16, 17, 20, 127, 128)) for _ in range(4)]
            self.care, lines = 0.97, dice.pick((300, 500, 800, 1500))
        elif style == "mixed":
            limits = [dice.pick((1, 2, 3, 5, 10, 16, 17, 128)) for _ in range(4)]
            self.care, lines = 0.85, dice.pick((100, 200, 400))
        else:
            limits = [dice.pick((1, 1, 2, 3)) for _ in range(4)]
            self.care, lines = 0.3, dice.pick((20, 40, 80))
        key = bytes(range(16)) if dice.chance(0.1) else dice.bytes(16)
        admin = self.new_pin()
        user = admin if dice.chance(0.05) else self.new_pin()
        if self.card is not None:
            self.old_pins = [self.card.admin.value, self.card.user.value]
        self.patience = dice.pick((0.3, 0.8, 0.8, 0.97))
        # At times the same as the device key, which is allowed.
        transport_key = bytes(range(16, 32)) if dice.chance(0.1) else key if dice.chance(0.05) else dice.bytes(16)
        self.coding = dice.pick((0.02, 0.06, 0.12, 0.35))
        self.put(self.issue_line([key, limits[0], admin, limits[1], user, limits[2], dice.below(2), transport_key, limits[3]]))
        return lines

    def before_a_card(self):
        """Lines before the first good ISSUE."""
        dice = self.dice
        for _ in range(dice.pick((0, 1, 2, 4, 6))):
            self.put(dice.pick((b"RESET", b"CMD\t00200001\t" + hex_of(dice.bytes(16)), b"CMD\t\t", b"",
                                self.refused_issue())))

    def use_card(self, lines):
        """About so many lines with one card."""
        dice = self.dice
        end = len(self.lines) + lines
        if dice.chance(0.4):
            # A first file without the device right.
            self.create(log_in=0)
        for _ in range(dice.weighted(((0, 3), (1, 3), (2, 4), (5, 2)))):
            self.create_folder()
        if lines >= 100 and dice.chance(0.85):
            self.keep_notes()
        if lines >= 500 and dice.chance(0.5):
            self.pass_255()
        start = dice.weighted(((0, 2), (3, 4), (7, 4), (18, 2)))
        for _ in range(start):
            self.create()
        while len(self.lines) < end:
            dice.weighted((
                (self.use_file, 420), (self.show_pin, 130), (self.log_in_device, 55), (self.create, 60),
                (self.select, 65), (self.create_folder, 30), (self.two_firms, 45), (self.change_pin, 28), (self.reload_pin, 26), (self.noise, 26),
                (self.ask_challenge, 14), (self.fetch_nothing, 8), (self.fill_cyclic, 11), (self.fill_variable, 14),
                (self.keep_notes, 3), (self.use_codes, 70), (self.restore_codes, 40),
                (self.pass_255, 1), (self.use_up_tries, 14), (self.read_all, 2), (self.fill_directory, 2),
                (self.other_line, 72), (self.restart, 14), (self.use_current, 20)))()
        self.read_all()

    def other_line(self):
        self.put(self.bad_line() if self.dice.chance(0.7) else self.refused_issue())

    def restart(self):
        self.put(b"RESET")
        if self.dice.chance(0.4):
            self.use_current()
        if self.dice.chance(0.3) and self.card.files:
            # In the root, whatever folder was current before.
            self.by_sfi(self.dice.pick(self.card.files))

    def write(self):
        try:
            self.before_a_card()
            while True:
                self.use_card(self.issue_good())
        except Full:
            return self.lines


def script_of(seed, most_lines):
    """The script as bytes: so many lines, the last one with or without a newline."""
    generator = Generator(seed, most_lines)
    text = b"\n".join(generator.write())
    # An empty last line without a newline would be no line.
    return text + b"\n" if generator.last_newline or text.endswith(b"\n") or not text else text


# ---------------------------------------------------------------------------------------------------------------------
# The report
# ---------------------------------------------------------------------------------------------------------------------

COUNTS = tuple("63C%X" % left for left in range(16))

# What the five commands can answer with a code. "case" is case and Lc, before the code.
BEFORE_THE_FILE = ("6A86", "6700 case", "6983", "6984", "6988", "6A82")
CODED_LABELS = {
    "READ BINARY": BEFORE_THE_FILE + (
        "9000 28 current", "9000 28 SFI", "6981 2A", "6981 2C", "6981 2E", "6982 28", "6A84 28", "6700 28 length",
        "9000 28 current, Le 00", "9000 28 SFI, Le 00", "6981 2A, Le 00", "6981 2C, Le 00", "6981 2E, Le 00", "6982 28, Le 00",
        "6A84 28, Le 00"),
    "UPDATE BINARY": BEFORE_THE_FILE + (
        "9000 28 current", "9000 28 SFI", "6981 2A", "6981 2C", "6981 2E", "6982 28", "6A84 28", "6700 28 length"),
    "READ RECORD": BEFORE_THE_FILE + (
        "9000 2A current", "9000 2A SFI", "9000 2C current", "9000 2C SFI", "9000 2E current", "9000 2E SFI", "6981 28",
        "6982 2A", "6982 2C", "6982 2E", "6A83 2A", "6A83 2C", "6A83 2E", "6Cxx 2A", "6Cxx 2C", "6Cxx 2E"),
    "UPDATE RECORD": BEFORE_THE_FILE + (
        "9000 2A current", "9000 2A SFI", "9000 2C current", "9000 2C SFI", "9000 2E current", "9000 2E SFI", "6981 28",
        "6982 2A", "6982 2C", "6982 2E", "6A83 2A", "6A83 2C", "6A83 2E", "6700 2A length", "6700 2C length", "6700 2E length"),
    "APPEND RECORD": BEFORE_THE_FILE + (
        "9000 2C current", "9000 2C SFI", "9000 2C last byte", "9000 2E current", "9000 2E SFI", "9000 2E full", "6981 28", "6981 2A",
        "6982 2C", "6982 2E", "6700 2C length", "6700 2E length", "6A84 2C", "6A84 2C by one"),
}

# What each command can answer. "case" and "length" are the two places where 6700 stands in a command's checks, and "no code"
# is a command without one where the rights that are asked are held.
EXPECTED = {
    "SELECT": ("9000 file", "9000 file before a directory", "9000 directory", "9000 directory again", "9000 root", "9000 from inside to the root",
               "6A86", "6700", "6A82", "6A82 for a file elsewhere"),
    "READ BINARY": ("9000 28 current", "9000 28 SFI", "6A86", "6700 case", "6A82", "6981 2A", "6981 2C", "6981 2E", "6982 28",
                    "6A84 28", "6700 28 length", "9000 28 current, Le 00", "9000 28 SFI, Le 00", "6981 2A, Le 00",
                    "6981 2C, Le 00", "6981 2E, Le 00", "6982 28, Le 00", "6A84 28, Le 00", "6982 28 no code", "6982 28 no code, Le 00"),
    "UPDATE BINARY": ("9000 28 current", "9000 28 SFI", "6A86", "6700 case", "6A82", "6981 2A", "6981 2C", "6981 2E", "6982 28",
                      "6A84 28", "6700 28 length", "6982 28 no code"),
    "READ RECORD": ("9000 2A current", "9000 2A SFI", "9000 2C current", "9000 2C SFI", "9000 2E current", "9000 2E SFI",
                    "6A86", "6700 case", "6A82", "6981 28", "6982 2A", "6982 2C", "6982 2E", "6A83 2A", "6A83 2C", "6A83 2E",
                    "6Cxx 2A", "6Cxx 2C", "6Cxx 2E", "6982 2A no code", "6982 2C no code", "6982 2E no code"),
    "UPDATE RECORD": ("9000 2A current", "9000 2A SFI", "9000 2C current", "9000 2C SFI", "9000 2E current", "9000 2E SFI",
                      "6A86", "6700 case", "6A82", "6981 28", "6982 2A", "6982 2C", "6982 2E", "6A83 2A", "6A83 2C", "6A83 2E",
                      "6700 2A length", "6700 2C length", "6700 2E length", "6982 2A no code", "6982 2C no code", "6982 2E no code"),
    "APPEND RECORD": ("9000 2C current", "9000 2C SFI", "9000 2C last byte", "9000 2E current", "9000 2E SFI", "9000 2E full",
                      "6A86", "6700 case", "6A82", "6981 28", "6981 2A", "6982 2C", "6982 2E", "6700 2C length",
                      "6700 2E length", "6A84 2C", "6A84 2C by one", "6982 2C no code", "6982 2E no code"),
    "VERIFY": ("9000", "6A86", "6700", "6983", "6A80") + COUNTS,
    "VERIFY query": ("9000", "6A86", "6983") + COUNTS[1:],
    "EXTERNAL AUTHENTICATE": ("9000", "6A86", "6700", "6983", "6984") + COUNTS,
    "CHANGE PIN": ("9000", "6A86", "6700", "6982", "6A80"),
    "RELOAD PIN": ("9000", "6A86", "6700", "6982", "6A80"),
    "CREATE FILE": ("9000 28", "9000 2A", "9000 2C", "9000 2E", "6A86", "6700", "6982", "6A80", "6986", "6986 by a directory's FID",
                    "6A84 files", "6A84 room", "9000 28 inside", "9000 2A inside", "9000 2C inside", "9000 2E inside", "6A86 inside",
                    "6700 inside", "6982 inside", "6A80 inside", "6986 inside", "6A84 files inside", "6A84 room inside"),
    "CREATE FILE 38": ("9000", "9000 with 16 files", "6A86", "6700", "6982", "6A80", "6986 by a directory", "6986 by a file",
                       "6A84", "6A86 inside", "6700 inside", "6982 inside", "6A81 inside"),
    "GET CHALLENGE": ("9000", "6A86", "6700"),
    "GET RESPONSE": ("9000", "9000 Le 00", "9000 Le 00 of 256", "61xx", "6D00", "6A86", "6700", "6985", "6Cxx"),
    **{name + WITH_A_CODE: labels for name, labels in CODED_LABELS.items()},
    "(broken frame)": ("6700",),
    "(other class)": ("6E00",),
    "(not in the list)": ("6D00",),
    "(class 04, not in the list)": ("6D00",),
}


class Report:
    """Counts outcomes, and SWs by command and, where one SW has several causes, by cause."""

    def __init__(self):
        self.outcomes = Counter()
        self.pairs = defaultdict(Counter)
        self.full_before = {}
        self.waited_before = 0
        # How often so many bytes were made to wait.
        self.waited = Counter()
        # How often Le 00 read a binary file, by the bytes from the offset to the end.
        self.left = Counter()
        # How often a file's rights byte was asked, by the byte and the rights that were held.
        self.asked = Counter()
        # How often a creation right was, by the byte and the rights that were held.
        self.created_by = Counter()
        # How often a file was used by an SFI that files of other folders have too.
        self.shared = 0
        # The folder that was current before.
        self.folder_before = ROOT
        # How often a right code was met by the bytes that it covers, by the length of its challenge, and by the tries that it restored.
        self.covered = Counter()
        self.challenges = Counter()
        self.restored = Counter()
        # The transport key's tries and the challenge before.
        self.tries_before = 0
        self.challenge_before = b""
        # How often a code that was right was refused by a later check with tries restored.
        self.refused_later = 0
        # How often a 2C record of each length was read, and the highest number that was.
        self.lengths = Counter()
        self.highest = 0

    def watch(self, program, line, answer):
        outcome, data, sw = answer
        self.outcomes[line.split(b"\t")[0].decode("latin-1") if outcome != 9 else "(line)", outcome] += 1
        if sw is not None:
            sent = script.bytes_of(line.split(b"\t")[1])
            data, sw = as_in_mode_0(program.card, sent, data, sw)
            name, label = self.labels(program, sent, sw)
            self.pairs[name][label] += 1
            if name == "READ RECORD" and label.startswith("9000 2C"):
                self.lengths[len(data)] += 1
        if program.card is not None:
            if sw is not None and name != "GET RESPONSE" and program.card.waiting:
                self.waited[len(program.card.waiting)] += 1
            self.waited_before = len(program.card.waiting)
            self.tries_before, self.challenge_before = program.card.transport.tries, program.card.challenge
            self.folder_before = program.card.folder
            self.full_before = {file: file.records == file.count for file in program.card.files if file.kind == cards.CYCLIC}

    def labels(self, program, sent, sw):
        frame = cards.frame_of(sent)
        label = "%04X" % sw
        if frame is None:
            return "(broken frame)", label
        if sw == 0x6E00:
            return "(other class)", label
        name = NAMES.get((sent[0], sent[1]))
        if name is None:
            return "(class 04, not in the list)" if sent[0] == cards.CODED else "(not in the list)", label
        if name.removesuffix(WITH_A_CODE) in FILE_COMMANDS:
            if sent[0] == cards.CODED:
                self.note_code(program.card, name, frame, sw)
            return name, self.file_label(program.card, name.removesuffix(WITH_A_CODE), frame, sw)
        elif name == "SELECT":
            return name, self.select_label(program.card, frame, sw)
        elif name == "CREATE FILE":
            return self.create_labels(program.card, frame, sw)
        elif name == "GET RESPONSE":
            return name, self.response_label(frame, sw)
        elif name == "VERIFY" and frame.case == 1:
            name = "VERIFY query"
        return name, label

    def select_label(self, card, frame, sw):
        """The SW, and what was found."""
        label = "%04X" % sw
        if sw not in (0x9000, 0x6A82):
            return label
        fid = frame.data[0] << 8 | frame.data[1]
        if sw == 0x6A82:
            return label + (" for a file elsewhere" if cards.with_fid(card.files, fid) is not None else "")
        if card.current is not None:
            return label + (" file before a directory" if cards.with_fid(card.folders, fid) is not None else " file")
        if card.folder is ROOT:
            return label + (" root" if self.folder_before is ROOT else " from inside to the root")
        return label + (" directory again" if self.folder_before is card.folder else " directory")

    def create_labels(self, card, frame, sw):
        """CREATE FILE makes a file or a directory; the SW, where that was, and what parts one cause of the SW from another."""
        label, inside = "%04X" % sw, "" if card.folder is ROOT else " inside"
        if inside and sw not in (0x6A86, 0x6700):
            self.created_by[card.folder.right, card.admin.held, card.user.held, card.device.held] += 1
        fid = frame.p1 << 8 | frame.p2
        if frame.data[:1] == bytes((cards.FOLDER,)):
            if sw == 0x9000 and len(card.files) == cards.MOST_FILES:
                label += " with 16 files"
            if sw == 0x6986:
                label += " by a directory" if cards.with_fid(card.folders, fid) is not None else " by a file"
            return "CREATE FILE 38", label + inside
        if sw == 0x9000:
            label += " %02X" % card.current.kind
        elif sw == 0x6A84:
            label += " files" if len(card.files) == cards.MOST_FILES else " room"
        elif sw == 0x6986 and cards.file_by_sfi(card, fid & 0x1F) is None:
            label += " by a directory's FID"
        return "CREATE FILE", label + inside

    def response_label(self, frame, sw):
        """The SW, and how all that wait were asked for."""
        if sw >> 8 in (0x61, 0x6C):
            return "%02Xxx" % (sw >> 8)
        label = "%04X" % sw
        if sw == 0x9000 and frame.le == 256:
            return label + (" Le 00 of 256" if self.waited_before == 256 else " Le 00")
        return label

    def note_code(self, card, name, frame, sw):
        """Counts the right codes."""
        if not has_code_form(name, frame) or sw in (0x6A86, 0x6983, 0x6984, 0x6988):
            return
        self.covered[1 + len(frame.data)] += 1
        self.challenges[len(self.challenge_before)] += 1
        self.restored[card.transport.limit - self.tries_before] += 1
        self.refused_later += sw != 0x9000 and self.tries_before < card.transport.limit

    def file_label(self, card, name, frame, sw):
        """The SW, where a file was found its type, and what parts one cause of the SW from another."""
        label = "%04X" % sw if sw & 0xFF00 != 0x6C00 else "6Cxx"
        has_form = has_code_form(name, frame) if frame.is_coded else frame.case == (2 if name.startswith("READ") else 3)
        if sw == 0x6700 and not has_form:
            return label + " case"
        if sw in (0x6A86, 0x6A82, 0x6983, 0x6984, 0x6988):
            return label
        # The file that was named: a refused command changes none, and one that ends 9000 makes it current.
        sfi = named_sfi(name, frame.p1, frame.p2)
        file = card.current if sw == 0x9000 else cards.named_file(card, sfi)
        label += " %02X" % file.kind
        if sfi and any(other.sfi == sfi and other.folder is not file.folder for other in card.files):
            self.shared += 1
        if sw != 0x6981:
            byte = file.read if name.startswith("READ") else file.write
            self.asked[byte, card.admin.held, card.user.held, card.device.held] += 1
            if sw == 0x6982 and cards.is_allowed(card, byte):
                label += " no code"
        if name == "READ RECORD" and sw == 0x9000 and file.kind == cards.VARIABLE:
            self.highest = max(self.highest, frame.p1)
        if name == "READ BINARY" and frame.le == 256:
            # A 6700 would have a label that is not in the table: Le 00 never gets one.
            if sw == 0x9000:
                self.left[file.size - (frame.p2 if sfi else frame.p1 << 8 | frame.p2)] += 1
                label += " SFI" if sfi else " current"
            return label + ", Le 00"
        if name == "APPEND RECORD" and sw == 0x9000 and self.full_before.get(file):
            return label + " full"
        if name == "APPEND RECORD" and sw == 0x9000 and file.kind == cards.VARIABLE and file.used == file.size:
            return label + " last byte"
        if sw == 0x9000:
            return label + (" SFI" if sfi else " current")
        if sw == 0x6700:
            return label + " length"
        if name == "APPEND RECORD" and sw == 0x6A84 and len(frame.data) - cards.CODE_SIZE * frame.is_coded == file.size - file.used:
            return label + " by one"
        return label

    def show(self, lines):
        """Prints the counts; gives whether every answer that a command can give was reached."""
        print("%d lines" % lines)
        for (first, outcome), count in sorted(self.outcomes.items()):
            print("  %-8s outcome %d: %d" % (first, outcome, count))
        missing = []
        for name, expected in EXPECTED.items():
            reached = self.pairs[name]
            print("%-22s %6d" % (name, sum(reached.values())))
            print("    " + "  ".join("%s: %d" % (label, reached[label]) for label in expected))
            missing += ["%s %s" % (name, label) for label in expected if not reached[label]]
            unexpected = sorted(set(reached) - set(expected))
            missing += ["%s %s is not in the table" % (name, label) for label in unexpected]
        edges = (1, 2, 254, 255, 256, 257, 258)
        print("READ BINARY with Le 00: %s; %d with under 256 left, %d with more" % (
            ", ".join("%d with %d" % (self.left[left], left) for left in edges),
            sum(self.left[left] for left in self.left if left < 256), sum(self.left[left] for left in self.left if left > 256)))
        print("rights bytes asked with sets of held rights: %d of %d pairs, the rarest %d times" % (
            len(self.asked), 8 * len(GOOD_RIGHTS), min(self.asked.values(), default=0)))
        print("creation rights asked with sets of held rights: %d of %d pairs; files used by an SFI that others have elsewhere: %d" % (
            len(self.created_by), 8 * len(GOOD_CREATION), self.shared))
        if self.shared == 0:
            missing.append("an SFI that files in other directories have too")
        print("2C records read: %d lengths, %s; the highest number is %d" % (
            len(self.lengths), ", ".join("%d of %d" % (self.lengths[length], length) for length in (1, 177, 178)), self.highest))
        lengths = sorted(self.covered)
        print("right codes: %d, over %d lengths of message, %s; %s; %d restored tries, %d of them refused by a later check" % (
            sum(self.covered.values()), len(lengths), ", ".join("%d of %d" % (self.covered[length], length) for length in (5, 15, 16, 17, 32, 256)),
            ", ".join("%d challenges of %d" % (self.challenges[length], length) for length in (4, 8, 16)),
            sum(count for restored, count in self.restored.items() if restored), self.refused_later))
        if not self.refused_later or min(self.challenges[length] for length in (4, 8, 16)) == 0:
            missing.append("right codes of every kind")
        print("replies that waited: %d; %s" % (
            sum(self.waited.values()), ", ".join("%d of %d" % (self.waited[length], length) for length in (1, 2, 254, 255, 256))))
        for entry in missing:
            print("MISSING: " + entry)
        return not missing


def number(word):
    """For argparse, which takes a ValueError for a refusal."""
    if not word.isdigit():
        raise ValueError
    return int(word)


def main():
    parser = argparse.ArgumentParser(
        prog="python3 tests/model/generate.py", description=__doc__, formatter_class=argparse.RawDescriptionHelpFormatter)
    parser.add_argument("--report", action="store_true", help="count what the script reaches, in place of writing it")
    parser.add_argument("seed", metavar="SEED", type=number)
    parser.add_argument("lines", metavar="LINES", type=number)
    asked = parser.parse_args()
    if asked.report:
        report = Report()
        lines = Generator(asked.seed, asked.lines, report.watch).write()
        return 0 if report.show(len(lines)) else 1
    sys.stdout.buffer.write(script_of(asked.seed, asked.lines))
    return 0


if __name__ == "__main__":
    sys.exit(main())
