"""Checks the model itself against document 01 and requests R-1, R-2 and R-4 to R-10 of document 02.

The expected answers are worked out from the papers, and codes by the openssl command line.
"""

import argparse
import sys

import card as cards
import codes
import cuts
import generate
import script
import text as texts
import text_cases

RANDOM = "00112233445566778899AABBCCDDEEFF"
KEY = "000102030405060708090A0B0C0D0E0F"
CIPHERTEXT = "69C4E0D86A7B0430D8CDB78070B4C55A"
TRANSPORT_KEY = "101112131415161718191A1B1C1D1E1F"

passed, failed = 0, 0


def check(name, actual, expected):
    global passed, failed
    if actual == expected:
        passed += 1
    else:
        failed += 1
        print("FAILED %s: %r, and %r was expected" % (name, actual, expected))


class Session:
    """A script that is written and answered line by line. An answer is "DATA SW", "SW", or the outcome alone."""

    def __init__(self, key=KEY, key_limit=128, admin="87654321", admin_limit=5, user="123456", user_limit=3, mode=0,
                 transport_key=TRANSPORT_KEY, transport_limit=10):
        self.program = script.Program()
        self.transport_key = transport_key
        self.line("ISSUE\t%s\t%d\t%s\t%d\t%s\t%d\t%d\t%s\t%d" % (
            key, key_limit, admin, admin_limit, user, user_limit, mode, transport_key, transport_limit))

    def line(self, text):
        outcome, data, sw = self.program.answer(text.encode("latin-1"))
        if sw is None:
            return str(outcome)
        return ("%s %04X" % (data.hex().upper(), sw)).strip()

    def send(self, sent, random=RANDOM):
        return self.line("CMD\t%s\t%s" % (sent.replace(" ", ""), random))

    def reset(self):
        return self.line("RESET")

    def log_in(self):
        """The device right, by the vector of FIPS 197 C.1."""
        self.send("0084000010")
        return self.send("0082000010" + CIPHERTEXT)

    def fetch(self, le=0):
        """What a command left waiting, joined, by GET RESPONSE with this Le or the count where that is less; then the last SW."""
        joined = ""
        while True:
            waits = len(self.program.card.waiting)
            *part, sw = self.send("00C00000%02X" % (min(le, waits) & 0xFF)).split()
            joined += "".join(part)
            if sw[:2] != "61":
                return joined + " " + sw
            check("61 and what remains", int(sw[2:], 16), len(self.program.card.waiting) & 0xFF)

    def coded(self, header, data="", le="", challenge=16):
        """INS, P1 and P2 in class 04, with data, the code that openssl gives and Le; before it a challenge of so many bytes."""
        self.send("00840000%02X" % challenge)
        return self.send(coded(header, data, le, challenge, self.transport_key))

    def tries_of_codes(self):
        return self.program.card.transport.tries

    def admin(self):
        return self.send("0020000008 3837363534333231")

    def user(self):
        return self.send("0020000106 313233343536")


def coded(header, data="", le="", challenge=16, key=TRANSPORT_KEY):
    """A command of class 04 with the code that openssl gives for so many bytes of RANDOM."""
    data = data.replace(" ", "")
    message = "04" + header.replace(" ", "") + "%02X" % (len(data) // 2 + 4) + data
    return message + codes.code(key, RANDOM[:2 * challenge], message) + le


def device_session(**options):
    session = Session(**options)
    session.log_in()
    return session


# ---------------------------------------------------------------------------------------------------------------------


def test_cipher():
    def encrypt(key, block):
        return cards.encrypt(bytes.fromhex(key), bytes.fromhex(block)).hex().upper()

    check("FIPS 197 C.1", encrypt(KEY, RANDOM), CIPHERTEXT)
    check("FIPS 197 B", encrypt("2B7E151628AED2A6ABF7158809CF4F3C", "3243F6A8885A308D313198A2E0370734"),
          "3925841D02DC09FBDC118597196A0B32")
    check("S-box", (cards.S_BOX[0x00], cards.S_BOX[0x01], cards.S_BOX[0x53], cards.S_BOX[0xFF]),
          (0x63, 0x7C, 0xED, 0x16))
    check("S-box holds every byte", sorted(cards.S_BOX), list(range(256)))
    for key, block, output in ((15, 16, 16), (17, 16, 16), (16, 15, 16), (16, 17, 16), (16, 16, 15), (16, 16, 17)):
        buffer = bytearray(b"\x55" * output)
        check("cipher %d %d %d" % (key, block, output),
              (cards.cipher(bytes(key), bytes(block), buffer), bytes(buffer)), (6, b"\x55" * output))
    buffer = bytearray(16)
    check("cipher served", (cards.cipher(bytes(range(16)), bytes.fromhex(RANDOM), buffer), buffer.hex().upper()),
          (0, CIPHERTEXT))


def test_example():
    text = """\
ISSUE	000102030405060708090A0B0C0D0E0F	128	87654321	5	123456	3	0	101112131415161718191A1B1C1D1E1F	10
CMD	0020000106313131313131	R
CMD	00200001	R
CMD	0020000106313233343536	R
CMD	0084000004	R
CMD	00A40000021234	R
RESET
CMD	00200001	R
""".replace("\tR\n", "\t%s\n" % RANDOM)
    expected = """\
line	outcome	data	sw
1	0	-	-
2	0	-	63C2
3	0	-	63C2
4	0	-	9000
5	0	00112233	9000
6	0	-	6A82
7	0	-	-
8	0	-	63C3
"""
    check("the example", script.run(script.lines_of(text.encode())).decode(), expected)


def test_edges():
    session = Session()
    check("3 bytes", session.send("002000"), "6700")
    check("a query", session.send("00200001"), "63C3")
    check("five digits", session.send("0020000105 3132333435"), "6700")

    session = Session(user_limit=1)
    check("limit 1, wrong", session.send("0020000106 313131313131"), "63C0")
    check("then right", session.user(), "6983")
    check("then a query", session.send("00200001"), "6983")

    session = Session(user_limit=128)
    check("limit 128, wrong", session.send("0020000106 313131313131"), "63CF")

    session = device_session()
    check("cyclic file of two", session.send("80E00001 05 2E02010000"), "9000")
    check("number 1 of none", session.send("00B2010400"), "6A83")
    for record in ("41", "42", "43"):
        check("append " + record, session.send("00E2000001" + record), "9000")
    check("number 1 is C", session.send("00B2010400"), "43 9000")
    check("number 2 is B", session.send("00B2020401"), "42 9000")
    check("number 3", session.send("00B2030400"), "6A83")

    check("binary of 16", session.send("80E00002 05 2800100000"), "9000")
    check("offset 15, Le 01", session.send("00B0000F01"), "00 9000")
    check("offset 16", session.send("00B0001001"), "6A84")
    check("offset 15, Le 02", session.send("00B0000F02"), "6700")
    check("update, offset 15, Lc 01", session.send("00D6000F01AB"), "9000")
    check("update, offset 16", session.send("00D6001001AB"), "6A84")
    check("update, offset 15, Lc 02", session.send("00D6000F02ABCD"), "6700")
    check("what was updated", session.send("00B0000010"), "00" * 15 + "AB 9000")

    session = device_session()
    check("a file of 4,096", session.send("80E00001 05 2810000000"), "9000")
    check("one byte after it", session.send("80E00002 05 2800010000"), "6A84")
    check("its last byte", session.send("00B00FFF01"), "00 9000")
    check("behind its last byte", session.send("00B0100001"), "6A84")
    check("its last 256", session.send("00B00F0000"), "00" * 256 + " 9000")
    check("4,097", device_session().send("80E00001 05 2810010000"), "6A80")

    session = Session()
    check("challenge", session.send("0084000010"), RANDOM + " 9000")
    check("device login", session.send("0082000010" + CIPHERTEXT), "9000")
    check("challenge is used up", session.send("0082000010" + CIPHERTEXT), "6984")


def test_errors_that_look_right():
    session = device_session()
    session.send("80E00001 05 2E02010000")
    check("a full cyclic file takes records", [session.send("00E2000001%02X" % number) for number in range(9)],
          ["9000"] * 9)
    check("the newest two stay", [session.send("00B20%d0400" % number) for number in (1, 2, 3)],
          ["08 9000", "07 9000", "6A83"])

    for between in ("", "00", "00A4", "002000", "0020000100", "00A40000021234", "01A4000002123400", "80A4000002", "00FF0000",
                    "0084000005", "0084000104", "00200001", "00B0000001", "0024000006313131313131"):
        session = Session()
        session.send("0084000010")
        session.send(between)
        check("no challenge after %s" % (between or "an empty command"), session.send("0082000010" + CIPHERTEXT), "6984")
    for between, random in (("00200001", ""), ("00200001", RANDOM + "00"), ("0084000004", RANDOM[:-2])):
        session = Session()
        session.send("0084000010")
        check("outcome 3", session.send(between, random), "3")
        check("a challenge after outcome 3", session.send("0082000010" + CIPHERTEXT), "9000")

    session = Session(user_limit=3)
    session.send("0020000106 313131313131")
    check("a query is no guess", [session.send("00200001") for _ in range(5)], ["63C2"] * 5)
    check("the right one still", session.user(), "9000")

    session = Session()
    session.admin()
    session.user()
    check("user right is held", session.send("00200001"), "9000")
    check("reload", session.send("002C020106 393939393939"), "9000")
    check("user right is dropped", session.send("00200001"), "63C3")
    check("the old PIN is wrong", session.user(), "63C2")
    check("the new PIN is right", session.send("0020000106 393939393939"), "9000")


def test_calls():
    def state(mode=0):
        outcome, made = cards.issue(area, bytes(16), 3, b"123456", 3, b"123456", 3, mode, bytes(16), 3)
        assert outcome == 0
        return made

    def call(made, area_size=4096, random=16, reply_size=258, sent="0084000004"):
        lent, reply = bytearray(b"\xAA" * area_size), bytearray(b"\x55" * reply_size)
        before = snapshot(made)
        outcome, written = cards.command(made, lent, bytes.fromhex(sent), bytes(random), reply)
        untouched = lent == b"\xAA" * area_size and snapshot(made) == before
        return outcome, written, untouched, reply == b"\x55" * reply_size

    area = bytearray(4096)
    refused = (0, True, True)
    check("reply of 257", call(state(), reply_size=257), (1, *refused))
    check("reply of 257 and all else wrong", call(cards.Card(), 4095, 15, 257), (1, *refused))
    check("area of 4,095", call(cards.Card(), 4095, 15), (2, *refused))
    check("area of 4,097", call(state(), 4097), (2, *refused))
    check("random of 15", call(cards.Card(), random=15), (3, *refused))
    check("random of 17", call(state(), random=17), (3, *refused))
    check("a blank state", call(cards.Card()), (4, *refused))
    check("reset of a blank state", cards.reset(cards.Card(), bytearray(4096)), 4)
    for size in (0, 4095, 4097):
        made = state()
        cards.command(made, area, bytes.fromhex("0084000004"), bytes(16), bytearray(258))
        before = snapshot(made)
        check("reset with an area of %d" % size, (cards.reset(made, bytearray(size)), snapshot(made)), (2, before))
        check("reset checks an area of %d first" % size, cards.reset(cards.Card(), bytearray(size)), 2)
    marked = bytearray(b"\xAA" * 4096)
    check("reset", cards.reset(state(), marked), 0)
    check("reset leaves the area", bytes(marked), b"\xAA" * 4096)

    reply = bytearray(b"\x55" * 300)
    made = state()
    check("served", cards.command(made, area, bytes.fromhex("0084000004"), bytes.fromhex(RANDOM), reply), (0, 6))
    check("reply bytes past data and SW stay", reply.hex().upper(), "001122339000" + "55" * 294)
    reply = bytearray(b"\x55" * 300)
    made = state(mode=1)
    check("served in mode 1", cards.command(made, area, bytes.fromhex("0084000004"), bytes.fromhex(RANDOM), reply), (0, 2))
    check("data that wait are not in the reply", reply.hex().upper(), "6104" + "55" * 298)

    marked = bytearray(b"\xAA" * 4096)
    good = (bytes(16), 1, b"123456", 128, b"0123456789012345", 1, 0, bytes(16), 128)
    check("issue", cards.issue(marked, *good)[0], 0)
    check("issue clears the area", bytes(marked), bytes(4096))
    for place, value in ((0, bytes(15)), (0, bytes(17)), (1, 0), (1, 129), (3, 0), (3, 129), (5, 0), (5, 129),
                         (2, b"12345"), (2, b"12345678901234567"), (2, b"12345/"), (2, b"12345:"),
                         (4, b"12345"), (4, b"12345678901234567"), (4, b"/23456"), (4, b":23456"), (4, b""),
                         (6, 2), (6, 3), (6, 128), (6, 255), (6, 256), (6, 257), (6, 65535),
                         (7, b""), (7, bytes(15)), (7, bytes(17)), (7, bytes(32)), (8, 0), (8, 129), (8, 256), (8, 257), (8, 65535)):
        marked = bytearray(b"\xAA" * 4096)
        arguments = list(good)
        arguments[place] = value
        outcome, blank = cards.issue(marked, *arguments)
        check("issue with %r" % (value,), (outcome, snapshot(blank), marked == b"\xAA" * 4096),
              (5, snapshot(cards.Card()), True))
    for mode in (0, 1):
        outcome, made = cards.issue(bytearray(4096), *good[:6], mode, *good[7:])
        check("issue with mode %d" % mode, (outcome, made.mode, made.waiting), (0, mode, b""))
    for limit in (1, 2, 127, 128):
        outcome, made = cards.issue(bytearray(4096), *good[:7], b"K" * 16, limit)
        check("issue with a transport key", (outcome, made.transport.value, made.transport.limit, made.transport.tries, made.transport.held),
              (0, b"K" * 16, limit, limit, False))
    check("issue with an area of 4,095", cards.issue(bytearray(4095), *good)[0], 2)
    check("issue checks the area first", cards.issue(bytearray(4095), b"", *good[1:])[0], 2)

    # Each clause of soundness, broken alone.
    session = device_session()
    session.send("80E00001 05 2800100000")
    session.send("80E00002 05 2A02010000")
    session.send("80E00003 05 2E02010000")
    session.send("80E00005 05 2C00080000")
    session.send("00E2000003 010202")
    held, area = session.program.card, session.program.area
    check("a sound state", cards.is_sound(held, area), True)
    binary, fixed, cyclic, variable = held.files
    stranger = cards.File(0x0004, 0x28, 1, 0, 0, 0, 0, 0)
    for owner, field, value in (
            (held.device, "value", bytes(15)), (held.admin, "value", b"12345"), (held.user, "value", b"12345A"),
            (held.user, "limit", 129), (held.user, "limit", 0), (held.user, "tries", 4), (held.user, "tries", -1),
            (held.transport, "value", bytes(15)), (held.transport, "value", bytes(17)), (held.transport, "value", b""),
            (held.transport, "limit", 9), (held.transport, "limit", 0), (held.transport, "limit", 129), (held.transport, "tries", 11),
            (held.transport, "tries", -1), (held.transport, "held", True),
            (held.device, "tries", 127), (binary, "fid", 0x0002), (binary, "fid", 0x0020), (binary, "fid", 0x001F),
            (binary, "kind", 0x29), (binary, "size", 0), (binary, "size", 4097), (binary, "records", 1),
            (binary, "newest", 1), (fixed, "records", 1), (fixed, "newest", 1), (fixed, "count", 1), (fixed, "count", 255),
            (fixed, "length", 0), (fixed, "length", 179), (cyclic, "records", 3), (cyclic, "newest", 2),
            (cyclic, "newest", 1), (binary, "read", 0x02), (cyclic, "write", 0x8F), (binary, "write", 0x0E), (fixed, "read", 0x12),
            (fixed, "write", 0x06), (cyclic, "read", 0x02), (cyclic, "start", 19), (binary, "read", 0x06), (binary, "write", 0x0C),
            (fixed, "read", 0x14), (cyclic, "write", 0x24), (variable, "write", 0x06), (variable, "read", 0x0D), (fixed, "write", 0xCF),
            (binary, "used", 1), (fixed, "used", 1), (cyclic, "used", 1), (variable, "records", 1), (variable, "newest", 1),
            (variable, "used", -1), (variable, "used", 1), (variable, "used", 2), (variable, "used", 3), (variable, "used", 5),
            (variable, "used", 9), (variable, "size", 1), (variable, "size", 3), (variable, "size", 4097),
            (variable, "start", 21), (variable, "read", 0x02), (variable, "fid", 0x0001),
            (held, "current", stranger), (held, "challenge", bytes(5)), (held, "files", [binary] * 17),
            (held, "mode", 2), (held, "mode", 3), (held, "mode", 255), (held, "waiting", b"\x00"), (held, "waiting", bytes(256)),
            (held, "waiting", bytes(257))):
        kept = getattr(owner, field)
        setattr(owner, field, value)
        check("unsound with %s %r" % (field, value), cards.is_sound(held, area), False)
        setattr(owner, field, kept)
    for owner, field, value in ((binary, "read", 0xC2), (binary, "write", 0x82), (fixed, "read", 0x42), (cyclic, "write", 0x03),
                                (variable, "read", 0xC3), (variable, "write", 0x0F),
                                (binary, "read", 0x04), (binary, "write", 0x44), (fixed, "write", 0xC6), (cyclic, "read", 0x05),
                                (cyclic, "write", 0x47), (variable, "read", 0x86), (variable, "write", 0xC4), (fixed, "read", 0x07)):
        kept = getattr(owner, field)
        setattr(owner, field, value)
        check("sound with %s %02X" % (field, value), cards.is_sound(held, area), True)
        setattr(owner, field, kept)
    for tries in range(11):
        held.transport.tries = tries
        check("sound with %d tries of the transport key" % tries, cards.is_sound(held, area), True)
    held.mode = 1
    for length, expected in ((0, True), (1, True), (255, True), (256, True), (257, False), (512, False)):
        held.waiting = b"\x5A" * length
        check("%d bytes waiting in mode 1" % length, cards.is_sound(held, area), expected)
    held.waiting = b"\x5A"
    for mode in (0, 2, 255):
        held.mode = mode
        check("a byte waiting in mode %d" % mode, cards.is_sound(held, area), False)
    held.mode, held.waiting = 0, b""
    cyclic.records, cyclic.newest = 1, 1
    check("newest may be any place, also when not full", cards.is_sound(held, area), True)


def test_folder_soundness():
    session = device_session()
    for sent in ("80E05101 05 3800000100", "80E05102 05 3800000F00", "80E00001 05 2800010000", "80E00002 05 2E02010000",
                 "00A40000025101", "80E05201 05 2800010000", "80E05102 05 2A02010000"):
        check("made by %s" % sent, session.send(sent), "9000")
    held, area = session.program.card, session.program.area
    first, second = held.folders
    in_root, cyclic, inside, fixed = held.files
    check("a sound state with directories", cards.is_sound(held, area), True)
    stranger = cards.Folder(0x5103, 0)
    third, fourth, fifth = cards.Folder(0x5103, 0), cards.Folder(0x0021, 0xC2), cards.Folder(0x5104, 0)
    # Each clause broken alone, and what is beside it.
    for expected, owner, field, value in (
            (False, first, "fid", 0x5102), (False, first, "fid", 0x5100), (False, first, "fid", 0x511F), (False, first, "fid", 0x3F00),
            (False, first, "fid", 0x0000), (False, first, "fid", 0x513F), (True, first, "fid", 0x5121), (True, first, "fid", 0x511E),
            (False, first, "fid", 0x0001), (False, second, "fid", 0x0002), (True, first, "fid", 0x0021), (True, first, "fid", 0x5201),
            (False, in_root, "fid", 0x5101), (False, in_root, "fid", 0x5102), (True, in_root, "fid", 0x5103), (True, in_root, "fid", 0x5121),
            (True, inside, "fid", 0x5101), (False, inside, "fid", 0x5102), (True, inside, "fid", 0x0001), (False, inside, "fid", 0x0002),
            (False, inside, "fid", 0x5200), (False, inside, "fid", 0x521F), (True, inside, "fid", 0x521E),
            (False, first, "right", 0x02), (False, first, "right", 0x04), (False, second, "right", 0x8F), (False, second, "right", 0x0E),
            (False, first, "right", 0x44), (False, first, "right", 0xC6), (False, first, "right", 0x07), (False, second, "right", 0xC4),
            (False, first, "right", 0x10), (False, first, "right", 0x05), (True, first, "right", 0x00), (True, first, "right", 0x0F),
            (True, second, "right", 0xC2), (True, second, "right", 0xC1), (True, second, "right", 0x03), (True, second, "right", 0x82),
            (False, inside, "folder", stranger), (False, in_root, "folder", stranger), (True, inside, "folder", second),
            # In the root its SFI is used; the same FID is no matter elsewhere.
            (False, inside, "folder", None), (False, in_root, "folder", first), (True, in_root, "folder", second),
            (False, held, "folder", None), (False, held, "folder", second), (False, held, "folder", stranger),
            (False, held, "current", in_root), (False, held, "current", cyclic), (True, held, "current", inside),
            (True, held, "current", None), (False, held, "folders", []), (False, held, "folders", [second]),
            (False, held, "folders", [first, first]),
            (True, held, "folders", [first]), (True, held, "folders", [second, first]), (True, held, "folders", [first, second, third]),
            (True, held, "folders", [first, second, third, fourth]), (False, held, "folders", [first, second, third, fourth, fifth])):
        kept = getattr(owner, field)
        setattr(owner, field, value)
        shown = "%04X" % value if isinstance(value, int) else value
        check("sound with %s %s" % (field, shown), cards.is_sound(held, area), expected)
        before = snapshot(held)
        check("reset with %s %s" % (field, shown), cards.reset(held, area), 0 if expected else 4)
        if expected:
            check("at the root behind it", (held.current, held.folder), (None, None))
        else:
            check("left as it was with %s %s" % (field, shown), snapshot(held), before)
        held.current, held.folder = fixed, first
        setattr(owner, field, kept)
    # No current file: any folder that is there may be current, and no other.
    for folder, expected in ((None, True), (first, True), (second, True), (stranger, False)):
        held.current, held.folder = None, folder
        check("no current file in %r" % folder, cards.is_sound(held, area), expected)


def test_folders():
    # Creating: order of refusals, in the root.
    session = Session()
    for sent, expected in (
            # 6A86 before 6700 before 6982, all before the type is looked at.
            ("80E05100 05 3800000000", "6A86"), ("80E0511F 05 3800000000", "6A86"), ("80E03F00 05 3800000000", "6A86"),
            ("80E05100 04 38000000", "6A86"), ("80E05100", "6A86"), ("80E05101 04 38000000", "6700"), ("80E05101 06 380000000000", "6700"),
            ("80E05101 05 380000000000", "6700"), ("80E05101", "6700"), ("80E0510105", "6700"), ("80E05101 05 3800000000", "6982"),
            ("80E05101 05 3801000000", "6982"), ("80E05101 05 3800000200", "6982")):
        check("create %s without the device right" % sent, session.send(sent), expected)
    session.log_in()
    for sent, expected in (
            ("80E05101 05 3801000000", "6A80"), ("80E05101 05 3800010000", "6A80"), ("80E05101 05 3800000001", "6A80"),
            ("80E05101 05 380000000F", "6A80"), ("80E05101 05 3810000000", "6A80"), ("80E05101 05 3880000000", "6A80"),
            ("80E05101 05 3800000200", "6A80"), ("80E05101 05 3800000400", "6A80"), ("80E05101 05 3800000800", "6A80"),
            ("80E05101 05 3800008F00", "6A80"), ("80E05101 05 3700000000", "6A80"), ("80E05101 05 3900000000", "6A80"),
            ("00A40000025101", "6A82"), ("80E05101 05 3800000000", "9000"), ("00A40000025101", "9000"), ("00A40000023F00", "9000"),
            # 6A80 before 6986, 6986 before 6A84; only the same FID clashes.
            ("80E05101 05 3800000000", "6986"), ("80E05101 05 3801000000", "6A80"), ("80E05101 05 3800000F00", "6986"),
            ("80E05121 05 3800000F00", "9000"), ("80E05101 05 2800010000", "6986"), ("80E05121 05 2A02010000", "6986"),
            ("80E05101 05 2800000000", "6A80"), ("80E05141 05 2800010000", "9000"), ("80E05161 05 2800010000", "6986"),
            ("80E05141 05 3800000000", "6986"), ("80E05161 05 3800000000", "9000"), ("80E0FFFE 05 380000C200", "9000"),
            ("80E0FFFE 05 3800000000", "6986"), ("80E05141 05 3800000000", "6986"), ("80E00001 05 3800000000", "6A84"),
            ("80E00001 05 3800000200", "6A80"), ("80E05181 05 2800010000", "6986"), ("80E05182 05 2800010000", "9000"),
            ("80E0FFFE 05 2800010000", "6986"), ("80E0FFDE 05 2800010000", "9000"), ("00A40000025161", "9000"),
            ("80E05183 05 2800010000", "9000")):
        check("create %s" % sent, session.send(sent), expected)

    # Every creation right: good ones as a file's that asks no code, others 6A80.
    for byte in range(256):
        session = device_session()
        check("creation right %02X" % byte, session.send("80E05101 05 380000%02X00" % byte), "9000" if byte in ASKED else "6A80")
    # Every type with sizes 0: only 38 makes anything. Inside a directory 38 is 6A81, and the rest 6A80 as in the root.
    session = device_session()
    check("types in the root", [kind for kind in range(256) if session.send("80E05201 05 %02X00000000" % kind) != "6A80"], [0x38])
    session.send("00A40000025201")
    check("types inside", {kind: sw for kind in range(256) for sw in [session.send("80E05301 05 %02X00000000" % kind)] if sw != "6A80"},
          {0x38: "6A81"})
    session = device_session()
    check("low bits of a FID", [low for low in range(32) if session.send("80E051%02X 05 3801000000" % low) != "6A86"],
          list(range(1, 31)))

    # Inside a directory: 6982 by its creation right, then 6A81, both before 6A80.
    session = device_session()
    for sent, expected in (
            ("80E05101 05 3800008000", "9000"), ("80E05102 05 3800000000", "9000"), ("80E05103 05 3800000F00", "9000"),
            ("00A40000025101", "9000"), ("80E00001 05 2800010000", "6982"), ("80E00001 05 3800000000", "6982"),
            ("80E00001 05 FF00000000", "6982"), ("80E00001 04 38000000", "6700"), ("80E00000 05 3800000000", "6A86"),
            ("0020000008 3837363534333231", "9000"), ("80E00001 05 3800000000", "6A81"), ("80E00001 05 38FFFFFFFF", "6A81"),
            ("80E05101 05 3800000000", "6A81"), ("80E00001 05 FF00000000", "6A80"), ("80E00001 05 2800010000", "9000"),
            ("80E00001 05 3800000000", "6A81"), ("80E00001 05 2800010000", "6986"), ("80E00021 05 2800010000", "6986"),
            ("00A40000025103", "9000"), ("80E00001 05 2800010000", "6982"), ("80E00001 05 3800000000", "6982"),
            ("00A40000025102", "9000"), ("80E00001 05 2800010000", "9000"), ("80E00002 05 3800000000", "6A81"),
            ("00A40000023F00", "9000"), ("80E00001 05 2800010000", "9000"), ("80E00002 05 3800000000", "9000")):
        check("rights inside, %s" % sent, session.send(sent), expected)
    session.reset()
    check("the device right is not asked in a directory that is free",
          [session.send(sent) for sent in ("80E00003 05 2800010000", "00A40000025102", "80E00003 05 2800010000", "80E00004 05 3800000000",
                                           "00A40000025101", "80E00003 05 2800010000", "00A40000025103", "80E00003 05 2800010000")],
          ["6982", "9000", "9000", "6A81", "9000", "6982", "9000", "6982"])


def sets_of_rights(session):
    """Each of the eight sets of rights, as names, once the session holds just that."""
    for held in range(8):
        session.reset()
        names = set()
        for bit, name, present in ((1, "device", session.log_in), (2, "user", session.user), (4, "admin", session.admin)):
            if held & bit:
                present()
                names.add(name)
        yield names


def test_folder_rights():
    """Each creation right with each set of rights held."""
    for byte, asked in ASKED.items():
        session = device_session()
        session.send("80E05101 05 380000%02X00" % byte)
        sfi = 1
        for names in sets_of_rights(session):
            passes = any(set(needed.split()) <= names for needed in asked)
            shown = "%02X with %s" % (byte, " ".join(sorted(names)) or "nothing")
            # In the root the device right alone counts, whatever the directories ask.
            check("in the root, " + shown, session.send("80E00001 05 FF00000000"), "6A80" if "device" in names else "6982")
            check("select, " + shown, session.send("00A40000025101"), "9000")
            check("a directory inside, " + shown, session.send("80E05202 05 3800000000"), "6A81" if passes else "6982")
            check("a file inside, " + shown, session.send("80E000%02X 05 2800010000" % sfi), "9000" if passes else "6982")
            sfi += passes


def test_folder_select():
    session = device_session()
    for sent in ("80E05101 05 3800000000", "80E05102 05 3800000000", "80E00101 05 2800010000", "00D6000001A0", "80E00102 05 2800010000",
                 "00D6000001A1", "00A40000025101", "80E00101 05 2800010000", "00D6000001B0", "80E05102 05 2800010000", "00D6000001B1",
                 "80E05101 05 2800010000", "00A40000023F00", "00A40000025102", "80E05102 05 2800010000", "00D6000001C1"):
        session.send(sent)
    for sent, expected in (
            # In 5102: its own file 5102 comes before the directory, and is found again and again.
            ("00A40000025102", "9000"), ("00B0000000", "C1 9000"), ("00A40000025102", "9000"), ("00B0000000", "C1 9000"),
            # No file of the root, nor of another directory. What was current stays.
            ("00A40000020101", "6A82"), ("00B0000000", "C1 9000"), ("00A40000020102", "6A82"), ("00A4000002FFFF", "6A82"),
            ("00B0000000", "C1 9000"),
            # To the other directory; selecting it leaves no current file.
            ("00A40000025101", "9000"), ("00B0000000", "6A82"), ("00A40000020101", "9000"), ("00B0000000", "B0 9000"),
            # Its own file 5102 hides the directory 5102 there. SFI 1 was used, so 5101 was not made.
            ("00A40000025102", "9000"), ("00B0000000", "B1 9000"), ("00A40000025101", "9000"), ("00B0000000", "6A82"),
            ("00A40000020102", "6A82"), ("00B0000000", "6A82"),
            ("00A40000023F00", "9000"), ("00B0000000", "6A82"), ("00A40000020101", "9000"), ("00B0000000", "A0 9000"),
            # Selecting the current directory again leaves no current file; 3F00 in the root too.
            ("00A40000023F00", "9000"), ("00B0000000", "6A82"), ("00A40000025101", "9000"), ("00A40000020101", "9000"),
            ("00A40000025101", "9000"), ("00B0000000", "6A82"), ("00A40000023F00", "9000"),
            # Making a directory alters nothing current.
            ("00A40000020102", "9000"), ("80E05103 05 3800000000", "9000"), ("00B0000000", "A1 9000"), ("80E05103 05 3800000000", "6986"),
            ("00B0000000", "A1 9000"), ("00A40000025103", "9000"), ("00A40000020102", "6A82"), ("00B0000000", "6A82"),
            # P and case before all; a refused SELECT moves nothing.
            ("00A40001023F00", "6A86"), ("00A40000013F", "6700"), ("00A40000023F0000", "6700"), ("00A40000020101", "6A82"),
            ("80E00101 05 2800010000", "9000"), ("00B0000000", "00 9000"), ("00A40000023F00", "9000"), ("00A40000020101", "9000"),
            ("00B0000000", "A0 9000")):
        check("select %s" % sent, session.send(sent), expected)

    # A reset returns to the root.
    session.send("00A40000025101")
    session.send("00A40000020101")
    session.reset()
    for sent, expected in (("00B0000000", "6A82"), ("00B0810000", "A0 9000"), ("00A40000020102", "9000"), ("00B0000000", "A1 9000")):
        check("after a reset %s" % sent, session.send(sent), expected)
    session.send("00A40000025101")
    session.reset()
    session.log_in()
    check("a file made after a reset lies in the root", [session.send(sent) for sent in (
        "80E00103 05 2800010000", "00A40000025101", "00A40000020103", "00A40000023F00", "00A40000020103")],
        ["9000", "9000", "6A82", "9000", "9000"])


def test_folder_sfi():
    """The same SFI in the root and in two directories: read, updated and appended by SFI in the current one alone."""
    session = device_session()
    for folder in ("3F00", "5101", "5102"):
        if folder != "3F00":
            session.send("80E0%s 05 3800000000" % folder)
    for number, folder in enumerate(("3F00", "5101", "5102")):
        check("to %s" % folder, session.send("00A4000002%s" % folder), "9000")
        for sfi, made in ((1, "2800020000"), (2, "2A02010000"), (3, "2E02010000"), (4, "2C00080000")):
            check("SFI %d in %s" % (sfi, folder), session.send("80E0%02X%02X 05 %s" % (0x60 + number, sfi, made)), "9000")
    # Only in 5102.
    check("SFI 5", session.send("80E06205 05 2800010000"), "9000")
    for number, folder in enumerate(("3F00", "5101", "5102")):
        session.send("00A4000002%s" % folder)
        byte = "%02X" % (0xA0 + number)
        for sent in ("00D6810001" + byte, "00DC021401" + byte, "00E2001801" + byte, "00E2002002" + byte + "EE"):
            check("written in %s by %s" % (folder, sent), session.send(sent), "9000")
    for number, folder in list(enumerate(("3F00", "5101", "5102")))[::-1]:
        session.send("00A4000002%s" % folder)
        byte = "%02X" % (0xA0 + number)
        for sent, expected in (
                ("00B0000001", "6A82"), ("00B0810000", byte + "00 9000"), ("00B0000000", byte + "00 9000"), ("00B2011400", "00 9000"),
                ("00B2021400", byte + " 9000"), ("00B2010400", "00 9000"), ("00B2011C00", byte + " 9000"), ("00B2021C00", "6A83"),
                ("00B2012400", byte + "EE 9000"), ("00B2022400", "6A83"), ("00B2010400", byte + "EE 9000")):
            check("read in %s by %s" % (folder, sent), session.send(sent), expected)
        found = folder == "5102"
        for sent in ("00B0850000", "00D685000100"):
            sw = session.send(sent)
            check("SFI 5 in %s by %s" % (folder, sent), sw[-4:], "9000" if found else "6A82")
        check("records of SFI 5 in %s" % folder, [session.send(sent) for sent in ("00B2012C00", "00DC012C0100", "00E200280100")],
              ["6981" if found else "6A82"] * 3)
    # Refused ones by SFI leave the current file, and served ones make it current.
    session.send("00A40000025101")
    session.send("00A40000026101")
    check("current", [session.send(sent) for sent in ("00B0850000", "00B0000000", "00B2012400", "00B0000000", "00B2010400")],
          ["6A82", "A100 9000", "A1EE 9000", "6981", "A1EE 9000"])


def test_folder_limits():
    # Sixteen files in all, directories apart; SFIs may be used again in each.
    session = device_session()
    check("four directories", [session.send("80E051%02X 05 3800000000" % number) for number in range(1, 5)], ["9000"] * 4)
    check("a fifth", session.send("80E05105 05 3800000000"), "6A84")
    for folder in ("3F00", "5101", "5102", "5103"):
        session.send("00A4000002" + folder)
        check("four files in %s" % folder, [session.send("80E061%02X 05 2800010000" % sfi) for sfi in range(1, 5)], ["9000"] * 4)
    check("a seventeenth in a directory", session.send("80E06105 05 2800010000"), "6A84")
    check("its SFI first", session.send("80E06101 05 2800010000"), "6986")
    session.send("00A40000025104")
    check("a seventeenth in an empty directory", session.send("80E06101 05 2800010000"), "6A84")
    session.send("00A40000023F00")
    check("a seventeenth in the root", session.send("80E06105 05 2800010000"), "6A84")
    check("with a directory's FID", session.send("80E05101 05 2800010000"), "6986")
    check("a fifth with 16 files", session.send("80E05105 05 3800000000"), "6A84")

    # With 16 files and a full area directories are still made; they take no bytes.
    session = device_session()
    for sfi in range(1, 17):
        session.send("80E061%02X 05 28%04X0000" % (sfi, 256))
    check("full", session.send("80E06111 05 2800010000"), "6A84")
    area = bytes(session.program.area)
    check("four directories with 16 files and a full area",
          [session.send("80E051%02X 05 3800000000" % number) for number in range(1, 6)], ["9000"] * 4 + ["6A84"])
    check("the area stays", bytes(session.program.area), area)
    session.send("00A40000025101")
    check("no seventeenth inside", session.send("80E06101 05 2800010000"), "6A84")

    # One file that takes the area: room is one for all directories.
    session = device_session()
    session.send("80E05101 05 3800000000")
    session.send("80E06101 05 280FFE0000")
    session.send("00A40000025101")
    check("3 bytes where 2 are left", session.send("80E06101 05 2800030000"), "6A84")
    check("2 bytes where 2 are left", session.send("80E06101 05 2800020000"), "9000")
    check("in creation order", [(file.start, file.extent) for file in session.program.card.files], [(0, 4094), (4094, 2)])
    check("written to the end", session.send("00D6000002AABB"), "9000")
    check("at the end of the area", session.program.area[4093:].hex().upper(), "00AABB")
    session.send("00A40000023F00")
    check("a directory with a full area", session.send("80E05102 05 3800000000"), "9000")
    check("no directory by 6A84 before 6986", session.send("80E06101 05 3800000000"), "6986")

    # A new file is current and its bytes are 00; a directory made beside it takes none.
    session = device_session()
    session.program.area[:] = b"\xFF" * 4096
    for sent in ("80E06101 05 2800020000", "80E05101 05 3800000000", "00A40000025101", "80E06101 05 2800020000"):
        session.send(sent)
    check("new bytes", session.program.area[:6].hex().upper(), "00000000FFFF")
    check("where they lie", [(file.fid, file.folder and file.folder.fid) for file in session.program.card.files],
          [(0x6101, None), (0x6101, 0x5101)])

    # Mode 1: what waits and the challenge go as with any other command.
    session = device_session(mode=1)
    session.send("80E05101 05 3800000000")
    session.send("0084000004")
    check("a SELECT discards what waits", [session.send(sent) for sent in ("00A40000025101", "00C0000000")], ["9000", "6985"])
    session.send("80E06101 05 2800020000")
    check("a read in a directory waits", [session.send(sent) for sent in ("00B0810000", "00C0000000", "00A40000023F00", "00B0810000")],
          ["6102", "0000 9000", "9000", "6A82"])


def test_variable_soundness():
    def card_with(used):
        """A 2C file of 400 bytes from byte 16 of the area on, so many of them used."""
        session = device_session()
        session.send("80E00001 05 2800100000")
        session.send("80E00002 05 2C01900000")
        session.program.card.files[1].used = used
        return session

    for name, used, content, expected in (
            ("no record", 0, "", True), ("free bytes that look like no record", 0, "00" * 400, True),
            ("free bytes that look like a long record", 0, "FF" * 400, True),
            ("the shortest record", 2, "01AA", True), ("a used byte without a record", 1, "01AA", False),
            ("half a record", 2, "02AABB", False), ("a record and a half", 4, "01AA02BBCC", False),
            ("length 0", 2, "0000", False), ("length 0 behind a record", 3, "01AA00", False),
            ("length 0 before a record", 3, "0001AA", False), ("length 1 at the end, without its byte", 3, "01AA01", False),
            ("a record of 178", 179, "B2" + "AA" * 178, True), ("a record of 179", 180, "B3" + "AA" * 179, False),
            ("a record of 178 and one of 1", 181, "B2" + "AA" * 178 + "01BB", True),
            ("a length one too small", 5, "03AABBCCDD", False), ("a length one too large", 5, "05AABBCCDD", False),
            ("two records", 5, "01AA02BBCC", True), ("two records, the first one longer", 5, "02AABB02CC", False),
            ("a length that ends in the free bytes", 5, "01AA03BBCCDD", False),
            ("all used, in lengths of 199", 400, "C7" + "AA" * 199 + "C7" + "BB" * 199, False),
            ("all used, in lengths up to 178", 400, "B2" + "AA" * 178 + "B2" + "BB" * 178 + "29" + "CC" * 41, True)):
        session = card_with(used)
        program = session.program
        content = bytes.fromhex(content)
        program.area[16:16 + len(content)] = content
        # What stands behind the used bytes is free, in the file and after it.
        program.area[16 + max(used, len(content)):] = b"\xEE" * (4096 - 16 - max(used, len(content)))
        area = bytes(program.area)
        before = snapshot(program.card)
        check("sound: " + name, cards.is_sound(program.card, program.area), expected)
        check("served: " + name, session.send("00A40000020001"), "9000" if expected else "4")
        if not expected:
            check("left as it was: " + name, (bytes(program.area), snapshot(program.card)), (area, before))
            check("an area of 4,095 first: " + name, cards.reset(program.card, program.area[:-1]), 2)
        check("reset: " + name, session.reset(), "0" if expected else "4")
        check("the area is only looked at: " + name, bytes(program.area), area)
        if not expected:
            check("no reset: " + name, snapshot(program.card), before)

    # The last of three 2C files, at the end of the area: 4,000 and 3 times 32 bytes are 4,096.
    for length, expected in ((31, True), (30, False), (32, False), (178, False), (255, False)):
        session = device_session()
        session.send("80E00001 05 280FA00000")
        for sfi in (2, 3, 4):
            session.send("80E0000%d 05 2C00200000" % sfi)
            session.send("00E200001F" + "AA" * 31)
        session.program.area[4064] = length
        check("length %d at the end of the area" % length, (session.send("00B2011400"), session.reset()),
              ("AA" * 31 + " 9000", "0") if expected else ("4", "4"))

    # A length byte counts for soundness only where it is a used byte of a 2C file.
    session = card_with(0)
    session.send("00E2001002 AABB")
    session.program.area[:16] = b"\xFF" * 16
    session.program.area[16 + 3:] = b"\xFF" * (4096 - 19)
    check("any bytes but the used ones", session.send("00B2011400"), "AABB 9000")
    check("append into free bytes that are not 00", session.send("00E2001001 CC"), "9000")
    check("only its own bytes are written", session.program.area[16:24].hex().upper(), "02AABB01CCFFFFFF")


def test_variable_space():
    session = device_session()
    for sent, expected in (
            ("80E00001 05 2C00000000", "6A80"), ("80E00001 05 2C00010000", "6A80"), ("80E00001 05 2C10010000", "6A80"),
            ("80E00001 05 2C20000000", "6A80"), ("80E00001 05 2CFFFF0000", "6A80"), ("80E00001 05 2C00020200", "6A80"),
            ("80E00001 05 2C00020010", "6A80"), ("80E00001 05 2B00020000", "6A80"), ("80E00001 05 2D00020000", "6A80"),
            ("80E00001 04 2C000200", "6700"), ("80E00000 05 2C00020000", "6A86"),
            ("80E01021 05 2C00020000", "9000"), ("80E00001 05 2C00020000", "6986"), ("80E00001 05 2C00010000", "6A80"),
            ("80E00002 05 2C0FFF0000", "6A84"), ("80E00002 05 2C10000000", "6A84"), ("80E00002 05 2C0FFE0000", "9000"),
            ("80E00003 05 2C00020000", "6A84"), ("80E00003 05 2800010000", "6A84")):
        check("create %s" % sent, session.send(sent), expected)
    check("without the device right", Session().send("80E00001 05 2C00010000"), "6982")
    session = device_session()
    check("a space of 4,096", session.send("80E00001 05 2C10000000"), "9000")
    check("a space after it", session.send("80E00002 05 2C00020000"), "6A84")
    check("count and length are no size", session.send("00B2010400"), "6A83")

    # New bytes are 00 though they do not show.
    session = device_session()
    session.program.area[:] = b"\xFF" * 4096
    session.send("80E00001 05 2C00030000")
    check("new bytes are 00", session.program.area[:4].hex().upper(), "000000FF")
    check("used bytes at creation", session.program.card.files[0].used, 0)

    # A space of 2 holds a record of 1.
    session = device_session()
    session.send("80E00001 05 2C00020000")
    for sent, expected in (
            ("00B2010400", "6A83"), ("00E2000002AABB", "6A84"), ("00E20000B2" + "AA" * 178, "6A84"),
            ("00E20000B3" + "AA" * 179, "6700"), ("00B2010400", "6A83"), ("00E2000001AA", "9000"),
            ("00B2010400", "AA 9000"), ("00B2020400", "6A83"), ("00E2000001BB", "6A84"), ("00E20000B3" + "AA" * 179, "6700"),
            ("00B2010401", "AA 9000"), ("00DC010401CC", "9000"), ("00B2010401", "CC 9000")):
        check("a space of 2, %s" % sent[:12], session.send(sent), expected)
    check("a space of 2, used", session.program.card.files[0].used, 2)

    # 3 hold one record of 1 or of 2, and 4 two of 1.
    for space, lengths, expected in (
            (3, (1, 1), ["9000", "6A84"]), (3, (2, 1), ["9000", "6A84"]), (3, (3, 2), ["6A84", "9000"]),
            (4, (1, 1, 1), ["9000", "9000", "6A84"]), (4, (2, 1), ["9000", "6A84"]), (4, (3, 1), ["9000", "6A84"]),
            (10, (3, 6, 5, 1), ["9000", "6A84", "9000", "6A84"]), (10, (3, 4, 1), ["9000", "9000", "6A84"]),
            (10, (3, 3, 1, 1), ["9000", "9000", "9000", "6A84"]), (10, (9,), ["9000"]), (10, (10,), ["6A84"]),
            (178, (178, 177), ["6A84", "9000"]), (179, (179, 178, 1), ["6700", "9000", "6A84"]),
            (180, (178, 1), ["9000", "6A84"]), (181, (178, 1, 1), ["9000", "9000", "6A84"]),
            (358, (178, 178, 1), ["9000", "9000", "6A84"]), (357, (178, 178, 177), ["9000", "6A84", "9000"]),
            (4096, (177, 178, 179, 180, 255), ["9000", "9000", "6700", "6700", "6700"]),
            (256, (177, 78, 77), ["9000", "6A84", "9000"]), (257, (178, 77, 1), ["9000", "9000", "6A84"]),
            # 22 times 179 is 3,938; 158 bytes are left of 4,096.
            (4096, (178,) * 22 + (178, 158, 157, 1), ["9000"] * 22 + ["6A84", "6A84", "9000", "6A84"])):
        session = device_session()
        session.send("80E00001 05 2C%04X0000" % space)
        answers = [session.send("00E20000%02X" % length + "%02X" % length * length) for length in lengths]
        check("space %d, lengths %s" % (space, lengths[:6]), answers, expected)
        kept = [length for length, answer in zip(lengths, answers) if answer == "9000"]
        check("space %d, records %s" % (space, kept[:6]),
              [session.send("00B2%02X0400" % number) for number in range(1, len(kept) + 2)],
              ["%02X" % length * length + " 9000" for length in kept] + ["6A83"])
        check("space %d, used for %s" % (space, kept[:6]), session.program.card.files[0].used, sum(kept) + len(kept))

    # Nothing appended is no append.
    session = device_session()
    session.send("80E00001 05 2C00020000")
    for sent in ("00E20000", "00E2000000", "00E200000000", "00E2000001", "00E2000001AA00"):
        check("append %s" % sent, session.send(sent), "6700")
    check("nothing was appended", session.send("00B2010400"), "6A83")


def test_variable_records():
    session = device_session()
    session.send("80E01001 05 2800040000")
    session.send("80E02002 05 2C00200000")
    session.send("80E0301E 05 2E03020000")
    for sent, expected in (
            # The current file is the cyclic one; the 2C file is SFI 2.
            ("00B2011400", "6A83"), ("00E2001003 A1A2A3", "9000"), ("00E2000001 B1", "9000"), ("00E2001005 C1C2C3C4C5", "9000"),
            # Number 1 is the oldest.
            ("00B2011400", "A1A2A3 9000"), ("00B2021400", "B1 9000"), ("00B2031400", "C1C2C3C4C5 9000"), ("00B2041400", "6A83"),
            ("00B2FF1400", "6A83"), ("00B2011403", "A1A2A3 9000"), ("00B2021401", "B1 9000"), ("00B2031405", "C1C2C3C4C5 9000"),
            # 6C has the length of the record that is asked for.
            ("00B2011401", "6C03"), ("00B2011402", "6C03"), ("00B2011404", "6C03"), ("00B2011405", "6C03"),
            ("00B20114FF", "6C03"), ("00B2021402", "6C01"), ("00B2021403", "6C01"), ("00B2031404", "6C05"),
            ("00B2031403", "6C05"), ("00B2031420", "6C05"), ("00B2041405", "6A83"), ("00B2041406", "6A83"),
            # UPDATE keeps the length.
            ("00DC011403 D1D2D3", "9000"), ("00DC031405 E1E2E3E4E5", "9000"), ("00DC021401 F1", "9000"),
            ("00B2011400", "D1D2D3 9000"), ("00B2021400", "F1 9000"), ("00B2031400", "E1E2E3E4E5 9000"),
            ("00DC011402 0000", "6700"), ("00DC011404 00000000", "6700"), ("00DC021402 0000", "6700"),
            ("00DC021403 000000", "6700"), ("00DC031404 00000000", "6700"), ("00DC031406 000000000000", "6700"),
            ("00DC0114B2" + "00" * 178, "6700"), ("00DC0114B3" + "00" * 179, "6700"), ("00DC041405 0000000000", "6A83"),
            ("00DC041406 000000000000", "6A83"), ("00DCFF1401 00", "6A83"),
            ("00B2011400", "D1D2D3 9000"), ("00B2021400", "F1 9000"), ("00B2031400", "E1E2E3E4E5 9000"), ("00B2041400", "6A83"),
            # It is no binary file, by SFI or current, readable or not.
            ("00B0820001", "6981"), ("00D6820001AA", "6981"), ("00B0000001", "6981"), ("00D6000001AA", "6981"),
            ("00B07FFF00", "6981"), ("00B0820000", "6981"), ("00B08200", "6700"), ("00B0820001AA", "6700"),
            # The number and P2 as in the other record files.
            ("00B2001400", "6A86"), ("00B2011000", "6A86"), ("00B201FC00", "6A86"), ("00DC001401AA", "6A86"),
            ("00E2011001AA", "6A86"), ("00E2001401AA", "6A86"), ("00E200F801AA", "6A86"), ("00E200E001AA", "6A82"),
            ("00B201E400", "6A82"), ("00E20008 01AA", "6981"),
            # A refused command keeps the current file; one by SFI that ends 9000 changes it.
            ("00A4000002301E", "9000"), ("00B2011401", "6C03"), ("00B2041400", "6A83"), ("00DC011401AA", "6700"),
            ("00E20010B3" + "AA" * 179, "6700"), ("00E20010B2" + "AA" * 178, "6A84"), ("00E2000002BEEF", "9000"),
            ("00B2010400", "BEEF 9000"), ("00DC011403 A1A2A3", "9000"), ("00B2020400", "F1 9000"), ("00A4000002301E", "9000"),
            ("00B2021400", "F1 9000"), ("00B2010400", "A1A2A3 9000"), ("00A4000002301E", "9000"), ("00E2001001 44", "9000"),
            ("00B2040400", "44 9000"), ("00A40000022002", "9000"), ("00E2000001 55", "9000"), ("00B2050400", "55 9000"),
            ("00B2040400", "44 9000"), ("00B2060400", "6A83"),
            # The files beside it.
            ("00B0810004", "00000000 9000"), ("00B201F400", "BEEF 9000"), ("00B202F400", "6A83")):
        check("2C %s" % sent[:24], session.send(sent), expected)
    check("each record behind its length", session.program.area[4:4 + 16].hex().upper(), "03A1A2A301F105E1E2E3E4E501440155")
    check("used bytes", [file.used for file in session.program.card.files], [0, 16, 0])
    check("held and newest stay 0", [(file.records, file.newest) for file in session.program.card.files],
          [(0, 0), (0, 0), (1, 0)])
    session.reset()
    check("reset keeps the records", session.send("00B2031400"), "E1E2E3E4E5 9000")

    # Each check before the next, with a file that must never be read or written.
    session = device_session()
    session.send("80E00001 05 2C00040000")
    session.send("80E00002 05 2C00040F0F")
    session.send("00E2000801AA")
    for sent, expected in (
            ("00E20111", "6A86"), ("00E20010", "6700"), ("00E20018", "6700"), ("00E20018B3" + "AA" * 179, "6A82"),
            ("00E20010B3" + "AA" * 179, "6982"), ("00E2001004AABBCCDD", "6982"), ("00E20008B3" + "AA" * 179, "6700"),
            ("00E20008B2" + "AA" * 178, "6A84"), ("00E2000802AABB", "6A84"), ("00E2000801BB", "9000"),
            ("00B20114", "6700"), ("00B2011400", "6982"), ("00B2011409", "6982"), ("00B2FF1400", "6982"), ("00B2030C09", "6A83"),
            ("00B2020C09", "6C01"), ("00DC011401AA", "6982"), ("00DC031402AAAA", "6982"), ("00DC030C02AAAA", "6A83"),
            ("00DC020C02AAAA", "6700"), ("00DC020C01CC", "9000"), ("00B0820001", "6981"), ("00D6820001AA", "6981")):
        check("2C order %s" % sent[:14], session.send(sent), expected)
    session = device_session()
    session.send("80E00001 05 2C00044080")
    check("read user", session.send("00B2010400"), "6982")
    check("write admin", session.send("00E2000001AA"), "6982")
    session.user()
    check("read user, shown", session.send("00B2010400"), "6A83")
    check("write admin, not shown", session.send("00E2000001AA"), "6982")
    session.admin()
    check("write admin, shown", session.send("00E2000001AA"), "9000")
    session.reset()
    session.admin()
    check("the write right does not read", session.send("00B2010C00"), "6982")
    check("the write right updates", session.send("00DC010C01BB"), "9000")


def test_variable_many():
    """More than 255 records: P1 names the first 255 of them, and APPEND knows them all."""
    session = device_session()
    session.send("80E00001 05 2C02580000")
    check("254 records", {session.send("00E2000001%02X" % number) for number in range(1, 255)}, {"9000"})
    check("number 254", session.send("00B2FE0400"), "FE 9000")
    check("no number 255", session.send("00B2FF0400"), "6A83")
    check("record 255", session.send("00E2000001FF"), "9000")
    check("number 255", session.send("00B2FF0400"), "FF 9000")
    check("record 256", session.send("00E2000001AA"), "9000")
    check("number 255 as it was", session.send("00B2FF0400"), "FF 9000")
    check("number 0 is none", session.send("00B2000400"), "6A86")
    check("record 257", session.send("00E2000001BB"), "9000")
    check("number 1 as it was", session.send("00B2010400"), "01 9000")
    check("number 255 can be updated", session.send("00DCFF0401EE"), "9000")
    check("number 255 is updated", session.send("00B2FF0401"), "EE 9000")
    check("number 255, wrong Le", session.send("00B2FF0402"), "6C01")
    # 257 records take 514 of 600 bytes; 86 are left.
    check("one byte more than is left", session.send("00E2000056" + "CC" * 86), "6A84")
    check("what is left", session.send("00E2000055" + "CC" * 85), "9000")
    check("number 255 is the same record", session.send("00B2FF0400"), "EE 9000")
    check("the records past 255 stand in the area", session.program.area[510:600].hex().upper(), "01AA01BB55" + "CC" * 85)
    check("the records held", session.program.card.files[0].records_held(session.program.area), 258)
    check("reset of such a card", session.reset(), "0")

    # The most there can be: 2,048 records of 1.
    session = device_session()
    session.send("80E00001 05 2C10000000")
    check("2,048 records", {session.send("00E2000001%02X" % (number & 0xFF)) for number in range(2048)}, {"9000"})
    check("one more", session.send("00E200000100"), "6A84")
    check("the first", session.send("00B2010400"), "00 9000")
    check("the last that has a number", session.send("00B2FF0400"), "FE 9000")


def snapshot(made):
    """All that a state holds, as a value."""
    def fields(owner):
        return tuple(getattr(owner, name) for name in owner.__slots__ if name != "folder")

    def place(folder):
        return made.folders.index(folder) if folder in made.folders else folder

    return (fields(made.device), fields(made.admin), fields(made.user), fields(made.transport),
            tuple(fields(file) + (place(file.folder),) for file in made.files), tuple(fields(folder) for folder in made.folders),
            made.files.index(made.current) if made.current in made.files else made.current, place(made.folder), made.challenge,
            made.mode, made.waiting)


# A card of all four file types, its lines worked out by hand from the commands of lined_session.
LINED = """\
000102030405060708090A0B0C0D0E0F	128	128
3837363534333231	5	5
313233343536	3	2
101112131415161718191A1B1C1D1E1F	10	10
1	0	0	0104	0011223344556677	0	-	3F00
0101	2800210001	0	0	3F00
A100000000000000000000000000000000000000000000000000000000000000
A2
0102	2A02038000	0	0	3F00
000000B1B2B3
0103	2E03020000	2	1	3F00
C1C2D1D20000
0104	2C00080000	5	0	3F00
01AA02BBCC000000
"""
# Whole files end with these of its lines.
FILE_ENDS = (5, 8, 10, 12, 14)


def lined_session():
    session = device_session()
    for sent in ("0020000106 313131313131", "80E00101 05 2800210001", "00D6000001 A1", "00D6002001 A2", "80E00102 05 2A02038000",
                 "00DC020403 B1B2B3", "80E00103 05 2E03020000", "00E2000002 C1C2", "00E2000002 D1D2", "80E00104 05 2C00080000",
                 "00E2000001 AA", "00E2000002 BBCC", "0084000008"):
        session.send(sent)
    # What stands past the last file is not written.
    session.program.area[33 + 6 + 6 + 8:] = b"\xEE" * (4096 - 53)
    return session


def accepts(text):
    return texts.from_text(text.encode("latin-1")) is not None


def text_of_lines(lines):
    return "".join(line + "\n" for line in lines)


def with_field(number, field, value):
    """The lines above with one field changed; lines count from 1 and fields from 0."""
    lines = LINED.splitlines()
    fields = lines[number - 1].split("\t")
    fields[field] = value
    lines[number - 1] = "\t".join(fields)
    return text_of_lines(lines)


def with_lines(number, *new):
    """The lines above with others in the place of one."""
    lines = LINED.splitlines()
    lines[number - 1:number] = new
    return text_of_lines(lines)


def with_waiting(mode, waiting):
    """The lines above with this mode and these bytes waiting."""
    return with_lines(5, "1\t0\t0\t0104\t0011223344556677\t%s\t%s\t3F00" % (mode, waiting))


def test_text_example():
    session = lined_session()
    card, area = session.program.card, session.program.area
    check("the lines of a card", texts.to_text(card, area).decode(), LINED)
    read, contents = texts.from_text(LINED.encode())
    check("read, the same state", snapshot(read), snapshot(card))
    check("read, the same file bytes, and 00 past the last file", bytes(contents), bytes(area[:53]) + bytes(4096 - 53))
    session.program.card, session.program.area = read, contents
    for sent, expected in (
            ("0020000106 313233343536", "9000"), ("00B2011400", "6982"), ("00B2010400", "AA 9000"), ("00B2020400", "BBCC 9000"),
            ("00E2000002 DDEE", "9000"), ("00B2030400", "DDEE 9000"), ("00B2011C00", "D1D2 9000"), ("00B2021C00", "C1C2 9000"),
            ("00B2031C00", "6A83"), ("00B0812001", "A2 9000"), ("80E00105 05 2800010000", "9000")):
        check("a card that was read, %s" % sent, session.send(sent), expected)

    fresh = Session()
    check("the lines of a new card", texts.to_text(fresh.program.card, fresh.program.area).decode(), """\
000102030405060708090A0B0C0D0E0F	128	128
3837363534333231	5	5
313233343536	3	3
101112131415161718191A1B1C1D1E1F	10	10
0	0	0	-	-	0	-	3F00
""")
    # The lines say all that a call can tell: each state here is another one, and so is its text.
    session = Session(user="1234567890123456", user_limit=1)
    seen = []
    for sent in ("0084000004", "0084000010", "0020000008 3837363534333231", "0020000106 313131313131", "0024010006 393837363534"):
        session.send(sent)
        seen.append(texts.to_text(session.program.card, session.program.area).decode().splitlines()[1:])
    user = "31323334353637383930313233343536"
    transport = TRANSPORT_KEY + "\t10\t10"
    check("as commands change it", seen, [
        ["3837363534333231\t5\t5", user + "\t1\t1", transport, "0\t0\t0\t-\t00112233\t0\t-\t3F00"],
        ["3837363534333231\t5\t5", user + "\t1\t1", transport, "0\t0\t0\t-\t" + RANDOM + "\t0\t-\t3F00"],
        ["3837363534333231\t5\t5", user + "\t1\t1", transport, "0\t1\t0\t-\t-\t0\t-\t3F00"],
        ["3837363534333231\t5\t5", user + "\t1\t0", transport, "0\t1\t0\t-\t-\t0\t-\t3F00"],
        ["393837363534\t5\t5", user + "\t1\t0", transport, "0\t1\t0\t-\t-\t0\t-\t3F00"]])
    session = Session(mode=1)
    seen = []
    for sent in ("00A40000023F00", "0084000004", "00C0000001", "00C0000104", "00C0000002", "00C0000000", "0084000008", "00200001"):
        session.send(sent)
        seen.append(texts.to_text(session.program.card, session.program.area).decode().splitlines()[4])
    check("as the data wait and are fetched", seen, [
        "0\t0\t0\t-\t%s\t1\t%s\t3F00" % fields for fields in (
            ("-", "-"), ("00112233", "00112233"), ("00112233", "112233"), ("00112233", "112233"), ("00112233", "33"),
            ("00112233", "-"), ("0011223344556677", "0011223344556677"), ("-", "-"))])


def test_text_fields():
    """One field of the example changed. Those in the first list are still the lines of a sound card."""
    key, admin, user, transport, session, binary, fixed, cyclic, variable = 1, 2, 3, 4, 5, 6, 9, 11, 13
    for number, field, good, bad in (
            (key, 0, ("FF" * 16, "00" * 16),
             ("FF" * 15, "FF" * 17, "FF" * 15 + "F", "FF" * 15 + "FFF", "ff" * 16, "FF" * 15 + "Fg", "", "-", " " + "FF" * 16,
              "0x" + "FF" * 15)),
            # The device right is held, so its tries are its limit.
            (key, 1, ("128",), ("127", "129", "0", "256", "384", "65535", "65664", "0128", "", "80", "12 8", "-")),
            (key, 2, ("128",), ("127", "129", "0", "1", "384", "65664", "0128", "", "-")),
            (admin, 0, ("303132333435", "39" * 16, "3837363534333230"),
             ("3132333435", "31" * 17, "", "-", "2F3132333435", "3132333435" + "3A", "313233B33435", "00" * 6, "31323334353",
              "3132333435363", "123456", "3132333435 36")),
            (admin, 1, ("5", "6", "127", "128"),
             ("4", "1", "0", "129", "255", "256", "261", "65535", "65541", "4294967301", "18446744073709551621", "05", "005", "+5",
              "-5", " 5", "5 ", "5\r", "", "-", "5.", "A", "0x5", "5" * 5000)),
            (admin, 2, ("0", "1", "4", "5"),
             ("6", "128", "255", "256", "261", "65541", "4294967301", "00", "01", "05", "+5", "-0", "-1", " 5", "5 ", "5\r", "",
              "-")),
            (user, 0, ("303132333435",), ("3132333435", "31" * 17, "", "39" * 5 + "40")),
            (user, 1, ("2", "3", "128"), ("1", "0", "129", "258")),
            (user, 2, ("0", "1", "2", "3"), ("4", "258", "02")),
            (transport, 0, ("FF" * 16, "00" * 16, "313233343536" + "00" * 10, KEY),
             ("FF" * 15, "FF" * 17, "FF" * 15 + "F", "FF" * 15 + "FFF", "ff" * 16, "FF" * 15 + "Fg", "", "-", " " + "FF" * 16,
              "313233343536", "0x" + "FF" * 15)),
            # It opens no right, so that its tries may be any up to its limit.
            (transport, 1, ("10", "11", "127", "128"),
             ("9", "1", "0", "129", "255", "256", "266", "65546", "010", "+10", "-10", " 10", "10 ", "10\r", "", "-", "A", "0xA")),
            (transport, 2, ("0", "1", "9", "10"),
             ("11", "128", "256", "266", "65546", "00", "01", "010", "+1", "-0", "-1", " 1", "1 ", "1\r", "", "-")),
            (session, 0, ("0", "1"), ("2", "", "-", "00", "01", "+1", " 1", "1 ", "true", "FF")),
            # The admin PIN has all its tries left, and the user PIN has not.
            (session, 1, ("0", "1"), ("2", "", "-", "00", "01")),
            (session, 2, ("0",), ("1", "2", "", "-", "00", "01")),
            (session, 3, ("-", "0101", "0102", "0103", "0104"),
             ("0105", "0204", "0124", "3F00", "0000", "104", "00104", "0x104", "4", "", "--", " -", "- ", "01 4", "01010102")),
            (session, 4, ("-", "00112233", "AABBCCDD", "FF" * 8, "00" * 4, "00" * 16),
             ("", "00", "001122", "0011223344", "00" * 7, "00" * 9, "00" * 12, "00" * 15, "00" * 17, "aabbccdd", "AABBCCDd",
              "0011223", "0", "--", "-0", "00112233 ", "0011223G")),
            (session, 5, ("0", "1"), ("2", "", "-", "00", "01", "10", "+1", " 1", "1 ", "1\r", "A", "256", "257")),
            # In mode 0 nothing waits.
            (session, 6, ("-",), ("", "00", "AA", "0", "--", " -", "- ", "aa", "FF" * 256, "FF" * 257)),
            # There is no directory.
            (session, 7, ("3F00",), ("", "-", "0000", "3F01", "3F1F", "0101", "0104", "FFFF", "3f00", "3F0", "3F000", " 3F00", "3F00 ",
                                     "3F00\r", "3F00\t", "3F00\t3F00", "3F", "0", "003F")),
            # SFIs 2, 3 and 4 are used by the other files.
            (binary, 0, ("0101", "0105", "011E", "FF41", "0001", "3F01"),
             ("0102", "0202", "0222", "0144", "0100", "0120", "011F", "013F", "0000", "3F00", "101", "00101", "01", "", "-", "01e1",
              "01G1")),
            (binary, 1, ("2800210001", "2800210F0F", "280021C1C1", "2800210000", "2800214080", "280021C2C3", "2800210382", "2C00210001",
                         "2800210400", "2800210004", "28002144C4", "280021C686", "2800210547", "28002107C7", "2800214587", "2800214685"),
             ("2800200001", "2800220001", "2800000001", "2810210001", "2821000001", "2700210001", "2900210001", "2B00210001",
              "2D00210001", "2F00210001", "0000210001", "2800210201", "2800210002", "280021000E", "2800211001", "28002100FE",
              "2800210600", "2800210006", "2800210C00", "280021000C", "2800211400", "2800210024", "28002100C8", "28002100CE",
              "2800218F00", "2800211200", "28002100CA", "2800210A0A", "28002100", "280021000100", "28 0021 00 01", "", "-", "2800210c01", "2800210C01")),
            (binary, 2, ("0",), ("1", "33", "00", "", "-", "+0", "256")),
            (binary, 3, ("0",), ("1", "00", "", "-", "256")),
            (binary, 4, ("3F00",), ("", "-", "0000", "3F01", "0101", "0102", "FFFF", "3f00", "3F0", "3F000", " 3F00", "3F00 ", "3F00\r",
                                    "3F00\t", "3F00\t3F00", "3F", "0", "003F")),
            (fixed, 1, ("2A02038000", "2A03028000", "2A06018000", "2800068000", "2C00068000", "2E02038000", "2E06018000"),
             ("2A01068000", "2A00068000", "2A02048000", "2A02028000", "2A06008000", "2802038000", "2A02B38000", "2a02038000",
              "2AFF018000")),
            (fixed, 2, ("0",), ("1", "2", "-")),
            (fixed, 3, ("0",), ("1", "-")),
            (cyclic, 1, ("2E03020000", "2E02030000"), ("2E06010200", "2A03020000", "2800060000", "2C00060000", "2E01060000")),
            (cyclic, 2, ("1", "2", "3"), ("0", "4", "02", "258", "-1", "", "-")),
            (cyclic, 3, ("0", "1", "2"), ("3", "01", "00", "257", "-1", "", "-", "65537")),
            (variable, 0, ("0104",), ("0105", "0101")),
            (variable, 1, ("2C00080000",), ("2C00090000", "2C00070000", "2800080000", "2E02040000", "2C00080002")),
            # Records of 1 and of 2 bytes, each behind its length; the byte after them is 00, which is no length.
            (variable, 2, ("0", "2", "5"), ("1", "3", "4", "6", "7", "8", "9", "05", "261", "65541", "-", "")),
            (variable, 3, ("0",), ("1", "00", "-")),
            (variable, 4, ("3F00",), ("-", "0104", "3F04"))):
        for value in good:
            check("good: line %d, field %d: %s" % (number, field, value[:40]), accepts(with_field(number, field, value)), True)
        for value in bad:
            check("bad: line %d, field %d: %s" % (number, field, value[:40]), accepts(with_field(number, field, value)), False)

    for number, good, bad in (
            (7, ("FF" * 32,), ("00" * 31, "00" * 33, "0" * 63, "0" * 65, "", "-", "aa" * 32, " " + "00" * 32, "00" * 32 + " ")),
            (8, ("00", "FF"), ("", "0", "000", "A200", "a2", "A2 ", " A2", "-", "A2\r", "A2\t", "\tA2")),
            (10, ("FF" * 6,), ("FF" * 5, "FF" * 7, "ff" * 6)),
            # The place that holds no record is free.
            (12, ("C1C2D1D2FFFF",), ("C1C2D1D2",)),
            (14, ("01AA02BBCCFFFFFF", "01000200000000B3", "04AA02BBCC000000", "0200010100000000"),
             ("01AA03BBCC000000", "02AA02BBCC000000", "00AA02BBCC000000", "05AA02BBCC000000", "03AA02BBCC000000",
              "01AA01BBCC000000", "B4AA02BBCC000000", "FFAA02BBCC000000", "01AA02BBCC0000", "01AA02BBCC00000000",
              "01aa02BBCC000000"))):
        for value in good:
            check("good: line %d: %s" % (number, value[:40]), accepts(with_lines(number, value)), True)
        for value in bad:
            check("bad: line %d: %s" % (number, value[:40]), accepts(with_lines(number, value)), False)

    # Two fields together.
    for name, text, expected in (
            ("an empty cyclic file", with_lines(11, "0103\t2E03020000\t0\t0\t3F00"), True),
            ("an empty cyclic file with a newest place", with_lines(11, "0103\t2E03020000\t0\t1\t3F00"), False),
            ("a cyclic file that is not full, its newest at the last place", with_lines(11, "0103\t2E03020000\t1\t2\t3F00"), True),
            ("nothing waits in mode 1", with_waiting("1", "-"), True),
            ("a byte waits", with_waiting("1", "00"), True),
            ("a byte waits, not in lower case", with_waiting("1", "aa"), False),
            ("a byte waits, not by a digit", with_waiting("1", "0"), False),
            ("a byte and a half wait", with_waiting("1", "000"), False),
            ("255 bytes wait", with_waiting("1", "A5" * 255), True),
            ("256 bytes wait", with_waiting("1", "A5" * 256), True),
            ("257 bytes wait", with_waiting("1", "A5" * 257), False),
            ("512 bytes wait", with_waiting("1", "A5" * 512), False),
            ("an empty field waits", with_waiting("1", ""), False),
            ("- and a byte wait", with_waiting("1", "-00"), False),
            ("a blank waits", with_waiting("1", "A5 "), False),
            ("no hex waits", with_waiting("1", "A5G5"), False),
            ("a byte waits in mode 0", with_waiting("0", "A5"), False),
            ("a byte waits in mode 2", with_waiting("2", "A5"), False),
            ("a byte waits in mode 01", with_waiting("01", "A5"), False),
            ("mode and waiting bytes swapped", with_waiting("-", "1"), False),
            ("no waiting bytes", with_lines(5, "1\t0\t0\t0104\t0011223344556677\t1\t3F00"), False),
            ("no mode", with_lines(5, "1\t0\t0\t0104\t0011223344556677\t-\t3F00"), False),
            ("a field behind the waiting bytes", with_waiting("1", "A5\t-"), False),
            ("a limit of 1", with_lines(2, "3837363534333231\t1\t1"), True),
            ("a limit of 1 and no tries", with_lines(2, "3837363534333231\t1\t0"), True),
            ("a limit of 128", with_lines(2, "3837363534333231\t128\t128"), True),
            ("a limit of 129", with_lines(2, "3837363534333231\t129\t129"), False),
            ("a limit of 0", with_lines(2, "3837363534333231\t0\t0"), False),
            ("no tries of the transport key", with_field(4, 2, "0"), True),
            ("a limit of 1 for it", with_lines(4, TRANSPORT_KEY + "\t1\t1"), True),
            ("a limit of 1 for it and no tries", with_lines(4, TRANSPORT_KEY + "\t1\t0"), True),
            ("a limit of 129 for it", with_lines(4, TRANSPORT_KEY + "\t129\t129"), False),
            ("a limit of 0 for it", with_lines(4, TRANSPORT_KEY + "\t0\t0"), False),
            ("no transport key", with_lines(4), False), ("two of them", with_lines(4, *[TRANSPORT_KEY + "\t10\t10"] * 2), False),
            ("the transport key first", text_of_lines([LINED.splitlines()[3]] + LINED.splitlines()[:3] + LINED.splitlines()[4:]), False),
            ("a right for it", with_lines(5, "1\t0\t0\t0\t0104\t0011223344556677\t0\t-\t3F00"), False),
            ("no device right, some tries gone", with_field(1, 2, "0").replace("\n1\t0", "\n0\t0"), True),
            ("a user right with all tries", with_field(3, 2, "3").replace("\n1\t0\t0", "\n1\t0\t1"), True),
            ("all rights", with_field(3, 2, "3").replace("\n1\t0\t0", "\n1\t1\t1"), True),
            ("the current file's FID and its file's in lower case", LINED.replace("0104", "01e4"), False),
            ("the current file's FID and its file's in upper case", LINED.replace("0104", "01E4"), True),
            ("a binary file of 32", with_lines(6, "0101\t2800200001\t0\t0\t3F00").replace("A2\n", ""), True),
            ("a binary file of 64", with_lines(6, "0101\t2800400001\t0\t0\t3F00").replace("A2\n", "A2" * 32 + "\n"), True),
            ("a binary file of 64 with an empty line", with_lines(6, "0101\t2800400001\t0\t0\t3F00").replace("A2\n", "A2" * 32 + "\n\n"),
             False),
            ("all of a 2C file used", with_lines(13, "0104\t2C00080000\t8\t0\t3F00").replace("CC000000\n", "CC020000\n"), True),
            ("more used than there is", with_lines(13, "0104\t2C00080000\t9\t0\t3F00").replace("CC000000\n", "CC030000\n"), False)):
        check(name, accepts(text), expected)

    read, _ = texts.from_text(with_lines(2, "39" * 16 + "\t7\t6").encode())
    check("the fields go where they belong", (read.admin.value, read.admin.limit, read.admin.tries, read.admin.held),
          (b"9" * 16, 7, 6, False))
    read, _ = texts.from_text(with_lines(4, "5A" * 16 + "\t7\t6").encode())
    check("those of the transport key too", (read.transport.value, read.transport.limit, read.transport.tries, read.transport.held),
          (b"\x5A" * 16, 7, 6, False))


# Two firms in one box, its lines worked out by hand from the commands of firms_session.
FIRMS = """\
000102030405060708090A0B0C0D0E0F	128	128
3837363534333231	5	5
313233343536	3	3
101112131415161718191A1B1C1D1E1F	10	10
1	0	0	5102	-	0	-	5101
5101	01
5102	0F
0121	C2
0101	2800010000	0	0	3F00
A0
0101	2800010000	0	0	5101
B0
5102	2E02010000	1	0	5101
B100
"""


def firms_session():
    session = device_session()
    for sent in ("80E05101 05 3800000100", "80E05102 05 3800000F00", "80E00121 05 380000C200", "80E00101 05 2800010000", "00D6000001A0",
                 "00A40000025101", "80E00101 05 2800010000", "00D6000001B0", "80E05102 05 2E02010000", "00E2000001B1"):
        session.send(sent)
    return session


def test_text_folders():
    session = firms_session()
    card, area = session.program.card, session.program.area
    check("the lines of two firms", texts.to_text(card, area).decode(), FIRMS)
    read, contents = texts.from_text(FIRMS.encode())
    check("read, the same state", snapshot(read), snapshot(card))
    check("and the same bytes", bytes(contents), bytes(area))
    session.program.card, session.program.area = read, contents
    for sent, expected in (("00B2010400", "B1 9000"), ("00B0810000", "B0 9000"), ("00A40000025102", "9000"), ("00A40000023F00", "9000"),
                           ("00B0810000", "A0 9000"), ("00A40000025102", "9000"), ("80E00101 05 2800010000", "6982")):
        check("a card of two firms that was read, %s" % sent, session.send(sent), expected)
    session.reset()
    check("reset", texts.to_text(session.program.card, session.program.area).decode().splitlines()[4], "0\t0\t0\t-\t-\t0\t-\t3F00")

    lines = FIRMS.splitlines()

    def changed(number, *new):
        """The lines above with others in the place of one; lines count from 1."""
        return text_of_lines(lines[:number - 1] + list(new) + lines[number:])

    def field(number, place, value):
        fields = lines[number - 1].split("\t")
        fields[place:place + 1] = value
        return changed(number, "\t".join(fields))

    for number, place, good, bad in (
            # The current file is 5102 in 5101; 0101 lies there too, and in the root.
            (5, 3, ("5102", "0101", "-"), ("5101", "0121", "3F00", "0102", "0000")),
            (5, 7, ("5101",), ("3F00", "5102", "0121", "5103", "0101", "-", "", "0000", "1", "5101 ", "51010", "510")),
            (6, 0, (), ("5101\t", "5102", "0121", "0101", "5100", "511F", "3F00", "5103", "-", "", "510", "05101", "51 1")),
            (6, 1, ("00", "01", "0F", "40", "41", "80", "81", "C0", "C1", "03", "42", "43", "82", "83", "C2", "C3"),
             ("02", "04", "05", "08", "0E", "10", "20", "4F", "8F", "FF", "0", "1", "001", "0100", "", "-", "0f", "c1", " 01", "01 ", "01\t")),
            # No file lies in 5102: another FID will do, but for those of directories and root files.
            (7, 0, ("5103", "5122", "511E", "5201", "0102", "FFFE", "0141"),
             ("5101", "0121", "0101", "5100", "511F", "3F00", "3F1F", "0000", "513F", "510g", "51a1", "")),
            (8, 0, ("0122", "013E", "0161"), ("0101", "5101", "5102", "0120", "011F")),
            # In the root the file may have any free FID but a directory's, whatever the low bits are.
            (9, 0, ("0101", "0141", "0102", "5103", "5121"), ("5101", "5102", "0121", "0100", "011F")),
            (9, 4, ("3F00", "5102", "0121"), ("5101", "5103", "0101", "-", "", "0000", "3F01", "3f00", "3F0", "3F00 ", "3F00\t3F00")),
            # In a directory it may have a directory's, also of its own. SFI 2 is used.
            (11, 0, ("0101", "5101", "0121", "FFFE", "3F01"), ("5102", "0102", "5100", "511F", "3F00")),
            (11, 4, ("5101", "5102", "0121"), ("3F00", "5103", "0000", "-", "", "0101")),
            (13, 4, ("5101",), ("3F00", "5102", "0121", "5103"))):
        for value in good:
            check("good: firms, line %d, field %d: %s" % (number, place, value), accepts(field(number, place, [value])), True)
        for value in bad:
            check("bad: firms, line %d, field %d: %s" % (number, place, value), accepts(field(number, place, [value])), False)
    free = field(5, 3, ["-"])
    for value in ("3F00", "5101", "5102", "0121"):
        check("no current file in %s" % value, accepts(free.replace("-\t5101\n", "-\t%s\n" % value, 1)), True)
    for value in ("5103", "0101", "0000", "-"):
        check("no such directory: %s" % value, accepts(free.replace("-\t5101\n", "-\t%s\n" % value, 1)), False)
    for name, text, expected in (
            ("the session without a directory", field(5, 7, []), False), ("a file without one", field(9, 4, []), False),
            ("a directory without a right", field(6, 1, []), False), ("a directory without a FID", field(6, 0, []), False),
            ("a directory less, with files in it", changed(6), False), ("a directory less, without", changed(7), True),
            ("a directory twice", changed(7, lines[6], lines[6]), False),
            ("a directory twice with another right", changed(7, lines[6], "5102\t00"), False),
            ("directories in another order", changed(6, lines[6], lines[5]).replace("\n5101\t01\n5102\t0F\n", "\n5101\t01\n", 1), True),
            ("four directories", changed(8, lines[7], "5104\tC3"), True),
            ("five directories", changed(8, lines[7], "5104\tC3", "5105\t00"), False),
            ("a directory behind a file", changed(11, "5104\tC3", lines[10]), False),
            ("a directory at the end", FIRMS + "5104\tC3\n", False),
            ("a directory before the session", changed(5, "5104\tC3", lines[4]), False),
            ("a directory at the start", "5104\tC3\n" + FIRMS, False),
            ("a directory within contents", changed(10, "5104\tC3", lines[9]), False),
            ("the root as a directory", changed(6, "3F00\t00", lines[5]), False),
            ("a directory's line as a file's", changed(7, "5102\t3800000F00\t0\t0\t3F00"), False),
            ("CREATE's bytes in its line", changed(7, "5102\t3800000F00"), False), ("a field more", changed(7, "5102\t0F\t3F00"), False),
            ("a blank for the tab", changed(7, "5102 0F"), False), ("an empty line before them", changed(6, "", lines[5]), False),
            ("an empty line behind them", changed(9, "", lines[8]), False),
            ("a file of type 38", changed(9, "0101\t3800010000\t0\t0\t3F00"), False),
            ("all in the root", FIRMS.replace("\t5101\n", "\t3F00\n"), False),
            ("no directories' lines", text_of_lines(lines[:5] + lines[8:]), False)):
        check("firms: " + name, accepts(text), expected)
    check("firms: without a line", [number for number in range(1, 15) if accepts(changed(number))], [7, 8])
    check("firms: a line twice", [number for number in range(1, 15) if accepts(changed(number, *[lines[number - 1]] * 2))], [])
    free = free.replace("-\t5101\n", "-\t3F00\n", 1)
    ends = [len(text_of_lines(free.splitlines()[:count])) for count in (5, 6, 7, 8, 10, 12, 14)]
    check("firms: cut off", [length for length in range(len(free) + 1) if accepts(free[:length])], ends)

    # The old form: no directory and no field for one. What has a directory has no such lines.
    old = LINED.replace("\t3F00\n", "\n")
    read, contents = texts.from_text(old.encode(), texts.OLD)
    lined = lined_session().program
    check("the old form, read", (snapshot(read), bytes(contents[:53])), (snapshot(lined.card), bytes(lined.area[:53])))
    check("written in the old form", texts.to_text(read, contents, texts.OLD).decode(), old)
    check("written in the new form", texts.to_text(read, contents).decode(), LINED)
    for name, text, form, expected in (
            ("the old form as new", old, texts.NEW, False), ("the new form as old", LINED, texts.OLD, False),
            ("firms as old", FIRMS, texts.OLD, False),
            ("a directory in the old form", old.replace("\n0101", "\n5101\t01\n0101"), texts.OLD, False),
            ("the session alone in the new form", old.replace("\t-\n", "\t-\t3F00\n"), texts.OLD, False),
            ("the session alone in the old form", LINED.replace("\t-\t3F00\n", "\t-\n"), texts.NEW, False)):
        check(name, texts.from_text(text.encode(), form) is not None, expected)
    refused = False
    try:
        texts.to_text(card, area, texts.OLD)
    except ValueError:
        refused = True
    check("firms have no old form", refused, True)


def test_text_lines():
    """Lines that are missing, added or in another order, and what stands between the fields and behind the last newline."""
    lines = LINED.splitlines()
    check("no lines", accepts(""), False)
    check("without a line", [number for number in range(1, 15) if accepts(with_lines(number))], [])
    check("with a line twice", [number for number in range(1, 15) if accepts(with_lines(number, *[lines[number - 1]] * 2))], [])
    check("with an empty line before one",
          [number for number in range(1, 15) if accepts(with_lines(number, "", lines[number - 1]))], [])
    check("with one line of the contents less", accepts(LINED.replace(lines[6] + "\n", "")), False)

    def swapped(first, second):
        order = list(lines)
        order[first - 1], order[second - 1] = order[second - 1], order[first - 1]
        return text_of_lines(order)

    # The PINs may change places, for neither right is held, and the keys too, for each has all its tries. So may the lines of the two
    # files of 6 bytes, and their contents.
    check("with two lines swapped", [(first, second) for first in range(1, 15) for second in range(first + 1, 15)
                                     if accepts(swapped(first, second))], [(1, 4), (2, 3), (9, 11), (10, 12)])
    first, second, third, fourth = [lines[start:end] for start, end in zip(FILE_ENDS, FILE_ENDS[1:])]
    for name, files, expected in (
            ("files in another order", (fourth, third, second, first), True), ("a file less", (second, third, fourth), True),
            ("the current file missing", (first, second, third), False),
            ("a file twice", (first, second, second, third, fourth), False),
            ("its line and contents apart", (first[:1], second, first[1:], third, fourth), False)):
        check(name, accepts(text_of_lines(lines[:5] + sum(files, []))), expected)

    # Cut off anywhere: only whole files are a card, and only where the current one is among them.
    check("cut off", [length for length in range(len(LINED)) if accepts(LINED[:length])], [])
    free = with_field(5, 3, "-")
    ends = [len(text_of_lines(free.splitlines()[:count])) for count in FILE_ENDS]
    check("cut off, no file current", [length for length in range(len(free) + 1) if accepts(free[:length])], ends)
    for name, text in (
            ("no last newline", LINED[:-1]), ("a newline more", LINED + "\n"), ("a newline before", "\n" + LINED),
            ("a byte behind", LINED + "\x00"), ("a blank behind", LINED + " "), ("the text twice", LINED * 2),
            ("CR and newline", LINED.replace("\n", "\r\n")), ("CR for newline", LINED.replace("\n", "\r")),
            ("a CR in the last line", LINED[:-1] + "\r\n"), ("a form feed between lines", LINED.replace("\n", "\f", 1)),
            ("two tabs", LINED.replace("\t", "\t\t", 1)), ("a blank for a tab", LINED.replace("\t", " ", 1)),
            ("a tab at the start", "\t" + LINED), ("a tab at a line's end", LINED.replace("\n", "\t\n", 1)),
            ("a comma for a tab", LINED.replace("\t", ",", 1)), ("lower case", LINED.lower()), ("a comment", "# a card\n" + LINED),
            ("a byte order mark", "\xEF\xBB\xBF" + LINED), ("a zero byte for a tab", LINED.replace("\t", "\x00", 1)),
            ("a tab for a newline", LINED.replace("\n", "\t", 1)), ("a newline for a tab", LINED.replace("\t", "\n", 1))):
        check(name, accepts(text), False)


def test_text_sizes():
    start = text_of_lines(LINED.splitlines()[:4]) + "0\t0\t0\t-\t-\t0\t-\t3F00\n"

    def files(*sizes):
        """Binary files of so many bytes, their SFIs from 1 on."""
        text = start
        for number, size in enumerate(sizes, 1):
            text += "%04X\t28%04X0000\t0\t0\t3F00\n" % (number, size) + ("55" * 32 + "\n") * (size // 32)
            if size % 32 > 0:
                text += "66" * (size % 32) + "\n"
        return text

    for name, sizes, expected in (
            ("16 files", (1,) * 16, True), ("17 files", (1,) * 17, False), ("30 files", (1,) * 30, False),
            ("4,096 bytes", (4096,), True),
            ("4,096 bytes and one more", (4096, 1), False), ("4,097 bytes in 16 files", (256,) * 15 + (257,), False),
            ("4,096 bytes in 16 files", (256,) * 16, True), ("two files of 4,096", (4096, 4096), False)):
        check(name, accepts(files(*sizes)), expected)
    for size in (1, 31, 32, 33, 63, 64, 65):
        text = files(size)
        card, area = texts.from_text(text.encode())
        check("a file of %d" % size, (texts.to_text(card, area).decode(), bytes(area[:size])),
              (text, bytes.fromhex("55" * (size // 32 * 32) + "66" * (size % 32))))

    # One file, its contents given as hex.
    for created, held, contents, expected in (
            ("2800000000", 0, "", False), ("2800010000", 0, "55", True), ("2C00010000", 0, "55", False),
            ("2C00020000", 0, "5555", True), ("2C00020000", 2, "0155", True), ("2C00020000", 2, "0055", False),
            ("2A01010000", 0, "55", False), ("2A02010000", 0, "5555", True), ("2AFE010000", 0, "55" * 254, True),
            ("2AFF010000", 0, "55" * 255, False), ("2A02000000", 0, "", False), ("2A02B20000", 0, "55" * 356, True),
            ("2A02B30000", 0, "55" * 358, False), ("2EFE010000", 254, "55" * 254, True), ("2EFF010000", 255, "55" * 255, False),
            ("2E02000000", 0, "", False), ("2E02B20000", 2, "55" * 356, True), ("2E02B30000", 2, "55" * 358, False),
            # Records of 178 and of 179 bytes, and six of 178, which take 1,074.
            ("2C00B30000", 179, "B2" + "55" * 178, True), ("2C00B40000", 180, "B3" + "55" * 179, False),
            ("2C00B50000", 181, "B2" + "55" * 178 + "0155", True), ("2C04320000", 1074, ("B2" + "55" * 178) * 6, True),
            ("2C04320000", 1073, ("B2" + "55" * 178) * 6, False), ("2C04320000", 1075, ("B2" + "55" * 178) * 6, False),
            ("2C10000000", 4096, "0155" * 2048, True), ("2810000000", 0, "55" * 4096, True), ("2810010000", 0, "55" * 4097, False)):
        lines = [contents[place:place + 64] for place in range(0, len(contents), 64)]
        text = start + text_of_lines(["0001\t%s\t%d\t0\t3F00" % (created, held)] + lines)
        check("a file made by %s, %d held or used" % (created, held), accepts(text), expected)

    # The longest text. Credentials with sixteen bytes and three digits twice: 4 x 41. The session: 46 with the mode, 513 with
    # 256 waiting bytes, and 5 with the directory. Four directories of 8 bytes a line: 32. Sixteen cyclic files with 29 bytes a
    # line, as held and newest have three digits: 464. All 4,096 bytes: 8,192 digits, in 143 lines where the files end 2 bytes
    # behind a whole line: 15 x 258 + 226 = 4,096, and 15 x 9 + 8 = 143. Together 9,559.
    longest = text_of_lines(["FF" * 16 + "\t128\t128"] + ["39" * 16 + "\t128\t128"] * 2 + ["FE" * 16 + "\t128\t128"]
                            + ["1\t1\t1\tFF01\t" + "FF" * 16 + "\t1\t" + "FF" * 256 + "\tEE01"]
                            + ["EE%02X\tC1" % number for number in range(1, 5)])
    for number in range(1, 17):
        count = 129 if number < 16 else 113
        longest += text_of_lines(["FF%02X\t2E%02X02C1C1\t%d\t%d\tEE%02X" % (number, count, count, count - 1, 1 + (number - 1) // 4)]
                                 + ["FF" * 32] * (count * 2 // 32) + ["FFFF"])
    check("the longest text", (len(longest), accepts(longest)), (9559, True))


def test_text_calls():
    session = lined_session()
    card, area, text = session.program.card, session.program.area, LINED.encode()

    def write(card, size, area=area):
        buffer = bytearray(b"\xEE" * size)
        return texts.write(card, area, buffer), bytes(buffer)

    check("written", write(card, len(text)), ((0, len(text)), text))
    check("the rest of the buffer stays", write(card, len(text) + 5), ((0, len(text)), text + b"\xEE" * 5))
    for size in (0, 1, len(text) - 1):
        check("a buffer of %d" % size, write(card, size), ((10, 0), b"\xEE" * size))
    for size in (0, 4095, 4097):
        check("an area of %d" % size, write(card, 9000, bytearray(size)), ((2, 0), b"\xEE" * 9000))
        check("an area of %d first" % size, write(cards.Card(), 0, bytearray(size)), ((2, 0), b""))
    check("a blank state", write(cards.Card(), 9000), ((4, 0), b"\xEE" * 9000))
    check("a blank state first", write(cards.Card(), 0), ((4, 0), b""))
    area[53 - 8] = 0
    check("a record of no bytes", write(card, 9000), ((4, 0), b"\xEE" * 9000))

    def read(text, size=4096):
        lent = bytearray(b"\xEE" * size)
        outcome, card = texts.read(lent, text)
        return outcome, snapshot(card), bytes(lent)

    area[53 - 8] = 1
    blank = snapshot(cards.Card())
    check("read", read(text), (0, snapshot(card), bytes(area[:53]) + bytes(4096 - 53)))
    for refused in (b"", text[:-1], text + b"\n", bytes(65536)):
        check("refused", read(refused), (11, blank, b"\xEE" * 4096))
        for size in (0, 4095, 4097):
            check("refused by an area of %d" % size, read(refused, size), (2, blank, b"\xEE" * size))
    for size in (0, 4095, 4097):
        check("an area of %d for a good text" % size, read(text, size), (2, blank, b"\xEE" * size))


# A card of the shelves, and below it what it becomes. 3F00 stands in waiting bytes and in contents too.
SHELVED = """\
000102030405060708090A0B0C0D0E0F	128	127
3837363534333231	5	0
313233343536	3	3
101112131415161718191A1B1C1D1E1F	10	0
0	0	1	A102	00112233	1	3F00FF
A101	2E02024001	1	0
00010000
A102	2800210040	0	0
3F000000000000000000000000000000000000000000000000000000000000FF
EE
A103	2C00040F00	0	0
00000000
"""
CONVERTED = """\
000102030405060708090A0B0C0D0E0F	128	127
3837363534333231	5	0
313233343536	3	3
101112131415161718191A1B1C1D1E1F	10	0
0	0	1	A102	00112233	1	3F00FF	3F00
A101	2E02024001	1	0	3F00
00010000
A102	2800210040	0	0	3F00
3F000000000000000000000000000000000000000000000000000000000000FF
EE
A103	2C00040F00	0	0	3F00
00000000
"""


def test_text_conversions():
    def converted(convert, text, room):
        """The outcome, the count, and the buffer, of which the first bytes may be written and the others stay."""
        buffer = bytearray(b"\xEE" * room)
        outcome, count = convert(text.encode("latin-1"), buffer)
        check("nothing past the count", bytes(buffer[count:]), b"\xEE" * (room - count))
        return outcome, buffer[:count].decode("latin-1")

    def outcomes(convert, text):
        """With no room, room for a byte, some, and enough for every card: a text that is refused is so whatever the room."""
        return [converted(convert, text, room) for room in (0, 1, len(text) - 7, 9559)]

    new_card = "".join(CONVERTED.splitlines(True)[:4]) + "0\t0\t1\t-\t-\t0\t-\t3F00\n"
    for name, old, new in (
            ("shelved", SHELVED, CONVERTED), ("the example", LINED.replace("\t3F00\n", "\n"), LINED),
            ("no file", new_card.replace("\t3F00", ""), new_card)):
        for convert, text, expected in ((texts.to_new, old, new), (texts.to_old, new, old)):
            size = len(expected)
            for room in (size, size + 1, 9559, 9560):
                check("%s: converted" % name, converted(convert, text, room), (0, expected))
            for room in (0, 1, 2, size // 2, size - 1):
                check("%s: a buffer that is too short" % name, converted(convert, text, room), (10, ""))
        check("%s: back and forth" % name, converted(texts.to_old, converted(texts.to_new, old, 9559)[1], 9559), (0, old))
        check("%s: forth and back" % name, converted(texts.to_new, converted(texts.to_old, new, 9559)[1], 9559), (0, new))
        read, contents = texts.from_text(new.encode())
        was, contents_before = texts.from_text(old.encode(), texts.OLD)
        check("%s: the card of the new text" % name, (snapshot(read), contents), (snapshot(was), contents_before))
        check("%s: all in the root" % name, [read.folder] + [file.folder for file in read.files], [cards.ROOT] * (1 + len(read.files)))
        check("%s: no directory" % name, read.folders, [])

    def with_line(text, number, new):
        lines = text.splitlines()
        lines[number - 1:number] = new
        return text_of_lines(lines)

    session, file = SHELVED.splitlines()[4], SHELVED.splitlines()[5]
    directory = "5101\t01"
    for name, text in (
            ("nothing", ""), ("a newline", "\n"), ("the new form", CONVERTED), ("firms", FIRMS), ("no last newline", SHELVED[:-1]),
            ("a newline more", SHELVED + "\n"), ("twice", SHELVED * 2), ("CR LF", SHELVED.replace("\n", "\r\n")),
            ("the session's line with the root", with_line(SHELVED, 5, [session + "\t3F00"])),
            ("the session's line with no directory", with_line(SHELVED, 5, [session + "\t-"])),
            ("the session's line with an empty field", with_line(SHELVED, 5, [session + "\t"])),
            ("the session's line with a directory", with_line(SHELVED, 5, [session + "\t5101"])),
            ("the session's line with a directory that is there", with_line(SHELVED, 5, [session + "\t5101", directory])),
            ("a file's line with the root", with_line(SHELVED, 6, [file + "\t3F00"])),
            ("a file's line with a directory", with_line(SHELVED, 6, [file + "\t5101"])),
            ("files' lines with the root, and not the session's", with_line(CONVERTED, 5, [session])),
            ("a directory's line", with_line(SHELVED, 5, [session, directory])),
            ("a directory's line at the end", SHELVED + directory + "\n"),
            ("the new form with a directory's line", with_line(CONVERTED, 5, [session + "\t3F00", directory])),
            ("a limit of 129", SHELVED.replace("128\t127", "129\t127")),
            ("a right with tries gone", with_line(SHELVED, 3, ["313233343536\t3\t2"])),
            ("a current file that is not there", SHELVED.replace("A102\t00112233", "A104\t00112233")),
            ("an SFI twice", SHELVED.replace("A103", "B102")), ("before R-6", with_line(SHELVED, 5, ["0\t0\t1\tA102\t00112233"])),
            ("before R-9", with_line(SHELVED, 4, [])), ("five credentials", with_line(SHELVED, 4, SHELVED.splitlines()[3:4] * 2)),
            ("a transport key of 15 bytes", SHELVED.replace("101112", "1112")), ("more tries than its limit", SHELVED.replace("\t10\t0", "\t10\t11"))):
        check("to new, %s" % name, outcomes(texts.to_new, text), [(11, "")] * 4)
    for name, text in (
            ("nothing", ""), ("a newline", "\n"), ("the old form", SHELVED), ("no last newline", CONVERTED[:-1]),
            ("a newline more", CONVERTED + "\n"),
            ("the session's line without a directory", with_line(CONVERTED, 5, [session])),
            ("a file's line without a directory", with_line(CONVERTED, 6, [file])),
            ("a directory on the session's line that is not there", with_line(CONVERTED, 5, [session + "\t5101"])),
            ("a directory on a file's line that is not there", with_line(CONVERTED, 6, [file + "\t5101"])),
            ("a limit of 129", CONVERTED.replace("128\t127", "129\t127")), ("an SFI twice", CONVERTED.replace("A103", "B102")),
            ("before R-9", with_line(CONVERTED, 4, [])), ("five credentials", with_line(CONVERTED, 4, CONVERTED.splitlines()[3:4] * 2)),
            ("a transport key of 15 bytes", CONVERTED.replace("101112", "1112")),
            ("more tries than its limit", CONVERTED.replace("\t10\t0", "\t10\t11")),
            # 11 comes before 13.
            ("firms before R-9", with_line(FIRMS, 4, [])), ("firms, a creation right with bit 3", FIRMS.replace("5101\t01", "5101\t05")),
            ("firms, and a limit of 129", FIRMS.replace("\t128\t", "\t129\t", 1)), ("firms, and no last newline", FIRMS[:-1]),
            ("a directory with a bad right", with_line(CONVERTED, 5, [session + "\t3F00", "5101\t02"])),
            ("a directory with a root file's FID", with_line(CONVERTED, 5, [session + "\t3F00", "A101\t01"])),
            ("a directory behind a file", CONVERTED + directory + "\n"),
            ("five directories", with_line(CONVERTED, 5, [session + "\t3F00"] + ["510%d\t01" % number for number in range(1, 6)])),
            ("the old form with a directory's line", with_line(SHELVED, 5, [session, directory]))):
        check("to old, %s" % name, outcomes(texts.to_old, text), [(11, "")] * 4)
    # 13 comes before 10.
    none_current = session.replace("A102", "-")
    for name, text in (
            ("firms", FIRMS), ("a directory without files", with_line(CONVERTED, 5, [session + "\t3F00", directory])),
            ("a directory that is current, without files", with_line(CONVERTED, 5, [none_current + "\t5101", directory])),
            ("a directory with a file", with_line(with_line(CONVERTED, 6, [file + "\t5101"]), 5, [session + "\t3F00", directory])),
            ("four directories", with_line(CONVERTED, 5, [session + "\t3F00"] + ["510%d\t01" % number for number in range(1, 5)])),
            ("a directory and no file", with_line(new_card, 5, ["0\t0\t1\t-\t-\t0\t-\t3F00", directory]))):
        check("to old, %s" % name, outcomes(texts.to_old, text), [(13, "")] * 4)


def lines_in_other_form(text):
    """The lines of a good text with the root added where the new form has it, or taken away: known by their tabs alone."""
    made = []
    for line in text.decode("ascii").splitlines(True):
        tabs = line.count("\t")
        if tabs in (6, 3):
            line = line[:-1] + "\t3F00\n"
        elif tabs in (7, 4):
            line = line[:-len("\t3F00\n")] + "\n"
        made.append(line)
    return "".join(made).encode("ascii")


def test_text_converted():
    """What was converted, by its lines alone; and back again."""
    for form, back, due in ((texts.OLD, texts.to_old, (0, 11)), (texts.NEW, texts.to_new, (0, 11, 13))):
        convert, _ = text_cases.CONVERSIONS[form]
        seen, other = dict.fromkeys(due, 0), []
        for kind, text in text_cases.texts_to_convert(generate.Dice(3), 2000, form, []):
            buffer, again = bytearray(9559), bytearray(len(text))
            outcome, count = convert(text, buffer)
            made = bytes(buffer[:count])
            seen[outcome] += 1
            if outcome == 0 and (made != lines_in_other_form(text) or back(made, again) != (0, len(text)) or again != text):
                other.append((kind, text))
            if outcome != 0 and (count, buffer) != (0, bytearray(9559)):
                other.append((kind, text))
        check("converted from the %s form" % form, other[:3], [])
        check("each is met often, from the %s form" % form, [outcome for outcome in due if seen[outcome] < 100], [])


def test_framing():
    session = Session()
    for sent, expected in (
            ("", "6700"), ("00", "6700"), ("0020", "6700"), ("FF2000", "6700"),
            ("00200001", "63C3"), ("0020000100", "6700"), ("002000010031", "6700"),
            ("0020000106 3132333435", "6700"), ("0020000106 31323334353600", "6700"),
            ("0020000106 3132333435360000", "6700"), ("0020000100 0006 313233343536", "6700"),
            ("01200001", "6E00"), ("81E00001", "6E00"), ("FFFF0000", "6E00"), ("012000", "6700"), ("0120000105 31", "6700"),
            ("80200001", "6D00"), ("00E00001", "6D00"), ("00000000", "6D00"), ("80FF0000", "6D00"), ("00C0000000", "6D00"),
            ("0020000206 313233343536", "6A86"), ("0020010106 313233343536", "6A86"), ("00200002", "6A86")):
        check("command %s" % sent, session.send(sent), expected)
    check("all the classes", [session.send("%02X200001" % cla) for cla in range(256)],
          ["63C3"] + ["6E00"] * 3 + ["6D00"] + ["6E00"] * 123 + ["6D00"] + ["6E00"] * 127)
    session = Session(mode=1)
    served = [(cla, ins) for cla in (0x00, 0x04, 0x80) for ins in range(256)
              if session.send("%02X%02XFFFF" % (cla, ins)) != "6D00"]
    check("the list", sorted(served), sorted(cards.ROWS))
    check("eighteen rows", len(cards.LIST), 18)


def test_files():
    session = Session()
    check("create without the device right", session.send("80E00001 05 FF00000000"), "6982")
    session.log_in()
    for sent, expected in (
            ("80E00000 05 2800100000", "6A86"), ("80E0001F 05 2800100000", "6A86"), ("80E000FF 05 2800100000", "6A86"),
            ("80E0001F", "6A86"), ("80E00001", "6700"), ("80E0000105", "6700"), ("80E00001 04 28001000", "6700"),
            ("80E00001 06 280010000000", "6700"), ("80E00001 05 280010000000", "6700"),
            ("80E00001 05 2700100000", "6A80"), ("80E00001 05 2800000000", "6A80"), ("80E00001 05 2A01010000", "6A80"),
            ("80E00001 05 2AFF010000", "6A80"), ("80E00001 05 2A02000000", "6A80"), ("80E00001 05 2A02B30000", "6A80"),
            ("80E00001 05 2E01010000", "6A80"), ("80E00001 05 2800100200", "6A80"), ("80E00001 05 2800100010", "6A80"),
            ("80E00001 05 2AFEB20000", "6A84"),
            ("80E01021 05 2A02020000", "9000"), ("80E01021 05 2800100000", "6986"), ("80E02041 05 2810000000", "6986"),
            ("80E02041 05 28FFFF0000", "6A80"), ("80E02042 05 2810000000", "6A84"), ("80E02042 05 280FFC0000", "9000"),
            ("80E00003 05 2800010000", "6A84")):
        check("create %s" % sent, session.send(sent), expected)

    session = device_session()
    check("sixteen files", [session.send("80E000%02X 05 2800010000" % sfi) for sfi in range(1, 17)], ["9000"] * 16)
    check("a seventeenth", session.send("80E00011 05 2800010000"), "6A84")
    check("SFI before room", session.send("80E00001 05 2800010000"), "6986")

    # SELECT, and which file is current.
    session = device_session()
    session.send("80E01001 05 2800040000")
    session.send("80E02002 05 2A02020000")
    session.send("80E0301E 05 2E03020000")
    for sent, expected in (
            ("00A40000021001", "9000"), ("00B0000004", "00000000 9000"), ("00A40000021002", "6A82"),
            ("00B0000004", "00000000 9000"), ("00A40000023F00", "9000"), ("00B0000004", "6A82"), ("00B2010402", "6A82"),
            ("00E20000020000", "6A82"), ("00A40001021001", "6A86"), ("00A40000011000", "6700"), ("00A4000003100100", "6700"),
            ("00A4000002100100", "6700"), ("00A40000", "6700"),
            ("00B0810004", "00000000 9000"), ("00D6000102BEEF", "9000"), ("00B0000004", "00BEEF00 9000"),
            ("00B0820001", "6981"), ("00B0830001", "6A82"), ("00B0800001", "6A86"), ("00B09F0001", "6A86"),
            ("00B0A10001", "6A86"), ("00B0FF0001", "6A86"), ("00B09E0001", "6981"), ("00B07FFF01", "6A84"),
            ("00B0000005", "6700"), ("00B0000000", "00BEEF00 9000"), ("00B00000", "6700"), ("00B0000001AA", "6700"),
            ("00D60000", "6700"), ("00D6000001", "6700"), ("00D6000001AA00", "6700"),
            # The current file is still the first: a refused command with SFI changes nothing.
            ("00B0000004", "00BEEF00 9000"),
            ("00B2010402", "6981"), ("00B2011400", "0000 9000"), ("00B2010402", "0000 9000"), ("00B2020402", "0000 9000"),
            ("00B2030402", "6A83"), ("00B2010401", "6C02"), ("00B2010403", "6C02"), ("00B20304FF", "6A83"),
            ("00B2000402", "6A86"), ("00B2010002", "6A86"), ("00B2010502", "6A86"), ("00B201FC02", "6A86"),
            ("00B201E402", "6A82"), ("00B2010402AABB", "6700"), ("00B20104", "6700"),
            ("00DC020402AABB", "9000"), ("00B2020400", "AABB 9000"), ("00B2010400", "0000 9000"),
            ("00DC020401AA", "6700"), ("00DC030401AA", "6A83"), ("00DC0204", "6700"), ("00DC000402AABB", "6A86"),
            ("00E20000020000", "6981"), ("00E200F0020001", "9000"), ("00E20000020002", "9000"), ("00E20000020003", "9000"),
            ("00E20000020004", "9000"), ("00E200000100", "6700"), ("00E2010001000", "9"), ("00E20100020000", "6A86"),
            ("00E20004020000", "6A86"), ("00E200F8020000", "6A86"), ("00E20000", "6700"), ("00E2000002", "6700"),
            ("00E2000002000000", "6700"), ("00E20008020000", "6981"), ("00E200E0020000", "6A82"),
            ("00B2010400", "0004 9000"), ("00B2020400", "0003 9000"), ("00B2030400", "0002 9000"), ("00B2040400", "6A83"),
            ("00DC03040200FF", "9000"), ("00B2030400", "00FF 9000"), ("00E20000020005", "9000"),
            ("00B2010400", "0005 9000"), ("00B2030400", "0003 9000"), ("00B0810004", "00BEEF00 9000"),
            ("00B2021400", "AABB 9000")):
        check("files %s" % sent, session.send(sent), expected)
    session.reset()
    check("reset leaves no current file", session.send("00B0000001"), "6A82")

    session = device_session()
    session.send("80E00001 05 2804000000")
    check("a large offset by P", session.send("00D603FF0101"), "9000")
    check("by SFI an offset is one byte", session.send("00B081FF00"), "00" * 256 + " 9000")
    check("Le 00 is 256", session.send("00B0030000"), "00" * 255 + "01 9000")
    check("Le 00 is no more than what is left", session.send("00B0030100"), "00" * 254 + "01 9000")


def test_read_to_end():
    """Le 00 in READ BINARY: the smaller of 256 and the bytes from the offset to the end."""
    content = [bytes((place * 7 + place // 256) & 0xFF for place in range(size)) for size in (40, 256, 257, 4096)]

    def card_with(content, more=()):
        """One free file with such bytes, SFI 1, which is current when all that is sent besides is done."""
        session = device_session()
        sent = ["80E00001 05 28%04X0000" % len(content), *more, "00A40000020001"]
        for place in range(0, len(content), 255):
            part = content[place:place + 255]
            sent.append("00D6%04X%02X%s" % (place, len(part), part.hex().upper()))
        check("a file of %d" % len(content), {session.send(command) for command in sent}, {"9000"})
        return session

    # A file of 40 from every offset, in the current file and by SFI; the file behind it must not show.
    behind = ("80E00002 05 2800400000", "00D6000040" + "FF" * 64)
    session = card_with(content[0], more=behind)
    for offset in range(40):
        expected = content[0][offset:].hex().upper() + " 9000"
        check("40 bytes, Le 00 at %d" % offset, session.send("00B0%04X00" % offset), expected)
        check("40 bytes by SFI, Le 00 at %d" % offset, session.send("00B081%02X00" % offset), expected)
    for offset in (40, 41, 255):
        check("40 bytes, Le 00 at %d" % offset, session.send("00B0%04X00" % offset), "6A84")
        check("40 bytes by SFI, Le 00 at %d" % offset, session.send("00B081%02X00" % offset), "6A84")
    check("Le 00 at the last offset there is", session.send("00B07FFF00"), "6A84")

    # Around 256 bytes to the end: 255, 256 and 257 are left.
    for held, offset, length in ((1, 0, 256), (1, 1, 255), (1, 255, 1), (2, 0, 256), (2, 1, 256), (2, 2, 255), (2, 256, 1),
                                 (3, 0, 256), (3, 1, 256), (3, 3839, 256), (3, 3840, 256), (3, 3841, 255), (3, 4095, 1)):
        expected = content[held][offset:offset + length]
        check("%d bytes are meant" % length, len(expected), length)
        session = card_with(content[held])
        check("%d bytes, Le 00 at %d" % (len(content[held]), offset), session.send("00B0%04X00" % offset),
              expected.hex().upper() + " 9000")
        if offset <= 255:
            session.send("00A40000023F00")
            check("%d bytes by SFI, Le 00 at %d" % (len(content[held]), offset), session.send("00B081%02X00" % offset),
                  expected.hex().upper() + " 9000")
            check("and then it is current", session.send("00B0000001"), content[held][:1].hex().upper() + " 9000")
    for held in (1, 2, 3):
        check("Le 00 at the size", card_with(content[held]).send("00B0%04X00" % len(content[held])), "6A84")

    # Every other Le is exact, as before.
    session = card_with(content[0], more=behind)
    for offset in (0, 1, 20, 38, 39):
        answers = [session.send("00B0%04X%02X" % (offset, le)) for le in range(1, 256)]
        check("40 bytes, any other Le at %d" % offset, answers,
              [content[0][offset:offset + le].hex().upper() + " 9000" if offset + le <= 40 else "6700" for le in range(1, 256)])
    check("257 bytes, Le FF where 254 are left", card_with(content[2]).send("00B00003FF"), "6700")

    # The checks before are as they were, and a refusal leaves the current file.
    session = card_with(content[0], more=(
        "80E00002 05 2800284040", "80E00003 05 2800280F00", "80E00004 05 2A02040000", "80E00005 05 2C00280000",
        "80E00006 05 2E02040000"))
    for sent, expected in (
            ("00B0820000", "6982"), ("00B0822700", "6982"), ("00B082FF00", "6982"), ("00B0830000", "6982"),
            ("00B083FF00", "6982"), ("00B0840000", "6981"), ("00B0850000", "6981"), ("00B0860000", "6981"),
            ("00B0870000", "6A82"), ("00B0800000", "6A86"), ("00B09F0000", "6A86"), ("00B0810001AA00", "6700"),
            ("00B0812800", "6A84"), ("00B0002700", content[0][39:].hex().upper() + " 9000")):
        check("Le 00, %s" % sent, session.send(sent), expected)
    session.user()
    check("Le 00 with the right", session.send("00B0820000"), "00" * 40 + " 9000")
    check("never is never", session.send("00B0830000"), "6982")
    session.send("00A40000023F00")
    check("Le 00 without a file", session.send("00B0000000"), "6A82")

    # UPDATE BINARY, READ RECORD and GET CHALLENGE are as before.
    check("UPDATE BINARY past the end", session.send("00D6812702AABB"), "6700")
    check("UPDATE BINARY of 255 past the end", session.send("00D68100FF" + "AA" * 255), "6700")
    check("UPDATE BINARY, Le 00", session.send("00D6810000"), "6700")
    check("nothing was written", session.send("00B0810000"), content[0].hex().upper() + " 9000")
    check("READ RECORD, Le 00", session.send("00B2012400"), "00000000 9000")
    check("READ RECORD, Le FF", session.send("00B20124FF"), "6C04")
    check("GET CHALLENGE, Le 00", session.send("0084000000"), "6700")


def waiting_session(length):
    """A card of mode 1 with a free file of so many bytes, SFI 1, and other numbers in each; none is current and nothing waits."""
    session = device_session(mode=1)
    session.send("80E01001 05 28%04X0000" % length)
    content = "".join("%02X" % (place * 5 % 251) for place in range(length))
    for place in range(0, length, 255):
        part = content[2 * place:2 * (place + 255)]
        session.send("00D6%04X%02X%s" % (place, len(part) // 2, part))
    session.send("00A40000023F00")
    return session, content


def test_response():
    # GET RESPONSE by itself, each check before the next.
    session, content = waiting_session(5)
    for sent, expected in (
            ("00C0000001", "6985"), ("00C0000000", "6985"), ("00C00000", "6700"), ("00C0000001AA", "6700"),
            ("00C0000001AA00", "6700"), ("00C00001", "6A86"), ("00C0010000", "6A86"), ("00C0008000", "6A86"),
            ("00C0FFFF01AA", "6A86"), ("80C0000000", "6D00"), ("01C0000000", "6E00"), ("00C000", "6700"),
            ("00C000000001", "6700"), ("00C1000000", "6D00"),
            ("00B0810000", "6105"), ("00C0000006", "6C05"), ("00C00000FF", "6C05"), ("00C0000106", "6A86"), ("00C00100", "6A86"),
            ("00C00000", "6700"), ("00C0000001AA", "6700"), ("00C0000001AA00", "6700"), ("00C0000001", content[:2] + " 6104"),
            ("00C0000005", "6C04"), ("00C0000002", content[2:6] + " 6102"), ("00C0000003", "6C02"),
            ("00C0000002", content[6:] + " 9000"), ("00C0000002", "6985"), ("00C0000000", "6985")):
        check("GET RESPONSE %s" % sent, session.send(sent), expected)

    # 61 and the length, 00 for 256; Le 00 gives all, and any other cut the same bytes.
    for length in (1, 2, 3, 16, 254, 255, 256):
        session, content = waiting_session(length)
        for le in sorted({1, 2, 3, 7, 100, 127, 128, max(1, length - 1), min(length, 255), 255, 256}):
            check("%d bytes wait" % length, session.send("00B0810000"), "61%02X" % (length & 0xFF))
            check("%d bytes by %d" % (length, le), session.fetch(le), content + " 9000")
        session.send("00B0810000")
        if length < 255:
            check("one more than %d" % length, session.send("00C00000%02X" % (length + 1)), "6C%02X" % length)
        check("then all of %d" % length, session.send("00C0000000"), content + " 9000")
    session, content = waiting_session(256)
    session.send("00B0810000")
    check("255 of 256", session.send("00C00000FF"), content[:510] + " 6101")
    check("two more", session.send("00C0000002"), "6C01")
    check("the last", session.send("00C0000001"), content[510:] + " 9000")

    # Only data wait: what has none is answered as in mode 0.
    session = Session(mode=1)
    for sent, expected in (("00200001", "63C3"), ("0020000106 313233343536", "9000"), ("00A40000023F00", "9000"),
                           ("00B2010400", "6A82"), ("0024010106 313233343536", "9000"), ("0084000005", "6700"), ("00C0000000", "6985")):
        check("no data, %s" % sent, session.send(sent), expected)

    # 61xx counts as 9000: the challenge stands and the file is current.
    for length in (4, 8, 16):
        session = Session(mode=1)
        shown = cards.encrypt(bytes.fromhex(KEY), bytes.fromhex(RANDOM)[:length] + bytes(16 - length)).hex().upper()
        check("a challenge of %d waits" % length, session.send("00840000%02X" % length), "61%02X" % length)
        check("it is fetched", session.fetch(3), RANDOM[:2 * length] + " 9000")
        check("and used", session.send("0082000010" + shown), "9000")
    session = Session(mode=1)
    session.send("0084000010")
    check("a challenge need not be fetched", session.send("0082000010" + CIPHERTEXT), "9000")
    check("and waits no longer", session.send("00C0000000"), "6985")
    session, content = waiting_session(5)
    session.send("80E02002 05 2E02030000")
    session.send("00E2000003A1A2A3")
    session.send("00A40000023F00")
    check("a record waits", session.send("00B2011400"), "6103")
    check("its file is current", session.send("00B2010403"), "6103")
    check("it is fetched", session.fetch(), "A1A2A3 9000")
    check("a part of a binary file waits", session.send("00B0810203"), "6103")
    check("its file is current", session.send("00B0000001"), "6101")
    check("only the last is fetched", session.fetch(), content[:2] + " 9000")

    # What keeps the waiting bytes and the challenge, and what discards both.
    for sent, random, expected in (
            ("00C0000104", RANDOM, "6A86"), ("00C00000", RANDOM, "6700"), ("00C0000001AA", RANDOM, "6700"),
            ("00C0000011", RANDOM, "6C10"), ("00200001", RANDOM[2:], "3"), ("00C0000000", "", "3"), ("", RANDOM + "00", "3")):
        session = Session(mode=1)
        session.send("0084000010")
        check("kept by %s" % sent, session.send(sent, random), expected)
        check("still there after %s" % sent, session.send("00C0000000"), RANDOM + " 9000")
        check("nothing waits, and the challenge stands", session.send("00C0000000"), "6985")
        check("the challenge after %s" % sent, session.send("0082000010" + CIPHERTEXT), "9000")
    session = Session(mode=1)
    session.send("0084000010")
    for line in ("", "RESET\t", "ISSUE\t\t3\t\t3\t\t3\t1", "ISSUE\t%s\t3\t123456\t3\t123456\t3\t2" % KEY):
        session.line(line)
    check("lines that are not served keep it", session.fetch(), RANDOM + " 9000")
    for sent in ("", "00", "00C000", "00C000000001", "00C0000002AA", "01C0000000", "80C0000000", "80C0000104", "00C2000000",
                 "00200001", "00A40000023F00", "00A40000021234", "0084000005", "0084000104", "00B0000001", "0020000106 313233343536",
                 "0082000110" + CIPHERTEXT, "80E00000"):
        session = Session(mode=1)
        session.send("0084000010")
        session.send(sent)
        check("discarded by %s" % (sent or "an empty command"), session.send("00C0000000"), "6985")
        check("and the challenge dropped", session.send("0082000010" + CIPHERTEXT), "6984")
    session = Session(mode=1)
    session.send("0084000010")
    session.send("00C0000005")
    check("a reset", session.reset(), "0")
    check("discards what waits", session.send("00C0000000"), "6985")
    check("drops the challenge", session.send("0082000010" + CIPHERTEXT), "6984")
    check("and keeps the mode", session.send("0084000004"), "6104")
    session.send("0084000010")
    check("the next data take their place", session.send("0084000008", RANDOM[::-1]), "6108")
    check("and those before are gone", session.fetch(), RANDOM[::-1][:16] + " 9000")
    session.send("0084000010")
    session.line("ISSUE\t%s\t3\t123456\t3\t654321\t3\t1\t%s\t3" % (KEY, TRANSPORT_KEY))
    check("nothing waits on a new card", session.send("00C0000000"), "6985")

    # Mode 0 has no GET RESPONSE, and drops the challenge at one.
    for sent in ("00C0000000", "00C0000010", "00C0000100", "00C00000", "00C0000001AA"):
        session = Session()
        check("mode 0, the data at once", session.send("0084000010"), RANDOM + " 9000")
        check("mode 0, %s" % sent, session.send(sent), "6D00")
        check("mode 0, no challenge after %s" % sent, session.send("0082000010" + CIPHERTEXT), "6984")
    check("mode 0, a broken frame", Session().send("00C000"), "6700")


# What each good rights byte asks: any one of these sets of rights, held in full, opens the file. All other bytes are bad.
NOTHING_ASKED, NEVER_OPEN = ("",), ()
ASKED = {
    0x00: NOTHING_ASKED, 0x0F: NEVER_OPEN,
    # Without bit 2 all set bits are needed.
    0x80: ("admin",), 0x40: ("user",), 0x01: ("device",), 0xC0: ("admin user",), 0x81: ("admin device",), 0x41: ("user device",),
    0xC1: ("admin user device",),
    # With it any one of the other set bits is enough. Bit 2 alone is bad.
    0x82: ("admin",), 0x42: ("user",), 0x03: ("device",), 0xC2: ("admin", "user"), 0x83: ("admin", "device"),
    0x43: ("user", "device"), 0xC3: ("admin", "user", "device"),
}


# Bit 3 asks for a code besides; 06 has nothing to choose from.
CODED_ASKED = {
    0x04: NOTHING_ASKED, 0x84: ("admin",), 0x44: ("user",), 0x05: ("device",), 0xC4: ("admin user",), 0x85: ("admin device",),
    0x45: ("user device",), 0xC5: ("admin user device",),
    0x86: ("admin",), 0x46: ("user",), 0x07: ("device",), 0xC6: ("admin", "user"), 0x87: ("admin", "device"),
    0x47: ("user", "device"), 0xC7: ("admin", "user", "device"),
}


def test_rights():
    check("good creation rights", [byte for byte in range(256) if not cards.is_bad_creation_right(byte)], sorted(ASKED))
    check("good rights bytes", [byte for byte in range(256) if not cards.is_bad_rights_byte(byte)], sorted(list(ASKED) + list(CODED_ASKED)))
    check("rights bytes in the readings", [byte in ASKED for byte in (0x82, 0x42, 0x03, 0x02, 0x8F)], [True] * 3 + [False] * 2)
    for byte, asked in ASKED.items():
        session = device_session()
        check("create with %02X" % byte, session.send("80E00001 05 280001%02X%02X" % (byte, byte)), "9000")
        session.send("80E00002 05 2E0201%02X%02X" % (byte, byte))
        for names in sets_of_rights(session):
            passes = any(set(needed.split()) <= names for needed in asked)
            shown = "%02X with %s" % (byte, " ".join(sorted(names)) or "nothing")
            check("read " + shown, session.send("00B0810001"), "00 9000" if passes else "6982")
            check("write " + shown, session.send("00D681000100"), "9000" if passes else "6982")
            check("append " + shown, session.send("00E2001001AA"), "9000" if passes else "6982")
            check("update " + shown, session.send("00DC011401BB"), "9000" if passes else "6982")
            check("read a record " + shown, session.send("00B2011400"), "BB 9000" if passes else "6982")
    session = device_session()
    for byte in sorted(set(range(256)) - set(ASKED) - set(CODED_ASKED)):
        check("bad read right %02X" % byte, session.send("80E00001 05 280001%02X00" % byte), "6A80")
        check("bad write right %02X" % byte, session.send("80E00001 05 28000100%02X" % byte), "6A80")
    session = device_session()
    session.send("80E00001 05 280001C200")
    session.reset()
    session.admin()
    session.user()
    session.send("0020000106 303030303030")
    check("one of two rights dropped", session.send("00B0810001"), "00 9000")
    session.send("0020000008 3030303030303030")
    check("both of two rights dropped", session.send("00B0810001"), "6982")
    session = device_session()
    session.send("80E00001 05 2800010080")
    check("two rights, read", session.send("00B0000001"), "00 9000")
    check("two rights, write", session.send("00D600000100"), "6982")
    session.send("80E00002 05 2A02010F0F")
    check("type before right", session.send("00E2000001AA"), "6981")
    check("right before number", session.send("00B2FF0400"), "6982")


def test_credentials():
    session = Session(user_limit=3)
    for sent, expected in (
            ("0020000106 31323334353A", "6A80"), ("0020000106 2F3233343536", "6A80"), ("00200001", "63C3"),
            ("0020000107 31323334353637", "63C2"), ("0020000110 31323334353600000000000000000000", "6A80"),
            ("0020000111 3132333435363132333435363132333435", "6700"), ("0020000106 313233343536", "9000"),
            ("00200001", "9000"), ("0020000106 31323334353A", "6A80"), ("00200001", "9000"), ("00200000", "63C5"),
            ("0024010106 393939393939", "9000"), ("00200001", "9000"), ("0020000106 313233343536", "63C2"),
            ("00200001", "63C2"), ("0024010106 393939393939", "6982"), ("0020000106 393939393939", "9000"),
            ("0024010006 393939393939", "6982"), ("002C020106 393939393939", "6982"), ("0024000106 393939393939", "6A86"),
            ("0024010206 393939393939", "6A86"), ("0024010105 3939393939", "6700"), ("00240101", "6700"),
            ("0024010106 39393939393A", "6A80"), ("002C020006 393939393939", "6A86"), ("002C010106 393939393939", "6A86"),
            ("002C020105 3939393939", "6700"), ("002C0201", "6700"), ("0024010106 39393939393900", "6700"),
            ("0024010110 30303030303030303030303030303030", "9000"),
            ("0020000110 30303030303030303030303030303030", "9000"), ("0020000106 303030303030", "63C2")):
        check("credentials %s" % sent, session.send(sent), expected)

    session = Session(user_limit=2)
    check("admin", session.admin(), "9000")
    check("digits before reload", session.send("002C020106 39393939393A"), "6A80")
    for expected in ("63C1", "63C0", "6983"):
        check("to the last try", session.send("0020000106 313131313131"), expected)
    check("no tries before digits", session.send("0020000106 31313131313A"), "6983")
    check("no tries after P and Lc", session.send("0020000105 3131313131"), "6700")
    check("reload of a blocked PIN", session.send("002C020106 303132333435"), "9000")
    check("full tries", session.send("00200001"), "63C2")
    check("the reloaded PIN", session.send("0020000106 303132333435"), "9000")
    session.reset()
    check("reset keeps the PIN and its tries", session.send("00200001"), "63C2")

    session = Session(key_limit=1)
    check("no challenge", session.send("0082000010" + CIPHERTEXT), "6984")
    check("P before case", session.send("0082000110" + CIPHERTEXT), "6A86")
    check("Lc 0F", session.send("008200000F" + CIPHERTEXT[2:]), "6700")
    session.send("0084000010")
    check("wrong cryptogram", session.send("0082000010" + RANDOM), "63C0")
    check("no tries before no challenge", session.send("0082000010" + CIPHERTEXT), "6983")
    session = Session()
    for length in (4, 8):
        shown = cards.encrypt(bytes.fromhex(KEY), bytes.fromhex(RANDOM)[:length] + bytes(16 - length)).hex().upper()
        check("challenge of %d" % length, session.send("00840000%02X" % length), RANDOM[:2 * length] + " 9000")
        check("filled with 00", session.send("0082000010" + shown), "9000")
    check("the lengths of a challenge",
          [length for length in range(256) if session.send("00840000%02X" % length) != "6700"], [4, 8, 16])
    check("GET CHALLENGE, P", session.send("0084000104"), "6A86")
    check("GET CHALLENGE, P before case", session.send("00840001"), "6A86")


# ---------------------------------------------------------------------------------------------------------------------
# Codes on the bus
# ---------------------------------------------------------------------------------------------------------------------

ELEVEN = "A0A1A2A3A4A5A6A7A8A9AA"


def test_code():
    """The code itself. Those in this list were worked out by openssl by hand, with the padding typed."""
    for length, message, expected in (
            (4, "04B0810004", "D8AC3A94"), (8, "04B0810004", "4E5522FE"), (16, "04B0810004", "CACC135C"),
            (16, "04D6810005AA", "8A400F35"), (4, "04D681000F" + ELEVEN, "6C5E0113"), (16, "04D681000F" + ELEVEN, "CFF9ED3F"),
            (16, "04D681000E" + ELEVEN[:-2], "1F5530C2"), (16, "04D6810010" + ELEVEN + "AB", "BCE0A715"),
            (16, "04D68100FF" + "5A" * 251, "9F0FC76C")):
        check("the code of %s" % message[:20],
              cards.code_of(bytes.fromhex(TRANSPORT_KEY), bytes.fromhex(RANDOM)[:length], bytes.fromhex(message)).hex().upper(), expected)
        check("openssl as it is called here, %s" % message[:20], codes.code(TRANSPORT_KEY, RANDOM[:2 * length], message), expected)
    whole = "".join("%02X" % (place * 7 % 256) for place in range(300))
    for length in range(301):
        challenge = RANDOM[:(8, 16, 32)[length % 3]]
        check("the code of %d bytes" % length,
              cards.code_of(bytes.fromhex(TRANSPORT_KEY), bytes.fromhex(challenge), bytes.fromhex(whole[:2 * length])).hex().upper(),
              codes.code(TRANSPORT_KEY, challenge, whole[:2 * length]))
    for message, expected in (("", 16), ("00" * 15, 16), ("00" * 16, 32), ("00" * 17, 32), ("00" * 31, 32), ("00" * 32, 48)):
        check("padded to %d" % expected, cards.padded(bytes.fromhex(message)).hex(),
              message + "80" + "00" * (expected - 1 - len(message) // 2))


def code_session(**options):
    """A card with a file of each type that asks for a code and nothing else, and one of each that is free.

    SFI 1 binary of 256, 2 fixed records of 3, 3 cyclic records of 3, 4 a space of 200; 17 to 20 are the same and free. Each record
    file holds a record. None is current, and the device right is held.
    """
    session = device_session(**options)
    for base, right in ((0, "04"), (16, "00")):
        for sfi, created in ((1, "280100"), (2, "2A0203"), (3, "2E0203"), (4, "2C00C8")):
            check("made", session.send("80E000%02X 05 %s%s%s" % (base + sfi, created, right, right)), "9000")
        for sfi in (3, 4):
            if right == "04":
                check("a first record", session.coded("E200%02X" % (base + sfi << 3), "C0C1C2"), "9000")
            else:
                check("a first record", session.send("00E200%02X03C0C1C2" % (base + sfi << 3)), "9000")
    session.send("00A40000023F00")
    return session


def test_codes_served():
    # All five, on files that ask for a code and on files that do not, with challenges of each length.
    for challenge in (4, 8, 16):
        session = code_session()
        for base in (0, 16):
            for header, data, le, expected in (
                    ("D6%02X00" % (0x80 + base + 1), "55", "", "9000"), ("B0%02X00" % (0x80 + base + 1), "", "01", "55 9000"),
                    ("B0%02XFF" % (0x80 + base + 1), "", "00", "00 9000"), ("B0%02X00" % (0x80 + base + 1), "", "00", "55" + "00" * 255 + " 9000"),
                    ("D6%02X05" % (0x80 + base + 1), ELEVEN, "", "9000"), ("B0%02X05" % (0x80 + base + 1), "", "0B", ELEVEN + " 9000"),
                    ("D6%02X05" % (0x80 + base + 1), "5A" * 251, "", "9000"), ("B0%02X05" % (0x80 + base + 1), "", "FB", "5A" * 251 + " 9000"),
                    ("DC01%02X" % (base + 2 << 3 | 4), "B1B2B3", "", "9000"), ("B201%02X" % (base + 2 << 3 | 4), "", "03", "B1B2B3 9000"),
                    ("E200%02X" % (base + 3 << 3), "D1D2D3", "", "9000"), ("B201%02X" % (base + 3 << 3 | 4), "", "00", "D1D2D3 9000"),
                    ("B202%02X" % (base + 3 << 3 | 4), "", "03", "C0C1C2 9000"), ("DC02%02X" % (base + 3 << 3 | 4), "D4D5D6", "", "9000"),
                    ("B202%02X" % (base + 3 << 3 | 4), "", "03", "D4D5D6 9000"), ("E200%02X" % (base + 4 << 3), "E1", "", "9000"),
                    ("B202%02X" % (base + 4 << 3 | 4), "", "01", "E1 9000"), ("DC02%02X" % (base + 4 << 3 | 4), "E2", "", "9000"),
                    ("B202%02X" % (base + 4 << 3 | 4), "", "00", "E2 9000"), ("E200%02X" % (base + 4 << 3), "E3" * 178, "", "9000"),
                    ("B203%02X" % (base + 4 << 3 | 4), "", "B2", "E3" * 178 + " 9000")):
                check("%s with a code, a challenge of %d" % (header, challenge), session.coded(header, data, le, challenge), expected)
        check("no try is gone", session.tries_of_codes(), 10)
    # A coded command makes its file current, and works on the current file.
    session = code_session()
    for header, data, le, expected in (
            ("B00000", "", "01", "6A82"), ("D68100", "77", "", "9000"), ("B00000", "", "01", "77 9000"), ("D60001", "78", "", "9000"),
            ("B00000", "", "02", "7778 9000"), ("B2011C", "", "00", "C0C1C2 9000"), ("B20104", "", "00", "C0C1C2 9000"),
            ("DC0104", "010203", "", "9000"), ("E20000", "040506", "", "9000"), ("B20204", "", "00", "010203 9000")):
        check("the current file, %s" % header, session.coded(header, data, le), expected)
    # The message: one block, one that it fills, and more; the longest is 256 bytes.
    session = code_session()
    for length in list(range(1, 60)) + [171, 187, 203, 250, 251]:
        data = "".join("%02X" % ((length + place) % 256) for place in range(length))
        check("an update of %d" % length, session.coded("D68100", data), "9000")
        check("what it wrote", session.coded("B08100", "", "%02X" % length), data + " 9000")
    # Le is not covered: the same code is right with any Le.
    for le, expected in (("01", "00 9000"), ("02", "0000 9000"), ("00", "00" * 16 + " 9000"), ("10", "00" * 16 + " 9000"), ("11", "6700")):
        session = device_session()
        session.send("80E00001 05 2800100404")
        session.send("0084000010")
        check("Le %s" % le, session.send("04B0810004" + "CACC135C" + le), expected)


def test_codes_refused():
    """Each check before the next; where a code is asked, a challenge is there. The code is right for what is sent."""
    session = code_session()
    for header, data, le, expected in (
            # P, before case and Lc.
            ("B08000", "", "01", "6A86"), ("B09F00", "", "01", "6A86"), ("B0A000", "", "", "6A86"), ("D6FF00", "AA", "00", "6A86"),
            ("B2000C", "", "00", "6A86"), ("B20108", "", "00", "6A86"), ("B201FC", "", "00", "6A86"), ("DC0009", "AA", "", "6A86"),
            ("E20108", "AA", "", "6A86"), ("E20009", "AA", "", "6A86"), ("E200F8", "AA", "", "6A86"),
            # Case and Lc: reads are case 4 with Lc 04, the others case 3 with Lc 05 or more.
            ("B08100", "", "", "6700"), ("B08100", "AA", "01", "6700"), ("B08100", "AA", "", "6700"), ("B2011C", "", "", "6700"),
            ("B2011C", "AA", "00", "6700"), ("D68100", "", "", "6700"), ("D68100", "AA", "00", "6700"), ("D68100", "", "00", "6700"),
            ("DC011C", "", "", "6700"), ("DC011C", "010203", "00", "6700"), ("E20018", "", "", "6700"), ("E20018", "010203", "00", "6700"),
            # The file's own, with the code right and Lc without it.
            ("B09E00", "", "01", "6A82"), ("D69E00", "AA", "", "6A82"), ("B201F4", "", "00", "6A82"), ("DC01F4", "AA", "", "6A82"),
            ("E200F0", "AA", "", "6A82"), ("B00000", "", "01", "6A82"), ("B20104", "", "01", "6A82"), ("E20000", "AA", "", "6A82"),
            ("B08200", "", "01", "6981"), ("D68300", "AA", "", "6981"), ("B08400", "", "01", "6981"), ("B2010C", "", "00", "6981"),
            ("DC010C", "AA", "", "6981"), ("E20008", "AA", "", "6981"), ("E20010", "AAAAAA", "", "6981"),
            ("B081FF", "", "02", "6700"), ("D681FF", "AAAA", "", "6700"), ("D681FF", "AA", "", "9000"), ("B091FF", "", "02", "6700"),
            ("B20314", "", "00", "6A83"), ("DC0314", "AAAAAA", "", "6A83"), ("B2021C", "", "00", "6A83"), ("B20224", "", "00", "6A83"),
            ("B20114", "", "02", "6C03"), ("B20114", "", "04", "6C03"), ("B2011C", "", "FF", "6C03"), ("B20124", "", "01", "6C03"),
            ("DC0114", "AAAA", "", "6700"), ("DC0114", "AAAAAAAA", "", "6700"), ("DC0114", "AAAAAAAAAAAAAA", "", "6700"),
            ("DC0124", "AAAA", "", "6700"), ("E20018", "AAAA", "", "6700"), ("E20018", "AAAAAAAA", "", "6700"),
            # A record of 179 bytes is too long whatever room there is; 195 of the 200 are left, with its length byte.
            ("E20020", "AA" * 179, "", "6700"), ("E20020", "AA" * 251, "", "6700"), ("E20020", "AA" * 178, "", "9000"),
            ("E20020", "AA" * 17, "", "6A84"), ("E20020", "AA" * 16, "", "9000"), ("E20020", "AA", "", "6A84")):
        check("refused with a right code, %s, %d bytes, Le %s" % (header, len(data) // 2, le or "none"),
              session.coded(header, data, le), expected)
    session.coded("B08100", "", "01")
    check("the offset", session.coded("B00100", "", "01"), "6A84")
    check("the offset before the length", session.coded("D60100", "AAAA"), "6A84")
    check("no try is gone by all this", session.tries_of_codes(), 10)

    # Lc 01 to 04 of a write, 01 to 03 of a read, and what is no frame: no presentation.
    session = code_session(transport_limit=2)
    for sent in ("04D6810001AA", "04D6810002AAAA", "04D6810003AAAAAA", "04D6810004AAAAAAAA", "04E2001804AAAAAAAA", "04DC011C04AAAAAAAA",
                 "04B0810003AAAAAA01", "04B0810001AA01", "04B0810005AAAAAAAAAA01", "04B0810004AAAAAAAA", "04B0810001", "04B0810000", "04B08100",
                 "04D68100", "04D6810005", "04E20018", "04B0810004AAAAAA", "04B0810004AAAAAAAA0101", "04B081000000040000000000", "04B2011C04AAAAAAAA"):
        session.send("0084000010")
        check("%s is 6700" % sent, session.send(sent), "6700")
    check("and no try is gone", session.tries_of_codes(), 2)

    # In class 04 there are the five alone, whatever the mode.
    for mode in (0, 1):
        session = code_session(mode=mode, transport_limit=3)
        check("other INS", [ins for ins in range(256) if session.send("04%02X0000" % ins) != "6D00"], [0xB0, 0xB2, 0xD6, 0xDC, 0xE2])
        check("other INS of case 4", [ins for ins in range(256) if session.send("04%02X81FF 04 00000000 00" % ins) not in ("6D00", "6A86")],
              [0xB0, 0xD6])
        check("no try is gone", session.tries_of_codes(), 3)


def test_codes_order():
    """6983 before 6984 before 6988, all behind 6A86 and 6700 and before whatever the file says."""
    wrong = "04B0810004 00000000 01"
    session = code_session(transport_limit=1)
    for sent, expected in (
            # No challenge: 6984, and no try is gone.
            (wrong, "6984"), ("04B09E0004 00000000 01", "6984"), ("04B0820004 00000000 01", "6984"), ("04D6810005 AA00000000", "6984"),
            ("04B201F404 00000000 00", "6984"), ("04DC01F405 AA00000000", "6984"), ("04E200F005 AA00000000", "6984"),
            ("04B2011404 00000000 00", "6984"), ("04DC011405 AA00000000", "6984"), ("04E2001805 AA00000000", "6984"),
            ("04B0800004 00000000 01", "6A86"), ("04B0810003 000000 01", "6700")):
        check("no challenge, %s" % sent, session.send(sent), expected)
    check("no presentation", session.tries_of_codes(), 1)
    for sent, expected in (("04B0800004 00000000 01", "6A86"), ("04B0810003 000000 01", "6700"), ("04B0810004 00000000", "6700")):
        session.send("0084000010")
        check("with a challenge, %s" % sent, session.send(sent), expected)
    check("no presentation either", session.tries_of_codes(), 1)
    session.send("0084000010")
    check("a wrong code at the last try", session.send("04B09E0004 00000000 01"), "6988")
    check("none are left", session.tries_of_codes(), 0)
    for sent, expected in (
            (wrong, "6983"), ("04B09E0004 00000000 01", "6983"), ("04B0820004 00000000 01", "6983"), ("04D6810005 AA00000000", "6983"),
            ("04B2011404 00000000 00", "6983"), ("04DC011405 AA00000000", "6983"), ("04E2001805 AA00000000", "6983"),
            ("04B0800004 00000000 01", "6A86"), ("04B0810003 000000 01", "6700"), ("04C0000000", "6D00"), ("00B0910001", "00 9000"),
            ("00B0810001", "6982"), ("00D6910001AA", "9000")):
        check("blocked, no challenge: %s" % sent, session.send(sent), expected)
        session.send("0084000010")
        check("blocked, with a challenge: %s" % sent, session.send(sent), expected)
    check("blocked, the right code", session.coded("B08100", "", "01"), "6983")
    check("blocked, the right code on a free file", session.coded("B09100", "", "01"), "6983")
    # Nothing brings it back.
    session.admin()
    session.user()
    session.send("002C020106 393939393939")
    session.send("0024010008 3837363534333231")
    session.log_in()
    session.reset()
    check("nothing brings it back", (session.coded("B08100", "", "01"), session.tries_of_codes()), ("6983", 0))

    # A wrong code goes before whatever the file says, and is the same answer for each.
    session = code_session(transport_limit=128)
    session.coded("B08100", "", "01")
    for sent in ("04B201F404 00000000 00", "04DC01F405 AA00000000", "04E200F005 AA00000000", "04B0000004 00000000 01",
                 "04B09E0004 00000000 01", "04B0820004 00000000 01", "04B081FF04 00000000 02", "04B2031404 00000000 00",
                 "04B2011404 00000000 09", "04DC011405 AA00000000", "04E2002008 AA00000000000000", "04D681FF06 AAAA00000000",
                 "04B0910004 00000000 01"):
        before = session.tries_of_codes()
        state = snapshot(session.program.card), bytes(session.program.area)
        session.send("0084000010")
        check("wrong, %s" % sent, session.send(sent), "6988")
        check("one try less, %s" % sent, session.tries_of_codes(), before - 1)
        session.program.card.transport.tries += 1
        check("and nothing else, %s" % sent, (snapshot(session.program.card), bytes(session.program.area)), state)
        session.program.card.transport.tries -= 1


def test_codes_tries():
    # A right code restores all tries, whatever follows.
    for header, data, le, expected in (
            ("B08100", "", "01", "00 9000"), ("B09E00", "", "01", "6A82"), ("B08200", "", "01", "6981"), ("B081FF", "", "02", "6700"),
            ("D68100", "AA", "", "9000"), ("D681FF", "AAAA", "", "6700"), ("B20314", "", "00", "6A83"), ("B20114", "", "09", "6C03"),
            ("DC0114", "AA", "", "6700"), ("E20018", "AA", "", "6700"), ("E20010", "AA", "", "6981"), ("E20020", "AA" * 179, "", "6700"),
            ("E200F0", "AA", "", "6A82"), ("B00000", "", "01", "6A82"), ("B09100", "", "01", "00 9000"), ("E20020", "AA", "", "9000")):
        session = code_session(transport_limit=4)
        for left in (3, 2, 1):
            session.send("0084000008")
            check("a wrong code", session.send("04B0810004 12345678 01"), "6988")
            check("tries left", session.tries_of_codes(), left)
        check("a right one, %s" % header, session.coded(header, data, le, 8), expected)
        check("all tries, %s" % header, session.tries_of_codes(), 4)
    session = code_session(transport_limit=3)
    session.send("80E00015 05 2800010F0F")
    session.send("80E00016 05 2800018080")
    for header, data, le in (("B09500", "", "01"), ("D69500", "AA", ""), ("B09600", "", "01"), ("D69600", "AA", "")):
        session.send("0084000010")
        session.send("04B0810004 00000000 01")
        check("a right that is not held, %s" % header, session.coded(header, data, le), "6982")
        check("and all tries, %s" % header, session.tries_of_codes(), 3)
    # The others' tries are theirs: nothing else touches those of the transport key, and a code none of them.
    session = Session(transport_limit=3, user_limit=3, admin_limit=3, key_limit=3)
    session.send("0084000010")
    session.send("04B0810004 00000000 01")
    for sent in ("0020000106 313131313131", "0020000106 313233343536", "0020000008 3131313131313131", "0020000008 3837363534333231",
                 "002C020106 303132333435", "0024010008 3837363534333231", "0084000010", "0082000010" + RANDOM, "0084000010",
                 "0082000010" + CIPHERTEXT, "80E00001 05 2800010404", "00B0810001", "00D6810001AA", "00A40000023F00", "00C0000000"):
        session.send(sent)
        check("after %s" % sent, session.tries_of_codes(), 2)
    session.reset()
    check("after a reset", session.tries_of_codes(), 2)
    for name in ("device", "admin", "user"):
        getattr(session.program.card, name).tries = 2
    check("a right code", session.coded("B08100", "", "01"), "00 9000")
    card = session.program.card
    check("restores its own", [card.transport.tries, card.device.tries, card.admin.tries, card.user.tries], [3, 2, 2, 2])
    check("and opens no right", [card.device.held, card.admin.held, card.user.held, card.transport.held], [False] * 4)
    # It opens nothing that asks for a right, whatever the keys are.
    session = code_session(transport_key=KEY)
    session.send("80E00015 05 2800010101")
    session.reset()
    check("the device key as transport key", session.coded("B09500", "", "01"), "6982")
    check("on a file that asks a code", session.coded("B08100", "", "01"), "00 9000")
    session.send("0084000010")
    check("under another key", session.send(coded("B08100", "", "01")), "6988")
    check("CREATE asks the device right still", session.send("80E00016 05 2800010000"), "6982")
    # Limits of 1 and of 128.
    session = code_session(transport_limit=1)
    for _ in range(5):
        check("right with limit 1", session.coded("B08100", "", "01"), "00 9000")
    session = code_session(transport_limit=128)
    for left in range(127, -1, -1):
        session.send("0084000004")
        check("wrong with limit 128", (session.send("04B0810004 00000000 01"), session.tries_of_codes()), ("6988", left))
    check("and then", session.coded("B08100", "", "01"), "6983")


def test_codes_challenge():
    """Each coded command needs a challenge of its own, and no other will do."""
    right = coded("B08100", "", "01")
    update = coded("D68100", "AA")
    session = code_session()
    session.send("0084000010")
    check("right", session.send(right), "00 9000")
    check("once more", session.send(right), "6984")
    check("and an update", session.send(update), "6984")
    session.send("0084000010")
    check("wrong", session.send("04B0810004 00000000 01"), "6988")
    check("the right one behind it", session.send(right), "6984")
    for sent, expected in (("04B09E0004 00000000 01", "6988"), ("04B0800004 00000000 01", "6A86"), ("04B0810003 000000 01", "6700"),
                           ("04C0000000", "6D00"), ("04200001", "6D00"), ("05B0810001", "6E00"), ("04B081", "6700"), ("00B0910001", "00 9000"),
                           ("00B0810001", "6982"), ("00200001", "63C3"), ("00C0000000", "6D00"), ("0084000005", "6700")):
        session.send("0084000010")
        check("something else first, %s" % sent, session.send(sent), expected)
        check("dropped by %s" % sent, session.send(right), "6984")
    session.send("0084000010")
    check("refused later", session.send(coded("B09E00", "", "01")), "6A82")
    check("dropped by it", session.send(right), "6984")
    session.send("0084000010")
    session.reset()
    check("dropped by a reset", session.send(right), "6984")
    # Outcome 3 keeps it, and so does a line that is none.
    session.send("0084000010")
    check("outcome 3", session.send(right, RANDOM[:-2]), "3")
    session.line("")
    check("kept by outcome 3", session.send(right), "00 9000")
    # It is the challenge that stands: another one, another length of it, an older one.
    for length, random, expected in ((16, RANDOM, "00 9000"), (8, RANDOM, "6988"), (4, RANDOM, "6988"), (16, RANDOM[:-2] + "FE", "6988"),
                                     (16, "00" * 16, "6988")):
        session.send("00840000%02X" % length, random)
        check("for another challenge, %d %s" % (length, random), session.send(right), expected)
    # 4 and 8 bytes are filled with 00 behind: the same bytes as a challenge of 16 that ends in 00.
    session.send("0084000010", RANDOM[:8] + "00" * 12)
    check("00 are a part of it", session.send(coded("B08100", "", "01", 4)), "00 9000")
    session.send("0084000010", "00" * 12 + RANDOM[:8])
    check("and not before it", session.send(coded("B08100", "", "01", 4)), "6988")
    session.send("0084000010")
    session.send("0084000008", "FF" * 16)
    check("the older of two", session.send(right), "6988")
    # EXTERNAL AUTHENTICATE and a code share it: one of them only.
    session = code_session()
    session.send("0084000010")
    check("a login", session.send("0082000010" + CIPHERTEXT), "9000")
    check("no code behind it", session.send(right), "6984")
    session.send("0084000010")
    check("a code", session.send(right), "00 9000")
    check("no login behind it", session.send("0082000010" + CIPHERTEXT), "6984")
    # In mode 1 GET RESPONSE keeps it, refused or not.
    session = code_session(mode=1)
    check("a challenge that waits", session.send("0084000010"), "6110")
    for sent, expected in (("00C0000004", RANDOM[:8] + " 610C"), ("00C0000104", "6A86"), ("00C0000000", RANDOM[8:] + " 9000"), ("00C0000000", "6985")):
        check("fetched, %s" % sent, session.send(sent), expected)
    check("kept by GET RESPONSE", session.send(right), "6101")


def test_codes_message():
    """A man in the middle: each bit of a good command flipped. None gets through, and the file is as it was."""
    good = coded("D68110", ELEVEN + "AB")
    for bit in range(4 * len(good)):
        session = device_session(transport_limit=128)
        session.send("80E00001 05 2800400404")
        session.send("0084000010")
        changed = bytearray.fromhex(good)
        changed[bit // 8] ^= 0x80 >> bit % 8
        before = bytes(session.program.area), snapshot(session.program.card)[:3]
        place, sent = bit // 8, bytes(changed).hex().upper()
        if place == 0:
            expected = "6982" if changed[0] == 0 else "6E00"
        elif place == 1:
            expected = "6D00"
        elif place == 2:
            # 81 with another bit: an SFI, the current file, or neither.
            expected = "6988" if changed[2] in (0x83, 0x85, 0x89, 0x91, 0x01) else "6A86"
        else:
            expected = "6700" if place == 4 else "6988"
        check("bit %d flipped" % bit, session.send(sent), expected)
        check("nothing written with bit %d flipped" % bit, (bytes(session.program.area), snapshot(session.program.card)[:3]), before)
        check("tries with bit %d flipped" % bit, session.tries_of_codes(), 127 if expected == "6988" else 128)
    session = code_session()
    check("the good one", session.coded("D68110", ELEVEN + "AB"), "9000")
    # Cut short, lengthened, with another INS, P or data, or to another card.
    other = code_session(transport_key=KEY)
    for name, sent, target, expected in (
            ("without its code", good[:-8], session, "6700"), ("cut by a byte, Lc too", good[:8] + "0F" + good[10:-2], session, "6988"),
            ("its data cut by a byte, Lc too", good[:8] + "0F" + good[10:-10] + good[-8:], session, "6988"),
            ("a byte more, Lc too", good[:8] + "11" + good[10:-8] + "00" + good[-8:], session, "6988"),
            ("80 more, Lc too", good[:8] + "11" + good[10:-8] + "80" + good[-8:], session, "6988"),
            ("to another card", good, other, "6988"), ("as a record's", "04DC" + good[4:], session, "6A86"),
            ("as a read", "04B0" + good[4:8] + "04" + good[-8:] + "01", session, "6988"),
            ("as a plain update", "00" + good[2:], session, "6982"), ("as a plain update of a free file", "00D691" + good[6:], session, "9000")):
        target.send("0084000010")
        check("a good one %s" % name, target.send(sent), expected)
    # Errors that look right: each of these codes is worked out by openssl with one thing other.
    def padded(message):
        return message + "80" + "00" * (-(len(message) // 2 + 1) % 16)

    def chained(start, blocks, key=TRANSPORT_KEY):
        return codes.last_block(key, start, blocks)[:4].hex().upper()

    session = code_session(transport_limit=128)
    full = "04D681000F" + ELEVEN
    read = "04B0810004"
    for name, sent, wrong, length in (
            ("no padding where the message fills its blocks", full, chained(RANDOM, full), 16),
            ("an initial value of 00", read, chained("00" * 16, padded(read)), 16),
            ("Lc without the code", full, chained(RANDOM, padded("04D681000B" + ELEVEN)), 16),
            ("Lc without the code, a read", read, chained(RANDOM, padded("04B0810000")), 16),
            ("Lc not covered", full, chained(RANDOM, padded("04D68100" + ELEVEN)), 16),
            ("class 00", full, chained(RANDOM, padded("00D681000F" + ELEVEN)), 16), ("no class", full, chained(RANDOM, padded(full[2:])), 16),
            ("Le covered", read, chained(RANDOM, padded(read + "01")), 16), ("the data alone", full, chained(RANDOM, padded(ELEVEN)), 16),
            ("the header alone", full, chained(RANDOM, padded(full[:10])), 16),
            ("padded by 00 alone", read, chained(RANDOM, read + "00" * 11), 16),
            ("the challenge filled in front", read, chained("00" * 12 + RANDOM[:8], padded(read)), 4),
            ("the challenge filled with 80 and 00", read, chained(RANDOM[:8] + "80" + "00" * 11, padded(read)), 4),
            ("the challenge doubled", read, chained(RANDOM[:16] * 2, padded(read)), 8),
            ("the challenge as a block of its own", read, chained("00" * 16, RANDOM + padded(read)), 16),
            ("the device key", read, chained(RANDOM, padded(read), KEY), 16),
            ("the rightmost four bytes", read, codes.last_block(TRANSPORT_KEY, RANDOM, padded(read))[-4:].hex().upper(), 16),
            ("the bytes turned round", read, bytes.fromhex(codes.code(TRANSPORT_KEY, RANDOM, read))[::-1].hex().upper(), 16),
            ("three right bytes", read, "CACC13" + "5D", 16), ("three right bytes behind", read, "CBCC135C", 16),
            ("the second other", read, "CA4C135C", 16), ("the third other", read, "CACC115C", 16)):
        session.send("00840000%02X" % length)
        check(name, session.send(sent + wrong + ("01" if sent == read else "")), "6988")
    check("the right ones", (session.coded("D68100", ELEVEN), session.coded("B08100", "", "01", 4)), ("9000", "A0 9000"))


def test_codes_rights():
    """Each byte with bit 3 and each set of rights: a code is needed, and all that the byte asks besides."""
    check("as the paper has them", [byte in CODED_ASKED for byte in (0x44, 0xC4, 0xC6, 0x86, 0x05, 0x47, 0x04)], [True] * 7)
    check("and those that are bad", [byte in CODED_ASKED for byte in (0x06, 0x0C, 0x14, 0x0E, 0x0F, 0x24)], [False] * 6)
    for byte, asked in CODED_ASKED.items():
        session = device_session()
        check("create with %02X" % byte, session.send("80E00001 05 280001%02X%02X" % (byte, byte)), "9000")
        check("create records with %02X" % byte, session.send("80E00002 05 2E0201%02X%02X" % (byte, byte)), "9000")
        session.reset()
        for names in sets_of_rights(session):
            passes = any(set(needed.split()) <= names for needed in asked)
            shown = "%02X with %s" % (byte, " ".join(sorted(names)) or "nothing")
            # First without a code: 6982 for each, at the right's place.
            check("without a code " + shown, [session.send(sent) for sent in (
                "00B0810001", "00D681000100", "00E2001001AA", "00DC011401BB", "00B2011400", "00B0810101", "00B2FF1400", "00B0810000")],
                ["6982"] * 8)
            check("type before it " + shown, [session.send(sent) for sent in ("00B0820001", "00B2010C00", "00B08100", "00B0800001")],
                  ["6981", "6981", "6700", "6A86"])
            for header, data, le, expected in (("D68100", "5B", "", "9000"), ("B08100", "", "01", "5B 9000"), ("E20010", "AA", "", "9000"),
                                               ("DC0114", "BB", "", "9000"), ("B20114", "", "00", "BB 9000")):
                check("%s with a code %s" % (header, shown), session.coded(header, data, le), expected if passes else "6982")
            check("tries " + shown, session.tries_of_codes(), 10)
    # Read and write right by themselves.
    session = device_session()
    session.send("80E00001 05 2800010400")
    session.send("80E00002 05 2800010004")
    session.send("80E00003 05 2800010F0F")
    check("a code to read only", [session.send("00B0810001"), session.send("00D6810001AA"), session.coded("B08100", "", "01")],
          ["6982", "9000", "AA 9000"])
    check("a code to write only", [session.send("00B0820001"), session.send("00D6820001AA"), session.coded("D68200", "BB"), session.send("00B0820001")],
          ["00 9000", "6982", "9000", "BB 9000"])
    check("0F is never, with a code too", [session.send("00B0830001"), session.coded("B08300", "", "01"), session.coded("D68300", "AA")], ["6982"] * 3)
    # As either right, not beside it: C6 is one of two PINs and a code.
    session = device_session()
    session.send("80E00001 05 280001C6C6")
    session.reset()
    check("C6 by a code alone", session.coded("B08100", "", "01"), "6982")
    session.user()
    check("C6 by a PIN alone", session.send("00B0810001"), "6982")
    check("C6 by both", session.coded("B08100", "", "01"), "00 9000")
    # A directory's creation right has no bit 3; files in it may.
    session = device_session()
    check("creation rights with bit 3", [byte for byte in range(256) if byte & 4 and session.send("80E05101 05 380000%02X00" % byte) != "6A80"], [0x0F])
    session.send("80E05102 05 3800000000")
    session.send("00A40000025102")
    check("a file in it", session.send("80E00001 05 2800020404"), "9000")
    check("used by a code", [session.coded("D68100", "A1A2"), session.coded("B00000", "", "00"), session.send("00B0000000")],
          ["9000", "A1A2 9000", "6982"])
    session.send("00A40000023F00")
    check("not from the root", (session.coded("B08100", "", "01"), session.coded("B00000", "", "01")), ("6A82", "6A82"))


def test_codes_fetched():
    """Mode 1: what a coded read gives waits."""
    session = code_session(mode=1)
    check("an update has nothing to wait", session.coded("D68100", "A1A2A3"), "9000")
    for le, count, expected in (("01", "01", "A1"), ("03", "03", "A1A2A3"), ("00", "00", "A1A2A3" + "00" * 253)):
        check("a read waits, Le %s" % le, session.coded("B08100", "", le), "61" + count)
        check("and is fetched", session.fetch(), expected + " 9000")
    check("a record waits", session.coded("B2011C", "", "00"), "6103")
    check("its parts", [session.send("00C0000002"), session.send("00C0000002"), session.send("00C0000001")], ["C0C1 6101", "6C01", "C2 9000"])
    for sent, expected in (("04C0000000", "6D00"), ("04C0000003", "6D00"), ("04C00000", "6D00"), ("04C0000004 00000000 00", "6D00"),
                           ("04B0810004 00000000 01", "6984"), ("04B0800004 00000000 01", "6A86"), ("04B08100", "6700"), ("00B0810001", "6982")):
        check("a read waits", session.coded("B08100", "", "03"), "6103")
        check("then %s" % sent, session.send(sent), expected)
        check("discarded by %s" % sent, session.send("00C0000000"), "6985")
        session.send("0084000010")
        check("once more %s" % sent, session.send(sent), "6988" if expected == "6984" else expected)
        check("the challenge dropped by %s" % sent, session.send(coded("B08100", "", "01")), "6984")
    check("no waiting by a refusal", session.coded("B09E00", "", "01"), "6A82")
    check("nothing waits", session.send("00C0000000"), "6985")
    # What waits when the code is refused is discarded too: the challenge itself waits.
    session.send("0084000010")
    check("a wrong code", session.send("04B0810004 00000000 01"), "6988")
    check("nothing waits behind it", session.send("00C0000000"), "6985")
    session = code_session(mode=0)
    session.coded("B08100", "", "01")
    check("no GET RESPONSE in mode 0, in class 04 either", [session.send("00C0000000"), session.send("04C0000000")], ["6D00"] * 2)


def test_grammar():
    def outcomes(*lines):
        output = script.run(script.lines_of(b"".join(line + b"\n" for line in lines)))
        return [line.split(b"\t")[1].decode() for line in output.splitlines()[1:]]

    good = b"ISSUE\t%s\t3\t123456\t3\t654321\t3\t0\t%s\t3" % (KEY.encode(), TRANSPORT_KEY.encode())
    check("empty input", script.run(script.lines_of(b"")), script.HEADER)
    check("one newline", script.run(script.lines_of(b"\n")), script.HEADER + b"1\t9\t-\t-\n")
    check("a last line without newline", script.run(script.lines_of(b"\n" + good)),
          script.HEADER + b"1\t9\t-\t-\n2\t0\t-\t-\n")
    check("before a good ISSUE", outcomes(b"RESET", b"CMD\t00200001\t" + RANDOM.encode(), b"CMD\t\t",
                                          good.replace(b"\t3\t654321", b"\t0\t654321"), b"RESET", good, b"RESET"),
          ["9", "9", "9", "5", "9", "0", "0"])
    for limit, expected in (("0", 5), ("1", 0), ("128", 0), ("129", 5), ("65535", 5), ("65536", 9), ("00", 9), ("01", 9),
                            ("", 9), ("+1", 9), ("-1", 9), (" 1", 9), ("1 ", 9), ("1\r", 9), ("100000", 9), ("A", 9)):
        for place in (2, 4, 6, 9):
            fields = good.split(b"\t")
            fields[place] = limit.encode()
            check("limit %r" % limit, outcomes(b"\t".join(fields)), [str(expected)])
    for mode, expected in (("0", 0), ("1", 0), ("2", 5), ("10", 5), ("128", 5), ("256", 5), ("257", 5), ("65535", 5), ("65536", 9),
                           ("65537", 9), ("00", 9), ("01", 9), ("", 9), ("+1", 9), ("-1", 9), (" 1", 9), ("1 ", 9), ("1\r", 9),
                           ("-", 9), ("A", 9), ("1\t", 9), ("1\t0", 9)):
        fields = good.split(b"\t")
        fields[7] = mode.encode()
        check("mode %r" % mode, outcomes(b"\t".join(fields)), [str(expected)])
    fields = good.split(b"\t")
    check("no mode", outcomes(b"\t".join(fields[:7] + fields[8:])), ["9"])
    check("fewer fields", [outcomes(b"\t".join(fields[:count])) for count in range(10)], [["9"]] * 10)
    check("a field more", outcomes(good + b"\t"), ["9"])
    check("as before R-9", outcomes(b"\t".join(fields[:8])), ["9"])
    check("the transport key before the mode", outcomes(b"\t".join(fields[:7] + fields[8:] + fields[7:8])), ["9"])
    for pin, expected in ((b"", 5), (b"12345", 5), (b"123456", 0), (b"1234567890123456", 0), (b"12345678901234567", 5),
                          (b"12345\r", 5), (b"\xff" * 8, 5), (b"\x00", 5)):
        for place in (3, 5):
            fields = good.split(b"\t")
            fields[place] = pin
            check("PIN %r" % pin, outcomes(b"\t".join(fields)), [str(expected)])
    for key, expected in ((b"", 5), (b"00" * 15, 5), (b"00" * 16, 0), (b"00" * 17, 5), (b"00" * 300, 5), (b"00" * 301, 9),
                          (b"0" * 31, 9), (b"ab" * 16, 9), (b"0G" * 16, 9)):
        for place in (1, 8):
            fields = good.split(b"\t")
            fields[place] = key
            check("key %r" % key, outcomes(b"\t".join(fields)), [str(expected)])
    random = RANDOM.encode()
    for line, expected in (
            (b"", 9), (b"\r", 9), (b"RESET", 0), (b"RESET\r", 9), (b"RESET\t", 9), (b"reset", 9), (b" RESET", 9), (b"CMD", 9),
            (b"CMD\t00200001", 9), (b"CMD\t00200001\t" + random, 0), (b"CMD\t00200001\t" + random + b"\t", 9),
            (b"CMD\t00200001\t" + random + b"\r", 9), (b"CMD\t\t" + random, 0), (b"CMD\t\t", 3), (b"CMD\t0\t" + random, 9),
            (b"CMD\t0020000a\t" + random, 9), (b"CMD\t00 200001\t" + random, 9), (b"CMD\t00200001\t" + random[:-1], 9),
            (b"CMD\t00200001\t" + random[:-2], 3), (b"CMD\t00200001\t" + random + b"00", 3),
            (b"CMD\t" + b"00" * 300 + b"\t" + random, 0), (b"CMD\t" + b"00" * 301 + b"\t" + random, 9),
            (b"CMD\t00200001\t" + b"00" * 300, 3), (b"CMD\t00200001\t" + b"00" * 301, 9),
            (b"CMD\t" + b"00" * 300 + b"\t" + b"00" * 209, 3), (b"CMD\t" + b"00" * 300 + b"\t" + b"00" * 210, 9),
            (b"ISSUE\t\t3\t\t3\t\t3\t0\t\t3", 5), (good + b"\t", 9), (good[:-2], 9), (b"CMDX\t\t", 9)):
        check("line %r" % line[:60], outcomes(good, line)[1:], [str(expected)])
    for length, expected in ((1023, "5"), (1024, "5"), (1025, "9"), (1026, "9")):
        line = good.replace(b"654321", b"6" * (length - len(good) + 6))
        check("a line of %d" % length, (len(line), outcomes(line)), (length, [expected]))
        check("a line of %d between others" % length, outcomes(good, line, b"RESET"), ["0", expected, "0"])
    check("a refused ISSUE keeps the earlier card",
          outcomes(good, b"CMD\t0084000010\t" + random, b"ISSUE\t\t3\t\t3\t\t3\t0\t\t3", b"", b"CMD\t0082000010%s\t%s" % (
              CIPHERTEXT.encode(), random), b"CMD\t80E00001052800010000\t" + random), ["0", "0", "5", "9", "0", "0"])
    session = Session()
    session.send("0084000010")
    session.line("ISSUE\t\t3\t\t3\t\t3\t0\t\t3")
    session.line("")
    check("its challenge too", session.send("0082000010" + CIPHERTEXT), "9000")
    session.line(good.decode())
    check("a good ISSUE makes a new card", session.send("80E00001052800010000"), "6982")

    output = script.run([b""] * 65535)
    check("65,535 lines", output.count(b"\n"), 65536)
    check("65,536 lines", script.run([b""] * 65536) == output, True)
    check("the last number", output.splitlines()[-1], b"65535\t9\t-\t-")


class History:
    """Rights and tries as the paper defines them, from what was sent and answered, beside those that the model keeps."""

    def __init__(self):
        self.values = {}
        self.limits, self.tries = {}, {}
        self.events = []
        self.challenge = b""
        # What was presented to the transport key, for openssl: key, challenge, message, code, and whether it was taken.
        self.codes = []
        self.disagreements = []
        self.unsound = 0

    def is_held(self, credential):
        for who, what in reversed(self.events):
            if what == "right" and who == credential:
                return True
            if what in ("reset", "issue") or who == credential and what in ("wrong", "reload"):
                return False
        return False

    def watch(self, program, line, answer):
        outcome, _, sw = answer
        fields = line.split(b"\t")
        if outcome == 4 or program.card is not None and not cards.is_sound(program.card, program.area):
            self.unsound += 1
        if outcome != 0:
            return
        if fields[0] == b"ISSUE":
            self.values = {"admin": fields[3], "user": fields[5], "transport": fields[8].decode()}
            self.limits = {name: int(fields[place]) for name, place in (("device", 2), ("admin", 4), ("user", 6), ("transport", 9))}
            self.tries = dict(self.limits)
            self.events = [(None, "issue")]
            self.challenge = b""
        elif fields[0] == b"RESET":
            self.events = [(None, "reset")]
            self.challenge = b""
        else:
            sent, count = bytes.fromhex(fields[1].decode()), len(self.events)
            self.note(sent, sw)
            self.count(self.events[count:])
            if sent[:2] == b"\x00\x84" and (sw == 0x9000 or sw >> 8 == 0x61):
                self.challenge = bytes.fromhex(fields[2].decode())[:sent[4]]
            elif sent[:2] != b"\x00\xC0" or cards.frame_of(sent) is None or program.card.mode == cards.AT_ONCE:
                self.challenge = b""
        tries = {name: getattr(program.card, name).tries for name in self.tries}
        if tries != self.tries or program.card.transport.held:
            self.disagreements.append((line, tries, dict(self.tries)))
        held = {name: getattr(program.card, name).held for name in ("device", "admin", "user")}
        defined = {name: self.is_held(name) for name in held}
        if held != defined:
            self.disagreements.append((line, held, defined))

    def count(self, events):
        """One try less for each wrong presentation, all of them after a right one or a reload."""
        for who, what in events:
            self.tries[who] = self.tries[who] - 1 if what == "wrong" else self.limits[who]

    def note_code(self, sent, sw):
        """A code is presented where it is compared: behind 6A86, 6700, 6983 and 6984."""
        frame, name = cards.frame_of(sent), generate.NAMES.get(tuple(sent[:2]))
        if frame is None or name is None or not generate.has_code_form(name, frame) or sw in (0x6A86, 0x6983, 0x6984):
            # No tries and no challenge are told in this order.
            if sw == 0x6983 and self.tries["transport"] or sw == 0x6984 and (self.challenge or not self.tries["transport"]):
                self.disagreements.append((sent, sw))
            return
        size = 5 + len(frame.data)
        self.codes.append((self.values["transport"], self.challenge.hex().upper(), sent[:size - 4].hex().upper(),
                           sent[size - 4:size].hex().upper(), sw != 0x6988))
        self.events.append(("transport", "wrong" if sw == 0x6988 else "right"))

    def note(self, sent, sw):
        if sent[:1] == b"\x04":
            self.note_code(sent, sw)
            return
        ends_right, ends_wrong = sw == 0x9000, sw & 0xFFF0 == 0x63C0
        pin = ("admin", "user")[sent[3]] if len(sent) > 5 and sent[3] < 2 else None
        if sent[:2] == b"\x00\x20" and len(sent) > 5 and (ends_right or ends_wrong):
            # A right presentation is one that agrees with the value last set.
            if ends_right != (sent[5:] == self.values[pin]):
                self.disagreements.append((sent, sw))
            self.events.append((pin, "right" if ends_right else "wrong"))
        elif sent[:2] == b"\x00\x82" and (ends_right or ends_wrong):
            self.events.append(("device", "right" if ends_right else "wrong"))
        elif sent[:2] == b"\x00\x24" and ends_right:
            self.values[pin] = sent[5:]
        elif sent[:2] == b"\x00\x2C" and ends_right:
            self.values["user"] = sent[5:]
            self.events.append(("user", "reload"))


def home_of(card):
    """The FID of the current directory, 3F00 in the root."""
    return 0x3F00 if card.folder is None else card.folder.fid


class Places:
    """Where a card stands, from what was sent and answered alone: FIDs of files by directory, the current directory and file."""

    def __init__(self):
        self.clear()
        self.selected = 0
        self.disagreements = []

    def clear(self):
        self.made = {0x3F00: []}
        self.home, self.current = 0x3F00, None

    def watch(self, program, line, answer):
        outcome, data, sw = answer
        if outcome != 0:
            return
        if line.startswith(b"ISSUE"):
            self.clear()
        elif line.startswith(b"RESET"):
            self.home, self.current = 0x3F00, None
        else:
            sent = script.bytes_of(line.split(b"\t")[1])
            frame = cards.frame_of(sent)
            _, sw = generate.as_in_mode_0(program.card, sent, data, sw)
            if frame is not None and not self.agrees(sent, frame, sw):
                self.disagreements.append((line, sw))
        card = program.card
        if (home_of(card), card.current and card.current.fid) != (self.home, self.current):
            self.disagreements.append((line, "elsewhere"))

    def agrees(self, sent, frame, sw):
        """Whether what is found is what the commands before have made; then moves as the command does."""
        name = generate.NAMES.get((sent[0], sent[1]), "").removesuffix(generate.WITH_A_CODE)
        if name == "SELECT" and sw in (0x9000, 0x6A82):
            self.selected += 1
            fid = frame.data[0] << 8 | frame.data[1]
            if fid in self.made[self.home]:
                self.current = fid
            elif fid in self.made:
                self.home, self.current = fid, None
            else:
                return sw == 0x6A82
            return sw == 0x9000
        if name == "CREATE FILE" and sw in (0x9000, 0x6986):
            fid = frame.p1 << 8 | frame.p2
            if frame.data[0] == 0x38:
                clash = fid in self.made or fid in self.made[0x3F00] or self.home != 0x3F00
                if sw == 0x9000:
                    self.made[fid] = []
            else:
                clash = any(fid % 32 == other % 32 for other in self.made[self.home]) or self.home == 0x3F00 and fid in self.made
                if sw == 0x9000:
                    self.made[self.home].append(fid)
                    self.current = fid
            return clash == (sw == 0x6986) and len(self.made) <= 5 and sum(map(len, self.made.values())) <= 16
        if name in generate.FILE_COMMANDS and sw not in (0x6A86, 0x6700, 0x6983, 0x6984, 0x6988):
            sfi = (frame.p1 & 0x1F if frame.p1 & 0x80 else 0) if "BINARY" in name else frame.p2 >> 3
            named = [fid for fid in self.made[self.home] if fid % 32 == sfi] if sfi else [self.current] * (self.current is not None)
            if sw == 0x9000:
                self.current = named[0] if named else None
            return (named == []) == (sw == 0x6A82)
        return True


class Beside:
    """The files of one type, by directory and SFI, in a plainer form beside the bytes that the model keeps.

    Answers up to the right are taken as they come; what follows from the contents is worked out from the plain form alone.
    """

    kind = words = None  # the file type, and the word that the names of its commands have in common

    def __init__(self):
        self.files = {}
        self.compared = 0
        self.coded = 0
        self.disagreements = []

    def watch(self, program, line, answer):
        outcome, data, sw = answer
        if outcome != 0:
            return
        if line.startswith(b"ISSUE"):
            self.files = {}
        if sw is None or sw in (0x6A86, 0x6A82, 0x6981, 0x6982, 0x6983, 0x6984, 0x6988, 0x6D00, 0x6E00):
            return
        sent = script.bytes_of(line.split(b"\t")[1])
        data, sw = generate.as_in_mode_0(program.card, sent, data, sw)
        frame = cards.frame_of(sent)
        if frame is None:
            return
        name = generate.NAMES[sent[0], sent[1]]
        if name.endswith(generate.WITH_A_CODE):
            # The file's checks are those of the command without its code.
            if not generate.has_code_form(name, frame):
                return
            name = name.removesuffix(generate.WITH_A_CODE)
            frame = cards.Frame(2 if frame.case == 4 else 3, b"\x00" + frame.header[1:], frame.data[:-4], frame.le)
            self.coded += 1
        if name == "CREATE FILE" and sw == 0x9000 and frame.data[0] == self.kind:
            self.files[home_of(program.card), frame.p2 & 0x1F] = self.created(frame.data[1] << 8 | frame.data[2])
        if self.words not in name or frame.case != (2 if name.startswith("READ") else 3):
            return
        # Without SFI the current file is meant, which the command did not change.
        place = home_of(program.card), self.sfi_of(frame) or program.card.current.sfi
        if place not in self.files:
            return
        expected = self.expected(name, frame, place)
        self.compared += 1
        if expected != (data, sw):
            self.disagreements.append((line, expected, (data, sw)))


class Lists(Beside):
    """The 2C files of a card as plain lists of records, each with its space."""

    kind, words = 0x2C, "RECORD"

    def created(self, space):
        return space, []

    def sfi_of(self, frame):
        return frame.p2 >> 3

    def expected(self, name, frame, place):
        space, records = self.files[place]
        if name == "APPEND RECORD":
            if len(frame.data) > 178:
                return b"", 0x6700
            if sum(1 + len(record) for record in records + [frame.data]) > space:
                return b"", 0x6A84
            records.append(frame.data)
            return b"", 0x9000
        if frame.p1 > len(records):
            return b"", 0x6A83
        record = records[frame.p1 - 1]
        if name == "READ RECORD":
            return (record, 0x9000) if frame.le in (256, len(record)) else (b"", 0x6C00 + len(record))
        if len(frame.data) != len(record):
            return b"", 0x6700
        records[frame.p1 - 1] = frame.data
        return b"", 0x9000


class Contents(Beside):
    """The binary files of a card as plain bytes."""

    kind, words = 0x28, "BINARY"
    to_end = 0  # reads with Le 00 that met the end of the file

    def created(self, size):
        return bytes(size)

    def sfi_of(self, frame):
        return frame.p1 & 0x1F if frame.p1 & 0x80 else 0

    def expected(self, name, frame, place):
        offset = frame.p2 if frame.p1 & 0x80 else frame.p1 << 8 | frame.p2
        before, rest = self.files[place][:offset], self.files[place][offset:]
        if rest == b"":
            return b"", 0x6A84
        if name == "READ BINARY":
            shown = rest[:frame.le]
            self.to_end += frame.le == 256 and len(shown) < 256
            return (shown, 0x9000) if len(shown) == frame.le or frame.le == 256 else (b"", 0x6700)
        if len(frame.data) > len(rest):
            return b"", 0x6700
        self.files[place] = before + frame.data + rest[len(frame.data):]
        return b"", 0x9000


class Twin:
    """A card of mode 0 beside one of mode 1, given all but its GET RESPONSE. Data, SW and state have to be the same."""

    def __init__(self):
        self.program = None
        self.parts, self.whole = b"", b""
        self.fetched = 0
        self.disagreements = []

    def watch(self, program, line, answer):
        outcome, data, sw = answer
        if line.startswith(b"ISSUE") and outcome == 0:
            self.program = None
            if program.card.mode == cards.FETCHED:
                self.program = script.Program()
                fields = line.split(b"\t")
                fields[7] = b"0"
                self.program.answer(b"\t".join(fields))
            return
        if self.program is None:
            return
        sent = script.bytes_of(line.split(b"\t")[1]) if sw is not None else b""
        if sent[:2] == b"\x00\xC0" and cards.frame_of(sent) is not None:
            self.parts += data
            if sw == 0x9000:
                self.fetched += 1
                if self.parts != self.whole:
                    self.disagreements.append((line, self.parts, self.whole))
        else:
            if sw is not None:
                data, sw = generate.as_in_mode_0(program.card, sent, data, sw)
                self.parts, self.whole = b"", data
            expected = self.program.answer(line)
            if expected != (outcome, data, sw):
                self.disagreements.append((line, expected, answer))
        # The last two are mode and waiting bytes.
        if snapshot(self.program.card)[:-2] != snapshot(program.card)[:-2] or self.program.area != program.area:
            self.disagreements.append((line, "other states"))


class ReadBack:
    """A second card beside the model's, which was written as lines and read. It has to answer as the first does."""

    def __init__(self):
        self.program = None
        self.texts = 0
        self.compared = 0
        self.disagreements = []

    def watch(self, program, line, answer):
        if self.program is not None:
            self.compared += 1
            if self.program.answer(line) != answer:
                self.disagreements.append((line, answer))
        # A written card goes on as it was, so that most of what follows is compared.
        if program.card is not None and (line.startswith(b"ISSUE") or self.compared % 23 == 0):
            text = texts.to_text(program.card, program.area)
            self.texts += 1
            self.program = script.Program()
            outcome, self.program.card = texts.read(self.program.area, text)
            if outcome != 0 or snapshot(self.program.card) != snapshot(program.card):
                self.disagreements.append((line, text))


def test_text_generated():
    for seed in range(1, 4):
        read_back = ReadBack()
        generate.Generator(seed, 3000, read_back.watch).write()
        check("cards that were read answer as before, seed %d" % seed, read_back.disagreements[:3], [])
        check("cards are read often, seed %d" % seed, (read_back.texts > 100, read_back.compared > 2500), (True, True))

    accepted, refused, other = 0, 0, []
    for kind, text in text_cases.changed_texts(generate.Dice(1), 3000, []):
        found = texts.from_text(text)
        if found is None:
            refused += 1
        else:
            accepted += 1
            if texts.to_text(*found) != text:
                other.append((kind, text))
    check("an accepted text, written again, is the same text", other[:3], [])
    check("both are met often", (accepted > 300, refused > 1000), (True, True))


def cut_of(session, sent):
    return cuts.Cut(session.program.card, session.program.area, bytes.fromhex(sent.replace(" ", "")), bytes.fromhex(RANDOM))


def tries_of(views, number):
    return [view.credentials[number].tries for view in views]


def test_cut_presentations():
    """The tries of device key, admin PIN, user PIN and transport key lie at 17, 36, 55 and 74; those left, before the limit."""
    session = Session()
    wrong, right, query = "0020000106 313131313131", "0020000106 313233343536", "00200001"
    cut = cut_of(session, wrong)
    check("a wrong PIN is lowered", (cut.first, tries_of(cut.fixed, cuts.USER), len(cut.stages)), ([(55, 2)], [3, 2], 1))
    cut = cut_of(session, right)
    check("a right PIN with full tries", (cut.first, tries_of(cut.fixed, cuts.USER)), ([(55, 2), (55, 3)], [3, 2, 3]))
    session.send(wrong)
    cut = cut_of(session, right)
    check("a right PIN with a try gone", (cut.first, tries_of(cut.fixed, cuts.USER)), ([(55, 1), (55, 3)], [2, 1, 3]))
    check("nothing is compared", [cut_of(session, sent).first for sent in (
        query, "0020000106 31323334353A", "0020000206 313233343536", "0020000105 3132333435", "0082000010" + CIPHERTEXT)], [[]] * 5)
    session.send(wrong)
    session.send(wrong)
    check("blocked", (cut_of(session, right).first, cut_of(session, wrong).first), ([], []))
    session.send("0084000010")
    check("a right cryptogram", cut_of(session, "0082000010" + CIPHERTEXT).first, [(17, 127), (17, 128)])
    check("a wrong one", cut_of(session, "0082000010" + RANDOM).first, [(17, 127)])
    check("the admin PIN", cut_of(session, "0020000008 3837363534333231").first, [(36, 4), (36, 5)])
    check("a code that is right, and no file", cut_of(session, coded("B0 8100", le="01")).first, [(74, 9), (74, 10)])
    check("a wrong code", cut_of(session, "04B0810004 00000000 01").first, [(74, 9)])
    check("a code of another form", [cut_of(session, sent).first for sent in ("04D6810004 00000000", "04B0800004 00000000 01")], [[], []])
    session.send(query)
    check("a code without a challenge", cut_of(session, "04B0810004 00000000 01").first, [])


def test_cut_pins():
    session = Session()
    session.user()
    session.send("0020000106 313131313131")
    session.admin()
    check("CHANGE without its right", len(cut_of(session, "0024010106 363636363636").stages), 1)
    cut = cut_of(session, "0024010008 3636363636363636")
    check("CHANGE: the old or the new", [view.credentials[cuts.ADMIN].value for view in cut.stages], [b"87654321", b"66666666"])
    cut = cut_of(session, "002C020106 363636363636")
    check("RELOAD: the value, then the tries", [view.credentials[cuts.USER] for view in cut.stages],
          [(b"123456", 3, 2), (b"666666", 3, 2), (b"666666", 3, 3)])
    check("and they are its last store", (cut.last_store, 55 in cut.places, 36 in cut.places, 563 in cut.places), ((55, 3), True, False, True))


def test_cut_files():
    """Entries lie from 76 on, 12 bytes each, the number of files at 268, that of directories at 281, the area from 581 on."""
    session = device_session()
    cut = cut_of(session, "80E0010105 28 0004 00 00")
    check("a file: none or whole", [view.files for view in cut.stages], [(), ((0x0101, bytes.fromhex("2800040000"), 0, 0, 0x3F00, bytes(4)),)])
    check("its places", (cut.last_store, sorted(cut.places)), ((268, 1), list(range(76, 88)) + [268, 581, 582, 583, 584]))
    cut = cut_of(session, "80E0510105 38 0000 C1 00")
    check("a directory: none or whole", [view.folders for view in cut.stages], [(), ((0x5101, 0xC1),)])
    check("its places too", (cut.last_store, sorted(cut.places)), ((281, 1), [269, 270, 271, 281]))
    session.send("80E0010105 28 0004 00 00")
    session.send("80E0010205 2E 0202 00 04")
    session.send("80E0010305 2C 0006 00 00")
    cut = cut_of(session, "00D6810102 A1A2")
    check("an update lists every byte", cut.deed_stores, [(582, 0xA1), (583, 0xA2)])
    check("and all new at last", [view.files[0].contents.hex() for view in cut.stages], ["00000000", "00a1a200"])
    a, b, c = b"\xA1\xA2", b"\xB1\xB2", b"\xC1\xC2"
    lists = []
    for record in (a, b, c):
        session.send("0084000010")
        sent = coded("E2 0010", record.hex().upper())
        cut = cut_of(session, sent)
        lists.append([view.files[1].contents for view in cut.stages])
        check("the code comes before", cut.first, [(74, 9), (74, 10)])
        session.send(sent)
    check("an append: the old list, when full that without its oldest, the new list", lists,
          [[(), (a,)], [(a,), (b, a)], [(b, a), (b,), (c, b)]])
    cut = cut_of(session, "00E2001802 B1B2")
    check("an append to 2C", [(view.files[2].held, view.files[2].contents) for view in cut.stages], [(0, ()), (3, (b,))])
    check("its record's places", sorted(place for place in cut.places if place >= 581), [589, 590, 591])
    check("6A84 makes no store", (cut_of(session, "00E2001806 B1B2B3B4B5B6").first, len(cut_of(session, "00E2001806 B1B2B3B4B5B6").stages)), ([], 1))


def test_cut_judged():
    """What is not allowed is said to be wrong, and what is allowed is not."""
    def found(cut, *views):
        return cut.wrong_runs(len(views) - 1, [(done, done, view) for done, view in enumerate(views)]) is None

    session = device_session()
    session.admin()
    session.send("80E0010205 2E 0202 00 00")
    session.send("80E0010305 28 0002 00 00")
    for record in ("A1A1", "A2A2"):
        session.send("00E2001002" + record)

    cut = cut_of(session, "0020000106 313131313131")
    three, two = cut.fixed
    check("a wrong presentation", [found(cut, three, two), found(cut, two, two), found(cut, three, three), found(cut, three, two, three),
                                   found(cut, three)], [True, False, False, False, False])
    check("a number of stores left out", [cut.wrong_runs(total, [(0, 0, three), (first, total, two)]) is None for total, first in (
        (1, 1), (2, 2))] + [cut.wrong_runs(2, [(0, 0, three), (1, 1, two)]) is None], [True, False, False])
    cut = cut_of(session, "0020000106 313233343536")
    check("a right presentation", [found(cut, three, two, three), found(cut, three, three), found(cut, three, three, three), found(cut, three, two)],
          [True, False, False, False])

    cut = cut_of(session, "0024010008 3636363636363636")
    old, new = cut.stages
    torn = cuts.with_credential(old, cuts.ADMIN, value=b"67654321")
    low = cuts.with_credential(old, cuts.USER, tries=2)
    check("a PIN", [found(cut, old, old, new, new), found(cut, old, new), found(cut, old, torn, new), found(cut, old, new, old, new), found(cut, new, new),
                    found(cut, old, old), found(cut, old, low, new), found(cut, old, None, new)], [True, True] + [False] * 6)
    cut = cut_of(session, "002C020106 363636363636")
    check("RELOAD with full tries", len(cut.stages), 2)
    session.send("0020000106 313131313131")
    cut = cut_of(session, "002C020106 363636363636")
    old, half, new = cut.stages
    early = cuts.with_credential(old, cuts.USER, tries=3)
    check("RELOAD with a try gone", [found(cut, old, half, new), found(cut, old, new), found(cut, old, early, new), found(cut, old, half, old, new)],
          [True, False, False, False])

    cut = cut_of(session, "00E2001002 A3A3")
    old, less, new = cut.stages
    over = cuts.with_file(old, 0, contents=(b"\xA2\xA2", b"\xA3\xA1"))
    none = cuts.with_file(old, 0, held=0, newest=0, contents=())
    check("an append to a full file", [found(cut, old, less, new), found(cut, old, new), found(cut, old, over, new), found(cut, old, less, none, new),
                                       found(cut, old, less, old, new), found(cut, old, new, less, new)], [True, True, False, False, False, False])

    cut = cut_of(session, "00D6830002 B1B2")
    old, new = cut.stages
    first, last, other = [cuts.with_update(old, cut.update, data) for data in (b"\xB1\x00", b"\x00\xB2", b"\xB1\xB1")]
    check("an update", [found(cut, old, first, new), found(cut, old, last, new), found(cut, old, other, new), found(cut, old, first, last, new),
                        found(cut, first, new), found(cut, old, first)], [True, True, False, False, False, False])
    check("its stores", [cut.wrong_stores(stores) is None for stores in (
        [(585, 0xB1), (586, 0xB2)], [(586, 0xB2), (585, 0xB1)], [(585, 0xB1)], [(585, 0xB1), (585, 0xB1), (586, 0xB2)], [(585, 0xB1), (586, 0xB3)])],
          [True, False, False, False, False])

    cut = cut_of(session, "80E0010405 28 0001 00 00")
    entry = [(76 + 2 * 12 + at, 0) for at in range(12)]
    check("the stores of a new file", [cut.wrong_stores(stores) is None for stores in (
        [(587, 0)] + entry + [(268, 3)], [(268, 3), (587, 0)] + entry, [(587, 0)] + entry + entry + [(268, 3)], [(588, 0)] + entry + [(268, 3)],
        [(587, 0)] + entry + [(268, 2)])], [True, False, False, False, False])
    old, new = cut.stages
    half = new._replace(files=new.files[:2] + (new.files[2]._replace(created=bytes(5)),))
    check("a new file", [found(cut, old, new), found(cut, old, half, new), found(cut, old, old), found(cut, new, new)], [True, False, False, False])
    cut = cut_of(session, "00B2011400")
    check("a read stores nothing", [cut.wrong_stores(stores) is None for stores in ([], [(563, 0)])], [True, False])


def test_generated():
    check("a seed always gives the same script", generate.script_of(7, 500), generate.script_of(7, 500))
    check("seeds differ", generate.script_of(7, 500) == generate.script_of(8, 500), False)
    check("as many lines as asked for", [len(script.lines_of(generate.script_of(seed, 300))) for seed in range(20)],
          [300] * 20)
    fetched = 0
    for seed in range(1, 4):
        history, places, lists, contents, twin = History(), Places(), Lists(), Contents(), Twin()

        def watch(*seen):
            for watcher in (history, places, lists, contents, twin):
                watcher.watch(*seen)

        generate.Generator(seed, 6000, watch).write()
        check("rights follow from history, seed %d" % seed, history.disagreements, [])
        check("every state is sound, seed %d" % seed, history.unsound, 0)
        check("directories follow from history, seed %d" % seed, places.disagreements[:3], [])
        check("files and directories are selected often, seed %d" % seed, places.selected > 200, True)
        check("2C files are lists of records, seed %d" % seed, lists.disagreements[:3], [])
        check("2C files are used often, seed %d" % seed, lists.compared > 300, True)
        check("binary files are bytes, seed %d" % seed, contents.disagreements[:3], [])
        check("binary files are used often, seed %d" % seed, contents.compared > 100, True)
        check("and read to the end, seed %d" % seed, contents.to_end > 20, True)
        check("with codes too, seed %d" % seed, (lists.coded > 50, contents.coded > 30), (True, True))
        taken = [presented for presented in history.codes if presented[-1]]
        refused = [presented for presented in history.codes if not presented[-1]]
        check("codes are presented often, seed %d" % seed, (len(taken) > 100, len(refused) > 30), (True, True))
        # Every fourth by openssl: a code was taken exactly where it is right.
        check("a code that is taken is openssl's, and one that is refused is not, seed %d" % seed,
              [presented for presented in taken[::4] + refused[::4] if (codes.code(*presented[:3]) == presented[3]) != presented[4]], [])
        check("however cut, the data of mode 0, seed %d" % seed, twin.disagreements[:3], [])
        fetched += twin.fetched
    check("data are fetched often", fetched > 300, True)


def main():
    argparse.ArgumentParser(
        prog="python3 tests/model/selftest.py", description=__doc__, formatter_class=argparse.RawDescriptionHelpFormatter).parse_args()
    for test in (test_cipher, test_example, test_edges, test_errors_that_look_right, test_calls, test_variable_soundness,
                 test_folder_soundness, test_folders, test_folder_rights, test_folder_select, test_folder_sfi, test_folder_limits,
                 test_variable_space, test_variable_records, test_variable_many, test_text_example, test_text_fields,
                 test_text_folders, test_text_lines, test_text_sizes, test_text_calls, test_text_generated, test_text_conversions,
                 test_text_converted, test_framing, test_files, test_read_to_end,
                 test_response, test_rights, test_credentials, test_code, test_codes_served, test_codes_refused, test_codes_order,
                 test_codes_tries, test_codes_challenge, test_codes_message, test_codes_rights, test_codes_fetched,
                 test_cut_presentations, test_cut_pins, test_cut_files, test_cut_judged, test_grammar, test_generated):
        test()
    print("%d passed, %d failed" % (passed, failed))
    return 1 if failed else 0


if __name__ == "__main__":
    sys.exit(main())
