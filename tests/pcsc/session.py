#!/usr/bin/env python3
"""A session with the card through scriptor and through opensc-tool, each answer held to documents 01 and 02.

What is expected was worked out from them, and stands with the reason; cryptograms are openssl's. A card of mode 1 goes through the
same session: what waits is fetched, by hand or by opensc-tool, and joined it has to be what mode 0 gives.
"""
import random
import subprocess
import tempfile

from stack import ADMIN_PIN, ISSUE_WORDS, KEY, USER_PIN, OpenscTool, Scriptor, card, check, cryptogram, end, issue_line

ALARMS = ["000000010702000C", "0000000203010005", "000000030702002D", "0000000420060078", "000000050C040003"]
NOTES = [b"LINE 7 BELT".hex().upper(), b"FUSE 12A".hex().upper(), b"OK".hex().upper()]
CORRECTED = b"FUSE 16A".hex().upper()
RIGHT_PIN, WRONG_PIN = "0020000106313233343536", "0020000106313131313131"
QUERY = "00200001"


class ByHand(Scriptor):
    """scriptor with a card of mode 1, and somebody who types GET RESPONSE until nothing waits, in parts of any size."""

    def __init__(self):
        super().__init__()
        self.dice = random.Random(6)

    def send(self, command):
        """The parts joined, and the last status word."""
        data, word = super().send(command)
        if word.startswith("61"):
            check(f"{command}: no data come with {word}", data == "", data)
            data, word = self.fetched(int(word[2:], 16) or 256)
        return data, word

    def fetched(self, waiting):
        joined, word = "", None
        while waiting > 0:
            le = self.dice.choice((0, waiting, 1, self.dice.randint(1, 255)))
            part, word = super().send(f"00C00000{le % 256:02X}")
            if le > waiting:
                due = (0, f"6C{waiting:02X}")
            else:
                count = le or waiting
                waiting -= count
                due = (count, f"61{waiting % 256:02X}" if waiting else "9000")
            joined += part
            if not check(f"GET RESPONSE with Le {le % 256:02X}", (len(part) // 2, word) == due, part + word):
                break
        return joined, word


class Asking:
    """Commands to a client, each answer compared. Prints nothing where all is as expected."""

    def __init__(self, client, mode=0):
        self.client = client
        self.mode = mode
        # OpenSC gives a command the form that T=0 has on the wire: without data it has five bytes at least, with data no Le.
        self.reshaped = mode == 1 and client.name == "opensc-tool"

    def __call__(self, command, expected, why):
        """expected: the data and the status word, as the card sends them; in mode 1 with all that it lets wait."""
        if self.reshaped and command == QUERY:
            expected, why = "6700", "opensc-tool puts a 00 behind four bytes, and VERIFY does not take case 2"
        data, word = self.client.send(command)
        shown = command if len(command) < 50 else command[:50] + "..."
        check(f"{self.client.name}: {shown} is {expected or 'nothing'}, for {why}", data + word == expected, data + word)

    def challenge(self, size):
        data, word = self.client.send(f"00840000{size:02X}")
        check(f"{self.client.name}: a challenge of {size}", (len(data), word) == (2 * size, "9000"), data + word)
        return data

    def reset(self):
        check(f"{self.client.name}: reset", self.client.reset())


def before_login(ask):
    ask(QUERY, "63C3", "issue gives full tries, and the user PIN's limit is 3")
    ask("00B2010C00", "6A82", "a new card has no files")
    ask("80E0A101052E04084001", "6982", "CREATE FILE asks for the device right")
    ask("0082000010" + "00" * 16, "6984", "there was no challenge, and it is checked before the comparison")
    ask(QUERY + "00", "6700", "five bytes are case 2, and VERIFY takes cases 1 and 3")
    ask("01200001", "6E00", "the class is neither 00 nor 80")
    if ask.mode == 0:
        ask("00C0000000", "6D00", "GET RESPONSE is not in the list of mode 0")
    else:
        ask("00C0000000", "6985", "nothing waits")
    ask("00A4040000", "6A86", "SELECT wants P 0000, and P is checked before the case")
    if ask.reshaped:
        ask("00A4000002A10100", "6A82", "opensc-tool leaves the Le out, so it is case 3, and there is no such file yet")
    else:
        ask("00A4000002A10100", "6700", "case 4 is a good frame, and no command takes it")


def login(ask):
    challenge = ask.challenge(16)
    wrong = cryptogram(challenge)[:-1] + ("1" if cryptogram(challenge)[-1] == "0" else "0")
    ask("0082000010" + wrong, "63CF", "127 tries are left, and x is the smaller of tries and 15")
    ask("0082000010" + cryptogram(challenge), "6984", "the wrong login used the challenge up")
    second = ask.challenge(16)
    check(f"{ask.client.name}: another challenge than before", second != challenge, second)
    ask(QUERY, "63C3", "a query costs no try")
    ask("0082000010" + cryptogram(second), "6984", "every served command drops the challenge, a query too")
    short = ask.challenge(4)
    ask("0082000010" + cryptogram(short), "9000", "a challenge of 4 bytes is filled with 00")
    ask("0082000010" + cryptogram(short), "6984", "a right login uses the challenge up too")


def alarm_file(ask):
    ask("80E0A101052E04084001", "9000", "the device right is held: cyclic, 4 records of 8, read user, write device")
    ask("80E0A101052E04084001", "6986", "the short number 1 is taken")
    for alarm in ALARMS:
        ask("00E2000008" + alarm, "9000", "the device right is held; a full file lets the oldest go")
    ask("00E200000700000006070200", "6700", "Lc is not the record length")
    ask("00B0000001", "6981", "READ BINARY wants type 28, and asks for it before the right")
    ask("00B2010400", "6982", "the current file is read with the user PIN, which was not shown")
    ask(WRONG_PIN, "63C2", "one of three tries is gone")
    ask(QUERY, "63C2", "a query costs none")
    ask(RIGHT_PIN, "9000", "the right PIN restores all tries")
    ask(QUERY, "9000", "the right is held")
    for number, alarm in enumerate(reversed(ALARMS[1:]), 1):
        ask(f"00B2{number:02X}0C00", alarm + "9000", "number 1 is the newest; of five alarms the last four are left")
    ask("00B2050C00", "6A83", "the file holds four")
    ask("00B2000C00", "6A86", "P1 is 1 to 255")
    ask("00B2010C08", ALARMS[4] + "9000", "Le may be the record length")
    if ask.client.name == "scriptor":
        ask("00B2010C05", "6C08", "Le is neither 00 nor the record length")
    else:
        ask("00B2010C05", ALARMS[4] + "9000", "the card says 6C08, and OpenSC sends the command again with that Le")


def longest(ask):
    """The longest command and the longest reply that the framing knows pass through PC/SC."""
    content = "".join(f"{byte:02X}" for byte in range(1, 256))
    ask("80E0A10205280100" + "0000", "9000", "binary, 256 bytes, free to read and to write; the device is logged in")
    ask("00D60000FF" + content, "9000", "255 bytes at offset 0")
    ask("00B0000000", content + "00" + "9000", "Le 00 is what there is, here 256 bytes, and a new file's bytes are 00")
    ask("00B0000100", content[2:] + "00" + "9000", "Le 00 from offset 1 is the 255 bytes to the end")
    ask("00B082FF00", "00" + "9000", "and from offset 255 the last one, by SFI too")
    ask("00B082FF02", "6700", "two bytes from offset 255 go past the end")
    ask("00B0010000", "6A84", "the offset is not below the size, and that comes first")


def data_field(digits):
    return f"{len(digits) // 2:02X}" + digits


def notes(ask):
    """The device and the user are logged in."""
    ask("80E0A103052C00014040", "6A80", "a file of type 2C has 2 bytes at least")
    ask("80E0A103052C001E4040", "9000", "2C, 30 bytes, read user, write user")
    ask("00B2010400", "6A83", "a new file has no record")
    ask("00E20000B3" + "2A" * 179, "6700", "a record has up to 178 bytes, and that is checked before the room")
    for note in NOTES:
        ask("00E20000" + data_field(note), "9000", "11, 8 and 2 bytes, each with one more, are 24 of 30")
    for number, note in enumerate(NOTES, 1):
        ask(f"00B2{number:02X}1C00", note + "9000", "number 1 is the oldest, and Le 00 stands for the whole record")
    ask("00B2041C00", "6A83", "the file holds three")
    ask("00B2021C08", NOTES[1] + "9000", "Le may be this record's length")
    if ask.client.name == "scriptor":
        ask("00B2021C0B", "6C08", "11 is the length of another record")
    else:
        ask("00B2021C0B", NOTES[1] + "9000", "the card says 6C08, and OpenSC sends the command again with that Le")
    ask("00DC021C" + data_field(CORRECTED), "9000", "as long as before")
    ask("00DC021C" + data_field(CORRECTED + "41"), "6700", "one byte longer; an update keeps the length")
    ask("00DC021C" + data_field(CORRECTED[:-2]), "6700", "one byte shorter")
    ask("00DC041C" + data_field(CORRECTED), "6A83", "there is no fourth to update")
    for number, note in enumerate([NOTES[0], CORRECTED, NOTES[2]], 1):
        ask(f"00B2{number:02X}1C00", note + "9000", "the second is corrected, and the others are as they were")
    ask("00E2001806" + "2A" * 6, "6A84", "6 bytes are left, and this takes 7")
    ask("00E2001805" + "2A" * 5, "9000", "it takes 6")
    ask("00E20018012A", "6A84", "the file is full, and drops no record")
    ask("00B2041C00", "2A" * 5 + "9000", "the fourth is the newest")
    ask("00B0830001", "6981", "READ BINARY wants type 28")


def blocked(ask):
    ask(WRONG_PIN, "63C2", "a wrong PIN costs a try")
    ask("00B2010C00", "6982", "and drops the right")
    ask(WRONG_PIN, "63C1", "one is left")
    ask(WRONG_PIN, "63C0", "none is left")
    ask(RIGHT_PIN, "6983", "without tries the right PIN is refused too")
    ask(QUERY, "6983", "no tries")
    ask.reset()
    ask(QUERY, "6983", "a reset gives no tries back")
    ask("00B2010400", "6A82", "a reset leaves no file current")
    ask("00B2010C00", "6982", "and the file stands")
    ask("00B2011C00", "6982", "and so do the notes")
    ask("80E0A103052E04084001", "6982", "a reset drops the device right")


def reload(ask):
    ask("002C020106363534333231", "6982", "RELOAD asks for the admin right")
    ask("00200000083837363534333231", "9000", "the admin PIN is right")
    ask("002C020106363534333231", "9000", "a new user PIN, 654321, and full tries")
    ask(QUERY, "63C3", "full tries, and the user right is not held")
    ask(RIGHT_PIN, "63C2", "the old PIN is wrong now")
    ask("0020000106363534333231", "9000", "the new one is right")
    ask("00B2010C00", ALARMS[4] + "9000", "the newest alarm")


def change(ask):
    """After reload: the user PIN is 654321."""
    ask.reset()
    ask("0024010106323436383130", "6982", "CHANGE asks for the PIN's own right, which the reset dropped")
    ask("0020000106363534333231", "9000", "the user PIN is right")
    ask("00240101053234363831", "6700", "a PIN has six digits at least")
    ask("0024010106020406080100", "6A80", "a digit is 30 to 39")
    ask("0024010006323436383130", "6982", "the admin PIN asks for the admin right")
    ask("0024010106323436383130", "9000", "the user right is held: the new PIN is 246810")
    ask(QUERY, "9000", "the right stays")
    ask.reset()
    ask("0020000106363534333231", "63C2", "the old PIN is wrong now")
    ask("0020000106323436383130", "9000", "the new one is right")
    ask("00B2021C00", CORRECTED + "9000", "the notes are as they were before all resets")


def directories(ask):
    """After change: the user PIN is 246810. Another firm's file, in a directory, with the short number of the alarms."""
    user_pin, entry = "0020000106323436383130", "00000063010200FF"
    ask.reset()
    ask("0082000010" + cryptogram(ask.challenge(8)), "9000", "the device login")
    ask("80E0D001053800004000", "9000", "a directory, in which the user PIN makes files")
    ask("00A4000002D001", "9000", "no file of the root has this FID, so it is the directory's")
    ask("00B2010C00", "6A82", "a short number looks in the current directory alone, and it is empty")
    ask("80E0E101052E04084040", "6982", "in it the creation right is asked, and not the device right")
    ask(user_pin, "9000", "the user PIN is right")
    ask("80E0D002053800004000", "6A81", "directories are made only in the root")
    ask("80E0E101052E04084040", "9000", "the short number need only differ within its directory")
    ask("00E2000808" + entry, "9000", "an append by short number is for the current directory too")
    ask("00B2010C00", entry + "9000", "short number 1 is E101 here")
    ask("00A4000002A101", "6A82", "a file of the root is found from the root alone")
    ask("00B2010400", entry + "9000", "and a refused SELECT leaves the current file")
    ask("00A40000023F00", "9000", "back to the root")
    ask("00B2010400", "6A82", "and no file is current")
    ask("00B2010C00", ALARMS[4] + "9000", "short number 1 is A101 here")
    ask("00A4000002D001", "9000", "to the directory again")
    ask("00B2010C00", entry + "9000", "where short number 1 is E101")
    ask.reset()
    ask(user_pin, "9000", "the user PIN is right")
    ask("00B2010C00", ALARMS[4] + "9000", "a reset returns to the root")


def either_pin(ask):
    """After change: the user PIN is 246810."""
    ask.reset()
    ask("0082000010" + cryptogram(ask.challenge(8)), "9000", "the device login")
    ask("80E0A104052E04080201", "6A80", "bit 2 alone is a bad rights byte")
    ask("80E0A104052E0408C201", "9000", "cyclic, 4 records of 8, read admin or user, write device")
    ask("00E2000008" + ALARMS[0], "9000", "the device right is held")
    ask("00B2012400", "6982", "the device is neither of the two that are asked")
    ask.reset()
    ask("00B2012400", "6982", "neither PIN was shown")
    ask("0020000106323436383130", "9000", "the user PIN is right")
    ask("00B2012400", ALARMS[0] + "9000", "any one of the two is enough: the user PIN")
    ask.reset()
    ask("00B2012400", "6982", "the reset dropped the user right")
    ask("00200000083837363534333231", "9000", "the admin PIN is right")
    ask("00B2012400", ALARMS[0] + "9000", "any one of the two is enough: the admin PIN")
    ask("00B2010C00", "6982", "the admin PIN does not open what asks for the user PIN alone")
    ask("0020000106313131313131", "63C2", "a wrong user PIN costs a try")
    ask("00B2012400", ALARMS[0] + "9000", "and the admin right is still held")
    ask("0020000006313131313131", "63C4", "a wrong admin PIN costs one of five tries")
    ask("00B2012400", "6982", "and drops the admin right, so neither is held")


def session(client, mode=0):
    ask = Asking(client, mode)
    for part in (before_login, login, alarm_file, longest, notes, blocked, reload, change, directories, either_pin):
        part(ask)


def many_tries(ask):
    """With a limit of 16 for the user PIN."""
    ask(QUERY, "63CF", "16 tries are left, and x is the smaller of tries and 15")
    ask(WRONG_PIN, "63CF", "15 are left")
    ask(WRONG_PIN, "63CE", "14 are left")
    ask(RIGHT_PIN, "9000", "the right PIN restores all tries")
    ask.reset()
    ask(QUERY, "63CF", "16 are left")


def frames(ask):
    """Frames that opensc-tool does not send, since it reads them itself; scriptor sends any bytes."""
    ask("002000", "6700", "three bytes are no frame")
    ask("05", "6700", "nor is one")
    ask("00200001000000", "6700", "byte five 00 with more behind it is no frame")
    ask("00B00000000100", "6700", "an extended Le is no frame")
    ask("00D6000000000101", "6700", "nor is an extended Lc")
    ask("0020000106313233", "6700", "Lc 06 and three bytes are no frame")
    ask("00200001" + "FF" + "31" * 256, "6700", "VERIFY takes up to 16 bytes: a good frame of case 4, the longest")


def waiting(ask):
    """After the session, with a card of mode 1 and scriptor's plain answers: 61xx, and what becomes of the bytes that wait."""
    read, content = "00B0820000", "".join(f"{byte % 256:02X}" for byte in range(1, 257))
    ask(read, "6100", "256 bytes wait, and 00 stands for 256")
    ask("00C0000000", content + "9000", "Le 00 gives all that wait, at once")
    ask("00C0000000", "6985", "nothing waits any more")
    ask(read, "6100", "256 bytes wait again")
    ask("00C00000FF", content[:510] + "6101", "255 of them, and one is left")
    ask("00C0000002", "6C01", "more than wait, and it says how many")
    ask("00C0010001", "6A86", "P is to be 0000")
    ask("00C00000", "6700", "GET RESPONSE takes case 2 alone")
    ask("00C0000001", "00" + "9000", "a refused GET RESPONSE keeps what waits")
    for command, word, why in (
        (QUERY, "63C2", "the wrong PIN of either_pin cost a try"),
        ("002000", "6700", "three bytes are no frame"),
        ("00C000000000", "6700", "and with a broken frame it is no GET RESPONSE"),
        ("01C0000000", "6E00", "the class is neither 00 nor 80"),
        ("80C0000000", "6D00", "class and instruction are not together in the list"),
    ):
        ask(read, "6100", "256 bytes wait again")
        ask(command, word, why)
        ask("00C0000000", "6985", "any other command discards what waits")
    ask(read, "6100", "256 bytes wait again")
    ask.reset()
    ask("00C0000000", "6985", "a reset discards what waits")
    ask("0084000010", "6110", "a challenge waits like other data")
    challenge = ask.client.send("00C0000000")[0]
    ask("0082000010" + cryptogram(challenge), "9000", "GET RESPONSE does not drop the challenge")


def fetched_by_itself(reader):
    """What opensc-tool really sends to a card of mode 1."""
    def sent(*lines):
        return "".join(f"{line}\n" for line in lines) in reader.said()

    content = "".join(f"{byte % 256:02X}" for byte in range(1, 257))
    check("opensc-tool fetches 256 bytes by Le 00", sent("> 00B0000000", "< 6100", "> 00C0000000", f"< {content}9000"))
    check("it fetches an alarm", sent("> 00B2010C00", "< 6108", "> 00C0000008", f"< {ALARMS[4]}9000"))
    check("and after 6C08 too", sent("> 00B2010C05", "< 6C08", "> 00B2010C08", "< 6108", "> 00C0000008", f"< {ALARMS[4]}9000"))
    check("four bytes become five", sent("> 0020000100", "< 6700") and not sent("> 00200001"))
    check("case 4 becomes case 3", sent("> 00A4000002A101", "< 6A82") and not sent("> 00A4000002A10100"))


def rights_between_programs(reader):
    """A right belongs to the card. Neither client resets it at its end; then pcscd cuts its power, when nobody is connected."""
    first, second = Scriptor(), OpenscTool()
    ask, other = Asking(first), Asking(second)
    ask(RIGHT_PIN, "9000", "the right PIN")
    other(QUERY, "9000", "another program has the right too, while the first is connected")
    other(QUERY, "9000", "and still, when a third has come and gone")
    first.end()
    check("scriptor's end does not reset the card", reader.after_commands() == "power off", reader.said())
    other(QUERY, "63C3", "power off is a reset")
    other(RIGHT_PIN, "9000", "the right PIN")
    check("opensc-tool's end does not reset the card", reader.after_commands() == "power off", reader.said())
    other(QUERY, "63C3", "power off is a reset")
    first = Scriptor()
    other(RIGHT_PIN, "9000", "the right PIN")
    other.reset()
    other(QUERY, "63C3", "opensc-tool --reset is a reset")
    first.end()


def analysis(atr):
    """What pcsc-tools says of an answer to reset."""
    with tempfile.TemporaryDirectory() as home:
        # It looks unknown cards up in the net where its list is old; a new and empty one keeps it here.
        environment = {"HOME": home, "PATH": "/usr/bin:/bin", "XDG_CACHE_HOME": home}
        open(f"{home}/smartcard_list.txt", "w", encoding="utf-8").close()
        return subprocess.run(["ATR_analysis", atr], capture_output=True, text=True, env=environment).stdout


def answer_to_reset(reader, mode=0):
    text = OpenscTool().run("-a").stdout.strip().replace(":", "").upper()
    history = "807116" + "56" + b"LIMPET".hex().upper()
    if mode == 0:
        # TS direct; T0: TD1, 10 historical bytes; TD1, TD2: T=1; IFSC 254; BWI 4, CWI 5; the historical bytes; TCK
        begin, tck, protocol, reads = "8A8131FE45", 0, "T=1", ("(correct checksum)", "IFSC: 254")
        for byte in bytes.fromhex(begin + history):
            tck ^= byte
        due = begin + history + f"{tck:02X}"
    else:
        # TS direct; T0: no TD1, which is T=0 alone, and then there is no TCK; 10 historical bytes
        due, protocol, reads = "0A" + history, "T=0", ("T0 = 0A, Y(1): 0000, K: 10 (historical bytes)",)
    check("the answer to reset", text == "3B" + due, text)
    said = analysis(text)
    check("ATR_analysis reads it", all(words in said for words in reads), said)
    scriptor = Scriptor()
    scriptor.end()
    check(f"{protocol} is spoken", f"\nUsing {protocol} protocol\n" in scriptor.text, scriptor.text)
    check("the reader said nothing of calls that were not served", "not served" not in reader.said(), reader.said())


def by_scriptor(mode):
    with card("--mode", str(mode), *ISSUE_WORDS) as reader:
        client = Scriptor() if mode == 0 else ByHand()
        session(client, mode)
        frames(Asking(client, mode))
        client.end()
        if mode == 1:
            client = Scriptor()
            waiting(Asking(client, mode))
            client.end()
        answer_to_reset(reader, mode)


def by_opensc_tool(mode):
    with tempfile.NamedTemporaryFile("w", prefix="limpet-issue-") as issue:
        issue.write(issue_line(mode))
        issue.flush()
        with card(issue.name) as reader:
            # Where nobody is connected between two calls pcscd cuts the card's power within a second.
            connected = Scriptor()
            session(OpenscTool(), mode)
            connected.end()
            if mode == 1:
                fetched_by_itself(reader)


def main():
    for mode in (0, 1):
        by_scriptor(mode)
        by_opensc_tool(mode)
    with card(*ISSUE_WORDS) as reader:
        rights_between_programs(reader)
    with card(KEY, "128", ADMIN_PIN, "5", USER_PIN, "16", *ISSUE_WORDS[6:]):
        client = Scriptor()
        many_tries(Asking(client))
        client.end()
    end()


main()
