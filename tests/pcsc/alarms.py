#!/usr/bin/env python3
"""tools/alarms with cards in the virtual reader. What it does without one is in tests/alarms."""
import contextlib
import glob
import json
import os
import re
import signal
import subprocess
import tempfile
import termios
import threading
import time

from cable import made_up
from stack import (ADMIN_PIN, READERS, ROOT, SECONDS, TRANSPORT_KEY, USER_PIN, Scriptor, Terminal, card, check, code_of, end, held, is_stopped,
                   issue_line, wait_until, with_mode)

RANDOM = "00112233445566778899AABBCCDDEEFF"
# The device login of FIPS 197's appendix C.1: its key is ISSUE_WORDS', its plaintext the random input.
LOGIN = ["0084000010", "008200001069C4E0D86A7B0430D8CDB78070B4C55A"]


def heading(slot=0, file=None):
    return f"card in '{READERS[slot]}'" + (f", {file}" if file else "") + ":\n"


def table(*rows, slot=0, file=None):
    return heading(slot, file) + "    number  line  kind  minutes\n" + "".join(
        f"{number:>10}  {line:>4}  {kind:>4}  {minutes:>7}\n" for number, line, kind, minutes in rows)


def gone(oldest):
    return f"oldest on the card: {oldest}; earlier ones are gone\n"


def by_number(sfi):
    return f"the file with the short number {sfi}"


BOX_ROWS = (5, 12, 4, 3), (4, 32, 6, 120), (3, 7, 2, 45), (2, 3, 1, 5)
BOX = table(*BOX_ROWS) + gone(2)
INCOMPLETE = "incomplete: there may be alarms that are not in this table\n"


@contextlib.contextmanager
def scripted(text, *words, slot=0):
    """A card in the reader. The name of a file with the text is the last word."""
    with tempfile.NamedTemporaryFile("w", prefix="limpet-script-") as script:
        script.write(text)
        script.flush()
        with card(*words, script.name, slot=slot) as reader:
            yield reader


def prepared(mode, *commands, slot=0):
    """A card on which the device has run the commands."""
    text = "".join(f"CMD\t{command}\t{RANDOM}\n" for command in (*LOGIN, *commands))
    return scripted(text, *with_mode(mode), "--prepare", slot=slot)


def box_card(mode):
    """The card of examples/box.script, but for its mode."""
    with open("examples/box.script", encoding="ascii") as file:
        issue, rest = file.read().split("\n", 1)
    check("the box is issued as the other cards here, with mode 0", issue == issue_line(0), issue)
    return scripted(issue_line(mode) + "\n" + rest)


def alarms(*words, pin=None):
    """Status, output and errors. pin comes on standard input."""
    words = ["tools/alarms", *words] + ([] if pin is None else ["--pin-from", "-"])
    ended = subprocess.run(words, input=pin or "", capture_output=True, text=True, timeout=SECONDS, cwd=ROOT)
    return ended.returncode, ended.stdout, ended.stderr


def printed(name, table, *words, pin=None, status=0):
    got = alarms(*words, pin=pin)
    check(name, got == (status, table, ""), got)


def refused(name, says, *words, pin=None):
    got = alarms(*words, pin=pin)
    check(name, got[0] == 1 and got[1] == "" and got[2].startswith("alarms: ") and says in got[2], got)


def tries(expected, why, query="00200001"):
    client = Scriptor()
    got = client.send(query)[1]
    client.end()
    check(f"{query} is answered {expected}: {why}", got == expected, got)


def box(mode):
    with box_card(mode) as reader:
        printed("the alarms of the box", BOX, pin="123456\n")
        check("the card is reset at its end", reader.after_commands() == "reset", reader.said())
        printed("the same by the short number", table(*BOX_ROWS, file=by_number(1)) + gone(2), "--sfi", "1", pin="123456")
        printed("the same in the reader of that name", BOX, "--reader", "Virtual PCD 00 00", pin="123456")
        refused("no PIN given", "the user PIN is needed (6982); give it with --pin-from")
        for pin in ("", "12345", "12345678901234567", "12345x", "１２３４５６"):
            refused(f"no PIN: {pin!r}", "6 to 16 digits; this one was not sent", pin=pin)
        tries("63C3", "what is no PIN was not sent")
        refused("no such file", "there is no file A104 in the card's root (6A82), where a box has its alarms", "--file", "A104")
        refused("no such short number", "there is no such file in the card's root (6A82), where a box has its alarms", "--sfi", "4")
        refused("not a record file", "no records (6981)", "--file", "A102")
        refused("no such reader", "alarms: 'Some reader': there is no reader of that name", "--reader", "Some reader")
        refused("a name with bytes that are no text", "alarms: $'\\x1b[31m\\xff\\x0a': there is no", "--reader", b"\x1b[31m\xff\n")
        refused("no card in that reader", f"alarms: '{READERS[1]}': no card in the reader", "--reader", READERS[1])
        refused("a wrong PIN", "wrong user PIN (63C2), 2 tries left", pin="111111")
        tries("63C2", "the wrong PIN was sent once")
        refused("again", "wrong user PIN (63C1), 1 try left", pin="111111")
        terminal = Terminal("tools/alarms")
        terminal.wait_for(r"^user PIN of the card in 'Virtual PCD 00 00' \(1 try left\): $")
        terminal.type("222222")
        status = terminal.end()
        check("the last try, at a terminal", (status, "222222" in terminal.text) == (1, False), terminal.text)
        check("and it says so", "wrong user PIN (63C0), no try left: it is blocked now; whoever has the admin PIN" in terminal.text, terminal.text)
        refused("blocked", "the user PIN is blocked (6983)", pin="123456")
        refused("the admin PIN does not open a file of the user PIN", "another right", "--admin", pin="87654321")
        check(f"GET RESPONSE is sent in mode 1 alone: {mode}", ("\n> 00C0000008\n" in reader.said()) == (mode == 1), reader.said())


FILES = [
    "80E0A101052E04080001",  # alarms, free to read: none yet
    "80E0A103052E04080F01", "00E200000800000001070200FF",  # never to be read
    "80E0A104052A02090001",  # two records of 9 bytes
    "80E0A105052E04088001", "00E20000080000000107020001", "00E200000800000002070200FF",
    "00E20000080000000407020101", "00E2000008000000070702FFFF",  # read with the admin PIN
    "80E0A106052E04080001", "00E20000080000000121010001", "00E20000080000000201070001",
    "00E20000080000000200060001", "00E20000080000000320060000",  # lines 33 and 0, kind 7; number 2 twice
    "80E0A107052EFE080001", *(f"00E2000008{number:08X}01010001" for number in range(1, 256)),  # 254 records, and one more
    "80E0A108052E04080001", *(f"00E2000008{number:08X}01010001" for number in (8, 9, 1)),  # numbers that fall
    "80E0A109052C00400001", "00E20000056F696C6564",  # a note
    "80E0A10A052E0408C201", "00E2000008000000010702000C",  # read with either PIN
    "80E0A10B052E0408C001", "00E200000800000001070200FF",  # read with both PINs
]


def kinds_of_file(mode):
    with prepared(mode, *FILES) as reader:
        done = reader.said().count("\n< 9000\n")
        check("the device's login and all its commands were served", done == 1 + len(FILES), done)
        printed("an empty file", heading() + "no alarms\n")
        refused("a file that is never read", "another right", "--file", "A103", pin="123456")
        refused("records that are no alarms", "has 9 bytes and an alarm 8", "--file", "A104")
        refused("notes are no alarms", "has 5 bytes and an alarm 8", "--file", "A109")
        refused("the user PIN does not open a file of the admin PIN", "another right", "--file", "a105", pin="123456")
        rows = table((7, 7, 2, 65535), (4, 7, 2, 257), (2, 7, 2, 255), (1, 7, 2, 1), file=by_number(5))
        missing = "missing: numbers 5 to 6\nmissing: number 3\n"
        printed("numbers that are missing", rows + missing, "--sfi", "5", "--admin", pin="87654321")
        refused("either PIN, and none is given", "the user PIN is needed (6982)", "--file", "A10A")
        rows = table((1, 7, 2, 12), file="file A10A")
        printed("either PIN: the user PIN", rows, "--file", "A10A", pin="123456")
        printed("either PIN: the admin PIN", rows, "--file", "A10A", "--admin", pin="87654321")
        rows = table((1, 1, 1, 1), (9, 1, 1, 1), (8, 1, 1, 1), file=by_number(8))
        printed("numbers that fall", rows + "falling: number 1 was written after number 9\n" + gone(8), "--sfi", "8")
        status, out, err = alarms("--sfi", "6")
        check("records that are no alarms: status", (status, err) == (1, ""), err)
        marked = [line.split()[0] for line in out.splitlines() if "no alarm: " in line]
        check("records that are no alarms are marked", marked == ["2", "2", "1"], out)
        check("a number that is doubled", "\ndoubled: number 2 stands in 2 records\n" in out, out)
        status, out, err = alarms("--sfi", "7")
        largest = table(*((number, 1, 1, 1) for number in range(255, 1, -1)), file=by_number(7)) + gone(2)
        check("the largest file, 254 records", (status, out) == (0, largest), out)
        both_pins()


ENTER, LEAVE = "00A4000002D001", "00A40000023F00"
DIRECTORY = ["80E0D001053800000000", ENTER]  # for anybody to make files in
OTHER_FIRM = ["80E0A101052E04080000", "00E20000080000006301020003"]  # a file of the alarm file's name, with number 99


def directories(mode):
    """Another firm's file is never printed, wherever the card was left."""
    own = ["80E0A101052E04080001", "00E20000080000000101020003"]
    rows = table((1, 1, 2, 3))
    with prepared(mode, *own, *DIRECTORY, *OTHER_FIRM) as reader:
        check("the device's commands were served", reader.said().count("\n< 9000\n") == 7, reader.said())
        for name, words, above in (("by its name", (), None), ("by its short number", ("--sfi", "1"), by_number(1))):
            client = Scriptor()
            client.send(ENTER)
            client.end()
            printed(f"the root's alarms {name}, and the card was left in a directory", table((1, 1, 2, 3), file=above), *words)
        sent = f"> {LEAVE}\n< 9000\n> 00A4000002A101\n< 9000\n"
        check("the root is selected first, and then the file", sent in reader.said(), reader.said())
    with prepared(mode, *DIRECTORY, *OTHER_FIRM):
        refused("an alarm file in a directory alone", "there is no file A101 in the card's root (6A82), where a box has its alarms")
        refused("and by its short number", "there is no such file in the card's root (6A82), where a box has its alarms", "--sfi", "1")
    with prepared(mode, "80E0A101053800000000", "00A4000002A101", *OTHER_FIRM):
        refused("a directory of that name", "A101 is a directory on this card, and no file (6A82)")
    here = [True]  # in the directory; a card that forgets it by SELECT alone

    def answer(command):
        if command[1] == 0xA4:
            here[0] = here[0] and command.hex().upper() != LEAVE
            return b"\x90\x00"
        if command[2] > 1:
            return b"\x6a\x83"
        return bytes.fromhex(f"{99 if here[0] else 1:08X}010200039000")

    with made_up(answer):
        printed("a card that was left in a directory, for certain", rows)


OR_A_CODE = "; where the file asks for codes, say --transport-key FILE"
OTHER_KEY = "00" * 16


@contextlib.contextmanager
def key_file(key, mode=0o600):
    """The name of a file with a transport key."""
    with tempfile.NamedTemporaryFile("w", prefix="limpet-key-") as file:
        file.write(f"{key}\n")
        file.flush()
        os.chmod(file.name, mode)
        yield file.name


def coded_to_card(reader, since=0):
    """The coded commands that the card was sent, and how many challenges it gave."""
    said = reader.said()[since:]
    return re.findall("^> (04.*)$", said, re.MULTILINE), len(re.findall("^> 0084", said, re.MULTILINE))


def codes(mode):
    """Alarm files that ask for codes: with the user PIN, alone, for the device; and one that asks for none."""
    def coded(message):
        return [LOGIN[0], *(["00C0000010"] if mode else []), message + code_of(RANDOM, message)]

    files = ["80E0A101052E04084401", "00E20000080000000107020001", "00E20000080000000207020002",
             "80E0A102052E04080404", *coded("04E200000C0000000307020003"),
             "80E0A103052E04084501", "00E20000080000000407020004",
             "80E0A104052E04080001", "00E20000080000000507020005",
             "80E0A105052EFE080401", *(f"00E2000008{number:08X}01010001" for number in range(1, 256))]
    user, alone, free = table((2, 7, 2, 2), (1, 7, 2, 1)), table((3, 7, 2, 3), file="file A102"), table((5, 7, 2, 5), file="file A104")
    with prepared(mode, *files) as reader, key_file(TRANSPORT_KEY) as key, key_file(OTHER_KEY) as other:
        check("codes: all was served", not re.search("^< 6[^1]", reader.said(), re.MULTILINE), reader.said())
        with_key = ("--transport-key", key)
        printed("codes: a PIN and a code", user, *with_key, pin="123456")
        sent, challenges = coded_to_card(reader, reader.said().index("the card is in the reader"))
        check("codes: each read has a challenge and a code of its own", len(sent) == challenges == len(set(sent)) == 5, sent)
        check("codes: the card is reset at its end", reader.after_commands() == "reset", reader.said())
        printed("codes: a code and no PIN", alone + gone(3), *with_key, "--file", "A102")
        printed("codes: a file that asks for none", free + gone(5), *with_key, "--file", "A104")
        refused("codes: a file for the device", "it asks for another right, which no PIN gives\n", *with_key, "--file", "A103", "--both",
                pin=f"{USER_PIN}\n{ADMIN_PIN}\n")
        refused("codes: a PIN is missing", "the user PIN is needed (6982); give it with --pin-from\n", *with_key)
        refused("codes: no key, and the PIN alone", f"where it is both PINs say --both{OR_A_CODE}\n", pin="123456")
        refused("codes: no key and no PIN", f"the user PIN is needed (6982); give it with --pin-from{OR_A_CODE}\n", "--file", "A102")
        largest = table(*((number, 1, 1, 1) for number in range(255, 1, -1)), file="file A105") + gone(2)
        printed("codes: the largest file, 254 records", largest, *with_key, "--file", "A105")
        with open(key, encoding="ascii") as file:
            ended = subprocess.run(["tools/alarms", "--transport-key", "-", "--file", "A102"], stdin=file, capture_output=True, text=True, timeout=SECONDS)
        check("codes: the key at standard input", (ended.returncode, ended.stdout, ended.stderr) == (0, alone + gone(3), ""), ended)
        with key_file(TRANSPORT_KEY.lower(), 0o644) as open_one:
            got = alarms("--transport-key", open_one, "--file", "A102")
            warning = f"alarms: warning: {open_one} is open to others (mode 644), and has the transport key as it is; say: chmod 600 {open_one}\n"
            check("codes: a key that is open to others is warned of", got == (0, alone + gone(3), warning), got)
        for name, words in (("codes: a wrong key", ("--file", "A102")), ("codes: a wrong key, and the file asks for none", ("--file", "A104"))):
            since = len(reader.said())
            refused(name, "wrong code (6988), which has cost a try of the transport key, and nothing more was sent", "--transport-key", other, *words)
            sent, challenges = coded_to_card(reader, since)
            check(f"{name}: one code was sent, and no more", len(sent) == challenges == 1, sent)
            last = re.findall("^> (.*)$", reader.said()[since:], re.MULTILINE)[-1]
            check(f"{name}: it was the last command", last == sent[0], last)
        printed("codes: the right key gives the tries back", alone + gone(3), *with_key, "--file", "A102")
        for left in range(9, -1, -1):
            refused(f"codes: a wrong key, {left} tries left", "wrong code (6988)", "--transport-key", other, "--file", "A102")
        blocked = "the transport key is blocked (6983), and nothing brings it back"
        refused("codes: blocked", blocked, *with_key, "--file", "A102")
        refused("codes: blocked for all files", blocked, *with_key, "--file", "A104")
        printed("codes: a file that asks for none is read without them", free + gone(5), "--file", "A104")
        terminal = Terminal("tools/alarms", "--transport-key", "-")
        terminal.end()
        check("codes: a key that would be typed", terminal.text == "alarms: the transport key is in a file: say which with --transport-key\n", terminal.text)
        commands = "".join(re.findall("^[<>] (.*)$", reader.said(), re.MULTILINE))
        check("codes: the key itself is never sent", TRANSPORT_KEY not in commands)


def codes_listed():
    """While it reads, the key is in no list of processes and in no environment."""
    answers = {0xA4: "9000", 0x84: "00" * 16 + "9000", 0xB2: "000000010701000C9000"}
    secret, seen = os.urandom(16).hex().upper(), []  # a key that no other test has

    def answer(command):
        if command[1] == 0xB2:
            for path in glob.glob("/proc/[0-9]*/cmdline") + glob.glob("/proc/[0-9]*/environ"):
                with contextlib.suppress(OSError), open(path, "rb") as file:
                    seen.append(secret.encode() in file.read().upper())
        return bytes.fromhex("6A83" if command[2] > 1 and command[1] == 0xB2 else answers[command[1]])

    with made_up(answer), key_file(secret) as key:
        printed("codes: a made-up card", table((1, 7, 1, 12)), "--transport-key", key)
    check("codes: the key is in no list of processes", len(seen) > 20 and not any(seen), len(seen))


def both_pins():
    """File A10B asks for both PINs, and A103 for a right that no PIN gives."""
    rows = table((1, 7, 2, 255), file="file A10B")
    both, never = ("--file", "A10B"), ("--file", "A103")
    two_lines = f"{USER_PIN}\n{ADMIN_PIN}\n"
    printed("both PINs", rows, *both, "--both", pin=two_lines)
    printed("both PINs, and an end without a newline", rows, *both, "--both", pin=two_lines[:-1])
    printed("both PINs, where one is enough", table((1, 7, 2, 12), file="file A10A"), "--file", "A10A", "--both", pin=f"{USER_PIN}\n111111\n")
    refused("both PINs are asked for, and the user PIN is shown",
            "the user PIN does not open the file (6982), which asks for another right: where that is the admin PIN say --admin, where it is"
            f" both PINs say --both{OR_A_CODE}\n", *both, pin=two_lines)
    refused("and the admin PIN is shown", f"where that is the user PIN leave out --admin, where it is both PINs say --both{OR_A_CODE}\n",
            *both, "--admin", pin=f"{ADMIN_PIN}\n{USER_PIN}\n")
    for name, pin in (("no second line", USER_PIN), ("an empty one", f"{USER_PIN}\n\n")):
        refused(f"both PINs: {name}", "alarms: - has no second line, which is to be the admin PIN\n", *both, "--both", pin=pin)
    refused("both PINs: the second is none", "6 to 16 digits; this one was not sent", *both, "--both", pin=f"{USER_PIN}\n12\n")
    tries("63C5", "the second line is no admin PIN unless --both says so", "00200000")
    refused("both PINs, and neither opens it", f"and both PINs were shown: it asks for another right, which no PIN gives{OR_A_CODE}\n",
            *never, "--both", pin=two_lines)
    terminal = Terminal("tools/alarms", *both)
    terminal.wait_for(r"^user PIN of the card in 'Virtual PCD 00 00' \(3 tries left\): $")
    terminal.type(USER_PIN)
    terminal.wait_for(r"^alarms: the user PIN is right, and the file asks for more \(6982\); where that is the admin PIN, type it too, else Ctrl-C" + OR_A_CODE + "$")
    terminal.wait_for(r"^admin PIN of the card in 'Virtual PCD 00 00' \(5 tries left\): $")
    terminal.type(ADMIN_PIN)
    status = terminal.end()
    check("both PINs are asked for at a terminal", (status, terminal.text.endswith("): \n" + rows)) == (0, True), terminal.text)
    check("and not shown there", USER_PIN not in terminal.text and ADMIN_PIN not in terminal.text, terminal.text)


def pin_files():
    """Where PINs come from, on the card of the box."""
    with box_card(0), tempfile.TemporaryDirectory(prefix="limpet-pins-") as folder:
        path = os.path.join(folder, "my pin")
        with open(path, "w", encoding="ascii") as file:
            file.write("123456\n")
        for mode, warned in ((0o600, False), (0o640, True), (0o604, True)):
            os.chmod(path, mode)
            warning = f"alarms: warning: '{path}' is open to others (mode {mode:03o}), and has the PIN as it is; say: chmod 600 '{path}'\n"
            got = alarms("--pin-from", path)
            check(f"a PIN file of mode {mode:o}", got == (0, BOX, warning if warned else ""), got)
        with open(path, "rb") as file:
            ended = subprocess.run(["tools/alarms", "--pin-from", "-"], stdin=file, capture_output=True, text=True, timeout=SECONDS)
        check("the same at standard input", (ended.returncode, ended.stdout, ended.stderr) == (0, BOX,
              "alarms: warning: the file at standard input is open to others (mode 604), and has the PIN as it is; say: chmod 600 that file\n"), ended)
        refused("a PIN file without end", "6 to 16 digits; this one was not sent", "--pin-from", "/dev/zero")
        ended = subprocess.run(["bash", "-c", "yes 123456 | tools/alarms --pin-from -"], capture_output=True, text=True, timeout=SECONDS)
        check("one whose first line is a PIN", (ended.returncode, ended.stdout, ended.stderr) == (0, BOX, ""), ended)
        for words, says in (("", f"the user PIN is needed (6982); give it with --pin-from{OR_A_CODE}"), ("--pin-from -", "cannot read -: standard input is closed")):
            ended = subprocess.run(["bash", "-c", f"tools/alarms {words} <&-"], capture_output=True, text=True, timeout=SECONDS)
            check(f"standard input is closed: {words}", (ended.returncode, ended.stdout, ended.stderr) == (1, "", f"alarms: {says}\n"), ended)
        ended = subprocess.run(["bash", "-c", "echo 123456 | tools/alarms --pin-from - 2>&-"], capture_output=True, text=True, timeout=SECONDS)
        check("standard error is closed", (ended.returncode, ended.stdout) == (0, BOX), ended)
        terminal = Terminal("tools/alarms", "--pin-from", "-")
        terminal.end()
        check("a PIN that would be shown", terminal.text == "alarms: at a terminal leave out --pin-from: the PIN is asked for then, and not shown\n",
              terminal.text)
        tries("63C3", "none of these was a wrong PIN")


# ---- at a terminal

PROMPT = r"^user PIN of the card in 'Virtual PCD 00 00' \(3 tries left\): $"


def shown(terminal):
    """Whether the terminal shows what is typed."""
    return termios.tcgetattr(terminal.terminal)[3] & termios.ECHO != 0


# Once the shell has seen that the tool waits in the background to set the terminal's modes
FRONT = 'until [ -n "$(jobs -s)" ]; do sleep 0.1; done; fg'
TYPED_AT_ONCE = "python3 tests/pcsc/altered.py '" + json.dumps({"typed_at": 3}) + "'"


def shell():
    terminal = Terminal("env", "TERM=dumb", "PS1=> ", "bash", "--norc", "--noprofile", "-i")
    terminal.wait_for("^> $")
    return terminal


def begun_in_background():
    """While the shell has a line typed to itself, which it does in modes of its own: they are not taken for those of before."""
    terminal = shell()
    terminal.type("tools/alarms &")
    number = terminal.wait_for(r"^\[1\] (\d+)\n")[1]
    wait_until(lambda: is_stopped(number), "a wait for the terminal")
    terminal.wait_for("^> $")
    terminal.type(FRONT)
    terminal.wait_for(PROMPT)
    os.write(terminal.terminal, b"123456\r")  # as the key sends it
    terminal.wait_for(gone(2))
    terminal.wait_for("^> $")
    terminal.type("stty -a; exit")
    terminal.end()
    check("begun in the background: the alarms", BOX in terminal.text and "123456" not in terminal.text, terminal.text)
    check("begun in the background: the modes after it", {"icanon", "icrnl", "echo"} <= set(terminal.text.split()), terminal.text)


def stopped_and_continued(tool):
    """Ctrl-Z and fg, in a shell: what is typed then is not shown either, and not dropped, however soon behind the prompt it comes."""
    terminal = shell()
    terminal.type(tool)
    terminal.wait_for(PROMPT)
    for back in ("fg", f"bg; {FRONT}"):
        os.write(terminal.terminal, b"12\x1a")  # 12, and Ctrl-Z
        terminal.wait_for("Stopped")
        terminal.wait_for("^> $")
        terminal.type(back)
        terminal.wait_for(PROMPT)
        check(f"{tool}, Ctrl-Z and {back}: not shown", not shown(terminal))
    terminal.type("123456")
    terminal.wait_for(gone(2))
    terminal.wait_for("^> $")
    terminal.type("exit")
    terminal.end()
    check(f"{tool}, Ctrl-Z and fg: the alarms", BOX in terminal.text and "123456" not in terminal.text, terminal.text)


def held_and_released():
    """kill -STOP and -CONT, which no program can refuse, and in between somebody lets the terminal show what is typed."""
    terminal = Terminal("tools/alarms")
    terminal.wait_for(PROMPT)
    os.kill(terminal.pid, signal.SIGSTOP)
    os.waitpid(terminal.pid, os.WUNTRACED)
    modes = termios.tcgetattr(terminal.terminal)
    termios.tcsetattr(terminal.terminal, termios.TCSANOW, [*modes[:3], modes[3] | termios.ECHO, *modes[4:]])
    check("kill -STOP: the terminal shows what is typed", shown(terminal))
    os.kill(terminal.pid, signal.SIGCONT)
    terminal.wait_for(PROMPT.removeprefix("^"))  # in the same line
    check("kill -STOP and -CONT: not shown", not shown(terminal))
    terminal.type("123456")
    status = terminal.end()
    check("kill -STOP and -CONT: the alarms", (status, terminal.text.endswith("): \n" + BOX)) == (0, True), terminal.text)


def ended_at_prompt():
    for name, keys in (("Ctrl-C", b"1234567\x03"), ("Ctrl-D", b"\x04"), ("Ctrl-D behind digits", b"1234567\x04")):
        terminal = Terminal("tools/alarms")
        terminal.wait_for(PROMPT)
        check(f"{name}: not shown", not shown(terminal))
        os.write(terminal.terminal, keys)
        status = terminal.end()
        check(f"{name} at the prompt", (status, terminal.text.endswith("): \nalarms: stopped\n")) == (1, True), terminal.text)
    for number in (signal.SIGTERM, signal.SIGHUP, signal.SIGQUIT):
        terminal = Terminal("tools/alarms")
        terminal.wait_for(PROMPT)
        os.kill(terminal.pid, number)
        while terminal.more():
            pass
        check(f"{number.name} at the prompt: the terminal shows again what is typed", shown(terminal))
        check(f"{number.name} ends it", terminal.end() == -number, terminal.text)
    tries("63C3", "nothing was sent")


def typed_in_pieces():
    """At a terminal that hands over each digit as it is typed, as a program that crashed may have left it."""
    terminal = Terminal("bash", "-c", "stty -icanon && tools/alarms")
    terminal.wait_for(PROMPT)
    for digit in "123456\n":
        os.write(terminal.terminal, digit.encode())
        time.sleep(0.1)
    status = terminal.end()
    check("digit by digit: the alarms", (status, terminal.text.endswith("): \n" + BOX)) == (0, True), terminal.text)


def terminals():
    with box_card(0):
        stopped_and_continued("tools/alarms")
        stopped_and_continued(TYPED_AT_ONCE)
        begun_in_background()
        held_and_released()
        ended_at_prompt()
        typed_in_pieces()


# ---- which card

TWO_CARDS = "alarms: 2 readers have a card; say which:\n  --reader 'Virtual PCD 00 00'\n  --reader 'Virtual PCD 00 01'\n"
def which_card():
    """The box's card in one slot, another one in the other; in use or not. None is taken for the other, and none is touched."""
    none = "alarms: no card in the readers 'Virtual PCD 00 00', 'Virtual PCD 00 01'; put it in, the right way round\n"
    got = alarms(pin="123456")
    check("no card", got == (1, "", none), got)
    other = "80E0A101052E04080001", "00E20000080000000901010001"
    with prepared(0, *other, slot=1) as second:
        printed("a card in the second reader alone", table((9, 1, 1, 1), slot=1) + gone(9))
        with box_card(0) as first:

            def refused_untouched(name):
                before = [reader.said().count("\n> ") for reader in (first, second)]
                got = alarms(pin="123456")
                check(f"two cards{name}: neither is taken", got == (1, "", TWO_CARDS), got)
                sent = [reader.said().count("\n> ") for reader in (first, second)]
                check(f"two cards{name}: nothing is sent to them", sent == before, (before, sent))

            refused_untouched("")
            for share in (1, 2):
                with held(0, share):
                    refused_untouched(", the first in use")
                    printed("the second by its name", table((9, 1, 1, 1), slot=1) + gone(9), "--reader", READERS[1])
                    refused("the first by its name", f"alarms: '{READERS[0]}': another program is using the card; end it first\n",
                            "--reader", READERS[0], pin="123456")
            with held(1, 1):
                refused_untouched(", the second in use")
                printed("the first by its name", BOX, "--reader", READERS[0], pin="123456")
    with box_card(0), held(0, 1):
        refused("the only card is in use", f"alarms: '{READERS[0]}': another program is using the card; end it first\n", pin="123456")


def mute():
    """A card that does not answer as cards do is one too. This one's answer to reset is longer than any can be."""
    said = f"alarms: '{READERS[0]}': the card has no power; take it out and put it in again\n"
    with made_up(None, atr=b"\xff" * 40, present=lambda: alarms() == (1, "", said)):
        with prepared(0, "80E0A101052E04080001", slot=1):
            got = alarms()
            check("a mute card and another", got == (1, "", TWO_CARDS), got)
        got = alarms("--reader", READERS[0])
        check("a mute card by its name", got == (1, "", said), got)


# ---- cards that fail while they are read


def failing():
    """What was read before the card failed is printed, and is not said to be all."""
    for name, good, answer, says in (
        ("taken out at record 1", 0, None, "the card stopped answering; was it taken out?"),
        ("taken out at record 3", 2, None, "the card stopped answering; was it taken out?"),
        ("6F00 at record 3", 2, bytes.fromhex("6F00"), "READ RECORD is answered 6F00: the virtual reader could not ask the card or not"
         " keep what it did; its terminal says why"),
        ("9 bytes in record 2", 1, bytes(9) + b"\x90\x00",
         "a record of the file has 9 bytes and an alarm 8: it is not the alarm file"),
        ("no end", 255, None, "the file has a record 255, and an alarm file has at most 254 records"),
    ):
        reads = []

        def card_answers(command):
            if command[1] == 0xA4:
                return b"\x90\x00"
            reads.append(command[2])
            # The first read is only to see whether the PIN is needed.
            if command[2] > good and len(reads) > 1:
                return answer
            return bytes.fromhex(f"{1000 - command[2]:08X}010200039000")

        with made_up(card_answers):
            got = alarms()
        rows = table(*((1000 - number, 1, 2, 3) for number in range(1, good + 1))) + INCOMPLETE
        check(name, got == (1, rows if good else "", f"alarms: {says}\n"), got)


def failing_fetch():
    """A record waits and cannot be fetched: whatever GET RESPONSE is answered, that is no end of the file."""
    for answer, says in (
        ("6A83", "the card answers 6A83 to GET RESPONSE"),
        ("6985", "the card answers 6985 to GET RESPONSE"),
        ("000000010102000361" + "08", "the card answers 6108 to GET RESPONSE"),
        ("9000", "a record of the file has 0 bytes and an alarm 8: it is not the alarm file"),
    ):
        answers = {0xA4: "9000", 0xB2: "6108", 0xC0: answer}
        with made_up(lambda command: bytes.fromhex(answers[command[1]])):
            got = alarms()
        check(f"{answer} to GET RESPONSE", got == (1, "", f"alarms: {says}\n"), got)


def unanswered():
    """An answer without a byte: vpcd waits on for it, and so would whoever asked. It is given up."""
    says = "alarms: the card or its reader takes too long to answer; take the card out, put it in again and start again\n"
    reads = []

    def card_answers(command):
        reads.append(command)
        return bytes.fromhex({0xA4: "9000", 0xB2: "0000000201020003" "9000"}[command[1]]) if len(reads) < 5 else b""

    with made_up(card_answers):
        got = alarms()
    check("an answer without a byte", got == (1, table((2, 1, 2, 3)) + INCOMPLETE, says), got)


def stopped_while_reading():
    """Ctrl-C while the card does not answer yet, or never will: it ends at once, and pcscd resets the card once it has answered."""
    longer = 3 * SECONDS  # than it is waited for here, so that it does not give the card up before
    patient = ["python3", "tests/pcsc/altered.py", json.dumps({"ANSWER_SECONDS": longer, "CARD_SECONDS": longer})]
    for name, reply, comes_back in (("yet", bytes.fromhex("9000"), True), ("any more", b"", False)):
        asked, stopped, forgot = threading.Event(), threading.Event(), threading.Event()

        def card_answers(_):
            forgot.clear()
            asked.set()
            stopped.wait(longer)
            return reply

        with made_up(card_answers, at_reset=lambda _: forgot.set()):
            tool = subprocess.Popen(patient, stdin=subprocess.DEVNULL, stderr=subprocess.PIPE, text=True)
            try:
                asked.wait(SECONDS)
                tool.send_signal(signal.SIGINT)
                said = tool.communicate(timeout=SECONDS)[1]
            finally:
                tool.kill()
                stopped.set()
            check(f"Ctrl-C while the card does not answer {name}", (tool.returncode, said) == (1, "alarms: stopped\n"), said)
            if comes_back:
                check("Ctrl-C, and the card is reset", forgot.wait(SECONDS))


os.chdir(ROOT)
for each in (0, 1):
    box(each)
    kinds_of_file(each)
    directories(each)
    codes(each)
codes_listed()
pin_files()
terminals()
which_card()
mute()
failing()
failing_fetch()
unanswered()
stopped_while_reading()
end()
