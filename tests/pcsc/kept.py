#!/usr/bin/env python3
"""A card that is kept in a file, behind the virtual reader: what was answered is there when the reader starts again, however it
ended. What it does without pcscd is in wire.py.
"""
import os
import signal
import stat
import subprocess
import tempfile

from stack import (ROOT, SECONDS, OpenscTool, Scriptor, Terminal, card, card_present, check, cryptogram, end,
                   wait_until, with_mode)

RIGHT_PIN, WRONG_PIN, QUERY = "0020000106313233343536", "0020000106313131313131", "00200001"
NEW_FILE = "80E0A105052800010000"
NOTE = "00E20018054C3920666C"


def tool(*words, text=""):
    """Status, output and errors of a program of tools/."""
    ended = subprocess.run(words, input=text, capture_output=True, text=True, timeout=SECONDS, cwd=ROOT)
    return ended.returncode, ended.stdout, ended.stderr


def alarms(*numbers):
    """That tools/alarms prints the alarms with these numbers, and no other."""
    status, out, err = tool("tools/alarms", "--pin-from", "-", text="123456\n")
    got = [line.split()[0] for line in out.splitlines() if line.startswith(" ")][1:]  # behind the heading
    check(f"the alarms are {numbers}", (status, got, err) == (0, [str(number) for number in numbers], ""), (status, out, err))


def answered(client, command, expected):
    got = "".join(client.send(command))
    check(f"{command} is {expected}", got == expected, got)


def log_in(client):
    challenge, word = client.send("0084000010")
    check("a challenge", word == "9000", word)
    answered(client, "0082000010" + cryptogram(challenge), "9000")


def append(client, *numbers):
    for number in numbers:
        answered(client, f"00E2000808{number:08X}01020003", "9000")


def killed(path):
    """The reader is killed in the middle of a session: a program is connected, rights are held, a challenge waits."""
    with card("--card", path, "examples/box.script") as reader:
        check("the file is made for its owner alone", stat.S_IMODE(os.stat(path).st_mode) == 0o600)
        alarms(5, 4, 3, 2)
        client = Scriptor()
        log_in(client)
        append(client, 6, 7)
        answered(client, RIGHT_PIN, "9000")
        answered(client, NOTE, "9000")
        answered(client, WRONG_PIN, "63C2")
        check("a challenge waits", client.send("0084000010")[1] == "9000")
        reader.kill()
        wait_until(lambda: not card_present(), "the card's removal")
        client.type("exit")
        Terminal.end(client)


def after_the_kill(path):
    with card("--card", path):
        client = Scriptor()
        answered(client, QUERY, "63C2")
        answered(client, "0082000010" + "00" * 16, "6984")
        answered(client, NEW_FILE, "6982")
        answered(client, RIGHT_PIN, "9000")
        answered(client, "00B2011C00", NOTE[10:] + "9000")
        client.end()
        alarms(7, 6, 5, 4)


def other_ends(path):
    """Other signals, with a card that is asked before and behind each. The script of the first start is not run again."""
    number = 8
    for name in (signal.SIGTERM, signal.SIGINT, signal.SIGHUP, signal.SIGKILL):
        with card("--card", path, "examples/box.script") as reader:
            client = Scriptor()
            log_in(client)
            append(client, number)
            client.type("exit")
            reader.kill(name)
            Terminal.end(client)
        with card("--card", path):
            alarms(*range(number, number - 4, -1))
        number += 1
    check("nothing stands beside the file", os.listdir(os.path.dirname(path)) == ["box.card"], os.listdir(os.path.dirname(path)))


def beside_the_reader(path):
    """tools/card on a card that is in the reader, and after it."""
    with card("--card", path):
        status, out, err = tool("tools/card", "show", path)
        check("tools/card shows it", (status, err) == (0, "") and "  holds  4 records: full" in out, (status, out, err))
        status, out, err = tool("tools/card", "run", path, "-", text="RESET\n")
        check("tools/card does not change it", (status, out) == (1, "") and f"card: {path} is in use" in err, (status, out, err))
        got = OpenscTool().send(QUERY)[1]
        check("the card answers as before", got == "63C3", got)
    random = "00112233445566778899AABBCCDDEEFF"
    status, out, err = tool("tools/card", "run", path, "-", text=f"CMD\t{RIGHT_PIN}\t{random}\nCMD\t00B2010C00\t{random}\n")
    due = "line\toutcome\tdata\tsw\n1\t0\t-\t9000\n2\t0\t0000000B01020003\t9000\n"
    check("afterwards tools/card reads the newest alarm", (status, out, err) == (0, due, ""), (status, out, err))
    with card("--card", path):
        got = OpenscTool().send("00B2010C00")[1]
        check("a right of tools/card is gone in the reader", got == "6982", got)


def killed_while_data_wait(path):
    """A card of mode 1, made by tools/card: its mode is kept, and what waits is not."""
    status, out, err = tool("tools/card", "new", path, *with_mode(1))
    check("tools/card makes a card of mode 1", (status, err) == (0, ""), (status, out, err))
    for turn in ("first", "second"):
        with card("--card", path) as reader:
            client = Scriptor()
            check(f"the {turn} time T=0 is spoken", "\nUsing T=0 protocol\n" in client.text, client.text)
            answered(client, "00C0000000", "6985")
            answered(client, "0084000010", "6110")
            reader.kill()
            wait_until(lambda: not card_present(), "the card's removal")
            client.type("exit")
            Terminal.end(client)


with tempfile.TemporaryDirectory(prefix="limpet-kept-") as folder:
    box = os.path.join(folder, "box.card")
    for test in (killed, after_the_kill, other_ends, beside_the_reader):
        test(box)
    killed_while_data_wait(os.path.join(folder, "board.card"))
end()
