#!/usr/bin/env python3
"""The reader's program without pcscd: its arguments, and its side of vpcd's messages with this test as the virtual reader."""
import contextlib
import errno
import os
import random
import re
import socket
import stat
import subprocess
import tempfile
import threading
import time
from unittest import mock

from cable import GET_ATR, OFF, ON, RESET, Line, connected, started
from mounts import left_out, mounted
from stack import (ADMIN_PIN, BEFORE_WORD, ISSUE_WORDS, KEY, NOT_TAKEN, READER, ROOT, SECONDS, TRANSPORT_KEY, UNSERVED, USER_PIN,
                   X86, as_if_at_once, check, code_of, end, issue_line, wait_until, with_mode)

DISK = os.path.join(ROOT, "target", "reader", "disk")  # the reader over disk.c
QUERY, RIGHT_PIN = bytes.fromhex("00200001"), bytes.fromhex("0020000106313233343536")
GET_RESPONSE = bytes.fromhex("00C0000000")  # all that wait


# ---- arguments


def run(*words):
    ended = subprocess.run([X86, READER, *words], capture_output=True, text=True, cwd=ROOT, timeout=SECONDS)
    return ended.returncode, ended.stdout, ended.stderr


def refused(name, status, says, *words):
    got = run(*words)
    check(name, got[0] == status and says in got[2] and got[1] == "", got)


def refused_script(name, says, text, *words):
    """text: the script. Its name stands for SCRIPT among the words, or alone."""
    with tempfile.NamedTemporaryFile("wb", prefix="limpet-script-") as script:
        script.write(text)
        script.flush()
        refused(name, 1, says, *[script.name if word == "SCRIPT" else word for word in words or ["SCRIPT"]])


def arguments():
    for option in ("--help", "-h"):
        status, out, err = run(option)
        check(option, status == 0 and out.startswith("usage: ") and err == "", (status, err))
        front = subprocess.run([os.path.join(ROOT, "reader", "run"), option], capture_output=True, text=True, timeout=SECONDS)
        check(f"reader/run {option} is the program's", (front.returncode, front.stdout, front.stderr) == (0, out, ""))
    synopsis = out.partition("\n\n")[0] + "\n"
    check("the usage is short", synopsis.count("\n") == 4, synopsis)
    mode, port = "{} is not a mode: --mode takes 0 or 1".format, "{} is not a port: --port takes 1 to 65535".format
    words_are = "{} words are neither a script nor the 8 or 9 values of an issue".format
    value = "option '{}' requires an argument".format
    for why, *words in (
        ("nothing says which card: give a script, the values of an issue, or a card file with --card",),
        (words_are(2), "a", "b"), (words_are(6), *ISSUE_WORDS[:6]), (words_are(7), *with_mode(0)[:7]), (words_are(10), *with_mode(0), "x"),
        (words_are(2), "--card", "x", "a", "b"), (words_are(10), "--card", "x", *with_mode(0), "x"),
        (port("0"), "--port", "0", "x"), (port("65536"), "--port", "65536", "x"), (port("7x"), "--port", "7x", "x"),
        (port("-7"), "--port", "-7", "x"), (mode("2"), "--mode", "2", "x"), (mode("01"), "--mode", "01", "x"),
        (mode(""), "--mode", "", "x"), (value("--port"), "--port"), (value("--card"), "--card"), (value("--mode"), "--mode"),
        ("unrecognized option '--colour'", "--colour", "x"), ("invalid option -- 'x'", "-x"),
    ):
        got = run(*words)
        due = f"limpet-reader: {why}\n{synopsis}reader/run --help explains it\n"
        check(f"bad usage: {' '.join(words)}", got == (2, "", due), got)
    refused("a file that is not there", 1, "cannot read none: No such file", "none")
    refused("a folder", 1, "cannot read tests: Is a directory", "tests")
    bad = "limpet-reader: no card: the {}\n".format

    def bad_value(name, says, place, value):
        refused(name, 1, says, *ISSUE_WORDS[:place], value, *ISSUE_WORDS[place + 1 :])

    bad_value("a PIN of five digits", bad("user PIN is not 6 to 16 digits"), 4, "12345")
    for who, key, limit in (("device key", 0, 1), ("transport key", 6, 7)):
        bad_value(f"a short {who}", bad(f"{who} is not 16 bytes"), key, "00")
        bad_value(f"a {who} in lower case", bad(f"{who} is not upper-case hex"), key, "0a" * 16)
        bad_value(f"a limit of 129 of the {who}", bad(f"{who}'s limit is not 1 to 128"), limit, "129")
    bad_value("a limit of 129", bad("user PIN's limit is not 1 to 128"), 5, "129")
    bad_value("a limit of 0", bad("user PIN's limit is not 1 to 128"), 5, "0")
    bad_value("a limit that is no number", "limpet-reader: no card: a limit is not a number\n", 5, "03")
    for mode in ("2", "65535"):
        refused(f"mode {mode}", 1, bad("mode is not 0 or 1"), *with_mode(mode))
    for mode in ("01", "65536", "x", ""):
        refused(f"mode {mode!r}", 1, "the mode is not a number", *with_mode(mode))
    with socket.socket() as unused:
        unused.bind(("127.0.0.1", 0))  # a port that is taken, and where nobody listens
        port = unused.getsockname()[1]
        refused("no virtual reader", 1, f"no virtual reader on 127.0.0.1 port {port}", "--port", str(port), *ISSUE_WORDS)


def scripts():
    issue = issue_line().encode()
    random = b"00112233445566778899AABBCCDDEEFF"
    refused_script("an empty script", "no ISSUE line", b"")
    refused_script("a script without ISSUE", "line 1: the first line is to be an ISSUE", b"RESET\n")
    refused_script("an ISSUE line without a mode", "line 1: the first line is to be an ISSUE", b"\t".join([b"ISSUE", *map(str.encode, ISSUE_WORDS)]))
    refused_script("an ISSUE line without a transport key", "line 1: the first line is to be an ISSUE", issue.rsplit(b"\t", 2)[0])
    refused_script("an ISSUE line with a short transport key", "line 1: the transport key is not 16 bytes\n", issue.replace(b"1E1F\t", b"1E\t"))
    refused_script("an ISSUE line of mode 2", "line 1: the mode is not 0 or 1\n", issue_line(2).encode())
    refused_script("an ISSUE line of mode 01", "line 1: the mode is not a number", issue_line("01").encode())
    refused_script("a second ISSUE", "line 2: a card has been issued already", issue + b"\n" + issue)
    refused_script("ISSUE in --prepare", "line 1: a card has been issued already", issue, "--prepare", "SCRIPT", *ISSUE_WORDS)
    refused_script("an empty line", "line 2: no ISSUE, CMD or RESET", issue + b"\n\n")
    refused_script("a field too many", "line 2: no ISSUE, CMD or RESET", issue + b"\nRESET\t")
    cr_lf = "it ends in CR LF, and has to end in LF alone\n"
    command = b"CMD\t00200001\t" + random
    for number, text in ((1, issue + b"\r\n" + command + b"\r\n"), (2, issue + b"\nRESET\r\n"),
                         (2, issue + b"\n" + command + b"\r\n"), (2, issue + b"\n\r\n"),
                         (3, issue + b"\n" + command + b"\nRESET\r")):
        refused_script(f"CR LF: {text!r}", f"line {number}: {cr_lf}", text)
    refused_script("CR LF in --prepare", f"line 1: {cr_lf}", command + b"\r\n", "--prepare", "SCRIPT", *ISSUE_WORDS)
    refused_script("CR within a line is a byte like others", "line 2: no ISSUE, CMD or RESET", issue + b"\nRE\rSET\n")
    refused_script("CR behind 1,024 bytes", "line 2: longer than 1,024", issue + b"\n" + b"A" * 1024 + b"\r\n")
    refused_script("lower case", "line 2: command and random", issue + b"\nCMD\t00a4\t" + random)
    refused_script("an odd digit", "line 2: command and random", issue + b"\nCMD\t00A\t" + random)
    refused_script("301 bytes", "line 2: command and random", issue + b"\nCMD\t" + b"00" * 301 + b"\t" + random)
    refused_script("a random of 15 bytes", "line 2: the random input", issue + b"\nCMD\t00200001\t" + random[2:])
    refused_script("1,025 bytes", "line 2: longer than 1,024", issue + b"\n" + b"A" * 1025)
    refused_script("1,024 bytes", "line 2: no ISSUE", issue + b"\n" + b"A" * 1024)


# ---- messages


def messages():
    with connected() as (line, reader):
        atr = line.ask(GET_ATR)
        check("an answer to reset", atr.startswith("3B8A8131"), atr)
        check("a query", line.ask(QUERY) == "63C3")
        for name, code in (("power off", OFF), ("power on", ON), ("reset", RESET)):
            check(f"{name}: the right PIN before it", line.ask(RIGHT_PIN) == "9000")
            line.put(code)
            check(f"{name} drops the right, and has no answer of its own", line.ask(QUERY) == "63C3")
        check("the same answer to reset again", line.ask(GET_ATR) == atr)
        for body in (b"\x03", b"\x05", b"\xff", b"", b"\x00\x00", QUERY + bytes(65531)):
            check(f"a command of {len(body)} bytes is 6700", line.ask(body) == "6700")
        first, second = line.ask(bytes.fromhex("0084000010")), line.ask(bytes.fromhex("0084000010"))
        check("challenges", len(first) == 36 and first[32:] == second[32:] == "9000" and first != second, first + second)
        for byte in len(QUERY).to_bytes(2, "big") + QUERY:
            line.connection.sendall(bytes([byte]))
        check("a message byte by byte", line.get().hex() == "63c3")
        line.connection.sendall(b"\x00\x04" + QUERY + b"\x00\x01\x02" + b"\x00\x04" + QUERY)
        check("three messages at once", (line.get().hex(), line.get().hex()) == ("63c3", "63c3"))
        line.connection.close()
        check("closed between messages: a good end", reader.process.wait(SECONDS) == 0, reader.said())
        check("and it says so", reader.said().endswith("the reader was closed\n"), reader.said())


def taken():
    """vpcd speaks to a card that it has taken. A connection alone may be one that the system keeps while another card is in."""
    is_in = "limpet-reader: the card is in the reader {}on port {}\n".format
    with socket.create_server(("127.0.0.1", 0)) as server:
        server.settimeout(SECONDS)
        port = server.getsockname()[1]
        with started(port) as first, server.accept()[0] as connection:
            time.sleep(1)
            check("connected: nothing is said yet", as_if_at_once(first.said(), first.begun) == "", first.said())
            check("vpcd speaks", Line(connection).ask(GET_ATR).startswith("3B8A"))
            check("and the card is in the reader", as_if_at_once(first.said(), first.begun) == is_in("", port), first.said())
            with started(port) as second:
                wait_until(lambda: second.said().endswith("\n"), "a word of the second card")
                check("a second card is not in the reader", second.said() == NOT_TAKEN, second.said())
                check("and that is not said at once", time.monotonic() - second.begun >= BEFORE_WORD)
                check("the first goes on", Line(connection).ask(QUERY) == "63C3")
                first.end()
                with server.accept()[0] as next_one:
                    time.sleep(BEFORE_WORD + 1)
                    check("that is said once", second.said() == NOT_TAKEN, second.said())
                    check("vpcd speaks to the second", Line(next_one).ask(QUERY) == "63C3")
                    check("and it is in the reader now", second.said() == NOT_TAKEN + is_in("now, ", port), second.said())
    with connected() as (line, reader):
        line.connection.close()
        check("closed before a word: a good end", reader.process.wait(SECONDS) == 0, reader.said())
        said = as_if_at_once(reader.said(), reader.begun)
        check("and no card was in the reader", said == "limpet-reader: the reader was closed\n", reader.said())


def broken():
    for name, begun in (("within the head", b"\x00"), ("within the body", b"\x00\x04\x00\x20")):
        with connected() as (line, reader):
            line.connection.sendall(begun)
            line.connection.close()
            check(f"closed {name}: an error", reader.process.wait(SECONDS) == 1, reader.said())
            check(f"closed {name}: it says so", "ended within a message" in reader.said(), reader.said())


def mode_asked():
    """--mode makes the card of the words. Where something else tells the mode, it has to be the same."""
    def differs(issued, asked):
        return f"limpet-reader: the card was issued with mode {issued}, and --mode asks for {asked}\n"

    refused("--mode 0, and the words say 1", 1, differs(1, 0), "--mode", "0", *with_mode(1))
    refused("--mode 1, and the words say 0", 1, differs(0, 1), "--mode", "1", *with_mode(0))
    refused_script("--mode 1, and the script says 0", differs(0, 1), issue_line(0).encode(), "--mode", "1", "SCRIPT")
    refused_script("--mode 0, and the script says 1", differs(1, 0), issue_line(1).encode(), "--mode", "0", "SCRIPT")
    for mode, answer in ((0, "6D00"), (1, "6985")):  # nothing waits; and in mode 0 the list does not have it
        with tempfile.NamedTemporaryFile("w", prefix="limpet-script-") as script:
            script.write(issue_line(mode))
            script.flush()
            for words in (["--mode", str(mode), *ISSUE_WORDS], with_mode(mode), [script.name],
                          ["--mode", str(mode), *with_mode(mode)], ["--mode", str(mode), script.name]):
                with connected(*words) as (line, _):
                    got = line.ask(GET_RESPONSE)
                    check(f"a card of mode {mode}: {' '.join(words)}", got == answer, got)
    with connected() as (line, _):
        check("a card of mode 0 where nothing tells the mode", line.ask(GET_RESPONSE) == "6D00")


def later():
    """A card of mode 1: T=0 in its answer to reset, and data that are fetched. What comes and goes is not touched on the way."""
    with connected(*with_mode(1)) as (line, reader):
        check("mode 1: the answer to reset", line.ask(GET_ATR) == "3B0A80711656" + b"LIMPET".hex().upper())
        check("mode 1: a query", line.ask(QUERY) == "63C3")
        check("mode 1: a challenge waits", line.ask(bytes.fromhex("0084000010")) == "6110")
        first = line.ask(GET_RESPONSE[:4] + b"\x04")
        check("mode 1: its first four bytes", len(first) == 12 and first.endswith("610C"), first)
        check("mode 1: more than wait", line.ask(GET_RESPONSE[:4] + b"\x0d") == "6C0C")
        rest = line.ask(GET_RESPONSE)
        check("mode 1: the rest", len(rest) == 28 and rest.endswith("9000"), rest)
        check("mode 1: nothing waits any more", line.ask(GET_RESPONSE) == "6985")
        for name, code in (("power off", OFF), ("power on", ON), ("reset", RESET)):
            check(f"mode 1, {name}: a challenge waits", line.ask(bytes.fromhex("0084000004")) == "6104")
            line.put(code)
            check(f"mode 1, {name}: it is gone", line.ask(GET_RESPONSE) == "6985")
        check("mode 1: the same answer to reset again", line.ask(GET_ATR).startswith("3B0A"))


def prepared():
    """A script's files and tries stand; what it was shown is forgotten when the card is put in."""
    with connected("--verbose", os.path.join("examples", "standby.script")) as (line, reader):
        check("prepared: the PIN is not shown", line.ask(bytes.fromhex("00B2010C00")) == "6982")
        check("prepared: the right PIN", line.ask(RIGHT_PIN) == "9000")
        check("prepared: the newest alarm", line.ask(bytes.fromhex("00B2010C00")) == "000000050C0400039000")
        wait_until(lambda: "> 00B2010C00\n< 000000050C0400039000\n" in reader.said(), "a line of --verbose")
        check("--verbose prints the script's commands too", "> 80E0A101052E04084001\n< 9000\n" in reader.said())
    with tempfile.NamedTemporaryFile("w", prefix="limpet-script-") as script:
        script.write("CMD\t0020000106313131313131\t00112233445566778899AABBCCDDEEFF\nRESET")
        script.flush()
        with connected("--prepare", script.name, *ISSUE_WORDS) as (line, reader):
            check("--prepare: a try is gone", line.ask(QUERY) == "63C2")
            check("without --verbose no command is printed", ">" not in reader.said(), reader.said())


def refused_lines():
    """A status word that refuses a line of a script is said, and the card is in the reader all the same."""
    says = "limpet-reader: {}; a refused line does not keep the card from being made\n".format
    example = os.path.join("examples", "standby.script")
    with tempfile.NamedTemporaryFile("w", prefix="limpet-script-") as script:
        script.write(lines_of("00200001", WRONG_PIN.hex().upper()))
        script.flush()
        first, second = f"{example}: line 10 was refused (6982), and 2 more", f"{script.name}: line 2 was refused (63C2)"
        for words, due in (([example], says(first)), (["--prepare", script.name, *ISSUE_WORDS], says(second)),
                           (["--prepare", script.name, example], says(first) + says(second)),
                           ([os.path.join("examples", "box.script")], "")):
            with connected(*words) as (line, reader):
                check(f"refused lines: the card of {' '.join(words)}", line.ask(GET_ATR).startswith("3B8A"))
                before_it, is_in, _ = as_if_at_once(reader.said(), reader.begun).partition("limpet-reader: the card is in the reader ")
                check(f"refused lines of {' '.join(words)}", before_it == due and is_in, reader.said())


def unserved():
    """A card that serves nothing is no end: each command is answered, and the person who started the reader is told."""
    with connected(program=UNSERVED) as (line, reader):
        check("not served: 6F00", line.ask(QUERY) == "6F00")
        line.put(RESET)
        check("not served: 6F00 again", line.ask(QUERY) == "6F00")
        said = "limpet-reader: {} not served, outcome 4: the card's state is not sound\n"
        expected = said.format("command") + said.format("reset") + said.format("command")
        check("and it says so", reader.said().endswith(expected), reader.said())
    environment = {**os.environ, "OTHER_VERSION": "1"}
    ended = subprocess.run([X86, UNSERVED, *ISSUE_WORDS], capture_output=True, text=True, env=environment)
    check("a library of another version", ended.returncode == 1 and "different versions" in ended.stderr, ended)


# ---- a card that is kept in a file

WRONG_PIN = bytes.fromhex("0020000106313131313131")
LOGIN = ["0084000010", "008200001069C4E0D86A7B0430D8CDB78070B4C55A"]  # FIPS 197's appendix C.1, with RANDOM
RANDOM = "00112233445566778899AABBCCDDEEFF"


def lines_of(*commands):
    return "".join(f"CMD\t{command}\t{RANDOM}\n" for command in commands)


def hex_of(pin):
    return pin.encode().hex()


ROOT_FID = "3F00"


def new_card(tries=3, session="0\t0\t0\t-\t-\t0\t-", *rest, codes=10):
    """The text of a card that was issued with ISSUE_WORDS. rest: the current directory, where it is not the root. codes: tries left of the
    transport key."""
    session = "\t".join([session, *(rest or [ROOT_FID])])
    return f"{KEY}\t128\t128\n{hex_of(ADMIN_PIN)}\t5\t5\n{hex_of(USER_PIN)}\t3\t{tries}\n{TRANSPORT_KEY}\t10\t{codes}\n{session}\n"


class Kept:
    """A card's file in a folder of its own."""

    def __init__(self, folder, text=None):
        self.folder = folder
        self.path = os.path.join(folder, "box.card")
        if text is not None:
            self.write(text)

    def write(self, text):
        with open(self.path, "w", encoding="ascii", opener=lambda path, flags: os.open(path, flags, 0o600)) as file:
            file.write(text)

    def read(self):
        """None where it is not there."""
        if not os.path.exists(self.path):
            return None
        with open(self.path, encoding="ascii") as file:
            return file.read()

    def beside(self):
        """What else is in the folder."""
        return [name for name in os.listdir(self.folder) if name != "box.card"]

    def which(self):
        """Another number where it was stored again."""
        return os.stat(self.path).st_ino, os.stat(self.path).st_mtime_ns


@contextlib.contextmanager
def kept_card(text=None):
    with tempfile.TemporaryDirectory(prefix="limpet-kept-") as folder:
        yield Kept(folder, text)


def made_or_loaded():
    with kept_card() as kept:
        none = f"there is no file {kept.path}, and nothing that says which card to make"
        refused("--card without a file", 1, none, "--card", kept.path)
        refused("--card with a bad script", 1, "cannot read none: No such file", "--card", kept.path, "none")
        refused("--card with bad values", 1, "the user PIN's limit is not 1 to 128", "--card", kept.path, *ISSUE_WORDS[:5], "0", *ISSUE_WORDS[6:])
        check("these make no file", os.listdir(kept.folder) == [], os.listdir(kept.folder))
        refused("--card -", 1, "limpet-reader: CARD has to be a file's name: - is for scripts alone\n", "--card", "-", *ISSUE_WORDS)
        refused("--card with a folder", 1, "is a folder, and a card is a file", "--card", kept.folder, *ISSUE_WORDS)
        os.symlink("x", kept.path)
        refused("--card with a symbolic link", 1, "is a symbolic link", "--card", kept.path, *ISSUE_WORDS)
        os.remove(kept.path)
        with connected("--card", kept.path, *ISSUE_WORDS) as (line, reader):
            check("a new card", line.ask(QUERY) == "63C3")
            check("a new card is in its file", kept.read() == new_card() and os.listdir(kept.folder) == ["box.card"])
            check("for its owner alone", stat.S_IMODE(os.stat(kept.path).st_mode) == 0o600)
            check("a wrong PIN", line.ask(WRONG_PIN) == "63C2")
        others = [KEY, "128", ADMIN_PIN, "5", "999999", "9", KEY, "1"]
        with tempfile.NamedTemporaryFile("w", prefix="limpet-script-") as script:
            script.write("no script at all")
            script.flush()
            with connected("--card", kept.path, "--prepare", script.name, *others) as (line, reader):
                check("a file that is there is only loaded", line.ask(QUERY) == "63C2")
                check("and that is said", f"{kept.path} is there, so its card is put in and no other is made\n" in reader.said())
        with connected("--card", kept.path) as (line, reader):
            check("and loaded without any values", line.ask(QUERY) == "63C2")
            check("without a word", reader.said().count("\n") == 1, reader.said())
    with kept_card("no card\n") as kept:
        no_card = "not the lines of a sound card; tools/card check says more"
        refused("--card with a file that is no card", 1, no_card, "--card", kept.path)
        check("which is left as it is", kept.read() == "no card\n")
        os.chmod(kept.path, 0o644)
        got = run("--card", kept.path)
        check("and not warned of", got == (1, "", f"limpet-reader: {kept.path}: these are {no_card}\n"), got)
    with kept_card() as kept, tempfile.NamedTemporaryFile("w", prefix="limpet-script-") as script:
        script.write(lines_of(*LOGIN, "80E0A102052800020000", WRONG_PIN.hex().upper()))
        script.flush()
        with connected("--card", kept.path, "--prepare", script.name, *ISSUE_WORDS) as (line, reader):
            due = new_card(2) + f"A102\t2800020000\t0\t0\t{ROOT_FID}\n0000\n"
            check("a prepared card is stored after its reset", kept.read() == due, kept.read())
    with kept_card(new_card()) as kept:
        os.chmod(kept.path, 0o644)
        with connected("--card", kept.path) as (line, reader):
            line.ask(QUERY)
            check("others can read it: a warning", "is open to others (mode 644)" in reader.said(), reader.said())


def kept_later():
    """A kept card has its mode in the file, and nothing else there tells it."""
    due = new_card(session="0\t0\t0\t-\t-\t1\t-")
    with kept_card() as kept:
        differs = "the card was issued with mode 0, and --mode asks for 1"
        words = ["--card", kept.path, "--mode", "1", "SCRIPT"]
        refused_script("--card and --mode 1, and the script says 0", differs, issue_line(0).encode(), *words)
        check("that makes no file", os.listdir(kept.folder) == [], os.listdir(kept.folder))
        with connected("--card", kept.path, "--mode", "1", *ISSUE_WORDS) as (line, _):
            check("a new card of mode 1", line.ask(GET_RESPONSE) == "6985" and kept.read() == due, kept.read())
        for words in ([], ISSUE_WORDS, ["--mode", "1"]):  # the words are not looked at
            with connected("--card", kept.path, *words) as (line, _):
                check("is one of mode 1 again", line.ask(GET_ATR).startswith("3B0A") and line.ask(GET_RESPONSE) == "6985")
        refused("--card of mode 1 and --mode 0", 1, "issued with mode 1, and --mode asks for 0", "--card", kept.path, "--mode", "0")
        check("which is left as it is", kept.read() == due, kept.read())
        with connected("--card", kept.path) as (line, reader):
            before = kept.which()
            check("data wait", line.ask(bytes.fromhex("0084000010")) == "6110")
            part = line.ask(GET_RESPONSE[:4] + b"\x04")
            check("and are fetched", part.endswith("610C"), part)
            check("which changes nothing that lasts", kept.which() == before and kept.read() == due, kept.read())
            check("a wrong PIN", line.ask(WRONG_PIN) == "63C2")
            check("is in the file", kept.read() == due.replace("3\t3\n", "3\t2\n"), kept.read())
    with kept_card(new_card(session="0\t0\t0\t-\t00112233\t1\t00112233")) as kept:
        with connected("--card", kept.path) as (line, _):
            check("waiting bytes of a file are gone in the reader", line.ask(GET_RESPONSE) == "6985")
            check("and in the file", kept.read() == due, kept.read())
    says = "is a card in the old form, of before there were directories; this converts it: tools/card convert --to-new "
    for name, old, why in (("the modes", "0\t0\t0\t-\t-", "not the lines of a sound card"), ("the directories", "0\t0\t0\t-\t-\t0\t-", says)):
        with kept_card(new_card().replace("0\t0\t0\t-\t-\t0\t-\t3F00", old)) as kept:
            before = kept.read()
            refused(f"--card with a file from before {name}", 1, why, "--card", kept.path)
            check(f"a file from before {name} is left as it is", kept.read() == before, kept.read())


    without_key = new_card().replace(f"{TRANSPORT_KEY}\t10\t10\n", "")
    with kept_card(without_key) as kept:
        refused("--card with a file from before the transport keys", 1, "is a card of before version 11, and has no transport key", "--card", kept.path)
        check("a file from before the transport keys is left as it is", kept.read() == without_key, kept.read())


def kept_codes():
    """A code is a presentation of the transport key: its tries are in the file before the answer, also after a read."""
    with kept_card() as kept, tempfile.NamedTemporaryFile("w", prefix="limpet-script-") as script:
        script.write(lines_of(*LOGIN, "80E0A102052800020404"))
        script.flush()
        read = "04B0820004"

        def due(codes, contents="0000"):
            return new_card(codes=codes) + f"A102\t2800020404\t0\t0\t{ROOT_FID}\n{contents}\n"

        with connected("--card", kept.path, "--prepare", script.name, *ISSUE_WORDS) as (line, _):
            def challenge():
                return line.ask(bytes.fromhex("0084000008"))[:-4]

            def coded(message, le=""):
                return line.ask(bytes.fromhex(message + code_of(challenge(), message) + le))

            check("codes: a new card", kept.read() == due(10), kept.read())
            check("codes: without one", line.ask(bytes.fromhex("00B0820002")) == "6982" and kept.read() == due(10))
            for left in (9, 8):
                challenge()
                wrong = line.ask(bytes.fromhex(read + "00000000" + "02"))
                check(f"codes: a wrong one leaves {left} tries, and they are stored", wrong == "6988" and kept.read() == due(left), kept.read())
            check("codes: no challenge changes nothing", line.ask(bytes.fromhex(read + "00000000" + "02")) == "6984" and kept.read() == due(8))
            got = coded(read, "02")
            check("codes: a right one gives all back, and that is stored", got == "00009000" and kept.read() == due(10), (got, kept.read()))
            before = kept.which()
            got = coded(read, "01")
            check("codes: another right one changes nothing that lasts", got == "009000" and kept.read() == due(10), got)
            check("codes: a challenge is not stored", challenge() != "" and kept.read() == due(10))
            got = coded("04D6820006ABCD")
            check("codes: an update", got == "9000" and kept.read() == due(10, "ABCD") and kept.which() != before, (got, kept.read()))
        with connected("--card", kept.path) as (line, _):
            for _ in range(10):
                line.ask(bytes.fromhex("0084000008"))
                line.ask(bytes.fromhex(read + "00000000" + "02"))
            check("codes: blocked, and stored", kept.read() == due(0, "ABCD"), kept.read())
        with connected("--card", kept.path) as (line, _):
            challenge = line.ask(bytes.fromhex("0084000008"))[:-4]
            got = line.ask(bytes.fromhex(read + code_of(challenge, read) + "02"))
            check("codes: a reset and another reader do not bring it back", got == "6983" and kept.read() == due(0, "ABCD"), got)


def kept_in_a_directory():
    """The current directory is of the session: a reset, and a card that is put in, is in the root. Making one is stored."""
    with kept_card() as kept, tempfile.NamedTemporaryFile("w", prefix="limpet-script-") as script:
        script.write(lines_of(*LOGIN, "80E0D001053800000000", "80E0A101052800010000", "00D6810001AA", "00A4000002D001"))
        script.flush()
        due = new_card() + f"D001\t00\nA101\t2800010000\t0\t0\t{ROOT_FID}\nAA\n"
        ask = [bytes.fromhex(command) for command in ("00B0810001", "00A4000002D001", "80E0E101052800010000", "00D6810001BB")]
        with connected("--card", kept.path, "--prepare", script.name, *ISSUE_WORDS) as (line, _):
            check("a prepared card is in the root", line.ask(ask[0]) == "AA9000" and kept.read() == due, kept.read())
            before = kept.which()
            check("a directory is selected, which changes nothing that lasts", line.ask(ask[1]) == "9000" and kept.which() == before)
            check("the short number is another file's there", line.ask(ask[0]) == "6A82")
            check("a file in it", line.ask(ask[2]) == "9000" and line.ask(ask[3]) == "9000" and line.ask(ask[0]) == "BB9000")
            due += "E101\t2800010000\t0\t0\tD001\nBB\n"
            check("is in the file with its directory, and the root is current there", kept.read() == due, kept.read())
            line.put(RESET)
            check("a reset returns to the root", line.ask(ask[0]) == "AA9000")
            line.ask(ask[1])
            line.put(OFF)
            line.put(ON)
            check("and so does the loss of power", line.ask(ask[0]) == "AA9000")
            line.ask(ask[1])
        with connected("--card", kept.path) as (line, _):
            check("and the end of the reader", line.ask(ask[0]) == "AA9000")
    with kept_card(new_card(3, "0\t0\t0\t-\t-\t0\t-", "D001") + "D001\t0F\n") as kept:
        with connected("--card", kept.path) as (line, _):
            check("a stored current directory is gone", line.ask(bytes.fromhex("80E0D002053800000000")) == "6982")
            check("in the file too", kept.read() == new_card() + "D001\t0F\n", kept.read())


def stored_before_the_answer():
    with kept_card(new_card(session="1\t1\t0\t-\t00112233\t0\t-")) as kept:
        with connected("--card", kept.path) as (line, reader):
            check("a stored session is gone", line.ask(bytes.fromhex("00200000")) == "63C5")
            check("in the file too", kept.read() == new_card())
            check("a wrong PIN", line.ask(WRONG_PIN) == "63C2")
            check("is in the file with its answer", kept.read() == new_card(2))
            check("the right one", line.ask(RIGHT_PIN) == "9000")
            check("is too, without the right", kept.read() == new_card(3))
            for name, command in (("a question", "00200001"), ("the right PIN again", RIGHT_PIN.hex()), ("no command", "05"),
                                  ("a login without a challenge", "0082000010" + "00" * 16), ("another class", "80A4000002A101")):
                before = kept.which()
                line.ask(bytes.fromhex(command))
                check(f"{name} changes nothing, and is stored", kept.which() != before and kept.read() == new_card(), command)
            before = kept.which()
            for name, command in (("a challenge", "0084000010"), ("no such file", "00A4000002A101"), ("no bytes", "00B0820001"),
                                  ("no record", "00B2010C00"), ("nothing that waits", GET_RESPONSE.hex())):
                line.ask(bytes.fromhex(command))
                check(f"{name} only reads, and is not stored", kept.which() == before and kept.read() == new_card(), command)
            for code in (OFF, ON, RESET):
                line.put(code)
            line.ask(GET_ATR)
            check("nor is a reset", kept.which() == before)
            check("nothing stands beside it", kept.beside() == [], kept.beside())
    with kept_card(new_card()) as kept:
        before = kept.which()
        with connected("--card", kept.path) as (line, _):
            line.ask(GET_ATR)
            check("at the start a card is really written", kept.which() != before and kept.read() == new_card())


READ = bytes.fromhex("00B2010C00")
OUT = "limpet-reader: the card is out of the reader: no command is run on a card that cannot be stored\n"


def lost(name, kept, change, why, program=READER, tries=2, last=WRONG_PIN, due=new_card(2)):
    """A PIN is answered and leaves so many tries, then the file cannot be stored any more: the next command is answered 6F00, and
    no other is."""
    kept.write(new_card())
    with connected("--card", kept.path, program=program) as (line, reader):
        before = (WRONG_PIN, "63C2") if tries == 2 else (RIGHT_PIN, "9000")
        check(f"{name}: a PIN before", line.ask(before[0]) == before[1] and kept.read() == new_card(tries))
        undo = change()
        got = [line.ask(last)]
        with contextlib.suppress(RuntimeError, OSError):  # the connection is closed
            for command in (RIGHT_PIN, READ):
                got.append(line.ask(command))
        with contextlib.suppress(subprocess.TimeoutExpired):
            reader.process.wait(SECONDS)
        seen = got, reader.process.returncode, reader.said()
        said = reader.said().endswith(f"limpet-reader: {why}\n{OUT}")
        check(f"{name}: 6F00 to {last.hex()}, and an end", seen[:2] == (["6F00"], 1) and said, seen)
        check(f"{name}: the file after {last.hex()}", kept.read() == due, kept.read())
    if undo is not None:
        undo()


def not_stored():
    """No command is run on a card that cannot be stored: whoever guesses then guesses for nothing."""
    last = WRONG_PIN, RIGHT_PIN, QUERY, READ
    other = new_card(1)
    with kept_card() as kept:
        def replaced():
            os.remove(kept.path)
            kept.write(other)

        gone = f"cannot store {kept.path}: another program has removed or replaced it"
        for command in last:
            lost("a file that is removed", kept, lambda: os.remove(kept.path), gone, last=command, due=None)
        lost("a file that is replaced", kept, replaced, gone, due=other)
        check("nothing stands beside it", kept.beside() == [], kept.beside())
    with mounted() as mount:
        if mount is None:
            left_out("the reader on a full and on a read-only file system")
            return
        kept = Kept(mount.path, new_card())
        mount.fill()
        full = f"cannot store {kept.path}: No space left on device; it is as it was"
        refused("a full disk at the start", 1, f"limpet-reader: {full}\n", "--card", kept.path)
        mount.empty()
        for command in last:
            for tries in (2, 3):
                change = lambda: (mount.fill(), mount.empty)[1]
                lost(f"a full disk, {tries} tries", kept, change, full, tries=tries, last=command, due=new_card(tries))
        check("nothing stands beside it", kept.beside() == [], kept.beside())
        mount.read_only()
        refused("a read-only disk", 1, f"limpet-reader: cannot open {kept.path}: Read-only file system\n", "--card", kept.path)


def disk(**variables):
    """What disk.c does to programs that are started meanwhile."""
    return mock.patch.dict(os.environ, {f"DISK_{name}": str(value) for name, value in variables.items()})


def each_call_fails():
    """Each call of a store fails in turn, at the start and in the middle of a session."""
    with kept_card() as kept, tempfile.NamedTemporaryFile("r", prefix="limpet-log-") as log:
        kept.write(new_card())
        with disk(LOG=log.name), connected("--card", kept.path, program=DISK) as (line, _):
            line.ask(GET_ATR)
            begun = len(log.read().splitlines())
            line.ask(WRONG_PIN)
            calls = log.read().splitlines()
        due = ["openat", "fchmod", "write", "write", "ftruncate", "fsync", "renameat", "fsync of the folder"]
        check("the calls of a store", calls == due, calls)
        for number in range(2, begun + 1):
            kept.write(new_card())
            with disk(FAILS=number):
                words = [X86, DISK, "--port", "1", "--card", kept.path]
                ended = subprocess.run(words, capture_output=True, text=True, timeout=SECONDS)
            # Nothing that was left is found where the folder cannot be listed, and that is all.
            good = ended.returncode == 1 and ("No space left on device" in ended.stderr) == (number != 2) and kept.beside() == []
            check(f"call {number} fails at the start", good and kept.read() == new_card(), ended.stderr)
        for number, call in enumerate(calls, 1):
            with disk(FAILS=begun + len(calls) + number):
                why, due = f"cannot store {kept.path}: No space left on device; it is as it was", new_card(2)
                if call == "fsync of the folder":
                    why = (f"{kept.path} has the new card, but its folder is not on the disk: No space left on device. "
                           "Should the power fail now it may be as before")
                for command, stored in ((WRONG_PIN, new_card(1)), (RIGHT_PIN, new_card(3))):
                    due = stored if call == "fsync of the folder" else new_card(2)
                    lost(f"call {number} fails, {call}", kept, lambda: None, why, DISK, last=command, due=due)
        for number, why in ((errno.EROFS, "Read-only file system"), (errno.EACCES, "Permission denied")):
            with disk(FAILS=begun + len(calls) + 1, ERROR=number):
                lost(why, kept, lambda: None, f"cannot store {kept.path}: {why}; it is as it was", DISK)
        check("nothing stands beside it", kept.beside() == [], kept.beside())


def one_at_a_time():
    with kept_card(new_card(session="1\t0\t0\t-\t-\t0\t-")) as kept:
        with open(os.path.join(kept.folder, ".box.card.7-0123abcd.new"), "w", encoding="ascii") as file:
            file.write("left over")
        with connected("--card", kept.path) as (line, reader):
            line.ask(QUERY)
            check("what a killed reader left is gone", kept.beside() == [], kept.beside())
            refused("a second reader on one card", 1, f"{kept.path} is in use", "--card", kept.path)
            check("the first goes on", line.ask(WRONG_PIN) == "63C2" and kept.read() == new_card(2))
    with kept_card(new_card()) as kept:
        os.link(kept.path, os.path.join(kept.folder, "twin"))
        refused("a card with two names", 1, f"{kept.path} has 2 names (hard links)", "--card", kept.path)


def killed_at_random():
    """Each value that was written and answered is in the file when the reader is killed, and at most the next one."""
    dice = random.Random(3)
    with kept_card() as kept, tempfile.NamedTemporaryFile("w", prefix="limpet-script-") as script:
        script.write(lines_of(*LOGIN, "80E0A102052800040000"))
        script.flush()
        value = 0
        for turn in range(20):
            with connected("--card", kept.path, "--prepare", script.name, *ISSUE_WORDS) as (line, reader):
                line.ask(QUERY)
                kill = threading.Timer(dice.uniform(0, 0.05), reader.process.kill)
                begun, sure = value, value + dice.randrange(4)  # so many are answered, however slow the machine is
                with contextlib.suppress(RuntimeError, OSError):
                    while value != sure or kill.start() is None:
                        if line.ask(bytes.fromhex(f"00D6820004{value + 1:08X}")) != "9000":
                            break
                        value += 1
                reader.process.wait(SECONDS)
            stored = int(kept.read().splitlines()[-1], 16)
            left = all(re.fullmatch(r"\.box\.card\.\d+-[0-9a-f]{8}\.new", name) for name in kept.beside())
            good = sure <= value <= stored <= value + 1 and left and len(kept.beside()) < 2
            check(f"killed after {value - begun} answers", good, (sure, value, stored, kept.beside()))
            value = stored


for test in (arguments, scripts, messages, taken, broken, mode_asked, later, prepared, refused_lines, unserved, made_or_loaded,
             kept_later, kept_codes, kept_in_a_directory, stored_before_the_answer, not_stored, each_call_fails, one_at_a_time, killed_at_random):
    test()
end()
