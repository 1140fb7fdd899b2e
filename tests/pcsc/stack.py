"""What the tests of the reader share: the reader as a process, the two clients, programs at a terminal, and counting.

pcscd with vpcd's driver has to be running (tests/reader starts it) for all but the reader itself.
"""
import contextlib
import ctypes
import os
import pty
import re
import select
import signal
import subprocess
import sys
import tempfile
import threading
import time

ROOT = os.path.dirname(os.path.dirname(os.path.dirname(os.path.abspath(__file__))))
X86 = os.path.join(ROOT, "tools", "x86", "run")  # runs the reader's program on this machine
READER = os.path.join(ROOT, "target", "reader", "limpet-reader")
UNSERVED = os.path.join(ROOT, "target", "reader", "unserved")  # the same over unserved.c
PORT = 35963  # vpcd's, for the first of its slots
READERS = ["Virtual PCD 00 00", "Virtual PCD 00 01"]  # as pcscd names vpcd's two slots
SECONDS = 120  # how long anything may take before it counts as not coming, however slow and busy the machine is
BEFORE_WORD = 3  # seconds for which the reader waits for vpcd before it says this
NOT_TAKEN = ("limpet-reader: vpcd has not taken the card yet: is another card in this reader? "
             "End its reader/run, or give this one another port with --port\n")

KEY, ADMIN_PIN, USER_PIN, TRANSPORT_KEY = "000102030405060708090A0B0C0D0E0F", "87654321", "123456", "101112131415161718191A1B1C1D1E1F"
ISSUE_WORDS = [KEY, "128", ADMIN_PIN, "5", USER_PIN, "3", TRANSPORT_KEY, "10"]  # without a mode, which is mode 0

passed = failed = 0
counting = threading.Lock()

# So that what was started is ended where a test is stopped from outside.
signal.signal(signal.SIGTERM, lambda *_: sys.exit(1))
# What a script starts in the background ignores SIGINT and SIGQUIT, and so would a program that is started here.
signal.signal(signal.SIGINT, signal.default_int_handler)
signal.signal(signal.SIGQUIT, signal.SIG_DFL)


def check(name, good, seen=""):
    """Counts a test. seen: what there was, to be printed where it is not good."""
    global passed, failed
    with counting:
        if good:
            passed += 1
        else:
            failed += 1
            print(f"FAILED: {name}{': ' if seen else ''}{seen}")
    return good


def end():
    print(f"{passed} passed, {failed} failed")
    sys.exit(failed > 0)


def with_mode(mode):
    """ISSUE_WORDS and a mode."""
    return [*ISSUE_WORDS[:6], str(mode), *ISSUE_WORDS[6:]]


def issue_line(mode=0):
    return "\t".join(["ISSUE", *with_mode(mode)])


def wait_until(true, what):
    limit = time.monotonic() + SECONDS
    while not true():
        if time.monotonic() > limit:
            raise TimeoutError(f"{what} did not happen in {SECONDS} s")
        time.sleep(0.05)


def is_stopped(process):
    """As by Ctrl-Z, or where it asks something of a terminal in the background."""
    with open(f"/proc/{process}/stat", encoding="ascii") as file:
        return file.read().rpartition(")")[2].split()[0] == "T"


def cryptogram(challenge):
    """AES-128 under the device key of the challenge filled with 00 to 16 bytes, by openssl."""
    block = bytes.fromhex(challenge).ljust(16, b"\0")
    command = ["openssl", "enc", "-aes-128-ecb", "-nopad", "-K", KEY]
    return subprocess.run(command, input=block, capture_output=True, check=True).stdout.hex().upper()


def code_of(challenge, message, key=TRANSPORT_KEY):
    """The code of a command under the transport key, by openssl: the first four bytes of the last block of AES-128 in CBC mode, over
    the message padded by 80 and 00, from the challenge filled with 00 on."""
    padded = bytes.fromhex(message + "80")
    command = ["openssl", "enc", "-aes-128-cbc", "-nopad", "-K", key, "-iv", challenge.ljust(32, "0")]
    got = subprocess.run(command, input=padded + bytes(-len(padded) % 16), capture_output=True, check=True).stdout
    return got[-16:][:4].hex().upper()


# ---- the reader


class Reader:
    """The program of reader/ with its standard error in a file."""

    def __init__(self, words, program=READER):
        self.log = tempfile.NamedTemporaryFile(mode="w+", prefix="limpet-reader-")
        self.begun = time.monotonic()
        self.process = subprocess.Popen([X86, program, *words], stderr=self.log, cwd=ROOT)

    def said(self):
        with open(self.log.name, encoding="utf-8") as file:
            return file.read()

    def after_commands(self):
        """With --verbose: what happened to the card first after the last command."""

        def events():
            return re.findall("^- (.*)\n", self.said().rpartition("\n< ")[2], re.MULTILINE)

        wait_until(events, "an end of the card's power")
        return events()[0]

    def kill(self, number=signal.SIGKILL):
        """Ends it by a signal, and waits until it is gone."""
        self.process.send_signal(number)
        self.process.wait(SECONDS)

    def end(self):
        if self.process.poll() is None:
            self.process.terminate()
        self.process.wait(SECONDS)
        self.log.close()


def as_if_at_once(said, begun):
    """What the reader said that was started then and has been spoken to: without what it adds where that was not soon."""
    late = time.monotonic() - begun >= BEFORE_WORD
    return said.replace(NOT_TAKEN, "").replace("in the reader now, on", "in the reader on") if late else said


class ReaderState(ctypes.Structure):
    """As pcsclite.h has it."""

    _fields_ = [("reader", ctypes.c_char_p), ("user_data", ctypes.c_void_p), ("current", ctypes.c_ulong), ("event", ctypes.c_ulong),
                ("atr_length", ctypes.c_ulong), ("atr", ctypes.c_ubyte * 33)]


def seen_by_pcscd(slot):
    library, context, state = ctypes.CDLL("libpcsclite.so.1"), ctypes.c_long(), ReaderState(reader=READERS[slot].encode())
    library.SCardEstablishContext(ctypes.c_ulong(2), None, None, ctypes.byref(context))
    library.SCardGetStatusChange(context, ctypes.c_ulong(0), ctypes.byref(state), ctypes.c_ulong(1))
    library.SCardReleaseContext(context)
    return state.event


def card_present(slot=0):
    return seen_by_pcscd(slot) & 0x20 != 0  # SCARD_STATE_PRESENT


def changes(slot=0):
    """How often pcscd has looked and seen that a card had come to that slot, or was gone from it."""
    return seen_by_pcscd(slot) >> 16


def wait_for_removal(before, slot=0):
    """before: the changes while the card was in. Of a card that it could not reset pcscd says at once that it is not there, but looks
    for it only every 0.4 s, and does not see another one that is put in before."""
    wait_until(lambda: changes(slot) != before and not card_present(slot), "the card's removal")


@contextlib.contextmanager
def card(*words, slot=0):
    """A card in the virtual reader, seen by pcscd, until the block ends. slot: vpcd has two, which programs take for two readers."""
    reader = Reader(["--verbose", "--port", str(PORT + slot), *words])
    before = None
    try:
        wait_until(lambda: card_present(slot) or reader.process.poll() is not None, "a card in the reader")
        if reader.process.poll() is not None:
            raise RuntimeError(reader.said())
        before = changes(slot)
        yield reader
    finally:
        reader.end()
        wait_for_removal(before, slot)


# ---- programs at a terminal, and the two clients


class Terminal:
    """A program at a terminal of its own, so that text holds what a person there sees, typed lines too."""

    def __init__(self, *words):
        self.text = ""
        self.half = b""  # of an end of a line, which may come in two pieces
        self.seen = 0  # text up to here has been waited for
        self.pid, self.terminal = pty.fork()
        if self.pid == 0:
            os.chdir(ROOT)
            os.execvp(words[0], words)

    def more(self):
        """Whether more came before the program ended."""
        if not select.select([self.terminal], [], [], SECONDS)[0]:
            raise TimeoutError(f"nothing more after: {self.text}")
        try:
            got = os.read(self.terminal, 65536)
        except OSError:  # what Linux says where the other end is closed
            got = b""
        piece = self.half + got
        self.half = b"\r" if got and piece.endswith(b"\r") else b""
        self.text += piece.removesuffix(self.half).decode().replace("\r\n", "\n")
        return got != b""

    def wait_for(self, pattern):
        """The match of the pattern in what came since the last one."""
        while True:
            found = re.compile(pattern, re.MULTILINE).search(self.text, self.seen)
            if found:
                self.seen = found.end()
                return found
            if not self.more():
                raise RuntimeError(f"ended before {pattern}: {self.text}")

    def type(self, line):
        os.write(self.terminal, line.encode() + b"\n")

    def end(self):
        """Reads to the program's end. Returns its exit status."""
        while self.more():
            pass
        os.close(self.terminal)
        return os.waitstatus_to_exitcode(os.waitpid(self.pid, 0)[1])


class Scriptor(Terminal):
    """pcsc-tools' scriptor: one connection, and a line for each command."""

    name = "scriptor"

    def __init__(self):
        super().__init__("scriptor")
        self.wait_for("^Reading commands from STDIN\n")

    def ask(self, line):
        """Its answer up to the remark behind the colon. A long one takes several lines."""
        self.type(line)
        return self.wait_for(r"^< ([^:]*):.*\n")[1]

    def send(self, command):
        digits = "".join(self.ask(command).split())
        return digits[:-4], digits[-4:]

    def reset(self):
        return self.ask("reset") == "OK"

    def end(self):
        self.type("exit")
        return super().end()


class OpenscTool:
    """OpenSC's opensc-tool: a process and a connection for each command."""

    name = "opensc-tool"

    def run(self, *words):
        # Without a driver's name it tries out many kinds of card, each with commands of its own.
        words = ["opensc-tool", "-c", "default", *words]
        return subprocess.run(words, capture_output=True, text=True, timeout=SECONDS)

    def send(self, command):
        out = self.run("-s", command).stdout
        word = re.search(r"^Received \(SW1=0x(..), SW2=0x(..)\):?$", out, re.MULTILINE)
        if word is None:
            return "", out.strip()
        # up to 16 bytes a line, each two digits and a space, and behind them the same as text, a character each
        data = "".join(line[: len(line) // 4 * 3] for line in out[word.end() :].splitlines())
        return "".join(data.split()), word[1] + word[2]

    def reset(self):
        return self.run("--reset").returncode == 0


HOLD = """
import ctypes, sys
library, context, card, protocol = ctypes.CDLL("libpcsclite.so.1"), ctypes.c_long(), ctypes.c_long(), ctypes.c_ulong()
library.SCardEstablishContext(ctypes.c_ulong(2), None, None, ctypes.byref(context))
print(library.SCardConnect(context, sys.argv[1].encode(), ctypes.c_ulong(int(sys.argv[2])), ctypes.c_ulong(3), ctypes.byref(card),
                           ctypes.byref(protocol)), flush=True)
sys.stdin.read()
library.SCardDisconnect(card, ctypes.c_ulong(0))
"""


@contextlib.contextmanager
def held(slot, share):
    """The card there is in use by another program; share: 1 for it alone, 2 for others too."""
    words = [sys.executable, "-c", HOLD, READERS[slot], str(share)]
    with subprocess.Popen(words, stdin=subprocess.PIPE, stdout=subprocess.PIPE, text=True) as holder:
        check("another program is connected", holder.stdout.readline() == "0\n")
        yield
        holder.stdin.close()
