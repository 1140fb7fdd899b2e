"""tools/box as a user starts it, on a card behind a clip, and what has to be true of each run of it, whatever happens."""
import collections
import concurrent.futures
import contextlib
import dataclasses
import json
import os
import re
import signal
import subprocess
import tempfile
import threading
import traceback
from unittest import mock

from cable import RESET, Clip
from stack import KEY as DEVICE_KEY
from stack import READERS, ROOT, SECONDS, Terminal, check, end, wait_until

# No other test has these, and they stand in no word that a tool might print.
USER, ADMIN, NEW, WRONG = "739164", "58203947", "84629175", "260481"
KEY, OTHER_KEY = "7D1F60B3A5924E8801C63FD29B47AE15", "E84C0A9F5D2B7163388ED0C4F7165BA2"


def as_sent(pin):
    return pin.encode().hex().upper()


SECRETS = [*(form for pin in (USER, ADMIN, NEW, WRONG) for form in (pin, as_sent(pin), " ".join(re.findall("..", as_sent(pin))))), KEY, OTHER_KEY]

# ---- cards, as docs/CARD-FILE.md has them


def file_lines(fid, creation, contents, held=0, newest=0, directory="3F00"):
    digits = contents.hex().upper()
    return [f"{fid}\t{creation}\t{held}\t{newest}\t{directory}", *re.findall(".{1,64}", digits)]


def alarm_file(*alarms, rights="4001", fid="A101"):
    """alarms: number, line, kind and minutes of each, oldest first, at most four."""
    records = b"".join(bytes.fromhex(f"{number:08X}{line:02X}{kind:02X}{minutes:04X}") for number, line, kind, minutes in alarms)
    return file_lines(fid, f"2E0408{rights}", records.ljust(32, b"\0"), len(alarms), max(len(alarms) - 1, 0))


def limit_file(values, rights="0040", fid="A102"):
    return file_lines(fid, f"28{len(values):04X}{rights}", bytes(values))


def note_file(*notes, room=64, rights="4040", fid="A103"):
    """notes: bytes of each, oldest first."""
    used = b"".join(bytes([len(note)]) + note for note in notes)
    return file_lines(fid, f"2C{room:04X}{rights}", used.ljust(room, b"\0"), len(used))


ALARMS = (1, 7, 2, 12), (2, 3, 1, 5), (3, 32, 6, 120)
LIMITS = bytes(range(11, 43))  # line 7 has 17 amperes
NOTES = b"L7 belt 12 Nov", b"L12 motor hot, watch"  # 15 and 21 bytes of the 64
FILES = alarm_file(*ALARMS) + limit_file(LIMITS) + note_file(*NOTES)
# As examples/bus.script has it, and notes that ask for codes too
CODED = alarm_file(*ALARMS, rights="4405") + limit_file(LIMITS, "0044") + note_file(*NOTES, rights="4444")


def card_text(mode, files=FILES, user=USER, user_tries=3, user_limit=3, admin_tries=5, key_tries=10, directories=()):
    return "".join(f"{line}\n" for line in (
        f"{DEVICE_KEY}\t128\t128", f"{as_sent(ADMIN)}\t5\t{admin_tries}", f"{as_sent(user)}\t{user_limit}\t{user_tries}", f"{KEY}\t10\t{key_tries}",
        f"0\t0\t0\t-\t-\t{mode}\t-\t3F00", *directories, *files))


def tries_of(text):
    """Of the user PIN, the admin PIN and the transport key."""
    admin, user, key = (line.split("\t")[2] for line in text.splitlines()[1:4])
    return int(user), int(admin), int(key)


def but_tries(text):
    """All that a refused command leaves as it was."""
    lines = text.splitlines()
    return [line.rpartition("\t")[0] for line in lines[:4]] + lines[4:]


# ---- runs


@dataclasses.dataclass
class Run:
    words: tuple
    status: int
    out: str
    err: str
    heard: list
    before: str
    after: str
    taken_out: bool
    leaks: set

    @property
    def commands(self):
        return [passed for passed in self.heard if isinstance(passed, tuple)]

    @property
    def sent(self):
        return [command.hex().upper() for command, _ in self.commands]

    @property
    def said(self):
        return self.out + self.err

    @property
    def json(self):
        """Of the object that was printed each member, and None for what it does not have."""
        got = None
        with contextlib.suppress(ValueError):
            got = json.loads(self.out)
        return collections.defaultdict(lambda: None, got if isinstance(got, dict) else {})

    def members(self, *names):
        return [self.json[name] for name in names]

    @property
    def as_it_was(self):
        return but_tries(self.before) == but_tries(self.after)

    def __str__(self):
        heard = " ".join(f"{one[0].hex()}>{one[1] and one[1].hex()}" if isinstance(one, tuple) else one.hex() for one in self.heard)
        return f"{' '.join(map(str, self.words))}: status {self.status}, out {self.out!r}, err {self.err!r}, heard {heard}"


class Secrets:
    """Files with a secret in the first line, for their owner alone."""

    def __init__(self, folder):
        self.folder, self.names = folder, {}

    def __call__(self, text):
        if text not in self.names:
            self.names[text] = os.path.join(self.folder, f"line{len(self.names)}")
            with open(self.names[text], "w", encoding="utf-8", opener=lambda name, flags: os.open(name, flags, 0o600)) as file:
                file.write(f"{text}\n")
        return self.names[text]


QUESTION = r"\?[^\n]* $"  # at a terminal, and the answer is awaited
OPTIONS = {"pin": "--pin-from", "admin": "--admin-pin-from", "new": "--new-pin-from", "key": "--transport-key", "config": "--config"}
# The commands that change the card: words, without --yes, and the options that each takes
WRITING = {
    "limit": (("limit", "7", "10"), {"pin": USER}),
    "note": (("note", "L3 sensor new"), {"pin": USER}),
    "correct": (("note", "--correct", "1", "L7 belt 9 Nov"), {"pin": USER}),
    "pin": (("pin",), {"pin": USER, "new": NEW}),
    "unblock": (("unblock",), {"admin": ADMIN, "new": NEW}),
}


def words_of(name):
    """The words and options by which that command does what it should."""
    words, options = WRITING.get(name) or ((name,), {"pin": USER})
    return (*words, "--yes") if name in WRITING else words, options


def presented(run):
    """The commands that show a PIN."""
    return [one for one in run.sent if one.startswith("0020") and len(one) > 10]


class Box:
    """tools/box and a card behind a clip."""

    def __init__(self, clip, mode):
        self.clip, self.mode = clip, mode
        self.before = None  # the card's text before the tool does anything, or after somebody else did
        self.secret = Secrets(clip.folder.name)
        self.reader = READERS[clip.slot]

    def put(self, *files, **other):
        """Another card of the same mode."""
        self.clip.put(card_text(self.mode, *files, **other))
        self.before = self.clip.text()

    def words(self, words, options):
        given = [word for name, text in options.items() for word in (OPTIONS[name], self.secret(text))]
        reader = () if "--reader" in words else ("--reader", self.reader)
        return ["tools/box", *words[:1], *reader, *given, *words[1:]]

    @contextlib.contextmanager
    def watched(self, meddle):
        """Hears what passes meanwhile, and looks for secrets in the list of processes at each command: gives the call that tells the tool's
        number, and a set for what is found. meddle: is given a command's number, the command and the tool's number, and returns the answer."""
        clip, tool, leaks = self.clip, [], set()
        is_known = threading.Event()

        def tool_is(process):
            tool.append(process)
            is_known.set()

        def watch(number, command):
            is_known.wait(SECONDS)
            leaks.update(listed_secrets(tool[0]))
            return meddle(number, command, tool[0])

        if stopped.is_set():
            raise RuntimeError("stopped")
        clip.insert()
        clip.heard, clip.meddle = [], watch
        try:
            yield tool_is, leaks
            wait_until(lambda: clip.is_out or not clip.heard or not isinstance(clip.heard[-1], tuple), "the card's reset")
        finally:
            clip.meddle = lambda _, command: clip.ask(command)

    def passes(self, _, command, __):
        return self.clip.ask(command)

    def run(self, name, *words, meddle=None, stdin="", wrapper=(), **options):
        """Without a terminal. The options are contents of files. wrapper: the words of a program that becomes the tool."""
        words, self.before = self.words(words, options), self.clip.text()
        with self.watched(meddle or self.passes) as (tool_is, leaks):
            tool = subprocess.Popen([*wrapper, *words], stdin=subprocess.PIPE, stdout=subprocess.PIPE, stderr=subprocess.PIPE, cwd=ROOT,
                                    start_new_session=True)
            tool_is(tool.pid)
            try:
                out, err = tool.communicate(stdin.encode(), SECONDS)
            finally:
                tool.kill()
                tool.wait()
        return self.seen(name, words, tool.returncode, out.decode(), err.decode(), leaks)

    def type(self, name, *words, dialogue=(), meddle=None, **options):
        """At a terminal. dialogue: what is waited for, and what is typed then: a line, keys as bytes, or a call with the terminal."""
        words, self.before = self.words(words, options), self.clip.text()
        with self.watched(meddle or self.passes) as (tool_is, leaks):
            terminal = Terminal(*words)
            tool_is(terminal.pid)
            try:
                for pattern, reply in dialogue:
                    terminal.wait_for(pattern)
                    if callable(reply):
                        reply(terminal)
                    elif isinstance(reply, bytes):
                        os.write(terminal.terminal, reply)
                    else:
                        terminal.type(reply)
                status = terminal.end()
            except (RuntimeError, TimeoutError) as error:
                check(f"mode {self.mode}, {name}: what is waited for", False, error)
                os.kill(terminal.pid, signal.SIGKILL)
                status = terminal.end()
        return self.seen(name, words, status, terminal.text, "", leaks, at_terminal=True)

    def seen(self, name, words, status, out, err, leaks, at_terminal=False):
        clip = self.clip
        run = Run(tuple(words), status, out, err, clip.heard, self.before, clip.text(), clip.is_out, leaks)
        broken = list(broken_rules(run, at_terminal))
        check(f"mode {self.mode}, {name}: what is always so", not broken, f"{broken} {run}")
        return run

    def is_good(self, name, run, good):
        return check(f"mode {self.mode}, {name}", good, run)

    def refused(self, name, status, says, *words, sent=None, **options):
        """That status, or one of these, those words, and the card as it was. sent: the commands that are sent at most, by their second byte."""
        run = self.run(name, *words, **options)
        due = status if isinstance(status, tuple) else (status,)
        good = run.status in due and run.as_it_was and run.err.startswith("box: ") and re.search(says, run.err)
        self.is_good(name, run, good and (sent is None or {command[2:4] for command in run.sent} <= set(sent)))
        return run


def listed_secrets(process):
    """Those in the words or the environment of the process or of one that it has started."""
    found = set()
    with contextlib.suppress(OSError):
        for name in ("cmdline", "environ"):
            with open(f"/proc/{process}/{name}", "rb") as file:
                text = file.read().decode(errors="replace").upper()
            found |= {secret for secret in SECRETS if secret in text}
        with open(f"/proc/{process}/task/{process}/children", encoding="ascii") as file:
            children = file.read().split()
        for child in children:
            found |= listed_secrets(child)
    return found


# ---- what is always so

SELECT, READ_BINARY, READ_RECORD, VERIFY, GET_CHALLENGE, GET_RESPONSE = 0xA4, 0xB0, 0xB2, 0x20, 0x84, 0xC0
UPDATE_BINARY, UPDATE_RECORD, APPEND_RECORD, CHANGE_PIN, RELOAD_PIN = 0xD6, 0xDC, 0xE2, 0x24, 0x2C
ON_FILES = READ_BINARY, READ_RECORD, UPDATE_BINARY, UPDATE_RECORD, APPEND_RECORD
WRITES = UPDATE_BINARY, UPDATE_RECORD, APPEND_RECORD, CHANGE_PIN, RELOAD_PIN
PLAIN, CODED_ONE = 0x00, 0x04
ALLOWED = {(PLAIN, one) for one in (SELECT, VERIFY, GET_CHALLENGE, GET_RESPONSE, *ON_FILES, *WRITES)} | {(CODED_ONE, one) for one in ON_FILES}
READ_BEFORE = {UPDATE_BINARY: READ_BINARY, UPDATE_RECORD: READ_RECORD, APPEND_RECORD: READ_RECORD, CHANGE_PIN: VERIFY, RELOAD_PIN: VERIFY}
ROOT_FIRST = bytes.fromhex("00A40000023F00")
SUCCESS = r"read back|\bnow\b|as they were|confirmed|\bdone\b|\badded\b|\bwritten\b|changed\b"


def broken_rules(run, at_terminal):
    for secret in SECRETS:
        if secret in run.said.upper() or secret in run.leaks:
            yield f"{secret} is shown"
    if run.status not in (0, 1, 2, 3) and run.status >= 0:
        yield "no status of the tool"
    if run.status == 2 and (run.commands or run.out and "--json" not in run.words and not at_terminal):
        yield "bad usage, and the card is touched or something is printed"
    if run.status in (1, 2) and not run.as_it_was:
        yield "the status says that nothing was changed, and the card is not as it was"
    if "Traceback" in run.said:
        yield "it broke off"
    if not at_terminal:
        yield from broken_in_pipe(run)
    yield from broken_on_bus(run)


def broken_in_pipe(run):
    if "\x1b" in run.said:
        yield "colour in a pipe"
    if "--json" in run.words and "--help" not in run.words:
        got = run.json
        if not {"command", "status", "error", "sw", "reader"} <= set(got):
            yield "not one object of JSON with what each has"
        elif got["status"] != run.status or (got["error"] is None) != (run.status == 0):
            yield "the object says another status"
        elif run.status != 0 and got.get("confirmed"):
            yield "the object says that it is confirmed"
    elif run.status != 0 and re.search(SUCCESS, run.out):
        yield "success is reported"


def broken_on_bus(run):
    in_root, over, written, presented, done = False, None, False, set(), set()
    for command, reply in run.commands:
        code, instruction = command[0], command[1]
        word = int.from_bytes((reply or b"")[-2:], "big")
        if over and instruction != GET_RESPONSE:  # which fetches what belongs to the answer
            yield f"sent after {over}: {command.hex()}"
        if (code, instruction) not in ALLOWED:
            yield f"not a command of this tool: {command.hex()}"
        in_root = in_root or command == ROOT_FIRST
        if instruction in ON_FILES and not in_root:
            yield f"the root was not selected before: {command.hex()}"
        if instruction == VERIFY and len(command) > 4:
            if command in presented:
                yield "a PIN is presented twice"
            presented.add(command)
            over = over or (word != 0x9000 and "a PIN that was not taken")
        if code == CODED_ONE and word == 0x6988:
            over = over or "a wrong code"
        if instruction in WRITES:
            if READ_BEFORE[instruction] not in done:
                yield f"written, and not read before: {command.hex()}"
            if written:
                yield f"a second write: {command.hex()}"
            written = word != 0x6982  # it may be asked for without a PIN first, to see whether one is needed
        if instruction == UPDATE_BINARY and command[4] != (5 if code == CODED_ONE else 1):
            yield f"more than a byte is written: {command.hex()}"
        done.add(instruction)
        yield from broken_by_pin(command)
    after = run.heard[max((place for place, one in enumerate(run.heard) if isinstance(one, tuple)), default=-1) + 1:]
    if run.commands and not run.taken_out and RESET not in after[:1]:
        yield "no reset at the end"


def broken_by_pin(command):
    """A PIN in the place of another, and a key on the bus."""
    place, user = command[1:4].hex().upper(), ("200001", "240101", "2C0201")
    for pin, places in ((USER, user), (ADMIN, ("200000",)), (NEW, user), (WRONG, ("200000", "200001"))):
        if pin.encode() in command and place not in places:
            yield f"a PIN in a wrong place: {command.hex()}"
    if any(bytes.fromhex(key) in command for key in (KEY, OTHER_KEY)):
        yield "a key is sent"


# ---- both modes side by side


stopped = threading.Event()  # by a signal: no more is begun


def side(box, tests):
    """What breaks one of the tests off breaks no other off."""
    for test in tests:
        try:
            test(box)
        except Exception:
            check(f"mode {box.mode}: {test} goes to its end", stopped.is_set(), traceback.format_exc())


@contextlib.contextmanager
def compiled_once():
    """Only for speed, since the tool is started a thousand times: by Debian's python3 where it is there, which keeps what it compiles for the
    while."""
    path = f"/usr/bin:{os.environ['PATH']}"
    with tempfile.TemporaryDirectory(prefix="limpet-compiled-") as folder, mock.patch.dict(os.environ, PYTHONPYCACHEPREFIX=folder, PATH=path):
        os.environ.pop("PYTHONDONTWRITEBYTECODE", None)
        yield


def on_both_modes(tests, of_modes, of_both=lambda *_: None):
    """tests: those of each mode. of_modes: more for mode 0, and more for mode 1. of_both: one with both cards, at the end. Mode 0 is in vpcd's
    first slot, and mode 1 in the second."""
    os.chdir(ROOT)
    boxes = [Box(Clip(mode, card_text(mode)), mode) for mode in (0, 1)]
    try:
        with compiled_once():
            with concurrent.futures.ThreadPoolExecutor(len(boxes)) as pool, contextlib.ExitStack() as at_signal:
                at_signal.callback(stopped.set)
                for ended in [pool.submit(side, box, tests + of_modes[box.mode]) for box in boxes]:
                    ended.result()
                at_signal.pop_all()
            of_both(*boxes)
    finally:
        for box in boxes:
            box.clip.end()
    end()
