#!/usr/bin/env python3
"""docs/STANDBY.md, ELECTRICIAN.md, OFFICE.md and BY-HAND.md: each transcript is typed at a terminal, in order, and has to come out as
the page has it. So has the session with codes of docs/COMMANDS.md, but for challenges and codes: they are others each time.

A transcript is a block marked console. A line with $ is typed at the shell. Below it a command in hex, reset and exit are typed
to scriptor, each when the one before is answered; the rest is what the terminal shows. What is typed at the prompts of tools/box, one
after the other, stands in a remark before the block, and mode 1 where the card is one of mode 1, or bus where it is that of
examples/bus.script. Blanks at the end of a line do not count.

The card of mode 1 is made as the page says. So is one with C2 for its alarms, and each PIN opens it.

The tables of status words have to be whole: each that a transcript shows is in that of BY-HAND.md, and each that the rules name is on a
page.
"""
import contextlib
import glob
import os
import re
import subprocess
import tempfile

from stack import ROOT, SECONDS, TRANSPORT_KEY, OpenscTool, Scriptor, Terminal, card, card_present, check, code_of, end, wait_until

PAGES = ("STANDBY", "ELECTRICIAN", "OFFICE", "BY-HAND")
BLOCK = re.compile(r"(?:<!-- (mode 1|bus)?(?:, )?(?:typed: ([^\n]+))? -->\n)?```console\n(.*?)```\n", re.DOTALL)
PROMPT = r"\): $"
TYPED = re.compile(r"[0-9A-F]{8,}|reset|exit")


def calls(block):
    """The block cut at its shell lines: each command with the lines below it."""
    for part in re.split(r"^\$ ", block, flags=re.MULTILINE)[1:]:
        command, _, shown = part.partition("\n")
        yield command, [line.rstrip() for line in shown.splitlines()]


def answered(terminal, prompts):
    """What stands first in prompts is typed at each prompt of a program, as long as there is anything and the program asks."""
    with contextlib.suppress(RuntimeError):  # it has ended
        while prompts:
            terminal.wait_for(PROMPT)
            terminal.type(prompts.pop(0))


def seen(command, lines, prompts):
    """What the terminal shows when the command is run and the lines are typed that are to be typed."""
    terminal = Terminal("bash", "-c", command)
    if command == "scriptor":
        terminal.wait_for("^Reading commands from STDIN\n")
        for line in filter(TYPED.fullmatch, lines):
            terminal.type(line)
            if line != "exit":
                terminal.wait_for(r"^< [^:]*:.*\n")
    else:
        answered(terminal, prompts)
    terminal.end()
    return [line.rstrip() for line in terminal.text.splitlines()]


def first_difference(lines, got):
    for number, (line, other) in enumerate(zip(lines + [None], got + [None]), 1):
        if line != other:
            return f"line {number} of it is {other!r} and not {line!r}"
    return ""


def text_of(name):
    with open(os.path.join(ROOT, "docs", f"{name}.md"), encoding="utf-8") as file:
        return file.read()


texts = {name: text_of(name) for name in PAGES}
blocks = {name: BLOCK.findall(text) for name, text in texts.items()}
for each in PAGES:
    check(f"{each} has transcripts", blocks[each])
    check(f"every console block of {each} is read", texts[each].count("```console") == len(blocks[each]), len(blocks[each]))
page = "\n".join(texts.values())
run = {name: "".join(block for _, _, block in found) for name, found in blocks.items()}

# A command in a table that no transcript runs could be wrong without being noticed.
for quoted in sorted(set(re.findall(r"`([0-9A-F]{8,})`", page))):
    typed = re.search(rf"(^|-s ){quoted}( |$)", "\n".join(run.values()), re.MULTILINE)
    check(f"{quoted} is in a transcript", typed is not None)


def shown_in(name):
    """The status words that the transcripts of a page show."""
    by_scriptor = re.findall(r"\b([0-9A-F]{2}) ([0-9A-F]{2}) :", run[name])  # also in the last line of a long answer
    by_opensc = re.findall(r"SW1=0x(..), SW2=0x(..)", run[name])
    return {high + low for high, low in by_scriptor + by_opensc}


def status_words():
    rows = {name: re.findall(r"^\| ([0-9A-F]{4})(?: to ([0-9A-F]{4}))? \|", text, re.MULTILINE) for name, text in texts.items()}
    shown = {name: shown_in(name) for name in PAGES}
    for name in PAGES:
        told = rows["BY-HAND"]
        for word in sorted(shown[name]):
            check(f"{name}: a table has {word}", any(first <= word <= (last or first) for first, last in told), told)
        for first, last in rows[name]:
            check(f"{name}: a transcript shows {first}",
                  any(first <= word <= (last or first) for words in shown.values() for word in words), shown)
    rules = ""
    for path in glob.glob(os.path.join(ROOT, "crates", "rules", "specs", "*.antt")):
        with open(path, encoding="utf-8") as file:
            rules += file.read()
    for word in sorted(set(re.findall(r"\b0x(9000|6[0-9A-F]{3})\b", rules))):
        on_page = "6C08" if word == "6C00" else word  # 6C and the record's length
        check(f"a page speaks of {word}", re.search(rf"\b{on_page}\b", page) is not None)


@contextlib.contextmanager
def changed_box(name, change):
    """The card of a script that the page makes out of the box's under that name. change: what is new in one of its lines."""
    line = re.search(rf"^    (sed .* examples/box\.script) >{name}\.script$", page, re.MULTILINE)[1]
    made = subprocess.run(["bash", "-c", line], cwd=ROOT, capture_output=True, text=True).stdout
    with open(os.path.join(ROOT, "examples", "box.script"), encoding="ascii") as file:
        before = file.read().splitlines(keepends=True)
    new = [line for line, old in zip(made.splitlines(keepends=True), before) if line != old]
    good = made.count("\n") == len(before) and len(new) == 1 and change in new[0]
    check(f"{name}: the page changes one line of the box's script", good, made)
    check(f"{name}: and puts it in the reader", f"\n    reader/run {name}.script\n" in page)
    with tempfile.NamedTemporaryFile("w", prefix=f"limpet-{name}-", suffix=".script") as script:
        script.write(made)
        script.flush()
        with card(script.name) as reader:
            yield reader


def transcripts(mode, box, *names):
    """The transcripts of the pages, all on one card."""
    with box as reader:
        answers = re.findall("^< (.*)$", reader.said().partition("limpet-reader: ")[0], re.MULTILINE)
        first = "6110" if mode == "mode 1" else "00112233445566778899AABBCCDDEEFF9000"  # in mode 1 the challenge waits
        if mode != "bus":
            check(f"the script of the box is served throughout {mode}", answers == [first] + ["9000"] * 11, answers)
        for name in names:
            for number, (of_mode, typed, block) in enumerate(blocks[name], 1):
                if of_mode != mode:
                    continue
                prompts = typed.split()
                for command, lines in calls(block):
                    got = seen(command, lines, prompts)
                    check(f"{name}, transcript {number}, {command}", got == lines, first_difference(lines, got))
                check(f"{name}, transcript {number}: all that is to be typed was asked for", not prompts, prompts)


def coded_session():
    """The session of docs/COMMANDS.md. Where the code of a line is the right one for the page's challenge, by openssl, the one for our
    challenge is typed; where it is wrong it is typed as it stands."""
    text = text_of("COMMANDS")
    block, = re.findall(r"^```session\n(.*?)^```$", text, re.DOTALL | re.MULTILINE)
    (command, lines), = calls(block)
    worked_out = set(re.findall(r"^\$ code '(.*?)' '(.*?)'$", text, re.MULTILINE))
    here = {}  # what there is in place of the page's challenges, with their status word, and coded commands
    wrong, challenges = 0, ("", "")  # the page's and ours
    with card("examples/bus.script"):
        terminal = Terminal(command)
        terminal.wait_for("^Reading commands from STDIN\n")
        for at, line in enumerate(lines):
            if not TYPED.fullmatch(line):
                continue
            if line.startswith("04") and line not in here:
                message = line[: 10 + 2 * (int(line[8:10], 16) - 4)]
                here[line] = line
                if line[len(message) :][:8] == code_of(challenges[0], message):
                    here[line] = message + code_of(challenges[1], message) + line[len(message) + 8 :]
                    spaced = tuple(" ".join(part[place : place + 2] for place in range(0, len(part), 2)) for part in (challenges[0], message))
                    check(f"the page works out the code of {message}", spaced in worked_out, spaced)
                else:
                    wrong += 1
            terminal.type(here.get(line, line))
            if line == "exit":
                break
            answer = "".join(terminal.wait_for(r"^< ([^:]*):.*\n")[1].split())
            if line.startswith("0084"):
                due = "".join(" ".join(lines[at + 2 :]).partition(":")[0].split()[1:])
                check(f"{line}: a challenge of that length", len(answer) == len(due) and answer.endswith("9000"), answer)
                here[due], challenges = answer, (due[:-4], answer[:-4])
        terminal.end()
    check("the session has a wrong code", wrong == 1, wrong)
    got = "".join(terminal.text.split())
    for page_has, ours in here.items():
        got = got.replace(ours, page_has)
    check("COMMANDS, the session", got == "".join("".join(lines).split()), terminal.text)


def alarms_with(pin, *words):
    """What tools/box alarms says, on its output and of what is wrong."""
    words = ["tools/box", "alarms", *words, "-"]
    ended = subprocess.run(words, input=pin, capture_output=True, text=True, timeout=SECONDS, cwd=ROOT)
    return ended.stdout + ended.stderr


def either_pin():
    """The card that the page has the reader make for practising with C2: each PIN opens the alarms, and none does not."""
    check("the page has the call for the office", "\n    tools/box alarms --admin\n" in page)
    table = re.search(r"^card in .*\n    number .*\n(?: .*\n){4}oldest .*\n", page, re.MULTILINE)[0]
    with changed_box("office", "80E0A101052E0408C201"):
        client = OpenscTool()
        got = client.send("00B2010C00")
        check("either PIN: none is shown", got == ("", "6982"), got)
        for who, pin, words in (("the electrician", "123456", ("--pin-from",)), ("the office", "87654321", ("--admin", "--admin-pin-from"))):
            got = alarms_with(pin, *words)
            check(f"either PIN: {who} reads the alarms", got == table, got)
            client.reset()
        got = alarms_with("111111", "--pin-from")
        check("either PIN: a wrong user PIN", "wrong user PIN (63C2)" in got, got)
        got = alarms_with("87654321", "--admin", "--admin-pin-from")
        check("either PIN: and the office reads all the same", got == table, got)


def says(remark, *words, **environment):
    """The program says what the page says that it may say."""
    terminal = Terminal("env", *(f"{name}={value}" for name, value in environment.items()), *words)
    terminal.end()
    check(f"{words[0]} says {remark}", remark in terminal.text and f"`{remark}`" in page, terminal.text)


def scriptor_ends(remark, happens, line="00200001"):
    """scriptor is connected, something happens, and the next line ends it."""
    scriptor = Scriptor()
    happens(scriptor)
    scriptor.type(line)
    Terminal.end(scriptor)
    check(f"scriptor says {remark} at {line!r}", remark in scriptor.text and f"`{remark}`" in page, scriptor.text)


def service():
    """What the page puts behind kill is the number of the pcscd that runs."""
    number = subprocess.run(["bash", "-c", "echo " + re.search(r"`kill (.*?)`", page)[1]], capture_output=True, text=True).stdout
    with open(f"/proc/{number.strip()}/comm", encoding="utf-8") as file:
        check("the page ends pcscd and nothing else", file.read() == "pcscd\n", number)


def programs():
    opensc = ["opensc-tool", "-c", "default", "-s", "00200001"]
    says("No smartcard inserted.", "scriptor")
    says("Card not present", *opensc)
    says("no card in the reader", "tools/box", "alarms")
    nowhere = {"PCSCLITE_CSOCK_NAME": "/nonexistent"}  # where the programs look for pcscd
    says("Service not available.", "scriptor", **nowhere)
    says("No smart card readers found.", *opensc, **nowhere)
    says("pcscd is not running", "tools/box", "alarms", **nowhere)
    with card("examples/box.script") as reader:
        scriptor_ends("Card was reset.", lambda _: OpenscTool().reset())
        for slip in ("00B2010C0", " 00B2010C00", "00B2010C00 ", "00 B2 010C00", "quit"):
            scriptor_ends("ascii_to_array: wrong value", lambda scriptor: scriptor.send("0020000106313233343536"), slip)
        check("a slip does not reset the card", reader.after_commands() == "power off", reader.said())
        scriptor = Scriptor()
        says("another program is using the card", "tools/box", "alarms")
        scriptor.end()

        def removed(_):
            reader.end()
            wait_until(lambda: not card_present(), "the card's removal")

        scriptor_ends("Card was removed.", removed)


status_words()
service()
os.environ["NO_COLOR"] = "1"
with tempfile.TemporaryDirectory(prefix="limpet-home-") as home:  # the pages have a key and a config file there
    with open(os.path.join(home, "box.key"), "w", encoding="ascii", opener=lambda name, flags: os.open(name, flags, 0o600)) as key_file:
        key_file.write(f"{TRANSPORT_KEY}\n")
    os.environ["HOME"] = home
    transcripts("", card("examples/box.script"), "STANDBY", "OFFICE")  # the office opens what the standby phone has blocked
    transcripts("", card("examples/box.script"), "ELECTRICIAN")
    transcripts("", card("examples/box.script"), "BY-HAND")
    transcripts("mode 1", changed_box("board", "\t123456\t3\t1\t"), *PAGES)
    transcripts("bus", card("examples/bus.script"), *PAGES)
coded_session()
either_pin()
programs()
end()
