#!/usr/bin/env python3
"""tools/box with cards in the virtual reader: what stands on the card then, what it says, and what it refuses.

What is expected was worked out from documents 01 and 02 and from what the tool promises. What stands on the card is read in the card's
file, and never by the tool. boxes.py has what is true of each run, and box_faults.py what goes wrong on the way.
"""
import functools
import re
import subprocess
import tempfile

from boxes import (ADMIN, ALARMS, CODED, FILES, KEY, LIMITS, NEW, NOTES, OPTIONS, OTHER_KEY, QUESTION, USER, WRITES, WRITING, WRONG, alarm_file,
                   as_sent, card_text, file_lines, limit_file, note_file, on_both_modes, presented, tries_of, words_of)
from cable import RESET
from stack import READERS, ROOT, SECONDS, check, held

READING = {"B0", "B2", "A4", "20", "84", "C0"}  # the second bytes of what is sent where nothing is to change


def with_limit(line, value):
    values = bytearray(LIMITS)
    values[line - 1] = value
    return limit_file(values)


def instructions(run):
    return {command[2:4] for command in run.sent}


def is_now(box, run, *files, user=USER):
    """The card has these files, and no tries are lost."""
    return run.after == card_text(box.mode, [line for file in files for line in file], user=user)


# ---- each command's good way


def limits(box):
    box.put()
    run = box.run("limits", "limits")
    rows = [re.findall(r"\d+", row) for row in run.out.splitlines()]
    for line, value in enumerate(LIMITS, 1):
        box.is_good(f"limits: line {line} has {value} A", run, any(row[:1] == [str(line)] and row[-1] == str(value) for row in rows))
    box.is_good("limits", run, run.status == 0 and run.err == "" and not any(command[2:4] == "20" for command in run.sent))
    run = box.run("limits as an object", "limits", "--json")
    due = [{"line": line, "name": f"line {line}", "value": value, "unit": "A"} for line, value in enumerate(LIMITS, 1)]
    box.is_good("limits as an object", run, run.status == 0 and run.json["limits"] == due)
    box.is_good("the object's other members", run,
                run.members("command", "status", "error", "sw", "reader") == ["limits", 0, None, None, box.reader])


def limit(box):
    for line, value in ((7, 10), (1, 1), (32, 63)):
        box.put()
        run = box.run(f"limit {line} {value}", "limit", str(line), str(value), "--yes", pin=USER)
        said = f"line {line} is {value} A now, read back; the 31 others are as they were"
        box.is_good(f"limit {line} {value}", run, run.status == 0 and said in run.out and run.err == "")
        box.is_good(f"limit {line} {value}: the old value is shown", run, f"line {line} is {LIMITS[line - 1]} A" in run.said)
        box.is_good(f"limit {line} {value}: that byte has changed, and nothing else", run,
                    is_now(box, run, alarm_file(*ALARMS), with_limit(line, value), note_file(*NOTES)))
        raw = box.clip.ask(bytes.fromhex(f"00B082{line - 1:02X}01"))
        raw = box.clip.ask(bytes.fromhex("00C0000001")) if raw[0] == 0x61 else raw
        box.is_good(f"limit {line} {value}: what the card answers then", run, raw.hex() == f"{value:02x}9000")
    run = box.run("a limit that is so", "limit", "32", "63", "--yes", pin=USER)
    box.is_good("a limit that is so: nothing is written", run,
                run.status == 0 and "63 A" in run.out and instructions(run) <= READING)
    run = box.run("a limit as an object", "limit", "7", "10", "--yes", "--json", pin=USER)
    box.is_good("a limit as an object", run, run.status == 0 and run.members("line", "old", "new", "now", "confirmed") == [7, 17, 10, 10, True])


def notes(box):
    box.put()
    run = box.run("notes", "notes", pin=USER)
    texts = [note.decode() for note in NOTES]
    rows = [row.strip() for row in run.out.splitlines()]
    found = [next((place for place, row in enumerate(rows) if re.match(rf"{number}\b.*{re.escape(text)}$", row)), None)
             for number, text in enumerate(texts, 1)]
    box.is_good("notes: numbered, the oldest first", run, run.status == 0 and None not in found and found == sorted(found))
    box.is_good("notes: 64 - 15 - 21 bytes are left", run, re.search(r"\b28\b", run.out) and "64" in run.out)
    run = box.run("notes as an object", "notes", "--json", pin=USER)
    due = [{"number": number, "text": text} for number, text in enumerate(texts, 1)]
    box.is_good("notes as an object", run, run.members("notes", "room", "left") == [due, 64, 28])
    box.put(alarm_file() + limit_file(LIMITS) + note_file())
    run = box.run("no notes", "notes", pin=USER)
    box.is_good("no notes", run, run.status == 0 and re.search("no notes", run.out) and run.err == "")


def note(box):
    box.put()
    text = "L3 sensor new"
    run = box.run("note", "note", text, "--yes", pin=USER)
    now = alarm_file(*ALARMS), limit_file(LIMITS), note_file(*NOTES, text.encode())
    box.is_good("note", run, run.status == 0 and is_now(box, run, *now) and re.search(r"\b3\b", run.out) and run.err == "")
    run = box.run("a note as an object", "note", "oil", "--yes", "--json", pin=USER)
    box.is_good("a note as an object", run, run.members("number", "text", "confirmed") == [4, "oil", True])


def correct(box):
    for text, stands in (("L7 belt 13 Nov", b"L7 belt 13 Nov"), ("L7 belt 9 Nov", b"L7 belt 9 Nov "), ("x", b"x" + b" " * 13)):
        box.put()
        run = box.run(f"note --correct 1 {text!r}", "note", "--correct", "1", text, "--yes", pin=USER)
        good = run.status == 0 and is_now(box, run, alarm_file(*ALARMS), limit_file(LIMITS), note_file(stands, NOTES[1]))
        box.is_good(f"note --correct 1 {text!r}", run, good)
        box.is_good(f"note --correct 1 {text!r}: it says that it pads", run, ("blank" in run.said) == (len(text) < 14))
    longer = box.refused("a correction that is longer", 1, "14", "note", "--correct", "1", "L7 belt 13 Nov.", "--yes", pin=USER, sent=READING)
    box.is_good("a correction that is longer: how long the two are", longer, "15" in longer.err)
    box.refused("a correction of no note", 1, "no note 3", "note", "--correct", "3", "x", "--yes", pin=USER, sent=READING)


def is_shown_after_reset(run):
    """The new PIN, and once. Before it is set it was not shown, and the reset is none of those at the beginning."""
    passed = [one[0] if isinstance(one, tuple) else one for one in run.heard]
    written = next(place for place, one in enumerate(passed) if len(one) > 1 and one[1] in WRITES)
    shown = [place for place, one in enumerate(passed) if one == bytes.fromhex("0020000108" + as_sent(NEW))]
    return len(shown) == 1 and RESET in passed[written:shown[0]]


def pin(box):
    box.put()
    run = box.run("pin", "pin", "--yes", pin=USER, new=NEW)
    box.is_good("pin", run, run.status == 0 and run.err == "" and run.after == card_text(box.mode, user=NEW))
    box.is_good("pin: the new one is shown once, after a reset", run, is_shown_after_reset(run))
    run = box.run("pin as an object", "pin", "--yes", "--json", pin=NEW, new=USER)
    box.is_good("pin as an object", run, run.status == 0 and run.json["confirmed"] is True and run.after == card_text(box.mode))


def unblock(box):
    for tries in (3, 0):
        box.put(user_tries=tries)
        run = box.run(f"unblock, {tries} tries left", "unblock", "--yes", admin=ADMIN, new=NEW)
        box.is_good(f"unblock, {tries} tries left", run, run.status == 0 and run.err == "" and run.after == card_text(box.mode, user=NEW))
        box.is_good(f"unblock, {tries} tries left: the new one is shown once, after a reset", run, is_shown_after_reset(run))
    run = box.run("unblock as an object", "unblock", "--yes", "--json", admin=ADMIN, new=USER)
    box.is_good("unblock as an object", run, run.status == 0 and run.json["confirmed"] is True and run.after == card_text(box.mode))


def files_there(run):
    return {file["fid"]: file["there"] for file in run.json["files"] or ()}


def status(box):
    box.put(user_tries=2, admin_tries=4)
    run = box.run("status", "status")
    box.is_good("status: no PIN is presented", run, run.status == 0 and run.err == "" and run.before == run.after)
    box.is_good("status: tries, mode and files", run, all(re.search(word, run.out) for word in (
        r"user PIN\D*2\b", r"admin PIN\D*4\b", rf"mode\D*{box.mode}\b", "A101", "A102", "A103")))
    run = box.run("status as an object", "status", "--json")
    box.is_good("status as an object", run, run.members("tries", "mode") == [{"user": 2, "admin": 4}, box.mode])
    box.is_good("status: all files are there", run, files_there(run) == dict.fromkeys(("A101", "A102", "A103"), True))
    run = box.run("status with the PIN", "status", pin=USER)
    box.is_good("status with the PIN: how full notes and alarms are", run, run.status == 0 and tries_of(run.after) == (3, 4, 10) and
                re.search(r"A101.*\b3 alarms.*\b4\b", run.out) and re.search(r"A103.*\b2 notes.*\b64\b.*\b28\b", run.out))
    box.put(user_tries=20, user_limit=20)
    for words in (("status",), ("status", "--json")):
        run = box.run(f"{words}, 20 tries", *words)
        box.is_good(f"{words}, 20 tries: the card says 15 or more", run, re.search(r"\b15\b.*or.more", run.out))
    box.put(limit_file(LIMITS), user_tries=0, admin_tries=0)
    run = box.run("status of a blocked card", "status", "--json")
    box.is_good("status of a blocked card", run, run.json["tries"] == {"user": 0, "admin": 0} and
                files_there(run) == {"A101": False, "A102": True, "A103": False})


def alarms(box):
    box.put()
    run = box.run("alarms", "alarms", pin=USER)
    words = ["tools/alarms", "--reader", box.reader, "--pin-from", box.secret(USER)]
    old = subprocess.run(words, capture_output=True, text=True, timeout=SECONDS, cwd=ROOT, stdin=subprocess.DEVNULL)
    box.is_good("alarms: as tools/alarms has them", run, (run.status, run.out, run.err) == (old.returncode, old.stdout, old.stderr))
    due = [list(alarm) for alarm in reversed(ALARMS)]
    box.is_good("alarms", run, [[int(word) for word in row.split()] for row in run.out.splitlines()[2:5]] == due)
    run = box.run("alarms as an object", "alarms", "--json", pin=USER)
    members = "number", "line", "kind", "minutes"
    box.is_good("alarms as an object", run, run.json["complete"] is True and
                [[alarm[member] for member in members] for alarm in run.json["alarms"] or ()] == due)
    box.put(alarm_file(*ALARMS, rights="C001"))
    run = box.run("alarms with both PINs", "alarms", "--both", pin=USER, admin=ADMIN)
    box.is_good("alarms with both PINs", run, run.status == 0 and run.out == old.stdout)


def coded(box):
    """The same with codes, where each command has one of its own."""
    for name, values, texts in (("limit", LIMITS[:6] + b"\x0a" + LIMITS[7:], NOTES), ("note", LIMITS, (*NOTES, b"L3 sensor new")),
                                ("correct", LIMITS, (b"L7 belt 9 Nov ", NOTES[1]))):
        words = words_of(name)[0]
        box.put(CODED)
        run = box.run(f"{name} with codes", *words, pin=USER, key=KEY)
        due = alarm_file(*ALARMS, rights="4405"), limit_file(values, "0044"), note_file(*texts, rights="4444")
        box.is_good(f"{name} with codes", run, run.status == 0 and is_now(box, run, *due))
        box.put(CODED)
        run = box.refused(f"{name} with a wrong key", 1, r"\(6988\)", *words, pin=USER, key=OTHER_KEY)
        box.is_good(f"{name} with a wrong key: one try is lost", run, tries_of(run.after)[2] == 9)
        box.put(CODED)
        box.refused(f"{name}, and the key is missing", 1, r"\(6982\).*--transport-key", *words, pin=USER)
        box.put(CODED, key_tries=0)
        box.refused(f"{name}, and the key is blocked", 1, r"\(6983\)", *words, pin=USER, key=KEY)
    box.put(CODED)
    for name in ("alarms", "notes", "limits"):
        run = box.run(f"{name} with codes", name, pin=USER, key=KEY)
        box.is_good(f"{name} with codes", run, run.status == 0 and run.before == run.after)


def read_with_rights(box):
    """Limits that are read with the PIN, or with PIN and code; notes for either PIN."""
    for rights, options in ((("4040", {}), ("4444", {"key": KEY})), (("C2C2", {}), ("4444", {"key": KEY})))[box.mode]:
        box.put(limit_file(LIMITS, rights) + note_file(*NOTES, rights=rights))
        for words in (("limits",), ("notes",), ("limit", "7", "10", "--yes"), ("note", "x", "--yes"), ("note", "--correct", "1", "y", "--yes")):
            run = box.run(f"{words} on files with {rights}", *words, pin=USER, **options)
            box.is_good(f"{words} on files with {rights}", run, run.status == 0 and run.as_it_was == (len(words) == 1))
        run = box.refused(f"limits on files with {rights}, and no PIN", 1, r"\(6982\)|--pin-from", "limits", **options)
        box.is_good(f"limits on files with {rights}: nothing is presented", run, not presented(run))


def left_in_directory(box):
    """Another firm's files have the same names, and the card was left there."""
    theirs = [line.replace("\t3F00", "\tD001") for line in alarm_file((9, 9, 1, 9)) + limit_file(bytes([50] * 32)) + note_file(b"theirs")]
    box.put(FILES + theirs, directories=["D001\t00"])
    for words in (("limit", "7", "10", "--yes"), ("note", "ours", "--yes"), ("limits",), ("notes",), ("alarms",), ("status",)):
        box.clip.ask(bytes.fromhex("00A4000002D001"))
        run = box.run(f"{words[0]}, left in a directory", *words, pin=USER)
        stays = run.after.endswith("\n".join(theirs) + "\n")
        box.is_good(f"{words[0]}, left in a directory: ours, and theirs is as it was", run, run.status == 0 and "theirs" not in run.out and stays)


# ---- what is refused before the card sees anything

NO_NUMBERS = ["0A", "0x10", "10h", "+10", "-10", "10.0", "1_0", "１０", " 10", "", "ten", "010", "0", "64", "256", "99999999999999999999"]
NO_LINES = ["0", "33", "0A", "07", "0x7", "-1", "1_0", "７", ""]
NO_PINS = ["12345", "12345678901234567", "12345x", "１２３４５６"]


def before_the_card(box):
    box.put()

    def usage(name, says, *words, **options):
        box.refused(name, 2, says, *words, sent=(), **options)

    for value in NO_NUMBERS:
        usage(f"limit 7 {value!r}", "1 to 63" if value in ("0", "64", "256") else "decimal.* 1 to 63", "limit", "--yes", "--", "7", value, pin=USER)
    for line in NO_LINES:
        usage(f"limit {line!r} 10", "1 to 32" if line in ("0", "33") else "decimal.* 1 to 32", "limit", "--yes", "--", line, "10", pin=USER)
    usage("a note with umlauts", "Foerderer laeuft ueber", "note", "Förderer läuft über", "--yes", pin=USER)
    usage("a note with capital umlauts", "Ae|AE", "note", "Ähre Öl Übergabe", "--yes", pin=USER)
    usage("a note in Greek", "ASCII|letters", "note", "λόγος", "--yes", pin=USER)
    usage("a note that is no text", ".", "note", b"L7 \xff\xfe", "--yes", pin=USER)
    usage("a note of 179 characters", "178", "note", "x" * 179, "--yes", pin=USER)
    usage("a note without quotes", "quote", "note", "L7", "belt")
    usage("an empty note", ".", "note", "", "--yes", pin=USER)
    for text in ("two\nlines", "\x1b[31mred", "gone\x7f"):
        usage(f"a note with {text!r}", ".", "note", text, "--yes", pin=USER)
    for number in ("0", "0A", "256", "1_0", "１", ""):
        usage(f"note --correct {number!r}", "1 to 255", "note", f"--correct={number}", "x", "--yes", pin=USER)
    for new in NO_PINS:
        for words, options in ((("pin",), {"pin": USER}), (("unblock",), {"admin": ADMIN})):
            run = box.run(f"{words[0]}: {new!r} is no PIN", *words, "--yes", new=new, **options)
            box.is_good(f"{words[0]}: {new!r} is no PIN", run, run.status in (1, 2) and not run.sent and (len(new) < 3 or new not in run.said))
    for old in NO_PINS:
        run = box.run(f"limit: {old!r} is no PIN", "limit", "7", "10", "--yes", pin=old)
        box.is_good(f"limit: {old!r} is no PIN", run, run.status in (1, 2) and not presented(run))
    box.refused("a PIN file that is not there", (1, 2), "/nowhere", "limit", "7", "10", "--yes", "--pin-from", "/nowhere", sent=())
    for words in ((), ("limitz",), ("limit",), ("limit", "7"), ("limit", "7", "10", "11"), ("note",), ("note", "a", "b"), ("limits", "7"),
                  ("limit", "7", "10", "--colour")):
        usage(f"bad usage: {words}", ".", *words)
    for words in (("--pin", WRONG), (f"--pin={WRONG}",), (f"--admin-pin={WRONG}",), ("--transport", KEY)):
        usage(f"there is no {words[0]}, and what stands there is not repeated", ".", "limit", "7", "10", "--yes", *words)
    for name, (words, options) in WRITING.items():
        box.refused(f"{name}: no terminal and no --yes", 1, "--yes", *words, sent=(), **options)


def objects_of_errors(box):
    """--json has one object for each error too."""
    box.put()
    for words, options in (
        (("limit", "7", "0A"), {}), (("limit", "7", "64"), {}), (("limit", "33", "10"), {}), (("note", "ü"), {}), (("note", "x" * 179), {}),
        (("limit", "7"), {}), (("limit", "7", "10", "--colour"), {}), (("limits",), {"config": "[limits]\nleast = x"}), (("limitz",), {}),
        (("limit", "7", "10"), {"pin": WRONG}), (("limits", "--reader", "none"), {}), (("notes",), {}), (("limit", "7", "10"), {}),
    ):
        box.put()
        run = box.run(f"an error as an object: {words}", *words, "--json", **options)
        box.is_good(f"an error as an object: {words}", run, run.status in (1, 2))
    box.put()
    run = box.run("a wrong PIN as an object", "limit", "7", "10", "--yes", "--json", pin=WRONG)
    box.is_good("a wrong PIN as an object", run, run.members("sw", "confirmed") == ["63C2", False])


BAD_CONFIGS = [
    *(("limits", "fid", value) for value in ("A1", "A10G", "0xA101", "", "A100", "A11F", "3F00")), ("alarms", "fid", "A1"), ("notes", "fid", "A1"),
    *(("alarms", "records", value) for value in ("1", "255", "0x4", "４")),
    *(("limits", "lines", value) for value in ("0", "4097", "x", "")),
    *(("limits", "least", value) for value in ("-1", "64", "0x1")),
    *(("limits", "greatest", value) for value in ("256", "0", "６３")),
    *(("limits", "offset", value) for value in ("-1", "4096", "0x1")),
    *(("limits", "unit", value) for value in ("", "\x1b[31mA")),
    *(("notes", "room", value) for value in ("1", "4097", "x")),
    *(("lines", key, value) for key, value in (("0", "a"), ("33", "a"), ("x", "a"), ("7", ""), ("7", "\x1b[31mred"))),
    *(("kinds", key, value) for key, value in (("0", "a"), ("7", "a"), ("2", ""))),
    ("limits", "colour", "red"), ("limit", "fid", "A102"), ("DEFAULT", "fid", "A102"),
]


def configs(box):
    box.put()
    for section, key, value in BAD_CONFIGS:
        text = f"[{section}]\n{key} = {value}\n"
        run = box.refused(f"a configuration with [{section}] {key} = {value!r}", 2, re.escape(box.secret(text)), "limits", sent=(), config=text)
        named = section if (section, key) in (("limit", "fid"), ("DEFAULT", "fid")) else key
        box.is_good(f"a configuration with [{section}] {key} = {value!r}: it says which", run, named in run.err and f"{section}" in run.err)
    for name, text in (("no section", "fid = A102\n"), ("no value", "[limits]\nfid\n"), ("a key twice", "[limits]\nfid = A102\nfid = A103\n"),
                       ("a section twice", "[limits]\nfid = A102\n[limits]\nunit = A\n"), ("two files with one name", "[limits]\nfid = A101\n"),
                       ("two files with one short number", "[notes]\nfid = B102\n")):
        box.refused(f"a configuration with {name}", 2, re.escape(box.secret(text)), "limits", sent=(), config=text)
    for name, path in (("that is not there", "/nowhere/box.conf"), ("that is a folder", "/tmp")):
        box.refused(f"a configuration {name}", 2, re.escape(path), "limits", "--config", path, sent=())
    with tempfile.NamedTemporaryFile(prefix="limpet-conf-") as file:
        file.write(b"[lines]\n7 = \xff\xfe\n")
        file.flush()
        box.refused("a configuration that is no text", 2, re.escape(file.name), "limits", "--config", file.name, sent=())
    for words in (("limits",), ("notes",), ("alarms",), ("status",)):
        default = box.run(f"{words[0]} by default", *words, pin=USER)
        run = box.run(f"{words[0]} with examples/box.conf", *words, "--config", "examples/box.conf", pin=USER)
        box.is_good(f"{words[0]} with examples/box.conf", run, (run.status, run.out) == (0, default.out) and run.sent == default.sent)
        run = box.run(f"{words[0]} with an empty configuration", *words, pin=USER, config="")
        box.is_good(f"{words[0]} with an empty configuration", run, (run.status, run.out) == (0, default.out))
    run = box.run("names of lines and kinds", "limits", config="[lines]\n7 = auger 50% west\n")
    box.is_good("a line's name, with a per cent sign", run, run.status == 0 and re.search(r"17 A.*auger 50% west|auger 50% west.*17 A", run.out))
    run = box.run("a kind's name", "alarms", pin=USER, config="[kinds]\n2 = blockage\n[lines]\n7 = auger west\n")
    box.is_good("a kind's name", run, run.status == 0 and "blockage" in run.out)
    text = "[alarms]\nfid = B10B\n[limits]\nfid = C20C\nlines = 16\nunit = cm\nleast = 20\ngreatest = 30\n[notes]\nfid = D30D\nroom = 30\n"
    files = alarm_file(*ALARMS, fid="B10B"), limit_file(LIMITS[:16], fid="C20C"), note_file(b"one", room=30, fid="D30D")
    box.put([line for file in files for line in file])
    run = box.run("another firm's limits", "limit", "16", "30", "--yes", pin=USER, config=text)
    box.is_good("another firm's limits", run, run.status == 0 and "line 16 is 30 cm now, read back; the 15 others are as they were" in run.out)
    for value in ("19", "31"):
        box.refused(f"another firm's limits: {value}", 2, "20.*30", "limit", "16", value, "--yes", pin=USER, config=text, sent=())
    box.refused("another firm's limits: line 17", 2, "16", "limit", "17", "25", "--yes", pin=USER, config=text, sent=())
    for words in (("alarms",), ("notes",)):
        run = box.run(f"another firm's {words[0]}", *words, pin=USER, config=text)
        box.is_good(f"another firm's {words[0]}", run, run.status == 0)


def offset(box):
    """The limits stand behind other bytes."""
    box.put()
    text = "[limits]\noffset = 10\nlines = 22\n"
    run = box.run("an offset: limits", "limits", "--json", config=text)
    box.is_good("an offset: limits", run, [one["value"] for one in run.json["limits"] or ()] == list(LIMITS[10:]))
    run = box.run("an offset: limit", "limit", "7", "40", "--yes", pin=USER, config=text)
    box.is_good("an offset: limit", run, run.status == 0 and "the 21 others are as they were" in run.out and
                is_now(box, run, alarm_file(*ALARMS), with_limit(17, 40), note_file(*NOTES)))


def helps(box):
    for words in ((), ("alarms",), ("limits",), ("limit",), ("notes",), ("note",), ("pin",), ("unblock",), ("status",)):
        run = box.run(f"{words} --help", *words, "--help")
        box.is_good(f"{words} --help", run, run.status == 0 and run.out.startswith("usage: ") and run.err == "" and not run.sent)


# ---- PINs

def pins(box):
    for name, (words, options) in WRITING.items():
        who, option, left = ("admin", "admin", 4) if name == "unblock" else ("user", "pin", 2)
        box.put()
        run = box.refused(f"{name}: a wrong PIN", 1, rf"wrong {who} PIN \(63C{left}\).*{left} tries left", *words, "--yes",
                          **{**options, option: WRONG})
        box.is_good(f"{name}: a wrong PIN costs one try of its own", run,
                    tries_of(run.after) == ((2, 5, 10) if who == "user" else (3, 4, 10)))
        box.put(user_tries=0, admin_tries=0)
        says = r"user PIN is blocked \(6983\).*unblock" if who == "user" else r"admin PIN is blocked \(6983\)"
        run = box.refused(f"{name}: blocked", 1, says, *words, "--yes", **options)
        box.is_good(f"{name}: a blocked PIN is not presented", run, not presented(run))
        box.put(user_tries=1, admin_tries=1)
        run = box.refused(f"{name}: one try left, and --yes", 1, "--last-try", *words, "--yes", **options)
        box.is_good(f"{name}: with one try left nothing is presented", run,
                    not presented(run) and tries_of(run.after)[:2] == (1, 1))
        run = box.run(f"{name}: one try left, and --last-try", *words, "--yes", "--last-try", **options)
        box.is_good(f"{name}: one try left, and --last-try", run, run.status == 0 and not run.as_it_was)
        box.put()
        run = box.refused(f"{name}: no PIN, and no terminal", 1, OPTIONS[option], *words, "--yes",
                          **{one: text for one, text in options.items() if one != option})
        box.is_good(f"{name}: no PIN: nothing is presented", run, not presented(run))
    box.put()
    run = box.refused("unblock: the user PIN's file is not the admin PIN's", (1, 2), ".", "unblock", "--yes", pin=ADMIN, new=NEW)
    box.is_good("unblock: nothing is presented", run, not presented(run))
    run = box.refused("unblock: a second line of the user PIN's file", (1, 2), ".", "unblock", "--yes", pin=f"{USER}\n{ADMIN}", new=NEW)
    box.is_good("unblock: and no second line of it", run, not presented(run))
    box.put(alarm_file(*ALARMS, rights="C001"))
    run = box.refused("alarms: the user PIN in both files", (1, 2), ".", "alarms", "--both", pin=USER, admin=f"{USER}\n")
    box.is_good("alarms: the user PIN in both files costs no try", run, tries_of(run.after) == (3, 5, 10))
    box.put()
    for name, options in (("pin", {"pin": USER, "new": f"{USER}\n"}), ("unblock", {"admin": ADMIN, "new": f"{ADMIN}\n"})):
        run = box.refused(f"{name}: the new PIN is the one that is shown", (1, 2), ".", name, "--yes", **options)
        box.is_good(f"{name}: the new PIN is the one that is shown: nothing is set", run, instructions(run) <= READING)
    run = box.run("the PIN at standard input", "limit", "7", "10", "--yes", "--pin-from", "-", stdin=f"{USER}\n")
    box.is_good("the PIN at standard input", run, run.status == 0)
    box.put()
    run = box.run("the PIN, and CR LF behind it", "limit", "7", "10", "--yes", "--pin-from", "-", stdin=f"{USER}\r\n")
    box.is_good("the PIN, and CR LF behind it: no wrong one is sent", run, tries_of(run.after) == (3, 5, 10))


def one_try_of_reading(box):
    """A reading command asks before the last try too."""
    for name in ("notes", "alarms", "status"):
        box.put(user_tries=1)
        run = box.refused(f"{name}: one try left", 1, "--last-try", name, pin=USER)
        box.is_good(f"{name}: with one try left nothing is presented", run, not presented(run))
        run = box.run(f"{name}: one try left, and --last-try", name, "--last-try", pin=USER)
        box.is_good(f"{name}: one try left, and --last-try", run, run.status == 0)


# ---- files that are not as they should be


def files(box):
    alarm, limit, note = alarm_file(*ALARMS), limit_file(LIMITS), note_file(*NOTES)
    box.put(alarm + note)
    for words in (("limits",), ("limit", "7", "10", "--yes")):
        box.refused(f"{words[0]}: no file", 1, r"A102.*\(6A82\)", *words, pin=USER, sent=READING)
    box.put(alarm + limit)
    for words in (("notes",), ("note", "x", "--yes"), ("note", "--correct", "1", "x", "--yes")):
        box.refused(f"{words}: no file", 1, r"A103.*\(6A82\)", *words, pin=USER, sent=READING)
    for count, words in ((16, ("limits",)), (16, ("limit", "20", "10", "--yes")), (31, ("limit", "7", "10", "--yes"))):
        box.put(alarm + limit_file(LIMITS[:count]) + note)
        box.refused(f"{words}: {count} lines of 32", 1, rf"\b{count}\b.*\b32\b|\b32\b.*\b{count}\b", *words, pin=USER, sent=READING)
    box.put(alarm + file_lines("A102", "2A02080040", bytes(16)) + file_lines("A103", "2800400040", bytes(64)))
    for words in (("limits",), ("limit", "7", "10", "--yes"), ("notes",), ("note", "x", "--yes")):
        box.refused(f"{words}: a file of another kind", 1, r"\(6981\)", *words, pin=USER, sent=READING)
    box.put(alarm_file(rights="8001") + limit_file(LIMITS, "0080") + note_file(*NOTES, rights="8080"))
    for words in (("limit", "7", "10", "--yes"), ("notes",), ("note", "x", "--yes")):
        run = box.run(f"{words}: a file of the admin PIN, and the user PIN is given", *words, pin=USER)
        box.is_good(f"{words}: a file of the admin PIN, and the user PIN is given", run, run.status == 1 and "(6982)" in run.err)
        run = box.run(f"{words}: a file of the admin PIN", *words, admin=ADMIN)
        box.is_good(f"{words}: a file of the admin PIN", run, run.status == 0)
    box.put(alarm + limit_file(LIMITS, "000F") + note_file(*NOTES, rights="400F"))
    for words in (("limit", "7", "10", "--yes"), ("note", "x", "--yes"), ("note", "--correct", "1", "x", "--yes")):
        box.refused(f"{words}: a file that nobody writes", 1, r"\(6982\)", *words, pin=USER)
    odd = bytes([0, 64, 200, 255]) + LIMITS[4:]
    box.put(alarm + limit_file(odd) + note_file(b"\x1b[31mred\n", "Förderer".encode("latin-1"), b"\x00"))
    run = box.run("limits out of range", "limits", "--json")
    box.is_good("limits out of range", run, [one["value"] for one in run.json["limits"] or ()] == list(odd))
    box.run("limits out of range, as a table", "limits")
    run = box.run("a limit out of range is mended", "limit", "3", "10", "--yes", pin=USER)
    box.is_good("a limit out of range is mended", run, run.status == 0 and "the 31 others are as they were" in run.out)
    for words in (("notes",), ("notes", "--json")):
        run = box.run(f"{words}: notes that are no text", *words, pin=USER)
        box.is_good(f"{words}: notes that are no text", run, "red" in run.out and not re.search(r"[\x00-\x09\x0b-\x1f]", run.out))
    rows = len(box.run("notes: a newline makes no row", "notes", pin=USER).out.splitlines())
    box.put(alarm + limit + note_file(b"a", b"b", b"c"))
    run = box.run("notes: three rows", "notes", pin=USER)
    box.is_good("notes: a newline in a note makes no row", run, rows <= len(run.out.splitlines()) + 2)


def room(box):
    """To the byte: a note takes its characters and one more."""
    alarm, limit = alarm_file(*ALARMS), limit_file(LIMITS)
    for notes_there, left in (((), 64), (NOTES, 28), ((b"x" * 61,), 2)):
        box.put(alarm + limit + note_file(*notes_there))
        text = "y" * left
        run = box.run(f"a note of {left}, and {left} bytes are left", "note", text, "--yes", pin=USER)
        box.is_good(f"a note of {left}, and {left} bytes are left", run, run.status in (1, 2) and run.as_it_was and
                    re.search(rf"\b({left}|{left - 1})\b", run.err) and instructions(run) <= READING)
        run = box.run(f"a note of {left - 1}, and {left} bytes are left", "note", text[1:], "--yes", pin=USER)
        box.is_good(f"a note of {left - 1}, and {left} bytes are left", run, run.status == 0 and
                    is_now(box, run, alarm, limit, note_file(*notes_there, text[1:].encode())))
    for full in ((b"x" * 63,), (b"x" * 62,)):  # no byte is left, and one
        box.put(alarm + limit + note_file(*full))
        box.refused(f"full: {64 - 1 - len(full[0])} left", 1, "full|no room|room", "note", "y", "--yes", pin=USER, sent=READING)
        run = box.run("notes of a full file", "notes", "--json", pin=USER)
        box.is_good("notes of a full file", run, run.json["left"] == 63 - len(full[0]))
    config = "[notes]\nroom = 400\n"
    box.put(alarm + limit + note_file(room=400))
    run = box.run("a note of 178", "note", "z" * 178, "--yes", pin=USER, config=config)
    box.is_good("a note of 178", run, run.status == 0 and is_now(box, run, alarm, limit, note_file(b"z" * 178, room=400)))
    box.put(alarm + limit + note_file(room=32))
    box.refused("the file is smaller than the configuration says", 1, r"\(6A84\)", "note", "w" * 40, "--yes", pin=USER)


def many_notes(box):
    """The card has no command that reads a note behind the 255th."""
    alarm, limit, config = alarm_file(*ALARMS), limit_file(LIMITS), "[notes]\nroom = 600\n"
    box.put(alarm + limit + note_file(*[b"n"] * 255, room=600))
    run = box.run("a note behind the 255th", "note", "x", "--yes", pin=USER, config=config)
    box.is_good("a note behind the 255th cannot be read back", run, run.status in (1, 3))
    run = box.run("255 notes", "notes", "--json", pin=USER, config=config)
    box.is_good("255 notes", run, run.status in (0, 1) and len(run.json["notes"] or ()) == 255)
    box.put(alarm + limit + note_file(*[b"n"] * 299, room=600))
    run = box.run("299 notes", "notes", "--json", pin=USER, config=config)
    box.is_good("299 notes: what is left is not known", run, run.json["left"] != 600 - 255 * 2)


# ---- at a terminal

PROMPT = r"^{} PIN of the card in '{}' \({} tr(?:y|ies) left\): $"


def terminals(box):
    user, admin = (PROMPT.format(who, box.reader, tries) for who, tries in (("user", 3), ("admin", 5)))
    again = r"[^\n]*again[^\n]*: $"
    new = r"^new user PIN[^\n]*: $"
    box.put()
    run = box.type("limit", "limit", "7", "10", dialogue=[(r"line 7 is 17 A; new: 10 A", b""), (QUESTION, "y"), (user, USER)])
    box.is_good("limit at a terminal", run, run.status == 0 and not run.as_it_was)
    for reply in ("n", "", "yess", "j", b"\x04", b"\x03"):
        box.put()
        run = box.type(f"limit, and {reply!r}", "limit", "7", "10", dialogue=[(QUESTION, reply)], pin=USER)
        box.is_good(f"limit, and {reply!r} at the question", run, run.status == 1 and run.as_it_was)
        if isinstance(reply, str):
            box.is_good(f"limit, and {reply!r}: nothing was changed", run, "nothing was changed" in run.out)
    for name, dialogue in (("pin", [(user, USER), (new, NEW), (again, NEW)]), ("unblock", [(admin, ADMIN), (new, NEW), (again, NEW)])):
        box.put()
        run = box.type(name, name, "--yes", dialogue=dialogue)
        box.is_good(f"{name} at a terminal", run, run.status == 0 and run.after == card_text(box.mode, user=NEW))
        box.put()
        run = box.type(f"{name}: two new PINs that differ", name, "--yes", dialogue=[*dialogue[:2], (again, WRONG)])
        box.is_good(f"{name}: two new PINs that differ", run, run.status in (1, 2) and run.as_it_was)
    for name, (words, options) in list(WRITING.items())[box.mode::2]:
        box.put(user_tries=1, admin_tries=1)
        run = box.type(f"{name}: one try left, and no", *words, "--yes", dialogue=[(QUESTION, "no")], **options)
        box.is_good(f"{name}: one try left, and no", run, run.status == 1 and not presented(run))
        run = box.type(f"{name}: one try left, and yes", *words, "--yes", dialogue=[(QUESTION, "yes")], **options)
        box.is_good(f"{name}: one try left, and yes", run, run.status == 0)


# ---- dry runs


def writes_of(commands):
    """The first two bytes of those that change the card."""
    return [one[:4] for one in commands if int(one[2:4], 16) in WRITES]


def dry_runs(box, files):
    for name, (words, options) in WRITING.items():
        for given in ({}, options):
            box.put(files)
            run = box.run(f"{name} --dry-run", *words, "--dry-run", key=KEY, **given)
            box.is_good(f"{name} --dry-run, {list(given)}", run, run.status == 0 and run.before == run.after and
                        "dry run: nothing was sent that changes the card" in run.out)
            box.is_good(f"{name} --dry-run: no PIN is presented", run, not presented(run) and not writes_of(run.sent))
            box.is_good(f"{name} --dry-run: the PIN is masked", run, "**" in run.out)
        as_object = box.run(f"{name} --dry-run --json", *words, "--dry-run", "--json", key=KEY, **options)
        box.is_good(f"{name} --dry-run --json", as_object, as_object.status == 0 and not as_object.json["confirmed"])
        if name == "correct":  # the notes are not read, and the card wants the length of the one that is there
            box.is_good(f"{name} --dry-run: how many blanks come behind the text is not known", run, "blank" in run.out)
            continue
        listed = re.findall("^  ([0-9A-F]{4,})", run.out, re.MULTILINE)
        real = box.run(f"{name}, and not dry", *words, "--yes", key=KEY, **options)
        box.is_good(f"{name} --dry-run lists the writes that are sent", real, writes_of(listed) == writes_of(real.sent))


# ---- which card


def several_cards(first, second):
    for box in (first, second):
        box.put()
        box.clip.insert()
    for words, options in (words_of(name) for name in ("alarms", "limits", "notes", "status", *WRITING)):
        first.clip.heard, second.clip.heard = [], []
        given = [word for word in first.words(words, options) if word not in ("--reader", first.reader)]
        ended = subprocess.run(given, capture_output=True, text=True, timeout=SECONDS, cwd=ROOT, stdin=subprocess.DEVNULL,
                               start_new_session=True)
        good = ended.returncode == 1 and ended.stdout == "" and all(f"--reader '{name}'" in ended.stderr for name in READERS)
        check(f"{words[0]}: two cards, and none is taken", good, ended)
        check(f"{words[0]}: two cards, and nothing is sent", not any(isinstance(one, tuple) for box in (first, second) for one in box.clip.heard))
    with held(0, 1):
        first.refused("another program is using the card", 1, "another program is using the card", "limits")
    first.refused("no such reader", 1, "there is no reader of that name", "limits", "--reader", "none")


on_both_modes(
    (limits, limit, notes, note, correct, pin, unblock, status, alarms, coded, read_with_rights, left_in_directory, pins, one_try_of_reading, files,
     room, terminals),
    ((before_the_card, helps, functools.partial(dry_runs, files=FILES)),
     (configs, offset, objects_of_errors, many_notes, functools.partial(dry_runs, files=CODED))),
    several_cards)
