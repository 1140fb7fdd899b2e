"""The alarms that a script read, out of what was printed for it."""
import collections
import math
import re

from codes import CODE_SIZE
from script_lines import CMD, ISSUE, RESET, word_of

from .commands import (APPEND_RECORD, CODED, CREATE_FILE, GET_RESPONSE, NO_FILE, READ_RECORD, ROOT, SELECT, UPDATE_RECORD, WITH_CODES,
                       short_number)
from .inputs import lines_of
from .table import REFUSED, Reading, record_of
from .words import Failure

HEADER = "line\toutcome\tdata\tsw"
ANSWER = re.compile(r"([1-9][0-9]{0,4})\t([0-9]+)\t(-|(?:[0-9A-F]{2})+)\t(-|[0-9A-F]{4})")
COMMAND = re.compile(r"\s*CMD(?:\t| +)((?: ?[0-9A-F]{2}){4,})", re.IGNORECASE)
NO_DATA = {SELECT: 7, CREATE_FILE: 10}  # of commands that give none: the bytes of one that is answered 9000, and it is never answered 61xx
CYCLIC, OTHER_RECORDS, FOLDER = 0x2E, (0x2A, 0x2C), 0x38  # types of files, and that of a directory
OF_A_FILE = re.compile("9000|61..|6C..|6981|6982|6A83|6A84")  # answers to a read, update or append that come behind NO_FILE

NOT_SERVED = {
    "1": "the reply buffer is too short",
    "2": "the data area has not 4,096 bytes",
    "3": "the random input has not 16 bytes",
    "4": "the card's state is not sound",
}
REFUSED_IN_SCRIPT = {
    **REFUSED,
    "6982": "the PIN that the file asks for was not shown, or it asks for a code and the command has none (6982)",
    "6983": "the transport key is blocked (6983)",
    "6984": "there is no challenge for its code (6984): let the command before it be 0084000010",
    "6988": "its code is wrong (6988)",
    NO_FILE: "there is no such file in the current directory, or none is current (6A82)",
    "6108": "the record waits and is not fetched (6108): let the next command be 00C0000008",
    "6C08": "a record has 8 bytes and another length was asked for (6C08): let the command end in 00",
    "6A86": "there is no record 00, or the fourth byte is wrong (6A86)",
    "6700": "the command is too long or too short (6700)",
}


def answers_of(path, count):
    """Outcome, data and status word for each of a script's lines; for fewer than count where the output was cut off."""
    header, *lines = lines_of(path) or [""]
    if header != HEADER:
        raise Failure("the output is not ./limpet's, which starts with: line, outcome, data, sw")
    answers = []
    for at, line in enumerate(lines, 1):
        answer = ANSWER.fullmatch(line)
        if answer and int(answer[1]) == at:
            answers.append(answer.groups()[1:])
        elif at < len(lines) or at > count:  # else it was cut off within this line
            raise Failure(f"output line {at + 1} is none that ./limpet prints there")
    if len(answers) > count:
        raise Failure(f"the output answers {len(answers)} lines and the script has {count}: it is another script's")
    return answers


def command_of(line):
    """The command in a CMD line, also where blanks, lower case or a CR make it no script line. Empty in other lines."""
    found = COMMAND.match(line)
    return bytes.fromhex(found[1]) if found else b""


def without_code(command):
    """A command as the file takes it: one of class 04 without its code, and all others as they are."""
    if command[:1] != bytes([CODED]) or command[1] not in WITH_CODES:
        return command
    data_end = 5 + command[4] if len(command) > 4 else 4
    data = command[5:data_end][:-CODE_SIZE]
    return b"\0" + command[1:4] + (bytes([len(data)]) + data if data else b"") + command[data_end:]


def joined(lines, answers):
    """The answers, where a command that was answered 61xx has the data that GET RESPONSE fetched after it, once they are whole."""
    answers, waits, parts = list(answers), None, ""
    for at, (line, (outcome, data, word)) in enumerate(zip(lines, answers)):
        if outcome != "0":  # what waits stays
            continue
        if command_of(line)[:2] != GET_RESPONSE:
            waits, parts = (at if word.startswith("61") else None), ""
        elif waits is not None and data != "-":
            parts += data
            if word == "9000":
                answers[waits] = ("0", parts, word)
    return answers


Place = collections.namedtuple("Place", "folder sfi fid")  # of a file: the FID of its directory, its short number and its FID; None: not known
Stand = collections.namedtuple("Stand", "folder file")  # a session: the FID of the current directory, None: not known; the Place of the current file, or None
ANY = Place(None, None, None)  # which file, or whether there is one, is not known


def sfi_in(command):
    """The short number in a read, update or append, 0 where it is for the current file. None of other commands."""
    ins, p1, p2 = command[1:4]
    if ins in (0xB0, 0xD6):  # READ and UPDATE BINARY
        return p1 & 0b11111 if p1 & 0x80 else 0
    return p2 >> 3 if ins in (0xB2, 0xDC, 0xE2) else None  # READ, UPDATE and APPEND RECORD


class Session:
    """Where a card may be as a script is followed. The card that the script itself issues has one stand, and all its files are known.
    Of another card, SELECT does not tell a file from a directory: both are kept until an answer fits one of them alone."""

    def __init__(self):
        self.stands = {Stand(None, ANY)}
        self.reset_files(whole=False)

    def reset_files(self, whole):
        self.whole = whole  # all files and directories are known
        self.files, self.folders = {}, set()  # files: the FID, by directory and short number

    def issue(self):
        self.reset_files(whole=True)
        self.reset()

    def reset(self):
        self.stands = {Stand(ROOT, None)}

    def place(self, folder, sfi):
        return Place(folder, sfi, self.files.get((folder, sfi)))

    def named(self, command, stand):
        """The Place of the file that a read, update or append is about, or that CREATE FILE makes; None for none."""
        if command[:2] == CREATE_FILE:
            return Place(stand.folder, short_number(command[2:4]), command[2:4])
        sfi = sfi_in(command)
        return self.place(stand.folder, sfi) if sfi else stand.file

    def fits(self, command, word, stand):
        """Whether the card, where it stands so, can answer so."""
        if command[:2] == CREATE_FILE and command[5:6] == bytes([FOLDER]) and word == "9000":
            return stand.folder in (ROOT, None)  # directories are made in the root alone
        if sfi_in(command) != 0 or stand.file == ANY:
            return True
        return not (OF_A_FILE.fullmatch(word) if stand.file is None else word == NO_FILE)

    def selected(self, fid, stand):
        """Where SELECT may lead: to a file of the current directory, else to a directory, else to the root."""
        if fid == ROOT:
            return {Stand(ROOT, None)}
        there = self.files.get((stand.folder, short_number(fid)))
        file, folder = Stand(stand.folder, Place(stand.folder, short_number(fid), fid)), Stand(fid, None)
        if there == fid:
            return {file}
        if self.whole:
            return {folder} if fid in self.folders else set()
        if there or (stand.folder == ROOT and fid in self.folders):  # another file has that short number; or a directory that FID
            return {folder}
        return {file, folder}

    def create(self, command):
        if command[5] == FOLDER:
            self.folders.add(command[2:4])
            return
        self.stands = {Stand(stand.folder, self.named(command, stand)) for stand in self.stands}
        for stand in self.stands if len(self.stands) == 1 else ():
            self.files[stand.file.folder, stand.file.sfi] = stand.file.fid

    def heard(self, command, word):
        """Keeps the stands that an answer fits, before follow. False where it fits none."""
        self.stands = {stand for stand in self.stands if self.fits(command, word, stand)}
        return bool(self.stands)

    def follow(self, command, word):
        """What the answered command leaves. False where the card cannot have answered so."""
        if word != "9000" and not word.startswith("61"):
            return True
        if command[:2] == SELECT:
            self.stands = set().union(*(self.selected(command[5:7], stand) for stand in self.stands))
        elif command[:2] == CREATE_FILE:
            self.create(command)
        elif sfi_in(command):
            self.stands = {Stand(stand.folder, self.named(command, stand)) for stand in self.stands}
        return bool(self.stands)


def no_script_line(line, issued):
    """Why a CMD line has outcome 9."""
    wrong = [
        (line.endswith("\r"), "CR LF at its end in place of LF"),
        (" " in line, "blanks in place of tabs"),
        (line != line.upper(), "lower case in place of upper case"),
    ]
    if any(there for there, _ in wrong):
        return "it has " + " and ".join(what for there, what in wrong if there)
    return "it is not CMD, command and random in hex" if issued else "no ISSUE line before it made a card"


def record_of_answer(line, answer, issued):
    """What a line of a script that reads a record was answered, as record_of has it."""
    outcome, data, word = answer
    if outcome == "9":
        raise Failure(f"no line of a script (outcome 9): {no_script_line(line, issued)}")
    if outcome != "0":
        raise Failure(f"not served (outcome {outcome}): {NOT_SERVED.get(outcome, 'no outcome of a command')}")
    return record_of(b"" if data == "-" else bytes.fromhex(data), word, REFUSED_IN_SCRIPT)


def take_answer(reading, at, line, number, answer, has_card):
    """Adds to a reading what line at, which reads record number, was answered."""
    try:
        record = record_of_answer(line, answer, issued=has_card is not False)
    except Failure as failure:
        reading.refuse(number or 1, f"script line {at}: {failure}", for_the_pin=answer[2] == "6982")  # 00 is meant for the newest
        return
    if not reading.take(number, record):
        raise Failure(f"script line {at}: the answer does not go with those before it; is the output another script's?")


def goes_with(line, answer, has_card):
    """Whether a line can be answered so. has_card: whether there is a card by then."""
    outcome, data, sw = answer
    word = word_of(line.encode("latin-1"))
    command = command_of(line)
    if command[:2] in NO_DATA and (sw.startswith("61") or (sw == "9000" and len(command) != NO_DATA[command[:2]])):
        return False
    if word == CMD and has_card and len(line.rpartition("\t")[2]) == 32:  # a random input of 16 bytes
        return outcome == "0" and sw != "-"
    outcomes = {None: ["9"], ISSUE: ["0", "5"], CMD: ["3"] if has_card else ["9"], RESET: ["0"] if has_card else ["9"]}
    return outcome in outcomes[word] and data == sw == "-"


def followed(lines, answers):
    """Each line of a script: its number, the line, its answer, whether there is a card, the command in it, the Places of the files
    that it may be about, with None for none, and the session that it leaves."""
    session = Session()
    has_card = None  # not known: tools/card run has one before the first line, ./limpet has none
    for at, (line, answer) in enumerate(zip(lines, answers), 1):
        outcome, _, word = answer
        script_word = word_of(line.encode("latin-1"))
        if has_card is None and script_word in (CMD, RESET):
            has_card = outcome != "9"
        command = without_code(command_of(line))
        served = command if outcome == "0" else b""
        good = goes_with(line, answer, has_card) and (not served or session.heard(served, word))
        places = {session.named(command, stand) for stand in session.stands} if command else {None}
        if outcome == "0" and script_word == ISSUE:
            session.issue()
        elif outcome == "0" and script_word == RESET:
            session.reset()
        if not good or (served and not session.follow(served, word)):
            raise Failure(f"script line {at} cannot be answered as the output has it; is the output another script's?")
        yield at, line, answer, has_card, command, places, session
        has_card = has_card or outcome == "0"


def is_it(place, sfi):
    """Whether it is the file of the root with that short number; None where that is not known."""
    if place is None or place.folder not in (ROOT, None) or place.sfi not in (sfi, None):
        return False
    return None if None in (place.folder, place.sfi) else True


def are_it(places, sfi):
    """The same of all Places of a line."""
    kinds = {is_it(place, sfi) for place in places}
    return kinds.pop() if len(kinds) == 1 else None


def not_known(at, places):
    """Why a line that reads a record may be about another file than it seems."""
    places = places - {None}
    if ANY in places:
        return f"script line {at}: which file is current there is not known; select it first"
    folders = {place.folder for place in places}
    if None in folders:
        return f"script line {at}: which directory is current there is not known; select the root first: 00A40000023F00"
    other = min(folders - {ROOT}).hex().upper()
    return f"script line {at}: whether {other} is a file or a directory is not known there; send 00A40000023F00, 00A4000002{other} and 00B2010400 first"


def unfit(at, command, fid):
    """Why the file that a line makes is not the alarm file, None where it can be. fid: None where it does not matter."""
    made = command[2:4].hex().upper()
    if fid not in (None, command[2:4]):
        return f"script line {at}: file {made} has the short number of {fid.hex().upper()}; say --file {made}"
    if command[5] in OTHER_RECORDS:
        return f"script line {at}: file {made} is of type {command[5]:02X} and not cyclic (2E), so record 1 is not its newest: it is no alarm file"
    return None


def written_by(command, before, count):
    """The records of a cyclic file of so many places after a line wrote to it, newest first; None where they are not known."""
    if command[:2] == CREATE_FILE:
        return [] if command[5] == CYCLIC else None
    if before is None:
        return None
    record = command[5:]
    if command[:2] == APPEND_RECORD:
        return [record, *before][:count]
    return [record if number == command[2] else old for number, old in enumerate(before, 1)]


def take_read(reading, sfi, at, line, answer, has_card, command, places):
    """Adds what a line that reads a record was answered, where that is of the file of the root with that short number, or of none."""
    outcome, _, word = answer
    about = are_it(places, sfi)
    if about is None and outcome == "0" and OF_A_FILE.fullmatch(word):
        reading.refuse(command[2], not_known(at, places), for_the_pin=False)
    elif about is not False or places == {None}:
        take_answer(reading, at, line, command[2], answer, has_card)
    elif not reading.elsewhere and (folders := {place.folder for place in places if place} - {ROOT, None}):
        reading.elsewhere = f"script line {at} reads a file of directory {min(folders).hex().upper()}"


def readings_of(lines, answers, sfi, fid):
    """What a script read of a file of the root, a new reading after each line that wrote to it. fid: None where it does not matter."""
    readings, count, wrong, named = [Reading()], 0, None, fid is None
    for at, line, answer, has_card, command, places, session in followed(lines, answers):
        outcome, _, word = answer
        reading, does, about = readings[-1], command[:2] if word == "9000" else None, are_it(places, sfi)
        named = named or session.stands == {Stand(ROOT, Place(ROOT, sfi, fid))}
        if command[:2] == READ_RECORD:
            take_read(reading, sfi, at, line, answer, has_card, command, places)
        elif does == CREATE_FILE and command[5] == FOLDER:
            continue
        elif does in (CREATE_FILE, APPEND_RECORD, UPDATE_RECORD) and about is not False:
            if does == CREATE_FILE and about:
                count, wrong, named = command[6], unfit(at, command, fid), True
            readings.append(Reading(f"line {at}, which wrote to the file", written_by(command, reading.written, count) if about else None))
        elif not command and line.startswith("ISSUE") and outcome == "0":
            if wrong:  # what was read before is no alarm
                readings.clear()
            wrong, named = None, True
            readings.append(Reading(f"line {at}, which made a new card"))
    if wrong:
        raise Failure(wrong)
    if not named and any(reading.records or reading.end < math.inf for reading in readings):
        name = fid.hex().upper()
        raise Failure(f"no line of the script selects file {name} from the root and reads it as the current file: "
                      f"let 00B2010400 come behind 00A4000002{name}, or say --sfi {sfi}")
    return readings
