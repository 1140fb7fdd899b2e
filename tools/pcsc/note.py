"""tools/box note: a new note, or one that is corrected."""
import collections
import re
import unicodedata

from .answer import GREEN
from .change import Change, ask, can_be_asked, steps_to_write, tell_dry, unread, write
from .commands import APPEND_RECORD, CURRENT, LONGEST_RECORD, UPDATE_RECORD
from .config import wanted
from .notes import LAST, notes_file, opened_notes, quoted, room_unknown, taken_by, told
from .session import session
from .words import Failure, Misuse, counted, legible, others_as_they_were

SUMMARY = "add a note, or correct one"
HELP = f"""\
Adds TEXT as a new note, behind all others, and reads all notes back. With
--correct N it puts TEXT in the place of note N. The card keeps the length of a
note: a shorter text is filled with blanks at its end, and a longer one is
refused. TEXT stands between quotes, and is one line of 1 to {LONGEST_RECORD} plain letters,
digits and signs, without umlauts and accents. A text that begins with - stands
behind --.
"""
WORDS = (("text", "TEXT", "the note"),)
OPTIONS = ("correct", "pin_from", "admin_pin_from", "admin", "last_try", "yes", "dry_run")
MORE_WORDS = 'put the note between quotes, as in: tools/box note "L7 belt"'
SPELLED = str.maketrans({"ä": "ae", "ö": "oe", "ü": "ue", "Ä": "Ae", "Ö": "Oe", "Ü": "Ue", "ß": "ss",
                         "–": "-", "’": "'", "“": '"', "”": '"', "„": '"'})


def is_printable(text):
    return all(" " <= character <= "~" for character in text)


def has_controls(text):
    return any(unicodedata.category(character) == "Cc" for character in text)


def spelled(text):
    """In one line of ASCII, as far as that goes."""
    text = unicodedata.normalize("NFC", " ".join(re.split(r"[\t\v\f\r\n]+", text))).translate(SPELLED)
    return "".join(character for character in unicodedata.normalize("NFKD", text) if not unicodedata.combining(character))


def note_of(text, room):
    """Its bytes. room: that of all notes."""
    if not text:
        raise Misuse("a note has at least one character; nothing was sent")
    if not is_printable(text):
        offer = spelled(text)
        use = f"; use: {legible(offer)}" if is_printable(offer) else ""
        due = "is one line, without tabs and control characters" if has_controls(text) else "has plain letters (a to z), digits and signs, no umlauts or accents"
        raise Misuse(f"a note {due}{use}; nothing was sent")
    if len(text) > LONGEST_RECORD:
        raise Misuse(f"a note has at most {LONGEST_RECORD} characters, and this one has {len(text)}; nothing was sent")
    note = text.encode("ascii")
    if taken_by([note]) > room:
        raise Misuse(f"a note of {counted(len(note), 'character')} takes {taken_by([note])} bytes, and all notes have {room}; nothing was sent")
    return note


def changes(before, now):
    """What was read back, in words."""
    if len(now) < len(before):
        return f"there are {counted(len(now), 'note')} now, and there were {len(before)}"
    found = [f"note {number} is {quoted(note)} now" for number, note in enumerate(now, 1) if note not in before[number - 1 : number]]
    return ", ".join(found) or "all is as it was"


# What is to be written: the command, as Sender.made takes it, and its name; the note's number; all notes after it; and what a person is told
Written = collections.namedtuple("Written", "command name number after facts")


def added(config, notes, note):
    if unknown := room_unknown(config, notes):
        raise Failure(f"{unknown}; nothing was changed")
    left = config.notes.room - taken_by(notes)
    if taken_by([note]) > left:
        raise Failure(f"no room: the note takes {taken_by([note])} bytes, one more than its characters; {told(left)}; nothing was changed")
    number = len(notes) + 1
    return Written((APPEND_RECORD, 0x00, 0x00, note), "APPEND RECORD", number, [*notes, note], [f"new: note {number}, {quoted(note)}"])


def corrected(notes, note, number):
    if number > len(notes):
        raise Failure(f"there is no note {number}: {f'the last is {len(notes)}' if notes else 'there are none'}; nothing was changed")
    old, facts = notes[number - 1], []
    length, blanks = counted(len(old), "character"), len(old) - len(note)
    if blanks < 0:
        raise Failure(f"a note keeps its length: note {number} has {length}, and this text {len(note)}; add it as a new note; nothing was changed")
    if blanks > 0:
        facts = [f"note {number} keeps its length, {length}: the text is filled with {counted(blanks, 'blank')}"]
    note = note.ljust(len(old))
    return Written((UPDATE_RECORD, number, CURRENT, note), "UPDATE RECORD", number, [*notes[: number - 1], note, *notes[number:]],
                   [*facts, f"note {number} is {quoted(old)}; new: {quoted(note)}"])


def written(config, notes, note, number):
    """number: that of the note to be corrected, or None."""
    return corrected(notes, note, number) if number else added(config, notes, note)


def dry_run(call, note, number):
    with session(call) as at:
        file, what = notes_file(at, at.without_codes()), "the note"
        call.answer.tell(number=number, text=note.decode("ascii"), confirmed=False)
        notes = file.free_contents()
        if notes is None:
            unread(call.answer, "what is in the file")
            command = (UPDATE_RECORD, number, CURRENT, None) if number else (APPEND_RECORD, 0x00, 0x00, note)
            if number:
                what = f"the note, and blanks behind it to the length of note {number}, which is not known"
        else:
            command, _, number, after, facts = written(call.config, notes, note, number)
            call.answer.tell(number=number, text=after[number - 1].decode("latin-1"))
            if after == notes:
                call.answer.say(f"note {number} is {quoted(after[number - 1])} already; nothing would be written")
                return tell_dry(call.answer, file.steps_to_open(at.sender))
            for fact in facts:
                call.answer.say(fact)
        tell_dry(call.answer, steps_to_write(at, file, notes is not None, what, *command))


def run(call):
    arguments, answer = call.arguments, call.answer
    note = note_of(arguments.text, call.config.notes.room)
    number = None if arguments.correct is None else wanted(arguments.correct, "the number of the note", 1, LAST)
    can_be_asked(arguments)
    if arguments.dry_run:
        return dry_run(call, note, number)
    with session(call) as at:
        pins = at.pins()
        file, notes = opened_notes(at, pins)
        command, name, number, after, facts = written(call.config, notes, note, number)
        answer.tell(number=number, text=after[number - 1].decode("latin-1"), confirmed=after == notes)
        if after == notes:
            return answer.say(f"note {number} is {quoted(after[number - 1])} already; nothing was written")
        ask(call, "Write it?", *facts)
        then = f"whether note {number} was written was not seen: look with tools/box notes"
        write(at, file, Change(command, name, notes, after, lambda now: changes(notes, now), then), pins)
    answer.say(f"note {number} is {quoted(after[number - 1])} now, read back{others_as_they_were(len(after) - 1)}", GREEN)
