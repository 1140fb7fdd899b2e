"""tools/box notes: the electrician's notes, oldest first."""
from .commands import LONGEST_RECORD
from .files import Records
from .session import session
from .words import Failure, counted, legible

SUMMARY = "print all notes, oldest first"
HELP = """\
Prints the notes with their numbers, oldest first, and what is left of the
file's room, as the config has it. A note takes one byte more than it has
characters. A byte that is no plain letter, digit or sign is shown as \\x and two
hex digits.
"""
OPTIONS = ("pin_from", "admin_pin_from", "admin", "last_try")
LAST = 255  # the number of the last record that a command reaches


def notes_file(at, sender):
    return Records(sender, at.config.notes.fid, "notes")


def opened_notes(at, pins):
    """The file, and all notes, once the PINs are shown that it asks for."""
    file = notes_file(at, at.sender)
    return file, file.opened(pins)


def taken_by(notes):
    return sum(1 + len(note) for note in notes)


def room_unknown(config, notes):
    """Why it is not known how much is left, or None."""
    if len(notes) >= LAST:
        return Failure(f"there may be notes after number {LAST}, which no command reads")
    if taken_by(notes) > config.notes.room:
        return Failure(f"the notes take {taken_by(notes)} bytes, and the config has room for {config.notes.room}: "
                       "is it the card of this kind of box?")
    return None


def shown(note):
    """Its bytes, so that nothing in them can steer the terminal."""
    return "".join(chr(byte) if 0x20 <= byte <= 0x7E else f"\\x{byte:02x}" for byte in note)


def quoted(note):
    return f'"{shown(note)}"'


def told(left):
    """For a person: how much can be written."""
    longest = min(left - 1, LONGEST_RECORD)
    enough = f"for a note of up to {counted(longest, 'character')}" if longest > 0 else "too few for another note"
    return f"{counted(left, 'byte')} left, {enough}"


def run(call):
    answer, room = call.answer, call.config.notes.room
    with session(call) as at:
        _, notes = opened_notes(at, at.pins())
    unknown, left = room_unknown(call.config, notes), room - taken_by(notes)
    answer.tell(notes=[{"number": number, "text": note.decode("latin-1")} for number, note in enumerate(notes, 1)], room=room,
                left=None if unknown else left)
    answer.say(f"card in {legible(at.card.reader)}:")
    for number, note in enumerate(notes, 1):
        answer.say(f"{number:>6}  {shown(note)}")
    if unknown:
        raise unknown
    answer.say(f"{counted(len(notes), 'note')}, {room - left} of {room} bytes taken; {told(left)}")
