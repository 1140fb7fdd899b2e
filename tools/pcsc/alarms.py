"""The alarms of a box: off the card, or out of a script and its output."""
from .commands import CURRENT, NO_FILE, short_number
from .connection import Pcsc
from .files import Sender, select_file, select_root
from .inputs import lines_of
from .rights import allowed
from .script import answers_of, joined, readings_of
from .secrets import transport_key_in
from .session import session
from .table import REFUSED, Reading, alarms_in, file_name, no_alarm_in, record_of, remarks_of, report, report_for_round
from .words import Failure


def choose_file(card, fid, sfi):
    """The file's part of P2: its short number, or that of the current file once it is selected."""
    select_root(card)
    if sfi is not None:
        return sfi << 3 | CURRENT
    select_file(card, fid, "alarms")
    return CURRENT


def read_card(card, arguments, key, pins):
    """What was read, and why it may not be all, or None."""
    place = choose_file(card, arguments.file, arguments.sfi)
    sender = Sender(card, key)
    refused = dict(REFUSED)
    if allowed(lambda: sender.record(1, place), pins)[1] == "6982":
        refused["6982"] = pins.no_right()
    if arguments.sfi is None:
        refused[NO_FILE] = f"{arguments.file.hex().upper()} is a directory on this card, and no file (6A82)"
    reading = Reading()
    try:
        for number in range(1, 256):
            reading.take(number, record_of(*sender.record(number, place), refused))
            if reading.complete():
                return reading, None
    except Failure as failure:
        return reading, failure
    return reading, "the file has a record 255, and an alarm file has at most 254 records"


def report_card(arguments, pins_for):
    """Prints the alarms of the card in the reader. pins_for: makes the Pins of a card, where there is a key for codes or None. The exit
    status."""
    key = transport_key_in(arguments.transport_key)  # before the card is touched
    card = Pcsc(arguments.reader, coded=key is not None)
    try:
        reading, trouble = read_card(card, arguments, key, pins_for(card, key))
    finally:
        card.close()
    if arguments.round is not None:
        return report_for_round(arguments.round, reading, trouble, card.reader)
    return report(arguments, reading, trouble, card.reader)


def read_script(arguments):
    """What was read last, where the script or its output leave more to be read, or None, and what wrote to the file since, or None."""
    sfi, fid = (arguments.sfi, None) if arguments.sfi else (short_number(arguments.file), arguments.file)
    lines = lines_of(arguments.script)
    answers = answers_of(arguments.output, len(lines))
    readings = readings_of(lines, joined(lines, answers), sfi, fid)
    trouble = None
    if len(answers) < len(lines):
        trouble = f"the output was cut off: it answers {len(answers)} of the script's {len(lines)} lines"
    elif not readings[-1].complete():
        trouble = readings[-1].gap(file_name(arguments))
    overtaken = None
    while len(readings) > 1 and not readings[-1].records and not readings[-1].complete():
        overtaken = readings.pop().since
    return readings[-1], trouble, overtaken


def report_script(arguments):
    """Prints the alarms that a script read. The exit status."""
    reading, trouble, overtaken = read_script(arguments)
    if arguments.round is not None:
        return report_for_round(arguments.round, reading, trouble)
    return report(arguments, reading, trouble, overtaken=overtaken)


# ---- tools/box alarms

SUMMARY = "print the alarms as a table, newest first"
HELP = """\
Prints the alarms as a table, newest first, as tools/alarms does; its --help says
when a table is complete, and what stands below it. Where the config gives lines
or kinds a name, the names stand behind the alarm. The user PIN is in the file of
--pin-from, and the admin PIN in that of --admin-pin-from; neither file is ever
taken for the other.
"""
OPTIONS = ("pin_from", "admin_pin_from", "admin", "both", "last_try", "file", "sfi", "output", "script", "round")


def names_of(config):
    """Gives the names that the config has for an alarm's line and kind."""
    def names(alarm):
        named = [name for name in (config.lines.get(alarm.line), config.kinds.get(alarm.kind)) if name]
        return f"  {', '.join(named)}" if named else ""

    return names


def facts_of(alarm, config):
    named = {"line_name": config.lines.get(alarm.line), "kind_name": config.kinds.get(alarm.kind)}
    return {"number": alarm.number, "line": alarm.line, "kind": alarm.kind, "minutes": alarm.minutes,
            **{key: name for key, name in named.items() if name}}


def run(call):
    arguments, config = call.arguments, call.config
    arguments.file = arguments.file or config.alarms.fid
    reader = overtaken = None
    if arguments.output is not None:
        reading, trouble, overtaken = read_script(arguments)
    else:
        with session(call) as at:
            reading, trouble = read_card(at.card, arguments, at.key, at.pins())
        reader = at.card.reader
    if arguments.round is not None:
        return report_for_round(arguments.round, reading, trouble, reader)
    if not arguments.json:
        return report(arguments, reading, trouble, reader, overtaken, names_of(config))
    alarms = alarms_in(reading)
    call.answer.tell(alarms=[facts_of(alarm, config) for alarm in alarms.values()], complete=trouble is None, remarks=remarks_of(alarms, trouble))
    if trouble or (trouble := no_alarm_in(alarms)):
        raise trouble if isinstance(trouble, Failure) else Failure(trouble)
    return 0
