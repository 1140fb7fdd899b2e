"""The alarms that were read of a file, and their table."""
import collections
import itertools
import math
import os
import sys

from .words import Failure, complain, counted, legible, unexpected

ALARM_SIZE = 8  # running number (4), line, kind, minutes (2), high bytes first
FIRST = 1  # the running number of a box's first alarm
ALARM_FILE = b"\xa1\x01"  # the FID that a box gives it
NO_ALARM = "no alarm: line is to be 1 to 32, kind 1 to 6"


class Alarm:
    def __init__(self, record):
        self.record = record
        self.number = int.from_bytes(record[0:4], "big")
        self.line = record[4]
        self.kind = record[5]
        self.minutes = int.from_bytes(record[6:8], "big")

    def good(self):
        return 1 <= self.line <= 32 and 1 <= self.kind <= 6


class Reading:
    """What was read of a file while nothing wrote to it."""

    def __init__(self, since=None, written=None):
        self.since = since  # the line of a script that wrote to it last; None before there is one
        self.written = written  # the records as the script's lines wrote them, newest first; None where they are not known
        self.records = {}  # by number; 1 is the newest
        self.end = math.inf  # the lowest number that was answered 6A83
        self.refused = {}  # by number: why a line of a script was answered neither
        self.elsewhere = None  # of the first line that read a file of a directory: which it is

    def take(self, number, record):
        """Keeps a record, or None for 6A83. False where a file that was written and answered as before cannot answer so."""
        if self.written is not None and record != dict(enumerate(self.written, 1)).get(number):
            return False
        if record is None:
            self.end = min(self.end, number)
        elif self.records.setdefault(number, record) != record:
            return False
        return number > 0 and max(self.records, default=0) < self.end

    def refuse(self, number, why, for_the_pin):
        """Keeps why a record was not read. That the PIN is missing, before it is shown or after a reset, is seldom the reason."""
        if number not in self.refused or not for_the_pin:
            self.refused[number] = why

    def complete(self):
        return len(self.records) + 1 == self.end

    def gap(self, file):
        """Why a script's reading of that file is not complete."""
        unread = next(number for number in itertools.count(1) if number not in self.records)
        if unread in self.refused:
            return self.refused[unread]
        after = f" after {self.since}" if self.since else ""
        elsewhere = f"; {self.elsewhere}, and the alarms are in the root" if self.elsewhere else ""
        return f"the script does not read record {unread} of {file}{after}{elsewhere}"


REFUSED = {
    "6A82": "there is no such file in the card's root (6A82), where a box has its alarms",
    "6981": "the file has no records (6981), so it is not the alarm file",
}


def record_of(data, word, refused):
    """The record that READ RECORD was answered; None where the file has none of that number."""
    if word == "6A83":
        return None
    if word in refused:
        raise Failure(refused[word], word)
    if word != "9000":
        raise unexpected(word, "READ RECORD")
    if len(data) != ALARM_SIZE:
        raise Failure(f"a record of the file has {len(data)} bytes and an alarm {ALARM_SIZE}: it is not the alarm file")
    return data


def remarks(alarms):
    """What is wrong with the running numbers. alarms: by record number. Only records that are neighbours are compared."""
    numbers = sorted({alarm.number for alarm in alarms.values()})
    for place, newer in alarms.items():
        older = alarms.get(place + 1, newer)
        if newer.number < older.number:
            yield f"falling: number {newer.number} was written after number {older.number}"
        there = [number for number in reversed(numbers) if older.number <= number <= newer.number]
        for high, low in zip(there, there[1:]):
            if high - low == 2:
                yield f"missing: number {low + 1}"
            elif high - low > 2:
                yield f"missing: numbers {low + 1} to {high - 1}"
    for number, count in collections.Counter(alarm.number for alarm in alarms.values()).items():
        if count > 1:
            yield f"doubled: number {number} stands in {count} records"


def overwritten(alarms):
    """What the oldest alarm tells of those before it. alarms: all that are on the card, by record number."""
    oldest = alarms.get(len(alarms))
    if oldest and oldest.good() and oldest.number > FIRST:
        yield f"oldest on the card: {oldest.number}; earlier ones are gone"


def no_alarm_in(alarms):
    """Why a record is none, or None."""
    return next((f"the record with number {alarm.number} is {NO_ALARM}" for alarm in alarms.values() if not alarm.good()), None)


def file_name(arguments):
    return f"the file with the short number {arguments.sfi}" if arguments.sfi else f"file {arguments.file.hex().upper()}"


def alarms_in(reading):
    """By record number."""
    return {place: Alarm(record) for place, record in sorted(reading.records.items())}


def remarks_of(alarms, trouble):
    """What stands below a table."""
    return list(dict.fromkeys([*remarks(alarms), *([] if trouble else overwritten(alarms))]))


def report(arguments, reading, trouble, reader=None, overtaken=None, names=lambda alarm: ""):
    """Prints what was read. trouble: why it may not be all, or None. overtaken: what wrote to the file since. names: of an alarm's line
    and kind, which stand behind it. The exit status."""
    alarms = alarms_in(reading)
    card = [f"card in {legible(reader)}"] if reader else []
    other_file = [file_name(arguments)] if arguments.sfi or arguments.file != ALARM_FILE else []
    above = ", ".join(card + other_file if alarms else card)
    if above and (alarms or not trouble):
        print(f"{above}:")
    if alarms:
        print(f"{'number':>10}  {'line':>4}  {'kind':>4}  {'minutes':>7}")
    elif not trouble:
        print(" in ".join(["no alarms", *other_file]))
    for alarm in alarms.values():
        row = f"{alarm.number:>10}  {alarm.line:>4}  {alarm.kind:>4}  {alarm.minutes:>7}{names(alarm)}"
        print(row if alarm.good() else f"{row}  {NO_ALARM}")
    for remark in remarks_of(alarms, trouble):
        print(remark)
    if alarms and overtaken:
        print(f"out of date: these were read before {overtaken}")
    if alarms and trouble:
        print("incomplete: there may be alarms that are not in this table", flush=True)
    if trouble:
        complain(trouble)
    return 0 if not trouble and all(alarm.good() for alarm in alarms.values()) else 1


def report_for_round(name, reading, trouble, reader=None):
    """Prints a line for each alarm, as R-12 of document 02 has it, and nothing where they may not be all. The exit status."""
    alarms = alarms_in(reading)
    trouble = trouble or no_alarm_in(alarms)
    if trouble:
        complain(trouble)
        return 1
    sys.stdout.buffer.write(b"".join(b"%s\t%s\n" % (name, alarm.record.hex().upper().encode()) for alarm in alarms.values()))
    sys.stdout.buffer.flush()
    complain(f"{counted(len(alarms), 'alarm')} of {legible(os.fsdecode(name))} for the round" + (f", off the card in {legible(reader)}" if reader else ""))
    for remark in remarks_of(alarms, trouble):
        complain(remark)
    return 0
