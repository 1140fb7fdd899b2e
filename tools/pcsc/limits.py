"""tools/box limits: all cut-out limits, line by line."""
from .answer import RED
from .files import Bytes
from .session import session
from .words import Failure, legible

SUMMARY = "print all cut-out limits"
HELP = """\
Prints the cut-out limit of each line. A limit is one byte of the file, and its
value is the limit itself: 12 is 12 A. Where the config gives a line a name it
stands behind the limit. A value that is not within the config's least and
greatest is marked.
"""
OPTIONS = ("pin_from", "admin_pin_from", "admin", "last_try")


class Limits:
    """What the config says of them, and the bytes of the file."""

    def __init__(self, config):
        self.config, self.names = config.limits, config.lines

    def read(self, sender, pins):
        """The file, and all its bytes, once the PINs are shown that it asks for."""
        file = self.file(sender)
        return file, self.whole(file, file.opened(pins))

    def file(self, sender):
        return Bytes(sender, self.config.fid, "limits")

    def whole(self, file, contents):
        if len(contents) < self.config.offset + self.config.lines:
            raise Failure(f"file {file.name} has {len(contents)} bytes, and the config has {self.config.lines} lines from byte "
                          f"{self.config.offset} on: is it the card of this kind of box?")
        return contents

    def lines(self):
        return range(1, self.config.lines + 1)

    def place(self, line):
        """Of its byte in the file."""
        return self.config.offset + line - 1

    def shown(self, value):
        return f"{value} {self.config.unit}"

    def row(self, line, value):
        name = f"  {self.names[line]}" if line in self.names else ""
        return f"{line:>6}  {value:>3} {self.config.unit}{name}"

    def named(self, line):
        return f"line {line} ({self.names[line]})" if line in self.names else f"line {line}"

    def good(self, value):
        return self.config.least <= value <= self.config.greatest

    def range(self):
        return f"{self.config.least} to {self.config.greatest} {self.config.unit}"


def run(call):
    limits = Limits(call.config)
    with session(call) as at:
        _, contents = limits.read(at.sender, at.pins())
    values = {line: contents[limits.place(line)] for line in limits.lines()}
    call.answer.tell(limits=[{"line": line, "name": limits.names.get(line, f"line {line}"), "value": value, "unit": limits.config.unit}
                             for line, value in values.items()])
    call.answer.say(f"card in {legible(at.card.reader)}:")
    call.answer.say("  line  limit")
    for line, value in values.items():
        if limits.good(value):
            call.answer.say(limits.row(line, value))
        else:
            call.answer.say(f"{limits.row(line, value)}  (not {limits.range()})", RED)
