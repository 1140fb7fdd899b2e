"""tools/box limit: the cut-out limit of one line."""
from .answer import GREEN
from .change import Change, ask, can_be_asked, steps_to_write, tell_dry, unread, write
from .commands import UPDATE_BINARY
from .config import wanted
from .limits import Limits
from .session import session
from .words import others_as_they_were

SUMMARY = "set the cut-out limit of one line"
HELP = """\
Sets the cut-out limit of one line: it shows the old and the new one, asks,
writes one byte, and reads all limits back. Only then does it say what stands
there. LINE and AMPERES are decimal: 10 is ten amperes, and 0A or 0x10 is
refused. The config says which values are good.
"""
WORDS = (("line", "LINE", "1 to 32, or what the config says"), ("value", "AMPERES", "the new limit, in the config's unit"))
OPTIONS = ("pin_from", "admin_pin_from", "admin", "last_try", "yes", "dry_run")


def changes(limits, before, now):
    """What was read back, in words."""
    if len(now) != len(before):
        return f"the file has {len(now)} bytes now, and had {len(before)}"
    places = {limits.place(line): line for line in limits.lines()}
    found = [f"line {places[at]} is {limits.shown(now[at])} now" if at in places else f"byte {at} is {now[at]} now"
             for at in range(len(now)) if now[at] != before[at]]
    return ", ".join(found) or "all is as it was"


def dry_run(call, limits, line, new, command):
    with session(call) as at:
        file = limits.file(at.without_codes())
        contents = file.free_contents()
        old = None if contents is None else limits.whole(file, contents)[limits.place(line)]
        call.answer.tell(line=line, old=old, new=new, now=old, confirmed=False)
        if old == new:
            call.answer.say(f"{limits.named(line)} is {limits.shown(old)} already; nothing would be written")
            return tell_dry(call.answer, file.steps_to_open(at.sender))
        if old is None:
            unread(call.answer, f"what {limits.named(line)} is")
        else:
            call.answer.say(f"{limits.named(line)} is {limits.shown(old)}; new: {limits.shown(new)}")
        tell_dry(call.answer, steps_to_write(at, file, contents is not None, f"{limits.named(line)}: {limits.shown(new)}", *command))


def run(call):
    arguments, limits, answer = call.arguments, Limits(call.config), call.answer
    line = wanted(arguments.line, "the line", 1, limits.config.lines)
    new = wanted(arguments.value, "the limit", limits.config.least, limits.config.greatest, f" {limits.config.unit}")
    place, named = limits.place(line), limits.named(line)
    command = UPDATE_BINARY, *divmod(place, 256), bytes([new])
    can_be_asked(arguments)
    if arguments.dry_run:
        return dry_run(call, limits, line, new, command)
    with session(call) as at:
        pins = at.pins()
        file, before = limits.read(at.sender, pins)
        old = before[place]
        answer.tell(line=line, old=old, new=new, now=old, confirmed=old == new)
        if old == new:
            return answer.say(f"{named} is {limits.shown(old)} already; nothing was written")
        ask(call, "Write it?", f"{named} is {limits.shown(old)}; new: {limits.shown(new)}")
        then = f"whether {named} is {limits.shown(old)} or {limits.shown(new)} now was not seen: look with tools/box limits"
        after = before[:place] + bytes([new]) + before[place + 1 :]

        def otherwise(contents):
            answer.tell(now=contents[place] if place < len(contents) else None)
            return changes(limits, before, contents)

        write(at, file, Change(command, "UPDATE BINARY", before, after, otherwise, then), pins)
    answer.tell(now=new)
    answer.say(f"{named} is {limits.shown(new)} now, read back{others_as_they_were(limits.config.lines - 1)}", GREEN)
