"""Changing a card: what is asked before, the one way to write to a file, and what is told where nobody saw how it ended."""
import collections
import contextlib

from .rights import NAMES, steps_to_show
from .terminal import agreed, can_ask
from .words import Ended, Failure, Unconfirmed, unexpected

CHECKED = ("67", "68", "69", "6A", "6B", "6C", "6D", "6E")  # a status word that begins so refuses the command, and nothing was changed
UNCHANGED = "nothing was changed"


def can_be_asked(arguments):
    """Before the card is touched: where nobody can be asked and nobody has said yes it ends here."""
    if not (arguments.yes or arguments.dry_run or can_ask()):
        raise Failure(f"there is no terminal to ask at, and {UNCHANGED}; say --yes, or --dry-run to see what would be sent")


def unread(answer, what):
    """In a dry run, of a file that is not read without a PIN."""
    answer.say(f"{what} was not read: the file asks for a PIN or a code first (6982), and a dry run shows none")


def ask(call, question, *facts):
    """facts: what is asked about, line by line, which stand at the terminal in any case."""
    for fact in facts:
        call.answer.say(fact)
    if call.arguments.yes:
        return
    if not agreed("\n".join([*(() if call.answer.is_seen() else facts), question]), "--yes"):
        raise Failure(f"{UNCHANGED}, since the answer was not yes")


def tell_dry(answer, steps):
    """steps: commands as a person may see them, with what each is for."""
    answer.tell(dry_run=True, commands=[command for command, _ in steps])
    width = max(len(command) for command, _ in steps)
    for command, what in steps:
        answer.say(f"  {command:<{width}}  {what}")
    answer.say("dry run: nothing was sent that changes the card")


@contextlib.contextmanager
def unconfirmed(then, answer):
    """What ends it in here leaves it open whether the card was changed. then: what to do."""
    try:
        yield
    except Unconfirmed:
        raise
    except (Failure, KeyboardInterrupt, Ended) as error:
        answer.doubt()
        why = error if isinstance(error, Failure) else "stopped"
        raise Unconfirmed(f"{why}; {then}", getattr(error, "word", None)) from None


# One write to a file: its command, as Sender.made takes it, and the command's name; the contents that have to be there before and after
# it; what gives words for other contents than those; and what to do where it was not seen how it ended
Change = collections.namedtuple("Change", "command name before after otherwise then")


def write(at, file, change, pins):
    """The one way to write to a file: where its contents are as they were read before, and all are read back after it. They are read again
    before it, but not before a try without a PIN that follows the first reading at once."""
    just_read = at.arguments.yes and not pins.any_shown()
    while True:
        if not just_read and file.contents() != change.before:
            raise Failure(f"file {file.name} is not as it was read before: another program has changed it, and {UNCHANGED} here; start again")
        made = file.sender.made(*change.command)
        with unconfirmed(change.then, at.answer):
            word = file.sender.card.send(made)[1]
            if word == "9000":
                now = file.contents()
                if now != change.after:
                    raise Unconfirmed(f"the card took it (9000), and what was read back is something else: {change.otherwise(now)}")
                return at.answer.confirm()
            if word[:2] not in CHECKED:
                raise unexpected(word, change.name)
        if word != "6982":
            raise Failure(f"{file.refusal(word, change.name)}; {UNCHANGED}", word)
        if not pins.left:
            raise Failure(pins.no_right("write to"), word)
        pins.show_next()
        just_read = False


def steps_to_write(at, file, was_read, what, *command):
    """What is sent to read the file and to write to it as above. was_read: it was, without a PIN. command: as Sender.shown takes it."""
    def read(*how):
        return file.steps_to_read(at.sender, *how)

    def if_so(steps):
        return [(step, f"if so: {why}") for step, why in steps]

    which = at.pins().order[0]
    see, show, written = f", without the {NAMES[which]}, to see whether it is asked for", steps_to_show(which), at.sender.shown(what, *command)
    if was_read:
        again = [] if at.arguments.yes else read(" again")
        steps = [*read(), *again, *at.sender.shown(f"{what}{see}", *command), *if_so([*show, *read(" again"), *written])]
    else:
        steps = [*read("", see), *if_so([*show, *read()]), *read(" again"), *written]
    return [*file.steps_to_select(), *steps, *read(" back")]
