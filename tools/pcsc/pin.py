"""tools/box pin: another user PIN."""
from .answer import GREEN
from .change import ask, can_be_asked, tell_dry
from .commands import CHANGE_PIN, USER
from .newpin import both_at_hand, new_pin, new_pin_given, set_pin, steps
from .session import session
from .words import Failure, legible

SUMMARY = "change the user PIN"
HELP = """\
Changes the user PIN: it asks for the old one and, twice, for the new one, which
has 6 to 16 digits. What is typed is not shown. Then it resets the card and shows
it the new PIN, to see that it is right.
"""
OPTIONS = ("pin_from", "new_pin_from", "last_try", "yes", "dry_run")


def run(call):
    arguments, answer = call.arguments, call.answer
    given = new_pin_given(arguments)
    can_be_asked(arguments)
    answer.tell(confirmed=False)
    with session(call) as at:
        if arguments.dry_run:
            return tell_dry(answer, steps(USER, CHANGE_PIN, 0x01))
        pins = at.pins([USER])
        both_at_hand(pins, USER, given)
        old = pins.get(USER)
        new = given or new_pin(at.card)
        if new == old:
            raise Failure("the new user PIN is the old one; nothing was changed")
        ask(call, f"Change the user PIN of the card in {legible(at.card.reader)}?")
        pins.show(USER, old)
        tries = set_pin(at, pins, CHANGE_PIN, 0x01, new)
    answer.say(f"the user PIN is changed: the new one was shown to the card, and is right; {tries}", GREEN)
