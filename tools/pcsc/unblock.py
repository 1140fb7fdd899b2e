"""tools/box unblock: a new user PIN, with the admin PIN."""
from .answer import GREEN
from .change import ask, can_be_asked, tell_dry
from .commands import ADMIN, RELOAD_PIN, USER
from .newpin import both_at_hand, new_pin, new_pin_given, set_pin, steps
from .rights import steps_to_show, tries_left
from .session import session
from .words import Failure, legible

SUMMARY = "set a new user PIN with the admin PIN, also where it is blocked"
HELP = """\
For the office: sets a new user PIN, also where the old one is blocked or nobody
knows it. It asks for the admin PIN and, twice, for the new user PIN, which has 6
to 16 digits. What is typed is not shown. Then it resets the card and shows it
the new user PIN, to see that it is right. A user PIN is never shown as the admin
PIN: wrong ones block the admin PIN for good.
"""
OPTIONS = ("admin_pin_from", "new_pin_from", "last_try", "yes", "dry_run")


def run(call):
    arguments, answer = call.arguments, call.answer
    given = new_pin_given(arguments)
    can_be_asked(arguments)
    answer.tell(confirmed=False)
    with session(call) as at:
        pins = at.pins([ADMIN])
        if not arguments.dry_run:
            both_at_hand(pins, ADMIN, given)
        word = pins.tries(USER)
        answer.say("the user PIN is blocked (6983)" if word == "6983" else f"the user PIN is not blocked ({word}): {tries_left(word)}")
        if arguments.dry_run:
            return tell_dry(answer, [steps_to_show(USER)[0], *steps(ADMIN, RELOAD_PIN, 0x02)])
        admin = pins.get(ADMIN)
        new = given or new_pin(at.card)
        if new == admin:
            raise Failure("the new user PIN is the admin PIN, which is not to be known to others; nothing was changed")
        ask(call, f"Set a new user PIN on the card in {legible(at.card.reader)}?")
        pins.show(ADMIN, admin)
        tries = set_pin(at, pins, RELOAD_PIN, 0x02, new)
    answer.say(f"the user PIN is a new one: it was shown to the card, and is right; {tries}", GREEN)
