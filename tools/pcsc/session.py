"""A card in the reader for one command of tools/box, from its first look to the reset."""
import contextlib

from .commands import ADMIN, USER
from .connection import Pcsc
from .files import Sender
from .rights import NAMES, Pins, is_pin, tries_left
from .secrets import first_lines, no_secret_itself, transport_key_in
from .terminal import agreed, can_ask, ends_caught
from .words import Failure, legible

READINGS = 4  # of a file that is written: at first, before it is tried without a PIN, before it is tried with one, and after it
PIN_FILES = {USER: "--pin-from", ADMIN: "--admin-pin-from"}


def pin_in(path, option):
    no_secret_itself(path, option)
    line, *_ = first_lines(path, 1, "PIN", f"at a terminal leave out {option}: the PIN is asked for then, and not shown")
    return line


def pins_given(arguments):
    """By which, None where it is not given: read before the card is touched, so that nobody answers a question for nothing."""
    pins = {}
    for which, path in ((USER, arguments.pin_from), (ADMIN, arguments.admin_pin_from)):
        pins[which] = None if path is None else pin_in(path, PIN_FILES[which])
        if path is not None and not is_pin(pins[which]):
            raise Failure(f"the first line of {'standard input' if path == '-' else legible(path)} is no PIN, which has 6 to 16 digits; nothing was sent")
    return pins


class TwoFiles(Pins):
    """Each PIN out of a file of its own, or typed: what is given as one is never shown as the other."""

    UNBLOCKING = "tools/box unblock"

    def __init__(self, card, key, arguments, given, order=None):
        self.pins = given
        admin_first = arguments.admin or (given[USER] is None and given[ADMIN] is not None)
        super().__init__(card, order or ((ADMIN, USER) if admin_first else (USER, ADMIN)), key)
        self.of_both, self.allows_last_try = arguments.both, arguments.last_try
        self.shown = {}  # which, and what was shown as it

    def given(self, which):
        return self.pins[which]

    def option(self, which):
        return PIN_FILES[which]

    def both(self):
        return self.of_both or None not in self.pins.values()

    def first_alone(self):
        return self.given(self.order[0]) is not None and self.given(self.order[1]) is None

    def other_right(self):
        return f"where that is the {NAMES[self.order[1]]} too, give it with {self.option(self.order[1])}"

    def show(self, which, pin):
        for other in self.shown:
            if self.shown[other] == pin:
                raise Failure(f"that is the {NAMES[other]}, and not the {NAMES[which]}; it was not sent and cost no try")
        self.shown[which] = pin
        super().show(which, pin)

    def tries(self, which):
        word = super().tries(which)
        if word == "9000":
            raise Failure(f"the card was reset, and holds the right of the {NAMES[which]} all the same (9000): is it the card of a box?", word)
        return word

    def wrong(self, which, word):
        then = f"; it is blocked now{self.way_out(which)}" if word == "63C0" else "; be sure of it before you go on"
        return Failure(f"wrong {NAMES[which]} ({word}): {tries_left(word)}{then}", word)

    def last_try(self, which):
        if self.allows_last_try:
            return
        warning = f"the {NAMES[which]} has 1 try left (63C1), and a wrong one blocks it{self.for_good(which)}"
        if not can_ask():
            raise Failure(f"{warning}; it was not shown. Where it is surely right, say --last-try", "63C1")
        if not agreed(f"{warning}. Show it all the same?", "--last-try"):
            raise Failure(f"the {NAMES[which]} was not shown, and nothing was changed", "63C1")

    def for_good(self, which):
        return " for good" if which == ADMIN else ""


class Session:
    """What a command has at hand while it has the card."""

    def __init__(self, card, key, given, call):
        self.card, self.key, self.given = card, key, given
        self.arguments, self.config, self.answer = call.arguments, call.config, call.answer
        self.sender = Sender(card, key)

    def without_codes(self):
        """For a dry run: a code could be a wrong one, and cost a try."""
        return Sender(self.card, None)

    def pins(self, order=None):
        return TwoFiles(self.card, self.key, self.arguments, self.given, order)


@contextlib.contextmanager
def session(call):
    """However it ends, the card is reset, and keeps no right."""
    path = call.arguments.transport_key
    if path is not None:
        no_secret_itself(path, "--transport-key")
    key, given = transport_key_in(path), pins_given(call.arguments)  # before the card is touched
    with ends_caught():
        card = Pcsc(call.arguments.reader, coded=key is not None, readings=READINGS)
        try:
            call.answer.tell(reader=card.reader)
            card.reset()  # so that no right is held that another program left
            yield Session(card, key, given, call)
        finally:
            card.close()
