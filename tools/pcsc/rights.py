"""PINs that are shown to the card. Nothing else shows one."""
import re

from .commands import ADMIN, USER, VERIFY, masked
from .terminal import at_terminal, typed
from .words import Failure, complain, legible, unexpected

NAMES = {USER: "user PIN", ADMIN: "admin PIN"}
CODE_ASKED = "; where the file asks for codes, say --transport-key FILE"  # which is answered 6982, as a missing PIN is


def tries_left(word):
    """In words, out of 63Cx: x stops at 15."""
    left = int(word[3], 16)
    return {0: "no try left", 1: "1 try left", 15: "15 tries left or more"}.get(left, f"{left} tries left")


def steps_to_show(which):
    """As a person may see them, with what each is for."""
    return [(bytes([*VERIFY, 0x00, which]).hex().upper(), f"the tries left of the {NAMES[which]}"),
            (masked(VERIFY, 0x00, which), f"the {NAMES[which]}")]


def is_pin(text):
    return re.fullmatch("[0-9]{6,16}", text) is not None


def pin_bytes(pin):
    """What is no PIN is not sent."""
    if not is_pin(pin):
        raise Failure("a PIN has 6 to 16 digits; this one was not sent and cost no try")
    return pin.encode()


class Pins:
    """Shows PINs to a card, each once, in the order in which a file may ask for them. Where they come from, a program says by its own
    class of them."""

    def __init__(self, card, order, key):
        self.card, self.order, self.left = card, order, list(order)
        self.or_code = CODE_ASKED if key is None else ""

    def typed_or_given(self, which, tries):
        pin = self.given(which)
        if pin is not None:
            return pin
        if not at_terminal():
            raise Failure(f"the {NAMES[which]} is needed (6982); give it with {self.option(which)}{self.or_code}", "6982")
        return typed(f"{NAMES[which]} of the card in {legible(self.card.reader)} ({tries}): ", self.option(which))

    def go_on(self):
        """After the first PIN, where the file asks for more. Nothing but the caller or a person says that a PIN is the second one."""
        first, second = (NAMES[which] for which in self.order)
        if self.first_alone():
            raise Failure(f"the {first} does not open the file (6982), which asks for another right: {self.other_right()}{self.or_code}", "6982")
        if not self.both():
            complain(f"the {first} is right, and the file asks for more (6982); "
                     f"where that is the {second}, type it too, else Ctrl-C{self.or_code}")

    def way_out(self, which):
        """Of a PIN that is blocked."""
        if which == ADMIN:
            return ", and nothing on the card can open it again"
        return f"; whoever has the admin PIN can set a new one: {self.UNBLOCKING}"

    def blocked(self, which):
        return Failure(f"the {NAMES[which]} is blocked (6983){self.way_out(which)}", "6983")

    def wrong(self, which, word):
        if word == "63C0":
            return Failure(f"wrong {NAMES[which]} ({word}), no try left: it is blocked now{self.way_out(which)}", word)
        return Failure(f"wrong {NAMES[which]} ({word}), {tries_left(word)}: be sure of it before you go on", word)

    def tries(self, which):
        """What the card says of them, which costs none: 63Cx, 6983 where it is blocked, 9000 where its right is held."""
        word = self.card.send([*VERIFY, 0x00, which])[1]
        if word not in ("9000", "6983") and not word.startswith("63C"):
            raise unexpected(word, "VERIFY", ", where it was asked for the tries left: is it the card of a box?")
        return word

    def get(self, which):
        """The PIN, which is not shown yet; None where its right is held."""
        word = self.tries(which)
        if word == "9000":
            return None
        if word == "6983":
            raise self.blocked(which)
        if word == "63C1":
            self.last_try(which)
        return self.typed_or_given(which, tries_left(word))

    def show(self, which, pin):
        """Shows the card what get gave, once."""
        self.left.remove(which)
        if pin is None:
            return
        self.present(which, pin_bytes(pin))

    def present(self, which, digits):
        word = self.card.send([*VERIFY, 0x00, which, len(digits), *digits])[1]
        if word.startswith("63C"):
            raise self.wrong(which, word)
        if word != "9000":
            raise unexpected(word, "VERIFY", f" with the {NAMES[which]}")

    def any_shown(self):
        return len(self.left) < len(self.order)

    def show_next(self):
        which = self.left[0]
        if which != self.order[0]:
            self.go_on()
        self.show(which, self.get(which))

    def no_right(self, to="read"):
        """What 6982 means where all PINs were shown."""
        return (f"no right to {to} the file (6982), and {'both PINs were' if len(self.order) > 1 else f'the {NAMES[self.order[0]]} was'} shown: "
                f"it asks for another right, which no PIN gives{self.or_code}")


def allowed(attempt, pins):
    """What a command is answered once the PINs that it asks for are shown, the second only where the first was not enough. attempt:
    sends it, and gives its answer, the status word last."""
    while (answer := attempt())[-1] == "6982" and pins.left:
        pins.show_next()
    return answer
