"""A new user PIN: where it comes from, how it is set, and how that is seen."""
from .change import CHECKED, UNCHANGED, unconfirmed
from .commands import USER, masked
from .rights import NAMES, pin_bytes, steps_to_show, tries_left
from .session import pin_in
from .terminal import at_terminal, typed
from .words import Failure, legible, unexpected

OPTION = "--new-pin-from"
THEN = "whether the user PIN is the old or the new one was not seen: tools/box status tells its tries, and tools/box unblock sets it anew"


def steps(which, command, p1):
    """What set_pin sends behind the PIN of which, as a person may see it."""
    tries, (shown, _) = steps_to_show(USER)
    return [
        *steps_to_show(which),
        (masked(command, p1, USER), "the new user PIN"),
        ("reset", "so that no right is held"),
        tries,
        (shown, "the new user PIN, to see that it is right"),
    ]


def good(pin):
    try:
        pin_bytes(pin)
    except Failure:
        raise Failure(f"a PIN has 6 to 16 digits, and the new one has not; {UNCHANGED}") from None
    return pin


def new_pin_given(arguments):
    """None where it is to be typed."""
    return None if arguments.new_pin_from is None else good(pin_in(arguments.new_pin_from, OPTION))


def both_at_hand(pins, which, new):
    """Before anything is sent: the PIN of which, and the new user PIN, are given or can be typed."""
    for name, option, there in ((NAMES[which], pins.option(which), pins.given(which)), ("new user PIN", OPTION, new)):
        if there is None and not at_terminal():
            raise Failure(f"the {name} is needed; give it with {option}; {UNCHANGED}")


def new_pin(card):
    """Typed twice."""
    asked = f"new user PIN of the card in {legible(card.reader)}"
    first, second = (typed(f"{asked} ({which}): ", OPTION) for which in ("6 to 16 digits", "again"))
    if first != second:
        raise Failure(f"the new PIN was typed in two ways; {UNCHANGED}")
    return good(first)


def set_pin(at, pins, command, p1, new):
    """Sets the user PIN, and shows it to the card after a reset, once: it is known then, and no try is at risk. Its tries, in words."""
    digits = pin_bytes(new)
    with unconfirmed(THEN, at.answer):
        word = at.card.send([*command, p1, USER, len(digits), *digits])[1]
        if word == "9000":
            at.card.reset()
            tries = pins.tries(USER)
            if tries == "6983":
                raise Failure("the new user PIN was taken (9000), and is blocked (6983)", tries)
            pins.present(USER, digits)
            at.answer.confirm()
            return tries_left(tries)
        if word[:2] not in CHECKED:
            raise unexpected(word, "CHANGE PIN" if p1 == 0x01 else "RELOAD PIN")
    raise Failure(f"the card refuses a new user PIN ({word}); {UNCHANGED}", word)
