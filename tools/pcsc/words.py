"""What a person is told, and how."""
import contextlib
import os
import shlex

program = "box"  # what each message begins with


class Failure(Exception):
    """What went wrong and what to do about it, for the person at the terminal. word: the status word that it rests on, if any."""

    status = 1  # nothing was changed

    def __init__(self, why, word=None):
        super().__init__(why)
        self.word = word


class Misuse(Failure):
    """Of what was asked for, before the card is touched."""

    status = 2


class Unconfirmed(Failure):
    """The card was changed, or may have been."""

    status = 3


class Ended(BaseException):
    """A signal came that ends the program."""


def complain(why):
    with contextlib.suppress(OSError):  # nobody wants to be told
        os.write(2, f"{program}: {why}\n".encode(errors="backslashreplace"))


def legible(name):
    """A name as the shell takes it, in printable ASCII alone, so that nothing in it can steer the terminal."""
    if all(" " <= character <= "~" for character in name):
        return shlex.quote(name)
    escaped = "".join(chr(byte) if 0x20 <= byte <= 0x7E and byte not in b"\\'" else f"\\x{byte:02x}" for byte in os.fsencode(name))
    return f"$'{escaped}'"


def unexpected(word, command, hint=""):
    """Of a status word that has no meaning there."""
    if word == "6F00":
        return Failure(f"{command} is answered 6F00: the virtual reader could not ask the card or not keep what it did; "
                       "its terminal says why", word)
    return Failure(f"the card answers {word} to {command}{hint}", word)


def counted(number, thing):
    return f"{number or 'no'} {thing}{'' if number == 1 else 's'}"


def others_as_they_were(count):
    return {0: "", 1: "; the other is as it was"}.get(count, f"; the {count} others are as they were")
