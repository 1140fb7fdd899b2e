"""Files that are read, - for standard input."""
import contextlib
import sys

from .words import Failure, legible


@contextlib.contextmanager
def opened(path):
    """The bytes of a file as they come; - is standard input."""
    if path == "-" and sys.stdin is None:
        raise Failure("cannot read -: standard input is closed")
    try:
        with open(0 if path == "-" else path, "rb", buffering=0, closefd=path != "-") as file:
            yield file
    except OSError as error:
        raise Failure(f"cannot read {legible(path)}: {error.strerror}") from None


def text_of(path):
    with opened(path) as file:
        return file.read().decode("latin-1")


def lines_of(path):
    """As ./limpet counts them: the last one needs no newline."""
    lines = text_of(path).split("\n")
    return lines if lines[-1] else lines[:-1]
