"""PINs and keys in files."""
import os
import re
import stat

from .commands import KEY_SIZE
from .inputs import opened
from .words import Failure, complain, legible

SECRET_FILE_MAX = 512  # bytes; it holds two PINs or a key, and need not end


def warn_of_others(file, path, secret):
    mode = os.fstat(file.fileno()).st_mode
    if stat.S_ISREG(mode) and mode & 0o077:
        name, which = ("the file at standard input", "that file") if path == "-" else (legible(path), legible(path))
        complain(f"warning: {name} is open to others (mode {mode & 0o777:03o}), and has the {secret} as it is; say: chmod 600 {which}")


def first_lines(path, count, secret, at_a_terminal):
    """Of a file with secrets, and of them no more than PINs and keys can have."""
    text = b""
    with opened(path) as file:
        if file.isatty():
            raise Failure(at_a_terminal)
        warn_of_others(file, path, secret)
        while text.count(b"\n") < count and (more := file.read(SECRET_FILE_MAX - len(text))):
            text += more
    return [line.removesuffix("\r") for line in text.decode("latin-1").split("\n")[:count]]


def no_secret_itself(path, option):
    """Of what has to be a file's name; what is none is not repeated where it may be the secret."""
    if re.fullmatch("[0-9]{6,16}|[0-9A-Fa-f]{%d}" % (2 * KEY_SIZE), path) and not os.path.exists(path):
        raise Failure(f"{option} takes the name of a file that has the secret in its first line, and never the secret itself")


def transport_key_in(path):
    """None where there is no path."""
    if path is None:
        return None
    line, *_ = first_lines(path, 1, "transport key", "the transport key is in a file: say which with --transport-key")
    if not re.fullmatch("[0-9A-Fa-f]{%d}" % (2 * KEY_SIZE), line):
        raise Failure(f"the first line of {legible(path)} is no transport key, which has 32 hex digits; no code was sent, and no try was lost")
    return bytes.fromhex(line)
