"""What both programs take on their command line, and how they begin."""
import argparse
import os
import re
import resource
import signal
import sys

from .words import Failure

LONGEST_NAME = 32  # of a box in a round, in bytes


def fid_of(text):
    if not re.fullmatch("[0-9A-Fa-f]{4}", text):
        raise argparse.ArgumentTypeError(f"{text} is not four hex digits")
    return bytes.fromhex(text)


def sfi_of(text):
    if not re.fullmatch("[1-9]|[12][0-9]|30", text):
        raise argparse.ArgumentTypeError(f"{text} is not 1 to 30")
    return int(text)


def reader_of(text):
    if not text:
        raise argparse.ArgumentTypeError("a reader's name is not empty; leave --reader out where one reader has a card")
    return text


def box_name_of(text):
    name = os.fsencode(text)
    if not 1 <= len(name) <= LONGEST_NAME or b"\t" in name or b"\n" in name:
        raise argparse.ArgumentTypeError(f"a box's name has 1 to {LONGEST_NAME} bytes, no tab and no newline; this one has {len(name)}")
    return name


def can_print():
    if sys.stdout is None:
        raise Failure("standard output is closed, and nothing can be printed")


class Parser(argparse.ArgumentParser):
    """Where standard output or error is closed argparse takes the other, and that a disk is full is no error to it."""

    def print_help(self, file=None):
        can_print()
        print(self.format_help(), end="", flush=True)

    def print_usage(self, file=None):
        if sys.stderr is not None:
            super().print_usage(file)

    def exit(self, status=0, message=None):
        super().exit(status, message if sys.stderr is not None else None)  # an older Python would write it to None


def fill_closed():
    """Standard input, output and error that are closed: else what is opened next would have their numbers."""
    while (number := os.open(os.devnull, os.O_RDWR)) <= 2:
        pass
    os.close(number)


def begin():
    resource.setrlimit(resource.RLIMIT_CORE, (0, 0))  # a core file would have the PIN in it
    fill_closed()


def heed_interrupts():
    """From here on Ctrl-C is raised, so that what was begun is ended."""
    if signal.getsignal(signal.SIGINT) == signal.SIG_DFL:
        signal.signal(signal.SIGINT, signal.default_int_handler)
