"""A person at the terminal, who types PINs, which are not shown, and answers questions."""
import contextlib
import errno
import os
import select
import signal
import sys
import termios

from .words import Ended, Failure

LINE_MAX = 4096  # bytes that a terminal hands over as a line


def at_terminal():
    return sys.stdin is not None and sys.stdin.isatty()


def set_modes(terminal, modes):
    """Of a terminal, without what was typed before. In the background it waits for fg, which interrupts the call."""
    while True:
        try:
            return termios.tcsetattr(terminal, termios.TCSAFLUSH, modes)
        except termios.error as error:
            if error.args[0] != errno.EINTR:
                raise


@contextlib.contextmanager
def ends_caught():
    """A signal that ends the program is raised, so that the terminal is as before by then. One that is ignored stays so."""

    ends = [number for number in (signal.SIGTERM, signal.SIGHUP, signal.SIGQUIT) if signal.getsignal(number) == signal.SIG_DFL]

    def let(handler):
        for number in ends:
            signal.signal(number, handler)

    def end(number, _):
        let(signal.SIG_IGN)  # a second one does not come between
        raise Ended(number)

    let(end)
    try:
        yield
    finally:
        let(signal.SIG_DFL)


@contextlib.contextmanager
def continues_noted():
    """A pipe with a byte for each SIGCONT: the program was stopped before it, and others may have set the terminal's modes."""
    notes, note = os.pipe2(os.O_NONBLOCK | os.O_CLOEXEC)
    before = signal.signal(signal.SIGCONT, lambda *_: None)
    signal.set_wakeup_fd(note)
    try:
        yield notes
    finally:
        signal.set_wakeup_fd(-1)
        signal.signal(signal.SIGCONT, before)
        os.close(note)
        os.close(notes)


def read_now(file):
    """What is there to be read; None where nothing is."""
    waits = os.get_blocking(file)
    os.set_blocking(file, False)
    try:
        return os.read(file, LINE_MAX)
    except BlockingIOError:
        return None
    finally:
        os.set_blocking(file, waits)


def typed_at(terminal, prompt, echo):
    """A line that is typed. echo: termios.ECHO where it is shown, 0 where it is not."""
    termios.tcdrain(terminal)  # in the background this waits for fg: until then the modes are those of the shell's own line
    before = termios.tcgetattr(terminal)
    by_line = [*before[:3], before[3] & ~termios.ECHO | termios.ICANON | echo, *before[4:]]
    line = None
    try:
        with continues_noted() as notes:
            while line is None:
                set_modes(terminal, by_line)
                if read_now(notes):  # the modes may be others again
                    continue
                os.write(terminal, prompt.encode())  # what is typed from here on is dropped only where the program is stopped
                if notes not in select.select([terminal, notes], [], [])[0]:
                    line = read_now(terminal)
        return line
    finally:
        set_modes(terminal, before)
        if not (echo and line):  # else the end of the line was shown
            os.write(terminal, b"\n")


def line_of(prompt, echo):
    try:
        terminal = os.open("/dev/tty", os.O_RDWR | os.O_NOCTTY)
    except OSError:
        terminal = os.dup(0)
    with ends_caught():
        line = typed_at(terminal, prompt, echo)
    os.close(terminal)
    if not line.endswith(b"\n"):  # Ctrl-D, perhaps within a PIN
        raise EOFError
    return line[:-1].decode("latin-1")


def typed(prompt, option):
    """What is typed and not shown. option: what else it can be given with."""
    try:
        return line_of(prompt, 0)
    except (OSError, termios.error) as error:
        raise Failure(f"no PIN can be asked for at this terminal: {os.strerror(error.args[0])}; give it with {option}") from None


def can_ask():
    """Whether there is a person to be asked: at the terminal of this program, also where a PIN comes through a pipe."""
    try:
        os.close(os.open("/dev/tty", os.O_RDWR | os.O_NOCTTY))
    except OSError:
        return False
    return any(os.isatty(number) for number in (0, 1, 2))


def agreed(question, option):
    """Whether the person at the terminal says yes. option: what else says it."""
    try:
        return line_of(f"{question} (y or n): ", termios.ECHO) in ("y", "yes")
    except (OSError, termios.error) as error:
        raise Failure(f"no question can be asked at this terminal: {os.strerror(error.args[0])}; say {option}") from None
