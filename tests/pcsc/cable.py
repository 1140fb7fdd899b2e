"""Both ends of the cable between the virtual reader and a card: vpcd's, with the reader's program as the card, and the card's, with this
test as the card. And a clip on that cable, which hears what passes and may alter it.
"""
import contextlib
import os
import socket
import tempfile
import threading

from stack import ISSUE_WORDS, PORT, READER, SECONDS, Reader, card_present, changes, wait_for_removal, wait_until

OFF, ON, RESET, GET_ATR = (bytes([code]) for code in (0, 1, 2, 4))  # vpcd's messages; others are commands


class Line:
    """The virtual reader's end of the connection."""

    def __init__(self, connection):
        self.connection = connection
        connection.settimeout(SECONDS)

    def put(self, body):
        self.connection.sendall(len(body).to_bytes(2, "big") + body)

    def get(self):
        head = self.bytes(2)
        return self.bytes(int.from_bytes(head, "big"))

    def bytes(self, count):
        got = b""
        while len(got) < count:
            part = self.connection.recv(count - len(got))
            if not part:
                raise RuntimeError("the reader closed the connection")
            got += part
        return got

    def ask(self, body):
        self.put(body)
        return self.get().hex().upper()


@contextlib.contextmanager
def started(port, *words, program=READER):
    reader = Reader(["--port", str(port), *(words or ISSUE_WORDS)], program)
    try:
        yield reader
    finally:
        reader.end()


@contextlib.contextmanager
def connected(*words, program=READER):
    with socket.create_server(("127.0.0.1", 0)) as server:
        server.settimeout(SECONDS)
        with started(server.getsockname()[1], *words, program=program) as reader, server.accept()[0] as connection:
            yield Line(connection), reader


@contextlib.contextmanager
def made_up(answer, atr=bytes.fromhex("3B8A8131FE45807116564C494D50455439"), present=None, at_reset=lambda _: None, slot=0):
    """A card of this test's own in the virtual reader. answer: gives its answer to a command; None where it is taken out. present:
    tells whether pcscd has seen it. at_reset: what it does when it is reset or loses its power, RESET or OFF."""

    def message():
        vpcd.setsockopt(socket.IPPROTO_TCP, socket.TCP_QUICKACK, 1)  # only for speed, as in reader/vpcd.c
        return stream.read(int.from_bytes(stream.read(2), "big"))

    def serve():
        with contextlib.suppress(OSError):  # where the connection was closed while vpcd asked
            while body := message():
                if body in (OFF, RESET):
                    at_reset(body)
                if body in (OFF, ON, RESET):
                    continue
                reply = atr if body == GET_ATR else answer(body)
                if reply is None:
                    break
                vpcd.sendall(len(reply).to_bytes(2, "big") + reply)
            vpcd.shutdown(socket.SHUT_RDWR)

    with socket.create_connection(("127.0.0.1", PORT + slot)) as vpcd, vpcd.makefile("rb") as stream:
        served = threading.Thread(target=serve)
        served.start()
        try:
            wait_until(present or (lambda: card_present(slot)), "a card in the reader")
            before = changes(slot)
            yield
        finally:
            with contextlib.suppress(OSError):  # where it is taken out already
                vpcd.shutdown(socket.SHUT_RDWR)
            served.join(SECONDS)
    wait_for_removal(before, slot)


class Clip:
    """A clip on the cable of one of vpcd's slots. Behind it is the reader's program with a card that is kept in a file: with another file
    it is another card, and pcscd sees no change. `heard` has what passed: each command with its answer, and OFF and RESET."""

    def __init__(self, slot, text):
        self.slot = slot
        self.heard = []
        self.meddle = lambda _, command: self.ask(command)  # is given a command's number, from 1 on, and the command; returns its answer
        self.lock = threading.Lock()  # who has it may speak to the card
        self.folder = tempfile.TemporaryDirectory(prefix="limpet-clip-")
        self.path = os.path.join(self.folder.name, "box.card")
        self.behind, self.cable = contextlib.ExitStack(), contextlib.ExitStack()
        self.is_out = True
        self.put(text)
        self.insert()

    def put(self, text):
        """Another card, as its file has it."""
        with self.lock:
            self.behind.close()
            with open(self.path, "w", encoding="ascii", opener=lambda name, flags: os.open(name, flags, 0o600)) as file:
                file.write(text)
            self.line, self.reader = self.behind.enter_context(connected("--card", self.path))
            self.atr = bytes.fromhex(self.line.ask(GET_ATR))

    def text(self):
        with open(self.path, encoding="ascii") as file:
            return file.read()

    def take_out(self):
        self.is_out = True
        self.cable.close()

    def insert(self):
        """Where the card was taken out."""
        if self.is_out:
            self.cable.close()
            self.cable.enter_context(made_up(self.answer, self.atr, at_reset=self.at_reset, slot=self.slot))
            self.is_out = False

    def ask(self, command):
        with self.lock:
            return bytes.fromhex(self.line.ask(command))

    def answer(self, command):
        heard, place = self.heard, len(self.heard)
        heard.append((command, b""))  # so that it is seen that one came
        reply = self.meddle(sum(isinstance(passed, tuple) for passed in heard), command)
        self.is_out = reply is None
        heard[place] = command, reply
        return reply

    def at_reset(self, message):
        with self.lock:
            self.line.put(message)
        self.heard.append(message)

    def end(self):
        self.cable.close()
        self.behind.close()
        self.folder.cleanup()
