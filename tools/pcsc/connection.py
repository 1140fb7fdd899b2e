"""The card in the reader, through libpcsclite."""
import contextlib
import ctypes
import os
import queue
import signal
import threading
import time

from .commands import GET_RESPONSE
from .words import Failure, legible, unexpected

# Long, as pcsclite.h and wintypes.h of Linux have it.
DWORD = ctypes.c_ulong
HANDLE = ctypes.c_long
SCOPE_SYSTEM, SHARE_EXCLUSIVE, PROTOCOL_T0, PROTOCOL_T1, RESET_CARD = 2, 1, 1, 2, 1
NO_WAIT, EMPTY = 0, 0x10  # of SCardGetStatusChange: a time, and the state of a reader that has no card
REPLY_MAX = 258
ANSWER_SECONDS, CARD_SECONDS = 8, 60  # for one call, and for all; the largest file takes some 20 in a slow reader
ENDS = {signal.SIGINT, signal.SIGTERM, signal.SIGHUP, signal.SIGQUIT}  # that end the program
CODED_SECONDS = 2 * CARD_SECONDS  # for all, where each read has a challenge too

NO_PCSCD = "pcscd is not running; start it: systemctl start pcscd, or, where there is no systemd, pcscd as root"
NO_ANSWER = "the card stopped answering; was it taken out?"
TOO_LONG = "the card or its reader takes too long to answer; take the card out, put it in again and start again"
PCSC_SAYS = {
    0x8010001D: NO_PCSCD,
    0x8010001E: NO_PCSCD,
    0x8010002E: "no reader; plug one in, or start the virtual one",
    0x80100009: "there is no reader of that name; opensc-tool -l lists them",
    0x8010000C: "no card in the reader; put it in, the right way round",
    0x80100016: NO_ANSWER,
    0x80100066: "the card does not answer; is it the right way round?",
    0x80100067: "the card has no power; take it out and put it in again",
    0x80100068: "another program reset the card; run this again",
    0x80100069: "the card was taken out",
    0x8010000B: "another program is using the card; end it first",
    0x8010000F: "the card speaks neither T=0 nor T=1",
    0x8010006A: "this user may not use the card; ask whoever looks after the machine",
}


class IoRequest(ctypes.Structure):
    _fields_ = [("protocol", DWORD), ("length", DWORD)]


class ReaderState(ctypes.Structure):
    _fields_ = [("reader", ctypes.c_char_p), ("user_data", ctypes.c_void_p), ("current", DWORD), ("event", DWORD),
                ("atr_length", DWORD), ("atr", ctypes.c_ubyte * 33)]


class Pcsc:
    """A card in a reader, for this program alone until it is closed. Closing resets it. coded: whether codes are sent. readings: how
    often a file may be read whole."""

    def __init__(self, reader, coded, readings=1):
        try:
            self.library = ctypes.CDLL("libpcsclite.so.1")
        except OSError:
            raise Failure("there is no libpcsclite.so.1; install Debian's libpcsclite1 and pcscd") from None
        self.context = HANDLE()
        self.card = None
        self.seconds = readings * (CODED_SECONDS if coded else CARD_SECONDS)  # that are left
        self.under_way = False  # a call has not come back
        self.call("SCardEstablishContext", DWORD(SCOPE_SYSTEM), None, None, ctypes.byref(self.context))
        try:
            self.reader = reader or self.only_reader()
            self.connect()
        except BaseException:
            self.close()
            raise

    def raw(self, name, *words):
        """The result of a PC/SC call; 0 where it is good. A thread makes it: a card whose answer has no byte lets vpcd wait for ever,
        and so would the call, and Ctrl-C with it. Signals come in only while it waits: a thread's begin and end run code of Python's own
        that would swallow what a signal raises."""
        results = queue.SimpleQueue()
        started = time.monotonic()
        self.under_way = True
        before = signal.pthread_sigmask(signal.SIG_BLOCK, ENDS)
        try:
            thread = threading.Thread(target=lambda: results.put(getattr(self.library, name)(*words)), daemon=True)
            thread.start()
            try:
                signal.pthread_sigmask(signal.SIG_SETMASK, before)
                result = results.get(timeout=max(0, min(ANSWER_SECONDS, self.seconds)))
            except queue.Empty:
                raise Failure(TOO_LONG) from None
            finally:
                signal.pthread_sigmask(signal.SIG_BLOCK, ENDS)
            thread.join()
            self.under_way = False
        finally:
            thread = None
            signal.pthread_sigmask(signal.SIG_SETMASK, before)
        self.seconds -= time.monotonic() - started
        return result & 0xFFFFFFFF

    def call(self, name, *words, who=""):
        result = self.raw(name, *words)
        if result != 0:
            raise Failure(who + PCSC_SAYS.get(result, f"{name} failed with {result:08X}"))

    def readers(self):
        room = ctypes.create_string_buffer(65536)
        length = DWORD(len(room))
        self.call("SCardListReaders", self.context, None, room, ctypes.byref(length))
        return [name for name in room.raw[: length.value].split(b"\0") if name]

    def only_reader(self):
        """The reader that has a card, seen without touching any. Where several have one, a choice could be another box's."""
        states = [ReaderState(reader=name) for name in self.readers()]
        states = (ReaderState * len(states))(*states)
        self.call("SCardGetStatusChange", self.context, DWORD(NO_WAIT), states, DWORD(len(states)))
        names = [os.fsdecode(state.reader) for state in states]
        filled = [name for name, state in zip(names, states) if not state.event & EMPTY]
        if len(filled) > 1:
            choices = [f"  --reader {legible(name)}" for name in filled]
            raise Failure("\n".join([f"{len(filled)} readers have a card; say which:", *choices]))
        if not filled:
            readers = ("readers " if len(names) > 1 else "reader ") + ", ".join(map(legible, names))
            raise Failure(f"no card in the {readers}; put it in, the right way round")
        return filled[0]

    def connect(self):
        card, self.protocol = HANDLE(), DWORD()
        self.call("SCardConnect", self.context, os.fsencode(self.reader), DWORD(SHARE_EXCLUSIVE), DWORD(PROTOCOL_T0 | PROTOCOL_T1),
                  ctypes.byref(card), ctypes.byref(self.protocol), who=f"{legible(self.reader)}: ")
        self.card = card

    def reset(self):
        """And nobody else comes to the card in between."""
        self.call("SCardReconnect", self.card, DWORD(SHARE_EXCLUSIVE), DWORD(PROTOCOL_T0 | PROTOCOL_T1), DWORD(RESET_CARD),
                  ctypes.byref(self.protocol))

    def send(self, command):
        """The card's answer: data, and the status word as four hex digits. What a card of mode 1 lets wait is fetched."""
        data, word = self.exchange(command)
        if word.startswith("61"):
            data, word = self.exchange([*GET_RESPONSE, 0x00, 0x00, int(word[2:], 16)])
            if word != "9000":
                raise unexpected(word, "GET RESPONSE")
        return data, word

    def exchange(self, command):
        room = ctypes.create_string_buffer(REPLY_MAX)
        length = DWORD(len(room))
        request = IoRequest(self.protocol, ctypes.sizeof(IoRequest))
        self.call("SCardTransmit", self.card, ctypes.byref(request), bytes(command), DWORD(len(command)), None,
                  room, ctypes.byref(length))
        answer = room.raw[: length.value]
        if len(answer) < 2:
            raise Failure(NO_ANSWER)  # no status word: so vpcd answers for a card that is gone
        return answer[:-2], answer[-2:].hex().upper()

    def close(self):
        """Where a call is under way the end of this program has pcscd do the same, once the call comes back."""
        with contextlib.suppress(Failure):
            if self.card is not None and not self.under_way:
                self.raw("SCardDisconnect", self.card, DWORD(RESET_CARD))
            if not self.under_way:
                self.raw("SCardReleaseContext", self.context)
