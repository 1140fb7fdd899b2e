#!/usr/bin/env python3
"""Runs tools/alarms with some of it altered: altered.py ALTERATIONS WORDS..., where ALTERATIONS is JSON.

tool: box, to run tools/box in its place.
ANSWER_SECONDS, CARD_SECONDS, CODED_SECONDS: in place of its own.
typed_at: the number of a prompt; behind that one it goes on only once a line is typed.
readers: with a library in place of libpcsclite that has these readers, a list of names in hex and states. No card is real then.
challenges: such a card has files, and gives challenges; all else it answers at random.
seeds: first and last. It is run once for each, on a card that answers at random; a line of output tells each status, and one more where
anything was sent behind a wrong code (6988).
slow: seconds that such a card takes for each answer; it has alarms without end then.
alarms: how many such a card has, in the place of alarms without end.
"""
import importlib.machinery
import importlib.util
import itertools
import json
import os
import random
import select
import sys
import time

TOOLS = os.path.join(os.path.dirname(os.path.dirname(os.path.dirname(os.path.abspath(__file__)))), "tools")
WORDS = ["6108", "6100", "6982", "63C3", "6A83", "6A82", "6983", "6F00", "6C08", "1234", "6988", "6984"]


def loaded(name):
    sys.dont_write_bytecode = True  # it would stand beside the tool
    loader = importlib.machinery.SourceFileLoader(f"tools_{name}", os.path.join(TOOLS, name))
    module = importlib.util.module_from_spec(importlib.util.spec_from_loader(loader.name, loader))
    loader.exec_module(module)
    return module


def wait_at(prompt):
    write, prompts = os.write, itertools.count(1)

    def write_and_wait(file, data):
        wait = data.endswith(b"): ") and next(prompts) == prompt
        written = write(file, data)
        if wait:
            select.select([file], [], [])
        return written

    os.write = write_and_wait


class Library:
    """The calls of libpcsclite that the tools make."""

    def __init__(self, readers, answer):
        self.readers = [(bytes.fromhex(name), state) for name, state in readers]
        self.answer = answer
        self.wrong_code = False  # one was sent

    def SCardEstablishContext(self, *_):
        return 0

    def SCardReleaseContext(self, *_):
        return 0

    def SCardListReaders(self, _, __, room, length):
        names = b"".join(name + b"\0" for name, _ in self.readers) + b"\0"
        room[: len(names)] = names
        length._obj.value = len(names)
        return 0

    def SCardGetStatusChange(self, _, __, states, ___):
        for state, (_, event) in zip(states, self.readers):
            state.event = event
        return 0

    def SCardConnect(self, *_):
        return 0

    def SCardReconnect(self, *_):
        return 0

    def SCardDisconnect(self, *_):
        return 0

    def SCardTransmit(self, _, __, command, ___, ____, room, length):
        if self.wrong_code:
            print("sent behind a wrong code", flush=True)
        answer = self.answer(command)
        self.wrong_code = command[0] == 0x04 and answer[-2:] == b"\x69\x88"
        room[: len(answer)] = answer
        length._obj.value = len(answer)
        return 0


SELECT, GET_CHALLENGE = 0xA4, 0x84


def at_random(seed, challenges):
    """A card that answers anything, of a few status words. As with vpcd the call never comes back where the answer has no byte."""
    chance = random.Random(seed)
    words = ["9000", *chance.sample(WORDS, 2)]

    def answer(command):
        if challenges and command[1] in (SELECT, GET_CHALLENGE):
            return chance.randbytes(16 if command[1] == GET_CHALLENGE else 0) + b"\x90\x00"
        data = chance.randbytes(chance.choice([0, 8, 8, 8, 9, 256]))
        answer = data + bytes.fromhex(chance.choice(words))
        answer = chance.choice([answer] * 20 + [b"", answer[:1]])
        while not answer:
            time.sleep(60)
        return answer

    return answer


def slowly(seconds, count):
    def answer(command):
        time.sleep(seconds)
        if command[1] in (SELECT, GET_CHALLENGE):
            return bytes(16 if command[1] == GET_CHALLENGE else 0) + b"\x90\x00"
        if command[2] > count:
            return b"\x6a\x83"
        return bytes.fromhex(f"{1000 - command[2]:08X}010200039000")

    return answer


alterations = json.loads(sys.argv[1])
tool = loaded(alterations.get("tool", "alarms"))
from pcsc import connection  # noqa: E402: the tool has told where it is

sys.argv = [tool.__file__, *sys.argv[2:]]
for name in ("ANSWER_SECONDS", "CARD_SECONDS", "CODED_SECONDS"):
    setattr(connection, name, alterations.get(name, getattr(connection, name)))
if "typed_at" in alterations:
    wait_at(alterations["typed_at"])
if "seeds" in alterations:
    for seed in range(*alterations["seeds"]):
        connection.ctypes.CDLL = lambda _: Library(alterations["readers"], at_random(seed, "challenges" in alterations))
        print(f"seed {seed}: status {tool.main()}", flush=True)
    sys.exit()
if "readers" in alterations:
    connection.ctypes.CDLL = lambda _: Library(alterations["readers"], slowly(alterations.get("slow", 0), alterations.get("alarms", 255)))
sys.exit(tool.main())
