#!/usr/bin/env python3
"""tools/box where something goes wrong: another program changes the file, the cable clip alters or keeps back what passes, the card is
taken out at each command in turn, a signal comes. boxes.py has what is true of each run: it ends with a reset, no PIN is presented twice,
and it says that nothing was changed only where that is so.
"""
import functools
import os
import random
import signal

from boxes import (GET_RESPONSE, LIMITS, NOTES, QUESTION, READ_BINARY, READ_RECORD, USER, VERIFY, WRITES, WRITING, but_tries, limit_file,
                   note_file, on_both_modes, words_of)
from stack import OpenscTool, check


def at_write(box, act):
    """A clip that does `act` in the place of the card at the write that a shown PIN allows."""
    shown = []

    def meddle(_, command, __):
        if command[1] in WRITES and shown:
            return act(command)
        reply = box.clip.ask(command)
        shown.extend([command] if command[1] == VERIFY and reply == b"\x90\x00" else [])
        return reply

    return meddle


def after_write(box, act):
    """A clip that does `act` in the place of the card at each read behind the write."""
    written = []

    def meddle(_, command, __):
        if written and command[1] in (READ_BINARY, READ_RECORD, GET_RESPONSE):
            return act(command)
        reply = box.clip.ask(command)
        written.extend([command] if command[1] in WRITES and reply == b"\x90\x00" else [])
        return reply

    return meddle


def by_another(box, command):
    """What somebody else does on the card, with rights that are held."""
    reply = box.clip.ask(bytes.fromhex(command))
    check(f"mode {box.mode}: another program's {command}", reply == b"\x90\x00", reply.hex())
    box.before = box.clip.text()


def another_card(box):
    """While the question stands the card is taken out, and another one is put in."""
    def change(terminal):
        box.clip.take_out()
        box.put(user_tries=2)
        box.clip.insert()
        terminal.type("y")

    for name, (words, options) in WRITING.items():
        box.put()
        run = box.type(f"{name}: another card at the question", *words, dialogue=[(QUESTION, change)], **options)
        box.is_good(f"{name}: another card at the question", run, run.status in (1, 3) and run.before == run.after)


def changed_between(box):
    """Another program changes the file between read and write, or between write and read-back."""
    for name, others in (("limit", ("00D682080132", "00D682060132")),
                         ("note", ("00E2001803627573", "00DC011C0E" + b"L7 belt 12 Dec".hex())),
                         ("correct", ("00DC021C14" + b"L12 motor HOT, watch".hex(), "00E2001803627573"))):
        words, options = WRITING[name]
        for other in others:
            def first(command):
                by_another(box, other)
                return box.clip.ask(command)

            def last(command):
                reply = box.clip.ask(command)
                by_another(box, other)
                return reply

            for when, act in (("before", first), ("after", last)):
                if (name, other[:8], when) == ("limit", "00D68206", "before"):
                    continue  # nothing is read between the two, and the byte is written over
                box.put()
                run = box.run(f"{name}, and {other} {when} the write", *words, "--yes", meddle=at_write(box, act), **options)
                box.is_good(f"{name}, and {other} {when} the write: it is not confirmed", run, run.status == 3 and run.err)


def changed_at_question(box):
    """Another program changes what is to be written while the question stands; nobody needs a PIN on this card."""
    for name, words, other in (("limit", ("limit", "7", "10"), "00D682060132"), ("limit", ("limit", "7", "10"), "00D682080132"),
                               ("note", ("note", "L3 sensor new"), "00E2001803627573"),
                               ("correct", ("note", "--correct", "1", "L7 belt 9 Nov"), "00DC011C0E" + b"L7 belt 12 Dec".hex())):
        def meanwhile(terminal):
            by_another(box, other)
            terminal.type("y")

        box.put(limit_file(LIMITS, "0000") + note_file(*NOTES, rights="0000"))
        run = box.type(f"{name}, and {other} at the question", *words, dialogue=[(QUESTION, meanwhile)])
        box.is_good(f"{name}, and {other} at the question: it says so and writes nothing", run, run.status == 1 and run.as_it_was)


def turned(reply):
    """The answer with a bit of its data turned."""
    return bytes([reply[0] ^ 1]) + reply[1:] if len(reply) > 2 else reply


def shorter(reply):
    return reply[1:] if len(reply) > 2 else reply


def kept_back(box):
    """The clip keeps the write back and says 9000; says something else though it was done; and alters what is read back."""
    for name, (words, options) in WRITING.items():
        box.put()
        run = box.run(f"{name}: kept back", *words, "--yes", meddle=at_write(box, lambda _: b"\x90\x00"), **options)
        box.is_good(f"{name}: kept back, and it is not confirmed", run, run.status in (1, 3) and run.as_it_was)

        def denied(command):
            box.clip.ask(command)
            return b"\x65\x81"

        box.put()
        run = box.run(f"{name}: done, and answered 6581, which is none of the card's words", *words, "--yes", meddle=at_write(box, denied), **options)
        box.is_good(f"{name}: done, and answered 6581", run, run.status in (0, 3))
    for name in ("limit", "note", "correct"):
        words, options = WRITING[name]
        for what, act in (
            ("a bit turned", lambda command: turned(box.clip.ask(command))), ("one byte less", lambda command: shorter(box.clip.ask(command))),
            ("6F00", lambda command: b"\x6f\x00"), ("nothing but 9000", lambda command: b"\x90\x00"), ("6A83", lambda command: b"\x6a\x83"),
        )[box.mode::2]:
            box.put()
            run = box.run(f"{name}: {what} for what is read back", *words, "--yes", meddle=after_write(box, act), **options)
            box.is_good(f"{name}: {what} for what is read back", run, run.status == 3 and not run.as_it_was and run.err)


def each_answer_lost(box, names):
    """At each command in turn the card does it, and 6F00 is answered, as by the virtual reader."""
    for name in names:
        box.put()
        words, options = words_of(name)
        good = box.run(f"{name}, as it should be", *words, **options)
        box.is_good(f"{name}, as it should be", good, good.status == 0)
        for number in range(1, len(good.sent) + 1):
            def lost(now, command, _):
                reply = box.clip.ask(command)
                return b"\x6f\x00" if now == number else reply

            box.put()
            run = box.run(f"{name}: 6F00 at command {number}", *words, meddle=lost, **options)
            # A read may be sent again; tries that are not known, or a PIN that may have been wrong, end it.
            is_read = good.sent[number - 1][2:4] in ("B0", "B2", "C0")
            again = is_read and (run.status, run.out, but_tries(run.after)) == (0, good.out, but_tries(good.after))
            box.is_good(f"{name}: 6F00 at command {number}", run, again or run.err and run.status in ((1, 3) if name in WRITING else (1,)))


def taken_out(box, names):
    """At each command in turn the card does it, and is taken out before its answer."""
    for name in names:
        words, options = words_of(name)
        box.put()
        good = box.run(f"{name}, as it should be", *words, **options)
        write = next((number for number, (command, reply) in enumerate(good.commands, 1) if command[1] in WRITES and reply == b"\x90\x00"),
                     len(good.sent) + 1)
        for number in range(1, len(good.sent) + 1):
            def pulled(now, command, _):
                reply = box.clip.ask(command)
                return None if now == number else reply

            box.put()
            run = box.run(f"{name}: taken out at command {number}", *words, meddle=pulled, **options)
            asked = int(good.sent[number - 1][2:4], 16) in WRITES  # without a PIN, and not done: who lacks the answer cannot know
            due = 3 if number >= write or asked else 1
            box.is_good(f"{name}: taken out at command {number}", run, run.status == due and "taken out" in run.err)


def each_struck(box, signals):
    """At each command in turn a signal comes while the tool waits for the answer."""
    for name, number in signals.items():
        words, options = words_of(name)
        box.put()
        good = box.run(f"{name}, as it should be", *words, **options)
        for place in range(1, len(good.sent) + 1):
            def struck(now, command, tool):
                if now == place:
                    os.kill(tool, number)
                return box.clip.ask(command)

            box.put()
            run = box.run(f"{name}: {number.name} at command {place}", *words, meddle=struck, **options)
            box.is_good(f"{name}: {number.name} at command {place}", run, run.status == 3 or run.status in (1, -number) and run.as_it_was)


def struck_at_prompts(box):
    for number in (signal.SIGINT, signal.SIGTERM, signal.SIGHUP):
        for name, pattern, options in (("the question", QUESTION, {"pin": USER}), ("the PIN", r"PIN[^\n]*: $", {})):
            box.put()
            words = ("limit", "7", "10") if name == "the question" else ("limit", "7", "10", "--yes")
            run = box.type(f"{number.name} at {name}", *words, dialogue=[(pattern, lambda terminal: os.kill(terminal.pid, number))], **options)
            box.is_good(f"{number.name} at {name}", run, run.status in (1, -number) and run.as_it_was)


ANSWERS = ["9000", "6982", "6983", "63C0", "63C2", "6A82", "6A83", "6A84", "6700", "6981", "6984", "6988", "6108", "6120", "6C08", "6F00", "1234"]


def at_random(box, seeds):
    """Each command is done and answered by the card, or neither: then anything is answered. It may be done only where all is as it should be."""
    for name in WRITING:
        box.put()
        words, options = words_of(name)
        good = box.run(f"{name}, as it should be", *words, **options)
        for seed in range(seeds):
            chance = random.Random(f"{name} {seed}")

            def answer(_, command, __):
                if chance.random() < 0.9:
                    return box.clip.ask(command)
                return chance.randbytes(chance.choice([0, 0, 1, 14, 32, 256])) + bytes.fromhex(chance.choice(ANSWERS))

            box.put()
            run = box.run(f"{name}, answered at random, {seed}", *words, meddle=answer, **options)
            box.is_good(f"{name}, answered at random, {seed}", run, run.status in (1, 3) or but_tries(run.after) == but_tries(good.after))


def in_use(box):
    """While the question stands no other program reaches the card."""
    seen = []

    def other(terminal):
        seen.append(OpenscTool().run("-r", box.reader, "-s", "00200001"))
        terminal.type("n")

    box.put()
    run = box.type("another program at the question", "limit", "7", "10", pin=USER, dialogue=[(QUESTION, other)])
    box.is_good("another program at the question is refused", run, seen and seen[0].returncode != 0 and "in use" in seen[0].stderr)
    box.is_good("another program at the question: nothing of it is heard", run, run.status == 1 and "00200001" not in run.sent)


def nowhere_to_write(box):
    """What was done and cannot be told is not told to be nothing."""
    for name, (words, options) in WRITING.items():
        box.put()
        run = box.run(f"{name}, and standard output is full", *words, "--yes", wrapper=("bash", "-c", 'exec "$@" >/dev/full', "-"), **options)
        box.is_good(f"{name}, and standard output is full", run, run.status == 3 or run.as_it_was and run.status == 1)


on_both_modes(
    (another_card, in_use, changed_between, changed_at_question, kept_back, functools.partial(at_random, seeds=4), nowhere_to_write),
    ((struck_at_prompts, functools.partial(each_answer_lost, names=("limit", "pin", "status")),
      functools.partial(each_struck, signals={"limit": signal.SIGINT, "unblock": signal.SIGHUP}),
      functools.partial(taken_out, names=("limit", "note", "pin"))),
     (functools.partial(each_answer_lost, names=("note", "unblock", "alarms")), functools.partial(each_struck, signals={"correct": signal.SIGTERM}),
      functools.partial(taken_out, names=("correct", "unblock", "limits")))))
