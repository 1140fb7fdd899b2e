"""What a command tells: lines for a person, or with --json one object for a program."""
import json
import os
import sys

RED, GREEN = "31", "32"


class Answer:
    def __init__(self, command, as_json):
        self.as_json = as_json
        self.changed = False  # the card was, and that was seen
        self.facts = {"command": command, "status": None, "error": None, "sw": None, "reader": None}

    def tell(self, **facts):
        self.facts.update(facts)

    def confirm(self):
        """The card was changed, and that was seen."""
        self.changed = True
        self.tell(confirmed=True)

    def doubt(self):
        """Whether it was changed is not known."""
        if "now" in self.facts:
            self.tell(now=None)

    def is_seen(self):
        """Whether a person at the terminal sees what is said."""
        return not self.as_json and sys.stdout.isatty()

    def say(self, line, colour=None):
        """At once, so that it stands before a question."""
        if self.as_json:
            return
        if colour and self.is_seen() and "NO_COLOR" not in os.environ:
            line = f"\x1b[{colour}m{line}\x1b[0m"
        print(line, flush=True)

    def end(self, status, failure=None):
        """failure: why the status is not 0."""
        if self.as_json:
            self.tell(status=status, error=failure and str(failure), sw=getattr(failure, "word", None))
            print(json.dumps(self.facts), flush=True)
        return status
