"""How the comparison starts programs, and how it reports what it finds."""

import shlex
import subprocess
import sys
import textwrap
from collections import Counter
from pathlib import Path
from typing import NamedTuple

ROOT = Path(__file__).resolve().parent.parent
SHOWN = 20


class Answer(NamedTuple):
    """What a program printed, its status, and what it said on standard error, where that is looked at."""

    text: bytes
    status: int
    said: bytes = b""


class Program:
    """One way to start a program: input in, standard output and status out, standard error where it is asked for."""

    def __init__(self, command, errors=False):
        self.command = shlex.split(command)
        self.errors = subprocess.PIPE if errors else None

    def __call__(self, data, *words):
        """The words stand behind the command."""
        try:
            done = subprocess.run([*self.command, *words], input=data, stdout=subprocess.PIPE, stderr=self.errors,
                                  cwd=ROOT, timeout=120)
        except subprocess.TimeoutExpired:
            return Answer(b"(no end after 120 seconds)", -1)
        except OSError as error:
            sys.exit(f"cannot start {self.command[0]}: {error.strerror}")
        if done.returncode < 0 or done.returncode > 128:
            return Answer(done.stdout + b"(ended by a signal)", done.returncode)
        return Answer(done.stdout, done.returncode, done.stderr or b"")


class Report:
    """What was compared, and what was found."""

    def __init__(self, keep):
        self.keep = keep
        self.counts = {}
        self.faults = 0

    def count(self, group, name):
        self.counts.setdefault(group, Counter())[name] += 1

    def need(self, group, names):
        """Makes the names known, so that one that never occurs shows as 0 and fails."""
        known = self.counts.setdefault(group, Counter())
        for name in names:
            known[name] += 0

    def fault(self, where, what, pairs=(), data=None):
        self.faults += 1
        if self.faults > SHOWN:
            return
        print(f"FAULT {where}: {what}")
        for name, answer in pairs:
            print(f"  {name}: {shorten(answer)}")
        if self.keep and data is not None:
            path = Path(self.keep) / f"fault-{self.faults}"
            path.write_bytes(data)
            print(f"  input kept as {path.name}")

    def summary(self):
        missing = []
        for group, counter in self.counts.items():
            print(f"{group}:")
            print(paragraph(f"{name} ({number})" for name, number in counter.items()))
            missing += [f"{group}, {name}" for name, number in counter.items() if number == 0]
        for name in missing:
            print(f"NEVER OCCURRED {name}")
        print(f"faults: {self.faults}, never occurred: {len(missing)}")
        return self.faults == 0 and not missing


def paragraph(items):
    """The items in lines of a readable width, none of them broken in two."""
    text = ", ".join(item.replace(" ", "_") for item in items)
    return textwrap.fill(text, 118, initial_indent="  ", subsequent_indent="  ").replace("_", " ")


def shorten(answer):
    if isinstance(answer, Answer):
        said = f", standard error {shorten(answer.said)}" if answer.said else ""
        return f"status {answer.status}, {shorten(answer.text)}{said}"
    text = answer.decode("ascii", "replace") if isinstance(answer, bytes) else str(answer)
    text = text.replace("\n", " / ")
    return text if len(text) <= 300 else f"{text[:200]} ... {text[-80:]} ({len(text)} characters)"
