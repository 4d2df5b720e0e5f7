"""What is done at a console by a file, as `--do` and `do` name it: texts that are waited for, keys, pauses, and commands of the console."""

from __future__ import annotations

import contextlib
import os
import re
import threading
import time
from typing import Protocol

from options import Refused, keys_in, refuse

# How many bytes are kept of what nobody has waited for yet.
MOST_SEEN = 1 << 20
# The words that stand for something else than a command of the console.
WAIT, TYPE, SLEEP = "wait", "type", "sleep"

# A step: its word and what it is done with; a command of the console has no word.
Step = tuple[str | None, bytes | float]


class Writes(Protocol):
    """An output."""

    def write(self, some: bytes) -> None: ...


class Hears(Protocol):
    """Who hears what is written."""

    def hear(self, some: bytes) -> None: ...


class Types(Protocol):
    """Keys and commands on their way to a console."""

    def write(self, some: bytes) -> None: ...

    def command(self, line: bytes) -> None: ...


class Seen:
    """What has been seen at a console since the last text that was waited for; nothing is kept once no more texts are."""

    def __init__(self) -> None:
        self.text, self.is_over, self.changed = bytearray(), True, threading.Condition()
        self.is_closed = False

    def hear(self, some: bytes) -> None:
        """This was written."""
        if self.is_over:
            return
        with self.changed:
            self.text += some
            if len(self.text) > 2 * MOST_SEEN:
                del self.text[:-MOST_SEEN]
            self.changed.notify_all()

    def begin(self) -> None:
        """From now on it is kept, unless nothing more can come."""
        self.is_over = self.is_closed

    def end(self) -> None:
        """No text is waited for any more."""
        with self.changed:
            self.is_over = True
            self.text.clear()
            self.changed.notify_all()

    def close(self) -> None:
        """Nothing more can come."""
        self.is_closed = True
        self.end()

    def has_come(self, wanted: bytes) -> bool:
        """Waits for a text; false if nothing more can come before it does."""
        with self.changed:
            self.changed.wait_for(lambda: self.is_over or wanted in self.text)
            place = self.text.find(wanted)
            del self.text[: place + len(wanted) if place >= 0 else 0]
            return place >= 0


class Watched:
    """An output, and who hears what is written to it."""

    def __init__(self, output: Writes, *hearers: Hears) -> None:
        self.output, self.hearers = output, hearers

    def write(self, some: bytes) -> None:
        self.output.write(some)
        for it in self.hearers:
            it.hear(some)


def step_in(place: str, line: str) -> Step:
    """The step of a line."""
    word, _, rest = line.partition(" ")
    if word in (WAIT, TYPE):
        return word, keys_in(f"{place}: {line}", rest) or refuse(f"{place}: `{word}` is followed by a text")
    if word == SLEEP:
        return word, int(rest) / 1000 if re.fullmatch("[0-9]{1,9}", rest) else refuse(f"{place}: `{word}` is followed by milliseconds")
    return None, os.fsencode(line)


def steps_in(path: str) -> list[Step]:
    """The steps of a file, one a line; empty lines are left out, and those that begin with `#`. One that is none is refused, as is a file
    that cannot be read."""
    try:
        with open(path, "rb") as file:
            lines = enumerate(map(os.fsdecode, file.read().splitlines()), 1)
    except OSError as error:
        refuse(f"{path}: {error.strerror}")
    return [step_in(f"{path}, line {number}", line) for number, line in lines if line.strip() and not line.startswith("#")]


def do_all(steps: list[Step], keys: Types, seen: Seen) -> None:
    """Does these steps one after another, unless the console ends before."""
    for word, what in steps:
        if word == SLEEP:
            time.sleep(what)
        elif word == TYPE:
            keys.write(what)
        elif word is None:
            keys.command(what)
        elif not seen.has_come(what):
            break
    seen.end()


class Doing:
    """What is done by files at a console, by one of them at a time."""

    def __init__(self, seen: Seen) -> None:
        self.seen, self.is_busy = seen, threading.Lock()

    def begin(self) -> bool:
        """From now on what is seen is kept; false if another file is being done."""
        if not self.is_busy.acquire(blocking=False):
            return False
        self.seen.begin()
        return True

    def go_on(self, steps: list[Step], keys: Types) -> None:
        """Does the steps of a file that has begun."""
        with contextlib.suppress(OSError):
            do_all(steps, keys, self.seen)
        self.is_busy.release()

    def begin_file(self, path: str, keys: Types) -> str:
        """Begins to do what a file says, beside what is typed; gives what is said of that."""
        try:
            steps = steps_in(path)
        except Refused as why:
            return str(why)
        if not self.begin():
            return f"{path} is not done: another file is being done"
        threading.Thread(target=self.go_on, args=[steps, keys], daemon=True).start()
        return f"{path} is being done"
