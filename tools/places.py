"""Hosts at places: on this machine, or wherever ssh leads. Each place has one host at a time, and is tried again when that has ended."""

import contextlib
import os
import re
import select
import shlex
import subprocess
import threading
import time

from hosts import PATIENCE, ROLES, Hosts, last_words
from version import commit_in, this_version

HERE = "here"
# What a place's shell does there: it says which program it has, waits for a role, and is then a host. Nothing of it is a host's before that,
# so a place that cannot be reached costs no host.
AWAY = (
    'v=$("$0" --version 2>&1 | head -n 1); case $v in "pair "*) ;; *) echo "${v:-no program $0}" >&2; exit 127;; esac; '
    'echo "pair: ready: $v"; read role && exec "$0" host --role "$role" "$@"'
)
READY = re.compile(rb"^pair: ready: (.*)\n", re.MULTILINE)
# How many seconds the hosts of a console that begins are waited for, and how many a place has to answer.
GATHERED, ANSWERED = 10, 20
# After how many seconds a place is tried again, at first and at last; a host that has lived for as long as the latter begins anew.
SOONEST, LATEST = 1, 60
# How much a place may say before its program does.
MOST_SAID = 65536
# The words of a place that ssh understands, and no option of it.
PLACE = re.compile(r"[^\s\x00-\x1f\x7f-][^\s\x00-\x1f\x7f]*")


def is_place(word):
    """Whether a word may name a place."""
    return bool(PLACE.fullmatch(word))


def away_words(place, program, words):
    """The words of the command that reaches a program elsewhere. Its own are the user's; but nothing asks at the terminal, and no
    terminal is between."""
    home, path = ("~/", program[2:]) if program.startswith("~/") else ("", program)
    command = f"sh -c {shlex.quote(AWAY)} {home}{shlex.quote(path)} {shlex.join(words)}"
    return ["ssh", "-T", "-o", "BatchMode=yes", place, command]


class Unreached(Exception):
    """Why there is no host at a place."""


class Seat:
    """A place for one host at a time: the host's number while it runs, or why none does."""

    def __init__(self, place, is_asked=False):
        self.place, self.is_asked = place, is_asked
        self.number, self.why, self.failures, self.is_closed = None, None, 0, False
        # What is ready to be a host; whether that was tried; and what ends a wait for the next try.
        self.line, self.tried, self.wake = None, threading.Event(), threading.Event()

    def wait(self):
        """For how many seconds the next try is waited for."""
        return min(SOONEST << min(self.failures, 16), LATEST)


class Line:
    """A way to a host elsewhere: ssh, and what carries frames between its streams and the host's named pipes."""

    def __init__(self, words, said):
        self.said = said
        with open(said, "wb") as file:
            how = {"stdin": subprocess.PIPE, "stdout": subprocess.PIPE, "stderr": file, "start_new_session": True}
            self.process, self.carriers = subprocess.Popen(words, bufsize=0, **how), []

    def await_ready(self):
        """What the place says of its program, once it is ready."""
        heard, ends = b"", time.monotonic() + ANSWERED
        while not (found := READY.search(heard)):
            left = ends - time.monotonic()
            if left <= 0 or len(heard) > MOST_SAID or not select.select([self.process.stdout], [], [], left)[0]:
                raise Unreached(f"no answer within {ANSWERED} seconds")
            some = os.read(self.process.stdout.fileno(), MOST_SAID)
            if not some:
                raise Unreached(self.why_ended())
            heard += some
        return found[1].decode(errors="replace")

    def why_ended(self):
        """Why ssh has ended, in its own words."""
        with contextlib.suppress(subprocess.TimeoutExpired):
            self.process.wait(PATIENCE)
        return last_words(self.said) or f"ssh has ended with status {self.process.poll()}"

    def begin(self, role, pipe_in, pipe_out):
        """Makes it a host: from now on frames go both ways."""
        with contextlib.suppress(OSError):
            os.write(self.process.stdin.fileno(), f"{role}\n".encode())
        for command, path, ends in (
            ('exec cat < "$1"', pipe_in, {"stdin": subprocess.DEVNULL, "stdout": self.process.stdin}),
            ('exec cat > "$1"', pipe_out, {"stdin": self.process.stdout, "stdout": subprocess.DEVNULL}),
        ):
            words = ["sh", "-c", command, "cat", path]
            self.carriers.append(subprocess.Popen(words, stderr=subprocess.DEVNULL, start_new_session=True, **ends))
        self.close()

    def close(self):
        """The streams are the carriers' alone, or nobody's."""
        self.process.stdin.close()
        self.process.stdout.close()

    def end(self):
        """Ends it, and all that carries frames for it; what it has said still goes on."""
        self.process.kill()
        self.process.wait()
        for it in self.carriers[1:]:
            with contextlib.suppress(subprocess.TimeoutExpired):
                it.wait(PATIENCE)
        for it in self.carriers:
            it.kill()
            it.wait()


class PlacedHosts(Hosts):
    """Hosts at the places of --host."""

    def __init__(self, program, asked, says):
        super().__init__(program, asked, says)
        self.seats = [Seat(it) for it in asked.at]
        self.may_begin, self.tries, self.numbers, self.lines = threading.Event(), 0, 0, []

    def gather(self, is_over):
        """Waits until each place has answered, has failed, or is late; returns whether one is ready."""
        for seat in self.seats:
            threading.Thread(target=self.keep, args=(seat,), daemon=True).start()
        ends = time.monotonic() + GATHERED
        for seat in self.seats:
            while not seat.tried.wait(0.1) and not is_over() and time.monotonic() < ends:
                pass
        return any(it.line for it in self.seats)

    def begin(self):
        """The first places that are ready become primary and backup, all others spares. Whoever is ready later is a spare."""
        with self.lock:
            ready = [it for it in self.seats if it.line]
            for seat in ready:
                self.take(seat)
            self.numbers = max(self.numbers, len(ROLES))
        self.may_begin.set()

    def keep(self, seat):
        """Has a host run at a place, again and again."""
        while not self.over.is_set() and not seat.is_closed:
            seat.wake.clear()
            began = time.monotonic()
            try:
                self.reach(seat)
                self.serve(seat)
            except Unreached as error:
                self.note(seat, str(error), f"; it is tried again in {seat.wait()} s")
            if time.monotonic() - began > LATEST:
                seat.failures = 0
            seat.tried.set()
            waits = seat.wait()
            seat.failures += 1
            seat.wake.wait(waits)

    def note(self, seat, why, more=""):
        """Says why there is no host at a place, unless that was said."""
        is_new, seat.why = why != seat.why, why
        if is_new and not self.over.is_set():
            self.says(f"no host at {seat.place}: {why}{more}")

    def reach(self, seat):
        """Gets a place ready for a host."""
        if seat.place == HERE:
            seat.line = HERE
            return
        with self.lock:
            self.tries += 1
            said = f"{self.asked.folder}/try.{self.tries}"
        try:
            line = Line(away_words(seat.place, self.asked.away_program, self.asked.host_options()), said)
        except OSError as error:
            raise Unreached(f"ssh: {error.strerror}") from error
        self.lines.append(line)
        try:
            theirs, ours = commit_in(line.await_ready()), commit_in(this_version())
            if theirs and ours and theirs != ours:
                raise Unreached(f"its pair is of commit {theirs}, and this one of commit {ours}")
        except Unreached:
            self.drop(line)
            raise
        seat.line = line

    def drop(self, line):
        line.end()
        line.close()
        self.lines.remove(line)

    def serve(self, seat):
        """Has what is ready be a host, once the pair has begun, and waits until that has ended."""
        seat.tried.set()
        self.may_begin.wait()
        with self.lock:
            number = seat.number if seat.number is not None else self.take(seat)
        line = seat.line
        if number is not None:
            self.await_ended(number)
            seat.why = f"host {number} has ended"
        else:
            seat.is_closed = True
            self.note(seat, "there have been as many hosts as there may be")
        with self.lock:
            seat.line = seat.number = None
        if line != HERE:
            self.drop(line)

    def take(self, seat):
        """Makes what is ready at a place the next host; gives its number, or nothing if there may be no more."""
        number = self.numbers
        if self.over.is_set() or number >= self.asked.places() or number >= self.most(seat):
            return None
        self.numbers += 1
        if seat.line == HERE:
            self.launch(number, self.start_here(number))
        else:
            seat.line.begin(ROLES[number] if number < len(ROLES) else "spare", self.path(number, "in"), self.path(number, "out"))
            os.rename(seat.line.said, self.path(number, "said"))
            self.launch(number, seat.line.process, f", ssh to {seat.place}")
        seat.number, seat.why = number, None
        return number

    def most(self, seat):
        """How many hosts there may be with one at this place."""
        asked = sum(it.is_asked for it in self.seats)
        return self.asked.hosts + self.asked.later + (asked if seat.is_asked else 0)

    def add(self):
        """Has a place without a host tried at once, or one more host come at the first that has the fewest; returns what is said of it."""
        with self.lock:
            free = [it for it in self.seats if it.number is None and not it.is_closed]
            places = [it.place for it in self.seats]
            seat = free[0] if free else Seat(min(self.asked.at, key=places.count), True)
            if not free:
                self.seats.append(seat)
        if free:
            seat.wake.set()
        else:
            threading.Thread(target=self.keep, args=(seat,), daemon=True).start()
        return f"a spare is to come at {seat.place}"

    def named(self, number, process):
        """How a status names a host's process."""
        place = next((it.place for it in self.seats if it.number == number), HERE)
        return f"process {process.pid}" if place == HERE else f"process {process.pid}, ssh to {place}"

    def vacant(self):
        """A line for each place that has no host, with the reason."""
        return [f"no host at {it.place}: {it.why or 'none has come yet'}" for it in self.seats if it.number is None]

    def end(self):
        self.over.set()
        self.may_begin.set()
        for seat in self.seats:
            seat.wake.set()
        ends = time.monotonic() + PATIENCE
        super().end()
        for line in list(self.lines):
            with contextlib.suppress(subprocess.TimeoutExpired):
                line.process.wait(max(0, ends - time.monotonic()) if line.carriers else 0)
            line.end()
