"""What the benches in Python have in common: the program that they measure, its runs on threads and by a script, and the guests of these.

The program is the proved one, which is built first if it has to be, or that of the variable PROGRAM.
"""
from __future__ import annotations

import contextlib
import math
import os
import pathlib
import re
import statistics
import subprocess
import sys
import tempfile
import time
from typing import IO, NamedTuple

TOP = pathlib.Path(__file__).resolve().parent.parent

# More turns than any run takes.
TURNS = 1_000_000_000

# How many threads a pair has, how many processor seconds one must have used to be that which computes, and how many seconds pass between
# two looks at them.
THREADS, PLAIN, LOOK = 5, 0.05, 0.001

# Computes and prints a byte, this many times, and halts: each byte after 65 times 256 sums in memory. In ROUND steps it makes a byte.
#   0000 MVI A,03  OUT 10  MVI A,15  OUT 10  LXI B,rounds  LXI H,4000
#   000E MVI D,41
#   0010 MVI E,00
#   0012 MOV A,M  ADD E  MOV M,A  INR L  DCR E  JNZ 0012  DCR D  JNZ 0010
#   001E IN 10  ANI 02  JZ 001E  MOV A,M  OUT 11  DCX B  MOV A,B  ORA C  JNZ 000E  HLT
COMPUTER = "3E03 D310 3E15 D310 01{} 210040 1641 1E00 7E 83 77 2C 1D C21200 15 C21000 DB10 E602 CA1E00 7E {} 0B 78 B1 C20E00 76"
ROUND = 100_045
PRINTS, PRINTS_NOT = "D311", "0000"


def program() -> pathlib.Path:
    """The program that is measured."""
    given = os.environ.get("PROGRAM")
    if given:
        return pathlib.Path(given).resolve()
    if subprocess.run([TOP / "prove", "pair_main"]).returncode:
        sys.exit(1)
    return TOP / "crates/pair_main/out/pair_main"


def spread(numbers: list[float], digits: int = 3) -> str:
    """The median of some numbers, with the least and the greatest, each with as many digits after the point."""
    return "{1:.{0}f} ({2:.{0}f} to {3:.{0}f})".format(digits, statistics.median(numbers), min(numbers), max(numbers))


def loaded(guest: str) -> str:
    """The line of a script that loads a guest at 0000."""
    return f"mem 0000 {bytes.fromhex(guest).hex(' ')}"


def word(number: int) -> str:
    """A number of two bytes, the low one first."""
    return min(max(number, 1), 65535).to_bytes(2, "little").hex()


def computer(steps: int, prints: str = PRINTS) -> str:
    """The guest that computes for about this many steps."""
    return loaded(COMPUTER.format(word(steps // ROUND), prints))


def file_of(lines: list[str]) -> IO[bytes]:
    """A file that has these lines, to be read."""
    file = tempfile.TemporaryFile()
    file.write("".join(f"{it}\n" for it in lines).encode())
    file.seek(0)
    return file


def text_of(file: IO[bytes]) -> str:
    """What a program has written to a file."""
    file.seek(0)
    return file.read().decode()


class Taken(NamedTuple):
    """How many seconds a run took by the clock, and of the processor."""
    whole: float
    used: float


class Script:
    """A run of `pair script`."""

    def __init__(self, path: pathlib.Path, lines: list[str], processors: set[int] | None = None) -> None:
        self.printed = tempfile.TemporaryFile()
        begins = (lambda: os.sched_setaffinity(0, processors)) if processors else None
        self.began = time.perf_counter()
        with file_of(lines) as given:
            self.process = subprocess.Popen([path, "script"], stdin=given, stdout=self.printed, preexec_fn=begins)

    def last(self) -> str:
        """The last line that it has printed."""
        return text_of(self.printed).splitlines()[-1]


def ends_of(runs: list[Script]) -> list[Taken]:
    """What runs take that are all children of this process; they are waited for together."""
    taken = {}
    left = {it.process.pid: it for it in runs}
    while left:
        pid, status, used = os.wait4(-1, 0)
        run = left.pop(pid)
        run.process.returncode = status
        taken[pid] = Taken(time.perf_counter() - run.began, used.ru_utime + used.ru_stime)
        if status:
            sys.exit(f"a script ended with status {status}")
    return [taken[it.process.pid] for it in runs]


def alone(path: pathlib.Path, steps: int, processors: set[int] | None = None) -> Script:
    """Begins the guest that computes as a primary, which makes all steps by one line of a script. Two NOPs are in place of its OUT, since a
    step that prints ends the line."""
    return Script(path, [computer(steps, PRINTS_NOT), f"step 0 {2 * steps + 1_000_000}"], processors)


def ends_of_alone(runs: list[Script]) -> list[Taken]:
    """What guests take that run alone, each to its end."""
    taken = ends_of(runs)
    for run in runs:
        if not re.fullmatch(r"ran (\d+) count \1 idle", run.last()):
            sys.exit(f"a guest alone did not end: {run.last()}")
    return taken


class Live:
    """A run of `pair live`, whose threads are looked at from outside. The first of all serves the disk, the next is the backup's, and the
    primary's is of the others that which computes. The primary's is also the first that ends, when its guest is done and each of its bytes
    is accepted; the backup's is the next, when it has repeated all."""

    def __init__(self, path: pathlib.Path, lines: list[str], *words: str) -> None:
        self.printed = tempfile.TemporaryFile()
        self.began = time.perf_counter()
        with file_of(lines) as given:
            self.process = subprocess.Popen([path, "live", f"--turns={TURNS}", *words], stdin=given, stdout=self.printed)
        # What says of each thread how long it has had a processor; it is no longer read once the thread is gone.
        self.files: dict[int, int] = {}
        # When all threads were there, when the process had ended, the processor seconds of each thread at the last look, when each was
        # gone, and the longest time between two looks.
        self.ready, self.ended = 0.0, math.inf
        self.used: dict[int, float] = {}
        self.gone: dict[int, float] = {}
        self.gap = 0.0

    def look(self) -> None:
        """Looks at each thread."""
        now = time.perf_counter()
        if not self.ready:
            self.find(now)
        for thread, file in list(self.files.items()):
            try:
                self.used[thread] = int(os.pread(file, 64, 0).split()[0]) / 1e9
            except OSError:
                self.gone[thread] = now
                os.close(self.files.pop(thread))

    def find(self, now: float) -> None:
        """Looks which threads there are, until there are all."""
        for thread in map(int, os.listdir(f"/proc/{self.process.pid}/task")):
            if thread not in self.used:
                with contextlib.suppress(FileNotFoundError):
                    self.files[thread] = os.open(f"/proc/{self.process.pid}/task/{thread}/schedstat", os.O_RDONLY)
                    self.used[thread] = 0.0
        if len(self.used) == THREADS:
            self.ready = now

    def watch(self) -> Live:
        """Looks at it again and again until it has ended."""
        last = time.perf_counter()
        while self.process.poll() is None:
            self.look()
            time.sleep(LOOK)
            now = time.perf_counter()
            self.gap, last = max(self.gap, now - last), now
        self.ended = time.perf_counter()
        for file in self.files.values():
            os.close(file)
        self.files.clear()
        if self.process.returncode or len(self.used) != THREADS:
            sys.exit(f"a pair ended with status {self.process.returncode}, and {len(self.used)} of its threads were seen")
        return self

    def guests(self) -> tuple[int, int]:
        """The threads of the primary and of the backup, by which has ended first, and until one has by what all have used."""
        _, backup, *others = sorted(self.used)
        return min(others, key=lambda it: (self.when_gone(it), -self.used[it])), backup

    def guests_soon(self) -> tuple[int, int]:
        """The same, as soon as it is plain: one of the others has used some time, and twice as much as the next."""
        while self.process.poll() is None:
            self.look()
            *_, second, first = sorted(self.used[it] for it in sorted(self.used)[2:]) if self.ready else (0.0, 0.0)
            if first > max(PLAIN, 2 * second):
                return self.guests()
            time.sleep(LOOK)
        sys.exit("a pair has ended before it was known which of its threads computes: it wants more steps")

    def when_gone(self, thread: int) -> float:
        """When a thread was seen to have ended."""
        return self.gone.get(thread, self.ended)

    def bytes_shown(self) -> int:
        """How many bytes the terminal of port 0 has accepted."""
        return len(text_of(self.printed).splitlines()[0].split()) - 2
