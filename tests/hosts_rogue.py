#!/usr/bin/env python3
"""A host that is none, one that dies, or one that hears no other: `tests/hosts` has it started in place of a host.

usage: tests/hosts_rogue.py nothing|half|garbage|flood [WORD ..]     the further words, those of a host, are ignored
       tests/hosts_rogue.py dies BYTES PROGRAM WORD ..                 the host of these words, killed after so many bytes came to it
       tests/hosts_rogue.py deaf PROGRAM WORD ..     the host of these words, which hears no other host from SIGUSR1 on, until the arbiter
                                                     has answered it
       tests/hosts_rogue.py counts FILE PROGRAM WORD ..     the host of these words; FILE says how many frames it has sent with a block,
                                                     and how many without theirs
"""
import os
import pathlib
import signal
import subprocess
import sys
import threading
import time

PIECE = 65536

# The tags of the frames that other hosts send (packets, those without their block, and how far they are), and of the arbiter's answers.
OF_HOSTS, OF_ARBITER = (b"P", b"r", b"R"), (b"O", b"L")

# How many bytes a frame with a block has.
WITH_BLOCK = (4 + 265, 4 + 266)


def frame(body):
    return b"FR" + len(body).to_bytes(2, "big") + body


def report_of_spare():
    """What a spare says of itself: generation 0, no role, no guest that idles, no steps, lag, writes and tick, no keys taken and covered."""
    return frame(b"E" + bytes(4 + 1 + 1 + 4 * 8 + 4 * 8))


def write(some):
    while some:
        some = some[os.write(1, some) :]


def sleep_for_good():
    while True:
        time.sleep(1)


def flood():
    """Writes frames without end, as fast as they are taken, and reads nothing."""
    while True:
        write(report_of_spare() * 1000)


class Host:
    """A host that runs, between this process's streams and its own."""

    def __init__(self, words):
        self.run = subprocess.Popen(words, stdin=subprocess.PIPE, stdout=subprocess.PIPE)
        threading.Thread(target=self.pass_back, daemon=True).start()

    def pass_back(self):
        """Passes on what the host says, and ends as it does."""
        while some := os.read(self.run.stdout.fileno(), PIECE):
            write(some)
        os._exit(self.run.wait())

    def give(self, some):
        while some:
            some = some[os.write(self.run.stdin.fileno(), some) :]


def die_after(count, words):
    """Runs a host and passes all on, until so many bytes have come to it."""
    host = Host(words)
    while count > 0 and (some := os.read(0, min(PIECE, count))):
        count -= len(some)
        host.give(some)
    host.run.kill()
    os.kill(os.getpid(), signal.SIGKILL)


def frames_of(source):
    """The frames of a stream, whole."""
    while head := source.read(4):
        yield head + source.read(int.from_bytes(head[2:], "big"))


class Counted(Host):
    """A host whose blocks are counted."""

    def __init__(self, path, words):
        self.path, self.whole, self.short = pathlib.Path(path), 0, 0
        super().__init__(words)

    def pass_back(self):
        for it in frames_of(self.run.stdout):
            self.whole += it[4:5] == b"P" and len(it) in WITH_BLOCK
            self.short += it[4:5] == b"r"
            written = self.path.with_suffix(".new")
            written.write_text(f"{self.whole} {self.short}", encoding="utf-8")
            os.replace(written, self.path)
            write(it)
        os._exit(self.run.wait())


def count(path, words):
    """Runs a host, passes all on, and counts its blocks."""
    host = Counted(path, words)
    while some := os.read(0, PIECE):
        host.give(some)
    host.run.stdin.close()
    sleep_for_good()


def be_deaf(words):
    """Runs a host, and passes on what is said to it, but for what other hosts say while it is deaf."""
    is_deaf = threading.Event()
    signal.signal(signal.SIGUSR1, lambda *_: is_deaf.set())
    host, source = Host(words), open(0, "rb")
    host.give(source.read(int(words[words.index("--before") + 1])))
    for it in frames_of(source):
        if it[4:5] in OF_ARBITER:
            is_deaf.clear()
        if not is_deaf.is_set() or it[4:5] not in OF_HOSTS:
            host.give(it)
    host.run.stdin.close()
    sleep_for_good()


def main(mode, *words):
    if mode == "dies":
        die_after(int(words[0]), words[1:])
    if mode == "deaf":
        be_deaf(words)
    if mode == "counts":
        count(words[0], words[1:])
    if mode == "flood":
        flood()
    if mode == "half":
        write(report_of_spare()[:9])
    if mode == "garbage":
        write(b"rubbish!" * 100)
    sleep_for_good()


if __name__ == "__main__":
    if sys.argv[1:] in (["-h"], ["--help"]):
        sys.exit(print(__doc__.strip()))
    main(*sys.argv[1:])
