#!/usr/bin/env python3
"""A host between two relays: `tests/nemesis` has it started in place of a host, to delay, hold and cut what goes to it and what it says.

usage: tests/nemesis_relay.py SOCKET PROGRAM WORD ..     the host of these words; SOCKET is made, and takes a command in each datagram:

    delay in|out SECONDS     what comes from now on is passed on so much later
    hold in|out              nothing is passed on until `pass`
    pass in|out
    cut in|out BYTES         so many bytes are passed on yet, and then the stream ends; what comes after that is lost

`in` is what goes to the host, and `out` what it says. The relay ends as the host does.
"""
import contextlib
import os
import queue
import socket
import subprocess
import sys
import threading
import time

PIECE = 65536

# How many pieces wait in a relay at most. Then its source waits.
PIECES = 64


class Relay:
    """One direction: from a source to a sink."""

    def __init__(self, source, sink):
        self.source, self.sink = source, sink
        self.pieces, self.may_pass = queue.Queue(PIECES), threading.Event()
        self.delay, self.left = 0.0, None
        self.may_pass.set()

    def take(self):
        """Takes what comes, until nothing can come any more."""
        while some := os.read(self.source, PIECE):
            self.pieces.put((time.monotonic() + self.delay, some))
        self.pieces.put((0, b""))

    def give(self):
        """Passes on what has come, until the sink is closed."""
        while True:
            due, some = self.pieces.get()
            time.sleep(max(0.0, due - time.monotonic()))
            self.may_pass.wait()
            if not some:
                return self.close()
            if not self.pass_on(some):
                self.close()

    def pass_on(self, some):
        """Passes on a piece, as far as the stream goes; returns whether it goes on."""
        if self.left is not None:
            some = some[: self.left]
            self.left -= len(some)
        try:
            while some:
                some = some[os.write(self.sink, some) :]
        except OSError:
            return False
        return self.left != 0

    def close(self):
        """The stream has ended. What comes later is taken, and lost."""
        with contextlib.suppress(OSError):
            os.close(self.sink)
        self.sink = -1

    def heed(self, word, value):
        """Does what a command says."""
        if word == "delay":
            self.delay = float(value)
        elif word == "cut":
            self.left = int(value)
        elif word == "hold":
            self.may_pass.clear()
        else:
            self.may_pass.set()


def heed_all(control, relays):
    """Does what commands say."""
    while True:
        word, which, *value = control.recv(100).decode().split()
        relays[which].heed(word, *(value or [None]))


def begin(work, *words):
    thread = threading.Thread(target=work, args=words, daemon=True)
    thread.start()
    return thread


def main(name, *words):
    control = socket.socket(socket.AF_UNIX, socket.SOCK_DGRAM)
    control.bind(name)
    host = subprocess.Popen(words, stdin=subprocess.PIPE, stdout=subprocess.PIPE)
    relays = {"in": Relay(0, host.stdin.fileno()), "out": Relay(host.stdout.fileno(), 1)}
    begin(heed_all, control, relays)
    for it in relays.values():
        begin(it.take)
    begin(relays["in"].give)
    said = begin(relays["out"].give)
    status = host.wait()
    while said.is_alive() and relays["out"].sink >= 0:
        said.join(0.05)
    os._exit(status if status >= 0 else 128 - status)


if __name__ == "__main__":
    if len(sys.argv) < 3:
        print(__doc__.strip())
        sys.exit(0 if sys.argv[1:] in (["-h"], ["--help"]) else 2)
    main(*sys.argv[1:])
