#!/usr/bin/env python3
"""A program before the right one, which makes a mistake: to see that `tests/nemesis` finds it, with any program and without building one.

usage: tests/nemesis_liar.py MISTAKE PROGRAM hosts|host WORD ..     runs PROGRAM with these words, and makes the mistake amid its streams

The outside, once a host has won:
    shown_twice      shows a byte twice
    byte_lost        does not show one
    key_lost         does not get a key that was typed
The host that is the primary at first:
    shown_too_early  acknowledges each entry of its log itself, and sends it a little later: what it shows then its backup need not hold
The host that is the backup at first:
    not_held         acknowledges entries that it does not get, from the tenth on
Any host:
    write_lost       sends no write to the disk once it has won, and takes each as done
    both_win         takes it that it has won when it has lost
"""
import ctypes
import os
import queue
import signal
import subprocess
import sys
import threading
import time

from hosts_rogue import PIECE, frame, frames_of

PR_SET_PDEATHSIG = 1

# How much later entries are sent that were acknowledged already, in seconds; and how many entries a backup gets.
LATER, HELD = 0.3, 10

# Whose mistakes they are.
OF_OUTSIDE = {"shown_twice", "byte_lost", "key_lost"}
OF_ROLES = {"shown_too_early": {"primary"}, "not_held": {"backup"}, "write_lost": None, "both_win": None}


def end_with_this_process():
    ctypes.CDLL(None).prctl(PR_SET_PDEATHSIG, signal.SIGKILL)


def begin(work, *words):
    threading.Thread(target=work, args=words, daemon=True).start()


def write_all(sink, some):
    while some:
        some = some[os.write(sink, some) :]


class Outside:
    """The outside, which is wrong about one byte each time that a host has won."""

    def __init__(self, mistake, words):
        pipe = subprocess.PIPE
        self.run = subprocess.Popen(words, stdin=pipe, stdout=pipe, stderr=pipe, preexec_fn=end_with_this_process)
        self.mistake, self.is_due = mistake, False

    def is_time_for(self, *mistakes):
        """Whether one of these mistakes is to be made now, once."""
        is_time = self.is_due and self.mistake in mistakes
        self.is_due &= not is_time
        return is_time

    def hear_keys(self):
        while some := os.read(0, PIECE):
            write_all(self.run.stdin.fileno(), some[1:] if self.is_time_for("key_lost") else some)
        self.run.stdin.close()

    def tell(self):
        while some := os.read(self.run.stderr.fileno(), PIECE):
            write_all(2, some)
            self.is_due |= b" has won" in some

    def serve(self):
        """Passes all on, until the outside ends."""
        begin(self.hear_keys)
        begin(self.tell)
        while some := os.read(self.run.stdout.fileno(), PIECE):
            if self.is_time_for("shown_twice", "byte_lost"):
                some = some[:1] + some if self.mistake == "shown_twice" else some[1:]
            write_all(1, some)
        return self.run.wait()


class Host:
    """A host between liars, who hear and change its frames."""

    def __init__(self, mistake, words):
        self.run = subprocess.Popen(words, stdin=subprocess.PIPE, stdout=subprocess.PIPE, preexec_fn=end_with_this_process)
        self.before = int(words[words.index("--before") + 1])
        role, roles = words[words.index("--role") + 1], OF_ROLES[mistake]
        self.mistake = mistake if roles is None or role in roles else None
        self.has_won, self.entries, self.lock = False, 0, threading.Lock()
        self.late = queue.SimpleQueue()

    def give(self, some):
        """Gives the host bytes, whole frames alone: two threads do."""
        with self.lock:
            write_all(self.run.stdin.fileno(), some)

    def hear(self):
        """What comes to the host, and what it gets of that."""
        source = open(0, "rb")
        self.give(source.read(self.before))
        for whole in frames_of(source):
            self.give(self.heard(whole[4:]))
        self.run.stdin.close()

    def heard(self, body):
        """The frames that the host gets in place of one with this body."""
        self.has_won |= body[:1] == b"O"
        if self.mistake == "both_win" and body[:1] == b"L":
            return frame(b"O" + body[1:])
        if self.mistake == "not_held" and body[:1] + body[2:3] == b"PL":
            self.entries += 1
            if self.entries > HELD:
                write_all(1, frame(acknowledged(body)))
                return b""
        return frame(body)

    def serve(self):
        """Passes on what the host says, until it ends."""
        begin(self.hear)
        begin(self.say_late)
        for whole in frames_of(self.run.stdout):
            self.say(whole)
        return self.run.wait()

    def say(self, whole):
        """Says a frame, or what it does in its place."""
        body = whole[4:]
        if self.mistake == "write_lost" and self.has_won and body[:1] == b"W":
            return self.give(frame(b"w" + body[4:12]))
        if self.mistake == "shown_too_early" and body[:1] + body[2:3] == b"PL":
            self.late.put((time.monotonic() + LATER, whole))
            return self.give(frame(acknowledged(body)))
        return write_all(1, whole)

    def say_late(self):
        """Says what is said later, in its order."""
        while True:
            due, whole = self.late.get()
            time.sleep(max(0.0, due - time.monotonic()))
            write_all(1, whole)


def acknowledged(body):
    """The acknowledgement, to whoever sent it, of the entry in this packet and of all before it."""
    generation, index = body[3:7], int.from_bytes(body[7:15], "big")
    return body[:2] + b"A" + generation + (index + 1).to_bytes(8, "big")


def main(mistake, program, command, *words):
    words = [program, command, *words]
    if command == "console" and mistake in OF_OUTSIDE:
        os._exit(Outside(mistake, words).serve())
    if command == "host" and mistake in OF_ROLES:
        os._exit(Host(mistake, words).serve())
    os.execv(program, words)


if __name__ == "__main__":
    if len(sys.argv) < 4:
        print(__doc__.strip())
        sys.exit(0 if sys.argv[1:] in (["-h"], ["--help"]) else 2)
    main(*sys.argv[1:])
