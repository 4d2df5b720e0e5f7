#!/usr/bin/env python3
"""Records a session at a console: what a terminal shows, with times, as asciinema's files have it (asciicast, version 2).

usage: tools/record.py FILE.cast [PROGRAM]     PROGRAM is ./pair, if it is not said, or crates/pair_main/out/pair_main

A machine boots the monitor, fills and prints memory, and goes on while one of its hosts is killed by `kill -9` as from another window, the link
between its hosts is cut, and another one is stopped. `asciinema play FILE.cast` shows it again.
"""

import fcntl
import json
import os
import pty
import re
import select
import signal
import struct
import subprocess
import sys
import termios
import time

TOP = os.path.dirname(os.path.dirname(os.path.realpath(__file__)))
COLUMNS, ROWS = 80, 24
ESCAPE = "\x05"
# In place of keys: host 0 is killed, whose process the last status has named.
KILL = None
# What is waited for, and what is typed then. While the link is cut nothing appears.
SESSION = [
    ("MONITOR\r\n*", "D 0000"),
    ("\r\n*", f"{ESCAPE}status\r"),
    ("of 100 packets", "F 2000 200F 55"),
    ("\r\n*", "D 2000"),
    ("\r\n2000 55", KILL),
    ("generation 2", "D 2000"),
    ("55\r\n*", f"{ESCAPE}cut\r"),
    ("100 packets", "D 2000"),
    (None, f"{ESCAPE}mend\r"),
    ("55\r\n*", f"{ESCAPE}stop 1\r"),
    ("generation 3", "D 2000"),
    ("55\r\n*", f"{ESCAPE}quit\r"),
]
# Between two keys, and before and after a line.
KEY_SECONDS, PAUSE_SECONDS = 0.08, 0.8
PATIENCE_SECONDS = 60


class Recording:
    """A program in a terminal of its own, what it has shown so far, and what since it was last waited for."""

    def __init__(self, command):
        self.began, self.events, self.shown, self.all = time.time(), [], "", ""
        master, slave = pty.openpty()
        self.master = master
        fcntl.ioctl(slave, termios.TIOCSWINSZ, struct.pack("4H", ROWS, COLUMNS, 0, 0))
        how = {"start_new_session": True, "cwd": TOP, "env": {**os.environ, "TERM": "xterm"}}
        self.program = subprocess.Popen(command, stdin=slave, stdout=slave, stderr=slave, **how)
        os.close(slave)

    def look(self, seconds):
        """Notes what is shown within so many seconds; false once nothing more can come."""
        until = time.time() + seconds
        while (left := until - time.time()) > 0:
            if not select.select([self.master], [], [], left)[0]:
                break
            try:
                some = os.read(self.master, 65536)
            except OSError:
                return False
            if not some:
                return False
            text = some.decode("latin-1")
            self.events.append([round(time.time() - self.began, 3), "o", text])
            self.shown += text
            self.all += text
        return True

    def wait_for(self, text):
        """Waits until this has been shown since it was last waited for, if anything is waited for."""
        if text is None:
            return
        until = time.time() + PATIENCE_SECONDS
        while text not in self.shown:
            if time.time() > until or not self.look(0.05):
                sys.exit(f"record.py: {text!r} was not shown; this was: {self.shown[-400:]!r}")
        self.shown = self.shown.partition(text)[2]

    def do(self, keys):
        """Types as a person does, or kills host 0."""
        if keys is KILL:
            os.kill(int(re.findall(r"host 0 \(process (\d+)\)", self.all)[-1]), signal.SIGKILL)
            return
        for key in keys:
            os.write(self.master, key.encode("latin-1"))
            self.look(KEY_SECONDS)


def main(path, program=None):
    command = [f"{TOP}/tools/console.py", program] if program else [f"{TOP}/pair"]
    recording = Recording([*command, "console"])
    for text, keys in SESSION:
        recording.wait_for(text)
        recording.look(PAUSE_SECONDS)
        recording.do(keys)
    while recording.look(1):
        pass
    if recording.program.wait():
        sys.exit(f"record.py: the console ended with status {recording.program.returncode}")
    head = {"version": 2, "width": COLUMNS, "height": ROWS, "title": "pair console: a machine whose hosts fail"}
    with open(path, "w", encoding="utf-8") as file:
        for row in [head, *recording.events]:
            file.write(json.dumps(row) + "\n")


if __name__ == "__main__":
    if len(sys.argv) not in (2, 3) or sys.argv[1].startswith("-"):
        print(__doc__.strip())
        sys.exit(0 if sys.argv[1:] in (["--help"], ["-h"]) else 2)
    main(*sys.argv[1:])
