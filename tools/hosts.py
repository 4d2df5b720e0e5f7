"""The processes of a console's hosts, and the named pipes between them and the outside."""

import os
import re
import signal
import subprocess
import threading
import time

# For how many seconds hosts may go on after their streams have ended.
PATIENCE = 2
# If the outside goes on for so many seconds after a host has ended, it was not the end of all.
MOMENT = 0.2
# What the first hosts are when the pair boots; all others are spares.
ROLES = ("primary", "backup")
# What is done with a host, by the word that wishes it: the signal that it is sent, and what is said of it then.
SIGNALS = {
    b"stop": (signal.SIGKILL, "is killed"),
    b"freeze": (signal.SIGSTOP, "stands still"),
    b"thaw": (signal.SIGCONT, "goes on"),
}
# The shell of a host opens the pipes, in the order in which the outside does.
HOST = 'exec 3< "$1" 4> "$2"; shift 2; exec "$@" <&3 >&4 3<&- 4>&-'
# How many of the last lines that were said are told, and how much of them.
LAST, MOST_TOLD = 3, 300
# What ./pair says of a program that is not proved.
NOT_PROVED = "pair: not proved: "


def last_words(path):
    """The last lines that a process has said, as one."""
    with open(path, encoding="utf-8", errors="replace") as file:
        lines = [re.sub(r"[^\x20-\x7e\xa1-\uffff]", "", it).strip() for it in file]
    lines = [it.removeprefix("host: ") for it in lines if it and not it.startswith(NOT_PROVED)]
    return "; ".join(lines[-LAST:])[:MOST_TOLD]


class Hosts:
    """The processes of the hosts, by their numbers."""

    def __init__(self, program, asked, says):
        self.program, self.asked, self.says = program, asked, says
        self.processes, self.over, self.lock = {}, threading.Event(), threading.RLock()
        # How many spares may still be started by themselves.
        self.later = asked.later
        for number in range(asked.places()):
            for end in ("in", "out"):
                os.mkfifo(self.path(number, end))

    def path(self, number, end):
        return f"{self.asked.folder}/{number}.{end}"

    def gather(self, _is_over):
        """Waits until hosts can be started; returns whether one can."""
        return True

    def begin(self):
        """Starts the first hosts."""
        for _ in range(self.asked.hosts):
            self.start()

    def start(self):
        """Starts the next host; gives its number, or nothing if there is none."""
        with self.lock:
            number = len(self.processes)
            if self.over.is_set() or number >= self.asked.places():
                return None
            self.launch(number, self.start_here(number))
        threading.Thread(target=self.watch, args=(number,), daemon=True).start()
        return number

    def start_here(self, number):
        """Starts a host on this machine."""
        words = ["sh", "-c", HOST, "host", self.path(number, "in"), self.path(number, "out")]
        with open(self.path(number, "said"), "wb") as said:
            # A host that leads its own process group hears no signal of this command's terminal.
            words += self.asked.host_words(self.program, number)
            return subprocess.Popen(words, stdin=subprocess.DEVNULL, stderr=said, start_new_session=True)

    def launch(self, number, process, where=""):
        """This process is the host of that number from now on."""
        self.processes[number] = process
        self.says(f"host {number} is process {process.pid}{where}")

    def watch(self, number):
        """Waits until a host has ended; then a spare is started, if the pair goes on and there may be one more."""
        if self.await_ended(number) and self.may_replace():
            self.start()

    def await_ended(self, number):
        """Waits until a host has ended, and says why; returns whether the pair goes on."""
        status = self.processes[number].wait()
        if self.over.wait(MOMENT):
            return False
        why = f"killed by signal {-status}" if status < 0 else last_words(self.path(number, "said")) or f"status {status}"
        self.says(f"host {number} has ended: {why}")
        return True

    def may_replace(self):
        """Whether a spare is started for a host that has ended."""
        with self.lock:
            self.later -= 1
            return self.later >= 0

    def add(self):
        """Starts one more spare; returns what is said of it."""
        number = self.start()
        if number is None:
            return f"no more than {self.asked.places()} hosts"
        return f"host {number} has come: process {self.processes[number].pid}"

    def running(self, number):
        """The process of the host of a number, if it runs."""
        process = self.processes.get(number)
        return process if process and process.poll() is None else None

    def named(self, _number, process):
        """How a status names a host's process."""
        return f"process {process.pid}"

    def vacant(self):
        """A line for each place that has no host, with the reason."""
        return []

    def end(self):
        """The outside has ended: waits until all hosts have, and kills those that do not."""
        with self.lock:
            self.over.set()
            left = list(self.processes.values())
        ends = time.monotonic() + PATIENCE
        for it in left:
            try:
                it.wait(max(0, ends - time.monotonic()))
            except subprocess.TimeoutExpired:
                it.kill()
                it.wait()
