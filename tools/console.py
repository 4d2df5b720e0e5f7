#!/usr/bin/env python3
"""Sits at a pair whose hosts are processes: makes their named pipes, starts them and the outside, and passes on to that what is typed.

usage: tools/console.py PROGRAM console [OPTION ..]

The options are those of tools/options.py that are for `console`. Without --load, --disk, --memory and --setup the guest is the monitor of
examples/guests.

The outside is the program's command `console`. Host 0 is the primary, host 1 its backup, all others are spares; it is said which process
each host is, and how it has ended. Any of them may be killed or stopped from elsewhere, or by the commands `stop`, `freeze` and `thaw`.
When one has ended and --later allows one more, a spare is started; `spare` starts one too. When the outside has ended, so do all hosts,
since their streams do; one that is stopped is killed. With --host each host is at a place, on this machine or wherever ssh leads.

A terminal gives each key as it is typed, Ctrl-C among them, and is set back as it was however the command ends. If it hangs up, the
program is to quit, and no more keys come; one that goes on for half a minute is ended. A signal such as SIGTERM has the program quit too,
so that disks are saved; a second one ends it at once. If the input is a file or a pipe, its end is that of the keys.

Lines about the pair appear on the last row of a terminal, if standard output and standard error both go to it, and what the machine prints
scrolls above; with `--lines here` they are written where the cursor is.

A file is read whole before the program starts; one that is not what it should be is refused, with status 2. Disks are saved if the
outside ends well, or if no host is left that has the machine: the outside has the disk. Each is written whole; a file that cannot be
written stays as it was, and then the status is 5. At the command `save` of its command
line a program hands the disk of that moment over, and this command writes it and says so; at `picture` it draws what was told of the pair; at
`do` it does what the lines of a file say, beside what is typed.
"""

import contextlib
import ctypes
import os
import re
import secrets
import select
import shutil
import signal
import subprocess
import sys
import tempfile
import termios
import threading
import tty

sys.path.insert(0, os.path.dirname(os.path.realpath(__file__)))
import last_row
from asked import NO_HOSTS, Asked
from doing import Doing, Seen, Watched
from files import drawn_as, path_in, saved_as
from hosts import SIGNALS, Hosts
from keys import Keys, begin, ends_of_keys
from options import complain
from output import Output
from places import PlacedHosts
from screen import Screen
from story import LinkListener, Story

# How a line about the pair begins that a program hands over, and how a wish for a picture does, and one for what a file says.
LINE, WISH, DO = b"pair: ", b"picture ", b"do "
# These words ask for the program's own help.
HELP = {"-h", "--help"}
# Asks Linux to kill a process when the one that started it ends.
PR_SET_PDEATHSIG = 1
# For how many seconds a program may go on that a signal has asked to quit.
QUITS_IN = 5
# These end the command; a program does not hear those that a terminal sends, since this command does.
ENDINGS = (signal.SIGINT, signal.SIGQUIT, signal.SIGTERM)
# After how many seconds a signal is heard at the latest.
LONGEST_WAIT = 0.2
OF_TERMINALS = (signal.SIGINT, signal.SIGQUIT, signal.SIGHUP)


class Run:
    """A run of the outside and its hosts, and the signal that has ended it."""

    def __init__(self):
        self.program = self.hosts = self.keys = self.ended_by = None
        self.is_killed = False
        self.lock = threading.Lock()
        # The last row of the terminal, if lines about the pair are shown there; and what they have told.
        self.row, self.story = None, Story()
        # The program's output, and what it says beside it if that goes elsewhere; and what has been seen of both.
        self.screens, self.seen = [], Seen()
        self.doing = Doing(self.seen)

    def heed(self):
        """From now on no signal ends this command before it has set the terminal back."""
        for it in ENDINGS:
            signal.signal(it, self.end)
        if signal.getsignal(signal.SIGHUP) != signal.SIG_IGN:
            signal.signal(signal.SIGHUP, self.hang_up)
        signal.signal(signal.SIGTTOU, signal.SIG_IGN)

    def end(self, number, _frame=None):
        """A signal has come: the program is to quit, but is killed if it does not, or at a second signal."""
        if self.ended_by or not self.keys:
            self.kill()
        else:
            begin(threading.Thread(target=self.keys.quit))
            begin(threading.Timer(QUITS_IN, self.kill))
        self.ended_by = number

    def kill(self):
        self.is_killed = True
        if self.program:
            self.program.kill()

    def hang_up(self, number, _frame):
        if self.keys:
            begin(threading.Thread(target=self.keys.end, args=[True]))
        else:
            self.end(number)

    def gather(self, path, asked):
        """Waits until hosts can be started; ends the command if none can."""
        self.hosts = (PlacedHosts if asked.at else Hosts)(path, asked, self.say)
        is_ready = self.hosts.gather(lambda: self.ended_by)
        if is_ready and not self.ended_by:
            return
        self.hosts.end()
        if self.ended_by:
            sys.exit(128 + self.ended_by)
        complain("no host could be started", NO_HOSTS)

    @contextlib.contextmanager
    def hosts_of(self, path, asked, mark):
        """The outside, as long as it runs, and all hosts."""
        try:
            with self.program_at(path, asked, mark) as outside:
                begin(threading.Thread(target=self.keys.pass_on))
                if not asked.attached or self.has_opened(outside):
                    self.say(f"the outside is process {outside.pid}")
                    self.hosts.begin()
                yield outside
        finally:
            self.hosts.end()

    @contextlib.contextmanager
    def program_at(self, path, asked, mark):
        """The outside, as long as it runs. What it writes is passed on by this command, which takes out what is handed over, and ends the
        outside if it cannot be written. What it says beside that comes with it, if both go to one place."""
        how = {"stdout": subprocess.PIPE, "stderr": subprocess.STDOUT if is_one_place() else subprocess.PIPE}
        own, to = ends_of_keys()
        self.program = subprocess.Popen([path, *asked.words(mark)], stdin=own, preexec_fn=self.prepare, **how)
        os.close(own)
        try:
            self.keys = self.keys_for(asked, to)
            if self.is_killed:
                self.program.kill()
            yield self.program
        finally:
            self.program.kill()

    def keys_for(self, asked, to):
        """The keys that are passed on to the outside, once what is to be done first is done."""
        return Keys(
            self.program,
            to,
            asked.opening(),
            asked.escape,
            do_first=lambda keys: self.doing.go_on(asked.steps, keys) if asked.steps else None,
            remind=lambda: self.say(asked.way_out()),
        )

    @staticmethod
    def has_opened(outside):
        """Whether the outside has opened the files that are disks: it greets then, and otherwise says why and ends."""
        select.select([outside.stderr or outside.stdout], [], [])
        ended = os.pidfd_open(outside.pid)
        try:
            return not select.select([ended], [], [], LONGEST_WAIT)[0]
        finally:
            os.close(ended)

    @staticmethod
    def prepare():
        """In the outside's process, before it begins: it hears no signal of this command's terminal, and is killed if this command is."""
        for it in OF_TERMINALS:
            signal.signal(it, signal.SIG_IGN)
        ctypes.CDLL(None).prctl(PR_SET_PDEATHSIG, signal.SIGKILL)

    def say(self, line):
        """Says a line about the pair."""
        with self.lock, contextlib.suppress(OSError):
            Watched(Output(2), self.seen).write(self.told(line.encode()))

    def pass_on(self, mark):
        """Passes on what the program writes, until it ends."""
        ends = [(self.program.stdout, self.row or Output(1)), (self.program.stderr, Output(2))]
        watched = [(pipe, Watched(output, self.seen, LinkListener(self.story))) for pipe, output in ends if pipe]
        self.screens = [Screen(self.program, pipe, output, mark, self.heard) for pipe, output in watched]
        showing = [begin(threading.Thread(target=screen.pass_on)) for screen in self.screens]
        self.await_program()
        await_all(showing, lambda: self.is_killed)
        self.seen.close()

    def await_program(self):
        """Waits until the program has ended. A signal that comes just before a wait is heard only after it, so no wait is long."""
        program = os.pidfd_open(self.program.pid)
        while not select.select([program], [], [], LONGEST_WAIT)[0]:
            pass
        os.close(program)
        self.program.wait()

    def heard(self, handed):
        """Does what is to be done with what a program hands over; gives what is written in its place."""
        word, _, rest = handed.partition(b" ")
        if word in SIGNALS:
            return self.signalled(word, int(rest))
        if word == b"spare":
            return self.hosts.add().encode()
        if word == b"status":
            return b"\r\n".join([re.sub(rb"host (\d+):", self.named, rest), *(it.encode() for it in self.hosts.vacant())])
        if handed.startswith(WISH):
            return drawn_as(path_in(handed[len(WISH) :]), self.story.picture())
        if handed.startswith(DO):
            return os.fsencode(self.doing.begin_file(path_in(handed[len(DO) :]), self.keys))
        if not handed.startswith(LINE):
            return saved_as(handed)
        return self.told(handed[len(LINE) :])

    def told(self, line):
        """A line about the pair: it is shown on the last row, or is what is written."""
        self.story.hear(line.decode())
        if self.row is None:
            return b"\r\n" + LINE + line + b"\r\n"
        self.row.say(line)
        self.seen.hear(LINE + line + b"\r\n")
        return b""

    def signalled(self, word, place):
        """Sends a host the signal that a word wishes."""
        process = self.hosts.running(place)
        if process is None:
            return b"no host %d runs" % place
        number, said = SIGNALS[word]
        process.send_signal(number)
        return f"host {place}, process {process.pid}, {said}".encode()

    def named(self, found):
        """A host of a status, with its process."""
        process = self.hosts.running(int(found[1]))
        return b"host %b (%b):" % (found[1], self.hosts.named(int(found[1]), process).encode()) if process else found[0]

    def has_printed_nothing(self) -> bool:
        """Whether the machine has printed nothing; false if its output comes with what is said beside it."""
        return len(self.screens) > 1 and not self.screens[0].has_passed

    def status(self):
        """The status of the program, or that of a command that a signal has ended."""
        number = self.ended_by or -min(self.program.returncode, 0)
        return 128 + number if number else self.program.returncode


def refuse(path, command, words):
    """Ends this command as the program ends if it does not take these words. It says so before it gives its help, which is asked for too."""
    asked = subprocess.run([path, command, *words, "--help"], stdin=subprocess.DEVNULL, capture_output=True)
    if asked.stderr.startswith(b"error: "):
        os.write(2, asked.stderr)
        sys.exit(asked.returncode)


def new_mark():
    """A byte that guests seldom send, FS, and what nobody can guess."""
    return f"\x1c{secrets.token_hex(16)}"


def await_all(threads, is_over):
    """Waits until these threads have ended, or it is over."""
    for it in threads:
        while it.is_alive() and not is_over():
            it.join(0.1)


@contextlib.contextmanager
def row_for(lines, hint):
    """The last row of standard output, if lines about the pair are to be shown there; the hint is there while none is."""
    if lines == "here" or not last_row.can_have(1) or not (lines or is_one_place()):
        yield None
        return
    row = last_row.LastRow(1, hint.encode())
    signal.signal(signal.SIGWINCH, lambda *_: begin(threading.Thread(target=row.resize)))
    try:
        row.write(b"")
        begin(threading.Thread(target=row.rest))
        yield row
    finally:
        row.end()


def is_one_place():
    """Whether standard output and standard error go to one place."""
    try:
        return os.path.sameopenfile(1, 2)
    except OSError:
        return False


@contextlib.contextmanager
def raw_terminal():
    """The terminal of standard input, if it is one, gives each byte as it is typed, and takes each byte as it is written."""
    mode = termios.tcgetattr(0) if os.isatty(0) else None
    try:
        if mode:
            tty.setraw(0, termios.TCSANOW)
        yield
    finally:
        if mode:
            with contextlib.suppress(termios.error):
                termios.tcsetattr(0, termios.TCSANOW, mode)


def main(path, command, *words):
    if not HELP.isdisjoint(words):
        os.execv(path, [path, command, "--help"])
    asked = Asked(words)
    refuse(path, command, asked.own)
    asked.warn_of_nothing()
    asked.folder = tempfile.mkdtemp(prefix="pair.")
    try:
        return sit(path, asked, Run())
    finally:
        shutil.rmtree(asked.folder, ignore_errors=True)


def sit(path, asked, run):
    """Lets one sit at a pair until it ends; gives its status."""
    mark = new_mark()
    run.heed()
    if asked.steps:
        run.doing.begin()
    run.gather(path, asked)
    with raw_terminal(), row_for(asked.lines, asked.hint()) as run.row, run.hosts_of(path, asked, mark):
        run.pass_on(mark.encode())
    status = run.status()
    if status and os.isatty(0) and os.isatty(2):
        # What was said last may not end where a line begins.
        os.write(2, b"\r\n")
    return asked.end(status, run)


if __name__ == "__main__":
    if sys.argv[1:2] in (["--help"], ["-h"]) or len(sys.argv) < 3:
        print(__doc__.strip())
        sys.exit(0 if len(sys.argv) > 1 else 2)
    try:
        ended = main(*sys.argv[1:])
    except SystemExit as end:
        ended = end.code
    # The thread that reads keys may still wait for one.
    os._exit(ended)
