"""Consoles that a test sits at, in pseudo-terminals or between pipes: what is typed at them, and what comes of it."""
import contextlib
import errno
import fcntl
import os
import pathlib
import pty
import re
import select
import signal
import struct
import subprocess
import tempfile
import termios
import time

from cases import Differs

TOP = pathlib.Path(__file__).resolve().parent.parent

# What is written to a terminal so that its last row is apart, and has a line.
OF_THE_ROW = re.compile(rb"\x1b7.*?\x1b8|\x1bD\x1b\[A", re.DOTALL)

# How long anything may take that is waited for, in seconds.
PATIENCE = 120

# The keys that open a command line, and that end it.
ESCAPE, ENTER = b"\x05", b"\r"

# A guest that echoes keys, and loses none of those that come while it waits for the terminal. By interrupts, at 0038, it puts keys into
# memory from 1000 on (PUSH PSW; IN 11; MOV M,A; INX H; POP PSW; EI; RET). At 0000 LXI SP,0100; LXI H,1000; LXI D,1000; MVI A,95; OUT 10;
# at 000D DI; if DE is HL, EI; HLT and again; if not, at 001D EI; it waits until port 0 sends (IN 10; ANI 02; JZ 001E), and echoes the
# next one (LDAX D; INX D; OUT 11; JMP 000D).
ECHO = """\
mem 0000 31 00 01 21 00 10 11 00 10 3E 95 D3 10
mem 000D F3 7B BD C2 1D 00 7A BC C2 1D 00 FB 76 C3 0D 00
mem 001D FB DB 10 E6 02 CA 1E 00 1A 13 D3 11 C3 0D 00
mem 0038 F5 DB 11 77 23 F1 FB C9
"""


def command_of(program, *words):
    """The words of a command that runs a console by this program, or by ./pair."""
    if program.name == "pair":
        return [program, "console", *words]
    return [TOP / "tools/console.py", program, "console", *words]


def holds(fact, within=PATIENCE):
    """Whether something holds some time soon."""
    ends = time.monotonic() + within
    while time.monotonic() < ends:
        if fact():
            return True
        time.sleep(0.02)
    return False


class Console:
    """A console that runs: `shown` is what has come of the guest's output, and `said` what is said beside it."""

    def __init__(self, run, keyboard, sources):
        self.run, self.keyboard, self.sources = run, keyboard, sources
        self.shown, self.said = b"", b""

    def hear(self, within):
        """Takes what comes in time, and says whether something came."""
        before = len(self.shown) + len(self.said)
        for source in select.select(list(self.sources), [], [], within)[0]:
            name = self.sources[source]
            try:
                some = os.read(source, 65536)
            except OSError as error:
                if error.errno != errno.EIO:
                    raise
                some = b""
            if not some:
                del self.sources[source]
            setattr(self, name, getattr(self, name) + some)
        return len(self.shown) + len(self.said) > before

    def await_that(self, fact, of):
        """Waits until something holds of what has come, as long as something comes."""
        ends = time.monotonic() + PATIENCE
        while not fact():
            has_ended = self.run.poll() is not None
            if self.hear(0.1):
                ends = time.monotonic() + PATIENCE
            elif has_ended and not fact() or time.monotonic() > ends:
                raise Differs(f"{of} did not come; the last that was shown is {self.shown[-200:]!r}, and said {self.said[-200:]!r}")

    def hear_for(self, seconds):
        """Takes what comes in so many seconds."""
        ends = time.monotonic() + seconds
        while time.monotonic() < ends:
            self.hear(0.05)

    def shown_above(self):
        """What is shown but for what is written of the last row, which may come amid it."""
        return OF_THE_ROW.sub(b"", self.shown)

    def await_shown(self, text):
        self.await_that(lambda: text in self.shown or text in self.shown_above(), repr(text))

    def await_said(self, pattern):
        self.await_that(lambda: re.search(pattern, self.said), repr(pattern))

    def type(self, keys):
        """Types keys as fast as the terminal takes them."""
        os.set_blocking(self.keyboard, False)
        ends = time.monotonic() + PATIENCE
        while keys:
            if time.monotonic() > ends:
                raise Differs(f"{len(keys)} keys are not taken")
            with contextlib.suppress(BlockingIOError):
                keys = keys[os.write(self.keyboard, keys) :]
            self.hear(0.1 if keys else 0)

    def type_slowly(self, keys):
        """Types keys, each when the one before is echoed: the monitor has room for one."""
        for key in keys:
            before = len(self.shown)
            self.type(bytes([key]))
            self.await_that(lambda: len(self.shown) > before, f"the echo of {chr(key)}")

    def say(self, line, escape=ESCAPE):
        """Types a command."""
        self.type(escape + line.encode() + ENTER)

    def program(self):
        """The number of the process of the program."""
        children = pathlib.Path(f"/proc/{self.run.pid}/task/{self.run.pid}/children")
        self.await_that(lambda: children.read_text().split(), "the program")
        return int(children.read_text().split()[0])

    def status(self):
        """How it ends, with all that it writes up to then."""
        self.await_that(lambda: self.run.poll() is not None, "the end")
        while self.hear(0):
            pass
        return self.run.returncode

    def quit(self):
        self.say("quit")
        return self.status()


def hear_hang_ups():
    """A command that is started now ends at a hang-up, also if whoever runs the test ignores them, as nohup does."""
    signal.signal(signal.SIGHUP, signal.SIG_DFL)


def set_size(terminal, size):
    """Gives a terminal so many rows and columns."""
    fcntl.ioctl(terminal, termios.TIOCSWINSZ, struct.pack("4H", *size, 0, 0))


class AtTerminal(Console):
    """A console at a terminal of its own, of so many rows and columns if that is said. What is said beside the guest's output comes through
    a pipe, or to the terminal too."""

    def __init__(self, words, is_apart=True, size=(0, 0), kind="xterm", cwd=None):
        self.terminal, self.other = pty.openpty()
        self.mode = termios.tcgetattr(self.other)
        set_size(self.other, size)
        said = subprocess.PIPE if is_apart else self.other
        how = {"stdin": self.other, "stdout": self.other, "stderr": said, "start_new_session": True}
        how["env"], how["cwd"] = {**os.environ, "TERM": kind}, cwd
        how["preexec_fn"] = lambda: hear_hang_ups() or fcntl.ioctl(0, termios.TIOCSCTTY, 0)
        run = subprocess.Popen(words, **how)
        super().__init__(run, self.terminal, {self.terminal: "shown"} | ({run.stderr.fileno(): "said"} if is_apart else {}))

    def is_raw(self):
        return not termios.tcgetattr(self.other)[3] & termios.ICANON

    def close(self):
        """Hangs up."""
        for end in (self.terminal, self.other):
            with contextlib.suppress(OSError):
                os.close(end)
        self.sources.pop(self.terminal, None)


class BetweenPipes(Console):
    """A console whose keys come through a pipe."""

    def __init__(self, words, **how):
        how = {"stdin": subprocess.PIPE, "stdout": subprocess.PIPE, "stderr": subprocess.PIPE, "preexec_fn": hear_hang_ups, **how}
        run = subprocess.Popen(words, bufsize=0, **how)
        super().__init__(run, run.stdin.fileno(), {run.stdout.fileno(): "shown", run.stderr.fileno(): "said"})

    def close(self):
        """No more keys come."""
        with contextlib.suppress(OSError):
            self.run.stdin.close()


@contextlib.contextmanager
def ended_at_last(console):
    """A console that is sat at, and ended if it does not end."""
    try:
        yield console
    finally:
        console.run.kill()
        console.run.wait()
        console.close()


@contextlib.contextmanager
def folder():
    with tempfile.TemporaryDirectory() as name:
        yield pathlib.Path(name)


@contextlib.contextmanager
def guest_of(setup):
    """The words by which the guest is that of a setup."""
    with folder() as room:
        (room / "guest.setup").write_text(setup)
        yield ["--setup", room / "guest.setup"]


def echo_guest():
    """The words by which the guest is one that echoes keys."""
    return guest_of(ECHO)
