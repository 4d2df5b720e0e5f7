"""The keys of standard input, on their way to the program of a console."""

from __future__ import annotations

import contextlib
import os
import pty
import select
import termios
import threading
import tty

# How many keys are read at once, and for how many seconds a program may go on after its terminal has hung up.
MOST_KEYS = 4096
PATIENCE = 30
# What closes a line of commands that may be open, and what does if that is the escape key; and what ends most programs, of which so many in
# a row ask for a way out.
CLOSES, CLOSES_TOO, CTRL_C, ASKS = b"\x03", b"\x1b", 0x03, 3
# After how many tenths of a second without a key the program hears that none came.
PAUSE = 1


def begin(thread):
    """Starts a thread that does not keep the command from ending."""
    thread.daemon = True
    thread.start()
    return thread


def ends_of_keys() -> tuple[int, int]:
    """Where a program reads its keys, and where they are written to. If they come from a terminal it is a terminal too, which passes on each
    byte as it is: so the program hears pauses, by which a lone ESC is told from a cursor key."""
    if not os.isatty(0):
        return os.pipe()
    to, program = pty.openpty()
    tty.setraw(program, termios.TCSANOW)
    return program, to


def hear_pauses(terminal: int) -> None:
    """From now on a read of a terminal that finds no key comes back after a while."""
    mode = termios.tcgetattr(terminal)
    mode[6][termios.VMIN], mode[6][termios.VTIME] = 0, PAUSE
    termios.tcsetattr(terminal, termios.TCSANOW, mode)


class Keys:
    """The keys of standard input, on their way to a program."""

    def __init__(self, program, to, opening, escape, do_first, remind):
        self.program, self.opening, self.to = program, opening, to
        self.do_first, self.remind, self.in_a_row = do_first, remind, 0
        self.escape = bytes([escape])
        self.is_terminal = os.isatty(0)

    def pass_on(self):
        """Passes on what comes before the keys, and then keys as they come, as long as there is a terminal and a program."""
        with contextlib.suppress(OSError):
            self.write(self.opening)
            if self.is_terminal:
                hear_pauses(self.to)
            self.begin_first()
            while some := self.next():
                self.write(some)
                self.heed(some)
        self.end(self.is_terminal)

    def begin_first(self):
        """Does what is done before the first key of a file or a pipe, and beside the keys of a terminal."""
        if self.is_terminal:
            begin(threading.Thread(target=self.do_all_first))
        else:
            self.do_all_first()

    def do_all_first(self):
        with contextlib.suppress(OSError):
            self.do_first(self)

    def next(self):
        """The keys that come next. Whoever shares the input may have set it not to wait."""
        select.select([0], [], [])
        return os.read(0, MOST_KEYS)

    def heed(self, some):
        """Reminds of how one gets out once a terminal has typed Ctrl-C three times in a row."""
        for key in some if self.is_terminal else b"":
            self.in_a_row = self.in_a_row + 1 if key == CTRL_C else 0
            if self.in_a_row == ASKS:
                self.remind()

    def write(self, some):
        while some:
            some = some[os.write(self.to, some) :]

    def command(self, line):
        """Types a command."""
        self.write(self.escape + line + b"\r")

    def quit(self):
        """Types `quit`, after what closes a line of commands that may be open, and opens one."""
        with contextlib.suppress(OSError):
            self.write(self.escape + (CLOSES if self.escape != CLOSES else CLOSES_TOO))
            self.command(b"quit")

    def end(self, has_hung_up):
        """No more keys come, and what is written to a pipe from now on goes nowhere. A program whose terminal has hung up is to quit, and may
        not go on for long; its own terminal stays, since what is in that would be lost."""
        if has_hung_up:
            begin(threading.Timer(PATIENCE, self.program.kill))
            self.quit()
        if self.is_terminal:
            return
        with open(os.devnull, "wb") as nowhere:
            os.dup2(nowhere.fileno(), self.to)
