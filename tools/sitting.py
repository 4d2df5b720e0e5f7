"""A shell session at a terminal: a greeting, a prompt before each line, lines that can be edited and recalled, `save` and `do`."""

import itertools
import os
import re
import readline  # input() edits and recalls lines by it
import signal
import sys

import disks

GREETING = (
    "A pair of Altairs. `help` lists the lines; `save D FILE` writes the disk of drive D; `do FILE` says the lines of a file;\n"
    "`quit`, or Ctrl-D, ends the session."
)
PROMPT = "> "
# What a key sends that no command is bound to, as F5, is dropped; and so is a byte that no line has.
DROPS_KEYS = r'"\e[": skip-csi-sequence'
NO_CHARACTER = re.compile(r"[\x00-\x1f\x7f]")
BUSY = b"\nstill at this line; Ctrl-C once more ends the session, and what it has is lost\n"


class Ended(Exception):
    """The program has ended, or is ended by its user."""


class Sitting:
    """A terminal and a program. After each line comes a word that no session has; what is answered to it ends the line's answer."""

    def __init__(self, program, mark):
        self.program, self.mark = program, mark
        self.is_asking = self.is_warned = False

    def lines(self):
        """The lines that are typed, up to `quit` or the end of the input. Ctrl-C drops what is typed so far."""
        print(GREETING)
        readline.parse_and_bind(DROPS_KEYS)
        while True:
            try:
                self.is_asking = True
                line = NO_CHARACTER.sub("", input(PROMPT))
            except KeyboardInterrupt:
                print()
                continue
            except EOFError:
                print()
                return
            finally:
                self.is_asking = False
            if line.strip() == "quit":
                return
            yield line

    def interrupted(self, _number, _frame):
        """Ctrl-C. In a line the program hears no signals, so the first only says that it is busy, and the second ends it."""
        if self.is_asking:
            raise KeyboardInterrupt
        if self.is_warned:
            self.program.kill()
        else:
            self.is_warned = True
            os.write(2, BUSY)

    def answers(self, lines):
        """Says lines, and gives each line that is answered, as it comes."""
        self.is_warned = False
        try:
            self.program.stdin.write("".join(f"{line}\n" for line in [*lines, self.mark]).encode("latin-1", "replace"))
            self.program.stdin.flush()
            for said in iter(self.program.stdout.readline, b""):
                if self.mark.encode() in said:
                    return
                yield said
        except BrokenPipeError:
            pass
        raise Ended

    def save(self, drive, path):
        """Writes what the disk of a drive has now to a file; what is said of that."""
        image = disks.image_in([it.decode("latin-1").rstrip("\n") for it in self.answers(disks.query_lines(drive))], drive)
        if image is None:
            return f"? {path} is not written: there is no drive {drive}, or its disk could not be read"
        try:
            disks.write(path, image)
        except OSError as error:
            return f"? {path} is not written: {error.strerror}"
        return f"saved {drive} {path}: {len(image)} bytes"

    def show(self, line):
        """Says a line, and shows what is answered."""
        for said in self.answers([line]):
            sys.stdout.buffer.write(said)
            sys.stdout.buffer.flush()

    def do(self, path):
        """Says the lines of a file, up to a line `quit`; that one ends the file, and not the session."""
        try:
            with open(path, encoding="latin-1") as file:
                lines = file.read().splitlines()
        except OSError as error:
            print(f"? {path} is not read: {error.strerror}", flush=True)
            return
        for line in itertools.takewhile(lambda it: it.strip() != "quit", lines):
            self.show(line)

    def sit(self):
        """Asks and answers, until the session ends."""
        signal.signal(signal.SIGINT, self.interrupted)
        for line in self.lines():
            saving, doing = re.fullmatch(r"\s*save ([0-3]) (\S.*)", line), re.fullmatch(r"\s*do (\S.*)", line)
            if saving:
                print(self.save(int(saving[1]), saving[2].strip()))
            elif doing:
                self.do(doing[1].strip())
            else:
                self.show(line)
