"""What a program writes, passed on as it comes up to a mark, and kept after it; what it hands over between marks is taken out."""

import os
import select

# How many bytes are read at once, and for how many seconds bytes are held back with which the mark may begin.
MOST_BYTES = 65536
HOLD = 0.02


def begun(text, mark):
    """How many bytes of the mark this text ends with, if not with all of them."""
    return next((size for size in range(min(len(text), len(mark) - 1), 0, -1) if text.endswith(mark[:size])), 0)


class Screen:
    """A pipe that a program writes to, and the output that this goes to. If that can take no more, the program is ended. Between two marks in
    a row and a third one a program hands over what is not to be seen: `heard` says what is written in its place."""

    def __init__(self, program, pipe, output, mark, heard):
        self.program, self.pipe, self.output, self.mark, self.heard = program, pipe.fileno(), output, mark, heard
        # The end of what came, with which the mark may begin, and how much of it is passed on.
        self.tail, self.passed = b"", 0
        # What came after the mark, of which it is not known yet what it is; and after that what is kept, or handed over.
        self.doubt = self.kept = self.handed = None
        self.error = None
        # Whether anything was passed on.
        self.has_passed = False

    def pass_on(self):
        """Passes on what comes, to its end."""
        try:
            while some := self.next():
                self.take(some)
            self.pass_tail()
        except OSError as error:
            self.error = error
            self.program.kill()
        if self.kept is None:
            self.kept = self.doubt

    def next(self):
        """What comes next; what is held back is passed on if nothing comes for a while."""
        if self.passed < len(self.tail) and not select.select([self.pipe], [], [], HOLD)[0]:
            self.pass_tail()
        return os.read(self.pipe, MOST_BYTES)

    def take(self, some):
        """Does what is to be done with what has come."""
        while some:
            if self.kept is not None:
                self.kept += some
                return
            if self.handed is not None:
                some = self.take_handed(some)
            elif self.doubt is not None:
                some = self.take_doubt(some)
            else:
                some = self.take_seen(some)

    def take_seen(self, some):
        """Passes on what cannot be of the mark; gives what comes after it."""
        text = self.tail + some
        at = text.find(self.mark)
        end = at if at >= 0 else len(text) - begun(text, self.mark)
        self.write(text[self.passed : end])
        self.tail, self.passed = text[end:], max(self.passed - end, 0)
        if at < 0:
            return b""
        self.tail, self.passed, self.doubt = b"", 0, bytearray()
        return text[at + len(self.mark) :]

    def take_doubt(self, some):
        """After the mark comes another one, or else what is kept."""
        self.doubt += some
        if len(self.doubt) < len(self.mark) and self.mark.startswith(self.doubt):
            return b""
        text, self.doubt = bytes(self.doubt), None
        if not text.startswith(self.mark):
            self.kept = bytearray(text)
            return b""
        self.handed = bytearray()
        return text[len(self.mark) :]

    def take_handed(self, some):
        """Takes what is handed over; gives what comes after it."""
        before = max(len(self.handed) - len(self.mark), 0)
        self.handed += some
        at = self.handed.find(self.mark, before)
        if at < 0:
            return b""
        text, self.handed = bytes(self.handed), None
        self.output.write(self.heard(text[:at]))
        return text[at + len(self.mark) :]

    def write(self, some):
        """Passes on bytes of the machine."""
        self.has_passed = self.has_passed or bool(some)
        self.output.write(some)

    def pass_tail(self):
        """Passes on what is held back; what comes next may still make it the mark."""
        self.write(self.tail[self.passed :])
        self.passed = len(self.tail)
