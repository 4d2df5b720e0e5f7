"""The last row of a terminal: a line is shown there while the rows above it scroll, at moments at which that disturbs nothing."""

import contextlib
import os
import re
import select
import threading
import time

from output import Output

# A terminal has a last row for lines if it has so many rows and columns.
LEAST_ROWS, LEAST_COLUMNS = 4, 20
BEL, CAN, SUB, ESC = 0x07, 0x18, 0x1A, 0x1B
# Bytes with which no sequence begins.
PLAIN = re.compile(rb"[^\x1b\xc0-\xff]*")
# ESC and one of these begin a text for the terminal: DCS, SOS, OSC, PM, APC.
TEXTS = b"PX]^_"
# How many parameters of a sequence are kept, in bytes.
MOST_PARAMETERS = 16
# All rows scroll; and the cursor leaves the last row, if it is there, for which the rows move up.
ALL_SCROLL, OFF_THE_ROW = b"\x1b7\x1b[r\x1b8", b"\x1bD\x1b[A"
# The letters of ASCII, as they are at first.
AS_AT_FIRST = b"\x1b(B\x0f\x1b[0m"
# For how many seconds a terminal that takes nothing is waited for at the end.
PATIENCE = 1
# For how many seconds a line stays until the hint is there again.
STAYS = 30


class Stream:
    """What goes to a terminal: whether a sequence has begun and not ended, a place of the cursor is kept, or all rows scroll."""

    def __init__(self, rows):
        self.rows = rows
        # What becomes of the next byte; the parameters of a sequence so far, and how many bytes a character lacks.
        self.next, self.parameters, self.missing = self.plain, b"", 0
        self.keeps_place, self.all_scroll = False, True

    def is_quiet(self):
        return self.next == self.plain and not self.keeps_place

    def follow(self, some, stops):
        """Follows these bytes, up to the first place at which it is quiet if it stops there; gives that place."""
        place = 0
        while place < len(some) and not (stops and self.is_quiet()):
            if self.next == self.plain:
                place = PLAIN.match(some, place).end()
            if place < len(some):
                self.next = self.after(some[place])
                place += 1
        return place

    def after(self, byte):
        if byte == ESC:
            self.parameters = b""
            return self.escape
        if byte in (CAN, SUB):
            return self.plain
        # Other controls are carried out in the middle of a sequence.
        return self.next(byte) if byte >= 0x20 or self.next in (self.text, self.character) else self.next

    def plain(self, byte):
        self.missing = 0 if byte < 0xC0 else 1 if byte < 0xE0 else 2 if byte < 0xF0 else 3
        return self.character if self.missing else self.plain

    def character(self, byte):
        if not 0x80 <= byte < 0xC0:
            return self.plain(byte)
        self.missing -= 1
        return self.character if self.missing else self.plain

    def escape(self, byte):
        if byte == ord("["):
            return self.control
        if byte in TEXTS:
            return self.text
        if byte < 0x30:
            return self.other
        if byte in b"78c":
            self.keeps_place = byte == ord("7")
            self.all_scroll = self.all_scroll or byte == ord("c")
        return self.plain

    def other(self, byte):
        """Of a sequence of ESC and more than one byte."""
        return self.other if byte < 0x30 else self.plain

    def text(self, byte):
        return self.plain if byte == BEL else self.text

    def control(self, byte):
        """Of a sequence of CSI."""
        if byte < 0x40:
            self.parameters = (self.parameters + bytes([byte]))[:MOST_PARAMETERS]
            return self.control
        if byte in b"su" and not self.parameters:
            self.keeps_place = byte == ord("s")
        elif byte == ord("r") and re.fullmatch(rb"\d*(;\d*)?", self.parameters):
            top, _, bottom = self.parameters.partition(b";")
            self.all_scroll = int(top or 1) <= 1 and not 0 < int(bottom or 0) < self.rows
        elif (self.parameters, byte) == (b"!", ord("p")):
            self.keeps_place, self.all_scroll = False, True
        return self.plain


class LastRow(Output):
    """A terminal that is written to, and the line on its last row. The line waits while a sequence is not ended, or a place of the cursor is
    kept; if another one comes meanwhile, that one is shown. While nothing else is to be said a hint is there."""

    def __init__(self, to, hint):
        super().__init__(to)
        self.columns, rows = os.get_terminal_size(to)
        self.stream, self.lock = Stream(rows), threading.RLock()
        self.line, self.is_due, self.has_ended = hint, True, False
        self.hint, self.said = hint, 0.0

    def write(self, some):
        with self.lock:
            place = self.stream.follow(some, self.is_due)
            due = self.due()
            self.stream.follow(some[place:], False)
            super().write(some[:place] + due + some[place:])

    def say(self, line):
        """Has a line on the row as soon as it may be there."""
        with self.lock:
            self.line, self.is_due, self.said = line, True, time.monotonic()
            self.write(b"")

    def rest(self):
        """Has the hint on the row whenever nothing was said for a while, to the end."""
        while not self.has_ended:
            time.sleep(1)
            if self.line != self.hint and time.monotonic() > self.said + STAYS:
                with contextlib.suppress(OSError):
                    self.say(self.hint)

    def resize(self):
        """The terminal has another size now."""
        with self.lock, contextlib.suppress(OSError):
            self.columns, self.stream.rows = os.get_terminal_size(self.to)
            self.stream.all_scroll = self.is_due = True
            self.write(b"")

    def due(self):
        """What is to be written of the row now, if anything."""
        if not self.is_due or self.has_ended or not self.stream.is_quiet():
            return b""
        self.is_due = False
        rows = self.stream.rows
        if rows < LEAST_ROWS or self.columns < LEAST_COLUMNS:
            return ALL_SCROLL
        above = b"\x1b7\x1b[1;%dr\x1b8" % (rows - 1)
        apart = ALL_SCROLL + OFF_THE_ROW + above if self.stream.all_scroll else b""
        self.stream.all_scroll = False
        return apart + self.row(b"\x1b[7m" + self.line[: self.columns])

    def row(self, text):
        """What writes the row, and leaves the cursor where it is."""
        return b"\x1b7\x1b[%d;1H" % self.stream.rows + AS_AT_FIRST + b"\x1b[2K" + text + b"\x1b8"

    def end(self):
        """All rows scroll from now on, and the last one is empty."""
        is_free = self.lock.acquire(timeout=PATIENCE)
        self.has_ended = True
        if is_free and select.select([], [self.to], [], PATIENCE)[1] and not self.has_hung_up:
            cut = b"" if self.stream.next in (self.stream.plain, self.stream.character) else bytes([CAN])
            with contextlib.suppress(OSError):
                os.write(self.to, cut + ALL_SCROLL + self.row(b""))
        if is_free:
            self.lock.release()


def can_have(to):
    """Whether this file is a terminal that has a last row."""
    if not os.isatty(to) or os.environ.get("TERM", "dumb") == "dumb":
        return False
    columns, rows = os.get_terminal_size(to)
    return rows >= LEAST_ROWS and columns >= LEAST_COLUMNS
