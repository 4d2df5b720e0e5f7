"""A terminal as a person sees it: rows of characters, the rows that scroll, and where the cursor is, by the bytes that were written to it."""
import re

# A sequence, whole or as far as it has come.
CONTROL = re.compile(rb"\x1b\[([0-?]*)[ -/]*([@-~])")
OTHER = re.compile(rb"\x1b([ -/]*)([0-OQ-Z\\`-~])")
TEXT = re.compile(rb"\x1b[P\]][^\x07\x1b]*(\x07|\x1b\\)")
BEGUN = re.compile(rb"\x1b(\[[0-?]*[ -/]*|[ -/]*|[P\]][^\x07\x1b]*)$")
BROKEN = re.compile(rb"\x1b\[?[0-?]*[ -/]*")


class Emulated:
    """A terminal of so many rows and columns. Attributes of characters are of no account."""

    def __init__(self, height, width):
        self.height, self.width, self.rest = height, width, b""
        self.cells = [[" "] * width for _ in range(height)]
        self.reset()

    def reset(self):
        self.row = self.column = 0
        # At the end of a row the cursor stays on its last character until one more comes.
        self.is_full = False
        self.kept = 0, 0, False
        self.region = 0, self.height - 1

    def texts(self):
        """What each row has, without the spaces at its end."""
        return ["".join(cells).rstrip() for cells in self.cells]

    def all_scroll(self):
        return self.region == (0, self.height - 1)

    def resize(self, height, width):
        """Rows and columns come or go at the end; rows go at the begin if the cursor would go with those at the end."""
        while self.row >= height:
            self.cells.append([" "] * self.width)
            del self.cells[0]
            self.row -= 1
        blank = [[" "] * width for _ in range(height)]
        self.cells = [(cells + [" "] * width)[:width] for cells in self.cells[:height]] + blank[len(self.cells) :]
        self.height, self.width, self.region = height, width, (0, height - 1)
        self.column = min(self.column, width - 1)

    def take(self, some):
        """Takes bytes; those of a sequence that is not whole stay."""
        text, self.rest, place = self.rest + some, b"", 0
        while place < len(text):
            if text[place] != 0x1B:
                self.put(text[place])
                place += 1
                continue
            if BEGUN.match(text, place):
                self.rest = text[place:]
                return
            control, other = CONTROL.match(text, place), OTHER.match(text, place)
            if control:
                self.control(control[1], control[2])
            elif other and not other[1]:
                self.other(other[2])
            place = (control or other or TEXT.match(text, place) or BROKEN.match(text, place)).end()

    def put(self, byte):
        if byte == 0x0D:
            self.column, self.is_full = 0, False
        elif byte == 0x0A:
            self.line_feed()
        elif byte == 0x08:
            self.column, self.is_full = max(self.column - 1, 0), False
        elif byte >= 0x20:
            if self.is_full:
                self.column, self.is_full = 0, False
                self.line_feed()
            self.cells[self.row][self.column] = chr(byte)
            self.is_full = self.column == self.width - 1
            self.column += not self.is_full

    def line_feed(self):
        top, bottom = self.region
        if self.row == bottom:
            del self.cells[top]
            self.cells.insert(bottom, [" "] * self.width)
        else:
            self.row = min(self.row + 1, self.height - 1)

    def other(self, final):
        if final == b"7":
            self.kept = self.row, self.column, self.is_full
        elif final == b"8":
            self.row, self.column, self.is_full = self.kept
        elif final == b"D":
            self.line_feed()
        elif final == b"c":
            self.erase(0, self.height * self.width)
            self.reset()

    def control(self, parameters, final):
        numbers = [int(it or 0) for it in parameters.split(b";")] if re.fullmatch(rb"[\d;]*", parameters) else []
        first, second = (*numbers, 0, 0)[:2]
        here, ends = self.row * self.width + self.column, self.height * self.width
        if final == b"H":
            self.row, self.column = min(max(first, 1), self.height) - 1, min(max(second, 1), self.width) - 1
            self.is_full = False
        elif final == b"A":
            self.row = max(self.row - max(first, 1), 0)
        elif final == b"J":
            self.erase(*[(here, ends), (0, here + 1), (0, ends)][first])
        elif final == b"K":
            begins = self.row * self.width
            self.erase(*[(here, begins + self.width), (begins, here + 1), (begins, begins + self.width)][first])
        elif final == b"r":
            self.region = max(first, 1) - 1, (second or self.height) - 1
            self.row = self.column = 0
        elif final in (b"s", b"u"):
            self.other(b"7" if final == b"s" else b"8")

    def erase(self, begins, ends):
        for place in range(begins, ends):
            self.cells[place // self.width][place % self.width] = " "
