"""The story of a pair's hosts and its link, by the lines that tell of them, and a picture of that: a column for each host, one for the link
if it lost packets, a row for each line, and a legend."""

from __future__ import annotations

import re
import time

ROW, TOP, LEFT, COLUMN = 26, 62, 120, 270
# How far left of the first column the times end, and how much more room there is below a row after which nothing was told for a second.
ASIDE, PAUSE = 60, 22
# Half of the width of a bar, and of a cross; and how wide a letter is at most, with which the legend is spaced.
BAR, CROSS, LETTER = 5, 6, 8

# What is answered to `cut`, `part`, `mend` and `drop N`, and by `status`: what becomes of packets. So it is at first.
LINK = re.compile(rb"the link loses (?:\d+ of 100 packets|every packet, and the hosts do not see each other)")
WHOLE = "the link loses 0 of 100 packets"
# How many bytes such an answer has at most.
MOST_ANSWER = 80

# What each line says, and which method draws it.
LINES = [
    (r"generation (\d+): host (\d+) is the primary, host (\d+) its backup(?:; the pair is whole again)?", "begins"),
    (r"host (\d+) has failed, and host (\d+) asks to go on alone", "asks"),
    (r"host (\d+) has won, and goes on alone", "wins"),
    (r"copying the machine to host (\d+)", "copies"),
    (r"host (\d+) has failed before it had the machine", "loses"),
    (r"host (\d+) is cut off: it has sent what no host sends", "cuts_off"),
    (r"no spare host is left; host (\d+) goes on without a backup until `spare` brings one", "stays"),
    (r"the link loses (\d+) of 100 packets", "drops"),
    (r"the link loses every packet, and the hosts do not see each other", "parts"),
]
# Those of the link.
OF_LINK = ("drops", "parts")

# The legend, a row for each list: classes, and what they mean.
LEGEND = [
    [("primary", "primary"), ("backup", "backup"), ("joining", "is given a copy"), ("alone", "alone")],
    [("cross", "has failed"), ("arrow", "copy of the machine"), ("lossy", "the link loses packets")],
]
SCALE = "Rows are in order, not to scale: dots stand for a second or more; a row without a time has the one above."

STYLE = """\
<defs>
<marker id="head" viewBox="0 0 10 10" refX="10" refY="5" markerWidth="8" markerHeight="8" orient="auto"><path d="M0 1L10 5L0 9z"/></marker>
</defs>
<style>
text{font:13px sans-serif;fill:#111;stroke:#fff;stroke-width:4px;stroke-linejoin:round;paint-order:stroke}
.head{font-size:15px;font-weight:bold}
.time{font-size:12px}
.page{fill:#fff}
.rest{stroke:#999;stroke-dasharray:2 4}
.primary{fill:#1c4587;stroke:#1c4587}
.backup{fill:#fff;stroke:#1c4587;stroke-width:1.5}
.joining{fill:#fff;stroke:#1c4587;stroke-width:1.5;stroke-dasharray:3 3}
.alone{fill:#38761d;stroke:#38761d}
.inside{stroke:#fff;stroke-width:3}
.lossy{fill:#f4cccc;stroke:#a61c00;stroke-width:1.5;stroke-dasharray:1 3}
.arrow{stroke:#111;stroke-width:1.5;marker-end:url(#head)}
.cross{stroke:#a61c00;stroke-width:2.5;fill:none}
</style>"""

# A line that is drawn: after how many seconds, which method draws it, and what that is given.
Told = tuple[float, str, tuple[str, ...]]


class Story:
    """The lines that have told of a pair, each with the seconds that had passed."""

    def __init__(self) -> None:
        self.began, self.lines, self.link = time.monotonic(), [], WHOLE

    def hear(self, line: str) -> None:
        self.lines.append((time.monotonic() - self.began, line))

    def hear_of_link(self, line: str) -> None:
        """What becomes of packets: told if it was otherwise before."""
        if line != self.link:
            self.link = line
            self.hear(line)

    def picture(self) -> str | None:
        """The picture, an SVG file; nothing if nothing was told."""
        return Drawing(self.lines, time.monotonic() - self.began).text() if self.lines else None


class LinkListener:
    """Hears what a console writes, piece by piece, and has a story hear what it answers of the link."""

    def __init__(self, story: Story) -> None:
        self.story, self.tail = story, b""

    def hear(self, some: bytes) -> None:
        text, end = self.tail + some, 0
        for found in LINK.finditer(text):
            self.story.hear_of_link(found[0].decode())
            end = found.end()
        self.tail = text[end:][-MOST_ANSWER:]


class Drawing:
    """A picture of lines. Each host has a bar for what it is, from the row at which it becomes that, and the link one while it loses
    packets."""

    def __init__(self, lines: list[tuple[float, str]], now: float) -> None:
        # What is drawn of each, the marks over the bars; and what each host is now, and the link, from where on.
        self.bars: list[str] = []
        self.marks: list[str] = []
        self.roles: dict[str, tuple[str, int]] = {}
        told: list[Told] = [(seconds, *drawn) for seconds, line in lines if (drawn := drawing_of(line))]
        hosts = sorted({int(it) for _, name, words in told for it in hosts_in(name, words)})
        has_link = any(name in OF_LINK for _, name, _ in told)
        self.columns = [*["link"] * has_link, *map(str, hosts)]
        self.y, self.shown, self.seconds = TOP, "", told[0][0] if told else now
        for seconds, name, words in told:
            self.next_row(seconds)
            getattr(self, name)(*words)
        self.next_row(now)
        for column in list(self.roles):
            self.turn(column, None)

    def next_row(self, seconds: float) -> None:
        """The next row, with its time unless the row before has the same; after a second and more there are dots above it."""
        if seconds - self.seconds >= 1:
            self.y += PAUSE
            self.write(LEFT - ASIDE, "...", "time", "end")
        self.y, self.seconds = self.y + ROW, seconds
        if moment(seconds) != self.shown:
            self.shown = moment(seconds)
            self.write(LEFT - ASIDE, self.shown, "time", "end")

    def x(self, column: str) -> int:
        return LEFT + COLUMN * self.columns.index(column)

    def write(self, x: int, text: str, kind: str = "label", anchor: str = "start") -> None:
        self.marks.append(f'<text class="{kind}" x="{x}" y="{self.y + 4}" text-anchor="{anchor}">{text}</text>')

    def beside(self, column: str, text: str) -> None:
        """Writes beside the bar of a host, or of the link."""
        self.write(self.x(column) + BAR + 7, text)

    def cross(self, x: int) -> None:
        left, right, top, bottom = x - CROSS, x + CROSS, self.y - CROSS, self.y + CROSS
        self.marks.append(f'<path class="cross" d="M{left} {top}L{right} {bottom}M{left} {bottom}L{right} {top}"/>')

    def arrow(self, begins: int, ends: int) -> None:
        self.marks.append(f'<line class="arrow" x1="{begins}" y1="{self.y}" x2="{ends}" y2="{self.y}"/>')

    def bar(self, x: int, kind: str, since: int, until: int) -> None:
        self.bars.append(f'<rect class="{kind}" x="{x - BAR}" y="{since}" width="{2 * BAR}" height="{until - since}"/>')
        if kind == "alone":
            self.bars.append(f'<line class="inside" x1="{x}" y1="{since}" x2="{x}" y2="{until}"/>')

    def turn(self, column: str, role: str | None) -> None:
        """A host is this from here on, or nothing any more: what it was so far becomes a bar. So does the link."""
        was, since = self.roles.pop(column, (None, 0))
        if was:
            self.bar(self.x(column), was, since, self.y)
        if role:
            self.roles[column] = role, self.y

    def fail(self, host: str, how: str) -> None:
        self.turn(host, None)
        self.cross(self.x(host))
        self.beside(host, how)

    def begins(self, generation: str, primary: str, backup: str) -> None:
        self.turn(primary, "primary")
        self.turn(backup, "backup")
        self.beside(primary, f"generation {generation}: primary")
        self.beside(backup, "backup")

    def asks(self, failed: str, host: str) -> None:
        self.fail(failed, "has failed")
        self.beside(host, "asks to go on alone")

    def wins(self, host: str) -> None:
        self.turn(host, "alone")
        self.beside(host, "goes on alone")

    def copies(self, host: str) -> None:
        self.turn(host, "joining")
        for alone in [it for it, (role, _) in self.roles.items() if role == "alone"]:
            side = BAR if self.x(host) > self.x(alone) else -BAR
            self.arrow(self.x(alone) + side, self.x(host) - side)
        self.beside(host, "is given a copy")

    def loses(self, host: str) -> None:
        self.fail(host, "has failed before it had the machine")

    def cuts_off(self, host: str) -> None:
        self.fail(host, "is cut off")

    def stays(self, host: str) -> None:
        self.beside(host, "no spare host is left")

    def drops(self, percent: str) -> None:
        self.turn("link", "lossy" if int(percent) else None)
        self.beside("link", f"loses {percent} of 100 packets")

    def parts(self) -> None:
        self.turn("link", "lossy")
        self.beside("link", "hosts do not see each other")

    def legend(self) -> int:
        """Draws the legend below all rows; how wide it is."""
        widths = [self.legend_row(row) for row in LEGEND]
        self.y += ROW
        self.write(LEFT - ASIDE, SCALE, "legend")
        return max(*widths, LEFT - ASIDE + LETTER * len(SCALE))

    def legend_row(self, row: list[tuple[str, str]]) -> int:
        """Draws a row of the legend; where it ends."""
        self.y += ROW
        x = LEFT - ASIDE
        for kind, means in row:
            self.sample(x + 10, kind)
            self.write(x + 28, means, "legend")
            x += 44 + LETTER * len(means)
        return x

    def sample(self, x: int, kind: str) -> None:
        if kind == "cross":
            self.cross(x)
        elif kind == "arrow":
            self.arrow(x - 12, x + 12)
        else:
            self.bar(x, kind, self.y - 8, self.y + 8)

    def text(self) -> str:
        heads = []
        for column in self.columns:
            head = column if column == "link" else f"host {column}"
            heads.append(f'<text class="head" x="{self.x(column)}" y="32" text-anchor="middle">{head}</text>')
            heads.append(f'<line class="rest" x1="{self.x(column)}" y1="{TOP}" x2="{self.x(column)}" y2="{self.y}"/>')
        width = max(LEFT + COLUMN * len(self.columns), self.legend())
        height = self.y + ROW
        parts = [f'<svg xmlns="http://www.w3.org/2000/svg" viewBox="0 0 {width} {height}" width="{width}" height="{height}">', STYLE]
        parts.append(f'<rect class="page" x="0" y="0" width="{width}" height="{height}"/>')
        parts.append(f'<text class="head" x="{LEFT - ASIDE}" y="32" text-anchor="end">time</text>')
        return "\n".join([*parts, *heads, *self.bars, *self.marks, "</svg>\n"])


def drawing_of(line: str) -> tuple[str, tuple[str, ...]] | None:
    """The method that draws a line, and what it is given; nothing of a line that is not in the table."""
    for pattern, name in LINES:
        found = re.fullmatch(pattern, line)
        if found:
            return name, found.groups()
    return None


def hosts_in(name: str, words: tuple[str, ...]) -> tuple[str, ...]:
    """The hosts among the words of a line."""
    if name in OF_LINK:
        return ()
    return words[1:] if name == "begins" else words[:1] if name == "wins" else words


def moment(seconds: float) -> str:
    """Minutes and seconds."""
    return f"{int(seconds // 60)}:{seconds % 60:04.1f}"
