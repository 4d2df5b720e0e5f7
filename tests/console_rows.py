"""Cases of tests/console about the lines that tell of a pair: on the last row of a terminal, as a person sees it, and in pictures."""
import contextlib
import os
import re
import signal
import subprocess
import xml.etree.ElementTree

from cases import expect
from console_sitting import ENTER, ESCAPE, PATIENCE, TOP, AtTerminal, BetweenPipes, ended_at_last, folder, set_size
from emulated import Emulated

CASES = []
SIZE = 12, 100

GREETING = "pair: an Altair 8800 on two hosts. Ctrl-E opens a line of commands; help lists them."
DUMP = ["D 0000", "0000 31 00 04 3E 03 D3 10 3E 95 D3 10 C3 45 00 00 00", "*"]

# A program that takes the place of the real one: at each key it writes what comes next, in which {} is what it hands a line over between.
PLAYER = """\
#!/usr/bin/env python3
import os, sys
words = sys.argv[1:]
mark = words[words.index("--mark") + 1].encode() if "--apart" in words else b""
os.read(0, int(words[words.index("--before") + 1]))
for some in %r:
    os.write(1, some.replace(b"<", mark * 2 + b"pair: ").replace(b">", mark))
    while not (key := os.read(0, 1)) and os.isatty(0):
        pass
    if not key:
        break
"""


def case(test):
    """Makes a function a case, which is given what makes the words of a command; its name says what must hold."""
    CASES.append(test)
    return test


class OnScreen(AtTerminal):
    """A console at a terminal that is looked at."""

    def __init__(self, words, size=SIZE, **how):
        super().__init__(words, is_apart=False, size=size, **how)
        self.screen, self.seen = Emulated(*size), 0
        # What was on the last row, one after another, and which of it was waited for last.
        self.rows, self.awaited = [""], 0

    def hear(self, within):
        has_come = super().hear(within)
        for piece in re.split(rb"(?<=\x1b8)", self.shown[self.seen :]):
            self.screen.take(piece)
            self.note_row()
        self.seen = len(self.shown)
        return has_come

    def note_row(self):
        """Remembers what is on the last row, which is written in one piece."""
        row = self.screen.texts()[-1]
        if row != self.rows[-1]:
            self.rows.append(row)

    def resize(self, size):
        self.screen.resize(*size)
        self.note_row()
        self.awaited = len(self.rows) - 1
        set_size(self.terminal, size)

    def texts(self):
        """The rows that are not empty, but for the last one, with an N for the number of each process."""
        return [re.sub(r"process \d+", "process N", it) for it in self.screen.texts()[:-1] if it]

    def await_row(self, pattern):
        """Waits until this is on the last row, or was since it was waited for last: another line may follow at once."""
        self.await_that(lambda: self.has_had_row(pattern), f"{pattern!r} on the last row of {self.screen.texts()}")

    def has_had_row(self, pattern):
        found = next((place for place in range(self.awaited, len(self.rows)) if re.search(pattern, self.rows[place])), None)
        self.awaited = self.awaited if found is None else found
        return found is not None


def looked_at(words, **how):
    return ended_at_last(OnScreen(words, **how))


@contextlib.contextmanager
def played(*steps, **how):
    """A console whose program writes these texts, one at each key."""
    with folder() as room:
        player = room / "player"
        player.write_text(PLAYER % (steps,))
        player.chmod(0o755)
        with looked_at([TOP / "tools/console.py", player, "console"], **how) as console:
            console.await_that(console.is_raw, "the raw mode")
            console.await_row("^host 2 is process")
            yield console


@case
def a_line_is_on_the_last_row_and_the_guest_above_it(command):
    lines = [GREETING, "MONITOR", "*", "pair> stop 0", "host 0, process N, is killed"]
    with looked_at(command("--hosts", "4", "--later", "0")) as console:
        console.await_shown(b"MONITOR\r\n*")
        console.await_row("^generation 1: host 0 is the primary, host 1 its backup$")
        console.say("stop 0")
        console.await_row("^generation 2: host 1 is the primary, host 2 its backup; the pair is whole again$")
        expect(console.texts(), lines, "the rows above")
        for number in range(5):
            console.type_slowly(b"D 0000")
            lines += ["*" * (number > 0) + DUMP[0], DUMP[1]]
            console.await_that(lambda: console.shown_above().count(b" 00 00\r\n*") == number + 1, "a dump")
        expect(console.texts(), [*lines, "*"][1 - SIZE[0] :], "the rows above, after they have scrolled")
        # Either may be said last: that the pair is whole, or how the process has ended.
        expect(bool(re.search("^generation 2: |^host 0 has ended: killed by signal 9$", console.rows[-1])), True, "a line on the last row")
        expect(console.quit(), 0, "the status")
        expect((console.screen.all_scroll(), console.screen.texts()[-1]), (True, ""), "that all rows scroll, and the last one")
        expect(console.texts(), [*lines, "*", "pair> quit"][2 - SIZE[0] :], "the rows above, at the end")
        expect((console.screen.row, console.screen.column), (SIZE[0] - 2, 0), "where the cursor is at the end")


@case
def the_row_says_how_a_command_is_given(command):
    with looked_at(command("--hosts", "2", "--later", "0", "--escape", "^A")) as console:
        console.await_row("^Ctrl-A opens a line of commands$")
        console.await_row("^generation 1: ")
        console.type(b"\x03\x03a\x03")
        console.say("mend", b"\x01")
        console.await_shown(b"the link loses 0 of 100 packets")
        expect(console.has_had_row("`quit` there"), False, "that two Ctrl-C in a row are taken for three")
        console.type(b"\x03\x03\x03")
        console.await_row("^Ctrl-A opens a line of commands, and `quit` there ends the console$")
        console.say("quit", b"\x01")
        expect(console.status(), 0, "the status")


@case
def a_line_waits_for_the_end_of_a_sequence(command):
    steps = [
        (b"\x1b[5;<first><second>", b"9HX", "second"),
        (b"\x1b7\x1b[3;3HY<third>", b"\x1b8Z", "third"),
        (b"\x1b[s\x1b[4;4HY<fourth>", b"\x1b[uZ", "fourth"),
        (b"\x1b]0;title<fifth>", b" and more\x07Z", "fifth"),
        (b"\x1b<sixth>", b"[5;13HZ", "sixth"),
        (b"\x1b(<seventh>", b"BZ", "seventh"),
        (b"\xc3<eighth>", b"\xa9", "eighth"),
    ]
    with played(*[part for begin, end, _ in steps for part in (begin, end)]) as console:
        for _, _, line in steps:
            console.type(b"..")
            console.await_row(f"^{line}$")
        texts = [""] * (SIZE[0] - 1)
        texts[2], texts[3], texts[4] = "  Y", "   Y", "        XZZZZZ\xc3\xa9"
        expect(console.screen.texts()[:-1], texts, "the rows above")
        expect((b"first" in console.shown, b"\xc3\xa9" in console.shown), (False, True), "that a line is left out, and a character is whole")


@case
def a_region_of_the_guest_is_its_own(command):
    with played(b"<first>", b"\x1b[2;5r<second>", b"\x1b[r<third>", b"\x1bc<fourth>", b"\x1b[1;12r<fifth>", b"\x1b[2J<sixth>") as console:
        regions = {}
        for line in ("first", "second", "third", "fourth", "fifth", "sixth"):
            console.await_row(f"^{line}$")
            regions[line] = console.screen.region
            console.type(b".")
        own = {line: (1, 4) if line == "second" else (0, SIZE[0] - 2) for line in regions}
        expect(regions, own, "the rows that scroll")


@case
def a_line_is_on_the_last_row_of_a_terminal_of_another_size(command):
    with played(b"text\r\n" * 11 + b"<a line of thirty-six letters, a cut>", b"more") as console:
        console.await_row("letters, a cut$")
        for size in ((8, 30), (20, 80), (3, 80), (12, 19), (4, 20)):
            console.resize(size)
            has_row = size[0] >= 4 and size[1] >= 20
            region = (0, size[0] - 1 - has_row)
            row = "a line of thirty-six letters, a cut"[: size[1]].rstrip()
            console.await_that(lambda: console.screen.region == region, f"that other rows scroll at {size}")
            if has_row:
                console.await_row(f"^{row}$")
        console.type(b".")
        console.await_shown(b"more")
        expect(console.screen.texts()[2], "more", "the row above")


@case
def the_last_row_is_the_guests_again_at_the_end(command):
    ends = {
        "quit": (lambda console: console.say("quit"), 0),
        "a signal": (lambda console: console.run.terminate(), 128 + signal.SIGTERM),
        "a killed program": (lambda console: os.kill(console.program(), signal.SIGKILL), 128 + signal.SIGKILL),
        "a hang-up": (lambda console: console.run.send_signal(signal.SIGHUP), 0),
    }
    for of, (end, status) in ends.items():
        with looked_at(command()) as console:
            console.await_shown(b"MONITOR\r\n*")
            console.await_row("^generation 1: ")
            end(console)
            expect(console.status(), status, f"the status after {of}")
            expect((console.screen.all_scroll(), console.screen.texts()[-1]), (True, ""), f"that all rows scroll, and the last one, after {of}")
            last = max(place for place, text in enumerate(console.screen.texts()) if text)
            expect(console.screen.row > last or console.screen.column > 0, True, f"that the cursor is after the last text, after {of}")


@case
def a_sequence_that_is_cut_off_does_not_hold_the_row(command):
    with played(b"<first>text\x1b[5;", b"") as console:
        console.await_row("^first$")
        console.await_shown(b"text\x1b[5;")
        console.run.terminate()
        console.status()
        expect((console.screen.all_scroll(), console.screen.texts()[0], console.screen.texts()[-1]), (True, "text", ""), "the rows at the end")


@case
def lines_are_written_where_the_cursor_is_if_there_is_no_row_for_them(command):
    told = rb"\r\npair: host 0 has failed, and host 1 asks to go on alone\r\n.*\r\npair: host 1 has won, and goes on alone\r\n"
    for words, how in ((["--lines", "here"], {}), ([], {"kind": "dumb"}), (["--lines=row"], {"size": (3, 100)}), ([], {"size": (24, 19)})):
        with looked_at(command(*words), **how) as console:
            console.await_shown(b"MONITOR\r\n*")
            console.say("stop 0")
            console.await_that(lambda: re.search(told, console.shown, re.DOTALL), "the lines")
            expect((console.quit(), console.shown.count(b"\x1b")), (0, 0), "the status, and the sequences")


@case
def lines_go_where_standard_error_goes_unless_they_are_asked_for(command):
    for words, is_told in (([], True), (["--lines", "row"], False)):
        with ended_at_last(AtTerminal(command(*words), size=SIZE)) as console:
            console.await_shown(b"MONITOR\r\n*")
            console.await_that(lambda: b"generation 1: " in (console.said if is_told else console.shown), "the first line")
            expect(console.quit(), 0, "the status")
            expect((b"\npair: generation" in console.said, b"\x1b" in console.shown), (is_told, not is_told), "where lines went")


@case
def a_program_by_itself_hands_lines_over_only_if_it_is_told_to(command):
    with ended_at_last(AtTerminal(command())) as console:
        console.await_shown(b"MONITOR")
        program = os.readlink(f"/proc/{console.program()}/exe")
        expect(console.quit(), 0, "the status")
    line = b"pair: generation 1: host 0 is the primary, host 1 its backup"
    for words in ([], ["--mark", "=="], ["--apart"], ["--apart", "--mark", "=="]):
        told = b"====%s==" if len(words) == 3 else b"\r\n%s\r\n"
        alone = by_itself(program, b"", *words)
        said = alone.stderr.partition(b" lists them.\r\n")[2]
        expect((alone.returncode, alone.stdout[:1], said), (0, b"A", told % line), f"the status, and what is said with {words}")


# A guest that prints A and halts: MVI A,03; OUT 10; MVI A,15; OUT 10; MVI A,41; OUT 11; HLT.
PRINTS_A = b"mem 0000 3E 03 D3 10 3E 15 D3 10 3E 41 D3 11 76\n"


def by_itself(program, keys, *words):
    """How a program ends that runs a console without ./pair, with two hosts, whose guest prints A and halts."""
    before = ["--before", str(len(PRINTS_A))]
    with folder() as room:
        hosts = []
        for place, role in enumerate(("primary", "backup")):
            for end in ("in", "out"):
                os.mkfifo(room / f"{place}.{end}")
            starts = ["sh", "-c", 'pipes=$1; shift; exec "$@" < "$pipes.in" > "$pipes.out"', "host", room / str(place)]
            hosts.append(subprocess.Popen([*starts, program, "host", "--role", role, *before], stderr=subprocess.DEVNULL))
        console = [program, "console", "--folder", room, "--places", "2", *before, *words]
        alone = subprocess.run(console, input=PRINTS_A + keys, capture_output=True, timeout=PATIENCE)
        for host in hosts:
            host.wait(PATIENCE)
        return alone


def drawn_in(path):
    """What a picture has: how many elements of each class, and its texts."""
    elements = list(xml.etree.ElementTree.parse(path).iter())
    classes = [it.get("class") for it in elements]
    counts = {it: classes.count(it) for it in ("primary", "backup", "joining", "alone", "cross", "arrow", "lossy")}
    return counts, [it.text for it in elements if it.tag.endswith("text")]


def await_spare(console, host):
    """Waits until a host has said that it is a spare: of several, the first that has is given the machine."""
    def is_spare():
        console.type(ESCAPE + b"status" + ENTER)
        console.hear_for(0.2)
        return re.search(rb"host %d \(process \d+\): a spare" % host, console.shown + console.said)

    console.await_that(is_spare, f"the spare {host}")


@case
def a_picture_has_what_became_of_the_hosts(command):
    for place in (OnScreen, AtTerminal, BetweenPipes):
        with folder() as room, ended_at_last(place(command())) as console:
            console.await_shown(b"MONITOR\r\n*")
            # The second `mend` changes nothing, and `status` says it once more.
            for line, losses in ((b"drop 30", 30), (b"cut", 100), (b"mend", 0), (b"mend", 0)):
                console.type(ESCAPE + line + ENTER)
                console.await_that(lambda: b"the link loses %d of 100 packets" % losses in console.shown + console.said, f"the answer to {line!r}")
            for line, host in ((b"stop 0", 2), (b"stop 2", 3)):
                await_spare(console, host)
                console.type(ESCAPE + line + ENTER)
                console.await_that(lambda: b", host %d its backup" % host in console.shown + console.said, f"host {host}")
            console.type(ESCAPE + b"picture  %s  " % os.fsencode(room / "of hosts.svg") + ENTER)
            console.await_that(lambda: b"is drawn in " in console.shown + console.said, "the picture")
            counts, texts = drawn_in(room / "of hosts.svg")
            # One of each is of the legend.
            drawn = {"primary": 4, "backup": 4, "joining": 3, "alone": 3, "cross": 3, "arrow": 3, "lossy": 3}
            expect(counts, drawn, "what is drawn")
            losses = [it for it in texts if it.startswith("loses ")]
            expect(losses, [f"loses {it} of 100 packets" for it in (30, 100, 0)], "what is drawn of the link")
            expect([it for it in texts if it.startswith("host ")], ["host 0", "host 1", "host 2", "host 3"], "the columns")
            told = ["generation 1: primary", "generation 2: primary", "generation 3: primary", "goes on alone"]
            expect([it for it in told if it not in texts], [], "what is not said")
            expect(console.quit(), 0, "the status")


@case
def a_picture_that_cannot_be_written_is_named_with_the_reason(command):
    with folder() as room, ended_at_last(AtTerminal(command())) as console:
        console.await_shown(b"MONITOR\r\n*")
        (room / "sub").mkdir()
        refusals = [
            (f"picture {room / 'none/a.svg'}", rb"none/a.svg is not written: No such file or directory"),
            (f"picture {room / 'sub'}", rb"/sub is not written: Is a directory"),
            ("picture", rb"picture\r\n`picture` is followed by the name of a file"),
        ]
        for line, why in refusals:
            console.say(line)
            console.await_said(why)
        expect(os.listdir(room), ["sub"], "the files")
        program = os.readlink(f"/proc/{console.program()}/exe")
        expect(console.quit(), 0, "the status")
    alone = by_itself(program, b"\x05picture a.svg\r\x05save 0 a.dsk\r\x05quit\r")
    needs = alone.stderr.count(b"that needs the command `./pair`")
    expect((alone.returncode, needs), (0, 2), "the status, and how often the program says by itself what it needs")
