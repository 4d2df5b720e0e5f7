"""What the pages print of ./pair: commands, which must do what the pages say, and sessions, whose answers must be those that stand there."""
from __future__ import annotations

import contextlib
import functools
import pathlib
import re
import shutil
import subprocess
from typing import Callable, Iterator

from cases import Differs, expect
from console_rows import OnScreen
from console_sitting import AtTerminal, ended_at_last, folder

TOP = pathlib.Path(__file__).resolve().parent.parent
EXAMPLES = TOP / "examples"

# How long a run may take, in seconds.
PATIENCE = 300

# The pages whose commands are run.
PAGES = (
    "README.md",
    *(f"docs/{it}.md" for it in ("COMMANDS", "CONSOLE", "SCRIPTS", "SHELL", "PICTURES", "PAPER")),
    "examples/README.md",
    "examples/guests/README.md",
)

# How a command begins. What proves or tests is left out, and what reads the name of a mistake: it proves too.
COMMAND = re.compile(r"\./pair |\./mistake |sed |printf |bench/|tests/|\./prove|\.ci/")
LEFT_OUT = re.compile(r"\./prove|\.ci/run|tests/|\./mistake [a-z]")

# The lines of a script that have no answer.
SETUP = re.compile(r"mem |type |#")

# What ./pair says of a program that is not proved.
NOT_PROVED = re.compile(r"^pair: (?:not proved|building).*\n", re.MULTILINE)

# A console on a busy machine, none of whose hosts is suspected before it is killed.
CONSOLE = ("console", "--patience", "30000")

# A disk that boots and has a text in its last sector, a script with a bad line, and one that is a session too.
TEXT = b"the disk of the shell"
IMAGE = (EXAMPLES / "guests/hello.dsk").read_bytes()[:-137] + TEXT.ljust(137, b"\0")
BAD_SCRIPT = b"node 0\nstopp 0\n"
SESSION = b"node 0\n"

Case = Callable[[], None]


def part(page: str, title: str) -> str:
    """What stands under a title of a page."""
    text = (TOP / page).read_text(encoding="utf-8")
    found = re.split(rf"^#+ {re.escape(title)}$", text, flags=re.MULTILINE)
    expect(len(found), 2, f"how often {page} has the title {title}, and one more")
    return re.split(r"^## ", found[1], flags=re.MULTILINE)[0]


def blocks(text: str) -> list[list[str]]:
    """The blocks of a text that are set off by four columns, each without them."""
    found = re.findall(r"(?:^(?: {4}.*)\n)+", text, re.MULTILINE)
    return [[line[4:] for line in it.splitlines()] for it in found]


def columns(line: str) -> list[str]:
    """What stands side by side in a line: two or more blanks are between."""
    return re.split(r" {2,}", line.rstrip())


def commands_of(page: str) -> list[str]:
    """The commands that a page has, each at the beginning of a line that is set off."""
    lines = [columns(line)[0] for block in blocks((TOP / page).read_text()) for line in block if COMMAND.match(line)]
    return [it for it in lines if not LEFT_OUT.match(it)]


def sessions_of(page: str) -> list[list[str]]:
    """The blocks of a page in which lines after `$ ` are commands; that of a console is another case."""
    found = [it for it in blocks((TOP / page).read_text()) if it[0].startswith("$ ./pair") or it[0].startswith(("$ printf", "$ ("))]
    return [it for it in found if it[0] != "$ ./pair console" and not it[0].startswith("$ ./pair shell --load")]


@contextlib.contextmanager
def place() -> Iterator[pathlib.Path]:
    """A folder that has what the repository has, and the files that the pages name."""
    with folder() as room:
        for it in TOP.iterdir():
            (room / it.name).symlink_to(it)
        (room / "FILE").write_bytes(BAD_SCRIPT)
        (room / "SESSION").write_bytes(SESSION)
        (room / "SCRIPT").write_bytes(SESSION)
        (room / "FILE.dsk").write_bytes(IMAGE)
        (room / "work.dsk").write_bytes(IMAGE)
        shutil.copy(EXAMPLES / "guests/monitor.hex", room / "FILE.hex")
        yield room


def run(command: str, given: bytes = b"", status: int | None = 0, room: pathlib.Path = TOP) -> bytes:
    """What a command prints that is given this and ends with this status."""
    words = ["bash", "-o", "pipefail", "-c", command]
    ran = subprocess.run(words, cwd=room, input=given, capture_output=True, timeout=PATIENCE)
    expect(ran.returncode, ran.returncode if status is None else status, f"the status, with {ran.stderr[-300:]!r} beside the output")
    return ran.stdout


def prints(output: bytes, command: str, given: bytes = b"", status: int = 0) -> None:
    """A case: what a command prints."""
    with place() as room:
        expect(run(command, given, status, room), output, "what it prints")


def has(texts: tuple[bytes, ...], command: str, given: bytes = b"") -> None:
    """A case: what is in that which a command prints."""
    with place() as room:
        output = run(command, given, 0, room)
        for it in texts:
            expect(it in output, True, f"that {it!r} is in {output[-300:]!r}")


def draws(example_name: str, picture: str, command: str) -> None:
    """A case: a command writes the picture of an example."""
    with place() as room:
        expect(run(command, room=room), b"", "what it prints")
        expect((room / picture).read_bytes(), example(f"{example_name}.svg"), "the picture")


def lists(command: str) -> None:
    """A case: the help lists all commands that the pages have, and the script in it can be pasted."""
    with place() as room:
        said = run(command, room=room).decode()
        for it in {it.split()[1] for it in commands_of("docs/COMMANDS.md") if it.startswith("./pair ")}:
            expect(bool(re.search(rf"^  {it} ", said, re.MULTILINE)), True, f"that {it} is listed")
        pasted = re.findall(r"^\./pair script << END\n.*?^END$", said, re.MULTILINE | re.DOTALL)
        expect(len(pasted), 1, "how many scripts there are to paste")
        expect(run(pasted[0], room=room).splitlines()[-1:], [b"port 0: 48"], "its last answer")


def mistakes(command: str) -> None:
    """A case: each mistake is listed, with the section of the paper."""
    with place() as room:
        listed = run(command, room=room).decode().splitlines()
        expect(sorted(it.split()[1] for it in listed), sorted(it.stem for it in (TOP / "mistakes").glob("*.txt")), "the names")


def ends(command: str) -> None:
    """A case: a command ends well."""
    with place() as room:
        run(command, room=room)


def example(name: str) -> bytes:
    return (EXAMPLES / name).read_bytes()


def ported(text: bytes) -> bytes:
    """What `pair live` prints of a terminal, as far as this text."""
    return b"port 0: " + text.hex(" ").upper().encode()


def edits_lines(command: str) -> None:
    """A case: the editor echoes what its first user types, and shows him the line that the second one has finished."""
    prints(b"helo\x08 \x08lo\r\n", command, b"helo\x08lo\r")
    prints(b">good\r\n", f"{command} --type '1=good\\r'")


# What a command must do that is not one of PLAYED.
DOES: dict[str, Callable[[str], None]] = {
    "./pair console": lambda it: has((b"MONITOR\r\n*D 0000\r\n0000 ",), it, b"D 0000\r"),
    "./pair console --load examples/guests/editor.hex --setup examples/guests/editor.setup": edits_lines,
    "./pair lint < FILE": lambda it: prints(b"line 2: stopp begins no line of a script\n", it, status=3),
    "./pair shell": lambda it: has((b"primary 1 count 0\n", b"\nstop N "), it, b"node 0\nhelp\n"),
    "./pair shell --disk 0=FILE.dsk": lambda it: has((b"|" + TEXT[:16] + b"|",), it, b"sector 0 76 31\n"),
    './pair live --load FILE.hex --type "0=TEXT"': lambda it: has((ported(b"MONITOR\r\n*T"),), it),
    "./pair help": lists,
    "./mistake LIST": mistakes,
    "./pair live --backup-asks 1000 < examples/live/echo.script": lambda it: has((b"winner: backup\n",), it),
    "bench/figures --check": lambda it: prints(b"", it),
}

# A command that plays an example, with the file that it prints or draws.
PLAYED = re.compile(r"\./pair (script|check|picture|live|shell) < examples/([\w/]+)\.\w+(?: > (\S+)| \| tail -n (\d+))?")


def plays(command: str) -> None:
    """A case: a command does what the pages say; one of which nothing is known here ends well."""
    found = PLAYED.fullmatch(command)
    if command in DOES:
        DOES[command](command)
    elif not found:
        ends(command)
    elif found[1] == "picture":
        draws(found[2], found[3], command)
    else:
        lines = example(f"{found[2]}.{'check' if found[1] == 'check' else 'out'}").splitlines(keepends=True)
        prints(b"".join(lines[-int(found[4] or 0) :]), command)


def on_no_page(command: str) -> None:
    """A case: a command that must do something here stands on some page."""
    raise Differs("no page has it, and tests/page_runs.py does")


def answers_of(block: list[str]) -> list[tuple[str, str]]:
    """The commands of a session, each with what is printed; a command may have lines of its own up to END."""
    found: list[tuple[str, str]] = []
    for line in block:
        if line.startswith("$ "):
            found.append((line[2:], ""))
            continue
        command, answer = found[-1]
        is_input = "<< END" in command and not command.endswith("\nEND")
        found[-1] = (f"{command}\n{line}", answer) if is_input else (command, f"{answer}{line}\n")
    return found


def session_of_commands(block: list[str]) -> None:
    """A case: commands print what stands below them, on both outputs; one below which nothing stands ends well."""
    with place() as room:
        for command, answer in answers_of(block):
            said = run(f"{{ {command}\n}} 2>&1", status=None if answer else 0, room=room).decode().replace("\r", "")
            if answer:
                expect(NOT_PROVED.sub("", said).rstrip("\n"), answer.rstrip("\n"), f"what {command} prints")


def beside(lines: list[str]) -> tuple[bytes, bytes]:
    """A session that is shown with its answers beside it: what is said, and what is printed."""
    said, answers = [], []
    for line in lines:
        words = columns(line)
        said.append(words[0])
        if not SETUP.match(words[0]):
            answers.append(words[1])
    return "".join(f"{it}\n" for it in said).encode(), "".join(f"{it}\n" for it in answers).encode()


def failure_in_fifteen_lines() -> None:
    """A case: the first script of docs/SCRIPTS.md has the answers beside it, and the verdict below."""
    text = part("docs/SCRIPTS.md", "A failure, in fifteen lines")
    script, answers = beside(blocks(text)[0])
    expect(run("./pair script", script), answers, "the answers of `./pair script`")
    found = re.findall(r"`\./pair check` answers `(.*?)`", text)
    expect(run("./pair check", script).decode().splitlines(), found, "the answer of `./pair check`")


def ends_of(row: str) -> list[str]:
    """The first and the last of the things that a row stands for, or all of them."""
    first, *others = re.split(r" \.\. |, ", row)
    return [first, *(it if " " in it or not it.isdigit() else f"{first.rpartition(' ')[0]} {it}" for it in others)]


def failover_line_by_line() -> None:
    """A case: each line of the failover has the answer that it has in the example, in that order."""
    lines = [it for it in example("failover.script").decode().splitlines() if not it.startswith(("mem ", "levels ", "#")) and it]
    played = iter(zip(lines, example("failover.out").decode().splitlines(), strict=True))
    for line in [line for block in blocks(part("docs/SCRIPTS.md", "A failover, line by line")) for line in block if "$" not in block[0]]:
        said, answer = columns(line)
        for pair in zip(ends_of(said), ends_of(answer), strict=True):
            expect(pair in played, True, f"that {pair} is in the example")


def new_backup() -> None:
    """A case: the script of docs/SCRIPTS.md in which a spare host joins has the answers below it; the dots stand for all other parts."""
    said, answers = blocks(part("docs/SCRIPTS.md", "A new backup"))
    place_of = said.index("...")
    last = int(said[place_of + 1].split()[-1])
    said[place_of : place_of + 1] = [line for it in range(1, last) for line in (f"sendpart 0 {it}", f"part {it} 2")]
    answers[answers.index("...") : answers.index("...") + 1] = [line for it in range(1, last) for line in (f"message {it}", "new")]
    found = run("./pair script", "".join(f"{it}\n" for it in said).encode())
    expect(found.decode().splitlines(), answers, "the answers")


def session_of_the_shell() -> None:
    """A case: the first session in docs/SHELL.md; what is typed is at the left, what is printed further in, and `...` is anything."""
    (command, *lines), *others = blocks(part("docs/SHELL.md", "Five minutes in the shell"))
    lines += [line for block in others for line in block]
    typed = "".join(f"{it}\n" for it in lines if not it.startswith(" "))
    printed = "".join(f"{it[4:]}\n" for it in lines if it.startswith(" "))
    pattern = re.escape(printed).replace(re.escape("...\n"), r"(?:.*\n)*?")
    said = run(command.removeprefix("$ "), typed.encode()).decode()
    expect(bool(re.fullmatch(pattern, said)), True, f"that the session prints what stands there, and not {said}")


def guest_that_polls() -> None:
    """A case: the guest of docs/SHELL.md that polls."""
    block = next(it for it in blocks(part("docs/SHELL.md", "The ordinary day")) if it[0].startswith("mem "))
    typed, printed = [it for it in block if not it.startswith(" ")], [it.strip() for it in block if it.startswith(" ")]
    expect(run("./pair shell", "".join(f"{it}\n" for it in typed).encode()).decode().splitlines(), printed, "what is printed")


def session_at_the_console(page: str, title: str) -> None:
    """A case: what is typed at the console shows what a page shows, with the pair on the last row."""
    *lines, row = blocks(part(page, title))[0]
    lines = [re.sub(r"process \d+", "process N", it) for it in lines[lines.index("MONITOR") + 1 if "MONITOR" in lines else 0 :]]
    rows = lambda: console.texts()[console.texts().index("MONITOR") + 1 :]
    with place() as room, ended_at_last(OnScreen([room / "pair", *CONSOLE], size=(24, 100))) as console:
        console.await_shown(b"MONITOR\r\n*")
        console.await_row("^generation 1: ")
        for place_of, line in enumerate(lines):
            prompt, command = re.fullmatch(r"(\*|pair> |)(.*)", line).groups()
            if prompt == "pair> ":
                console.say(command)
            elif re.match(r"[DF] ", command):
                console.type_slowly(command.encode())
            console.await_that(lambda: rows()[: place_of + 1] == lines[: place_of + 1], f"{line!r} in {console.texts()}")
        console.await_row(f"^{re.escape(row)}$")
        expect(rows(), lines, "the rows")
        expect(console.quit(), 0, "the status")


def lines_of_a_failure() -> None:
    """A case: the lines about the pair that docs/CONSOLE.md shows come in this order, among others."""
    lines = blocks(part("docs/CONSOLE.md", "A session"))[1]
    with place() as room, ended_at_last(AtTerminal([room / "pair", *CONSOLE], cwd=room)) as console:
        console.await_said(re.escape(lines[0]).encode())
        console.say("stop 0")
        console.await_said(re.escape(lines[-1]).encode())
        said = [it.strip() for it in console.said.decode().replace("pair: ", "").splitlines()]
        expect([it for it in said if it in lines], lines, "the lines about the pair")
        expect(console.quit(), 0, "the status")


# What is said at the console of a command, with what its table in docs/CONSOLE.md has for it.
SAYS = {
    "regs": ("regs", "flags "),
    "look AAAA": ("look 0000", "0000  "),
    "look AAAA K": ("look 0000 17", "0010  "),
    "dis AAAA": ("dis 0000", "0000  "),
    "dis AAAA K": ("dis 0000 2", "0000  "),
    "cut": ("cut", "the link loses 100 of 100 packets"),
    "mend": ("mend", "the link loses 0 of 100 packets"),
    "drop N": ("drop 30", "the link loses 30 of 100 packets"),
    "freeze N": ("freeze 1", "stands still"),
    "thaw N": ("thaw 1", "goes on"),
    "part": ("part", "the hosts do not see each other"),
    "spare": ("spare", "host 2 has come: process "),
    "speed N": ("speed 300000", "the machine makes at most 300000 steps a second"),
    "save D FILE": ("save 0 work.dsk", "drive 0 is saved to work.dsk"),
    "picture FILE": ("picture story.svg", "is drawn in story.svg"),
    "do FILE": ("do steps", "steps: No such file"),
    "status": ("status", "the link loses every packet"),
    "help": ("help", "quit"),
    "terminal P": ("terminal 0", "terminal 0"),
    "stop N": ("stop 0", "is killed"),
}


def commands_of_the_console() -> None:
    """A case: the commands that docs/CONSOLE.md has are carried out, and write their files; `quit` ends."""
    rows = re.findall(r"^\| (`.*?) \|", part("docs/CONSOLE.md", "The line of commands"), re.MULTILINE)
    expect(sorted(it for row in rows for it in re.findall(r"`([^`]+)`", row)), sorted([*SAYS, "quit"]), "the commands")
    with place() as room, ended_at_last(AtTerminal([room / "pair", *CONSOLE, "--hosts", "2", "--later", "0"], cwd=room)) as console:
        console.await_shown(b"MONITOR\r\n*")
        console.await_said(rb"generation 1: ")
        for said, answer in SAYS.values():
            before = len(console.said)
            console.say(said)
            console.await_that(lambda: answer.encode() in console.said[before:], f"{answer!r} after {said}")
        shown = [line for title in ("Saving a disk", "A picture") for line in blocks(part("docs/CONSOLE.md", title))[0]]
        expect([it for it in shown if it.removeprefix("pair> ").encode() not in console.said], [], "what is not said")
        expect(console.quit(), 0, "the status")
        expect(((room / "work.dsk").stat().st_size, b"</svg>" in (room / "story.svg").read_bytes()), (len(IMAGE), True), "the files")


def three_commands() -> None:
    """A case: README.md has three commands, and docs/COMMANDS.md has them too."""
    everything = [columns(line)[0] for block in blocks(part("docs/COMMANDS.md", "Commands")) for line in block]
    found = [columns(line)[0] for line in blocks(part("README.md", "From source"))[0]]
    expect((len(found), [it for it in found if it not in everything]), (3, []), "the commands, and those that only README.md has")


def how_to_get_it() -> None:
    """A case: README.md says in two lines how to get it, and in four how to put hosts on two machines; docs/HOSTS.md has the same, in fifteen."""
    wanted = [columns(line)[0] for line in blocks(part("docs/HOSTS.md", "Two small machines, and one to sit at"))[0]]
    found = [[columns(line)[0] for line in block] for block in blocks(part("README.md", "Get it"))]
    expect([len(it) for it in found], [2, 4], "how many lines README.md has")
    expect([it for block in found for it in block if it not in wanted], [], "lines that docs/HOSTS.md has otherwise")
    expect(len(wanted) <= 15, True, "that docs/HOSTS.md has no more than fifteen lines")


def options_are_the_programs() -> None:
    """A case: the tables of docs/COMMANDS.md are those of the help texts."""
    said = run("tools/option_tables.py --check", status=None).decode()
    if said:
        raise Differs(said.strip())


OTHERS: dict[str, Case] = {
    "SCRIPTS.md: a failure, in fifteen lines": failure_in_fifteen_lines,
    "SCRIPTS.md: a failover, line by line": failover_line_by_line,
    "SCRIPTS.md: a new backup": new_backup,
    "SHELL.md: five minutes in the shell": session_of_the_shell,
    "SHELL.md: a guest that polls": guest_that_polls,
    "README.md: how to get it": how_to_get_it,
    "README.md: three commands": three_commands,
    "README.md: a console session": functools.partial(session_at_the_console, "README.md", "A failure"),
    "CONSOLE.md: a console session": functools.partial(session_at_the_console, "docs/CONSOLE.md", "A session"),
    "CONSOLE.md: the lines of a failure": lines_of_a_failure,
    "CONSOLE.md: the commands": commands_of_the_console,
    "COMMANDS.md: the options": options_are_the_programs,
}


def cases() -> dict[str, Case]:
    """The cases, by their titles."""
    commands = dict.fromkeys(it for page in PAGES for it in commands_of(page))
    known = {it: functools.partial(on_no_page, it) for it in DOES if it not in commands}
    sessions = {f"{page}: {it[0]}": functools.partial(session_of_commands, it) for page in PAGES for it in sessions_of(page)}
    return {it: functools.partial(plays, it) for it in commands} | known | sessions | OTHERS
