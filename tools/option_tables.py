#!/usr/bin/env python3
"""Makes the tables of options in docs/COMMANDS.md from what `./pair help COMMAND` prints.

usage: tools/option_tables.py           writes them
       tools/option_tables.py --check   says whether they are as the program has them
"""

from __future__ import annotations

import functools
import pathlib
import re
import subprocess
import sys
from typing import NamedTuple

TOP = pathlib.Path(__file__).resolve().parent.parent
PAGE = TOP / "docs/COMMANDS.md"

# What ./pair itself tells the program; nobody else has to.
INNER = {"--images", "--saved", "--before", "--mark", "--apart", "--folder", "--places", "--attach0", "--attach1", "--attach2", "--attach3", "--unsynced", "--recover"}

# The most words of a cell.
MOST_WORDS = 24

# An option in a help text: its name, its value, and what it does.
OPTION = re.compile(r" +(--[a-z0-9-]+)(?: <?([^\s>]+)>?)? {2,}(.*)")
# For which commands ./pair's own help says that an option is; a table has a column for that.
FOR = re.compile(r"for (all commands but )?`[^:]*: ")
# What clap adds to a text.
VALUES = re.compile(r" \[possible values: ([^]]*)\]")
DEFAULT = re.compile(r" \[default: ([^]]*)\]")


class Option(NamedTuple):
    """An option as it is given to some commands: its name with its value, what it does, and which values it has."""

    given: str
    text: str
    values: str


Row = tuple[Option, list[str]]


@functools.cache
def help_of(*words: str) -> str:
    """What ./pair prints for `help`."""
    return subprocess.run([TOP / "pair", "help", *words], capture_output=True, text=True, check=True).stdout


def commands() -> list[str]:
    """The commands that have a help."""
    listed = help_of().split("\nCommands:\n")[1].split("\n\n")[0]
    return [line.split()[0] for line in listed.splitlines() if line.split()[0] != "help"]


def cell(text: str) -> str:
    """A text as a cell has it; of a long one, what comes before its last semicolon."""
    before, _, _ = text.rpartition("; ")
    return (before if before and len(text.split()) > MOST_WORDS else text).replace("\\", r"\\").replace("|", r"\|")


def option_of(line: str) -> Option | None:
    """The option that a line of a help text is about, if it is about one."""
    found = OPTION.fullmatch(line)
    if not found:
        return None
    name, value, text = found.groups()
    values = [it[1] for it in VALUES.finditer(text)] + [f"default {it[1]}" for it in DEFAULT.finditer(text)]
    text = DEFAULT.sub("", VALUES.sub("", FOR.sub("", text)))
    return Option(f"{name} {value}" if value else name, cell(text[0].lower() + text[1:]), "; ".join(values))


def options_of(command: str) -> dict[str, Option]:
    """The options of a command; one that ./pair reads itself stands for the program's of the same name."""
    found = filter(None, map(option_of, help_of(command).splitlines()))
    return {it.given.split()[0]: it for it in found}


@functools.cache
def rows() -> list[Row]:
    """Each option with the commands that take it in the same way."""
    found: dict[Option, list[str]] = {}
    for command in commands():
        for option in options_of(command).values():
            found.setdefault(option, []).append(command)
    return list(found.items())


def table(chosen: list[Row]) -> str:
    """A table of options."""
    lines = [f"| `{it.given}` | {', '.join(takers)} | {it.text} | {it.values} |" for it, takers in chosen]
    return "\n".join(["| Option | Commands | What it does | Values |", "|---|---|---|---|", *lines])


def tables() -> dict[str, str]:
    """The tables, by the names that the page has for them."""
    everything = rows()
    is_inner = [it.given.split()[0] in INNER for it, _ in everything]
    return {
        "options": table([row for row, inner in zip(everything, is_inner) if not inner]),
        "inner options": table([row for row, inner in zip(everything, is_inner) if inner]),
    }


def filled(page: str) -> str:
    """The page with its tables as the program has them."""
    for name, made in tables().items():
        begin, end = f"<!-- {name}: tools/option_tables.py -->\n", "<!-- end -->"
        before, found, rest = page.partition(begin)
        if not found:
            sys.exit(f"{PAGE.name} has no place for the table of {name}: {begin.strip()}")
        page = f"{before}{begin}{made}\n{end}{rest.partition(end)[2]}"
    return page


def main(words: list[str]) -> int:
    page = PAGE.read_text(encoding="utf-8")
    if words == ["--check"]:
        is_same = page == filled(page)
        if not is_same:
            print(f"{PAGE.name} has other options than the program: tools/option_tables.py writes them")
        return 0 if is_same else 1
    PAGE.write_text(filled(page), encoding="utf-8")
    return 0


if __name__ == "__main__":
    if sys.argv[1:] in (["-h"], ["--help"]):
        sys.exit(print(__doc__.strip()))
    sys.exit(main(sys.argv[1:]))
