"""What the pages name: other pages and their titles, files, the cells of tables, and the crates; and the usage of each test."""
from __future__ import annotations

import functools
import pathlib
import re
import subprocess
import sys

from cases import Differs, expect

TOP = pathlib.Path(__file__).resolve().parent.parent
sys.path.append(str(TOP / "tools"))
import wrap

# The most words of a cell.
MOST_WORDS = 24

# How soon a test must say how it is used, in seconds.
SOON = 10

# A link, with what it leads to; a code span.
LINK = re.compile(r"\[[^]]*\]\(([^)\s]+)\)")
SPAN = re.compile(r"`([^`]+)`")
# A file that a page names from the top of the repository, unless a part of its path stands for others, or is made by the toolchain.
FILE = re.compile(r"(?<![\w/])(?:crates|docs|tests|tools|bench|examples|mistakes|\.ci)/[\w./*-]+")
VARIABLE = re.compile(r"\b(?:NAME|CRATE|FILE)\b|\.\.|/out/")
# A page that is named by its path, and perhaps a title in it.
NAMED = re.compile(r'docs/([A-Z_]+)\.md(?:,\s+"([^"]+)")?')
# The toolchain, as it names itself.
TOOLCHAIN = re.compile(r"(?P<kit>rattle-kit-\w+) logic (?P<logic>[0-9a-f]+)")
# A name of something, of a crate, a file of definitions, or a type.
OF = re.compile(r"`(\w+(?:::\w+)*)`(?: \([^()]*\))? of\s+`(\w+)`")
# Files that are no pages and may name some.
OTHERS = ("crates/*/src/**/*.rt", "crates/*/specs/**/*.antt", "crates/*/proofs/**/*.antt", "tests/*", "tools/*", "mistake", "pair", "prove")


def name_of(page: pathlib.Path) -> str:
    return str(page.relative_to(TOP))


@functools.cache
def prose(page: pathlib.Path) -> str:
    """A page without its blocks of code."""
    text = re.sub(r"^```.*?^```$", "", page.read_text(encoding="utf-8"), flags=re.MULTILINE | re.DOTALL)
    return re.sub(r"^ {4}(?! *(?:[-*]|\d+\.) ).*$", "", text, flags=re.MULTILINE)


def anchor_of(title: str) -> str:
    """The anchor that a forge makes of a title."""
    plain = re.sub(r"\[([^]]*)\]\([^)]*\)", r"\1", title).lower()
    return re.sub(r"[^\w\- ]", "", plain).replace(" ", "-")


@functools.cache
def titles(page: pathlib.Path) -> list[str]:
    return re.findall(r"^#+ (.*)$", prose(page), re.MULTILINE)


def leads_nowhere(page: pathlib.Path, target: str) -> bool:
    """Whether a link of a page leads to no file, or to no title of it."""
    path, _, anchor = target.partition("#")
    found = (page.parent / path).resolve() if path else page
    if not found.exists():
        return True
    return bool(anchor) and anchor not in map(anchor_of, titles(found))


def links_lead_somewhere(page: pathlib.Path) -> None:
    """A case: each link leads to a file, and to a title in it."""
    targets = [it for it in LINK.findall(SPAN.sub("", prose(page))) if "://" not in it]
    expect([it for it in targets if leads_nowhere(page, it)], [], "links that lead nowhere")


def files_exist(page: pathlib.Path) -> None:
    """A case: each file that is named from the top of the repository is there, in commands that are set off too."""
    texts = [*SPAN.findall(prose(page)), *re.findall(r"^ {4}.*$", page.read_text(encoding="utf-8"), re.MULTILINE)]
    named = [it.group().rstrip(".") for text in texts for it in FILE.finditer(text) if not VARIABLE.search(it.group())]
    expect([it for it in named if not any(TOP.glob(it))], [], "files that are not there")


def cells_are_short(page: pathlib.Path) -> None:
    """A case: what is longer than a phrase is no cell of a table."""
    rows = re.findall(r"^\|(.*)\|$", LINK.sub("link", prose(page)), re.MULTILINE)
    cells = [cell.strip() for row in rows for cell in re.split(r"(?<!\\)\|", row)]
    expect([it[:60] for it in cells if len(it.split()) > MOST_WORDS], [], f"cells of more than {MOST_WORDS} words")


def is_wrapped(page: pathlib.Path) -> None:
    """A case: the prose is wrapped."""
    text = page.read_text(encoding="utf-8")
    if text != wrap.wrapped(text):
        raise Differs("it is not wrapped; tools/wrap.py wraps it")


def pages_are_named_right() -> None:
    """A case: each page that is named by its path is there, with the title that is named with it."""
    wrong = []
    for path in [*wrap.pages(), *(it for pattern in OTHERS for it in TOP.glob(pattern) if it.is_file())]:
        for page, title in NAMED.findall(path.read_text(encoding="utf-8", errors="replace")):
            found = TOP / f"docs/{page}.md"
            if not found.exists() or title and " ".join(title.split()) not in titles(found):
                wrong.append((name_of(path), page, title))
    expect(wrong, [], "pages and titles that are not there")


@functools.cache
def crates() -> dict[str, list[str]]:
    """The crates of crates.txt, each with those that it is built on."""
    lines = [it for it in (TOP / "crates.txt").read_text().splitlines() if it and not it.startswith("#")]
    named = {name: words.split() for name, _, words in (it.partition(":") for it in lines)}
    return {name: [it for it in words if it in named] for name, words in named.items()}


def rows_of(page: str, first: str) -> list[str]:
    """The names in the first column of a page's tables that begin with this cell."""
    tables = re.findall(rf"^\| {first} \|.*\n\|[-|]+\n((?:\|.*\n)+)", (TOP / page).read_text(), re.MULTILINE)
    return re.findall(r"^\| `(\w+)` \|", "".join(tables), re.MULTILINE)


def architecture_has_each_crate_once() -> None:
    """A case: each crate has one row there, or is one of those beside the house."""
    page = "docs/ARCHITECTURE.md"
    rows = rows_of(page, "Crate") + re.findall(r"^- `(\w+)`: ", (TOP / page).read_text(), re.MULTILINE)
    expect([it for it in rows if rows.count(it) > 1 or it not in crates()], [], "rows that are there twice, or of no crate")
    expect([it for it in crates() if it not in rows], [], "crates without a row")


def edits_in(name: str) -> list[str]:
    """How many edits a crate has in each of its folders, as the cells of docs/GATE.md."""
    folders = ("must-fail", "must-fail-by-function", "also-must-fail")
    return [str(len(list((TOP / "crates" / name / it).glob("*.edit")))) for it in folders]


def the_gate_counts_the_edits_of_each_crate() -> None:
    """A case: the crates but for those of tests alone, each with the number of its edits."""
    rows = re.findall(r"^\| `(\w+)` \| (\d+) \| (\d+) \| (\d+) \|", (TOP / "docs/GATE.md").read_text(), re.MULTILINE)
    found = {name: counts for name, *counts in rows}
    expect(len(rows), len(found), "the number of rows")
    wanted = {it: edits_in(it) for it in crates() if not it.endswith("_tests")}
    differing = sorted(it for it in {*found, *wanted} if found.get(it) != wanted.get(it))
    expect([(it, found.get(it), wanted.get(it)) for it in differing], [], "rows, and the edits that there are")
    sums = re.findall(r"^\| all \| (\d+) \| (\d+) \| (\d+) \|", (TOP / "docs/GATE.md").read_text(), re.MULTILINE)
    expect(sums, [tuple(str(sum(map(int, it))) for it in zip(*wanted.values()))], "the last row")


def storeys() -> dict[str, int]:
    """Each crate of the house, with the storey in which docs/ARCHITECTURE.md draws it, counted from below."""
    picture = re.search(r"^```\n(.*?)^```$", (TOP / "docs/ARCHITECTURE.md").read_text(), re.MULTILINE | re.DOTALL)
    found, storey = {}, 0
    for line in picture[1].splitlines() if picture else []:
        label, *names = re.fullmatch(r" *([A-Z]\w*)?(.*)", line).groups()
        storey -= bool(label)
        found |= dict.fromkeys(re.findall(r"\w+", names[0]), storey)
    return found


def no_storey_is_built_on_one_above_it() -> None:
    """A case: each crate of the house is drawn once, and stands on none that is drawn above it."""
    drawn = storeys()
    beside = [it for it in crates() if it not in drawn]
    expect([it for it in drawn if it not in crates()], [], "what is drawn and is no crate")
    expect([it for it in beside if not it.endswith("_tests") and it != "echo_guest"], [], "crates that are not drawn")
    upwards = [(it, low) for it, below in crates().items() for low in below if it in drawn and low in drawn and drawn[low] > drawn[it]]
    expect(upwards, [], "crates that stand on one above them")


def each_file_says_what_it_is_about() -> None:
    """A case: each file of definitions or lemmas begins with a comment, as docs/ARCHITECTURE.md and docs/PROOFS.md say."""
    files = [it for kind in ("specs", "proofs") for it in TOP.glob(f"crates/*/{kind}/*.antt") if it.name != "Lib.antt"]
    expect([name_of(it) for it in files if not it.read_text(encoding="utf-8").startswith("-- ")], [], "files that begin without one")


def each_test_says_how_it_is_used() -> None:
    """A case: each program of tests/ answers --help at once."""
    programs = [it for it in sorted((TOP / "tests").iterdir()) if it.is_file() and it.read_bytes().startswith(b"#!")]
    for path in programs:
        ran = subprocess.run([path, "--help"], capture_output=True, text=True, timeout=SOON)
        expect((ran.returncode, "usage:" in ran.stdout.lower()), (0, True), f"the status of tests/{path.name} --help, and its usage")


@functools.cache
def names_in_code() -> list[tuple[str, str, frozenset[str]]]:
    """Each file of code, definitions, lemmas or edits: its crate, its name, and the names in it."""
    files = [it for kind in ("rt", "antt", "edit") for it in TOP.glob(f"crates/*/*/**/*.{kind}") if "out" not in it.parts]
    found = [(it.relative_to(TOP).parts[1], it.stem, it.read_text(encoding="utf-8", errors="replace")) for it in files]
    return [(crate, stem, frozenset([stem, *re.findall(r"\w+", text)])) for crate, stem, text in found]


def is_of(name: str, of: str) -> bool:
    """Whether a crate, a file, or a file that names a type has this name too."""
    wanted = set(name.split("::"))
    if of in crates():
        return wanted <= set().union(*(names for crate, _, names in names_in_code() if crate == of))
    return any(wanted <= names for _, stem, names in names_in_code() if of == stem or of in names)


def names_are_of_what_is_said(page: pathlib.Path) -> None:
    """A case: what a page names as something of a crate, a file or a type is there; events of examples are left out."""
    named = [it for it in OF.findall(prose(page)) if not (TOP / f"examples/{it[1]}.script").exists()]
    expect([it for it in named if not is_of(*it)], [], "names that are not there")


def the_toolchain_is_named() -> None:
    """A case: docs/CLAIMS.md has the logic that `rt version` prints, and README.md the kit; another kit may have that logic too."""
    said = subprocess.run(["rt", "version"], capture_output=True, text=True, timeout=SOON).stdout
    found = TOOLCHAIN.search((TOP / "docs/CLAIMS.md").read_text())
    expect([found and found["logic"]], TOOLCHAIN.search(said) and [TOOLCHAIN.search(said)["logic"]], f"the logic of docs/CLAIMS.md, where `rt version` says {said!r}")
    expect(f"`{found['kit']}`" in (TOP / "README.md").read_text(), True, f"that README.md names {found['kit']}, as docs/CLAIMS.md does")


CHECKS = {
    "links": links_lead_somewhere,
    "files": files_exist,
    "cells": cells_are_short,
    "width": is_wrapped,
    "names": names_are_of_what_is_said,
}
OF_ALL = {
    "names of pages": pages_are_named_right,
    "crates of ARCHITECTURE": architecture_has_each_crate_once,
    "crates of GATE": the_gate_counts_the_edits_of_each_crate,
    "the house": no_storey_is_built_on_one_above_it,
    "first lines of files": each_file_says_what_it_is_about,
    "usage of tests": each_test_says_how_it_is_used,
    "the toolchain": the_toolchain_is_named,
}


def cases() -> dict[str, functools.partial[None]]:
    """The cases, by their titles."""
    of_pages = {f"{name_of(page)}: {name}": functools.partial(check, page) for page in wrap.pages() for name, check in CHECKS.items()}
    return of_pages | {name: functools.partial(check) for name, check in OF_ALL.items()}
