"""How long what the pages have may be: a page, a claim, an entry; what they say twice, words that they avoid, and lines that they count."""
from __future__ import annotations

import functools
import itertools
import pathlib
import re

from cases import expect
from page_links import LINK, SPAN, TOP, name_of, prose, wrap

# The most lines of a page that is to be two screens, and of an entry of docs/DECISIONS.md.
SCREENS = {"README.md": 100, "docs/PERFORMANCE.md": 105}
MOST_LINES = 5

# The most words of a claim, without its functions and definitions, and of a sentence between claims.
MOST_WORDS = 25

# Pages that say each thing once, and how many words in a row are the same thing.
SAID_ONCE = ("CLAIMS", "PROOFS", "PROTOCOL", "THREADS")
RUN = 10

# What is said otherwise: stops, continues, reports, a number.
AVOIDED = re.compile(r"\b(?:(?:has|have|having) (?:it|one|a host|hosts) fail|go(?:es)? on|going on|tells? of|so many|one sits)\b", re.IGNORECASE)
# What is printed by the program: tables of its options, and what is quoted.
QUOTED = re.compile(r"^<!-- .*?^<!-- end -->$|\*[^*\n]+\*", re.MULTILINE | re.DOTALL)

# The functions and definitions of a claim.
SOURCES = re.compile(r"\s*\([^()]*`[^()]*\)")
ITEM = re.compile(r" *(?:[-*]|\d+\.) +")

# Lines of definitions that a page counts: what a row of its tables names, and the number beside.
COUNTED = (("docs/PROTOCOL.md", "pair_protocol"), ("docs/THREADS.md", "pair_rule"))


def paragraphs(text: str) -> list[str]:
    """The paragraphs and the items of a page, each in one line, and each item with its mark."""
    found, is_open = [], False
    for line in text.splitlines():
        begins = ITEM.match(line) or not is_open
        is_open = bool(line.strip()) and not line.startswith(("#", "|", "<"))
        if is_open and begins:
            found.append(line)
        elif is_open:
            found[-1] += f" {line.strip()}"
    return found


def without_sources(text: str) -> str:
    """A claim without its functions and definitions."""
    shorter = SOURCES.sub("", text)
    return shorter if shorter == text else without_sources(shorter)


def claims_are_short() -> None:
    """A case: each claim is a line of a list, and what stands between claims are short sentences."""
    found: list[str] = []
    for it in paragraphs(prose(TOP / "docs/CLAIMS.md")):
        said = without_sources(LINK.sub("link", it))
        found += [ITEM.sub("", said)] if ITEM.match(said) else re.split(r"(?<=\.) ", said)
    expect([it[:60] for it in found if len(it.split()) > MOST_WORDS], [], f"claims of more than {MOST_WORDS} words")


def entries_are_short() -> None:
    """A case: each entry of docs/DECISIONS.md has a name and a few lines."""
    entries = re.findall(r"^- .*\n(?: .*\n)*", (TOP / "docs/DECISIONS.md").read_text(encoding="utf-8"), re.MULTILINE)
    expect([it[:60] for it in entries if not it.startswith("- **")], [], "entries without a name")
    expect([it[:60] for it in entries if it.count("\n") > MOST_LINES], [], f"entries of more than {MOST_LINES} lines")


def fits(page: str) -> None:
    """A case: a page is no longer than two screens."""
    count = len((TOP / page).read_text(encoding="utf-8").splitlines())
    expect(count > SCREENS[page], False, f"that it has more than {SCREENS[page]} lines, {count}")


def runs_of(page: str) -> set[tuple[str, ...]]:
    """The words of a page that stand in a row."""
    words = re.findall(r"\w+", LINK.sub("link", prose(TOP / f"docs/{page}.md")).lower())
    return {tuple(words[it : it + RUN]) for it in range(len(words) - RUN + 1)}


def each_thing_is_said_once() -> None:
    """A case: two of these pages have no words in a row that are the same."""
    runs = {it: runs_of(it) for it in SAID_ONCE}
    found = [(one, other, " ".join(it)) for one, other in itertools.combinations(SAID_ONCE, 2) for it in runs[one] & runs[other]]
    expect(found, [], "what two pages say")


def words_are_plain(page: pathlib.Path) -> None:
    """A case: a page has none of the words that are avoided."""
    expect(AVOIDED.findall(SPAN.sub("", QUOTED.sub("", prose(page)))), [], "words that are said otherwise")


def lines_in(files: list[pathlib.Path]) -> int:
    """The lines of these files that are not blank and import nothing."""
    lines = [line for it in files for line in it.read_text(encoding="utf-8").splitlines()]
    return sum(bool(it.strip()) and not it.startswith("use ") for it in lines)


def lines_are_counted(page: str, crate: str) -> None:
    """A case: a page's tables of definitions say how many lines these have."""
    found = []
    for row in re.findall(r"^ *\|(.*)\|$", (TOP / page).read_text(encoding="utf-8"), re.MULTILINE):
        cells = [it.strip() for it in row.split("|")]
        of = next((it for it in cells if re.fullmatch(r"(?:`\w+`(?:, | )?)+", it)), "")
        names = [it for it in SPAN.findall(of) if it[0].isupper()]
        number = next((int(it) for it in cells if it.isdigit()), None)
        if not names or number is None:
            continue
        folder = next((it for it in SPAN.findall(of) if it[0].islower()), crate)
        found.append((names[0], number, lines_in([TOP / f"crates/{folder}/specs/{it}.antt" for it in names])))
    expect([it for it in found if it[1] != it[2]], [], "files, the lines that the page counts, and those that there are")
    expect(len(found) > 2, True, "that there are tables")


def cases() -> dict[str, functools.partial[None]]:
    """The cases, by their titles."""
    of_pages = {f"{name_of(page)}: words": functools.partial(words_are_plain, page) for page in wrap.pages()}
    counted = {f"{page}: lines": functools.partial(lines_are_counted, page, crate) for page, crate in COUNTED}
    screens = {f"{page}: two screens": functools.partial(fits, page) for page in SCREENS}
    return of_pages | counted | screens | {
        "docs/CLAIMS.md: claims": functools.partial(claims_are_short),
        "docs/DECISIONS.md: entries": functools.partial(entries_are_short),
        "said once": functools.partial(each_thing_is_said_once),
    }
