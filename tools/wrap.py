#!/usr/bin/env python3
"""Wraps the prose of the repository's pages at 100 columns.

usage: tools/wrap.py [PAGE ..]           wraps these pages, or all of them
       tools/wrap.py --check [PAGE ..]   names each page that is not wrapped, and changes none

Headings, tables, code, comments and images stay as they are. A code span or a link is never broken, so a line
that has nothing else may be longer. To wrap a page twice changes nothing more.
"""

import pathlib
import re
import sys

TOP = pathlib.Path(__file__).resolve().parent.parent
PAGES = ("*.md", "docs/*.md", "*/README.md", "*/*/README.md")
WIDTH = 100

# What is never broken: code spans and links, with whatever touches them.
UNBROKEN = re.compile(r"(?:`+[^`]+`+|!?\[[^\]]*\]\([^)]*\)|\S)+")
# An item of a list: its indent, its mark, and its first words.
ITEM = re.compile(r"( *)([-*+]|\d+\.)( +)(?=\S)")
# Lines that are no prose, perhaps in an item: headings, rows of tables, comments, quotations, and lines of dashes.
VERBATIM = re.compile(r" *(?:#+ |\||<|>|-{3,}$)")
# Words that would begin an item, a heading or a row at the start of a line.
MARK = re.compile(r"([-*+]|\d+\.|#+)$|[|>]")


def words_of(text: str) -> list[str]:
    """The pieces of a paragraph between which a line may end."""
    words: list[str] = []
    for piece in UNBROKEN.findall(" ".join(text.split())):
        if words and MARK.match(piece):
            words[-1] += f" {piece}"
        else:
            words.append(piece)
    return words


def filled(text: str, first: str, later: str) -> list[str]:
    """A paragraph in lines, which begin with these prefixes."""
    lines, line = [], first
    for word in words_of(text):
        blank = "" if line in (first, later) else " "
        if blank and len(line) + 1 + len(word) > WIDTH:
            lines.append(line)
            line, blank = later, ""
        line += blank + word
    return [*lines, line]


class Wrapper:
    """The lines of a page, wrapped so far, and the paragraph that has begun."""

    def __init__(self) -> None:
        self.lines: list[str] = []
        self.text, self.first, self.later = "", "", ""
        self.is_fenced = False

    def end_paragraph(self) -> None:
        """Wraps the paragraph that has begun, if there is one."""
        if self.text:
            self.lines += filled(self.text, self.first, self.later)
        self.text = ""

    def keep(self, line: str) -> None:
        """Takes a line as it is."""
        self.end_paragraph()
        self.lines.append(line)

    def begin(self, line: str, first: str, later: str) -> None:
        """Begins a paragraph whose lines have these prefixes."""
        self.end_paragraph()
        self.text, self.first, self.later = line[len(first):], first, later

    def take(self, line: str) -> None:
        """Takes the next line of the page."""
        item, blanks = ITEM.match(line), len(line) - len(line.lstrip())
        if line.startswith("```"):
            self.is_fenced = not self.is_fenced
            self.keep(line)
        elif self.is_fenced or not line:
            self.keep(line)
        elif VERBATIM.match(line):
            self.keep(line)
            self.later = self.later[:blanks]
        elif item and blanks <= len(self.later):
            self.begin(line, item[0], " " * len(item[0]))
        elif self.text:
            self.text += f" {line.strip()}"
        elif blanks >= 4 and blanks > len(self.later):
            self.keep(line)
        else:
            self.begin(line, line[:blanks], line[:blanks])


def wrapped(page: str) -> str:
    """The text of a page, wrapped."""
    wrapper = Wrapper()
    for line in page.splitlines():
        wrapper.take(line.rstrip())
    wrapper.end_paragraph()
    return "".join(f"{line}\n" for line in wrapper.lines)


def pages() -> list[pathlib.Path]:
    """All pages of the repository."""
    return sorted({page for pattern in PAGES for page in TOP.glob(pattern)})


def main(words: list[str]) -> int:
    is_check = words[:1] == ["--check"]
    status = 0
    for page in [pathlib.Path(word) for word in words[is_check:]] or pages():
        text = page.read_text(encoding="utf-8")
        if text == wrapped(text):
            continue
        if is_check:
            print(f"{page} is not wrapped at {WIDTH} columns: tools/wrap.py wraps it")
            status = 1
        else:
            page.write_text(wrapped(text), encoding="utf-8")
    return status


if __name__ == "__main__":
    if sys.argv[1:] in (["-h"], ["--help"]):
        sys.exit(print(__doc__.strip()))
    sys.exit(main(sys.argv[1:]))
