#!/usr/bin/env python3
"""Says which pair this is: its version, the commit, and whether the program was proved.

usage: tools/version.py [proved]     the word says that the program of a clone is proved; a release knows it itself
"""

import functools
import os
import re
import subprocess
import sys

TOP = os.path.dirname(os.path.dirname(os.path.realpath(__file__)))
# What a release is; a clone has no such file.
RELEASE = f"{TOP}/RELEASE"
# The version, as the program has it.
SOURCE = f"{TOP}/crates/command_line/src/commands.rt"
# How many digits of a commit are said.
DIGITS = 12
# What must be as in the commit, if the program is to be that of the commit.
PARTS = ("crates", "crates.txt", "pair", "tools", "examples", "docs")


def git(*words):
    """What git answers, without the last line's end; nothing if it does not."""
    try:
        ran = subprocess.run(["git", "-C", TOP, *words], capture_output=True, text=True)
    except OSError:
        return ""
    return ran.stdout.rstrip("\n") if ran.returncode == 0 else ""


def number():
    """The version's number."""
    with open(SOURCE, encoding="utf-8") as file:
        return re.search(r'pair\.version\("([^"]*)"\)', file.read())[1]


def changes():
    """The files that the commit does not have like that, of those that a release is made from."""
    return git("status", "--porcelain", "--", *PARTS).splitlines()


def commit():
    """The commit of a clone, as it is said."""
    if os.path.realpath(git("rev-parse", "--show-toplevel") or os.devnull) != TOP:
        return "unknown"
    return git("rev-parse", f"--short={DIGITS}", "HEAD") + " with changes" * bool(changes())


@functools.cache
def this_version(is_proved=False):
    """The line about this pair."""
    if os.path.exists(RELEASE):
        with open(RELEASE, encoding="utf-8") as file:
            return file.readline().rstrip("\n")
    return f"pair {number()}, commit {commit()}, {'proved' if is_proved else 'not proved'}"


def commit_in(line):
    """The commit that such a line names, or nothing."""
    found = re.search(r", commit ([0-9a-f]+(?: with changes)?),", line)
    return found and found[1]


if __name__ == "__main__":
    print(this_version(sys.argv[1:] == ["proved"]))
