"""Programs with a mistake, built without proofs from copies of this repository's sources, to see that `tests/nemesis` finds it.

A file of tests/nemesis_mistakes says what is done wrong, with which guest and which deed it is looked for, and the edit that does it.
"""
import glob
import hashlib
import os
import pathlib
import shutil
import subprocess
import sys

from cases import Differs
from console_sitting import TOP

sys.path.insert(0, str(TOP / "tools"))
from crates import crate_of, toolchain
from edits import edited

EDITS = TOP / "tests/nemesis_mistakes"


# The compiler of such a program: the toolchain's, but that it optimizes, since a program as slow as those that ./pair builds ends few runs.
OPTIMIZES = """\
#!/bin/bash
words=()
for it in "$@"; do [ "$it" = -O0 ] && it=-O2; words+=("$it"); done
exec {clang} "${{words[@]}}"
"""


class Built:
    """A program that is built without proofs, from sources some of whose files have other texts."""

    def __init__(self, name):
        self.name = name
        self.room = TOP / "out/nemesis" / name
        self.program = self.room / "program"

    def texts(self):
        """The texts of the files that are not those of this repository, by their paths: the right program has none."""
        return {}

    def sum(self):
        """A sum of all that the program is built from."""
        others = [f"{path}\n{text}" for path, text in sorted(self.texts().items())]
        return hashlib.sha256("\n".join([crate_of("pair_main").sum, *others]).encode()).hexdigest()

    def build(self):
        """Builds the program, unless that is there already: three minutes of a processor."""
        kept, whole = self.room / "sum", self.sum()
        if self.program.exists() and kept.exists() and kept.read_text() == whole:
            return
        shutil.rmtree(self.room, ignore_errors=True)
        self.copy()
        with open(self.room / "said", "wb") as said:
            tool = [self.room / "top/tools/unproved.py", self.program]
            how = {"stdin": subprocess.DEVNULL, "stdout": said, "stderr": said}
            if subprocess.run(tool, env={**os.environ, "COMPILER": self.compiler()}, **how).returncode:
                raise Differs(f"{self.name} was not built; {self.room / 'said'} has what the toolchain says")
        kept.write_text(whole)

    def copy(self):
        """Copies the sources, with the other texts among them."""
        top = self.room / "top"
        shutil.copytree(TOP / "tools", top / "tools")
        shutil.copy(TOP / "crates.txt", top)
        for folder in glob.glob(f"{TOP}/crates/*/src"):
            shutil.copytree(folder, top / os.path.relpath(folder, TOP))
        for path, text in self.texts().items():
            (top / path).write_text(text)

    def compiler(self):
        """The folder of a compiler that optimizes."""
        given, folder = pathlib.Path(toolchain()) / "toolchain", self.room / "compiler"
        (folder / "bin").mkdir(parents=True)
        (folder / "lib").symlink_to(given / "lib")
        for it in (given / "bin").iterdir():
            (folder / "bin" / it.name).symlink_to(it)
        clang = folder / "bin/clang"
        clang.unlink()
        clang.write_text(OPTIMIZES.format(clang=given / "bin/clang"))
        clang.chmod(0o755)
        return folder


class Mistake(Built):
    """A program with a mistake: what that is in a sentence, how it is looked for, and the edit that makes it."""

    def __init__(self, path):
        super().__init__(path.stem)
        self.edit = path
        rows = dict(line.split(": ", 1) for line in path.read_text().splitlines())
        self.says, self.guest, self.deed = rows["says"], rows["guest"], rows["deed"]

    def texts(self):
        try:
            return edited(self.edit, TOP)
        except (OSError, ValueError) as error:
            raise Differs(f"{self.name} cannot be applied: {error}") from error


def mistakes(names=()):
    """The mistakes of these names, or all."""
    return [Mistake(pathlib.Path(it)) for it in sorted(glob.glob(f"{EDITS}/*.edit")) if not names or pathlib.Path(it).stem in names]
