"""The crates of this repository: what each is built on, what it is proved from, and the words that its proof is asked with."""

import functools
import hashlib
import os
import shutil
import sys

TOP = os.path.dirname(os.path.dirname(os.path.realpath(__file__)))

# What a proof of a crate reads of it.
PARTS = ("src", "specs", "proofs")


def fail(why):
    """Ends the command, with this reason on standard error."""
    sys.exit(f"{os.path.basename(sys.argv[0])}: {why}")


@functools.cache
def toolchain():
    """The folder of the Rattle toolchain, which has the command rt in its folder bin."""
    rt = shutil.which("rt")
    if rt is None:
        fail("there is no command rt: it is that of the Rattle toolchain, and this needs it")
    return os.path.dirname(os.path.dirname(os.path.realpath(rt)))


class Crate:
    """A line of crates.txt."""

    def __init__(self, name, named):
        self.name, self.named = name, named
        self.folder = f"{TOP}/crates/{name}"
        self.is_program = os.path.exists(f"{self.folder}/src/main.rt")
        self.root = "src/main.rt" if self.is_program else "src/lib.rt"
        self.rlib = f"{self.folder}/out/rlib/{name}.rlib"

    @functools.cached_property
    def needs(self):
        """The crates of this repository that the line names."""
        return [every()[it] for it in self.named if it in every()]

    @functools.cached_property
    def kits(self):
        """The libraries of the toolchain that the line names, and std."""
        return ["std", *(it for it in self.named if it not in every())]

    @functools.cached_property
    def below(self):
        """All crates of this repository that it is built on, each after those that it is built on itself."""
        found = {}
        for crate in self.needs:
            found.update(dict.fromkeys([*crate.below, crate]))
        return list(found)

    @functools.cached_property
    def files(self):
        """The files that its proof reads."""
        found = []
        for part in PARTS:
            for folder, _, names in os.walk(f"{self.folder}/{part}"):
                found += [f"{folder}/{it}" for it in names if it.endswith((".rt", ".antt"))]
        return sorted(found)

    @functools.cached_property
    def sum(self):
        """A sum of all that its proof rests on: the toolchain, its line, its files, and the crates below it."""
        sum = hashlib.sha256()
        with open(f"{toolchain()}/KIT-ID", "rb") as file:
            sum.update(file.read())
        sum.update(repr(self.named).encode())
        for path in self.files:
            with open(path, "rb") as file:
                sum.update(repr((os.path.relpath(path, self.folder), file.read())).encode())
        for crate in self.needs:
            sum.update(crate.sum.encode())
        return sum.hexdigest()

    def words(self, jobs):
        """The words that `rattle check` and `rattle build` take for it, over the proved crates below."""
        kit = toolchain()
        words = ["--crate-name", self.name, self.root, "-L", f"dependency={kit}/rlibs"]
        for name in self.kits:
            words += ["--extern", f"{name}={kit}/rlibs/{name}.rlib"]
        for crate in self.needs:
            words += ["--extern", f"{crate.name}={crate.rlib}"]
        for crate in self.below:
            words += ["-L", f"dependency={os.path.dirname(crate.rlib)}"]
        words += ["--antt-project", f"{kit}/rattle/logic/antt-project.json"]
        words += ["--logic-built", f"{kit}/logic_built"]
        return [*words, "--jobs", str(jobs), "--links", f"{self.name}="]


@functools.cache
def every():
    """The crates of crates.txt, by name."""
    found = {}
    with open(f"{TOP}/crates.txt", encoding="utf-8") as file:
        for line in file:
            head, colon, named = line.partition("#")[0].partition(":")
            if colon:
                name = head.split()[0]
                found[name] = Crate(name, named.split())
    return found


def crate_of(name):
    """The crate of that name."""
    return every().get(name) or fail(f"there is no crate {name}")


def with_below(crates):
    """These crates and all that they are built on, each after those that it is built on."""
    found = {}
    for crate in crates:
        found.update(dict.fromkeys([*crate.below, crate]))
    return list(found)
