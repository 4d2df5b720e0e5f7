"""Edits of a crate: the texts that one makes, the functions that it is in, and a check of a copy of the crate with those texts.

An edit may name a file of a crate that its own is built on, as ../pair_protocol/specs/Refusals.antt: then that crate is proved with the
edit first, which shows that its own laws do not refuse it.
"""

import glob
import os
import re
import shutil
import subprocess
import tempfile

from crates import PARTS, crate_of, toolchain

# What the prover says if it cannot read the edited text: then the edit shows nothing of a contract.
UNREAD = re.compile(r"error\[[\w-]+\]|error: (`[^`]*`: )?.*(is not in scope|has no field|is no name|expected the end|cannot continue)")


def changes(edit, folder):
    """The changes that an edit makes to the files of a crate's folder: the file, where the old text begins, that text and the new one."""
    found, path, old = [], None, None
    with open(edit, encoding="utf-8") as file:
        for line in file.read().split("\n"):
            word, _, text = line.partition(": ")
            if word == "file":
                path = text.strip()
            elif word == "old":
                old = text
            elif line.startswith("new:"):
                found.append((path, old, text))
    return found


def edited(edit, folder):
    """The files of a crate's folder that an edit changes, with the texts that it gives them."""
    return edited_by([edit], folder)


def edited_by(edits, folder):
    """The same of several edits, each of which changes other lines."""
    texts = {}
    for edit in edits:
        for path, old, new in changes(edit, folder):
            if path not in texts:
                with open(f"{folder}/{path}", encoding="utf-8") as source:
                    texts[path] = source.read()
            if texts[path].count(old) != 1:
                raise ValueError(f"its old text is not once in {path}: {old}")
            texts[path] = texts[path].replace(old, new)
    return texts


def function_at(text, at):
    """The function in whose body this place is, as the end of the name by which the prover tells of it, if it is in one.

    The sources are laid out by `rt fmt`: a function of a module begins at the margin, one of an impl four columns further on, and its
    body begins with a line that is a bracket alone, or ends the head.
    """
    lines = text[:at].split("\n")
    here = len(lines) - 1
    is_body = False
    for number in range(here, -1, -1):
        head = re.match(r"( {0,4})(?:pub(?:\([\w: ]+\))? )?(?:const )?(?:unsafe )?fn (\w+)", lines[number])
        if head:
            is_body = is_body or number < here and lines[number].endswith("{")
            name = head[2]
            return is_body and (f"{impl_at(lines, number)}{name}" if head[1] else name) or None
        is_body = is_body or number < here and re.fullmatch(r" {0,4}\{", lines[number]) is not None
        if lines[number] and number < here and re.match(r"[}\w]", lines[number]) and not re.match(r"where\b|impl\b", lines[number]):
            return None
    return None


class Body:
    """The body of a function, in a file of a crate's folder: its lines after the one that begins it, up to the one that ends it."""

    def __init__(self, name, path, lines, head, first, last):
        self.name, self.path, self.lines, self.first, self.last = name, path, lines, first, last
        self.head = "\n".join(lines[head:first])

    def replaced(self, text):
        """The text of the file with other lines in place of the body's."""
        return "\n".join([*self.lines[: self.first], *text.split("\n"), *self.lines[self.last :]])

    def answers(self, folder):
        """The files of proofs/ with answers for this function alone: they are in a folder named for it, in one named for its type or module."""
        places = glob.glob(f"{folder}/proofs/**/{'/'.join(self.name.split('::')[-2:])}/*.antt", recursive=True)
        return [os.path.relpath(it, folder) for it in places]


def bodies(folder, name):
    """The bodies of the functions of a crate's folder whose names, with those of their modules, end with this one. Each has the end of the
    name by which the prover tells of it."""
    found = []
    for place in sorted(glob.glob(f"{folder}/src/**/*.rt", recursive=True)):
        path = os.path.relpath(place, folder)
        with open(place, encoding="utf-8") as file:
            lines = file.read().split("\n")
        for head, line in enumerate(lines):
            function = re.match(r"( {0,4})(?:pub(?:\([\w: ]+\))? )?(?:const )?(?:unsafe )?fn (\w+)", line)
            if function:
                own = f"{impl_at(lines, head)}{function[2]}" if function[1] else f"{module_of(path)}{function[2]}"
                if f"::{module_of(path) if function[1] else ''}{own}".endswith(f"::{name}"):
                    found += body_at(own, path, lines, head, function[1])
    return found


def body_at(name, path, lines, head, margin):
    """The body of the function whose head begins at a line, if it has one; one that is empty ends where it begins."""
    ends = re.compile(rf"{margin}\{{\}}?|.*[^ ] \{{\}}?|.*;")
    first = next(it for it in range(head, len(lines)) if ends.fullmatch(lines[it]) and not re.match(r" *(ensures|requires|decreases|#)", lines[it]))
    if lines[first].endswith(";"):
        return []
    if lines[first].endswith("{}"):
        lines = [*lines[:first], lines[first][:-1], f"{margin}}}", *lines[first + 1 :]]
    last = lines.index(f"{margin}}}", first)
    return [Body(name, path, lines, head, first + 1, last)]


def impl_at(lines, number):
    """The type, and the trait if there is one, of the impl in which this line is, and the two colons after them."""
    for at in range(number, -1, -1):
        if re.match(r"(unsafe )?impl\b", lines[at]):
            head = " ".join(lines[at : number + 1])
            head = without_brackets(head.partition("impl")[2])
            one, is_trait, other = head.partition(" for ")
            words = re.findall(r"\w+", other if is_trait else one)
            trait = re.findall(r"\w+", one.split("::")[-1])[-1:] if is_trait else []
            return f"{words[0]}{''.join(trait)}::"
    return ""


def without_brackets(text):
    """A text without all that is between angle brackets, up to its first brace."""
    kept, depth = "", 0
    for at, letter in enumerate(text):
        if letter == "<":
            depth += 1
        elif letter == ">" and text[at - 1] != "-":
            depth -= 1
        elif letter == "{" and not depth:
            break
        elif not depth:
            kept += letter
    return kept.strip()


def module_of(path):
    """The module that a file is, and two colons after it, as in `due::` for `src/due.rt`; nothing for the root of a crate."""
    module = path.removeprefix("src/").removesuffix(".rt").replace("/", "::")
    return "" if module in ("lib", "main") else f"{module}::"


def functions(edit, folder):
    """The functions whose bodies an edit changes, each by the end of its name; None if it changes anything else."""
    found = set()
    for path, old, _ in changes(edit, folder):
        if not path.startswith("src/"):
            return None
        with open(f"{folder}/{path}", encoding="utf-8") as source:
            text = source.read()
        name = function_at(text, text.index(old) + len(old) - len(old.lstrip()))
        if name is None:
            return None
        found.add(name if "::" in name else f"{module_of(path)}{name}")
    return frozenset(found)


def write_texts(texts, folder):
    """Puts these texts into the files of a copy."""
    for path, text in texts.items():
        with open(f"{folder}/{path}", "w", encoding="utf-8") as file:
            file.write(text)


def copy_parts(crate, room):
    """Copies what a crate is proved from."""
    for part in PARTS:
        if os.path.isdir(f"{crate.folder}/{part}"):
            shutil.copytree(f"{crate.folder}/{part}", f"{room}/{part}")


def over_copy(words, crate, below, room):
    """The words for a check of a crate over the copy of a crate below it, which is proved first."""
    if below not in crate.needs or any(below in it.below for it in crate.needs):
        raise ValueError(f"{crate.name} is not built on {below.name} alone")
    rlib = f"{room}/out/{below.name}.rlib"
    os.makedirs(os.path.dirname(rlib))
    build = [f"{toolchain()}/bin/rattle", "build", *below.words(1), "--statements", "-o", rlib]
    ran = subprocess.run(build, cwd=room, stdin=subprocess.DEVNULL, stdout=subprocess.PIPE, stderr=subprocess.STDOUT)
    if ran.returncode or not os.path.exists(rlib):
        raise ValueError(f"{below.name} is not proved with it")
    old = os.path.dirname(below.rlib)
    return [it.replace(below.rlib, rlib).replace(f"dependency={old}", f"dependency={os.path.dirname(rlib)}") for it in words]


def check(crate, texts, kept, *flags, without=()):
    """Checks a copy of a crate with these texts in place of its own, and without some of its files, over what kept holds; the status, and
    what was said."""
    with tempfile.TemporaryDirectory(prefix="edit-") as top:
        room = f"{top}/{crate.name}"
        copy_parts(crate, room)
        names = sorted({path.split("/")[1] for path in texts if path.startswith("../")})
        for name in names:
            copy_parts(crate_of(name), f"{top}/{name}")
        write_texts(texts, room)
        for path in without:
            os.unlink(f"{room}/{path}")
        words = crate.words(1)
        for name in names:
            words = over_copy(words, crate, crate_of(name), f"{top}/{name}")
        words = [f"{toolchain()}/bin/rattle", "check", *words, "--incremental", kept, *flags]
        how = {"stdin": subprocess.DEVNULL, "stdout": subprocess.PIPE, "stderr": subprocess.STDOUT, "text": True}
        ran = subprocess.run(words, cwd=room, errors="replace", **how)
        return ran.returncode, ran.stdout.rstrip("\n").split("\n")
