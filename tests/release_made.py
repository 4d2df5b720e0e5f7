"""Releases that tests make, from a copy of the repository with a commit of its own, and the folders into which they are unpacked."""
import contextlib
import functools
import os
import pathlib
import shutil
import subprocess
import sys
import tempfile

from cases import expect
from console_sitting import TOP

# What a release is made from, and what a copy of it leaves out.
COPIED, LEFT_OUT = ("crates", "crates.txt", "pair", "tools", "examples", "docs", ".gitignore"), ("out", "__pycache__", "*must-fail*")
# By whom and when the copy's commit is.
BY = {f"GIT_{who}_{what}": of for who in ("AUTHOR", "COMMITTER") for what, of in (("NAME", "tests"), ("EMAIL", "tests@localhost"), ("DATE", "1700000000 +0000"))}
# How long a run may take, in seconds.
PATIENCE = 300

ROOM = pathlib.Path(tempfile.gettempdir()) / f"release.{os.getpid()}"
IS_PROVED = "--unproved" not in sys.argv
NAME = f"pair-0.1.0{'' if IS_PROVED else '-unproved'}-x86_64"


@contextlib.contextmanager
def room():
    """The folder of all that is made here, temporary files too; it is removed in the end."""
    ROOM.mkdir(mode=0o700)
    tempfile.tempdir = str(ROOM)
    try:
        yield ROOM
    finally:
        tempfile.tempdir = None
        shutil.rmtree(ROOM, ignore_errors=True)


def run(words, status=0, **how):
    """What a command prints that ends with this status."""
    ran = subprocess.run(words, capture_output=True, timeout=PATIENCE, **how)
    expect(ran.returncode, status, f"the status of {' '.join(map(str, words))}, which said {ran.stderr[-300:]!r}")
    return ran.stdout if status == 0 else ran.stderr


def git(at, *words):
    return run(["git", "-C", at, *words], env={**os.environ, **BY, "GIT_CONFIG_GLOBAL": os.devnull})


def copy_to(at):
    """A copy of the repository, committed, without a program."""
    at.mkdir()
    for it in COPIED:
        if (TOP / it).is_dir():
            shutil.copytree(TOP / it, at / it, ignore=shutil.ignore_patterns(*LEFT_OUT))
        else:
            shutil.copy2(TOP / it, at / it)
    git(at, "init", "-q")
    git(at, "add", "-A")
    git(at, "commit", "-q", "-m", "a release")


def put(source, to):
    """A program, newer than all sources."""
    to.parent.mkdir(parents=True, exist_ok=True)
    shutil.copyfile(source, to)
    to.chmod(0o755)


def repository_at(at):
    """A copy, with the program."""
    copy_to(at)
    if IS_PROVED:
        put(TOP / "crates/pair_main/out/pair_main", at / "crates/pair_main/out/pair_main")
    else:
        put(TOP / "out/unproved/pair", at / "out/unproved/pair")
    return at


@functools.cache
def repository():
    return repository_at(ROOM / "repository")


def made(to, *words, by=None, **around):
    """A release that a copy makes."""
    trial = [] if IS_PROVED else ["--unproved"]
    run([(by or repository()) / "tools/release", *trial, "--to", to, *words], env={**os.environ, **around})
    return to / f"{NAME}.tar.gz"


@functools.cache
def packed():
    return made(ROOM / "made", "--gate", "7 passed, 0 failed")


def unpacked_in(at, release=None):
    """A release's folder, once it is unpacked there."""
    run(["tar", "-xzf", release or packed(), "-C", at])
    return next(it for it in at.iterdir() if (it / "RELEASE").exists())


@functools.cache
def unpacked():
    return unpacked_in(ROOM)


@functools.cache
def commit():
    return git(repository(), "rev-parse", "HEAD").decode().strip()


@functools.cache
def line():
    """What the release says of itself."""
    return f"pair 0.1.0, commit {commit()[:12]}, {'proved' if IS_PROVED else 'not proved'}"
