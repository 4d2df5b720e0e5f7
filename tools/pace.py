#!/usr/bin/env python3
"""Prints how many seconds of the processor the proof of i8080_words takes from nothing, made as the gate and ./prove make it: by that the
cost of the gate is compared between machines, if it runs beside as many others as most proofs of the gate do.

usage: tools/pace.py            once
       tools/pace.py --again    eight minutes from now, and again after each further eight, until it is told to end (SIGTERM)
"""

import os
import resource
import signal
import subprocess
import sys
import tempfile
import time

sys.path.insert(0, os.path.dirname(os.path.realpath(__file__)))
from crates import crate_of, fail, toolchain

CRATE = "i8080_words"

# How long it waits from one time to the next, in seconds.
PAUSE = 480


def used() -> float:
    """The processor seconds of all children that have ended."""
    children = resource.getrusage(resource.RUSAGE_CHILDREN)
    return children.ru_utime + children.ru_stime


def take_time() -> None:
    """Proves the crate once, and prints how many processor seconds that took."""
    crate, before = crate_of(CRATE), used()
    words = [f"{toolchain()}/bin/rattle", "build", *crate.words(1), "--statements", "-o"]
    how = {"cwd": crate.folder, "stdin": subprocess.DEVNULL, "stdout": subprocess.DEVNULL, "stderr": subprocess.DEVNULL}
    with tempfile.TemporaryDirectory() as folder:
        if subprocess.run([*words, f"{folder}/{CRATE}.rlib"], **how).returncode:
            fail(f"{CRATE} is not proved")
    print(f"{used() - before:.0f}", flush=True)


def main() -> None:
    # What it runs ends with it: subprocess.run kills that when it is left by an exception.
    signal.signal(signal.SIGTERM, lambda *_: sys.exit(0))
    if sys.argv[1:] != ["--again"]:
        return take_time()
    while True:
        time.sleep(PAUSE)
        take_time()


main()
