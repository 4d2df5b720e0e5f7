"""How precisely a program that is started from here is woken when it sleeps."""

import contextlib
import pathlib


def sleep_precisely():
    """As ./pair does: asks Linux to wake this process, and those that it starts, within a microsecond, and not within fifty."""
    with contextlib.suppress(OSError):
        pathlib.Path("/proc/self/timerslack_ns").write_text("1000", encoding="ascii")
