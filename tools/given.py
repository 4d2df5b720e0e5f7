#!/usr/bin/env python3
"""Runs the program on files. It opens none itself: what they have comes to it on its standard input.

usage: tools/given.py PROGRAM COMMAND [WORD ..]

Of the words after the command those are taken that are options of tools/options.py; all others are the program's own.

If the input is a terminal, `shell` has a prompt there.

An image has 77 tracks of 32 sectors of 137 bytes. A file is read whole before the program starts; one that is not what it should be
is refused, with status 2. A file is written whole, or is left as it was, and then the status is 5.
"""

import os
import secrets
import signal
import subprocess
import sys
import threading

sys.path.insert(0, os.path.dirname(os.path.realpath(__file__)))
import disks
from files import hex_lines, image_in, place_for, refuse_missing, save_all
from options import drives_in, key_lines, numbered, spelled, taken
from sitting import Ended, Sitting

# No line of the shell begins with this word; what it answers to it comes between the session and the saved disks.
MARK = f"end-{secrets.token_hex(8)}"


class Given:
    """What the words of a command line give beside the program's own: disks and lines before its input, lines after it, and disks to
    be saved."""

    def __init__(self, command, words):
        self.command, self.own = command, [command]
        self.images, self.before, self.after, self.saves = {}, [], [], {}
        # The whole input, if it was read before the program starts.
        self.held = None
        for option, value in taken(command, words):
            if value is None:
                self.own.append(option)
            else:
                self.take(option, value)
        if command == "shell":
            for drive, image in self.images.items():
                self.before += disks.setup_lines(drive, image)
        else:
            self.own += ["--images", drives_in(self.images)] * bool(self.images)
            self.own += ["--saved", drives_in(self.saves)] * bool(self.saves)

    def take(self, option, value):
        if option == "--load":
            self.before += hex_lines(value)
        elif option == "--type":
            self.after += key_lines(*numbered(option, value, 1))
        elif option == "--disk":
            drive, path = numbered(option, value, 3)
            self.images[drive] = image_in(path)
        else:
            drive, path = numbered(option, value, 3)
            self.saves[drive] = place_for(self.saves, drive, path)

    def hold(self):
        """Reads the whole input of a run that saves disks, so that a drive that its machine lacks is refused before it runs."""
        self.held = b"" if os.isatty(0) else sys.stdin.buffer.read()
        refuse_missing(self.saves, spelled(self.before) + self.held, self.images)

    def input(self):
        """The standard input, as it comes. A script of files alone needs nobody who ends it; if a disk is to be saved, `quit` ends it."""
        if self.held is not None:
            yield self.held
            return
        if os.isatty(0) and self.command != "shell":
            return
        if not self.asks():
            while some := os.read(0, 65536):
                yield some
            return
        for line in sys.stdin.buffer:
            if line.strip() == b"quit":
                return
            yield line

    def asks(self):
        """Whether a session is asked for the disks that are to be saved; any other command writes them after all that it prints."""
        return self.command == "shell" and self.saves

    def opening(self):
        """What comes before the input."""
        images = b"" if self.command == "shell" else b"".join(self.images.values())
        return images + spelled(self.before)

    def feed(self, program):
        """Gives the program all its lines, and then the end of its input."""
        last = b"\n"
        try:
            program.stdin.write(self.opening())
            for some in filter(None, self.input()):
                program.stdin.write(some)
                program.stdin.flush()
                last = some
            program.stdin.write(b"\n" if not last.endswith(b"\n") else b"")
        except BrokenPipeError:
            pass
        self.finish(program)

    def finish(self, program):
        """The lines after the input, and its end."""
        queries = [line for drive in self.saves for line in disks.query_lines(drive)] if self.asks() else []
        try:
            program.stdin.write(spelled(self.after + [MARK] * bool(queries) + queries))
            program.stdin.close()
        except BrokenPipeError:
            pass

    def save(self, images):
        """Writes each disk that is to be saved, if its image has come."""
        save_all(self.saves, images, lambda drive: f"the session ended early, has no drive {drive}, or could not read its disk")


def session(program):
    """Passes on what the program prints up to the mark, and returns the lines after it."""
    lines = iter(program.stdout)
    for line in lines:
        if MARK.encode() in line:
            break
        sys.stdout.buffer.write(line)
        sys.stdout.buffer.flush()
    return [line.decode("latin-1").rstrip("\n") for line in lines]


def run_to_end(given, program):
    """Passes on what the program prints, and returns the images after it."""
    printed, images = program.stdout.read(), {}
    if program.wait():
        for drive, path in given.saves.items():
            print(f"pair: {path} is not written: the run did not end well, or has no drive {drive}", file=sys.stderr)
    else:
        for drive in reversed(given.saves):
            printed, images[drive] = printed[: -disks.IMAGE_BYTES], printed[-disks.IMAGE_BYTES :]
    sys.stdout.buffer.write(printed)
    sys.stdout.buffer.flush()
    return images


def images_of(given, program):
    """Passes on what the program prints, and returns the images of the disks that are to be saved."""
    if not given.saves:
        return {}
    if not given.asks():
        return run_to_end(given, program)
    return images_in(given, session(program))


def images_in(given, answers):
    """The images that a session has shown."""
    return {drive: disks.image_in(answers, drive) for drive in given.saves}


def sit(given, program):
    """A session at a terminal; what the program answers to the last lines, those that ask for disks to be saved."""
    try:
        program.stdin.write(spelled(given.before))
        Sitting(program, MARK).sit()
    except Ended:
        return []
    asking = threading.Thread(target=given.finish, args=(program,), daemon=True)
    asking.start()
    return session(program)


def main(path, command, *words):
    given = Given(command, words)
    if given.saves and command == "live":
        given.hold()
    is_sitting = command == "shell" and os.isatty(0) and os.isatty(1)
    # A program hears no signals: at a terminal it is this command that Ctrl-C is for.
    signal.signal(signal.SIGINT, signal.default_int_handler if is_sitting else signal.SIG_IGN)
    how = {"preexec_fn": lambda: signal.signal(signal.SIGINT, signal.SIG_IGN if is_sitting else signal.SIG_DFL)}
    how["stdout"] = subprocess.PIPE if given.saves or is_sitting else None
    with subprocess.Popen([path, *given.own], stdin=subprocess.PIPE, **how) as program:
        if is_sitting:
            images = images_in(given, sit(given, program))
        else:
            threading.Thread(target=given.feed, args=(program,), daemon=True).start()
            images = images_of(given, program)
        status = program.wait()
    if not status:
        given.save(images)
    return status if status >= 0 else 128 - status


if __name__ == "__main__":
    if sys.argv[1:2] in (["--help"], ["-h"]) or len(sys.argv) < 3:
        print(__doc__.strip())
        sys.exit(0 if len(sys.argv) > 1 else 2)
    try:
        ended = main(*sys.argv[1:])
    except SystemExit as end:
        ended = end.code
    except KeyboardInterrupt:
        ended = 130
    # The thread that reads the terminal may still wait for a line.
    os._exit(ended)
