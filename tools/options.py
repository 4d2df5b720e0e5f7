#!/usr/bin/env python3
"""The options of ./pair that the program itself lacks: it opens no file, sets no terminal, and knows hosts only by their roles.

usage: tools/options.py [COMMAND]     prints those of a command; without one, all of them

  --load FILE           for all commands but `host`: a program in Intel HEX, in memory at boot, as lines `mem` before the input
  --disk D=FILE         for all commands but `lint` and `host`: the image of a disk in drive D, before the input
  --attach D=FILE       for `console`: the file is the disk of drive D: each write that is done is in it; a missing one is made
  --sync WHEN           for `console`: a write to such a file is done once the disk has it (`on`), or the file system (`off`)
  --save-disk D=FILE    for `live`, `shell` and `console`: at the end the disk of drive D is written to a file
  --type P=TEXT         for `live` and `console`: keys typed at port P, after those of the script; \\r is Enter, and \\xHH any byte
  --setup FILE          for `console`: lines of a setup, as a script has them, before those of --load
  --memory AAAA=HH..    for `console`: bytes from this address on, in hexadecimal digits, in memory at boot
  --sense HH            for `console`: the sense switches, in two hexadecimal digits
  --speed N             for `console`: the machine makes at most N instructions a second, 10000 to 999999999
  --do FILE             for `console`: what is done before the first key: commands, `type TEXT`, `wait TEXT` and `sleep MS`, one a line
  --silence SECONDS     for `console`: after the last key of a pipe: for how long a machine that runs may neither print, write, nor read on another track
  --escape KEY          for `console`: the key that opens a command line, as ^E, or as two hexadecimal digits
  --hosts N             for `console`: how many processes begin, from 2 on: the primary, its backup, and spares
  --host PLACE          for `console`: a host here (`here`), or where ssh leads, as `alpha`; once for each host, in place of --hosts
  --remote-program PATH  for `console`: where `pair` is at the places of --host, as `/opt/pair/pair`; without it `pair`
  --later K             for `console`: how many more begin as spares later, each when a host has ended
  --patience MS         for `console`: for how many milliseconds a host may hear nothing of its peer until it suspects it
  --remote N=COMMAND    for `console`: host N is run by this command, as `ssh alpha /opt/pair/pair`
  --lines WHERE         for `console`: lines about the pair appear on the last row of the terminal (`row`), or where the cursor is (`here`)
"""

import contextlib
import os
import re
import signal
import sys

# Words of ./pair that are before the command, and what each does; the commands whose last word may be a file in place of standard input.
BEFORE = {
    "-q": "nothing is said of a program that is not proved",
    "--proved": "a program that is not proved is refused",
}
READERS = ("script", "check", "picture", "lint", "live")

# The commands that each option is for.
OPTIONS = {
    "--load": ("script", "check", "picture", "lint", "live", "shell", "console"),
    "--disk": ("script", "check", "picture", "live", "shell", "console"),
    "--attach": ("console",),
    "--sync": ("console",),
    "--save-disk": ("live", "shell", "console"),
    "--type": ("live", "console"),
    "--setup": ("console",),
    "--memory": ("console",),
    "--sense": ("console",),
    "--speed": ("console",),
    "--do": ("console",),
    "--silence": ("console",),
    "--escape": ("console",),
    "--lines": ("console",),
    "--hosts": ("console",),
    "--host": ("console",),
    "--remote-program": ("console",),
    "--later": ("console",),
    "--patience": ("console",),
    "--remote": ("console",),
}
# The lines above that say what these options are, each with its option.
SAID = {line.split()[0]: line for line in __doc__.splitlines() if line.startswith("  --")}
ESCAPES = {"r": b"\r", "n": b"\n", "t": b"\t", "\\": b"\\"}


def tell_options(command=None):
    """Prints which of these options a command takes; without one, all of them."""
    signal.signal(signal.SIGPIPE, signal.SIG_DFL)
    if command is None:
        print("\nBefore the command:")
        print("\n".join(f"  {word:<10}  {what}" for word, what in BEFORE.items()))
    if command is None or command in READERS:
        print(f"\nA FILE after {', '.join(READERS) if command is None else 'the options'} is read in place of standard input.")
    told = [said for option, said in SAID.items() if command in (None, *OPTIONS[option])]
    if told:
        print("\nOptions of ./pair, which reads and writes the files:")
        print("\n".join(told))


def told(line: str) -> None:
    """Says a line about the command on standard error."""
    with contextlib.suppress(OSError):
        print(f"pair: {line}", file=sys.stderr)


def complain(why, status=2):
    """Ends the command with a reason; status 2 is that of a command line that is refused."""
    told(why)
    sys.exit(status)


class Refused(Exception):
    """Why something is refused."""


def refuse(why):
    """Refuses something, with a reason."""
    raise Refused(why)


def accepted(make, *words):
    """What is made of some words; if it is refused, the command ends with the reason."""
    try:
        return make(*words)
    except Refused as why:
        return complain(why)


def taken(command, words, own=()):
    """The options among the words after a command, each with its value, and any other word with none. Beside those above the
    program's own options of these names are taken."""
    words = iter(words)
    for word in words:
        option, equals, value = word.partition("=")
        if option not in OPTIONS and option not in own:
            yield word, None
            continue
        value = value if equals else next(words, None)
        if value is None:
            complain(f"{option} lacks its value")
        if option not in own and command not in OPTIONS[option]:
            complain(f"{option} is for " + ", ".join(f"`pair {it}`" for it in OPTIONS[option]))
        yield option, value


def numbered(option, word, most):
    """The number before the `=` of an option's value, and what comes after it."""
    number, equals, value = word.partition("=")
    if not equals or not number.isdigit() or int(number) > most:
        complain(f"{option} {word}: expected a number from 0 to {most}, `=` and a value")
    return int(number), value


def count_in(option, word, least):
    """The number that an option was given."""
    if not re.fullmatch(r"[0-9]{1,9}", word) or int(word) < least:
        complain(f"{option} {word}: expected a number from {least}")
    return int(word)


def word_in(option, word, words):
    """The word that an option was given, if it is one of two."""
    if word not in words:
        complain(f"{option} {word}: expected `{words[0]}` or `{words[1]}`")
    return word


def key_in(option, word):
    """The byte that a key sends, as the program's options name it."""
    named = re.fullmatch(r"\^([?-_a-z])", word)
    if not named and not re.fullmatch(r"[0-9A-Fa-f]{2}", word):
        complain(f"{option} {word}: expected a key, as ^E, or a byte in two hexadecimal digits")
    return str(ord(named[1].upper()) ^ 0x40 if named else int(word, 16))


def key_name(byte):
    """What a person calls a key, by the byte that it sends; the program's greeting names it so too."""
    return f"Ctrl-{chr(byte | 0x40)}" if 0 < byte < 0x1B else "ESC" if byte == 0x1B else f"the byte {byte:02X}"


def memory_line(word):
    """The line of a setup that puts bytes into memory."""
    if not re.fullmatch(r"[0-9A-Fa-f]{4}=([0-9A-Fa-f]{2})+", word):
        complain(f"--memory {word}: expected four hexadecimal digits, `=`, and two for each byte")
    address, _, digits = word.partition("=")
    return f"mem {address} {bytes.fromhex(digits).hex(' ').upper()}"


def sense_line(word):
    """The line of a setup that sets the sense switches."""
    if not re.fullmatch(r"[0-9A-Fa-f]{2}", word):
        complain(f"--sense {word}: expected two hexadecimal digits")
    return f"sense {word}"


def key_lines(port, text):
    """The lines of a script for `live` that type a text."""
    return [f"type {port} {key:02X}" for key in accepted(keys_in, f"--type {port}={text}", text)]


def keys_in(where, text):
    """The keys of a text; where it stands is said if it is refused."""
    keys, rest = b"", text
    while rest:
        found = re.match(r"\\([rnt\\])|\\x([0-9A-Fa-f]{2})|([^\\])", rest, re.DOTALL)
        if not found:
            refuse(f"{where}: after a backslash comes r, n, t, x with two hexadecimal digits, or a backslash")
        named, code, plain = found.groups()
        keys += ESCAPES[named] if named else bytes.fromhex(code) if code else os.fsencode(plain)
        rest = rest[found.end() :]
    return keys


def drives_in(disks):
    """The drives of some disks, as the program's options name them."""
    return ",".join(map(str, disks))


def spelled(lines):
    return "".join(f"{line}\n" for line in lines).encode()


if __name__ == "__main__":
    tell_options(*sys.argv[1:2])
