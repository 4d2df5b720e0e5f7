"""The program, as the sweeps of this folder run it."""
import pathlib
import re
import subprocess
import sys
import tempfile
from collections import namedtuple

TOP = pathlib.Path(__file__).resolve().parent.parent
EXAMPLES = TOP / "examples"
CRATE = TOP / "crates/pair_main"
COMMANDS = ("script", "check")

# The words that begin lines of the setup, which have no answer.
SETUP = {"mem", "drives", "levels", "sense", "hosts", "reads", "sector", "fail"}

# How a run ended: its status, and what is on standard output and on standard error.
Ending = namedtuple("Ending", "status output said")


def build():
    """Proves and builds the program if it is not built, or if its sources have changed: a sweep is of the proved program."""
    subprocess.run([TOP / "prove"], check=True)


def run_all(scripts, proved):
    """Runs `script` and `check` on each script: the two endings, by the script's name."""
    if proved:
        build()
        return {name: [run(command, script) for command in COMMANDS] for name, script in scripts.items()}
    with tempfile.TemporaryDirectory() as folder:
        write_cases(pathlib.Path(folder), scripts)
        said = subprocess.run(["rt", "try", "--cases", folder], cwd=CRATE, capture_output=True)
        return endings(said.stdout, said.stderr, scripts)


def endings(output, said, scripts):
    """The endings that `rt try --cases` reports: what a case says on standard error comes before the case's own line."""
    parts = re.split(rb"^== (\S+)\n", output, flags=re.MULTILINE)
    printed = dict(zip(parts[1::2], parts[2::2]))
    ended, text = {}, b""
    for line in said.splitlines(keepends=True):
        found = re.match(rb"case=(\S+) run=ended status=(\d+) ", line)
        if found:
            ended[found[1]] = Ending(int(found[2]), printed.get(found[1], b""), text)
        text = b"" if line.startswith(b"case=") else text + line
    lost = Ending("no answer", b"", b"")
    return {name: [ended.get(f"{name}.{command}".encode(), lost) for command in COMMANDS] for name in scripts}


def run(command, script, around=None):
    """Runs a command on a script, in an environment if one is given."""
    try:
        ran = subprocess.run([CRATE / "out/pair_main", *command.split()], input=script, capture_output=True, timeout=60, env=around)
    except subprocess.TimeoutExpired:
        return Ending("no answer", b"", b"")
    return Ending(ran.returncode, ran.stdout, ran.stderr)


def write_cases(folder, scripts):
    """A file for each script and command, as `rt try --cases` reads them."""
    for name, script in scripts.items():
        for command in COMMANDS:
            (folder / f"{name}.{command}").write_bytes(script)
            (folder / f"{name}.{command}.args").write_text(f"{command}\n")


def fail(why, script):
    """Ends the sweep: what was found, and the script that shows it."""
    kept = pathlib.Path("found.script")
    kept.write_bytes(script)
    sys.exit(f"{why}; the script is in {kept}")
