"""Another Linux for `tests/release`: a folder that has its root, or a release of Debian, which debootstrap gets."""
import pathlib
import shutil
import subprocess
import sys

from release_made import ROOM

# Where Debian's packages are, and how long they may take to come, in seconds.
DEBIAN, SLOW = "http://deb.debian.org/debian", 1200
# A root's own words for a command that it runs: of this machine it has the processes, the devices, and the folder of the test, at its path.
ENTER = """\
mount -t tmpfs none "$0/tmp" && mkdir -p "$0$1" && mount --bind "$1" "$0$1" && mount -t proc none "$0/proc" && mount --rbind /dev "$0/dev" || exit 125
root=$0 && shift && exec chroot "$root" "$@"
"""


def skip(why):
    sys.exit(f"tests/release: skipped, nothing was tried: {why}")


def do(what, *words):
    """Runs a command that must end well; else the test is skipped, with what it said last."""
    ran = subprocess.run(words, capture_output=True, text=True, timeout=SLOW)
    if ran.returncode:
        skip(f"{what}: {' '.join((ran.stderr or ran.stdout).split()[-40:])}")


def root_of(word):
    """The folder with a root: that of this name, or that of Debian's release of this name."""
    if not pathlib.Path(word).is_dir():
        if not shutil.which("debootstrap"):
            do("debootstrap cannot be installed", "apt-get", "install", "-y", "--no-install-recommends", "debootstrap")
        # What debootstrap mounts is gone with its namespace.
        do(f"debootstrap {word}", "unshare", "-m", "debootstrap", "--variant=minbase", "--include=python3", word, ROOM / "root", DEBIAN)
        word = ROOM / "root"
    found = pathlib.Path(word).resolve()
    do(f"{found} is no root that can be entered", *entered(found), "/usr/bin/env", "python3", "-c", "")
    return found


def entered(root):
    """The words before a command that is run in a root."""
    return ["unshare", "-m", "sh", "-c", ENTER, str(root), str(ROOM)]
