"""Disks as files: an image of 77 tracks of 32 sectors of 137 bytes, as most archives and simh have them, and the lines of the shell for it."""

import errno
import os
import re
import stat
import tempfile

from holding import refuse_locked

TRACKS, SECTORS, SECTOR_BYTES = 77, 32, 137
IMAGE_BYTES = TRACKS * SECTORS * SECTOR_BYTES
PLACES = [(track, sector) for track in range(TRACKS) for sector in range(SECTORS)]
# The line of a setup that says how many drives there are.
DRIVES = re.compile(rb"^drives[ \t]+([1-4])[ \t\r]*$", re.MULTILINE)


def drives_of(setup, given):
    """How many drives a machine of this setup has that is given disks for these."""
    found = DRIVES.findall(setup)
    return max([int(found[-1]) if found else 1, *(drive + 1 for drive in given)])


def setup_lines(drive, image):
    """The lines of a setup in which the drive has this disk."""
    lines = [f"drives {drive + 1}"] * (drive > 0)
    for place, (track, sector) in enumerate(PLACES):
        found = image[place * SECTOR_BYTES : (place + 1) * SECTOR_BYTES]
        lines.append(f"sector {drive} {track} {sector} {found.hex(' ').upper()}")
    return lines


def query_lines(drive):
    """The lines that ask for each sector of a drive."""
    return [f"sector {drive} {track} {sector}" for track, sector in PLACES]


def sectors_in(answers):
    """The bytes of each sector that the shell has shown, by its drive, track and sector."""
    found, shown = {}, bytearray()
    for answer in answers:
        answer = answer.removeprefix("# ")
        head = re.match(r"sector (\d+) (\d+) (\d+): write \d+$", answer)
        row = re.match(r"[0-9A-F]{2}  ((?:[0-9A-F]{2} )+) \|", answer)
        if head:
            shown = found.setdefault(tuple(map(int, head.groups())), bytearray())
        elif row:
            shown += bytes.fromhex(row[1])
    return found


def image_in(answers, drive):
    """The image of a drive, from the answers to its query lines; none if a sector is missing."""
    found = sectors_in(answers)
    image = b"".join(found.get((drive, *place), b"") for place in PLACES)
    return image if len(image) == IMAGE_BYTES else None


def mode_at(path):
    """The mode that a file will have which is written here: its own if it is there. Raises if what is there is no file to be replaced."""
    try:
        found = os.stat(path)
    except FileNotFoundError:
        return 0o666 & ~UMASK
    if stat.S_ISDIR(found.st_mode):
        raise IsADirectoryError(errno.EISDIR, os.strerror(errno.EISDIR))
    if not stat.S_ISREG(found.st_mode):
        raise OSError(errno.EINVAL, "It is no plain file")
    if not os.access(path, os.W_OK):
        raise PermissionError(errno.EACCES, os.strerror(errno.EACCES))
    return stat.S_IMODE(found.st_mode)


def write(path, image):
    """Writes a file whole, or leaves it as it was, as one that somebody else has. A symbolic link is followed, and a file that is replaced
    keeps its mode."""
    path = os.path.realpath(path)
    mode = mode_at(path)
    refuse_locked(path)
    with tempfile.NamedTemporaryFile(dir=os.path.dirname(path), delete=False) as file:
        try:
            file.write(image)
            file.flush()
            os.fsync(file.fileno())
            os.chmod(file.name, mode)
            os.replace(file.name, path)
        except OSError:
            os.unlink(file.name)
            raise


UMASK = os.umask(0o022)
os.umask(UMASK)
