"""The files that a command line names: programs in Intel HEX, images of disks, and disks that are saved."""

import os
import re
import sys

import disks
from holding import IN_USE, has_file, has_name
from options import complain, word_in


def read(path):
    try:
        with open(path, "rb") as file:
            return file.read()
    except OSError as error:
        complain(f"{path}: {error.strerror}")


def record(place, line):
    """The address, the type and the bytes of a record of Intel HEX."""
    if not re.fullmatch(r":([0-9A-Fa-f]{2}){5,}", line):
        complain(f"{place}: not a record of Intel HEX, which is a colon and then pairs of hexadecimal digits")
    count, high, low, kind, *data, _ = found = bytes.fromhex(line[1:])
    if len(data) != count:
        complain(f"{place}: the record says that it has {count} bytes, and has {len(data)}")
    if sum(found) % 256:
        complain(f"{place}: the checksum is wrong")
    return 256 * high + low, kind, data


def hex_lines(path):
    """The lines of a setup that put a program in Intel HEX into memory."""
    base, lines = 0, []
    for number, line in enumerate(read(path).decode("latin-1").splitlines(), 1):
        place = f"{path}, line {number}"
        if not line.strip():
            continue
        address, kind, data = record(place, line.strip())
        if kind == 1:
            return lines
        if kind in (2, 4) and len(data) == 2:
            base = (256 * data[0] + data[1]) << (4 if kind == 2 else 16)
        elif kind == 0 and base + address + len(data) <= 65536:
            lines += [f"mem {base + address:04X} {bytes(data).hex(' ').upper()}"] * bool(data)
        elif kind == 0:
            complain(f"{place}: the record ends above 64K, which is all the memory that there is")
        elif kind not in (3, 5):
            complain(f"{place}: no record of Intel HEX is of type {kind:02X} and has {len(data)} bytes")
    complain(f"{path}: the record that ends a program in Intel HEX, :00000001FF, is missing")


def image_in(path):
    """The image of a disk that a file has."""
    image = read(path)
    if len(image) != disks.IMAGE_BYTES:
        complain(
            f"{path}: a disk has {disks.IMAGE_BYTES:,} bytes, 77 tracks of 32 sectors of 137 bytes, and this file has {len(image):,}"
        )
    return image


def place_for(saves, drive, path):
    """The path of a file to which the disk of a drive is saved, if it can be written there, and nothing else is saved to it."""
    option = f"--save-disk {drive}={path}"
    if not path:
        complain(f"{option}: the name of a file is missing")
    if drive in saves:
        complain(f"{option}: drive {drive} is saved to {saves[drive]}, so give one of them")
    if os.path.realpath(path) in map(os.path.realpath, saves.values()):
        complain(f"{option}: another drive is saved to that file")
    if not os.access(os.path.dirname(os.path.realpath(path)), os.W_OK):
        complain(f"{path}: there is no folder in which it can be written")
    try:
        disks.mode_at(path)
    except OSError as error:
        complain(f"{path} cannot be written: {error.strerror}")
    if not has_name(path) or not has_file(path):
        complain(f"{path}: {IN_USE}")
    return path


def attached_words(attached, drive, path):
    """The word by which the program has a file as the disk of a drive, beside those that are attached already. The program opens it, and
    refuses it if it has to."""
    option = f"--attach {drive}={path}"
    if not path:
        complain(f"{option}: expected the name of a file")
    if drive in attached:
        complain(f"{option}: drive {drive} has {attached[drive]}")
    if not has_name(path):
        complain(f"{path}: {IN_USE}")
    attached[drive] = path
    return [f"--attach{drive}={path}"]


def synced_words(word):
    """The word by which a write to such a file is done once the file system has it, if that is wanted."""
    return ["--unsynced"] * (word_in("--sync", word, ("on", "off")) == "off")


def refuse_missing(saves, setup, given):
    """Refuses to save a drive that the machine of a setup, which is given disks for some, does not have."""
    count = disks.drives_of(setup, given)
    for drive, path in saves.items():
        if drive >= count:
            complain(f"--save-disk {drive}={path}: the machine has no drive {drive}; the line `drives {drive + 1}` of a setup attaches more")


def save_all(saves, images, reason):
    """Writes the disk of each drive to its file, if its image has come, whatever becomes of the others. If one is not written, it is said
    why, which of an image that has not come is what the reason says of a drive, and the command ends."""
    failures = [unsaved(path, images.get(drive), reason(drive)) for drive, path in saves.items()]
    for why in filter(None, failures):
        print(f"pair: {why}", file=sys.stderr)
    if any(failures):
        sys.exit(5)


def unsaved(path, image, reason):
    """Writes a disk to a file; if that fails, into the folder in which the command runs. What is said if it is not in its file."""
    if image is None:
        return f"{path} is not written: {reason}"
    try:
        disks.write(path, image)
    except OSError as error:
        return f"{path} is not written: {error.strerror}; {saved_beside(path, image)}"
    return None


def saved_beside(path, image):
    """Writes a disk to the first of some names that is free in the folder in which the command runs; what is said of that."""
    names = (f"./{os.path.basename(path)}.saved-{number}" for number in range(1, 1_000))
    other = next(it for it in names if not os.path.lexists(it))
    try:
        disks.write(other, image)
    except OSError as error:
        return f"nor is {other}: {error.strerror}"
    return f"the disk is in {other}"


def saved_as(handed):
    """Writes the disk that a program hands over at the command `save`, and says what became of it."""
    drive, image, path = handed[:2], handed[2 : 2 + 2 * disks.IMAGE_BYTES], handed[2 + 2 * disks.IMAGE_BYTES :]
    path = path_in(path)
    try:
        disks.write(path, bytes.fromhex(image.decode()))
    except OSError as error:
        return os.fsencode(f"{path} is not written: {error.strerror}")
    return os.fsencode(f"drive {int(drive, 16)} is saved to {path}: the disk of this moment, with every write that the machine was told is done")


def drawn_as(path, picture):
    """Writes a picture of the hosts' story, if there is one, and says what became of it."""
    if picture is None:
        return os.fsencode(f"{path} is not written: nothing was told of the hosts yet")
    try:
        disks.write(path, picture.encode())
    except OSError as error:
        return os.fsencode(f"{path} is not written: {error.strerror}")
    return os.fsencode(f"what has become of the hosts so far is drawn in {path}")


def path_in(digits):
    """The name of a file, by its hexadecimal digits."""
    return os.fsdecode(bytes.fromhex(digits.decode()).strip())
