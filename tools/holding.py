"""Files that a command has for itself until it ends: those to which it saves disks, and those that are disks of its drives."""

import errno
import fcntl
import hashlib
import os
import socket

IN_USE = "it is open already, for another program or another drive"
# The names of files that this command has, each as long as its socket is bound; and the files that it has locked.
NAMES, LOCKED = {}, {}


def has_name(path):
    """Takes the name of a file for this command alone, whether the file is there or not; tells whether it could. A socket without a file
    has the name, so nothing is left of it when the command ends, however it does."""
    path = os.path.realpath(path)
    name = socket.socket(socket.AF_UNIX, socket.SOCK_DGRAM)
    try:
        name.bind(b"\0pair-" + hashlib.sha256(os.fsencode(path)).hexdigest().encode())
    except OSError:
        name.close()
        return False
    NAMES[path] = name
    return True


def has_file(path):
    """Locks a file for this command alone, if it is there, as the program locks one that is a disk; tells whether nobody else has it."""
    path = os.path.realpath(path)
    file = locked(path)
    if file is not None:
        LOCKED[path] = file
    return file is not None or not is_locked(path)


def locked(path):
    """The file, open and locked; none if it is not there, or somebody has it."""
    try:
        file = os.open(path, os.O_RDONLY | os.O_CLOEXEC | os.O_NONBLOCK)
    except OSError:
        return None
    try:
        fcntl.flock(file, fcntl.LOCK_EX | fcntl.LOCK_NB)
    except OSError:
        os.close(file)
        return None
    return file


def is_locked(path):
    """Whether somebody else has a file that is there."""
    file = locked(path)
    if file is not None:
        os.close(file)
        return False
    return os.path.isfile(path) and os.access(path, os.R_OK) and not is_own(path)


def is_own(path):
    """Whether it is the file that this command has locked."""
    path = os.path.realpath(path)
    return path in LOCKED and os.path.samestat(os.fstat(LOCKED[path]), os.stat(path))


def refuse_locked(path):
    """Raises if somebody else has a file."""
    if is_locked(path):
        raise OSError(errno.EBUSY, IN_USE)
