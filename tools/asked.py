"""What the words of a command line ask of a console: a guest, its disks and keys, its hosts, and what is done first."""

import os
import re
import shlex

import disks
from doing import steps_in
from files import attached_words, hex_lines, image_in, place_for, read, refuse_missing, save_all, synced_words
from hosts import ROLES
from options import accepted, complain, count_in, drives_in, key_in, key_lines, key_name, memory_line, numbered, sense_line, spelled, taken, told, word_in
from places import is_place

# The options that say how many hosts there are, and how they are run.
OF_HOSTS = {"--hosts", "--host", "--later", "--patience", "--remote", "--remote-program"}
MONITOR = os.path.join(os.path.dirname(os.path.dirname(os.path.realpath(__file__))), "examples/guests/monitor.hex")
# How many processes begin, how many more do when others have ended, how many `spare` starts, and how many places there are at most.
HOSTS, LATER, ASKED, MOST = 3, 8, 16, 99
# The statuses of an outside that has no host left with the machine, and of one that has cut a machine off that ran in silence; it has
# written the disks then, too.
NO_HOSTS, SILENT = 6, 8
# What the escape key sends unless another is chosen.
ESCAPE = 0x05


def escape_in(word):
    """The byte that the escape key sends, as the program's option names it."""
    return key_in("--escape", word)


class Asked:
    """What the words of a command line ask for: words for the program, what comes before the keys, disks to be saved, and how many hosts
    there are."""

    def __init__(self, words):
        self.own, self.images, self.saves, self.attached = [], {}, {}, {}
        self.escape, self.steps = ESCAPE, []
        self.setup, self.memory, self.keys, self.lines = b"", None, [], None
        # How many hosts begin, how many may later, by which command those elsewhere are run, what each is given, and where the pipes are.
        self.hosts, self.later, self.remote, self.of_hosts, self.folder = None, None, {}, [], None
        # Where hosts are, if that is said, and the program there.
        self.at, self.away_program = [], None
        for option, value in taken("console", words):
            if value is None:
                complain(f"`pair console` has no option {option}; `./pair help console` lists its options")
            self.take(option, value)
        if self.memory is None:
            self.memory = hex_lines(MONITOR)
        for drive in self.attached.keys() & self.images.keys():
            complain(f"--attach {drive}={self.attached[drive]}: drive {drive} has --disk too, so give one of them")
        refuse_missing(self.saves, self.setup, self.images.keys() | self.attached.keys())
        self.count_hosts()

    def take(self, option, value):
        if option == "--escape":
            self.own += [option, escape_in(value)]
            self.escape = int(self.own[-1])
        elif option == "--sense":
            self.setup += spelled([sense_line(value)])
        elif option == "--type":
            self.keys += key_lines(*numbered(option, value, 1))
        elif option == "--save-disk":
            drive, path = numbered(option, value, 3)
            self.saves[drive] = place_for(self.saves, drive, path)
        elif option == "--attach":
            self.own += attached_words(self.attached, *numbered(option, value, 3))
        elif option == "--sync":
            self.own += synced_words(value)
        elif option == "--speed":
            self.steps.insert(0, (None, b"speed %d" % count_in(option, value, 10_000)))
        elif option == "--silence":
            self.own += [option, str(count_in(option, value, 1))]
        elif option == "--do":
            self.steps += accepted(steps_in, value)
        elif option == "--lines":
            self.lines = word_in(option, value, ("row", "here"))
        elif option in OF_HOSTS:
            self.take_hosts(option, value)
        else:
            self.take_guest(option, value)

    def take_hosts(self, option, value):
        """How many hosts there are, and how they are run."""
        if option == "--host":
            self.at.append(value if is_place(value) else complain(f"--host {value!r}: expected `here`, or where ssh leads, as alpha"))
        elif option == "--remote-program":
            self.away_program = value or complain(f"{option} {value!r}: expected the path of pair there")
        elif option == "--hosts":
            self.hosts = count_in(option, value, 2)
        elif option == "--later":
            self.later = count_in(option, value, 0)
        elif option == "--patience":
            self.of_hosts = [option, str(count_in(option, value, 100))]
        else:
            host, command = numbered(option, value, MOST - 1)
            self.remote[host] = shlex.split(command)

    def count_hosts(self):
        """How many hosts begin, and how many may come later: at places as many as there can be."""
        if self.at and (self.hosts or self.remote):
            complain(f"--host and {'--hosts' if self.hosts else '--remote'}: each says where hosts are, so give one of them")
        if len(self.at) == 1:
            complain(f"--host {self.at[0]}: a pair needs two hosts, so give --host twice or more")
        if self.away_program and not self.at:
            complain("--remote-program is for hosts of --host")
        self.hosts, self.away_program = len(self.at) or self.hosts or HOSTS, self.away_program or "pair"
        if self.later is None:
            self.later = max(MOST - ASKED - self.hosts, 0) if self.at else LATER
        if self.hosts + self.later > MOST:
            complain(f"--hosts {self.hosts} --later {self.later}: there are at most {MOST} hosts")

    def take_guest(self, option, value):
        """What the guest is made of."""
        self.memory = self.memory or []
        if option == "--load":
            self.memory += hex_lines(value)
        elif option == "--memory":
            self.memory.append(memory_line(value))
        elif option == "--setup":
            self.setup += b"".join(line + b"\n" for line in read(value).splitlines())
        else:
            drive, path = numbered(option, value, 3)
            self.images[drive] = image_in(path)

    def has_program(self) -> bool:
        """Whether any byte of the memory at boot is other than 0, which alone does nothing."""
        lines = re.findall(rb"^[ \t]*mem[ \t]+[^ \t\n]+([^\n]*)", self.setup + spelled(self.memory), re.MULTILINE)
        return any(line.strip(b" \t\r0") for line in lines)

    def has_disk(self) -> bool:
        """Whether any drive has a disk that is not empty."""
        return bool(self.images or self.attached or re.search(rb"^[ \t]*sector[ \t]", self.setup, re.MULTILINE))

    def warn_of_nothing(self) -> None:
        """Says before anything runs that a machine without a program can do nothing; it runs all the same."""
        if not self.has_program():
            told("the memory of the machine is empty, so it does nothing without end: --load FILE or --memory gives it a program")

    def hint(self):
        """How a command is given."""
        return f"{key_name(self.escape)} opens a line of commands"

    def way_out(self):
        """How the console is ended."""
        return f"{self.hint()}, and `quit` there ends the console"

    def opening(self):
        """What comes before the first key: images, and then a script."""
        return b"".join(self.images.values()) + self.setup + spelled(self.memory + self.keys)

    def places(self):
        """How many places for hosts there are."""
        return min(self.hosts + self.later + ASKED, MOST)

    def first(self):
        """The words that say what comes before the first key, or before the first frame."""
        return ["--before", str(len(self.opening())), *["--images", drives_in(self.images)] * bool(self.images)]

    def words(self, mark):
        """The words that the outside is given."""
        words = ["console", "--folder", self.folder, "--places", str(self.places()), *self.first(), *self.own]
        return [*words, "--apart", *self.saving(mark)]

    def host_words(self, program, host):
        """The words of the command that runs a host."""
        role = ROLES[host] if host < len(ROLES) else "spare"
        return [*self.remote.get(host, [program]), "host", "--role", role, *self.host_options()]

    def host_options(self):
        """The options that each host is given."""
        return [*self.of_hosts, *self.first()]

    def saving(self, mark):
        """The words that say which disks the program writes at its end, and what it writes before them."""
        return [*["--saved", drives_in(self.saves)] * bool(self.saves), "--mark", mark]

    def end(self, status, run):
        """Ends the command if what its program wrote could not be passed on; else the disks are saved if the program ended well. Gives the
        status of the command."""
        self.tell_of_silence(status, run)
        for screen in run.screens:
            if screen.error:
                complain(f"the output is not written: {screen.error.strerror}", 5)
        if self.saves and run.program.returncode not in (0, NO_HOSTS, SILENT):
            complain(f"{', '.join(self.saves.values())}: not written, since `pair console` did not end well", status)
        if self.saves:
            self.save(bytes(run.screens[0].kept or b""))
        return status

    def tell_of_silence(self, status, run) -> None:
        """Says after the last key of a pipe what a machine may wait for that was cut off, or has printed nothing."""
        if status == SILENT and not self.has_disk():
            told("no drive has a disk, if the machine waits for one: --disk or --attach gives it one")
        if status == 0 and not os.isatty(0) and run.has_printed_nothing():
            told("the machine has printed nothing: if it is halted with interrupts off, no key wakes it")

    def save(self, images):
        """Writes each disk that is to be saved, of those that came one after another."""
        is_whole = len(images) == len(self.saves) * disks.IMAGE_BYTES
        places = [slice(place * disks.IMAGE_BYTES, (place + 1) * disks.IMAGE_BYTES) for place in range(len(self.saves))]
        by_drive = {drive: images[place] for drive, place in zip(self.saves, places)} if is_whole else {}
        save_all(self.saves, by_drive, lambda _: "the disks that came are not whole")
