"""A pair whose hosts are processes, as a test sits at it: who each host is, signals to it, what must appear, and the guests of such tests."""
import contextlib
import functools
import os
import pathlib
import re
import shlex
import signal

from cases import expect
from console_sitting import ENTER, ESCAPE, TOP, BetweenPipes, command_of, ended_at_last, guest_of, holds

GUESTS = TOP / "examples/guests"
QUIT = ESCAPE + b"quit" + ENTER

# The words by which nobody is suspected for being slow: whoever is killed is seen to be dead at once.
PATIENT = ("--patience", "30000")

# And those by which a host that is stopped is suspected after two seconds.
HASTY = ("--patience", "2000")

# A guest that prints the letters from A to Z again and again. At 0000 MVI A,03; OUT 10; MVI A,15; OUT 10; MVI B,41; at 000A it waits until
# port 0 sends (IN 10; ANI 02; JZ 000A), sends the next one (MOV A,B; OUT 11; INR B), and goes on (MOV A,B; CPI 5B; JNZ 000A; MVI B,41;
# JMP 000A).
LETTERS = """\
mem 0000 3E 03 D3 10 3E 15 D3 10 06 41
mem 000A DB 10 E6 02 CA 0A 00 78 D3 11 04 78 FE 5B C2 0A 00 06 41 C3 0A 00
"""

# A guest that writes a sector of 137 equal bytes again and again, from 00 on one more each time, and prints each byte once it has read the
# sector back (tests/console has it line by line).
WRITER = """\
mem 0000 31 00 08 3E 03 D3 10 3E 15 D3 10 AF D3 08 3E 04 D3 09
mem 0012 CD 48 00 3E 80 D3 09 06 89 DB 08 0F DA 1B 00 79 D3 0A 05 C2 1B 00
mem 0028 CD 48 00 06 89 DB 08 07 DA 2D 00 DB 0A 05 C2 2D 00
mem 0039 57 DB 10 E6 02 CA 3A 00 7A D3 11 0C C3 12 00
mem 0048 DB 09 FE C6 C2 48 00 C9
"""

# What is told of hosts: that two of them have the machine; that one is alone; that it is given a copy; or that it is nothing any more.
TOLD = re.compile(
    rb"pair: (?:generation \d+: host (?P<primary>\d+) is the primary, host (?P<backup>\d+) its backup|host (?P<alone>\d+) has won"
    rb"|copying the machine to host (?P<joining>\d+)|host (?P<gone>\d+) (?:has failed|has ended|is cut off))"
)


class Pair(BetweenPipes):
    """A pair whose hosts are processes."""

    program = TOP / "pair"

    def __init__(self, *words):
        super().__init__(command_of(self.program, *words), start_new_session=True)

    def processes(self):
        """The process of each host that was started, by its place."""
        return {int(host): int(process) for host, process in re.findall(rb"pair: host (\d+) is process (\d+)(?:, ssh to \S+)?\r?\n", self.said)}

    def process(self, host):
        """The process of a host, once it is started."""
        self.await_that(lambda: host in self.processes(), f"host {host}")
        return self.processes()[host]

    def outside(self):
        """The process of the outside."""
        self.await_said(rb"the outside is process \d+\r?\n")
        return int(re.search(rb"the outside is process (\d+)", self.said)[1])

    def roles(self):
        """What each host is that is still one of the pair, by its place, in the order in which it became so. Lines of the
        outside and those of the command that it runs by come in any order, so whoever has ended once stays out; and who has won is the only
        one of those that had the machine before, also if one of them was stopped and does not know it yet."""
        found, out = {}, set()
        for told in TOLD.finditer(self.said):
            for role, host in told.groupdict().items():
                if host is None:
                    continue
                found.pop(int(host), None)
                out.update({"alone": found, "gone": [int(host)]}.get(role, []))
                found[int(host)] = role
            found = {it: role for it, role in found.items() if it not in out}
        return found

    def having(self, *roles):
        """The hosts that are this now."""
        found = [host for host, role in self.roles().items() if role in roles]
        return found + (self.spares() if "spare" in roles else [])

    def spares(self):
        """The hosts that the last status names as spares, but for those of which something else is told since, and those of the pair, which may
        not have reported yet that they are no spares any more."""
        last = self.said.rfind(b"pair> status")
        told = {int(host) for it in TOLD.finditer(self.said, max(last, 0)) for host in it.groups() if host is not None}
        told.update(self.having("primary", "backup", "joining", "alone"))
        return [host for host in map(int, re.findall(rb"host (\d+) \(process \d+(?:, ssh to \S+)?\): a spare", self.said[last:])) if host not in told]

    def await_spares(self, *hosts):
        """Waits until these hosts are spares, or one is: until one has said so, it is given to no generation."""
        def are():
            self.say("status")
            self.hear_for(0.2)
            return set(hosts) <= set(self.spares()) and self.spares()
        self.await_that(are, f"the spares {hosts}")

    def is_whole(self):
        """Whether there is a primary with a backup."""
        return bool(self.having("primary") and self.having("backup") and not self.having("joining", "alone"))

    def await_whole(self):
        """Waits until there is a primary with a backup; returns both."""
        self.await_that(self.is_whole, "a whole pair")
        return self.having("primary")[-1], self.having("backup")[-1]

    def close(self):
        """No more keys come, and whoever a case has left stopped ends."""
        super().close()
        for process in self.processes().values():
            if not has_ended(process):
                os.kill(process, signal.SIGKILL)

    def signal(self, host, number):
        os.kill(self.process(host), number)

    def kill(self, host):
        """Kills a host, and waits until it is known to be dead."""
        self.signal(host, signal.SIGKILL)
        self.await_ended(host)

    def kill_primary(self):
        """Kills the primary, once it has a backup."""
        primary, _ = self.await_whole()
        self.kill(primary)

    def await_winner(self, *hosts):
        """Waits until one of some hosts has won its generation; returns it."""
        self.await_that(lambda: self.winners(*hosts), f"one of {hosts} that has won")
        return self.winners(*hosts)[-1]

    def winners(self, *hosts):
        """Those of some hosts that have won a generation."""
        return [host for host in hosts if b"pair: host %d has won" % host in self.said]

    def await_ended(self, host):
        self.await_said(rb"pair: host %d has ended.*\n" % host)

    def count_shown(self, count):
        self.await_that(lambda: len(self.shown) >= count, f"{count} bytes")

    def dump(self, at=None, then=None):
        """Types a dump, does something once so many of its bytes have appeared, and waits for its end."""
        begun = len(self.shown)
        keys = b"D 0000"
        for place, key in enumerate(keys):
            if at == place:
                then()
            self.type(bytes([key]))
            self.count_shown(begun + place + 1)
        if at is not None and at >= len(keys):
            self.count_shown(begun + at)
            then()
        self.await_that(lambda: self.shown.endswith(b"\r\n*"), "the end of a dump")
        expect(self.shown[begun:], keys + b"\r\n" + dump() + b"*", "the dump")

    def end(self):
        """Ends all, and sees that nobody is left."""
        self.type(QUIT)
        expect(self.status(), 0, "the status")
        self.nobody_is_left()

    def nobody_is_left(self):
        left = [it for it in [self.outside(), *self.processes().values()] if not holds(lambda it=it: has_ended(it), 10)]
        expect(left, [], "the processes that are left")


def has_ended(process):
    """Whether a process has ended."""
    try:
        status = pathlib.Path(f"/proc/{process}/stat").read_text()
    except OSError:
        return True
    return status.rpartition(")")[2].split()[0] == "Z"


@contextlib.contextmanager
def monitor(*words):
    """A pair that runs the monitor and is whole."""
    with ended_at_last(Pair(*words)) as pair:
        pair.await_shown(b"MONITOR\r\n*")
        pair.await_whole()
        yield pair


@contextlib.contextmanager
def guest(setup, *words):
    """A pair that runs another guest."""
    with guest_of(setup) as of_guest, ended_at_last(Pair(*of_guest, *words)) as pair:
        yield pair


@functools.cache
def monitor_memory():
    """The memory of the monitor at boot."""
    found = bytearray(65536)
    for line in (GUESTS / "monitor.hex").read_text().splitlines():
        _, high, low, kind, *some = bytes.fromhex(line[1:-2])
        for place, byte in enumerate(some if kind == 0 else [], 256 * high + low):
            found[place] = byte
    return bytes(found)


def dumped(memory, begins):
    """What the monitor answers to `D` with an address."""
    return b"%04X" % begins + b"".join(b" %02X" % byte for byte in memory[begins : begins + 16]) + b"\r\n"


@functools.cache
def dump():
    """What the monitor answers to `D 0000`."""
    return dumped(monitor_memory(), 0)


def letters(count):
    return bytes(0x41 + place % 26 for place in range(count))


def remote(host, *words):
    """The option by which a host is run by this command."""
    return "--remote", f"{host}={shlex.join(map(str, words))}"
