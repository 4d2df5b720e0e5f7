"""The guests of `tests/nemesis`, each with its keys and with all that it shows if its machine never fails; and a seat at a pair that runs one:
it types as the guest allows, compares each byte as it comes, and reaches the hosts that are behind relays."""
import contextlib
import os
import pathlib
import signal
import socket
import time
from collections import namedtuple

from cases import Differs, expect
from console_sitting import ECHO, holds
from hosts_pair import LETTERS, QUIT, WRITER, Pair, dumped, has_ended, letters, monitor_memory, remote

RELAY = pathlib.Path(__file__).with_name("nemesis_relay.py")

# A guest that draws a number from 0 to 7 for each byte, and shows it with the one that it drew before. What it draws depends on how often the
# guest has asked port 0, until then, whether it sends: so on when each byte was accepted, which no two machines agree upon that do not share
# a log. At 0000 MVI A,03; OUT 10; MVI A,15; OUT 10; LXI B,0000; at 000B it counts how often it asks, up to 250 and again from 0, since a
# host's turn asks as often each time (INR B; MOV A,B; CPI FB; JNZ 0014; MVI B,00; IN 10; ANI 02; JZ 000B); at 001B it draws (MOV A,B; ANI 07;
# MOV D,A), and sends 40, eight times that, and what it drew before (ADD A; ADD A; ADD A; ADD C; ADI 40; MOV C,D; OUT 11; JMP 000B).
CHAIN = """\
mem 0000 3E 03 D3 10 3E 15 D3 10 01 00 00
mem 000B 04 78 FE FB C2 14 00 06 00 DB 10 E6 02 CA 0B 00
mem 001B 78 E6 07 57 87 87 87 81 C6 40 4A D3 11 C3 0B 00
"""

# A key, and how many bytes are shown before it may be typed.
Key = namedtuple("Key", "byte after")

# A guest: its name, its setup (none for the monitor), its keys, what it shows from a byte on, so many bytes (none if that is known in part
# only), and how many bytes a run waits for.
Guest = namedtuple("Guest", "name setup keys shows length")

# Where the monitor is asked to dump: its code, and what it has filled.
PLACES = [*range(0, 0x70, 0x10), *range(0x2000, 0x2040, 8)]

# For how many seconds anything is waited for but bytes.
LONGEST_WAIT = 300

# After how many bytes at most an echo must have come until the guest is given more keys.
AHEAD = 100


def monitor_of(chance, count):
    """The monitor, asked to fill memory and to dump it. It has room for one key: each is typed when the one before is echoed."""
    memory, shows, keys = bytearray(monitor_memory()), b"MONITOR\r\n*", []
    while len(shows) < count:
        if chance.random() < 0.3:
            first, byte = chance.randrange(0x2000, 0x2030), chance.randrange(256)
            last = first + chance.randrange(16)
            line, answer = b"F %04X %04X %02X" % (first, last, byte), b""
            memory[first : last + 1] = bytes([byte]) * (last + 1 - first)
        else:
            place = chance.choice(PLACES)
            line, answer = b"D %04X" % place, dumped(memory, place)
        keys += [Key(it, len(shows) + at) for at, it in enumerate(line)]
        shows += line + b"\r\n" + answer + b"*"
    return Guest("monitor", None, keys, part_of(shows), len(shows))


def echo_of(chance, count):
    """A guest that echoes keys, which come as fast as it takes them."""
    some = bytes(chance.choice([it for it in range(256) if it != QUIT[0]]) for _ in range(count))
    return Guest("echo", ECHO, [Key(it, max(0, at - AHEAD)) for at, it in enumerate(some)], part_of(some), count)


def part_of(text):
    """What a guest shows whose output has an end."""
    return lambda first, count: text[first : first + count]


def again_and_again(text):
    """What a guest shows that has no end."""
    return lambda first, count: bytes(text[(first + it) % len(text)] for it in range(count))


def letters_of(_chance, count):
    return Guest("letters", LETTERS, [], again_and_again(letters(26)), count)


def writer_of(_chance, count):
    """A guest that writes sectors, reads them back, and shows what it has read."""
    return Guest("writer", WRITER, [], again_and_again(bytes(range(256))), max(20, count // 20))


def chain_of(_chance, count):
    return Guest("chain", CHAIN, [], None, count)


def chained(before, some):
    """The bytes that fit each to the one before, of these and in their place: what was drawn before is right, and what is drawn is free."""
    return bytes(0x40 | it & 0x38 | last >> 3 & 7 for last, it in zip(before + some, some))


KINDS = {"monitor": monitor_of, "echo": echo_of, "letters": letters_of, "writer": writer_of, "chain": chain_of}


class WrongByte(Differs):
    """A byte that no machine shows that never fails: nothing excuses it."""


class Seat(Pair):
    """A pair that runs a guest, at which somebody sits who types on whatever happens to its hosts."""

    def __init__(self, program, guest, room, is_relayed, hosts, later, *words):
        self.program, self.guest, self.room, self.is_relayed = program, guest, room, is_relayed
        self.typed = self.compared = self.since = 0
        # The hosts to which something was done, and the processes behind the relays.
        self.hurt, self.behind = set(), {}
        words = [*words, "--hosts", str(hosts), "--later", str(later)]
        if guest.setup:
            (room / "guest.setup").write_text(guest.setup)
            words += ["--setup", room / "guest.setup"]
        for place in range(hosts + later if is_relayed else 0):
            words += remote(place, RELAY, self.socket(place), self.program)
        super().__init__(*words)

    def socket(self, host):
        return self.room / f"{host}.socket"

    def hear(self, within):
        """Types what may be typed, and compares what comes."""
        self.type_due()
        has_come = super().hear(within)
        self.compare()
        return has_come

    def type_due(self):
        """Types the keys that may be typed now, as far as they are taken."""
        first = last = self.typed
        while last < len(self.guest.keys) and self.guest.keys[last].after <= len(self.shown):
            last += 1
        if first == last:
            return
        os.set_blocking(self.keyboard, False)
        # A pair that has ended takes none.
        with contextlib.suppress(BlockingIOError, BrokenPipeError):
            self.typed += os.write(self.keyboard, bytes(it.byte for it in self.guest.keys[first:last]))

    def compare(self):
        """Compares what has come since with what a machine shows that never fails."""
        first, some = self.compared, self.shown[self.compared :]
        before = self.shown[first - 1 : first] or b"@"
        self.expect_at(first, some, self.guest.shows(first, len(some)) if self.guest.shows else chained(before, some))
        self.compared = len(self.shown)

    def expect_at(self, at, some, wanted):
        if some != wanted:
            at += next((it for it, byte in enumerate(some) if wanted[it : it + 1] != bytes([byte])), 0)
            raise WrongByte(f"byte {at} differs; before it is {self.shown[max(0, at - 20) : at]!r}, and then {self.shown[at : at + 20]!r}")

    def process(self, host):
        """The process of a host, also of one behind a relay."""
        process = super().process(host)
        if not self.is_relayed:
            return process
        if host not in self.behind:
            children = pathlib.Path(f"/proc/{process}/task/{process}/children")
            self.await_that(lambda: children.read_text().split(), f"the process of host {host}")
            self.behind[host] = int(children.read_text().split()[0])
        return self.behind[host]

    def command(self, host, *words):
        """Says something to the relay of a host."""
        with socket.socket(socket.AF_UNIX, socket.SOCK_DGRAM) as control:
            control.sendto(" ".join(map(str, words)).encode(), str(self.socket(host)))

    def await_that(self, fact, of):
        """Waits until something holds, and not for long, whatever appears meanwhile."""
        ends = time.monotonic() + LONGEST_WAIT

        def holds_in_time():
            if time.monotonic() > ends:
                raise Differs(f"{of} did not come in {LONGEST_WAIT} s; the last that was said is {self.said[-600:]!r}")
            return fact()

        super().await_that(holds_in_time, of)

    def count_shown(self, count):
        """Waits until so many bytes have appeared, as long as any appear."""
        super().await_that(lambda: len(self.shown) >= count, f"byte {count}")

    def await_shown_since(self, count):
        """Waits until so many bytes more have appeared, or all."""
        wanted = min(len(self.shown) + count, self.guest.length)
        self.count_shown(wanted)

    def await_still(self):
        """Waits until nothing appears any more, for a moment."""
        before = -1
        while before != len(self.shown):
            before = len(self.shown)
            self.hear_for(0.3)

    def await_stopped(self, host):
        """Waits until a host has been stopped."""
        process = self.process(host)
        expect(holds(lambda: has_stopped(process), 30), True, f"that host {host} has stopped")

    def is_lost_by_mistake(self):
        """Whether all has ended since a host to which something was done had won before, by a suspicion of its own."""
        self.run.poll()
        return self.run.returncode == 6 and any(b"pair: host %d has won" % it in self.said[self.since :] for it in self.hurt)

    def endings(self):
        """Why hosts have ended to which nothing was done, by their places."""
        lines = (it.partition(b" has ended: ") for it in self.said.splitlines() if b" has ended: " in it)
        every = {int(head.split()[-1]): why.decode(errors="replace") for head, _, why in lines}
        return {host: why for host, why in every.items() if host not in self.hurt}

    def nobody_is_left(self):
        super().nobody_is_left()
        left = [it for it in self.behind.values() if not holds(lambda it=it: has_ended(it), 10)]
        expect(left, [], "the processes that are left behind relays")

    def close(self):
        super().close()
        for process in self.behind.values():
            if not has_ended(process):
                os.kill(process, signal.SIGKILL)


def has_stopped(process):
    """Whether a process is stopped, or has ended."""
    try:
        status = pathlib.Path(f"/proc/{process}/stat").read_text()
    except OSError:
        return True
    return status.rpartition(")")[2].split()[0] in "TtZ"
