"""Minutes of output of a pair whose primaries are killed one after another: each byte is compared, and memory stays as it is."""
import signal
import time

from cases import Differs, expect
from console_sitting import ended_at_last, guest_of
from hosts_pair import LETTERS, PATIENT, Pair, letters
from nemesis_runs import memory_of

# How many primaries are killed, and how often memory is looked at, in seconds.
KILLS, LOOK = 4, 5

# By how many kB the outside's memory may grow while nobody fails and with each host that comes, but for the first ones, so many: for these
# threads and the blocks that streams carry are used for the first time.
MOST_GROWTH, FIRST, GROWTH_BY_FIRST = 64, 3, 768


class LongSeat(Pair):
    """A seat at a pair that prints letters without end: what has been compared is not kept."""

    def __init__(self, program, *words):
        self.program, self.compared = program, 0
        super().__init__(*words)

    def hear(self, within):
        has_come = super().hear(within)
        first = self.compared % 26
        if self.shown != letters(first + len(self.shown))[first:]:
            raise Differs(f"what came after {self.compared} bytes differs: {self.shown[:300]!r}")
        self.compared += len(self.shown)
        self.shown = b""
        return has_come

    def watch(self, seconds):
        """Hears for so long; returns what the memory of the outside was meanwhile, in kB."""
        memory, ends = [], time.monotonic() + seconds
        while (left := ends - time.monotonic()) > 0:
            self.hear_for(min(LOOK, left))
            memory.append(memory_of(self.outside()))
        return memory

    def replace_primary(self):
        """Kills the primary; returns how long it took until the next byte appeared."""
        primary, _ = self.await_whole()
        before, began = self.compared, time.monotonic()
        self.signal(primary, signal.SIGKILL)
        # What the dead primary had released still comes.
        self.await_said(rb"host %d has failed" % primary)
        before = self.compared
        self.await_that(lambda: self.compared > before, "a byte after a kill")
        took = time.monotonic() - began
        self.await_ended(primary)
        return took


def judged(stretches):
    """What is said of the memory between failures; raises if it grew by more than it may."""
    if None in stretches[0]:
        return "a program that checks what it does, whose memory says nothing"
    # The first half of a stretch is left out: threads, rings and blocks are used for the first time.
    later = [it[len(it) // 2 :] for it in stretches]
    grew = max(max(it) - min(it) for it in later)
    expect(grew <= MOST_GROWTH, True, f"that the memory of the outside stays as it is between failures: {stretches}")
    by_host = [max(new) - max(old) for old, new in zip(later, later[1:])]
    expect(max(by_host[:FIRST]) <= GROWTH_BY_FIRST, True, f"that no host costs the outside more than its share: {stretches}")
    expect(max(by_host[FIRST:]) <= MOST_GROWTH, True, f"that memory stays as it is once some hosts have come: {stretches}")
    return f"the outside had {later[0][0]} kB at first and {later[-1][-1]} kB in the end: {by_host} kB more with the hosts that came, {grew} kB meanwhile"


def told(program, minutes):
    """Runs it, and says what was measured."""
    stretches, waits = [], []
    with guest_of(LETTERS) as of_guest:
        with ended_at_last(LongSeat(program, *of_guest, *PATIENT, "--hosts", "3", "--later", str(KILLS))) as seat:
            seat.await_whole()
            began = time.monotonic()
            for kills in range(KILLS + 1):
                stretches.append(seat.watch(60 * minutes / (KILLS + 1)))
                if kills < KILLS:
                    waits.append(seat.replace_primary())
            took = time.monotonic() - began
            seat.end()
    slowest = f"{1000 * max(waits):.0f} ms at most from a kill to the next byte"
    shown = f"{seat.compared} bytes as they must be, {seat.compared / took:.0f} a second"
    return f"{took / 60:.1f} minutes, {len(waits)} primaries killed: {shown}; {slowest}; {judged(stretches)}"
