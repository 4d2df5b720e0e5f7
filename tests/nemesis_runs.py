"""Runs of `tests/nemesis`: drawn from a seed, carried out, and judged."""
import pathlib
import random
import re
from collections import namedtuple

import nemesis_deeds as deeds
from cases import Differs, expect
from console_sitting import ended_at_last, folder
from nemesis_guests import KINDS, Seat, WrongByte

# What is done to a pair: after how many bytes, which kind of deed, and its words.
Deed = namedtuple("Deed", "at name kind words")

# What is wished of runs: that they are short, a guest, a kind of deed.
Wish = namedtuple("Wish", "is_short guest deed", defaults=(False, None, None))

# A run: its guest, its deeds, after how many milliseconds a peer is suspected, whether hosts are behind relays, how many begin and may follow.
Plan = namedtuple("Plan", "guest deeds patience is_relayed hosts later")

# What came of it: how many bytes appeared, how many hosts ended, by how many kB the outside's memory grew (none if its program checks what it
# does, which takes memory), and whether a host that was slow, and suspected for it, was the peer of the next one to be killed, and so all ended.
Outcome = namedtuple("Outcome", "shown ended grew is_cut_short")

# The most kB by which the outside's memory grows once the pair is whole: what its threads touch for the first time, and what it keeps for
# each host that has come since, its rings and the blocks that its streams have carried.
MOST_GROWTH, GROWTH_BY_HOST = 1_536, 256

# How hosts may end to which nothing was done: as all end, and in a hasty run also suspected by mistake.
AT_THE_END = "its stream has ended", "the pair has ended"
LOST, ORPHANED = "another host has won its generation", "the host that sent it the machine is gone"


def drawn(seed, number, wish):
    """The run of a seed that has this number, as it is wished."""
    chance = random.Random(f"{seed} {number}")
    name = chance.choice(list(KINDS))
    count = chance.randint(300, 600) if wish.is_short else chance.randint(500, 4_000)
    guest = KINDS[wish.guest or name](chance, count)
    patience = deeds.HASTY if chance.random() < (0.25 if wish.is_short else 0.4) else deeds.PATIENT
    is_relayed = chance.random() < 0.5
    if wish.deed:
        patience, is_relayed = deeds.KINDS[wish.deed].patience or patience, deeds.KINDS[wish.deed].is_relayed
    chosen = chosen_kinds(chance, patience, is_relayed, chance.randint(1, 3) if wish.is_short else chance.randint(2, 6))
    chosen = [(wish.deed, deeds.KINDS[wish.deed]) for _ in chosen] if wish.deed else chosen
    places = sorted(chance.randrange(guest.length) for _ in chosen)
    some = [Deed(at, name, kind, kind.draw(chance)) for at, (name, kind) in zip(places, chosen)]
    return Plan(guest, some, patience, is_relayed, chance.randint(3, 4), sum(it.kind.costs for it in some) + 3)


def chosen_kinds(chance, patience, is_relayed, count):
    """So many kinds of deeds, by their names, of those that a run of this patience allows."""
    some = [it for it in deeds.KINDS.items() if it[1].patience in (None, patience) and it[1].is_relayed <= is_relayed]
    chosen = chance.choices(some, [it[1].weight for it in some], k=count)
    if chance.random() < 0.1:
        chosen[-1] = chance.choice(list(deeds.LAST_KINDS.items()))
    return chosen


def spelled(plan):
    """A run in words."""
    how = f"patience {plan.patience} ms" + ", behind relays" * plan.is_relayed
    some = [f"the guest {plan.guest.name}, {plan.guest.length} bytes, {plan.hosts} hosts and {plan.later} later, {how}"]
    return "\n  ".join(some + [f"at byte {it.at}: {it.name} {' '.join(map(str, it.words))}".rstrip() for it in plan.deeds])


def carried_out(plan, program):
    """What comes of a run. Raises what differs."""
    with folder() as room:
        words = ["--patience", str(plan.patience)]
        with ended_at_last(Seat(program, plan.guest, room, plan.is_relayed, plan.hosts, plan.later, *words)) as seat:
            try:
                grew = go(plan, seat)
            except WrongByte:
                raise
            except Differs:
                if plan.patience == deeds.PATIENT or not seat.is_lost_by_mistake():
                    raise
                return Outcome(len(seat.shown), 0, None, True)
            judge_endings(plan, seat)
            return Outcome(len(seat.shown), len(re.findall(rb"has ended: ", seat.said)), grew, False)


def go(plan, seat):
    """Does all deeds, waits for the last byte and ends all; by how many kB the outside's memory grew."""
    seat.await_whole()
    before = memory_of(seat.outside())
    for it in plan.deeds:
        seat.count_shown(it.at)
        seat.since = len(seat.said)
        it.kind.does(seat, *it.words)
    if seat.run.poll() is not None:
        return None
    seat.count_shown(plan.guest.length)
    grew = growth(before, memory_of(seat.outside()), len(seat.processes()) - plan.hosts)
    seat.end()
    return grew


def judge_endings(plan, seat):
    """No host ends to which nothing was done, but at the end, or if it was suspected by mistake."""
    allowed = [*AT_THE_END, *[LOST] * (plan.patience == deeds.HASTY), *[ORPHANED] * any(it.name in deeds.LAST_KINDS for it in plan.deeds)]
    wrong = {host: why for host, why in seat.endings().items() if not any(it in why for it in allowed)}
    expect(wrong, {}, "the hosts that have ended for no reason")


def memory_of(process):
    """The kB that a process has in memory; none if it checks what it does, as an unproved program: that takes memory, by and by."""
    status = pathlib.Path(f"/proc/{process}/status").read_text()
    size, resident = (int(re.search(rf"{it}:\s+(\d+) kB", status)[1]) for it in ("VmSize", "VmRSS"))
    return resident if size < 1 << 30 else None


def growth(before, after, came):
    """By how many kB the memory grew while so many hosts came; raises if it is more than they need."""
    if before is None or after is None:
        return None
    if after - before > MOST_GROWTH + GROWTH_BY_HOST * came:
        raise Differs(f"the memory of the outside grew from {before} kB to {after} kB")
    return after - before
