"""What `tests/nemesis` does to hosts. Each deed begins when the pair is whole, so that what it may cost is known: nothing but hosts, unless it
takes the last one that has the machine."""
import os
import signal
from collections import namedtuple

from cases import expect

# After how many milliseconds a silent peer is suspected: nobody in a patient run, since a killed host is known to be dead at once.
PATIENT, HASTY = 30_000, 2_000

# A kind of deed: what it does, how its words are drawn, the patience that it needs (none if any will do), whether it needs relays, how many
# hosts it costs, and how often it is chosen.
Kind = namedtuple("Kind", "does draw patience is_relayed costs weight")

# All kinds, by name, and those that may take the last host that has the machine.
KINDS, LAST_KINDS = {}, {}

BOTH = "primary", "backup"
WAYS = {"in": ("in",), "out": ("out",), "both": ("in", "out")}


def deed(draw, patience=None, is_relayed=False, costs=1, weight=1, among=None):
    """Makes a function a kind of deed."""

    def keep(does):
        (KINDS if among is None else among)[does.__name__] = Kind(does, draw, patience, is_relayed, costs, weight)
        return does

    return keep


def host_of(seat, role):
    """The host of a role in a whole pair."""
    primary, backup = seat.await_whole()
    if role in BOTH:
        return {"primary": primary, "backup": backup}[role]
    seat.await_spares()
    return seat.spares()[0]


def hurt(seat, role):
    """The same, which now comes to harm."""
    host = host_of(seat, role)
    seat.hurt.add(host)
    return host


def await_won(seat, host, since):
    """Waits until a host has won a generation, since so much was said."""
    seat.await_that(lambda: b"pair: host %d has won" % host in seat.said[since:], f"that host {host} has won")


def peer_of(role):
    return BOTH[1 - BOTH.index(role)]


# ---- hosts are killed


@deed(lambda chance: [chance.choice(["primary", "primary", "backup", "spare"])], weight=4)
def kill(seat, role):
    seat.kill(hurt(seat, role))


@deed(lambda chance: [chance.choice(BOTH)], costs=2)
def kill_with_a_spare(seat, role):
    hosts = [hurt(seat, "spare"), hurt(seat, role)]
    for it in hosts:
        seat.signal(it, signal.SIGKILL)
    for it in hosts:
        seat.await_ended(it)


@deed(lambda chance: [], costs=2)
def kill_the_backup_and_then_the_next_one_amid_its_copy(seat):
    seat.kill(hurt(seat, "backup"))
    seat.await_that(lambda: seat.having("joining", "backup"), "the next backup")
    host = seat.having("joining", "backup")[-1]
    seat.hurt.add(host)
    seat.kill(host)


@deed(lambda chance: [chance.choice(BOTH)], patience=PATIENT, weight=2)
def kill_while_the_peer_is_stopped(seat, role):
    host, peer = hurt(seat, role), host_of(seat, peer_of(role))
    seat.signal(peer, signal.SIGSTOP)
    seat.await_stopped(peer)
    seat.await_still()
    seat.kill(host)
    seat.signal(peer, signal.SIGCONT)


@deed(lambda chance: [], costs=2, among=LAST_KINDS)
def kill_both(seat):
    for host in [hurt(seat, it) for it in BOTH]:
        seat.signal(host, signal.SIGKILL)
    expect(seat.status(), 6, "the status once nobody has the machine")


@deed(lambda chance: [], costs=3, among=LAST_KINDS)
def kill_the_last_one_amid_its_copy(seat):
    """The next backup may be whole already, and take over."""
    primary = hurt(seat, "primary")
    killed = hurt(seat, "backup")
    seat.kill(killed)
    # A copy may be over before it is seen.
    seat.await_that(lambda: seat.having("joining") or seat.is_whole() and killed not in seat.roles(), "a host that is given a copy")
    seat.hurt.update(seat.having("joining"))
    seat.signal(primary, signal.SIGKILL)
    seat.await_that(lambda: seat.run.poll() is not None or seat.is_whole(), "an end, or a pair that goes on")
    if seat.run.poll() is not None:
        expect(seat.status(), 6, "the status once nobody has the machine")


# ---- hosts are stopped, and go on


@deed(lambda chance: [chance.choice([*BOTH, "spare"]), chance.randint(1, 5)], costs=0)
def pause(seat, role, times):
    host = host_of(seat, role)
    for _ in range(times):
        seat.signal(host, signal.SIGSTOP)
        seat.await_stopped(host)
        seat.hear(0)
        seat.signal(host, signal.SIGCONT)


@deed(lambda chance: [chance.choice([BOTH[:1], BOTH[1:], BOTH])], patience=PATIENT, costs=0)
def stop_until_nothing_appears(seat, roles):
    hosts = [host_of(seat, it) for it in roles]
    for it in hosts:
        seat.signal(it, signal.SIGSTOP)
    seat.await_still()
    for it in hosts:
        seat.signal(it, signal.SIGCONT)


@deed(lambda chance: [chance.choice([0, HASTY * 1.5])], costs=0)
def stop_the_outside(seat, milliseconds):
    """Nobody is suspected meanwhile, however long it is."""
    seat.await_whole()
    os.kill(seat.outside(), signal.SIGSTOP)
    seat.hear_for(milliseconds / 1000)
    seat.await_still()
    os.kill(seat.outside(), signal.SIGCONT)


@deed(lambda chance: [chance.choice(BOTH), chance.randint(0, 100)], patience=HASTY, weight=4)
def stop_until_replaced(seat, role, count):
    host, peer = hurt(seat, role), host_of(seat, peer_of(role))
    since = len(seat.said)
    seat.signal(host, signal.SIGSTOP)
    await_won(seat, peer, since)
    seat.await_shown_since(count)
    seat.signal(host, signal.SIGCONT)
    seat.await_ended(host)


@deed(lambda chance: [], patience=HASTY)
def stop_both_until_each_suspects_the_other(seat):
    hosts, since = [hurt(seat, it) for it in BOTH], len(seat.said)
    for it in hosts:
        seat.signal(it, signal.SIGSTOP)
    seat.hear_for(1.5 * HASTY / 1000)
    for it in hosts:
        seat.signal(it, signal.SIGCONT)
    seat.await_shown_since(1)
    winners = [it for it in hosts if b"pair: host %d has won" % it in seat.said[since:]]
    expect(len(winners) <= 1, True, f"that one of both has won: {winners}")


# ---- streams are delayed, held and cut


@deed(
    lambda chance: [chance.choice([*BOTH, "all"]), chance.choice(list(WAYS)), round(chance.uniform(0.002, 0.1), 3), chance.randint(10, 100)],
    is_relayed=True,
    costs=0,
    weight=2,
)
def delay(seat, role, way, seconds, count):
    hosts = [host_of(seat, it) for it in (BOTH if role == "all" else [role])]
    say_all(seat, hosts, "delay", way, seconds)
    seat.await_shown_since(count)
    say_all(seat, hosts, "delay", way, 0)


def say_all(seat, hosts, word, way, *more):
    """Says something to the relays of some hosts, about these directions."""
    for host in hosts:
        for it in WAYS[way]:
            seat.command(host, word, it, *more)


@deed(
    lambda chance: [chance.choice(["primary", *BOTH, "spare"]), chance.choice(["in", "out", "out"]), chance.randint(0, 2_000)],
    is_relayed=True,
    weight=6,
)
def cut(seat, role, way, count):
    host = hurt(seat, role)
    seat.command(host, "cut", way, count % 200 if role == "spare" else count)
    seat.await_ended(host)


@deed(lambda chance: [chance.choice(BOTH)], is_relayed=True, costs=0)
def hold_what_a_host_hears_until_nothing_appears(seat, role):
    host = host_of(seat, role)
    seat.command(host, "hold", "in")
    seat.await_still()
    seat.command(host, "pass", "in")


@deed(lambda chance: [chance.choice(BOTH), chance.choice(["out", "both"]), chance.randint(0, 100)], patience=HASTY, is_relayed=True, weight=4)
def part_until_replaced(seat, role, way, count):
    host, peer = hurt(seat, role), host_of(seat, peer_of(role))
    since = len(seat.said)
    say_all(seat, [host], "hold", way)
    await_won(seat, peer, since)
    seat.await_shown_since(count)
    say_all(seat, [host], "pass", way)
    seat.await_ended(host)
