"""Cases of `tests/hosts` about copies that cross slowly: a host that is alone goes on meanwhile, and a host that was left joins later anew."""
import pathlib
import socket
import time

from cases import expect
from console_sitting import folder
from hosts_pair import HASTY, LETTERS, PATIENT, Pair, dump, guest, letters, monitor, remote

RELAY = pathlib.Path(__file__).with_name("nemesis_relay.py")

# The cases of the gate, and others.
IN_GATE, BY_HAND = [], []


def in_gate(test):
    IN_GATE.append(test)
    return test


def by_hand(test):
    BY_HAND.append(test)
    return test


class Relayed:
    """A host that runs behind a relay, which takes commands."""

    def __init__(self, room, host):
        self.socket = str(room / str(host))
        self.words = remote(host, RELAY, self.socket, Pair.program)

    def do(self, *words):
        with socket.socket(socket.AF_UNIX, socket.SOCK_DGRAM) as control:
            control.sendto(" ".join(map(str, words)).encode(), self.socket)


@in_gate
def keys_are_echoed_while_a_copy_crosses_slowly():
    # Sixty-four parts are on their way at most, so both times that 334 parts go early take six round trips at least.
    with folder() as room:
        spare = Relayed(room, 2)
        with monitor(*PATIENT, *spare.words, "--hosts", "3", "--later", "0") as pair:
            pair.await_spares(2)
            spare.do("delay", "in", 0.2)
            pair.kill(0)
            pair.await_said(rb"copying the machine to host 2\r?\n")
            began, before = time.monotonic(), len(pair.shown)
            pair.type(b"D")
            pair.count_shown(before + 1)
            echoed = time.monotonic() - began
            expect((pair.having("alone"), pair.having("joining")), ([1], [2]), "who is alone, and who is given a copy, when a key is echoed")
            pair.type_slowly(b" 0000")
            pair.await_that(lambda: pair.shown.endswith(b"\r\n*"), "the end of a dump")
            expect(pair.shown[before:], b"D 0000\r\n" + dump() + b"*", "the dump")
            expect(pair.await_whole(), (1, 2), "the pair after that")
            copied = time.monotonic() - began
            expect(copied > echoed + 1, True, f"that a key was echoed after {echoed:.2f} s, long before its copy was there, after {copied:.2f} s")
            spare.do("delay", "in", 0)
            pair.dump()
            pair.kill(1)
            pair.await_winner(2)
            pair.dump()
            pair.end()


@in_gate
def letters_are_printed_while_a_copy_crosses_slowly():
    with folder() as room:
        spare = Relayed(room, 2)
        with guest(LETTERS, *PATIENT, *spare.words, "--hosts", "3", "--later", "0") as pair:
            pair.await_whole()
            pair.await_spares(2)
            spare.do("delay", "in", 0.2)
            pair.kill(0)
            pair.await_said(rb"copying the machine to host 2\r?\n")
            pair.count_shown(len(pair.shown) + 20)
            expect(pair.having("joining"), [2], "who is given a copy when twenty letters more have appeared")
            expect(pair.await_whole(), (1, 2), "the pair after that")
            spare.do("delay", "in", 0)
            pair.count_shown(len(pair.shown) + 200)
            pair.end()
            expect(pair.shown, letters(len(pair.shown)), "the letters")


@in_gate
def a_host_that_was_left_as_it_joined_makes_way_for_a_later_backup():
    # Nothing comes to host 2, so its primary begins a generation with it, suspects it, and goes on without it. When it hears of that
    # generation nobody sends it the rest.
    with folder() as room:
        left = Relayed(room, 2)
        with monitor(*HASTY, *left.words, "--hosts", "3", "--later", "2") as pair:
            pair.await_spares(2)
            left.do("hold", "in")
            pair.kill(0)
            pair.await_spares(3)
            pair.await_that(lambda: pair.having("backup") == [3], "the backup that has its copy")
            began = time.monotonic()
            left.do("pass", "in")
            pair.await_said(rb"host 2 has ended: the host that sent it the machine is gone\r?\n")
            pair.await_spares(4)
            took = time.monotonic() - began
            expect(took < 30, True, f"that its place has a spare soon, after {took:.1f} s")
            pair.dump(20, lambda: pair.kill(1))
            expect(pair.await_whole(), (3, 4), "the pair after that")
            pair.dump()
            pair.end()


@in_gate
def nobody_is_left_if_a_host_dies_as_it_copies():
    with folder() as room:
        spare = Relayed(room, 2)
        with monitor(*PATIENT, *spare.words, "--hosts", "3", "--later", "0") as pair:
            pair.await_spares(2)
            spare.do("delay", "in", 0.2)
            pair.kill(0)
            pair.await_said(rb"copying the machine to host 2\r?\n")
            pair.hear_for(0.5)
            pair.kill(1)
            expect(pair.status(), 6, "the status")
            pair.nobody_is_left()
