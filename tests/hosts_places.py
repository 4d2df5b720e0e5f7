"""Cases of `tests/hosts` whose hosts are at places (--host). The ssh that they meet first on the PATH runs here what it is to run there."""
import contextlib
import itertools
import os
import re
import signal
import time

from cases import expect
from console_sitting import ended_at_last, folder
from hosts_pair import PATIENT, Pair, monitor

# That ssh: it notes when it is asked, for which place, and with which words. A place fails if it has a file of words for that; `mute` never
# answers.
SSH = """\
#!/bin/sh
words=$*
while :; do case $1 in -o) shift 2 ;; -*) shift ;; *) break ;; esac; done
place=$1; shift
echo "$(date +%s.%N) $place $words" >> "{room}/asked"
[ ! -e "{room}/$place" ] || {{ cat "{room}/$place" >&2; exit 255; }}
[ "$place" != mute ] || exec sleep 1000
exec sh -c "$*"
"""
# What ssh says of a place that refuses.
REFUSED = "Warning: the first line\nssh: connect to host beta port 22: \x1b[31mConnection refused\r\n"
IN_PLAIN = rb"pair: no host at beta: Warning: the first line; ssh: connect to host beta port 22: \[31mConnection refused; it is tried again in 1 s\r?\n"

# The cases of the gate, and others.
IN_GATE, BY_HAND = [], []


def in_gate(test):
    IN_GATE.append(test)
    return test


def by_hand(test):
    BY_HAND.append(test)
    return test


class Room:
    """A folder with that ssh, and what it has noted."""

    def __init__(self, path):
        self.path = path
        (path / "ssh").write_text(SSH.format(room=path))
        (path / "ssh").chmod(0o755)

    def fails(self, place, words):
        (self.path / place).write_text(words)

    def works(self, place):
        (self.path / place).unlink()

    def asked(self, place):
        """When a place was asked for, and the words of ssh then."""
        lines = [it.split(" ", 2) for it in (self.path / "asked").read_text().splitlines()]
        return [(float(when), words) for when, at, words in lines if at == place]


@contextlib.contextmanager
def ssh_first():
    """That ssh is first on the PATH."""
    before = os.environ["PATH"]
    with folder() as path:
        os.environ["PATH"] = f"{path}:{before}"
        try:
            yield Room(path)
        finally:
            os.environ["PATH"] = before


def at(*places, program=None):
    """The words for hosts at these places, and the program that is there."""
    return [*itertools.chain(*(("--host", it) for it in places)), "--remote-program", str(program or Pair.program), *PATIENT]


def status_of(pair):
    """What `status` answers."""
    before = len(pair.said)
    pair.say("status")
    pair.await_that(lambda: b"the link loses" in pair.said[before:], "the status")
    pair.hear_for(0.2)
    return pair.said[before:]


@in_gate
def hosts_here_and_elsewhere_are_one_pair():
    with ssh_first() as room, monitor(*at("here", "alpha", "here")) as pair:
        pair.await_spares(2)
        expect(re.findall(rb"host (\d) is process \d+(, ssh to \S+)?\r?\n", pair.said), [(b"0", b""), (b"1", b", ssh to alpha"), (b"2", b"")], "the hosts")
        expect(bool(re.search(rb"host 1 \(process %d, ssh to alpha\): the backup" % pair.process(1), status_of(pair))), True, "that status names the place")
        expect("BatchMode=yes" in room.asked("alpha")[0][1], True, "that nothing may ask")
        pair.dump(20, lambda: pair.kill(0))
        expect(pair.await_whole(), (1, 2), "the pair after that")
        pair.dump(30, lambda: pair.kill(1))
        expect(pair.await_whole()[0], 2, "the primary after that")
        pair.dump()
        pair.end()


@in_gate
def a_place_whose_host_is_killed_has_another_one():
    with ssh_first() as room, monitor(*at("alpha", "beta")) as pair:
        pair.dump(20, lambda: pair.kill(0))
        pair.await_said(rb"host 2 is process \d+, ssh to alpha\r?\n")
        expect(pair.await_whole(), (1, 2), "the pair after that")
        pair.dump(20, lambda: pair.kill(2))
        pair.await_said(rb"host 3 is process \d+, ssh to alpha\r?\n")
        pair.await_whole()
        pair.dump()
        times = [when for when, _ in room.asked("alpha")]
        expect([later - before >= least for before, later, least in zip(times, times[1:], (1, 2))], [True, True], "that a second went by, and then two")
        pair.say("spare")
        pair.await_said(rb"a spare is to come at alpha")
        pair.await_said(rb"host 4 is process \d+, ssh to alpha\r?\n")
        pair.end()


@in_gate
def a_place_that_fails_is_told_of_and_tried_again():
    with ssh_first() as room:
        room.fails("beta", REFUSED)
        with monitor(*at("beta", "here", "alpha")) as pair:
            pair.await_said(IN_PLAIN)
            expect((pair.having("primary"), pair.having("backup")), ([0], [1]), "the hosts that are the pair")
            pair.await_that(lambda: len(room.asked("beta")) >= 3, "the third try")
            times = [when for when, _ in room.asked("beta")]
            expect([times[1] - times[0] >= 1, times[2] - times[1] >= 2], [True, True], "that a second goes by, and then two")
            expect(len(re.findall(rb"pair: no host at beta", pair.said)), 1, "how often it is told that it fails")
            expect(b"\r\nno host at beta: Warning: the first line; ssh: " in status_of(pair), True, "that status says so")
            room.works("beta")
            pair.say("spare")
            pair.await_said(rb"host 2 is process \d+, ssh to beta\r?\n")
            pair.await_spares(2)
            pair.dump(20, lambda: pair.kill(0))
            expect(pair.await_whole(), (1, 2), "the pair after that")
            pair.dump()
            pair.end()


@in_gate
def no_more_hosts_come_than_may():
    with ssh_first(), monitor(*at("here", "alpha", "beta"), "--later", "0") as pair:
        pair.await_spares(2)
        pair.kill(2)
        pair.await_said(rb"no host at beta: there have been as many hosts as there may be\r?\n")
        expect(b"\r\nno host at beta: there have been as many" in status_of(pair), True, "that status says so")
        pair.say("spare")
        pair.await_said(rb"host 3 is process \d+\r?\n")
        pair.dump(20, lambda: pair.kill(0))
        expect(pair.await_whole(), (1, 3), "the pair after that")
        pair.dump()
        pair.end()


@in_gate
def one_place_alone_goes_on_until_there_is_another():
    with ssh_first() as room:
        room.fails("beta", REFUSED)
        words = [it if it != "30000" else "1000" for it in at("beta", "alpha")]
        with ended_at_last(Pair(*words)) as pair:
            pair.await_winner(0)
            pair.await_said(rb"no spare host is left")
            room.works("beta")
            pair.say("spare")
            pair.await_said(rb"host 2 is process \d+, ssh to beta\r?\n")
            pair.await_said(rb"generation 2: host 0 is the primary, host 2 its backup")
            pair.await_shown(b"MONITOR\r\n*")
            pair.dump()
            pair.end()


@in_gate
def a_console_without_any_host_ends():
    with ssh_first() as room:
        for it in ("alpha", "beta"):
            room.fails(it, f"ssh: {it} is off\n")
        with ended_at_last(Pair(*at("alpha", "beta"))) as pair:
            expect(pair.status(), 6, "the status")
            for it in (b"no host at alpha: ssh: alpha is off", b"no host at beta: ssh: beta is off", b"no host could be started"):
                expect(it in pair.said, True, f"that {it} is in {pair.said}")


@in_gate
def a_program_that_is_none_or_of_another_commit_is_no_host():
    with ssh_first() as room:
        other = room.path / "other"
        other.write_text("#!/bin/sh\necho 'pair 0.1.0, commit 0123456789ab, proved'\n")
        other.chmod(0o755)
        for program, why in (("/nowhere/pair", b"/nowhere/pair: not found"), (other, b"its pair is of commit 0123456789ab, and this one of commit ")):
            if program == other and Pair.program.name != "pair":
                continue
            with ended_at_last(Pair(*at("alpha", "beta", program=program))) as pair:
                expect(pair.status(), 6, "the status")
                expect(b"no host at alpha: " in pair.said and why in pair.said, True, f"that {why} is in {pair.said}")


@in_gate
def no_host_elsewhere_is_left_when_the_command_is_killed():
    with ssh_first(), monitor(*at("alpha", "here", "beta")) as pair:
        pair.await_spares(2)
        pair.run.kill()
        pair.nobody_is_left()
    with ssh_first(), monitor(*at("alpha", "here", "beta")) as pair:
        pair.signal(0, signal.SIGSTOP)
        pair.end()


@by_hand
def a_place_that_does_not_answer_holds_up_nobody_for_long():
    with ssh_first():
        began = time.monotonic()
        with monitor(*at("mute", "here", "alpha")) as pair:
            expect(9 < time.monotonic() - began < 20, True, "that it was waited for ten seconds")
            expect((pair.having("primary"), pair.having("backup")), ([0], [1]), "the hosts that are the pair")
            pair.await_said(rb"no host at mute: no answer within 20 seconds")
            pair.dump()
            pair.end()


@in_gate
def wrong_places_are_refused():
    two = ["--host", "here", "--host", "alpha"]
    for words in (["--host", ""], ["--host", "-x"], ["--host", "a b"], ["--host", "here"], [*two, "--hosts", "3"], [*two, "--remote", "1=x"],
                  ["--remote-program", "x"], [*two, "--remote-program", ""], ["--host"], [*two, "--later", "98"]):
        with ended_at_last(Pair(*words)) as pair:
            expect(pair.status(), 2, f"the status of {words}")
            expect(bool(re.search(rb"pair: --(host|remote)", pair.said)), True, f"that {pair.said} names the option")
