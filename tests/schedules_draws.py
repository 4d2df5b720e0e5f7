"""What comes next in a random schedule of tests/schedules: the phases of a pair's life, and how the names in an event are
drawn: which node, message, entry, operation or sector.

An event is a tuple of its words and numbers. A draw gives none if there is nothing for it; then another one is made."""
from collections import namedtuple

# How many events a copy takes at least.
COPY_EVENTS = 950

# A phase of a pair's life: how many events it has at most, how many of 100 messages or names are not simply the next one,
# and what is drawn in it, with how often.
Phase = namedtuple("Phase", "least most noise draws")


def shares(text):
    """Draws, each as often as the number after it says."""
    words = text.split()
    return [word for word, times in zip(words[::2], words[1::2]) for _ in range(int(times))]


DAY = shares("step 10 type 3 key 5 send 16 log 16 ack 4 acked 6 replay 4 release 9 arrive 10 sent 6 told 1 put 5 done 5 get 6 "
             "under 9 fetch 3 fetched 4 freshen 1 any 1")

# An ordinary day, one on which messages are lost, a takeover, a copy to a spare host, a time at which anything is tried, and
# one at which keys arrive and nothing is acknowledged, until the log is full.
ORDINARY = Phase(40, 140, 4, DAY)
LOSSY = Phase(30, 100, 30, DAY)
TAKEOVER = Phase(20, 50, 20, shares("stop 1 suspect 3 drain 4 fetch 2 fetched 2 step 1 send 1 log 1 key 1 replay 1 release 2 "
                                    "arrive 2 sent 1 put 1 done 1"))
COPY = Phase(COPY_EVENTS, COPY_EVENTS, 2, shares("pair 4 sendpart 30 part 30 step 2 key 2 release 2 arrive 2 sent 2 early 1"))
WILD = Phase(10, 30, 60, shares("any 4 step 1 release 1 arrive 1 log 1"))
FULL = Phase(700, 800, 2, shares("type 6 key 7 step 2 send 1 log 1 get 1 under 1 sent 1"))


class Schedule:
    """The phase and how much of it is left, and how many events the pair still lives: mostly few, sometimes enough for
    copies."""

    def __init__(self, guest, cast, book, chance):
        self.guest, self.cast, self.book, self.chance = guest, cast, book, chance
        self.life = chance.between(1300, 2200) if chance.happens(15) else chance.between(200, 500)
        self.phase, self.left = ORDINARY, chance.between(20, 120)

    def next(self):
        """The next event; none if the pair's life is over."""
        if self.life == 0:
            return None
        self.life -= 1
        self.go_on()
        for _ in range(50):
            event = getattr(self, f"draw_{self.chance.any_of(self.phase.draws)}")()
            if event is not None:
                return event
        return self.draw_type()

    def go_on(self):
        """The phase continues, or another one begins."""
        self.left -= 1
        is_over = self.phase is TAKEOVER and self.cast.is_alone
        is_over |= self.phase is COPY and not self.cast.is_alone and self.cast.joining is None
        if is_over or self.left <= 0:
            self.phase = self.another()
            self.left = self.chance.between(self.phase.least, self.phase.most)

    def another(self):
        """The phase that comes next. A pair that can no longer be copied does not live for long."""
        cast = self.cast
        if cast.draining is not None:
            return TAKEOVER
        if cast.joining is not None and self.chance.happens(80):
            return COPY
        if cast.backup is not None and self.life > FULL.most and self.chance.happens(10):
            return FULL
        may_copy = cast.spare is not None and self.life > COPY_EVENTS
        if cast.is_alone and may_copy and self.chance.happens(75):
            return COPY
        if cast.is_alone and not may_copy:
            self.life = min(self.life, 150)
        phases = [ORDINARY] * 4 + [LOSSY] * 3 + [WILD] + [ORDINARY if cast.backup is None else TAKEOVER] * 4
        return self.chance.any_of(phases)

    def is_noise(self, part=1.0):
        """Whether a name is not simply the next one, or how often that is in part."""
        return self.chance.happens(self.phase.noise * part)

    # Nodes and their machines.

    def of_node(self, word, node, *rest):
        """An event of this node, or seldom of another one; none if there is no such node."""
        node = self.cast.near(node, self.chance)
        return None if node is None or None in rest else (word, node, *rest)

    def turns(self, most):
        """At most this many turns: seldom none, or all of them."""
        number = self.chance.below(10)
        if number == 0:
            return self.chance.below(4)
        return most if number < 4 else self.chance.between(1, most)

    def draw_step(self):
        return self.of_node("step", self.cast.server, self.turns(self.guest.turns))

    def draw_replay(self):
        return self.of_node("replay", self.cast.backup, self.turns(2 * self.guest.turns))

    def draw_drain(self):
        return self.of_node("drain", self.cast.draining, self.turns(4 * self.guest.turns))

    def draw_type(self):
        return "type", self.chance.port(), f"{0x41 + self.chance.below(26):02X}"

    def draw_key(self):
        """A node takes a key: mostly the next one of a port."""
        port = self.chance.port()
        notes = self.book.ports[port]
        if self.is_noise():
            return self.of_node("key", self.cast.server, port, self.chance.below(notes.typed + 2))
        return self.of_node("key", self.cast.server, port, notes.taken) if notes.taken < notes.typed else None

    def draw_told(self):
        return self.of_node("told", self.cast.server, self.chance.port())

    # The log.

    def draw_send(self):
        """A primary sends an entry: mostly the next one, or again those that were not acknowledged."""
        if self.cast.backup is None:
            return None
        book, logged = self.book, len(self.book.log)
        if book.posted >= logged > book.held and self.chance.happens(25):
            book.posted = book.held
        book.posted += self.is_noise(0.5)
        if self.is_noise():
            return self.of_node("send", self.cast.server, self.chance.below(logged + 2))
        return self.of_node("send", self.cast.server, book.posted) if book.posted < logged else None

    def draw_ack(self):
        return self.of_node("ack", self.cast.backup)

    # Operations and inputs.

    def draw_release(self):
        """A node sends an operation to its device: mostly one that is outstanding."""
        book, chance = self.book, self.chance
        if book.done < book.given and chance.happens(60):
            return self.of_node("release", self.cast.server, "write", chance.between(book.done + 1, book.given))
        if self.is_noise(0.25):
            return self.of_node("release", self.cast.server, "write", chance.below(book.given + 2))
        port = chance.port()
        notes = book.ports[port]
        if self.is_noise():
            return self.of_node("release", self.cast.server, "byte", port, chance.below(notes.sent + 2))
        if notes.accepted >= notes.sent:
            return None
        number = chance.between(notes.accepted + 1, min(notes.sent, notes.accepted + 3))
        return self.of_node("release", self.cast.server, "byte", port, number)

    def draw_sent(self):
        """A node is told that a byte was accepted: mostly the oldest of which it was not told."""
        port = self.chance.port()
        notes = self.book.ports[port]
        if self.is_noise():
            return self.of_node("sent", self.cast.server, port, self.chance.below(notes.accepted + 2))
        return self.of_node("sent", self.cast.server, port, notes.heard + 1) if notes.heard < notes.accepted else None

    def draw_get(self):
        """The disk reads a sector for a node, mostly if the guest uses it, and mostly one of the first three."""
        if not self.guest.has_disk and not self.is_noise(0.25):
            return None
        return self.of_node("get", self.cast.server, self.chance.below(34 if self.is_noise(0.5) else 3))

    def draw_fetch(self):
        """A node that waits for a sector asks for it."""
        return self.of_node("fetch", self.cast.follower()) if self.book.waits or self.is_noise(0.25) else None

    # Messages that arrive.

    def comes(self, word, *nodes):
        """A message arrives: at a node, if it is not for a device; none if there is no such node."""
        if None in nodes:
            return None
        message = self.book.mail[word].bring(self.chance, self.phase.noise)
        return None if message is None else (word, message, *(self.cast.near(node, self.chance) for node in nodes))

    def draw_log(self):
        return self.comes("log", self.cast.backup)

    def draw_acked(self):
        return self.comes("acked", self.cast.server)

    def draw_arrive(self):
        return self.comes("arrive")

    def draw_put(self):
        return self.comes("put")

    def draw_done(self):
        return self.comes("done", self.cast.server)

    def draw_part(self):
        return self.comes("part", self.cast.joining)

    def sector_comes(self, word, node):
        """A sector that was read, mostly the last one, arrives at a node."""
        message = self.book.mail[word].recent(self.chance)
        node = self.cast.near(node, self.chance)
        return None if message is None or node is None else (word, message, node)

    def draw_under(self):
        return self.sector_comes("under", self.cast.server)

    def draw_fetched(self):
        return self.sector_comes("fetched", self.cast.follower()) if self.book.waits or self.is_noise(0.25) else None

    # Takeovers and copies.

    def draw_suspect(self):
        """A node asks the arbiter."""
        node = self.chance.any_of([self.cast.stale, self.cast.server, self.cast.follower(), self.cast.follower()])
        return None if node is None else ("suspect", node)

    def draw_early(self):
        """A node that joins asks the arbiter, though it is not whole."""
        return None if self.cast.joining is None else ("suspect", self.cast.joining)

    def draw_stop(self):
        """A node stops, mostly the one that runs the guest: never the last one that can go on."""
        cast = self.cast
        node = self.chance.any_of([cast.any(self.chance), cast.backup, cast.server, cast.server])
        return None if node is None or cast.is_last(node) else ("stop", node)

    def draw_pair(self):
        """A node that is alone begins a new pair."""
        host = self.cast.near(self.cast.spare, self.chance)
        return self.of_node("pair", self.cast.server, host) if self.cast.is_alone else None

    def draw_freshen(self):
        """A node that is alone copies pages early."""
        return self.of_node("freshen", self.cast.server, self.chance.below(80)) if self.cast.is_alone else None

    def draw_sendpart(self):
        """A primary sends a part of its image: one that has not arrived."""
        if self.cast.joining is None:
            return None
        return self.of_node("sendpart", self.cast.server, self.chance.below(500) if self.is_noise() else self.book.missing.next())

    # Anything.

    def draw_any(self):
        """An event of any kind with all sorts of names, which is mostly refused."""
        return self.chance.any_of([self.any_delivery, self.any_of_node, self.any_seldom])()

    def any_delivery(self):
        """A message arrives somewhere."""
        message, node = self.chance.below(self.book.messages + 1), self.cast.any(self.chance)
        word = self.chance.any_of(["log", "acked", "arrive", "put", "done", "under", "fetched", "part"])
        return (word, message) if word in ("arrive", "put") else (word, message, node)

    def any_of_node(self):
        """A node does something."""
        chance, book, node = self.chance, self.book, self.cast.any(self.chance)
        port, turns, index = chance.port(), chance.below(50), chance.below(len(book.log) + 2)
        operation = ("byte", port, chance.below(book.ports[port].sent + 2))
        if chance.happens(40):
            operation = ("write", chance.below(book.given + 2))
        words = [("step", node, turns), ("send", node, index), ("ack", node), ("replay", node, turns), ("drain", node, turns),
                 ("key", node, port, index), ("told", node, port), ("release", node, *operation), ("get", node, chance.below(33)),
                 ("sent", node, port, index)]
        return chance.any_of(words)

    def any_seldom(self):
        """What happens seldom."""
        chance, node = self.chance, self.cast.any(self.chance)
        number = chance.below(24)
        if number < 8:
            return [self.draw_suspect, self.draw_stop, lambda: ("suspect", node), *[self.draw_type] * 5][number]()
        words = [("pair", node, self.cast.any(chance)), ("sendpart", node, chance.below(500)),
                 ("freshen", node, chance.below(300)), ("fetch", node)]
        return chance.any_of(words)
