"""What tests/schedules notes of a pair from its answers: which node has which role, which messages there are, and how far
the guest and its log are."""

# How many parts an image of a machine with one drive has, and how many more for each further drive.
PARTS = 334
DRIVE_PARTS = 77

# The step from the index of one part to that of the next one sent; it has no divisor in common with a number of parts.
STRIDE = 101

# After an answer that begins like this, nodes may have other roles.
TURNS = ("won", "generation", "whole", "stopped")


class Cast:
    """The nodes of the highest generation by their roles; a node that was overtaken, a spare host, and how many nodes can
    go on."""

    def __init__(self, hosts):
        self.hosts, self.generation, self.winner = hosts, 1, None

    def after(self, event, answer):
        """Notes an answer; returns whether nodes may have other roles now."""
        words = answer.split()
        if words[0] == "won":
            self.winner = event[1]
        elif words[0] == "generation":
            self.generation, self.winner = int(words[1]), None
        return words[0] in TURNS or words[-1] == "alone" or answer == "refused 14"

    def see(self, answers):
        """What each host answers to `node`."""
        self.server = self.backup = self.joining = self.draining = self.stale = self.spare = None
        self.is_alone, self.able = False, 0
        for node, answer in enumerate(answers):
            part, *numbers = answer.split()
            if part == "refused":
                self.spare = node
            elif part != "halted" and (int(numbers[0]) != self.generation or self.winner not in (None, node)):
                self.stale = node
            elif part != "halted":
                self.add(node, part)

    def add(self, node, part):
        """A node of the highest generation, which nobody has overtaken."""
        if part in ("primary", "alone"):
            self.server, self.is_alone = node, part == "alone"
        else:
            setattr(self, part, node)
        self.able += part != "joining"

    def is_last(self, node):
        """Whether no node but this one can go on."""
        return self.able <= 1 and node in (self.server, self.backup, self.draining)

    def follower(self):
        """The node that follows the log."""
        return self.draining if self.backup is None else self.backup

    def near(self, wanted, chance):
        """This node, or seldom another one; none if there is none."""
        number = chance.below(60)
        if wanted is None or number > 3:
            return wanted
        if number == 0:
            return self.any(chance)
        return wanted if self.stale is None else self.stale

    def any(self, chance):
        """Any host, or one too far."""
        return chance.below(self.hosts + 1)


class Mail:
    """The messages of one kind in the order in which they were sent, each with a number: the index of an entry or a part, or
    a port; and how many of them were brought or lost."""

    def __init__(self):
        self.letters, self.numbers, self.next = [], {}, 0

    def add(self, message, number):
        """A message was sent."""
        self.letters.append(message)
        self.numbers[message] = number

    def bring(self, chance, noise):
        """The next message, if there is one. With this many percent of noise it may be any that was sent, and with half as
        many a message is lost before."""
        if chance.happens(noise):
            return self.any(chance)
        self.next += chance.happens(noise / 2)
        if self.next >= len(self.letters):
            self.next = len(self.letters)
            return None
        self.next += 1
        return self.letters[self.next - 1]

    def any(self, chance):
        """Any message that was sent."""
        return chance.any_of(self.letters) if self.letters else None

    def recent(self, chance):
        """A message of the last ones, mostly the last one."""
        number = chance.below(8)
        if number == 0:
            return self.any(chance)
        back = chance.below(4) if number < 3 else 0
        return self.letters[-1 - back] if back < len(self.letters) else None


class Missing:
    """The parts of an image that have not arrived."""

    def __init__(self, drives):
        self.many, self.last = PARTS + DRIVE_PARTS * (drives - 1), 0
        self.begin()

    def begin(self):
        """Another image is sent."""
        self.parts = set(range(self.many))

    def next(self):
        """The part that is sent next."""
        if not self.parts:
            return None
        self.last = (self.last + STRIDE) % self.many
        while self.last not in self.parts:
            self.last = (self.last + STRIDE) % self.many
        return self.last


class Port:
    """How many keys were typed and taken, and how many bytes the guest has sent, the terminal has accepted, and the guest
    was told of."""

    def __init__(self):
        self.typed = self.taken = self.sent = self.accepted = self.heard = 0


class Book:
    """The messages by the events that bring them, and numbers."""

    def __init__(self, drives):
        self.mail = {word: Mail() for word in ("log", "acked", "part", "arrive", "put", "done", "under")}
        self.mail["fetched"] = self.mail["under"]
        self.missing, self.messages = Missing(drives), 0
        # The last one does not exist.
        self.ports = [Port(), Port(), Port()]
        # The log of the node that runs the guest, and how many of its entries were sent, arrived, and were acknowledged.
        self.log, self.posted, self.kept, self.held = [], 0, 0, 0
        # How many writes the guest has given, and of how many it was told that they are done.
        self.given = self.done = 0
        # What had happened when the log began.
        self.before = self.numbers()
        # Whether a node waits for a sector that its primary has read.
        self.waits = False

    def numbers(self):
        """What entries of the log change."""
        return [(port.taken, port.sent, port.heard) for port in self.ports], self.given, self.done

    def note(self, event, answer, cast):
        """Notes an answer that is not a refusal; the cast is as it was before the event."""
        words = answer.split()
        first = words[0]
        if first == "message":
            self.file(event, int(words[1]))
        elif first == "ran":
            if words[4] in ("byte", "write") and event[1] == cast.server:
                self.enter((words[4], *map(int, words[5:])))
        elif first == "taken":
            self.took(event, cast)
        elif first == "held":
            self.held = int(words[1])
        elif first == "moved":
            self.waits = self.waits or words[-1] == "wait"
        elif first == "accepted":
            self.ports[self.mail["arrive"].numbers[event[1]]].accepted += 1
        elif first == "typed":
            self.ports[event[1]].typed += 1
        elif event[0] == "log":
            self.kept += first == "new" and event[2] == cast.backup
        elif event[0] == "part":
            self.missing.parts.discard(self.mail["part"].numbers[event[1]])
        elif first == "generation":
            self.begin_log()
        elif first == "won" and event[1] == cast.backup:
            self.begin_again()

    def file(self, event, message):
        """A message was sent."""
        self.messages = message + 1
        word = event[0]
        if word == "send":
            self.posted = max(self.posted, event[2] + 1)
            self.mail["log"].add(message, event[2])
        elif word == "release":
            self.mail["arrive" if event[2] == "byte" else "put"].add(message, event[3])
        else:
            bringing = {"ack": "acked", "sendpart": "part", "put": "done"}.get(word, "under")
            self.mail[bringing].add(message, event[-1])

    def took(self, event, cast):
        """A node took an input, or the bytes of a sector for which it waited."""
        if event[0] == "fetched":
            self.waits = False
        elif event[1 if event[0] in ("key", "sent") else 2] == cast.server:
            self.enter((event[0], *event[2:]) if event[0] in ("key", "sent") else (event[0],))

    def enter(self, entry):
        """The node that runs the guest has another entry in its log."""
        self.log.append(entry)
        self.count(entry)

    def count(self, entry):
        """What an entry changes."""
        kind, *numbers = entry
        if kind == "key":
            self.ports[numbers[0]].taken = numbers[1] + 1
        elif kind == "sent":
            self.ports[numbers[0]].heard = numbers[1]
        elif kind == "byte":
            self.ports[numbers[0]].sent = numbers[1]
        elif kind == "write":
            self.given = numbers[0]
        elif kind == "done":
            self.done += 1

    def begin_log(self):
        """A pair has begun, and its log is empty."""
        self.log, self.posted, self.kept, self.held = [], 0, 0, 0
        self.before = self.numbers()
        self.missing.begin()

    def begin_again(self):
        """A backup has won, and continues from what it holds."""
        ports, self.given, self.done = self.before
        for port, numbers in zip(self.ports, ports):
            port.taken, port.sent, port.heard = numbers
        del self.log[self.kept:]
        for entry in self.log:
            self.count(entry)
        self.waits = False
