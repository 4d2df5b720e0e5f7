"""Random choices, and how a random pair of tests/schedules boots: its guest, its setup, and when it is compared."""
import random
from collections import namedtuple

# How many sectors a drive has: a comparison of a pair reads each of them.
DRIVE_SECTORS = 77 * 32

# A guest: its bytes from address 0, how many steps a step event may make, and whether it uses its disk.
Guest = namedtuple("Guest", "bytes turns has_disk")

# Prints a letter again and again, capital at port 0 and small at port 1: which one depends on how often it has polled
# port 0, and so on the counts at which its bytes are accepted.
#   0000 MVI A,15  OUT 10
#   0004 INR C  IN 10  ANI 02  JZ 0004
#   000C MOV A,C  ANI 1F  ORI 40  OUT 11
#   0013 XRI 20  OUT 13  JMP 0004
PRINTS = Guest(bytes.fromhex("3E15D310 0CDB10E602CA0400 79E61FF640D311 EE20D313C30400"), 60, False)

# Halts, and echoes each key of both ports by an interrupt: RST 7 is port 0, RST 6 port 1.
#   0000 LXI SP,0100  MVI A,95  OUT 10  OUT 12
#   0009 EI  HLT  JMP 0009
#   0030 IN 13  OUT 13  RET
#   0038 IN 11  OUT 11  RET
ECHOES = Guest(bytes.fromhex("3100013E95D310D312 FB76C30900" + "00" * 34 + "DB13D313C9 000000 DB11D311C9"), 60, False)

# Counts, and answers each key of both ports by an interrupt, with the key and with how far it has counted.
#   0000 LXI SP,0100  MVI A,95  OUT 10  OUT 12
#   0009 EI  INX H  JMP 0009
#   0030 IN 13  OUT 13  MOV A,L  OUT 13  RET
#   0038 IN 11  OUT 11  MOV A,L  OUT 11  RET
COUNTS = Guest(bytes.fromhex("3100013E95D310D312 FB23C30900" + "00" * 34 + "DB13D3137DD313C9 DB11D3117DD311C9"), 60, False)

# Waits for a sector of drive 0, or of drives 0 and 1 in turns if the sense switches have 01; reads its first 16 bytes,
# adds to each how many sectors there were before, prints the last one, and writes the sector with what it has read.
#   0000 MVI A,15  OUT 10
#   0004 IN FF  ANA E  OUT 08  MVI A,04  OUT 09
#   000D IN 09  RRC  JC 000D
#   0013 LXI H,0100  MVI B,10
#   0018 IN 0A  ADD E  MOV M,A  INX H  DCR B  JNZ 0018
#   0021 OUT 11  MVI A,80  OUT 09
#   0027 LXI H,0100  MVI B,89
#   002C MOV A,M  OUT 0A  INX H  DCR B  JNZ 002C
#   0034 INR E  JMP 0004
REWRITES = Guest(bytes.fromhex("3E15D310 DBFFA3D3083E04D309 DB090FDA0D00 2100010610 DB0A83772305C21800 D3113E80D309"
                               "2100010689 7ED30A2305C22C00 1CC30400"), 900, True)

# Of these one is drawn.
GUESTS = [PRINTS, PRINTS, ECHOES, COUNTS, REWRITES, REWRITES, REWRITES]


class Chance:
    """Random choices, the same ones for the same seed with any Python."""

    def __init__(self, seed):
        self.random = random.Random(seed).random

    def below(self, limit):
        """A number below a limit; 0 if the limit is 0."""
        return int(self.random() * limit)

    def between(self, first, last):
        """A number from the first to the last one."""
        return first + self.below(last - first + 1)

    def happens(self, percent):
        """Whether this happens, as it does in this many of 100 cases."""
        return self.random() * 100 < percent

    def any_of(self, choices):
        """One of these."""
        return choices[self.below(len(choices))]

    def port(self):
        """A port, seldom one that does not exist."""
        number = self.below(80)
        return 2 if number == 0 else number % 2


class Opening:
    """How a random pair boots. If its disk fails, it must fail in an event, and not in a comparison, which reads the
    whole disk: none is made after `pause` comparisons, until the disk has failed or there were `patience` events."""

    def __init__(self, chance):
        self.guest = chance.any_of(GUESTS)
        self.drives = chance.any_of([2, 1, 1, 1])
        self.hosts = chance.between(3, 5)
        self.pause = self.patience = 0
        self.lines = ["mem 0000 " + self.guest.bytes.hex(" ").upper(), "levels 7 6 5", f"drives {self.drives}"]
        # The sense switches say whether there is a second drive.
        self.lines += [f"sense {self.drives - 1:02X}", f"hosts {self.hosts}"]
        self.lines += ["reads shared"] * chance.happens(50)
        self.lines += [f"sector 0 0 {sector} {chance.below(256):02X}" for sector in range(3)]
        if self.guest.has_disk and chance.happens(50):
            self.pause, self.patience = chance.below(20), 150
            access = chance.between(1, 8) + self.pause // 2
            self.lines.append(f"fail {self.pause * self.drives * DRIVE_SECTORS + access}")
