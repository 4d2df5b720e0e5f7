#!/usr/bin/env python3
"""A link between two network devices of this machine, which are made here (TAP): it delays, loses and bounds what goes over it.

usage: tests/elsewhere_link.py ONE OTHER      makes devices of these names, says `ready`, and passes frames on until its input ends

Each line of its input says how the link is from then on: `delay MS loss PERCENT rate BITS`, with 0 for none, or `cut`.
"""
import fcntl
import heapq
import itertools
import os
import random
import select
import struct
import sys
import time

TUNSETIFF, IFF_TAP, IFF_NO_PI = 0x400454CA, 0x0002, 0x1000
MOST = 65536
# For how many seconds frames may wait for their turn on a slow link until some are lost, as in a modem's queue.
QUEUE = 0.5


def device(name):
    """A new device's frames."""
    found = os.open("/dev/net/tun", os.O_RDWR | os.O_NONBLOCK)
    fcntl.ioctl(found, TUNSETIFF, struct.pack("16sH", name.encode(), IFF_TAP | IFF_NO_PI))
    return found


class Link:
    """Frames on their way, each with the time at which it comes to a device."""

    def __init__(self, ends):
        self.to = {ends[0]: ends[1], ends[1]: ends[0]}
        self.delay, self.loss, self.rate, self.is_cut = 0.0, 0.0, 0, False
        self.free, self.waiting, self.order, self.chance = dict.fromkeys(ends, 0.0), [], itertools.count(), random.Random(1)

    def be(self, line):
        """The link is so from now on."""
        words = line.split()
        self.is_cut = words == ["cut"]
        if not self.is_cut:
            found = dict(zip(words[::2], map(float, words[1::2])))
            self.delay, self.loss, self.rate = found["delay"] / 1000, found["loss"] / 100, found["rate"]

    def take(self, source, frame):
        """A frame has come from a device."""
        now = time.monotonic()
        if self.is_cut or self.chance.random() < self.loss:
            return
        if self.rate:
            begins = max(now, self.free[source])
            if begins - now > QUEUE:
                return
            now = self.free[source] = begins + 8 * len(frame) / self.rate
        heapq.heappush(self.waiting, (now + self.delay, next(self.order), self.to[source], frame))

    def give(self):
        """Gives the devices what is due; returns for how long nothing more is."""
        while self.waiting and self.waiting[0][0] <= time.monotonic():
            _, _, to, frame = heapq.heappop(self.waiting)
            try:
                os.write(to, frame)
            except OSError:
                # The device is down, or takes no more.
                pass
        return max(0.0, self.waiting[0][0] - time.monotonic()) if self.waiting else None


def main(names):
    ends = [device(it) for it in names]
    link = Link(ends)
    print("ready", flush=True)
    while True:
        for source in select.select([0, *ends], [], [], link.give())[0]:
            if source == 0:
                line = sys.stdin.readline()
                if not line:
                    return
                link.be(line)
                print("is so", flush=True)
                continue
            try:
                link.take(source, os.read(source, MOST))
            except OSError:
                # Nothing was there, or the device is down.
                time.sleep(0.001)


if __name__ == "__main__":
    if len(sys.argv) != 3 or sys.argv[1] in ("-h", "--help"):
        print(__doc__.strip())
        sys.exit(0 if sys.argv[1:] in (["-h"], ["--help"]) else 2)
    main(sys.argv[1:])
