"""Where what a program writes goes: standard output, or another file."""

import errno
import os
import select

# How many bytes are written at once: a pipe that takes any takes so many.
MOST_AT_ONCE = 4096


class Output:
    """A file that is written to. If it is a terminal that has hung up, what comes is dropped."""

    def __init__(self, to):
        self.to, self.has_hung_up = to, False

    def write(self, some):
        try:
            while some and not self.has_hung_up:
                # Whoever shares the output may have set it not to wait.
                select.select([], [self.to], [])
                some = some[os.write(self.to, some[:MOST_AT_ONCE]) :]
        except OSError as error:
            if error.errno != errno.EIO:
                raise
            self.has_hung_up = True
