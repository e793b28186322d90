"""When the bench's own machine stood still: a process a processor that is to wake each 10 ms, at a priority above all else here.

Where even that wakes late, as in a virtual machine that is given no processor, the kernel's times of frames are late too. A time that
is judged is given that much more room there, and no more."""

import bisect
import contextlib
import os
import select
import subprocess
import sys
import time

# How often it is looked, s; from what on it is a stall, ns; the priority.
OFTEN, LEAST, PRIORITY = 0.01, 20_000_000, 30
NS_A_MS = 10**6
# A stall counts for what is so close to it, ns.
MARGIN = 20 * NS_A_MS


def watch(processor):
    """Says each stall of a processor, in ns of CLOCK_MONOTONIC, until standard input ends."""
    os.sched_setaffinity(0, {processor})
    os.sched_setscheduler(0, os.SCHED_FIFO, os.sched_param(PRIORITY))
    last = time.monotonic_ns()
    while not select.select([sys.stdin], [], [], OFTEN)[0]:
        now = time.monotonic_ns()
        if now - last > LEAST:
            print(last, now, flush=True)
        last = now


class Watch:
    """The processes that watch, one for each processor."""

    def __init__(self):
        self.running = [subprocess.Popen([sys.executable, "-I", __file__, str(each)], stdin=subprocess.PIPE, stdout=subprocess.PIPE)
                        for each in sorted(os.sched_getaffinity(0))]

    def end(self):
        """The stalls that were seen, by their times."""
        said = b""
        for each in self.running:
            with contextlib.suppress(OSError):
                each.stdin.close()
            said += each.stdout.read()
            each.stdout.close()
            each.wait()
        return sorted(tuple(map(int, line.split())) for line in said.splitlines())


class Stalls:
    """Stalls of a record, ns; those of two processors that overlap are one."""

    def __init__(self, spans=()):
        self.spans = []
        for first, last in sorted(spans):
            if self.spans and first <= self.spans[-1][1]:
                self.spans[-1] = self.spans[-1][0], max(last, self.spans[-1][1])
            else:
                self.spans.append((first, last))

    def held(self, first, last):
        """How long it stood still between two times or close to them, ns."""
        place = bisect.bisect_left(self.spans, (first - MARGIN, 0))
        near = self.spans[max(place - 1, 0):]
        return sum(end - start for start, end in near if end >= first - MARGIN and start <= last + MARGIN)

    def since(self, zero):
        return Stalls((first - zero, last - zero) for first, last in self.spans)


if __name__ == "__main__":
    watch(int(sys.argv[1]))
