#!/usr/bin/env python3
"""Copies standard input, with the minutes since the start before each line.

    COMMAND | gate/stamp.py PROCESS BEGIN

BEGIN is the start, in seconds since 1970. The script watches the descendants of PROCESS. At the end it prints for each crate
the processor minutes that `rattle` took:

    [  47.0] processor: tq_base 6.1 proof, 5.0 tests, 3.2 edits

It reads the processes from /proc once a second. gate/times.py makes a table of the output.
"""

import os
import re
import sys
import threading
import time
from collections import defaultdict
from pathlib import Path

TICKS = os.sysconf("SC_CLK_TCK")
KINDS = ("proof", "tests", "edits")


def read(path):
    """The bytes of a file of a process; none if the process has ended."""
    try:
        return Path(path).read_bytes()
    except OSError:
        return b""


def processes():
    """Each process with its parent, its start time, and the ticks that it and the children that it waited for took."""
    found = {}
    for name in filter(str.isdigit, os.listdir("/proc")):
        fields = read(f"/proc/{name}/stat").rpartition(b")")[2].split()
        if len(fields) > 19:
            found[int(name)] = int(fields[1]), fields[19], sum(map(int, fields[11:15]))
    return found


def check_of(number):
    """The crate that a process of `rattle` checks, and the kind of check; None for other processes."""
    words = read(f"/proc/{number}/cmdline").split(b"\0")
    if b"--crate-name" not in words[:-1] or not words[0].endswith(b"/rattle"):
        return None
    crate = words[words.index(b"--crate-name") + 1].decode()
    try:
        is_edit = "/rt-edit" in os.readlink(f"/proc/{number}/cwd")
    except OSError:
        return None
    return crate, "edits" if is_edit else "tests" if b"--test" in words else "proof"


class Watch:
    """The processor time of the descendants of a process, for each check of a crate."""

    def __init__(self, top):
        self.top, self.ticks, self.known = top, {}, {}
        self.is_over = threading.Event()
        self.thread = threading.Thread(target=self.run, daemon=True)
        self.thread.start()

    def run(self):
        while not self.is_over.wait(1):
            self.look()

    def look(self):
        found, below = processes(), defaultdict(list)
        for number, (parent, _, _) in found.items():
            below[parent].append(number)
        left = [(number, None) for number in below[self.top]]
        sums = defaultdict(int)
        while left:
            number, check = left.pop()
            _, start, ticks = found[number]
            if check is None:
                # A process may become `rattle` later, so it is examined until it is one.
                key = number, start
                self.known[key] = what = self.known.get(key) or check_of(number)
                check = what and (*key, *what)
            if check:
                sums[check] += ticks
            left += [(child, check) for child in below[number]]
        for check, ticks in sums.items():
            self.ticks[check] = max(ticks, self.ticks.get(check, 0))

    def minutes(self):
        """The processor minutes of each crate, by kind."""
        self.is_over.set()
        self.thread.join()
        crates = defaultdict(lambda: dict.fromkeys(KINDS, 0.0))
        for (_, _, crate, kind), ticks in self.ticks.items():
            crates[crate][kind] += ticks / TICKS / 60
        return crates


def main():
    watch, begin = Watch(int(sys.argv[1])), float(sys.argv[2])

    def say(line):
        print(f"[{(time.time() - begin) / 60:6.1f}] {line}", flush=True)

    for line in sys.stdin.buffer:
        say(line.decode(errors="replace").rstrip("\n"))
    for crate, kinds in watch.minutes().items():
        say(f"processor: {crate} " + ", ".join(f"{kinds[kind]:.1f} {kind}" for kind in KINDS))


if __name__ == "__main__":
    main()
