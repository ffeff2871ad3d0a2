#!/usr/bin/env python3
"""Runs one writer and eight readers of a store concurrently, for some minutes.

    gate/soak.py MINUTES [SEED]

bin/tq_tests_concurrency runs rounds of bounded length one after another, each with a seed of its own. At the end the script
prints the numbers of queries, publishes and differences. The exit status is 1 if there are differences, or if a round does not
end or prints no numbers.
"""

import re
import subprocess
import sys
import time
from pathlib import Path

ROOT = Path(__file__).resolve().parent.parent
TESTS = "tq_tests_concurrency"
# In each round, the number of random events, and the number of queries of each reader.
EVENTS, ASKS = 4000, 200
# The seconds after which a round has failed, and those between two lines of progress.
SECONDS, INTERVAL = 600, 60
NUMBERS = re.compile(rb"\+ (\d+) asks, (\d+) publishes, (\d+) differences\n")


def table():
    """The block that makes the table, from the script of the rounds in the full check."""
    script = (ROOT / "crates" / TESTS / "stdin").read_bytes()
    start = script.index(b"table emp\n", script.index(b"# Staff: the events are"))
    return script[start : script.index(b"\n\n", start) + 2]


def hold(made, seed):
    """Runs the round with this seed. Returns its numbers of queries, publishes and differences."""
    stdin = made + f"soak {seed} {EVENTS} {ASKS}\n".encode()  # no output is expected, so all of it is shown
    how = {"stdout": subprocess.PIPE, "stderr": subprocess.DEVNULL, "timeout": SECONDS}
    ran = subprocess.run([ROOT / "bin" / TESTS], input=stdin, **how)
    found = NUMBERS.search(ran.stdout)
    if ran.returncode != 0 or not found:
        sys.exit(f"the round of seed {seed} ended with status {ran.returncode}: {ran.stdout[-200:]!r}")
    return [int(number) for number in found.groups()]


def main():
    minutes = float(sys.argv[1])
    seed = int(sys.argv[2]) if len(sys.argv) > 2 else 1
    made = table()
    begun = printed = time.monotonic()
    rounds, sums = 0, [0, 0, 0]
    while rounds == 0 or time.monotonic() - begun < 60 * minutes:
        numbers = hold(made, seed + rounds)
        if numbers[2]:
            print(f"the round of seed {seed + rounds} has {numbers[2]} differences", flush=True)
        sums = [old + new for old, new in zip(sums, numbers)]
        rounds += 1
        if time.monotonic() - printed > INTERVAL:
            printed = time.monotonic()
            print(f"after {(printed - begun) / 60:.0f} minutes: {sums[0]} queries, {sums[1]} publishes", flush=True)
    asks, publishes, differences = sums
    print(f"{rounds} rounds in {(time.monotonic() - begun) / 60:.1f} minutes")
    print(f"{asks} queries, {publishes} publishes, {differences} differences")
    return 1 if differences else 0


if __name__ == "__main__":
    sys.exit(main())
