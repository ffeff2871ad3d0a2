"""Measures readers next to a writer: python3 bench/snapshot.py

    --rows N          how many rows the store holds (1000000)
    --questions Q     how many queries each of four readers runs, on a thread of its own: 250 neighbouring keys at one
                      instant, as of some count of events; each is parsed, planned and executed (5000)
    --rate R          how many lines a second the writer takes meanwhile, each the start or the end of a row, published by
                      the thousand (50000)

crates/bench_snapshot fills a store. Its readers run queries while the writer rests, while it keeps to the rate, and while
it writes as fast as it can. They must find the same rows each time. The fastest of three runs counts. The script prints the
queries a second, compared with those next to a resting writer. It also prints the peak memory of the store, compared with
that of one `Db` of the same rows. Readers and writer are five threads, so on four processors a writer that never rests takes
a fifth from the readers.
"""

import argparse
import os
import sys
import tempfile

from measuring import TRIES, build, held_in_one, run

READERS = 4


def read_options():
    parser = argparse.ArgumentParser()
    parser.add_argument("--rows", type=int, default=1_000_000)
    parser.add_argument("--questions", type=int, default=5_000)
    parser.add_argument("--rate", type=int, default=50_000)
    return parser.parse_args()


def measure(program, words, output):
    """Runs a command TRIES times. Returns the numbers that the fastest run printed, by name, and the maximum peak memory."""
    least, greatest = None, 0
    for _ in range(TRIES):
        _, peak = run([program, *map(str, words)], output)
        with open(output, encoding="ascii") as lines:
            numbers = {name: int(number) for name, _, number in (line.strip().rpartition(" ") for line in lines)}
        greatest = max(greatest, peak)
        if least is None or numbers.get("microseconds", 0) < least.get("microseconds", 0):
            least = numbers
    return least, greatest


def main():
    options = read_options()
    program = build("bench_snapshot")
    asks = READERS * options.questions
    with tempfile.TemporaryDirectory(prefix="tq-") as room:
        output = os.path.join(room, "output")
        _, held = measure(program, ["store", options.rows], output)
        rest, _ = measure(program, ["rest", options.rows, options.questions], output)
        ways = {
            f"a writer of {options.rate} lines a second": measure(program, ["write", options.rows, options.questions, options.rate], output),
            "a writer without a limit": measure(program, ["write", options.rows, options.questions, 0], output),
        }
    one = held_in_one(options.rows)
    print(f"{options.rows} rows: peak memory of a store compared with one Db {held / one:.2f} (target: at most 2.3)")
    print(f"{READERS} readers while the writer rests: {asks * 1e6 / rest['microseconds']:.0f} queries a second")
    for name, (numbers, peak) in ways.items():
        if numbers["answers"] != asks or any(numbers[what] != rest[what] for what in ["answers", "rows found"]):
            sys.exit(f"readers find other rows next to a writer: {numbers}, not {rest}")
        seconds = numbers["microseconds"] / 1e6
        ratio = rest["microseconds"] / numbers["microseconds"]
        written = numbers["lines written"] / seconds
        print(f"  next to {name} ({written:.0f} a second): {ratio:.2f} times as many (target: at least 0.8), peak {peak / one:.2f}")


if __name__ == "__main__":
    main()
