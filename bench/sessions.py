"""Measures a session: python3 bench/sessions.py

    --tq PATH         the program (bin/tq)
    --rows N          how many rows are loaded (1000000)
    --events E        how many starts and ends follow, with a publish after each thousand lines (100000)
    --questions Q     how many queries follow the publishes, each of one instant and 250 neighbouring keys, as of a random
                      count of the events published by then (10000)

The loaded rows have not ended, and each has a key of its own. Three sessions run: one only loads, one also starts and ends
rows, and one also runs the queries. The difference between two sessions is the time of the lines that one has more. The
script checks the replies of the last two.

Times are user and system seconds, the minimum of three runs. The script prints starts and ends a second and milliseconds for
each query, each with its target. It also prints the peak memory compared with that of one `Db` (crates/bench_snapshot). After
loading the `Db` has the loaded rows, and at the end also the started ones.
"""

import argparse
import os
import random
import subprocess
import sys
import tempfile

from measuring import HERE, TRIES, held_in_one

BATCH = 1000
NEIGHBOURS = 250
TIME = 20_000_000


def read_options():
    parser = argparse.ArgumentParser()
    parser.add_argument("--tq", default=os.path.join(HERE, "..", "bin", "tq"))
    parser.add_argument("--rows", type=int, default=1_000_000)
    parser.add_argument("--events", type=int, default=100_000)
    parser.add_argument("--questions", type=int, default=10_000)
    return parser.parse_args()


def events_of(rows, first, end):
    """Lines that start rows and end them again, with a publish after them, and the replies."""
    lines, replies = [], []
    for number in range(first, end):
        row = rows + number // 2
        kind = "start" if number % 2 == 0 else "end"
        lines.append(f"{kind} t {TIME + number} {row},v{row % 1000}")
        replies.append(f"row {row}")
    return lines + ["publish"], replies + [f"published {rows + end}"]


def questions_of(draw, rows, published, count):
    """Queries for keys of loaded rows, as of random counts of events, and how many rows each answer has."""
    lines, found = [], []
    for _ in range(count):
        low = draw.randrange(max(rows - NEIGHBOURS, 1))
        events = draw.randrange(published + 1)
        asked = f"k >= {low} AND k < {low + NEIGHBOURS}"
        lines.append(f"ask {events} 1 VALIDTIME PERIOD '[{TIME} - {TIME + 1})' SELECT k FROM t WHERE {asked}")
        found.append(max(0, min(events, low + NEIGHBOURS, rows) - low))
    return lines, found


def lines_of(options):
    """The lines that start and end rows, and their replies; the same lines with queries after each publish, and how many
    rows the answers have."""
    draw = random.Random(1)
    plain, expected, woven, found = [], [], [], []
    for first in range(0, options.events, BATCH):
        end = min(first + BATCH, options.events)
        lines, replies = events_of(options.rows, first, end)
        count = options.questions * end // options.events - options.questions * first // options.events
        asks, rows = questions_of(draw, options.rows, options.rows + end, count)
        plain, expected, woven, found = plain + lines, expected + replies, woven + lines + asks, found + rows
    return plain, expected, woven, found


def run_once(options, table, lines):
    """Runs a session over the lines. Returns its replies, its user and system seconds, and its peak memory in bytes."""
    with tempfile.TemporaryFile() as stdin, tempfile.TemporaryFile() as out:
        stdin.write("".join(line + "\n" for line in lines).encode())
        stdin.seek(0)
        child = subprocess.Popen([options.tq, "session", "--table", f"t={table}"], stdin=stdin, stdout=out)
        _, status, usage = os.wait4(child.pid, 0)
        if os.waitstatus_to_exitcode(status) != 0:
            sys.exit(f"a session ended with status {os.waitstatus_to_exitcode(status)}")
        out.seek(0)
        return out.read().decode().splitlines(), usage.ru_utime + usage.ru_stime, usage.ru_maxrss * 1024


def run(options, table, lines):
    """Runs a session TRIES times. Returns the replies of the last run, the minimum seconds, and the maximum peak memory."""
    runs = [run_once(options, table, lines) for _ in range(TRIES)]
    return runs[-1][0], min(seconds for _, seconds, _ in runs), max(peak for _, _, peak in runs)


def main():
    options = read_options()
    one = held_in_one(options.rows)
    one_at_the_end = held_in_one(options.rows + options.events // 2)
    lines, expected, woven, found = lines_of(options)
    with tempfile.TemporaryDirectory(prefix="tq-") as room:
        table = os.path.join(room, "t.csv")
        with open(table, "w", encoding="ascii") as file:
            file.write("k:int,v:text,from,to\n")
            file.writelines(f"{row},v{row % 1000},{row},forever\n" for row in range(options.rows))
        _, loading, loaded = run(options, table, [])
        replies, appending, _ = run(options, table, lines)
        if replies != expected:
            sys.exit("a session without queries prints unexpected lines")
        replies, asking, peak = run(options, table, woven)
    if [line for line in replies if line.startswith(("row ", "published ", "refused "))] != expected:
        sys.exit("a session with queries prints unexpected lines")
    if [int(line[7:]) for line in replies if line.startswith("answer ")] != found:
        sys.exit("a query of a session finds an unexpected number of rows")
    print(f"{options.rows} rows loaded in {loading:.2f} s")
    rate = options.events / max(appending - loading, 1e-9)
    print(f"{rate:.0f} starts and ends a second, published by the thousand: {rate / 50_000:.1f} times the target of 50,000")
    cost = 1000 * (asking - appending) / max(options.questions, 1)
    print(f"{cost:.3f} ms for a query of {NEIGHBOURS} rows: {cost:.2f} of the target of 1 ms")
    print(f"peak memory compared with one Db: after loading {loaded / one:.2f}, at the end {peak / one_at_the_end:.2f} (target: at most 2.3)")


if __name__ == "__main__":
    main()
