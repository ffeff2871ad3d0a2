"""Measures queries as of any count of events: python3 bench/store.py

    --rows N          how many rows the history has, each with a start and an end (1000000)
    --questions Q     how many queries run: the rows of 250 neighbouring keys at one instant, as of a random count of
                      events (10000)

crates/bench_store fills a history with the rows and runs the queries, each a statement that is parsed, planned and executed.
In another run it only reads the rows of the queries, and counts the nodes that it reads. For comparison, a SQLite database in
memory has the same rows, each with the numbers of the events that start and end it. It runs the same queries with a covering
index by keys, and with an R*Tree if SQLite has one.

Both must find the same rows. Times are the minimum of three runs. Those of queries do not include the filling. The script
sets no limit.
"""

import argparse
import os
import sqlite3
import sys
import tempfile
import time

from measuring import TRIES, build, run

NEIGHBOURS = 250
ROWS_OF_A_KEY = 4
STEP = 7919

BY_KEY = """SELECT count(*), total(row) FROM rows
    WHERE key BETWEEN ? AND ? AND born < ? AND "from" <= ? AND (? < "to" OR died >= ?)"""
BY_BOX = """SELECT count(*), total(row) FROM boxes
    WHERE high_key >= ? AND low_key <= ? AND born < ? AND "from" <= ? AND (? < "to" OR died >= ?)"""


def read_options():
    parser = argparse.ArgumentParser()
    parser.add_argument("--rows", type=int, default=1_000_000)
    parser.add_argument("--questions", type=int, default=10_000)
    return parser.parse_args()


def rows_of(count):
    """The rows that bench_store inserts: number, key, the numbers of the events that start and end it, and their instants.

    The event with the number n, counted from 0, happens at the instant n + 1.
    """
    keys = count // ROWS_OF_A_KEY
    current = list(range(keys))
    born = list(range(keys))
    key_of = list(range(keys))
    died = [None] * keys
    event = keys
    for number in range(count - keys):
        key = number * STEP % max(keys, 1)
        died[current[key]] = event
        current[key] = len(born)
        born.append(event + 1)
        key_of.append(key)
        died.append(None)
        event += 2
    for row in current:
        died[row] = event
        event += 1
    return [(row, key_of[row], born[row], died[row], born[row] + 1, died[row] + 1) for row in range(len(born))]


class Draws:
    """The random generator of bench_store."""

    def __init__(self, state):
        self.state = state

    def next(self, limit):
        self.state = (self.state * 6364136223846793005 + 1442695040888963407) % 2**64
        return (self.state >> 32) % max(limit, 1)


def questions_of(events, count):
    """The queries of bench_store: a count of events, an instant, the least and the greatest key."""
    draws = Draws(12345)
    for _ in range(count):
        known = draws.next(events)
        at = draws.next(events)
        low = draws.next(events // 2 // ROWS_OF_A_KEY - NEIGHBOURS)
        yield known, at, low, low + NEIGHBOURS - 1


def ask(connection, statement, questions):
    """Runs the queries. Returns the seconds, how many rows they find, and the sum of the numbers of these rows."""
    found = numbers = 0
    begin = time.perf_counter()
    for known, at, low, high in questions:
        count, total = connection.execute(statement, (low, high, known, at, at, known)).fetchone()
        found += count
        numbers += int(total)
    return time.perf_counter() - begin, found, numbers


def has_boxes(connection):
    try:
        connection.execute("CREATE VIRTUAL TABLE trial USING rtree_i32(row, low, high)")
    except sqlite3.OperationalError:
        return False
    connection.execute("DROP TABLE trial")
    return True


def measure_sqlite(rows, questions):
    """Fills a database with each index and runs the queries. Returns the seconds with the faster index, and what is found."""
    connection = sqlite3.connect(":memory:")
    connection.execute('CREATE TABLE rows(row, key, born, died, "from", "to")')
    begin = time.perf_counter()
    connection.executemany("INSERT INTO rows VALUES (?, ?, ?, ?, ?, ?)", rows)
    connection.execute('CREATE INDEX by_key ON rows(key, "from", "to", born, died, row)')
    connection.execute("ANALYZE")
    print(f"SQLite, by keys: filled in {time.perf_counter() - begin:.2f} s", flush=True)
    statements = {"by keys": BY_KEY}
    if has_boxes(connection):
        connection.execute('CREATE VIRTUAL TABLE boxes USING rtree_i32(row, low_key, high_key, born, died, "from", "to")')
        begin = time.perf_counter()
        connection.executemany("INSERT INTO boxes VALUES (?, ?, ?, ?, ?, ?, ?)", ((row, key, key, *rest) for row, key, *rest in rows))
        print(f"SQLite, R*Tree: filled in {time.perf_counter() - begin:.2f} s", flush=True)
        statements["R*Tree"] = BY_BOX
    least = None
    for name, statement in statements.items():
        tries = [ask(connection, statement, questions) for _ in range(TRIES)]
        seconds = min(seconds for seconds, _, _ in tries)
        print(f"SQLite, {name}: {seconds / len(questions) * 1e6:.1f} microseconds for a query", flush=True)
        found = tries[0][1:]
        if least is not None and found != least[1]:
            sys.exit(f"SQLite, {name}: finds other rows")
        if least is None or seconds < least[0]:
            least = (seconds, found)
    return least


def measure_store(program, words, output):
    """Runs bench_store TRIES times. Returns the minimum seconds, the maximum peak memory, and the numbers that it prints."""
    command = [program, *map(str, words)]
    tries = [run(command, output) for _ in range(TRIES)]
    with open(output, encoding="utf-8") as lines:
        numbers = dict((line.rsplit(" ", 1)[0], int(line.rsplit(" ", 1)[1])) for line in lines)
    return min(seconds for seconds, _ in tries), max(peak for _, peak in tries), numbers


def main():
    options = read_options()
    program = build("bench_store")
    with tempfile.TemporaryDirectory() as folder:
        output = os.path.join(folder, "output")
        fill, peak, numbers = measure_store(program, ["fill", options.rows], output)
        asked, _, answers = measure_store(program, ["ask", options.rows, options.questions], output)
        read, _, found = measure_store(program, ["read", options.rows, options.questions], output)
    seconds = asked - fill
    filled = f"{options.rows:,} rows filled in {fill:.2f} s, {peak / options.rows:.0f} bytes for each row"
    print(f"tq_store: {filled}, {numbers['levels']} levels in the middle of the history")
    print(f"tq_store: {seconds / options.questions * 1e6:.1f} microseconds for a statement, with {answers['rows found'] / options.questions:.1f} rows")
    print(f"tq_store: {(read - fill) / options.questions * 1e6:.1f} microseconds and {found['nodes read'] / options.questions:.1f} reads for only its rows", flush=True)
    questions = list(questions_of(numbers["events"], options.questions))
    sqlite_seconds, rows = measure_sqlite(rows_of(options.rows), questions)
    for what in [answers, found]:
        if rows != (what["rows found"], what["numbers found"]):
            sys.exit(f"SQLite finds {rows}, and tq_store {what}")
    print(f"a statement: {seconds / sqlite_seconds:.2f} times as long as in SQLite")


if __name__ == "__main__":
    main()
