"""Measures `tq ask` on shapes of tables and of joins that could be slow: python3 bench/shapes.py

    --tq PROGRAM   the program to measure (bin/tq)
    --rows N ..    the sizes of the tables of one source (100000 1000000)
    --joined N ..  the sizes of the tables that are joined (1000 2000 4000)

Answers over one source must equal those of the plain Python script. A join only counts its rows at one instant, and the
script compares the count with that of the shape. The script prints how the time grows and sets no limit. It also prints user
and system seconds for three other queries. They read texts with a common beginning, join three tables, or join rows that all
have one key.
"""

import argparse
import functools
import os
import sys
import tempfile

from measuring import HERE, TRIES, ask, ask_words, bytes_per_row, each_size, files_read, run, run_in_turn, sweep

# The value, the start and the end of row i of n.
SHAPES = {
    "all equal": lambda i, n: ("x", 0, 9),
    "all nested": lambda i, n: ("x", i, 2 * n - i),
    "all overlapping": lambda i, n: ("x", i, i + n),
    "all meeting": lambda i, n: ("x", i, i + 1),
    "no two of one value": lambda i, n: (f"v{i}", i, "forever"),
}

# FROM and WHERE of a join over `s`, and the number of rows that pass if `s` has n rows. Row i of `s` has k = i, v = n + i,
# g = i // (n // 4) and c = 0, and is valid from 0 to 10. `none` has no rows.
JOINS = {
    "star through the last": ("s a, s b, s c, s d", "a.k = d.k AND b.k = d.k AND c.k = d.k", lambda n: n),
    "through the third": ("s a, s b, s c", "a.k = c.k AND b.k = c.k", lambda n: n),
    "a source of no rows": ("s a, s b, none c", "a.k >= 0", lambda n: 0),
    "equal in each branch": ("s a, s b", "(a.k = b.k AND a.g = 0) OR (a.k = b.k AND b.g = 1)", lambda n: n // 2),
    "an OR of equalities": ("s a, s b", "a.k = b.k OR a.v = b.k", lambda n: n),
    "equal by two bounds": ("s a, s b", "a.k <= b.k AND a.k >= b.k", lambda n: n),
    "few values, none less": ("s a, s b", "a.g = b.g AND a.v < b.k", lambda n: 0),
    "none less": ("s a, s b", "a.v < b.k", lambda n: 0),
    "few values, all equal": ("s a, s b", "a.g = b.g AND a.c <= b.c", lambda n: 4 * (n // 4) ** 2),
    "unique keys, all less": ("s a, s b", "a.k = b.k AND a.k < b.v", lambda n: n),
}

# The common beginning of the texts of a column. It is longer than what a normalized key prefix has of a text.
BEGINNING = "b" * 60

# The rows of each side of a join on one key, whose pairs are all summed.
ONE_KEY = 4_000

# The most rows of each table in the joins of two and of three tables.
CHAIN_ROWS = 100_000

# How often a query runs whose user and system seconds are printed, unless a call says otherwise.
PROCESSOR_TRIES = 5


def read_options():
    parser = argparse.ArgumentParser()
    parser.add_argument("--tq", default=os.path.join(HERE, "..", "bin", "tq"))
    parser.add_argument("--rows", type=int, nargs="+", default=[100_000, 1_000_000])
    parser.add_argument("--joined", type=int, nargs="+", default=[1_000, 2_000, 4_000])
    return parser.parse_args()


def write_joined(path, rows):
    """Writes a table for joins with this number of rows."""
    with open(path, "w", encoding="utf-8") as file:
        file.write("k:int,v:int,g:int,c:int,from,to\n")
        for i in range(rows):
            file.write(f"{i},{rows + i},{i // max(rows // 4, 1)},0,0,10\n")


def write_table(path, shape, rows):
    """Writes the rows of a shape. The last row comes first."""
    with open(path, "w", encoding="utf-8") as file:
        file.write("k:int,v:text,from,to\n")
        for i in reversed(range(rows)):
            value, start, stop = shape(i, rows)
            file.write(f"{i},{value},{start},{stop}\n")


def measure_join(options, folder, name, rows):
    """Measures a join of tables with this number of rows. Returns the minimum seconds of TRIES runs."""
    sources, test, passing = JOINS[name]
    table, none, answer = (os.path.join(folder, it) for it in ["s.csv", "none.csv", "answer.csv"])
    write_joined(table, rows)
    write_joined(none, 0)
    statement = f"VALIDTIME PERIOD '[5 - 6)' SELECT COUNT(*) FROM {sources} WHERE {test}"
    command = [options.tq, "ask", "--table", f"s={table}", "--table", f"none={none}", statement]
    seconds = min(run(command, answer)[0] for _ in range(TRIES))
    with open(answer, encoding="utf-8") as file:
        expected = f"{passing(rows)},5,6\n"
        if file.read() != f"count,from,to\n{expected}":
            sys.exit(f"{name} of {rows} rows: the answer is not {expected}")
    print(f"{name:<24} {rows:>9,} {seconds:>8.2f}", flush=True)
    return seconds


def measure_joins(options):
    print(f"\ntq ask on joins of one shape each\n{'shape':<24} {'rows':>9} {'seconds':>8}")
    with tempfile.TemporaryDirectory() as folder:
        for name in JOINS:
            each_size(options.joined, functools.partial(measure_join, options, folder, name))


def ask_watched(tq, tables, statement, folder, tries=PROCESSOR_TRIES):
    """Runs a query `tries` times. Returns the minimum user and system seconds, and the peak memory without the files."""
    _, seconds, peak = run_in_turn({"tq": ask_words(tq, tables, statement)}, folder, tries)["tq"]
    return seconds, peak - sum(map(os.path.getsize, files_read(tables, statement).values()))


def show_watched(label, rows, tables, seconds, memory):
    print(f"{label:<24} {rows:>9,} {seconds:>8.2f} s user and system {memory / rows / tables:>6,.0f} bytes for each row", flush=True)


def write_texts(path, rows, beginning):
    """Writes rows with one text each: the beginning, then six digits or more, in no order."""
    with open(path, "w", encoding="utf-8") as file:
        file.write("k:int,v:text,from,to\n")
        for i in range(rows):
            file.write(f"{i},{beginning}{i * 7919 % rows:06},{i},{i + 9}\n")


def long_beginnings(tq, rows, folder):
    """Prints how many times as long a query takes if the first 60 bytes of all texts are equal."""
    statement = "VALIDTIME SELECT v FROM t"
    times = []
    for label, beginning in {"six digits": "", "after 60 equal bytes": BEGINNING}.items():
        path = os.path.join(folder, "t.csv")
        write_texts(path, rows, beginning)
        seconds, memory = ask_watched(tq, {"t": path}, statement, folder)
        show_watched(label, rows, 1, seconds, memory)
        times.append(seconds)
    print(f"{BEGINNING[:3]}..: {times[1] / times[0]:.2f} times as long as six digits alone")


def pairs_of_one_key(tq, folder):
    """Prints the memory for each pair, if all rows of two tables have one key and all pairs are summed."""
    tables = {}
    for name in ["a", "b"]:
        tables[name] = os.path.join(folder, f"{name}.csv")
        with open(tables[name], "w", encoding="utf-8") as file:
            file.write("k:int,n:int,from,to\n")
            for i in range(ONE_KEY):
                file.write(f"7,{i % 10},{i},{i + ONE_KEY}\n")
    statement = "VALIDTIME SELECT a.k, SUM(b.n) FROM a, b WHERE a.k = b.k GROUP BY a.k"
    seconds, memory = ask_watched(tq, tables, statement, folder, tries=1)
    pairs = ONE_KEY * ONE_KEY
    print(f"{'pairs of one key':<24} {pairs:>9,} {seconds:>8.2f} s user and system {memory / pairs:>6,.0f} bytes for each pair", flush=True)


def chains_of_sources(tq, rows, folder):
    """Prints how many times as long a join of three tables takes as one of two. Keys are unique, all rows valid together."""
    tables = {}
    for name in ["a", "b", "c"]:
        tables[name] = os.path.join(folder, f"{name}.csv")
        with open(tables[name], "w", encoding="utf-8") as file:
            file.write("k:int,n:int,from,to\n")
            for i in range(rows):
                file.write(f"{i * 7919 % rows},{i},{i % 10},forever\n")
    times = []
    for label, statement in {
        "join of two": "VALIDTIME SELECT a.k, a.n, b.n FROM a, b WHERE a.k = b.k",
        "join of three": "VALIDTIME SELECT a.k, b.n, c.n FROM a, b, c WHERE a.k = b.k AND b.k = c.k",
    }.items():
        seconds, memory = ask_watched(tq, tables, statement, folder)
        show_watched(label, rows, len(files_read(tables, statement)), seconds, memory)
        times.append(seconds)
    print(f"three: {times[1] / times[0]:.2f} times as long as two")


def main():
    options = read_options()
    print("tq ask on tables of one shape each (Python: how many times as long the plain script takes)")
    print(f"{'shape':<20} {'rows':>9} {'Python':>8} {'tq rows/s':>12} {'bytes/row':>10}")
    with tempfile.TemporaryDirectory() as folder:
        table, answer, other = (os.path.join(folder, name) for name in ["t.csv", "answer.csv", "other.csv"])

        def measure(name, shape, rows):
            write_table(table, shape, rows)
            seconds, peak = ask(options.tq, "t", table, ["v"], answer)
            python = sweep(table, ["v"], answer, other) / seconds
            memory = bytes_per_row(peak, table, rows)
            print(f"{name:<20} {rows:>9,} {python:>7.1f}x {rows / seconds:>12,.0f} {memory:>10}", flush=True)
            return seconds

        for name, shape in SHAPES.items():
            each_size(options.rows, functools.partial(measure, name, shape))
    measure_joins(options)
    print("\ntq ask over texts with a common beginning, over rows with one key, and over three tables")
    with tempfile.TemporaryDirectory() as folder:
        long_beginnings(options.tq, max(options.rows), folder)
        pairs_of_one_key(options.tq, folder)
        chains_of_sources(options.tq, min(CHAIN_ROWS, max(options.rows)), folder)


if __name__ == "__main__":
    main()
