"""Measures `tq ask` over rows that are all valid together: python3 bench/crowds.py

    --tq PROGRAM   the program to measure (bin/tq)
    --rows N ..    the sizes of the tables (100000 1000000)

A sweep that reads all open rows at each instant would be slow over these tables. Row i of n is valid from i to i + 2n,
so all rows are valid from n to 2n. The script prints the times and sets no limit.
"""

import functools
import os
import tempfile

from measuring import TRIES, each_size, read_options, run

# The statement, and the number of different values of g in a table of n rows.
QUESTIONS = {
    "join on a unique key": ("VALIDTIME SELECT a.k FROM t a, t b WHERE a.k = b.k", lambda n: n),
    "count of all": ("VALIDTIME SELECT COUNT(*) FROM t", lambda n: n),
    "counts of 200 groups": ("VALIDTIME SELECT g, COUNT(*), SUM(k) FROM t GROUP BY g", lambda n: 200),
    "counts of n / 2 groups": ("VALIDTIME SELECT g, COUNT(*), SUM(k) FROM t GROUP BY g", lambda n: n // 2),
}


def write_table(path, groups, rows):
    """Writes the table. The last row comes first."""
    with open(path, "w", encoding="utf-8") as file:
        file.write("k:int,g:int,from,to\n")
        for i in reversed(range(rows)):
            file.write(f"{i},{i % groups},{i},{i + 2 * rows}\n")


def measure(tq, name, rows):
    """Prints a line for the query over a table with this number of rows, and returns the seconds."""
    statement, groups = QUESTIONS[name]
    with tempfile.TemporaryDirectory() as folder:
        table = os.path.join(folder, "t.csv")
        write_table(table, groups(rows), rows)
        ask = [tq, "ask", "--table", f"t={table}", statement]
        seconds = min(run(ask, os.path.join(folder, "answer.csv"))[0] for _ in range(TRIES))
    print(f"{name:<24} {rows:>9,} {seconds:>8.2f} s {rows / seconds:>12,.0f}", flush=True)
    return seconds


def main():
    options = read_options([100_000, 1_000_000])
    print("tq ask over rows that are all valid together")
    print(f"{'query':<24} {'rows':>9} {'tq':>10} {'tq rows/s':>12}")
    for name in QUESTIONS:
        each_size(options.rows, functools.partial(measure, options.tq, name))


if __name__ == "__main__":
    main()
