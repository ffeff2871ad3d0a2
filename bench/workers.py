"""Measures queries with several workers: python3 bench/workers.py

    --tq PROGRAM      the program to measure (bin/tq)
    --rows N ..       the sizes of each table (10000 1000000)
    --workers W ..    the numbers of workers in addition to one (2 4)
    --tries N         how often each query runs (15)
    --csv FILE        a file for the measurements, which bench/plots.py draws

The queries of measuring.py run over a payroll, with one worker and with more in turn. Some of them also run over tables whose
rows have no end. All must write the same bytes. The figures are the minimum seconds from start to end, with loading and
output, and the maximum peak memory. Those of several workers are ratios to those of one.

The script also shows what the machine can do at the time. For each number of workers it starts that number of processes of
one worker, concurrently. It prints how many times as long the last of them takes as one alone. On a quiet machine with a core
for each process, that is little more than 1. If it is more, the cores have other work, and the ratios of workers are too high.
"""

import argparse
import os
import subprocess
import sys
import tempfile
import time

from measuring import (
    HERE,
    QUESTIONS,
    Measurement,
    ask_words,
    files_read,
    known_peak,
    run_in_turn,
    write_measurements,
    write_payroll,
)

# The query of the concurrent processes.
ALONE = "counts"

# On a host with other work a core is quiet only for moments, and several cores are rarely quiet together.
TRIES = 15

# The queries over tables whose rows have no end.
OPEN = ["name", "counts", "sums"]


def read_options():
    parser = argparse.ArgumentParser()
    parser.add_argument("--tq", default=os.path.join(HERE, "..", "bin", "tq"))
    parser.add_argument("--rows", type=int, nargs="+", default=[10_000, 1_000_000])
    parser.add_argument("--workers", type=int, nargs="+", default=[2, 4])
    parser.add_argument("--tries", type=int, default=TRIES)
    parser.add_argument("--csv")
    return parser.parse_args()


def write_open(folder, rows):
    """Writes two tables with this number of rows and the same keys. No row has an end. Returns the paths."""
    tables = {name: os.path.join(folder, f"open-{name}.csv") for name in ("emp", "sal")}
    with open(tables["emp"], "w", encoding="ascii") as file:
        file.write("emp:int,name:text,dept:text,from,to\n")
        file.writelines(f"{row},name {row * 7919 % rows},d{row % 50},{row * 31 % rows},forever\n" for row in range(rows))
    with open(tables["sal"], "w", encoding="ascii") as file:
        file.write("emp:int,amount:int,from,to\n")
        file.writelines(f"{row},{row % 5000},{row * 17 % rows},forever\n" for row in range(rows))
    return tables


def concurrent_seconds(program, tables, count):
    """The seconds of `count` concurrent processes of one worker, from the start of the first to the end of the last."""
    begin = time.perf_counter()
    words = ask_words(program, tables, QUESTIONS[ALONE])
    running = [subprocess.Popen(words, stdout=subprocess.DEVNULL) for _ in range(count)]
    if any([child.wait() for child in running]):
        sys.exit(f"{' '.join(words)} failed")
    return time.perf_counter() - begin


def show_machine(options, tables, rows):
    """Prints what the machine can do: the minimum seconds of processes of one worker, alone and concurrent."""
    counts = [1, *options.workers]
    tries = [{count: concurrent_seconds(options.tq, tables, count) for count in counts} for _ in range(options.tries)]
    seconds = {count: min(one[count] for one in tries) for count in counts}
    ratios = ", ".join(f"{count} concurrent {seconds[count] / seconds[1]:.2f} times as long as one" for count in options.workers)
    print(f"{rows} rows, processes of one worker, {ALONE}: {ratios}", flush=True)


def measure(options, kind, tables, rows, question, folder):
    """Runs a query with each number of workers, in turn. Returns the measurements."""
    statement = QUESTIONS[question]
    commands = {number: ask_words(options.tq, tables, statement, number) for number in (1, *options.workers)}
    paths = files_read(tables, statement).values()
    files = sum(map(os.path.getsize, paths))
    measured = run_in_turn(commands, folder, options.tries)
    return [
        Measurement(kind, question, rows, "tq", number, seconds, processor, known_peak(peak), files, len(paths))
        for number, (seconds, processor, peak) in measured.items()
    ]


def show(one, others):
    """Prints a line: the seconds of one worker, and the time and memory of more workers as ratios to it."""
    ratios = [f"{it.workers} workers {it.seconds / one.seconds:.2f} of the time{memory_of(it, one)}" for it in others]
    print(f"{one.rows} rows, {one.tables}, {one.question}: one worker {one.seconds:.3f} s; {', '.join(ratios)}", flush=True)


def memory_of(it, one):
    if it.peak_bytes is None or one.peak_bytes is None:
        return ""
    return f", {it.peak_bytes / one.peak_bytes:.2f} of the memory"


def main():
    options = read_options()
    found = []
    for rows in options.rows:
        with tempfile.TemporaryDirectory(prefix="tq-") as folder:
            payroll = write_payroll(folder, rows)
            show_machine(options, payroll, rows)
            for kind, tables, questions in (("payroll", payroll, QUESTIONS), ("open", write_open(folder, rows), OPEN)):
                for question in questions:
                    one, *others = measure(options, kind, tables, rows, question, folder)
                    show(one, others)
                    found += [one, *others]
    if options.csv:
        write_measurements(options.csv, found)


if __name__ == "__main__":
    main()
