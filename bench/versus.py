"""Measures `tq ask` in turn with other programs that a user could choose for the same queries: python3 bench/versus.py

    --tq PROGRAM       the program to measure (bin/tq)
    --beside PROGRAM   another build of tq to measure too (the environment variable BESIDE, or none)
    --workers W ..     the numbers of tq's workers (1 4)
    --peers NAME ..    the other programs: floor, data.table, PostgreSQL, sqlite3, Python (all that are installed)
    --questions Q ..   the queries: name, counts, join, sums, difference, dept, name,dept (all)
    --rows N ..        the sizes of each table (10000 100000 1000000)
    --tries N          how often each program runs each query (3)
    --most SECONDS     a program that took longer for a query does not run it over more rows (15)
    --csv FILE         a file for the measurements, which bench/plots.py draws

All programs read the same files of a payroll and write the same bytes, or the script stops. The floor is a plain C program of
one thread. peers.py starts it and the others. The script prints the minimum of all runs for times, and the maximum for memory:

- the seconds from start to end, with reading and writing, and their ratio to the first program, by default tq with one worker;
- the user and system seconds, which are unknown for a server;
- the peak memory for each row without the files, which is unknown for a server too.
"""

import argparse
import os
import signal
import sys
import tempfile
from contextlib import ExitStack

from measuring import (
    HERE,
    QUESTIONS,
    TRIES,
    Measurement,
    ask_words,
    files_read,
    growth,
    known_peak,
    run_in_turn,
    write_measurements,
    write_payroll,
)
from peers import PEERS, Peer, started

ASKED = {
    **QUESTIONS,
    "dept": "VALIDTIME SELECT dept FROM emp",
    "name,dept": "VALIDTIME SELECT name, dept FROM emp",
}

# The most rows of all tables that tq accepts, if each row has an end.
MOST_ROWS = 8_388_608


def read_options():
    parser = argparse.ArgumentParser()
    parser.add_argument("--tq", default=os.path.join(HERE, "..", "bin", "tq"))
    parser.add_argument("--beside", default=os.environ.get("BESIDE"))
    parser.add_argument("--workers", type=int, nargs="+", default=[1, 4])
    parser.add_argument("--peers", nargs="*", choices=list(PEERS), default=list(PEERS))
    parser.add_argument("--questions", nargs="+", choices=list(ASKED), default=list(ASKED))
    parser.add_argument("--rows", type=int, nargs="+", default=[10_000, 100_000, 1_000_000])
    parser.add_argument("--tries", type=int, default=TRIES)
    parser.add_argument("--most", type=float, default=15)
    parser.add_argument("--csv")
    return parser.parse_args()


def build_of_tq(name, program, workers):
    """A build of tq as one of the compared programs."""

    def words(emp, sal, question):
        return ask_words(program, {"emp": emp, "sal": sal}, ASKED[question], workers)

    return Peer(name, words, workers=workers)


def builds_of_tq(options):
    for workers in options.workers:
        yield build_of_tq("tq" if workers == 1 else f"tq, {workers} workers", options.tq, workers)
    if options.beside:
        yield build_of_tq("other build", options.beside, 1)


def measure(programs, tables, rows, question, options, folder):
    """Runs a query with each program, in turn. Yields the measurements."""
    commands = {program.name: program.words(tables["emp"], tables["sal"], question) for program in programs}
    measured = run_in_turn(commands, folder, options.tries)
    paths = files_read(tables, ASKED[question]).values()
    files = sum(map(os.path.getsize, paths))
    for program in programs:
        seconds, processor, peak = measured[program.name]
        processor, peak = (processor, known_peak(peak)) if program.is_one_process else (None, None)
        name = program.name.partition(",")[0]
        yield Measurement("payroll", question, rows, name, program.workers, seconds, processor, peak, files, len(paths))


def show(programs, measured):
    """Prints a line for each program: its figures, and the ratio of its seconds to those of the first one."""
    first = measured[0]
    for program, it in zip(programs, measured):
        processor = "-" if it.processor_seconds is None else f"{it.processor_seconds:.2f} s"
        memory = "-" if it.peak_bytes is None else f"{it.bytes_a_row():,.0f}"
        times = f"{it.seconds / first.seconds:.2f}x"
        print(f"{it.rows:>9,}  {it.question:<11} {program.name:<14} {it.seconds:>8.3f} s {times:>8} {processor:>9} {memory:>9}", flush=True)


def compare(programs, options):
    """Runs all queries over payrolls of each size with all programs. Returns the measurements."""
    found, slow = [], set()
    for rows in options.rows:
        with tempfile.TemporaryDirectory(prefix="tq-") as folder:
            tables = write_payroll(folder, rows)
            for question in options.questions:
                if rows * len(files_read(tables, ASKED[question])) > MOST_ROWS:
                    print(f"{rows:>9,}  {question:<11} is skipped: tq accepts {MOST_ROWS:,} rows in all tables", flush=True)
                    continue
                asked = [program for program in programs if (program.name, question) not in slow]
                measured = list(measure(asked, tables, rows, question, options, folder))
                show(asked, measured)
                slow |= {(program.name, question) for program, it in zip(asked, measured) if it.seconds > options.most}
                found += measured
    return found


def show_growth(found):
    """Prints how the time of tq with one worker grows, by query."""
    for question in dict.fromkeys(it.question for it in found):
        its = {it.rows: it.seconds for it in found if (it.question, it.program, it.workers) == (question, "tq", 1)}
        if len(its) > 1:
            print(f"{question}: {growth(its)}")


def main():
    options = read_options()
    signal.signal(signal.SIGTERM, lambda *_: sys.exit("stopped"))  # so that the stack stops and removes the server
    with ExitStack() as stack:
        programs = [*builds_of_tq(options), *started(options.peers, stack)]
        print("seconds, how many times as long as tq, user and system seconds, bytes of peak memory for each row without the files")
        found = compare(programs, options)
    show_growth(found)
    if options.csv:
        write_measurements(options.csv, found)


if __name__ == "__main__":
    main()
