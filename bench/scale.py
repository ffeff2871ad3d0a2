"""Runs queries over parts of large tables: python3 bench/scale.py

    --tq PROGRAM      the program to measure (bin/tq)
    --rows N ..       the sizes of the tables (1000000 100000000)
    --parts N         the number of parts (64)
    --processes N     how many parts are queried concurrently (4)
    --folder DIR      a folder for tables and parts, about 170 bytes for each row of a table (a temporary one)

bench/scale.c writes the tables, as 16 files each. The script divides them, runs the query over each part with one worker,
and merges the answers. bench/scale.c also computes the sums of the expected answer by itself, and those of the merged
answer. If they differ, the script ends. Each size is measured once. The script prints:

- for each step the seconds, the microseconds for each row of the tables, and the peak memory of the largest process;
- the throughput in rows, as a fraction of that of the first size;
- how long the parts would take with 1, 10, 100 and 1,000 workers, computed from the seconds of each part.
"""

import argparse
import heapq
import os
import shutil
import subprocess
import sys
import tempfile
import time
from concurrent.futures import ThreadPoolExecutor

from measuring import HERE, run

FILES = 16
ROWS_OF_A_PERSON = 5
WORKERS = (1, 10, 100, 1_000)
STATEMENTS = {
    "counts": ("VALIDTIME SELECT dept, COUNT(*) FROM emp GROUP BY dept", ["emp"]),
    "join": ("VALIDTIME SELECT emp.emp, name, dept, amount FROM emp, sal WHERE emp.emp = sal.emp", ["emp", "sal"]),
    "difference": ("VALIDTIME SELECT emp FROM emp EXCEPT ALL SELECT emp FROM sal", ["emp", "sal"]),
}


def read_options():
    parser = argparse.ArgumentParser()
    parser.add_argument("--tq", default=os.path.join(HERE, "..", "bin", "tq"))
    parser.add_argument("--rows", type=int, nargs="+", default=[1_000_000, 100_000_000])
    parser.add_argument("--parts", type=int, default=64)
    parser.add_argument("--processes", type=int, default=4)
    parser.add_argument("--folder")
    return parser.parse_args()


def built(folder):
    """Compiles bench/scale.c, and returns the path of the program."""
    program = os.path.join(folder, "scale")
    subprocess.run(["cc", "-O2", "-o", program, os.path.join(HERE, "scale.c")], check=True)
    return program


def write_tables(scale, folder, rows, processes):
    """Writes the files of each table. Returns their paths by the name of the table."""
    persons = rows // ROWS_OF_A_PERSON // FILES
    tables = {name: [os.path.join(folder, f"{name}-{number:02}.csv") for number in range(FILES)] for name in ("emp", "sal")}

    def write(name, number):
        run([scale, "generate", name, str(1 + number * persons), str(persons)], tables[name][number])

    with ThreadPoolExecutor(processes) as pool:
        list(pool.map(lambda file: write(*file), [(name, number) for name in tables for number in range(FILES)]))
    return tables


def expected(scale, question, tables):
    """The sums of the expected answer."""
    pairs = [path for pair in zip(tables["emp"], tables["sal"]) for path in pair]
    return subprocess.run([scale, "expect", question, *pairs], stdout=subprocess.PIPE, text=True, check=True).stdout


def ask_parts(program, folder, parts, processes):
    """Runs the query over all parts. Returns the elapsed seconds, those of each part, and the maximum peak memory."""

    def ask(part):
        with open(os.path.join(folder, str(part), "args"), encoding="utf-8") as file:
            words = file.read().split("\0")
        return run([program, "ask", *words], os.path.join(folder, str(part), "answer.csv"))

    begin = time.perf_counter()
    with ThreadPoolExecutor(processes) as pool:
        seconds, peaks = zip(*pool.map(ask, range(parts)))
    return time.perf_counter() - begin, seconds, max(peaks)


def merge(program, scale, question, folder):
    """Merges the answers. Returns the sums of the merged answer, the seconds, and the peak memory."""
    begin = time.perf_counter()
    merging = subprocess.Popen([program, "merge", folder], stdout=subprocess.PIPE)
    checking = subprocess.Popen([scale, "check", question], stdin=merging.stdout, stdout=subprocess.PIPE, text=True)
    merging.stdout.close()
    _, status, usage = os.wait4(merging.pid, 0)
    seconds = time.perf_counter() - begin
    merging.returncode = os.waitstatus_to_exitcode(status)
    found = checking.communicate()[0]
    if merging.returncode != 0 or checking.returncode != 0:
        sys.exit(f"{question}: tq merge ended with status {merging.returncode}, and scale check with {checking.returncode}")
    return found, seconds, usage.ru_maxrss * 1024


def makespan(seconds, workers):
    """How long the parts take if each worker takes the next part when it is free."""
    free = [0.0] * min(workers, len(seconds))
    for taken in seconds:
        heapq.heappush(free, heapq.heappop(free) + taken)
    return max(free)


def measure(options, scale, folder, rows, question, tables):
    """Measures a query and prints a line. Returns the microseconds of all steps for each row, and the seconds of each part."""
    statement, names = STATEMENTS[question]
    right = expected(scale, question, tables)
    divided = os.path.join(folder, "parts")
    shutil.rmtree(divided, ignore_errors=True)
    words = [f"--table={name}={path}" for name in names for path in tables[name]]
    split = run([options.tq, "split", f"--parts={options.parts}", f"--out={divided}", *words, statement], os.devnull)
    asked, parts, peak = ask_parts(options.tq, divided, options.parts, options.processes)
    found, merged, merge_peak = merge(options.tq, scale, question, divided)
    if found != right:
        sys.exit(f"{rows:,} rows, {question}: the merged answer has the sums {found.strip()}, not {right.strip()}")
    steps = {"split": split, "parts": (asked, peak), "merge": (merged, merge_peak)}
    read = rows * len(names)
    texts = (f"{name} {seconds:.1f} s, {seconds / read * 1e6:.2f} us, {peak / 2**20:.0f} MiB" for name, (seconds, peak) in steps.items())
    print(f"{rows:>11,} rows, {question}, correct: {'; '.join(texts)}", flush=True)
    return sum(seconds for seconds, _ in steps.values()) / read * 1e6, parts


def main():
    options = read_options()
    first = {}
    with tempfile.TemporaryDirectory(prefix="tq-", dir=options.folder) as folder:
        scale = built(folder)
        for rows in options.rows:
            tables = write_tables(scale, folder, rows, options.processes)
            for question in STATEMENTS:
                whole, parts = measure(options, scale, folder, rows, question, tables)
                share = first.setdefault(question, whole) / whole
                times = ", ".join(f"{workers:,}: {makespan(parts, workers):.1f} s" for workers in WORKERS)
                print(f"{'':11} {whole:.2f} us for each row, throughput {share:.2f} of that of the first size; parts by workers: {times}", flush=True)


if __name__ == "__main__":
    main()
