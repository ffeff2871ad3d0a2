"""Runs commands for the measurements, measures their time and peak memory, and compares what they print."""

import argparse
import csv
import filecmp
import math
import os
import resource
import subprocess
import sys
import time
from dataclasses import asdict, dataclass, fields

HERE = os.path.dirname(os.path.abspath(__file__))
TRIES = 3

# Queries over the two tables of a payroll.
QUESTIONS = {
    "name": "VALIDTIME SELECT name FROM emp",
    "counts": "VALIDTIME SELECT dept, COUNT(*) FROM emp GROUP BY dept",
    "join": "VALIDTIME SELECT emp.emp, name, dept, amount FROM emp, sal WHERE emp.emp = sal.emp",
    "sums": "VALIDTIME SELECT dept, SUM(amount) FROM emp, sal WHERE emp.emp = sal.emp GROUP BY dept",
    "difference": "VALIDTIME SELECT emp FROM emp EXCEPT ALL SELECT emp FROM sal",
}


@dataclass
class Measurement:
    """A row of the CSV files of measurements. An unknown value is None."""

    tables: str
    question: str
    rows: int  # of each table
    program: str
    workers: int
    seconds: float  # the minimum, from start to end, with reading and writing
    processor_seconds: float | None  # the minimum of user and system seconds
    peak_bytes: int | None  # the maximum
    file_bytes: int  # of the tables that the query reads
    table_count: int

    def bytes_a_row(self):
        """The peak memory for each row of the tables, without the size of the files; None if it is unknown."""
        if self.peak_bytes is None:
            return None
        return (self.peak_bytes - self.file_bytes) / (self.rows * self.table_count)


def write_measurements(path, measurements):
    os.makedirs(os.path.dirname(os.path.abspath(path)), exist_ok=True)
    with open(path, "w", newline="", encoding="utf-8") as file:
        writer = csv.DictWriter(file, [field.name for field in fields(Measurement)], lineterminator="\n")
        writer.writeheader()
        for measurement in measurements:
            line = asdict(measurement)
            writer.writerow({name: round(value, 6) if isinstance(value, float) else value for name, value in line.items()})


def read_measurements(path):
    with open(path, newline="", encoding="utf-8") as file:
        return [Measurement(**{name: value_of(value) for name, value in line.items()}) for line in csv.DictReader(file)]


def value_of(text):
    """The text as a number if it is one, else the text; None if it is empty."""
    for kind in (int, float):
        try:
            return kind(text)
        except ValueError:
            pass
    return text or None


def read_options(sizes):
    """The options of most scripts: the program to measure, and the sizes of the tables, by default `sizes`."""
    parser = argparse.ArgumentParser()
    parser.add_argument("--tq", default=os.path.join(HERE, "..", "bin", "tq"))
    parser.add_argument("--rows", type=int, nargs="+", default=sizes)
    return parser.parse_args()


def run_watched(command, output):
    """Runs a command and writes its output to a file. Ends the script if the command fails.

    Returns its seconds, its user and system seconds, and its peak memory in bytes.
    """
    with open(output, "wb") as sink:
        begin = time.perf_counter()
        child = subprocess.Popen(command, stdout=sink)
        _, status, usage = os.wait4(child.pid, 0)
        seconds = time.perf_counter() - begin
    child.returncode = os.waitstatus_to_exitcode(status)
    if child.returncode != 0:
        sys.exit(f"{' '.join(command)}: status {child.returncode}")
    return seconds, usage.ru_utime + usage.ru_stime, usage.ru_maxrss * 1024


def run(command, output):
    """Runs a command as `run_watched` does. Returns its seconds and its peak memory in bytes."""
    seconds, _, peak = run_watched(command, output)
    return seconds, peak


def run_in_turn(commands, folder, tries):
    """Runs commands in turn, each `tries` times. Ends the script if they print different bytes.

    `commands` maps names to commands. Returns by name the minimum seconds, the minimum user and system seconds, and the
    maximum peak memory.
    """
    outputs = {name: os.path.join(folder, f"answer-{number}.csv") for number, name in enumerate(commands)}
    runs = {name: [] for name in commands}
    for _ in range(tries):
        for name, command in commands.items():
            runs[name].append(run_watched(command, outputs[name]))
    first, *others = commands
    for name in others:
        if not filecmp.cmp(outputs[first], outputs[name], shallow=False):
            sys.exit(f"the answer of {name} differs from that of {first}: {' '.join(commands[first])}")
    found = {}
    for name, its in runs.items():
        seconds, processor, peaks = zip(*its)
        found[name] = min(seconds), min(processor), max(peaks)
    return found


def files_read(tables, statement):
    """The files of the tables that the statement reads, by the names of the tables."""
    sources = statement.split(" FROM ", 1)[1].replace(",", " ").split()
    return {name: path for name, path in tables.items() if name in sources}


def ask_words(program, tables, statement, workers=1):
    """The command that runs a statement over the files of tables with a build of tq."""
    words = [f"--table={name}={path}" for name, path in files_read(tables, statement).items()]
    return [program, "ask", *words, f"--workers={workers}", statement]


def write_payroll(folder, rows):
    """Writes a payroll whose tables have this number of rows. Returns the paths by the names of the tables."""
    tables = {}
    for name, words in {"emp": ["1"], "sal": ["2", "pay"]}.items():
        tables[name] = os.path.join(folder, f"{name}.csv")
        run([sys.executable, os.path.join(HERE, "payroll.py"), str(rows), *words], tables[name])
    return tables


def ask(tq, name, table, columns, output):
    """Selects columns of a table. Returns the minimum seconds and the maximum peak memory of TRIES runs."""
    statement = f"VALIDTIME SELECT {', '.join(columns)} FROM {name}"
    tries = [run([tq, "ask", "--table", f"{name}={table}", statement], output) for _ in range(TRIES)]
    return min(seconds for seconds, _ in tries), max(peak for _, peak in tries)


def sweep(table, columns, answer, output):
    """The seconds of the plain Python script. Ends the script if it prints another answer than `answer`."""
    script = os.path.join(HERE, "questions_python.py")
    seconds, _ = run([sys.executable, script, table, "", ",".join(columns)], output)
    if not filecmp.cmp(answer, output, shallow=False):
        sys.exit(f"questions_python.py prints another answer for {', '.join(columns)} of {table}")
    return seconds


def build(crate):
    """Builds a program of crates/, and returns its path."""
    top = os.path.dirname(HERE)
    subprocess.run([sys.executable, os.path.join(top, "gate", "build.py"), crate], check=True, stdout=subprocess.DEVNULL)
    return os.path.join(top, "bin", crate)


def held_in_one(rows):
    """The peak memory in bytes of a process that stores this number of rows in one `Db`."""
    _, peak = run([build("bench_snapshot"), "db", str(rows)], os.devnull)
    return peak


def known_peak(peak):
    """The peak memory of a child process, or None if it is unknown.

    A child begins with the peak of this script, so a lower peak is not visible.
    """
    own = resource.getrusage(resource.RUSAGE_SELF).ru_maxrss * 1024
    return peak if peak > 1.5 * own else None


def bytes_per_row(peak, table, rows):
    """The peak memory for each row, without the size of the file, as text; `-` if it is unknown."""
    return "-" if known_peak(peak) is None else f"{(peak - os.path.getsize(table)) / rows:.0f}"


def growth(seconds):
    """How the time grows from each size to the next, compared with n log n, as text. `seconds` maps sizes to seconds."""
    sizes = sorted(seconds)
    steps = []
    for small, large in zip(sizes, sizes[1:]):
        expected = large * math.log(large) / (small * math.log(small))
        steps.append(f"{small:,} to {large:,} rows {seconds[large] / seconds[small]:.1f} times (n log n: {expected:.1f})")
    return ", ".join(steps)


def each_size(sizes, measure):
    """Measures each size with a function that prints a line and returns the seconds. Prints how the seconds grow."""
    print(f"{'':<20} {growth({rows: measure(rows) for rows in sizes})}", flush=True)
