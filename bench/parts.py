"""Measures what parts cost compared with one query over whole tables: python3 bench/parts.py

    --tq PROGRAM      the program to measure (bin/tq)
    --rows N ..       the sizes of the tables (10000 1000000)

The script divides a payroll into 8 and into 64 parts. It runs the query over one part after another, with one worker, and
merges the answers. The merged answer must equal that of one query over whole tables, which is measured too. The figures are
the minimum seconds of five runs, with the commands in turn, and the maximum peak memory of all processes of a kind.
"""

import filecmp
import os
import shutil
import sys
import tempfile

from measuring import ask_words, files_read, read_options, run, write_payroll

TRIES = 5
PARTS = (8, 64)
STATEMENTS = {
    "name": "VALIDTIME SELECT name FROM emp",
    "counts": "VALIDTIME SELECT dept, COUNT(*) FROM emp GROUP BY dept",
    "join": "VALIDTIME SELECT emp.emp, name, amount FROM emp, sal WHERE emp.emp = sal.emp",
}


def ask_parts(program, folder):
    """Runs the query over each part. Returns the sum of the seconds, and the maximum peak memory."""
    seconds, peaks = 0.0, []
    for part in os.listdir(folder):
        words_path = os.path.join(folder, part, "args")
        if os.path.exists(words_path):
            with open(words_path, encoding="utf-8") as file:
                words = file.read().split("\0")
            taken, peak = run([program, "ask", *words], os.path.join(folder, part, "answer.csv"))
            seconds += taken
            peaks.append(peak)
    return seconds, max(peaks)


def measure(program, folder, tables, statement, parts):
    """The minimum seconds and the maximum peak memory of each step, by its name, and the number of rows of the answer."""
    divided, whole, merged = (os.path.join(folder, name) for name in ("parts", "whole.csv", "merged.csv"))
    words = [f"--table={name}={path}" for name, path in files_read(tables, statement).items()]
    runs = {"split": [], "parts": [], "merge": [], "whole": []}
    for _ in range(TRIES):
        shutil.rmtree(divided, ignore_errors=True)
        runs["split"].append(run([program, "split", f"--parts={parts}", f"--out={divided}", *words, statement], os.devnull))
        runs["parts"].append(ask_parts(program, divided))
        runs["merge"].append(run([program, "merge", divided], merged))
        runs["whole"].append(run(ask_words(program, tables, statement), whole))
        if not filecmp.cmp(merged, whole, shallow=False):
            sys.exit(f"the merged answer of {parts} parts differs from that over whole tables: {statement}")
    with open(whole, "rb") as file:
        answer_rows = sum(1 for _ in file) - 1
    return {name: (min(taken for taken, _ in its), max(peak for _, peak in its)) for name, its in runs.items()}, answer_rows


def main():
    options = read_options([10_000, 1_000_000])
    print("microseconds for each row of the tables (merge: of the answer), and MiB of the largest process")
    for rows in options.rows:
        with tempfile.TemporaryDirectory(prefix="tq-") as folder:
            tables = write_payroll(folder, rows)
            for name, statement in STATEMENTS.items():
                read = rows * len(files_read(tables, statement))
                for parts in PARTS:
                    steps, answer_rows = measure(options.tq, folder, tables, statement, parts)
                    texts = (
                        f"{step} {seconds / (answer_rows if step == 'merge' else read) * 1e6:.2f} ({peak / 2**20:.0f})"
                        for step, (seconds, peak) in steps.items()
                    )
                    print(f"{rows:>9,} rows, {name}, {parts} parts, answer of {answer_rows:,} rows: {', '.join(texts)}", flush=True)


if __name__ == "__main__":
    main()
