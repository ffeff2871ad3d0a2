"""Measures the formats of answers against CSV: python3 bench/formats.py

    --tq PROGRAM      the program to measure (bin/tq)
    --rows N ..       the sizes of the tables (10000 1000000)

The script runs two queries over a payroll in each format: one column of a table, and the join on the key. The figures are
the minimum seconds and the maximum peak memory of five runs, with the formats in turn. The script compares the number of
rows of the answers as JSON Lines and as CSV.
"""

import json
import os
import tempfile

from measuring import QUESTIONS, files_read, read_options, run, write_payroll

TRIES = 5
FORMATS = ["csv", "tsv", "jsonl", "json", "markdown", "table"]
ASKED = ["name", "join"]


def measure(program, tables, folder, question):
    """The minimum seconds and the maximum peak memory of each format."""
    options = [f"--table={name}={path}" for name, path in files_read(tables, QUESTIONS[question]).items()]
    runs = {name: [] for name in FORMATS}
    answers = {name: os.path.join(folder, f"answer.{name}") for name in FORMATS}
    for _ in range(TRIES):
        for name in FORMATS:
            runs[name].append(run([program, "ask", "--format", name, *options, QUESTIONS[question]], answers[name]))
    with open(answers["csv"], encoding="utf-8") as csv_file, open(answers["jsonl"], encoding="utf-8") as lines:
        if sum(1 for _ in csv_file) - 1 != sum(1 for line in lines if json.loads(line)):
            raise SystemExit("the answers have different numbers of rows")
    return {name: (min(taken for taken, _ in its), max(peak for _, peak in its)) for name, its in runs.items()}


def main():
    options = read_options([10_000, 1_000_000])
    print(f"{'query':<10}{'rows':>10}  {'format':<10}{'seconds':>9}{'of csv':>8}{'MiB':>7}")
    for rows in options.rows:
        with tempfile.TemporaryDirectory(prefix="tq-") as folder:
            tables = write_payroll(folder, rows)
            for question in ASKED:
                measured = measure(options.tq, tables, folder, question)
                for name, (seconds, peak) in measured.items():
                    ratio = seconds / measured["csv"][0]
                    print(f"{question:<10}{rows:>10,}  {name:<10}{seconds:>9.3f}{ratio:>8.2f}{peak / 2**20:>7.0f}", flush=True)


if __name__ == "__main__":
    main()
