"""Measures what an import costs compared with loading the file that it wrote: python3 bench/imports.py

    --tq PROGRAM      the program to measure (bin/tq)
    --rows N ..       the sizes of the export (10000 1000000)

The script writes a payroll as a personnel system exports it: semicolons, `dd.mm.yyyy`, included ends, amounts with
separators of thousands and two decimals. It imports the payroll into a table file, which must equal the one that the script
writes itself. Then it runs three queries over that file:

- `count` counts the rows and stores no values;
- `load` selects all columns with a condition that no row meets, so it loads them and prints no row;
- `columns` selects all columns.

The figures are the minimum seconds of five runs, with the commands in turn, and the maximum peak memory of the import.
"""

import csv
import datetime
import filecmp
import os
import random
import sys
import tempfile

from measuring import growth, read_options, run
from payroll import write_table

TRIES = 5
FIRST_DAY = datetime.date(2000, 1, 1).toordinal()

OPTIONS = ["--delimiter", ";", "--date-format", "dd.mm.yyyy", "--thousands", ",", "--inclusive", "--open", ""]
COLUMNS = ["--from", "Valid from", "--to", "Valid to", "--key", "Employee ID"]


def write_export(drawn, export, wanted):
    """Writes the rows of the payroll `drawn` as an export, and as the table file that its import must write."""
    random.seed(1)
    with (
        open(drawn, newline="", encoding="utf-8") as read,
        open(export, "w", newline="", encoding="utf-8") as exported,
        open(wanted, "w", newline="", encoding="utf-8") as written,
    ):
        rows = csv.reader(read)
        export_writer, table_writer = csv.writer(exported, delimiter=";"), csv.writer(written, lineterminator="\n")
        next(rows)
        export_writer.writerow(["Employee ID", "Last name", "Department", "Salary", "Valid from", "Valid to"])
        table_writer.writerow(["employee_id:int", "last_name:text", "department:text", "salary:int", "from", "to"])
        for key, name, department, start, end in rows:
            cents = random.randrange(100_000, 900_000)
            first = datetime.date.fromordinal(FIRST_DAY + int(start))
            after = None if end == "forever" else datetime.date.fromordinal(FIRST_DAY + int(end))
            last = f"{after - datetime.timedelta(days=1):%d.%m.%Y}" if after else ""
            export_writer.writerow([key, name, department, f"{cents // 100:,}.{cents % 100:02}", f"{first:%d.%m.%Y}", last])
            table_writer.writerow([key, name, department, cents, first.isoformat(), after.isoformat() if after else "forever"])


def measure(program, folder, rows):
    """The minimum seconds of each command, by name, and the maximum peak memory of the import."""
    drawn, export, wanted, imported, answer = (os.path.join(folder, f"{name}.csv") for name in ("drawn", "export", "wanted", "imported", "answer"))
    with open(drawn, "w", newline="", encoding="utf-8") as file:
        write_table(file, rows)
    write_export(drawn, export, wanted)
    table = ["--dates", f"--table=emp={imported}"]
    commands = {
        "import": [program, "import", *OPTIONS, *COLUMNS, "--output", imported, export],
        "count": [program, "ask", *table, "VALIDTIME SELECT COUNT(*) FROM emp"],
        "load": [program, "ask", *table, "VALIDTIME SELECT employee_id, last_name, department, salary FROM emp WHERE last_name = ''"],
        "columns": [program, "ask", *table, "VALIDTIME SELECT employee_id, last_name, department, salary FROM emp"],
    }
    runs = {name: [] for name in commands}
    for _ in range(TRIES):
        for name, command in commands.items():
            runs[name].append(run(command, answer))
    if not filecmp.cmp(imported, wanted, shallow=False):
        sys.exit("the imported table differs from the expected one")
    seconds = {name: min(taken for taken, _ in its) for name, its in runs.items()}
    return seconds, max(peak for _, peak in runs["import"])


def main():
    options = read_options([10_000, 1_000_000])
    taken = {}
    for rows in options.rows:
        with tempfile.TemporaryDirectory(prefix="tq-") as folder:
            seconds, peak = measure(options.tq, folder, rows)
        taken[rows] = seconds["import"]
        ratios = ", ".join(f"{name} {seconds[name]:.3f} s (import: {seconds['import'] / seconds[name]:.2f} times as long)" for name in ("count", "load", "columns"))
        print(f"{rows:>9,} rows: import {seconds['import']:.3f} s, {peak / 2**20:.0f} MiB; {ratios}", flush=True)
    print(f"import: {growth(taken)}")


if __name__ == "__main__":
    main()
