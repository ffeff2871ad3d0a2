"""Measures what dates cost compared with numbers: python3 bench/dates.py

    --tq PROGRAM      the program to measure (bin/tq)
    --rows N ..       the sizes of the table (10000 1000000)

The script writes a payroll twice, with its days as numbers and as dates. A query selects all columns, so it reads each
row and prints most of them. The answer in dates must be the answer in numbers with each instant written as its date.
The figures are the minimum user and system seconds of five runs, and the ratio of dates to numbers.
"""

import csv
import datetime
import filecmp
import os
import sys
import tempfile

from measuring import growth, read_options, run_watched
from payroll import write_table

TRIES = 5

# The instant of the payroll's day 0, which is 2000-01-01. The instant 0 is 0001-01-01.
FIRST_DAY = datetime.date(2000, 1, 1).toordinal() - 1

STATEMENT = "VALIDTIME SELECT emp, name, dept FROM emp"


def date_of(day):
    return datetime.date.fromordinal(day + 1).isoformat()


def rewritten(source, target, text_of):
    """Copies a table. `text_of` converts the instants in its last two columns, except `forever`."""
    with open(source, newline="", encoding="utf-8") as read, open(target, "w", newline="", encoding="utf-8") as written:
        rows, writer = csv.reader(read), csv.writer(written, lineterminator="\n")
        writer.writerow(next(rows))
        for *values, start, end in rows:
            writer.writerow([*values, text_of(int(start)), end if end == "forever" else text_of(int(end))])


def measure(program, folder, rows):
    """The minimum user and system seconds for numbers, and those for dates."""
    drawn, numbers, dates = (os.path.join(folder, f"{name}.csv") for name in ("drawn", "numbers", "dates"))
    with open(drawn, "w", newline="", encoding="utf-8") as file:
        write_table(file, rows)
    rewritten(drawn, numbers, lambda day: FIRST_DAY + day)
    rewritten(drawn, dates, lambda day: date_of(FIRST_DAY + day))
    answers = {form: os.path.join(folder, f"answer-{form}.csv") for form in ("numbers", "dates", "expected")}
    commands = {
        "numbers": [program, "ask", f"--table=emp={numbers}", STATEMENT],
        "dates": [program, "ask", f"--table=emp={dates}", "--dates", STATEMENT],
    }
    seconds = {form: [] for form in commands}
    for _ in range(TRIES):
        for form, command in commands.items():
            seconds[form].append(run_watched(command, answers[form])[1])
    rewritten(answers["numbers"], answers["expected"], date_of)
    if not filecmp.cmp(answers["expected"], answers["dates"], shallow=False):
        sys.exit("the answer in dates differs from the answer in numbers")
    return min(seconds["numbers"]), min(seconds["dates"])


def main():
    options = read_options([10_000, 1_000_000])
    taken = {}
    for rows in options.rows:
        with tempfile.TemporaryDirectory(prefix="tq-") as folder:
            numbers, dates = measure(options.tq, folder, rows)
        taken[rows] = dates
        print(f"{rows:>9,} rows: numbers {numbers:.3f} s, dates {dates:.3f} s, {dates / numbers:.2f} times as long", flush=True)
    print(f"dates: {growth(taken)}")


if __name__ == "__main__":
    main()
