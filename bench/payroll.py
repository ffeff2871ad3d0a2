"""Writes a payroll-like table with any number of rows: python3 bench/payroll.py ROWS [SEED [pay]] > emp.csv

With `pay` a row has the amount that a person earns, instead of name and department.

A person works for one department after another. Most periods meet the one before (a raise). Some leave a gap, some
overlap it (a second post), and some rows occur twice. The last period of many persons is open (`forever`). The same
arguments produce the same bytes.
"""

import csv
import random
import sys

DEPARTMENTS = ["toys", "food", "books", "garden", "music", "shoes", "R&D, lab", 'the "annex"']
FIRST = ["ann", "bob", "cat", "dan", "eve", "fay", "gil", "hal", "ida", "jon", "kim", "lou"]
LAST = ["adams", "brown", "clark", "davis", "evans", "frank", "o'hara", "van dyke", "young"]
LAST_DAY = 20_000


def person_rows(number, persons, random_source):
    """The rows of one person, in the order of their periods."""
    name = " ".join([random_source.choice(FIRST), random_source.choice(LAST), str(random_source.randrange(persons))])
    department = random_source.choice(DEPARTMENTS)
    start = random_source.randrange(LAST_DAY // 2)
    rows = []
    for _ in range(random_source.randint(1, 8)):
        end = start + random_source.randint(30, 1_500)
        rows.append([number, name, department, start, end])
        if random_source.random() < 0.05:
            rows.append(list(rows[-1]))
        step = random_source.random()
        if step < 0.15:
            end += random_source.randint(1, 400)
        elif step < 0.30:
            end -= random_source.randint(1, end - start - 1)
        if random_source.random() < 0.25:
            department = random_source.choice(DEPARTMENTS)
        start = end
    if random_source.random() < 0.4:
        rows[-1][4] = "forever"
    return rows


def with_pay(row, random_source):
    """The row with an amount instead of name and department."""
    number, _, _, start, end = row
    return [number, 2_000 + 100 * random_source.randrange(40), start, end]


def write_table(output, rows, seed=1, pay=False):
    """Writes a header and exactly this number of rows, in random order within batches of about 10,000."""
    random_source = random.Random(seed)
    writer = csv.writer(output, lineterminator="\n")
    writer.writerow(["emp:int", "amount:int", "from", "to"] if pay else ["emp:int", "name:text", "dept:text", "from", "to"])
    persons = max(1, rows // 5)
    number = 0
    shelf = []
    while rows > 0:
        number += 1
        shelf.extend(person_rows(number, persons, random_source))
        if len(shelf) >= 10_000 or len(shelf) >= rows:
            random_source.shuffle(shelf)
            batch = shelf[:rows]
            if pay:
                batch = [with_pay(row, random_source) for row in batch]
            writer.writerows(batch)
            rows -= len(batch)
            shelf = []


if __name__ == "__main__":
    write_table(sys.stdout, int(sys.argv[1]), int(sys.argv[2]) if len(sys.argv) > 2 else 1, "pay" in sys.argv[3:])
