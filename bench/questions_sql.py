"""Coalesced queries in SQL for sqlite3: python3 bench/questions_sql.py EMP SAL QUESTION

QUESTION is join, difference, counts, sums, or the columns to select from EMP, separated by commas. The script loads the
tables that the query reads into memory. For join and sums it indexes SAL by the key.
"""

import csv
import sqlite3
import sys

FOREVER = 1_000_000_000_000

# The changes of the number of copies of each row of values.
COUNTS = """
CREATE TABLE counts AS
SELECT *, SUM(change) OVER (PARTITION BY {columns} ORDER BY instant) AS copies
FROM (SELECT {columns}, instant, SUM(change) AS change
      FROM (SELECT {columns}, start AS instant, 1 AS change FROM {rows}
            UNION ALL SELECT {columns}, stop, -1 FROM {rows})
      GROUP BY {columns}, instant HAVING SUM(change) <> 0)
"""

LEVELS = """
WITH RECURSIVE numbers(level) AS (
    SELECT 1 UNION ALL SELECT level + 1 FROM numbers WHERE level < (SELECT MAX(copies) FROM counts))
INSERT INTO levels SELECT level FROM numbers
"""

# Each change begins or ends a period at each level between the copies before it and those after it.
RUNS = """
SELECT {columns}, instant, next
FROM (SELECT {columns}, instant, change > 0 AS begins,
             LEAD(instant) OVER (PARTITION BY {columns}, level ORDER BY instant) AS next
      FROM counts CROSS JOIN levels
      WHERE level > MIN(copies, copies - change) AND level <= MAX(copies, copies - change))
WHERE begins ORDER BY {columns}, instant, next
"""

JOIN = """
CREATE TABLE rows AS
SELECT e.emp, name, dept, amount, MAX(e.start, s.start) AS start, MIN(e.stop, s.stop) AS stop
FROM emp e JOIN sal s ON e.emp = s.emp AND e.start < s.stop AND s.start < e.stop
"""

# For each key the copies in emp minus those in sal, or 0 if this is negative: the changes of that number.
DIFFERENCE = """
CREATE TABLE counts AS
SELECT emp, instant, MAX(copies, 0) - MAX(before, 0) AS change, MAX(copies, 0) AS copies
FROM (SELECT emp, instant, copies, copies - change AS before
      FROM (SELECT emp, instant, change, SUM(change) OVER (PARTITION BY emp ORDER BY instant) AS copies
            FROM (SELECT emp, instant, SUM(change) AS change
                  FROM (SELECT emp, start AS instant, 1 AS change FROM emp UNION ALL SELECT emp, stop, -1 FROM emp
                        UNION ALL SELECT emp, start, -1 FROM sal UNION ALL SELECT emp, stop, 1 FROM sal)
                  GROUP BY emp, instant)))
WHERE MAX(copies, 0) <> MAX(before, 0)
"""

# For each group the maximal periods with the same total and at least one row. A period begins only if the total changes, or if
# the group gets its first row.
GROUPS = """
SELECT dept, total, instant, next
FROM (SELECT *, LEAD(instant) OVER (PARTITION BY dept ORDER BY instant) AS next
      FROM (SELECT *, LAG(copies > 0) OVER (PARTITION BY dept ORDER BY instant) AS had_rows,
                   LAG(total) OVER (PARTITION BY dept ORDER BY instant) AS before
            FROM (SELECT dept, instant, SUM(copies) OVER (PARTITION BY dept ORDER BY instant) AS copies,
                         SUM(total) OVER (PARTITION BY dept ORDER BY instant) AS total
                  FROM (SELECT dept, instant, SUM(copies) AS copies, SUM(total) AS total
                        FROM (SELECT dept, start AS instant, 1 AS copies, {weight} AS total FROM {rows}
                              UNION ALL SELECT dept, stop, -1, -({weight}) FROM {rows})
                        GROUP BY dept, instant)))
      WHERE had_rows IS NOT (copies > 0) OR before IS NOT total)
WHERE copies > 0 ORDER BY dept, total, instant
"""


def load(path, database, table):
    """Creates a table with the columns of the file, `start` and `stop`, and fills it."""
    with open(path, newline="", encoding="utf-8") as file:
        records = csv.reader(file)
        header = next(records)[:-2]
        names = [field.split(":")[0] for field in header]
        kinds = ["INTEGER" if field.endswith(":int") else "TEXT" for field in header]
        columns = ", ".join(f"{name} {kind}" for name, kind in zip(names, kinds))
        database.execute(f"CREATE TABLE {table} ({columns}, start INTEGER, stop INTEGER)")
        places = ", ".join("?" * (len(names) + 2))
        rows = ((*record[:-1], FOREVER if record[-1] == "forever" else record[-1]) for record in records)
        database.executemany(f"INSERT INTO {table} VALUES ({places})", rows)


def write_rows(columns, rows):
    """Writes a header and rows whose last two values are start and stop."""
    sys.stdout.reconfigure(encoding="utf-8", newline="")
    writer = csv.writer(sys.stdout, lineterminator="\n")
    writer.writerow([*columns, "from", "to"])
    for row in rows:
        writer.writerow([*row[:-1], "forever" if row[-1] == FOREVER else row[-1]])


def write_runs(database, columns):
    """Writes the coalesced rows of the table `counts`."""
    names = ", ".join(columns)
    database.execute("CREATE TABLE levels (level INTEGER PRIMARY KEY)")
    database.execute(LEVELS)
    write_rows(columns, database.execute(RUNS.format(columns=names)))


def write_groups(database, rows, weight, name):
    """Writes the periods of each department's total."""
    write_rows(["dept", name], database.execute(GROUPS.format(rows=rows, weight=weight)))


def write_columns(database, rows, columns):
    """Writes the coalesced rows of these columns of a table."""
    database.execute(COUNTS.format(columns=", ".join(columns), rows=rows))
    write_runs(database, columns)


def main():
    emp, sal, question = sys.argv[1:]
    database = sqlite3.connect(":memory:")
    load(emp, database, "emp")
    if question in ("join", "difference", "sums"):
        load(sal, database, "sal")
    if question in ("join", "sums"):
        database.execute("CREATE INDEX of_key ON sal (emp)")
        database.execute(JOIN)
    if question == "difference":
        database.execute(DIFFERENCE)
        write_runs(database, ["emp"])
    elif question == "counts":
        write_groups(database, "emp", "1", "count")
    elif question == "sums":
        write_groups(database, "rows", "amount", "sum")
    elif question == "join":
        write_columns(database, "rows", ["emp", "name", "dept", "amount"])
    else:
        write_columns(database, "emp", question.split(","))


if __name__ == "__main__":
    main()
