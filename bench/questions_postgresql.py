"""Coalesced queries in SQL for PostgreSQL: the arguments with which psql loads the tables and writes the answer.

The tables are unlogged, so that parallel workers can read them, and are analysed. An end `forever` is NULL in them.
"""

FOREVER = 1_000_000_000_000

TABLES = {
    "emp": ("emp bigint, name text, dept text", "FORCE_NOT_NULL (name, dept)"),
    "sal": ("emp bigint, amount bigint", "FORCE_NOT_NULL (amount)"),
}

# The rows of the tables and of their join, with `forever` as a number.
ROWS = {
    "emp": f"SELECT emp, name, dept, start, coalesce(stop, {FOREVER}) AS stop FROM emp",
    "sal": f"SELECT emp, amount, start, coalesce(stop, {FOREVER}) AS stop FROM sal",
    "joined": """
        SELECT e.emp, name, dept, amount, greatest(e.start, s.start) AS start, least(e.stop, s.stop) AS stop
        FROM ({emp}) e JOIN ({sal}) s ON e.emp = s.emp AND e.start < s.stop AND s.start < e.stop""",
}
ROWS["joined"] = ROWS["joined"].format(**ROWS)

# The changes of the number of copies of each row of values.
CHANGES = """
    SELECT {columns}, instant, sum(change)::int AS change
    FROM ({rows}) r, LATERAL (VALUES (start, 1), (stop, -1)) c (instant, change)
    GROUP BY {columns}, instant HAVING sum(change) <> 0"""

# For each key the copies in emp minus those in sal, or 0 if this is negative: the changes of that number.
DIFFERENCE = """
    SELECT emp, instant, greatest(copies, 0) - greatest(copies - change, 0) AS change
    FROM (SELECT emp, instant, change, sum(change) OVER (PARTITION BY emp ORDER BY instant) AS copies
          FROM (SELECT emp, instant, sum(change)::int AS change
                FROM (SELECT emp, start, stop, 1 AS sign FROM ({emp}) e
                      UNION ALL SELECT emp, start, stop, -1 FROM ({sal}) s) r,
                     LATERAL (VALUES (start, sign), (stop, -sign)) c (instant, change)
                GROUP BY emp, instant) c) c
    WHERE greatest(copies, 0) <> greatest(copies - change, 0)"""

# Each change begins or ends a period at each level between the copies before it and those after it.
RUNS = """
    SELECT {columns}, instant AS "from", nullif(next, {forever}) AS "to"
    FROM (SELECT {columns}, instant, begins, lead(instant) OVER (PARTITION BY {columns}, level ORDER BY instant) AS next
          FROM (SELECT {columns}, instant, change > 0 AS begins,
                       generate_series(least(copies, copies - change) + 1, greatest(copies, copies - change)) AS level
                FROM (SELECT *, sum(change) OVER (PARTITION BY {columns} ORDER BY instant) AS copies
                      FROM ({changes}) c) c) c) c
    WHERE begins ORDER BY {columns}, instant, next"""

# For each group the maximal periods with the same total and at least one row.
GROUPS = """
    SELECT dept, total AS {name}, instant AS "from", nullif(next, {forever}) AS "to"
    FROM (SELECT *, lead(instant) OVER (PARTITION BY dept ORDER BY instant) AS next
          FROM (SELECT *, lag(copies > 0) OVER (PARTITION BY dept ORDER BY instant) AS had_rows,
                       lag(total) OVER (PARTITION BY dept ORDER BY instant) AS before
                FROM (SELECT dept, instant, sum(copies) OVER (PARTITION BY dept ORDER BY instant) AS copies,
                             sum(total) OVER (PARTITION BY dept ORDER BY instant) AS total
                      FROM (SELECT dept, instant, sum(copies)::int AS copies, sum(total)::bigint AS total
                            FROM ({rows}) r,
                                 LATERAL (VALUES (start, 1, {weight}), (stop, -1, -{weight})) c (instant, copies, total)
                            GROUP BY dept, instant) c) c) c
          WHERE had_rows IS DISTINCT FROM (copies > 0) OR before IS DISTINCT FROM total) c
    WHERE copies > 0 ORDER BY dept, total, instant"""


def query(question):
    """The SQL of the query with this name."""
    if question == "counts":
        return GROUPS.format(name="count", weight="1", rows=ROWS["emp"], forever=FOREVER)
    if question == "sums":
        return GROUPS.format(name="sum", weight="amount", rows=ROWS["joined"], forever=FOREVER)
    if question == "difference":
        return RUNS.format(columns="emp", changes=DIFFERENCE.format(**ROWS), forever=FOREVER)
    columns, rows = ("emp, name, dept, amount", "joined") if question == "join" else (question, "emp")
    changes = CHANGES.format(columns=columns, rows=ROWS[rows])
    return RUNS.format(columns=columns, changes=changes, forever=FOREVER)


def words(emp, sal, question):
    """The arguments of psql: commands that run one after another in one session."""
    paths = {"emp": emp, "sal": sal} if question in ("join", "difference", "sums") else {"emp": emp}
    commands = ["SET client_min_messages = warning"]
    for name, path in paths.items():
        columns, options = TABLES[name]
        commands.append(f"DROP TABLE IF EXISTS {name}")
        commands.append(f"CREATE UNLOGGED TABLE {name} ({columns}, start bigint, stop bigint)")
        commands.append(f"\\copy {name} FROM '{path}' WITH (FORMAT csv, HEADER, NULL 'forever', {options})")
        commands.append(f"ANALYZE {name}")
    commands.append(f"COPY ({query(question)}) TO STDOUT WITH (FORMAT csv, HEADER, NULL 'forever')")
    commands.append(f"DROP TABLE {', '.join(paths)}")
    return [word for command in commands for word in ("-c", command)]
