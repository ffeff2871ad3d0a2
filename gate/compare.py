#!/usr/bin/env python3
"""Compares two builds of tq over random statements and random sessions.

    gate/compare.py OLD NEW [--statements N] [--sessions N] [--seed S] [--lanes L]

Both builds run each statement. The new one also runs it with 2 to 16 workers. Standard output, standard error and exit
status must be the same. Each session sends the same lines to both builds. The script prints the first 20 statements and
sessions that differ, with their numbers. The last line is 'N compared, M differ', and the exit status is 1 if any differ.
"""

import argparse
import concurrent.futures
import pathlib
import random
import subprocess
import sys
import tempfile

SECONDS = 120
# Each statement whose number is a multiple of EACH runs over larger tables, and has one source per query. All others run over
# small tables.
FEW_ROWS, MANY_ROWS, EACH = 25, 2000, 20
WORDS = ["", "a", "b", "ann", "bob", "o'k", 'say "x"', "x,y", "ä", "longer than fourteen", "abcdefghijklmnopqrstuvwxyz", " "]
SIGNS = ["=", "=", "=", "<>", "<", "<=", ">", ">="]


def read_options():
    parser = argparse.ArgumentParser()
    parser.add_argument("old", type=pathlib.Path)
    parser.add_argument("new", type=pathlib.Path)
    parser.add_argument("--statements", type=int, default=1000)
    parser.add_argument("--sessions", type=int, default=100)
    parser.add_argument("--seed", type=int, default=1)
    parser.add_argument("--lanes", type=int, default=4)
    return parser.parse_args()


def field(text):
    """The text as a CSV field."""
    if any(mark in text for mark in ',"\n') or text == "":
        return '"' + text.replace('"', '""') + '"'
    return text


def literal(text):
    return "'" + text.replace("'", "''") + "'"


class Schema:
    """A table: its name and its columns, each with its kind. The first column is a number."""

    def __init__(self, draw, name):
        self.name = name
        kinds = [draw.choice(["int", "text"]) for _ in range(draw.randint(0, 3))]
        self.columns = [("k", "int")] + [(f"c{place}", kind) for place, kind in enumerate(kinds)]

    def header(self):
        return ",".join(f"{name}:{kind}" for name, kind in self.columns) + ",from,to\n"


def value(draw, kind, spread):
    if kind == "int":
        return draw.choice([0, 1, -1, draw.randint(-spread, spread), draw.randint(-spread, spread)])
    return draw.choice(WORDS[: draw.choice([4, len(WORDS)])])


def record(draw, schema, spread):
    shown = [str(v) if isinstance(v, int) else field(v) for v in (value(draw, kind, spread) for _, kind in schema.columns)]
    return ",".join(shown)


def table(draw, schema, rows):
    """The text of a table file with this number of rows."""
    spread, last = draw.choice([2, 20, 2000]), draw.choice([6, 50, 5000])
    lines = [schema.header()]
    for _ in range(rows):
        start = draw.randint(0, last)
        end = "forever" if draw.random() < 0.1 else str(start + draw.randint(1, draw.choice([3, last + 1])))
        lines.append(f"{record(draw, schema, spread)},{start},{end}\n")
    return "".join(lines)


class Query:
    """A random query over at most `most` sources of these tables, with items of these kinds if possible."""

    def __init__(self, draw, schemas, kinds, most):
        self.draw = draw
        count = min(most, draw.choice([1, 1, 1, 2, 2, 3, 4]))
        self.sources = [(draw.choice(schemas), f"s{place}") for place in range(count)]
        self.columns = [(f"{alias}.{name}", kind) for schema, alias in self.sources for name, kind in schema.columns]
        self.kinds = kinds

    def column(self, kind):
        found = [name for name, its in self.columns if its == kind]
        return self.draw.choice(found) if found else None

    def operand(self, kind, spread):
        named = self.column(kind) if self.draw.random() < 0.6 else None
        if named:
            return named
        drawn = value(self.draw, kind, spread)
        return str(drawn) if kind == "int" else literal(drawn)

    def test(self, depth):
        if depth == 0 or self.draw.random() < 0.4:
            kind = self.draw.choice(["int", "int", "text"])
            spread = self.draw.choice([2, 20])
            return f"{self.operand(kind, spread)} {self.draw.choice(SIGNS)} {self.operand(kind, spread)}"
        if self.draw.random() < 0.15:
            return f"NOT ({self.test(depth - 1)})"
        joined = self.draw.choice([" AND ", " AND ", " OR "])
        return "(" + joined.join(self.test(depth - 1) for _ in range(self.draw.randint(2, 3))) + ")"

    def links(self):
        """Equalities that link most sources to an earlier one, and sometimes a condition."""
        parts = []
        for place in range(1, len(self.sources)):
            if self.draw.random() < 0.9:
                parts.append(f"s{self.draw.randrange(place)}.k = s{place}.k")
        if self.draw.random() < 0.5:
            parts.append(self.test(2))
        return parts

    def item(self, kind, grouped):
        """An item of this kind if possible: a column or, in a query that groups or counts, a count or a sum."""
        if grouped is None:
            return self.column(kind) or self.column("int")
        shown = [name for name, its in grouped if its == kind]
        if shown and (kind == "text" or self.draw.random() < 0.5):
            return self.draw.choice(shown)
        return f"SUM({self.column('int')})" if grouped and self.draw.random() < 0.5 else "COUNT(*)"

    def text(self):
        grouped = None
        if self.draw.random() < 0.4:
            grouped = list(dict.fromkeys(self.draw.choice(self.columns) for _ in range(self.draw.randint(0, 2))))
        items = [self.item(kind, grouped) for kind in self.kinds]
        parts = self.links()
        text = "SELECT " + ", ".join(items) + " FROM " + ", ".join(f"{schema.name} {alias}" for schema, alias in self.sources)
        if parts:
            text += " WHERE " + " AND ".join(parts)
        if grouped:
            text += " GROUP BY " + ", ".join(name for name, _ in grouped)
        return text


def statement(draw, schemas, most):
    text = "VALIDTIME "
    if draw.random() < 0.3:
        start = draw.randint(0, 40)
        end = draw.choice(["forever", str(start + draw.randint(1, 30))])
        text += f"PERIOD '[{start} - {end})' "
    kinds = [draw.choice(["int", "text"]) for _ in range(draw.randint(1, 3))]
    text += Query(draw, schemas, kinds, most).text()
    if draw.random() < 0.2:
        text += " EXCEPT ALL " + Query(draw, schemas, kinds, most).text()
    return text


def ran(command, lines=None):
    """Standard output, standard error and exit status of the command. The status is None if it takes too long."""
    try:
        done = subprocess.run(command, input=lines, stdout=subprocess.PIPE, stderr=subprocess.PIPE, timeout=SECONDS)
    except subprocess.TimeoutExpired:
        return b"", b"", None
    return done.stdout, done.stderr, done.returncode


def tables_in(room, draw, rows):
    schemas = [Schema(draw, name) for name in ("t", "u", "v")[: draw.randint(1, 3)]]
    options = []
    for schema in schemas:
        path = room / f"{schema.name}.csv"
        path.write_text(table(draw, schema, rows()), encoding="utf-8")
        options += ["--table", f"{schema.name}={path}"]
    return schemas, options


def compare_statement(options, number):
    """The statement with this number if the builds differ on it, or None."""
    draw = random.Random(options.seed * 1_000_003 + number)
    with tempfile.TemporaryDirectory(prefix="tq-") as folder:
        is_large = number % EACH == 0
        most = MANY_ROWS if is_large else FEW_ROWS
        schemas, tables = tables_in(pathlib.Path(folder), draw, lambda: draw.randint(0, most))
        asked = statement(draw, schemas, 1 if is_large else 4)
        wanted = ran([options.old, "ask", *tables, asked])
        for workers in (1, draw.randint(2, 16)):
            if ran([options.new, "ask", *tables, "--workers", str(workers), asked]) != wanted:
                return f"statement {number} with {workers} workers: {asked}"
    return None


def session_lines(draw, schemas):
    """Random lines of a session: starts, ends, publishes, queries as of random counts, and invalid lines."""
    lines, at, known, published = [], 5000, [], 0
    for _ in range(draw.randint(1, 60)):
        schema = draw.choice(schemas)
        at += draw.choice([0, 0, 1, 3])
        turn = draw.random()
        if turn < 0.45:
            known.append((schema.name, record(draw, schema, 2)))
            lines.append(f"start {known[-1][0]} {at} {known[-1][1]}")
        elif turn < 0.65 and known:
            name, values = draw.choice(known)
            lines.append(f"end {name} {at} {values}")
        elif turn < 0.8:
            lines.append("publish")
        elif turn < 0.97:
            lines.append(f"ask {draw.randint(0, 80)} {draw.choice([1, 1, 2, 5, 16])} {statement(draw, schemas, 3)}")
        else:
            lines.append(draw.choice(["", "nonsense", "start t x 1", "ask 1 17 x", "end  5 1"]))
    return "".join(line + "\n" for line in lines).encode()


def compare_session(options, number):
    """The number of the session if the builds print different replies, or None."""
    draw = random.Random(options.seed * 1_000_003 + 500_000_000 + number)
    with tempfile.TemporaryDirectory(prefix="tq-") as folder:
        schemas, tables = tables_in(pathlib.Path(folder), draw, lambda: draw.randint(0, 12))
        lines = session_lines(draw, schemas)
        if ran([options.old, "session", *tables], lines) != ran([options.new, "session", *tables], lines):
            return f"session {number}"
    return None


def main():
    options = read_options()
    with concurrent.futures.ThreadPoolExecutor(options.lanes) as pool:
        compared = list(pool.map(lambda number: compare_statement(options, number), range(options.statements)))
        compared += list(pool.map(lambda number: compare_session(options, number), range(options.sessions)))
    different = [one for one in compared if one]
    for one in different[:20]:
        print(one)
    print(f"{len(compared)} compared, {len(different)} differ")
    return 1 if different else 0


if __name__ == "__main__":
    sys.exit(main())
