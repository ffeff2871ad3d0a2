#!/usr/bin/env python3
"""Compares the Python client with the command line, over random queries and sessions.

    gate/clients.py TQ [--questions N] [--sessions N] [--seed S] [--lanes L]

Each query runs by `tq.ask` and by `tq ask`. Rows and refusals must be the same. The tables of `tq.ask` are files, `tq.Table`s
and, if a Python has pandas, data frames. Texts have quotes, commas and line breaks. Each session runs by `tq.Session`, and
again by `tq session` with all lines as one input. The replies must be the same bytes. A session over an invalid file and one
whose program is killed must raise a refusal. The last line is 'N passed, M failed'.
"""

import argparse
import concurrent.futures
import csv
import io
import os
import pathlib
import random
import sys
import tempfile

from compare import WORDS, Schema, ran, statement, value
from interpreters import python_with

ROOT = pathlib.Path(__file__).resolve().parent.parent
sys.path.insert(0, str(ROOT / "clients" / "python"))

import tq  # noqa: E402

try:
    import pandas
except ImportError:
    pandas = None

TEXTS = [*WORDS, "two\nlines", 'a "quoted"\nline', "one\r\ntwo", "\n", 'ends with "']
ROWS = 25


def read_options():
    parser = argparse.ArgumentParser()
    parser.add_argument("tq", type=pathlib.Path)
    parser.add_argument("--questions", type=int, default=1000)
    parser.add_argument("--sessions", type=int, default=100)
    parser.add_argument("--seed", type=int, default=1)
    parser.add_argument("--lanes", type=int, default=4)
    return parser.parse_args()


def rows_of(draw, schema):
    """Random rows of a table: values, start, and end or None."""
    rows = []
    for _ in range(draw.randint(0, ROWS)):
        values = [draw.choice(TEXTS) if kind == "text" else value(draw, kind, 20) for _, kind in schema.columns]
        start = draw.randint(0, 50)
        rows.append((*values, start, None if draw.random() < 0.2 else start + draw.randint(1, 20)))
    return rows


def frame_of(draw, table):
    """The table as a data frame. Open ends are missing values: NA, NaN or None."""
    frame = pandas.DataFrame(table.rows, columns=[*table.columns, "from", "to"])
    kinds = {name: draw.choice(["int64", "Int64"]) for name, kind in table.columns.items() if kind == "int"}
    return frame.astype(kinds | {"to": draw.choice(["Int64", "float64", "object"])})


def forms_of(draw, tables, room):
    """The tables, each at random as a path, as it is, or as a data frame."""
    made = {}
    for name, table in tables.items():
        form = draw.choice(["file", "table", "frame" if pandas else "table"])
        if form == "file":
            made[name] = pathlib.Path(room) / f"{name}.csv"
        else:
            made[name] = frame_of(draw, table) if form == "frame" and table.rows else table
    return made


def shown(cell):
    return "forever" if cell is None else str(cell)


def check_question(options, number):
    """The fault of the query with this number, or None."""
    draw = random.Random(options.seed * 1_000_003 + number)
    schemas = [Schema(draw, f"t{place}") for place in range(draw.randint(1, 3))]
    tables = {schema.name: tq.Table(schema.columns, rows_of(draw, schema)) for schema in schemas}
    asked = statement(draw, schemas, 3)
    with tempfile.TemporaryDirectory(prefix="tq-") as room:
        words = []
        for name, table in tables.items():
            table.write(pathlib.Path(room) / f"{name}.csv")
            words += ["--table", f"{name}={room}/{name}.csv"]
        out, errors, status = ran([options.tq, "ask", *words, "--", asked])
        try:
            answer = tq.ask(forms_of(draw, tables, room), asked, workers=draw.choice([1, 3]), program=options.tq)
        except tq.Refused as refused:
            wanted = errors.decode().splitlines()[0] if status else "an answer"
            return None if wanted == f"tq: {refused.line}" else f"the client raises {refused.line}, not {wanted}: {asked}"
    if status != 0:
        return f"the client answers, but the program prints {errors!r}: {asked}"
    header, *rows = csv.reader(io.StringIO(out.decode(), newline=""))
    if [[shown(cell) for cell in row] for row in answer.rows] != rows or len(answer.columns) != len(header):
        return f"the client returns other rows: {asked}"
    return None


class Logged(tq.Session):
    """A session that records its lines and its replies."""

    def __init__(self, *tables, **how):
        self.lines, self.replies = [], []
        super().__init__(*tables, **how)

    def _reply(self, line):
        self.lines.append(line)
        return super()._reply(line)

    def _line(self):
        line = super()._line()
        self.replies.append(line)
        return line


def act(draw, session, schema, schemas, now):
    """Sends one random line of a session. A refusal is a valid reply."""
    values = [draw.choice(WORDS) if kind == "text" else value(draw, kind, 3) for _, kind in schema.columns]
    try:
        match draw.choice(["start", "start", "end", "publish", "ask", "ask"]):
            case "start":
                session.start(schema.name, now, *values)
            case "end":
                session.end(schema.name, now, *values)
            case "publish":
                session.publish()
            case "ask":
                count = draw.randint(0, session.count + 1)
                session.ask(statement(draw, schemas, 2), count=count, workers=draw.choice([1, 4]))
    except tq.Refused:
        pass


def check_session(options, number):
    """The fault of the session with this number, or None."""
    draw = random.Random(options.seed * 7_000_003 + number)
    schemas = [Schema(draw, f"t{place}") for place in range(draw.randint(1, 2))]
    tables = {schema.name: tq.Table(schema.columns, rows_of(draw, schema)) for schema in schemas}
    with tempfile.TemporaryDirectory(prefix="tq-") as room:
        with Logged(tables, program=options.tq) as session:
            now = 100
            for _ in range(draw.randint(5, 40)):
                now += draw.randint(-1, 3)
                act(draw, session, draw.choice(schemas), schemas, now)
        words = []
        for name, table in tables.items():
            table.write(pathlib.Path(room) / f"{name}.csv")
            words += ["--table", f"{name}={room}/{name}.csv"]
        lines = "".join(line + "\n" for line in session.lines).encode()
        out, errors, status = ran([options.tq, "session", *words], lines)
    if status != 0 or out != "".join(session.replies).encode():
        return f"`tq session` prints other replies: status {status}, {errors!r}"
    return None


def check_ends(options):
    """The fault of a session over an invalid file or of one whose program is killed, or None."""
    try:
        tq.Session({"emp": ROOT / "examples" / "broken.csv"}, program=options.tq)
        return "a session opened an invalid file"
    except tq.Refused as refused:
        if (refused.kind, refused.name, refused.record) != ("load", "BadPeriod", 3):
            return f"a session over an invalid file raises {refused.line}"
    with tq.Session({"emp": ROOT / "examples" / "emp.csv"}, program=options.tq) as session:
        session._running.kill()
        session._running.wait()
        try:
            session.publish()
            return "a killed session replied"
        except tq.Refused as refused:
            return None if "ended with status" in refused.line else f"a killed session raises {refused.line!r}"


def main():
    options = read_options()
    options.tq = options.tq.resolve()
    with concurrent.futures.ThreadPoolExecutor(options.lanes) as pool:
        checked = [(f"query {number}", error) for number, error in enumerate(pool.map(lambda it: check_question(options, it), range(options.questions)))]
        checked += [(f"session {number}", error) for number, error in enumerate(pool.map(lambda it: check_session(options, it), range(options.sessions)))]
    checked.append(("ends of sessions", check_ends(options)))
    wrong = [(name, error) for name, error in checked if error]
    for name, error in wrong[:20]:
        print(f"{name}: {error}")
    print(f"{'with' if pandas else 'without'} pandas")
    print(f"{len(checked) - len(wrong)} passed, {len(wrong)} failed")
    return 1 if wrong else 0


if __name__ == "__main__":
    if pandas is None and (other := python_with("pandas")):
        os.execv(other, [other, *sys.argv])
    sys.exit(main())
