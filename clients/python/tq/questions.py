"""Queries over tables."""

import csv
import io
import json
import subprocess
import tempfile

from tq.answers import Answer, instant_of, keys_of
from tq.refusals import refusal_of
from tq.tables import options_of


def run(words):
    """Runs the program. Returns its standard output, or raises `Refused`."""
    asked = subprocess.run(words, stdin=subprocess.DEVNULL, stdout=subprocess.PIPE, stderr=subprocess.PIPE)
    if asked.returncode != 0:
        raise refusal_of(asked.stderr.decode(errors="replace"))
    return asked.stdout.decode()


def ask(tables, statement, *, dates=False, workers=1, program="tq"):
    """Answers a statement.

    tables     maps names to paths of table files, `Table`s or data frames of pandas
    statement  the text of the statement
    dates      whether starts and ends are dates
    workers    threads that share the work, 1 to 16; they never change the answer
    program    the program `tq`

    Returns an `Answer`. Raises `Refused` if there is none.
    """
    with tempfile.TemporaryDirectory(prefix="tq-") as room:
        options = ["--workers", str(workers), *(["--dates"] if dates else []), *options_of(tables, room)]
        objects = json.loads(run([program, "ask", "--explain", "--format", "json", *options, "--", statement]))
        if not objects:
            # An array without objects has no names. The default format has them in its header.
            header = run([program, "ask", *options, "--", statement])
            return Answer(keys_of(next(csv.reader(io.StringIO(header)))), [])
    rows = []
    for found in objects:
        *values, start, end = found.values()
        rows.append((*values, instant_of(start, dates), instant_of(end, dates)))
    return Answer(objects[0], rows)
