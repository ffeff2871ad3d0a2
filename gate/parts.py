#!/usr/bin/env python3
"""Divides random tables into parts, runs random statements over each part, merges the answers, and compares with `tq ask`.

    gate/parts.py TQ [--statements N] [--seed S] [--lanes L]

Each statement runs over random tables, whole and in 1, 2, 7 and 64 parts. `tq merge` must print the same bytes as `tq ask`. If
tables cannot be divided, `tq split` must refuse the statement with a reason. `tq split` must also refuse each statement that
`tq ask` refuses. The last line is 'N passed, M failed'. The line before it has the numbers of statements with merged answers,
with added answers, and without a division.
"""

import argparse
import collections
import concurrent.futures
import json
import pathlib
import random
import sys
import tempfile

from compare import Query, ran, statement, tables_in

PARTS = [1, 2, 7, 64]
FEW_ROWS, MANY_ROWS, EACH = 25, 600, 10
# The fraction of the statements that count or sum, with their groups in front.
SUMMED = 0.4


def read_options():
    parser = argparse.ArgumentParser()
    parser.add_argument("tq", type=pathlib.Path)
    parser.add_argument("--statements", type=int, default=300)
    parser.add_argument("--seed", type=int, default=1)
    parser.add_argument("--lanes", type=int, default=4)
    return parser.parse_args()


def added_statement(draw, schemas, most):
    """A statement whose counts and sums must be added if its sources are linked. Its groups come first, if it has any."""
    query = Query(draw, schemas, [], most)
    groups = list(dict.fromkeys(name for name, _ in (draw.choice(query.columns) for _ in range(draw.randint(0, 2)))))
    numbers = [name for name, kind in query.columns if kind == "int"]
    sums = [f"SUM({draw.choice(numbers)})" if groups and draw.random() < 0.6 else "COUNT(*)" for _ in range(draw.randint(1, 2))]
    text = "VALIDTIME SELECT " + ", ".join(draw.sample(groups, len(groups)) + sums)
    text += " FROM " + ", ".join(f"{schema.name} {alias}" for schema, alias in query.sources)
    parts = query.links()
    if parts:
        text += " WHERE " + " AND ".join(parts)
    return text + (" GROUP BY " + ", ".join(groups) if groups else "")


def ask_part(program, folder):
    """Answers the statement over the part in the folder. Returns an error or None."""
    words = (folder / "args").read_bytes().split(b"\0")
    answer, errors, status = ran([program, "ask", *words])
    (folder / "answer.csv").write_bytes(answer)
    return None if status == 0 else f"part {folder.name} is refused: {errors.decode(errors='replace').strip()}"


def merged(program, folder, parts):
    """Answers the statement over all parts. Returns the merged answer, and an error or None."""
    for number in range(parts):
        error = ask_part(program, folder / str(number))
        if error:
            return b"", error
    answer, errors, status = ran([program, "merge", folder])
    return answer, None if status == 0 else f"not merged: {errors.decode(errors='replace').strip()}"


def check_statement(options, number):
    """The fault of the statement with this number, or None, and how the answers over its parts were combined."""
    draw = random.Random(options.seed * 1_000_003 + number)
    with tempfile.TemporaryDirectory(prefix="tq-") as room:
        room = pathlib.Path(room)
        is_large = number % EACH == 0
        most = MANY_ROWS if is_large else FEW_ROWS
        schemas, tables = tables_in(room, draw, lambda: draw.randint(0, most))
        shape = added_statement if draw.random() < SUMMED else statement
        asked = shape(draw, schemas, 2 if is_large else 3)
        wanted, _, status = ran([options.tq, "ask", *tables, asked])
        for parts in PARTS:
            folder = room / f"parts-{parts}"
            _, errors, split_status = ran([options.tq, "split", "--parts", str(parts), "--out", folder, *tables, asked])
            if status != 0 or split_status != 0:
                if split_status != 1 or not errors.strip():
                    return f"split has status {split_status}, ask {status}: {asked}", "refused"
                if status == 0 and b"cannot divide" not in errors:
                    return f"split is refused for another reason, {errors!r}: {asked}", "refused"
                return None, "refused"
            answer, error = merged(options.tq, folder, parts)
            if error or answer != wanted:
                return f"{parts} parts: {error or 'another answer'}: {asked}", "divided"
        ways = json.loads((folder / "manifest.json").read_text(encoding="utf-8"))
    return None, "added" if ways["combine"] == "add" else "merged"


def main():
    options = read_options()
    with concurrent.futures.ThreadPoolExecutor(options.lanes) as pool:
        checked = list(pool.map(lambda number: check_statement(options, number), range(options.statements)))
    wrong = [number for number, (error, _) in enumerate(checked) if error]
    for number in wrong[:20]:
        print(f"statement {number}: {checked[number][0]}")
    count = collections.Counter(way for _, way in checked)
    print(f"{count['merged']} answers merged, {count['added']} added, {count['refused']} statements not divided")
    print(f"{len(checked) - len(wrong)} passed, {len(wrong)} failed")
    return 1 if wrong else 0


if __name__ == "__main__":
    sys.exit(main())
