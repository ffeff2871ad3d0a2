"""Tables, and the table files of tq."""

import csv
import datetime
import os
from pathlib import Path


class Table:
    """Rows with the columns of a table file.

    columns  the names of the columns, each with its kind, "int" or "text": {"emp": "int", "name": "text"}
    rows     a list of tuples: the values in the order of the columns, the start, and the end or None
    """

    def __init__(self, columns, rows):
        self.columns, self.rows = dict(columns), list(rows)
        for name, kind in self.columns.items():
            if kind not in ("int", "text"):
                raise ValueError(f"column {name}: the kind is int or text, not {kind!r}")

    def write(self, path):
        """Writes the table file."""
        with open(path, "w", encoding="utf-8", newline="") as file:
            writer = csv.writer(file, lineterminator="\n")
            writer.writerow([*(f"{name}:{kind}" for name, kind in self.columns.items()), "from", "to"])
            for place, row in enumerate(self.rows):
                if len(row) != len(self.columns) + 2:
                    raise ValueError(f"row {place} has {len(row)} values; it takes {len(self.columns)}, a start and an end")
                writer.writerow([text_of(value) for value in row])


def text_of(value):
    """A value, a start or an end as a field of a table file."""
    if value is None:
        return "forever"
    if isinstance(value, datetime.datetime):
        value = value.date()
    return value.isoformat() if isinstance(value, datetime.date) else str(value)


def is_missing(value):
    """Whether a value of a data frame is missing: None, NaN, NaT or NA."""
    if value is None:
        return True
    try:
        return bool(value != value)  # NaN and NaT do not equal themselves
    except TypeError:
        return True  # NA is neither true nor false


def instant_in_frame(value):
    """A start or an end of a data frame, or None if it is missing. If one is missing, pandas stores whole numbers as floats."""
    if is_missing(value):
        return None
    return int(value) if isinstance(value, float) and value.is_integer() else value


def table_of_frame(name, frame):
    """The table of a data frame, which must have the columns `from` and `to`. A missing end becomes None."""
    names = [str(column) for column in frame.columns]
    if not {"from", "to"} <= set(names):
        raise ValueError(f"the data frame of table {name} needs the columns from and to")
    values = [column for column in names if column not in ("from", "to")]
    kinds = {column: "int" if frame[column].dtype.kind in "iu" else "text" for column in values}
    columns = [frame[column].tolist() for column in [*values, "from", "to"]]
    rows = []
    for place, row in enumerate(zip(*columns)):
        if any(is_missing(value) for value in row[:-1]):
            raise ValueError(f"table {name}, row {place}: a value is missing; tq has no NULL")
        rows.append((*row[:-2], *map(instant_in_frame, row[-2:])))
    return Table(kinds, rows)


def options_of(tables, room):
    """The options `--table` for the tables. Tables that are not files are written to the folder `room`."""
    words = []
    for name, table in tables.items():
        if hasattr(table, "columns") and hasattr(table, "dtypes"):
            table = table_of_frame(name, table)
        if isinstance(table, Table):
            path = Path(room) / f"{len(words)}.csv"
            table.write(path)
        else:
            path = os.fspath(table)
        words += ["--table", f"{name}={path}"]
    return words
