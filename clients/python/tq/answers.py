"""Answers as rows."""

import datetime


class Answer:
    """The rows of an answer, in its order.

    columns  the names of the values, then "from" and "to". The second column with a name has ".2" after it
    rows     tuples: the values, the start, and the end or None
    """

    def __init__(self, columns, rows):
        self.columns, self.rows = tuple(columns), rows

    def __iter__(self):
        return iter(self.rows)

    def __len__(self):
        return len(self.rows)

    def __repr__(self):
        return f"<Answer {', '.join(self.columns)}: {len(self.rows)} rows>"

    def dicts(self):
        """Each row as a dictionary from names to values."""
        return [dict(zip(self.columns, row)) for row in self.rows]

    def to_pandas(self):
        """The rows as a data frame of pandas, which must be installed."""
        import pandas

        return pandas.DataFrame(self.rows, columns=list(self.columns))


def instant_of(value, dates):
    """A start or an end from its text or number: None if it is `forever`."""
    if value is None or value == "forever":
        return None
    return datetime.date.fromisoformat(value) if dates else int(value)


def keys_of(names):
    """The names of columns, made unique: the second one with a name has `.2` after it, the third `.3`."""
    keys, seen = [], {}
    for name in names:
        seen[name] = seen.get(name, 0) + 1
        keys.append(name if seen[name] == 1 else f"{name}.{seen[name]}")
    return keys
