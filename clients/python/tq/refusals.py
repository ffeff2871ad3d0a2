"""Refusals of the program."""

import re

FORMS = [
    ("load", re.compile(r"load (?P<name>\w+) table (?P<table>\d+) record (?P<record>\d+)")),
    ("statement", re.compile(r"statement (?P<name>\w+) at (?P<place>\d+)")),
    ("plan", re.compile(r"plan (?P<name>\w+)")),
    ("read", re.compile(r"cannot read (?P<path>.*)", re.DOTALL)),
]


class Refused(Exception):
    """A query or a line of a session that the program refuses.

    line    the line that the program prints, without `tq: ` or `refused `
    detail  the lines after it, which are for people; empty if there are none
    kind    "load", "statement", "plan", "read", "session", or "other"
    name    the name of the error, such as "UnknownColumn"; empty if it has none
    place   the byte of the statement, if the error has one; in a session, the number after the name, if there is one
    table   the number of the table, from 0, if the error is one of loading
    record  the number of its record; the header is record 1
    """

    def __init__(self, line, detail="", kind="other", name="", place=None, table=None, record=None):
        super().__init__(line + ("\n" + detail if detail else ""))
        self.line, self.detail, self.kind, self.name = line, detail, kind, name
        self.place, self.table, self.record = place, table, record


def refusal_of(errors):
    """The refusal that a program printed on standard error."""
    first, _, detail = errors.partition("\n")
    line = first.removeprefix("tq: ")
    for kind, form in FORMS:
        if found := form.fullmatch(line):
            parts = found.groupdict()
            numbers = {part: int(parts[part]) for part in ("place", "table", "record") if part in parts}
            return Refused(line, detail, kind, parts.get("name", ""), **numbers)
    return Refused(line, detail, "other", line if line.isidentifier() else "")


def refusal_of_line(reply):
    """The refusal in a reply of a session, `refused NAME` or `refused NAME NUMBER`."""
    line = reply.removeprefix("refused ")
    name, _, number = line.partition(" ")
    return Refused(line, kind="session", name=name, place=int(number) if number.isdigit() else None)
