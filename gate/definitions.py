#!/usr/bin/env python3
"""Prints the definitions of specs/ that a function's contract uses, directly or through others: what its reader must read.

    gate/definitions.py [FUNCTION CRATE]

The default is `ask_with_progress` of tq_commands. A line for each file has the number of lines of these definitions, and their
names. The last line has the sums. Comments, blank lines and imports do not count. Neither do types, which the sources define,
and definitions of std and of the library crates.
"""

import re
import sys
from dataclasses import dataclass
from functools import cache

import traceability
from traceability import definitions_of, exists, text_of

FUNCTION, CRATE = "ask_with_progress", "tq_commands"

USE = re.compile(r"use Rattle\.(tq\w*)\.specs\.([\w.]+?)(?:\.\{(.*)\}| as (\w+))$")
HEAD = re.compile(r"(?:(?:pub|abbrev|unfoldable|record|data) +)+([^\s:(]+)")
CASE = re.compile(r"  (\w+) : ")
WORD = re.compile(r"(?:(\w+)\.)?(\w+)")


@dataclass
class Definition:
    """A definition: its lines without comments and, of a type, the names of its cases."""

    lines: list
    cases: list


@cache
def definitions_in(file):
    """The definitions of a file by name. Each begins in the first column and ends before the next one."""
    found, name = {}, None
    for line in text_of(file).split("\n"):
        line = line.split("--")[0].rstrip()
        if not line or line.startswith("use "):
            continue
        if head := HEAD.match(line):
            name = head[1]
            found[name] = Definition([], [])
        if name:
            found[name].lines.append(line)
            if case := CASE.match(line):
                found[name].cases.append(case[1])
    return found


@cache
def names_in(file):
    """The names that a file can use, each with the file of its definition and the name there; and its names of modules."""
    names, modules = {}, {}
    for line in text_of(file).split("\n"):
        if not (use := USE.match(line)):
            continue
        crate, module, listed, short = use.groups()
        at = f"crates/{crate}/specs/{module.replace('.', '/')}.antt"
        if not exists(at):
            continue
        for name in filter(None, map(str.strip, (listed or "").split(","))):
            known, _, local = name.partition(" as ")
            names[local or known] = (at, known)
        if short:
            modules[short] = at
    for name, definition in definitions_in(file).items():
        names.update({known: (file, name) for known in [name, *definition.cases]})
    return names, modules


def used_by(file, definition):
    """The definitions that a definition uses, each with its file."""
    names, modules = names_in(file)
    text = "\n".join(definition.lines)
    yield from (at for name, at in names.items() if "◌" in name and all(part in text for part in name.split("◌")))
    for place, word in WORD.findall(text):
        if place in modules:
            yield modules[place], word
        elif not place and word in names:
            yield names[word]
        elif place in names:
            yield names[place]


def closure(begun):
    """These definitions and all that they use, by file, in the order in which they were found."""
    found, waiting = {}, list(begun)
    while waiting:
        file, name = waiting.pop(0)
        at = names_in(file)[0].get(name)
        if at is None or at[1] in found.get(at[0], []):
            continue
        found.setdefault(at[0], []).append(at[1])
        waiting += used_by(at[0], definitions_in(at[0])[at[1]])
    return found


def definitions_read(function=FUNCTION, crate=CRATE):
    """The definitions that a function's contract uses, by file."""
    contract = definitions_of(traceability.function_at(crate, function))
    return closure((file, name) for file, names in contract.items() for name in names)


def lines_in(file, names):
    return sum(len(definitions_in(file)[name].lines) for name in names)


def counts(found):
    """The numbers of definitions, files and lines."""
    lines = sum(lines_in(file, names) for file, names in found.items())
    return sum(map(len, found.values())), len(found), lines


def main():
    found = definitions_read(*sys.argv[1:])
    for file, names in sorted(found.items()):
        print(f"{lines_in(file, names):>5}  {file}: {', '.join(sorted(names))}")
    definitions, files, lines = counts(found)
    print(f"{definitions} definitions in {files} files, {lines} lines")


if __name__ == "__main__":
    main()
