#!/usr/bin/env python3
"""Prints docs/traceability.md: for each promise its functions, their clauses, the definitions in them, and the mutants.

    gate/traceability.py [--write]

The promises are the headings of docs/promises.md. The line 'Kept by: `NAME`, `NAME` in `CRATE`; ..' below a heading names its
public functions. A method is written `TYPE::NAME`. All else comes from the sources:

- clauses: the names of the function's `ensures`, or `ensures` for one that has no name;
- definitions: the names in these clauses that the file imports from specs/;
- mutants: the edits of must-fail/ and wrong-bodies/ whose first `old:` text is in the function or constant.

With --write the script writes the page. Each fault has one line, 'FAILED: what', and makes the exit status 1. A promise needs a
function, and a function needs an `ensures`. A definition must be in its file. The `old:` text of an edit must occur exactly
once in its file, in a function or a constant.
"""

import re
import sys
from collections import defaultdict
from dataclasses import dataclass, field
from functools import cache
from pathlib import Path

ROOT = Path(__file__).resolve().parent.parent
PROMISES, PAGE = "docs/promises.md", "docs/traceability.md"

KEPT_BY = re.compile(r"((?:`[\w:]+`(?:, )?)+) in `(\w+)`")
OWNER = re.compile(r"(?:pub )?(?:trait (\w+)|impl(?:<.*?>)? (?:.* for )?(\w+))")
FUNCTION = re.compile(r"( *)(?:pub(?:\(crate\))? )?(?:const )?(?:unsafe )?fn (\w+)")
CONSTANT = re.compile(r" *(?:pub(?:\(crate\))? )?(?:const|static) (\w+):")
CLAUSE = re.compile(r" *(requires|ensures)\*?(?: (\w+))? \{")
IMPORT = re.compile(r"ghost use Rattle\.(\w+)\.specs\.(\w+)\.\{([^}]*)\};")
MODULE = re.compile(r"ghost use Rattle\.(\w+)\.specs\.(\w+) as (\w+);")

HEAD = """# Traceability

Which function keeps each [promise](promises.md), by which clauses, on which definitions, and which mutants the check refuses.
`gate/traceability.py --write` makes this page from promises.md and the sources; the full check compares the two.

- **Clauses** are the names of the function's `ensures`. One without a name is written `ensures`.
- **Definitions** are those in these clauses. They use further ones: each file of `specs/` imports what it uses.
- **Mutants** are edits of the function's body. Those in italics are in `wrong-bodies/`; the full check applies the others.
"""


@dataclass
class Function:
    """A function or a constant: its file, its lines from `first` up to, and not including, `end`, and its clauses."""

    crate: str
    file: str
    owner: str
    name: str
    first: int
    end: int
    clauses: list = field(default_factory=list)

    @property
    def path(self):
        return f"{self.owner}::{self.name}" if self.owner else self.name


class Faults:
    """The faults, each once."""

    def __init__(self):
        self.found = []

    def add(self, what):
        if what not in self.found:
            self.found.append(what)


faults = Faults()


@cache
def text_of(file):
    return (ROOT / file).read_text(encoding="utf-8")


def exists(file):
    return (ROOT / file).is_file()


@cache
def functions_in(file):
    """The functions and constants of a .rt file. In the layout of `rt fmt` a body ends with a brace in the column of its head."""
    lines = text_of(file).split("\n")
    found, owner = [], ""
    for at, line in enumerate(lines):
        if line == "}":
            owner = ""
        elif (begun := OWNER.match(line)) and line.endswith("{"):
            owner = begun[1] or begun[2]
        elif head := FUNCTION.match(line):
            end = end_of(lines, at, head[1])
            function = Function(Path(file).parts[1], file, owner if head[1] else "", head[2], at, end)
            function.clauses = clauses_in(lines[at:end])
            found.append(function)
        elif constant := CONSTANT.match(line):
            end = next(last for last in range(at, len(lines)) if lines[last].endswith(";"))
            found.append(Function(Path(file).parts[1], file, owner, constant[1], at, end + 1))
    return found


def end_of(lines, first, indent):
    """The line after a function, which ends with its closing brace or, without a body, with a `;`."""
    for at in range(first, len(lines)):
        if lines[at] == f"{indent}}}" or lines[at].endswith((";", "{}")) and is_head(lines[first : at + 1]):
            return at + 1
    return len(lines)


def is_head(lines):
    """Whether no body has begun in these lines."""
    indent = len(lines[0]) - len(lines[0].lstrip())
    return not any(line == " " * indent + "{" or line.endswith(" {") and not CLAUSE.match(line) for line in lines[:-1])


def clauses_in(lines):
    """The clauses of a function: kind, name, and text."""
    found = []
    for line in lines:
        if clause := CLAUSE.match(line):
            found.append([clause[1], clause[2] or clause[1], line[clause.end() :]])
        elif line.strip() == "{" or (found and line.endswith(("{", "{}")) and "}" not in line):
            break
        elif found:
            found[-1][2] += line
    return found


@cache
def functions_of(crate):
    files = sorted(str(path.relative_to(ROOT)) for path in (ROOT / "crates" / crate / "src").rglob("*.rt"))
    return [function for file in files for function in functions_in(file)]


def function_at(crate, path):
    """The function of a crate with this path that has an `ensures`."""
    found = [known for known in functions_of(crate) if known.path == path and ensures_of(known)]
    if len(found) != 1:
        faults.add(f"{len(found)} functions with an ensures are `{path}` in {crate}")
        return None
    return found[0]


def ensures_of(function):
    return [(name, text) for kind, name, text in function.clauses if kind == "ensures"]


@cache
def imports_of(file):
    """The definitions that a file imports by name, and its short names of modules, each with its file of specs/."""
    text = " ".join(text_of(file).split())
    names, modules = {}, {}
    for crate, module, listed in IMPORT.findall(text):
        for name in filter(None, map(str.strip, listed.split(","))):
            known, _, local = name.partition(" as ")
            names[local or known] = (f"crates/{crate}/specs/{module}.antt", known)
    for crate, module, short in MODULE.findall(text):
        modules[short] = f"crates/{crate}/specs/{module}.antt"
    return names, modules


def definitions_of(function):
    """The definitions in the clauses of a function, by file of specs/."""
    names, modules = imports_of(function.file)
    found = defaultdict(list)
    for _, text in ensures_of(function):
        for short, dotted, word in re.findall(r"(?:\b(\w+)(\.))?(\w+)", text):
            at = names.get(word) if not dotted else (modules[short], word) if short in modules else names.get(short)
            if at and exists(at[0]) and at[1] not in found[at[0]]:
                found[at[0]].append(at[1])
    for file, listed in found.items():
        for name in listed:
            if not re.search(rf"^ *(?:(?:pub|abbrev|record|data) +)*{re.escape(name)}\b", text_of(file), re.MULTILINE):
                faults.add(f"{file} does not define {name}")
    return found


def mutants():
    """The mutants: the file of each, and the function that it edits."""
    for folder in ("crates/*/must-fail", "wrong-bodies/*"):
        for path in sorted(ROOT.glob(f"{folder}/*.edit")):
            edit = str(path.relative_to(ROOT))
            crate = Path(edit).parts[1]
            lines = text_of(edit).split("\n")
            file = f"crates/{crate}/{next((line[6:] for line in lines if line.startswith('file: ')), '')}"
            old = next((line[5:] for line in lines if line.startswith("old: ")), "")
            if not exists(file) or not old or text_of(file).count(old) != 1:
                faults.add(f"the old text of {edit} does not occur exactly once in {file}")
                continue
            at = text_of(file)[: text_of(file).index(old) + len(old)].count("\n")
            edited = [known for known in functions_in(file) if known.first <= at < known.end]
            if not edited:
                faults.add(f"{edit} is in no function or constant of {file}")
                continue
            yield edit, edited[-1]


def named_link(name, file):
    return f"[`{name}`](../{file})"


def cell_of_mutants(edits):
    shown = []
    for edit in edits:
        text = named_link(Path(edit).stem, edit)
        shown.append(text if edit.startswith("crates/") else f"*{text}*")
    return ", ".join(shown)


def place_of(function):
    """The crate and the file of a function, as a link."""
    return named_link(function.file.removeprefix("crates/"), function.file)


def cell_of_definitions(function):
    parts = []
    for file, names in definitions_of(function).items():
        parts.append(", ".join(f"`{known}`" for known in names) + " in " + named_link(file.removeprefix("crates/"), file))
    return "; ".join(parts)


def anchor_of(heading):
    return re.sub(r"[^\w\- ]", "", heading.replace("`", "").lower()).replace(" ", "-")


def promises():
    """The promises: the heading of each, and its functions as pairs of crate and path."""
    heading = None
    for line in text_of(PROMISES).split("\n"):
        if line.startswith("#"):
            if heading:
                faults.add(f"the promise '{heading}' has no line 'Kept by: ..'")
            heading = line[4:] if line.startswith("### ") else None
        elif line.startswith("Kept by: ") and heading:
            kept = [
                (crate, path)
                for paths, crate in KEPT_BY.findall(line)
                for path in re.findall(r"`([\w:]+)`", paths)
            ]
            yield heading, kept
            heading = None


def page():
    edits = defaultdict(list)
    for edit, function in mutants():
        edits[function.file, function.first].append(edit)
    lines = [HEAD, "| Promise | Function | Source | Clauses | Definitions | Mutants |", "|---|---|---|---|---|---|"]
    named = set()
    for heading, kept in promises():
        shown = f"[{heading}](promises.md#{anchor_of(heading)})"
        for crate, path in kept:
            function = function_at(crate, path)
            if function is None:
                continue
            at = (function.file, function.first)
            named.add(at)
            clauses = ", ".join(f"`{name}`" for name, _ in ensures_of(function))
            cells = [shown, f"`{path}`", place_of(function), clauses, cell_of_definitions(function), cell_of_mutants(edits[at])]
            lines.append("| " + " | ".join(cells) + " |")
            shown = ""
    lines += ["", "## Mutants of other functions and constants", "", "These keep a promise from inside a crate.", ""]
    lines += ["| Function | Source | Mutants |", "|---|---|---|"]
    others = {at: listed for at, listed in edits.items() if at not in named}
    by_place = {(function.file, function.first): function for _, function in mutants()}
    for at in sorted(others):
        function = by_place[at]
        lines.append(f"| `{function.path}` | {place_of(function)} | {cell_of_mutants(others[at])} |")
    return "\n".join(lines).replace("|  |", "| |").replace("|  |", "| |") + "\n"


def main():
    text = page()
    for what in faults.found:
        print(f"FAILED: {what}", file=sys.stderr)
    if "--write" in sys.argv[1:]:
        (ROOT / PAGE).write_text(text, encoding="utf-8")
    else:
        print(text, end="")
    return 1 if faults.found else 0


if __name__ == "__main__":
    sys.exit(main())
