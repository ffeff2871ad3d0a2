#!/usr/bin/env python3
"""Finds old names: words of this project for which the field has a word of its own.

    gate/words.py

It searches tracked files with `git grep`: identifiers in code (.rt, .antt, .edit, crates.txt), and names in backticks in
comments and in .md files. Each hit has one line, 'FILE:LINE: OLD -> NEW'. The last line is 'N old names'. The exit status is
1 if there is a hit.
"""

import os
import re
import subprocess
import sys
from collections import defaultdict
from dataclasses import dataclass
from fnmatch import fnmatchcase
from pathlib import Path

ROOT = Path(__file__).resolve().parent.parent

# Old name, new name, kind. After `but` come the crates in which the name is allowed: it means something else there, or is
# defined there and waits for its replacement. After `in` come the only crates in which it is not allowed.
#
# A type, a definition or a crate matches as a whole word. A function matches in its definition, in a call and in a path, a method
# in its definition, after a `.` and in a path. A module matches in its declaration, in a path through it and as a file.
NAMES = """
tq_explain       tq_diagnostics         crate
tq_loading       tq_load                crate
tq_plain         tq_reference           crate
tq_tests_crowd   tq_tests_concurrency   crate

Items            List                   type
Seen             ValueRef               type        but tq_snapshot tq_run tq_check tq_tests_e* tq_tests_c*
Line             RowPeriod              type        but tq tq_commands tq_session
Sides            SortInput              type        but tq_snapshot
Key              SortKey                type
Mark             RunStart               type        but tq_event
rank_of          normalized_key         definition
rank_tells       is_exact               definition
untold           tie_break              module
untold           tie_break              function
looks            prefetch               module
keeping          with_columns           method
pick             take                   method      but tq_tests_*
placed           take                   method
keep             take                   method      but tq tq_tests_*
detached         to_owned               method

columns          sources                module      in tq_sql

links_of         equi_join_keys         definition  but tq_mvbt
decided          pushable               function    in tq_condition tq_ops tq_plan tq_exec tq_tests_*
folding          join_chain             module
joining          merge_join             module

told             reported               function    but tq_agg
telling          printing               module

Told             Diagnostic             type        in tq_commands
Kept             RetainedFile           type        in tq_commands
heads_where      header_copies          definition
converse         run_session            function
carry_out        dispatch               function

Naming           StoreId                type        but tq_reference tq_engine
Front            Prefix                 type        in tq_snapshot
"""

PATTERNS = {
    "crate": r"(?<!\w){0}(?!\w)",
    "type": r"(?<!\w){0}(?!\w)",
    "definition": r"(?<!\w){0}(?!\w)",
    "function": r"(?<!\w)(?:fn {0}(?!\w)|{0}\()|::{0}(?!\w|::)",
    "method": r"(?<!\w)fn {0}(?!\w)|\.{0}\(|::{0}(?!\w|::)",
    "module": r"(?<!\w)mod {0}(?!\w)|(?<!\w){0}::",
}
COMMENTS = {".rt": "//", ".antt": "--", ".txt": "#", ".md": ""}
CODE_STRING = re.compile(r'"(?:\\.|[^"\\])*"')
SPAN = re.compile(r"`([^`]*)`")
CRATE_OF = re.compile(r"(?:crates|wrong-bodies)/(\w+)/")

@dataclass
class Name:
    """An old name, the new one, its kind, and crates: if `is_listed` the only ones that forbid it, else those that allow it."""

    old: str
    new: str
    kind: str
    is_listed: bool
    crates: list

    def is_sought_in(self, crate):
        """Whether the name is not allowed in this crate, or in a file outside the crates (None)."""
        if crate is None:
            return not self.is_listed
        return self.is_listed == any(fnmatchcase(crate, pattern) for pattern in self.crates)

    def found_in(self, text):
        return re.search(PATTERNS[self.kind].format(re.escape(self.old)), text) is not None

def names():
    """The entries of NAMES."""
    for line in filter(None, NAMES.split("\n")):
        old, new, kind, *scope = line.split()
        if kind not in PATTERNS or scope[:1] not in ([], ["but"], ["in"]):
            sys.exit(f"invalid entry: {line}")
        yield Name(old, new, kind, scope[:1] == ["in"], scope[1:])

def code_and_spans(suffix, line):
    """The code of a line without comments and strings, and the names in backticks in its comment."""
    mark = COMMENTS[suffix]
    if not mark:
        return "", " ".join(SPAN.findall(line))
    code = CODE_STRING.sub('""', line) if suffix == ".rt" else line
    code, _, comment = code.partition(mark)
    return code, " ".join(SPAN.findall(comment))

def lines_with(words):
    """The lines of tracked files that contain one of the words: file, number, text."""
    command = ["git", "grep", "-n", "-I", "-w", "-F", "--null", *(part for word in words for part in ("-e", word))]
    paths = ["*.rt", "*.antt", "*.edit", "*.md", "crates.txt"]
    ran = subprocess.run([*command, "--", *paths], cwd=ROOT, stdout=subprocess.PIPE, encoding="utf-8", errors="replace")
    if ran.returncode > 1:
        sys.exit("git grep failed: is this a checkout?")
    for line in ran.stdout.splitlines():
        file, number, text = line.split("\0", 2)
        yield file, int(number), text

def suffix_of(file, text, edited):
    """The suffix of the file of a line or, for an edit, of the file that the edit changes."""
    suffix = Path(file).suffix
    if suffix != ".edit":
        return suffix
    if file not in edited:
        found = re.search(r"^file: (\S+)", (ROOT / file).read_text(encoding="utf-8"), re.MULTILINE)
        edited[file] = Path(found[1]).suffix if found else ".rt"
    return edited[file]

def hits_in_lines(sought):
    by_word, edited = defaultdict(list), {}
    for name in sought:
        by_word[name.old].append(name)
    for file, number, text in lines_with(by_word):
        crate = (CRATE_OF.match(file) or [None, None])[1]
        code, spans = code_and_spans(suffix_of(file, text, edited), text)
        for word in set(re.findall(r"\w+", text)) & by_word.keys():
            for name in by_word[word]:
                if name.is_sought_in(crate) and (name.found_in(code) or name.found_in(spans)):
                    yield file, number, name
                    break

def hits_in_paths(sought):
    """Files of modules and folders of crates with an old name."""
    listed = subprocess.run(["git", "ls-files", "crates", "wrong-bodies"], cwd=ROOT, stdout=subprocess.PIPE, text=True, check=True)
    modules = {name.old: name for name in sought if name.kind == "module"}
    crates = {name.old: name for name in sought if name.kind == "crate"}
    seen = set()
    for file in listed.stdout.splitlines():
        crate = CRATE_OF.match(file)[1]
        if crate in crates and crate not in seen:
            seen.add(crate)
            yield os.path.dirname(file), 1, crates[crate]
        name = modules.get(Path(file).stem) if file.endswith(".rt") else None
        if name and name.is_sought_in(crate):
            yield file, 1, name

def main():
    sought = list(names())
    hits = sorted({(file, number, name.old, name.new) for find in (hits_in_lines, hits_in_paths) for file, number, name in find(sought)})
    for file, number, old, new in hits:
        print(f"{file}:{number}: {old} -> {new}")
    print(f"{len(hits)} old names")
    return 1 if hits else 0

if __name__ == "__main__":
    sys.exit(main())
