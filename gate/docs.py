#!/usr/bin/env python3
"""Checks the documents: README.md, CONTRIBUTING.md, CHANGELOG.md, docs/, the README of each crate and examples/.

    gate/docs.py

- Links: each relative link leads to a tracked file or folder, and its anchor to a heading there, by GitHub's rule.
- Names: each code name in backticks exists in the tracked files (see `Names`).
- Length: a sentence has at most 30 words, a paragraph, a list item or a table cell at most 100.
- Words: no document has an old word of WORDS.
- Quotes: in the documents of QUOTING, each line of a code block is a line of a .rt or .antt file.
- docs/traceability.md is what gate/traceability.py prints.
- The plots in docs/plots/ are what bench/plots.py draws of the measurements there.
- docs/proved.md names the files that gate/definitions.py prints, and how many definitions, files and lines there are.
- docs/promises.md names exactly the crates of the toolchain that the program uses according to crates.txt.

Each fault has one line, 'FAILED: FILE:LINE: what'. The last line is 'N passed, M failed', for N documents without a fault and
M faults. The exit status is 1 if there is a fault.
"""

import re
import subprocess
import sys
from collections import Counter
from fnmatch import fnmatchcase
from functools import cache
from itertools import zip_longest
from pathlib import Path
from posixpath import dirname, join, normpath

import build
import definitions
import traceability

ROOT = Path(__file__).resolve().parent.parent
sys.path.append(str(ROOT / "bench"))
import plots  # noqa: E402
DOCUMENT = re.compile(r"[A-Z]+\.md|docs/.*\.md|crates/[^/]+/README\.md|examples/[^/]+\.md")

# Folders with generated files.
MADE = {"bin", "out", "__pycache__"}

MOST_IN_SENTENCE, MOST_IN_PARAGRAPH = 30, 100
QUOTING = ["docs/proved.md"]
# The length and the words of these documents are not checked.
WAITING = []

# Names and paths that no tracked file has, the documents that may have them, and the reason.
EXCEPTIONS = """
bin/*                                    *                    made by `make`
out/                                     docs/gate.md         made by `rt check`
./-|/dev/fd/63                           docs/*               paths that a user may write
AVG|CASE|DELETE|INTERSECT|OFFSET|UPDATE  *                    SQL that is not supported
tr                                       docs/recipes.md      a command of the shell
k[0-9]*                                  docs/design/tree.md  keys in its pictures
"""

# Old words as a regular expression, at least two spaces, and what to write instead. The table omits old words that are
# correct in another meaning: made, at once, behind, lines, layers.
WORDS = """
told|tells            reports, prints, shows, is known
stands(?! for)        is, is stored, holds
beside                next to, compared with
amiss|at fault        invalid
lent                  borrowed
owed                  required
so many|as many as    n, that many, at most n
in place of           instead of
tries                 checks
(?<!there )is no      is not a valid
wrong bod(?:y|ies)    mutant
growths?              failed allocation
ranks?                normalized key prefix
falls? apart          is partitioned
shares                partitions
"""

HEADING = re.compile(r"#+ +(.*)")
SPAN = re.compile(r"`([^`]+)`")
LINK = re.compile(r"!?\[((?:[^\[\]]|\[[^\]]*\])*)\]\(([^()\s]+)\)")
SENTENCE_END = re.compile(r"[.!?][)\"'*]*\s+(?=[\"'(*]*[A-Z])")


class Document:
    """The numbered lines of a document, separately those of its code blocks, and the anchors of its headings."""

    def __init__(self, path):
        self.path = path
        self.lines, self.code, self.anchors = [], [], set()
        seen, is_fenced = Counter(), False
        for number, line in enumerate((ROOT / path).read_text(encoding="utf-8").split("\n"), 1):
            if line.startswith("```"):
                is_fenced = not is_fenced
            elif is_fenced or line.startswith("    "):
                self.code.append((number, line))
                continue
            elif heading := HEADING.match(line):
                anchor = anchor_of(heading[1])
                self.anchors.add(f"{anchor}-{seen[anchor]}" if seen[anchor] else anchor)
                seen[anchor] += 1
            self.lines.append((number, line))

    def paragraphs(self):
        """Paragraphs, list items and table cells, each with the number of its first line."""
        begun, text = 0, ""
        for number, line in [*self.lines, (0, "")]:
            starts = re.match(r" *(?:[-*]|\d+\.) +|> *", line)
            ends = not line.strip() or HEADING.match(line) or line.startswith(("|", "<!--", "```"))
            if (ends or starts) and text:
                yield begun, text
                text = ""
            if line.startswith("|"):
                yield from ((number, cell) for cell in re.split(r"(?<!\\)\|", line) if re.search(r"\w", cell))
            elif not ends:
                begun = begun if text else number
                text += " " + (line[starts.end():] if starts else line)


@cache
def document(path):
    return Document(path)


def anchor_of(heading):
    """GitHub's anchor of a heading: lower-case letters, digits, `_`, `-`, and a `-` for each space."""
    text = LINK.sub(r"\1", heading).replace("`", "")
    return re.sub(r"[^\w\- ]", "", text.lower()).replace(" ", "-")


class Links:
    """Relative links, with their anchors."""

    def __init__(self, files):
        self.targets = {"."}.union(files, *map(folders_of, files))

    def faults(self, of):
        for number, line in of.lines:
            for _, target in LINK.findall(SPAN.sub("", line)):
                if not re.match(r"\w+:", target) and (fault := self.fault(of, target)):
                    yield number, f"the link {target} leads to no {fault}"

    def fault(self, of, target):
        path, _, anchor = target.partition("#")
        file = normpath(join(dirname(of.path), path)) if path else of.path
        if file not in self.targets:
            return "tracked file"
        if anchor and not (file.endswith(".md") and anchor in document(file).anchors):
            return "heading"
        return None


class Names:
    """Code names in backticks.

    A path has a `/` or one of the suffixes of tracked files. It must be the path of a tracked file or folder, or the end of
    one. A word in capitals in it matches any name.

    A name is a word, or words separated by `::` or `.`, with or without `()` after them. Each word must be in a tracked file
    that is not a document, or in the path of a tracked file. Words separated by `::` must all be in one .rt file or, if the
    first one is a crate, be declared there.

    In "`NAME`, `NAME` in `PLACE`", PLACE is a crate or a path in one. Each name must be declared there. A name in a .rt
    file comes after a keyword such as `fn`. In a .antt file it is the first word of a line, and in others it is anywhere."""

    NAME = re.compile(r"\w+(?:(?:::|\.)\w+)*(?:\(\))?")
    PLACE = re.compile(r"(?:crates/)?(tq(?:_\w+)?(?:/[\w./-]*)?)")
    IN_PLACE = re.compile(r"((?:`[^`]+`(?:,? and(?: the laws?)? |,? or |, ))*`[^`]+`) in `([^`]+)`")
    DECLARED = {
        ".rt": re.compile(r"\b(?:fn|struct|enum|trait|type|const|static|mod) +(\w+)"),
        ".antt": re.compile(r"^(?!use |--)(?:(?:pub|abbrev|record|data) +)*(\w+)", re.MULTILINE),
    }
    WORD = re.compile(r"\w+")

    def __init__(self, files):
        self.files = files
        self.endings = {Path(file).suffix for file in files} - {""}
        self.paths = {file[at:] for path in files for file in (path, *folders_of(path)) for at in starts_of(file)}
        words = {file: set(self.WORD.findall(text_of(file))) for file in files if not DOCUMENT.fullmatch(file)}
        self.words = set(self.WORD.findall(" ".join(files))).union(*words.values())
        self.words_of_code = [words[file] for file in words if file.endswith(".rt")]
        lines = [line.split() for line in EXCEPTIONS.split("\n") if line]
        self.exceptions = [(name, paths) for names, paths, *_ in lines for name in names.split("|")]

    def faults(self, of):
        for number, line in of.lines:
            for name in SPAN.findall(line):
                if not self.exists(name) and not self.is_exception(name, of.path):
                    yield number, f"`{name}` is in no tracked file"
            for names, place in self.IN_PLACE.findall(line):
                if found := self.PLACE.fullmatch(place):
                    declared = self.declared_in("crates/" + found[1].rstrip("/"))
                    for name in filter(self.NAME.fullmatch, SPAN.findall(names)):
                        if not name.startswith("tq_") and not declared.issuperset(self.WORD.findall(name)):
                            yield number, f"`{name}` is not declared in `{place}`"

    def is_exception(self, name, path):
        return any(fnmatchcase(name, known) and fnmatchcase(path, paths) for known, paths in self.exceptions)

    def exists(self, name):
        if " " not in name and ("/" in name or Path(name).suffix in self.endings):
            path = re.sub(r"\b[A-Z]+\b", "*", name.rstrip("/"))
            return path in self.paths or ("*" in path and any(fnmatchcase(known, path) for known in self.paths))
        words = self.WORD.findall(name)
        if not self.NAME.fullmatch(name):
            return True
        if "::" not in name:
            return self.words.issuperset(words)
        if words[0].startswith("tq"):
            return self.declared_in(f"crates/{words[0]}").issuperset(words)
        return any(known.issuperset(words) for known in self.words_of_code)

    @cache
    def declared_in(self, place):
        words = set()
        for file in self.files:
            if (file == place or file.startswith(place + "/")) and not file.endswith(".md"):
                words.update(self.WORD.findall(file), self.DECLARED.get(Path(file).suffix, self.WORD).findall(text_of(file)))
        return words


class Length:
    """The length of sentences and paragraphs."""

    def faults(self, of):
        if of.path in WAITING:
            return
        for number, text in of.paragraphs():
            text = LINK.sub(r"\1", SPAN.sub("Code", text))
            if (count := len(text.split())) > MOST_IN_PARAGRAPH:
                yield number, f"a paragraph of {count} words"
            for sentence in SENTENCE_END.split(text):
                if (count := len(sentence.split())) > MOST_IN_SENTENCE:
                    yield number, f"a sentence of {count} words: {' '.join(sentence.split()[:6])} .."


class Words:
    """Old words."""

    def __init__(self):
        self.sought = []
        for line in filter(None, WORDS.split("\n")):
            old, new = re.split(r"  +", line)
            self.sought.append((re.compile(rf"\b(?:{old})\b", re.IGNORECASE), new))

    def faults(self, of):
        if of.path in WAITING:
            return
        for number, line in of.lines:
            text = LINK.sub(r"\1", SPAN.sub("Code", line))
            for old, new in self.sought:
                if found := old.search(text):
                    yield number, f"{found[0]} -> {new}"


class Quotes:
    """Quoted code."""

    def __init__(self, files):
        self.quotable = {line for file in files if file.endswith((".rt", ".antt")) for line in text_of(file).split("\n")}

    def faults(self, of):
        for number, line in of.code if of.path in QUOTING else ():
            if line.removeprefix("    ") not in self.quotable:
                yield number, "the line is in no .rt or .antt file"


class Generated:
    """The page that gate/traceability.py prints."""

    def faults(self, of):
        if of.path != traceability.PAGE:
            return
        printed = traceability.page().split("\n")
        yield from ((1, what) for what in traceability.faults.found)
        lines = text_of(of.path).split("\n")
        if lines != printed:
            pairs = enumerate(zip_longest(lines, printed), 1)
            number = next(number for number, (line, other) in pairs if line != other)
            yield number, "this is not what gate/traceability.py prints: run it with --write"


class Plots:
    """The plots of docs/performance.md."""

    PAGE, FOLDER = "docs/performance.md", ROOT / "docs" / "plots"

    def faults(self, of):
        if of.path != self.PAGE:
            return
        for name, drawing in plots.plots(self.FOLDER / "peers.csv", self.FOLDER / "workers.csv"):
            file = self.FOLDER / name
            if not file.exists() or file.read_text(encoding="utf-8") != drawing:
                yield 1, f"{file.relative_to(ROOT)} is not what bench/plots.py draws: run it"


class Reading:
    """The definitions that docs/proved.md lists, and their numbers."""

    PAGE = "docs/proved.md"
    COUNTS = re.compile(r"(\d+) definitions in (\d+) files .*?([\d,]+) lines")
    FILES = re.compile(r"\| (`[\w/]+/specs/.*?) \|")

    def faults(self, of):
        if of.path != self.PAGE:
            return
        found = definitions.definitions_read()
        counted = "{} definitions in {} files, {:,} lines".format(*definitions.counts(found))
        stated = [(number, "{} definitions in {} files, {} lines".format(*it)) for number, line in of.lines for it in self.COUNTS.findall(line)]
        yield from ((number, f"gate/definitions.py counts {counted}") for number, it in stated if it != counted)
        if not stated:
            yield 1, f"the page does not say '{counted}'"
        files = {f"crates/{file}": number for number, line in of.lines for file in self.files_in(line)}
        yield from ((1, f"{file} is not in the table of definitions") for file in found if file not in files)
        yield from ((number, f"{file} has no definition to read") for file, number in files.items() if file not in found)

    def files_in(self, line):
        """The files of a row of the table. A file without a folder is in the folder of the file before it."""
        folder = ""
        for name in SPAN.findall(cells[1]) if (cells := self.FILES.match(line)) else []:
            folder = dirname(name) or folder
            yield join(folder, name.split("/")[-1])


class Trusted:
    """The trusted crates of the toolchain that docs/promises.md lists."""

    PAGE, LIST = "docs/promises.md", re.compile(r"- the contracts of its crates for \w+: (.*);")

    def faults(self, of):
        if of.path != self.PAGE:
            return
        named = build.libraries()
        used = {library for crate in build.lowest_first(named, build.PROGRAM, []) for library in named[crate]} - set(named)
        lists = [found[1] for _, line in of.lines if (found := self.LIST.match(line))]
        names = {name for text in lists for name in SPAN.findall(text)}
        yield from ((1, f"the program uses `{name}`, which is not among the trusted crates") for name in sorted(used - names))
        yield from ((1, f"the program does not use the trusted crate `{name}`") for name in sorted(names - used))


def folders_of(path):
    """The folders above a path."""
    return [path[:at] for at, letter in enumerate(path) if letter == "/"]


def starts_of(path):
    """The places in a path where a name begins."""
    return [0, *(at + 1 for at, letter in enumerate(path) if letter == "/")]


@cache
def text_of(file):
    return (ROOT / file).read_text(encoding="utf-8", errors="replace")


def tracked_files():
    """The files that git tracks. Without git, all files except generated ones."""
    ran = subprocess.run(["git", "ls-files", "-z"], cwd=ROOT, stdout=subprocess.PIPE, stderr=subprocess.DEVNULL, text=True)
    if ran.returncode == 0:
        return ran.stdout.split("\0")[:-1]
    paths = (path.relative_to(ROOT) for path in sorted(ROOT.rglob("*")) if path.is_file())
    return [str(path) for path in paths if not MADE.intersection(path.parts)]


def main():
    files = tracked_files()
    checks = [Links(files), Names(files), Length(), Words(), Quotes(files), Generated(), Plots(), Reading(), Trusted()]
    passed = failed = 0
    for path in filter(DOCUMENT.fullmatch, files):
        faults = sorted(set(fault for check in checks for fault in check.faults(document(path))))
        for number, what in faults:
            print(f"FAILED: {path}:{number}: {what}")
        passed += not faults
        failed += len(faults)
    print(f"{passed} passed, {failed} failed")
    return 1 if failed else 0


if __name__ == "__main__":
    sys.exit(main())
