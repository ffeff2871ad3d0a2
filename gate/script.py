"""Reads the scripts in gate/cases/: blocks that make files, and blocks that run the program.

docs/gate.md describes their language under "Tests".
"""

import re
import shlex
from dataclasses import dataclass, field
from pathlib import Path

SCRIPTS = Path(__file__).resolve().parent / "cases"

# Standard outputs that accept no bytes: a full device, a pipe without a reader, a closed descriptor.
FULL, UNREAD, CLOSED = "full", "unread", "closed"

DIVIDER = re.compile(r"----( contains| stderr| terminal| status \d+)?")
ESCAPE = re.compile(rb"\\(x[0-9A-F]{2}|.)")
ESCAPES = {b"n": b"\n", b"r": b"\r", b"t": b"\t", b"s": b" ", b"c": b",", b"0": b"\0"}
CONTENT = re.compile(rb"\$\(cat (.+?)\)")


@dataclass
class Case:
    """A run of the program in a folder of these files, and the expected result. A file is its bytes, or a length of zeros."""

    name: str
    words: list
    out: bytes | None = b""  # None: the output is only searched for the texts in `holds`
    err: bytes = b""
    status: int = 0
    files: dict = field(default_factory=dict)
    to: str | None = None  # standard output: FULL, UNREAD or CLOSED
    memory: int | None = None  # the limit of the address space, in bytes
    stdin: bytes = b""  # standard input
    terminal: bool = False  # whether standard error is a terminal
    holds: list = field(default_factory=list)

    @property
    def is_timed(self):
        """Whether standard error has the seconds of steps. In `err` SECONDS stands for each of these numbers."""
        return b"SECONDS" in self.err


def byte_of(escape):
    """The byte of the characters after a backslash."""
    if escape == b"x":
        raise ValueError(r"\x takes two digits, 0 to 9 or A to F")
    return bytes([int(escape[1:], 16)]) if len(escape) == 3 else ESCAPES.get(escape, escape)


def unescape(text):
    """The bytes of a text with escapes."""
    return ESCAPE.sub(lambda found: byte_of(found[1]), text.encode())


def bytes_of(lines):
    """The bytes of lines with escapes."""
    return b"".join(unescape(line) + b"\n" for line in lines)


def expected(line):
    """The bytes of a line of expected output."""
    if line.startswith("(bytes) "):
        return unescape(line.removeprefix("(bytes) "))
    return b"" if line == "(empty)" else line.encode()


class Files:
    """The files that blocks have made."""

    def __init__(self):
        self.contents, self.tables, self.last = {}, [], None

    def begin(self, name, lines):
        """Begins a file, and replaces one of the same name."""
        self.last = name
        self.contents[name] = bytes_of(lines)

    def add(self, content):
        self.contents[self.last] += content

    def make(self, call, text, lines):
        """Runs a block that makes files."""
        number, _, rest = text.partition(" ")
        match call:
            case "table":
                name = unescape(text).decode()
                self.tables += [name] if name not in self.tables else []
                self.begin(f"{name}.csv", lines)
            case "file":
                self.begin(unescape(text).decode(), lines)
            case "bytes":
                self.add(unescape(text))
            case "repeat":
                self.add(int(number) * unescape(rest))
            case "rising":
                self.add(b"".join(b"%d,%d,%d\n" % (i, i, i + int(rest)) for i in range(int(number))))
            case "cut":
                self.contents[self.last] = self.contents[self.last][: int(number)]
            case "clear":
                self.contents, self.tables, self.last = {}, [], None
            case _:
                raise ValueError(f"unknown call {call}")

    def content(self, name):
        if name not in self.contents:
            raise ValueError(f"no file {name} was made")
        return self.contents[name]

    def word(self, text):
        """A word of a command: `$(cat FILE)` in it stands for the bytes of the file, without line ends at its end."""
        word = CONTENT.sub(lambda found: self.content(found[1].decode()).rstrip(b"\n"), unescape(text))
        try:
            return word.decode()
        except UnicodeDecodeError:
            return word

    def command(self, text):
        """The words of a command, the standard input after `<`, and the standard output after `>`."""
        words, stdin, to = [], None, None
        parts = iter(shlex.split(text))
        for part in parts:
            if part == "<":
                stdin = self.content(next(parts))
            elif part == ">":
                to = next(parts)
            elif part == "TABLES":
                words += [word for name in self.tables for word in ("--table", f"{name}={name}.csv")]
            else:
                words.append(self.word(part))
        if words[:1] != ["tq"] or to not in (None, FULL, UNREAD, CLOSED):
            raise ValueError("a command is tq, its words, < FILE, and > full, > unread or > closed")
        return words[1:], stdin, to


def sections_of(lines):
    """The lines of a block before its first divider, and the lines after each divider."""
    sections, at = {"": []}, ""
    for line in lines:
        if line.startswith("----"):
            if not DIVIDER.fullmatch(line) or line in sections:
                raise ValueError(f"unknown divider {line}, or a second one")
            at = line
            sections[at] = []
        else:
            sections[at].append(line)
    return sections


def case_of(name, command, sections, files):
    """The case of a block that runs the program."""
    if {"---- stderr", "---- terminal"} <= sections.keys() or sum("status" in divider for divider in sections) > 1:
        raise ValueError("standard error or the status is expected twice")
    words, stdin, to = files.command(command)
    lines = {divider: [expected(line) for line in section] for divider, section in sections.items() if divider}
    texts = {divider: b"".join(line + b"\n" for line in section) for divider, section in lines.items()}
    only_holds = "---- contains" in lines and "----" not in lines
    return Case(
        name,
        words,
        out=None if only_holds else texts.get("----", b""),
        err=texts.get("---- terminal", texts.get("---- stderr", b"")),
        status=next((int(divider.split()[-1]) for divider in lines if "status" in divider), 0),
        files=dict(files.contents),
        to=to,
        stdin=bytes_of(sections[""]) if stdin is None else stdin,
        terminal="---- terminal" in lines,
        holds=lines.get("---- contains", []),
    )


def blocks_of(path):
    """The blocks of a script, each with the number of its first line, without the comments before it."""
    block, start = [], 0
    for number, line in enumerate([*path.read_bytes().decode().split("\n"), ""], 1):
        if line and (block or not line.startswith("#")):
            start = start if block else number
            block.append(line)
        elif block and not line:
            yield start, block
            block = []


def read(path):
    """The cases of a script."""
    files, cases = Files(), []
    for number, block in blocks_of(path):
        call, _, text = block[0].partition(" ")
        try:
            sections = sections_of(block[1:])
            if call == "$":
                cases.append(case_of(f"{path.name}:{number}: {text}", text, sections, files))
            elif len(sections) > 1:
                raise ValueError(f"{call} prints nothing")
            else:
                files.make(call, text, sections[""])
        except (ValueError, KeyError, StopIteration) as fault:
            raise SystemExit(f"FAILED: {path.name}:{number}: {fault!r}")
    return cases


def table():
    """The cases of all scripts."""
    return [case for path in sorted(SCRIPTS.glob("*.test")) for case in read(path)]


def find(script, command):
    """The first case of a script that runs this command."""
    words = shlex.split(command)[1:]
    for case in read(SCRIPTS / script):
        if case.words == words:
            return case
    raise SystemExit(f"FAILED: {script} has no case {command}")
