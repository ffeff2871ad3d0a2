#!/usr/bin/env python3
"""Makes allocations fail in the built programs, and checks that no program then prints another answer.

    gate/refusals.py PROGRAM TESTS.. [--all]

gate/refusing.c is a malloc. The script builds it with the toolchain's own compiler, and loads it before that of the C library.

- TESTS are the programs tq_tests_faults and tq_tests_concurrency. They control the malloc themselves: in each call that
  their scripts choose, each allocation fails in turn.
- PROGRAM is tq, which knows nothing of this malloc. In each run one allocation fails, alone or with all later ones. The script
  chooses at most 200 allocations of a command, spread over all of them. With --all it chooses each.

A command must print the answer of its page, or report that there is no memory and print nothing else. A session must report
this before its first reply, or refuse lines for it. The replies to all other lines must be those of a session without the
refused lines. A refused line that comes again must get its reply.

Each failed run has one line. The last line is 'N passed, M failed'.
"""

import os
import re
import subprocess
import sys
import tempfile
from pathlib import Path

import script
from program import ROOT, SECONDS, cases_of_page

# The most allocations of a command that fail in turn, spread over all of them.
CHOICE = 200
# For each test program the text at which its script begins to make allocations fail. At least this many must fail, and at least
# this many calls must report that there is no memory.
TESTS = {"tq_tests_faults": (b"", 1_000), "tq_tests_concurrency": (b"# Pieces of work", 500)}
# Cases of gate/cases/: the script and the command.
SCRIPT_CASES = (
    ("draw.test", "tq draw --table emp=examples/emp.csv 'VALIDTIME SELECT name FROM emp'"),
    ("format.test", "tq ask --format=json --table emp=examples/emp.csv 'VALIDTIME SELECT emp, name FROM emp'"),
    ("check.test", "tq check --table emp=examples/emp.csv"),
    ("check.test", "tq check --table emp=examples/broken.csv"),
)
# The most faults that are printed for each part.
SHOWN = 10
# The reply of a session to a line for which there is no memory. The line of a program that ends for lack of memory.
REFUSED = b"refused OutOfMemory\n"
NO_MEMORY = re.compile(rb"tq: (load OutOfMemory table 0 record 0|statement OutOfMemory at 0|(plan )?OutOfMemory)\n")


def build(room):
    """Builds the malloc."""
    page = subprocess.run(["rt", "doc"], stdout=subprocess.PIPE, check=True, text=True).stdout.strip()
    built = Path(room) / "refusing.so"
    words = ["-O2", "-shared", "-fPIC", "-nostdlib", "-fuse-ld=lld", "-o", str(built), str(ROOT / "gate" / "refusing.c")]
    subprocess.run([Path(page).parent / "toolchain" / "bin" / "clang", *words], check=True)
    return built


def run(malloc, words, stdin, refused=None):
    """Runs a program. Returns its exit status, standard output and standard error.

    The allocation with the number `refused` fails; with -n the nth one and all later ones; with 0 none. With None the
    program controls the malloc itself.
    """
    environment = {**os.environ, "LD_PRELOAD": str(malloc)}
    if refused is not None:
        environment["TQ_REFUSED"] = str(refused)
    how = {"cwd": ROOT, "input": stdin, "env": environment, "timeout": SECONDS}
    ran = subprocess.run(words, stdout=subprocess.PIPE, stderr=subprocess.PIPE, **how)
    return ran.returncode, ran.stdout, ran.stderr


def counted(malloc, words, stdin, refused):
    """Runs a program as `run` does. Returns its result, and the number of allocations of the run."""
    status, out, err = run(malloc, words, stdin, refused)
    rest, _, count = err.rpartition(b"allocations: ")
    if not count.strip().isdigit():
        raise SystemExit(f"FAILED: {words[0]} does not run with gate/refusing.c: status {status}, {err[:200]!r}")
    return (status, out, rest), int(count)


def faults_of_tests(malloc, tests):
    """The faults of a test program, which makes each allocation of its calls fail in turn."""
    name = Path(tests).name
    begin, least = TESTS[name]
    script = (ROOT / "crates" / name / "stdin").read_bytes()
    stdin = script[script.index(begin) :]
    status, out, err = run(malloc, [tests], stdin)
    counts = re.search(rb"(\d+) refusals, (\d+) answers out of memory", err)
    print(f"{name}: {counts[0].decode() if counts else 'it prints no number of refusals'}", flush=True)
    if status != 0:
        yield f"{tests} ended with status {status}"
    if not out.endswith(b" passed, 0 failed\n"):
        differ = [line for line in out.split(b"\n") if line.startswith((b"line ", b"+ not so", b"+ with growth"))]
        yield f"{tests} prints something else: {differ[:5]!r}"
    if not counts or min(int(counts[1]), int(counts[2])) < least:
        yield f"{tests}: too few allocations failed"


def has_no_memory(result):
    """Whether a run printed only that there is no memory."""
    status, out, err = result
    return status == 1 and out == b"" and NO_MEMORY.fullmatch(err) is not None


class Command:
    """A command that prints one answer or one refusal."""

    def __init__(self, malloc, words, case):
        self.malloc, self.words, self.case = malloc, words, case
        self.name = f"{case.name} {' '.join(words[1:4])}"
        self.wanted = (case.status, case.out, case.err)

    def runs(self, refused):
        """Runs the command with this failed allocation. Yields its result, whether it ran out of memory, and the fault."""
        result, _ = counted(self.malloc, self.words, self.case.stdin, refused)
        ran_out = has_no_memory(result)
        yield result, ran_out, None if ran_out or result == self.wanted else "it prints another answer"


def replies_of(out):
    """The replies that a session printed. A reply is an answer with its lines, or one line."""
    lines = out.splitlines(keepends=True)
    replies = []
    while lines:
        found = re.fullmatch(rb"answer (\d+)\n", lines[0])
        length = 2 + int(found[1]) if found else 1
        replies.append(b"".join(lines[:length]))
        lines = lines[length:]
    return replies


class Session(Command):
    """A session, which replies to each of its lines."""

    def __init__(self, malloc, words, case):
        super().__init__(malloc, words, case)
        self.lines = tuple(case.stdin.splitlines(keepends=True))
        self.known = {self.lines: replies_of(case.out)}

    def replies(self, lines):
        """The replies to these lines if there is memory."""
        if lines not in self.known:
            result, _ = counted(self.malloc, self.words, b"".join(lines), 0)
            self.known[lines] = replies_of(result[1])
        return self.known[lines]

    def run_lines(self, lines, refused):
        """Runs the session with this failed allocation. Returns its result, the lines that it refuses, and the fault."""
        result, _ = counted(self.malloc, self.words, b"".join(lines), refused)
        status, out, err = result
        if has_no_memory(result):
            return result, [], None
        replies = replies_of(out)
        if (status, len(replies), err) != (0, len(lines), b""):
            return result, [], "it does not reply to each line"
        gone = [place for place, reply in enumerate(replies) if reply == REFUSED]
        left = tuple(line for place, line in enumerate(lines) if place not in gone)
        if [reply for reply in replies if reply != REFUSED] != self.replies(left):
            return result, gone, "the replies to other lines differ"
        return result, gone, "two lines are refused for one failed allocation" if refused > 0 and len(gone) > 1 else None

    def runs(self, refused):
        """Runs the session, and again with the refused line twice. Yields what the method of a command does."""
        result, gone, fault = self.run_lines(self.lines, refused)
        yield result, has_no_memory(result) or gone != [], fault
        if refused > 0 and gone:
            twice = self.lines[: gone[0] + 1] + self.lines[gone[0] :]
            result, gone, fault = self.run_lines(twice, refused)
            yield result, gone != [], fault


def chosen(count, every):
    """Which of `count` allocations fail: each alone and, with a minus sign, with all later ones."""
    numbers = range(1, count + 1)
    if not every and count > CHOICE:
        numbers = sorted({1 + place * (count - 1) // (CHOICE - 1) for place in range(CHOICE)})
    return [refused for number in numbers for refused in (number, -number)]


def faults_of_runs(command, every):
    """The faults of the runs of a command, for each allocation that fails."""
    whole, count = counted(command.malloc, command.words, command.case.stdin, 0)
    if whole != command.wanted:
        yield f"{command.name}: without a failed allocation it prints another answer: {str(whole)[:200]}"
        return
    runs = ran_out = 0
    for refused in chosen(count, every):
        try:
            for result, has_run_out, fault in command.runs(refused):
                runs += 1
                ran_out += has_run_out
                if fault:
                    yield f"{command.name}, with TQ_REFUSED={refused}: {fault}: {str(result)[:200]}"
        except subprocess.TimeoutExpired:
            yield f"{command.name}, with TQ_REFUSED={refused}: it did not end within {SECONDS} seconds"
    print(f"{command.name}: {count} allocations, {runs} runs, {ran_out} out of memory", flush=True)
    if ran_out == 0:
        yield f"{command.name}: no run ran out of memory"


def table_paths(words):
    return [after.partition("=")[2] for word, after in zip(words, words[1:]) if word == "--table"]


def over_several_files(page):
    """The queries of a page over several files of examples/, except those whose answers go through other programs."""
    asked = [case for case in cases_of_page(page) if case.words[0] == "ask" and "|" not in case.words]
    found = [case for case in asked if len(table_paths(case.words)) > 1 and all(path.startswith("examples/") for path in table_paths(case.words))]
    if not found:
        raise SystemExit(f"FAILED: {page.name} has no query over several files")
    return found


def commands(malloc, program):
    """The commands of SCRIPT_CASES, of README.md and of examples/session.md. Queries of these pages run with several workers
    too. Those over several files of docs/recipes.md run with several workers."""
    for name, command in SCRIPT_CASES:
        case = script.find(name, command)
        yield Command(malloc, [program, *case.words], case)
    for page in ("README.md", "examples/session.md"):
        for case in cases_of_page(ROOT / page):
            if case.words[0] == "session":
                yield Session(malloc, [program, *case.words], case)
            elif "--explain" not in case.words:
                yield Command(malloc, [program, *case.words], case)
                if case.words[0] == "ask":
                    yield Command(malloc, [program, "ask", "--workers", "3", *case.words[1:]], case)
    for case in over_several_files(ROOT / "docs" / "recipes.md"):
        yield Command(malloc, [program, "ask", "--workers", "3", *case.words[1:]], case)


def report(parts):
    """Prints the faults of the parts, and how many parts have none and how many faults there are. Returns the exit status."""
    passed = failed = 0
    for faults in parts:
        found = list(faults)
        for fault in found[:SHOWN]:
            print(f"FAILED: {fault}", flush=True)
        passed += not found
        failed += len(found)
    print(f"{passed} passed, {failed} failed")
    return 1 if failed else 0


def main():
    program, *tests = [str(Path(word).resolve()) for word in sys.argv[1:] if word != "--all"]
    every = "--all" in sys.argv[1:]
    with tempfile.TemporaryDirectory(prefix="tq-") as room:
        malloc = build(room)
        parts = [faults_of_tests(malloc, each) for each in tests]
        parts += [faults_of_runs(command, every) for command in commands(malloc, program)]
        return report(parts)


if __name__ == "__main__":
    sys.exit(main())
