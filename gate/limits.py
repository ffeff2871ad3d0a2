#!/usr/bin/env python3
"""Runs queries and a session in a growing address space, and on a small stack.

    gate/limits.py PROGRAM

The stack of each run has 256 KiB. The address space grows in steps until the program answers in three runs in a row. It begins
with the least in which the program always starts with the same words. Each run must end with its answer, or with the line
that there is no memory. It must not end by a signal.

On that stack the program also sorts rows that differ only after all key prefixes that a sort reads. A session must not use
more stack than at its start, because more of it may be refused if no memory is left.

Each failed run has one line. The last line is 'N passed, M failed'.
"""

import re
import resource
import subprocess
import sys
import tempfile
from pathlib import Path

from generated import EMP
from refusals import has_no_memory, report

SECONDS = 120
STACK = 256 * 1024
STEP = 64 * 1024
# The largest address space of a run, and how many runs in a row must answer.
MOST = 512 * 1024 * 1024
IN_A_ROW = 3
# How often the program must start in the first address space.
STARTS = 64
# Rows that differ late. They have COLUMNS columns of texts. In each column STEPS rows differ one after another, each after HEAD
# more equal bytes. A normalized key prefix has HEAD bytes of a text.
COLUMNS = 15
STEPS = 71
HEAD = 14


def run(program, words, stdin, memory, room):
    """Runs the program in this address space (None: no limit). Returns its status, standard output and standard error."""

    def prepare():
        resource.setrlimit(resource.RLIMIT_STACK, (STACK, STACK))
        if memory:
            resource.setrlimit(resource.RLIMIT_AS, (memory, memory))

    ran = subprocess.run(
        [program, *words],
        cwd=room,
        input=stdin,
        stdout=subprocess.PIPE,
        stderr=subprocess.PIPE,
        preexec_fn=prepare,
        timeout=SECONDS,
    )
    return ran.returncode, ran.stdout, ran.stderr


def starts(program, words, memory, room):
    """Whether the program starts in this address space with these words, which take memory too."""
    try:
        status, _, err = run(program, ["nothing", *words], b"", memory, room)
    except (OSError, subprocess.SubprocessError):
        return False
    return status in (1, 2) and err.startswith(b"tq: ")


def least(program, words, room):
    """The least address space in which the program starts each time. It varies, since the place of the stack is random."""
    for memory in range(STEP, MOST, STEP):
        if all(starts(program, words, memory, room) for _ in range(STARTS)):
            return memory
    raise SystemExit("the program does not start")


def staff(count):
    """A table with this number of rows. Row i is valid from i to i + count, so all rows overlap."""
    return b"emp:int,name:text,dept:text,from,to\n" + b"".join(
        b"%d,a name of many letters %d,dept %d,%d,%d\n" % (row, row, row % 7, row, row + count) for row in range(count)
    )


def late_row(row):
    """A row that equals the rows after it in the first columns, and differs from them in a later column."""
    steps = (min(max(row - STEPS * column, 0), STEPS) for column in range(COLUMNS))
    return ",".join(["1", *("a" * (HEAD * step) + "b" for step in steps), "0", "1"]) + "\n"


def late_rows():
    """A table of rows that differ late, a query of all its columns, and the answer."""
    names = [f"text_{number}" for number in range(COLUMNS)]
    rows = [late_row(row) for row in range(COLUMNS * STEPS)]
    table = ",".join(["emp:int", *(f"{name}:text" for name in names), "from,to"]) + "\n" + "".join(rows)
    answer = ",".join(["emp", *names, "from,to"]) + "\n" + "".join(reversed(rows))
    return table.encode(), f"VALIDTIME SELECT emp, {', '.join(names)} FROM late", answer.encode()


def questions():
    """The queries and the session: name, table, command with its options, statement, standard input."""
    small, large = "emp=emp.csv", "emp=large.csv"
    ask = "VALIDTIME SELECT name FROM emp"
    deep = f"{ask} WHERE {31 * '('}NOT name = 'a'{31 * ')'}"
    nots = f"{ask} WHERE {32 * 'NOT '}name = 'a'"
    ands = f"{ask} WHERE {' AND '.join(5000 * ['emp>0'])}"
    ors = f"{ask} WHERE {' OR '.join(5000 * ['emp=1'])}"
    count = "VALIDTIME SELECT dept, COUNT(*) FROM emp GROUP BY dept"
    pairs = "VALIDTIME SELECT x.name, y.dept FROM emp x, emp y WHERE x.emp = y.emp"
    for name, statement in (("names", ask), ("deep brackets", deep), ("deep NOTs", nots), ("ANDs", ands), ("ORs", ors)):
        yield name, small, ["ask"], [statement], b""
    for workers in ("1", "4"):
        for name, statement in (("counts", count), ("pairs", pairs)):
            yield f"{name} by {workers} workers", large, ["ask", "--workers", workers], [statement], b""
    lines = [f"ask 7 1 {ask}", "end emp 40 3,cat,food", "publish", f"ask 8 4 {ask}", f"ask 8 1 {ands}", f"ask 8 1 {deep}"]
    yield "a session", small, ["session"], [], "".join(line + "\n" for line in lines).encode()


def is_right(result, whole, is_session):
    """Whether a run answered or reported that there is no memory. A session may refuse some lines for lack of memory."""
    status, out, err = result
    if (status, err) == (0, b""):
        return out == whole or (is_session and b"refused OutOfMemory\n" in out)
    return has_no_memory(result)


def faults_of(program, name, words, more, stdin, room):
    """The faults of a query's runs in a growing address space."""
    words = [*words, *more]
    first = least(program, words[1:], room)
    status, whole, err = run(program, words, stdin, None, room)
    if status != 0:
        yield f"{name}: status {status} without a limit, {err[:80]!r}"
        return
    answered, runs, memory = 0, 0, first
    while answered < IN_A_ROW and memory < MOST:
        status, out, err = run(program, words, stdin, memory, room)
        runs += 1
        answered = answered + 1 if status == 0 and out == whole else 0
        if not is_right((status, out, err), whole, words[0] == "session"):
            yield f"{name} in {memory} bytes: status {status}, {out[:80]!r}, {err[:80]!r}"
        memory += STEP * (1 + runs // 8)
    if answered < IN_A_ROW:
        yield f"{name}: no answer in {MOST} bytes"
    print(f"{name}: {runs} runs, from {first >> 10} KiB to {memory >> 10} KiB")


def faults_of_late_rows(program, workers, room):
    """The fault of an answer over rows that differ late, on the small stack."""
    table, question, answer = late_rows()
    (Path(room) / "late.csv").write_bytes(table)
    status, out, err = run(program, ["ask", "--workers", workers, "--table", "late=late.csv", question], b"", None, room)
    if (status, out, err) != (0, answer, b""):
        yield f"rows that differ late, by {workers} workers: status {status}, {out[:80]!r}, {err[:80]!r}"


def stack_of(process):
    """The size of a process's stack, in KiB."""
    status = Path(f"/proc/{process.pid}/status").read_text()
    return int(re.search(r"^VmStk:\s*(\d+) kB$", status, re.MULTILINE)[1])


def faults_of_stack(program, room):
    """The fault of a session whose stack grows after its first reply."""
    name, table, words, _, stdin = list(questions())[-1]
    pipe = subprocess.PIPE
    process = subprocess.Popen([program, *words, "--table", table], cwd=room, stdin=pipe, stdout=pipe)
    with process:
        stacks = []
        for lines in (b"publish\n", stdin + b"publish\n"):
            process.stdin.write(lines)
            process.stdin.flush()
            published = lines.count(b"publish\n")
            while published:
                line = process.stdout.readline()
                if not line:
                    yield f"{name}: it ended"
                    return
                published -= line.startswith(b"published ")
            stacks.append(stack_of(process))
        process.stdin.close()
    if stacks[0] != stacks[1]:
        yield f"{name}: a stack of {stacks[0]} KiB at first, and of {stacks[1]} KiB after its queries"


def main():
    program = str(Path(sys.argv[1]).resolve())
    with tempfile.TemporaryDirectory(prefix="tq-") as room:
        (Path(room) / "emp.csv").write_bytes(EMP)
        (Path(room) / "large.csv").write_bytes(staff(2000))
        parts = [
            faults_of(program, name, [words[0], "--table", table, *words[1:]], more, stdin, room)
            for name, table, words, more, stdin in questions()
        ]
        parts.append(faults_of_stack(program, room))
        return report([*parts, *(faults_of_late_rows(program, workers, room) for workers in ("1", "4"))])


if __name__ == "__main__":
    sys.exit(main())
