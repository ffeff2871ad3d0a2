#!/usr/bin/env python3
"""The quick check: builds tq and the test programs without proofs, and runs their cases.

    gate/quick.py [--jobs N] [--all] [CRATE ..]

`rt try` builds each crate with all libraries below it and runs it. It proves nothing. Its build stops at an overflow,
an index out of bounds, a failed unwrap and a bad access. The crates are found by their files:

- a program with the files `stdin` and `stdout`: a test script, which must print the content of `stdout`. Blocks of random cases
  and those over large tables take long in such a build, so they run with --all only;
- a crate with #[test] functions: `rt try --test` runs them;
- tq: the cases of gate/cases/ and gate/generated.py, and the commands of the pages. Only those run that need no terminal, no
  shell and no special standard output (see `is_possible`). `rt try` takes more than a second for each, so only every fifth
  one runs. With --all, all of them run.

N builds run concurrently, by default one for each processor, the largest first. With names, the script checks only these crates. It prints each
failed case. The last line is 'quick: N passed, M failed; nothing was proved'. The exit status is 1 if a case failed.
"""

import argparse
import contextlib
import os
import re
import subprocess
import sys
import tempfile
import threading
import time
from concurrent.futures import ThreadPoolExecutor, as_completed
from dataclasses import dataclass, field
from functools import partial
from pathlib import Path

import generated
import program
import script
from build import PROGRAM, libraries, lines_of, lowest_first
from program import ROOT
from script import Case

# `rt try` also runs an interpreter, which finds nothing here that the build does not: it gets one step. The build is not
# optimised, so a run may take 600 seconds.
LIMITS = ["--steps", "1", "--seconds", "600"]
# The most bytes of a case's files, and of its output: `rt try` returns no output beyond 1 MiB, and its build is slow.
MOST = 1_000_000
# The most lines that are printed for a failed crate.
SHOWN = 60
# The running `rt try` processes. Each has a session of its own, so an interrupt at a terminal does not reach it.
RUNNING = set()
# Without --all, one case of tq in this many runs.
STRIDE = 5
PAGES = ["README.md", "examples/payroll.md", "examples/dates.md", "examples/session.md"]

# The first line of a block that takes long in a build that is not optimised: of random cases, or of 10,000 and more rows for
# a table. The blocks after large tables take long too, up to the next block that begins without tables.
RANDOM = re.compile(rb"^(?:compare-)?random\b", re.MULTILINE)
LARGE = re.compile(rb"^repeat \d{5,} .*,", re.MULTILINE)
CLEAR = re.compile(rb"^clear\b", re.MULTILINE)
SCRIPT_END = re.compile(rb"(\d+) passed, (\d+) failed\n\Z")
TESTS_END = re.compile(rb"^test result: \w+\. (\d+) passed; (\d+) failed", re.MULTILINE)
# The line of `rt try` after each case: its name, and how the run ended.
CASE_END = re.compile(rb"^case=(\S+) run=(\S+)(?: status=(\d+))?.*\n", re.MULTILINE)


@dataclass
class Outcome:
    """How many cases passed and failed, and lines about the faults."""

    passed: int = 0
    failed: int = 0
    lines: list = field(default_factory=list)


def put_last(running):
    """Gives the lowest priority to the process in which `rt try` searches for reserved names while it builds, and to its
    session. The build has another session."""
    with contextlib.suppress(OSError):
        Path(f"/proc/{running.pid}/autogroup").write_text("19")
    for _ in range(60):
        time.sleep(0.5)
        try:
            for child in Path(f"/proc/{running.pid}/task/{running.pid}/children").read_text().split():
                if b"--start" in Path(f"/proc/{child}/cmdline").read_bytes():
                    os.setpriority(os.PRIO_PROCESS, int(child), 19)
                    return
        except OSError:
            return


def try_crate(crate, words, stdin=b""):
    """Runs `rt try` in the crate's folder. Returns its exit status, standard output and standard error."""
    how = {"stdin": subprocess.PIPE, "stdout": subprocess.PIPE, "stderr": subprocess.PIPE, "start_new_session": True}
    with subprocess.Popen(["rt", "try", *words], cwd=ROOT / "crates" / crate, **how) as running:
        RUNNING.add(running)
        threading.Thread(target=put_last, args=(running,), daemon=True).start()
        out, err = running.communicate(stdin)
        RUNNING.discard(running)
    return running.returncode, out, err


def lines_in(output):
    return output.decode(errors="replace").splitlines()


def options_of(folder):
    """The options and arguments of a program, from its files data/ and args."""
    words = [*LIMITS]
    data = folder / "data"
    for path in sorted(data.rglob("*")) if data.is_dir() else []:
        if path.is_file():
            words += ["--data", f"{path.relative_to(data)}={path}"]
    args = folder / "args"
    return [*words, "--", *args.read_text().splitlines()] if args.is_file() else words


def without_slow(script):
    """The script without its blocks of random cases and of large tables, and the number of these blocks."""
    blocks, chosen, is_large = script.split(b"\n\n"), [], False
    for block in blocks:
        is_large = bool(LARGE.search(block) or (is_large and not CLEAR.search(block)))
        if not is_large and not RANDOM.search(block):
            chosen.append(block)
    return b"\n\n".join(chosen), len(blocks) - len(chosen)


def check_script(crate, is_whole):
    """Runs a test script, and compares its output with the file `stdout`."""
    folder = ROOT / "crates" / crate
    wanted = (folder / "stdout").read_bytes()
    number = (folder / "status").read_text().strip() if (folder / "status").is_file() else "0"
    text = (folder / "stdin").read_bytes()
    script, left_out = (text, 0) if is_whole else without_slow(text)
    if left_out:
        wanted = SCRIPT_END.sub(lambda end: b"%d passed, %b failed\n" % (int(end[1]) - left_out, end[2]), wanted)
    status, out, err = try_crate(crate, options_of(folder), script)
    end = SCRIPT_END.search(out)
    passed, failed = (int(end[1]), int(end[2])) if end else (0, 0)
    if (status, out) == (int(number), wanted):
        return Outcome(max(passed, 1), failed, [f"only --all runs {left_out} blocks of random cases or large tables"] if left_out else [])
    if failed or not end:
        return Outcome(passed, max(failed, 1), [*lines_in(out)[:SHOWN], *lines_in(err)[-SHOWN:]])
    return Outcome(passed, 1, [f"status {status}, and the last line is {lines_in(out)[-1]!r}: the output differs from the file stdout"])


def check_tests(crate):
    """Runs the #[test] functions of a crate."""
    status, out, err = try_crate(crate, ["--test", *LIMITS])
    end = TESTS_END.search(out) or TESTS_END.search(err)
    passed, failed = (int(end[1]), int(end[2])) if end else (0, 0)
    if status == 0 and passed and not failed:
        return Outcome(passed)
    printed = [line for line in [*lines_in(out), *lines_in(err)] if not line.endswith(" ... ok")]
    return Outcome(passed, max(failed, 1), printed[-SHOWN:])


def is_possible(case):
    """Whether `rt try --cases` can run the case. It must have no terminal, no memory limit, no special standard output, no
    large files and no large output. No word may be `{}`, contain a line end or be invalid UTF-8."""
    is_plain = case.to is None and case.memory is None and not case.terminal
    is_text = not any(isinstance(word, bytes) or "\n" in word or "\r" in word or word == "{}" for word in case.words)
    sizes = [content if isinstance(content, int) else len(content) for content in case.files.values()]
    return is_plain and is_text and max(sum(sizes), len(case.out or b"")) <= MOST


def cases_of_program():
    """The cases of tq that are possible, and the number of the others."""
    table = [case for page in PAGES for case in program.cases_of_page(ROOT / page, page in program.SHELL_PAGES)]
    table += [program.image_of_the_front_page(), *script.table(), *generated.table()]
    folder = ROOT / "crates" / PROGRAM
    words = (folder / "args").read_text().splitlines()
    files = {path.name: path.read_bytes() for path in (folder / "data").iterdir()}
    table.append(Case("the crate's file args", words, out=(folder / "stdout").read_bytes(), files=files))
    possible = [case for case in table if is_possible(case)]
    return possible, len(table) - len(possible)


def placed(case, folder):
    """The words and the expected standard error of a case whose files are in this folder. `rt try` runs all cases in one other
    folder, so the paths of files become absolute, except those in examples/."""
    words, err = [], case.err
    ends_with_path = case.words[:1] in (["import"], ["merge"])
    for place, (before, word) in enumerate(zip([None, *case.words], case.words), 1):
        front = "--table=" if word.startswith("--table=") else ""
        is_path = before in ("-o", "--output", "--out", "--skip-invalid", "--statement-file") or (ends_with_path and place == len(case.words))
        is_file = is_path and not word.startswith("-")
        name, _, path = ("", "", word) if is_file else word.removeprefix(front).partition("=")
        if (front or before == "--table" or is_file) and path not in ("", "-") and not path.startswith(("/", "examples/")):
            word = f"{folder}/{path}" if is_file else f"{front}{name}={folder}/{path}"
            line = rb"^(tq: cannot read |tq: cannot write |tq: import |  (?:\d+ invalid records? in )?)(?=" + re.escape(path.encode()) + rb"[,:/\n])"
            err = re.sub(line, lambda found: found[1] + f"{folder}/".encode(), err, flags=re.MULTILINE)
        words.append(word)
    return words, err


def write_case(case, name, room):
    """Writes the input and the words of a case for `rt try --cases`. Returns the expected standard error."""
    files = room / "files" / name
    files.mkdir(parents=True)
    program.make_files(case, files)
    words, err = placed(case, files)
    (room / "cases" / name).write_bytes(case.stdin)
    (room / "cases" / f"{name}.args").write_text("".join(word + "\n" for word in words))
    return err


def outputs_of(out):
    """The outputs that `rt try` prints, by the name of the case. It adds a line end to a last line without one."""
    parts = re.split(rb"^== (case-\d+)\n", out, flags=re.MULTILINE)
    return dict(zip((name.decode() for name in parts[1::2]), parts[2::2]))


def faults_of(case, wanted, found, err, out):
    """The faults of a run: `found` is the line of `rt try` about it, `err` its standard error."""
    if found[2] != b"ended":
        return [f"run={found[2].decode()}", *lines_in(err)[-10:]]
    faults = [f"{held!r} is missing in the output" for held in case.holds if held not in out]
    if int(found[3]) != case.status:
        faults.append(f"status {int(found[3])}, not {case.status}")
    if case.out is not None and out not in (case.out, case.out + b"\n"):
        faults.append(f"output {out[:200]!r}, not {case.out[:200]!r}")
    if case.is_timed:
        err = program.TOOK.sub(b"SECONDS", err)
    if err != wanted:
        faults.append(f"standard error {err[:200]!r}, not {wanted[:200]!r}")
    return faults


def check_program(crate, stride):
    """Runs tq on one in `stride` of the cases of gate/."""
    table, left_out = cases_of_program()
    left_out += len(table) - len(table[::stride])
    table = table[::stride]
    with tempfile.TemporaryDirectory(prefix="tq-") as folder:
        room = Path(folder)
        (room / "cases").mkdir()
        names = [f"case-{place:04}" for place in range(len(table))]
        wanted = [write_case(case, name, room) for case, name in zip(table, names)]
        words = [*LIMITS, "--cases", str(room / "cases")]
        for path in sorted(path for path in (ROOT / "examples").rglob("*") if path.is_file()):
            words += ["--data", f"{path.relative_to(ROOT)}={path}"]
        status, out, err = try_crate(crate, words)
    outputs, ends = outputs_of(out), list(CASE_END.finditer(err))
    if [end[1].decode() for end in ends] != names:
        return Outcome(0, 1, [f"{len(ends)} of {len(names)} cases ran, status {status}", *lines_in(err)[-SHOWN:]])
    outcome, start = Outcome(lines=[f"only gate/program.py runs {left_out} other cases"]), 0
    for case, name, its_error, end in zip(table, names, wanted, ends):
        faults = faults_of(case, its_error, end, err[start : end.start()], outputs.get(name, b""))
        start = end.end()
        outcome.passed += not faults
        outcome.failed += bool(faults)
        if faults:
            outcome.lines.append(f"{case.name[:120]}: {'; '.join(faults)}")
    return outcome


def checks(stride):
    """Each crate that has cases, with a title and a function that checks it."""
    for crate in libraries():
        folder = ROOT / "crates" / crate
        if crate == PROGRAM:
            yield crate, crate, partial(check_program, crate, stride)
        elif (folder / "stdin").is_file() and (folder / "stdout").is_file():
            yield crate, crate, partial(check_script, crate, stride == 1)
        if any(b"#[test]" in path.read_bytes() for path in folder.glob("src/**/*.rt")):
            yield crate, f"{crate} (tests)", partial(check_tests, crate)


def main():
    parser = argparse.ArgumentParser(description="builds tq and the test programs without proofs and runs their cases")
    parser.add_argument("--jobs", type=int, default=len(os.sched_getaffinity(0)), help="crates built concurrently")
    parser.add_argument("--all", action="store_true", help="run all cases of tq that `rt try` can run")
    parser.add_argument("crates", nargs="*", metavar="CRATE")
    options = parser.parse_args()
    named = libraries()
    if unknown := [crate for crate in options.crates if crate not in named]:
        sys.exit(f"crates.txt names no crate {unknown[0]}")
    chosen = [check for check in checks(1 if options.all else STRIDE) if check[0] in options.crates or not options.crates]
    # The largest first: the more lines a crate is built of, the longer its build takes.
    weights = {crate: sum(map(lines_of, lowest_first(named, crate, []))) for crate, _, _ in chosen}
    chosen.sort(key=lambda it: -weights[it[0]])
    begun, total = time.monotonic(), Outcome()
    with ThreadPoolExecutor(max(options.jobs, 1)) as pool:
        running = {pool.submit(call): title for _, title, call in chosen}
        try:
            for done in as_completed(running):
                outcome = done.result()
                took = f"{time.monotonic() - begun:.0f} s"
                print(f"{running[done]}: {outcome.passed} passed, {outcome.failed} failed (after {took})", flush=True)
                for line in outcome.lines:
                    print(f"    {line}", flush=True)
                total.passed += outcome.passed
                total.failed += outcome.failed
        except KeyboardInterrupt:
            pool.shutdown(wait=False, cancel_futures=True)
            for run in list(RUNNING):
                run.terminate()
            sys.exit("stopped")
    print(f"quick: {total.passed} passed, {total.failed} failed; nothing was proved")
    return 1 if total.failed or not total.passed else 0


if __name__ == "__main__":
    sys.exit(main())
