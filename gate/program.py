#!/usr/bin/env python3
"""Runs the program on the cases of gate/cases/ and gate/generated.py, and on each command that README.md, examples/ and the
documents for users print. The commands of examples/terminal.md run in a terminal.

    gate/program.py PROGRAM

A case passes if standard output, standard error and the exit status are as expected. Each failed case has one line. The last
line is 'N passed, M failed'.
"""

import fcntl
import os
import pty
import re
import resource
import select
import shlex
import struct
import subprocess
import sys
import tempfile
import termios
import time
from pathlib import Path

import generated
import script
from generated import ALL_NAMES, ask
from script import Case

ROOT = Path(__file__).resolve().parent.parent
SECONDS = 120
COMMAND = re.compile(r"    \$ bin/tq (.*)")
SHELL_COMMAND = re.compile(r"    \$ (.*)")
# The pages whose commands the shell runs.
SHELL_PAGES = [
    "docs/guide.md",
    "docs/recipes.md",
    "docs/reference/cli.md",
    "docs/reference/files.md",
    "docs/reference/language.md",
    "docs/tasks.md",
    "examples/dates.md",
]
# The page whose commands run in a terminal, and the columns of that terminal.
TERMINAL_PAGE = "examples/terminal.md"
COLUMNS = 100
PROMPT = b"tq> "
FORM = re.compile(r"    bin/tq (.*) STATEMENT")
# The seconds of a step. No case contains them.
TOOK = re.compile(rb"(?<= )\d+\.\d{3} s$", re.MULTILINE)


def blocks_of(text):
    """The indented blocks of a Markdown text, each a list of lines."""
    block = []
    for line in [*text.split("\n"), ""]:
        if line.startswith("    "):
            block.append(line)
        elif block:
            yield block
            block = []


def commands_of(block, command):
    """The commands of a block, each with the lines below it."""
    starts = [at for at, line in enumerate(block) if command.match(line)]
    for start, end in zip(starts, [*starts[1:], len(block)]):
        yield command.match(block[start])[1], block[start + 1 : end]


def text_of(lines):
    """The output of a command, from the lines of a page."""
    return "".join(line.removeprefix("    ") + "\n" for line in lines)


def status_of(output):
    """The exit status of a command that prints this text: 0, or that of a refusal if a line is one."""
    if "tq: BadCommandLine\n" in output:
        return 2
    return 1 if re.search("^tq: ", output, re.MULTILINE) else 0


def printed(name, words, lines):
    """The case of a command and its output on a page: an answer, or a refusal. Its input may be a file."""
    output = text_of(lines).encode()
    stdin = b""
    if len(words) > 2 and words[-2] == "<":
        stdin = (ROOT / words[-1]).read_bytes()
        words = words[:-2]
    if output.startswith(b"tq: "):
        return Case(name, words, err=output, status=status_of(output.decode()), stdin=stdin)
    return Case(name, words, out=output, stdin=stdin)


def form_of(text):
    """The words before each STATEMENT of a page, or None if the page does not give them."""
    return next((shlex.split(found[1]) for found in map(FORM.match, text.split("\n")) if found), None)


def cases_of_page(path, by_shell=False):
    """The cases of a page: a statement before its answer and, unless the shell runs them, a command '$ bin/tq ..' before its
    output."""
    text = path.read_text()
    form = form_of(text)
    blocks = list(blocks_of(text))
    for place, block in enumerate(blocks):
        if form and block[0].startswith("    VALIDTIME") and place + 1 < len(blocks):
            statement = block[0].strip()
            yield printed(f"{path.name}: {statement}", [*form, statement], blocks[place + 1])
        for command, lines in [] if by_shell else commands_of(block, COMMAND):
            words = shlex.split(command)
            yield printed(f"{path.name}: {words[-1]}", words, lines)


def make_files(case, room):
    """Writes the files of a case."""
    for name, content in case.files.items():
        path = room / name
        path.parent.mkdir(parents=True, exist_ok=True)
        with open(path, "wb") as file:
            if isinstance(content, int):
                file.truncate(content)
            else:
                file.write(content)


def standard_output(case):
    """The standard output of the program: a pipe, a full device, or a pipe without a reader."""
    if case.to == script.FULL:
        return os.open("/dev/full", os.O_WRONLY)
    if case.to == script.UNREAD:
        read, write = os.pipe()
        os.close(read)
        return write
    return subprocess.PIPE


def read_terminal(terminal):
    """All bytes that were written to a terminal whose other end is closed."""
    output = b""
    try:
        while part := os.read(terminal, 65_536):
            output += part
    except OSError:  # the end of a terminal
        pass
    os.close(terminal)
    return output.replace(b"\r\n", b"\n")


def prepare(case):
    """Runs in the new process before the program starts."""
    if case.memory:
        resource.setrlimit(resource.RLIMIT_AS, (case.memory, case.memory))
    if case.to == script.CLOSED:
        os.close(1)


def run(program, case, room):
    """Runs a case in this folder, which also gets examples/. Returns the exit status, standard output and standard error."""
    (Path(room) / "examples").symlink_to(ROOT / "examples")
    make_files(case, Path(room))
    out = standard_output(case)
    terminal, errors = pty.openpty() if case.terminal else (None, subprocess.PIPE)
    ran = subprocess.run(
        [program, *case.words],
        cwd=room,
        input=case.stdin,
        stdout=out,
        stderr=errors,
        preexec_fn=lambda: prepare(case),
        timeout=SECONDS,
    )
    for end in (out, errors):
        if end != subprocess.PIPE:
            os.close(end)
    err = read_terminal(terminal) if case.terminal else ran.stderr
    return ran.returncode, ran.stdout or b"", err


def faults_of(program, case):
    """Runs a case. Returns its faults."""
    with tempfile.TemporaryDirectory(prefix="tq-") as room:
        try:
            status, out, err = run(program, case, room)
        except subprocess.TimeoutExpired:
            return [f"it did not end within {SECONDS} seconds"]
    faults = [f"{held!r} is missing in the output" for held in case.holds if held not in out]
    if status != case.status:
        faults.append(f"status {status}, not {case.status}")
    if case.out is not None and out != case.out:
        faults.append(f"output {out[:200]!r}, not {case.out[:200]!r}")
    if case.is_timed:
        err = TOOK.sub(b"SECONDS", err)
    if err != case.err:
        faults.append(f"standard error {err[:200]!r}, not {case.err[:200]!r}")
    return faults


def cases_of_help(program):
    """The cases of the statements and of the table files that the help shows."""
    text = subprocess.run([program, "--help"], stdout=subprocess.PIPE, timeout=SECONDS).stdout.decode()
    shown = [block.split("\n") for block in text.split("\n\n")]
    parts = {block[0].partition(" (")[0].rstrip(":"): [line.strip() for line in block[1:]] for block in shown}
    form = form_of((ROOT / "examples" / "payroll.md").read_text())
    for statement in parts["Statement"]:
        yield Case(f"help: {statement}", [*form, statement], out=None, holds=[b",from,to\n"])
    content = "".join(line + "\n" for line in parts["Table file"]).encode()
    yield ask("help: the file", [("emp", content)], ALL_NAMES, out=b"name,from,to\nann,10,20\nbob,15,forever\n")
    tables = [("emp", "".join(line + "\n" for line in parts["Table file, with --dates"]).encode())]
    output = b"name,from,to\nann,2024-02-29,2024-07-01\nbob,2024-03-01,forever\n"
    yield ask("help: the file of dates", tables, ALL_NAMES, ["--dates"], out=output)
    for statement in parts["Statement, with --dates"]:
        yield ask(f"help: {statement}", tables, statement, ["--dates"], out=b"name,from,to\nann,2024-02-29,2024-03-01\n")


def commands_by_shell(program, page):
    """Runs the commands of a page by the shell, in one folder and in order. Yields each with its faults. The page shows standard
    output and standard error together."""
    text = (ROOT / page).read_text()
    with tempfile.TemporaryDirectory(prefix="tq-") as room:
        (Path(room) / "bin").mkdir()
        (Path(room) / "bin" / "tq").symlink_to(program)
        (Path(room) / "examples").symlink_to(ROOT / "examples")
        for block in blocks_of(text):
            for command, lines in commands_of(block, SHELL_COMMAND):
                wanted = text_of(lines)
                status = status_of(wanted)
                shell = ["bash", "-euo", "pipefail", "-c", command]
                ran = subprocess.run(shell, cwd=room, stdout=subprocess.PIPE, stderr=subprocess.STDOUT, timeout=SECONDS)
                out = ran.stdout.decode()
                faults = [] if ran.returncode == status else [f"status {ran.returncode}, not {status}"]
                yield f"{page}: {command}", faults + ([] if out == wanted else [f"output {out[:200]!r}, not {wanted[:200]!r}"])


def commands_with_blank_lines(text):
    """The commands of a page, each with the lines up to the next command or paragraph. Some of these may be empty."""
    command, lines = None, []
    for line in [*text.split("\n"), "the end"]:
        found = COMMAND.match(line)
        if not found and (not line or line.startswith("    ")):
            lines.append(line)
            continue
        if command:
            yield command, text_of(lines).rstrip("\n")
        command, lines = found and found[1], []


def run_in_terminal(words, lines):
    """Runs a command in a terminal. Types a line at each prompt, and then the end. Returns the exit status and what the terminal
    shows."""
    terminal, end = pty.openpty()
    fcntl.ioctl(end, termios.TIOCSWINSZ, struct.pack("HHHH", 24, COLUMNS, 0, 0))
    typed, output = [*(line.encode() + b"\n" for line in lines), b"\x04"], b""
    with subprocess.Popen(words, cwd=ROOT, stdin=end, stdout=end, stderr=end) as running:
        os.close(end)
        while True:
            if not select.select([terminal], [], [], SECONDS)[0]:
                running.kill()
                break
            try:
                output += os.read(terminal, 65_536)
            except OSError:  # the end of a terminal
                break
            if output.endswith(PROMPT) and typed:
                os.write(terminal, typed.pop(0))
    os.close(terminal)
    return running.returncode, output.replace(b"\r\n", b"\n")


def commands_in_terminal(program):
    """Runs the commands of the page for terminals. Yields each with its faults. The text after a prompt is typed. The seconds of
    steps are not compared."""
    for command, wanted in commands_with_blank_lines((ROOT / TERMINAL_PAGE).read_text()):
        lines = [line.removeprefix("tq> ") for line in wanted.split("\n") if line.startswith("tq> ")]
        status, output = run_in_terminal([program, *shlex.split(command)], lines)
        shown = TOOK.sub(b"SECONDS", output).decode().rstrip()
        faults = [] if status == status_of(wanted) else [f"status {status}, not {status_of(wanted)}"]
        if shown != TOOK.sub(b"SECONDS", wanted.encode()).decode():
            faults.append(f"the terminal shows {shown!r}, not {wanted!r}")
        yield f"{TERMINAL_PAGE}: {command}", faults


# Words of a command line, and the completions of the last word in bash.
COMPLETED = [
    (["dr"], ["draw"]),
    (["help", "sp"], ["split"]),
    (["ask", "--fo"], ["--format"]),
    (["ask", "--format", "j"], ["json", "jsonl"]),
    (["calendar", "--by", ""], ["month", "quarter", "year"]),
    (["total", "--by", "m"], [""]),
    (["ask", "--statement-file", "exam"], ["examples"]),
    (["ask", "--table", "emp", "=", "examples/em"], ["examples/emp.csv", "examples/emp.svg"]),
    (["import", "examples/br"], ["examples/broken.csv"]),
]


def completed_in_bash(page):
    """Completes the words of COMPLETED in bash with this page. Yields each with its faults."""
    for words, wanted in COMPLETED:
        script = f'source "$1"; shift; COMP_WORDS=(tq "$@"); COMP_CWORD=$#; _tq; printf "%s\\n" "${{COMPREPLY[@]}}"'
        ran = subprocess.run(["bash", "-c", script, "bash", page, *words], cwd=ROOT, stdout=subprocess.PIPE, timeout=SECONDS)
        found = sorted(ran.stdout.decode().split("\n")[:-1])
        yield f"bash completes {' '.join(words)}", [] if found == wanted else [f"{found}, not {wanted}"]


def made_pages(program):
    """Generates the pages of packaging/pages.py. Yields each with its faults: it must contain each option."""
    options = {"--help"}
    for command in ("ask", "draw", "total", "calendar", "check", "session", "import", "split", "merge"):
        output = subprocess.run([program, command, "--help"], stdout=subprocess.PIPE, timeout=SECONDS).stdout.decode()
        options |= set(re.findall(r"^ +(?:-\w, )?(--[\w-]+)", output, re.MULTILINE))
    with tempfile.TemporaryDirectory(prefix="tq-") as room:
        made = subprocess.run([ROOT / "packaging" / "pages.py", program, room], timeout=SECONDS).returncode
        for page in ("tq.1", "tq.bash", "_tq", "tq.fish"):
            path = Path(room) / page
            text = path.read_text().replace("\\-", "-").replace(" -l ", " --") if path.exists() else ""
            faults = [f"{option} is missing" for option in sorted(options) if option not in text]
            yield f"page {page}", faults + ([] if made == 0 else [f"status {made}"])
        yield from completed_in_bash(f"{room}/tq.bash")


def session_at_a_terminal(program):
    """Runs a session in a terminal. Yields its faults: a prompt must precede each line."""
    terminal, end = pty.openpty()
    attributes = termios.tcgetattr(end)
    attributes[3] &= ~termios.ECHO
    termios.tcsetattr(end, termios.TCSANOW, attributes)
    os.write(terminal, b"publish\n\x04")
    words = [program, "session", "--table", "emp=examples/emp.csv"]
    status = subprocess.run(words, cwd=ROOT, stdin=end, stdout=end, stderr=end, timeout=SECONDS).returncode
    os.close(end)
    output, wanted = read_terminal(terminal), b"tq> published 7\ntq> "
    yield "a session at a terminal", [] if (status, output) == (0, wanted) else [f"status {status}, {output!r}, not {wanted!r}"]


def question_that_takes_long(program):
    """Runs a query whose file comes through a pipe, in two parts with a pause of more than a second. Yields its faults: a
    terminal must show the progress and erase it, and other outputs must get nothing."""
    text = (ROOT / "examples/emp.csv").read_bytes()
    words = [program, "ask", "--table", "emp=examples/emp.csv", ALL_NAMES]
    answer = subprocess.run(words, cwd=ROOT, stdin=subprocess.DEVNULL, stdout=subprocess.PIPE, timeout=SECONDS).stdout
    for name, on_terminal in (("a terminal", True), ("a file", False)):
        with tempfile.TemporaryDirectory() as room:
            pipe = f"{room}/emp.csv"
            os.mkfifo(pipe)
            terminal, errors = pty.openpty() if on_terminal else (None, subprocess.PIPE)
            words = [program, "ask", "--table", f"emp={pipe}", ALL_NAMES]
            ran = subprocess.Popen(words, stdin=subprocess.DEVNULL, stdout=subprocess.PIPE, stderr=errors)
            with open(pipe, "wb", buffering=0) as into:
                into.write(text[:40])
                time.sleep(2.5)
                into.write(text[40:])
            out, err = ran.communicate(timeout=SECONDS)
            if on_terminal:
                os.close(errors)
                err = read_terminal(terminal)
        line = b"\r\x1b[Ktq: reading, 0 MB"
        is_well = err.startswith(line) and err.replace(line, b"") == b"\r\x1b[K" if on_terminal else err == b""
        faults = [] if is_well else [f"standard error {err!r}"]
        if (ran.returncode, out) != (0, answer):
            faults.append(f"status {ran.returncode}, {out!r}")
        yield f"the progress of a query, on {name}", faults


def image_of_the_front_page():
    """The case of the image in README.md: the program must draw the same one."""
    words = ["draw", "--svg", "--table", "emp=examples/emp.csv", ALL_NAMES]
    return Case("examples/emp.svg", words, out=(ROOT / "examples/emp.svg").read_bytes())


def main():
    program = str(Path(sys.argv[1]).resolve())
    pages = ["README.md", "examples/payroll.md", "examples/dates.md", "examples/session.md"]
    shown = {page: list(cases_of_page(ROOT / page, page in SHELL_PAGES)) for page in pages}
    shown["the help"] = list(cases_of_help(program))
    shown["examples/emp.svg"] = [image_of_the_front_page()]
    shown["gate/cases"] = script.table()
    table = [*(case for part in shown.values() for case in part), *generated.table()]
    checked = [(case.name, faults_of(program, case)) for case in table]
    by_shell = {page: list(commands_by_shell(program, page)) for page in SHELL_PAGES}
    by_shell[TERMINAL_PAGE] = list(commands_in_terminal(program))
    shown |= by_shell
    checked += [command for page in by_shell.values() for command in page]
    checked += [*made_pages(program), *session_at_a_terminal(program), *question_that_takes_long(program)]
    passed = failed = 0
    for place, part in shown.items():
        if not part:
            failed += 1
            print(f"FAILED: no command was found in {place}")
    for name, faults in checked:
        passed += not faults
        if faults:
            failed += 1
            print(f"FAILED: {name[:120]}: {'; '.join(faults)}")
    print(f"{passed} passed, {failed} failed")
    return 1 if failed else 0


if __name__ == "__main__":
    sys.exit(main())
