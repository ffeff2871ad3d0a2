#!/usr/bin/env python3
"""Compares what each command shows in a real terminal, of 80 and of 160 columns, with stored screens.

    gate/screens.py PROGRAM [--write]

tmux is the terminal. The screens are in examples/screens/80.txt and 160.txt. Each has a line with the command after `$`, what
the terminal shows, and the exit status if it is not 0. A line `> TEXT` is typed into a session. With --write the script replaces
the stored screens. The last line is 'N passed, M failed'. Without tmux it compares nothing, and prints that.
"""

import itertools
import os
import shlex
import shutil
import subprocess
import sys
import tempfile
import time
from pathlib import Path

ROOT = Path(__file__).resolve().parent.parent
SCREENS = ROOT / "examples" / "screens"
WIDTHS = (80, 160)
ROWS = 60
SECONDS = 60
# Each terminal has a tmux server of its own, because a server that is ending accepts no other terminal.
NUMBERS = itertools.count()

EMP = "--table emp=examples/emp.csv"
STAFF = "--dates --table staff=examples/staff.csv"

# Commands, and what is typed into each.
COMMANDS = [
    ("tq --help", []),
    (f'tq ask {EMP} "VALIDTIME SELECT name, dept FROM emp"', []),
    (f'tq ask {EMP} --format table --order time "VALIDTIME SELECT name, dept FROM emp"', []),
    (f'tq ask {EMP} --pretty "VALIDTIME SELECT dept, COUNT(*) FROM emp GROUP BY dept"', []),
    (f'tq ask {EMP} "VALIDTIME SELECT nmae FROM emp"', []),
    (f'tq ask {EMP} "VALIDTIME SELECT name, dept FROM emp WHERE dept = \'toys\' AND emp > 1 AND emp < 100 AND name <> \'bob\' ORDER BY name"', []),
    (f'tq ask {EMP} --worker 4 "VALIDTIME SELECT name FROM emp"', []),
    (f'tq draw {EMP} "VALIDTIME SELECT name, dept FROM emp"', []),
    (f'tq draw {STAFF} --width 70 "VALIDTIME SELECT name, dept FROM staff"', []),
    (f'tq draw {STAFF} --width 70 "VALIDTIME SELECT COUNT(*) FROM staff"', []),
    (f'tq draw {STAFF} --width 70 --window 2024-01-01,2024-05-01 "VALIDTIME SELECT name, dept FROM staff"', []),
    (f'tq total {STAFF} --by dept --sum people "VALIDTIME PERIOD \'[2024-01-01 - 2024-07-01)\' SELECT dept, COUNT(*) AS people FROM staff GROUP BY dept"', []),
    ("tq calendar --by quarter 2024-01-01 2025-01-01", []),
    ("tq check --table jobs=examples/jobs.csv --overlaps --gaps", []),
    ("tq check --table broken=examples/broken.csv", []),
    ("tq import --key emp --from from --to to examples/broken.csv", []),
    (f"tq session {EMP}", ["publish", "ask 7 1 VALIDTIME SELECT name FROM emp WHERE emp > 1", "ask 9 1 VALIDTIME SELECT name FROM emp", "help"]),
    (f'tq split --parts 2 --out none/such {EMP} "VALIDTIME SELECT COUNT(*), dept FROM emp GROUP BY dept"', []),
    ("tq merge examples", []),
]


def tmux(server, *words):
    return subprocess.run(["tmux", "-L", server, "-f", "/dev/null", *words], stdout=subprocess.PIPE, check=True, timeout=SECONDS).stdout.decode()


def screen(server):
    """The lines that the terminal shows, without the empty ones at the end."""
    return tmux(server, "capture-pane", "-p", "-t", "screen").rstrip("\n").split("\n")


def wait_for(server, is_shown):
    """Waits until the lines of the terminal pass a test, and returns them."""
    for _ in range(SECONDS * 20):
        lines = screen(server)
        if is_shown(lines):
            return lines
        time.sleep(0.05)
    raise TimeoutError(f"the terminal shows {lines}")


def prompts_in(lines):
    return sum(line.startswith("tq>") for line in lines)


def shown(folder, width, command, typed):
    """What a terminal of this width shows of a command."""
    server = f"tq-{os.getpid()}-{next(NUMBERS)}"
    end = "exit status"
    script = f'cd {shlex.quote(str(ROOT))}; PATH={shlex.quote(str(folder))}:$PATH; {command}; printf "{end} %s\\n" $?; exec sleep {SECONDS}'
    try:
        tmux(server, "new-session", "-d", "-s", "screen", "-x", str(width), "-y", str(ROWS), "bash", "--norc", "-c", script)
        for number, line in enumerate(typed, 1):
            wait_for(server, lambda lines, number=number: prompts_in(lines) == number)
            tmux(server, "send-keys", "-t", "screen", "-l", line)
            tmux(server, "send-keys", "-t", "screen", "Enter")
        if typed:
            wait_for(server, lambda lines: prompts_in(lines) == len(typed) + 1)
            tmux(server, "send-keys", "-t", "screen", "C-d")
        lines = wait_for(server, lambda lines: lines[-1].removeprefix("tq> ").startswith(end))
    finally:
        subprocess.run(["tmux", "-L", server, "kill-server"], stderr=subprocess.DEVNULL, check=False)
    if lines[-1].endswith(f"{end} 0"):
        lines[-1:] = [line for line in [lines[-1].removesuffix(f"{end} 0").rstrip()] if line]
    return "\n".join(line.rstrip() for line in lines)


def block(command, typed, lines):
    return "\n".join([f"$ {command}", *(f"> {line}" for line in typed), lines]) + "\n"


def compare(folder, is_written):
    """The number of screens that equal the stored ones, and of those that do not."""
    passed, failed = 0, 0
    for width in WIDTHS:
        path = SCREENS / f"{width}.txt"
        blocks = [block(command, typed, shown(folder, width, command, typed)) for command, typed in COMMANDS]
        text = "\n".join(blocks)
        if is_written:
            SCREENS.mkdir(exist_ok=True)
            path.write_text(text)
        kept = path.read_text() if path.exists() else ""
        for (command, _), lines in zip(COMMANDS, blocks):
            if lines in kept:
                passed += 1
            else:
                failed += 1
                print(f"FAILED: {width} columns: {command}: the terminal shows\n{lines}")
        if kept != text and not failed:
            failed += 1
            print(f"FAILED: {path.relative_to(ROOT)} has other screens: run gate/screens.py PROGRAM --write")
    return passed, failed


def main():
    program, is_written = os.path.abspath(sys.argv[1]), sys.argv[2:] == ["--write"]
    if not shutil.which("tmux"):
        print("tmux is not installed: no screen is compared\n0 passed, 0 failed")
        return
    with tempfile.TemporaryDirectory(prefix="tq-") as folder:
        os.symlink(program, f"{folder}/tq")
        passed, failed = compare(folder, is_written)
    print(f"{passed} passed, {failed} failed")
    sys.exit(failed > 0)


if __name__ == "__main__":
    main()
