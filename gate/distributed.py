#!/usr/bin/env python3
"""Runs the drivers of distributed/ over parts of tables, and compares their answers with `tq ask`.

    gate/distributed.py TQ

The script checks the drivers for GNU parallel and Dask if these are installed. For one that is missing it prints a line, and
counts no case. With Dask it also kills a worker process while the parts are answered. Then the driver must fail, or the merged
answer must be correct. The last line is 'N passed, M failed'.
"""

import os
import random
import shutil
import subprocess
import sys
import tempfile
from pathlib import Path

from interpreters import python_with

ROOT = Path(__file__).resolve().parent.parent
STATEMENTS = [
    "VALIDTIME SELECT name, amount FROM emp, sal WHERE emp.emp = sal.emp",
    "VALIDTIME SELECT dept, COUNT(*), SUM(emp) FROM emp GROUP BY dept",
    "VALIDTIME SELECT emp FROM emp EXCEPT ALL SELECT emp FROM sal",
]
SECONDS = 300

# A script that answers all parts and kills one of the worker processes meanwhile. It ends with status 1 if a part has no
# answer.
KILLING = """
import os, signal, sys, threading, time
sys.path.insert(0, sys.argv[1])
from pathlib import Path
from dask.distributed import Client, LocalCluster
import dask_parts
if __name__ == "__main__":
    with LocalCluster(n_workers=4, threads_per_worker=1, dashboard_address=None) as cluster, Client(cluster) as client:
        pids = list(client.run(os.getpid).values())
        threading.Timer(0.05, lambda: os.kill(pids[0], signal.SIGKILL)).start()
        dask_parts.ask_parts(client, sys.argv[2], Path(sys.argv[3]))
"""


def write_tables(folder, rows):
    draw = random.Random(7)
    periods = [(start, start + draw.randint(1, 400)) for start in (draw.randint(0, 1000) for _ in range(rows))]
    lines = [f"{draw.randint(1, rows // 3)},name {draw.randint(1, 50)},d{draw.randint(1, 9)},{start},{end}\n" for start, end in periods]
    (folder / "emp.csv").write_text("emp:int,name:text,dept:text,from,to\n" + "".join(lines))
    lines = [f"{draw.randint(1, rows // 3)},{draw.randint(1, 9)},{start},{end}\n" for start, end in periods]
    (folder / "sal.csv").write_text("emp:int,amount:int,from,to\n" + "".join(lines))
    return ["--table", f"emp={folder / 'emp.csv'}", "--table", f"sal={folder / 'sal.csv'}"]


def run(words, path):
    return subprocess.run(words, stdout=subprocess.PIPE, stderr=subprocess.PIPE, timeout=SECONDS, env={**os.environ, "PATH": path})


class Checks:
    """The program in a folder of its own, tables, and the numbers of passed and failed cases."""

    def __init__(self, program, room):
        self.room, self.passed, self.failed = room, 0, 0
        (room / "bin").mkdir()
        shutil.copy(program, room / "bin" / "tq")
        self.tq = room / "bin" / "tq"
        self.path = f"{room / 'bin'}{os.pathsep}{os.environ['PATH']}"
        self.tables = write_tables(room, 900)

    def divided(self, name, statement):
        folder = self.room / name
        shutil.rmtree(folder, ignore_errors=True)
        made = run([self.tq, "split", "--parts", "8", "--out", folder, *self.tables, statement], self.path)
        if made.returncode != 0:
            sys.exit(f"tq split: {made.stderr.decode(errors='replace')}")
        return folder

    def check(self, name, right, why=""):
        self.passed, self.failed = self.passed + right, self.failed + (not right)
        if not right:
            print(f"FAILED: {name}: {why}")

    def driver(self, name, words):
        """Compares the answers of a driver with those of `tq ask`. The last argument of a driver is the folder of the parts."""
        for number, statement in enumerate(STATEMENTS):
            wanted = run([self.tq, "ask", *self.tables, statement], self.path).stdout
            done = run([*words, self.divided(f"{name}-{number}", statement)], self.path)
            self.check(f"{name}, {statement}", done.returncode == 0 and done.stdout == wanted, done.stderr.decode(errors="replace")[-500:])

    def broken(self, name, words):
        """Checks that a driver fails and prints no answer if `tq ask` refuses one part."""
        folder = self.divided(f"{name}-broken", STATEMENTS[0])
        (folder / "3" / "emp.csv").write_text("emp:int,name:text,dept:text,from,to\n1,a,b,5,5\n")
        done = run([*words, folder], self.path)
        self.check(f"{name}, a refused part", done.returncode != 0 and done.stdout == b"", "there is an answer")

    def killed(self, python):
        script = self.room / "killing.py"
        script.write_text(KILLING)
        for turn in range(3):
            folder = self.divided(f"killed-{turn}", STATEMENTS[0])
            wanted = run([self.tq, "ask", *self.tables, STATEMENTS[0]], self.path).stdout
            asked = run([python, script, ROOT / "distributed", self.tq, folder], self.path)
            merged = run([self.tq, "merge", folder], self.path)
            right = merged.stdout == wanted if asked.returncode == 0 else True
            self.check(f"dask, a killed worker, turn {turn}", right, "the merged answer differs")


def main():
    with tempfile.TemporaryDirectory(prefix="tq-") as room:
        checks = Checks(Path(sys.argv[1]).resolve(), Path(room))
        if shutil.which("parallel"):
            words = [ROOT / "distributed" / "parallel.sh"]
            checks.driver("parallel", words)
            checks.broken("parallel", words)
        else:
            print("GNU parallel is not installed: its driver was not checked")
        python = python_with("dask.distributed")
        if python:
            words = [python, ROOT / "distributed" / "dask_parts.py"]
            checks.driver("dask", words)
            checks.broken("dask", words)
            checks.killed(python)
        else:
            print("Dask is not installed: its driver was not checked")
    print(f"{checks.passed} passed, {checks.failed} failed")
    return 1 if checks.failed else 0


if __name__ == "__main__":
    sys.exit(main())
