"""Other programs that a user could choose for the same queries, if they are installed.

Each reads the files and writes the same bytes. PostgreSQL runs as a private cluster in a folder of its own, which is
removed at the end.
"""

import os
import pwd
import shutil
import subprocess
import sys
import tempfile
from contextlib import contextmanager
from dataclasses import dataclass
from glob import glob
from typing import Callable

import questions_postgresql
from measuring import HERE

SERVER_SETTINGS = """
listen_addresses = ''
unix_socket_directories = '{folder}'
fsync = off
synchronous_commit = off
full_page_writes = off
wal_level = minimal
max_wal_senders = 0
max_wal_size = 16GB
autovacuum = off
shared_buffers = 1GB
work_mem = 1GB
maintenance_work_mem = 1GB
max_parallel_workers_per_gather = {processors}
jit = off
"""


class Missing(Exception):
    """A program is not installed, or does not start."""


@dataclass
class Peer:
    """A program: its name, and a function from the paths of both tables and a query's name to a command."""

    name: str
    words: Callable
    workers: int = 1
    is_one_process: bool = True  # whether the started process does all the work, so that its processor time and memory count


@contextmanager
def floor():
    """A plain C program of one thread."""
    compiler = shutil.which("cc")
    if compiler is None:
        raise Missing("no C compiler `cc`")
    with tempfile.TemporaryDirectory(prefix="tq-") as folder:
        program = os.path.join(folder, "floor")
        subprocess.run([compiler, "-O2", "-o", program, os.path.join(HERE, "floor.c")], check=True)
        yield Peer("floor", lambda *words: [program, *words])


@contextmanager
def data_table():
    script = os.path.join(HERE, "questions_data_table.R")
    if shutil.which("Rscript") is None:
        raise Missing("no `Rscript`")
    if subprocess.run(["Rscript", "-e", "library(data.table)"], capture_output=True, check=False).returncode != 0:
        raise Missing("R has no package data.table")
    yield Peer("data.table", lambda *words: ["Rscript", script, *words])


@contextmanager
def sqlite():
    script = os.path.join(HERE, "questions_sql.py")
    if subprocess.run([sys.executable, "-c", "import sqlite3"], capture_output=True, check=False).returncode != 0:
        raise Missing("Python has no module sqlite3")
    yield Peer("sqlite3", lambda *words: [sys.executable, script, *words])


@contextmanager
def python():
    script = os.path.join(HERE, "questions_python.py")
    yield Peer("Python", lambda *words: [sys.executable, script, *words])


@contextmanager
def postgresql():
    """A cluster that only its own user can reach, by a socket in its folder. The start of the server is not measured."""
    programs = find_postgresql()
    folder = tempfile.mkdtemp(prefix="tq-")
    try:
        run_as_user(folder, [programs["initdb"], "-D", f"{folder}/data", "-U", "tq", "-A", "trust", "--locale=C", "-E", "UTF8", "--no-sync"])
        with open(f"{folder}/data/postgresql.conf", "a", encoding="utf-8") as file:
            file.write(SERVER_SETTINGS.format(folder=folder, processors=os.cpu_count()))
        control = [programs["pg_ctl"], "-D", f"{folder}/data", "-w"]
        run_as_user(folder, [*control, "-l", f"{folder}/log", "start"])
        try:
            connect = [programs["psql"], "-h", folder, "-U", "tq", "-d", "postgres", "-X", "-q", "-v", "ON_ERROR_STOP=1"]
            yield Peer("PostgreSQL", lambda *words: [*connect, *questions_postgresql.words(*words)], is_one_process=False)
        finally:
            run_as_user(folder, [*control, "-m", "immediate", "stop"])
    finally:
        shutil.rmtree(folder)


def find_postgresql():
    """The paths of the programs of PostgreSQL. Debian installs those of the server in a folder for each version."""
    folders = sorted(glob("/usr/lib/postgresql/*/bin"), key=lambda path: int(path.split("/")[4]))
    path = os.pathsep.join([*reversed(folders), os.environ.get("PATH", "")])
    programs = {name: shutil.which(name, path=path) for name in ("initdb", "pg_ctl", "psql")}
    for name, found in programs.items():
        if found is None:
            raise Missing(f"no `{name}`")
    return programs


def run_as_user(folder, command):
    """Runs a command of the server. It refuses to run as root, so root runs it as `nobody`, who gets the folder."""
    who = {}
    if os.geteuid() == 0:
        nobody = pwd.getpwnam("nobody")
        os.chown(folder, nobody.pw_uid, nobody.pw_gid)
        who = {"user": nobody.pw_uid, "group": nobody.pw_gid, "extra_groups": []}
    ran = subprocess.run(command, cwd=folder, stdout=subprocess.PIPE, stderr=subprocess.STDOUT, text=True, check=False, **who)
    if ran.returncode != 0:
        raise Missing(f"`{os.path.basename(command[0])}` failed: {' '.join(ran.stdout.splitlines()[-2:])}")


PEERS = {"floor": floor, "data.table": data_table, "PostgreSQL": postgresql, "sqlite3": sqlite, "Python": python}


def started(names, stack):
    """Starts the peers of these names that are installed, until the stack ends. Prints a line for each of the others."""
    found = []
    for name in names:
        try:
            found.append(stack.enter_context(PEERS[name]()))
        except Missing as missing:
            print(f"{name} is skipped: {missing}", flush=True)
    return found
