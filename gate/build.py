#!/usr/bin/env python3
"""Proves and builds programs into bin/, and shows meanwhile how much is proved and how long the rest will take.

    gate/build.py [CRATE ..]
    gate/build.py --prove CRATE
    gate/build.py --keeps
    gate/build.py --sums
    gate/build.py --install

Without a name it builds tq. `rt ci` proves a program and the crates below it in a copy of the repository without other
crates and without mutants. A program is built again only if its sources changed: bin/CRATE.sum has their checksum. The
weight of a crate is the number of its lines. The whole log is bin/build.log.

With --keeps the exit status says whether `rt ci` keeps what it proved.

With --sums the script prints the checksums of all programs. With --install it reads these from standard input. It
copies the programs that the full check built to bin/, if their sources still have these checksums. So after a full check
nothing is left to build.

Some versions of `rt ci` keep each crate that they proved on this machine, by the checksums of all files that they read. With
them, a build that was stopped resumes with the crates that are left, and the full check does not prove them again.

With --prove the script builds nothing. It proves a crate and those below it, with the number of processors that `rt ci`
gives to a proof that runs alone. The full check proves the chain of the program in this way, concurrently with its run of all
crates, which uses what is proved here.
"""
import hashlib
import os
import re
import shutil
import subprocess
import sys
import tempfile
import time

ROOT = os.path.dirname(os.path.dirname(os.path.abspath(__file__)))
PROGRAM = "tq"
PARTS = ("src", "specs", "proofs", "data", "stdin", "stdout", "args", "status")


def lines_of_crates():
    """The line of each crate in crates.txt."""
    with open(f"{ROOT}/crates.txt", encoding="utf-8") as file:
        lines = [line.split("#")[0].strip() for line in file]
    return {line.partition(":")[0].split()[0]: line for line in filter(None, lines)}


def libraries():
    """The libraries that each crate of the repository uses, from crates.txt."""
    return {name: line.partition(":")[2].split() for name, line in lines_of_crates().items()}


def lowest_first(named, crate, found):
    """The crate and those of the repository below it, each after those that it uses."""
    for below in named[crate]:
        if below in named and below not in found:
            lowest_first(named, below, found)
    if crate not in found:
        found.append(crate)
    return found


def lines_of(crate):
    """How many lines of code, definitions and proofs the crate has."""
    total = 0
    for at, _, names in os.walk(f"{ROOT}/crates/{crate}"):
        if f"{os.sep}out" in at:
            continue
        for name in names:
            if name.endswith((".rt", ".antt")):
                with open(f"{at}/{name}", "rb") as file:
                    total += file.read().count(b"\n")
    return total


class Progress:
    """Shows how much of the crates is proved, on one line if standard output is a terminal."""

    def __init__(self, crates):
        self.weights = {crate: lines_of(crate) for crate in crates}
        self.proved, self.kept = set(), set()
        self.begun = time.monotonic()
        self.is_terminal = sys.stdout.isatty()

    def weight(self, crates):
        return sum(self.weights[crate] for crate in crates)

    def minutes_left(self):
        """The minutes for the rest, from the time of the crates that this run proved; None if too few, or nothing is left."""
        whole, done = sum(self.weights.values()), self.weight(self.proved)
        left = whole - self.weight(self.kept) - done
        if done < 0.02 * whole or left == 0:
            return None
        return left / done * (time.monotonic() - self.begun) / 60

    def read(self, line):
        """Reads a line of `rt ci`, and prints the progress that it reports."""
        found = re.match(r"rt: (\w+) (proved|is kept)\b", line)
        if not found or found[1] not in self.weights:
            return
        (self.kept if found[2] == "is kept" else self.proved).add(found[1])
        share = self.weight(self.proved | self.kept) / sum(self.weights.values())
        minutes = self.minutes_left()
        left = "" if minutes is None else f", about {max(1, round(minutes))} min left"
        text = f"  {found[1]} {found[2]}: {len(self.proved | self.kept)} of {len(self.weights)} crates, {100 * share:.0f} % of all{left}"
        print(f"\r\033[K{text}" if self.is_terminal else text, end="" if self.is_terminal else "\n", flush=True)

    def end(self):
        if self.is_terminal:
            print("\r\033[K", end="", flush=True)


def files_of(crates):
    """The files that a proof of the crates reads: their paths below ROOT, in order."""
    found = ["HANDLES"]
    for crate in crates:
        for part in PARTS:
            at = f"crates/{crate}/{part}"
            if os.path.isfile(f"{ROOT}/{at}"):
                found.append(at)
            for folder, _, names in os.walk(f"{ROOT}/{at}"):
                found += [f"{os.path.relpath(folder, ROOT)}/{name}" for name in names]
    return sorted(found)


def list_of(crates):
    """The lines of crates.txt for these crates."""
    lines = lines_of_crates()
    return "".join(lines[crate] + "\n" for crate in crates)


def checksum_of(crates):
    """The checksum of the crates and of the toolchain."""
    found = hashlib.sha256(subprocess.run(["rt", "version"], stdout=subprocess.PIPE, check=True).stdout)
    found.update(list_of(crates).encode())
    for path in files_of(crates):
        with open(f"{ROOT}/{path}", "rb") as file:
            content = file.read()
        found.update(f"{path} {len(content)}\n".encode() + content)
    return found.hexdigest()


def copy_crates(crates, room):
    """Copies the crates into a repository of their own."""
    for path in files_of(crates):
        os.makedirs(os.path.dirname(f"{room}/{path}"), exist_ok=True)
        shutil.copyfile(f"{ROOT}/{path}", f"{room}/{path}")
    with open(f"{room}/crates.txt", "w", encoding="utf-8") as file:
        file.write(list_of(crates))
    # `rt` takes the folder with .git as the top of a repository.
    os.mkdir(f"{room}/.git")


def is_built(program, sources):
    """Whether bin/ has the program, built from sources with this checksum."""
    try:
        with open(f"{ROOT}/bin/{program}.sum", encoding="utf-8") as file:
            return file.read() == sources and os.path.isfile(f"{ROOT}/bin/{program}")
    except OSError:
        return False


def run(room, log, progress, environment=None):
    """Runs `rt ci` and follows its output. Returns whether all was proved."""
    how = {"stdin": subprocess.DEVNULL, "stdout": subprocess.PIPE, "stderr": subprocess.STDOUT, "env": environment}
    running = subprocess.Popen(["rt", "ci"], cwd=room, text=True, errors="replace", **how)
    try:
        for line in running.stdout:
            log.write(line)
            log.flush()
            progress.read(line)
    except KeyboardInterrupt:
        running.terminate()
        running.wait()
        raise
    finally:
        progress.end()
    return running.wait() == 0


def install(program, top, sources):
    """Copies a program of the repository at `top` to bin/, in one step, and then writes the checksum of its sources."""
    to = f"{ROOT}/bin/{program}"
    shutil.copyfile(f"{top}/crates/{program}/out/{program}", f"{to}.new")
    os.chmod(f"{to}.new", 0o755)
    os.replace(f"{to}.new", to)
    with open(f"{to}.sum", "w", encoding="utf-8") as file:
        file.write(sources)


def is_program(crate):
    return os.path.isfile(f"{ROOT}/crates/{crate}/src/main.rt")


def print_sums():
    """Prints each program with the checksum of its sources."""
    named = libraries()
    for crate in filter(is_program, named):
        print(crate, checksum_of(lowest_first(named, crate, [])))


def install_checked():
    """Copies the programs of the full check to bin/. Standard input is what --sums printed before the check. A program
    whose sources changed since then is not copied."""
    named = libraries()
    for line in sys.stdin:
        program, sources = line.split()
        if checksum_of(lowest_first(named, program, [])) == sources:
            install(program, ROOT, sources)


def build(program):
    """Proves and builds a program. Returns whether that succeeded."""
    crates = lowest_first(libraries(), program, [])
    sources = checksum_of(crates)
    if is_built(program, sources):
        return True
    with tempfile.TemporaryDirectory(prefix="tq-build-") as room:
        copy_crates(crates, room)
        print(f"proving and building bin/{program} (the log: bin/build.log)", flush=True)
        with open(f"{ROOT}/bin/build.log", "w", encoding="utf-8") as log:
            is_well = run(room, log, Progress(crates))
        if is_well:
            install(program, room, sources)
        return is_well


def keeps_proofs():
    """Whether `rt ci` keeps what it proved. If so, its program contains the words that it prints for a kept crate, and the
    folder that contains the toolchain is writable."""
    program = os.path.realpath(shutil.which("rt"))
    with open(program, encoding="utf-8", errors="replace") as file:
        has_words = "is kept" in file.read()
    return has_words and os.access(os.path.dirname(os.path.dirname(os.path.dirname(program))), os.W_OK)


def prove(crate):
    """Proves a crate and those below it. It ignores failures, because the run that proves all crates reports them."""
    crates = lowest_first(libraries(), crate, [])
    # With RT_JOBS, each proof has one processor.
    environment = {name: value for name, value in os.environ.items() if name != "RT_JOBS"}
    with open(f"{ROOT}/bin/prove.log", "w", encoding="utf-8") as log:
        # All others wait for the lowest crate. Alone in a run it has as many processors as memory allows. In a run with
        # crates that can be proved concurrently it has one.
        for chosen in (crates[:1], crates):
            with tempfile.TemporaryDirectory(prefix="tq-prove-") as room:
                copy_crates(chosen, room)
                run(room, log, Progress(chosen), environment)


def main():
    if not shutil.which("rt"):
        sys.exit("`rt`, the command of the Rattle toolchain, is missing: it proves and builds tq")
    os.makedirs(f"{ROOT}/bin", exist_ok=True)
    try:
        if sys.argv[1:2] == ["--prove"]:
            prove(sys.argv[2])
            return
        if sys.argv[1:] == ["--keeps"]:
            sys.exit(not keeps_proofs())
        if sys.argv[1:] == ["--sums"]:
            print_sums()
            return
        if sys.argv[1:] == ["--install"]:
            install_checked()
            return
        for program in sys.argv[1:] or [PROGRAM]:
            if not is_program(program):
                sys.exit(f"crates/{program} is not a program")
            if not build(program):
                with open(f"{ROOT}/bin/build.log", encoding="utf-8") as log:
                    errors = [line for line in log if re.search(r"error|no proof|not proved|NOT PROVED|FAILED", line)]
                sys.exit("not built:\n" + "".join(errors[:20]))
    except KeyboardInterrupt:
        left = "what is proved is kept, and `make` resumes with the crates that are left" if keeps_proofs() else "nothing is kept"
        sys.exit(f"\nstopped: {left}")


if __name__ == "__main__":
    main()
