#!/usr/bin/env python3
"""Applies the mutants of wrong-bodies/CRATE/, of all crates or of the named ones. The checker must refuse each.

    gate/wrong_bodies.py [CRATE ..]

They are too many for the full check, which applies only those of crates/CRATE/must-fail/. Run this script for a crate whose
definitions or contracts changed. It copies the crates, so it changes nothing in this checkout. It also copies the libraries
that were built here, so the crates below are not proved again. The last line is 'N passed, M failed', for N refused mutants
and M others.
"""
import os
import re
import shutil
import subprocess
import sys
import tempfile

ROOT = os.path.dirname(os.path.dirname(os.path.abspath(__file__)))
WRONG = f"{ROOT}/wrong-bodies"

# A copy gets other mutants, and of what `rt` keeps of a crate its library is enough.
NOT_COPIED = shutil.ignore_patterns("must-fail", "incremental")


def apply_each(names, room):
    """Runs `rt must-fail` for the crates, and shows its output. Returns the numbers of refused mutants and of others."""
    run = subprocess.Popen(["rt", "must-fail", *names], cwd=room, stdout=subprocess.PIPE, text=True, errors="replace")
    refused = others = 0
    for line in run.stdout:
        print(line, end="", flush=True)
        if re.match(r"rt: must-fail \S+: ", line):
            is_refused = ": refused, as it must be" in line
            refused, others = refused + is_refused, others + (not is_refused)
    return refused, others + (run.wait() != 0 and others == 0)


def main(names):
    there = sorted(os.listdir(WRONG))
    lacking = [name for name in names if name not in there]
    if lacking:
        print(f"{lacking[0]} has no mutants in wrong-bodies/, which has those of {', '.join(there)}", file=sys.stderr)
        return 2
    names = names or there
    with tempfile.TemporaryDirectory(prefix="tq-wrong-bodies-") as room:
        shutil.copytree(f"{ROOT}/crates", f"{room}/crates", ignore=NOT_COPIED)
        for file in ("crates.txt", "HANDLES"):
            shutil.copy(f"{ROOT}/{file}", room)
        for name in names:
            shutil.copytree(f"{WRONG}/{name}", f"{room}/crates/{name}/must-fail")
        refused, others = apply_each(names, room)
    print(f"{refused} passed, {others} failed")
    return 1 if others else 0


sys.exit(main(sys.argv[1:]))
