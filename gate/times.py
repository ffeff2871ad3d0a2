#!/usr/bin/env python3
"""Prints the table of times of a full check from its log.

    gate/times.py LOG [--write FILE]

LOG is the output of gate/run.sh. For each crate the table has the minute at which it was proved, and the processor minutes that
this took. Both include its tests, if it has #[test] functions. With --write the table replaces the lines of FILE between
'<!-- times -->' and '<!-- end of times -->'. The script refuses a log in which a crate was kept from an earlier run.
"""

import argparse
import re
import sys
from pathlib import Path

HEAD = re.compile(r"^full check of (.+)$", re.MULTILINE)
PROVED = re.compile(r"^\[ *([\d.]+)\] rt: (\w+)(?:: its tests are)? proved$", re.MULTILINE)
KEPT = re.compile(r"^\[ *[\d.]+\] rt: (\w+) is kept: ", re.MULTILINE)
PROCESSOR = re.compile(r"^\[ *[\d.]+\] processor: (\w+) ([\d.]+) proof, ([\d.]+) tests, ([\d.]+) edits$", re.MULTILINE)
LAST = re.compile(r"^\[ *([\d.]+)\] ", re.MULTILINE)
SUM = re.compile(r"^(\d+ passed, \d+ failed)$", re.MULTILINE)
BEGIN, END = "<!-- times -->\n", "<!-- end of times -->\n"


def table_of(log):
    """The lines of the table, after two lines about the run."""
    if kept := KEPT.findall(log):
        sys.exit(f"{len(kept)} crates were kept from an earlier run ({kept[0]} ..): only a run from nothing has all times")
    proved = {}
    for minute, crate in PROVED.findall(log):
        proved[crate] = max(float(minute), proved.get(crate, 0.0))
    took = {crate: [float(minutes) for minutes in kinds] for crate, *kinds in PROCESSOR.findall(log)}
    head, sums = HEAD.search(log), SUM.findall(log)
    if not proved or not took or not head or not sums:
        sys.exit("this is not a log of gate/run.sh: it has no proved crate, no processor minutes, no first line, or no last line")
    rows = [(crate, minute, sum(took.get(crate, [0.0])[:2])) for crate, minute in sorted(proved.items(), key=lambda it: (it[1], it[0]))]
    half = (len(rows) + 1) // 2
    cells = [f"| `{crate}` | {minute:.1f} | {minutes:.1f} |" for crate, minute, minutes in rows]
    right = [*cells[half:], *["| | | |"] * (2 * half - len(cells))]
    proofs = sum(sum(kinds[:2]) for kinds in took.values())
    edits = sum(kinds[2] for kinds in took.values())
    yield f"`gate/times.py` printed this table from a run of {head[1]}: {float(LAST.findall(log)[-1]):.0f} minutes, {sums[-1]}."
    yield f"Proofs and tests took {proofs:.0f} minutes of a processor, edits {edits:.0f}."
    yield ""
    yield "| Crate | Proved | Of a processor | | Crate | Proved | Of a processor |"
    yield "|---|---|---|---|---|---|---|"
    for one, other in zip(cells[:half], right):
        yield f"{one} {other}"


def main():
    parser = argparse.ArgumentParser(description="prints the table of times of a full check")
    parser.add_argument("log", type=Path, metavar="LOG")
    parser.add_argument("--write", type=Path, metavar="FILE")
    options = parser.parse_args()
    text = "".join(line + "\n" for line in table_of(options.log.read_text(encoding="utf-8", errors="replace")))
    if not options.write:
        print(text, end="")
        return
    page = options.write.read_text(encoding="utf-8")
    before, begin, rest = page.partition(BEGIN)
    _, end, after = rest.partition(END)
    if not begin or not end:
        sys.exit(f"{options.write} has no lines {BEGIN.strip()} and {END.strip()}")
    options.write.write_text(before + begin + text + end + after, encoding="utf-8")


if __name__ == "__main__":
    main()
