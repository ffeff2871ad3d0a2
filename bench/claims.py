#!/usr/bin/env python3
"""Times a claim and the start of a worker, compared with a step of a plain loop.

Usage: bench/claims.py [STEPS [RUNS]]   (default: 20,000,000 steps and 2,000 runs)

The script builds crates/bench_claims and times it from outside. Each figure is the minimum of five runs, less the time
of the program without steps. It is printed as a ratio to one step of the plain loop, which also stores its results in a
list. The script needs only the standard library.
"""

import os
import platform
import subprocess
import sys
import time

from measuring import build

PROGRAM = os.path.join(os.path.dirname(os.path.dirname(os.path.abspath(__file__))), "bin", "bench_claims")


def processor():
    """The processor's name, or its architecture if the system does not report the name."""
    try:
        with open("/proc/cpuinfo", encoding="utf-8") as lines:
            for line in lines:
                if line.startswith("model name"):
                    return line.split(":", 1)[1].strip()
    except OSError:
        pass
    return platform.processor() or platform.machine()


def output(words):
    done = subprocess.run([PROGRAM, *words], check=True, capture_output=True, text=True)
    return done.stdout


def seconds(*words):
    """The minimum time of five runs."""
    words = [str(word) for word in words]
    best = None
    for _ in range(5):
        start = time.perf_counter()
        output(words)
        spent = time.perf_counter() - start
        best = spent if best is None else min(best, spent)
    return best


def main():
    steps = int(sys.argv[1]) if len(sys.argv) > 1 else 20_000_000
    runs = int(sys.argv[2]) if len(sys.argv) > 2 else 2_000
    build("bench_claims")

    digests = {output([way, str(steps)]).split(":", 1)[1] for way in ("loop", "here", "with")}
    if len(digests) != 1:
        sys.exit("the results of `loop`, `here` and `with` differ")

    print(f"{processor()}, {os.cpu_count()} cores; {steps:,} steps, {runs:,} runs")
    nothing = seconds("loop", 0)
    step = (seconds("loop", steps) - nothing) / steps

    def ratio(way, *words):
        return (seconds(way, *words) - nothing) / step

    print("one step (1.0 is a step of a plain loop that keeps its result):")
    print(f"  as a piece on the calling thread       {ratio('here', steps) / steps:8.1f}")
    for workers in (1, 2, 4, 7, 16):
        print(f"  as a piece claimed by {workers:2} worker(s)     {ratio('with', steps, workers) / steps:8.1f}")
    alone = ratio("start", runs, 1) / runs
    print("a run with one piece for each worker, in steps of the loop:")
    print(f"  on the calling thread alone            {alone:8.0f}")
    for workers in (2, 4, 7, 16):
        cost = ratio("start", runs, workers) / runs
        each = (cost - alone) / (workers - 1)
        print(f"  {workers:2} workers                             {cost:8.0f}, {each:8.0f} for each thread started")


if __name__ == "__main__":
    main()
