#!/usr/bin/env bash
# Times the multiversion tree compared with a BTreeMap of the standard library, from outside the program:
# N inserts, then N / 2 deletes. Figures are the minimum of five runs, less the time to make the keys.
# A delete in the tree first checks whether the key is alive. Name the machine when you quote the ratios.
set -euo pipefail
count="${1:-1000000}"
cd "$(dirname "$0")/.."
python3 gate/build.py bench_tree > /dev/null
python3 - "$count" <<'PY'
import subprocess, sys, time

count = sys.argv[1]

def best(mode):
    times = []
    for _ in range(5):
        begin = time.perf_counter()
        out = subprocess.run(["bin/bench_tree", mode, count], check=True, capture_output=True, text=True).stdout
        times.append(time.perf_counter() - begin)
    return min(times), out

keys, _ = best("keys")
tree, counts = best("tree")
plain, _ = best("map")
print(counts, end="")
print(f"time of the tree compared with the map: {(tree - keys) / (plain - keys):.2f}")
print(f"microseconds for an update: tree {(tree - keys) / (int(count) * 1.5) * 1e6:.2f}, map {(plain - keys) / (int(count) * 1.5) * 1e6:.2f}")
PY

# Queries over the same keys: 250 neighbouring keys at the version of the last insert, before the deletes, and all keys at
# that version. They are compared with ranges of 250 keys in a map without versions. Times are less the time to fill.
python3 - "$count" <<'PY'
import subprocess, sys, time

count = sys.argv[1]

def best(mode, questions, runs):
    times = []
    for _ in range(runs):
        begin = time.perf_counter()
        out = subprocess.run(["bin/bench_tree", mode, count, str(questions)], check=True, capture_output=True, text=True).stdout
        times.append(time.perf_counter() - begin)
    return min(times), dict((line.rsplit(" ", 1)[0], int(line.rsplit(" ", 1)[1])) for line in out.splitlines())

def question(mode, questions, runs=3):
    empty, _ = best(mode, 0, runs)
    full, found = best(mode, questions, runs)
    return (full - empty) / questions * 1e6, found

plain, _ = question("range", 100000)
for mode, questions, what in (("scan", 100000, "250 neighbouring keys"), ("all", 20, "all keys")):
    micros, found = question(mode, questions)
    keys, leaves, reads = (found[word] / questions for word in ("keys found", "leaves met", "nodes read"))
    bound = leaves + (found["levels"] - 1) * leaves
    print(f"{what}: {micros:.1f} microseconds for a query, {reads:.1f} reads for {leaves:.1f} leaves (bound {bound:.1f}), {keys:.0f} keys (bound on leaves {round(keys) // 5 + 2})")
    if mode == "scan":
        print(f"the map's range of 250 keys: {plain:.1f} microseconds; the tree compared with the map: {micros / plain:.1f}")
PY
