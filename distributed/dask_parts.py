#!/usr/bin/env python3
"""Answers a statement over all parts with Dask, and prints the merged answer.

    distributed/dask_parts.py DIR [--scheduler ADDRESS] [--workers N] [--tq PROGRAM]

    --scheduler ADDRESS   a running scheduler, whose workers see DIR under the same path (none: a cluster on this machine)
    --workers N           the workers of that cluster (4)
    --tq PROGRAM          the program (tq)

`tq split` made the folder DIR. A part that fails, or whose worker dies, runs again, at most three times. If it still fails,
the script ends with an error that names the part, and prints no answer.
"""

import argparse
import subprocess
import sys
from pathlib import Path

from dask.distributed import Client, LocalCluster


def read_options():
    parser = argparse.ArgumentParser()
    parser.add_argument("folder", type=Path)
    parser.add_argument("--scheduler")
    parser.add_argument("--workers", type=int, default=4)
    parser.add_argument("--tq", default="tq")
    return parser.parse_args()


def ask_part(program, folder):
    """Answers the statement over the part in the folder. Its answer.csv exists only if the answer is complete."""
    words = (Path(folder) / "args").read_bytes().split(b"\0")
    asked = subprocess.run([program, "ask", "-o", Path(folder) / "answer.csv", *words], stderr=subprocess.PIPE)
    if asked.returncode != 0:
        raise RuntimeError(f"part {Path(folder).name}: {asked.stderr.decode(errors='replace').strip()}")


def ask_parts(client, program, folder):
    """Answers the statement over all parts. Raises an error if one of them has no answer."""
    folders = sorted((str(path) for path in folder.iterdir() if path.is_dir()), key=lambda path: int(Path(path).name))
    client.gather([client.submit(ask_part, program, part, retries=3, pure=False) for part in folders])


def main():
    options = read_options()
    folder = options.folder.resolve()
    if options.scheduler:
        with Client(options.scheduler) as client:
            ask_parts(client, options.tq, folder)
    else:
        with LocalCluster(n_workers=options.workers, threads_per_worker=1, dashboard_address=None) as cluster, Client(cluster) as client:
            ask_parts(client, options.tq, folder)
    return subprocess.run([options.tq, "merge", folder]).returncode


if __name__ == "__main__":
    sys.exit(main())
