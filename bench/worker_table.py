#!/usr/bin/env python3
"""Times scripts of 1 to 63 workers on 1, 2 and 8 nodes that they share, and prints a table.

    bench/worker_table.py PROGRAM PLAIN [--runs N]

PROGRAM is thpsplit. PLAIN is the plain program of bench/plain, which runs each script twice: once with a mutex that a worker
waits for, and once with 64 tries, after which the rest of a section is postponed, as in thpsplit. Each figure is the median of
N runs (default 9), the programs in turn: milliseconds by the clock, then milliseconds of processor time of all threads.
"""

from __future__ import annotations

import argparse
import os
import statistics
import subprocess
import sys
import tempfile
import time
from pathlib import Path

HERE = Path(__file__).resolve().parent
WORKERS = (1, 2, 4, 8, 16, 32, 63)
NODES = (1, 2, 8)
BYTES = 16_700_000


def time_run(command: list[str], script: Path) -> tuple[float, float]:
    """The seconds that a run took: by the clock, and of processor time. The run has to end well."""
    with script.open("rb") as text:
        before, began = os.times(), time.monotonic()
        subprocess.run(command, stdin=text, stdout=subprocess.DEVNULL, check=True)
        spent, after = time.monotonic() - began, os.times()
    used = after.children_user + after.children_system - before.children_user - before.children_system
    return spent, used


def row(commands: list[list[str]], script: Path, runs: int) -> str:
    """The medians of each command, in milliseconds."""
    seen: list[list[tuple[float, float]]] = [[] for _ in commands]
    for _ in range(runs):
        for of, command in zip(seen, commands):
            of.append(time_run(command, script))
    medians = ([1000 * statistics.median(column) for column in zip(*of)] for of in seen)
    return " | ".join(f"{clock:.0f} ({used:.0f})" for clock, used in medians)


def main() -> None:
    """Prints the table as Markdown."""
    parser = argparse.ArgumentParser(description="Times scripts of many workers on shared nodes.")
    parser.add_argument("program")
    parser.add_argument("plain")
    parser.add_argument("--runs", type=int, default=9)
    given = parser.parse_args()
    print("| Workers | Nodes | thpsplit | plain, a mutex | plain, 64 tries |\n|---|---|---|---|---|")
    with tempfile.TemporaryDirectory() as room:
        script = Path(room, "script")
        for nodes in NODES:
            for workers in WORKERS:
                with script.open("wb") as text:
                    words = [sys.executable, str(HERE / "generate_shared.py"), str(workers), str(nodes), str(BYTES)]
                    subprocess.run(words, stdout=text, check=True)
                shape = ["--workers", str(workers), "--nodes", str(nodes)]
                commands = [[given.program, *shape], [given.plain, *shape], [given.plain, *shape, "--tries", "64"]]
                print(f"| {workers} | {nodes} | {row(commands, script, given.runs)} |", flush=True)


if __name__ == "__main__":
    main()
