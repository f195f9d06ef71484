#!/usr/bin/env python3
"""Measures `thpcheck --script` and `thpwhatif policies` on a day of a service, made up: time, processor time and memory.

    bench/day.py CHECKER THPWHATIF [--events N] [--folder FOLDER]

The journal has 10,000,000 events in 24 hours (--events), and a file of their times. Huge pages come one after another: the shrinker tries
each when 200 younger ones have come, and it is freed after 2,000. Of four pages one is full of data, one has 100 subpages of data, one
loses half of its subpages, and one has 188 subpages of data and loses 12. Both files, 350 MB, are removed unless --folder keeps them.

A line for each program has the seconds by the clock and of processors, and the greatest sum of resident memory of all its processes (a
page that several share counts with each; looked at each 10 ms). The policies are three thresholds with four kinds of scans.
"""

from __future__ import annotations

import argparse
import itertools
import os
import resource
import subprocess
import sys
import tempfile
import time
from pathlib import Path
from typing import Iterator

DAY = 86400.0
TRIED, FREED = 200, 2000
"""Younger pages that come before the shrinker tries a page, and before it is freed."""

HEAD = "thp-journal 3\nnode 0 blocks 4000 order 9 underused 300\n"
KINDS = (
    (("0 alloc {new}", "0 write {new} 0 512"), ("0 taken {tried}", "0 used {tried}"), "0 unmapwhole {freed} freed 0-511"),
    (("0 alloc {new}", "0 write {new} 0 100"), ("0 taken {tried}", "0 split {tried} 100-511"), "0 unmapsub {freed} 0 512 freed 0-99"),
    (
        ("0 alloc {new}", "0 write {new} 0 512", "0 splitpmd {new}", "0 unmapsub {new} 0 256 stays -"),
        ("0 taken {tried}", "0 split {tried} 0-255"),
        "0 unmapsub {freed} 256 256 freed 256-511",
    ),
    (
        ("0 alloc {new}", "0 write {new} 0 180", "0 splitpmd {new}", "0 unmapsub {new} 500 12 stays -", "0 write {new} 200 8"),
        ("0 taken {tried}", "0 split {tried} 180-199,208-511"),
        "0 unmapsub {freed} 0 500 freed 0-179,200-207",
    ),
)
"""For each kind of page its events when it comes, when it is tried, and when it is freed."""

POLICIES = ["--threshold", "recorded,64,256", "--scan", "recorded,seconds:600,seconds:60,held:2000"]


def steps() -> Iterator[list[str]]:
    """The events of each moment at which a page comes."""
    for new in itertools.count():
        begin, tried, freed = KINDS[new % len(KINDS)]
        lines = [line.format(new=new) for line in begin]
        lines += [line.format(tried=new - TRIED) for line in tried] if new >= TRIED else []
        lines += [freed.format(freed=new - FREED)] if new >= FREED else []
        yield lines


def write_day(events: int, journal: Path, times: Path) -> int:
    """Writes the journal of at least so many events, and their times. Returns how many there are."""
    each = sum(len(begin) + len(tried) + 1 for begin, tried, _ in KINDS) / len(KINDS)
    step, count = DAY * each / events, 0
    with journal.open("w") as lines, times.open("w") as seconds:
        lines.write(HEAD)
        for number, now in enumerate(steps()):
            lines.write("\n".join(now) + "\n")
            seconds.write(f"{number * step:.6f}\n" * len(now))
            count += len(now)
            if count >= events:
                break
        lines.write("end\n")
    return count


def tree_of(process: int) -> list[int]:
    """A process and all that it has started."""
    out = [process]
    try:
        for task in os.listdir(f"/proc/{process}/task"):
            text = Path(f"/proc/{process}/task/{task}/children").read_text()
            out += [each for child in text.split() for each in tree_of(int(child))]
    except OSError:
        pass  # it has ended
    return out


def resident(process: int) -> int:
    """The resident memory of a process, in pages."""
    try:
        return int(Path(f"/proc/{process}/statm").read_text().split()[1])
    except (OSError, IndexError):
        return 0


def measure(name: str, command: list[str], source: Path, out: Path) -> None:
    """Runs a command and prints its line. Ends the program where the command fails."""
    before, began = resource.getrusage(resource.RUSAGE_CHILDREN), time.perf_counter()
    most = 0
    with source.open("rb") as text, out.open("wb") as output:
        child = subprocess.Popen(command, stdin=text, stdout=output)
        while child.poll() is None:
            most = max(most, sum(map(resident, tree_of(child.pid))))
            time.sleep(0.01)
    seconds, used = time.perf_counter() - began, resource.getrusage(resource.RUSAGE_CHILDREN)
    if child.returncode:
        sys.exit(f"{name}: status {child.returncode}")
    processor = used.ru_utime + used.ru_stime - before.ru_utime - before.ru_stime
    size = most * resource.getpagesize() / (1 << 20)
    print(f"{name}: {seconds:.1f} s, processor {processor:.1f} s, {size:.1f} MiB", flush=True)


def main() -> None:
    """Writes the day and runs both programs."""
    parser = argparse.ArgumentParser(description=__doc__, formatter_class=argparse.RawDescriptionHelpFormatter)
    parser.add_argument("checker")
    parser.add_argument("whatif")
    parser.add_argument("--events", type=int, default=10_000_000)
    parser.add_argument("--folder", type=Path)
    words = parser.parse_args()
    with tempfile.TemporaryDirectory(prefix="day-") as own:
        folder = words.folder or Path(own)
        journal, times = folder / "day.journal", folder / "day.times"
        print(f"{write_day(words.events, journal, times)} events", flush=True)
        measure("thpcheck --script", [words.checker, "--script"], journal, folder / "day.script")
        tool = [words.whatif, "policies", str(journal), "--times", str(times), *POLICIES, "--checker", words.checker]
        measure("thpwhatif policies", tool, journal, folder / "day.table")
        print((folder / "day.table").read_text(), end="")


if __name__ == "__main__":
    main()
