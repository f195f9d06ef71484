#!/usr/bin/env python3
"""How long `thpwhatif now --all` takes, and how much memory, by the size of the huge pages that are mapped (root).

    bench/looks.py [--sizes LIST] [--rounds N] [--one] TOOL..

For each size, in GiB, a process maps huge pages, each second subpage of which is zero-filled. Each TOOL, a path of thpwhatif, then looks
in turn. A line has the median and the least time by the clock, the processor time of the tool and of what it ran, the resident memory of
the largest of these processes, and what the look saw. --one: `now --pid` of that process alone, where others have
much memory. Status 77 without root or memory.
"""

from __future__ import annotations

import argparse
import ctypes
import json
import mmap
import os
import re
import statistics
import subprocess
import sys
import time
from contextlib import contextmanager
from dataclasses import dataclass
from pathlib import Path
from typing import Any, Iterator

BASE, HUGE = 4096, 1 << 21
MADV_HUGEPAGE = 14
LACKS, NOT_ALL = 77, 4


@dataclass(frozen=True)
class Look:
    """What one look took: seconds by the clock and of processors, MiB, and its JSON object."""

    seconds: float
    processor: float
    resident: float
    report: dict[str, Any]


def map_pages(count: int) -> None:
    """Maps so many huge pages, writes each second subpage, prints a line and waits until the caller ends."""
    memory = mmap.mmap(-1, (count + 1) * HUGE, flags=mmap.MAP_PRIVATE | mmap.MAP_ANONYMOUS)
    memory.madvise(MADV_HUGEPAGE)
    first = ctypes.addressof(ctypes.c_char.from_buffer(memory))
    for at in range(-(-first // HUGE) * HUGE, -(-first // HUGE) * HUGE + count * HUGE, 2 * BASE):
        ctypes.memset(at, 1, BASE)
    print("ready", flush=True)
    sys.stdin.read()


@contextmanager
def mapped(gibibytes: float) -> Iterator[int]:
    """Has a process that maps so many GiB of huge pages until the end of the `with`; gives its number."""
    count = round(gibibytes * (1 << 30) / HUGE)
    command = [sys.executable, "-I", str(Path(__file__).resolve()), "--map", str(count)]
    child = subprocess.Popen(command, stdin=subprocess.PIPE, stdout=subprocess.PIPE)
    try:
        assert child.stdout
        child.stdout.readline()
        yield child.pid
    finally:
        child.kill()
        child.wait()


def look(tool: str, at: list[str]) -> Look:
    """Looks once at all processes or at one."""
    reader, writer = os.pipe()
    began = time.perf_counter()
    streams = [(os.POSIX_SPAWN_DUP2, writer, 1), (os.POSIX_SPAWN_CLOSE, reader), (os.POSIX_SPAWN_OPEN, 2, os.devnull, os.O_WRONLY, 0)]
    child = os.posix_spawn(tool, [tool, "now", *at, "--json"], os.environ, file_actions=streams)
    os.close(writer)
    with open(reader, "rb") as text:
        out = text.read()
    _, status, used = os.wait4(child, 0)
    seconds = time.perf_counter() - began
    if os.waitstatus_to_exitcode(status) not in (0, NOT_ALL):
        sys.exit(f"{tool} ended with status {os.waitstatus_to_exitcode(status)}")
    return Look(seconds, used.ru_utime + used.ru_stime, used.ru_maxrss / 1024, json.loads(out))


def describe(looks: list[Look]) -> str:
    """A tool's looks in words."""
    times, report = [each.seconds for each in looks], looks[-1].report
    row = (report.get("rows") or [{"pages": 0, "frames_back": 0}])[-1]
    processor = statistics.median(each.processor for each in looks)
    return (
        f"{statistics.median(times):.3f} s (least {min(times):.3f}), processor {processor:.3f} s, "
        f"{max(each.resident for each in looks):.1f} MiB; {row['pages']} pages, {row['frames_back']} frames; {report['seconds']}"
    )


def available() -> float:
    """GiB of memory that can be had."""
    found = re.search(r"^MemAvailable: +([0-9]+) kB$", Path("/proc/meminfo").read_text(), re.MULTILINE)
    return int(found[1]) / (1 << 20) if found else 0.0


def main() -> None:
    """Prints a line for each size and tool."""
    parser = argparse.ArgumentParser(description=__doc__, formatter_class=argparse.RawDescriptionHelpFormatter)
    parser.add_argument("--sizes", default="0,1,4,8,12")
    parser.add_argument("--rounds", type=int, default=5)
    parser.add_argument("--one", action="store_true")
    parser.add_argument("--map", type=int, help=argparse.SUPPRESS)
    parser.add_argument("tools", nargs="*", metavar="TOOL")
    words = parser.parse_args()
    if words.map is not None:
        return map_pages(words.map)
    sizes = [float(size) for size in words.sizes.split(",")]
    if os.geteuid() != 0 or available() < max(sizes) + 2:
        print(f"looks: skipped: not root, or less than {max(sizes) + 2:g} GiB of memory", file=sys.stderr)
        sys.exit(LACKS)
    for size in sizes:
        looks: dict[str, list[Look]] = {tool: [] for tool in words.tools}
        with mapped(size) as process:
            time.sleep(1.0)
            at = ["--pid", str(process)] if words.one else ["--all"]
            for _ in range(words.rounds):
                for tool in words.tools:
                    looks[tool].append(look(tool, at))
        for tool in words.tools:
            print(f"{size:g} GiB, load {os.getloadavg()[0]:.1f}, {tool}: {describe(looks[tool])}", flush=True)


if __name__ == "__main__":
    main()
