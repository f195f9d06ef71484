#!/usr/bin/env python3
"""Whether a built program takes more instructions or memory than it did: at most 1.1 of what is stored.

    bench/ceilings.py PROGRAM [--kinds KIND,..] [--store]

Scripts of bench/generate.py (700,000 bytes, 16 blocks; `clash` with 4,096) of each kind, by each report, and the check of the
journal that the program writes. Instructions are counted by `valgrind --tool=callgrind`, the whole program's; memory is the
greatest resident size that the kernel reports of it (wait4), by a script of 4,200,000 bytes, the median of nine runs, and half
a MiB more is never too much. A command of `clash` is also held to 1.1 of the instructions of one of `middle`. `--store` writes a
new bench/ceilings.json. The last line is `N passed, M failed`; status 1 where something takes more. `--kinds` looks at scripts of
these kinds alone; the gate does so with three. Without valgrind the instructions are named as skipped, and counted neither way.
"""

from __future__ import annotations

import argparse
import ctypes
import json
import os
import re
import shutil
import subprocess
import sys
import tempfile
from collections.abc import Iterator
from contextlib import suppress
from pathlib import Path
from statistics import median

ROOT = Path(__file__).resolve().parent.parent
STORED = ROOT / "bench/ceilings.json"
BLOCKS = {"churn": 16, "middle": 16, "maps": 16, "counts": 16, "clash": 4096}
"""The kinds of scripts, and how many blocks a node has. Pages clash in numbers: with few of them nothing would show."""

WAYS: dict[str, list[str]] = {
    "totals": [], "answers": ["--report", "answers"], "journal": ["--report", "journal"], "check": ["--check"],
}
"""The options of each run. The check reads the output of `journal`."""

COUNTED, HELD = 700_000, 4_200_000
"""Bytes of a script whose instructions are counted, and of one whose memory is looked at."""

MOST = 1.1
"""What may be taken, of what is stored."""

ERROR = 0.5
"""MiB by which the kernel's count of a run's memory may be off: so much more is never too much."""

RUNS = 9
"""The runs whose median is the memory."""

SKIPPED = 77
"""The exit status where nothing could be compared."""

START = 'exec 3<&0; "$@" <&3 > /dev/null & echo $!'
"""A shell's commands: start a program that reads the shell's input, and print its process number."""

PR_SET_CHILD_SUBREAPER = 36
"""The option of prctl(2)."""

Figures = dict[str, dict[str, float]]


def inputs(program: str, folder: Path, kind: str, length: int) -> tuple[Path, Path]:
    """A script of a kind and of a length in bytes, and the journal that the program writes of it."""
    script, journal = folder / f"{kind}.{length}.script", folder / f"{kind}.{length}.journal"
    if journal.exists():
        return script, journal
    blocks = str(BLOCKS[kind])
    words = [sys.executable, str(ROOT / "bench/generate.py"), kind, blocks, str(length)]
    with script.open("wb") as file:
        subprocess.run(words, stdout=file, check=True)
    with script.open("rb") as given, journal.open("wb") as file:
        subprocess.run([program, "--blocks", blocks, "--report", "journal"], stdin=given, stdout=file, check=True)
    return script, journal


def instructions(words: list[str], given: Path) -> float:
    """Millions of instructions that a run takes."""
    with given.open("rb") as file, tempfile.NamedTemporaryFile() as counts:
        called = ["valgrind", "--tool=callgrind", f"--callgrind-out-file={counts.name}", *words]
        done = subprocess.run(called, stdin=file, stdout=subprocess.DEVNULL, stderr=subprocess.PIPE, text=True, check=True)
    found = re.search(r"Collected : (\d+)", done.stderr)
    assert found, done.stderr
    return int(found[1]) / 1e6


def wait_for_orphans() -> None:
    """Makes the processes that a shell leaves behind children of this one."""
    ctypes.CDLL(None).prctl(PR_SET_CHILD_SUBREAPER, 1, 0, 0, 0)


def memory(words: list[str], given: Path) -> float:
    """The greatest resident size of a run, in MiB.

    The kernel counts a process as large as it was before `exec`, too, and this one is larger than most runs. So a shell starts the
    program and ends, and this process waits for the program in its place.
    """
    read, write = os.pipe()
    with suppress(BrokenPipeError), open(read, "rb") as reading, open(write, "wb") as writing:
        shell = subprocess.run(["sh", "-c", START, "sh", *words], stdin=reading, stdout=subprocess.PIPE, text=True, check=True)
        reading.close()
        with given.open("rb") as file:
            shutil.copyfileobj(file, writing)
    _, status, usage = os.wait4(int(shell.stdout), 0)
    assert status == 0, f"{' '.join(words)}: status {os.waitstatus_to_exitcode(status)}"
    return float(usage.ru_maxrss) / 1024


def measure(program: str, folder: Path, kind: str, way: str) -> dict[str, float]:
    """What one run takes; without valgrind its memory alone."""
    words = [program, *([] if way == "check" else ["--blocks", str(BLOCKS[kind])]), *WAYS[way]]
    figures: dict[str, float] = {}
    if shutil.which("valgrind"):
        given = inputs(program, folder, kind, COUNTED)
        figures["instructions, M"] = round(instructions(words, given[way == "check"]), 2)
    given = inputs(program, folder, kind, HELD)
    figures["memory, MiB"] = round(median(memory(words, given[way == "check"]) for _ in range(RUNS)), 1)
    return figures


def report(name: str, took: float | None, most: float, figures: str) -> str | None:
    """Prints what was taken, and what is wrong: that it is too much, or, where it is unknown, that valgrind is missing. Returns `passed`,
    `failed`, or None where it is only skipped."""
    if took is None:
        is_strict = os.environ.get("STRICT") == "1"
        print(f"{name}: {'failed' if is_strict else 'skipped'}: valgrind isn't there")
        return "failed" if is_strict else None
    print(f"{name}: {figures}")
    if took > most:
        print(f"{name}: failed: {took:.2f}, above {most:.2f}")
    return "failed" if took > most else "passed"


def compare(name: str, took: dict[str, float], stored: dict[str, float]) -> Iterator[str | None]:
    """Compares each figure of a run with the stored one."""
    for what, before in stored.items():
        most = max(MOST * before, before + (ERROR if what.startswith("memory") else 0))
        yield report(f"{name}, {what}", took.get(what), most, f"{took.get(what)} ({took.get(what, 0) / before:.2f} of {before})")


def a_command(folder: Path, kind: str, figures: Figures) -> float:
    """Instructions of a command of a script, on average; 0 without valgrind."""
    lines = (folder / f"{kind}.{COUNTED}.script").read_bytes().count(b"\n") if shutil.which("valgrind") else 2
    return figures[f"{kind}, totals"].get("instructions, M", 0) * 1e6 / (lines - 1)  # without `setup`


def compare_clash(folder: Path, figures: Figures) -> str | None:
    """Pages are found as fast where others share the low bits of their numbers."""
    middle, clash = (a_command(folder, kind, figures) for kind in ("middle", "clash"))
    text = f"{clash:.0f} instructions ({clash / (middle or 1):.2f} of {middle:.0f}, one of middle)"
    return report("a command of clash", clash or None, MOST * middle, text)


def kinds_in(text: str) -> list[str]:
    """The kinds of scripts that a word of the command line names."""
    kinds = text.split(",")
    if not set(kinds) <= set(BLOCKS):
        raise argparse.ArgumentTypeError(f"{text} isn't some of {','.join(BLOCKS)}")
    return kinds


def main() -> None:
    """Looks at the program of the command line."""
    parser = argparse.ArgumentParser(description="compares what a built program takes with what is stored")
    parser.add_argument("program")
    parser.add_argument("--store", action="store_true", help="store what it takes as the new figures")
    parser.add_argument("--kinds", type=kinds_in, default=list(BLOCKS), help="kinds of scripts, joined by commas (default: all)")
    asked = parser.parse_args()
    if asked.store and asked.kinds != list(BLOCKS):
        parser.error("--store stores all kinds")
    program = str(Path(asked.program).resolve())
    wait_for_orphans()
    results: list[str | None] = []
    stored: Figures = {} if asked.store else json.loads(STORED.read_text())
    figures: Figures = {}
    with tempfile.TemporaryDirectory() as name:
        for kind in asked.kinds:
            for way in WAYS:
                took = measure(program, Path(name), kind, way)
                figures[f"{kind}, {way}"] = took
                results += compare(f"{kind}, {way}", took, stored.get(f"{kind}, {way}", {}))
        if {"clash", "middle"} <= set(asked.kinds):
            results.append(compare_clash(Path(name), figures))
    if asked.store:
        STORED.write_text(json.dumps(figures, indent=1) + "\n")
        print(f"stored in {STORED.relative_to(ROOT)}")
        return
    print(f"{results.count('passed')} passed, {results.count('failed')} failed")
    sys.exit(1 if "failed" in results else 0 if "passed" in results else SKIPPED)


if __name__ == "__main__":
    main()
