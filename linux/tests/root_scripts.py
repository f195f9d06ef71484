"""Twelve recordings of the running kernel, each as a script: what `thpsplit` does for it, beside what was recorded (root).

Each test records a workload, has `thpcheck --script` write the journal's script, and runs that. It passes if the script's scans split as
many pages as the recorded ones, and give back as many frames. A line has these numbers, the events of the recording, and the pins that
the recorder inferred; it ends in `exact` if the script's journal is the recording's, except for callers and blocks. Else the messages of
`thpcheck` follow, and the first line that differs. A test whose workload isn't installed is skipped. Takes about two minutes."""

from __future__ import annotations

import itertools
import re
import shutil
import subprocess
import unittest
from functools import partialmethod
from typing import NamedTuple, Sequence

from ..common import checker, program
from ..common.errors import DONE, SKIPPED
from ..common.subpages import set_of, size
from .cases import EXAMPLES, PROGRAMS, RECORD, RootCase

JUDGE, SPLITTER = program.find("thpcheck", checker.BUILT), program.find("thpsplit", program.BUILT)
PYTHON = "/usr/bin/python3"
LARGE = ("env", "GLIBC_TUNABLES=glibc.malloc.hugetlb=1")
NUMBERS = "seq 2000000 | sort -R | sort -n -S 300M > /dev/null"
UNDERUSED = "--underused 100 "
JAVA = ("java", "-XX:+UseTransparentHugePages", "-Xms16m", "-Xmx600m", str(PROGRAMS / "Heap.java"), "1", "2", "10")
COMPILER = ("g++", "-std=c++17", "-O2", "-c", "-o", "/dev/null", str(EXAMPLES / "heavy.cpp"))


class Workload(NamedTuple):
    """The options of thprecord, and the command; none: the tool's own workload."""

    options: str
    command: Sequence[str] = ()
    needed: str = ""  # a program that the command runs


WORKLOADS = {
    "python3": Workload(UNDERUSED, (*LARGE, PYTHON, str(PROGRAMS / "strings.py"), "1", "40"), PYTHON),
    "sqlite3": Workload(UNDERUSED + "--seconds 4", (*LARGE, "sh", "-c", f"sqlite3 :memory: < {EXAMPLES / 'blobs.sql'}"), "sqlite3"),
    # a reclaim also takes the pages of the programs, which are read again from disk
    "sort": Workload(UNDERUSED + "--every 0.1", (*LARGE, "sh", "-c", NUMBERS), "sort"),
    "gcc": Workload(UNDERUSED + "--every 0.5 --seconds 8", (*LARGE, *COMPILER), "g++"),
    "java": Workload(UNDERUSED + "--seconds 8", JAVA, "java"),
    "fork": Workload("--own 1,2000,1"),
    "copies_on_write": Workload("", (PYTHON, str(PROGRAMS / "snapshots.py"), "1"), PYTHON),
    "threads": Workload("--own 4,3000,1"),
    "zeros": Workload(UNDERUSED + "--own 1,2000,3,zeros"),
    "orders_9_and_4": Workload("--order 9,4 --every 1", (PYTHON, str(PROGRAMS / "two_sizes.py"), "150", "4"), PYTHON),
    "order_4": Workload("--own 1,2000,5 --order 4"),
    "three_orders": Workload("--own 2,1000,1 --order 9,5,4"),
}


def lines_of(text: str) -> list[str]:
    """Returns the lines of a journal, without its version, and without callers and blocks."""
    lines = (line.split() for line in text.split("\n")[1:-1])
    return [" ".join(words[1:] if words[0].isdigit() else words[:2]) for words in lines]


def outcome_of(lines: list[str]) -> tuple[int, int]:
    """Returns the pages that were split, and the frames that they gave back."""
    given = [size(set_of(line.split()[2])) for line in lines if line.startswith("split ")]
    return len(given), sum(given)


def run(words: list[str], text: str = "") -> subprocess.CompletedProcess[str]:
    """Runs a program with a text as its input."""
    return subprocess.run(words, input=text, capture_output=True, encoding="ascii", errors="replace", check=False)


def printable(text: str) -> str:
    """Returns the first of a text's characters, with `?` for those that can't be printed."""
    return re.sub("[^ -~]", "?", text)[:200]


@unittest.skipUnless(JUDGE and SPLITTER, "no thpcheck or thpsplit (make checker run)")
class ScriptsTest(RootCase):
    def repeat_recording(self, workload: Workload) -> None:
        """Records a workload, and compares it with its script."""
        assert JUDGE and SPLITTER
        if workload.needed and not shutil.which(workload.needed):
            self.skipTest(f"no {workload.needed}")
        command, path = ["--user", "root", "--", *workload.command] if workload.command else [], self.folder / "journal"
        done = run([RECORD, "--wait", "--require", "80", "--out", str(path), *workload.options.split(), *command])
        if done.returncode == SKIPPED:
            self.skipTest(printable(done.stderr) or "no huge page was followed")
        self.assertEqual(done.returncode, DONE, printable(done.stderr))
        script = run([JUDGE, "--script"], path.read_text(encoding="ascii"))
        options = [line.split()[2:] for line in script.stdout.split("\n") if line.startswith("# thpsplit ")][-1]  # of all nodes
        repeated = run([SPLITTER, *options, "--report", "journal"], script.stdout)
        recorded, again = lines_of(path.read_text(encoding="ascii")), lines_of(repeated.stdout)
        pairs = enumerate(itertools.zip_longest(recorded, again, fillvalue="nothing"), 2)
        differing = [f"line {at}: recorded `{one}`, script `{other}`" for at, (one, other) in pairs if one != other][:1]
        (split, frames), pins = outcome_of(recorded), sum(line.startswith("pin ") for line in recorded)
        print(f"   {len(recorded)} events, {split} split, {frames} frames; script {outcome_of(again)}; {pins} pins inferred; "
              f"{'differs' if differing else 'exact'}")
        for line in [*(script.stderr + repeated.stderr).split("\n")[:-1], *differing]:
            print(f"   {printable(line)}", flush=True)
        self.assertEqual(outcome_of(recorded), outcome_of(again))


for each, example in WORKLOADS.items():
    setattr(ScriptsTest, f"test_{each}", partialmethod(ScriptsTest.repeat_recording, example))
