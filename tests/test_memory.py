"""Fails each allocation in turn, and each start of a thread, and checks the result (`make memory`).

If an allocation fails, `thpsplit` must end with status 3, report `thpsplit: out of memory` and write nothing; or it manages with less
memory, or without the thread, and its output is the usual one. If none fails, no more bytes may be requested than `MOST` has. Each test
of crates/tests_spoilt whose name begins with GROWTHS (`memory::` for all; default: the row that only a failing allocation can show) must
pass whichever allocation fails; it may report the failed call in a line `refused: CALL`. Needs a C compiler, `cc` or the one that CC
names. A line for each case and test reports the number of failed allocations.
"""

from __future__ import annotations

import os
import pathlib
import re
import struct
import subprocess
import tempfile
from collections import Counter
from concurrent.futures import ThreadPoolExecutor
from typing import Iterable, Iterator, Optional, Sequence
from unittest import TestCase

from fixtures import ProgramCase, add_tests, find_built, require_tool, temporary_folder
from script import Run, Shape

HERE = pathlib.Path(__file__).parent
COMPILER = os.environ.get("CC", "cc")
REPORTED = "thpsplit: out of memory\n"
GROWTHS = os.environ.get("GROWTHS", "memory::node_growths::put_back_without_memory")

MOST = {
    "first script": 92_600,
    "workers, totals": 247_200,
    "workers, journal": 254_400,
    "workers, answers": 326_400,
    "long sections, answers": 3_899_900,
    "long sections, totals": 1_975_500,
    "check": 364_000,
}
"""The bytes that the allocations of each case may request in all: a tenth more than they did."""

Ran = subprocess.CompletedProcess[str]
Case = tuple[str, list[str], str, str]
"""A run: a name, its options, its input, and its output."""

FIRST = "setup\nalloc 0\nsplitpmd 0 0\nunmap 0 0 0 256\nscan 0 8\n"
# three workers on a node each, one of whom leaves a batch open
SECTIONS = {
    0: ["alloc 0", "alloc 1", "alloc 2", "pin 1 0"],
    1: ["splitpmd 0 0", "unmap 0 0 0 256", "scan 0 8", "alloc 0", "splitpmd 0 1", "unmap 0 1 0 1", "take 0 8"],
    2: ["splitpmd 1 0", "unmap 1 0 0 1", "take 1 8", "splitnext 1", "putback 1", "count 1"],
    3: ["unmapwhole 2 0", "alloc 2", "map 2 1 0 3", "write 2 1 0 4", "zero 2 1 0 1", "close 2"],
}
LONG = {caller: ["count 0"] * 5000 for caller in (1, 2, 3)}


class Refuser:
    """Runs programs with one allocation or one start of a thread made to fail."""

    def __init__(self, folder: pathlib.Path) -> None:
        require_tool(COMPILER.split()[0])
        self.folder, self.library = folder, folder / "refuse.so"
        words = [*COMPILER.split(), "-O2", "-shared", "-fPIC", "-o", str(self.library), str(HERE / "refuse.c"), "-ldl"]
        subprocess.run(words, check=True)

    def run(self, words: Sequence[str], text: str, which: str = "MEMORY", number: int = 0) -> tuple[Ran, int, int, int]:
        """The run, the numbers of its allocations and starts of threads, and the bytes that the allocations requested."""
        with tempfile.NamedTemporaryFile(dir=self.folder) as counts:
            counts.write(bytes(24))
            counts.flush()
            names = {"LD_PRELOAD": str(self.library), "REFUSE_COUNTS": counts.name, f"REFUSE_{which}": str(number)}
            env = {**os.environ, **names}
            ran = subprocess.run(words, input=text, capture_output=True, text=True, env=env, check=False)
            counts.seek(0)
            growths, starts, requested = struct.unpack("=QQQ", counts.read())
            return ran, growths, starts, requested

    def each(self, words: Sequence[str], text: str) -> tuple[list[Ran], list[Ran]]:
        """The runs with each allocation and then each start of a thread made to fail."""
        _, growths, starts, _ = self.run(words, text)
        asked = [("MEMORY", number) for number in range(1, growths + 1)]
        asked += [("THREAD", number) for number in range(1, starts + 1)]
        with ThreadPoolExecutor(os.cpu_count()) as pool:
            runs = list(pool.map(lambda it: self.run(words, text, *it)[0], asked))
        return runs[:growths], runs[growths:]


def cases() -> Iterator[Case]:
    """Runs of the program."""
    run, script = worked(SECTIONS)
    long, long_script = worked(LONG)
    journal = joined(run.journal())
    first = Run([(16, 9, None)])
    first.section(0, FIRST.splitlines()[1:])
    yield "first script", [], FIRST, joined(first.totals())
    options = ["--nodes", "3", "--workers", "3"]
    yield "workers, totals", options, script, joined(run.totals())
    yield "workers, journal", [*options, "--report", "journal"], script, journal
    yield "workers, answers", [*options, "--report", "answers"], script, joined(run.answers)
    yield "long sections, answers", [*options, "--report", "answers"], long_script, joined(long.answers)
    yield "long sections, totals", options, long_script, joined(long.totals())
    yield "check", ["--check"], journal, "legal\n"


def worked(sections: dict[int, list[str]]) -> tuple[Run, str]:
    """A run of these sections on three nodes, and their script."""
    shapes: list[Shape] = [(16, 9, None)] * 3
    run, lines = Run(shapes), []
    for caller, commands in sections.items():
        run.section(caller, commands)
        lines += [f"worker {caller}" if caller else "setup", *commands]
    return run, joined(lines)


def joined(lines: Iterable[str]) -> str:
    """The text of some lines."""
    return "".join(line + "\n" for line in lines)


class Program(ProgramCase):
    """`thpsplit` with each allocation and each thread made to fail."""

    refuser: Refuser

    @classmethod
    def setUpClass(cls) -> None:
        """Builds what refuses memory, too."""
        super().setUpClass()
        cls.refuser = Refuser(temporary_folder(cls))

    def check(self, case: Case) -> Optional[str]:
        """Returns the number of runs of a case that ended wrong, or of bytes that are too many; or None."""
        name, options, text, wanted = case

        def kind(ran: Ran) -> str:
            reported = (ran.returncode, ran.stdout, ran.stderr)
            return {(3, "", REPORTED): "reported", (0, wanted, ""): "whole"}.get(reported, "wrong")

        command, parts, wrong = [str(self.program), *options], [], 0
        requested = self.refuser.run(command, text)[3]
        growths, starts = self.refuser.each(command, text)
        for what, whole, runs in (("growths", "met by less", growths), ("threads", "done without", starts)):
            counts = Counter(map(kind, runs))
            parts.append(f"{len(runs)} {what} refused: {counts['reported']} reported, {counts['whole']} {whole}, {counts['wrong']} wrong")
            wrong += counts["wrong"]
        print(f"{name}: {'; '.join(parts)}", flush=True)
        if requested > MOST[name]:
            return f"{requested} bytes requested, above {MOST[name]}, and {wrong} runs ended wrong"
        return f"{wrong} runs ended wrong" if wrong else None


class BuiltTests(TestCase):
    """Built tests of crates/tests_spoilt."""

    def test_each_test_passes_without_memory(self) -> None:
        """No test fails with any of its allocations and threads made to fail."""
        path, refuser = str(find_built("TESTS_SPOILT")), Refuser(temporary_folder(self))
        listed = subprocess.run([path, "--list"], capture_output=True, text=True, check=True).stdout
        calls: Counter[str] = Counter()
        names = [name for name in re.findall(r"^(.*): test$", listed, re.MULTILINE) if name.startswith(GROWTHS)]
        self.assertTrue(names, f"{path} has no test {GROWTHS}")
        for name in names:
            with self.subTest(name):
                growths, starts = refuser.each([path, name], "")
                bad = [number for number, ran in enumerate(growths + starts, 1) if ran.returncode]
                for ran in growths:
                    calls.update(re.findall(r"^refused: (.*)$", ran.stdout, re.MULTILINE))
                print(f"{name}: {len(growths)} growths and {len(starts)} threads refused, {len(bad)} failed", flush=True)
                self.assertFalse(bad)
        for call, count in sorted(calls.items()):
            print(f"  {call} was refused {count} times")


add_tests(Program, Program.check, ((case[0], case) for case in cases()))
