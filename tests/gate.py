"""The gate: `rt ci`, followed by the tests from outside. The last line is `N passed, M failed` over all of it.

    tests/gate.py

The status is 0 exactly if nothing failed. Each script ends with its own count, and the gate adds them up. Scripts that need
the built program get those that `rt ci` has just built, with each of its compilers; if there is none, a line reports that.
"""

from __future__ import annotations

import os
import re
import shutil
import subprocess
import sys
import time
from collections.abc import Callable
from pathlib import Path
from typing import NoReturn

from run import SKIPPED

ROOT = Path(__file__).resolve().parent.parent
sys.path.insert(0, str(ROOT))

from prove import keep_verdict, library, listed, products, released, sources, verdict  # noqa: E402

WITHOUT = tuple(f"tests/test_{name}.py" for name in ("docs", "surface", "installed", "release", "lint"))
"""The tests of the tree only."""

KERNEL_TOOLS = ("tests/run.py", "linux/tests")
"""The tests of the tools for the running kernel with stored data."""

PREDICTIONS = (*KERNEL_TOOLS, "-p", "test_whatif_*.py")
"""The tests of `thpwhatif`, most of which call libthp."""

BUILT = ("crates/thpsplit/out/thpsplit", "crates/thpsplit/out/thpsplit.by-rattle")
"""Where `rt ci` leaves the program, built with LLVM and with Rattle's own compiler."""

CHECKERS = ("crates/thpcheck/out/thpcheck", "crates/thpcheck/out/thpcheck.by-rattle")
"""The same for the program for journals of any length."""

DRAWERS = ("crates/thpdraw/out/thpdraw", "crates/thpdraw/out/thpdraw.by-rattle")
"""The same for the program that draws them."""

BY_EACH = ("tests/test_examples.py", "tests/test_rows.py", "tests/test_outside.py", "tests/test_large.py", "tests/test_workers.py")
"""The tests of a program."""

EXAMPLES = ("tests/run.py", "-p", "test_examples.py", "-k", "Examples")
"""Those of them that need no built program."""

BY_ONE = ("tests/test_spoilt.py", "tests/test_wrong_programs.py", "tests/test_memory.py")
"""The tests of a program that take longer, for one of them."""

CEILINGS = ("bench/ceilings.py", "--kinds", "churn,counts,clash")
"""The tests of the instructions and the memory of a program, built with LLVM, with scripts of three kinds: with scans, with the
commands that do least, and with the greatest number of pages of a node."""

ARCHIVE = "crates/thp_c/out/libthp_c.a"
"""Where the archive of the library for C is built: `rt ci` proves it, and builds nothing of it."""

COUNT = re.compile(r"(\d+) passed, (\d+) failed$")

REPORTS_FAILURE = re.compile(r": failed: |^rt: FAILED|^(?:rt: )?must-fail .*: (?:NOT REFUSED|BAD EDIT)|^(FAIL|ERROR): ")
"""Lines that name a failure, which are repeated at the end: often only the end of a long output is kept."""


def run(command: list[str], failures: list[str], variables: dict[str, str], see: Callable[[str], None]) -> tuple[int, int, int]:
    """Runs a command from the top of the repository, with these variables too, and prints its output as it comes; returns its count, and
    its status.

    A command that prints no count counts as nothing passed. Lines that name a failure are kept, and `see` gets all lines.
    """
    passed, failed = 0, 0
    try:
        child = subprocess.Popen(command, cwd=ROOT, env={**os.environ, **variables}, stdout=subprocess.PIPE, stderr=subprocess.STDOUT,
                                 text=True, errors="replace")
    except OSError as error:
        print(f"{command[0]}: {error.strerror}", flush=True)
        return 0, 0, 127
    assert child.stdout is not None
    for line in child.stdout:
        count = COUNT.match(line.strip())
        if count:
            passed, failed = int(count[1]), int(count[2])
            continue
        print(line, end="", flush=True)
        see(line)
        if REPORTS_FAILURE.search(line):
            failures.append(line[:300].rstrip())
    return passed, failed, child.wait()


def spent() -> float:
    """The processor time of everything run so far, in seconds."""
    times = os.times()
    return times.children_user + times.children_system


def unstamped(name: str) -> list[Path]:
    """The library of a crate, if `rt ci` has built it: those that other commands built have a stamp, and `rt ci` puts them back."""
    built = library(name)
    return [built] if built.is_dir() and not (built.parent / "stamp").exists() else []


class Verdicts:
    """The verdict lines in the output of `rt ci`, by crate."""

    def __init__(self) -> None:
        self.before = {name: sources(name) for name in listed()}
        self.name, self.line = "", ""
        self.lines: dict[str, str] = {}

    def see(self, line: str) -> None:
        """Takes a line of the output: the head of a crate's part, a line in it, or its end, which says if `rt` accepts the crate."""
        if line.startswith("== "):
            self.name, self.line = line[3:].strip(), ""
        elif line.startswith("logic=proved "):
            self.line = line
        elif line == f"rt: {self.name} proved\n" and self.name in self.before:
            self.lines[self.name] = self.line

    def keep(self) -> None:
        """Stores them once `rt ci` has ended, which moves what the crates' folders contain, and names crates that have none: `rt ci`
        prints no verdict line of a proof that it kept from an earlier run."""
        for name, line in self.lines.items():
            keep_verdict(name, self.before[name], line, [*products(name), *unstamped(name)])
        lacking = [name for name in released() if verdict(name) is None]
        if lacking:
            print(f"no verdict line for `make dist`: {', '.join(lacking)}", flush=True)


class Gate:
    """The parts of the gate, and what failed in them."""

    def __init__(self) -> None:
        self.passed, self.failed = 0, 0
        self.failures: list[str] = []

    def add(self, name: str, command: list[str], variables: dict[str, str] | None = None,
            see: Callable[[str], None] = lambda line: None) -> None:
        """Runs a command, adds its count, and prints its processor time. A command that ends wrong and counts no failure counts as one
        failure."""
        lines: list[str] = []
        began = spent()
        passed, failed, status = run(command, lines, variables or {}, see)
        if status not in (0, SKIPPED) and failed == 0:
            lines.append(f"{name}: ended with status {status}")
            failed = 1
        print(f"{name}: {passed} of {passed + failed}, in {spent() - began:.0f} s of processor time", flush=True)
        self.passed += passed
        self.failed += failed
        if failed:
            self.failures += [f"failed in {name}: {line}" for line in lines or ["no line names it"]]

    def add_file(self, path: str, **programs: str) -> None:
        """Runs a file of tests: by `unittest`, with programs in variables, if its name begins with `test_`; otherwise with them as its
        words."""
        name, given = Path(path).name, list(programs.values())
        words = ["tests/run.py", "-p", name] if name.startswith("test_") else [path, *given]
        self.add(" ".join([name, *(Path(it).name for it in given)]), [sys.executable, *words], programs)

    def report(self, name: str, wrong: str | None) -> None:
        """Counts a part that is one test, given what is wrong, or None."""
        self.passed += wrong is None
        self.failed += wrong is not None
        print(f"{name}: passed" if wrong is None else f"{name}: failed: {wrong}", flush=True)
        if wrong is not None:
            self.failures.append(f"failed in {name}: {wrong}")

    def skip(self, name: str, why: str) -> None:
        """Names a part that can't be run here. It counts as neither, or as failed if STRICT=1 is set."""
        if os.environ.get("STRICT") == "1":
            self.report(name, f"{why} (STRICT=1)")
        else:
            print(f"{name}: skipped: {why}", flush=True)

    def end(self) -> NoReturn:
        """Repeats the failures, prints the total processor time and the count, and ends."""
        print(f"processor minutes: {spent() / 60:.1f}", flush=True)
        for line in self.failures:
            print(line, flush=True)
        print(f"{self.passed} passed, {self.failed} failed", flush=True)
        sys.exit(1 if self.failed else 0)


def build_tools(gate: Gate, *targets: str) -> None:
    """Builds what the tools for the running kernel have in C, and before it these targets. Packages that this machine lacks are named."""
    lacking = subprocess.run(["make", "-s", "--no-print-directory", "-C", "linux", "lacking"], cwd=ROOT, capture_output=True, text=True)
    if lacking.stdout.strip():
        gate.skip("make -C linux", f"no {lacking.stdout.strip()} (make deps)")
        subprocess.run(["make", "-k", "-s", "-C", "linux"], cwd=ROOT, capture_output=True)  # the rest
        return
    for folder in (*targets, "linux"):
        gate.report(f"make -C {folder}", built(folder))


def built(folder: str) -> str | None:
    """What is wrong when `make` builds a folder, or None."""
    done = subprocess.run(["make", "-s", "--no-print-directory", "-C", folder], cwd=ROOT, capture_output=True, text=True)
    return None if done.returncode == 0 else f"status {done.returncode}: {done.stderr.strip()[-400:]}"


def made_since(began: float, names: tuple[str, ...]) -> list[str]:
    """The built programs of these names that were built since then: none of an earlier run."""
    paths = [ROOT / name for name in names]
    return [str(path) for path in paths if path.is_file() and path.stat().st_mtime >= began]


def test_programs(gate: Gate, programs: list[str], began: float) -> None:
    """Adds the tests of the program, as each compiler built it."""
    for program in programs:
        for path in BY_EACH:
            gate.add_file(path, THPSPLIT=program)
    for program in programs[:1]:
        for path in BY_ONE:
            gate.add_file(path, THPSPLIT=program)
        gate.add(Path(CEILINGS[0]).name, [sys.executable, *CEILINGS, program])


def test_library(gate: Gate, programs: list[str], archives: list[str]) -> None:
    """Adds the tests of the library for C, and of what a call from C takes."""
    gate.add_file("tests/test_library.py", **({"LIBTHP_C": archives[0], "THPSPLIT": programs[0]} if archives and programs else {}))
    for archive in archives:
        gate.add("bench/calls/run", [sys.executable, "bench/calls/run", archive, "--ceilings"])
    if archives:
        build_tools(gate, "c")
    gate.add("predictions", [sys.executable, *PREDICTIONS])


def test_journal_tools(gate: Gate, programs: list[str], checkers: list[str], drawers: list[str]) -> None:
    """Adds the tests of the programs for journals of any length."""
    for program in checkers:
        gate.add_file("tests/test_checker.py", THPCHECK=program)
    for program, player in zip(checkers, programs):
        gate.add_file("tests/test_repeats.py", THPCHECK=program, THPSPLIT=player)
        gate.add_file("tests/test_streams.py", THPCHECK=program, THPSPLIT=player)
    for program in drawers:
        gate.add_file("tests/test_drawer.py", THPDRAW=program)
        gate.add_file("tests/test_tables.py", THPDRAW=program)


def main() -> None:
    """Runs everything and ends with the sum."""
    gate = Gate()
    began = time.time() - 1
    # One process for each proof, and as many side by side as there are processors: several for one proof take a quarter more.
    os.environ.setdefault("RT_JOBS", str(len(os.sched_getaffinity(0))))
    for name in listed():
        for built in unstamped(name):  # of an earlier gate: `rt ci` would put it back over its own
            shutil.rmtree(built.parent)
    verdicts = Verdicts()
    gate.add("rt ci", ["rt", "ci"], see=verdicts.see)
    verdicts.keep()
    build_tools(gate)
    for path in WITHOUT:
        gate.add_file(path)
    gate.add("linux/tests", [sys.executable, *KERNEL_TOOLS], {"STRICT": ""})  # PREDICTIONS runs those that need libthp
    programs = made_since(began, BUILT)
    test_programs(gate, programs, began)
    gate.add_file("tests/test_archive.py", BUILD_LIBTHP_C=ARCHIVE)
    archives, checkers, drawers = (made_since(began, names) for names in ((ARCHIVE,), CHECKERS, DRAWERS))
    test_library(gate, programs, archives)
    test_journal_tools(gate, programs, checkers, drawers)
    if programs and checkers and drawers and archives:
        gate.add_file("tests/test_package.py", THPSPLIT=programs[0], THPCHECK=checkers[0], THPDRAW=drawers[0], LIBTHP_C=archives[0])
    if not programs:
        gate.add("examples by rt try", [sys.executable, *EXAMPLES], {"TRY": "1"})
        gate.skip("the program from outside", "rt ci has built none")
    gate.end()


if __name__ == "__main__":
    main()
