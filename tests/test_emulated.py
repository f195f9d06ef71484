"""What release/aarch64.py builds, under qemu: the tests of the library in C, those of the programs, and random inputs.

THOROUGH=1 asks for these tests; CASES (default 2,000) random cases are from SEED (default 1). All is skipped if this machine lacks the
compiler, qemu, or the built files. Rows that bound memory are named and skipped, since the bound would be the emulator's.
"""

from __future__ import annotations

import os
import shutil
import subprocess
import sys
from pathlib import Path
from unittest import SkipTest, TestCase

from command import called
from fixtures import ROOT, add_tests, require_thorough, temporary_folder
from test_library import ASKED, C, DEMOS, HOST_WORDS, TESTS, header, symbol_versions

sys.path[:0] = [str(ROOT), str(ROOT / "release")]

from platforms import ARM64  # noqa: E402
from protection import weaknesses  # noqa: E402

QEMU = "qemu-aarch64-static"
LIBRARIES = "/usr/aarch64-linux-gnu"
"""Where Debian's libc6-arm64-cross has the C library of the platform."""

PROGRAMS = ("thpsplit", "thpcheck", "thpdraw")

SCRIPTS = {
    "thpsplit": ("test_rows.py", "test_outside.py", "test_workers.py"), "thpcheck": ("test_checker.py",), "thpdraw": ("test_drawer.py",),
}
"""The tests of each program."""

SECONDS = 3600
"""The greatest time that such a script may take."""


def built(name: str) -> Path:
    """What was built of a crate."""
    folder = ROOT / "crates" / name / "out" / ARM64.part
    return folder / (name if name in PROGRAMS else f"lib{name}.a")


def missing() -> str | None:
    """What this machine lacks, or None."""
    tools = {**ARM64.packages(), QEMU: "qemu-user-static"}
    lacks = sorted({package for tool, package in tools.items() if shutil.which(tool) is None})
    lacks += [] if Path(LIBRARIES, "lib/libc.so.6").exists() else ["libc6-dev-arm64-cross"]
    if lacks:
        return f"this machine lacks {', '.join(lacks)}"
    files = [built(name) for name in (*PROGRAMS, "thp_c")]
    absent = [str(path.relative_to(ROOT)) for path in files if not path.is_file()]
    return f"{absent[0]} isn't built: python3 release/aarch64.py builds it" if absent else None


def emulated(*words: str | Path) -> list[str]:
    """The command that runs a program of the platform."""
    return [QEMU, "-L", LIBRARIES, *map(str, words)]


class Emulated(TestCase):
    """The library for the platform, and the programs as this machine can run them, in a folder."""

    folder: Path
    wrong: str | None

    @classmethod
    def setUpClass(cls) -> None:
        """Builds the library, and writes scripts that run the programs; or skips the tests."""
        require_thorough()
        lacks = missing()
        if lacks:
            raise SkipTest(lacks)
        cls.folder = temporary_folder(cls)
        for name in PROGRAMS:
            path = cls.folder / name
            path.write_text(f'#!/bin/sh\nexec {" ".join(emulated(built(name)))} "$@"\n')
            path.chmod(0o755)
        cls.wrong = called(["make", "-s", "all", f"ARCHIVE={built('thp_c')}", f"OUT={cls.folder}", *ARM64.variables()], C)

    def test_libraries(self) -> None:
        """libthp.a and libthp.so are built for the platform, protected, and ask for memory alone."""
        self.assertIsNone(self.wrong)
        shown = {}
        for words in (["-D", "--defined-only"], ["-D", "--undefined-only"]):
            text = subprocess.run([ARM64.tool("nm"), *words, self.folder / "libthp.so"], capture_output=True, text=True, check=True).stdout
            shown[words[1]] = {line.split()[-1].partition("@")[0] for line in text.splitlines() if " w " not in line}
        names = (shown["--defined-only"] - {*symbol_versions()}) ^ {*header()}
        self.assertEqual(sorted(names | (shown["--undefined-only"] - ASKED)) + weaknesses(self.folder / "libthp.so"), [])

    def test_what_the_programs_ask_of_c(self) -> None:
        self.assertIsNone(self.run_c(["tests/host.c", "host.c"], *HOST_WORDS))

    def run_c(self, sources: list[str | Path], *words: str) -> str | None:
        """A program in C is built with the library, or with nothing else, and run with these words."""
        program = self.folder / f"{Path(sources[0]).stem}.run"
        flags = ["-std=gnu11", "-g", "-O1", "-Wall", "-Wextra", "-Werror", "-I.", "-pthread"]
        wrong = called([ARM64.tool("cc"), *flags, *sources, "-o", program], C)
        return wrong or called(emulated(program, *words), self.folder)

    def check_source(self, source: str) -> str | None:
        """Returns what is wrong with a test in C of the library, or None."""
        return self.run_c([source, self.folder / "libthp.a"])

    def check_script(self, row: tuple[str, ...]) -> str | None:
        """Returns what a script of tests reports of rows that fail on a program, or None."""
        name, program, *words = row
        path = str(self.folder / program)
        given = ["run.py", "-p", name] if name.startswith("test_") else [name, path, *words]
        done = subprocess.run([sys.executable, *given], cwd=ROOT / "tests", capture_output=True, text=True, errors="replace",
                              timeout=SECONDS, check=False, env={**os.environ, "EMULATED": "1", program.upper(): path})
        lines = (done.stdout + done.stderr).strip().split("\n")
        print("\n".join(f"  {line}" for line in lines[-3:]), flush=True)
        failed = [line for line in lines if ": failed: " in line or line.startswith("FAIL: ")]
        return None if done.returncode == 0 else f"status {done.returncode}: {' '.join(failed[:3] or lines[-3:])[-600:]}"


RANDOM = ("--cases", os.environ.get("CASES", "2000"), "--seed", os.environ.get("SEED", "1"), "--jobs", str(len(os.sched_getaffinity(0))))
"""The words of the script for random cases."""

add_tests(Emulated, Emulated.check_source, ((source, source) for source in (*TESTS, *DEMOS)))
add_tests(Emulated, Emulated.check_script,
          ((f"{name} {program}", (name, program)) for program, names in SCRIPTS.items() for name in names))
add_tests(Emulated, Emulated.check_script, [("random cases", ("fuzz.py", "thpsplit", *RANDOM))])
