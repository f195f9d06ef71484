"""Types and style of the Python tools and tests: `mypy --strict` and `flake8`, both as Debian packages them. A program that this machine
lacks is named, and skipped."""

from __future__ import annotations

import os
import subprocess
import unittest

from fixtures import ROOT, require_tool, temporary_folder

SECONDS = 300
"""The greatest time that one of them may take."""


class Lint(unittest.TestCase):
    """A program finds nothing in the sources."""

    def check(self, *words: str) -> None:
        """Runs one of the programs."""
        require_tool(words[0])
        done = subprocess.run(words, cwd=ROOT, capture_output=True, text=True, errors="replace", timeout=SECONDS, check=False,
                              env={**os.environ, "MYPYPATH": "tests:release:debian"})
        lines = [line for line in (done.stdout + done.stderr).split("\n") if ": note: " not in line]
        self.assertEqual(done.returncode, 0, "; ".join(line[:200] for line in lines[:10]))

    def check_types(self, *paths: str) -> None:
        """Checks types, without what an earlier run stored."""
        self.check("mypy", "--strict", "--cache-dir", str(temporary_folder(self)), *paths)

    def test_types_of_linux(self) -> None:
        self.check_types("linux")

    def test_types_of_tests_and_release(self) -> None:
        paths = (path for folder in ("tests", "tests/edits", "release", "debian") for path in ROOT.glob(f"{folder}/*.py"))
        self.check_types(*sorted(str(path.relative_to(ROOT)) for path in paths), "prove.py")

    def test_types_of_pictures(self) -> None:
        self.check_types("docs/pictures/layers.py")

    def test_style(self) -> None:
        self.check("flake8", "linux", "tests", "release", "debian", "docs/pictures", "prove.py")
