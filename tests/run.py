#!/usr/bin/env python3
"""Runs tests by `unittest`, prints those that fail or are skipped, and counts test methods: the last line is `N passed, M failed`.

    tests/run.py [FOLDER] [-p PATTERN] [-k NAME] [-v]

FOLDER is `tests` or `linux/tests`; PATTERN is that of its files (default: test_*.py), NAME a part of the names of tests, and -v prints each
test as it begins. Tests that are skipped count as neither, or as failed if STRICT=1 is set. The status is 1 if a test failed, and 77 if
none could run.
"""

from __future__ import annotations

import argparse
import os
import sys
import unittest
from pathlib import Path
from typing import NoReturn

ROOT = Path(__file__).resolve().parent.parent

SKIPPED = 77
"""The exit status if nothing could be tested on this machine."""

NAMED = 3
"""How many tests that are skipped for one reason are named."""


class CountingResult(unittest.TestResult):
    """Counts test methods, and prints those that fail."""

    def __init__(self, is_verbose: bool) -> None:
        super().__init__()
        self.is_verbose = is_verbose
        self.passed = 0
        self.wrong: set[str] = set()

    def startTest(self, test: unittest.TestCase) -> None:
        """Prints the test if asked."""
        super().startTest(test)
        if self.is_verbose:
            print(test.id(), flush=True)

    def addSuccess(self, test: unittest.TestCase) -> None:
        """Counts a test that passed."""
        super().addSuccess(test)
        self.passed += 1

    def addUnexpectedSuccess(self, test: unittest.TestCase) -> None:
        """Counts a test that should fail as failed."""
        self.failures.append((test, "it passed"))

    def stopTest(self, test: unittest.TestCase) -> None:
        """Prints what failed in the test."""
        super().stopTest(test)
        self.print_failures()

    def print_failures(self) -> None:
        """Prints what failed and is not printed yet: in one line, and with where it did."""
        for test, text in self.errors + self.failures:
            lines = text.rpartition("Traceback")[2].splitlines()[1:]
            what = next((line for line in lines if not line.startswith(" ")), text)
            print(f"FAIL: {test.id()}: {what}\n{text.rstrip()}", flush=True)
            self.wrong.add(getattr(test, "test_case", test).id())
        self.errors, self.failures = [], []

    def print_skips(self) -> int:
        """Prints what was skipped and why, and returns the number that counts as failed."""
        is_strict, reasons = os.environ.get("STRICT") == "1", dict.fromkeys(reason for _, reason in self.skipped)
        for reason in reasons:
            names = [test.id().replace("setUpClass ", "all of ") for test, why in self.skipped if why == reason]
            named = ", ".join(names) if len(names) <= NAMED else f"{names[0]} and {len(names) - 1} others"
            print(f"FAIL: {named}: {reason} (STRICT=1)" if is_strict else f"skipped: {named}: {reason}", flush=True)
        return len(self.skipped) if is_strict else 0


def main() -> NoReturn:
    """Runs the tests of the command line."""
    words = argparse.ArgumentParser(description=__doc__, formatter_class=argparse.RawDescriptionHelpFormatter)
    words.add_argument("folder", nargs="?", default="tests")
    words.add_argument("-p", dest="pattern", default="test_*.py")
    words.add_argument("-k", dest="names", action="append")
    words.add_argument("-v", dest="is_verbose", action="store_true")
    asked = words.parse_args()
    loader, folder = unittest.TestLoader(), ROOT / asked.folder
    loader.testNamePatterns = [f"*{name}*" for name in asked.names] if asked.names else None
    sys.path.insert(0, str(ROOT))
    tests = loader.discover(str(folder), asked.pattern, str(ROOT if (folder / "__init__.py").exists() else folder))
    if not tests.countTestCases():
        sys.exit(f"{asked.folder} has no such test")
    result = CountingResult(asked.is_verbose)
    tests.run(result)
    result.print_failures()  # what failed outside tests
    failed = len(result.wrong) + result.print_skips()
    print(f"{result.passed} passed, {failed} failed", flush=True)
    sys.exit(1 if failed else 0 if result.passed else SKIPPED)


if __name__ == "__main__":
    sys.dont_write_bytecode = True
    main()
