"""What tests share: built programs, tools of this machine, temporary folders, and a test method for each row of a table."""

from __future__ import annotations

import os
import re
import shutil
import tempfile
from collections.abc import Callable, Iterable
from pathlib import Path
from typing import Optional, TypeVar, Union
from unittest import SkipTest, TestCase

ROOT = Path(__file__).resolve().parent.parent

BUILT = {
    "THPSPLIT": "crates/thpsplit/out/thpsplit", "THPCHECK": "crates/thpcheck/out/thpcheck", "THPDRAW": "crates/thpdraw/out/thpdraw",
    "LIBTHP_C": "crates/thp_c/out/libthp_c.a", "TESTS_SPOILT": "crates/tests_spoilt/out/tests_spoilt_tests",
}
"""What can be under test: the environment variable with its path, and where the tree builds it."""

UNNAMED = re.compile(r"(?:\\n|[^0-9A-Za-z])+")
"""What the name of a test method can't contain, and escaped line feeds."""

Case = TypeVar("Case", bound=TestCase)
Item = TypeVar("Item")


def find_built(variable: str) -> Path:
    """Returns the path in an environment variable, or that of what the tree built. Skips the test if there is neither."""
    given, path = os.environ.get(variable), ROOT / BUILT[variable]
    if given:
        path = Path(given).resolve()
        if not path.is_file() or variable != "LIBTHP_C" and not os.access(path, os.X_OK):
            raise ValueError(f"{variable}={given} is no {'archive' if variable == 'LIBTHP_C' else 'program'}")
    elif not path.is_file():
        raise SkipTest(f"no {BUILT[variable]}; {variable}=PATH names another")
    return path


def require_tool(tool: str) -> None:
    """Skips the test if this machine lacks a tool."""
    if shutil.which(tool) is None:
        raise SkipTest(f"no {tool} here")


def require_thorough() -> None:
    """Skips tests that take minutes, unless THOROUGH=1 asks for them."""
    if os.environ.get("THOROUGH") != "1":
        raise SkipTest("it takes minutes; THOROUGH=1 asks for it")


def temporary_folder(case: Union[TestCase, type[TestCase]]) -> Path:
    """Returns a new folder, which is removed after the test, or after all tests of a class."""
    made = tempfile.TemporaryDirectory(prefix="thp-test-")
    add = case.addClassCleanup if isinstance(case, type) else case.addCleanup
    add(made.cleanup)
    return Path(made.name)


class ProgramCase(TestCase):
    """Tests of a program: thpsplit, or another one by its variable. It is called by its own name, which its messages contain."""

    variable = "THPSPLIT"
    program: Path

    @classmethod
    def setUpClass(cls) -> None:
        """Finds the program, or skips the tests."""
        path = find_built(cls.variable)
        cls.program = temporary_folder(cls) / cls.variable.lower()
        cls.program.symlink_to(path)


def add_tests(case: type[Case], check: Callable[[Case, Item], Optional[str]], rows: Iterable[tuple[str, Item]]) -> None:
    """Adds a test method for each name and row, which fails with the text that a check of the row returns, if any. The method is named
    after the row, with `_` for all that is no letter or digit, and with a number from the second row of that name on."""
    for name, row in rows:
        method = first = f"test_{UNNAMED.sub('_', name).strip('_')}"
        count = 1
        while hasattr(case, method):
            count += 1
            method = f"{first}_{count}"

        def test(self: Case, row: Item = row) -> None:
            wrong = check(self, row)
            if wrong is not None:
                self.fail(wrong)

        test.__name__, test.__doc__ = method, name
        setattr(case, method, test)
