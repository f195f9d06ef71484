"""Prints a line if another toolchain is installed than those that docs/PROVED.md names, or none."""

from __future__ import annotations

import re
import shutil
import subprocess
from pathlib import Path

PROVED = Path(__file__).resolve().parent.parent / "docs/PROVED.md"

PROVED_WITH = re.compile(r"^Proved with (.+) \((logic \w+)\)\.$", re.MULTILINE)
"""The toolchains that everything was proved with, and their logic."""


def other_toolchain() -> str | None:
    """Returns what is installed instead, or None."""
    if shutil.which("rt") is None:
        return "rt isn't on the path"
    version = subprocess.run(["rt", "version"], capture_output=True, text=True, check=False).stdout.strip()
    kit, _, logic = version.partition(" ")
    named = PROVED_WITH.search(PROVED.read_text())
    if named and kit in re.findall(r"rattle-kit-\w+", named[1]) and logic == named[2]:
        return None
    return f"installed is {version}, and none of those that docs/PROVED.md names"


if __name__ == "__main__":
    wrong = other_toolchain()
    if wrong:
        print(f"toolchain: {wrong}")
