"""One command of a test that must end well."""

from __future__ import annotations

import os
import shutil
import subprocess
from collections.abc import Sequence
from pathlib import Path
from unittest import SkipTest

SECONDS = 300
"""The greatest time that it may take."""


def called(command: Sequence[str | Path], where: Path, **more: str) -> str | None:
    """Runs a command, and returns its output if it fails."""
    if shutil.which(str(command[0])) is None and not Path(command[0]).exists():
        raise SkipTest(f"no {command[0]} here")
    try:
        ended = subprocess.run([str(word) for word in command], cwd=where, env={**os.environ, **more}, check=False,
                               capture_output=True, text=True, errors="replace", timeout=SECONDS)
    except subprocess.TimeoutExpired:
        return f"{command[0]} took more than {SECONDS} s"
    said = (ended.stdout + ended.stderr)[-600:].strip()
    return None if ended.returncode == 0 else f"{command[0]} ended with status {ended.returncode}: {said}"
