#!/usr/bin/env python3
"""A stand-in for `thpcheck`: the plain reading of the model in tests/model.py. With $PLAIN_EXPLAINS it has --explain,
which reports less than the real one."""

from __future__ import annotations

import os
import sys
from pathlib import Path

sys.path[:0] = [str(Path(__file__).resolve().parent.parent.parent / "tests")]
sys.dont_write_bytecode = True

from script import first_illegal  # noqa: E402


def main() -> int:
    words, explains = sys.argv[1:], "PLAIN_EXPLAINS" in os.environ
    if "--help" in words:
        print("Usage: thpcheck [--explain]" if explains else "Usage: thpcheck")
        return 0
    lines = sys.stdin.read().split("\n")[:-1]
    line = first_illegal(lines)
    print("legal" if line is None else f"illegal line {line}")
    if line is not None and "--explain" in words:
        print(f"line {line}: {lines[line - 1]}\nexpected: nothing\nwhy: the plain reading refuses it", file=sys.stderr)
    return int(line is not None)


if __name__ == "__main__":
    sys.exit(main())
