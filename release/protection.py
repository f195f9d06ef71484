"""What a built program, library or helper lacks of the protection that distributions require."""

from __future__ import annotations

import re
import subprocess
from pathlib import Path

PRESENT = {
    "position-independent code": r"^ *Type: +DYN ",
    "RELRO": r"^ *GNU_RELRO ",
    "BIND_NOW": r"\(FLAGS\).*BIND_NOW|\(FLAGS_1\).*NOW",
    "GNU_STACK": r"^ *GNU_STACK ",
}
"""What `readelf -hldW` shows of each protected file."""

ABSENT = {
    "an executable stack": r"^ *GNU_STACK .* RWE ",
    "code in writable memory": r"^ *LOAD .* RWE ",
    "relocations in its code": r"\(TEXTREL\)",
    "a path to search for libraries": r"\((?:RPATH|RUNPATH)\)",
}
"""What it shows of none."""


def is_elf(path: Path) -> bool:
    """Whether a file is an ELF file."""
    if path.is_symlink() or not path.is_file():
        return False
    with open(path, "rb") as opened:
        return opened.read(4) == b"\x7fELF"


def weaknesses(built: Path) -> list[str]:
    """What a program or shared library lacks, or has and must not have. FileNotFoundError if this machine has no `readelf`."""
    shown = subprocess.run(["readelf", "-hldW", built], capture_output=True, text=True, check=False).stdout
    lacks = [f"{built.name} has no {it}" for it, pattern in PRESENT.items() if not re.search(pattern, shown, re.M)]
    return lacks + [f"{built.name} has {it}" for it, pattern in ABSENT.items() if re.search(pattern, shown, re.M)]


def oldest_glibc(built: Path) -> tuple[int, ...]:
    """The oldest glibc that a file runs with, by the versions of the symbols that it needs; nothing if it needs none."""
    shown = subprocess.run(["readelf", "-VW", built], capture_output=True, text=True, check=False).stdout
    return max((tuple(map(int, it.split("."))) for it in re.findall(r"Name: GLIBC_([\d.]+)", shown)), default=())


def is_stripped(built: Path) -> bool:
    """Whether a file has neither symbols nor debug information that could be stripped."""
    shown = subprocess.run(["readelf", "-SW", built], capture_output=True, text=True, check=False).stdout
    return not re.search(r"\] \.(?:debug_\w+|symtab) ", shown)
