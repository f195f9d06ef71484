"""Adds to the file PROOF of each package the hashes of the package's programs and libraries.

    debian/hashes.py FOLDER ..

Each FOLDER has what its package installs, and the name of the package. Without PROOF nothing is added.
"""

from __future__ import annotations

import hashlib
import sys
from pathlib import Path

BEGINNINGS = (b"\x7fELF", b"!<arch>\n")
"""How programs and libraries begin, and static libraries."""


def is_binary(path: Path) -> bool:
    """Whether a file is a program or a library."""
    if path.is_symlink() or not path.is_file():
        return False
    with open(path, "rb") as opened:
        return opened.read(8).startswith(BEGINNINGS)


def hashes(folder: Path) -> str:
    """A line for each binary below a folder, as `sha256sum` prints it."""
    found = sorted(filter(is_binary, folder.rglob("*")))
    return "".join(f"{hashlib.sha256(path.read_bytes()).hexdigest()}  {path.relative_to(folder)}\n" for path in found)


def main() -> None:
    """Adds the hashes to PROOF below each folder of the command line."""
    for folder in map(Path, sys.argv[1:]):
        proof = folder / "usr/share/doc" / folder.name / "PROOF"
        if proof.is_file():
            proof.write_text(proof.read_text() + hashes(folder))


if __name__ == "__main__":
    main()
