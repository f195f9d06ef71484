#!/usr/bin/env python3
"""Makes the release and the Debian packages twice, and compares them byte for byte.

    release/reproduce.py THPSPLIT THPCHECK THPDRAW ARCHIVE FOLDER [release]

The first ones are left in FOLDER. The second ones are made in a clone, in a folder of another name and length, from copies of the built
files, with another umask, language, time zone and number of jobs. With the word `release` no packages are made. Prints a line for each
file; status 1 if one differs, and then `diffoscope` shows where, if this machine has it. Status 77 if this machine lacks a program for the
release; packages are skipped, and named, without Debian's tools.
"""

from __future__ import annotations

import os
import shutil
import subprocess
import sys
import tempfile
from collections.abc import Sequence
from pathlib import Path

ROOT = Path(__file__).resolve().parent.parent

MAKERS = ("release/dist.py", "debian/build.py")
"""What makes the release, and what makes the packages."""

LACKS = 77
"""The status of either where this machine lacks a program."""

OTHER = {"LC_ALL": "C.UTF-8", "TZ": "Asia/Tokyo", "MAKEFLAGS": "-j3"}
"""The environment of the second time."""

MOST_LINES = 60
"""The most lines of `diffoscope` that are shown of a file."""


def make(tree: Path, makers: Sequence[str], built: list[Path], folder: Path, **more: str) -> list[Path]:
    """Makes the release, and the packages, in a tree, and puts them into a folder. Ends this program if that fails."""
    made: list[Path] = []
    for maker in makers:
        command = [sys.executable, str(tree / maker), *map(str, built), str(folder)]
        done = subprocess.run(command, cwd=tree, capture_output=True, text=True, env={**os.environ, **more}, umask=0o077 if more else -1)
        if done.returncode == LACKS and maker != MAKERS[0]:
            print(f"packages: skipped: {done.stdout.strip()}")
        elif done.returncode != 0:
            print(f"{maker}: {(done.stdout + done.stderr).strip()}", file=sys.stderr)
            sys.exit(done.returncode)
        else:
            print(done.stderr, end="", file=sys.stderr)
            made += [folder / Path(line).name for line in done.stdout.splitlines()]
    return made


def clone(tree: Path) -> None:
    """Makes a second checkout of the commit, with the verdict lines of this one."""
    for words in (["clone", "-q", "--no-hardlinks", str(ROOT), str(tree)], ["-C", str(tree), "checkout", "-q", "--detach", head()]):
        subprocess.run(["git", *words], check=True)
    for path in ROOT.glob("crates/*/out/**/verdict"):
        place = tree / path.relative_to(ROOT)
        place.parent.mkdir(parents=True, exist_ok=True)
        shutil.copyfile(path, place)


def head() -> str:
    """The commit that is checked out."""
    return subprocess.run(["git", "rev-parse", "HEAD"], cwd=ROOT, capture_output=True, text=True, check=True).stdout.strip()


def copies(built: list[Path], folder: Path) -> list[Path]:
    """The built files under the same names, elsewhere."""
    folder.mkdir(parents=True)
    return [Path(shutil.copy(path, folder / path.name)) for path in built]


def show(one: Path, other: Path) -> None:
    """Shows where two files differ."""
    if shutil.which("diffoscope") is None:
        print("no diffoscope here to show where (Debian's package diffoscope-minimal)")
    elif one.is_file() and other.is_file():
        shown = subprocess.run(["diffoscope", "--no-progress", one, other], capture_output=True, text=True, errors="replace", check=False)
        print("\n".join((shown.stdout + shown.stderr).splitlines()[:MOST_LINES]))


def compare(ones: list[Path], others: list[Path]) -> bool:
    """Reports for each file of two runs if it has the same bytes in both, and returns whether all have."""
    found = {path.name: path for path in others}
    is_same = {path.name for path in ones} == {*found}
    for path in ones:
        other = found.get(path.name, path.parent / "none")
        same = other.is_file() and path.read_bytes() == other.read_bytes()
        print(f"{path.name}: {'the same bytes' if same else 'differs'}", flush=True)
        if not same:
            show(path, other)
        is_same = is_same and same
    return is_same


def main() -> None:
    """Makes both and compares them."""
    words = [word for word in sys.argv[1:] if word != "release"]
    if len(words) != 5:
        sys.exit(__doc__)
    built, folder = [Path(word).resolve() for word in words[:-1]], Path(words[-1]).resolve()
    makers = MAKERS[: 1 if "release" in sys.argv[1:] else None]
    ones = make(ROOT, makers, built, folder)
    with tempfile.TemporaryDirectory(prefix="thp-reproduce-") as name:
        other = Path(name) / "second-checkout" / "of-another-length"
        clone(other)
        others = make(other, makers, copies(built, Path(name) / "built"), Path(name) / "two", **OTHER)
        sys.exit(0 if compare(ones, others) else 1)


if __name__ == "__main__":
    main()
