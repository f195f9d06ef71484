#!/usr/bin/env python3
"""Builds the Debian packages `thpsplit`, `thp-linux-tools`, `libthp0` and `libthp-dev` from what was built before.

    debian/build.py [--arch arm64] [--proof FILE] THPSPLIT THPCHECK THPDRAW ARCHIVE FOLDER

ARCHIVE is that of the library for C, crates/thp_c/out/libthp_c.a. --arch names what the files run on, amd64 by default; the tools
for the running kernel have a package for that alone. The packages go into FOLDER, and their paths are printed. They are built on a
copy of what they are made from, so that nothing else of the tree changes. The same files and the same commit give the same bytes:
dates are SOURCE_DATE_EPOCH, by default the date of the commit. Each package has a file PROOF: FILE, or what release/proof.py prints,
with the hashes of the package's binaries. Without FILE, if that prints nothing, a line on standard error says why there is none.
Status 77 with one line if this machine lacks Debian's tools (packages dpkg-dev, debhelper).
"""

from __future__ import annotations

import argparse
import os
import re
import shutil
import subprocess
import sys
import tempfile
from email.utils import formatdate
from pathlib import Path

ROOT = Path(__file__).resolve().parent.parent
PARTS = ("Makefile", "README.md", "CHANGELOG.md", "LICENSE-APACHE", "LICENSE-MIT", "c", "completions", "debian", "docs", "examples",
         "linux")
"""What the packages are made from, beside what was built."""

BUILT = ("crates/thpsplit/out/thpsplit", "crates/thpcheck/out/thpcheck", "crates/thpdraw/out/thpdraw",
         "crates/thp_c/out/libthp_c.a")
"""Where the tree has what was proved and built, in the order of the words."""

TOOLS = {"dpkg-buildpackage": "dpkg-dev", "dh": "debhelper", "cc": "gcc"}
"""Each program that is wanted, and the package that has it."""

CROSS: dict[str, dict[str, str]] = {
    "amd64": {"clang": "clang", "bpftool": "bpftool"},
    "arm64": {"aarch64-linux-gnu-gcc": "gcc-aarch64-linux-gnu", "aarch64-linux-gnu-strip": "binutils-aarch64-linux-gnu"},
}
"""What is wanted beside them for each architecture. The packages are built on amd64."""

HEADERS: dict[str, dict[str, str]] = {"amd64": {"/usr/include/bpf/libbpf.h": "libbpf-dev"}, "arm64": {}}
"""Each header that is wanted, and the package that has it."""

LACKS = 77
"""The status where this machine lacks a tool."""

UNDATED = 1_767_225_600
"""The date where no commit has one, as in an archive of the tree: the beginning of 2026."""


def version() -> str:
    """The version that the program reports, from the one place where it stands."""
    found = re.search(r'VERSION: &str = "([^"]+)"', (ROOT / "crates/thp_cli/src/version.rt").read_text())
    assert found is not None
    return found[1]


def date() -> int:
    """The date of all files in the packages, in seconds: SOURCE_DATE_EPOCH, or that of the commit."""
    given = os.environ.get("SOURCE_DATE_EPOCH", "")
    if not given and (ROOT / ".git").exists() and shutil.which("git"):
        done = subprocess.run(["git", "log", "-1", "--format=%ct"], cwd=ROOT, capture_output=True, text=True)
        given = done.stdout.strip()
    return int(given) if re.fullmatch("[0-9]+", given) else UNDATED


def changelog(number: str) -> str:
    """What Debian's tools read name, version and date from."""
    line = "The Leversorrel developers <leversorrel@example.invalid>"
    return f"leversorrel ({number}) unstable; urgency=medium\n\n  * See CHANGELOG.md.\n\n -- {line}  {formatdate(date())}\n"


def proof(built: list[Path], architecture: str) -> str:
    """What release/proof.py states about the built files, or nothing, and then a line on standard error."""
    command = [sys.executable, str(ROOT / "release/proof.py"), "--arch", architecture, *map(str, built)]
    done = subprocess.run(command, capture_output=True, text=True, errors="replace")
    if done.returncode != 0:
        print(f"packages without PROOF: {done.stderr.strip()[-400:]}", file=sys.stderr)
    return done.stdout if done.returncode == 0 else ""


def copy(tree: Path, built: list[Path], stated: str) -> None:
    """Puts what the packages are made from into an empty folder, with the date of the packages."""
    for part in PARTS:
        source = ROOT / part
        if source.is_dir():
            shutil.copytree(source, tree / part, ignore=shutil.ignore_patterns("__pycache__", "out"))
        else:
            shutil.copy2(source, tree / part)
    for name, file in zip(BUILT, built):
        (tree / name).parent.mkdir(parents=True)
        shutil.copy2(file, tree / name)
    (tree / "debian/changelog").write_text(changelog(version()))
    if stated:
        (tree / "debian/PROOF").write_text(stated)
    when = date()
    for path in tree.rglob("*"):
        os.utime(path, (when, when), follow_symlinks=False)


def build(built: list[Path], folder: Path, stated: str, architecture: str) -> list[Path]:
    """The packages, put into the folder, with a text as PROOF unless it is empty."""
    words = ["dpkg-buildpackage", "-b", "-us", "-uc", *(["-a", architecture] if architecture != "amd64" else [])]
    with tempfile.TemporaryDirectory(prefix="thp-deb-") as name:
        tree = Path(name) / f"leversorrel-{version()}"
        tree.mkdir()
        copy(tree, built, stated)
        done = subprocess.run(words, cwd=tree, text=True, errors="replace", umask=0o022,
                              env={**os.environ, "SOURCE_DATE_EPOCH": str(date())}, stdout=subprocess.PIPE, stderr=subprocess.STDOUT)
        if done.returncode != 0:
            sys.exit(f"{done.stdout}\ndpkg-buildpackage ended with status {done.returncode}")
        folder.mkdir(parents=True, exist_ok=True)
        return [Path(shutil.copy2(it, folder)) for it in sorted(Path(name).glob("*.deb"))]


def main() -> None:
    """Builds the packages from the files of the command line."""
    words = argparse.ArgumentParser(description=__doc__, formatter_class=argparse.RawDescriptionHelpFormatter)
    words.add_argument("--arch", choices=CROSS, default="amd64")
    words.add_argument("--proof", type=Path)
    words.add_argument("built", nargs=len(BUILT), type=Path)
    words.add_argument("folder", type=Path)
    asked = words.parse_args()
    built: list[Path] = asked.built
    for file in built:
        if not file.is_file():
            sys.exit(f"{file} is no file")
    for program in built[:-1]:
        if not os.access(program, os.X_OK):
            sys.exit(f"{program} is no program")
    lacks = [package for tool, package in {**TOOLS, **CROSS[asked.arch]}.items() if shutil.which(tool) is None]
    lacks += [package for path, package in HEADERS[asked.arch].items() if not os.path.exists(path)]
    if lacks:
        print(f"no package: this machine lacks {', '.join(lacks)}")
        sys.exit(LACKS)
    stated = asked.proof.read_text() if asked.proof else proof(built, asked.arch)
    for package in build(built, asked.folder, stated, asked.arch):
        print(package)


if __name__ == "__main__":
    main()
