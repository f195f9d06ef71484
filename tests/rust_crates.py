"""The cargo crates of the library: tests, documents and packages, and how they find the static library."""

from __future__ import annotations

import re
import shutil
import subprocess
import sys
import tarfile
from pathlib import Path
from unittest import SkipTest

from command import called
from fixtures import ROOT, require_tool

sys.path.insert(0, str(ROOT / "release"))

import version  # noqa: E402

RUST = ROOT / "rust"

PACKING = (1, 90)
"""The oldest cargo that packs two crates, of which one needs the other, without a registry."""

ABSENT = {"PKG_CONFIG": "/nonexistent/pkg-config", "THP_LIB": ""}
"""An environment in which only a folder beside the crate can have the library."""


def output_of(*command: str) -> str | None:
    """The output of a command that asks for a version, or None if this machine has no such program."""
    if shutil.which(command[0]) is None:
        return None
    done = subprocess.run(command, cwd=ROOT, capture_output=True, text=True, check=False)
    return done.stdout if done.returncode == 0 else None


class Crates:
    """The crates, with the library in a folder, which also gets what cargo builds."""

    def __init__(self, folder: Path) -> None:
        self.folder = folder

    def cargo(self, *words: str, where: Path = RUST, more: dict[str, str] | None = None) -> str | None:
        """Runs cargo on the crates, with no network and more variables."""
        command = ["cargo", words[0], "--offline", "--quiet", "--target-dir", str(self.folder / "cargo"), *words[1:]]
        return called(command, where, **{"THP_LIB": str(self.folder), **(more or {})})

    def tests(self) -> str | None:
        """The crates' tests and the examples of their documents run."""
        return self.cargo("test", "--workspace")

    def are_clean(self) -> str | None:
        """clippy has no warning about the crates."""
        if output_of("cargo", "clippy", "--version") is None:
            raise SkipTest("no cargo clippy here")
        return self.cargo("clippy", "--workspace", "--all-targets", "--", "-D", "warnings")

    def documents(self) -> str | None:
        """rustdoc has no warning, and needs no library where DOCS_RS is set."""
        return self.cargo("doc", "--workspace", "--no-deps", more={"RUSTDOCFLAGS": "-D warnings", "DOCS_RS": "1", **ABSENT})

    def are_packed(self) -> str | None:
        """cargo packs the crates, with their licences, and builds what it packed."""
        if tuple(map(int, re.findall(r"\d+", output_of("cargo", "--version") or "")[:2])) < PACKING:
            raise SkipTest("no cargo 1.90 here")
        wrong = self.cargo("package", "--workspace", "--allow-dirty")
        for name, more in (("leversorrel", "node.rs"), ("leversorrel-sys", "build.rs")):
            packed = self.folder / f"cargo/package/{name}-{version.of_parts()}.crate"
            if wrong or not packed.is_file():
                return wrong or f"no {packed.name}"
            with tarfile.open(packed) as tar:
                names = {Path(it.name).name for it in tar.getmembers() if it.isfile() and it.size}
            lacks = {"LICENSE-APACHE", "LICENSE-MIT", "README.md", "lib.rs", more} - names
            wrong = f"{packed.name} lacks {', '.join(sorted(lacks))}" if lacks else None
        return wrong

    def refusal_differs(self, wanted: str, more: dict[str, str], where: Path = RUST) -> str | None:
        """What is wrong when the build must end, with a line that contains these words."""
        wrong = self.cargo("check", where=where, more=more)
        is_right = wrong is not None and f"leversorrel-sys: {wanted}" in wrong and "panicked" not in wrong
        return None if is_right else f"not {wanted!r}: {wrong}"

    def named_folder(self) -> str | None:
        """The folder that THP_LIB names must be absolute and have the library."""
        empty = self.folder / "empty"
        empty.mkdir()
        wrong = self.refusal_differs(f"libthp.a isn't in {empty}, ", {"THP_LIB": str(empty)})
        return wrong or self.refusal_differs("THP_LIB must be an absolute path: c/out", {"THP_LIB": "c/out"})

    def find_library(self) -> str | None:
        """Copies of the crates find the library by pkg-config, if it has their version, and before that beside them."""
        require_tool("pkg-config")
        top, place = self.folder / "elsewhere", self.folder / "installed"
        shutil.copytree(RUST, top / "rust", ignore=shutil.ignore_patterns("target"))
        for path in (place / "lib", top / "lib"):
            path.mkdir(parents=True)
        shutil.copy(self.folder / "libthp.a", place / "lib")
        wrong = self.refusal_differs(f"no libthp.a of version {version.of_parts()} (/nonexistent/", ABSENT, top / "rust")
        wrong = wrong or self.versions_differ(place, top / "rust")
        shutil.move(place / "lib/libthp.a", top / "lib")
        return wrong or self.cargo("check", where=top / "rust", more=ABSENT)

    def versions_differ(self, place: Path, where: Path) -> str | None:
        """What is wrong when pkg-config knows a library of a later patch, which is taken, or of another version, which is refused."""
        major, minor, patch = map(int, version.of_parts().split("."))
        for number, is_taken in ((f"{major}.{minor + 1}.0", False), (f"{major}.0.9", False), (f"{major}.{minor}.{patch + 1}", True)):
            text = f"Name: thp\nDescription: a test\nVersion: {number}\nLibs: -L{place}/lib -lthp\n"
            (place / "thp.pc").write_text(text)
            wrong = self.cargo("check", where=where, more={"THP_LIB": "", "PKG_CONFIG_PATH": str(place)})
            if (wrong is None) != is_taken or (wrong and "could not be satisfied" not in wrong):
                return f"version {number}: {wrong or 'taken'}"
        return None
