"""Builds the archive of the library for C from the libraries that `rt ci` has proved and kept.

`rt ci` proves crates/thp_c from scratch, but builds nothing of it, and `rt lib` would prove all libraries below it again. The
crate only has the exports, so the second proof is short. One process makes it: several take more processor time. The build begins
with the work that `rt check`, or an earlier build, kept in the crate's folder, so it proves nothing again that has not changed. The
verdict on the crate's proof is that of `rt ci` only, where there is one. BUILD_LIBTHP_C names the archive to build, from the top of the
repository.
"""

from __future__ import annotations

import os
import shutil
import subprocess
import sys
from pathlib import Path
from unittest import SkipTest, TestCase

from fixtures import ROOT

sys.path.insert(0, str(ROOT))

from prove import below, files, is_built, keep_verdict, library, listed, sources, stands  # noqa: E402

NAME = "thp_c"


def of_kit(name: str) -> list[str]:
    """The toolchain's libraries that a crate names, and std."""
    return ["std", *(it for it in listed()[name][0].split(":")[1].split() if it not in listed())]


def words(kit: Path, to: Path) -> list[str]:
    """The arguments of the compiler: the crate, the libraries that it names and those below them, and the build options."""
    built = {name: library(name) for name in below(NAME)}
    found = ["--crate-name", NAME, "src/lib.rt", "--crate-type", "staticlib"]
    for name in of_kit(NAME):
        found += ["--extern", f"{name}={kit}/rlibs/{name}.rlib"]
    for name in listed()[NAME][1]:
        found += ["--extern", f"{name}={built[name]}"]
    for path in (kit / "rlibs", *(path.parent for path in built.values())):
        found += ["-L", f"dependency={path}"]
    found += ["--antt-project", f"{kit}/rattle/logic/antt-project.json", "--logic-built", f"{kit}/logic_built"]
    found += ["--incremental", str(ROOT / "crates" / NAME / "out/incremental")]
    found += ["--toolchain", f"{kit}/toolchain", "--links", f"{NAME}=", "--backend", "llvm"]
    return [*found, "-o", str(to)]


def is_placed(name: str) -> bool:
    """Whether a library was put here after the last change of its sources and of those below it: `rt ci` prints no verdict line of a
    proof that it kept from an earlier run, but puts the library of the same sources in its place."""
    built = library(name)
    return built.is_dir() and all(it.stat().st_mtime <= built.stat().st_ctime for own in (*below(name), name) for it in files(own))


def build(to: Path) -> str | None:
    """Proves and builds the archive; returns the compiler's output if that fails."""
    rt = shutil.which("rt")
    if rt is None:
        raise SkipTest("rt isn't on the path")
    others = [name for name in below(NAME) if not (is_built(name, library(name)) or stands(name) or is_placed(name))]
    if others:
        return f"no library of the present sources: {', '.join(others)}"
    kit = Path(rt).resolve().parent.parent
    to.parent.mkdir(parents=True, exist_ok=True)
    command, before = [str(kit / "bin/rattle"), "build", *words(kit, to)], sources(NAME)
    ended = subprocess.run(command, cwd=ROOT / "crates" / NAME, capture_output=True, text=True, errors="replace", check=False)
    said = (ended.stdout + ended.stderr).strip()
    if ended.returncode != 0:
        return f"status {ended.returncode}: {said[-900:]}"
    keep_verdict(NAME, before, "" if is_built(NAME) else said, [to])
    return None


class Archive(TestCase):
    """The archive is built."""

    def test_archive_of_library_is_built(self) -> None:
        if not os.environ.get("BUILD_LIBTHP_C"):
            raise SkipTest("BUILD_LIBTHP_C=PATH builds the archive of the library for C there")
        self.assertIsNone(build((ROOT / os.environ["BUILD_LIBTHP_C"]).resolve()))
