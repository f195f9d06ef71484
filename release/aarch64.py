#!/usr/bin/env python3
"""Proves and builds the programs and the library for aarch64, on a machine with any processor.

    release/aarch64.py [CRATE ..]

The libraries below are proved as for any target (prove.py, or the gate). Each CRATE, by default all that a release needs, is then
proved and compiled for aarch64 from scratch, and its verdict line is stored, in crates/CRATE/out/aarch64; a crate that has a line for
these sources is left alone. Programs are linked with c/host.c by Debian's compiler for aarch64. Prints the built files. Status 77 with
one line if this machine lacks the compiler.
"""

from __future__ import annotations

import os
import shutil
import subprocess
import sys
from pathlib import Path

from platforms import ARM64
from proof import ROOT
from prove import CRATES, RELEASED, below, hash_of, is_built, keep_verdict, library, listed, sources, verdict

TARGET = "aarch64-unknown-linux-gnu"
"""The toolchain's name of the platform."""

LACKS = 77
"""The status where this machine lacks a program."""

LINKED = ("-std=c11", "-O2", "-g", "-Wall", "-Wextra", "-fPIE", "-pie", "-fstack-protector-strong", "-Wl,-z,relro", "-Wl,-z,now",
          "-Wl,-z,noexecstack", f"-ffile-prefix-map={ROOT}=.")
"""How a program is linked: protected as distributions require it, and with no folder of this machine in it."""


def kit() -> Path:
    """The folder of the toolchain."""
    return Path(shutil.which("rt") or "/").resolve().parent.parent


def is_program(name: str) -> bool:
    """Whether a crate is a program."""
    return (CRATES / name / "src/main.rt").is_file()


def product(name: str) -> Path:
    """Where a crate's program or static library is built."""
    return CRATES / name / "out" / ARM64.part / (name if is_program(name) else f"lib{name}.a")


def command(name: str, to: Path) -> list[str]:
    """The toolchain's command that proves and compiles a crate: the one that `rt` gives, with a target."""
    top, line = kit(), listed()[name][0]
    own, inside = line.split(":")[1].split(), [*below(name)]
    words = ["build", "--crate-name", name, "src/main.rt" if is_program(name) else "src/lib.rt"]
    for it in ["std", *(it for it in own if it not in inside)]:
        words += ["--extern", f"{it}={top}/rlibs/{it}.rlib"]
    words += ["-L", f"dependency={top}/rlibs"]
    for it in (it for it in own if it in inside):
        words += ["--extern", f"{it}={library(it)}"]
    for it in inside:
        words += ["-L", f"dependency={library(it).parent}"]
    words += ["--antt-project", f"{top}/rattle/logic/antt-project.json", "--logic-built", f"{top}/logic_built", "--links", f"{name}="]
    words += [] if is_program(name) else ["--crate-type", "staticlib"]
    words += ["--toolchain", f"{top}/toolchain", "--backend", "llvm", "--target", TARGET, "--jobs", "2"]
    return [f"{top}/bin/rattle", *words, "-o", str(to)]


def stands(name: str) -> bool:
    """Whether a crate has a verdict line for the present sources, and the file that was built with it."""
    stored, built = verdict(name, ARM64.part), product(name)
    is_old = is_program(name) and built.is_file() and built.stat().st_mtime < (ROOT / "c/host.c").stat().st_mtime
    return stored is not None and built.is_file() and not is_old and hash_of(built) in stored[1].values()


def link(name: str, compiled: Path) -> bool:
    """Links a program, and returns whether that succeeds."""
    words = [ARM64.tool("cc"), *LINKED, str(ROOT / "c/host.c"), str(compiled), "-o", str(product(name))]
    return subprocess.run(words, cwd=ROOT, check=False).returncode == 0


def build(name: str) -> bool:
    """Proves and builds a crate, and stores its verdict line. Returns whether all that succeeds; if not, what is wrong is shown."""
    built, before = product(name), sources(name)
    built.parent.mkdir(parents=True, exist_ok=True)
    compiled = built.with_suffix(".o") if is_program(name) else built
    done = subprocess.run(command(name, compiled), cwd=CRATES / name, stdin=subprocess.DEVNULL, stdout=subprocess.PIPE,
                          stderr=subprocess.STDOUT, text=True, errors="replace", check=False)
    is_good = done.returncode == 0 and (not is_program(name) or link(name, compiled))
    if is_good and keep_verdict(name, before, done.stdout, [built], part=ARM64.part):
        return True
    print(f"{done.stdout}{name}: not built for {ARM64.name}", file=sys.stderr)
    return False


def prove_below(name: str) -> bool:
    """Proves the libraries that a crate depends on, except where the gate has proved and built all of them, and returns whether all are
    proved."""
    if all(is_built(it, library(it)) for it in below(name)):
        return True
    return subprocess.run([sys.executable, ROOT / "prove.py", name], cwd=ROOT, env=os.environ, check=False).returncode == 0


def main() -> None:
    """Builds the crates of the command line."""
    names = sys.argv[1:] or [*RELEASED]
    if any(name not in RELEASED for name in names):
        sys.exit(__doc__)
    lacks = sorted({package for tool, package in ARM64.packages().items() if shutil.which(tool) is None})
    if lacks:
        print(f"nothing is built for {ARM64.name}: this machine lacks {', '.join(lacks)}")
        sys.exit(LACKS)
    for name in names:
        if not stands(name) and not (prove_below(name) and build(name)):
            sys.exit(1)
        print(product(name), flush=True)


if __name__ == "__main__":
    main()
