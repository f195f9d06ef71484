#!/usr/bin/env python3
"""What a release states about itself: the verdict line of each crate, the toolchain, the sources, and what the binaries were built from.

    release/proof.py [--arch arm64] THPSPLIT THPCHECK THPDRAW ARCHIVE

Prints the file PROOF of the Debian packages, to which debian/hashes.py adds the hash of each packaged binary. ARCHIVE is that of the
library for C, crates/thp_c/out/libthp_c.a. Status 1 and one line on standard error if the sources differ from the commit, a crate has no
verdict line for them, or a file is not the one that was built with it.
"""

from __future__ import annotations

import argparse
import os
import re
import subprocess
import sys
from collections.abc import Iterable
from dataclasses import dataclass
from pathlib import Path

ROOT = Path(__file__).resolve().parent.parent
sys.path[:0] = [str(ROOT), str(ROOT / "debian"), str(ROOT / "release")]

from build import date, version  # noqa: E402
from platforms import PLATFORMS, Platform  # noqa: E402
from prove import RELEASED, hash_of, released, toolchain, verdict  # noqa: E402


class Unreleasable(Exception):
    """Why no release is made; the text names it."""


@dataclass(frozen=True)
class Commit:
    """The commit that the release is made of."""

    name: str
    tree: str
    """The hash of the sources."""
    date: int


def called(words: Iterable[str | Path], where: Path = ROOT) -> str:
    """The output of a command, which depends on nothing of the environment that could change what is built. Unreleasable if it fails."""
    command, kept = [str(word) for word in words], {name: os.environ[name] for name in ("PATH", "HOME", "TMPDIR") if name in os.environ}
    done = subprocess.run(command, cwd=where, capture_output=True, text=True, errors="replace", umask=0o022, check=False,
                          env={**kept, "LC_ALL": "C", "TZ": "UTC"})
    if done.returncode != 0:
        raise Unreleasable(f"{' '.join(command[:3])} ended with status {done.returncode}: {(done.stderr or done.stdout).strip()[-400:]}")
    return done.stdout.strip()


def commit() -> Commit:
    """The commit that is checked out, if the sources are those of it."""
    if not (ROOT / ".git").exists():
        raise Unreleasable(f"{ROOT} is no checkout of git")
    changed = called(["git", "status", "--porcelain"]).splitlines()
    if changed:
        raise Unreleasable(f"the sources differ from the commit: {', '.join(line.split(maxsplit=1)[1] for line in changed[:3])}")
    return Commit(called(["git", "rev-parse", "HEAD"]), called(["git", "rev-parse", "HEAD^{tree}"]), date())


def verdicts(built: list[Path], platform: Platform) -> dict[str, str]:
    """The verdict line of each crate. Unreleasable if one is missing, or a built file is not the one that was built with it."""
    found = {name: verdict(name, platform.part) for name in released()}
    lacking = [name for name, it in found.items() if it is None]
    if lacking:
        raise Unreleasable(f"no verdict line for the present sources of {', '.join(lacking)}: "
                           f"`python3 prove.py {lacking[0]} verdict` proves that crate from scratch and stores its line")
    for name, file in zip(RELEASED, built):
        stored = found[name]
        if stored is not None and hash_of(file) not in stored[1].values():
            raise Unreleasable(f"{file} isn't what was built when {name} was proved: `make dist` builds it")
    return {name: it[0] for name, it in found.items() if it is not None}


def library_version(source: Path) -> str:
    """The version of the library, from the header."""
    found = re.search(r'^#define THP_VERSION "(.+)"', (source / "c/thp.h").read_text(), re.M)
    if found is None:
        raise Unreleasable("c/thp.h has no THP_VERSION")
    return found[1]


def axioms(lines: dict[str, str]) -> str:
    """The crates whose verdict lines count axioms, with their numbers."""
    counted = {crate: re.search(r" axioms=(\S+)", line) for crate, line in lines.items()}
    return ", ".join(f"{crate} {found[1]}" for crate, found in counted.items() if found) or "none"


def unproved(platform: Platform) -> str:
    """What is built of code that is not proved."""
    if platform.has_tools:
        return "the C half of libthp (c/thp.c), thpreplay, thprecord, thpvm and thpwhatif with their helpers, and the crates for Rust"
    return "the C half of libthp (c/thp.c), what the programs ask of C (c/host.c), and the crates for Rust"


def statement(of: Commit, lines: dict[str, str], platform: Platform, library: str, glibc: str = "") -> str:
    """The first part of PROOF: what was proved, and with what."""
    functions = sum(int(found[1]) for found in (re.search(r" functions=(\d+)", line) for line in lines.values()) if found)
    width = max(map(len, lines))
    rows = "\n".join(f"{crate:{width}}  {line}" for crate, line in lines.items())
    needs = f"Linux on {platform.processor}{glibc and f', glibc {glibc} or newer'}"
    needs += "; thpreplay, thprecord, thpvm and thpwhatif need Python 3.9" if platform.has_tools else ""
    return f"""leversorrel {version()}{"" if version() == library else f", libthp {library}"}

The programs thpsplit, thpcheck and thpdraw and the library libthp are built from proved crates. Not proved are
{unproved(platform)}.
docs/PROVED.md states what is proved and trusted.

Commit:     {of.name}
Sources:    {of.tree} (`git rev-parse {of.name[:12]}^{{tree}}`)
Toolchain:  {toolchain()}
C compiler: {called([platform.tool("cc"), "--version"]).splitlines()[0]}
Runs on:    {needs}

Verdicts of {len(lines)} crates: {functions} functions proved. With `axioms=` a line counts the functions of C that a program or the
library can call, whose contracts are taken as written: {axioms(lines)}.

{rows}
"""


def origins(built: list[Path], platform: Platform) -> str:
    """The hashes of what the toolchain built."""
    folder = Path("out") / platform.part
    return "\n".join(f"{hash_of(path)}  crates/{crate}/{folder}/{path.name}" for crate, path in zip(RELEASED, built))


def of_packages(built: list[Path], platform: Platform) -> str:
    """The file PROOF of the packages, up to the hashes of a package's binaries."""
    text = statement(commit(), verdicts(built, platform), platform, library_version(ROOT))
    return f"""{text}
What the binaries were made from, as the toolchain built it:

{origins(built, platform)}

Binaries of this package, as `sha256sum` prints them:

"""


def asked(text: str | None, *more: str) -> tuple[list[Path], Platform, argparse.Namespace]:
    """What the command line asks for: the built files, in the order of RELEASED, the platform, and more words."""
    words = argparse.ArgumentParser(description=text, formatter_class=argparse.RawDescriptionHelpFormatter)
    words.add_argument("--arch", choices=PLATFORMS, default="amd64", help="Debian's name of the platform")
    words.add_argument("built", nargs=len(RELEASED), type=Path, metavar="FILE", help="three programs, and the archive of the library")
    for name in more:
        words.add_argument(name, type=Path)
    found = words.parse_args()
    return [path.resolve() for path in found.built], PLATFORMS[found.arch], found


def main() -> None:
    """Prints the text for the files of the command line."""
    built, platform, _ = asked(__doc__)
    try:
        sys.stdout.write(of_packages(built, platform))
    except (Unreleasable, OSError) as why:
        sys.exit(f"no PROOF: {why}")


if __name__ == "__main__":
    main()
