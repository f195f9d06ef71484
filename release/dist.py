#!/usr/bin/env python3
"""Makes the release: an archive of what was built, one of the debug information, one of the sources, and their hashes.

    release/dist.py [--arch arm64] THPSPLIT THPCHECK THPDRAW ARCHIVE FOLDER

ARCHIVE is that of the library for C, crates/thp_c/out/libthp_c.a. Everything else comes from the commit, in a folder of its own. Each
archive contains a file PROOF: the verdict line of each crate, the toolchain, the sources and the hash of each binary. The same commit
and the same files give the same bytes. The paths of the archives are printed. With `--arch arm64` the files are those that
release/aarch64.py built, and there is no archive of the sources.

Status 1 and one line on standard error, and no archive, if the sources differ from the commit, a crate has no verdict line for them, a
file is not the one that was built with it, or a binary lacks protection; 77 if this machine lacks a program.
"""

from __future__ import annotations

import lzma
import shutil
import sys
import tarfile
import tempfile
from concurrent.futures import ThreadPoolExecutor
from itertools import repeat
from pathlib import Path

from platforms import AMD64, Platform
from proof import ROOT, Commit, Unreleasable, asked, called, commit, library_version, origins, statement, verdicts
from build import version  # the folders of these two are in the path since the import above
from prove import hash_of
from protection import is_elf, is_stripped, oldest_glibc, weaknesses

LACKS = 77
"""The status where this machine lacks a program."""

TEXTS = {"README.md": "", "CHANGELOG.md": "", "LICENSE-APACHE": "", "LICENSE-MIT": "", "docs": "", "examples": "", "c/demos": "examples/c",
         "rust": ""}
"""What the archive of the programs has of the sources, and where, if elsewhere."""

UNREAD = ("docs/*.[0-9]", "docs/pictures/*.py", "rust/tests")
"""What of that it leaves out: manual pages, which are installed, and what only the repository can run."""


def install(source: Path, stage: Path, built: list[Path], platform: Platform) -> None:
    """Puts into a folder what `make install` and `make -C c install` install, with an empty prefix, and the texts."""
    programs = [f"{name}={path}" for name, path in zip(("PROGRAM", "CHECKER", "DRAWER"), built)]
    where, targets = ["PREFIX=", f"DESTDIR={stage}"], ["put", "put-tools"] if platform.has_tools else ["put"]
    called(["make", "-s", "-C", "c", "install", "LIBDIR=lib", *where, f"ARCHIVE={built[-1]}", *platform.variables()], source)
    called(["make", "-s", *targets, *where, *programs], source)
    for name, other in TEXTS.items():
        place = stage / (other or name)
        place.parent.mkdir(parents=True, exist_ok=True)
        if (source / name).is_dir():
            shutil.copytree(source / name, place)
        else:
            shutil.copy(source / name, place)
    for pattern in UNREAD:
        for path in stage.glob(pattern):
            shutil.rmtree(path) if path.is_dir() else path.unlink()


def strip(stage: Path, debug: Path, platform: Platform) -> None:
    """Strips all binaries below a folder, and puts their debug information below another one, under the same names."""
    copy, cut = platform.tool("objcopy"), platform.tool("strip")
    for path in sorted(stage.rglob("*")):
        part = debug / path.relative_to(stage).with_name(f"{path.name}.debug")
        if is_elf(path):
            part.parent.mkdir(parents=True, exist_ok=True)
            called([copy, "--only-keep-debug", path, part])
            called([cut, "--strip-unneeded", "--remove-section=.comment", path])
            # the name is all that is stored of the path: gdb looks for it beside the binary, and below its debug-file-directory
            called([copy, f"--add-gnu-debuglink={part.name}", path.resolve()], part.parent)
        elif path.suffix == ".a":
            called([cut, "--strip-debug", "--enable-deterministic-archives", path])


def binaries(stage: Path) -> list[Path]:
    """The programs, helpers and libraries below a folder."""
    return sorted(path for path in stage.rglob("*") if is_elf(path) or path.suffix == ".a")


def check_protection(stage: Path) -> None:
    """Unreleasable if a binary below a folder lacks protection, or is not stripped."""
    wrong = [it for path in binaries(stage) if path.suffix != ".a" for it in weaknesses(path)]
    wrong += [f"{path.name} isn't stripped" for path in binaries(stage) if path.suffix != ".a" and not is_stripped(path)]
    if wrong:
        raise Unreleasable("; ".join(wrong))


def proof(of: Commit, lines: dict[str, str], built: list[Path], stage: Path, platform: Platform) -> str:
    """The text of PROOF."""
    here = "\n".join(f"{hash_of(path)}  {path.relative_to(stage)}" for path in binaries(stage))
    glibc = ".".join(map(str, max(oldest_glibc(path) for path in binaries(stage))))
    stated = statement(of, lines, platform, library_version(ROOT), glibc)
    return f"""{stated}
Binaries in leversorrel-{version()}-{platform.name}, as `sha256sum` prints them:

{here}

What they were made from, as the toolchain built it:

{origins(built, platform)}

To repeat: check out the commit, put the `rt` of that toolchain on the PATH, and run

    make dist{"" if platform is AMD64 else f" ARCH={platform.debian}"}

It proves each crate that has no verdict line for these sources, and writes the same archives into out/; {sums(platform)} has their
hashes. In the unpacked archive `grep -E '^[0-9a-f]{{64}}  (bin|lib)/' PROOF | sha256sum -c` compares the binaries with this file. In
that of the sources `rm PROOF; git init -q; git add -Af; git write-tree` prints the hash of the sources.
"""


def sums(platform: Platform) -> str:
    """The name of the file with the hashes of the archives."""
    return "SHA256SUMS" if platform is AMD64 else f"SHA256SUMS-{platform.name}"


def pack(folder: Path, archive: Path, when: int) -> None:
    """Packs a folder: names in order, no owner, one date, modes that depend on no umask."""

    def plain(member: tarfile.TarInfo) -> tarfile.TarInfo:
        member.uid = member.gid = 0
        member.uname = member.gname = ""
        member.mtime = when
        member.mode = 0o777 if member.issym() else 0o755 if member.isdir() or member.mode & 0o100 else 0o644
        return member

    with lzma.open(archive, "wb", preset=9) as packed, tarfile.open(fileobj=packed, mode="w", format=tarfile.GNU_FORMAT) as tar:
        for path in [folder, *sorted(folder.rglob("*"), key=lambda it: str(it.relative_to(folder)))]:
            tar.add(path, str(path.relative_to(folder.parent)), recursive=False, filter=plain)


def make(built: list[Path], folder: Path, platform: Platform) -> list[Path]:
    """Makes the archives and their hashes in a folder, and returns their paths. Nothing is left there if that fails."""
    of, lines, name = commit(), verdicts(built, platform), f"leversorrel-{version()}"
    with tempfile.TemporaryDirectory(prefix="thp-dist-") as room:
        ends = (f"-{platform.name}", f"-{platform.name}-debug", "-source")[: 3 if platform is AMD64 else 2]
        source, stage, debug = (Path(room) / f"{name}{end}" for end in ("", *ends[:2]))
        called(["git", "archive", f"--prefix={name}/", "-o", f"{room}/sources.tar", of.name])
        called(["tar", "-xf", f"{room}/sources.tar", "-C", room])
        called(["cp", "-R", source, Path(room) / "build"])
        install(Path(room) / "build", stage, built, platform)
        strip(stage, debug, platform)
        check_protection(stage)
        text = proof(of, lines, built, stage, platform)
        places = [stage, debug, source][: len(ends)]
        for place in places:
            (place / "PROOF").write_text(text)
        made = [Path(room) / f"{name}{end}.tar.xz" for end in ends]
        with ThreadPoolExecutor() as pool:
            list(pool.map(pack, places, made, repeat(of.date)))
        made.append(Path(room) / sums(platform))
        made[-1].write_text("".join(f"{hash_of(path)}  {path.name}\n" for path in made[:-1]))
        folder.mkdir(parents=True, exist_ok=True)
        return [Path(shutil.copyfile(path, folder / path.name)) for path in made]


def main() -> None:
    """Makes the release of the files of the command line."""
    built, platform, words = asked(__doc__, "folder")
    lacks = sorted({package for tool, package in platform.packages().items() if shutil.which(tool) is None})
    if lacks:
        print(f"no release: this machine lacks {', '.join(lacks)}")
        sys.exit(LACKS)
    try:
        for file in built:
            if not file.is_file():
                raise Unreleasable(f"{file} is no file")
        for path in make(built, words.folder, platform):
            print(path)
    except Unreleasable as why:
        sys.exit(f"no release: {why}")


if __name__ == "__main__":
    main()
