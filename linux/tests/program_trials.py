"""Recordings of programs that nobody of us wrote, each under memory pressure (root): none may be called illegal, or said to differ.
`make linux-programs`.

The programs and their packages of Debian 12 are in linux/tests/programs/debian.txt, a line each; what they read is made by inputs.txt
beside it. All memory may be of huge pages; the group is reclaimed four times a second. A program that isn't installed is skipped, and its
package named. Prints each verdict, and at the end for each class how many were legal, and how many of their pages were followed: the
table in docs/LINUX.md. Takes about 30 minutes."""

from __future__ import annotations

import os
import random
import re
import shutil
import subprocess
import tempfile
from collections import defaultdict
from functools import partialmethod
from pathlib import Path
from typing import ClassVar, Iterator

from ..common.errors import DIFFERS, SKIPPED
from ..common.text import escape, text_lines
from .cases import EXAMPLES, PROGRAMS, RECORD, RootCase

OPTIONS = ("--wait", "--enabled", "always", "--every", "0.25", "--underused", "100", "--seconds", "8", "--user", "root")
VERDICT = re.compile(r"^(.+): ([0-9]+) of ([0-9]+) pages followed .*, ([0-9]+) events$", re.MULTILINE)


def rows(name: str) -> Iterator[list[str]]:
    """Yields the cells of a table beside the programs."""
    for line in text_lines((PROGRAMS / name).read_text()):
        if not line.startswith("#"):
            yield [cell.strip(" ").replace(r"\|", "|") for cell in re.split(r"(?<!\\)\|", line, maxsplit=4 if name == "inputs.txt" else 3)]


def write_inputs(folder: Path) -> None:
    """Makes what the programs read."""
    chance = random.Random(82)
    for name, count, *parts in rows("inputs.txt"):
        begin, middle, end = (part.replace(r"\t", "\t").replace(r"\n", "\n").replace("\\\\", "\\") for part in parts)
        with (folder / name).open("w") as file:
            file.write(begin.format())
            for i in range(1, int(count) + 1):
                some = {f"d{at}": "ACGT"[chance.getrandbits(2)] for at in range(1, 9)} if "{d" in middle else {}
                file.write(middle.format(i=i, i1=i % 2000 + 1, r=chance.randrange(1, 100000), r1=chance.randrange(1, 2001),
                                         r2=chance.randrange(1, 2001), **some))
            file.write(end.format())
    lines = (folder / "pairs.txt").read_text().split("\n")
    with (folder / "lmdb.txt").open("w") as file:
        file.write("VERSION=3\nformat=print\ntype=btree\nmapsize=268435456\nHEADER=END\n")
        file.writelines(f" {line}\n" for line in lines[:-1])
        file.write("DATA=END\n")
    (folder / "picture.ppm").write_bytes(b"P6 2000 1500 255\n" + random.Random(1).randbytes(9000000))


class ProgramsTest(RootCase):
    inputs: ClassVar[tempfile.TemporaryDirectory[str]]
    counts: ClassVar[dict[str, list[int]]] = defaultdict(lambda: [0] * 5)  # by class: programs, legal, inconclusive, pages, followed

    @classmethod
    def setUpClass(cls) -> None:
        cls.inputs = tempfile.TemporaryDirectory(prefix="root-programs-")
        os.chmod(cls.inputs.name, 0o755)
        write_inputs(Path(cls.inputs.name))

    @classmethod
    def tearDownClass(cls) -> None:
        cls.inputs.cleanup()
        print("| class | programs | legal | inconclusive | pages | followed |")
        for name, (programs, legal, doubtful, pages, followed) in cls.counts.items():
            print(f"| {name} | {programs} | {legal} | {doubtful} | {pages:,} | {100 * followed / max(1, pages):.1f} % |")

    def record(self, kind: str, packages: str, command: str) -> None:
        """Records a command, and judges the verdict."""
        missing = [package for package in packages.split(",") if not is_installed(package)]
        if missing:
            self.skipTest(f"no {' '.join(missing)} (Debian packages)")
        words = {"D": self.inputs.name, "P": str(PROGRAMS), "E": str(EXAMPLES), "HOME": self.inputs.name,
                 "GLIBC_TUNABLES": "glibc.malloc.hugetlb=1"}  # the heap grows by huge pages
        shell = ["env", *(f"{name}={value}" for name, value in words.items()), "sh", "-c", command]
        done = subprocess.run([RECORD, *OPTIONS, "--", *shell], stdin=subprocess.DEVNULL, capture_output=True, text=True,
                              errors="replace", cwd=self.inputs.name, check=False)
        found = VERDICT.search(done.stdout)
        if done.returncode == SKIPPED or not found:
            self.assertEqual(done.returncode, SKIPPED, escape(done.stdout[-300:] + done.stderr[-300:]))
            self.skipTest("no huge page")
        assert found
        print(f"   {found[0]}", flush=True)
        many = self.counts[kind]
        for at, more in enumerate([1, found[1].startswith("legal"), found[1] == "inconclusive", int(found[3]), int(found[2])]):
            many[at] += more
        self.assertNotEqual(done.returncode, DIFFERS, escape(done.stdout[:2000]))


def is_installed(package: str) -> bool:
    """Returns whether a package is installed."""
    words = ["dpkg-query", "-W", "-f", "${db:Status-Status}", package]
    return bool(shutil.which(words[0])) and subprocess.run(words, capture_output=True, check=False).stdout == b"installed"


for each in rows("debian.txt"):
    setattr(ProgramsTest, f"test_{each[0]}_{each[1]}".replace("+", "p"), partialmethod(ProgramsTest.record, each[0], each[2], each[3]))
