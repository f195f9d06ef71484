"""The release: what `make dist` makes of stand-ins for what was proved, what it refuses, and that it is reproducible.

Nothing is proved here. The tree that is released has the files of this one, except that each crate is one line long; a stand-in replaces
`rt`, the programs and the archive of the library.
"""

from __future__ import annotations

import hashlib
import os
import re
import shutil
import subprocess
import sys
import tarfile
from collections.abc import Callable
from functools import cached_property, partial
from pathlib import Path
from unittest import SkipTest, TestCase

from fixtures import ROOT, require_tool, temporary_folder
from gate import Verdicts
from test_installed import HELPERS, OVER_LIBTHP

sys.path[:0] = [str(ROOT), str(ROOT / "release")]

import version  # noqa: E402
from prove import RELEASED, below, released  # noqa: E402
from protection import is_elf, is_stripped, weaknesses  # noqa: E402

NEEDED = ("git", "cc", "make", "ar", "objcopy", "readelf", "tar", "clang", "bpftool")
LINE = "logic=proved functions=7 sum=00 native=nat,char,string logic-built=trusted libraries-built=trusted statements=trusted"
"""A verdict line."""

PROTECTED = ["-fPIE", "-pie", "-Wl,-z,relro", "-Wl,-z,now", "-Wl,-z,noexecstack"]
HELD = (
    "bin/thpsplit", "bin/thpcheck", "bin/thpdraw", "bin/thpreplay", "bin/thprecord", "bin/thpvm", "bin/thpwhatif", "lib/libthp.a",
    "lib/libthp.so", "lib/pkgconfig/thp.pc", "lib/cmake/thp/thp-config.cmake", "include/thp.h", "share/man/man1/thpsplit.1",
    "share/man/man3/libthp.3", "share/man/man3/thp_node_create.3", "share/bash-completion/completions/thpwhatif",
    *(f"lib/thpsplit/linux/out/{name}" for name in (*HELPERS, *OVER_LIBTHP)),
    "examples/first.script", "examples/c/first.c", "examples/c/CMakeLists.txt",
    "docs/C.md", "rust/Cargo.toml", "rust/examples/first.rs", "rust/leversorrel-sys/build.rs",
    "LICENSE-MIT", "LICENSE-APACHE", "CHANGELOG.md", "README.md", "PROOF",
)
"""Files of the archive of the programs, among others."""


def run(command: list[str], where: Path) -> str:
    """The output of a command that must not fail."""
    return subprocess.run(command, cwd=where, capture_output=True, text=True, errors="replace", check=True).stdout


class Release:
    """A tree of stand-ins in a folder, with a commit."""

    def __init__(self, folder: Path) -> None:
        for tool in NEEDED:
            require_tool(tool)
        if not (ROOT / ".git").exists():
            raise SkipTest("no checkout of git")
        self.folder, self.tree = folder, folder / "tree"
        (folder / "bin").mkdir()
        (folder / "bin/rt").write_text("#!/bin/sh\necho kit-of-a-test logic 00\n")
        (folder / "bin/rt").chmod(0o755)
        self.environment = {**os.environ, "PATH": f"{folder}/bin:{os.environ['PATH']}"}
        self.fill()
        self.commit()
        self.out = [self.tree / "crates" / name / "out" / name for name in RELEASED[:-1]]
        self.out.append(self.tree / "crates/thp_c/out/libthp_c.a")
        for path in self.out:
            path.parent.mkdir(parents=True)
        self.build()
        self.keep({name: LINE for name in released()})

    def fill(self) -> None:
        """Copies the files of this tree, except crates, tests and pictures, and makes each crate one line long."""
        for name in run(["git", "ls-files", "-co", "--exclude-standard"], ROOT).splitlines():
            is_left_out = re.match(r"(crates|tests|bench)/|.*/tests/|.*\.svg$", name) and name != "crates/thp_cli/src/version.rt"
            if (ROOT / name).is_file() and not is_left_out:
                (self.tree / name).parent.mkdir(parents=True, exist_ok=True)
                shutil.copy(ROOT / name, self.tree / name)
        for name in released():
            source = self.tree / "crates" / name / "src/lib.rt"
            source.parent.mkdir(parents=True, exist_ok=True)
            source.write_text(f"//! {name}\n")

    def commit(self) -> None:
        """Commits the tree."""
        person = ["-c", "user.name=nobody", "-c", "user.email=nobody@example.invalid"]
        for words in (["init", "-q"], ["add", "-A"], [*person, "commit", "-q", "-m", "all"]):
            run(["git", *words], self.tree)

    def build(self, words: list[str] = PROTECTED) -> None:
        """Builds the stand-ins."""
        source = self.folder / "built.c"
        for path in self.out[:-1]:
            source.write_text(f'#include <stdio.h>\nint main(void) {{ return puts("{path.name}") < 0; }}\n')
            run(["cc", "-g", f"-ffile-prefix-map={self.folder}=.", *words, str(source), "-o", str(path)], self.folder)
        names = sorted({*re.findall(r"\bthp_c_\w+(?=\()", (ROOT / "c/thp.c").read_text())})
        source.write_text("".join(f"unsigned {name}(void) {{ return 0; }}\n" for name in names))
        run(["cc", "-g", f"-ffile-prefix-map={self.folder}=.", "-fPIC", "-c", str(source), "-o", "built.o"], self.folder)
        run(["ar", "rcsD", str(self.out[-1]), "built.o"], self.folder)

    def keep(self, lines: dict[str, str], made: str = "prove.products(name)") -> None:
        """Stores verdict lines, and that these files were built, as a proof does."""
        code = f"import prove\nfor name, line in {lines!r}.items():\n    prove.keep_verdict(name, prove.sources(name), line, {made})\n"
        subprocess.run([sys.executable, "-c", code], cwd=self.tree, env=self.environment, check=True)

    def is_released(self) -> bool:
        """Whether prove.py has nothing left to do for a release."""
        command = [sys.executable, "prove.py", "is-released"]
        return subprocess.run(command, cwd=self.tree, env=self.environment, check=False).returncode == 0

    def script(self, name: str, *words: str) -> subprocess.CompletedProcess[str]:
        """Runs a script of release/ on the stand-ins."""
        command = [sys.executable, str(self.tree / f"release/{name}.py"), *map(str, self.out), *words]
        return subprocess.run(command, cwd="/", capture_output=True, text=True, env=self.environment, check=False)

    @cached_property
    def reproduced(self) -> subprocess.CompletedProcess[str]:
        """The end of a release and a second one from a clone. The first one is left in the folder `made`."""
        return self.script("reproduce", str(self.folder / "made"), "release")


def unpacked(folder: Path) -> dict[str, Path]:
    """The folders of the archives of a release, by the ends of their names."""
    run(["sha256sum", "-c", "--strict", "SHA256SUMS"], folder)
    found = {}
    for path in sorted(folder.glob("*.tar.xz")):
        with tarfile.open(path) as tar:
            members = tar.getmembers()
            tar.extractall(folder)
        top = path.name.removesuffix(".tar.xz")
        if any(it.uid or it.gid or it.uname or not f"{it.name}/".startswith(f"{members[0].name}/") for it in members):
            raise ValueError(f"{path.name} has an owner, or more than one folder")
        found[re.sub(r"leversorrel-[\d.]+-", "", top)] = folder / members[0].name
    return found


def proof_differs(release: Release, top: Path) -> str | None:
    """What is wrong with PROOF: lines, commit, toolchain, and the hashes of all binaries."""
    text = (top / "PROOF").read_text()
    commit, tree = (run(["git", "rev-parse", it], release.tree).strip() for it in ("HEAD", "HEAD^{tree}"))
    count = len(released())
    wanted = [*(rf"^{name} +{re.escape(LINE)}$" for name in released()), f"^Commit: +{commit}$", f"^Sources: +{tree} ",
              "^Toolchain:  kit-of-a-test logic 00$", r"^Runs on: .* glibc 2\.\d+ ",
              f"^Verdicts of {count} crates: {7 * count} functions proved. ",
              "^library can call, whose contracts are taken as written: none.$"]
    lacks = [it for it in wanted if not re.search(it, text, re.M)]
    hashes = {name: it for it, name in re.findall(r"^([0-9a-f]{64})  (\S+)$", text, re.M)}
    files = {str(path.relative_to(top)): path for path in top.rglob("*") if is_elf(path) or path.suffix == ".a"}
    files.update({str(path.relative_to(release.tree)): path for path in release.out})
    wrong = [name for name in {*hashes} | {*files}
             if name not in files or hashes.get(name) != hashlib.sha256(files[name].read_bytes()).hexdigest()]
    return f"PROOF lacks {lacks[0]}" if lacks else f"PROOF is wrong about {sorted(wrong)}" if wrong else None


def sources_differ(release: Release, top: Path) -> str | None:
    """What is wrong with the archive of the sources: it has the commit's, and PROOF."""
    (top / "PROOF").unlink()
    for words in (["init", "-q"], ["add", "-Af"]):
        run(["git", *words], top)
    made, wanted = run(["git", "write-tree"], top), run(["git", "rev-parse", "HEAD^{tree}"], release.tree)
    return None if made == wanted else f"its hash is {made.strip()}, not {wanted.strip()}"


def binaries_differ(top: Path, debug: Path) -> str | None:
    """What is wrong with the binaries of an archive."""
    wrong: list[str] = []
    for path in filter(is_elf, top.rglob("*")):
        part = debug / path.relative_to(top).with_name(f"{path.name}.debug")
        wrong += weaknesses(path) + ([] if is_stripped(path) else [f"{path.name} isn't stripped"])
        wrong += [] if part.is_file() and not is_stripped(part) else [f"no debug information of {path.name}"]
        linked = run(["readelf", "--string-dump=.gnu_debuglink", str(path)], top)
        wrong += [] if part.name in linked else [f"{path.name} doesn't name {part.name}"]
    where = [str(path) for folder in (top, debug) for path in folder.rglob("*")
             if path.is_file() and re.search(rb"thp-dist-|thp-test-", path.read_bytes())]
    return "; ".join(wrong + [f"{name} has a path of the machine" for name in where]) or None


class Sources(TestCase):
    """What a release takes from the sources and from the gate."""

    def test_verdict_lines_in_the_output_of_rt_ci(self) -> None:
        """The gate finds the verdict line of each crate: not that of its tests, nor of a crate that fails."""
        text = f"""== thp_links
fn thp_links::a: proved
{LINE}
rt: thp_links proved
== thp_links: its tests
logic=proved tests=3 functions=1 sum=00
rt: thp_links: its tests proved
== thp_model
{LINE}
rt: thp_model NOT PROVED
rt: thp_page is kept: an earlier run proved it
"""
        seen = Verdicts()
        for line in text.splitlines(keepends=True):
            seen.see(line)
        self.assertEqual(seen.lines, {"thp_links": f"{LINE}\n"})

    def test_one_version(self) -> None:
        """Sources, manual pages, library and cargo crates have one number. tests/test_package.py compares it with the packages."""
        self.assertEqual(version.differing(version.PROGRAMS) + version.differing(version.LIBRARY), [])
        programs, library = (next(iter(version.numbers(it).values())) for it in (version.PROGRAMS, version.LIBRARY))
        self.assertEqual(programs, library)
        self.assertTrue(version.tag(), f"CHANGELOG.md doesn't begin with {programs} and what it is")


class Releases(TestCase):
    """What a release refuses, what it recognises as proved, and what it makes. Each test leaves the tree of stand-ins as it was."""

    release: Release

    @classmethod
    def setUpClass(cls) -> None:
        cls.release = Release(temporary_folder(cls))

    def check_refusal(self, wanted: str) -> None:
        """No release may be made, for a reason that contains these words."""
        folder = self.release.folder / "refused"
        done = self.release.script("dist", str(folder))
        with self.subTest(wanted=wanted):
            self.assertEqual((done.returncode, done.stderr[:12], done.stderr.count("\n")), (1, "no release: ", 1), done.stderr[-300:])
            self.assertIn(wanted, done.stderr)
            self.assertFalse(folder.exists())

    def test_what_a_release_refuses(self) -> None:
        """No release of crates without a verdict line, of other sources, of another program, or of an unprotected one."""
        release = self.release
        low, other = below("thpsplit")[0], release.tree / "crates/thp_c/out/verdict"
        source, readme = release.tree / f"crates/{low}/src/lib.rt", release.tree / "README.md"
        was, text, stored = source.read_text(), readme.read_text(), other.read_bytes()
        other.unlink()
        self.check_refusal("no verdict line for the present sources of thp_c:")
        other.write_bytes(stored)
        readme.write_text(f"{text}more\n")
        self.check_refusal("the sources differ from the commit: README.md")
        readme.write_text(text)
        source.write_text(f"{was}// more\n")
        release.commit()
        self.check_refusal(f"no verdict line for the present sources of {low}, ")
        source.write_text(was)
        release.commit()
        release.build(["-no-pie"])
        self.check_refusal("isn't what was built when thpsplit was proved")
        release.keep({name: LINE for name in released()})
        self.check_refusal("thpsplit has no position-independent code")
        release.build()
        release.keep({name: LINE for name in released()})

    def test_what_is_built_is_recognised(self) -> None:
        """What is proved and built is recognised, and nothing else: neither a changed program or source, nor a missing line or archive.
        A line alone binds no file; with the files that were built before from the same sources it does."""
        release = self.release
        source, line = release.tree / f"crates/{below('thpsplit')[0]}/src/lib.rt", release.tree / "crates/thpcheck/out/verdict"
        self.assertTrue(release.is_released())
        for path in (release.out[0], release.out[-1], source, line):
            was = path.read_bytes()
            changes: tuple[Callable[[], object], ...] = (partial(path.write_bytes, was + b"\n//"), path.unlink)
            for change in changes:
                change()
                with self.subTest(path=path.name):
                    self.assertFalse(release.is_released(), "it may be another, or missing")
                path.write_bytes(was)
        line.unlink()
        release.keep({"thpcheck": LINE}, "()")
        self.assertFalse(release.is_released(), "a line alone binds the program")
        release.keep({"thpcheck": ""})
        self.assertTrue(release.is_released(), "a line and a program of the same sources aren't recognised")

    def test_what_the_packages_state(self) -> None:
        """The text that the packages get as PROOF has each line and hash, and is refused where a crate has no verdict line."""
        done = self.release.script("proof")
        self.assertEqual(done.returncode, 0, done.stderr)
        lines = done.stdout.splitlines()
        for name in released():
            self.assertIn([name, LINE], [line.split(maxsplit=1) for line in lines])
        hashes = {hashlib.sha256(path.read_bytes()).hexdigest() for path in self.release.out}
        self.assertLessEqual(hashes, {line[:64] for line in lines})
        stored = self.release.tree / "crates/thp_c/out/verdict"
        kept = stored.read_bytes()
        stored.unlink()
        refused = self.release.script("proof")
        stored.write_bytes(kept)
        self.assertEqual((refused.returncode, refused.stdout), (1, ""))
        self.assertIn("no verdict line for the present sources of thp_c", refused.stderr)

    def test_the_same_bytes_from_a_clone(self) -> None:
        """A second release, from a clone, has the same bytes."""
        done = self.release.reproduced
        same = [line for line in done.stdout.splitlines() if line.endswith(": the same bytes")]
        self.assertEqual((done.returncode, len(same)), (0, 4), f"{done.stdout[-600:]}{done.stderr[-300:]}")

    def test_archives_with_proof_and_binaries(self) -> None:
        """The archives have their files, hashes in PROOF, protected and stripped binaries, and no path of the machine that made them."""
        self.assertEqual(self.release.reproduced.returncode, 0)
        places = unpacked(self.release.folder / "made")
        self.assertEqual(sorted(places), ["source", "x86_64-linux", "x86_64-linux-debug"])
        top = places["x86_64-linux"]
        self.assertEqual([name for name in HELD if not (top / name).exists()], [])
        for place in places.values():
            self.assertEqual((place / "PROOF").read_bytes(), (top / "PROOF").read_bytes())
        self.assertIsNone(proof_differs(self.release, top))
        self.assertIsNone(binaries_differ(top, places["x86_64-linux-debug"]))
        self.assertIsNone(sources_differ(self.release, places["source"]))
