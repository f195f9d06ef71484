"""The Debian packages: built twice from what was proved, checked by lintian, installed in a clean root, tried there, and removed.

THPSPLIT, THPCHECK, THPDRAW and LIBTHP_C name the built files. All is skipped if this machine lacks Debian's tools for packages. Nothing
is installed on the machine itself.
"""

from __future__ import annotations

import hashlib
import io
import os
import re
import shutil
import subprocess
import sys
import tarfile
from pathlib import Path
from typing import Optional
from unittest import SkipTest, TestCase

from fixtures import ROOT, find_built, require_tool, temporary_folder
from process import Call, Ended, run
from run import SKIPPED
from tables import table
from test_installed import HELPERS, OVER_LIBTHP
from test_library import elf_differs, header, soname, version

sys.path[:0] = [str(ROOT / "debian"), str(ROOT / "release")]

from build import PARTS  # noqa: E402
from protection import is_elf, is_stripped, weaknesses  # noqa: E402

FIRST, LEGAL = ROOT / "examples/first.script", ROOT / "examples/two_workers.journal"
ADMIN = "var/lib/dpkg"
"""The files of `dpkg` itself in a root."""

TOOLS = ("thpreplay", "thprecord", "thpvm", "thpwhatif")
"""The tools for the running kernel."""

PUT = ("usr/bin/thpsplit", "usr/bin/thpcheck", "usr/bin/thpdraw", *(f"usr/bin/{name}" for name in TOOLS),
       *(f"usr/share/man/man1/{name}.1.gz" for name in TOOLS),
       *(f"usr/lib/thpsplit/linux/out/{name}" for name in (*HELPERS, *OVER_LIBTHP)),
       "usr/lib/systemd/system/thpwhatif.service", "usr/lib/systemd/system/thpwhatif.timer",
       "usr/share/man/man1/thpcheck.1.gz", "usr/share/man/man1/thpdraw.1.gz",
       "usr/share/man/man1/thpsplit.1.gz", "usr/share/man/man5/thpsplit.5.gz",
       "usr/share/bash-completion/completions/thpsplit", "usr/share/doc/thpsplit/copyright",
       *(f"usr/share/doc/{name}" for name in (
           "thpsplit/README.md.gz", "thpsplit/CHANGELOG.md.gz", "thpsplit/FORMATS.md.gz", "thpsplit/examples/first.script",
           "thp-linux-tools/WHATIF.md.gz", "thp-linux-tools/SECURITY.md.gz", "libthp0/README.md.gz", "libthp-dev/C.md.gz",
           "libthp-dev/examples/first.c", "libthp-dev/examples/CMakeLists.txt")),
       "usr/include/thp.h", "usr/share/man/man3/libthp.3.gz", "usr/share/man/man3/thp_node_create.3.gz", "usr/share/libthp/tsan.supp")
"""Files that the packages must have, among others."""

OF_LIBRARY = (f"libthp{soname().rpartition('.')[2]}", "libthp-dev")
"""The packages with the library's version; the others have that of the programs."""

DEPENDENCIES = {
    "thp-linux-tools": ("python3", "thpsplit (= ", "libbpf1 (>= ", "libc6 (>= 2."), "thpsplit": ("libc6 (>= 2.",),
    OF_LIBRARY[0]: ("libc6 (>= 2.",),
    "libthp-dev": (f"{OF_LIBRARY[0]} (= {version()})",),
}
"""Each package, after those that need it, and what its dependencies begin with."""

DEBUG = "-dbgsym"
"""The end of the name of a package with the debug information of another one."""


STATED = "Verdicts of a test\n\nBinaries of this package:\n\n"
"""A stand-in for what release/proof.py states about the built files."""


def built(files: list[Path], folder: Path, tree: Path = ROOT, **more: str) -> list[Path]:
    """The packages, built from a tree into the folder, with a stand-in for what is stated of them."""
    folder.mkdir(exist_ok=True)
    proof = folder / "PROOF"
    proof.write_text(STATED)
    command = [sys.executable, *map(str, (tree / "debian/build.py", "--proof", proof, *(file.resolve() for file in files), folder))]
    done = subprocess.run(command, capture_output=True, text=True, cwd=tree, env={**os.environ, **more})
    if done.returncode == SKIPPED:
        raise SkipTest(done.stdout.strip())
    assert done.returncode == 0, f"{done.stdout}{done.stderr}"
    return [Path(line) for line in done.stdout.splitlines()]


def differ(packages: list[Path], files: list[Path], folder: Path) -> Optional[str]:
    """The packages whose bytes or names differ when they are built again, from a copy of the tree with other dates and modes."""
    tree = folder / "copy"
    old = os.umask(0o077)
    try:
        for part in (*PARTS, "crates/thp_cli/src/version.rt"):
            (tree / part).parent.mkdir(parents=True, exist_ok=True)
            if (ROOT / part).is_dir():
                shutil.copytree(ROOT / part, tree / part, ignore=shutil.ignore_patterns("__pycache__", "out"))
            else:
                shutil.copyfile(ROOT / part, tree / part)
        for path in tree.rglob("*"):
            path.chmod(0o700 if path.is_dir() or path.stat().st_mode & 0o100 else 0o600)
            os.utime(path, (1_000_000_000, 1_000_000_000))
        again = built(files, folder / "again", tree, SOURCE_DATE_EPOCH=str(dated(packages[0])), TZ="Asia/Tokyo", LC_ALL="C")
    finally:
        os.umask(old)
    one, other = ({path.name: path.read_bytes() for path in paths} for paths in (packages, again))
    wrong = sorted(name for name in {*one} | {*other} if one.get(name) != other.get(name))
    return ", ".join(wrong) or None


def dated(package: Path) -> int:
    """The date of the files in a package."""
    data = subprocess.run(["dpkg-deb", "--fsys-tarfile", package], capture_output=True, check=True).stdout
    with tarfile.open(fileobj=io.BytesIO(data)) as tar:
        return max(int(member.mtime) for member in tar)


def dates_differ(packages: list[Path]) -> Optional[str]:
    """The packages whose files have another date than the commit, or SOURCE_DATE_EPOCH."""
    wanted = os.environ.get("SOURCE_DATE_EPOCH", "")
    if not wanted:
        command = ["git", "log", "-1", "--format=%ct"]
        if not (ROOT / ".git").exists() or shutil.which("git") is None:
            raise SkipTest("no git, or no commit")
        wanted = subprocess.run(command, cwd=ROOT, capture_output=True, text=True).stdout.strip()
        if not wanted:
            raise SkipTest("git names no commit")
    return ", ".join(f"{path.name}: {dated(path)}" for path in packages if str(dated(path)) != wanted) or None


def fields_differ(packages: list[Path]) -> Optional[str]:
    """The packages with a wrong name, version or dependency."""
    found = re.search(r'VERSION: &str = "([^"]+)"', (ROOT / "crates/thp_cli/src/version.rt").read_text())
    assert found is not None
    wrong, names = [], set()
    for path in packages:
        words = ["dpkg-deb", "-f", str(path), "Package", "Version", "Depends"]
        reported = subprocess.run(words, capture_output=True, text=True, check=True).stdout
        fields = dict(line.split(": ", 1) for line in reported.splitlines())
        name, needs = fields["Package"], fields.get("Depends", "").split(", ")
        names.add(name)
        wanted = version() if name.removesuffix(DEBUG) in OF_LIBRARY else found[1]
        wrong += [] if fields["Version"] == wanted else [f"{name} has version {fields['Version']}, not {wanted}"]
        wrong += [f"{name} doesn't depend on {it}" for it in DEPENDENCIES.get(name, ()) if not any(need.startswith(it) for need in needs)]
        wrong += ["thpsplit depends on python3"] if name == "thpsplit" and "python3" in needs else []
    debug = {f"{name}{DEBUG}" for name in DEPENDENCIES if name != "libthp-dev"}
    wrong += [f"{name} is missing, or too much" for name in sorted(names ^ {*DEPENDENCIES, *debug})]
    return "; ".join(wrong) or None


def unpacked(packages: list[Path], folder: Path) -> tuple[Path, Path]:
    """The folder of the packaged library, below a folder that has what `dpkg` knows about it, and that of the latter."""
    root = folder / "library"
    if not root.exists():
        for path in packages:
            if path.name.startswith(tuple(f"{name}_" for name in OF_LIBRARY)):
                subprocess.run(["dpkg-deb", "-x", path, root], check=True)
            if path.name.startswith(f"{OF_LIBRARY[0]}_"):
                subprocess.run(["dpkg-deb", "-e", path, root / "DEBIAN"], check=True)
    return next((root / "usr/lib").glob("*/libthp.a")).parent, root / "DEBIAN"


DEMO = ROOT / "c/demos/first.c"
"""A program that uses the library."""


def oldest_version(symbols: str, source: str) -> str:
    """The oldest version of the library that has all the calls that a C program makes, by the package's file of symbols."""
    used = set(re.findall(r"\bthp_\w+", source))
    since = [found[2] for found in re.finditer(r"^ (thp_\w+)@\S+ ([\d.]+)$", symbols, re.M) if found[1] in used]
    return max(since, key=lambda number: [int(part) for part in number.split(".")])


def needs_differ(packages: list[Path], folder: Path) -> Optional[str]:
    """What is wrong with the dependency of a package with a program that was linked with the packaged library."""
    place, control = unpacked(packages, folder)
    other = folder / "other"
    (other / "debian").mkdir(parents=True)
    control_text = "Source: other\nMaintainer: nobody <nobody@example.invalid>\n\nPackage: other\nArchitecture: any\n"
    (other / "debian/control").write_text(control_text)
    words = ["cc", str(DEMO), f"-I{control.parent}/usr/include", f"-L{place}", "-lthp", "-o", "first"]
    for command in (words, ["dpkg-shlibdeps", "-O", f"-S{control.parent}", f"-l{place}", "first"]):
        done = subprocess.run(command, cwd=other, capture_output=True, text=True)
        if done.returncode != 0:
            return f"{command[0]}: {done.stderr.strip()}"
    wanted = f"{OF_LIBRARY[0]} (>= {oldest_version((control / 'symbols').read_text(), DEMO.read_text())})"
    return None if wanted in done.stdout.strip().replace("=", ", ", 1).split(", ") else f"{done.stdout.strip()}, not {wanted}"


def library_differs(packages: list[Path], folder: Path) -> Optional[str]:
    """What is wrong with the packaged library: its files, its protection, and what packages that use it must require."""
    place, control = unpacked(packages, folder)
    own = next(path for path in packages if path.name.startswith(f"{OF_LIBRARY[0]}_"))
    name, number = soname(), version()
    if os.readlink(place / name) != f"{name.rpartition('.')[0]}.{number}" or os.readlink(place / "libthp.so") != name:
        return f"{sorted(path.name for path in place.iterdir())}"
    texts = {
        control / "shlibs": f"libthp {name.rpartition('.')[2]} {own.name.partition('_')[0]} (>= {number})\n",
        place / "pkgconfig/thp.pc": f"\nVersion: {number}\n", place / "cmake/thp/thp-config-version.cmake": f'"{number}"',
        place / "cmake/thp/thp-config.cmake": f"libthp.so.{number}",
    }
    wrong = [path.name for path, text in texts.items() if text not in path.read_text()]
    symbols = (control / "symbols").read_text()
    wrong += [it for it in header() if not re.search(rf"^ {it}@THP_[0-9.]+ [0-9.]+$", symbols, re.M)]
    return ", ".join(wrong) or elf_differs(place / name)


BINARIES = 4 + len(HELPERS) + len(OVER_LIBTHP)
"""The binaries of all packages: three programs, the library, and what the kernel tools have in C."""


def binaries_differ(packages: list[Path], folder: Path) -> Optional[str]:
    """What the programs, helpers and libraries of the packages lack of protection; none has symbols, which are in packages apart."""
    require_tool("readelf")
    wrong: list[str] = []
    (folder / "binaries").mkdir()
    for path in packages:
        if DEBUG not in path.name:
            subprocess.run(["dpkg-deb", "-x", path, folder / "binaries" / path.name], check=True)
    built = [path for path in (folder / "binaries").rglob("*") if is_elf(path)]
    for path in built:
        wrong += weaknesses(path) + ([] if is_stripped(path) else [f"{path.name} isn't stripped"])
    return "; ".join(wrong) or (None if len(built) == BINARIES else f"{len(built)} binaries, not {BINARIES}")


def proofs_differ(packages: list[Path], folder: Path) -> Optional[str]:
    """The packages whose PROOF is not what is stated, followed by the hashes of all binaries of the package."""
    wrong = []
    for path in (path for path in packages if DEBUG not in path.name):
        name, root = path.name.partition("_")[0], folder / "proofs" / path.name
        root.mkdir(parents=True)
        subprocess.run(["dpkg-deb", "-x", path, root], check=True)
        binaries = (it for it in root.rglob("*") if is_elf(it) or (it.suffix == ".a" and not it.is_symlink()))
        hashes = {f"{hashlib.sha256(it.read_bytes()).hexdigest()}  {it.relative_to(root)}\n" for it in binaries}
        proof = root / "usr/share/doc" / name / "PROOF"
        text = proof.read_text() if proof.is_file() else ""
        is_right = text.startswith(STATED) and {*text.removeprefix(STATED).splitlines(keepends=True)} == hashes and hashes
        wrong += [] if is_right else [f"{name}: {text[-200:]!r}"]
    return "; ".join(wrong) or None


UNAVOIDED = "debug-file-with-no-debug-symbols"
"""What lintian may report: the toolchain gives the programs symbols, and no other debug information."""


def lintian(packages: list[Path]) -> Optional[str]:
    """The errors and warnings of lintian, or None."""
    require_tool("lintian")
    command: list[str | Path] = ["lintian", "--fail-on", "error,warning", "--suppress-tags", UNAVOIDED, *packages]
    done = subprocess.run(command, capture_output=True, text=True)
    return None if done.returncode == 0 else done.stdout.strip()


def below(root: Path) -> set[str]:
    """The files below a root, except those of `dpkg` itself."""
    files = (str(path.relative_to(root)) for path in root.rglob("*") if not path.is_dir() or path.is_symlink())
    return {name for name in files if not name.startswith(f"{ADMIN}/")}


def dpkg(root: Path, *words: str) -> Optional[str]:
    """What is wrong when `dpkg` works on a root, or None. The root contains no other package, so none is required."""
    command = ["dpkg", f"--root={root}", "--force-depends", "--force-not-root", f"--log={root}/log", *words]
    done = subprocess.run(command, capture_output=True, text=True)
    return None if done.returncode == 0 else done.stderr.strip()


def clean_root(folder: Path) -> Path:
    """A root without installed files."""
    root = folder / "root"
    for name in ("info", "updates", "triggers"):
        (root / ADMIN / name).mkdir(parents=True)
    (root / ADMIN / "status").touch()
    (root / ADMIN / "available").touch()
    return root


def works(root: Path) -> Optional[str]:
    """How the installed programs' output for the first script and for a journal differs, or None."""
    program = root / "usr/bin/thpsplit"
    totals = run(program, Call((), FIRST.read_bytes()))
    if totals.status != 0 or b"frames_given 256\n" not in totals.output:
        return f"the first script: {totals}"
    reported = run(program, Call(("--check",), LEGAL.read_bytes())).differs_from(Ended(0, b"legal\n"))
    reported = reported or run(root / "usr/bin/thpcheck", Call((), LEGAL.read_bytes())).differs_from(Ended(0, b"legal\n"))
    return reported or run(root / "usr/bin/thpdraw", Call(("--table",), LEGAL.read_bytes())).differs_from(table(LEGAL.read_bytes()))


def tools_work(root: Path, version: str) -> Optional[str]:
    """What is wrong with the versions of the tools for the running kernel, or None. No script enables or starts the timer."""
    for name in TOOLS:
        wrong = run(root / "usr/bin" / name, Call(("--version",), b"")).differs_from(Ended(0, f"{name} {version}\n".encode()))
        if wrong:
            return f"{name}: {wrong}"
    scripts = [path.name for name in ("thpsplit", "thp-linux-tools") for path in (root / ADMIN / "info").glob(f"{name}.p*")]
    enabled = [name for name in below(root) if name.startswith("etc/systemd/")]
    return f"scripts {scripts}, enabled {enabled}" if scripts or enabled else None


def links(root: Path) -> Optional[str]:
    """What is wrong when a program in C is built with the installed library and run, or None."""
    place = next((root / "usr/lib").glob("*/libthp.so")).parent
    first = root.parent / "first"
    words = ["cc", str(DEMO), f"-I{root}/usr/include", f"-L{place}", "-lthp", "-o", str(first)]
    for command in (words, [str(first)]):
        done = subprocess.run(command, capture_output=True, text=True, env={**os.environ, "LD_LIBRARY_PATH": str(place)})
        if done.returncode != 0:
            return f"{command[0]}: {done.stderr.strip()}"
    return None


def comes_and_goes(packages: list[Path], folder: Path) -> Optional[str]:
    """What is wrong when the packages are installed, tried and removed, or None."""
    root = clean_root(folder)
    before = below(root)
    wrong = dpkg(root, "--install", *map(str, packages))
    if wrong:
        return wrong
    lacks = [name for name in PUT if name not in below(root)]
    if lacks:
        return f"not installed: {', '.join(lacks)}"
    number = packages[-1].name.split("_")[1]
    names = [path.name.split("_")[0] for path in packages]
    wrong = works(root) or tools_work(root, number) or links(root) or dpkg(root, "--purge", *names)
    if wrong:
        return wrong
    left = below(root) - before - {"log"}
    return f"left: {', '.join(sorted(left))}" if left else None


class Packages(TestCase):
    """The packages of the built files."""

    files: list[Path]
    folder: Path
    packages: list[Path]

    @classmethod
    def setUpClass(cls) -> None:
        """Builds the packages, or skips the tests."""
        cls.files = [find_built(name) for name in ("THPSPLIT", "THPCHECK", "THPDRAW", "LIBTHP_C")]
        cls.folder = temporary_folder(cls)
        cls.packages = built(cls.files, cls.folder)

    def test_names_versions_and_dependencies(self) -> None:
        self.assertIsNone(fields_differ(self.packages))

    def test_files_and_requirements_of_the_library(self) -> None:
        self.assertIsNone(library_differs(self.packages, self.folder))

    def test_what_a_program_needs_that_uses_the_library(self) -> None:
        self.assertIsNone(needs_differ(self.packages, self.folder))

    def test_dates_are_those_of_the_commit(self) -> None:
        self.assertIsNone(dates_differ(self.packages))

    def test_a_second_build_has_the_same_bytes(self) -> None:
        self.assertIsNone(differ(self.packages, self.files, self.folder))

    def test_protection_of_the_binaries(self) -> None:
        self.assertIsNone(binaries_differ(self.packages, self.folder))

    def test_proof_has_the_hashes_of_the_binaries(self) -> None:
        self.assertIsNone(proofs_differ(self.packages, self.folder))

    def test_lintian_finds_nothing(self) -> None:
        self.assertIsNone(lintian(self.packages))

    def test_installed_tried_and_removed(self) -> None:
        self.assertIsNone(comes_and_goes(self.packages, self.folder))
