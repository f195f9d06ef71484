"""The release in a clean Debian: unpacked, run and linked in a root folder that has no Rattle toolchain, also by the lines of README.md.

RELEASE names the folder that has what `make dist` made, and the packages if `make deb` made them there. debootstrap makes the roots, of
Debian 12 and of Debian 11 (or of SUITES), from DEBIAN_MIRROR in a temporary folder; with DEBIAN_ROOT it is a copy of an existing one,
which needs the packages that INCLUDED lists. Where glibc is too old for the programs, these must name the version that they need, and
the library and the tools in Python must work. Nothing is left behind. Needs root and the network.
"""

from __future__ import annotations

import os
import re
import shutil
import signal
import subprocess
import sys
import tempfile
import time
from collections.abc import Callable
from pathlib import Path
from unittest import SkipTest, TestCase

from fixtures import ROOT, add_tests
from run import SKIPPED

sys.path.insert(0, str(ROOT / "release"))

from protection import oldest_glibc  # noqa: E402

RELEASE, EXISTING = (os.environ.get(name) for name in ("RELEASE", "DEBIAN_ROOT"))
SUITES = [EXISTING] if EXISTING else os.environ.get("SUITES", "bookworm bullseye").split()
MIRROR = os.environ.get("DEBIAN_MIRROR", "http://deb.debian.org/debian")
INCLUDED = "gcc,libc6-dev,pkg-config,cmake,make,python3,xz-utils"
"""The packages that the root has beside the essential ones, and libbpf1, which Debian 11 lacks."""

INCONCLUSIVE = 4
"""The status of a look at all processes that names one which it can't read."""

SECONDS = 1800
"""The greatest time that one command may take."""

FIRST = "setup\nalloc 0\nsplitpmd 0 0\nunmap 0 0 0 256\nscan 0 8\n"
"""The first script: one page, half of it unmapped, split by the shrinker."""

TOTALS = ("pages 1", "queue 0", "frames_held 256", "frames_given 256", "thp_split_page 1")
"""Lines of its totals: one page split, 256 frames given back, 256 held."""

LINKED = "page 0 is queued\ntaken 1, split 1\nframes: 256 given back, 256 held\n"
"""What examples/c/first.c prints, which does the same by the library."""

COMPILED = ("thpsplit", "thpcheck", "thpdraw")
TOOLS = ("thpreplay", "thprecord", "thpvm", "thpwhatif")
"""Those that are written in Python."""

PROGRAMS = COMPILED + TOOLS
ARCHIVE = "leversorrel-*-x86_64-linux.tar.xz"

CMAKE = """cmake_minimum_required(VERSION 3.13)
project(use C)
find_package(thp REQUIRED)
foreach(kind thp static)
  add_executable(by_${kind} first.c)
  target_link_libraries(by_${kind} thp::${kind})
endforeach()
"""
"""A project that links the first demo with either library."""

RUST = """room=$(mktemp -d); trap 'rm -rf "$room"' EXIT; mkdir "$room/src"
crates=$PWD/rust
sed -n '/^```rust$/,/^```$/{/^```/d;p}' rust/README.md > "$room/src/main.rs"
printf '%s\\n' '[package]' 'name = "use"' 'version = "0.0.0"' 'edition = "2021"' '[dependencies]' \\
    "leversorrel = { path = \\"$crates\\" }" > "$room/Cargo.toml"
PATH=/mnt/bin:$PATH CARGO_HOME=$room/home cargo run --offline --quiet --manifest-path "$room/Cargo.toml\""""
"""A script that builds the program of the crate's README with the crates and the library of the archive, and runs it."""

RUST_PACKAGED = RUST.replace("crates=$PWD/rust", 'crates=$room/crates; cp -R rust "$crates"')
"""The same where the crates are alone, so that they look for a packaged library."""

NOBODY = "65534:65534"

MOST_SECONDS = 300
"""The longest time that the lines of README.md may take together."""


def called(words: list[str]) -> subprocess.CompletedProcess[str]:
    """Runs a command in a mount namespace of its own, so that none of its mounts outlives it."""
    whole = ["unshare", "--mount", "--propagation", "private", "--", *words]
    plain = {"PATH": "/usr/sbin:/usr/bin:/sbin:/bin", "LC_ALL": "C.UTF-8", "HOME": "/tmp", "DEBIAN_FRONTEND": "noninteractive"}
    return subprocess.run(whole, stdin=subprocess.DEVNULL, capture_output=True, text=True, errors="replace", timeout=SECONDS, env=plain,
                          check=False)


def cargo_of_machine() -> str | None:
    """The folder that has cargo and the compiler of this machine, if it has them."""
    if shutil.which("rustc") is None:
        return None
    return subprocess.run(["rustc", "--print", "sysroot"], capture_output=True, text=True, check=True).stdout.strip()


def readme_lines() -> list[str]:
    """What README.md has to paste for a release."""
    found = re.search(r"^```sh\n(.*?)^```$", (ROOT / "README.md").read_text(), re.M | re.S)
    assert found is not None
    return found[1].splitlines()


class Root:
    """A Debian root in a folder, with the unpacked archive in /opt."""

    def __init__(self, folder: Path, suite: str) -> None:
        self.path = folder / "root"
        if EXISTING:
            done = called(["cp", "-a", "--reflink=auto", EXISTING, str(self.path)])
        else:
            included = INCLUDED if suite == "bullseye" else f"{INCLUDED},libbpf1"
            words = ["debootstrap", "--variant=minbase", f"--include={included}", suite, str(self.path), MIRROR]
            done = called(words)
        if done.returncode != 0:
            reported = (done.stdout + done.stderr).strip().splitlines()
            raise SkipTest(f"no Debian root: {reported[-1] if reported else f'status {done.returncode}'}")
        self.path.chmod(0o755)

    def run(self, script: str, user: str = NOBODY, lent: str | None = None) -> subprocess.CompletedProcess[str]:
        """Runs a shell script in the unpacked archive, as a user without rights; meanwhile a lent folder is at /mnt."""
        words = ["chroot", f"--userspec={user}", str(self.path), "/bin/sh", "-ec", f"cd /opt/leversorrel-*/ 2> /dev/null || cd /\n{script}"]
        mounts = 'mount --bind "$0" "$1/mnt"; mount -t proc proc "$1/proc"; shift; exec "$@"'
        mounted = ["sh", "-ec", mounts, lent, str(self.path)] if lent else []
        return called([*mounted, *words])

    def differs(self, script: str, wanted: str | None = None, user: str = NOBODY, lent: str | None = None) -> str | None:
        """What is wrong when such a script must end well, with this output if one is given, or None."""
        done = self.run(script, user, lent)
        if done.returncode == 0 and wanted in (None, done.stdout):
            return None
        return f"status {done.returncode}: {(done.stdout + done.stderr).strip()[-400:]}"

    def has_no_toolchain(self) -> str | None:
        """Neither `rt` nor a Rattle library is in the root."""
        done = self.run("! command -v rt && ! ls /opt/rattle 2> /dev/null")
        return None if done.returncode == 0 else f"it has {done.stdout.strip()}"

    def unpacks(self, archive: Path) -> str | None:
        """tar of the root unpacks the archive, and its binaries have the hashes of PROOF."""
        shutil.copy(archive, self.path / "opt")
        done = called(["chroot", str(self.path), "tar", "-xJf", f"/opt/{archive.name}", "-C", "/opt"])
        (self.path / "opt" / archive.name).unlink()
        if done.returncode != 0:
            return f"tar ended with status {done.returncode}: {done.stderr.strip()}"
        return self.differs("grep -E '^[0-9a-f]{64}  (bin|lib)/' PROOF | sha256sum -c --quiet --strict")

    def first_run(self) -> str | None:
        """The first script splits one page, gives 256 frames back and holds 256."""
        done = self.run("cat examples/first.script; exec bin/thpsplit < examples/first.script")
        lines = done.stdout.removeprefix(FIRST).splitlines()
        lacks = [line for line in TOTALS if line not in lines]
        if done.returncode != 0 or lacks or not done.stdout.startswith(FIRST):
            return f"status {done.returncode}, lacks {lacks}: {(done.stdout + done.stderr)[-400:]}"
        return None

    def glibc(self) -> tuple[int, ...]:
        """The version of the root's glibc."""
        return tuple(map(int, re.findall(r"\d+", self.run("getconf GNU_LIBC_VERSION").stdout)[:2]))

    def needed_glibc(self) -> tuple[int, ...]:
        """The version that the programs need."""
        return max(oldest_glibc(path) for name in COMPILED for path in self.path.glob(f"opt/leversorrel-*/bin/{name}"))

    def programs_name_glibc(self) -> str | None:
        """The programs end with a message that names the version of glibc that they need, and do nothing."""
        needed = ".".join(map(str, self.needed_glibc()))
        for name in COMPILED:
            done = self.run(f"exec bin/{name} --version")
            if done.returncode == 0 or done.stdout or f"version `GLIBC_{needed}' not found" not in done.stderr:
                return f"{name}: status {done.returncode}: {(done.stdout + done.stderr).strip()[-300:]}"
        return None

    def tools_run(self) -> str | None:
        """The tools in Python print version and help."""
        return self.differs(f"for name in {' '.join(TOOLS)}; do bin/$name --version; bin/$name --help; done > /dev/null")

    def programs_run(self) -> str | None:
        """Each program prints its version, and has a manual page and completions."""
        script = """for name in NAMES; do
            case "$(bin/$name --version)" in "$name "[0-9]*) ;; *) echo "$name: another version"; exit 1 ;; esac
            bin/$name --help > /tmp/help; test -s /tmp/help; rm -f /tmp/help
            test -s share/man/man1/$name.1; test -s share/bash-completion/completions/$name; done"""
        return self.differs(script.replace("NAMES", " ".join(PROGRAMS)))

    def links_by_pkg_config(self) -> str | None:
        """A program in C is built by pkg-config with the shared library, and does what the first script does."""
        return self.differs("""room=$(mktemp -d); trap 'rm -rf "$room"' EXIT
            export PKG_CONFIG_PATH=$PWD/lib/pkgconfig LD_LIBRARY_PATH=$PWD/lib
            cc examples/c/first.c $(pkg-config --cflags --libs thp) -o "$room/first"; "$room/first\"""", LINKED)

    def links_by_cmake(self) -> str | None:
        """The same by CMake, with either library."""
        return self.differs(f"""room=$(mktemp -d); trap 'rm -rf "$room"' EXIT
            cp examples/c/first.c "$room"; cat > "$room/CMakeLists.txt" << 'END'\n{CMAKE}END
            cmake -S "$room" -B "$room/out" -DCMAKE_PREFIX_PATH=$PWD > "$room/log" || {{ cat "$room/log"; exit 1; }}
            cmake --build "$room/out" >> "$room/log" || {{ cat "$room/log"; exit 1; }}
            "$room/out/by_thp"; "$room/out/by_static\"""", 2 * LINKED)

    def builds_by_cargo(self) -> str | None:
        """A program in Rust is built by the cargo of this machine, and its assertions hold."""
        cargo = cargo_of_machine()
        if cargo is None:
            raise SkipTest("no cargo here")
        return self.differs(RUST, lent=cargo)

    def follows_readme(self, archive: Path) -> str | None:
        """The lines of README.md, pasted by a user in a folder of his own, unpack the archive, run the first script, and build and run the
        same in C, by pkg-config and by CMake, and in Rust; as root thpwhatif prints its table. Together they are quick."""
        cargo, room = cargo_of_machine(), self.path / "tmp/room"
        lines = readme_lines() if cargo else [line for line in readme_lines() if not line.startswith("cargo ")]
        room.mkdir()
        os.chown(room, *map(int, NOBODY.split(":")))
        shutil.copy(archive, room)
        own = ["cd /tmp/room", "export PATH=/mnt/bin:$PATH CARGO_HOME=/tmp/room/home", *(it for it in lines if not it.startswith("sudo "))]
        began = time.monotonic()
        done = self.run("\n".join(own), lent=cargo)
        wrong = None if done.returncode == 0 else f"status {done.returncode}: {(done.stdout + done.stderr).strip()[-400:]}"
        lacks = [line for line in TOTALS if f"{line}\n" not in done.stdout]
        count, wanted = done.stdout.count(LINKED), 3 if cargo else 2
        wrong = wrong or (f"lacks {lacks}" if lacks else None) or (None if count == wanted else f"{count} programs ran, not {wanted}")
        as_root = [line.removeprefix("sudo ") for line in lines if line.startswith("sudo ")]
        wrong = wrong or self.looks("\n".join(["cd /tmp/room/leversorrel-*/", *as_root]))
        took = time.monotonic() - began
        shutil.rmtree(room)
        print(f"  the {len(lines)} lines took {took:.0f} s", flush=True)
        return wrong or (None if took <= MOST_SECONDS else f"{took:.0f} s, and may take {MOST_SECONDS}")

    def whatif_looks(self) -> str | None:
        """As root, thpwhatif prints its table about the running system."""
        return self.looks("bin/thpwhatif now --all")

    def looks(self, script: str) -> str | None:
        """What is wrong with the table that a script as root prints about the running system. Where even root can't read a process, the
        tool names it, with status 4."""
        done = self.run(f"mount -t proc proc /proc; mount -t sysfs sysfs /sys\n{script}", "0:0")
        if done.returncode == SKIPPED:
            raise SkipTest(done.stderr.strip()[-200:])
        has_unread = done.returncode == INCONCLUSIVE and "\nNOT READ: process " in done.stdout
        is_table = (done.returncode == 0 or has_unread) and "threshold  pages split" in done.stdout
        return None if is_table else f"status {done.returncode}: {(done.stdout + done.stderr).strip()[-400:]}"

    def files(self) -> set[str]:
        """The files of the root, except those that dpkg writes for itself."""
        found = subprocess.run(["find", str(self.path), "-xdev", "-not", "-type", "d", "-printf", "%P\\n"], capture_output=True, text=True,
                               errors="replace", check=True).stdout.splitlines()
        return {name for name in found if not name.startswith(("var/lib/dpkg/", "var/log/", "var/cache/", "opt/", "etc/ld.so.cache"))}

    def packages_come_and_go(self, packages: list[Path], script: str) -> str | None:
        """The packages are installed, a script runs, a program in Rust is built, they are removed, and nothing of them is left."""
        before, room = self.files(), self.path / "tmp/packages"
        room.mkdir(mode=0o755)
        for path in packages:
            shutil.copy(path, room)
        names = " ".join(path.name.split("_")[0] for path in packages)
        cargo = cargo_of_machine()
        wrong = self.differs("dpkg --install /tmp/packages/*.deb", user="0:0") or self.differs(script)
        wrong = wrong or (self.differs(RUST_PACKAGED, lent=cargo) if cargo else None)
        wrong = wrong or self.differs(f"dpkg --purge {names}", user="0:0")
        shutil.rmtree(room)
        left = sorted(self.files() - before)
        return wrong or (f"left: {', '.join(left[:5])}" if left else None)

    def program_packages_are_refused(self, packages: list[Path]) -> str | None:
        """dpkg refuses to configure the package of the programs, since glibc is too old."""
        package = next(path for path in packages if path.name.startswith("thpsplit_"))
        shutil.copy(package, self.path / "tmp")
        done = self.run(f"dpkg --install /tmp/{package.name}", "0:0")
        removed = self.differs("dpkg --purge thpsplit", user="0:0")
        (self.path / "tmp" / package.name).unlink()
        is_refused = done.returncode != 0 and "thpsplit depends on libc6 (>=" in done.stderr
        return removed or (None if is_refused else f"status {done.returncode}: {(done.stdout + done.stderr).strip()[-300:]}")


def missing(folder: Path) -> str | None:
    """What this machine lacks, or None."""
    if os.geteuid() != 0:
        return "it needs root"
    tools = {"unshare": "util-linux", "chroot": "coreutils"} | ({} if EXISTING else {"debootstrap": "debootstrap"})
    lacks = [package for tool, package in tools.items() if shutil.which(tool, path="/usr/sbin:/usr/bin:/sbin:/bin") is None]
    if lacks:
        return f"this machine lacks {', '.join(lacks)}"
    return None if len(list(folder.glob(ARCHIVE))) == 1 else f"{folder} has not one archive: `make dist` makes it"


def is_left(folder: Path) -> str | None:
    """What is left of the root: a folder, or a mount in it."""
    mounts = [line.split()[1] for line in Path("/proc/mounts").read_text().splitlines() if line.split()[1].startswith(str(folder))]
    return f"{folder} is left" if folder.exists() else f"mounted: {mounts}" if mounts else None


RUN_ALL = " && ".join(f"{name} --version > /dev/null" for name in PROGRAMS) + " && thpsplit < examples/first.script"
"""A script that runs each packaged program."""

LINK = """room=$(mktemp -d); trap 'rm -rf "$room"' EXIT
cc /usr/share/doc/libthp-dev/examples/first.c $(pkg-config --cflags --libs thp) -o "$room/first"; "$room/first\""""
"""A script that builds a program with the packaged library and runs it."""


class CleanRoot(TestCase):
    """The release in a root of each suite."""

    folder: Path

    @classmethod
    def setUpClass(cls) -> None:
        """Finds the release, or skips the tests."""
        if not RELEASE:
            raise SkipTest("RELEASE=FOLDER names what `make dist` made")
        cls.folder = Path(RELEASE)
        lacks = missing(cls.folder)
        if lacks:
            raise SkipTest(lacks)
        signal.signal(signal.SIGTERM, signal.default_int_handler)

    def check_suite(self, suite: str) -> None:
        """Makes a root, tests the release in it, and removes it."""
        made = tempfile.TemporaryDirectory(prefix="thp-clean-root-", dir="/var/tmp")
        try:
            with made as name:
                self.check_all(Root(Path(name), suite), next(self.folder.glob(ARCHIVE)))
        finally:
            self.assertIsNone(is_left(Path(made.name)))

    def check(self, what: str, test: Callable[[], str | None]) -> None:
        """Makes a test in the root, and continues if it fails or is skipped, which doesn't skip the others."""
        with self.subTest(what):
            try:
                self.assertIsNone(test())
            except SkipTest as why:
                self.assertNotEqual(os.environ.get("STRICT"), "1", why)
                print(f"skipped: {what}: {why}", flush=True)

    def check_all(self, root: Root, archive: Path) -> None:
        """Makes all tests in the root: after the first two, only if the archive was unpacked."""
        packages = [path for path in sorted(self.folder.glob("*.deb")) if "-dbgsym_" not in path.name and "_arm64" not in path.name]
        self.check("no toolchain", root.has_no_toolchain)
        self.assertIsNone(root.unpacks(archive))
        is_old = root.glibc() < root.needed_glibc()
        if is_old:
            self.check("the programs name the glibc that they need", root.programs_name_glibc)
            self.check("the tools in Python", root.tools_run)
        else:
            self.check("the lines of README.md", lambda: root.follows_readme(archive))
            self.check("the first run", root.first_run)
            self.check("programs, manual pages, completions", root.programs_run)
            self.check("thpwhatif now --all", root.whatif_looks)
        self.check("a program in C by pkg-config", root.links_by_pkg_config)
        self.check("a program in C by CMake", root.links_by_cmake)
        self.check("a program in Rust by cargo", root.builds_by_cargo)
        if not packages:
            self.check("packages", lambda: self.skipTest(f"none in {self.folder}: `make deb` makes them"))
        elif is_old:
            own = [path for path in packages if path.name.startswith("libthp")]
            self.check("packages of the library", lambda: root.packages_come_and_go(own, LINK))
            self.check("the package of the programs is refused", lambda: root.program_packages_are_refused(packages))
        else:
            self.check("packages", lambda: root.packages_come_and_go(packages, f"{RUN_ALL}\n{LINK}"))


add_tests(CleanRoot, CleanRoot.check_suite, ((f"the release in {suite}", suite) for suite in SUITES))
