"""Bugs in the parts of the library that no proof sees: each is injected into a copy of the tree, where a test must refuse it.

LIBTHP_C names the archive; THOROUGH=1 asks for these tests. The bugs are in the header, the texts of codes, the mark of cells, the
build, the cargo crates, and the Debian packages, which are built with stand-ins for the programs; tests/test_wrong_boundary.py has those
of the readers and creates.
"""

from __future__ import annotations

import os
import re
import shutil
import subprocess
import sys
from collections.abc import Callable
from dataclasses import dataclass
from functools import partial
from pathlib import Path
from unittest import SkipTest, TestCase

from fixtures import ROOT, add_tests, find_built, require_thorough, require_tool, temporary_folder

SECONDS = 300
"""The greatest time that one command may take."""

UNREAD = r"crates/[^/]+/(?:proofs|specs|must-fail)/|bench/|linux/(?:.*/)?tests/|.*\.svg$"
"""What no test needs of the tree here."""


@dataclass(frozen=True)
class Bug:
    """What is wrong, the file that has it, texts that are there once and what replaces them, and the test that must refuse it."""

    name: str
    file: str
    edits: tuple[tuple[str, str], ...]
    test: str

    def injected(self, text: str) -> str:
        """The text of the file with the bug."""
        for old, new in self.edits:
            assert text.count(old) == 1, f"{self.name}: {text.count(old)} times {old}"
            text = text.replace(old, new)
        return text


def bug(name: str, file: str, old: str, new: str, test: str) -> Bug:
    """A bug of one edit."""
    return Bug(name, file, ((old, new),), test)


HEADER, SOURCE, MAKE, RUST, SYS = "c/thp.h", "c/thp.c", "c/Makefile", "rust/src", "rust/leversorrel-sys/src"
GIVEN = "    uint64_t frames_given;         /**< frames given back */\n"
HELD = "    uint64_t frames_held;          /**< frames that the live pages hold */\n"
ATOMIC = "__atomic_fetch_add(&next_mark, 1, __ATOMIC_RELAXED);"
CREATE = "\n    return (thp_code)thp_c_cell_create(pass, blocks, order, underused, callers, mark, "
CONTROL, RULES, PRE = "debian/control", "debian/rules", "Pre-Depends: ${misc:Pre-Depends}\n"
LENT, BATCH = "pub fn batch(&mut self, caller: u32, n: u32) -> Result<Batch<'_, {}>, Fault> {{", "Ok(Batch::new(self, caller, taken))"

BUGS = (
    bug("two fields of thp_stats are swapped", HEADER, GIVEN + HELD, HELD + GIVEN, "texts"),
    bug("a field of thp_scan is 64 bits", HEADER, "    uint32_t taken;   /**<", "    uint64_t taken;   /**<", "texts"),
    Bug("two texts of codes are swapped", SOURCE, (('"no such page"', '"?"'), ('"bad range"', '"no such page"'), ('"?"', '"bad range"')),
        "texts"),
    bug("a constant of the crate is another", f"{SYS}/lib.rs", "THP_TRY_PINNED: u32 = 2;", "THP_TRY_PINNED: u32 = 3;", "texts"),
    bug("the crate declares another type", f"{SYS}/lib.rs", "order: u32, underused: u32) -> thp_code;\n    /// Creates a node that",
        "order: u64, underused: u32) -> thp_code;\n    /// Creates a node that", "texts"),
    bug("a fault of the crate has another code", f"{RUST}/fault.rs", "Gone = sys::THP_GONE", "Gone = sys::THP_NULL", "texts"),
    bug("the mark has 8 bits", SOURCE, "static uint64_t next_mark", "static uint8_t next_mark", "marks"),
    bug("the mark has 16 bits", SOURCE, "static uint64_t next_mark", "static uint16_t next_mark", "marks"),
    bug("the mark of a cell is counted without atomics", SOURCE, f"{ATOMIC}{CREATE}false", f"next_mark++;{CREATE}false", "races"),
    bug("the mark of a counting cell is counted without atomics", SOURCE, f"{ATOMIC}{CREATE}true", f"next_mark++;{CREATE}true",
        "races"),
    bug("the soname is the file's name", MAKE, "-soname,$(SONAME)", "-soname,libthp.so.$(VERSION)", "elf"),
    bug("no RELRO", MAKE, "-Wl,-z,relro", "-Wl,-z,norelro", "elf"),
    bug("names are resolved late", MAKE, "-Wl,-z,now", "-Wl,-z,lazy", "elf"),
    bug("the stack is executable", MAKE, "-Wl,-z,noexecstack", "-Wl,-z,execstack", "elf"),
    bug("the file of pkg-config has another version", "c/thp.pc.in", "Version: @VERSION@", "Version: 0.0.1", "installed"),
    *(bug(f"{name} has no Drop", f"{RUST}/{name.lower()}.rs", f"unsafe {{ sys::thp_{name.lower()}_destroy(&mut self.handle) }};", "",
          "memory") for name in ("Node", "Pass", "Check")),
    *(bug(f"{name} is Sync", f"{RUST}/{name.lower()}.rs", f"unsafe impl Send for {name} {{}}\n",
          f"unsafe impl Send for {name} {{}}\nunsafe impl Sync for {name} {{}}\n", "documents") for name in ("Node", "Pass", "Check")),
    *(Bug(f"a batch of a {name} has no lifetime", f"{RUST}/{name.lower()}.rs",
          ((LENT.format(name), LENT.format(name).replace("batch(", "batch<'a>(").replace("'_", "'a")),
           (BATCH, f"Ok(Batch::new(unsafe {{ &mut *(self as *mut {name}) }}, caller, taken))")), "documents") for name in ("Node", "Pass")),
    bug("a batch that is dropped stays open", f"{RUST}/batch.rs", "        if self.is_open {\n", "        if false {\n", "calls"),
    bug("a batch is put back twice", f"{RUST}/batch.rs", "                self.is_open = false;\n", "", "calls"),
    bug("a batch is abandoned and put back", f"{RUST}/batch.rs", "        self.is_open = false;\n        self.of.abandon(self.caller)",
        "        self.of.put_back(self.caller).map(|_| ())", "calls"),
    bug("lack of memory is a verdict", f"{RUST}/lib.rs", "                Fault::OutOfMemory => Err(Fault::OutOfMemory),\n", "", "memory"),
    bug("a lost check panics", f"{RUST}/check.rs", "LOST => Err(Fault::OutOfMemory),\n            code => Verdict",
        "LOST => panic!(),\n            code => Verdict", "memory"),
    bug("the tools are packaged without python3", CONTROL, "Depends: python3, thpsplit", "Depends: thpsplit", "packages"),
    bug("the programs are packaged without the C library", CONTROL, "Depends: ${shlibs:Depends}, ${misc:Depends}\nSuggests",
        "Depends: ${misc:Depends}\nSuggests", "packages"),
    bug("the library is packaged without the C library", CONTROL, f"{PRE}Depends: ${{shlibs:Depends}}, ", f"{PRE}Depends: ", "packages"),
    bug("the header is packaged without the library", CONTROL, "Depends: libthp0 (= ${binary:Version}), ", "Depends: ", "packages"),
    bug("the packaged library has another version", RULES, "-- -v$(LIBRARY)\n", "-- -v0.0.1\n", "packages"),
    bug("programs are installed beside any version of the library", RULES, "-V'libthp0 (>= $(LIBRARY))'", "-V'libthp0'", "packages"),
    bug("the library is packaged without its soname", "debian/libthp0.install", "libthp.so.*", "libthp.so.*.*", "packages"),
)
"""All of them."""

STAND_IN = "#include <stdio.h>\nint main(void) { return puts(\"\") < 0; }\n"
"""The source of a stand-in for a program."""


class InjectedBugs(TestCase):
    """A copy of the tree without bugs, with the library in `built`; a test of it must refuse each bug."""

    archive: Path
    folder: Path
    tree: Path
    built: Path

    @classmethod
    def setUpClass(cls) -> None:
        """Makes the copy and builds the library."""
        require_thorough()
        require_tool("git")
        if not (ROOT / ".git").exists():
            raise SkipTest("no checkout of git")
        cls.archive, cls.folder = find_built("LIBTHP_C"), temporary_folder(cls)
        cls.tree, cls.built = cls.folder / "tree", cls.folder / "built"
        command = ["git", "ls-files", "-co", "--exclude-standard"]
        for name in subprocess.run(command, cwd=ROOT, capture_output=True, text=True, check=True).stdout.splitlines():
            if (ROOT / name).is_file() and not re.match(UNREAD, name):
                (cls.tree / name).parent.mkdir(parents=True, exist_ok=True)
                shutil.copy(ROOT / name, cls.tree / name)
        cls.built.mkdir()
        cls.ends("make", "-s", "-C", "c", "all", f"ARCHIVE={cls.archive}", f"OUT={cls.built}")

    @classmethod
    def ends(cls, *command: str | Path, where: str = "", **more: str) -> bool:
        """Whether a command in the copy ends well."""
        if not Path(command[0]).exists():
            require_tool(str(command[0]))
        own = {"THP_LIB": str(cls.built), "TSAN_OPTIONS": f"suppressions={cls.tree}/c/tsan.supp", "LIBTHP_C": str(cls.archive)}
        try:
            done = subprocess.run([str(word) for word in command], cwd=cls.tree / where, env={**os.environ, **own, **more}, timeout=SECONDS,
                                  capture_output=True, check=False)
        except subprocess.TimeoutExpired:
            return False
        return done.returncode == 0

    def of_file(self, name: str, *tests: str, **more: str) -> bool:
        """Whether tests of a file pass, and none is skipped."""
        return self.ends(sys.executable, "tests/run.py", "-p", name, *(word for it in tests for word in ("-k", it)), STRICT="1", **more)

    def packages(self) -> bool:
        """Whether tests of the Debian packages pass."""
        require_tool("dh")
        stand_in, source = self.folder / "program", self.folder / "program.c"
        source.write_text(STAND_IN)
        self.ends("cc", "-g", source, "-o", stand_in)
        return self.of_file("test_package.py", "versions", "requirements", "needs", THPSPLIT=str(stand_in), THPCHECK=str(stand_in),
                            THPDRAW=str(stand_in))

    def marks(self, *flags: str) -> bool | None:
        """Whether cells are distinguished; None if the test isn't built."""
        program = self.built / "marks"
        words = ["gcc", "-std=gnu11", "-O1", "-I.", *flags, "tests/marks.c", "thp.c", str(self.archive), "-pthread", "-o", str(program)]
        return self.ends(program) if self.ends(*words, where="c") else None

    def crates(self, *words: str) -> bool | None:
        """Whether tests of the crates pass; None if these aren't built."""
        cargo = ["cargo", "test", "--offline", "--quiet", "--target-dir", str(self.built / "cargo")]
        is_built = self.ends(*cargo, "--no-run", where="rust")
        return self.ends(*cargo, *words, where="rust") if is_built else None

    def passes(self, test: str) -> bool | None:
        """Whether a test passes on the copy; None if it isn't built."""
        tests: dict[str, Callable[[], bool | None]] = {
            "texts": partial(self.of_file, "test_library.py", "Texts"), "elf": partial(self.of_file, "test_library.py", "soname"),
            "installed": partial(self.of_file, "test_library.py", "what_is_installed"),
            "packages": self.packages, "marks": self.marks, "races": partial(self.marks, "-fsanitize=thread"),
            "documents": partial(self.crates, "--doc"),
            "memory": partial(self.crates, "--test", "memory"), "calls": partial(self.crates, "--test", "node", "--test", "pass"),
        }
        return tests[test]()

    def fails_without_bug(self, test: str) -> str | None:
        """Returns what is wrong where a test fails without a bug."""
        return None if self.passes(test) else "the test fails"

    def survives(self, wrong: Bug) -> str | None:
        """What is wrong where the test of a bug passes with it."""
        path = self.tree / wrong.file
        text = path.read_text()
        path.write_text(wrong.injected(text))
        try:
            return {True: "no test refuses it", False: None, None: "it isn't built"}[self.passes(wrong.test)]
        finally:
            path.write_text(text)


add_tests(InjectedBugs, InjectedBugs.fails_without_bug, ((f"{test} without a bug", test) for test in dict.fromkeys(it.test for it in BUGS)))
add_tests(InjectedBugs, InjectedBugs.survives, ((f"refused: {it.name}", it) for it in BUGS))
