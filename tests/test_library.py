"""The library for C and for Rust: its parts agree, and it does what the header specifies, on the proved archive.

LIBTHP_C and THPSPLIT name the archive and the program; both execute CASES random scripts (default 200) from SEED (default 1). Without an
archive only the texts are compared. What a machine lacks (a compiler, cargo, valgrind) is named.
"""

from __future__ import annotations

import os
import re
import shutil
import subprocess
import sys
import tempfile
from collections.abc import Callable
from functools import cache
from pathlib import Path
from random import Random
from unittest import TestCase

from command import called
from fixtures import ROOT, add_tests, find_built, require_tool, temporary_folder
from model import Node
from null_pointers import program_text
from random_texts import Script, joined, likely_words, operands, random_shapes, script_of_one
from rust_crates import Crates
from script import Run

sys.path.insert(0, str(ROOT / "release"))

import version as places  # noqa: E402
from protection import weaknesses  # noqa: E402

C = ROOT / "c"

DECLARED = re.compile(r"^([\w ]+?[ *])(thp_\w+)\(([^;{}]*)\);", re.M)
"""A function's declaration in C: its result, its name, its parameters."""

EXPORT = re.compile(r'pub extern "C" fn thp_c_(\w+)\((.*?)\) -> u32', re.S)
"""An export of the proved crate."""

BORROWED = re.compile(r"pub fn (thp_\w+)\((.*?)\) -> ([^;]+);", re.S)
"""A declaration of the crate leversorrel-sys."""

TYPES = {
    "thp_node *": "handle", "uint32_t *": "u32*", "uint64_t *": "u64*", "size_t *": "usize*", "thp_done *": "done",
    "thp_scan *": "scan", "thp_tried *": "tried", "thp_back *": "back", "thp_stats *": "stats", "const uint8_t *": "u8*",
    "const void *": "u8*", "void *": "u8*", "bool": "bool",
    "uint8_t *": "u8*", "uint32_t": "u32", "uint64_t": "u64", "size_t": "usize", "thp_code": "u32", "const thp_allocator *": "allocator",
    "thp_pass *": "pass", "&mut ThpPass": "pass", "*mut thp_pass": "pass", "&mut ThpNode": "handle",
    "thp_check *": "check", "&mut ThpCheck": "check", "*mut thp_check": "check", "*const thp_allocator": "allocator",
    "&mut u32": "u32*", "&mut u64": "u64*", "&mut usize": "usize*", "&mut ThpDone": "done",
    "&mut ScanReply": "scan", "&mut ThpTried": "tried", "&mut BackReply": "back", "&mut ThpStats": "stats", "u32": "u32", "u64": "u64",
    "usize": "usize", "*mut thp_node": "handle", "*mut u32": "u32*", "*mut u64": "u64*", "*mut usize": "usize*",
    "*mut thp_done": "done", "*mut thp_scan": "scan", "*mut thp_tried": "tried", "*mut thp_back": "back", "*mut thp_stats": "stats",
    "*const c_void": "u8*", "*mut c_void": "u8*", "const thp_node *": "const handle", "*const thp_node": "const handle",
    "const thp_pass *": "const pass", "*const thp_pass": "const pass", "thp_page_state *": "page state",
    "&mut ThpPageState": "page state", "*mut thp_page_state": "page state",
}
"""A type in C, in Rattle or in Rust, and one word for it."""

FIELD_TYPES = {
    "uint32_t": "u32", "uint64_t": "u64", "uint64_t[8]": "u64[8]", "void *": "pointer", "u32": "u32", "u64": "u64",
    "[u64; 8]": "u64[8]", "*mut u8": "pointer", "*mut c_void": "pointer",
}
"""The type of a field in C, in Rattle or in Rust, and one word for it."""

STRUCTS = ("done", "scan", "tried", "back", "stats", "page_state", "node", "pass", "check")
"""Each struct of the header without its prefix, except that of functions."""

REPLIES = {"scan": "ScanReply", "back": "BackReply"}
"""The structs that are replies of `thp_node`, by their names there."""

SYS = ROOT / "rust/leversorrel-sys/src/lib.rs"
"""The declarations in Rust."""

HANDLES = {"&mut ThpNode": "node", "&mut ThpPass": "pass", "&mut ThpCheck": "check"}
"""The header's name for the handle of a proved function."""

COUNTING = ("counting", "bool")

OWN = {"thp_node_create": [COUNTING], "thp_cell_create": [("mark", "u64"), COUNTING]}
"""The parameters that `thp.c` adds to those of the header, also where it passes that a node only counts its events."""


def without_comments(text: str) -> str:
    """C without its comments."""
    return re.sub(r"/\*.*?\*/", "", text, flags=re.S)


def of_c(parameters: str) -> list[tuple[str, str]]:
    """The parameters of a C function: name and type."""
    found = []
    for parameter in parameters.split(","):
        match = re.fullmatch(r"(.*?[ *])(\w+)", " ".join(parameter.split()))
        if match:
            found.append((match[2], TYPES[match[1].strip() if "*" not in match[1] else match[1]]))
    return found


def of_rust(parameters: str) -> list[tuple[str, str]]:
    """The parameters of a function in Rattle or Rust; a slice is a pointer and a length, and an allocator is nothing."""
    found = []
    for parameter in parameters.split(","):
        name, _, type_ = (part.strip() for part in parameter.partition(":"))
        if type_ in ("", "Global"):
            continue
        if type_ in ("&[u8]", "&mut [u8]"):
            found += [(name, "u8*"), ("capacity" if "mut" in type_ else "length", "usize")]
        elif type_ == "&mut [u64]":
            found += [(name, "u64*"), ("room", "usize")]
        else:
            found.append((HANDLES[type_] if name == "handle" else name, TYPES[type_]))
    return found


@cache
def header() -> dict[str, list[tuple[str, str]]]:
    """Each function of the header, with its parameters."""
    text = without_comments((C / "thp.h").read_text())
    return {name: of_c(parameters) for _, name, parameters in DECLARED.findall(text)}


def inner() -> dict[str, list[tuple[str, str]]]:
    """The functions of the header that are proved ones after a test of pointers: `thp.c` declares the proved ones."""
    text = without_comments((C / "thp.c").read_text())
    named = {name: of_c(parameters) for _, name, parameters in DECLARED.findall(text) if name.startswith("thp_c_")}
    return {name.replace("thp_c_", "thp_"): parameters for name, parameters in named.items()}


def exports() -> dict[str, list[tuple[str, str]]]:
    """What the proved crate exports."""
    text = "".join(path.read_text() for path in (ROOT / "crates/thp_c/src").glob("*.rt"))
    return {f"thp_{name}": of_rust(parameters) for name, parameters in EXPORT.findall(text)}


def differing(one: dict[str, list[tuple[str, str]]], other: dict[str, list[tuple[str, str]]]) -> str | None:
    """The names that only one of them has, or that have different parameters."""
    wrong = sorted({*one} ^ {*other}) + sorted(name for name in {*one} & {*other} if one[name] != other[name])
    return ", ".join(wrong) or None


def exports_are_declared() -> str | None:
    """thp.c declares the exports of the proved crate, parameter for parameter."""
    return differing(exports(), inner())


def header_is_proved() -> str | None:
    """The header's functions are the proved ones, parameter for parameter, and three of thp.c's own. A const handle is copied first."""
    own = {"thp_strerror", "thp_version", "thp_use_allocator"}
    proved = {name: it + OWN.get(name.removesuffix("_counting"), []) for name, it in header().items() if name not in own}
    known = inner()
    known |= {f"{name}_counting": known[name] for name in OWN}
    return differing({name: [(word, type_.removeprefix("const ")) for word, type_ in it] for name, it in proved.items()}, known)


def names_are_listed() -> str | None:
    """The names that the static library exports are the header's, and so are those of the shared library's list and of Debian's."""
    listed = (C / "names").read_text().split()
    mapped = re.findall(r"(thp_\w+);", without_comments((C / "thp.map").read_text()))
    symbols = re.findall(r"^ (thp_\w+)@", (ROOT / "debian/libthp0.symbols").read_text(), re.M)
    wrong = sorted(name for it in (listed, mapped, symbols) for name in {*it} ^ {*header()})
    return ", ".join(wrong) or None


def crate_is_declared() -> str | None:
    """leversorrel-sys declares the header's functions, parameter for parameter, and has its constants, except those of the version."""
    text = SYS.read_text()
    declared = {name: of_rust(parameters) for name, parameters, _ in BORROWED.findall(text)}
    numbers = dict(re.findall(r"^pub const (THP_\w+): \w+ = ([\w:]+);", text, re.M))
    here = {name: int({"u32::MAX": "4294967295"}.get(number, number).replace("_", "")) for name, number in numbers.items()}
    return differing(declared, header()) or ", ".join(name for name, _ in {*here.items()} ^ {*constants().items()}) or None


def constants() -> dict[str, int]:
    """The header's constants, except those of the version and the largest code."""
    text = without_comments((C / "thp.h").read_text())
    found = re.findall(r"\b(THP_\w+) = (\d+)\b", text) + re.findall(r"#define (THP_M\w+_\w+) (\d+)", text)
    off = [("THP_UNDERUSED_OFF", 2**32 - 1)] if "#define THP_UNDERUSED_OFF UINT32_MAX\n" in text else []
    return {name: int(number) for name, number in [*found, *off] if name != "THP_NO_CODE"}


def codes_agree() -> str | None:
    """A code has the same number in the header and in the proved crate, and each fault of `leversorrel` the code of its name."""
    in_c = {name.replace("_", "").lower(): int(number) for name, number in re.findall(r"THP_(\w+) = (\d+)\b", (C / "thp.h").read_text())}
    in_rust = re.findall(r"^    (\w+) = sys::THP_(\w+),", (ROOT / "rust/src/fault.rs").read_text(), re.M)
    proved = "".join(path.read_text() for path in (ROOT / "crates/thp_capi/src").glob("*codes.rt"))
    in_proved = re.findall(r"(?:Fault|Refusal)::(\w+)\)* => (\d+),", proved)
    replies = (ROOT / "crates/thp_capi/src/replies.rt").read_text()
    effects = re.findall(r"Outcome::(\w+) => (\d),", replies)
    effects += [(f"Try{name}", kind) for name, kind in re.findall(r"Tried::(\w+)[^=]* => \((\d)", replies)]
    lists = re.findall(r"Standing::(\w+)[^=]* => \((\d)", replies)
    effects += [({"Nowhere": "ListNone", "Queued": "ListQueue", "Batch": "ListFlight"}[name], number) for name, number in lists]
    wrong = [name for name, number in [*in_proved, *effects] if in_c.get(name.lower()) != int(number)]
    wrong += [name for name, code in in_rust if name.lower() != code.replace("_", "").lower()]
    found = (len(in_rust), len(in_proved), len(effects))
    return ", ".join(wrong) or (None if found == (29, 24, 10) else f"found are {found}")


def named_fields(text: str, start: str, pattern: str) -> list[tuple[str, str]]:
    """The fields of a struct, name and type, in their order."""
    body = text.partition(start)[2].partition("\n}")[0]
    found = [match.groupdict() for match in re.finditer(pattern, body, re.M)]
    return [(it["name"], FIELD_TYPES.get(it["type"].strip() + (it.get("length") or ""), it["type"])) for it in found]


def structs_agree() -> str | None:
    """Each struct has the same fields, of the same types and in the same order, in the header, the manual page, leversorrel-sys and the
    proved crate."""
    in_c, in_rust = r"^    (?P<type>\w+ ?\*?) ?\b(?P<name>\w+)(?P<length>\[8\])?;", r"^    (?:pub )?(?P<name>\w+): (?P<type>[^,]+),"
    replies = ROOT / "crates/thp_node/src/answers.rt"
    proved = "".join(path.read_text() for path in [*sorted((ROOT / "crates/thp_capi/src").glob("*.rt")), replies])
    page, sys = (ROOT / "docs/libthp.3").read_text(), SYS.read_text()
    wrong = []
    for name in STRUCTS:
        wanted = named_fields((C / "thp.h").read_text(), f"struct thp_{name} {{", in_c)
        proved_name = "Thp" + name.title().replace("_", "")
        places = {"leversorrel-sys": named_fields(sys, f"pub struct thp_{name} {{", in_rust),
                  "the crates": named_fields(proved, f"pub struct {REPLIES.get(name, proved_name)} {{", in_rust)}
        if name not in ("node", "pass", "check"):
            places["docs/libthp.3"] = named_fields(page, f"struct thp_{name} {{", in_c)
        wrong += [f"thp_{name}: {place}" for place, fields in places.items() if not wanted or fields != wanted]
    return ", ".join(wrong) or None


def descriptions_agree() -> str | None:
    """The manual page has each code with its number and the text of thp_strerror, and each limit with its number."""
    enum = (C / "thp.h").read_text().partition("typedef enum thp_code {")[2].partition("}")[0]
    codes = re.findall(r"(THP_\w+) = (\d+)\b", enum)
    texts = dict(re.findall(r'case (THP_\w+): return "([^"]*)";', (C / "thp.c").read_text()))
    page = (ROOT / "docs/libthp.3").read_text()
    wrong = [name for name, number in codes if f'.BR {name} " {number}"\n{texts.get(name)}\n' not in page]
    return ", ".join(wrong + limits_differ(page)) or (None if len({*texts.values()}) == len(codes) else "a text is of two codes")


def limits_differ(page: str) -> list[str]:
    """The limits that have another number in the header than in the model or the manual page."""
    sources = [ROOT / "crates" / name for name in ("thp_history/src/limits.rt", "thp_history/src/shape.rt", "thp_script/src/limits.rt")]
    consts = re.findall(r"pub const (\w+): \w+ = ([\d_]+);", "".join(path.read_text() for path in sources))
    limits = {name.replace("INPUT", "TEXT"): int(number) for name, number in consts}
    limits |= {"MAX_BLOCKS": limits["MAX_NODE_BLOCKS"], "MAX_CELL_CALLERS": limits["MAX_NODE_CALLERS"]}
    defined = re.findall(r"#define THP_(M(?:AX|IN)_\w+) (\d+)", (C / "thp.h").read_text())
    wrong = [name for name, number in defined if limits.get(name) != int(number) or f'.BR THP_{name} " {number}"' not in page]
    return wrong if len(defined) == 7 else ["not seven limits"]


def version() -> str:
    """The version of the library, from the header."""
    return ".".join(re.findall(r"THP_VERSION_(?:MAJOR|MINOR|PATCH) (\d+)", (C / "thp.h").read_text()))


def soname() -> str:
    """The name under which programs find the shared library."""
    return "".join(re.findall(r"^SONAME = (\S+)$", (C / "Makefile").read_text(), re.M))


def symbol_versions() -> list[str]:
    """The versions of the shared library's functions, from the oldest to the newest."""
    return re.findall(r"^(THP_[\d.]+) \{", without_comments((C / "thp.map").read_text()), re.M)


def symbols_are_dated() -> str | None:
    """Debian's list requires of each function the version in which it is new, and none is newer than the header."""
    listed = re.findall(r"^ (\S+)@(THP_(\d+)\.(\d+)) (\S+)$", (ROOT / "debian/libthp0.symbols").read_text(), re.M)
    now = [int(part) for part in version().split(".")]
    wrong = [name for name, symbol, major, minor, needs in listed if not needs.startswith(f"{major}.{minor}.")]
    wrong += [name for name, _, major, minor, _ in listed if [int(major), int(minor)] > now]
    same = sorted({symbol for _, symbol, *_ in listed}) == sorted(symbol_versions())
    return ", ".join(wrong) or (None if same and listed else "versions differ from those of c/thp.map")


def versions_agree() -> str | None:
    """Header, cargo crates and manual page have one version, and Debian's files the soname."""
    wanted = {
        "debian/libthp0.symbols": f"{soname()} libthp{soname().rpartition('.')[2]} #MINVER#",
        "debian/control": f"\nPackage: libthp{soname().rpartition('.')[2]}\n",
    }
    wrong = [name for name, text in wanted.items() if text not in (ROOT / name).read_text()]
    return ", ".join(wrong + places.differing(places.LIBRARY)) or None


def processor_is_named() -> str | None:
    """Everything that describes the library names the level of processor that it needs."""
    named = ("c/thp.h", "docs/libthp.3", "docs/C.md", "debian/control", "rust/README.md", "rust/src/lib.rs",
             "rust/leversorrel-sys/README.md")
    return ", ".join(name for name in named if "x86-64-v2" not in (ROOT / name).read_text().replace("\\-", "-")) or None


def elf_differs(library: Path) -> str | None:
    """What is wrong with a library: its soname, the version of its symbols, memory that stays writable, or names resolved late."""
    name, symbols = soname(), (symbol_versions() or ["THP_"])[-1]
    require_tool("readelf")
    reported = subprocess.run(["readelf", "-dVW", library], capture_output=True, text=True, check=False).stdout
    wanted = {f"soname {name}": rf"\(SONAME\).*\[{re.escape(name)}\]", f"version {symbols}": rf"Name: {re.escape(symbols)}$"}
    return ", ".join(f"not {it}" for it in wanted if not re.search(wanted[it], reported, re.M)) or is_unprotected(library)


def is_unprotected(built: Path) -> str | None:
    """What a library or program lacks of the protection that distributions require."""
    require_tool("readelf")
    return ", ".join(weaknesses(built)) or None


class Built:
    """The library, built from an archive in a folder of its own."""

    def __init__(self, archive: Path, folder: Path) -> None:
        self.archive, self.folder = archive, folder

    def libraries(self) -> str | None:
        """libthp.a and libthp.so are built."""
        return called(["make", "-s", "all", f"ARCHIVE={self.archive}", f"OUT={self.folder}"], C)

    def demos(self) -> str | None:
        """The demos run, with either library."""
        return called(["make", "-s", "demos", f"ARCHIVE={self.archive}", f"OUT={self.folder}"], C)

    def shown_names(self) -> str | None:
        """The shared library exports the header's functions, and the static library has no other global name."""
        for library, words in (("libthp.so", ["-D"]), ("libthp.a", ["-g"])):
            command = ["nm", *words, "--defined-only", str(self.folder / library)]
            reported = subprocess.run(command, capture_output=True, text=True, check=False).stdout
            shown = {line.split()[-1].partition("@")[0] for line in reported.splitlines() if len(line.split()) == 3} - {*symbol_versions()}
            if shown != {*header()}:
                return f"{library}: {sorted(shown ^ {*header()})[:9]}"
        return None

    def header_of_elf(self) -> str | None:
        """The shared library has its soname and version, and is linked with full RELRO."""
        library = self.folder / f"libthp.so.{version()}"
        if not library.is_file():
            return f"no {library.name}"
        return elf_differs(library)

    def wanted_names(self) -> str | None:
        """The shared library needs the C library for memory and moving it only: none of that waits or is a cancellation point."""
        command = ["nm", "-D", "--undefined-only", str(self.folder / "libthp.so")]
        reported = subprocess.run(command, capture_output=True, text=True, check=False).stdout
        asked = {line.split()[-1].partition("@")[0] for line in reported.splitlines() if line.split()[0] == "U"}
        return None if {"malloc", "realloc", "free"} <= asked <= ASKED else f"{sorted(asked ^ ASKED)}"

    def test(self, source: str, compiler: str, words: list[str], under: list[str]) -> str | None:
        """Builds a test in C with a compiler and these arguments, and runs it."""
        name = Path(source).stem
        own = [word for word in words if word.startswith("-fsanitize")]
        c_compiler = {"g++": "gcc", "clang++": "clang"}.get(compiler, compiler)
        room = Path(tempfile.mkdtemp(dir=self.folder))
        wrong = called([c_compiler, "-std=c11", "-g", "-O1", *own, "-c", "thp.c", "-o", room / "thp.o"], C)
        if wrong is None:
            language = ["-x", "c++"] if "++" in compiler else ["-x", "c"]
            from_source = [*language, source, "-x", "none"]
            flags = ["-pthread", "-g", "-O1", "-Wall", "-Wextra", "-Werror", "-I."]
            wrong = called([compiler, *words, *flags, *from_source, room / "thp.o", self.archive, "-o", room / name], C)
        return wrong or called([*under, room / name], room, TSAN_OPTIONS=f"suppressions={C / 'tsan.supp'}")

    def null_pointers(self) -> str | None:
        """Each call returns THP_NULL for each pointer that is null."""
        source = self.folder / "null_pointers.c"
        source.write_text(program_text((C / "thp.h").read_text()))
        return self.test(str(source), "gcc", ["-std=gnu11", "-Wno-nonnull", *SANITIZED], [])

    def suppressed(self) -> str | None:
        """The suppressions suffice for the demo of a cell, with either library; the shared one as packages have it."""
        place = Path(tempfile.mkdtemp(dir=self.folder))
        shutil.copy(self.folder / "libthp.so", place / soname())
        wrong = called(["strip", "--strip-unneeded", place / soname()], place)
        build = ["gcc", *RACING, "-g", "-O1", "-I.", "demos/cell.c", "-pthread", "-o", str(place / "cell")]
        for library in (place / soname(), self.folder / "libthp.a"):
            wrong = wrong or called([*build, library, f"-Wl,-rpath,{place}"], C)
            wrong = wrong or called([place / "cell"], place, TSAN_OPTIONS=f"suppressions={C / 'tsan.supp'}")
        return wrong

    def documents(self) -> str | None:
        """doxygen has no warning about the header."""
        config = self.folder / "Doxyfile"
        config.write_text(f"@INCLUDE = Doxyfile\nOUTPUT_DIRECTORY = {self.folder}\n")
        return called(["doxygen", config], C)

    def installed(self) -> str | None:
        """The installed library is found by pkg-config, CMake and man, also after a move, and is removed completely."""
        place, moved = self.folder / "place", self.folder / "moved"
        words = [f"ARCHIVE={self.archive}", f"OUT={self.folder}", f"PREFIX={place}", "LIBDIR=lib/many"]
        wrong = called(["make", "-s", "install", *words], C)
        shutil.copytree(place, moved, symlinks=True)
        wrong = wrong or called(["make", "-s", "uninstall", *words], C)
        left = [str(path) for path in place.rglob("*") if not path.is_dir()]
        return wrong or (f"left are {left}" if left else None) or found_by_man(moved) or self.found(moved)

    def found(self, place: Path) -> str | None:
        """What is wrong when pkg-config and CMake find an installed library, and the first demo is built with it."""
        require_tool("pkg-config")
        build = """cc demos/first.c $(pkg-config --cflags --libs thp) -o $OUT/found && LD_LIBRARY_PATH=$PLACE/lib/many $OUT/found &&
            test "$(pkg-config --modversion thp)" = "$VERSION" && test -f "$(pkg-config --variable=suppressions thp)"
            """
        paths = {"PKG_CONFIG_PATH": str(place / "lib/many/pkgconfig"), "OUT": str(self.folder), "PLACE": str(place), "VERSION": version()}
        return called(["sh", "-ec", build], C, **paths) or self.found_by_cmake(place)

    def found_by_cmake(self, place: Path) -> str | None:
        """The same by CMake, which also refuses a library that is older than asked for."""
        require_tool("cmake")
        source, out = Path(tempfile.mkdtemp(dir=self.folder)), Path(tempfile.mkdtemp(dir=self.folder))
        (source / "CMakeLists.txt").write_text(CMAKE_USE.replace("DEMO", str(C / "demos/first.c")))
        configure = ["cmake", "-S", str(source), "-B", str(out), f"-Dthp_DIR={place / 'lib/many/cmake/thp'}"]
        wrong = called([*configure, f"-DWANTED={version()}"], source) or called(["cmake", "--build", out], source)
        wrong = wrong or called([out / "shared"], out) or called([out / "static"], out)
        major = int(version().split(".")[0])
        newer = called([*configure, f"-DWANTED={major}.999"], source)
        return wrong or (None if newer else "CMake took a library that is too old")

    def random_sequences(self) -> str | None:
        """The cargo crates have the program's results for random sequences of calls, and the same journals and numbers."""
        more = {"THP_PROGRAM": str(find_built("THPSPLIT")), "THP_CASES": str(CASES // 2), "THP_SEED": str(SEED)}
        return Crates(self.folder).cargo("test", "--test", "random", more=more)

    def replay(self) -> Path:
        """A program that replays a script by the library."""
        replay = self.folder / "replay"
        wrong = called(["cc", "-std=c11", "-O1", "-I.", "tests/replay.c", self.folder / "libthp.a", "-o", replay], C)
        assert wrong is None, wrong
        return replay

    def many_batches(self) -> str | None:
        """Batches of several callers on one node, through nodes and through passes, agree with a plain reading of the model."""
        replay = self.replay()
        found = ((case, differs_on_batches(replay, Random(f"batches {SEED} {case}"))) for case in range(CASES))
        return next((f"case {case} of seed {SEED}: {wrong}" for case, wrong in found if wrong), None)

    def same_answers(self) -> str | None:
        """The library has the program's answers for random scripts, through nodes and through passes of shared ones, and the
        same journals."""
        program, replay = find_built("THPSPLIT"), self.replay()
        for case in range(CASES):
            chance = Random(f"{SEED} {case}")
            script = script_of_one(chance)
            wrong = differs(replay, program, script, script.options(chance))
            if wrong is not None:
                return f"case {case} of seed {SEED}: {wrong}"
        return None


def found_by_man(place: Path) -> str | None:
    """What is wrong when man looks for the page of each function."""
    require_tool("man")
    shown = subprocess.run(["man", "-M", place / "share/man", "-w", "3", *header()], capture_output=True, text=True, check=False)
    if shown.returncode != 0:
        return shown.stderr.strip()[:200]
    pages = {path.resolve().name for path in (place / "share/man/man3").iterdir()}
    return None if pages == {"libthp.3"} else f"{sorted(pages)}"


CMAKE_USE = """cmake_minimum_required(VERSION 3.13)
project(use C)
find_package(thp ${WANTED} REQUIRED)
add_executable(shared DEMO)
target_link_libraries(shared thp::thp)
add_executable(static DEMO)
target_link_libraries(static thp::static)
"""
"""A project that uses the library, for CMake."""


def differs(replay: Path, program: Path, script: Script, options: list[str]) -> str | None:
    """How the library differs from the program on one script: through nodes, and through passes of shared ones."""
    shapes = [f"{order},{'off' if switch is None else switch}" for _, order, switch in script.shapes]
    wanted = b""
    for report in ("answers", "journal")[: 2 if len(shapes) == 1 else 1]:
        ended = subprocess.run([program, *options, "--report", report], input=script.text(), capture_output=True, check=False)
        if ended.returncode != 0:
            return f"the program ended with status {ended.returncode}"
        wanted += ended.stdout
    for way in ("nodes", "passes"):
        command = [str(replay), way, str(script.shapes[0][0]), *shapes]
        ended = subprocess.run(command, input=script.text(), capture_output=True, check=False)
        if ended.returncode != 0:
            return f"by {way}: status {ended.returncode}: {ended.stderr.decode(errors='replace')}"
        if ended.stdout != wanted:
            pairs = zip(ended.stdout.splitlines() + [b"(end)"], wanted.splitlines() + [b"(end)"])
            one, other = next((one, other) for one, other in pairs if one != other)
            return f"by {way}: {one!r} instead of {other!r}"
    return None


def seen_of(node: Node) -> list[str]:
    """What `look` writes of a node: its queue, and the state of each live page."""
    lists = {page: (2, caller) for caller, flight in node.flights.items() for page in flight} | {page: (1, 0) for page in node.queue}
    found = [" ".join(["queue", *map(str, node.queue)])]
    for number, page in sorted(node.live.items()):
        numbers = (page.whole, page.pins, int(page.is_partly), int(page.is_split), *lists.get(number, (0, 0)))
        state = "page {} whole {} pins {} partly {} split {} list {} {} own".format(number, *numbers)
        found.append(" ".join([state, *map(str, page.own)]))
    return found


def differs_on_batches(replay: Path, chance: Random) -> str | None:
    """How the library differs from the model when callers of one node take turns, each with its own open batch."""
    shape = random_shapes(chance, 1)[0]
    run, callers = Run([shape]), sorted(chance.sample(range(64), chance.choice((2, 3, 8))))
    open_by: dict[int, dict[int, list[int]]] = {caller: {} for caller in callers}
    lines: list[str] = []
    seen: dict[int, list[str]] = {}
    for index in range(1, chance.randrange(300) + 1):
        if chance.randrange(20) == 0:
            lines.append("look")
            seen[len(run.answers)] = seen_of(run.nodes[0])
        caller = chance.choice(callers)
        run.batches = open_by[caller]
        word = chance.choice(likely_words(run, 0))
        line = " ".join((word, "0", *operands(chance, word, run.nodes[0])))
        run.line(caller, index, line)
        lines += [f"as {caller}", line]
    for caller in callers:
        run.batches = open_by[caller]
        run.end(caller)
    by_node = [line for at, answer in enumerate([*run.answers, ""]) for line in (*seen.get(at, []), answer)][:-1]
    reported = f"{shape[1]},{'off' if shape[2] is None else shape[2]}"
    for way, answers in (("nodes", by_node), ("passes", run.answers)):
        wanted = joined([*answers, *run.journal()])
        ended = subprocess.run([replay, way, str(shape[0]), reported], input=joined(lines), capture_output=True, check=False)
        if ended.returncode != 0 or ended.stdout != wanted:
            pairs = zip(ended.stdout.splitlines() + [b"(end)"], wanted.splitlines() + [b"(end)"])
            return f"by {way}: {next((pair for pair in pairs if pair[0] != pair[1]), ended.stderr)!r}"
    return None


ASKED = {"malloc", "realloc", "free", "memcpy", "memmove", "memset", "memcmp"}
"""What the library may use of the C library."""

SANITIZED = ["-fsanitize=address,undefined", "-fno-sanitize-recover=all"]

BUILDS = (
    ("gcc", ["-std=c99", "-D_POSIX_C_SOURCE=200809L"]),
    ("gcc", ["-std=c11", "-D_POSIX_C_SOURCE=200809L", *SANITIZED]),
    ("g++", ["-std=c++17", *SANITIZED]),
    ("clang", ["-std=c11", "-D_POSIX_C_SOURCE=200809L", *SANITIZED]),
    ("clang++", ["-std=c++17"]),
)
"""How the tests in C are built."""

TESTS = (
    "tests/calls.c", "tests/checks.c", "tests/refused.c", "tests/interrupted.c", "tests/passes.c", "tests/busy.c", "tests/marks.c",
    "tests/sizes.c", "demos/threads.c", "demos/cell.c",
)

DEMOS = ("demos/first.c", "demos/journal.c")
"""The demos without threads; those with threads are among the tests."""

HOST_WORDS = ("", "a", "two words", "\u00e9\t")
"""Arguments for the test of what a program asks of C."""

RACING = ["-std=gnu11", "-fsanitize=thread"]
"""How tests with threads are built, so that data races are found."""


def host_differs() -> str | None:
    """What is wrong with c/host.c, which the programs of other platforms are linked with: built plainly and with the sanitizers."""
    with tempfile.TemporaryDirectory(prefix="thp-host-") as name:
        program = Path(name) / "host"
        flags = ["-std=gnu11", "-g", "-O1", "-Wall", "-Wextra", "-Werror"]
        for words in (flags, [*flags, *SANITIZED]):
            wrong = called(["gcc", *words, "tests/host.c", "host.c", "-o", program], C)
            wrong = wrong or called([program, *HOST_WORDS], C, ASAN_OPTIONS="allocator_may_return_null=1")
            if wrong:
                return wrong
    return None


class Texts(TestCase):
    """What needs no archive."""


add_tests(Texts, lambda _, check: check(), (
    ("what the proved crate exports is declared", exports_are_declared),
    ("the functions of the header are the proved ones", header_is_proved),
    ("the names that are shown are those of the header", names_are_listed),
    ("leversorrel_sys declares what the header does", crate_is_declared),
    ("codes have one number", codes_agree),
    ("structs have the same fields", structs_agree),
    ("the manual page has each code and limit", descriptions_agree),
    ("versions agree", versions_agree),
    ("the list of symbols of Debian names their versions", symbols_are_dated),
    ("the level of processor is named", processor_is_named),
    ("what the programs of other platforms ask of C", host_differs),
))


class Library(TestCase):
    """What is built from the archive, the tests in C, and the cargo crates."""

    built: Built
    wrong: str | None

    @classmethod
    def setUpClass(cls) -> None:
        """Builds the library, or skips the tests."""
        archive = find_built("LIBTHP_C")
        for tool in ("cc", "make"):
            require_tool(tool)
        cls.built = Built(archive, temporary_folder(cls))
        cls.wrong = cls.built.libraries()

    def check(self, test: Callable[[Built], str | None]) -> str | None:
        """Returns what is wrong with the library, or None."""
        return test(self.built)

    def test_both_libraries_are_built(self) -> None:
        self.assertIsNone(self.wrong)


def build_and_run(source: str, compiler: str, words: list[str], under: tuple[str, ...] = ()) -> Callable[[Built], str | None]:
    """Returns the check of a test in C."""
    return lambda built: built.test(source, compiler, words, [*under])


CASES, SEED = int(os.environ.get("CASES", "200")), int(os.environ.get("SEED", "1"))

# valgrind runs one thread at a time: without fair turns, on an idle machine, one that never blocks keeps all others waiting
VALGRIND = ("valgrind", "-q", "--fair-sched=try", "--error-exitcode=9", "--leak-check=full", "--errors-for-leak-kinds=all")

add_tests(Library, Library.check, (
    ("the libraries show the names of the header", Built.shown_names),
    ("soname, version and protection of the shared library", Built.header_of_elf),
    ("the shared library asks for memory alone", Built.wanted_names),
    ("the demos run", Built.demos),
    *((f"{name} by {compiler} {' '.join(words)}", build_and_run(name, compiler, words)) for compiler, words in BUILDS for name in TESTS),
    *((f"{name} by gcc -fsanitize=thread", build_and_run(name, "gcc", RACING))
      for name in ("demos/threads.c", "demos/cell.c", "tests/interrupted.c", "tests/busy.c", "tests/marks.c")),
    ("each pointer of each call null in turn", Built.null_pointers),
    ("suppressions for the thread sanitizer", Built.suppressed),
    *((f"{name} under valgrind", build_and_run(name, "gcc", ["-std=gnu11"], VALGRIND)) for name in TESTS),
    ("the documents of the header", Built.documents),
    ("what is installed is found", Built.installed),
    ("batches of several callers", Built.many_batches),
    ("random scripts as the program", Built.same_answers),
    ("random sequences in Rust as the program", Built.random_sequences),
))
add_tests(Library, lambda self, test: test(Crates(self.built.folder)), (
    ("the cargo crates", Crates.tests),
    ("clippy on the cargo crates", Crates.are_clean),
    ("the documents of the cargo crates", Crates.documents),
    ("the cargo crates are packed", Crates.are_packed),
    ("the folder that THP_LIB names", Crates.named_folder),
    ("the cargo crates find the library", Crates.find_library),
))
