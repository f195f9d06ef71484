"""Lists the definitions that a reader of public functions' contracts has to believe.

    python3 tests/believe.py [CRATE::NAME ..]

From the signature and the clauses of each function (`thp_cell::NodeCell::finish`) it follows every definition that is named: through
the folders `specs` of all crates, the declarations of types, and their views (`impl Model`: what contracts see of a value). It prints
these in an order in which they can be read, each after those that it names, and then how many files, definitions and lines they are;
comments, blank lines and imports are not counted. Views, and names of the standard library and of other crates of the toolchain, are
counted apart. The word `headline` means the calls that together carry it. Without words it prints the counts for `CLAIMED`.
"""

from __future__ import annotations

import re
import sys
from dataclasses import dataclass, field
from functools import cache
from pathlib import Path
from typing import NamedTuple

ROOT = Path(__file__).resolve().parent.parent
CRATES = ROOT / "crates"

HEADLINE = tuple(
    f"thp_cell::{name}" for name in (
        "NodeCell::new", "NodeCell::split", "NodeCell::join", "NodeCell::hold", "NodeCell::release", "NodeCell::keep_node",
        "NodeCell::return_node", "NodeCell::count", "NodeCell::finish", "NodeCell::alloc_page", "NodeCell::gain", "NodeCell::lose",
        "NodeCell::close", "NodeCell::take", "NodeCell::scan", "NodeCell::split_next", "NodeCell::put_back", "Pass::callers",
    )
)
"""The calls whose contracts together are the headline; the calls by name, as `map_sub`, are `gain` and `lose`."""

CLAIMED = (
    "headline", "thp_cell::NodeCell::finish", "thp_node::Node::scan", "thp_check::check", "thp_run::run_program",
    "thp_c::thp_c_pass_take",
)
"""What docs/PROVED.md lists the numbers of."""

NAME = re.compile(r"[A-Za-z_][A-Za-z0-9_]*")
IMPORT = re.compile(r"(?:ghost )?use Rattle\.(\w+)\.specs\.([\w.]+?)\.?(?:\{([^}]*)\}| as (\w+))")
RUST_IMPORT = re.compile(r"^use (\w+)(?:::\w+)*::(?:\{([^}]*)\}|(\w+));", re.M)
DEFINED = re.compile(r"^(?:(?:pub|abbrev|unfoldable|irreducible|record|data) )+([A-Za-z_]\w*|\S*◌\S*)")
TYPE = re.compile(r"(?:pub(?:\(crate\))? )?(?:struct|enum|trait) (\w+)")
VIEW = re.compile(r"impl(?:<.*?>)? Model for (\w+)")


@dataclass
class Definition:
    """A definition: where it is, and its lines without comments."""

    name: str
    path: Path
    lines: list[str] = field(default_factory=list)
    is_view: bool = False


@dataclass
class Source:
    """A file: what it defines by name, and where its imported names come from (crate and module, and the name there)."""

    definitions: dict[str, Definition]
    imports: dict[str, tuple[str, str, str | None]]
    crates: dict[str, str] = field(default_factory=dict)
    """The crate from which code takes a type."""


class Count(NamedTuple):
    """What there is to believe: files, definitions and their lines, views, and names of the toolchain's crates."""

    files: int
    definitions: int
    lines: int
    views: int
    outside: int


def imports_of(text: str) -> dict[str, tuple[str, str, str | None]]:
    """The imported names of a file; a module imported by `as` has no name there."""
    found: dict[str, tuple[str, str, str | None]] = {}
    for crate, module, names, alias in IMPORT.findall(text):
        if alias:
            found[alias] = (crate, module, None)
        for item in names.split(","):
            there, _, here = str(item).strip().partition(" as ")
            if there:
                found[here or there] = (crate, module, there)
    return found


@cache
def spec(path: Path) -> Source:
    """A file of definitions."""
    text = path.read_text()
    definitions: dict[str, Definition] = {}
    current: Definition | None = None
    for line in text.splitlines():
        if not line.strip() or line.lstrip().startswith("--") or line.startswith("use "):
            continue
        match = DEFINED.match(line)
        if match:
            current = definitions.setdefault(match[1], Definition(match[1], path))
        if current:
            current.lines.append(line)
    return Source(definitions, imports_of(text))


def block(lines: list[str]) -> list[str]:
    """The lines of an item that begins with the first of these."""
    if lines[0].rstrip().endswith(";"):
        return lines[:1]
    end = next((place for place, line in enumerate(lines) if line.rstrip() in ("}", ");")), len(lines) - 1)
    return lines[:end + 1]


@cache
def source(path: Path) -> Source:
    """A file of code: the types that it declares; of a type that has a view, the view."""
    text, crate = path.read_text(), path.relative_to(CRATES).parts[0]
    definitions: dict[str, Definition] = {}
    lines = text.splitlines()
    for start, line in enumerate(lines):
        declared, view = TYPE.match(line), VIEW.match(line)
        if declared:
            code = [it for it in block(lines[start:]) if it.strip() and not it.strip().startswith(("//", "#[", "ghost use"))]
            definitions.setdefault(declared[1], Definition(declared[1], path, code))
        elif view:  # contracts see this alone, and no field
            code = [it for it in block(lines[start:]) if it.strip().startswith(("ghost Value", "ghost view"))]
            definitions[view[1]] = Definition(view[1], path, code, is_view=True)
    crates: dict[str, str] = {}
    for there, several, one in RUST_IMPORT.findall(text):
        crates.update({name: crate if there == "crate" else there for name in NAME.findall(several or one)})
    return Source(definitions, imports_of(text), crates)


@cache
def declared_in(crate: str) -> dict[str, Path]:
    """The files in which a crate declares its types."""
    paths = sorted((CRATES / crate / "src").rglob("*.rt"))
    return {name: path for path in paths for name in source(path).definitions}


def file_of(crate: str, module: str) -> Path | None:
    """The file of a module: of definitions, or of code where the module is what the toolchain declares of it."""
    parts = module.split(".")
    if parts[0] not in ("declared", "contracts"):
        path = CRATES / crate / "specs" / f"{parts[0]}.antt"
        return path if path.is_file() else None
    folder, found = CRATES / crate / "src", None
    for part in parts[1:]:
        if (folder / f"{part}.rt").is_file():
            found = folder / f"{part}.rt"
        folder /= part
    return found


def named(lines: list[str], inside: Source) -> list[str]:
    """The names in lines of a file, and its imported operators there; strings apart."""
    text = re.sub(r'"[^"]*"', "", "\n".join(lines))
    operators = [name for name in inside.imports if "◌" in name and all(part in text for part in name.split("◌"))]
    return list(dict.fromkeys([*NAME.findall(text), *operators]))


class Reader:
    """Follows names from definition to definition. `order`: the definitions met, each after those that it names."""

    def __init__(self) -> None:
        self._met: set[tuple[Path, str]] = set()
        self.order: list[Definition] = []
        self.outside: set[tuple[str, str]] = set()

    def follow(self, name: str, inside: Source) -> None:
        """Meets what a name stands for in a file, and all that this names."""
        if name in inside.definitions:
            self.meet(inside.definitions[name])
        elif name in inside.imports:
            crate, module, there = inside.imports[name]
            if not (CRATES / crate).is_dir():
                self.outside.add((crate, there or module))
                return
            target = file_of(crate, module)
            if target is None:
                return
            read = spec(target) if target.suffix == ".antt" else source(target)
            there = there or module.split(".")[-1]
            if module.endswith("TheVariants"):
                there = module.split(".")[-2]
            if there in read.definitions:
                self.meet(read.definitions[there])
            elif target.suffix == ".antt":  # a file that passes names on
                self.follow(there, read)
        elif (CRATES / inside.crates.get(name, "-")).is_dir():
            self.follow_type(name, inside.crates[name])

    def follow_type(self, name: str, crate: str) -> None:
        """Meets a type that a crate declares, or passes on from another."""
        path = declared_in(crate).get(name)
        if path:
            self.meet(source(path).definitions[name])
        else:
            door = CRATES / crate / "src/lib.rt"
            passed = re.findall(r"^pub use (\w+)::\{([^}]*)\};", door.read_text(), re.M) if door.is_file() else []
            for other in [it for it, names in passed if it != crate and name in NAME.findall(names) and (CRATES / it).is_dir()]:
                self.follow_type(name, other)

    def meet(self, definition: Definition) -> None:
        """Meets a definition, once."""
        if (definition.path, definition.name) in self._met:
            return
        self._met.add((definition.path, definition.name))
        inside = spec(definition.path) if definition.path.suffix == ".antt" else source(definition.path)
        for name in named(definition.lines, inside):
            self.follow(name, inside)
        self.order.append(definition)

    def count(self) -> Count:
        """How much was met."""
        own = [it for it in self.order if not it.is_view]
        files = len({it.path for it in self.order})
        return Count(files, len(own), sum(len(it.lines) for it in own), len(self.order) - len(own), len(self.outside))


def contract(function: str) -> tuple[Path, list[str]]:
    """The file of a function, and the lines of its signature and clauses."""
    crate, *owner, name = function.split("::")
    for path in sorted((CRATES / crate / "src").rglob("*.rt")):
        lines, inside = path.read_text().splitlines(), ""
        for start, line in enumerate(lines):
            found = re.match(r"impl\b(?:<.*?>)? (\w+)", line)
            inside = found[1] if found else "" if line == "}" else inside
            if [inside] == (owner or [""]) and re.match(rf"\s*pub (?:extern \"C\" )?fn {name}\b", line):
                end = next(place for place, it in enumerate(lines[start:]) if it.strip() in ("{", "{}") or it.rstrip().endswith(") {"))
                return path, lines[start:start + end]
    sys.exit(f"no public function {function}")


def believed(what: str) -> Reader:
    """All definitions below the contract of a function, or below those of the headline."""
    reader = Reader()
    for function in HEADLINE if what == "headline" else (what,):
        path, lines = contract(function)
        crate, *owner, _ = function.split("::")
        inside = source(path)
        for name in [*named(lines, inside), *owner]:
            reader.follow(name, inside)
            if name not in inside.imports and name in declared_in(crate):  # a type of another file that only its module's path names
                reader.follow_type(name, crate)
    return reader


def count(what: str) -> Count:
    """How much a contract stands on."""
    return believed(what).count()


def main() -> None:
    """Prints the definitions of what is named in the order in which to read them, or the counts of what is claimed."""
    for what in sys.argv[1:]:
        for definition in believed(what).order:
            print(f"{definition.path.relative_to(ROOT)}: {definition.name} ({len(definition.lines)})")
    for what in sys.argv[1:] or CLAIMED:
        files, definitions, lines, views, outside = count(what)
        print(f"{what}: {files} files, {definitions} definitions, {lines} lines; {views} views, {outside} names of the toolchain")


if __name__ == "__main__":
    main()
