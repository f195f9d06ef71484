"""The public functions of the crates, and the names of the clauses in their contracts, as the sources write them."""

from __future__ import annotations

import re
from pathlib import Path

ROOT = Path(__file__).resolve().parent.parent

ITEM = re.compile(r"(?:impl|pub trait)\b(?:<[^{]*?>(?= ))? *(.* for )?(\w+)")
"""A line that begins the functions of a type, or of a trait for a type."""

FUNCTION = re.compile(r'( *)(pub )?(?:const )?(extern "C" )?fn (\w+)')
CLAUSE = re.compile(r" *ensures (?:(\w+) )?\{")


def exported(crate: Path) -> set[str]:
    """The names that a library re-exports; for a public module, all that are public in it."""
    names: set[str] = set()
    lib = (crate / "src/lib.rt").read_text()
    for used in re.findall(r"^pub use [\w:]+::(\{[^}]*\}|\w+);", lib, re.M):
        names.update(re.findall(r"\w+", used))
    for module in re.findall(r"^pub mod (\w+);", lib, re.M):
        names.update(re.findall(r"^pub fn (\w+)", (crate / f"src/{module}.rt").read_text(), re.M))
    return names


def clauses(crate: str) -> dict[str, set[str]]:
    """Each public or exported function of a crate, as `name` or `Type::name`, with the names of what it ensures; `-` if one has no name."""
    folder = ROOT / "crates" / crate
    is_library = (folder / "src/lib.rt").is_file()
    names = exported(folder) if is_library else set()
    found: dict[str, set[str]] = {}
    for path in sorted((folder / "src").rglob("*.rt")):
        owner, is_trait, current = "", False, ""
        for line in path.read_text().splitlines():
            item = ITEM.match(line)
            if item:
                owner, is_trait = item[2], bool(item[1]) or line.startswith("pub trait")
            elif line.startswith("}"):
                owner, current = "", ""
            function, clause = FUNCTION.match(line), CLAUSE.match(line)
            if function:
                name = owner if function[1] else function[4]
                is_public = (bool(function[2]) or is_trait) and (name in names or bool(function[3]) or not is_library)
                current = f"{owner}::{function[4]}" if function[1] else function[4]
                current = current if is_public else ""
                if current:
                    found.setdefault(current, set())
            elif clause and current:
                found[current].add(clause[1] or "-")
    return found
