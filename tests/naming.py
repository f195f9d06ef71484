"""What tests/test_docs.py checks of names: each definition of `crates/thp*/specs` has its own, and sources use one word for reports."""

from __future__ import annotations

import os
import re
from collections import Counter
from pathlib import Path
from typing import Iterator

from fixtures import ROOT

SHARED: dict[str, str] = {}
"""Names that two definitions may share, each with its reason. At most `MOST_SHARED`."""

MOST_SHARED = 10

DEFINED = re.compile(r"((?:(?:abbrev|unfoldable|pub) )*)(?:(record|data) )?([^\s:(){}=,;]+)(.*)")
SIGNED = re.compile(r" (?:\{[^}]*\} )?:(?: |$)")
OTHER = ("use ", "pub use ", "unfoldable pub use ", "mod ", "pub mod ", "unfolding ", "infix", "open ")


def defined(text: str) -> Iterator[str]:
    """The names that a file of definitions defines, with the constructors of its types, at its top level or in a `module _`."""
    block = ""
    for line in text.splitlines():
        if line and line[0] not in " -":
            block = "module" if line.startswith("module ") else "data" if line.startswith("pub data ") else ""
        if block == "module" and line.startswith("  "):
            line = line[2:]
        elif block == "data" and (constructor := re.match(r"  ([^\s:(){}=,;-]+) :", line)):
            yield constructor[1]
        if not line or line[0] in " -" or line.startswith(OTHER):
            continue
        found = DEFINED.match(line)
        if found and (found[2] or SIGNED.match(found[4])):
            yield found[3]


def shared_names() -> list[str]:
    """Names that several definitions share, except for those in `SHARED`; and those there that no two share."""
    counts: Counter[str] = Counter()
    for path in ROOT.glob("crates/thp*/specs/**/*.antt"):
        counts.update(defined(path.read_text()))
    several = {name for name, count in counts.items() if count > 1}
    return sorted(several ^ set(SHARED)) + ([f"{len(SHARED)} exceptions"] if len(SHARED) > MOST_SHARED else [])


FOLDERS = ("crates", "linux", "c", "rust", "docs", "tests")
BUILT = {"out", "target", "__pycache__"}

FORMS = "(?:old|ell(?:s|ing|able)?)(?![a-z])"
REPLACED = re.compile(rf"(?<![A-Za-z])[tT]{FORMS}|(?<=[a-z])T{FORMS}|(?<![A-Z])T(?:OLD|ELLS?)(?![A-Z])")
"""The word that `report` replaces, in its forms, as a part of a name or on its own."""

TOOLCHAIN = re.compile(r"eqb_tells\b|handle_tells\b|mut_Tells\b")
"""Names of the toolchain with such a word."""


def sources() -> Iterator[Path]:
    """The files of sources, without what is built."""
    for folder in FOLDERS:
        for top, folders, files in os.walk(ROOT / folder):
            folders[:] = [name for name in folders if name not in BUILT]
            yield from (Path(top, name) for name in files)


def replaced_words() -> list[str]:
    """The files with such a word, in their text or their path."""
    found = []
    for path in sources():
        name = str(path.relative_to(ROOT))
        text = f"{name} {path.read_text(errors='replace')}"
        if re.search("t(?:ell|old)", text.lower()) and REPLACED.search(TOOLCHAIN.sub("", text)):
            found.append(name)
    return sorted(found)
