#!/usr/bin/env python3
"""The version, in each place that names it.

    release/version.py            prints each place with its number; status 1 if they are not one
    release/version.py NUMBER     writes the number into all of them
    release/version.py tag        prints the text of the release's tag, for `git tag -a vNUMBER -F -`: the head of its part of CHANGELOG.md

A change of crates/thp_cli/src/version.rt needs a new proof of the crates above it.
"""

from __future__ import annotations

import re
import sys
from pathlib import Path

ROOT = Path(__file__).resolve().parent.parent

PROGRAMS = {
    "crates/thp_cli/src/version.rt": r'VERSION: &str = "([\d.]+)"',
    "linux/common/version.py": r'^VERSION = "([\d.]+)"',
    "tests/stored/version.txt": r"^thpsplit ([\d.]+)$",
    "tests/stored/checker_version.txt": r"^thpcheck ([\d.]+)$",
    "tests/stored/drawer_version.txt": r"^thpdraw ([\d.]+)$",
    **{f"docs/{name}": r'^\.TH \w+ \d "[\d-]+" "Leversorrel ([\d.]+)"' for name in (
        "thpcheck.1", "thpdraw.1", "thprecord.1", "thpreplay.1", "thpsplit.1", "thpsplit.5", "thpvm.1", "thpwhatif.1")},
}
"""The version of the programs: each file that has it, and where."""

LIBRARY = {
    "c/thp.h": r'^#define THP_VERSION "([\d.]+)"',
    "docs/libthp.3": r'^\.TH LIBTHP 3 "[\d-]+" "libthp ([\d.]+)"',
    "rust/Cargo.toml": r'^(?:version|leversorrel-sys) = .*"([\d.]+)"',
    "rust/leversorrel-sys/Cargo.toml": r'^version = "([\d.]+)"',
    "rust/Cargo.lock": r'^name = "leversorrel(?:-sys)?"\nversion = "([\d.]+)"',
}
"""The same of the library for C and Rust. A file has the number wherever its pattern matches."""

PARTS = ("MAJOR", "MINOR", "PATCH")
"""The header also has the parts of its version."""


def numbers(places: dict[str, str]) -> dict[str, str]:
    """The number in each place, or nothing where there is none; all of them where a place has several."""
    found = {name: re.findall(pattern, (ROOT / name).read_text(), re.M) for name, pattern in places.items()}
    return {name: " and ".join(dict.fromkeys(it)) for name, it in found.items()}


def of_parts() -> str:
    """The number that the parts in the header make."""
    return ".".join(re.findall(r"^#define THP_VERSION_(?:MAJOR|MINOR|PATCH) (\d+)", (ROOT / "c/thp.h").read_text(), re.M))


def differing(places: dict[str, str]) -> list[str]:
    """The places that have another number than the first one, with what they have."""
    found = numbers(places)
    found.update({"the parts in c/thp.h": of_parts()} if places is LIBRARY else {})
    first = next(iter(found.values()))
    return [f"{name} has {number or 'none'}, not {first}" for name, number in found.items() if number != first or not number]


def write(number: str) -> None:
    """Writes a number into all places."""
    for name, pattern in {**PROGRAMS, **LIBRARY}.items():
        text = (ROOT / name).read_text()
        found = [*re.finditer(pattern, text, re.M)]
        if not found:
            sys.exit(f"{name} has no version")
        for it in reversed(found):
            text = text[: it.start(1)] + number + text[it.end(1):]
        (ROOT / name).write_text(text)
    header = (ROOT / "c/thp.h").read_text()
    for part, value in zip(PARTS, number.split(".")):
        header = re.sub(rf"(#define THP_VERSION_{part}) \d+", rf"\1 {value}", header)
    (ROOT / "c/thp.h").write_text(header)


def tag() -> str:
    """The text of the release's tag, or nothing if CHANGELOG.md doesn't begin with this version, and what it is."""
    number = next(iter(numbers(PROGRAMS).values()))
    first = (ROOT / "CHANGELOG.md").read_text().partition("\n## ")[2]
    head = first.removeprefix(f"{number}\n\n").partition("\n\n")[0]
    return f"leversorrel {number}\n\n{head}\n" if first.startswith(f"{number}\n\n") and not head.startswith("-") else ""


def main() -> None:
    """Prints or writes the version."""
    if sys.argv[1:] == ["tag"]:
        sys.exit(0 if sys.stdout.write(tag()) else 1)
    if sys.argv[1:] and (len(sys.argv) > 2 or not re.fullmatch(r"\d+\.\d+\.\d+", sys.argv[1])):
        sys.exit(__doc__)
    if sys.argv[1:]:
        write(sys.argv[1])
    found = {**numbers(PROGRAMS), **numbers(LIBRARY), "the parts in c/thp.h": of_parts()}
    for name, number in found.items():
        print(f"{number or 'none'} {name}")
    sys.exit(0 if len({*found.values()}) == 1 else 1)


if __name__ == "__main__":
    main()
