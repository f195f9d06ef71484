"""Counts words for which plain English has better ones, in all that a user or a contributor reads.

    python3 tests/wording.py [--list] [PATH..]

It reads README.md, CONTRIBUTING.md, docs/, the Makefile's head, the manual pages, the texts of `--help`, c/thp.h, and the doc
comments of crates, of rust/ and of the Python tools; or the given files and folders. Text in backticks and in fenced blocks is
not counted. `--list` prints each place with what to write instead. The status is 1 if there are more places than `MOST`.
"""

from __future__ import annotations

import re
import sys
from pathlib import Path

ROOT = Path(__file__).resolve().parent.parent

MOST = 120
"""The most places there may be: words that are right where they are, such as 'behind' of a place."""

REPLACED = {
    "behind": "after",
    "in front of": "before, at the head of",
    r"t(?:ells?|old)": "returns, reports, states, specifies",
    r"says?|said": "returns, reports, states, specifies",
    r"(?:is|are|was|were) answered|answered by": "returns, the result is",
    r"stands?|stood": "is in, is on, is stored in",
    r"wants?|wanted": "needs, requires",
    r"leads? to": "refers to, holds",
    r"is had|are had": "exists, is available",
    "but for": "except, except for",
    "anew": "again, from scratch",
    "in place of": "instead of",
    r"fronts? of the": "a prefix of",
    r"goes on|go on|went on": "continues",
    r"hand(?:s|ed)? (?:on|out)": "re-exports, passes on",
    r"put together|(?:take|taken|takes) apart": "assembled, joined; dismantled, consumed",
    "made of": "built from, implemented with",
    "by hand": "manually, written out",
    "the kit": "the Rattle toolchain (`rt`)",
    r"plants?|planted": "injected bug, mutant",
    r"growths? of memory": "allocation made to fail",
    r"hasn't|one has to": "does not have; you must",
}
"""Words, each with what to write instead."""

RIGHT = (r"fronts? of the (?:pass|seat|cell|holder)\w*", r"(?:last pass|pass|seat)'s front", r"stands? for", r"says so")
"""Phrases with such a word that are plain: the front of a pass is a term of docs/GLOSSARY.md."""

ALL = re.compile(r"(?<![\w`-])(?:" + "|".join(REPLACED) + r")(?![\w`-])", re.IGNORECASE)
PLAIN = re.compile("|".join(RIGHT), re.IGNORECASE)


def prose(path: Path) -> list[tuple[int, str]]:
    """The lines of a file that are read as text, with their numbers: all of a document, else the doc comments."""
    lines = list(enumerate(path.read_text(errors="replace").split("\n"), 1))
    if path.suffix in (".rt", ".rs"):
        is_help = path.name.endswith("help.rt")
        return [(at, line) for at, line in lines if is_help or re.match(r"\s*//[/!]", line)]
    if path.suffix == ".py":
        return between(lines, '"""', True)
    if path.name == "Makefile":
        return [(at, line) for at, line in lines if line.startswith("# ")]
    if path.suffix == ".md":
        return [(at, line) for at, line in between(lines, "```", False) if not line.startswith("    ")]
    return lines


def between(lines: list[tuple[int, str]], mark: str, is_wanted_inside: bool) -> list[tuple[int, str]]:
    """The lines between two marks, with those that have a mark; or all other lines."""
    found, is_inside = [], False
    for at, line in lines:
        count = line.count(mark)
        if (is_inside or bool(count)) == is_wanted_inside:
            found.append((at, line))
        is_inside ^= count % 2 == 1
    return found


def files() -> list[Path]:
    """All files that are read."""
    globs = ["README.md", "CONTRIBUTING.md", "Makefile", "docs/*.md", "docs/*.[1-9]", "c/thp.h", "crates/thp*/src/**/*.rt",
             "rust/src/*.rs", "rust/README.md", "rust/leversorrel-sys/*.*",
             "rust/leversorrel-sys/src/*.rs", "linux/*/*.py", "linux/README*", "prove.py", "linux/*/README*"]
    return sorted({path for it in globs for path in ROOT.glob(it)})


def places(paths: list[Path]) -> list[str]:
    """Each place with such a word: path, line number, the word, and what to write instead."""
    found = []
    for path in paths:
        for at, line in prose(path):
            text = PLAIN.sub("", re.sub(r"`[^`]*`", "`", line))
            for match in ALL.finditer(text):
                word = next(new for old, new in REPLACED.items() if re.fullmatch(old, match[0], re.IGNORECASE))
                found.append(f"{path.relative_to(ROOT)}:{at}: {match[0]} -> {word}: {line.strip()}")
    return found


def main() -> None:
    """Counts the places, and lists them with `--list`."""
    words = [it for it in sys.argv[1:] if it != "--list"]
    given = [(ROOT / it).resolve() for it in words] or files()
    found = places([at for it in given for at in (sorted(it.rglob("*.rt")) if it.is_dir() else [it])])
    if "--list" in sys.argv:
        print("\n".join(found))
    print(f"{len(found)} places, and there may be {MOST}")
    sys.exit(len(found) > MOST)


if __name__ == "__main__":
    main()
