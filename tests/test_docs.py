"""Compares the documents with the tree: the paths, crates, functions, clauses, definitions, counts and outputs that they name."""

from __future__ import annotations

import json
import re
import subprocess
import sys
from functools import lru_cache
from pathlib import Path
from typing import Iterable, Iterator
from unittest import TestCase

import explanations
import naming
import outside
import test_rows
import test_workers
import wording
import wrong_programs
from believe import CLAIMED
from believe import count as believed
from contracts import clauses
from fixtures import ROOT, add_tests, require_tool
from test_examples import beside, cases, shown
from toolchain import other_toolchain

MOST_LINES = 120
"""The most lines of README.md."""

MOST_WORDS = 24_000
"""The most words of README.md, CONTRIBUTING.md and docs/*.md together, as `wc -w` counts them."""

MOST_ROWS = 40
"""The most rows of the tables in docs/MAP.md."""

MOST_KERNEL_LINES = {"Python": 10_591, "C": 2_770, "tests": 6_640}
"""The most lines of `linux/`: Python and C outside tests, and both in tests. 540, 270 and 140 of them are for what `thprecord` observes
beside what it infers: functions.bpf.h with what loads it, traced_scans.py, observed.py, queue_laws.py, and their tests."""

DOCUMENTS = ["README.md", "CONTRIBUTING.md", *sorted(str(path.relative_to(ROOT)) for path in ROOT.glob("docs/*.md"))]

KERNEL = {"docs/GLOSSARY.md", "docs/LINUX.md", "docs/WHATIF.md"}
"""Documents whose names in backticks are the kernel's, or other programs', too."""

FOREIGN = {
    "admin", "buildpackage", "cargo", "dpkg", "guide", "Mutex", "plant", "rustc", "spawn_with", "split_huge_page", "transhuge", "try_lock",
}
"""Words in backticks that belong to other projects, or to tools."""

PATH = re.compile(r"`((?:crates|docs|tests|examples|bench|linux|c|rust|debian|completions)/[A-Za-z0-9_./*-]*)`")
PLAIN_PATH = re.compile(r"(?<![\w/`])((?:docs|examples|tests|bench)/[\w/-]+\.[a-z0-9]+)")
LINK = re.compile(r"\]\(([^)#:]+)\)")
CRATE = re.compile(r"`((?:thp|tests|bench|demo)_[a-z_]+|thpsplit|thpcheck|thpdraw)`")
FENCE = re.compile(r"^```.*?^```$", re.M | re.S)
TARGET = re.compile(r"(?:`|^\$ |^)make ([a-z][a-z-]*)", re.M)


def text_of(document: str) -> str:
    """The text of a document."""
    return (ROOT / document).read_text()


def section(document: str, heading: str) -> str:
    """The text below a heading of the second level, up to the next one."""
    return text_of(document).partition(f"\n## {heading}")[2].partition("\n## ")[0]


def table_rows(text: str) -> Iterator[list[str]]:
    """The cells of each row of the tables in a text, without their heads."""
    for line, after in zip(text.splitlines(), [*text.splitlines()[1:], ""]):
        if line.startswith("|") and not line.startswith("|-") and not after.startswith("|-"):
            yield [cell.strip() for cell in line.strip("|").split(" | ")]


@lru_cache(maxsize=None)
def words_of_tree() -> set[str]:
    """Each word in code, definitions, proofs and scripts, and in the names of their files."""
    words: set[str] = set()
    parts = ("src", "specs", "proofs", "must-fail")
    code = [path for path in ROOT.glob("crates/*/**/*") if path.relative_to(ROOT).parts[2] in parts]
    folders = ("tests", "tests/edits/*", "bench", "bench/*", "examples", "debian")
    scripts = [path for folder in folders for path in ROOT.glob(f"{folder}/*")]
    kernel = [path for path in ROOT.glob("linux/*/*") if path.suffix in (".py", ".c")]
    rust = ("rust/src", "rust/tests", "rust/leversorrel-sys", "rust/leversorrel-sys/src")
    library = [path for top in ("c", "c/tests", "c/demos", *rust) for path in ROOT.glob(f"{top}/*.*")]
    tops = [ROOT / name for name in ("Makefile", "crates.txt", "prove.py", "c/Makefile", "docs/thpsplit.5")]
    words.update(path.stem for path in ROOT.glob("docs/**/*"))
    for path in [*code, *scripts, *kernel, *library, *tops]:
        words.update(re.findall(r"\w+", str(path.relative_to(ROOT))))
        if path.is_file() and path != Path(__file__):
            words.update(re.findall(r"\w+", path.read_text(errors="replace")))
    return words


def known_crates() -> set[str]:
    """The crates of crates.txt."""
    return set(re.findall(r"^(\w+)(?: \w+)*:", text_of("crates.txt"), re.M))


def wrong_clauses(functions: str, named: str, ensured: dict[str, set[str]]) -> Iterator[str]:
    """What is wrong with a row: functions that do not exist or have none of the clauses, and clauses that none of them has."""
    owner, found = "", {}
    for name in re.findall(r"`([a-z]\w+|[A-Z]\w+::\w+)`", functions):
        owner = name.partition("::")[0] if "::" in name else owner
        name = f"{owner}::{name}" if owner and f"{owner}::{name}" in ensured else name
        if name in ensured:
            found[name] = ensured[name]
        else:
            yield name
    names = set(re.findall(r"`(\w+)`", named)) or {"-"}
    yield from (f"`{name}` of {functions}" for name in names - {"-"}.union(*found.values()))
    yield from (f"{named} of `{name}`" for name, own in found.items() if not own & (names | {"-"}))


GATE_EDITS = sorted(ROOT.glob("crates/*/must-fail/*.edit"))
OTHER_EDITS = sorted(ROOT.glob("tests/edits/*/*.edit"))


def wrong_bodies() -> list[list[str]]:
    """The rows of the table of wrong bodies: name, what it does, what refuses it."""
    return list(table_rows(section("docs/TESTING.md", "Wrong bodies")))


def count_tests(crate: str) -> int:
    """How many tests a crate has."""
    return sum(path.read_text().count("#[test]") for path in (ROOT / "crates" / crate / "src").rglob("*.rt"))


BELIEVED = re.compile(r"^\| (?:`(thp_\w+(?:::\w+)+)`|the (headline)) ((?:\| \d+ ){5})\|$", re.M)
"""A row of the table of what a reader has to believe: the function, and its counts."""


CONSTANT = re.compile(r"pub const (M(?:AX|IN)_[A-Z]+): \w+ = ([^;]+);")
"""A limit in the sources: its name, and its number or the expression for it."""


def limits() -> dict[str, int]:
    """Each limit of the code by its name."""
    found = {"usize::MAX": 2**64 - 1}
    for name in ("thp_history/src/limits.rt", "thp_history/src/shape.rt", "thp_script/src/limits.rt", "thp_worker/src/limits.rt"):
        for limit, value in CONSTANT.findall((ROOT / "crates" / name).read_text()):
            known, _, less = value.replace("_", "").partition(" - ") if value[0].isdigit() else value.partition(" - ")
            found[limit] = (int(known) if known.isdigit() else found[known]) - int(less or 0)
    return found


class DocumentCase(TestCase):
    """Tests of documents."""

    def check_none(self, wrong: Iterable[str]) -> None:
        """Fails with the names that are wrong, if any."""
        found = sorted(set(wrong))
        if found:
            self.fail(", ".join(found))


class Sizes(TestCase):
    """The documents, and the tools for the running kernel, are short."""

    def test_readme_is_short(self) -> None:
        """README.md is within its lines."""
        self.assertLessEqual(len(text_of("README.md").splitlines()), MOST_LINES)

    def test_documents_are_short(self) -> None:
        """All documents together are within their words."""
        words = {document: len(text_of(document).split()) for document in DOCUMENTS}
        largest = ", ".join(f"{name} {count}" for name, count in sorted(words.items(), key=lambda it: -it[1])[:3])
        self.assertLessEqual(sum(words.values()), MOST_WORDS, largest)

    def test_map_is_short(self) -> None:
        """docs/MAP.md is within its rows."""
        self.assertLessEqual(len(list(table_rows(text_of("docs/MAP.md")))), MOST_ROWS)

    def test_kernel_tools_are_small(self) -> None:
        """The tools for the running kernel are within their lines."""
        lines = dict.fromkeys(MOST_KERNEL_LINES, 0)
        for path in (ROOT / "linux").rglob("*.*"):
            parts = path.relative_to(ROOT).parts
            if path.suffix in (".py", ".c", ".h") and "out" not in parts:
                kind = "tests" if "tests" in parts else "Python" if path.suffix == ".py" else "C"
                lines[kind] += len(path.read_text().splitlines())
        for kind, most in MOST_KERNEL_LINES.items():
            with self.subTest(kind=kind):
                self.assertLessEqual(lines[kind], most)


class Words(DocumentCase):
    """Words and names are plain, and have one meaning."""

    def test_words_are_plain(self) -> None:
        """The words that plain English replaces are rare."""
        self.assertLessEqual(len(wording.places(wording.files())), wording.MOST, "python3 tests/wording.py --list")

    def test_definitions_have_own_names(self) -> None:
        """No name of a definition has two meanings."""
        self.check_none(naming.shared_names())

    def test_reports_are_named(self) -> None:
        """No source has the word that `report` replaces."""
        self.check_none(naming.replaced_words())


class Documents(DocumentCase):
    """What each document names exists."""

    def check_paths(self, document: str) -> None:
        """Each path that a document names or links to is in the tree, except for what is built."""
        text = text_of(document)
        prose = FENCE.sub("", text)
        named = {path: ROOT for path in [*PATH.findall(text), *PLAIN_PATH.findall(prose)] if "/out/" not in path}
        named.update({path: (ROOT / document).parent for path in LINK.findall(prose)})
        self.check_none(path for path, base in named.items() if not list(base.glob(path.replace("NAME", "*").rstrip("/"))))

    def check_targets(self, document: str) -> None:
        """Each target of make that a document names is in the Makefile."""
        targets = set(re.findall(r"^([a-z-]+):", text_of("Makefile"), re.M))
        self.check_none(f"make {name}" for name in TARGET.findall(text_of(document)) if name not in targets)

    def check_names(self, document: str) -> None:
        """Each name in backticks of four letters or more is in the tree."""
        own = {name for row in wrong_bodies() for name in re.findall(r"`(\w+)`", row[0])}
        named = re.findall(r"`([^`\n]+)`", FENCE.sub("", text_of(document)))
        words = {word for text in named for word in re.findall(r"[A-Za-z_]\w{3,}(?![\w*])", text)}
        self.check_none(words - words_of_tree() - FOREIGN - own)

    def check_crates(self, document: str) -> None:
        """Each crate that a document gives definitions or modules of is in crates.txt."""
        named = set(re.findall(r"`crates/(\w+)(?![\w*])", text_of(document)))
        self.check_none(named - known_crates() - {"NAME"})


class Proved(DocumentCase):
    """docs/PROVED.md names the crates, functions, clauses and definitions that exist."""

    def test_crates_are_covered(self) -> None:
        """docs/PROVED.md covers each crate of crates.txt, and its headings name no other."""
        text = text_of("docs/PROVED.md")
        heads = set(CRATE.findall("\n".join(re.findall(r"^## .*$", text, re.M))))
        self.check_none(known_crates() - set(CRATE.findall(text)))
        self.check_none(heads - known_crates())

    def test_clauses_exist(self) -> None:
        """Each public function in the tables of docs/PROVED.md exists, and has the clauses of its row."""
        wrong: list[str] = []
        for part in text_of("docs/PROVED.md").split("\n## ")[1:]:
            heading, _, body = part.partition("\n")
            crates = CRATE.findall(heading) or ["thp_cell"]
            ensured: dict[str, set[str]] = {}
            for crate in crates:
                for name, names in clauses(crate).items():
                    ensured.setdefault(name, set()).update(names)
            for cells in table_rows(body):
                if len(cells) == 3:
                    functions, named = cells[0 if CRATE.findall(heading) else 1], cells[2]
                    wrong += [f"{heading}: {problem}" for problem in wrong_clauses(functions, named, ensured)]
        self.check_none(wrong)

    def test_definitions_exist(self) -> None:
        """Each file of definitions that a document names as CRATE/FILE exists."""
        named = [pair for document in DOCUMENTS for pair in re.findall(r"`((?:thp|tests)_[a-z_]+)/([A-Z]\w+)`", text_of(document))]
        self.check_none(f"{crate}/{file}" for crate, file in named if not (ROOT / f"crates/{crate}/specs/{file}.antt").is_file())

    def test_believed_is_counted(self) -> None:
        """docs/PROVED.md states for each contract of `make believe` how much a reader has to believe."""
        found = BELIEVED.findall(text_of("docs/PROVED.md"))
        rows = {name or other: tuple(map(int, counts.split()[1::2])) for name, other, counts in found}
        for it in CLAIMED:
            with self.subTest(contract=it):
                self.assertEqual(rows.get(it), believed(it))

    def test_toolchain_is_named(self) -> None:
        """The installed toolchain is one of those that docs/PROVED.md names."""
        require_tool("rt")
        self.assertIsNone(other_toolchain())


class Testing(DocumentCase):
    """docs/TESTING.md and docs/PERFORMANCE.md state what the tests have."""

    def test_edits_apply(self) -> None:
        """The text that each mutation test replaces occurs once in its file."""
        wrong = []
        for crate, edit in [(path.parts[-3], path) for path in GATE_EDITS] + [(path.parts[-2], path) for path in OTHER_EDITS]:
            texts: dict[Path, str] = {}
            path, old = ROOT, ""
            for line in edit.read_text().splitlines():
                what, _, text = line.partition(": ")
                if what == "file":
                    path = ROOT / "crates" / crate / text
                    texts.setdefault(path, path.read_text())
                elif what == "old":
                    old = text
                elif what == "new":
                    if texts[path].count(old) != 1:
                        wrong.append(edit.stem)
                    texts[path] = texts[path].replace(old, text)
        self.check_none(wrong)

    def test_wrong_bodies_are_tried(self) -> None:
        """Each mutation test that docs/TESTING.md lists for a wrong body is tried where it states: by the gate, or by `make edits`."""
        table = wrong_bodies()
        self.assertEqual(len(table), 25)
        wrong: list[str] = []
        for body, _, refused_by in table:
            for part in refused_by.split("; "):
                kind, _, named = part.partition(": ")
                edits = {"gate": GATE_EDITS, "edits": OTHER_EDITS}.get(kind)
                names = [word for word in re.findall(r"`(\w+)`", named) if not word.startswith(("thp_", "tests_"))] or [body.strip("`")]
                wrong += [f"{name} ({kind})" for name in names if edits is not None and name not in {edit.stem for edit in edits}]
        self.check_none(wrong)

    def test_counts_are_right(self) -> None:
        """The counts in docs/TESTING.md that can be made without a program are right."""
        text = " ".join(text_of("docs/TESTING.md").split())
        counts = {
            r"gate tries the (\d+) in": len(GATE_EDITS),
            r"and the (\d+) in `tests/edits`": len(OTHER_EDITS),
            r"`tests/test_rows.py` \| (\d+) ": len(test_rows.ROWS),
            r"`thpsplit`: (\d+) calls": len(outside.rows()),
            r"(\d+) wrong programs": len(wrong_programs.WRONG),
            r"(\d+) explained journals": len(explanations.EXPLAINED),
            r"(\d+) scripts of workers": 2 * len(test_workers.SCRIPTS) + len(test_workers.CROWDS),
        }
        counts.update({rf"`{name}` \| (\d+) \|": count_tests(name) for name in known_crates() if count_tests(name)})
        wrong = []
        for pattern, count in counts.items():
            found = re.search(pattern, text)
            if found is None or int(found[1]) != count:
                wrong.append(f"{pattern}: {found[1] if found else 'none'}, and there are {count}")
        sources = "".join(path.read_text() for path in [ROOT / "tests/test_spoilt.py", *ROOT.glob("crates/tests_spoilt/src/*.rt")])
        for cells in table_rows(section("docs/TESTING.md", "Texts, devices")):
            if "spoilt" in cells[-1]:
                wrong += [number for number in cells[1].split("; ") if number.replace(",", "_") not in sources]
        self.check_none(wrong)

    def test_ceilings_are_current(self) -> None:
        """The instructions in docs/PERFORMANCE.md are those of bench/ceilings.json."""
        stored = json.loads(text_of("bench/ceilings.json"))
        text = section("docs/PERFORMANCE.md", "Ceilings")
        kinds = re.findall(r"\w+", next(line for line in text.splitlines() if line.startswith("| |")))
        given = {f"{kind}, {cells[0]}": float(cell) for cells in table_rows(text) for kind, cell in zip(kinds, cells[1:])}
        wanted = {name: values["instructions, M"] for name, values in stored.items()}
        self.check_none(f"{name}: not {count}" for name, count in wanted.items() if abs(given.get(name, 0) - count) > 0.051)


class Programs(DocumentCase):
    """Documents, manual pages and pictures state what the programs and the tree have."""

    def test_limits_are_stated(self) -> None:
        """The limits in `--help` and the manual pages are those of the code."""
        of = limits()
        stated = {
            "crates/thp_cli/src/options.rt": [
                rf"1 to {of['MAX_NODES']}\b", rf"1 to {of['MAX_BLOCKS']}\b", rf"1 to {of['MAX_WORKERS']}\b",
                rf"{of['MIN_ORDER']} to {of['MAX_ORDER']}\b",
            ],
            "crates/thp_cli/src/help.rt": [rf"0 to {of['MAX_BATCH']}\b", rf"{of['MAX_INPUT'] // 2**20} MiB"],
            "docs/thpsplit.1": [
                rf"1 to {of['MAX_NODES']}\b", rf"1 to {of['MAX_BLOCKS']}\b", rf"1 to {of['MAX_WORKERS']}\b",
                rf"{of['MIN_ORDER']} to {of['MAX_ORDER']}\b",
            ],
            "docs/thpsplit.5": [
                rf"0 to {of['MAX_BATCH']}\b", rf"0 to {of['MAX_NODES'] - 1}\b", rf"1 to {of['MAX_BLOCKS']:,}",
                rf"{of['MIN_ORDER']} to {of['MAX_ORDER']}\b", rf"0 to {of['MAX_CALLERS'] - 1}\b",
            ],
        }
        self.check_none(f"{name}: {words}" for name, texts in stated.items() for words in texts if not re.search(words, text_of(name)))

    def test_dialogues_are_true(self) -> None:
        """The output that README.md shows of an example is the stored one."""
        stored = {(tuple(beside(case, "args", "").split()), f"examples/{case.name}"): case for case in cases()}
        for command, output in shown():
            match = re.fullmatch(r"thpsplit(.*?) < (examples/\S+)(; echo \$\?)?", command)
            if match is None:
                continue
            case = stored.get((tuple(match[1].split()), match[2]))
            with self.subTest(command=command):
                self.assertIsNotNone(case, "it isn't an example")
                assert case is not None
                status = beside(case, "status", "0\n") if match[3] else ""
                self.assertEqual(output, beside(case, "stdout", "") + beside(case, "stderr", "") + status)

    def test_packages_are_named(self) -> None:
        """README.md, debian/control and linux/common/helpers.py name the packages of packages.txt that building needs."""
        needed = re.findall(r"^build (\S+)$", text_of("packages.txt"), re.M)
        needed.remove("python3")
        own = [name for name in needed if name not in ("gcc", "make")]  # which each machine has that builds packages
        named = re.findall(r" ([a-z-]+) \[amd64\]", text_of("debian/control"))
        wrong = [f"README.md lacks {name}" for name in needed if not re.search(rf"\b{name}\b", text_of("README.md"), re.I)]
        wrong += [f"linux/common/helpers.py lacks {name}" for name in needed if name not in text_of("linux/common/helpers.py")]
        self.check_none(wrong)
        self.assertEqual(named, own, "debian/control")

    def test_layers_are_current(self) -> None:
        """The picture of the layers is the one that its script draws from crates.txt."""
        command = [sys.executable, "docs/pictures/layers.py", "--check"]
        done = subprocess.run(command, cwd=ROOT, capture_output=True, text=True, check=False)
        self.assertEqual(done.returncode, 0, (done.stdout + done.stderr)[-300:])


add_tests(Documents, Documents.check_paths, ((f"paths of {it}", it) for it in DOCUMENTS))
add_tests(Documents, Documents.check_targets, ((f"targets of {it}", it) for it in DOCUMENTS))
add_tests(Documents, Documents.check_crates, ((f"crates of {it}", it) for it in DOCUMENTS))
add_tests(Documents, Documents.check_names, ((f"names of {it}", it) for it in DOCUMENTS if it not in KERNEL))
