"""What the sources export and require is as listed: handles of each crate, and everything that can read a link of a page.

    python3 tests/surface.py [--store]

A contract can't state that there is no other function. Therefore `tests/stored/surface.txt` lists each public function of the
crates whose tables hold links. Whoever adds one stores it there (`--store`), and confirms that it makes no access to a link
that is not counted.
"""

from __future__ import annotations

import os
import re
import unittest
from pathlib import Path

from fixtures import ROOT

STORED = ROOT / "tests/stored/surface.txt"

WITH_LINKS = ("thp_links", "thp_page")
"""The crates that hold or change the links between pages."""

WITH_THREADS = {"thp_worker", "thp_run"}
"""The libraries that start threads: concurrent workers, and the crates above them."""

ITEM = re.compile(r"^(?:pub )?(?:impl|trait)\b(.*)$")
FUNCTION = re.compile(r"^(\s*)(pub )?(?:const )?fn (\w+)")


def sources(crate: str) -> list[Path]:
    """The files of a crate, without those of its tests."""
    return sorted(path for path in (ROOT / "crates" / crate / "src").rglob("*.rt") if "tests" not in path.parts)


def libraries() -> list[str]:
    """The crates that aren't tests, benchmarks or demonstrations."""
    return [name for name in re.findall(r"^(\w+)(?: \w+)*:", (ROOT / "crates.txt").read_text(), re.M) if name.startswith("thp")]


def holder(head: str) -> str:
    """The type that an `impl`, or the trait that a `trait`, is of."""
    named = re.sub(r"<[^<>]*>", "", re.sub(r"<[^<>]*>", "", head)).split("{")[0]
    named = named.split(" for ")[-1].split(":")[0].split(" where ")[0]
    return named.strip()


def offered(crate: str) -> list[str]:
    """Each public function of a crate: `crate Type name`, a method that a trait requires with the trait's or the type's name."""
    found = []
    for path in sources(crate):
        head = ""
        for line in path.read_text().splitlines():
            item = ITEM.match(line)
            if item:
                head = line
            elif line.startswith("}"):
                head = ""
            function = FUNCTION.match(line)
            if function is None:
                continue
            of_trait = bool(head) and (" for " in head or "trait " in head)
            if function[2] or (of_trait and function[1]):
                kind = ITEM.match(head)
                found.append(" ".join(filter(None, [crate, holder(kind[1]) if kind else "", function[3]])))
    return sorted(found)


def surface() -> str:
    """All that the crates with links export, a line each."""
    return "".join(f"{line}\n" for crate in WITH_LINKS for line in offered(crate))


def handles_in(text: str) -> set[str]:
    """The handles that a text requires by a bound.

    A bound is named alone or after a module; what comes after a type, as in `Quantity::Wait`, is a variant of it.
    """
    return set(re.findall(r"(?:(?<!:)[:+(]|impl|\b[a-z_]\w*::) *(Wait|Net|Processes|Abort|Threads)\b", text))


LOCK = (
    "fn lock(&self, seat: &mut Seat<Node<R>, SeatKnowledge>) -> bool",
    "fn lock<W: Wait>(&self, seat: &mut Seat<Node<R>, SeatKnowledge>, rt: &W) -> bool",
)
"""The lock step of a cell, which returns false if another pass has the node, and one that sleeps until the node is free."""


class Surface(unittest.TestCase):
    """The sources export and require what is listed."""

    def test_handles_are_the_one_line(self) -> None:
        """HANDLES is as it was."""
        self.assertEqual((ROOT / "HANDLES").read_text(), "Handles allowed: Threads, Wait.\n")

    def test_no_library_waits(self) -> None:
        """No library requires `Wait`, `Net`, `Processes` or `Abort` by a bound, and only those that start threads require `Threads`."""
        for crate in libraries():
            with self.subTest(crate=crate):
                bounds = handles_in("\n".join(path.read_text() for path in sources(crate)))
                self.assertLessEqual(bounds, {"Threads"} if crate in WITH_THREADS else set())

    def test_a_mutex_round_the_node(self) -> None:
        """A lock step that sleeps requires the handle `Wait`, which `test_no_library_waits` refuses."""
        text = (ROOT / "crates/thp_cell/src/cell.rt").read_text()
        self.assertEqual(text.count(LOCK[0]), 1, "cell.rt has another lock step")
        self.assertEqual((handles_in(text) & {"Wait"}, handles_in(text.replace(*LOCK))), (set(), {"Wait"}))

    def test_links_of_pages_are_read_as_listed(self) -> None:
        """The crates with links have the public functions that are listed, and no other."""
        if os.environ.get("STORE") == "1":
            STORED.write_text(surface())
        now, stored = set(surface().splitlines()), set(STORED.read_text().splitlines())
        if now != stored:
            self.fail(f"new: {sorted(now - stored)}; gone: {sorted(stored - now)}")
