#!/usr/bin/env python3
"""A stand-in for `thpsplit`: the plain reading of the model in tests/model.py. $PLAIN_BUG injects a bug into it.

    unmap-short       a range unmapped is one subpage short
    back-at-head      what is put back joins the queue at its head
    splits-pinned     a pinned page is split
    forgets-free      a free is reported as a stay

The tools run their programs with an environment of their own: `inject_bug` makes a program that sets the variable."""

from __future__ import annotations

import os
import shlex
import sys
from collections.abc import Callable
from pathlib import Path

ROOT = Path(__file__).resolve().parent.parent.parent
sys.path[:0] = [str(ROOT / "tests"), str(ROOT)]
sys.dont_write_bytecode = True

from model import Node  # noqa: E402  (the second opinion of tests/)
from script import RANGE_CALLS, Run, first_illegal  # noqa: E402

from linux.common.script import options_of  # noqa: E402
from linux.common.text import text_lines  # noqa: E402


class UnmapShort(Node):
    def unmap_sub(self, caller: int, number: int, first: int, count: int) -> str:
        return Node.unmap_sub(self, caller, number, first, max(count - 1, 1))


class BackAtHead(Node):
    def scan(self, caller: int, most: int) -> str:
        """Each page put back goes to the head, so several come out turned around."""
        kept: Callable[[int], str] = super().returned

        def returned(caller: int) -> str:
            self.flight(caller).move_to_end(next(reversed(self.flight(caller))), last=False)
            return kept(caller)

        setattr(self, "returned", returned)
        return super().scan(caller, most)


class SplitsPinned(Node):
    def tried(self, caller: int, number: int) -> str:
        page = self.live[number]
        pins, page.pins = page.pins, 0
        try:
            return super().tried(caller, number)
        finally:
            page.pins = pins


class ForgetsFree(Node):
    def lost(self, caller: int, number: int, held: set[int], used: set[int], *words: int | str) -> str:
        """Reports that a page stays though its last unmap frees it."""
        answer = super().lost(caller, number, held, used, *words)
        self.journal[-1] = self.journal[-1].replace(" freed ", " stays ")
        return answer.replace("freed ", "stays ")


BUGS: dict[str, type[Node]] = {
    "unmap-short": UnmapShort, "back-at-head": BackAtHead, "splits-pinned": SplitsPinned, "forgets-free": ForgetsFree,
}


def inject_bug(bug: str, folder: str) -> str:
    """Makes a program with a bug in a folder, and returns its path."""
    path = os.path.join(folder, f"plain-{bug}")
    with open(path, "w", encoding="ascii") as file:
        file.write(f'#!/bin/sh\nPLAIN_BUG={bug} exec {shlex.quote(str(Path(__file__).resolve()))} "$@"\n')
    os.chmod(path, 0o755)
    return path


def report_of(kind: str, text: str, words: list[str], bug: str) -> str:
    """Returns a report on a script: totals, answers or journal."""
    options, node_type = options_of(words), BUGS.get(bug, Node)
    run = Run([(options.blocks, order, switch) for order, switch in zip(options.orders, options.underused)])
    run.nodes = [node_type(node.blocks, node.order, node.underused) for node in run.nodes]
    RANGE_CALLS["unmap"] = node_type.unmap_sub
    sections: list[tuple[int, list[str]]] = []
    for line in text_lines(text):
        first, _, number = line.partition(" ")
        if first in ("setup", "worker"):
            sections.append((int(number or 0), []))
        elif line and not line.startswith("#"):
            sections[-1][1].append(line)
    for section, lines in sections:
        run.section(section, lines)
    report = {"totals": run.totals, "answers": lambda: run.answers, "journal": run.journal}[kind]()
    return "".join(f"{line}\n" for line in report)


def main() -> int:
    text, words = sys.stdin.read(), sys.argv[1:]
    if "--check" in words:
        line = first_illegal(text_lines(text))
        print("legal" if line is None else f"illegal line {line}")
        return int(line is not None)
    kind = words[words.index("--report") + 1] if "--report" in words else "totals"
    sys.stdout.write(report_of(kind, text, words, os.environ.get("PLAIN_BUG", "")))
    return 0


if __name__ == "__main__":
    sys.exit(main())
