"""Texts with an error at one place: each prefix of the rows' scripts and journals, and each of their bytes set to others.

The expected result of each text (its first error; otherwise the totals, or the verdict) is computed by texts.py and script.py,
which share no code with the program. The number of texts, and the number of those with an error, is known beforehand.
"""

from __future__ import annotations

import os
import subprocess
from functools import partial
from multiprocessing.pool import Pool
from pathlib import Path
from typing import Callable, Iterator, Optional

from faulty_texts import ILLEGAL
from fixtures import ProgramCase, add_tests
from process import SECONDS, Ended
from script import Run, Shape, first_illegal
from test_rows import ROWS, Row, lines
from texts import Fault, journal_fault, script_fault

VALUES = (0, 0xFF, ord("\n"), ord(" "))
"""The values that bytes are set to: two that occur in no text, and the two that separate lines and words."""

Spoil = Callable[[bytes], Iterator[bytes]]
Work = tuple[tuple[str, ...], bytes, Ended]
"""Words of the command line, a text, and the expected end of the run."""


def options(row: Row) -> dict[str, str]:
    """The options of a row, by name."""
    words = row.words.split()
    return {name.lstrip("-"): value for name, value in zip(words[::2], words[1::2])}


def shapes(row: Row) -> list[Shape]:
    """The nodes of a row."""
    given = options(row)
    nodes = int(given.get("nodes", 1))
    orders = given.get("orders", ",".join(["9"] * nodes)).split(",")
    switches = given.get("underused", ",".join(["off"] * nodes)).split(",")
    blocks = int(given.get("blocks", 16))
    return [(blocks, int(order), None if it == "off" else int(it)) for order, it in zip(orders, switches)]


def fails_with(fault: Fault) -> Ended:
    """The end of a run whose text has this first error."""
    return Ended(2, b"", fault.message())


def of_script(row: Row, text: bytes) -> Work:
    """A script with a row's options, and its first error or its totals."""
    fault = script_fault(text, len(shapes(row)), int(options(row).get("workers", 1)))
    if fault is not None:
        return (tuple(row.words.split()), text, fails_with(fault))
    run = Run(shapes(row))
    run.text(text.decode())
    return (tuple(row.words.split()), text, Ended(0, "".join(f"{line}\n" for line in run.totals()).encode()))


def of_journal(text: bytes) -> Work:
    """A journal, and its first error or its verdict."""
    fault = journal_fault(text)
    if fault is not None:
        return (("--check",), text, fails_with(fault))
    line = first_illegal(text.decode().split("\n")[:-1])
    wanted = Ended(0, b"legal\n") if line is None else Ended(1, f"illegal line {line}\n".encode())
    return (("--check",), text, wanted)


def journals() -> Iterator[bytes]:
    """The journals of the rows, and some that are illegal."""
    for row in ROWS:
        run = Run(shapes(row))
        run.text(lines(row.script).decode())
        yield "".join(f"{line}\n" for line in run.journal()).encode()
    yield from (text + b"end\n" for text, _ in ILLEGAL[::8])


def prefixes(text: bytes) -> Iterator[bytes]:
    """Each prefix of a text, without the whole."""
    return (text[:count] for count in range(len(text)))


def set_bytes(text: bytes) -> Iterator[bytes]:
    """A text with each of its bytes in turn set to each of the values."""
    return (text[:place] + bytes([value]) + text[place + 1 :] for place in range(len(text)) for value in VALUES)


def ended(program: Path, words: tuple[str, ...], text: bytes) -> Ended:
    """A run of the program on a text that fits into a pipe, as do its outputs."""
    reader, writer = os.pipe()
    os.write(writer, text)
    os.close(writer)
    # (what a process of this script has open, all of it, is its own)
    child = subprocess.Popen(
        [program, *words], stdin=reader, stdout=subprocess.PIPE, stderr=subprocess.PIPE, close_fds=False
    )
    os.close(reader)
    try:
        reported = child.communicate(timeout=SECONDS)
    except subprocess.TimeoutExpired:
        child.kill()
        return Ended(-9, *child.communicate())
    return Ended(child.returncode, *reported)


def wrong(program: Path, work: Work) -> Optional[str]:
    """How the result differs from the expected one, or None."""
    words, text, wanted = work
    differs = ended(program, words, text).differs_from(wanted)
    return None if differs is None else f"{' '.join(words)} on {text!r}: {differs}"


def scripts(spoil: Spoil) -> Iterator[Work]:
    """The scripts of the rows, spoilt."""
    return (of_script(row, text) for row in ROWS for text in spoil(lines(row.script)))


def checks(spoil: Spoil) -> Iterator[Work]:
    """The journals, spoilt."""
    return (of_journal(text) for journal in journals() for text in spoil(journal))


Texts = tuple[Callable[[Spoil], Iterator[Work]], Spoil, int, int]
"""What is spoilt and how, the number of texts, and the number of those with an error."""


class Spoilt(ProgramCase):
    """The program reports the first error of each text, or its result."""

    def check(self, row: Texts) -> Optional[str]:
        """Returns what is wrong with the number of texts, or with the first run that differs; or None."""
        make, spoil, number, faulty = row
        tried = list(make(spoil))
        counts = (len(tried), sum(1 for _, _, wanted in tried if wanted.status == 2))
        if counts != (number, faulty):
            return f"{counts[0]} texts, {counts[1]} of them with an error, instead of {number} and {faulty}"
        with Pool() as pool:
            return next((it for it in pool.imap(partial(wrong, self.program), tried, chunksize=200) if it), None)


add_tests(Spoilt, Spoilt.check, (
    ("prefixes of scripts", (scripts, prefixes, 2_599, 2_352)),
    ("prefixes of journals", (checks, prefixes, 4_500, 4_500)),
    ("bytes of scripts", (scripts, set_bytes, 10_396, 9_643)),
    ("bytes of journals", (checks, set_bytes, 18_000, 16_836)),
))
