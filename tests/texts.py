"""The first error of a script or a journal: a plain reading of docs/FORMATS.md, its errors and its tables.

It shares no code with the program. A text is bytes; lines are counted from 1.
"""

from __future__ import annotations

import re
from dataclasses import dataclass
from typing import Callable, Optional

MOST_BYTES = 16_777_216
"""The greatest number of bytes of an input."""

MOST_NUMBER = 2**64 - 1
MOST_SUBPAGE = 65_535
MOST_BATCH = 128
LAST_FRAME = 511
VERSION, LARGE_VERSION = 3, 4
"""The newest version of a journal of at most so many bytes, and of one of any length, which `thpcheck` reads."""

FAULT_WORDS = ("too-long", "bad-byte", "cut", "bad-word", "bad-count", "bad-number", "bad-set", "bad-order")
"""All kinds of error. For one line the first that applies is reported."""

NODE_WORDS = ("alloc", "close", "count", "splitnext", "putback")
PAGE_WORDS = ("mapwhole", "unmapwhole", "splitpmd", "pin", "unpin")
RANGE_WORDS = ("map", "unmap", "write", "zero")
BATCH_WORDS = ("scan", "take")
COMMANDS = (*NODE_WORDS, *PAGE_WORDS, *RANGE_WORDS, *BATCH_WORDS)
"""All commands of scripts."""

PAGE_EVENTS = ("alloc", "mapwhole", "splitpmd", "pin", "taken", "pinned", "back", "dropped")
LOSS_EVENTS = ("unmapwhole", "unpin")
LATER_EVENTS = ("write", "zero", "used")
EVENTS = (*PAGE_EVENTS, *LOSS_EVENTS, "mapsub", "unmapsub", "split", "close", *LATER_EVENTS)
"""All events of journals; the last three occur from version 3 on."""

OUTCOMES = ("stays", "queued", "freed")
NUMBER = re.compile(rb"0|[1-9][0-9]{0,19}")
"""A number as it is written; no longer one is within bounds."""

PRINTABLE = re.compile(rb"[ -~]*")


@dataclass(frozen=True)
class Limits:
    """The greatest number of a node in a journal, of its blocks, and of a caller."""

    node: int
    blocks: int
    caller: int


SMALL, LARGE = Limits(7, 4_096, 63), Limits(65_535, 16_777_216, 65_535)


def limits_of(version: int) -> Limits:
    """The limits of a version; 0: of lines before the first."""
    return LARGE if version == LARGE_VERSION else SMALL


class BadText(Exception):
    """A line has this kind of error; `str()` is its word."""


@dataclass(frozen=True)
class Fault:
    """The first error of a text."""

    line: int
    word: str

    def message(self, program: str = "thpsplit") -> bytes:
        """The line about it on standard error."""
        return f"{program}: line {self.line}: {self.word}\n".encode()


@dataclass
class Place:
    """The position of the next line: in a script, its section; in a journal, of a version up to `newest`, after that and so many nodes."""

    section: Optional[int] = None
    newest: int = VERSION
    version: int = 0
    nodes: int = 0
    ended: bool = False


def ensure(holds: bool, word: str) -> None:
    """Raises the error of this word unless a property of a line holds."""
    if not holds:
        raise BadText(word)


def number(word: bytes, most: int, least: int = 0) -> int:
    """The number that a word represents: decimal, without sign and leading zeros, within bounds."""
    ensure(NUMBER.fullmatch(word) is not None, "bad-number")
    ensure(least <= int(word) <= most, "bad-number")
    return int(word)


def check_numbers(words: list[bytes], mosts: tuple[int, ...]) -> None:
    """The words are as many numbers as there are bounds, each at most its bound."""
    ensure(len(words) == len(mosts), "bad-count")
    for word, most in zip(words, mosts):
        number(word, most)


def check_set(word: bytes) -> None:
    """A set is `-`, or its maximal runs, ascending, separated by commas."""
    least = 0
    for run in [] if word == b"-" else word.split(b","):
        ends = run.split(b"-")
        ensure(len(ends) in (1, 2) and all(NUMBER.fullmatch(end) for end in ends), "bad-set")
        first, last = int(ends[0]), int(ends[-1])
        ensure(least <= first <= last <= LAST_FRAME and (len(ends) == 1 or first < last), "bad-set")
        least = last + 2


def words_in(line: bytes) -> list[bytes]:
    """The words of a line, none of which is empty."""
    words = line.split(b" ")
    ensure(all(words), "bad-word")
    return words


def first_fault(text: bytes, line_in: Callable[[Place, bytes], None], place: Place) -> Optional[Fault]:
    """The first error of the lines of a text, of the text after the last line feed, and of the text's length, unless it may have any."""
    if len(text) > MOST_BYTES and place.newest == VERSION:
        return Fault(0, "too-long")
    *lines, behind = text.split(b"\n")
    for count, line in enumerate(lines, 1):
        try:
            ensure(PRINTABLE.fullmatch(line) is not None, "bad-byte")
            line_in(place, line)
        except BadText as fault:
            return Fault(count, str(fault))
    if behind:
        return Fault(len(lines) + 1, "cut" if PRINTABLE.fullmatch(behind) else "bad-byte")
    return None


def script_fault(text: bytes, nodes: int = 1, workers: int = 1) -> Optional[Fault]:
    """The first error of a script for so many nodes and workers."""
    return first_fault(text, lambda place, line: script_line(place, line, nodes, workers), Place())


def script_line(place: Place, line: bytes, nodes: int, workers: int) -> None:
    """Checks a line of a script at its position."""
    if line == b"" or line.startswith(b"#"):
        return
    word, *operands = words_in(line)
    if word in (b"setup", b"worker"):
        check_numbers(operands, () if word == b"setup" else (workers,))
        section = int(operands[0]) if operands else 0
        ensure(word == b"setup" or section > 0, "bad-number")
        ensure(place.section is None or place.section < section, "bad-order")
        place.section = section
        return
    ensure(word.decode() in COMMANDS, "bad-word")
    check_numbers(operands, bounds_of(word.decode(), nodes))
    ensure(place.section is not None, "bad-order")


def bounds_of(word: str, nodes: int) -> tuple[int, ...]:
    """The greatest value of each operand of a command."""
    if word in PAGE_WORDS:
        return nodes - 1, MOST_NUMBER
    if word in RANGE_WORDS:
        return nodes - 1, MOST_NUMBER, MOST_SUBPAGE, MOST_SUBPAGE
    return (nodes - 1, MOST_BATCH) if word in BATCH_WORDS else (nodes - 1,)


def journal_fault(text: bytes, newest: int = VERSION) -> Optional[Fault]:
    """The first error of a journal, by what reads versions up to `newest`. One that is not ended is cut after its last line."""
    place = Place(newest=newest)
    fault = first_fault(text, journal_line, place)
    if fault is None and not place.ended:
        return Fault(text.count(b"\n") + 1, "cut")
    return fault


def journal_line(place: Place, line: bytes) -> None:
    """Checks a line of a journal at its position."""
    word, *others = words_in(line)
    if word == b"thp-journal":
        ensure(len(others) == 1, "bad-count")
        version = number(others[0], place.newest, 1)
        ensure(place.version == 0, "bad-order")
        place.version = version
    elif word == b"node":
        node_line(place, others)
    elif word == b"end":
        ensure(not others, "bad-count")
        ensure(place.nodes > 0 and not place.ended, "bad-order")
        place.ended = True
    else:
        event_line(place, word, others)
        ensure(place.nodes > 0 and not place.ended, "bad-order")


def node_line(place: Place, words: list[bytes]) -> None:
    """`node N blocks B`, and what further versions add."""
    keys, limits = [b"blocks", b"order", b"underused"][: max(place.version, 1)], limits_of(place.version)
    for at, key in enumerate(keys):
        ensure(words[2 * at + 1 : 2 * at + 2] == [key], "bad-word")
    ensure(len(words) == 2 * len(keys) + 1, "bad-count")
    count = number(words[0], limits.node)
    number(words[2], limits.blocks, 1)
    order = number(words[4], 9, 2) if len(keys) > 1 else 9
    if len(keys) > 2 and words[6] != b"off":
        number(words[6], 2**order - 1)
    ensure(place.version > 0 and not place.ended and count == place.nodes, "bad-order")
    place.nodes += 1


def event_line(place: Place, caller: bytes, words: list[bytes]) -> None:
    """A caller, the word of an event, and its operands."""
    ensure(bool(words), "bad-word")
    event, operands = words[0].decode(), words[1:]
    ensure(event in EVENTS and (event not in LATER_EVENTS or place.version > 2), "bad-word")
    numbers = {"mapsub": 3, "unmapsub": 3, "write": 3, "zero": 3, "close": 0}.get(event, 1)
    loses = event in LOSS_EVENTS or event == "unmapsub"
    if loses:
        ensure(len(operands) > numbers, "bad-count")
        ensure(operands[numbers].decode() in OUTCOMES, "bad-word")
    more = 2 if loses else 1 if event == "split" else 0
    ensure(len(operands) == numbers + more, "bad-count")
    number(caller, limits_of(place.version).caller)
    check_numbers(operands[:numbers], (MOST_NUMBER, MOST_SUBPAGE, MOST_SUBPAGE)[:numbers])
    if more:
        check_set(operands[-1])
