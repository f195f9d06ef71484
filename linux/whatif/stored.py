"""Stored snapshots: lines of JSON, each a list of a field's name and its value, or an entry of it if it is a table or a list, so that a
file of any size is written and read in parts. Each value that is read is checked: such a file may come from anybody."""

from __future__ import annotations

import json
import re
from collections import Counter
from dataclasses import fields
from itertools import chain, groupby
from typing import IO, Any, Callable, Iterator, Mapping

from ..common.errors import InputFault
from ..common.files import PMD_ORDER
from ..common.folios import MOST_MAPPED, Folio, compact_counts
from ..common.folios import Mapping as PageMapping
from ..common.reader import FOLIO_COST, PIECE_COST
from ..common.text import escape
from .look import Snapshot

VERSION = 4  # of the form
MOST_TEXT = 4096  # letters of a name
DIGITS = 20  # of a number
LINE = 1 << 20  # bytes of a line: a page that 5,000 processes map

Read = Callable[[Any], Any]
"""Returns what a JSON value stands for. ValueError for one that it can't be."""


def checked(test: Callable[[Any], object], what: str, make: Read = lambda value: value) -> Read:
    """Returns how values are read that pass a test, and of which others are made."""

    def read(value: Any) -> Any:
        if not test(value):
            raise ValueError(f"no {what}")
        return make(value)

    return read


def whole(most: int, least: int = 0) -> Read:
    """Returns how whole numbers within limits are read."""
    return checked(lambda value: type(value) is int and least <= value <= most, f"whole number from {least} to {most}")


def hexadecimal(digits: int) -> Read:
    """Returns how numbers are read that are hexadecimal texts."""
    return checked(lambda value: type(value) is str and re.fullmatch(f"[0-9a-f]{{1,{digits}}}", value),
                   f"hexadecimal number of {digits} digits", lambda text: int(text, 16))


def maybe(read: Read) -> Read:
    """Returns how values are read that may be null."""
    return lambda value: None if value is None else read(value)


def list_of(read: Read) -> Read:
    """Returns how lists are read, given how their values are."""
    return checked(lambda value: type(value) is list, "list", lambda value: [read(each) for each in value])


def row(*reads: Read, make: Callable[..., Any] = lambda *values: values) -> Read:
    """Returns how lists are read that have a value for each of these."""
    return checked(lambda value: type(value) is list and len(value) == len(reads), f"list of {len(reads)} values",
                   lambda value: make(*(read(each) for read, each in zip(reads, value))))


def reads_of(kind: type, **others: Read) -> dict[str, Read]:
    """Returns how the fields of a dataclass are read, or an entry of those that have several: by their types, if it isn't given."""
    return {each.name: others.get(each.name) or BY_TYPE[str(each.type)] for each in fields(kind)}


def read_field(reads: Mapping[str, Read], name: str, value: Any) -> Any:
    """Returns a field, or an entry. ValueError where it is spoilt, or isn't one of these."""
    if name not in reads:
        raise ValueError(f"there is no field {name[:40]!r}")
    try:
        return reads[name](value)
    except ValueError as error:
        raise ValueError(f"{name}: {error}") from error


def made(make: Callable[..., Any], values: Mapping[str, Any]) -> Any:
    """Returns what is made of fields. ValueError where one is missing."""
    try:
        return make(**values)
    except TypeError as error:
        raise ValueError(f"a field is missing: {error}") from error


def page_of(value: dict[str, Any]) -> Folio:
    """Returns a huge page of a JSON object. ValueError where it isn't one, or the values don't fit its size."""
    folio: Folio = made(Folio, {name: read_field(PAGE_FIELDS, name, each) for name, each in value.items()})
    if len(folio.totals) != folio.size:
        raise ValueError(f"totals doesn't have {folio.size} numbers")
    if max(folio.zero, folio.known, folio.kept, *(mapping.subset for mapping in folio.mappings)) > folio.full:
        raise ValueError("a set has more subpages than the page")
    return folio


COUNT, FLAG, SET = whole((1 << 64) - 1), checked(lambda value: type(value) is bool, "truth value"), hexadecimal(128)
TEXT = checked(lambda value: type(value) is str and re.fullmatch(f"[ -~]{{0,{MOST_TEXT}}}", value), "text of one line in printable ASCII")
SECONDS = checked(lambda value: type(value) in (int, float) and abs(value) < 1e9, "number of seconds", float)
RUNS = list_of(row(whole(1 << PMD_ORDER, 1), whole(MOST_MAPPED), make=lambda count, number: (number,) * count))
TOTALS = checked(lambda value: type(value) is list and len(value) <= 1 << PMD_ORDER, "list of at most as many runs as subpages",
                 lambda value: compact_counts(list(chain.from_iterable(RUNS(value)))))
PAGE = checked(lambda value: type(value) is dict, "object", page_of)
BY_TYPE: dict[str, Read] = {
    "int": COUNT, "int | None": maybe(COUNT), "bool": FLAG, "bool | None": maybe(FLAG), "str": TEXT, "float": SECONDS,
    "dict[str, int]": row(TEXT, COUNT), "Counter[str]": row(TEXT, COUNT),
    "dict[int, str]": row(COUNT, TEXT), "Sequence[int]": TOTALS,
    "list[Mapping]": list_of(row(whole(1 << 31, 1), hexadecimal(16), SET, FLAG, make=PageMapping)),
}
PAGE_FIELDS = reads_of(
    Folio, frame=whole(1 << 52), order=whole(PMD_ORDER, 2), zero=SET, known=SET, kept=SET,
    pins=maybe(whole(MOST_MAPPED, -MOST_MAPPED)),  # references dropped between two reads make it negative
)
FIELDS = {
    **reads_of(Snapshot, folios=PAGE, today=maybe(whole((1 << PMD_ORDER) - 1)), changed_pages=row(maybe(PAGE), maybe(PAGE))),
    "version": whole(VERSION, VERSION), "end": FLAG,
}


def object_of(folio: Folio) -> dict[str, Any]:
    """Returns a huge page as a JSON object."""
    out = {**vars(folio), **{name: format(getattr(folio, name), "x") for name in ("zero", "known", "kept")}}
    out["totals"] = [[len(list(run)), number] for number, run in groupby(folio.totals)]
    out["mappings"] = [[process, f"{address:x}", f"{subset:x}", by_pmd] for process, address, subset, by_pmd in folio.mappings]
    return out


def json_lines(snapshot: Snapshot) -> Iterator[str]:
    """Yields the lines of a stored snapshot."""
    values: dict[str, Any] = {"version": VERSION, **vars(snapshot), "end": True}
    for name, value in values.items():
        for entry in value.items() if isinstance(value, dict) else value if isinstance(value, list) else [value]:
            yield json.dumps([name, entry], default=object_of) + "\n"


def whole_number(text: str) -> int:
    """Returns a number of a JSON text. ValueError for one that is too long for any field."""
    if len(text) > DIGITS:
        raise ValueError(f"a number has more than {DIGITS} digits")
    return int(text)


DECODER = json.JSONDecoder(parse_int=whole_number, parse_constant=int)
LINE_READ = row(checked(lambda value: type(value) is str, "name of a field"), lambda value: value)


class StoredReader:
    """Reads stored snapshots, within a limit of memory for all of them."""

    def __init__(self, mebibytes: int) -> None:
        self._mebibytes, self._room, self._line = mebibytes, mebibytes << 20, 0

    def read(self, path: str, file: IO[bytes]) -> Snapshot:
        """Returns the snapshot of an open file, whose path an error names. InputFault where it isn't one, or takes too much memory."""
        self._line = 0
        try:
            snapshot: Snapshot = made(Snapshot, self._fields(file))
            if len({folio.frame for folio in snapshot.folios}) < len(snapshot.folios):
                raise ValueError("two huge pages have the same frame")
            return snapshot
        except (ValueError, OSError) as error:
            raise InputFault(f"{escape(path)}: this is no stored snapshot: line {self._line}: {error}") from error

    def _fields(self, file: IO[bytes]) -> dict[str, Any]:
        """Returns the fields of a snapshot, each checked."""
        tables: dict[str, Any] = {name: {} for name in ("processes", "names", "sums")}
        found: dict[str, Any] = {**tables, "left_out": Counter(), "unread": Counter(), "folios": [], "changed_pages": []}
        while line := file.readline(LINE + 1):
            self._line += 1
            if "end" in found:
                raise ValueError("there is more after its end")
            name, value = self._entry(line)
            if (name == "version") != (self._line == 1):
                raise ValueError("its first line has the version, and no other")
            if isinstance(found.get(name), list):
                found[name].append(value)
            elif isinstance(found.get(name), dict):
                found[name][value[0]] = value[1]
            else:
                found[name] = value
        if not found.pop("end", None):
            raise ValueError("its end is missing")
        del found["version"]
        return found

    def _entry(self, line: bytes) -> tuple[str, Any]:
        """Returns the name of a field, and its value or an entry, and counts the memory: others like a page without mappings."""
        if len(line) > LINE:
            raise ValueError(f"it has more than {LINE >> 20} MiB")
        try:
            name, value = LINE_READ(DECODER.decode(line.decode("ascii")))
        except (json.JSONDecodeError, RecursionError) as error:
            raise ValueError("no JSON") from error
        value = read_field(FIELDS, name, value)
        pages = value if name == "changed_pages" else [value] if name == "folios" else []
        self._room -= FOLIO_COST * (len(pages) or 1) + PIECE_COST * sum(len(page.mappings) for page in pages if page)
        if self._room < 0:
            raise ValueError(f"it takes more than {self._mebibytes} MiB of memory (--memory)")
        return name, value
