"""How thpsplit and thpcheck read and write: in parts of 65,536 bytes, nothing after the end, and only a part of an endless input.

strace lists each read and write. If it is missing or may not trace, a preloaded library does (tests/streams.c), which needs a C compiler.
"""

from __future__ import annotations

import os
import re
import shutil
import subprocess
from collections.abc import Iterable, Iterator
from dataclasses import dataclass
from pathlib import Path
from unittest import SkipTest

from fixtures import ProgramCase, add_tests, temporary_folder
from outside import ILLEGAL, LEGAL
from process import Call, Ended, Sink, Source, Word, run
from test_large import long_script, pinned_scans, words
from texts import MOST_BYTES

PART = 65_536
"""The number of bytes that each read of the input offers; a report is written in parts of about this size."""

CALLED = re.compile(rb"^(?:\d+ +)?(read|write)\((\d+), .*?(\d+)\) += (-?\d+)", re.MULTILINE)
INPUT, OUTPUT, ERRORS = 0, 1, 2


@dataclass(frozen=True)
class Moved:
    """A read or a write: the stream, the bytes that it offers, and those that were moved (-1 if it failed)."""

    stream: int
    offered: int
    moved: int


class Tracer:
    """Runs a program, and lists its reads of the input and its writes of both outputs, in order."""

    def __init__(self, program: Path, folder: Path) -> None:
        self.program, self.log, self.library = program, folder / "log", folder / "streams.so"
        self.way = "strace" if can_trace() else "preload"
        if self.way == "preload":
            build(self.library)

    def words(self, given: tuple[Word, ...]) -> tuple[Path, tuple[Word, ...]]:
        """The program that is called instead, and its words."""
        if self.way == "strace":
            front = words(f"-f -qq -s 0 -e trace=read,write -e signal=none -o {self.log}")
            return Path(shutil.which("strace") or "strace"), (*front, str(self.program), *given)
        environment = (f"LD_PRELOAD={self.library}", f"STREAMS_LOG={self.log}")
        return Path(shutil.which("env") or "env"), (*environment, str(self.program), *given)

    def run(self, call: Call) -> tuple[Ended, list[Moved]]:
        """The run's end, and what was moved."""
        self.log.write_bytes(b"")
        called, given = self.words(call.words)
        ended = run(called, Call(given, call.given, call.source, call.output, call.errors))
        calls = CALLED.findall(self.log.read_bytes())
        listed = [(name, Moved(int(stream), int(offered), int(moved))) for name, stream, offered, moved in calls]
        return ended, [it for name, it in listed if it.stream in ((INPUT,) if name == b"read" else (OUTPUT, ERRORS))]


def can_trace() -> bool:
    """Whether strace exists and may trace."""
    if shutil.which("strace") is None:
        return False
    return subprocess.run(["strace", "-qq", "-o", "/dev/null", "true"], capture_output=True, check=False).returncode == 0


def build(library: Path) -> None:
    """Builds the library to preload."""
    compiler = os.environ.get("CC", "cc").split()
    if shutil.which(compiler[0]) is None:
        raise SkipTest(f"neither strace nor a C compiler ({compiler[0]}) can be used")
    source = Path(__file__).resolve().parent / "streams.c"
    subprocess.run([*compiler, "-O2", "-shared", "-fPIC", "-o", str(library), str(source)], check=True)


@dataclass(frozen=True)
class Row:
    """A call, how many bytes of its input are read, and what its outputs take."""

    name: str
    call: Call
    read: int | None
    """The bytes that are read, and then the end; None if no end is reached: 16 MiB and at most a part more are read."""

    wanted: Ended | None = None
    """How it ends; None if only a long report matters, which other tests compare."""

    reads: bool = True
    """Whether the input is read at all."""

    most: int = 2 * PART
    """The greatest number of bytes of one write."""

    def wrong(self, tracer: Tracer) -> str | None:
        """How the program's reads and writes differ, or None."""
        ended, moved = tracer.run(self.call)
        if ended.status < 0 or (self.wanted is not None and ended != self.wanted):
            return f"{ended.status}, {ended.output[:80]!r}, {ended.errors[:80]!r}"
        reads = [it for it in moved if it.stream == INPUT]
        return self.wrong_reads(reads) or wrong_writes(moved, ended, self)

    def wrong_reads(self, reads: list[Moved]) -> str | None:
        """What is wrong with the reads: each offers a part, for a file each but the last two fills it, and the end comes once."""
        if not self.reads:
            return f"{len(reads)} reads, where none may be" if reads else None
        offered = sorted({it.offered for it in reads})
        if offered != [PART]:
            return f"reads of {offered} bytes, where {PART} are due"
        sizes = [it.moved for it in reads]
        if self.read is None:
            return None if MOST_BYTES < sum(sizes) <= MOST_BYTES + PART else f"{sum(sizes)} bytes were read in {len(sizes)} reads"
        if sum(sizes) != self.read or sizes.count(0) != 1 or sizes[-1] != 0:
            return f"{sum(sizes)} bytes, where {self.read} are due, by {len(sizes)} reads, {sizes.count(0)} of them of none"
        most = -(-self.read // PART) + 1
        return f"{len(sizes)} reads, where {most} do" if self.call.source == Source.FILE and len(sizes) > most else None


def wrong_writes(moved: Iterable[Moved], ended: Ended, row: Row) -> str | None:
    """What is wrong with the writes: a part each but the last, a message at once, and nothing after one that failed."""
    for stream, text, sink in ((OUTPUT, ended.output, row.call.output), (ERRORS, ended.errors, row.call.errors)):
        sizes = [it.offered for it in moved if it.stream == stream]
        if sink != Sink.KEPT:
            if len(sizes) > 1:
                return f"{len(sizes)} writes to {stream}, of which the first failed"
            continue
        if sum(sizes) != len(text):
            return f"writes of {sum(sizes)} bytes to {stream}, where {len(text)} are due"
        odd = [size for size in sizes[:-1] if size < PART // 2] + [size for size in sizes if size > row.most]
        if odd:
            return f"{len(sizes)} writes of {len(text)} bytes to {stream}, some of them of {sorted(set(odd))[:5]}"
    return None


def sources(name: str, given: tuple[str, ...], text: bytes, wanted: Ended | None = None, most: int = 2 * PART) -> Iterator[Row]:
    """A call whose input is a file, and one whose input is a pipe."""
    for source in (Source.FILE, Source.PIPE):
        yield Row(f"{name}, {source.name.lower()}", Call(given, text, source), len(text), wanted, most=most)


def program_rows() -> Iterator[Row]:
    """Calls of `thpsplit`."""
    script, report, journal = pinned_scans(1_000)
    options, check = words("--blocks 128"), words("--check")
    for caller in (b"setup\n", b"worker 1\n"):
        name, text = caller.decode().rstrip(), long_script(caller)
        yield from sources(f"16 MiB of {name}, totals", (), text)
        yield from sources(f"16 MiB of {name}, answers", words("--report answers"), text)
    yield from sources("scans, totals", options, script, Ended(0, report))
    # A journal is made as one text, and may be written at once.
    written = (*options, *words("--report journal"))
    yield from sources("scans, journal", written, script, Ended(0, journal), len(journal))
    yield from sources("scans, check", check, journal, Ended(0, b"legal\n"))
    yield from sources("a fault in the first of many lines", (), b"fly\n" * 1_000_000, fault("line 1: bad-word"))
    yield from sources("an empty script", words("--report answers"), b"", Ended(0))
    for given in ((), check):
        name = " ".join(given) or "no words"
        yield Row(f"an endless input, {name}", Call(given, source=Source.ENDLESS), None, fault("line 0: too-long"))
    for line in ("--help", "--version", "--orders x", "--zzz"):
        yield Row(f"{line}, a script", Call(words(line), script), 0, reads=False)
    yield from full("scans", Call(written, script, output=Sink.FULL))
    yield from full("a fault", Call((), b"fly\n", errors=Sink.FULL))


def checker_rows() -> Iterator[Row]:
    """Calls of `thpcheck`."""
    _, report, journal = pinned_scans(5_000)
    assert len(journal) > MOST_BYTES
    yield from sources("more than 16 MiB", (), journal, Ended(0, b"legal\n"))
    yield from sources("more than 16 MiB, --summary", ("--summary",), journal, Ended(0, b"legal\n" + report))
    yield from sources("an illegal journal", (), ILLEGAL, Ended(1, b"illegal line 7\n"))
    yield from sources("an illegal journal, --explain", ("--explain",), ILLEGAL)
    yield from sources("a fault in the first of many lines", (), b"fly\n" * 1_000_000, fault("line 1: bad-word", "thpcheck"))
    for line in ("--help", "--version", "--zzz"):
        yield Row(f"{line}, a journal", Call(words(line), LEGAL), 0, reads=False)
    yield from full("a verdict", Call((), LEGAL, output=Sink.FULL))


def fault(reported: str, name: str = "thpsplit") -> Ended:
    """A text with an error."""
    return Ended(2, b"", f"{name}: {reported}\n".encode())


def full(name: str, call: Call) -> Iterator[Row]:
    """An output that takes nothing."""
    yield Row(f"{name}, an output that is full", call, len(call.given))


class Streams(ProgramCase):
    """Tests of a program's reads and writes."""

    tracer: Tracer

    @classmethod
    def setUpClass(cls) -> None:
        """Finds the program and what lists its reads and writes, or skips the tests."""
        super().setUpClass()
        cls.tracer = Tracer(cls.program, temporary_folder(cls))

    def check(self, row: Row) -> str | None:
        """Returns how the program's reads and writes in a call differ, or None."""
        return row.wrong(self.tracer)


class ProgramStreams(Streams):
    """Each call of thpsplit."""


class CheckerStreams(Streams):
    """Each call of thpcheck."""

    variable = "THPCHECK"


add_tests(ProgramStreams, ProgramStreams.check, ((row.name, row) for row in program_rows()))
add_tests(CheckerStreams, CheckerStreams.check, ((row.name, row) for row in checker_rows()))
