"""One run of the built program from outside: its words, its three streams, and how it ends."""

from __future__ import annotations

import os
import resource
import subprocess
import tempfile
from dataclasses import dataclass
from enum import Enum, auto
from pathlib import Path
from typing import Callable, Optional, Union
from unittest import SkipTest

SECONDS = 1200 if os.environ.get("EMULATED") == "1" else 120
"""A run that takes longer counts as one that never ends; an emulator is slower."""

Word = Union[str, bytes]


class Source(Enum):
    """What standard input is."""

    FILE = auto()
    PIPE = auto()
    FOLDER = auto()
    CLOSED = auto()
    ENDLESS = auto()


class Sink(Enum):
    """What an output is. The data for any but the first is lost."""

    KEPT = auto()
    FULL = auto()
    CLOSED = auto()
    BROKEN = auto()


@dataclass(frozen=True)
class Ended:
    """How a run ended: the exit status (a signal's number below 0), standard output and standard error."""

    status: int
    output: bytes = b""
    errors: bytes = b""

    def differs_from(self, wanted: Ended) -> Optional[str]:
        """How the result differs from the expected one, in one line; or None."""
        for name in ("status", "output", "errors"):
            is_, should = getattr(self, name), getattr(wanted, name)
            if is_ != should:
                return f"{name} {shown(is_, should)} in place of {shown(should, is_)}"
        return None


def shown(it: Union[int, bytes], other: Union[int, bytes]) -> str:
    """A status or a text; for a long text the part where it first differs from the other."""
    if isinstance(it, int) or isinstance(other, int) or len(it) <= 200:
        return repr(it)
    front = len(os.path.commonprefix([it, other]))
    return f"{it[max(front - 40, 0) : front + 80]!r} (at byte {front} of {len(it)})"


@dataclass(frozen=True)
class Call:
    """A run to be executed."""

    words: tuple[Word, ...] = ()
    given: bytes = b""
    source: Source = Source.FILE
    output: Sink = Sink.KEPT
    errors: Sink = Sink.KEPT
    memory: Optional[int] = None
    """The greatest number of bytes of address space, if it is bounded."""
    untouched: bool = False
    """Whether no byte of the input may be read (for a file only)."""


class ReadTooEarly(Exception):
    """Bytes of the input were read, although none may be."""


def run(program: Path, call: Call) -> Ended:
    """Executes a run. Returns its end; checks that the input is untouched if required. SkipTest if the call bounds the memory of a
    program that is emulated, since that bounds the emulator."""
    if call.memory is not None and os.environ.get("EMULATED") == "1":
        raise SkipTest("the program is emulated")
    with tempfile.TemporaryDirectory() as folder:
        path = Path(folder) / "input"
        path.write_bytes(call.given)
        opened = {Source.FOLDER: Path(folder), Source.ENDLESS: Path("/dev/zero")}.get(call.source, path)
        given = os.open(opened, os.O_RDONLY)
        outputs = [sink(call.output), sink(call.errors)]
        try:
            child = subprocess.Popen(
                [program, *call.words],
                stdin=subprocess.PIPE if call.source == Source.PIPE else given,
                stdout=outputs[0],
                stderr=outputs[1],
                preexec_fn=before(call),
            )
            reported = child.communicate(call.given if call.source == Source.PIPE else None, timeout=SECONDS)
            if call.untouched and os.lseek(given, 0, os.SEEK_CUR) != 0:
                raise ReadTooEarly
        except subprocess.TimeoutExpired:
            child.kill()
            reported = child.communicate()
            return Ended(-9, *(text or b"" for text in reported))
        finally:
            for it in (given, *outputs):
                if it >= 0:
                    os.close(it)
    return Ended(child.returncode, *(text or b"" for text in reported))


def sink(kind: Sink) -> int:
    """The form of an output for `subprocess`: a file's number, or that of a pipe to be kept."""
    if kind == Sink.FULL:
        return os.open("/dev/full", os.O_WRONLY)
    if kind == Sink.BROKEN:
        reader, writer = os.pipe()
        os.close(reader)
        return writer
    return subprocess.PIPE if kind == Sink.KEPT else subprocess.DEVNULL


def before(call: Call) -> Optional[Callable[[], None]]:
    """The actions of the new process before it becomes the program, if any."""
    are_closed = (call.source == Source.CLOSED, call.output == Sink.CLOSED, call.errors == Sink.CLOSED)
    closed = [number for number, is_closed in enumerate(are_closed) if is_closed]
    memory = call.memory
    if not closed and memory is None:
        return None

    def prepare() -> None:
        for number in closed:
            os.close(number)
        if memory is not None:
            resource.setrlimit(resource.RLIMIT_AS, (memory, memory))

    return prepare
