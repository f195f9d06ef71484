"""The progress that `thpcheck` and `thpdraw` show: lines on standard error, which are removed before anything else is written
there."""

from __future__ import annotations

import fcntl
import os
import pty
import re
import struct
import subprocess
import termios
import time
import tty
from dataclasses import dataclass
from pathlib import Path
from typing import Iterator, Optional
from unittest import SkipTest

from process import Call, Ended, Sink, Source, run, shown

ASKED = ("--progress",)
REMOVAL = b"\r\x1b[K"
"""The text that removes a line."""

PART = 65_536
"""The number of bytes of a file that are read at a time."""

PAUSE = 1.5
"""Seconds between reading the first and the second half of a slow input: a line is due a second after the one before."""

SECONDS = 60
"""A slow run that takes longer counts as one that never ends."""


def line(text: bytes, program: bytes = b"thpcheck") -> bytes:
    """The pattern of the line that a program shows after this prefix of a journal."""
    tenths = len(text) * 10 // 2**20
    events = len(re.findall(rb"^\d", text, re.M))
    reported = b"%s: %d.%d MiB, %d events, " % (program, *divmod(tenths, 10), events)
    return re.escape(REMOVAL + reported) + rb"\d+\.\d MiB/s"


def lines(*fronts: bytes, behind: bytes = b"", program: bytes = b"thpcheck") -> bytes:
    """The pattern of standard error: a line after each prefix, the last of which is removed, and the message."""
    return b"".join(line(it, program) for it in fronts) + (re.escape(REMOVAL) if fronts else b"") + re.escape(behind)


def differs(ended: Ended, status: int, output: bytes, errors: bytes) -> Optional[str]:
    """How the result differs from the expected one, standard error by its pattern; or None."""
    if re.fullmatch(errors, ended.errors) is None:
        return f"errors {shown(ended.errors, 0)} aren't {shown(errors, 0)}"
    return Ended(ended.status, ended.output).differs_from(Ended(status, output))


@dataclass(frozen=True)
class Shown:
    """A call with its expected result; the progress is given as a pattern."""

    name: str
    call: Call
    status: int
    output: bytes
    errors: bytes
    group: str = "progress"

    def wrong(self, program: Path) -> Optional[str]:
        """How the result differs from the expected one, in one line; or None."""
        return differs(run(program, self.call), self.status, self.output, self.errors)


@dataclass(frozen=True)
class Slow:
    """A call whose input arrives in parts, with a pause before each but the first, and that must be reported as legal."""

    name: str
    words: tuple[str, ...]
    halves: tuple[bytes, ...]
    errors: bytes
    terminal: bool = True
    group: str = "progress"
    pauses: tuple[float, ...] = (PAUSE, PAUSE)

    def wrong(self, program: Path) -> Optional[str]:
        """How the result differs from the expected one, in one line; or None."""
        return differs(self.ended(program), 0, b"legal\n", self.errors)

    def ended(self, program: Path) -> Ended:
        """How the run ends; its standard error is a pseudo-terminal, or a pipe."""
        reader, writer = terminal() if self.terminal else os.pipe()
        given, giver = os.pipe()
        first, *others = self.halves
        os.write(giver, first)
        child = subprocess.Popen([program, *self.words], stdin=given, stdout=subprocess.PIPE, stderr=writer)
        os.close(writer)
        try:
            for half, pause in zip(others, self.pauses):
                wait_for_none(given)
                time.sleep(pause)
                os.write(giver, half)
            os.close(giver)
            output, _ = child.communicate(timeout=SECONDS)
            return Ended(child.returncode, output, all_of(reader))
        except subprocess.TimeoutExpired:
            child.kill()
            child.communicate()
            return Ended(-9)
        finally:
            os.close(given)
            os.close(reader)


class Rated(Slow):
    """Such a call whose last line has the rate of the whole input over the whole time."""

    def wrong(self, program: Path) -> Optional[str]:
        """How the result differs from the expected one, in one line; or None."""
        began = time.monotonic()
        ended = self.ended(program)
        lasted, size = time.monotonic() - began, len(b"".join(self.halves)) / 2**20
        wrong = differs(ended, 0, b"legal\n", self.errors)
        if wrong:
            return wrong
        rate = float(re.findall(rb"([\d.]+) MiB/s", ended.errors)[-1])
        least, most = size / lasted - 0.15, size / sum(self.pauses) + 0.15
        return None if least <= rate <= most else f"{rate} MiB/s aren't from {least:.1f} to {most:.1f}"


def terminal() -> tuple[int, int]:
    """A pseudo-terminal that passes each byte unchanged: the side that reads what is shown, and that of a program."""
    try:
        reader, writer = pty.openpty()
    except OSError as error:
        raise SkipTest("no pseudo-terminal can be had") from error
    tty.setraw(writer)
    return reader, writer


def wait_for_none(pipe: int) -> None:
    """Waits until everything written to a pipe has been read."""
    for _ in range(SECONDS * 100):
        if struct.unpack("i", fcntl.ioctl(pipe, termios.FIONREAD, bytes(4))) == (0,):
            return
        time.sleep(0.01)


def all_of(reader: int) -> bytes:
    """Everything written to a pipe or a terminal whose writers have ended."""
    reported = b""
    while True:
        try:
            part = os.read(reader, PART)
        except OSError:
            return reported
        if not part:
            return reported
        reported += part


def rows(legal: bytes, long: bytes, illegal: bytes, reported: bytes) -> Iterator[Shown | Slow]:
    """Calls on a legal journal, on a long one, and on one whose illegal event, on line 7, has this explanation."""
    for source in (Source.FILE, Source.PIPE):
        yield Shown(f"a line, {source.name.lower()}", Call(ASKED, legal, source), 0, b"legal\n", lines(legal))
    yield Shown("more than one part", Call(ASKED, long), 0, b"legal\n", line(long[:PART]) + rb".*" + re.escape(REMOVAL))
    explained = Call((*ASKED, "--explain"), illegal)
    yield Shown("an explanation behind it", explained, 1, b"illegal line 7\n", lines(illegal, behind=reported))
    yield Shown("a fault behind it", Call(ASKED, b"fly\n"), 2, b"", lines(b"fly\n", behind=b"thpcheck: line 1: bad-word\n"))
    failed = b"thpcheck: read failed\n"
    yield Shown("no input", Call(ASKED, source=Source.CLOSED), 3, b"", lines(behind=failed))
    yield Shown("an empty input", Call(ASKED), 2, b"", lines(behind=b"thpcheck: line 1: cut\n"))
    for sink in (Sink.FULL, Sink.CLOSED, Sink.BROKEN):
        yield Shown(f"standard error {sink.name.lower()}", Call(ASKED, illegal, errors=sink), 1, b"illegal line 7\n", b"")
    yield Shown("standard output full", Call(ASKED, legal, output=Sink.FULL), 3, b"", lines(legal, behind=b"thpcheck: write failed\n"))
    half = legal[: len(legal) // 2]
    halves = (half, legal[len(half) :])
    yield Slow("a terminal, and no second has passed", (), (legal,), lines())
    yield Slow("a terminal, and a second has passed", (), halves, lines(legal))
    yield Slow("a terminal, asked for", ASKED, halves, lines(half, legal))
    quarters = tuple(legal[at : at + len(legal) // 4 + 1] for at in range(0, len(legal), len(legal) // 4 + 1))
    two = lines(quarters[0], quarters[0] + quarters[1])
    yield Slow("parts that come at once after a second", ASKED, quarters, two, pauses=(PAUSE, 0.0, 0.0))
    paced = (b"thp-journal 1\nnode 0 blocks 1\n0 alloc 0\n", b"0 pin 0\n0 unpin 0 stays -\n" * 120_000, b"0 pin 0\nend\n")
    yield Rated("the rate of 3 MiB", ASKED, paced, line(paced[0]) + rb".*" + lines(b"".join(paced)))
    yield Slow("no terminal", (), halves, lines(), terminal=False)
    yield Slow("no terminal, asked for", ASKED, halves, lines(half, legal), terminal=False)
