"""Unnamed temporary files, written at their end and read back in passes; a journal's lines, the older ones of which are in one."""

from __future__ import annotations

import itertools
import os
import tempfile
from functools import partial
from typing import IO, Iterable, Iterator, Sequence

from ..common.errors import RunFailed

FOLDER = "/var/tmp"
PIECE = 1 << 20  # bytes that are read at a time
LINES = 10000  # that are written at a time
WINDOW = 20000  # lines that can be reordered
SLACK = 5000  # lines beyond these that are kept before the oldest go to the file
TIME_AT, TEXT_AT = 32, 96  # in a packed line, which begins with the page
PAGE, PLACE = (1 << TIME_AT) - 1, (1 << TEXT_AT) - 1


class ScratchFile:
    """Gone when it is closed. RunFailed, which names `what`, where it can't be made or written. Nothing is buffered, no error late."""

    def __init__(self, what: str, folder: str = FOLDER) -> None:
        self._what = what
        try:
            self._file: IO[bytes] = tempfile.TemporaryFile(dir=folder, buffering=0)
        except OSError as error:
            raise RunFailed(f"no temporary file in {folder}: {error.strerror}") from error
        self.descriptor = self._file.fileno()

    @property
    def size(self) -> int:
        """Its bytes."""
        return os.fstat(self.descriptor).st_size

    def append(self, data: bytes) -> None:
        """Writes bytes at its end."""
        self.overwrite(os.lseek(self.descriptor, 0, os.SEEK_END), data)
        os.lseek(self.descriptor, 0, os.SEEK_END)

    def overwrite(self, at: int, data: bytes) -> None:
        """Writes bytes at a place."""
        try:
            while data:
                done = os.pwrite(self.descriptor, data, at)
                at, data = at + done, data[done:]
        except OSError as error:
            raise RunFailed(f"{self._what} can't be written to disk: {error.strerror}") from error

    def append_lines(self, lines: Iterable[str]) -> int:
        """Writes ASCII lines, given without their ends; returns how many."""
        rest, count = iter(lines), 0
        while piece := list(itertools.islice(rest, LINES)):
            self.append("".join(f"{line}\n" for line in piece).encode("ascii"))
            count += len(piece)
        return count

    def open_again(self) -> IO[bytes]:
        """Opens it once more, to be read from its start."""
        return open(f"/proc/self/fd/{self.descriptor}", "rb", buffering=PIECE)

    def pieces(self) -> Iterator[bytes]:
        """Yields its content."""
        with self.open_again() as file:
            yield from iter(partial(file.read, PIECE), b"")

    def close(self) -> None:
        """Removes it."""
        self._file.close()


def pack_line(page: int, time: int, text: str) -> int:
    """Packs a line: the recorder's number of a page, the time (ns) of what showed its event, and the event's text without that number."""
    return int.from_bytes(text.replace(f" {page}", "", 1).encode("ascii"), "little") << TEXT_AT | time << TIME_AT | page


def unpack_line(line: int) -> tuple[int, str]:
    """Returns the time and the text of a line."""
    rest = line >> TEXT_AT
    caller, word, *more = rest.to_bytes(rest.bit_length() + 7 >> 3, "little").decode("ascii").split(" ", 2)
    return (line & PLACE) >> TIME_AT, " ".join([caller, word, str(line & PAGE), *more])


class JournalLines:
    """All lines in order, packed. `latest` may be replaced by a list of the same lines in another order."""

    def __init__(self) -> None:
        self.latest: list[int] = []
        self.final = 0  # how many lines went to the file
        self.more = 0  # lines beyond WINDOW that can be reordered: those of pages whose places in the queue aren't known
        self._file = ScratchFile("the journal")

    def add(self, line: int) -> None:
        """Appends a line, and makes the oldest ones final where there are many more than can be reordered."""
        self.latest.append(line)
        window = WINDOW + self.more
        if len(self.latest) >= window + SLACK:
            oldest, self.latest = self.latest[:-window], self.latest[-window:]
            self._file.append_lines("%d %s" % unpack_line(each) for each in oldest)
            self.final += len(oldest)

    def find(self, line: int) -> int:
        """Returns where a line is among the latest; -1: nowhere."""
        return next((at for at in range(len(self.latest) - 1, -1, -1) if self.latest[at] is line), -1)

    def move_behind(self, page: int, count: int) -> None:
        """Moves the latest `count` lines behind the allocation of a page, and to its time, unless that is final."""
        edge = len(self.latest) - count
        own = (at for at in range(edge - 1, -1, -1) if self.latest[at] & PAGE == page)
        place = next((at for at in own if " alloc " in unpack_line(self.latest[at])[1]), -1)
        if place >= 0:
            moved = [each & ~PLACE | self.latest[place] & PLACE for each in self.latest[edge:]]
            self.latest[place + 1 :] = moved + self.latest[place + 1 : edge]

    def timed_texts(self, omitted: Sequence[int]) -> Iterator[tuple[int, str]]:
        """Yields the time (ns) and the text of all lines except those of omitted pages. Pages are numbered by their first lines."""
        numbers: dict[int, str] = {}  # of the pages that live, by their numbers in `latest` and in the file
        given = 0
        for time, text in self.raw():
            caller, word, page, *rest = text.split(" ", 3)
            number = int(page)
            if omitted[number]:
                continue
            if number not in numbers:
                numbers[number] = str(given)
                given += 1
            yield time, " ".join([caller, word, numbers[number], *rest])
            if rest and rest[0].rpartition(" ")[0].endswith("freed"):
                del numbers[number]  # this was its last line

    def raw(self) -> Iterator[tuple[int, str]]:
        """Yields the time (ns) and the text of all lines, with the recorder's numbers of pages."""
        with self._file.open_again() as lines:
            for line in lines:
                time, _, text = line.decode("ascii").rstrip("\n").partition(" ")
                yield int(time), text
        yield from map(unpack_line, self.latest)

    def close(self) -> None:
        """Removes the file."""
        self._file.close()
