"""Finds the huge anonymous pages that processes map, how each subpage is mapped, and which subpages are zero-filled.

Nothing is changed by it: page tables and content are read by BPF, in worker processes and threads, frames by /proc/kpageflags,
kpagecount and kpagecgroup. second_look.py reads again what has changed meanwhile."""

from __future__ import annotations

import os
from array import array
from bisect import bisect_right
from collections import Counter, deque
from concurrent.futures import ThreadPoolExecutor
from typing import Callable, Deque, Iterable, Iterator, Sequence

from . import proc
from .files import BASE
from .folios import Folio, Mapping, compact_counts
from .kernel_memory import KernelMemory
from .page_files import NumberFile, PageFlag, TooShort
from .proc import Unreadable, describe
from .spaces import Space, find_spaces
from .subpages import bits_of, size
from .workers import MOST_SPANS, PIECE, Answer, Request, Workers

Look = Callable[[list[Folio]], list[Folio]]  # fills in what kernel memory has of pages; returns those that are no longer in use

PARTS_MOVED = "parts of huge pages that changed while they were read"
SMALL = "huge pages below PMD size (--orders has them)"
FREED = "huge pages that were freed while they were read"
HIDDEN = "huge pages whose content couldn't be read"
BATCH = 1024  # huge pages whose content is read at a time
MEMORY = 512  # MiB that a look keeps at most, if no other limit is given
PIECE_COST, FOLIO_COST = 400, 2600  # bytes of a mapping and of a huge page, with all that is made of them


class Spans:
    """The locked areas of a process, ascending and disjoint."""

    def __init__(self, pairs: bytes) -> None:
        numbers = array("Q", pairs)
        self.lows, self.highs = numbers[::2], numbers[1::2]

    def subpages(self, address: int, size: int) -> int:
        """Returns the set of those of `size` subpages from an address on that lie in these areas."""
        address -= address >> 63 << 64  # which may be below 0
        out, end = 0, address + size * BASE
        for index in range(bisect_right(self.highs, address), len(self.lows)):
            low, high = max(self.lows[index], address), min(self.highs[index], end)
            if low >= end:
                break
            out |= bits_of((low - address) // BASE, (high - low) // BASE)
        return out


class Reader:
    """Reads the huge pages of processes, and what the kernel has of them. `memory`: MiB that are kept at most."""

    def __init__(
        self,
        kernel: KernelMemory,
        with_small: bool = False,
        threads: int = 0,
        memory: int = MEMORY,
        look: Look = lambda folios: [],
    ) -> None:
        self._kernel, self._look = kernel, look
        self._threads = threads or min(4, os.cpu_count() or 1)
        self._memory, self._used = memory << 20, 0
        self._files = [NumberFile(f"/proc/kpage{name}") for name in ("flags", "count")]
        if os.path.exists("/proc/kpagecgroup"):  # else a kernel without memory control groups: all pages are in one node
            self._files.append(NumberFile("/proc/kpagecgroup"))
        self._most = self._memory // (PIECE_COST + FOLIO_COST)
        self._workers = Workers(self._files[0].fileno(), kernel.tables(), self._threads, self._most, with_small)
        self.spaces: dict[int, Space] = {}  # by process
        self.walked: dict[int, bytes] = {}  # the pieces of each process that has any
        self._locked: dict[int, Spans] = {}  # by process
        self.folios: dict[int, Folio] = {}  # by frame
        self.left_out: Counter[str] = Counter()
        self.unread: Counter[str] = Counter()
        self.looked_at = 0  # processes with memory
        self.is_limited = False  # by memory: not all pages are kept
        self.denied: set[int] = set()  # processes that may not be read
        self.others = 0  # anonymous pages that aren't huge, base pages
        self.by_pmd = 0  # PMD mappings

    def close(self) -> None:
        """Ends the workers, and closes the kernel's files."""
        self._workers.close()
        for file in self._files:
            file.close()

    def answers(self, todo: Deque[Request]) -> Iterator[tuple[Request, Answer]]:
        """Yields requests with what workers have read. Processes that can't be read are counted; ended ones map nothing."""
        for request, answer in self._workers.ask(todo):
            error = error_of(answer)
            if not error:
                yield request, answer or Answer(0)
                continue
            try:
                space = self.spaces[request.process]
                if not isinstance(error, proc.ENDED):
                    raise error
                if space.is_alive():
                    todo.append(request._replace(thread=space.thread.number))
                else:
                    yield request, Answer(0)
            except (OSError, Unreadable) as why:
                self.unread[describe(request.process, why)] += 1
                if isinstance(why, PermissionError):
                    self.denied.add(request.process)

    def read_processes(self, processes: Iterable[int]) -> None:
        """Reads what processes map."""
        spaces = find_spaces(processes, self._workers, self.unread)
        self.looked_at = sum(len(space.sharing) for space in spaces)
        self.spaces = {space.process: space for space in spaces}
        for request, answer in self.answers(deque(space.request() for space in spaces)):
            self._add(request.process, answer)

    def request_again(self, process: int) -> Request:
        """Returns the request to look again at what a process maps: at all of it where a worker has no room for both."""
        pieces, self._workers.most = self.walked[process], self._most
        return self.spaces[process].request(pieces if 2 * len(pieces) <= self._most * PIECE.size else b"")

    def _add(self, process: int, answer: Answer) -> None:
        """Adds what a process maps, as far as the limit of memory lets."""
        left = (self._memory - self._used - len(self.folios) * FOLIO_COST - len(answer.locked)) // (PIECE_COST + FOLIO_COST)
        pieces = answer.data[: max(0, left) * PIECE.size]
        lost = answer.lost + (len(answer.data) - len(pieces)) // PIECE.size
        if answer.locked:
            self._locked[process] = Spans(answer.locked)
        mapped = 0
        for piece in PIECE.iter_unpack(pieces):
            self.take(*piece)
            self.by_pmd += piece[5]
            mapped += size(int.from_bytes(piece[7], "little"))
        if pieces:
            self.walked[process] = pieces
        self._used += len(pieces) // PIECE.size * PIECE_COST + len(answer.locked)
        self._workers.most = max(0, left - len(pieces) // PIECE.size)
        self.others += max(0, self.spaces[process].thread.pages - mapped)
        beyond = f"parts of huge pages beyond the limit of memory (--memory {self._memory >> 20})"
        self.is_limited |= lost > 0
        self.left_out += Counter({PARTS_MOVED: answer.changed, SMALL: answer.small})
        self.unread += Counter({beyond: lost})

    def take(self, address: int, head: int, flags: int, process: int, order: int, by_pmd: int, _: int, raw: bytes) -> None:
        """Adds a piece: how a process maps a huge page."""
        folio = self.folios.get(head)
        if folio is None or folio.order != order:
            folio = self.folios[head] = Folio(head, order)
        folio.is_locked = bool(flags & PageFlag.MLOCKED)
        folio.is_poisoned = bool(flags & PageFlag.HWPOISON)
        folio.is_swap_cached = bool(flags & PageFlag.SWAPCACHE)
        folio.is_lazily_freed = not flags & PageFlag.SWAPBACKED
        subset = int.from_bytes(raw, "little")
        folio.mappings.append(Mapping(process, address, folio.full if subset == folio.full else subset, bool(by_pmd)))

    def read_all(self) -> None:
        """Reads what else there is of the pages that processes map, and leaves out those that are no longer in use."""
        folios = list(self.folios.values())
        gone = self.read_pages(folios)
        self.read_contents(folios)
        for frame in gone:
            self.leave_out(self.folios[frame], FREED)

    def read_pages(self, folios: list[Folio]) -> set[int]:
        """Reads control groups of pages, what kernel memory has of them, and map counts that aren't known by that. Returns the
        frames of those that are no longer in use, or whose memory was taken from the machine."""
        for folio in folios if len(self._files) > 2 else ():
            folio.cgroup = sum(self._numbers(2, folio, 1))
        gone = self._look(folios)
        for folio in folios:
            folio.totals = folio.totals or compact_counts(self._numbers(1, folio, folio.size))
        return {folio.frame for folio in gone} | {folio.frame for folio in folios if not folio.totals}

    def _numbers(self, file: int, folio: Folio, count: int) -> Sequence[int]:
        """Returns numbers of a page from a file of the kernel; none where its memory was taken from the machine."""
        try:
            return self._files[file].at(folio.frame, count)
        except TooShort:
            return ()

    def read_contents(self, folios: list[Folio]) -> None:
        """Reads which subpages are zero-filled, by the kernel's own map of memory, in threads: whole, whoever maps the page, and
        it counts as no access. What can't be read isn't `known`."""

        def read_some(place: int) -> None:
            for folio in todo:  # each is another thread's, or this one's
                zero = self._kernel.zeros(folio.frame, folio.size, place)
                folio.zero, folio.known = zero or 0, 0 if zero is None else folio.full

        with ThreadPoolExecutor(self._threads) as pool:
            for first in range(0, len(folios), BATCH):
                todo = iter(folios[first : first + BATCH])
                list(pool.map(read_some, range(self._threads)))

    def keep_locked(self, folios: Iterable[Folio]) -> None:
        """Finds which subpages of pages locked areas keep."""
        for folio in folios if self._locked else ():
            for mapping in folio.mappings:
                if mapping.process in self._locked:
                    folio.kept |= self._locked[mapping.process].subpages(mapping.address, folio.size) & mapping.subset

    def leave_out(self, folio: Folio, why: str) -> None:
        """Leaves out, and counts, a page."""
        del self.folios[folio.frame]
        self.left_out[why] += 1


def error_of(answer: Answer | None) -> Exception | None:
    """Returns why a process can't be read."""
    if answer is None:
        return Unreadable("it can't be read in time")
    if answer.spans > MOST_SPANS:
        return Unreadable(f"it has more than {MOST_SPANS} locked areas")
    number = -min(answer.found, answer.spans)
    return OSError(number, os.strerror(number)) if number > 0 else None
