"""Runs a script's commands on the running kernel, by processes that map its pages (docs/LINUX.md: what each command is there)."""

from __future__ import annotations

import os
from collections.abc import Callable, Sequence
from dataclasses import dataclass

from ..common.counters import Counter, Counts, counts
from ..common.errors import RunFailed
from ..common.files import PMD_ORDER, SWITCH
from ..common.page_files import PageFlag
from ..common.script import Options
from ..common.subpages import bits_of, runs
from .bench import Bench
from .expected_answers import PAGE_COMMANDS, ExpectedAnswer, Unsupported
from .mappers import Mapper, Refusal
from .states import NodeState, Observation, PageName, PageObservation, PageState

DATA = 90  # the byte that subpages with data are filled with


@dataclass
class KernelPage:
    """A page on this kernel: its first frame, and the processes that map it."""

    mappers: list[Mapper]
    order: int
    frame: int
    shared: bool = False  # some fork has mapped it, so that a write may copy

    def mapper(self, fits: Callable[[Mapper], object], reason: str) -> Mapper:
        """Returns the first process that fits. Unsupported, with the reason, where there is none."""
        for mapper in self.mappers:
            if fits(mapper):
                return mapper
        raise Unsupported(reason)

    def pieces(self, bits: int, whole: bool) -> list[tuple[Mapper, int, int]]:
        """Returns processes with a first and a count that cover these subpages together, by PTEs where some do, by a PMD entry only
        if `whole`; none where nobody maps one of the subpages."""
        found = [mapper for mapper in sorted(self.mappers, key=lambda mapper: mapper.whole) if whole or not mapper.whole]
        out = []
        while bits:
            low = (bits & -bits).bit_length() - 1
            firsts = [next(runs(mapper.mapped >> low & bits >> low), (1, 0)) for mapper in found]
            most = max((count for first, count in firsts if first == 0), default=0)
            if not most:
                return []
            out.append((found[firsts.index((0, most))], low, most))
            bits &= ~bits_of(low, most)
        return out


class KernelPages:
    """One script's pages on a bench, filled with the byte `fill`. `drops_zeros`: any split gives mapped zero-filled subpages back (B)."""

    def __init__(self, bench: Bench, options: Options, fill: int) -> None:
        self._bench, self._fill = bench, fill
        self.drops_zeros = os.path.exists(SWITCH)  # both came with Linux 6.12
        self._pages: list[list[KernelPage]] = [[] for _ in range(options.nodes)]
        self._orders = sorted(set(options.orders))
        self._own_splits = 0
        self._before = counts(self._orders)
        self._started: list[Mapper] = []

    def run_command(self, expected: ExpectedAnswer, state: NodeState) -> None:
        """Runs a command that wasn't refused; the node's state is that before it. Unsupported: nothing was done."""
        word, operands = expected.words[0], [int(text) for text in expected.words[2:]]
        try:
            if word in PAGE_COMMANDS:
                getattr(self, f"_{word}")(self._pages[expected.node][operands[0]], state.pages[operands[0]], *operands[1:])
            elif word != "count":
                getattr(self, f"_{word}")(expected.node, state, *operands)
        except Refusal as refusal:
            raise Unsupported(str(refusal)) from refusal

    def close(self) -> None:
        """Ends the script's processes; their pages go with them."""
        if not all([mapper.end() for mapper in self._started]):
            raise RunFailed("a mapping process doesn't end")

    # what the kernel shows

    def look(self, states: Sequence[NodeState]) -> Observation:
        """Returns the kernel now: counters, each live page, each queue."""
        since = counts(self._orders).since(self._before)
        splits = since.machine[Counter.SPLIT_PMD]
        machine = {**since.machine, Counter.SPLIT_PMD: None if splits is None else splits - self._own_splits}
        pages = {(node, number): self._look_at(self._pages[node][number], page.split)
                 for node, state in enumerate(states) for number, page in enumerate(state.pages) if page.live}
        numa_nodes: dict[PageName, int] = {}
        queues = [self._queue(node, state, numa_nodes) for node, state in enumerate(states)]
        return Observation(Counts(machine, since.sizes), pages, queues, numa_nodes)

    def _look_at(self, held: KernelPage, is_split: bool) -> PageObservation:
        whole = mapped = 0
        if not is_split:
            head, *tails = self._bench.frames.flags(held.frame, 1 << held.order)
            whole = bool(head & PageFlag.COMPOUND_HEAD) + sum(map(tails.count, {tail for tail in tails if tail & PageFlag.COMPOUND_TAIL}))
        for mapper in held.mappers if not is_split and whole != 1 << held.order else []:
            for first, _ in runs(mapper.mapped):
                if mapper.frames(first, 1)[0] not in (None, held.frame + first):
                    raise Unsupported("the kernel has moved a page: it compacts memory meanwhile")
        for mapper in held.mappers if is_split else []:
            mapper.whole = False
            for first, count in runs(mapper.mapped):
                found, own = mapper.frames(first, count), [*range(held.frame + first, held.frame + first + count)]
                same = (1 << at for at, (frame, wanted) in enumerate(zip(found, own), first) if frame == wanted)
                mapped |= bits_of(first, count) if found == own else sum(same)
        return PageObservation(whole, self._bench.frames.counts(held.frame, 1 << held.order), mapped)

    def _queue(self, node: int, state: NodeState, numa_nodes: dict[PageName, int]) -> list[int] | None:
        """Returns a node's queue as page numbers, by NUMA node; puts the NUMA nodes other than 0 into `numa_nodes`."""
        queues = self._bench.queues(node)
        if queues is None:
            return None
        numbers = {held.frame: i for i, held in enumerate(self._pages[node]) if state.pages[i].live}
        out: list[int] = []
        for numa_node, frames in sorted(queues.items()):
            shown = [numbers.get(frame, -frame) for frame in frames]
            numa_nodes.update({(node, number): numa_node for number in shown if numa_node and number >= 0})
            out += shown
        return out

    # the commands

    def _alloc(self, node: int, state: NodeState) -> None:
        mapper = self._fork(self._bench.servers[node].process)
        mapper.alloc(state.order, self._fill)
        frames = mapper.frames(0, 1 << state.order)
        first = frames[0] or 0
        if frames != [*range(first, first + len(frames))]:
            raise Unsupported(f"no huge page of order {state.order} to be had")
        mapper.whole, mapper.mapped = True, bits_of(0, len(frames))
        self._pages[node].append(KernelPage([mapper], state.order, first))

    def _fork(self, of: Mapper) -> Mapper:
        self._started.append(of.fork())
        return self._started[-1]

    def _mapwhole(self, page: KernelPage, _before: PageState) -> None:
        source = page.mapper(lambda mapper: mapper.whole, "mapwhole where no PMD entry is left to be copied")
        page.mappers.append(self._fork(source))
        page.shared = True

    def _unmapwhole(self, page: KernelPage, _before: PageState) -> None:
        mapper = page.mapper(lambda mapper: mapper.whole, "unmapwhole where nothing maps the page whole")
        mapper.request("unmap", 0, 1 << page.order)
        mapper.whole, mapper.mapped = False, 0

    def _map(self, page: KernelPage, _before: PageState, first: int, count: int) -> None:
        pieces = page.pieces(bits_of(first, count), True)
        if not pieces:
            raise Unsupported("map of a subpage that nothing maps")
        for source, low, length in pieces:
            child = self._fork(source)
            page.mappers.append(child)
            if child.whole:
                self._divide(child, page)
                self._own_splits += page.order == PMD_ORDER
            self._drop(child, child.mapped & ~bits_of(low, length))
        page.shared = True

    def _drop(self, mapper: Mapper, bits: int) -> None:
        for first, count in runs(bits):
            mapper.request("unmap", first, count)
        mapper.mapped &= ~bits

    def _divide(self, mapper: Mapper, page: KernelPage) -> None:
        if page.order == PMD_ORDER:  # smaller pages are always mapped by PTEs
            mapper.request("splitpmd")
        mapper.whole = False

    def _unmap(self, page: KernelPage, before: PageState, first: int, count: int) -> None:
        pieces = page.pieces(bits_of(first, count), False)
        if not pieces:
            raise Unsupported("unmap of subpages that only whole mappings have")
        left = [own - (first <= i < first + count) for i, own in enumerate(before.own)]
        frees = not before.whole and not any(left)
        if len(pieces) > 1 and frees and not before.split and not before.partly:
            raise Unsupported("the last mappings lie in several processes: the kernel would see the page partly mapped")
        for mapper, low, length in pieces:
            self._drop(mapper, bits_of(low, length))

    def _splitpmd(self, page: KernelPage, _before: PageState) -> None:
        self._divide(page.mapper(lambda mapper: mapper.whole, "splitpmd where nothing maps the page whole"), page)

    def _pin(self, page: KernelPage, _before: PageState) -> None:
        mapper = page.mapper(lambda mapper: mapper.mapped, "pin of a page that nothing maps")
        mapper.request("pin", next(runs(mapper.mapped))[0])
        mapper.pins += 1

    def _unpin(self, page: KernelPage, _before: PageState) -> None:
        mapper = page.mapper(lambda mapper: mapper.pins, "unpin where no process holds a pin")
        mapper.request("unpin")
        mapper.pins -= 1

    def _write(self, page: KernelPage, _before: PageState, first: int, count: int, byte: int = DATA) -> None:
        bits = 0 if page.shared else bits_of(first, count)
        reason = "a write to a page that was shared: the kernel may copy it"
        page.mapper(lambda mapper: bits and mapper.mapped & bits == bits, reason).request("fill", first, count, byte)

    def _zero(self, page: KernelPage, before: PageState, first: int, count: int) -> None:
        self._write(page, before, first, count, 0)

    def _scan(self, node: int, state: NodeState, most: int) -> None:
        if most < len(state.queue):
            raise Unsupported("a scan of less than the whole queue: a reclaim takes all")
        self._bench.groups.reclaim(self._bench.servers[node].path)
