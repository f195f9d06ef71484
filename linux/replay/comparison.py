"""Compares what the kernel shows of a script with what `thpsplit` reports and the known differences predict, with slack only in
F (any number of passes that fits what a pinned page shows) and G (a page with both kinds of mappings: 0 or 1).

Frames, map counts and queues belong to the script alone: a difference there is raised at once. The counters are of the whole
machine, and other programs move them too: the first difference there is kept, and no counter is compared afterwards."""

from __future__ import annotations

import re
from collections import Counter as Tallies
from collections.abc import Sequence

from ..common.counters import Counter, Counts, SizeCounter
from ..common.files import PMD_ORDER
from ..common.subpages import set_text
from .expected_answers import NEVER, ExpectedAnswer
from .states import NodeState, Observation, PageObservation, PageState

Lists = dict[int, list[int]]  # pages by NUMA node
_NUMBERS = re.compile(r"\[[^]]*\]|[0-9]+(?:[-,][0-9]+)*")


class Difference(Exception):
    """The kernel shows something else; the text names it, with the kernel's value and thpsplit's. `kind` is what differs,
    without numbers, and after which command; `command` is that command's place in the script (0: before all)."""

    def __init__(self, text: str, kind: str = "", command: int = 0) -> None:
        super().__init__(text)
        self.kind, self.command = kind, command


class CounterDifference(Difference):
    """Only counters of the whole machine differ."""


class Comparison:
    """Follows a script on all nodes. `known` gathers the known differences that it met, beginning with the run's. `small`: nodes
    whose pages aren't queued at their fault (C). `command`: the one that is compared, None before all."""

    def __init__(self, states: Sequence[NodeState], known: set[str], small: set[int]) -> None:
        self._states, self._small = states, small
        self._queues: list[list[int]] = [[] for _ in states]  # the kernel's, as they should be
        self._numa_nodes: list[dict[int, int]] = [{} for _ in states]  # of queued pages, where a node has several lists
        self._failed: dict[int, int] = Tallies()  # failed splits by order, as they should be
        self.known = set(known)
        self.counters: CounterDifference | None = None  # the first one
        self.sums: Tallies[str] = Tallies()
        self.command: ExpectedAnswer | None = None

    @property
    def where(self) -> str:
        """The command that is compared, as reports name it."""
        return f"command {self.command.place}: {' '.join(self.command.words)}" if self.command else "before all"

    def difference(self, text: str, what: str) -> Difference:
        """Returns a difference with its place, and with the difference of a counter before it."""
        earlier = f"; before it {self.counters}" if self.counters else ""
        word, place = (self.command.words[0], self.command.place) if self.command else ("", 0)
        return Difference(f"{text} ({self.where}){earlier}", f"{_NUMBERS.sub('N', what)} after {word}", place)

    def _require_equal(self, what: str, kernel: object, model: object) -> None:
        if kernel != model:
            raise self.difference(f"{what}, kernel {kernel}, thpsplit {model}", what)

    def _counter_differs(self, what: str, kernel: object, model: object) -> None:
        """Keeps the first difference of a counter that the kernel has; no other is compared afterwards."""
        if not self.counters and kernel is not None and kernel != model:
            found = self.difference(f"{what}, kernel {kernel}, thpsplit {model}", what)
            self.counters = CounterDifference(str(found), found.kind, found.command)

    def compare(self, observed: Observation) -> None:
        """Raises Difference where the script's own state differs. A counter that differs is kept in `counters`."""
        if self.command:
            self._update(self.command, observed)
        self._note_known()
        self._compare_counters(observed.counts)
        for node, state in enumerate(self._states):
            for number, page in enumerate(state.pages):
                if page.live:
                    self._compare_page(node, number, page, observed.pages[node, number])
            self._compare_queue(node, state, observed.queues[node])

    def _update(self, expected: ExpectedAnswer, observed: Observation) -> None:
        """Computes the kernel's queue and failed splits. The node's state is that after the command."""
        for (node, page), numa_node in observed.numa_nodes.items():
            self._numa_nodes[node][page] = numa_node
        state, queue = self._states[expected.node], self._queues[expected.node]
        if expected.words[0] == "scan" and not expected.is_refused:
            self._scan(expected, state, observed)
        else:
            stays = [page for page in queue if page in state.queue]
            self._queues[expected.node] = stays + [page for page in state.queue if page not in stays]

    def _scan(self, expected: ExpectedAnswer, state: NodeState, observed: Observation) -> None:
        pinned, taken, stay = ([event.page for event in expected.events if event.word == word] for word in ("pinned", "taken", "back"))
        in_order = [page for page in taken if page in stay]
        if stay != in_order:  # E: the kernel's order is the other way round, the program's is that of taking
            self._require_equal(f"order of putting back {in_order}, which the kernel turns around at each pass (E)", "so", stay)
        queue = [page for page in self._queues[expected.node] if page in stay]
        once = len(pinned) - len(stay)  # pinned underused pages leave the queue after one try
        if state.threshold == NEVER and once:
            self.known.add("D")
            once = 0
        numa_nodes = self._numa_nodes[expected.node]
        lists, shown = lists_of(queue, numa_nodes), lists_of(observed.queues[expected.node] or [], numa_nodes)
        turned = {number: is_turned(pages, shown.get(number)) for number, pages in lists.items()}
        failed = self._failed_tries(state.order, once, lists, turned, observed.counts)
        self._failed[state.order] += once + failed
        if failed > len(queue):
            self.known.add("F")
        after = {number: pages if turned[number] is False else pages[::-1] for number, pages in lists.items()}
        self._queues[expected.node] = join_lists(after)

    def _failed_tries(self, order: int, once: int, lists: Lists, turned: dict[int, bool | None], counts: Counts) -> int:
        """Returns how many tries of pages that stayed have failed in a scan, each list of a NUMA node with passes of its own: by
        the kernel's count, unless it isn't known or a counter differed before; else as few as fit the order."""
        total = counts.sizes[SizeCounter.SPLIT_FAILED, order]
        if total is None and order == PMD_ORDER:
            total = counts.machine[Counter.SPLIT_FAILED]
        fewest = sum(len(pages) * (2 if turned[number] is False else 1) for number, pages in lists.items())
        if total is None or self.counters:
            return fewest
        failed = total - self._failed[order] - once
        fits = can_fail(failed, [(len(pages), turned[number]) for number, pages in lists.items()])
        if not fits:
            passes = {None: "pass", True: "pass, an odd number", False: "pass, an even number"}
            wanted = [str(once), *(f"{len(pages)} for each {passes[turned[number]]}" for number, pages in lists.items())]
            self._counter_differs("split_failed of a scan", failed + once, " + ".join(wanted))
        return failed if fits else fewest

    def _sum(self, name: str, order: int | None = None) -> int:
        return sum(getattr(state.event_counts, name) for state in self._states if order in (None, state.order))

    def _deferred(self, order: int, shown: int | None) -> int:
        """Returns how many pages the kernel should have counted as deferred (A, G)."""
        least = self._sum("first_partly", order)
        if order < PMD_ORDER:
            return least
        least += self._sum("partly_by_split", order)
        return min(max(least, shown or 0), least + self._sum("perhaps_partly", order))

    def _note_known(self) -> None:
        if self._sum("queued", PMD_ORDER) != self._sum("first_partly", PMD_ORDER):
            self.known.add("A")
        if self._sum("partly_by_split") + self._sum("perhaps_partly"):
            self.known.add("G")
        for order in {state.order for state in self._states} - {PMD_ORDER}:
            if any(self._sum(name, order) for name in ("split", "failed", "queued", "split_pmd")):
                self.known.add("W")

    def _compare_counters(self, counts: Counts) -> None:
        machine = {
            Counter.SPLIT: self._sum("split", PMD_ORDER),
            Counter.DEFERRED: self._deferred(PMD_ORDER, counts.machine[Counter.DEFERRED]),
            Counter.SPLIT_PMD: self._sum("split_pmd", PMD_ORDER),
            Counter.UNDERUSED: self._sum("underused"),
            Counter.SPLIT_FAILED: self._failed[PMD_ORDER],
        }
        for counter, model in machine.items():
            self._counter_differs(counter.value, counts.machine[counter], model)
        for order in sorted({state.order for state in self._states}):
            deferred = self._deferred(order, counts.sizes[SizeCounter.DEFERRED, order])
            models = (self._sum("split", order), self._failed[order], deferred)
            for key, model in zip((SizeCounter.SPLIT, SizeCounter.SPLIT_FAILED, SizeCounter.DEFERRED), models):
                self._counter_differs(f"{key.value} of order {order}", counts.sizes[key, order], model)

    def _compare_page(self, node: int, number: int, page: PageState, observed: PageObservation) -> None:
        name, compared = f"page {number} of node {node}", page.every
        if page.split:
            held, compared = page.held & ~page.dropped_zero, observed.mapped
            if held != page.held:
                self.known.add("C" if node in self._small else "B")
            self._require_equal(f"frames of {name}", set_text(observed.mapped), set_text(held))
        else:
            self._require_equal(f"frames of {name}", observed.whole, len(page.own))
        totals = page.totals()
        for i in range(len(totals) if observed.counts != totals else 0):
            if compared >> i & 1:
                self._require_equal(f"map count of {name}, subpage {i}", observed.counts[i], totals[i])

    def _compare_queue(self, node: int, state: NodeState, queue: list[int] | None) -> None:
        if queue is None:
            return
        numa_nodes = self._numa_nodes[node]
        expected_queue = join_lists(lists_of(self._queues[node], numa_nodes))
        shown = [page if page >= 0 else f"frame {-page:#x}" for page in queue]
        self._require_equal(f"queue of node {node}", shown, expected_queue)
        self.sums["queues compared"] += 1
        for least in (2, 20):
            self.sums[f"queues compared, of {least} pages or more"] += len(expected_queue) >= least
        if expected_queue != join_lists(lists_of(state.queue, numa_nodes)):
            self.known.add("E")


def lists_of(queue: Sequence[int], numa_nodes: dict[int, int]) -> Lists:
    """Returns the pages of a queue by NUMA node, in their order; a page whose node isn't known is on node 0."""
    nodes = sorted({numa_nodes.get(page, 0) for page in queue})
    return {node: [page for page in queue if numa_nodes.get(page, 0) == node] for node in nodes}


def join_lists(lists: Lists) -> list[int]:
    """Returns the lists in the order of their NUMA nodes as one."""
    return [page for pages in lists.values() for page in pages]


def is_turned(queue: list[int], observed: list[int] | None) -> bool | None:
    """Returns whether the kernel's queue has the pages that stayed in reverse order, as after an odd number of passes; None: not known."""
    if queue == queue[::-1] or observed not in (queue, queue[::-1]):
        return None
    return observed != queue


def can_fail(failed: int, lists: Sequence[tuple[int, bool | None]]) -> bool:
    """Returns whether lists can fail so often together, if each is tried as a whole in one pass or more. A list is its number
    of pages, and whether its order was turned around, which an odd number of passes does (None: it can't be seen)."""
    rest = failed - sum(count * (2 if turned is False else 1) for count, turned in lists)
    if rest < 0:
        return False
    reached = [True] + [False] * rest
    for count, turned in lists:
        step = count * (1 if turned is None else 2)
        for sum_before in range(rest + 1 - step):
            reached[sum_before + step] |= reached[sum_before]
    return reached[rest]
