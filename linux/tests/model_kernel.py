"""Stand-ins for the running kernel: one shows stored looks, another does what the model and the known differences predict, one pass a scan.

    load                a script, and what a kernel showed of it, a look at a line
    StoredKernel        shows such looks
    InProcessProgram    the plain program without a process of its own, with an injected bug or none
    ModelKernel         shows what a correct program expects of a script
    run_on_model        a script's outcome for a program, on that kernel
"""

from __future__ import annotations

import json
from collections import Counter as Tallies
from collections.abc import Sequence
from pathlib import Path
from unittest.mock import Mock

from ..common.counters import Counter, Counts, SizeCounter
from ..common.errors import InputFault
from ..common.files import PMD_ORDER
from ..common.program import Program
from ..common.script import Script, read_script
from ..replay.comparison import Difference
from ..replay.expected_answers import NEVER, ExpectedAnswer, Unsupported, expect_run
from ..replay.pages import KernelPages
from ..replay.runner import Outcome, Result, Runner
from ..replay.states import NodeState, Observation, PageObservation
from .plain_program import report_of

STORED = Path(__file__).resolve().parent / "stored"


def parse_observation(line: str) -> Observation:
    """Returns the look of a line."""
    parsed = json.loads(line)
    sizes = {(SizeCounter(key), order): value for key, order, value in parsed["sizes"]}
    pages = {(node, page): PageObservation(whole, tuple(count for count, many in counts for _ in range(many)), int(mapped, 16))
             for node, page, whole, counts, mapped in parsed["pages"]}
    machine = {Counter(key): value for key, value in parsed["machine"].items()}
    return Observation(Counts(machine, sizes), pages, parsed["queues"])


def load(name: str) -> tuple[Script, list[Observation]]:
    """Returns a stored script and its looks."""
    lines = (STORED / f"{name}.looks").read_text(encoding="ascii").split("\n")[:-1]
    return read_script(str(STORED / f"{name}.script")), [parse_observation(line) for line in lines]


class StoredKernel(KernelPages):
    """Looks, one for the beginning and one for each command."""

    def __init__(self, looks: list[Observation]) -> None:
        self._looks, self.drops_zeros = iter(looks), True

    def run_command(self, expected: ExpectedAnswer, state: NodeState) -> None:
        pass

    def look(self, states: Sequence[NodeState]) -> Observation:
        look = next(self._looks, None)
        if look is None:
            raise InputFault("the recording has fewer looks than the script has commands")
        return look


class InProcessProgram(Program):
    """The plain program, called as a function."""

    def __init__(self, bug: str = "") -> None:
        self.path, self._bug = "plain", bug

    def report(self, kind: str, text: str, options: Sequence[str] = ()) -> str:
        return report_of(kind, text, list(options), self._bug)


class ModelKernel:
    """The nodes of a script, and the kernel's queues and failed splits."""

    def __init__(self, script: Script, zero_filled: bool, unmaps_singly: bool = False) -> None:
        self._expected = expect_run(script, InProcessProgram(), unmaps_singly)
        options = self._expected.options
        self._states = [NodeState(order, switch, zero_filled) for order, switch in zip(options.orders, options.underused)]
        self._queues: list[list[int]] = [[] for _ in self._states]
        self._failed: dict[int, int] = Tallies()

    def looks(self) -> list[Observation]:
        """Returns what it shows before all commands, and after each."""
        out = [self._look()]
        for expected in self._expected.answers:
            for event in expected.events:
                self._states[expected.node].apply(event)
            self._requeue(expected)
            out.append(self._look())
        return out

    def _requeue(self, expected: ExpectedAnswer) -> None:
        state, queue = self._states[expected.node], self._queues[expected.node]
        stays = [page for page in queue if page in state.queue]
        if expected.words[0] != "scan" or expected.is_refused:
            self._queues[expected.node] = stays + [page for page in state.queue if page not in stays]
            return
        back = {event.page for event in expected.events if event.word == "back"}
        queue = [page for page in queue if page in back]
        self._queues[expected.node] = queue[::-1]
        pinned = sum(event.word == "pinned" for event in expected.events)
        self._failed[state.order] += len(queue) if state.threshold == NEVER else pinned

    def _sum(self, name: str, order: int) -> int:
        return sum(getattr(state.event_counts, name) for state in self._states if state.order == order)

    def _look(self) -> Observation:
        partly = ("first_partly", "partly_by_split", "perhaps_partly")
        underused = sum(state.event_counts.underused for state in self._states)
        machine = {
            Counter.SPLIT: self._sum("split", PMD_ORDER), Counter.SPLIT_FAILED: self._failed[PMD_ORDER],
            Counter.DEFERRED: sum(self._sum(name, PMD_ORDER) for name in partly),
            Counter.SPLIT_PMD: self._sum("split_pmd", PMD_ORDER), Counter.UNDERUSED: underused,
        }
        sizes = {}
        for order in sorted({state.order for state in self._states}):
            deferred = sum(self._sum(name, order) for name in (partly if order == PMD_ORDER else partly[:1]))
            sizes[SizeCounter.SPLIT, order] = self._sum("split", order)
            sizes[SizeCounter.SPLIT_FAILED, order] = self._failed[order]
            sizes[SizeCounter.DEFERRED, order] = deferred
        pages = {}
        for node, state in enumerate(self._states):
            for number, page in enumerate(state.pages):
                pages[node, number] = PageObservation(len(page.own) if page.live else 0, page.totals(), 0)
                if page.live and page.split:
                    mapped = page.held & ~page.dropped_zero
                    counts = tuple(count if mapped >> at & 1 else 0 for at, count in enumerate(page.totals()))
                    pages[node, number] = PageObservation(0, counts, mapped)
        return Observation(Counts({**machine}, {**sizes}), pages, [list(queue) for queue in self._queues])


def run_on_model(script: Script, program: Program, unmaps_singly: bool = False) -> Outcome:
    """Runs a script once, as Runner does on the running kernel."""
    zero_filled = any(switch is not None for switch in script.options.underused)
    try:
        looks = ModelKernel(script, zero_filled, unmaps_singly).looks()
        known = Runner(Mock()).compare_run(expect_run(script, program, unmaps_singly), zero_filled, StoredKernel(looks))
    except Difference as difference:
        return Outcome(Result.DIFFERS, "", str(difference), difference.kind, difference.command)
    except (KeyError, Unsupported, InputFault) as error:  # KeyError: a page that the program alone has
        return Outcome(Result.SKIPPED, "", str(error))
    return Outcome(Result.AGREES, known)
