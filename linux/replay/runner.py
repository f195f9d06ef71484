"""Runs one script on the kernel: each command, a look, the comparison."""

from __future__ import annotations

import enum
from collections import Counter as Tallies
from collections.abc import Callable, Sequence
from dataclasses import dataclass

from ..common.counters import CounterWatch
from ..common.errors import InputFault
from ..common.script import Script
from ..common.text import escape
from .bench import Bench
from .comparison import Comparison, CounterDifference, Difference
from .expected_answers import ExpectedAnswer, ExpectedRun, Unsupported, expect_run
from .pages import DATA, KernelPages
from .states import NodeState

TRIES = 3  # a difference counts where each run of the script has one
LAST_WINDOWS = 20  # in which the counters are watched before a difference of theirs alone counts


class Result(enum.Enum):
    """How a script ends; `inconclusive`: only counters differ, and something else may have moved them."""

    AGREES = "agrees"
    DIFFERS = "differs"
    INCONCLUSIVE = "inconclusive"
    SKIPPED = "skipped"


@dataclass(frozen=True)
class Outcome:
    """What is reported of a script: `known` are letters, `text` is the difference or the reason. Of one that differs:
    `kind` is what differs, without numbers, and `command` the place of the command after which it does."""

    result: Result
    known: str = ""
    text: str = ""
    kind: str = ""
    command: int = 0

    def line(self) -> str:
        """Returns the report, printable."""
        if self.result is not Result.AGREES:
            return f"{self.result.value}: {escape(self.text)}"
        known = f" (but for {' '.join(self.known)})" if self.known else ""
        return f"agrees{known}" + (f", at another try after: {escape(self.text)}" if self.text else "")


class Runner:
    """Runs scripts on a bench, and compares. `sums` counts commands and comparisons; `report` is called with each command."""

    def __init__(self, bench: Bench, report: Callable[[str], None] | None = None) -> None:
        self._bench, self._report = bench, report
        self.sums: Tallies[str] = Tallies()

    def run(self, script: Script, zero_filled: bool | None = None) -> Outcome:
        """Runs one script. `zero_filled`: whether new pages stay so; by default where some node splits underused pages."""
        if zero_filled is None:
            zero_filled = any(switch is not None for switch in script.options.underused)
        watch = CounterWatch(script.options.orders)
        differences: list[Difference] = []
        while len(differences) < TRIES:
            if differences:
                watch.watch_once()
            try:
                letters_met = self._run_once(script, zero_filled)
                return Outcome(Result.AGREES, letters_met, str(differences[-1]) if differences else "")
            except (Unsupported, InputFault) as reason:
                if differences:
                    return Outcome(Result.INCONCLUSIVE, "", f"{reason}; an earlier try differs: {differences[-1]}")
                return Outcome(Result.SKIPPED, "", str(reason))
            except Difference as difference:
                differences.append(difference)
                watch.watch_once()
        return judge_tries(differences, watch)

    def _run_once(self, script: Script, zero_filled: bool) -> str:
        expected_run = expect_run(script, self._bench.program, self._bench.unmaps_singly)
        self._bench.prepare(script.options)
        pages = KernelPages(self._bench, script.options, 0 if zero_filled else DATA)
        try:
            return self.compare_run(expected_run, zero_filled, pages)
        finally:
            pages.close()

    def compare_run(self, expected_run: ExpectedRun, zero_filled: bool, kernel: KernelPages) -> str:
        """Returns the letters of the known differences that were met. Difference names the command after which the own
        state is another; CounterDifference, raised at the end, that of a counter where nothing else differs."""
        options = expected_run.options
        nodes = zip(options.orders, options.underused)
        states = [NodeState(order, switch, zero_filled, kernel.drops_zeros) for order, switch in nodes]
        comparison = Comparison(states, expected_run.known, expected_run.small)
        try:
            comparison.compare(kernel.look(states))
            for comparison.command in expected_run.answers:
                if self._report:
                    self._report(f"{escape(comparison.where)} -> {escape(comparison.command.answer)}")
                self._run_command(kernel, comparison, states[comparison.command.node], comparison.command)
                comparison.compare(kernel.look(states))
        finally:
            self.sums.update(comparison.sums)
        if comparison.counters:
            raise comparison.counters
        return "".join(sorted(comparison.known))

    def _run_command(self, kernel: KernelPages, comparison: Comparison, state: NodeState, expected: ExpectedAnswer) -> None:
        """Runs one command, and applies its events to its node."""
        if not expected.is_refused:
            kernel.run_command(expected, state)
        for event in expected.events:
            try:
                state.apply(event)
            except InputFault as fault:
                raise comparison.difference(f"thpsplit gives {fault}", "an event") from fault
        self.sums["commands refused" if expected.is_refused else f"commands done: {expected.words[0]}"] += 1


def judge_tries(differences: Sequence[Difference], watch: CounterWatch) -> Outcome:
    """Returns the outcome of a script that differed at each try. If some tries differ only in the machine's counters, the
    script differs only if the counters are at rest while the tool changes nothing, and these tries differ at one place."""
    by_counter = [each for each in differences if isinstance(each, CounterDifference)]
    last = differences[-1]
    differs = Outcome(Result.DIFFERS, "", str(last), last.kind, last.command)
    if not by_counter:
        return differs
    if watch.moved or not all(watch.watch_once() for _ in range(LAST_WINDOWS)):
        reason = f"other programs move {', '.join(sorted(watch.moved))}"
    elif len({(each.kind, each.command) for each in by_counter}) > 1:
        reason = "each try differs in another counter or at another command"
    else:
        return differs
    return Outcome(Result.INCONCLUSIVE, "", f"{reason}; differing counter: {by_counter[-1]}")
