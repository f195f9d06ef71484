"""Makes a script that differs small: commands, pages and numbers are taken away while it differs in the same way.

Each step is a run, so what counts is what the kernel shows of the smaller script, not what is expected of it."""

from __future__ import annotations

import time
from collections.abc import Callable, Iterator, Sequence
from dataclasses import dataclass, replace
from itertools import islice

from ..common.errors import RunFailed
from ..common.machine import kernel
from ..common.script import MARK, Command, Script, text_of
from ..common.text import escape
from .expected_answers import PAGE_COMMANDS
from .runner import Outcome, Result

SECONDS = 60.0  # that a script gets
MOST_RUNS = 600


def make_script(script: Script, commands: Sequence[Command]) -> Script:
    """Returns a script with other commands."""
    return replace(script, text=f"{MARK}{' '.join(script.options.words())}\n{text_of(commands)}")


@dataclass(frozen=True)
class SmallScript:
    """The smallest script found, how it differs, and how many runs that took."""

    script: Script
    outcome: Outcome
    runs: int

    def text(self) -> str:
        """Returns the script with what was seen in comments."""
        first, rest = self.script.text.split("\n", 1)
        return f"{first}\n# {kernel()}\n# {self.outcome.line()}\n{rest}"

    def lines(self) -> list[str]:
        """Returns what people read."""
        words = [escape(" ".join(command.words)) for command in self.script.commands()]
        return [f"smallest, {len(words)} commands after {self.runs} runs: {'; '.join(words)}", f"it {self.outcome.line()}"]


class Shrinker:
    """Makes scripts small by runs. Of the scripts of a run only the first of each kind of difference is made small."""

    def __init__(self, run: Callable[[Script], Outcome], seconds: float = SECONDS, clock: Callable[[], float] = time.monotonic) -> None:
        self._run, self._seconds, self._clock = run, seconds, clock
        self._kinds: set[str] = set()

    def shrink(self, script: Script, outcome: Outcome) -> SmallScript | None:
        """Returns the smallest script that differs in the same way, or the smallest so far where a run fails or time is up; None
        where the script doesn't differ, or one of its kind was made small."""
        if outcome.result is not Result.DIFFERS or outcome.kind in self._kinds or self._seconds <= 0:
            return None
        self._kinds.add(outcome.kind)
        best, end = SmallScript(make_script(script, script.commands()), outcome, 0), self._clock() + self._seconds
        runs, has_changed = 0, True
        while has_changed:
            has_changed = False
            for step in STEPS:
                at = 0  # a smaller script that differs is the next one's start, at the same place of the step
                while runs < MOST_RUNS and self._clock() < end:
                    smaller = next(islice(step(best.script), at, None), None)
                    if smaller is None:
                        break
                    runs += 1
                    try:
                        found = self._run(smaller)
                    except RunFailed:
                        return replace(best, runs=runs)
                    if found.result is Result.DIFFERS and found.kind == outcome.kind:
                        best, has_changed = SmallScript(smaller, found, runs), True
                    else:
                        at += 1
        return replace(best, runs=runs)


def number_at(command: Command, at: int) -> int:
    """Returns an operand, or -1 where it is missing or no number."""
    return int(command.words[at]) if len(command.words) > at and command.words[at].isdigit() else -1


def drop(script: Script, gone: set[int]) -> Script:
    """Returns a script without some commands, those of pages whose `alloc` goes too; the numbers of later pages of a node close up."""
    kept: list[Command] = []
    new_numbers: dict[int, list[int]] = {}  # by node; -1: the page is gone
    for at, command in enumerate(script.commands()):
        numbers, page, words = new_numbers.setdefault(number_at(command, 1), []), number_at(command, 2), [*command.words]
        if words[0] == "alloc":
            numbers.append(-1 if at in gone else sum(number >= 0 for number in numbers))
        if words[0] in PAGE_COMMANDS and 0 <= page < len(numbers):
            words[2] = str(numbers[page])
        if at not in gone and "-1" not in words:
            kept.append(replace(command, words=words))
    return make_script(script, kept)


def drop_part(script: Script) -> Iterator[Script]:
    """A run of commands, long ones first."""
    count = len(script.commands())
    size = count // 2
    while size:
        for first in range(count - size, -1, -size):
            if size < count:
                yield drop(script, set(range(first, first + size)))
        size //= 2


def lower_number(script: Script) -> Iterator[Script]:
    """A number that is neither a node nor a page: 0, 1, half of it, one less."""
    commands = script.commands()
    for place, command in enumerate(commands):
        for operand in range(3 if command.words[0] in PAGE_COMMANDS else 2, len(command.words)):
            number = number_at(command, operand)
            for lower in sorted({0, 1, number // 2, number - 1}):
                if 0 <= lower < number:
                    words = (*command.words[:operand], str(lower), *command.words[operand + 1:])
                    yield make_script(script, [*commands[:place], replace(command, words=words), *commands[place + 1:]])


STEPS: Sequence[Callable[[Script], Iterator[Script]]] = (drop_part, lower_number)
"""Each yields the smaller scripts that it tries."""
