"""How this kernel does each known difference: the smallest script of each (linux/letters) is run and compared as any other."""

from __future__ import annotations

import enum
from collections.abc import Callable
from dataclasses import dataclass, replace
from pathlib import Path

from ..common.script import Script, read_script
from ..common.text import escape, text_lines
from .bench import Bench
from .runner import Outcome, Result, Runner

FOLDER = Path(__file__).resolve().parent.parent / "letters"
MOST_RUNS = 12  # of a letter's script


class Match(enum.Enum):
    """How a kernel does what a letter is about; `unseen`: its script can't show it here."""

    MODEL = "model"
    LETTER = "letter"
    NEITHER = "neither"
    UNSEEN = "unseen"


@dataclass(frozen=True)
class Finding:
    """A letter on this kernel; `text` is what was seen instead, or why nothing can be."""

    letter: str
    match: Match
    text: str = ""

    def line(self) -> str:
        """Returns the report, printable."""
        return f"{self.letter}: {self.match.value}" + (f": {escape(self.text)}" if self.text else "")


def find_letter(letter: str, script: Script, run: Callable[[Script], Outcome]) -> Finding:
    """Returns how a kernel does a letter. Where its script agrees without it, the last command is run once more: an even number of
    passes leaves a queue as it was (E)."""
    for _ in range(MOST_RUNS):
        outcome = run(script)
        if outcome.result is not Result.AGREES:
            return Finding(letter, Match.NEITHER if outcome.result is Result.DIFFERS else Match.UNSEEN, outcome.text)
        if letter in outcome.known:
            return Finding(letter, Match.LETTER)
        script = replace(script, text=f"{script.text}{text_lines(script.text)[-1]}\n")
    return Finding(letter, Match.MODEL)


def find_all(bench: Bench) -> list[Finding]:
    """Returns how the running kernel does each letter."""
    runner = Runner(bench)

    def run(script: Script) -> Outcome:
        bench.renew()
        return runner.run(script)

    return [find_letter(path.stem, read_script(str(path)), run) for path in sorted(FOLDER.glob("[A-Z].script"))]
