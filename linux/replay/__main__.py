"""The command line `thpreplay` (options.py), and what it prints: lines for people, or JSON, a document a line."""

from __future__ import annotations

import argparse
import json
import os
from collections import Counter as Tallies
from typing import NoReturn

from ..common import machine
from ..common.errors import DIFFERS, DONE, INCONCLUSIVE, InputFault, Unavailable
from ..common.files import OwnFolder
from ..common.keeper import recover
from ..common.script import Script
from ..common.text import escape, text_lines
from ..common.tool import run_tool
from .bench import Bench, open_bench
from .letters import Match, find_all
from .options import NAME, list_scripts, parse_words
from .runner import Outcome, Result, Runner
from .shrinking import Shrinker, SmallScript


class Report:
    """Prints how scripts end, counts it, and keeps those that differ. With `quiet` only those that differ or are inconclusive are
    printed; with `json` a document for the run, one for each script, and one for the sums."""

    def __init__(self, options: argparse.Namespace) -> None:
        self._options = options
        self._folder = OwnFolder(options.keep) if options.keep else None
        self._results: Tallies[Result] = Tallies()
        self._sums: Tallies[str] = Tallies()

    def begin(self, bench: Bench, count: int) -> None:
        """Prints what is compared, and with which program; `count`: how many scripts."""
        if self._options.json:
            print(json.dumps({"run": {"kernel": machine.kernel(), "program": bench.program.path, "queues": bench.memory is not None,
                                      "scripts": count}}))
        else:
            queues = "compared" if bench.memory else "not compared"
            print(f"{machine.kernel()}; program {escape(bench.program.path)}; queues are {queues}")

    def print_command(self, line: str) -> None:
        """Prints a command before it is run (`--verbose`)."""
        print(json.dumps({"command": line}) if self._options.json else f"  {line}")

    def add(self, script: Script, outcome: Outcome, small: SmallScript | None) -> None:
        """Reports a script's outcome, and the smallest script that differs in the same way."""
        if self._options.json:
            print(json.dumps({
                "script": escape(script.name), "result": outcome.result.value, "known": list(outcome.known),
                "text": escape(outcome.text), "commands": len(script.commands()), "differs_at": outcome.command or None,
                "smallest": {"script": small.text(), "text": escape(small.outcome.text), "runs": small.runs} if small else None,
            }))
        elif not self._options.quiet or outcome.result in (Result.DIFFERS, Result.INCONCLUSIVE):
            print("\n  ".join([f"{escape(script.name)}: {outcome.line()}", *(small.lines() if small else [])]))
        self._results[outcome.result] += 1
        self._sums.update(f"with known difference {letter}" for letter in outcome.known)
        self._sums[f"skipped: {outcome.text}"] += outcome.result is Result.SKIPPED
        if outcome.result is Result.DIFFERS and self._folder:
            stem = f"{sum(self._results.values())}-{script.name.removesuffix('.script')}"  # no two scripts of a run have one
            for end, text in {"script": script.text, **({"smallest.script": small.text()} if small else {})}.items():
                with self._folder.create(f"{stem}.{end}") as file:
                    file.write(text)

    def end(self, sums: dict[str, int]) -> int:
        """Prints the sums, and returns the status. Unavailable where nothing was compared."""
        lines = {**{result.value: self._results[result] for result in Result}, **dict(sorted((self._sums + Tallies(sums)).items()))}
        if self._options.json:
            print(json.dumps({"sums": {escape(what): many for what, many in lines.items()}}))
        else:
            print("\n".join(f"{many:9} {escape(what)}" for what, many in lines.items()))
        for result, status in ((Result.DIFFERS, DIFFERS), (Result.INCONCLUSIVE, INCONCLUSIVE), (Result.AGREES, DONE)):
            if self._results[result]:
                return status
        raise Unavailable("no script could be compared")


def run_all(options: argparse.Namespace) -> int:
    """Runs scripts on this kernel."""
    count, scripts = list_scripts(options)
    zeros = None if options.fill is None else options.fill == "zeros"
    with open_bench(NAME, options) as bench:
        report = Report(options)
        report.begin(bench, count)
        runner, quiet_runner = Runner(bench, report.print_command if options.verbose else None), Runner(bench)
        shrinker = Shrinker(lambda script: quiet_runner.run(script, zeros), options.shrink)
        for script in scripts:
            outcome, small = runner.run(script, zeros), None
            try:
                small = shrinker.shrink(script, outcome)
            finally:  # a signal, too, leaves the outcome reported
                report.add(script, outcome, small)
    return report.end(runner.sums)


def fingerprint(options: argparse.Namespace) -> int:
    """Prints how this kernel does each known difference."""
    os.sched_setaffinity(0, {min(os.sched_getaffinity(0))})  # all pages are on one NUMA node then, and a queue is one list
    with open_bench(NAME, options) as bench:
        found = find_all(bench)
    for each in found:
        document = {"letter": each.letter, "finding": each.match.value, "text": each.text}
        print(json.dumps(document) if options.json else each.line())
    matches = {each.match for each in found}
    if matches == {Match.UNSEEN}:
        raise Unavailable("no known difference can be seen here")
    return DIFFERS if Match.NEITHER in matches else DONE


def replay(options: argparse.Namespace) -> int:
    """Carries out a command line, and returns the status."""
    if options.undo:
        print("\n".join([*map(escape, recover(NAME)), "nothing more is to be put back"]))
        return DONE
    has_scripts = bool(options.script or options.random)
    if options.fingerprint:
        if has_scripts:
            raise InputFault("--fingerprint runs its own scripts")
        return fingerprint(options)
    if not has_scripts:
        raise InputFault("no script: name one, or ask for random ones (--random COUNT)")
    if options.show:
        for script in list_scripts(options)[1]:
            print("".join(f"{escape(line)}\n" for line in text_lines(script.text)))
        return DONE
    return run_all(options)


def start() -> NoReturn:
    """Runs the tool."""
    run_tool(NAME, lambda: replay(parse_words()))


if __name__ == "__main__":
    start()
