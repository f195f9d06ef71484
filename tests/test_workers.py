"""Workers that close one node and hold batches of it concurrently, with the built program.

A worker that finds the node busy postpones the rest of its section until the others are done. No report may show that: short
scripts are compared with every order of their commands by the plain model, long ones with what every order has in common.
"""

from __future__ import annotations

import copy
from collections import Counter
from dataclasses import dataclass, field
from pathlib import Path
from typing import Callable, Optional, Sequence

from fixtures import ProgramCase, add_tests
from process import Call, Ended, run
from script import Run, Shape
from test_large import CHECK, LEGAL, MOST_BATCH, MOST_WORKERS, SIZE, joined, pinned_scans, totals, words

Sections = dict[int, list[str]]
"""The commands of each caller; caller 0 executes `setup`."""

SHAPE: Shape = (16, 9, None)
TURNS = 12
"""The number of times that each report of a short script is requested: each time another worker can be first."""


class State:
    """A node after some of the commands: the number of each caller's, and their results."""

    def __init__(self, callers: Sequence[int]) -> None:
        nodes = Run([SHAPE]).nodes
        self.runs = {caller: Run([]) for caller in callers}
        for run_of in self.runs.values():
            run_of.nodes = nodes
        self.done = dict.fromkeys(callers, 0)

    def step(self, caller: int, commands: Sequence[str]) -> State:
        """The state after a caller's next command, or after the end of its section, where its batch is put back."""
        after = copy.deepcopy(self)
        place = after.done[caller]
        after.done[caller] += 1
        if place < len(commands):
            after.runs[caller].line(caller, place + 1, commands[place])
        else:
            after.runs[caller].end(caller)
        return after

    def texts(self) -> dict[str, tuple[str, ...]]:
        """The reports, for the commands executed so far."""
        first = next(iter(self.runs.values()))
        answers = tuple(line for run_of in self.runs.values() for line in run_of.answers)
        return {"answers": answers, "journal": tuple(first.journal()), "totals": tuple(first.totals())}


@dataclass(frozen=True)
class Script:
    """A short script of several workers. Each command is one step on the node, so any order of the commands is possible."""

    name: str
    sections: Sections
    legal: dict[str, set[bytes]] = field(default_factory=dict)
    """Each report's texts, in every order."""

    def mirrored(self) -> Script:
        """The same with the workers' sections in the opposite order: a worker that starts early often ends before the next begins."""
        workers = [caller for caller in self.sections if caller]
        swapped = {caller: self.sections[other] for caller, other in zip(workers, reversed(workers))}
        return Script(f"{self.name}, mirrored", {0: self.sections[0], **swapped})

    def text(self) -> bytes:
        """The script's text."""
        names = {caller: f"worker {caller}" if caller else "setup" for caller in self.sections}
        return joined(line for caller, lines in self.sections.items() for line in (names[caller], *lines))

    def find_legal(self) -> None:
        """Executes the commands in every order, those of setup before all others. Orders with the same reports are merged."""
        state = State(list(self.sections))
        for _ in range(len(self.sections[0]) + 1):
            state = state.step(0, self.sections[0])
        workers = [caller for caller in self.sections if caller]
        states = [state]
        for _ in range(sum(len(self.sections[caller]) + 1 for caller in workers)):
            after: dict[object, State] = {}
            for state in states:
                for caller in workers:
                    if state.done[caller] <= len(self.sections[caller]):
                        other = state.step(caller, self.sections[caller])
                        after[(tuple(other.done.values()), tuple(other.texts().items()))] = other
            states = list(after.values())
        for state in states:
            for report, lines in state.texts().items():
                self.legal.setdefault(report, set()).add(joined(lines))

    def wrong(self, program: Path) -> Optional[str]:
        """A report that no order of the commands has, or None."""
        self.find_legal()
        for report, legal in self.legal.items():
            for _ in range(TURNS):
                reported = run(program, Call(("--workers", "63", "--report", report), self.text()))
                if (reported.status, reported.errors) != (0, b"") or reported.output not in legal:
                    return f"{report}: none of {len(legal)} texts is {reported}"
        return None


QUEUED = ["alloc 0", "splitpmd 0 0", "unmap 0 0 0 1", "pin 0 0"]
"""A page in the queue that no try splits."""

EMPTY_BATCH = ["take 0 0", "splitnext 0", "putback 0"]

SCRIPTS = (
    Script("two workers close", {0: QUEUED, 1: ["close 0", "alloc 0"], 2: ["alloc 0", "close 0", "close 0"]}),
    Script("three workers close", {0: [], 1: ["close 0", "close 0"], 2: ["close 0", "close 0"], 7: ["close 0", "close 0"]}),
    Script("two empty batches", {0: QUEUED, 1: [*EMPTY_BATCH, "close 0"], 2: [*EMPTY_BATCH, "count 0"]}),
    Script("three empty batches", {0: QUEUED, 1: ["take 0 0", "take 0 1"], 2: ["take 0 0", "putback 0"], 63: ["take 0 0"]}),
    Script("a batch and a close", {0: QUEUED, 1: ["take 0 8", "splitnext 0", "putback 0"], 2: ["close 0", "take 0 0"]}),
    Script("an open batch and a close", {0: QUEUED, 1: ["take 0 8", "splitnext 0"], 2: ["take 0 0", "close 0"], 3: ["take 0 0"]}),
    Script("a page that is queued late", {0: QUEUED[:2], 1: ["unmap 0 0 0 1", "take 0 0"], 2: ["close 0", "take 0 1"]}),
)

ROUNDS = 1_500
"""The number of times that each of 63 workers executes the same commands, so that many find the node busy."""


def all_workers(own: Sequence[str]) -> bytes:
    """A script of 63 workers that each do the same on a node with 128 queued pages, which are pinned."""
    return SETUP + b"".join(b"worker %d\n" % it + joined(own) for it in range(1, MOST_WORKERS + 1))


def queued_totals(failed: int = 0) -> bytes:
    """The totals of a node with these pages, of which so many tries failed."""
    return totals(
        pages=MOST_BATCH, queue=MOST_BATCH, frames_held=SIZE * MOST_BATCH, thp_split_page_failed=failed,
        thp_deferred_split_page=MOST_BATCH, thp_split_pmd=MOST_BATCH,
    )


OPTIONS = words("--blocks 128 --workers 63")
SETUP, _, SETUP_JOURNAL = pinned_scans(0)
WITHOUT = ["take 0 0", "take 0 1", "scan 0 1", "splitnext 0", "putback 0", "putback 0", "splitnext 0"]
"""Commands that change nothing, and what each returns, whatever others do."""

RETURNED = ["taken 0", "refused has-batch", "refused has-batch", "done", "back 0 dropped 0", "no-batch", "no-batch"]


def own_answers(program: Path, script: bytes) -> tuple[Optional[str], list[list[str]]]:
    """What is wrong with the report of answers as a whole, and what each worker's commands returned, in order."""
    reported = run(program, Call((*OPTIONS, "--report", "answers"), script))
    lines = [line.split(" ", 2) for line in reported.output.decode().splitlines()]
    lists: list[list[str]] = [[] for _ in range(MOST_WORKERS + 1)]
    for caller, place, answer in lines:
        lists[int(caller)].append(answer)
        if int(place) != len(lists[int(caller)]):
            return f"caller {caller}: {place} follows {len(lists[int(caller)]) - 1}", []
    wrong = None if (reported.status, reported.errors) == (0, b"") else f"status {reported.status}, {reported.errors!r}"
    return wrong, lists


def closers(program: Path) -> Optional[str]:
    """63 workers open empty batches and close the node over and over: one close succeeds, and nothing else happens."""
    turn = [*WITHOUT, "close 0"]
    script = all_workers([*turn * ROUNDS, "alloc 0", "take 0 0"])
    wrong, lists = own_answers(program, script)
    if wrong:
        return f"answers: {wrong}"
    closed = "refused closed"
    ends = [[*RETURNED, first, *[*RETURNED, closed] * (ROUNDS - 1), closed, "taken 0"] for first in ("ok", closed)]
    if any(own not in ends for own in lists[1:]) or sum(own == ends[0] for own in lists[1:]) != 1:
        return f"answers: {sum(own == ends[0] for own in lists)} workers closed, {sum(own == ends[1] for own in lists)} did not"
    wrong = run(program, Call(OPTIONS, script)).differs_from(Ended(0, queued_totals()))
    return wrong or closer_journal(program, script)


def closer_journal(program: Path, script: bytes) -> Optional[str]:
    """The journal has the events of setup and one close."""
    reported = run(program, Call((*OPTIONS, "--report", "journal"), script))
    front = SETUP_JOURNAL[: -len(b"end\n")]
    ends = [Ended(0, front + b"%d close\nend\n" % caller) for caller in range(1, MOST_WORKERS + 1)]
    return None if reported in ends else f"journal: {reported.status}, {reported.output[-80:]!r}"


def droppers(program: Path) -> Optional[str]:
    """63 workers each take a page, find it pinned and put it back over and over, and one of them closes the node halfway."""
    turn = ["take 0 1", "splitnext 0", "putback 0"]
    half, closer = turn * (ROUNDS // 2), (MOST_WORKERS + 1) // 2
    sections = [[*half, *(["close 0"] if worker == closer else []), *half] for worker in range(1, MOST_WORKERS + 1)]
    script = SETUP + b"".join(b"worker %d\n" % worker + joined(own) for worker, own in enumerate(sections, 1))
    wrong, lists = own_answers(program, script)
    if wrong or len(lists[closer]) != len(sections[closer - 1]):
        return f"answers: {wrong or len(lists[closer])}"
    if lists[closer].pop(len(half)) != "ok":
        return "the only close isn't ok"
    counts: Counter[str] = Counter()
    for worker, own in enumerate(lists[1:], 1):
        turns = [turn_word(own[place : place + 3]) for place in range(0, len(own), 3)]
        counts.update(turns)
        first = next((place for place, it in enumerate(turns) if it != "back"), len(turns))
        if len(turns) != ROUNDS or "back" in turns[first:] or "wrong" in turns or (worker == closer and first > ROUNDS // 2):
            return f"answers of worker {worker}: {len(turns)} turns, {turns[first : first + 5]} from turn {first} on"
    # Pages go into the queue no more once it is closed: where it was found empty, all of them have been dropped at the end.
    if counts["dropped"] > MOST_BATCH or (counts["none"] and counts["dropped"] != MOST_BATCH):
        return f"answers: {counts['dropped']} of {MOST_BATCH} pages were dropped"
    return dropper_journal(program, script)


def turn_word(answers: Sequence[str]) -> str:
    """The fate of a page that was taken: `back`, `dropped`, `none` if the queue was empty, or `wrong`."""
    taken, tried, ended = answers
    if taken == "taken 0":
        return "none" if (tried, ended) == ("done", "back 0 dropped 0") else "wrong"
    known = {"back 1 dropped 0": "back", "back 0 dropped 1": "dropped"}
    return known.get(ended, "wrong") if taken == "taken 1" and tried.startswith("pinned ") else "wrong"


def dropper_journal(program: Path, script: bytes) -> Optional[str]:
    """The journal has one close, a try and an end for each take, and is legal."""
    reported = run(program, Call((*OPTIONS, "--report", "journal"), script))
    events = [line.split(b" ")[1] for line in reported.output.splitlines()[2:-1]]
    taken, tried, back, dropped = (events.count(word) for word in (b"taken", b"pinned", b"back", b"dropped"))
    if reported.status or events.count(b"close") != 1 or not taken == tried == back + dropped or dropped > MOST_BATCH:
        return f"journal: status {reported.status}, {taken} taken, {tried} pinned, {back} back, {dropped} dropped"
    return run(program, Call(CHECK, reported.output)).differs_from(LEGAL)


def takers(program: Path) -> Optional[str]:
    """63 workers each take a page of 128 over and over, find it pinned, and put it back, one of them not by a command."""
    turn = ["take 0 1", "splitnext 0", "take 0 0", "putback 0", "take 0 0", "putback 0"]
    script = all_workers([*turn * ROUNDS, "take 0 1", "splitnext 0"])
    wrong, lists = own_answers(program, script)
    if wrong:
        return f"answers: {wrong}"
    numbers = {f"pinned {page}" for page in range(MOST_BATCH)}
    round_answers = ["taken 1", "pinned", "refused has-batch", "back 1 dropped 0", "taken 0", "back 0 dropped 0"]
    wanted = [*round_answers * ROUNDS, "taken 1", "pinned"]
    for caller, own in enumerate(lists[1:], 1):
        if ["pinned" if it in numbers else it for it in own] != wanted:
            return f"answers of worker {caller}: {len(own)}, {[it for it in own if it not in numbers | set(wanted)][:3]}"
    failed = MOST_WORKERS * (ROUNDS + 1)
    wrong = run(program, Call(OPTIONS, script)).differs_from(Ended(0, queued_totals(failed)))
    return wrong or taker_journal(program, script, failed)


def taker_journal(program: Path, script: bytes, tries: int) -> Optional[str]:
    """The journal has one event for each take, try and put back, and is legal."""
    reported = run(program, Call((*OPTIONS, "--report", "journal"), script))
    wanted = {b"taken": tries, b"pinned": tries, b"back": tries, b"pin": MOST_BATCH, b"alloc": MOST_BATCH}
    events = [line.split(b" ")[1] for line in reported.output.splitlines()[2:-1]]
    counts = {word: events.count(word) for word in wanted}
    if reported.status or counts != wanted or len(events) != 3 * tries + 4 * MOST_BATCH:
        return f"journal: status {reported.status}, {counts} of {len(events)} events"
    return run(program, Call(CHECK, reported.output)).differs_from(LEGAL)


CROWDS: dict[str, Callable[[Path], Optional[str]]] = {
    "63 workers open empty batches and close": closers,
    "63 workers put pages back, and one closes": droppers,
    "63 workers take a page, find it pinned and put it back": takers,
}
"""Long scripts."""


class Workers(ProgramCase):
    """Each script."""

    def check(self, wrong: Callable[[Path], Optional[str]]) -> Optional[str]:
        """Returns what is wrong with the reports of a script, or None."""
        return wrong(self.program)


add_tests(Workers, Workers.check, ((it.name, it.wrong) for script in SCRIPTS for it in (script, script.mirrored())))
add_tests(Workers, Workers.check, CROWDS.items())
