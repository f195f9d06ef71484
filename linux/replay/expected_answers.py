"""What `thpsplit` reports of a script, command by command, from its answers and its journal.

Three known differences change the pages' later states, so the kernel's run differs from then on. `thpsplit` computes that
run, too, from a script that is changed to express the kernel's rule:

    C   a page below PMD size isn't queued at its fault: the nodes of such pages get `off`
    P   an unmap that removes all mappings of a page leaves it partly mapped first: it is done in two parts
    D   at threshold 511 no page is underused: of a page that is all zero one subpage is written before each scan, and
        filled with zeros after it
"""

from __future__ import annotations

import re
from collections.abc import Sequence
from dataclasses import dataclass, replace
from itertools import chain, groupby

from ..common.errors import InputFault
from ..common.files import PMD_ORDER
from ..common.journal import Event
from ..common.program import Program
from ..common.script import Command, Options, Script, text_of
from .states import NodeState

NEVER = 511  # max_ptes_none at which no page is underused (mm/huge_memory.c: thp_underused)
NOT_DONE = ("close", "take", "splitnext", "putback")  # by themselves, by any kernel
PAGE_COMMANDS = {"mapwhole", "unmapwhole", "map", "unmap", "splitpmd", "pin", "unpin", "write", "zero"}
INSERTED = 0  # the place of a command that only expresses D


class Unsupported(Exception):
    """This kernel, or any kernel, can't run this; the text is the reason."""


def node_of(words: Sequence[str]) -> int:
    """Returns the node of a command. InputFault where its words name none."""
    if len(words) < 2 or not re.fullmatch("[0-7]", words[1]):
        raise InputFault(f"a command without a node: {' '.join(words)[:60]!r}")
    return int(words[1])


@dataclass(frozen=True)
class ExpectedAnswer:
    """One command, its place in the script from 1, its answer, and the events that it recorded on its node."""

    place: int
    words: Sequence[str]
    answer: str
    events: tuple[Event, ...]

    @property
    def is_refused(self) -> bool:
        return self.answer.startswith("refused ")

    @property
    def node(self) -> int:
        return node_of(self.words)


@dataclass(frozen=True)
class ExpectedRun:
    """What the kernel should do, by commands, under these options."""

    answers: list[ExpectedAnswer]
    options: Options
    known: set[str]  # that the run includes
    small: set[int]  # nodes whose pages aren't queued at their fault although the script's options ask for that


def count_events(words: Sequence[str], answer: str) -> int:
    """Returns how many events a command recorded, by its answer (docs/FORMATS.md)."""
    if answer.startswith("refused ") or words[0] == "count":
        return 0
    if words[0] != "scan":
        return 1
    parts = answer.split()
    numbers: dict[str, int] = dict(zip(parts[::2], map(int, parts[1::2])))
    return 2 * numbers["taken"] + numbers["back"] + numbers["dropped"]  # each page is taken, tried, and may be put back


def read_expected_answers(commands: Sequence[Command], text: str, options: Options, program: Program) -> list[ExpectedAnswer]:
    """Returns the program's answers and events of the commands of a text. InputFault where it has others."""
    answers = program.answers(text, options.words())
    if len(answers) != len(commands):
        raise InputFault(f"{program.path} gives {len(answers)} answers to {len(commands)} commands")
    rest = [list(node.events) for node in program.journal(text, options.words())]
    out = []
    for command, answer in zip(commands, answers):
        try:
            node, count = node_of(command.words), count_events(command.words, answer)
        except (ValueError, KeyError) as error:
            raise InputFault(f"{program.path} gives an answer that is none (command {command.place})") from error
        if len(rest) <= node or len(rest[node]) < count:
            raise InputFault(f"{program.path} reports fewer events than its answers (command {command.place})")
        out.append(ExpectedAnswer(command.place, command.words, answer, tuple(rest[node][:count])))
        del rest[node][:count]
    return out


def expect_run(script: Script, program: Program, unmaps_singly: bool = False) -> ExpectedRun:
    """Returns the run of a script that the kernel should show; `unmaps_singly`: one that has P. Unsupported where no kernel can run
    it; TextError where the script has an error."""
    commands = own_commands = script.commands()
    owners: dict[str, int] = {}
    for command in commands:
        if command.words[0] in NOT_DONE:
            raise Unsupported(f"{command.words[0]}: no interface makes a kernel do only that")
        if command.section and owners.setdefault(" ".join(command.words[1:2]), command.section) != command.section:
            raise Unsupported("workers share a node: the kernel has no such schedule")
    options = script.options
    known: set[str] = set()
    answers = read_expected_answers(commands, script.text, options, program)
    small = {n for n, order in enumerate(options.orders) if order < PMD_ORDER and options.underused[n] is not None}
    if small:
        switches = tuple(None if n in small else switch for n, switch in enumerate(options.underused))
        options, before = replace(options, underused=switches), answers
        answers = read_expected_answers(commands, script.text, options, program)
        if any(a.events != b.events or a.words[0] == "count" and a.answer != b.answer for a, b in zip(answers, before)):
            known.add("C")
    rules = [("P", _unmap_in_parts)] if unmaps_singly else []
    for letter, change in [*rules, ("D", _without_underused)]:
        while len(changed := change(commands, answers, options)) > len(commands):
            commands = changed
            answers = read_expected_answers(commands, text_of(commands), options, program)
            known.add(letter)
    parts = [[*group] for place, group in groupby(answers, lambda each: each.place) if place != INSERTED]
    whole = [replace(part[-1], words=own_commands[part[0].place - 1].words, events=tuple(chain.from_iterable(each.events for each in part)))
             for part in parts]
    return ExpectedRun(whole, options, known, small)


def _unmap_in_parts(commands: list[Command], answers: Sequence[ExpectedAnswer], options: Options) -> list[Command]:
    """Returns the commands, with each unmap that removes all mappings of a page that wasn't partly mapped in two parts."""
    states = [NodeState(order, switch, True) for order, switch in zip(options.orders, options.underused)]
    out: list[Command] = []
    for command, each in zip(commands, answers):
        state, ranges = states[each.node], []
        for event in each.events:
            if state.empties_at_once(event):
                ranges = [(0, event.count - 1), (event.count - 1, 1)]
            state.apply(event)
        parts = [replace(command, words=(*command.words[:3], str(first), str(count))) for first, count in ranges]
        out += parts or [command]
    return out


def _without_underused(commands: list[Command], answers: Sequence[ExpectedAnswer], options: Options) -> list[Command]:
    """Returns the commands, with one subpage written before the first scan that splits or tries an underused page at 511, and zero
    again after it. A page that only a pin holds can't be written: the program tries it once (comparison.py)."""
    states = [NodeState(order, switch, True) for order, switch in zip(options.orders, options.underused)]
    for at, each in enumerate(answers):
        state = states[each.node]
        if state.threshold == NEVER and each.words[0] == "scan":
            taken = [event.page for event in each.events if event.word == "taken" and event.page is not None]
            pages = [(number, state.pages[number]) for number in taken]
            hit = [n for n, page in pages if not page.partly and page.zero == page.every and page.used_subpages()]
            if hit:
                writes, zeros = ([Command(commands[at].section, (word, each.words[1], str(page), "0", "1"), INSERTED) for page in hit]
                                 for word in ("write", "zero"))
                return [*commands[:at], *writes, commands[at], *zeros, *commands[at + 1:]]
        for event in each.events:
            state.apply(event)
    return commands
