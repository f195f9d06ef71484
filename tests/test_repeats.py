"""The built `thpcheck --script` on random journals: what `thpsplit` does for the script is compared with the journal.

The journals are those of the model in model.py, some of version 4 for their callers. For one caller, and for callers whose batches are
not open at once, the script must repeat the journal byte for byte, except for the callers' numbers (and version 4, which no script needs).
For others it must make the same calls, its commands and the lines about what it moves must be those of a plain reading (plain_scripts.py),
and the number of tries in another order than the takes must be reported. For an illegal journal it must be the script of the events before
the illegal one. CASES is the number of journals (400), SEED selects others (1).
"""

from __future__ import annotations

import os
import subprocess
from pathlib import Path
from random import Random
from typing import Callable, Optional

from fixtures import ProgramCase, add_tests, find_built
from model import Refused
from plain_scripts import BATCH_EVENTS, CALLS, OPERANDS, TRIES, plain_script
from random_journals import as_version
from random_texts import (
    Script, changed_journal, joined, likely_words, operands, random_commands, random_shapes, script_of_many, script_of_one,
)
from script import Run, first_illegal
from texts import LARGE, LARGE_VERSION, SMALL, VERSION, journal_fault

CASES, SEED = int(os.environ.get("CASES", 400)), int(os.environ.get("SEED", 1))
SECONDS = 60
BATCH_COMMANDS = ("scan", "take", "splitnext", "putback")
CALLERS = (0, 1, 2, SMALL.caller)
FAR_CALLERS = (0, SMALL.caller, SMALL.caller + 1, LARGE.caller)


def checked(checker: Path, words: list[str], journal: bytes) -> tuple[int, bytes, bytes]:
    """What `thpcheck` does for a journal: its status, and both streams."""
    done = subprocess.run([str(checker), *words], input=journal, capture_output=True, timeout=SECONDS, check=False)
    return done.returncode, done.stdout, done.stderr


def options_in(script: bytes) -> list[str]:
    """The options in the last comment of a script."""
    comments = [line for line in script.decode().split("\n") if line.startswith("# thpsplit ")]
    return comments[-1].split()[2:]


def repeated(program: Path, script: bytes) -> bytes:
    """The journal of a script."""
    command = [str(program), *options_in(script), "--report", "journal"]
    return subprocess.run(command, input=script, capture_output=True, timeout=SECONDS, check=True).stdout


def by_caller_0(journal: list[str]) -> bytes:
    """The journal as that of caller 0."""
    return joined([" ".join(("0", *line.split()[1:])) if line[0].isdigit() else line for line in journal])


def is_repeated(again: bytes, journal: list[str]) -> bool:
    """Whether a journal is another one as that of caller 0; if that is of version 4, it may be of a lower one."""
    wanted = by_caller_0(journal)
    if journal[0] != f"thp-journal {LARGE_VERSION}":
        return again == wanted
    return as_version(again.decode().splitlines(), VERSION) == as_version(wanted.decode().splitlines(), VERSION)


def calls_of(journal: list[str]) -> list[str]:
    """The commands of the calls in a journal, without numbers of pages that are allocated."""
    commands, node = [], ""
    for line in journal[1:-1]:
        words = line.split()
        if words[0] == "node":
            node = words[1]
        elif words[1] not in BATCH_EVENTS:
            commands.append(" ".join((CALLS.get(words[1], words[1]), node, *words[2:2 + OPERANDS.get(words[1], 1)])))
    return commands


def commands_in(script: bytes) -> list[str]:
    """The commands of a script."""
    return [line for line in script.decode().split("\n") if line and line != "setup" and line[0] != "#"]


def calls_in(script: bytes) -> list[str]:
    """The calls among the commands of a script."""
    return [line for line in commands_in(script) if line.split()[0] not in BATCH_COMMANDS]


def out_of_turn(journal: list[str]) -> int:
    """The number of tries of another page than the first that its caller has taken and not tried yet."""
    count = 0
    untried: list[tuple[str, str]] = []
    for caller, word, *rest in (line.split() for line in journal[1:-1]):
        if caller == "node":
            untried = []
            continue
        own = [page for other, page in untried if other == caller]
        count += word in TRIES and own[:1] != rest[:1]
        if word in (*TRIES, "back", "dropped") or "freed" in rest:
            untried = [(other, page) for other, page in untried if page != rest[0]]
        if word == "taken":
            untried.append((caller, rest[0]))
    return count


def turns_message(journal: list[str]) -> bytes:
    """The line that reports tries in another order than the takes, if there are any."""
    count = out_of_turn(journal)
    words = "try" if count == 1 else "tries"
    return f"thpcheck: {count} {words} came in another order than the takes\n".encode() if count else b""


def repeats(checker: Path, program: Path, journal: list[str]) -> Optional[str]:
    """What is wrong with the script of a journal that it must repeat."""
    status, script, errors = checked(checker, ["--script"], joined(journal))
    if (status, errors) != (0, b""):
        return f"status {status}, {errors!r}"
    return None if is_repeated(repeated(program, script), journal) else "another journal"


def one_caller(chance: Random, checker: Path, program: Path) -> Optional[str]:
    """A journal of caller 0."""
    shapes = random_shapes(chance, chance.choice((1, 1, 2, 3)))
    script = Script(shapes)
    script.section(0, random_commands(chance, script.run, list(range(len(shapes)))))
    return repeats(checker, program, script.run.journal())


def callers_apart(chance: Random, checker: Path, program: Path) -> Optional[str]:
    """A journal of callers that have no batch open at the same time."""
    script = chance.choice((script_of_one, script_of_many))(chance)
    return repeats(checker, program, script.run.journal())


def mixed_journal(chance: Random, in_turn: bool = True) -> list[str]:
    """A journal of callers whose commands alternate, so that their batches are open at once; tries are in any order unless `in_turn`."""
    run, callers = Run(random_shapes(chance, chance.choice((1, 1, 2)))), chance.choice((CALLERS, FAR_CALLERS))
    batches: dict[int, dict[int, list[int]]] = {caller: {} for caller in callers}
    for _ in range(chance.randrange(120)):
        caller, number = chance.choice(callers), chance.randrange(len(run.nodes))
        run.batches = batches[caller]
        word = chance.choice(likely_words(run, number))
        try:
            run.command(caller, word, number, [int(text) for text in operands(chance, word, run.nodes[number])])
        except Refused:
            pass
        if word == "take" and not in_turn:
            chance.shuffle(run.batches.get(number, []))
    for caller in callers if chance.random() < 0.8 else ():
        run.batches = batches[caller]
        run.end(caller)
    return run.journal()


def makes_same_calls(checker: Path, program: Path, journal: list[str]) -> Optional[str]:
    """What is wrong with the script of a journal whose calls it must make, or with the messages about it."""
    status, script, errors = checked(checker, ["--script"], joined(journal))
    if status != 0:
        return f"status {status}, {errors!r}"
    if not errors.endswith(turns_message(journal)) or errors.count(b"another order") > 1:
        return f"{out_of_turn(journal)} tries out of turn, {errors!r}"
    commands, notes = plain_script(journal)
    if commands_in(script) != commands:
        return "other commands than by a plain reading"
    if errors != "".join(f"{line}\n" for line in notes).encode() + turns_message(journal):
        return f"{notes} by a plain reading, {errors!r}"
    if calls_in(script) != calls_of(journal):
        return "other calls"
    again = repeated(program, script)
    if not errors and not is_repeated(again, journal):
        return "another journal, without a word about it"
    if checked(checker, [], again) != (0, b"legal\n", b""):
        return "an illegal journal"
    return None


def callers_mixed(chance: Random, checker: Path, program: Path) -> Optional[str]:
    """A journal of callers whose batches are open at once."""
    return makes_same_calls(checker, program, mixed_journal(chance))


def late_batches(pages: int, calls: list[tuple[int, str, list[int]]]) -> list[str]:
    """A journal in which callers take some of so many queued pages while the batch of caller 0, of one page, is open."""
    run, half = Run([(4096, 9, None)]), 256
    queued: list[tuple[int, str, list[int]]] = []
    for page in range(pages):
        queued += [(0, "alloc", []), (0, "splitpmd", [page]), (0, "unmap", [page, 0, half])]
    batches: dict[int, dict[int, list[int]]] = {caller: {} for caller in range(4)}
    for caller, word, numbers in [*queued, (0, "take", [1]), *calls]:
        run.batches = batches[caller]
        run.command(caller, word, 0, numbers)
    for caller in range(4):
        run.batches = batches[caller]
        run.end(caller)
    return run.journal()


LATE = {
    "a page freed from the second batch that waits": late_batches(5, [(1, "take", [2]), (2, "take", [2]), (3, "unmap", [3, 256, 256])]),
    "a batch that waits and has more pages than a command takes": late_batches(131, [(1, "take", [130])]),
}
"""Journals of batches that wait."""


def tries_mixed(chance: Random, checker: Path, program: Path) -> Optional[str]:
    """A journal whose tries come in any order."""
    return makes_same_calls(checker, program, mixed_journal(chance, in_turn=False))


def illegal(chance: Random, checker: Path, program: Path) -> Optional[str]:
    """A journal with a change, which is mostly illegal."""
    journal = changed_journal(chance, mixed_journal(chance))
    if journal_fault(joined(journal), LARGE_VERSION) is not None:
        return None
    line = first_illegal(journal)
    status, script, errors = checked(checker, ["--script"], joined(journal))
    if line is None:
        return None if status == 0 else f"status {status}, {errors!r}"
    if status != 1 or not errors.startswith(f"thpcheck: illegal line {line}\n".encode()):
        return f"status {status}, {errors!r}"
    if script != checked(checker, ["--script"], joined([*journal[:line - 1], "end"]))[1]:
        return "not the script of the events before it"
    explained = checked(checker, ["--script", "--explain"], joined(journal))[2]
    reported = checked(checker, ["--explain"], joined(journal))[2]
    return None if reported in explained else "not explained"


KINDS: tuple[Callable[[Random, Path, Path], Optional[str]], ...] = (one_caller, callers_apart, callers_mixed, tries_mixed, illegal)


class Repeats(ProgramCase):
    """Each journal, whose script another program runs."""

    variable = "THPCHECK"
    player: Path

    @classmethod
    def setUpClass(cls) -> None:
        """Finds both programs, or skips the tests."""
        super().setUpClass()
        cls.player = find_built("THPSPLIT")

    def check_late(self, journal: list[str]) -> Optional[str]:
        """Returns what is wrong with the script of a journal, or None."""
        return makes_same_calls(self.program, self.player, journal)

    def check_random(self, place: int) -> Optional[str]:
        """The same for the random journal with this number, which is of one of the kinds in turn."""
        return KINDS[place % len(KINDS)](Random(f"repeats {SEED} {place}"), self.program, self.player)


add_tests(Repeats, Repeats.check_late, LATE.items())
NAMES = [kind.__name__ for kind in KINDS]
add_tests(Repeats, Repeats.check_random, ((f"{NAMES[it % len(NAMES)]} {it} of seed {SEED}", it) for it in range(CASES)))
