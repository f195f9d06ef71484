#!/usr/bin/env python3
"""Compares the built program with a plain reading of the model on random scripts, journals and command lines.

    tests/fuzz.py PROGRAM [--checker THPCHECK] [--only KIND] [--cases N] [--seed S] [--jobs J] [--keep FOLDER]

With a checker, journals of version 4 are among the cases, which `thpcheck` alone reads.
The expected results for each text (the exit status, standard output and standard error) are computed by model.py, script.py
and texts.py, and those for words by usage.py. The program's help must contain each option, command, refusal and error named
there, and no other option or command. At the end a table shows what was covered, by kind. The first ten texts that differ are
stored in FOLDER, and the exit status is then 1. It is also 1 if 2,000 cases or more of all kinds left out something that is to be covered.
"""

from __future__ import annotations

import argparse
import os
import re
import signal
import subprocess
import sys
import tempfile
import time
from collections import Counter
from dataclasses import dataclass, field
from multiprocessing import Pool
from pathlib import Path
from random import Random
from typing import Callable, Iterator, Optional

import random_journals
import random_texts
import random_words
import usage
from limit_journals import SUBJECTS, limit_texts, node_line
from model import REFUSALS
from process import Ended, Word
from random_texts import Script, joined
from script import Run, first_illegal, sections_of, summary
from texts import COMMANDS, EVENTS, FAULT_WORDS, LARGE, LARGE_VERSION, MOST_BYTES, VERSION, BadText, journal_fault, number, script_fault

SECONDS = 600 if os.environ.get("EMULATED") == "1" else 60
"""A run that takes longer counts as different. Under an emulator the start of 63 threads can take half a minute on a loaded machine."""

MANY = 2000
"""The number of cases in which everything is covered."""

AT_ONCE = 20
"""The number of cases that a process gets at once."""


@dataclass(frozen=True)
class Probe:
    """Words and a text for the program, and the expected result."""

    name: str
    words: tuple[Word, ...]
    text: bytes
    wanted: Ended
    program: str = "thpsplit"


class Case:
    """A random case, perhaps of one kind only: its runs of the program, and what it covers."""

    def __init__(self, seed: int, place: int, has_checker: bool, only: Optional[str]) -> None:
        self.chance, self.place, self.has_checker = Random(f"{seed} {place}"), place, has_checker
        self.covered: Counter[tuple[str, str]] = Counter()
        kinds = KIND_OF if has_checker else [kind for kind in KIND_OF if kind != LARGE_KIND]
        kind = only or (kinds[place % len(kinds)] if (place + 1) % 500 else "a count at its limit")
        self.cover("kinds of cases", kind)
        self.probes = list(KINDS[kind](self))

    def cover(self, what: str, name: object, count: int = 1) -> None:
        """Records that something was covered."""
        self.covered[what, str(name)] += count


def whole_runs(case: Case, script: Script) -> Iterator[Probe]:
    """A script with each report; then its journal, unchanged and changed, for the check."""
    text, run = script.text(), script.run
    journal = run.journal()
    cover_run(case, script, journal)
    for report, lines in (("totals", run.totals()), ("answers", run.answers), ("journal", journal)):
        words = script.options(case.chance)
        if report != "totals" or case.chance.random() < 0.3:
            words += random_texts.option(case.chance, "report", report)
        case.cover("reports", report)
        for word in words:
            if str(word).startswith("--"):
                case.cover("options", str(word).partition("=")[0])
        yield Probe(report, tuple(words), text, Ended(0, joined(lines)))
    yield checked(case, "check", joined(journal))
    yield checked(case, "changed", joined(random_texts.changed_journal(case.chance, journal)))


def cover_run(case: Case, script: Script, journal: list[str]) -> None:
    """Records the commands, answers and events of a run, its nodes and its workers."""
    lines = [line for _, commands in script.sections for line in commands]
    for line, reported in zip(lines, script.run.answers):
        case.cover("commands", line.split(" ")[0])
        answer = reported.split(" ")[2:]
        if answer[0] == "refused":
            case.cover("refusals", answer[1])
        else:
            case.cover("answers", answer[0])
    for line in journal[1:-1]:
        if not line.startswith("node"):
            case.cover("events", line.split(" ")[1])
    for _, order, switch in script.shapes:
        case.cover("orders", order)
        case.cover("thresholds", {None: "off", 0: "0", 2**order - 1: "all but one"}.get(switch, "other"))
    case.cover("nodes", len(script.shapes))
    case.cover("workers at work", sum(1 for caller, _ in script.sections if caller))
    case.cover("versions of journals", journal[0][-1])


def checked(case: Case, name: str, text: bytes, newest: int = VERSION) -> Probe:
    """A journal for the check: its first error, otherwise its first illegal line, otherwise that it is legal. `newest`: the newest version
    that the program reads, which is `thpcheck` where that is 4."""
    program, words, of = ("thpsplit", ("--check",), "") if newest == VERSION else ("thpcheck", (), " by thpcheck")
    for word in words:
        case.cover("options", word)
    fault = journal_fault(text, newest)
    if fault is not None:
        case.cover("faults of journals" + of, fault.word)
        return Probe(name, words, text, Ended(2, b"", fault.message(program)), program)
    line = first_illegal(text.decode().split("\n")[:-1])
    if line is None:
        case.cover("verdicts" + of, "legal")
        return Probe(name, words, text, Ended(0, b"legal\n"), program)
    case.cover("verdicts" + of, "illegal")
    case.cover("illegal events" + of, text.split(b"\n")[line - 1].decode().split(" ")[1])
    return Probe(name, words, text, Ended(1, f"illegal line {line}\n".encode()), program)


def large_journals(case: Case) -> Iterator[Probe]:
    """A journal of version 4, and changes of it: the verdict and the totals of `thpcheck`; in version 3, if it is within that one's limits,
    the same verdict, also of `thpsplit`, which refuses version 4. And texts at the limits of versions."""
    chance = case.chance
    kind = chance.choice(random_journals.RARE) if (case.place + 1) % 500 == 0 else chance.choice(LARGE_KINDS)
    journal = random_journals.random_large(chance, kind)
    case.cover("journals of version 4", kind)
    case.cover("callers of version 4", journal.numbering)
    for use in journal.uses:
        case.cover("blocks with live pages", use)
    lines, text = journal.lines, joined(journal.lines)
    verdict = checked(case, "large", text, LARGE_VERSION)
    totals = Ended(verdict.wanted.status, verdict.wanted.output + joined(summary(lines)))
    yield from (verdict, Probe("totals", ("--summary",), text, totals, "thpcheck"))
    if random_journals.is_small(lines):
        case.cover("journals of version 4", "also of version 3")
        former = joined(random_journals.as_version(lines, VERSION))
        yield Probe("as-3", (), former, verdict.wanted, "thpcheck")
        yield checked(case, "as-3-by-thpsplit", former)
    if len(text) <= MOST_BYTES:
        yield checked(case, "by-thpsplit", text)
    yield checked(case, "changed", joined(random_texts.changed_journal(chance, lines)), LARGE_VERSION)
    yield checked(case, "spoilt", random_texts.spoilt(chance, text, EVENTS), LARGE_VERSION)
    yield checked(case, "number", joined(random_journals.with_other_number(chance, lines)), LARGE_VERSION)
    yield checked(case, "order", joined(random_journals.with_other_order(chance, lines)), LARGE_VERSION)
    if kind == "every node":
        yield checked(case, "node-beyond", joined([*lines[:-1], node_line(LARGE_VERSION, LARGE.node + 1), "end"]), LARGE_VERSION)
    for place, (subject, at_limit) in enumerate(chance.sample(LIMIT_TEXTS, 8)):
        case.cover("limits of versions", subject)
        yield checked(case, f"limit-{place}", joined(at_limit), LARGE_VERSION)


def one_worker(case: Case) -> Iterator[Probe]:
    """Setup and one worker, on any nodes."""
    return whole_runs(case, random_texts.script_of_one(case.chance))


def many_workers(case: Case) -> Iterator[Probe]:
    """Several workers, each on nodes of its own."""
    return whole_runs(case, random_texts.script_of_many(case.chance))


def limit(case: Case) -> Iterator[Probe]:
    """A count that reaches 65,535."""
    return whole_runs(case, random_texts.script_of_limits(case.chance))


def spoilt_scripts(case: Case) -> Iterator[Probe]:
    """A script with a change, four times: its first error, or its totals."""
    script = random_texts.script_of_one(case.chance)
    for place in range(4):
        text = random_texts.spoilt(case.chance, script.text(), COMMANDS)
        fault = script_fault(text, len(script.shapes), script.workers)
        words = tuple(script.options(case.chance))
        if fault is not None:
            case.cover("faults of scripts", fault.word)
            yield Probe(f"spoilt-{place}", words, text, Ended(2, b"", fault.message()))
            continue
        case.cover("faults of scripts", "none")
        if sum(1 for caller, lines in sections_of(text.decode()) if caller and lines) > 1:
            continue  # workers side by side on one node: more than one run is right
        run = Run(script.shapes)
        run.text(text.decode())
        yield Probe(f"spoilt-{place}", words, text, Ended(0, joined(run.totals())))


def spoilt_journals(case: Case) -> Iterator[Probe]:
    """A journal with a change, six times: its first error, or whether it is legal."""
    script = random_texts.script_of_one(case.chance)
    journal = script.run.journal()
    text = joined(journal)
    for place in range(2):
        yield checked(case, f"spoilt-{place}", random_texts.spoilt(case.chance, text, EVENTS))
        yield checked(case, f"set-{place}", random_texts.with_other_set(case.chance, text))
        yield checked(case, f"changed-{place}", joined(random_texts.changed_journal(case.chance, journal)))


def command_lines(case: Case) -> Iterator[Probe]:
    """Words with errors, and requests, with an input that has errors too."""
    for place in range(4):
        kind, words, wanted = random_words.faulty_words(case.chance)
        case.cover("faults of words", kind)
        yield Probe(f"words-{place}", tuple(words), b"fly\n", wanted)
    name, words, wanted = random_words.request(case.chance)
    case.cover("options", f"--{name}")
    yield Probe(name, tuple(words), b"fly\n", wanted)


ORDER_ITEMS = tuple("23456789") * 3 + ("1", "10", "09", "x", "")
SWITCH_ITEMS = ("off", "0", "1", "3") * 6 + ("4", "511", "512", "on", "00")


def lists(case: Case) -> Iterator[Probe]:
    """Orders and thresholds that are valid for the nodes, and others, which are reported before the script's error."""
    for place in range(4):
        nodes = case.chance.randrange(1, random_texts.MOST_NODES + 1)
        orders = random_words.list_of(case.chance, ORDER_ITEMS, nodes)
        switches = random_words.list_of(case.chance, SWITCH_ITEMS, nodes)
        words = (f"--orders={orders}", "--nodes", str(nodes), f"--underused={switches}", "--report=journal")
        wanted = wanted_of_lists(nodes, orders.split(","), switches.split(","))
        case.cover("lists", "fit" if wanted.status == 0 else wanted.errors.decode().strip())
        yield Probe(f"list-{place}", words, b"# nothing\n" if wanted.status == 0 else b"fly\n", wanted)


def wanted_of_lists(nodes: int, orders: list[str], switches: list[str]) -> Ended:
    """The expected result for these lists: the journal of a run without commands, if they are valid."""
    try:
        read = [number(item.encode(), 9, 2) for item in orders]
        if len(read) != nodes:
            raise BadText
    except BadText:
        return Ended(2, b"", b"thpsplit: bad orders\n")
    try:
        high = [None if item == "off" else number(item.encode(), 2**order - 1) for item, order in zip(switches, read)]
        if len(switches) != nodes:
            raise BadText
    except BadText:
        return Ended(2, b"", b"thpsplit: bad underused\n")
    return Ended(0, joined(Run([(16, order, switch) for order, switch in zip(read, high)]).journal()))


KINDS: dict[str, Callable[[Case], Iterator[Probe]]] = {
    "one worker": one_worker,
    "workers on nodes of their own": many_workers,
    "spoilt scripts": spoilt_scripts,
    "spoilt journals": spoilt_journals,
    "words": command_lines,
    "lists": lists,
    "a count at its limit": limit,
    "journals of version 4": large_journals,
}
LIMIT_TEXTS = limit_texts()
LARGE_KIND = "journals of version 4"
LARGE_KINDS = ("few",) * 30 + ("many callers", "many pages", "many nodes")
KIND_OF = ("one worker", "workers on nodes of their own", "spoilt scripts", "one worker", "spoilt journals",
           "one worker", "workers on nodes of their own", "words", "one worker", "lists", LARGE_KIND)
"""The kinds of cases, in turn; each 500th case is another. The last needs `thpcheck`."""

ANSWERS = (
    "page", "ok", "stays", "queued", "freed", "count", "taken", "split", "pinned", "used", "done", "no-batch", "back",
)
TO_COVER: dict[str, tuple[str, ...]] = {
    "kinds of cases": tuple(kind for kind in KINDS if kind != LARGE_KIND),
    "commands": COMMANDS,
    "answers": ANSWERS,
    "refusals": REFUSALS,
    "events": EVENTS,
    "reports": usage.REPORTS,
    "options": tuple(f"--{name}" for name in usage.OPTIONS),
    "orders": tuple("23456789"),
    "thresholds": ("off", "0", "all but one", "other"),
    "nodes": tuple("12345678"),
    "workers at work": tuple("012345678"),
    "versions of journals": tuple("123"),
    "verdicts": ("legal", "illegal"),
    "illegal events": EVENTS,
    "faults of scripts": ("none", *(word for word in FAULT_WORDS if word not in ("too-long", "bad-set"))),
    "faults of journals": tuple(word for word in FAULT_WORDS if word != "too-long"),
    "faults of words": tuple(random_words.FAULTS),
    "lists": ("fit", "thpsplit: bad orders", "thpsplit: bad underused"),
}
"""What is to be covered. Texts that are too long are left to tests/outside.py."""

TO_COVER_LARGE: dict[str, tuple[str, ...]] = {
    "journals of version 4": (*dict.fromkeys(LARGE_KINDS), "also of version 3"),
    "callers of version 4": ("dense", "sparse"),
    "blocks with live pages": ("none of 1", "all of 1", "few of 4096", "few of 4097", "few of 16777216", "many of 16777216"),
    "limits of versions": tuple(SUBJECTS),
    "verdicts by thpcheck": ("legal", "illegal"),
    "faults of journals by thpcheck": tuple(word for word in FAULT_WORDS if word not in ("too-long", "bad-set")),
    "illegal events by thpcheck": ("alloc", "splitpmd", "unmapsub", "taken", "split", "back"),
}
"""What is to be covered by journals of version 4."""


def help_is_whole(program: Path) -> list[str]:
    """What the program's help lacks, or contains beyond this list."""
    reported = subprocess.run([program, "--help"], capture_output=True, check=False, timeout=SECONDS).stdout.decode()
    options = re.findall(r"^ +(?:-\w, )?--(\w+)", reported, re.M)
    after = reported.partition("\nCommands:\n")[2]
    commands = re.findall(r"^  ([a-z]+) ", after.partition("\n\n")[0], re.M)
    pairs = [("option", sorted(options), sorted(usage.OPTIONS)), ("command", sorted(commands), sorted(COMMANDS))]
    wrong = [f"help reports {what}s {found}, and not {wanted}" for what, found, wanted in pairs if found != wanted]
    for word in (*REFUSALS, *FAULT_WORDS):
        if not re.search(rf"(?<![\w-]){word}(?![\w-])", after):
            wrong.append(f"help doesn't report '{word}'")
    return wrong


@dataclass
class Outcome:
    """The result of some cases: the number of texts compared, those that differ, and what was covered."""

    cases: int = 0
    compared: int = 0
    differing: list[tuple[str, Probe, Ended]] = field(default_factory=list)
    covered: Counter[tuple[str, str]] = field(default_factory=Counter)

    def add(self, other: Outcome) -> None:
        """Adds the result of other cases."""
        self.cases += other.cases
        self.compared += other.compared
        self.differing += other.differing
        self.covered.update(other.covered)


def try_cases(asked: tuple[Path, int, range, Optional[str]]) -> Outcome:
    """Makes some cases, and runs the programs in a folder on each of their texts."""
    folder, seed, places, only = asked
    outcome = Outcome(len(places))
    for place in places:
        case = Case(seed, place, (folder / "thpcheck").exists(), only)
        outcome.covered.update(case.covered)
        for probe in case.probes:
            outcome.compared += 1
            ended = run(folder / probe.program, probe)
            if ended != probe.wanted:
                outcome.differing.append((f"{seed}-{place}-{probe.name}", probe, ended))
    return outcome


def run(program: Path, probe: Probe) -> Ended:
    """Runs the program."""
    try:
        words = [program, *probe.words]
        done = subprocess.run(words, input=probe.text, capture_output=True, timeout=SECONDS, check=False)
    except subprocess.TimeoutExpired as late:
        return Ended(-9, late.stdout or b"", late.stderr or b"")
    return Ended(done.returncode, done.stdout, done.stderr)


def keep(folder: Path, probe: Probe, ended: Ended) -> None:
    """Stores a text that differs, with the expected and the actual result."""
    folder.mkdir(parents=True, exist_ok=True)
    (folder / "options").write_bytes(b"".join(os.fsencode(word) + b"\n" for word in probe.words))
    (folder / "input").write_bytes(probe.text)
    for name, it in (("wanted", probe.wanted), ("reported", ended)):
        (folder / f"{name}.status").write_text(f"{it.status}\n")
        (folder / f"{name}.stdout").write_bytes(it.output)
        (folder / f"{name}.stderr").write_bytes(it.errors)
    print(f"differs: {folder}: {ended.differs_from(probe.wanted)}", file=sys.stderr, flush=True)


def report_covered(covered: Counter[tuple[str, str]], to_cover: dict[str, tuple[str, ...]]) -> list[str]:
    """Prints what was covered, by kind, and returns what was not."""
    never: list[str] = []
    for what, names in to_cover.items():
        counts = {name: covered[what, name] for name in names}
        counts.update({name: count for (kind, name), count in sorted(covered.items()) if kind == what})
        print(f"{what}: " + ", ".join(f"{name} {count}" for name, count in counts.items()))
        never += [f"{what}: {name}" for name, count in counts.items() if count == 0]
    return never


def arguments() -> argparse.Namespace:
    """The words of the command line."""
    parser = argparse.ArgumentParser(description="compares the built program with a plain reading of the model")
    parser.add_argument("program", type=Path)
    parser.add_argument("--checker", type=Path, help="the built thpcheck")
    parser.add_argument("--only", choices=[*KINDS], help="cases of this kind alone")
    parser.add_argument("--cases", type=int, default=MANY)
    parser.add_argument("--seed", type=int, default=1)
    parser.add_argument("--jobs", type=int, default=min(2, os.cpu_count() or 1), help="processes side by side")
    parser.add_argument("--keep", type=Path, default=Path("fuzz-kept"))
    return parser.parse_args()


def be_worker() -> None:
    """A process of the pool is ended by the first one, which is the only one to be interrupted."""
    signal.signal(signal.SIGINT, signal.SIG_IGN)
    signal.signal(signal.SIGTERM, signal.SIG_DFL)


def try_all(asked: argparse.Namespace, folder: Path) -> Outcome:
    """Runs all cases on the programs in a folder, or those until it is interrupted or terminated; stores the first texts that differ."""
    signal.signal(signal.SIGTERM, signal.default_int_handler)
    whole = Outcome()
    places = [range(at, min(at + AT_ONCE, asked.cases)) for at in range(0, asked.cases, AT_ONCE)]
    parts = [(folder, asked.seed, each, asked.only) for each in places]
    with Pool(asked.jobs, be_worker) as pool:
        try:
            for part in pool.imap(try_cases, parts):
                for name, probe, ended in part.differing[: max(10 - len(whole.differing), 0)]:
                    keep(asked.keep / name, probe, ended)
                whole.add(part)
        except KeyboardInterrupt:
            for which in (signal.SIGINT, signal.SIGTERM):
                signal.signal(which, signal.SIG_IGN)
            print("interrupted", file=sys.stderr)
    return whole


def main() -> None:
    """Compares, and prints what was covered and what differs."""
    asked = arguments()
    programs = {"thpsplit": asked.program} | ({"thpcheck": asked.checker} if asked.checker else {})
    for path in programs.values():
        if not os.access(path, os.X_OK):
            sys.exit(f"{path} is no program")
    if asked.only == LARGE_KIND and not asked.checker:
        sys.exit(f"{LARGE_KIND} need --checker")
    began = time.monotonic()
    with tempfile.TemporaryDirectory() as name:
        for called, path in programs.items():
            (Path(name) / called).symlink_to(path.resolve())
        wrong = help_is_whole(Path(name) / "thpsplit")
        whole = try_all(asked, Path(name))
    to_cover = TO_COVER if asked.only != LARGE_KIND else {}
    never = report_covered(whole.covered, to_cover | TO_COVER_LARGE if asked.checker else to_cover)
    for line in wrong:
        print(line)
    if never:
        print(f"never met: {'; '.join(never)}")
    took = f"{time.monotonic() - began:.0f} s"
    differ = len(whole.differing)
    print(f"{whole.cases} cases of seed {asked.seed}, {whole.compared} texts compared, {differ} differ, {took}")
    is_whole = whole.cases == asked.cases and not (never and asked.cases >= MANY and asked.only in (None, LARGE_KIND))
    sys.exit(0 if is_whole and not differ and not wrong else 1)


if __name__ == "__main__":
    main()
