"""Calls of thpsplit, each with the exit status and the exact bytes of each stream. tests/test_outside.py makes them, and
tests/test_wrong_programs.py makes them of wrong programs.
"""

from __future__ import annotations

from dataclasses import dataclass
from functools import lru_cache
from pathlib import Path
from typing import Callable, Iterator, Optional, Union

import faulty_texts
import usage
from process import Call, Ended, ReadTooEarly, Sink, Source, Word, run
from texts import MOST_BYTES

ROOT = Path(__file__).resolve().parent.parent
STORED = ROOT / "tests/stored"
FIRST = (ROOT / "examples/first.script").read_bytes()
FIRST_TOTALS = (ROOT / "examples/first.script.stdout").read_bytes()
ILLEGAL = (ROOT / "examples/illegal.journal").read_bytes()
LEGAL = (ROOT / "examples/two_workers.journal").read_bytes()
FIRST_JOURNAL = (STORED / "first.journal").read_bytes()
FIRST_ANSWERS = (STORED / "first.answers").read_bytes()
HELP = (STORED / "help.txt").read_bytes()
VERSION = (STORED / "version.txt").read_bytes()

READ_FAILED = Ended(3, b"", b"thpsplit: read failed\n")
WRITE_FAILED = Ended(3, b"", b"thpsplit: write failed\n")
NO_MEMORY = Ended(3, b"", b"thpsplit: out of memory\n")
BAD_ORDERS = Ended(2, b"", b"thpsplit: bad orders\n")
BAD_UNDERUSED = Ended(2, b"", b"thpsplit: bad underused\n")
TOO_LONG = Ended(2, b"", b"thpsplit: line 0: too-long\n")
NOTHING_DONE = (
    b"node 0\npages 0\nqueue 0\nframes_held 0\nframes_given 0\n"
    b"thp_split_page 0\nthp_split_page_failed 0\nthp_deferred_split_page 0\nthp_split_pmd 0\n"
)
"""The totals of a node without events."""

FEW_BYTES = 48 * 2**20
"""Enough address space for the program to start, and too little for two million commands or answers."""


@dataclass(frozen=True)
class Row:
    """A call of the program, and its expected result."""

    group: str
    name: str
    call: Call
    wanted: Union[Ended, Callable[[], Ended]]
    """The result, or a function that computes it if that takes long."""

    def wrong(self, program: Path) -> Optional[str]:
        """What is wrong when the program makes the call, or None."""
        try:
            return run(program, self.call).differs_from(self.wanted if isinstance(self.wanted, Ended) else self.wanted())
        except ReadTooEarly:
            return "bytes of the input were read"


def fails_with(errors: bytes) -> Ended:
    """An error of usage with this text."""
    return Ended(2, b"", errors)


def words(text: str) -> tuple[str, ...]:
    """The words of a command line that have no spaces."""
    return tuple(text.split())


def reports() -> Iterator[Row]:
    """Each report of the first script, the totals of nothing, and a journal's verdict."""
    outputs = {"": FIRST_TOTALS, "--report totals": FIRST_TOTALS, "--": FIRST_TOTALS}
    outputs.update({"--report journal": FIRST_JOURNAL, "--report=answers": FIRST_ANSWERS})
    for line, output in outputs.items():
        for source in (Source.FILE, Source.PIPE):
            name = f"{line or 'no words'}, from a {source.name.lower()}"
            yield Row("reports", name, Call(words(line), FIRST, source), Ended(0, output))
    yield Row("reports", "an empty script", Call(), Ended(0, NOTHING_DONE))
    yield Row("reports", "a script of a comment alone", Call((), b"# nothing\n\n"), Ended(0, NOTHING_DONE))
    yield Row("reports", "an empty script, answers", Call(words("--report answers")), Ended(0, b""))
    journal = b"thp-journal 1\nnode 0 blocks 16\nend\n"
    yield Row("reports", "an empty script, journal", Call(words("--report journal")), Ended(0, journal))
    yield Row("reports", "--check, legal", Call(words("--check"), LEGAL), Ended(0, b"legal\n"))
    yield Row("reports", "--check, its own journal", Call(words("--check"), FIRST_JOURNAL), Ended(0, b"legal\n"))
    line = "--check --orders x --nodes 2"
    yield Row("reports", line, Call(words(line), LEGAL), Ended(0, b"legal\n"))


def requests() -> Iterator[Row]:
    """Help and version, which read no input, whatever it is."""
    asked = dict.fromkeys(("--help", "-h", "--check --help", "--help --zzz", "--orders x --help", "-hV"), HELP)
    asked.update(dict.fromkeys(("--version", "-V", "--nodes 2 -V", "--version x", "-Vh"), VERSION))
    for line, output in asked.items():
        group = "help" if output == HELP else "version"
        yield Row(group, line, Call(words(line), b"fly\n", untouched=True), Ended(0, output))
        for source in (Source.FOLDER, Source.CLOSED):
            yield Row(group, f"{line}, input {source.name.lower()}", Call(words(line), source=source), Ended(0, output))
        yield Row(group, f"{line}, /dev/full", Call(words(line), output=Sink.FULL), WRITE_FAILED)
    yield Row("usage", "--nodes 9 --help", Call(words("--nodes 9 --help")), fails_with(usage.out_of_range("nodes", 9)))


def numbers() -> Iterator[Row]:
    """The options that take a number: at their bounds, beyond them, and what is no number."""
    small, large = (f"number too {what} to fit in target type" for what in ("small", "large"))
    for name, most in usage.MOST.items():
        for value in (1, most):
            call = Call((f"--{name}", str(value), "--report", "answers"), FIRST)
            yield Row("options", f"--{name} {value}", call, Ended(0, FIRST_ANSWERS))
        for value in (0, most + 1, 2**32 - 1, 2**32 + 1, 2**63 - 1):
            yield usage_row(f"--{name} {value}", usage.out_of_range(name, value))
        for value in (-1, -(2**63)):
            yield usage_row(f"--{name}={value}", usage.out_of_range(name, value))
        for text in ("x", "1x", "1.0", "0x1", " 1", "--check"):
            errors = usage.no_number(name, text, "invalid digit found in string")
            yield usage_row(f"--{name}={text}", errors, (f"--{name}={text}",))
        yield usage_row(f"--{name}={2**64}", usage.no_number(name, str(2**64), large))
        yield usage_row(f"--{name}={-2**64}", usage.no_number(name, str(-(2**64)), small))


def usage_row(line: str, errors: bytes, given: tuple[Word, ...] = ()) -> Row:
    """A command line with an error, so that no input is read. Its words are the line's, unless they are given."""
    return Row("usage", line, Call(given or words(line), b"fly\n", untouched=True), fails_with(errors))


def options_at_fault() -> Iterator[Row]:
    """Options without a value, with an empty one, or twice; and options that take none."""
    for name, value in usage.OPTIONS.items():
        if value is None:
            yield usage_row(f"--{name}=yes", usage.attached(name, "yes"))
        else:
            yield usage_row(f"--{name}", usage.no_value(name))
            yield usage_row(f"--check --{name}", usage.no_value(name))
            if value not in ("ORDERS", "THRESHOLDS"):
                yield usage_row(f"--{name}=", usage.empty(name))
                yield usage_row(f"--{name} and an empty word", usage.empty(name), (f"--{name}", ""))
        if name not in ("help", "version"):
            once = (f"--{name}",) if value is None else (f"--{name}", "totals" if name == "report" else "2")
            yield usage_row(f"--{name}, twice", usage.doubled(name), (*once, *once))
    yield usage_row("--report=all", usage.no_report("all"))
    yield usage_row("--report Totals", usage.no_report("Totals", "totals"))
    yield usage_row("--report=journals", usage.no_report("journals", "journal"))


def words_at_fault() -> Iterator[Row]:
    """Words that the command line does not have, and words that are not text."""
    for word in ("zzz", "--zzz", "-z", "-", "first.script", "\u00e9", "--\u00e9", "", "a b"):
        yield usage_row(repr(word), usage.unexpected(word), (word,))
    for word, similar in {"--node": "nodes", "--order": "orders", "--chek": "check", "--underuse": "underused"}.items():
        yield usage_row(word, usage.unexpected(word, similar))
    yield usage_row("-nodes 2", usage.unexpected("-n"))
    yield usage_row("-- zzz", usage.unexpected("zzz"))
    yield usage_row("thirty words", usage.unexpected("zzz"), ("zzz",) * 30)
    yield usage_row("two thousand words", usage.unexpected("zzz"), ("--check", *("zzz",) * 2000))
    not_text: dict[str, tuple[Word, ...]] = {"alone": (b"\xff",), "a value": ("--orders", b"9\xff"), "behind --help": ("--help", b"--\xc3")}
    for name, words_given in not_text.items():
        call = Call(words_given, b"fly\n", untouched=True)
        yield Row("not text", f"a word that isn't UTF-8, {name}", call, fails_with(usage.NOT_TEXT))


def lists() -> Iterator[Row]:
    """Orders and thresholds that are not valid, which are reported before any input is read; and some that are."""
    orders = ("10", "1", "0", "2,3", "", "9,", ",9", "09", "x", "off", "-", str(2**32), "9" * 100_000, "2;3")
    for line in (*(f"--orders={text}" for text in orders), "--nodes=2 --orders=9", "--orders=x --underused=x"):
        yield from list_rows(line, BAD_ORDERS)
    for text in ("512", "off,off", "on", "OFF", "", "9,", "00", str(2**64)):
        yield from list_rows(f"--underused={text}", BAD_UNDERUSED)
    yield from list_rows("--orders=2 --underused=4", BAD_UNDERUSED)
    script = b"setup\nalloc 0\nalloc 1\n"
    front = b"thp-journal 3\nnode 0 blocks 16 order 2 underused 3\n0 alloc 0\n"
    journal = front + b"node 1 blocks 16 order 9 underused off\n0 alloc 0\nend\n"
    line = "--nodes 2 --orders 2,9 --underused 3,off --report journal"
    yield Row("options", line, Call(words(line), script), Ended(0, journal))
    journal = b"thp-journal 2\nnode 0 blocks 1 order 3\n0 alloc 0\nend\n"
    line = "--report journal --blocks 1 --orders 3 --"
    yield Row("options", line, Call(words(line), b"setup\nalloc 0\nalloc 0\n"), Ended(0, journal))


def list_rows(line: str, wanted: Ended) -> Iterator[Row]:
    """Options that are not valid are reported, whatever the input is."""
    name = line if len(line) < 80 else f"{line[:40]}.. ({len(line)} bytes)"
    for what, given in {"a fault": b"fly\n", "nothing": b"", "a script": FIRST}.items():
        yield Row("judged first", f"{name}, input is {what}", Call(words(line), given, untouched=True), wanted)
    for source in (Source.FOLDER, Source.CLOSED):
        yield Row("judged first", f"{name}, input is {source.name.lower()}", Call(words(line), source=source), wanted)


def script_faults() -> Iterator[Row]:
    """Each error of a script, with any report; and each command with a word too many and too few."""
    for text, line, word in faulty_texts.SCRIPTS:
        yield fault_row("scripts at fault", "", text, line, word)
    for options in ("--report journal", "--report answers --nodes 8 --blocks 4096 --workers 63"):
        yield fault_row("scripts at fault", options, FIRST + b"fly\n", FIRST.count(b"\n") + 1, "bad-word")
    for command, count in faulty_texts.COUNTS.items():
        for many in (count - 1, count + 1):
            line_of_many = f"setup\n{' '.join((command, *'0' * many))}\n".encode()
            yield fault_row("scripts at fault", "", line_of_many, 2, "bad-count")
        text = f"setup\n{' '.join((command, *'0' * (count - 1)))} x\n".encode()
        yield fault_row("scripts at fault", "", text, 2, "bad-number")
    yield fault_row("scripts at fault", "--nodes 8", b"setup\nalloc 7\nalloc 8\n", 3, "bad-number")
    yield fault_row("scripts at fault", "--workers 63", b"worker 63\nworker 64\n", 2, "bad-number")


def journal_faults() -> Iterator[Row]:
    """Each error of a journal; and a journal is not a script."""
    for text, line, word in faulty_texts.JOURNALS + faulty_texts.SMALL_JOURNALS:
        yield fault_row("journals at fault", "--check", text, line, word)
    yield fault_row("journals at fault", "", LEGAL, 1, "bad-word")
    yield fault_row("journals at fault", "", ILLEGAL, 1, "bad-word")
    yield fault_row("journals at fault", "--check", FIRST, 1, "bad-word")


def fault_row(group: str, line: str, text: bytes, at: int, word: str) -> Row:
    """A text with an error: a line on standard error, and nothing on standard output."""
    name = f"{line or 'no words'}, {text[-60:]!r}"
    return Row(group, name, Call(words(line), text), Ended(2, b"", f"thpsplit: line {at}: {word}\n".encode()))


def verdicts() -> Iterator[Row]:
    """Illegal journals: reported on standard output, with status 1."""
    line_7 = Ended(1, b"illegal line 7\n")
    yield Row("illegal", "examples/illegal.journal", Call(words("--check"), ILLEGAL), line_7)
    yield Row("illegal", "the same, from a pipe", Call(words("--check"), ILLEGAL, Source.PIPE), line_7)
    yield Row("illegal", "the same, with options", Call(words("--nodes 8 --check --orders x"), ILLEGAL), line_7)
    for text, line in faulty_texts.ILLEGAL:
        verdict = Ended(1, f"illegal line {line}\n".encode())
        yield Row("illegal", repr(text[-60:]), Call(words("--check"), text + b"end\n"), verdict)


LOST = (Sink.FULL, Sink.CLOSED, Sink.BROKEN)
"""Outputs that fail."""


def failed_inputs() -> Iterator[Row]:
    """Inputs that fail: the failed read is reported."""
    for source in (Source.FOLDER, Source.CLOSED):
        for line in ("", "--report journal", "--check"):
            name = f"{line or 'no words'}, input {source.name.lower()}"
            yield Row("read", name, Call(words(line), source=source), READ_FAILED)


def failed_outputs() -> Iterator[Row]:
    """A failure of standard output is reported; a failure of standard error changes nothing else."""
    check = words("--check")
    for line, text in {"": FIRST, "--report journal": FIRST, "--report answers": FIRST, "--check": LEGAL}.items():
        for sink in LOST:
            name = f"{line or 'no words'}, standard output {sink.name.lower()}"
            yield Row("write", name, Call(words(line), text, output=sink), WRITE_FAILED)
    yield Row("write", "an illegal journal, standard output full", Call(check, ILLEGAL, output=Sink.FULL), WRITE_FAILED)
    call = Call(words("--report answers"), b"setup\n" + b"count 0\n" * 100_000, output=Sink.BROKEN)
    yield Row("write", "a report over a pipe's room, broken", call, WRITE_FAILED)
    call = Call(words("--report answers"), output=Sink.FULL)
    yield Row("write", "nothing to write, standard output full", call, Ended(0))
    for sink in LOST:
        name = f"standard error {sink.name.lower()}"
        yield Row("write", f"{name}, a fault", Call((), b"fly\n", errors=sink), Ended(2))
        yield Row("write", f"{name}, a usage fault", Call(("zzz",), errors=sink), Ended(2))
        yield Row("write", f"{name}, a report", Call((), FIRST, errors=sink), Ended(0, FIRST_TOTALS))
        call = Call(check, ILLEGAL, errors=sink)
        yield Row("write", f"{name}, an illegal journal", call, Ended(1, b"illegal line 7\n"))


def limits() -> Iterator[Row]:
    """Texts of 16 MiB and a byte more, and inputs without an end."""
    too_long = Ended(2, b"", b"thpsplit: line 0: too-long\n")
    comment = b"#" * (MOST_BYTES - 1 - len(FIRST)) + b"\n"
    check = words("--check")
    for source in (Source.FILE, Source.PIPE):
        name = source.name.lower()
        yield Row("limits", f"a script of 16 MiB, {name}", Call((), comment + FIRST, source), Ended(0, FIRST_TOTALS))
        yield Row("limits", f"a script a byte longer, {name}", Call((), b"\n" + comment + FIRST, source), too_long)
        call = Call(check, LEGAL + b"#" * (MOST_BYTES + 1 - len(LEGAL)), source)
        yield Row("limits", f"a journal of 16 MiB and a byte, {name}", call, too_long)
    yield Row("limits", "a fault in front of too many bytes", Call((), b"fly\n" + comment + FIRST), too_long)
    cut = Ended(2, b"", b"thpsplit: line 1: cut\n")
    yield Row("limits", "16 MiB without a line feed", Call((), b"#" * MOST_BYTES), cut)
    bad_byte = Ended(2, b"", b"thpsplit: line 1: bad-byte\n")
    yield Row("limits", "16 MiB of a byte 0", Call((), bytes(MOST_BYTES)), bad_byte)
    yield Row("limits", "an input without an end", Call(source=Source.ENDLESS), too_long)
    yield Row("limits", "a journal without an end", Call(check, source=Source.ENDLESS), too_long)


def little_memory() -> Iterator[Row]:
    """Lack of memory is reported, and neither `setup` nor a check needs more for more commands or events."""
    commands = b"count 0\n" * 2_000_000
    yield Row("memory", "two million commands", Call((), b"worker 1\n" + commands, memory=FEW_BYTES), NO_MEMORY)
    yield Row("memory", "two million commands of setup", Call((), b"setup\n" + commands, memory=FEW_BYTES), Ended(0, NOTHING_DONE))
    yield Row("memory", "two million answers", Call(words("--report answers"), b"setup\n" + commands, memory=FEW_BYTES), NO_MEMORY)
    journal = b"thp-journal 1\nnode 0 blocks 1\n0 alloc 0\n" + b"0 pin 0\n" * 2_000_000 + b"end\n"
    # the 65,536th pin is refused
    illegal = Ended(1, b"illegal line 65539\n")
    yield Row("memory", "two million events", Call(words("--check"), journal, memory=FEW_BYTES), illegal)


PARTS: tuple[Callable[[], Iterator[Row]], ...] = (
    reports, requests, numbers, options_at_fault, words_at_fault, lists, script_faults, journal_faults, verdicts,
    failed_inputs, failed_outputs, limits, little_memory,
)


@lru_cache(maxsize=None)
def rows() -> tuple[Row, ...]:
    """All rows."""
    return tuple(row for part in PARTS for row in part())
