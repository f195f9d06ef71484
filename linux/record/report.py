"""The journal as a file, the files that a recording writes, and its report: the verdict, and what was counted."""

from __future__ import annotations

import itertools
import os
from argparse import Namespace
from collections import Counter as Tallies
from typing import IO, Iterable, Sequence

from ..common.checker import JournalChecker
from ..common.errors import DIFFERS, DONE, INCONCLUSIVE, SKIPPED, InputFault, RunFailed
from ..common.files import NewFile
from ..common.text import escape, text_lines
from .journal_builder import JournalBuilder
from .reasons import PROVED, Count, Doubt, Omission, Reason, describe
from .recorder import Recording
from .scratch import ScratchFile
from .state import State, journal_lines

SHOWN = 300  # letters of a line that is printed
MOST_SHOWN = 5  # events that observation contradicts


class JournalFile(ScratchFile):
    """A journal in an unnamed temporary file. `events`: how many it has."""

    def __init__(self, nodes: Sequence[State]) -> None:
        super().__init__("the journal")
        self.events = self.append_lines(journal_lines(nodes)) - len(nodes) - 2

    def line(self, number: int) -> str:
        """Returns a line, counted from 1; "" where there is none."""
        with self.open_again() as file:
            return escape(next(itertools.islice(file, number - 1, None), b"").rstrip(b"\n"))[:SHOWN]

    def check(self, by: JournalChecker) -> tuple[int | None, list[str]]:
        """Returns the line of the first illegal event, from 1 (None: legal), and lines that explain it. RunFailed: it isn't accepted."""
        verdict = by.check(self.descriptor)
        if not verdict.legal and verdict.line is None:
            raise RunFailed(f"{escape(by.path)} doesn't take the journal of {self.size} bytes: {escape(verdict.text)}")
        shown = [f"line {verdict.line}: {self.line(verdict.line)}"] if verdict.line and not verdict.why else []
        return verdict.line, shown + [escape(each) for each in text_lines(verdict.why)]


class Outputs:
    """The files of --out, --times and --records, the last for each queue: made before the recording, removed where nothing was written."""

    def __init__(self, options: Namespace, queues: int) -> None:
        names = {"journal": options.out, "times": options.times}
        for number in range(queues if options.records is not None else 0):
            names[f"records {number}"] = options.records + (f".{number + 1}" if number else "")
        self._files: dict[str, tuple[str, NewFile]] = {}
        try:
            for what, path in names.items():
                if path is not None:
                    self._files[what] = path, NewFile(path)
        except InputFault:
            self.close()
            raise

    def write(self, what: str, pieces: Iterable[bytes]) -> None:
        """Writes an output, if it is wanted, and replaces what was in it."""
        if what in self._files:
            file: IO[bytes] = self._files[what][1].file.buffer
            file.seek(0)
            file.truncate()
            file.writelines(pieces)
            file.flush()

    def close(self) -> None:
        """Closes all files, and removes those into which nothing was written."""
        for path, new in self._files.values():
            try:
                new.file.flush()
                if os.fstat(new.file.fileno()).st_size == 0:
                    new.remove()
                new.close()
            except OSError as error:
                raise RunFailed(f"{escape(path)} can't be written: {error.strerror}") from error


class Report:
    """Judges a recording. `required`: the percentage of pages that a legal one follows; a strict report allows no known difference."""

    def __init__(self, by: JournalChecker, required: float, is_strict: bool) -> None:
        self._by, self._required, self._is_strict = by, required, is_strict

    def judge(self, recording: Recording, builders: Sequence[JournalBuilder], journal: JournalFile) -> int:
        """Prints the verdict, and what was left out and counted; returns the tool's status."""
        contradictions = compare_with_observed(builders)
        pages, left_out = sum(builder.pages for builder in builders), sum(builder.left_out for builder in builders)
        tallies: Tallies[Reason] = Tallies(recording.doubts)
        counts = Tallies({"pages": pages, "events": journal.events, "records": sum(track.store.count for track in recording.tracks)})
        for builder in builders:
            tallies.update(builder.tallies)
            counts.update({f"events {word}": many for word, many in builder.event_counts.items()})
        if 100 * left_out > (100 - self._required) * pages:
            tallies[Doubt.FEW_FOLLOWED] = left_out
        status, words, why = self._judge(tallies, builders, journal)
        share = f"{100 * (pages - left_out) / max(1, pages):.1f} %"
        print(f"{words}: {pages - left_out} of {pages} pages followed ({share}), {journal.events} events")
        why += [f"line {at}: {journal.line(at)}: observed: {what}" for at, what in contradictions[:MOST_SHOWN]]
        for line in why:
            print(f"    {line}")
        for title, kind in (("left out, pages:", Omission), ("counted:", Count)):
            found = [reason for reason in kind if tallies[reason]]
            print(title if found else "", end="\n" if found else "")
            for reason in found:
                print(f"{tallies[reason]:9} {reason.text} [{describe(reason)}]")
        for what, many in sorted(counts.items()):
            print(f"{many:9} {what}")
        print(f"checked by {self._by.path}", *recording.lacking, sep="\n", flush=True)
        return status

    def _judge(self, tallies: Tallies[Reason], builders: Sequence[JournalBuilder], journal: JournalFile) -> tuple[int, str, list[str]]:
        """Returns the tool's status for a recording, the verdict, and lines that explain it."""
        if not journal.events:
            return SKIPPED, "empty, no huge page was followed", []
        letters = sorted({reason.letter for reason, many in tallies.items() if many} - {""})
        doubts = [f"{tallies[doubt]} {doubt.text} [{describe(doubt)}]" for doubt in Doubt if tallies[doubt]]
        is_whole = not any(tallies[doubt] for doubt in (Doubt.LOST, Doubt.DISK_FULL, Count.LEFT_OUT, Count.UNOBSERVED))
        line, explained = journal.check(self._by)
        doubt = None if line is None else doubt_at(builders, line)
        if line is not None and is_whole and not doubt:
            return DIFFERS, f"illegal line {line}", explained
        proved = [count for count in PROVED if tallies[count] and is_whole]
        if line is not None and not proved:
            why = f"{doubt.text} [{describe(doubt)}]" if doubt else "records are missing"
            return INCONCLUSIVE, "inconclusive", [f"line {line} would be illegal, but for {why}", *explained, *doubts]
        if proved or tallies[Count.QUEUES_DIFFER] and is_whole:
            return DIFFERS, "differs", [f"{tallies[count]} {count.text}" for count in (*proved, Count.QUEUES_DIFFER) if tallies[count]]
        if doubts:
            return INCONCLUSIVE, "inconclusive", doubts
        if letters and self._is_strict:
            return DIFFERS, f"differs by {' '.join(letters)}", []
        return DONE, "legal" + (f" but for {' '.join(letters)}" if letters else ""), []


def compare_with_observed(builders: Sequence[JournalBuilder]) -> list[tuple[int, str]]:
    """Compares the journal with what was observed, if anything was; returns the contradictions."""
    at = 2  # the first node's line
    for builder in builders if any(builder.observations.numbers for builder in builders) else ():
        at = builder.observations.compare(builder, at + 1)
    return [each for builder in builders for each in builder.observations.contradictions]


def doubt_at(builders: Sequence[JournalBuilder], line: int) -> Reason | None:
    """Returns why an event of the journal is in doubt, by its line."""
    if any(each <= line for builder in builders for each, _ in builder.observations.contradictions):
        return Count.CONTRADICTED
    at = 1
    for builder in builders:
        at += 1  # the node's line
        for time, _ in builder.timed_texts():
            at += 1
            if at == line:
                return builder.doubt_at(time)
    return None
