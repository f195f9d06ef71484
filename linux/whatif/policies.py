"""What a recorded workload would have given back under other policies: another threshold, and other scans.

policies.c, in the library of the predictions, repeats the lines of a journal on nodes of libthp, once for each policy."""

from __future__ import annotations

import ctypes
import os
import re
from array import array
from concurrent.futures import ThreadPoolExecutor
from dataclasses import dataclass
from functools import partial
from itertools import islice, zip_longest
from operator import le
from typing import Any, Iterator, Sequence

from ..common.checker import JournalChecker
from ..common.errors import InputFault, RunFailed
from ..common.files import PMD_ORDER, open_input
from ..common.text import escape, text_lines
from .library import load_library
from .predictor import FRAMES_A_MEBIBYTE, label, thresholds_of
from .report import aligned

RECORDED, OFF, NEVER = "recorded", "off", "never"
WHEN = (RECORDED, NEVER, "seconds", "held")  # as policies.c numbers them
AMOUNTS = (0.001, 1e9)  # of seconds and held
HEAD = re.compile(rb"^([^0-9].*\n)", re.MULTILINE)  # a line that is no event
NODE = re.compile(rb"node [0-9]{1,5} blocks ([0-9]{1,8})(?: order ([2-9]))?(?: underused (off|[0-9]{1,3}))?\n")
NO_THRESHOLD = (1 << 32) - 1  # of policies.c
LATEST = 1e10  # seconds
LINE, TIME = 1 << 16, 64  # bytes of a line of a journal, and of one of times
PART = 1 << 19  # bytes of a journal that are in memory, and done before a signal is heeded
COLUMNS = {
    "threshold": "threshold", "scans": "scans", "split": "pages split", "failed": "failed", "frames_back": "frames back",
    "mebibytes_back": "MiB back", "peak_mebibytes": "peak MiB", "mean_mebibytes": "mean MiB",
}
"""The headings of a table, by the names of JSON."""


@dataclass(frozen=True)
class Policy:
    """A threshold (`recorded`, `off` or a number), when a scan comes, and by how much (seconds, MiB)."""

    threshold: str
    when: str
    amount: float

    @property
    def scans(self) -> str:
        """When a scan comes, as a user writes it."""
        return f"{self.when}:{self.amount:g}" if self.amount else self.when


class PolicySums(ctypes.Structure):
    """What a policy gives on a node (struct sums of policies.c). Frames are base pages; `held`: their sum by seconds, or by events."""

    _fields_ = [
        *((name, ctypes.c_uint64) for name in ("scans", "split", "failed", "back", "peak")),
        ("held", ctypes.c_double), ("seconds", ctypes.c_double),
    ]


class PolicyRun:
    """A node of libthp under a policy (struct run of policies.c). RunFailed where there is no memory for it."""

    def __init__(self, policy: Policy, blocks: bytes, order: bytes, recorded: bytes) -> None:
        threshold = (recorded.decode() or OFF) if policy.threshold == RECORDED else policy.threshold
        amount = policy.amount * FRAMES_A_MEBIBYTE if policy.when == "held" else policy.amount
        self._calls = load_library().calls
        self._run = self._calls.start_run(
            int(blocks), int(order or PMD_ORDER), NO_THRESHOLD if threshold == OFF else int(threshold), WHEN.index(policy.when), amount)
        if not self._run:
            raise RunFailed("there is no memory for a node")

    def follow(self, text: bytes, times: array[float] | None) -> tuple[int, int]:
        """Does the events of lines. Returns the code where one is refused, else 0, and its place."""
        place = ctypes.c_uint32()
        code = self._calls.follow_lines(self._run, text, times.buffer_info()[0] if times else None, ctypes.byref(place))
        return code, place.value

    def end(self) -> PolicySums:
        """Ends it, and returns its numbers."""
        sums = PolicySums()
        self._calls.end_run(self._run, ctypes.byref(sums))
        return sums


def outcome_of(policy: Policy, nodes: Sequence[PolicySums]) -> dict[str, Any]:
    """Returns what a policy gives on all nodes of the journals, which are used at the same time."""

    def total(name: str) -> Any:
        return sum(getattr(sums, name) for sums in nodes)

    seconds = max((sums.seconds for sums in nodes), default=0.0)
    return {
        "threshold": int(policy.threshold) if policy.threshold.isdigit() else policy.threshold,
        "scans": policy.scans,
        "scans_done": total("scans"),
        "split": total("split"),
        "failed": total("failed"),
        "frames_back": total("back"),
        "mebibytes_back": round(total("back") / FRAMES_A_MEBIBYTE, 3),
        "peak_mebibytes": round(total("peak") / FRAMES_A_MEBIBYTE, 3),
        "mean_mebibytes": round(total("held") / seconds / FRAMES_A_MEBIBYTE if seconds else 0.0, 3),
        "seconds": round(seconds, 6),
    }


def parse_scans(text: str) -> tuple[str, float]:
    """Returns when a scan comes. InputFault where the word isn't one."""
    if text in (RECORDED, NEVER):
        return text, 0.0
    found = re.fullmatch(r"(seconds|held):([0-9]{1,10}(?:\.[0-9]{1,6})?)", text)
    if not found or not AMOUNTS[0] <= float(found[2]) <= AMOUNTS[1]:
        raise InputFault(f"{escape(text)[:40]!r} is no time of scans: recorded, never, seconds:S, held:MIB")
    return found[1], float(found[2])


def policies_of(thresholds: str, scans: str) -> list[Policy]:
    """Returns each threshold with each time of scans, in the order given, each once. Without scans a threshold changes nothing."""
    out: dict[Policy, None] = {}
    for word in thresholds.split(","):
        threshold = word if word == RECORDED else label(thresholds_of(word)[0])
        for when, amount in map(parse_scans, scans.split(",")):
            out[Policy(RECORDED if when == NEVER else threshold, when, amount)] = None
    return list(out)


class RecordedJournal:
    """A legal journal, and the times of its events, if they are known. InputFault where it is no journal, or isn't legal."""

    def __init__(self, path: str, times: str | None, by: JournalChecker) -> None:
        self._name, self._journal = escape(path), open_input(path)
        self._times = iter(partial(open_input(times).readline, TIME), b"") if times is not None else None
        self.has_contents = False  # an event has written some: without them each page counts as zero-filled
        verdict = by.check(self._journal.fileno())
        if not verdict.legal:
            why = [line for line in text_lines(verdict.why) if line.startswith("why: ")]
            raise InputFault(f"{self._name} is no legal journal: {escape('; '.join([verdict.text, *why]))}")

    def repeat(self, policies: Sequence[Policy], pool: ThreadPoolExecutor) -> Iterator[list[PolicySums]]:
        """Repeats the calls under all policies, side by side. Yields for each node what each policy gives. InputFault where the time of an
        event is wrong, RunFailed where libthp refuses a call."""
        former, latest, runs = b"", 0.0, list[PolicyRun]()
        for head, line, text in self._parts():
            if head is not former:
                if runs:
                    yield [run.end() for run in runs]
                node = NODE.fullmatch(head)
                former, latest, runs = head, 0.0, [PolicyRun(policy, *node.groups(b"")) for policy in policies if node]
            times = self._times_of(line, text.count(b"\n"), latest) if self._times else None
            latest = times[-1] if times else 0.0
            for code, place in pool.map(PolicyRun.follow, runs, [text] * len(runs), [times] * len(runs)):
                if code:
                    raise RunFailed(f"{self._name}: line {line + place}: {load_library().words(code)}")
        if runs:
            yield [run.end() for run in runs]
        if any(self._times or ()):
            raise InputFault(f"{self._name}: there are more times than events")

    def _parts(self) -> Iterator[tuple[bytes, int, bytes]]:
        """Yields the journal in parts: the line of their node, the number of the first line, and whole lines of events."""
        self._journal.seek(0)
        head, line = b"", 1
        while text := self._journal.read(PART) + self._journal.readline(LINE):
            self.has_contents |= b" write " in text or b" zero " in text
            for place, piece in enumerate(HEAD.split(text)):
                if place % 2:
                    head = piece
                elif piece:
                    yield head, line, piece if piece.endswith(b"\n") else piece + b"\n"
                line += piece.count(b"\n")

    def _times_of(self, line: int, count: int, latest: float) -> array[float]:
        """Returns the times of so many events from a line on. InputFault where one isn't known, or can't be after the time `latest`."""
        try:
            times = array("d", map(float, islice(self._times or (), count)))
        except ValueError as error:
            raise InputFault(f"{self._name}: a time from line {line} on is no number: {error}") from error
        if len(times) < count:
            raise InputFault(f"{self._name}: line {line + len(times)}: there is no time of this event")
        fits = list(map(le, [latest, *times], [*times, LATEST]))
        if not all(fits):
            why = "its time isn't from that of the event before to 10^10 seconds"
            raise InputFault(f"{self._name}: line {line + min(fits.index(False), count - 1)}: {why}")
        return times


def open_recordings(journals: Sequence[str], times: Sequence[str], checker: JournalChecker) -> list[RecordedJournal]:
    """Opens journals and the files of their times, if there are any, and checks them."""
    if times and len(times) != len(journals):
        raise InputFault(f"{len(times)} files of times for {len(journals)} journals")
    return [RecordedJournal(path, file, checker) for path, file in zip_longest(journals, times)]


def outcomes_of(policies: Sequence[Policy], recordings: Sequence[RecordedJournal]) -> list[dict[str, Any]]:
    """Returns what each policy gives, as JSON objects. As many as there are processors are tried at a time."""
    with ThreadPoolExecutor(len(os.sched_getaffinity(0))) as pool:
        nodes = [sums for recording in recordings for sums in recording.repeat(policies, pool)]
    return [outcome_of(policy, [sums[place] for sums in nodes]) for place, policy in enumerate(policies)]


def policy_table(outcomes: Sequence[dict[str, Any]]) -> str:
    """Returns a line for each policy."""
    return aligned([list(COLUMNS.values()), *([each[name] for name in COLUMNS] for each in outcomes)], 2)
