"""The outcome of a trial of `verify`: what was predicted of each page, by libthp and by a plain reading of the kernel's functions, and
which frames came back.

The plain reading, `given_back`, shares no code with the prediction: mm/huge_memory.c (deferred_split_scan, thp_underused, split_folio),
mm/migrate.c (try_to_map_unused_to_zeropage)."""

from __future__ import annotations

from collections import Counter
from dataclasses import dataclass, field

from ..common.counters import Counter as Statistic
from ..common.errors import DIFFERS, DONE, INCONCLUSIVE, Unavailable
from ..common.files import PMD_ORDER
from ..common.folios import Folio
from ..common.page_files import Frames, PageFlag, TooShort, frames_at
from ..common.subpages import size
from ..common.text import escape
from .library import LAZILY_FREED
from .look import Snapshot
from .predictor import Predictor, label


@dataclass
class TrialResult:
    """What a trial found: the frames that come back of each split page, by frame: predicted by libthp (`predicted`) and
    by the plain reading (`plain`), and those that the kernel returned (`returned`)."""

    snapshot: Snapshot
    folios: dict[int, Folio]  # those that can be predicted
    underused: int  # of these, those that are split as underused
    predicted: dict[int, int]
    plain: dict[int, int]
    returned: dict[int, int]
    unscripted: dict[int, int]  # frames that came back of pages that can't be predicted
    added: dict[Statistic, int]  # to the kernel's counters
    problem: str = ""  # why the pages weren't held still for the whole time, where they were to be
    differing: list[int] = field(default_factory=list)
    moved: int = 0  # pages that differ, but were moved to other frames meanwhile (compaction)

    def statistics(self) -> dict[Statistic, int]:
        """Returns the two predicted counters: pages of PMD size split, and those of them split as underused."""
        large = [frame for frame in self.predicted if self.folios[frame].order == PMD_ORDER]
        return {Statistic.SPLIT: len(large), Statistic.UNDERUSED: self.underused}

    @property
    def verdict(self) -> tuple[int, str]:
        """The status, and in words. DONE: each page and each frame is as predicted, and the kernel's counters too, to which pages that
        can't be predicted and others only add."""
        more = [self.added[name] - count for name, count in self.statistics().items()]
        if self.problem:
            return INCONCLUSIVE, f"inconclusive: not held still the whole time: {escape(self.problem)}"
        if self.differing:
            return DIFFERS, f"{len(self.differing)} pages DIFFER"
        if min(more) < 0:
            return DIFFERS, "the counters DIFFER"
        if self.moved:
            return INCONCLUSIVE, f"inconclusive: {self.moved} pages were moved by others"
        if max(more) > len(self.unscripted):
            return INCONCLUSIVE, "inconclusive: others moved the counters"
        return DONE, "exact"


def given_back(folio: Folio, max_ptes_none: int, locked_are_tried: bool = False) -> int | None:
    """Returns the set of subpages whose frames come back where a reclaim drains the queues; None where the page isn't split.
    `locked_are_tried`: as before Linux 6.18."""
    size = 2**folio.order
    is_zero = [bool(folio.zero >> i & folio.known >> i & 1) for i in range(size)]
    is_kept = [bool(folio.kept >> i & 1) or folio.is_locked for i in range(size)]
    is_mapped = [total > 0 for total in folio.totals]
    if not any(is_mapped):
        return None
    if not folio.is_partly:
        if not folio.is_queued or folio.is_poisoned or (folio.is_locked and not locked_are_tried):
            return None
        if max_ptes_none == 511 or sum(is_zero) <= max_ptes_none:
            return None
    if folio.pins:
        return None
    return sum(1 << i for i in range(size) if not is_mapped[i] or (is_zero[i] and not is_kept[i]))


def result_of(snapshot: Snapshot, threshold: int, returned: dict[int, int], moved: set[int], added: dict[Statistic, int]) -> TrialResult:
    """Returns what a trial found, given the frames that came back by page, the pages moved, and what was added to the counters."""
    predictor = Predictor(snapshot)
    folios, predicted = {folio.frame: folio for folio in predictor.folios}, predictor.frames_given(threshold)
    readings = {frame: given_back(folio, threshold, snapshot.locked_are_tried) for frame, folio in folios.items()}
    plain = {frame: given for frame, given in readings.items() if given is not None}
    own = {frame: given for frame, given in returned.items() if frame in folios}
    unscripted = {frame: given for frame, given in returned.items() if frame not in folios}
    differing = {frame for frame in folios if predicted.get(frame) != own.get(frame)}
    underused = predictor.run([threshold])[0].underused
    result = TrialResult(snapshot, folios, underused, predicted, plain, own, unscripted, added)
    result.differing, result.moved = sorted(differing - moved), len(differing & moved)
    return result


def find_returned(snapshot: Snapshot, frames: Frames) -> tuple[dict[int, int], set[int]]:
    """Returns which frames came back, by page: of those that are no longer whole, each subpage that no process of the
    snapshot maps where it was. Frames that are a huge page, but nobody's where they were, came back altogether and are
    in use again. Also the pages that were moved: a subpage with data is mapped where it was, from another frame."""
    out: dict[int, int] = {}
    moved: set[int] = set()
    for folio in snapshot.folios:
        flags = frames.flags(folio.frame, folio.size)
        is_whole = flags[0] & PageFlag.COMPOUND_HEAD and all(flag & PageFlag.COMPOUND_TAIL for flag in flags[1:])
        held = 0
        for mapping in folio.mappings:
            try:
                now = frames_at(mapping.process, mapping.address, folio.size)
            except (TooShort, ProcessLookupError, Unavailable):
                continue  # it ended
            held |= sum(1 << i for i, frame in enumerate(now) if frame == folio.frame + i)
            others = sum(1 << i for i, frame in enumerate(now) if frame and frame != folio.frame + i)
            if others & mapping.subset & ~folio.zeros:
                moved.add(folio.frame)
            if is_whole and held:
                break
        if not (is_whole and held):
            out[folio.frame] = folio.full & ~held
    return out, moved


def count_subpages(sets: dict[int, int]) -> int:
    """Returns how many subpages there are in sets."""
    return sum(map(size, sets.values()))


def count_result(sums: Counter[str], result: TrialResult) -> None:
    """Adds a trial to the sums that are printed at the end."""
    status = result.verdict[0]
    sums["trials"] += 1
    sums["trials exact"] += status == DONE
    sums["trials inconclusive: others moved counters or pages, or these weren't held"] += status == INCONCLUSIVE
    sums["trials that differ"] += status == DIFFERS
    sums["trials in which the plain reading agrees with the kernel"] += result.plain == result.returned
    sums["pages"] += len(result.folios)
    sums["pages as predicted, to the frame"] += len(result.folios) - len(result.differing)
    sums["pages split"] += len(result.returned)
    sums["frames predicted"] += count_subpages(result.predicted)
    sums["frames that came back"] += count_subpages(result.returned)
    sums["pages that were left out"] += sum(result.snapshot.left_out.values())
    sums["  of these given to MADV_FREE"] += result.snapshot.left_out[LAZILY_FREED]


def trial_lines(threshold: int, result: TrialResult) -> list[str]:
    """Returns a line of a trial, and one for each of the first pages that differ."""
    counted = ", ".join(f"{name.value} {result.added[name]} of {count}" for name, count in result.statistics().items())
    lines = [
        f"{label(threshold):>4}: {len(result.folios)} pages; split {len(result.returned)} of {len(result.predicted)} predicted; "
        f"frames {count_subpages(result.returned)} of {count_subpages(result.predicted)} predicted; {counted}, "
        f"{Statistic.SPLIT_FAILED.value} {result.added[Statistic.SPLIT_FAILED]}: {result.verdict[1]}"
    ]
    for frame in result.differing[:6]:
        folio = result.folios[frame]
        sets = {"predicted": result.predicted, "plain": result.plain, "returned": result.returned}
        words = [f"{name} {size(each[frame]) if frame in each else 'whole'}" for name, each in sets.items()]
        lines.append(
            f"      frame {frame} order {folio.order}: {', '.join(words)}; zero {size(folio.zeros)} "
            f"queued {folio.is_queued} partly {folio.is_partly} pins {folio.pins} PMD {folio.whole} "
            f"locked {folio.is_locked} kept {size(folio.kept)} mappings {len(folio.mappings)}"
        )
    return lines
