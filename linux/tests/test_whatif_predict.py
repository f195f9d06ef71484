"""Predictions of libthp beside the plain reading of the kernel, and beside what a kernel did; what decides about a page."""

from __future__ import annotations

import json
import random
import re
import unittest
from collections import Counter
from pathlib import Path
from typing import Any, Sequence

from ..common.counters import Counter as Statistic
from ..common.errors import DIFFERS, DONE, INCONCLUSIVE, RunFailed
from ..common.folios import Folio, Mapping
from ..common.subpages import bits_of, size
from ..whatif import library
from ..whatif.library import NotPredictable, load_library, plan_page
from ..whatif.look import Snapshot, keep_lasting_pins
from ..whatif.predictor import OFF, Predictor
from ..whatif.trial import TrialResult, count_result, given_back, trial_lines
from .whatif_samples import LACKING, NEEDS_LIBRARY, TRIALS, any_folio, folio, holed_folio, load

FULL = bits_of(0, 512)
KERNELS = ("Linux 6.18.1", "Linux 6.12.1")  # the second one tries locked pages
THRESHOLDS = (OFF, 0, 1, 2, 3, 15, 16, 63, 64, 255, 256, 510)


def look(folios: list[Folio], kernel: str = "") -> Snapshot:
    """A look at these pages."""
    found = {mapping.process for one in folios for mapping in one.mappings}
    return Snapshot(folios, {number: f"p{number}" for number in found}, Counter(), kernel=kernel)


def plain(folios: list[Folio], threshold: int, locked_are_tried: bool = False) -> dict[int, int]:
    """Returns the frames that come back, by page, by the plain reading of the kernel."""
    back = {one.frame: given_back(one, threshold, locked_are_tried) for one in folios}
    return {frame: given for frame, given in back.items() if given is not None}


class Plans(unittest.TestCase):
    """What decides about a page."""

    def test_queues(self) -> None:
        small = folio(order=4, is_queued=None, is_partly=None)
        for page in (small, folio(is_queued=False), folio(is_locked=True), folio(is_poisoned=True)):
            self.assertFalse(plan_page(page).is_in_queue)
        for page in (folio(is_queued=None), holed_folio(0, 5, is_queued=False)):
            self.assertTrue(plan_page(page).is_in_queue)

    def test_contents_and_map_counts(self) -> None:
        self.assertEqual(plan_page(folio(zero=FULL, known=bits_of(0, 100))).zero, bits_of(0, 100), "what isn't read is data")
        often = folio(1, whole=40, totals=[40] * 512, pins=9, cgroup=5)
        self.assertEqual(plan_page(folio(pins=1)), plan_page(often), "how often decides nothing")
        for kernel, tried in (("Linux 6.12.117+deb13-amd64", True), ("Linux 6.18.44", False), ("Linux 7.3.4", False)):
            self.assertEqual(look([], kernel).locked_are_tried, tried)

    def test_what_is_not_predicted(self) -> None:
        unflagged = holed_folio(0, bits_of(0, 5), is_queued=False)
        unflagged.is_partly = False
        for page, tried, reason in (
            (unflagged, False, library.HOLES_UNFLAGGED),
            (folio(totals=[0] * 512, whole=0), False, library.UNMAPPED),
            (folio(zero=3, kept=1), False, library.ZEROS_STAY),
            (folio(zero=3, is_locked=True), True, library.ZEROS_STAY),
            (holed_folio(0, bits_of(0, 5), is_lazily_freed=True), False, library.LAZILY_FREED),
        ):
            with self.assertRaisesRegex(NotPredictable, reason):
                plan_page(page, tried)

    def test_pins_of_a_moment_do_not_count(self) -> None:
        folios = [folio(number, pins=pins) for number, pins in enumerate((0, 1, 1, 3, None, 2))]

        def look_again(again: list[Folio]) -> None:
            self.assertEqual([one.frame for one in again], [folios[place].frame for place in (1, 2, 3, 5)])
            for one, pins in zip(again, (0, 1, 5)):
                one.pins, one.is_queued = pins, False

        keep_lasting_pins(folios, look_again)
        self.assertEqual([one.pins for one in folios], [0, 0, 1, 3, None, 2], "that of a page that is gone stays")
        self.assertTrue(all(one.is_queued for one in folios))


@NEEDS_LIBRARY
class Predictions(unittest.TestCase):
    def test_rules(self) -> None:
        """The kernel's rules, a page each: frames back at some thresholds."""
        small = holed_folio(0, bits_of(0, 4), order=4, zero=bits_of(0, 2))
        small.totals, small.known = [int(i < 4) for i in range(16)], 15
        rules: dict[str, tuple[Folio, dict[int, int]]] = {
            "underused above the threshold only": (folio(zero=bits_of(0, 64)), {OFF: 0, 63: 64, 64: 0, 510: 0}),
            "all zeros stay whole with 511": (folio(zero=FULL), {OFF: 0, 510: 512, 0: 512}),
            "zeros of a partly mapped page": (holed_folio(0, bits_of(0, 100), zero=bits_of(0, 30)), {OFF: 442, 510: 442, 0: 442}),
            "in no queue": (folio(zero=FULL, is_queued=False), {OFF: 0, 0: 0}),
            "partly mapped again": (holed_folio(0, bits_of(0, 100), is_queued=True), {OFF: 412, 0: 412}),
            "pinned": (holed_folio(0, bits_of(0, 100), pins=1), {OFF: 0, 0: 0}),
            "a small page, partly mapped": (small, {OFF: 14, 0: 14, 409: 14}),
            "a small page": (folio(order=4, zero=bits_of(0, 16)), {OFF: 0, 0: 16, 15: 16, 16: 0, 17: 0, 510: 0}),
            "partly mapped once": (folio(is_partly=True, zero=7), {OFF: 3, 510: 3}),
            "locked areas": (holed_folio(0, bits_of(0, 256), zero=bits_of(0, 8), kept=bits_of(4, 4)), {OFF: 260}),
        }
        for name, (page, wanted) in rules.items():
            with self.subTest(name):
                self.assertEqual({row.threshold: row.frames for row in Predictor(look([page])).run(list(wanted))}, wanted)
                self.assertEqual({each: sum(map(size, plain([page], each).values())) for each in wanted}, wanted)

    def test_a_pinned_page_counts_once_where_it_is_worth_a_split(self) -> None:
        pages = [folio(0, zero=7, pins=1), folio(1, pins=2), holed_folio(2, bits_of(0, 9), pins=1), folio(3, zero=7)]
        rows = Predictor(look(pages)).run([OFF, 0, 2, 3])
        self.assertEqual([(row.pinned, row.split) for row in rows], [(1, 0), (2, 1), (2, 1), (1, 0)])

    def check(self, folios: list[Folio], thresholds: Sequence[int], kernel: str) -> None:
        """Compares pages, frames and sums with the plain reading."""
        snapshot = look(folios, kernel)
        one = Predictor(snapshot)
        partly = {page.frame for page in one.folios if plan_page(page, snapshot.locked_are_tried).is_partly}
        for threshold, row in zip(thresholds, one.run(thresholds)):
            wanted = plain(one.folios, threshold, snapshot.locked_are_tried)
            fates = {page.frame: one.frames_back(threshold, plan) for page, plan in zip(one.folios, one.plans)}
            self.assertEqual({frame: frames for frame, frames in fates.items() if frames is not None},
                             {frame: size(given) for frame, given in wanted.items()})
            self.assertEqual((row.pages, row.split, row.split - row.underused, row.frames),
                             (len(one.folios), len(wanted), len(partly & set(wanted)), sum(map(size, wanted.values()))))
            self.assertEqual(one.frames_given(threshold), wanted)

    def test_by_chance_beside_the_plain_reading(self) -> None:
        chance = random.Random(34)
        pages = [any_folio(number, chance) for number in range(6000)]
        one = Predictor(look(pages))
        self.assertEqual({page.order for page in one.folios}, set(range(2, 10)))
        self.assertGreater(len(one.folios), 4000)
        for first in range(0, len(pages), 500):
            thresholds = sorted({OFF, chance.choice(THRESHOLDS), *(chance.randrange(OFF) >> chance.randrange(9) for _ in range(3))})
            for kernel in KERNELS:
                self.check(pages[first : first + 500], thresholds, kernel)

    def test_a_target_is_the_highest_threshold(self) -> None:
        zeros = [number * 7 % 513 for number in range(200)]
        pages = [folio(number, zero=bits_of(0, zero)) for number, zero in enumerate(zeros)]
        one = Predictor(look([*pages, holed_folio(200, bits_of(0, 500))]))
        given = {t: 12 + sum(zero for zero in zeros if zero > t and t != OFF) for t in range(OFF + 1)}
        for frames in (1, 12, 13, 1000, 20000, 51000, 10**6):
            self.assertEqual(one.find_highest(frames), max((t for t, sums in given.items() if sums >= frames), default=None))

    def test_by_process(self) -> None:
        shared = folio(0, zero=bits_of(0, 10), whole=3, totals=[3] * 512)
        shared.mappings = [Mapping(process, at << 30, shared.full, True) for at, process in enumerate((100, 90, 100))]
        shares = Predictor(look([shared, folio(5, zero=bits_of(0, 20))])).by_process(0)
        self.assertEqual({p: (s.pages, s.split, s.frames, s.lost) for p, s in shares.items()},
                         {100: (1, 1, 10, 2), 90: (0, 0, 0, 1), 105: (1, 1, 20, 1)})

    def test_by_group_and_of_two_looks(self) -> None:
        pages = [folio(number, zero=bits_of(0, number), cgroup=number % 2) for number in range(100)]
        both = Predictor(look(pages[:50]), look(pages[50:]))
        groups = both.by_group([50])
        self.assertEqual(groups["inode 1"][0].frames, sum(n for n in range(51, 100) if n % 2))
        self.assertEqual(sum(rows[0].frames for rows in groups.values()), both.run([50])[0].frames)
        left_out = look([folio(0), folio(1, is_lazily_freed=True)])
        Predictor(look([folio(2)]), left_out)
        self.assertEqual(sum(left_out.left_out.values()), 1)

    def test_pages_that_changed_could_move_rows(self) -> None:
        whole = folio(0, zero=bits_of(0, 64))
        pairs = [(whole, folio(0)), (whole, None), (None, folio(1)), (folio(2, is_lazily_freed=True), whole), (whole, whole)]
        snapshot = look([])
        snapshot.changed_pages = pairs
        moved = Predictor(snapshot).moved_rows([OFF, 63, 64])
        self.assertEqual({threshold: tuple(each) for threshold, each in moved.items()}, {OFF: (0, 0), 63: (3, 192), 64: (0, 0)})

    def test_a_code_of_the_library_is_named_with_the_frame(self) -> None:
        wrong = plan_page(folio())._replace(order=1).pack()
        with self.assertRaisesRegex(RunFailed, "^the huge page of frame 3072 can't be predicted at 511: [a-z]"):
            load_library().predict([plan_page(folio()).pack(), wrong], [1024, 3072], OFF)

    def test_no_page_takes_memory_that_stays(self) -> None:
        def resident() -> int:
            found = re.search(r"^RssAnon:\s+([0-9]+) kB$", Path("/proc/self/status").read_text(encoding="ascii"), re.MULTILINE)
            assert found
            return int(found[1])

        library, record = load_library(), plan_page(folio(zero=7)).pack()
        library.predict([record] * 1000, [0] * 1000, 3)
        before = resident()
        library.predict([record] * 20000, [0] * 20000, 3)
        self.assertLess(resident() - before, 20000)


class Trials(unittest.TestCase):
    def test_stored_trials(self) -> None:
        """What a Linux 6.18 did with known pages (thpwhatif verify --keep), compared again."""
        files = sorted(TRIALS.glob("*.json"))
        self.assertGreaterEqual(len(files), 11)
        for path in files:
            returned = {int(frame): int(given, 16) for frame, given in json.loads(path.with_suffix(".returned").read_text()).items()}
            name = path.stem.rpartition("-")[2]
            snapshot, threshold = load(path), OFF if name == "off" else int(name)
            snapshot.folios = [page for page in snapshot.folios if is_predictable(page)]
            own = {page.frame: returned[page.frame] for page in snapshot.folios if page.frame in returned}
            self.assertEqual(plain(snapshot.folios, threshold), own, path.name)
            if not LACKING:
                self.assertEqual(Predictor(snapshot).frames_given(threshold), own, path.name)

    def test_outcomes(self) -> None:
        cases: Sequence[tuple[int, int, dict[str, Any]]] = (
            (DONE, 1, {}),
            (DIFFERS, 1, {"differing": [1024]}),
            (DONE, 2, {"unscripted": {5: 1}}),
            (INCONCLUSIVE, 2, {}),
            (DIFFERS, 2, {"differing": [1024]}),
            (DIFFERS, 0, {}),  # others only add
            (INCONCLUSIVE, 1, {"problem": "the limit of 1 s was met", "differing": [1024]}),
            (INCONCLUSIVE, 1, {"moved": 1}),
        )
        for status, added, facts in cases:
            with self.subTest(added=added, **facts):
                one, sums = result_of(added, **facts), Counter[str]()
                count_result(sums, one)
                words = {DONE: "trials exact", DIFFERS: "trials that differ"}
                counted = [sum(n for what, n in sums.items() if what.startswith(word)) for word in (*words.values(), "trials inconclusive")]
                self.assertEqual(counted, [int(status == each) for each in (DONE, DIFFERS, INCONCLUSIVE)])
                self.assertIn(one.problem, trial_lines(5, one)[0])


def result_of(added: int, **facts: Any) -> TrialResult:
    """A trial of one page that is split as underused, as predicted; the kernel's counter of splits moved by so many."""
    page = folio(0, zero=15)
    given, statistics = {page.frame: 15}, {Statistic.SPLIT: added, Statistic.UNDERUSED: 1, Statistic.SPLIT_FAILED: 0}
    values: dict[str, Any] = {"unscripted": {}, "predicted": given, "plain": given, "returned": given, "added": statistics, **facts}
    return TrialResult(look([page]), {page.frame: page}, 1, **values)


def is_predictable(page: Folio) -> bool:
    """Whether a page can be predicted."""
    try:
        plan_page(page)
    except NotPredictable:
        return False
    return True
