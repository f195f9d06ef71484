"""Scripts on the kernel, by stored recordings of one: the generator, the comparison, injected bugs found by name."""

from __future__ import annotations

import dataclasses
import tempfile
import unittest
from collections.abc import Callable, Sequence
from functools import partial
from typing import Any
from unittest import mock

from ..common.counters import Counter, CounterWatch, Counts, SizeCounter
from ..common.errors import InputFault
from ..common.journal import Event
from ..common.program import Program, TextError
from ..common.script import Script, script_of
from ..replay.comparison import Comparison, CounterDifference, Difference, can_fail, join_lists, lists_of
from ..replay.expected_answers import ExpectedAnswer, ExpectedRun, Unsupported, expect_run
from ..replay.generator import Shape, scripts
from ..replay.runner import Result, Runner, judge_tries
from ..replay.states import NodeState, Observation, PageObservation
from .model_kernel import InProcessProgram, StoredKernel, load
from .plain_program import inject_bug


def replay(script: Script, looks: list[Observation], program: Program | None = None) -> str:
    zeros = any(switch is not None for switch in script.options.underused)
    return Runner(mock.Mock()).compare_run(expect_run(script, program or InProcessProgram()), zeros, StoredKernel(looks))


def with_counter(look: Observation, counter: Counter, more: int) -> Observation:
    machine: dict[Counter, int | None] = {**look.counts.machine, counter: (look.counts.machine[counter] or 0) + more}
    return dataclasses.replace(look, counts=Counts(machine, look.counts.sizes))


def with_failed(look: Observation, more: int) -> Observation:
    sizes = {key: (value or 0) + more * (key[0] is SizeCounter.SPLIT_FAILED) for key, value in look.counts.sizes.items()}
    return dataclasses.replace(look, counts=Counts(look.counts.machine, {**sizes}))


def with_page(look: Observation, **changes: Any) -> Observation:
    return dataclasses.replace(look, pages={(0, 0): dataclasses.replace(look.pages[0, 0], **changes)})


def without_subpage(look: Observation) -> Observation:
    return with_page(look, mapped=look.pages[0, 0].mapped & ~(1 << 300))


def with_count(look: Observation) -> Observation:
    counts = look.pages[0, 0].counts
    return with_page(look, counts=(*counts[:300], 2, *counts[301:]))


def with_queue(look: Observation, queue: list[int] | None = None) -> Observation:
    return dataclasses.replace(look, queues=[queue or (look.queues[0] or [])[::-1]])


class StoredTest(unittest.TestCase):
    def test_recordings_agree_but_for_the_letters_that_they_show(self) -> None:
        wanted = {"first": "", "fork": "W", "pins": "F", "underused": "AC", "never": "D", "two_workers": ""}
        for name, letters in wanted.items():
            with self.subTest(name):
                self.assertEqual(replay(*load(name)), letters)

    def test_each_thing_compared_is_reported_by_name(self) -> None:
        cases: list[tuple[str, int, Callable[[Observation], Observation], str]] = [
            ("first", 4, partial(with_counter, counter=counter, more=1),
             "failed" if counter is Counter.SPLIT_FAILED else f"{counter.value}, kernel .*command 4: scan 0 8") for counter in Counter]
        three = next(i for i, look in enumerate(load("pins")[1]) if len(look.queues[0] or []) == 3)
        cases += [
            ("first", 3, with_count, "map count of page 0 of node 0, subpage 300, kernel 2, thpsplit 1"),
            ("first", 4, without_subpage, "frames of page 0 of node 0, kernel 256-299,301-511, thpsplit 256-511"),
            ("first", 2, partial(with_page, whole=511), "frames of page 0 of node 0, kernel 511, thpsplit 512"),
            ("pins", three, with_queue, r"queue of node 0, kernel \[2, 1, 0\], thpsplit \[0, 1, 2\]"),
            ("first", 3, partial(with_queue, queue=[0, -4096]), "frame 0x1000"),
        ]
        for name, at, spoil, pattern in cases:
            script, looks = load(name)
            looks[at] = spoil(looks[at])
            with self.subTest(pattern), self.assertRaisesRegex(Difference, pattern):
                replay(script, looks)

    def test_zeros_are_given_back_where_the_kernel_does_so(self) -> None:
        for drops_zeros, dropped in ((True, 0b10), (False, 0)):
            state = NodeState(9, None, False, drops_zeros)
            for event in (Event(0, "alloc", 0), Event(0, "zero", 0, 1, 1), Event(0, "splitpmd", 0),
                          Event(0, "unmapsub", 0, 0, 1, "queued"), Event(0, "taken", 0), Event(0, "split", 0, given=1)):
                state.apply(event)
            self.assertEqual(state.pages[0].dropped_zero, dropped)

    def test_what_a_kernel_lacks_is_not_compared(self) -> None:
        script, looks = load("pins")
        self.assertEqual(replay(script, [dataclasses.replace(look, queues=[None]) for look in looks]), "F")
        script, looks = load("fork")
        none = Counts({key: None for key in Counter}, {key: None for key in looks[0].counts.sizes})
        self.assertEqual(replay(script, [dataclasses.replace(look, counts=none) for look in looks]), "W")

    def test_a_counter_alone_leaves_the_own_state_compared(self) -> None:
        script, looks = load("first")
        looks[2:] = [with_counter(look, Counter.SPLIT_PMD, 1) for look in looks[2:]]
        with self.assertRaises(CounterDifference) as found:
            replay(script, looks)
        self.assertEqual((found.exception.kind, found.exception.command), ("thp_split_pmd after splitpmd", 2))
        looks[4] = without_subpage(looks[4])
        with self.assertRaisesRegex(Difference, "frames of page 0 .*; before it thp_split_pmd") as found_too:
            replay(script, looks)
        self.assertNotIsInstance(found_too.exception, CounterDifference)

    def test_passes_are_those_of_the_queue_where_counters_move(self) -> None:
        script, looks = load("pins")
        for more in range(1, 5):
            with self.subTest(more), self.assertRaises(CounterDifference):
                replay(script, [with_failed(look, more) for look in looks])

    def test_injected_bugs_are_found(self) -> None:
        short = r"map count of page 0 of node 0, subpage 255, kernel 0, thpsplit 1 \(command 3: unmap"
        for bug, name, pattern in (("unmap-short", "first", short), ("back-at-head", "pins", r"order of putting back \[0, 1\]"),
                                   ("splits-pinned", "pins", "split_failed of a scan")):
            with tempfile.TemporaryDirectory() as folder, self.assertRaisesRegex(Difference, pattern):
                replay(*load(name), Program(inject_bug(bug, folder)))


class TriesTest(unittest.TestCase):
    """The outcome of a script that differs at each try."""

    def outcome(self, differences: list[Difference], moved: Sequence[int] = ()) -> Result:
        steps, total = iter(moved), [0]

        def take(_orders: Sequence[int]) -> Counts:
            total[0] += next(steps, 0)
            return Counts({Counter.SPLIT: total[0]}, {})

        return judge_tries(differences, CounterWatch([9], lambda _seconds: None, take)).result

    def test_counters_count_where_the_machine_is_quiet(self) -> None:
        here, there = CounterDifference("a", "a", 1), CounterDifference("a", "a", 2)
        cases: list[tuple[list[Difference], list[int], Result]] = [
            ([Difference("a")] * 3, [0, 1], Result.DIFFERS), ([here] * 3, [], Result.DIFFERS), ([here] * 3, [0, 1], Result.INCONCLUSIVE),
            ([here] * 3, [0] * 31 + [1], Result.INCONCLUSIVE), ([here, there], [], Result.INCONCLUSIVE),
        ]
        for differences, moved, wanted in cases:
            with self.subTest(differences=differences, moved=moved):
                self.assertIs(self.outcome(differences, moved), wanted)

    def test_tries_are_run_until_one_agrees(self) -> None:
        for ends, wanted, text in (
            ([Difference("a"), "F"], Result.AGREES, "agrees (but for F), at another try after: a"),
            ([Unsupported("b")], Result.SKIPPED, "skipped: b"),
            ([Difference("a"), Unsupported("b")], Result.INCONCLUSIVE, "inconclusive: b; an earlier try differs: a"),
            ([Difference("a")] * 3, Result.DIFFERS, "differs: a"),
        ):
            runner = Runner(mock.Mock())
            with self.subTest(text), mock.patch.object(runner, "_run_once", side_effect=ends):
                outcome = runner.run(script_of("x", "setup\n"))
            self.assertEqual((outcome.result, outcome.line()), (wanted, text))

    def test_noise_seen_earlier_counts(self) -> None:
        watch = CounterWatch([9], lambda _seconds: None, mock.Mock(side_effect=[
            Counts({Counter.SPLIT: 1}, {}), Counts({Counter.SPLIT: 2}, {})]))
        self.assertFalse(watch.watch_once())
        outcome = judge_tries([CounterDifference("a"), Difference("b")], watch)
        self.assertIs(outcome.result, Result.INCONCLUSIVE)
        self.assertIn("other programs move thp_split_page", outcome.line())


class ExpectedRunTest(unittest.TestCase):
    def expect(self, text: str, unmaps_singly: bool = False) -> ExpectedRun:
        return expect_run(script_of("x", text), InProcessProgram(), unmaps_singly)

    def test_letters_that_change_the_run(self) -> None:
        for letter, text, at, answer in (
            ("C", "# thpsplit --orders 4 --underused 3\nsetup\nalloc 0\ncount 0\nscan 0 8\n", 1, "count 0"),
            ("D", "# thpsplit --underused 511\nsetup\nalloc 0\nscan 0 8\ncount 0\nsplitpmd 0 0\n", 1,
             "taken 1 split 0 pinned 0 back 0 dropped 0 used 1"),
            ("P", "setup\nalloc 0\nsplitpmd 0 0\npin 0 0\nunmap 0 0 0 512\ncount 0\n", 4, "count 1"),
        ):
            with self.subTest(letter):
                found = self.expect(text, True)
                self.assertEqual((found.known, found.answers[at].answer), ({letter}, answer))
                self.assertEqual([said.place for said in found.answers], [*range(1, len(found.answers) + 1)])

    def test_an_unmap_of_all_mappings_is_one_command_with_the_events_of_two(self) -> None:
        text = "setup\nalloc 0\nsplitpmd 0 0\nunmap 0 0 0 512\ncount 0\n"
        for singly, events in ((False, ["unmapsub freed"]), (True, ["unmapsub queued", "unmapsub freed"])):
            unmap = self.expect(text, singly).answers[2]
            self.assertEqual([f"{event.word} {event.outcome}" for event in unmap.events], events)
            self.assertEqual([*unmap.words], ["unmap", "0", "0", "0", "512"])

    def test_a_page_that_only_a_pin_holds_ends_too(self) -> None:
        self.expect("# thpsplit --underused 511\nsetup\nalloc 0\npin 0 0\nunmapwhole 0 0\nscan 0 8\n")

    def test_workers_that_share_a_node_are_unsupported(self) -> None:
        with self.assertRaisesRegex(Unsupported, "share a node"):
            self.expect("# thpsplit --workers 2\nsetup\nalloc 0\nworker 1\ncount 0\nworker 2\ncount 0\n")

    def test_a_fault_is_reported_by_the_program(self) -> None:
        program = mock.Mock(path="x")
        program.answers.side_effect = TextError("thpsplit: line 2: bad-count")
        for text in ("setup\nalloc\n", "worker 1\nalloc\n"):
            with self.assertRaisesRegex(TextError, "bad-count"):
                expect_run(script_of("x", text), program)

    def test_a_program_that_answers_nonsense_is_refused(self) -> None:
        for answer in ("taken x", "taken", "", "taken 9 split 9 pinned 9 back"):
            program = mock.Mock(path="x")
            program.answers.return_value = [answer]
            program.journal.return_value = [mock.Mock(events=[])]
            with self.subTest(answer), self.assertRaises(InputFault):
                expect_run(script_of("x", "setup\nscan 0 8\n"), program)


class GeneratorTest(unittest.TestCase):
    def test_a_seed_has_its_scripts_whatever_the_count(self) -> None:
        shape = Shape(thresholds=(None, 100))
        few, many = list(scripts(3, 9, shape)), list(scripts(6, 9, shape))
        self.assertEqual([script.text for script in few], [script.text for script in many[:3]])
        self.assertEqual(len({script.text for script in many}), 6)

    def test_most_commands_can_be_done_and_each_is_drawn(self) -> None:
        drawn = {line.split()[0] for script in scripts(60, 1, Shape()) for line in script.text.split("\n")[2:-1]}
        self.assertEqual(drawn, {"alloc", "mapwhole", "unmapwhole", "map", "unmap", "splitpmd", "pin", "unpin", "write",
                                 "zero", "scan", "count"})
        refused = [said.is_refused for script in scripts(8, 1, Shape(orders=(4, 5), length=30))
                   for said in expect_run(script, InProcessProgram()).answers]
        self.assertLess(5 * sum(refused), len(refused))

    def test_queues_have_several_pages(self) -> None:
        lengths = []
        for script in scripts(30, 2, Shape(thresholds=(None, 3))):
            states = [NodeState(order, switch, True) for order, switch in zip(script.options.orders, script.options.underused)]
            for said in expect_run(script, InProcessProgram()).answers:
                for event in said.events:
                    states[said.node].apply(event)
                lengths += [len(state.queue) for state in states]
        self.assertGreater(sum(length >= 2 for length in lengths), len(lengths) / 2)
        self.assertGreater(sum(length >= 20 for length in lengths), len(lengths) / 10)


class PassesTest(unittest.TestCase):
    """Scans whose lists have passes of their own: queues of a group for each NUMA node."""

    def test_lists_are_joined_in_the_order_of_their_nodes(self) -> None:
        lists = lists_of([3, 1, 2, 0], {1: 1, 0: 1})
        self.assertEqual(lists, {0: [3, 2], 1: [1, 0]})
        self.assertEqual(join_lists(lists), [3, 2, 1, 0])

    def test_failures_fit_whole_passes_of_each_list(self) -> None:
        for failed, fits in ((4, False), (5, True), (6, False), (7, True), (8, True), (9, True)):
            self.assertEqual(can_fail(failed, [(2, None), (3, None)]), fits, failed)
        self.assertFalse(can_fail(5, [(2, False), (3, True)]))
        self.assertTrue(can_fail(7, [(2, False), (3, True)]))
        self.assertFalse(can_fail(9, [(2, False), (3, True)]))
        self.assertTrue(can_fail(4, [(2, True), (2, True)]))


class ListsTest(unittest.TestCase):
    """Queues of a node on two NUMA nodes: pages 0, 2 on node 0; 1, 3, 4 on node 1."""

    NUMA_NODES = {(0, 1): 1, (0, 3): 1, (0, 4): 1}

    def compare(self, failed: int, queue: list[int]) -> Comparison:
        """Compares what a kernel shows after a scan."""
        state = NodeState(4, None, False)
        for page in range(5):
            state.apply(Event(0, "alloc", page))
            state.apply(Event(0, "pin", page))
            state.apply(Event(0, "unmapsub", page, 0, 1))
        state.queue = [0, 1, 2, 3, 4]
        comparison = Comparison([state], set(), set())
        comparison.command = ExpectedAnswer(1, ["count", "0"], "", ())
        comparison.compare(self.look(state, 0, [0, 2, 1, 3, 4]))
        pinned = [Event(0, word, page) for word in ("taken", "pinned", "back") for page in state.queue]
        comparison.command = ExpectedAnswer(2, ["scan", "0", "9"], "", tuple(pinned))
        comparison.compare(self.look(state, failed, queue))
        return comparison

    def look(self, state: NodeState, failed: int, queue: list[int]) -> Observation:
        """What the kernel shows."""
        machine: dict[Counter, int | None] = {counter: None for counter in Counter}
        sizes: dict[tuple[SizeCounter, int], int | None] = {(counter, 4): None for counter in SizeCounter}
        pages = {(0, number): PageObservation(16, page.totals(), 0) for number, page in enumerate(state.pages)}
        return Observation(Counts(machine, {**sizes, (SizeCounter.SPLIT_FAILED, 4): failed}), pages, [queue], self.NUMA_NODES)

    def test_each_list_is_turned_around_by_its_own_passes(self) -> None:
        comparison = self.compare(5, [2, 0, 4, 3, 1])
        self.assertIsNone(comparison.counters)
        self.assertEqual(comparison.known & {"E", "F"}, {"E"})
        self.assertIsNone(self.compare(2 + 6, [2, 0, 1, 3, 4]).counters)
        self.assertIn("F", self.compare(2 + 6, [2, 0, 1, 3, 4]).known)

    def test_another_order_or_number_is_a_difference(self) -> None:
        for queue in ([2, 0, 1, 4, 3], [4, 3, 1, 2, 0], [2, 0, 4, 3]):
            with self.assertRaises(Difference):
                self.compare(5, queue)
        self.assertIsNotNone(self.compare(6, [2, 0, 4, 3, 1]).counters)
