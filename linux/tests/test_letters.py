"""On a stand-in for the kernel: the scripts of the known differences, the fingerprint, and scripts that differ, which are made small."""

from __future__ import annotations

import re
import unittest
from collections.abc import Sequence
from unittest import mock

from ..common.errors import RunFailed
from ..common.script import MARK, Script, read_script, script_of
from ..replay.generator import Shape, scripts
from ..replay.letters import FOLDER, MOST_RUNS, Finding, Match, find_letter
from ..replay.runner import Outcome, Result
from ..replay.shrinking import Shrinker, SmallScript, drop
from .cases import DOCUMENT, find_wrong
from .model_kernel import InProcessProgram, run_on_model

SCRIPTS = {path.stem: read_script(str(path)) for path in sorted(FOLDER.glob("[A-Z].script"))}
ONE_PASS = "F"
"""The letter that the stand-in doesn't have: it makes one pass a scan."""
ODD_PASSES = "E"
"""The letter whose script has three pages, which a kernel tries an odd number of times: two would do for the stand-in."""

MOST = {"unmap-short": 8, "splits-pinned": 8, "forgets-free": 8, "back-at-head": 9}
"""The most commands of the smallest script. Two pages that are put back need nine."""
DIFFERS = Outcome(Result.DIFFERS, "", "a", "a", 1)


def run(script: Script) -> Outcome:
    """The outcome on a kernel with the known differences, before Linux 6.10."""
    return run_on_model(script, InProcessProgram(), True)


def shrink(text: str, outcomes: Sequence[Outcome | Exception], seconds: float = 60) -> tuple[SmallScript, int]:
    """Returns a small script where runs end like this, and how many there were."""
    run = mock.Mock(side_effect=outcomes)
    small = Shrinker(run, seconds, mock.Mock(side_effect=map(float, range(1000)))).shrink(script_of("x", text), DIFFERS)
    assert small
    return small, run.call_count


class LetterScriptTest(unittest.TestCase):
    def test_each_letter_of_the_document_is_known(self) -> None:
        text = DOCUMENT.read_text(encoding="utf-8").split("\n## Known differences\n")[1].split("\n## ")[0]
        self.assertLess({*SCRIPTS}, {*re.findall(r"^\| ([A-Z]) \|", text, re.MULTILINE)})
        self.assertEqual([*SCRIPTS], [*"ABCDEFGPW"])

    def test_each_script_shows_its_letter(self) -> None:
        for letter, script in SCRIPTS.items():
            self.assertTrue(script.text.startswith(MARK))
            self.assertEqual(find_letter(letter, script, run), Finding(letter, Match.MODEL if letter == ONE_PASS else Match.LETTER))

    def test_no_command_can_be_left_out(self) -> None:
        for letter, script in SCRIPTS.items():
            for at in range(len(script.commands()) if letter not in (ONE_PASS, ODD_PASSES) else 0):
                self.assertNotIn(letter, run(drop(script, {at})).known, f"{letter} without command {at + 1}")


class FindingTest(unittest.TestCase):
    def find(self, outcomes: Sequence[Outcome]) -> str:
        """Returns the line of a letter whose script ends like this."""
        runs = iter(outcomes)
        return find_letter("E", SCRIPTS["E"], lambda script: next(runs)).line()

    def test_outcomes(self) -> None:
        for outcomes, line in (
            ([Outcome(Result.AGREES, "FE")], "E: letter"),
            ([Outcome(Result.AGREES, "F"), Outcome(Result.AGREES, "EF")], "E: letter"),
            ([Outcome(Result.AGREES, "F")] * MOST_RUNS, "E: model"),
            ([Outcome(Result.DIFFERS, "", "queue of node 0, kernel [0], thpsplit [1]\n")],
             "E: neither: queue of node 0, kernel [0], thpsplit [1]\\x0a"),
            ([Outcome(Result.SKIPPED, "", "no pages")], "E: unseen: no pages"),
            ([Outcome(Result.INCONCLUSIVE, "", "others")], "E: unseen: others"),
        ):
            self.assertEqual(self.find(outcomes), line)

    def test_a_script_that_agrees_without_its_letter_is_run_with_its_last_command_again(self) -> None:
        texts: list[str] = []

        def note(script: Script) -> Outcome:
            texts.append(script.text)
            return Outcome(Result.AGREES, "E" * (len(texts) == 3))

        find_letter("E", SCRIPTS["E"], note)
        self.assertEqual([text.count("scan 0 3") for text in texts], [1, 2, 3])


class MatrixTest(unittest.TestCase):
    def test_another_column_of_a_kernel_is_found(self) -> None:
        document = "text\n\n|Letter|6.1|7.3+deb|\n|-|-|-|\n|A|letter|model|\n|B|unseen|frames 1|\n\n"
        self.assertIsNone(find_wrong("7.3+deb", "A: model\nB: neither: frames 1\n", document))
        self.assertIsNone(find_wrong("8", "A: letter\n", document))
        self.assertRegex(str(find_wrong("6.1", "A: letter\nB: letter\n", document)), "another column of 6.1")

    def test_the_document_has_each_letter(self) -> None:
        lines = re.findall(r"^\|(?:Letter|[A-Z])\|.*", DOCUMENT.read_text(encoding="utf-8"), re.MULTILINE)
        self.assertEqual([line.split("|")[1] for line in lines[1:]], [*SCRIPTS])
        for line in lines[1:]:
            self.assertRegex(line, rf"^\|[A-Z](\|(model|letter|unseen|[a-z_]+[ -~]*)){{{lines[0].count('|') - 2}}}\|$")


class ShrinkTest(unittest.TestCase):
    def test_the_stand_in_agrees_with_a_correct_program(self) -> None:
        shape = Shape(orders=(3, 9), thresholds=(None, 3, 511), length=30, queues=(2, 4, 12))
        outcomes = [run_on_model(script, InProcessProgram()) for script in scripts(20, 5, shape)]
        self.assertEqual([each.text for each in outcomes if each.result is Result.DIFFERS], [])
        self.assertGreater(sum(each.result is Result.AGREES for each in outcomes), 15)

    def test_injected_bugs_are_found_in_five_scripts_and_need_few_commands(self) -> None:
        for bug, most in MOST.items():
            program = InProcessProgram(bug)
            found = [(script, run_on_model(script, program)) for script in scripts(5, 3, Shape(nodes=(1, 2), orders=(3, 4), queues=(2, 4)))]
            script, outcome = next(each for each in found if each[1].result is Result.DIFFERS)
            small = Shrinker(lambda each, program=program: run_on_model(each, program)).shrink(script, outcome)  # type: ignore[misc]
            assert small
            with self.subTest(bug):
                self.assertLessEqual(len(small.script.commands()), most, small.text())
                again = run_on_model(small.script, program)
                self.assertEqual((again.result, again.kind), (Result.DIFFERS, small.outcome.kind))
                self.assertIs(run_on_model(small.script, InProcessProgram()).result, Result.AGREES)
                self.assertRegex(small.text(), "^# thpsplit .*\n# Linux .*\n# differs: .*\nsetup\n")

    def test_only_the_first_of_a_kind_is_made_small(self) -> None:
        script, run = script_of("x", "setup\nalloc 0\ncount 0\n"), mock.Mock(return_value=DIFFERS)
        shrinker = Shrinker(run)
        small = shrinker.shrink(script, DIFFERS)
        self.assertEqual(small and len(small.script.commands()), 1)
        self.assertIsNone(shrinker.shrink(script, DIFFERS))
        self.assertIsNone(shrinker.shrink(script, Outcome(Result.AGREES)))
        self.assertIsNone(Shrinker(run, 0).shrink(script, DIFFERS))

    def test_time_and_a_run_that_fails_end_it(self) -> None:
        self.assertLess(shrink("setup\n" + "alloc 0\n" * 40, [Outcome(Result.AGREES)] * 99, 10)[1], 12)
        small, runs = shrink("setup\n" + "alloc 0\n" * 4, [DIFFERS, RunFailed("a mapping process has ended")])
        self.assertEqual((len(small.script.commands()), small.runs, runs), (2, 2, 2))

    def test_a_page_goes_with_its_commands(self) -> None:
        script = script_of("x", "setup\nalloc 0\nalloc 0\npin 0 0\npin 0 1\nscan 0 8\n")
        self.assertEqual([" ".join(command.words) for command in drop(script, {0}).commands()], ["alloc 0", "pin 0 0", "scan 0 8"])
