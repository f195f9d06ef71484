"""`thpreplay` beside another user who moves the machine's counters (root, a C compiler), by the plain program of this folder."""

from __future__ import annotations

import os
import re
import sys

from ..common.errors import DIFFERS, DONE, INCONCLUSIVE
from ..common.files import read
from .cases import DOCUMENT, PLAIN, REPLAY, SCRIPT, Call, find_wrong
from .hostile import USER, HostileCase
from .plain_program import inject_bug

TRIES = 20  # of a fingerprint, of which other programs may hide a letter
CASE_SECONDS = 1800  # that a test gets


def call(*words: str, program: str = PLAIN) -> tuple[int, str, str]:
    """Runs the tool, which waits for other tools. Returns its status and its texts."""
    done = Call([sys.executable, REPLAY, "--wait", "--program", program, *words], cwd="/")
    return done.status, done.out, done.problems


class ReplayTests(HostileCase):
    """The tool as root. The noise splits huge pages of its own."""

    seconds = CASE_SECONDS

    def test_noise_leaves_scripts_agreeing_or_inconclusive(self) -> None:
        with self.pages.run("noise", 64, user=USER, seconds=CASE_SECONDS):
            status, out, _ = call(*[SCRIPT] * 6, "--random", "2")
        found = re.findall(r"^\S+: (agrees|differs|inconclusive|skipped)", out, re.MULTILINE)
        self.assertEqual((len(found), {*found} - {"agrees", "inconclusive"}), (8, set()), out)
        self.assertEqual(status, INCONCLUSIVE if "inconclusive" in found else DONE)

    def test_a_difference_of_the_own_state_is_found_beside_noise(self) -> None:
        with self.pages.run("noise", 64, user=USER, seconds=CASE_SECONDS):
            status, out, _ = call(SCRIPT, "--shrink", "0", program=inject_bug("unmap-short", str(self.folder)))
        self.assertEqual(status, DIFFERS)
        self.assertIn("map count of page 0 of node 0, subpage 255, kernel 0, thpsplit 1", out)

    def test_two_fingerprints_are_the_same_and_the_documents(self) -> None:
        prints = [call("--fingerprint")]
        while len(prints) < TRIES and prints[-2:-1] != prints[-1:]:
            prints.append(call("--fingerprint"))
        status, out, problems = prints[-1]
        self.assertEqual((prints[-2], status, problems), (prints[-1], DONE, ""))
        self.assertEqual(out.count("\n"), 9)
        self.assertIsNone(find_wrong(os.uname().release, out, read(DOCUMENT)))
