"""Random words on the command lines of `thprecord` and `thpreplay`, and random scripts: each is used, or refused in one line."""

from __future__ import annotations

import random
import tempfile
import unittest
from pathlib import Path

from ..common.errors import InputFault
from ..common.script import read_script
from ..record.options import parse_options
from ..record.reasons import manual
from ..replay.generator import scripts
from ..replay.options import parse_shape, parse_words
from .cases import ROOT

VALUES = ["", "0", "1", "9", "-1", "nan", "inf", "1e9", "9" * 40, "off", "as-is", "9,9", "9,4", "2,,3", "1,2,3", "1,2,3,zeros",
          "1,2,3,x", "65,1,1", ",", "\x1b[2J", "\udcff", "\u0663", "1_0", "0x9", " 1", "--", "-", "root", "no-such-user", "true"]
RECORD = ["--own", "--order", "--underused", "--every", "--collapse", "--strict", "--require", "--out",
          "--records", "--seconds", "--disk", "--user", "--wait", "--unknown", "--", "--checker"]
REPLAY = ["--random", "--seed", "--node-counts", "--page-orders", "--thresholds", "--length", "--fill", "--nodes", "--orders",
          "--underused", "--blocks", "--quiet", "--show", "--no-memory", "--unknown", "--json", "--shrink", "--fingerprint"]
PIECES = [b"setup\n", b"worker 1\n", b"worker\n", b"alloc 0\n", b"# thpsplit ", b"--nodes ", b"2 ", b"\n", b"\xff", b"\0", b"\r",
          b"\x0b", b"--orders 2,3", b"--underused 9999999999", b" "]


def use_record(words: list[str]) -> bool:
    """Parses the words."""
    return bool(parse_options("", "thprecord", words).order)


def use_replay(words: list[str]) -> bool:
    """Makes the first random script that these words select."""
    options = parse_words(words)
    return bool(list(scripts(1, options.seed, parse_shape(options))))


class WordsTest(unittest.TestCase):
    def test_the_manual_page_has_all_reasons(self) -> None:
        self.assertIn("\n".join(manual()), (ROOT / "docs/thprecord.1").read_text(encoding="ascii"))

    def test_bad_numbers(self) -> None:
        rows = [(word, text) for word in ("--seconds", "--every", "--require", "--collapse") for text in ("nan", "-1", "9" * 40, "")]
        rows += [("--seconds", "inf"), ("--seconds", "1e999"), ("--seconds", "0"),
                 ("--own", "1,2"), ("--own", "0,1,1"), ("--own", "1,2,99999999999"), ("--own", "\u0661,2,3"),
                 ("--order", "10"), ("--order", "4,4"), ("--underused", "512"), ("--require", "101"), ("--user", "no such user")]
        for word, text in rows:
            with self.assertRaisesRegex(InputFault, "^[ -~]+$"):
                parse_options("", "thprecord", [f"{word}={text}", *(["--", "true"] if word == "--user" else [])])

    def test_random_words(self) -> None:
        for options, use in ((RECORD, use_record), (REPLAY, use_replay)):
            chance, used = random.Random(11), 0
            for _ in range(1500):
                words: list[str] = []
                for _ in range(chance.randint(0, 4)):
                    words += [chance.choice(options)] + [chance.choice(VALUES)] * chance.randint(0, 1)
                try:
                    used += use(words)
                except InputFault as fault:
                    self.assertRegex(str(fault), r"^[ -~]+$")
            self.assertGreater(used, 25, options)

    def test_random_scripts(self) -> None:
        chance = random.Random(9)
        with tempfile.TemporaryDirectory() as folder:
            path = Path(folder) / "x.script"
            for _ in range(2000):
                path.write_bytes(b"".join(chance.choice(PIECES) for _ in range(chance.randint(0, 12))))
                try:
                    read_script(str(path)).commands()
                except InputFault as fault:
                    self.assertRegex(str(fault), r"^[ -~]+$")
