"""Stored snapshots, as they are written and as somebody changed them, and their tables."""

from __future__ import annotations

import contextlib
import json
import os
import random
import subprocess
import sys
import time
from collections import Counter
from pathlib import Path
from typing import Any

from ..common.errors import InputFault
from ..common.folios import compact_counts, even_counts
from ..whatif.library import NotPredictable, plan_page
from ..whatif.look import Snapshot
from ..whatif.predictor import DEFAULT, Predictor, with_today
from ..whatif.report import Report, cost_table, group_table, last_line, lines_of_look, process_table, table
from ..whatif.stored import LINE, StoredReader, json_lines
from .cases import ROOT, FolderCase
from .whatif_samples import LOOKS, NEEDS_LIBRARY, folio, holed_folio, load

NAMES = sorted(path.stem for path in LOOKS.glob("*.json"))


def made() -> Snapshot:
    """A snapshot with something in each field."""
    first, second = folio(3, totals=even_counts(1, 512)), holed_folio(3, 7)
    second.totals = compact_counts(second.totals)
    pages = [folio(0, zero=5, totals=even_counts(1, 512)), folio(1, totals=even_counts(2, 512))]
    return Snapshot(
        pages, {100: "a", 101: "b c"}, Counter({"x": 2}), Counter({"groups": 1}), {5: "/g"}, today=3, changed=2, sampled=2,
        changed_pages=[(first, second), (None, first)], sums={"by_pmd": 5},
    )


def text_of(lines: list[Any]) -> str:
    """A stored snapshot of these lines."""
    return "".join(json.dumps(line) + "\n" for line in lines)


class Stored(FolderCase):
    """Stored snapshots, as they are written and as somebody changed them. With REWRITE=1 the stored tables are written again."""

    def setUp(self) -> None:
        super().setUp()
        self.path = str(self.folder / "snapshot.json")

    def write(self, text: str | bytes) -> str:
        Path(self.path).write_bytes(text.encode("ascii") if isinstance(text, str) else text)
        return self.path

    def refused(self, text: str | bytes, why: str = "", mebibytes: int = 64) -> None:
        with self.assertRaisesRegex(InputFault, f"snapshot.json: this is no stored snapshot: .*{why}") as raised:
            load(self.write(text), mebibytes)
        self.assertNotIn("\n", str(raised.exception))

    @NEEDS_LIBRARY
    def test_tables(self) -> None:
        self.assertGreaterEqual(len(NAMES), 4)
        for name in NAMES:
            snapshot = load(LOOKS / f"{name}.json")
            predictor, thresholds = Predictor(snapshot), with_today(DEFAULT, snapshot.today)
            rows, shares = predictor.run(thresholds), {each: predictor.by_process(each) for each in thresholds}
            parts = [*lines_of_look(snapshot), *Report([snapshot]).warnings(), table(rows, snapshot.today)]
            parts += [process_table(shares, snapshot.processes)]
            parts += [group_table(predictor.by_group(thresholds)), cost_table(shares[0], snapshot.processes), last_line(snapshot.left_out)]
            objects = json.dumps([row.to_json(snapshot.today) for row in rows], indent=1) + "\n"
            for end, text in (("table", "\n".join(parts) + "\n"), ("rows", objects)):
                path = LOOKS / f"{name}.{end}"
                if os.environ.get("REWRITE"):
                    path.write_text(text, encoding="ascii")
                self.assertEqual(path.read_text(encoding="ascii"), text, path.name)

    def test_stored_and_read_back(self) -> None:
        for snapshot in [made(), Snapshot([], {}, Counter()), *(load(LOOKS / f"{name}.json") for name in NAMES)]:
            self.assertEqual(load(self.write("".join(json_lines(snapshot)))), snapshot)

    def test_fields(self) -> None:
        page = {
            "order": (70, 1, -1, 9.0, "9", None, True, 10**30),
            "frame": (-1, "x", None, 1 << 60, 1.5),
            "totals": ([], [[512, -1]], [[-1, 1]], [[10**9, 1]], [[511, 1]], [[512]], 5, [5], [["a", 1]]),
            "mappings": ([[1]], 5, [[0, "0", "1", True]], [[1, "zz", "1", True]], [[1, "0", "1" * 129, True]]),
            "zero": ("x", 5, "-1", "f" * 129, "0x1", None),
            "kept": ("1" + "0" * 128,),
            "is_locked": (1, "yes", None),
            "is_queued": (1, "yes"),
            "pins": (10**20, 1.5, "1"),
            "cgroup": (-1, 1 << 64),
            "other": (1,),
        }
        snapshot = {
            "version": (1, "4", True, None),
            "processes": ([], {}, ["1", "x"], [1, 2], [1, "a\nnode"], [1, "\x1b[31m"], [[], "x"], None),
            "left_out": (["a", -1], ["a", "b"], ["a\nb", 1], []),
            "note": ("\n", 5, "x" * 5000, "\u2028"),
            "today": (512, -1, "5"),
            "sums": (["by_pmd", "1"], [1, 1], 5),
            "seconds": ("x", True, 1e300),
            "unread": (["a", -1], []),
            "changed_pages": (5, [5], [None], [None, 5], [None] * 3),
            "folios": (5, None, {}, ["x"]),
            "end": (False, 1),
            "more": (1,),
        }
        good = [json.loads(line) for line in json_lines(made())]
        for field, values in snapshot.items():
            for value in values:
                changed = [[field, value] if line[0] == field else line for line in good]
                self.refused(text_of(changed if changed != good else [good[0], [field, value], *good[1:]]))
        is_first, own = [line[0] == "folios" for line in good].index(True), dict(good)["folios"]
        for field, values in page.items():
            for value in values:
                self.refused(text_of([*good[:is_first], ["folios", {**own, field: value}], *good[is_first + 2 :]]))
        self.refused(text_of([good[0], ["folios", {"frame": 4, "totals": [[512, 1]]}]]), "a field is missing: .*order")
        self.refused(text_of([good[0], ["folios", own], ["folios", own], ["end", True]]), "two huge pages have the same frame")

    def test_texts_that_are_spoilt(self) -> None:
        good = "".join(json_lines(made()))
        for old, new, why in (
            ("[", "{", "line 1: no JSON"),
            ('["version", 4]', '["version", 9]', "line 1: version: no whole number from 4 to 4"),
            ('["version", 4]', '["version", NaN]', ""),
            ('["version", 4]', '["version", ' + "9" * 100000 + "]", ""),
            ('["version", 4]\n', "", "line 1: its first line has the version"),
            ('["looked_at", 0]', '["looked_at", Infinity]', ""),
            ('["looked_at", 0]', '["looked_at", 0, 0]', "no list of 2 values"),
            ('["looked_at", 0]', '["version", 4]', "its first line has the version, and no other"),
            ('"b c"]]', '"b c"]]]', "line 5: no JSON"),
            ('"a"', '"a"' + " " * LINE, "line 4: it has more than 1 MiB"),
            ('["end", true]\n', "", "its end is missing"),
        ):
            self.assertIn(old, good)
            self.refused(good.replace(old, new, 1), why)
        self.refused('["note", "' + " " * LINE + '"]\n', "line 1: it has more than 1 MiB")
        self.refused(good.encode("ascii").replace(b'"a"', b'"\xff"'), "line 4: 'ascii' codec")
        self.refused(good + "\n", "there is more after its end")
        for end in (2, 4, 6, len(good) // 2):
            self.refused(good[:-end])
        for text in ("", "{", "{}", "[" * 100000, '{"a":' * 50000, "nul", '["version", 4]\n', '"'):
            self.refused(text)

    def test_any_change(self) -> None:
        chance, text = random.Random(8), "".join(json_lines(made()))
        for _ in range(300):
            changed = list(text)
            for _ in range(chance.randrange(1, 4)):
                changed[chance.randrange(len(changed))] = chance.choice('0919"[]{},:-e.nul\\ \n')
            with contextlib.suppress(InputFault):
                for page in load(self.write("".join(changed)), 8).folios:
                    with contextlib.suppress(NotPredictable):
                        plan_page(page).pack()

    def test_memory_is_by_what_a_page_takes(self) -> None:
        pages = [folio(number, order=2) for number in range(1200)]
        self.write("".join(json_lines(Snapshot(pages, {}, Counter()))))
        reader = StoredReader(4)
        with open(self.path, "rb") as file, self.assertRaisesRegex(InputFault, "line [0-9]+: it takes more than 4 MiB of memory"):
            self.assertEqual(len(reader.read(self.path, file).folios), 1200)
            file.seek(0)
            reader.read(self.path, file)  # of both together
        for line in ('["changed_pages", [null, null]]\n', '["processes", [1, ""]]\n'):
            self.refused('["version", 4]\n' + line * 20000, "it takes more than 2 MiB of memory", 2)

    def test_hostile_files_take_little_time_and_memory(self) -> None:
        """63 MiB each, read by a process whose memory has a limit."""
        size, head, page = 63 << 20, '["version", 4]\n', json.dumps(["folios", {"order": 2, "frame": 0, "totals": [[4, 1]]}])
        files = {
            "[" + "[]," * (size // 3): "line 1: it has more than 1 MiB",
            head + "[]\n" * (size // 4): "no list of 2 values",
            head + ('["folios", [' + "[]," * 300000 + "0]]\n") * 60: "folios: no object",
            head + "".join(page.replace("0", str(4 * n), 1) + "\n" for n in range(200000)): "it takes more than 64 MiB",
            head + '["processes", [5, "x"]]\n' * (size // 24): "it takes more than 64 MiB",
        }
        code = (
            "import resource, sys; sys.path.insert(0, sys.argv[1])\n"
            "from linux.common.errors import InputFault\n"
            "from linux.whatif.stored import StoredReader\n"
            "resource.setrlimit(resource.RLIMIT_DATA, (256 << 20, 256 << 20))\n"
            "try: StoredReader(64).read('x', open(sys.argv[2], 'rb'))\n"
            "except InputFault as fault: print(fault)"
        )
        for text, why in files.items():
            began = time.monotonic()
            words = [sys.executable, "-c", code, str(ROOT), self.write(text)]
            done = subprocess.run(words, capture_output=True, text=True, check=False)
            self.assertEqual((done.returncode, done.stdout.count("\n")), (0, 1), done.stderr[-300:])
            self.assertRegex(done.stdout, why)
            self.assertLess(time.monotonic() - began, 12)
