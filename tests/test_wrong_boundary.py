"""Wrong bodies at the boundary of C: each is planted in c/thp.c or in the cargo crates, and a test must refuse it.

LIBTHP_C names the archive; THOROUGH=1 asks for these tests. No proof sees these bodies. They concern the readers, whose results
no later call shows, which create makes which kind of node, and each test of a pointer for null. In C the tests are c/tests/calls.c,
passes.c and the program of null_pointers.py; in Rust those of the crate, if there is cargo.
"""

from __future__ import annotations

import os
import re
import shutil
import subprocess
from dataclasses import dataclass
from pathlib import Path
from unittest import TestCase

from fixtures import ROOT, add_tests, find_built, require_thorough, require_tool, temporary_folder
from null_pointers import null_tests, program_text

SECONDS = 300


@dataclass(frozen=True)
class Wrong:
    """A wrong body: a file, the function in it, a text within the function, and the text that replaces it there."""

    file: str
    function: str
    old: str
    new: str

    def name(self) -> str:
        """How it is reported."""
        return f"{self.function}: {self.old} becomes {self.new or 'nothing'}"

    def planted(self, text: str) -> str:
        """The text of the file with the wrong body. The old text is in the function."""
        head = re.search(rf"^{'    pub fn' if self.is_rust() else 'thp_code'} {self.function}\(.*\{{$", text, re.M)
        assert head is not None, self.function
        end = text.index("\n    }\n" if self.is_rust() else "\n}\n", head.end())
        body = text[head.end():end]
        assert self.old in body, self.name()
        return text[:head.end()] + body.replace(self.old, self.new, 1) + text[end:]

    def is_rust(self) -> bool:
        """Whether it is in the cargo crates."""
        return self.file.endswith(".rs")


C = "c/thp.c"
NODE, PASS, CELL = "rust/src/node.rs", "rust/src/pass.rs", "rust/src/cell.rs"

PAGE, MAPCOUNT = "return (thp_code)thp_c_node_page(&copy, page, state);", "return (thp_code)thp_c_node_mapcount(&copy, page, subpage, own);"
QUEUE = "return (thp_code)thp_c_node_queue(&copy, pages != NULL ? pages : &no_pages, room, count);"
CALLERS = "return (thp_code)thp_c_pass_callers(&copy, first, end);"

WRONG = (
    # a node that should only count its events stores them, or the other way about
    Wrong(C, "thp_node_create_counting", "underused, true", "underused, false"),
    Wrong(C, "thp_cell_create_counting", "mark, true", "mark, false"),
    Wrong(C, "thp_node_create", "underused, false", "underused, true"),
    Wrong(C, "thp_cell_create", "mark, false", "mark, true"),
    Wrong(C, "thp_node_create_counting", "order, underused, true", "order, THP_UNDERUSED_OFF, true"),
    Wrong(NODE, "counting", "thp_node_create_counting", "thp_node_create"),
    Wrong(CELL, "counting", "thp_cell_create_counting", "thp_cell_create"),
    # the call is made for something else
    Wrong(C, "thp_node_page", "page, state", "page + 1, state"),
    Wrong(C, "thp_node_page", "page, state", "(uint32_t)page, state"),
    Wrong(C, "thp_node_page", "page, state", "(uint16_t)page, state"),
    Wrong(C, "thp_node_mapcount", "page, subpage, own", "subpage, (uint32_t)page, own"),
    Wrong(C, "thp_node_mapcount", "page, subpage, own", "page + 1, subpage, own"),
    Wrong(C, "thp_node_mapcount", "page, subpage, own", "(uint32_t)page, subpage, own"),
    Wrong(C, "thp_node_mapcount", "page, subpage, own", "page, subpage + 1, own"),
    Wrong(C, "thp_node_mapcount", "page, subpage, own", "page, (uint16_t)subpage, own"),
    Wrong(C, "thp_node_mapcount", "page, subpage, own", "page, 0, own"),
    Wrong(C, "thp_node_queue", "room, count", "room != 0 ? room - 1 : 0, count"),
    Wrong(C, "thp_node_queue", "room, count", "room != 0, count"),
    Wrong(C, "thp_node_queue", "room, count", "(uint16_t)room, count"),
    Wrong(C, "thp_node_queue", "room, count", "(uint8_t)room, count"),
    Wrong(C, "thp_node_queue", "pages != NULL ? pages : &no_pages", "room > 1 ? pages + 1 : &no_pages"),
    Wrong(C, "thp_node_queue", "pages != NULL ? pages : &no_pages, room", "&no_pages, room != 0"),
    Wrong(C, "thp_pass_callers", "first, end", "end, first"),
    Wrong(C, "thp_pass_callers", "first, end", "first, first"),
    # the call is not made, or its results are lost or changed
    Wrong(C, "thp_node_page", PAGE, "(void)copy; (void)page; return THP_OK;"),
    Wrong(C, "thp_node_page", PAGE, "(void)copy; (void)page; return THP_NO_PAGE;"),
    Wrong(C, "thp_node_page", PAGE, "thp_c_node_page(&copy, page, state); return THP_OK;"),
    Wrong(C, "thp_node_page", PAGE, "thp_code code = (thp_code)thp_c_node_page(&copy, page, state); state->caller = 0; return code;"),
    Wrong(C, "thp_node_page", PAGE, "thp_code code = (thp_code)thp_c_node_page(&copy, page, state); state->list %= 2; return code;"),
    Wrong(C, "thp_node_page", PAGE, "thp_code code = (thp_code)thp_c_node_page(&copy, page, state); state->split = 0; return code;"),
    Wrong(C, "thp_node_page", PAGE, "memset_state(state); return (thp_code)thp_c_node_page(&copy, page, state);"),
    Wrong(C, "thp_node_mapcount", MAPCOUNT, "(void)copy; (void)page; (void)subpage; *own = 1; return THP_OK;"),
    Wrong(C, "thp_node_mapcount", MAPCOUNT, "*own = 0; " + MAPCOUNT),
    Wrong(C, "thp_node_mapcount", MAPCOUNT,
          "thp_code code = (thp_code)thp_c_node_mapcount(&copy, page, subpage, own); *own &= 1; return code;"),
    Wrong(C, "thp_node_queue", QUEUE, "(void)copy; *count = 0; return THP_OK;"),
    Wrong(C, "thp_node_queue", QUEUE, "return (thp_code)thp_c_node_queue_length(&copy, count);"),
    Wrong(C, "thp_node_queue", QUEUE, "thp_code code = (thp_code)thp_c_node_queue(&copy, pages != NULL ? pages : &no_pages, room, count); "
          "if (*count > room) *count = (uint32_t)room; return code;"),
    Wrong(C, "thp_pass_callers", CALLERS, "(void)copy; *first = 0; *end = 64; return THP_OK;"),
    Wrong(C, "thp_pass_callers", CALLERS, "thp_code code = (thp_code)thp_c_pass_callers(&copy, first, end); *end -= 1; return code;"),
    Wrong(C, "thp_pass_callers", CALLERS, "thp_code code = (thp_code)thp_c_pass_callers(&copy, first, end); *first = 0; return code;"),
    # the caller's own handle is written, or a pointer isn't tested
    *(Wrong(C, f"thp_{what}", "&copy", f"((void)copy, (thp_{what.split('_')[0]} *){what.split('_')[0]})")
      for what in ("node_page", "node_mapcount", "node_queue", "node_queue_length", "node_stats", "node_journal", "pass_callers")),
    *(Wrong(C, function, condition, "false") for function, condition in null_tests((ROOT / C).read_text())),
    Wrong(C, "thp_node_queue", "(pages == NULL && room != 0)", "pages == NULL"),
    # the same in Rust
    Wrong(NODE, "page", "page, &mut reported", "page + 1, &mut reported"),
    Wrong(NODE, "page", "page, &mut reported", "page as u32 as u64, &mut reported"),
    Wrong(NODE, "page", "Ok(PageState::of(reported))", "Ok(PageState::of(sys::thp_page_state { split: 0, ..reported }))"),
    Wrong(NODE, "page", "Ok(PageState::of(reported))", "Ok(PageState::of(sys::thp_page_state { caller: 0, ..reported }))"),
    Wrong(NODE, "mapcount", "page, subpage, &mut own", "subpage as u64, page as u32, &mut own"),
    Wrong(NODE, "mapcount", "page, subpage, &mut own", "page, subpage & 0xffff, &mut own"),
    Wrong(NODE, "mapcount", "Ok(own)", "Ok(own.max(1))"),
    Wrong(NODE, "queue", "pages.len(), &mut count", "pages.len() - 1, &mut count"),
    Wrong(NODE, "queue", "Ok(pages)", "Ok(pages.into_iter().rev().collect())"),
    Wrong(PASS, "callers", "first..end", "0..end"),
    Wrong(PASS, "callers", "first..end", "first..end + 1"),
)
"""All of them."""

HELPERS = "#include <string.h>\nstatic void memset_state(thp_page_state *state) { memset(state, 0, sizeof *state); }\n"
"""What some of them call."""


def ended(command: list[str | Path], where: Path, **more: str) -> int:
    """The status of a command, without its output; -1 if it takes too long."""
    try:
        return subprocess.run(command, cwd=where, env={**os.environ, **more}, capture_output=True, timeout=SECONDS, check=False).returncode
    except subprocess.TimeoutExpired:
        return -1


class Boundary(TestCase):
    """A copy of the library's C half and of the cargo crates, in a folder."""

    archive: Path
    folder: Path

    @classmethod
    def setUpClass(cls) -> None:
        """Copies them, and builds the library."""
        require_thorough()
        require_tool("gcc")
        cls.archive, cls.folder = find_built("LIBTHP_C"), temporary_folder(cls)
        for part in ("c", "rust"):
            shutil.copytree(ROOT / part, cls.folder / part, ignore=shutil.ignore_patterns("out", "target"))
        ended(["make", "-s", "-C", "c", "all", f"ARCHIVE={cls.archive}"], cls.folder)

    def refuses_c(self) -> bool | None:
        """Whether a test in C fails on the copy; None if it isn't built."""
        source = self.folder / "c"
        (source / "tests/null_pointers.c").write_text(program_text((ROOT / "c/thp.h").read_text()))
        if ended(["gcc", "-std=c11", "-O1", "-w", "-c", "thp.c", "-o", "thp.o"], source) != 0:
            return None
        for name in ("null_pointers", "calls", "passes"):
            words: list[str | Path] = ["gcc", "-std=gnu11", "-O1", "-w", "-I.", f"tests/{name}.c", "thp.o", self.archive, "-o", name]
            if ended(words, source) != 0:
                return None
            if ended([source / name], source) != 0:
                return True
        return False

    def refuses_rust(self) -> bool | None:
        """Whether a test of the crate fails on the copy; None if it isn't built."""
        require_tool("cargo")
        words: list[str | Path] = ["cargo", "test", "--offline", "--quiet", "--target-dir", self.folder / "target"]
        words += ["--test", "node", "--test", "pass"]
        crate, where = self.folder / "rust", {"THP_LIB": str(self.folder / "c/out")}
        if ended([*words, "--no-run"], crate, **where) != 0:
            return None
        return ended(words, crate, **where) != 0

    def refuses(self, wrong: Wrong | None) -> str | None:
        """What is wrong where the tests don't refuse a wrong body, or refuse the right ones."""
        path = self.folder / (wrong.file if wrong else C)
        text = path.read_text()
        if wrong:
            planted = wrong.planted(text)
            path.write_text(planted if wrong.is_rust() else planted.replace('#include "thp.h"\n', f'#include "thp.h"\n{HELPERS}', 1))
        try:
            is_refused = self.refuses_rust() if wrong and wrong.is_rust() else self.refuses_c()
        finally:
            path.write_text(text)
        if is_refused is None:
            return "it isn't built"
        return None if is_refused == (wrong is not None) else "no test refuses it" if wrong else "a test refuses the right bodies"

    def test_the_right_bodies_are_not_refused(self) -> None:
        self.assertIsNone(self.refuses(None))


add_tests(Boundary, Boundary.refuses, ((f"refused: {wrong.name()}", wrong) for wrong in WRONG))
