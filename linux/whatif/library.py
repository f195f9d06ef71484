"""What decides what a split does with a huge page, which pages can't be predicted, and libthp in this process: predict.c makes the state
of the model from what decides, policies.c repeats journals."""

from __future__ import annotations

import ctypes
import struct
from array import array
from functools import lru_cache
from typing import Any, NamedTuple, Sequence

from ..common.errors import RunFailed, Unavailable
from ..common.files import PMD_ORDER
from ..common.folios import Folio, full_set
from ..common.helpers import helper
from ..common.text import escape

SPLIT, UNDERUSED, PINNED = 1, 2, 4  # outcomes, as predict.c has them
SET = 64  # bytes of a set of subpages
RECORD = struct.Struct(f"={SET}s{SET}sBBBBB3x")  # struct page of predict.c

# why a page can't be predicted
HOLES_UNFLAGGED = "huge pages with an unmapped subpage that the kernel has not as partly mapped"
UNMAPPED = "huge pages that were no longer mapped"
ZEROS_STAY = "underused huge pages in locked areas: their zeros count, and a split leaves them"
LAZILY_FREED = "huge pages given to MADV_FREE: reclaim drops them whole"


class NotPredictable(Exception):
    """This page can't be predicted; the text is one of the reasons above."""


class PagePlan(NamedTuple):
    """All that decides about a page. Pages with equal plans have the same fate."""

    order: int
    zero: int  # zero-filled subpages; of a partly mapped page those whose zeros a split drops
    mapped: int  # subpages that PTEs map
    is_whole: bool  # PMD entries map it
    is_partly: bool
    is_in_queue: bool
    is_pinned: bool

    def pack(self) -> bytes:
        """Returns it as predict.c reads it."""
        order, zero, mapped, *flags = self
        return RECORD.pack(zero.to_bytes(SET, "little"), mapped.to_bytes(SET, "little"), order, *flags)


def plan_page(folio: Folio, locked_are_tried: bool = False) -> PagePlan:
    """Returns the plan of a page. `locked_are_tried`: the shrinker tries locked pages, as before Linux 6.18. Raises NotPredictable."""
    if folio.is_lazily_freed:
        raise NotPredictable(LAZILY_FREED)
    whole = folio.known_pmd_mappings if folio.whole is None else folio.whole
    mapped = mapped_above(folio.totals, whole)
    if not whole and not mapped:
        raise NotPredictable(UNMAPPED)
    has_holes = not whole and mapped != folio.full
    is_partly = has_holes if folio.is_partly is None else folio.is_partly
    if has_holes and not is_partly:
        raise NotPredictable(HOLES_UNFLAGGED)
    is_queued = folio.order == PMD_ORDER if folio.is_queued is None else folio.is_queued
    is_passed_over = folio.is_poisoned or (folio.is_locked and not locked_are_tried)
    is_in_queue = is_partly or (is_queued and not is_passed_over)
    zero, kept = folio.zeros, folio.full if folio.is_locked else folio.kept
    if is_partly:
        zero &= ~kept
    elif is_in_queue and zero & kept:
        raise NotPredictable(ZEROS_STAY)
    return PagePlan(folio.order, zero, mapped, whole > 0, is_partly, is_in_queue, (folio.pins or 0) > 0)


def mapped_above(totals: Sequence[int], count: int) -> int:
    """Returns the subpages that are mapped more than `count` times."""
    if totals.count(totals[0]) == len(totals):  # true of most pages
        return full_set(len(totals).bit_length() - 1) if totals[0] > count else 0
    if isinstance(totals, bytes) and count < 256:  # a digit for each, the last one first
        return int(totals[::-1].translate(b"0" * (count + 1) + b"1" * (255 - count)), 2)
    return sum(1 << i for i, total in enumerate(totals) if total > count)


class Library:
    """predict.c and policies.c, compiled with libthp, at a path. Unavailable where it can't be loaded."""

    def __init__(self, path: str) -> None:
        try:
            self.calls = ctypes.CDLL(path)
        except OSError as error:
            raise Unavailable(f"the helper {escape(path)} can't be loaded: {escape(str(error))}") from error
        pointer, number = ctypes.c_void_p, ctypes.c_uint32
        types: dict[str, list[Any]] = {  # of the result and of the words of a call
            "predict": [number, pointer, number, number, pointer, pointer, pointer],
            "words_of": [ctypes.c_char_p, number],
            "start_run": [pointer, number, number, number, number, ctypes.c_double],
            "follow_lines": [number, pointer, ctypes.c_char_p, pointer, pointer],
            "end_run": [None, pointer, pointer],
        }
        for name, (result, *words) in types.items():
            call = getattr(self.calls, name)
            call.restype, call.argtypes = result, words

    def words(self, code: int) -> str:
        """Returns a code of libthp in words."""
        return str(self.calls.words_of(code).decode("ascii"))

    def predict(
        self, records: Sequence[bytes], frames: Sequence[int], threshold: int, with_given: bool = False
    ) -> tuple[array[int], bytes]:
        """Returns the fates of packed pages, each an outcome and a number of frames; `with_given`: and for each the set of subpages whose
        frames come back. RunFailed, with the page's first frame, where libthp refuses a call."""
        fates, failed = array("I", bytes(8 * len(records))), ctypes.c_uint32()
        given = ctypes.create_string_buffer(len(records) * SET) if with_given else None
        code = self.calls.predict(b"".join(records), len(records), threshold, fates.buffer_info()[0], given, ctypes.byref(failed))
        if code:
            raise RunFailed(f"the huge page of frame {frames[failed.value]} can't be predicted at {threshold}: {self.words(code)}")
        return fates, given.raw if given else b""


@lru_cache(maxsize=None)
def load_library() -> Library:
    """Returns the library, loaded once. Unavailable where it isn't built, or can't be loaded."""
    try:
        return Library(helper("predict.so"))
    except Unavailable as error:
        raise Unavailable(f"no libthp (a release has it; in a checkout: make c, then make -C linux): {error}") from error
