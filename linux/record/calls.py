"""Effects of system calls on the mappings in their address space, by their arguments and return values.

Rules: man pages of section 2; mm/mremap.c, mm/mmap.c and mm/madvise.c of the kernel. Numbers are those of x86-64."""

from __future__ import annotations

import enum
from dataclasses import dataclass
from functools import lru_cache

from ..common.files import BASE
from .records import Record

MMAP, MPROTECT, MUNMAP, BRK, MREMAP, MADVISE = 9, 10, 11, 12, 25, 28
COLLAPSE = -1  # in the place of a call's number: a collapse takes all mappings of a region away, and makes a page there
COPIED = -2  # in that place too: a copy on write takes the mapping of a subpage away
MAP_FIXED, MAP_FIXED_NOREPLACE = 0x10, 0x100000
EMPTYING = (4, 24, 102)  # advice that takes mappings away: MADV_DONTNEED, _LOCKED, MADV_GUARD_INSTALL
CUTTING = (10, 11, 12, 13, 14, 15, 16, 17, 18, 19)  # advice that cuts an area in two
LOSING = (8, 9, 20, 21)  # MADV_FREE and its like: not followed
MADV_COLLAPSE = 25
NO_MEMORY = 12  # of madvise: a part of the range isn't mapped; the rest was done
ERRORS = 4095  # answers from -ERRORS on are errors
_WORD = (1 << 64) - 1


class MappingChange(enum.Enum):
    """The change that an effect makes to the mappings in a range."""

    REMOVES = "they go, with the area"
    EMPTIES = "they go, and the area stays"
    CUTS = "they stay, and the area is cut at the range's ends"
    MOVES = "they go to another place"
    LOSES = "it isn't followed"


REMOVING = (MappingChange.REMOVES, MappingChange.EMPTIES)


@dataclass(frozen=True)
class Effect:
    """A change of the mappings in a range of addresses; `by`: how far mappings move."""

    change: MappingChange
    start: int
    end: int
    by: int = 0


def _round_up(address: int) -> int:
    """Returns the next border of base pages."""
    return (address + BASE - 1) // BASE * BASE


def has_succeeded(call: Record, answer: int) -> bool:
    """Returns whether a call has done what it was asked."""
    number, start = call.values[:2]
    error = -answer & _WORD if -answer & _WORD <= ERRORS else 0
    if number == BRK:
        return answer == start
    return not error or (number == MADVISE and error == NO_MEMORY)


def list_effects(call: Record, answer: int | None = None) -> list[Effect]:
    """Returns the effects of a call, in order. Without a return value the call still runs: its effects if it succeeds, except moves."""
    number, start, length, third, program_break = call.values[:5]
    end = _round_up(start + length)
    if number in (MUNMAP, MMAP):  # of mmap those alone are recorded that replace what is there
        return [Effect(MappingChange.REMOVES, start, end)]
    if number == BRK:
        return [Effect(MappingChange.REMOVES, _round_up(start), _round_up(program_break))] if start < program_break else []
    if number == MREMAP:
        return _list_mremap_effects(start, length, third, answer)
    if number in (COLLAPSE, COPIED) or (number == MADVISE and third in EMPTYING):
        return [Effect(MappingChange.EMPTIES, start, end)]
    if number == MPROTECT or (number == MADVISE and third in CUTTING):
        return [Effect(MappingChange.CUTS, start, end)]
    return [Effect(MappingChange.LOSES, start, end)] if number == MADVISE and third in LOSING else []


@lru_cache(maxsize=1024)
def list_removals(call: Record) -> list[Effect]:
    """Returns the effects of a call that still runs that remove mappings."""
    return [each for each in list_effects(call) if each.change in REMOVING]


def _list_mremap_effects(start: int, old: int, new: int, answer: int | None) -> list[Effect]:
    """Effects of mremap: removes what is beyond the new length, then what is at the new place; then moves the rest."""
    edge, end = _round_up(start + new), _round_up(start + old)
    out = [Effect(MappingChange.REMOVES, edge, end)] if edge < end else []
    if answer is not None and answer != start:
        out.append(Effect(MappingChange.REMOVES, answer, _round_up(answer + new)))
        out.append(Effect(MappingChange.MOVES, start, min(edge, end), answer - start))
    return out
