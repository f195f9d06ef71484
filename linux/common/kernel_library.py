"""The library of BPF programs (linux/kernel), which libbpf fits to the running kernel when they are loaded."""

from __future__ import annotations

import ctypes
import errno
import os
import re
from functools import lru_cache

from .errors import Unavailable
from .helpers import helper
from .proc import missing_capabilities
from .text import text_lines

ROOM = 1 << 16  # bytes of messages
STATES, WINDOW, NAME, TABLES, ENTRIES, SET = 1024, 1 << 16, 64, 32, 512, 64  # linux/kernel/shared.h
LACKING = re.compile(r"failed to resolve CO-RE relocation <[a-z_]+> \[[0-9]+\] (?:struct|enum|union) ([A-Za-z0-9_.]+)")
LARGER = "invalid func unknown#57005"  # linux/kernel/queue.bpf.h: READ


class Request(ctypes.Structure):
    """struct thp_request."""

    _fields_ = [(name, ctypes.c_uint64) for name in ("group", "numa_node", "at", "found", "length")]


class PageState(ctypes.Structure):
    """struct thp_page_state."""

    _fields_ = [("frame", ctypes.c_uint64), ("group", ctypes.c_uint64),
                *((name, ctypes.c_int32) for name in ("references", "large", "entire")),
                *((name, ctypes.c_uint8) for name in ("is_linked", "is_partly", "has_failed", "unused"))]


class Window(ctypes.Structure):
    """struct thp_window."""

    _fields_ = [*((name, ctypes.c_uint64) for name in ("first_page", "page_size", "scan_function", "queue_lists", "has_lists")),
                ("lacking", ctypes.c_char * NAME), ("states", PageState * STATES), ("folios", ctypes.c_uint64 * WINDOW),
                ("zeros", ctypes.c_uint8 * SET * TABLES), ("tables", ctypes.c_uint64 * ENTRIES * TABLES)]


class Settings(ctypes.Structure):
    """struct thp_settings."""

    _fields_ = [*((name, ctypes.c_uint64) for name in ("group", "first_page", "scan_function", "queue_lists")),
                ("orders", ctypes.c_uint32), ("room", ctypes.c_uint32), ("numa_node", ctypes.c_int32),
                *((name, ctypes.c_uint32) for name in ("spaces", "blocks", "homes"))]


class Counters(ctypes.Structure):
    """struct thp_counters."""

    _fields_ = [(name, ctypes.c_uint64) for name in ("lost", "unobserved", "left_out", "inner_pages", "refused")]


@lru_cache(maxsize=None)
def load_library() -> ctypes.CDLL:
    """Loads the library. Unavailable where it isn't built, or libbpf is missing."""
    path = helper("thpkernel.so")
    try:
        library = ctypes.CDLL(path, use_errno=True)
    except OSError as error:
        missing = str(error).partition(":")[0]
        package = " (Debian package libbpf1)" if missing.startswith("libbpf") else ""
        raise Unavailable(f"the BPF programs need {missing}{package}") from error
    size, pointer = ctypes.c_size_t, ctypes.c_void_p
    for name, kinds, result in (
        ("thp_memory_open", [pointer, size], pointer),
        ("thp_memory_run", [pointer, ctypes.c_char_p, pointer], ctypes.c_int),
        ("thp_memory_window", [pointer], ctypes.POINTER(Window)),
        ("thp_memory_program", [pointer, ctypes.c_char_p], ctypes.c_int),
        ("thp_record_open", [pointer, pointer, size], pointer),
        ("thp_record_take", [pointer, ctypes.c_int, size, pointer], ctypes.c_int),
        ("thp_record_counters", [pointer, pointer], None),
        ("thp_record_close", [pointer], None),
    ):
        function = getattr(library, name)
        function.argtypes, function.restype = kinds, result
    return library


def open_programs(name: str, *words: object) -> tuple[int, list[str]]:
    """Returns what a function of the library opens, and its messages, a line each. Unavailable where it can't, with the reason."""
    text = ctypes.create_string_buffer(ROOM)
    opened = getattr(load_library(), name)(*words, text, ROOM)
    number = ctypes.get_errno()
    said = text.value.decode(errors="replace").strip()
    if not opened:
        raise Unavailable(explain(said, number))
    return opened, text_lines(said)


def explain(said: str, number: int) -> str:
    """Returns in a line why programs aren't loaded, and in further ones the end of what libbpf and the verifier said."""
    lacking = LACKING.search(said)
    if lacking:
        return f"this kernel has no {lacking[1].replace('.counter', '')}"
    if LARGER in said:
        return "a field of this kernel is larger than the programs know it"
    if not os.path.exists("/sys/kernel/btf/vmlinux"):
        return "no type information: no /sys/kernel/btf/vmlinux (DEBUG_INFO_BTF)"
    rights = lacking_rights()
    if rights:
        return f"the BPF programs are refused: {' and '.join(rights)} {'is' if len(rights) == 1 else 'are'} missing"
    reason = os.strerror(number or errno.EPERM)
    return f"the BPF programs are refused: {reason} (BPF_SYSCALL, lockdown)\n{said[-1500:]}"


def lacking_rights() -> list[str]:
    """Returns the capabilities that the programs need and this process lacks; CAP_SYS_ADMIN has both."""
    return missing_capabilities("CAP_BPF", "CAP_PERFMON") if missing_capabilities("CAP_SYS_ADMIN") else []
