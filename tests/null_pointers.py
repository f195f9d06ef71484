"""Each call of the library for C, with each of its pointers null in turn: a program in C, made from the header.

The other arguments are valid. Each call returns THP_NULL, and changes neither a handle nor what any pointer points to. With all pointers
valid it returns something else. `tests/test_library.py` builds and runs the program, `test_wrong_boundary.py` removes each test for null.
"""

from __future__ import annotations

import re

DECLARED = re.compile(r"^thp_code (thp_\w+)\(([^;{}]*)\);", re.M)
"""A function's declaration: its name, its parameters."""

NUMBERS = {
    "caller": "0", "page": "page", "first": "0", "count": "1", "n": "1", "blocks": "4", "order": "9", "underused": "THP_UNDERUSED_OFF",
    "callers": "2", "at": "1", "events": "4", "subpage": "0", "length": "1", "capacity": "sizeof bytes", "room": "4",
}
"""A valid value of each parameter that is a number."""

HEAD = """#include <stdio.h>
#include <stdlib.h>
#include <string.h>
#include <sys/wait.h>
#include <thp.h>
#include <unistd.h>

/* what the pointers point to */
static struct {
    thp_node node;
    thp_pass pass, other;
    thp_check check;
} handles, handles_before;
static union {
    uint32_t u32[2];
    uint64_t u64[4];
    size_t size;
    thp_done done;
    thp_scan scan;
    thp_tried tried;
    thp_back back;
    thp_stats stats;
    thp_page_state state;
} out, out_before;
static char bytes[64], bytes_before[64];
static uint64_t page;
static int wrong;

static void expect(const char *what, thp_code code, int is_null) {
    int changed = memcmp(&handles, &handles_before, sizeof handles) || memcmp(&out, &out_before, sizeof out)
                  || memcmp(bytes, bytes_before, sizeof bytes);
    if ((code == THP_NULL) == is_null && !(is_null && changed)) return;
    printf("%s: %s%s\\n", what, thp_strerror(code), is_null && changed ? ", and something was changed" : "");
    wrong = 1;
}

/* a call that may do something is made in a process of its own; each is one that has a batch, a pass and a check */
#define VALID(what, call) do { \\
        pid_t child = fork(); \\
        if (child == 0) { thp_code code = (call); _exit(code == THP_NULL); } \\
        int status; \\
        waitpid(child, &status, 0); \\
        expect(what, status == 0 ? THP_OK : THP_NULL, 0); \\
    } while (0)

static void *no_memory(size_t size) { (void)size; return NULL; }
static void *no_more(void *memory, size_t size) { (void)memory; (void)size; return NULL; }

int main(void) {
    const thp_allocator whole = {malloc, realloc, free};
    const thp_allocator parts[] = {{NULL, no_more, free}, {no_memory, NULL, free}, {no_memory, no_more, NULL}};
    for (int i = 0; i < 3; i++) expect("thp_use_allocator: a function", thp_use_allocator(&parts[i]), 1);
    expect("thp_use_allocator: allocator", thp_use_allocator(NULL), 1);
    if (thp_use_allocator(&whole) != THP_OK || thp_use_allocator(&whole) != THP_OK) { puts("thp_use_allocator, twice"); wrong = 1; }
    if (thp_node_create(&handles.node, 4, 9, THP_UNDERUSED_OFF) != THP_OK || thp_node_alloc(&handles.node, 0, &page) != THP_OK) return 2;
    if (thp_cell_create(&handles.pass, 4, 9, THP_UNDERUSED_OFF, 2) != THP_OK || thp_pass_alloc(&handles.pass, 0, &page) != THP_OK) return 2;
    if (thp_pass_split(&handles.pass, 1, &handles.other) != THP_OK || thp_check_create(&handles.check) != THP_OK) return 2;
    if (thp_use_allocator(&whole) != THP_IN_USE) { puts("thp_use_allocator, after memory was allocated"); wrong = 1; }
    memset(&out, 0x5a, sizeof out);
    memset(bytes, 0x5a, sizeof bytes);
    handles_before = handles;
    out_before = out;
    memcpy(bytes_before, bytes, sizeof bytes);
"""
"""The program before the calls of the table."""

TAIL = """    thp_check_destroy(&handles.check);
    thp_pass_destroy(&handles.other);
    thp_pass_destroy(&handles.pass);
    thp_node_destroy(&handles.node);
    return wrong;
}
"""
"""The program after them."""


def parameters(text: str) -> list[tuple[str, str]]:
    """The type and the name of each parameter."""
    return [(it[: -len(name)].strip(), name) for it in text.split(",") for name in re.findall(r"\w+$", it)]


def valid(kind: str, name: str) -> str:
    """A valid argument for a parameter."""
    if not kind.endswith("*"):
        return NUMBERS[name]
    kind = kind.replace("const ", "").rstrip("* ")
    if name in ("node", "pass", "check", "other"):
        return f"&handles.{name}"
    if kind == "void":
        return "bytes"
    return f"({kind} *)&out"


def calls_of(name: str, given: list[tuple[str, str]]) -> list[str]:
    """The lines for a function: each of its pointers null in turn, and all of them valid."""
    lines = []
    words = [valid(kind, it) for kind, it in given]
    for at, (kind, it) in enumerate(given):
        if kind.endswith("*"):
            arguments = ", ".join("NULL" if i == at else word for i, word in enumerate(words))
            lines.append(f'    expect("{name}: {it}", {name}({arguments}), 1);')
    return [*lines, f'    VALID("{name}, valid", {name}({", ".join(words)}));'] if lines else []


def program_text(header: str) -> str:
    """The program for a header."""
    table = [(name, parameters(given)) for name, given in DECLARED.findall(header) if name != "thp_use_allocator"]
    return HEAD + "\n".join(line for name, given in table for line in calls_of(name, given)) + "\n" + TAIL


def null_tests(source: str) -> list[tuple[str, str]]:
    """Each test for null in the library's half in C: its function, and the condition."""
    bodies = re.findall(r"^thp_code (thp_\w+)\([^;{]*\) \{\n(.*?)^\}", source, re.M | re.S)
    lines = ((name, line) for name, body in bodies for line in re.findall(r"if \((.*)\) return THP_NULL;", body))
    return [(name, part) for name, line in lines for part in re.split(r" \|\| (?![^(]*\))", line)]
