"""Wrong programs: each runs the real one, and changes its output. A row of tests/outside.py must refuse each."""

from __future__ import annotations

import sys
from dataclasses import dataclass
from pathlib import Path

START = """#!/bin/sh
# Python starts with no input, as it doesn't start with a folder.
[ -e /proc/self/fd/0 ] && exec 9<&0 </dev/null
exec {python} -IS {folder}/change.py "$@"
"""
"""The program: standard input is passed on as number 9, if it is open."""

FRAME = """
import os, select, stat, sys

REAL = {real!r}
WORDS = [os.fsencode(word) for word in sys.argv[1:]]


def is_kept(number):
    # an output that can be taken and given on: a pipe that somebody reads
    try:
        kind = os.fstat(number).st_mode
    except OSError:
        return False
    watch = select.poll()
    watch.register(number, 0)
    return stat.S_ISFIFO(kind) and not watch.poll(0)


def become_real():
    try:
        os.dup2(9, 0)
    except OSError:
        os.close(0)
    os.closerange(3, 64)
    os.execv(REAL, [REAL, *WORDS])


def taken():
    # the status of the real program, and what it writes
    outputs = [os.pipe(), os.pipe()]
    child = os.fork()
    if child == 0:
        for number, (reader, writer) in enumerate(outputs, 1):
            os.dup2(writer, number)
        become_real()
    texts = {{reader: b"" for reader, _ in outputs}}
    for _, writer in outputs:
        os.close(writer)
    left = set(texts)
    while left:
        for reader in select.select(left, [], [])[0]:
            part = os.read(reader, 65536)
            texts[reader] += part
            left -= set() if part else {{reader}}
    status = os.waitpid(child, 0)[1]
    return os.WEXITSTATUS(status), texts[outputs[0][0]], texts[outputs[1][0]]


def put(number, text):
    while text:
        text = text[os.write(number, text):]


if not (is_kept(1) and is_kept(2)):
    become_real()
status, output, errors = taken()
{change}
put(1, output)
put(2, errors)
os._exit(status)
"""
"""The program's action: it takes the output of the real one, changes it, and writes it."""


@dataclass(frozen=True)
class WrongProgram:
    """A program whose streams and status are changed by a line of Python, which a row of a group must refuse."""

    name: str
    group: str
    change: str
    real: Path

    def write(self, folder: Path) -> Path:
        """Writes it as a program named `thpsplit`."""
        path = folder / "thpsplit"
        (folder / "change.py").write_text(FRAME.format(real=str(self.real), change=self.change))
        path.write_text(START.format(python=sys.executable, folder=folder))
        path.chmod(0o755)
        return path


TOO_LONG = "2, b'', b'thpsplit: line 0: too-long\\n'"
USAGE = "if errors.startswith(b'error'):"

WRONG = [
    ("an illegal journal has status 0", "illegal", "if status == 1: status = 0"),
    ("an illegal journal has status 2", "illegal", "if status == 1: status = 2"),
    ("an illegal journal is reported on standard error", "illegal", "if status == 1: output, errors = b'', output"),
    ("an illegal line is reported a line late", "illegal", "output = output.replace(b'line 7', b'line 8')"),
    ("a word that isn't UTF-8 is out of memory", "not text",
     "if b'UTF-8' in errors: status, errors = 3, b'thpsplit: out of memory\\n'"),
    ("a word that isn't UTF-8 has another text", "not text", "errors = errors.replace(b'one or more', b'some')"),
    ("a usage fault has an empty text", "usage", f"{USAGE} errors = b''"),
    ("a usage fault has status 1", "usage", f"{USAGE} status = 1"),
    ("a usage fault is reported on standard output", "usage", f"{USAGE} output, errors = errors, b''"),
    ("the bounds of a number are reported wrong", "usage", "errors = errors.replace(b'1..=8', b'1..=9')"),
    ("the help writes one other line", "help", "if b'Usage' in output: output = b'Hello\\n'"),
    ("the help lacks write and zero", "help",
     "output = b''.join(it for it in output.splitlines(True) if not it.startswith((b'  write ', b'  zero ')))"),
    ("the help has statuses swapped", "help",
     "output = output.replace(b'\\n  1  ', b'\\n  x  ').replace(b'\\n  2  the', b'\\n  1  the')"),
    ("the help has one letter more", "help", "output = output.replace(b'Print help', b'Print  help')"),
    ("the help goes to standard error", "help", "if b'Usage' in output: output, errors = b'', output"),
    ("another version", "version", "if output.startswith(b'thpsplit '): output = output.replace(b'.', b'.1', 1)"),
    ("a version without a line feed", "version", "if output.startswith(b'thpsplit '): output = output.rstrip()"),
    ("statuses 2 and 3 are swapped", "scripts at fault", "status = {2: 3, 3: 2}.get(status, status)"),
    ("a failed read has status 2", "read", "if b'read' in errors: status = 2"),
    ("a failed read is reported as a failed write", "read", "errors = errors.replace(b'read', b'write')"),
    ("a failed read is an empty input", "read", "if b'read' in errors: status, errors = 0, b''"),
    ("faults are reported on standard output, with status 0", "scripts at fault",
     "status, output, errors = 0, output + errors, b''"),
    ("a fault's line is followed by a report", "scripts at fault", "if errors: output = b'node 0\\n'"),
    ("a fault is reported a line late", "scripts at fault", "errors = errors.replace(b'line 2', b'line 3')"),
    ("bad orders are reported as bad underused", "judged first", "errors = errors.replace(b'orders', b'underused')"),
    ("a journal's fault is reported as cut", "journals at fault", "errors = errors.replace(b'bad-set', b'cut')"),
    ("legal without a line feed", "reports", "output = output.replace(b'legal\\n', b'legal')"),
    ("warnings beside a report", "reports", "errors = errors or b'warning: slow\\n'"),
    ("all input is read first", "judged first", "os.read(9, 65536)"),
    ("too many bytes are a cut", "limits", "errors = errors.replace(b'too-long', b'cut')"),
    ("16 MiB are too many bytes", "limits", f"if os.lseek(9, 0, 1) == 2**24: status, output, errors = {TOO_LONG}"),
]
"""Each has a name, the group of rows that must refuse it, and what it changes: `status`, `output` or `errors`."""
