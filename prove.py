#!/usr/bin/env python3
"""Proves the libraries that a crate depends on, several at a time, each after those that it uses.

    prove.py CRATE [WORD..]
    prove.py verdicts [PART]
    prove.py is-released

With words it then runs `rt WORD..` in the crate's folder: `run` proves, builds and runs a program, `lib` builds a library, `verdict`
proves the crate again from scratch.

`rt` proves one library after the other, and allows only one run in a crate and the crates below it. This program therefore
runs `rt lib` for each library in a folder of its own, with the built libraries that it uses next to it, and then moves the
result to the tree, where the next `rt` finds it. A library gets one process, at a lower priority, where that delays no other: several
processes take a fifth more processor time. A library with the longest chain of remaining work, or with one that would become the
longest, gets a process for each processor. Libraries that are already proved are left alone: `rt` itself checks them at the end.

The line in which `rt` reports that a crate is proved, its verdict line, is stored in the crate's out/, with the sum of the sources
that it is for, and the hashes of what was built from them (`verdict`). Where `rt` takes a proof from another checkout, the line of
that checkout comes with it, if there is one. With the word `verdicts` each crate of a release that has no line is proved from scratch,
to get one; all that it uses must be built. PART is the folder in out/ of what was built for another platform. With `is-released` the
status is 0 if each crate of a release has its line, and programs and library are those that were built from its sources, otherwise 1:
nothing is proved or built.

Writes a line for each library on standard error. The status is 1 if a library is not proved, and then the output of its `rt`
is shown; with words it is otherwise that of `rt`.
"""

from __future__ import annotations

import fcntl
import hashlib
import os
import re
import shutil
import subprocess
import sys
import tempfile
import threading
import time
from collections.abc import Sequence
from concurrent.futures import FIRST_COMPLETED, Future, ThreadPoolExecutor, wait
from functools import cache
from pathlib import Path

ROOT = Path(__file__).resolve().parent
CRATES = ROOT / "crates"
PARTS = ("src", "specs", "proofs")
"""The folders of a crate that a proof reads."""

AT_ONCE, EACH = 4, 5
"""The greatest number of concurrent proofs, and the free memory in GiB that each needs."""

ALONE = 3
"""How many times as long a proof takes by one process at a lower priority as by a process for each processor."""

ENDING = threading.Event()
"""Set when the run must end because a library is not proved."""


@cache
def listed() -> dict[str, tuple[str, list[str]]]:
    """Each crate of crates.txt: its line, and the crates of the tree that it uses."""
    lines = [line for line in (ROOT / "crates.txt").read_text().splitlines() if re.match(r"\w", line)]
    named = {line.split(":")[0].split()[0]: line for line in lines}
    return {name: (line, [it for it in line.split(":")[1].split() if it in named]) for name, line in named.items()}


@cache
def below(name: str) -> tuple[str, ...]:
    """The libraries of the tree that a crate depends on, each after those that it uses."""
    found = [at for it in listed()[name][1] for at in (*below(it), it)]
    return tuple(dict.fromkeys(found))


RELEASED = ("thpsplit", "thpcheck", "thpdraw", "thp_c")
"""The crates that a release has the programs and the library of."""


def released() -> list[str]:
    """The crates that a release is built from, each after those that it uses."""
    return list(dict.fromkeys(it for name in RELEASED for it in (*below(name), name)))


def files(name: str) -> list[Path]:
    """The files of a crate that its proof reads."""
    return [it for part in PARTS for it in (CRATES / name / part).rglob("*") if it.is_file()]


def lines(name: str) -> int:
    """The number of lines of these files."""
    return sum(it.read_bytes().count(b"\n") for it in files(name))


def works_after(target: str) -> dict[str, int]:
    """For each library below the crate, the number of lines that must be proved one after the other from it on, itself
    included."""
    behind: dict[str, int] = {}
    for name in reversed(below(target)):
        above = [behind[it] for it in below(target) if name in listed()[it][1]]
        behind[name] = max(above, default=0) + lines(name)
    return behind


def stands(name: str) -> bool:
    """Whether a library was built after its last source was written."""
    stamps = [CRATES / it / "out/rlib/stamp" for it in (name, *listed()[name][1])]
    if not all(it.is_file() for it in stamps):
        return False
    kit = Path(shutil.which("rt") or ROOT).resolve()
    sources = [*files(name), *stamps[1:], ROOT / "crates.txt", kit]
    return all(it.stat().st_mtime <= stamps[0].stat().st_mtime for it in sources)


VERDICT = re.compile(r"^logic=proved( [\w-]+=\S+)+$", re.M)
"""The line with which `rt` ends the proof of a crate."""


@cache
def toolchain() -> str:
    """The version of the toolchain, or nothing where there is none."""
    rt = shutil.which("rt")
    return subprocess.run([rt, "version"], capture_output=True, text=True, check=False).stdout.strip() if rt else ""


def sources(name: str) -> str:
    """The sum of all that the proof of a crate reads: the toolchain's version, HANDLES, and the files and lines of crates.txt of the
    crate and of those below it."""
    handles = ROOT / "HANDLES"
    whole = hashlib.sha256(f"{toolchain()}\n{handles.read_text() if handles.is_file() else ''}\n".encode())
    for it in (*below(name), name):
        whole.update(f"{listed()[it][0]}\n".encode())
        for path in sorted(files(it)):
            whole.update(f"{path.relative_to(CRATES)} {hash_of(path)}\n".encode())
    return whole.hexdigest()


def hash_of(path: Path) -> str:
    """The SHA-256 of a file; of a folder that of the names and hashes of its files."""
    if path.is_file():
        return hashlib.sha256(path.read_bytes()).hexdigest()
    inside = sorted(it for it in path.rglob("*") if it.is_file())
    return hashlib.sha256("".join(f"{it.relative_to(path)} {hash_of(it)}\n" for it in inside).encode()).hexdigest()


def products(name: str, part: str = "") -> list[Path]:
    """What was built from a crate: its program, or its static library; for another platform in that part of out/."""
    out = CRATES / name / "out" / part
    return [it for it in (out / name, out / f"lib{name}.a") if it.is_file()]


def library(name: str) -> Path:
    """Where a library is built for the crates above it: a folder."""
    return CRATES / name / "out/rlib" / f"{name}.rlib"


def stored(path: Path, now: str) -> tuple[str, dict[str, str]]:
    """The verdict line that a file has for the sources with this sum, or nothing, and the hash of each file built from them, by name."""
    lines = path.read_text(errors="replace").splitlines() if path.is_file() else []
    if lines[:1] != [f"sources={now}"]:
        return "", {}
    built = dict(line.removeprefix("built=").split(" ", 1) for line in lines if line.startswith("built="))
    return lines[-1] if VERDICT.fullmatch(lines[-1]) else "", built


def keep_verdict(name: str, before: str, said: str, made: Sequence[Path] = (), folder: Path | None = None, part: str = "") -> bool:
    """Stores the verdict line in the output of a crate's proof, with the sum that the crate's sources had before the proof, and the
    hashes of the files that `rt` has built from them. What is stored for the same sources stays. Returns whether there is such a line and
    the sources are still the same."""
    lines = [found[0] for found in VERDICT.finditer(said)]
    if sources(name) != before:
        return False
    folder = folder or CRATES / name / "out" / part
    line, built = stored(folder / "verdict", before)
    built |= {it.name: hash_of(it) for it in made}
    folder.mkdir(parents=True, exist_ok=True)
    texts = [f"sources={before}", *(f"built={it} {built[it]}" for it in built), *(lines[-1:] or [line])]
    (folder / "verdict").write_text("".join(f"{text}\n" for text in texts if text))
    return bool(lines)


def verdict(name: str, part: str = "") -> tuple[str, dict[str, str]] | None:
    """The stored verdict line of a crate, and the hash of each file that was built from the same sources, by name; or None if there is
    none for the present sources. A library has the same line for all platforms."""
    now = sources(name)
    for folder in [part] if part and name in RELEASED else ["", "rlib"]:
        line, built = stored(CRATES / name / "out" / folder / "verdict", now)
        if line:
            return line, built
    return None


def is_built(name: str, *files: Path) -> bool:
    """Whether a crate has a verdict line for the present sources, and these files, or its library, are what was built from them."""
    found = verdict(name)
    return found is not None and all(it.exists() and found[1].get(it.name) == hash_of(it) for it in files)


def is_released() -> bool:
    """Whether nothing is left to prove or build for a release."""
    built = {name: products(name) for name in RELEASED}
    return all(is_built(name, *built.get(name, ())) for name in released()) and all(built.values())


def link(one: str, other: str) -> None:
    """Links a built file to a second name, or copies it if that is not possible. `rt` never writes to such a file."""
    try:
        os.link(one, other)
    except OSError:
        shutil.copy2(one, other)


def set_up(room: Path, name: str) -> None:
    """Creates a tree of the library and the built libraries below it."""
    (room / "crates.txt").write_text("".join(f"{listed()[it][0]}\n" for it in (*below(name), name)))
    for it in (*below(name), name):
        for part in PARTS:
            if (CRATES / it / part).is_dir():
                shutil.copytree(CRATES / it / part, room / "crates" / it / part)
    for it in below(name):
        shutil.copytree(CRATES / it / "out/rlib", room / "crates" / it / "out/rlib", copy_function=link)


def hand_in(made: Path, name: str) -> None:
    """Moves the result of a proof to the tree while no other `rt` runs in the crate: each locks the crate's folder."""
    out = CRATES / name / "out"
    folder = os.open(CRATES / name, os.O_RDONLY)
    try:
        fcntl.flock(folder, fcntl.LOCK_EX)
        out.mkdir(exist_ok=True)
        for part in ("incremental", "rlib"):
            if (made / part).is_dir():
                shutil.rmtree(out / part, ignore_errors=True)
                shutil.move(made / part, out / part)
        # written again, so that it is younger than the sources: `rt` may have taken the file from another checkout
        stamp = out / "rlib/stamp"
        text = stamp.read_text()
        stamp.unlink()
        stamp.write_text(text)
    finally:
        os.close(folder)


def prove(name: str, is_urgent: bool, started: list[subprocess.Popen[str]]) -> str | None:
    """Proves a library, by one process at a lower priority if it is not urgent. Returns the output of `rt` if it is not proved."""
    began, before = time.monotonic(), sources(name)
    with tempfile.TemporaryDirectory(prefix="thp-prove-") as top:
        set_up(Path(top), name)
        home = Path(top) / "crates" / name
        words = [*([] if is_urgent else ["nice"]), "rt", "lib", "--jobs", str(processors() if is_urgent else 1)]
        child = subprocess.Popen(words, cwd=home, text=True, errors="replace", stdin=subprocess.DEVNULL,
                                 stdout=subprocess.PIPE, stderr=subprocess.STDOUT)
        started.append(child)
        if ENDING.is_set():
            child.terminate()
        said, _ = child.communicate()
        if child.returncode:
            return str(said)
        keep_verdict(name, before, said, [home / "out/rlib" / library(name).name], home / "out/rlib")
        hand_in(home / "out", name)
    print(f"{name}: proved in {time.monotonic() - began:.0f} s", file=sys.stderr, flush=True)
    return None


def prove_again(name: str) -> str | None:
    """Proves a crate from scratch, in a folder of its own, and stores its verdict line. Returns the output of `rt` if that fails."""
    began, before = time.monotonic(), sources(name)
    with tempfile.TemporaryDirectory(prefix="thp-prove-") as top:
        set_up(Path(top), name)
        if (ROOT / "HANDLES").is_file():
            shutil.copy(ROOT / "HANDLES", top)
        done = subprocess.run(["rt", "verdict"], cwd=Path(top) / "crates" / name, text=True, errors="replace", stdin=subprocess.DEVNULL,
                              stdout=subprocess.PIPE, stderr=subprocess.STDOUT, check=False)
    if done.returncode or not keep_verdict(name, before, done.stdout):
        return done.stdout
    print(f"{name}: proved from scratch in {time.monotonic() - began:.0f} s", file=sys.stderr, flush=True)
    return None


def prove_lacking(part: str) -> bool:
    """Proves from scratch each crate of a release that has no verdict line, several at a time, and returns whether all are proved."""
    with ThreadPoolExecutor(lanes()) as pool:
        lacking = [name for name in released() if verdict(name, part) is None]
        wrong = {name: said for name, said in zip(lacking, pool.map(prove_again, lacking)) if said is not None}
    for name, said in wrong.items():
        print(f"{said}{name}: not proved", file=sys.stderr, flush=True)
    return not wrong


def processors() -> int:
    """The number of processors that this program may use."""
    return len(os.sched_getaffinity(0))


def lanes() -> int:
    """The number of libraries to prove concurrently on this machine."""
    found = re.search(r"MemAvailable:\s+(\d+)", Path("/proc/meminfo").read_text())
    free = int(found[1]) >> 20 if found else EACH
    return max(1, min(AT_ONCE, processors(), free // EACH))


def prove_all(target: str, most: int, started: list[subprocess.Popen[str]]) -> bool:
    """Proves the unproved libraries below a crate, and returns whether all are proved."""
    left: list[str] = []
    for name in below(target):
        if not stands(name) or {*left} & {*listed()[name][1]}:
            left.append(name)
    behind = works_after(target)
    left.sort(key=lambda it: -behind[it])
    running: dict[Future[str | None], str] = {}
    with ThreadPoolExecutor(most) as pool:
        while left or running:
            missing = {*left, *running.values()}
            ready = [it for it in left if not missing & {*below(it)}]
            for name in ready[: most - len(running)]:
                slowly = behind[name] + (ALONE - 1) * lines(name)
                is_urgent = slowly >= max(behind[it] for it in missing)
                running[pool.submit(prove, name, is_urgent, started)] = name
                left.remove(name)
            for ended in wait(running, return_when=FIRST_COMPLETED).done:
                name, said = running.pop(ended), ended.result()
                if said is not None:
                    print(f"{said}{name}: not proved", file=sys.stderr, flush=True)
                    end(started)
                    return False
    return True


BUILDS = ("run", "lib")
"""The words with which `rt` builds what is released."""


def run_rt(name: str, words: list[str]) -> int:
    """Runs `rt` in the folder of a crate with standard input and output of this process, and stores the verdict line in its output, and
    the hashes of what it built or found unchanged."""
    before, said = sources(name), ""
    with subprocess.Popen(["rt", *words], cwd=CRATES / name, stdout=subprocess.PIPE) as child:
        assert child.stdout is not None
        for line in child.stdout:
            sys.stdout.buffer.write(line)
            sys.stdout.buffer.flush()
            said += line.decode(errors="replace") if line.startswith(b"logic=proved ") else ""
    if child.returncode == 0:
        keep_verdict(name, before, said, products(name) if words[0] in BUILDS else ())
    return child.returncode


def end(started: list[subprocess.Popen[str]]) -> None:
    """Ends the processes that are still running."""
    ENDING.set()
    for it in started:
        if it.poll() is None:
            it.terminate()


def main() -> None:
    if sys.argv[1] == "is-released":
        sys.exit(0 if is_released() else 1)
    if sys.argv[1] == "verdicts":
        sys.exit(0 if prove_lacking("".join(sys.argv[2:])) else 1)
    started: list[subprocess.Popen[str]] = []
    try:
        is_proved = prove_all(sys.argv[1], lanes(), started)
    finally:
        end(started)
    if is_proved and sys.argv[2:]:
        sys.exit(run_rt(sys.argv[1], sys.argv[2:]))
    sys.exit(0 if is_proved else 1)


if __name__ == "__main__":
    main()
