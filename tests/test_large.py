"""Large inputs for the built program: a limit that was not requested would show here.

The expected results are computed here by counting, without a model of the program.
"""

from __future__ import annotations

import subprocess
import sys
import tempfile
from dataclasses import dataclass
from pathlib import Path
from typing import Callable, Iterable, Iterator, Optional, Sequence

import usage
from fixtures import ProgramCase, add_tests
from process import SECONDS, Call, Ended, ReadTooEarly, run
from texts import MOST_BYTES

COUNTERS = ("thp_split_page", "thp_split_page_failed", "thp_deferred_split_page", "thp_split_pmd")
CALLERS = 64
NODES = 8
MOST_BLOCKS = 4096
MOST_WORKERS = 63
MOST_BATCH = 128
SIZE = 512
"""Subpages of a page of order 9."""

MOST_PINS = 65_535
"""The greatest number of pins of a page."""


@dataclass(frozen=True)
class Case:
    """A call, and its expected result."""

    name: str
    call: Call
    wanted: Ended

    def wrong(self, program: Path) -> Optional[str]:
        """How the result of a program differs from the expected one, or None."""
        try:
            return run(program, self.call).differs_from(self.wanted)
        except ReadTooEarly:
            return "bytes of the input were read"


def joined(lines: Iterable[str]) -> bytes:
    """The text of some lines."""
    return "".join(f"{line}\n" for line in lines).encode()


def totals(number: int = 0, *further: str, **counts: int) -> bytes:
    """The totals of a node; those not named are 0. `further` are additional counters of the node."""
    names = ("pages", "queue", "frames_held", "frames_given", *COUNTERS, *further)
    return joined([f"node {number}", *(f"{name} {counts.get(name, 0)}" for name in names)])


def fault(line: int, word: str) -> Ended:
    """The first error of a text."""
    return Ended(2, b"", f"thpsplit: line {line}: {word}\n".encode())


LEGAL = Ended(0, b"legal\n")


def illegal(line: int) -> Ended:
    """A journal's first illegal line."""
    return Ended(1, f"illegal line {line}\n".encode())


def words(text: str) -> tuple[str, ...]:
    """The words of a command line."""
    return tuple(text.split())


CHECK = words("--check")


def long_lines() -> Iterator[Case]:
    """Lines of 4 KB to 10 MB: comments, words, numbers, operands, sets, and a bad byte at the end."""
    one_page = Ended(0, totals(pages=1, frames_held=SIZE))
    for size in (4_096, 5_000, 65_536, 100_000, 10_000_000):
        comment = b"#" + b"x" * size + b"\n"
        text = comment + b"setup\nalloc 0\n" + (comment if size < MOST_BYTES // 2 else b"")
        yield Case(f"comments of {size} bytes", Call((), text), one_page)
        yield Case(f"a bad byte behind {size} bytes", Call((), comment[:-1] + b"\xff\nsetup\n"), fault(1, "bad-byte"))
        text = b"setup\n" + b"x" * size + b" 0\n"
        yield Case(f"a word of {size} bytes", Call((), text), fault(2, "bad-word"))
        text = b"setup\nalloc 0\nalloc " + b"0" * size + b"\n"
        yield Case(f"a number of {size} digits", Call((), text), fault(3, "bad-number"))
        text = b"setup\nalloc" + b" 0" * (size // 2) + b"\n"
        yield Case(f"{size // 2} operands", Call((), text), fault(2, "bad-count"))
        text = b"thp-journal 1\nnode 0 blocks 1\n0 alloc 0\n0 split 0 " + b"0," * (size // 2) + b"\nend\n"
        yield Case(f"a set of {size} bytes", Call(CHECK, text), fault(4, "bad-set"))


def many_commands() -> Iterator[Case]:
    """A million and a half commands of one section, and the results of the last ones."""
    count = 1_500_000
    text = b"setup\n" + b"count 0\n" * count
    answers = joined([*(f"0 {index} count 0" for index in range(1, count + 1)), f"0 {count + 1} page 0"])
    answered = words("--report answers")
    yield Case("1.5 million counts, answers over 16 MiB", Call(answered, text + b"alloc 0\n"), Ended(0, answers))
    one_page = Ended(0, totals(pages=1, frames_held=SIZE))
    yield Case("1.5 million counts, totals", Call((), text + b"alloc 0\n"), one_page)
    yield Case("a fault behind 1.5 million commands", Call((), text + b"count 1\n"), fault(count + 2, "bad-number"))
    yield Case("a last line that is cut, behind as many", Call((), text + b"count 0"), fault(count + 2, "cut"))
    full = Ended(0, totals(pages=16, frames_held=16 * SIZE))
    yield Case("two million allocations, most of them refused", Call((), b"setup\n" + b"alloc 0\n" * 2_000_000), full)
    text = b"".join(f"worker {worker}\n".encode() + b"count 0\n" * 1_000_000 for worker in (1, 63))
    answers = joined(f"{worker} {index} count 0" for worker in (1, 63) for index in range(1, 1_000_001))
    yield Case("a million counts by each of two workers", Call((*answered, "--workers", "63"), text), Ended(0, answers))


def numbered(caller: int, answers: Sequence[bytes]) -> bytes:
    """The report of these answers of one caller."""
    return b"".join(b"%d %d %s\n" % (caller, place, answer) for place, answer in enumerate(answers, 1))


def long_script(section: bytes) -> bytes:
    """A section with as many commands as 16 MiB can hold: pins of one page, most of them refused."""
    return section + b"alloc 0\n" + b"pin 0 0\n" * ((MOST_BYTES - len(section)) // len(b"pin 0 0\n") - 1)


def most_commands() -> Iterator[Case]:
    """As many commands as 16 MiB can hold, by setup and by a worker: no command has fewer than 8 bytes with its line feed."""
    answered = words("--report answers")
    for caller, section in enumerate((b"setup\n", b"worker 1\n")):
        # 2,097,151 commands of setup; the longer line `worker 1` leaves room for one less
        count = (MOST_BYTES - len(section)) // len(b"pin 0 0\n")
        assert count == 2_097_151 - caller
        name, counts = f"{count} commands of {section.decode().rstrip()}", section + b"count 0\n" * count
        yield Case(f"{name}, counts, totals", Call((), counts), Ended(0, totals()))
        yield Case(f"{name}, counts, answers", Call(answered, counts), Ended(0, numbered(caller, [b"count 0"] * count)))
        pins = long_script(section)
        answers = [b"page 0", *[b"ok"] * MOST_PINS, *[b"refused too-many"] * (count - 1 - MOST_PINS)]
        yield Case(f"{name}, pins, totals", Call((), pins), Ended(0, totals(pages=1, frames_held=SIZE)))
        yield Case(f"{name}, pins, answers", Call(answered, pins), Ended(0, numbered(caller, answers)))
        events = b"%d alloc 0\n" % caller + b"%d pin 0\n" % caller * MOST_PINS
        journal = b"thp-journal 1\nnode 0 blocks 16\n" + events + b"end\n"
        yield Case(f"{name}, pins, journal", Call(words("--report journal"), pins), Ended(0, journal))


def many_scans() -> Iterator[Case]:
    """100,000 scans of 8 pinned pages, by setup and by a worker, as answers and as totals."""
    scans, pages = 100_000, 8
    commands = [f"{line.format(page)}" for page in range(pages) for line in ("alloc 0", "splitpmd 0 {}", "unmap 0 {} 0 1", "pin 0 {}")]
    made = [f"{line.format(page)}".encode() for page in range(pages) for line in ("page {}", "ok", "queued -", "ok")]
    scanned = [b"taken %d split 0 pinned %d back %d dropped 0" % (pages, pages, pages)] * scans
    text, lines = joined(["setup", *commands]), b"scan 0 8\n" * scans
    report = totals(
        pages=pages, queue=pages, frames_held=SIZE * pages, thp_split_page_failed=pages * scans,
        thp_deferred_split_page=pages, thp_split_pmd=pages,
    )
    reports = {"setup": numbered(0, [*made, *scanned]), "worker 1": numbered(0, made) + numbered(1, scanned)}
    for section, answers in reports.items():
        script = text + (b"" if section == "setup" else b"worker 1\n") + lines
        yield Case(f"{scans} scans of {section}, answers", Call(words("--report answers"), script), Ended(0, answers))
        yield Case(f"{scans} scans of {section}, totals", Call((), script), Ended(0, report))


def late_faults() -> Iterator[Case]:
    """Errors in lines whose numbers are just below and just above powers of two, up to the last possible line."""
    for line in (255, 256, 65_535, 65_536, 65_537, 131_073, 10_000_000, MOST_BYTES - 8):
        text = b"setup\n" + b"\n" * (line - 2) + b"fly\n"
        yield Case(f"a fault in line {line}", Call((), text), fault(line, "bad-word"))


def many_pages() -> Iterator[Case]:
    """Over half a million allocations, each freed at once, on each of 8 nodes with 4,096 blocks; and full nodes."""
    lines, pages = ["setup"], [0] * NODES
    size = 6
    while size < MOST_BYTES - 100:
        node = len(lines) // 2 % NODES
        pair = (f"alloc {node}", f"unmapwhole {node} {pages[node]}")
        pages[node] += 1
        lines += pair
        size += sum(len(line) + 1 for line in pair)
    options = words("--nodes 8 --blocks 4096")
    report = b"".join(totals(node, pages=count, frames_given=SIZE * count) for node, count in enumerate(pages))
    yield Case(f"{sum(pages)} pages allocated and freed", Call(options, joined(lines)), Ended(0, report))
    text = joined(["setup", *(f"alloc {node}" for node in range(NODES) for _ in range(MOST_BLOCKS + 1))])
    report = b"".join(totals(node, pages=MOST_BLOCKS, frames_held=SIZE * MOST_BLOCKS) for node in range(NODES))
    yield Case("8 nodes of 4,096 blocks, full", Call(options, text), Ended(0, report))


def pinned_scans(scans: int) -> tuple[bytes, bytes, bytes]:
    """128 queued pages that are pinned, and this many scans: the script, its totals and its journal."""
    commands, events = [], []
    for page in range(MOST_BATCH):
        commands += [f"alloc 0\nsplitpmd 0 {page}\nunmap 0 {page} 0 1\npin 0 {page}"]
        events += [f"0 alloc {page}\n0 splitpmd {page}\n0 unmapsub {page} 0 1 queued -\n0 pin {page}"]
    turn = joined(f"0 {word} {page}" for word in ("taken", "pinned", "back") for page in range(MOST_BATCH))
    script = joined(["setup", *commands]) + b"scan 0 128\n" * scans
    journal = joined(["thp-journal 1", "node 0 blocks 128", *events]) + turn * scans + b"end\n"
    report = totals(
        pages=MOST_BATCH,
        queue=MOST_BATCH,
        frames_held=MOST_BATCH * SIZE,
        thp_split_page_failed=MOST_BATCH * scans,
        thp_deferred_split_page=MOST_BATCH,
        thp_split_pmd=MOST_BATCH,
    )
    return script, report, journal


def long_journals() -> Iterator[Case]:
    """Journals of over 16 MiB, and of so many events that they can still be checked."""
    script, report, journal = pinned_scans(4_000)
    _, _, legal = pinned_scans(3_500)
    assert len(legal) <= MOST_BYTES < len(journal)
    options = words("--blocks 128")
    yield Case("1.5 million events by scans, totals", Call(options, script), Ended(0, report))
    yield Case("1.5 million events, journal", Call((*options, "--report=journal"), script), Ended(0, journal))
    yield Case("1.5 million events, too long for the check", Call(CHECK, journal), fault(0, "too-long"))
    lines, front = legal.count(b"\n"), legal[: -len(b"end\n")]
    yield Case("1.3 million events, legal", Call(CHECK, legal), LEGAL)
    yield Case("1.3 million events, the last illegal", Call(CHECK, front + b"0 taken 1\nend\n"), illegal(lines))
    yield Case("1.3 million events, then cut", Call(CHECK, front), fault(lines, "cut"))
    yield Case("1.3 million events, then a fault", Call(CHECK, front + b"ends\n"), fault(lines, "bad-word"))


def just_so_long() -> Iterator[Case]:
    """A journal of just 16 MiB, of pins that come and go: legal, illegal in its last event, and a byte too long."""
    front, pair = b"thp-journal 1\nnode 0 blocks 1\n0 alloc 0\n", b"0 pin 0\n0 unpin 0 stays -\n"
    pin, whole, end = b"0 pin 0\n", b"0 mapwhole 0\n", b"end\n"
    left = MOST_BYTES - len(front) - len(end)
    counts = ((wholes, pins) for wholes in range(64) for pins in range(64))
    wholes, pins = next(it for it in counts if (left - it[0] * len(whole) - it[1] * len(pin)) % len(pair) == 0)
    pairs = (left - wholes * len(whole) - pins * len(pin)) // len(pair)
    front += whole * wholes + pin * pins
    legal = front + pair * pairs + end
    assert len(legal) == MOST_BYTES
    # in the place of the last pin that goes, one of a page that there isn't
    late = front + pair * (pairs - 1) + pin + b"0 unpin 9 stays -\n" + end
    yield Case(f"16 MiB, {2 * pairs} events and more, legal", Call(CHECK, legal), LEGAL)
    yield Case("16 MiB, the last event illegal", Call(CHECK, late), illegal(late.count(b"\n") - 1))
    longer = legal.replace(b"blocks 1", b"blocks 16", 1)
    yield Case("16 MiB and a byte", Call(CHECK, longer), fault(0, "too-long"))


def split_apart() -> Iterator[Case]:
    """Sets of 256 runs: each second subpage is unmapped, then the page is split."""
    unmapped = range(0, SIZE, 2)
    lines = ["setup", "alloc 0", "splitpmd 0 0", *(f"unmap 0 0 {first} 1" for first in unmapped), "scan 0 1"]
    events = [f"0 unmapsub 0 {first} 1 {'queued' if first == 0 else 'stays'} -" for first in unmapped]
    events += ["0 taken 0", f"0 split 0 {','.join(map(str, unmapped))}"]
    journal = joined(["thp-journal 1", "node 0 blocks 16", "0 alloc 0", "0 splitpmd 0", *events, "end"])
    yield Case("a set of 256 runs, written", Call(words("--report journal"), joined(lines)), Ended(0, journal))
    yield Case("a set of 256 runs, read", Call(CHECK, journal), LEGAL)
    other = Call(CHECK, journal.replace(b",510\n", b"\n"))
    yield Case("a set of 255 runs in its place", other, illegal(journal.count(b"\n") - 1))


def node_of_64(node: int) -> list[str]:
    """The journal of a node with 4,096 pages, of which each of 64 callers takes, tries and puts back 64."""
    own = MOST_BLOCKS // CALLERS
    lines = [f"node {node} blocks {MOST_BLOCKS}"]
    for page in range(MOST_BLOCKS):
        caller = page % CALLERS
        lines += [f"{caller} alloc {page}", f"{caller} splitpmd {page}", f"{caller} unmapsub {page} 0 1 queued -"]
    lines += [f"{page // own} taken {page}" for page in range(MOST_BLOCKS)]
    # batches go on in turn, the last caller's first: odd pages are split, even ones are pinned
    for page in (caller * own + place for place in range(own) for caller in reversed(range(CALLERS))):
        caller = page // own
        tried = [f"{caller} pin {page}", f"{caller} pinned {page}"]
        lines += [f"{caller} split {page} 0"] if page % 2 else tried
    lines += [f"{page // own} {word} {page}" for word in ("back", "taken") for page in range(0, MOST_BLOCKS, 2)]
    return lines


def largest_check() -> Iterator[Case]:
    """A journal of 8 nodes with 4,096 blocks, whose 64 callers each have a batch."""
    lines = ["thp-journal 1", *(line for node in range(NODES) for line in node_of_64(node))]
    text, last = joined(lines), len(lines) + 1
    name = "8 nodes, 4,096 blocks, 64 callers"
    yield Case(f"{name}: {last} lines, legal", Call(CHECK, text + b"end\n"), LEGAL)
    yield Case(f"{name}: a page more than blocks", Call(CHECK, text + b"63 alloc 4096\nend\n"), illegal(last))
    yield Case(f"{name}: a try by another caller", Call(CHECK, text + b"62 split 0 0\nend\n"), illegal(last))
    yield Case(f"{name}: a caller too many", Call(CHECK, text + b"64 pin 0\nend\n"), fault(last, "bad-number"))


def unread(name: str, given: tuple[str, ...], errors: bytes) -> Case:
    """Words with errors, for which no byte of the input is read."""
    return Case(name, Call(given, b"fly\n", untouched=True), Ended(2, b"", errors))


def many_words() -> Iterator[Case]:
    """Command lines of many words."""
    line = "--nodes 8 --blocks 4096 --workers 63 --report totals --orders 9,9,9,9,9,9,9,9 --underused"
    options = (*words(line), ",".join(["off"] * NODES))
    report = b"".join(totals(node, pages=node, frames_held=SIZE * node) for node in range(NODES))
    text = "".join(f"worker {8 * node + 7}\n" + f"alloc {node}\n" * node for node in range(NODES))
    yield Case("each option at its most", Call(options, text.encode()), Ended(0, report))
    unexpected = Ended(2, b"", usage.unexpected("zzz"))
    yield Case("10,000 words behind all options", Call((*options, *("zzz",) * 10_000)), unexpected)
    many = ("zzz",) * 20_000
    yield unread("20,000 words", many, usage.unexpected("zzz"))
    yield unread("20,000 words after all options", (*options, *many), usage.unexpected("zzz"))
    yield unread("20,000 words after `--`", ("--", *many), usage.unexpected("zzz"))
    yield unread("20,000 times --check", ("--check",) * 20_000, usage.doubled("check"))
    yield unread("10,000 times --nodes 2", words("--nodes 2") * 10_000, usage.doubled("nodes"))
    orders = ",".join("9" * 30_000)
    yield Case("a list of 30,000 orders", Call(("--orders", orders)), Ended(2, b"", b"thpsplit: bad orders\n"))
    bad_underused = Ended(2, b"", b"thpsplit: bad underused\n")
    yield Case("a list of 30,000 thresholds", Call(("--underused", orders)), bad_underused)


def long_words() -> Iterator[Case]:
    """Command lines with a word of 100,000 bytes. A word that is unexpected, or no value of its option, is shown whole."""
    word, digits = "z" * 100_000, "9" * 100_000
    yield unread("a word of 100,000 bytes", (word,), usage.unexpected(word))
    yield unread("a word of 100,000 bytes after --check", ("--check", word), usage.unexpected(word))
    yield unread("an option of 100,000 bytes", (f"--{word}",), usage.unexpected(f"--{word}"))
    yield unread("100,000 short options", (f"-{word}",), usage.unexpected("-z"))
    yield unread("a report of 100,000 bytes", (f"--report={word}",), usage.no_report(word))
    for name in usage.MOST:
        large, none = "number too large to fit in target type", "invalid digit found in string"
        yield unread(f"100,000 digits of --{name}", (f"--{name}", digits), usage.no_number(name, digits, large))
        yield unread(f"100,000 letters of --{name}", (f"--{name}", word), usage.no_number(name, word, none))
    for name in ("orders", "underused"):
        yield unread(f"100,000 letters of --{name}", (f"--{name}", word), f"thpsplit: bad {name}\n".encode())


PARTS: tuple[Callable[[], Iterator[Case]], ...] = (
    long_lines, many_commands, most_commands, many_scans, late_faults, many_pages, long_journals, just_so_long, split_apart,
    largest_check, many_words, long_words,
)

PINNED_PAGES = 5
"""The number of pages of each of 8 nodes that are pinned and unpinned."""

PINS = 2_000_000
"""Pins and unpins of all pages, none of which is refused."""

SETUP_BYTES = 16 * 2**20
"""The greatest address space that setup may use for them: their effect is in the nodes' counts, and no list contains them."""

WORKER_BYTES = 64 * 2**20
"""The memory that the program may use for two million commands of a worker, which take 32 bytes each until they are executed. A list
of their events would not fit."""

MEASURED = """
import os, sys
child = os.posix_spawn(sys.argv[2], sys.argv[2:], os.environ)
_, status, usage = os.wait4(child, 0)
with open(sys.argv[1], "w") as file:
    print(usage.ru_maxrss, file=file)
sys.exit(os.waitstatus_to_exitcode(status))
"""
"""Runs a program from a small process, and writes the most memory that it used, in KiB. A child is counted with its parent's memory
at its start, so a large parent can't measure it."""


def pins_and_unpins() -> tuple[str, bytes, bytes]:
    """Two million pins and unpins on 8 nodes: the lines that allocate their pages, those of pins and unpins, and the totals."""
    places = [(node, page) for node in range(NODES) for page in range(PINNED_PAGES)]
    turns = PINS // len(places) // 25
    lines = b"".join((b"pin %d %d\n" % it * 21 + b"unpin %d %d\n" % it * 4) * turns for it in places)
    assert lines.count(b"\n") == PINS and 17 * turns <= MOST_PINS
    made = "".join(f"alloc {node}\n" for node, _ in places)
    report = b"".join(totals(node, pages=PINNED_PAGES, frames_held=PINNED_PAGES * SIZE) for node in range(NODES))
    return made, lines, report


def setup_keeps_nothing(program: Path) -> Optional[str]:
    """Two million pins and unpins of setup use no memory of their own."""
    made, lines, report = pins_and_unpins()
    call = Call(words("--nodes 8"), b"setup\n" + made.encode() + lines, memory=SETUP_BYTES)
    return run(program, call).differs_from(Ended(0, report))


def worker_keeps_commands(program: Path) -> Optional[str]:
    """Two million pins and unpins of a worker use the memory of its commands only."""
    made, lines, report = pins_and_unpins()
    with tempfile.TemporaryDirectory() as folder:
        given, reported = Path(folder) / "script", Path(folder) / "most"
        given.write_bytes(f"setup\n{made}worker 1\n".encode() + lines)
        called = [sys.executable, "-IS", "-c", MEASURED, str(reported), str(program), *words("--nodes 8")]
        with given.open("rb") as script:
            done = subprocess.run(called, stdin=script, capture_output=True, timeout=SECONDS, check=False)
        wrong = Ended(done.returncode, done.stdout, done.stderr).differs_from(Ended(0, report))
        most = int(reported.read_text()) * 1024
    return wrong or (None if most <= WORKER_BYTES else f"{most} bytes were held, more than {WORKER_BYTES}")


TURNS = 60
"""The number of times that each worker of the crowd allocates, takes, and splits a page of each node."""


def crowd_script() -> bytes:
    """63 workers, each of whom works on all 8 nodes. A page without writes is queued once it is allocated."""
    turn = [f"{word} {node}" for node in range(NODES) for word in ("alloc", "take", "splitnext", "putback", "count")]
    own = "".join(f"{line} 1\n" if line.startswith("take") else f"{line}\n" for line in turn) * TURNS
    return "".join(f"worker {worker}\n{own}" for worker in range(1, MOST_WORKERS + 1)).encode()


def crowd(program: Path) -> Optional[str]:
    """63 workers on 8 nodes: each page is taken and split once, whoever does it, and the journal is legal."""
    script, pages = crowd_script(), MOST_WORKERS * TURNS
    options = (*words("--nodes 8 --blocks 4096 --workers 63 --underused"), ",".join("0" * NODES))
    counts = {"pages": pages, "frames_given": SIZE * pages, "thp_split_page": pages, "thp_split_pmd": pages}
    underused = "thp_underused_split_page"
    wanted = b"".join(totals(node, underused, **{**counts, underused: pages}) for node in range(NODES))
    wrong = run(program, Call(options, script)).differs_from(Ended(0, wanted))
    return wrong or crowd_answers(program, options, script, pages) or crowd_journal(program, options, script, pages)


def crowd_answers(program: Path, options: tuple[str, ...], script: bytes, pages: int) -> Optional[str]:
    """Each worker's answers are complete and in order; on each node each page was allocated once, and split once."""
    reported = run(program, Call((*options, "--report", "answers"), script))
    answers = [line.split(" ", 2) for line in reported.output.decode().splitlines()]
    commands = [line.split(" ") for line in script.decode().splitlines() if not line.startswith("worker")]
    each = len(commands) // MOST_WORKERS
    places = [[str(worker), str(place)] for worker in range(1, MOST_WORKERS + 1) for place in range(1, each + 1)]
    if (reported.status, reported.errors) != (0, b"") or [answer[:2] for answer in answers] != places:
        return f"answers: status {reported.status}, {reported.errors!r}, {len(answers)} answers"
    for node in range(NODES):
        own = [answer[2] for answer, command in zip(answers, commands) if command[1] == str(node)]
        for word in ("page", "split"):
            if sorted(int(answer[len(word) :]) for answer in own if answer.startswith(word)) != list(range(pages)):
                return f"answers: on node {node} not each page is reported once by '{word}'"
    return None


def crowd_journal(program: Path, options: tuple[str, ...], script: bytes, pages: int) -> Optional[str]:
    """The journal has the events of all workers, and is legal."""
    reported = run(program, Call((*options, "--report", "journal"), script))
    callers = {line.split(b" ", 1)[0] for line in reported.output.splitlines()} - {b"thp-journal", b"node", b"end"}
    count = reported.output.count(b"\n") - NODES - 2
    if reported.status or len(callers) != MOST_WORKERS or count != 3 * pages * NODES:
        return f"journal: status {reported.status}, {len(callers)} callers, {count} events"
    return run(program, Call(CHECK, reported.output)).differs_from(LEGAL)


ALONE: dict[str, Callable[[Path], Optional[str]]] = {
    "two million pins and unpins of setup, in 16 MiB": setup_keeps_nothing,
    "two million pins and unpins of a worker, in 64 MiB": worker_keeps_commands,
    "63 workers on 8 nodes": crowd,
}
"""What is more than a call."""


class Large(ProgramCase):
    """Each call has the expected result."""

    def check_part(self, part: Callable[[], Iterator[Case]]) -> None:
        """Makes the calls of a part one by one: together, their texts would take gigabytes."""
        for case in part():
            with self.subTest(case.name):
                self.assertIsNone(case.wrong(self.program))

    def check_alone(self, check: Callable[[Path], Optional[str]]) -> Optional[str]:
        """Returns what is wrong with the program, or None."""
        return check(self.program)


add_tests(Large, Large.check_part, ((part.__name__, part) for part in PARTS))
add_tests(Large, Large.check_alone, ALONE.items())
