"""The built program `thpcheck` from outside: each exit status, with the exact bytes of each stream."""

from __future__ import annotations

from dataclasses import replace
from functools import partial
from typing import Iterator, Optional, Sequence, Union

import faulty_texts
import progress
import usage
from explanations import EXPLAINED, Explained
from faulty_texts import ONE
from fixtures import ProgramCase, add_tests
from outside import FEW_BYTES, FIRST, FIRST_JOURNAL, FIRST_TOTALS, ILLEGAL, LEGAL, LOST, STORED, Row, fails_with
from process import Call, Ended, Sink, Source
from script import first_illegal, summary
from texts import LARGE, MOST_BYTES, SMALL

HELP = (STORED / "checker_help.txt").read_bytes()
VERSION = (STORED / "checker_version.txt").read_bytes()
IS_LEGAL = Ended(0, b"legal\n")
READ_FAILED = Ended(3, b"", b"thpcheck: read failed\n")
WRITE_FAILED = Ended(3, b"", b"thpcheck: write failed\n")
NO_MEMORY = Ended(3, b"", b"thpcheck: out of memory\n")
HEAD = b"thp-journal 1\nnode 0 blocks 16\n0 alloc 0\n"
ROUND = b"0 pin 0\n0 unpin 0 stays -\n"
"""Two events that leave the page unchanged."""

ROUNDS = MOST_BYTES // len(ROUND) + 1
"""The number of rounds with more bytes than `thpsplit --check` reads."""

LONG = HEAD + ROUND * ROUNDS
ONE_PAGE = (
    b"node 0\npages 1\nqueue 0\nframes_held 512\nframes_given 0\n"
    b"thp_split_page 0\nthp_split_page_failed 0\nthp_deferred_split_page 0\nthp_split_pmd 0\n"
)
"""The totals of the long journal."""

SEVERAL = (
    b"thp-journal 3\nnode 0 blocks 2 order 2 underused off\n0 alloc 0\n0 alloc 0\n0 alloc 1\n"
    b"node 1 blocks 2 order 2 underused 1\n0 alloc 0\n0 taken 0\n0 split 0 0-3\n"
    b"node 2 blocks 2 order 3 underused off\n0 alloc 0\n0 unmapwhole 0 freed 0-7\n0 pin 0\n0 alloc 1\n"
    b"node 3 blocks 1 order 9 underused off\nend\n"
)
"""Four nodes: two have an illegal event with others after it, one splits an underused page, one has no event."""

BEHIND = 3 + 2 * ROUNDS + 1
"""The line after the long journal's last event."""


EXPLAIN = ("--explain",)
SUMMARY = ("--summary",)
SCRIPT = ("--script",)
FLAGS = ("--explain", "--summary", "--progress", "--script")


def is_illegal(line: int, errors: bytes = b"") -> Ended:
    """The verdict on a journal whose first illegal event is on this line, and further expected output."""
    return Ended(1, f"illegal line {line}\n".encode(), errors)


def fault(line: int, word: str) -> Ended:
    """A text with an error."""
    return Ended(2, b"", f"thpcheck: line {line}: {word}\n".encode())


def verdicts() -> Iterator[Row]:
    """Legal and illegal journals."""
    for source in (Source.FILE, Source.PIPE):
        name = source.name.lower()
        yield Row("verdicts", f"legal, {name}", Call((), LEGAL, source), IS_LEGAL)
        yield Row("verdicts", f"illegal, {name}", Call((), ILLEGAL, source), is_illegal(7))
    for text, line in faulty_texts.ILLEGAL:
        yield Row("verdicts", repr(text[-60:]), Call((), text + b"end\n"), is_illegal(line))


def explanations() -> Iterator[Row]:
    """Each illegal event explained, the first of the text only; other journals have no explanation."""
    for row in EXPLAINED:
        line = row.text.count(b"\n")
        yield Row("explain", repr(row.text[-60:]), Call(EXPLAIN, row.text + b"end\n"), is_illegal(line, row.lines()))
        yield Row("explain", f"not asked for: {row.text[-60:]!r}", Call((), row.text + b"end\n"), is_illegal(line))
    row = EXPLAINED[0]
    reported = row.lines()
    more = row.text + b"0 alloc 7\nnode 1 blocks 1\n0 alloc 7\nend\n"
    yield Row("explain", "others illegal behind it", Call(EXPLAIN, more, Source.PIPE), is_illegal(3, reported))
    yield Row("explain", "legal", Call(EXPLAIN, LEGAL), IS_LEGAL)
    yield Row("explain", "a fault", Call(EXPLAIN, b"fly\n"), fault(1, "bad-word"))
    yield Row("explain", "a fault behind an illegal event", Call(EXPLAIN, row.text + b"fly\n"), fault(4, "bad-word"))
    yield Row("explain", "cut behind an illegal event", Call(EXPLAIN, row.text), fault(4, "cut"))
    yield Row("explain", "no input", Call(EXPLAIN, source=Source.CLOSED), READ_FAILED)
    for sink in LOST:
        name = sink.name.lower()
        text = row.text + b"end\n"
        yield Row("explain", f"standard output {name}", Call(EXPLAIN, text, output=sink), WRITE_FAILED)
        yield Row("explain", f"standard error {name}", Call(EXPLAIN, text, errors=sink), is_illegal(3))


def summaries() -> Iterator[Row]:
    """The totals of each node up to its first illegal event, after the verdict."""
    totals = IS_LEGAL.output + FIRST_TOTALS
    for source in (Source.FILE, Source.PIPE):
        yield Row("summary", f"the first script's journal, {source.name.lower()}", Call(SUMMARY, FIRST_JOURNAL, source), Ended(0, totals))
    for text in (LEGAL, *(row.text + b"end\n" for row in EXPLAINED), SEVERAL):
        yield Row("summary", repr(text[-60:]), Call(SUMMARY, text), partial(summed, text))
    both = SUMMARY + EXPLAIN
    for row in EXPLAINED[:3]:
        text = row.text + b"end\n"
        yield Row("summary", f"explained, too: {text[-60:]!r}", Call(both, text), partial(summed, text, row.lines()))
    yield Row("summary", "a fault behind an illegal event", Call(SUMMARY, EXPLAINED[0].text + b"fly\n"), fault(4, "bad-word"))
    for sink in LOST:
        yield Row("summary", f"standard output {sink.name.lower()}", Call(SUMMARY, LEGAL, output=sink), WRITE_FAILED)


SCRIPTS = (
    ("a call in a batch", "0 alloc 0|0 splitpmd 0|0 unmapsub 0 0 256 queued -|0 taken 0|0 pin 0|0 pinned 0|0 back 0",
     "alloc 0|splitpmd 0 0|unmap 0 0 0 256|take 0 1|pin 0 0|splitnext 0|putback 0", b""),
    ("a put-back without a try", "0 alloc 0|0 splitpmd 0|0 unmapsub 0 0 256 queued -|0 taken 0|0 back 0|0 close",
     "alloc 0|splitpmd 0 0|unmap 0 0 0 256|take 0 1|putback 0|close 0", b""),
    ("a scan that finds a pin", "3 alloc 0|0 splitpmd 0|0 unmapsub 0 0 256 queued -|5 pin 0|7 taken 0|7 pinned 0|7 back 0",
     "alloc 0|splitpmd 0 0|unmap 0 0 0 256|pin 0 0|scan 0 1", b""),
    ("a batch left open", "0 alloc 0|0 splitpmd 0|0 unmapsub 0 0 256 queued -|0 taken 0",
     "alloc 0|splitpmd 0 0|unmap 0 0 0 256|take 0 1|putback 0", b"thpcheck: 1 page put back at the end\n"),
    ("two batches at once", "0 alloc 0|0 alloc 1|0 splitpmd 0|0 splitpmd 1|0 unmapsub 0 0 1 queued -|0 unmapsub 1 0 1 queued -|"
     "1 taken 0|2 taken 1|0 pin 1|2 pinned 1|1 split 0 0|2 back 1|0 unpin 1 stays -",
     "alloc 0|alloc 0|splitpmd 0 0|splitpmd 0 1|unmap 0 0 0 1|unmap 0 1 0 1|"
     "take 0 1|pin 0 1|splitnext 0|putback 0|scan 0 1|unpin 0 1",
     b"thpcheck: 1 batch moved after the one that was open\nthpcheck: 1 call moved before a scan that it interrupted\n"
     b"thpcheck: 3 takes, tries and put-backs left to scans\n"),
)
"""Events and commands, each followed by `|` except the last, and what standard error gets."""

OPTIONS_OF_ONE = b"# thpsplit --nodes 1 --blocks 16 --orders 9 --underused off\nsetup\n"
"""The first lines of a script for a node."""


def scripts() -> Iterator[Row]:
    """The scripts that repeat journals."""
    first = OPTIONS_OF_ONE + b"alloc 0\nsplitpmd 0 0\nunmap 0 0 0 256\nscan 0 1\n"
    for source in (Source.FILE, Source.PIPE):
        yield Row("script", f"the first journal, {source.name.lower()}", Call(SCRIPT, FIRST_JOURNAL, source), Ended(0, first))
    for name, events, commands, errors in SCRIPTS:
        text = b"".join(line.encode() + b"\n" for line in ("thp-journal 1|node 0 blocks 16|" + events + "|end").split("|"))
        wanted = OPTIONS_OF_ONE + b"".join(line.encode() + b"\n" for line in commands.split("|"))
        yield Row("script", name, Call(SCRIPT, text), Ended(0, wanted, errors))
    nodes = b"thp-journal 3\nnode 0 blocks 2 order 2 underused off\nnode 1 blocks 3 order 9 underused 7\n0 alloc 0\nend\n"
    wanted = (b"# thpsplit --nodes 1 --blocks 2 --orders 2 --underused off\nsetup\n"
              b"# thpsplit --nodes 2 --blocks 3 --orders 2,9 --underused off,7\nalloc 1\n")
    yield Row("script", "two nodes", Call(SCRIPT, nodes), Ended(0, wanted))
    row = EXPLAINED[0]
    text = row.text + b"end\n"
    reported = b"thpcheck: illegal line 3\n"
    front = checked_front(row.text)
    yield Row("script", "illegal", Call(SCRIPT, text), Ended(1, front, reported))
    yield Row("script", "illegal, explained", Call(SCRIPT + EXPLAIN, text), Ended(1, front, reported + row.lines()))
    late = replace(fault(4, "bad-word"), output=front)
    yield Row("script", "a fault behind an illegal event", Call(SCRIPT, row.text + b"fly\n"), late)
    yield Row("script", "a fault", Call(SCRIPT, b"fly\n"), fault(1, "bad-word"))
    yield Row("script", "other flags", Call(SCRIPT + SUMMARY + ("--progress",), FIRST_JOURNAL), Ended(0, first))
    yield Row("script", "no input", Call(SCRIPT, source=Source.CLOSED), READ_FAILED)
    for sink in LOST:
        yield Row("script", f"standard output {sink.name.lower()}", Call(SCRIPT, LEGAL, output=sink), WRITE_FAILED)


def nodes_of(blocks: Sequence[int], caller: int = 0, beyond: bytes = b"") -> bytes:
    """A journal of version 4 of nodes with so many blocks, on each of which a caller allocates a page; and further lines before its end."""
    lines = [b"node %d blocks %d order 9 underused off\n%d alloc 0\n" % (at, count, caller) for at, count in enumerate(blocks)]
    return b"".join([b"thp-journal 4\n", *lines, beyond, b"end\n"])


def script_of(blocks: Sequence[int]) -> bytes:
    """The script of such a journal."""
    script = b""
    for at in range(len(blocks)):
        lists = b",".join([b"9"] * (at + 1)), b",".join([b"off"] * (at + 1))
        script += b"# thpsplit --nodes %d --blocks %d --orders %b --underused %b\n" % (at + 1, max(blocks[:at + 1]), *lists)
        script += b"alloc %d\n" % at if at else b"setup\nalloc 0\n"
    return script


MOST_NODES = [1] * (SMALL.node + 1)
"""The blocks of each node of a script with the most nodes."""

BEYOND: tuple[tuple[list[int], int], ...] = (
    (MOST_NODES, 1), ([], SMALL.blocks + 1), ([], LARGE.blocks), ([1, 1], SMALL.blocks + 1), (MOST_NODES, LARGE.blocks),
)
"""The blocks of nodes that a script can have, and those of a node after them that no script can have."""


def script_limits() -> Iterator[Row]:
    """Journals of version 4 whose numbers are the greatest that scripts have, or greater ones: the first such node is an error."""
    for caller in (SMALL.caller, SMALL.caller + 1, LARGE.caller):
        yield Row("script limits", f"caller {caller}", Call(SCRIPT, nodes_of([1], caller)), Ended(0, script_of([1])))
    for blocks in (MOST_NODES, [SMALL.blocks], [1, SMALL.blocks], [SMALL.blocks] * len(MOST_NODES)):
        yield Row("script limits", f"blocks {blocks}", Call(SCRIPT, nodes_of(blocks)), Ended(0, script_of(blocks)))
    for front, most in BEYOND:
        text, name = nodes_of([*front, most]), f"blocks {most} after {front}"
        wanted = after(script_of(front), 2 + 2 * len(front))
        for source in (Source.FILE, Source.PIPE):
            yield Row("script limits", f"{name}, {source.name.lower()}", Call(SCRIPT, text, source), wanted)
        yield Row("script limits", f"{name}, explained", Call(SCRIPT + EXPLAIN, text), wanted)
        yield Row("script limits", f"{name}, without --script", Call((), text), IS_LEGAL)
    text, wanted = nodes_of([1] * (LARGE.node + 1)), after(script_of(MOST_NODES), 2 + 2 * len(MOST_NODES))
    yield Row("script limits", "65,536 nodes", Call(SCRIPT, text), wanted)
    yield from late_limits()


def late_limits() -> Iterator[Row]:
    """Such a node after other events, before or after an error of the text, and one that isn't the next node."""
    script, beyond = script_of([1]), b"node 1 blocks %d order 9 underused off\n" % (SMALL.blocks + 1)
    queued = b"0 splitpmd 0\n0 unmapsub 0 0 256 queued -\n0 taken 0\n"
    commands = script + b"splitpmd 0 0\nunmap 0 0 0 256\n"
    yield limit_row("after an illegal event", b"0 alloc 0\n" + beyond, after(script, 5))
    yield limit_row("after a batch", queued + beyond, after(commands, 7))
    yield limit_row("after a batch that has ended", queued + b"0 split 0 0-255\n" + beyond, after(commands + b"scan 0 1\n", 8))
    yield limit_row("before an error of the text", beyond + b"fly\n", after(script, 4))
    yield limit_row("after an error of the text", b"fly\n" + beyond, after(script, 4, "bad-word"))
    for number, word in ((SMALL.node, "bad-order"), (SMALL.node + 1, "bad-number")):
        line = b"node %d blocks 1 order 9 underused off\n" % number
        yield limit_row(f"node {number} after node 0", line, after(script, 4, word))


def limit_row(name: str, beyond: bytes, wanted: Ended) -> Row:
    """What `--script` does for a journal of one node and further lines."""
    return Row("script limits", name, Call(SCRIPT, nodes_of([1], 0, beyond)), wanted)


def after(script: bytes, line: int, word: str = "bad-number") -> Ended:
    """An error after a script was written."""
    return replace(fault(line, word), output=script)


def checked_front(text: bytes) -> bytes:
    """The first lines of the script of a journal whose first event is illegal."""
    blocks = text.split(b"\n")[1].split()[3]
    return OPTIONS_OF_ONE.replace(b"blocks 16", b"blocks " + blocks)


def summed(text: bytes, errors: bytes = b"") -> Ended:
    """The verdict on a journal without an error with the totals of its nodes, by a plain reading of the model, and what standard error
    gets."""
    lines = text.decode().splitlines()
    line = first_illegal(lines)
    totals = "".join(f"{it}\n" for it in summary(lines)).encode()
    verdict = IS_LEGAL if line is None else is_illegal(line)
    return Ended(verdict.status, verdict.output + totals, errors)


def faults() -> Iterator[Row]:
    """Each error of a journal, also after an illegal event; and a script is not a journal."""
    for text, line, word in faulty_texts.JOURNALS + faulty_texts.LARGE_JOURNALS:
        yield Row("faults", repr(text[-60:]), Call((), text), fault(line, word))
    for text, line in faulty_texts.ILLEGAL:
        lines = text.count(b"\n")
        yield Row("faults", f"illegal, then a fault: {text[-60:]!r}", Call((), text + b"fly\n"), fault(lines + 1, "bad-word"))
        yield Row("faults", f"illegal, then cut: {text[-60:]!r}", Call((), text), fault(lines + 1, "cut"))
    yield Row("faults", "a script", Call((), FIRST), fault(1, "bad-word"))


def long_journals() -> Iterator[Row]:
    """Journals of more than 16 MiB, in memory that does not grow with them."""
    legal = Call((), LONG + b"end\n", memory=FEW_BYTES)
    for source in (Source.FILE, Source.PIPE):
        yield Row("long", f"legal, {source.name.lower()}", replace(legal, source=source), IS_LEGAL)
    yield Row("long", "legal, --summary", replace(legal, words=SUMMARY), Ended(0, b"legal\n" + ONE_PAGE))
    rounds = OPTIONS_OF_ONE + b"alloc 0\n" + b"pin 0 0\nunpin 0 0\n" * ROUNDS
    yield Row("long", "legal, --script", replace(legal, words=SCRIPT), Ended(0, rounds))
    illegal = LONG + b"0 unpin 0 stays -\n"
    yield Row("long", "illegal behind 16 MiB", Call((), illegal + b"end\n", memory=FEW_BYTES), is_illegal(BEHIND))
    yield Row("long", "a fault behind 16 MiB", Call((), LONG + b"fly\n"), fault(BEHIND, "bad-word"))
    yield Row("long", "no end behind 16 MiB", Call((), LONG), fault(BEHIND, "cut"))
    yield Row("long", "a fault behind an illegal event", Call((), illegal + b"fly\n"), fault(BEHIND + 1, "bad-word"))
    yield Row("long", "a byte 0 behind the end", Call((), LONG + b"end\n\0\n"), fault(BEHIND + 1, "bad-byte"))
    line = b"#" * (MOST_BYTES + 1)
    yield Row("long", "a line of more than 16 MiB, cut", Call((), line), fault(1, "cut"))
    yield Row("long", "a line of more than 16 MiB", Call((), line + b"\n"), fault(1, "bad-word"))
    yield Row("long", "a line without an end", Call((), source=Source.ENDLESS, memory=FEW_BYTES), NO_MEMORY)


def many_nodes() -> Iterator[Row]:
    """Journals with as many nodes as a text can have, which is 8, each with 5,000 pages and more; and with 5,000 nodes."""
    blocks, most_nodes, freed = 4_096, 8, 1_000
    lines, totals = [b"thp-journal 1\n"], b""
    for node in range(most_nodes):
        pages = 5_000 + node
        lines.append(b"node %d blocks %d\n" % (node, blocks))
        lines += [b"0 alloc %d\n0 unmapwhole %d freed 0-511\n" % (page, page) for page in range(freed)]
        lines += [b"%d alloc %d\n" % (node, page) for page in range(freed, pages)]
        numbers = {b"pages 1": pages, b"frames_held 512": 512 * (pages - freed), b"frames_given 0": 512 * freed}
        own = ONE_PAGE.replace(b"node 0", b"node %d" % node)
        for line, number in numbers.items():
            own = own.replace(line, b"%s %d" % (line.split()[0], number))
        totals += own
    text = b"".join(lines)
    end, whole = text.count(b"\n") + 1, b"".join((text, b"end\n"))
    yield Row("nodes", "8 nodes of 5,000 pages", Call((), whole), IS_LEGAL)
    yield Row("nodes", "8 nodes of 5,000 pages, --summary", Call(SUMMARY, whole, memory=FEW_BYTES), Ended(0, b"legal\n" + totals))
    late = Call(SUMMARY, text + b"0 pin 0\nend\n", Source.PIPE)
    yield Row("nodes", "the last event illegal, --summary", late, Ended(1, b"illegal line %d\n" % end + totals))
    for first in (most_nodes, most_nodes + 1):
        call = Call(SUMMARY, text + b"node %d blocks 1\nend\n" % first)
        yield Row("nodes", f"a node {first} after 8", call, fault(end, "bad-number"))
    text = b"".join(b"node %d blocks 1\n0 alloc 0\n" % node for node in range(5_000))
    for words in ((), SUMMARY, EXPLAIN):
        call = Call(words, b"thp-journal 1\n" + text + b"end\n")
        yield Row("nodes", f"5,000 nodes, {' '.join(words) or 'no words'}", call, fault(2 + 2 * most_nodes, "bad-number"))


def requests() -> Iterator[Row]:
    """Help, version, and words with errors: no input is read."""
    for word, output in {"--help": HELP, "-h": HELP, "--version": VERSION, "-V": VERSION}.items():
        yield Row("words", word, Call((word,), b"fly\n", untouched=True), Ended(0, output))
        yield Row("words", f"{word}, /dev/full", Call((word,), output=Sink.FULL), WRITE_FAILED)
    for word in ("zzz", "--zzz", "-z", "--check", "--nodes", "my.journal", "\u00e9", ""):
        yield at_fault((word,), f"unexpected argument '{word}' found")
    for flag in FLAGS:
        yield at_fault((flag, flag), f"the argument '{flag}' cannot be used multiple times")
        yield at_fault((f"{flag}=1",), f"unexpected value '1' for '{flag}' found; no more were expected", flag)
        yield at_fault((flag, "x"), "unexpected argument 'x' found")
    yield Row("words", "a word that isn't UTF-8", Call((b"\xff",), b"fly\n", untouched=True), fails_with(usage.NOT_TEXT))


def at_fault(words: tuple[str, ...], fault: str, named: str = "[OPTIONS]") -> Row:
    """Words that the command does not accept, and the messages of `clap` about them."""
    text = f"error: {fault}\n\nUsage: thpcheck {named}{usage.TRY}".encode()
    return Row("words", " ".join(words) or repr(""), Call(words, b"fly\n", untouched=True), fails_with(text))


def failures() -> Iterator[Row]:
    """Streams that fail."""
    for source in (Source.FOLDER, Source.CLOSED):
        yield Row("streams", f"input {source.name.lower()}", Call(source=source), READ_FAILED)
    for sink in LOST:
        name = sink.name.lower()
        yield Row("streams", f"legal, standard output {name}", Call((), LEGAL, output=sink), WRITE_FAILED)
        yield Row("streams", f"illegal, standard output {name}", Call((), ILLEGAL, output=sink), WRITE_FAILED)
        yield Row("streams", f"illegal, standard error {name}", Call((), ILLEGAL, errors=sink), is_illegal(7))
        yield Row("streams", f"a fault, standard error {name}", Call((), b"fly\n", errors=sink), Ended(2))


def shown() -> Iterator[progress.Shown | progress.Slow]:
    """The progress, on standard error."""
    row = Explained(ONE + b"0 alloc 0\n" + b"0 pin 0\n" * 3 + b"0 alloc 1\n", (), b"page 1 has no free block")
    yield from progress.rows(LEGAL, LONG + b"end\n", row.text + b"end\n", row.lines())


class Checker(ProgramCase):
    """Each call has the expected result."""

    variable = "THPCHECK"

    def check(self, row: Union[Row, progress.Shown, progress.Slow]) -> Optional[str]:
        """Returns what is wrong when the program makes a call, or None."""
        return row.wrong(self.program)

    def test_journals_of_more_than_16_mib(self) -> None:
        """Each of them is made when it is needed."""
        for row in long_journals():
            with self.subTest(row.name):
                self.assertIsNone(self.check(row))


for part in (verdicts, explanations, summaries, scripts, script_limits, faults, many_nodes, requests, failures, shown):
    add_tests(Checker, Checker.check, ((f"{row.group}: {row.name}", row) for row in part()))
