"""The built program `thpdraw` from outside: each exit status, with the exact bytes of each stream.

Tables are compared with those of tests/tables.py, a plain reading of the model. Pictures must be well-formed, contain only known
elements and letters, and name each illegal event; those in docs/pictures are compared byte for byte.
"""

from __future__ import annotations

import math
import re
from dataclasses import dataclass
from functools import partial
from itertools import combinations, groupby
from pathlib import Path
from typing import Callable, Iterator, Optional, Union
from xml.etree import ElementTree

import faulty_texts
import usage
from fixtures import ProgramCase, add_tests
from model import Node
from outside import FEW_BYTES, FIRST, FIRST_JOURNAL, ILLEGAL, LEGAL, LOST, ROOT, STORED, Row, fails_with
from process import Call, Ended, Sink, Source, run
from progress import ASKED, Shown, lines
from tables import Drawn, Waits, drawn_nodes, numbers, table, table_of
from test_checker import BEHIND, LONG, ROUNDS, SEVERAL

HELP = (STORED / "drawer_help.txt").read_bytes()
VERSION = (STORED / "drawer_version.txt").read_bytes()
READ_FAILED = Ended(3, b"", b"thpdraw: read failed\n")
WRITE_FAILED = Ended(3, b"", b"thpdraw: write failed\n")
NO_MEMORY = Ended(3, b"", b"thpdraw: out of memory\n")
TABLE = ("--table",)
FLAGS = ("--table", "--progress")
NAME = b"thpdraw"


def fault(line: int, word: str) -> Ended:
    """A text with an error."""
    return Ended(2, b"", f"thpdraw: line {line}: {word}\n".encode())


def name_group(group: str, words: tuple[str, ...]) -> str:
    """Returns the name of the calls of a group with these words."""
    return " ".join((group, *words))


def drawn() -> Iterator[Row]:
    """Tables of legal and illegal journals: those in examples/, of several nodes, and of single illegal events."""
    for path in sorted((ROOT / "examples").glob("*.journal")):
        text = path.read_bytes()
        for source in (Source.FILE, Source.PIPE):
            yield Row("tables", f"{path.name}, {source.name.lower()}", Call(TABLE, text, source), partial(table, text))
    for name, text in {"the first script's": FIRST_JOURNAL, "several nodes": SEVERAL}.items():
        yield Row("tables", name, Call(TABLE, text), partial(table, text))
    for text, _ in faulty_texts.ILLEGAL:
        yield Row("tables", repr(text[-60:]), Call(TABLE, text + b"end\n"), partial(table, text + b"end\n"))


def long_table() -> Ended:
    """The table of the long journal: a page is allocated, and the rounds of two events leave all numbers unchanged."""
    node, waits = Node(16), Waits()
    first = numbers(node, waits)
    node.alloc(0)
    return table_of([Drawn(node, waits, [first] + [numbers(node, waits)] * (1 + 2 * ROUNDS))])


SVG = "{http://www.w3.org/2000/svg}"
ELEMENTS = {f"{SVG}{name}" for name in ("svg", "style", "g", "rect", "path", "text", "title", "desc")}
"""The elements of pictures: nothing that runs, loads or links."""

WIDE = 7200
"""The width of a picture, in its own units."""


LEAST_CONTRAST, LEAST_STEP = 3.0, 1.3
"""The least contrast of a state's colour with the ground, and with that of each other state, which is a difference in lightness."""


def luminance(colour: str) -> float:
    """The relative luminance of a colour, as WCAG 2 defines it."""
    parts = [int(colour[at : at + 2], 16) / 255 for at in (1, 3, 5)]
    red, green, blue = (part / 12.92 if part <= 0.04045 else math.pow((part + 0.055) / 1.055, 2.4) for part in parts)
    return 0.2126 * red + 0.7152 * green + 0.0722 * blue


def contrast(one: str, other: str) -> float:
    """The contrast of two colours, from 1 to 21."""
    low, high = sorted((luminance(one), luminance(other)))
    return (high + 0.05) / (low + 0.05)


def indistinct(style: str) -> list[str]:
    """The colours of states that differ too little in lightness from each other, or from the ground, on a light and a dark one."""
    wrong = []
    for rules in style.split("@media"):
        states, ground = re.findall(r"\.(s\d)\{color:(#\w{6})\}", rules), re.findall(r"\.bg\{fill:(#\w{6})\}", rules)[0]
        wrong += [] if len(states) == 5 else [f"{len(states)} states"]
        wrong += [f"{name} on {ground}" for name, colour in states if contrast(colour, ground) < LEAST_CONTRAST]
        pairs = [(one[0], other[0]) for one, other in combinations(states, 2) if contrast(one[1], other[1]) < LEAST_STEP]
        wrong += [f"{one} and {other} on {ground}" for one, other in pairs]
    return wrong


def described(root: ElementTree.Element) -> bool:
    """Whether a picture is an image whose name and description are its first elements."""
    first = [(it.tag.removeprefix(SVG), it.get("id"), bool(it.text)) for it in root[:2]]
    own = (root.get("role"), root.get("aria-labelledby"))
    return first == [("title", "title", True), ("desc", "desc", True)] and own == ("img", "title desc")


def shortened(event: str) -> str:
    """An event as a picture shows it: the beginning of one that is longer than 70 letters."""
    return event if len(event) <= 70 else f"{event[:67]} .."


FEW_ROWS, MOST_ROWS, MANY_PAGES, MOST_TURNS = 24, 60, 1000, 4000
"""Up to this many rows of pages are spaced widely; more rows, and bars that begin and end more often, are not drawn. Of many pages,
the first have rows."""

MOST_BYTES = 2_000_000
"""No picture has more bytes."""


def bars(drawn: Drawn) -> list[str]:
    """The paths of the bars in a node's rows, stage by stage, according to its table; none if it has no rows."""
    width, end = drawn.width(), len(drawn.prefixes)
    letters = [drawn.prefixes[min(first + width, end) - 1].letters for first in range(0, end, width)]
    count = MOST_ROWS if drawn.node.allocated > MANY_PAGES else drawn.node.allocated
    if not 1 <= count <= MOST_ROWS:
        return []
    place = [6000 * column // len(letters) for column in range(len(letters) + 1)]
    high = 140 if count <= FEW_ROWS else 90
    paths = {letter: "" for letter in "amqbs"}
    for page in range(count):
        at = 0
        for letter, run_of in groupby(letters, key=lambda column: column[page]):
            first, at = at, at + len(list(run_of))
            if letter != "-":
                paths[letter] += f"M{place[first]} {high * page + high // 2}H{place[at]}"
    turns = sum(path.count("M") + path.count("H") for path in paths.values())
    ends = sum(path.count(f"H{place[-1]}") for path in paths.values())
    return [path for path in paths.values() if path] if turns - ends <= MOST_TURNS else []


@dataclass(frozen=True)
class Picture:
    """A journal, whose picture is checked."""

    name: str
    text: bytes
    source: Source = Source.FILE
    group: str = "pictures"

    def wrong(self, program: Path) -> Optional[str]:
        """What is wrong with the picture that the program draws, or with its end; or None."""
        ended = run(program, Call((), self.text, self.source))
        reported = Ended(ended.status, b"", ended.errors).differs_from(Ended(table(self.text).status))
        return reported or self.wrong_with(ended.output)

    def wrong_with(self, output: bytes) -> Optional[str]:
        """What is wrong with this picture, or None."""
        if len(output) > MOST_BYTES:
            return f"it has {len(output)} bytes"
        if re.fullmatch(rb"[\n\x20-\x7e]+\n", output) is None:
            return "it has other bytes than letters and line feeds"
        try:
            root = ElementTree.fromstring(output)
        except ElementTree.ParseError as error:
            return f"it isn't well-formed: {error}"
        other = {it.tag for it in root.iter()} - ELEMENTS
        if other:
            return f"it has {', '.join(sorted(other))}"
        left, top, wide, _ = map(int, root.get("viewBox", "0 0 0 0").split())
        if (root.tag, left, top, wide) != (f"{SVG}svg", 0, 0, WIDE):
            return f"it begins with {root.tag} and {root.get('viewBox')}"
        unclear = indistinct(root.findtext(f"{SVG}style", "")) + ([] if described(root) else ["it has no name or description"])
        if unclear:
            return f"it isn't clear: {', '.join(unclear)}"
        texts = " ".join(it.text or "" for it in root.iter(f"{SVG}text"))
        nodes = drawn_nodes(self.text.decode().split("\n")[:-1])
        found = [it.get("d") for it in root.iter(f"{SVG}path") if it.get("class", "").startswith("bar ") and it.get("d")]
        if found != [path for drawn in nodes for path in bars(drawn)]:
            return f"its bars are {found}"
        illegal = [drawn.illegal for drawn in nodes]
        wanted = [f"illegal line {line}: {shortened(event)}" for line, event in illegal if line != "-"]
        lacks = [words for words in wanted if words not in texts]
        return f"it doesn't say {lacks[0]}" if lacks else None


def pictures() -> Iterator[Picture]:
    """Pictures of the same journals as tables."""
    for path in sorted((ROOT / "examples").glob("*.journal")):
        for source in (Source.FILE, Source.PIPE):
            yield Picture(f"{path.name}, {source.name.lower()}", path.read_bytes(), source)
    for name, text in {"the first script's": FIRST_JOURNAL, "several nodes": SEVERAL}.items():
        yield Picture(name, text)
    yield Picture("more than 1,200 events", wide())
    for pages in (MANY_PAGES, MANY_PAGES + 1):
        yield Picture(f"{pages} pages", short_lives(pages))
    for text, _ in faulty_texts.ILLEGAL:
        yield Picture(repr(text[-60:]), text + b"end\n")


def short_lives(pages: int) -> bytes:
    """A journal of many pages, of which at most nine live at once."""
    lines = ["thp-journal 3", "node 0 blocks 16 order 2 underused off"]
    for page in range(pages):
        lines.append(f"0 alloc {page}")
        lines += [f"0 unmapwhole {page - 8} freed 0-3"] if page >= 8 else []
    return "\n".join([*lines, "end", ""]).encode()


def wide(pages: int = 240) -> bytes:
    """A journal of more than 1,200 events: pages that are queued, tried 15 or so at once, and freed later; a seventh is pinned."""
    lines = ["thp-journal 1", "node 0 blocks 256"]
    queue, split = [], []
    tries = {}
    for page in range(pages):
        caller = page // 8 % 5
        lines += [f"{caller} alloc {page}", f"{caller} splitpmd {page}", f"{caller} unmapsub {page} 256 256 queued -"]
        queue.append(page)
        if page % 7 == 3:
            lines.append(f"{caller} pin {page}")
            tries[page] = 0
        if page % 16 == 15:
            taken, queue = queue[: 12 + page % 5], queue[12 + page % 5 :]
            lines += [f"{caller} taken {it}" for it in taken]
            lines += [f"{caller} pinned {it}" if it in tries else f"{caller} split {it} 256-511" for it in taken]
            split += [it for it in taken if it not in tries]
            back = [it for it in taken if it in tries]
            lines += [f"{caller} back {it}" for it in back]
            queue += back
            for it in back:
                tries[it] += 1
                if tries[it] == 3:
                    del tries[it]
                    lines.append(f"{caller} unpin {it} stays -")
        if page % 3 == 0 and len(split) > 20:
            lines.append(f"{caller} unmapsub {split.pop(0)} 0 256 freed 0-255")
    return "\n".join([*lines, "end", ""]).encode()


def of_node(text: bytes, number: int) -> Ended:
    """The table of one node of a journal without errors: the lines with its number, and its own status."""
    whole = table(text).output.decode().splitlines()
    lines = [line for line in whole if line.startswith("#") or line.split("\t")[1] == str(number)]
    is_illegal = any(line.startswith("node\t") and not line.endswith("\t-") for line in lines)
    return Ended(int(is_illegal), "".join(f"{line}\n" for line in lines).encode())


def alone() -> Iterator[Row]:
    """Tables of one node: each node of journals whose nodes have illegal events or not; nodes that a journal lacks."""
    for name, text in {"one node": FIRST_JOURNAL, "several nodes": SEVERAL, "an illegal journal": ILLEGAL}.items():
        count = len(drawn_nodes(text.decode().split("\n")[:-1]))
        for number in range(count):
            for words in (("--node", str(number), *TABLE), (*TABLE, f"--node=+{number}")):
                yield Row("one node", f"{name}, {' '.join(words)}", Call(words, text), of_node(text, number))
        for number in (count, 7, 65535):
            for more in ((), TABLE):
                yield Row("one node", f"{name}, none {number}", Call(("--node", str(number), *more), text), no_node(number))
    yield Row("one node", "of a text with an error", Call(("--node", "7"), SEVERAL + b"fly\n"), fault(SEVERAL.count(b"\n") + 1, "bad-word"))
    yield Row("one node", "a full device", Call(("--node", "7"), SEVERAL, output=Sink.FULL), no_node(7))


def no_node(number: int) -> Ended:
    """A journal that lacks a node."""
    return Ended(2, b"", f"thpdraw: no node {number}\n".encode())


HEIGHT = re.compile(r'(viewBox="0 0 7200 |<rect class="bg" x="0" y="0" width="7200" height=")\d+')
ORIGIN = re.compile(r'<g transform="translate\(0 (\d+)\)">\n<text class="ink h" ')
"""Where a node's group begins in a picture."""


@dataclass(frozen=True)
class Alone:
    """A journal, of whose nodes each is drawn alone: as in the picture of all, below the title."""

    name: str
    text: bytes
    group: str = "one node"

    def wrong(self, program: Path) -> Optional[str]:
        """What is wrong with a picture of one node, or None."""
        whole = run(program, Call((), self.text)).output.decode()
        head, *groups = ORIGIN.split(whole)
        tops, nodes = groups[::2], [node.removesuffix("</svg>\n") for node in groups[1::2]]
        head = head[: head.index("<text ")] + "".join(re.findall(r'<text class="(?:ink hh|soft)" x="150" y="[346].*\n', head))
        for number, (node, top) in enumerate(zip(nodes, tops)):
            ended = run(program, Call(("--node", str(number)), self.text))
            start = '<g transform="translate(0 660)">\n<text class="ink h" '
            reported = Ended(ended.status, b"", ended.errors).differs_from(Ended(of_node(self.text, number).status))
            if reported:
                return reported
            if HEIGHT.sub(r"\1", ended.output.decode()) != HEIGHT.sub(r"\1", f"{head}{start}{node}</svg>\n"):
                return f"node {number}, at {top} in the whole picture, differs"
        return None if len(nodes) == len(drawn_nodes(self.text.decode().split("\n")[:-1])) else f"{len(nodes)} nodes are drawn"


def alone_drawn() -> Iterator[Alone]:
    """Pictures of one node."""
    texts = {"the first script's": FIRST_JOURNAL, "several nodes": SEVERAL, "illegal": ILLEGAL, "more than 1,200 events": wide()}
    yield from (Alone(name, text) for name, text in texts.items())
    for text, _ in faulty_texts.ILLEGAL:
        yield Alone(repr(text[-60:]), text + b"end\n")


def stored() -> Iterator[Row]:
    """The pictures in docs/, byte for byte, with the journals that they show."""
    of = {"first": FIRST_JOURNAL, "wide": wide()}
    for path in sorted((ROOT / "docs/pictures").glob("*.svg")):
        if path.with_suffix(".py").exists():
            continue  # drawn by a script of its own, and no journal's
        text = of.get(path.stem) or (ROOT / "examples" / f"{path.stem}.journal").read_bytes()
        yield Row("stored pictures", path.name, Call((), text), partial(drawn_as, text, path.read_bytes()))


def drawn_as(text: bytes, picture: bytes) -> Ended:
    """The result for a journal with this picture."""
    return Ended(table(text).status, picture)


def faults() -> Iterator[Row]:
    """Each error of a journal, also after an illegal event: nothing is written. And a script is not a journal."""
    for words in ((), TABLE):
        for text, number, word in faulty_texts.JOURNALS + faulty_texts.LARGE_JOURNALS:
            yield Row(name_group("faults", words), repr(text[-60:]), Call(words, text), fault(number, word))
        yield Row(name_group("faults", words), "a script", Call(words, FIRST), fault(1, "bad-word"))
    for text, _ in faulty_texts.ILLEGAL:
        count = text.count(b"\n") + 1
        yield Row("faults", f"illegal, then a fault: {text[-60:]!r}", Call(TABLE, text + b"fly\n"), fault(count, "bad-word"))
        yield Row("faults", f"illegal, then cut: {text[-60:]!r}", Call(TABLE, text), fault(count, "cut"))
    yield Row("faults", "a line without an end", Call(TABLE, source=Source.ENDLESS, memory=FEW_BYTES), NO_MEMORY)


def requests() -> Iterator[Row]:
    """Help, version, and words with errors: no input is read."""
    for word, output in {"--help": HELP, "-h": HELP, "--version": VERSION, "-V": VERSION}.items():
        yield Row("words", word, Call((word,), b"fly\n", untouched=True), Ended(0, output))
        yield Row("words", f"{word}, /dev/full", Call((word,), output=Sink.FULL), WRITE_FAILED)
    for word in ("zzz", "--zzz", "-z", "--summary", "--blocks", "my.journal", "\u00e9", ""):
        yield at_fault((word,), f"unexpected argument '{word}' found")
    yield from numbers_at_fault()
    for flag in FLAGS:
        yield at_fault((flag, flag), f"the argument '{flag}' cannot be used multiple times")
        yield at_fault((f"{flag}=1",), f"unexpected value '1' for '{flag}' found; no more were expected", flag)
        yield at_fault((flag, "x"), "unexpected argument 'x' found")
    yield Row("words", "a word that isn't UTF-8", Call((b"\xff",), b"fly\n", untouched=True), fails_with(usage.NOT_TEXT))


def numbers_at_fault() -> Iterator[Row]:
    """Values of `--node` that are no number of a node, none, and two."""
    option = "--node <NODE>"
    for value in ("65536", "4294967296", "-1"):
        yield at_fault((f"--node={value}",), f"invalid value '{value}' for '{option}': {value} is not in 0..=65535", "")
    for value in ("x", "0x1", " 1", "1,2"):
        yield at_fault((f"--node={value}",), f"invalid value '{value}' for '{option}': invalid digit found in string", "")
    yield at_fault(("--node", ""), f"invalid value '' for '{option}': cannot parse integer from empty string", "")
    yield at_fault(("--node",), f"a value is required for '{option}' but none was supplied", "")
    for second in ("1", "2"):
        yield at_fault(("--node", "1", "--node", second), f"the argument '{option}' cannot be used multiple times")


def at_fault(words: tuple[str, ...], what: str, named: str = "[OPTIONS]") -> Row:
    """Words that the command does not accept, and the messages of `clap` about them."""
    usage_line = f"\n\nUsage: thpdraw {named}" if named else ""
    text = f"error: {what}{usage_line}{usage.TRY}".encode()
    return Row("words", " ".join(words) or repr(""), Call(words, b"fly\n", untouched=True), fails_with(text))


def failures() -> Iterator[Row]:
    """Streams that fail."""
    for source in (Source.FOLDER, Source.CLOSED):
        yield Row("streams", f"input {source.name.lower()}", Call(TABLE, source=source), READ_FAILED)
    for sink in LOST:
        name = sink.name.lower()
        for words in ((), TABLE):
            yield Row(name_group("streams", words), f"legal, standard output {name}", Call(words, LEGAL, output=sink), WRITE_FAILED)
            yield Row(name_group("streams", words), f"illegal, standard output {name}", Call(words, ILLEGAL, output=sink), WRITE_FAILED)
        yield Row("streams", f"illegal, standard error {name}", Call(TABLE, ILLEGAL, errors=sink), table(ILLEGAL))
        yield Row("streams", f"a fault, standard error {name}", Call(TABLE, b"fly\n", errors=sink), Ended(2))


def shown() -> Iterator[Shown]:
    """The progress, on standard error."""
    words = (*ASKED, *TABLE)
    for text in (LEGAL, ILLEGAL):
        wanted = table(text)
        for source in (Source.FILE, Source.PIPE):
            name = f"status {wanted.status}, {source.name.lower()}"
            yield Shown(name, Call(words, text, source), wanted.status, wanted.output, lines(text, program=NAME))
    behind = b"thpdraw: line 1: bad-word\n"
    yield Shown("a fault behind it", Call(ASKED, b"fly\n"), 2, b"", lines(b"fly\n", behind=behind, program=NAME))
    yield Shown("no input", Call(ASKED, source=Source.CLOSED), 3, b"", lines(behind=READ_FAILED.errors, program=NAME))
    full = lines(LEGAL, behind=WRITE_FAILED.errors, program=NAME)
    yield Shown("standard output full", Call(words, LEGAL, output=Sink.FULL), 3, b"", full)


AnyRow = Union[Row, Picture, Alone, Shown]

PARTS: tuple[Callable[[], Iterator[AnyRow]], ...] = (drawn, pictures, alone, alone_drawn, stored, faults, requests, failures, shown)


class Drawer(ProgramCase):
    """Each call has the expected result."""

    variable = "THPDRAW"

    def check(self, row: AnyRow) -> Optional[str]:
        """Returns what is wrong when the program makes a call, or None."""
        return row.wrong(self.program)

    def test_table_of_more_than_16_mib(self) -> None:
        call = Call(TABLE, LONG + b"end\n", memory=FEW_BYTES)
        self.assertIsNone(run(self.program, call).differs_from(long_table()))

    def test_error_after_more_than_16_mib(self) -> None:
        self.assertIsNone(run(self.program, Call(TABLE, LONG + b"fly\n")).differs_from(fault(BEHIND, "bad-word")))


for part in PARTS:
    add_tests(Drawer, Drawer.check, ((f"{row.group}: {row.name}", row) for row in part()))
