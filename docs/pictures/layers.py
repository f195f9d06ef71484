"""Draws docs/pictures/layers.svg: the crates in layers, and the way of one command through them.

    python3 docs/pictures/layers.py [--check]

A crate's row is the longest chain of crates below it in crates.txt; its text is the first line of its `src/lib.rt`; the numbers are
the steps that docs/MAP.md lists. With `--check` nothing is written, and the status is 1 where the stored picture differs.
"""

from __future__ import annotations

import re
import sys
import textwrap
from functools import cache
from html import escape
from pathlib import Path

ROOT = Path(__file__).resolve().parent.parent.parent
PICTURE = ROOT / "docs/pictures/layers.svg"

COLUMNS = {
    0: ["thpsplit", "thp_run", "thp_worker", "thp_cell", "thp_node", "thp_live_pages", "thp_page", "thp_history"],
    1: ["thpcheck", "thp_cli", "thp_metrics", "thp_script", "thp_links"],
    2: ["thpdraw", "thp_journal_tools", "thp_journal_scripts", "thp_journal_reader", "thp_check", "thp_journal_writer"],
    3: ["thp_laws", "thp_c", "thp_capi"],
    4: ["thp_drawing", "thp_model"],
}
"""The crates of each column. Their rows follow from crates.txt."""

LEFT, TOP, WIDTH, HEIGHT, GAP, STEP = 40, 88, 212, 56, 40, 28
"""The first box's corner, a box's size, and the gaps between columns and between rows."""

Point = tuple[float, float]

STYLE = """text{font:12px system-ui,sans-serif;fill:#1c2128}.t{font-size:19px;font-weight:600}.n{font:600 14px ui-monospace,monospace}
.c{fill:#4a5361}.s{font-size:11px}.k{font-weight:700;text-anchor:middle;fill:#ffffff}.bg{fill:#ffffff}.box{fill:#f3f5f8;stroke:#6b7380;stroke-width:1.5}
.on{fill:#fdf3e0;stroke:#8a4f00;stroke-width:2.5}.dot{fill:#8a4f00}.way{fill:none;stroke:#8a4f00;stroke-width:2}
@media(prefers-color-scheme:dark){text{fill:#e8ebf0}.c{fill:#b3bcc9}.k{fill:#14171c}.bg{fill:#14171c}.box{fill:#1d222a;stroke:#8b94a3}
.on{fill:#2e2413;stroke:#eab04a}.dot{fill:#eab04a}.way{stroke:#eab04a}}"""
"""Colours for light and for dark: text has a contrast of 4.5 at least, and lines of 3."""


def uses() -> dict[str, list[str]]:
    """The crates of crates.txt without tests, benchmarks and the demo, each with those of them that it uses."""
    found = {}
    for line in (ROOT / "crates.txt").read_text().splitlines():
        match = re.fullmatch(r"(thp\w+)[^:#]*:(.*)", line)
        if match:
            found[match[1]] = [name for name in match[2].split() if name.startswith("thp")]
    return found


@cache
def row(crate: str) -> int:
    """How many crates the longest chain below a crate has."""
    return max((row(name) + 1 for name in uses()[crate]), default=0)


def walk() -> list[str]:
    """The crates that docs/MAP.md's command passes, in order."""
    return re.findall(r"^\d+\. `(\w+)`:", (ROOT / "docs/MAP.md").read_text(), re.M)


def caption(crate: str) -> list[str]:
    """The first line of a crate's head comment, in lines that fit its box: up to its colon if it is too long."""
    path = ROOT / f"crates/{crate}/src/lib.rt"
    text = path.read_text().split("\n")[0][4:].replace("`", "") if path.exists() else "A program: its words and streams."
    lines = textwrap.wrap(text, 32)
    return lines if len(lines) <= 2 else textwrap.wrap(f"{text.split(':')[0]}.", 32)


def corner(crate: str) -> tuple[int, int]:
    """The upper left corner of a crate's box."""
    column = next((at for at, names in COLUMNS.items() if crate in names), None)
    if column is None:
        sys.exit(f"layers.py: COLUMNS has no place for {crate}")
    top = max(row(name) for name in uses())
    return LEFT + column * (WIDTH + GAP), TOP + (top - row(crate)) * (HEIGHT + STEP)


def box(crate: str) -> list[str]:
    """A crate's box, its name and its text."""
    x, y = corner(crate)
    lines = [f'<rect class="{"on" if crate in walk() else "box"}" x="{x}" y="{y}" width="{WIDTH}" height="{HEIGHT}" rx="6"/>',
             f'<text class="n" x="{x + 10}" y="{y + 18}">{crate}</text>']
    lines += [f'<text class="c s" x="{x + 10}" y="{y + 34 + 14 * at}">{escape(line)}</text>' for at, line in enumerate(caption(crate))]
    return lines


def numbers(crate: str) -> list[str]:
    """The numbers of a crate's steps, at the corner of its box."""
    x, y = corner(crate)
    steps = [at for at, name in enumerate(walk(), 1) if name == crate]
    lines = []
    for place, step in enumerate(reversed(steps)):
        middle = x + WIDTH - 14 - 24 * place
        lines += [f'<circle class="dot" cx="{middle}" cy="{y + 2}" r="11"/>',
                  f'<text class="k" x="{middle}" y="{y + 6}">{step}</text>']
    return lines


def sides(crate: str) -> list[Point]:
    """The middles of a box's four sides."""
    x, y = corner(crate)
    return [(x + WIDTH / 2, y), (x + WIDTH / 2, y + HEIGHT), (x, y + HEIGHT / 2), (x + WIDTH, y + HEIGHT / 2)]


def is_clear(start: Point, end: Point) -> bool:
    """Whether no box is on the line between two points, except at the ends."""
    corners = [corner(crate) for crate in uses()]
    points = [[a + (b - a) * part / 200 for a, b in zip(start, end)] for part in range(2, 199)]
    return not any(x <= u <= x + WIDTH and y <= v <= y + HEIGHT for u, v in points for x, y in corners)


def way(crate: str, other: str) -> str:
    """The path from one box to another: the shortest clear line, else a curve around the boxes between."""
    lines = [(abs(x - u) + abs(y - v), x, y, u, v) for x, y in sides(crate) for u, v in sides(other) if is_clear((x, y), (u, v))]
    if lines:
        _, x, y, u, v = min(lines)
        return f"M{x:.0f} {y:.0f}L{u:.0f} {v:.0f}"
    (x, y), (u, v) = corner(crate), corner(other)
    if y == v:
        return f"M{x + WIDTH - 30} {y}C{x + WIDTH} {y - STEP} {u} {v - STEP} {u + 30} {v}"
    side, out = (x, x - LEFT) if x == LEFT else (x + WIDTH, x + WIDTH + GAP)
    start, end = y + HEIGHT // 2, v + HEIGHT // 2
    return f"M{side} {start}C{out} {start} {out} {end} {side} {end}"


def arrows() -> list[str]:
    """An arrow from each step to the next."""
    return [f'<path class="way" marker-end="url(#tip)" d="{way(*steps)}"/>' for steps in zip(walk(), walk()[1:])]


def picture() -> str:
    """The whole picture."""
    crates = sorted(uses(), key=lambda crate: (-row(crate), crate))
    places = [corner(crate) for crate in crates]
    if len(set(places)) < len(places):
        sys.exit("layers.py: two crates have one place in COLUMNS")
    width = max(x for x, _ in places) + WIDTH + LEFT
    height = max(y for _, y in places) + HEIGHT + STEP
    title = "The crates in layers"
    text = "A crate uses only crates in rows below its own. The numbers follow one command, unmap 0 0 0 256 (docs/MAP.md)."
    lines = [f'<svg xmlns="http://www.w3.org/2000/svg" viewBox="0 0 {width} {height}" role="img" aria-labelledby="title desc">',
             f'<title id="title">{title}</title>', f'<desc id="desc">{text} In order: {", ".join(walk())}.</desc>',
             f"<style>{STYLE}</style>",
             '<defs><marker id="tip" viewBox="0 0 8 8" refX="7" refY="4" markerWidth="6" markerHeight="6" orient="auto">'
             '<path class="dot" d="M0 0L8 4L0 8z"/></marker></defs>',
             f'<rect class="bg" width="{width}" height="{height}"/>',
             f'<text class="t" x="{LEFT}" y="32">{title}</text>', f'<text class="c" x="{LEFT}" y="54">{text}</text>']
    lines += [line for crate in crates for line in box(crate)]
    lines += arrows()
    lines += [line for crate in crates for line in numbers(crate)]
    return "\n".join([*lines, "</svg>", ""])


def main() -> None:
    """Writes the picture, or compares it with the stored one."""
    text = picture()
    if "--check" not in sys.argv:
        PICTURE.write_text(text)
    elif not PICTURE.exists() or PICTURE.read_text() != text:
        sys.exit(f"{PICTURE.relative_to(ROOT)} differs: run python3 docs/pictures/layers.py")


if __name__ == "__main__":
    main()
