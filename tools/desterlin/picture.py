"""The pyramids of a listing as a picture: each level a frame with its tiles, and those at wrong addresses marked.

What is wrong is taken from the findings and not judged again: doubled is 541, outside 561 or 571, unplaced 441. Of a
level that is mostly empty only the part with tiles is drawn, in a large one a square stands for several tiles, levels
without tiles are left out, and of very many not all are drawn; the picture says so.
"""

from __future__ import annotations

from html import escape
from typing import Dict, Iterable, Iterator, List, NamedTuple, Optional, Sequence, Set, Tuple

from .console import counted, plain, shown
from .listing import Listing, Matrix
from .rules import Finding

MOST_LEVELS = 60
MOST_SQUARES_A_SIDE = 48

# A level of at most so many tiles a side is drawn whole, however empty: each of its squares is still well seen.
WHOLE_SIDE = 16
MOST_WORDS_A_MARK = 4

# Measures in pixels.
WIDTH, PANEL, GAP, TOP = 1320, 300, 24, 118
HEAD, LINE = 44, 15
LARGEST_SQUARE = 48
PANELS_A_LINE = 4

STYLE = "text{font-family:sans-serif;font-size:13px;fill:#222}.title{font-size:20px}.small{font-size:11px;fill:#555}"

# In the order of drawing: what comes later lies above.
KINDS = {
    "present": ("#cfe3c4", "tiles stored"),
    "unplaced": ("#8e44ad", "unplaced: no matrix for the zoom (441)"),
    "outside": ("#e69500", "outside the matrix (561, 571), drawn beside the nearest edge"),
    "doubled": ("#d62728", "at a doubled address (541)"),
}
FAULTS = ["unplaced", "outside", "doubled"]

Key = Tuple[bytes, int]
Square = Tuple[int, int]


class Spot(NamedTuple):
    """A tile as the picture needs it."""

    at: int
    column: int
    row: int
    faults: Tuple[str, ...]


class Frame(NamedTuple):
    """A part of a level: its first column and row, its width and height."""

    left: int
    top: int
    width: int
    height: int

    def holds(self, spot: Spot) -> bool:
        is_beside = 0 <= spot.column - self.left < self.width
        return is_beside and 0 <= spot.row - self.top < self.height

    def widened(self) -> Frame:
        return Frame(self.left - 1, self.top - 1, self.width + 2, self.height + 2)

    def within(self, whole: Frame) -> Frame:
        left, top = max(self.left, whole.left), max(self.top, whole.top)
        right = min(self.left + self.width, whole.left + whole.width)
        bottom = min(self.top + self.height, whole.top + whole.height)
        return Frame(left, top, right - left, bottom - top)

    def words(self) -> Iterator[str]:
        yield f"shown are columns {self.left:,} to {self.left + self.width - 1:,}"
        yield f"and rows {self.top:,} to {self.top + self.height - 1:,}"


def around(spots: Sequence[Spot]) -> Frame:
    columns, rows = [spot.column for spot in spots], [spot.row for spot in spots]
    return Frame(min(columns), min(rows), max(columns) - min(columns) + 1, max(rows) - min(rows) + 1)


class Level:
    """The tiles of one name and zoom, and the first matrix that they have."""

    def __init__(self, key: Key, matrix: Optional[Matrix]) -> None:
        self.key = key
        self.matrix = matrix
        self.spots: List[Spot] = []

    def count(self, fault: str) -> int:
        return sum(fault in spot.faults for spot in self.spots)

    def is_marked(self) -> bool:
        return any(spot.faults for spot in self.spots)

    def words(self) -> str:
        size = "no matrix" if self.matrix is None else f"{self.matrix.matrix_width:,} × {self.matrix.matrix_height:,}"
        faults = [f"{fault} {self.count(fault):,}" for fault in FAULTS if self.count(fault)]
        return ", ".join([size, counted(len(self.spots), "tile"), *faults])

    def whole(self) -> Frame:
        """The matrix, or else where the tiles are."""
        if self.matrix is not None:
            return Frame(0, 0, max(self.matrix.matrix_width, 0), max(self.matrix.matrix_height, 0))
        return around(self.spots)

    def frame(self) -> Frame:
        """What is drawn: the whole, or of one that is mostly empty the part that has the tiles, and one tile more on
        each side."""
        whole = self.whole()
        inside = [spot for spot in self.spots if whole.holds(spot)]
        if not inside or max(whole.width, whole.height) <= WHOLE_SIDE:
            return whole
        part = around(inside)
        return part.widened().within(whole) if 2 * part.width * part.height < whole.width * whole.height else whole


def drawn(title: str, listing: Listing, findings: Sequence[Finding]) -> bytes:
    """The whole picture, an SVG file."""
    levels = levels_of(listing, findings)
    panels = [Panel(level) for level in chosen_levels(levels)]
    body = list(heading(title, levels, len(panels)))
    y = TOP
    for first in range(0, len(panels), PANELS_A_LINE):
        line = panels[first:first + PANELS_A_LINE]
        for place, panel in enumerate(line):
            body += [f'<g transform="translate({GAP + place * (PANEL + GAP)},{y})">', *panel.drawn(), "</g>"]
        y += max(panel.height() for panel in line) + GAP
    start = f'<svg xmlns="http://www.w3.org/2000/svg" width="{WIDTH}" height="{y}" viewBox="0 0 {WIDTH} {y}">'
    paper = f'<style>{STYLE}</style><rect width="{WIDTH}" height="{y}" fill="#ffffff"/>'
    return "\n".join([start, paper, *body, "</svg>", ""]).encode("utf-8", "backslashreplace")


def levels_of(listing: Listing, findings: Iterable[Finding]) -> List[Level]:
    """All levels that have a matrix or a tile: the names in the order of the matrices, then of the tiles."""
    levels: Dict[Key, Level] = {}
    for matrix in listing.matrices():
        key = (matrix.table_name, matrix.zoom_level)
        levels.setdefault(key, Level(key, matrix))
    faults = faults_by_row(findings)
    for at, tile in enumerate(listing.tiles()):
        key = (tile.table_name, tile.zoom_level)
        level = levels.setdefault(key, Level(key, None))
        level.spots.append(Spot(at, tile.tile_column, tile.tile_row, faults.get(at, ())))
    names = {name: at for at, name in enumerate(dict.fromkeys(name for name, _ in levels))}
    return sorted(levels.values(), key=lambda level: (names[level.key[0]], level.key[1]))


def faults_by_row(findings: Iterable[Finding]) -> Dict[int, Tuple[str, ...]]:
    """The faults of each tile row that has any; of a doubled address both rows have the fault."""
    of_code = {541: "doubled", 561: "outside", 571: "outside", 441: "unplaced"}
    found: Dict[int, Set[str]] = {}
    for finding in findings:
        if finding.code in of_code:
            for row in (finding.row, finding.partner):
                if row is not None:
                    found.setdefault(row, set()).add(of_code[finding.code])
    return {row: tuple(fault for fault in FAULTS if fault in faults) for row, faults in found.items()}


def chosen_levels(levels: Sequence[Level]) -> List[Level]:
    """Those with tiles; where they are too many, those with marks come first."""
    filled = [level for level in levels if level.spots]
    ranked = sorted(range(len(filled)), key=lambda at: (not filled[at].is_marked(), at))
    return [filled[at] for at in sorted(ranked[:MOST_LEVELS])]


def heading(title: str, levels: Sequence[Level], drawn_count: int) -> Iterator[str]:
    yield text(GAP, 34, plain(title), "title")
    words = [counted(len(levels), "level"), counted(sum(len(level.spots) for level in levels), "tile")]
    words += [f"{fault} {sum(level.count(fault) for level in levels):,}" for fault in FAULTS]
    empty = sum(not level.spots for level in levels)
    if empty:
        words.append(f"{counted(empty, 'level')} without tiles left out")
    if drawn_count < len(levels) - empty:
        words.append(f"only {drawn_count} levels are drawn, those with marks first")
    yield text(GAP, 58, ", ".join(words))
    x = GAP
    for kind, (_, meaning) in KINDS.items():
        yield f'<g transform="translate({x},72)">{mark(kind, 14)}{text(20, 12, meaning)}</g>'
        x += 40 + 7 * len(meaning)


class Panel:
    """One level as it is drawn: a head of two lines, squares, and below a few words. A large level has squares that
    stand for several tiles."""

    def __init__(self, level: Level) -> None:
        self.level = level
        self.part = level.frame()
        self.tiles = max(1, -(-max(self.part.width, self.part.height) // MOST_SQUARES_A_SIDE))
        self.across, self.down = -(-self.part.width // self.tiles), -(-self.part.height // self.tiles)
        # One square more on each side is for what lies outside.
        self.size = min(LARGEST_SQUARE, PANEL / (max(self.across, self.down) + 2))
        self.foot = list(self.words_below())

    def height(self) -> int:
        return round(HEAD + self.size * (self.down + 2) + LINE * (len(self.foot) + 1))

    def words_below(self) -> Iterator[str]:
        if self.part != self.level.whole():
            yield from self.part.words()
        if self.tiles > 1:
            yield f"a large level: each square stands for {self.tiles:,} × {self.tiles:,} tiles"
        yield from mark_words([spot for spot in self.level.spots if spot.faults])

    def drawn(self) -> Iterator[str]:
        name, zoom = self.level.key
        yield text(0, 14, f"{shown(name)[:36]} zoom {zoom}")
        yield text(0, 32, self.level.words(), "small")
        yield f'<g transform="translate(0,{HEAD})">'
        for (column, row), spots in self.squares().items():
            yield f'<g transform="translate({self.size * (column + 1):.2f},{self.size * (row + 1):.2f})">'
            yield from self.square(spots)
            yield "</g>"
        yield from self.frame()
        yield "</g>"
        bottom = HEAD + self.size * (self.down + 2) + LINE
        for at, words in enumerate(self.foot):
            yield text(0, round(bottom + LINE * at), words, "small")

    def squares(self) -> Dict[Square, List[Spot]]:
        """The tiles by their square. What lies outside goes to a square beside the nearest edge."""
        squares: Dict[Square, List[Spot]] = {}
        for spot in self.level.spots:
            column = min(max((spot.column - self.part.left) // self.tiles, -1), self.across)
            row = min(max((spot.row - self.part.top) // self.tiles, -1), self.down)
            squares.setdefault((column, row), []).append(spot)
        return squares

    def square(self, spots: Sequence[Spot]) -> Iterator[str]:
        addresses = {(spot.column, spot.row) for spot in spots if "outside" not in spot.faults}
        if addresses:
            share = 0.35 + 0.65 * min(1.0, len(addresses) / self.tiles**2)
            yield mark("present", self.size, f' fill-opacity="{share:.2f}"')
        marked = [spot for spot in spots if spot.faults]
        for fault in FAULTS:
            if any(fault in spot.faults for spot in marked):
                yield mark(fault, self.size)
        if marked:
            yield f"<title>{escape(chr(10).join(mark_words(marked)), quote=False)}</title>"

    def frame(self) -> Iterator[str]:
        """The border of the matrix, broken where the matrix goes on, with lines between its squares where those are
        large enough."""
        if self.level.matrix is None:
            return
        width, height = self.across * self.size, self.down * self.size
        lines = [f"M{at * self.size:.2f} 0V{height:.2f}" for at in range(1, self.across)]
        lines += [f"M0 {at * self.size:.2f}H{width:.2f}" for at in range(1, self.down)]
        yield f'<g transform="translate({self.size:.2f},{self.size:.2f})" fill="none">'
        if self.size >= 8:
            yield f'<path d="{"".join(lines)}" stroke="#999" stroke-width="0.5"/>'
        part, whole = self.part, self.level.whole()
        edges = [
            (f"M0 0V{height:.2f}", part.left == whole.left),
            (f"M0 0H{width:.2f}", part.top == whole.top),
            (f"M{width:.2f} 0V{height:.2f}", part.left + part.width == whole.left + whole.width),
            (f"M0 {height:.2f}H{width:.2f}", part.top + part.height == whole.top + whole.height),
        ]
        for edge, is_end in edges:
            yield f'<path d="{edge}" stroke="#333"' + ("/>" if is_end else ' stroke-dasharray="2 4"/>')
        yield "</g>"


def mark(kind: str, size: float, more: str = "") -> str:
    """A sign that is known by its shape as well as by its colour."""
    colour = KINDS[kind][0]
    near, half, far = f"{size * 0.1:.2f}", f"{size / 2:.2f}", f"{size * 0.9:.2f}"
    line = f'fill="none" stroke="{colour}" stroke-width="{max(1.0, size / 8):.2f}"'
    if kind == "doubled":
        return f'<path d="M{near} {near}L{far} {far}M{far} {near}L{near} {far}" {line}{more}/>'
    if kind == "outside":
        return f'<path d="M{half} {near}L{far} {far}L{near} {far}Z" fill="{colour}"{more}/>'
    if kind == "unplaced":
        return f'<circle cx="{half}" cy="{half}" r="{size * 0.38:.2f}" {line}{more}/>'
    return f'<rect width="{size:.2f}" height="{size:.2f}" fill="{colour}"{more}/>'


def mark_words(spots: Sequence[Spot]) -> Iterator[str]:
    """The first of the marked tiles, one a line."""
    for spot in spots[:MOST_WORDS_A_MARK]:
        yield f"column {spot.column}, row {spot.row}: {', '.join(spot.faults)} (tiles row {spot.at})"
    if len(spots) > MOST_WORDS_A_MARK:
        yield f"and {len(spots) - MOST_WORDS_A_MARK:,} more with marks"


def text(x: float, y: float, words: str, kind: str = "") -> str:
    of_kind = f' class="{kind}"' if kind else ""
    return f'<text x="{x}" y="{y}"{of_kind}>{escape(words, quote=False)}</text>'
