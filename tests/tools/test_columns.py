"""The tile table in columns, as a C or C++ program meets it: arrays of int64_t, filled, altered and read."""

from __future__ import annotations

import re
import struct
import unittest
from typing import Dict, List, NamedTuple, Sequence, Tuple

from packs import ROOT, SECOND, CProgram, Ran, judged_by_second, needs_library
from test_texts import laid
from test_write import PAGE, PARTS, changed

SAMPLES = ROOT / "samples"
MARK = (-77, -77, -77, -77)
FIRSTS, ZOOMS, COLUMNS, ROWS = range(4)

# The four numbers of a tile.
Entry = Tuple[int, int, int, int]
# The four columns, in octets.
Columns = Sequence[bytes]
# A column, an entry of it, and the number that is put there.
Change = Tuple[int, int, int]
Address = Sequence[int]


class Called(NamedTuple):
    """The lines of the report and of the lookups from columns, what a fill of them came to, and what they hold then."""

    report: List[str]
    found: List[str]
    filled: str
    held: List[Entry]


class Header(NamedTuple):
    """Where a listing has its tiles and how many, and how many name octets."""

    tiles: int
    offset: int
    names: int

    @classmethod
    def of(cls, listing: bytes) -> "Header":
        return cls(*struct.unpack_from("<2I", listing, 40), *struct.unpack_from("<I", listing, 56))


def entries_of(listing: bytes) -> List[Entry]:
    """What the fill must write."""
    tiles, offset, _ = Header.of(listing)
    rows = struct.iter_unpack("<2I3q", listing[offset:offset + 32 * tiles])
    return [(start << 32 | length, *address) for start, length, *address in rows]


def columns_of(entries: Sequence[Entry]) -> Columns:
    return [struct.pack(f"<{len(entries)}q", *(entry[column] for entry in entries)) for column in range(4)]


def altered(entries: Sequence[Entry], changes: Sequence[Change]) -> List[Entry]:
    numbers = [list(entry) for entry in entries]
    for column, entry, number in changes:
        numbers[entry][column] = number
    return [(first, zoom, column, row) for first, zoom, column, row in numbers]


def spelled(listing: bytes, entries: Sequence[Entry]) -> bytes:
    """The listing with the tile rows that the entries spell."""
    offset = Header.of(listing).offset
    rows = b"".join(struct.pack("<2I3q", first >> 32, first % 2**32, *address) for first, *address in entries)
    return listing[:offset] + rows + listing[offset + len(rows):]


def lent(listing: bytes, columns: Columns) -> bytes:
    """A listing and columns as tests/tools/columns.c and the second program take them."""
    return b"".join(struct.pack("<I", len(octets)) + octets for octets in [listing, *columns])


def text(start: int, length: int) -> int:
    return start << 32 | length


GOOD = (SAMPLES / "good-pack.listing").read_bytes()
DOUBLED = (SAMPLES / "doubled-address.listing").read_bytes()
ACCENTED = (SAMPLES / "named-in-utf-8.listing").read_bytes()
NAMES = Header.of(GOOD).names
# The second octet of a character of two, by its place in the names.
INSIDE = next(at for at, octet in enumerate(ACCENTED[-Header.of(ACCENTED).names:]) if 0x80 <= octet < 0xC0)

# Numbers in columns that are filled from a listing, and why they are refused.
REFUSED: "List[Tuple[bytes, List[Change], str]]" = [
    (GOOD, [(FIRSTS, 0, -1)], "7 5 0"),
    (GOOD, [(FIRSTS, 4, -(2**32))], "7 5 4"),  # The pattern of NULL.
    (GOOD, [(FIRSTS, 2, -(2**63))], "7 5 2"),
    (GOOD, [(FIRSTS, 3, 2**63 - 1)], "7 5 3"),
    (GOOD, [(FIRSTS, 1, text(NAMES + 1, 0))], "7 5 1"),
    (GOOD, [(FIRSTS, 1, text(NAMES, 1))], "7 5 1"),
    (GOOD, [(FIRSTS, 1, text(1, 2**32 - 1))], "7 5 1"),  # It would wrap to 0.
    (GOOD, [(FIRSTS, 4, -1), (FIRSTS, 2, -1)], "7 5 2"),
    (ACCENTED, [(FIRSTS, 3, text(INSIDE, 1))], "13 5 3"),
    (ACCENTED, [(FIRSTS, 3, text(INSIDE - 1, 1))], "13 5 3"),
    # Any 7 comes before every 13.
    (ACCENTED, [(FIRSTS, 0, text(INSIDE, 1)), (FIRSTS, 1, -1)], "7 5 1"),
]

# Numbers in columns that are judged as the tile rows that they spell.
JUDGED: "List[Tuple[bytes, List[Change]]]" = [
    (GOOD, []),
    (DOUBLED, []),
    (DOUBLED, [(ROWS, 5, 77)]),
    (GOOD, [(FIRSTS, 2, 0)]),
    (GOOD, [(FIRSTS, 2, text(NAMES, 0))]),
    (GOOD, [(ZOOMS, 3, -(2**63)), (COLUMNS, 1, 2**63 - 1), (ROWS, 2, -1)]),
    (ACCENTED, [(FIRSTS, 3, text(INSIDE, 0)), (FIRSTS, 1, text(INSIDE - 1, 2))]),
    # Past the tiles.
    (GOOD, [(FIRSTS, 5, -1), (ZOOMS, 5, 1)]),
]


class Case(NamedTuple):
    """What is lent to a call on columns; the contents row is for a lookup."""

    listing: bytes
    columns: Columns
    contents: int = 0

    def by(self, *changes: Change) -> "Case":
        """With other numbers in the columns."""
        entries = list(zip(*(struct.unpack(f"<{len(column) // 8}q", column) for column in self.columns)))
        return self._replace(columns=columns_of(altered(entries, changes)))

    def cut(self, column: int, octets: int) -> "Case":
        """With so many octets in a column."""
        columns = list(self.columns)
        columns[column] = columns[column][:octets]
        return self._replace(columns=columns)


def two_tiles(names: bytes = PARTS[6], second_start: int = 4) -> bytes:
    """The example of docs/LISTING.md with two tile rows."""
    rows = struct.pack("<2I3q", 4, 4, 0, 0, 0) + struct.pack("<2I3q", second_start, 4, 0, 0, 1)
    return laid(changed(changed(PARTS, 5, rows), 7, names))


FARM, ASKED = text(4, 4), (0, 0, 1)
FILLED: List[Entry] = [(FARM, 0, 0, 0), (FARM, 0, 0, 1)]
TWO = Case(two_tiles(), columns_of(FILLED))
LATIN = TWO._replace(listing=two_tiles(PARTS[6] + b"\xc4")).by((FIRSTS, 0, text(62, 1)))

# What docs/LISTING.md has in the table of request 2026-04, by its words.
CASES: Dict[str, List[Case]] = {
    "two tiles": [TWO],
    "the same with an octet more in each column": [TWO._replace(columns=[column + b"x" for column in TWO.columns])],
    "the third column with one entry; the fourth with 15 octets": [TWO.cut(COLUMNS, 8), TWO.cut(ROWS, 15)],
    "no tile rows, and no octets in any column": [Case(laid(PARTS), [b""] * 4)],
    "a third entry: -1 in the first column, 9 in the second":
        [TWO._replace(columns=columns_of([*FILLED, (-1, 9, 0, 0)]))],
    "0, or 62 times 2^32, for the first entry of the first column: an empty text":
        [TWO.by((FIRSTS, 0, 0)), TWO.by((FIRSTS, 0, text(62, 0)))],
    "63 times 2^32, or 2^63 - 1": [TWO.by((FIRSTS, 0, text(63, 0))), TWO.by((FIRSTS, 0, 2**63 - 1))],
    "-1, or -4294967296, for its second entry": [TWO.by((FIRSTS, 1, -1)), TWO.by((FIRSTS, 1, -4294967296))],
    "good columns, and start 63 in tile row 1 of the listing": [TWO._replace(listing=two_tiles(second_start=63))],
    "`c4` behind the names, which the first entry spells, and -1 for the second": [LATIN.by((FIRSTS, 1, -1))],
    "the same, and the second as filled": [LATIN],
    "-1 for the second entry, and the second column with one entry": [TWO.by((FIRSTS, 1, -1)).cut(ZOOMS, 8)],
    "a fill of columns that hold -1": [TWO._replace(columns=[b"\xff" * 16] * 4)],
    "a report from columns with 1 1 in the fourth: both tiles at one address": [TWO.by((ROWS, 0, 1))],
    "contents row 1": [TWO._replace(contents=1)],
    "contents row 1, and -1 for the second entry": [TWO.by((FIRSTS, 1, -1))._replace(contents=1)],
}


@needs_library
class CalledFromC(unittest.TestCase):
    language, standard = "c", "c99"
    in_c: CProgram

    @classmethod
    def setUpClass(cls) -> None:
        cls.in_c = CProgram("columns", cls.language, cls.standard)
        cls.in_c.compile()

    def call(self, case: Case, addresses: Sequence[Address] = ()) -> Called:
        numbers = [number for address in addresses for number in address]
        ran = Ran([self.in_c.program, case.contents, *numbers], lent(case.listing, case.columns))
        self.assertEqual((ran.status, ran.err), (0, ""))
        lines = ran.out.splitlines()
        held = [tuple(map(int, line.split()[1:])) for line in lines if line.startswith("entry ")]
        *said, filled = [line for line in lines if not line.startswith("entry ")]
        at = len(said) - len(addresses)
        return Called(said[:at], said[at:], filled, [(first, zoom, column, row) for first, zoom, column, row in held])

    def test_fill(self) -> None:
        """Samples that are refused have their columns left as they were."""
        for path in sorted(SAMPLES.glob("*.listing")):
            with self.subTest(path.name):
                listing = path.read_bytes()
                judged = judged_by_second(listing).splitlines()
                is_refused = judged[0].startswith("refused")
                entries = [] if is_refused else entries_of(listing)
                called = self.call(Case(listing, columns_of([MARK] * (len(entries) + 2))))
                self.assertEqual(called.filled, judged[0] if is_refused else "filled")
                self.assertEqual(called.held, [*entries, MARK, MARK])
                self.assertEqual(self.call(Case(listing, columns_of(called.held))).report, judged)

    def test_too_few_entries(self) -> None:
        short = "refused 14 5 0"
        for held in [[], [MARK] * 4]:
            called = self.call(Case(GOOD, columns_of(held)), [ASKED])
            self.assertEqual(called, ([short], [short], short, held))

    def test_entries_that_spell_no_text(self) -> None:
        for listing, changes, refusal in REFUSED:
            with self.subTest(changes=changes):
                called = self.call(Case(listing, columns_of(altered(entries_of(listing), changes))), [ASKED])
                self.assertEqual((called.report, called.found), ([f"refused {refusal}"],) * 2)
                self.assertEqual((called.filled, called.held), ("filled", entries_of(listing)))

    def test_entries_are_judged_as_the_tile_rows_that_they_spell(self) -> None:
        for listing, changes in JUDGED:
            with self.subTest(changes=changes):
                entries = altered([*entries_of(listing), MARK], changes)
                addresses = [address for _, *address in entries]
                same = spelled(listing, entries[:-1])
                called = self.call(Case(listing, columns_of(entries)), addresses)
                self.assertEqual(called.report, judged_by_second(same).splitlines())
                self.assertEqual(called.found, [Ran([SECOND, "lookup", 0, *at], same).out.strip() for at in addresses])

    def check(self, case: Case, answer: str) -> None:
        """The library says what the page does, and the second program too."""
        octets = lent(case.listing, case.columns)
        called = self.call(case, [ASKED])
        if answer == "filled":
            self.assertEqual((called.filled, called.held), (answer, FILLED))
            self.assertEqual(Ran([SECOND, "fill"], octets).out, "filled\n")
        elif answer.startswith("as from rows, with "):
            rows = judged_by_second(spelled(case.listing, altered(FILLED, [(ROWS, 0, 1)]))).splitlines()
            self.assertIn(f"finding {answer.split(' with ')[1]}", rows)
            self.assertEqual(called.report, rows)
            self.assertEqual(Ran([SECOND, "judge-columns"], octets).out.splitlines(), rows)
        else:
            line = answer.replace("no such tile", "tile -")
            self.assertEqual(called.found, [line])
            self.assertEqual(Ran([SECOND, "lookup-columns", case.contents, *ASKED], octets).out, f"{line}\n")

    def test_the_cases_of_the_page(self) -> None:
        table = PAGE.split("**Request 2026-04")[1].split("\n**")[0]
        answers = dict(re.findall(r"^\| 4\.\d+ \| (.*) \| (.*) \|$", table, re.M))
        self.assertEqual(set(answers), set(CASES))
        for words, cases in CASES.items():
            for case in cases:
                with self.subTest(words):
                    self.check(case, answers[words])


class CalledFromCpp(CalledFromC):
    language, standard = "c++", "c++11"


if __name__ == "__main__":
    unittest.main()
