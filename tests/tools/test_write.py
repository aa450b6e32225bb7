"""The writer of listings: called from C and C++ and by tools/call-library.c, and what the tools say when it refuses."""

from __future__ import annotations

import json
import re
import struct
import unittest
from typing import Callable, Dict, List, NamedTuple, Sequence, Tuple
from unittest import mock

from packs import (
    PACKS, ROOT, SECOND, Called, CProgram, InRoom, Ran, good, judged_by_second, loaded, needs_library,
)

from desterlin import exporter, library
from desterlin.console import Trouble
from desterlin.geopackage import PackRows
from desterlin.listing import LISTING, NAMES_MOST, TABLES, Listing
from desterlin.rules import REASONS, Refusal

GPKG_CHECK = loaded("gpkg-check")
SAMPLES = ROOT / "samples"
PAGE = (ROOT / "docs" / "LISTING.md").read_text(encoding="utf-8")

Parts = Sequence[bytes]
NOTHING: Parts = [b""] * 7


def example() -> bytes:
    """The listing that docs/LISTING.md has in octets."""
    lines = re.findall(r"^ +\d+  ((?:[0-9a-f]{2} )+)", PAGE.split("## A listing in octets")[1], re.M)
    octets = bytes.fromhex("".join(lines))
    assert len(octets) == 230, len(octets)
    return octets


EXAMPLE = example()
PARTS: Parts = [EXAMPLE[64:96], EXAMPLE[96:136], b"", b"", b"", EXAMPLE[136:168], EXAMPLE[168:]]


def changed(parts: Parts, table: int, part: bytes) -> List[bytes]:
    return [*parts[:table - 1], part, *parts[table:]]


def put(parts: Parts, table: int, at: int, word: int) -> List[bytes]:
    """The parts with another word at this place of a table."""
    part = parts[table - 1]
    return changed(parts, table, part[:at] + struct.pack("<I", word) + part[at + 4:])


def flag_2(parts: Parts) -> List[bytes]:
    return put(parts, 2, 32, 2)


def rows_of_nothing(count: int) -> bytes:
    """Rows of table 1 whose texts are empty."""
    return bytes(count * TABLES[0].form.size)


class Call(NamedTuple):
    """What a call of desterlin_write leaves behind."""

    returned: int
    answer: bytes
    buffer: bytes


MARK, GUARD, ROOM = b"\xa5", 64, 20_000


class Written(CProgram):
    """tests/tools/written.c."""

    def call(self, parts: Parts, room: int = ROOM, answer: int = 16) -> Call:
        ran = Ran([self.program, room, answer], library.framed(parts))
        assert (ran.status, ran.err) == (0, ""), (ran.status, ran.err)
        around = 2 * GUARD
        shown = ran.octets[1:1 + answer + around], ran.octets[1 + answer + around:]
        assert [len(octets) - around for octets in shown] == [answer, room]
        assert all(octets[:GUARD] + octets[-GUARD:] == MARK * around for octets in shown), "a touch outside a buffer"
        return Call(ran.octets[0], *(octets[GUARD:-GUARD] for octets in shown))


LATIN = changed(PARTS, 7, b"\xc4" + PARTS[6][1:])

# What docs/LISTING.md has in the table of the writer, by its words: parts and the size of the buffer.
CASES: "Dict[str, List[Tuple[Parts, int]]]" = {
    "the example": [(PARTS, ROOM)],
    "no octets in any part": [(NOTHING, ROOM)],
    "the example with an octet more, or fewer, in table 1":
        [(changed(PARTS, 1, PARTS[0] + b"\0"), ROOM), (changed(PARTS, 1, PARTS[0][:-1]), ROOM)],
    "257 rows in table 1 and 1 octet in table 6": [(changed(changed(PARTS, 1, rows_of_nothing(257)), 6, b"x"), ROOM)],
    "256 rows in table 1, all octets 0": [(changed(NOTHING, 1, rows_of_nothing(256)), ROOM)],
    "257 rows in table 1, all octets 0": [(changed(NOTHING, 1, rows_of_nothing(257)), ROOM)],
    "1,048,577 name octets, and flag 2 in table 2": [(changed(flag_2(PARTS), 7, bytes(1_048_577)), ROOM)],
    "the example with scope's length 11 (table 6) and flag 2 (table 2)": [(put(flag_2(PARTS), 6, 28, 11), ROOM)],
    'the example with `c4` for the E of "EPSG" (table 1) and flag 2 (table 2)': [(flag_2(LATIN), ROOM)],
    "the example with flag 2 alone, and a buffer of no octets": [(flag_2(PARTS), 0)],
    'the example with `c4` for the E of "EPSG" alone, and a buffer of no octets': [(LATIN, 0)],
    "the example with a name octet `ff` more, which no text covers": [(changed(PARTS, 7, PARTS[6] + b"\xff"), ROOM)],
    "the example with a buffer of 230 octets, or of more": [(PARTS, 230), (PARTS, 231), (PARTS, LISTING.most + 1)],
    "the example with a buffer of 229 octets": [(PARTS, 229)],
}


# The total length and the count of table 7 are one more than in the example.
ONE_NAME_OCTET_MORE = EXAMPLE[:4] + struct.pack("<I", 231) + EXAMPLE[8:56] + struct.pack("<I", 63) + EXAMPLE[60:]


@needs_library
class CalledFromC(unittest.TestCase):
    language, standard = "c", "c99"
    in_c: Written

    @classmethod
    def setUpClass(cls) -> None:
        cls.in_c = Written("written", cls.language, cls.standard)
        cls.in_c.compile()

    def check(self, answer: str, parts: Parts, room: int) -> None:
        """A listing stands at the buffer's front, and what follows it is as it was; a refusal leaves all of it."""
        listings = {
            "written: its 230 octets": EXAMPLE,
            "written: its 231 octets": ONE_NAME_OCTET_MORE + b"\xff",
            "written: the header alone": (SAMPLES / "header-alone.listing").read_bytes(),
            "written": struct.pack("<16I", 1, 8_256, 256, 64, *[0, 8_256] * 6) + bytes(8_192),
        }
        listing = listings.get(answer, b"")
        refusal = tuple(map(int, answer.split()[1:])) if answer.startswith("refused ") else (0, 0, 0)
        self.assertTrue(listing or any(refusal), answer)
        call = self.in_c.call(parts, room)
        self.assertEqual((call.returned, struct.unpack("<4I", call.answer)), (1, (*refusal, len(listing))))
        self.assertTrue(call.buffer == listing + MARK * (room - len(listing)), "the buffer differs")

    def test_the_cases_of_the_page(self) -> None:
        table = PAGE.split("**The writer: ")[1].split("\n**")[0]
        answers = dict(re.findall(r"^\| (.*) \| ((?:written|refused).*) \|$", table, re.M))
        self.assertEqual(set(answers), set(CASES))
        for words, answer in answers.items():
            for parts, room in CASES[words]:
                with self.subTest(words, room=room):
                    self.check(answer, parts, room)

    def test_too_short_an_answer_has_nothing_written_whatever_else_is_wrong(self) -> None:
        for parts in [PARTS, flag_2(PARTS), changed(PARTS, 1, b"x"), LATIN]:
            for size in [0, 15]:
                call = self.in_c.call(parts, answer=size)
                self.assertEqual(call, Call(0, MARK * size, MARK * ROOM))

    def test_a_longer_answer_keeps_its_other_octets(self) -> None:
        self.assertEqual(self.in_c.call(PARTS, answer=19).answer, struct.pack("<4I", 0, 0, 0, 230) + MARK * 3)


class CalledFromCpp(CalledFromC):
    language, standard = "c++", "c++11"


@needs_library
class WrittenBack(unittest.TestCase):
    """The parts of an accepted listing write back to the same octets. Who made the listings knows nothing of this."""

    def is_tried(self, listing: bytes) -> bool:
        if judged_by_second(listing).startswith("refused"):
            return False
        rows = Listing(listing)
        self.assertTrue(library.written([*rows.octets.values(), rows.names]) == listing, "other octets are written")
        return True

    def test_samples(self) -> None:
        accepted = [path.stem for path in sorted(SAMPLES.glob("*.listing")) if self.is_tried(path.read_bytes())]
        self.assertEqual(
            accepted, ["doubled-address", "good-pack", "header-alone", "longest", "many-findings", "many-kinds",
                       "named-in-utf-8", "oversize"])

    def test_made_listings(self) -> None:
        tried = [self.is_tried(Ran([SECOND, "make", seed]).octets) for seed in range(60)]
        self.assertGreater(sum(tried), 20)

    def test_as_many_tiles_as_there_may_be(self) -> None:
        self.assertTrue(self.is_tried(Ran([SECOND, "full", "pyramids", 262_144]).octets))

    def test_packs(self) -> None:
        """The headers of the listings beside the packs were laid by code that is gone, and not by the writer."""
        for listing in sorted(PACKS.glob("*.listing")):
            ran = Ran(["tools/gpkg-listing", listing.with_suffix(".gpkg"), "-"])
            self.assertEqual((ran.status, ran.err), (0, ""))
            self.assertEqual(ran.octets, listing.read_bytes(), listing.name)


@needs_library
class CallLibrary(unittest.TestCase):
    """tools/call-library.c with the word write."""

    def test_parts_of_any_size_are_for_the_library_to_judge(self) -> None:
        for table in TABLES:
            row = bytes(table.form.size)
            # In table 2 a flag of 0 and a srs_id of 0 are good, and so are empty texts everywhere.
            full = library.written(changed(NOTHING, table.number, row * table.most))
            self.assertEqual(len(full) if isinstance(full, bytes) else full, 64 + table.form.size * table.most)
            over = library.written(changed(NOTHING, table.number, row * (table.most + 1)))
            self.assertEqual(over, Refusal(5, table.number, 0))
        for size in [NAMES_MOST + 1, 30_000_000]:
            self.assertEqual(library.written(changed(NOTHING, 7, bytes(size))), Refusal(5, 7, 0))
        self.assertEqual(library.written(changed(NOTHING, 5, bytes(30_000_001))), Refusal(11, 5, 0))

    def test_every_table_full(self) -> None:
        parts = [bytes(table.form.size) * table.most for table in TABLES] + [bytes(NAMES_MOST)]
        octets = library.written(parts)
        assert isinstance(octets, bytes)
        self.assertEqual(len(octets), LISTING.most)
        self.assertTrue(octets[64:] == b"".join(parts), "other octets are written")

    def test_a_refusal_cannot_be_taken_for_a_listing(self) -> None:
        ran = Ran([library.program(), "write"], library.framed(flag_2(PARTS)))
        self.assertEqual((ran.status, ran.out, ran.err), (0, "refused 8 2 0\n", ""))
        ran = Ran([library.program(), "write"], library.framed(PARTS))
        self.assertEqual((ran.status, ran.octets, ran.err), (0, b"written 230\n" + EXAMPLE, ""))

    def test_what_is_no_parts(self) -> None:
        whole = library.framed(PARTS)
        sizes, broken = "the sizes of the parts break off, or cannot be read", "the parts break off, or cannot be read"
        for octets, words in [
            (b"", sizes),
            (whole[:55], sizes),
            (whole[:56], broken),
            (whole[:-1], broken),
            (whole + b"\0", "there are more octets than the parts have"),
            (struct.pack("<7Q", 0, 0, 0, 0, 0, 0, 2**63), "no memory for the parts"),
        ]:
            ran = Ran([library.program(), "write"], octets)
            self.assertEqual((ran.status, ran.out, ran.err), (2, "", f"call-library: {words}\n"))

    def test_what_nobody_can_ask_for(self) -> None:
        for words in [[], ["judge"], ["write", "write"]]:
            ran = Ran([library.program(), *words], EXAMPLE)
            told = "call-library: say what is asked for: report, report-metadata or write\n"
            self.assertEqual((ran.status, ran.out, ran.err), (2, "", told))

    def test_no_room_for_what_it_prints(self) -> None:
        ran = Ran(["sh", "-c", f"'{library.program()}' write > /dev/full"], library.framed(PARTS))
        self.assertEqual((ran.status, ran.err), (2, "call-library: the answer cannot be written\n"))


# Each case: the reason, what is done to the good rows of a pack, and the place that is told. A row is told with its
# place in the pack; at 11 and 5 row 0 stands for the table.
SPOILT: "List[Tuple[int, Callable[[Parts], Parts], str]]" = [
    (11, lambda parts: changed(parts, 5, parts[4] + b"x"), " (table 5, tiles, row 0)"),
    (5, lambda parts: changed(parts, 1, parts[0] * 86), " (table 1, reference systems, row 0)"),
    (5, lambda parts: changed(parts, 7, bytes(NAMES_MOST + 1)), " (table 7, name octets, row 0)"),
    (7, lambda parts: put(parts, 5, 36, 999), ' (table 5, tiles, row 1: table "farm" rowid 2)'),
    (8, flag_2, ' (table 2, contents, row 0: table "gpkg_contents" rowid 1)'),
]
MISTAKE = "that is a mistake of the exporter, and not of the pack; it has no listing, so nothing was judged"


@needs_library
class RefusalsInWords(InRoom):
    """The exporter gets no refusal from the writer, unless its rows are spoilt on the way there."""

    def setUp(self) -> None:
        super().setUp()
        self.good_pack = self.pack(good())

    def check_told(self, number: int, place: str) -> None:
        pack = self.good_pack
        words = f"{pack}: the listing is not written, reason {number}: {REASONS[number]}{place}"
        lines = [words, f"{pack}: {MISTAKE}"]
        self.assertEqual(self.trouble_with(pack), "".join(f"gpkg-listing: {line}\n" for line in lines))
        called = Called(GPKG_CHECK, pack)
        self.assertEqual((called.status, called.out), (2, ""))
        self.assertEqual(called.err, "".join(f"gpkg-check: {line}\n" for line in lines))
        called = Called(GPKG_CHECK, "--json", pack)
        told = {"path": str(pack), "status": 2, "trouble": "\n".join(lines)}
        self.assertEqual((called.status, json.loads(called.out)), (2, told))

    def test_of_rows_that_are_spoilt(self) -> None:
        rows_of = exporter.rows_of

        def spoilt_rows(path: str, say: Callable[[str], None], with_metadata: bool) -> PackRows:
            rows = rows_of(path, say, with_metadata)
            return rows._replace(parts=list(spoil(rows.parts)))

        for number, spoil, place in SPOILT:
            with self.subTest(number, place=place), mock.patch.object(exporter, "rows_of", spoilt_rows):
                self.check_told(number, place)

    def test_of_a_buffer_that_is_too_short(self) -> None:
        """The one of call-library is as long as any listing, so another program stands in for it."""
        with self.stand_in("cat > /dev/null; echo refused 12 0 0"):
            self.check_told(12, "")

    def test_every_reason_of_the_writer_is_tried(self) -> None:
        # test_texts.py has 13.
        tried = list(dict.fromkeys([number for number, _, _ in SPOILT] + [13, 12]))
        for page, words in {
            "include/desterlin.h": r"Write gives ([\d, and]+), checked in that order",
            "docs/API.md": r"The refusals are ([\d, and]+), checked in this order",
            "docs/LISTING.md": r"The writer gives ([\d, and]+): ",
        }.items():
            said = re.findall(words, (ROOT / page).read_text(encoding="utf-8"))
            numbers = [[int(number) for number in re.findall(r"\d+", list_of_them)] for list_of_them in said]
            self.assertEqual(numbers, [tried], page)

    def stand_in(self, does: str) -> "mock._patch[mock.MagicMock]":
        program = self.room / "stand-in"
        program.write_text(f"#!/bin/sh\n{does}\n", encoding="utf-8")
        program.chmod(0o755)
        return mock.patch.object(library, "program", return_value=program)

    def test_an_answer_that_breaks_off_is_no_listing(self) -> None:
        for does, words in {
            "": "the library's listing breaks off after 0 octets",
            "echo written 230; echo short": "the library's listing breaks off after 6 octets",
            "echo written 2; echo long": "the library's listing breaks off after 5 octets",
            "echo ends early; exit 2": "the library's program failed: it ended with status 2",
        }.items():
            with self.stand_in(f"cat > /dev/null; {does}"), self.assertRaisesRegex(Trouble, f"^{words}$"):
                library.written(PARTS)


if __name__ == "__main__":
    unittest.main()
