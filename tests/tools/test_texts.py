"""Texts that are no UTF-8: the library refuses them, and the tools say which, where, and at which octet."""

from __future__ import annotations

import itertools
import json
import random
import re
import sqlite3
import struct
import unittest
from pathlib import Path
from typing import Dict, List, Sequence

from packs import (
    PACKS, SECOND, Called, InRoom, Ran, Rows, good, judged_by_second, loaded, make_pack, needs_library,
)
from test_listing import CONTENTS, DATE, EXTENSIONS, MATRICES, SETS, SRS, planted
from test_not_judged import LOOSE, MISSING, NAMED_BY_NOTHING
from test_write import EXAMPLE, PAGE

from desterlin import library
from desterlin.console import shown_around
from desterlin.geopackage import rows_of
from desterlin.listing import EXTENSIONS as EXTENSION_ROWS, LISTING, REFERENCES, TABLES, TILES, Draft, Listing, Value
from desterlin.listing import laid as laid_as
from desterlin.rules import REASONS, Refusal
from desterlin.texts import Characters, ill_texts

GPKG_CHECK = loaded("gpkg-check")
NOT_TO_BE_ASKED_FOR = "its name is not UTF-8, so SQLite cannot be asked for it"
NONE = "belongs to no character of UTF-8"
NO_LISTING = "it has no listing, so nothing was judged"

# In hex, both sides of each line of Table 3-7 of the Unicode Standard, and then what is good though nobody can print
# it: a byte order mark, noncharacters, private characters, unassigned ones.
WELL_FORMED = """
    00 7f c280 c2bf df80 dfbf e0a080 e0bfbf e18080 ecbfbf ed8080 ed9fbf ee8080 efbfbf f0908080 f0bfbfbf f1808080
    f3bfbfbf f4808080 f48fbfbf   efbbbf efbbbf61 61efbbbf efb790 efbfbe f09fbfbe ee80bf f3b08080 cdb8
""".split()
ILL_FORMED = """
    80 bf c080 c1bf c27f c2c0 df7f dfc0 e08080 e09fbf e0c080 e0a07f e0bfc0 e17f80 ecc080 ed7fbf eda080 edbfbf ee7f80
    efc080 f08fbfbf f0c08080 f0907f80 f0bfc080 f090807f f0bfbfc0 f17f8080 f3c08080 f47f8080 f4908080 f5808080 f8888080
    ff   c2 e0 e0a0 f0 f090 f09080 61f48fbf   c3c3a9 e2c3a9 c3a9a9 eda0bdedb880
""".split()


def laid(parts: Sequence[bytes]) -> bytes:
    """A listing of these parts, without the writer, who refuses what is no UTF-8."""
    return laid_as(LISTING, parts)


def organizations(texts: Sequence[bytes]) -> List[bytes]:
    """The parts of a listing that has a reference system for each of these texts."""
    draft = Draft()
    for number, text in enumerate(texts):
        draft.add(REFERENCES, [number, number, text, b"any"])
    return draft.parts()


def a_text_of_its_own_for_each_field() -> bytes:
    """A listing with two rows in each table."""
    draft, numbers = Draft(), itertools.count()
    for table in TABLES:
        for _ in range(2):
            kinds = [field.kind for field in table.fields]
            values: List[Value] = [b"text%02d" % next(numbers) if "text" in kind.value else 0 for kind in kinds]
            draft.add(table, values)
    return laid(draft.parts())


def put(octets: str, at: int, listing: bytes = EXAMPLE) -> bytes:
    """The listing with other octets from this place on."""
    new = bytes.fromhex(octets)
    return listing[:at] + new + listing[at + len(new):]


def definition(start: int, length: int, listing: bytes) -> bytes:
    return put(struct.pack("<2I", start, length).hex(), 88, listing)


def scope_length(length: int, listing: bytes) -> bytes:
    return put(struct.pack("<I", length).hex(), 164, listing)


def at_172(octets: str) -> List[bytes]:
    return [put(character, 172) for character in octets.split()]


LATIN_EPSG, LATIN_WRITE, ACCENT = put("c4", 168), put("c4", 229), put("c3a9", 172)
FLAG_2 = "02"

# What docs/LISTING.md has in the table of request 2026-03, by its words.
CASES: Dict[str, List[bytes]] = {
    '`c4` for the E of "EPSG" (at 168)': [LATIN_EPSG],
    '`c4` for the f of "farm" (at 172)': [put("c4", 172)],
    '`c4` for the last e of "read-write" (at 229)': [LATIN_WRITE],
    "the same with scope's length 9, so that no text covers it": [scope_length(9, LATIN_WRITE)],
    '`c3 a9` for the "fa" of "farm"': [ACCENT],
    "the same, and definition (at 88) with start 4, length 1; or start 5, length 1":
        [definition(4, 1, ACCENT), definition(5, 1, ACCENT)],
    "the same, and definition with start 5, length 0": [definition(5, 0, ACCENT)],
    "`ed 9f bf`, `f4 8f bf bf`, `e0 a0 80` or `f0 90 80 80` from 172 on": at_172("ed9fbf f48fbfbf e0a080 f0908080"),
    "`ed a0 80`, `f4 90 80 80`, `e0 9f bf`, `f0 8f bf bf` or `c1 bf` from 172 on":
        at_172("eda080 f4908080 e09fbf f08fbfbf c1bf"),
    '`c3 a9` for the m of "farm" and the t of "tiles" (at 175): the end of a text cuts it': [put("c3a9", 175)],
    "`00`, `1b`, `ef bb bf` or `ef bf bf` from 172 on": at_172("00 1b efbbbf efbfbf"),
    "`c4` at 168, at 172 and at 229": [put("c4", 229, put("c4", 172, LATIN_EPSG))],
    "`c4` at 168 (table 1), and flag 2 (table 2)": [put(FLAG_2, 128, LATIN_EPSG)],
    "`c4` at 168 (table 1), and scope's length 11 (table 6)": [scope_length(11, LATIN_EPSG)],
    '`c3 89` for the EP of "EPSG": the organization is another, in any letter case': [put("c389", 168)],
}
# Those that are no report, with the words that the second program takes.
CALLS: Dict[str, List[object]] = {
    "verdict on code 100 with `c4` at 168": ["verdict", 100],
    "lookup on contents row 1 with `c4` at 168": ["lookup", 1, 0, 0, 0],
}


@needs_library
class ThePage(unittest.TestCase):
    """What docs/LISTING.md says of UTF-8."""

    def test_its_cases_are_what_the_library_and_the_second_program_say(self) -> None:
        table = PAGE.split("**Request 2026-03")[1].split("\n**")[0]
        answers = dict(re.findall(r"^\| 3\.\d \| (.*) \| ((?:accepted|refused).*) \|$", table, re.M))
        self.assertEqual(set(answers), {*CASES, *CALLS})
        for words, listings in CASES.items():
            for listing in listings:
                with self.subTest(words, listing=listing[168:].hex()):
                    said = Ran([library.program(), "report"], listing).out
                    self.assertEqual(said, judged_by_second(listing))
                    self.check(said.splitlines(), answers[words])
        for words, call in CALLS.items():
            self.assertEqual(Ran([SECOND, *call], LATIN_EPSG).out, f"{answers[words]}\n")

    def check(self, lines: List[str], answer: str) -> None:
        if answer.startswith("refused"):
            self.assertEqual(lines, [answer])
        else:
            self.assertRegex(lines[-1], "^total ")
            self.assertEqual("finding 111 0 -" in lines, answer == "accepted, with 111")

    def test_its_characters_are_those_of_python(self) -> None:
        table = PAGE.split("## Well-formed UTF-8")[1].split("So these are not")[0]
        lines = re.findall(r"^\| ([0-9a-f]{2}.*) \|$", table, re.M)
        self.assertEqual(len(lines), 9)
        behind: Dict[int, List[List[int]]] = {}
        for line in lines:
            first, *others = [octets_in(cell) for cell in line.split("|") if cell.strip()]
            behind.update(dict.fromkeys(first, others))
        for first in range(256):
            if first in behind:
                self.check_character(first, behind[first])
            else:
                tails = [b"", b"\x80", b"\x80\x80", b"\x90\x80\x80", b"\xbf\xbf\xbf"]
                self.assertFalse(any(is_decoded(bytes([first]) + tail) for tail in tails), first)

    def check_character(self, first: int, ranges: "List[List[int]]") -> None:
        """Both ends of each range are good behind this octet, one beyond is not, and neither is what breaks off."""
        ends = itertools.product(*((octets[0], octets[-1]) for octets in ranges))
        for character in [bytes([first, *tail]) for tail in ends]:
            self.assertTrue(is_decoded(character), character)
            for at, octets in enumerate(ranges, 1):
                others = [character[:at] + bytes([other]) for other in (octets[0] - 1, octets[-1] + 1)]
                spoilt = [character[:at], *(start + character[at + 1:] for start in others)]
                self.assertFalse(any(map(is_decoded, spoilt)), character)


def octets_in(cell: str) -> List[int]:
    """Of '80 to bf', or of 'ee, ef'."""
    numbers = [int(word, 16) for word in re.findall(r"\b[0-9a-f]{2}\b", cell)]
    return list(range(numbers[0], numbers[-1] + 1))


@needs_library
class TheLibraryAndPython(unittest.TestCase):
    """The library says which row has a text that is no UTF-8; which text that is, Python's decoder finds."""

    def test_agree_on_what_is_well_formed(self) -> None:
        octets = library.written(organizations(list(map(bytes.fromhex, WELL_FORMED))))
        assert isinstance(octets, bytes), octets
        self.assertIsInstance(library.judged(octets), list)
        self.assertEqual(ill_texts(Listing(octets)).total, 0)

    def test_agree_on_what_is_not(self) -> None:
        """Each by itself, behind all that are well-formed."""
        before = list(map(bytes.fromhex, WELL_FORMED))
        for text in map(bytes.fromhex, ILL_FORMED):
            with self.subTest(text.hex()):
                parts = organizations([*before, text])
                self.assertEqual(library.written(parts), Refusal(13, 1, len(before)))
                found = ill_texts(Listing(laid(parts)))
                self.assertEqual((found.total, found.told[0].row, found.told[0].octets), (1, len(before), text))

    def test_agree_on_the_place(self) -> None:
        """Each text is at fault in turn, together with all that stand behind it: twelve fields, in two rows each."""
        listing = a_text_of_its_own_for_each_field()
        texts = list(Listing(listing).texts())
        self.assertEqual((len(texts), len({(table, column) for table, _, column, _, _ in texts})), (24, 12))
        names = len(listing) - len(Listing(listing).names)
        for at, (table, row, column, _, _) in enumerate(texts):
            spoilt = bytearray(listing)
            for _, _, _, start, _ in texts[at:]:
                spoilt[names + start] = 0xC4
            with self.subTest(table=table.number, row=row, column=column):
                self.assertEqual(library.judged(bytes(spoilt)), Refusal(13, table.number, row))
                found = ill_texts(Listing(bytes(spoilt)))
                self.assertEqual((found.total, found.told[0][:3]), (24 - at, (table, row, column)))


def is_decoded(octets: bytes) -> bool:
    try:
        octets.decode("utf-8")
    except UnicodeDecodeError:
        return False
    return True


class Texts(unittest.TestCase):
    """What is found in the name octets as a whole is what a decoder finds text by text."""

    def test_of_every_span_of_many_small_tables(self) -> None:
        telling = [bytes([octet]) for octet in b"a\x7f\x80\x8f\x90\x9f\xa0\xbf\xc1\xc2\xdf\xe0\xed\xef\xf0\xf4\xf5\xff"]
        characters = [character.encode() for character in "é\u0800\ud7ff\uffff\U00010000\U0010ffff"]
        chance, seen = random.Random(13), {True: 0, False: 0}
        for _ in range(3_000):
            names = b"".join(chance.choices(telling + characters * 3, k=chance.randrange(1, 7)))
            found = Characters(names)
            for start, end in itertools.combinations_with_replacement(range(len(names) + 1), 2):
                is_good = is_decoded(names[start:end])
                self.assertEqual(found.is_text(start, end), is_good, (names, start, end))
                seen[is_good] += end - start > 1
        self.assertGreater(min(seen.values()), 5_000)

    def test_null_is_none_and_an_empty_one_is_well_formed_anywhere(self) -> None:
        draft = Draft()
        draft.names += "é".encode()
        draft.add(EXTENSION_ROWS, [None, None, b"", b""])
        parts = draft.parts()
        within_the_character = struct.pack("<2I", 1, 0)
        parts[5] = parts[5][:16] + within_the_character * 2
        listing = Listing(laid(parts))
        self.assertEqual([text[2:] for text in listing.texts()], [("extension_name", 1, 1), ("scope", 1, 1)])
        self.assertEqual(ill_texts(listing).total, 0)

    def test_octets_that_no_text_covers_are_free(self) -> None:
        parts = organizations([b"a"])
        self.assertEqual(ill_texts(Listing(laid([*parts[:6], parts[6] + b"\xff"]))).total, 0)

    def test_one_that_stands_in_many_fields_is_one(self) -> None:
        found = ill_texts(Listing(laid(organizations([b"\xff", b"a", b"\xff", b"\xfe", b"\xff"]))))
        self.assertEqual([(text.row, text.octets, text.fields) for text in found.told],
                         [(0, b"\xff", 3), (3, b"\xfe", 1)])

    def test_the_octet_at_fault_is_the_first_behind_the_last_character(self) -> None:
        faults = {"ff": 0, "61ff": 1, "c3c3a9": 0, "c3a9a9": 2, "61f48fbf": 1, "e28241": 0, "f0908080eda080": 4, "7fc3": 1}
        found = ill_texts(Listing(laid(organizations(list(map(bytes.fromhex, faults))))))
        self.assertEqual({text.octets.hex(): text.fault for text in found.told}, faults)

    def test_as_many_as_there_may_be_each_of_nearly_a_megabyte(self) -> None:
        """Text by text these would be 200,000,000,000 octets."""
        texts = [struct.pack("<2I24x", at, 750_000) for at in range(TILES.most)]
        names = bytes(1_000_000) + b"\xff" + bytes(48_575)
        found = ill_texts(Listing(laid([b"", b"", b"", b"", b"".join(texts), b"", names])))
        # The octet at 1,000,000 is in those that start up to there and end behind it.
        self.assertEqual((found.total, found.told[0].row), (TILES.most - 250_001, 250_001))
        self.assertEqual(found.told[0].fault, 749_999)


class Shown(unittest.TestCase):
    def test_what_is_ascii_and_printable_as_it_is(self) -> None:
        self.assertEqual(shown_around(b"Z\xfcrich ~", 1), '"Z\\xfcrich ~"')
        self.assertEqual(shown_around("ä\x1b\0\x7f".encode() + b"\xff", 5), '"\\xc3\\xa4\\x1b\\x00\\x7f\\xff"')

    def test_quotes_and_backslashes_do_not_look_like_ours(self) -> None:
        self.assertEqual(shown_around(b'"\\xff"\xff', 6), '"\\"\\\\xff\\"\\xff"')

    def test_long_ones_around_the_octet_at_fault(self) -> None:
        text = b"a" * 24 + b"\xff" + b"b" * 24
        self.assertEqual(shown_around(text, 24), '"' + "a" * 24 + "\\xff" + "b" * 24 + '"')
        around = "a" * 24 + "\\xff" + "b" * 24
        self.assertEqual(shown_around(b"<" + text, 25), f'…"{around}" (50 octets)')
        self.assertEqual(shown_around(text + b">", 24), f'"{around}"… (50 octets)')
        self.assertEqual(shown_around(b"<" * 999 + text + b">", 1_023), f'…"{around}"… (1,049 octets)')


def sql(octets: bytes) -> str:
    """A text with these octets, in SQL."""
    return f"CAST(x'{octets.hex()}' AS TEXT)"


HILL = f"UPDATE {SRS} SET definition = {sql(b'h' + bytes([0xFC]) + b'gel')} WHERE srs_id = 0"
SCOPE = f"UPDATE {EXTENSIONS} SET scope = {sql(b'read-' + bytes([0xFF]))}"


@needs_library
class InWords(InRoom):
    def told_of(self, pack: Path, *lines: str) -> "Dict[str, object]":
        """Both tools say these lines of a pack, and nothing else; the facts of the JSON are given back."""
        told = [f"{pack}: {line}" for line in lines]
        self.assertEqual(self.trouble_with(pack), "".join(f"gpkg-listing: {line}\n" for line in told))
        called = Called(GPKG_CHECK, pack)
        self.assertEqual((called.status, called.out), (2, ""))
        self.assertEqual(called.err, "".join(f"gpkg-check: {line}\n" for line in told))
        called = Called(GPKG_CHECK, "--json", pack)
        facts = json.loads(called.out)
        words = {"path": str(pack), "status": 2, "trouble": "\n".join(told)}
        self.assertEqual((called.status, {name: facts.pop(name) for name in words}), (2, words))
        return facts

    def test_each_text_with_its_place_in_the_pack_and_its_octet(self) -> None:
        facts = self.told_of(
            self.pack(good(), HILL, SCOPE),
            f'the listing is not written, reason 13: {REASONS[13]} (table 1, reference systems, row 2: table "{SRS}" '
            "rowid 3)",
            f'reference systems row 2 (table "{SRS}" rowid 3), definition: "h\\xfcgel": octet 1, which is fc, {NONE}',
            f'extensions row 0 (table "{EXTENSIONS}" rowid 1), scope: "read-\\xff": octet 5, which is ff, {NONE}',
            NO_LISTING,
        )
        self.assertEqual(facts, {"ill_total": 2, "ill_texts": [
            {"table": "reference systems", "row": 2, "origin": f'table "{SRS}" rowid 3', "column": "definition",
             "text": '"h\\xfcgel"', "length": 5, "octet": 1, "value": 0xFC, "fields": 1},
            {"table": "extensions", "row": 0, "origin": f'table "{EXTENSIONS}" rowid 1', "column": "scope",
             "text": '"read-\\xff"', "length": 6, "octet": 5, "value": 0xFF, "fields": 1},
        ]})

    def test_of_a_listing(self) -> None:
        listing = self.room / "ill.listing"
        listing.write_bytes(laid(rows_of(str(self.pack(good(), SCOPE)), lambda words: None).parts))
        called = Called(GPKG_CHECK, "--listing", listing)
        self.assertEqual((called.status, called.out), (2, ""))
        self.assertEqual(called.err.splitlines(), [f"gpkg-check: {listing}: {line}" for line in [
            f"the listing is refused, reason 13: {REASONS[13]} (table 6, extensions, row 0)",
            f'extensions row 0, scope: "read-\\xff": octet 5, which is ff, {NONE}',
        ]])
        told = json.loads(Called(GPKG_CHECK, "--json", "--listing", listing).out)
        self.assertEqual((told["ill_total"], told["ill_texts"][0]["origin"]), (1, None))

    def test_of_very_many_twenty_are_told_and_the_others_counted(self) -> None:
        spoil = f"UPDATE {CONTENTS} SET table_name = CAST(x'fc' AS TEXT) || rowid WHERE data_type = 'features'"
        more = {20: [], 21: ["and 1 more text that is no UTF-8"], 30: ["and 10 more texts that are no UTF-8"]}
        for count, last in more.items():
            rows = planted([(CONTENTS, None, (f"hill {at}", "features", DATE, 0)) for at in range(count)])
            pack = make_pack(self.room / f"{count}.gpkg", rows, spoil)
            lines = [line.split(".gpkg: ")[1] for line in self.trouble_with(pack).splitlines()]
            self.assertEqual(sum('"\\xfc' in line for line in lines), 20)
            self.assertEqual(lines[21:], [*last, NO_LISTING])
            told = json.loads(Called(GPKG_CHECK, "--json", pack).out)
            self.assertEqual((told["ill_total"], len(told["ill_texts"])), (count, 20))

    def test_what_else_is_left_out_is_told_beside_them(self) -> None:
        rows = good()
        del rows["farm"]
        lines = self.trouble_with(self.pack(rows, SCOPE)).splitlines()
        self.assertEqual([line.split(".gpkg: ")[1] for line in lines[2:]], [f'tiles of "farm": {MISSING}', NO_LISTING])

    def test_several_processes_tell_the_same(self) -> None:
        packs = [self.pack(good(), SCOPE), PACKS / "alp-latin.gpkg", PACKS / "alp.gpkg"]
        for more in [[], ["--json"]]:
            one, two = (Called(GPKG_CHECK, *packs, "--jobs", jobs, *more) for jobs in [1, 2])
            self.assertEqual((two.status, two.out, two.err), (2, one.out, one.err))
        self.assertEqual([json.loads(line).get("ill_total") for line in two.out.splitlines()], [1, 1, None])


@needs_library
class Carried(InRoom):
    """The exporter hands on what the pack holds: nothing is mended, and nothing is replaced."""

    def names_of(self, pack: Path) -> bytes:
        return rows_of(str(pack), lambda words: None).parts[6]

    def test_octets_that_are_no_utf_8(self) -> None:
        self.assertTrue(self.names_of(self.pack(good(), SCOPE)).endswith(b"gpkg_webpread-\xff"))

    def test_characters_that_nobody_can_print_are_good(self) -> None:
        text = "\ufeffa\0\x1b\u0085\ufdd0\uffff\ue000\U0010ffffé"
        define = f"UPDATE {SRS} SET definition = {sql(text.encode())} WHERE srs_id = 4326"
        listing = self.listing_of(self.pack(good(), define))
        self.assertEqual(Listing(listing).references()[0].definition, text.encode())
        self.assertEqual(judged_by_second(listing), "total 0\n")

    def wide(self, encoding: str, text: bytes) -> Path:
        """A pack in UTF-16 whose definition of 4326 has these octets."""
        pack = self.room / f"{encoding}-{text.hex()}.gpkg"
        connection = sqlite3.connect(pack, isolation_level=None)
        connection.execute(f"PRAGMA encoding = '{encoding}'")
        connection.execute("CREATE TABLE octets (stored)")
        connection.execute("INSERT INTO octets VALUES (?)", [text])
        connection.close()
        # Octets from a table, and those alone, are taken for a text in the encoding of the pack.
        stored = "(SELECT CAST(stored AS TEXT) FROM octets)"
        return make_pack(pack, good(), f"UPDATE {SRS} SET definition = {stored} WHERE srs_id = 4326")

    def test_utf_16_with_an_unpaired_surrogate_at_the_end_is_refused(self) -> None:
        for encoding, text in {"UTF-16le": "61003dd8", "UTF-16be": "0061d83d"}.items():
            said = self.trouble_with(self.wide(encoding, bytes.fromhex(text)))
            self.assertIn('definition: "a\\xed\\xa0\\xbd": octet 1, which is ed, belongs to no character', said)

    def test_utf_16_with_one_further_on_comes_from_sqlite_joined_with_what_follows(self) -> None:
        """Nobody behind SQLite can tell."""
        for encoding, text in {"UTF-16le": "61003dd862006300", "UTF-16be": "0061d83d00620063"}.items():
            listing = Listing(self.listing_of(self.wide(encoding, bytes.fromhex(text))))
            self.assertEqual(listing.references()[0].definition, "a\U0001f462c".encode())

    def test_utf_16_with_pairs_is_listed_as_utf_8(self) -> None:
        listing = Listing(self.listing_of(self.wide("UTF-16le", "Älpli 😀".encode("utf-16le"))))
        self.assertEqual(listing.references()[0].definition, "Älpli 😀".encode())


STAND_IN, LATIN = "xlpli", b"\xc4lpli"


def in_latin_1(pack: Path) -> Path:
    """Python hands SQLite nothing but UTF-8, so the name is put in its place in the file."""
    pack.write_bytes(pack.read_bytes().replace(STAND_IN.encode(), LATIN))
    return pack


def named(name: str) -> Rows:
    """Good rows of tiles under another name."""
    rows = good()
    rows[name] = rows.pop("farm")
    for table in [CONTENTS, SETS, MATRICES]:
        rows[table] = [(name, *cells[1:]) for cells in rows[table]]
    return rows


@needs_library
class NamesOfTables(InRoom):
    def test_the_twin_of_a_latin_pack_is_clean_and_has_its_name(self) -> None:
        drawn = self.room / "alp.svg"
        self.assertEqual(Called(GPKG_CHECK, PACKS / "alp.gpkg", "--svg", drawn).status, 0)
        self.assertIn("Älpli", drawn.read_text(encoding="utf-8"))
        facts = json.loads(Called(GPKG_CHECK, "--json", PACKS / "alp-latin.gpkg").out)["ill_texts"]
        self.assertEqual([(text["column"], text["text"]) for text in facts], [("table_name", '"\\xc4lpli"')])

    def test_a_table_that_sqlite_cannot_be_asked_for(self) -> None:
        lines = self.trouble_with(in_latin_1(self.pack(named(STAND_IN)))).splitlines()
        self.assertIn(f'reason 13: {REASONS[13]} (table 2, contents, row 0: table "{CONTENTS}" rowid 1)', lines[0])
        self.assertIn('"\\xc4lpli": octet 0, which is c4, ', lines[1])
        self.assertTrue(lines[1].endswith("; 4 fields have this text"), lines[1])
        self.assertIn(f'tiles of "\\xc4lpli": {NOT_TO_BE_ASKED_FOR}', lines[2])
        self.assertEqual(len(lines), 4)

    def test_a_view_that_sqlite_cannot_be_asked_for(self) -> None:
        rows = named(STAND_IN)
        del rows[STAND_IN]
        view = f"CREATE VIEW {STAND_IN} AS SELECT * FROM loose"
        lines = self.trouble_with(in_latin_1(self.pack(rows, LOOSE, view))).splitlines()
        self.assertIn("reason 13", lines[0])
        self.assertIn(f'tiles of "\\xc4lpli": {NOT_TO_BE_ASKED_FOR}', lines[2])
        # What the view shows cannot be asked for either.
        self.assertIn(f'table "loose": {NAMED_BY_NOTHING}', lines[3])

    def test_a_name_in_utf_8_is_not_that_of_a_table_in_latin_1(self) -> None:
        rows = named("Älpli")
        rows[STAND_IN] = rows.pop("Älpli")
        called = Called(GPKG_CHECK, in_latin_1(self.pack(rows)))
        self.assertEqual((called.status, called.err), (1, ""))
        self.assertIn(f'not judged: tiles of "Älpli": {MISSING}\n', called.out)

    def test_a_latin_name_that_no_row_has_is_none_of_the_listing(self) -> None:
        called = Called(GPKG_CHECK, in_latin_1(self.pack(good(), f"CREATE TABLE {STAND_IN} (x)")))
        self.assertEqual((called.status, called.err), (0, ""))


if __name__ == "__main__":
    unittest.main()
