"""The metadata tables: their listing, the cases of docs/METADATA.md, and what the tools make of them and say."""

from __future__ import annotations

import json
import re
import struct
import unittest
from pathlib import Path
from typing import Callable, Dict, List, Optional, Tuple

from packs import DATE, GPKG_LISTING, PACKS, ROOT, Called, Cells, InRoom, Ran, Rows, good, loaded, needs_library

from desterlin import library
from desterlin.geopackage import MOST_COMPLAINTS
from desterlin.listing import (
    METADATA, METADATA_REFERENCES, METADATA_TABLES, NULL, RECORDS, Draft, MetadataListing, Value, laid, parts_of,
)
from desterlin.rules import METADATA_RULES, REASONS

GPKG_CHECK = loaded("gpkg-check")
SAMPLES = ROOT / "samples"
PAGE = (ROOT / "docs" / "METADATA.md").read_text(encoding="utf-8")
MD, REFERENCE = "gpkg_metadata", "gpkg_metadata_reference"

GOOD_PACK = (SAMPLES / "good-pack.listing").read_bytes()
NOTES = (SAMPLES / "notes.metadata").read_bytes()
HEADER_ALONE = laid(METADATA, [b"", b"", b""])
LONGEST = laid(METADATA, [bytes(16 * 256), bytes(64 * 4_096), bytes(1_048_576)])
ABSENT = struct.pack("<2I", *NULL)


def put(at: int, octets: bytes, listing: bytes = NOTES) -> bytes:
    return listing[:at] + octets + listing[at + len(octets):]


def word(at: int, number: int, listing: bytes = NOTES) -> bytes:
    return put(at, struct.pack("<I", number), listing)


def long(at: int, number: int, listing: bytes = NOTES) -> bytes:
    return put(at, struct.pack("<q", number), listing)


def counts(*numbers: int) -> bytes:
    """The header alone with other counts."""
    listing = HEADER_ALONE
    for table, number in enumerate(numbers):
        listing = word(8 + 8 * table, number, listing)
    return listing


ILL_SCOPE = put(192 + 19, b"\xc4")
LATIN = (SAMPLES / "named-in-latin-1.listing").read_bytes()
DOUBLED = (SAMPLES / "doubled-address.listing").read_bytes()

# What docs/METADATA.md has in its first table of cases, by its words: listings, and metadata listings beside them.
CASES: Dict[str, List[Tuple[bytes, bytes]]] = {
    "the notes beside a listing that has findings itself, `samples/doubled-address.listing`": [(DOUBLED, NOTES)],
    "the notes beside `samples/named-in-latin-1.listing`": [(LATIN, NOTES)],
    "no octets at all beside that listing": [(LATIN, b"")],
    **{words: [(GOOD_PACK, metadata) for metadata in listings] for words, listings in {
        "the notes": [NOTES],
        "no octets at all; the first 31 of the notes": [b"", NOTES[:31]],
        "a header alone: version 1, length 32, all counts 0, all offsets 32": [HEADER_ALONE],
        "1,314,848 octets, every table at its most, and one octet more": [LONGEST + b"\0"],
        "the notes with version 2": [word(0, 2)],
        "the notes with an octet more behind them": [NOTES + b"x"],
        "a header alone with count 257 for table 11, 4,097 for table 12 and 1,048,577 for table 13":
            [counts(257, 4_097, 1_048_577)],
        "the same with count 256 for table 11": [counts(256, 4_097, 1_048_577)],
        "the same with count 4,096 for table 12": [counts(256, 4_096, 1_048_577)],
        "the notes with offset 64 for table 11": [word(12, 64)],
        "the notes with count 74 for table 13": [word(24, 74)],
        "the notes with NULL for the md_scope of record 1": [put(56, ABSENT)],
        "the notes with NULL for the reference_scope of reference 1; for its timestamp":
            [put(128, ABSENT), put(152, ABSENT)],
        "the notes with NULL for the table_name of reference 1": [put(136, ABSENT)],
        "the notes with length 10 for the column_name of reference 1: it ends past the names": [word(148, 10)],
        "the notes with flags 4 in reference 0 (at 120), or spare 1": [word(120, 4), word(124, 1)],
        "the notes with row_id_value 1 and flags 0 in reference 0; with 2^32": [long(96, 1), long(96, 2**32)],
        "the notes with md_parent_id 1 and flags 0 in reference 0; and with flags 1":
            [long(112, 1), word(120, 1, long(112, 1))],
        "the notes with flags 3 and 0 for both numbers in reference 1: both are present, and 0":
            [long(160, 0, long(176, 0))],
        '`c4` for the f of "fieldSession" and for the g of "geopackage"': [put(192, b"\xc4", ILL_SCOPE)],
        '`c4` for the g of "geopackage"': [ILL_SCOPE],
        "the same, and flags 4 in reference 1": [word(184, 4, ILL_SCOPE)],
        "the same, and NULL for the timestamp of reference 1": [put(152, ABSENT, ILL_SCOPE)],
    }.items()},
}


def metadata_of(records: List[Tuple[int, bytes]], references: "List[List[Value]]") -> bytes:
    draft = Draft(METADATA)
    for record in records:
        draft.add(RECORDS, record)
    for reference in references:
        draft.add(METADATA_REFERENCES, reference)
    return laid(METADATA, draft.parts())


def text_in(cell: str) -> Optional[bytes]:
    return None if cell == "-" else cell.replace('""', "").encode()


def number_in(cell: str) -> Optional[int]:
    return None if cell == "-" else int(cell)


NOTE_IDS = [(1, b"fieldSession"), (2, b"dataset")]


def one_record(cells: List[str]) -> bytes:
    return metadata_of([(1, text_in(cells[0]) or b"")], [])


def one_reference(cells: List[str]) -> bytes:
    scope, table, column, *numbers = cells
    row_id, file_id, parent_id = map(number_in, numbers)
    texts = [text_in(scope), text_in(table), text_in(column), DATE.encode()]
    return metadata_of(NOTE_IDS, [[*texts, row_id, file_id, parent_id]])


def one_timestamp(cells: List[str]) -> bytes:
    return metadata_of(NOTE_IDS, [[b"table", b"valley", None, text_in(cells[0]), None, 1, None]])


def lines_of(listing: bytes, metadata: bytes) -> List[str]:
    ran = Ran([library.program(), "report-metadata"], library.framed([listing, metadata]))
    assert (ran.status, ran.err) == (0, ""), ran.err
    return ran.out.splitlines()


def codes_in(lines: List[str]) -> str:
    """The codes of findings that are all on row 0, and have no partner."""
    found = [re.fullmatch(r"finding (\d+) 0 -", line) for line in lines[:-1]]
    return " ".join(one[1] if one else "?" for one in found) or "none"


@needs_library
class ThePage(unittest.TestCase):
    """What docs/METADATA.md says."""

    def cases(self, first: str, columns: int) -> List[List[str]]:
        """The lines of the table of cases whose second column is called so."""
        table = PAGE.split(f"\n| No | {first} | ")[1].split("\n\n")[0]
        lines = [line.strip("| ").split(" | ") for line in table.splitlines()[2:]]
        self.assertEqual({len(line) for line in lines}, {columns})
        return lines

    def test_its_listing_is_the_sample(self) -> None:
        octets = re.findall(r"^ +\d+  ((?:[0-9a-f]{2} )+)", PAGE.split("## A metadata listing in octets")[1], re.M)
        self.assertEqual(bytes.fromhex("".join(octets)), NOTES)
        self.assertEqual(laid(METADATA, parts_of(METADATA, NOTES)), NOTES)
        self.assertEqual("\n".join(lines_of(GOOD_PACK, NOTES)) + "\n", (SAMPLES / "notes.printed").read_text())

    def test_its_cases_of_listings(self) -> None:
        told = self.cases("Case", 3)
        self.assertEqual([words for _, words, _ in told if words not in CASES], [])
        self.assertEqual({words for _, words, _ in told}, set(CASES))
        for _, words, answer in told:
            for listing, metadata in CASES[words]:
                with self.subTest(words):
                    lines = [answer]
                    if not answer.startswith("refused"):
                        found = re.findall(r"^(\d+) on row (\d+)$", answer)
                        lines = [*(f"finding {code} {row} -" for code, row in found), f"total {len(found)}"]
                    self.assertEqual(lines_of(listing, metadata), lines)

    def check(self, first: str, columns: int, made: "Callable[[List[str]], bytes]") -> None:
        for _, *cells, codes in self.cases(first, columns):
            with self.subTest(" ".join(cells)):
                self.assertEqual(codes_in(lines_of(GOOD_PACK, made(cells))), codes)

    def test_its_records(self) -> None:
        self.check("md_scope", 3, one_record)

    def test_its_references(self) -> None:
        self.check("reference_scope", 8, one_reference)

    def test_its_timestamps(self) -> None:
        self.check("timestamp", 3, one_timestamp)

    def test_every_code_has_a_case_on_both_sides(self) -> None:
        cases = [*self.cases("md_scope", 3), *self.cases("reference_scope", 8), *self.cases("timestamp", 3)]
        found = {code for case in cases for code in case[-1].split() if code != "none"}
        self.assertEqual(found, set(map(str, METADATA_RULES)))
        numbers = {case[0] for case in [*cases, *self.cases("Case", 3)]}
        self.assertEqual(numbers, {f"5.{number}" for number in range(1, 16)})

    def test_its_19_scopes_are_good(self) -> None:
        names = re.findall(r"names of Table 21: ([\w, ]+) \|", PAGE)[0].split(", ")
        self.assertEqual(len(names), 19)
        records = [(at, name.encode()) for at, name in enumerate(names)]
        self.assertEqual(lines_of(GOOD_PACK, metadata_of(records, [])), ["total 0"])

    def test_what_it_says_is_not_judged(self) -> None:
        twice = [(1, b"dataset"), (1, b"dataset"), (2, b"dataset")]
        circle: "List[List[Value]]" = [
            [b"table", b"valley", None, DATE.encode(), None, one, other] for one, other in [(1, 2), (2, 1)]
        ]
        self.assertEqual(lines_of(GOOD_PACK, metadata_of(twice, circle)), ["total 0"])

    def test_the_longest_is_accepted(self) -> None:
        """Its texts are all empty, and so present, and its references all of the id 0, which every record has."""
        self.assertEqual(len(LONGEST), METADATA.most)
        expected = [f"finding 945 {row} -" for row in range(256)]
        expected += [f"finding {code} {row} -" for code in [965, 975, 995, 1005] for row in range(4_096)]
        self.assertEqual(lines_of(GOOD_PACK, LONGEST), [*expected, f"total {len(expected)}"])


def noted(records: Optional[List[Cells]] = None, references: Optional[List[Cells]] = None) -> Rows:
    """Good rows with good notes, or with these."""
    rows = good()
    rows[MD] = [(1, "fieldSession"), (2, "dataset")] if records is None else records
    rows[REFERENCE] = references if references is not None else [
        ("geopackage", None, None, None, DATE, 1, None),
        ("row/col", "farm", "tile_data", 3, DATE, 2, 1),
    ]
    return rows


# Reference rows beside good records, and what is said of each finding.
WORDS: "List[Tuple[Cells, Dict[int, str]]]" = [
    (("Table", "farm", "x", 0, DATE, 1, None), {965: 'reference_scope is "Table"'}),
    (("geopackage", "farm", None, None, DATE, 1, None),
     {975: 'reference_scope "geopackage": table_name is "farm" and not NULL'}),
    (("geopackage", "", None, None, DATE, 1, None),
     {975: 'reference_scope "geopackage": table_name is "" and not NULL'}),
    (("table", None, None, None, DATE, 1, None), {975: 'reference_scope "table": table_name is NULL'}),
    (("table", "Farm", None, None, DATE, 1, None), {975: 'reference_scope "table": "Farm" is not in contents'}),
    (("table", "farm", "undefined", -1, DATE, 1, None), {
        985: 'reference_scope "table": column_name is "undefined" and not NULL',
        995: 'reference_scope "table": row_id_value is -1 and not NULL',
    }),
    (("row/col", "farm", None, None, DATE, 1, None), {
        985: 'reference_scope "row/col": column_name is NULL', 995: 'reference_scope "row/col": row_id_value is NULL',
    }),
    (("table", "farm", None, None, "2012-08-17 14:49:32", 1, None), {1005: 'timestamp is "2012-08-17 14:49:32"'}),
    (("table", "farm", None, None, DATE, 7, None), {1015: "md_file_id is 7, and no metadata record has that id"}),
    (("table", "farm", None, None, DATE, 1, 0), {1025: "md_parent_id is 0, and no metadata record has that id"}),
    (("table", "farm", None, None, DATE, 1, 1), {1025: "md_parent_id and md_file_id are both 1"}),
    (("table", "farm", None, None, DATE, 7, 7), {
        1015: "md_file_id is 7, and no metadata record has that id",
        1025: "md_parent_id is 7, and no metadata record has that id; md_parent_id and md_file_id are both 7",
    }),
]


@needs_library
class Packs(InRoom):
    """gpkg-check on packs with metadata tables."""

    def check(self, *words: object) -> Called:
        return Called(GPKG_CHECK, *words)

    def test_findings_in_words(self) -> None:
        pack = self.pack(noted([(1, "fieldSession"), (2, "style")], [cells for cells, _ in WORDS]))
        called = self.check("--json", pack)
        told = json.loads(called.out)
        self.assertEqual((called.status, called.err, told["status"]), (1, "", 1))
        expected = [(945, 1, 'id 2: md_scope is "style"')]
        expected += [(code, row, words) for row, (_, found) in enumerate(WORDS) for code, words in found.items()]
        found = [(finding["code"], finding["row"], finding["words"]) for finding in told["findings"]]
        self.assertEqual(found, sorted(expected))
        self.assertEqual({code for code, _, _ in found}, set(METADATA_RULES))
        self.assertEqual(sum(line["count"] for line in told["summary"]), told["total"])

    def test_rows_are_found_again_in_the_pack(self) -> None:
        columns = "rowid, reference_scope, timestamp, md_file_id, row_id_value"
        pack = self.pack(noted(), f"INSERT INTO {REFERENCE} ({columns}) VALUES (70, 'geopackage', '{DATE}', 1, 5)")
        place = f'metadata references row 2 (table "{REFERENCE}" rowid 70)'
        words = 'reference_scope "geopackage": row_id_value is 5 and not NULL'
        self.assertIn(f"\n     {place}: {words}\n", self.check(pack).out)
        finding = json.loads(self.check("--json", pack).out)["findings"][0]
        values = {"reference_scope": "geopackage", "table_name": None, "column_name": None, "timestamp": DATE,
                  "row_id_value": 5, "md_file_id": 1, "md_parent_id": None}
        at = {"table": "metadata references", "row": 2, "origin": f'table "{REFERENCE}" rowid 70', "columns": values}
        self.assertEqual((finding["found_at"], finding["partner"], finding["partner_at"]), (at, None, None))
        self.assertEqual((finding["requirement"], finding["table"]), ("Req 99", "metadata references"))

    def test_findings_of_tiles_come_first(self) -> None:
        rows = noted([(1, "style")], [])
        rows["farm"].append((1, 1, 1))
        called = self.check(self.pack(rows))
        self.assertEqual(re.findall(r"^(\d{3,4})  ", called.out, re.M), ["541", "945"])
        self.assertIn("        2  in all; 42 rules without findings\n", called.out)
        self.assertEqual(called.out.splitlines()[0], f"{self.room}/pack.gpkg: 2 findings")

    def test_summary_names_the_two_tables_where_there_is_one_of_them(self) -> None:
        called = self.check(self.pack(noted()))
        self.assertEqual((called.status, called.err), (0, ""))
        self.assertTrue(called.out.endswith("extensions 1, metadata records 2, metadata references 2\n"), called.out)
        rows = json.loads(self.check("--json", self.room / "pack.gpkg").out)["rows"]
        self.assertEqual((rows["metadata records"], rows["metadata references"], len(rows)), (2, 2, 8))

    def test_a_pack_without_them_is_told_as_before(self) -> None:
        called = self.check(self.pack(good()))
        self.assertNotIn("metadata", called.out)
        self.assertNotIn("metadata", json.dumps(json.loads(self.check("--json", self.room / "pack.gpkg").out)["rows"]))

    def test_one_table_without_the_other_is_judged_and_the_other_is_missed(self) -> None:
        for missing, found in {REFERENCE: ["945 0"], MD: ["1015 0", "1015 1", "1025 1"]}.items():
            rows = noted([(1, "style")] if missing == REFERENCE else None)
            del rows[missing]
            pack = self.pack(rows)
            told = json.loads(self.check("--json", pack).out)
            self.assertEqual([f"{one['code']} {one['row']}" for one in told["findings"]], found)
            needs = "a GeoPackage with metadata has both gpkg_metadata and gpkg_metadata_reference"
            self.assertEqual((told["status"], told["not_judged"]), (1, [f"there is no table {missing}, and {needs}"]))
            pack.unlink()

    def test_empty_tables_have_no_findings(self) -> None:
        self.assertEqual(self.check(self.pack(noted([], []))).status, 0)

    def test_letter_case_of_the_tables_does_not_matter_and_views_are_read(self) -> None:
        cells = {"reference_scope": "'table'", "table_name": "'farm'", "column_name": "NULL", "ROW_ID_VALUE": "4",
                 "timestamp": f"'{DATE}'", "md_file_id": "1", "md_parent_id": "NULL"}
        view = ", ".join(f"{value} AS {name}" for name, value in cells.items())
        pack = self.pack(
            good(), "CREATE TABLE GPKG_Metadata (ID, MD_Scope)", "INSERT INTO GPKG_Metadata VALUES (1, 'tile')",
            f"CREATE VIEW {REFERENCE} AS SELECT {view}",
        )
        told = json.loads(self.check("--json", pack).out)
        self.assertEqual([(one["code"], one["found_at"]["origin"]) for one in told["findings"]],
                         [(995, f'view "{REFERENCE}" row 0')])

    def test_what_a_note_holds_does_not_reach_the_terminal(self) -> None:
        called = self.check(self.pack(noted([(1, "\x1b[31m"), (2, "dataset")])))
        self.assertNotIn("\x1b", called.out)
        self.assertIn('md_scope is "\\x1b[31m"', called.out)

    def test_numbers_of_any_size_are_carried(self) -> None:
        least, most = -(2**63), 2**63 - 1
        rows = noted([(least, "tile"), (most, "tile")], [("row", "farm", None, least, DATE, most, least)])
        self.assertEqual(self.check(self.pack(rows)).status, 0)


@needs_library
class Trouble(InRoom):
    """Metadata that has no listing, or whose listing is refused: the rest is judged all the same, with status 2."""

    def check_told(self, pack: Path, *lines: str) -> Dict[str, object]:
        """What is told of it, by gpkg-listing too; the facts for machines are given."""
        called = Called(GPKG_CHECK, pack)
        self.assertEqual(called.status, 2)
        self.assertEqual(called.err.splitlines(), [f"gpkg-check: {pack}: {line}" for line in lines])
        self.assertIn("\nnot judged: metadata: it has no listing that is accepted\n", called.out)
        self.assertIn("541  two tiles at one address", called.out)
        self.assertTrue(called.out.splitlines()[0].endswith(": 1 finding, and 1 part not judged"))
        self.assertNotIn("metadata records", called.out.split("\njudged: ")[1])
        out, meta = self.room / "out.listing", self.room / "out.metadata"
        listed = Called(GPKG_LISTING, pack, out, "--metadata", meta)
        self.assertEqual((listed.status, listed.out), (2, ""))
        self.assertEqual(listed.err.splitlines(), [f"gpkg-listing: {pack}: {line}" for line in lines])
        self.assertFalse(out.exists() or meta.exists())
        self.assertEqual(Called(GPKG_LISTING, pack, out).status, 0)
        out.unlink()
        told = json.loads(Called(GPKG_CHECK, "--json", pack).out)
        self.assertEqual((told["status"], told["total"]), (2, 1))
        self.assertEqual(told["trouble"], "\n".join(f"{pack}: {line}" for line in lines))
        return told

    def doubled(self, rows: Rows, *statements: str) -> Path:
        rows["farm"].append((1, 1, 1))
        return self.pack(rows, *statements)

    NO_LISTING = "its metadata has no listing, so that was not judged"

    def test_values_of_another_kind(self) -> None:
        pack = self.doubled(noted(
            [(1, None), ("one", "tile"), (1.0, "tile")],
            [("table", "farm", None, "abc", DATE, 1, None), ("table", 5, None, None, DATE, None, 2.5),
             (None, "farm", b"x", None, 20240229, 1, None)],
        ))
        whole, text, or_null = "a whole number", "a text", " or NULL"
        wrong = [
            (MD, 0, "md_scope", "NULL", text),
            (MD, 1, "id", 'the text "one"', whole),
            (MD, 2, "id", "the REAL 1.0", whole),
            (REFERENCE, 0, "row_id_value", 'the text "abc"', whole + or_null),
            (REFERENCE, 1, "table_name", "the INTEGER 5", text + or_null),
            (REFERENCE, 1, "md_file_id", "NULL", whole),
            (REFERENCE, 1, "md_parent_id", "the REAL 2.5", whole + or_null),
            (REFERENCE, 2, "reference_scope", "NULL", text),
            (REFERENCE, 2, "column_name", "a BLOB of 1 octet", text + or_null),
            (REFERENCE, 2, "timestamp", "the INTEGER 20240229", text),
        ]
        lines = []
        for table, row, column, value, wanted in wrong:
            place = f'table "{table}", row {row} (rowid {row + 1}): column {column}'
            lines.append(f"{place}: {value} stands where a listing carries {wanted}")
        self.check_told(pack, *lines, self.NO_LISTING)

    def test_one_row_too_many(self) -> None:
        for table, most, rows in [
            (MD, 256, noted([(n, "tile") for n in range(257)])),
            (REFERENCE, 4_096, noted(references=[("geopackage", None, None, None, DATE, 1, None)] * 4_097)),
        ]:
            pack = self.doubled(rows)
            title = {MD: "metadata records", REFERENCE: "metadata references"}[table]
            words = f"a listing carries at most {most:,} rows of {title} (docs/METADATA.md)"
            self.check_told(pack, f'table "{table}", row {most} (rowid {most + 1}): {words}', self.NO_LISTING)
            pack.unlink()

    def test_the_most_of_each_is_carried(self) -> None:
        records: "List[Cells]" = [(n, "tile") for n in range(256)]
        references: "List[Cells]" = [("geopackage", None, None, None, DATE, 1, None)] * 4_096
        self.assertEqual(Called(GPKG_CHECK, self.pack(noted(records, references))).status, 0)

    def test_one_name_octet_too_many(self) -> None:
        pack = self.doubled(noted([(1, "x" * 1_048_577)], []))
        words = "a listing carries at most 1,048,576 octets of names and texts (docs/METADATA.md)"
        self.check_told(pack, f'table "{MD}", row 0 (rowid 1): {words}', self.NO_LISTING)

    def test_a_column_that_is_missing(self) -> None:
        pack = self.doubled(noted(), f"ALTER TABLE {REFERENCE} RENAME COLUMN timestamp TO at")
        self.check_told(pack, f'table "{REFERENCE}": there is no column timestamp', self.NO_LISTING)

    def test_texts_that_are_no_utf_8(self) -> None:
        spoil = [f"UPDATE {MD} SET md_scope = CAST(x'68fc' AS TEXT) WHERE id = 2",
                 f"UPDATE {REFERENCE} SET column_name = CAST(x'ff' AS TEXT) WHERE md_file_id = 2"]
        pack = self.doubled(noted(), *spoil)
        none = "belongs to no character of UTF-8"
        origins = [f'table "{MD}" rowid 2', f'table "{REFERENCE}" rowid 2']
        place = f"(table 11, metadata records, row 1: {origins[0]})"
        told = self.check_told(
            pack,
            f"the metadata listing is refused, reason 13: {REASONS[13]} {place}",
            f'metadata records row 1 ({origins[0]}), md_scope: "h\\xfc": octet 1, which is fc, {none}',
            f'metadata references row 1 ({origins[1]}), column_name: "\\xff": octet 0, which is ff, {none}',
        )
        texts = told["ill_texts"]
        assert isinstance(texts, list)
        facts = [(text["table"], text["origin"], text["column"], text["octet"], text["value"]) for text in texts]
        self.assertEqual(facts, [
            ("metadata records", origins[0], "md_scope", 1, 0xFC),
            ("metadata references", origins[1], "column_name", 0, 0xFF),
        ])
        self.assertEqual(told["ill_total"], 2)

    def test_with_the_tables_that_have_no_listing_all_is_told_at_once(self) -> None:
        rows = noted([(1, None)], [])
        rows["farm"][0] = ("zero", 0, 0)
        called = Called(GPKG_CHECK, self.pack(rows))
        self.assertEqual((called.status, called.out), (2, ""))
        self.assertEqual([line.split(": column ")[-1].split(":")[0] for line in called.err.splitlines()[:-1]],
                         ["zoom_level", "md_scope"])
        self.assertTrue(called.err.endswith("it has no listing, so nothing was judged\n"))

    def test_of_very_many_twenty_are_told_and_the_others_counted(self) -> None:
        lines = Called(GPKG_CHECK, self.pack(noted([(n, None) for n in range(30)], []))).err.splitlines()
        self.assertEqual(len(lines), MOST_COMPLAINTS + 2)
        self.assertTrue(lines[-2].endswith(": and 10 more cells"))

    def test_a_picture_that_fails_besides_is_told_besides(self) -> None:
        pack, out = self.pack(noted([(1, None)], [])), self.room / "none" / "out.svg"
        called = Called(GPKG_CHECK, "--json", pack, "--svg", out)
        self.assertEqual(called.status, 2)
        trouble = [line.rsplit(": ", 1)[-1] for line in json.loads(called.out)["trouble"].splitlines()]
        self.assertEqual(trouble[1:], [self.NO_LISTING, "No such file or directory"])

    def test_several_packs_tell_the_same(self) -> None:
        packs = [self.doubled(noted([(1, None)], [])), PACKS / "survey.gpkg", PACKS / "resurvey.gpkg"]
        one, two = (Called(GPKG_CHECK, *packs, "--jobs", jobs) for jobs in [1, 2])
        self.assertEqual((two.status, two.out, two.err), (2, one.out, one.err))
        statuses = re.findall(r"^ +(\d)  ", one.out.split("summary\n")[1], re.M)
        self.assertEqual(statuses, ["2", "0", "1"])


@needs_library
class Listings(InRoom):
    """gpkg-listing --metadata, and gpkg-check --listing with --metadata."""

    def test_samples_are_written_again(self) -> None:
        for name in ["survey", "resurvey"]:
            out, meta = self.room / f"{name}.listing", self.room / f"{name}.metadata"
            called = Called(GPKG_LISTING, PACKS / f"{name}.gpkg", out, "--metadata", meta)
            self.assertEqual((called.status, called.err), (0, ""))
            for written in [out, meta]:
                self.assertEqual(written.read_bytes(), (PACKS / written.name).read_bytes())
            line = called.out.splitlines()[1]
            rows = MetadataListing(meta.read_bytes())
            counted = ", ".join(f"{table.title} {rows.counts[table]}" for table in METADATA_TABLES)
            self.assertEqual(line, f"{meta}: {meta.stat().st_size} octets: {counted}")

    def test_a_pack_and_its_two_listings_have_the_same_findings(self) -> None:
        for name in ["survey", "resurvey"]:
            lent = ["--listing", PACKS / f"{name}.listing", "--metadata", PACKS / f"{name}.metadata"]
            by_listing, by_pack = Called(GPKG_CHECK, *lent), Called(GPKG_CHECK, PACKS / f"{name}.gpkg")
            self.assertEqual(by_listing.status, by_pack.status)
            without_origins = re.sub(r" \(table [^)]*\)", "", by_pack.out)
            self.assertEqual(by_listing.out.splitlines()[1:], without_origins.splitlines()[1:])

    def test_a_pack_without_the_tables_is_told_and_nothing_is_written(self) -> None:
        out, meta = self.room / "out.listing", self.room / "out.metadata"
        pack = self.pack(good())
        called = Called(GPKG_LISTING, pack, out, "--metadata", meta)
        words = "it has no table gpkg_metadata and no gpkg_metadata_reference; nothing was written"
        self.assertEqual((called.status, called.out, called.err), (2, "", f"gpkg-listing: {pack}: {words}\n"))
        self.assertEqual([path.name for path in self.room.iterdir()], ["pack.gpkg"])

    def test_one_table_alone_is_listed_with_a_message(self) -> None:
        rows = noted()
        del rows[REFERENCE]
        meta = self.room / "out.metadata"
        called = Called(GPKG_LISTING, self.pack(rows), self.room / "out.listing", "--metadata", meta)
        self.assertEqual(called.status, 1)
        self.assertIn(f": not listed: there is no table {REFERENCE}, and ", called.err)
        self.assertEqual(MetadataListing(meta.read_bytes()).counts, {RECORDS: 2, METADATA_REFERENCES: 0})

    def test_either_may_go_to_standard_output_and_not_both(self) -> None:
        pack, kept = PACKS / "survey.gpkg", self.room / "kept"
        for words, name in [(["-", "--metadata", kept], "listing"), ([kept, "--metadata", "-"], "metadata")]:
            ran = Ran([ROOT / "tools" / "gpkg-listing", pack, *words])
            self.assertEqual((ran.status, ran.err), (0, ""))
            self.assertIn((PACKS / f"survey.{name}").read_bytes(), ran.octets)
        for out, meta in [("-", "-"), (self.room / "same", f"{self.room}/../{self.room.name}/same")]:
            self.assertEqual(Called(GPKG_LISTING, pack, out, "--metadata", meta).status, 2)
        self.assertFalse((self.room / "same").exists())

    def test_the_pack_is_not_written_over(self) -> None:
        pack = self.pack(noted())
        before = pack.read_bytes()
        called = Called(GPKG_LISTING, pack, self.room / "out.listing", "--metadata", pack)
        self.assertEqual((called.status, pack.read_bytes()), (2, before))
        self.assertIn("this is the file that was read; it would be lost", called.err)

    def test_standard_input(self) -> None:
        for words, octets in [
            (["-", "--metadata", SAMPLES / "notes.metadata"], GOOD_PACK),
            ([SAMPLES / "good-pack.listing", "--metadata", "-"], NOTES),
        ]:
            ran = Ran([ROOT / "tools" / "gpkg-check", "--listing", *words], octets)
            self.assertEqual((ran.status, ran.err), (0, ""))
        self.assertEqual(Called(GPKG_CHECK, "--listing", "-", "--metadata", "-").status, 2)
        self.assertEqual(Called(GPKG_CHECK, PACKS / "survey.gpkg", "--metadata", SAMPLES / "notes.metadata").status, 2)

    def test_refusals_name_the_listing_that_is_refused(self) -> None:
        bad, listing = self.room / "bad", SAMPLES / "good-pack.listing"
        bad.write_bytes(word(120, 4))
        called = Called(GPKG_CHECK, "--listing", listing, "--metadata", bad)
        place = "(table 12, metadata references, row 0)"
        words = f"{bad}: the metadata listing is refused, reason 8: {REASONS[8]} {place}"
        self.assertEqual((called.status, called.err), (2, f"gpkg-check: {words}\n"))
        self.assertIn("not judged: metadata", called.out)
        bad.write_bytes(counts(0, 0, 1_048_577))
        called = Called(GPKG_CHECK, "--listing", listing, "--metadata", bad)
        self.assertIn("reason 5: a table has more rows than it may (table 13, name octets, row 0)\n", called.err)
        # Reasons 1 to 4 have no place, and are told of the right one all the same.
        bad.write_bytes(b"x")
        called = Called(GPKG_CHECK, "--listing", listing, "--metadata", bad)
        self.assertEqual(called.err, f"gpkg-check: {bad}: the metadata listing is refused, reason 1: {REASONS[1]}\n")
        called = Called(GPKG_CHECK, "--listing", bad, "--metadata", SAMPLES / "notes.metadata")
        self.assertEqual((called.status, called.out), (2, ""))
        self.assertEqual(called.err, f"gpkg-check: {bad}: the listing is refused, reason 1: {REASONS[1]}\n")

    def test_what_is_no_metadata_listing(self) -> None:
        listing = SAMPLES / "good-pack.listing"
        (self.room / "empty").touch()
        for path, words in {
            PACKS / "survey.gpkg": "this is a pack, and no listing of one; it is checked without --listing",
            self.room / "empty": "this file is empty",
            self.room / "none": "cannot be read: No such file or directory",
        }.items():
            called = Called(GPKG_CHECK, "--listing", listing, "--metadata", path)
            self.assertEqual((called.status, called.out, called.err), (2, "", f"gpkg-check: {path}: {words}\n"))


@needs_library
class CallLibrary(unittest.TestCase):
    def test_what_breaks_off(self) -> None:
        whole = library.framed([GOOD_PACK, NOTES])
        for octets, words in [
            (b"", "the sizes of the parts break off, or cannot be read"),
            (whole[:15], "the sizes of the parts break off, or cannot be read"),
            (whole[:-1], "the parts break off, or cannot be read"),
            (whole + b"\0", "there are more octets than the parts have"),
        ]:
            ran = Ran([library.program(), "report-metadata"], octets)
            self.assertEqual((ran.status, ran.out, ran.err), (2, "", f"call-library: {words}\n"))


if __name__ == "__main__":
    unittest.main()
