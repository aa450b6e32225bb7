"""Findings in words, from what the second program finds in listings of packs."""

from __future__ import annotations

import re
import unittest
import xml.dom.minidom
from typing import Dict, List, Sequence, Tuple

from packs import DATE, ROOT, SECOND, InRoom, Ran, judged_by_second, make_pack, needs_library
from test_listing import CONTENTS, EXTENSIONS, FARM, INFINITE, MATRICES, PLANTED, SETS, SRS, Change, planted

from desterlin import library, picture
from desterlin.console import Trouble, shown
from desterlin.listing import METADATA_TABLES, TABLES, Listing, Table
from desterlin.rules import ALL_RULES, METADATA_RULES, REASONS, RULES, Finding, Rule
from desterlin.words import SIDES, Known, lengths, words


def findings_in(listing: bytes) -> List[Finding]:
    answer = library.answer(judged_by_second(listing).splitlines())
    assert not isinstance(answer, library.Refusal)
    return answer


GREATEST = 2.0**1023 * (2 - 2.0**-52)
FIVE_STEPS_BELOW = 2.0**1023 * (2 - 6 * 2.0**-52)

# What is changed in good rows, the finding that is looked at, and its words.
WORDS: "List[Tuple[List[Change], Finding, str]]" = [
    ([(SRS, None, (0, "NONE", 0, "undefined"))], Finding(101, 3, 2), "srs_id 0 is already in row 2"),
    ([(SRS, 0, (4326, "OGC", 1, "any"))], Finding(111, 0, None),
     'srs_id 4326: organization is "OGC" and not "EPSG"; organization_coordsys_id is 1'),
    ([(SRS, 0, (7, "EPSG", 7, "any"))], Finding(111, None, None), "no row has srs_id 4326"),
    ([(SRS, 1, (-1, "none", -1, "?"))], Finding(112, 1, None), 'srs_id -1: definition is "?" and not "undefined"'),
    ([(CONTENTS, 0, ("farm", "tiles", "today", 4326))], Finding(151, 0, None), '"farm": last_change is "today"'),
    ([(CONTENTS, 0, ("farm", "tiles", DATE, None))], Finding(162, 0, 0),
     '"farm": srs_id is NULL here, and 4326 in the matrix set'),
    ([(CONTENTS, 0, ("farm", "lawn", DATE, 0))], Finding(171, None, None),
     'no row has data_type "tiles" or "features"; the data_types are "lawn"'),
    ([(CONTENTS, 0, ("farm", "lawn", DATE, 0))], Finding(341, 1, None),
     'zoom 1, column 0, row 0: "farm" is in contents as "lawn"'),
    ([(MATRICES, 1, ("farm", 1, 4, 2, 256, 256, 1.0, 2.0))], Finding(351, 1, 0),
     '"farm" zoom 1: pixel_x_size is 1.0, twice that 2.0, but zoom 0 has 4.0'),
    ([(SETS, 0, ("farm", 4326, 0.0, 0.0, 1024.0000000000011, 1024.0))], Finding(451, 0, None),
     '"farm" zoom 0: max_x 1024.0000000000011 - min_x 0.0 = 1024.0000000000011, but matrix_width 1 * tile_width 256 * '
     "pixel_x_size 4.0 = 1024.0; that is 5 steps off, and near allows 4; 5 gaps of 2^-42 at max_x, and 4 are allowed; "
     "1.14e-12 in the map's units; 1.11e-15 of the extent"),
    ([(SETS, 0, ("farm", 4326, 0.0, 0.0, 1024.0, 1280.0))], Finding(452, 0, None),
     '"farm" zoom 0: max_y 1280.0 - min_y 0.0 = 1280.0, but matrix_height 1 * tile_height 256 * pixel_y_size 4.0 = '
     "1024.0; that is 1,125,899,906,842,624 steps off, and near allows 4; 1.13e+15 gaps of 2^-42 at max_y, and 4 are "
     "allowed; 256 in the map's units; 0.2 of the extent"),
    # Far out, by 2^-12 of a gap beyond four: what is above the allowed number is not told as that number.
    ([(SETS, 0, ("farm", 4326, 2.0**22, 0.0, 2.0**22 + 1024, 1024.0)),
      (MATRICES, 0, ("farm", 0, 4, 1, 256, 256, 1 + 2.0**-38 + 2.0**-52, 4.0))], Finding(451, 0, None),
     '"farm" zoom 0: max_x 4195328.0 - min_x 4194304.0 = 1024.0, but matrix_width 4 * tile_width 256 * pixel_x_size '
     "1.0000000000036382 = 1024.0000000037255; that is 16,385 steps off, and near allows 4; more than 4 gaps of 2^-30 "
     "at max_x, and 4 are allowed; 3.73e-09 in the map's units; 3.64e-12 of the extent"),
    # The larger corner may be the least one, and the gap is the one above its magnitude, a power of two here.
    ([(SETS, 0, ("farm", 4326, 0.0, -(2.0**22), 1024.0, 1024 - 2.0**22)),
      (MATRICES, 0, ("farm", 0, 1, 4, 256, 256, 4.0, 1 + 2.0**-38 + 2.0**-41))], Finding(452, 0, None),
     '"farm" zoom 0: max_y -4193280.0 - min_y -4194304.0 = 1024.0, but matrix_height 4 * tile_height 256 * '
     "pixel_y_size 1.0000000000040927 = 1024.000000004191; that is 18,432 steps off, and near allows 4; 4.5 gaps of "
     "2^-30 at min_y, and 4 are allowed; 4.19e-09 in the map's units; 4.09e-12 of the extent"),
    # The gap above the greatest double is not finite.
    ([(SETS, 0, ("farm", 4326, 0.0, 0.0, GREATEST, 1024.0)),
      (MATRICES, 0, ("farm", 0, 1, 1, 1, 256, FIVE_STEPS_BELOW, 4.0))], Finding(451, 0, None),
     '"farm" zoom 0: max_x 1.7976931348623157e+308 - min_x 0.0 = 1.7976931348623157e+308, but matrix_width 1 * '
     "tile_width 1 * pixel_x_size 1.7976931348623147e+308 = 1.7976931348623147e+308; that is 5 steps off, and near "
     "allows 4; without a gap to count in, since max_x is the greatest double in magnitude; 9.98e+292 in the map's "
     "units; 5.55e-16 of the extent"),
    ([(SETS, 0, ("farm", 4326, -GREATEST, 0.0, 0.0, 1024.0)),
      (MATRICES, 0, ("farm", 0, 1, 1, 1, 256, FIVE_STEPS_BELOW, 4.0))], Finding(451, 0, None),
     '"farm" zoom 0: max_x 0.0 - min_x -1.7976931348623157e+308 = 1.7976931348623157e+308, but matrix_width 1 * '
     "tile_width 1 * pixel_x_size 1.7976931348623147e+308 = 1.7976931348623147e+308; that is 5 steps off, and near "
     "allows 4; without a gap to count in, since min_x is the greatest double in magnitude; 9.98e+292 in the map's "
     "units; 5.55e-16 of the extent"),
    # Without an extent there is no share of it, and without a number no difference.
    ([(SETS, 0, ("farm", 4326, 0.0, 7.5, 1024.0, 7.5))], Finding(452, 0, None),
     '"farm" zoom 0: max_y 7.5 - min_y 7.5 = 0.0, but matrix_height 1 * tile_height 256 * pixel_y_size 4.0 = 1024.0; '
     "that is neither near nor within gaps, since 0.0 is not finite and above 0; 1,024 in the map's units"),
    ([(SETS, 0, ("farm", 4326, 0.0, 8.0, 1024.0, -8.0))], Finding(452, 0, None),
     '"farm" zoom 0: max_y -8.0 - min_y 8.0 = -16.0, but matrix_height 1 * tile_height 256 * pixel_y_size 4.0 = '
     "1024.0; that is neither near nor within gaps, since -16.0 is not finite and above 0; 1,040 in the map's units"),
    ([(SETS, 0, ("farm", 4326, -INFINITE, 0.0, INFINITE, 1024.0))], Finding(451, 0, None),
     '"farm" zoom 0: max_x inf - min_x -inf = inf, but matrix_width 1 * tile_width 256 * pixel_x_size 4.0 = 1024.0; '
     "that is neither near nor within gaps, since inf is not finite and above 0"),
    ([(SETS, 0, ("farm", 4326, INFINITE, 0.0, INFINITE, 1024.0)),
      (MATRICES, 0, ("farm", 0, 1, 1, 256, 256, 0.0, 4.0))], Finding(451, 0, None),
     '"farm" zoom 0: max_x inf - min_x inf = nan, but matrix_width 1 * tile_width 256 * pixel_x_size 0.0 = 0.0; that '
     "is neither near nor within gaps, since nan and 0.0 are not finite and above 0"),
    # 1024 has 2^1084 such gaps, more than a double can tell.
    ([(SETS, 0, ("farm", 4326, 0.0, 0.0, 5e-324, 1024.0))], Finding(451, 0, None),
     '"farm" zoom 0: max_x 5e-324 - min_x 0.0 = 5e-324, but matrix_width 1 * tile_width 256 * pixel_x_size 4.0 = '
     "1024.0; that is 4,652,218,415,073,722,367 steps off, and near allows 4; more than 10^308 gaps of 2^-1074 at "
     "max_x, and 4 are allowed; 1,024 in the map's units"),
    ([(MATRICES, 0, ("farm", 0, 1, 1, 256, 256, -1e308, 4.0)), (SETS, 0, ("farm", 4326, 0.0, 0.0, 1e308, 1024.0))],
     Finding(451, 0, None),
     '"farm" zoom 0: max_x 1e+308 - min_x 0.0 = 1e+308, but matrix_width 1 * tile_width 256 * pixel_x_size -1e+308 = '
     "-inf; that is neither near nor within gaps, since -inf is not finite and above 0"),
    ([(MATRICES, 1, ("farm", 1, 2, 2**62, 256, 256, 2.0, 2.0))], Finding(452, 1, None),
     '"farm" zoom 1: max_y 1024.0 - min_y 0.0 = 1024.0, but matrix_height 4611686018427387904 * tile_height 256 is '
     "above 2^53, so nothing is compared"),
    ([(MATRICES, 1, ("farm", 1, 0, 2, 256, 256, 2.0, 2.0))], Finding(451, 1, None),
     '"farm" zoom 1: max_x 1024.0 - min_x 0.0 = 1024.0, but matrix_width 0 * tile_width 256 is no width, so nothing is '
     "compared"),
    # Both negative: their product is the right width, and none the less there is none.
    ([(MATRICES, 1, ("farm", 1, 2, -2, 256, -256, 2.0, 2.0))], Finding(452, 1, None),
     '"farm" zoom 1: max_y 1024.0 - min_y 0.0 = 1024.0, but matrix_height -2 * tile_height -256 is no height, so '
     "nothing is compared"),
    ([(MATRICES, 1, ("farm", 1, 0, 2, 256, 256, 2.0, 2.0))], Finding(471, 1, None),
     '"farm" zoom 1: matrix_width is 0, below 1'),
    ([(MATRICES, 1, ("farm", 1, 2, 2, 256, 256, 2.0, 4.0))], Finding(531, 1, 0),
     '"farm" zoom 1: pixel_y_size is 4.0, not below the 4.0 of zoom 0'),
    ([(FARM, None, (1, 0, 0))], Finding(541, 3, 1),
     'zoom 1, column 0, row 0: "farm" has that address already in row 1'),
    ([(FARM, None, (9, 0, 0))], Finding(551, 3, None), 'zoom 9, column 0, row 0: "farm" has zooms 0 to 1'),
    ([(FARM, None, (1, 2, 0))], Finding(561, 3, None),
     'zoom 1, column 2, row 0: "farm" has columns 0 to 1 there (matrix_width 2, matrices row 1)'),
    ([(EXTENSIONS, 0, (None, "x", "gpkg_webp", "read-write"))], Finding(601, 0, None),
     '"gpkg_webp": column_name is "x" and table_name is NULL'),
    ([(EXTENSIONS, 0, ("farm", None, "gpkg_webp", "rw"))], Finding(641, 0, None), '"gpkg_webp": scope is "rw"'),
]


def tells_of_a_pass(known: Known, finding: Finding) -> bool:
    """Whether the numbers that are told of a finding of 451 or 452 say that there is none."""
    if finding.code not in SIDES or finding.row is None:
        return False
    compared = lengths(known, finding.code, finding.row)
    steps, gaps = compared.steps(), compared.gaps()
    return (steps is not None and steps <= 4) or (gaps is not None and gaps <= 4)


@needs_library
class FindingsInWords(InRoom):
    def test_names_and_numbers(self) -> None:
        for number, (changes, finding, expected) in enumerate(WORDS):
            with self.subTest(expected):
                listing = self.listing_of(make_pack(self.room / f"{number}.gpkg", planted(changes)))
                self.assertIn(finding, findings_in(listing))
                self.assertEqual(words(Known(Listing(listing)), finding), expected)

    def test_every_planted_finding_has_words(self) -> None:
        for number, (name, changes, expected) in enumerate(PLANTED):
            with self.subTest(name):
                listing = self.listing_of(make_pack(self.room / f"{number}.gpkg", planted(changes)))
                known = Known(Listing(listing))
                self.assertTrue(all(words(known, finding) for finding in findings_in(listing)))

    def test_every_finding_of_made_listings_has_words_and_a_picture(self) -> None:
        """The second program makes them: odd names, huge numbers, tables that do not fit together."""
        for seed in range(60):
            listing = Ran([SECOND, "make", seed]).octets
            answer = library.answer(judged_by_second(listing).splitlines())
            if not isinstance(answer, library.Refusal):
                with self.subTest(seed=seed):
                    known = Known(Listing(listing))
                    self.assertTrue(all(words(known, finding) for finding in answer))
                    self.assertEqual([finding for finding in answer if tells_of_a_pass(known, finding)], [])
                    xml.dom.minidom.parseString(picture.drawn("made", Listing(listing), answer))


class TheLibrarysLines(unittest.TestCase):
    def test_are_read(self) -> None:
        found = [Finding(111, None, None), Finding(541, 5, 3)]
        self.assertEqual(library.answer(["finding 111 - -", "finding 541 5 3", "total 2"]), found)
        self.assertEqual(library.answer(["refused 7 5 3"]), library.Refusal(7, 5, 3))

    def test_that_break_off_are_no_judgement(self) -> None:
        broken: "List[List[str]]" = [[], ["finding 541 5 3"], ["finding 541 5 3", "total 2"], ["total 1"]]
        for lines in broken:
            with self.assertRaisesRegex(Trouble, "the library's answer breaks off"):
                library.answer(lines)


class Texts(unittest.TestCase):
    def test_nothing_of_a_pack_commands_a_terminal(self) -> None:
        self.assertEqual(shown(b"\x1b[2J\x07\n\xe2\x80\xae\"\\"), '"\\x1b[2J\\x07\\n\\u202e\\"\\\\"')

    def test_octets_that_are_no_utf_8_are_escaped_once(self) -> None:
        self.assertEqual(shown(b"a\xff\xed\xa0\x80"), '"a\\xff\\xed\\xa0\\x80"')
        # A letter that has the number of such an octet, and the escape itself, are told from it.
        self.assertEqual(shown("\xff \x9b \xa0".encode()), '"ÿ \\u009b \\u00a0"')
        self.assertEqual(shown(b"\\xff"), '"\\\\xff"')

    def test_long_ones_are_cut(self) -> None:
        self.assertEqual(shown(b"x" * 1000), '"' + "x" * 80 + '"… (1000 octets)')

    def test_null_is_not_a_text(self) -> None:
        self.assertEqual((shown(None), shown(b"NULL"), shown(b"")), ("NULL", '"NULL"', '""'))


def page_of(name: str) -> str:
    return (ROOT / "docs" / f"{name}.md").read_text(encoding="utf-8")


class OneWordForEachThing(unittest.TestCase):
    """What is said in more than one place is said alike."""

    def test_header(self) -> None:
        header = (ROOT / "include" / "desterlin.h").read_text(encoding="utf-8")
        tables = {name: int(number) for name, number in re.findall(r"^    (DESTERLIN_\w+) = (\d+),?$", header, re.M)}
        for kind, rules in {"": RULES, "METADATA_": METADATA_RULES}.items():
            block = header.split(f"#define DESTERLIN_{kind}CODES(X)")[1].split("\n\n")[0]
            lines = re.findall(r'^    X\((\d+), (DESTERLIN_\w+), "([^"]+)"\)', block, re.M)
            said = [(int(code), tables[table], told) for code, table, told in lines]
            self.assertEqual(said, [(rule.code, rule.table.number, rule.words) for rule in rules.values()])
            self.assertEqual(re.findall(rf"DESTERLIN_{kind}CODE_COUNT (\d+)", header), [str(len(rules))])

    def check_rules(self, page: str, rules: Dict[int, Rule]) -> None:
        lines = re.findall(r"^\| (\d{3,4}) \| (\d+) [^|]*\| [^|]*\| ([^|]*) \|", page, re.M)
        said = {int(code): (int(table), place.replace(" (", ", ").replace(")", "")) for code, table, place in lines}
        self.assertEqual(said, {code: (rule.table.number, rule.requirement) for code, rule in rules.items()})

    def test_pages_of_rules(self) -> None:
        self.check_rules(page_of("RULES"), RULES)
        self.check_rules(page_of("METADATA"), METADATA_RULES)

    def test_every_rule_stands_in_the_order_of_its_code(self) -> None:
        self.assertEqual(list(ALL_RULES), sorted(ALL_RULES))
        numbers = [int(re.findall(r"^Req (\d+)", rule.requirement)[0]) for rule in METADATA_RULES.values()]
        self.assertEqual([10 * number + 5 for number in numbers], list(METADATA_RULES))

    def check_tables(self, page: str, tables: Sequence[Table]) -> None:
        lines = re.findall(r"^\| (\d+) \| ([a-z ]+) \| (\d+) \| ([\d,]+) \|", page, re.M)
        said = [(int(number), title, int(row), int(most.replace(",", ""))) for number, title, row, most in lines]
        *rows, names = said
        self.assertEqual(rows, [(table.number, table.title, table.form.size, table.most) for table in tables])
        self.assertEqual(names, (tables[-1].number + 1, "name octets", 1, 1_048_576))
        for table in tables:
            block = page.split(f"**{table.number}, {table.title}**")[1].split("**")[0]
            fields = re.findall(r"^\| \d+ \| (\w+) \|", block, re.M)
            own = [name for name in fields if name not in ("flag", "flags", "spare")]
            self.assertEqual(own, [field.name for field in table.fields])

    def test_pages_of_tables(self) -> None:
        self.check_tables(page_of("LISTING"), TABLES)
        self.check_tables(page_of("METADATA"), METADATA_TABLES)

    def test_reasons(self) -> None:
        pattern = r"^\| (\d+) \| [^|]* \| [^|]* \|$"
        refused = page_of("METADATA").split("## Why a metadata listing is refused")[1].split("\n## ")[0]
        self.assertEqual(re.findall(pattern, refused, re.M), [*"12345678", "13"])
        numbers = re.findall(pattern, page_of("LISTING").split("## Why a listing is refused")[1], re.M)
        # 9, 10 and 14 are for verdicts, lookups and columns, which no tool asks for.
        self.assertEqual([int(number) for number in numbers if number not in ("9", "10", "14")], list(REASONS))
        header = (ROOT / "include" / "desterlin.h").read_text(encoding="utf-8")
        named = dict(re.findall(r"^    (DESTERLIN_REFUSED_\w+) = (\d+)", header, re.M))
        self.assertEqual(list(named.values()), numbers)
        # The example does not write, which alone has 11 and 12.
        example = (ROOT / "examples" / "viewer.c").read_text(encoding="utf-8")
        told = [named[name] for name in re.findall(r"^    case (DESTERLIN_REFUSED_\w+): return ", example, re.M)]
        self.assertEqual(told, [number for number in numbers if number not in ("11", "12")])


if __name__ == "__main__":
    unittest.main()
