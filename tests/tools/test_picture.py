"""The picture of the levels, from what the second program finds in listings of packs."""

from __future__ import annotations

import re
import unittest
import xml.dom.minidom
from pathlib import Path
from typing import List, Tuple

from packs import PACKS, InRoom, good, needs_library
from test_listing import FARM, MATRICES, Change, planted
from test_words import findings_in

from desterlin import picture
from desterlin.listing import Listing


@needs_library
class Drawing(InRoom):
    def drawn_of(self, pack: Path) -> str:
        listing = self.listing_of(pack)
        drawn = picture.drawn("farm", Listing(listing), findings_in(listing))
        xml.dom.minidom.parseString(drawn)
        pack.unlink()
        return drawn.decode("utf-8")


class Picture(Drawing):
    def drawn(self, changes: "List[Change]") -> str:
        return self.drawn_of(self.pack(planted(changes)))

    def marks(self, drawn: str, kind: str) -> int:
        """How many marks there are beside the one of the legend."""
        signs = {"doubled": r'fill="none" stroke="#d62728"', "outside": r'Z" fill="#e69500"', "unplaced": "<circle"}
        return len(re.findall(signs[kind], drawn)) - 1

    def test_good_pack_has_no_marks(self) -> None:
        drawn = self.drawn([])
        self.assertEqual([self.marks(drawn, kind) for kind in ["doubled", "outside", "unplaced"]], [0, 0, 0])
        self.assertIn("2 levels, 3 tiles, unplaced 0, outside 0, doubled 0", drawn)

    def test_marks(self) -> None:
        drawn = self.drawn([(FARM, None, (1, 0, 0)), (FARM, None, (1, 5, -7)), (FARM, None, (4, 0, 0))])
        self.assertEqual([self.marks(drawn, kind) for kind in ["doubled", "outside", "unplaced"]], [1, 1, 1])
        self.assertIn("column 5, row -7: outside (tiles row 4)", drawn)
        self.assertIn("unplaced 1, outside 1, doubled 2", drawn)

    def test_a_large_level_says_that_it_is_one(self) -> None:
        far = 2**40 - 1
        drawn = self.drawn([(MATRICES, 1, ("farm", 1, 2**40, 2**40, 256, 256, 2.0, 2.0)), (FARM, None, (1, far, far))])
        self.assertNotIn("shown are", drawn)
        self.assertIn("a large level: each square stands for 22,906,492,246 × 22,906,492,246 tiles", drawn)
        self.assertLess(len(drawn), 100_000)

    def test_of_many_levels_those_with_marks_are_drawn(self) -> None:
        levels: "List[Change]" = [(MATRICES, None, ("farm", zoom, 1, 1, 1, 1, 1.0, 1.0)) for zoom in range(2, 100)]
        levels += [(FARM, None, (zoom, 0, 0)) for zoom in range(2, 99)]
        drawn = self.drawn([*levels, (FARM, None, (99, 3, 0))])
        self.assertIn("only 60 levels are drawn, those with marks first", drawn)
        self.assertIn('"farm" zoom 99<', drawn.replace("&quot;", '"'))
        self.assertNotIn('"farm" zoom 98<', drawn.replace("&quot;", '"'))

    def test_valley(self) -> None:
        listing = self.listing_of(PACKS / "valley.gpkg")
        drawn = picture.drawn("valley", Listing(listing), findings_in(listing)).decode("utf-8")
        self.assertEqual(self.marks(drawn, "doubled"), 1)
        self.assertIn("column 1, row 2: doubled (tiles row 16)", drawn)

    def test_levels_without_tiles_are_left_out(self) -> None:
        drawn = self.drawn([(MATRICES, None, ("farm", zoom, 1, 1, 1, 1, 1.0, 1.0)) for zoom in range(2, 19)])
        self.assertIn("19 levels, 3 tiles, unplaced 0, outside 0, doubled 0, 17 levels without tiles left out<", drawn)
        self.assertEqual(re.findall(r'"farm" zoom (\d+)<', drawn), ["0", "1"])

    def test_no_tiles_at_all(self) -> None:
        rows = good()
        rows["farm"] = []
        drawn = self.drawn_of(self.pack(rows))
        self.assertIn("2 levels, 0 tiles, unplaced 0, outside 0, doubled 0, 2 levels without tiles left out<", drawn)


class MostlyEmptyLevels(Drawing):
    """A level as packs of the scheme GoogleMapsCompatible have them: the whole world, and tiles in a corner of it."""

    def drawn(self, zoom: int, *tiles: Tuple[int, int]) -> str:
        rows = good()
        rows["gpkg_tile_matrix"] = [("farm", zoom, 2**zoom, 2**zoom, 256, 256, 4 / 2**zoom, 4 / 2**zoom)]
        rows["farm"] = [(zoom, column, row) for column, row in tiles]
        return self.drawn_of(self.pack(rows))

    def squares(self, drawn: str) -> List[Tuple[int, int]]:
        """The places of the tiles, in squares."""
        places = re.findall(r'translate\(([\d.]+),([\d.]+)\)">\n<rect width="([\d.]+)"[^>]* fill-opacity="1.00"', drawn)
        return [(round(float(x) / float(size)), round(float(y) / float(size))) for x, y, size in places]

    def test_are_cropped_to_their_tiles(self) -> None:
        drawn = self.drawn(18, (136_520, 91_000), (136_522, 91_001))
        self.assertIn("262,144 × 262,144, 2 tiles<", drawn)
        self.assertIn("shown are columns 136,519 to 136,523<", drawn)
        self.assertIn("and rows 90,999 to 91,002<", drawn)
        self.assertNotIn("a large level", drawn)
        # Each tile has a square of its own, in the second column and row of those that are drawn and so on.
        self.assertEqual(self.squares(drawn), [(2, 2), (4, 3)])
        self.assertEqual(drawn.count("stroke-dasharray"), 4)

    def test_at_an_edge_show_that_it_is_one(self) -> None:
        last = 2**18 - 1
        drawn = self.drawn(18, (last, last))
        self.assertIn(f"shown are columns {last - 1:,} to {last:,}<", drawn)
        self.assertEqual(drawn.count("stroke-dasharray"), 2)

    def test_what_lies_outside_does_not_widen_them(self) -> None:
        drawn = self.drawn(18, (5, 5), (2**18, 5), (-7, 2**40))
        self.assertIn("shown are columns 4 to 6<", drawn)
        self.assertIn(f"column {2**18}, row 5: outside (tiles row 1)", drawn)
        self.assertIn(f"column -7, row {2**40}: outside (tiles row 2)", drawn)

    def test_what_lies_outside_alone(self) -> None:
        drawn = self.drawn(18, (2**18, 5))
        self.assertNotIn("shown are", drawn)
        self.assertIn("outside 1", drawn)

    def test_small_and_well_filled_ones_are_drawn_whole(self) -> None:
        for zoom, tiles in [(4, [(3, 3)]), (5, [(0, 0), (31, 31)]), (5, [(0, 0), (15, 31)])]:
            drawn = self.drawn(zoom, *tiles)
            self.assertNotIn("shown are", drawn)
            self.assertNotIn("stroke-dasharray", drawn)
        self.assertIn("shown are", self.drawn(5, (0, 0), (14, 31)))

    def test_without_a_matrix(self) -> None:
        rows = good()
        rows["farm"] = [(7, 1_000, 1_000), (7, 1_040, 1_000)]
        drawn = self.drawn_of(self.pack(rows))
        self.assertIn("no matrix, 2 tiles, unplaced 2", drawn)
        self.assertNotIn("shown are", drawn)


if __name__ == "__main__":
    unittest.main()
