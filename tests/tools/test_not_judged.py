"""What could not be judged is part of the answer: it is printed with the findings, and such a pack is not clean."""

from __future__ import annotations

import json
import unittest
from pathlib import Path

from packs import ADDRESS, DATE, GPKG_LISTING, PACKS, Called, InRoom, good, judged_by_second, loaded, needs_library
from test_listing import CONTENTS, MATRICES, SETS, planted

GPKG_CHECK = loaded("gpkg-check")

LOOSE = f"CREATE TABLE loose (id INTEGER PRIMARY KEY, {ADDRESS}, tile_data)"
MISSING = "they are announced, but there is no such table or view"
NAMED_BY_NOTHING = "it has the columns of tiles, and no row of contents (as tiles), matrix sets or matrices names it"


@needs_library
class PartsOfAPack(InRoom):
    def check_not_judged(self, pack: Path, *parts: str) -> None:
        """These parts, and no other, are told on standard output and in the JSON, with status 1 for them alone."""
        called = Called(GPKG_CHECK, pack)
        self.assertEqual((called.status, called.err), (1 if parts else 0, ""))
        told = [line[len("not judged: "):] for line in called.out.splitlines() if line.startswith("not judged: ")]
        self.assertEqual(told, list(parts))
        words = f", and {len(parts)} part{'s' if len(parts) > 1 else ''} not judged" if parts else ""
        self.assertEqual(called.out.splitlines()[0], f"{pack}: no findings{words}")
        called = Called(GPKG_CHECK, "--json", pack)
        told = json.loads(called.out)
        self.assertEqual((called.status, told["status"], told["total"]), (1 if parts else 0, 1 if parts else 0, 0))
        self.assertEqual(told["not_judged"], list(parts))

    def test_a_tiles_table_that_is_missing(self) -> None:
        rows = good()
        del rows["farm"]
        self.check_not_judged(self.pack(rows), f'tiles of "farm": {MISSING}')

    def test_a_table_of_tiles_that_nothing_names(self) -> None:
        pack = self.pack(good(), LOOSE, "INSERT INTO loose VALUES (1, 9, 9, 9, x'00')")
        self.check_not_judged(pack, f'table "loose": {NAMED_BY_NOTHING}')

    def test_a_table_of_tiles_that_contents_call_something_else(self) -> None:
        pack = self.pack(planted([(CONTENTS, None, ("Loose", "Tiles", DATE, 4326))]), LOOSE)
        self.check_not_judged(pack, f'table "loose": {NAMED_BY_NOTHING}')

    def test_a_view_of_tiles_that_nothing_names(self) -> None:
        view = "CREATE VIEW seen AS SELECT 7 AS zoom_level, 0 AS tile_column, 0 AS tile_row, NULL AS Tile_Data"
        self.check_not_judged(self.pack(good(), view), f'view "seen": {NAMED_BY_NOTHING}')

    def test_a_missing_table_and_two_that_nothing_names(self) -> None:
        rows = planted([(CONTENTS, 0, ("farm", "tiles", DATE, 4326))])
        del rows["farm"]
        pack = self.pack(rows, LOOSE, LOOSE.replace("loose", "lost"))
        self.check_not_judged(
            pack,
            f'tiles of "farm": {MISSING}',
            f'table "loose": {NAMED_BY_NOTHING}',
            f'table "lost": {NAMED_BY_NOTHING}',
        )

    def test_one_table_under_two_names(self) -> None:
        """SQLite has one table for both, so its tiles are held to the levels of one of them alone."""
        rows = good()
        for table in [CONTENTS, SETS, MATRICES]:
            rows[table] += [("FARM", *cells[1:]) for cells in rows[table]]
        same = 'to SQLite that is "farm", and as tiles of "farm" they are judged'
        self.check_not_judged(self.pack(rows), f'tiles of "FARM": {same}')

    def test_a_table_that_a_listed_view_shows_is_judged(self) -> None:
        rows = good()
        del rows["farm"]
        inner = "CREATE VIEW within AS SELECT zoom_level + 0 AS zoom_level, tile_column, tile_row, tile_data FROM loose"
        tile = "INSERT INTO loose VALUES (1, 0, 0, 0, NULL)"
        pack = self.pack(rows, LOOSE, tile, inner, "CREATE VIEW farm AS SELECT * FROM within")
        self.check_not_judged(pack)

    def test_a_view_of_listed_tables_has_no_rows_of_its_own(self) -> None:
        view = "CREATE VIEW seen AS SELECT *, NULL AS tile_data FROM farm WHERE zoom_level = 1"
        self.check_not_judged(self.pack(good(), view))

    def test_other_tables_are_none_of_tiles(self) -> None:
        broken = "CREATE VIEW broken AS SELECT flip(zoom_level) AS zoom_level FROM farm"
        self.check_not_judged(self.pack(good(), f"CREATE TABLE addresses ({ADDRESS})", broken))

    def test_a_view_that_nothing_names_is_not_worked_out(self) -> None:
        """It would never end."""
        endless = "WITH RECURSIVE n(i) AS MATERIALIZED (SELECT 0 UNION ALL SELECT i + 1 FROM n)"
        columns = "a.i AS zoom_level, 0 AS tile_column, 0 AS tile_row, 0 AS tile_data"
        pack = self.pack(good(), f"CREATE VIEW seen AS {endless} SELECT {columns} FROM n a, n b WHERE a.i = b.i")
        self.check_not_judged(pack, f'view "seen": {NAMED_BY_NOTHING}')

    def test_samples_are_judged_whole(self) -> None:
        for listing in sorted(PACKS.glob("*.listing")):
            pack = listing.with_suffix(".gpkg")
            self.assertEqual(json.loads(Called(GPKG_CHECK, "--json", pack).out)["not_judged"], [], pack.name)


@needs_library
class PartsOfAListing(InRoom):
    def test_gpkg_listing_says_what_is_left_out(self) -> None:
        rows = good()
        del rows["farm"]
        pack, out = self.pack(rows, LOOSE), self.room / "out.listing"
        called = Called(GPKG_LISTING, pack, out)
        self.assertEqual(called.status, 1)
        lines = [
            f'gpkg-listing: {pack}: not listed: tiles of "farm": {MISSING}',
            f'gpkg-listing: {pack}: not listed: table "loose": {NAMED_BY_NOTHING}',
        ]
        self.assertEqual(called.err.splitlines(), lines)
        self.assertEqual(judged_by_second(out.read_bytes()), "total 0\n")


if __name__ == "__main__":
    unittest.main()
