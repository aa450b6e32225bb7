"""gpkg-listing: what it writes, judged by the second program, which knows nothing of it."""

from __future__ import annotations

import os
import shutil
import sqlite3
import struct
import unittest
from pathlib import Path
from typing import List, Tuple
from unittest import mock

from packs import ADDRESS, DATE, PACKS, TOOLS, InRoom, Ran, Rows, good, judged_by_second, make_pack, needs_library

from desterlin.console import Trouble
from desterlin.geopackage import rows_of
from desterlin.listing import Draft, Listing


@needs_library
class SamplePacks(InRoom):
    def test_findings_are_the_planted_ones(self) -> None:
        for name, printed in {
            "alp": "total 0\n",
            "hill": "total 0\n",
            "meadow": "total 0\n",
            "resurvey": "total 0\n",
            "slope": "finding 351 2 1\nfinding 451 2 -\nfinding 452 2 -\ntotal 3\n",
            "survey": "total 0\n",
            "valley": "finding 541 16 4\ntotal 1\n",
        }.items():
            with self.subTest(name):
                ran = Ran([TOOLS / "gpkg-listing", PACKS / f"{name}.gpkg", "-"])
                self.assertEqual((ran.status, ran.err), (0, ""))
                self.assertEqual(judged_by_second(ran.octets), printed)

    def test_script_makes_them_again(self) -> None:
        ran = Ran([PACKS / "make-packs", self.room])
        self.assertEqual((ran.status, ran.err), (0, ""))
        names = [path.name for path in sorted(self.room.iterdir())]
        self.assertEqual(names, [path.name for path in sorted(PACKS.glob("*.gpkg"))])
        for name in names:
            made, kept = self.room / name, PACKS / name
            made_rows, kept_rows = (rows_of(str(pack), lambda words: None) for pack in [made, kept])
            self.assertEqual(made_rows.parts, kept_rows.parts)
            self.assertEqual(*(rows.metadata and rows.metadata.parts for rows in [made_rows, kept_rows]))
            if made.read_bytes() != kept.read_bytes():
                print(f"note: SQLite {sqlite3.sqlite_version} lays {name} out in other octets, with the same rows")


# Each case: what is changed in good rows, as (table, row or None for one more, new cells), and what must be found.
Change = Tuple[str, "int | None", Tuple[object, ...]]
SRS, CONTENTS, SETS = "gpkg_spatial_ref_sys", "gpkg_contents", "gpkg_tile_matrix_set"
MATRICES, EXTENSIONS, FARM = "gpkg_tile_matrix", "gpkg_extensions", "farm"
SET = ("farm", 4326, 0.0, 0.0, 1024.0, 1024.0)
LEVEL_1 = ("farm", 1, 2, 2, 256, 256, 2.0, 2.0)
# From 2^22 on doubles are 2^-30 apart; pixels too large by one part in 2^38 make 1,024 m longer by four such gaps.
FAR = ("farm", 4326, 2.0**22, 2.0**22, 2.0**22 + 1024, 2.0**22 + 1024)
LONG_0 = ("farm", 0, 1, 1, 256, 256, 4 + 2.0**-36, 4 + 2.0**-36)
LONG_1 = ("farm", 1, 2, 2, 256, 256, 2 + 2.0**-37, 2 + 2.0**-37)
LONGER_0 = ("farm", 0, 1, 1, 256, 256, 4 + 2.0**-36 + 2.0**-50, 4 + 2.0**-36)
INFINITE = float("inf")
PLANTED: "List[Tuple[str, List[Change], List[str]]]" = [
    ("101", [(SRS, None, (0, "NONE", 0, "undefined"))], ["101 3 2"]),
    ("111 wrong", [(SRS, 0, (4326, "OGC", 4326, "any"))], ["111 0 -"]),
    ("111 in another letter case", [(SRS, 0, (4326, "ePsG", 4326, "any"))], []),
    ("111 missing", [(SRS, 0, (4327, "EPSG", 4327, "any"))], ["111 - -", "161 0 -", "411 0 -"]),
    ("112", [(SRS, 1, (-1, "NONE", -1, "Undefined"))], ["112 1 -"]),
    ("113", [(SRS, 2, (0, "NONE", 1, "undefined"))], ["113 2 -"]),
    ("131", [(CONTENTS, None, ("farm", "tiles", DATE, 4326))], ["131 1 0"]),
    ("151", [(CONTENTS, 0, ("farm", "tiles", "2023-02-29T00:00:00.000Z", 4326))], ["151 0 -"]),
    ("161 and 162", [(CONTENTS, 0, ("farm", "tiles", DATE, 7))], ["161 0 -", "162 0 0"]),
    ("162 with NULL", [(CONTENTS, 0, ("farm", "tiles", DATE, None))], ["162 0 0"]),
    ("161 with 0 for an id that is there", [(CONTENTS, None, ("tracks", "features", DATE, 0))], []),
    (
        "171, with all that stands without a tiles name",
        [(CONTENTS, 0, ("farm", "attributes", DATE, 4326))],
        ["171 - -", "341 0 -", "341 1 -", "341 2 -", "391 0 -", "431 0 -", "431 1 -"],
    ),
    ("351", [(MATRICES, 1, ("farm", 1, 4, 4, 256, 256, 1.0, 1.0))], ["351 1 0"]),
    (
        "351 is not judged with gpkg_zoom_other",
        [
            (MATRICES, 1, ("farm", 1, 4, 4, 256, 256, 1.0, 1.0)),
            (EXTENSIONS, None, ("farm", None, "gpkg_zoom_other", "read-write")),
        ],
        [],
    ),
    ("391 and 411", [(SETS, None, ("hill", 9, 0.0, 0.0, 1.0, 1.0))], ["391 1 -", "411 1 -"]),
    ("392", [(SETS, None, SET)], ["392 1 0"]),
    ("401", [(CONTENTS, None, ("hill", "tiles", DATE, 4326))], ["401 1 -"]),
    ("431", [(MATRICES, None, ("hill", 0, 1, 1, 256, 256, 4.0, 4.0))], ["431 2 -"]),
    ("432", [(MATRICES, None, LEVEL_1)], ["432 2 1"]),
    ("441 and 551", [(FARM, None, (2, 0, 0))], ["441 3 -", "551 3 -"]),
    ("451 by a set", [(SETS, 0, ("farm", 4326, 0.0, 0.0, 1024.5, 1024.0))], ["451 0 -", "451 1 -"]),
    ("452 by a set", [(SETS, 0, ("farm", 4326, 0.0, 0.0, 1024.0, 1024.5))], ["452 0 -", "452 1 -"]),
    ("451 is not for a number near", [(SETS, 0, ("farm", 4326, 0.0, 0.0, 1024.0000000000009, 1024.0))], []),
    ("451, five steps off", [(SETS, 0, ("farm", 4326, 0.0, 0.0, 1024.0000000000011, 1024.0))], ["451 0 -", "451 1 -"]),
    ("451 and 452 are not for four gaps", [(SETS, 0, FAR), (MATRICES, 0, LONG_0), (MATRICES, 1, LONG_1)], []),
    ("451, beyond four gaps", [(SETS, 0, FAR), (MATRICES, 0, LONGER_0), (MATRICES, 1, LONG_1)], ["451 0 -"]),
    (
        "452 alone, since the gaps of x are none of y's",
        [
            (SETS, 0, ("farm", 4326, 2.0**22, 0.0, 2.0**22 + 1024, 1024.0)),
            (MATRICES, 0, LONG_0),
            (MATRICES, 1, LONG_1),
        ],
        ["452 0 -", "452 1 -"],
    ),
    (
        "461, with the level below that 351 and 531 need",
        [(MATRICES, None, ("farm", -1, 1, 1, 256, 256, 4.0, 4.0))],
        ["351 0 2", "461 2 -", "531 0 2"],
    ),
    ("471", [(MATRICES, 1, ("farm", 1, 0, 2, 256, 256, 2.0, 2.0))], ["451 1 -", "471 1 -", "561 1 -", "561 2 -"]),
    ("481", [(MATRICES, 1, ("farm", 1, 2, -5, 256, 256, 2.0, 2.0))], ["452 1 -", "481 1 -", "571 1 -", "571 2 -"]),
    ("491", [(MATRICES, 1, ("farm", 1, 2, 2, 0, 256, 2.0, 2.0))], ["451 1 -", "491 1 -"]),
    ("501", [(MATRICES, 1, ("farm", 1, 2, 2, 256, 0, 2.0, 2.0))], ["452 1 -", "501 1 -"]),
    (
        "511",
        [(MATRICES, 1, ("farm", 1, 2, 2, 256, 256, INFINITE, 2.0))],
        ["351 1 0", "451 1 -", "511 1 -", "531 1 0"],
    ),
    ("521", [(MATRICES, 1, ("farm", 1, 2, 2, 256, 256, 2.0, -0.0))], ["351 1 0", "452 1 -", "521 1 -"]),
    ("541", [(FARM, None, (1, 0, 0)), (FARM, None, (1, 0, 0))], ["541 3 1", "541 4 1"]),
    ("561", [(FARM, None, (1, 2, 0)), (FARM, None, (1, -1, 0))], ["561 3 -", "561 4 -"]),
    ("571", [(FARM, None, (1, 0, 2)), (FARM, None, (1, 0, -1))], ["571 3 -", "571 4 -"]),
    ("601", [(EXTENSIONS, 0, (None, "tile_data", "gpkg_webp", "read-write"))], ["601 0 -"]),
    ("601 is not for NULL in both", [(EXTENSIONS, 0, (None, None, "gpkg_webp", "read-write"))], []),
    ("621", [(EXTENSIONS, 0, ("farm", "tile_data", "gpkg_", "read-write"))], ["621 0 -"]),
    ("622", [(EXTENSIONS, None, ("farm", "tile_data", "gpkg_webp", "write-only"))], ["622 1 0"]),
    (
        "622 is not for NULL",
        [
            (EXTENSIONS, 0, ("farm", None, "gpkg_webp", "read-write")),
            (EXTENSIONS, None, ("farm", None, "gpkg_webp", "read-write")),
        ],
        [],
    ),
    ("641", [(EXTENSIONS, 0, ("farm", "tile_data", "gpkg_webp", "readwrite"))], ["641 0 -"]),
]


def planted(changes: "List[Change]") -> Rows:
    rows = good()
    for table, row, cells in changes:
        if row is None:
            rows[table].append(cells)
        else:
            rows[table][row] = cells
    return rows


@needs_library
class PlantedFaults(InRoom):
    def test_each_is_carried_and_found(self) -> None:
        for number, (name, changes, expected) in enumerate(PLANTED):
            with self.subTest(name):
                pack = make_pack(self.room / f"{number}.gpkg", planted(changes))
                lines = judged_by_second(self.listing_of(pack)).splitlines()
                self.assertEqual(lines, [f"finding {line}" for line in expected] + [f"total {len(expected)}"])

    def test_every_code_is_planted(self) -> None:
        from desterlin.rules import RULES

        found = {int(line.split()[0]) for _, _, expected in PLANTED for line in expected}
        self.assertEqual(found, set(RULES))


@needs_library
class Order(InRoom):
    """A doubled address shows in which order the rows came."""

    def test_tables_in_rowid_order(self) -> None:
        rows = good()
        rows["farm"] = []
        late = "INSERT INTO farm (rowid, zoom_level, tile_column, tile_row) VALUES"
        lines = self.found_in(rows, f"{late} (9, 0, 0, 0)", f"{late} (2, 1, 0, 0)", f"{late} (5, 0, 0, 0)")
        self.assertEqual(lines, ["finding 541 2 1", "total 1"])

    def test_a_column_may_be_called_rowid(self) -> None:
        rows = good()
        del rows["farm"]
        lines = self.found_in(
            rows,
            f"CREATE TABLE farm (rowid TEXT, {ADDRESS})",
            "INSERT INTO farm VALUES ('z', 0, 0, 0), ('b', 0, 0, 0), ('a', 1, 0, 0)",
        )
        self.assertEqual(lines, ["finding 541 1 0", "total 1"])

    def test_tables_are_not_read_through_an_index(self) -> None:
        rows = good()
        del rows["farm"]
        pack = self.pack(
            rows,
            f"CREATE TABLE farm ({ADDRESS}, tile_data, UNIQUE ({ADDRESS}))",
            "INSERT INTO farm VALUES (1, 1, 1, zeroblob(99)), (0, 0, 0, zeroblob(99)), (1, 0, 1, zeroblob(99))",
        )
        tiles = [tuple(tile[1:]) for tile in Listing(self.listing_of(pack)).tiles()]
        self.assertEqual(tiles, [(1, 1, 1), (0, 0, 0), (1, 0, 1)])

    def test_without_rowid_in_its_own_order(self) -> None:
        rows = good()
        del rows["farm"]
        lines = self.found_in(
            rows,
            f"CREATE TABLE farm (key PRIMARY KEY, {ADDRESS}) WITHOUT ROWID",
            "INSERT INTO farm VALUES ('z', 0, 0, 0), ('b', 0, 0, 0), ('a', 1, 0, 0)",
        )
        self.assertEqual(lines, ["finding 541 2 1", "total 1"])

    def test_view_as_select_star_gives_it_and_not_as_an_index_does(self) -> None:
        rows = good()
        del rows["farm"]
        lines = self.found_in(
            rows,
            f"CREATE TABLE one ({ADDRESS}, tile_data, UNIQUE ({ADDRESS}))",
            f"CREATE TABLE two ({ADDRESS}, tile_data, UNIQUE ({ADDRESS}))",
            "INSERT INTO one VALUES (1, 1, 1, x'00'), (0, 0, 0, x'00')",
            "INSERT INTO two VALUES (1, 0, 1, x'00'), (0, 0, 0, x'00')",
            "CREATE VIEW farm AS SELECT * FROM one UNION ALL SELECT * FROM two",
        )
        self.assertEqual(lines, ["finding 541 3 1", "total 1"])

    def test_view_in_its_order_by(self) -> None:
        rows = good()
        rows["leaves"] = rows.pop("farm") + [(0, 0, 0)]
        lines = self.found_in(rows, "CREATE VIEW farm AS SELECT * FROM leaves ORDER BY zoom_level DESC")
        self.assertEqual(lines, ["finding 541 3 2", "total 1"])

    def test_tables_of_tiles_in_the_order_of_their_names(self) -> None:
        rows = good()
        rows["gpkg_tile_matrix"].append(("alps", 0, 1, 1, 256, 256, 4.0, 4.0))
        rows["gpkg_tile_matrix_set"].append(("brook", 4326, 0.0, 0.0, 1024.0, 1024.0))
        rows["alps"], rows["brook"] = [(0, 0, 0)], [(0, 0, 0)]
        names = [tile.table_name for tile in Listing(self.listing_of(self.pack(rows))).tiles()]
        self.assertEqual(names, [b"farm"] * 3 + [b"brook", b"alps"])


@needs_library
class Names(InRoom):
    def test_awkward_ones_are_read(self) -> None:
        for number, name in enumerate(['say "moo"', "a;b--c", "it's", "hügel 山", "main.x", "select", "[x]", "`"]):
            with self.subTest(name):
                rows = planted([(CONTENTS, 0, (name, "tiles", DATE, 4326)), (SETS, 0, (name, *SET[1:]))])
                rows["gpkg_tile_matrix"] = [(name, *row[1:]) for row in rows["gpkg_tile_matrix"]]
                cells = rows.pop("farm")
                pack = make_pack(self.room / f"{number}.gpkg", rows)
                add_table(pack, name, cells)
                listing = self.listing_of(pack)
                self.assertEqual(judged_by_second(listing), "total 0\n")
                self.assertEqual({tile.table_name for tile in Listing(listing).tiles()}, {name.encode()})

    def test_letter_case_of_the_table_does_not_matter_and_that_of_the_name_stays(self) -> None:
        rows = good()
        rows["FARM"] = rows.pop("farm")
        self.assertEqual(self.found_in(rows), ["total 0"])

    def test_one_table_under_two_spellings_is_listed_once(self) -> None:
        rows = planted([(MATRICES, 1, ("Farm", *LEVEL_1[1:]))])
        self.assertEqual(
            self.found_in(rows),
            ["finding 431 1 -", "finding 441 1 -", "finding 441 2 -", "finding 551 1 -", "finding 551 2 -", "total 5"],
        )

    def test_utf_16_packs_are_listed_as_utf_8(self) -> None:
        pack = self.room / "wide.gpkg"
        connection = sqlite3.connect(pack)
        connection.execute("PRAGMA encoding = 'UTF-16le'")
        connection.execute("CREATE TABLE seed (x)")
        connection.close()
        make_pack(pack, good())
        narrow = make_pack(self.room / "narrow.gpkg", good())
        self.assertEqual(self.listing_of(pack), self.listing_of(narrow))

    def test_stored_once(self) -> None:
        listing = self.listing_of(self.pack(good()))
        texts = ["EPSG", "any", "NONE", "undefined", "farm", "tiles", DATE, "tile_data", "gpkg_webp", "read-write"]
        count, offset = struct.unpack_from("<2I", listing, 56)
        self.assertEqual((count, listing[offset:]), (len("".join(texts)), "".join(texts).encode()))


@needs_library
class Numbers(InRoom):
    def test_extremes_are_carried(self) -> None:
        least, most = -(2**63), 2**63 - 1
        rows = planted([(FARM, None, (least, most, 0)), (MATRICES, None, ("farm", most, 1, 1, 1, 1, 5e-324, INFINITE))])
        listing = Listing(self.listing_of(self.pack(rows)))
        self.assertEqual(listing.tile(3)[1:], (least, most, 0))
        self.assertEqual(listing.matrices()[2][1:], (most, 1, 1, 1, 1, 5e-324, INFINITE))

    def test_a_whole_number_in_a_column_of_doubles_is_the_double(self) -> None:
        rows = planted([(SETS, 0, ("farm", 4326, 0, 0, 1024, 1024))])
        self.assertEqual(self.found_in(rows), ["total 0"])

    def test_null_srs_id_has_flag_0(self) -> None:
        listing = self.listing_of(self.pack(planted([(CONTENTS, 0, ("farm", "tiles", DATE, None))])))
        start = struct.unpack_from("<I", listing, 20)[0]
        self.assertEqual(struct.unpack_from("<qII", listing, start + 24), (0, 0, 0))


@needs_library
class WhatMayBeMissing(InRoom):
    def test_extensions(self) -> None:
        rows = good()
        del rows["gpkg_extensions"]
        self.assertEqual(self.found_in(rows), ["total 0"])

    def test_matrix_tables_of_a_pack_without_tiles(self) -> None:
        rows: Rows = {SRS: good()[SRS], CONTENTS: [("tracks", "features", DATE, 0)]}
        self.assertEqual(self.found_in(rows), ["total 0"])


@needs_library
class Fullness(InRoom):
    """The most that a listing carries is still carried; test_trouble.py has one more of each."""

    def test_256_contents_rows(self) -> None:
        rows = good()
        rows["gpkg_contents"] += [(f"track{n}", "features", DATE, 0) for n in range(255)]
        self.assertEqual(self.found_in(rows), ["total 0"])

    def test_262144_tiles(self) -> None:
        wide = ("farm", 0, 262_144, 1, 1, 1024, 1024 / 262_144, 1.0)
        rows = planted([(MATRICES, 0, wide), (MATRICES, 1, ("farm", 2, 2, 2, 256, 256, 2.0, 2.0))])
        del rows["farm"]
        lines = self.found_in(rows, view_of_tiles(262_144))
        self.assertEqual(lines, ["finding 531 1 0", "total 1"])

    def test_all_name_octets(self) -> None:
        names = ["EPSG", "NONE", "undefined", "farm", "tiles", DATE, "tile_data", "gpkg_webp", "read-write"]
        others = sum(map(len, names))
        rows = planted([(SRS, 0, (4326, "EPSG", 4326, "x" * (1_048_576 - others)))])
        self.assertEqual(self.found_in(rows), ["total 0"])


@needs_library
class Writing(InRoom):
    def test_out_is_replaced_and_nothing_else_is_there(self) -> None:
        pack, out = self.pack(good()), self.room / "out.listing"
        out.write_bytes(b"old")
        ran = Ran([TOOLS / "gpkg-listing", pack, out])
        self.assertEqual((ran.status, ran.err), (0, ""))
        self.assertEqual(out.read_bytes(), self.listing_of(pack))
        self.assertEqual(sorted(path.name for path in self.room.iterdir()), ["out.listing", "pack.gpkg"])
        self.assertIn("reference systems 3, contents 1, matrix sets 1, matrices 2, tiles 3, extensions 1", ran.out)

    def test_the_pack_is_not_touched(self) -> None:
        pack = self.pack(good())
        before = self.files()
        self.assertEqual(Ran([TOOLS / "gpkg-listing", pack, "-"]).status, 0)
        self.assertEqual(self.files(), before)

    def test_odd_file_names(self) -> None:
        for name in ["a?mode=rwc", "b#c", "d%41e", "f g", "h&immutable=1", "ü"]:
            with self.subTest(name):
                pack = make_pack(self.room / f"{name}.gpkg", good())
                self.assertEqual(judged_by_second(self.listing_of(pack)), "total 0\n")

    def test_a_settled_wal_pack_gets_no_files_beside_it(self) -> None:
        pack = self.pack(good())
        connection = sqlite3.connect(pack)
        connection.execute("PRAGMA journal_mode = WAL")
        connection.close()
        self.assertEqual(judged_by_second(self.listing_of(pack)), "total 0\n")
        self.assertEqual([path.name for path in self.room.iterdir()], ["pack.gpkg"])

    def writer_with_a_change(self, pack: Path) -> sqlite3.Connection:
        """One who has put a tile into a WAL pack twice, and has not closed it, so that the change stands beside it."""
        writer = sqlite3.connect(pack)
        self.addCleanup(writer.close)
        writer.execute("PRAGMA journal_mode = WAL")
        writer.execute("INSERT INTO farm VALUES (1, 1, 1)")
        writer.commit()
        return writer

    def test_changes_that_a_wal_pack_keeps_beside_it_are_seen(self) -> None:
        pack = self.pack(good())
        self.writer_with_a_change(pack)
        self.assertEqual(judged_by_second(self.listing_of(pack)), "finding 541 3 2\ntotal 1\n")

    def test_changes_are_seen_by_way_of_a_link(self) -> None:
        pack, link = self.pack(good()), self.room / "elsewhere" / "link.gpkg"
        link.parent.mkdir()
        link.symlink_to(pack)
        self.writer_with_a_change(pack)
        self.assertEqual(judged_by_second(self.listing_of(link)), "finding 541 3 2\ntotal 1\n")

    def test_a_wal_pack_with_changes_gets_no_files_beside_it(self) -> None:
        """It was copied, with its changes, while somebody had it open."""
        pack, room = self.pack(good()), self.room / "copy"
        self.writer_with_a_change(pack)
        room.mkdir()
        for name in ["pack.gpkg", "pack.gpkg-wal"]:
            shutil.copy(self.room / name, room / name)
        before = self.files()
        self.assertEqual(judged_by_second(self.listing_of(room / "pack.gpkg")), "finding 541 3 2\ntotal 1\n")
        self.assertEqual(self.files(), before)

    def test_a_pack_that_is_changed_while_it_is_copied_is_not_taken(self) -> None:
        pack = self.pack(good())
        self.writer_with_a_change(pack)
        (self.room / "pack.gpkg-shm").unlink()
        copy = shutil.copyfile

        def copy_late(source: str, target: str) -> None:
            copy(source, target)
            os.utime(source)

        with mock.patch.object(shutil, "copyfile", copy_late):
            with self.assertRaisesRegex(Trouble, "the pack was changed while it was read; try again"):
                self.listing_of(pack)

    def test_a_copy_for_which_there_is_no_room(self) -> None:
        pack = self.pack(good())
        self.writer_with_a_change(pack)
        (self.room / "pack.gpkg-shm").unlink()
        with mock.patch.object(shutil, "copyfile", side_effect=OSError(28, "No space left on device")):
            with self.assertRaisesRegex(Trouble, "cannot be copied to be read with them: No space left on device"):
                self.listing_of(pack)


class EmptyText(unittest.TestCase):
    def test_needs_no_octet(self) -> None:
        draft = Draft()
        self.assertEqual((draft.text(b""), len(draft.names)), ((0, 0), 0))


def add_table(pack: "object", name: str, cells: "List[Tuple[object, ...]]") -> None:
    connection = sqlite3.connect(str(pack))
    quoted = '"' + name.replace('"', '""') + '"'
    connection.execute(f"CREATE TABLE {quoted} ({ADDRESS})")
    connection.executemany(f"INSERT INTO {quoted} VALUES (?, ?, ?)", cells)
    connection.commit()
    connection.close()


def view_of_tiles(count: int) -> str:
    return (
        "CREATE VIEW farm AS WITH RECURSIVE n(i) AS (SELECT 0 UNION ALL SELECT i + 1 FROM n WHERE i < "
        f"{count - 1}) SELECT 0 AS zoom_level, i AS tile_column, 0 AS tile_row FROM n"
    )


if __name__ == "__main__":
    unittest.main()
