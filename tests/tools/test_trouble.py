"""Packs that have no listing: each has a message with its table and row, status 2, and leaves nothing behind."""

from __future__ import annotations

import contextlib
import os
import shutil
import sqlite3
import unittest
from pathlib import Path
from typing import Callable, Dict, Iterator, List, Tuple

from packs import DATE, PACKS, TOOLS, InRoom, Ran, good, make_pack, needs_library
from test_listing import CONTENTS, EXTENSIONS, FARM, MATRICES, SETS, SRS, planted, view_of_tiles

from desterlin import library
from desterlin.console import Trouble

# Each case: the table, the row, the cells that it gets, what the message calls the wrong one, and what it asks for.
WHOLE, NUMBER, TEXT = "a whole number", "a number", "a text"
UNFIT: "List[Tuple[str, int, Tuple[object, ...], str, str]]" = [
    (SRS, 1, ("-1x", "NONE", -1, "undefined"), 'column srs_id: the text "-1x"', WHOLE),
    (SRS, 2, (0, "NONE", 0, None), "column definition: NULL", TEXT),
    (SRS, 0, (4326, 7, 4326, "any"), "column organization: the INTEGER 7", TEXT),
    (CONTENTS, 0, ("farm", "tiles", 20240229, 4326), "column last_change: the INTEGER 20240229", TEXT),
    (CONTENTS, 0, (b"farm", "tiles", DATE, 4326), "column table_name: a BLOB of 4 octets", TEXT),
    (CONTENTS, 0, ("farm", None, DATE, 4326), "column data_type: NULL", TEXT),
    (CONTENTS, 0, ("farm", "tiles", DATE, 4326.0), "column srs_id: the REAL 4326.0", "a whole number or NULL"),
    (SETS, 0, ("farm", None, 0.0, 0.0, 1.0, 1.0), "column srs_id: NULL", WHOLE),
    (SETS, 0, ("farm", 4326, 0.0, "zero", 1.0, 1.0), 'column min_y: the text "zero"', NUMBER),
    # SQLite keeps a NaN as NULL.
    (SETS, 0, ("farm", 4326, 0.0, 0.0, float("nan"), 1.0), "column max_x: NULL", NUMBER),
    # No double is this number.
    (SETS, 0, ("farm", 4326, 0.0, 0.0, 1.0, 2**53 + 1), "column max_y: the INTEGER 9007199254740993", NUMBER),
    (MATRICES, 1, ("farm", "one", 2, 2, 256, 256, 2.0, 2.0), 'column zoom_level: the text "one"', WHOLE),
    (MATRICES, 1, ("farm", 1, 2.5, 2, 256, 256, 2.0, 2.0), "column matrix_width: the REAL 2.5", WHOLE),
    (MATRICES, 1, ("farm", 1, 2, 2, 256, b"", 2.0, 2.0), "column tile_height: a BLOB of 0 octets", WHOLE),
    (FARM, 2, (1, 1, "1"), 'column tile_row: the text "1"', WHOLE),
    (FARM, 1, (1.0, 0, 0), "column zoom_level: the REAL 1.0", WHOLE),
    (FARM, 1, (1, None, 0), "column tile_column: NULL", WHOLE),
    (EXTENSIONS, 0, ("farm", 5, "gpkg_webp", "read-write"), "column column_name: the INTEGER 5", "a text or NULL"),
    (EXTENSIONS, 0, ("farm", None, None, "read-write"), "column extension_name: NULL", TEXT),
]


class WhatAListingCannotCarry(InRoom):
    def test_values_of_another_kind(self) -> None:
        for number, (table, row, cells, wrong, wanted) in enumerate(UNFIT):
            with self.subTest(wrong):
                pack = make_pack(self.room / f"{number}.gpkg", planted([(table, row, cells)]))
                said = self.trouble_with(pack)
                words = f"{wrong} stands where a listing carries {wanted}\n"
                self.assertIn(f'{pack}: table "{table}", row {row} (rowid {row + 1}): {words}', said)

    def test_all_of_them_are_told_at_once(self) -> None:
        rows = planted([
            (SRS, 0, (4326, None, "4326", "any")),
            (CONTENTS, 0, ("farm", "tiles", 20240229, 4326)),
            (FARM, 1, (1, None, 0)),
        ])
        said = self.trouble_with(self.pack(rows, "ALTER TABLE gpkg_extensions RENAME COLUMN scope TO reach"))
        cells = [
            (EXTENSIONS, ": there is no column scope"),
            (SRS, ", row 0 (rowid 1): column organization_coordsys_id: the text \"4326\" stands"),
            (SRS, ", row 0 (rowid 1): column organization: NULL stands"),
            (CONTENTS, ", row 0 (rowid 1): column last_change: the INTEGER 20240229 stands"),
            (FARM, ", row 1 (rowid 2): column tile_column: NULL stands"),
        ]
        lines = said.splitlines()
        self.assertEqual(len(lines), len(cells) + 1)
        for line, (table, words) in zip(lines, cells):
            self.assertTrue(line.startswith(f'gpkg-listing: {self.room}/pack.gpkg: table "{table}"{words}'), line)
        self.assertEqual(lines[-1], f"gpkg-listing: {self.room}/pack.gpkg: it has no listing, so nothing was judged")

    def test_of_very_many_twenty_are_told_and_the_others_counted(self) -> None:
        rows = good()
        rows["farm"] = [(None, "x", at) for at in range(1_000)]
        lines = self.trouble_with(self.pack(rows)).splitlines()
        self.assertEqual(sum(" stands where a listing carries a whole number" in line for line in lines), 20)
        self.assertEqual(lines[20:], [
            f"gpkg-listing: {self.room}/pack.gpkg: and 1,980 more cells",
            f"gpkg-listing: {self.room}/pack.gpkg: it has no listing, so nothing was judged",
        ])

    def test_missing_tiles_are_told_beside_them(self) -> None:
        rows = planted([(SETS, 0, ("farm", None, 0.0, 0.0, 1.0, 1.0)), (CONTENTS, None, (None, "tiles", DATE, 4326))])
        del rows["farm"]
        said = self.trouble_with(self.pack(rows))
        self.assertIn("column table_name: NULL stands", said)
        self.assertIn("column srs_id: NULL stands", said)
        self.assertIn('tiles of "farm": they are announced, but there is no such table or view', said)
        self.assertNotIn('tiles of ""', said)

    def test_very_many_tables(self) -> None:
        rows = good()
        rows[SETS] += [(f"t{at}", 4326, 0.0, 0.0, 1.0, 1.0) for at in range(30)]
        lines = self.trouble_with(self.pack(rows, *(f"CREATE TABLE t{at} (x)" for at in range(30)))).splitlines()
        self.assertEqual(sum("there is no column zoom_level" in line for line in lines), 20)
        self.assertIn(f"gpkg-listing: {self.room}/pack.gpkg: and 10 more tables", lines)

    def test_a_view_without_end_whose_cells_do_not_fit(self) -> None:
        rows = good()
        del rows["farm"]
        endless = "WITH RECURSIVE n(i) AS (SELECT 0 UNION ALL SELECT i + 1 FROM n)"
        view = f"CREATE VIEW farm AS {endless} SELECT NULL AS zoom_level, i AS tile_column, 0 AS tile_row FROM n"
        said = self.trouble_with(self.pack(rows, view))
        self.assertIn("and 262,125 more cells\n", said)
        self.assertIn("a listing carries at most 262,144 rows of tiles", said)

    def test_a_value_in_a_view_has_its_row(self) -> None:
        rows = good()
        rows["leaves"] = rows.pop("farm")
        view = "CREATE VIEW farm AS SELECT zoom_level, tile_column, tile_row / 2.0 AS tile_row FROM leaves"
        pack = self.pack(rows, view)
        self.assertIn('view "farm", row 0: column tile_row: the REAL 0.0 stands', self.trouble_with(pack))

    def test_a_value_in_a_view_has_its_id(self) -> None:
        rows = good()
        rows["leaves"] = rows.pop("farm")
        columns = "70 + rowid AS ID, zoom_level, tile_column, tile_row / 2.0 AS tile_row"
        said = self.trouble_with(self.pack(rows, f"CREATE VIEW farm AS SELECT {columns} FROM leaves"))
        self.assertIn('view "farm", row 2 (id 73): column tile_row: the REAL 0.5 stands', said)

    def test_one_row_too_many_of_each_table(self) -> None:
        more: Dict[str, Tuple[int, Callable[[int], Tuple[object, ...]], str]] = {
            SRS: (254, lambda n: (1000 + n, "EPSG", n, "any"), "at most 256 rows of reference systems"),
            CONTENTS: (256, lambda n: (f"track{n}", "features", DATE, 0), "at most 256 rows of contents"),
            SETS: (256, lambda n: (f"track{n}", 0, 0.0, 0.0, 1.0, 1.0), "at most 256 rows of matrix sets"),
            MATRICES: (4_095, lambda n: ("farm", 2 + n, 1, 1, 1, 1, 1.0, 1.0), "at most 4,096 rows of matrices"),
            EXTENSIONS: (1_024, lambda n: ("farm", None, f"x_{n}", "read-write"), "at most 1,024 rows of extensions"),
        }
        for table, (count, cells, words) in more.items():
            with self.subTest(table):
                rows = good()
                rows[table] += [cells(n) for n in range(count)]
                last = len(rows[table]) - 1
                pack = make_pack(self.room / f"{table}.gpkg", rows)
                said = self.trouble_with(pack)
                place = f'table "{table}", row {last} (rowid {last + 1})'
                self.assertIn(f"{pack}: {place}: a listing carries {words} (docs/LISTING.md)\n", said)
                self.assertIn(f"{pack}: it has no listing, so nothing was judged\n", said)

    def test_one_tile_too_many(self) -> None:
        rows = good()
        del rows["farm"]
        said = self.trouble_with(self.pack(rows, view_of_tiles(262_145)))
        words = "a listing carries at most 262,144 rows of tiles (docs/LISTING.md)"
        self.assertIn(f'view "farm", row 262144: {words}\n', said)
        self.assertIn("it has no listing, so nothing was judged\n", said)

    def test_one_name_octet_too_many(self) -> None:
        pack = self.pack(planted([(SRS, 1, (-1, "NONE", -1, "x" * 1_048_566))]))
        said = self.trouble_with(pack)
        words = "a listing carries at most 1,048,576 octets of names and texts"
        self.assertIn(f'table "{SRS}", row 1 (rowid 2): {words}', said)

    def test_names_that_sql_cannot_say(self) -> None:
        """test_texts.py has those that are no UTF-8."""
        pack = self.pack(good(), "UPDATE gpkg_contents SET table_name = CAST(x'610062' AS TEXT)")
        connection = sqlite3.connect(pack, isolation_level=None)
        connection.execute("PRAGMA writable_schema = ON")
        connection.execute("UPDATE sqlite_master SET name = CAST(x'610062' AS TEXT) WHERE name = 'farm'")
        connection.close()
        self.assertRegex(self.trouble_with(pack), "its name has a zero octet|the file is damaged")


class MissingParts(InRoom):
    def test_tables(self) -> None:
        for table, words in {
            SRS: "there is no table gpkg_spatial_ref_sys, and a GeoPackage has one",
            CONTENTS: "there is no table gpkg_contents, and a GeoPackage has one",
            SETS: "there is no table gpkg_tile_matrix_set, and gpkg_contents names tiles",
            MATRICES: "there is no table gpkg_tile_matrix, and gpkg_contents names tiles",
        }.items():
            with self.subTest(table):
                rows = good()
                del rows[table]
                self.assertIn(words, self.trouble_with(make_pack(self.room / f"no-{table}.gpkg", rows)))

    def test_columns(self) -> None:
        pack = self.pack(good(), "ALTER TABLE gpkg_tile_matrix RENAME COLUMN tile_width TO width")
        self.assertIn('table "gpkg_tile_matrix": there is no column tile_width', self.trouble_with(pack))

    def test_a_column_that_sqlite_would_take_for_a_text(self) -> None:
        rows = good()
        del rows["farm"]
        pack = self.pack(rows, "CREATE TABLE farm (zoom_level, tile_column)")
        self.assertIn('table "farm": there is no column tile_row', self.trouble_with(pack))

    def test_functions_that_a_view_calls(self) -> None:
        rows = good()
        rows["leaves"] = rows.pop("farm")
        view = "CREATE VIEW farm AS SELECT zoom_level, tile_column, flip(tile_row) AS tile_row FROM leaves"
        pack = self.pack(rows, view)
        self.assertIn('view "farm": cannot be read (SQLite: no such function: flip)', self.trouble_with(pack))


@needs_library
class Files(InRoom):
    def test_not_there(self) -> None:
        self.assertIn("cannot be read: No such file or directory", self.trouble_with(self.room / "nothing.gpkg"))

    def test_a_folder(self) -> None:
        (self.room / "folder").mkdir()
        self.assertIn("cannot be read: Is a directory", self.trouble_with(self.room / "folder"))

    def test_no_database(self) -> None:
        for number, octets in enumerate([b"PK\3\4 a zip file, say", b"SQLite format 3", b"x"]):
            path = self.room / f"{number}.gpkg"
            path.write_bytes(octets)
            self.assertIn("this is no SQLite file, so no GeoPackage", self.trouble_with(path))

    def test_empty(self) -> None:
        path = self.room / "empty.gpkg"
        path.touch()
        self.assertEqual(self.trouble_with(path), f"gpkg-listing: {path}: this file is empty\n")

    def test_pipes_and_devices_are_not_opened(self) -> None:
        os.mkfifo(self.room / "pipe.gpkg")
        for path in [self.room / "pipe.gpkg", Path("/dev/zero")]:
            ran = Ran(["timeout", "20", TOOLS / "gpkg-listing", path, "-"])
            words = f"gpkg-listing: {path}: this is no ordinary file, so it is not read\n"
            self.assertEqual((ran.status, ran.out, ran.err), (2, "", words))

    def test_header_alone(self) -> None:
        path = self.room / "header.gpkg"
        path.write_bytes((PACKS / "valley.gpkg").read_bytes()[:100])
        self.assertIn("the file is damaged", self.trouble_with(path))

    def test_damaged_at_many_places(self) -> None:
        """Each page in turn is overwritten, and the file is cut after each: a listing, or a clear message."""
        whole = (PACKS / "valley.gpkg").read_bytes()
        messages = set()
        for start in range(1024, len(whole), 1024):
            for number, octets in enumerate([whole[:start] + b"\xa5" * 1024 + whole[start + 1024:], whole[:start]]):
                path = self.room / f"{start}-{number}.gpkg"
                path.write_bytes(octets)
                messages.add(self.in_words(path))
        self.assertIn("damaged", messages)
        self.assertLessEqual(messages, {"damaged", "listed", "unfit"})

    def in_words(self, path: Path) -> str:
        try:
            self.listing_of(path)
        except Trouble as trouble:
            return "damaged" if "the file is damaged" in str(trouble) else "unfit"
        return "listed"

    def test_locked(self) -> None:
        pack = self.pack(good())
        other = sqlite3.connect(pack, isolation_level=None)
        self.addCleanup(other.close)
        other.execute("BEGIN EXCLUSIVE")
        self.assertIn("another program is writing to the pack; try again when it is done", self.trouble_with(pack))

    def test_a_change_that_was_broken_off(self) -> None:
        made = self.pack(good())
        writer = sqlite3.connect(made, isolation_level=None)
        writer.execute("PRAGMA cache_size = 1")
        writer.execute("BEGIN")
        many = "WITH RECURSIVE n(i) AS (SELECT 0 UNION ALL SELECT i + 1 FROM n LIMIT 3000)"
        writer.execute(f"CREATE TABLE more AS {many} SELECT i, hex(zeroblob(99)) FROM n")
        writer.execute("DELETE FROM farm")
        pack = self.room / "left.gpkg"
        shutil.copy(made, pack)
        shutil.copy(f"{made}-journal", f"{pack}-journal")
        writer.execute("ROLLBACK")
        writer.close()
        self.assertIn("a change to the pack was broken off", self.trouble_with(pack))

    def test_not_to_be_read_by_this_user(self) -> None:
        pack = self.pack(good())
        pack.chmod(0)
        self.room.chmod(0o777)
        with as_nobody():
            self.assertIn("cannot be read: Permission denied", self.trouble_with(pack))


@contextlib.contextmanager
def as_nobody() -> Iterator[None]:
    """root may read and write everything; for what others may not, it has to become one of them."""
    is_root = os.geteuid() == 0
    if is_root:
        os.seteuid(65534)
    try:
        yield
    finally:
        if is_root:
            os.seteuid(0)


@needs_library
class Out(InRoom):
    """The place that the listing is written to."""

    @classmethod
    def setUpClass(cls) -> None:
        # Who may write nowhere, or only empty files, cannot compile it.
        library.program()

    def test_folder_that_is_not_there(self) -> None:
        said = self.trouble_with(self.pack(good()), self.room / "none" / "out")
        self.assertIn("cannot be written: No such file or directory", said)

    def test_folder_that_this_user_may_not_write_to(self) -> None:
        pack = self.pack(good())
        self.room.chmod(0o555)
        self.addCleanup(self.room.chmod, 0o755)
        with as_nobody():
            self.assertIn("cannot be written: Permission denied", self.trouble_with(pack))

    def test_the_pack_itself(self) -> None:
        pack = self.pack(good())
        os.link(pack, self.room / "link.gpkg")
        for out in [pack, self.room / "link.gpkg"]:
            said = self.trouble_with(pack, out)
            self.assertIn("this is the file that was read; it would be lost", said)

    def test_no_ordinary_file(self) -> None:
        pack = self.pack(good())
        (self.room / "folder").mkdir()
        os.mkfifo(self.room / "pipe")
        for name in ["folder", "pipe"]:
            said = self.trouble_with(pack, self.room / name)
            self.assertIn("this is no ordinary file, so it is not replaced", said)

    def test_a_full_disk_leaves_what_was_there(self) -> None:
        """A limit on the size of files stands in for the full disk."""
        pack, out = self.pack(good()), self.room / "out.listing"
        out.write_bytes(b"old")
        ran = Ran(["sh", "-c", f"trap '' XFSZ; ulimit -f 0; exec tools/gpkg-listing {pack} {out}"])
        self.assertEqual((ran.status, ran.out), (2, ""))
        self.assertIn("cannot be written: File too large", ran.err)
        self.assertEqual(out.read_bytes(), b"old")
        self.assertEqual(sorted(path.name for path in self.room.iterdir()), ["out.listing", "pack.gpkg"])


class Usage(unittest.TestCase):
    def test_help_and_wrong_words(self) -> None:
        for tool in ["gpkg-listing", "gpkg-check"]:
            self.assertEqual(Ran([TOOLS / tool, "--help"]).status, 0)
            self.assertEqual(Ran([TOOLS / tool]).status, 2)


if __name__ == "__main__":
    unittest.main()
