"""gpkg-check and call-library.c: the proved library from end to end."""

from __future__ import annotations

import json
import os
import pty
import subprocess
import unittest
import xml.dom.minidom
from pathlib import Path
from typing import List, Tuple

from packs import (
    DATE, PACKS, ROOT, SECOND, TOOLS, Called, InRoom, Ran, good, judged_by_second, loaded, make_pack, needs_library,
)
from test_listing import CONTENTS, FARM, MATRICES, PLANTED, SETS, planted

from desterlin import library

GPKG_CHECK = loaded("gpkg-check")
SAMPLES = ROOT / "samples"


@needs_library
class Packs(InRoom):
    def test_samples_print_what_stands_beside_them(self) -> None:
        clean, faulty = ["alp", "hill", "meadow", "survey"], ["resurvey", "slope", "valley"]
        statuses = {**dict.fromkeys(clean, 0), **dict.fromkeys(faulty, 1), "alp-latin": 2}
        self.assertEqual(set(statuses), {pack.stem for pack in PACKS.glob("*.gpkg")})
        for name, status in statuses.items():
            with self.subTest(name):
                ran = Ran(["tools/gpkg-check", f"samples/packs/{name}.gpkg"])
                printed = (PACKS / f"{name}.printed").read_text(encoding="utf-8")
                expected = ("", printed) if status == 2 else (printed, "")
                self.assertEqual((ran.status, ran.out, ran.err), (status, *expected))

    def test_planted_faults(self) -> None:
        for number in range(0, len(PLANTED), 4):
            name, changes, expected = PLANTED[number]
            with self.subTest(name):
                pack = make_pack(self.room / f"{number}.gpkg", planted(changes))
                called = Called(GPKG_CHECK, "--json", pack)
                self.assertEqual(called.status, 1 if expected else 0)
                findings = json.loads(called.out)["findings"]
                found = [f"{finding['code']} {dash(finding['row'])} {dash(finding['partner'])}" for finding in findings]
                self.assertEqual(found, expected)

    def test_rows_are_found_again_in_the_pack(self) -> None:
        rows = planted([(CONTENTS, None, ("hill", "tiles", DATE, 4326))])
        rows[FARM], rows["hill"] = [(0, 0, 0)], [(0, 0, 0)]
        pack = self.pack(rows, "INSERT INTO farm (rowid, zoom_level, tile_column, tile_row) VALUES (77, 0, 0, 0)")
        said = Called(GPKG_CHECK, pack).out
        self.assertIn('tiles row 1 (table "farm" rowid 77), partner row 0 (table "farm" rowid 1)', said)
        self.assertIn('tiles row 2 (table "hill" rowid 1): zoom 0, column 0, row 0: "hill" has no matrix', said)

    def test_rows_of_a_view_have_the_id_that_it_shows(self) -> None:
        rows = good()
        rows["leaves"] = [*rows.pop("farm"), (0, 0, 0), (0, 0, 0)]
        key = "CASE rowid WHEN 5 THEN 'none' ELSE 70 + rowid END AS id"
        said = Called(GPKG_CHECK, self.pack(rows, f"CREATE VIEW farm AS SELECT {key}, * FROM leaves")).out
        self.assertIn('tiles row 3 (view "farm" row 3, id 74), partner row 0 (view "farm" row 0, id 71): ', said)
        self.assertIn('tiles row 4 (view "farm" row 4), partner row 0 (view "farm" row 0, id 71): ', said)

    def test_what_a_name_holds_does_not_reach_the_terminal(self) -> None:
        pack = self.pack(planted([(CONTENTS, None, ("\x1b[31mred", "tiles", "\x07", 4326))]))
        called = Called(GPKG_CHECK, pack)
        self.assertEqual(called.status, 1)
        self.assertNotRegex(called.out + called.err, "[\x07\x1b]")
        self.assertIn('"\\x1b[31mred"', called.out)

    def test_trouble(self) -> None:
        pack = self.pack(planted([(FARM, 0, ("zero", 0, 0))]))
        called = Called(GPKG_CHECK, pack, "--svg", self.room / "out.svg")
        self.assertEqual((called.status, called.out), (2, ""))
        self.assertIn('column zoom_level: the text "zero" stands', called.err)
        called = Called(GPKG_CHECK, pack, "--json")
        self.assertEqual((called.status, json.loads(called.out)["status"]), (2, 2))
        self.assertEqual([path.name for path in self.room.iterdir()], ["pack.gpkg"])

    def test_both_rows_are_in_the_json(self) -> None:
        finding = json.loads(Called(GPKG_CHECK, PACKS / "valley.gpkg", "--json").out)["findings"][0]
        self.assertEqual((finding["code"], finding["requirement"], finding["table"]), (541, "C.7, Table 10", "tiles"))
        columns = {"table_name": "valley", "zoom_level": 2, "tile_column": 1, "tile_row": 2}
        for key, row in {"found_at": 16, "partner_at": 4}.items():
            ids = {16: 12, 4: 5}
            origin = f'view "valley" row {row}, id {ids[row]}'
            at = {"table": "tiles", "row": row, "origin": origin, "columns": columns}
            self.assertEqual(finding[key], at)

    def test_the_pack_is_not_drawn_over(self) -> None:
        pack = self.pack(good())
        before = self.files()
        called = Called(GPKG_CHECK, pack, "--svg", pack)
        self.assertEqual((called.status, self.files()), (2, before))
        self.assertIn("this is the file that was read; it would be lost", called.err)

    def test_a_picture_that_cannot_be_written_leaves_the_findings(self) -> None:
        out = self.room / "none" / "out.svg"
        called = Called(GPKG_CHECK, PACKS / "valley.gpkg", "--svg", out)
        self.assertEqual((called.status, called.out), (2, Called(GPKG_CHECK, PACKS / "valley.gpkg").out))
        trouble = f"{out}: cannot be written: No such file or directory"
        self.assertEqual(called.err, f"gpkg-check: {trouble}\n")
        told = json.loads(Called(GPKG_CHECK, "--json", PACKS / "valley.gpkg", "--svg", out).out)
        self.assertEqual((told["status"], told["trouble"], told["total"]), (2, trouble, 1))

    def test_a_picture_on_standard_output(self) -> None:
        ran = Ran([TOOLS / "gpkg-check", PACKS / "valley.gpkg", "--svg", "-"])
        xml.dom.minidom.parseString(ran.octets)
        self.assertEqual((ran.status, ran.err), (1, Called(GPKG_CHECK, PACKS / "valley.gpkg").out))
        self.assertFalse((ROOT / "-").exists())
        self.assertEqual(Called(GPKG_CHECK, PACKS / "valley.gpkg", "--svg", "-", "--json").status, 2)

    def test_the_path_of_a_pack_does_not_reach_the_terminal(self) -> None:
        for name, shown in {"\x1b[31mred": "\\x1b[31mred", "\udcff": "\\xff", "new\nline": "new\\nline"}.items():
            pack = make_pack(self.room / f"{name}.gpkg", good())
            told = f"{self.room}/{shown}.gpkg"
            called = Called(GPKG_CHECK, pack, "--svg", self.room / "none" / name)
            self.assertEqual(called.out.splitlines()[0], f"{told}: no findings")
            self.assertTrue(called.err.startswith(f"gpkg-check: {self.room}/none/{shown}: cannot be written: "))
            self.assertIn(f"  {told}: no findings\n", Called(GPKG_CHECK, pack, pack).out)
            pack.write_bytes(b"")
            self.assertEqual(Called(GPKG_CHECK, pack).err, f"gpkg-check: {told}: this file is empty\n")
            self.assertNotIn("\x1b", Called(GPKG_CHECK, "--jobs", name, pack).err)

    def test_picture(self) -> None:
        drawn = self.room / "valley.svg"
        self.assertEqual(Called(GPKG_CHECK, PACKS / "valley.gpkg", "--svg", drawn).status, 1)
        xml.dom.minidom.parse(str(drawn))
        self.assertIn("column 1, row 2: doubled", drawn.read_text(encoding="utf-8"))

    def full_pack(self, *statements: str) -> Path:
        """A pack of as many tiles as there may be, all at zoom 9 and column by column."""
        rows = planted([])
        rows["gpkg_tile_matrix_set"] = [(FARM, 4326, 0.0, 0.0, 1024.0, 1024.0)]
        rows["gpkg_tile_matrix"] = [(FARM, 9, 512, 512, 1, 1, 2.0, 2.0)]
        rows[FARM] = [(9, at // 512, at % 512) for at in range(262_144)]
        return self.pack(rows, *statements)

    def test_a_few_faults_among_as_many_tiles_as_there_may_be(self) -> None:
        pack = self.full_pack(
            f"UPDATE {FARM} SET tile_row = 0 WHERE rowid = 262144",
            f"UPDATE {FARM} SET tile_column = 512 WHERE rowid = 100001",
            f"UPDATE {FARM} SET zoom_level = 10 WHERE rowid = 1",
        )
        drawn = self.room / "full.svg"
        ran = Ran([TOOLS / "gpkg-check", "--json", "--svg", drawn, pack])
        self.assertEqual((ran.status, ran.err), (1, ""))
        told = json.loads(ran.out)
        self.assertEqual(told["rows"]["tiles"], 262_144)
        found = [(finding["code"], finding["row"], finding["partner"]) for finding in told["findings"]]
        faults = [(441, 0, None), (541, 262_143, 261_632), (551, 0, None), (561, 100_000, None)]
        self.assertEqual(found, faults)
        self.assertEqual(told["findings"][1]["partner_at"]["origin"], f'table "{FARM}" rowid 261633')
        xml.dom.minidom.parse(str(drawn))
        self.assertIn("2 levels, 262,144 tiles, unplaced 1, outside 1, doubled 2<", drawn.read_text(encoding="utf-8"))

    def test_as_many_tiles_as_there_may_be_and_half_of_them_doubled(self) -> None:
        ran = Ran([TOOLS / "gpkg-check", self.full_pack(f"UPDATE {FARM} SET tile_row = tile_row / 2")])
        self.assertEqual((ran.status, ran.err), (1, ""))
        lines = ran.out.splitlines()
        self.assertEqual(lines[0], f"{self.room}/pack.gpkg: 131,072 findings")
        self.assertEqual(sum(line.startswith("     tiles row ") for line in lines), 131_072)
        self.assertIn("  131,072  541  two tiles at one address", lines)

    def test_progress_on_a_terminal_alone(self) -> None:
        ours, theirs = pty.openpty()
        command = [str(TOOLS / "gpkg-check"), str(PACKS / "meadow.gpkg")]
        ran = subprocess.run(command, stdout=subprocess.PIPE, stderr=theirs, check=False)
        os.close(theirs)
        said = os.read(ours, 100_000).decode("utf-8")
        os.close(ours)
        self.assertEqual(ran.returncode, 0)
        self.assertIn("\rreading gpkg_contents", said)
        self.assertIn("\rwriting the listing", said)
        self.assertIn("\rjudging 1,997 octets", said)
        self.assertRegex(said, " \r$")
        self.assertNotIn(b"\r", ran.stdout)


SLIGHT = "of 451 and 452 off by less than one part in 10^9 of the extent"


@needs_library
class Lengths(InRoom):
    """451 and 452 are told in the numbers of the rule and in those that a person can weigh, and findings that hardly
    weigh are counted."""

    def pack_of(self, left: float, bottom: float, side: float, pixels: "List[float]") -> Path:
        rows = planted([])
        rows[SETS] = [(FARM, 4326, left, bottom, left + side, bottom + side)]
        sizes = enumerate(pixels)
        rows[MATRICES] = [(FARM, zoom, 2**zoom, 2**zoom, 256, 256, size, size) for zoom, size in sizes]
        return self.pack(rows)

    def told_of(self, pack: Path) -> "List[Tuple[object, ...]]":
        """What machines are told of each finding of 451 and 452."""
        findings = json.loads(Called(GPKG_CHECK, "--json", pack).out)["findings"]
        fields = ["code", "row", "off", "off_share", "steps", "gaps"]
        return [tuple(one[name] for name in fields) for one in findings if one["code"] in (451, 452)]

    def test_far_from_the_origin(self) -> None:
        """The worked case of docs/RULES.md, which is good, and a level that is wrong indeed: 128 m for 102.4."""
        pack = self.pack_of(500_000.0, 5_200_000.0, 102.4, [0.4, 0.2, 0.1, 0.0625])
        lines = Called(GPKG_CHECK, pack).out.splitlines()
        weights = "25.6 in the map's units; 0.25 of the extent"
        for axis, power, gaps in [("x", -34, "4.4e+11"), ("y", -30, "2.75e+10")]:
            words = f"; {gaps} gaps of 2^{power} at max_{axis}, and 4 are allowed; {weights}"
            self.assertEqual(sum(line.endswith(words) for line in lines), 1, words)
        self.assertEqual(lines[-1], f"        0  of 2 findings {SLIGHT}")
        # 25.6 m are 439,804,651,110.4 gaps of 2^-34 and 27,487,790,694.4 of 2^-30, and the stored corners are 0.4 gaps
        # too far out. A step of 102.4 is 2^-46.
        in_gaps = [(451, 439_804_651_110, 2**12), (452, 27_487_790_694, 2**16)]
        found = [(code, row, steps, gaps) for code, row, _, _, steps, gaps in self.told_of(pack)]
        self.assertEqual(found, [(code, 3, gaps * steps, gaps) for code, gaps, steps in in_gaps])

    def test_near_the_origin(self) -> None:
        """Five steps and as many gaps are a finding on each level and each side, and hardly weigh."""
        side = 1024 + 5 * 2.0**-42
        pack = self.pack_of(0.0, 0.0, side, [4.0, 2.0])
        off = 5 * 2.0**-42
        apart = (off, off / side, 5, 5.0)
        self.assertEqual(self.told_of(pack), [(code, row, *apart) for code in (451, 452) for row in (0, 1)])
        self.assertIn(f"        4  of 4 findings {SLIGHT}\n", Called(GPKG_CHECK, pack).out)
        self.assertEqual(json.loads(Called(GPKG_CHECK, "--json", "--most", 1, pack).out)["slight"], 4)

    def test_below_a_power_of_two_a_step_is_half_a_gap(self) -> None:
        """So eight steps are four gaps, and nine are a finding."""
        for below, expected in {8: [], 9: [(451, 0, 9, 4.5), (452, 0, 9, 4.5)]}.items():
            pack = self.pack_of(0.0, 0.0, 1024.0, [4 - below * 2.0**-51])
            found = [(code, row, steps, gaps) for code, row, _, _, steps, gaps in self.told_of(pack)]
            self.assertEqual(found, expected)
            pack.unlink()

    def test_one_part_in_10_to_the_9_is_not_below_it(self) -> None:
        for side, slight in {1e9: 0, 1e9 + 2: 2}.items():
            pack = self.pack_of(0.0, 0.0, side, [(1e9 + 1) / 256])
            self.assertEqual(json.loads(Called(GPKG_CHECK, "--json", pack).out)["slight"], slight)
            pack.unlink()

    def test_without_451_and_452_there_is_no_such_line(self) -> None:
        self.assertNotIn("10^9", Called(GPKG_CHECK, PACKS / "valley.gpkg").out)

    def test_lengths_that_are_none_weigh_nothing(self) -> None:
        pack = self.pack_of(float("inf"), 5.0, 0.0, [4.0])
        called = Called(GPKG_CHECK, pack)
        self.assertIn(f"        0  of 2 findings {SLIGHT}\n", called.out)
        self.assertEqual(json.loads(Called(GPKG_CHECK, "--json", pack).out)["slight"], 0)
        nothing = (None, None, None)
        self.assertEqual(self.told_of(pack), [(451, 0, None, *nothing), (452, 0, 1024.0, *nothing)])

    def test_gaps_that_no_double_can_tell(self) -> None:
        """Above the greatest double there is no gap, and of the least ones 1,024 m have too many. From a double to its
        half it is 2^52 steps; the pattern of 1,024 is (1023 + 10) * 2^52."""
        greatest = 2.0**1023 * (2 - 2.0**-52)
        for side, pixel, steps in [(greatest, greatest / 512, 2**52), (5e-324, 4.0, 1033 * 2**52 - 1)]:
            pack = self.pack_of(0.0, 0.0, side, [pixel])
            self.assertEqual([one[4:] for one in self.told_of(pack)], [(steps, None), (steps, None)])
            pack.unlink()

    def test_a_count_that_makes_no_length(self) -> None:
        rows = planted([(MATRICES, 1, ("farm", 1, 2, 0, 256, 256, 2.0, 2.0))])
        self.assertEqual(self.told_of(self.pack(rows)), [(452, 1, None, None, None, None)])


def dash(row: object) -> str:
    return "-" if row is None else str(row)


@needs_library
class Listings(InRoom):
    def test_samples(self) -> None:
        for listing in sorted(SAMPLES.glob("*.listing")):
            with self.subTest(listing.name):
                lines = judged_by_second(listing.read_bytes()).splitlines()
                called = Called(GPKG_CHECK, "--listing", listing, "--json")
                told = json.loads(called.out)
                if lines[-1].startswith("refused"):
                    number = lines[-1].split()[1]
                    self.assertEqual(called.status, 2)
                    self.assertIn(f"the listing is refused, reason {number}:", told["trouble"])
                else:
                    self.assertEqual(told["total"], len(lines) - 1)
                    self.assertEqual(called.status, 1 if told["total"] else 0)
                    self.assertEqual(sum(line["count"] for line in told["summary"]), told["total"])

    def test_a_reader_who_has_seen_enough(self) -> None:
        ran = Ran(["sh", "-c", "tools/gpkg-check --listing samples/many-findings.listing | head -n 1"])
        self.assertEqual((ran.err, ran.out.count("\n")), ("", 1))

    def test_from_standard_input(self) -> None:
        for name, status in {"doubled-address": 1, "good-pack": 0, "refused-version": 2}.items():
            octets = (SAMPLES / f"{name}.listing").read_bytes()
            ran = Ran([TOOLS / "gpkg-check", "--listing", "-"], octets)
            self.assertEqual(ran.status, status, ran.err)
            self.assertTrue((ran.out + ran.err).replace("gpkg-check: ", "").startswith("standard input: "))

    def test_what_is_no_listing(self) -> None:
        (self.room / "empty").touch()
        os.mkfifo(self.room / "pipe")
        for path, words in {
            PACKS / "valley.gpkg": "this is a pack, and no listing of one; it is checked without --listing",
            self.room / "empty": "this file is empty",
            self.room / "pipe": "this is no ordinary file, so it is not read",
        }.items():
            ran = Ran(["timeout", "20", TOOLS / "gpkg-check", "--listing", path])
            self.assertEqual((ran.status, ran.out, ran.err), (2, "", f"gpkg-check: {path}: {words}\n"))

    def test_not_there(self) -> None:
        called = Called(GPKG_CHECK, "--listing", self.room / "none")
        self.assertEqual((called.status, called.out), (2, ""))
        self.assertIn("cannot be read: No such file or directory", called.err)


@needs_library
class CallLibrary(InRoom):
    """tools/call-library.c with the word report prints what the second program does; test_write.py has the other."""

    def same(self, listing: bytes) -> None:
        ran = Ran([library.program(), "report"], listing)
        self.assertEqual((ran.status, ran.err), (0, ""))
        self.assertEqual(ran.out, judged_by_second(listing))

    def test_samples(self) -> None:
        for path in sorted(SAMPLES.glob("*.listing")):
            with self.subTest(path.name):
                self.same(path.read_bytes())

    def test_as_many_tiles_as_there_may_be(self) -> None:
        self.same(Ran([SECOND, "full", "pyramids", 262_144]).octets)

    def test_no_octets_and_too_many(self) -> None:
        self.same(b"")
        self.same(bytes(9_762_881))
        self.same(bytes(20_000_000))


class NoLibrary(unittest.TestCase):
    def test_how_to_build_it_is_told_once(self) -> None:
        env = {**os.environ, "DESTERLIN_LIBRARY": "/nowhere/libdesterlin.a"}
        for packs in [PACKS / "valley.gpkg", PACKS]:
            command = [str(TOOLS / "gpkg-check"), str(packs), "--jobs", "2"]
            ran = subprocess.run(command, env=env, capture_output=True, check=False)
            self.assertEqual((ran.returncode, ran.stdout), (2, b""))
            self.assertEqual(ran.stderr.count(b"the proved library is not built"), 1)
            self.assertIn(b"crates/desterlin && rt lib", ran.stderr)


if __name__ == "__main__":
    unittest.main()
