"""How the tools end: 0 and 1 are what they say of a pack, and nothing that goes wrong ends so."""

from __future__ import annotations

import os
import pty
import signal
import subprocess
import unittest
from pathlib import Path
from typing import List
from unittest import mock

from packs import GPKG_LISTING, PACKS, TOOLS, Called, InRoom, Ran, good, loaded, make_pack, needs_library

GPKG_CHECK = loaded("gpkg-check")
MEADOW = PACKS / "meadow.gpkg"


def in_shell(command: str) -> Ran:
    return Ran(["sh", "-c", command])


class StandardOutput(InRoom):
    """Output that cannot be written is told in a line, with status 2."""

    def calls(self) -> List[str]:
        return [
            f"tools/gpkg-check {MEADOW}",
            f"tools/gpkg-check --json {PACKS / 'valley.gpkg'}",
            f"tools/gpkg-check --jobs 2 {MEADOW} {PACKS / 'valley.gpkg'}",
            f"tools/gpkg-listing {MEADOW} -",
            f"tools/gpkg-listing {MEADOW} {self.room / 'out.listing'}",
        ]

    def check_trouble(self, where: str, words: str) -> None:
        for call in self.calls():
            with self.subTest(call):
                ran = in_shell(f"{call} {where}")
                self.assertEqual(ran.status, 2)
                self.assertRegex(ran.err, rf"^gpkg-\w+: {words}\n$")

    @needs_library
    def test_that_is_full(self) -> None:
        self.check_trouble("> /dev/full", "standard output cannot be written: No space left on device")

    def test_that_is_closed(self) -> None:
        self.check_trouble(">&-", "standard output is closed")

    @needs_library
    def test_a_picture_for_which_there_is_no_room_leaves_the_findings(self) -> None:
        ran = in_shell(f"tools/gpkg-check --svg - {PACKS / 'valley.gpkg'} > /dev/full")
        self.assertEqual(ran.status, 2)
        self.assertIn("541  two tiles at one address", ran.err)
        self.assertIn("gpkg-check: standard output cannot be written: No space left on device\n", ran.err)

    @needs_library
    def test_a_reader_of_a_listing_who_has_seen_enough(self) -> None:
        tiles = "WITH RECURSIVE n(i) AS (SELECT 0 UNION ALL SELECT i + 1 FROM n LIMIT 20000)"
        pack = self.pack(good(), f"INSERT INTO farm {tiles} SELECT 1, i, 0 FROM n")
        ran = in_shell(f"{{ tools/gpkg-listing {pack} -; echo $? >&2; }} | head -c 1 > /dev/null")
        self.assertEqual(ran.err, "141\n")


class StandardError(InRoom):
    def test_that_is_closed_or_full_changes_nothing_else(self) -> None:
        empty = self.room / "empty.gpkg"
        empty.touch()
        for where in ["2>&-", "2> /dev/full"]:
            for call in [f"tools/gpkg-check {empty}", f"tools/gpkg-listing {empty} -"]:
                with self.subTest(call + where):
                    ran = in_shell(f"{call} {where}")
                    self.assertEqual((ran.status, ran.out), (2, ""))

    @needs_library
    def test_that_is_closed_has_its_report_all_the_same(self) -> None:
        ran = in_shell(f"tools/gpkg-check {PACKS / 'valley.gpkg'} 2>&- <&-")
        self.assertEqual((ran.status, ran.err), (1, ""))
        self.assertIn("1 finding\n", ran.out)


class ErrorsThatNobodyForesaw(InRoom):
    def test_end_with_2_and_one_line(self) -> None:
        for error in [RuntimeError("wrong\nin two lines"), MemoryError(), OSError(5, "broken")]:
            for tool, name, words in [(GPKG_CHECK, "check_pack", [MEADOW]), (GPKG_LISTING, "export", [MEADOW, "-"])]:
                with self.subTest(f"{tool} {error!r}"), mock.patch.object(tool, name, side_effect=error):
                    called = Called(tool, *words)
                    self.assertEqual((called.status, called.out), (2, ""))
                    self.assertEqual(called.err.count("\n"), 1)
                    self.assertIn(f"an error that was not foreseen: {type(error).__name__}", called.err)

    def test_one_pack_does_not_take_the_others_with_it(self) -> None:
        with mock.patch.object(GPKG_CHECK, "check_pack", side_effect=RuntimeError("wrong")):
            called = Called(GPKG_CHECK, MEADOW, PACKS / "valley.gpkg")
        self.assertEqual((called.status, called.err.count("RuntimeError: wrong")), (2, 2))

    def test_where_they_arose_is_shown_on_demand(self) -> None:
        with mock.patch.object(GPKG_CHECK, "check_pack", side_effect=RuntimeError("wrong")):
            with mock.patch.dict(os.environ, {"DESTERLIN_TRACEBACK": "1"}):
                self.assertIn("Traceback", Called(GPKG_CHECK, MEADOW).err)

    def test_before_the_tool_has_begun(self) -> None:
        """A Python without SQLite stands for all that may be missing."""
        (self.room / "sqlite3.py").write_text("raise ImportError('there is no SQLite')\n", encoding="utf-8")
        for tool in ["gpkg-check", "gpkg-listing"]:
            ran = in_shell(f"PYTHONPATH={self.room} tools/{tool} {MEADOW} -")
            self.assertEqual((ran.status, ran.out, ran.err.count("\n")), (2, "", 1))
            self.assertIn("ImportError: there is no SQLite", ran.err)


class CtrlC(InRoom):
    """gpkg-check inside views that never yield a row."""

    def endless(self, name: str) -> Path:
        rows = good()
        del rows["farm"]
        endless = "WITH RECURSIVE n(i) AS (SELECT 0 UNION ALL SELECT i + 1 FROM n)"
        columns = "i AS zoom_level, 0 AS tile_column, 0 AS tile_row"
        return make_pack(
            self.room / f"{name}.gpkg", rows, f"CREATE VIEW farm AS {endless} SELECT {columns} FROM n WHERE i < 0"
        )

    def status_of_interrupted(self, seen: bytes, *words: object) -> int:
        """The status of gpkg-check, to which Ctrl-C came once it had said that it has begun."""
        ours, theirs = pty.openpty()
        self.addCleanup(os.close, ours)
        process = subprocess.Popen(
            [str(TOOLS / "gpkg-check"), *map(str, words)],
            stdout=subprocess.DEVNULL,
            stderr=theirs,
            env={**os.environ, "TMPDIR": str(self.room)},
            start_new_session=True,
            # Whoever runs these tests may have Ctrl-C switched off.
            preexec_fn=lambda: signal.signal(signal.SIGINT, signal.default_int_handler),
        )
        os.close(theirs)
        self.addCleanup(process.kill)
        said = b""
        while seen not in said:
            said += os.read(ours, 1000)
        # It comes to the tiles in an instant, and would stay there for ever.
        with self.assertRaises(subprocess.TimeoutExpired):
            process.wait(0.5)
        process.send_signal(signal.SIGINT)
        status = process.wait(20)
        with self.assertRaises(ProcessLookupError, msg="a process is left"):
            os.killpg(process.pid, 0)
        return status

    def test_one_pack(self) -> None:
        self.assertEqual(self.status_of_interrupted(b"gpkg_tile_matrix", self.endless("one")), 130)

    def test_two_processes(self) -> None:
        """The first of the three hears it alone, and ends the others."""
        packs = [self.endless(name) for name in ["one", "two", "three"]]
        self.assertEqual(self.status_of_interrupted(b"0 of 3 packs", "--jobs", 2, *packs), 130)
        self.assertEqual(sorted(self.room.iterdir()), sorted(packs))


if __name__ == "__main__":
    unittest.main()
