"""Several packs in one call, folders of them, and several processes; and a limit on what is printed of each."""

from __future__ import annotations

import contextlib
import errno
import json
import os
import signal
import time
import unittest
from multiprocessing.connection import wait
from pathlib import Path
from typing import Iterator, List
from unittest import mock

from packs import PACKS, ROOT, Called, InRoom, Ran, good, loaded, make_pack, needs_library
from test_listing import FARM, planted

from desterlin import report
from desterlin.check import Judged
from desterlin.many import Outcome
from desterlin.workers import side_by_side

GPKG_CHECK = loaded("gpkg-check")
VALLEY, MEADOW = PACKS / "valley.gpkg", PACKS / "meadow.gpkg"


@needs_library
class Several(InRoom):
    def reports(self, *packs: Path) -> str:
        return "".join(Called(GPKG_CHECK, pack).out + "\n" for pack in packs)

    def test_each_has_its_report_and_a_line_in_the_summary(self) -> None:
        called = Called(GPKG_CHECK, VALLEY, MEADOW)
        lines = f"summary\n    1  {VALLEY}: 1 finding\n    0  {MEADOW}: no findings\n"
        self.assertEqual((called.status, called.err), (1, ""))
        self.assertEqual(called.out, self.reports(VALLEY, MEADOW) + lines)

    def test_the_status_is_the_worst(self) -> None:
        rows = good()
        del rows["farm"]
        unfinished = make_pack(self.room / "unfinished.gpkg", rows)
        none = self.room / "none"
        for packs, status in [([MEADOW, MEADOW], 0), ([unfinished, MEADOW], 1), ([MEADOW, none, VALLEY], 2)]:
            for jobs in [1, 2]:
                self.assertEqual(Called(GPKG_CHECK, "--jobs", jobs, *packs).status, status)

    def test_one_that_cannot_be_read_does_not_keep_the_others_from_being_judged(self) -> None:
        none = self.room / "none"
        called = Called(GPKG_CHECK, none, VALLEY)
        trouble = f"{none}: cannot be read: No such file or directory"
        self.assertEqual(called.err, f"gpkg-check: {trouble}\n")
        self.assertIn(f"    2  {trouble}\n    1  {VALLEY}: 1 finding\n", called.out)
        self.assertTrue(called.out.startswith(f"\n{VALLEY}: 1 finding\n"))

    def folder(self) -> List[Path]:
        """A folder with four packs, the first of which takes longest, and with things that are none."""
        rows = planted([])
        rows[FARM] = [(1, at, 0) for at in range(20_000)]
        packs = [make_pack(self.room / "B.GPKG", rows), make_pack(self.room / "a.gpkg", good()), self.room / "c.gpkg"]
        packs[2].write_bytes(b"no pack")
        packs.append(make_pack(self.room / "d.gpkg", planted([(FARM, None, (1, 0, 0))])))
        (self.room / "notes.txt").touch()
        (self.room / "within.gpkg").mkdir()
        make_pack(self.room / "within.gpkg" / "e.gpkg", good())
        return packs

    def test_a_folder_stands_for_its_packs_by_name(self) -> None:
        packs = self.folder()
        called = Called(GPKG_CHECK, self.room, MEADOW)
        summary = called.out[called.out.index("summary\n"):].splitlines()[1:]
        self.assertEqual([line[:7] + line[7:].split(":")[0] for line in summary],
                         [f"    {status}  {pack}" for status, pack in zip([1, 0, 2, 1, 0], [*packs, MEADOW])])
        note = f"gpkg-check: note: {self.room / 'within.gpkg'}: a folder in a folder is not entered\n"
        self.assertTrue(called.err.startswith(note), called.err)

    def test_several_processes_print_the_same(self) -> None:
        self.folder()
        for more in [[], ["--json"], ["--most", "3"]]:
            one, two = (Called(GPKG_CHECK, self.room, MEADOW, VALLEY, "--jobs", jobs, *more) for jobs in [1, 3])
            self.assertEqual((two.status, two.err), (one.status, one.err))
            self.assertTrue(two.out == one.out, "what is printed differs")

    def test_a_reader_who_has_seen_enough_ends_them_all(self) -> None:
        packs = f"{self.folder()[0]} " * 6
        ran = Ran(["sh", "-c", f"{{ TMPDIR={self.room} tools/gpkg-check --jobs 2 {packs}; echo $? >&2; }} | head -n 1"])
        self.assertEqual((ran.err, ran.out.count("\n")), ("141\n", 1))
        self.assertEqual([path.name for path in self.room.iterdir() if path.name.startswith("desterlin-")], [])

    def test_a_folder_without_packs_is_no_clean_one(self) -> None:
        (self.room / "notes.txt").touch()
        called = Called(GPKG_CHECK, self.room)
        trouble = f"{self.room}: there is no pack (*.gpkg) in this folder"
        self.assertEqual((called.status, called.err), (2, f"gpkg-check: {trouble}\n"))

    def test_a_link_that_leads_nowhere_is_told_and_keeps_nothing_else_from_being_judged(self) -> None:
        (self.room / "loop.gpkg").symlink_to(self.room / "loop.gpkg")
        pack = self.pack(good())
        called = Called(GPKG_CHECK, self.room)
        self.assertIn(f"    2  {self.room}/loop.gpkg: cannot be read: ", called.out)
        self.assertIn(f"    0  {pack}: no findings\n", called.out)

    def test_a_folder_of_one_has_its_summary(self) -> None:
        pack = self.pack(good())
        called = Called(GPKG_CHECK, self.room)
        self.assertEqual(called.out, self.reports(pack) + f"summary\n    0  {pack}: no findings\n")

    def test_json_is_an_object_a_line(self) -> None:
        self.folder()
        called = Called(GPKG_CHECK, "--json", self.room, VALLEY)
        told = [json.loads(line) for line in called.out.splitlines()]
        names = [Path(pack["path"]).name for pack in told]
        self.assertEqual(names, ["B.GPKG", "a.gpkg", "c.gpkg", "d.gpkg", "valley.gpkg"])
        self.assertEqual([pack["status"] for pack in told], [1, 0, 2, 1, 1])
        self.assertEqual([pack.get("total") for pack in told], [19_998, 0, None, 1, 1])
        self.assertEqual(len(told[0]["findings"]), 19_998)

    def test_one_picture_is_of_one_pack(self) -> None:
        out = self.room / "out.svg"
        for packs in [[VALLEY, MEADOW], [PACKS]]:
            called = Called(GPKG_CHECK, "--svg", out, *packs)
            self.assertEqual((called.status, called.out, out.exists()), (2, "", False))
            self.assertIn("--svg draws one pack", called.err)


def end_group(group: int) -> None:
    with contextlib.suppress(ProcessLookupError):
        os.killpg(group, signal.SIGKILL)


class Processes(unittest.TestCase):
    def test_outcomes_come_in_order_however_they_end(self) -> None:
        def act(at: int) -> Outcome:
            time.sleep(0.2 if at == 0 else 0)
            return Outcome("pack", at, "", [])

        found = [outcome.status for outcome in side_by_side(["pack"] * 9, 3, act)]
        self.assertEqual(found, list(range(9)))

    def test_one_that_is_ended_from_outside_takes_one_pack_with_it(self) -> None:
        def act(at: int) -> Outcome:
            if at in (1, 2):
                os.kill(os.getpid(), signal.SIGKILL)
            return Outcome("pack", 0, "", [])

        found = list(side_by_side(["a", "b", "c", "d", "e"], 2, act))
        self.assertEqual([outcome.status for outcome in found], [0, 2, 2, 0, 0])
        ended = "b: the process that judged it was ended from outside, so it was not judged"
        self.assertEqual(found[1].complaints, [ended])


    def test_end_where_the_first_one_is_gone(self) -> None:
        """They tell so by closing their ends of a pipe, which nobody else has."""
        ours, theirs = os.pipe()
        first = os.fork()
        if first == 0:
            os.setsid()

            def act(at: int) -> Outcome:
                if at > 1:
                    os.kill(os.getppid(), signal.SIGKILL)
                return Outcome("pack", 0, "", [])

            list(side_by_side(["pack"] * 9, 2, act))
            os._exit(1)
        os.close(theirs)
        self.addCleanup(os.close, ours)
        self.addCleanup(end_group, first)
        os.waitpid(first, 0)
        self.assertTrue(wait([ours], timeout=20), "a process is left")


@needs_library
class ProcessesThatFail(InRoom):
    def test_are_told_of_in_their_place(self) -> None:
        """One is ended with half a report written, another has no room for its report."""
        pieces = report.pieces

        def failing(judged: Judged, *how: object) -> Iterator[str]:
            if "ended" in judged.path:
                yield "{" * 100_000
                os.kill(os.getpid(), signal.SIGKILL)
            if "full" in judged.path:
                raise OSError(errno.ENOSPC, "No space left on device")
            yield from pieces(judged, *how)

        packs = [make_pack(self.room / f"{name}.gpkg", good()) for name in ["a", "ended", "full", "z"]]
        with mock.patch.object(report, "pieces", failing):
            called = Called(GPKG_CHECK, "--json", "--jobs", 2, *packs)
        told = [json.loads(line) for line in called.out.splitlines()]
        self.assertEqual([pack["path"] for pack in told], list(map(str, packs)))
        self.assertEqual([pack["status"] for pack in told], [0, 2, 2, 0])
        self.assertIn("was ended from outside", told[1]["trouble"])
        self.assertIn("No space left on device", told[2]["trouble"])
        self.assertEqual((called.status, called.err.count("\n")), (2, 2))


@needs_library
class Most(InRoom):
    def test_limits_what_is_printed_and_not_what_is_counted(self) -> None:
        listing = ROOT / "samples" / "many-findings.listing"
        whole = Called(GPKG_CHECK, "--listing", listing).out.splitlines()
        called = Called(GPKG_CHECK, "--listing", listing, "--most", 3)
        lines = called.out.splitlines()
        total = int(whole[0].split(": ")[1].split()[0].replace(",", ""))
        self.assertEqual((called.status, lines[0]), (1, whole[0]))
        self.assertEqual([line for line in lines if line.startswith("     ") and ": " in line],
                         [line for line in whole if line.startswith("     ") and ": " in line][:3])
        self.assertIn(f"{total - 3:,} findings more, which --most 3 leaves out here", lines)
        self.assertEqual(lines[lines.index(whole[-1]) - 1:], whole[-2:])

    def test_json_is_limited_where_it_is_asked_for(self) -> None:
        listing = ROOT / "samples" / "many-findings.listing"
        whole = json.loads(Called(GPKG_CHECK, "--json", "--listing", listing).out)
        told = json.loads(Called(GPKG_CHECK, "--json", "--listing", listing, "--most", 3).out)
        self.assertEqual((whole["left_out"], len(whole["findings"])), (0, whole["total"]))
        self.assertEqual(told, {**whole, "left_out": whole["total"] - 3, "findings": whole["findings"][:3]})

    def test_more_than_there_are(self) -> None:
        self.assertEqual(Called(GPKG_CHECK, VALLEY, "--most", 5).out, Called(GPKG_CHECK, VALLEY).out)

    def test_none(self) -> None:
        lines = Called(GPKG_CHECK, VALLEY, "--most", 0).out.splitlines()
        self.assertEqual(lines[1:3], ["", "1 finding more, which --most 0 leaves out here"])
        self.assertIn("        1  541  two tiles at one address", lines)

    def test_numbers_that_are_none(self) -> None:
        for words in [["--most", "-1"], ["--most", "x"], ["--jobs", "0"], ["--jobs", "1.5"]]:
            self.assertEqual(Called(GPKG_CHECK, *words, VALLEY).status, 2)


if __name__ == "__main__":
    unittest.main()
