"""The tools in a checkout where something has still to be built, or where nothing may be written."""

from __future__ import annotations

import os
import pty
import shutil
import subprocess
import sys
import unittest
from typing import Dict, List

from packs import PACKS, ROOT, InRoom, needs_library

from desterlin import library

# The valley has one finding, for which the status is 1.
PRINTED = (PACKS / "valley.printed").read_text(encoding="utf-8")

# The library is made of all crates but the two programs and what they read by.
CRATES = [line for line in (ROOT / "crates.txt").read_text(encoding="utf-8").splitlines() if line[0] != "#"]
PARTS = len(CRATES) - 3

ARCHIVE = "crates/desterlin/out/libdesterlin.a"

# It stands in for the kit's rt: what it is asked for, and where, but for the kit's place, it writes down.
STAND_IN = """\
#!/bin/sh
[ "$1" != doc ] || exec {rt} doc
echo "$*, in $(basename "$PWD")" >> {asked}
{does}
"""
PROVED = """\
echo 'rt: chose --jobs 2 for {part}'
echo 'fn {part}::first: proved'
echo 'logic=proved functions=1'
"""
BUILDS = f"""\
{PROVED.format(part="octets")}{PROVED.format(part="doubles")}\
mkdir -p out
sleep {{seconds}}
cp {{archive}} out/libdesterlin.a
"""
FAILS = f"""\
{PROVED.format(part="octets")}\
echo 'rt: chose --jobs 2 for index'
echo 'fn index::first: proved'
echo 'fn index::find: not proved'
echo logic=not-proved
echo 'rt: the library index did not build, so nothing above it was checked' >&2
exit 1
"""
ASKED = "lib, in desterlin"


@needs_library
class Checkout(InRoom):
    """A checkout of its own, with what the tools need of this one."""

    def setUp(self) -> None:
        super().setUp()
        self.asked = self.room / "asked"
        self.checkout = self.room / "checkout"
        for folder in ["tools", "include"]:
            shutil.copytree(ROOT / folder, self.checkout / folder, ignore=shutil.ignore_patterns("__pycache__"))
        shutil.copy(ROOT / "crates.txt", self.checkout)
        (self.checkout / "crates" / "desterlin").mkdir(parents=True)
        (self.checkout / "samples" / "packs").mkdir(parents=True)
        shutil.copy(PACKS / "valley.gpkg", self.checkout / "samples" / "packs")

    def stand_in(self, does: str) -> None:
        path = self.room / "bin" / "rt"
        path.parent.mkdir()
        path.write_text(STAND_IN.format(rt=shutil.which("rt"), asked=self.asked, does=does), encoding="utf-8")
        path.chmod(0o755)

    def builds(self, seconds: int = 0) -> None:
        self.stand_in(BUILDS.format(archive=library.archive(may_build=False), seconds=seconds))

    def first_check(self) -> None:
        """The library has been built, and the first check compiles call-library.c."""
        (self.checkout / ARCHIVE).parent.mkdir()
        shutil.copy(library.archive(may_build=False), self.checkout / ARCHIVE)
        self.assertEqual(self.check().stdout, PRINTED)

    def command(self, *words: str) -> List[str]:
        return [sys.executable, "tools/gpkg-check", *words, "samples/packs/valley.gpkg"]

    def setting(self) -> Dict[str, str]:
        env = {name: value for name, value in os.environ.items() if name != "DESTERLIN_LIBRARY"}
        return {**env, "PATH": f"{self.room / 'bin'}:{os.environ['PATH']}"}

    def check(self, *words: str) -> "subprocess.CompletedProcess[str]":
        return self.run_it(self.command(*words))

    def run_it(self, command: List[str], **changed: str) -> "subprocess.CompletedProcess[str]":
        env = {**self.setting(), **changed}
        return subprocess.run(command, cwd=self.checkout, env=env, capture_output=True, text=True, check=False)

    def asked_for(self) -> List[str]:
        return self.asked.read_text(encoding="utf-8").splitlines() if self.asked.exists() else []


class FirstCheck(Checkout):
    """Where the library is not built, the check builds it."""

    def test_builds_and_goes_on(self) -> None:
        self.builds()
        ran = self.check()
        self.assertEqual((ran.returncode, ran.stdout), (1, PRINTED))
        said = "gpkg-check: the proved library is not built yet; rt lib in crates/desterlin takes some minutes\n"
        self.assertEqual(ran.stderr, said)
        self.assertEqual(self.asked_for(), [ASKED])
        ran = self.check()
        self.assertEqual((ran.returncode, ran.stdout, ran.stderr), (1, PRINTED, ""))
        self.assertEqual(self.asked_for(), [ASKED])

    def test_progress_on_a_terminal(self) -> None:
        self.builds()
        ours, theirs = pty.openpty()
        ran = subprocess.run(
            self.command(), cwd=self.checkout, env=self.setting(), stdout=subprocess.PIPE, stderr=theirs, check=False
        )
        os.close(theirs)
        said = os.read(ours, 100_000).decode("utf-8")
        os.close(ours)
        self.assertEqual((ran.returncode, ran.stdout.decode("utf-8")), (1, PRINTED))
        self.assertIn("\rgpkg-check: the proved library is not built yet; ", said)
        self.assertIn(f"\r1 of {PARTS} parts proved: octets", said)
        self.assertIn(f"\r2 of {PARTS} parts proved: doubles", said)

    def test_of_two_at_once_one_builds(self) -> None:
        self.builds(seconds=1)
        both = [
            subprocess.Popen(
                self.command(), cwd=self.checkout, env=self.setting(), stdout=subprocess.PIPE, stderr=subprocess.PIPE
            )
            for _ in range(2)
        ]
        for running in both:
            out, _ = running.communicate()
            self.assertEqual((running.returncode, out.decode("utf-8")), (1, PRINTED))
        self.assertEqual(self.asked_for(), [ASKED])

    def test_unless_told_not_to(self) -> None:
        self.builds()
        ran = self.check("--no-build")
        self.assertEqual((ran.returncode, ran.stdout), (2, ""))
        self.assertIn("the proved library is not built: there is no ", ran.stderr)
        self.assertIn(f"build it with:  cd {self.checkout}/crates/desterlin && rt lib\n", ran.stderr)
        self.assertEqual(self.asked_for(), [])

    def test_a_proof_that_fails(self) -> None:
        self.stand_in(FAILS)
        ran = self.check()
        self.assertEqual((ran.returncode, ran.stdout), (2, ""))
        told = "gpkg-check: the proved library cannot be built: rt lib in crates/desterlin ended with status 1\n"
        why = "gpkg-check: rt: the library index did not build, so nothing above it was checked\n"
        self.assertTrue(ran.stderr.endswith(told + why), ran.stderr)

    def test_no_kit(self) -> None:
        ran = self.run_it(self.command(), PATH=str(self.room))
        self.assertEqual((ran.returncode, ran.stdout), (2, ""))
        told = "the proved library cannot be built without the Rattle kit: rt: No such file or directory\n"
        self.assertIn(told, ran.stderr)

    def test_an_archive_older_than_the_crates_is_taken_as_it_is(self) -> None:
        self.builds()
        self.first_check()
        (self.checkout / "crates" / "octets.rt").touch()
        self.assertEqual(self.check().returncode, 1)
        self.assertEqual(self.asked_for(), [])


    def test_an_archive_that_lacks_a_call_is_told_to_be_an_old_one(self) -> None:
        (self.checkout / ARCHIVE).parent.mkdir()
        (self.checkout / ARCHIVE).write_bytes(b"!<arch>\n")
        ran = self.check()
        self.assertEqual((ran.returncode, ran.stdout), (2, ""))
        self.assertIn("gpkg-check: call-library.c cannot be compiled: ", ran.stderr)
        told = "the archive lacks a call of desterlin.h, so it is an old one; build it anew with:  "
        self.assertTrue(ran.stderr.endswith(f"{told}cd {self.checkout}/crates/desterlin && rt lib\n"), ran.stderr)


class FirstListing(Checkout):
    """gpkg-listing has its listing written by the library, and builds that too."""

    def list(self, *words: str) -> "subprocess.CompletedProcess[str]":
        return self.run_it([sys.executable, "tools/gpkg-listing", *words, str(self.room / "out.listing")])

    def test_builds_and_goes_on(self) -> None:
        self.builds()
        said = "gpkg-listing: the proved library is not built yet; rt lib in crates/desterlin takes some minutes\n"
        for told in [said, ""]:
            ran = self.list("samples/packs/valley.gpkg")
            self.assertEqual((ran.returncode, ran.stderr), (0, told))
            self.assertEqual((self.room / "out.listing").read_bytes(), (PACKS / "valley.listing").read_bytes())
        self.assertEqual(self.asked_for(), [ASKED])

    def test_unless_told_not_to(self) -> None:
        self.builds()
        ran = self.list("--no-build", "samples/packs/valley.gpkg")
        self.assertEqual((ran.returncode, ran.stdout), (2, ""))
        self.assertIn("gpkg-listing: the proved library is not built: there is no ", ran.stderr)
        self.assertEqual((self.asked_for(), (self.room / "out.listing").exists()), ([], False))

    def test_a_pack_without_a_listing_is_told_before_that(self) -> None:
        self.builds()
        ran = self.list("crates.txt")
        self.assertEqual((ran.returncode, ran.stdout), (2, ""))
        self.assertEqual(ran.stderr, "gpkg-listing: crates.txt: this is no SQLite file, so no GeoPackage\n")
        self.assertEqual(self.asked_for(), [])


class SecondUser(Checkout):
    """One who may read the checkout, and write nothing there."""

    def as_another(self) -> "subprocess.CompletedProcess[str]":
        for path in [self.checkout, *self.checkout.rglob("*")]:
            path.chmod(path.stat().st_mode & 0o555)
        self.addCleanup(self.allow)
        # root may read and write everything, unless it gives that up.
        giving_up = ["setpriv", "--bounding-set=-dac_override,-dac_read_search", "--"] if os.geteuid() == 0 else []
        return self.run_it([*giving_up, *self.command()])

    def allow(self) -> None:
        for path in [self.checkout, *self.checkout.rglob("*")]:
            path.chmod(path.stat().st_mode | 0o200)

    def test_uses_what_the_first_one_has_compiled(self) -> None:
        self.first_check()
        ran = self.as_another()
        self.assertEqual((ran.returncode, ran.stdout, ran.stderr), (1, PRINTED, ""))

    def test_hears_why_nothing_can_be_built(self) -> None:
        self.builds()
        ran = self.as_another()
        self.assertEqual((ran.returncode, ran.stdout), (2, ""))
        self.assertIn("the proved library is not built, and cannot be here: ", ran.stderr)
        self.assertIn("Permission denied", ran.stderr)

    def test_hears_why_nothing_can_be_compiled(self) -> None:
        self.first_check()
        shutil.rmtree(self.checkout / "target" / "tools")
        ran = self.as_another()
        self.assertEqual((ran.returncode, ran.stdout), (2, ""))
        self.assertIn("call-library.c cannot be compiled: ", ran.stderr)

    def test_hears_what_may_not_be_read_or_run(self) -> None:
        self.first_check()
        # On some machines there is another file beside the program, with a longer name.
        programs = (self.checkout / "target" / "tools").glob("call-library-*")
        program = min(programs, key=lambda path: len(path.name))
        archive = self.checkout / ARCHIVE
        for path, mode, told in [(program, 0o444, "cannot be run"), (archive, 0, "cannot be read")]:
            path.chmod(mode)
            ran = self.as_another()
            self.assertEqual((ran.returncode, ran.stdout), (2, ""))
            self.assertEqual(ran.stderr, f"gpkg-check: {path}: {told}: Permission denied\n")


class Compiled(Checkout):
    def test_again_where_something_that_it_is_made_of_has_changed(self) -> None:
        self.first_check()
        source = self.checkout / "tools" / "call-library.c"
        text = source.read_text(encoding="utf-8")
        source.write_text(text.replace('printf("total ', 'printf("sum '), encoding="utf-8")
        ran = self.check()
        self.assertEqual((ran.returncode, ran.stdout), (2, ""))
        self.assertIn("the library's answer breaks off after 1 findings", ran.stderr)
        source.write_text(text, encoding="utf-8")
        self.assertEqual(self.check().stdout, PRINTED)


if __name__ == "__main__":
    unittest.main()
