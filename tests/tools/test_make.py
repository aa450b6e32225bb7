"""make: the example, and the installation of header and library."""

from __future__ import annotations

import os
import re
import shutil
import subprocess
import unittest
from pathlib import Path
from typing import List

from packs import ROOT, InRoom, Ran, needs_library

from desterlin import library

MADE_SCREEN = """\
report: 1 finding
  541 row 5, partner row 3: two tiles at one address
verdict on 541 (two tiles at one address): fail, first at row 5
screen: contents row 0, zoom 1, columns 0 to 1
  row 0: 1 2
  row 1: 3 4
"""


def make(folder: Path, *words: str) -> "subprocess.CompletedProcess[str]":
    env = {name: value for name, value in os.environ.items() if name not in ("CC", "MAKEFLAGS", "MAKELEVEL")}
    command = ["make", "-s", "-C", str(folder), *words]
    return subprocess.run(command, env=env, capture_output=True, text=True, check=False)


class Examples(InRoom):
    def make(self, *words: str) -> "subprocess.CompletedProcess[str]":
        return make(ROOT / "examples", *words)

    def test_says_what_to_do_without_the_library(self) -> None:
        ran = self.make(f"LIBRARY={self.room}/none.a", f"BUILT={self.room}")
        self.assertEqual((ran.returncode, ran.stdout), (2, ""))
        self.assertIn("The proved library is not built yet.", ran.stderr)
        self.assertIn("cd ../crates/desterlin && rt lib", ran.stderr)

    @needs_library
    def test_builds_and_runs_the_viewer(self) -> None:
        named = {"LIBRARY": os.environ.get("DESTERLIN_LIBRARY"), "CC": os.environ.get("DESTERLIN_CC")}
        ran = self.make(f"BUILT={self.room}", *(f"{name}={value}" for name, value in named.items() if value))
        self.assertEqual((ran.returncode, ran.stdout, ran.stderr), (0, MADE_SCREEN, ""))


# A caller's program: it prints the version, and of the header alone the number of findings.
CALLER = b"""\
#include <desterlin.h>
#include <stdio.h>

int main(void)
{
    uint8_t listing[64] = { 1, 0, 0, 0, 64 }, answer[DESTERLIN_REPORT_ANSWER];
    for (int table = 0; table < 7; table++)
        listing[12 + 8 * table] = 64;
    desterlin_report(listing, sizeof listing, NULL, 0, NULL, 0, answer, sizeof answer);
    printf("version %d, number %u, total %u\\n", DESTERLIN_VERSION,
           (unsigned)desterlin_word(answer, DESTERLIN_REPORT_NUMBER),
           (unsigned)desterlin_word(answer, DESTERLIN_REPORT_TOTAL));
    return 0;
}
"""


@needs_library
class Install(InRoom):
    """make install, and a program that is compiled with what was installed and nothing else."""

    def install(self, **settings: object) -> "subprocess.CompletedProcess[str]":
        words = {"LIBRARY": library.archive(may_build=False), **settings}
        return make(ROOT, "install", *(f"{name}={value}" for name, value in words.items()))

    def installed(self) -> List[str]:
        return sorted(str(path.relative_to(self.room)) for path in self.room.rglob("*") if path.is_file())

    def pkg_config(self, *words: str) -> str:
        """What pkg-config says, or where there is none, what it would."""
        folder = self.room / "lib" / "pkgconfig"
        if shutil.which("pkg-config") is not None:
            os.environ["PKG_CONFIG_PATH"] = str(folder)
            self.addCleanup(os.environ.pop, "PKG_CONFIG_PATH", None)
            return Ran(["pkg-config", *words, "desterlin"]).out.strip()
        text = (folder / "desterlin.pc").read_text(encoding="utf-8")
        for name, value in re.findall(r"^(\w+)=(.*)$", text, re.M):
            text = text.replace(f"${{{name}}}", value)
        fields = dict(re.findall(r"^(\w+): (.*)$", text, re.M))
        return fields["Version"] if words == ("--modversion",) else f"{fields['Cflags']} {fields['Libs']}"

    def test_a_program_is_linked_with_what_was_installed(self) -> None:
        ran = self.install(PREFIX=self.room)
        self.assertEqual((ran.returncode, ran.stdout, ran.stderr), (0, "", ""))
        files = ["include/desterlin.h", "lib/libdesterlin.a", "lib/pkgconfig/desterlin.pc"]
        self.assertEqual(self.installed(), files)
        source, program = self.room / "caller.c", self.room / "caller"
        source.write_bytes(CALLER)
        compiler = os.environ.get("DESTERLIN_CC") or ROOT / "tools" / "cc-x86-64"
        flags = self.pkg_config("--cflags", "--libs").split()
        ran = Ran([compiler, "-std=c99", "-Wall", "-Werror", source, *flags, "-o", program], folder=self.room)
        self.assertEqual((ran.status, ran.err), (0, ""))
        ran = Ran([program], folder=self.room)
        version = self.pkg_config("--modversion")
        self.assertEqual((ran.status, ran.out), (0, f"version {version}, number 0, total 4\n"))

    def test_a_package_is_made_before_it_is_put_in_its_place(self) -> None:
        self.assertEqual(self.install(DESTDIR=self.room, PREFIX="/usr/farm").returncode, 0)
        files = ["usr/farm/include/desterlin.h", "usr/farm/lib/libdesterlin.a", "usr/farm/lib/pkgconfig/desterlin.pc"]
        self.assertEqual(self.installed(), files)
        lines = (self.room / files[-1]).read_text(encoding="utf-8").splitlines()
        self.assertEqual(lines[0], "prefix=/usr/farm")

    def test_trouble_installs_nothing(self) -> None:
        ran = self.install(PREFIX=self.room, LIBRARY=self.room / "none.a")
        self.assertEqual((ran.returncode, ran.stdout, self.installed()), (2, "", []))
        self.assertIn("The proved library is not built yet. Run:  cd crates/desterlin && rt lib", ran.stderr)
        for prefix in ["", "farm", "two words"]:
            ran = self.install(DESTDIR=self.room, PREFIX=prefix)
            self.assertEqual((ran.returncode, ran.stdout, self.installed()), (2, "", []))
            self.assertIn("PREFIX must be a whole path without blanks", ran.stderr)


if __name__ == "__main__":
    unittest.main()
