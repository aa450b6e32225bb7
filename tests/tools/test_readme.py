"""README.md's commands print what README.md says they print.

A block that is fenced as console has commands, each after "$ ", and below each what it prints. They run in this order
in the repository's root. Those that prove (rt, .ci/run) are left out: they take minutes, and the gate has run them.
"""

from __future__ import annotations

import re
import unittest
from typing import List, Tuple

from packs import ROOT, Ran, needs_library

PROVES = re.compile(r"^(rt|bash \.ci/run|\.ci/run)\b")
DESK = "crates/desk/out/desk"
NO_DESK = "the desk program is not built: cd crates/desk && rt run"


def commands() -> List[Tuple[str, str]]:
    page = (ROOT / "README.md").read_text(encoding="utf-8")
    blocks = re.findall(r"^```console\n(.*?)^```$", page, re.M | re.S)
    told = [re.split(r"^\$ (.*)\n", block, flags=re.M)[1:] for block in blocks]
    return [pair for block in told for pair in zip(block[::2], block[1::2])]


@needs_library
class Readme(unittest.TestCase):
    def test_the_first_command_is_the_main_job(self) -> None:
        self.assertEqual(commands()[0][0], "tools/gpkg-check samples/packs/valley.gpkg")

    def test_each_command_prints_what_stands_below_it(self) -> None:
        tried = [(command, printed) for command, printed in commands() if not PROVES.match(command)]
        for command, printed in tried:
            with self.subTest(command):
                if DESK in command and not (ROOT / DESK).exists():
                    self.skipTest(NO_DESK)
                ran = Ran(["sh", "-c", f"{{ {command}; }} 2>&1"])
                self.assertEqual(ran.out, printed)


@unittest.skipUnless((ROOT / DESK).exists(), NO_DESK)
class Desk(unittest.TestCase):
    def test_its_exit_status_is_the_one_told(self) -> None:
        page = re.sub(r"\s+", " ", (ROOT / "README.md").read_text(encoding="utf-8"))
        self.assertIn("Its exit status is 0 whatever it prints", page)
        printed = []
        for listing in [(ROOT / "samples" / "doubled-address.listing").read_bytes(), b"", bytes(65_537)]:
            ran = Ran(["tools/run-x86-64", DESK], listing)
            self.assertEqual((ran.status, ran.err), (0, ""))
            printed.append(ran.out.splitlines()[-1].split()[0])
        self.assertEqual(printed, ["total", "refused", "oversize"])


if __name__ == "__main__":
    unittest.main()
