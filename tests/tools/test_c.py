"""The C side: the header, the workspace, and the example and the calls under walls and sanitizers."""

from __future__ import annotations

import hashlib
import os
import re
import shutil
import struct
import unittest
from pathlib import Path
from typing import List, Tuple

from packs import BUILT, ROOT, SECOND, TESTS, InRoom, Ran, judged_by_second, needs_library

from desterlin import library
from desterlin.listing import (
    CONTENTS, LISTING, MATRICES, METADATA, METADATA_TABLES, NAMES_MOST, SETS, TABLES, TILES, Listing, MetadataListing,
    laid,
)
from desterlin.rules import RULES

SAMPLES = ROOT / "samples"
TWICE = b"""\
#include "desterlin.h"
#include "desterlin.h"
static uint8_t work[DESTERLIN_WORK_FOR(1000)], column[DESTERLIN_COLUMN_SIZE(1000)];
int main(void) { return work[0] + column[7999]; }
"""

# The sum of the header's code, without comments, in each version.
COMPILED = {
    1: "e12eb21fc7902aa5", 2: "a8f623c6b065515a", 3: "be91e474c9664c64", 4: "2fafe7db99105671", 5: "8bdd11bf164c65f2",
}

# From columns, a report and a lookup have the words of those from rows, and so has the report on metadata.
ANSWERS = {
    "report": ["number", "refused table", "refused row", "total", "written"],
    "verdict": ["ruling", "first row", "number", "refused table", "refused row"],
    "lookup": ["tile", "number", "refused table", "refused row"],
    "fill": ["number", "refused table", "refused row"],
    "write": ["number", "refused table", "refused row", "octets"],
}
CALLS = ["report", "verdict", "lookup", "fill", "report_columns", "lookup_columns", "write", "report_metadata"]


class Header(unittest.TestCase):
    STRICT = ["-pedantic", "-Wall", "-Wextra", "-Werror", "-fsyntax-only", f"-I{ROOT / 'include'}"]

    def test_c99(self) -> None:
        ran = Ran(["cc", "-std=c99", *self.STRICT, "-Wstrict-prototypes", "-Wconversion", "-x", "c", "-"], TWICE)
        self.assertEqual((ran.status, ran.err), (0, ""))

    def test_cpp(self) -> None:
        if shutil.which("c++") is None:
            self.skipTest("this machine has no C++ compiler")
        ran = Ran(["c++", "-std=c++11", *self.STRICT, "-Wconversion", "-x", "c++", "-"], TWICE)
        self.assertEqual((ran.status, ran.err), (0, ""))

    def test_every_name_has_the_prefix(self) -> None:
        """What the header defines beyond the two headers that it includes."""
        bare = b"#include <stddef.h>\n#include <stdint.h>\n"
        names = self.macros(b'#include "desterlin.h"\n') - self.macros(bare)
        self.assertTrue(names)
        self.assertEqual({name for name in names if not name.startswith("DESTERLIN_")}, set())
        text = (ROOT / "include" / "desterlin.h").read_text(encoding="utf-8")
        code = re.sub(r"/\*.*?\*/", "", text, flags=re.S)
        declared = re.findall(r"^(?:static inline )?(?:uint32_t|void|struct \w+) (\w+)\(", code, re.M)
        declared += re.findall(r"^(?:enum|struct) (\w+)", code, re.M)
        declared += re.findall(r"^    (\w+) = \d+,?\s*$", code, re.M)
        self.assertGreater(len(declared), 40)
        self.assertEqual({name for name in declared if not name.lower().startswith("desterlin_")}, set())

    def test_the_words_of_an_answer_are_called_what_they_are(self) -> None:
        """In the enumerations, in the comments above them and in docs/API.md. A row is never just a row: it is the
        first one with a finding, or that of the refusal."""
        text = (ROOT / "include" / "desterlin.h").read_text(encoding="utf-8")
        page = (ROOT / "docs" / "API.md").read_text(encoding="utf-8")
        for call, words in ANSWERS.items():
            enumeration = text.split(f"enum desterlin_{call}_word {{")[1].split("}")[0]
            named = re.findall(rf"DESTERLIN_{call.upper()}_(\w+) = (\d)", enumeration)
            self.assertEqual(named, [(word.upper().replace(" ", "_"), str(at)) for at, word in enumerate(words)])
            told = text.split(f"(DESTERLIN_{call.upper()}_ANSWER octets)")[1].split("*/")[0]
            self.assertEqual(re.findall(r"^ \*   (\d) ([a-z ]+?)  ", told, re.M), list(zip("01234", words)))
            octets = f"{4 * len(words)} octets"
            row = re.findall(rf"^\| {call}(?:, {call}_\w+)* \| {octets} \| (.*) \|$", page, re.M)
            self.assertEqual([re.sub(r" \(.*?\)", "", line).split(", ") for line in row], [words])

    def test_the_calls_are_declared_alike_in_the_page(self) -> None:
        pattern = r"^uint32_t desterlin_(\w+) *(\([^)]*\));"
        texts = [(ROOT / name).read_text(encoding="utf-8") for name in ["include/desterlin.h", "docs/API.md"]]
        header, page = (
            {call: re.sub(r"\s+", "", lent) for call, lent in re.findall(pattern, text, re.M)} for text in texts
        )
        self.assertEqual((list(header), header), (CALLS, page))

    def test_rows_are_of_the_size_that_they_are(self) -> None:
        """The tools' tables are those of docs/LISTING.md, as test_words.py sees."""
        text = (ROOT / "include" / "desterlin.h").read_text(encoding="utf-8")
        defined = re.findall(r"^#define DESTERLIN_(\w+_(?:ROW|MOST)) (\d+)$", text, re.M)
        told = {"LISTING_MOST": LISTING.most, "METADATA_MOST": METADATA.most}
        told.update({"NAME_OCTETS_MOST": NAMES_MOST, "METADATA_NAME_OCTETS_MOST": NAMES_MOST})
        for table in [*TABLES, *METADATA_TABLES]:
            name = table.title.upper().replace(" ", "_")
            self.assertIn(f"DESTERLIN_{name} = {table.number},", text)
            told.update({f"{name}_ROW": table.form.size, f"{name}_MOST": table.most})
        self.assertEqual({name: int(number) for name, number in defined}, told)
        self.assertEqual((LISTING.header, LISTING.most, METADATA.header, METADATA.most), (64, 9_762_880, 32, 1_314_848))

    def test_what_nobody_would_guess_is_told(self) -> None:
        told = self.told()
        self.assertIn("It costs one pass over the listing", told)
        elsewhere = {code: rule.partner_table for code, rule in RULES.items() if rule.partner_table is not rule.table}
        self.assertEqual(elsewhere, {162: SETS})
        self.assertIn("but for 162: its partner is a matrix set row", told)

    @needs_library
    def test_the_archive_is_for_the_machine_that_is_told(self) -> None:
        self.assertIn("which `rt lib` in crates/desterlin proves and writes: it is x86-64 code", self.told())
        octets = library.archive(may_build=False).read_bytes()
        objects = [match.start() for match in re.finditer(b"\x7fELF", octets)]
        x86_64 = 62
        self.assertEqual({octets[start + 18] for start in objects}, {x86_64})

    def test_the_version_rises_with_what_a_caller_compiles(self) -> None:
        """A request that changes the header's code raises DESTERLIN_VERSION and adds a line to COMPILED."""
        text = (ROOT / "include" / "desterlin.h").read_text(encoding="utf-8")
        code = " ".join(re.sub(r"/\*.*?\*/", " ", text, flags=re.S).split())
        version = int(re.findall(r"#define DESTERLIN_VERSION (\d+)", code)[0])
        self.assertEqual({version: hashlib.sha256(code.encode()).hexdigest()[:16]}, {version: COMPILED[version]})
        self.assertEqual(version, max(COMPILED))

    def told(self) -> str:
        """The header in one line, without the stars of its comments."""
        return re.sub(r"\s+(\* )?", " ", (ROOT / "include" / "desterlin.h").read_text(encoding="utf-8"))

    def macros(self, source: bytes) -> "set[str]":
        ran = Ran(["cc", "-std=c99", "-dM", "-E", f"-I{ROOT / 'include'}", "-x", "c", "-"], source)
        return {line.split()[1].split("(")[0] for line in ran.out.splitlines()}


def work_for(tiles: List[int]) -> List[int]:
    """What the header's DESTERLIN_WORK_FOR says, and in the end DESTERLIN_WORK_FULL."""
    prints = "".join(f'printf("%zu\\n", DESTERLIN_WORK_FOR({number}));' for number in tiles)
    full = 'printf("%d\\n", DESTERLIN_WORK_FULL);'
    source = f'#include <stdio.h>\n#include "desterlin.h"\nint main(void) {{ {prints} {full} return 0; }}\n'
    BUILT.mkdir(parents=True, exist_ok=True)
    program = BUILT / "work-for"
    ran = Ran(["cc", "-std=c99", f"-I{ROOT / 'include'}", "-x", "c", "-", "-o", program], source.encode())
    assert ran.status == 0, ran.err
    return [int(line) for line in Ran([program]).out.splitlines()]


def constant(crate: str, pattern: str) -> int:
    """The one number that a crate has where the pattern says."""
    sources = sorted((ROOT / "crates" / crate / "src").glob("*.rt"))
    numbers = re.findall(pattern, "".join(source.read_text(encoding="utf-8") for source in sources), re.M)
    assert len(numbers) == 1, (crate, pattern, numbers)
    return int(numbers[0])


class Work(unittest.TestCase):
    """The sizes of the workspace that the header names, by the numbers of the code. Full speed is that of an index with
    15 heads for 16 rows at the least; a report on metadata has one of contents by their names."""

    first_part = constant("report", r"^(?:pub )?const FIRST_PART: usize = (\d+);$")
    spare = constant("index", r"^const SPARE_HEADS: usize = (\d+);$")
    tried = sorted({0, 1, 1000, *range(0, TILES.most, 4093), TILES.most - 1, TILES.most})

    def heads_for(self, octets: int, rows: int) -> int:
        """As crates/index/src/work.rt has it: a word for each row, and the rest for heads, but so many at the most."""
        return max(0, min(octets // 4 - rows, rows + self.spare))

    def indexes(self, work: int, tiles: int) -> List[Tuple[int, int]]:
        """The heads and the rows of each index that a report may make: 541 and the survey have all of the work, the
        other codes two parts of it (judge::prepare and prepare_more)."""
        first = min(work, self.first_part)
        whole = [tiles, MATRICES.most, CONTENTS.most]
        parts = [(first, table.most) for table in (CONTENTS, SETS, MATRICES)]
        parts += [(work - first, rows) for rows in (tiles, MATRICES.most)]
        return [(self.heads_for(room, rows), rows) for room, rows in [*((work, rows) for rows in whole), *parts]]

    def test_is_enough_for_full_speed(self) -> None:
        for tiles, work in zip(self.tried, work_for(self.tried)):
            with self.subTest(tiles=tiles, work=work):
                for heads, rows in self.indexes(work, tiles):
                    self.assertGreaterEqual(16 * heads, 15 * rows)

    def test_is_enough_for_a_report_on_metadata(self) -> None:
        text = (ROOT / "include" / "desterlin.h").read_text(encoding="utf-8")
        work = int(re.findall(r"^#define DESTERLIN_METADATA_WORK (\d+)$", text, re.M)[0])
        self.assertGreaterEqual(16 * self.heads_for(work, CONTENTS.most), 15 * CONTENTS.most)

    def test_is_no_more_than_can_be_used(self) -> None:
        for tiles, work in zip(self.tried, work_for(self.tried)):
            most_used = self.first_part + 8 * max(tiles, MATRICES.most) + 4 * self.spare
            self.assertLessEqual(work, most_used)

    def test_the_full_size_is_that_of_the_most_tiles(self) -> None:
        *sizes, full = work_for(self.tried)
        self.assertEqual((sizes[-1], max(sizes), full), (full, full, 2 << 20))
        self.assertEqual(work_for([2 * TILES.most, -1]), [full, full, full])

    def test_what_a_smaller_one_lacks(self) -> None:
        """The sizes at which the header says that an index is missing: at so many octets it is, and with one word more
        it is there."""
        tiles, matrices = TILES.most, MATRICES.most
        for octets, rows in [(4 * tiles, tiles), (4 * matrices, matrices)]:
            self.assertEqual([self.heads_for(octets, rows), self.heads_for(octets + 4, rows)], [0, 1])
        self.assertEqual(self.first_part, 64 << 10)

    def test_no_page_promises_more(self) -> None:
        for page in ["include/desterlin.h", "docs/API.md"]:
            text = (ROOT / page).read_text(encoding="utf-8")
            self.assertNotRegex(text, r"every\s(\* )?listing\s(\* )?at\s(\* )?full\s(\* )?speed")


def sanitizers() -> str:
    """Which there are on this machine, in words."""
    ran = Ran([TESTS / "cc-sanitized", "--how"])
    if ran.status != 0:
        raise AssertionError(ran.err)
    return ran.out.strip()


@needs_library
class Archive(unittest.TestCase):
    def test_it_needs_memset_alone(self) -> None:
        """So a program without a C library has one function to bring."""
        ran = Ran(["nm", "--undefined-only", "--format=posix", library.archive(may_build=False)])
        if "format not recognized" in ran.err:
            self.skipTest("nm of this machine reads no x86-64 code")
        self.assertEqual(ran.status, 0, ran.err)
        self.assertEqual(re.findall(r"^(\S+) U ", ran.out, re.M), ["memset"])


def is_in_proved_code() -> bool:
    return sanitizers().startswith("AddressSanitizer in the proved code")


@needs_library
class Sanitizers(unittest.TestCase):
    def test_they_see_what_the_proved_code_touches(self) -> None:
        if not is_in_proved_code():
            self.skipTest(sanitizers())
        program = BUILT / "overrun"
        listings = [SAMPLES / "doubled-address.listing", SAMPLES / "notes.metadata"]
        ran = Ran([TESTS / "cc-sanitized", TESTS / "overrun.c", "-o", program])
        self.assertEqual((ran.status, ran.err), (0, ""))
        os.environ["ASAN_OPTIONS"] = "detect_leaks=0"
        for buffer in ["listing", "findings", "work", "answer", "filled", "column", "metadata"]:
            with self.subTest(buffer):
                self.assertIn("AddressSanitizer: heap-buffer-overflow", Ran([program, buffer, *listings]).err)
        self.assertIn("AddressSanitizer: heap-use-after-free", Ran([program, "freed", *listings]).err)
        ran = Ran([program, "none", *listings])
        self.assertEqual((ran.status, ran.out, ran.err), (0, "nothing has stopped it\n", ""))


@needs_library
class Viewer(InRoom):
    """The example under the sanitizers; where they are not in the proved code, what it allocates ends at a wall."""

    program = BUILT / "viewer"

    @classmethod
    def setUpClass(cls) -> None:
        # Memory behind walls is not searched for leaks, and on some machines the search takes seconds.
        os.environ["ASAN_OPTIONS"] = "detect_leaks=0"
        BUILT.mkdir(parents=True, exist_ok=True)
        walls = ["-Dmalloc=walled_malloc", "-Dfree=walled_free", "-include", TESTS / "walled.h", TESTS / "walled.c"]
        # In the proved code AddressSanitizer stops a touch on either side of what malloc gives.
        guards = [] if is_in_proved_code() else walls
        ran = Ran([TESTS / "cc-sanitized", *guards, ROOT / "examples" / "viewer.c", "-o", cls.program])
        if ran.status != 0:
            raise AssertionError(ran.err)

    def test_samples(self) -> None:
        for listing in sorted(SAMPLES.glob("*.listing")):
            with self.subTest(listing.name):
                lines = judged_by_second(listing.read_bytes()).splitlines()
                ran = Ran([self.program, listing])
                self.assertEqual(ran.err, "")
                if lines[0].startswith("refused"):
                    number, table, row = lines[0].split()[1:]
                    self.assertEqual(ran.status, 2)
                    self.assertTrue(ran.out.startswith(f"report refused: reason {number}, table {table}, row {row}: "))
                else:
                    self.assertEqual(ran.status, 1 if len(lines) > 1 else 0)
                    self.assertEqual(self.findings(ran.out), lines[:-1])
                    self.assertIn(f": {self.verdict(listing)}\n", ran.out)

    def findings(self, printed: str) -> List[str]:
        pattern = r"^  (\d{3}) (no row|row \d+)(?:, partner row (\d+))?: "
        found = re.findall(pattern, printed, re.M)
        rows = [row.replace("no row", "-").replace("row ", "") for _, row, _ in found]
        return [f"finding {code} {row} {partner or '-'}" for (code, _, partner), row in zip(found, rows)]

    def verdict(self, listing: Path) -> str:
        words = Ran([SECOND, "verdict", 541], listing.read_bytes()).out.strip()
        return re.sub(r"^fail (\d+)$", r"fail, first at row \1", words)

    def test_screens(self) -> None:
        listing = SAMPLES / "doubled-address.listing"
        for zoom in [0, 1, 2]:
            ran = Ran([self.program, listing, 0, zoom, -1, 2, -1, 2])
            self.assertEqual((ran.status, ran.err), (1, ""))
            drawn = re.findall(r"^  row (-?\d+): (.*)$", ran.out.split("screen:")[1], re.M)
            for row, tiles in drawn:
                asked = [[SECOND, "lookup", 0, zoom, column, row] for column in range(-1, 3)]
                answers = [Ran(command, listing.read_bytes()).out for command in asked]
                self.assertEqual([f"tile {tile}\n" for tile in tiles.split()], answers)
            self.assertEqual([row for row, _ in drawn], ["-1", "0", "1", "2"])

    def test_refused_lookup(self) -> None:
        ran = Ran([self.program, SAMPLES / "good-pack.listing", 1, 0, 0, 0, 0, 0])
        self.assertEqual((ran.status, ran.err), (0, ""))
        self.assertIn("lookup refused: reason 10, table 0, row 0: ", ran.out)

    def test_less_work_memory_than_wanted_is_told(self) -> None:
        program, scarce = BUILT / "viewer-scarce", "-Dmalloc=scarce_malloc"
        ran = Ran([
            TESTS / "cc-sanitized", scarce, "-include", TESTS / "walled.h", TESTS / "walled.c",
            ROOT / "examples" / "viewer.c", "-o", program,
        ])
        self.assertEqual((ran.status, ran.err), (0, ""))
        listing = SAMPLES / "doubled-address.listing"
        ran = Ran([program, listing])
        wanted = work_for([listing.stat().st_size // 32])[0]
        told = f"{wanted // 2} octets of work memory in place of {wanted}: the same answers, which may take longer\n"
        self.assertEqual((ran.status, ran.err), (1, told))
        self.assertEqual(ran.out, Ran([self.program, listing]).out)

    def test_wrong_words(self) -> None:
        wrong: "List[List[object]]" = [[], ["a", "b"], [SAMPLES / "good-pack.listing", 0, 0, 5, 4, 0, 0], ["/nowhere"]]
        for words in wrong:
            self.assertEqual(Ran([self.program, *words]).status, 2)

    def test_no_octets_and_too_many(self) -> None:
        ran = Ran([self.program, "/dev/null"])
        self.assertIn("reason 1,", ran.out)
        long = self.room / "long.listing"
        long.write_bytes(bytes(9_762_881))
        self.assertIn("reason 2,", Ran([self.program, long]).out)

    def test_as_many_tiles_as_there_may_be(self) -> None:
        listing = self.room / "full.listing"
        listing.write_bytes(Ran([SECOND, "full", "pyramids", 262_144]).octets)
        ran = Ran([self.program, listing, 0, 1, 0, 1, 0, 1])
        self.assertEqual((ran.status, ran.err), (1, ""))
        self.assertEqual(self.findings(ran.out), judged_by_second(listing.read_bytes()).splitlines()[:-1])


@needs_library
class CallLibrary(unittest.TestCase):
    """tools/call-library.c under the sanitizers."""

    @classmethod
    def setUpClass(cls) -> None:
        os.environ["ASAN_OPTIONS"] = "detect_leaks=0"
        ran = Ran([TESTS / "cc-sanitized", ROOT / "tools" / "call-library.c", "-o", BUILT / "call-library"])
        if ran.status != 0:
            raise AssertionError(ran.err)

    def listings(self) -> List[bytes]:
        small = [path.read_bytes() for path in sorted(SAMPLES.glob("*.listing"))]
        return [*small, Ran([SECOND, "full", "pyramids", 262_144]).octets]

    def test_it_prints_what_the_second_program_does(self) -> None:
        for listing in self.listings():
            ran = Ran([BUILT / "call-library", "report"], listing)
            self.assertEqual((ran.status, ran.err), (0, ""))
            self.assertEqual(ran.out, judged_by_second(listing))

    def test_it_writes_what_it_was_lent(self) -> None:
        for listing in self.listings():
            if not judged_by_second(listing).startswith("refused"):
                rows = Listing(listing)
                ran = Ran([BUILT / "call-library", "write"], library.framed([*rows.octets.values(), rows.names]))
                self.assertEqual((ran.status, ran.err), (0, ""))
                self.assertTrue(ran.octets == b"written %d\n" % len(listing) + listing, "other octets are written")


@needs_library
class Page(unittest.TestCase):
    """What docs/API.md has in C does what it says."""

    reads = "static uint8_t listing[DESTERLIN_LISTING_MOST];" \
            "size_t listing_size = fread(listing, 1, sizeof listing, stdin);"

    def printed_by_code(self, heading: str, before: str, after: str, octets: bytes = b"") -> bytes:
        """What the code below a heading prints, with more of a program around it."""
        page = (ROOT / "docs" / "API.md").read_text(encoding="utf-8").split(heading)[1]
        code = page.split("```c\n")[1].split("```")[0]
        headers = '#include <stdio.h>\n#include <stdlib.h>\n#include <string.h>\n#include "desterlin.h"\n'
        source = f"{headers}int main(void) {{\n{before}\n{code}{after} return 0; }}\n"
        compiler = os.environ.get("DESTERLIN_CC") or ROOT / "tools" / "cc-x86-64"
        flags = ["-std=c99", "-pedantic", "-Wall", "-Wextra", "-Werror", f"-I{ROOT / 'include'}"]
        BUILT.mkdir(parents=True, exist_ok=True)
        linked: "List[object]" = ["-x", "c", "-", "-x", "none", library.archive(), "-o", BUILT / "page"]
        ran = Ran([compiler, *flags, *linked], source.encode())
        self.assertEqual((ran.status, ran.err), (0, ""))
        ran = Ran([BUILT / "page"], octets)
        self.assertEqual((ran.status, ran.err), (0, ""))
        return ran.octets

    def test_tiles_in_columns(self) -> None:
        prints = 'printf("%u %u\\n", (unsigned)drawn[0], (unsigned)drawn[1]);'
        listing = (SAMPLES / "doubled-address.listing").read_bytes()
        printed = self.printed_by_code("## Tiles in columns", self.reads, prints, listing)
        answers = [Ran([SECOND, "lookup", 0, 1, column, 0], listing).out for column in range(2)]
        self.assertEqual([f"tile {tile}\n" for tile in printed.decode().split()], answers)

    def test_report_on_metadata(self) -> None:
        prints = 'printf("%u %u\\n", (unsigned)number, (unsigned)total); fwrite(metadata, 1, sizeof metadata, stdout);'
        listing = (SAMPLES / "good-pack.listing").read_bytes()
        line, _, octets = self.printed_by_code("## Report on metadata", self.reads, prints, listing).partition(b"\n")
        self.assertEqual(line, b"0 0")
        metadata = MetadataListing(octets)
        self.assertEqual(metadata.records(), [(1, b"fieldSession")])
        timestamp = b"2024-02-29T00:00:00.000Z"
        self.assertEqual(metadata.references(), [(b"geopackage", None, None, timestamp, None, 1, None)])

    def test_write(self) -> None:
        prints = 'printf("%u %u\\n", (unsigned)number, (unsigned)octets); fwrite(listing, 1, octets, stdout);'
        line, _, listing = self.printed_by_code("## Write", "", prints).partition(b"\n")
        self.assertEqual((line, len(listing)), (b"0 100", 100))
        # The one reference system is good; two others are missing, and so are contents.
        self.assertEqual(judged_by_second(listing), "finding 112 - -\nfinding 113 - -\nfinding 171 - -\ntotal 3\n")


@needs_library
class Stack(InRoom):
    def test_no_call_takes_more_than_is_promised(self) -> None:
        BUILT.mkdir(parents=True, exist_ok=True)
        compiler = os.environ.get("DESTERLIN_CC") or ROOT / "tools" / "cc-x86-64"
        flags = ["-std=c99", "-pedantic", "-Wall", "-Wextra", "-Werror", "-O1", "-pthread"]
        sources = [TESTS / "stack.c", TESTS / "walled.c"]
        ran = Ran([compiler, *flags, "-Iinclude", "-Itests/tools", *sources, library.archive(), "-o", BUILT / "stack"])
        self.assertEqual((ran.status, ran.err), (0, ""))
        # The last three have texts that take their reader longest, in ASCII, in other letters and among stray octets.
        kinds = {"pyramids": 262_144, "overlapping": 1_000, "overlapping-letters": 1_000, "scattered": 1_000}
        for kind, tiles in kinds.items():
            (self.room / kind).write_bytes(Ran([SECOND, "full", kind, tiles]).octets)
        made = [self.room / kind for kind in kinds]
        # As long as one may be, every text as long as the names, which are letters and not ASCII.
        text = struct.pack("<2I", 0, NAMES_MOST)
        parts = [(bytes(8) + text) * 256, (text * 4 + bytes(32)) * 4_096, "é".encode() * (NAMES_MOST // 2)]
        metadata = self.room / "metadata"
        metadata.write_bytes(laid(METADATA, parts))
        ran = Ran([BUILT / "stack", metadata, SAMPLES / "many-kinds.listing", SAMPLES / "longest.listing", *made])
        self.assertEqual((ran.status, ran.err), (0, ""), ran.out)


if __name__ == "__main__":
    unittest.main()
