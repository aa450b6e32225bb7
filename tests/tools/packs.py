"""What the tests of the tools share: small packs with any fault in them, and the tools and judges to run on them."""

from __future__ import annotations

import contextlib
import copy
import importlib.machinery
import importlib.util
import io
import os
import shutil
import sqlite3
import subprocess
import sys
import tempfile
import unittest
from pathlib import Path
from types import ModuleType
from typing import Dict, List, Optional, Sequence, Tuple

ROOT = Path(__file__).resolve().parents[2]
TOOLS = ROOT / "tools"
TESTS = ROOT / "tests" / "tools"
BUILT = ROOT / "target" / "tests" / "tools"
PACKS = ROOT / "samples" / "packs"
SECOND = ROOT / "tests" / "second" / "target" / "release" / "second"

sys.dont_write_bytecode = True
sys.path.insert(0, str(TOOLS))

from desterlin import library
from desterlin.exporter import export

Cells = Tuple[object, ...]
Rows = Dict[str, List[Cells]]

# Without types, so that a column keeps any value as it is given, and without keys, so that rows may repeat.
COLUMNS = {
    "gpkg_spatial_ref_sys": "srs_id, organization, organization_coordsys_id, definition",
    "gpkg_contents": "table_name, data_type, last_change, srs_id",
    "gpkg_tile_matrix_set": "table_name, srs_id, min_x, min_y, max_x, max_y",
    "gpkg_tile_matrix": "table_name, zoom_level, matrix_width, matrix_height, tile_width, tile_height, "
    "pixel_x_size, pixel_y_size",
    "gpkg_extensions": "table_name, column_name, extension_name, scope",
    "gpkg_metadata": "id, md_scope",
    "gpkg_metadata_reference": "reference_scope, table_name, column_name, row_id_value, timestamp, md_file_id, "
    "md_parent_id",
}
ADDRESS = "zoom_level, tile_column, tile_row"
DATE = "2024-02-29T00:00:00.000Z"

GOOD: Rows = {
    "gpkg_spatial_ref_sys": [(4326, "EPSG", 4326, "any"), (-1, "NONE", -1, "undefined"), (0, "NONE", 0, "undefined")],
    "gpkg_contents": [("farm", "tiles", DATE, 4326)],
    "gpkg_tile_matrix_set": [("farm", 4326, 0.0, 0.0, 1024.0, 1024.0)],
    "gpkg_tile_matrix": [("farm", 0, 1, 1, 256, 256, 4.0, 4.0), ("farm", 1, 2, 2, 256, 256, 2.0, 2.0)],
    "gpkg_extensions": [("farm", "tile_data", "gpkg_webp", "read-write")],
    "farm": [(0, 0, 0), (1, 0, 0), (1, 1, 1)],
}


def good() -> Rows:
    """Rows without a fault, to put one into."""
    return copy.deepcopy(GOOD)


def make_pack(path: Path, rows: Rows, *statements: str) -> Path:
    """A pack of tables with these rows; a table without columns of its own holds tiles. The statements come last."""
    pack = sqlite3.connect(path, isolation_level=None)
    pack.execute("BEGIN")
    for name, cells in rows.items():
        columns = COLUMNS.get(name, ADDRESS)
        pack.execute(f'CREATE TABLE "{name}" ({columns})')
        marks = ", ".join("?" for _ in columns.split(","))
        pack.executemany(f'INSERT INTO "{name}" VALUES ({marks})', cells)
    for statement in statements:
        pack.execute(statement)
    pack.execute("COMMIT")
    pack.close()
    return path


class Ran:
    """A program that has run."""

    def __init__(self, command: Sequence[object], octets: bytes = b"", folder: Path = ROOT) -> None:
        words = [str(word) for word in command]
        ran = subprocess.run(words, input=octets, cwd=folder, capture_output=True, check=False)
        self.status = ran.returncode
        self.octets = ran.stdout
        self.err = ran.stderr.decode("utf-8")

    @property
    def out(self) -> str:
        return self.octets.decode("utf-8")


class CProgram:
    """A program of the tests that calls the library, in C or, from the same source, in C++."""

    def __init__(self, name: str, language: str, standard: str) -> None:
        self.source = TESTS / f"{name}.c"
        self.program = BUILT / f"{name}-{standard}"
        compiler = os.environ.get("DESTERLIN_CC") or TOOLS / "cc-x86-64"
        self.command = [compiler, f"-std={standard}", "-pedantic", "-Wall", "-Wextra", "-Werror", "-x", language]

    def can_compile(self) -> bool:
        source = b"#include <stdio.h>\n#include <stdlib.h>\n#include <string.h>\nint main(void) { return 0; }\n"
        return Ran([*self.command, "-", "-x", "none", "-o", BUILT / "nothing"], source).status == 0

    def compile(self) -> None:
        """Skips the tests where this machine has no compiler for the language."""
        BUILT.mkdir(parents=True, exist_ok=True)
        if not self.can_compile():
            raise unittest.SkipTest(f"there is no compiler for {self.program.name}")
        linked = ["-x", "none", library.archive(), "-o", self.program]
        ran = Ran([*self.command, f"-I{ROOT / 'include'}", self.source, *linked])
        assert (ran.status, ran.err) == (0, ""), ran.err


def loaded(name: str) -> ModuleType:
    """A tool as a module, to be called without the time that a program takes to start."""
    loader = importlib.machinery.SourceFileLoader(name.replace("-", "_"), str(TOOLS / name))
    spec = importlib.util.spec_from_loader(loader.name, loader)
    assert spec is not None
    module = importlib.util.module_from_spec(spec)
    loader.exec_module(module)
    return module


class Called:
    """A tool that was called within this process: its status and what it printed."""

    def __init__(self, tool: ModuleType, *words: object) -> None:
        out, err = io.StringIO(), io.StringIO()
        with contextlib.redirect_stdout(out), contextlib.redirect_stderr(err):
            self.status = tool.main([str(word) for word in words])
        self.out = out.getvalue()
        self.err = err.getvalue()


def judged_by_second(listing: bytes) -> str:
    """What the second program, an independent judge, finds in a listing."""
    return Ran([SECOND, "judge"], listing).out


def has_library() -> bool:
    """Whether the proved library is there to be tested: tests/tools/run has built it, unless its crate is not written
    yet."""
    return bool(os.environ.get("DESTERLIN_LIBRARY")) or (ROOT / "crates" / "desterlin").is_dir()


needs_library = unittest.skipUnless(has_library(), "the crate desterlin, and so the proved library, is not there yet")


GPKG_LISTING = loaded("gpkg-listing")


class InRoom(unittest.TestCase):
    """A test with a folder of its own, which holds nothing but what the test expects at its end."""

    def setUp(self) -> None:
        self.room = Path(tempfile.mkdtemp(prefix="desterlin-tools-"))
        self.addCleanup(shutil.rmtree, self.room)

    def pack(self, rows: Rows, *statements: str) -> Path:
        return make_pack(self.room / "pack.gpkg", rows, *statements)

    def listing_of(self, pack: Path) -> bytes:
        """The listing of a pack that has one, without the time that Python takes to start."""
        return export(str(pack), lambda words: None).octets

    def found_in(self, rows: Rows, *statements: str) -> List[str]:
        """The lines of the second program for a pack with these rows."""
        return judged_by_second(self.listing_of(self.pack(rows, *statements))).splitlines()

    def trouble_with(self, pack: Path, out: Optional[Path] = None) -> str:
        """The message for a pack that is not listed; status 2, nothing printed and nothing left behind."""
        before = self.files()
        called = Called(GPKG_LISTING, pack, out or self.room / "out.listing")
        self.assertEqual((called.status, called.out), (2, ""), called.err)
        self.assertEqual(self.files(), before)
        return called.err

    def files(self) -> Dict[str, int]:
        return {str(path): path.stat().st_mtime_ns for path in sorted(self.room.rglob("*"))}
