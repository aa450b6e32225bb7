"""The rows of a listing as docs/LISTING.md lays them down, and of a metadata listing as docs/METADATA.md does: octets
made from rows, and rows read back from octets.

What stands around the rows of a listing, a header with every count and offset, is the work of the proved writer
(library.py). For a metadata listing there is none, and `laid` lays the header.
"""

from __future__ import annotations

import enum
import itertools
import struct
from typing import Dict, Iterator, List, NamedTuple, Optional, Sequence, Tuple, Union

NAMES_MOST = 1_048_576
NULL = (4_294_967_295, 0)

Value = Union[bytes, int, float, None]


class Kind(enum.Enum):
    """What a field holds; the values are the words in which people are told so."""

    TEXT = "a text"
    TEXT_OR_NULL = "a text or NULL"
    WHOLE = "a whole number"
    WHOLE_OR_NULL = "a whole number or NULL"
    DOUBLE = "a number"


# The octets of each kind, in struct's letters.
FORMS = {Kind.TEXT: "II", Kind.TEXT_OR_NULL: "II", Kind.WHOLE: "q", Kind.WHOLE_OR_NULL: "q", Kind.DOUBLE: "d"}

# What ends a row that has whole numbers that may be NULL: flags, with a bit for each of them that is present, in their
# order from the lowest on; and a spare.
FLAGS = "II"


class Field(NamedTuple):
    name: str
    kind: Kind


class Reference(NamedTuple):
    srs_id: int
    organization_coordsys_id: int
    organization: bytes
    definition: bytes


class Content(NamedTuple):
    table_name: bytes
    data_type: bytes
    last_change: bytes
    srs_id: Optional[int]


class MatrixSet(NamedTuple):
    table_name: bytes
    srs_id: int
    min_x: float
    min_y: float
    max_x: float
    max_y: float


class Matrix(NamedTuple):
    table_name: bytes
    zoom_level: int
    matrix_width: int
    matrix_height: int
    tile_width: int
    tile_height: int
    pixel_x_size: float
    pixel_y_size: float


class Tile(NamedTuple):
    table_name: bytes
    zoom_level: int
    tile_column: int
    tile_row: int


class Extension(NamedTuple):
    table_name: Optional[bytes]
    column_name: Optional[bytes]
    extension_name: bytes
    scope: bytes


class MetadataRecord(NamedTuple):
    id: int
    md_scope: bytes


class MetadataReference(NamedTuple):
    reference_scope: bytes
    table_name: Optional[bytes]
    column_name: Optional[bytes]
    timestamp: bytes
    row_id_value: Optional[int]
    md_file_id: int
    md_parent_id: Optional[int]


class Table:
    """A table of rows: its names, its greatest count and its fields."""

    def __init__(self, number: int, title: str, most: int, row: type, kinds: Sequence[Kind]) -> None:
        self.number = number
        self.title = title
        self.most = most
        self.fields = [Field(name, kind) for name, kind in zip(row.__annotations__, kinds)]
        self.has_flags = Kind.WHOLE_OR_NULL in kinds
        self.form = struct.Struct("<" + "".join(FORMS[kind] for kind in kinds) + (FLAGS if self.has_flags else ""))
        # Each field's kind, and where its first number stands among those that the form unpacks.
        places = itertools.accumulate((len(FORMS[kind]) for kind in kinds), initial=0)
        self.places = list(zip(kinds, places))
        # Each field's bit in the flags, 0 for one that has none.
        optional = [kind is Kind.WHOLE_OR_NULL for kind in kinds]
        self.bits = [is_optional << sum(optional[:at]) for at, is_optional in enumerate(optional)]


TEXT, WHOLE, DOUBLE = Kind.TEXT, Kind.WHOLE, Kind.DOUBLE
REFERENCES = Table(1, "reference systems", 256, Reference, [WHOLE, WHOLE, TEXT, TEXT])
CONTENTS = Table(2, "contents", 256, Content, [TEXT, TEXT, TEXT, Kind.WHOLE_OR_NULL])
SETS = Table(3, "matrix sets", 256, MatrixSet, [TEXT, WHOLE] + [DOUBLE] * 4)
MATRICES = Table(4, "matrices", 4_096, Matrix, [TEXT] + [WHOLE] * 5 + [DOUBLE] * 2)
TILES = Table(5, "tiles", 262_144, Tile, [TEXT] + [WHOLE] * 3)
EXTENSIONS = Table(6, "extensions", 1_024, Extension, [Kind.TEXT_OR_NULL] * 2 + [TEXT] * 2)
TABLES = [REFERENCES, CONTENTS, SETS, MATRICES, TILES, EXTENSIONS]

RECORDS = Table(11, "metadata records", 256, MetadataRecord, [WHOLE, TEXT])
METADATA_REFERENCES = Table(
    12, "metadata references", 4_096, MetadataReference,
    [TEXT, Kind.TEXT_OR_NULL, Kind.TEXT_OR_NULL, TEXT, Kind.WHOLE_OR_NULL, WHOLE, Kind.WHOLE_OR_NULL],
)
METADATA_TABLES = [RECORDS, METADATA_REFERENCES]

# The title of the last table of either listing, which has no rows but octets.
NAME_OCTETS = "name octets"


class Layout(NamedTuple):
    """A kind of listing: its tables of rows, behind which the name octets stand, and the page that lays it down."""

    tables: Sequence[Table]
    page: str

    @property
    def header(self) -> int:
        """The octets of version and length, and of a count and an offset for each table."""
        return 8 + 8 * (len(self.tables) + 1)

    @property
    def most(self) -> int:
        """The octets of a listing in which each table has its most."""
        return self.header + sum(table.form.size * table.most for table in self.tables) + NAMES_MOST


LISTING = Layout(TABLES, "docs/LISTING.md")
METADATA = Layout(METADATA_TABLES, "docs/METADATA.md")


def laid(layout: Layout, parts: Sequence[bytes]) -> bytes:
    """A listing of these parts, the octets of each table. Whether it is one is for the library's reader to say."""
    sizes = [*(table.form.size for table in layout.tables), 1]
    starts = list(itertools.accumulate(map(len, parts), initial=layout.header))
    pairs = [(len(part) // size, start) for part, size, start in zip(parts, sizes, starts)]
    numbers = [1, starts[-1], *itertools.chain(*pairs)]
    return struct.pack(f"<{len(numbers)}I", *numbers) + b"".join(parts)


class Overfull(Exception):
    """More rows, or more name octets, than a listing carries."""


class Draft:
    """A listing in the making: rows go in, table by table, and come out as the parts that the writer takes."""

    def __init__(self, layout: Layout = LISTING) -> None:
        self.page = layout.page
        self.names = bytearray()
        self.starts: Dict[bytes, int] = {}
        self.octets = {table: bytearray() for table in layout.tables}
        self.counts = {table: 0 for table in layout.tables}

    def add(self, table: Table, values: Sequence[Value]) -> None:
        """One more row; the values are of the fields' kinds."""
        if self.counts[table] == table.most:
            raise Overfull(f"a listing carries at most {table.most:,} rows of {table.title} ({self.page})")
        words: List[Union[int, float]] = []
        for field, value in zip(table.fields, values):
            words.extend(self.words(field.kind, value))
        if table.has_flags:
            words += [sum(bit for bit, value in zip(table.bits, values) if value is not None), 0]
        self.octets[table] += table.form.pack(*words)
        self.counts[table] += 1

    def words(self, kind: Kind, value: Value) -> Tuple[Union[int, float], ...]:
        if isinstance(value, bytes):
            return self.text(value)
        if value is None:
            return NULL if kind is Kind.TEXT_OR_NULL else (0,)
        return (value,)

    def text(self, octets: bytes) -> Tuple[int, int]:
        """Start and length; octets that were named before are not stored again."""
        if not octets:
            return 0, 0
        start = self.starts.get(octets)
        if start is None:
            start = len(self.names)
            if start + len(octets) > NAMES_MOST:
                raise Overfull(f"a listing carries at most {NAMES_MOST:,} octets of names and texts ({self.page})")
            self.starts[bytes(octets)] = start
            self.names += octets
        return start, len(octets)

    def parts(self) -> List[bytes]:
        """The octets of the tables, and the name octets."""
        return [*map(bytes, self.octets.values()), bytes(self.names)]


class Rows:
    """The rows of the parts of a listing, whose texts all stand in the last one."""

    def __init__(self, layout: Layout, parts: Sequence[bytes]) -> None:
        *octets, self.names = parts
        self.octets = dict(zip(layout.tables, octets))
        self.counts = {table: len(part) // table.form.size for table, part in self.octets.items()}

    def values(self, table: Table, row: int) -> List[Value]:
        return self.decoded(table, table.form.unpack_from(self.octets[table], row * table.form.size))

    def all_values(self, table: Table) -> Iterator[List[Value]]:
        return (self.decoded(table, words) for words in table.form.iter_unpack(self.octets[table]))

    def decoded(self, table: Table, words: Sequence[Union[int, float]]) -> List[Value]:
        values: List[Value] = []
        for (kind, at), bit in zip(table.places, table.bits):
            if kind is WHOLE or kind is DOUBLE:
                values.append(words[at])
            elif kind is Kind.WHOLE_OR_NULL:
                # The flags stand before the spare.
                values.append(words[at] if int(words[-2]) & bit else None)
            elif words[at:at + 2] == NULL:
                values.append(None)
            else:
                start = int(words[at])
                values.append(self.names[start:start + int(words[at + 1])])
        return values

    def texts(self) -> Iterator[Tuple[Table, int, str, int, int]]:
        """Every text, by table and then by row: its table, row and field, and where it starts and ends in the names."""
        for table, octets in self.octets.items():
            named = zip((field.name for field in table.fields), table.places)
            texts = [(name, at) for name, (kind, at) in named if kind in (Kind.TEXT, Kind.TEXT_OR_NULL)]
            for row, words in enumerate(table.form.iter_unpack(octets)):
                for name, at in texts:
                    if words[at:at + 2] != NULL:
                        yield table, row, name, words[at], words[at] + words[at + 1]


class TileRows(Rows):
    """Those of tables 1 to 7."""

    def __init__(self, parts: Sequence[bytes]) -> None:
        super().__init__(LISTING, parts)

    def references(self) -> List[Reference]:
        return [Reference(*values) for values in self.all_values(REFERENCES)]  # type: ignore[arg-type]

    def contents(self) -> List[Content]:
        return [Content(*values) for values in self.all_values(CONTENTS)]  # type: ignore[arg-type]

    def sets(self) -> List[MatrixSet]:
        return [MatrixSet(*values) for values in self.all_values(SETS)]  # type: ignore[arg-type]

    def matrices(self) -> List[Matrix]:
        return [Matrix(*values) for values in self.all_values(MATRICES)]  # type: ignore[arg-type]

    def extensions(self) -> List[Extension]:
        return [Extension(*values) for values in self.all_values(EXTENSIONS)]  # type: ignore[arg-type]

    def tiles(self) -> Iterator[Tile]:
        return (Tile(*values) for values in self.all_values(TILES))  # type: ignore[arg-type]

    def tile(self, row: int) -> Tile:
        return Tile(*self.values(TILES, row))  # type: ignore[arg-type]


class Listing(TileRows):
    """The rows of a listing that the library has accepted, or refused for no more than texts that are no UTF-8."""

    def __init__(self, octets: bytes) -> None:
        super().__init__(parts_of(LISTING, octets))


class MetadataListing(Rows):
    """The same of a metadata listing."""

    def __init__(self, octets: bytes) -> None:
        super().__init__(METADATA, parts_of(METADATA, octets))

    def records(self) -> List[MetadataRecord]:
        return [MetadataRecord(*values) for values in self.all_values(RECORDS)]  # type: ignore[arg-type]

    def references(self) -> List[MetadataReference]:
        return [MetadataReference(*values) for values in self.all_values(METADATA_REFERENCES)]  # type: ignore[arg-type]


def parts_of(layout: Layout, octets: bytes) -> List[bytes]:
    # After version and length, each table's count and offset; each ends where the next one begins, the last with the
    # listing.
    offsets = struct.unpack_from(f"<{layout.header // 4}I", octets)[3::2]
    return [octets[start:end] for start, end in zip(offsets, [*offsets[1:], len(octets)])]
