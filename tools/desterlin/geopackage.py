"""A GeoPackage's rows as the parts of a listing, and of a metadata listing where it has metadata tables, with a note of
where each row came from, and of what is left out.

What a listing cannot carry is Trouble, told with its table and row, all of it at once. Nothing is mended on the way: a
mended pack would be judged in the place of the one that is shipped. So texts go on octet by octet, UTF-8 or not: which
of them are is for the writer to say.
"""

from __future__ import annotations

import contextlib
import os
import shutil
import sqlite3
import tempfile
import urllib.parse
from bisect import bisect_right
from typing import Callable, Dict, Iterator, List, NamedTuple, Optional, Sequence, Set, Tuple

from . import listing
from .console import counted, shown, told, trouble_with
from .files import start_of
from .listing import Draft, Field, Kind, Layout, Overfull, Table, TileRows, Value

# What every SQLite file begins with.
MAGIC = b"SQLite format 3\0"

# How long to wait for another program that is writing the pack.
LOCK_SECONDS = 2.0

# How many rows are read from one word on the progress line to the next.
ROWS_A_WORD = 20_000

# How many steps SQLite takes, some milliseconds, before Python may look whether somebody pressed Ctrl-C.
STEPS_A_LOOK = 100_000

# How many complaints of one kind are told in full.
MOST_COMPLAINTS = 20

# What PRAGMA table_xinfo says of a column that SELECT * leaves out.
HIDDEN = 1

# The columns by which a table of tiles is known (GeoPackage 1.2.1, Table 10).
TILE_COLUMNS = {"zoom_level", "tile_column", "tile_row", "tile_data"}
NAMED_BY_NOTHING = "it has the columns of tiles, and no row of contents (as tiles), matrix sets or matrices names it"

# A table of metadata and one of references to it belong together (GeoPackage 1.2.1, Req 95).
METADATA_NEEDS = "a GeoPackage with metadata has both gpkg_metadata and gpkg_metadata_reference"

# Python hands SQLite its questions in UTF-8.
NOT_TO_BE_ASKED_FOR = "its name is not UTF-8, so SQLite cannot be asked for it"

# The last line of what is told of a pack, or of its metadata, that a listing cannot carry.
NO_LISTING = "it has no listing, so nothing was judged"
NO_METADATA_LISTING = "its metadata has no listing, so that was not judged"

SQL_NAMES = {
    listing.REFERENCES: b"gpkg_spatial_ref_sys",
    listing.CONTENTS: b"gpkg_contents",
    listing.SETS: b"gpkg_tile_matrix_set",
    listing.MATRICES: b"gpkg_tile_matrix",
    listing.EXTENSIONS: b"gpkg_extensions",
    listing.RECORDS: b"gpkg_metadata",
    listing.METADATA_REFERENCES: b"gpkg_metadata_reference",
}


Cells = Tuple[object, ...]


class SqlText(bytes):
    """A TEXT value as its octets, to tell it from a BLOB, which comes as plain bytes."""


class Relation(NamedTuple):
    """A table or view of the pack."""

    name: bytes
    is_view: bool

    def words(self) -> str:
        return f"{'view' if self.is_view else 'table'} {shown(self.name)}"


class Source(NamedTuple):
    """Rows of a listing's table that came from one table or view of the pack. The keys are the rows' rowids; where
    there is none, as in a view, the whole numbers in a column `id`."""

    relation: Relation
    first: int
    keyed_by: str
    keys: List[Optional[int]]

    def origin(self, row: int) -> str:
        """Where a row of the listing stands in the pack."""
        at = row - self.first
        key = self.keys[at]
        if key is None:
            return f"{self.relation.words()} row {at}"
        place = "" if self.keyed_by == "rowid" else f"row {at}, "
        return f"{self.relation.words()} {place}{self.keyed_by} {key}"


class Origins:
    """Where each row of a listing stands in the pack; nowhere, where no pack was read."""

    def __init__(self, sources: Dict[Table, List[Source]]) -> None:
        self.sources = sources
        self.firsts = {table: [source.first for source in found] for table, found in sources.items()}

    def of(self, table: Table, row: int) -> Optional[str]:
        if not self.sources.get(table):
            return None
        # The last that begins at the row or before it; a pack may have thousands of tables with tiles.
        return self.sources[table][bisect_right(self.firsts[table], row) - 1].origin(row)


class PackMetadata(NamedTuple):
    """The parts of the metadata listing of a pack, where nothing hinders it."""

    parts: List[bytes]
    sources: Dict[Table, List[Source]]
    not_judged: List[str]
    hindrances: List[str]


NO_METADATA = PackMetadata([], {}, [], [])


class PackRows(NamedTuple):
    """The origins, and what is not judged, are of both listings. The metadata is None where the pack has no table of
    it."""

    parts: List[bytes]
    origins: Origins
    not_judged: List[str]
    metadata: Optional[PackMetadata] = None


class Unfit(Exception):
    """A value that its field of a listing cannot carry."""


class Complaints:
    """What hinders a listing: the first of a kind in words, and the number of the others."""

    def __init__(self, kind: str) -> None:
        self.kind = kind
        self.first: List[str] = []
        self.more = 0

    def add(self, words: str) -> None:
        if len(self.first) < MOST_COMPLAINTS:
            self.first.append(words)
        else:
            self.more += 1

    def lines(self) -> List[str]:
        return [*self.first, f"and {self.more:,} more {self.kind}"] if self.more else self.first


def rows_of(path: str, say: Callable[[str], None], with_metadata: bool = True) -> PackRows:
    """The rows of a pack; `say` is told how far the reading has come."""
    start = start_of(path, 100)
    if not start.startswith(MAGIC):
        raise trouble_with(path, "this is no SQLite file, so no GeoPackage")
    # Octet 19 is the version needed for reading: 2 with WAL.
    uses_wal = start[19:20] == b"\2"
    try:
        with address_of(path, uses_wal, say) as address, contextlib.closing(opened(address)) as connection:
            metadata = MetadataReading(connection, say).rows() if with_metadata else None
            return TileReading(path, connection, say).rows(metadata)
    except SQLITE_ERRORS as error:
        raise trouble_with(path, words_of_sqlite(error)) from error


@contextlib.contextmanager
def address_of(path: str, uses_wal: bool, say: Callable[[str], None]) -> Iterator[str]:
    """Where SQLite is to read a pack, so that nothing new is left beside it. A pack that keeps its changes in a file
    beside it (WAL) is read without locks where it has none there, since those would be two new files; where it has
    some, and nobody has it open, a copy is read."""
    # SQLite looks beside the file itself, and not beside a link to it.
    real = os.path.realpath(path)
    before = state(path)
    if before.beside is not None and not os.path.exists(real + "-shm"):
        say("copying the pack, which has changes in a file beside it")
        with copied(path) as copy:
            check_unchanged(path, before)
            yield address(copy, "")
    elif uses_wal and before.beside is None:
        yield address(real, "&immutable=1")
        check_unchanged(path, before)
    else:
        yield address(real, "")


class State(NamedTuple):
    """Differs once the pack has been changed: what is known of its file, and of that with its changes, if there are
    any beside it."""

    itself: Tuple[int, int, int]
    beside: Optional[Tuple[int, int, int]]


def state(path: str) -> State:
    real = os.path.realpath(path)
    beside = None
    try:
        with contextlib.suppress(FileNotFoundError):
            beside = known_of(real + "-wal")
        return State(known_of(real), beside if beside and beside[1] > 0 else None)
    except OSError as error:
        raise trouble_with(path, f"cannot be read: {told(error)}") from error


def known_of(file: str) -> Tuple[int, int, int]:
    status = os.stat(file)
    return status.st_ino, status.st_size, status.st_mtime_ns


def check_unchanged(path: str, before: State) -> None:
    if state(path) != before:
        raise trouble_with(path, "the pack was changed while it was read; try again")


@contextlib.contextmanager
def copied(path: str) -> Iterator[str]:
    real = os.path.realpath(path)
    with contextlib.ExitStack() as stack:
        try:
            room = stack.enter_context(tempfile.TemporaryDirectory(prefix="desterlin-"))
            copy = os.path.join(room, "pack.gpkg")
            shutil.copyfile(real, copy)
            shutil.copyfile(real + "-wal", copy + "-wal")
        except OSError as error:
            why = "it has changes in a file beside it, and cannot be copied to be read with them"
            raise trouble_with(path, f"{why}: {told(error)}") from error
        yield copy


def address(path: str, more: str) -> str:
    return f"file:{urllib.parse.quote(os.fsencode(path))}?mode=ro{more}"


def opened(address: str) -> sqlite3.Connection:
    """A connection that cannot write, in a transaction, so that a pack that is being changed is seen as it was at one
    moment."""
    connection = sqlite3.connect(address, uri=True, timeout=LOCK_SECONDS, isolation_level=None)
    connection.text_factory = SqlText
    connection.set_progress_handler(lambda: 0, STEPS_A_LOOK)
    # A view is code of the pack: it may compute, and may not act.
    connection.execute("PRAGMA trusted_schema = OFF")
    connection.execute("PRAGMA query_only = ON")
    connection.execute("BEGIN")
    return connection


# Where SQLite complains of a name that is no UTF-8, Python fails to read the complaint.
SQLITE_ERRORS = (sqlite3.Error, UnicodeError)


def words_of_sqlite(error: Exception) -> str:
    if str(error) == "interrupted":
        # Ctrl-C came while SQLite was at work, and sqlite3 tells it in this way.
        raise KeyboardInterrupt from error
    said = f"(SQLite: {error})"
    if isinstance(error, UnicodeError):
        return f"the file is damaged, or has a name that is no UTF-8 ({error})"
    if "locked" in str(error):
        return f"another program is writing to the pack; try again when it is done {said}"
    if "malformed" in str(error) or "not a database" in str(error):
        return f"the file is damaged {said}"
    if "readonly" in str(error):
        return f"a change to the pack was broken off; open it once with the program that made it {said}"
    return f"cannot be read {said}"


def without_case(name: bytes) -> bytes:
    """SQLite's table names are the same in any letter case of ASCII, and bytes.lower knows no other letters."""
    return bytes(name).lower()


def fitted(field: Field, value: object) -> Value:
    """The value, where the field can carry it as it is."""
    kind = field.kind
    if value is None and kind in (Kind.TEXT_OR_NULL, Kind.WHOLE_OR_NULL):
        return None
    if isinstance(value, int) and kind in (Kind.WHOLE, Kind.WHOLE_OR_NULL):
        return value
    if isinstance(value, SqlText) and kind in (Kind.TEXT, Kind.TEXT_OR_NULL):
        return value
    if isinstance(value, float) and kind is Kind.DOUBLE:
        return value
    # A column without a type keeps 3.0 as the INTEGER 3; most of those are doubles too.
    if isinstance(value, int) and kind is Kind.DOUBLE and float(value) == value:
        return float(value)
    raise Unfit(f"column {field.name}: {described(value)} stands where a listing carries {kind.value}")


def described(value: object) -> str:
    if value is None:
        return "NULL"
    if isinstance(value, SqlText):
        return f"the text {shown(value)}"
    if isinstance(value, bytes):
        return f"a BLOB of {counted(len(value), 'octet')}"
    if isinstance(value, float):
        return f"the REAL {value!r}"
    return f"the INTEGER {value}"


def stand_in(field: Field) -> Value:
    """For a value that does not fit: the reading goes on, to find the others, and what is read is thrown away."""
    return b"" if field.kind in (Kind.TEXT, Kind.TEXT_OR_NULL) else 0


class Reading:
    """One pass over the tables of a pack that a listing of one layout has."""

    def __init__(self, connection: sqlite3.Connection, say: Callable[[str], None], layout: Layout) -> None:
        self.connection = connection
        self.say = say
        self.draft = Draft(layout)
        self.sources: Dict[Table, List[Source]] = {table: [] for table in layout.tables}
        self.bad_tables = Complaints("tables")
        self.bad_cells = Complaints("cells")
        rows = connection.execute("SELECT type, name FROM sqlite_master WHERE type IN ('table', 'view')")
        self.relations = {without_case(name): Relation(bytes(name), kind == b"view") for kind, name in rows}

    def hindrances(self) -> List[str]:
        return [*self.bad_tables.lines(), *self.bad_cells.lines()]

    def has_table(self, table: Table) -> bool:
        return SQL_NAMES[table] in self.relations

    def add_table(self, table: Table) -> None:
        """The rows of a table whose name begins with gpkg_; one that is missing has none."""
        name = SQL_NAMES[table]
        if self.has_table(table):
            self.say(f"reading {name.decode()}")
            self.add_rows(table, self.relations[name], [])

    def add_rows(self, table: Table, relation: Relation, given: Sequence[Value]) -> None:
        """All rows of a table or view. `given` are the values of the first fields, the others are columns."""
        fields = table.fields[len(given):]
        at, key, source = -1, None, None
        try:
            keyed_by, selected = self.selected(relation, fields)
            source = Source(relation, self.draft.counts[table], keyed_by, [])
            for at, (key, *cells) in enumerate(selected):
                try:
                    values = [fitted(field, cell) for field, cell in zip(fields, cells)]
                except Unfit:
                    values = self.stand_ins(fields, cells, place(relation, at, source, key))
                self.draft.add(table, [*given, *values])
                source.keys.append(key)
                if at % ROWS_A_WORD == ROWS_A_WORD - 1:
                    self.say(f"reading the {relation.words()}: {at + 1:,} rows")
            self.sources[table].append(source)
        except (Unfit, Overfull) as error:
            self.bad_tables.add(f"{place(relation, at, source, key)}: {error}")
        except SQLITE_ERRORS as error:
            self.bad_tables.add(f"{place(relation, at, source, key)}: {words_of_sqlite(error)}")

    def stand_ins(self, fields: Sequence[Field], cells: Sequence[object], where: str) -> List[Value]:
        """The values of a row in which some do not fit; each of those is complained of."""
        values = []
        for field, cell in zip(fields, cells):
            try:
                values.append(fitted(field, cell))
            except Unfit as error:
                self.bad_cells.add(f"{where}: {error}")
                values.append(stand_in(field))
        return values

    def selected(self, relation: Relation, fields: Sequence[Field]) -> Tuple[str, Iterator[Cells]]:
        """By what the rows are known, and the rows, each with that key, or NULL, before its columns: in rowid order, or
        those of a view in the order in which SELECT * gives them."""
        there = self.columns(relation)
        for field in fields:
            if field.name not in there:
                raise Unfit(f"there is no column {field.name}")
        columns = ", ".join(field.name for field in fields)
        source = quoted(relation)
        rowid = self.rowid_name(relation, there)
        if rowid is not None:
            # Of the table's indexes none is read: in a damaged pack they may disagree with the table.
            query = f"SELECT {rowid}, {columns} FROM {source} NOT INDEXED ORDER BY {rowid}"
            return "rowid", self.connection.execute(query)
        key = "CASE typeof(id) WHEN 'integer' THEN id END" if "id" in there else "NULL"
        # Asked for the addresses alone, SQLite would go through an index of addresses, and give its order. Asking for
        # the type of every column, it goes as for SELECT *, and still reads no tile's image.
        types = ", ".join(f"typeof({in_quotes(column)})" for column in there)
        return "id", self.connection.execute(f"SELECT {key}, {columns}, {types} FROM {source}")

    def rowid_name(self, relation: Relation, there: Sequence[str]) -> Optional[str]:
        """What SQL calls the rowid: a column may have taken one of its names. None where there is no rowid."""
        for name in ["rowid", "_rowid_", "oid"]:
            if name not in there and not relation.is_view:
                with contextlib.suppress(sqlite3.OperationalError):
                    self.connection.execute(f"SELECT {name} FROM {quoted(relation)} LIMIT 0")
                    return name
        return None

    def columns(self, relation: Relation) -> List[str]:
        """The names of the columns that SELECT * gives, in lower case: SQLite knows them in any. A query for them, even
        one for no rows, might have to work a view out first."""
        rows = self.connection.execute(f"PRAGMA main.table_xinfo({sql_name(relation)})").fetchall()
        return [without_case(name).decode() for _, name, *_, hidden in rows if hidden != HIDDEN]


class MetadataReading(Reading):
    """One pass over the metadata tables."""

    def __init__(self, connection: sqlite3.Connection, say: Callable[[str], None]) -> None:
        super().__init__(connection, say, listing.METADATA)

    def rows(self) -> Optional[PackMetadata]:
        """None where the pack has none of the tables. One that is there without the other is judged by itself."""
        missing = [table for table in listing.METADATA_TABLES if not self.has_table(table)]
        if missing == listing.METADATA_TABLES:
            return None
        for table in listing.METADATA_TABLES:
            self.add_table(table)
        not_judged = [f"there is no table {SQL_NAMES[table].decode()}, and {METADATA_NEEDS}" for table in missing]
        return PackMetadata(self.draft.parts(), self.sources, not_judged, self.hindrances())


class TileReading(Reading):
    """One pass over the other tables, and over the tables of tiles that they name."""

    def __init__(self, path: str, connection: sqlite3.Connection, say: Callable[[str], None]) -> None:
        super().__init__(connection, say, listing.LISTING)
        self.path = path
        self.not_judged: List[str] = []

    def rows(self, metadata: Optional[PackMetadata]) -> PackRows:
        """The rows, with those of the metadata, if there are any."""
        self.add_needed(listing.REFERENCES, "a GeoPackage has one")
        self.add_needed(listing.CONTENTS, "a GeoPackage has one")
        has_tiles = any(row.data_type == b"tiles" for row in self.drafted().contents())
        for table in [listing.SETS, listing.MATRICES]:
            self.add_needed(table, "gpkg_contents names tiles" if has_tiles else None)
        names = self.tile_names()
        for name in names:
            self.add_tiles(name)
        self.add_table(listing.EXTENSIONS)
        beside = metadata or NO_METADATA
        if self.hindrances():
            raise trouble_with(self.path, *self.hindrances(), *beside.hindrances, *self.not_judged, NO_LISTING)
        self.note_unnamed(set(map(without_case, names)))
        origins = Origins({**self.sources, **beside.sources})
        return PackRows(self.draft.parts(), origins, self.not_judged + beside.not_judged, metadata)

    def drafted(self) -> TileRows:
        return TileRows(self.draft.parts())

    def add_needed(self, table: Table, needed_by: Optional[str]) -> None:
        """The rows of a table that may not be missing where something needs it."""
        self.add_table(table)
        if needed_by is not None and not self.has_table(table):
            self.bad_tables.add(f"there is no table {SQL_NAMES[table].decode()}, and {needed_by}")

    def tile_names(self) -> List[bytes]:
        """The tables whose tiles are listed: those that are named in contents as tiles, in a matrix set or in a
        matrix, in that order. One that is named in several letter cases is listed once, as it is first spelled."""
        rows = self.drafted()
        names = [row.table_name for row in rows.contents() if row.data_type == b"tiles"]
        names += [row.table_name for row in rows.sets()]
        names += [row.table_name for row in rows.matrices()]
        first_spelled: Dict[bytes, bytes] = {}
        for name in dict.fromkeys(names):
            first = first_spelled.setdefault(without_case(name), name)
            if first != name and without_case(name) in self.relations:
                same = f"to SQLite that is {shown(first)}, and as tiles of {shown(first)} they are judged"
                self.not_judged.append(f"tiles of {shown(name)}: {same}")
        if self.hindrances():
            # It may be the stand-in for a name.
            first_spelled.pop(b"", None)
        return list(first_spelled.values())

    def add_tiles(self, name: bytes) -> None:
        relation = self.relations.get(without_case(name))
        if relation is None:
            self.not_judged.append(f"tiles of {shown(name)}: they are announced, but there is no such table or view")
        elif not is_utf_8(name):
            # The row that names it has the same octets, and with that row the writer refuses the listing.
            self.not_judged.append(f"tiles of {shown(name)}: {NOT_TO_BE_ASKED_FOR}")
        else:
            self.say(f"reading the {relation.words()}")
            self.add_rows(listing.TILES, relation._replace(name=name), [name])

    def note_unnamed(self, listed: Set[bytes]) -> None:
        """Notes each table or view that has the columns of tiles and whose rows are not listed, neither under its own
        name nor by way of a view. This comes last: from here on every query is watched."""
        unnamed = [name for name in self.relations if name not in listed and self.has_tile_columns(name)]
        if not unnamed:
            return
        seen: Set[bytes] = set()
        self.connection.set_authorizer(lambda action, *names: watched(action, names[0], seen))
        for name in listed:
            self.prepare_view(name)
        shown_by_views = set(seen)
        for name in unnamed:
            seen.clear()
            self.prepare_view(name)
            # A view that shows listed tables, and nothing else, has no rows beside theirs.
            is_listed = name in shown_by_views or bool(seen - {name}) and seen - {name} <= listed
            if not is_listed:
                self.not_judged.append(f"{self.relations[name].words()}: {NAMED_BY_NOTHING}")

    def has_tile_columns(self, name: bytes) -> bool:
        # What cannot be asked for its columns and is named by nothing, as a view of what is gone, holds no tiles.
        with contextlib.suppress(Unfit, *SQLITE_ERRORS):
            return TILE_COLUMNS <= set(self.columns(self.relations[name]))
        return False

    def prepare_view(self, name: bytes) -> None:
        """Has SQLite plan the query of a view, and so name what it reads, without running it."""
        relation = self.relations.get(name)
        if relation is not None and relation.is_view:
            # What cannot be planned names nothing, and what it shows is then told as not judged.
            with contextlib.suppress(Unfit, *SQLITE_ERRORS):
                self.connection.execute(f"EXPLAIN SELECT * FROM {quoted(relation)}")


def watched(action: int, name: Optional[str], seen: Set[bytes]) -> int:
    """SQLite asks this whether a query may read a table; it may, and the table is noted."""
    if action == sqlite3.SQLITE_READ and name:
        seen.add(without_case(name.encode()))
    return sqlite3.SQLITE_OK


def place(relation: Relation, at: int, source: Optional[Source], key: object) -> str:
    """Where the reading is: at a row, or before the first one."""
    row = "" if at < 0 else f", row {at}"
    return relation.words() + row + ("" if source is None or key is None else f" ({source.keyed_by} {key})")


def quoted(relation: Relation) -> str:
    return f"main.{sql_name(relation)}"


def sql_name(relation: Relation) -> str:
    """A table's name for SQL; inside the quotes nothing but a quote has a meaning."""
    if not is_utf_8(relation.name):
        raise Unfit(NOT_TO_BE_ASKED_FOR)
    if b"\0" in relation.name:
        raise Unfit("its name has a zero octet, so SQLite cannot be asked for it")
    return in_quotes(relation.name.decode("utf-8"))


def is_utf_8(octets: bytes) -> bool:
    with contextlib.suppress(UnicodeDecodeError):
        octets.decode("utf-8")
        return True
    return False


def in_quotes(name: str) -> str:
    return '"' + name.replace('"', '""') + '"'
