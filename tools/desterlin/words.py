"""A finding or a refusal in words: what is wrong, and where, for the person who has to put it right."""

from __future__ import annotations

import math
import struct
from typing import Callable, Dict, List, NamedTuple, Optional, Tuple

from .console import shown
from .listing import (
    METADATA_TABLES, NAME_OCTETS, TABLES, Listing, Matrix, MatrixSet, MetadataListing, MetadataReference, Table, Tile,
)
from .rules import REASONS, Finding, Refusal

# Up to here every product of whole numbers is a double.
LARGEST_EXACT = 2**53

# How many steps from one double to the next still count as near.
NEAR_STEPS = 4

# How many gaps 451 and 452 let two lengths differ by that are not near.
GAPS_ALLOWED = 4


class Known:
    """The rows of an accepted listing, and of a metadata listing beside it, if there is one, with what the words ask
    for again and again."""

    def __init__(self, listing: Listing, metadata: Optional[MetadataListing] = None) -> None:
        self.records = metadata.records() if metadata else []
        self.metadata_references = metadata.references() if metadata else []
        self.metadata_ids = {record.id for record in self.records}
        self.tile = listing.tile
        self.references = listing.references()
        self.contents = listing.contents()
        self.sets = listing.sets()
        self.matrices = listing.matrices()
        self.extensions = listing.extensions()
        self.data_types: Dict[bytes, List[bytes]] = {}
        for content in self.contents:
            self.data_types.setdefault(content.table_name, []).append(content.data_type)
        self.first_set: Dict[bytes, MatrixSet] = {}
        for row in self.sets:
            self.first_set.setdefault(row.table_name, row)
        self.first_matrix: Dict[Tuple[bytes, int], int] = {}
        self.zooms: Dict[bytes, Tuple[int, int]] = {}
        for at, matrix in enumerate(self.matrices):
            self.first_matrix.setdefault((matrix.table_name, matrix.zoom_level), at)
            least, most = self.zooms.get(matrix.table_name, (matrix.zoom_level, matrix.zoom_level))
            self.zooms[matrix.table_name] = min(least, matrix.zoom_level), max(most, matrix.zoom_level)


class Found(NamedTuple):
    """A finding with a row; the partner is only looked at for codes that have one."""

    row: int
    partner: int


Words = Callable[[Known, Found], str]


def words(known: Known, finding: Finding) -> str:
    if finding.row is None:
        return WITHOUT_A_ROW[finding.code](known)
    return WITH_A_ROW[finding.code](known, Found(finding.row, -1 if finding.partner is None else finding.partner))


# Refusals


# Of the reasons, those that are about one row; at the others row 0 stands for all of a table.
OF_ONE_ROW = {7, 8, 13}


def refusal_words(refusal: Refusal, origin: Callable[[Table, int], Optional[str]]) -> str:
    """The reason, and its place, if it has one; `origin` tells where a row came from, if that is known."""
    words = f"reason {refusal.number}: {REASONS[refusal.number]}"
    if refusal.table == 0:
        return words
    table = {table.number: table for table in [*TABLES, *METADATA_TABLES]}.get(refusal.table)
    place = f"table {refusal.table}, {table.title if table else NAME_OCTETS}, row {refusal.row}"
    came_from = origin(table, refusal.row) if table and refusal.number in OF_ONE_ROW else None
    return f"{words} ({place}: {came_from})" if came_from else f"{words} ({place})"


# Reference systems


def missing(srs_id: int) -> Callable[[Known], str]:
    return lambda known: f"no row has srs_id {srs_id}"


def repeated_srs(known: Known, found: Found) -> str:
    return f"srs_id {known.references[found.row].srs_id} is already in row {found.partner}"


def wrong_srs(organization: bytes, definition: Optional[bytes]) -> Words:
    def told(known: Known, found: Found) -> str:
        row = known.references[found.row]
        wrong = []
        if row.organization.upper() != organization:
            wrong.append(f"organization is {shown(row.organization)} and not {shown(organization)}")
        if row.organization_coordsys_id != row.srs_id:
            wrong.append(f"organization_coordsys_id is {row.organization_coordsys_id}")
        if definition is not None and row.definition != definition:
            wrong.append(f"definition is {shown(row.definition)} and not {shown(definition)}")
        return f"srs_id {row.srs_id}: " + "; ".join(wrong)

    return told


# Contents


def no_map(known: Known) -> str:
    types = sorted({row.data_type for row in known.contents})
    there = "the data_types are " + ", ".join(map(shown, types)) if types else "there are no rows"
    return f'no row has data_type "tiles" or "features"; {there}'


def repeated_contents(known: Known, found: Found) -> str:
    return f"table_name {shown(known.contents[found.row].table_name)} is already in row {found.partner}"


def wrong_date(known: Known, found: Found) -> str:
    row = known.contents[found.row]
    return f"{shown(row.table_name)}: last_change is {shown(row.last_change)}"


def unknown_contents_srs(known: Known, found: Found) -> str:
    row = known.contents[found.row]
    return f"{shown(row.table_name)}: no reference system has srs_id {row.srs_id}"


def other_srs(known: Known, found: Found) -> str:
    row = known.contents[found.row]
    here = "NULL" if row.srs_id is None else row.srs_id
    return f"{shown(row.table_name)}: srs_id is {here} here, and {known.sets[found.partner].srs_id} in the matrix set"


def no_set(known: Known, found: Found) -> str:
    return f"{shown(known.contents[found.row].table_name)} has no matrix set"


def unlisted(known: Known, name: bytes) -> str:
    """Why a name is no tiles name."""
    types = known.data_types.get(name)
    return f"{shown(name)} is " + (f"in contents as {', '.join(map(shown, types))}" if types else "not in contents")


# Matrix sets


def unlisted_set(known: Known, found: Found) -> str:
    return unlisted(known, known.sets[found.row].table_name)


def repeated_set(known: Known, found: Found) -> str:
    return f"table_name {shown(known.sets[found.row].table_name)} is already in row {found.partner}"


def unknown_set_srs(known: Known, found: Found) -> str:
    row = known.sets[found.row]
    return f"{shown(row.table_name)}: no reference system has srs_id {row.srs_id}"


# Matrices


def level(matrix: Matrix) -> str:
    return f"{shown(matrix.table_name)} zoom {matrix.zoom_level}"


def unlisted_matrix(known: Known, found: Found) -> str:
    row = known.matrices[found.row]
    return f"zoom {row.zoom_level}: {unlisted(known, row.table_name)}"


def repeated_matrix(known: Known, found: Found) -> str:
    return f"{level(known.matrices[found.row])} is already in row {found.partner}"


def not_halved(known: Known, found: Found) -> str:
    row, lower = known.matrices[found.row], known.matrices[found.partner]
    wrong = [
        f"pixel_{axis}_size is {own!r}, twice that {2 * own!r}, but zoom {lower.zoom_level} has {other!r}"
        for axis, own, other in pixel_sizes(row, lower)
        if not is_near(2 * own, other)
    ]
    return f"{level(row)}: " + "; ".join(wrong)


def not_below(known: Known, found: Found) -> str:
    row, lower = known.matrices[found.row], known.matrices[found.partner]
    wrong = [
        f"pixel_{axis}_size is {own!r}, not below the {other!r} of zoom {lower.zoom_level}"
        for axis, own, other in pixel_sizes(row, lower)
        if not own < other
    ]
    return f"{level(row)}: " + "; ".join(wrong)


def pixel_sizes(row: Matrix, lower: Matrix) -> List[Tuple[str, float, float]]:
    return [("x", row.pixel_x_size, lower.pixel_x_size), ("y", row.pixel_y_size, lower.pixel_y_size)]


class Lengths(NamedTuple):
    """What 451 and 452 compare: the extent of the matrix set between its two corners of one axis, and the length of the
    matrix, which is None where its tiles and pixels make none."""

    least: float
    most: float
    product: Optional[float]

    @property
    def extent(self) -> float:
        return self.most - self.least

    def unfit(self) -> List[float]:
        """Those that are not finite and above 0: the rule compares them in neither way."""
        lengths = [self.extent] if self.product is None else [self.extent, self.product]
        return [length for length in lengths if not is_positive(length)]

    def off(self) -> Optional[float]:
        """How far they are apart, in the map's units and rounded once; None where that is no number."""
        return None if self.product is None else finite(abs(self.product - self.extent))

    def share(self) -> Optional[float]:
        """The same as a share of the extent; None where there is no extent to have a share of."""
        off = self.off()
        return finite(off / self.extent) if off is not None and is_positive(self.extent) else None

    def steps(self) -> Optional[int]:
        """The same in steps; None where the rule does not compare them."""
        return None if self.product is None or self.unfit() else steps(self.product, self.extent)

    def larger_corner(self) -> Tuple[str, float]:
        """The corner larger in magnitude, and that magnitude."""
        return max(("max", abs(self.most)), ("min", abs(self.least)), key=lambda corner: corner[1])

    def gap(self) -> Optional[float]:
        """From the corner larger in magnitude to the next double above that magnitude; None at the greatest double."""
        magnitude = self.larger_corner()[1]
        return finite(next_above(magnitude) - magnitude)

    def gaps(self) -> Optional[float]:
        """How far they are apart in gaps, which is exact, since a gap is a power of two; infinity is more than a double
        can tell. None where there is no gap, or the rule does not compare them."""
        if self.unfit():
            return None
        off, gap = self.off(), self.gap()
        return None if off is None or gap is None else off / gap


# The axis and the side of the two codes.
SIDES = {451: ("x", "width"), 452: ("y", "height")}


def lengths(known: Known, code: int, row: int) -> Lengths:
    axis, side = SIDES[code]
    matrix = known.matrices[row]
    extent = known.first_set[matrix.table_name]
    tiles, pixels = getattr(matrix, f"matrix_{side}"), getattr(matrix, f"tile_{side}")
    has_length = tiles >= 1 and pixels >= 1 and tiles * pixels <= LARGEST_EXACT
    return Lengths(
        getattr(extent, f"min_{axis}"),
        getattr(extent, f"max_{axis}"),
        float(tiles * pixels) * getattr(matrix, f"pixel_{axis}_size") if has_length else None,
    )


def wrong_side(code: int) -> Words:
    """451 and 452: the two lengths that should be near, or within gaps, worked out."""

    def told(known: Known, found: Found) -> str:
        axis, side = SIDES[code]
        row = known.matrices[found.row]
        tiles, pixels = getattr(row, f"matrix_{side}"), getattr(row, f"tile_{side}")
        compared = lengths(known, code, found.row)
        corners = f"max_{axis} {compared.most!r} - min_{axis} {compared.least!r}"
        start = f"{level(row)}: {corners} = {compared.extent!r}, but matrix_{side} {tiles} * tile_{side} {pixels}"
        if compared.product is None:
            fault = f"no {side}" if tiles < 1 or pixels < 1 else "above 2^53"
            return f"{start} is {fault}, so nothing is compared"
        size = getattr(row, f"pixel_{axis}_size")
        apart = "; ".join([*missed(compared, axis), *weights(compared)])
        return f"{start} * pixel_{axis}_size {size!r} = {compared.product!r}; that is {apart}"

    return told


def missed(compared: Lengths, axis: str) -> List[str]:
    """How the two lengths miss both ways in which they could pass."""
    unfit = compared.unfit()
    if unfit:
        those = " and ".join(map(repr, unfit)) + (" is" if len(unfit) == 1 else " are")
        return [f"neither near nor within gaps, since {those} not finite and above 0"]
    corner = f"{compared.larger_corner()[0]}_{axis}"
    gap, gaps = compared.gap(), compared.gaps()
    if gap is None or gaps is None:
        in_gaps = f"without a gap to count in, since {corner} is the greatest double in magnitude"
    else:
        in_gaps = f"{above_allowed(gaps)} gaps of {power_of_two(gap)} at {corner}, and {GAPS_ALLOWED} are allowed"
    return [f"{compared.steps():,} steps off, and near allows {NEAR_STEPS}", in_gaps]


def weights(compared: Lengths) -> List[str]:
    """How far two lengths are apart in numbers that a person can weigh."""
    weighings = {"in the map's units": compared.off(), "of the extent": compared.share()}
    return [f"{weighed(number)} {unit}" for unit, number in weighings.items() if number is not None]


def below(column: str, least: int) -> Words:
    return lambda known, found: (
        f"{level(known.matrices[found.row])}: {column} is {getattr(known.matrices[found.row], column)}, below {least}"
    )


def no_size(column: str) -> Words:
    return lambda known, found: (
        f"{level(known.matrices[found.row])}: {column} is {getattr(known.matrices[found.row], column)!r}"
    )


# Tiles


def address(tile: Tile) -> str:
    return f"zoom {tile.zoom_level}, column {tile.tile_column}, row {tile.tile_row}"


def unlisted_tile(known: Known, found: Found) -> str:
    tile = known.tile(found.row)
    return f"{address(tile)}: {unlisted(known, tile.table_name)}"


def unplaced_tile(known: Known, found: Found) -> str:
    tile = known.tile(found.row)
    return f"{address(tile)}: {shown(tile.table_name)} has no matrix for zoom {tile.zoom_level}"


def doubled_tile(known: Known, found: Found) -> str:
    tile = known.tile(found.row)
    return f"{address(tile)}: {shown(tile.table_name)} has that address already in row {found.partner}"


def tile_off_levels(known: Known, found: Found) -> str:
    tile = known.tile(found.row)
    least, most = known.zooms[tile.table_name]
    return f"{address(tile)}: {shown(tile.table_name)} has zooms {least} to {most}"


def tile_off_matrix(places: str, side: str) -> Words:
    def told(known: Known, found: Found) -> str:
        tile = known.tile(found.row)
        at = known.first_matrix[tile.table_name, tile.zoom_level]
        size = getattr(known.matrices[at], side)
        there = f"{places} 0 to {size - 1}" if size > 0 else f"no {places}"
        return f"{address(tile)}: {shown(tile.table_name)} has {there} there ({side} {size}, matrices row {at})"

    return told


# Extensions


def column_without_table(known: Known, found: Found) -> str:
    row = known.extensions[found.row]
    return f"{shown(row.extension_name)}: column_name is {shown(row.column_name)} and table_name is NULL"


def wrong_extension_name(known: Known, found: Found) -> str:
    return f"extension_name is {shown(known.extensions[found.row].extension_name)}"


def repeated_extension(known: Known, found: Found) -> str:
    row = known.extensions[found.row]
    names = ", ".join(map(shown, [row.table_name, row.column_name, row.extension_name]))
    return f"{names} is already in row {found.partner}"


def wrong_scope(known: Known, found: Found) -> str:
    row = known.extensions[found.row]
    return f"{shown(row.extension_name)}: scope is {shown(row.scope)}"


# Metadata


def wrong_metadata_scope(known: Known, found: Found) -> str:
    row = known.records[found.row]
    return f"id {row.id}: md_scope is {shown(row.md_scope)}"


def of_scope(row: MetadataReference) -> str:
    return f"reference_scope {shown(row.reference_scope)}"


def wrong_reference_scope(known: Known, found: Found) -> str:
    return f"reference_scope is {shown(known.metadata_references[found.row].reference_scope)}"


def wrong_table(known: Known, found: Found) -> str:
    row = known.metadata_references[found.row]
    if row.table_name is None or row.reference_scope == b"geopackage":
        return ill_fitting("table_name")(known, found)
    return f"{of_scope(row)}: {unlisted(known, row.table_name)}"


def ill_fitting(column: str) -> Words:
    """A column that is NULL though the scope asks for a value, or the other way round."""

    def told(known: Known, found: Found) -> str:
        row = known.metadata_references[found.row]
        value = getattr(row, column)
        there = "NULL" if value is None else f"{value if isinstance(value, int) else shown(value)} and not NULL"
        return f"{of_scope(row)}: {column} is {there}"

    return told


def wrong_timestamp(known: Known, found: Found) -> str:
    return f"timestamp is {shown(known.metadata_references[found.row].timestamp)}"


def no_record(known: Known, column: str, number: int) -> List[str]:
    """The fault of a number that is no id, if it is one."""
    return [] if number in known.metadata_ids else [f"{column} is {number}, and no metadata record has that id"]


def unknown_file(known: Known, found: Found) -> str:
    return "; ".join(no_record(known, "md_file_id", known.metadata_references[found.row].md_file_id))


def wrong_parent(known: Known, found: Found) -> str:
    row = known.metadata_references[found.row]
    assert row.md_parent_id is not None
    wrong = no_record(known, "md_parent_id", row.md_parent_id)
    if row.md_parent_id == row.md_file_id:
        wrong.append(f"md_parent_id and md_file_id are both {row.md_file_id}")
    return "; ".join(wrong)


# Doubles


def is_positive(value: float) -> bool:
    return 0 < value < float("inf")


def finite(value: float) -> Optional[float]:
    return value if math.isfinite(value) else None


def pattern(value: float) -> int:
    """The octets of a double that is not negative as a whole number."""
    return int(struct.unpack("<q", struct.pack("<d", value))[0])


def steps(one: float, other: float) -> int:
    """How many steps it is from one positive double to the other."""
    return abs(pattern(one) - pattern(other))


def next_above(value: float) -> float:
    """The next double above one that is finite and not negative; above the greatest that is infinity."""
    return float(struct.unpack("<d", struct.pack("<q", pattern(value) + 1))[0])


def is_near(one: float, other: float) -> bool:
    return is_positive(one) and is_positive(other) and steps(one, other) <= NEAR_STEPS


def weighed(number: float) -> str:
    """Few digits: '0.5', '1,024', '1.14e-12'."""
    if number != 0 and not 0.001 <= number < 1e9:
        return f"{number:.3g}"
    return f"{number:,.3f}".rstrip("0").rstrip(".")


def power_of_two(number: float) -> str:
    return f"2^{math.frexp(number)[1] - 1}"


def above_allowed(gaps: float) -> str:
    """A number of gaps that is above the allowed one, in few digits that do not say otherwise."""
    if math.isinf(gaps):
        return "more than 10^308"
    return f"more than {GAPS_ALLOWED}" if weighed(gaps) == str(GAPS_ALLOWED) else weighed(gaps)


WITHOUT_A_ROW: Dict[int, Callable[[Known], str]] = {
    111: missing(4326),
    112: missing(-1),
    113: missing(0),
    171: no_map,
}

WITH_A_ROW: Dict[int, Words] = {
    101: repeated_srs,
    111: wrong_srs(b"EPSG", None),
    112: wrong_srs(b"NONE", b"undefined"),
    113: wrong_srs(b"NONE", b"undefined"),
    131: repeated_contents,
    151: wrong_date,
    161: unknown_contents_srs,
    162: other_srs,
    341: unlisted_tile,
    351: not_halved,
    391: unlisted_set,
    392: repeated_set,
    401: no_set,
    411: unknown_set_srs,
    431: unlisted_matrix,
    432: repeated_matrix,
    441: unplaced_tile,
    451: wrong_side(451),
    452: wrong_side(452),
    461: below("zoom_level", 0),
    471: below("matrix_width", 1),
    481: below("matrix_height", 1),
    491: below("tile_width", 1),
    501: below("tile_height", 1),
    511: no_size("pixel_x_size"),
    521: no_size("pixel_y_size"),
    531: not_below,
    541: doubled_tile,
    551: tile_off_levels,
    561: tile_off_matrix("columns", "matrix_width"),
    571: tile_off_matrix("rows", "matrix_height"),
    601: column_without_table,
    621: wrong_extension_name,
    622: repeated_extension,
    641: wrong_scope,
    945: wrong_metadata_scope,
    965: wrong_reference_scope,
    975: wrong_table,
    985: ill_fitting("column_name"),
    995: ill_fitting("row_id_value"),
    1005: wrong_timestamp,
    1015: unknown_file,
    1025: wrong_parent,
}
