"""The 36 rules and the eight of metadata (code, table, words and the place in GeoPackage 1.2.1), and the reasons for
which there is no judgement. docs/RULES.md, docs/METADATA.md and docs/LISTING.md say each in full."""

from __future__ import annotations

from typing import NamedTuple, Optional

from .listing import CONTENTS, EXTENSIONS, MATRICES, METADATA_REFERENCES, RECORDS, REFERENCES, SETS, TILES, Table


class Rule(NamedTuple):
    code: int
    table: Table
    words: str
    requirement: str

    @property
    def partner_table(self) -> Table:
        """The table in which a partner stands: the rule's own, but for 162."""
        return SETS if self.code == 162 else self.table


class Finding(NamedTuple):
    code: int
    row: Optional[int]
    partner: Optional[int]


class Refusal(NamedTuple):
    """The number of a reason, and its place: a table's number and a row, or 0 0."""

    number: int
    table: int
    row: int


RULES = {
    rule.code: rule
    for rule in [
        Rule(101, REFERENCES, "two reference systems with one srs_id", "C.1"),
        Rule(111, REFERENCES, "srs_id 4326 is missing, or is not EPSG 4326", "Req 11, Table 3"),
        Rule(112, REFERENCES, "srs_id -1 is missing, or is not the undefined Cartesian system", "Req 11, Table 3"),
        Rule(113, REFERENCES, "srs_id 0 is missing, or is not the undefined geographic system", "Req 11, Table 3"),
        Rule(131, CONTENTS, "two contents rows with one table_name", "C.2"),
        Rule(151, CONTENTS, "last_change is not YYYY-MM-DDThh:mm:ss.sssZ", "Req 15"),
        Rule(161, CONTENTS, "contents srs_id is no reference system's", "Req 16"),
        Rule(162, CONTENTS, "contents and matrix set differ in srs_id", "Table 4"),
        Rule(171, CONTENTS, "no contents row is of tiles or features", "Req 17"),
        Rule(341, TILES, "tile of a table that is not in contents as tiles", "Req 34"),
        Rule(351, MATRICES, "pixel size is not half that of one zoom level lower", "Req 35"),
        Rule(391, SETS, "matrix set of a table that is not in contents as tiles", "Req 39"),
        Rule(392, SETS, "two matrix sets with one table_name", "C.5"),
        Rule(401, CONTENTS, "tiles table without a matrix set", "Req 40"),
        Rule(411, SETS, "matrix set srs_id is no reference system's", "Req 41"),
        Rule(431, MATRICES, "matrix of a table that is not in contents as tiles", "Req 43"),
        Rule(432, MATRICES, "two matrices with one table_name and zoom_level", "C.6"),
        Rule(441, TILES, "tile at a zoom level that has no matrix", "Req 44"),
        Rule(451, MATRICES, "matrix is not as wide as its matrix set", "Req 45"),
        Rule(452, MATRICES, "matrix is not as high as its matrix set", "Req 45"),
        Rule(461, MATRICES, "zoom_level below 0", "Req 46"),
        Rule(471, MATRICES, "matrix_width below 1", "Req 47"),
        Rule(481, MATRICES, "matrix_height below 1", "Req 48"),
        Rule(491, MATRICES, "tile_width below 1", "Req 49"),
        Rule(501, MATRICES, "tile_height below 1", "Req 50"),
        Rule(511, MATRICES, "pixel_x_size is not finite and above 0", "Req 51"),
        Rule(521, MATRICES, "pixel_y_size is not finite and above 0", "Req 52"),
        Rule(531, MATRICES, "pixel size is not below that of a lower zoom level", "Req 53"),
        Rule(541, TILES, "two tiles at one address", "C.7, Table 10"),
        Rule(551, TILES, "tile outside the zoom levels of its table", "Req 55"),
        Rule(561, TILES, "tile_column outside the matrix", "Req 56"),
        Rule(571, TILES, "tile_row outside the matrix", "Req 57"),
        Rule(601, EXTENSIONS, "extension with a column_name and no table_name", "Req 60, Table 11"),
        Rule(621, EXTENSIONS, "extension_name is not of the form author_name", "Req 62"),
        Rule(622, EXTENSIONS, "two extension rows alike", "C.8"),
        Rule(641, EXTENSIONS, "scope is neither read-write nor write-only", "Req 64"),
    ]
}

METADATA_RULES = {
    rule.code: rule
    for rule in [
        Rule(945, RECORDS, "md_scope is none of the 19 metadata scopes", "Req 94, Table 21"),
        Rule(965, METADATA_REFERENCES, "reference_scope is not geopackage, table, column, row or row/col", "Req 96"),
        Rule(975, METADATA_REFERENCES, "table_name does not fit its reference_scope, or is not in contents", "Req 97"),
        Rule(985, METADATA_REFERENCES, "column_name does not fit its reference_scope", "Req 98"),
        Rule(995, METADATA_REFERENCES, "row_id_value does not fit its reference_scope", "Req 99"),
        Rule(1005, METADATA_REFERENCES, "timestamp is not YYYY-MM-DDThh:mm:ss.sssZ", "Req 100"),
        Rule(1015, METADATA_REFERENCES, "md_file_id is no metadata record's id", "Req 101"),
        Rule(1025, METADATA_REFERENCES, "md_parent_id is no metadata record's id, or is md_file_id", "Req 102"),
    ]
}

ALL_RULES = {**RULES, **METADATA_RULES}

# Why a listing, or a metadata listing, is refused or not written, by number (docs/LISTING.md). No tool asks for what
# has 9, 10 and 14.
REASONS = {
    1: "it has fewer octets than a header",
    2: "it has more octets than a listing may have",
    3: "its version is not 1",
    4: "its total length field is not the length of the file",
    5: "a table has more rows than it may",
    6: "a table does not begin, or the last one not end, where it must",
    7: "a text lies outside the name octets, or is NULL where it may not be",
    8: "a row's flags, spare or absent number is not as laid down",
    11: "the octets of a table are not whole rows",
    12: "there is no room for it",
    13: "a text is not well-formed UTF-8",
}
