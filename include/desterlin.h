/*
 * Desterlin for a C program: report, verdict and lookup on one listing, its tile table in columns, a writer of
 * listings, and a report on the metadata listing that goes with it.
 *
 * A listing is the rows of a GeoPackage 1.2.1 as one string of octets; docs/LISTING.md has its layout, docs/RULES.md
 * what each code means, and docs/METADATA.md both for the metadata tables. Link with
 * crates/desterlin/out/libdesterlin.a, which `rt lib` in crates/desterlin proves and writes: it is x86-64 code.
 * README.md says how a library for another machine is made, and what has to be assumed for it.
 *
 * What holds for all eight calls:
 *
 * - A buffer is a pointer and its number of octets. It needs no alignment. The buffers of one call do not overlap.
 *   An empty buffer (0 octets) may have any pointer, NULL too. That each pointer is good for its number of octets is
 *   the caller's part: nothing can prove it.
 * - What is read, a listing, a part of one or a column, may hold any octets at all, damaged ones too. It is never
 *   written.
 * - Nothing is kept after a call: no pointer, no octet, no memory. Calls need no opening and no closing.
 * - No call allocates, reads a file, prints or takes more than 64 KiB of stack.
 * - Calls may run at the same time in several threads; they may share what is read, not a buffer that is written.
 * - Each call returns 1, or 0 where the answer buffer is shorter than the call's answer. With 0 nothing is written to
 *   any buffer, whatever else is wrong. A longer answer buffer is good: octets past the answer keep their values.
 * - An answer is little-endian words of 32 bits; desterlin_word reads them on any machine.
 *
 * C99, and C++ from C++11 on.
 */
#ifndef DESTERLIN_H
#define DESTERLIN_H

#include <stddef.h>
#include <stdint.h>

#ifdef __cplusplus
extern "C" {
#endif

/*
 * The edition of this header and of the library that goes with it. It rises by one with each request that changes what
 * a caller has compiled: a call, a word of an answer, a size, a code, a reason. desterlin.pc has the same one.
 */
#define DESTERLIN_VERSION 5

/* "None", where a word would be a row number: no row, no partner, no tile. */
#define DESTERLIN_NONE UINT32_C(4294967295)

/* The longest listing and the longest metadata listing that are not refused, in octets. */
#define DESTERLIN_LISTING_MOST 9762880
#define DESTERLIN_METADATA_MOST 1314848

/* The octets of each answer, of one finding, and of a column with an entry for each of so many tiles. */
#define DESTERLIN_REPORT_ANSWER 20
#define DESTERLIN_VERDICT_ANSWER 20
#define DESTERLIN_LOOKUP_ANSWER 16
#define DESTERLIN_FILL_ANSWER 12
#define DESTERLIN_WRITE_ANSWER 16
#define DESTERLIN_FINDING 12
#define DESTERLIN_COLUMN_SIZE(tiles) (8 * (size_t)(tiles))

/*
 * Work is scratch memory that the caller lends to reports and verdicts. Its size changes the time of a call and never
 * its answer: any size is good, 0 too. What it holds before a call does not matter. After an accepted call its octets
 * are unspecified; a call that is refused, or that returns 0, leaves them as they were.
 *
 * What a size costs, in octets:
 *
 *   DESTERLIN_WORK_FULL         full speed for 262,144 tiles, the most that there may be
 *   DESTERLIN_WORK_FOR(tiles)   full speed for so many tiles: 8 for each of them, and 96 KiB for the other tables
 *   96 KiB + 6 or 5 a tile      up to a tenth or a third longer
 *   64 KiB + 4 a tile, or less  each matrix that may break 351 looks through all tiles
 *   4 a tile, or less           541 compares each tile with all before it: the time grows with the square of the tiles,
 *                               and 262,144 of them take some ten thousand times as long
 *   4 a matrix, or less         each tile looks through all matrices
 *
 * Full speed is that of packs as programs write them. Rows are found by hashes of their keys: a listing made on purpose
 * so that many keys fall together takes longer with any size, and so does one with thousands of matrices of one name,
 * which 531 compares with each other.
 */
#define DESTERLIN_WORK_FULL 2097152
#define DESTERLIN_WORK_FOR(tiles) \
    ((size_t)(tiles) < (DESTERLIN_WORK_FULL - 98304) / 8 ? 98304 + 8 * (size_t)(tiles) : (size_t)DESTERLIN_WORK_FULL)

/* Full speed for a report on metadata, which looks up at most 256 names of contents. Less is good too, and none. */
#define DESTERLIN_METADATA_WORK 4096

/* The tables of a listing, 1 to 7, and of a metadata listing, 11 to 13, as in the place of a refusal. */
enum desterlin_table {
    DESTERLIN_REFERENCE_SYSTEMS = 1,
    DESTERLIN_CONTENTS = 2,
    DESTERLIN_MATRIX_SETS = 3,
    DESTERLIN_MATRICES = 4,
    DESTERLIN_TILES = 5,
    DESTERLIN_EXTENSIONS = 6,
    DESTERLIN_NAME_OCTETS = 7,
    DESTERLIN_METADATA_RECORDS = 11,
    DESTERLIN_METADATA_REFERENCES = 12,
    DESTERLIN_METADATA_NAME_OCTETS = 13
};

/* The octets of a row of each table, and how many rows it may have. A row of table 7 or 13 is one octet. */
#define DESTERLIN_REFERENCE_SYSTEMS_ROW 32
#define DESTERLIN_CONTENTS_ROW 40
#define DESTERLIN_MATRIX_SETS_ROW 48
#define DESTERLIN_MATRICES_ROW 64
#define DESTERLIN_TILES_ROW 32
#define DESTERLIN_EXTENSIONS_ROW 32
#define DESTERLIN_METADATA_RECORDS_ROW 16
#define DESTERLIN_METADATA_REFERENCES_ROW 64
#define DESTERLIN_REFERENCE_SYSTEMS_MOST 256
#define DESTERLIN_CONTENTS_MOST 256
#define DESTERLIN_MATRIX_SETS_MOST 256
#define DESTERLIN_MATRICES_MOST 4096
#define DESTERLIN_TILES_MOST 262144
#define DESTERLIN_EXTENSIONS_MOST 1024
#define DESTERLIN_NAME_OCTETS_MOST 1048576
#define DESTERLIN_METADATA_RECORDS_MOST 256
#define DESTERLIN_METADATA_REFERENCES_MOST 4096
#define DESTERLIN_METADATA_NAME_OCTETS_MOST 1048576

/*
 * Why a listing is turned away, or not written. Report gives 1 to 8 and 13, verdict 9 too, lookup 10 too; they are
 * checked in the order 9, 1 to 8, 13, 10. Fill gives 1 to 8, 13 and 14, checked in that order. Report and lookup from
 * columns give these, then 7 and 13 of an entry, and the lookup 10 in the end.
 * Write gives 11, 5, 7, 8, 13 and 12, checked in that order. The report on metadata gives 1 to 8 and 13 of the listing,
 * then 1 to 8 and 13 of the metadata listing. The place is a table number and a row; it is 0 0 where nothing else is
 * said. Where a line here has two numbers, the second is the metadata listing's.
 */
enum desterlin_reason {
    DESTERLIN_ACCEPTED = 0,            /* no refusal; the place is 0 0 */
    DESTERLIN_REFUSED_SHORT = 1,       /* fewer than 64 or 32 octets */
    DESTERLIN_REFUSED_LONG = 2,        /* more than DESTERLIN_LISTING_MOST or DESTERLIN_METADATA_MOST octets */
    DESTERLIN_REFUSED_VERSION = 3,     /* the version is not 1 */
    DESTERLIN_REFUSED_LENGTH = 4,      /* the total length field is not the octets lent */
    DESTERLIN_REFUSED_COUNT = 5,       /* a count above its most; place: the first such table, 0 */
    DESTERLIN_REFUSED_OFFSET = 6,      /* an offset, or the final end, not as laid down; place: the first such table
                                          (7 or 13 for the final end), 0 */
    DESTERLIN_REFUSED_TEXT = 7,        /* a text outside table 7 or 13, or NULL where not allowed; place: its table and
                                          row */
    DESTERLIN_REFUSED_FLAG = 8,        /* flags, spare or an absent number not as laid down; place: 2 or 12, its row */
    DESTERLIN_REFUSED_UNKNOWN_CODE = 9, /* verdict: the code is none of the 36 */
    DESTERLIN_REFUSED_NO_TILES = 10,   /* lookup: no such contents row, or its data_type is not "tiles" */
    DESTERLIN_REFUSED_PART = 11,       /* write: a part is not whole rows; place: the first such table, 0 */
    DESTERLIN_REFUSED_ROOM = 12,       /* write: the buffer is shorter than the listing */
    DESTERLIN_REFUSED_UTF8 = 13,       /* a text that is not well-formed UTF-8; place: its table and row */
    DESTERLIN_REFUSED_COLUMN = 14      /* a column has fewer entries than table 5 has rows; place: 5, 0 */
};

/*
 * Report: everything that is wrong with a listing.
 *
 * answer (DESTERLIN_REPORT_ANSWER octets), five words:
 *   0 number         0 accepted, or 1 to 8 or 13 (enum desterlin_reason)
 *   1 refused table  \ place of the refusal; 0 0 where accepted
 *   2 refused row    /
 *   3 total          how many findings the listing has; 0 where refused
 *   4 written        how many of them stand in findings: the smaller of total and size / DESTERLIN_FINDING
 *
 * findings: DESTERLIN_FINDING octets each, three words: code, row, partner; row and partner may be DESTERLIN_NONE.
 * The row is one of the code's table (DESTERLIN_CODES), and so is the partner, but for 162: its partner is a matrix set
 * row. They are in order by code, then by row, none last, and each stands once. The buffer may be short, or empty:
 * the first ones are written, and octets past those written keep their values. So a first call with no findings
 * buffer tells the total, and a second one with total * DESTERLIN_FINDING octets has room for all of them.
 * A refused report writes nothing to findings.
 */
uint32_t desterlin_report(const uint8_t *listing, size_t listing_size,
                          uint8_t *findings, size_t findings_size,
                          uint8_t *work, size_t work_size,
                          uint8_t *answer, size_t answer_size);

enum desterlin_report_word {
    DESTERLIN_REPORT_NUMBER = 0,
    DESTERLIN_REPORT_REFUSED_TABLE = 1,
    DESTERLIN_REPORT_REFUSED_ROW = 2,
    DESTERLIN_REPORT_TOTAL = 3,
    DESTERLIN_REPORT_WRITTEN = 4
};

/*
 * Verdict: does the listing keep the rule of one code?
 *
 * answer (DESTERLIN_VERDICT_ANSWER octets), five words:
 *   0 ruling         enum desterlin_ruling
 *   1 first row      of a fail: the lowest row with a finding, or none where the finding has no row; otherwise none
 *   2 number         0 accepted, or 1 to 9 or 13 (enum desterlin_reason)
 *   3 refused table  \ place of the refusal; 0 0 where accepted
 *   4 refused row    /
 */
uint32_t desterlin_verdict(const uint8_t *listing, size_t listing_size,
                           uint32_t code,
                           uint8_t *work, size_t work_size,
                           uint8_t *answer, size_t answer_size);

enum desterlin_verdict_word {
    DESTERLIN_VERDICT_RULING = 0,
    DESTERLIN_VERDICT_FIRST_ROW = 1,
    DESTERLIN_VERDICT_NUMBER = 2,
    DESTERLIN_VERDICT_REFUSED_TABLE = 3,
    DESTERLIN_VERDICT_REFUSED_ROW = 4
};

enum desterlin_ruling {
    DESTERLIN_PASS = 0,
    DESTERLIN_FAIL = 1,
    DESTERLIN_NOT_TESTABLE = 2, /* the code's table has no rows; never for 111, 112, 113 and 171 */
    DESTERLIN_REFUSED = 3
};

/*
 * Lookup: which tile row has this address, under the table_name of this contents row?
 *
 * It costs one pass over the listing, which is checked as in every call and then searched for the tile; nothing is kept
 * for the next one. Who draws many tiles from one listing does better with a table of their own, made once, for which
 * desterlin_fill gives the numbers.
 *
 * answer (DESTERLIN_LOOKUP_ANSWER octets), four words:
 *   0 tile           the lowest tile row with that name, zoom, column and row, or none
 *   1 number         0 accepted, or 1 to 8, 10 or 13 (enum desterlin_reason)
 *   2 refused table  \ place of the refusal; 0 0 where accepted
 *   3 refused row    /
 */
uint32_t desterlin_lookup(const uint8_t *listing, size_t listing_size,
                          uint32_t contents_row, int64_t zoom, int64_t column, int64_t row,
                          uint8_t *answer, size_t answer_size);

enum desterlin_lookup_word {
    DESTERLIN_LOOKUP_TILE = 0,
    DESTERLIN_LOOKUP_NUMBER = 1,
    DESTERLIN_LOOKUP_REFUSED_TABLE = 2,
    DESTERLIN_LOOKUP_REFUSED_ROW = 3
};

/*
 * Fill: the tile table of a listing, written into four columns.
 *
 * Entry i of each column is of tile row i:
 *   firsts    where its table_name stands: start times 2^32, plus length
 *   zooms     its zoom_level
 *   columns   its tile_column
 *   rows      its tile_row
 *
 * An entry is a signed number of 64 bits: eight octets, little-endian, two's complement. A column needs one for each
 * tile, which is DESTERLIN_COLUMN_SIZE(tiles) octets; desterlin_word(listing, 2 * DESTERLIN_TILES) is the number of
 * tiles of an accepted listing. Longer columns are good, and each may have its own size: entries past the tiles, and
 * octets past the last whole entry, keep their values.
 *
 * On a little-endian machine arrays of int64_t are such columns, with one cast each:
 *
 *     desterlin_fill(listing, listing_size,
 *                    (uint8_t *)firsts, tiles * sizeof *firsts, (uint8_t *)zooms, tiles * sizeof *zooms,
 *                    (uint8_t *)columns, tiles * sizeof *columns, (uint8_t *)rows, tiles * sizeof *rows,
 *                    answer, sizeof answer);
 *
 * C and C++ allow it: the octets of any object may be read and written by way of unsigned char, which uint8_t is, and
 * an int64_t is two's complement without padding. So after the call zooms[i] is the zoom_level of tile row i. On a
 * big-endian machine it is not: there the columns are buffers of octets, and desterlin_word reads the lower half of
 * entry i at 2 * i and the upper half at 2 * i + 1.
 *
 * What they are good for: the tiles as plain numbers, for a table of the caller's own. The search of a lookup reads two
 * columns, 16 octets a tile, in place of rows of 32; but the check of the listing that comes before the search stays,
 * and the texts that the columns spell are checked besides, so that a whole lookup takes no less time than one from
 * rows. Nor does a report, which needs all four numbers of a tile anyway. docs/SPEED.md has what each comes to.
 *
 * They hold the tiles of one listing: for another one, or the same one changed, fill them again. No call keeps anything
 * that could tell that they are old.
 *
 * answer (DESTERLIN_FILL_ANSWER octets), three words:
 *   0 number         0 filled, or 1 to 8, 13 or 14 (enum desterlin_reason)
 *   1 refused table  \ place of the refusal; 0 0 where filled
 *   2 refused row    /
 *
 * What the columns hold before does not matter. A refused fill writes nothing to any of them.
 */
uint32_t desterlin_fill(const uint8_t *listing, size_t listing_size,
                        uint8_t *firsts, size_t firsts_size,
                        uint8_t *zooms, size_t zooms_size,
                        uint8_t *columns, size_t columns_size,
                        uint8_t *rows, size_t rows_size,
                        uint8_t *answer, size_t answer_size);

enum desterlin_fill_word {
    DESTERLIN_FILL_NUMBER = 0,
    DESTERLIN_FILL_REFUSED_TABLE = 1,
    DESTERLIN_FILL_REFUSED_ROW = 2
};

/*
 * Report and lookup from columns: desterlin_report and desterlin_lookup, with their answers, but the tiles are read
 * from the columns. Where these hold what desterlin_fill writes, the answers are the same ones, which is proved.
 *
 * Any other numbers there are taken for the tile rows that they spell, as if table 5 had those. There are as many as
 * table 5 has rows, a tile row's number is that of its entry, and entries past them are not read. An entry of firsts
 * spells the text that starts at its upper half and is as long as its lower half says. It is refused under 7 where it
 * is negative or that text is not within table 7, and under 13 where the text is not well-formed UTF-8; the place is 5
 * and the entry.
 *
 * The listing is checked before that, and all of it, its own tile rows too. So 7 and 13 with table 5 may be of a row or
 * of an entry: desterlin_report tells, which knows of no entry.
 */
uint32_t desterlin_report_columns(const uint8_t *listing, size_t listing_size,
                                  const uint8_t *firsts, size_t firsts_size,
                                  const uint8_t *zooms, size_t zooms_size,
                                  const uint8_t *columns, size_t columns_size,
                                  const uint8_t *rows, size_t rows_size,
                                  uint8_t *findings, size_t findings_size,
                                  uint8_t *work, size_t work_size,
                                  uint8_t *answer, size_t answer_size);

uint32_t desterlin_lookup_columns(const uint8_t *listing, size_t listing_size,
                                  const uint8_t *firsts, size_t firsts_size,
                                  const uint8_t *zooms, size_t zooms_size,
                                  const uint8_t *columns, size_t columns_size,
                                  const uint8_t *rows, size_t rows_size,
                                  uint32_t contents_row, int64_t zoom, int64_t column, int64_t row,
                                  uint8_t *answer, size_t answer_size);

/*
 * Write: six row tables and the name octets, each lent as a part, become one listing.
 *
 * A part is a table's octets as they stand in a listing: whole rows (DESTERLIN_TILES_ROW octets each, and so on), one
 * after the other, or none at all; the last part is the octets of table 7. desterlin_put_word fills a row. The header,
 * with every count and offset, is the call's work. What it writes the other calls accept, with the same rows and names,
 * and the parts of an accepted listing write back to the same octets.
 *
 * answer (DESTERLIN_WRITE_ANSWER octets), four words:
 *   0 number         0 written, or 11, 5, 7, 8, 13 or 12 (enum desterlin_reason); 5, 7, 8 and 13 are the faults, with
 *                    their places, that a listing of these parts would have
 *   1 refused table  \ place of the refusal; 0 0 where written
 *   2 refused row    /
 *   3 octets         how long the listing is: the 64 of the header and those of all parts; 0 where refused
 *
 * listing: the buffer that the listing is written to, from its first octet on. DESTERLIN_LISTING_MOST octets have room
 * for any. Octets past the listing keep their values, and are not part of it: lend the other calls as many octets as
 * word 3 says and no more. A refused write writes nothing to the buffer.
 */
uint32_t desterlin_write(const uint8_t *references, size_t references_size,
                         const uint8_t *contents, size_t contents_size,
                         const uint8_t *sets, size_t sets_size,
                         const uint8_t *matrices, size_t matrices_size,
                         const uint8_t *tiles, size_t tiles_size,
                         const uint8_t *extensions, size_t extensions_size,
                         const uint8_t *names, size_t names_size,
                         uint8_t *listing, size_t listing_size,
                         uint8_t *answer, size_t answer_size);

enum desterlin_write_word {
    DESTERLIN_WRITE_NUMBER = 0,
    DESTERLIN_WRITE_REFUSED_TABLE = 1,
    DESTERLIN_WRITE_REFUSED_ROW = 2,
    DESTERLIN_WRITE_OCTETS = 3
};

/*
 * Report on metadata: everything that is wrong with the rows of gpkg_metadata and gpkg_metadata_reference, which a
 * metadata listing has (docs/METADATA.md), judged beside the listing of the same pack. Of that one the table names of
 * contents serve, and nothing else; its own findings are desterlin_report's.
 *
 * Findings, work and answer are those of desterlin_report, but the codes are those of DESTERLIN_METADATA_CODES, each
 * finding has a row, and its partner is DESTERLIN_NONE.
 *
 * The listing is checked first, and all of it, then the metadata listing. The table of a place tells which of them is
 * refused: 1 to 7, or 11 to 13. Reasons 1 to 4 have the place 0 0 in either; the listing is at fault where
 * desterlin_report, or desterlin_lookup, refuses it too, and the metadata listing where they do not.
 */
uint32_t desterlin_report_metadata(const uint8_t *listing, size_t listing_size,
                                   const uint8_t *metadata, size_t metadata_size,
                                   uint8_t *findings, size_t findings_size,
                                   uint8_t *work, size_t work_size,
                                   uint8_t *answer, size_t answer_size);

/*
 * The 36 codes, ascending, with the table whose rows they judge and the rule in short: DESTERLIN_CODES(X) writes
 * X(code, table, words) for each. examples/viewer.c makes a table of words from it.
 */
#define DESTERLIN_CODES(X) \
    X(101, DESTERLIN_REFERENCE_SYSTEMS, "two reference systems with one srs_id") \
    X(111, DESTERLIN_REFERENCE_SYSTEMS, "srs_id 4326 is missing, or is not EPSG 4326") \
    X(112, DESTERLIN_REFERENCE_SYSTEMS, "srs_id -1 is missing, or is not the undefined Cartesian system") \
    X(113, DESTERLIN_REFERENCE_SYSTEMS, "srs_id 0 is missing, or is not the undefined geographic system") \
    X(131, DESTERLIN_CONTENTS, "two contents rows with one table_name") \
    X(151, DESTERLIN_CONTENTS, "last_change is not YYYY-MM-DDThh:mm:ss.sssZ") \
    X(161, DESTERLIN_CONTENTS, "contents srs_id is no reference system's") \
    X(162, DESTERLIN_CONTENTS, "contents and matrix set differ in srs_id") \
    X(171, DESTERLIN_CONTENTS, "no contents row is of tiles or features") \
    X(341, DESTERLIN_TILES, "tile of a table that is not in contents as tiles") \
    X(351, DESTERLIN_MATRICES, "pixel size is not half that of one zoom level lower") \
    X(391, DESTERLIN_MATRIX_SETS, "matrix set of a table that is not in contents as tiles") \
    X(392, DESTERLIN_MATRIX_SETS, "two matrix sets with one table_name") \
    X(401, DESTERLIN_CONTENTS, "tiles table without a matrix set") \
    X(411, DESTERLIN_MATRIX_SETS, "matrix set srs_id is no reference system's") \
    X(431, DESTERLIN_MATRICES, "matrix of a table that is not in contents as tiles") \
    X(432, DESTERLIN_MATRICES, "two matrices with one table_name and zoom_level") \
    X(441, DESTERLIN_TILES, "tile at a zoom level that has no matrix") \
    X(451, DESTERLIN_MATRICES, "matrix is not as wide as its matrix set") \
    X(452, DESTERLIN_MATRICES, "matrix is not as high as its matrix set") \
    X(461, DESTERLIN_MATRICES, "zoom_level below 0") \
    X(471, DESTERLIN_MATRICES, "matrix_width below 1") \
    X(481, DESTERLIN_MATRICES, "matrix_height below 1") \
    X(491, DESTERLIN_MATRICES, "tile_width below 1") \
    X(501, DESTERLIN_MATRICES, "tile_height below 1") \
    X(511, DESTERLIN_MATRICES, "pixel_x_size is not finite and above 0") \
    X(521, DESTERLIN_MATRICES, "pixel_y_size is not finite and above 0") \
    X(531, DESTERLIN_MATRICES, "pixel size is not below that of a lower zoom level") \
    X(541, DESTERLIN_TILES, "two tiles at one address") \
    X(551, DESTERLIN_TILES, "tile outside the zoom levels of its table") \
    X(561, DESTERLIN_TILES, "tile_column outside the matrix") \
    X(571, DESTERLIN_TILES, "tile_row outside the matrix") \
    X(601, DESTERLIN_EXTENSIONS, "extension with a column_name and no table_name") \
    X(621, DESTERLIN_EXTENSIONS, "extension_name is not of the form author_name") \
    X(622, DESTERLIN_EXTENSIONS, "two extension rows alike") \
    X(641, DESTERLIN_EXTENSIONS, "scope is neither read-write nor write-only")

#define DESTERLIN_CODE_COUNT 36

/* The eight codes of the report on metadata, likewise. No other call knows them: a verdict on one has refusal 9. */
#define DESTERLIN_METADATA_CODES(X) \
    X(945, DESTERLIN_METADATA_RECORDS, "md_scope is none of the 19 metadata scopes") \
    X(965, DESTERLIN_METADATA_REFERENCES, "reference_scope is not geopackage, table, column, row or row/col") \
    X(975, DESTERLIN_METADATA_REFERENCES, "table_name does not fit its reference_scope, or is not in contents") \
    X(985, DESTERLIN_METADATA_REFERENCES, "column_name does not fit its reference_scope") \
    X(995, DESTERLIN_METADATA_REFERENCES, "row_id_value does not fit its reference_scope") \
    X(1005, DESTERLIN_METADATA_REFERENCES, "timestamp is not YYYY-MM-DDThh:mm:ss.sssZ") \
    X(1015, DESTERLIN_METADATA_REFERENCES, "md_file_id is no metadata record's id") \
    X(1025, DESTERLIN_METADATA_REFERENCES, "md_parent_id is no metadata record's id, or is md_file_id")

#define DESTERLIN_METADATA_CODE_COUNT 8

/* The word with this index, counted from 0, of an answer or of any buffer that has it. */
static inline uint32_t desterlin_word(const uint8_t *octets, size_t index)
{
    const uint8_t *word = octets + 4 * index;
    return (uint32_t)word[0] | (uint32_t)word[1] << 8 | (uint32_t)word[2] << 16 | (uint32_t)word[3] << 24;
}

/*
 * Puts a word where desterlin_word would read it: so the rows of a part are filled. An i64 or a double is two words,
 * the lower half first; a text is two, its start and its length.
 */
static inline void desterlin_put_word(uint8_t *octets, size_t index, uint32_t word)
{
    for (size_t i = 0; i < 4; i++)
        octets[4 * index + i] = (uint8_t)(word >> (8 * i));
}

struct desterlin_finding {
    uint32_t code;
    uint32_t row;     /* or DESTERLIN_NONE */
    uint32_t partner; /* or DESTERLIN_NONE */
};

/* The finding with this index, counted from 0, of a findings buffer; the index is below the answer's word "written". */
static inline struct desterlin_finding desterlin_finding_at(const uint8_t *findings, size_t index)
{
    const uint8_t *octets = findings + DESTERLIN_FINDING * index;
    struct desterlin_finding finding;
    finding.code = desterlin_word(octets, 0);
    finding.row = desterlin_word(octets, 1);
    finding.partner = desterlin_word(octets, 2);
    return finding;
}

#ifdef __cplusplus
}
#endif

#endif
