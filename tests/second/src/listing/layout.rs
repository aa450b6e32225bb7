//! Where everything stands in a listing: document 01, "The listing"; and in its
//! sibling, the metadata listing of document 02, request 2026-05.

use std::ops::{Range, RangeInclusive};

/// Octets of the header: version, total length, seven pairs of count and offset.
pub const HEADER_SIZE: usize = 64;
/// The only version there is.
pub const VERSION: u32 = 1;
/// The header and all tables at their most.
pub const GREATEST_LISTING: usize = 9_762_880;
/// Tables in a listing.
pub const TABLE_COUNT: usize = 7;

pub const REFERENCES: usize = 1;
pub const CONTENTS: usize = 2;
pub const SETS: usize = 3;
pub const MATRICES: usize = 4;
pub const TILES: usize = 5;
pub const EXTENSIONS: usize = 6;
pub const NAMES: usize = 7;

/// A text field within a row.
#[derive(Clone, Copy, Debug)]
pub struct TextField {
    pub at: usize,
    pub may_be_null: bool,
}

/// The flags of a row, one bit for each number that may be absent, the lowest for
/// the first. A spare follows them.
#[derive(Clone, Copy, Debug)]
pub struct Flags {
    pub at: usize,
    /// Where these numbers stand in the row.
    pub numbers: &'static [usize],
}

/// What the paper's table of tables says of one table.
#[derive(Clone, Copy, Debug)]
pub struct Shape {
    pub row_size: usize,
    pub most: u32,
    pub texts: &'static [TextField],
    pub flags: Option<Flags>,
}

const fn plain(at: usize) -> TextField {
    TextField { at, may_be_null: false }
}

const fn nullable(at: usize) -> TextField {
    TextField { at, may_be_null: true }
}

const fn shape(row_size: usize, most: u32, texts: &'static [TextField]) -> Shape {
    Shape { row_size, most, texts, flags: None }
}

const fn flagged(shape: Shape, at: usize, numbers: &'static [usize]) -> Shape {
    Shape { flags: Some(Flags { at, numbers }), ..shape }
}

/// The seven tables in their order.
pub const SHAPES: [Shape; TABLE_COUNT] = [
    shape(32, 256, &[plain(16), plain(24)]),
    flagged(shape(40, 256, &[plain(0), plain(8), plain(16)]), CONTENTS_FLAG, &[CONTENTS_SRS_ID]),
    shape(48, 256, &[plain(0)]),
    shape(64, 4_096, &[plain(0)]),
    shape(32, 262_144, &[plain(0)]),
    shape(32, 1_024, &[nullable(0), nullable(8), plain(16), plain(24)]),
    shape(1, 1_048_576, &[]),
];

/// The start that, with length 0, spells NULL.
pub const NULL_START: u32 = u32::MAX;

/// Where the contents row keeps srs_id, flag and spare.
pub const CONTENTS_SRS_ID: usize = 24;
pub const CONTENTS_FLAG: usize = 32;
pub const CONTENTS_SPARE: usize = 36;

/// The tables of a metadata listing.
pub const METADATA: usize = 11;
pub const METADATA_REFERENCES: usize = 12;
pub const METADATA_NAMES: usize = 13;

/// Where a row of table 12 keeps its numbers and flags.
pub const ROW_ID: usize = 32;
pub const FILE_ID: usize = 40;
pub const PARENT_ID: usize = 48;
pub const REFERENCE_FLAGS: usize = 56;

/// The three tables of a metadata listing in their order.
pub const METADATA_SHAPES: [Shape; 3] = [
    shape(16, 256, &[plain(8)]),
    flagged(
        shape(64, 4_096, &[plain(0), nullable(8), nullable(16), plain(24)]),
        REFERENCE_FLAGS,
        &[ROW_ID, PARENT_ID],
    ),
    shape(1, 1_048_576, &[]),
];

/// What is laid down of a kind of listing.
#[derive(Clone, Copy, Debug)]
pub struct Format {
    /// The number of its first table. The last one is the name octets.
    pub first_table: usize,
    pub shapes: &'static [Shape],
    /// The header and all tables at their most.
    pub greatest: usize,
}

pub static LISTING: Format =
    Format { first_table: REFERENCES, shapes: &SHAPES, greatest: GREATEST_LISTING };

pub static METADATA_LISTING: Format =
    Format { first_table: METADATA, shapes: &METADATA_SHAPES, greatest: 1_314_848 };

impl Format {
    /// Version and total length, and a pair of count and offset for each table.
    pub const fn header_size(&self) -> usize {
        8 + 8 * self.shapes.len()
    }

    pub const fn names_table(&self) -> usize {
        self.first_table + self.shapes.len() - 1
    }

    /// The numbers of its tables.
    pub fn tables(&self) -> RangeInclusive<usize> {
        self.first_table..=self.names_table()
    }

    /// The numbers of those that have rows.
    pub fn row_tables(&self) -> Range<usize> {
        self.first_table..self.names_table()
    }

    pub const fn shape(&self, table: usize) -> &'static Shape {
        &self.shapes[table - self.first_table]
    }

    /// How many octets a listing with so many rows in each table has.
    pub fn size(&self, counts: &[usize]) -> usize {
        let sizes = counts.iter().zip(self.shapes).map(|(count, shape)| count * shape.row_size);
        self.header_size() + sizes.sum::<usize>()
    }
}

/// The kind of listing that a table is of.
pub const fn format_of(table: usize) -> &'static Format {
    match table < METADATA {
        true => &LISTING,
        false => &METADATA_LISTING,
    }
}

/// The place of a table's count in the header of its listing; its offset follows.
pub const fn count_at(table: usize) -> usize {
    8 * (1 + table - format_of(table).first_table)
}

/// The place of a table's offset in the header.
pub const fn offset_at(table: usize) -> usize {
    count_at(table) + 4
}

/// The u32 at a place. The caller knows that the place is inside.
#[inline]
pub fn u32_at(octets: &[u8], at: usize) -> u32 {
    let mut word = [0; 4];
    word.copy_from_slice(&octets[at..at + 4]);
    u32::from_le_bytes(word)
}

/// The i64 at a place. The caller knows that the place is inside.
#[inline]
pub fn i64_at(octets: &[u8], at: usize) -> i64 {
    let mut word = [0; 8];
    word.copy_from_slice(&octets[at..at + 8]);
    i64::from_le_bytes(word)
}

/// The double at a place. The caller knows that the place is inside.
#[inline]
pub fn f64_at(octets: &[u8], at: usize) -> f64 {
    f64::from_bits(i64_at(octets, at) as u64)
}
