//! The listing and its sibling, the metadata listing: their layout, the reasons for
//! turning one away, and their rows.

pub mod layout;
mod metadata;
mod refusals;
mod rows;
mod utf8;

pub use metadata::{Metadata, MetadataListing, MetadataReference};
pub use refusals::{check_flags, check_texts, check_utf8, read, read_metadata, Refusal};
pub use rows::{Contents, Extension, Extent, Matrix, MatrixSet, Reference, Tile};

use layout::{SHAPES, TABLE_COUNT};

/// "None", in every place where the paper gives a row that may be absent.
pub const NONE: u32 = u32::MAX;

/// The seven tables of a listing: of an accepted one, where [`read`] gave it.
#[derive(Clone, Copy, Debug)]
pub struct Listing<'a> {
    tables: [&'a [u8]; TABLE_COUNT],
}

impl<'a> Listing<'a> {
    /// Tables as they are: nothing of them is checked.
    pub fn of_tables(tables: [&'a [u8]; TABLE_COUNT]) -> Listing<'a> {
        Listing { tables }
    }

    /// The octets of one table, numbered 1 to 7 as in the paper.
    #[inline]
    pub fn table(&self, number: usize) -> &'a [u8] {
        self.tables[number - 1]
    }

    /// How many rows one table has.
    pub fn count(&self, number: usize) -> usize {
        self.table(number).len() / SHAPES[number - 1].row_size
    }

    /// The rows of one table, in order.
    pub fn row_octets(&self, number: usize) -> std::slice::ChunksExact<'a, u8> {
        self.table(number).chunks_exact(SHAPES[number - 1].row_size)
    }

    /// One row of one table.
    pub fn row(&self, number: usize, row: usize) -> Option<&'a [u8]> {
        let size = SHAPES[number - 1].row_size;
        let start = row.checked_mul(size)?;
        self.table(number).get(start..start.checked_add(size)?)
    }

    /// The name octets, to which every text refers.
    pub fn names(&self) -> &'a [u8] {
        self.table(layout::NAMES)
    }
}
