//! The metadata listing and the rows of its two tables, read into structs.

use super::layout::*;
use super::rows::{text, text_or_null};

/// The three tables of an accepted metadata listing.
#[derive(Clone, Copy, Debug)]
pub struct MetadataListing<'a> {
    metadata: &'a [u8],
    references: &'a [u8],
    names: &'a [u8],
}

/// A row of gpkg_metadata.
#[derive(Clone, Copy, Debug, PartialEq)]
pub struct Metadata<'a> {
    pub id: i64,
    pub scope: &'a [u8],
}

/// A row of gpkg_metadata_reference.
#[derive(Clone, Copy, Debug, PartialEq)]
pub struct MetadataReference<'a> {
    pub scope: &'a [u8],
    pub table_name: Option<&'a [u8]>,
    pub column_name: Option<&'a [u8]>,
    pub timestamp: &'a [u8],
    pub row_id: Option<i64>,
    pub file_id: i64,
    pub parent_id: Option<i64>,
}

impl<'a> MetadataListing<'a> {
    pub(super) fn of_tables([metadata, references, names]: [&'a [u8]; 3]) -> MetadataListing<'a> {
        MetadataListing { metadata, references, names }
    }

    pub fn metadata(&self) -> impl Iterator<Item = Metadata<'a>> + 'a {
        let names = self.names;
        let rows = self.metadata.chunks_exact(METADATA_LISTING.shape(METADATA).row_size);
        rows.map(move |row| Metadata { id: i64_at(row, 0), scope: text(names, row, 8) })
    }

    pub fn references(&self) -> impl Iterator<Item = MetadataReference<'a>> + 'a {
        let names = self.names;
        let row_size = METADATA_LISTING.shape(METADATA_REFERENCES).row_size;
        self.references.chunks_exact(row_size).map(move |row| {
            let flags = u32_at(row, REFERENCE_FLAGS);
            MetadataReference {
                scope: text(names, row, 0),
                table_name: text_or_null(names, row, 8),
                column_name: text_or_null(names, row, 16),
                timestamp: text(names, row, 24),
                row_id: (flags & 1 != 0).then(|| i64_at(row, ROW_ID)),
                file_id: i64_at(row, FILE_ID),
                parent_id: (flags & 2 != 0).then(|| i64_at(row, PARENT_ID)),
            }
        })
    }
}
