//! The rows of the six tables, read into structs.
//!
//! A text that cannot be NULL is a slice of the names; one that can is an
//! `Option` of such a slice.

use super::layout::*;
use super::Listing;

#[derive(Clone, Copy, Debug, PartialEq)]
pub struct Reference<'a> {
    pub srs_id: i64,
    pub coordsys_id: i64,
    pub organization: &'a [u8],
    pub definition: &'a [u8],
}

#[derive(Clone, Copy, Debug, PartialEq)]
pub struct Contents<'a> {
    pub table_name: &'a [u8],
    pub data_type: &'a [u8],
    pub last_change: &'a [u8],
    pub srs_id: Option<i64>,
}

/// The four corner values of a matrix set.
#[derive(Clone, Copy, Debug, PartialEq)]
pub struct Extent {
    pub min_x: f64,
    pub min_y: f64,
    pub max_x: f64,
    pub max_y: f64,
}

#[derive(Clone, Copy, Debug, PartialEq)]
pub struct MatrixSet<'a> {
    pub table_name: &'a [u8],
    pub srs_id: i64,
    pub extent: Extent,
}

#[derive(Clone, Copy, Debug, PartialEq)]
pub struct Matrix<'a> {
    pub table_name: &'a [u8],
    pub zoom: i64,
    pub matrix_width: i64,
    pub matrix_height: i64,
    pub tile_width: i64,
    pub tile_height: i64,
    pub pixel_x_size: f64,
    pub pixel_y_size: f64,
}

#[derive(Clone, Copy, Debug, PartialEq)]
pub struct Tile<'a> {
    pub table_name: &'a [u8],
    pub zoom: i64,
    pub column: i64,
    pub row: i64,
}

#[derive(Clone, Copy, Debug, PartialEq)]
pub struct Extension<'a> {
    pub table_name: Option<&'a [u8]>,
    pub column_name: Option<&'a [u8]>,
    pub extension_name: &'a [u8],
    pub scope: &'a [u8],
}

/// A text of an accepted listing that cannot be NULL.
pub(super) fn text<'a>(names: &'a [u8], row: &[u8], at: usize) -> &'a [u8] {
    let start = u32_at(row, at) as usize;
    &names[start..start + u32_at(row, at + 4) as usize]
}

/// A text of an accepted listing that can be NULL.
pub(super) fn text_or_null<'a>(names: &'a [u8], row: &[u8], at: usize) -> Option<&'a [u8]> {
    let is_null = u32_at(row, at) == NULL_START && u32_at(row, at + 4) == 0;
    (!is_null).then(|| text(names, row, at))
}

/// The tile rows. The other tables' are read by closures; these are read in the
/// lookup that bench/run times, and whether a closure is inlined there hangs on
/// code that has nothing to do with it.
struct Tiles<'a> {
    rows: std::slice::ChunksExact<'a, u8>,
    names: &'a [u8],
}

impl<'a> Iterator for Tiles<'a> {
    type Item = Tile<'a>;

    #[inline(always)]
    fn next(&mut self) -> Option<Tile<'a>> {
        let row = self.rows.next()?;
        Some(Tile {
            table_name: text(self.names, row, 0),
            zoom: i64_at(row, 8),
            column: i64_at(row, 16),
            row: i64_at(row, 24),
        })
    }
}

impl<'a> Listing<'a> {
    pub fn references(&self) -> impl Iterator<Item = Reference<'a>> + 'a {
        let names = self.names();
        self.row_octets(REFERENCES).map(move |row| Reference {
            srs_id: i64_at(row, 0),
            coordsys_id: i64_at(row, 8),
            organization: text(names, row, 16),
            definition: text(names, row, 24),
        })
    }

    pub fn contents(&self) -> impl Iterator<Item = Contents<'a>> + 'a {
        let names = self.names();
        self.row_octets(CONTENTS).map(move |row| Contents {
            table_name: text(names, row, 0),
            data_type: text(names, row, 8),
            last_change: text(names, row, 16),
            srs_id: (u32_at(row, CONTENTS_FLAG) == 1).then(|| i64_at(row, CONTENTS_SRS_ID)),
        })
    }

    pub fn sets(&self) -> impl Iterator<Item = MatrixSet<'a>> + 'a {
        let names = self.names();
        self.row_octets(SETS).map(move |row| MatrixSet {
            table_name: text(names, row, 0),
            srs_id: i64_at(row, 8),
            extent: Extent {
                min_x: f64_at(row, 16),
                min_y: f64_at(row, 24),
                max_x: f64_at(row, 32),
                max_y: f64_at(row, 40),
            },
        })
    }

    pub fn matrices(&self) -> impl Iterator<Item = Matrix<'a>> + 'a {
        let names = self.names();
        self.row_octets(MATRICES).map(move |row| Matrix {
            table_name: text(names, row, 0),
            zoom: i64_at(row, 8),
            matrix_width: i64_at(row, 16),
            matrix_height: i64_at(row, 24),
            tile_width: i64_at(row, 32),
            tile_height: i64_at(row, 40),
            pixel_x_size: f64_at(row, 48),
            pixel_y_size: f64_at(row, 56),
        })
    }

    pub fn tiles(&self) -> impl Iterator<Item = Tile<'a>> + 'a {
        Tiles { rows: self.row_octets(TILES), names: self.names() }
    }

    pub fn extensions(&self) -> impl Iterator<Item = Extension<'a>> + 'a {
        let names = self.names();
        self.row_octets(EXTENSIONS).map(move |row| Extension {
            table_name: text_or_null(names, row, 0),
            column_name: text_or_null(names, row, 8),
            extension_name: text(names, row, 16),
            scope: text(names, row, 24),
        })
    }
}
