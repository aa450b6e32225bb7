//! A maker of listings: rows in, octets out. It writes whatever it is given,
//! good or bad, so that a maker of faults can use it too.

mod metadata;

pub use metadata::{MetadataDraft, MetadataReferenceRow, MetadataRow};

use crate::listing::layout::{
    count_at, offset_at, Format, LISTING, NULL_START, TABLE_COUNT, VERSION,
};

/// A text as a row holds it: a start and a length within the names.
#[derive(Clone, Copy, Debug, PartialEq, Eq)]
pub struct Span {
    pub start: u32,
    pub length: u32,
}

/// The text that spells NULL.
pub const NULL: Span = Span { start: NULL_START, length: 0 };

#[derive(Clone, Copy, Debug)]
pub struct ReferenceRow {
    pub srs_id: i64,
    pub coordsys_id: i64,
    pub organization: Span,
    pub definition: Span,
}

#[derive(Clone, Copy, Debug)]
pub struct ContentsRow {
    pub table_name: Span,
    pub data_type: Span,
    pub last_change: Span,
    pub srs_id: i64,
    pub flag: u32,
    pub spare: u32,
}

#[derive(Clone, Copy, Debug)]
pub struct SetRow {
    pub table_name: Span,
    pub srs_id: i64,
    /// min_x, min_y, max_x, max_y.
    pub corners: [f64; 4],
}

#[derive(Clone, Copy, Debug)]
pub struct MatrixRow {
    pub table_name: Span,
    pub zoom: i64,
    pub matrix_width: i64,
    pub matrix_height: i64,
    pub tile_width: i64,
    pub tile_height: i64,
    pub pixel_x_size: f64,
    pub pixel_y_size: f64,
}

#[derive(Clone, Copy, Debug, PartialEq, Eq)]
pub struct TileRow {
    pub table_name: Span,
    pub zoom: i64,
    pub column: i64,
    pub row: i64,
}

#[derive(Clone, Copy, Debug)]
pub struct ExtensionRow {
    pub table_name: Span,
    pub column_name: Span,
    pub extension_name: Span,
    pub scope: Span,
}

/// A listing in the making.
#[derive(Clone, Debug, Default)]
pub struct Draft {
    pub references: Vec<ReferenceRow>,
    pub contents: Vec<ContentsRow>,
    pub sets: Vec<SetRow>,
    pub matrices: Vec<MatrixRow>,
    pub tiles: Vec<TileRow>,
    pub extensions: Vec<ExtensionRow>,
    pub names: Vec<u8>,
}

/// Adding rows, with the texts themselves.
impl Draft {
    /// A text with these octets, at the first place that has them already, or
    /// else at the end of the names.
    pub fn text(&mut self, octets: impl AsRef<[u8]>) -> Span {
        text_in(&mut self.names, octets.as_ref())
    }

    /// A text with these octets at a place of its own.
    pub fn text_apart(&mut self, octets: impl AsRef<[u8]>) -> Span {
        text_apart_in(&mut self.names, octets.as_ref())
    }

    pub fn reference(&mut self, srs_id: i64, organization: &str, coordsys_id: i64, wkt: &str) {
        let (organization, definition) = (self.text(organization), self.text(wkt));
        self.references.push(ReferenceRow { srs_id, coordsys_id, organization, definition });
    }

    /// A contents row; `None` is a NULL srs_id.
    pub fn content(&mut self, name: &str, data_type: &str, change: &str, srs_id: Option<i64>) {
        let row = ContentsRow {
            table_name: self.text(name),
            data_type: self.text(data_type),
            last_change: self.text(change),
            srs_id: srs_id.unwrap_or(0),
            flag: u32::from(srs_id.is_some()),
            spare: 0,
        };
        self.contents.push(row);
    }

    pub fn set(&mut self, name: &str, srs_id: i64, corners: [f64; 4]) {
        let table_name = self.text(name);
        self.sets.push(SetRow { table_name, srs_id, corners });
    }

    /// A matrix row: a square of `side` by `side` tiles of 256 pixels.
    pub fn matrix(&mut self, name: &str, zoom: i64, side: i64, pixel: f64) {
        let table_name = self.text(name);
        self.matrices.push(MatrixRow {
            table_name,
            zoom,
            matrix_width: side,
            matrix_height: side,
            tile_width: 256,
            tile_height: 256,
            pixel_x_size: pixel,
            pixel_y_size: pixel,
        });
    }

    pub fn tile(&mut self, name: &str, zoom: i64, column: i64, row: i64) {
        let table_name = self.text(name);
        self.tiles.push(TileRow { table_name, zoom, column, row });
    }

    /// An extension row; `None` is NULL.
    pub fn extension(&mut self, name: Option<&str>, column: Option<&str>, ext: &str, scope: &str) {
        let row = ExtensionRow {
            table_name: name.map_or(NULL, |text| self.text(text)),
            column_name: column.map_or(NULL, |text| self.text(text)),
            extension_name: self.text(ext),
            scope: self.text(scope),
        };
        self.extensions.push(row);
    }
}

fn text_in(names: &mut Vec<u8>, octets: &[u8]) -> Span {
    let known = match octets.len() {
        0 => Some(0),
        length => names.windows(length).position(|w| w == octets),
    };
    match known {
        Some(start) => span(start, octets.len()),
        None => text_apart_in(names, octets),
    }
}

fn text_apart_in(names: &mut Vec<u8>, octets: &[u8]) -> Span {
    let start = names.len();
    names.extend_from_slice(octets);
    span(start, octets.len())
}

pub(crate) const fn span(start: usize, length: usize) -> Span {
    Span { start: start as u32, length: length as u32 }
}

/// From rows to octets.
impl Draft {
    pub fn counts(&self) -> [usize; TABLE_COUNT] {
        [
            self.references.len(),
            self.contents.len(),
            self.sets.len(),
            self.matrices.len(),
            self.tiles.len(),
            self.extensions.len(),
            self.names.len(),
        ]
    }

    /// How many octets the listing has.
    pub fn size(&self) -> usize {
        LISTING.size(&self.counts())
    }

    pub fn listing(&self) -> Vec<u8> {
        let mut out = Vec::with_capacity(self.size());
        put_header(&mut out, &LISTING, &self.counts());
        for row in &self.references {
            put_i64s(&mut out, &[row.srs_id, row.coordsys_id]);
            put_texts(&mut out, &[row.organization, row.definition]);
        }
        for row in &self.contents {
            put_texts(&mut out, &[row.table_name, row.data_type, row.last_change]);
            put_i64s(&mut out, &[row.srs_id]);
            put_u32s(&mut out, &[row.flag, row.spare]);
        }
        for row in &self.sets {
            put_texts(&mut out, &[row.table_name]);
            put_i64s(&mut out, &[row.srs_id]);
            put_f64s(&mut out, &row.corners);
        }
        self.write_matrices_and_tiles(&mut out);
        for row in &self.extensions {
            put_texts(&mut out, &[row.table_name, row.column_name]);
            put_texts(&mut out, &[row.extension_name, row.scope]);
        }
        out.extend_from_slice(&self.names);
        out
    }

    fn write_matrices_and_tiles(&self, out: &mut Vec<u8>) {
        for row in &self.matrices {
            put_texts(out, &[row.table_name]);
            put_i64s(out, &[row.zoom, row.matrix_width, row.matrix_height]);
            put_i64s(out, &[row.tile_width, row.tile_height]);
            put_f64s(out, &[row.pixel_x_size, row.pixel_y_size]);
        }
        for row in &self.tiles {
            put_texts(out, &[row.table_name]);
            put_i64s(out, &[row.zoom, row.column, row.row]);
        }
    }
}

/// The header of a listing with so many rows in each table.
fn put_header(out: &mut Vec<u8>, format: &Format, counts: &[usize]) {
    put_u32s(out, &[VERSION, format.size(counts) as u32]);
    let mut offset = format.header_size();
    for (count, shape) in counts.iter().zip(format.shapes) {
        put_u32s(out, &[*count as u32, offset as u32]);
        offset += count * shape.row_size;
    }
}

/// A listing of some parts, each of whole rows, which are not looked at.
pub fn joined(format: &Format, parts: &[Vec<u8>]) -> Vec<u8> {
    let mut out = Vec::new();
    let rows = parts.iter().zip(format.shapes).map(|(part, shape)| part.len() / shape.row_size);
    put_header(&mut out, format, &rows.collect::<Vec<_>>());
    parts.iter().for_each(|part| out.extend_from_slice(part));
    out
}

fn put_u32s(out: &mut Vec<u8>, words: &[u32]) {
    words.iter().for_each(|w| out.extend(w.to_le_bytes()));
}

fn put_i64s(out: &mut Vec<u8>, words: &[i64]) {
    words.iter().for_each(|w| out.extend(w.to_le_bytes()));
}

fn put_f64s(out: &mut Vec<u8>, words: &[f64]) {
    let patterns = words.iter().map(|w| w.to_bits());
    patterns.for_each(|w| out.extend(w.to_le_bytes()));
}

fn put_texts(out: &mut Vec<u8>, texts: &[Span]) {
    for text in texts {
        put_u32s(out, &[text.start, text.length]);
    }
}

/// Changes to finished octets, for faults that no rows can spell.
pub fn set_u32(octets: &mut [u8], at: usize, word: u32) {
    if let Some(place) = octets.get_mut(at..at + 4) {
        place.copy_from_slice(&word.to_le_bytes());
    }
}

pub fn set_i64(octets: &mut [u8], at: usize, number: i64) {
    if let Some(place) = octets.get_mut(at..at + 8) {
        place.copy_from_slice(&number.to_le_bytes());
    }
}

pub fn set_count(octets: &mut [u8], table: usize, count: u32) {
    set_u32(octets, count_at(table), count);
}

pub fn set_offset(octets: &mut [u8], table: usize, offset: u32) {
    set_u32(octets, offset_at(table), offset);
}

/// Makes the total length field say how many octets there are.
pub fn set_true_length(octets: &mut [u8]) {
    set_u32(octets, 4, octets.len() as u32);
}
