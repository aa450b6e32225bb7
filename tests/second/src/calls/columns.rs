//! The tile table in columns, document 02, request 2026-04: a fill, and report
//! and lookup with the tiles taken from the columns.

use super::{lookup, report, Question};
use crate::listing::layout::{i64_at, offset_at, u32_at, SHAPES, TILES};
use crate::listing::{read, Listing, Refusal};
use crate::make::{set_i64, set_u32};
use crate::rules::Finding;

/// How many columns there are: names, zooms, columns and rows.
pub const COLUMN_COUNT: usize = 4;
/// Octets of an entry, a signed number.
pub const ENTRY: usize = 8;

/// The lent columns, in octets. Those past the last whole entry are no entry.
pub type Columns = [Vec<u8>; COLUMN_COUNT];

/// Where a tile row keeps its zoom, column and row. Before them is the name, which
/// a row has as two numbers, and an entry as one.
const NUMBERS_AT: [usize; COLUMN_COUNT - 1] = [8, 16, 24];

/// The columns as a fill leaves them, or why it is refused.
pub fn fill(octets: &[u8], columns: &Columns) -> Result<Columns, Refusal> {
    let listing = read_with_room(octets, columns)?;
    let mut filled = columns.clone();
    for (entry, row) in listing.row_octets(TILES).enumerate() {
        for (column, value) in filled.iter_mut().zip(entries_of(row)) {
            set_i64(column, entry * ENTRY, value);
        }
    }
    Ok(filled)
}

/// What the fill writes for a tile row.
fn entries_of(row: &[u8]) -> [i64; COLUMN_COUNT] {
    let [zoom, column, tile_row] = NUMBERS_AT.map(|at| i64_at(row, at));
    [name_entry(u32_at(row, 0), u32_at(row, 4)), zoom, column, tile_row]
}

/// The entry of a name: its start times 2^32 plus its length, in 64 bits.
pub fn name_entry(start: u32, length: u32) -> i64 {
    ((u64::from(start) << 32) + u64::from(length)) as i64
}

/// Reads a listing beside its columns: its own reasons come before 14.
fn read_with_room<'a>(octets: &'a [u8], columns: &Columns) -> Result<Listing<'a>, Refusal> {
    let listing = read(octets)?;
    match columns.iter().any(|column| column.len() / ENTRY < listing.count(TILES)) {
        true => Err(Refusal::at(14, TILES, 0)),
        false => Ok(listing),
    }
}

/// The listing whose tile rows are those that the columns spell, or why the call
/// is refused before any entry is looked at. A negative entry of a name becomes a
/// start of 2^31 or more, which is outside of all names.
pub fn rewritten(octets: &[u8], columns: &Columns) -> Result<Vec<u8>, Refusal> {
    let tiles = read_with_room(octets, columns)?.count(TILES);
    let start = u32_at(octets, offset_at(TILES)) as usize;
    let [names, numbers @ ..] = columns;
    let mut rewritten = octets.to_vec();
    let rows = rewritten[start..].chunks_exact_mut(SHAPES[TILES - 1].row_size);
    for (entry, row) in rows.take(tiles).enumerate() {
        let name = i64_at(names, entry * ENTRY);
        set_u32(row, 0, (name >> 32) as u32);
        set_u32(row, 4, name as u32);
        for (column, at) in numbers.iter().zip(NUMBERS_AT) {
            set_i64(row, at, i64_at(column, entry * ENTRY));
        }
    }
    Ok(rewritten)
}

/// All findings of a listing, its tiles taken from the columns. 7 and 13 of an
/// entry are those of the tile row that it spells: the other rows have neither.
pub fn report_columns(octets: &[u8], columns: &Columns) -> Result<Vec<Finding>, Refusal> {
    report(&rewritten(octets, columns)?)
}

/// The same for a lookup; 10 comes last.
pub fn lookup_columns(
    octets: &[u8],
    columns: &Columns,
    question: Question,
) -> Result<Option<u32>, Refusal> {
    lookup(&rewritten(octets, columns)?, question)
}
