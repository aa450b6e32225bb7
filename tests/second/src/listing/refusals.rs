//! Reasons 1 to 8 and 13 for turning a listing of either kind away, in the papers'
//! fixed order.

use std::ops::Range;

use super::layout::*;
use super::utf8::Pieces;
use super::{Listing, MetadataListing};

/// Why a call was refused: the reason's number and the place.
#[derive(Clone, Copy, Debug, PartialEq, Eq, Hash)]
pub struct Refusal {
    pub number: u32,
    pub table: u32,
    pub row: u32,
}

impl Refusal {
    /// A refusal with place 0 0.
    pub const fn at_large(number: u32) -> Refusal {
        Refusal::at(number, 0, 0)
    }

    pub const fn at(number: u32, table: usize, row: usize) -> Refusal {
        Refusal { number, table: table as u32, row: row as u32 }
    }
}

/// Reads a listing, or says which reason comes first.
pub fn read(octets: &[u8]) -> Result<Listing<'_>, Refusal> {
    read_tables(&LISTING, octets).map(Listing::of_tables)
}

/// The same for a metadata listing.
pub fn read_metadata(octets: &[u8]) -> Result<MetadataListing<'_>, Refusal> {
    read_tables(&METADATA_LISTING, octets).map(MetadataListing::of_tables)
}

fn read_tables<'a, const COUNT: usize>(
    format: &Format,
    octets: &'a [u8],
) -> Result<[&'a [u8]; COUNT], Refusal> {
    check_size_and_version(format, octets)?;
    check_counts(format, octets)?;
    let tables = cut_into_tables(format, octets)?;
    check_texts(format, &tables)?;
    check_flags(format, &tables)?;
    check_utf8(format, &tables)?;
    Ok(tables)
}

/// Reasons 1 to 4.
fn check_size_and_version(format: &Format, octets: &[u8]) -> Result<(), Refusal> {
    if octets.len() < format.header_size() {
        return Err(Refusal::at_large(1));
    }
    if octets.len() > format.greatest {
        return Err(Refusal::at_large(2));
    }
    if u32_at(octets, 0) != VERSION {
        return Err(Refusal::at_large(3));
    }
    if u32_at(octets, 4) as usize != octets.len() {
        return Err(Refusal::at_large(4));
    }
    Ok(())
}

/// Reason 5: every count is looked at before any offset.
fn check_counts(format: &Format, octets: &[u8]) -> Result<(), Refusal> {
    let is_above = |&table: &usize| u32_at(octets, count_at(table)) > format.shape(table).most;
    match format.tables().find(is_above) {
        Some(table) => Err(Refusal::at(5, table, 0)),
        None => Ok(()),
    }
}

/// Reason 6. Counts are within their most, so no end here can overflow.
fn cut_into_tables<'a, const COUNT: usize>(
    format: &Format,
    octets: &'a [u8],
) -> Result<[&'a [u8]; COUNT], Refusal> {
    let mut bounds = [(0, 0); COUNT];
    let mut end = format.header_size();
    for (table, bounds) in format.tables().zip(&mut bounds) {
        if u32_at(octets, offset_at(table)) as usize != end {
            return Err(Refusal::at(6, table, 0));
        }
        let start = end;
        end = start + u32_at(octets, count_at(table)) as usize * format.shape(table).row_size;
        *bounds = (start, end);
    }
    if end != octets.len() {
        return Err(Refusal::at(6, format.names_table(), 0));
    }
    Ok(bounds.map(|(start, end)| &octets[start..end]))
}

/// Reason 7: lowest table, then lowest row.
pub fn check_texts(format: &Format, tables: &[&[u8]]) -> Result<(), Refusal> {
    let names_end = names_of(tables).len();
    check_every_text(format, tables, 7, |row, text| {
        places(row, text, names_end).is_some() || (text.may_be_null && is_null(row, text))
    })
}

/// Reason 13: lowest table, then lowest row. A NULL is no text; one outside the
/// names is reason 7's.
pub fn check_utf8(format: &Format, tables: &[&[u8]]) -> Result<(), Refusal> {
    let names = names_of(tables);
    // Of ASCII every part is well-formed, and most names are ASCII.
    if names.is_ascii() {
        return Ok(());
    }
    let pieces = Pieces::of(names);
    check_every_text(format, tables, 13, |row, text| {
        places(row, text, names.len()).is_none_or(|places| pieces.is_well_formed(places))
    })
}

/// The last table.
fn names_of<'a>(tables: &[&'a [u8]]) -> &'a [u8] {
    tables.last().copied().unwrap_or_default()
}

/// Refuses with this number where a text field of a row is not good.
#[inline]
fn check_every_text(
    format: &Format,
    tables: &[&[u8]],
    number: u32,
    is_good: impl Fn(&[u8], TextField) -> bool,
) -> Result<(), Refusal> {
    for (table, rows) in format.row_tables().zip(tables) {
        let texts = format.shape(table).texts;
        check_rows(rows, table, number, |row| texts.iter().all(|&text| is_good(row, text)))?;
    }
    Ok(())
}

/// Refuses with this number and the first row that is not good.
#[inline]
fn check_rows(
    rows: &[u8],
    table: usize,
    number: u32,
    is_good: impl Fn(&[u8]) -> bool,
) -> Result<(), Refusal> {
    let rows = rows.chunks_exact(format_of(table).shape(table).row_size);
    for (row, octets) in rows.enumerate() {
        if !is_good(octets) {
            return Err(Refusal::at(number, table, row));
        }
    }
    Ok(())
}

/// The places of a text inside the names. A NULL has none: its start is past
/// every end.
fn places(row: &[u8], text: TextField, names_end: usize) -> Option<Range<usize>> {
    let start = u32_at(row, text.at) as usize;
    let end = start.checked_add(u32_at(row, text.at + 4) as usize)?;
    (end <= names_end).then_some(start..end)
}

fn is_null(row: &[u8], text: TextField) -> bool {
    u32_at(row, text.at) == NULL_START && u32_at(row, text.at + 4) == 0
}

/// Reason 8: lowest row of the one table that has flags.
pub fn check_flags(format: &Format, tables: &[&[u8]]) -> Result<(), Refusal> {
    for (table, rows) in format.row_tables().zip(tables) {
        if let Some(flags) = &format.shape(table).flags {
            check_rows(rows, table, 8, |row| has_good_flags(row, flags))?;
        }
    }
    Ok(())
}

fn has_good_flags(row: &[u8], Flags { at, numbers }: &Flags) -> bool {
    let (flags, spare) = (u32_at(row, *at), u32_at(row, at + 4));
    let is_absent = |number: usize| flags >> number & 1 == 0;
    let mut numbers_at = numbers.iter().enumerate();
    flags >> numbers.len() == 0
        && spare == 0
        && numbers_at.all(|(number, &at)| !is_absent(number) || i64_at(row, at) == 0)
}
