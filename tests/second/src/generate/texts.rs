//! A series of listings with one text each beside the empty ones: every text of
//! up to four octets at the ends of the ranges of Table 3-7 and one beyond, by
//! itself and between others. Behind the series come listings of many texts, each
//! from a seed. Their tiles may stand in columns, and metadata listings have such
//! texts too.

use super::{metadata_of_characters, moved_to_columns, one_of_characters};
use super::{ColumnsCase, MetadataCase};
use crate::listing::layout::{format_of, Format, LISTING, METADATA_LISTING, TILES};
use crate::make::{joined, set_u32, Draft};

/// The ends of the ranges for a first octet, and one beyond each.
const FIRST: [u8; 23] = [
    0x00, 0x7f, 0x80, 0xbf, 0xc0, 0xc1, 0xc2, 0xdf, 0xe0, 0xe1, 0xec, 0xed, 0xee, 0xef, 0xf0, 0xf1,
    0xf3, 0xf4, 0xf5, 0xf7, 0xf8, 0xfe, 0xff,
];
/// The same for a second octet, and for a third and a fourth.
const SECOND: [u8; 8] = [0x7f, 0x80, 0x8f, 0x90, 0x9f, 0xa0, 0xbf, 0xc0];
const LATER: [u8; 4] = [0x7f, 0x80, 0xbf, 0xc0];

const OCTETS: [&[u8]; 4] = [&FIRST, &SECOND, &LATER, &LATER];

/// How many texts there are, each by itself and between others.
pub const SERIES: u64 =
    2 * (FIRST.len() * (1 + SECOND.len() * (1 + LATER.len() * (1 + LATER.len())))) as u64;

/// The listing of a number: of the series, or behind it of the seeds from 0 on.
pub fn text_listing(number: u64) -> Vec<u8> {
    match number.checked_sub(SERIES) {
        None => one_text(number).listing,
        Some(seed) => one_of_characters(seed).0,
    }
}

/// The same with the tiles in columns alone: of the series each text is the name
/// of the one tile there.
pub fn text_columns(number: u64) -> ColumnsCase {
    let listing = match number < SERIES {
        true => one_text_in(number, (TILES, 0)).listing,
        false => text_listing(number),
    };
    moved_to_columns(listing)
}

/// The same in a metadata listing, beside a tile listing without rows.
pub fn text_metadata(number: u64) -> MetadataCase {
    let metadata = match number.checked_sub(SERIES) {
        None => one_text_among(number, &METADATA_LISTING).listing,
        Some(seed) => metadata_of_characters(seed).0,
    };
    MetadataCase { kind: "a text", listing: Draft::default().listing(), metadata }
}

/// The numbers of the series, and of so many seeds from the first on.
pub fn text_numbers(first: u64, count: u64) -> impl Iterator<Item = u64> {
    let behind = SERIES.saturating_add(first);
    (0..SERIES).chain(behind..behind.saturating_add(count))
}

/// A listing of the series, and its text.
pub struct OneText {
    pub listing: Vec<u8>,
    pub text: Vec<u8>,
}

/// A text field: its table, and where it stands in a row.
type Field = (usize, usize);

/// The listing of a number of the series.
pub fn one_text(number: u64) -> OneText {
    one_text_among(number, &LISTING)
}

/// They take turns in the field that the text is in, and in what stands around it.
fn one_text_among(number: u64, format: &'static Format) -> OneText {
    let fields_of = |table: usize| format.shape(table).texts.iter().map(move |t| (table, t.at));
    let fields: Vec<Field> = format.row_tables().flat_map(fields_of).collect();
    one_text_in(number, fields[turn(number) % fields.len()])
}

fn turn(number: u64) -> usize {
    number as usize / 2
}

fn one_text_in(number: u64, field: Field) -> OneText {
    let turn = turn(number);
    let octets = text(turn);
    if number % 2 == 0 {
        // By itself, between octets that would go on with it.
        return in_a_field(field, &[0xe1, 0x80][..turn % 3], octets, &[0x80; 3]);
    }
    let text = [&b"a".repeat(turn % 19), octets.as_slice(), &b"zzzzz"[..turn % 6]].concat();
    in_a_field(field, b"", text, b"")
}

/// The text at a place of the series: the shorter ones come first.
fn text(mut at: usize) -> Vec<u8> {
    let mut octets = &OCTETS[..1];
    let mut count = FIRST.len();
    while at >= count && octets.len() < OCTETS.len() {
        at -= count;
        count *= OCTETS[octets.len()].len();
        octets = &OCTETS[..octets.len() + 1];
    }
    let chosen = octets.iter().map(|choices| {
        let octet = choices[at % choices.len()];
        at /= choices.len();
        octet
    });
    chosen.collect()
}

/// One row in each table, of zeros but for this text in its field.
fn in_a_field((table, at): Field, before: &[u8], text: Vec<u8>, after: &[u8]) -> OneText {
    let format = format_of(table);
    let mut parts: Vec<_> = format.shapes.iter().map(|shape| vec![0; shape.row_size]).collect();
    let part = &mut parts[table - format.first_table];
    set_u32(part, at, before.len() as u32);
    set_u32(part, at + 4, text.len() as u32);
    parts.pop();
    parts.push([before, &text, after].concat());
    OneText { listing: joined(format, &parts), text }
}
