//! The writer of document 02, request 2026-01: seven parts become a listing.

use crate::listing::layout::{HEADER_SIZE, SHAPES, TABLE_COUNT, VERSION};
use crate::listing::{read, Refusal};

/// The parts of a listing: the octets of tables 1 to 7, as they stand in one.
pub type Parts = [Vec<u8>; TABLE_COUNT];

/// The listing of some parts, or why there is none. `room` is how many octets
/// the buffer has.
pub fn write(parts: &Parts, room: usize) -> Result<Vec<u8>, Refusal> {
    check_lengths(&parts.each_ref().map(|part| part.len() as u64))?;
    let listing = put_together(parts);
    // "7 and 8 as the reader would give them", and 13 after them: it is asked.
    read(&listing)?;
    match room < listing.len() {
        true => Err(Refusal::at_large(12)),
        false => Ok(listing),
    }
}

/// Reasons 11 and 5, which the lengths of the parts alone decide: any 11 comes
/// before any 5. Counts are whole numbers, however many octets there are.
pub fn check_lengths(lengths: &[u64; TABLE_COUNT]) -> Result<(), Refusal> {
    let first = |is_bad: fn(u64, u64, u64) -> bool| {
        let mut tables = lengths.iter().zip(&SHAPES);
        tables.position(|(&length, shape)| {
            is_bad(length, shape.row_size as u64, u64::from(shape.most))
        })
    };
    if let Some(at) = first(|length, row_size, _| length % row_size != 0) {
        return Err(Refusal::at(11, at + 1, 0));
    }
    match first(|length, row_size, most| length / row_size > most) {
        Some(at) => Err(Refusal::at(5, at + 1, 0)),
        None => Ok(()),
    }
}

/// How many octets the listing of some parts has.
pub fn size_of(parts: &Parts) -> usize {
    HEADER_SIZE + parts.iter().map(Vec::len).sum::<usize>()
}

/// The header, its counts and offsets by the lengths, and then the parts, which
/// are not looked at.
pub fn put_together(parts: &Parts) -> Vec<u8> {
    let mut header = vec![VERSION, size_of(parts) as u32];
    let mut offset = HEADER_SIZE;
    for (part, shape) in parts.iter().zip(&SHAPES) {
        header.extend([(part.len() / shape.row_size) as u32, offset as u32]);
        offset += part.len();
    }
    let mut listing = Vec::with_capacity(size_of(parts));
    listing.extend(header.iter().flat_map(|word| word.to_le_bytes()));
    parts.iter().for_each(|part| listing.extend_from_slice(part));
    listing
}
