//! Parts to write listings from: cut from listings of every kind, good and
//! damaged, and changed so that each reason of the writer shows, alone and
//! beside the others.

use super::{edges, generate, utf8, Random};
use crate::calls::Parts;
use crate::listing::layout::*;
use crate::make::{set_u32, Span};

/// Parts and the kind that they are of.
pub struct PartsCase {
    pub kind: &'static str,
    pub parts: Parts,
    /// The listing that they were cut from, where nothing was changed since.
    pub listing: Option<Vec<u8>>,
}

type Change = fn(&mut Random, &mut Parts);

/// The kinds that are changed: what is done to the parts of a sound listing.
static CHANGED: [(&str, &[Change]); 24] = [
    ("no octets in any part", &[without_octets]),
    ("some parts empty", &[emptied]),
    ("a ragged part", &[ragged]),
    ("ragged parts", &[ragged, ragged, ragged]),
    ("rows at their most", &[at_most]),
    ("rows at their most, twice", &[at_most, at_most]),
    ("rows above their most", &[above_most]),
    ("rows above their most, twice", &[above_most, above_most]),
    ("texts at the edge", &[text_edges]),
    ("names of another length", &[text_edges, other_names]),
    ("flags at the edge", &[flag_edges]),
    ("ill texts", &[ill_texts]),
    ("11 and 5", &[above_most, ragged]),
    ("11 and 7", &[text_edges, ragged]),
    ("11 and 8", &[flag_edges, ragged]),
    ("5 and 7", &[text_edges, above_most]),
    ("5 and 8", &[flag_edges, above_most]),
    ("7 and 8", &[flag_edges, text_edges]),
    ("11, 5, 7 and 8", &[flag_edges, text_edges, above_most, ragged]),
    ("11 and 13", &[ill_texts, ragged]),
    ("5 and 13", &[ill_texts, above_most]),
    ("7 and 13", &[ill_texts, text_edges]),
    ("8 and 13", &[ill_texts, flag_edges]),
    ("11, 5, 7, 8 and 13", &[ill_texts, flag_edges, text_edges, above_most, ragged]),
];

/// The names of the changed kinds. The others are those of the listings.
pub fn parts_kind_names() -> impl Iterator<Item = &'static str> {
    CHANGED.iter().map(|(name, _)| *name)
}

/// The parts of a seed. Of seeds that follow one another every other one is a
/// listing of the next kind, cut as it is, and between them the changed kinds
/// take turns.
pub fn generate_parts(seed: u64) -> PartsCase {
    let turn = seed / 2;
    if seed % 2 == 1 {
        return changed(seed, CHANGED[(turn % CHANGED.len() as u64) as usize]);
    }
    let case = generate(turn);
    let parts = cut(&case.listing);
    PartsCase { kind: case.kind, parts, listing: Some(case.listing) }
}

fn changed(seed: u64, (kind, changes): (&'static str, &[Change])) -> PartsCase {
    // Another stream of numbers than that of the listings.
    let mut random = Random::new(!seed);
    let mut parts = cut(&edges::sound(&mut random).listing());
    changes.iter().for_each(|change| change(&mut random, &mut parts));
    PartsCase { kind, parts, listing: None }
}

/// Cuts octets where their header says how many rows each table has, as far as
/// they go. Of an accepted listing that is its tables; of others, anything.
pub fn cut(octets: &[u8]) -> Parts {
    let mut parts = cut_by(&LISTING, octets).into_iter();
    Parts::default().map(|_| parts.next().unwrap_or_default())
}

/// The same for either kind of listing.
pub fn cut_by(format: &Format, octets: &[u8]) -> Vec<Vec<u8>> {
    let header_size = format.header_size();
    let is_counted = octets.len() >= header_size;
    let mut rest = octets.get(header_size..).unwrap_or_default();
    let parts = format.tables().map(|table| {
        let count = if is_counted { u32_at(octets, count_at(table)) as usize } else { 0 };
        let length = (count * format.shape(table).row_size).min(rest.len());
        let (part, after) = rest.split_at(length);
        rest = after;
        part.to_vec()
    });
    parts.collect()
}

fn without_octets(_: &mut Random, parts: &mut Parts) {
    *parts = Parts::default();
}

fn emptied(random: &mut Random, parts: &mut Parts) {
    for part in parts.iter_mut().filter(|_| random.once_in(2)) {
        part.clear();
    }
}

/// A part with some octets more or fewer than whole rows have.
fn ragged(random: &mut Random, parts: &mut Parts) {
    let table = 1 + random.below(NAMES - 1);
    let (part, row_size) = (&mut parts[table - 1], SHAPES[table - 1].row_size);
    let by = match random.below(3) {
        0 => 1,
        1 => row_size - 1,
        _ => 1 + random.below(row_size - 1),
    };
    match random.once_in(2) && part.len() >= by {
        true => part.truncate(part.len() - by),
        false => part.resize(part.len() + by, 0),
    }
}

/// A table whose most rows are not so many octets that they take long. Tables 5
/// and 7 are met among the listings at the limits.
fn small_table(random: &mut Random) -> usize {
    random.pick(&[REFERENCES, CONTENTS, SETS, MATRICES, EXTENSIONS])
}

/// Repeats a part's whole rows until there are so many; a part without rows
/// gets rows of zeros, which are good.
fn fill(parts: &mut Parts, table: usize, count: usize) {
    let (part, row_size) = (&mut parts[table - 1], SHAPES[table - 1].row_size);
    part.truncate(part.len() / row_size * row_size);
    if part.is_empty() {
        part.resize(row_size, 0);
    }
    let rows = part.clone();
    part.extend(rows.iter().cycle().take((count * row_size).saturating_sub(rows.len())));
}

fn at_most(random: &mut Random, parts: &mut Parts) {
    let table = small_table(random);
    fill(parts, table, SHAPES[table - 1].most as usize);
}

fn above_most(random: &mut Random, parts: &mut Parts) {
    let table = small_table(random);
    fill(parts, table, SHAPES[table - 1].most as usize + 1 + random.below(2));
}

/// Any row of a part, often the first or the last, if it has rows.
pub fn any_row(random: &mut Random, part: &[u8], row_size: usize) -> Option<usize> {
    let last = (part.len() / row_size).checked_sub(1)?;
    let any = random.below(last + 1);
    Some(random.pick(&[0, last, any]))
}

/// Puts a text into any text field of a table, if it has rows.
fn put_text(random: &mut Random, parts: &mut Parts, Span { start, length }: Span) {
    let table = 1 + random.below(NAMES - 1);
    let (part, shape) = (&mut parts[table - 1], &SHAPES[table - 1]);
    let at = random.pick(shape.texts).at;
    if let Some(row) = any_row(random, part, shape.row_size) {
        set_u32(part, row * shape.row_size + at, start);
        set_u32(part, row * shape.row_size + at + 4, length);
    }
}

/// Some texts at the edge of the names: in, out, and NULL.
fn text_edges(random: &mut Random, parts: &mut Parts) {
    let end = parts[NAMES - 1].len();
    for _ in 0..1 + random.below(3) {
        let text = edges::edge_text(random, end);
        put_text(random, parts, text);
    }
}

/// Some texts that are not well-formed, of octets that are added to the names.
fn ill_texts(random: &mut Random, parts: &mut Parts) {
    for _ in 0..1 + random.below(3) {
        let text = utf8::ill_at_end(random, &mut parts[NAMES - 1]);
        put_text(random, parts, text);
    }
}

/// Names cut off, or longer: the texts at their end are out, or in.
fn other_names(random: &mut Random, parts: &mut Parts) {
    let names = &mut parts[NAMES - 1];
    let length = (names.len() + random.pick(&[1, 2, 40])).saturating_sub(random.pick(&[0, 3, 5]));
    names.resize(length, random.pick(&[b'e', b'e', 0xe9]));
}

/// Some contents rows with flags, spares and ids, good and bad.
fn flag_edges(random: &mut Random, parts: &mut Parts) {
    let (part, row_size) = (&mut parts[CONTENTS - 1], SHAPES[CONTENTS - 1].row_size);
    for _ in 0..1 + random.below(2) {
        let (srs_id, flag, spare) = edges::edge_flags(random);
        if let Some(row) = any_row(random, part, row_size) {
            let row = &mut part[row * row_size..][..row_size];
            row[CONTENTS_SRS_ID..][..8].copy_from_slice(&srs_id.to_le_bytes());
            set_u32(row, CONTENTS_FLAG, flag);
            set_u32(row, CONTENTS_SPARE, spare);
        }
    }
}
