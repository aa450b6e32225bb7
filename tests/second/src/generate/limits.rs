//! Listings at the limits of each table and of the whole: large ones, made by
//! name and not by seed.

use super::{packs, Random};
use crate::listing::layout::{GREATEST_LISTING, SHAPES};
use crate::make::{set_count, set_true_length, span, Draft};

/// A name and a maker.
pub type Limit = (&'static str, fn() -> Vec<u8>);

/// The listings at the limits, by name.
pub static LIMITS: [Limit; 19] = [
    ("table 1 at its most", || filled(1, 0)),
    ("table 2 at its most", || filled(2, 0)),
    ("table 3 at its most", || filled(3, 0)),
    ("table 4 at its most", || filled(4, 0)),
    ("table 5 at its most", || filled(5, 0)),
    ("table 6 at its most", || filled(6, 0)),
    ("table 7 at its most", || filled(7, 0)),
    ("table 1 above its most", || filled(1, 1)),
    ("table 2 above its most", || filled(2, 1)),
    ("table 3 above its most", || filled(3, 1)),
    ("table 4 above its most", || filled(4, 1)),
    ("table 5 above its most", || filled(5, 1)),
    ("table 6 above its most", || filled(6, 1)),
    ("table 7 above its most", || filled(7, 1)),
    ("9,762,880 octets", longest),
    ("9,762,881 octets", too_long),
    ("a text outside in the last row", outside_at_last),
    ("an ill text in the last row", ill_at_last),
    ("a text of all the most names", all_names),
];

/// A good pack with one table filled up to its most and so many rows more.
fn filled(table: usize, above: usize) -> Vec<u8> {
    let mut draft = packs::good(&mut Random::new(table as u64));
    fill(&mut draft, table, SHAPES[table - 1].most as usize + above);
    draft.listing()
}

/// Repeats a table's rows until there are so many, with other numbers where
/// that is simple.
fn fill(draft: &mut Draft, table: usize, count: usize) {
    let had = draft.counts()[table - 1];
    for number in had..count {
        let from = number % had;
        match table {
            1 => {
                let mut row = draft.references[from];
                row.srs_id = number as i64 / 2;
                draft.references.push(row);
            }
            2 => draft.contents.push(draft.contents[from]),
            3 => draft.sets.push(draft.sets[from]),
            4 => {
                let mut row = draft.matrices[from];
                row.zoom = number as i64 / 3;
                draft.matrices.push(row);
            }
            5 => {
                let mut row = draft.tiles[from];
                row.column = number as i64 / 2;
                draft.tiles.push(row);
            }
            6 => draft.extensions.push(draft.extensions[from]),
            _ => draft.names.push(b'n'),
        }
    }
}

/// Every table at its most.
fn longest() -> Vec<u8> {
    let mut draft = packs::good(&mut Random::new(0));
    for table in 1..=SHAPES.len() {
        fill(&mut draft, table, SHAPES[table - 1].most as usize);
    }
    draft.listing()
}

/// The same with one name octet more.
fn too_long() -> Vec<u8> {
    let mut octets = longest();
    octets.resize(GREATEST_LISTING + 1, b'n');
    set_true_length(&mut octets);
    set_count(&mut octets, 7, SHAPES[6].most + 1);
    octets
}

/// The last of the most tiles has a name that ends one past the names.
fn outside_at_last() -> Vec<u8> {
    let mut draft = packs::good(&mut Random::new(5));
    fill(&mut draft, 5, SHAPES[4].most as usize);
    let end = draft.names.len();
    if let Some(tile) = draft.tiles.last_mut() {
        tile.table_name = span(end, 1);
    }
    draft.listing()
}

/// The name of the last of the most tiles is an octet that is no character.
fn ill_at_last() -> Vec<u8> {
    let mut draft = packs::good(&mut Random::new(6));
    fill(&mut draft, 5, SHAPES[4].most as usize);
    let ill = draft.text_apart([0xe9]);
    if let Some(tile) = draft.tiles.last_mut() {
        tile.table_name = ill;
    }
    draft.listing()
}

/// A definition of 1,048,576 octets, its last character one of four.
fn all_names() -> Vec<u8> {
    let mut draft = packs::good(&mut Random::new(7));
    let most = SHAPES[6].most as usize;
    draft.names.resize(most - 4, b'n');
    draft.text_apart("\u{1f404}");
    draft.references[0].definition = span(0, most);
    draft.listing()
}
