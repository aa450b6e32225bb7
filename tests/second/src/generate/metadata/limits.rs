//! Metadata listings at the limits of each table and of the whole, made by name and
//! not by seed.

use super::super::{good_pack, LIMITS};
use super::{rows, tables_of, MetadataCase, Random};
use crate::listing::layout::{METADATA_LISTING, METADATA_NAMES};
use crate::make::{set_count, set_true_length, span, MetadataDraft, MetadataReferenceRow};

/// A name, and a maker from the tile listing that it is lent with.
type Limit = (&'static str, fn(&[u8]) -> Vec<u8>);

/// The metadata listings at the limits, by name.
pub static METADATA_LIMITS: [Limit; 15] = [
    ("table 11 at its most", |l| filled(l, 11, 0)),
    ("table 12 at its most", |l| filled(l, 12, 0)),
    ("table 13 at its most", |l| filled(l, 13, 0)),
    ("table 11 above its most", |l| filled(l, 11, 1)),
    ("table 12 above its most", |l| filled(l, 12, 1)),
    ("table 13 above its most", |l| filled(l, 13, 1)),
    ("1,314,848 octets", |l| longest(l).listing()),
    ("1,314,849 octets", too_long),
    ("a text outside in the last row", |l| edited(l, |d, end| d.timestamp = span(end, 1))),
    ("an ill text in the last row", |l| edited(l, |d, end| d.timestamp = span(end - 1, 1))),
    ("a flag in the last row", |l| edited(l, |d, _| d.flags = 4)),
    ("a text of all names but one octet", |l| edited(l, |d, end| d.column_name = span(0, end - 1))),
    ("beside the longest tile listing", |l| longest(l).listing()),
    ("good beside a tile listing that is too long", |l| good_beside(l).listing()),
    ("both listings too long", too_long),
];

/// One of them with the tile listing that it is lent with.
pub fn metadata_at_a_limit(number: usize) -> Option<MetadataCase> {
    let &(kind, make) = METADATA_LIMITS.get(number)?;
    let limit_named = |name: &str| LIMITS.iter().find(|limit| limit.0 == name);
    let beside = match kind {
        "beside the longest tile listing" => limit_named("9,762,880 octets"),
        "good beside a tile listing that is too long" | "both listings too long" => {
            limit_named("9,762,881 octets")
        }
        _ => None,
    };
    let listing = beside.map_or_else(|| good_pack(number as u64), |(_, make)| make());
    Some(MetadataCase { kind, metadata: make(&listing), listing })
}

fn good_beside(listing: &[u8]) -> MetadataDraft {
    rows::good(&mut Random::new(1), &tables_of(listing))
}

/// A good one with one table filled up to its most and so many rows more.
fn filled(listing: &[u8], table: usize, above: usize) -> Vec<u8> {
    let mut draft = good_beside(listing);
    fill(&mut draft, table, METADATA_LISTING.shape(table).most as usize + above);
    draft.listing()
}

/// Repeats a table's rows until there are so many, with other ids for the files.
fn fill(draft: &mut MetadataDraft, table: usize, count: usize) {
    let (files, references) = (draft.metadata.clone(), draft.references.clone());
    match table {
        11 => (files.len()..count).for_each(|number| {
            let mut row = files[number % files.len()];
            row.id = 5_000 + number as i64;
            draft.metadata.push(row);
        }),
        12 => draft.references.extend(references.iter().cycle().take(count - references.len())),
        _ => draft.names.resize(count, b'n'),
    }
}

/// Every table at its most.
fn longest(listing: &[u8]) -> MetadataDraft {
    let mut draft = good_beside(listing);
    for table in METADATA_LISTING.tables() {
        fill(&mut draft, table, METADATA_LISTING.shape(table).most as usize);
    }
    draft
}

/// The same with one name octet more.
fn too_long(listing: &[u8]) -> Vec<u8> {
    let mut octets = longest(listing).listing();
    octets.push(b'n');
    set_true_length(&mut octets);
    set_count(&mut octets, METADATA_NAMES, METADATA_LISTING.shape(METADATA_NAMES).most + 1);
    octets
}

/// The longest with its last reference changed, which is told where the names end.
/// Their last octet is no character.
fn edited(listing: &[u8], edit: fn(&mut MetadataReferenceRow, usize)) -> Vec<u8> {
    let mut draft = longest(listing);
    let end = draft.names.len();
    draft.names[end - 1] = 0xe9;
    if let Some(row) = draft.references.last_mut() {
        edit(row, end);
    }
    draft.listing()
}
