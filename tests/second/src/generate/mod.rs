//! A maker of listings to judge: good ones, ones with planted faults, ones in
//! which everything collides, damaged ones, and ones at the limits of size; and
//! of parts to write listings from, and columns and metadata listings to lend with
//! them. All are made from a seed alone.

mod columns;
mod damage;
mod dates;
mod dense;
mod edges;
mod full;
mod hostile;
mod limits;
mod metadata;
mod packs;
mod parts;
mod plant;
mod questions;
mod random;
mod sizes;
mod small;
mod spans;
mod texts;
mod utf8;

pub use columns::{columns_at_a_limit, generate_columns, ColumnsCase, AS_FILLED};
pub use columns::{columns_kind_names, columns_of, moved_to_columns};
pub use dates::{date_listing, date_metadata, dates, dates_of_year, HALVES};
pub use full::{full, FULL_KINDS};
pub use hostile::{hostile, HOSTILE_KINDS};
pub use limits::LIMITS;
pub use metadata::{full_metadata, FULL_METADATA_KINDS};
pub use metadata::{generate_metadata, good_metadata, metadata_kind_names, one_metadata_fault};
pub use metadata::{metadata_at_a_limit, MetadataCase, METADATA_LIMITS};
pub(crate) use metadata::{REFERENCE_SCOPES, SCOPES};
pub use parts::{cut, cut_by, generate_parts, parts_kind_names, PartsCase};
pub use questions::{questions, Questions};
pub use random::Random;
#[cfg(test)]
pub(crate) use spans::wild_axis;
pub use texts::{one_text, text_columns, text_listing, text_metadata, text_numbers};
pub use texts::{OneText, SERIES};
pub(crate) use utf8::CHARACTERS;

use damage::Damage;

use crate::listing::layout::LISTING;
use crate::make::{Draft, MetadataDraft};

/// A listing and the kind that it is of.
pub struct Case {
    pub kind: &'static str,
    pub listing: Vec<u8>,
}

/// A kind of listing and its maker.
pub struct Kind {
    pub name: &'static str,
    make: fn(&mut Random) -> Vec<u8>,
}

const fn kind(name: &'static str, make: fn(&mut Random) -> Vec<u8>) -> Kind {
    Kind { name, make }
}

/// The kinds that are not planted faults.
static KINDS: [Kind; 36] = [
    kind("good pack", |random| packs::good(random).listing()),
    kind("small domain", |r| small::any(r).listing()),
    kind("small domain, tiles", |r| small::tiles(r).listing()),
    kind("small domain, matrices", |r| small::matrices(r).listing()),
    kind("small domain, sets", |r| small::sets(r).listing()),
    kind("small domain, extensions", |r| small::extensions(r).listing()),
    kind("small domain, references", |r| small::references(r).listing()),
    kind("dates", |random| small::dates(random).listing()),
    kind("overlapping names", |r| small::overlapping(r).listing()),
    kind("dense spans", |random| dense::spans(random).listing()),
    kind("dense levels", |random| dense::levels(random).listing()),
    kind("dense extensions", |r| dense::extensions(r).listing()),
    kind("many faults", plant::many),
    kind("short", |r| damaged(r, damage::short)),
    kind("truncated", |r| damaged(r, damage::truncated)),
    kind("extended", |r| damaged(r, damage::extended)),
    kind("bit flips", |r| damaged(r, damage::bit_flips)),
    kind("octet flips", |r| damaged(r, damage::octet_flips)),
    kind("random octets", |r| damage::random_octets(r, &LISTING)),
    kind("version and length", |r| damaged(r, damage::version_and_length)),
    kind("counts", |r| damaged(r, damage::counts)),
    kind("offsets", |r| damaged(r, damage::offsets)),
    kind("counts and offsets", |r| damaged(r, damage::counts_and_offsets)),
    kind("text edges", edges::text_edges),
    kind("nulls", edges::nulls),
    kind("nearly NULL", edges::nearly_null),
    kind("contents flags", edges::contents_flags),
    kind("several refusals", edges::several_refusals),
    kind("characters", |r| utf8::characters::<Draft>(r).draft.listing()),
    kind("ill characters", |r| utf8::ill_characters::<Draft>(r).draft.listing()),
    kind("around multiples of octets", |r| utf8::around_multiples::<Draft>(r).draft.listing()),
    kind("refusal 13 and others", utf8::with_7_and_8),
    kind("room for findings", sizes::room_for_findings),
    kind("longest for the desk", sizes::longest_for_the_desk),
    kind("mid-size", sizes::mid_size),
    kind("mid-size, few names", sizes::mid_size_collisions),
];

fn damaged(random: &mut Random, damage: Damage) -> Vec<u8> {
    let octets = damage::sound(random);
    damage(random, &LISTING, octets)
}

/// The names of all kinds, as [`generate`] gives them.
pub fn kind_names() -> impl Iterator<Item = &'static str> {
    let plain = KINDS.iter().map(|kind| kind.name);
    plain.chain(plant::PLANTS.iter().map(|plant| plant.name))
}

/// The listing of a seed. Seeds that follow one another run through the kinds.
pub fn generate(seed: u64) -> Case {
    let mut random = Random::new(seed);
    let turn = (seed % (KINDS.len() + plant::PLANTS.len()) as u64) as usize;
    match KINDS.get(turn) {
        Some(kind) => Case { kind: kind.name, listing: (kind.make)(&mut random) },
        None => {
            let plant = &plant::PLANTS[turn - KINDS.len()];
            Case { kind: plant.name, listing: plant::planted(plant, &mut random) }
        }
    }
}

/// A good pack with one fault at most, and what the maker knows of it: the
/// code, and whether it must show. For a check of the maker and the judge.
pub fn one_fault(seed: u64) -> (Vec<u8>, u32, bool) {
    let mut random = Random::new(seed);
    let plants = &plant::PLANTS;
    let plant = &plants[(seed % plants.len() as u64) as usize];
    let mut draft: Draft = packs::good(&mut random);
    let shows = (plant.plant)(&mut random, &mut draft);
    (draft.listing(), plant.code, shows)
}

/// A set row and a matrix row, each axis at the edge of fitting, and what the
/// maker knows of them: whether 451 must show, and whether 452 must.
pub fn one_span(seed: u64) -> (Vec<u8>, [bool; 2]) {
    let mut random = Random::new(seed);
    let edges = [0; 2].map(|_| spans::span_edge(&mut random));
    let mut draft = Draft::default();
    dense::add_span(&mut draft, "s", edges.map(|edge| edge.axis));
    (draft.listing(), edges.map(|edge| edge.shows))
}

/// A listing with characters at the edge of being ones, and what the maker knows
/// of it: the table and the row for which 13 must refuse it, if it must.
pub fn one_of_characters(seed: u64) -> (Vec<u8>, Option<(u32, u32)>) {
    let utf8::Known { draft, place } = utf8::any_characters::<Draft>(seed);
    (draft.listing(), place)
}

/// The same for a metadata listing.
pub fn metadata_of_characters(seed: u64) -> (Vec<u8>, Option<(u32, u32)>) {
    let utf8::Known { draft, place } = utf8::any_characters::<MetadataDraft>(seed);
    (draft.listing(), place)
}

/// A good pack.
pub fn good_pack(seed: u64) -> Vec<u8> {
    packs::good(&mut Random::new(seed)).listing()
}
