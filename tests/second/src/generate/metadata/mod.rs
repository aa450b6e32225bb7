//! Metadata listings to lend with a tile listing: good ones for its contents, ones
//! with planted faults, ones in which everything collides, and ones that are turned
//! away, for each reason, alone and beside the others.

mod edges;
mod full;
mod limits;
mod plant;
mod rows;

pub use full::{full_metadata, FULL_METADATA_KINDS};
pub use limits::{metadata_at_a_limit, METADATA_LIMITS};
pub use rows::{REFERENCE_SCOPES, SCOPES};

use super::damage::{self, Damage};
use super::{cut, packs, utf8, Random};
use crate::listing::layout::{u32_at, CONTENTS, METADATA_LISTING, NAMES, SHAPES};
use crate::make::MetadataDraft;

/// A tile listing, the metadata listing lent with it, and the kind that this is of.
pub struct MetadataCase {
    pub kind: &'static str,
    pub listing: Vec<u8>,
    pub metadata: Vec<u8>,
}

/// The table names in the contents of the tile listing.
type Tables<'a> = &'a [Vec<u8>];

type Make = fn(&mut Random, Tables) -> Vec<u8>;

/// The kinds. That their number has no factor in common with that of the kinds of
/// tile listings lets every kind meet every other.
static KINDS: [(&str, Make); 47] = [
    ("good", |r, t| rows::good(r, t).listing()),
    ("small domain", |r, t| rows::small(r, t, 4, 8).listing()),
    ("small domain, files", |r, t| rows::small(r, t, 40, 2).listing()),
    ("small domain, references", |r, t| rows::small(r, t, 5, 60).listing()),
    ("scopes at the edge", |r, t| rows::scopes(r, t).listing()),
    ("table names at the edge", |r, t| rows::table_names(r, t).listing()),
    ("moments at the edge", |r, t| rows::moments(r, t).listing()),
    ("ids at the edge", |r, t| rows::ids(r, t).listing()),
    ("overlapping texts", |r, t| rows::overlapping(r, t).listing()),
    ("rows alike", |r, t| rows::alike(r, t).listing()),
    ("many rows", |r, t| rows::small(r, t, 200, 700).listing()),
    ("files at their most", |r, t| rows::with_files(r, t, 256).listing()),
    ("files above their most", |r, t| rows::with_files(r, t, 257).listing()),
    ("files alone", |r, t| edited(r, t, |_, d| d.references.clear())),
    ("references alone", |r, t| edited(r, t, |_, d| d.metadata.clear())),
    ("the header alone", |_, _| MetadataDraft::default().listing()),
    ("no octets", |_, _| Vec::new()),
    ("a tile listing", |r, _| packs::good(r).listing()),
    ("945", |r, t| plant::planted(r, t, 945)),
    ("965", |r, t| plant::planted(r, t, 965)),
    ("975", |r, t| plant::planted(r, t, 975)),
    ("985", |r, t| plant::planted(r, t, 985)),
    ("995", |r, t| plant::planted(r, t, 995)),
    ("1005", |r, t| plant::planted(r, t, 1005)),
    ("1015", |r, t| plant::planted(r, t, 1015)),
    ("1025", |r, t| plant::planted(r, t, 1025)),
    ("many faults", plant::many),
    ("short", |r, t| damaged(r, t, damage::short)),
    ("truncated", |r, t| damaged(r, t, damage::truncated)),
    ("extended", |r, t| damaged(r, t, damage::extended)),
    ("bit flips", |r, t| damaged(r, t, damage::bit_flips)),
    ("octet flips", |r, t| damaged(r, t, damage::octet_flips)),
    ("random octets", |r, _| damage::random_octets(r, &METADATA_LISTING)),
    ("version and length", |r, t| damaged(r, t, damage::version_and_length)),
    ("counts", |r, t| damaged(r, t, damage::counts)),
    ("offsets", |r, t| damaged(r, t, damage::offsets)),
    ("counts and offsets", |r, t| damaged(r, t, damage::counts_and_offsets)),
    ("text edges", |r, t| edited(r, t, edges::set_edge_texts)),
    ("nulls", |r, t| edited(r, t, edges::set_nulls)),
    ("nearly NULL", |r, t| edited(r, t, edges::set_nearly_null)),
    ("flags", |r, t| edited(r, t, edges::set_flags)),
    ("7 and 8", |r, t| edited(r, t, edges::set_7_and_8)),
    ("ill texts", |r, t| edited(r, t, edges::set_ill_texts)),
    ("7, 8 and 13", |r, t| edited(r, t, edges::set_7_8_and_13)),
    ("characters", |r, _| utf8::characters::<MetadataDraft>(r).draft.listing()),
    ("ill characters", |r, _| utf8::ill_characters::<MetadataDraft>(r).draft.listing()),
    ("around multiples", |r, _| utf8::around_multiples::<MetadataDraft>(r).draft.listing()),
];

/// The names of the kinds.
pub fn metadata_kind_names() -> impl Iterator<Item = &'static str> {
    KINDS.iter().map(|(name, _)| *name)
}

/// The metadata listing of a seed for a tile listing. Seeds that follow one another
/// run through the kinds.
pub fn generate_metadata(seed: u64, listing: Vec<u8>) -> MetadataCase {
    let mut random = random_of(seed);
    let (kind, make) = KINDS[(seed % KINDS.len() as u64) as usize];
    let metadata = make(&mut random, &tables_of(&listing));
    MetadataCase { kind, listing, metadata }
}

/// Another stream of numbers than those of the listings, parts and columns.
fn random_of(seed: u64) -> Random {
    Random::new(seed ^ (1 << 59))
}

/// A good metadata listing for a tile listing.
pub fn good_metadata(seed: u64, listing: &[u8]) -> Vec<u8> {
    rows::good(&mut random_of(seed), &tables_of(listing)).listing()
}

/// The same with one fault at most, and what the maker knows of it: the code, and
/// whether it must show.
pub fn one_metadata_fault(seed: u64, listing: &[u8]) -> (Vec<u8>, u32, bool) {
    plant::one_fault(&mut random_of(seed), seed, &tables_of(listing))
}

/// The table names in the contents of a tile listing, as far as it goes.
fn tables_of(listing: &[u8]) -> Vec<Vec<u8>> {
    let parts = cut(listing);
    let rows = parts[CONTENTS - 1].chunks_exact(SHAPES[CONTENTS - 1].row_size);
    let names = rows.filter_map(|row| {
        let start = u32_at(row, 0) as usize;
        let end = start.checked_add(u32_at(row, 4) as usize)?;
        // A name that is no text cannot be a reference's: the listing is refused.
        let name = parts[NAMES - 1].get(start..end)?;
        std::str::from_utf8(name).ok().map(|_| name.to_vec())
    });
    names.collect()
}

/// A sound metadata listing, to be spoiled.
fn sound(random: &mut Random, tables: Tables) -> MetadataDraft {
    match random.once_in(2) {
        true => rows::good(random, tables),
        false => rows::small(random, tables, 4, 8),
    }
}

fn edited(
    random: &mut Random,
    tables: Tables,
    edit: impl FnOnce(&mut Random, &mut MetadataDraft),
) -> Vec<u8> {
    let mut draft = sound(random, tables);
    edit(random, &mut draft);
    draft.listing()
}

fn damaged(random: &mut Random, tables: Tables, damage: Damage) -> Vec<u8> {
    let draft = match random.once_in(4) {
        true => MetadataDraft::default(),
        false => sound(random, tables),
    };
    damage(random, &METADATA_LISTING, draft.listing())
}
