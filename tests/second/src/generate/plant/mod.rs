//! Faults planted into good packs, for each code on both sides of its line.
//!
//! A planter changes a pack and answers whether its code must then show, if
//! the pack was good before. It knows that from what it did.

mod extensions;
mod matrices;
mod pyramids;
mod rows;
mod tiles;

pub(super) use extensions::{NAMES as EXTENSION_NAMES, SCOPES};

use super::{packs, Random};
use crate::make::{Draft, SetRow, Span};

pub struct Plant {
    pub name: &'static str,
    pub code: u32,
    pub plant: fn(&mut Random, &mut Draft) -> bool,
}

const fn plant(name: &'static str, code: u32, plant: fn(&mut Random, &mut Draft) -> bool) -> Plant {
    Plant { name, code, plant }
}

pub static PLANTS: [Plant; 36] = [
    plant("plant 101", 101, rows::plant_101),
    plant("plant 111", 111, rows::plant_111),
    plant("plant 112", 112, rows::plant_112),
    plant("plant 113", 113, rows::plant_113),
    plant("plant 131", 131, rows::plant_131),
    plant("plant 151", 151, rows::plant_151),
    plant("plant 161", 161, rows::plant_161),
    plant("plant 162", 162, rows::plant_162),
    plant("plant 171", 171, rows::plant_171),
    plant("plant 341", 341, tiles::plant_341),
    plant("plant 351", 351, pyramids::plant_351),
    plant("plant 391", 391, rows::plant_391),
    plant("plant 392", 392, rows::plant_392),
    plant("plant 401", 401, rows::plant_401),
    plant("plant 411", 411, rows::plant_411),
    plant("plant 431", 431, matrices::plant_431),
    plant("plant 432", 432, matrices::plant_432),
    plant("plant 441", 441, tiles::plant_441),
    plant("plant 451", 451, pyramids::plant_451),
    plant("plant 452", 452, pyramids::plant_452),
    plant("plant 461", 461, matrices::plant_461),
    plant("plant 471", 471, matrices::plant_471),
    plant("plant 481", 481, matrices::plant_481),
    plant("plant 491", 491, matrices::plant_491),
    plant("plant 501", 501, matrices::plant_501),
    plant("plant 511", 511, matrices::plant_511),
    plant("plant 521", 521, matrices::plant_521),
    plant("plant 531", 531, pyramids::plant_531),
    plant("plant 541", 541, tiles::plant_541),
    plant("plant 551", 551, tiles::plant_551),
    plant("plant 561", 561, tiles::plant_561),
    plant("plant 571", 571, tiles::plant_571),
    plant("plant 601", 601, extensions::plant_601),
    plant("plant 621", 621, extensions::plant_621),
    plant("plant 622", 622, extensions::plant_622),
    plant("plant 641", 641, extensions::plant_641),
];

/// A good pack with this fault, and sometimes others beside it.
pub fn planted(plant: &Plant, random: &mut Random) -> Vec<u8> {
    let mut draft = packs::good(random);
    (plant.plant)(random, &mut draft);
    if random.once_in(3) {
        plant_some(random, &mut draft, 3);
    }
    draft.listing()
}

/// A good pack with many faults.
pub fn many(random: &mut Random) -> Vec<u8> {
    let mut draft = packs::good(random);
    plant_some(random, &mut draft, 20);
    draft.listing()
}

fn plant_some(random: &mut Random, draft: &mut Draft, most: usize) {
    for _ in 0..1 + random.below(most) {
        let plant = &PLANTS[random.below(PLANTS.len())];
        (plant.plant)(random, draft);
    }
}

/// Any row of a table that has some.
fn any_row(random: &mut Random, count: usize) -> Option<usize> {
    (count > 0).then(|| random.below(count))
}

/// A name that is no tiles name in a good pack.
fn ghost(random: &mut Random, draft: &mut Draft) -> Span {
    let names = ["ghost", "Valley", "paths", "HILL", "valle", "moor"];
    draft.text(random.pick(&names))
}

/// The octets of a text that a draft holds.
fn octets(draft: &Draft, text: Span) -> &[u8] {
    let start = text.start as usize;
    let end = start.saturating_add(text.length as usize);
    draft.names.get(start..end).unwrap_or(&[])
}

fn is_same(draft: &Draft, one: Span, other: Span) -> bool {
    octets(draft, one) == octets(draft, other)
}

/// The same octets at a new place.
fn copied(draft: &mut Draft, text: Span) -> Span {
    let octets = octets(draft, text).to_vec();
    draft.text_apart(octets)
}

/// A contents row with data_type "tiles".
fn tiles_contents(random: &mut Random, draft: &Draft) -> Option<usize> {
    let is_tiles = |&row: &usize| octets(draft, draft.contents[row].data_type) == b"tiles";
    let rows: Vec<usize> = (0..draft.contents.len()).filter(is_tiles).collect();
    any_row(random, rows.len()).map(|at| rows[at])
}

fn remove_sets_of(draft: &mut Draft, name: Span) {
    let name = octets(draft, name).to_vec();
    let sets = std::mem::take(&mut draft.sets);
    let is_other = |row: &SetRow| octets(draft, row.table_name) != name;
    draft.sets = sets.into_iter().filter(is_other).collect();
}
