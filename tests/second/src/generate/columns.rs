//! Columns to lend with a listing: as a fill leaves them, altered to other good
//! tiles, and changed so that each reason of the calls on columns shows, alone
//! and beside the others.

use super::parts::{any_row, cut};
use super::{edges, utf8, Random};
use crate::calls::{name_entry, put_together, Columns, Parts, COLUMN_COUNT, ENTRY};
use crate::listing::layout::*;
use crate::listing::read;
use crate::make::{set_i64, set_u32, Span, NULL};

/// A listing, the columns lent with it, and the kind that they are of.
pub struct ColumnsCase {
    pub kind: &'static str,
    pub listing: Vec<u8>,
    pub columns: Columns,
}

type Change = fn(&mut Random, &mut ColumnsCase);

const ROWS_CLEARED: &str = "as filled, the rows cleared";

/// The kinds: what is done to the columns of a listing. What changes their
/// lengths comes last. That their number has no factor in common with that of
/// the kinds of listings lets every kind of columns meet every kind of listing.
static KINDS: [(&str, &[Change]); 35] = [
    ("as filled", &[]),
    ("no columns", &[without_octets]),
    ("as filled, longer", &[longer]),
    ("as filled, octets past the entries", &[ragged]),
    (ROWS_CLEARED, &[rows_cleared]),
    ("other numbers", &[other_numbers]),
    ("far numbers", &[far_numbers]),
    ("beside the grid", &[beside_the_grid]),
    ("other names", &[other_names]),
    ("names elsewhere", &[names_elsewhere]),
    ("one name for all", &[one_name]),
    ("empty names", &[empty_names]),
    ("parts of names", &[parts_of_names]),
    ("equal entries", &[equal_entries]),
    ("shuffled", &[shuffled]),
    ("columns and rows exchanged", &[exchanged]),
    ("zeros", &[zeros]),
    ("any octets", &[any_octets]),
    ("names at the edge", &[edge_names]),
    ("negative names", &[negative_names]),
    ("names outside", &[names_outside]),
    ("ill names", &[ill_names]),
    ("7 and 13", &[ill_names, names_outside]),
    ("13 and 7", &[negative_names, ill_names]),
    ("short by an entry", &[shorter_by_an_entry]),
    ("short by an octet", &[shorter_by_an_octet]),
    ("several short", &[shorter_by_an_entry, shorter_by_an_octet, shorter_by_an_entry]),
    ("14 and 7", &[negative_names, shorter_by_an_entry]),
    ("14 and 13", &[ill_names, shorter_by_an_octet]),
    ("altered, longer", &[other_names, beside_the_grid, equal_entries, longer, ragged]),
    ("altered, the rows cleared", &[rows_cleared, other_names, far_numbers, longer]),
    ("ill names, the rows cleared", &[rows_cleared, ill_names, ragged]),
    ("a row's name outside", &[row_outside]),
    ("an ill name of a row", &[ill_row]),
    ("a row's name outside, and 14", &[row_outside, shorter_by_an_entry]),
];

/// The names of the kinds.
pub fn columns_kind_names() -> impl Iterator<Item = &'static str> {
    KINDS.iter().map(|(name, _)| *name)
}

/// A seed whose columns are as a fill leaves them, and one with no octets in any.
pub const AS_FILLED: u64 = 0;
const NO_COLUMNS: u64 = 1;

/// The seed of the columns that are lent with a listing at a limit, if that has as
/// many tiles as there may be, or more: none at all where it is refused.
pub fn columns_at_a_limit(listing: &[u8]) -> Option<u64> {
    let is_full = u32_at(listing, count_at(TILES)) >= SHAPES[TILES - 1].most;
    let seed = if read(listing).is_ok() { AS_FILLED } else { NO_COLUMNS };
    is_full.then_some(seed)
}

/// The columns of a seed for a listing, and the listing: with some kinds its tile
/// rows are cleared, or its names get some octets more. Seeds that follow one
/// another run through the kinds.
pub fn generate_columns(seed: u64, listing: Vec<u8>) -> ColumnsCase {
    // Another stream of numbers than those of the listings and parts.
    let mut random = Random::new(seed ^ (1 << 60));
    let (kind, changes) = KINDS[(seed % KINDS.len() as u64) as usize];
    let mut case = ColumnsCase::of(kind, listing);
    changes.iter().for_each(|change| change(&mut random, &mut case));
    case
}

/// The columns of a listing with its tile rows cleared, so that the tiles are in
/// the columns alone.
pub fn moved_to_columns(listing: Vec<u8>) -> ColumnsCase {
    let mut case = ColumnsCase::of(ROWS_CLEARED, listing);
    case.clear_rows();
    case
}

/// The columns of the tile rows of a listing, as far as these go; of an accepted
/// one that is what a fill writes. Times 2^32 is four octets higher up.
pub fn columns_of(listing: &[u8]) -> Columns {
    let mut columns = Columns::default();
    let [names, zooms, tile_columns, tile_rows] = &mut columns;
    for row in cut(listing)[TILES - 1].chunks_exact(SHAPES[TILES - 1].row_size) {
        let (start, length) = (&row[..4], &row[4..8]);
        names.extend([length, start].concat());
        zooms.extend(&row[8..16]);
        tile_columns.extend(&row[16..24]);
        tile_rows.extend(&row[24..]);
    }
    columns
}

impl ColumnsCase {
    fn of(kind: &'static str, listing: Vec<u8>) -> ColumnsCase {
        ColumnsCase { kind, columns: columns_of(&listing), listing }
    }

    /// Any entry, often the first or the last, if there are tiles.
    fn any_entry(&self, random: &mut Random) -> Option<usize> {
        any_row(random, &self.columns[0], ENTRY)
    }

    fn tiles(&self) -> usize {
        self.columns[0].len() / ENTRY
    }

    fn entry(&self, column: usize, entry: usize) -> i64 {
        i64_at(&self.columns[column], entry * ENTRY)
    }

    fn set(&mut self, column: usize, entry: usize, value: i64) {
        set_i64(&mut self.columns[column], entry * ENTRY, value);
    }

    fn entries(&self, entry: usize) -> [i64; COLUMN_COUNT] {
        std::array::from_fn(|column| self.entry(column, entry))
    }

    fn set_entries(&mut self, entry: usize, values: [i64; COLUMN_COUNT]) {
        (0..COLUMN_COUNT).for_each(|column| self.set(column, entry, values[column]));
    }

    /// Sets the names of some entries, each to the next that is made.
    fn set_names(&mut self, random: &mut Random, mut name: impl FnMut(&mut Random) -> i64) {
        for _ in 0..1 + random.below(3) {
            let value = name(random);
            if let Some(entry) = self.any_entry(random) {
                self.set(0, entry, value);
            }
        }
    }

    /// Sets numbers of some entries, in the columns behind the names.
    fn set_numbers(
        &mut self,
        random: &mut Random,
        mut number: impl FnMut(&mut Random, i64) -> i64,
    ) {
        for _ in 0..1 + random.below(6) {
            let column = 1 + random.below(COLUMN_COUNT - 1);
            if let Some(entry) = self.any_entry(random) {
                let value = number(random, self.entry(column, entry));
                self.set(column, entry, value);
            }
        }
    }

    /// Changes the tables of the listing, where its header tells them and there
    /// is something to change.
    fn change_parts<T>(&mut self, change: impl FnOnce(&mut Parts) -> Option<T>) -> Option<T> {
        let mut parts = cut(&self.listing);
        if put_together(&parts) != self.listing {
            return None;
        }
        let changed = change(&mut parts)?;
        self.listing = put_together(&parts);
        Some(changed)
    }

    fn clear_rows(&mut self) {
        self.change_parts(|parts| {
            parts[TILES - 1].fill(0);
            Some(())
        });
    }

    /// Puts a name into any tile row of the listing, not into the columns.
    fn set_row(&mut self, random: &mut Random, name: fn(&mut Random, &mut Vec<u8>) -> Span) {
        self.change_parts(|parts| {
            let [.., tiles, _, names] = parts;
            let row_size = SHAPES[TILES - 1].row_size;
            let row = any_row(random, tiles, row_size)?;
            let Span { start, length } = name(random, names);
            set_u32(tiles, row * row_size, start);
            set_u32(tiles, row * row_size + 4, length);
            Some(())
        });
    }

    /// How many name octets the listing has.
    fn names(&self) -> usize {
        cut(&self.listing)[NAMES - 1].len()
    }

    /// The names of contents, sets, matrices and tiles.
    fn names_of_rows(&self) -> Vec<i64> {
        let parts = cut(&self.listing);
        let rows_of = |table: usize| parts[table - 1].chunks_exact(SHAPES[table - 1].row_size);
        let rows = [CONTENTS, SETS, MATRICES, TILES].into_iter().flat_map(rows_of);
        rows.map(|row| name_entry(u32_at(row, 0), u32_at(row, 4))).collect()
    }
}

fn entry_of(text: Span) -> i64 {
    name_entry(text.start, text.length)
}

fn rows_cleared(_: &mut Random, case: &mut ColumnsCase) {
    case.clear_rows();
}

/// Numbers in which a bit or two differ.
fn other_numbers(random: &mut Random, case: &mut ColumnsCase) {
    case.set_numbers(random, |random, value| value ^ random.pick(&[1, 2, 3, 1 << 32]));
}

fn far_numbers(random: &mut Random, case: &mut ColumnsCase) {
    let far = [i64::MIN, i64::MIN + 1, -1, -2, 1 << 32, -(1 << 32), i64::MAX];
    case.set_numbers(random, |random, _| random.pick(&far));
}

fn beside_the_grid(random: &mut Random, case: &mut ColumnsCase) {
    let by = [-1, 1, 2, 4, 1 << 16];
    case.set_numbers(random, |random, value| value.wrapping_add(random.pick(&by)));
}

fn other_names(random: &mut Random, case: &mut ColumnsCase) {
    let names = case.names_of_rows();
    if !names.is_empty() {
        case.set_names(random, |random| random.pick(&names));
    }
}

/// Names that are written once more behind the others: equal, and not the same.
fn names_elsewhere(random: &mut Random, case: &mut ColumnsCase) {
    for _ in 0..1 + random.below(3) {
        let Some(entry) = case.any_entry(random) else {
            return;
        };
        let name = case.entry(0, entry);
        if let Some(copy) = case.change_parts(|parts| copied(&mut parts[NAMES - 1], name)) {
            case.set(0, entry, copy);
        }
    }
}

/// The entry of a copy of a name behind the others, if it is there and fits.
fn copied(names: &mut Vec<u8>, name: i64) -> Option<i64> {
    let (start, length) = ((name >> 32) as usize, name as u32 as usize);
    let octets = names.get(start..start.checked_add(length)?)?.to_vec();
    let end = names.len();
    names.extend(octets);
    (names.len() <= SHAPES[NAMES - 1].most as usize).then(|| name_entry(end as u32, length as u32))
}

/// All tiles of one name: 351 is judged for it, and for no other.
fn one_name(random: &mut Random, case: &mut ColumnsCase) {
    let names = case.names_of_rows();
    if !names.is_empty() {
        let name = random.pick(&names);
        (0..case.tiles()).for_each(|entry| case.set(0, entry, name));
    }
}

/// Empty texts: at the start, anywhere, and at the end of the names.
fn empty_names(random: &mut Random, case: &mut ColumnsCase) {
    let end = case.names();
    case.set_names(random, |random| {
        let within = random.below(end + 1);
        name_entry(random.pick(&[0, within, end]) as u32, 0)
    });
}

/// Names cut at either end: another name, or one that is ill-formed.
fn parts_of_names(random: &mut Random, case: &mut ColumnsCase) {
    let names = case.names_of_rows();
    let longer: Vec<i64> = names.into_iter().filter(|&name| name as u32 > 1).collect();
    if !longer.is_empty() {
        case.set_names(random, |random| random.pick(&longer) + random.pick(&[-1, (1 << 32) - 1]));
    }
}

/// Some entries copied to others, so that addresses are doubled.
fn equal_entries(random: &mut Random, case: &mut ColumnsCase) {
    for _ in 0..1 + random.below(3) {
        let places = [0; 2].map(|_| case.any_entry(random));
        if let [Some(from), Some(to)] = places {
            case.set_entries(to, case.entries(from));
        }
    }
}

fn shuffled(random: &mut Random, case: &mut ColumnsCase) {
    let mut order: Vec<_> = (0..case.tiles()).map(|entry| case.entries(entry)).collect();
    random.shuffle(&mut order);
    for (entry, values) in order.into_iter().enumerate() {
        case.set_entries(entry, values);
    }
}

fn exchanged(_: &mut Random, case: &mut ColumnsCase) {
    case.columns.swap(2, 3);
}

fn zeros(_: &mut Random, case: &mut ColumnsCase) {
    case.columns.iter_mut().for_each(|column| column.fill(0));
}

fn any_octets(random: &mut Random, case: &mut ColumnsCase) {
    for octet in case.columns.iter_mut().flatten() {
        *octet = random.word() as u8;
    }
}

/// Texts at the edge of the names: in, out, and the pattern of NULL.
fn edge_names(random: &mut Random, case: &mut ColumnsCase) {
    let end = case.names();
    case.set_names(random, |random| entry_of(edges::edge_text(random, end)));
}

fn negative_names(random: &mut Random, case: &mut ColumnsCase) {
    let names = case.names_of_rows();
    let name = names.first().copied().unwrap_or(0);
    // The last is a good name but for its sign.
    let negatives = [-1, -4_294_967_296, i64::MIN, -4_294_967_295, i64::MIN + name, i64::MIN | 1];
    case.set_names(random, |random| random.pick(&negatives));
}

fn names_outside(random: &mut Random, case: &mut ColumnsCase) {
    let end = case.names() as u32;
    let outside = [
        name_entry(end + 1, 0),
        name_entry(end, 1),
        name_entry(0, end + 1),
        name_entry(0, u32::MAX),
        name_entry(1, u32::MAX),
        i64::MAX,
    ];
    case.set_names(random, |random| random.pick(&outside));
}

/// Names that are not well-formed, of octets that are added to those of the
/// listing; its own rows refer to none of them.
fn ill_names(random: &mut Random, case: &mut ColumnsCase) {
    let ill = case.change_parts(|parts| {
        let names = &mut parts[NAMES - 1];
        let ill = [0; 3].map(|_| entry_of(utf8::ill_at_end(random, names)));
        (names.len() <= SHAPES[NAMES - 1].most as usize).then_some(ill)
    });
    if let Some(ill) = ill {
        case.set_names(random, |random| random.pick(&ill));
    }
}

/// A tile row that refuses the listing, whatever the columns hold.
fn row_outside(random: &mut Random, case: &mut ColumnsCase) {
    case.set_row(random, |random, names| {
        let end = names.len() as u32;
        random.pick(&[NULL, Span { start: end, length: 1 }, Span { start: end + 1, length: 0 }])
    });
}

fn ill_row(random: &mut Random, case: &mut ColumnsCase) {
    case.set_row(random, utf8::ill_at_end);
}

/// More entries than tiles, in each column another number of them.
fn longer(random: &mut Random, case: &mut ColumnsCase) {
    for column in &mut case.columns {
        for _ in 0..random.below(6) {
            let any = random.word() as i64;
            column.extend(random.pick(&[-1, -1, i64::MIN, i64::MAX, any]).to_le_bytes());
        }
    }
}

/// Some octets past the last whole entry.
fn ragged(random: &mut Random, case: &mut ColumnsCase) {
    for column in &mut case.columns {
        let more = random.below(ENTRY);
        column.extend((0..more).map(|_| random.word() as u8));
    }
}

fn any_column<'c>(random: &mut Random, case: &'c mut ColumnsCase) -> &'c mut Vec<u8> {
    &mut case.columns[random.below(COLUMN_COUNT)]
}

fn shorter_by_an_entry(random: &mut Random, case: &mut ColumnsCase) {
    let column = any_column(random, case);
    column.truncate(column.len().saturating_sub(ENTRY));
}

fn shorter_by_an_octet(random: &mut Random, case: &mut ColumnsCase) {
    any_column(random, case).pop();
}

fn without_octets(_: &mut Random, case: &mut ColumnsCase) {
    case.columns = Columns::default();
}
