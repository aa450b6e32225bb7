//! Codes of the tiles: 341, 441, 541, 551, 561, 571.

use super::hashing::{settle, stir};
use super::judge::Judge;
use super::names::NameId;
use super::{over_rows, when, Findings};
use crate::listing::layout::{i64_at, TILES};
use crate::listing::{Listing, NONE};

const ZOOM: usize = 8;
const COLUMN: usize = 16;
const ROW: usize = 24;

/// A number of a tile row that is known to be there.
#[inline]
fn number(listing: &Listing, row: usize, field: usize) -> i64 {
    i64_at(listing.table(TILES), row * 32 + field)
}

/// 341: its name is no tiles name.
pub fn rule_341<'j>(judge: &'j Judge<'_>) -> Findings<'j> {
    let names = judge.tile_names();
    over_rows(341, names.len(), |row| when(!judge.is_tiles_name(names[row])))
}

/// 441: no matrix row has its name and zoom.
pub fn rule_441<'j>(judge: &'j Judge<'_>) -> Findings<'j> {
    let matrices = judge.tile_matrices();
    over_rows(441, matrices.len(), |row| when(matrices[row] == NONE))
}

/// 541: an earlier row has its name, zoom, column and row.
pub fn rule_541<'j>(judge: &'j Judge<'_>) -> Findings<'j> {
    let mut addresses = Addresses::new(judge.listing, judge.tile_names());
    over_rows(541, judge.tile_count(), move |row| {
        let first = addresses.first_row_like(row);
        (first != row).then_some(first as u32)
    })
}

/// 551: zoom outside the zooms of its name's matrix rows, if there are any.
pub fn rule_551<'j>(judge: &'j Judge<'_>) -> Findings<'j> {
    let (names, matrices) = (judge.tile_names(), judge.tile_matrices());
    over_rows(551, names.len(), |row| {
        // A zoom that has a matrix row is inside.
        if matrices[row] != NONE {
            return None;
        }
        let (low, high) = judge.facts_of(names[row])?.zooms?;
        when(!(low..=high).contains(&number(&judge.listing, row, ZOOM)))
    })
}

/// 561: column outside the first matrix row of its name and zoom.
pub fn rule_561<'j>(judge: &'j Judge<'_>) -> Findings<'j> {
    outside_matrix(judge, 561, COLUMN, |matrix| matrix.matrix_width)
}

/// 571: row outside likewise.
pub fn rule_571<'j>(judge: &'j Judge<'_>) -> Findings<'j> {
    outside_matrix(judge, 571, ROW, |matrix| matrix.matrix_height)
}

fn outside_matrix<'j>(
    judge: &'j Judge<'_>,
    code: u32,
    field: usize,
    side: fn(&crate::listing::Matrix) -> i64,
) -> Findings<'j> {
    let matrices = judge.tile_matrices();
    let sides: Vec<i64> = judge.matrices.iter().map(side).collect();
    over_rows(code, matrices.len(), move |row| {
        let side = sides.get(matrices[row] as usize)?;
        let at = number(&judge.listing, row, field);
        when(at < 0 || at >= *side)
    })
}

/// The addresses met so far: an open table of row numbers, each with a part of
/// its hash, so that few rows are compared in vain.
struct Addresses<'j, 'a> {
    listing: Listing<'a>,
    names: &'j [NameId],
    slots: Vec<(u32, u32)>,
}

impl<'j, 'a> Addresses<'j, 'a> {
    fn new(listing: Listing<'a>, names: &'j [NameId]) -> Addresses<'j, 'a> {
        // At most half full, so that a free slot is always near.
        let size = (2 * names.len()).next_power_of_two();
        Addresses { listing, names, slots: vec![(0, NONE); size] }
    }

    /// The first row met with this row's address; the row itself, if it is new.
    #[inline]
    fn first_row_like(&mut self, row: usize) -> usize {
        let hash = self.hash(row);
        let part = (hash >> 32) as u32;
        let mut at = hash as usize;
        loop {
            at &= self.slots.len() - 1;
            let (met_part, met) = self.slots[at];
            if met == NONE {
                self.slots[at] = (part, row as u32);
                return row;
            }
            if met_part == part && self.is_same(met as usize, row) {
                return met as usize;
            }
            at += 1;
        }
    }

    // bench/run times a report: that this, the names' numbers and the tables are
    // inlined must not hang on code that has nothing to do with them.
    #[inline]
    fn hash(&self, row: usize) -> u64 {
        let fields = [ZOOM, COLUMN, ROW].map(|field| number(&self.listing, row, field) as u64);
        settle(fields.into_iter().fold(u64::from(self.names[row]), stir))
    }

    fn is_same(&self, one: usize, other: usize) -> bool {
        let same = |field| number(&self.listing, one, field) == number(&self.listing, other, field);
        self.names[one] == self.names[other] && same(ZOOM) && same(COLUMN) && same(ROW)
    }
}
