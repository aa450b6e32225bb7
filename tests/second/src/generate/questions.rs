//! What to ask about a listing beside its report: verdicts and lookups.

use super::Random;
use crate::calls::Question;
use crate::listing::{read, Listing};
use crate::rules::CODES;

/// Codes for verdicts, listed ones and others, and lookups.
pub struct Questions {
    pub codes: Vec<u32>,
    pub lookups: Vec<Question>,
}

/// Questions about a listing, made from a seed.
pub fn questions(seed: u64, octets: &[u8]) -> Questions {
    let mut random = Random::new(!seed);
    let mut codes: Vec<u32> = CODES.iter().map(|code| code.number).collect();
    let listed = random.pick(&codes);
    let others = [0, 100, 114, 901, 945, 1_025, u32::MAX, listed << 8];
    codes.extend([listed + 1, random.pick(&others)]);
    codes.retain({
        // "listed + 1" may be listed itself: ask each code once.
        let mut asked = Vec::new();
        move |code| {
            let is_new = !asked.contains(code);
            asked.push(*code);
            is_new
        }
    });
    let listing = read(octets).ok();
    let lookups = (0..6).map(|_| lookup(&mut random, listing.as_ref())).collect();
    Questions { codes, lookups }
}

/// Mostly an address that some tile has, sometimes one beside it.
fn lookup(random: &mut Random, listing: Option<&Listing>) -> Question {
    let contents = listing.map_or(0, |l| l.count(2));
    let tiles = listing.map_or(0, |l| l.count(5));
    let contents_row = match random.below(8) {
        0 => random.pick(&[contents as u32, u32::MAX, 256]),
        _ => random.below(contents.max(1)) as u32,
    };
    let at = random.below(tiles.max(1));
    let tile = listing.and_then(|l| l.tiles().nth(at));
    let (zoom, column, row) = tile.map_or((0, 0, 0), |t| (t.zoom, t.column, t.row));
    let mut beside = |value: i64| match random.below(12) {
        0 => value.wrapping_add(1),
        1 => value.wrapping_add(1 << 32),
        _ => value,
    };
    Question { contents_row, zoom: beside(zoom), column: beside(column), row: beside(row) }
}
