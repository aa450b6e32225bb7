//! The 36 codes and what breaks each of them: document 01, "What counts as a
//! finding", and request 2026-02; and the eight codes of a metadata listing.

mod codes;
mod contents;
mod dates;
mod doubles;
mod exact;
mod extensions;
mod hashing;
mod judge;
mod matrices;
mod metadata;
mod names;
mod references;
mod sets;
mod tiles;

pub use codes::{code_named, Code, CODES};
pub use doubles::Axis;
pub use judge::Judge;
pub use matrices::axes;
pub use metadata::{MetadataCode, MetadataJudge, METADATA_CODES};

use crate::listing::NONE;

/// One finding. Where the paper gives no row or no partner, that word is
/// [`NONE`].
#[derive(Clone, Copy, Debug, PartialEq, Eq)]
pub struct Finding {
    pub code: u32,
    pub row: u32,
    pub partner: u32,
}

/// How many words a finding has in the findings buffer.
pub const WORDS_OF_A_FINDING: usize = 3;

impl Finding {
    /// The finding's words, in the order in which they are written.
    pub fn words(&self) -> [u32; WORDS_OF_A_FINDING] {
        [self.code, self.row, self.partner]
    }

    /// A finding that belongs to no row.
    pub fn without_row(code: u32) -> Finding {
        Finding { code, row: NONE, partner: NONE }
    }
}

/// The findings of one code, rows ascending and "none" last, worked out as
/// they are asked for: a verdict needs the first alone.
pub type Findings<'j> = Box<dyn Iterator<Item = Finding> + 'j>;

/// What a rule says of a row: nothing, or a finding with this partner.
pub type Judgment = Option<u32>;

/// A finding without a partner, where the row is broken.
fn when(broken: bool) -> Judgment {
    broken.then_some(NONE)
}

/// The findings of a code over the rows of its table.
fn over_rows<'j>(
    code: u32,
    count: usize,
    mut judge_row: impl FnMut(usize) -> Judgment + 'j,
) -> Findings<'j> {
    Box::new((0..count).filter_map(move |row| {
        judge_row(row).map(|partner| Finding { code, row: row as u32, partner })
    }))
}
