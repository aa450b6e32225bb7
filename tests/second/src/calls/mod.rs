//! The calls in the papers' terms: report, verdict and lookup; write; fill, with
//! report and lookup by columns; and the report on a metadata listing.

mod columns;
mod metadata;
mod octets;
mod write;

pub use columns::{fill, lookup_columns, report_columns, rewritten};
pub use columns::{name_entry, Columns, COLUMN_COUNT, ENTRY};
pub use metadata::report_metadata;
pub use octets::{fill_call, lookup_columns_call, report_columns_call, report_metadata_call};
pub use octets::{lookup_call, report_call, verdict_call, write_call};
pub use octets::{Called, FillCalled, ReportCalled, WriteCalled};
pub use write::{check_lengths, put_together, size_of, write, Parts};

use crate::listing::{read, Refusal};
use crate::rules::{code_named, Finding, Judge};

/// All findings of a listing, in order, or why it is refused.
pub fn report(octets: &[u8]) -> Result<Vec<Finding>, Refusal> {
    Ok(Judge::new(read(octets)?).findings())
}

/// A verdict that is no refusal.
#[derive(Clone, Copy, Debug, PartialEq, Eq)]
pub enum Verdict {
    Pass,
    /// With the lowest row, or none.
    Fail(u32),
    NotTestable,
}

/// The verdict on one code. An unknown code is refused before anything else.
pub fn verdict(octets: &[u8], code: u32) -> Result<Verdict, Refusal> {
    let code = code_named(code).ok_or(Refusal::at_large(9))?;
    let listing = read(octets)?;
    if let Some(finding) = Judge::new(listing).findings_of(code).next() {
        return Ok(Verdict::Fail(finding.row));
    }
    if listing.count(code.table) == 0 && !code.is_testable_without_rows() {
        return Ok(Verdict::NotTestable);
    }
    Ok(Verdict::Pass)
}

/// What a lookup asks for.
#[derive(Clone, Copy, Debug, PartialEq, Eq)]
pub struct Question {
    pub contents_row: u32,
    pub zoom: i64,
    pub column: i64,
    pub row: i64,
}

/// The lowest tile row with the contents row's name and the address, or none.
pub fn lookup(octets: &[u8], question: Question) -> Result<Option<u32>, Refusal> {
    let listing = read(octets)?;
    let contents = listing.contents().nth(question.contents_row as usize);
    let Some(contents) = contents.filter(|row| row.data_type == b"tiles") else {
        return Err(Refusal::at_large(10));
    };
    let row = listing.tiles().position(|tile| {
        (tile.zoom, tile.column, tile.row) == (question.zoom, question.column, question.row)
            && tile.table_name == contents.table_name
    });
    Ok(row.map(|row| row as u32))
}
