//! The C calls: what each returns and leaves in the caller's buffers.
//!
//! Answers are little-endian u32 words.
//! * report: number, table, row, total, written;
//! * verdict: verdict (0 pass, 1 fail, 2 not testable, 3 refused), row, then
//!   number, table and row of the place;
//! * lookup: row, then number, table and row of the place;
//! * write: number, table, row, octets of the listing;
//! * fill: number, table, row; report and lookup by columns as those by rows;
//! * the report on a metadata listing as report.

use super::{fill, lookup, lookup_columns, report, report_columns, report_metadata};
use super::{verdict, write, Columns, Parts, Question, Verdict};
use crate::listing::{Refusal, NONE};
use crate::rules::{Finding, WORDS_OF_A_FINDING};

/// What a call returns, and its answer buffer afterwards.
#[derive(Clone, Debug, PartialEq, Eq)]
pub struct Called {
    pub returned: u32,
    pub answer: Vec<u8>,
}

/// The same for a report, with the findings buffer afterwards.
#[derive(Clone, Debug, PartialEq, Eq)]
pub struct ReportCalled {
    pub returned: u32,
    pub answer: Vec<u8>,
    pub findings: Vec<u8>,
}

/// The same for a write, with the buffer of the listing afterwards.
#[derive(Clone, Debug, PartialEq, Eq)]
pub struct WriteCalled {
    pub returned: u32,
    pub answer: Vec<u8>,
    pub listing: Vec<u8>,
}

/// The same for a fill, with the columns afterwards.
#[derive(Clone, Debug, PartialEq, Eq)]
pub struct FillCalled {
    pub returned: u32,
    pub answer: Vec<u8>,
    pub columns: Columns,
}

const ACCEPTED: Refusal = Refusal::at_large(0);

/// Octets of a word.
const WORD: usize = 4;

/// Puts words at the start of a buffer that has room for them; octets past
/// them keep their values.
fn put(buffer: &mut [u8], words: &[u32]) {
    for (place, word) in buffer.chunks_exact_mut(WORD).zip(words) {
        place.copy_from_slice(&word.to_le_bytes());
    }
}

/// An answer put into its buffer, or nothing where that is too short.
fn answered(answer: &[u8], words: &[u32]) -> Called {
    let mut answer = answer.to_vec();
    let has_room = answer.len() >= words.len() * WORD;
    if has_room {
        put(&mut answer, words);
    }
    Called { returned: u32::from(has_room), answer }
}

/// `desterlin_report`, given what both buffers hold before.
pub fn report_call(listing: &[u8], findings: &[u8], answer: &[u8]) -> ReportCalled {
    reported(report(listing), findings, answer)
}

/// `desterlin_report_columns`, given what both buffers hold before.
pub fn report_columns_call(
    listing: &[u8],
    columns: &Columns,
    findings: &[u8],
    answer: &[u8],
) -> ReportCalled {
    reported(report_columns(listing, columns), findings, answer)
}

/// `desterlin_report_metadata`, given what both buffers hold before.
pub fn report_metadata_call(
    listing: &[u8],
    metadata: &[u8],
    findings: &[u8],
    answer: &[u8],
) -> ReportCalled {
    reported(report_metadata(listing, metadata), findings, answer)
}

fn reported(
    outcome: Result<Vec<Finding>, Refusal>,
    findings: &[u8],
    answer: &[u8],
) -> ReportCalled {
    let (refusal, found) = match outcome {
        Ok(found) => (ACCEPTED, found),
        Err(refusal) => (refusal, Vec::new()),
    };
    let total = found.len();
    let written = total.min(findings.len() / WORD / WORDS_OF_A_FINDING);
    let Refusal { number, table, row } = refusal;
    let called = answered(answer, &[number, table, row, total as u32, written as u32]);
    let mut findings = findings.to_vec();
    if called.returned == 1 {
        let words: Vec<u32> = found[..written].iter().flat_map(|f| f.words()).collect();
        put(&mut findings, &words);
    }
    ReportCalled { returned: called.returned, answer: called.answer, findings }
}

/// `desterlin_verdict`, given what the answer buffer holds before.
pub fn verdict_call(listing: &[u8], code: u32, answer: &[u8]) -> Called {
    let (kind, row, place) = match verdict(listing, code) {
        Ok(Verdict::Pass) => (0, NONE, ACCEPTED),
        Ok(Verdict::Fail(row)) => (1, row, ACCEPTED),
        Ok(Verdict::NotTestable) => (2, NONE, ACCEPTED),
        Err(refusal) => (3, NONE, refusal),
    };
    answered(answer, &[kind, row, place.number, place.table, place.row])
}

/// `desterlin_lookup`, given what the answer buffer holds before.
pub fn lookup_call(listing: &[u8], question: Question, answer: &[u8]) -> Called {
    looked_up(lookup(listing, question), answer)
}

/// `desterlin_lookup_columns`, given what the answer buffer holds before.
pub fn lookup_columns_call(
    listing: &[u8],
    columns: &Columns,
    question: Question,
    answer: &[u8],
) -> Called {
    looked_up(lookup_columns(listing, columns, question), answer)
}

fn looked_up(outcome: Result<Option<u32>, Refusal>, answer: &[u8]) -> Called {
    let (row, place) = match outcome {
        Ok(row) => (row.unwrap_or(NONE), ACCEPTED),
        Err(refusal) => (NONE, refusal),
    };
    answered(answer, &[row, place.number, place.table, place.row])
}

/// `desterlin_write`, given what both buffers hold before.
pub fn write_call(parts: &Parts, listing: &[u8], answer: &[u8]) -> WriteCalled {
    let (refusal, written) = match write(parts, listing.len()) {
        Ok(written) => (ACCEPTED, written),
        Err(refusal) => (refusal, Vec::new()),
    };
    let Refusal { number, table, row } = refusal;
    let called = answered(answer, &[number, table, row, written.len() as u32]);
    let mut listing = listing.to_vec();
    if called.returned == 1 {
        listing[..written.len()].copy_from_slice(&written);
    }
    WriteCalled { returned: called.returned, answer: called.answer, listing }
}

/// `desterlin_fill`, given what all its buffers hold before.
pub fn fill_call(listing: &[u8], columns: &Columns, answer: &[u8]) -> FillCalled {
    let outcome = fill(listing, columns);
    let Refusal { number, table, row } = outcome.as_ref().err().copied().unwrap_or(ACCEPTED);
    let called = answered(answer, &[number, table, row]);
    let filled = outcome.ok().filter(|_| called.returned == 1);
    let columns = filled.unwrap_or_else(|| columns.clone());
    FillCalled { returned: called.returned, answer: called.answer, columns }
}
