//! Cases for the comparison with the proved library: the calls to make on a
//! listing, on one with columns or with a metadata listing, or with parts, and what
//! each of them must return and leave in its buffers.

mod choice;
mod stream;
mod writes;

pub use choice::{calls, column_calls, column_reader_calls, reader_calls, FILL_ANSWER};
pub use choice::{date_calls, metadata_calls, metadata_reader_calls, timestamp_calls};
pub use stream::{write_dates, write_limits, write_seeds, write_texts};
pub use writes::{few_writes, writes, WriteCall, WRITE_ANSWER};

use crate::calls::{fill_call, lookup_columns_call, report_columns_call, rewritten};
use crate::calls::{lookup_call, report_call, report_metadata_call, verdict_call};
use crate::calls::{Called, Columns, FillCalled, Question, ReportCalled, COLUMN_COUNT};
use crate::generate::{ColumnsCase, MetadataCase};
use crate::listing::{read, read_metadata};
use crate::rules::code_named;

/// What a call asks.
#[derive(Clone, Copy, Debug, PartialEq, Eq)]
pub enum Asked {
    Report,
    Verdict(u32),
    Lookup(Question),
    Fill,
    ReportColumns,
    LookupColumns(Question),
    ReportMetadata,
}

static NO_COLUMNS: Columns = [const { Vec::new() }; COLUMN_COUNT];

/// What a call is given: a listing, and the columns of its tiles or a metadata
/// listing. A fill is lent columns of the same lengths.
#[derive(Clone, Copy, Debug)]
pub struct Given<'a> {
    pub listing: &'a [u8],
    pub columns: &'a Columns,
    pub metadata: &'a [u8],
}

impl<'a> Given<'a> {
    pub fn of(case: &'a ColumnsCase) -> Given<'a> {
        Given { columns: &case.columns, ..Given::alone(&case.listing) }
    }

    /// A listing and the metadata listing that is lent with it.
    pub fn both(case: &'a MetadataCase) -> Given<'a> {
        Given { metadata: &case.metadata, ..Given::alone(&case.listing) }
    }

    /// A listing with neither.
    pub fn alone(listing: &'a [u8]) -> Given<'a> {
        Given { listing, columns: &NO_COLUMNS, metadata: &[] }
    }
}

/// A call: what it asks, and the lengths and first octets of its buffers. A
/// buffer that the call does not have counts as one of no octets.
#[derive(Clone, Copy, Debug, PartialEq, Eq)]
pub struct Call {
    pub asked: Asked,
    pub findings: usize,
    pub work: usize,
    pub answer: usize,
    pub fill: u8,
}

/// What a call must return, and its buffers afterwards.
#[derive(Clone, Debug, PartialEq, Eq)]
pub struct Expected {
    pub returned: u32,
    /// The findings of a report, the buffer that a write is lent, or the columns
    /// of a fill one after the other.
    pub output: Vec<u8>,
    pub answer: Vec<u8>,
    /// Must `work` keep its octets? An accepted call leaves them open.
    pub keeps_work: bool,
}

/// What a buffer holds before a call. Neighbouring octets differ, and another
/// fill gives other octets at every place: a stray write is seen.
pub fn filled(length: usize, fill: u8) -> Vec<u8> {
    (0..length).map(|at| (at as u8).wrapping_add(fill).wrapping_mul(37)).collect()
}

impl Call {
    /// What must come of the call.
    pub fn expected(&self, given: Given) -> Expected {
        let Given { listing, columns, metadata } = given;
        let findings = filled(self.findings, self.fill);
        let answer = filled(self.answer, self.fill);
        let reported = |called: ReportCalled| (called.returned, called.answer, called.findings);
        let answered = |called: Called| (called.returned, called.answer, findings.clone());
        let (returned, answer, output) = match self.asked {
            Asked::Report => reported(report_call(listing, &findings, &answer)),
            Asked::Verdict(code) => answered(verdict_call(listing, code, &answer)),
            Asked::Lookup(question) => answered(lookup_call(listing, question, &answer)),
            Asked::Fill => self.expected_of_fill(given, &answer),
            Asked::ReportColumns => {
                reported(report_columns_call(listing, columns, &findings, &answer))
            }
            Asked::LookupColumns(question) => {
                answered(lookup_columns_call(listing, columns, question, &answer))
            }
            Asked::ReportMetadata => {
                reported(report_metadata_call(listing, metadata, &findings, &answer))
            }
        };
        let keeps_work = returned == 0 || self.is_refused_before_work(given);
        Expected { returned, output, answer, keeps_work }
    }

    fn expected_of_fill(&self, given: Given, answer: &[u8]) -> (u32, Vec<u8>, Vec<u8>) {
        let before = given.columns.each_ref().map(|column| filled(column.len(), self.fill));
        let FillCalled { returned, answer, columns } = fill_call(given.listing, &before, answer);
        (returned, answer, columns.concat())
    }

    /// Is the call refused? Only for the calls that have `work`.
    fn is_refused_before_work(&self, given: Given) -> bool {
        match self.asked {
            Asked::Report => read(given.listing).is_err(),
            Asked::Verdict(code) => code_named(code).is_none() || read(given.listing).is_err(),
            Asked::ReportColumns => {
                rewritten(given.listing, given.columns).map_or(true, |l| read(&l).is_err())
            }
            Asked::ReportMetadata => {
                read(given.listing).is_err() || read_metadata(given.metadata).is_err()
            }
            Asked::Lookup(_) | Asked::Fill | Asked::LookupColumns(_) => false,
        }
    }
}
