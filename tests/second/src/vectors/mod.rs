//! Expectations worked out by hand from the papers. Every expected value here
//! is a literal; none comes from the code under test. Each vector names the
//! line of a paper, or of the readings, that it shows.
//!
//! An expected report is written as its findings, `CODE ROW PARTNER` with "-"
//! for none, separated by commas: the whole list, nothing left out. The empty
//! text is a report without findings; `refused N T R` is a refusal.

mod base;
mod calls;
mod columns;
mod contents;
mod dates;
mod extensions;
mod far;
mod layout;
mod levels;
mod limits;
mod matrices;
mod metadata;
mod paper;
mod references;
mod refusals;
mod samples;
mod spans;
mod texts;
mod tiles;
mod utf8;
mod verdicts;
mod writes;

use std::fmt;
use std::path::PathBuf;

use crate::calls::{report, verdict, Verdict};
use crate::desk::{refused, row_or_dash};
use crate::listing::{Refusal, NONE};
use crate::make::Draft;
use crate::rules::Finding;

/// How the vectors went.
#[derive(Default)]
pub struct Tally {
    passed: usize,
    failures: Vec<String>,
}

/// Where the samples stand, seen from this package.
pub fn samples_folder() -> PathBuf {
    [env!("CARGO_MANIFEST_DIR"), "..", "..", "samples"].iter().collect()
}

/// Runs every vector; the samples are read from a folder.
pub fn run(samples: PathBuf) -> Tally {
    let mut tally = Tally::default();
    paper::check(&mut tally);
    layout::check(&mut tally);
    refusals::check(&mut tally);
    texts::check(&mut tally);
    limits::check(&mut tally);
    references::check(&mut tally);
    contents::check(&mut tally);
    dates::check(&mut tally);
    levels::check(&mut tally);
    spans::check(&mut tally);
    far::check(&mut tally);
    matrices::check(&mut tally);
    tiles::check(&mut tally);
    extensions::check(&mut tally);
    verdicts::check(&mut tally);
    calls::check(&mut tally);
    writes::check(&mut tally);
    utf8::check(&mut tally);
    columns::check(&mut tally);
    metadata::check(&mut tally);
    samples::check(&mut tally, &samples);
    tally
}

impl Tally {
    pub fn is_well(&self) -> bool {
        self.failures.is_empty() && self.passed > 0
    }

    pub fn failures(&self) -> &[String] {
        &self.failures
    }

    /// One expectation: what came out is what was worked out.
    fn same<T: PartialEq + fmt::Debug>(&mut self, shows: &str, got: T, want: T) {
        if got == want {
            self.passed += 1;
        } else {
            let failure = format!("{shows}: got {got:?}, want {want:?}");
            self.failures.push(failure);
        }
    }

    /// The whole report on some octets; and where it has findings, the verdict
    /// on each of their codes, which is a fail with the first of its rows.
    fn judged(&mut self, shows: &str, octets: &[u8], want: &str) {
        self.same(shows, report_as_text(octets), want.to_string());
        if want.is_empty() || want.starts_with("refused") {
            return;
        }
        let mut latest = None;
        for finding in want.split(", ") {
            let mut words = finding.split(' ');
            let code: u32 = words.next().and_then(|w| w.parse().ok()).unwrap_or(0);
            let row = words.next().and_then(|w| w.parse().ok()).unwrap_or(NONE);
            if latest != Some(code) {
                latest = Some(code);
                let line = format!("{shows}, verdict {code}");
                self.same(&line, verdict(octets, code), Ok(Verdict::Fail(row)));
            }
        }
    }

    /// The whole report on the valley pack after one change.
    fn changed(&mut self, shows: &str, want: &str, change: impl FnOnce(&mut Draft)) {
        let mut draft = base::valley();
        change(&mut draft);
        self.judged(shows, &draft.listing(), want);
    }
}

fn report_as_text(octets: &[u8]) -> String {
    findings_as_text(report(octets))
}

fn findings_as_text(outcome: Result<Vec<Finding>, Refusal>) -> String {
    let findings = match outcome {
        Ok(findings) => findings,
        Err(refusal) => return refused(refusal),
    };
    let lines = findings.iter().map(|finding| {
        let (row, partner) = (row_or_dash(finding.row), row_or_dash(finding.partner));
        format!("{} {row} {partner}", finding.code)
    });
    lines.collect::<Vec<_>>().join(", ")
}

impl fmt::Display for Tally {
    fn fmt(&self, out: &mut fmt::Formatter<'_>) -> fmt::Result {
        for failure in &self.failures {
            writeln!(out, "FAILED {failure}")?;
        }
        let (passed, failed) = (self.passed, self.failures.len());
        writeln!(out, "{passed} passed, {failed} failed")
    }
}
