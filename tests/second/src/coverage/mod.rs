//! What the made listings reach: every code found and not found, both ways to
//! pass 451 and 452, every refusal given and not given, texts on both sides of
//! 13, every kind of listing; and what the made parts, columns and metadata listings
//! reach. And how long judging takes.

mod columns;
mod metadata;
mod spans;
mod utf8;
mod writes;

use std::fmt;
use std::time::Instant;

use crate::calls::{lookup, report, report_metadata, verdict, Question};
use crate::generate::{columns_at_a_limit, cut, generate, generate_columns, generate_parts};
use crate::generate::{generate_metadata, kind_names, metadata_at_a_limit, questions};
use crate::generate::{text_listing, text_numbers, MetadataCase, PartsCase};
use crate::generate::{LIMITS, METADATA_LIMITS};
use crate::listing::{read, Refusal, NONE};
use crate::rules::{Finding, CODES};
use columns::Columns;
use metadata::MetadataLines;
use spans::Spans;
use utf8::Utf8;
use writes::Writes;

/// One line of the table: how many have what it tells of, and how many lack it.
struct Line {
    name: String,
    have: usize,
    lack: usize,
    /// Is it right for none to lack it?
    may_lack_none: bool,
}

impl Line {
    fn new(name: impl Into<String>) -> Line {
        Line { name: name.into(), have: 0, lack: 0, may_lack_none: false }
    }

    fn count(&mut self, has: bool) {
        match has {
            true => self.have += 1,
            false => self.lack += 1,
        }
    }

    fn is_empty(&self) -> bool {
        self.have == 0 || (self.lack == 0 && !self.may_lack_none)
    }
}

/// The coverage table.
pub struct Table {
    listings: usize,
    codes: Vec<Line>,
    spans: Spans,
    untestable: Vec<Line>,
    without_row: Vec<Line>,
    refusals: Vec<(u32, Line)>,
    utf8: Utf8,
    lookups: Line,
    kinds: Vec<Line>,
    writes: Writes,
    columns: Columns,
    metadata: MetadataLines,
}

const CODES_WITHOUT_ROW: [u32; 3] = [111, 112, 113];
/// Those of a listing and those of a call. The writer's have lines of their own.
const OF_A_LISTING: [u32; 9] = [1, 2, 3, 4, 5, 6, 7, 8, 13];
const OF_A_CALL: [u32; 2] = [9, 10];

/// Makes the listings, parts, columns and metadata listings of so many seeds, those
/// at the limits, and the listings of the series of texts and of so many seeds
/// behind it, and counts.
pub fn table(first: u64, count: u64) -> Table {
    let mut table = Table::new();
    for seed in first..first.saturating_add(count) {
        let case = generate(seed);
        table.count_listing(case.kind, &case.listing);
        let questions = questions(seed, &case.listing);
        for code in questions.codes {
            table.count_verdict(&case.listing, code);
        }
        for question in questions.lookups {
            table.count_lookup(&case.listing, question);
        }
        table.writes.count(seed, &generate_parts(seed));
        table.metadata.count(seed, &generate_metadata(seed, case.listing.clone()));
        table.columns.count(seed, &generate_columns(seed, case.listing));
    }
    for (number, (kind, make)) in (0..).zip(&LIMITS) {
        let listing = make();
        table.count_listing(kind, &listing);
        let parts = cut(&listing);
        if let Some(seed) = columns_at_a_limit(&listing) {
            table.columns.count(seed, &generate_columns(seed, listing.clone()));
        }
        table.writes.count(number, &PartsCase { kind, parts, listing: Some(listing) });
    }
    for (number, _) in METADATA_LIMITS.iter().enumerate() {
        if let Some(case) = metadata_at_a_limit(number) {
            table.metadata.count(number as u64, &case);
        }
    }
    for number in text_numbers(first, count) {
        let listing = text_listing(number);
        table.utf8.count(&listing, read(&listing).err());
    }
    table
}

impl Table {
    fn new() -> Table {
        let code_line = |code: u32| Line::new(format!("code {code}"));
        let rarely_empty = CODES.iter().filter(|code| !code.is_testable_without_rows());
        let limits = LIMITS.iter().map(|(name, _)| *name);
        Table {
            listings: 0,
            codes: CODES.iter().map(|code| code_line(code.number)).collect(),
            spans: Spans::new(),
            untestable: rarely_empty
                .map(|code| Line::new(format!("not testable {}", code.number)))
                .collect(),
            without_row: CODES_WITHOUT_ROW
                .iter()
                .map(|code| Line::new(format!("code {code} without a row")))
                .collect(),
            refusals: OF_A_LISTING
                .into_iter()
                .chain(OF_A_CALL)
                .map(|number| (number, Line::new(format!("refusal {number}"))))
                .collect(),
            utf8: Utf8::new(),
            lookups: Line::new("lookups with a tile"),
            kinds: kind_names().chain(limits).map(kind_line).collect(),
            writes: Writes::new(),
            columns: Columns::new(),
            metadata: MetadataLines::new(),
        }
    }

    fn count_listing(&mut self, kind: &str, octets: &[u8]) {
        self.listings += 1;
        let line = self.kinds.iter_mut().find(|line| line.name == kind);
        if let Some(line) = line {
            line.have += 1;
        }
        let outcome = report(octets);
        let refusal = outcome.as_ref().err().copied();
        for number in OF_A_LISTING {
            self.count_refusal(number, refusal);
        }
        self.utf8.count(octets, refusal);
        if let Ok(findings) = outcome {
            self.count_findings(octets, &findings);
        }
    }

    fn count_findings(&mut self, octets: &[u8], findings: &[Finding]) {
        let has = |code: u32| {
            let at = findings.partition_point(|finding| finding.code < code);
            findings.get(at).filter(|finding| finding.code == code)
        };
        for (code, line) in CODES.iter().zip(&mut self.codes) {
            line.count(has(code.number).is_some());
        }
        for (code, line) in CODES_WITHOUT_ROW.iter().zip(&mut self.without_row) {
            line.count(has(*code).is_some_and(|finding| finding.row == NONE));
        }
        let Ok(listing) = read(octets) else {
            return;
        };
        let rarely_empty = CODES.iter().filter(|code| !code.is_testable_without_rows());
        for (code, line) in rarely_empty.zip(&mut self.untestable) {
            line.count(listing.count(code.table) == 0);
        }
        self.spans.count(listing);
    }

    fn count_refusal(&mut self, number: u32, refusal: Option<Refusal>) {
        let line = self.refusals.iter_mut().find(|(of, _)| *of == number);
        if let Some((_, line)) = line {
            line.count(refusal.is_some_and(|refusal| refusal.number == number));
        }
    }

    fn count_verdict(&mut self, octets: &[u8], code: u32) {
        let refused = verdict(octets, code).err();
        self.count_refusal(9, refused);
        if is_refused_13(octets) {
            self.utf8.count_verdict(refused);
        }
    }

    fn count_lookup(&mut self, octets: &[u8], question: Question) {
        let answer = lookup(octets, question);
        self.count_refusal(10, answer.err());
        if is_refused_13(octets) {
            self.utf8.count_lookup(octets, question);
        }
        if let Ok(row) = answer {
            self.lookups.count(row.is_some());
        }
    }

    fn lines(&self) -> impl Iterator<Item = &Line> {
        let counted = self.codes.iter().chain(self.spans.lines()).chain(&self.without_row);
        let refusals = self.refusals.iter().map(|(_, line)| line).chain(self.utf8.lines());
        let counted = counted.chain(&self.untestable).chain(refusals);
        let counted = counted.chain([&self.lookups]).chain(&self.kinds);
        let counted = counted.chain(self.writes.lines()).chain(self.columns.lines());
        counted.chain(self.metadata.lines())
    }

    /// The lines on which a count is 0 that must not be.
    pub fn empty_lines(&self) -> Vec<&str> {
        let empty = self.lines().filter(|line| line.is_empty());
        empty.map(|line| line.name.as_str()).collect()
    }
}

fn is_refused_13(octets: &[u8]) -> bool {
    read(octets).is_err_and(|refusal| refusal.number == 13)
}

fn kind_line(name: &str) -> Line {
    Line { may_lack_none: true, ..Line::new(name) }
}

impl fmt::Display for Table {
    fn fmt(&self, out: &mut fmt::Formatter<'_>) -> fmt::Result {
        writeln!(out, "{:<48} {:>8} {:>8}", "", "have", "lack")?;
        for line in self.lines() {
            let (name, have) = (&line.name, line.have);
            match line.may_lack_none {
                true => writeln!(out, "{name:<48} {have:>8}")?,
                false => writeln!(out, "{name:<48} {have:>8} {:>8}", line.lack)?,
            }
        }
        for name in self.empty_lines() {
            writeln!(out, "EMPTY: {name}")?;
        }
        writeln!(out, "{} listings", self.listings)
    }
}

/// The least time of some runs, in milliseconds.
fn least_time(mut run: impl FnMut()) -> f64 {
    let mut least = f64::INFINITY;
    for _ in 0..15 {
        let start = Instant::now();
        run();
        least = least.min(start.elapsed().as_secs_f64() * 1e3);
    }
    least
}

/// How long a report on a metadata listing takes, and reading the tile listing
/// beside it, which is a part of that.
pub fn metadata_timing(MetadataCase { listing, metadata, .. }: &MetadataCase) -> String {
    let mut total = 0;
    let read_time = least_time(|| {
        std::hint::black_box(read(listing).is_ok());
    });
    let report_time =
        least_time(|| total = report_metadata(listing, metadata).map_or(0, |found| found.len()));
    format!(
        "{} and {} octets, {total} findings: read {read_time:.3} ms, report {report_time:.3} ms\n",
        listing.len(),
        metadata.len()
    )
}

/// How long a report, a verdict on 541 and a lookup take on a listing.
pub fn timing(octets: &[u8]) -> String {
    let mut total = 0;
    let read_time = least_time(|| {
        std::hint::black_box(read(octets).is_ok());
    });
    let report_time = least_time(|| total = report(octets).map_or(0, |found| found.len()));
    let verdict_time = least_time(|| {
        std::hint::black_box(verdict(octets, 541).is_ok());
    });
    let question = Question { contents_row: 0, zoom: -1, column: -1, row: -1 };
    let lookup_time = least_time(|| {
        std::hint::black_box(lookup(octets, question).is_ok());
    });
    format!(
        "{} octets, {total} findings: read {read_time:.3} ms, report {report_time:.3} ms, \
         verdict 541 {verdict_time:.3} ms, lookup {lookup_time:.3} ms\n",
        octets.len()
    )
}
