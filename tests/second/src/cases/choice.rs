//! Which calls to make on a listing: reports into buffers of many lengths, all
//! verdicts, lookups; answers that are exact, longer and too short; `work` of
//! no octets, of a few and of all that it can use. And which to make on columns and
//! on a metadata listing.

use super::{Asked, Call, Given};
use crate::calls::{report, report_columns, report_metadata, rewritten, Question};
use crate::generate::{questions, Questions, Random};
use crate::listing::layout::{CONTENTS, TILES};
use crate::listing::{read, read_metadata, Listing};
use crate::rules::WORDS_OF_A_FINDING;

/// The `work` that serves 262,144 tiles at full speed.
const FULL_WORK: usize = 2 << 20;
/// Octets of the answers of a report, of a verdict, of a lookup and of a fill.
const REPORT_ANSWER: usize = 20;
const VERDICT_ANSWER: usize = 20;
const LOOKUP_ANSWER: usize = 16;
pub const FILL_ANSWER: usize = 12;
const FINDING: usize = 4 * WORDS_OF_A_FINDING;

/// Without an index 541 takes as many steps as the square of the tiles. With
/// many tiles few calls have too little `work` for it; with too many, none has.
const MANY_TILES: usize = 1_000;
const TOO_MANY_TILES: usize = 10_000;

/// Codes that are asked of listings with too many tiles: those that search
/// among the tiles or for each tile, one of each other table, and one that is
/// none.
const CODES_AT_SIZE: [u32; 12] = [101, 161, 341, 351, 411, 441, 541, 551, 561, 571, 622, 542];

/// The calls to make on a listing, made from a seed.
pub fn calls(seed: u64, octets: &[u8]) -> Vec<Call> {
    let listing = read(octets).ok();
    let tiles = listing.map_or(0, |listing| listing.count(TILES));
    // Another stream of numbers than those of the listing and the questions.
    let random = Random::new(seed ^ (1 << 63));
    let mut choice = Choice::new(random, tiles);
    let found = report(octets).map_or(0, |findings| findings.len());
    let Questions { mut codes, lookups } = questions(seed, octets);
    if tiles > TOO_MANY_TILES {
        codes = CODES_AT_SIZE.to_vec();
    }
    choice.reports(Asked::Report, found);
    choice.verdicts(&codes);
    choice.lookups(Asked::Lookup, lookups, listing.as_ref());
    choice.calls
}

/// The calls to make on columns, made from a seed: a fill and a report, and some
/// of those that are made on rows too. All of them would take half as long as
/// those on rows; over the seeds each is met.
pub fn column_calls(seed: u64, given: Given) -> Vec<Call> {
    // Lookups ask for the tiles that the columns spell, where they spell any.
    let spelled = rewritten(given.listing, given.columns);
    let judged = spelled.as_deref().ok().filter(|l| read(l).is_ok()).unwrap_or(given.listing);
    let listing = read(judged).ok();
    let tiles = listing.map_or(0, |listing| listing.count(TILES));
    // Another stream of numbers than those of the calls on rows.
    let mut choice = Choice::new(Random::new(seed ^ (1 << 61)), tiles);
    let found = report_columns(given.listing, given.columns).map_or(0, |findings| findings.len());
    let work = choice.work();
    choice.call(Asked::Fill, 0, 0, FILL_ANSWER);
    choice.call(Asked::ReportColumns, found * FINDING, work, REPORT_ANSWER);
    let always = choice.calls.split_off(0);
    choice.fills();
    choice.reports(Asked::ReportColumns, found);
    choice.lookups(Asked::LookupColumns, questions(seed, judged).lookups, listing.as_ref());
    let Choice { mut random, calls, .. } = choice;
    let once_in = if tiles > TOO_MANY_TILES { 12 } else { 4 };
    let some = calls.into_iter().filter(|_| random.once_in(once_in));
    always.into_iter().chain(some).collect()
}

/// The calls to make on a metadata listing, made from a seed: a report, and half of
/// those into other buffers; over the seeds each is met.
pub fn metadata_calls(seed: u64, given: Given) -> Vec<Call> {
    let contents = read(given.listing).map_or(0, |listing| listing.count(CONTENTS));
    let files = read_metadata(given.metadata).map_or(0, |metadata| metadata.metadata().count());
    // Another stream of numbers than those of the other calls.
    let mut choice = Choice::new(Random::new(seed ^ (1 << 58)), contents + files);
    let found = report_metadata(given.listing, given.metadata).map_or(0, |found| found.len());
    choice.reports(Asked::ReportMetadata, found);
    let Choice { mut random, calls, .. } = choice;
    let some = calls.into_iter().enumerate().filter(|(at, _)| *at == 0 || random.once_in(2));
    some.map(|(_, call)| call).collect()
}

/// Calls that come to little beside reading the listing, made from a seed: for
/// listings of more text than can be judged, and for those that are many.
pub fn reader_calls(seed: u64) -> Vec<Call> {
    let mut choice = Choice::new(Random::new(seed), 0);
    choice.call(Asked::Lookup(NO_CONTENTS_ROW), 0, 0, LOOKUP_ANSWER);
    // 171 looks at the contents alone; 542 is no code.
    choice.call(Asked::Verdict(171), 0, 0, VERDICT_ANSWER);
    choice.call(Asked::Verdict(542), 0, 0, VERDICT_ANSWER);
    choice.calls
}

/// The same on columns.
pub fn column_reader_calls(seed: u64) -> Vec<Call> {
    let mut choice = Choice::new(Random::new(seed), 0);
    choice.call(Asked::LookupColumns(NO_CONTENTS_ROW), 0, 0, LOOKUP_ANSWER);
    choice.calls
}

/// One report on a metadata listing, and no room for findings.
pub fn metadata_reader_calls(seed: u64) -> Vec<Call> {
    let mut choice = Choice::new(Random::new(seed), 0);
    choice.call(Asked::ReportMetadata, 0, 0, REPORT_ANSWER);
    choice.calls
}

/// On a listing of dates: a report with room for all findings, and the verdict on 151.
pub fn date_calls(seed: u64, octets: &[u8]) -> Vec<Call> {
    let mut choice = Choice::new(Random::new(seed), 0);
    let found = report(octets).map_or(0, |findings| findings.len());
    choice.call(Asked::Report, found * FINDING, 0, REPORT_ANSWER);
    choice.call(Asked::Verdict(151), 0, 0, VERDICT_ANSWER);
    choice.calls
}

/// The same on a metadata listing, where there are no verdicts.
pub fn timestamp_calls(seed: u64, given: Given) -> Vec<Call> {
    let mut choice = Choice::new(Random::new(seed), 0);
    let found = report_metadata(given.listing, given.metadata).map_or(0, |found| found.len());
    choice.call(Asked::ReportMetadata, found * FINDING, 0, REPORT_ANSWER);
    choice.calls
}

const NO_CONTENTS_ROW: Question = Question { contents_row: u32::MAX, zoom: 0, column: 0, row: 0 };

struct Choice {
    random: Random,
    /// The rows that an index in `work` may be of: the tiles, or on a metadata
    /// listing the contents and the files.
    rows: usize,
    calls: Vec<Call>,
}

impl Choice {
    fn new(random: Random, rows: usize) -> Choice {
        Choice { random, rows, calls: Vec::new() }
    }

    fn call(&mut self, asked: Asked, findings: usize, work: usize, answer: usize) {
        let fill = self.random.word() as u8;
        self.calls.push(Call { asked, findings, work, answer, fill });
    }

    /// One call with `work` of no octets, of a few, of too few for an index and
    /// of 2 MiB, all else alike: the same octets must come out.
    fn call_with_each_work(&mut self, asked: Asked, findings: usize, answer: usize) {
        let fill = self.random.word() as u8;
        let few = 1 + self.random.below(64);
        let too_few = self.random.below(1 + 8 * self.rows);
        let works = match self.rows > TOO_MANY_TILES {
            true => vec![FULL_WORK],
            false => vec![0, few, too_few, FULL_WORK],
        };
        let call = |work| Call { asked, findings, work, answer, fill };
        self.calls.extend(works.into_iter().map(call));
    }

    fn fills(&mut self) {
        let longer = self.long_enough(FILL_ANSWER);
        let too_short = self.too_short(FILL_ANSWER);
        for answer in too_short.into_iter().chain([longer]) {
            self.call(Asked::Fill, 0, 0, answer);
        }
    }

    /// Reports by rows, by columns or on a metadata listing, as asked.
    fn reports(&mut self, asked: Asked, found: usize) {
        let exact = found * FINDING;
        self.call_with_each_work(asked, exact, REPORT_ANSWER);
        for findings in self.findings_lengths(exact) {
            let (work, answer) = (self.work(), self.long_enough(REPORT_ANSWER));
            self.call(asked, findings, work, answer);
        }
        for answer in self.too_short(REPORT_ANSWER) {
            let work = self.work();
            self.call(asked, exact, work, answer);
        }
    }

    fn verdicts(&mut self, codes: &[u32]) {
        for &code in codes {
            let (work, answer) = (self.work(), self.long_enough(VERDICT_ANSWER));
            self.call(Asked::Verdict(code), 0, work, answer);
        }
        if self.rows <= MANY_TILES {
            self.call_with_each_work(Asked::Verdict(541), 0, VERDICT_ANSWER);
        }
        for answer in self.too_short(VERDICT_ANSWER) {
            let (code, work) = (self.random.pick(codes), self.work());
            self.call(Asked::Verdict(code), 0, work, answer);
        }
    }

    /// Lookups by rows or by columns, as asked.
    fn lookups(
        &mut self,
        asked: fn(Question) -> Asked,
        mut lookups: Vec<Question>,
        listing: Option<&Listing>,
    ) {
        let first = lookups[0];
        if let Some(listing) = listing {
            lookups.extend(existing(listing));
            lookups.extend(refused(listing));
        }
        lookups.push(self.extreme(first));
        for question in lookups {
            let answer = self.long_enough(LOOKUP_ANSWER);
            self.call(asked(question), 0, 0, answer);
        }
        for answer in self.too_short(LOOKUP_ANSWER) {
            self.call(asked(first), 0, 0, answer);
        }
    }

    /// Any length of `work`, often around what an index of the rows takes: 2 MiB
    /// serve the most tiles, so that is some 8 octets a tile.
    fn work(&mut self) -> usize {
        if self.rows > MANY_TILES {
            return FULL_WORK + self.random.below(3);
        }
        match self.random.below(32) {
            0..=3 => 0,
            4..=7 => 8 * self.rows,
            8..=11 => (8 * self.rows).saturating_sub(1),
            12..=19 => self.random.below(64),
            // Seldom: to fill and to check that many octets takes the time.
            20 => FULL_WORK,
            _ => self.random.below(64 + 16 * self.rows),
        }
    }

    /// Lengths on both sides of each line: of a word, of a finding, of all.
    fn findings_lengths(&mut self, exact: usize) -> Vec<usize> {
        let within = self.random.below(exact + 1);
        let short = exact.saturating_sub(1);
        let longer = exact + 2 + self.random.below(60);
        if self.rows > MANY_TILES {
            return vec![11, within, short, longer];
        }
        let mut lengths = vec![0, 1, 4, 11, 12, 13, within, short, exact + 1, longer];
        lengths.sort_unstable();
        lengths.dedup();
        lengths
    }

    /// An answer buffer of its size or longer.
    fn long_enough(&mut self, size: usize) -> usize {
        match self.random.once_in(3) {
            true => size + self.random.below(24),
            false => size,
        }
    }

    /// Answer buffers that are too short: by one, by any number, empty.
    fn too_short(&mut self, size: usize) -> [usize; 3] {
        [size - 1, self.random.below(size), 0]
    }

    /// A lookup whose numbers are as far out as numbers go.
    fn extreme(&mut self, question: Question) -> Question {
        let mut far = || self.random.pick(&[i64::MIN, i64::MAX, -1, 1 << 32]);
        Question { zoom: far(), column: far(), row: far(), ..question }
    }
}

/// The address of the first tile that has one under a contents row.
fn existing(listing: &Listing) -> Option<Question> {
    listing.tiles().find_map(|tile| {
        let row = listing.contents().position(|contents| {
            contents.data_type == b"tiles" && contents.table_name == tile.table_name
        })?;
        let (zoom, column) = (tile.zoom, tile.column);
        Some(Question { contents_row: row as u32, zoom, column, row: tile.row })
    })
}

/// Contents rows that are not there, and one that is not of tiles.
fn refused(listing: &Listing) -> Vec<Question> {
    let not_tiles = listing.contents().position(|contents| contents.data_type != b"tiles");
    let rows = [Some(listing.count(CONTENTS)), Some(u32::MAX as usize), not_tiles];
    let question = |row: usize| Question { contents_row: row as u32, zoom: 0, column: 0, row: 0 };
    rows.into_iter().flatten().map(question).collect()
}
