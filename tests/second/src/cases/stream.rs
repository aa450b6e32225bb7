//! The stream of cases that `tests/compare` reads from its standard input. It
//! is laid down here and nowhere else.
//!
//! Numbers are little-endian. "Octets" are a u32, how many, and then they
//! themselves.
//!
//! * the mark: `cases 4` and a line feed, eight octets;
//! * for each listing, for each listing with a metadata listing, for each listing
//!   with its four columns, and for each seven parts: u32, how many strings of
//!   octets are given, 1, 2, 5 or 7; octets, the commands that make them, in words;
//!   the strings, octets each; u32, how many calls; the calls;
//! * the end: u32 0; u32, how many of these there were; u32, how many calls.
//!
//! A call:
//!
//! * u32, what it asks: 1 report, 2 verdict, 3 lookup; with parts 4 write; with
//!   columns 5 fill, 6 report, 7 lookup; with a metadata listing 8 report on that;
//! * u32, the code of a verdict or the contents row of a lookup, else 0;
//! * three i64, zoom, column and row of a lookup, else 0;
//! * three u32, the lengths of output, work and answer, where output is the
//!   findings of a report, the listing of a write or the columns of a fill one
//!   after the other, each as long as it is given; 0 where the call has no such
//!   buffer;
//! * u32, the fill: before the call the octet number i of each of these
//!   buffers, and of each column of a fill, counted from 0, is 37 * (i + fill)
//!   modulo 256;
//! * u32, what the call must return;
//! * u32, 1 where work must keep its octets, 0 where they are left open;
//! * the octets of output after the call, and then of answer: as many as the
//!   lengths say.

use std::io::{Result, Write};

use super::{calls, column_calls, column_reader_calls, few_writes, reader_calls, writes};
use super::{date_calls, metadata_calls, metadata_reader_calls, timestamp_calls};
use super::{Asked, Call, Expected, Given, WriteCall};
use crate::calls::{Parts, Question};
use crate::generate::{columns_at_a_limit, cut, full, generate, generate_columns, generate_parts};
use crate::generate::{date_listing, date_metadata, HALVES};
use crate::generate::{full_metadata, generate_metadata, metadata_at_a_limit, text_metadata};
use crate::generate::{text_columns, text_listing, text_numbers};
use crate::generate::{ColumnsCase, AS_FILLED, FULL_KINDS, HOSTILE_KINDS, LIMITS};
use crate::generate::{MetadataCase, FULL_METADATA_KINDS, METADATA_LIMITS};
use crate::listing::layout::TILES;
use crate::listing::read;

const MARK: &[u8; 8] = b"cases 4\n";

/// The listings of so many seeds from the first on, with their calls, and the
/// parts, the metadata listings and the columns of the same seeds, with theirs.
pub fn write_seeds(out: impl Write, first: u64, count: u64) -> Result<()> {
    let mut stream = Stream::begun(out)?;
    for seed in first..first.saturating_add(count) {
        let case = generate(seed);
        let origin = format!("make {seed}");
        stream.listing(&origin, &case.listing, &calls(seed, &case.listing))?;
        let parts = generate_parts(seed).parts;
        stream.parts(&format!("parts {seed}"), &parts, &writes(seed, &parts))?;
        let metadata = generate_metadata(seed, case.listing.clone());
        stream.metadata(&format!("{origin} | second metadata {seed}"), seed, &metadata)?;
        stream.columns(&origin, seed, case.listing)?;
    }
    stream.ended()
}

/// The most tiles of a full listing here: the index works at this size as it
/// does at the limit, and all the kinds take a quarter of the time.
const TILES_OF_A_FULL_LISTING: usize = 32_768;
/// The same where each tile's name is some thousand octets: a report goes over
/// all of them, and without `work` over those of every two tiles.
const TILES_OF_A_HOSTILE_LISTING: usize = 500;

/// The listings at the limits and the full ones, with their calls, as far as
/// they have no more tiles than these; each cut into its parts, and with columns,
/// but for limits other than that of the tiles. The hostile ones are judged at a
/// small size and no more than read at their full one.
pub fn write_limits(out: impl Write, most_tiles: usize) -> Result<()> {
    let mut stream = Stream::begun(out)?;
    for (number, (_, make)) in LIMITS.iter().enumerate() {
        let listing = make();
        let tiles = read(&listing).map_or(0, |listing| listing.count(TILES));
        if tiles <= most_tiles {
            let origin = format!("limit {number}");
            stream.listing_and_parts(&origin, number as u64, &listing)?;
            if let Some(seed) = columns_at_a_limit(&listing) {
                stream.columns(&origin, seed, listing)?;
            }
        }
    }
    for (turn, kind) in (0..).zip(FULL_KINDS) {
        stream.full(kind, most_tiles.min(TILES_OF_A_FULL_LISTING), turn)?;
    }
    for (turn, kind) in (0..).zip(HOSTILE_KINDS) {
        stream.full(kind, most_tiles.min(TILES_OF_A_HOSTILE_LISTING), turn)?;
        let listing = full(kind, most_tiles).unwrap_or_default();
        stream.reads(&format!("full {kind} {most_tiles}"), most_tiles as u64, &listing)?;
        let tiles = most_tiles.min(TILES_OF_A_FULL_LISTING);
        let case = generate_columns(AS_FILLED, full(kind, tiles).unwrap_or_default());
        let origin = format!("full {kind} {tiles} | second columns {AS_FILLED}");
        stream.with_columns(&origin, &case, |_| column_reader_calls(turn))?;
    }
    write_metadata_limits(&mut stream, most_tiles)?;
    stream.ended()
}

/// The metadata listings at the limits and the full ones.
fn write_metadata_limits(stream: &mut Stream<impl Write>, most_tiles: usize) -> Result<()> {
    for (number, _) in METADATA_LIMITS.iter().enumerate() {
        let Some(case) = metadata_at_a_limit(number) else {
            continue;
        };
        let tiles = read(&case.listing).map_or(0, |listing| listing.count(TILES));
        if tiles <= most_tiles {
            stream.metadata(&format!("limit-metadata {number}"), number as u64, &case)?;
        }
    }
    for (turn, kind) in (0..).zip(FULL_METADATA_KINDS) {
        let tiles = most_tiles.min(TILES_OF_A_FULL_LISTING);
        if let Some(case) = full_metadata(kind, tiles) {
            stream.metadata(&format!("full-metadata {kind} {tiles}"), turn, &case)?;
        }
    }
    Ok(())
}

/// The listings of the series of texts, and behind it of so many seeds from the
/// first on, each read, written from its parts, and read from columns; and the
/// metadata listings with such texts.
pub fn write_texts(out: impl Write, first: u64, count: u64) -> Result<()> {
    let mut stream = Stream::begun(out)?;
    for number in text_numbers(first, count) {
        stream.reads(&format!("text {number}"), number, &text_listing(number))?;
        let origin = format!("text-columns {number}");
        stream.with_columns(&origin, &text_columns(number), |_| column_reader_calls(number))?;
        let origin = format!("text-metadata {number}");
        stream.with_metadata(&origin, &text_metadata(number), &metadata_reader_calls(number))?;
    }
    stream.ended()
}

/// The dates of so many years from the first on, in contents and as timestamps.
pub fn write_dates(out: impl Write, first: u32, count: u32) -> Result<()> {
    let mut stream = Stream::begun(out)?;
    for year in first..first.saturating_add(count) {
        let seed = u64::from(year);
        for (half, months) in HALVES.into_iter().enumerate() {
            let listing = date_listing(year, months);
            let calls = date_calls(seed, &listing);
            stream.listing(&format!("dates {year} {half}"), &listing, &calls)?;
        }
        let case = date_metadata(year);
        let calls = timestamp_calls(seed, Given::both(&case));
        stream.with_metadata(&format!("dates-metadata {year}"), &case, &calls)?;
    }
    stream.ended()
}

struct Stream<W: Write> {
    out: W,
    given: u32,
    calls: u32,
}

impl<W: Write> Stream<W> {
    fn begun(mut out: W) -> Result<Stream<W>> {
        out.write_all(MARK)?;
        Ok(Stream { out, given: 0, calls: 0 })
    }

    fn ended(mut self) -> Result<()> {
        let counts = [0, self.given, self.calls];
        self.words(&counts)?;
        self.out.flush()
    }

    /// What some calls are given: a listing, with columns, with a metadata listing
    /// or alone, or seven parts.
    fn given(&mut self, origin: &str, strings: &[&[u8]], calls: usize) -> Result<()> {
        self.words(&[strings.len() as u32])?;
        self.octets(origin.as_bytes())?;
        strings.iter().try_for_each(|string| self.octets(string))?;
        self.words(&[calls as u32])?;
        self.given += 1;
        self.calls += calls as u32;
        Ok(())
    }

    fn listing(&mut self, origin: &str, listing: &[u8], calls: &[Call]) -> Result<()> {
        self.given(origin, &[listing], calls.len())?;
        calls.iter().try_for_each(|call| self.call(call, Given::alone(listing)))
    }

    fn with_columns(
        &mut self,
        origin: &str,
        case: &ColumnsCase,
        calls: impl FnOnce(Given) -> Vec<Call>,
    ) -> Result<()> {
        let given = Given::of(case);
        let calls = calls(given);
        let columns = case.columns.each_ref().map(Vec::as_slice);
        self.given(origin, &[&[given.listing][..], &columns].concat(), calls.len())?;
        calls.iter().try_for_each(|call| self.call(call, given))
    }

    /// The columns of a seed for a listing.
    fn columns(&mut self, origin: &str, seed: u64, listing: Vec<u8>) -> Result<()> {
        let case = generate_columns(seed, listing);
        let origin = format!("{origin} | second columns {seed}");
        self.with_columns(&origin, &case, |given| column_calls(seed, given))
    }

    fn with_metadata(&mut self, origin: &str, case: &MetadataCase, calls: &[Call]) -> Result<()> {
        self.given(origin, &[&case.listing, &case.metadata], calls.len())?;
        calls.iter().try_for_each(|call| self.call(call, Given::both(case)))
    }

    /// A metadata listing with the calls of a seed.
    fn metadata(&mut self, origin: &str, seed: u64, case: &MetadataCase) -> Result<()> {
        self.with_metadata(origin, case, &metadata_calls(seed, Given::both(case)))
    }

    fn parts(&mut self, origin: &str, parts: &Parts, calls: &[WriteCall]) -> Result<()> {
        self.given(origin, &parts.each_ref().map(Vec::as_slice), calls.len())?;
        calls.iter().try_for_each(|call| self.write(call, parts))
    }

    fn listing_and_parts(&mut self, origin: &str, seed: u64, listing: &[u8]) -> Result<()> {
        self.listing(origin, listing, &calls(seed, listing))?;
        let parts = cut(listing);
        self.parts(&format!("{origin} | second cut"), &parts, &writes(seed, &parts))
    }

    /// A full listing, its parts, and its columns by its turn.
    fn full(&mut self, kind: &str, tiles: usize, turn: u64) -> Result<()> {
        let listing = full(kind, tiles).unwrap_or_default();
        let origin = format!("full {kind} {tiles}");
        self.listing_and_parts(&origin, tiles as u64, &listing)?;
        self.columns(&origin, turn, listing)
    }

    /// A listing and its parts, with the calls that do little but read it.
    fn reads(&mut self, origin: &str, seed: u64, listing: &[u8]) -> Result<()> {
        self.listing(origin, listing, &reader_calls(seed))?;
        let parts = cut(listing);
        self.parts(&format!("{origin} | second cut"), &parts, &few_writes(seed, &parts))
    }

    fn call(&mut self, call: &Call, given: Given) -> Result<()> {
        let nothing = Question { contents_row: 0, zoom: 0, column: 0, row: 0 };
        let (kind, number, address) = match call.asked {
            Asked::Report => (1, 0, nothing),
            Asked::Verdict(code) => (2, code, nothing),
            Asked::Lookup(question) => (3, question.contents_row, question),
            Asked::Fill => (5, 0, nothing),
            Asked::ReportColumns => (6, 0, nothing),
            Asked::LookupColumns(question) => (7, question.contents_row, question),
            Asked::ReportMetadata => (8, 0, nothing),
        };
        self.words(&[kind, number])?;
        for number in [address.zoom, address.column, address.row] {
            self.out.write_all(&number.to_le_bytes())?;
        }
        self.buffers(call.work, call.fill, &call.expected(given))
    }

    fn write(&mut self, call: &WriteCall, parts: &Parts) -> Result<()> {
        // No number, and no address.
        self.words(&[4, 0, 0, 0, 0, 0, 0, 0])?;
        self.buffers(0, call.fill, &call.expected(parts))
    }

    /// The lengths of the buffers of a call, and what must become of them.
    fn buffers(&mut self, work: usize, fill: u8, expected: &Expected) -> Result<()> {
        let Expected { returned, output, answer, keeps_work } = expected;
        self.words(&[output.len(), work, answer.len()].map(|length| length as u32))?;
        self.words(&[u32::from(fill), *returned, u32::from(*keeps_work)])?;
        self.out.write_all(output)?;
        self.out.write_all(answer)
    }

    fn octets(&mut self, octets: &[u8]) -> Result<()> {
        self.words(&[octets.len() as u32])?;
        self.out.write_all(octets)
    }

    fn words(&mut self, words: &[u32]) -> Result<()> {
        words.iter().try_for_each(|word| self.out.write_all(&word.to_le_bytes()))
    }
}
