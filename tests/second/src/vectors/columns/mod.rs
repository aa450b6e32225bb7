//! Request 2026-04: the tile table in columns, and its readings 4.1 to 4.13 on
//! both sides.
//!
//! An expected fill is its columns in numbers, or `refused N T R`; an expected
//! lookup `tile ROW`, `tile -`, or that.

mod answers;
mod entries;
mod fills;
mod tiles;

use super::base::valley;
use super::{findings_as_text, Tally};
use crate::calls::{fill, lookup_columns, report_columns, Columns, Question};
use crate::desk::{refused, row_or_dash};
use crate::listing::NONE;
use crate::make::Draft;

pub fn check(tally: &mut Tally) {
    fills::check(tally);
    entries::check(tally);
    tiles::check(tally);
    answers::check(tally);
}

/// Columns in numbers: names, zooms, columns, rows.
type Numbers = [Vec<i64>; 4];

/// "valley" in the valley's names: start 33, length 6.
const VALLEY: i64 = 141_733_920_774;

/// What a fill writes for the valley's three tiles.
fn valley_columns() -> Numbers {
    [vec![VALLEY, VALLEY, VALLEY], vec![0, 1, 2], vec![0, 1, 3], vec![0, 0, 3]]
}

/// The same with one name changed.
fn named(entry: usize, name: i64) -> Numbers {
    let mut columns = valley_columns();
    columns[0][entry] = name;
    columns
}

fn octets(columns: &Numbers) -> Columns {
    let in_octets = |column: &Vec<i64>| column.iter().flat_map(|n| n.to_le_bytes()).collect();
    columns.each_ref().map(in_octets)
}

/// The valley with these octets behind its 96 names, to which no row refers.
fn valley_and(names: &[u8]) -> Draft {
    let mut draft = valley();
    draft.text_apart(names);
    draft
}

impl Tally {
    /// The whole report by columns.
    fn judged_by(&mut self, shows: &str, listing: &[u8], columns: &Numbers, want: &str) {
        let got = findings_as_text(report_columns(listing, &octets(columns)));
        self.same(shows, got, want.to_string());
    }

    /// The whole report on the valley by columns.
    fn valley_by(&mut self, shows: &str, columns: &Numbers, want: &str) {
        self.judged_by(shows, &valley().listing(), columns, want);
    }

    fn looked_up_by(
        &mut self,
        shows: &str,
        listing: &[u8],
        columns: &Numbers,
        [contents_row, zoom, column, row]: [i64; 4],
        want: &str,
    ) {
        let question = Question { contents_row: contents_row as u32, zoom, column, row };
        let got = match lookup_columns(listing, &octets(columns), question) {
            Ok(row) => format!("tile {}", row_or_dash(row.unwrap_or(NONE))),
            Err(refusal) => refused(refusal),
        };
        self.same(shows, got, want.to_string());
    }

    /// All three calls are refused alike.
    fn refused_all(&mut self, shows: &str, listing: &[u8], columns: &Columns, want: &str) {
        let question = Question { contents_row: 0, zoom: 0, column: 0, row: 0 };
        let refusals = [
            fill(listing, columns).err(),
            report_columns(listing, columns).err(),
            lookup_columns(listing, columns, question).err(),
        ];
        let got = refusals.map(|refusal| refusal.map_or("accepted".to_string(), refused));
        self.same(shows, got, [0; 3].map(|_| want.to_string()));
    }
}
