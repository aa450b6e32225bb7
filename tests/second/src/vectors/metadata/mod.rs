//! Request 2026-05: a metadata listing beside a tile listing, and its readings 5.1
//! to 5.19 on both sides.

mod answers;
mod ids;
mod layout;
mod names;
mod refusals;
mod scopes;
mod texts;

use super::base::{valley, MOMENT};
use super::{findings_as_text, Tally};
use crate::calls::report_metadata;
use crate::make::MetadataDraft;

pub fn check(tally: &mut Tally) {
    layout::check(tally);
    refusals::check(tally);
    texts::check(tally);
    scopes::check(tally);
    names::check(tally);
    ids::check(tally);
    answers::check(tally);
}

/// The header alone, in octets: version 1, length 32, counts 0, offsets 32.
fn header_alone() -> Vec<u8> {
    let mut octets = vec![1, 0, 0, 0, 32, 0, 0, 0];
    for _ in 0..3 {
        octets.extend([0, 0, 0, 0, 32, 0, 0, 0]);
    }
    octets
}

/// A metadata listing without findings beside the valley: files 1, 2 and 3, and a
/// reference of each scope. Tables start at 32, 80 and 400.
fn survey() -> MetadataDraft {
    let mut draft = MetadataDraft::default();
    draft.metadata(1, "dataset");
    draft.metadata(2, "series");
    draft.metadata(3, "undefined");
    let (name, column): (Option<&[u8]>, Option<&[u8]>) = (Some(b"valley"), Some(b"tile_data"));
    draft.reference("geopackage", [None, None], MOMENT, 1);
    draft.reference("table", [name, None], MOMENT, 2);
    draft.reference("column", [name, column], MOMENT, 2);
    draft.reference("row", [name, None], MOMENT, 3);
    draft.reference("row/col", [name, column], MOMENT, 3);
    draft.references[1].set_numbers(None, Some(1));
    draft.references[2].set_numbers(None, Some(1));
    draft.references[3].set_numbers(Some(7), Some(2));
    draft.references[4].set_numbers(Some(0), Some(2));
    draft
}

/// The survey with one reference alone, of a scope and with these texts and row id.
fn one_reference(
    scope: &str,
    table_name: Option<&str>,
    column_name: Option<&str>,
    row_id: Option<i64>,
) -> MetadataDraft {
    let mut draft = survey();
    draft.references.clear();
    let texts = [table_name, column_name].map(|text| text.map(str::as_bytes));
    draft.reference(scope, texts, MOMENT, 1);
    draft.references[0].set_numbers(row_id, None);
    draft
}

impl Tally {
    /// The whole report on a metadata listing beside a tile listing.
    fn beside(&mut self, shows: &str, listing: &[u8], metadata: &[u8], want: &str) {
        let got = findings_as_text(report_metadata(listing, metadata));
        self.same(shows, got, want.to_string());
    }

    /// The whole report on a metadata listing beside the valley.
    fn noted(&mut self, shows: &str, metadata: &[u8], want: &str) {
        self.beside(shows, &valley().listing(), metadata, want);
    }

    /// The whole report on the survey after one change.
    fn surveyed(&mut self, shows: &str, want: &str, change: impl FnOnce(&mut MetadataDraft)) {
        let mut draft = survey();
        change(&mut draft);
        self.noted(shows, &draft.listing(), want);
    }
}
