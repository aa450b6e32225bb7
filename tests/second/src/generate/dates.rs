//! Listings of dates, half a year at a time: days 00 to 32 of months 00 to 13, so
//! every day that the year has and those around it, one in each contents row; and
//! metadata listings with a whole year's as timestamps.

use std::ops::RangeInclusive;

use super::MetadataCase;
use crate::make::{span, ContentsRow, Draft, MetadataDraft};

pub type Months = RangeInclusive<u32>;

/// The months of each listing: the contents have room for 256 rows, and half a year
/// has 231 dates.
pub const HALVES: [Months; 2] = [0..=6, 7..=13];
const MONTHS: Months = 0..=13;
const DAYS: RangeInclusive<u32> = 0..=32;

/// The dates of some months of a year, by month and day.
pub fn dates(year: u32, months: Months) -> impl Iterator<Item = String> {
    let of_month = move |month| DAYS.map(move |day| format!("{year:04}-{month:02}-{day:02}"));
    months.flat_map(of_month)
}

/// The dates of a whole year.
pub fn dates_of_year(year: u32) -> impl Iterator<Item = String> {
    dates(year, MONTHS)
}

fn moment(date: String) -> String {
    date + "T12:00:00.000Z"
}

/// A listing with the dates of some months in its contents, each row named by its own.
pub fn date_listing(year: u32, months: Months) -> Vec<u8> {
    let mut draft = Draft::default();
    for date in dates(year, months) {
        let moment = draft.text_apart(moment(date));
        draft.contents.push(ContentsRow {
            table_name: moment,
            data_type: span(0, 0),
            last_change: moment,
            srs_id: 0,
            flag: 0,
            spare: 0,
        });
    }
    draft.listing()
}

/// A metadata listing with the dates of a year, beside a tile listing without rows.
pub fn date_metadata(year: u32) -> MetadataCase {
    let mut draft = MetadataDraft::default();
    draft.metadata(1, "dataset");
    for date in dates_of_year(year) {
        draft.reference("geopackage", [None, None], "", 1);
        let timestamp = draft.text_apart(moment(date));
        if let Some(row) = draft.references.last_mut() {
            row.timestamp = timestamp;
        }
    }
    MetadataCase { kind: "dates", listing: Draft::default().listing(), metadata: draft.listing() }
}
