//! 151's moments: their form, both sides of each month's length, and how many days
//! a year has. Request 2026-06 changes none of it.

use super::Tally;
use crate::calls::report;
use crate::generate::{date_listing, HALVES};

pub fn check(tally: &mut Tally) {
    check_moments(tally);
    check_months(tally);
    check_years(tally);
}

const GOOD_MOMENTS: [&str; 10] = [
    "2024-02-29T00:00:00.000Z",
    "0000-02-29T00:00:00.000Z",
    "2000-02-29T00:00:00.000Z",
    "2400-02-29T23:59:59.999Z",
    "9999-12-31T23:59:59.999Z",
    "0000-01-01T00:00:00.000Z",
    "2023-02-28T00:00:00.000Z",
    "1900-02-28T12:34:56.789Z",
    "0004-02-29T19:09:09.090Z",
    "2023-10-10T20:10:10.100Z",
];

const BAD_MOMENTS: [&str; 36] = [
    "2023-02-29T00:00:00.000Z",
    "1900-02-29T00:00:00.000Z",
    "2100-02-29T00:00:00.000Z",
    "0100-02-29T00:00:00.000Z",
    "2024-02-30T00:00:00.000Z",
    "2024-00-10T00:00:00.000Z",
    "2024-13-10T00:00:00.000Z",
    "2024-99-10T00:00:00.000Z",
    "2024-01-00T00:00:00.000Z",
    "2024-01-99T00:00:00.000Z",
    "2024-01-10T24:00:00.000Z",
    "2024-01-10T23:60:00.000Z",
    "2024-01-10T23:59:60.000Z",
    "2024-01-10T23:59:60.999Z",
    "2024-01-10t00:00:00.000Z",
    "2024-01-10 00:00:00.000Z",
    "2024-01-10T00:00:00.000z",
    "2024-01-10T00:00:00.000",
    "2024-01-10T00:00:00.000Z ",
    "2024-01-10T00:00:00.0000",
    "2024-01-10T00:00:00.00Z",
    "2024-01-10T00:00:00Z",
    "2024-01-10",
    "",
    "02024-01-10T00:00:00.00Z",
    "+024-01-10T00:00:00.000Z",
    "-024-01-10T00:00:00.000Z",
    "2024/01/10T00:00:00.000Z",
    "2024-01-10T00-00-00.000Z",
    "2024-01-10T00:00:00,000Z",
    "2024-01-10T00:00:00.0a0Z",
    "2024-01-1:T00:00:00.000Z",
    "2024-01-/0T00:00:00.000Z",
    "2024-1-010T00:00:00.000Z",
    "2024-01-10T00:00:00.00 Z",
    "\x00024-01-10T00:00:00.000Z",
];

fn check_moments(tally: &mut Tally) {
    let good = GOOD_MOMENTS.map(|moment| (moment, ""));
    let bad = BAD_MOMENTS.map(|moment| (moment, "151 0 -"));
    for (moment, want) in good.into_iter().chain(bad) {
        tally.changed(&format!("151: {moment:?}"), want, |d| {
            d.contents[0].last_change = d.text_apart(moment);
        });
    }
    tally.changed("151: whatever the data_type", "151 1 -, 151 2 -", |d| {
        d.content("a", "features", "", None);
        d.content("b", "other", "2023-02-29T00:00:00.000Z", None);
    });
}

/// Years on both sides of each turn of a century, some others, and the first and the
/// last; and how many days each has.
const YEARS: [(u32, usize); 34] = [
    (0, 366),
    (1, 365),
    (4, 366),
    (99, 365),
    (100, 365),
    (101, 365),
    (399, 365),
    (400, 366),
    (401, 365),
    (1599, 365),
    (1600, 366),
    (1601, 365),
    (1699, 365),
    (1700, 365),
    (1701, 365),
    (1799, 365),
    (1800, 365),
    (1801, 365),
    (1899, 365),
    (1900, 365),
    (1901, 365),
    (1904, 366),
    (1999, 365),
    (2000, 366),
    (2001, 365),
    (2023, 365),
    (2024, 366),
    (2096, 366),
    (2099, 365),
    (2100, 365),
    (2101, 365),
    (9996, 366),
    (9998, 365),
    (9999, 365),
];

/// The last day of each month but February, and the day after it.
const LASTS: [&str; 11] = [
    "01-31", "03-31", "04-30", "05-31", "06-30", "07-31", "08-31", "09-30", "10-31", "11-30",
    "12-31",
];
const AFTERS: [&str; 11] = [
    "01-32", "03-32", "04-31", "05-32", "06-31", "07-32", "08-32", "09-31", "10-32", "11-31",
    "12-32",
];

/// Both sides of each month's length, in each of these years.
fn check_months(tally: &mut Tally) {
    for (year, days) in YEARS {
        let (last, after) = match days {
            366 => ("02-29", "02-30"),
            _ => ("02-28", "02-29"),
        };
        for day in LASTS.into_iter().chain([last]) {
            check_day(tally, year, day, "");
        }
        for day in AFTERS.into_iter().chain([after]) {
            check_day(tally, year, day, "151 0 -");
        }
    }
}

fn check_day(tally: &mut Tally, year: u32, day: &str, want: &str) {
    tally.changed(&format!("151: month lengths, {year:04}-{day}"), want, |d| {
        let moment = format!("{year:04}-{day}T00:00:00.000Z");
        d.contents[0].last_change = d.text_apart(moment);
    });
}

/// How many of all dates of a year 151 lets pass, and of four centuries.
fn check_years(tally: &mut Tally) {
    for (year, days) in YEARS {
        tally.same(&format!("151: the days of {year:04}"), days_that_pass(year), days);
    }
    let days: usize = (1601..=2000).map(days_that_pass).sum();
    tally.same("151: the days of four centuries", days, 146_097);
}

fn days_that_pass(year: u32) -> usize {
    let in_half = |months| {
        let findings = report(&date_listing(year, months)).unwrap_or_default();
        231 - findings.iter().filter(|finding| finding.code == 151).count()
    };
    HALVES.map(in_half).iter().sum()
}
