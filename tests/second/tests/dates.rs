//! Every date of four centuries, through 151 and 1005: those that pass are the days
//! that a count of days comes to, which knows no month's length.

use std::collections::BTreeSet;
use std::ops::RangeInclusive;

use second::calls::{report, report_metadata};
use second::generate::{date_listing, date_metadata, dates, dates_of_year, HALVES};
use second::rules::Finding;

const YEARS: RangeInclusive<u32> = 1601..=2000;

/// The date of a day, counted from March 1 of year 0000. A year that begins in March
/// has its leap day last, and any five months in a row before that have 153 days.
fn date_of(day: u32) -> (u32, u32, u32) {
    let (cycle, of_cycle) = (day / 146_097, day % 146_097);
    let year = (of_cycle - of_cycle / 1_460 + of_cycle / 36_524 - of_cycle / 146_096) / 365;
    let of_year = of_cycle - (365 * year + year / 4 - year / 100);
    let month = (5 * of_year + 2) / 153;
    let of_month = of_year - (153 * month + 2) / 5;
    let year = 400 * cycle + year;
    match month < 10 {
        true => (year, month + 3, of_month + 1),
        false => (year + 1, month - 9, of_month + 1),
    }
}

fn days_by_count() -> BTreeSet<String> {
    let days = (0..6 * 146_097).map(date_of).filter(|(year, _, _)| YEARS.contains(year));
    days.map(|(year, month, day)| format!("{year:04}-{month:02}-{day:02}")).collect()
}

/// The dates of some rows that have no finding under a code.
fn passed(
    dates: impl Iterator<Item = String>,
    findings: Vec<Finding>,
    code: u32,
) -> impl Iterator<Item = String> {
    let found = findings.into_iter().filter(move |finding| finding.code == code);
    let rows: BTreeSet<u32> = found.map(|finding| finding.row).collect();
    (0..).zip(dates).filter(move |(row, _)| !rows.contains(row)).map(|(_, date)| date)
}

#[test]
fn days_that_151_lets_pass_are_those_of_the_count() {
    let mut days = BTreeSet::new();
    for year in YEARS {
        for months in HALVES {
            let findings = report(&date_listing(year, months.clone())).expect("accepted");
            days.extend(passed(dates(year, months), findings, 151));
        }
    }
    assert_eq!(days.len(), 146_097);
    assert!(days == days_by_count());
}

#[test]
fn days_that_1005_lets_pass_are_those_of_the_count() {
    let mut days = BTreeSet::new();
    for year in YEARS {
        let case = date_metadata(year);
        let findings = report_metadata(&case.listing, &case.metadata).expect("accepted");
        days.extend(passed(dates_of_year(year), findings, 1005));
    }
    assert!(days == days_by_count());
}
