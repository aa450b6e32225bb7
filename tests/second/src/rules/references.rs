//! Codes of the reference systems: 101, 111, 112, 113.

use super::hashing::QuickMap;
use super::judge::Judge;
use super::{over_rows, when, Finding, Findings};
use crate::listing::Reference;

/// 101: an earlier row has its srs_id.
pub fn rule_101<'j>(judge: &'j Judge<'_>) -> Findings<'j> {
    let mut first_with: QuickMap<i64, u32> = QuickMap::default();
    over_rows(101, judge.references.len(), move |row| {
        let srs_id = judge.references[row].srs_id;
        let first = *first_with.entry(srs_id).or_insert(row as u32);
        (first < row as u32).then_some(first)
    })
}

/// 111: row 4326 is not EPSG's.
pub fn rule_111<'j>(judge: &'j Judge<'_>) -> Findings<'j> {
    well_known(judge, 111, 4326, |row| row.organization.eq_ignore_ascii_case(b"EPSG"))
}

/// 112: row -1 is not the undefined Cartesian one.
pub fn rule_112<'j>(judge: &'j Judge<'_>) -> Findings<'j> {
    well_known(judge, 112, -1, is_undefined)
}

/// 113: row 0 is not the undefined geographic one.
pub fn rule_113<'j>(judge: &'j Judge<'_>) -> Findings<'j> {
    well_known(judge, 113, 0, is_undefined)
}

fn is_undefined(row: &Reference) -> bool {
    row.organization.eq_ignore_ascii_case(b"NONE") && row.definition == b"undefined"
}

/// A row that every pack has: each row with the id is judged, and where there
/// is none the finding has no row. The coordsys id is the id itself.
fn well_known<'j>(
    judge: &'j Judge<'_>,
    code: u32,
    srs_id: i64,
    is_described: fn(&Reference) -> bool,
) -> Findings<'j> {
    let rows = &judge.references;
    if rows.iter().all(|row| row.srs_id != srs_id) {
        return Box::new(std::iter::once(Finding::without_row(code)));
    }
    over_rows(code, rows.len(), move |row| {
        let row = &rows[row];
        when(row.srs_id == srs_id && !(row.coordsys_id == srs_id && is_described(row)))
    })
}
