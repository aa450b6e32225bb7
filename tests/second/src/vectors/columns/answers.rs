//! The octets of the three C calls on columns.

use super::super::base::valley;
use super::super::calls::octets as words;
use super::{named, octets, valley_columns, Tally};
use crate::calls::{fill_call, lookup_columns_call, report_columns_call, Columns, Question};

const NONE: u32 = 4_294_967_295;

pub fn check(tally: &mut Tally) {
    check_fills(tally);
    check_reports(tally);
    check_lookups(tally);
    check_short_answers(tally);
}

/// Number, table, row. A refused fill writes no column, not even a long one.
fn check_fills(tally: &mut Tally) {
    let listing = valley().listing();
    let longer = octets(&valley_columns()).map(|column| [column, vec![0xcc; 11]].concat());
    for more in [0, 1, 9] {
        let called = fill_call(&listing, &[0; 4].map(|_| vec![0xcc; 35]), &vec![0xbb; 12 + more]);
        tally.same("fill returns 1", called.returned, 1);
        tally.same("fill: answer", called.answer, words(&[0, 0, 0], &vec![0xbb; more]));
        tally.same("fill: columns", called.columns, longer.clone());
    }
    let short = [24, 24, 24, 23].map(|length| vec![0xcc; length]);
    let called = fill_call(&listing, &short, &[0xbb; 14]);
    tally.same("a refused fill returns 1", called.returned, 1);
    let answer = vec![14, 0, 0, 0, 5, 0, 0, 0, 0, 0, 0, 0, 0xbb, 0xbb];
    tally.same("a refused fill: answer", called.answer, answer);
    tally.same("a refused fill: no column is written", called.columns, short);
    let mut outside = valley();
    outside.tiles[2].table_name.start = 97;
    let called = fill_call(&outside.listing(), &longer, &[0; 12]);
    tally.same("fill: 7 of a row", called.answer, words(&[7, 5, 2], &[]));
    tally.same("fill: all columns are kept", called.columns, longer);
}

/// As report's: number, table, row, total, written.
fn check_reports(tally: &mut Tally) {
    let listing = valley().listing();
    // All at the address of entry 0.
    let mut alike = valley_columns();
    alike[1..].iter_mut().for_each(|column| column.fill(0));
    let alike = octets(&alike);
    let called = report_columns_call(&listing, &alike, &[0xaa; 30], &[0xbb; 22]);
    tally.same("report returns 1", called.returned, 1);
    tally.same("report: answer", called.answer, words(&[0, 0, 0, 2, 2], &[0xbb; 2]));
    let findings = words(&[541, 1, 0, 541, 2, 0], &[0xaa; 6]);
    tally.same("report: findings", called.findings, findings);
    let called = report_columns_call(&listing, &alike, &[0xaa; 23], &[0; 20]);
    tally.same("report: room for one", called.answer, words(&[0, 0, 0, 2, 1], &[]));
    tally.same("report: one", called.findings, words(&[541, 1, 0], &[0xaa; 11]));
    let short = [24, 0, 24, 24].map(|length| vec![0; length]);
    let refused = [(octets(&named(1, -1)), [7, 5, 1, 0, 0]), (short, [14, 5, 0, 0, 0])];
    for (columns, answer) in refused {
        let called = report_columns_call(&listing, &columns, &[0xaa; 24], &[0; 20]);
        tally.same("a refused report: answer", called.answer, words(&answer, &[]));
        tally.same("a refused report: findings", called.findings, vec![0xaa; 24]);
    }
}

/// As lookup's: tile, number, table, row.
fn check_lookups(tally: &mut Tally) {
    let listing = valley().listing();
    let question = |contents_row, column| Question { contents_row, zoom: 2, column, row: 3 };
    let as_filled = octets(&valley_columns());
    let cases = [
        ("a tile", &as_filled, question(0, 3), [2, 0, 0, 0]),
        ("no tile", &as_filled, question(0, 2), [NONE, 0, 0, 0]),
        ("no contents row", &as_filled, question(7, 3), [NONE, 10, 0, 0]),
        ("an entry outside", &octets(&named(1, -1)), question(0, 3), [NONE, 7, 5, 1]),
        ("columns too short", &Columns::default(), question(0, 3), [NONE, 14, 5, 0]),
    ];
    for (shows, columns, question, answer) in cases {
        let called = lookup_columns_call(&listing, columns, question, &[0xdd; 19]);
        tally.same("lookup returns 1", called.returned, 1);
        let want = words(&answer, &[0xdd; 3]);
        tally.same(&format!("lookup: {shows}"), called.answer, want);
    }
}

/// Too short an answer: nothing is written anywhere, before any refusal.
fn check_short_answers(tally: &mut Tally) {
    let question = Question { contents_row: 0, zoom: 2, column: 3, row: 3 };
    let blank: Columns = [0; 4].map(|_| vec![0xcc; 24]);
    for listing in [valley().listing(), Vec::new()] {
        for columns in [octets(&valley_columns()), blank.clone(), Columns::default()] {
            for length in [0, 1, 8, 11] {
                let called = fill_call(&listing, &columns, &vec![0xee; length]);
                tally.same("fill: a short answer returns 0", called.returned, 0);
                tally.same("fill: answer kept", called.answer, vec![0xee; length]);
                tally.same("fill: columns kept", &called.columns, &columns);
            }
            for length in [0, 12, 16, 19] {
                let called = report_columns_call(&listing, &columns, &[3; 24], &vec![0xee; length]);
                tally.same("report: a short answer returns 0", called.returned, 0);
                tally.same("report: answer kept", called.answer, vec![0xee; length]);
                tally.same("report: findings kept", called.findings, vec![3; 24]);
            }
            for length in [0, 12, 15] {
                let called = lookup_columns_call(&listing, &columns, question, &vec![0xee; length]);
                tally.same("lookup: a short answer returns 0", called.returned, 0);
                tally.same("lookup: answer kept", called.answer, vec![0xee; length]);
            }
        }
    }
}
