//! Verdicts and lookups, with refusals 9 and 10.

use super::base::{header_alone, valley, MOMENT};
use super::Tally;
use crate::calls::{lookup, verdict, Question, Verdict};
use crate::listing::{Refusal, NONE};
use crate::make::Draft;

pub fn check(tally: &mut Tally) {
    check_all_codes(tally);
    check_empty_tables(tally);
    check_unknown_codes(tally);
    check_lookups(tally);
    check_refused_lookups(tally);
}

/// Reading 17: the codes of each table, in order.
const CODES_OF_TABLES: [&[u32]; 6] = [
    &[101, 111, 112, 113],
    &[131, 151, 161, 162, 171, 401],
    &[391, 392, 411],
    &[351, 431, 432, 451, 452, 461, 471, 481, 491, 501, 511, 521, 531],
    &[341, 441, 541, 551, 561, 571],
    &[601, 621, 622, 641],
];

/// Every code on the good pack and on the header alone.
fn check_all_codes(tally: &mut Tally) {
    let (good, header) = (valley().listing(), header_alone());
    for code in CODES_OF_TABLES.concat() {
        let shows = format!("verdict {code} on the valley pack");
        tally.same(&shows, verdict(&good, code), Ok(Verdict::Pass));
        let shows = format!("verdict {code} on the header alone");
        let want = match code {
            111 | 112 | 113 | 171 => Verdict::Fail(NONE),
            _ => Verdict::NotTestable,
        };
        tally.same(&shows, verdict(&header, code), Ok(want));
    }
}

/// The valley without one table, and the codes that then fail.
type Emptied = (fn(&mut Draft), &'static [(u32, u32)]);

const EMPTIED: [Emptied; 6] = [
    (|d| d.references.clear(), &[(111, NONE), (112, NONE), (113, NONE), (161, 0), (411, 0)]),
    (|d| d.contents.clear(), &[(171, NONE), (341, 0), (391, 0), (431, 0)]),
    (|d| d.sets.clear(), &[(401, 0)]),
    (|d| d.matrices.clear(), &[(441, 0)]),
    (|d| d.tiles.clear(), &[]),
    (|d| d.extensions.clear(), &[]),
];

/// Not testable: the code's table is empty, and it is none of the four.
fn check_empty_tables(tally: &mut Tally) {
    for (table, (empty, fails)) in EMPTIED.into_iter().enumerate() {
        let mut draft = valley();
        empty(&mut draft);
        let octets = draft.listing();
        for code in CODES_OF_TABLES.concat() {
            let failed = fails.iter().find(|(failing, _)| *failing == code);
            let want = match failed {
                Some(&(_, row)) => Verdict::Fail(row),
                None if CODES_OF_TABLES[table].contains(&code) => Verdict::NotTestable,
                None => Verdict::Pass,
            };
            let shows = format!("verdict {code} with table {} empty", table + 1);
            tally.same(&shows, verdict(&octets, code), Ok(want));
        }
    }
    let mut draft = valley();
    draft.tile("valley", 1, 1, 0);
    draft.tile("valley", 1, 1, 0);
    let got = verdict(&draft.listing(), 541);
    tally.same("a fail has the lowest row", got, Ok(Verdict::Fail(3)));
}

/// Reading 6: 9 comes before 1, even for no octets at all.
fn check_unknown_codes(tally: &mut Tally) {
    let good = valley().listing();
    for code in
        [0, 1, 100, 102, 110, 114, 141, 152, 163, 172, 351_351, 393, 453, 532, 623, 642, 901, NONE]
    {
        let want = Err(Refusal::at_large(9));
        let shows = format!("verdict on {code}, which is not listed");
        tally.same(&shows, verdict(&good, code), want);
        tally.same("9 before 1", verdict(&[], code), want);
        tally.same("9 before 3", verdict(&[0; 64], code), want);
    }
    let want = Err(Refusal::at_large(1));
    tally.same("a listed code, no octets", verdict(&[], 541), want);
    let mut draft = valley();
    draft.tiles[2].table_name.length = 1_000_000;
    let got = verdict(&draft.listing(), 101);
    let want = Refusal::at(7, 5, 2);
    tally.same("a refused verdict has its place", got, Err(want));
}

fn question(contents_row: u32, zoom: i64, column: i64, row: i64) -> Question {
    Question { contents_row, zoom, column, row }
}

fn check_lookups(tally: &mut Tally) {
    let mut draft = valley();
    draft.content("valley", "tiles", MOMENT, Some(4326));
    draft.content("hill", "tiles", MOMENT, Some(4326));
    // Rows 3 to 7.
    draft.tile("hill", 2, 3, 3);
    draft.tile("valley", 2, 3, 3);
    draft.tile("valley", -5, i64::MIN, i64::MAX);
    draft.tile("valley", 1, 0, 1);
    draft.tile("hill", 1, 0, 1);
    draft.tiles[4].table_name = draft.text_apart("valley");
    draft.tiles[6].table_name = draft.text_apart("valley");
    let octets = draft.listing();
    let cases = [
        ("a tile", question(0, 0, 0, 0), Some(0)),
        ("the lowest row", question(0, 2, 3, 3), Some(2)),
        ("a later contents row", question(1, 2, 3, 3), Some(2)),
        ("another name", question(2, 2, 3, 3), Some(3)),
        ("its name at another place", question(0, 1, 0, 1), Some(6)),
        ("past a longer name", question(2, 1, 0, 1), Some(7)),
        ("outside every matrix", question(0, -5, i64::MIN, i64::MAX), Some(5)),
        ("no such zoom", question(0, 3, 3, 3), None),
        ("no such column", question(0, 2, 2, 3), None),
        ("no such row", question(0, 2, 3, 2), None),
        ("only under another name", question(2, 0, 0, 0), None),
        ("32 bits alike", question(0, 1 << 32, 0, 0), None),
    ];
    for (shows, question, want) in cases {
        tally.same(&format!("lookup: {shows}"), lookup(&octets, question), Ok(want));
    }
}

/// 10: a contents row that isn't there or is not "tiles"; checked after 8.
fn check_refused_lookups(tally: &mut Tally) {
    let mut draft = valley();
    for data_type in ["features", "Tiles", ""] {
        draft.content("valley", data_type, MOMENT, Some(4326));
    }
    let octets = draft.listing();
    let found = lookup(&octets, question(0, 0, 0, 0));
    tally.same("lookup on a \"tiles\" row", found, Ok(Some(0)));
    for row in [1, 2, 3, 4, 5, 256, NONE] {
        let got = lookup(&octets, question(row, 0, 0, 0));
        let shows = format!("lookup on contents row {row}");
        tally.same(&shows, got, Err(Refusal::at_large(10)));
    }
    let got = lookup(&header_alone(), question(0, 0, 0, 0));
    let want = Err(Refusal::at_large(10));
    tally.same("lookup without contents", got, want);
    draft.contents[3].spare = 1;
    let got = lookup(&draft.listing(), question(9, 0, 0, 0));
    tally.same("8 before 10", got, Err(Refusal::at(8, 2, 3)));
    let got = lookup(&[], question(0, 0, 0, 0));
    tally.same("1 before 10", got, Err(Refusal::at_large(1)));
}
