//! 4.11: columns are judged as the tile rows that they spell.

use super::super::base::valley;
use super::{named, valley_columns, Numbers, Tally, VALLEY};
use crate::make::Draft;

pub fn check(tally: &mut Tally) {
    check_as_filled(tally);
    check_each_code(tally);
    check_doubled(tally);
    check_gate_of_351(tally);
    check_rows_are_not_judged(tally);
    check_lookups(tally);
}

/// One tile in columns.
fn one(name: i64, zoom: i64, column: i64, row: i64) -> Numbers {
    [vec![name], vec![zoom], vec![column], vec![row]]
}

/// The valley's columns with one number changed.
fn with(column: usize, entry: usize, value: i64) -> Numbers {
    let mut columns = valley_columns();
    columns[column][entry] = value;
    columns
}

fn check_as_filled(tally: &mut Tally) {
    tally.valley_by("as filled: no finding, as by rows", &valley_columns(), "");
    let mut reversed = valley_columns();
    reversed.iter_mut().for_each(|column| column.reverse());
    tally.valley_by("in another order", &reversed, "");
    let mut draft = valley();
    draft.tile("hill", 2, 3, 3);
    draft.tile("valley", 2, 3, 3);
    let mut columns = valley_columns();
    // "hill" is put behind the 96 names.
    for (column, values) in
        columns.iter_mut().zip([[(96 << 32) + 4, VALLEY], [2, 2], [3, 3], [3, 3]])
    {
        column.extend(values);
    }
    let want = "341 3 -, 441 3 -, 541 4 2";
    tally.judged("by rows", &draft.listing(), want);
    tally.judged_by("and by columns", &draft.listing(), &columns, want);
}

/// The valley's levels 0, 1 and 2 have 1, 2 and 4 tiles a side.
fn check_each_code(tally: &mut Tally) {
    let cases = [
        ("341 and 441: another name", named(0, 0), "341 0 -, 441 0 -"),
        ("441: zoom 3", with(1, 0, 3), "441 0 -, 551 0 -"),
        ("551: zoom -1", with(1, 1, -1), "441 1 -, 551 1 -"),
        ("551: the least zoom", with(1, 2, i64::MIN), "441 2 -, 551 2 -"),
        ("561: column 4 of 4", with(2, 2, 4), "561 2 -"),
        ("561: column 2 of 4", with(2, 2, 2), ""),
        ("561: column -1", with(2, 2, -1), "561 2 -"),
        ("561: the greatest column", with(2, 0, i64::MAX), "561 0 -"),
        ("571: row 4 of 4", with(3, 2, 4), "571 2 -"),
        ("571: row 0 of 4", with(3, 2, 0), ""),
        ("571: row 2 of 2", with(3, 1, 2), "571 1 -"),
        ("571: the least row", with(3, 0, i64::MIN), "571 0 -"),
        ("561: 2^32 is not 0", with(2, 0, 1 << 32), "561 0 -"),
    ];
    for (shows, columns, want) in cases {
        tally.valley_by(shows, &columns, want);
    }
    let off = [vec![VALLEY; 3], vec![9, 1, 2], vec![0, 2, 4], vec![0, -1, 3]];
    tally.valley_by("several", &off, "441 0 -, 551 0 -, 561 1 -, 561 2 -, 571 1 -");
}

/// Partners are entries.
fn check_doubled(tally: &mut Tally) {
    let equal = |numbers: [i64; 3]| numbers.to_vec();
    let cases = [
        ("the last as the first", equal([0, 1, 0]), equal([0, 1, 0]), equal([0, 0, 0]), "541 2 0"),
        ("the first as the last", equal([2, 1, 2]), equal([3, 1, 3]), equal([3, 0, 3]), "541 2 0"),
        ("two alike", equal([1, 1, 2]), equal([1, 1, 3]), equal([0, 0, 3]), "541 1 0"),
        ("all alike", equal([0; 3]), equal([0; 3]), equal([0; 3]), "541 1 0, 541 2 0"),
        ("another row", equal([2; 3]), equal([1; 3]), equal([0, 1, 2]), ""),
        ("another column", equal([2; 3]), equal([2, 1, 0]), equal([3; 3]), ""),
    ];
    for (shows, zooms, columns, rows, want) in cases {
        tally.valley_by(&format!("541: {shows}"), &[vec![VALLEY; 3], zooms, columns, rows], want);
    }
    // The name once more behind the names, at 96: the octets count, not the place.
    let mut draft = valley();
    draft.text_apart("valley");
    let elsewhere =
        [vec![VALLEY, 412_316_860_422, VALLEY], vec![0, 0, 2], vec![0, 0, 3], vec![0, 0, 3]];
    tally.judged_by("541: a name elsewhere", &draft.listing(), &elsewhere, "541 1 0");
    let none = [vec![0, VALLEY, 7 << 32], vec![5; 3], vec![5; 3], vec![5; 3]];
    let want = "341 0 -, 341 2 -, 441 0 -, 441 1 -, 441 2 -, 541 2 0, 551 1 -";
    tally.valley_by("541: empty names at two places", &none, want);
}

/// Levels 0 and 1 with pixels 3.0 and 1.0, and one tile row of this name.
fn three_to_one(name: &str) -> Vec<u8> {
    let mut draft: Draft = valley();
    draft.sets[0].corners = [0.0, 0.0, 768.0, 768.0];
    draft.matrices.clear();
    draft.tiles.clear();
    draft.matrix("valley", 0, 1, 3.0);
    draft.matrix("valley", 1, 3, 1.0);
    draft.tile(name, 0, 0, 0);
    draft.listing()
}

/// 351 is judged where the name has a tile: one of the columns.
fn check_gate_of_351(tally: &mut Tally) {
    let (named, nameless) = (three_to_one("valley"), three_to_one(""));
    tally.judged("351: a tile row of the name", &named, "351 1 0");
    tally.judged("351: none", &nameless, "341 0 -, 441 0 -");
    for listing in [named, nameless] {
        let tile = one(VALLEY, 0, 0, 0);
        tally.judged_by("351: an entry of the name", &listing, &tile, "351 1 0");
        let tile = one(0, 0, 0, 0);
        tally.judged_by("351: none", &listing, &tile, "341 0 -, 441 0 -");
        let tile = one(VALLEY, 77, 0, 0);
        let want = "351 1 0, 441 0 -, 551 0 -";
        tally.judged_by("351: at any zoom", &listing, &tile, want);
        let tile = one(VALLEY - 1, 0, 0, 0);
        tally.judged_by("351: \"valle\"", &listing, &tile, "341 0 -, 441 0 -");
    }
}

/// Rows that are wrong by themselves show nothing where the columns are good.
fn check_rows_are_not_judged(tally: &mut Tally) {
    let mut draft = valley();
    draft.tiles[1] = draft.tiles[0];
    draft.tiles[2].column = -5;
    let listing = draft.listing();
    tally.judged("by rows", &listing, "541 1 0, 561 2 -");
    tally.judged_by("by columns", &listing, &valley_columns(), "");
    tally.looked_up_by("lookup", &listing, &valley_columns(), [0, 1, 1, 0], "tile 1");
    let columns = with(3, 0, 1);
    tally.judged_by("by other columns", &listing, &columns, "571 0 -");
}

fn check_lookups(tally: &mut Tally) {
    let listing = valley().listing();
    let as_filled = valley_columns();
    for (address, want) in [
        ([0, 0, 0, 0], "tile 0"),
        ([0, 1, 1, 0], "tile 1"),
        ([0, 2, 3, 3], "tile 2"),
        ([0, 2, 3, 2], "tile -"),
        ([0, 2, 2, 3], "tile -"),
        ([0, 1, 3, 3], "tile -"),
        ([0, i64::MIN, -1, i64::MAX], "tile -"),
    ] {
        tally.looked_up_by("as filled", &listing, &as_filled, address, want);
    }
    // Entry 1 is made equal to entry 2, and entry 0 is far away.
    let altered = [vec![VALLEY; 3], vec![-1, 2, 2], vec![1 << 40, 3, 3], vec![i64::MIN, 3, 3]];
    for (address, want) in [
        ([0, 2, 3, 3], "tile 1"),
        ([0, 1, 1, 0], "tile -"),
        ([0, 0, 0, 0], "tile -"),
        ([0, -1, 1 << 40, i64::MIN], "tile 0"),
    ] {
        tally.looked_up_by("altered: the lowest entry", &listing, &altered, address, want);
    }
    let other = named(2, 141_733_920_773);
    tally.looked_up_by("another name", &listing, &other, [0, 2, 3, 3], "tile -");
    let mut draft = valley();
    draft.text_apart("valley");
    let elsewhere = named(2, 412_316_860_422);
    let listing = draft.listing();
    tally.looked_up_by("the name elsewhere", &listing, &elsewhere, [0, 2, 3, 3], "tile 2");
}
