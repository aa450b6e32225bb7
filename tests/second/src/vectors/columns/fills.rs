//! The fill, and columns that are too short for any call.

use super::super::base::{header_alone, octets_of, reference_rows, valley};
use super::super::layout::ONE_ROW_EACH;
use super::{octets, valley_columns, Numbers, Tally};
use crate::calls::{fill, Columns};
use crate::listing::Refusal;
use crate::make::{set_count, set_u32, Draft};

pub fn check(tally: &mut Tally) {
    check_octets(tally);
    check_numbers(tally);
    check_short(tally);
    check_tile_count(tally);
    check_longer(tally);
    check_what_columns_held(tally);
    check_listing_first(tally);
}

/// Columns of these lengths, each octet 0xaa.
fn blank(lengths: [usize; 4]) -> Columns {
    lengths.map(|length| vec![0xaa; length])
}

/// 4.1 and 4.2: a tile with name (2, 1), zoom 9, column -1 and row -2^63.
fn check_octets(tally: &mut Tally) {
    let listing = octets_of(ONE_ROW_EACH);
    let entries = ["0100000002000000", "0900000000000000", "ffffffffffffffff", "0000000000000080"];
    let entries = entries.map(octets_of);
    tally.same("4.1: one tile", fill(&listing, &blank([8; 4])), Ok(entries.clone()));
    let lengths = [15, 16, 9, 23];
    let kept = [7, 8, 1, 15].map(|more| vec![0xaa; more]);
    let mut at = 0;
    let longer = entries.map(|entry| {
        at += 1;
        [entry, kept[at - 1].clone()].concat()
    });
    tally.same("4.5: octets past the entry", fill(&listing, &blank(lengths)), Ok(longer));
    for column in 0..4 {
        let mut lengths = [8; 4];
        lengths[column] = 7;
        let short = fill(&listing, &blank(lengths));
        tally.same("4.2: seven octets are no entry", short, Err(Refusal::at(14, 5, 0)));
    }
}

impl Tally {
    fn filled(&mut self, shows: &str, draft: &Draft, want: &Numbers) {
        let lengths = want.each_ref().map(|column| 8 * column.len());
        self.same(shows, fill(&draft.listing(), &blank(lengths)), Ok(octets(want)));
    }
}

/// 4.10: start times 2^32 plus length, just as they stand in the row.
fn check_numbers(tally: &mut Tally) {
    tally.filled("4.1: the valley's three tiles", &valley(), &valley_columns());
    let mut draft = valley();
    draft.tiles[0].table_name = draft.text_apart("valley");
    draft.tiles[1].table_name.length = 0;
    draft.tiles[1].zoom = -1;
    draft.tiles[2].column = i64::MAX;
    draft.tiles[2].row = i64::MIN;
    let want = [
        // 96 * 2^32 + 6, and 33 * 2^32.
        vec![412_316_860_422, 141_733_920_768, 141_733_920_774],
        vec![0, -1, 2],
        vec![0, 1, i64::MAX],
        vec![0, 0, i64::MIN],
    ];
    tally.filled("4.10: nothing is tidied", &draft, &want);
    tally.filled("no tiles, no entries", &reference_rows(), &Numbers::default());
}

/// 4.4: any of the four with fewer entries, in every call.
fn check_short(tally: &mut Tally) {
    let listing = valley().listing();
    let short = "refused 14 5 0";
    for column in 0..4 {
        for length in [0, 1, 8, 16, 22, 23] {
            let mut columns = octets(&valley_columns());
            columns[column].truncate(length);
            tally.refused_all("4.4: a column too short", &listing, &columns, short);
        }
        let mut columns = octets(&valley_columns());
        columns.iter_mut().for_each(|octets| octets.resize(100, 0));
        columns[column].truncate(23);
        tally.refused_all("4.4: the others are long", &listing, &columns, short);
    }
    tally.refused_all("4.4: none at all", &listing, &Columns::default(), short);
}

/// 4.3: the count of table 5 in the lent listing.
fn check_tile_count(tally: &mut Tally) {
    let mut four = valley();
    four.tile("valley", 2, 0, 0);
    let columns = octets(&valley_columns());
    tally.refused_all(
        "4.3: four tiles, three entries",
        &four.listing(),
        &columns,
        "refused 14 5 0",
    );
    let mut two = valley();
    two.tiles.pop();
    tally.judged_by("4.3: two tiles, three entries", &two.listing(), &valley_columns(), "");
    let none = Numbers::default();
    let want = "111 - -, 112 - -, 113 - -, 171 - -";
    tally.judged_by("4.4: no tiles, no columns", &header_alone(), &none, want);
    let one = [vec![-1], vec![], vec![5], vec![]];
    tally.judged_by("4.4: no tiles, some columns", &header_alone(), &one, want);
    let got = fill(&header_alone(), &blank([0, 3, 8, 50]));
    tally.same("4.4: no tiles, nothing is filled", got, Ok(blank([0, 3, 8, 50])));
}

/// 4.4 and 4.5: longer columns of different lengths are good; what is past the
/// tile count is neither read nor written.
fn check_longer(tally: &mut Tally) {
    let mut columns = valley_columns();
    columns[0].extend([-1, i64::MIN]);
    columns[1].push(-1);
    columns[3].extend([i64::MAX; 5]);
    tally.valley_by("4.5: -1 past the count", &columns, "");
    let listing = valley().listing();
    tally.looked_up_by("4.5: lookup", &listing, &columns, [0, 2, 3, 3], "tile 2");
    tally.same("4.5: fill", fill(&listing, &octets(&columns)), Ok(octets(&columns)));
    let mut ragged = octets(&columns);
    ragged.iter_mut().for_each(|octets| octets.extend([0xff; 7]));
    let got = crate::calls::report_columns(&listing, &ragged);
    tally.same("4.2: octets past the last whole entry", got, Ok(vec![]));
    // Rows that would double an address or leave the grid, did they count.
    let mut columns = valley_columns();
    for (column, value) in columns.iter_mut().zip([super::VALLEY, 2, 3, 3]) {
        column.push(value);
    }
    tally.valley_by("4.5: an equal entry past the count", &columns, "");
    columns[0][3] = 0;
    tally.looked_up_by("4.5: nor is it found", &listing, &columns, [0, 2, 3, 4], "tile -");
}

/// 4.10: what the columns hold before does not matter to the fill.
fn check_what_columns_held(tally: &mut Tally) {
    let listing = valley().listing();
    for held in [-1, i64::MIN, 0, 416_611_827_712, i64::MAX] {
        let columns = octets(&[0; 4].map(|_| vec![held; 3]));
        let want = Ok(octets(&valley_columns()));
        tally.same("4.10: no entry is looked at", fill(&listing, &columns), want);
    }
}

/// 4.8: the listing's reasons come first, those of its own tile rows too.
fn check_listing_first(tally: &mut Tally) {
    let good = valley().listing();
    let changed = |at: usize, word: u32| {
        let mut octets = good.clone();
        set_u32(&mut octets, at, word);
        octets
    };
    let mut count = good.clone();
    set_count(&mut count, 6, 1_025);
    let [mut outside, mut ill, mut flag] = [valley(), valley(), valley()];
    outside.tiles[2].table_name.length = 1_000_000;
    ill.tiles[1].table_name = ill.text_apart([0xe9]);
    flag.contents[0].flag = 2;
    let cases = [
        (Vec::new(), "refused 1 0 0"),
        (good[..63].to_vec(), "refused 1 0 0"),
        (vec![0; 9_762_881], "refused 2 0 0"),
        (changed(0, 2), "refused 3 0 0"),
        (changed(4, 64), "refused 4 0 0"),
        (count, "refused 5 6 0"),
        (changed(12, 65), "refused 6 1 0"),
        (outside.listing(), "refused 7 5 2"),
        (flag.listing(), "refused 8 2 0"),
        (ill.listing(), "refused 13 5 1"),
    ];
    let mut bad_entry = valley_columns();
    bad_entry[0][0] = -1;
    for (listing, want) in cases {
        tally.refused_all("4.8: columns good", &listing, &octets(&valley_columns()), want);
        tally.refused_all("4.9: before 14", &listing, &Columns::default(), want);
        tally.refused_all("4.9: before 7 of an entry", &listing, &octets(&bad_entry), want);
    }
}
