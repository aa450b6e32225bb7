//! Which entries spell a text, and 7, 13 and 10 in their order.

use super::super::base::valley;
use super::{named, octets, valley_and, valley_columns, Numbers, Tally};
use crate::make::Draft;

pub fn check(tally: &mut Tally) {
    check_inside(tally);
    check_outside(tally);
    check_negative(tally);
    check_ill(tally);
    check_all_7_before_13(tally);
    check_14_before_7(tally);
    check_10_last(tally);
}

/// 4.6: the valley has 96 name octets. A tile of another name has 341 and 441.
fn check_inside(tally: &mut Tally) {
    let other = "341 1 -, 441 1 -";
    for (shows, name) in [
        ("0 is empty", 0),
        ("an empty text within", 5 << 32),
        ("96 * 2^32 is empty at the end", 412_316_860_416),
        ("all names", 96),
        ("the last octet: 95 * 2^32 + 1", 408_021_893_121),
        ("\"valle\": one less", 141_733_920_773),
        ("\"valleyt\": one more", 141_733_920_775),
        ("\"alley\" with what follows", (34 << 32) + 6),
    ] {
        tally.valley_by(&format!("4.6: {shows}"), &named(1, name), other);
    }
    tally.valley_by("4.6: 33 * 2^32 + 6 is \"valley\"", &named(1, 141_733_920_774), "");
}

/// 4.6: one past the end in start, in length, and far beyond.
fn check_outside(tally: &mut Tally) {
    for (shows, name) in [
        ("97 * 2^32", 416_611_827_712),
        ("96 * 2^32 + 1", 412_316_860_417),
        ("95 * 2^32 + 2", 408_021_893_122),
        ("97 octets from 0 on", 97),
        ("2^32 - 1 octets", 4_294_967_295),
        ("no wrap: 1 and 2^32 - 1", 8_589_934_591),
        ("2^62", 1 << 62),
        ("2^63 - 1", i64::MAX),
    ] {
        let shows = format!("4.6: {shows}");
        tally.valley_by(&shows, &named(0, name), "refused 7 5 0");
        tally.valley_by(&shows, &named(2, name), "refused 7 5 2");
    }
    let mut nameless = Draft::default();
    nameless.tile("", 0, 0, 0);
    let nameless = nameless.listing();
    let tile = |name: i64| [vec![name], vec![0], vec![0], vec![0]];
    let empty = "111 - -, 112 - -, 113 - -, 171 - -, 341 0 -, 441 0 -";
    tally.judged_by("4.6: no names, an empty text", &nameless, &tile(0), empty);
    tally.judged_by("4.6: no names, one octet", &nameless, &tile(1), "refused 7 5 0");
    tally.judged_by("4.6: no names, start 1", &nameless, &tile(1 << 32), "refused 7 5 0");
}

/// 4.7: every negative one, the pattern of NULL and a name with the sign too.
fn check_negative(tally: &mut Tally) {
    let negatives = [
        -1,
        -4_294_967_296,
        -4_294_967_295,
        -2,
        -141_733_920_774,
        i64::MIN,
        i64::MIN + 141_733_920_774,
        i64::MIN + 6,
    ];
    for name in negatives {
        for (entry, want) in [(0, "refused 7 5 0"), (1, "refused 7 5 1"), (2, "refused 7 5 2")] {
            tally.valley_by(&format!("4.7: {name}"), &named(entry, name), want);
        }
    }
    let mut two = named(1, -1);
    two[0][2] = i64::MIN;
    tally.valley_by("7: the lowest entry", &two, "refused 7 5 1");
    for column in 1..4 {
        let mut numbers = valley_columns();
        numbers[column][0] = -1;
        let want = ["441 0 -, 551 0 -", "561 0 -", "571 0 -"][column - 1];
        tally.valley_by("4.7: other columns may be negative", &numbers, want);
    }
}

/// 13: "é" behind the names, whole from 96 to 98, in UTF-8; and in Latin-1.
fn check_ill(tally: &mut Tally) {
    let accent = valley_and(b"\xc3\xa9").listing();
    let other = "341 1 -, 441 1 -";
    for (shows, start, length, want) in [
        ("whole", 96, 2, other),
        ("its first octet", 96, 1, "refused 13 5 1"),
        ("its second octet", 97, 1, "refused 13 5 1"),
        ("all names up to its first octet", 0, 97, "refused 13 5 1"),
        ("all names", 0, 98, other),
        ("empty inside of it", 97, 0, other),
        ("one octet too many", 97, 2, "refused 7 5 1"),
    ] {
        let columns = named(1, (start << 32) + length);
        tally.judged_by(&format!("13 of an entry: {shows}"), &accent, &columns, want);
    }
    let latin = valley_and(b"\xe9").listing();
    let columns = named(2, (96 << 32) + 1);
    tally.judged_by("13 of an entry: Latin-1", &latin, &columns, "refused 13 5 2");
    tally.judged_by("13: octets that no entry covers", &latin, &valley_columns(), "");
    let mut two = named(1, (96 << 32) + 1);
    two[0][2] = 97;
    tally.judged_by("13: the lowest entry", &latin, &two, "refused 13 5 1");
}

/// The valley with an octet that is no character, and names for its entries.
fn ill_and(names: [i64; 3]) -> (Vec<u8>, Numbers) {
    let mut columns = valley_columns();
    columns[0] = names.to_vec();
    (valley_and(b"\xff").listing(), columns)
}

const ILL: i64 = (96 << 32) + 1;

/// 4.9: all of 7 before any of 13.
fn check_all_7_before_13(tally: &mut Tally) {
    for (names, want) in [
        ([ILL, -1, 0], "refused 7 5 1"),
        ([-1, ILL, 0], "refused 7 5 0"),
        ([ILL, ILL, -1], "refused 7 5 2"),
        ([ILL, 0, i64::MAX], "refused 7 5 2"),
        ([0, ILL, 0], "refused 13 5 1"),
        ([0, ILL, ILL], "refused 13 5 1"),
        ([0, 0, ILL], "refused 13 5 2"),
    ] {
        let (listing, columns) = ill_and(names);
        tally.judged_by("4.9: 7 before 13", &listing, &columns, want);
        tally.looked_up_by("4.9: 7 before 13", &listing, &columns, [0, 0, 0, 0], want);
    }
}

/// 4.9: 14 before 7 and 13, whichever column is short.
fn check_14_before_7(tally: &mut Tally) {
    for names in [[-1, -1, -1], [ILL, 0, 0], [ILL, -1, i64::MIN]] {
        let (listing, columns) = ill_and(names);
        for short in 0..4 {
            let mut columns = octets(&columns);
            columns[short].truncate(23);
            tally.refused_all("4.9: 14 before 7 and 13", &listing, &columns, "refused 14 5 0");
        }
    }
}

/// 4.9 and 4.13: 10, by the listing's contents, comes after all.
fn check_10_last(tally: &mut Tally) {
    let listing = valley().listing();
    let no_row = [1, 0, 0, 0];
    let columns = valley_columns();
    tally.looked_up_by("4.13: no contents row", &listing, &columns, no_row, "refused 10 0 0");
    let far = [i64::from(u32::MAX), 0, 0, 0];
    tally.looked_up_by("4.13: far beyond", &listing, &columns, far, "refused 10 0 0");
    let mut features = valley();
    features.contents[0].data_type = features.text("features");
    let features = features.listing();
    let first = [0, 0, 0, 0];
    tally.looked_up_by("4.13: no tiles", &features, &columns, first, "refused 10 0 0");
    let outside = named(2, -1);
    tally.looked_up_by("7 before 10", &listing, &outside, no_row, "refused 7 5 2");
    tally.looked_up_by("7 before 10", &features, &outside, first, "refused 7 5 2");
    let (ill, columns) = ill_and([0, ILL, 0]);
    tally.looked_up_by("4.13: 13 before 10", &ill, &columns, no_row, "refused 13 5 1");
    let none = Numbers::default();
    tally.looked_up_by("14 before 10", &listing, &none, no_row, "refused 14 5 0");
}
