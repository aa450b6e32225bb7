//! 975 by the contents' names, and 1005.

use super::super::base::{valley, MOMENT};
use super::{one_reference, Tally};
use crate::make::Draft;

pub fn check(tally: &mut Tally) {
    check_table_names(tally);
    check_contents(tally);
    check_empty_and_null(tally);
    check_long_names(tally);
    check_timestamps(tally);
}

/// 5.9: exact octets.
fn check_table_names(tally: &mut Tally) {
    tally.noted("valley", &one_reference("table", Some("valley"), None, None).listing(), "");
    for name in ["Valley", "VALLEY", "valle", "valleys", "alley", "", "valley ", "vallez", "wall"] {
        let draft = one_reference("table", Some(name), None, None);
        tally.noted(&format!("5.9: {name:?} is not in contents"), &draft.listing(), "975 0 -");
    }
    let mut apart = one_reference("table", Some("valley"), None, None);
    apart.text_apart("xx");
    apart.references[0].table_name = apart.text_apart("valley");
    tally.noted("5.9: stored elsewhere", &apart.listing(), "");
}

/// The contents of these names, of any data_type, and a reference for each name.
fn judged(tally: &mut Tally, shows: &str, contents: &[(&str, &str)], name: &str, want: &str) {
    let mut listing = valley();
    listing.contents.clear();
    for (name, data_type) in contents {
        listing.content(name, data_type, MOMENT, None);
    }
    let draft = one_reference("table", Some(name), None, None);
    tally.beside(shows, &listing.listing(), &draft.listing(), want);
}

fn check_contents(tally: &mut Tally) {
    let all = [("a", "tiles"), ("b", "features"), ("c", "attributes"), ("d", ""), ("e", "Tiles")];
    for (name, data_type) in all {
        judged(tally, &format!("5.9: of {data_type:?}"), &all, name, "");
    }
    judged(tally, "5.9: none of them", &all, "f", "975 0 -");
    judged(tally, "5.9: no contents", &[], "a", "975 0 -");
    judged(tally, "5.9: twice there", &[("a", "x"), ("a", "y")], "a", "");
    judged(tally, "beyond ASCII", &[("vall\u{e9}e", "tiles")], "vall\u{e9}e", "");
    // The same letters, composed otherwise.
    judged(tally, "octets, not letters", &[("vall\u{e9}e", "tiles")], "valle\u{301}e", "975 0 -");
    judged(tally, "a data_type is no name", &[("a", "tiles")], "tiles", "975 0 -");
    judged(tally, "the beginning of one", &[("ab", "tiles")], "a", "975 0 -");
    judged(tally, "longer than one", &[("a", "tiles")], "ab", "975 0 -");
    // The 256th of 256.
    let names: Vec<String> = (0..256).map(|number| format!("layer_{number:03}")).collect();
    let many: Vec<(&str, &str)> = names.iter().map(|name| (name.as_str(), "tiles")).collect();
    judged(tally, "the last of 256", &many, "layer_255", "");
    judged(tally, "not among 256", &many, "layer_256", "975 0 -");
}

/// 5.9: an empty text is present, and may be a name; NULL is neither.
fn check_empty_and_null(tally: &mut Tally) {
    judged(tally, "5.9: the empty name is in contents", &[("", "tiles")], "", "");
    judged(tally, "5.9: the empty name is not", &[("a", "tiles")], "", "975 0 -");
    let mut nameless = Draft::default();
    nameless.content("", "tiles", MOMENT, None);
    let nameless = nameless.listing();
    let null = one_reference("table", None, None, None).listing();
    tally.beside("5.9: NULL is not the empty name", &nameless, &null, "975 0 -");
    let empty = one_reference("geopackage", Some(""), None, None).listing();
    tally.beside("5.9: geopackage, an empty text", &nameless, &empty, "975 0 -");
    tally.noted("5.9: geopackage, an empty text", &empty, "975 0 -");
}

/// Names that differ in one octet, at the start, inside and at the end.
fn check_long_names(tally: &mut Tally) {
    for length in [7, 8, 9, 15, 16, 17, 31, 32, 33, 63, 64, 65, 1_000, 4_096] {
        let name = "n".repeat(length);
        judged(tally, "equal and long", &[(&name, "tiles")], &name, "");
        for at in [0, length / 2, length - 1] {
            let other = format!("{}m{}", &name[..at], &name[at + 1..]);
            judged(tally, "one octet off", &[(&name, "tiles")], &other, "975 0 -");
        }
    }
}

const GOOD_TIMESTAMPS: [&str; 6] = [
    MOMENT,
    "2000-02-29T00:00:00.000Z",
    "0000-02-29T23:59:59.999Z",
    "2023-02-28T12:00:00.000Z",
    "9999-12-31T23:59:59.999Z",
    "2024-04-30T09:08:07.006Z",
];

const BAD_TIMESTAMPS: [&str; 23] = [
    "",
    "2023-02-29T00:00:00.000Z",
    "1900-02-29T00:00:00.000Z",
    "2024-02-30T00:00:00.000Z",
    "2024-04-31T00:00:00.000Z",
    "2024-00-01T00:00:00.000Z",
    "2024-13-01T00:00:00.000Z",
    "2024-01-00T00:00:00.000Z",
    "2024-01-32T00:00:00.000Z",
    "2024-02-29T24:00:00.000Z",
    "2024-02-29T00:60:00.000Z",
    "2024-02-29T00:00:60.000Z",
    "2024-02-29t00:00:00.000Z",
    "2024-02-29T00:00:00.000z",
    "2024-02-29 00:00:00.000Z",
    "2024-02-29T00:00:00,000Z",
    "2024-02-29T00:00:00.00Z",
    "2024-02-29T00:00:00.0000Z",
    "2024-02-29T00:00:00Z",
    "2024-02-29T00:00:00.000",
    "2024-02-29T00:00:00.000Z ",
    "2024-02-29T00:00:00.00aZ",
    "2012-08-17 14:49:32",
];

/// 5.13: as in 151.
fn check_timestamps(tally: &mut Tally) {
    let reference = one_reference("geopackage", None, None, None);
    for (timestamps, want) in [(&GOOD_TIMESTAMPS[..], ""), (&BAD_TIMESTAMPS[..], "1005 0 -")] {
        for timestamp in timestamps {
            let mut draft = reference.clone();
            draft.references[0].timestamp = draft.text_apart(timestamp);
            tally.noted(&format!("5.13: {timestamp:?}"), &draft.listing(), want);
        }
    }
}
