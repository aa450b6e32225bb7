//! Refusals 7 and 13 of a metadata listing: its five text fields.

use super::super::base::valley;
use super::{survey, Tally};
use crate::calls::report_metadata;
use crate::make::{span, MetadataDraft, Span, NULL};

/// A text field of the survey: its place, and whether it may be NULL.
type Field = (&'static str, bool, fn(&mut MetadataDraft) -> &mut Span);

/// Every one, in rows that are not always the first.
const FIELDS: [Field; 5] = [
    ("11 2", false, |d| &mut d.metadata[2].scope),
    ("12 4", false, |d| &mut d.references[4].scope),
    ("12 1", true, |d| &mut d.references[1].table_name),
    ("12 0", true, |d| &mut d.references[0].column_name),
    ("12 3", false, |d| &mut d.references[3].timestamp),
];

/// The survey's names, counted by hand: dataset 7, series 6, undefined 9, geopackage
/// 10, the moment 24, table 5, valley 6, column 6, tile_data 9, row 3, row/col 7.
const NAMES_END: u32 = 92;

pub fn check(tally: &mut Tally) {
    for field in FIELDS {
        check_outside(tally, field);
        check_inside(tally, field);
        check_null(tally, field);
        check_ill(tally, field);
    }
    check_places(tally);
    check_names_of_either(tally);
}

fn text(start: u32, length: u32) -> Span {
    Span { start, length }
}

/// What refuses the survey with a text changed, if anything does.
fn refused_with((_, _, field): Field, names: &[u8], text: Span) -> Option<(u32, u32, u32)> {
    let mut draft = survey();
    draft.text_apart(names);
    *field(&mut draft) = text;
    let refused = report_metadata(&valley().listing(), &draft.listing()).err();
    refused.map(|refusal| (refusal.number, refusal.table, refusal.row))
}

fn check_outside(tally: &mut Tally, field: Field) {
    let (place, _, change) = field;
    let outside = [
        ("7: length 0 past the end", text(NAMES_END + 1, 0)),
        ("7: one past the end", text(NAMES_END - 3, 4)),
        ("7: one octet at the end", text(NAMES_END, 1)),
        ("7: all and one more", text(0, NAMES_END + 1)),
        ("7: NULL's start with length 1", text(u32::MAX, 1)),
        ("7: no wrap to 0", text(1, u32::MAX)),
        ("7: no wrap to 92", text(NAMES_END + 1, u32::MAX)),
        ("7: no wrap at the top", text(u32::MAX, u32::MAX)),
        ("7: NULL's start less one", text(u32::MAX - 1, 0)),
    ];
    for (shows, span) in outside {
        tally.surveyed(shows, &format!("refused 7 {place}"), |d| *change(d) = span);
    }
}

fn check_inside(tally: &mut Tally, field: Field) {
    let inside = [
        ("length 0 at the end", text(NAMES_END, 0)),
        ("ends at the end", text(NAMES_END - 4, 4)),
        ("all of it", text(0, NAMES_END)),
    ];
    for (shows, span) in inside {
        tally.same(shows, refused_with(field, b"", span), None);
    }
}

/// 5.4: table_name and column_name alone.
fn check_null(tally: &mut Tally, field: Field) {
    let (place, may_be_null, change) = field;
    let accepted = refused_with(field, b"\xff", NULL).is_none();
    tally.same("5.4: NULL only where allowed, and 13 skips it", accepted, may_be_null);
    if !may_be_null {
        let want = format!("refused 7 {place}");
        tally.surveyed("5.4: NULL where not allowed", &want, |d| *change(d) = NULL);
    }
}

/// 13 in each field: "é" in UTF-8 stands from 92 to 94, a stray octet behind it.
fn check_ill(tally: &mut Tally, field: Field) {
    let (place, _, change) = field;
    let ill = [
        ("13: its first octet", text(92, 1)),
        ("13: its second octet", text(93, 1)),
        ("13: the stray one", text(94, 1)),
        ("13: all names", text(0, 95)),
        ("13: ends inside of it", text(0, 93)),
    ];
    for (shows, span) in ill {
        tally.surveyed(shows, &format!("refused 13 {place}"), |d| {
            d.text_apart(b"\xc3\xa9\xff");
            *change(d) = span;
        });
    }
    for span in [text(92, 2), text(0, 94), text(93, 0), text(95, 0)] {
        let refused = refused_with(field, b"\xc3\xa9\xff", span);
        tally.same("a good text beside an ill one", refused, None);
    }
    tally.surveyed("octets that no text covers", "", |d| {
        d.text_apart(b"\xe9");
    });
}

/// Lowest table, then lowest row; the field does not show.
fn check_places(tally: &mut Tally) {
    let bad = text(0, 1_000_000);
    tally.surveyed("7: table 11 before 12", "refused 7 11 2", |d| {
        d.references[0].scope = bad;
        d.metadata[2].scope = bad;
    });
    tally.surveyed("7: lowest row, whatever the field", "refused 7 12 1", |d| {
        d.references[2].scope = bad;
        d.references[1].timestamp = bad;
    });
    tally.surveyed("7: a NULL and a text outside", "refused 7 12 3", |d| {
        d.references[4].scope = bad;
        d.references[3].timestamp = NULL;
    });
    tally.surveyed("13: table 11 before 12", "refused 13 11 1", |d| {
        let ill = d.text_apart(b"\xe9");
        d.references[0].table_name = ill;
        d.metadata[1].scope = ill;
        d.metadata[2].scope = ill;
    });
    tally.surveyed("13: lowest row, whatever the field", "refused 13 12 2", |d| {
        let ill = d.text_apart(b"\xe9");
        d.references[3].scope = ill;
        d.references[2].timestamp = ill;
    });
}

/// A text is one of its own listing's names.
fn check_names_of_either(tally: &mut Tally) {
    tally.surveyed("7: the tile listing's names are longer", "refused 7 11 0", |d| {
        d.metadata[0].scope = text(NAMES_END, 4);
    });
    let mut bare = survey();
    bare.names.clear();
    tally.noted("7: no names at all", &bare.listing(), "refused 7 11 0");
    let mut stray = valley();
    stray.text_apart(b"\xff\xff\xff");
    tally.beside("13: strays in the other names", &stray.listing(), &survey().listing(), "");
    let mut draft = survey();
    // Where the valley's names have "valley", these have something else.
    draft.references[1].table_name = span(33, 6);
    tally.noted("equal places, other octets", &draft.listing(), "975 1 -");
}
