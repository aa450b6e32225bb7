//! Refusal 7: texts at the edge of the names, and NULL where it may stand.

use super::base::valley;
use super::Tally;
use crate::make::{Draft, Span, NULL};

/// A text field of the valley: its place, and whether it may be NULL.
type Field = (&'static str, bool, TextOf);

/// The text itself, to be changed.
pub type TextOf = fn(&mut Draft) -> &mut Span;

/// Every one, in rows that are not always the first.
pub const FIELDS: [Field; 12] = [
    ("1 2", false, |d| &mut d.references[2].organization),
    ("1 0", false, |d| &mut d.references[0].definition),
    ("2 0", false, |d| &mut d.contents[0].table_name),
    ("2 0", false, |d| &mut d.contents[0].data_type),
    ("2 0", false, |d| &mut d.contents[0].last_change),
    ("3 0", false, |d| &mut d.sets[0].table_name),
    ("4 2", false, |d| &mut d.matrices[2].table_name),
    ("5 1", false, |d| &mut d.tiles[1].table_name),
    ("6 0", true, |d| &mut d.extensions[0].table_name),
    ("6 0", true, |d| &mut d.extensions[0].column_name),
    ("6 0", false, |d| &mut d.extensions[0].extension_name),
    ("6 0", false, |d| &mut d.extensions[0].scope),
];

pub fn check(tally: &mut Tally) {
    for (place, may_be_null, field) in FIELDS {
        check_outside(tally, place, field);
        check_inside(tally, field);
        let refused = format!("refused 7 {place}");
        let accepted = is_accepted(field, NULL);
        tally.same("NULL only where allowed", accepted, may_be_null);
        if !may_be_null {
            let octets = with(field, NULL);
            tally.judged("NULL where not allowed", &octets, &refused);
        }
    }
    check_places(tally);
}

/// The valley with one text changed.
fn with(field: TextOf, text: Span) -> Vec<u8> {
    let mut draft = valley();
    *field(&mut draft) = text;
    draft.listing()
}

fn is_accepted(field: TextOf, text: Span) -> bool {
    crate::calls::report(&with(field, text)).is_ok()
}

fn text(start: u32, length: u32) -> Span {
    Span { start, length }
}

/// The valley's names, counted by hand: EPSG 4, GEOGCS["WGS 84"] 16, NONE 4,
/// undefined 9, valley 6, tiles 5, the moment 24, tile_data 9, gpkg_webp 9,
/// read-write 10.
pub const NAMES_END: u32 = 96;

fn check_outside(tally: &mut Tally, place: &str, field: TextOf) {
    let refused = format!("refused 7 {place}");
    let outside = [
        ("reading 1: length 0 past the end", text(NAMES_END + 1, 0)),
        ("one past the end", text(NAMES_END - 3, 4)),
        ("one octet at the end", text(NAMES_END, 1)),
        ("all and one more", text(0, NAMES_END + 1)),
        ("reading 2: NULL's start with length 1", text(u32::MAX, 1)),
        ("reading 2: no wrap to 0", text(1, u32::MAX)),
        ("reading 2: no wrap to 96", text(NAMES_END + 1, u32::MAX)),
        ("reading 2: no wrap at the top", text(u32::MAX, u32::MAX)),
        ("NULL's start less one", text(u32::MAX - 1, 0)),
    ];
    for (shows, span) in outside {
        tally.judged(shows, &with(field, span), &refused);
    }
}

fn check_inside(tally: &mut Tally, field: TextOf) {
    let inside = [
        ("reading 1: length 0 at the end", text(NAMES_END, 0)),
        ("ends at the end", text(NAMES_END - 4, 4)),
        ("all of it", text(0, NAMES_END)),
    ];
    for (shows, span) in inside {
        tally.same(shows, is_accepted(field, span), true);
    }
}

/// Reading 3: lowest table, then lowest row.
fn check_places(tally: &mut Tally) {
    let bad = text(0, 1_000_000);
    tally.changed("7: table 5 before 6", "refused 7 5 2", |d| {
        d.extensions[0].table_name = bad;
        d.tiles[2].table_name = bad;
    });
    tally.changed("7: lowest table, whatever the row", "refused 7 1 2", |d| {
        d.contents[0].table_name = bad;
        d.references[2].definition = bad;
    });
    tally.changed("7: lowest row, whatever the field", "refused 7 1 1", |d| {
        d.references[2].organization = bad;
        d.references[1].definition = bad;
    });
    tally.changed("7: a NULL and a text outside", "refused 7 4 0", |d| {
        d.matrices[1].table_name = bad;
        d.matrices[0].table_name = NULL;
    });
    tally.changed("NULL in both columns of table 6", "", |d| {
        d.extensions[0].table_name = NULL;
        d.extensions[0].column_name = NULL;
    });
}
