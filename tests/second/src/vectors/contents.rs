//! Codes 131, 161, 162, 171, 401; `dates.rs` has 151.

use super::base::{reference_rows, valley, MOMENT};
use super::Tally;

pub fn check(tally: &mut Tally) {
    check_repeated(tally);
    check_reference(tally);
    check_sets_reference(tally);
    check_null_reference(tally);
    check_data_types(tally);
    check_tiles_name(tally);
}

fn check_repeated(tally: &mut Tally) {
    tally.changed("131: an earlier row has its name", "131 1 0", |d| {
        d.content("valley", "features", MOMENT, None);
    });
    tally.changed("131: three equal rows", "131 1 0, 131 2 0", |d| {
        d.content("valley", "features", MOMENT, None);
        d.content("valley", "attributes", MOMENT, None);
    });
    tally.changed("131: letter case counts", "", |d| {
        d.content("Valley", "features", MOMENT, None);
        d.content("valley ", "features", MOMENT, None);
        d.content("", "features", MOMENT, None);
    });
    tally.changed("131: equal texts at different places", "131 1 0", |d| {
        d.content("valley", "features", MOMENT, None);
        d.contents[1].table_name = d.text_apart("valley");
    });
    tally.changed("131: the empty name twice", "131 2 1", |d| {
        d.content("", "features", MOMENT, None);
        d.content("", "features", MOMENT, None);
        d.contents[2].table_name.start = 3;
    });
}

fn check_reference(tally: &mut Tally) {
    tally.changed("161: no reference row has it", "161 1 -", |d| {
        d.content("a", "features", MOMENT, Some(99));
    });
    tally.changed("161: NULL is not judged", "", |d| {
        d.content("a", "features", MOMENT, None);
    });
    tally.changed("161: a reference row has it", "", |d| {
        d.content("a", "features", MOMENT, Some(0));
        d.content("b", "other", MOMENT, Some(-1));
    });
    tally.changed("161: NULL is not the 0 in its field", "113 - -", |d| {
        d.references.remove(2);
        d.content("a", "features", MOMENT, None);
    });
    tally.changed("161: 0 is an id like any other", "113 - -, 161 1 -", |d| {
        d.references.remove(2);
        d.content("a", "features", MOMENT, Some(0));
    });
    tally.changed("161: whatever the data_type", "161 1 -, 161 2 -", |d| {
        d.content("a", "other", MOMENT, Some(i64::MIN));
        d.content("b", "", MOMENT, Some(4326 + (1 << 32)));
    });
}

/// 162, with reading 8.
fn check_sets_reference(tally: &mut Tally) {
    let extent = [0.0, 0.0, 1024.0, 1024.0];
    tally.changed("162: another srs_id", "162 0 0", |d| {
        d.contents[0].srs_id = -1;
    });
    tally.changed("162: the second set row may fit", "162 0 1, 392 1 0", |d| {
        d.set("valley", -1, extent);
    });
    tally.changed("162: the lowest that fits", "162 0 1, 392 1 0, 392 2 0", |d| {
        d.set("valley", -1, extent);
        d.set("valley", 0, extent);
    });
    tally.changed("162: the first of two others", "162 0 0, 392 1 0", |d| {
        d.sets[0].srs_id = 0;
        d.set("valley", -1, extent);
    });
    tally.changed("162: set rows of another name", "391 1 -", |d| {
        d.set("hill", -1, extent);
    });
    tally.changed("162: \"tiles\" alone", "131 1 0", |d| {
        d.content("valley", "features", MOMENT, Some(-1));
    });
    tally.changed("162: every row of the name", "131 1 0, 162 1 0", |d| {
        d.content("valley", "tiles", MOMENT, Some(-1));
    });
}

/// Reading 10: NULL matches none.
fn check_null_reference(tally: &mut Tally) {
    tally.changed("162: NULL with any set row", "162 0 0, 392 1 0", |d| {
        d.contents[0].srs_id = 0;
        d.contents[0].flag = 0;
        d.set("valley", 0, [0.0, 0.0, 1024.0, 1024.0]);
    });
    tally.changed("162: NULL is not a set row's 0", "162 0 0", |d| {
        d.contents[0].srs_id = 0;
        d.contents[0].flag = 0;
        d.sets[0].srs_id = 0;
    });
    tally.changed("162: no set row, no 162", "401 0 -", |d| {
        d.contents[0].srs_id = 0;
        d.contents[0].flag = 0;
        d.sets.clear();
    });
}

/// 171 and 401: data types are exact octets.
fn check_data_types(tally: &mut Tally) {
    let data_types = [
        ("features", ""),
        ("tiles", "401 0 -"),
        ("attributes", "171 - -"),
        ("Tiles", "171 - -"),
        ("TILES", "171 - -"),
        ("Features", "171 - -"),
        ("tiles ", "171 - -"),
        ("tile", "171 - -"),
        ("tiles\0", "171 - -"),
        ("feature", "171 - -"),
        ("", "171 - -"),
    ];
    for (data_type, want) in data_types {
        let mut draft = reference_rows();
        draft.content("a", data_type, MOMENT, None);
        let shows = format!("171, 401: data_type {data_type:?}");
        tally.judged(&shows, &draft.listing(), want);
    }
    let mut draft = reference_rows();
    draft.content("a", "attributes", MOMENT, None);
    draft.content("b", "features", MOMENT, None);
    tally.judged("171: any row will do", &draft.listing(), "");
    tally.changed("401: the name differs in case", "391 0 -, 401 0 -", |d| {
        d.sets[0].table_name = d.text("Valley");
    });
    let want = "131 1 0, 401 0 -, 401 1 -";
    tally.changed("401: every row of the name", want, |d| {
        d.content("valley", "tiles", MOMENT, Some(4326));
        d.sets.clear();
    });
    tally.changed("401: \"features\" needs no set row", "", |d| {
        d.content("a", "features", MOMENT, Some(4326));
    });
}

/// Reading 12: which names are tiles names.
fn check_tiles_name(tally: &mut Tally) {
    tally.changed("a later row makes the tiles name", "131 1 0", |d| {
        d.contents[0].data_type = d.text("attributes");
        d.content("valley", "tiles", MOMENT, Some(4326));
    });
    let all = "341 0 -, 341 1 -, 341 2 -, 391 0 -, 431 0 -, 431 1 -, 431 2 -";
    tally.changed("\"features\" makes no tiles name", all, |d| {
        d.contents[0].data_type = d.text("features");
    });
    let with_171 = format!("171 - -, {all}");
    tally.changed("\"Tiles\" makes no tiles name", &with_171, |d| {
        d.contents[0].data_type = d.text("Tiles");
    });
    let mut empty_name = valley();
    let name = empty_name.text("");
    empty_name.contents[0].table_name = name;
    empty_name.sets[0].table_name = name;
    for row in &mut empty_name.matrices {
        row.table_name = name;
    }
    for row in &mut empty_name.tiles {
        row.table_name = name;
    }
    let octets = empty_name.listing();
    tally.judged("the empty text is an ordinary name", &octets, "");
}
