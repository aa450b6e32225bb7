//! Codes 101, 111, 112, 113 and, on sets, 391, 392, 411.

use super::base::reference_rows;
use super::Tally;

pub fn check(tally: &mut Tally) {
    check_repeated(tally);
    check_epsg(tally);
    check_undefined(tally);
    check_missing(tally);
    check_sets(tally);
}

fn check_repeated(tally: &mut Tally) {
    tally.changed("the valley pack is good", "", |_| {});
    tally.changed("101: an earlier row has its id", "101 3 0", |d| {
        d.reference(4326, "EPSG", 4326, "");
    });
    tally.changed("101: three equal rows", "101 3 0, 101 4 0", |d| {
        d.reference(4326, "EPSG", 4326, "");
        d.reference(4326, "EPSG", 4326, "");
    });
    tally.changed("101: another id, same coordsys id", "", |d| {
        d.reference(4327, "EPSG", 4326, "");
    });
    tally.changed("101: ids are 64 bits wide", "", |d| {
        d.reference(4326 + (1 << 32), "EPSG", 4326, "");
        d.reference(i64::MIN, "EPSG", 4326, "");
        d.reference(i64::MAX, "EPSG", 4326, "");
    });
}

/// Reading 11 for 111: letter case is ASCII, every row with the id is judged.
fn check_epsg(tally: &mut Tally) {
    let organizations = [
        ("EPSG", ""),
        ("epsg", ""),
        ("ePsG", ""),
        ("EPSG ", "111 0 -"),
        ("EPS", "111 0 -"),
        ("", "111 0 -"),
        ("NONE", "111 0 -"),
        ("EP5G", "111 0 -"),
        ("EP\u{17f}G", "111 0 -"),
        // An apostrophe has the low five bits of a "G".
        ("EPS'", "111 0 -"),
    ];
    for (organization, want) in organizations {
        let shows = format!("111: organization {organization:?}");
        tally.changed(&shows, want, |d| {
            d.references[0].organization = d.text_apart(organization);
        });
    }
    for (coordsys_id, want) in [(4326, ""), (4325, "111 0 -"), (-4326, "111 0 -")] {
        tally.changed("111: coordsys id", want, |d| {
            d.references[0].coordsys_id = coordsys_id;
        });
    }
    tally.changed("111: the definition is free", "", |d| {
        d.references[0].definition = d.text("undefined");
    });
    tally.changed("111: a repeated row", "101 3 0, 111 3 -", |d| {
        d.reference(4326, "NONE", 4326, "");
    });
    let both = "101 3 0, 111 0 -, 111 3 -";
    tally.changed("111: both rows, and no row none", both, |d| {
        d.references[0].coordsys_id = 1;
        d.reference(4326, "EPSG", 1, "");
    });
}

/// 112 and 113 on rows 1 and 2.
fn check_undefined(tally: &mut Tally) {
    for (row, own_id, finding) in [(1, -1, "112 1 -"), (2, 0, "113 2 -")] {
        let organizations = [
            ("NONE", ""),
            ("none", ""),
            ("nOnE", ""),
            ("NON", finding),
            ("NONE\0", finding),
            ("EPSG", finding),
            ("", finding),
        ];
        for (organization, want) in organizations {
            tally.changed("112, 113: organization", want, |d| {
                d.references[row].organization = d.text_apart(organization);
            });
        }
        let definitions = [
            ("undefined", ""),
            ("Undefined", finding),
            ("undefined ", finding),
            ("undefine", finding),
            ("", finding),
        ];
        for (definition, want) in definitions {
            tally.changed("112, 113: definition is exact", want, |d| {
                d.references[row].definition = d.text_apart(definition);
            });
        }
        for (coordsys_id, want) in [(own_id, ""), (own_id + 1, finding), (-1 - own_id, finding)] {
            tally.changed("112, 113: coordsys id is -1 (0)", want, |d| {
                d.references[row].coordsys_id = coordsys_id;
            });
        }
    }
    tally.changed("112: repeated rows too", "101 3 1, 112 1 -, 112 3 -", |d| {
        d.references[1].coordsys_id = 0;
        d.reference(-1, "NOBODY", -1, "undefined");
    });
}

fn check_missing(tally: &mut Tally) {
    tally.changed("113 without a row", "113 - -", |d| {
        d.references.remove(2);
    });
    tally.changed("112 without a row", "112 - -", |d| {
        d.references.remove(1);
    });
    let want = "111 - -, 161 0 -, 411 0 -";
    tally.changed("111 without a row", want, |d| {
        d.references.remove(0);
    });
    tally.changed("111: an id alike in 32 bits", want, |d| {
        d.references[0].srs_id += 1 << 32;
    });
    tally.changed("113: 4294967296 is not 0", "113 - -", |d| {
        d.references[2].srs_id = 1 << 32;
    });
    let want = "111 - -, 112 1 -, 161 0 -, 411 0 -";
    tally.changed("by code, then row, with and without rows", want, |d| {
        d.references[0].srs_id = 7;
        d.references[1].coordsys_id = 7;
    });
    let no_contents = reference_rows().listing();
    tally.judged("reference rows alone", &no_contents, "171 - -");
}

fn check_sets(tally: &mut Tally) {
    let extent = [0.0, 0.0, 1024.0, 1024.0];
    tally.changed("391: no tiles name", "391 1 -", |d| {
        d.set("hill", 4326, extent);
    });
    tally.changed("391: letter case counts", "391 1 -", |d| {
        d.set("Valley", 4326, extent);
    });
    tally.changed("392: an earlier set row", "392 1 0", |d| {
        d.set("valley", 4326, extent);
    });
    tally.changed("392: three equal rows", "392 1 0, 392 2 0", |d| {
        d.set("valley", 4326, extent);
        d.set("valley", 4326, extent);
    });
    let want = "391 1 -, 391 2 -, 392 2 1";
    tally.changed("391 and 392 on one row", want, |d| {
        d.set("hill", 4326, extent);
        d.set("hill", 4326, extent);
    });
    tally.changed("411: no reference row", "391 1 -, 411 1 -", |d| {
        d.set("hill", 5, extent);
    });
    tally.changed("411: a repeated reference row will do", "101 3 1, 391 1 -", |d| {
        d.reference(-1, "NONE", -1, "undefined");
        d.set("hill", -1, extent);
    });
}
