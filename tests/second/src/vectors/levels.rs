//! Codes 351 and 531: pixel sizes from level to level.

use super::base::{levels, steps, valley};
use super::Tally;

const NAN: f64 = f64::NAN;
const INF: f64 = f64::INFINITY;
const MAX: f64 = f64::MAX;
const LEAST: i64 = i64::MIN;
const MOST: i64 = i64::MAX;

pub fn check(tally: &mut Tally) {
    check_both_sides(tally);
    check_near(tally);
    check_strange_doubling(tally);
    check_which_level(tally);
    check_which_tiles(tally);
    check_exemption(tally);
    check_empty_name_exemption(tally);
    check_strictly_below(tally);
    check_531_partner(tally);
}

fn check_both_sides(tally: &mut Tally) {
    let three_to_one = |with_tile: bool| {
        let mut draft = valley();
        draft.sets[0].corners = [0.0, 0.0, 768.0, 768.0];
        draft.matrices.clear();
        draft.tiles.clear();
        draft.matrix("valley", 0, 1, 3.0);
        draft.matrix("valley", 1, 3, 1.0);
        if with_tile {
            draft.tile("valley", 0, 0, 0);
        }
        draft.listing()
    };
    let shows = "levels 0 and 1 with pixels 3.0 and 1.0, with a tile row: 351";
    tally.judged(shows, &three_to_one(true), "351 1 0");
    let shows = "levels 0 and 1 with pixels 3.0 and 1.0, without a tile row: none";
    tally.judged(shows, &three_to_one(false), "");
}

/// Near twice: four steps and five, above and below, in x and in y. The
/// valley's level 0 has pixels of 4.0, and 256 times that is its extent. Request
/// 2026-02 changes nothing in 351, and lets 451 and 452 pass to eight steps below.
fn check_near(tally: &mut Tally) {
    for (count, in_x, in_y) in [
        (4, "", ""),
        (5, "351 1 0, 451 0 -", "351 1 0, 452 0 -"),
        (-4, "", ""),
        (-5, "351 1 0", "351 1 0"),
        (-8, "351 1 0", "351 1 0"),
        (-9, "351 1 0, 451 0 -", "351 1 0, 452 0 -"),
    ] {
        tally.changed(&format!("351: x {count} steps"), in_x, |d| {
            d.matrices[0].pixel_x_size = steps(4.0, count);
        });
        tally.changed(&format!("351: y {count} steps"), in_y, |d| {
            d.matrices[0].pixel_y_size = steps(4.0, count);
        });
    }
    let tiny = |bits| f64::from_bits(bits);
    let rows = [(0, tiny(6), tiny(2)), (1, tiny(1), tiny(1))];
    let four_steps = levels(&rows, true).listing();
    tally.judged("351: near among the smallest", &four_steps, "401 0 -");
    let rows = [(0, tiny(7), tiny(2)), (1, tiny(1), tiny(1))];
    let five_steps = levels(&rows, true).listing();
    tally.judged("351: five steps there", &five_steps, "351 1 0, 401 0 -");
}

/// Reading 9: a doubling that is not finite, zeros, NaN.
fn check_strange_doubling(tally: &mut Tally) {
    let cases = [
        ("no overflow", (MAX, 1.0), (MAX / 2.0, 0.5), "401 0 -"),
        ("not finite", (INF, 1.0), (MAX, 0.5), "351 1 0, 401 0 -, 511 0 -"),
        (
            "above the half of the greatest",
            (MAX, 1.0),
            (steps(MAX / 2.0, 1), 0.5),
            "351 1 0, 401 0 -",
        ),
        ("two sizes of 0", (0.0, 1.0), (0.0, 0.5), "351 1 0, 401 0 -, 511 0 -, 511 1 -, 531 1 0"),
        (
            "two negative sizes",
            (1.0, -2.0),
            (0.5, -1.0),
            "351 1 0, 401 0 -, 521 0 -, 521 1 -, 531 1 0",
        ),
        ("NaN below", (NAN, 1.0), (1.0, 0.5), "351 1 0, 401 0 -, 511 0 -, 531 1 0"),
        ("NaN above", (2.0, 2.0), (1.0, NAN), "351 1 0, 401 0 -, 521 1 -, 531 1 0"),
    ];
    for (shows, lower, upper, want) in cases {
        let rows = [(0, lower.0, lower.1), (1, upper.0, upper.1)];
        let octets = levels(&rows, true).listing();
        tally.judged(&format!("351: {shows}"), &octets, want);
    }
}

/// Readings 8 and 9: exactly one level lower, and the lowest row not near.
fn check_which_level(tally: &mut Tally) {
    let gap = levels(&[(0, 8.0, 8.0), (2, 1.0, 1.0)], true);
    tally.judged("351: exactly zoom - 1", &gap.listing(), "401 0 -");
    let least = levels(&[(LEAST, 1.0, 1.0), (MOST, 0.9, 0.9)], true);
    let want = "401 0 -, 461 0 -";
    tally.judged("351: nothing below the least i64", &least.listing(), want);
    let least = levels(&[(LEAST, 3.0, 3.0), (LEAST + 1, 1.0, 1.0)], true);
    let want = "351 1 0, 401 0 -, 461 0 -, 461 1 -";
    tally.judged("351: the least is below the next", &least.listing(), want);
    let below_0 = levels(&[(-1, 3.0, 3.0), (0, 1.0, 1.0)], true);
    let want = "351 1 0, 401 0 -, 461 0 -";
    tally.judged("351: -1 is below 0", &below_0.listing(), want);
    let later = levels(&[(1, 1.0, 1.0), (0, 3.0, 3.0)], true);
    tally.judged("351: a later row", &later.listing(), "351 0 1, 401 0 -");
    let rows = [(0, 2.0, 2.0), (0, 3.0, 3.0), (0, 5.0, 5.0), (1, 1.0, 1.0)];
    let third = levels(&rows, true).listing();
    let want = "351 3 1, 401 0 -, 432 1 0, 432 2 0";
    tally.judged("351: the lowest row that is not near", &third, want);
    let mut other_name = levels(&[(0, 3.0, 3.0), (1, 1.0, 1.0)], true);
    other_name.matrices[0].table_name = other_name.text("hill");
    other_name.tiles[0].zoom = 1;
    let want = "401 0 -, 431 0 -";
    tally.judged("351: of the same name", &other_name.listing(), want);
}

/// Reading 9: any tile row of that name, whatever its zoom, tiles name or not.
fn check_which_tiles(tally: &mut Tally) {
    let rows = [(0, 3.0, 3.0), (1, 1.0, 1.0)];
    let mut draft = levels(&rows, true);
    draft.tiles[0].zoom = 9;
    let want = "351 1 0, 401 0 -, 441 0 -, 551 0 -";
    tally.judged("351: a tile of any zoom", &draft.listing(), want);
    let mut draft = levels(&rows, true);
    draft.contents[0].data_type = draft.text("features");
    let want = "341 0 -, 351 1 0, 431 0 -, 431 1 -";
    tally.judged("351: no tiles name needed", &draft.listing(), want);
    let mut draft = levels(&rows, false);
    draft.tile("hill", 0, 0, 0);
    let want = "341 0 -, 401 0 -, 441 0 -";
    tally.judged("351: a tile of another name", &draft.listing(), want);
    let mut draft = levels(&rows, true);
    draft.tiles[0].table_name = draft.text_apart("valley");
    let want = "351 1 0, 401 0 -";
    tally.judged("351: its name at another place", &draft.listing(), want);
}

fn check_exemption(tally: &mut Tally) {
    let rows = [(0, 3.0, 3.0), (1, 1.0, 1.0)];
    let judged = "351 1 0, 401 0 -";
    let exempt = "401 0 -";
    let cases = [
        (Some("valley"), None, "gpkg_zoom_other", exempt),
        (Some("valley"), Some("tile_data"), "gpkg_zoom_other", exempt),
        (None, None, "gpkg_zoom_other", judged),
        (Some(""), None, "gpkg_zoom_other", judged),
        (Some("Valley"), None, "gpkg_zoom_other", judged),
        (Some("hill"), None, "gpkg_zoom_other", judged),
        (Some("valley"), None, "gpkg_zoom_others", judged),
        (Some("valley"), None, "gpkg_Zoom_other", judged),
        (Some("valley"), None, "gpkg_webp", judged),
    ];
    for (name, column, extension, want) in cases {
        let mut draft = levels(&rows, true);
        draft.extension(name, column, extension, "read-write");
        let shows = format!("351: exemption {name:?} {column:?} {extension}");
        tally.judged(&shows, &draft.listing(), want);
    }
    let mut draft = levels(&rows, true);
    draft.extension(Some("valley"), None, "gpkg_zoom_other", "neither");
    let want = "401 0 -, 641 1 -";
    tally.judged("351: exempt whatever the scope", &draft.listing(), want);
    let mut draft = levels(&rows, true);
    draft.extension(None, None, "gpkg_zoom_other", "read-write");
    draft.extension(Some("valley"), None, "gpkg_zoom_other", "read-write");
    tally.judged("351: any extension row", &draft.listing(), exempt);
}

/// Reading 9: a NULL table_name exempts nothing, an empty text the empty name.
fn check_empty_name_exemption(tally: &mut Tally) {
    for (name, want) in [(None, "351 1 0, 401 0 -"), (Some(""), "401 0 -")] {
        let mut draft = levels(&[(0, 3.0, 3.0), (1, 1.0, 1.0)], true);
        let empty = draft.text("");
        draft.contents[0].table_name = empty;
        draft.matrices[0].table_name = empty;
        draft.matrices[1].table_name = empty;
        draft.tiles[0].table_name = empty;
        draft.extension(name, None, "gpkg_zoom_other", "read-write");
        let shows = format!("351: the empty name, exemption {name:?}");
        tally.judged(&shows, &draft.listing(), want);
    }
}

/// Reading 14: as IEEE compares, and strictly. No tile row, so no 351.
fn check_strictly_below(tally: &mut Tally) {
    let fine = "401 0 -";
    let broken = "401 0 -, 531 1 0";
    let both_511 = "401 0 -, 511 0 -, 511 1 -, 531 1 0";
    let cases = [
        ("below", (2.0, 2.0), (1.0, 1.0), fine),
        ("one step below", (1.0, 1.0), (steps(1.0, -1), steps(1.0, -1)), fine),
        ("equal", (1.0, 1.0), (1.0, 1.0), broken),
        ("x equal", (1.0, 2.0), (1.0, 1.0), broken),
        ("y equal", (2.0, 1.0), (1.0, 1.0), broken),
        ("x above", (1.0, 2.0), (3.0, 1.0), broken),
        ("y above", (2.0, 1.0), (1.0, 3.0), broken),
        ("0 and -0", (0.0, 2.0), (-0.0, 1.0), both_511),
        ("-0 and 0", (-0.0, 2.0), (0.0, 1.0), both_511),
        ("NaN and NaN", (NAN, 2.0), (NAN, 1.0), both_511),
        ("infinite twice", (INF, 2.0), (INF, 1.0), both_511),
        ("NaN below", (NAN, 2.0), (1.0, 1.0), "401 0 -, 511 0 -, 531 1 0"),
        ("NaN above", (2.0, 2.0), (NAN, 1.0), "401 0 -, 511 1 -, 531 1 0"),
        ("NaN in y", (2.0, 2.0), (1.0, NAN), "401 0 -, 521 1 -, 531 1 0"),
        ("infinite below", (INF, 2.0), (1.0, 1.0), "401 0 -, 511 0 -"),
        ("negative above", (1.0, 2.0), (-1.0, 1.0), "401 0 -, 511 1 -"),
        ("-infinite above", (1.0, 2.0), (-INF, 1.0), "401 0 -, 511 1 -"),
    ];
    for (shows, lower, upper, want) in cases {
        let rows = [(0, lower.0, lower.1), (1, upper.0, upper.1)];
        let octets = levels(&rows, false).listing();
        tally.judged(&format!("531: {shows}"), &octets, want);
    }
}

/// What is shown, the levels, and the findings.
type LevelCase = (&'static str, &'static [(i64, f64, f64)], &'static str);

/// Readings 8 and 14: which row the partner is.
fn check_531_partner(tally: &mut Tally) {
    let cases: [LevelCase; 7] = [
        ("equal zooms are not compared", &[(0, 1.0, 1.0), (0, 1.0, 1.0)], "401 0 -, 432 1 0"),
        ("any lower zoom", &[(0, 1.0, 1.0), (5, 1.0, 1.0)], "401 0 -, 531 1 0"),
        (
            "the partner may stand after the row",
            &[(2, 1.0, 1.0), (0, 4.0, 4.0), (1, 1.0, 1.0)],
            "401 0 -, 531 0 2",
        ),
        (
            "the lowest row, not the nearest zoom",
            &[(1, 1.0, 1.0), (0, 1.0, 1.0), (2, 1.0, 1.0)],
            "401 0 -, 531 0 1, 531 2 0",
        ),
        (
            "one finding a row",
            &[(0, 1.0, 1.0), (1, 1.0, 1.0), (2, 1.0, 1.0)],
            "401 0 -, 531 1 0, 531 2 0",
        ),
        (
            "the least and the greatest zoom",
            &[(MOST, 1.0, 1.0), (LEAST, 1.0, 1.0)],
            "401 0 -, 461 1 -, 531 0 1",
        ),
        (
            "only a row that it is not below",
            &[(0, 2.0, 1.0), (1, 1.0, 0.5), (2, 0.5, 0.75)],
            "401 0 -, 531 2 1",
        ),
    ];
    for (shows, rows, want) in cases {
        let octets = levels(rows, false).listing();
        tally.judged(&format!("531: {shows}"), &octets, want);
    }
    tally.changed("531: of its name", "431 3 -", |d| {
        d.matrix("hill", 9, 1, 100.0);
    });
}
