//! Codes 341, 441, 541, 551, 561, 571.

use super::base::levels;
use super::Tally;
use crate::make::TileRow;

pub fn check(tally: &mut Tally) {
    check_names_and_zooms(tally);
    check_doubled(tally);
    check_doubled_names(tally);
    check_zoom_range(tally);
    check_columns_and_rows(tally);
    check_first_matrix(tally);
}

fn check_names_and_zooms(tally: &mut Tally) {
    tally.changed("341: no tiles name", "341 3 -, 441 3 -", |d| {
        d.tile("hill", 0, 0, 0);
    });
    tally.changed("341: every bad row", "341 3 -, 341 4 -, 441 3 -, 441 4 -", |d| {
        d.tile("hill", 0, 0, 0);
        d.tile("", 0, 0, 0);
    });
    let want = "341 3 -, 431 3 -";
    tally.changed("341: a matrix row makes no tiles name", want, |d| {
        d.matrix("hill", 0, 1, 1.0);
        d.tile("hill", 0, 0, 0);
    });
    tally.changed("441: no matrix of the zoom", "441 0 -, 551 0 -", |d| {
        d.tiles[0].zoom = 3;
    });
    let want = "341 3 -, 391 1 -, 441 3 -";
    tally.changed("441: a matrix of the zoom, not of the name", want, |d| {
        d.set("hill", 0, [0.0, 0.0, 1.0, 1.0]);
        d.tile("hill", 0, 0, 0);
    });
}

/// 541: three equal rows give two findings, both with the first as partner.
fn check_doubled(tally: &mut Tally) {
    tally.changed("541: an earlier row", "541 3 2", |d| {
        d.tile("valley", 2, 3, 3);
    });
    let want = "541 3 1, 541 4 1";
    tally.changed("541: three equal rows give two findings", want, |d| {
        d.tile("valley", 1, 1, 0);
        d.tile("valley", 1, 1, 0);
    });
    let want = "541 3 0, 541 4 2, 541 5 0";
    tally.changed("541: two addresses doubled", want, |d| {
        d.tile("valley", 0, 0, 0);
        d.tile("valley", 2, 3, 3);
        d.tile("valley", 0, 0, 0);
    });
    tally.changed("541: another row", "", |d| d.tile("valley", 2, 3, 2));
    tally.changed("541: another column", "", |d| d.tile("valley", 2, 2, 3));
    tally.changed("541: column and row exchanged", "", |d| {
        d.tile("valley", 2, 1, 2);
        d.tile("valley", 2, 2, 1);
    });
    tally.changed("541: another zoom", "", |d| d.tile("valley", 2, 0, 0));
    let want = "561 3 -, 561 4 -, 571 3 -, 571 4 -";
    tally.changed("541: 64 bits count", want, |d| {
        d.tile("valley", 2, 1 << 32, i64::MIN);
        d.tile("valley", 2, 1 << 33, i64::MIN);
    });
    let want = "541 4 3, 561 3 -, 561 4 -, 571 3 -, 571 4 -";
    tally.changed("541: strange addresses too", want, |d| {
        d.tile("valley", 2, i64::MIN, i64::MAX);
        d.tile("valley", 2, i64::MIN, i64::MAX);
    });
}

/// 541 by the octets of the names; reading 16: no gate.
fn check_doubled_names(tally: &mut Tally) {
    tally.changed("541: the name at another place", "541 3 2", |d| {
        d.tile("valley", 2, 3, 3);
        d.tiles[3].table_name = d.text_apart("valley");
    });
    let want = "341 3 -, 341 4 -, 441 3 -, 441 4 -";
    tally.changed("541: names of one start", want, |d| {
        d.tile("valle", 0, 0, 0);
        d.tile("vall", 0, 0, 0);
    });
    let want = "341 3 -, 341 4 -, 441 3 -, 441 4 -, 541 4 3";
    tally.changed("541: no gate", want, |d| {
        d.tile("hill", -7, -7, -7);
        d.tile("hill", -7, -7, -7);
    });
    tally.changed("541: the empty name at two places", want, |d| {
        d.tile("", 0, 0, 0);
        d.tile("", 0, 0, 0);
        d.tiles[4].table_name.start = 5;
    });
    let want = "341 3 -, 441 3 -";
    tally.changed("541: letter case counts", want, |d| {
        d.tile("VALLEY", 0, 0, 0);
    });
}

/// Reading 15: 441 and 551 can both stand on a row.
fn check_zoom_range(tally: &mut Tally) {
    let cases: [(&str, &[i64], i64, &str); 8] = [
        ("above", &[0, 2], 3, "401 0 -, 441 0 -, 551 0 -"),
        ("in a gap", &[0, 2], 1, "401 0 -, 441 0 -"),
        ("the highest", &[0, 2], 2, "401 0 -"),
        ("the lowest", &[0, 2], 0, "401 0 -"),
        ("below", &[1, 2], 0, "401 0 -, 441 0 -, 551 0 -"),
        ("negative zooms count", &[3, -3], -2, "401 0 -, 441 0 -, 461 1 -"),
        ("below a negative zoom", &[3, -3], -4, "401 0 -, 441 0 -, 461 1 -, 551 0 -"),
        ("the least value", &[3, 0], i64::MIN, "401 0 -, 441 0 -, 551 0 -"),
    ];
    for (shows, zooms, zoom, want) in cases {
        // Pixel sizes halve from level to level.
        let size = |zoom: i64| (-zoom as f64).exp2();
        let rows: Vec<_> = zooms.iter().map(|&z| (z, size(z), size(z))).collect();
        let mut draft = levels(&rows, true);
        draft.tiles[0].zoom = zoom;
        tally.judged(&format!("551: {shows}"), &draft.listing(), want);
    }
    let none = "441 0 -, 441 1 -, 441 2 -";
    tally.changed("551: not judged without matrix rows", none, |d| {
        d.matrices.clear();
    });
    let want = "341 3 -, 441 3 -";
    tally.changed("551: matrix rows of its own name", want, |d| {
        d.tile("hill", 99, 0, 0);
    });
}

/// 561 and 571 on a matrix of 4 by 4.
fn check_columns_and_rows(tally: &mut Tally) {
    for (at, in_column, in_row) in [
        (3, "", ""),
        (0, "", ""),
        (4, "561 2 -", "571 2 -"),
        (5, "561 2 -", "571 2 -"),
        (-1, "561 2 -", "571 2 -"),
        (i64::MAX, "561 2 -", "571 2 -"),
        (i64::MIN, "561 2 -", "571 2 -"),
    ] {
        let shows = format!("* width 4: column {at}");
        tally.changed(&shows, in_column, |d| d.tiles[2].column = at);
        let shows = format!("height 4: row {at}");
        tally.changed(&shows, in_row, |d| d.tiles[2].row = at);
    }
    let want = "561 3 -, 571 4 -";
    tally.changed("561 by width, 571 by height", want, |d| {
        d.sets[0].corners[2] = 512.0;
        d.matrices[0].pixel_x_size = 2.0;
        d.matrices[1].pixel_x_size = 1.0;
        d.matrices[2].pixel_x_size = 0.5;
        d.matrices[2].tile_width = 512;
        d.matrices[2].matrix_width = 2;
        d.tiles[2].column = 1;
        d.tile("valley", 2, 2, 3);
        d.tile("valley", 2, 1, 4);
    });
}

/// Reading 15: the first matrix row of name and zoom alone.
fn check_first_matrix(tally: &mut Tally) {
    let wide_tile = |zoom, column| TileRow { column, zoom, ..super::base::valley().tiles[0] };
    tally.changed("561: a later matrix is wider", "432 3 2, 451 3 -, 452 3 -, 561 3 -", |d| {
        d.matrix("valley", 2, 9, 1.0);
        d.tiles.push(wide_tile(2, 8));
    });
    tally.changed("561: a later matrix is narrower", "432 3 2, 451 3 -, 452 3 -", |d| {
        d.matrix("valley", 2, 1, 1.0);
        d.tiles.push(wide_tile(2, 3));
    });
    tally.changed("561: no matrix row, no finding", "441 3 -, 551 3 -", |d| {
        d.tiles.push(wide_tile(7, -1));
    });
    let below_1 = "451 2 -, 452 2 -, 471 2 -, 481 2 -, 561 2 -, 561 3 -, 571 2 -, 571 3 -";
    for side in [0, -5, i64::MIN] {
        tally.changed("561: width below 1, every column", below_1, |d| {
            d.matrices[2].matrix_width = side;
            d.matrices[2].matrix_height = side;
            d.tile("valley", 2, -6, -6);
        });
    }
    tally.changed("561: no tiles-name gate", "341 3 -, 431 3 -, 561 3 -", |d| {
        d.matrix("hill", 0, 1, 1.0);
        d.tile("hill", 0, 1, 0);
    });
}
