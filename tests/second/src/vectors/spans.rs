//! Codes 451 and 452: extents, widths and pixel sizes. Request 2026-02 has its
//! own file, `far.rs`.

use super::base::{levels, one_level, steps};
use super::Tally;
use crate::make::Draft;

const NAN: f64 = f64::NAN;
const INF: f64 = f64::INFINITY;
const MAX: f64 = f64::MAX;
const TWO_TO_53: f64 = 9_007_199_254_740_992.0;

pub fn check(tally: &mut Tally) {
    check_steps(tally);
    check_extents(tally);
    check_widths(tally);
    check_products(tally);
    check_rounding(tally);
    check_smallest(tally);
    check_first_set(tally);
}

/// The one-level pack, changed: extent 0 to 1024, width 4, tile 256, pixel 1.0.
fn one_level_with(change: impl FnOnce(&mut Draft)) -> Vec<u8> {
    let mut draft = one_level();
    change(&mut draft);
    draft.listing()
}

fn check_steps(tally: &mut Tally) {
    let good = one_level().listing();
    let shows = "* extent 0 to 1024, width 4, tile 256, pixel 1.0: none";
    tally.judged(shows, &good, "");
    for (count, in_x, in_y) in [
        (4, "", ""),
        (5, "451 0 -", "452 0 -"),
        (-4, "", ""),
        // Request 2026-02: a step below 1024 is half a gap, and four gaps pass.
        (-8, "", ""),
        (-9, "451 0 -", "452 0 -"),
        (1_000_000, "451 0 -", "452 0 -"),
    ] {
        let octets = one_level_with(|d| d.matrices[0].pixel_x_size = steps(1.0, count));
        let shows = format!("* pixel {count} steps from 1.0");
        tally.judged(&shows, &octets, in_x);
        let octets = one_level_with(|d| d.matrices[0].pixel_y_size = steps(1.0, count));
        tally.judged(&format!("{shows}, in y"), &octets, in_y);
    }
}

/// Reading 13: reversed, empty, NaN, infinite or overflowing extents.
fn check_extents(tally: &mut Tally) {
    let cases = [
        ("moved", -512.0, 512.0, "", ""),
        ("reversed", 1024.0, 0.0, "451 0 -", "452 0 -"),
        ("empty", 1024.0, 1024.0, "451 0 -", "452 0 -"),
        ("NaN low", NAN, 1024.0, "451 0 -", "452 0 -"),
        ("NaN high", 0.0, NAN, "451 0 -", "452 0 -"),
        ("infinite", 0.0, INF, "451 0 -", "452 0 -"),
        ("infinite twice", INF, INF, "451 0 -", "452 0 -"),
        ("overflowing", -MAX, MAX, "451 0 -", "452 0 -"),
        ("-0 is 0", -0.0, 1024.0, "", ""),
        ("four steps", 0.0, steps(1024.0, 4), "", ""),
        ("five steps", 0.0, steps(1024.0, 5), "451 0 -", "452 0 -"),
    ];
    for (shows, low, high, in_x, in_y) in cases {
        let octets = one_level_with(|d| d.sets[0].corners = [low, 0.0, high, 1024.0]);
        tally.judged(&format!("451: extent {shows}"), &octets, in_x);
        let octets = one_level_with(|d| d.sets[0].corners = [0.0, low, 1024.0, high]);
        tally.judged(&format!("452: extent {shows}"), &octets, in_y);
    }
    let octets = one_level_with(|d| {
        d.sets[0].corners = [0.0, 0.0, INF, 1024.0];
        d.matrices[0].pixel_x_size = INF;
    });
    let want = "451 0 -, 511 0 -";
    tally.judged("451: both infinite are not near", &octets, want);
    let octets = one_level_with(|d| {
        d.sets[0].corners = [0.0, 0.0, 0.0, 1024.0];
        d.matrices[0].pixel_x_size = 0.0;
    });
    tally.judged("451: both 0 are not near", &octets, want);
    let octets = one_level_with(|d| {
        d.sets[0].corners = [1024.0, 0.0, 0.0, 1024.0];
        d.matrices[0].pixel_x_size = -1.0;
    });
    tally.judged("451: both negative are not near", &octets, want);
}

/// Reading 13: they stand beside 471 to 501.
fn check_widths(tally: &mut Tally) {
    let octets = one_level_with(|d| d.matrices[0].matrix_width = 0);
    tally.judged("451 beside 471", &octets, "451 0 -, 471 0 -");
    let octets = one_level_with(|d| d.matrices[0].matrix_height = 0);
    tally.judged("452 beside 481", &octets, "452 0 -, 481 0 -");
    let octets = one_level_with(|d| d.matrices[0].tile_width = 0);
    tally.judged("451 beside 491", &octets, "451 0 -, 491 0 -");
    let octets = one_level_with(|d| d.matrices[0].tile_height = 0);
    tally.judged("452 beside 501", &octets, "452 0 -, 501 0 -");
    let octets = one_level_with(|d| {
        d.matrices[0].matrix_width = -4;
        d.matrices[0].tile_width = -256;
    });
    let want = "451 0 -, 471 0 -, 491 0 -";
    tally.judged("451: two negative widths", &octets, want);
    let octets = one_level_with(|d| {
        d.matrices[0].matrix_height = -4;
        d.matrices[0].pixel_y_size = -1.0;
    });
    let want = "452 0 -, 481 0 -, 521 0 -";
    tally.judged("452: a negative height and pixel", &octets, want);
    let octets = one_level_with(|d| d.matrices[0].pixel_x_size = NAN);
    tally.judged("451: pixel NaN", &octets, "451 0 -, 511 0 -");
    let octets = one_level_with(|d| {
        d.matrices[0].matrix_width = 8;
        d.matrices[0].tile_width = 128;
    });
    tally.judged("451: the product alone counts", &octets, "");
}

/// Width, tile width, the extent's end, and the findings in x.
const PRODUCTS: [(i64, i64, f64, &str); 12] = [
    (1 << 53, 1, TWO_TO_53, ""),
    (1, 1 << 53, TWO_TO_53, ""),
    (1 << 26, 1 << 27, TWO_TO_53, ""),
    ((1 << 53) - 1, 1, TWO_TO_53 - 1.0, ""),
    // 2^53 + 1 rounds to 2^53 as a double, which would be near.
    ((1 << 53) + 1, 1, TWO_TO_53, "451 0 -"),
    ((1 << 52) + 1, 2, TWO_TO_53, "451 0 -"),
    (1 << 54, 1, 2.0 * TWO_TO_53, "451 0 -"),
    // 2^64 + 1024 wraps to 1024.
    ((1 << 62) + 256, 4, 1024.0, "451 0 -"),
    (4, (1 << 62) + 256, 1024.0, "451 0 -"),
    // 2^64 wraps to 0, and 2^63 to the least value.
    (1 << 32, 1 << 32, 1024.0, "451 0 -"),
    (1 << 62, 2, 1024.0, "451 0 -"),
    // This one wraps to 1.
    (i64::MAX, i64::MAX, 1.0, "451 0 -"),
];

/// Reading 13: a product above 2^53 is a finding, 2^53 itself is judged; and
/// "testing a width times a tile width by multiplying first; values wrap".
fn check_products(tally: &mut Tally) {
    for (width, tile_width, high, want) in PRODUCTS {
        let octets = one_level_with(|d| {
            d.sets[0].corners[2] = high;
            d.matrices[0].matrix_width = width;
            d.matrices[0].tile_width = tile_width;
        });
        let shows = format!("451: {width} times {tile_width}");
        tally.judged(&shows, &octets, want);
        let octets = one_level_with(|d| {
            d.sets[0].corners[3] = high;
            d.matrices[0].matrix_height = width;
            d.matrices[0].tile_height = tile_width;
        });
        let want = want.replace("451", "452");
        tally.judged(&format!("{shows}, in y"), &octets, &want);
    }
    let octets = one_level_with(|d| {
        d.matrices[0].matrix_width = i64::MIN;
        d.matrices[0].tile_width = i64::MIN;
    });
    let want = "451 0 -, 471 0 -, 491 0 -";
    tally.judged("451: the least value twice", &octets, want);
}

/// Each side rounded once. 3 times 0.1 is one step above 0.3.
fn check_rounding(tally: &mut Tally) {
    let three_tenths = one_level_with(|d| {
        d.sets[0].corners[2] = 0.3;
        d.matrices[0].matrix_width = 3;
        d.matrices[0].tile_width = 1;
        d.matrices[0].pixel_x_size = 0.1;
    });
    tally.judged("451: one step by rounding", &three_tenths, "");
    let overflowing = one_level_with(|d| {
        d.sets[0].corners[2] = MAX;
        d.matrices[0].pixel_x_size = MAX;
    });
    tally.judged("451: the product overflows", &overflowing, "451 0 -");
}

/// Near among the smallest doubles, and never with 0.
fn check_smallest(tally: &mut Tally) {
    for (extent, pixel, want) in
        [(5, 1, ""), (6, 1, "451 0 -"), (1, 5, ""), (0, 4, "451 0 -"), (4, 0, "451 0 -, 511 0 -")]
    {
        let octets = one_level_with(|d| {
            d.sets[0].corners[2] = f64::from_bits(extent);
            d.matrices[0].matrix_width = 1;
            d.matrices[0].tile_width = 1;
            d.matrices[0].pixel_x_size = f64::from_bits(pixel);
        });
        let shows = format!("451: smallest doubles {extent} and {pixel}");
        tally.judged(&shows, &octets, want);
    }
}

/// Reading 13: the first set row, none without one, no tiles-name gate.
fn check_first_set(tally: &mut Tally) {
    let (fits, does_not) = ([0.0, 0.0, 1024.0, 1024.0], [0.0, 0.0, 999.0, 998.0]);
    let octets = one_level_with(|d| {
        d.sets[0].corners = does_not;
        d.set("valley", 4326, fits);
    });
    let want = "392 1 0, 451 0 -, 452 0 -";
    tally.judged("451: a later set row would fit", &octets, want);
    let octets = one_level_with(|d| d.set("valley", 4326, does_not));
    tally.judged("451: only the later does not fit", &octets, "392 1 0");
    let none = levels(&[(0, 77.0, 77.0)], false).listing();
    tally.judged("451: no set row, no finding", &none, "401 0 -");
    let octets = one_level_with(|d| {
        d.set("hill", 4326, does_not);
        d.matrix("hill", 0, 4, 1.0);
    });
    let want = "391 1 -, 431 1 -, 451 1 -, 452 1 -";
    tally.judged("451: no tiles-name gate", &octets, want);
    let octets = one_level_with(|d| d.sets[0].corners = [0.0, 0.0, 2048.0, 512.0]);
    let want = "451 0 -, 452 0 -";
    tally.judged("451 by x and 452 by y, in this order", &octets, want);
    let octets = one_level_with(|d| {
        d.sets[0].corners = [0.0, 0.0, 2048.0, 512.0];
        d.matrices[0].matrix_width = 8;
        d.matrices[0].tile_height = 128;
    });
    tally.judged("451: x and y each with its own", &octets, "");
}
