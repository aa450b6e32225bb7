//! Codes 431, 432, 461 to 521.

use super::base::{levels, one_level};
use super::Tally;
use crate::make::{Draft, MatrixRow};

pub fn check(tally: &mut Tally) {
    check_names(tally);
    check_repeated(tally);
    check_zoom(tally);
    check_sides(tally);
    check_pixel_sizes(tally);
}

fn check_names(tally: &mut Tally) {
    tally.changed("431: no tiles name", "431 3 -", |d| {
        d.matrix("hill", 0, 1, 4.0);
    });
    tally.changed("431: a set row makes no tiles name", "391 1 -, 431 3 -", |d| {
        d.set("hill", 0, [0.0, 0.0, 1024.0, 1024.0]);
        d.matrix("hill", 0, 1, 4.0);
    });
}

fn check_repeated(tally: &mut Tally) {
    tally.changed("432: an earlier row", "432 3 0", |d| {
        d.matrix("valley", 0, 1, 4.0);
    });
    tally.changed("432: three equal rows", "432 3 1, 432 4 1", |d| {
        d.matrix("valley", 1, 2, 2.0);
        d.matrix("valley", 1, 2, 2.0);
    });
    tally.changed("432: another name", "431 3 -", |d| {
        d.matrix("valle", 0, 1, 4.0);
    });
    tally.changed("432: the name at another place", "432 3 0", |d| {
        d.matrix("valley", 0, 1, 4.0);
        d.matrices[3].table_name = d.text_apart("valley");
    });
    let mut draft = levels(&[(0, 4.0, 4.0), (1 << 32, 2.0, 2.0)], true);
    draft.tiles.clear();
    let want = "401 0 -";
    tally.judged("432: zooms are 64 bits wide", &draft.listing(), want);
}

fn check_zoom(tally: &mut Tally) {
    for (zoom, want) in [(0, ""), (1, ""), (i64::MAX, ""), (-1, "461 0 -"), (i64::MIN, "461 0 -")] {
        let mut draft = one_level();
        draft.matrices[0].zoom = zoom;
        tally.judged(&format!("461: zoom {zoom}"), &draft.listing(), want);
    }
}

/// A code and the side that it judges.
type Side = (&'static str, fn(&mut MatrixRow) -> &mut i64);

/// 471 to 501 on both sides. The pack has no set row, so 451 and 452 are out.
fn check_sides(tally: &mut Tally) {
    let sides: [Side; 4] = [
        ("471", |m| &mut m.matrix_width),
        ("481", |m| &mut m.matrix_height),
        ("491", |m| &mut m.tile_width),
        ("501", |m| &mut m.tile_height),
    ];
    for (code, side) in sides {
        let below_1 = format!("401 0 -, {code} 0 -");
        for (value, want) in [
            (1, "401 0 -"),
            (i64::MAX, "401 0 -"),
            (0, below_1.as_str()),
            (-1, below_1.as_str()),
            (i64::MIN, below_1.as_str()),
        ] {
            let mut draft = levels(&[(0, 1.0, 1.0)], false);
            *side(&mut draft.matrices[0]) = value;
            tally.judged(&format!("{code}: {value}"), &draft.listing(), want);
        }
    }
}

/// A code and a pack with a pixel size along its axis.
type Axis = (&'static str, fn(f64) -> Draft);

fn check_pixel_sizes(tally: &mut Tally) {
    let in_x = |size| levels(&[(0, size, 1.0)], false);
    let in_y = |size| levels(&[(0, 1.0, size)], false);
    let axes: [Axis; 2] = [("511", in_x), ("521", in_y)];
    for (code, draft) in axes {
        for size in [1.0, f64::from_bits(1), f64::MIN_POSITIVE, f64::MAX, 1e-9] {
            let octets = draft(size).listing();
            tally.judged(&format!("{code}: {size:e}"), &octets, "401 0 -");
        }
        let want = format!("401 0 -, {code} 0 -");
        for bits in [
            0,
            0x8000_0000_0000_0000,
            0x8000_0000_0000_0001,
            0xbff0_0000_0000_0000,
            0x7ff0_0000_0000_0000,
            0xfff0_0000_0000_0000,
            0x7ff8_0000_0000_0000,
            0x7ff0_0000_0000_0001,
            0xffff_ffff_ffff_ffff,
        ] {
            let octets = draft(f64::from_bits(bits)).listing();
            tally.judged(&format!("{code}: bits {bits:x}"), &octets, &want);
        }
    }
}
