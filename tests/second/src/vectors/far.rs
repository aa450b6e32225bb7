//! Request 2026-02: extents far from the origin, and the second way to pass 451
//! and 452. Each vector stands in x and then in y.
//!
//! Above 2^22 doubles are 2^-30 apart, so four gaps are 2^-28: with 1,024 pixels
//! that is 2^-38 a pixel. Above 2^52 they are 1 apart. A step above 1.0 is 2^-52,
//! a step below it 2^-53.

use super::base::{one_level, steps, valley};
use super::Tally;
use crate::make::Draft;

const NAN: f64 = f64::NAN;
const INF: f64 = f64::INFINITY;
const MAX: f64 = f64::MAX;
/// 2^22 and 2^52.
const FAR: f64 = 4_194_304.0;
const FARTHER: f64 = 4_503_599_627_370_496.0;

/// What the report must be: with the vector in x, and in y.
type Want = [&'static str; 2];
const FITS: Want = ["", ""];
const MISSES: Want = ["451 0 -", "452 0 -"];
const BOTH: &str = "451 0 -, 452 0 -";
/// Beside the finding on a pixel size that is none.
const MISSES_NO_SIZE: Want = ["451 0 -, 511 0 -", "452 0 -, 521 0 -"];

/// Corners, tiles, pixels of a tile, pixel size.
type Axis = (f64, f64, i64, i64, f64);

pub fn check(tally: &mut Tally) {
    check_two_ways(tally);
    check_axes_apart(tally);
    check_gap(tally);
    check_at_most(tally);
    check_difference_rounded(tally);
    check_sides_rounded(tally);
    check_greatest(tally);
    check_no_sizes(tally);
    check_not_finite(tally);
    check_smallest(tally);
    check_anywhere(tally);
    check_short_extents(tally);
    check_widths(tally);
    check_farms(tally);
    check_other_findings(tally);
    check_levels(tally);
}

/// 2 to a power from -1022 on, as its pattern has it.
fn two_to(power: i64) -> f64 {
    f64::from_bits(((power + 1023) as u64) << 52)
}

/// So many times the smallest double.
fn smallest(count: u64) -> f64 {
    f64::from_bits(count)
}

/// Puts an axis into x (0) or y (1) of a draft's first set row and matrix row.
fn put(draft: &mut Draft, at: usize, (low, high, tiles, pixels, size): Axis) {
    let (corners, row) = (&mut draft.sets[0].corners, &mut draft.matrices[0]);
    (corners[at], corners[at + 2]) = (low, high);
    match at {
        0 => (row.matrix_width, row.tile_width, row.pixel_x_size) = (tiles, pixels, size),
        _ => (row.matrix_height, row.tile_height, row.pixel_y_size) = (tiles, pixels, size),
    }
}

/// The one-level pack with an axis in x, and with the same in y.
fn check_axis(tally: &mut Tally, shows: &str, axis: Axis, want: Want) {
    for (at, name) in ["x", "y"].into_iter().enumerate() {
        let mut draft = one_level();
        put(&mut draft, at, axis);
        let shows = format!("2026-02, {shows}, in {name}: {axis:?}");
        tally.judged(&shows, &draft.listing(), want[at]);
    }
}

/// An extent with 4 times 256 pixels of some sizes.
fn check_sizes(tally: &mut Tally, shows: &str, corners: [f64; 2], sizes: &[(f64, Want)]) {
    for &(size, want) in sizes {
        check_axis(tally, shows, (corners[0], corners[1], 4, 256, size), want);
    }
}

/// An extent with one pixel of some sizes.
fn check_pixel(tally: &mut Tally, shows: &str, corners: [f64; 2], sizes: &[(f64, Want)]) {
    for &(size, want) in sizes {
        check_axis(tally, shows, (corners[0], corners[1], 1, 1, size), want);
    }
}

/// The same extent on the other side of the origin.
fn mirrored([low, high]: [f64; 2]) -> [f64; 2] {
    [-high, -low]
}

/// 2.1: from -512 to 512, four gaps of 512 are 2^-41. A step above 1024 is 2^-42
/// and near allows four: 2^-40. Below 1024 both allow four steps of 2^-43.
fn check_two_ways(tally: &mut Tally) {
    let sizes = [
        (steps(1.0, 4), FITS),
        (steps(1.0, 5), MISSES),
        (steps(1.0, -4), FITS),
        (steps(1.0, -5), MISSES),
    ];
    check_sizes(tally, "near is wider", [-512.0, 512.0], &sizes);
    let sizes = [(1.0, FITS), (1.0 + two_to(-40), FITS), (1.0 + two_to(-36), MISSES)];
    check_sizes(tally, "the gaps are wider", [FAR, FAR + 1024.0], &sizes);
}

/// 2.2: the corner is one of the axis's own two.
fn check_axes_apart(tally: &mut Tally) {
    let size = 1.0 + two_to(-38);
    let (near, far) = ((0.0, 1024.0, 4, 256, size), (FAR, FAR + 1024.0, 4, 256, size));
    for (x, y, want) in
        [(near, far, "451 0 -"), (far, near, "452 0 -"), (far, far, ""), (near, near, BOTH)]
    {
        let mut draft = one_level();
        put(&mut draft, 0, x);
        put(&mut draft, 1, y);
        tally.judged("2026-02, the corners of one axis", &draft.listing(), want);
    }
}

/// 2.3 and 2.4: upwards, from the larger corner, whatever its sign. Just below
/// 2^22 the gap is 2^-31, at 2^22 itself 2^-30.
fn check_gap(tally: &mut Tally) {
    let (wide, narrow) = (1.0 + two_to(-38), 1.0 + two_to(-39));
    let at_the_power = [FAR - 1024.0, FAR];
    let below_it = [steps(FAR - 1024.0, -1), steps(FAR, -1)];
    let above_it = [FAR, FAR + 1024.0];
    let wide_sizes = [(wide, FITS), (steps(wide, 1), MISSES)];
    let narrow_sizes = [(narrow, FITS), (steps(narrow, 1), MISSES), (wide, MISSES)];
    for (corners, sizes) in [
        (at_the_power, &wide_sizes[..]),
        (above_it, &wide_sizes[..]),
        (below_it, &narrow_sizes[..]),
    ] {
        check_sizes(tally, "the gap above the corner", corners, sizes);
        check_sizes(tally, "the gap above a negative corner", mirrored(corners), sizes);
    }
    // Equal magnitudes, extent 2^23: four gaps are 2^-28, four steps above 2^-27,
    // four steps below 2^-28.
    for (size, want) in [
        (steps(1.0, 4), FITS),
        (steps(1.0, 5), MISSES),
        (steps(1.0, -4), FITS),
        (steps(1.0, -5), MISSES),
    ] {
        check_axis(tally, "equal magnitudes", (-FAR, FAR, 8_192, 1_024, size), want);
    }
}

/// 2.5: four gaps exactly pass, on both sides, by the pixel and by the corner.
fn check_at_most(tally: &mut Tally) {
    let (more, less) = (1.0 + two_to(-38), 1.0 - two_to(-38));
    let sizes = [
        (more, FITS),
        (1.0 + two_to(-38) + two_to(-52), MISSES),
        (less, FITS),
        (1.0 - two_to(-38) - two_to(-53), MISSES),
    ];
    check_sizes(tally, "four gaps exactly", [FAR, FAR + 1024.0], &sizes);
    for (count, want) in [(4, FITS), (-4, FITS), (5, MISSES), (-5, MISSES)] {
        let corners = [FAR, steps(FAR + 1024.0, count)];
        check_sizes(tally, "a corner moved by gaps", corners, &[(1.0, want)]);
        check_sizes(tally, "a corner moved by gaps", mirrored(corners), &[(1.0, want)]);
    }
}

/// 2.6: extent 5, a gap of 1. From 4 to 8 doubles are 2^-50 apart: 4 + 2^-51 is
/// in the middle and becomes 4, a bit more becomes 4 + 2^-50.
fn check_difference_rounded(tally: &mut Tally) {
    let sizes = [
        (1.0, FITS),
        (1.0 - two_to(-53), FITS),
        (1.0 - two_to(-51), FITS),
        (1.0 - two_to(-51) - two_to(-53), MISSES),
        (9.0, FITS),
        (9.0 + two_to(-49), MISSES),
    ];
    let corners = [FARTHER, FARTHER + 5.0];
    check_pixel(tally, "the difference rounded once", corners, &sizes);
    check_pixel(tally, "the difference rounded once", mirrored(corners), &sizes);
}

/// The extent and the product are rounded before they are compared.
fn check_sides_rounded(tally: &mut Tally) {
    // 1024 + 2^-60 and 1024 + 2^-43, a middle, become 1024, with gaps of 2^-42:
    // four of them are eight steps below 1.0.
    let sizes = [(steps(1.0, -8), FITS), (steps(1.0, -9), MISSES)];
    for low in [-two_to(-60), -two_to(-43)] {
        check_sizes(tally, "the extent rounded", [low, 1024.0], &sizes);
        check_sizes(tally, "the extent rounded", [-1024.0, -low], &sizes);
    }
    // A bit more than the middle becomes 1024 + 2^-42: one gap, two steps, less.
    let sizes = [(steps(1.0, -6), FITS), (steps(1.0, -7), MISSES)];
    let low = -steps(two_to(-43), 1);
    check_sizes(tally, "the extent rounded up", [low, 1024.0], &sizes);
    // 43 times 390,168 is 2^24 + 8: the product is 43 + 2^-28 + 2^-49, which
    // becomes 43 + 2^-28, since doubles are 2^-47 apart there. One step more is
    // 51 times 2^-52 above 43 + 2^-28, which becomes 64 times.
    for (count, want) in [(390_168, FITS), (390_169, MISSES)] {
        let axis = (FAR, FAR + 43.0, 43, 1, steps(1.0, count));
        check_axis(tally, "the product rounded", axis, want);
    }
}

/// 2.7: above the greatest double there is none, so only near passes. One below
/// it the gap is 2^971, and a step below 2^1023 is half of that.
fn check_greatest(tally: &mut Tally) {
    let four_steps = |extent: f64| {
        [
            (extent, FITS),
            (steps(extent, -4), FITS),
            (steps(extent, -5), MISSES),
            (smallest(1), MISSES),
        ]
    };
    let (half, below) = (two_to(1023), steps(MAX, -1));
    for (corners, sizes) in [
        ([0.0, MAX], four_steps(MAX)),
        // 2^1023 - 2^971.
        ([half, MAX], four_steps(steps(half, -2))),
        ([0.0, below], four_steps(below)),
    ] {
        check_pixel(tally, "the greatest double", corners, &sizes);
        check_pixel(tally, "the greatest double", mirrored(corners), &sizes);
    }
    // 2^1023 - 2^972, and four gaps are eight steps below it.
    let extent = steps(half, -4);
    let sizes = [
        (steps(extent, -5), FITS),
        (steps(extent, -8), FITS),
        (steps(extent, -9), MISSES),
        (smallest(1), MISSES),
    ];
    check_pixel(tally, "one below the greatest", [half, below], &sizes);
    check_pixel(tally, "one below the greatest", [-below, -half], &sizes);
}

/// 2.8: an extent or a product that is not above 0, though less than four gaps
/// from the other.
fn check_no_sizes(tally: &mut Tally) {
    let empty = [FARTHER, FARTHER];
    check_pixel(tally, "an empty extent", empty, &[(1.0, MISSES), (smallest(1), MISSES)]);
    let reversed = [FARTHER + 1.0, FARTHER];
    let sizes = [(1.0, MISSES), (smallest(1), MISSES), (-1.0, MISSES_NO_SIZE)];
    check_pixel(tally, "a reversed extent", reversed, &sizes);
    check_pixel(tally, "a reversed extent", mirrored(reversed), &sizes);
    let sizes = [
        (0.0, MISSES_NO_SIZE),
        (-0.0, MISSES_NO_SIZE),
        (-smallest(1), MISSES_NO_SIZE),
        (-1.0, MISSES_NO_SIZE),
    ];
    check_pixel(tally, "no size", [FARTHER, FARTHER + 1.0], &sizes);
    for corners in [[0.0, 0.0], [-0.0, 0.0], [0.0, -0.0], [-0.0, -0.0]] {
        let sizes = [(smallest(1), MISSES), (smallest(4), MISSES), (0.0, MISSES_NO_SIZE)];
        check_pixel(tally, "both corners 0", corners, &sizes);
    }
    // -0 counts as 0.
    let sizes = [(steps(1.0, -8), FITS), (steps(1.0, -9), MISSES)];
    for corners in [[-0.0, 1024.0], [-1024.0, 0.0], [-1024.0, -0.0]] {
        check_sizes(tally, "one corner 0", corners, &sizes);
    }
}

/// 2.8: NaN and infinities in each place, and what overflows.
fn check_not_finite(tally: &mut Tally) {
    let other_nan = f64::from_bits(0xfff0_0000_0000_0001);
    for strange in [NAN, -NAN, other_nan, INF, -INF] {
        for corners in [[strange, FAR], [FAR, strange], [strange, strange]] {
            check_pixel(tally, "a strange corner", corners, &[(1.0, MISSES)]);
            check_pixel(tally, "strange in all places", corners, &[(strange, MISSES_NO_SIZE)]);
        }
        let sizes = [(strange, MISSES_NO_SIZE)];
        check_pixel(tally, "a strange size", [FARTHER, FARTHER + 1.0], &sizes);
    }
    let half = two_to(1023);
    // The extent would be 2^1024, one gap above the greatest double.
    check_pixel(tally, "an extent that overflows", [-half, half], &[(MAX, MISSES)]);
    check_pixel(tally, "an extent that overflows", [-MAX, MAX], &[(MAX, MISSES)]);
    // The product would be 2^1024, two gaps above the extent.
    let axis = (0.0, steps(MAX, -1), 2, 1, half);
    check_axis(tally, "a product that overflows", axis, MISSES);
    // The greatest and 2^970 are in the middle below 2^1024; 2^969 is lost.
    check_pixel(tally, "an extent of the greatest", [-two_to(969), MAX], &[(MAX, FITS)]);
    check_pixel(tally, "an extent above it", [-two_to(970), MAX], &[(MAX, MISSES)]);
}

/// 2.9: among the smallest doubles the gap is one of them, and from 2^53 of them
/// on it is two.
fn check_smallest(tally: &mut Tally) {
    let five = [(1, FITS), (5, FITS), (9, FITS), (10, MISSES)];
    let six = [(1, MISSES), (2, FITS), (10, FITS), (11, MISSES)];
    let ten = [(5, MISSES), (6, FITS), (14, FITS), (15, MISSES)];
    let ten_by_two = [(1, MISSES), (2, FITS), (18, FITS), (19, MISSES)];
    let two = smallest(1 << 53);
    for (corners, sizes) in [
        ([0.0, smallest(5)], five),
        ([0.0, smallest(6)], six),
        ([smallest(10), smallest(15)], five),
        ([smallest(10), smallest(16)], six),
        ([-smallest(3), smallest(2)], five),
        ([-smallest(3), smallest(3)], six),
        ([steps(two, -11), steps(two, -1)], ten),
        ([steps(two, -10), two], ten_by_two),
        ([two, steps(two, 5)], ten_by_two),
    ] {
        let sizes = sizes.map(|(count, want)| (smallest(count), want));
        check_pixel(tally, "smallest doubles", corners, &sizes);
        check_pixel(tally, "smallest doubles", mirrored(corners), &sizes);
    }
}

/// 2.10: no distance is asked for. Below 1024 a step is half the gap, so that
/// four gaps are eight steps; from 1024 to 2048, eight above and sixteen below.
fn check_anywhere(tally: &mut Tally) {
    let at_0: [(i64, Want); 8] = [
        (4, FITS),
        (5, MISSES),
        (-4, FITS),
        (-5, FITS),
        (-6, FITS),
        (-7, FITS),
        (-8, FITS),
        (-9, MISSES),
    ];
    let beside_0: [(i64, Want); 8] = [
        (5, FITS),
        (8, FITS),
        (9, MISSES),
        (-5, FITS),
        (-9, FITS),
        (-16, FITS),
        (-17, MISSES),
        (-1_000_000, MISSES),
    ];
    for (corners, cases) in [([0.0, 1024.0], at_0), ([1024.0, 2048.0], beside_0)] {
        let sizes = cases.map(|(count, want)| (steps(1.0, count), want));
        check_sizes(tally, "near the origin", corners, &sizes);
        check_sizes(tally, "near the origin", mirrored(corners), &sizes);
    }
}

/// 2.10: an extent of at most four gaps passes with any product up to itself and
/// four gaps.
fn check_short_extents(tally: &mut Tally) {
    let cases = [
        (1.0, [(smallest(1), FITS), (5.0, FITS), (steps(5.0, 1), MISSES)]),
        (4.0, [(smallest(1), FITS), (8.0, FITS), (steps(8.0, 1), MISSES)]),
        (5.0, [(smallest(1), MISSES), (0.5, MISSES), (1.0, FITS)]),
    ];
    for (extent, sizes) in cases {
        let corners = [FARTHER, FARTHER + extent];
        check_pixel(tally, "a short extent", corners, &sizes);
        check_pixel(tally, "a short extent", mirrored(corners), &sizes);
    }
}

/// 2.11: the width conditions come before both ways.
fn check_widths(tally: &mut Tally) {
    const TWO_TO_53: i64 = 1 << 53;
    let end = TWO_TO_53 as f64;
    let negative: Want = ["451 0 -, 471 0 -, 491 0 -", "452 0 -, 481 0 -, 501 0 -"];
    let no_tiles: Want = ["451 0 -, 471 0 -", "452 0 -, 481 0 -"];
    let no_pixels: Want = ["451 0 -, 491 0 -", "452 0 -, 501 0 -"];
    let negative_size: Want = ["451 0 -, 471 0 -, 511 0 -", "452 0 -, 481 0 -, 521 0 -"];
    let (low, high, tiny) = (FARTHER, FARTHER + 4.0, smallest(1));
    let cases = [
        // 2^53 less eight, and less nine, with a gap of 2.
        ((0.0, end, TWO_TO_53, 1, steps(1.0, -8)), FITS),
        ((0.0, end, TWO_TO_53, 1, steps(1.0, -9)), MISSES),
        ((0.0, end, 1, TWO_TO_53, steps(1.0, -8)), FITS),
        ((0.0, end, TWO_TO_53 + 1, 1, steps(1.0, -5)), MISSES),
        ((0.0, end, 1, TWO_TO_53 + 1, 1.0), MISSES),
        ((low, high, TWO_TO_53, 1, tiny), FITS),
        ((low, high, TWO_TO_53 + 1, 1, tiny), MISSES),
        ((low, high, i64::MAX, i64::MAX, tiny), MISSES),
        ((FAR, FAR + 1024.0, -4, -256, 1.0), negative),
        ((low, high, -1, -1, tiny), negative),
        ((low, high, 0, 1, tiny), no_tiles),
        ((low, high, 1, 0, tiny), no_pixels),
        ((FAR, FAR + 1024.0, -4, 256, -1.0), negative_size),
        // 2^64 + 1024 wraps to 1024.
        ((FAR, FAR + 1024.0, (1 << 62) + 256, 4, 1.0), MISSES),
    ];
    for (axis, want) in cases {
        check_axis(tally, "the width conditions", axis, want);
    }
}

/// What the request is about. Stored, a corner is off by half a gap at most, and
/// so the extent by one; the product is off by far less.
fn check_farms(tally: &mut Tally) {
    // Gaps of 2^-31 at 4,000,000 and of 2^-30 at 5,200,000, of 2^-34 at 500,000.
    let cases = [
        ((4_000_000.1, 4_000_000.3, 2, 1, 0.1), FITS),
        ((5_200_000.0, 5_200_102.4, 4, 256, 0.1), FITS),
        ((5_200_000.0, 5_200_102.4, 2, 256, 0.2), FITS),
        ((5_200_000.0, 5_200_102.4, 1, 256, 0.4), FITS),
        ((500_000.0, 500_102.4, 4, 256, 0.1), FITS),
        ((-5_200_102.4, -5_200_000.0, 4, 256, 0.1), FITS),
        // A hundredth of a millimetre: more than ten thousand gaps.
        ((5_200_000.0, 5_200_102.400_01, 4, 256, 0.1), MISSES),
        ((5_200_000.0, 5_200_102.4, 4, 256, 0.100_000_01), MISSES),
        // 46 and 47 degrees, gaps of 2^-47, with 3,600 pixels of an arc-second.
        ((46.1, 47.1, 10, 360, 1.0 / 3600.0), FITS),
        ((-47.1, -46.1, 10, 360, 1.0 / 3600.0), FITS),
        // One part in a million more.
        ((46.1, 47.1, 10, 360, 1.000_001 / 3600.0), MISSES),
    ];
    for (axis, want) in cases {
        check_axis(tally, "a farm", axis, want);
    }
}

/// The worked case of docs/RULES.md: three levels at 500000, 5200000.
fn farm() -> Draft {
    let mut draft = valley();
    draft.sets[0].corners = [500_000.0, 5_200_000.0, 500_102.4, 5_200_102.4];
    for (row, size) in [0.4, 0.2, 0.1].into_iter().enumerate() {
        draft.matrices[row].pixel_x_size = size;
        draft.matrices[row].pixel_y_size = size;
    }
    draft
}

/// 2.12: what goes is 451 and 452 alone; what stays keeps its order and partner.
fn check_other_findings(tally: &mut Tally) {
    tally.judged("2026-02, a whole farm", &farm().listing(), "");
    let mut draft = farm();
    draft.matrices[1].pixel_x_size = 0.25;
    draft.matrices[2].matrix_height = 0;
    draft.tile("valley", 2, 3, 3);
    draft.tile("valley", 3, 0, 0);
    let want = "351 1 0, 351 2 1, 441 4 -, 451 1 -, 452 2 -, 481 2 -, 541 3 2, 551 4 -, \
                571 2 -, 571 3 -";
    tally.judged("2026-02, a farm with other findings", &draft.listing(), want);
}

/// 2.13: 351 goes by near, however far the extent is.
fn check_levels(tally: &mut Tally) {
    for (count, want) in [(4, ""), (5, "351 1 0"), (-4, ""), (-5, "351 1 0")] {
        for at in [0, 1] {
            let mut draft = valley();
            draft.matrices.truncate(2);
            draft.tiles.truncate(2);
            draft.sets[0].corners = [FAR, FAR, FAR + 1024.0, FAR + 1024.0];
            let size = steps(4.0, count);
            put(&mut draft, at, (FAR, FAR + 1024.0, 1, 256, size));
            tally.judged("2026-02, 351 by near alone", &draft.listing(), want);
        }
    }
}
