//! Extents and pixel sizes at the edge of fitting, for 451 and 452: edges worked
//! out by hand, edges far from the origin that are known by the way they are made,
//! and axes around such edges of which nothing is known.

use super::Random;
use crate::rules::Axis;

/// The double so many steps away from a positive one.
pub fn stepped(size: f64, steps: i64) -> f64 {
    f64::from_bits(size.to_bits().wrapping_add_signed(steps))
}

/// An axis at the edge of fitting.
#[derive(Clone, Copy)]
pub struct SpanEdge {
    pub axis: Axis,
    /// Does it break 451 (or 452)?
    pub shows: bool,
}

const fn edge(low: f64, high: f64, tiles: i64, pixels: i64, size: f64, shows: bool) -> SpanEdge {
    SpanEdge { axis: Axis { low, high, tiles, pixels, pixel_size: size }, shows }
}

/// An axis at the edge of fitting, of any kind.
pub fn span_edge(random: &mut Random) -> SpanEdge {
    match random.below(4) {
        0 => random.pick(&plain_edges()),
        1 => random.pick(&gap_edges()),
        2 => random.pick(&last_edges()),
        _ => far_edge(random),
    }
}

/// 2^22, 2^52 and 2^53.
const FAR: f64 = 4_194_304.0;
const FARTHER: f64 = 4_503_599_627_370_496.0;
const TWO_TO_53: f64 = 9_007_199_254_740_992.0;

/// What document 01 tells of: near, width conditions, extents that are none.
fn plain_edges() -> [SpanEdge; 27] {
    let bits = f64::from_bits;
    [
        edge(0.0, 1024.0, 4, 256, 1.0, false),
        edge(0.0, 1024.0, 4, 256, stepped(1.0, 4), false),
        edge(0.0, 1024.0, 4, 256, stepped(1.0, 5), true),
        edge(-512.0, 512.0, 4, 256, stepped(1.0, 4), false),
        edge(-512.0, 512.0, 4, 256, stepped(1.0, 5), true),
        edge(-512.0, 512.0, 4, 256, stepped(1.0, -4), false),
        edge(-512.0, 512.0, 4, 256, stepped(1.0, -5), true),
        edge(0.0, TWO_TO_53, 1 << 53, 1, 1.0, false),
        edge(0.0, TWO_TO_53, 1, 1 << 53, 1.0, false),
        edge(0.0, TWO_TO_53, 1 << 26, 1 << 27, 1.0, false),
        edge(0.0, TWO_TO_53, (1 << 53) + 1, 1, 1.0, true),
        edge(0.0, TWO_TO_53, (1 << 52) + 1, 2, 1.0, true),
        edge(0.0, 1024.0, (1 << 62) + 256, 4, 1.0, true),
        edge(0.0, 1024.0, 1 << 32, 1 << 32, 1.0, true),
        edge(0.0, 1.0, i64::MAX, i64::MAX, 1.0, true),
        edge(0.0, 1024.0, -4, -256, 1.0, true),
        edge(0.0, 1024.0, -4, 256, -1.0, true),
        edge(1024.0, 0.0, 4, 256, 1.0, true),
        edge(1024.0, 1024.0, 4, 256, 1.0, true),
        edge(f64::NAN, 1024.0, 4, 256, 1.0, true),
        edge(0.0, f64::INFINITY, 4, 256, f64::INFINITY, true),
        edge(-f64::MAX, f64::MAX, 4, 256, f64::MAX, true),
        edge(0.0, 0.3, 3, 1, 0.1, false),
        edge(0.0, bits(5), 1, 1, bits(1), false),
        edge(0.0, bits(6), 1, 1, bits(1), true),
        edge(0.0, 0.0, 1, 1, bits(1), true),
        edge(-0.0, 1024.0, 4, 256, 1.0, false),
    ]
}

/// Request 2026-02: four gaps and more; where the gap is, and what is rounded.
fn gap_edges() -> [SpanEdge; 24] {
    // Four gaps of 2^-30 on 1,024 pixels, and four of 2^-31.
    let four = 1.0 + 1.0 / f64::from(1 << 19) / f64::from(1 << 19);
    let half = 1.0 + (four - 1.0) / 2.0;
    let below = stepped(FAR, -1);
    // 2^-43: beside 1024 it is half a gap, which is lost.
    let lost = 512.0 / FARTHER;
    let tiny = f64::from_bits(1);
    [
        edge(0.0, 1024.0, 4, 256, stepped(1.0, -5), false),
        edge(0.0, 1024.0, 4, 256, stepped(1.0, -8), false),
        edge(0.0, 1024.0, 4, 256, stepped(1.0, -9), true),
        edge(-1024.0, -0.0, 4, 256, stepped(1.0, -8), false),
        edge(-1024.0, 0.0, 4, 256, stepped(1.0, -9), true),
        edge(FAR - 1024.0, FAR, 4, 256, four, false),
        edge(FAR - 1024.0, FAR, 4, 256, stepped(four, 1), true),
        edge(-FAR, 1024.0 - FAR, 4, 256, four, false),
        edge(-FAR, 1024.0 - FAR, 4, 256, stepped(four, 1), true),
        edge(below - 1024.0, below, 4, 256, half, false),
        edge(below - 1024.0, below, 4, 256, stepped(half, 1), true),
        edge(FAR, FAR + 1024.0, -4, -256, 1.0, true),
        edge(FAR, FAR + 43.0, 43, 1, stepped(1.0, 390_168), false),
        edge(FAR, FAR + 43.0, 43, 1, stepped(1.0, 390_169), true),
        edge(-lost, 1024.0, 4, 256, stepped(1.0, -8), false),
        edge(4e6, 4e6 + 0.1, 1, 1, 0.1, false),
        edge(FARTHER, FARTHER + 5.0, 1, 1, stepped(1.0, -4), false),
        edge(FARTHER, FARTHER + 5.0, 1, 1, stepped(1.0, -5), true),
        edge(FARTHER, FARTHER + 4.0, 1, 1, tiny, false),
        edge(FARTHER, FARTHER + 4.0, (1 << 53) + 1, 1, tiny, true),
        edge(FARTHER, FARTHER + 5.0, 1, 1, tiny, true),
        edge(FARTHER, FARTHER, 1, 1, 1.0, true),
        edge(FARTHER + 1.0, FARTHER, 1, 1, 1.0, true),
        edge(FARTHER, FARTHER + 1.0, 1, 1, -1.0, true),
    ]
}

/// Request 2026-02 at both ends of the doubles, and at a product of 2^53.
fn last_edges() -> [SpanEdge; 20] {
    let (most, bits) = (f64::MAX, f64::from_bits);
    // 2^1023; what is from it to the greatest double, and to the one below that.
    let half = bits(0x7fe0_0000_0000_0000);
    let (last, second) = (stepped(half, -2), stepped(half, -4));
    let below = stepped(most, -1);
    // From 2^53 of the smallest doubles on, the gap is two of them.
    let two = bits(1 << 53);
    [
        edge(0.0, most, 1, 1, most, false),
        edge(0.0, most, 1, 1, stepped(most, -4), false),
        edge(0.0, most, 1, 1, stepped(most, -5), true),
        edge(half, most, 1, 1, stepped(last, -4), false),
        edge(half, most, 1, 1, stepped(last, -5), true),
        edge(-most, -half, 1, 1, stepped(last, -5), true),
        edge(half, below, 1, 1, stepped(second, -8), false),
        edge(half, below, 1, 1, stepped(second, -9), true),
        edge(-below, -half, 1, 1, stepped(second, -8), false),
        edge(-half, half, 1, 1, most, true),
        edge(0.0, below, 2, 1, half, true),
        edge(bits(10), bits(15), 1, 1, bits(9), false),
        edge(-bits(15), -bits(10), 1, 1, bits(10), true),
        edge(two, stepped(two, 5), 1, 1, bits(2), false),
        edge(two, stepped(two, 5), 1, 1, bits(1), true),
        edge(stepped(two, -10), two, 1, 1, bits(18), false),
        edge(stepped(two, -11), stepped(two, -1), 1, 1, bits(15), true),
        edge(0.0, TWO_TO_53, 1 << 53, 1, stepped(1.0, -8), false),
        edge(0.0, TWO_TO_53, 1 << 53, 1, stepped(1.0, -9), true),
        edge(0.0, TWO_TO_53, (1 << 53) + 1, 1, stepped(1.0, -5), true),
    ]
}

/// An extent of some thousand halves of a gap or more, anywhere but at the ends
/// of the doubles, and a pixel size on either side of the edge.
fn far_edge(random: &mut Random) -> SpanEdge {
    let exponent = match random.below(3) {
        0 => 1023 + random.from_to(18, 23),
        1 => 1023 + random.from_to(2, 7),
        _ => random.from_to(200, 1_900),
    } as u64;
    let fraction = random.word() >> random.pick(&[12, 12, 40, 63, 63]);
    let high = f64::from_bits((exponent << 52) + fraction);
    let halves = 1_000 + (random.word() >> random.from_to(20, 60));
    let low = high - halves as f64 * (gap_above(high) / 2.0);
    let (low, high) = if random.once_in(2) { (-high, -low) } else { (low, high) };
    let sides = [(1, 1), (1, 256), (4, 256), (3, 256), (7, 300), (43, 1), (99_991, 10_007)];
    let (tiles, pixels) = random.pick(&sides);
    let (size, shows) = edge_size(random, low, high, (tiles * pixels) as u64);
    edge(low, high, tiles, pixels, size, shows)
}

/// From a positive double to the next one above.
fn gap_above(value: f64) -> f64 {
    stepped(value, 1) - value
}

/// A pixel size at the edge of what fits an extent, inside or beyond, and whether
/// it is beyond. The extent is exact; so is what is added to it or taken from it.
pub fn edge_size(random: &mut Random, low: f64, high: f64, product: u64) -> (f64, bool) {
    let is_above = random.once_in(2);
    let inside = last_size(low, high, product, is_above);
    if random.once_in(2) {
        return (inside, false);
    }
    // A step of the size moves a product with a power of two by a step of its own,
    // others by more than half a step: then two steps are needed.
    let steps = if product.is_power_of_two() { 1 } else { 2 };
    (stepped(inside, if is_above { steps } else { -steps }), true)
}

/// The greatest size, or the least, whose product still fits. It may be four gaps
/// away, or four steps where a step of the extent is the wider.
pub fn last_size(low: f64, high: f64, product: u64, is_above: bool) -> f64 {
    let extent = high - low;
    let gap = gap_above(low.abs().max(high.abs()));
    match is_above {
        true => divided(extent + 4.0 * gap.max(gap_above(extent)), product, false),
        false => {
            let step = extent - stepped(extent, -1);
            divided(extent - 4.0 * gap.max(step), product, true)
        }
    }
}

/// A double divided by a whole number: the next double below, or above, where
/// it is none. In whole numbers: 53 digits of the quotient, and what is left.
fn divided(value: f64, by: u64, is_up: bool) -> f64 {
    let (exponent, fraction) = (value.to_bits() >> 52, value.to_bits() & ((1 << 52) - 1));
    let digits = u128::from(1 << 52 | fraction);
    let length = u64::from(u64::BITS - by.leading_zeros());
    let quotient = |places: u64| (digits << places) / u128::from(by);
    let places = if quotient(length) >> 53 == 0 { length } else { length - 1 };
    let is_left = (digits << places) % u128::from(by) != 0;
    let last = quotient(places) as u64 + u64::from(is_up && is_left);
    f64::from_bits(((exponent - places - 1) << 52) + last)
}

/// Corners of any size, often close to each other, and a product some gaps from
/// the extent. The machine's arithmetic does for it, rounded as it happens to be.
pub fn wild_axis(random: &mut Random) -> Axis {
    let exponent = match random.below(3) {
        0 => random.pick(&[0, 0, 1, 2, 53, 54, 1_023, 2_044, 2_045, 2_046]),
        1 => random.below(2_047) as u64,
        _ => 1_023 + random.below(54) as u64,
    };
    let larger = f64::from_bits((exponent << 52) + (random.word() >> random.from_to(12, 63)));
    let gap = gap_above(larger);
    let other = match random.below(5) {
        0 => larger - random.from_to(0, 40) as f64 * gap / 2.0,
        1 => larger - (random.word() >> random.from_to(12, 63)) as f64 * gap,
        2 => larger * random.pick(&[0.0, -0.0, 0.5, -0.5, -1.0, 0.25, 0.75]),
        3 => stepped(larger, -random.from_to(0, 20)),
        _ => larger / (1_u64 << random.below(64)) as f64,
    };
    let is_mirrored = random.once_in(2);
    let (low, high) = if is_mirrored { (-larger, -other) } else { (other, larger) };
    let gaps = random.from_to(-6, 6) as f64 / random.pick(&[1.0, 1.0, 2.0, 64.0]);
    let tiles = match random.below(3) {
        0 => random.pick(&[1, 2, 3, 7, 256, (1 << 53) - 1, 1 << 53]),
        1 => 1,
        _ => 1 + (random.word() >> random.from_to(11, 63)) as i64,
    };
    let size = ((high - low) + gaps * gap) / tiles as f64;
    let pixel_size = stepped(size, random.from_to(-9, 9));
    Axis { low, high, tiles, pixels: 1, pixel_size }
}
