//! Doubles: sizes, "near", and the two ways to pass 451 and 452.

use super::exact;

/// Finite and above 0: what a size has to be.
pub fn is_size(value: f64) -> bool {
    value.is_finite() && value > 0.0
}

/// Near (house): both are sizes, and their bit patterns read as whole numbers
/// differ by at most 4.
pub fn is_near(one: f64, other: f64) -> bool {
    is_size(one) && is_size(other) && one.to_bits().abs_diff(other.to_bits()) <= 4
}

/// The greatest product of a matrix size and a tile size: 2^53.
const GREATEST_PRODUCT: i128 = 1 << 53;

/// What 451 and 452 look at: the corners of a set row along one axis, and of a
/// matrix row how many tiles there are along it, how many pixels a tile has, and
/// how long a pixel is.
#[derive(Clone, Copy, Debug)]
pub struct Axis {
    pub low: f64,
    pub high: f64,
    pub tiles: i64,
    pub pixels: i64,
    pub pixel_size: f64,
}

impl Axis {
    /// Does the matrix span the extent? The exact way is asked last, since few
    /// rows need it.
    pub fn is_spanned(&self) -> bool {
        self.product().is_some_and(|count| self.is_near(count) || self.is_within_gaps(count))
    }

    /// How many pixels there are, where the width conditions hold. The product
    /// is taken in 128 bits, since 64 would wrap.
    pub fn product(&self) -> Option<u64> {
        let product = i128::from(self.tiles) * i128::from(self.pixels);
        let is_allowed = self.tiles > 0 && self.pixels > 0 && product <= GREATEST_PRODUCT;
        is_allowed.then_some(product as u64)
    }

    /// Document 01's way: the extent is near the product with the pixel size.
    pub fn is_near(&self, count: u64) -> bool {
        is_near(self.high - self.low, count as f64 * self.pixel_size)
    }

    /// The way of request 2026-02: extent and product with the pixel size differ
    /// by at most four gaps. Four times a gap is exact.
    pub fn is_within_gaps(&self, count: u64) -> bool {
        let four_gaps = self.gap().and_then(|gap| exact::product(4, gap));
        let both = self.difference(count).zip(four_gaps);
        both.is_some_and(|(difference, four_gaps)| difference.abs() <= four_gaps)
    }

    /// From the corner larger in magnitude to the next double above that
    /// magnitude, if it is finite.
    pub fn gap(&self) -> Option<f64> {
        let is_low_larger = self.low.abs() > self.high.abs();
        exact::gap_above(if is_low_larger { self.low } else { self.high })
    }

    /// The extent less the product with the pixel size, each of the three rounded
    /// once, if both are finite and above 0.
    pub fn difference(&self, count: u64) -> Option<f64> {
        let extent = exact::difference(self.high, self.low)?;
        let measured = exact::product(count, self.pixel_size)?;
        let are_sizes = is_size(extent) && is_size(measured);
        exact::difference(extent, measured).filter(|_| are_sizes)
    }
}

#[cfg(test)]
mod tests {
    use super::*;
    use crate::generate::{wild_axis, Random};

    /// The second way by the machine's arithmetic, which rounds each step once.
    fn is_within_gaps_by_machine(axis: &Axis, count: u64) -> bool {
        let extent = axis.high - axis.low;
        let measured = count as f64 * axis.pixel_size;
        let larger = axis.low.abs().max(axis.high.abs());
        let gap = f64::from_bits(larger.to_bits() + 1) - larger;
        let are_finite = extent.is_finite() && measured.is_finite() && gap.is_finite();
        are_finite && extent > 0.0 && measured > 0.0 && (extent - measured).abs() <= 4.0 * gap
    }

    #[test]
    fn the_second_way_is_the_machines_on_wild_axes() {
        let mut random = Random::new(5);
        let mut counts = [0; 2];
        for _ in 0..500_000 {
            let axis = wild_axis(&mut random);
            let Some(count) = axis.product() else {
                continue;
            };
            let is_within = axis.is_within_gaps(count);
            assert_eq!(is_within, is_within_gaps_by_machine(&axis, count), "{axis:?}");
            counts[usize::from(is_within)] += 1;
        }
        assert!(counts.iter().all(|&count| count > 100_000), "{counts:?}");
    }
}
