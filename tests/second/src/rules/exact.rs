//! Differences and products of doubles, and the gap above one, without the
//! machine's arithmetic on doubles: in whole numbers, rounded once at the end.
//!
//! A finite double is a whole number of at most 53 bits times a power of two. A
//! difference or a product is put together from these numbers, with all digits
//! that can decide how it rounds, and then rounded: to the nearest double, and
//! from the middle between two of them to the one whose last digit is even.
//! Nothing is answered that is not finite.

const FRACTION_BITS: u32 = 52;
const FRACTION: u64 = (1 << FRACTION_BITS) - 1;
const SIGN: u64 = 1 << 63;
/// The least pattern without a sign that is not finite.
const INFINITE: u64 = 0x7ff0_0000_0000_0000;

/// How many digits a double has, and the power of two of the lowest digit.
const DIGITS: i32 = 53;
const LOWEST: i32 = -1074;

/// One double less another, rounded once.
pub fn difference(one: f64, other: f64) -> Option<f64> {
    Exact::of(one)?.less(Exact::of(other)?).rounded()
}

/// A count of at most 2^53 times a double, rounded once.
pub fn product(count: u64, value: f64) -> Option<f64> {
    let Exact { digits, power } = Exact::of(value)?;
    Exact { digits: i128::from(count) * digits, power }.rounded()
}

/// From the magnitude of a double to the next double above it. Patterns are in
/// the order of magnitudes, so the pattern that is one more is the next.
pub fn gap_above(value: f64) -> Option<f64> {
    let magnitude = value.to_bits() & !SIGN;
    difference(f64::from_bits(magnitude + 1), f64::from_bits(magnitude))
}

/// Digits times a power of two.
#[derive(Clone, Copy)]
struct Exact {
    digits: i128,
    power: i32,
}

impl Exact {
    /// What a double is, if it is finite. Of its digits, the highest does not
    /// stand in the pattern, unless the exponent there is 0.
    fn of(value: f64) -> Option<Exact> {
        let pattern = value.to_bits() & !SIGN;
        if pattern >= INFINITE {
            return None;
        }
        let exponent = (pattern >> FRACTION_BITS) as i32;
        let fraction = i128::from(pattern & FRACTION);
        let (digits, power) = match exponent {
            0 => (fraction, LOWEST),
            _ => (1 << FRACTION_BITS | fraction, LOWEST + exponent - 1),
        };
        let is_negative = value.to_bits() & SIGN != 0;
        Some(Exact { digits: if is_negative { -digits } else { digits }, power })
    }

    fn less(self, other: Exact) -> Exact {
        match self.power >= other.power {
            true => self.plus_lower(Exact { digits: -other.digits, ..other }),
            false => Exact { digits: -other.digits, ..other }.plus_lower(self),
        }
    }

    /// The sum of two doubles, the second with no higher power. It is exact while
    /// both fit side by side. Further down, the second is less than a thousandth
    /// of the first one's last digit, and the least digit that fits stands in for
    /// it: the sum rounds alike.
    fn plus_lower(self, lower: Exact) -> Exact {
        const ROOM: i32 = 64;
        let apart = self.power - lower.power;
        match apart <= ROOM {
            true => Exact { digits: (self.digits << apart) + lower.digits, power: lower.power },
            false => Exact {
                digits: (self.digits << ROOM) + lower.digits.signum(),
                power: self.power - ROOM,
            },
        }
    }

    /// Rounded to a double, if that is finite.
    fn rounded(self) -> Option<f64> {
        let digits = self.digits.unsigned_abs();
        let bits = (u128::BITS - digits.leading_zeros()) as i32;
        // The power of the last digit that a double of this size has.
        let last = (self.power + bits - DIGITS).max(LOWEST);
        let kept = match last - self.power {
            lost @ 1.. => nearest(digits, lost as u32),
            more => (digits << -more) as u64,
        };
        // A highest digit in its place, or carried one further, raises the exponent.
        let pattern = match kept {
            0 => 0,
            _ => (((last - LOWEST) as u64) << FRACTION_BITS) + kept,
        };
        let sign = if self.digits < 0 { SIGN } else { 0 };
        (pattern < INFINITE).then(|| f64::from_bits(sign | pattern))
    }
}

/// A number without its last bits, of which there are some: the nearest such,
/// from the middle the even one.
fn nearest(digits: u128, lost: u32) -> u64 {
    let kept = (digits >> lost) as u64;
    let rest = digits & ((1 << lost) - 1);
    let middle = 1 << (lost - 1);
    let is_up = rest > middle || (rest == middle && kept % 2 == 1);
    kept + u64::from(is_up)
}

#[cfg(test)]
mod tests;
