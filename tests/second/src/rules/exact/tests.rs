//! The exact arithmetic against numbers worked out by hand, and against the
//! machine's own, which rounds a difference and a product once too.

use super::*;
use crate::generate::Random;

const MAX: f64 = f64::MAX;

/// 2 to a power, from its pattern.
fn two_to(power: i32) -> f64 {
    match power {
        ..=-1023 => f64::from_bits(1 << (power + 1074)),
        _ => f64::from_bits(((power + 1023) as u64) << FRACTION_BITS),
    }
}

/// A positive double so many patterns further.
fn stepped(value: f64, steps: i64) -> f64 {
    f64::from_bits(value.to_bits().wrapping_add_signed(steps))
}

#[test]
fn differences_are_as_worked_out() {
    let step = two_to(-52);
    let cases = [
        (1.0, 0.75, Some(0.25)),
        (0.75, 1.0, Some(-0.25)),
        (-0.75, 1.0, Some(-1.75)),
        (5.0, 5.0, Some(0.0)),
        // 1 + 2^-53 is in the middle of 1 and 1 + 2^-52: 1 is even.
        (1.0, -two_to(-53), Some(1.0)),
        (1.0 + step, -two_to(-53), Some(1.0 + 2.0 * step)),
        // A bit more than the middle, however little.
        (1.0, -stepped(two_to(-53), 1), Some(1.0 + step)),
        // 1 - 2^-54 is in the middle of 1 - 2^-53 and 1.
        (1.0, two_to(-54), Some(1.0)),
        (1.0, stepped(two_to(-54), 1), Some(1.0 - two_to(-53))),
        // Far below the last digit: on both sides of 64 places, and at the end.
        (1.0, two_to(-64), Some(1.0)),
        (1.0, two_to(-65), Some(1.0)),
        (1.0, -two_to(-1074), Some(1.0)),
        (MAX, two_to(-1074), Some(MAX)),
        (-MAX, two_to(-1074), Some(-MAX)),
        // The greatest and half of its last digit are in the middle below 2^1024.
        (MAX, -two_to(969), Some(MAX)),
        (MAX, -stepped(two_to(970), -1), Some(MAX)),
        (MAX, -two_to(970), None),
        (two_to(1023), -two_to(1023), None),
        (two_to(-1074), two_to(-1074), Some(0.0)),
        (two_to(-1022), two_to(-1074), Some(stepped(two_to(-1022), -1))),
    ];
    for (one, other, want) in cases {
        assert_eq!(difference(one, other), want, "{one:e} - {other:e}");
    }
}

#[test]
fn products_are_as_worked_out() {
    let cases = [
        (1024, 1.0, Some(1024.0)),
        (3, -0.5, Some(-1.5)),
        // 3 times 1 + 2^-52 is 3 + 3 * 2^-52, in the middle of two: 3 + 2^-50 is even.
        (3, stepped(1.0, 1), Some(3.0 + two_to(-50))),
        (5, two_to(-1074), Some(5.0 * two_to(-1074))),
        (1 << 53, two_to(-1074), Some(two_to(-1021))),
        // 2^53 - 1 squared is 2^106 - 2^54 + 1, and the 1 is lost.
        ((1 << 53) - 1, 9_007_199_254_740_991.0, Some(stepped(two_to(106), -2))),
        (1, MAX, Some(MAX)),
        (2, MAX, None),
        (1 << 53, MAX, None),
        (2, two_to(1022), Some(two_to(1023))),
        (2, two_to(1023), None),
        (7, 0.0, Some(0.0)),
    ];
    for (count, value, want) in cases {
        assert_eq!(product(count, value), want, "{count} * {value:e}");
    }
}

#[test]
fn gaps_go_upwards_from_the_magnitude() {
    let cases = [
        (4_194_304.0, Some(two_to(-30))),
        (-4_194_304.0, Some(two_to(-30))),
        (4_194_303.0, Some(two_to(-31))),
        (1.0, Some(two_to(-52))),
        (0.0, Some(two_to(-1074))),
        (-0.0, Some(two_to(-1074))),
        (two_to(-1022), Some(two_to(-1074))),
        (stepped(two_to(-1021), -1), Some(two_to(-1074))),
        (two_to(-1021), Some(two_to(-1073))),
        (stepped(MAX, -1), Some(two_to(971))),
        (MAX, None),
        (-MAX, None),
    ];
    for (value, want) in cases {
        assert_eq!(gap_above(value), want, "{value:e}");
    }
}

#[test]
fn nothing_comes_of_what_is_not_finite() {
    for strange in [f64::INFINITY, f64::NEG_INFINITY, f64::NAN, -f64::NAN, f64::from_bits(!0)] {
        assert_eq!(difference(strange, 1.0), None);
        assert_eq!(difference(1.0, strange), None);
        assert_eq!(difference(strange, strange), None);
        assert_eq!(product(1, strange), None);
        assert_eq!(gap_above(strange), None);
    }
}

/// Zero, the ends of the subnormals, powers of two and their neighbours, and the
/// greatest doubles.
const EDGES: [u64; 18] = [
    0,
    1,
    5,
    0x000f_ffff_ffff_ffff,
    0x0010_0000_0000_0000,
    0x0010_0000_0000_0001,
    0x001f_ffff_ffff_ffff,
    0x0020_0000_0000_0000,
    0x3fef_ffff_ffff_ffff,
    0x3ff0_0000_0000_0000,
    0x3ff0_0000_0000_0001,
    0x414f_ffff_ffff_ffff,
    0x4150_0000_0000_0000,
    0x4340_0000_0000_0000,
    0x7fdf_ffff_ffff_ffff,
    0x7fe0_0000_0000_0000,
    0x7fef_ffff_ffff_fffe,
    0x7fef_ffff_ffff_ffff,
];

/// Any finite double; often an edge, or some patterns or places from another.
fn any_double(random: &mut Random, other: f64) -> f64 {
    let other = other.to_bits();
    let pattern = match random.below(4) {
        0 => random.pick(&EDGES),
        1 => other.wrapping_add_signed(random.from_to(-9, 9)),
        2 => other.wrapping_add_signed(random.from_to(-70, 70) << FRACTION_BITS),
        _ => random.word(),
    };
    // Where the last digits are 0, middles and exact answers come often.
    let cut = u64::MAX << random.pick(&[0, 0, 1, 20, 30, 51]);
    let pattern = pattern & !SIGN & random.pick(&[u64::MAX, cut]);
    f64::from_bits(random.pick(&[0, SIGN]) | pattern.min(INFINITE - 1))
}

/// Is what was worked out what the machine says? A zero may have either sign.
fn check_same(got: Option<f64>, machine: f64, words: &str) {
    let want = Some(machine).filter(|value| value.is_finite());
    assert_eq!(got, want, "{words}");
}

#[test]
fn differences_are_the_machines() {
    let mut random = Random::new(2);
    let mut infinite = 0;
    for _ in 0..1_000_000 {
        let one = any_double(&mut random, 1.0);
        let other = any_double(&mut random, one);
        check_same(difference(one, other), one - other, &format!("{one:e} - {other:e}"));
        infinite += usize::from((one - other).is_infinite());
    }
    assert!((1_000..500_000).contains(&infinite), "{infinite}");
}

#[test]
fn products_are_the_machines() {
    let mut random = Random::new(3);
    let mut infinite = 0;
    for _ in 0..1_000_000 {
        let count = match random.below(3) {
            0 => random.pick(&[0, 1, 2, 3, (1 << 52) + 1, (1 << 53) - 1, 1 << 53]),
            _ => random.word() >> random.from_to(11, 63),
        };
        let value = any_double(&mut random, 1.0);
        // A count up to 2^53 is a double as it is.
        let machine = count as f64 * value;
        check_same(product(count, value), machine, &format!("{count} * {value:e}"));
        infinite += usize::from(machine.is_infinite());
    }
    assert!((1_000..500_000).contains(&infinite), "{infinite}");
}

#[test]
fn gaps_are_the_machines() {
    let mut random = Random::new(4);
    for _ in 0..100_000 {
        let value = any_double(&mut random, 1.0);
        let next = stepped(value.abs(), 1);
        check_same(gap_above(value), next - value.abs(), &format!("above {value:e}"));
    }
}
