//! Binary32 (request Four): sums by hand, and what "nearest" and "ties to even" say.

use super::*;
use crate::float_sums::{EXAMPLES, NANS};

fn stored(old: u32, terms: &[(u32, u32)]) -> u32 {
    accumulated(old, terms.iter().copied())
}

/// Numbers one after the other, of all kinds of bits.
struct Patterns(u64);

impl Patterns {
    fn next(&mut self) -> u64 {
        self.0 ^= self.0 << 13;
        self.0 ^= self.0 >> 7;
        self.0 ^= self.0 << 17;
        self.0
    }

    /// A finite number: of any exponent, or of one near 2^0, or with a short fraction.
    fn finite(&mut self) -> u32 {
        let bits = self.next() as u32;
        let fraction = match self.next() % 3 {
            0 => bits & 0x7F_F800,
            _ => bits & 0x7F_FFFF,
        };
        let exponent = match self.next() % 4 {
            0 => self.next() % 255,
            1 => 125 + self.next() % 5,
            2 => 110 + self.next() % 35,
            _ => [0, 1, 2, 63, 64, 65, 127, 190, 253, 254][self.next() as usize % 10],
        };
        bits & SIGN | (exponent as u32) << 23 | fraction
    }
}

#[test]
fn examples_by_hand() {
    for (name, old, terms, expected) in EXAMPLES {
        assert_eq!(stored(old, terms), expected, "{name}");
    }
}

/// The same with every sign turned over: a sum that is 0 or not a number is as before.
#[test]
fn examples_with_the_other_sign() {
    for (name, old, terms, expected) in EXAMPLES {
        let turned: Vec<_> = terms.iter().map(|&(a, b)| (a ^ SIGN, b)).collect();
        let kept = is_nan(expected) || expected == 0 && (!terms.is_empty());
        let expected = if kept { expected } else { expected ^ SIGN };
        if old & !SIGN == 0 && is_zero(expected) {
            // +0 and -0 are no mirror of each other.
            continue;
        }
        assert_eq!(stored(old ^ SIGN, &turned), expected, "{name}");
    }
}

#[test]
fn what_is_not_a_number() {
    for nan in NANS {
        assert!(is_nan(nan), "{nan:#010x}");
        let others = [0, SIGN, 1, 0x3F80_0000, 0xFF7F_FFFF, INFINITY, SIGN | INFINITY];
        assert_eq!(stored(nan, &[]), NAN);
        for other in others.into_iter().chain(NANS) {
            assert_eq!(stored(nan, &[(other, 0x3F80_0000)]), NAN);
            assert_eq!(stored(other, &[(nan, 0x3F80_0000)]), NAN);
            assert_eq!(stored(other, &[(0x3F80_0000, nan)]), NAN);
            assert_eq!(stored(0, &[(nan, other), (0x3F80_0000, 0x3F80_0000)]), NAN);
        }
    }
    for number in [0, SIGN, INFINITY, SIGN | INFINITY, 0x7F7F_FFFF, 0x0000_0001] {
        assert!(!is_nan(number));
        assert_eq!(stored(number, &[]), number);
    }
}

/// Numbers of units, against plain ones.
#[test]
fn whole_numbers_of_units() {
    let mut patterns = Patterns(1);
    for _ in 0..20_000 {
        let [one, other] = [(); 2].map(|_| patterns.next() >> (patterns.next() % 64));
        let (low, high) = (one.min(other), one.max(other));
        for exponent in [0, 1, 63, 64, 149, 447, 511] {
            let [of_low, of_high] = [low, high].map(|number| Units::new(number, exponent));
            assert_eq!(of_low.cmp(&of_high), low.cmp(&high));
            assert_eq!(of_high.minus(of_low), Units::new(high - low, exponent));
            assert_eq!(of_high.quotient(exponent), high);
            assert_eq!(of_high.length(), if high == 0 { 0 } else { exponent + high.ilog2() + 1 });
            if let Some(total) = high.checked_add(low) {
                assert_eq!(of_high.plus(of_low), Units::new(total, exponent));
            }
        }
    }
    // A carry, and a borrow, over many limbs.
    let [one, top] = [Units::new(1, 0), Units::new(1, 500)];
    assert_eq!(top.minus(one).length(), 500);
    assert_eq!(top.minus(one).plus(one), top);
}

/// Whether a finite result is nearest to an exact number, neither of them signed: the
/// next numbers on both sides are further away, or as far and odd.
fn is_nearest(result: u32, exact: Units) -> bool {
    let distance = |of: Units| if of > exact { of.minus(exact) } else { exact.minus(of) };
    let from_result = distance(units(result));
    let further = |other: Units| match distance(other).cmp(&from_result) {
        Ordering::Less => false,
        Ordering::Equal => result % 2 == 0,
        Ordering::Greater => true,
    };
    // Beyond the largest the next number would be 2^128.
    let above = if result + 1 == INFINITY { Units::new(1, UNIT + 128) } else { units(result + 1) };
    (result == 0 || further(units(result - 1))) && further(above)
}

/// Results of random numbers, by the definition. An infinite one: at least half a
/// spacing above the largest.
fn holds(result: u32, negative: bool, exact: Units) -> bool {
    let right_sign = is_negative(result) == negative;
    let magnitude = result & !SIGN;
    if magnitude == INFINITY {
        let tie = Units::new(1, UNIT + 128).minus(Units::new(1, UNIT + 103));
        return right_sign && exact >= tie;
    }
    right_sign && is_nearest(magnitude, exact)
}

#[test]
fn nearest_products() {
    let mut patterns = Patterns(7);
    let mut ties = 0;
    for _ in 0..200_000 {
        let (x, y) = (patterns.finite(), patterns.finite());
        let ((of_x, up_x), (of_y, up_y)) = (parts(x), parts(y));
        let exact = Units::new(of_x * of_y, up_x + up_y - UNIT);
        let result = product(x, y);
        assert!(holds(result, is_negative(x ^ y), exact), "{x:#010x} {y:#010x}");
        assert_eq!(result, product(y, x));
        ties += u64::from(rounded(false, exact.plus(Units::new(1, 0))) != result & !SIGN);
    }
    assert!(ties > 100, "{ties}");
}

#[test]
fn nearest_sums() {
    let mut patterns = Patterns(11);
    for _ in 0..200_000 {
        let (x, y) = (patterns.finite(), patterns.finite());
        let result = sum(x, y);
        assert_eq!(result, sum(y, x));
        let (large, small) = if units(x) >= units(y) { (x, y) } else { (y, x) };
        let exact = if is_negative(x ^ y) {
            units(large).minus(units(small))
        } else {
            units(large).plus(units(small))
        };
        if exact == Units::new(0, 0) {
            assert_eq!(result, x & y & SIGN);
        } else {
            assert!(holds(result, is_negative(large), exact), "{x:#010x} {y:#010x}");
        }
    }
}

/// The bits of a whole number of at most 24 bits, by moving them to the top.
fn whole(number: i64) -> u32 {
    let magnitude = number.unsigned_abs() as u32;
    if magnitude == 0 {
        return 0;
    }
    let exponent = magnitude.ilog2();
    let fraction = (((magnitude as u64) << 23 >> exponent) & 0x7F_FFFF) as u32;
    sign(number < 0) | (127 + exponent) << 23 | fraction
}

#[test]
fn whole_numbers_are_exact() {
    assert_eq!(whole(1), 0x3F80_0000);
    assert_eq!(whole(-3), 0xC040_0000);
    assert_eq!(whole(1 << 24), 0x4B80_0000);
    let mut patterns = Patterns(3);
    let mut within = |most: i64| {
        let number = patterns.next() as i64 % (most + 1);
        number >> (patterns.next() % 20)
    };
    for _ in 0..100_000 {
        let (a, b) = (within(4096), within(4096));
        assert_eq!(stored(0, &[(whole(a), whole(b))]), whole(a * b));
        let old = within((1 << 24) - (a * b).abs());
        assert_eq!(stored(whole(old), &[(whole(a), whole(b))]), whole(old + a * b));
    }
}
