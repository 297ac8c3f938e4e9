//! Request Four: float products. Binary32 by integers alone: what is added or multiplied is
//! an exact whole number of very small units, and is rounded from there once.
//!
//! A number is given by its 32 bits. Of those that are not a number only one comes out
//! of a sum or product, `NAN`; which one it is inside a sum does not matter.

use crate::listing::Matrix::*;
use crate::machine::Bench;
use crate::settings::sew;
use crate::tiles::{output_width, read_tile, tile, write_tile};
use crate::words::Instruction;
use std::cmp::Ordering;

/// What a result that is not a number is stored as.
pub const NAN: u32 = 0x7FC0_0000;
pub const INFINITY: u32 = 0x7F80_0000;
const SIGN: u32 = 1 << 31;

pub fn is_nan(bits: u32) -> bool {
    bits & !SIGN > INFINITY
}

fn is_infinite(bits: u32) -> bool {
    bits & !SIGN == INFINITY
}

fn is_zero(bits: u32) -> bool {
    bits & !SIGN == 0
}

fn is_negative(bits: u32) -> bool {
    bits & SIGN != 0
}

fn sign(negative: bool) -> u32 {
    if negative {
        SIGN
    } else {
        0
    }
}

/// The exponent of the unit: 2^-298 is the product of the two smallest numbers above 0.
const UNIT: u32 = 298;
/// The exponent of the smallest number above 0, 2^-149, in units.
const SMALLEST: u32 = UNIT - 149;

const LIMBS: usize = 9;

/// A whole number of units, below 2^576: 64 bits each, the low ones first. The largest
/// product is below 2^256, which is 2^554 units.
#[derive(Clone, Copy, Debug, PartialEq, Eq)]
pub struct Units([u64; LIMBS]);

impl Units {
    /// `number` times 2^`exponent`.
    pub fn new(number: u64, exponent: u32) -> Units {
        let mut limbs = [0; LIMBS];
        let (limb, shift) = (exponent as usize / 64, exponent % 64);
        let wide = (number as u128) << shift;
        limbs[limb] = wide as u64;
        if limb + 1 < LIMBS {
            limbs[limb + 1] = (wide >> 64) as u64;
        }
        Units(limbs)
    }

    pub fn plus(self, other: Units) -> Units {
        let mut sum = [0; LIMBS];
        let mut carry = 0;
        for (at, limb) in sum.iter_mut().enumerate() {
            let total = self.0[at] as u128 + other.0[at] as u128 + carry;
            *limb = total as u64;
            carry = total >> 64;
        }
        Units(sum)
    }

    /// The difference from a number that is not above this one.
    pub fn minus(self, other: Units) -> Units {
        let mut difference = [0; LIMBS];
        let mut borrow = 0;
        for (at, limb) in difference.iter_mut().enumerate() {
            let total = self.0[at] as i128 - other.0[at] as i128 - borrow;
            *limb = total as u64;
            borrow = i128::from(total < 0);
        }
        Units(difference)
    }

    /// How many bits it has, without leading zeros.
    fn length(self) -> u32 {
        let highest = (0..LIMBS).rev().find(|&at| self.0[at] != 0);
        highest.map_or(0, |at| 64 * at as u32 + self.0[at].ilog2() + 1)
    }

    /// How many times 2^`exponent` goes into it, if that is below 2^64.
    fn quotient(self, exponent: u32) -> u64 {
        let (limb, shift) = (exponent as usize / 64, exponent % 64);
        let above = if limb + 1 < LIMBS { self.0[limb + 1] as u128 } else { 0 };
        ((above << 64 | self.0[limb] as u128) >> shift) as u64
    }
}

impl Ord for Units {
    fn cmp(&self, other: &Units) -> Ordering {
        self.0.iter().rev().cmp(other.0.iter().rev())
    }
}

impl PartialOrd for Units {
    fn partial_cmp(&self, other: &Units) -> Option<Ordering> {
        Some(self.cmp(other))
    }
}

/// A finite number without its sign: a whole number, and the exponent in units of what it
/// counts.
fn parts(bits: u32) -> (u64, u32) {
    let (exponent, fraction) = (bits >> 23 & 0xFF, bits as u64 & 0x7F_FFFF);
    match exponent {
        0 => (fraction, SMALLEST),
        _ => (1 << 23 | fraction, SMALLEST + exponent - 1),
    }
}

/// A finite number without its sign.
pub fn units(bits: u32) -> Units {
    let (number, exponent) = parts(bits);
    Units::new(number, exponent)
}

/// The nearest binary32, ties to even.
pub fn rounded(negative: bool, exact: Units) -> u32 {
    // Numbers here have 24 bits, but none is finer than the smallest.
    let spacing = exact.length().saturating_sub(24).max(SMALLEST);
    let below = exact.quotient(spacing);
    let rest = exact.minus(Units::new(below, spacing));
    let up = match rest.cmp(&Units::new(1, spacing - 1)) {
        Ordering::Less => false,
        Ordering::Equal => below % 2 == 1,
        Ordering::Greater => true,
    };
    let nearest = below + u64::from(up);
    if Units::new(nearest, spacing) >= Units::new(1, UNIT + 128) {
        return sign(negative) | INFINITY;
    }
    // The bit above the fraction counts as one in the exponent.
    sign(negative) | (((spacing - SMALLEST) << 23) + nearest as u32)
}

/// A sum, rounded.
pub fn sum(x: u32, y: u32) -> u32 {
    if is_nan(x) || is_nan(y) {
        return NAN;
    }
    match (is_infinite(x), is_infinite(y)) {
        (true, true) if x != y => NAN,
        (true, _) => x,
        (_, true) => y,
        _ => finite_sum(x, y),
    }
}

/// A sum of 0 is +0, but for -0 + -0.
fn finite_sum(x: u32, y: u32) -> u32 {
    let (of_x, of_y) = (units(x), units(y));
    if is_negative(x) == is_negative(y) {
        return rounded(is_negative(x), of_x.plus(of_y));
    }
    match of_x.cmp(&of_y) {
        Ordering::Equal => 0,
        Ordering::Greater => rounded(is_negative(x), of_x.minus(of_y)),
        Ordering::Less => rounded(is_negative(y), of_y.minus(of_x)),
    }
}

/// A product, rounded.
pub fn product(x: u32, y: u32) -> u32 {
    if is_nan(x) || is_nan(y) {
        return NAN;
    }
    let negative = is_negative(x) != is_negative(y);
    if is_infinite(x) || is_infinite(y) {
        return if is_zero(x) || is_zero(y) { NAN } else { sign(negative) | INFINITY };
    }
    let ((of_x, up_x), (of_y, up_y)) = (parts(x), parts(y));
    rounded(negative, Units::new(of_x * of_y, up_x + up_y - UNIT))
}

/// What is stored of a result.
pub fn settled(bits: u32) -> u32 {
    if is_nan(bits) {
        NAN
    } else {
        bits
    }
}

/// An element of C: its old value and, one after the other, the products of two
/// elements.
pub fn accumulated(old: u32, terms: impl Iterator<Item = (u32, u32)>) -> u32 {
    settled(terms.fold(old, |so_far, (a, b)| sum(so_far, product(a, b))))
}

/// Elements are taken as the bits of binary32 numbers.
pub(crate) fn float_multiply(instruction: &Instruction, bench: &mut Bench) {
    let machine = bench.machine;
    let output = tile(&machine, C, instruction.md(), output_width(instruction, &machine));
    let a = read_tile(bench, tile(&machine, A, instruction.ms1(), sew(machine.mtype)));
    let b = read_tile(bench, tile(&machine, B, instruction.ms2(), sew(machine.mtype)));
    let mut c = read_tile(bench, output);
    for i in 0..machine.tile_m as usize {
        for j in 0..machine.tile_n as usize {
            let terms = (0..machine.tile_k as usize).map(|l| (a[i][l] as u32, b[l][j] as u32));
            c[i][j] = accumulated(c[i][j] as u32, terms) as i128;
        }
    }
    write_tile(bench, output, &c);
}

#[cfg(test)]
#[path = "examples/floats.rs"]
mod examples;
