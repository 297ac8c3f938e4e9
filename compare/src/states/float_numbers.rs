//! Seeded binary32 numbers, as bits: of any kind, and near each other so that sums and
//! products round, cancel, overflow and underflow.

use crate::random::Random;

pub const SIGN: u32 = 1 << 31;

/// Numbers at the ends of the format and of its parts; each also with the other sign.
pub const SPECIAL: [u32; 26] = [
    0x0000_0000, // 0
    0x0000_0001, // the smallest
    0x0000_0002,
    0x0000_0003,
    0x0040_0000,
    0x007F_FFFF, // the largest subnormal
    0x0080_0000, // the smallest normal
    0x0080_0001,
    0x00FF_FFFF,
    0x2000_0000, // 2^-63
    0x3380_0000, // 2^-24
    0x3F00_0000, // 1/2
    0x3F7F_FFFF,
    0x3F80_0000, // 1
    0x3F80_0001,
    0x3F80_0800, // 1 + 2^-12
    0x3FFF_FFFF,
    0x4000_0000, // 2
    0x4040_0000, // 3
    0x4B80_0000, // 2^24
    0x4B80_0001,
    0x5F80_0000, // 2^64
    0x7F00_0000, // 2^127
    0x7F7F_FFFF, // the largest
    0x7F80_0000, // infinity
    0x7FC0_0000, // not a number
];

/// How the numbers of one case are made: those of A and B, and those of C.
#[derive(Clone, Copy)]
pub enum Style {
    AnyBits,
    Special,
    /// Whole numbers up to 2^12.
    Whole,
    /// Exponents of A and B from here on, and how many; fractions of this many bits.
    /// Those of C are where the products are.
    Near(u32, u32, u32),
}

pub fn any_style(random: &mut Random) -> Style {
    let bits = random.pick(&[23, 23, 12, 8, 3]);
    let spread = random.pick(&[1, 3, 12, 30]);
    match random.below(12) {
        0 => Style::AnyBits,
        1 => Style::Special,
        2 => Style::Whole,
        // Products and sums around 1, around the largest, and subnormal ones.
        3..=7 => Style::Near(random.range(110, 130) as u32, spread, bits),
        8 | 9 => Style::Near(random.range(180, 191) as u32, spread.min(12), bits),
        10 => Style::Near(random.range(40, 64) as u32, spread, bits),
        // Subnormals beside normal ones.
        _ => Style::Near(0, spread, bits),
    }
}

/// A number of A or B, or of C.
pub fn number(random: &mut Random, style: Style, of_c: bool) -> u32 {
    if random.chance(1) {
        return special(random);
    }
    match style {
        Style::AnyBits => random.next() as u32,
        Style::Special => special(random),
        Style::Whole => whole(random.below(8193) as i64 - 4096 >> random.below(12)),
        Style::Near(first, spread, bits) => {
            let first = if of_c { (2 * first).saturating_sub(127) } else { first };
            near(random, first, spread, bits)
        }
    }
}

/// A finite number with one of so many exponents, and a fraction of so many bits.
pub fn near(random: &mut Random, first: u32, spread: u32, bits: u32) -> u32 {
    let exponent = (first + random.below(spread as u64) as u32).min(254);
    let fraction = (random.next() as u32 & 0x7F_FFFF) >> (23 - bits) << (23 - bits);
    random.next() as u32 & SIGN | exponent << 23 | fraction
}

/// One of the special numbers, of either sign; one that is not a number in any form.
fn special(random: &mut Random) -> u32 {
    let bits = random.pick(&SPECIAL) ^ random.next() as u32 & SIGN;
    if bits << 1 > 0xFF00_0000 {
        return bits & SIGN | 0x7F80_0000 | random.range(1, 0x7F_FFFF) as u32;
    }
    bits
}

/// The bits of a whole number of at most 24 bits, or of 2^24 or its negative.
pub fn whole(number: i64) -> u32 {
    let magnitude = number.unsigned_abs();
    if magnitude == 0 {
        return 0;
    }
    let exponent = magnitude.ilog2();
    let fraction = (magnitude << 23 >> exponent) as u32 & 0x7F_FFFF;
    (if number < 0 { SIGN } else { 0 }) | (127 + exponent) << 23 | fraction
}

/// Register bytes: the tile registers hold numbers of A and B, the accumulators of C.
pub fn registers(random: &mut Random, mlen: u64) -> Vec<u8> {
    let style = any_style(random);
    let count = model::register_bytes(mlen) as u64 / 4;
    let number = |at| number(random, style, 4 * at >= mlen);
    (0..count).map(number).flat_map(u32::to_le_bytes).collect()
}
