//! Sums of products of binary32 numbers, reckoned by hand from request Four's sentences.
//! The second program's examples and the suites on the library hold to them.

/// An old value of C, the terms that are added to it, and what is stored.
pub type Example = (&'static str, u32, &'static [(u32, u32)], u32);

const ONE: u32 = 0x3F80_0000;
const TWO: u32 = 0x4000_0000;
const THREE: u32 = 0x4040_0000;
const HALF: u32 = 0x3F00_0000;
const MINUS_ONE: u32 = 0xBF80_0000;
const MINUS_TWO: u32 = 0xC000_0000;
const MINUS_ZERO: u32 = 0x8000_0000;
const LARGEST: u32 = 0x7F7F_FFFF;
const MINUS_LARGEST: u32 = 0xFF7F_FFFF;
const INFINITY: u32 = 0x7F80_0000;
const MINUS_INFINITY: u32 = 0xFF80_0000;
/// 2^-149, and its negative.
const SMALLEST: u32 = 0x0000_0001;
const MINUS_SMALLEST: u32 = 0x8000_0001;
/// The largest subnormal, and 2^-126, the smallest normal.
const LARGEST_SUBNORMAL: u32 = 0x007F_FFFF;
const SMALLEST_NORMAL: u32 = 0x0080_0000;
/// 2^24 and its negative.
const MILLIONS: u32 = 0x4B80_0000;
const MINUS_MILLIONS: u32 = 0xCB80_0000;
/// What is stored of a result that is not a number.
const NAN: u32 = 0x7FC0_0000;

/// Numbers that are none: quiet and signalling ones of both signs, with low, high and
/// all payload bits.
pub const NANS: [u32; 12] = [
    0x7FC0_0000,
    0xFFC0_0000,
    0x7F80_0001,
    0xFF80_0001,
    0x7FC0_0001,
    0xFFC1_2345,
    0x7FA0_0000,
    0xFFA0_0000,
    0x7FBF_FFFF,
    0xFFBF_FFFF,
    0x7FFF_FFFF,
    0xFFFF_FFFF,
];

#[rustfmt::skip]
pub const EXAMPLES: [Example; 91] = [
    // No term: the old value, but for one that is not a number.
    ("+0 stays", 0, &[], 0),
    ("-0 stays", MINUS_ZERO, &[], MINUS_ZERO),
    ("a subnormal stays", MINUS_SMALLEST, &[], MINUS_SMALLEST),
    ("infinity stays", MINUS_INFINITY, &[], MINUS_INFINITY),
    ("a quiet NaN is settled", 0x7FC0_0001, &[], NAN),
    ("a signalling NaN is settled", 0x7F80_0001, &[], NAN),
    ("a negative NaN is settled", 0xFFC0_0000, &[], NAN),
    // Plain numbers.
    ("1 x 1", 0, &[(ONE, ONE)], ONE),
    ("1 + 2 x 3", ONE, &[(TWO, THREE)], 0x40E0_0000),
    ("1/2 - 1", HALF, &[(ONE, MINUS_ONE)], 0xBF00_0000),
    // Not a number.
    ("NaN in A", ONE, &[(0x7F80_0001, ONE)], NAN),
    ("NaN in B", ONE, &[(ONE, 0xFFC0_0000)], NAN),
    ("NaN times 0", ONE, &[(0xFFBF_FFFF, 0)], NAN),
    ("NaN and later terms", 0, &[(NAN, ONE), (ONE, ONE), (ONE, MINUS_ONE)], NAN),
    ("an old NaN and later terms", 0xFF80_0001, &[(ONE, ONE), (0, 0)], NAN),
    ("an old NaN and infinity", 0x7FFF_FFFF, &[(INFINITY, ONE)], NAN),
    // Infinities.
    ("infinity + 1", INFINITY, &[(ONE, ONE)], INFINITY),
    ("infinity - the largest", INFINITY, &[(LARGEST, MINUS_ONE)], INFINITY),
    ("1 + infinity", ONE, &[(INFINITY, TWO)], INFINITY),
    ("1 - infinity", ONE, &[(INFINITY, MINUS_TWO)], MINUS_INFINITY),
    ("infinity x infinity", 0, &[(MINUS_INFINITY, MINUS_INFINITY)], INFINITY),
    ("the smallest x infinity", 0, &[(SMALLEST, MINUS_INFINITY)], MINUS_INFINITY),
    ("infinity - infinity", INFINITY, &[(INFINITY, MINUS_ONE)], NAN),
    ("infinity - infinity in two terms", 0, &[(INFINITY, ONE), (MINUS_ONE, INFINITY)], NAN),
    ("infinity + infinity", INFINITY, &[(MINUS_ONE, MINUS_INFINITY)], INFINITY),
    ("0 x infinity", 0, &[(0, INFINITY)], NAN),
    ("infinity x -0", ONE, &[(MINUS_INFINITY, MINUS_ZERO)], NAN),
    // Zeros.
    ("-0 + -0", MINUS_ZERO, &[(MINUS_ZERO, ONE)], MINUS_ZERO),
    ("-0 + 1 x -0", MINUS_ZERO, &[(ONE, MINUS_ZERO)], MINUS_ZERO),
    ("-0 + +0", MINUS_ZERO, &[(0, ONE)], 0),
    ("+0 + -0", 0, &[(0, MINUS_ONE)], 0),
    ("-0 + -1 x -0", MINUS_ZERO, &[(MINUS_ONE, MINUS_ZERO)], 0),
    ("1 - 1", ONE, &[(ONE, MINUS_ONE)], 0),
    ("-1 + 1", MINUS_ONE, &[(MINUS_ONE, MINUS_ONE)], 0),
    ("-0 + 1 - 1", MINUS_ZERO, &[(ONE, ONE), (ONE, MINUS_ONE)], 0),
    ("-0 + what is rounded to -0", MINUS_ZERO, &[(SMALLEST, MINUS_SMALLEST)], MINUS_ZERO),
    ("+0 + what is rounded to -0", 0, &[(SMALLEST, MINUS_SMALLEST)], 0),
    ("the smallest - the smallest", SMALLEST, &[(SMALLEST, MINUS_ONE)], 0),
    // Subnormals: kept as inputs, products and sums.
    ("the smallest x 1", 0, &[(SMALLEST, ONE)], SMALLEST),
    ("the smallest twice", SMALLEST, &[(ONE, SMALLEST)], 0x0000_0002),
    ("2^-100 x 2^-49", 0, &[(0x0D80_0000, 0x2700_0000)], SMALLEST),
    ("2^-63 x -2^-64", 0, &[(0x2000_0000, 0x9F80_0000)], 0x8040_0000),
    ("the largest subnormal and one more", LARGEST_SUBNORMAL, &[(SMALLEST, ONE)], SMALLEST_NORMAL),
    ("the smallest normal and one less", SMALLEST_NORMAL, &[(SMALLEST, MINUS_ONE)], LARGEST_SUBNORMAL),
    ("the largest subnormal x 2", 0, &[(LARGEST_SUBNORMAL, TWO)], 0x00FF_FFFE),
    ("the smallest normal x 1/2", 0, &[(SMALLEST_NORMAL, HALF)], 0x0040_0000),
    ("subnormals that cancel in part", 0x0000_0005, &[(0x0000_0007, MINUS_ONE)], 0x8000_0002),
    // Ties to even in products that are subnormal: 1/2, 1 1/2, 2 1/2 times the smallest.
    ("the smallest x 1/2", 0, &[(SMALLEST, HALF)], 0),
    ("3 x the smallest x 1/2", 0, &[(0x0000_0003, HALF)], 0x0000_0002),
    ("5 x the smallest x 1/2", 0, &[(0x0000_0005, HALF)], 0x0000_0002),
    ("2^-100 x 2^-50", 0, &[(0x0D80_0000, 0x2680_0000)], 0),
    ("above 2^-100 x 2^-50", 0, &[(0x0D80_0001, 0x2680_0000)], SMALLEST),
    ("2^-100 x 3 x 2^-50", 0, &[(0x0D80_0000, 0x2740_0000)], 0x0000_0002),
    ("below 2^-126 by half a spacing", 0, &[(0x00FF_FFFF, HALF)], SMALLEST_NORMAL),
    ("the smallest x the smallest", ONE, &[(SMALLEST, SMALLEST)], ONE),
    // Ties to even in products: 1 + 2^-11 + 2^-24 goes down, 1 + 2^-10 + 2^-23 + 2^-24 up.
    ("(1 + 2^-12)^2", 0, &[(0x3F80_0800, 0x3F80_0800)], 0x3F80_1000),
    ("(1 + 2^-12)(1 + 3 x 2^-12)", 0, &[(0x3F80_0800, 0x3F80_1800)], 0x3F80_2002),
    ("-(1 + 2^-12)(1 + 3 x 2^-12)", 0, &[(0xBF80_0800, 0x3F80_1800)], 0xBF80_2002),
    ("1/3 x 3", 0, &[(0x3EAA_AAAB, THREE)], ONE),
    ("(2 - 2^-23)^2 = 4 - 2^-21 + 2^-46", 0, &[(0x3FFF_FFFF, 0x3FFF_FFFF)], 0x407F_FFFE),
    // Ties to even in sums.
    ("2^24 + 1", MILLIONS, &[(ONE, ONE)], MILLIONS),
    ("2^24 + 2 + 1", 0x4B80_0001, &[(ONE, ONE)], 0x4B80_0002),
    ("-2^24 - 2 - 1", 0xCB80_0001, &[(ONE, MINUS_ONE)], 0xCB80_0002),
    ("2^24 + 4 + 1", 0x4B80_0002, &[(ONE, ONE)], 0x4B80_0002),
    ("1 + 2^-24", ONE, &[(0x3380_0000, ONE)], ONE),
    ("1 + a bit more than 2^-24", ONE, &[(0x3380_0001, ONE)], 0x3F80_0001),
    ("1 + 2^-23 + 2^-24", 0x3F80_0001, &[(0x3380_0000, ONE)], 0x3F80_0002),
    ("1 - 2^-25", ONE, &[(0x3300_0000, MINUS_ONE)], ONE),
    ("1 - a bit more than 2^-25", ONE, &[(0x3300_0001, MINUS_ONE)], 0x3F7F_FFFF),
    ("1 - 2^-24", ONE, &[(0x3380_0000, MINUS_ONE)], 0x3F7F_FFFF),
    ("1 + the smallest", ONE, &[(SMALLEST, ONE)], ONE),
    ("1 - the smallest", ONE, &[(SMALLEST, MINUS_ONE)], ONE),
    // Overflow by the product, by the sum, and nearly.
    ("the largest x 2", 0, &[(LARGEST, TWO)], INFINITY),
    ("2^64 x -2^64", 0, &[(0x5F80_0000, 0xDF80_0000)], MINUS_INFINITY),
    ("(2^25 - 1) x 2^103, a tie", 0, &[(0x6011_8E00, 0x5EE1_2000)], INFINITY),
    ("the largest x 1", 0, &[(LARGEST, MINUS_ONE)], MINUS_LARGEST),
    ("the largest + 2^103, a tie", LARGEST, &[(0x7300_0000, ONE)], INFINITY),
    ("the largest + a bit less", LARGEST, &[(0x72FF_FFFF, ONE)], LARGEST),
    ("-the largest - the largest", MINUS_LARGEST, &[(LARGEST, MINUS_ONE)], MINUS_INFINITY),
    ("an infinite product and a finite sum", MINUS_LARGEST, &[(LARGEST, TWO)], INFINITY),
    ("two infinite products", 0, &[(LARGEST, TWO), (LARGEST, MINUS_TWO)], NAN),
    ("back from infinity", LARGEST, &[(LARGEST, ONE), (LARGEST, MINUS_TWO)], NAN),
    // Where a fused multiply-add gives another number: 2^-24, 2^-46, and a sum that is
    // rounded once.
    ("(1 + 2^-12)^2 - (1 + 2^-11)", 0xBF80_1000, &[(0x3F80_0800, 0x3F80_0800)], 0),
    ("(1 + 2^-23)^2 - (1 + 2^-22)", 0xBF80_0002, &[(0x3F80_0001, 0x3F80_0001)], 0),
    ("2^-23 + (1 + 2^-12)^2", 0x3400_0000, &[(0x3F80_0800, 0x3F80_0800)], 0x3F80_1001),
    // Where the order matters, and where the old value does not come first.
    ("2^24 + 1 - 2^24", 0, &[(MILLIONS, ONE), (ONE, ONE), (MINUS_MILLIONS, ONE)], 0),
    ("2^24 - 2^24 + 1", 0, &[(MILLIONS, ONE), (MINUS_MILLIONS, ONE), (ONE, ONE)], ONE),
    ("1 + 1 + 2^24", 0, &[(ONE, ONE), (ONE, ONE), (MILLIONS, ONE)], 0x4B80_0001),
    ("2^24 and 1 + 1", MILLIONS, &[(ONE, ONE), (ONE, ONE)], MILLIONS),
    // Whole numbers up to 2^24 are exact.
    ("4095 x 4097", 0, &[(0x457F_F000, 0x4580_0800)], 0x4B7F_FFFF),
    ("4095 x 4097 + 1", 0, &[(0x457F_F000, 0x4580_0800), (ONE, ONE)], MILLIONS),
];
