//! Special, random and whole numbers; and the second program's numbers held to the
//! processor's.

use super::desk::{machine_at_32, maxima, Desk};
use super::examples::INFINITY;
use crate::lent::Lent;
use crate::random::Random;
use crate::states::cases::good_case;
use crate::states::float_numbers::{any_style, number, whole, SIGN, SPECIAL};
use crate::states::machines::usual_lengths;
use crate::suite::{check_step, each_case, Context, Outcome};
use model::{register_element, Kind, Register, Row, LISTING};

/// Every special number as an old value with every product of two of them.
pub fn float_specials(context: &mut Context) -> Outcome {
    let mut numbers: Vec<u32> = SPECIAL.iter().flat_map(|&bits| [bits, bits | SIGN]).collect();
    numbers.extend([0x7F80_0001, 0xFFBF_FFFF]);
    let count = numbers.len() as u64;
    let machine = machine_at_32((512, 4096, 32));
    let [m, _, n] = maxima(&machine);
    let blocks = [count.div_ceil(m), count.div_ceil(n)];
    let cases = blocks[0] * blocks[1] * count;
    let at = |index: u64| numbers[(index % count) as usize];
    each_case(context, "float specials", cases, |case, random, tally| {
        let [of_a, of_b, of_c] =
            [case % blocks[0], case / blocks[0] % blocks[1], case / blocks[0] / blocks[1]];
        let mut desk = Desk::new(random, &machine);
        desk.set_sizes([m, 1, n]);
        for i in 0..m {
            desk.put(0, i, 0, at(m * of_a + i));
            for j in 0..n {
                desk.put(1, 0, j, at(n * of_b + j));
                desk.put(2, i, j, at(of_c + n * i + j));
            }
        }
        desk.multiply(tally)
    })
}

/// What a number is, for a count of what was met.
fn class(bits: u32) -> usize {
    match bits & !SIGN {
        0 => usize::from(bits != 0),
        1..=0x007F_FFFF => 2,
        0x0080_0000..INFINITY => 3,
        INFINITY => 4,
        _ => 5,
    }
}

const CLASSES: [&str; 6] = ["+0", "-0", "subnormal", "normal", "infinite", "NaN"];

fn float_row() -> &'static Row {
    LISTING.iter().find(|row| row.kind == Kind::FloatMultiply).expect("a row of the listing")
}

/// Random tiles, each multiplied some times over.
pub fn random_floats(context: &mut Context) -> Outcome {
    let count = 12_000 * context.scale;
    let mut met = [0; CLASSES.len()];
    let cases = each_case(context, "random floats", count, |_, random, tally| {
        let case = good_case(random, float_row());
        let mut lent = case.lent;
        for _ in 0..3 {
            let number;
            (number, lent) = check_step(case.word, &lent, tally)?;
            if number != 0 {
                return Err(format!("{}: {number}", model::describe(case.word)));
            }
        }
        count_elements(&lent, case.word, &mut met);
        Ok(())
    })?;
    let text = format!("{cases}, elements of C: {met:?} {CLASSES:?}");
    if context.only_case.is_none() && met.contains(&0) {
        return Err(text);
    }
    Ok(text)
}

/// Counts what the elements of C are.
fn count_elements(lent: &Lent, word: u32, met: &mut [u64]) {
    let machine = lent.machine();
    let accumulator = Register::Accumulator(word >> 7 & 31);
    for i in 0..machine.tile_m as i128 {
        for j in 0..machine.tile_n as i128 {
            let bytes = register_element(&machine, accumulator, i, j, 32);
            met[class(u32::from_le_bytes(lent.registers[bytes].try_into().unwrap()))] += 1;
        }
    }
}

/// The largest whole number whose square, so many times, is at most a sum.
pub fn side(sum: u64, times: u64) -> u64 {
    (sum / times.max(1)).isqrt()
}

/// A number from -`most` to `most`, often at an end.
pub fn within(random: &mut Random, most: u64) -> i64 {
    let number = match random.below(4) {
        0 => most,
        1 => random.below(most.min(10) + 1),
        _ => random.below(most + 1),
    };
    number as i64 * random.pick(&[-1, 1])
}

/// Tiles of whole numbers of which no product and no partial sum is beyond 2^24: C is
/// exactly the whole-number sum.
pub fn whole_floats(context: &mut Context) -> Outcome {
    let lengths = usual_lengths();
    each_case(context, "whole floats", 60 * lengths.len() as u64, |case, random, tally| {
        let machine = machine_at_32(lengths[case as usize % lengths.len()]);
        let sizes = maxima(&machine).map(|most| random.range(1, most));
        let [m, k, n] = sizes;
        // A part of 2^24 for the products, the rest for the old value.
        let part = random.pick(&[1 << 24, 1 << 23, 1 << 20, 100]);
        let most = side(part, k);
        let rest = (1 << 24) - k * most * most;
        let mut numbers = |count: u64, most: u64| -> Vec<i64> {
            (0..count).map(|_| within(random, most)).collect()
        };
        let (a, b, c) = (numbers(m * k, most), numbers(k * n, most), numbers(m * n, rest));
        let mut desk = Desk::new(random, &machine);
        desk.set_sizes(sizes);
        let shapes = [(0, m, k, &a), (1, k, n, &b), (2, m, n, &c)];
        for (of, rows, columns, numbers) in shapes {
            for at in 0..rows * columns {
                desk.put(of, at / columns, at % columns, whole(numbers[at as usize]));
            }
        }
        desk.multiply(tally)?;
        let get = |numbers: &[i64], at: u64| numbers[at as usize];
        for (i, j) in (0..m * n).map(|at| (at / n, at % n)) {
            let products = (0..k).map(|l| get(&a, i * k + l) * get(&b, l * n + j));
            let sum = get(&c, i * n + j) + products.sum::<i64>();
            if desk.get(2, i, j) != whole(sum) {
                return Err(format!("C({i}, {j}) is {:#010x}, not {sum}", desk.get(2, i, j)));
            }
        }
        Ok(())
    })
}

/// Sums and products of the second program, which reckons with integers, beside those of
/// the processor.
pub fn host_floats(context: &mut Context) -> Outcome {
    let count = 20_000 * context.scale;
    each_case(context, "host floats", count, |_, random, _| {
        let style = any_style(random);
        for _ in 0..20 {
            let [x, y] = [false, random.chance(50)].map(|of_c| number(random, style, of_c));
            let [one, other] = [x, y].map(f32::from_bits);
            let pairs = [
                (model::floats::sum(x, y), one + other),
                (model::floats::product(x, y), one * other),
            ];
            for (found, expected) in pairs {
                let same = found == expected.to_bits();
                if !same && !(model::floats::is_nan(found) && expected.is_nan()) {
                    return Err(format!("{x:#010x} and {y:#010x}: {found:#010x}, {expected:e}"));
                }
            }
        }
        Ok(())
    })
}
