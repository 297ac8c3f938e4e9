//! Products and element-wise words to 64 bits, of numbers at the ends of their widths.

use crate::lent::Lent;
use crate::random::Random;
use crate::states::cases::{bench_of, multiplier};
use crate::states::machines::{
    fitting_mtypes, larger_lengths, lengths_at_64, limits, set_size, SIZES,
};
use crate::suite::{check_step, each_case, Context, Outcome};
use model::{assemble, sew, Kind, Lengths, Machine, Row, LISTING, RULES};

/// The first byte of an element of a tile register, or of an accumulator.
fn place(machine: &Machine, tile: bool, register: u64, i: u64, j: u64, width: u64) -> usize {
    let Machine { rlen, mlen, .. } = machine;
    let at = if tile {
        register * mlen / 8 + i * rlen / 8
    } else {
        mlen + register * mlen / 2 + i * rlen / 2
    };
    (at + j * width / 8) as usize
}

/// An element's number, signed.
fn number_at(registers: &[u8], at: usize, width: u64) -> i64 {
    match width {
        8 => registers[at] as i8 as i64,
        16 => i16::from_le_bytes(registers[at..at + 2].try_into().unwrap()) as i64,
        32 => i32::from_le_bytes(registers[at..at + 4].try_into().unwrap()) as i64,
        _ => i64::from_le_bytes(registers[at..at + 8].try_into().unwrap()),
    }
}

/// A number cut to a width, signed.
fn cut(number: i64, width: u64) -> i64 {
    number << (64 - width) >> (64 - width)
}

/// Numbers at the ends of each width, between them and around 0.
const ENDS: [i64; 18] = [
    i64::MIN,
    i64::MIN + 1,
    -(1 << 33),
    -(1 << 32),
    i32::MIN as i64 - 1,
    i32::MIN as i64,
    -2,
    -1,
    0,
    1,
    2,
    i32::MAX as i64,
    1 << 31,
    1 << 32,
    (1 << 32) + 1,
    1 << 62,
    i64::MAX - 1,
    i64::MAX,
];

/// Register bytes of numbers at the ends, or of any.
pub fn content(random: &mut Random, length: usize) -> Vec<u8> {
    if random.chance(40) {
        return random.bytes(length);
    }
    (0..length / 8).flat_map(|_| random.pick(&ENDS).to_le_bytes()).collect()
}

/// Sizes around multiples of 16 and 64.
const AROUND: [i128; 34] = [
    1, 2, 7, 15, 16, 17, 31, 32, 33, 47, 48, 49, 63, 64, 65, 66, 79, 80, 81, 127, 128, 129, 130,
    191, 192, 193, 255, 256, 257, 320, 321, 510, 511, 512,
];

/// One of them up to a limit, or the limit.
pub fn around(random: &mut Random, limit: i128) -> i128 {
    let fitting = AROUND.iter().filter(|&&size| size <= limit).count();
    random.pick(&[&AROUND[..fitting], &[limit]].concat())
}

/// Lengths of ELEN 64, now and then beyond the bounds of document 01.
fn any_at_64(random: &mut Random) -> Lengths {
    let larger: Vec<Lengths> = larger_lengths().into_iter().filter(|all| all.2 == 64).collect();
    let usual = lengths_at_64();
    if random.chance(25) {
        random.pick(&larger)
    } else {
        random.pick(&usual)
    }
}

/// What a multiply leaves in C, of wrapping 64-bit sums and products.
fn check_tile(
    word: u32,
    before: &Lent,
    after: &Lent,
    [a, b, c]: [u64; 3],
    output: u64,
) -> Result<(), String> {
    let machine = before.machine();
    let width = sew(machine.mtype) as u64;
    let get = |tile, register, i, j, width| {
        number_at(&before.registers, place(&machine, tile, register, i, j, width), width)
    };
    for i in 0..machine.tile_m {
        for j in 0..machine.tile_n {
            let mut sum = get(false, c, i, j, output);
            for l in 0..machine.tile_k {
                let product = get(true, a, i, l, width).wrapping_mul(get(true, b, l, j, width));
                sum = sum.wrapping_add(product);
            }
            let at = place(&machine, false, c, i, j, output);
            let found = number_at(&after.registers, at, output);
            if found != cut(sum, output) {
                return Err(format!(
                    "{}: C({i}, {j}) is {found}, not {}\n{machine:?}",
                    model::describe(word),
                    cut(sum, output)
                ));
            }
        }
    }
    Ok(())
}

/// mtype, the multiply and the width of C.
const TO_64: [(u64, &str); 3] = [(3, "mma.mm"), (2, "mwma.mm"), (9, "mqma.mm")];

/// All pairs of numbers at the ends as one product on each of them as an old value; then
/// tiles of such numbers and of any, at all widths whose C has 64 bits.
pub fn products_to_64(context: &mut Context) -> Outcome {
    let ends = ENDS.len() as u64;
    let pairs = ends.div_ceil(8) * ends.div_ceil(8) * ends;
    let count = pairs + 4000 * context.scale;
    each_case(context, "64-bit products", count, |case, random, tally| {
        let (mtype, name) = if case < pairs { TO_64[0] } else { random.pick(&TO_64) };
        let lengths = if case < pairs { (512, 4096, 64) } else { any_at_64(random) };
        let rule = random.pick(&RULES);
        let mut machine = Machine { mtype, ..Machine::of(lengths, rule) };
        let most = limits(random, &machine, sew(mtype));
        for (size, limit) in SIZES.into_iter().zip(most) {
            let value = if case < pairs { limit } else { around(random, limit) };
            set_size(&mut machine, size, value);
        }
        let registers = [random.below(8), random.below(8), random.below(2)];
        let [a, b, c] = registers;
        let mut lent = bench_of(random, &machine);
        lent.registers = content(random, lent.registers.len());
        if case < pairs {
            machine.tile_k = 1;
            lent.set_machine(&machine);
            let end = |at: u64| ENDS[(at % ends) as usize].to_le_bytes();
            let blocks = ends.div_ceil(8);
            let (of_a, of_b, of_c) =
                (case % blocks, case / blocks % blocks, case / blocks / blocks);
            for i in 0..8 {
                let mut put = |tile, register, row, column, bytes: [u8; 8]| {
                    let at = place(&machine, tile, register, row, column, 64);
                    lent.registers[at..at + 8].copy_from_slice(&bytes);
                };
                put(true, a, i, 0, end(8 * of_a + i));
                // B is another register, or A's row is B's too.
                put(true, (a + 1) % 8, 0, i, end(8 * of_b + i));
                (0..8).for_each(|j| put(false, c, i, j, end(of_c + 8 * i + j)));
            }
        }
        let b = if case < pairs { (a + 1) % 8 } else { b };
        let word = assemble(name, &[("ms1", a as u32), ("ms2", b as u32), ("md", c as u32)]);
        let (number, after) = check_step(word, &lent, tally)?;
        if number != 0 {
            return Err(format!("{name} gives {number} on {machine:?}"));
        }
        check_tile(word, &lent, &after, [a, b, c], 64)
    })
}

/// Every element-wise row under every mtype of ELEN 64 that fits it, on rows of up to as
/// many columns as there are; md is ms1 in half of them.
pub fn element_wise_at_64(context: &mut Context) -> Outcome {
    let factor = |row: &&'static Row| match row.kind {
        Kind::Add(f) | Kind::Subtract(f) | Kind::ReverseSubtract(f) | Kind::Scale(f) => Some(f),
        _ => None,
    };
    let mut rows: Vec<(&'static Row, u64, u64)> = Vec::new();
    for row in &LISTING {
        if let Some(f) = factor(&row) {
            rows.extend(fitting_mtypes(row.kind, 64).into_iter().map(|to| (row, to, f as u64)));
        }
    }
    let count = 60 * rows.len() as u64 * context.scale;
    each_case(context, "64-bit elements", count, |case, random, tally| {
        let (row, mtype, factor) = rows[case as usize % rows.len()];
        let lengths = any_at_64(random);
        let mut machine = Machine { mtype, ..Machine::of(lengths, random.pick(&RULES)) };
        let width = sew(mtype) as u64;
        let most = limits(random, &machine, sew(mtype));
        for (size, limit) in SIZES.into_iter().zip(most) {
            set_size(&mut machine, size, around(random, limit));
        }
        let (ms1, other) = (random.below(2), random.below(2));
        let md = if random.chance(50) { ms1 } else { other };
        let mut lent = bench_of(random, &machine);
        lent.registers = content(random, lent.registers.len());
        let immediate = random.below(32);
        lent.set_scalar(9, multiplier(random));
        let by_scalar = model::operands_of(row.name).iter().any(|operand| operand.0 == "rs2");
        let times = if by_scalar {
            cut(lent.scalar_values()[9] as i64, width)
        } else {
            (immediate as i64 ^ 16) - 16
        };
        let operands =
            [("ms1", ms1 as u32), ("md", md as u32), ("imm", immediate as u32), ("rs2", 9)];
        let word = assemble(row.name, &operands);
        let (number, after) = check_step(word, &lent, tally)?;
        let output = factor * width;
        for (i, j) in (0..machine.tile_m * machine.tile_n)
            .map(|at| (at / machine.tile_n, at % machine.tile_n))
        {
            let get = |register, width| {
                number_at(&lent.registers, place(&machine, false, register, i, j, width), width)
            };
            let (source, old) = (get(ms1, width), get(md, output));
            let expected = match row.kind {
                Kind::Add(_) => old.wrapping_add(source),
                Kind::Subtract(_) => old.wrapping_sub(source),
                Kind::ReverseSubtract(_) => source.wrapping_sub(old),
                _ => source.wrapping_mul(times),
            };
            let at = place(&machine, false, md, i, j, output);
            let found = number_at(&after.registers, at, output);
            if number != 0 || found != cut(expected, output) {
                return Err(format!(
                    "{} gives {number}, element ({i}, {j}) is {found}, not {expected}\n{machine:?}",
                    model::describe(word)
                ));
            }
        }
        Ok(())
    })
}
