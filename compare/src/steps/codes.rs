//! Every code, and words at the bounds of the listing: every fixed bit and every operand of
//! every row, and all values of the bits that hold a code or zeros.

use crate::lent::{words_to_bytes, Lent};
use crate::random::Random;
use crate::states::cases::bench_of;
use crate::states::faults::put_state_fault;
use crate::states::machines::{good_machine, mtypes, set_size, SIZES};
use crate::states::words::any_operands;
use crate::suite::{check_step, each_case, Context, Outcome};
use crate::tally::Tally;
use model::{maximum, sew, Machine, LEFT_OUT, LISTING, RULES};

/// Every code of bits 31..25 and 14..12, with operands of many kinds.
pub fn codes(context: &mut Context) -> Outcome {
    each_case(context, "codes", 1024, |code, random, tally| {
        let bits = (code as u32 >> 3) << 25 | (code as u32 & 7) << 12;
        for sample in 0..48 {
            let operands = match sample {
                0 => 0,
                1 => 0x01FF_8F80,
                2..=9 => 1 << [7, 8, 10, 11, 15, 19, 20, 24][sample - 2],
                10..=39 => small_operands(random),
                _ => random.next() as u32 & 0x01FF_8F80,
            };
            let opcode = if sample == 45 { 0x77 ^ 1 << random.below(7) } else { 0x77 };
            let lent = roomy_bench(random);
            check_step(bits | operands | opcode as u32, &lent, tally)?;
        }
        Ok(())
    })
}

/// Operand fields that are mostly in range, bits 24..20 often zero.
fn small_operands(random: &mut Random) -> u32 {
    let mut field = || match random.below(4) {
        0 | 1 => random.below(2) as u32,
        2 => random.below(8) as u32,
        _ => random.below(32) as u32,
    };
    let (high, middle, low) = (field(), field(), field());
    let high = if random.chance(50) { 0 } else { high };
    high << 20 | middle << 15 | low << 7
}

/// A small machine with all bytes marked and addresses that lie in memory.
fn roomy_bench(random: &mut Random) -> Lent {
    let mut machine = good_machine(random);
    while machine.mlen > 256 {
        machine = good_machine(random);
    }
    with_memory(random, &machine, 4096, 300)
}

/// A bench of a machine, with so many bytes of memory, and scalars below a number.
fn with_memory(random: &mut Random, machine: &Machine, memory: usize, below: u64) -> Lent {
    let mut lent = bench_of(random, machine);
    lent.memory = random.bytes(memory);
    let scalars: Vec<u64> = (0..32).map(|_| random.below(below)).collect();
    lent.scalars = words_to_bytes(&scalars);
    lent
}

/// A bench of the smallest machine of either ELEN on which most good words are done.
fn small_bench(random: &mut Random) -> Lent {
    let lengths = random.pick(&[(64, 128, 32), (64, 128, 32), (128, 256, 64)]);
    let mtype = random.pick(mtypes(lengths.2));
    let rule = random.pick(&RULES);
    let mut machine = Machine { mtype, ..Machine::of(lengths, rule) };
    for size in SIZES {
        let limit = maximum(&machine, size, sew(mtype));
        set_size(&mut machine, size, random.range(0, limit as u64) as i128);
    }
    with_memory(random, &machine, 200, 70)
}

/// Every row, ours or left out: as it is, with each fixed bit turned over, with
/// each value of each field, and on a state at fault.
pub fn rows(context: &mut Context) -> Outcome {
    let names: Vec<&str> =
        LISTING.iter().map(|row| row.name).chain(LEFT_OUT.iter().map(|row| row.0)).collect();
    each_case(context, "rows", names.len() as u64, |case, random, tally| {
        let name = names[case as usize];
        for value in [0, 1, 2, 7, 8, 31] {
            let word = with_fields(name, value);
            turned_over(random, name, word, tally)?;
            every_field(random, name, word, tally)?;
        }
        for _ in 0..4 {
            let word = any_operands(random, name);
            turned_over(random, name, word, tally)?;
            let mut lent = small_bench(random);
            put_state_fault(random, &mut lent);
            check_step(word, &lent, tally)?;
        }
        Ok(())
    })
}

/// A word of a row with one value in every field.
fn with_fields(name: &str, value: u32) -> u32 {
    let operands: Vec<_> =
        model::operands_of(name).into_iter().map(|(operand, _)| (operand, value)).collect();
    model::assemble(name, &operands)
}

/// A word, and with each fixed bit turned over: alone, and with one of the
/// opcode.
fn turned_over(
    random: &mut Random,
    name: &str,
    word: u32,
    tally: &mut Tally,
) -> Result<(), String> {
    let lent = small_bench(random);
    check_step(word, &lent, tally)?;
    for bit in (0..32).filter(|bit| model::fixed_bits(name) & 1 << bit != 0) {
        check_step(word ^ 1 << bit, &lent, tally)?;
        check_step(word ^ 1 << bit ^ 1 << random.below(7), &lent, tally)?;
    }
    Ok(())
}

/// Every value of each field of five bits, the others as they are.
fn every_field(
    random: &mut Random,
    name: &str,
    word: u32,
    tally: &mut Tally,
) -> Result<(), String> {
    let lent = small_bench(random);
    for (_, low) in model::operands_of(name) {
        for value in 0..32 {
            check_step(word & !(31 << low) | value << low, &lent, tally)?;
        }
    }
    Ok(())
}

/// Values of bits 19..15 and 11..7 around the bounds of register fields.
const FIELDS: [(u32, u32); 8] = [(0, 0), (1, 1), (7, 1), (8, 1), (2, 1), (1, 2), (0, 8), (31, 31)];

/// All values of bits 31..20 and 14..12.
pub fn all_codes(context: &mut Context) -> Outcome {
    each_case(context, "all codes", 1 << 12, |case, random, tally| {
        let lent = small_bench(random);
        for funct3 in 0..8 {
            for (middle, low) in FIELDS {
                let word = (case as u32) << 20 | middle << 15 | funct3 << 12 | low << 7 | 0x77;
                check_step(word, &lent, tally)?;
            }
        }
        Ok(())
    })
}
