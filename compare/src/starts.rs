//! Starting a machine: good and bad numbers, lengths and seals.

use crate::lent::{differences, library_start, second_start, Lent};
use crate::library;
use crate::random::Random;
use crate::states::machines::{UNKNOWN_ELENS, UNKNOWN_RULES};
use crate::suite::{each_case, Context, Outcome};
use crate::tally::{Call, Tally};
use model::{Lengths, RULES};

// Around the bounds, and all permitted ones.
pub const RLENS: [u64; 18] = [
    0,
    1,
    32,
    63,
    64,
    65,
    96,
    128,
    256,
    512,
    1024,
    2048,
    4095,
    4096,
    4097,
    8192,
    1 << 32,
    u64::MAX,
];
pub const MLENS: [u64; 21] = [
    0,
    1,
    64,
    127,
    128,
    129,
    256,
    384,
    512,
    1024,
    2048,
    4096,
    8192,
    16384,
    32768,
    65535,
    65536,
    65537,
    131072,
    1 << 32,
    u64::MAX,
];
const SEALS: [(u64, u64); 10] = [
    (0, 0),
    (0, u64::MAX),
    (1, u64::MAX),
    (u64::MAX, 0),
    (u64::MAX, 1),
    (1 << 63, 1 << 63),
    (1 << 63, (1 << 63) - 1),
    (u64::MAX, u64::MAX),
    (100, 1),
    (1 << 40, 1 << 20),
];

pub fn machine_starts(context: &mut Context) -> Outcome {
    each_case(context, "machine starts", 8000, |case, random, tally| {
        // Every pair of lengths some times over, then good ones alone.
        let pairs = (RLENS.len() * MLENS.len()) as u64;
        let lengths = if case < 15 * pairs {
            let pair = (case % pairs) as usize;
            let elen = match random.below(6) {
                0 => random.pick(&UNKNOWN_ELENS),
                1 | 2 => 64,
                _ => 32,
            };
            (RLENS[pair % RLENS.len()], MLENS[pair / RLENS.len()], elen)
        } else {
            random.pick(&model::permitted_lengths())
        };
        check_start(lengths, random, tally)
    })
}

/// A length: mostly the right one, else near it or none.
fn length(random: &mut Random, right: usize) -> usize {
    match random.below(30) {
        0 => 0,
        1 => right - 1,
        2 => right + 1,
        3 => right / 2,
        4 => 2 * right,
        _ => right,
    }
}

/// Ranges: mostly one, else up to more than there can be; some are bad, and some lists
/// have a number too many.
fn numbers_of_ranges(random: &mut Random) -> Vec<u64> {
    let count = if random.chance(70) { 1 } else { random.below(12) };
    let mut numbers = Vec::new();
    for _ in 0..count {
        let (start, length) = match random.below(if count == 1 { 3 } else { 12 }) {
            0 => random.pick(&SEALS),
            _ => (random.below(1000), random.below(1000)),
        };
        numbers.extend([start, length]);
    }
    if random.chance(5) {
        numbers.push(random.below(9));
    }
    numbers
}

fn check_start(lengths: Lengths, random: &mut Random, tally: &mut Tally) -> Result<(), String> {
    let numbers = numbers_of_ranges(random);
    let rule = match random.below(8) {
        0 => random.pick(&UNKNOWN_RULES),
        _ => random.pick(&RULES),
    };
    let right = model::register_bytes(lengths.1.clamp(64, 1 << 17));
    let [machine_length, registers_length, marks_length] =
        [library::MACHINE_BYTES, right, right].map(|right| length(random, right));
    let lent = Lent {
        machine: random.bytes(machine_length),
        registers: random.bytes(registers_length),
        marks: random.bytes(marks_length),
        scalars: vec![],
        memory: vec![],
        vectors: vec![],
        group: 1,
    };
    check_started(lengths, rule, &numbers, &lent, tally).map(|_| ())
}

/// A start on both programs; the answer and what it left.
pub fn check_started(
    lengths: Lengths,
    rule: u64,
    numbers: &[u64],
    before: &Lent,
    tally: &mut Tally,
) -> Result<(u64, Lent), String> {
    let (mut library, mut read) = (before.clone(), numbers.to_vec());
    let given = library_start(lengths, rule, &mut read, &mut library);
    let mut second = before.clone();
    let expected = second_start(lengths, rule, numbers, &mut second);
    if given != expected || library != second || read != numbers {
        return Err(format!(
            "start {lengths:?} rule {rule} seals {numbers:?}, {} bytes of machine, {} of \
             registers, {} of marks\nlibrary: {given}, second program: {expected}\n{}{}{}{}",
            before.machine.len(),
            before.registers.len(),
            before.marks.len(),
            if read == numbers { "" } else { "the library writes to the seals\n" },
            differences("machine block", &before.machine, &library.machine, &second.machine),
            differences("registers", &before.registers, &library.registers, &second.registers),
            differences("marks", &before.marks, &library.marks, &second.marks),
        ));
    }
    tally.count(Call::MachineStart, given);
    Ok((given, second))
}
