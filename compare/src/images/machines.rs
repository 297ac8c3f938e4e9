//! Machines whose images are tried, with patterns of marks, and the buffers that an image is
//! read into.

use crate::lent::{second_image, Lent};
use crate::library;
use crate::random::Random;
use crate::states::cases::{any_scalar, bench_of};
use crate::states::machines::{any_machine, larger_lengths};
use model::{Lengths, Machine, Seal, Seals, MOST_SEALS};

pub const PATTERNS: u64 = 13;

/// One of the patterns of marks.
pub fn mark(random: &mut Random, pattern: u64, mlen: u64, marks: &mut [u8]) {
    let length = marks.len();
    let percent = random.pick(&[1, 5, 50, 95]);
    let stretches = random.bytes(length);
    let mut value = 0;
    for (at, mark) in marks.iter_mut().enumerate() {
        let tile = mlen as usize / 8;
        let register = if at < 8 * tile { tile } else { 4 * tile };
        let place = if at < 8 * tile { at % register } else { (at - 8 * tile) % register };
        if at == 0 || stretches[at] < 20 {
            value = stretches[at] % 2;
        }
        let marked = match pattern {
            0 => false,
            1 => true,
            2 => at == 0,
            3 => at == length - 1,
            4 => at == 0 || at == length - 1,
            5 => at != 0,
            6 => at != length - 1,
            7 => at % 2 == 0,
            8 => at % 2 == 1,
            9 => place == 0 || place == register - 1,
            10 => place != register - 1,
            11 => random.chance(percent),
            _ => value == 1,
        };
        *mark = u8::from(marked);
    }
}

/// A range that a machine can hold, often one that ends at 2^64 - 1.
pub fn any_seal(random: &mut Random) -> (u64, u64) {
    let start = any_scalar(random);
    let longest = u64::MAX - start;
    let length = match random.below(4) {
        0 => longest,
        1 => 0,
        2 => any_scalar(random).min(longest),
        _ => longest.saturating_sub(random.below(300)),
    };
    (start, length)
}

/// Some of them: one in most machines.
fn any_seals(random: &mut Random) -> Seals {
    let number = if random.chance(70) { 1 } else { random.below(MOST_SEALS as u64 + 1) };
    Seals::of(&(0..number).map(|_| any_seal(random)).collect::<Vec<_>>())
}

/// A machine that is not at fault, with a pattern of marks.
pub fn sound_bench(random: &mut Random, lengths: Lengths, pattern: u64) -> Lent {
    let mut machine = any_machine(random, lengths);
    machine.seals = any_seals(random);
    let mut lent = bench_of(random, &machine);
    mark(random, pattern, machine.mlen, &mut lent.marks);
    lent
}

/// The same with a number of ranges.
pub fn bench_with_ranges(
    random: &mut Random,
    lengths: Lengths,
    number: usize,
    pattern: u64,
) -> Lent {
    let mut lent = sound_bench(random, lengths, pattern);
    let list: Vec<Seal> = (0..number).map(|_| any_seal(random)).collect();
    lent.set_machine(&Machine { seals: Seals::of(&list), ..lent.machine() });
    lent
}

/// Buffers of a machine's size, with random bytes.
pub fn other_buffers(random: &mut Random, mlen: u64) -> Lent {
    let length = model::register_bytes(mlen);
    Lent {
        machine: random.bytes(library::MACHINE_BYTES),
        registers: random.bytes(length),
        marks: random.bytes(length),
        scalars: vec![],
        memory: vec![],
        vectors: vec![],
        group: 0,
    }
}

/// No buffers: an image that is accepted gets 8.
pub fn no_buffers() -> Lent {
    Lent {
        machine: vec![],
        registers: vec![],
        marks: vec![],
        scalars: vec![],
        memory: vec![],
        vectors: vec![],
        group: 0,
    }
}

/// The image of a machine of small lengths, with few runs.
pub fn small_image(random: &mut Random) -> Vec<u8> {
    // The fifth has more rows than bytes in a row.
    let old = [(64, 128), (64, 128), (128, 256), (512, 1024), (64, 1024)];
    let lengths = match random.below(100) {
        0..=1 => random.pick(&larger_lengths()),
        2..=32 => random.pick(&[(128, 256, 64), (128, 512, 64), (256, 512, 64), (512, 1024, 64)]),
        _ => {
            let (rlen, mlen) = random.pick(&old);
            (rlen, mlen, 32)
        }
    };
    let pattern = random.pick(&[0, 2, 3, 4, 4, 9, 11, 12]);
    let mut lent = sound_bench(random, lengths, pattern);
    if pattern > 10 {
        // A part of the marks, so that gaps have one or two groups.
        let from = random.below(200) as usize;
        let to = from + random.below(50) as usize;
        lent.marks[..from].fill(0);
        lent.marks[to..].fill(0);
    }
    second_image(&lent).expect("a sound machine")
}
