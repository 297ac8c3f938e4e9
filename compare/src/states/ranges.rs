//! Sealed ranges: those that seal nothing, any, and bad ones.

use super::cases::any_scalar;
use crate::lent::Lent;
use crate::random::Random;
use model::{Machine, Seal, Seals, MOST_SEALS};

/// How many ranges a machine has: mostly one (request Twelve).
pub fn number_of_ranges(random: &mut Random) -> usize {
    match random.below(20) {
        0 => 0,
        1..=4 => random.range(2, MOST_SEALS as u64) as usize,
        _ => 1,
    }
}

/// A range that seals no byte of a memory.
fn idle_range(random: &mut Random) -> Seal {
    if random.chance(50) {
        return (any_scalar(random), 0);
    }
    let start = (1 << 40) + (random.next() >> 1);
    (start, any_scalar(random).min(u64::MAX - start))
}

/// As many such ranges as a machine has; the only one starts at 0 and has no byte.
pub fn idle_seals(random: &mut Random) -> Seals {
    match number_of_ranges(random) {
        1 => Seals::of(&[(0, 0)]),
        number => Seals::of(&(0..number).map(|_| idle_range(random)).collect::<Vec<_>>()),
    }
}

/// A range, mostly alone, else among others that seal no byte of a memory.
pub fn seals_with(random: &mut Random, range: Seal) -> Seals {
    let mut list = vec![range];
    if random.chance(20) {
        list.resize_with(random.range(2, MOST_SEALS as u64) as usize, || idle_range(random));
        let last = list.len() as u64;
        list.swap(0, random.below(last) as usize);
    }
    Seals::of(&list)
}

/// Ranges, each of one byte, of some, past the end of memory, or of everything.
pub fn put_seals(random: &mut Random, machine: &mut Machine, lent: &Lent) {
    let ranges = (0..number_of_ranges(random)).map(|_| any_range(random, lent.memory.len()));
    machine.seals = Seals::of(&ranges.collect::<Vec<_>>());
}

/// One of them.
pub fn any_range(random: &mut Random, memory: usize) -> Seal {
    let length = memory as u64;
    let inside = random.below(length + 1);
    match random.below(6) {
        0 | 1 => (inside, 1),
        2 => (inside, random.below(length + 2)),
        3 => (inside, u64::MAX - inside),
        4 => (length + random.below(3), random.below(100)),
        _ => (random.next() >> 1, random.next() >> 1),
    }
}

/// A range whose end exceeds 2^64 - 1.
pub fn bad_range(random: &mut Random) -> Seal {
    let start = random.pick(&[1, 1 << 63, u64::MAX]);
    let least = u64::MAX - start + 1;
    (start, random.pick(&[u64::MAX, least]).max(least))
}

/// Numbers of ranges that no machine has.
pub const BAD_NUMBERS: [u64; 10] =
    [9, 10, 15, 16, 255, 256 + 1, 1 << 32, (1 << 32) + 1, 1 << 63, u64::MAX];

/// A number above eight, or something where no range is.
pub fn damage_seals(random: &mut Random, seals: &mut Seals) {
    if random.chance(50) {
        seals.number = random.pick(&BAD_NUMBERS);
        return;
    }
    let number = random.below(MOST_SEALS as u64) as usize;
    seals.number = number as u64;
    seals.ranges[number..].fill((0, 0));
    let slot = random.range(number as u64, MOST_SEALS as u64 - 1) as usize;
    seals.ranges[slot] = random.pick(&[(1, 0), (0, 1), (7, 7), (1 << 63, 0), (0, 1 << 63)]);
}
