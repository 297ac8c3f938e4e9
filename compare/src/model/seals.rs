//! Request Twelve: several sealed ranges, given at the start or added between steps.

use crate::answers::state_at_fault;
use crate::machine::{Bench, Machine};

/// A sealed range of memory: its start and its length.
pub type Seal = (u64, u64);

/// The most ranges that a machine can have (request Twelve).
pub const MOST_SEALS: usize = 8;

/// The sealed ranges of a machine in order of entry, and how many they are. What belongs
/// to a range that is not there is 0, or the state is at fault.
#[derive(Clone, Copy, Debug, Default, PartialEq, Eq)]
pub struct Seals {
    pub number: u64,
    pub ranges: [Seal; MOST_SEALS],
}

impl Seals {
    /// Up to eight ranges.
    pub fn of(list: &[Seal]) -> Seals {
        let mut seals = Seals::default();
        for &range in list {
            seals.add(range);
        }
        seals
    }

    /// A further range, behind the others.
    pub(crate) fn add(&mut self, range: Seal) {
        self.ranges[self.number as usize] = range;
        self.number += 1;
    }

    /// The ranges that are there.
    pub fn list(&self) -> &[Seal] {
        &self.ranges[..self.number.min(MOST_SEALS as u64) as usize]
    }

    pub(crate) fn permitted(&self) -> bool {
        self.number <= MOST_SEALS as u64
            && self.ranges[self.list().len()..].iter().all(|&range| range == (0, 0))
            && self.list().iter().all(|&range| seal_permitted(range))
    }
}

/// A range's end is its start plus its length.
pub(crate) fn seal_permitted((start, length): Seal) -> bool {
    start as i128 + length as i128 <= u64::MAX as i128
}

/// Seals a further range (request Twelve); the answer's number.
pub fn seal(range: Seal, bench: &mut Bench) -> u64 {
    if state_at_fault(bench) || !seal_permitted(range) {
        return 8;
    }
    if bench.machine.seals.number == MOST_SEALS as u64 {
        return 16;
    }
    bench.machine.seals.add(range);
    0
}

fn in_range((start, length): Seal, address: i128) -> bool {
    let start = start as i128;
    start <= address && address < start + length as i128
}

/// A byte is sealed if some range has it.
pub fn sealed(machine: &Machine, address: i128) -> bool {
    machine.seals.list().iter().any(|&range| in_range(range, address))
}
