//! Two benches that differ at most in unmarked register bytes, and one call on both.

use crate::lent::{library_start, numbers_of, state_text, Lent};
use crate::random::Random;
use crate::states::cases::bench_of;
use crate::states::machines::{good_machine, mtypes};
use crate::states::ranges::number_of_ranges;
use crate::tally::ANSWERS;
use model::Seal;

/// A bench, and the block of a run where there is one.
#[derive(Clone)]
pub struct Side {
    pub lent: Lent,
    pub block: Vec<u8>,
}

/// Two sides that are to differ at most in unmarked register bytes.
#[derive(Clone)]
pub struct Pair(pub [Side; 2]);

impl Pair {
    /// A bench, and the same with another byte wherever no mark stands.
    pub fn new(random: &mut Random, lent: Lent, block: Vec<u8>) -> Pair {
        let side = Side { lent, block };
        let mut pair = Pair([side.clone(), side]);
        pair.set_apart(random);
        pair
    }

    /// Gives the second side another byte wherever no mark stands.
    pub fn set_apart(&mut self, random: &mut Random) {
        let Lent { registers, marks, .. } = &mut self.0[1].lent;
        for at in (0..registers.len()).filter(|&at| marks[at] == 0) {
            registers[at] ^= random.range(1, 255) as u8;
        }
    }

    /// Makes the same change to both sides.
    pub fn change(&mut self, change: impl Fn(&mut Side)) {
        self.0.iter_mut().for_each(change);
    }

    /// The first byte that differs, if it is not an unmarked register byte.
    fn difference(&self) -> Option<String> {
        let [Side { lent: one, block }, Side { lent: other, block: other_block }] = &self.0;
        let parts = [
            ("marks", &one.marks, &other.marks),
            ("machine block", &one.machine, &other.machine),
            ("scalars", &one.scalars, &other.scalars),
            ("memory", &one.memory, &other.memory),
            ("vectors", &one.vectors, &other.vectors),
            ("block of the run", block, other_block),
            ("registers", &one.registers, &other.registers),
        ];
        for (name, one_bytes, other_bytes) in parts {
            if one_bytes.len() != other_bytes.len() {
                return Some(format!("{name}: lengths differ"));
            }
            for at in 0..one_bytes.len() {
                let compared = name != "registers" || one.marks[at] == 1;
                let (byte, other_byte) = (one_bytes[at], other_bytes[at]);
                if compared && byte != other_byte {
                    return Some(format!("{name}: byte {at} is {byte:02x} and {other_byte:02x}"));
                }
            }
        }
        None
    }

    /// A call on both sides; its result, if they are still alike after it.
    pub fn call(
        &mut self,
        name: &str,
        mut call: impl FnMut(&mut Side) -> u64,
    ) -> Result<u64, String> {
        let before = self.0[0].lent.clone();
        let results = [call(&mut self.0[0]), call(&mut self.0[1])];
        let difference = self.difference();
        if results[0] != results[1] || difference.is_some() {
            return Err(format!(
                "{name}\nresult {:#x}, with other unmarked bytes {:#x}; {}\nthe state before:\n{}",
                results[0],
                results[1],
                difference.unwrap_or("nothing else differs".to_string()),
                state_text(&before)
            ));
        }
        Ok(results[0])
    }

    /// That one more byte that differs is seen in each part, but not if it is an
    /// unmarked register byte.
    pub fn check_comparison(&self, random: &mut Random) -> Result<(), String> {
        for part in 0..7 {
            let mut changed = self.clone();
            let Side { lent, block } = &mut changed.0[1];
            let Lent { machine, registers, marks, scalars, memory, vectors, .. } = lent;
            let bytes = match part {
                0 => registers,
                1 => machine,
                2 => marks,
                3 => scalars,
                4 => memory,
                5 => vectors,
                _ => block,
            };
            if bytes.is_empty() {
                continue;
            }
            let at = random.below(bytes.len() as u64) as usize;
            bytes[at] ^= 1;
            let hidden = part == 0 && self.0[0].lent.marks[at] == 0;
            if changed.difference().is_none() != hidden {
                return Err(format!("the comparison is wrong about byte {at} of part {part}"));
            }
        }
        Ok(())
    }
}

/// Marks whole rows, parts of rows, or none, in stretches.
fn mark_partly(random: &mut Random, lent: &mut Lent) {
    let row = lent.machine().rlen as usize / 8;
    let length = lent.marks.len();
    let mut at = 0;
    while at < length {
        let end = if random.chance(80) {
            (at / row + random.range(1, 16) as usize) * row
        } else {
            at + random.range(1, row as u64) as usize
        };
        let end = end.min(length);
        lent.marks[at..end].fill(u8::from(random.chance(60)));
        at = end;
    }
}

/// A pair that is partly marked, or was just started.
pub fn any_pair(random: &mut Random) -> Result<Pair, String> {
    let machine = good_machine(random);
    let mut lent = bench_of(random, &machine);
    lent.memory = random.bytes(1500);
    for slot in 1..32 {
        // Addresses, then strides; an mtype is taken from x6.
        let value = match slot {
            6 => random.pick(mtypes(machine.elen)),
            1..=15 => random.below(700),
            _ => random.below(100).wrapping_sub(15),
        };
        lent.set_scalar(slot, value);
    }
    if random.chance(60) {
        mark_partly(random, &mut lent);
        return Ok(Pair::new(random, lent, vec![]));
    }
    lent.marks.fill(0);
    let mut pair = Pair::new(random, lent, vec![]);
    let ranges: Vec<Seal> =
        (0..number_of_ranges(random)).map(|_| (random.below(1500), random.below(20))).collect();
    pair.call("start of a machine", |side| {
        let mut numbers = numbers_of(&ranges);
        library_start(machine.lengths(), machine.rule, &mut numbers, &mut side.lent)
    })?;
    Ok(pair)
}

/// How often each answer was given.
pub type Met = [u64; ANSWERS as usize];
