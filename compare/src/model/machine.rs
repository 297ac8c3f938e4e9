//! Document 01, "What a machine is", with the lengths of request Ten: its numbers, its
//! registers, its scalars, and how it is started.

use crate::seals::{seal_permitted, Seal, Seals, MOST_SEALS};
use crate::settings::RULES;

#[derive(Clone, Copy, Debug, Default, PartialEq, Eq)]
pub struct Machine {
    pub rlen: u64,
    pub mlen: u64,
    pub mtype: u64,
    pub tile_m: u64,
    pub tile_k: u64,
    pub tile_n: u64,
    pub seals: Seals,
    pub rule: u64,
    /// The widest element in bits (request Ten).
    pub elen: u64,
}

/// A machine with what it is lent, but for the scalars and the vector file.
#[derive(Clone, Debug, PartialEq, Eq)]
pub struct Bench {
    pub machine: Machine,
    pub registers: Vec<u8>,
    pub marks: Vec<u8>,
    pub memory: Vec<u8>,
}

const RLENS: [u64; 7] = [64, 128, 256, 512, 1024, 2048, 4096];
const MLENS: [u64; 10] = [128, 256, 512, 1024, 2048, 4096, 8192, 16384, 32768, 65536];
pub const ELENS: [u64; 2] = [32, 64];

/// RLEN, MLEN and ELEN.
pub type Lengths = (u64, u64, u64);

pub fn lengths_permitted((rlen, mlen, elen): Lengths) -> bool {
    RLENS.contains(&rlen)
        && MLENS.contains(&mlen)
        && ELENS.contains(&elen)
        && elen < rlen
        && rlen < mlen
}

/// All permitted lengths: ELEN 32 before 64, small machines first.
pub fn permitted_lengths() -> Vec<Lengths> {
    let mut permitted = Vec::new();
    for elen in ELENS {
        for mlen in MLENS {
            for rlen in RLENS {
                if lengths_permitted((rlen, mlen, elen)) {
                    permitted.push((rlen, mlen, elen));
                }
            }
        }
    }
    permitted
}

impl Machine {
    pub fn lengths(&self) -> Lengths {
        (self.rlen, self.mlen, self.elen)
    }

    /// A machine of some lengths and a rule, with one range that seals nothing, its other
    /// numbers 0.
    pub fn of((rlen, mlen, elen): Lengths, rule: u64) -> Machine {
        Machine { rlen, mlen, elen, rule, seals: Seals::of(&[(0, 0)]), ..Machine::default() }
    }
}

/// Eight tile registers of MLEN bits and two accumulators of 4 x MLEN bits.
pub fn register_bytes(mlen: u64) -> usize {
    ((8 * mlen + 2 * 4 * mlen) / 8) as usize
}

pub(crate) fn buffers_fit(mlen: u64, registers: &[u8], marks: &[u8]) -> bool {
    registers.len() == register_bytes(mlen) && marks.len() == register_bytes(mlen)
}

/// Starts a machine with as many ranges as there are pairs of numbers, start and length;
/// an error is the answer's number. Every 8 comes before 16, also that of a range beyond
/// the ninth.
pub fn start(
    lengths: Lengths,
    rule: u64,
    seals: &[u64],
    registers: &[u8],
    marks: &mut [u8],
) -> Result<Machine, u64> {
    let list: Vec<Seal> = seals.chunks_exact(2).map(|pair| (pair[0], pair[1])).collect();
    if !lengths_permitted(lengths)
        || !RULES.contains(&rule)
        || !buffers_fit(lengths.1, registers, marks)
        || seals.len() % 2 != 0
        || !list.iter().all(|&range| seal_permitted(range))
    {
        return Err(8);
    }
    if list.len() > MOST_SEALS {
        return Err(16);
    }
    for mark in marks.iter_mut() {
        *mark = 0;
    }
    Ok(Machine { seals: Seals::of(&list), ..Machine::of(lengths, rule) })
}

#[derive(Clone, Copy, Debug, PartialEq, Eq)]
pub enum Register {
    Tile(u32),
    Accumulator(u32),
}

/// Where row `i` of a register starts among the register bytes: tr0 to tr7,
/// then acc0 and acc1.
pub(crate) fn register_row(machine: &Machine, register: Register, i: i128) -> i128 {
    let (mlen, rlen) = (machine.mlen as i128, machine.rlen as i128);
    match register {
        Register::Tile(r) => r as i128 * mlen / 8 + i * rlen / 8,
        Register::Accumulator(a) => mlen + a as i128 * 4 * mlen / 8 + i * 4 * rlen / 8,
    }
}

/// The bytes of element (i, j) of `width` bits in a register.
pub fn register_element(
    machine: &Machine,
    register: Register,
    i: i128,
    j: i128,
    width: i128,
) -> std::ops::Range<usize> {
    let first = register_row(machine, register, i) + j * width / 8;
    first as usize..(first + width / 8) as usize
}

/// The scalar in a slot; slot 0 is read as 0.
pub(crate) fn scalar(scalars: &[u64], slot: u32) -> u64 {
    if slot == 0 {
        0
    } else {
        scalars[slot as usize]
    }
}

pub(crate) fn set_scalar(scalars: &mut [u64], slot: u32, value: u64) {
    if slot != 0 {
        scalars[slot as usize] = value;
    }
}
