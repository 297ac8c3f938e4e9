//! A float product word and its tiles.

use crate::lent::Lent;
use crate::random::Random;
use crate::states::cases::bench_of;
use crate::states::float_numbers;
use crate::states::machines::{set_size, SIZES};
use crate::suite::check_step;
use crate::tally::Tally;
use model::{maximum, register_element, Lengths, Machine, Register, SMALLER};

/// mtype of SEW 32.
const E32: u64 = 2;

/// Where a float product finds its numbers.
pub struct Desk {
    lent: Lent,
    /// Tile registers of A and B, and the accumulator of C.
    registers: [u32; 3],
}

impl Desk {
    /// Any registers, filled with float numbers, all of them marked.
    pub fn new(random: &mut Random, machine: &Machine) -> Desk {
        let mut lent = bench_of(random, machine);
        lent.registers = float_numbers::registers(random, machine.mlen);
        let a = random.below(8) as u32;
        let b = (a + random.range(1, 7) as u32) % 8;
        Desk { lent, registers: [a, b, random.below(2) as u32] }
    }

    fn word(&self) -> u32 {
        let [a, b, c] = self.registers;
        model::assemble("mfma.mm", &[("ms1", a), ("ms2", b), ("md", c)])
    }

    pub fn set_sizes(&mut self, sizes: [u64; 3]) {
        let mut machine = self.lent.machine();
        SIZES
            .into_iter()
            .zip(sizes)
            .for_each(|(size, to)| set_size(&mut machine, size, to as i128));
        self.lent.set_machine(&machine);
    }

    /// The bytes of an element of A, B or C.
    fn element(&self, of: usize, i: u64, j: u64) -> std::ops::Range<usize> {
        let register = match of {
            2 => Register::Accumulator(self.registers[2]),
            _ => Register::Tile(self.registers[of]),
        };
        register_element(&self.lent.machine(), register, i as i128, j as i128, 32)
    }

    pub fn put(&mut self, of: usize, i: u64, j: u64, bits: u32) {
        let bytes = self.element(of, i, j);
        self.lent.registers[bytes].copy_from_slice(&bits.to_le_bytes());
    }

    pub fn get(&self, of: usize, i: u64, j: u64) -> u32 {
        u32::from_le_bytes(self.lent.registers[self.element(of, i, j)].try_into().unwrap())
    }

    /// The word on both programs, which has to be done.
    pub fn multiply(&mut self, tally: &mut Tally) -> Result<(), String> {
        let number;
        (number, self.lent) = check_step(self.word(), &self.lent, tally)?;
        match number {
            0 => Ok(()),
            _ => Err(format!("a float product gives {number} on {:?}", self.lent.machine())),
        }
    }
}

pub fn machine_at_32(lengths: Lengths) -> Machine {
    Machine { mtype: E32, ..Machine::of(lengths, SMALLER) }
}

/// The maxima of m, k and n at SEW 32.
pub fn maxima(machine: &Machine) -> [u64; 3] {
    SIZES.map(|size| maximum(machine, size, 32) as u64)
}
