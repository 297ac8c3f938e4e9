//! Document 01, "Loading, storing, reckoning": multiply and the element-wise words.

use crate::listing::Kind::*;
use crate::listing::Matrix::*;
use crate::machine::{scalar, Bench, Machine};
use crate::settings::sew;
use crate::tiles::{output_width, read_tile, signed, tile, write_tile};
use crate::words::Instruction;

/// Sums of 64-bit products can exceed an `i128`: they are kept modulo 2^128, of which
/// every width takes the low bits.
pub(crate) fn multiply(instruction: &Instruction, bench: &mut Bench) {
    let machine = bench.machine;
    let sew = sew(machine.mtype);
    let output = tile(&machine, C, instruction.md(), output_width(instruction, &machine));
    let a = read_tile(bench, tile(&machine, A, instruction.ms1(), sew));
    let b = read_tile(bench, tile(&machine, B, instruction.ms2(), sew));
    let mut c = read_tile(bench, output);
    for i in 0..machine.tile_m as usize {
        for j in 0..machine.tile_n as usize {
            for l in 0..machine.tile_k as usize {
                c[i][j] = c[i][j].wrapping_add(a[i][l] * b[l][j]);
            }
        }
    }
    write_tile(bench, output, &c);
}

pub(crate) fn add_or_subtract(instruction: &Instruction, bench: &mut Bench) {
    let machine = bench.machine;
    let output = tile(&machine, C, instruction.md(), output_width(instruction, &machine));
    let s = read_tile(bench, tile(&machine, C, instruction.ms1(), sew(machine.mtype)));
    let mut d = read_tile(bench, output);
    for i in 0..machine.tile_m as usize {
        for j in 0..machine.tile_n as usize {
            d[i][j] = match instruction.row.kind {
                Add(_) => d[i][j] + s[i][j],
                Subtract(_) => d[i][j] - s[i][j],
                _ => s[i][j] - d[i][j],
            };
        }
    }
    write_tile(bench, output, &d);
}

/// The multiplier of an element-wise multiply: the low SEW bits of the scalar,
/// or the five-bit immediate, signed.
pub(crate) fn multiplier(instruction: &Instruction, machine: &Machine, scalars: &[u64]) -> i128 {
    match instruction.operand("imm") {
        Some(immediate) if immediate >= 16 => immediate as i128 - 32,
        Some(immediate) => immediate as i128,
        None => {
            let value = scalar(scalars, instruction.get("rs2"));
            let bytes = (sew(machine.mtype) / 8) as usize;
            signed(&value.to_le_bytes()[..bytes])
        }
    }
}

pub(crate) fn scale(instruction: &Instruction, bench: &mut Bench, scalars: &[u64]) {
    let machine = bench.machine;
    let output = tile(&machine, C, instruction.md(), output_width(instruction, &machine));
    let multiplier = multiplier(instruction, &machine, scalars);
    let mut s = read_tile(bench, tile(&machine, C, instruction.ms1(), sew(machine.mtype)));
    for element in s.iter_mut().flatten() {
        *element *= multiplier;
    }
    write_tile(bench, output, &s);
}
