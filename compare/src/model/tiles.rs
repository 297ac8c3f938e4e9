//! Document 01, "Loading, storing, reckoning": the tiles that a word names, and their
//! elements in registers.

use crate::listing::Kind::*;
use crate::listing::Matrix::*;
use crate::listing::{Matrix, Size};
use crate::machine::{register_element, Bench, Machine, Register};
use crate::reckoning::multiplier;
use crate::settings::{sew, tile_size};
use crate::words::Instruction;

/// Rows and columns of a matrix in a register, by name.
pub fn shape(matrix: Matrix) -> (Size, Size) {
    match matrix {
        A => (Size::M, Size::K),
        B => (Size::K, Size::N),
        C => (Size::M, Size::N),
    }
}

/// A tile held in a register.
#[derive(Clone, Copy, Debug)]
pub struct Tile {
    pub register: Register,
    pub rows: i128,
    pub columns: i128,
    pub width: i128,
}

pub(crate) fn tile(machine: &Machine, matrix: Matrix, register: Register, width: i128) -> Tile {
    let (rows, columns) = shape(matrix);
    Tile { register, rows: tile_size(machine, rows), columns: tile_size(machine, columns), width }
}

/// Width of the elements that an instruction writes (or that a store reads).
pub(crate) fn output_width(instruction: &Instruction, machine: &Machine) -> i128 {
    match instruction.row.kind {
        SetType | SetSize(_) => 0,
        Load(_, eew, _) | Store(_, eew, _) => eew,
        Multiply(f) | Add(f) | Subtract(f) | ReverseSubtract(f) | Scale(f) => {
            f * sew(machine.mtype)
        }
        FloatMultiply | MoveOut(_) | MoveIn(_) => sew(machine.mtype),
    }
}

/// The tiles an instruction reads from registers, in the order ms1, ms2, md; what a move
/// reads is no tile.
pub fn sources(instruction: &Instruction, machine: &Machine, scalars: &[u64]) -> Vec<Tile> {
    let sew = sew(machine.mtype);
    let width = output_width(instruction, machine);
    let c_has_no_element = machine.tile_m == 0 || machine.tile_n == 0;
    match instruction.row.kind {
        SetType | SetSize(_) | Load(..) | MoveOut(_) | MoveIn(_) => vec![],
        Store(matrix, ..) => vec![tile(machine, matrix, instruction.md(), width)],
        Multiply(_) | FloatMultiply if c_has_no_element => vec![],
        Multiply(_) | FloatMultiply => vec![
            tile(machine, A, instruction.ms1(), sew),
            tile(machine, B, instruction.ms2(), sew),
            tile(machine, C, instruction.md(), width),
        ],
        Add(_) | Subtract(_) | ReverseSubtract(_) => vec![
            tile(machine, C, instruction.ms1(), sew),
            tile(machine, C, instruction.md(), width),
        ],
        Scale(_) if multiplier(instruction, machine, scalars) == 0 => vec![],
        Scale(_) => vec![tile(machine, C, instruction.ms1(), sew)],
    }
}

/// The signed number in some bytes, low byte first.
pub(crate) fn signed(bytes: &[u8]) -> i128 {
    let mut number: i128 = 0;
    for (place, &byte) in bytes.iter().enumerate() {
        number += (byte as i128) << (8 * place);
    }
    let width = 8 * bytes.len();
    if number >= 1 << (width - 1) {
        number - (1 << width)
    } else {
        number
    }
}

/// A number reduced to the width of some bytes, written low byte first.
pub(crate) fn put(number: i128, bytes: &mut [u8]) {
    let reduced = number.rem_euclid(1 << (8 * bytes.len()));
    for (place, byte) in bytes.iter_mut().enumerate() {
        *byte = (reduced >> (8 * place)) as u8;
    }
}

/// A tile's elements, signed.
pub(crate) fn read_tile(bench: &Bench, tile: Tile) -> Vec<Vec<i128>> {
    let element = |i, j| {
        signed(&bench.registers[register_element(&bench.machine, tile.register, i, j, tile.width)])
    };
    (0..tile.rows).map(|i| (0..tile.columns).map(|j| element(i, j)).collect()).collect()
}

/// Writes a tile's elements, each reduced to its width, and marks their bytes.
pub(crate) fn write_tile(bench: &mut Bench, tile: Tile, values: &[Vec<i128>]) {
    for i in 0..tile.rows {
        for j in 0..tile.columns {
            let places = register_element(&bench.machine, tile.register, i, j, tile.width);
            put(values[i as usize][j as usize], &mut bench.registers[places.clone()]);
            bench.marks[places].fill(1);
        }
    }
}
