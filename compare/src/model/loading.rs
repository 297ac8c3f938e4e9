//! Document 01, "Loading, storing, reckoning": where rows lie in memory, loads and stores,
//! and their transposed forms (request Two).

use crate::listing::Form::*;
use crate::listing::Kind::*;
use crate::listing::{Form, Matrix, Size};
use crate::machine::{register_element, scalar, Bench, Machine};
use crate::settings::tile_size;
use crate::tiles::shape;
use crate::words::Instruction;
use std::collections::HashMap;

/// A matrix or a tile in memory, by its rows there.
#[derive(Clone, Copy, Debug)]
pub struct Placed {
    pub address: i128,
    pub stride: i128,
    pub rows: i128,
    pub columns: i128,
    pub width: i128,
}

impl Placed {
    /// Address of the first byte of element (i, j).
    pub fn element(&self, i: i128, j: i128) -> i128 {
        self.address + i * self.stride + j * self.width / 8
    }

    /// Every byte of every element, with its row.
    pub fn bytes(&self) -> impl Iterator<Item = (i128, i128)> + '_ {
        (0..self.rows).flat_map(move |i| {
            (0..self.columns).flat_map(move |j| {
                let first = self.element(i, j);
                (first..first + self.width / 8).map(move |address| (address, i))
            })
        })
    }

    /// Every address, with the first row it lies in.
    pub fn first_rows(&self) -> HashMap<i128, i128> {
        let mut row_of = HashMap::new();
        for (address, row) in self.bytes() {
            row_of.entry(address).or_insert(row);
        }
        row_of
    }

    /// Whether a byte belongs to two rows.
    pub fn rows_meet(&self) -> bool {
        let row_of = self.first_rows();
        self.bytes().any(|(address, row)| row_of[&address] != row)
    }
}

/// Rows and columns of a matrix in memory: of a transposed load or store the
/// other way round.
pub fn memory_shape(matrix: Matrix, form: Form) -> (Size, Size) {
    let (rows, columns) = shape(matrix);
    match form {
        Plain => (rows, columns),
        Transposed => (columns, rows),
    }
}

/// The tile of a load or store as it lies in memory.
pub(crate) fn moved_tile(
    instruction: &Instruction,
    machine: &Machine,
    scalars: &[u64],
) -> Option<Placed> {
    let (Load(matrix, width, form) | Store(matrix, width, form)) = instruction.row.kind else {
        return None;
    };
    let (rows, columns) = memory_shape(matrix, form);
    Some(Placed {
        address: scalar(scalars, instruction.get("rs1")) as i128,
        stride: scalar(scalars, instruction.get("rs2")) as i64 as i128,
        rows: tile_size(machine, rows),
        columns: tile_size(machine, columns),
        width,
    })
}

/// Every address that a load or store touches, memory row by memory row.
pub(crate) fn addresses(
    instruction: &Instruction,
    machine: &Machine,
    scalars: &[u64],
) -> Vec<i128> {
    let moved = moved_tile(instruction, machine, scalars);
    moved.iter().flat_map(|placed| placed.bytes()).map(|(address, _)| address).collect()
}

/// The bytes that a load or store moves, memory row by memory row: each one's
/// address and its place among the register bytes.
fn moved_bytes(
    instruction: &Instruction,
    machine: &Machine,
    scalars: &[u64],
) -> Vec<(usize, usize)> {
    let (Load(_, width, form) | Store(_, width, form)) = instruction.row.kind else {
        return vec![];
    };
    let placed = moved_tile(instruction, machine, scalars).expect("a load or store");
    let mut moved = Vec::new();
    for row in 0..placed.rows {
        for column in 0..placed.columns {
            let (i, j) = match form {
                Plain => (row, column),
                Transposed => (column, row),
            };
            let address = placed.element(row, column) as usize;
            let places = register_element(machine, instruction.md(), i, j, width);
            moved.extend((address..).zip(places));
        }
    }
    moved
}

pub(crate) fn load(instruction: &Instruction, bench: &mut Bench, scalars: &[u64]) {
    for (address, place) in moved_bytes(instruction, &bench.machine, scalars) {
        bench.registers[place] = bench.memory[address];
        bench.marks[place] = 1;
    }
}

pub(crate) fn store(instruction: &Instruction, bench: &mut Bench, scalars: &[u64]) {
    for (address, place) in moved_bytes(instruction, &bench.machine, scalars) {
        bench.memory[address] = bench.registers[place];
    }
}
