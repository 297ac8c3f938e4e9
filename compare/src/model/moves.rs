//! Request Eleven: moves between accumulators and vector registers, byte by byte.

use crate::listing::Kind::*;
use crate::machine::{register_element, scalar, Bench, Machine, Register};
use crate::settings::sew;
use crate::words::Instruction;
use Lines::*;

/// What a move takes of an accumulator: rows (`mmvcr`) or columns (`mmvcc`).
#[derive(Clone, Copy, Debug, PartialEq, Eq)]
pub enum Lines {
    Rows,
    Columns,
}

/// What a step is lent for moves: the bytes of v0 to v31, and the group size.
#[derive(Clone, Debug, PartialEq, Eq)]
pub struct Vectors {
    pub file: Vec<u8>,
    pub group: u64,
}

/// 32 registers of 128 bits.
pub const VECTOR_BITS: i128 = 128;
pub const VECTOR_FILE_BYTES: usize = 32 * 128 / 8;
pub const GROUPS: [u64; 4] = [1, 2, 4, 8];

/// What a step is lent that is no move: nothing reads or writes it.
pub fn unused() -> Vectors {
    Vectors { file: vec![0; VECTOR_FILE_BYTES], group: 1 }
}

/// Answer 8, of any word.
pub fn at_fault(vectors: &Vectors) -> bool {
    vectors.file.len() != VECTOR_FILE_BYTES || !GROUPS.contains(&vectors.group)
}

/// A move by its operands.
struct Move {
    lines: Lines,
    accumulator: u32,
    /// The vector register that the group starts at.
    group_start: u32,
    /// The slot of the scalar.
    rs2: u32,
}

/// `None` if an instruction is no move.
fn move_of(instruction: &Instruction) -> Option<Move> {
    let (lines, accumulator, group_start) = match instruction.row.kind {
        MoveOut(lines) => (lines, "ms1", "vd"),
        MoveIn(lines) => (lines, "md", "vs1"),
        _ => return None,
    };
    Some(Move {
        lines,
        accumulator: instruction.get(accumulator),
        group_start: instruction.get(group_start),
        rs2: instruction.get("rs2"),
    })
}

/// Answer 12, beside that of the accumulator's field: the group doesn't start at a
/// multiple of its size.
pub fn misaligned(instruction: &Instruction, group: u64) -> bool {
    move_of(instruction).is_some_and(|found| found.group_start as u64 % group != 0)
}

/// Answer 4, beside that of the tile sizes: one of the lines that the scalar and the
/// group size name is past the tile, or a line exceeds a vector register.
pub fn slice_too_large(
    instruction: &Instruction,
    machine: &Machine,
    scalars: &[u64],
    group: u64,
) -> bool {
    let Some(Move { lines, rs2, .. }) = move_of(instruction) else {
        return false;
    };
    let (rows, columns) = (machine.tile_m as i128, machine.tile_n as i128);
    let (count, elements) = match lines {
        Rows => (rows, columns),
        Columns => (columns, rows),
    };
    let first = scalar(scalars, rs2) as i128;
    let past = (0..group as i128).any(|nth| first + nth >= count);
    past || elements * sew(machine.mtype) > VECTOR_BITS
}

/// A byte that a move moves.
#[derive(Clone, Copy, Debug, PartialEq, Eq)]
pub struct MovedByte {
    /// Row and column of its element.
    pub row: i128,
    pub column: i128,
    /// Its place among the register bytes, and in the vector file.
    pub register: usize,
    pub vector: usize,
}

/// The bytes that a move moves: all elements of the C tile are gone through, row by row,
/// and those in the lines from the scalar onward taken.
pub fn moved_bytes(
    instruction: &Instruction,
    machine: &Machine,
    scalars: &[u64],
    group: u64,
) -> Vec<MovedByte> {
    let mut moved = Vec::new();
    let Some(Move { lines, accumulator, group_start, rs2 }) = move_of(instruction) else {
        return moved;
    };
    let accumulator = Register::Accumulator(accumulator);
    let width = sew(machine.mtype);
    let first = scalar(scalars, rs2) as i128;
    for row in 0..machine.tile_m as i128 {
        for column in 0..machine.tile_n as i128 {
            // The element's line, and its number in that line.
            let (line, at) = match lines {
                Rows => (row, column),
                Columns => (column, row),
            };
            if line < first || line >= first + group as i128 {
                continue;
            }
            let vector_register = group_start as i128 + (line - first);
            let vector_byte = vector_register * VECTOR_BITS / 8 + at * width / 8;
            let element = register_element(machine, accumulator, row, column, width);
            for (byte, register) in element.enumerate() {
                moved.push(MovedByte { row, column, register, vector: vector_byte as usize + byte })
            }
        }
    }
    moved
}

/// Answer 5 of a move out: row and column of the first element in the accumulator's
/// order that has a byte without a mark. A move in reads no register.
pub fn first_unwritten(
    instruction: &Instruction,
    bench: &Bench,
    scalars: &[u64],
    group: u64,
) -> Option<(i128, i128)> {
    let MoveOut(_) = instruction.row.kind else {
        return None;
    };
    let moved = moved_bytes(instruction, &bench.machine, scalars, group);
    moved.iter().find(|byte| bench.marks[byte.register] == 0).map(|byte| (byte.row, byte.column))
}

pub fn move_out(instruction: &Instruction, bench: &Bench, scalars: &[u64], vectors: &mut Vectors) {
    for byte in moved_bytes(instruction, &bench.machine, scalars, vectors.group) {
        vectors.file[byte.vector] = bench.registers[byte.register];
    }
}

pub fn move_in(instruction: &Instruction, bench: &mut Bench, scalars: &[u64], vectors: &Vectors) {
    for byte in moved_bytes(instruction, &bench.machine, scalars, vectors.group) {
        bench.registers[byte.register] = vectors.file[byte.vector];
        bench.marks[byte.register] = 1;
    }
}
