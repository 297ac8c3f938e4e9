//! Document 01, "Numbers of the answers", with answer 13 of request Seven: one function for
//! each, and a step, which goes through them in their order.

use crate::floats::float_multiply;
use crate::listing::Kind::*;
use crate::listing::Matrix::*;
use crate::listing::{Kind, Size};
use crate::loading::{addresses, load, moved_tile, store};
use crate::machine::{buffers_fit, lengths_permitted, register_element, Bench, Machine};
use crate::moves::{self, Vectors};
use crate::reckoning::{add_or_subtract, multiply, scale};
use crate::seals::sealed;
use crate::settings::{
    maccq, maximum, mtype_can_arise, set_size, set_type, sew, tile_size, MILL, RULES,
};
use crate::tiles::{sources, Tile};
use crate::words::{decode, Instruction};

#[derive(Clone, Copy, Debug, PartialEq, Eq)]
pub struct Answer {
    pub number: u64,
    pub row: u64,
    pub column: u64,
}

pub(crate) fn answer(number: u64) -> Answer {
    Answer { number, row: 0, column: 0 }
}

/// Answer 8 of a step and of a run's start, but for the scalars.
pub fn state_at_fault(bench: &Bench) -> bool {
    let machine = &bench.machine;
    if !lengths_permitted(machine.lengths()) {
        return true;
    }
    let above_maximum = [Size::M, Size::K, Size::N]
        .iter()
        .any(|&size| tile_size(machine, size) > maximum(machine, size, 8));
    !buffers_fit(machine.mlen, &bench.registers, &bench.marks)
        || !mtype_can_arise(machine.mtype, machine.elen)
        || above_maximum
        || !machine.seals.permitted()
        || !RULES.contains(&machine.rule)
        || bench.marks.iter().any(|&mark| mark != 0 && mark != 1)
}

/// Answer 3.
pub fn width_rule_broken(kind: Kind, mtype: u64, elen: u64) -> bool {
    let elen = elen as i128;
    let sew = sew(mtype);
    let maccq = maccq(mtype);
    match kind {
        SetType | SetSize(_) => false,
        Load(A | B, eew, _) | Store(A | B, eew, _) => eew != sew,
        Load(C, eew, _) | Store(C, eew, _) => {
            let fits = eew == sew || eew == 2 * sew || (maccq && eew == 4 * sew);
            !fits || eew > elen
        }
        Multiply(f) | Add(f) | Subtract(f) | ReverseSubtract(f) | Scale(f) => match f {
            1 => false,
            2 => 2 * sew > elen,
            _ => !maccq,
        },
        FloatMultiply => sew != 32,
        MoveOut(_) | MoveIn(_) => false,
    }
}

/// Answer 4.
fn size_too_large(instruction: &Instruction, machine: &Machine) -> bool {
    let used: &[Size] = match instruction.row.kind {
        SetType | SetSize(_) => &[],
        Load(A, ..) | Store(A, ..) => &[Size::M, Size::K],
        Load(B, ..) | Store(B, ..) => &[Size::K, Size::N],
        Load(C, ..) | Store(C, ..) => &[Size::M, Size::N],
        Multiply(_) | FloatMultiply => &[Size::M, Size::K, Size::N],
        Add(_) | Subtract(_) | ReverseSubtract(_) | Scale(_) => &[Size::M, Size::N],
        MoveOut(_) | MoveIn(_) => &[Size::M, Size::N],
    };
    let sew = sew(machine.mtype);
    used.iter().any(|&size| tile_size(machine, size) > maximum(machine, size, sew))
}

/// Answer 5: row and column of the first element read that has a byte without
/// a mark.
fn first_unwritten(bench: &Bench, sources: &[Tile]) -> Option<(i128, i128)> {
    for tile in sources {
        for i in 0..tile.rows {
            for j in 0..tile.columns {
                let bytes = register_element(&bench.machine, tile.register, i, j, tile.width);
                if bench.marks[bytes].contains(&0) {
                    return Some((i, j));
                }
            }
        }
    }
    None
}

/// Answer 6.
fn outside_memory(addresses: &[i128], memory: &[u8]) -> bool {
    addresses.iter().any(|&address| address < 0 || address >= memory.len() as i128)
}

/// Answer 13 (request Seven): a store with a byte that belongs to two of its rows in
/// memory. Loads may read a byte twice.
fn stores_over_itself(instruction: &Instruction, machine: &Machine, scalars: &[u64]) -> bool {
    let moved = moved_tile(instruction, machine, scalars);
    matches!(instruction.row.kind, Store(..)) && moved.is_some_and(|placed| placed.rows_meet())
}

/// Answer 7.
fn writes_sealed_byte(instruction: &Instruction, machine: &Machine, addresses: &[i128]) -> bool {
    matches!(instruction.row.kind, Store(..)) && addresses.iter().any(|&a| sealed(machine, a))
}

/// One instruction word that is no move: nothing is left in a vector file.
pub fn step(word: u32, bench: &mut Bench, scalars: &mut [u64]) -> Answer {
    vector_step(word, bench, scalars, &mut moves::unused())
}

/// One instruction word, with a vector file.
pub fn vector_step(
    word: u32,
    bench: &mut Bench,
    scalars: &mut [u64],
    vectors: &mut Vectors,
) -> Answer {
    if state_at_fault(bench) || scalars.len() != 32 || moves::at_fault(vectors) {
        return answer(8);
    }
    let instruction = match decode(word) {
        Ok(instruction) => instruction,
        Err(number) => return answer(number),
    };
    if moves::misaligned(&instruction, vectors.group) {
        return answer(12);
    }
    if bench.machine.mtype & MILL != 0 && instruction.row.kind != SetType {
        return answer(2);
    }
    if width_rule_broken(instruction.row.kind, bench.machine.mtype, bench.machine.elen) {
        return answer(3);
    }
    if size_too_large(&instruction, &bench.machine)
        || moves::slice_too_large(&instruction, &bench.machine, scalars, vectors.group)
    {
        return answer(4);
    }
    let sources = sources(&instruction, &bench.machine, scalars);
    let unwritten = first_unwritten(bench, &sources)
        .or_else(|| moves::first_unwritten(&instruction, bench, scalars, vectors.group));
    if let Some((row, column)) = unwritten {
        return Answer { number: 5, row: row as u64, column: column as u64 };
    }
    let addresses = addresses(&instruction, &bench.machine, scalars);
    if outside_memory(&addresses, &bench.memory) {
        return answer(6);
    }
    if stores_over_itself(&instruction, &bench.machine, scalars) {
        return answer(13);
    }
    if writes_sealed_byte(&instruction, &bench.machine, &addresses) {
        return answer(7);
    }
    carry_out(&instruction, bench, scalars, vectors);
    answer(0)
}

fn carry_out(
    instruction: &Instruction,
    bench: &mut Bench,
    scalars: &mut [u64],
    vectors: &mut Vectors,
) {
    match instruction.row.kind {
        SetType => set_type(instruction, &mut bench.machine, scalars),
        SetSize(size) => set_size(instruction, size, &mut bench.machine, scalars),
        Load(..) => load(instruction, bench, scalars),
        Store(..) => store(instruction, bench, scalars),
        Multiply(_) => multiply(instruction, bench),
        FloatMultiply => float_multiply(instruction, bench),
        Add(_) | Subtract(_) | ReverseSubtract(_) => add_or_subtract(instruction, bench),
        Scale(_) => scale(instruction, bench, scalars),
        MoveOut(_) => moves::move_out(instruction, bench, scalars, vectors),
        MoveIn(_) => moves::move_in(instruction, bench, scalars, vectors),
    }
}
