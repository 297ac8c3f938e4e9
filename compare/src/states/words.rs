//! Words of the listing with any operands, and bad ones.

use crate::random::Random;
use model::moves::Lines;
use model::{Kind, Matrix, Row, Size, LEFT_OUT, LISTING};

/// A row of the listing.
pub fn any_row(random: &mut Random) -> &'static Row {
    &LISTING[random.below(LISTING.len() as u64) as usize]
}

/// The register fields of a row, and how many registers each can name.
pub fn register_fields(kind: Kind) -> Vec<(&'static str, u32)> {
    match kind {
        Kind::SetType | Kind::SetSize(_) => vec![],
        Kind::Load(Matrix::C, ..) => vec![("md", 2)],
        Kind::Load(..) => vec![("md", 8)],
        Kind::Store(Matrix::C, ..) => vec![("ms3", 2)],
        Kind::Store(..) => vec![("ms3", 8)],
        Kind::Multiply(_) | Kind::FloatMultiply => vec![("md", 2), ("ms1", 8), ("ms2", 8)],
        Kind::MoveOut(_) => vec![("ms1", 2)],
        Kind::MoveIn(_) => vec![("md", 2)],
        _ => vec![("md", 2), ("ms1", 2)],
    }
}

/// What a move takes of an accumulator; `None` for any other instruction.
pub fn lines_of(kind: Kind) -> Option<Lines> {
    match kind {
        Kind::MoveOut(lines) | Kind::MoveIn(lines) => Some(lines),
        _ => None,
    }
}

/// The size that counts the lines of a tile, and the one that counts a line's elements.
pub fn sizes_of_lines(lines: Lines) -> (Size, Size) {
    match lines {
        Lines::Rows => (Size::M, Size::N),
        Lines::Columns => (Size::N, Size::M),
    }
}

/// A vector register at which a group may start.
pub fn group_start(random: &mut Random, group: u64) -> u32 {
    (group * random.below(32 / group)) as u32
}

/// Operands in range, with slots for scalars that are seldom x0.
pub fn good_operands(random: &mut Random, kind: Kind, group: u64) -> Vec<(&'static str, u32)> {
    let mut slot = || {
        if random.chance(5) {
            0
        } else {
            random.range(1, 31) as u32
        }
    };
    let (rs1, rs2) = (slot(), slot());
    let rd = random.below(32) as u32;
    let tile = [random.below(8) as u32, random.below(8) as u32, random.below(8) as u32];
    let accumulator = [random.below(2) as u32, random.below(2) as u32];
    let (md, ms1) = match kind {
        Kind::Load(Matrix::C, ..) | Kind::Store(Matrix::C, ..) => (accumulator[0], 0),
        Kind::Load(..) | Kind::Store(..) => (tile[0], 0),
        Kind::Multiply(_) | Kind::FloatMultiply => (accumulator[0], tile[1]),
        _ => (accumulator[0], accumulator[1]),
    };
    let vector = group_start(random, group);
    let imm = if random.chance(20) { 0 } else { random.below(32) as u32 };
    let immediate = match random.below(3) {
        0 => random.below(20) as u32,
        1 => 1 << random.below(13),
        _ => random.below(1 << 13) as u32,
    };
    vec![
        ("rs1", rs1),
        ("rs2", rs2),
        ("rd", rd),
        ("md", md),
        ("ms3", md),
        ("ms1", ms1),
        ("ms2", tile[2]),
        ("vd", vector),
        ("vs1", vector),
        ("imm", imm),
        ("mtypei", immediate),
        ("mleni", immediate),
    ]
}

pub fn operand(operands: &[(&str, u32)], name: &str) -> u32 {
    operands.iter().find(|(other, _)| *other == name).expect("a known operand").1
}

/// A word of a row of either table, its operands any bits.
pub fn any_operands(random: &mut Random, name: &str) -> u32 {
    model::assemble(name, &[]) | (random.next() as u32 & !model::fixed_bits(name))
}

/// A word that is left out, its operands any bits.
pub fn left_out_word(random: &mut Random) -> u32 {
    let (name, _) = random.pick(&LEFT_OUT);
    any_operands(random, name)
}

/// A bit of a word's opcode turned over.
fn other_opcode(random: &mut Random, word: u32) -> u32 {
    word ^ 1 << random.below(7)
}

/// A word of ours changed into one that is mostly bad.
pub fn bad_word(random: &mut Random, word: u32) -> u32 {
    match random.below(10) {
        0..=2 => word ^ 1 << random.below(32),
        3 => other_opcode(random, word),
        4 | 5 => left_out_word(random),
        6 => {
            let left_out = left_out_word(random);
            other_opcode(random, left_out)
        }
        // Upper bits of the fields in 24..20, 19..15 and 11..7.
        7 | 8 => word | 1 << random.pick(&[8, 9, 10, 11, 16, 17, 18, 19, 23, 24]),
        _ => (random.next() as u32 & !0x7F) | 0x77,
    }
}
