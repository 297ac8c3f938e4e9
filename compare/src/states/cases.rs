//! A word and what it is lent, made so that it would be done.

use super::float_numbers;
use super::machines::{machine_fitting, set_size, size_up_to};
use super::ranges::idle_seals;
use super::words::{good_operands, lines_of, operand, sizes_of_lines};
use crate::lent::{machine_block, words_to_bytes, Lent};
use crate::library;
use crate::random::Random;
use model::moves::{Lines, GROUPS, VECTOR_BITS};
use model::{maximum, sew, Kind, Machine, Row, Seals};

pub struct Case {
    pub word: u32,
    pub lent: Lent,
}

/// Register bytes: any, or those at the ends of the number range.
pub fn register_content(random: &mut Random, length: usize) -> Vec<u8> {
    if random.chance(60) {
        return random.bytes(length);
    }
    let bytes: &[u8] = match random.below(3) {
        0 => &[0x80],
        1 => &[0x7F, 0xFF],
        _ => &[0x00, 0x80, 0xFF, 0x7F],
    };
    (0..length).map(|_| random.pick(bytes)).collect()
}

/// A number that a scalar may hold: small, at an end, or any.
pub fn any_scalar(random: &mut Random) -> u64 {
    match random.below(8) {
        0..=2 => random.below(40),
        3 => (random.below(40) as i64).wrapping_neg() as u64,
        4 => 1 << random.below(64),
        5 => (1u64 << random.below(64)).wrapping_sub(1),
        6 => random.pick(&[u64::MAX, 1 << 63, (1 << 63) - 1, 1 << 32, 1 << 16, 1 << 8]),
        _ => random.next(),
    }
}

/// A bench around a machine: all bytes marked, no memory yet. In place of one range that
/// seals nothing it may have others that seal nothing.
pub fn bench_of(random: &mut Random, machine: &Machine) -> Lent {
    let length = model::register_bytes(machine.mlen);
    let mut machine = *machine;
    if machine.seals == Seals::of(&[(0, 0)]) {
        machine.seals = idle_seals(random);
    }
    let scalars: Vec<u64> = (0..32).map(|_| any_scalar(random)).collect();
    Lent {
        machine: machine_block(&machine),
        registers: register_content(random, length),
        marks: vec![1; length],
        scalars: words_to_bytes(&scalars),
        memory: vec![],
        vectors: random.bytes(library::VECTORS_BYTES),
        group: random.pick(&GROUPS),
    }
}

pub const WILD_STRIDES: [i64; 10] = [
    i64::MIN,
    i64::MIN + 1,
    i64::MAX,
    1 << 62,
    -(1 << 62),
    1 << 32,
    -(1 << 32),
    1 << 16,
    -(1 << 16),
    0x0123_4567_89AB_CDEF,
];

/// A stride under which the last of `rows` rows would come round to the first
/// if addresses wrapped.
pub fn wrapping_stride(random: &mut Random, rows: i128) -> i64 {
    let gaps = (rows - 1).max(2);
    let rounds = random.range(1, (gaps - 1) as u64) as i128;
    ((rounds << 64) / gaps) as i64
}

/// Address, stride and memory length for rows of `row_bytes` bytes, in memory.
pub fn place_rows(random: &mut Random, rows: i128, row_bytes: i128) -> (u64, i64, usize) {
    let gap = random.below(10) as i64;
    let step = row_bytes as i64;
    let stride = match random.below(12) {
        0..=3 => step,
        4 | 5 => step + gap,
        6 => random.below(row_bytes.max(1) as u64) as i64,
        7 => -step,
        8 => -step - gap,
        9 => -(random.below(row_bytes.max(1) as u64) as i64),
        10 => wrapping_stride(random, rows),
        _ => random.pick(&WILD_STRIDES),
    };
    let spread = (rows - 1).max(0) * stride as i128;
    let extent = spread.abs() + row_bytes;
    if rows == 0 || row_bytes == 0 || extent > 20_000.max(2 * rows * row_bytes) {
        // No element, or no memory that could hold it.
        return (any_scalar(random), stride, random.below(64) as usize);
    }
    let slack = if random.chance(50) { 0 } else { random.below(40) as i128 };
    let before = match random.below(3) {
        0 => 0,
        1 => slack,
        _ => random.range(0, slack as u64) as i128,
    };
    let address = before + (-spread).max(0);
    (address as u64, stride, (extent + slack) as usize)
}

/// Rows in memory of the tile that a load or store moves, and the bytes of one.
pub fn moved_rows(kind: Kind, machine: &Machine) -> Option<(i128, i128)> {
    let (Kind::Load(matrix, eew, form) | Kind::Store(matrix, eew, form)) = kind else {
        return None;
    };
    let (rows, columns) = model::memory_shape(matrix, form);
    let row_bytes = model::tile_size(machine, columns) * eew / 8;
    Some((model::tile_size(machine, rows), row_bytes))
}

/// A value asked for by a setting word: near the limits, or any.
fn asked_value(random: &mut Random, kind: Kind, machine: &Machine) -> u64 {
    match kind {
        Kind::SetType => match random.below(4) {
            0 | 1 => random.below(17),
            2 => random.below(16) | 1 << random.range(4, 63),
            _ => any_scalar(random),
        },
        Kind::SetSize(size) if random.chance(60) => {
            random.below(2 * maximum(machine, size, sew(machine.mtype)) as u64 + 3)
        }
        _ => any_scalar(random),
    }
}

/// A multiplier: with low bits of 0, at an end, or any.
pub fn multiplier(random: &mut Random) -> u64 {
    let ends = [0x80, 0x7F, 0x8000, 0x7FFF, 0x8000_0000, 0x7FFF_FFFF, 1 << 63, (1 << 63) - 1];
    match random.below(4) {
        0 => random.next() << random.pick(&[8, 16, 32, 63]),
        1 if random.chance(30) => random.pick(&[0, 1, u64::MAX]),
        1 => random.pick(&ends),
        _ => any_scalar(random),
    }
}

/// A case that is done, or nearly so (x0 as an address may lie outside).
pub fn good_case(random: &mut Random, row: &'static Row) -> Case {
    let machine = machine_fitting(random, row.kind);
    case_of(random, row, &machine)
}

/// The same on a machine.
pub fn case_of(random: &mut Random, row: &'static Row, machine: &Machine) -> Case {
    let mut lent = bench_of(random, machine);
    let operands = good_operands(random, row.kind, lent.group);
    let word = model::assemble(row.name, &operands);
    aim(random, row.kind, &operands, &mut lent);
    Case { word, lent }
}

/// Sets the scalars that a word reads, the memory or the lines that it moves, or the
/// float numbers that it multiplies.
fn aim(random: &mut Random, kind: Kind, operands: &[(&str, u32)], lent: &mut Lent) {
    let machine = lent.machine();
    let (rs1, rs2) = (operand(operands, "rs1"), operand(operands, "rs2"));
    if let Some(lines) = lines_of(kind) {
        size_lines(random, lines, lent);
        name_lines(random, lines, rs2, lent);
    } else if let Some((rows, row_bytes)) = moved_rows(kind, &machine) {
        let (address, stride, length) = place_rows(random, rows, row_bytes);
        lent.memory = random.bytes(length);
        lent.set_scalar(rs2, stride as u64);
        lent.set_scalar(rs1, address);
    } else if let Kind::Scale(_) = kind {
        lent.set_scalar(rs2, multiplier(random));
    } else if let Kind::FloatMultiply = kind {
        lent.registers = float_numbers::registers(random, machine.mlen);
    } else {
        lent.set_scalar(rs1, asked_value(random, kind, &machine));
    }
}

/// Sizes at which a move is done: as many lines as the group at least, which is made
/// smaller where the machine has no tile of so many, of up to 128 bits each.
fn size_lines(random: &mut Random, lines: Lines, lent: &mut Lent) {
    let mut machine = lent.machine();
    let width = sew(machine.mtype);
    let (count, elements) = sizes_of_lines(lines);
    let most = maximum(&machine, count, width) as u64;
    while lent.group > most {
        lent.group /= 2;
    }
    let any = random.range(lent.group, most);
    set_size(&mut machine, count, random.pick(&[any, any, most]) as i128);
    let longest = maximum(&machine, elements, width).min(VECTOR_BITS / width);
    set_size(&mut machine, elements, size_up_to(random, longest));
    lent.set_machine(&machine);
}

/// A scalar from which on a tile has as many lines as the group, often the last.
pub fn name_lines(random: &mut Random, lines: Lines, slot: u32, lent: &mut Lent) {
    let count = model::tile_size(&lent.machine(), sizes_of_lines(lines).0) as u64;
    let last = count.saturating_sub(lent.group);
    let any = random.range(0, last);
    lent.set_scalar(slot, random.pick(&[0, any, any, last]));
}
