//! Faults put into a case or a state, each by chance.

use super::cases::{any_scalar, Case};
use super::machines::{mtypes, raise_sizes, set_size, SIZES, UNKNOWN_ELENS, UNKNOWN_RULES};
use super::ranges::{bad_range, damage_seals, put_seals};
use super::words::{bad_word, lines_of, sizes_of_lines};
use crate::lent::Lent;
use crate::random::Random;
use model::moves::{GROUPS, VECTOR_BITS};
use model::{maximum, sew, Kind, Machine, MILL};

/// Puts faults into a case, each with the given chance.
pub fn put_faults(random: &mut Random, case: &mut Case, percent: u64) {
    let mut machine = case.lent.machine();
    if random.chance(percent + percent / 4) {
        case.word = bad_word(random, case.word);
    }
    if random.chance(percent / 2) {
        machine.mtype = MILL;
    }
    if random.chance(percent) {
        machine.mtype = random.pick(mtypes(machine.elen));
    }
    if random.chance(percent / 2) {
        // The other ELEN, at which mtype can't arise or less is permitted.
        machine.elen = 96 - machine.elen;
    }
    if random.chance(percent) {
        raise_sizes(random, &mut machine);
    }
    if random.chance(2 * percent) {
        put_seals(random, &mut machine, &case.lent);
    }
    case.lent.set_machine(&machine);
    if random.chance(2 * percent) {
        put_move_fault(random, case);
    }
    if random.chance(percent) {
        unmark_some(random, case);
    }
    if random.chance(percent) {
        move_end_of_memory(random, &mut case.lent);
    }
    if random.chance(percent / 2) {
        let slot = random.below(32) as u32;
        case.lent.set_scalar(slot, any_scalar(random));
    }
    if random.chance(percent / 3) {
        put_state_fault(random, &mut case.lent);
    }
}

/// Another group size, or a scalar or a line's length around their bounds; nothing where
/// the word is no move.
fn put_move_fault(random: &mut Random, case: &mut Case) {
    let Ok(instruction) = model::decode(case.word) else {
        return;
    };
    let Some(lines) = lines_of(instruction.row.kind) else {
        return;
    };
    let mut machine = case.lent.machine();
    let (count, elements) = sizes_of_lines(lines);
    match random.below(4) {
        0 => case.lent.group = random.pick(&GROUPS),
        1 => {
            let lines = model::tile_size(&machine, count) as u64;
            let near = lines.wrapping_sub(case.lent.group).wrapping_add(random.below(3));
            let top = u64::MAX - random.below(9);
            let far = random.pick(&[1 << 63, near | 1 << 32, top]);
            let slot = case.word >> 20 & 31;
            case.lent.set_scalar(slot, random.pick(&[near, near, near, far]));
        }
        _ => {
            let full = VECTOR_BITS / sew(machine.mtype);
            let widest = maximum(&machine, elements, 8);
            set_size(&mut machine, elements, (full + random.below(2) as i128).min(widest));
            case.lent.set_machine(&machine);
        }
    }
}

/// Numbers that are no group size of moves.
pub const UNKNOWN_GROUPS: [u64; 16] = [
    0,
    3,
    5,
    6,
    7,
    9,
    10,
    12,
    16,
    32,
    256 + 1,
    (1 << 16) + 2,
    1 << 32,
    (1 << 32) + 8,
    1 << 63,
    u64::MAX,
];

/// Takes marks away: a byte of an element that the word reads, some, or all.
fn unmark_some(random: &mut Random, case: &mut Case) {
    let marks = case.lent.marks.len() as u64;
    match random.below(6) {
        0 => case.lent.marks.fill(0),
        1 => (0..marks as usize).for_each(|at| case.lent.marks[at] = random.below(2) as u8),
        2 => {
            for _ in 0..3 {
                case.lent.marks[random.below(marks) as usize] = 0;
            }
        }
        _ => {
            for _ in 0..random.range(1, 3) {
                unmark_source(random, case);
            }
        }
    }
}

/// Takes the mark of one byte of an element that the word reads.
pub fn unmark_source(random: &mut Random, case: &mut Case) {
    let machine = case.lent.machine();
    let Ok(instruction) = model::decode(case.word) else {
        return;
    };
    let scalars = case.lent.scalar_values();
    if let Kind::MoveOut(_) = instruction.row.kind {
        let read = model::moves::moved_bytes(&instruction, &machine, &scalars, case.lent.group);
        if read.is_empty() {
            return;
        }
        if let Some(mark) = case.lent.marks.get_mut(random.pick(&read).register) {
            *mark = 0;
        }
        return;
    }
    let sources = model::sources(&instruction, &machine, &scalars);
    if sources.is_empty() {
        return;
    }
    let tile = sources[random.below(sources.len() as u64) as usize];
    if tile.rows == 0 || tile.columns == 0 {
        return;
    }
    let i = random.below(tile.rows as u64) as i128;
    let j = random.below(tile.columns as u64) as i128;
    let bytes = model::register_element(&machine, tile.register, i, j, tile.width);
    let at = random.range(bytes.start as u64, bytes.end as u64 - 1) as usize;
    if let Some(mark) = case.lent.marks.get_mut(at) {
        *mark = 0;
    }
}

fn move_end_of_memory(random: &mut Random, lent: &mut Lent) {
    let length = lent.memory.len();
    let new_length = match random.below(4) {
        0 | 1 => length.saturating_sub(1),
        2 => random.below(length as u64 + 1) as usize,
        _ => 0,
    };
    lent.memory.truncate(new_length);
}

/// Puts in a fault of the state (answer 8) of any kind.
pub fn put_state_fault(random: &mut Random, lent: &mut Lent) {
    let kind = random.below(15);
    state_fault(random, lent, kind);
}

/// The same but for the scalars and the vector file, of which a run is lent none.
pub fn put_bench_fault(random: &mut Random, lent: &mut Lent) {
    let kind = random.below(12);
    state_fault(random, lent, kind);
}

fn state_fault(random: &mut Random, lent: &mut Lent, kind: u64) {
    let mut machine = lent.machine();
    match kind {
        0 => {
            let (elen, mlen) = (machine.elen, machine.mlen);
            let bad = [0, 1, 32, 63, 65, 96, 192, 4095, 8192, elen, mlen, 1 << 32, u64::MAX];
            machine.rlen = random.pick(&bad);
            if random.chance(50) {
                no_other_fault(lent, &mut machine);
            }
        }
        1 => {
            let bad = [0, 1, 64, 127, 129, 384, 1 << 17, machine.rlen, 1 << 32, 1 << 63, u64::MAX];
            machine.mlen = random.pick(&bad);
            if random.chance(50) {
                no_other_fault(lent, &mut machine);
            }
        }
        2 => wrong_length(random, &mut lent.registers),
        3 => wrong_length(random, &mut lent.marks),
        4 => {
            let bad = [4, 7, 10, 11, 12, 16, 24, MILL | 1, MILL | 3, MILL | 8, 1 << 62, u64::MAX];
            let bad = if machine.elen == 64 { &bad[..] } else { &[&bad[..], &[3, 9]].concat() };
            machine.mtype = random.pick(bad);
        }
        5 => {
            let size = random.pick(&SIZES);
            let widest = maximum(&machine, size, 8);
            let beyond = random.pick(&[1, 2, 1 << 32, 1 << 63]);
            set_size(&mut machine, size, widest + beyond);
        }
        6 => {
            // A bad range among those that are there, or alone.
            let number = (machine.seals.list().len() as u64).max(1);
            machine.seals.number = number;
            machine.seals.ranges[random.below(number) as usize] = bad_range(random);
        }
        7 => {
            let at = random.below(lent.marks.len().max(1) as u64) as usize;
            let mark = random.pick(&[2, 3, 0x80, 0x81, 0xFE, 0xFF]);
            if let Some(byte) = lent.marks.get_mut(at) {
                *byte = mark;
            }
        }
        8 => machine.rule = random.pick(&UNKNOWN_RULES),
        9 => {
            // None, or one that is not below RLEN.
            let none = random.pick(&UNKNOWN_ELENS);
            machine.elen = random.pick(&[none, none, machine.rlen]);
        }
        10 => {
            lent.set_machine(&machine);
            wrong_length(random, &mut lent.machine);
            return;
        }
        11 => damage_seals(random, &mut machine.seals),
        12 => wrong_length(random, &mut lent.scalars),
        13 => wrong_length(random, &mut lent.vectors),
        _ => lent.group = random.pick(&UNKNOWN_GROUPS),
    }
    lent.set_machine(&machine);
}

/// Sizes and buffers as bad lengths would demand them, so that nothing else
/// is at fault.
fn no_other_fault(lent: &mut Lent, machine: &mut Machine) {
    (machine.tile_m, machine.tile_k, machine.tile_n) = (0, 0, 0);
    if machine.mlen <= 1 << 17 {
        let length = model::register_bytes(machine.mlen);
        lent.registers.resize(length, 0);
        lent.marks.resize(length, 1);
    }
}

/// Another length: one less, one more, none, half, twice.
pub fn wrong_length(random: &mut Random, buffer: &mut Vec<u8>) {
    let length = buffer.len();
    let new_length = match random.below(6) {
        0 | 1 => length.saturating_sub(1),
        2 => length + 1,
        3 => 0,
        4 => length / 2,
        _ => 2 * length + 1,
    };
    buffer.resize(new_length, 0);
}
