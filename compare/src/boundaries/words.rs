//! Words that are none of ours, and register fields.

use super::rows::{case_on, lengths_fitting, row_where, sizes_used};
use super::Made;
use crate::random::Random;
use crate::states::cases::{good_case, Case};
use crate::states::faults::put_state_fault;
use crate::states::machines::{machine_fitting_on, mtypes};
use crate::states::words::{any_operands, any_row, left_out_word, register_fields};
use model::{Row, LEFT_OUT, MILL};

/// A bad word where a good one would be done, or mill is set: the word's own
/// answer comes first.
fn instead(random: &mut Random, word: u32) -> Case {
    let row = any_row(random);
    let mut case = good_case(random, row);
    case.word = word;
    if random.chance(30) {
        let mut machine = case.lent.machine();
        machine.mtype = MILL;
        case.lent.set_machine(&machine);
    }
    case
}

/// A row of either table, by name.
fn any_name(random: &mut Random) -> &'static str {
    let names = [any_row(random).name, random.pick(&LEFT_OUT).0];
    random.pick(&names)
}

/// One bit of the opcode is wrong, or more, and maybe another bit too.
pub fn wrong_opcode(random: &mut Random) -> Made {
    let name = any_name(random);
    let mut word = any_operands(random, name);
    if random.chance(30) {
        word ^= 1 << random.range(7, 31);
    }
    word ^= if random.chance(70) { 1 << random.below(7) } else { random.range(1, 0x7F) as u32 };
    (instead(random, word), 10)
}

pub fn left_out(random: &mut Random) -> Made {
    let word = left_out_word(random);
    (instead(random, word), 11)
}

pub fn left_out_but_for_zeros(random: &mut Random) -> Made {
    let rows: Vec<_> = LEFT_OUT.iter().filter(|row| model::has_zeros(row.0)).collect();
    let (name, _) = random.pick(&rows);
    let word = any_operands(random, name);
    let bits = if random.chance(50) { 1 << random.below(5) } else { random.range(1, 31) as u32 };
    (instead(random, word | bits << 20), 1)
}

/// Whatever the registers.
pub fn ours_but_for_zeros(random: &mut Random) -> Made {
    let row = row_where(random, |row| model::has_zeros(row.name));
    let last = if sizes_used(row.kind).is_empty() { 27 } else { 24 };
    let word = any_operands(random, row.name) | 1 << random.range(20, last);
    (instead(random, word), 1)
}

/// Codes between those of the listing and beyond them, those of chapter 6 too.
pub fn no_row(random: &mut Random) -> Made {
    // Bits 14..12, the ends of a range of bits 31..26, and bit 25.
    let ranges = [
        // Moves but for rows 000000 and columns 000100, and a format of no instruction.
        (0b101, (1, 0b000011), random.below(2)),
        (0b101, (0b000101, 0b111111), 0),
        (0b101, (0b000101, 0b111111), 1),
        (0b100, (0, 0b111111), 0),
        (0b100, (0, 0b111111), 1),
        // Settings.
        (0b111, (0b100000, 0b111111), 0),
        (0b111, (0b100000, 0b111111), 1),
        // Loads and stores.
        (random.below(4), (0b000011, 0b000011), 0),
        (random.below(4), (0b000011, 0b000011), 1),
        (random.below(4), (0b000111, 0b111111), 0),
        (random.below(4), (0b000111, 0b111111), 1),
        // Multiplies and element-wise words; with bit 25, where ours have no
        // float form beside them.
        (0b110, (0b000011, 0b000011), 0),
        (0b110, (0b000010, 0b000011), 1),
        (0b110, (0b000110, 0b000110), 1),
        (0b110, (0b001001, 0b001001), 1),
        (0b110, (0b001100, 0b001100), 1),
        (0b110, (0b001111, 0b010111), 1),
        (0b110, (0b010011, 0b010111), 0),
        // Conversions.
        (0b110, (0b011001, 0b011001), 0),
        (0b110, (0b011001, 0b011001), 1),
        (0b110, (0b100000, 0b111111), 0),
        (0b110, (0b100000, 0b111111), 1),
    ];
    let (funct3, (first, last), bit_25) = random.pick(&ranges);
    let code = random.range(first, last) << 26 | bit_25 << 25 | funct3 << 12;
    let word = code as u32 | (random.next() as u32 & 0x01FF_8F80) | 0x77;
    (instead(random, word), 1)
}

/// A word of a row with the given registers, its other operands as in `case_on`.
fn with_registers(random: &mut Random, row: &'static Row, registers: &[(&str, u32)]) -> Case {
    let lengths = lengths_fitting(random, row);
    let machine = machine_fitting_on(random, lengths, row.kind);
    let mut case = case_on(random, row, &machine);
    let operands = [registers, &[("rs1", 1), ("rs2", 2), ("imm", 1)]].concat();
    case.word = model::assemble(row.name, &operands);
    case
}

fn has_registers(row: &Row) -> bool {
    !register_fields(row.kind).is_empty()
}

/// A register field one too high, or higher.
pub fn bad_register(random: &mut Random) -> Made {
    let row = row_where(random, has_registers);
    let (field, registers) = random.pick(&register_fields(row.kind));
    let higher = random.range(registers as u64, 31) as u32;
    let number = random.pick(&[registers, higher]);
    (with_registers(random, row, &[(field, number)]), 12)
}

/// Answers 2 to 7 come after 12, answer 8 before it.
pub fn bad_register_and_more(random: &mut Random) -> Made {
    let (mut case, number) = bad_register(random);
    let mut machine = case.lent.machine();
    let legal = random.pick(mtypes(machine.elen));
    machine.mtype = random.pick(&[legal, legal, MILL]);
    case.lent.set_machine(&machine);
    case.lent.marks.fill(0);
    case.lent.memory.clear();
    if random.chance(30) {
        put_state_fault(random, &mut case.lent);
        return (case, 8);
    }
    (case, number)
}

/// The highest register in every field.
pub fn last_registers(random: &mut Random) -> Made {
    let row = row_where(random, has_registers);
    let last = register_fields(row.kind).into_iter().map(|(field, count)| (field, count - 1));
    (with_registers(random, row, &last.collect::<Vec<_>>()), 0)
}
