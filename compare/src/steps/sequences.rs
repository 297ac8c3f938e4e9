//! Words one after the other on one machine.

use crate::lent::{library_start, numbers_of, second_start, Lent};
use crate::random::Random;
use crate::states::cases::{any_scalar, bench_of, moved_rows, name_lines, WILD_STRIDES};
use crate::states::machines::{good_machine, mtypes};
use crate::states::ranges::number_of_ranges;
use crate::states::words::{any_row, bad_word, group_start, lines_of, sizes_of_lines};
use crate::suite::{check_step, each_case, Context, Outcome};
use crate::tally::{Call, Tally};
use model::moves::{Lines, GROUPS};
use model::{tile_size, Kind, Row, Seal, LISTING};

/// Words one after the other on a started machine: marks build up, and SEW
/// changes between loads.
pub fn sequences(context: &mut Context) -> Outcome {
    let count = 1_200 * context.scale;
    each_case(context, "sequences", count, |_, random, tally| {
        let mut lent = started_machine(random, tally)?;
        for _ in 0..100 {
            let mut word = following_word(random, &mut lent);
            if random.chance(3) {
                word = bad_word(random, word);
            }
            (_, lent) = check_step(word, &lent, tally)?;
        }
        Ok(())
    })
}

/// A machine started by the library, with some memory.
fn started_machine(random: &mut Random, tally: &mut Tally) -> Result<Lent, String> {
    let machine = good_machine(random);
    let mut lent = bench_of(random, &machine);
    lent.memory = random.bytes(2000);
    let ranges: Vec<Seal> = match random.below(3) {
        0 => {
            (0..number_of_ranges(random)).map(|_| (random.below(2000), random.below(20))).collect()
        }
        _ => vec![(0, 0)],
    };
    let mut numbers = numbers_of(&ranges);
    let mut second = lent.clone();
    let given = library_start(machine.lengths(), machine.rule, &mut numbers, &mut lent);
    let expected = second_start(machine.lengths(), machine.rule, &numbers, &mut second);
    if (given, expected) != (0, 0) || lent != second || numbers != numbers_of(&ranges) {
        return Err(format!("a good machine was not started as asked: {machine:?}"));
    }
    tally.count(Call::MachineStart, 0);
    Ok(lent)
}

/// A word that mostly suits the state, with its scalars and the group size set.
pub fn following_word(random: &mut Random, lent: &mut Lent) -> u32 {
    let machine = lent.machine();
    loop {
        let row = likely_row(random);
        if !model::width_rule_broken(row.kind, machine.mtype, machine.elen) || random.chance(3) {
            return word_of_row(random, row, lent);
        }
    }
}

/// The same of a row.
pub fn word_of_row(random: &mut Random, row: &Row, lent: &mut Lent) -> u32 {
    let machine = lent.machine();
    if let Kind::SetType = row.kind {
        // Seldom an illegal value, and back soon.
        let legal = random.pick(mtypes(machine.elen));
        let mtype = if random.chance(95) { legal } else { random.below(32) };
        lent.set_scalar(6, mtype);
        return model::assemble(row.name, &[("mtypei", mtype as u32), ("rs1", 6), ("rd", 7)]);
    }
    let (rs1, rs2) = (random.range(1, 15) as u32, random.range(16, 31) as u32);
    if let Some(lines) = lines_of(row.kind) {
        take_group(random, lines, lent);
        name_lines(random, lines, rs2, lent);
    } else if let Some((rows, row_bytes)) = moved_rows(row.kind, &machine) {
        let (address, stride) = place_within(random, rows, row_bytes, lent.memory.len());
        lent.set_scalar(rs1, address);
        lent.set_scalar(rs2, stride as u64);
    } else if random.chance(50) {
        lent.set_scalar(rs1, random.below(70));
        lent.set_scalar(rs2, any_scalar(random));
    }
    let tile = random.below(3) as u32;
    let accumulator = random.below(2) as u32;
    let vector = group_start(random, lent.group);
    let (md, ms1) = match row.kind {
        Kind::Load(model::Matrix::C, ..) | Kind::Store(model::Matrix::C, ..) => (accumulator, 0),
        Kind::Load(..) | Kind::Store(..) => (tile, 0),
        Kind::Multiply(_) | Kind::FloatMultiply => (accumulator, random.below(3) as u32),
        _ => (accumulator, random.below(2) as u32),
    };
    let operands = [
        ("rs1", if random.chance(90) { rs1 } else { 0 }),
        ("rs2", rs2),
        ("rd", random.below(32) as u32),
        ("md", md),
        ("ms3", md),
        ("ms1", ms1),
        ("ms2", random.below(3) as u32),
        ("vd", vector),
        ("vs1", vector),
        ("imm", random.below(32) as u32),
        ("mleni", random.below(70) as u32),
    ];
    model::assemble(row.name, &operands)
}

/// A group size, mostly one of which the tile has as many lines.
fn take_group(random: &mut Random, lines: Lines, lent: &mut Lent) {
    let count = tile_size(&lent.machine(), sizes_of_lines(lines).0) as u64;
    let fitting = GROUPS.iter().filter(|&&group| group <= count).count();
    let among = if random.chance(95) { fitting.max(1) } else { GROUPS.len() };
    lent.group = random.pick(&GROUPS[..among]);
}

/// Loads more often than the rest.
fn likely_row(random: &mut Random) -> &'static Row {
    let row = any_row(random);
    if random.chance(60) || matches!(row.kind, Kind::Load(..)) {
        return row;
    }
    let loads: Vec<&Row> =
        LISTING.iter().filter(|row| matches!(row.kind, Kind::Load(..))).collect();
    random.pick(&loads)
}

/// An address and a stride whose rows mostly lie in a memory of this length.
fn place_within(random: &mut Random, rows: i128, row_bytes: i128, memory: usize) -> (u64, i64) {
    let stride = match random.below(10) {
        0..=2 => random.below(40) as i64,
        3 | 4 => row_bytes as i64 + random.below(10) as i64,
        5 | 6 => -(row_bytes as i64) - random.below(10) as i64,
        7 | 8 => -(random.below(40) as i64),
        _ => random.pick(&WILD_STRIDES),
    };
    let spread = (rows - 1).max(0) * stride as i128;
    let room = memory as i128 - spread.abs() - row_bytes;
    if room < 0 {
        return (random.below(memory as u64 + 1), stride);
    }
    let low = random.range(0, room as u64) as i128;
    ((low + (-spread).max(0)) as u64, stride)
}
