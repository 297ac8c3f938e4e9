//! Tile sizes at their maxima, tiles with no element, and elements without a mark.

use super::rows::{
    case_on, factor, is_multiply, is_scale, is_store, machine_for, row_where, sizes_used,
};
use super::Made;
use crate::random::Random;
use crate::states::cases::{any_scalar, Case, WILD_STRIDES};
use crate::states::faults::unmark_source;
use crate::states::machines::{set_size, SIZES};
use crate::states::ranges::seals_with;
use model::{maximum, sew, Machine, Row, Size};

/// A row and a machine with SEW above 8 and one size above its maximum.
fn too_large(random: &mut Random, used: bool) -> (&'static Row, Machine) {
    loop {
        let row = row_where(random, |row| !sizes_used(row.kind).is_empty());
        let mut machine = machine_for(random, row);
        let size = random.pick(&[Size::K, Size::N]);
        let limit = maximum(&machine, size, sew(machine.mtype));
        let widest = maximum(&machine, size, 8);
        if limit < widest && sizes_used(row.kind).contains(&size) == used {
            let value = random.range(limit as u64 + 1, widest as u64) as i128;
            set_size(&mut machine, size, value);
            return (row, machine);
        }
    }
}

pub fn used_size_too_large(random: &mut Random) -> Made {
    let (row, mut machine) = too_large(random, true);
    // Also where the tile has no element.
    if random.chance(30) {
        machine.tile_m = 0;
    }
    (case_on(random, row, &machine), 4)
}

pub fn unused_size_too_large(random: &mut Random) -> Made {
    let (row, machine) = too_large(random, false);
    (case_on(random, row, &machine), 0)
}

/// No mark anywhere and wild addresses, but no element either.
pub fn no_element(random: &mut Random) -> Made {
    let row = row_where(random, |row| !sizes_used(row.kind).is_empty());
    let mut machine = machine_for(random, row);
    let size = match row.kind {
        _ if is_multiply(row) => random.pick(&[Size::M, Size::N]),
        _ => {
            let used = sizes_used(row.kind);
            random.pick(&used)
        }
    };
    set_size(&mut machine, size, 0);
    machine.seals = seals_with(random, (0, u64::MAX));
    let mut case = case_on(random, row, &machine);
    case.lent.set_scalar(1, any_scalar(random));
    case.lent.set_scalar(2, random.pick(&WILD_STRIDES) as u64);
    case.lent.marks.fill(0);
    case.lent.memory.truncate(random.below(9) as usize);
    (case, 0)
}

/// Reads md alone: its bytes stay as they are.
pub fn no_terms(random: &mut Random) -> Made {
    let row = row_where(random, is_multiply);
    let mut machine = machine_for(random, row);
    machine.tile_k = 0;
    let mut case = case_on(random, row, &machine);
    case.lent.marks[..machine.mlen as usize].fill(0);
    if random.chance(50) {
        return (case, 0);
    }
    unmark_source_of_md(random, &mut case, row);
    (case, 5)
}

/// Takes the mark of a byte of md's C tile in acc0.
fn unmark_source_of_md(random: &mut Random, case: &mut Case, row: &Row) {
    let machine = case.lent.machine();
    let row_bytes = machine.tile_n * factor(row) as u64 * sew(machine.mtype) as u64 / 8;
    let i = random.below(machine.tile_m);
    let at = machine.mlen + i * machine.rlen / 2 + random.below(row_bytes);
    case.lent.marks[at as usize] = 0;
}

fn wider_element_wise(row: &Row) -> bool {
    factor(row) > 1 && !is_multiply(row)
}

pub fn same_register_wider(random: &mut Random) -> Made {
    let row = row_where(random, wider_element_wise);
    let machine = machine_for(random, row);
    let mut case = case_on(random, row, &machine);
    case.lent.set_scalar(2, random.next());
    if random.chance(50) {
        let operands = [("rs2", 2), ("imm", random.below(32) as u32), ("md", 1), ("ms1", 1)];
        case.word = model::assemble(row.name, &operands);
    }
    (case, 0)
}

/// Only the bytes of ms1's elements are marked: md at its width is not, so
/// adds and subtracts meet an unmarked element and multiplies do not.
pub fn same_register_half_marked(random: &mut Random) -> Made {
    let row = row_where(random, wider_element_wise);
    let machine = machine_for(random, row);
    let mut case = case_on(random, row, &machine);
    case.lent.marks.fill(0);
    let row_bytes = machine.tile_n as usize * sew(machine.mtype) as usize / 8;
    for i in 0..machine.tile_m as usize {
        let at = machine.mlen as usize + i * machine.rlen as usize / 2;
        case.lent.marks[at..at + row_bytes].fill(1);
    }
    (case, if is_scale(row) { 0 } else { 5 })
}

pub fn multiplier_0(random: &mut Random) -> Made {
    let row = row_where(random, is_scale);
    let machine = machine_for(random, row);
    let mut case = case_on(random, row, &machine);
    let slot = if random.chance(30) { 0 } else { 2 };
    let operands = [("rs2", slot), ("imm", 0), ("ms1", random.below(2) as u32)];
    case.word = model::assemble(row.name, &operands);
    case.lent.set_scalar(0, random.next());
    // The low SEW bits are 0, whatever stands above them.
    let above = random.next().checked_shl(sew(machine.mtype) as u32);
    case.lent.set_scalar(2, above.unwrap_or(0));
    case.lent.marks.fill(0);
    (case, 0)
}

pub fn multiplier_not_0(random: &mut Random) -> Made {
    let row = row_where(random, is_scale);
    let machine = machine_for(random, row);
    let mut case = case_on(random, row, &machine);
    let imm = random.range(1, 31) as u32;
    case.word = model::assemble(row.name, &[("rs2", 2), ("imm", imm)]);
    case.lent.set_scalar(2, 1 << random.below(sew(machine.mtype) as u64));
    unmark_source(random, &mut case);
    (case, 5)
}

/// One unmarked byte in a tile that is read; its row and column are compared.
pub fn unmarked_element(random: &mut Random) -> Made {
    let row = row_where(random, |row| is_store(row) || factor(row) > 0);
    let machine = machine_for(random, row);
    let mut case = case_on(random, row, &machine);
    let operands = [("ms1", 1), ("ms2", 0), ("imm", 3), ("rs1", 1), ("rs2", 2)];
    case.word = model::assemble(row.name, &operands);
    unmark_source(random, &mut case);
    (case, 5)
}

/// Two unmarked elements of a store, the one further right in the row above: the
/// register's order finds that one, the order of a transposed tile in memory the
/// other.
pub fn two_unmarked_elements(random: &mut Random) -> Made {
    let row = row_where(random, is_store);
    let mut machine = machine_for(random, row);
    for size in SIZES {
        let limit = maximum(&machine, size, sew(machine.mtype));
        set_size(&mut machine, size, random.range(2, limit as u64) as i128);
    }
    let mut case = case_on(random, row, &machine);
    let instruction = model::decode(case.word).expect("a store");
    let [tile] = model::sources(&instruction, &machine, &case.lent.scalar_values())[..] else {
        unreachable!("a store reads one tile");
    };
    let i = random.range(1, tile.rows as u64 - 1) as i128;
    let j = random.range(1, tile.columns as u64 - 1) as i128;
    let (above, left) = (random.below(i as u64) as i128, random.below(j as u64) as i128);
    for (i, j) in [(i, left), (above, j)] {
        let bytes = model::register_element(&machine, tile.register, i, j, tile.width);
        case.lent.marks[random.range(bytes.start as u64, bytes.end as u64 - 1) as usize] = 0;
    }
    (case, 5)
}
