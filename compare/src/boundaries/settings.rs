//! Setting words, mtype, widths, and the state.

use super::rows::{case_on, machine_for, machine_for_on, row_where};
use super::Made;
use crate::random::Random;
use crate::states::cases::{bench_of, good_case, Case};
use crate::states::faults::put_state_fault;
use crate::states::machines::{good_machine, lengths, lengths_at_64, raise_sizes, set_size, SIZES};
use crate::states::words::{any_row, left_out_word};
use model::{maximum, sew, Kind, MILL};

/// Every size below, at and above its maximum, as far as it can be.
pub fn both_x0(random: &mut Random) -> Made {
    let name = random.pick(&["msettilem", "msettilek", "msettilen"]);
    let mut machine = good_machine(random);
    for size in SIZES {
        let limit = maximum(&machine, size, sew(machine.mtype));
        let widest = maximum(&machine, size, 8);
        let any = random.range(0, widest as u64) as i128;
        let value = random.pick(&[0, limit - 1, limit, (limit + 1).min(widest), widest, any]);
        set_size(&mut machine, size, value);
    }
    let lent = bench_of(random, &machine);
    (Case { word: model::assemble(name, &[]), lent }, 0)
}

pub fn both_x0_and_mill(random: &mut Random) -> Made {
    let (mut case, _) = both_x0(random);
    let mut machine = case.lent.machine();
    machine.mtype = MILL;
    case.lent.set_machine(&machine);
    (case, 2)
}

pub fn asked_maximum(random: &mut Random) -> Made {
    let name = random.pick(&["msettilem", "msettilek", "msettilen", "msettype"]);
    let machine = good_machine(random);
    let lent = bench_of(random, &machine);
    let word = model::assemble(name, &[("rd", random.range(1, 31) as u32)]);
    (Case { word, lent }, 0)
}

pub fn new_mtype(random: &mut Random) -> Made {
    let row = row_where(random, |row| row.kind == Kind::SetType);
    let mut machine = good_machine(random);
    if random.chance(20) {
        machine.mtype = MILL;
    }
    let mut lent = bench_of(random, &machine);
    let value = match random.below(3) {
        0 => random.below(16),
        1 => random.below(16) | 1 << random.range(4, 63),
        _ => random.next(),
    };
    lent.set_scalar(1, value);
    let operands = [("rs1", 1), ("mtypei", value as u32), ("rd", random.below(3) as u32)];
    (Case { word: model::assemble(row.name, &operands), lent }, 0)
}

pub fn mill_set(random: &mut Random) -> Made {
    let row = any_row(random);
    let mut case = good_case(random, row);
    let mut machine = case.lent.machine();
    machine.mtype = MILL;
    case.lent.set_machine(&machine);
    (case, if row.kind == Kind::SetType { 0 } else { 2 })
}

/// 3 at ELEN 32, whatever mtype is; done at ELEN 64, where mtype permits it.
pub fn of_64_bits(random: &mut Random) -> Made {
    let row = row_where(random, |row| row.name.contains("64"));
    let mut lengths = lengths(random);
    if random.chance(50) {
        lengths = random.pick(&lengths_at_64());
    }
    let machine = machine_for_on(random, row, lengths);
    (case_on(random, row, &machine), if lengths.2 == 64 { 0 } else { 3 })
}

/// 3, also where a size is above its maximum or an element is not marked.
pub fn float_at_another_sew(random: &mut Random) -> Made {
    let row = row_where(random, |row| row.kind == Kind::FloatMultiply);
    let mut machine = machine_for(random, row);
    let others: &[u64] = if machine.elen == 64 { &[0, 1, 3, 8, 9] } else { &[0, 1, 8] };
    machine.mtype = random.pick(others);
    if random.chance(50) {
        raise_sizes(random, &mut machine);
    }
    let mut case = case_on(random, row, &machine);
    if random.chance(50) {
        case.lent.marks.fill(0);
    }
    (case, 3)
}

pub fn faulty_state(random: &mut Random) -> Made {
    let row = any_row(random);
    let mut case = good_case(random, row);
    if random.chance(20) {
        let words = [random.next() as u32, left_out_word(random)];
        case.word = random.pick(&words);
    }
    put_state_fault(random, &mut case.lent);
    (case, 8)
}
