//! Runs on machines with several sealed ranges (request Twelve): answer 9 by each of them,
//! and ranges added between turns.

use super::meets;
use crate::lent::{library_run_turns, state_text, Lent};
use crate::library;
use crate::random::Random;
use crate::runs::held::{
    check_product, check_turn, machine_of_case, start_both, start_good, Started,
};
use crate::runs::plans::{good_plan, harmless_range, plan_around};
use crate::runs::turns::stores;
use crate::states::machines::{any_machine, any_widths, usual_lengths};
use crate::suite::{check_seal, each_case, Context, Outcome};
use crate::tally::{Call, Tally};
use model::{Machine, Matrix, Placed, Plan, Seal, Seals, FLOAT, KINDS, MOST_SEALS};

/// Whether a range has a byte of a matrix or tile in memory.
fn meets_rows(range: Seal, placed: &Placed) -> bool {
    let row_bytes = placed.columns * placed.width / 8;
    row_bytes > 0 && (0..placed.rows).any(|i| meets(range, placed.element(i, 0), row_bytes))
}

/// A plan in which C has elements, on a machine without ranges.
fn plan_with_c(random: &mut Random, case: u64) -> (Plan, Lent) {
    let kind = KINDS[case as usize % KINDS.len()];
    let machine = any_machine(random, machine_of_case(case / KINDS.len() as u64));
    let machine = Machine { seals: Seals::default(), ..machine };
    let widths = if kind == FLOAT { (32, 1) } else { any_widths(random, machine.elen) };
    let sizes = [random.range(1, 9), random.range(0, 5), random.range(1, 9)];
    good_plan(random, &machine, (kind, widths), sizes)
}

fn with_ranges(lent: &Lent, list: &[Seal]) -> Lent {
    let mut lent = lent.clone();
    lent.set_machine(&Machine { seals: Seals::of(list), ..lent.machine() });
    lent
}

/// A byte of one of the rows of a matrix: the first, the last or any.
fn byte_of(random: &mut Random, placed: &Placed) -> u64 {
    let row_bytes = (placed.columns * placed.width / 8) as u64;
    let mut one_of = |count: u64| {
        let any = random.below(count);
        random.pick(&[0, count - 1, any])
    };
    let (row, byte) = (one_of(placed.rows as u64), one_of(row_bytes));
    (placed.element(row as i128, 0) + byte as i128) as u64
}

/// Starts and whole runs with a range around a byte of C as each of eight, among others
/// that hold none: 9 if it has a byte of C, and then by that range alone.
pub fn ranges_of_runs(context: &mut Context) -> Outcome {
    let count = (KINDS.len() * usual_lengths().len() * MOST_SEALS) as u64 * context.scale;
    let mut met = [[0; MOST_SEALS]; 2];
    let cases = each_case(context, "ranges of runs", count, |case, random, tally| {
        let slot = case as usize % MOST_SEALS;
        let (plan, lent) = plan_with_c(random, case / MOST_SEALS as u64);
        let c = plan.placed(Matrix::C);
        let number = random.pick(&[slot + 1, MOST_SEALS]);
        let mut list: Vec<Seal> = Vec::new();
        for _ in 0..number {
            list.push(harmless_range(random, &plan, &lent).unwrap_or((0, 0)));
        }
        let byte = byte_of(random, &c);
        let long = random.range(2, 9);
        for range in [
            (byte, 1),
            (byte, 0),
            (byte, long),
            (byte + 1, 1),
            (byte.saturating_sub(1), 1),
            (byte.saturating_sub(long), long),
            (byte, u64::MAX - byte),
            (byte + 1, u64::MAX - byte - 1),
            (0, byte),
            (0, byte + 1),
            (lent.memory.len() as u64, long),
        ] {
            list[slot] = range;
            let lent = with_ranges(&lent, &list);
            let expected = if meets_rows(range, &c) { 9 } else { 0 };
            let held = (lent.clone(), random.bytes(library::STEPS_BYTES));
            let (mut after, mut steps) = held.clone();
            let whole = crate::lent::library_run(&plan, &mut after, &mut steps);
            tally.run(Call::WholeRun, plan.kind, whole);
            if whole != 0 && (after, steps) != held {
                return Err(format!("{plan:?} with {list:?}: a refusal changes bytes"));
            }
            let started = start_both(random, plan, lent, tally)?;
            if whole != expected || started.is_some() != (expected == 0) {
                return Err(format!("{plan:?} with {list:?} gives {whole}, not {expected}"));
            }
            met[usize::from(expected == 0)][slot] += 1;
        }
        Ok(())
    })?;
    let text = format!("{cases}, by each range {:?} refused, {:?} started", met[0], met[1]);
    if context.only_case.is_none() && met.as_flattened().contains(&0) {
        return Err(text);
    }
    Ok(text)
}

/// Runs to which ranges are added between turns. A turn that would write a sealed byte is
/// refused with 7 and the run stays at its place, again and again; all others are done. If
/// no range has a byte of C, C is the product at the end.
pub fn ranges_added_to_runs(context: &mut Context) -> Outcome {
    let count = 2_500 * context.scale;
    let (mut refused, mut ended, mut ninths) = (0, 0, 0);
    let cases = each_case(context, "ranges added to runs", count, |case, random, tally| {
        let good = match random.below(4) {
            0 => plan_around(random, machine_of_case(case)),
            _ => plan_with_c(random, case),
        };
        let mut started = start_good(random, good, tally)?;
        let plan = started.plan;
        let c = plan.placed(Matrix::C);
        let has_c = c.rows > 0 && c.columns > 0;
        let before = started.lent.memory.clone();
        let chance = random.pick(&[3, 10, 40]);
        let harmful = has_c && random.chance(60);
        let mut met = false;
        while started.run.place < started.run.steps.len() {
            if random.chance(chance) {
                let range = match harmless_range(random, &plan, &started.lent) {
                    _ if harmful && random.chance(40) => (byte_of(random, &c), random.below(3)),
                    Some(range) => range,
                    None => (7, 0),
                };
                let full = started.lent.machine().seals.number == MOST_SEALS as u64;
                let (number, after) = check_seal(range, &started.lent, tally)?;
                if number != if full { 16 } else { 0 } {
                    return Err(format!("range {range:?} gets {number}"));
                }
                ninths += u64::from(full);
                met |= !full && meets_rows(range, &c);
                started.lent = after;
            }
            if !turn(random, &mut started, tally)? {
                refused += 1;
                if start_both(random, plan, started.lent, tally)?.is_some() {
                    return Err(format!("{plan:?} is started on a machine that seals bytes of C"));
                }
                return Ok(());
            }
        }
        ended += 1;
        if met {
            // Sealed after they were written.
            return Ok(());
        }
        check_product(&plan, &before, &started.lent.memory)
    })?;
    let text = format!("{cases}, {refused} runs refused with 7, {ended} ended, {ninths} ninths");
    if context.only_case.is_none() && [refused, ended, ninths].contains(&0) {
        return Err(text);
    }
    Ok(text)
}

/// One turn, held to what its store would write; whether it was done.
fn turn(random: &mut Random, started: &mut Started, tally: &mut Tally) -> Result<bool, String> {
    let handed = started.run.steps[started.run.place];
    let machine = started.lent.machine();
    let tile = Placed {
        address: handed.scalar_10 as i128,
        stride: handed.scalar_11 as i64 as i128,
        rows: machine.tile_m as i128,
        columns: machine.tile_n as i128,
        width: started.plan.placed(Matrix::C).width,
    };
    let writes_sealed = machine.seals.list().iter().any(|&range| meets_rows(range, &tile));
    let expected = if stores(&handed) && writes_sealed { 7 } else { 0 };
    let again = if expected == 7 { 2 } else { 1 };
    for _ in 0..again {
        let held = (started.block.clone(), started.lent.clone());
        let plan = started.plan;
        let given =
            check_turn(&plan, &mut started.block, &mut started.run, &mut started.lent, tally)?;
        let unchanged = (&started.block, &started.lent) == (&held.0, &held.1);
        if given != expected || given != 0 && !unchanged {
            return Err(format!(
                "{plan:?}: both give {given}, the paper {expected}, or bytes change\n{}",
                state_text(&held.1)
            ));
        }
    }
    if expected == 7 {
        let (mut block, mut lent) = (started.block.clone(), started.lent.clone());
        let done = library_run_turns(random.pick(&[1, 5, u64::MAX]), &mut block, &mut lent);
        let mut step = [0; library::STEP_BYTES];
        let next = library::run_next(&mut block.clone(), &mut step);
        if done != 0
            || (&block, &lent) != (&started.block, &started.lent)
            || next != 0
            || crate::lent::handed_of(&step) != handed
        {
            return Err(format!("{:?}: {done} turns are done past a refused one", started.plan));
        }
    }
    Ok(expected == 0)
}
