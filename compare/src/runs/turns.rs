//! Starts and turns: of good plans and of spoiled ones, on machines that are changed between
//! turns, and with rows that meet.

use super::held::{
    check_product, check_run, check_turn, machine_of_case, start_both, start_good, Started,
};
use super::plans::{any_numbers, good_lengths, good_plan, plan_around, spoil};
use crate::lent::{
    library_run_turn, library_run_turns, packed, report, second_run_turn, second_run_turns, Lent,
};
use crate::random::Random;
use crate::states::faults::put_bench_fault;
use crate::states::machines::{any_machine, lengths, mtypes, raise_sizes, usual_lengths};
use crate::states::ranges::put_seals;
use crate::suite::{each_case, Context, Outcome};
use model::{maximum, Handed, Kind, Plan, Run, Size, MILL};

/// Starts of plans that were spoiled; those still accepted are run.
pub fn run_starts(context: &mut Context) -> Outcome {
    each_case(context, "run starts", 9000, |case, random, tally| {
        let lengths = match random.below(4) {
            0 => machine_of_case(case),
            _ => lengths(random),
        };
        let (mut plan, mut lent) = plan_around(random, lengths);
        spoil(random, &mut plan, &mut lent);
        match start_both(random, plan, lent, tally)? {
            Some(started) if case % 8 == 0 => check_run(random, started, tally),
            _ => Ok(()),
        }
    })
}

/// Accepted plans, each turn compared with everything lent.
pub fn turns(context: &mut Context) -> Outcome {
    let count = 8000 * context.scale;
    each_case(context, "turns", count, |case, random, tally| {
        let good = plan_around(random, machine_of_case(case));
        let started = start_good(random, good, tally)?;
        check_run(random, started, tally)
    })
}

/// Turns on a bench that was changed between them: the words are carried out
/// as any other, and a refusal leaves everything as it was.
pub fn disturbed_turns(context: &mut Context) -> Outcome {
    each_case(context, "disturbed turns", 5000, |_, random, tally| {
        let lengths = lengths(random);
        let good = plan_around(random, lengths);
        let Started { plan, mut lent, mut block, mut run } = start_good(random, good, tally)?;
        let quiet = random.below(run.steps.len() as u64 + 1);
        for _ in 0..quiet {
            check_turn(&plan, &mut block, &mut run, &mut lent, tally)?;
        }
        for _ in 0..3 {
            let whole = lent.clone();
            disturb(random, &mut lent);
            check_many_turns(random, &plan, &block, &run, &lent)?;
            check_turn(&plan, &mut block, &mut run, &mut lent, tally)?;
            check_turn(&plan, &mut block, &mut run, &mut lent, tally)?;
            if random.chance(50) {
                lent = whole;
            }
        }
        Ok(())
    })
}

/// `run_turns` on copies, against the second program.
fn check_many_turns(
    random: &mut Random,
    plan: &Plan,
    block: &[u8],
    run: &Run,
    lent: &Lent,
) -> Result<(), String> {
    let asked = random.pick(&[0, 1, 2, 5, u64::MAX]);
    let (mut library, mut block, mut run) = (lent.clone(), block.to_vec(), run.clone());
    let mut second = lent.clone();
    let done = library_run_turns(asked, &mut block, &mut library);
    let expected = second_run_turns(asked, &mut run, &mut second);
    if done != expected || library != second {
        return Err(format!(
            "{plan:?}\n{asked} turns asked at place {}: library {done} done, second program \
             {expected}\n{}",
            run.place,
            report(lent, 0, &library, 0, &second)
        ));
    }
    // The next one is refused, and a single turn names the answer.
    if done < asked {
        let given = library_run_turn(&mut block, &mut library);
        let answer = second_run_turn(&mut run, &mut second);
        if given != packed(answer) || given == 0 {
            return Err(format!(
                "{plan:?}\nafter {done} of {asked} turns: the next gives {given:#x} in the \
                 library, {:#x} in the second program",
                packed(answer)
            ));
        }
    }
    Ok(())
}

fn disturb(random: &mut Random, lent: &mut Lent) {
    let Some(mut machine) = good_lengths(lent) else {
        return;
    };
    match random.below(10) {
        0 => machine.mtype = MILL,
        1 => machine.mtype = random.pick(mtypes(machine.elen)),
        2 | 3 => raise_sizes(random, &mut machine),
        4 => {
            for _ in 0..random.range(1, 40) {
                let at = random.below(lent.marks.len().max(1) as u64) as usize;
                if let Some(mark) = lent.marks.get_mut(at) {
                    *mark = 0;
                }
            }
        }
        5 => lent.memory.truncate(random.below(lent.memory.len() as u64 + 1) as usize),
        6 => put_seals(random, &mut machine, lent),
        // The run keeps the rule it was started with.
        7 => machine.rule ^= 1,
        // And the ELEN; with the other one mtype may be none that can arise.
        8 => machine.elen = 96 - machine.elen,
        _ => return put_bench_fault(random, lent),
    }
    lent.set_machine(&machine);
}

/// Runs whose machine is given a wider tile before the first store of C (request
/// Seven): the turn gets 13 if its rows then meet, and the run goes on to its end
/// once the tile is as it was.
pub fn overlapping_turns(context: &mut Context) -> Outcome {
    let count = 40 * usual_lengths().len() as u64;
    each_case(context, "overlapping turns", count, |case, random, tally| {
        let machine = any_machine(random, machine_of_case(case));
        let (kind, widths) = any_numbers(random, machine.elen);
        let [rows, widest] =
            [Size::M, Size::N].map(|size| maximum(&machine, size, widths.0 as i128) as u64);
        let sizes = [random.range(2, 2 * rows), random.range(0, 3), random.range(1, widest - 1)];
        let good = good_plan(random, &machine, (kind, widths), sizes);
        let Started { plan, mut lent, mut block, mut run } = start_good(random, good, tally)?;
        let before = lent.memory.clone();
        while !stores(&run.steps[run.place]) {
            check_turn(&plan, &mut block, &mut run, &mut lent, tally)?;
        }
        let row_bytes = widest * widths.0 * widths.1 / 8;
        let expected = if plan.c_stride.unsigned_abs() < row_bytes { 13 } else { 0 };
        let mut wide = widened(&lent, widest);
        let (mut wide_block, mut wide_run) = (block.clone(), run.clone());
        let number = check_turn(&plan, &mut wide_block, &mut wide_run, &mut wide, tally)?;
        if number != expected {
            return Err(format!("{plan:?}: both give {number}, the paper {expected}"));
        }
        while run.place < run.steps.len() {
            check_turn(&plan, &mut block, &mut run, &mut lent, tally)?;
        }
        check_product(&plan, &before, &lent.memory)
    })
}

/// Whether a step is a store.
pub fn stores(handed: &Handed) -> bool {
    let instruction = model::decode(handed.word).expect("a good word");
    matches!(instruction.row.kind, Kind::Store(..))
}

/// A bench with more columns, all of them written, and memory beyond them.
fn widened(lent: &Lent, columns: u64) -> Lent {
    let mut wide = lent.clone();
    let mut machine = wide.machine();
    machine.tile_n = columns;
    wide.set_machine(&machine);
    wide.marks.fill(1);
    wide.memory.resize(lent.memory.len() + 512, 0);
    wide
}
