//! Float runs (request Four): the same plan on every machine, and sums of whole numbers.

use super::numbers::{side, within};
use crate::lent::{
    library_run, library_run_start, library_run_turns, second_run_start, second_run_turns, Lent,
};
use crate::library;
use crate::runs::held::{check_product, machine_of_case};
use crate::runs::plans::{good_plan, packed_plan_of};
use crate::states::cases::bench_of;
use crate::states::float_numbers::whole;
use crate::states::machines::{
    any_machine, larger_lengths, lengths_at_64, old_lengths, usual_lengths, SIZES,
};
use crate::suite::{each_case, Context, Outcome};
use crate::tally::{Call, Tally};
use model::{Matrix, Plan, FLOAT};

const FLOATS: (u64, (u64, u64)) = (FLOAT, (32, 1));

/// A plan, and its memory on every machine of document 01, on one of ELEN 64 and on a
/// larger one: C is the plain sum, whatever the blocks.
pub fn float_runs(context: &mut Context) -> Outcome {
    let count = 40 * context.scale;
    each_case(context, "float runs", count, |case, random, tally| {
        let machine = any_machine(random, machine_of_case(case));
        let mut sizes = SIZES.map(|_| random.range(1, 20));
        sizes[1] = random.range(0, 70);
        let (plan, lent) = good_plan(random, &machine, FLOATS, sizes);
        let more = [random.pick(&lengths_at_64()), random.pick(&larger_lengths())];
        for lengths in old_lengths().into_iter().chain(more) {
            let machine = any_machine(random, lengths);
            let mut other = bench_of(random, &machine);
            other.memory = lent.memory.clone();
            run_on(&plan, &other, tally)?;
        }
        Ok(())
    })
}

/// A run in one call and by many turns, held to the plain sums and, in all that is lent,
/// to the second program's words.
fn run_on(plan: &Plan, before: &Lent, tally: &mut Tally) -> Result<Lent, String> {
    let mut second = before.clone();
    let mut run = second_run_start(plan, before).map_err(|number| format!("refused: {number}"))?;
    let count = second_run_turns(u64::MAX, &mut run, &mut second);
    let (mut whole, mut steps) = (before.clone(), vec![0; library::STEPS_BYTES]);
    let answer = library_run(plan, &mut whole, &mut steps);
    let (mut turned, mut block) = (before.clone(), vec![0; library::RUN_BYTES]);
    library_run_start(plan, &mut turned, &mut block);
    let turns = library_run_turns(u64::MAX, &mut block, &mut turned);
    if answer != 0 || steps != count.to_le_bytes() || turns != count {
        return Err(format!("{plan:?}\nanswer {answer}, {turns} turns, not {count}"));
    }
    tally.run(Call::WholeRun, plan.kind, answer);
    for after in [&second, &whole, &turned] {
        check_product(plan, &before.memory, &after.memory)?;
    }
    if whole != second || turned != second {
        return Err(format!("{plan:?}\nC is right, but something else differs"));
    }
    Ok(whole)
}

/// Whole numbers whose products and partial sums lie within 2^24: C is exactly their
/// sum, with the bits of a whole number (0 is +0).
pub fn whole_float_runs(context: &mut Context) -> Outcome {
    let count = 8 * usual_lengths().len() as u64 * context.scale;
    each_case(context, "whole float runs", count, |case, random, tally| {
        let machine = any_machine(random, machine_of_case(case));
        let sizes = SIZES.map(|_| random.range(1, 40));
        let [m, k, n] = sizes.map(|size| size as usize);
        let (plan, memory) = packed_plan_of(FLOATS.0, FLOATS.1, sizes);
        let most = side(1 << 24, k as u64).min(random.pick(&[4096, 300, 3]));
        let mut numbers =
            |count: usize| -> Vec<i64> { (0..count).map(|_| within(random, most)).collect() };
        let (a, b) = (numbers(m * k), numbers(k * n));
        let mut lent = bench_of(random, &machine);
        lent.memory = random.bytes(memory);
        put_whole(plan.a, &a, &mut lent.memory);
        put_whole(plan.b, &b, &mut lent.memory);
        let after = run_on(&plan, &lent, tally)?;
        let c = model::elements(plan.placed(Matrix::C), &after.memory);
        for (i, j) in (0..m * n).map(|at| (at / n, at % n)) {
            let sum: i64 = (0..k).map(|l| a[i * k + l] * b[l * n + j]).sum();
            if c[i][j] as u32 != whole(sum) {
                return Err(format!("{plan:?}\nC({i}, {j}) is {:#010x}, not {sum}", c[i][j]));
            }
        }
        Ok(())
    })
}

/// The bits of whole numbers, one after the other.
fn put_whole(address: u64, numbers: &[i64], memory: &mut [u8]) {
    for (at, &number) in (address as usize..).step_by(4).zip(numbers) {
        memory[at..at + 4].copy_from_slice(&whole(number).to_le_bytes());
    }
}
