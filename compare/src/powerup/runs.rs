//! Power-up contents never matter in product runs either: starts, turns and whole
//! runs on pairs of benches that differ in unmarked register bytes.

use super::pairs::{Met, Pair};
use crate::lent::{
    library_run, library_run_start, library_run_turn, library_run_turns, library_seal, Lent,
};
use crate::library;
use crate::random::Random;
use crate::runs::held::machine_of_case;
use crate::runs::plans::{plan_around, spoil};
use crate::states::ranges::any_range;
use crate::suite::{each_case, Context, Outcome};
use model::Plan;

/// Plans on pairs, some of them spoiled, and marks taken away between turns.
pub fn power_up_runs(context: &mut Context) -> Outcome {
    let count = 3_000 * context.scale;
    let (mut started, mut turns, mut unmarked, mut sealed) = (0, 0, 0, 0);
    let cases = each_case(context, "power-up runs", count, |case, random, _| {
        let (plan, lent) = any_plan(random, case);
        let name = format!("{plan:?}");

        let steps = random.bytes(library::STEPS_BYTES);
        let mut whole = Pair::new(random, lent.clone(), steps);
        whole.check_comparison(random)?;
        whole.call(&name, |side| library_run(&plan, &mut side.lent, &mut side.block))?;

        let block = random.bytes(library::RUN_BYTES);
        let mut pair = Pair::new(random, lent, block);
        let given =
            pair.call(&name, |side| library_run_start(&plan, &mut side.lent, &mut side.block))?;
        if given == 0 {
            started += 1;
            many_turns(random, pair.clone(), &name)?;
            let met = single_turns(random, &mut pair, &name)?;
            turns += met[0];
            unmarked += met[5];
            sealed += met[7];
        }
        pair.check_comparison(random)
    })?;
    let text = format!(
        "{cases}, {started} started, {turns} turns done, {unmarked} refused with 5, {sealed} with 7"
    );
    if context.only_case.is_none() && [turns, unmarked, sealed].contains(&0) {
        return Err(text);
    }
    Ok(text)
}

/// A plan on a bench that is not at fault; some are refused.
fn any_plan(random: &mut Random, case: u64) -> (Plan, Lent) {
    let (plan, lent) = plan_around(random, machine_of_case(case));
    if random.chance(20) {
        let (mut spoiled_plan, mut spoiled) = (plan, lent.clone());
        spoil(random, &mut spoiled_plan, &mut spoiled);
        if spoiled.bench().is_some_and(|bench| !model::state_at_fault(&bench)) {
            return (spoiled_plan, spoiled);
        }
    }
    (plan, lent)
}

/// Turn by turn to the end and two past it, or until refused; at times marks
/// are taken away from both sides, and the bytes under them set apart, or a range is added.
fn single_turns(random: &mut Random, pair: &mut Pair, name: &str) -> Result<Met, String> {
    let mut met = Met::default();
    let disturbed = random.chance(40);
    let mut refused = 0;
    while refused < 2 {
        if disturbed && random.chance(10) {
            take_marks(random, pair);
        }
        if disturbed && random.chance(5) {
            let range = any_range(random, pair.0[0].lent.memory.len());
            pair.call(name, |side| library_seal(range, &mut side.lent))?;
        }
        let given = pair.call(name, |side| library_run_turn(&mut side.block, &mut side.lent))?;
        met[(given & 0xFFFF) as usize] += 1;
        refused += u64::from(given != 0);
    }
    Ok(met)
}

/// Takes the marks of one stretch away.
fn take_marks(random: &mut Random, pair: &mut Pair) {
    let length = pair.0[0].lent.marks.len() as u64;
    let from = random.below(length);
    let to = random.range(from, (from + length / 8).min(length));
    pair.change(|side| side.lent.marks[from as usize..to as usize].fill(0));
    pair.set_apart(random);
}

/// Many turns by each call, to the end.
fn many_turns(random: &mut Random, mut pair: Pair, name: &str) -> Result<(), String> {
    let most = random.pick(&[3, 20, u64::MAX]);
    let mut done = 1;
    while done > 0 {
        done = pair.call(name, |side| library_run_turns(most, &mut side.block, &mut side.lent))?;
    }
    Ok(())
}
