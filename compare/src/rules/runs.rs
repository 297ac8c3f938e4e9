//! Runs on machines of either rule (request Eight): the same number of steps and the same
//! product; and unknown rules in machines and in run blocks.

use super::sizes::refused;
use crate::lent::RULE;
use crate::lent::{
    bytes_to_words, library_run, library_run_start, library_run_turn, library_run_turns,
    words_to_bytes, Lent,
};
use crate::library;
use crate::random::Random;
use crate::runs::held::{check_run, machine_of_case, start_good};
use crate::runs::plans::plan_around;
use crate::states::machines::UNKNOWN_RULES;
use crate::suite::{each_case, Context, Outcome};
use crate::tally::{Call, Tally};
use model::{Matrix, Plan, RULES};

/// The bench with another rule.
fn with_rule(lent: &Lent, rule: u64) -> Lent {
    let mut lent = lent.clone();
    let mut machine = lent.machine();
    machine.rule = rule;
    lent.set_machine(&machine);
    lent
}

/// The steps of a whole run and C, by the library.
fn whole(plan: &Plan, lent: &Lent) -> Result<(u64, Vec<Vec<i128>>), String> {
    let (mut lent, mut steps) = (lent.clone(), vec![0; library::STEPS_BYTES]);
    match library_run(plan, &mut lent, &mut steps) {
        0 => Ok((bytes_to_words(&steps)[0], model::elements(plan.placed(Matrix::C), &lent.memory))),
        number => Err(format!("{plan:?} gives {number}")),
    }
}

/// Each plan on a machine of either rule, in every way that a run can be carried out.
pub fn both_rules(context: &mut Context) -> Outcome {
    let count = 900 * context.scale;
    let mut other_words = 0;
    let cases = each_case(context, "both rules", count, |case, random, tally| {
        let (plan, lent) = plan_around(random, machine_of_case(case));
        let benches = RULES.map(|rule| with_rule(&lent, rule));
        let [smaller, halving] = benches.each_ref().map(|lent| whole(&plan, lent));
        if smaller? != halving? {
            return Err(format!("{plan:?}\nthe rules give other counts or products"));
        }
        let [smaller, halving] =
            benches.each_ref().map(|lent| model::run_start(&plan, &lent.bench().expect("whole")));
        other_words += u64::from(smaller != halving);
        for lent in benches {
            let started = start_good(random, (plan, lent), tally)?;
            check_run(random, started, tally)?;
        }
        Ok(())
    })?;
    let text = format!("{cases}, in {other_words} of them the rules have other words");
    if context.only_case.is_none() && other_words == 0 {
        return Err(text);
    }
    Ok(text)
}

/// Good runs on a machine whose rule is none, and blocks of good runs with such a rule.
pub fn unknown_run_rules(context: &mut Context) -> Outcome {
    let count = 100 * UNKNOWN_RULES.len() as u64;
    each_case(context, "unknown run rules", count, |case, random, tally| {
        let rule = UNKNOWN_RULES[case as usize % UNKNOWN_RULES.len()];
        let (plan, lent) = plan_around(random, machine_of_case(case));
        let mut block = random.bytes(library::RUN_BYTES);
        let mut steps = random.bytes(library::STEPS_BYTES);
        let held = (block.clone(), steps.clone());
        refused(rule, lent.clone(), |lent| library_run_start(&plan, lent, &mut block))?;
        tally.run(Call::RunStart, plan.kind, 8);
        refused(rule, lent.clone(), |lent| library_run(&plan, lent, &mut steps))?;
        tally.run(Call::WholeRun, plan.kind, 8);
        if (&block, &steps) != (&held.0, &held.1) {
            return Err(format!("{plan:?} by rule {rule}: a block changes"));
        }
        turns_by(random, rule, &plan, lent, tally)
    })
}

/// A run some turns along, then on a machine with an unknown rule, then with an unknown
/// rule in its block: nothing is handed out or done.
fn turns_by(
    random: &mut Random,
    rule: u64,
    plan: &Plan,
    mut lent: Lent,
    tally: &mut Tally,
) -> Result<(), String> {
    let mut block = vec![0; library::RUN_BYTES];
    let given = library_run_start(plan, &mut lent, &mut block);
    let turns = random.below(model::step_count(plan, &lent.machine()));
    let done = library_run_turns(turns, &mut block, &mut lent);
    if given != 0 || done != turns {
        return Err(format!("{plan:?}: a start gives {given}, {done} turns of {turns} are done"));
    }
    let held = block.clone();
    refused(rule, lent.clone(), |lent| library_run_turn(&mut block, lent))?;
    let many = library_run_turns(5, &mut block, &mut with_rule(&lent, rule));
    tally.run(Call::RunTurn, plan.kind, 8);

    let mut forged = bytes_to_words(&held);
    forged[RULE] = rule;
    let forged = words_to_bytes(&forged);
    let mut run = forged.clone();
    let mut step = [0xEE; library::STEP_BYTES];
    let mut after = lent.clone();
    let given = [
        many,
        library_run_turn(&mut run, &mut after),
        library_run_turns(5, &mut run, &mut after),
        library::run_next(&mut run, &mut step),
        library::run_steps(&mut run),
    ];
    tally.run(Call::RunTurn, plan.kind, 8);
    tally.run(Call::RunNext, plan.kind, 8);
    let unchanged = block == held && run == forged && after == lent;
    if given != [0, 8, 0, 8, 0] || !unchanged || step != [0xEE; library::STEP_BYTES] {
        return Err(format!("{plan:?}, rule {rule}: {given:?}, or bytes change"));
    }
    Ok(())
}
