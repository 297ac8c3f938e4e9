//! A run started by both programs and held to the second: turn by turn, the words alone,
//! many turns at once, whole runs in one call, and the product.

use crate::lent::{
    bytes_to_words, differences, handed_block, handed_of, library_run, library_run_start,
    library_run_turn, library_run_turns, library_step, packed, report, second_run_start,
    second_run_turn, second_run_turns, state_text, words_to_bytes, Lent, ELEN, RULE,
};
use crate::library;
use crate::random::Random;
use crate::states::machines::usual_lengths;
use crate::tally::{Call, Tally};
use model::{Lengths, Machine, Matrix, Plan, Run};

/// A run that both programs started.
pub struct Started {
    pub plan: Plan,
    pub lent: Lent,
    pub block: Vec<u8>,
    pub run: Run,
}

/// Starts a run on both programs; `None` if both refuse it.
pub fn start_both(
    random: &mut Random,
    plan: Plan,
    mut lent: Lent,
    tally: &mut Tally,
) -> Result<Option<Started>, String> {
    let before = random.bytes(library::RUN_BYTES);
    let mut block = before.clone();
    let held = lent.clone();
    let given = library_run_start(&plan, &mut lent, &mut block);
    let second = second_run_start(&plan, &held);
    let expected = second.as_ref().err().copied().unwrap_or(0);
    if given != expected || held != lent || (given != 0 && block != before) {
        return Err(format!(
            "start of {plan:?}: library {given}, second program {expected}, run block {}, \
             bench {}\n{}",
            if block == before { "unchanged" } else { "changed" },
            if held == lent { "unchanged" } else { "changed" },
            state_text(&held),
        ));
    }
    tally.run(Call::RunStart, plan.kind, given);
    if given == 9 {
        let reasons = model::overlaps(&plan, &lent.machine());
        if let [at] = (0..4).filter(|&at| reasons[at]).collect::<Vec<_>>()[..] {
            tally.overlaps[plan.kind as usize][at] += 1;
        }
    }
    if given == 0 {
        let (numbers, Machine { rule, elen, .. }) = (bytes_to_words(&block), lent.machine());
        if (numbers[RULE], numbers[ELEN]) != (rule, elen) {
            return Err(format!("{plan:?}: the block has another rule or ELEN than the machine"));
        }
    }
    Ok(second.ok().map(|run| Started { plan, lent, block, run }))
}

/// Starts a plan that was made to be accepted.
pub fn start_good(
    random: &mut Random,
    (plan, lent): (Plan, Lent),
    tally: &mut Tally,
) -> Result<Started, String> {
    start_both(random, plan, lent, tally)?
        .ok_or_else(|| format!("a plan meant to be good was refused by both: {plan:?}"))
}

/// Every machine within the bounds of document 01 in turn, of either ELEN.
pub fn machine_of_case(case: u64) -> Lengths {
    let lengths = usual_lengths();
    lengths[case as usize % lengths.len()]
}

/// A run in every way that it can be carried out.
pub fn check_run(random: &mut Random, started: Started, tally: &mut Tally) -> Result<(), String> {
    let Started { plan, lent, block, run } = started;
    let count = model::step_count(&plan, &lent.machine());
    if run.steps.len() as u64 != count {
        return Err(format!("{plan:?}: {} steps, by the formula {count}", run.steps.len()));
    }
    let (after, block_after) = turn_by_turn(&plan, &lent, &block, &run, tally)?;
    words_alone(&plan, &block, &run, &block_after, tally)?;
    turns_in_parts(random, &plan, &lent, &block, &after, &block_after, count)?;
    if random.chance(25) {
        words_by_step(&plan, &lent, &block, &after)?;
    }
    whole_run(random, &plan, &lent, 0, &after, count, tally)?;
    check_product(&plan, &lent.memory, &after.memory)?;
    for (mut block, place) in [(block, "before the first"), (block_after, "after the last")] {
        let steps = library::run_steps(&mut block);
        if steps != count {
            return Err(format!("{plan:?}: run_steps gives {steps} {place} turn, not {count}"));
        }
    }
    let Machine { rule, elen, .. } = lent.machine();
    tally.ran(plan.kind, rule, elen);
    Ok(())
}

/// One turn on both programs.
pub fn check_turn(
    plan: &Plan,
    block: &mut [u8],
    run: &mut Run,
    lent: &mut Lent,
    tally: &mut Tally,
) -> Result<u64, String> {
    let before = lent.clone();
    let block_before = block.to_vec();
    let place = run.place;
    let given = library_run_turn(block, lent);
    let mut second = before.clone();
    let answer = second_run_turn(run, &mut second);
    let moved = run.place != place;
    if given != packed(answer) || *lent != second || (*block != block_before[..]) != moved {
        return Err(format!(
            "{plan:?}\nturn at place {place}: {}\nrun block {}, expected to be {}\n{}",
            run.steps.get(place).map_or("past the end".to_string(), |step| {
                format!("{:#010x} {}", step.word, model::describe(step.word))
            }),
            if *block != block_before[..] { "changed" } else { "unchanged" },
            if moved { "changed" } else { "unchanged" },
            report(&before, given, lent, packed(answer), &second)
        ));
    }
    tally.run(Call::RunTurn, plan.kind, answer.number);
    Ok(answer.number)
}

/// All turns and two past the end; what they leave, with the run block.
fn turn_by_turn(
    plan: &Plan,
    lent: &Lent,
    block: &[u8],
    run: &Run,
    tally: &mut Tally,
) -> Result<(Lent, Vec<u8>), String> {
    let (mut lent, mut block, mut run) = (lent.clone(), block.to_vec(), run.clone());
    for turn in 0..run.steps.len() + 2 {
        let number = check_turn(plan, &mut block, &mut run, &mut lent, tally)?;
        let expected = if turn < run.steps.len() { 0 } else { 8 };
        if number != expected {
            return Err(format!("{plan:?}: both give {number} in turn {}", turn + 1));
        }
    }
    Ok((lent, block))
}

/// The words and scalars handed out, and two asked for past the end.
fn words_alone(
    plan: &Plan,
    block: &[u8],
    run: &Run,
    block_after: &[u8],
    tally: &mut Tally,
) -> Result<(), String> {
    let mut block = block.to_vec();
    for place in 0..run.steps.len() + 2 {
        let empty = vec![0xEE; library::STEP_BYTES];
        let mut step = empty.clone();
        let before = block.clone();
        let given = library::run_next(&mut block, &mut step);
        let (expected, expected_step) = match run.steps.get(place) {
            Some(handed) => (0, handed_block(handed)),
            None => (8, empty.clone()),
        };
        if given != expected || step != expected_step || (given != 0 && block != before) {
            return Err(format!(
                "{plan:?}\nstep at place {place}: library {given}, second program {expected}\n{}{}",
                differences("step block", &empty, &step, &expected_step),
                differences("run block, if refused", &before, &block, &before),
            ));
        }
        tally.run(Call::RunNext, plan.kind, given);
    }
    if block != block_after {
        return Err(format!(
            "{plan:?}\nthe run block after asking differs from that after the turns\n{}",
            differences("run block", block_after, &block, block_after)
        ));
    }
    Ok(())
}

/// As many turns by `run_turns`, in parts of any size.
fn turns_in_parts(
    random: &mut Random,
    plan: &Plan,
    lent: &Lent,
    block: &[u8],
    after: &Lent,
    block_after: &[u8],
    count: u64,
) -> Result<(), String> {
    let (mut lent, mut block) = (lent.clone(), block.to_vec());
    let mut left = count;
    while left > 0 {
        let asked = match random.below(4) {
            0 => 0,
            1 => random.range(1, left),
            2 => left,
            _ => random.pick(&[left + 1, left + 1000, u64::MAX]),
        };
        let done = library_run_turns(asked, &mut block, &mut lent);
        if done != asked.min(left) {
            return Err(format!("{plan:?}\n{asked} turns asked with {left} left: {done} done"));
        }
        left -= done;
    }
    let past = library_run_turns(3, &mut block, &mut lent);
    if past != 0 || lent != *after || block != block_after {
        return Err(format!(
            "{plan:?}\n{count} turns at once and {past} past them leave other bytes than one by one\n{}{}",
            differences("run block", block_after, &block, block_after),
            report(after, 0, &lent, 0, after)
        ));
    }
    Ok(())
}

/// The words carried out by the host with `bodlarina_step`.
fn words_by_step(plan: &Plan, lent: &Lent, block: &[u8], after: &Lent) -> Result<(), String> {
    let (mut lent, mut block) = (lent.clone(), block.to_vec());
    let mut step = vec![0; library::STEP_BYTES];
    while library::run_next(&mut block, &mut step) == 0 {
        let handed = handed_of(&step);
        let mut scalars = [0; 32];
        scalars[10] = handed.scalar_10;
        scalars[11] = handed.scalar_11;
        lent.scalars = words_to_bytes(&scalars);
        let given = library_step(handed.word, &mut lent);
        if given != 0 {
            return Err(format!("{plan:?}\nword {:#010x} as a step: {given}", handed.word));
        }
    }
    lent.scalars = after.scalars.clone();
    if lent != *after {
        return Err(format!(
            "{plan:?}\nthe words as steps leave other bytes than the turns\n{}",
            report(after, 0, &lent, 0, after)
        ));
    }
    Ok(())
}

/// C is the product, and no other byte of memory changed.
pub fn check_product(plan: &Plan, before: &[u8], after: &[u8]) -> Result<(), String> {
    let expected = model::product(plan, before);
    let found = model::elements(plan.placed(Matrix::C), after);
    if found != expected {
        return Err(format!("{plan:?}\nC is {found:?}\nexpected {expected:?}"));
    }
    let mut of_c = vec![false; before.len()];
    for (address, _) in plan.placed(Matrix::C).bytes() {
        of_c[address as usize] = true;
    }
    match (0..before.len()).find(|&at| !of_c[at] && before[at] != after[at]) {
        Some(at) => Err(format!("{plan:?}\nbyte {at} is none of C's but changed")),
        None => Ok(()),
    }
}

/// A whole run in one call, held to its answer, what it has to leave and, if it
/// is accepted, the number of its turns.
pub fn whole_run(
    random: &mut Random,
    plan: &Plan,
    before: &Lent,
    answer: u64,
    after: &Lent,
    count: u64,
    tally: &mut Tally,
) -> Result<(), String> {
    let old_steps = random.bytes(library::STEPS_BYTES);
    let (mut lent, mut steps) = (before.clone(), old_steps.clone());
    let given = library_run(plan, &mut lent, &mut steps);
    let expected = if answer == 0 { words_to_bytes(&[count]) } else { old_steps.clone() };
    if given != answer || lent != *after || steps != expected {
        return Err(format!(
            "whole run of {plan:?}\n{}{}",
            differences("steps block", &old_steps, &steps, &expected),
            report(before, given, &lent, answer, after)
        ));
    }
    tally.run(Call::WholeRun, plan.kind, given);
    Ok(())
}

/// All turns at once, compared at the end only: C with a plain triple loop,
/// everything lent with the second program.
pub fn compare_at_end(
    random: &mut Random,
    started: Started,
    tally: &mut Tally,
) -> Result<(), String> {
    let Started { plan, mut lent, mut block, mut run } = started;
    let before = lent.clone();
    let count = model::step_count(&plan, &lent.machine());
    let done = library_run_turns(u64::MAX, &mut block, &mut lent);
    if done != count {
        return Err(format!("{plan:?}\n{done} turns done, by the formula {count}"));
    }
    check_product(&plan, &before.memory, &lent.memory)?;
    let mut second = before.clone();
    second_run_turns(u64::MAX, &mut run, &mut second);
    if lent != second {
        return Err(format!("{plan:?}\n{}", report(&before, 0, &lent, 0, &second)));
    }
    let (held, held_block) = (lent.clone(), block.clone());
    let past = library_run_turn(&mut block, &mut lent);
    if past != 8 || lent != held || block != held_block {
        return Err(format!("{plan:?}\na turn past the end gives {past}, or changes something"));
    }
    whole_run(random, &plan, &before, 0, &lent, count, tally)
}
