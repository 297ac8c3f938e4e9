//! Machine blocks with a number of ranges that no machine has, with something where no
//! range is, or with a bad range: 8 in every call that looks at the state.

use crate::lent::{
    library_image_size, library_image_write, library_run, library_run_start, library_run_turn,
    library_run_turns, library_seal, state_text, Lent,
};
use crate::library;
use crate::random::Random;
use crate::runs::plans::small_plan;
use crate::states::cases::bench_of;
use crate::states::faults::put_bench_fault;
use crate::states::machines::{any_machine, lengths};
use crate::states::ranges::{bad_range, BAD_NUMBERS};
use crate::suite::{check_seal, check_step, each_case, Context, Outcome};
use crate::tally::{Call, Tally};
use model::{Machine, Plan, Seal, Seals, MOST_SEALS};

/// A bench and the block of a run, a room for an image or a number of steps.
type Desk = (Lent, Vec<u8>);

/// Every damage: a number above eight, each place beyond the number with a start or a
/// length, and a bad range at each place.
fn ways_of_damage() -> Vec<(usize, fn(&mut Random, &mut Seals, usize))> {
    let mut ways: Vec<(usize, fn(&mut Random, &mut Seals, usize))> = Vec::new();
    for at in 0..BAD_NUMBERS.len() {
        ways.push((at, |_, seals, at| seals.number = BAD_NUMBERS[at]));
    }
    for at in 0..MOST_SEALS {
        ways.push((at, |random, seals, at| seals.ranges[at].0 = 1 << random.below(64)));
        ways.push((at, |random, seals, at| seals.ranges[at].1 = 1 << random.below(64)));
        ways.push((at, |random, seals, at| {
            seals.number = seals.number.max(at as u64 + 1);
            seals.ranges[at] = bad_range(random);
        }));
        // One range less, which is still there.
        ways.push((at, |_, seals, at| {
            seals.ranges[at] = (0, 1);
            seals.number = at as u64;
        }));
    }
    ways
}

/// Each damage on machines of every number of ranges that it can have: 8 in each call,
/// and nothing changes. The same calls are done before the damage.
pub fn damaged_ranges(context: &mut Context) -> Outcome {
    let damages = ways_of_damage();
    let count = (damages.len() * (MOST_SEALS + 1)) as u64 * context.scale;
    let mut refused = 0;
    let cases = each_case(context, "damaged ranges", count, |case, random, tally| {
        let (at, damage) = damages[case as usize % damages.len()];
        let number = case as usize / damages.len() % (MOST_SEALS + 1);
        let (plan, mut lent) = small_plan(random);
        let list: Vec<Seal> = (0..number).map(|at| ((1 << 40) + at as u64, 0)).collect();
        let machine = Machine { seals: Seals::of(&list), ..lent.machine() };
        lent.set_machine(&machine);
        let sealed = if number == MOST_SEALS { 16 } else { 0 };
        calls_on(random, plan, &lent, [0, 0, sealed], tally)?;

        let mut seals = machine.seals;
        damage(random, &mut seals, at);
        // A start or a length where a range is makes another range.
        if model::state_at_fault(&with(&lent, seals).bench().expect("a whole block")) {
            refused += 1;
            calls_on(random, plan, &with(&lent, seals), [8, 8, 8], tally)?;
        }
        Ok(())
    })?;
    let text = format!("{cases}, {refused} of them damaged");
    // A start or a length is damage where no range is, the last one in all numbers but 8.
    let slots = (0..MOST_SEALS).map(|at| 2 * (at as u64 + 1)).sum::<u64>();
    let always = (BAD_NUMBERS.len() + 2 * MOST_SEALS) as u64 * (MOST_SEALS as u64 + 1);
    if context.only_case.is_none() && refused != (slots + always) * context.scale {
        return Err(text);
    }
    Ok(text)
}

fn with(lent: &Lent, seals: Seals) -> Lent {
    let mut lent = lent.clone();
    lent.set_machine(&Machine { seals, ..lent.machine() });
    lent
}

/// All calls that look at the state: the answers of a word and of the others, and of a
/// further range.
fn calls_on(
    random: &mut Random,
    plan: Plan,
    lent: &Lent,
    [stepped, called, sealed]: [u64; 3],
    tally: &mut Tally,
) -> Result<(), String> {
    let word = model::assemble("msettypei", &[("mtypei", 1)]);
    let (given, _) = check_step(word, lent, tally)?;
    if given != stepped {
        return Err(format!("a word gives {given}, not {stepped}\n{}", state_text(lent)));
    }
    // A run that was started before the damage.
    let mut run = vec![0; library::RUN_BYTES];
    library_run_start(&plan, &mut with(lent, Seals::default()), &mut run);
    let kind = plan.kind;
    let calls: [(Call, usize, Box<dyn Fn(&mut Desk) -> u64>); 6] = [
        (Call::RunStart(kind), library::RUN_BYTES, {
            Box::new(move |(lent, block)| library_run_start(&plan, lent, block))
        }),
        (Call::WholeRun(kind), library::STEPS_BYTES, {
            Box::new(move |(lent, block)| library_run(&plan, lent, block))
        }),
        (Call::RunTurn(kind), 0, Box::new(|(lent, block)| library_run_turn(block, lent))),
        (Call::ImageSize, 1, Box::new(|(lent, _)| library_image_size(lent) & 0xFFFF)),
        (Call::ImageWrite, 140_000, {
            Box::new(|(lent, block)| library_image_write(lent, block) & 0xFFFF)
        }),
        (Call::Seal, 1, Box::new(|(lent, _)| library_seal((5, 0), lent))),
    ];
    for (name, length, call) in calls {
        let block = if length == 0 { run.clone() } else { random.bytes(length) };
        let mut desk = (lent.clone(), block.clone());
        let given = call(&mut desk);
        let expected = match name {
            Call::Seal => sealed,
            _ => called,
        };
        if given != expected || given != 0 && desk != (lent.clone(), block) {
            return Err(format!(
                "{name:?} gives {given}, not {expected}, or bytes change\n{}",
                state_text(lent)
            ));
        }
        tally.count(name, given);
    }
    // Many turns: none is done.
    let mut desk = (lent.clone(), run.clone());
    let done = library_run_turns(3, &mut desk.1, &mut desk.0);
    if (done == 0) != (called == 8) || done == 0 && desk != (lent.clone(), run) {
        return Err(format!("{done} turns of 3 are done\n{}", state_text(lent)));
    }
    Ok(())
}

/// Further ranges on states with a fault of any kind: 8, also where a ninth would get 16
/// or the range is bad too.
pub fn faulty_seals(context: &mut Context) -> Outcome {
    let count = 4_000 * context.scale;
    each_case(context, "faulty seals", count, |_, random, tally| {
        let lengths = lengths(random);
        let mut lent = {
            let machine = any_machine(random, lengths);
            bench_of(random, &machine)
        };
        let number = random.pick(&[0, 1, 7, MOST_SEALS]);
        let list: Vec<Seal> = (0..number).map(|at| (random.next() >> 1, at as u64)).collect();
        lent.set_machine(&Machine { seals: Seals::of(&list), ..lent.machine() });
        let range = if random.chance(80) { (random.next() >> 1, 9) } else { bad_range(random) };
        let (sound, _) = check_seal(range, &lent, tally)?;
        put_bench_fault(random, &mut lent);
        let (given, after) = check_seal(range, &lent, tally)?;
        let at_fault = lent.bench().is_none_or(|bench| model::state_at_fault(&bench));
        if given != if at_fault { 8 } else { sound } || at_fault && after != lent {
            return Err(format!("{range:?} gets {given}, or bytes change\n{}", state_text(&lent)));
        }
        Ok(())
    })
}
