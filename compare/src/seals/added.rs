//! Ranges added between words and between the turns of a run: a byte that is sealed at
//! some moment is the same at every later one.

use crate::lent::{library_run_start, library_run_turn, state_text, Lent};
use crate::library;
use crate::random::Random;
use crate::runs::plans::small_plan;
use crate::states::ranges::{any_range, bad_range, number_of_ranges};
use crate::states::words::bad_word;
use crate::steps::sequences::following_word;
use crate::suite::{check_seal, check_step, each_case, Context, Outcome};
use crate::tally::{Call, Tally};
use model::{Plan, Seal, Seals, MOST_SEALS};

/// The ranges entered so far, and of each byte of memory what it held when it was sealed.
struct Ledger {
    list: Vec<Seal>,
    held: Vec<Option<u8>>,
}

impl Ledger {
    fn enter(&mut self, range: Seal, memory: &[u8]) {
        self.list.push(range);
        for (at, byte) in memory.iter().enumerate() {
            let sealed = range.0 <= at as u64 && (at as u64) - range.0 < range.1;
            if sealed && self.held[at].is_none() {
                self.held[at] = Some(*byte);
            }
        }
    }

    /// That the machine has the ranges in order of entry, and memory the sealed bytes.
    fn check(&self, lent: &Lent) -> Result<(), String> {
        if lent.machine().seals != Seals::of(&self.list) {
            return Err(format!("ranges {:?} became others\n{}", self.list, state_text(lent)));
        }
        let changed = |(held, byte): (&Option<u8>, &u8)| held.is_some_and(|held| held != *byte);
        match self.held.iter().zip(&lent.memory).position(changed) {
            Some(at) => Err(format!("byte {at} changed after its sealing\n{}", state_text(lent))),
            None => Ok(()),
        }
    }

    fn sealed(&self) -> usize {
        self.held.iter().flatten().count()
    }
}

/// Lists of words, of turns of runs and of further ranges on one machine. Both programs
/// answer each; the ranges stay in order, and what is sealed stays as it was.
pub fn added_ranges(context: &mut Context) -> Outcome {
    let count = 1_500 * context.scale;
    let (mut sealed, mut by_words, mut by_turns, mut added) = (0, 0, 0, [0; 17]);
    let cases = each_case(context, "added ranges", count, |_, random, tally| {
        let (plan, mut lent) = small_plan(random);
        let mut machine = lent.machine();
        machine.seals = Seals::default();
        lent.set_machine(&machine);
        lent.memory.resize(lent.memory.len() + 200, 7);
        let mut ledger = Ledger { list: vec![], held: vec![None; lent.memory.len()] };
        for _ in 0..number_of_ranges(random) {
            let range = small_range(random, lent.memory.len());
            (_, lent) = check_seal(range, &lent, tally)?;
            ledger.enter(range, &lent.memory);
        }
        let mut run = vec![0; library::RUN_BYTES];
        let mut running = start(&plan, &mut lent, &mut run, tally)?;
        for _ in 0..60 {
            let before = lent.clone();
            match random.below(10) {
                0 => {
                    let range = match random.below(8) {
                        0 => bad_range(random),
                        1 => any_range(random, lent.memory.len()),
                        _ => small_range(random, lent.memory.len()),
                    };
                    let number;
                    (number, lent) = check_seal(range, &lent, tally)?;
                    added[number as usize] += 1;
                    match number {
                        0 => ledger.enter(range, &lent.memory),
                        16 if ledger.list.len() == MOST_SEALS && lent == before => {}
                        8 if range.0.checked_add(range.1).is_none() && lent == before => {}
                        _ => return Err(format!("range {range:?} gets {number}")),
                    }
                }
                1..=4 if running => {
                    let given = library_run_turn(&mut run, &mut lent);
                    tally.run(Call::RunTurn, plan.kind, given & 0xFFFF);
                    by_turns += u64::from(given == 7);
                    if given != 0 && lent != before {
                        return Err(format!("a turn with {given:#x} changes bytes"));
                    }
                    running = given != 8;
                }
                1 => running = start(&plan, &mut lent, &mut run, tally)?,
                _ => {
                    let mut word = following_word(random, &mut lent);
                    if random.chance(3) {
                        word = bad_word(random, word);
                    }
                    let number;
                    (number, lent) = check_step(word, &lent, tally)?;
                    by_words += u64::from(number == 7);
                }
            }
            ledger.check(&lent)?;
        }
        sealed += ledger.sealed();
        Ok(())
    })?;
    let text = format!(
        "{cases}, {sealed} bytes sealed, {by_words} words and {by_turns} turns refused with 7; \
         ranges added {}, refused with 8 {}, with 16 {}",
        added[0], added[8], added[16]
    );
    let missing = [sealed as u64, by_words, by_turns, added[0], added[8], added[16]].contains(&0);
    if context.only_case.is_none() && missing {
        return Err(text);
    }
    Ok(text)
}

/// Starts a run, if it can be.
fn start(plan: &Plan, lent: &mut Lent, run: &mut [u8], tally: &mut Tally) -> Result<bool, String> {
    let before = lent.clone();
    let given = library_run_start(plan, lent, run);
    tally.run(Call::RunStart, plan.kind, given);
    match given {
        0 | 9 if *lent == before => Ok(given == 0),
        _ => Err(format!("{plan:?} gives {given}, or bytes change")),
    }
}

/// A range of a few bytes of a memory, or of none.
fn small_range(random: &mut Random, memory: usize) -> Seal {
    (random.below(memory as u64 + 1), random.below(12))
}
