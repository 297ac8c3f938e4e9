//! Lists of words on pairs.

use super::pairs::{any_pair, Met, Pair};
use crate::lent::{library_seal, library_step, Lent};
use crate::moves::reckoned::rows_of_moves;
use crate::random::Random;
use crate::states::words::{bad_word, lines_of};
use crate::steps::sequences::{following_word, word_of_row};
use crate::suite::{each_case, Context, Outcome};
use model::{decode, sew, Kind};

/// A word that mostly suits the state; moves and float products more often than others.
fn any_word(random: &mut Random, lent: &mut Lent) -> u32 {
    if random.chance(15) {
        let row = random.pick(&rows_of_moves());
        return word_of_row(random, row, lent);
    }
    let word = following_word(random, lent);
    if random.chance(5) {
        return bad_word(random, word);
    }
    if sew(lent.machine().mtype) == 32 && random.chance(10) {
        let registers = [("ms1", 3), ("ms2", 3), ("md", 2)];
        let operands = registers.map(|(field, count)| (field, random.below(count) as u32));
        return model::assemble("mfma.mm", &operands);
    }
    word
}

/// Words one after the other on both sides, by a step that is to be tested.
/// In some lists the scalars are set for each word, in others they are what the
/// words before left; now and then a range is added. How often each answer was given to
/// the words, to the float products, the moves out and the moves in among them, and to
/// the ranges.
pub fn word_list(
    random: &mut Random,
    pair: &mut Pair,
    step: fn(u32, &mut Lent) -> u64,
    [met, met_by_floats, met_by_moves_out, met_by_moves_in, met_by_ranges]: &mut [Met; 5],
) -> Result<(), String> {
    let set_scalars = random.chance(50);
    for _ in 0..75 {
        if random.chance(4) {
            let range = (random.below(1500), random.below(20));
            let name = format!("range {range:?} added");
            let number = pair.call(&name, |side| library_seal(range, &mut side.lent))?;
            met_by_ranges[number as usize] += 1;
        }
        let mut lent = pair.0[0].lent.clone();
        let word = any_word(random, &mut lent);
        if set_scalars {
            pair.change(|side| side.lent.scalars.clone_from(&lent.scalars));
        }
        pair.change(|side| side.lent.group = lent.group);
        let name = format!("word {word:#010x}: {}", model::describe(word));
        let result = pair.call(&name, |side| step(word, &mut side.lent))?;
        let number = (result & 0xFFFF) as usize;
        met[number] += 1;
        match decode(word).map(|found| found.row.kind) {
            Ok(Kind::FloatMultiply) => met_by_floats[number] += 1,
            Ok(Kind::MoveOut(_)) => met_by_moves_out[number] += 1,
            Ok(Kind::MoveIn(_)) => met_by_moves_in[number] += 1,
            _ => {}
        }
    }
    Ok(())
}

/// What a library would do that looks at no mark.
fn step_without_marks(word: u32, lent: &mut Lent) -> u64 {
    let marks = lent.marks.clone();
    lent.marks.fill(1);
    let result = library_step(word, lent);
    lent.marks = marks;
    result
}

/// What a library would do that looks at no mark in a move.
fn move_without_marks(word: u32, lent: &mut Lent) -> u64 {
    match decode(word) {
        Ok(found) if lines_of(found.row.kind).is_some() => step_without_marks(word, lent),
        _ => library_step(word, lent),
    }
}

/// Lists of words on pairs. In every tenth case a list is also given to a step
/// that looks at no mark, and one to a step that does so in moves alone: they have to be
/// found out, in most lists and in some.
pub fn power_up_words(context: &mut Context) -> Outcome {
    let count = 4_000 * context.scale;
    let mut all = [Met::default(); 5];
    let (mut lists, mut found_out) = (0, [0; 2]);
    let cases = each_case(context, "power-up words", count, |case, random, _| {
        let mut pair = any_pair(random)?;
        pair.check_comparison(random)?;
        word_list(random, &mut pair, library_step, &mut all)?;
        pair.check_comparison(random)?;
        if case % 10 == 0 {
            lists += 1;
            for (at, step) in [step_without_marks, move_without_marks].into_iter().enumerate() {
                let mut pair = any_pair(random)?;
                let outcome = word_list(random, &mut pair, step, &mut Default::default());
                found_out[at] += u64::from(outcome.is_err());
            }
        }
        Ok(())
    })?;
    let [met, met_by_floats, met_by_moves_out, met_by_moves_in, met_by_ranges] = all;
    // No state is at fault here, and 9, 14, 15 and 16 are no answers of a step.
    let missing: Vec<usize> = (0..met.len())
        .filter(|&number| met[number] == 0 && ![8, 9, 14, 15, 16, 17].contains(&number))
        .collect();
    let text = format!(
        "{cases}, {} words done, {} refused with 5, {} otherwise; of float products {} and {}, \
         of moves out {} and {}, {} moves in done, {} ranges added, {} ninths; without marks, and without them in moves, \
         {found_out:?} of {lists} lists found out",
        met[0],
        met[5],
        met.iter().sum::<u64>() - met[0] - met[5],
        met_by_floats[0],
        met_by_floats[5],
        met_by_moves_out[0],
        met_by_moves_out[5],
        met_by_moves_in[0],
        met_by_ranges[0],
        met_by_ranges[16],
    );
    let done = [met_by_floats[0], met_by_moves_out[0], met_by_moves_in[0], met_by_ranges[0]];
    let unwritten = [met_by_floats[5], met_by_moves_out[5]];
    let too_few = !missing.is_empty()
        || done.contains(&0)
        || unwritten.contains(&0)
        || met_by_ranges[16] == 0
        || 2 * found_out[0] < lists
        || 20 * found_out[1] < lists;
    if context.only_case.is_none() && too_few {
        return Err(format!("{text}; answers not met: {missing:?}"));
    }
    Ok(text)
}
