//! What every suite shares: the seed, the tally, and cases run one by one.

use crate::lent::{
    library_seal, library_step, machine_of, packed, report, second_seal, second_step, Lent,
};
use crate::random::Random;
use crate::tally::{Call, Tally};
use model::{Answer, Seal};

pub struct Context {
    pub seed: u64,
    /// Multiplies the number of random steps and runs.
    pub scale: u64,
    /// Run this case of each suite alone.
    pub only_case: Option<u64>,
    pub tally: Tally,
}

/// A summary, or a readable account of the first difference.
pub type Outcome = Result<String, String>;

pub type Suite = (&'static str, fn(&mut Context) -> Outcome);

/// Runs cases, each on a random stream of its own, up to the first difference.
pub fn each_case(
    context: &mut Context,
    suite: &str,
    count: u64,
    mut check: impl FnMut(u64, &mut Random, &mut Tally) -> Result<(), String>,
) -> Outcome {
    let cases = match context.only_case {
        Some(case) => case..case + 1,
        None => 0..count,
    };
    for case in cases {
        let mut random = Random::for_case(context.seed, suite, case);
        check(case, &mut random, &mut context.tally).map_err(|text| {
            format!("suite '{suite}', case {case}, seed {}\n{text}", context.seed)
        })?;
    }
    Ok(format!("{count} cases"))
}

/// One step on both programs; the answer's number and what it left.
pub fn check_step(word: u32, before: &Lent, tally: &mut Tally) -> Result<(u64, Lent), String> {
    check_answer(word, before, tally).map(|(answer, after)| (answer.number, after))
}

/// The same with the whole answer.
pub fn check_answer(word: u32, before: &Lent, tally: &mut Tally) -> Result<(Answer, Lent), String> {
    let mut library = before.clone();
    let given = library_step(word, &mut library);
    let mut second = before.clone();
    let answer = second_step(word, &mut second);
    if given != packed(answer) || library != second {
        return Err(format!(
            "word {word:#010x}: {}\n{}",
            model::describe(word),
            report(before, given, &library, packed(answer), &second)
        ));
    }
    tally.step(word, answer.number, machine_of(&before.machine));
    Ok((answer, second))
}

/// A range added on both programs; the answer's number and what it left.
pub fn check_seal(range: Seal, before: &Lent, tally: &mut Tally) -> Result<(u64, Lent), String> {
    let mut library = before.clone();
    let given = library_seal(range, &mut library);
    let mut second = before.clone();
    let number = second_seal(range, &mut second);
    if given != number || library != second {
        return Err(format!(
            "range {range:?} added\n{}",
            report(before, given, &library, number, &second)
        ));
    }
    tally.count(Call::Seal, number);
    Ok((number, second))
}
