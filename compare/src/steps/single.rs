//! Random words on random states, each alone.

use crate::states::cases::good_case;
use crate::states::faults::put_faults;
use crate::states::words::any_row;
use crate::suite::{check_step, each_case, Context, Outcome};

/// Random words on random states, most of them done.
pub fn random_steps(context: &mut Context) -> Outcome {
    faulty_steps(context, "random steps", 200_000, 8)
}

/// Several faults at once, so that the order of the answers shows.
pub fn several_faults(context: &mut Context) -> Outcome {
    faulty_steps(context, "several faults", 60_000, 30)
}

/// Good cases with faults put in, each with the given chance.
fn faulty_steps(context: &mut Context, suite: &str, count: u64, percent: u64) -> Outcome {
    let count = count * context.scale;
    each_case(context, suite, count, |_, random, tally| {
        let row = any_row(random);
        let mut case = good_case(random, row);
        put_faults(random, &mut case, percent);
        check_step(case.word, &case.lent, tally).map(|_| ())
    })
}
